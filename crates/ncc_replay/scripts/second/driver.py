"""A driver's session with retried functions, read a second time (see reference.py).

It was written from the rules alone and apart from the program. What it sends and reads it spells by itself (second/driver_bytes.py), so
that it does not lean on the member's side here. A session is run by generators: each waits for an input, and what it does is put into
`actions`, in order:

    ("connect", ADDRESS)    ("send", BYTES)    ("receive",)    ("close",)    ("sleep", MOMENT)    ("finish", OUTCOME)

Inputs are ("connected",), ("bytes", BYTES), ("lost",) and ("woken",); Start is the beginning itself. An outcome is
("ok", ATTEMPTS, PLACE, BOOKMARK, ROWS), ("spent", ATTEMPTS, LAST), ("refused", ATTEMPTS, CODE) or ("badreply", MESSAGE).
"""
from collections import namedtuple

from second.driver_bytes import BadMessage, Stream, depth, message, place_in

U32, U64 = 2 ** 32 - 1, 2 ** 64 - 1
PATIENCE, FIRST_DELAY, LONGEST_DELAY = 30_000, 1_000, 30_000
PUT = "MERGE (n:Pair {k: $k}) SET n.v = $v"
GET = "MATCH (n:Pair {k: $k}) RETURN n.v"
TAKE = "MERGE (n:Counter {k: $k}) RETURN n.v"
RAISE = "MATCH (n:Counter {k: $k}) SET n.v = $old + $d RETURN n.v"
MOVED = "Neo.ClientError.Cluster.NotALeader"


# Words. PCG XSH RR 64/32 of M. O'Neill's paper, and how a number is made its seed.

def rotated(word, by):
    return (word >> by | word << 32 - by) & U32


def output(state):
    """The word of a state: its high bits folded, then rotated by the highest five."""
    return rotated((state >> 45 ^ state >> 27) & U32, state >> 59)


class Words:
    """The words of a seed, in order."""

    FACTOR, SEEDING = 0x5851F42D4C957F2D, 0xA17654E46FBE17F3

    def __init__(self, seed):
        spelled, state = b"", seed
        for _ in range(4):
            state = (state * self.FACTOR + self.SEEDING) & U64
            spelled += output(state).to_bytes(4, "little")
        self.start(int.from_bytes(spelled[:8], "little"), int.from_bytes(spelled[8:], "little") | 1)

    def start(self, state, increment):
        self.state, self.increment = (state + increment) & U64, increment
        self.next()

    def next(self):
        word = output(self.state)
        self.state = (self.state * self.FACTOR + self.increment) & U64
        return word


# Works. The generator of a work gives a statement with its parameters, and is sent the rows.

Work = namedtuple("Work", "writes steps")


def add(key, by):
    def steps():
        rows = yield TAKE, {"k": key}
        old = rows[0][0] if rows and rows[0] else None
        yield RAISE, {"k": key, "old": 0 if old is None else old, "d": by}
    return Work(True, steps)


def put(key, value):
    return Work(True, lambda: iter_of((PUT, {"k": key, "v": value})))


def get(key):
    return Work(False, lambda: iter_of((GET, {"k": key})))


def iter_of(step):
    """A generator of one step."""
    yield step


# Routing tables.

class Table:
    def __init__(self, got, answer):
        """`answer` is what ROUTE is answered; ValueError where it is no table."""
        table = answer.get("rt")
        ttl = table.get("ttl") if isinstance(table, dict) else None
        if type(ttl) is not int or ttl < 0 or not isinstance(table.get("servers"), list):
            raise ValueError
        self.got, self.ttl = got, min(ttl * 1000, U64)
        self.of = {"WRITE": [], "READ": [], "ROUTE": []}
        for server in table["servers"]:
            self.take(server)

    def take(self, server):
        if not isinstance(server, dict) or not isinstance(server.get("role"), str) or not isinstance(server.get("addresses"), list):
            raise ValueError
        if not all(isinstance(address, str) for address in server["addresses"]):
            raise ValueError
        self.of.get(server["role"], []).extend(server["addresses"])

    def fresh(self, now):
        return now < min(self.got + self.ttl, U64)


# Sessions.

class Lost(Exception):
    """The link is lost."""


class NoServer(Exception):
    """The table has nobody of the role."""


class Told(Exception):
    """A FAILURE, with its code."""


class BadReply(Exception):
    """The number of a message that is no answer."""


class Session:
    def __init__(self, routers, seed, bookmarks=(), login=()):
        self.routers, self.login, self.bookmarks = list(routers), dict(login), list(bookmarks)
        self.words, self.table, self.known, self.asked = Words(seed), None, [], 0
        self.stream = None  # of the link that is there
        self.actions, self.wanted, self.running, self.now = [], (), None, 0

    # What is called from outside.

    def begin(self, work, now):
        assert self.running is None
        self.now, self.running = now, self.run(work, now)
        self.go(None)

    def on(self, now, kind, *data):
        """Takes an input. One that is not waited for changes nothing."""
        if kind in self.wanted:
            self.now = now
            self.go((kind, *data))

    def go(self, given):
        try:
            self.wanted = self.running.send(given)
        except StopIteration:
            self.wanted, self.running = (), None

    # One work.

    def run(self, work, start):
        """Attempts, with sleeps between them, and the end."""
        attempts, delay = 1, FIRST_DELAY
        while True:
            last = yield from self.tried(work, attempts)
            if last is None:
                return
            if self.now - start >= PATIENCE:
                self.act("finish", ("spent", attempts, last))
                return
            self.act("sleep", min(self.now + delay * (800 + self.words.next() % 401) // 1000, U64))
            yield ("woken",)
            attempts, delay = attempts + 1, min(2 * delay, LONGEST_DELAY)

    def tried(self, work, attempts):
        """Makes an attempt. Gives why it failed where it can be tried again, and None where the work has ended."""
        try:
            outcome, bookmark = yield from self.attempt(work, attempts)
            self.bookmarks = [bookmark]
        except Told as told:
            code, = told.args
            if code == MOVED:
                self.table = None
            if code == MOVED or code.startswith("Neo.TransientError."):
                self.close()
                return code
            outcome = "refused", attempts, code
        except BadReply as bad:
            outcome = "badreply", bad.args[0]
        except (Lost, NoServer) as cause:
            self.stream = self.table = None
            return "lost" if isinstance(cause, Lost) else "noserver"
        self.close()
        self.act("finish", outcome)
        return None

    def attempt(self, work, attempts):
        if self.table is None or not self.table.fresh(self.now):
            yield from self.route()
        word, servers = self.words.next(), self.table.of["WRITE" if work.writes else "READ"]
        if not servers:
            raise NoServer
        yield from self.greet(servers[word % len(servers)])
        yield from self.ask("BEGIN", {"bookmarks": self.bookmarks, "mode": "w" if work.writes else "r"})
        steps, rows = work.steps(), []
        step = next(steps)
        while step is not None:
            yield from self.ask("RUN", *step, {})
            rows = yield from self.ask("PULL", {"n": -1})
            try:
                step = steps.send(rows)
            except StopIteration:
                step = None
        bookmark = (yield from self.ask("COMMIT"))["bookmark"]
        return ("ok", attempts, place_in(bookmark), bookmark, rows), bookmark

    def route(self):
        """Gets a table."""
        routers = self.known or self.routers
        address = routers[self.asked % len(routers)]
        self.asked += 1
        yield from self.greet(address)
        answer = yield from self.ask("ROUTE", {"address": address}, [], {})
        self.table = Table(self.now, answer)
        self.known = self.table.of["ROUTE"]
        self.close()

    # One link.

    def act(self, *action):
        self.actions.append(action)

    def close(self):
        """Closes the link that is there, if any."""
        if self.stream:
            self.act("send", message("GOODBYE"))
            self.act("close")
            self.stream = None

    def wait(self, *kinds):
        given = yield (*kinds, "lost")
        if given[0] == "lost":
            raise Lost
        return given[1:]

    def greet(self, address):
        """A link, its handshake and HELLO."""
        self.act("connect", address)
        yield from self.wait("connected")
        self.stream = Stream()
        self.act("send", b"\x60\x60\xB0\x17\x00\x00\x04\x04" + bytes(12))
        yield from self.read(lambda: self.stream.taken(4))
        if self.stream.shaken != b"\x00\x00\x04\x04":
            raise BadReply(0)
        yield from self.ask("HELLO", {"user_agent": "ncc/1", **self.login, "routing": {"address": address}})

    def read(self, take):
        """Receives until there is what `take` gives."""
        self.act("receive")
        found = take()
        while found is None:
            piece, = yield from self.wait("bytes")
            self.stream.add(piece)
            found = take()
            if found is None:
                self.act("receive")
        return found

    def ask(self, name, *fields):
        """Sends a request. Gives the answer's metadata, or the rows of a PULL."""
        self.act("send", message(name, *fields))
        rows = []
        return (yield from self.read(lambda: self.answer(name, rows)))

    def answer(self, name, rows):
        """What the request is answered by the messages that have come, or None."""
        while True:
            number = self.stream.number
            try:
                came = self.stream.message()
            except BadMessage:
                raise BadReply(number) from None
            if came is None:
                return None
            kind, fields = came
            if kind == "RECORD" and name == "PULL" and depth(fields[0]) < 32 and len(rows) < 16_777_216:
                rows.append(fields[0])
            elif kind == "FAILURE" and isinstance(fields[0].get("code"), str):
                raise Told(fields[0]["code"])
            elif kind == "SUCCESS" and self.right(name, fields[0]):
                return rows if name == "PULL" else fields[0]
            else:
                raise BadReply(number)

    def right(self, name, meta):
        """Whether a SUCCESS is of the request."""
        if name == "ROUTE":
            try:
                Table(self.now, meta)
            except ValueError:
                return False
        if name == "PULL":
            return meta.get("has_more") is not True
        return name != "COMMIT" or isinstance(meta.get("bookmark"), str)
