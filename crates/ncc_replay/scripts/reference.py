#!/usr/bin/env python3
"""A second reading of the rules of scripts: reads a script, and writes the report that it has to have.

    ./reference.py run <SCRIPT          as `ncc_replay run`: the report, or what is said on standard error, and the status

It was written from the rules alone, apart from the program and before it, so that what both get wrong has to be got wrong twice. It is
slow and short: a member's store is run from a list of states, and who is answered next is searched among all connections. The rules are
those of the public PackStream 1 and Bolt 4.4 texts and of docs/SCRIPT.md, docs/SESSIONS.md and docs/CYPHER.md. Driver sessions are
in second/driver.py.

Left out: clusters that are not lists, logins (nobody is configured), ids that are spent, a log that is full, the places of what a
malformed message is ended for, want of memory, and the verbs and words that are not built yet.
"""
import re
import sys
from collections import namedtuple

sys.dont_write_bytecode = True
from second import driver  # noqa: E402
from second.statements import Fault, Parser, Step, Store, Syntax, entry_value, run, writes  # noqa: E402
from second.driver_bytes import pack  # noqa: E402
from second.values import (ANSWERS, DEPTH, HANDSHAKE, MAGIC, MESSAGE, REQUESTS, Malformed, bookmark,  # noqa: E402
                           chunked, covers, depth, encode, place_of, read_message)

U64 = 2 ** 64 - 1
LINE, EVENTS, SCRIPT = 2_200_000, 1_000_000, 268_435_456
ENTRY = 1_048_576
PUT = "MERGE (n:Pair {k: $k}) SET n.v = $v"
GET = "MATCH (n:Pair {k: $k}) RETURN n.v"


# Sessions.

CODES = {"late": ("TransientError.Transaction.BookmarkTimeout", "bookmark not reached"),
         "stale": ("TransientError.Transaction.Outdated", "rows have changed"),
         "elsewhere": ("ClientError.Cluster.NotALeader", "not the leader"),
         "missing": ("ClientError.Statement.ParameterMissing", "parameter missing"),
         "kind": ("ClientError.Statement.TypeError", "wrong kind"),
         "nullmerge": ("ClientError.Statement.TypeError", "merge on null"),
         "overflow": ("ClientError.Statement.ArithmeticError", "integer overflow"),
         "toolong": ("ClientError.Request.Invalid", "text or row too long"),
         "toomany": ("ClientError.Request.Invalid", "too many rows")}
INVALID = "ClientError.Request.Invalid"
ENDED = "ended"


class Failure(Exception):
    """A code and a message."""


class Result:
    """Rows that were told by the member, and not yet by the session."""

    def __init__(self, rows, statement):
        self.rows, self.open = rows, True
        self.type = ("rw" if statement.tail else "w") if writes(statement) else "r"


class Session:
    """A connection's server side: bytes in, bytes out, and a question to its member at a time."""

    def __init__(self, conn, cluster, members):
        self.conn, self.cluster, self.members = conn, cluster, members  # members: the addresses of cores, of replicas
        self.state, self.held, self.out, self.question, self.then = "shaking", b"", b"", None, None
        self.drop()

    def drop(self):
        """There is no transaction and no result."""
        self.steps, self.told, self.results, self.mode = [], [], [], "w"

    def say(self, name, *fields):
        self.out += chunked(name, fields, ANSWERS)

    def ask(self, question, then):
        self.question, self.then = question, then

    def tell(self, fact):
        """Answers the question that waits, and goes on."""
        then, self.question, self.then = self.then, None, None
        try:
            if fact[0] in CODES or fact[0] == "faulted":
                raise Failure(*CODES[fact[2] if fact[0] == "faulted" else fact[0]])
            then(fact)
        except Failure as failure:
            self.fail(failure)
        self.go_on()

    def fail(self, failure):
        code, message = failure.args
        self.say("FAILURE", {"code": "Neo." + code, "message": message})
        self.drop()
        self.state = "failed"

    def feed(self, piece):
        self.held += piece
        self.go_on()

    def go_on(self):
        """Handles what is held, until a question waits."""
        try:
            while self.question is None and self.state != ENDED and self.handle_next():
                pass
        except Malformed:
            self.state = ENDED

    def handle_next(self):
        """Handles the handshake or a message, where it is whole."""
        if self.state == "shaking":
            if len(self.held) >= 4 and self.held[:4] != MAGIC:
                self.state = ENDED
            elif len(self.held) >= 20:
                chosen = any(covers(self.held[at:at + 4]) for at in range(4, 20, 4))
                self.out += b"\x00\x00\x04\x04" if chosen else bytes(4)
                self.state, self.held = "connected" if chosen else ENDED, self.held[20:]
            return self.state != "shaking"
        message = self.next_message()
        if message is not None:
            try:
                self.handle(*read_message(message, REQUESTS))
            except Failure as failure:
                self.fail(failure)
        return message is not None

    def next_message(self):
        at, message = 0, b""
        while at + 2 <= len(self.held):
            size = int.from_bytes(self.held[at:at + 2], "big")
            at += 2
            if size == 0 and message:
                self.held = self.held[at:]
                return message
            if len(message) + size > MESSAGE:
                raise Malformed("a message too long")
            if at + size > len(self.held):
                return None
            message += self.held[at:at + size]
            at += size
        return None

    def handle(self, name, fields):
        """The table of states and requests."""
        act = getattr(self, f"{name}_in_{self.state}".lower(), None)
        if name == "GOODBYE":
            self.state = ENDED
        elif self.state == "connected" and name != "HELLO":
            self.fail(Failure(INVALID, "hello expected"))
            self.state = ENDED
        elif name == "RESET":
            self.drop()
            self.succeed({}, "ready")
        elif self.state == "failed":
            self.say("IGNORED")
        elif act is None:
            raise Failure(INVALID, "request out of place")
        else:
            act(*fields)

    def succeed(self, meta, state):
        self.say("SUCCESS", meta)
        self.state = state

    def hello_in_connected(self, _extra):
        self.succeed({"server": "Neo4j/4.4.0", "connection_id": f"bolt-{self.conn}"}, "ready")

    def entering(self, extra, bookmarks):
        """Checks what a RUN or BEGIN outside of a transaction, or a ROUTE, presents. Gives the place that is needed."""
        if bookmarks is None:
            bookmarks = []
        if not isinstance(bookmarks, list) or not all(isinstance(text, str) for text in bookmarks):
            raise Failure(INVALID, "bad bookmarks")
        if extra.get("db") not in (None, "neo4j"):
            raise Failure("ClientError.Database.DatabaseNotFound", "no such database")
        if extra.get("imp_user") is not None:
            raise Failure(INVALID, "impersonation is not supported")
        if len(bookmarks) > 256:
            raise Failure(INVALID, "too many bookmarks")
        places = [place_of(text, self.cluster) for text in bookmarks]
        if None in places:
            raise Failure("ClientError.Transaction.InvalidBookmark", "bad bookmark")
        return max(places, default=0)

    def mode_of(self, extra):
        mode = extra.get("mode")
        if mode is not None and mode != "r" and mode != "w":
            raise Failure(INVALID, "bad mode")
        return mode or "w"

    def step(self, query, params, mode):
        try:
            statement = Parser(query).statement()
        except Syntax as syntax:
            raise Failure("ClientError.Statement.SyntaxError", f"syntax error at {syntax.args[0]}") from None
        if mode == "r" and writes(statement):
            raise Failure("ClientError.Statement.AccessMode", "writing in a reading transaction")
        return Step(query, params, statement)

    def ask_run(self, step, state, number):
        """Asks for the rows of a further step. `number` says whether the answer has the number of the result."""
        def then(fact):
            self.told.append(fact[2])
            if sum(len(encode(row)) for rows in self.told for row in rows) > 16_777_216:
                raise Failure(INVALID, "transaction too large")
            self.results.append(Result(fact[2], step.statement))
            qid = {"qid": len(self.results) - 1} if number else {}
            self.succeed({"fields": step.statement.columns, "t_first": 0, **qid}, state)
        self.steps.append(step)
        self.ask(("run", self.steps), then)

    def ask_leave(self, then):
        """Asks to end the transaction. `then` takes its bookmark."""
        entry = entry_value(self.steps, self.told)
        if any(writes(step.statement) for step in self.steps) and (depth(entry) > DEPTH or len(encode(entry)) > ENTRY):
            raise Failure(INVALID, "transaction too large")

        def bookmarked(fact):
            self.drop()
            then(bookmark(self.cluster, fact[1]))
        self.ask(("leave", self.steps, self.told), bookmarked)

    def run_in_ready(self, query, params, extra):
        mode, need = self.mode_of(extra), self.entering(extra, extra.get("bookmarks"))
        step = self.step(query, params, mode)
        self.ask(("enter", need), lambda _: self.ask_run(step, "streaming", number=False))

    def begin_in_ready(self, extra):
        mode, need = self.mode_of(extra), self.entering(extra, extra.get("bookmarks"))

        def then(_fact):
            self.mode = mode
            self.succeed({}, "txready")
        self.ask(("enter", need), then)

    def route_in_ready(self, _routing, bookmarks, extra):
        self.entering(extra, bookmarks)

        def then(fact):
            cores, replicas = self.members
            others = [address for number, address in enumerate(cores, 1) if number != fact[1]] + replicas
            leader = cores[fact[1] - 1:fact[1]] if fact[1] else []
            table = [(leader, "WRITE"), (others or leader, "READ"), (cores, "ROUTE")]
            servers = [{"addresses": addresses, "role": role} for addresses, role in table if addresses]
            self.succeed({"rt": {"ttl": 300, "db": "neo4j", "servers": servers}}, "ready")
        self.ask(("route",), then)

    def run_in_txready(self, query, params, _extra):
        if len(self.steps) >= 1000:
            raise Failure(INVALID, "too many steps")
        self.ask_run(self.step(query, params, self.mode), "txstreaming", number=True)

    run_in_txstreaming = run_in_txready

    def commit_in_txready(self):
        self.ask_leave(lambda text: self.succeed({"bookmark": text}, "ready"))

    commit_in_txstreaming = commit_in_txready

    def rollback_in_txready(self):
        self.drop()
        self.succeed({}, "ready")

    rollback_in_txstreaming = rollback_in_txready

    def rows_out(self, extra, told):
        """Takes rows of a result, as RECORDs or not. Gives the result where it has ended, and None where rows are left."""
        count, number = extra.get("n"), extra.get("qid")
        count, number = -1 if count is None else count, -1 if number is None else number
        if type(count) is not int or count < 1 and count != -1 or type(number) is not int:
            raise Failure(INVALID, "bad pull")
        if number < -1 or number >= len(self.results) or not self.results[number].open:
            raise Failure(INVALID, "bad pull")
        result = self.results[number]
        taken = len(result.rows) if count == -1 else count
        for row in result.rows[:taken] if told else []:
            self.say("RECORD", row)
        result.rows = result.rows[taken:]
        if result.rows:
            self.say("SUCCESS", {"has_more": True})
            return None
        result.open = False
        return result

    def pull_in_streaming(self, extra, told=True):
        result = self.rows_out(extra, told)
        if result:
            end = {"type": result.type, "t_last": 0, "db": "neo4j"}
            self.ask_leave(lambda text: self.succeed({"bookmark": text, **end}, "ready"))

    def discard_in_streaming(self, extra):
        self.pull_in_streaming(extra, told=False)

    def pull_in_txstreaming(self, extra, told=True):
        result = self.rows_out(extra, told)
        if result:
            left = any(other.open for other in self.results)
            self.succeed({"type": result.type, "t_last": 0, "db": "neo4j"}, "txstreaming" if left else "txready")

    def discard_in_txstreaming(self, extra):
        self.pull_in_txstreaming(extra, told=False)


# The world: a cluster whose history is one list, and whose first core leads.

Item = namedtuple("Item", "steps told valid")


class Refused(Exception):
    """Why a line is refused."""


class Conn:
    """`opener` is the line that opened it: "open", "session" or "request". What was written to a request's is not printed."""

    def __init__(self, member, session, opener):
        self.member, self.session, self.opener = member, session, opener
        self.deadline, self.place = None, None  # of the question that waits, and of its entry


class Client:
    """A driver's session, and its link where there is one."""

    def __init__(self, session):
        self.session, self.until = session, None  # until: the moment at which its Sleep ends
        self.conn, self.up, self.whole, self.down, self.shaken = None, b"", False, 0, False

    def link(self, conn):
        """`up` waits to go up, `whole` says that a request ends with it, and of `conn` so many bytes have come down."""
        self.conn, self.up, self.whole, self.down, self.shaken = conn, b"", False, 0, False


class World:
    def __init__(self, cores, replicas, cluster, wait):
        self.cores, self.cluster, self.wait, self.now = cores, cluster, wait, 0
        self.at = {number: 0 for number in range(1, cores + replicas + 1)}
        addresses = [f"n{number}:7687" for number in self.at]
        self.addresses = addresses[:cores], addresses[cores:]
        self.members_by_address = {address: number for number, address in enumerate(addresses, 1)}
        self.history, self.states = [], [Store(0, {})]
        self.conns, self.told, self.clients, self.works, self.line = {}, [], {}, [], 0

    def event(self, line, verb, words):
        """Checks what depends on the run, moves it, and answers what can be answered."""
        self.line = line
        getattr(self, "do_" + verb)(*words)
        self.settle()

    def settle(self):
        while any(self.turn(number, conn) for number, conn in self.conns.items()):
            pass

    def known(self, member):
        if member not in self.at:
            raise Refused("no such member")

    def do_time(self, moment):
        if moment < self.now:
            raise Refused("time goes back")
        self.now = moment
        for number, client in self.clients.items():
            if client.until is not None and client.until <= moment:
                client.until = None
                self.give(number, "woken")

    def do_apply(self, member, count):
        self.known(member)
        if member == 1:
            raise Refused("wrong kind of member")
        self.at[member] = min(self.at[member] + count, len(self.history))

    def do_timeout(self, *words):
        """Over one list nothing happens that members over Raft do."""
        raise Refused("not in this world")

    do_beat = do_deliver = do_pull = do_crash = do_timeout

    def do_open(self, member, opener="open"):
        self.known(member)
        number = len(self.conns) + 1
        self.conns[number] = Conn(member, Session(number, self.cluster, self.addresses), opener)
        return self.conns[number].session

    def do_bytes(self, number, piece):
        if number not in self.conns or self.conns[number].opener != "open":
            raise Refused("no such connection")
        self.say(self.conns[number].session, piece)

    def do_close(self, number):
        self.do_bytes(number, b"")
        self.end(self.conns[number].session)

    def say(self, session, piece):
        if session.state != ENDED:
            session.feed(piece)

    def end(self, session):
        session.state, session.question = ENDED, None

    def request(self, member, query, params, bookmarks):
        """A client that says everything at once."""
        requests = [("HELLO", {}), ("RUN", query, params, {"bookmarks": bookmarks}), ("PULL", {"n": -1}), ("GOODBYE",)]
        said = b"".join(chunked(name, fields, REQUESTS) for name, *fields in requests)
        self.do_open(member, "request").feed(HANDSHAKE + said)

    def do_put(self, member, key, value, *bookmarks):
        self.request(member, PUT, {"k": key, "v": value}, list(bookmarks))

    def do_get(self, member, key, *bookmarks):
        self.request(member, GET, {"k": key}, list(bookmarks))

    # Driver sessions.

    def do_session(self, seed):
        self.clients[len(self.clients) + 1] = Client(driver.Session(self.addresses[0], seed))

    def client(self, number):
        if number not in self.clients:
            raise Refused("no such session")
        return self.clients[number]

    def do_work(self, number, job, *words):
        client = self.client(number)
        if client.session.running:
            raise Refused("work is running")
        client.session.begin(getattr(driver, job)(*words), self.now)
        self.make(number, client)

    def give(self, number, *given):
        """Gives a session an input, and makes its actions."""
        self.clients[number].session.on(self.now, *given)
        self.make(number, self.clients[number])

    def make(self, number, client):
        actions = client.session.actions
        while actions:
            name, *words = actions.pop(0)
            if name == "connect":
                client.link(self.do_open(self.members_by_address[words[0]], "session"))
                client.session.on(self.now, "connected")
            elif name == "send":
                assert not client.up  # each request waits for its answer
                client.up, client.whole, client.shaken = words[0], client.shaken, True
            elif name == "close":
                self.say(client.conn, client.up)
                self.end(client.conn)
                client.link(None)
            elif name == "sleep":
                client.until = words[0]
            elif name == "finish":
                self.works.append((self.line, number, words[0]))

    def do_up(self, number, count):
        """Whether a request became whole."""
        client = self.client(number)
        piece, client.up = client.up[:count], client.up[count:]
        if piece:
            self.say(client.conn, piece)
        return client.whole and bool(piece) and not client.up

    def do_down(self, number, count):
        client = self.client(number)
        piece = client.conn.out[client.down:client.down + count] if client.conn else b""
        client.down += len(piece)
        if piece:
            self.give(number, "bytes", piece)

    def do_pump(self, number, requests=None):
        client = self.client(number)
        while client.conn and (client.up or client.down < len(client.conn.out)):
            if client.up:
                whole = self.do_up(number, U64)
                self.settle()
                requests = requests and requests - whole
                if requests == 0:
                    return
            self.do_down(number, U64)

    def do_cut(self, number):
        client = self.client(number)
        if client.conn:
            self.end(client.conn)
            client.link(None)
            self.give(number, "lost")

    def turn(self, number, conn):
        """Answers a connection, or proposes its entry, where that can be done now."""
        question = conn.session.question
        if question is None:
            return False
        if conn.deadline is None:
            conn.deadline = min(self.now + self.wait, U64)
        fact = getattr(self, "answer_" + question[0])(conn, *question[1:])
        if isinstance(fact, tuple):
            self.told.append((self.line, number, fact))
            conn.deadline, conn.place = None, None
            conn.session.tell(fact)
        return fact is not None

    def answer_enter(self, conn, need):
        at = self.at[conn.member]
        if at >= need:
            return "entered", at
        return ("late", need, at, self.now) if self.now > conn.deadline else None

    def answer_run(self, conn, steps):
        if writes(steps[-1].statement) and conn.member != 1:
            return ("elsewhere",)
        at = self.at[conn.member]
        try:
            return "rows", at, run(self.states[at], steps)[0][-1]
        except Fault as fault:
            return "faulted", at, fault.args[0]

    def answer_leave(self, conn, steps, told):
        if not any(writes(step.statement) for step in steps):
            return "done", self.at[conn.member]
        if conn.member != 1:
            return ("elsewhere",)
        if conn.place is None:
            self.propose(steps, told)
            conn.place = len(self.history)
            return "proposed"  # which is no answer
        return "placed" if self.history[conn.place - 1].valid else "stale", conn.place

    def propose(self, steps, told):
        try:
            rows, store = run(self.states[-1], steps)
        except Fault:
            rows, store = None, None
        # The spelling tells true from 1, where Python's equality does not.
        valid = rows is not None and encode(rows) == encode(told)
        self.history.append(Item(list(steps), told, valid))
        self.states.append(store if valid else self.states[-1])
        self.at[1] = len(self.history)

    def answer_route(self, conn):
        return "routed", 1 if conn.member <= self.cores else 0


# The report.

WORD = re.compile(r"[A-Za-z0-9_-]{1,64}")


def is_word(value):
    return isinstance(value, str) and WORD.fullmatch(value) is not None


def fact_text(fact):
    return f"rows {fact[1]} {rows_text(fact[2], encode)}" if fact[0] == "rows" else " ".join(map(str, fact))


def rows_text(rows, spell):
    if not rows:
        return "none"
    if len(rows) == 1 and len(rows[0]) == 1 and is_word(rows[0][0]):
        return f"word {rows[0][0]}"
    return f"hex {spell(rows).hex()}"


def work_text(outcome):
    if outcome[0] != "ok":
        return " ".join(map(str, outcome))
    _, attempts, place, _, rows = outcome
    return f"ok {attempts} {'-' if place is None else place} {rows_text(rows, pack)}"


def entry_text(item):
    if len(item.steps) == 1 and item.steps[0].source == PUT:
        params = item.steps[0].params
        if list(params) == ["k", "v"] and all(map(is_word, params.values())):
            return f"put {params['k']} {params['v']}"
    return "tx " + encode(entry_value(item.steps, item.told)).hex()


def report(world):
    lines = ["ncc-report 1"]
    if world:
        lines += [f"fact {line} {conn} {fact_text(fact)}" for line, conn, fact in world.told]
        lines += [f"work {line} {session} {work_text(outcome)}" for line, session, outcome in world.works]
        for number, conn in world.conns.items():
            state = "waiting" if conn.session.question else ENDED if conn.session.state == ENDED else "idle"
            lines.append(f"conn {number} {conn.member} {state}")
        lines += [f"out {number} {conn.session.out.hex() or '-'}" for number, conn in world.conns.items() if conn.opener != "request"]
        for number, at in world.at.items():
            role = "leader 1" if number == 1 else "follower 1" if number <= world.cores else "replica 0"
            lines.append(f"member {number} {role} {at}")
    history = world.history if world else []
    lines.append(f"history {len(history)}")
    for place, item in enumerate(history, 1):
        lines.append(f"place {place} 1 {entry_text(item)} {'valid' if item.valid else 'stale'}")
    return "".join(line + "\n" for line in lines + ["end"])


# Scripts.

# What stands behind a verb, a letter for each word; `*` is for bookmarks.
FORMS = {"time": ["N"], "put": ["MWW*"], "get": ["MW*"], "apply": ["MP"], "timeout": ["M"], "beat": ["M"], "deliver": ["N"],
         "pull": ["MM"], "crash": ["M"], "open": ["M"], "bytes": ["NH"], "close": ["N"],
         "session": ["N"], "work": ["NaWI", "NpWW", "NgW"], "up": ["NN"], "down": ["NN"], "pump": ["N", "NP"], "cut": ["N"]}
RANGES = {"N": (0, U64), "P": (1, U64), "M": (0, 255), "I": (-2 ** 63, 2 ** 63 - 1)}
JOBS = {"a": b"add", "p": b"put", "g": b"get"}


def number_of(word, least=0, greatest=U64):
    if not re.fullmatch(rb"0|-?[1-9][0-9]{0,19}", word) or not least <= int(word) <= greatest:
        raise Refused("bad line")
    return int(word)


def word_of(kind, word):
    """What a word of an event stands for, by its letter in FORMS."""
    if kind in RANGES:
        return number_of(word, *RANGES[kind])
    if kind == "W" and is_word(word.decode()) or JOBS.get(kind) == word:
        return word.decode()
    if kind == "H" and re.fullmatch(rb"(?:[0-9a-f]{2}){1,1048576}", word):
        return bytes.fromhex(word.decode())
    raise Refused("bad line")


def words_of(line):
    """The words of a line, which are ASCII with one space between two of them."""
    words = line.split(b" ")
    if b"" in words or not line.isascii():
        raise Refused("bad line")
    return words


def event_of(line, cluster):
    """The verb and the words of an event."""
    verb = line.split(b" ")[0].decode(errors="replace")
    if verb != "cluster" and verb not in FORMS:
        raise Refused("unknown verb")
    if verb == "cluster":
        raise Refused("bad line")
    words, refused = words_of(line)[1:], "bad line"
    for form in FORMS[verb]:
        fixed = form.rstrip("*")
        if len(words) == len(fixed) or len(words) > len(fixed) != len(form):
            try:
                read = [word_of(kind, word) for kind, word in zip(fixed, words)]
            except Refused:
                continue
            bookmarks = [word.decode() for word in words[len(fixed):]]
            if None not in [place_of(text, cluster) for text in bookmarks]:
                return verb, read + bookmarks
            refused = "bad bookmark"
    raise Refused(refused)


def world_of(line):
    """The world of a `cluster` line."""
    if line.split(b" ")[0] != b"cluster":
        raise Refused("cluster expected")
    words = words_of(line)[1:]
    if len(words) != 5 or words[0] != b"list":
        raise Refused("bad line")
    ranges = [(1, 7), (0, 16), (0, U64), (0, 86_400_000)]
    return World(*(number_of(word, *limits) for word, limits in zip(words[1:], ranges)))


def replay(script):
    """The status, the report, and what is said."""
    if len(script) > SCRIPT:
        return 6, "", "limit: script"
    lines = script.split(b"\n")
    header, world, events = False, None, 0
    for number, line in enumerate(lines[:-1] if not lines[-1] else lines, 1):
        if len(line) > LINE:
            return 6, "", "limit: line"
        if not line or line.startswith(b"#"):
            continue
        try:
            if not header:
                if line != b"ncc-script 1":
                    raise Refused("header expected")
                header = True
            elif not world:
                world = world_of(line)
            else:
                verb, words = event_of(line, world.cluster)
                events += 1
                world.event(number, verb, words)
        except Refused as refused:
            return 3, "", f"line {number}: {refused}"
        if events > EVENTS:
            return 6, "", "limit: events"
    return 0, report(world), ""


def main():
    if sys.argv[1:] != ["run"]:
        status, told, said = 2, "", "usage: run | generate SEED EVENTS"
    else:
        try:
            status, told, said = replay(sys.stdin.buffer.read(SCRIPT + 1))
        except OSError:
            status, told, said = 4, "", "read fault"
    try:
        if told:
            sys.stdout.buffer.write(told.encode())
            sys.stdout.buffer.flush()
    except OSError:
        status, said = 5, "write fault"
        sys.stdout = None
    if said:
        print(f"ncc_replay: {said}", file=sys.stderr)
    return status


if __name__ == "__main__":
    sys.exit(main())
