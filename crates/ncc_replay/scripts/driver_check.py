#!/usr/bin/env python3
"""Tries the driver of the second reading (second/driver.py) by itself: its words, and what it does with answers that no member gives.

    ./driver_check.py           prints what does not hold, and how much holds

A case is a list of what a server does, a step for each wait of the session: the messages or bytes that it answers, or an input by name.
What comes of it is the list of the session's actions in short, as `shown` has them.
"""
import sys

sys.dont_write_bytecode = True
from second import driver  # noqa: E402
from second.driver_bytes import Struct, pack  # noqa: E402

TAGS = {"SUCCESS": 0x70, "RECORD": 0x71, "IGNORED": 0x7E, "FAILURE": 0x7F}
SENT = {0x01: "HELLO", 0x02: "GOODBYE", 0x10: "RUN", 0x11: "BEGIN", 0x12: "COMMIT", 0x3F: "PULL", 0x66: "ROUTE"}
SHAKEN = b"\x00\x00\x04\x04"
held, wrong = 0, 0


def answer(name, *fields, chunk=8192):
    """A message of a server, in chunks."""
    left, out = bytes([0xB0 + len(fields), TAGS[name]]) + b"".join(map(pack, fields)), b""
    while left:
        out += min(chunk, len(left)).to_bytes(2, "big") + left[:chunk]
        left = left[chunk:]
    return out + b"\x00\x00"


def success(**meta):
    return answer("SUCCESS", meta)


def failure(code):
    return answer("FAILURE", {"code": code, "message": "m"})


def table(ttl=300, write=("w:1",), read=("r:1", "r:2"), route=("a:1", "b:1"), **more):
    roles = [("WRITE", write), ("READ", read), ("ROUTE", route)]
    servers = [{"addresses": list(addresses), "role": role} for role, addresses in roles if addresses]
    return success(rt={"ttl": ttl, "db": "neo4j", "servers": servers, **more})


def shown(action):
    """An action in a word or two. Receives are left out."""
    name, *words = action
    if name == "send":
        return "handshake" if words[0][:4] == b"\x60\x60\xB0\x17" else SENT[words[0][3]]
    return None if name == "receive" else " ".join(map(str, [name, *words]))


def session(**how):
    return driver.Session(how.pop("routers", ["a:1"]), how.pop("seed", 7), how.pop("bookmarks", ()), how.pop("login", ()))


def actions(made, work, steps, start=0, size=None):
    """What a session does in a work, given these steps, whose bytes come in pieces of this size."""
    now = start
    made.begin(work, now)
    for step in steps:
        if isinstance(step, int):
            now = step
        elif isinstance(step, str):
            made.on(now, step)
        else:
            for at in range(0, len(step), size or len(step) or 1):
                made.on(now, "bytes", step[at:at + (size or len(step))])
    done, made.actions = made.actions, []
    return [word for word in map(shown, done) if word]


def holds(what, wanted, got):
    global held, wrong
    held, wrong = held + (wanted == got), wrong + (wanted != got)
    if wanted != got:
        print(f"{what}:\n  wanted: {wanted}\n  got:    {got}")


def ends(what, wanted, steps, work=None, size=None, **how):
    """Compares the last action of a session."""
    got = actions(session(**how), work or driver.get("a"), steps, size=size)
    holds(what, wanted, got[-1])
    return got


GREETED = ["connected", SHAKEN, success(server="Neo4j/4.4.12", connection_id="bolt-61", hints={"telemetry.enabled": False})]
ROUTED = [*GREETED, table(), *GREETED]
BEGUN = [*ROUTED, success()]
RAN = [*BEGUN, success(t_first=2, fields=["n.v"], qid=0)]
ONE = answer("RECORD", ["x"])
PULLED = [*RAN, ONE + success(type="r", t_last=0, db="neo4j", stats={"nodes-created": 1, "contains-updates": True})]


def words():
    """The public generator's own words, and that of a number's seed."""
    made = driver.Words(0)
    made.start(42, 54 << 1 | 1)
    first = [0xA15C02B7, 0x7B47F409, 0xBA1D3330, 0x83D2F293, 0xBFA4784B, 0xCBED606E]
    holds("the reference generator", first, [made.next() for _ in first])
    made = driver.Words(0)
    holds("seed 0", 18195738587432868099, made.next() | made.next() << 32)
    made = driver.Words(7)
    holds("seed 7", [0xE9, 0xBE], [made.next() & 255, made.next() & 255])


def whole_work():
    """What a server of Neo4j 4.4 answers, in pieces of any size, with no-ops between."""
    router = ["connect a:1", "handshake", "HELLO", "ROUTE", "GOODBYE", "close"]
    wanted = [*router, "connect r:2", "handshake", "HELLO", "BEGIN", "RUN", "PULL", "COMMIT", "GOODBYE", "close"]
    for size in (None, 1, 2, 3, 7, 100):
        for noop in (b"", b"\x00\x00", b"\x00\x00" * 3):
            steps = [step if isinstance(step, str) or step == SHAKEN else noop + step for step in PULLED]
            got = actions(session(), driver.get("a"), [*steps, noop + success(bookmark="FB:kcwQ")], size=size)
            holds(f"a whole get in pieces of {size}", [*wanted, "finish ('ok', 1, None, 'FB:kcwQ', [['x']])"], got)
    long = answer("RECORD", ["x" * 100_000])
    got = ends("a long record", "finish ('ok', 1, 3, 'ncc:AQAAAAAAAAABAAAAAAAAAAMA', [['" + "x" * 100_000 + "']])",
               [*RAN, long + success(), success(bookmark="ncc:AQAAAAAAAAABAAAAAAAAAAMA")], size=8192)
    holds("its request", "COMMIT", got[-4])


SAID = ["connected", SHAKEN]


def framed(message):
    """The bytes of a message in one chunk."""
    return len(message).to_bytes(2, "big") + message + b"\x00\x00"


def server(**meta):
    """A table of one server, as ROUTE is answered."""
    return success(rt={"ttl": 1, "servers": [meta]})


BAD = [("another version", 0, ["connected", b"\x00\x00\x00\x04"]),
       ("no version", 0, ["connected", bytes(4)]),
       ("HTTP", 0, ["connected", b"HTTP/1.1"]),
       ("a RECORD for HELLO", 0, [*SAID, ONE]),
       ("IGNORED", 0, [*SAID, answer("IGNORED")]),
       ("a marker", 0, [*SAID, framed(b"\x00")]),
       ("a tag", 0, [*SAID, framed(b"\xB1\x55\xA0")]),
       ("a request", 0, [*SAID, framed(b"\xB0\x0F")]),
       ("a rest", 0, [*SAID, framed(b"\xB1\x70\xA0\x00")]),
       ("a float", 0, [*SAID, framed(b"\xB1\x70\xC1" + bytes(8))]),
       ("no field", 0, [*SAID, framed(b"\xB0\x70")]),
       ("a list", 0, [*SAID, framed(b"\xB1\x70\x90")]),
       ("no tag", 0, [*SAID, framed(b"\xB1")]),
       ("a key twice", 0, [*SAID, framed(b"\xB1\x70\xA2\x81a\x01\x81a\x02")]),
       ("a message too long", 0, [*SAID, (b"\xFF\xFF" + bytes(65535)) * 16 + b"\x00\x11"]),
       ("no rt", 1, [*GREETED, success()]),
       ("a list of tables", 1, [*GREETED, success(rt=[])]),
       ("a ttl below 0", 1, [*GREETED, table(ttl=-1)]),
       ("a ttl that is true", 1, [*GREETED, table(ttl=True)]),
       ("no ttl", 1, [*GREETED, success(rt={"servers": []})]),
       ("no servers", 1, [*GREETED, success(rt={"ttl": 1})]),
       ("a server that is none", 1, [*GREETED, success(rt={"ttl": 1, "servers": [1]})]),
       ("a role that is none", 1, [*GREETED, server(addresses=[], role=1)]),
       ("no role", 1, [*GREETED, server(addresses=[])]),
       ("an address that is none", 1, [*GREETED, server(addresses=[1], role="READ")]),
       ("an address that is none, of a role that counts for nothing", 1, [*GREETED, server(addresses=[1], role="x")]),
       ("a code that is none", 1, [*GREETED, answer("FAILURE", {"code": 1})]),
       ("no code", 1, [*ROUTED, answer("FAILURE", {})]),
       ("has_more", 4, [*RAN, ONE + success(has_more=True)]),
       ("IGNORED behind two records", 5, [*RAN, ONE + ONE + answer("IGNORED")]),
       ("no bookmark", 5, [*PULLED, success()]),
       ("a bookmark that is none", 5, [*PULLED, success(bookmark=1)]),
       ("a record for COMMIT", 5, [*PULLED, ONE])]


def bad_replies():
    """What is no answer, with the number of the message on its link."""
    for what, number, steps in BAD:
        got = ends(what, f"finish ('badreply', {number})", steps)
        holds(what + ", its end", ["GOODBYE", "close"], got[-3:-1])
        ends(what + ", byte by byte", f"finish ('badreply', {number})", steps, size=1)
    node = answer("RECORD", [Struct([0, ["A"], {"k": 1}])])
    ends("a node in a record", "COMMIT", [*RAN, node + success(has_more=False)])
    ends("31 lists in a record", "COMMIT", [*RAN, answer("RECORD", nested(30)) + success(has_more=1)])
    ends("32 lists in a record", "finish ('badreply', 3)", [*RAN, answer("RECORD", nested(31)) + success()])


def nested(depth):
    """A list with so many lists inside, one in the other."""
    found = []
    for _ in range(depth):
        found = [found]
    return found


LATE = "Neo.TransientError.Transaction.BookmarkTimeout"
# By the first word of seed 7, and by its second where the first picked a server.
FIRST, SECOND = "sleep 1005", "sleep 828"
FAILED = [("lost at once", FIRST, ["lost"]),
          ("lost behind Connect", FIRST, ["connected", "lost"]),
          ("late at HELLO", FIRST, [*SAID, failure(LATE)]),
          ("late at ROUTE", FIRST, [*GREETED, failure(LATE)]),
          ("not the leader at ROUTE", FIRST, [*GREETED, failure(driver.MOVED)]),
          ("refused at HELLO", "finish ('refused', 1, 'Neo.ClientError.a')", [*SAID, failure("Neo.ClientError.a")]),
          ("another class", "finish ('refused', 1, 'xNeo.TransientError.a')", [*ROUTED, failure("xNeo.TransientError.a")]),
          ("another code", f"finish ('refused', 1, '{driver.MOVED}s')", [*ROUTED, failure(driver.MOVED + "s")]),
          ("any code of the class", SECOND, [*ROUTED, failure("Neo.TransientError.")]),
          ("lost behind COMMIT", SECOND, [*PULLED, "lost"]),
          ("late behind a RECORD", SECOND, [*RAN, ONE + failure(LATE)]),
          ("no server", SECOND, [*GREETED, table(read=())]),
          ("spent", f"finish ('spent', 1, '{LATE}')", [*ROUTED, 30_000, failure(LATE)]),
          ("not yet spent", "sleep 30827", [*ROUTED, 29_999, failure(LATE)])]


def failures():
    """Codes, lost links and tables without a server."""
    for what, last, steps in FAILED:
        ends(what, last, steps)
    ends("no writer", "finish ('spent', 1, 'noserver')", [*GREETED, 40_000, table(write=())], driver.put("a", "x"))
    # The table stays where a reader is late, and goes where its member does not lead; then the routers of the last table are asked.
    again = [2000, "woken"]
    ends("late", "connect r:1", [*ROUTED, failure(LATE), *again], seed=6)
    ends("not the leader", "connect b:1", [*ROUTED, failure(driver.MOVED), *again], seed=6)
    ends("a table without routers", "connect a:1", [*GREETED, table(route=(), read=()), *again])
    ends("a third router", "connect a:1", [*GREETED, table(read=()), *again, "lost", 9000, "woken"])
    ends("a ttl of 0 serves its attempt", "connect b:1", [*GREETED, table(ttl=0), *GREETED, failure(LATE), *again])
    ends("the greatest ttl", "connect r:1", [*GREETED, table(ttl=2 ** 63 - 1), *GREETED, failure(LATE), *again], seed=6)


def unwaited():
    """Inputs that are not waited for change nothing; bytes behind an answer are kept."""
    made = session()
    first = actions(made, driver.get("a"), ["woken", b"xxxx", "connected", "connected", "woken"])
    holds("inputs that are not waited for", ["connect a:1", "handshake"], first)
    ends("bytes that come too early", "BEGIN", [*GREETED, table(), "connected", SHAKEN + success()])
    ends("nothing in the bytes", "HELLO", ["connected", SHAKEN, b"", b""])
    got = actions(session(login={"scheme": "basic", "principal": "u", "credentials": "p"}), driver.get("a"), ["connected"])
    holds("a login changes no action", ["connect a:1", "handshake"], got)
    made = session(login={"scheme": "basic", "principal": "u", "credentials": "p"}, bookmarks=["given"])
    made.begin(driver.put("a", "x"), 0)
    for step in [*GREETED, table(), *GREETED]:
        made.on(0, step) if isinstance(step, str) else made.on(0, "bytes", step)
    sent = [action[1] for action in made.actions if action[0] == "send"]
    hello = {"user_agent": "ncc/1", "scheme": "basic", "principal": "u", "credentials": "p", "routing": {"address": "a:1"}}
    holds("HELLO", b"\xB1\x01" + pack(hello), sent[1][2:-2])
    holds("ROUTE", b"\xB3\x66" + pack({"address": "a:1"}) + pack([]) + pack({}), sent[2][2:-2])
    holds("BEGIN", b"\xB1\x11" + pack({"bookmarks": ["given"], "mode": "w"}), sent[-1][2:-2])
    made = session()
    made.begin(driver.get("a"), 0)
    for step in [*GREETED, table(), *GREETED]:
        made.on(0, step) if isinstance(step, str) else made.on(0, "bytes", step)
    holds("BEGIN of a read", b"\xB1\x11" + pack({"bookmarks": [], "mode": "r"}), made.actions[-2][1][2:-2])
    pairs = [(action[1], later[0]) for action, later in zip(made.actions, made.actions[1:]) if action[0] == "send"]
    wanted = [SENT.get(said[3]) != "GOODBYE" for said, _ in pairs]
    holds("a Receive behind each Send but GOODBYE", wanted, [later == "receive" for _, later in pairs])


def main():
    words()
    whole_work()
    bad_replies()
    failures()
    unwaited()
    print(f"driver_check: {held} hold, {wrong} differ")
    return 1 if wrong or not held else 0


if __name__ == "__main__":
    sys.exit(main())
