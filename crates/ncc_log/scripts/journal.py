"""What the scripts on journals share: the format, a reader of their own, and the program that they run."""
import os
import struct
import subprocess
import sys

HERE = os.path.dirname(os.path.abspath(__file__))
TOP = os.path.dirname(os.path.dirname(os.path.dirname(HERE)))
MAX_ENTRY = 1_048_576
NOOP = b"\xC0"
EMPTY = b"\x92\x90\x90"


def program():
    """The program that opens journals: the word behind --program, or the proved one."""
    if "--program" in sys.argv:
        return os.path.abspath(sys.argv[sys.argv.index("--program") + 1])
    folder = os.path.join(TOP, "crates", "ncc_scribe")
    done = subprocess.run(["rt", "run", "ncc_scribe"], cwd=folder, stdin=subprocess.DEVNULL, stdout=subprocess.DEVNULL)
    path = os.path.join(folder, "out", "ncc_scribe")
    if not os.access(path, os.X_OK):
        sys.exit(f"rt run made no program (status {done.returncode})")
    return path


# ---- the format

def header(cluster, member):
    return b"NCCJ\x01" + struct.pack(">QB", cluster, member)


def text(length):
    """The spelling of a text of so many bytes."""
    if length < 16:
        return bytes([0x80 + length]) + b"x" * length
    if length < 256:
        return bytes([0xD0, length]) + b"x" * length
    if length < 65536:
        return b"\xD1" + struct.pack(">H", length) + b"x" * length
    return b"\xD2" + struct.pack(">I", length) + b"x" * length


def put(length):
    """The entry of one step that returns a parameter with a text of so many bytes, and told no rows."""
    source = b"RETURN $v"
    step = b"\x92" + bytes([0x80 + len(source)]) + source + b"\xA1\x81v" + text(length)
    return b"\x92\x91" + step + b"\x91\x90"


def put_of(size):
    """Such an entry of so many bytes."""
    entry = put(size - 21)
    for length in range(size - 30, size):
        entry = put(max(length, 0))
        if len(entry) == size:
            return entry
    return entry


def item(term, entry):
    return struct.pack(">QI", term, len(entry)) + entry


def payload(term, vote, keep, items):
    return struct.pack(">QBQI", term, vote, keep, len(items)) + b"".join(item(t, e) for t, e in items)


def record(term, vote, keep, items):
    body = payload(term, vote, keep, items)
    return struct.pack(">I", len(body)) + body


def journal(cluster, member, changes, gate=1):
    """A journal of these changes, each a term, a vote, a number kept and items."""
    return header(cluster, member) + b"".join(bytes([gate]) + record(*c) for c in changes) + b"\x00"


# ---- a reader

def is_entry(entry, known):
    return len(entry) <= MAX_ENTRY and (entry in (NOOP, EMPTY) or entry in known)


def change_at(body, part, known):
    """The change of which this is the payload, or None."""
    if len(body) < 21:
        return None
    term, vote, keep, count = struct.unpack(">QBQI", body[:21])
    old_term, _, log = part
    if term < old_term or term >= 2 ** 62 or vote > 7 or keep > len(log) or keep + count > 2 ** 24:
        return None
    last = log[keep - 1][0] if keep else 0
    at, items = 21, []
    for _ in range(count):
        if at + 12 > len(body):
            return None
        own, size = struct.unpack(">QI", body[at:at + 12])
        if own < last or own > term or size > MAX_ENTRY or at + 12 + size > len(body):
            return None
        entry = body[at + 12:at + 12 + size]
        if not is_entry(entry, known):
            return None
        items.append((own, size))
        last = own
        at += 12 + size
    if at != len(body):
        return None
    return term, vote, log[:keep] + items


def told(part):
    term, vote, log = part
    total = 0
    for own, size in log:
        total = ((total * 31 + own) * 31 + size) % 2 ** 64
    return f"ok {term} {vote} {len(log)} {total}"


def read(data, cluster, member, known=()):
    """What the program prints for these bytes."""
    want = b"NCCJ\x01"
    for i in range(5):
        if i >= len(data):
            return f"damaged at {len(data)}"
        if data[i] != want[i]:
            return f"damaged at {i}"
    if len(data) < 15:
        return f"damaged at {len(data)}"
    found = struct.unpack(">QB", data[5:14])
    if found != (cluster, member):
        return f"the journal of member {found[1]} of cluster {found[0]}"
    gate, part = 14, (0, 0, [])
    while data[gate] != 0:
        head = data[gate + 1:gate + 5]
        if len(head) < 4:
            return f"damaged at {gate}"
        size = struct.unpack(">I", head)[0]
        if gate + 5 + size >= len(data):
            return f"damaged at {gate}"
        part = change_at(data[gate + 5:gate + 5 + size], part, known)
        if part is None:
            return f"damaged at {gate}"
        gate += 5 + size
    return told(part)


def run(path, name, cluster, member):
    """What the program prints for a file, and how many bytes it took at most."""
    done = subprocess.run([path, "read", name, str(cluster), str(member)], stdin=subprocess.DEVNULL, capture_output=True, timeout=120)
    return done.stdout.decode().strip()
