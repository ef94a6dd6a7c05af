#!/usr/bin/env python3
"""Opens hostile files as journals, and compares each answer with that of a reader of the script's own.

    scripts/hostile.py [--program PROGRAM]

Random bytes, also behind a right header; each byte of a journal flipped; every cut; another version; sizes and counts of
2^32 - 1; an entry one byte too long; a sparse file of 2^40 bytes. The answer is the same, the file is untouched, and no
room is taken by a size that was only written. 10,000 files in all.
"""
import os
import random
import resource
import struct
import subprocess
import sys
import tempfile
import time

sys.dont_write_bytecode = True
from journal import EMPTY, NOOP, header, journal, payload, program, put_of, read, record  # noqa: E402

COUNT = 10_000
LONG = put_of(1_048_577)
FULL = put_of(1_048_576)
KNOWN = {FULL, put_of(100)}
GOOD = [
    (1, 2, 0, []),
    (1, 2, 0, [(1, NOOP), (1, EMPTY), (1, NOOP)]),
    (3, 0, 2, [(2, EMPTY), (3, NOOP)]),
    (5, 7, 4, []),
]


def fixed():
    whole = journal(1, 2, GOOD)
    yield whole
    for cut in range(len(whole)):
        yield whole[:cut]
    for place in range(len(whole)):
        for bit in range(8):
            yield whole[:place] + bytes([whole[place] ^ (1 << bit)]) + whole[place + 1:]
        yield whole[:place] + bytes([whole[place] ^ 0xFF]) + whole[place + 1:]
    yield whole[:4] + b"\x02" + whole[5:]
    yield header(1, 2) + b"\x01" + struct.pack(">I", 2 ** 32 - 1) + b"\x00" * 64
    yield header(1, 2) + b"\x01" + struct.pack(">I", 2 ** 32 - 1)
    body = struct.pack(">QBQI", 1, 1, 0, 2 ** 32 - 1) + b"\x00" * 40
    yield header(1, 2) + b"\x01" + struct.pack(">I", len(body)) + body + b"\x00"
    body = struct.pack(">QBQI", 1, 1, 0, 1) + struct.pack(">QI", 1, 2 ** 32 - 1) + b"\xC0"
    yield header(1, 2) + b"\x01" + struct.pack(">I", len(body)) + body + b"\x00"
    yield journal(1, 2, [(1, 1, 0, [(1, FULL)])])
    yield journal(1, 2, [(1, 1, 0, [(1, LONG)])])
    yield journal(1, 2, GOOD, gate=0xE9)
    yield header(1, 2) + b"\x00" + record(*GOOD[0]) + b"\x01" * 100


def change(rng, log):
    """A change, mostly one that may follow."""
    term = rng.choice([1, 2, 3, 2 ** 62 - 1, 2 ** 62, 0])
    keep = rng.choice([log, 0, log + 1, rng.randrange(log + 1)])
    items = [(rng.choice([0, term, term, term, term + 1]), rng.choice([NOOP, EMPTY, put_of(100), b"", b"\xC1"])) for _ in range(rng.randrange(4))]
    return term, rng.choice([0, 1, 7, 8]), keep, items


def others(rng):
    kind = rng.randrange(4)
    if kind == 0:
        return rng.randbytes(rng.randrange(200))
    if kind == 1:
        return header(1, 2) + rng.randbytes(rng.randrange(200))
    if kind == 2:
        changes, log = [], 0
        for _ in range(rng.randrange(1, 5)):
            c = change(rng, log)
            changes.append(c)
            log = min(c[2], log) + len(c[3])
        return journal(1, 2, changes, rng.choice([1, 1, 2, 0xFF]))
    body = bytearray(payload(1, 1, 0, [(1, NOOP)] * rng.randrange(3)))
    body[rng.randrange(len(body))] = rng.randrange(256)
    size = len(body) + rng.choice([0, 0, 0, 1, -1])
    return header(1, 2) + b"\x01" + struct.pack(">I", size) + bytes(body) + rng.choice([b"\x00", b"", b"\x01", b"\x00" * 9])


def sparse(path, folder):
    """A closed gate in a file of 2^40 bytes opens at once."""
    name = os.path.join(folder, "sparse")
    with open(name, "wb") as out:
        out.write(header(1, 2) + b"\x00")
        out.truncate(2 ** 40)
    began = time.monotonic()
    done = subprocess.run([path, "read", name, "1", "2"], capture_output=True, timeout=60)
    spent = time.monotonic() - began
    print(f"sparse: {done.stdout.decode().strip()} in {spent:.2f} s")
    return done.stdout.decode().strip() == "ok 0 0 0 0" and spent < 5


def main():
    path = program()
    rng = random.Random(1)
    wrong = tried = 0
    with tempfile.TemporaryDirectory() as folder:
        name = os.path.join(folder, "journal")
        files = list(fixed())
        print(f"{len(files)} files by hand")
        while len(files) < COUNT:
            files.append(others(rng))
        for data in files:
            with open(name, "wb") as out:
                out.write(data)
            done = subprocess.run([path, "read", name, "1", "2"], capture_output=True, timeout=60)
            with open(name, "rb") as source:
                same = source.read() == data
            answer, wanted = done.stdout.decode().strip(), read(data, 1, 2, KNOWN)
            tried += 1
            if answer != wanted or not same:
                wrong += 1
                if wrong < 10:
                    print(f"{data[:80].hex()}: {answer!r}, wanted {wanted!r}, untouched {same}")
        most = resource.getrusage(resource.RUSAGE_CHILDREN).ru_maxrss
        ok = sparse(path, folder)
    print(f"{tried} files, {wrong} wrong; at most {most} kB")
    return 1 if wrong or not ok else 0


if __name__ == "__main__":
    sys.exit(main())
