#!/usr/bin/env python3
"""Clients that mean no good, before ncc_session and ncc_server.

    bench/serve/hostile.py           builds the proved program, and runs it
    bench/serve/hostile.py PROGRAM   takes this program for ncc_bench

Up to 256 MB of no-ops, messages of as many bytes as one may have, a message that never ends, 100,000 keys, a MiB of bookmarks, and up to
100,000 requests in one piece: statements, RESETs, and PULLs that are ignored. Of each the time a byte, which should stay the same from the
second row on (the first is a few microseconds), and the memory that a session holds beyond its input while it is fed, which should too:
what the system tells every two milliseconds in the second half of a longer run. The time of a served connection has the copies of the input
in it that its source makes. The status is 0 where each run ended as it should, and no session held more than its row may.
"""
import os
import subprocess
import sys
import tempfile
import time

HERE = os.path.dirname(os.path.abspath(__file__))
sys.dont_write_bytecode = True
sys.path.insert(0, os.path.dirname(HERE))
from measure import pack, proved, written, wrong  # noqa: E402
from sessions import PULL, STEP, autocommit, given, message  # noqa: E402

PIECE = 8_192
RESET = message(0x0F)
BOOKMARK = "ncc:AQAAAAAAAAABAAAAAAAAAAAA"
# a message has at most so many bytes
MESSAGE = 1_048_576
MB = 2 ** 20
# for so long a session is fed while its memory is looked at, in seconds
WATCHED = 0.6


def ended(child, status, work):
    """The processor's time of a program that ends, which it should with this status."""
    _, code, usage = os.wait4(child.pid, 0)
    child.returncode = os.waitstatus_to_exitcode(code)
    if child.returncode != status:
        print(f"WRONG: {work} ended with {child.returncode}")
        wrong.append(work)
    return usage.ru_utime + usage.ru_stime


def started(program, work, times, path):
    with open(path, "rb") as source:
        return subprocess.Popen([program, work, str(times)], stdin=source, stdout=subprocess.DEVNULL)


def run(program, work, times, path, status):
    """The processor's time of so many passes, which end with this status."""
    return ended(started(program, work, times, path), status if times else 0, work)


def held(program, times, path, status):
    """The greatest memory in the second half of so many passes of a session, in bytes."""
    child, seen = started(program, "requests", times, path), []
    with open(f"/proc/{child.pid}/statm", encoding="ascii") as told:
        while os.waitid(os.P_PID, child.pid, os.WEXITED | os.WNOHANG | os.WNOWAIT) is None:
            told.seek(0)
            seen.append(int(told.read().split()[1]) * os.sysconf("SC_PAGE_SIZE"))
            time.sleep(0.002)
    ended(child, status, "requests")
    return max(seen[len(seen) // 2:])


def row(program, folder, name, requests, most, status=0, piece=PIECE, served=True):
    """The time a byte and the memory of a session alone, and the time a byte of a served connection."""
    path = written(folder, "requests", given(requests, piece))
    floor = min(run(program, "requests", 0, path, status) for _ in range(3))
    took = max(1e-6, min(run(program, "requests", 1, path, status) for _ in range(3)) - floor)
    times = min(100_000, round(WATCHED / took) + 1)
    memory = held(program, times, path, status) - len(requests)
    shown = ""
    if served:
        shown = f"{(min(run(program, 'ready', 1, path, status) for _ in range(3)) - floor) / len(requests) * 1e9:13.2f}"
    print(f"{name:36}{len(requests) / MB:9.1f}{took / len(requests) * 1e9:11.2f}{memory / MB:12.1f}{shown}", flush=True)
    if memory > most:
        print("WRONG: more memory than it may take")
        wrong.append(name)


def chunked(content, ended=True):
    """A message in the longest chunks."""
    parts = [content[at:at + 65_535] for at in range(0, len(content), 65_535)]
    return b"".join(len(part).to_bytes(2, "big") + part for part in parts) + (b"\0\0" if ended else b"")


def longest(more=0):
    """A statement whose message has as many bytes as one may have, and some more."""
    front = b"\xb3\x10" + pack("RETURN $a") + b"\xa1" + pack("a")
    size = MESSAGE + more - len(front) - 5 - 1
    return chunked(front + b"\xd2" + size.to_bytes(4, "big") + b"x" * size + b"\xa0") + PULL


def statement(parameters, extra):
    """RUN "RETURN 1" with these dictionaries."""
    return chunked(b"\xb3\x10" + pack("RETURN 1") + pack(parameters) + pack(extra))


def main():
    program = sys.argv[1] if len(sys.argv) > 1 else proved()
    print(f"{'':36}{'':9}{'session':>11}{'':12}{'served':>13}")
    print(f"{'what the client sends':36}{'MB':>9}{'ns/byte':>11}{'MB beyond':>12}{'ns/byte':>13}")
    with tempfile.TemporaryDirectory() as folder:
        for size in [1, 16, 64, 256]:
            row(program, folder, "no-ops, and a statement", b"\0\0" * (size * MB // 2) + STEP, 16 * MB)
        for size in [1, 16, 64]:
            row(program, folder, "no-ops in one piece", b"\0\0" * (size * MB // 2) + STEP, 16 * MB, piece=2 ** 31, served=False)
        for count in [1, 8, 64]:
            row(program, folder, "messages of 1 MiB", longest() * count, 64 * MB)
        row(program, folder, "a message of 1 MiB and a byte", longest(1), 64 * MB, status=1)
        for size in [2, 64, 256]:
            row(program, folder, "a message that never ends", chunked(b"x" * (size * MB), ended=False), 64 * MB, status=1)
        for count in [1_000, 10_000, 100_000]:
            row(program, folder, f"{count:,} keys", statement({f"k{key:05}": 1 for key in range(count)}, {}) + PULL, 64 * MB)
        for count in [340, 3_400, 34_000]:
            row(program, folder, f"{count:,} bookmarks", statement({}, {"bookmarks": [BOOKMARK] * count}) + RESET, 64 * MB)
        for count in [1_000, 10_000, 100_000]:
            row(program, folder, f"{count:,} bookmarks that are none", statement({}, {"bookmarks": [""] * count}) + RESET, 64 * MB)
        for count in [1_000, 10_000, 100_000]:
            row(program, folder, f"{count:,} RESETs in one piece", RESET * count, 64 * MB, piece=2 ** 31, served=False)
            ignored = message(0x10, "RETURM", {}, {}) + message(0x3F, {"n": 1}) * count + RESET
            row(program, folder, f"{count:,} PULLs in one piece, ignored", ignored, 64 * MB, piece=2 ** 31, served=False)
        for count in [1_000, 10_000, 100_000]:
            row(program, folder, f"{count:,} requests in one piece", autocommit(count // 2), 64 * MB, piece=2 ** 31, served=False)
    print("\nall as it should be" if not wrong else f"\n{len(wrong)} not as it should be")
    return 1 if wrong else 0


if __name__ == "__main__":
    sys.exit(main())
