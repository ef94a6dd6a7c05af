#!/usr/bin/env python3
"""A trace of the system's calls of 100 saves: write, sync, write, sync; and files that a crash may leave are before or after.

    scripts/trace.py [--program PROGRAM]

Between two syncs what was written may be torn, and the length may be any between: such files are cut from the trace, and
each is recovered as the part before that save or after it.
"""
import os
import random
import re
import subprocess
import sys
import tempfile

sys.dont_write_bytecode = True
from journal import NOOP, program, run  # noqa: E402

SAVES = 100


def plain(text):
    """The bytes of a string that strace wrote in hexadecimal."""
    return bytes.fromhex(text.replace("\\x", ""))


def calls(log, name):
    """The calls on the journal's file, in order: a place and bytes for a write, or None for a sync."""
    fd, at, found = None, 0, []
    for line in open(log):
        line = re.sub(r"^\d+\s+", "", line)
        opened = re.match(r'open(?:at)?\(.*?"(.*?)".*\)\s+= (\d+)', line)
        if opened and plain(opened.group(1)) == name.encode():
            fd = opened.group(2)
        moved = re.match(r"lseek\((\d+), .*\)\s+= (\d+)", line)
        if moved and moved.group(1) == fd:
            at = int(moved.group(2))
        wrote = re.match(r'write\((\d+), "(.*)", \d+\)\s+= (\d+)', line)
        if wrote and wrote.group(1) == fd:
            data = plain(wrote.group(2))
            found.append((at, data))
            at += len(data)
        synced = re.match(r"f(?:data)?sync\((\d+)\)", line)
        if synced and synced.group(1) == fd:
            found.append(None)
    return found


def put(content, at, data):
    return content[:at] + data + content[at + len(data):]


def torn(rng, stable, seen, at, data):
    """A file that a crash may leave while this write is pending."""
    left = bytearray(seen)
    for place in range(at, at + len(data)):
        left[place] = rng.choice([left[place], rng.randrange(256), stable[place] if place < len(stable) else 0])
    size = rng.randrange(len(stable), len(seen) + 1)
    return bytes(left[:size])


def main():
    path = program()
    rng = random.Random(1)
    with tempfile.TemporaryDirectory() as folder:
        name, entry, log = (os.path.join(folder, word) for word in ("journal", "entry", "log"))
        with open(entry, "wb") as out:
            out.write(NOOP)
        subprocess.run(["strace", "-f", "-o", log, "-xx", "-s", "100000", "-e", "trace=open,openat,lseek,write,fsync,fdatasync",
                        path, "write", name, "1", "2", str(SAVES), "1", entry], check=True, capture_output=True)
        found = calls(log, name)
        kinds = "".join("s" if call is None else "w" for call in found)
        right = kinds == "ws" + "wsws" * SAVES
        print(f"{len(found)} calls; write, sync, then {SAVES} times write, sync, write, sync: {right}")
        stable = seen = b""
        wrong = tried = 0
        for number, call in enumerate(found):
            if call is None:
                stable = seen
                continue
            before = seen
            seen = put(seen, *call)
            saves = max(number - 2, 0) // 4
            for _ in range(3 if number > 1 else 0):
                with open(name, "wb") as out:
                    out.write(torn(rng, stable, seen, *call))
                told = run(path, name, 1, 2)
                tried += 1
                if not told.startswith("ok") or int(told.split()[3]) not in (saves, saves + 1):
                    wrong += 1
                    print(f"call {number}: {told!r} after {saves} saves ({len(before)} bytes before)")
        print(f"{tried} files, {wrong} wrong")
    return 0 if right and not wrong else 1


if __name__ == "__main__":
    sys.exit(main())
