#!/usr/bin/env python3
"""Kills a writer in mid-run, again and again: what is recovered is what it printed, or one save more.

    scripts/killed.py [--program PROGRAM] [--times N]
"""
import os
import random
import subprocess
import sys
import tempfile
import time

sys.dont_write_bytecode = True
from journal import NOOP, program, run  # noqa: E402

TIMES = int(sys.argv[sys.argv.index("--times") + 1]) if "--times" in sys.argv else 1000


def once(path, name, entry, items, delay):
    """The length of the log that the writer printed last, and the one that is recovered."""
    writer = subprocess.Popen([path, "write", name, "1", "2", "1000000", str(items), entry], stdout=subprocess.PIPE)
    time.sleep(delay)
    writer.kill()
    out, _ = writer.communicate()
    lines = out.decode().split("\n")
    lines = [line for line in lines[:-1] if line.startswith("saved ")]
    return int(lines[-1].split()[1]) if lines else None


def main():
    path = program()
    rng = random.Random(1)
    wrong = 0
    with tempfile.TemporaryDirectory() as folder:
        name, entry = os.path.join(folder, "journal"), os.path.join(folder, "entry")
        with open(entry, "wb") as out:
            out.write(NOOP)
        before = 0
        for number in range(TIMES):
            items = rng.choice([1, 3, 8])
            if number % 50 == 0 and os.path.exists(name):
                os.remove(name)
                before = 0
            printed = once(path, name, entry, items, rng.uniform(0.001, 0.03))
            told = run(path, name, 1, 2)
            least = before if printed is None else printed
            if told.startswith("damaged") and os.path.getsize(name) < 15 and before == 0:
                os.remove(name)
                continue
            after = int(told.split()[3]) if told.startswith("ok") else -1
            if after not in (least, least + items):
                wrong += 1
                print(f"{number}: printed {printed}, recovered {told!r}, before {before}, {items} items")
            before = max(after, 0)
    print(f"{TIMES} times, {wrong} wrong")
    return 1 if wrong else 0


if __name__ == "__main__":
    sys.exit(main())
