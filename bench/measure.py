"""What the measurements of ncc_bench share: the program, values in PackStream, and the time of one pass."""
import os
import subprocess
import sys

TOP = os.path.dirname(os.path.dirname(os.path.abspath(__file__)))
RUNS = 4
WORK = 0.12
# how often works take turns
TURNS = 12
# the works that ended otherwise than they should
wrong = []


# ---- the program

def proved():
    """The proved program. With nothing changed since the last time, nothing is proved again."""
    folder = os.path.join(TOP, "crates", "ncc_bench")
    with open(os.path.join(folder, "stdin"), "rb") as source:
        done = subprocess.run(["rt", "run", "ncc_bench", "--", "encode", "1"], cwd=folder,
                              stdin=source, stdout=subprocess.DEVNULL)
    program = os.path.join(folder, "out", "ncc_bench")
    if done.returncode != 0 or not os.access(program, os.X_OK):
        sys.exit("bench: rt run made no program")
    return program


# ---- values in PackStream

def head(tiny, least, marks, size):
    """A size in the marker where it is below `least`, and else in the fewest of one, two or four bytes."""
    if size < least:
        return bytes([tiny + size])
    for mark, width in zip(marks, [1, 2, 4]):
        if mark is not None and size < 256 ** width:
            return bytes([mark]) + size.to_bytes(width, "big")


def pack(value):
    """The shortest spelling in PackStream."""
    if isinstance(value, int):
        if -16 <= value < 128:
            return value.to_bytes(1, "big", signed=True)
        for mark, width in [(0xC8, 1), (0xC9, 2), (0xCA, 4), (0xCB, 8)]:
            if -256 ** width // 2 <= value < 256 ** width // 2:
                return bytes([mark]) + value.to_bytes(width, "big", signed=True)
    if isinstance(value, str):
        text = value.encode()
        return head(0x80, 16, [0xD0, 0xD1, 0xD2], len(text)) + text
    if isinstance(value, list):
        return head(0x90, 16, [0xD4, 0xD5, 0xD6], len(value)) + b"".join(map(pack, value))
    return head(0xA0, 16, [0xD8, 0xD9, 0xDA], len(value)) + b"".join(pack(k) + pack(v) for k, v in value.items())


def integer(i):
    """Integers of each width in turn."""
    return [i % 100, -17 - i % 100, 128 + i % 30000, 40000 + i, -(2 ** 40) - i][i % 5]


def text(i):
    """Texts of 4 to 27 bytes, some beyond ASCII."""
    return f"name{i}"[:4 + i % 8] + ["", " é€", " of a node, a label"][i % 3]


# ---- the runs

def keep_heap():
    """From now on the programs' heaps keep what is given back to them: else a pass that holds more than a few hundred KB asks the system
    for its pages each time."""
    os.environ.update({"MALLOC_TRIM_THRESHOLD_": str(2 ** 30), "MALLOC_TOP_PAD_": str(2 ** 26), "MALLOC_MMAP_THRESHOLD_": str(2 ** 29)})


def seconds(program, work, times, path, refused=False):
    """The processor's time of one run, whose input is refused or not."""
    with open(path, "rb") as source:
        child = subprocess.Popen([program, work, str(times)], stdin=source, stdout=subprocess.DEVNULL)
        _, status, usage = os.wait4(child.pid, 0)
        child.returncode = os.waitstatus_to_exitcode(status)
    if child.returncode != (1 if refused and times else 0):
        print(f"WRONG: {work} ended with {child.returncode}")
        wrong.append(work)
    return usage.ru_utime + usage.ru_stime


def each(program, work, path, refused=False):
    """The time of one pass."""
    floor = min(seconds(program, work, 0, path, refused) for _ in range(3))
    times, took = 1, 0
    while times < 2_000_000:
        took = seconds(program, work, times, path, refused) - floor
        if took > WORK / 3:
            break
        times *= 4
    times = max(1, round(times * WORK / max(took, 1e-3)))
    return min(seconds(program, work, times, path, refused) - floor for _ in range(RUNS)) / times


def in_turns(program, works):
    """The times of one pass of each of some works with their inputs. They take turns, so that what else the machine does falls on each
    alike."""
    floors = [min(seconds(program, work, 0, path) for _ in range(3)) for work, path in works]
    passes = [max(1, round(WORK / each(program, work, path))) for work, path in works]
    rounds = [[seconds(program, work, times, path) for (work, path), times in zip(works, passes)] for _ in range(TURNS)]
    return [(min(took) - floor) / times for took, floor, times in zip(zip(*rounds), floors, passes)]


def written(folder, name, content):
    path = os.path.join(folder, name)
    with open(path, "wb") as out:
        out.write(content)
    return path
