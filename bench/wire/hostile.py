#!/usr/bin/env python3
"""Damaged and random frames, judged by ncc_wire and by a reader of this folder's own.

    bench/wire/hostile.py                   builds the proved program, and tries 100,000
    bench/wire/hostile.py PROGRAM           takes this program for ncc_bench
    bench/wire/hostile.py PROGRAM COUNT     tries so many

Frames are made by the writer of layout.py, and then changed: a byte or a bit, a field at one of its bounds, a cut, more bytes behind, two
of them joined, another size, bytes left out or put in; or bytes are drawn. The draws are always the same. The status is 0 where both say
the same of each.
"""
import collections
import itertools
import os
import random
import subprocess
import sys
import tempfile

HERE = os.path.dirname(os.path.abspath(__file__))
sys.dont_write_bytecode = True
sys.path.insert(0, os.path.dirname(HERE))
from layout import EMPTY, NO_STEP, TERMS, Frame, Unknown, judged, transaction, u32, u64  # noqa: E402
from measure import proved, written  # noqa: E402

COUNT = 100_000
CLUSTER = 1
BOUNDS = [0, 1, 2, 3, 22, 23, 24, 63, 64, 65, 255, 256, 65_535, 1_048_576, 1_048_577, 2_097_152, 2_097_153, 2 ** 32 - 1,
          TERMS - 1, TERMS, TERMS + 1, 2 ** 63, 2 ** 64 - 1]


def number(draw):
    return draw.choice([draw.randrange(100), draw.randrange(TERMS), draw.choice(BOUNDS)])


def entry(draw):
    return draw.choice([EMPTY, NO_STEP, transaction(draw.randrange(25, 60)), transaction(draw.randrange(25, 400))])


def items(draw, rising):
    terms = [draw.randrange(8) for _ in range(draw.choice([0, 1, 2, 3, 3, 5, 8, 64, 65] if draw.random() < 0.1 else [0, 1, 2, 3]))]
    return [(term, entry(draw)) for term in (sorted(terms) if rising else terms)]


def made(draw):
    """A frame, nearly always one that may be carried."""
    kind = draw.randrange(1, 7)
    cluster = CLUSTER if draw.random() < 0.97 else number(draw)
    sender, to = draw.randrange(1, 24), draw.randrange(1, 24)
    low = draw.randrange(TERMS)
    numbers = {1: [low, number(draw), draw.randrange(TERMS)], 2: [low, draw.randrange(2)], 3: [8 + low % 9, low, 0, number(draw)],
               4: [low, draw.randrange(2), number(draw)], 5: [low], 6: [low + 1]}[kind]
    return Frame(cluster, sender, to, kind, numbers, items(draw, kind == 3) if kind in (3, 6) else ())


def changed_field(draw, frame):
    """Eight, four or one of the bytes set to a bound."""
    at = draw.choice([0, 4, 12, 13, 14, 15, 23, 24, 31, 39, 47, 51, 59, 63]) if draw.random() < 0.7 else draw.randrange(len(frame))
    bound = draw.choice(BOUNDS)
    wide = draw.choice([u64(bound), u32(bound % 2 ** 32), bytes([bound % 256])])
    return frame[:at] + wide + frame[at + len(wide):]


def damaged(draw, frame):
    """The frame, changed in one of the ways above."""
    at = draw.randrange(len(frame) + 1)
    way = draw.randrange(10)
    if way == 0:
        return frame
    if way in (1, 2):
        at = min(at, len(frame) - 1)
        return frame[:at] + bytes([frame[at] ^ (1 << draw.randrange(8) if way == 1 else draw.randrange(1, 256))]) + frame[at + 1:]
    if way == 3:
        return changed_field(draw, frame)
    if way == 4:
        return frame[:at]
    if way == 5:
        return frame + draw.randbytes(draw.randrange(40))
    if way == 6:
        return frame[:at] + made(draw).spelled()[draw.randrange(20):]
    if way == 7:
        return u32(max(0, len(frame) - 4 + draw.randrange(-20, 5))) + frame[4:]
    if way == 8:
        return frame[:at] + frame[at + draw.randrange(1, 9):]
    return frame[:at] + draw.randbytes(draw.randrange(1, 9)) + frame[at:]


def resized(frame):
    """The same bytes behind a size that fits them, so that a change inside is looked at."""
    return u32(len(frame) - 4) + frame[4:] if len(frame) >= 4 else frame


def tried(draw):
    if draw.random() < 0.03:
        return draw.choice([b"", u32(draw.randrange(60))]) + draw.randbytes(draw.randrange(80))
    frame = damaged(draw, made(draw).spelled())
    for _ in range(draw.choice([0, 0, 0, 1, 2])):
        frame = damaged(draw, frame) if frame else frame
    return resized(frame) if draw.random() < 0.5 else frame


def longest():
    """The longest frame there may be, one of a size above it, and each cut in places."""
    first = transaction(1_048_576)
    second = transaction(2_097_152 - 11 - 12 - 2 * 12 - len(first))
    frame = Frame(CLUSTER, 1, 8, 6, [4], [(3, first), (3, second)]).spelled()
    yield frame
    for cut in [3, 4, 5, len(frame) // 2, len(frame) - 1]:
        yield frame[:cut]
    yield u32(2_097_153) + frame[4:] + b"\0"
    yield Frame(CLUSTER, 1, 8, 6, [4], [(3, transaction(1_048_577))]).spelled()


def main():
    program = sys.argv[1] if len(sys.argv) > 1 else proved()
    count = int(sys.argv[2]) if len(sys.argv) > 2 else COUNT
    draw = random.Random(1)
    frames, wanted, again = [], [], 0
    drawn = itertools.chain(longest(), (tried(draw) for _ in itertools.count()))
    while len(frames) < count:
        frame = next(drawn)
        try:
            wanted.append(judged(CLUSTER, frame))
            frames.append(frame)
        except Unknown:
            again += 1
    with tempfile.TemporaryDirectory() as path:
        listed = written(path, "frames", b"".join(u32(len(frame)) + frame for frame in frames))
        with open(listed, "rb") as source:
            done = subprocess.run([program, "judge", "1"], stdin=source, stdout=subprocess.PIPE)
    said = done.stdout.decode().splitlines()
    differ = [place for place, (one, other) in enumerate(zip(said, wanted)) if one != other]
    for word, how_many in sorted(collections.Counter(line.split()[0] for line in wanted).items()):
        print(f"{word:14}{how_many:9,}")
    print(f"{'drawn again':14}{again:9,}   since the reader knows one statement alone")
    print(f"{'agree':14}{len(wanted) - len(differ):9,} of {len(wanted):,}")
    for place in differ[:20]:
        print(f"WRONG: {frames[place][:200].hex()} => {said[place]}, and not {wanted[place]}")
    right = done.returncode == 0 and len(said) == len(wanted) and not differ
    print("all as it should be" if right else "not as it should be")
    return 0 if right else 1


if __name__ == "__main__":
    sys.exit(main())
