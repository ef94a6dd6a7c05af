#!/usr/bin/env python3
"""Times works of drivers' sessions in ncc_replay: a `work` line and a `pump` line each, behind a setup that is timed apart.

    bench/works.py             builds the proved program by `rt run`, and runs it
    bench/works.py PROGRAM     runs this program

Each figure is the best of three runs of the script, less that of its setup alone. The status is 0 where each run ended as it should.
"""
import importlib.machinery
import importlib.util
import os
import sys
import tempfile

FOLDER = os.path.dirname(os.path.abspath(__file__))
sys.dont_write_bytecode = True
loader = importlib.machinery.SourceFileLoader("bench_run", os.path.join(FOLDER, "run"))
spec = importlib.util.spec_from_loader("bench_run", loader)
bench = importlib.util.module_from_spec(spec)
loader.exec_module(bench)

HEAD = "ncc-script 1\ncluster list 1 0 1 30000\n"


def work(session, i):
    return f"work {session} put k{i % 10} v{i}\npump {session}\n"


def made(sessions):
    """So many sessions, each of which has its table: one work has run."""
    yield HEAD
    for i in range(sessions):
        yield f"session {i}\n"
    for i in range(sessions):
        yield work(i + 1, i)


def behind(sessions, before):
    """The same, and so many works before, in turn."""
    yield from made(sessions)
    for i in range(before):
        yield work(i % sessions + 1, i)


def asleep(sleepers):
    """One session with its table, and so many others that sleep, since their link was lost."""
    yield from made(1)
    for i in range(sleepers):
        yield f"session {i}\nwork {i + 2} put k v\ncut {i + 2}\n"


def seconds_of(program, script):
    best, right = float("inf"), True
    with tempfile.TemporaryFile() as source, tempfile.TemporaryFile() as sink:
        source.writelines(line.encode() for line in script)
        for _ in range(3):
            source.seek(0)
            sink.seek(0)
            sink.truncate()
            status, said, took, memory = bench.run(program, ["run"], source, sink)
            best = min(best, took)
            size = sink.seek(0, os.SEEK_END)
            sink.seek(max(0, size - 4))
            right = right and status == 0 and sink.read() == b"end\n"
    return best, memory, right


def timed(program, name, works, setup, script):
    """The seconds that the works take: those of the script less those of its setup."""
    first, _, one = seconds_of(program, setup)
    whole, memory, two = seconds_of(program, script)
    took = max(whole - first, 1e-9)
    print(f"{name:50}{works:9,}{took:9.3f}{works / took:12,.0f}{took / works * 1e6:10.1f}{memory:9.1f}{'' if one and two else '   WRONG'}",
          flush=True)
    return took / works, one and two


def main():
    program = sys.argv[1] if len(sys.argv) > 1 else bench.built()
    right = True
    print(f"{'works':50}{'works':>9}{'seconds':>9}{'works/s':>12}{'us/work':>10}{'peak MB':>9}")

    def then(front, sessions, count):
        yield from front
        for i in range(count):
            yield work(i % sessions + 1, i)


    groups = []
    for name, cases in [
        ("sessions", [(f"{n:,} sessions", lambda n=n: made(n), n) for n in (1, 100, 10_000)]),
        ("works before", [(f"{n:,} works before, 100 sessions", lambda n=n: behind(100, n), 100) for n in (100, 100_000)]),
        ("asleep", [(f"{n:,} sessions asleep", lambda n=n: asleep(n), 1) for n in (0, 10_000)]),
    ]:
        figures = []
        for label, setup, sessions in cases:
            count = 20_000
            figure, ok = timed(program, label, count, setup(), then(setup(), sessions, count))
            figures.append(figure)
            right = right and ok
        groups.append((name, max(figures) / min(figures)))
    count = 20_000
    for sleepers in (0, 10_000):
        front = lambda: asleep(sleepers)

        def ticking():
            yield from front()
            for i in range(count):
                yield f"time {i * 700 // count}\n"

        figure, ok = timed(program, f"`time` lines, {sleepers:,} sessions asleep", count, front(), ticking())
        right = right and ok
    for sleepers in (100, 10_000):
        def waking():
            yield from asleep(sleepers)
            yield "time 1300\n"

        figure, ok = timed(program, f"sessions woken by one `time`, of {sleepers:,}", sleepers, asleep(sleepers), waking())
        right = right and ok
    for name, growth in groups:
        print(f"greatest by least, {name}: {growth:.2f}")
    sys.exit(0 if right else 1)


main()
