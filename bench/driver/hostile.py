#!/usr/bin/env python3
"""Times answers to a driver's session that nobody means well with, each at a tenth of its size and whole, in one piece and byte by byte.

    bench/driver/hostile.py             builds the program of the cases (cases-hold), which nothing proves, over the proved sources
    bench/driver/hostile.py PROGRAM     runs this build of it

Each line is a case with its answer, so a wrong answer is told too. The status is 0 where all were right and the time grew as the bytes did,
up to twice that.
"""
import os
import resource
import subprocess
import sys
import tempfile
import time

TOP = os.path.dirname(os.path.dirname(os.path.dirname(os.path.abspath(__file__))))
HELLO = ['get "a"', "connected", "bytes 00 00 04 04", 'SUCCESS {server: "Neo4j/4.4.12"}']
TABLE = 'SUCCESS {rt: {ttl: 300, servers: [{addresses: ["r:1"], role: "READ"}, {addresses: ["a:1", "b:1"], role: "ROUTE"}]}}'
PULLED = HELLO + [TABLE, "connected", "bytes 00 00 04 04", "SUCCESS {}", "SUCCESS {}", "SUCCESS {}"]
DEEP = "[" * 32 + "]" * 32
BAD = "send GOODBYE; close; bad reply"

KINDS = [
    ("RECORDs, and their end", PULLED, 100_000, lambda n: f'{n} * RECORD ["x"]; SUCCESS {{}} => send COMMIT'),
    ("RECORDs, the last of which no longer fits", PULLED, 100_000, lambda n: f'{n} * RECORD ["x"]; RECORD {DEEP} => {BAD} {n + 3}'),
    ("RECORDs, and a FAILURE", PULLED, 100_000,
     lambda n: f'{n} * RECORD ["x"]; FAILURE {{code: "Neo.TransientError.A.B"}} => send GOODBYE; close; sleep until 828'),
    ("no-ops", PULLED, 1_000_000, lambda n: f"bytes 00*{2 * n} => nothing"),
    ("a RECORD of many bytes", PULLED, 1_000_000, lambda n: f'in chunks of 65535 RECORD ["x\\{{{n}}}"]; SUCCESS {{}} => send COMMIT'),
    ("a message that is too long", PULLED, 4_000_000, lambda n: f'in chunks of 65535 RECORD ["x\\{{{n + 1_048_576}}}"] => {BAD} 3'),
    ("ROUTE with many addresses", HELLO, 100_000,
     lambda n: f'SUCCESS {{rt: {{ttl: 300, servers: [{{addresses: ["r:1"*{n}], role: "READ"}}]}}}} => send GOODBYE; close; connect to r:1'),
    ("ROUTE with many addresses of another role", HELLO, 100_000,
     lambda n: f'SUCCESS {{rt: {{ttl: 300, servers: [{{addresses: ["r:1"*{n}], role: "OTHER"}}]}}}} => send GOODBYE; close; sleep until 1094'),
    ("bytes behind an answer", HELLO, 1_000_000, lambda n: f"SUCCESS {{rt: {{ttl: -1, servers: []}}}}; bytes 00*{n} => {BAD} 1"),
]


def run(program, text):
    """The seconds of the processor, the peak memory in MB, and what the program says."""
    with tempfile.TemporaryFile() as source, tempfile.TemporaryFile() as said:
        source.write(text.encode())
        source.seek(0)
        child = subprocess.Popen([program, "drivers"], stdin=source, stdout=said, stderr=subprocess.STDOUT,
                                 preexec_fn=lambda: resource.setrlimit(resource.RLIMIT_CPU, (300, 300)))
        _, status, usage = os.wait4(child.pid, 0)
        child.returncode = os.waitstatus_to_exitcode(status)
        said.seek(0)
        return usage.ru_utime + usage.ru_stime, usage.ru_maxrss / 1024, child.returncode, said.read().decode(errors="replace")


def main():
    with tempfile.TemporaryDirectory() as folder:
        program = sys.argv[1] if len(sys.argv) > 1 else os.path.join(folder, "cases")
        if len(sys.argv) < 2:
            # No case is tried, which is no success; the program is kept all the same.
            subprocess.run([os.path.join(TOP, "cases-hold"), "--program", program, "drivers"], stdin=subprocess.DEVNULL,
                           stdout=subprocess.DEVNULL)
            if not os.path.exists(program):
                return "hostile.py: the program of the cases could not be built"
        wrong = 0
        print(f"{'answers':44}{'how':14}{'number':>10}{'seconds':>9}{'growth':>8}{'peak MB':>9}")
        for name, given, most, line in KINDS:
            for section, how in [("drivers in one piece", "one piece"), ("drivers", "both ways")]:
                begin = time.monotonic()
                times = []
                for n in (most // 10, most):
                    text = f"== {section}\n" + "".join(f"given {g}\n" for g in given) + line(n) + "\n"
                    best = min((run(program, text) for _ in range(2)), key=lambda r: r[0])
                    times.append(best)
                floor = run(program, "")[0]
                (small, _, _, _), (took, memory, status, said) = times
                growth = (took - floor) / max(small - floor, 1e-3) / 10
                right = status == 0 and growth < 2
                wrong += not right
                print(f"{name:44}{how:14}{most:10,}{took:9.3f}{growth:8.2f}{memory:9.1f}{'' if right else '   WRONG: ' + said[:300]}", flush=True)
                if time.monotonic() - begin > 120:
                    break
        return 1 if wrong else 0


if __name__ == "__main__":
    sys.exit(main())
