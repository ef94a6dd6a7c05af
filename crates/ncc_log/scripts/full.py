#!/usr/bin/env python3
"""A disk that is full, and a file that may not grow: a writer stops, and after it is given room nothing printed is lost.

    scripts/full.py [--program PROGRAM]

The limit on the file's size is the shell's; a small tmpfs is tried too where it may be mounted.
"""
import os
import signal
import subprocess
import sys
import tempfile

sys.dont_write_bytecode = True
from journal import NOOP, program, run  # noqa: E402


def limited():
    signal.signal(signal.SIGXFSZ, signal.SIG_IGN)
    import resource
    resource.setrlimit(resource.RLIMIT_FSIZE, (5000, 5000))


def try_in(path, folder, setup):
    """Writes until the disk refuses; then says what was printed, what is recovered, and what a further run may write."""
    name, entry = os.path.join(folder, "journal"), os.path.join(folder, "entry")
    with open(entry, "wb") as out:
        out.write(NOOP)
    done = subprocess.run([path, "write", name, "1", "2", "100000", "1", entry], capture_output=True, preexec_fn=setup, timeout=120)
    lines = done.stdout.decode().split("\n")[:-1]
    printed = max([int(line.split()[1]) for line in lines if line.startswith("saved ")], default=0)
    again = subprocess.run([path, "write", name, "1", "2", "1", "1", entry], capture_output=True, preexec_fn=setup, timeout=120)
    told = run(path, name, 1, 2)
    after = int(told.split()[3]) if told.startswith("ok") else -1
    print(f"printed {printed}, then {lines[-2:]!r}, another writer {again.stdout.decode().split(chr(10))[:1]!r}, recovered {told!r}")
    return printed > 0 and lines[-2:] == ["the disk failed", "again: the disk failed"] and after in (printed, printed + 1)


def room_again(path, folder, least):
    """With room, the journal goes on."""
    name, entry = os.path.join(folder, "journal"), os.path.join(folder, "entry")
    done = subprocess.run([path, "write", name, "1", "2", "3", "1", entry], capture_output=True, timeout=120)
    told = run(path, name, 1, 2)
    print(f"with room: {done.stdout.decode().split()[-1:]}, recovered {told!r}")
    return done.returncode == 0 and int(told.split()[3]) >= least + 3


def main():
    path = program()
    with tempfile.TemporaryDirectory() as folder:
        ok = try_in(path, folder, limited)
        ok = room_again(path, folder, int(run(path, os.path.join(folder, "journal"), 1, 2).split()[3])) and ok
    with tempfile.TemporaryDirectory() as folder:
        mount = subprocess.run(["mount", "-t", "tmpfs", "-o", "size=64k", "tmpfs", folder], capture_output=True)
        if mount.returncode == 0:
            try:
                ok = try_in(path, folder, None) and ok
                subprocess.run(["mount", "-o", "remount,size=1m", folder], check=True)
                ok = room_again(path, folder, int(run(path, os.path.join(folder, "journal"), 1, 2).split()[3])) and ok
            finally:
                subprocess.run(["umount", folder], check=True)
        else:
            print("no tmpfs may be mounted here")
    return 0 if ok else 1


if __name__ == "__main__":
    sys.exit(main())
