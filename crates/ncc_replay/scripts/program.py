"""Builds ncc_replay once, and keeps it under crates/ncc_replay/out, for the sources that it was made of.

`rt try` builds it, and proves nothing; the gate proves it. It keeps no program, so the one that it runs is taken while it runs.
"""
import hashlib
import os
import shutil
import subprocess
import sys
import tempfile
import threading

TOP = os.path.dirname(os.path.dirname(os.path.dirname(os.path.dirname(os.path.abspath(__file__)))))
CRATE = os.path.join(TOP, "crates", "ncc_replay")
KEPT = os.path.join(CRATE, "out", "demo")


def crates():
    """ncc_replay, and all crates of the repository that it stands on."""
    below = {}
    with open(os.path.join(TOP, "crates.txt"), encoding="utf-8") as file:
        for line in file:
            name, found, others = line.partition("#")[0].partition(":")
            if found:
                below[name.split()[0]] = others.split()
    names, waiting = set(), ["ncc_replay"]
    while waiting:
        name = waiting.pop()
        if name in below and name not in names:
            names.add(name)
            waiting += below[name]
    return sorted(names)


def checksum():
    """A checksum of the sources, and of the kit that builds them."""
    kit = subprocess.run(["rt", "version"], capture_output=True, check=True).stdout
    whole = hashlib.sha256(kit)
    for name in crates():
        for folder, folders, files in os.walk(os.path.join(TOP, "crates", name, "src")):
            folders.sort()
            for file in sorted(files):
                path = os.path.join(folder, file)
                whole.update(os.path.relpath(path, TOP).encode())
                with open(path, "rb") as source:
                    whole.update(hashlib.sha256(source.read()).digest())
    return whole.hexdigest()


def take(folder, into, done):
    """Links the program that is run below a folder, as soon as there is one."""
    while not done.wait(0.002):
        for at, _, files in os.walk(folder):
            if "program" in files and not os.path.exists(into):
                try:
                    os.link(os.path.join(at, "program"), into)
                except OSError:
                    pass


def build(kept, number_of_cases):
    """Builds the program as `kept`. Says what rt said where that fails."""
    os.makedirs(KEPT, exist_ok=True)
    with tempfile.TemporaryDirectory(dir=KEPT) as folder:
        into = os.path.join(KEPT, "program.new")
        if os.path.exists(into):
            os.remove(into)
        # Each of these scripts is run by itself, which leaves time to take the program.
        cases = os.path.join(folder, "cases")
        os.mkdir(cases)
        for number in range(number_of_cases):
            with open(os.path.join(cases, str(number)), "wb"):
                pass
        done = threading.Event()
        taker = threading.Thread(target=take, args=(folder, into, done))
        taker.start()
        ran = subprocess.run(["rt", "try", "ncc_replay", "--cases", cases, "--", "run"], cwd=CRATE,
                             env={**os.environ, "TMPDIR": folder}, stdin=subprocess.DEVNULL,
                             stdout=subprocess.PIPE, stderr=subprocess.STDOUT)
        done.set()
        taker.join()
        if ran.returncode != 0 or not os.path.exists(into):
            return ran.stdout.decode(errors="replace")
        for other in os.listdir(KEPT):
            if os.path.isfile(os.path.join(KEPT, other)) and other != "program.new":
                os.remove(os.path.join(KEPT, other))
        os.replace(into, kept)
    return ""


def program(say):
    """The built program. `say` takes what a reader should know while it waits."""
    if not shutil.which("rt"):
        sys.exit("the command rt of the Rattle kit is not on the path")
    kept = os.path.join(KEPT, checksum())
    if not os.access(kept, os.X_OK):
        say("building ncc_replay by 'rt try', which proves nothing ('rt ci' proves it); about half a minute ..")
        said = build(kept, 20)
        if not os.access(kept, os.X_OK):
            said = build(kept, 400)
        if not os.access(kept, os.X_OK):
            sys.exit("ncc_replay was not built:\n" + said)
    return kept
