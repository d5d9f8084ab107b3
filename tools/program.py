#!/usr/bin/env python3
"""Says which program is that of these sources, and builds one where there is none.

usage: tools/program.py [path]     builds the program if need be, and prints where it stands
       tools/program.py kind       prints 'proved', 'quick' or 'none', and builds nothing
       tools/program.py stamp      prints the stamp of these sources

A program is that of these sources where its folder is named by their stamp: the SHA-256 of crates.txt, HANDLES, each
file below crates/*/src, specs and proofs, and of the toolchain's version. The moments of files decide nothing; they
only save hashing, by `current` (below), a file that the script `zeekoff` compares before it asks here.

    out/proved/STAMP/zeekoff    the proved program, as ./prove left it
    out/quick/STAMP/zeekoff     the program that was built without its proof, with build.log
    out/current                 a program, the toolchain's version, and each source with its size and moments

In a clone that can't be written these stand below $XDG_CACHE_HOME/zeekoff (~/.cache/zeekoff), by the clone's path.
"""
import contextlib
import fcntl
import glob
import hashlib
import os
import shutil
import signal
import subprocess
import sys
import tempfile
import time

import quick_program
from quick_program import PROGRAM, TOP

KINDS = ("proved", "quick")
# How many quick programs of other sources stay, for who goes back and forth between two.
STAY = 4


class NoProgram(Exception):
    """There is no program of these sources, and none can be had; says why and what to do."""


def say(what):
    print(f"zeekoff: {what}", file=sys.stderr, flush=True)


def version():
    """The toolchain's version, as its file KIT-ID has it."""
    found = shutil.which("rt")
    if not found:
        raise NoProgram("the toolchain's command rt isn't on the path; README.md says which toolchain this is")
    with open(os.path.join(os.path.dirname(os.path.dirname(os.path.realpath(found))), "KIT-ID"), "rb") as file:
        return file.read()


def sources():
    """The files of which a program is made and proved, in the order of their names."""
    files = [f"{TOP}/crates.txt", f"{TOP}/HANDLES"]
    for part in ("src", "specs", "proofs"):
        for folder in glob.glob(f"{glob.escape(TOP)}/crates/*/{part}"):
            files += [os.path.join(at, name) for at, _, names in os.walk(folder) for name in names]
    return sorted(os.path.relpath(path, TOP) for path in files)


def stamp():
    """The SHA-256 of the toolchain's version and of the names and contents of all sources."""
    whole = hashlib.sha256(version())
    for name in sources():
        with open(os.path.join(TOP, name), "rb") as file:
            content = hashlib.sha256(file.read())
        whole.update(name.encode() + b"\0" + content.digest())
    return whole.hexdigest()


def room():
    """The folder that programs are put into."""
    if os.access(TOP, os.W_OK):
        return f"{TOP}/out"
    cache = os.environ.get("XDG_CACHE_HOME") or os.path.expanduser("~/.cache")
    return f"{cache}/zeekoff/{TOP.replace('/', '%')}"


def found(wanted):
    """The program of a stamp and its kind, the proved one first, or None."""
    for kind in KINDS:
        for folder in dict.fromkeys([room(), f"{TOP}/out"]):
            path = f"{folder}/{kind}/{wanted}/{PROGRAM}"
            if os.access(path, os.X_OK):
                return path, kind
    return None


@contextlib.contextmanager
def turn(folder):
    """One build at a time; who comes second waits for the first."""
    os.makedirs(folder, exist_ok=True)
    with open(f"{folder}/lock", "w", encoding="utf8") as lock:
        try:
            fcntl.flock(lock, fcntl.LOCK_EX | fcntl.LOCK_NB)
        except BlockingIOError:
            say("another start builds the program already; waiting for it")
            fcntl.flock(lock, fcntl.LOCK_EX)
        yield


def put(made, kind, wanted):
    """Puts a folder that holds a whole program where programs of its kind stand: all of it at once, or nothing."""
    at = f"{room()}/{kind}/{wanted}"
    if not os.path.isdir(at):
        os.rename(made, at)
    others = sorted(glob.glob(f"{glob.escape(room())}/{kind}/*"), key=os.path.getmtime, reverse=True)
    for old in [other for other in others if other != at][STAY:]:
        shutil.rmtree(old, ignore_errors=True)
    return f"{at}/{PROGRAM}"


@contextlib.contextmanager
def begun(kind):
    """A folder in which a program is made. It is gone behind this unless it was put; one of a start that was killed goes first."""
    folder = f"{room()}/making"
    shutil.rmtree(folder, ignore_errors=True)
    os.makedirs(f"{room()}/{kind}", exist_ok=True)
    os.makedirs(folder)
    try:
        yield folder
    finally:
        shutil.rmtree(folder, ignore_errors=True)


def keep(program, kind, wanted, *logs):
    """Keeps a program that was built elsewhere as that of a stamp."""
    with turn(room()), begun(kind) as folder:
        shutil.copy2(program, f"{folder}/{PROGRAM}")
        for log in logs:
            shutil.copy2(log, folder)
        return put(folder, kind, wanted)


def build_quick(wanted):
    """Builds the program of a stamp without its proof."""
    since = time.monotonic()
    say("building the program of these sources without their proof: some five minutes, once")
    with begun("quick") as folder:
        try:
            with open(f"{folder}/build.log", "wb") as log:
                quick_program.build(TOP, f"{folder}/{PROGRAM}", log, say)
        except quick_program.CannotBuild:
            shutil.copy2(f"{folder}/build.log", f"{room()}/build.log")
            raise
        if stamp() != wanted:
            raise NoProgram("the sources changed while they were built; start it again")
        path = put(folder, "quick", wanted)
    say(f"built in {time.monotonic() - since:.0f} s, from the sources whose proof is ./prove; it isn't proved here, and keeps its checks")
    return path


def build_proved(wanted):
    """Proves the program and the crates that it stands on, and keeps it."""
    say("proving the program and the crates that it stands on instead, which takes two hours and more")
    folder = f"{TOP}/crates/{PROGRAM}"
    with open(f"{room()}/build.log", "ab") as log:
        subprocess.run(["rt", "run", "--", "--version"], cwd=folder, stdin=subprocess.DEVNULL, stdout=log, stderr=log)
    if not os.access(f"{folder}/out/{PROGRAM}", os.X_OK) or stamp() != wanted:
        raise NoProgram(f"the program could not be built; {room()}/build.log has all that was said")
    with begun("proved") as made:
        shutil.copy2(f"{folder}/out/{PROGRAM}", made)
        return put(made, "proved", wanted)


def program():
    """The program of these sources, which is built where it isn't there."""
    wanted = stamp()
    there = found(wanted)
    if there:
        return there[0]
    with turn(room()):
        there = found(wanted)
        if there:
            return there[0]
        try:
            return build_quick(wanted)
        except quick_program.CannotBuild as why:
            say(f"the program can't be built without its proof ({why}; {room()}/build.log)")
            return build_proved(wanted)


def listing():
    """What the script `zeekoff` compares, from its second line on."""
    find = "find crates.txt HANDLES crates/*/src crates/*/specs crates/*/proofs -type f -printf '%p %s %T@ %C@\\n'"
    return version() + subprocess.run(find, shell=True, cwd=TOP, capture_output=True, check=True).stdout


def note_current(path, listed):
    """Notes that a program is that of the sources as they were listed."""
    with contextlib.suppress(OSError), tempfile.NamedTemporaryFile(dir=room(), prefix="current-", delete=False) as file:
        file.write(path.encode() + b"\n" + listed)
        file.flush()
        os.chmod(file.name, 0o644)
        os.rename(file.name, f"{room()}/current")


def path():
    """Where the program of these sources stands, noted where nothing changed meanwhile."""
    listed = listing()
    at = program()
    if listing() == listed:
        note_current(at, listed)
    return at


def told():
    """Where the program of these sources stands. Says first which it is, for checks and measurements."""
    at = path()
    said = "proved program" if found(stamp())[1] == "proved" else "program that is built without its proof"
    print(f"{os.path.relpath(sys.argv[0], TOP)}: runs the {said} of these sources", file=sys.stderr, flush=True)
    return at


def ended(number, _frame):
    """A signal ends what is being built too, and leaves no folder behind."""
    sys.exit(128 + number)


def main(words):
    signal.signal(signal.SIGTERM, ended)
    signal.signal(signal.SIGHUP, ended)
    try:
        match words:
            case [] | ["path"]:
                print(path())
            case ["kind"]:
                print((found(stamp()) or (None, "none"))[1])
            case ["stamp"]:
                print(stamp())
            case _:
                sys.exit(__doc__.split("\n\n")[1])
    except KeyboardInterrupt:
        sys.exit(128 + signal.SIGINT)
    except NoProgram as why:
        say(why)
        sys.exit(125)
    except OSError as error:
        say(f"the program can't be kept or built: {error}; make the clone or ~/.cache writable, and see that the disk has room")
        sys.exit(125)


if __name__ == "__main__":
    main(sys.argv[1:])
