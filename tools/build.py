#!/usr/bin/env python3
"""Proves and builds the program: `rt ci` over the crates that it stands on and itself, without their must-fail edits.

    tools/build.py

It runs in a copy of these crates, so that their sources may change meanwhile. rt proves crates side by side where they don't stand on
each other, as many as there are processors and memory for (RT_JOBS says another number). That of the kit's release 13f keeps what passed by
the sums of all that it read: where its folder can be written, a later build, or the gate, proves only what is new.

Where the second output is a terminal, it is told there how far the build is. What rt prints is shown only where it fails. The status is 0
where the program was built.
"""
import fcntl
import pathlib
import re
import shutil
import subprocess
import sys
import tempfile
import time

TOP = pathlib.Path(__file__).resolve().parent.parent
PROGRAM = "cli"
EDITS = ("must-fail", "inner-edits")
DONE = re.compile(r"rt: (\w+) (?:proved$|is kept: )")


def listed_crates():
    """The lines of crates.txt, each under the name of its crate."""
    lines = (line.split("#")[0].strip() for line in (TOP / "crates.txt").read_text().split("\n"))
    return {line.partition(":")[0].split()[0]: line for line in lines if line}


def crates_of(program):
    """The lines of crates.txt of the program and of each crate that it stands on."""
    listed, found = listed_crates(), {}

    def visit(crate):
        found[crate] = listed[crate]
        for below in listed[crate].partition(":")[2].split():
            if below in listed and below not in found:
                visit(below)

    visit(program)
    return found


def copy_crates(crates, room):
    """Makes a repository of these crates alone, without their edits."""
    (room / ".git").mkdir()
    (room / "crates.txt").write_text("".join(f"{line}\n" for line in crates.values()))
    shutil.copyfile(TOP / "HANDLES", room / "HANDLES")
    for crate in crates:
        shutil.copytree(TOP / "crates" / crate, room / "crates" / crate, ignore=shutil.ignore_patterns("out", *EDITS))


def tell(done, count, started):
    """Says how far the build is, where that is read."""
    if sys.stderr.isatty():
        minutes = int(time.monotonic() - started) // 60
        print(f"office: {done} of {count} crates proved (minute {minutes})", file=sys.stderr, flush=True)


def prove(room, count):
    """Runs rt ci, and tells how far it is. Returns its status, and what it printed."""
    said, done, started = [], 0, time.monotonic()
    tell(done, count, started)
    output = {"stdin": subprocess.DEVNULL, "stdout": subprocess.PIPE, "stderr": subprocess.STDOUT, "text": True, "errors": "replace"}
    with subprocess.Popen(["rt", "ci"], cwd=room, **output) as rt:
        for line in rt.stdout:
            said.append(line)
            if DONE.match(line):
                done += 1
                tell(done, count, started)
    return rt.returncode, "".join(said)


def build():
    """Proves and builds the program, and puts it in its place. Returns whether that came about."""
    crates = crates_of(PROGRAM)
    with tempfile.TemporaryDirectory(prefix="office-build-") as place:
        room = pathlib.Path(place)
        copy_crates(crates, room)
        status, said = prove(room, len(crates))
        if status:
            print(said, end="", file=sys.stderr)
            return False
        out = TOP / "crates" / PROGRAM / "out"
        out.mkdir(exist_ok=True)
        # (it may be running)
        made = out / f"{PROGRAM}.new"
        shutil.copyfile(room / "crates" / PROGRAM / "out" / PROGRAM, made)
        made.chmod(0o755)
        made.replace(out / PROGRAM)
    return True


def main():
    if shutil.which("rt") is None:
        print("office: the toolchain's command rt has to be on the path", file=sys.stderr)
        return 1
    with open(TOP / "crates.txt", "rb") as alone:
        # A second build waits for the first, and then finds all kept.
        fcntl.flock(alone, fcntl.LOCK_EX)
        try:
            return 0 if build() else 1
        except KeyboardInterrupt:
            return 130


if __name__ == "__main__":
    sys.exit(main())
