#!/usr/bin/env python3
"""Cuts the power at each call to the disk that the program makes, and looks what is left.

    tests/power_cuts.py [PROGRAM] [--draws N] [--seed S] [--minutes M] [--only WORD] [--spoil N]      (crates/cli/out/cli; 12 draws, no end; wants cc)

`init`, `deliver`, `serve`, and `deliver` over files of the first and the second schema, which are converted, run once, and what they write to their files, sync
and answer is recorded by a preloaded library. Behind each call the power is cut: what a file had at its last sync is there, and of what was done to
it since, each write is there, missing or torn, in any choice. A torn write has some of its bytes; past the end that was synced it may have any. All
that is there, nothing, each write alone there, missing or torn, and so many draws are tried. A file whose folder was never synced may be missing.

Each answer that was given by then has to be in the file with its reply, the next one perhaps, and nothing else; the file has to be whole for
SQLite, and the same lines get the replies of a disk that works. With `--spoil N` the N-th mistake of a program is planted, and has to be found: one
that never syncs, one that answers before it syncs, one that syncs the database alone. The last line is `N cuts, F files, W wrong`: F are the
different ones, each of which was looked at. The status is 1 if anything was wrong.
"""
import argparse
import itertools
import os
import pathlib
import random
import subprocess
import sys
import tempfile
import time

import failing_calls as failing
from looks import free_port

TOP = failing.TOP
SECTOR = 512
PROGRAMS = ("init", "deliver", "convert", "convert_second", "serve")
MISTAKES = ("never syncs", "answers before it syncs", "syncs the database alone")


def recorded(path):
    """What a program did to the disk, in order: its kind, the file's name, the place, the bytes."""
    calls, data, at = [], path.read_bytes(), 0
    while at < len(data):
        end = data.index(b"\n", at)
        kind, rest = data[at:end].decode().split(" ", 1)
        name, place, size = rest.rsplit(" ", 2)
        body = data[end + 1 : end + 1 + int(size)] if kind in "wa" else b""
        at = end + 1 + len(body)
        calls.append((kind, pathlib.Path(name).name if "office.db" in name else "", int(place), body))
    return calls


def spoiled(calls, mistake):
    """The same of a program that makes a mistake."""
    if mistake == "never syncs":
        return [it for it in calls if it[0] != "s"]
    if mistake == "syncs the database alone":
        return [it for it in calls if it[0] != "s" or it[1] != "office.db-wal"]
    # Each answer comes before the last syncs in front of it, and the writes between them.
    made = []
    for it in calls:
        if it[0] == "a":
            back = len(made)
            while back and made[back - 1][0] in "sw" and len(made) - back < 6:
                back -= 1
            made.insert(back, it)
        else:
            made.append(it)
    return made


class File:
    """A file: what is on the disk for sure, and what was done to it since, in order."""

    def __init__(self, data):
        self.data, self.since = data, []

    def do(self, call):
        if call[0] == "s":
            self.data, self.since = self.left(["there"] * len(self.since), None), []
        else:
            self.since.append(call)

    def left(self, choices, draw):
        """What it has where each call since the last sync is there, missing or torn."""
        data = bytearray(self.data)
        for (kind, _, at, body), choice in zip(self.since, choices):
            if choice == "missing":
                continue
            if kind == "t":
                at = at if choice == "there" else draw.randint(min(at, len(data)), max(at, len(data)))
                data[at:] = bytes(max(0, at - len(data)))
                continue
            data.extend(bytes(max(0, at + len(body) - len(data))))
            data[at : at + len(body)] = body if choice == "there" else torn(body, bytes(data[at : at + len(body)]), len(self.data) - at, draw)
        return bytes(data)


def torn(new, old, synced, draw):
    """Some bytes of a write: its beginning, its end, or some sectors; past the end that was synced perhaps any other bytes."""
    way = draw.randrange(4)
    cut = draw.randrange(len(new)) if len(new) > 1 else 0
    if way == 0:
        return new[:cut] + old[cut:]
    if way == 1:
        return old[:cut] + new[cut:]
    if way == 2:
        return b"".join((new if draw.random() < 0.5 else old)[it : it + SECTOR] for it in range(0, len(new), SECTOR))
    kept = max(0, min(synced, len(new)))
    return new[:kept] + draw.randbytes(len(new) - kept)


def choices(count, draw, draws):
    """What may have come of so many calls: all there, none, each alone otherwise, and draws."""
    words = ("there", "missing", "torn")
    if len(words) ** count <= draws:
        return list(itertools.product(words, repeat=count))
    every = [[word] * count for word in ("there", "missing")]
    for place in range(count):
        for rest, word in (("there", "missing"), ("there", "torn"), ("missing", "there"), ("missing", "torn")):
            every.append([rest] * place + [word] + [rest] * (count - place - 1))
    return every + [[draw.choice(words) for _ in range(count)] for _ in range(draws)]


class Cuts:
    def __init__(self, trial, given):
        self.trial, self.given, self.folder = trial, given, trial.folder
        self.cuts, self.seen, self.draw = 0, set(), random.Random(given.seed)
        self.library = self.folder / "record_calls.so"
        subprocess.run(["cc", "-shared", "-fPIC", "-O1", "-o", self.library, TOP / "tests" / "growths" / "record_calls.c", "-ldl"], check=True)

    def record(self, run):
        """What a program did, and what its files were before."""
        before = {it.name: it.read_bytes() for it in self.folder.glob("office.db*")}
        path = self.folder / "record"
        path.unlink(missing_ok=True)
        run({"LD_PRELOAD": str(self.library), "RECORD": str(path)})
        calls = recorded(path)
        return before, calls if self.given.spoil is None else spoiled(calls, MISTAKES[self.given.spoil])

    def cut_each(self, name, before, calls, look):
        """The power cut before all and behind each call."""
        files, unsure, said = {it: File(data) for it, data in before.items()}, set(), b""
        self.cut(f"{name}, before all", files, unsure, 0, look)
        for n, (kind, file, *_, body) in enumerate(calls):
            if kind == "a":
                said += body
            elif not file:
                unsure = set() if kind == "s" else unsure
            elif kind == "o" and file not in files:
                files[file] = File(b"")
                unsure = unsure | {file}
            elif kind != "o":
                files[file].do(calls[n])
            if time.monotonic() > self.trial.end or self.given.spoil is not None and self.trial.wrong:
                return
            self.cut(f"{name}, behind call {n}, {kind} {file}", files, unsure, answers_in(said), look)

    def cut(self, what, files, unsure, answered, look):
        """The power cut now: each choice of what is left, with so many answers given."""
        names = sorted(files)
        outcomes = [[(it, choice) for choice in choices(len(files[it].since), self.draw, self.given.draws)] for it in names]
        if len(outcomes) > 1 and min(map(len, outcomes)) > 1:
            product = [self.draw.choices(outcomes[0], k=1) + self.draw.choices(outcomes[1], k=1) for _ in range(self.given.draws * 4)]
        else:
            product = itertools.product(*outcomes)
        for outcome in product:
            for missing in {frozenset(), frozenset(it for it in unsure if self.draw.random() < 0.5)}:
                left = {it: files[it].left(choice, self.draw) for it, choice in outcome if it not in missing}
                self.cuts += 1
                key = hash((answered, *sorted(left.items())))
                if key not in self.seen:
                    self.seen.add(key)
                    self.lay(left)
                    look(f"{what}: {dict(outcome)}"[:400], answered)

    def lay(self, left):
        self.trial.clear()
        for name, data in left.items():
            (self.folder / name).write_bytes(data)


def answers_in(said):
    """How many replies were given, or begun: lines, or answers over HTTP."""
    return said.count(b"HTTP/1.1 ") or said.count(b"\n")


class Programs:
    """The three programs: how each is run, and how its files are looked at when the power was cut."""

    def __init__(self, trial):
        self.trial = trial

    def init(self, how):
        return self.trial.run("init", "--store", self.trial.store, "--manager", "root", how=how)

    def deliver(self, how):
        """Each line behind the reply to the one before."""
        words = [self.trial.program, "deliver", "--store", str(self.trial.store)]
        with subprocess.Popen(words, stdin=subprocess.PIPE, stdout=subprocess.PIPE, env={**os.environ, **how}) as process:
            for line in failing.LINES:
                process.stdin.write(line.encode() + b"\n")
                process.stdin.flush()
                process.stdout.readline()

    convert = convert_second = deliver

    def serve(self, how):
        port = free_port()
        words = [self.trial.program, "serve", "--store", str(self.trial.store), "--port", str(port), "--connections", "1"]
        with subprocess.Popen(words, stdin=subprocess.DEVNULL, stdout=subprocess.PIPE, stderr=subprocess.PIPE, env={**os.environ, **how}) as process:
            self.trial.posted(port, process)
            process.communicate(timeout=failing.SECONDS)

    def look_at_init(self, what, answered):
        found = self.init(None)
        if found not in ((1, "", "store: exists\n"), *([] if answered else [(0, "ready\n", "")])):
            self.trial.say(what, f"then {found}")
        self.trial.look(what, 0)

    def look(self, what, answered):
        # The first request was answered before.
        self.trial.look(what, max(answered, 1))


def cut_all(trial, given):
    cuts, programs = Cuts(trial, given), Programs(trial)
    for name in given.only or PROGRAMS:
        {"init": trial.clear, "convert": lambda: trial.begin_earlier(1), "convert_second": lambda: trial.begin_earlier(2)}.get(name, lambda: trial.begin(1))()
        before, calls = cuts.record(getattr(programs, name))
        cuts.cut_each(name, before, calls, programs.look_at_init if name == "init" else programs.look)
    return cuts


def main():
    parser = argparse.ArgumentParser(description=__doc__.split("\n", 1)[0])
    parser.add_argument("program", nargs="?", type=pathlib.Path, default=TOP / "crates" / "cli" / "out" / "cli")
    parser.add_argument("--draws", type=int, default=12)
    parser.add_argument("--seed", type=int, default=1)
    parser.add_argument("--minutes", type=float, default=float("inf"))
    parser.add_argument("--only", choices=PROGRAMS, action="append")
    parser.add_argument("--spoil", type=int)
    given = parser.parse_args()
    with tempfile.TemporaryDirectory(prefix="office-cuts-") as name:
        trial = failing.Trial(given.program.resolve(), pathlib.Path(name), given)
        cuts = cut_all(trial, given)
    print(f"{cuts.cuts} cuts, {len(cuts.seen)} files, {trial.wrong} wrong")
    return 1 if trial.wrong else 0


if __name__ == "__main__":
    sys.exit(main())
