#!/usr/bin/env python3
"""Runs the program in as little room as it starts in, and in more and more, up to where all goes as ever.

    tests/growths/room.py [PROGRAM] [--step K] [--only WORD] [--spoil]      (crates/cli/out/cli, 64; wants prlimit and setarch, of util-linux)

The room is what a process may have of addresses (RLIMIT_AS), its stack among them: K kilobytes more at each run, from where `office --version` runs.
`init`, `deliver` over tables in maps and in a file, `export` and `serve` get requests that fill it, and behind them lines of 127 lists and of 127
objects within one another, for which a reader takes the most stack. A line gets the reply that it gets in ample room where the lines that were lost
aren't sent, or `503 {"error":"memory"}`; or the program ends behind whole replies with a fault of memory; or it doesn't begin. A file is whole then, and
has the records of what was answered. No run ends by a signal. And where the stack alone is as small as `office --version` runs with (RLIMIT_STACK), all
goes as ever, also with a file whose record is such a line, which is refused. With `--spoil` that stack is 8 kilobytes smaller, as for a program that
takes too little of it at its start, which has to be found. The last line is `N runs, M as ever, W wrong`; the status is 1 if anything was wrong.
"""
import argparse
import contextlib
import hashlib
import http.client
import json
import os
import pathlib
import shutil
import sqlite3
import subprocess
import sys
import tempfile
import time

TOP = pathlib.Path(__file__).resolve().parent.parent.parent
sys.path.insert(0, str(TOP / "tests"))

from looks import HOST, free_port, number  # noqa: E402

SECONDS = 300
# Behind so many runs in a row in which all went as ever, the room suffices.
ENOUGH = 12
MOST = 400_000
MEMORY = (503, '{"error":"memory"}')
MALFORMED = (400, '{"error":"malformed"}')
DEEP = ["[" * 127 + "]" * 127, '{"":' * 127 + "0" + "}" * 127]
HEADER = 'msgid ""\nmsgstr ""\n"Content-Type: text/plain; charset=UTF-8\\n"\n"Plural-Forms: nplurals=2; plural=n != 1;\\n"\n'
COUNT = 40
ACTS = [
    {"act": "team", "name": "ann", "role": "translator"},
    {"act": "policy", "accept_at": 2, "guests_suggest": False, "line_ends": False, "placeholders": False, "reviews": False, "voting": True},
    {"act": "template", "po": "\n".join(f'msgid "message {n}"\nmsgstr ""\n' for n in range(COUNT))},
    {"act": "language", "lang": "de", "po": HEADER},
    *({"act": "comment", "id": f"message {n}", "lang": "de", "lines": ["x" * 900] * 20, "seen": 1} for n in range(COUNT)),
]
# Each way to write of a unit: its row alone, a suggestion, a vote that is new or taken back, with its sum, and what a vote accepts.
UNIT = {"id": "message 0", "lang": "de", "seen": 2}
VOTE = {"act": "vote", "suggestion": number(len(ACTS) + 3), **UNIT}
LAST = [
    {"act": "suggest", "caller": "ann", "forms": ["Meldung"], **UNIT},
    *({"value": it, **VOTE} for it in (-1, 0, 1)),
    {"act": "comment", "lines": ["y"], **UNIT, "seen": 3},
]
# What is asked, each with a number: the deep ones once the room is filled.
ASKED = [(number(n + 1), it) for n, it in enumerate([*ACTS, *DEEP, *LAST])]
NAMES = ("init", "maps", "deliver", "export", "serve")
NOT_BEGUN = ["", "error: out of memory\n", "store fault 1\n"]


def line_of(asked):
    number_of, act = asked
    return act if isinstance(act, str) else json.dumps({"caller": "root", **act, "number": number_of})


def reply_of(line):
    return int(line[:3]), line[4:]


class Trial:
    def __init__(self, program, folder, given):
        self.program, self.folder, self.given = program, folder, given
        self.runs = self.ample = self.wrong = 0
        self.known, self.kind = {}, "as"
        self.store = folder / "office.db"
        self.begun = folder / "begun.db"
        self.run("init", "--store", self.begun, "--manager", "root")

    def say(self, what, why):
        self.wrong += 1
        print(f"{what}: {why}", flush=True)

    def words(self, kilobytes, *words):
        """The words of a run in so much room, where the places of its parts don't change from run to run."""
        room = [] if kilobytes is None else ["/usr/bin/setarch", "-R", "/usr/bin/prlimit", f"--{self.kind}={kilobytes * 1024}"]
        return [*room, str(self.program), *map(str, words)]

    def run(self, *words, given="", kilobytes=None):
        done = subprocess.run(self.words(kilobytes, *words), input=given.encode(), capture_output=True, timeout=SECONDS, check=False, env={})
        return done.returncode, done.stdout.decode(errors="replace"), done.stderr.decode(errors="replace")

    def least(self):
        """How many kilobytes the program starts in."""
        low, high = 0, 1 << 22
        while high - low > 4:
            middle = (low + high) // 2
            low, high = (low, middle) if self.run("--version", kilobytes=middle)[0] == 0 else (middle, high)
        return high

    def clear(self, begun=None):
        for it in self.folder.glob("office.db*"):
            it.unlink()
        if begun:
            shutil.copy(begun, self.store)

    # ---- what has to come

    def ample_run(self, asked):
        """The replies to these lines and the language's text behind them, in ample room and over tables in maps."""
        key = hashlib.sha256(repr(asked).encode()).digest()
        if key not in self.known:
            text = "".join(line_of(it) + "\n" for it in asked)
            status, out, faults = self.run("deliver", "--export", "de", given=text)
            lines = out.splitlines(keepends=True)
            replies = [reply_of(it.rstrip("\n")) for it in lines[: len(asked)]]
            if faults not in ("", "export fault 1\n") or MEMORY in replies:
                sys.exit(f"in ample room: {status} {out[:200]} {faults}")
            self.known[key] = replies, "".join(lines[len(asked) :]), (status, faults)
        return self.known[key]

    def replies_fit(self, what, found):
        """Whether the replies to the first lines are those of ample room, or tell of lost lines; what ample room gives to those that weren't lost."""
        taken = [it for it, reply in zip(ASKED, found) if reply != MEMORY]
        replies, text, ends = self.ample_run(taken)
        if [it for it in found if it != MEMORY] != replies:
            self.say(what, f"replies {[it for it in zip(found, ASKED)][:4]}")
        return replies, text, ends

    def file_fits(self, what, replies, found):
        """The file is whole, and has the records of what was answered: of each line but those that were lost and those that are no request."""
        status, out, faults = self.run("records", "--store", self.store)
        wanted = [(it[0], reply[0]) for it, reply in zip(ASKED, found) if reply not in (MEMORY, MALFORMED)]
        told = [(it["number"], it["status"]) for it in map(json.loads, out.splitlines())]
        if (status, told, faults) != (0, wanted, ""):
            self.say(what, f"the records: {status} {told} {faults}, not {wanted}")

    # ---- the programs

    def init(self, what, kilobytes):
        self.clear()
        found = self.run("init", "--store", self.store, "--manager", "root", kilobytes=kilobytes)
        begins = found == (0, "ready\n", "")
        if not begins and (found[:2] != (1, "") or found[2] not in NOT_BEGUN):
            self.say(what, f"{found}")
        again = self.run("init", "--store", self.store, "--manager", "root")
        if again not in ([(1, "", "store: exists\n")] if begins else [(1, "", "store: exists\n"), (0, "ready\n", "")]):
            self.say(what, f"again: {again}")
        return begins

    def delivered(self, what, kilobytes, *words):
        given = "".join(line_of(it) + "\n" for it in ASKED)
        status, out, faults = self.run("deliver", *words, "--export", "de", given=given, kilobytes=kilobytes)
        lines = out.splitlines(keepends=True)
        if status == 1 and faults in NOT_BEGUN and not out:
            return []
        found = [reply_of(it.rstrip("\n")) for it in lines[: len(ASKED)]]
        if len(found) < len(ASKED):
            self.say(what, f"{status} {faults} behind {len(found)} replies")
            return found
        _, text, ends = self.replies_fit(what, found)
        told = "".join(lines[len(ASKED) :])
        if ((status, faults), told) != (ends, text) and not ((status, faults) == (1, "export fault 3\n") and text.startswith(told)):
            self.say(what, f"{status} {faults} {told[:100]}")
        return found if (status, faults) == (0, "") else []

    def maps(self, what, kilobytes):
        found = self.delivered(what, kilobytes)
        return bool(found) and MEMORY not in found

    def deliver(self, what, kilobytes):
        self.clear(self.begun)
        found = self.delivered(what, kilobytes, "--store", self.store)
        if found:
            self.file_fits(what, None, found)
        return bool(found) and MEMORY not in found

    def export(self, what, kilobytes):
        filled = self.folder / "filled.db"
        if not filled.exists():
            shutil.copy(self.begun, filled)
            self.run("deliver", "--store", filled, given="".join(line_of(it) + "\n" for it in ASKED))
        self.clear(filled)
        text = self.ample_run(ASKED)[1]
        ample = 0, text, f"bytes {len(text.encode())} sha256 {hashlib.sha256(text.encode()).hexdigest()}\n"
        found = self.run("export", "--store", self.store, "--lang", "de", kilobytes=kilobytes)
        lost = found[0] == 1 and (found[2] == "export fault 3\n" and text.startswith(found[1]) or found[2] in NOT_BEGUN and not found[1])
        if found != ample and not lost:
            self.say(what, f"{found}")
        return found == ample

    def serve(self, what, kilobytes):
        self.clear(self.begun)
        port = free_port()
        words = self.words(kilobytes, "serve", "--store", self.store, "--port", port, "--connections", 1)
        with subprocess.Popen(words, stdin=subprocess.DEVNULL, stdout=subprocess.PIPE, stderr=subprocess.PIPE, env={}) as process:
            found = list(self.posted(port, process))
            out, faults = (it.decode() for it in process.communicate(timeout=SECONDS))
        self.replies_fit(what, found)
        ends = (process.returncode, out, faults)
        if ends not in ((0, "", ""), (1, "", "serve fault 3\n"), *((1, "", it) for it in NOT_BEGUN if not found)):
            self.say(what, f"{ends} behind {len(found)} replies")
        if found:
            self.file_fits(what, None, found)
        return len(found) == len(ASKED) and MEMORY not in found

    def posted(self, port, process):
        """What is answered to the requests, one behind another on one connection, as far as that goes."""
        until = time.monotonic() + SECONDS
        client = http.client.HTTPConnection(HOST, port, timeout=SECONDS)
        while process.poll() is None and time.monotonic() < until:
            with contextlib.suppress(ConnectionRefusedError):
                client.connect()
                break
            time.sleep(0.01)
        if client.sock is None:
            return
        with contextlib.suppress(http.client.HTTPException, OSError):
            for it, act in ASKED:
                fields = {} if isinstance(act, str) else act
                body = act if isinstance(act, str) else json.dumps({name: it for name, it in fields.items() if name != "caller"})
                client.request("POST", f"/v1/requests/{it}", body.encode(), {"X-Office-Caller": fields.get("caller", "root")})
                reply = client.getresponse()
                yield reply.status, reply.read().decode()
        client.close()

    def small_stack(self):
        """All goes as ever with the least stack that the program starts with."""
        self.kind = "stack"
        # (an argument or a number of the process may take a page more)
        kilobytes = self.least() + (-8 if self.given.spoil else 8)
        for name in NAMES:
            self.runs += 1
            what = f"{name} with {kilobytes} KB of stack"
            if getattr(self, name)(what, kilobytes):
                self.ample += 1
            else:
                self.say(what, "not as ever")
        for deep in DEEP:
            self.clear(self.begun)
            self.run("deliver", "--store", self.store, given=line_of(ASKED[0]) + "\n")
            with contextlib.closing(sqlite3.connect(self.store)) as base, base:
                base.execute("UPDATE record SET content = ?", [deep])
            self.runs += 1
            found = self.run("records", "--store", self.store, kilobytes=kilobytes)
            if found == (1, "", "store fault 3\n"):
                self.ample += 1
            else:
                self.say(f"a record of {deep[:8]}.. with {kilobytes} KB of stack", f"{found}")

    def all(self, start):
        for name in NAMES:
            if self.given.only not in name:
                continue
            kilobytes, in_a_row = start, 0
            while in_a_row < ENOUGH and kilobytes < MOST:
                self.runs += 1
                ample = getattr(self, name)(f"{name} in {kilobytes} KB", kilobytes)
                in_a_row = in_a_row + 1 if ample else 0
                self.ample += ample
                kilobytes += self.given.step
            if in_a_row < ENOUGH:
                self.say(name, f"no room suffices, up to {kilobytes} KB")


def main():
    parser = argparse.ArgumentParser(description=__doc__.split("\n", 1)[0])
    parser.add_argument("program", nargs="?", default=TOP / "crates" / "cli" / "out" / "cli", type=pathlib.Path)
    parser.add_argument("--step", type=int, default=64)
    parser.add_argument("--only", default="")
    parser.add_argument("--spoil", action="store_true")
    given = parser.parse_args()
    with tempfile.TemporaryDirectory() as name:
        trial = Trial(given.program.resolve(), pathlib.Path(name), given)
        # (an argument or a number of the process may take a page more)
        if not given.spoil:
            trial.all(trial.least() + 8)
        if not given.only:
            trial.small_stack()
    print(f"{trial.runs} runs, {trial.ample} as ever, {trial.wrong} wrong")
    return 1 if trial.wrong or not trial.ample else 0


if __name__ == "__main__":
    sys.exit(main())
