#!/usr/bin/env python3
"""Fails each call to the disk of the program in turn, on real files, and looks what is left.

    tests/failing_calls.py [PROGRAM] [--every K] [--minutes M] [--only WORD] [--spoil]      (crates/cli/out/cli, each call, no end; wants cc)

`init`, `deliver`, `export`, `serve`, and `deliver` over files of the first and the second schema, which are converted, run with one write, sync, truncation,
opening or removal failed, the first, the second and so on till none is met, by EIO and by ENOSPC, and with a write that takes half its bytes; and
with all calls from one on failed. Files are cut at every 512 bytes of their log too, and the last 512 are torn. Behind each the file has to be
whole for SQLite, each request that was answered there with its reply, the next one perhaps, and nothing else; then the same lines by the program
get the replies of a disk that works. With `--every K` each K-th is tried. With `--spoil` a write that fails is taken for done, as by a program that
doesn't look, which has to be found. The last line is `N failures, C cuts, W wrong`; the status is 1 if anything was wrong.
"""
import argparse
import contextlib
import http.client
import json
import os
import pathlib
import shutil
import sqlite3
import subprocess
import sys
import tempfile
import time

import first_tables
from looks import HOST, free_port, number

TOP = pathlib.Path(__file__).resolve().parent.parent
SECONDS = 300
HEADER = 'msgid ""\nmsgstr ""\n"Content-Type: text/plain; charset=UTF-8\\n"\n"Plural-Forms: nplurals=2; plural=n != 1;\\n"\n'
# Each way to write of a unit is among them: its row alone, a suggestion, a vote that is new or taken back, with its sum, and what a vote accepts.
ON_HELLO = {"lang": "de", "id": "Hello", "seen": 2}
VOTE = {"act": "vote", **ON_HELLO, "suggestion": number(5)}
ACTS = [
    {"act": "template", "po": 'msgid "Hello"\nmsgstr ""\n'},
    {"act": "language", "lang": "de", "po": HEADER},
    {"act": "translate", **ON_HELLO, "seen": 1, "forms": ["Hallo"]},
    {"act": "team", "name": "ann", "role": "translator"},
    {"act": "policy", "accept_at": 2, "guests_suggest": False, "line_ends": False, "placeholders": False, "reviews": False, "voting": True},
    {"act": "suggest", **ON_HELLO, "caller": "ann", "forms": ["Servus"]},
    {**VOTE, "value": -1},
    {**VOTE, "value": 0},
    {**VOTE, "value": 1},
]
# The replies, by the page of formats.
REPLIES = [
    '200 {"languages":{}}',
    '200 {"loaded":0,"missing":1,"obsolete":0}',
    '200 {"revision":2,"state":"translated"}',
    '200 {"name":"ann","role":"translator"}',
    '200 {"units":0}',
    '200 {"revision":2,"state":"translated","suggestion":"%s","votes":1}' % number(5),
    '200 {"accepted":false,"revision":2,"state":"translated","votes":0}',
    '200 {"accepted":false,"revision":2,"state":"translated","votes":1}',
    '200 {"accepted":true,"revision":3,"state":"translated","votes":2}',
]
DISK = '507 {"error":"disk"}'
# The language's text behind the translation, and behind all.
TEXT = HEADER + '\nmsgid "Hello"\nmsgstr "Hallo"\n'
LAST_TEXT = TEXT.replace("Hallo", "Servus")
KINDS = ("pwrite", "sync", "truncate", "open", "unlink")
LIE = {"FAIL_ERRNO": "0", "FAIL_LIE": "1"}
WAYS = [{"FAIL_ERRNO": "5"}, {"FAIL_ERRNO": "28"}, {"FAIL_ERRNO": "5", "FAIL_ON": "1"}]
PROGRAMS = ("init", "deliver", "convert", "convert_second", "export", "serve", "cuts")
SHORT = {"FAIL_ERRNO": "0", "FAIL_SHORT": "1"}


LINES = [json.dumps({"caller": "root", **it, "number": number(n)}) for n, it in enumerate(ACTS)]


class Trial:
    def __init__(self, program, folder, given):
        self.program, self.folder, self.given = program, folder, given
        self.store, self.met, self.library = folder / "office.db", folder / "met", folder / "fail_call.so"
        self.failures = self.cuts = self.wrong = 0
        self.end = time.monotonic() + given.minutes * 60
        subprocess.run(["cc", "-shared", "-fPIC", "-O1", "-o", self.library, TOP / "tests" / "growths" / "fail_call.c", "-ldl"], check=True)

    def say(self, what, why):
        self.wrong += 1
        print(f"{what}: {why}", flush=True)

    def run(self, *words, given="", how=None):
        environment = {**os.environ, "ASAN_OPTIONS": "verify_asan_link_order=0:detect_leaks=0", **(how or {})}
        if how:
            environment |= {"LD_PRELOAD": str(self.library), "FAIL_MET": str(self.met), **how}
        done = subprocess.run([self.program, *map(str, words)], input=given.encode(), capture_output=True, timeout=SECONDS, check=False, env=environment)
        return done.returncode, done.stdout.decode(), done.stderr.decode()

    def clear(self):
        for it in self.folder.glob("office.db*"):
            it.unlink()
        self.met.unlink(missing_ok=True)

    def begin(self, count):
        """An office that has taken so many of the requests."""
        self.clear()
        begun = self.folder / f"begun{count}"
        if not begun.exists():
            replies = self.run("init", "--store", self.store, "--manager", "root")[1], self.run("deliver", "--store", self.store, given="".join(it + "\n" for it in LINES[:count]))[1]
            if replies != ("ready\n", "".join(it + "\n" for it in REPLIES[:count])):
                sys.exit(f"the office: {replies}")
            begun.mkdir()
            for it in self.folder.glob("office.db*"):
                shutil.copy(it, begun)
        for it in begun.iterdir():
            shutil.copy(it, self.folder)

    def begin_earlier(self, schema):
        """An office of the first schema or of the second that has taken the first request."""
        self.begin(1)
        later = self.folder / "later.db"
        self.store.rename(later)
        self.clear()
        first_tables.make(self.store, later, schema)

    def recorded(self, what):
        """The numbers and replies that a copy of the file has, which has to be whole."""
        with tempfile.TemporaryDirectory(dir=self.folder) as name:
            for it in self.folder.glob("office.db*"):
                shutil.copy(it, name)
            try:
                return self.records_in(what, pathlib.Path(name, "office.db"))
            except sqlite3.DatabaseError as fault:
                return self.say(what, fault)

    def records_in(self, what, path):
        with contextlib.closing(sqlite3.connect(path)) as db:
            whole = db.execute("PRAGMA integrity_check").fetchall() + db.execute("PRAGMA foreign_key_check").fetchall()
            if whole != [("ok",)]:
                self.say(what, whole[:2])
            there = db.execute("SELECT count(*) FROM sqlite_schema WHERE name = 'record'").fetchone()[0]
            return [(it, f"{status} {body}") for it, status, body in db.execute("SELECT number, status, body FROM record ORDER BY rowid")] if there else None

    def look(self, what, answered):
        """Behind a failure: what was answered is there, perhaps the next, and nothing else; the same lines get the replies that they get."""
        found = self.recorded(what)
        wanted = [(number(n), it) for n, it in enumerate(REPLIES)]
        if found is None or found not in (wanted[:answered], wanted[: answered + 1]):
            self.say(what, f"records {found}, {answered} were answered")
        status, out, faults = self.run("deliver", "--store", self.store, "--export", "de", given="".join(it + "\n" for it in LINES))
        if (status, out, faults) != (0, "".join(it + "\n" for it in REPLIES) + LAST_TEXT, ""):
            self.say(what, f"then {status} {faults} {out[:300]}")

    # the programs, each with what it may say

    def init(self, what, how):
        self.clear()
        status, out, faults = self.run("init", "--store", self.store, "--manager", "root", how=how)
        # (a file that can't be closed is a fault besides)
        if (status, out, faults) not in ((0, "ready\n", ""), (1, "", "store fault 2\n"), (1, "", "store fault 2\n" * 2)):
            self.say(what, f"{status} {out}{faults}")
        if status:
            again = self.run("init", "--store", self.store, "--manager", "root")
            if again not in ((0, "ready\n", ""), (1, "", "store: exists\n")):
                self.say(what, f"and again {again}")
        self.look(what, 0)

    def deliver(self, what, how):
        self.begin(1)
        self.deliver_all(what, how)

    def convert(self, what, how):
        self.begin_earlier(1)
        self.deliver_all(what, how)

    def convert_second(self, what, how):
        self.begin_earlier(2)
        self.deliver_all(what, how)

    def deliver_all(self, what, how):
        status, out, faults = self.run("deliver", "--store", self.store, given="".join(it + "\n" for it in LINES), how=how)
        said = out.split("\n")[:-1]
        count = next((n for n, it in enumerate(said) if it == DISK), len(said))
        # (a file that can't be closed is a fault behind the replies, or behind that of the opening)
        is_told = (status, faults) in ((1, "store fault 2\n"), (1, "store fault 2\n" * (1 if said else 2))) or said and (status, faults) == (0, "")
        if said not in ([], REPLIES[:count] + [DISK] * (len(LINES) - count)) or not is_told:
            self.say(what, f"{status} {faults} {said}")
        self.look(what, max(count, 1))

    def export(self, what, how):
        self.begin(3)
        status, out, faults = self.run("export", "--store", self.store, "--lang", "de", how=how)
        # (a file that can't be closed is a fault behind the text)
        is_done = out == TEXT and faults.startswith(f"bytes {len(TEXT)} ") and (status, faults.split("\n")[1:]) in ((0, [""]), (1, ["store fault 2", ""]))
        if not is_done and not (status == 1 and TEXT.startswith(out) and faults in ("store fault 2\n", "export fault 4\n")):
            self.say(what, f"{status} {out}{faults}")
        self.look(what, 3)

    def serve(self, what, how):
        self.begin(1)
        port = free_port()
        words = [self.program, "serve", "--store", str(self.store), "--port", str(port), "--connections", "1"]
        environment = {**os.environ, "ASAN_OPTIONS": "verify_asan_link_order=0:detect_leaks=0", **how, "LD_PRELOAD": str(self.library), "FAIL_MET": str(self.met)}
        with subprocess.Popen(words, stdin=subprocess.DEVNULL, stdout=subprocess.PIPE, stderr=subprocess.PIPE, env=environment) as process:
            said = self.posted(port, process)
            faults = process.communicate(timeout=SECONDS)[1].decode()
        count = next((n for n, it in enumerate(said) if it == DISK), len(said))
        ends = [(3, "disk fault\n")] if DISK in said else [(0, ""), (1, "store fault 2\n")]
        if said not in ([], REPLIES[:count] + [DISK] * (len(LINES) - count)) or (process.returncode, faults) not in ends:
            self.say(what, f"{process.returncode} {faults} {said}")
        self.look(what, max(count, 1))

    def posted(self, port, process):
        """The answers to the requests over one connection."""
        client, said = http.client.HTTPConnection(HOST, port, timeout=SECONDS), []
        while process.poll() is None:
            try:
                client.connect()
                break
            except ConnectionRefusedError:
                time.sleep(0.02)
        if process.poll() is not None:
            return said
        for n, act in enumerate(ACTS):
            body = json.dumps({name: it for name, it in act.items() if name != "caller"})
            client.request("POST", f"/v1/requests/{number(n)}", body, {"X-Office-Caller": act.get("caller", "root")})
            answer = client.getresponse()
            said.append(f"{answer.status} {answer.read().decode()}")
        client.close()
        return said

    def fail_each(self, name):
        """Each call of a program failed in turn, in each way, till none is met."""
        for kind in KINDS[:1] if self.given.spoil else KINDS:
            for how in [LIE] if self.given.spoil else [*WAYS, *([SHORT] if kind == "pwrite" else [])]:
                at = 1
                while time.monotonic() < self.end and not (self.given.spoil and self.wrong):
                    self.met.unlink(missing_ok=True)
                    getattr(self, name)(f"{name}, {kind} {at}, {how}", {**how, "FAIL_CALL": kind, "FAIL_N": str(at)})
                    if not self.met.exists():
                        break
                    self.failures += 1
                    at += self.given.every

    def cut_each(self):
        """The log cut at every 512 bytes, and torn: the last 512 are as they were before, which is nothing."""
        self.begin(1)
        with subprocess.Popen([self.program, "deliver", "--store", self.store], stdin=subprocess.PIPE, stdout=subprocess.PIPE, stderr=subprocess.DEVNULL) as process:
            for line, wanted in zip(LINES, REPLIES):
                process.stdin.write(f"{line}\n".encode())
                process.stdin.flush()
                if process.stdout.readline().decode() != f"{wanted}\n":
                    self.say("before the cuts", wanted)
            process.kill()
        log = (self.folder / "office.db-wal").read_bytes()
        main = self.store.read_bytes()
        for at in range(0, len(log) + 1, 512 * self.given.every):
            for torn in (False, True):
                if time.monotonic() > self.end:
                    return
                self.clear()
                self.store.write_bytes(main)
                kept = log[: max(at - 512, 0)] + bytes(min(at, 512)) if torn else log[:at]
                (self.folder / "office.db-wal").write_bytes(kept)
                self.cut(f"the log {'torn' if torn else 'cut'} at {at} of {len(log)}")

    def cut(self, what):
        self.cuts += 1
        found = self.recorded(what)
        wanted = [(number(n), it) for n, it in enumerate(REPLIES)]
        if found is None or found != wanted[: len(found)]:
            self.say(what, f"records {found}")
        self.look(what, len(found or []))


def main():
    parser = argparse.ArgumentParser(description=__doc__.split("\n", 1)[0])
    parser.add_argument("program", nargs="?", type=pathlib.Path, default=TOP / "crates" / "cli" / "out" / "cli")
    parser.add_argument("--every", type=int, default=1)
    parser.add_argument("--minutes", type=float, default=float("inf"))
    parser.add_argument("--only", choices=PROGRAMS, action="append")
    parser.add_argument("--spoil", action="store_true")
    given = parser.parse_args()
    with tempfile.TemporaryDirectory(prefix="office-failing-") as name:
        trial = Trial(given.program.resolve(), pathlib.Path(name), given)
        for it in given.only or PROGRAMS:
            trial.cut_each() if it == "cuts" else trial.fail_each(it)
    print(f"{trial.failures} failures, {trial.cuts} cuts, {trial.wrong} wrong")
    return 1 if trial.wrong else 0


if __name__ == "__main__":
    sys.exit(main())
