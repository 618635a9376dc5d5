#!/usr/bin/env python3
"""Runs deliveries of each kind with each of their growths refused in turn, over tables in maps and over tables in a file.

    tests/growths/deliveries.py [PROGRAM] [--first N] [--every K] [--minutes M] [--only WORD] [--delivery WORDS] [--spoil N]
    (crates/cli/out/cli, each growth, no end; wants cc)

The first translation; a suggestion beside another; a vote, another in its place, and it taken back; the third of three votes, which accepts a
suggestion; a template that brings a message back; a new language; and a new domain.
`office deliver` gets the requests that lead there, each read by itself, and then the line, whose growths alone are counted: the first is refused,
the second and so on, till none is met. The line gets its reply, or `503 {"error":"memory"}`. Then the tables are as before: each row of the file, or
the export of an office in maps; and the same line gets its reply, with which rows and export are those of ample memory. With `--every K` each K-th
growth is refused, from the N-th on with `--first N`. With `--spoil N` the N-th mistake of a program is planted, and has to be found: one that answers
want of memory where there was none, one that answers it where it has recorded. The
last line is `N growths, L lost, W wrong`; the status is 1 if anything was wrong.
"""
import argparse
import contextlib
import json
import os
import pathlib
import shutil
import sqlite3
import subprocess
import sys
import tempfile
import time

TOP = pathlib.Path(__file__).resolve().parent.parent.parent
SECONDS = 300
MEMORY = '503 {"error":"memory"}\n'
HEADER = 'msgid ""\nmsgstr ""\n"Content-Type: text/plain; charset=UTF-8\\n"\n"Plural-Forms: nplurals=2; plural=n != 1;\\n"\n'
FRENCH = 'msgid ""\nmsgstr "Plural-Forms: nplurals=2; plural=n>1;\\n"\n\nmsgid "Hello"\nmsgstr "Bonjour"\n\n#~ msgid "Old"\n#~ msgstr "Vieux"\n'
SUGGESTION = "00000000-0000-4000-8000-000000000020"
FIRST = '{"revision":2,"state":"translated"}'


def line(number, caller, act, **fields):
    return json.dumps({**fields, "act": act, "caller": caller, "number": f"00000000-0000-4000-8000-{number:012}"}, sort_keys=True) + "\n"


def messages(*ids):
    return "\n".join(f'msgid "{it}"\nmsgstr ""\n' for it in ids)


def files(plural):
    return f'msgid "%d file"\nmsgid_plural "{plural}"\nmsgstr[0] ""\nmsgstr[1] ""\n'


def languages(**counts):
    return json.dumps({"languages": {"de": {"added": 0, "changed": 0, "kept": 0, "obsolete": 0, "revived": 0} | counts}}, separators=(",", ":"))


def member(number, name):
    return line(number, "root", "team", name=name, role="translator"), f'{{"name":"{name}","role":"translator"}}'


def vote(number, name, value=1):
    return line(number, name, "vote", lang="de", id="Hello", seen=1, suggestion=SUGGESTION, value=value)


def suggest(number, name, form):
    return line(number, name, "suggest", lang="de", id="Hello", seen=1, forms=[form])


def suggested(number):
    return f'{{"revision":1,"state":"untranslated","suggestion":"00000000-0000-4000-8000-{number:012}","votes":1}}'


def voted(is_accepted, revision, state, votes):
    return f'{{"accepted":{is_accepted},"revision":{revision},"state":"{state}","votes":{votes}}}'


# The office that the deliveries begin with, and those that lead to each, with the bodies of their replies, which are 200.
DEMO = [
    (line(100, "root", "template", po=messages("Hello")), '{"languages":{}}'),
    (line(101, "root", "language", lang="de", po=HEADER), '{"loaded":0,"missing":1,"obsolete":0}'),
    member(102, "ann"),
]
POLICY = {"accept_at": 4, "guests_suggest": False, "line_ends": False, "placeholders": False, "reviews": False, "voting": True}
TO_THE_THIRD_VOTE = [
    *(member(60, "bea"), member(61, "cay"), member(62, "dan")),
    (line(70, "root", "policy", **POLICY), '{"units":0}'),
    (line(50, "root", "template", po=messages("Hello", "Bye")), languages(added=1, kept=1)),
    (suggest(20, "ann", "Hallo"), suggested(20)),
    (vote(30, "bea"), voted("false", 1, "untranslated", 2)),
    (vote(31, "cay"), voted("false", 1, "untranslated", 3)),
]
TO_THE_RETURN = [
    (line(53, "root", "template", po=files("%d files")), languages(added=1, obsolete=1)),
    (line(39, "ann", "translate", lang="de", id="%d file", seen=1, forms=["%d Datei", "%d Dateien"]), FIRST),
    (line(54, "root", "template", po=""), languages(obsolete=1)),
]
# Each with the language that is exported behind it.
DELIVERIES = {
    "first translation": ([], line(1, "ann", "translate", lang="de", id="Hello", seen=1, forms=["Hallo"]), f"200 {FIRST}\n", "de"),
    "a suggestion": (TO_THE_THIRD_VOTE, suggest(21, "bea", "Servus"), f"200 {suggested(21)}\n", "de"),
    "a vote": (TO_THE_THIRD_VOTE, vote(33, "dan", -1), f'200 {voted("false", 1, "untranslated", 2)}\n', "de"),
    "another vote": (TO_THE_THIRD_VOTE, vote(34, "cay", -1), f'200 {voted("false", 1, "untranslated", 1)}\n', "de"),
    "a vote taken back": (TO_THE_THIRD_VOTE, vote(35, "cay", 0), f'200 {voted("false", 1, "untranslated", 2)}\n', "de"),
    "third vote": (TO_THE_THIRD_VOTE, vote(32, "dan"), f'200 {voted("true", 2, "translated", 4)}\n', "de"),
    "an entry comes back": (TO_THE_RETURN, line(55, "root", "template", po=files("%d pieces")), f"200 {languages(revived=1)}\n", "de"),
    "a language": ([], line(6, "root", "language", lang="fr", po=FRENCH), '200 {"loaded":1,"missing":0,"obsolete":1}\n', "fr"),
    "a domain": ([], line(7, "root", "domain", name="docs"), '200 {"name":"docs"}\n', "de"),
}
FIRST_EXPORT = HEADER + '\nmsgid "Hello"\nmsgstr "Hallo"\n'


class Office:
    """Runs of one delivery over tables of one kind."""

    def __init__(self, trial, kind, name):
        self.trial, self.kind, self.name = trial, kind, name
        self.lead, self.line, self.reply, self.lang = DELIVERIES[name]
        self.lead = DEMO + self.lead
        self.store = trial.folder / "office.db"
        if kind == "file":
            self.begin()
        self.before, self.after = self.seen(*self.ran(0, 0)[1:]), self.seen(*self.ran(0, 1)[1:])
        if name == "first translation" and self.after[1] != FIRST_EXPORT:
            trial.say(f"{kind}, {name}", f"export {self.after[1]}")

    def begin(self):
        """A file with the office that takes the line next."""
        self.begun = self.trial.folder / f"begun {self.name}"
        self.begun.mkdir()
        store = self.begun / "office.db"
        subprocess.run([self.trial.program, "init", "--store", store, "--manager", "root"], check=True, capture_output=True)
        given = "".join(it for it, _ in self.lead)
        done = subprocess.run([self.trial.program, "deliver", "--store", store], input=given.encode(), capture_output=True, timeout=SECONDS, check=True)
        if done.stdout.decode() != "".join(f"200 {it}\n" for _, it in self.lead):
            sys.exit(f"{self.name}: {done.stdout.decode()}")

    def lines(self):
        """The lines that lead to the delivery in the process itself."""
        return [] if self.kind == "file" else self.lead

    def rows(self):
        """The rows of the file as it stands, where there is one; it is whole."""
        if self.kind != "file":
            return None
        with tempfile.TemporaryDirectory(dir=self.trial.folder) as name:
            for it in self.trial.folder.glob("office.db*"):
                shutil.copy(it, name)
            with contextlib.closing(sqlite3.connect(pathlib.Path(name, "office.db"))) as db:
                whole = db.execute("PRAGMA integrity_check").fetchall() + db.execute("PRAGMA foreign_key_check").fetchall()
                return list(db.iterdump()) if whole == [("ok",)] else whole

    def ran(self, number, times):
        """The replies to the line so many times, with that growth of the first one refused; the rows behind the first, and at the end; the export."""
        for it in self.trial.folder.glob("office.db*"):
            it.unlink()
        self.trial.met.unlink(missing_ok=True)
        words = ["deliver", "--export", self.lang]
        if self.kind == "file":
            for it in self.begun.iterdir():
                shutil.copy(it, self.trial.folder)
            words += ["--store", str(self.store)]
        place = len(self.lines()) + 1
        how = {"LD_PRELOAD": str(self.trial.library), "FAIL_N": str(number), "FAIL_LINE": str(place), "FAIL_MET": str(self.trial.met)}
        if self.trial.given.spoil == 0:
            del how["FAIL_MET"]
        replies, rows = [], None
        with subprocess.Popen([self.trial.program, *words], stdin=subprocess.PIPE, stdout=subprocess.PIPE, stderr=subprocess.PIPE, env={**os.environ, **how}) as process:
            for it in [text for text, _ in self.lines()] + [self.line] * times:
                process.stdin.write(it.encode())
                process.stdin.flush()
                replies.append(process.stdout.readline().decode())
                rows = self.rows() if len(replies) == place else rows
            text, faults = process.communicate(timeout=SECONDS)
        if replies[: place - 1] != [f"200 {it}\n" for _, it in self.lines()]:
            self.trial.say(self.name, f"led by {replies}")
        if self.trial.given.spoil == 1 and number and replies[place - 1 :]:
            replies[place - 1] = MEMORY
        return replies[place - 1 :], rows, text.decode(), faults.decode()

    def seen(self, _, text, faults):
        """What an office shows at the end of a run: its rows, and the export."""
        return self.rows(), text, "" if self.kind == "file" else faults

    def try_each(self):
        trial, number = self.trial, self.trial.given.first
        while time.monotonic() < trial.end and (trial.given.spoil is None or not trial.wrong):
            what = f"{self.kind}, {self.name}, growth {number}"
            replies, rows, text, faults = self.ran(number, 2)
            if not trial.met.exists():
                if replies != [self.reply] * 2:
                    trial.say(what, f"none was refused, and {replies}")
                return
            trial.growths += 1
            if replies[0] == MEMORY:
                trial.lost += 1
                self.look_at_lost(what, number, rows)
            elif replies[0] != self.reply:
                trial.say(what, replies)
            if replies[1:] != [self.reply] or self.seen(rows, text, faults) != self.after:
                trial.say(what, f"then {replies[1:]} {text!r} {faults}")
            number += trial.given.every

    def look_at_lost(self, what, number, rows):
        """Behind a lost delivery the tables are as before."""
        if self.kind == "file":
            is_before = rows == self.before[0]
        else:
            replies, *found = self.ran(number, 1)
            is_before = replies == [MEMORY] and self.seen(*found) == self.before
        if not is_before:
            self.trial.say(what, "lost, and the tables are not as before")


class Trial:
    def __init__(self, program, folder, given):
        self.program, self.folder, self.given = program, folder, given
        self.library, self.met = folder / "refuse.so", folder / "met"
        self.growths = self.lost = self.wrong = 0
        self.end = time.monotonic() + given.minutes * 60
        subprocess.run(["cc", "-O1", "-shared", "-fPIC", "-o", self.library, TOP / "tests" / "growths" / "refuse.c", "-ldl"], check=True)

    def say(self, what, why):
        self.wrong += 1
        print(f"{what}: {why}", flush=True)


def main():
    parser = argparse.ArgumentParser(description=__doc__.split("\n", 1)[0])
    parser.add_argument("program", nargs="?", type=pathlib.Path, default=TOP / "crates" / "cli" / "out" / "cli")
    parser.add_argument("--first", type=int, default=1)
    parser.add_argument("--every", type=int, default=1)
    parser.add_argument("--minutes", type=float, default=float("inf"))
    parser.add_argument("--only", choices=("maps", "file"), action="append")
    parser.add_argument("--delivery", choices=DELIVERIES, action="append")
    parser.add_argument("--spoil", type=int)
    given = parser.parse_args()
    with tempfile.TemporaryDirectory(prefix="office-growths-") as name:
        trial = Trial(given.program.resolve(), pathlib.Path(name), given)
        for kind in given.only or ("maps", "file"):
            for it in given.delivery or DELIVERIES:
                growths, lost = trial.growths, trial.lost
                Office(trial, kind, it).try_each()
                print(f"{kind}, {it}: {trial.growths - growths} growths, {trial.lost - lost} lost", flush=True)
    print(f"{trial.growths} growths, {trial.lost} lost, {trial.wrong} wrong")
    return 1 if trial.wrong else 0


if __name__ == "__main__":
    sys.exit(main())
