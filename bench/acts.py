#!/usr/bin/env python3
"""Measures acts on a file beside their statements by SQLite's C API.

Three lists of acts: translations in an office of 10 units; translations all over one of 20,000 messages in each of 3 languages, which is
60,000 units; and suggestions with a vote on each, in the small office. `office deliver` takes each list at once, from an open office to the
last reply, and has to answer what is right; the statements that it runs for these acts, with the same values in the same transactions, are
run by bench/statements.c, in WAL mode with synchronous = FULL, each prepared once, by the system's SQLite. Their texts are read out of
`crates/sql_statements`. The two run in turn, each on a copy of the office, and at the end the two files have to have the same rows. Prints how
many acts there were a second, and of a processor, the best of the rounds, and how many of ours for each of SQLite's; last the row of the table in
docs/TESTING.md.

A commit on a disk waits for one fdatasync, and where others use the disk too, the processor's time is the steadier measure; in FOLDER /dev/shm
there is no disk.

Usage: bench/acts.py [FOLDER [ROUNDS [ACTS [ENTRIES [PROGRAM]]]]]      (the files are made in FOLDER, which should lie on a disk; 15 rounds of 2,000
acts; crates/cli/out/cli, as ./office has built it; wants cc, and SQLite's header and library: Debian's package libsqlite3-dev)
"""
import collections
import contextlib
import json
import os
import pathlib
import re
import shutil
import sqlite3
import subprocess
import sys
import tempfile
import threading
import time

from served import HEADER, TOP, made, number

FOLDER = sys.argv[1] if len(sys.argv) > 1 else None
ROUNDS = int(sys.argv[2]) if len(sys.argv) > 2 else 15
ACTS = int(sys.argv[3]) if len(sys.argv) > 3 else 2_000
ENTRIES = int(sys.argv[4]) if len(sys.argv) > 4 else 20_000
PROGRAM = pathlib.Path(sys.argv[5] if len(sys.argv) > 5 else TOP / "crates" / "cli" / "out" / "cli").resolve()
KEYS, LANGUAGES = 10, ("cs", "de", "fr")

# The modules of `crates/sql_statements` with the functions whose statements an act runs.
FUNCTIONS = {
    "records": ("find_record", "put_record"),
    "domains": ("find_domain",),
    "domain_languages": ("find_domain_language",),
    "policy": ("find_policy",),
    "team": ("find_member",),
    "domain_units": ("find_domain_unit", "put_domain_unit"),
    "domain_template": ("find_domain_entry",),
    "domain_suggestions": ("places_of", "domain_suggestions_of", "find_domain_suggestion", "find_domain_place", "add_domain_suggestion"),
    "domain_votes": ("domain_votes_on", "put_domain_vote"),
    "vote_sums": ("put_sum",),
    "tallies": ("find_tally", "put_tally"),
}


def text_of(module, function):
    """The statement of a function."""
    source = (TOP / "crates" / "sql_statements" / "src" / f"{module}.rt").read_text()
    body = re.search(r"\nfn %s\b|\npub(?:\(crate\))? fn %s\b" % (function, function), source)
    found = body and re.match(r'.*?\n\{[^"]*"((?:SELECT|INSERT|DELETE|UPDATE) [^"]*)"', source[body.end() :], re.DOTALL)
    if not found:
        raise SystemExit(f"{module}::{function} has no statement")
    return found[1]


TEXTS = {"begin": "BEGIN", "commit": "COMMIT"}
TEXTS.update((function, text_of(module, function)) for module, functions in FUNCTIONS.items() for function in functions)
PLACES = {name: at for at, name in enumerate(TEXTS)}


def key(i):
    return "Message %05d of this office" % i


def office(entries, languages):
    """The acts that make an office: a policy by which callers vote, a translator, a template, and languages whose texts translate each entry."""
    policy = {"accept_at": 0, "guests_suggest": True, "line_ends": True, "placeholders": True, "reviews": False, "voting": True}
    yield {"act": "policy", **policy}
    yield {"act": "team", "name": "ann", "role": "translator"}
    yield {"act": "template", "po": "\n".join('msgid "%s"\nmsgstr ""\n' % key(i) for i in range(entries))}
    for lang in languages:
        yield {
            "act": "language",
            "lang": lang,
            "po": HEADER + "".join('\nmsgid "%s"\nmsgstr "Text %05d in %s"\n' % (key(i), i, lang) for i in range(entries)),
        }


class Acts:
    """Lines with the replies that they have to get, and the steps of SQLite that do the same."""

    def __init__(self, entries):
        self.entries, self.count = entries, 1 << 20
        self.lines, self.replies, self.steps = [], [], []
        self.revisions, self.suggestions = collections.defaultdict(lambda: 1), collections.Counter()
        self.told = None

    def step(self, name, *values):
        words = ["n" if it is None else "%s%s" % ("i" if isinstance(it, int) else "t", it) for it in values]
        self.steps.append("\t".join([str(PLACES[name]), *words]))

    def decided(self, lang, i, body, act, caller="root"):
        """An act whose unit is read and whose record is written, in a transaction that stays open; what it writes comes behind it."""
        self.count += 1
        content = json.dumps({**act, "caller": caller, "id": key(i), "lang": lang}, sort_keys=True, separators=(",", ":"))
        line = json.dumps({**json.loads(content), "number": number(self.count)}, sort_keys=True, separators=(",", ":"))
        self.lines.append(line + "\n")
        self.replies.append("200 %s\n" % body)
        self.reads(("find_record", number(self.count)))
        # What the office tells a caller of a language is read where it didn't tell it last.
        told = [] if self.told == (lang, caller) else [("find_domain_language", "main", lang), ("find_policy",), ("find_member", caller)]
        self.told = (lang, caller)
        self.reads(*told, ("find_domain_unit", "main", lang, key(i)), ("find_domain_entry", "main", key(i)))
        return number(self.count), content

    def reads(self, *steps):
        self.step("begin")
        for it in steps:
            self.step(*it)
        self.step("commit")

    def writes(self, record, body):
        """The beginning of a transaction that writes."""
        self.step("begin")
        self.step("put_record", *record, 200, body)
        self.step("find_domain", "main")

    def end(self):
        self.step("commit")
        self.steps.append("end")

    def translate(self, lang, i):
        seen = self.revisions[lang, i]
        self.revisions[lang, i] = seen + 1
        form = "Text %05d in %s, for the %dth time" % (i, lang, seen)
        body = '{"revision":%d,"state":"translated"}' % (seen + 1)
        record = self.decided(lang, i, body, {"act": "translate", "forms": [form], "seen": seen})
        self.writes(record, body)
        self.step("find_domain_unit", "main", lang, key(i))
        self.step("put_domain_unit", "main", lang, key(i), None, json.dumps([form]), 2, 0, seen + 1, "[]", "[null,null,null]")
        self.end()

    def suggest(self, lang, i):
        """A suggestion; its number."""
        place = self.suggestions[lang, i]
        self.suggestions[lang, i] += 1
        forms, suggestion = ["Suggestion %d of text %05d" % (place, i)], number(self.count + 1)
        body = '{"revision":1,"state":"translated","suggestion":"%s","votes":1}' % suggestion
        record = self.decided(lang, i, body, {"act": "suggest", "forms": forms, "seen": 1})
        self.reads(("domain_suggestions_of", "main", lang, key(i)))
        self.writes(record, body)
        self.step("find_domain_unit", "main", lang, key(i))
        self.step("find_tally", "main", lang)
        self.step("put_tally", "main", lang, 0, 0, self.entries, 0, 0, sum(self.suggestions.values()), 0)
        self.step("places_of", "main", lang, key(i))
        self.step("add_domain_suggestion", suggestion, "main", lang, key(i), place, "root", json.dumps(forms))
        self.step("put_sum", suggestion, 1)
        self.end()
        return suggestion

    def vote(self, lang, i, suggestion):
        body = '{"accepted":false,"revision":1,"state":"translated","votes":2}'
        record = self.decided(lang, i, body, {"act": "vote", "seen": 1, "suggestion": suggestion, "value": 1}, "ann")
        self.reads(("find_domain_suggestion", suggestion, "main", lang, key(i)), ("domain_votes_on", suggestion))
        self.writes(record, body)
        self.step("find_domain_place", suggestion, "main", lang, key(i))
        self.step("put_domain_vote", suggestion, "ann", 1)
        self.step("put_sum", suggestion, 2)
        self.end()


def few(acts):
    for n in range(ACTS):
        acts.translate("de", n % KEYS)


def everywhere(acts):
    for n in range(ACTS):
        acts.translate(LANGUAGES[n % len(LANGUAGES)], n * 7919 % ENTRIES)


def voted(acts):
    for n in range(ACTS // 2):
        acts.vote("de", n % KEYS, acts.suggest("de", n % KEYS))


def processor(process):
    """The seconds of processor that a process has used so far."""
    return sum(int(it.read_text().split()[0]) for it in pathlib.Path(f"/proc/{process.pid}/task").glob("*/schedstat")) / 1e9


def delivered(path, acts):
    """The seconds that the office takes, and those of its processor."""
    with subprocess.Popen([PROGRAM, "deliver", "--store", path], stdin=subprocess.PIPE, stdout=subprocess.PIPE) as process:
        # A line that is no request is answered once the office is open.
        process.stdin.write(b"\n")
        process.stdin.flush()
        process.stdout.readline()
        data = "".join(acts.lines).encode()
        used, start = processor(process), time.monotonic()
        # Beside the reading, since neither side could go on where both wrote more than the other takes.
        writer = threading.Thread(target=lambda: (process.stdin.write(data), process.stdin.flush()))
        writer.start()
        replies = [process.stdout.readline().decode() for _ in acts.replies]
        seconds, used = time.monotonic() - start, processor(process) - used
        writer.join()
        process.stdin.close()
    wrong = [it for it in zip(acts.lines, replies, acts.replies) if it[1] != it[2]]
    if process.returncode or wrong:
        raise SystemExit("status %d, the first wrong reply of %d: %.600s" % (process.returncode, len(wrong), wrong[:1]))
    return seconds, used


def by_sqlite(peer, path, acts):
    """The same of SQLite."""
    lines = "\n".join([*TEXTS.values(), "", *acts.steps, ""])
    done = subprocess.run([peer, path], input=lines, capture_output=True, text=True)
    if done.returncode or not done.stdout.startswith("%d " % len(acts.lines)):
        raise SystemExit("%s: status %d, %s%s" % (peer, done.returncode, done.stdout, done.stderr))
    _, seconds, used = map(int, done.stdout.split())
    return seconds / 1e9, used / 1e9


def rows_of(path):
    """All rows of a file, table by table."""
    with contextlib.closing(sqlite3.connect(path)) as db:
        tables = [it for it, in db.execute("SELECT name FROM sqlite_schema WHERE type = 'table' ORDER BY name")]
        return {it: db.execute(f"SELECT * FROM {it} ORDER BY rowid").fetchall() for it in tables}


def in_turn(peer, place, template, acts):
    """The best seconds of the office and of SQLite, and the best of their processors, each on a copy of a file."""
    paths = {work: os.path.join(place, f"{work.__name__}.db") for work in (delivered, by_sqlite)}
    best = [[float("inf")] * 2 for _ in paths]
    for _ in range(ROUNDS):
        for at, (work, path) in enumerate(paths.items()):
            for it in (path + "-wal", path + "-shm"):
                pathlib.Path(it).unlink(missing_ok=True)
            shutil.copyfile(template, path)
            seconds = work(path, acts) if work is delivered else work(peer, path, acts)
            best[at] = [min(pair) for pair in zip(best[at], seconds)]
    if len({json.dumps(rows_of(path)) for path in paths.values()}) != 1:
        raise SystemExit("the office and SQLite have left other rows")
    return best


LISTS = [
    ("translations, %d units" % KEYS, KEYS, ("de",), few),
    ("translations, %s units" % format(len(LANGUAGES) * ENTRIES, ","), ENTRIES, LANGUAGES, everywhere),
    ("suggestions and votes, %d units" % KEYS, KEYS, ("de",), voted),
]


def main():
    told = []
    with tempfile.TemporaryDirectory(dir=FOLDER) as place:
        peer = os.path.join(place, "statements")
        subprocess.run(["cc", "-O2", "-o", peer, TOP / "bench" / "statements.c", "-lsqlite3"], check=True)
        print("%d acts, the best of %d rounds in turn, SQLite %s" % (ACTS, ROUNDS, sqlite3.sqlite_version))
        for name, entries, languages, listed in LISTS:
            template, acts = os.path.join(place, f"{entries}.db"), Acts(entries)
            if not os.path.exists(template):
                made(PROGRAM, template, office(entries, languages))
            listed(acts)
            (ours, used), (theirs, of_theirs) = in_turn(peer, place, template, acts)
            told.append("%s: %s a second, %.2f of these, %.2f by processor" % (name, format(round(ACTS / ours, -2), ",.0f"), theirs / ours, of_theirs / used))
            for who, seconds, of_processor in (("the office", ours, used), ("SQLite's C API", theirs, of_theirs)):
                each = (name, who, ACTS / seconds, seconds / ACTS * 1e6, of_processor / ACTS * 1e6)
                print("%-34s %-15s %8.0f a second %8.1f microseconds %8.1f of processor" % each)
            print("%-34s ours for each of SQLite's %.2f, by processor %.2f" % ("", theirs / ours, of_theirs / used), flush=True)
    where = " in /dev/shm" if str(FOLDER).startswith("/dev/shm") else ""
    print("| `acts.py` | acts on a file%s beside their statements by SQLite %s's C API (WAL, FULL) | %s |" % (where, sqlite3.sqlite_version, "; ".join(told)))


if __name__ == "__main__":
    main()
