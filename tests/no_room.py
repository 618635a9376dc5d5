#!/usr/bin/env python3
"""Gives the program offices whose file takes no further row in one of its tables, on a disk on which nothing fails.

    tests/no_room.py [PROGRAM] [--spoil]      (crates/cli/out/cli, as ./office has built it)

By Python's sqlite3 the last row of a table gets the greatest rowid that SQLite has (https://sqlite.org/lang_createtable.html#rowid), or a unit's last suggestion
the greatest place; each table of an office has its turn. An act that writes a row there, a new one or another in its place, has to be answered
`500 {"error":"refused"}`, as GUIDE and OPERATING say, each time and by `office serve` too, and every other act in the same run as if nothing were the matter: its
reply, and which rows it writes, are those of FORMATS. Behind it the closed file is whole for SQLite, keeps the sums and counts that queries count, and has row for
row what an office has that got the other acts alone; so the next opening finds it. When there is room again, the same lines are done and get their replies. What a
wrong program might have left of a refused act is written into copies of the file, and has to be told. With `--spoil` the last row gets the number before the
greatest, so that one more fits: that has to be told too, and the status is 1. Prints what is otherwise, and last `N looks, M wrong`.
"""
import argparse
import contextlib
import http.client
import json
import pathlib
import shutil
import sqlite3
import subprocess
import sys
import tempfile
import time

import looks
from figures import kept_and_counted
from looks import HOST, look, number, same

TOP = pathlib.Path(__file__).resolve().parent.parent
PROGRAM = TOP / "crates" / "cli" / "out" / "cli"
GREATEST = 2**63 - 1
NO_ROOM = '500 {"error":"refused"}'

HEADER = 'msgid ""\nmsgstr ""\n"Content-Type: text/plain; charset=UTF-8\\n"\n"Plural-Forms: nplurals=2; plural=n != 1;\\n"\n'
FLAGS = {"reviews": False, "guests_suggest": False, "voting": True, "accept_at": 0, "placeholders": False, "line_ends": False}
SUGGESTION = number(9)


def template(*messages):
    return "\n".join(f'msgid "{it}"\nmsgstr ""\n' for it in messages)


OFFICE = [
    {"act": "template", "po": template("Hello", "Bye", "Yes", "No")},
    {"act": "language", "lang": "de", "po": HEADER},
    {"act": "team", "name": "ann", "role": "translator"},
    {"act": "team", "name": "bea", "role": "translator"},
    {"act": "policy", **FLAGS},
    {"act": "domain", "name": "docs"},
    {"act": "template", "domain": "docs", "po": template("Hello")},
    {"act": "language", "domain": "docs", "lang": "de", "po": HEADER},
    {"act": "suggest", "caller": "ann", "lang": "de", "id": "Hello", "seen": 1, "forms": ["Hallo"]},
    {"act": "vote", "caller": "bea", "lang": "de", "id": "Hello", "seen": 1, "suggestion": SUGGESTION, "value": 1},
]
ADDED = {"added": 1, "changed": 0, "kept": 4, "obsolete": 0, "revived": 0}
# Acts of which none changes another's reply: in which tables each writes rows, beside its record, and the reply's body.
ACTS = [
    (
        {"act": "suggest", "caller": "bea", "lang": "de", "id": "Hello", "seen": 1, "forms": ["Servus"]},
        ("d_suggestion", "place", "d_vote_sum", "d_tally"),
        {"revision": 1, "state": "untranslated", "suggestion": number(100), "votes": 1},
    ),
    (
        {"act": "translate", "caller": "ann", "lang": "de", "id": "Bye", "seen": 1, "forms": ["Ade"]},
        ("d_unit", "d_tally"),
        {"revision": 2, "state": "translated"},
    ),
    (
        {"act": "vote", "lang": "de", "id": "Hello", "seen": 1, "suggestion": SUGGESTION, "value": -1},
        ("d_vote", "d_vote_sum"),
        {"accepted": False, "revision": 1, "state": "untranslated", "votes": 1},
    ),
    (
        {"act": "comment", "caller": "ann", "lang": "de", "id": "Yes", "seen": 1, "lines": ["a word"]},
        ("d_unit",),
        {"revision": 2, "state": "untranslated"},
    ),
    (
        {"act": "template", "po": template("Hello", "Bye", "Yes", "No", "Perhaps")},
        ("d_template", "d_unit", "d_tally"),
        {"languages": {"de": ADDED}},
    ),
    (
        {"act": "language", "domain": "docs", "lang": "fr", "po": HEADER},
        ("d_language", "d_unit", "d_tally"),
        {"loaded": 0, "missing": 1, "obsolete": 0},
    ),
    ({"act": "team", "name": "cay", "role": "reviewer"}, ("team",), {"name": "cay", "role": "reviewer"}),
    ({"act": "domain", "name": "web"}, ("domain",), {"name": "web"}),
    (
        {"act": "translate", "caller": "bea", "domain": "docs", "lang": "de", "id": "Hello", "seen": 1, "forms": ["Hallo"]},
        ("d_unit", "d_tally"),
        {"revision": 2, "state": "translated"},
    ),
]
TABLES = ("record", "team", "domain", "d_template", "d_language", "d_unit", "d_suggestion", "d_vote", "d_vote_sum", "d_tally")
# What might be left of an act that was refused.
MISTAKES = {
    "a refused act is recorded": f"INSERT INTO record VALUES ('{number(999)}', '{{}}', 500, '{{\"error\":\"refused\"}}')",
    "a member without a record": "INSERT INTO team VALUES ('dan', 1)",
    "a message counted": "UPDATE d_tally SET untranslated = untranslated + 1 WHERE domain = 'main'",
    "a suggestion gone": "DELETE FROM d_suggestion",
    "another revision": "UPDATE d_unit SET revision = revision + 1 WHERE key = 'No'",
}


def line(at, act):
    return json.dumps({"caller": "root", "number": number(at), **act}) + "\n"


LINES = [line(100 + at, act) for at, (act, _, _) in enumerate(ACTS)]
REPLIES = ["200 " + json.dumps(body, separators=(",", ":")) for _, _, body in ACTS]


@contextlib.contextmanager
def opened(path):
    """A closed file, by SQLite; what is written goes into the file itself."""
    with contextlib.closing(sqlite3.connect(path, isolation_level=None)) as db:
        db.execute("PRAGMA foreign_keys = ON")
        yield db
        db.execute("PRAGMA wal_checkpoint(TRUNCATE)")


def rows(path, ordered=True):
    """The rows of each table, with the records in their order where that is asked, and what SQLite finds wrong with the file."""
    with opened(path) as db:
        found = {it: sorted(db.execute(f"SELECT * FROM {it}"), key=repr) for it in (*TABLES, "policy")}
        found["order"] = ordered and list(db.execute("SELECT number FROM record ORDER BY rowid"))
        found["whole"] = [list(db.execute(it)) for it in ("PRAGMA integrity_check", "PRAGMA foreign_key_check")]
    return found


class Trial:
    """The program, a folder for files, and the number that the last row gets."""

    def __init__(self, program, folder, last):
        self.program, self.folder, self.last = program, folder, last
        self.office = folder / "office.db"
        same("init", looks.run(program, "init", "--store", self.office, "--manager", "root"), (0, "ready\n", ""))
        told = self.deliver("the office", self.office, [line(1 + at, act) for at, act in enumerate(OFFICE)])
        same("the office", [it[:3] for it in told], ["200"] * len(OFFICE))

    def deliver(self, what, path, lines):
        status, out, err = looks.run(self.program, "deliver", "--store", path, given="".join(lines))
        same(f"{what}: status and faults", (status, err), (0, ""))
        return out.splitlines()

    def copy(self, name):
        return shutil.copyfile(self.office, self.folder / name)

    def without_room(self, name, table):
        """A copy of the office in whose table nothing fits behind the last row, and what makes room again."""
        path = self.copy(name)
        with opened(path) as db:
            column, of = ("place", "d_suggestion") if table == "place" else ("rowid", table)
            (before,) = db.execute(f"SELECT max({column}) FROM {of}").fetchone()
            db.execute(f"UPDATE {of} SET {column} = ? WHERE {column} = ?", (self.last, before))
        return path, (f"UPDATE {of} SET {column} = ? WHERE {column} = ?", (before, self.last))

    def served(self, what, path, wanted):
        """What a served office answers on one connection: each act, and then a question and an export."""
        port = looks.free_port()
        words = [self.program, "serve", "--store", path, "--port", str(port), "--connections", "1"]
        with subprocess.Popen(words, stdout=subprocess.DEVNULL) as child:
            try:
                link = connected(port, child)
                for (act, _, _), text, reply in zip(ACTS, LINES, wanted):
                    content = {it: value for it, value in act.items() if it != "caller"}
                    fields = {"X-Office-Caller": json.loads(text)["caller"]}
                    same(f"{what}, served: {act['act']}", answer(link, "POST", f"/v1/requests/{json.loads(text)['number']}", content, fields), reply)
                same(f"{what}, served: a question", answer(link, "GET", "/v1/unit?lang=de&id=No")[:3], "200")
                same(f"{what}, served: an export", answer(link, "GET", "/v1/export/de")[:3], "200")
                link.close()
                same(f"{what}: the status of serve", child.wait(60), 0)
            except (OSError, http.client.HTTPException) as why:
                look(False, f"{what}, served: {why!r}")
            finally:
                child.kill()

    def run(self, table):
        """An office without room in a table."""
        what = f"no room in {table}"
        wanted = [NO_ROOM if table in ("record", *written) else reply for (_, written, _), reply in zip(ACTS, REPLIES)]
        path, (room, values) = self.without_room(f"{table}.db", table)
        others = self.without_room(f"{table}-others.db", table)[0]
        self.served(what, shutil.copyfile(path, self.folder / "served.db"), wanted)
        rest = [(it, reply) for it, reply in zip(LINES, wanted) if reply != NO_ROOM]
        same(f"{what}: the others alone", self.deliver(what, others, [it for it, _ in rest]), [it for _, it in rest])
        same(f"{what}: the replies", self.deliver(what, path, LINES), wanted)
        found = rows(path)
        same(f"{what}: the rows", found, rows(others))
        same(f"{what}, served: the rows", rows(self.folder / "served.db"), found)
        same(f"{what}: whole", found["whole"], [[("ok",)], []])
        same(f"{what}: sums and counts", *kept_and_counted(path))
        same(f"{what}: the same again", self.deliver(what, path, LINES), wanted)
        same(f"{what}: the rows behind the same again", rows(path), found)
        self.mistakes(what, path, rows(others))
        with opened(path) as db:
            db.execute(room, values)
        same(f"{what}: room again", self.deliver(what, path, LINES), REPLIES)
        return rows(path, ordered=False)

    def with_room(self):
        """The acts one by one, in the office itself: their replies, and the tables in which each writes rows."""
        before = rows(self.office)
        for (act, written, _), text, reply in zip(ACTS, LINES, REPLIES):
            same(f"with room: {act['act']}", self.deliver("with room", self.office, [text]), [reply])
            found = rows(self.office)
            same(f"with room: {act['act']}: tables", {it for it in TABLES if found[it] != before[it]}, {"record", *written} - {"place"})
            before = found

    def mistakes(self, what, path, wanted):
        """Copies, each with what a wrong program might have left of a refused act: the look at the rows tells each."""
        for mistake, text in MISTAKES.items():
            copy = shutil.copyfile(path, self.folder / "mistaken.db")
            with opened(copy) as db:
                same(f"{mistake}: rows that it changes", db.execute(text).rowcount > 0, True)
            look(rows(copy) != wanted, f"{what}: nothing was told of a mistake: {mistake}")


def connected(port, child):
    """A connection to a served office, once it takes one."""
    until = time.monotonic() + 60
    while True:
        link = http.client.HTTPConnection(HOST, port, timeout=60)
        try:
            link.connect()
            return link
        except ConnectionRefusedError:
            if child.poll() is not None or time.monotonic() > until:
                raise
            time.sleep(0.05)


def answer(link, method, path, content=None, fields=None):
    """The status and the body, as a line has them."""
    link.request(method, path, content and json.dumps(content), fields or {})
    told = link.getresponse()
    return f"{told.status} {told.read().decode()}"


def main():
    parser = argparse.ArgumentParser(description=__doc__, formatter_class=argparse.RawDescriptionHelpFormatter)
    parser.add_argument("program", nargs="?", type=pathlib.Path, default=PROGRAM)
    parser.add_argument("--spoil", action="store_true")
    given = parser.parse_args()
    with tempfile.TemporaryDirectory(prefix="office-no-room-") as place:
        trial = Trial(given.program.resolve(), pathlib.Path(place), GREATEST - 1 if given.spoil else GREATEST)
        ends = [trial.run(it) for it in (*TABLES, "place")]
        trial.with_room()
        for table, found in zip((*TABLES, "place"), ends):
            same(f"no room in {table}, and then room: the rows", found, rows(trial.office, ordered=False))
    return looks.told()


if __name__ == "__main__":
    sys.exit(main())
