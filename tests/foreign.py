#!/usr/bin/env python3
"""Gives the program files that are no office's: each has to be refused by its number, and keep its rows.

    tests/foreign.py [PROGRAM]      (crates/cli/out/cli, as ./office has built it)

An office is made by `office init` and a few requests. Of copies of its file each is spoilt in one way, by Python's sqlite3 with its own checks
switched off, and given to `office deliver --store` and `office export --store`. Of some the sums of votes or a language's counts that the file keeps are
spoilt, or rows and not what is kept of them, so that a query counts otherwise; where both were changed alike, the file is an office's. In two copies
nothing fits behind the last place or the last record. Folders, devices, FIFOs and sockets are no files either. And it looks what is told where an
output or the disk is full, on a small file system of its own (wants `unshare`). Prints what is otherwise than it should be, and last
`N files, M wrong`.
"""
import json
import os
import pathlib
import shutil
import socket
import sqlite3
import subprocess
import sys
import tempfile

import looks
from figures import kept_and_counted
from looks import number, same

TOP = pathlib.Path(__file__).resolve().parent.parent
PROGRAM = pathlib.Path(sys.argv[1] if len(sys.argv) > 1 else TOP / "crates" / "cli" / "out" / "cli").resolve()

HEADER = 'msgid ""\nmsgstr ""\n"Content-Type: text/plain; charset=UTF-8\\n"\n"Plural-Forms: nplurals=2; plural=n != 1;\\n"\n'


REQUESTS = [
    {"act": "template", "caller": "root", "po": 'msgid "Hello"\nmsgstr ""\n\nmsgid "Bye"\nmsgstr ""\n'},
    {"act": "language", "caller": "root", "lang": "de", "po": HEADER},
    {"act": "team", "caller": "root", "name": "ann", "role": "translator"},
    {"act": "team", "caller": "root", "name": "bea", "role": "translator"},
    {"act": "policy", "caller": "root", "reviews": False, "guests_suggest": True, "voting": True, "accept_at": 0, "placeholders": False, "line_ends": False},
    {"act": "translate", "caller": "ann", "forms": ["Tschau"], "id": "Bye", "lang": "de", "seen": 1},
    {"act": "suggest", "caller": "ann", "forms": ["Hallo"], "id": "Hello", "lang": "de", "seen": 1},
    {"act": "vote", "caller": "bea", "id": "Hello", "lang": "de", "seen": 1, "suggestion": number(7), "value": 1},
]

DOCS = "INSERT INTO domain VALUES ('docs')"


def languages(count):
    """So many languages in the place of the one: the others have its units, and no suggestion."""
    others = f"WITH RECURSIVE n (i) AS (SELECT 100 UNION ALL SELECT i + 1 FROM n LIMIT {count - 1})"
    return ";".join(
        f"{others} INSERT INTO {table} SELECT domain, 'l' || i, {columns} FROM n, {table} WHERE lang = 'de'"
        for table, columns in (
            ("d_language", "header, plural"),
            ("d_unit", "key, plural, forms, state, obsolete, revision, comment, previous"),
            ("d_tally", "untranslated, needs_editing, translated, approved, read_only, 0, obsolete"),
        )
    )


# What is done to a copy, as SQL, and the fault that it has to give.
SPOILT = [
    ("another schema number", "UPDATE policy SET schema = 2", 3),
    ("the first schema number", "UPDATE policy SET schema = 1", 3),
    ("a domain that has no name", "INSERT INTO domain VALUES ('Docs')", 3),
    ("nine domains", "INSERT INTO domain VALUES ('d1'), ('d2'), ('d3'), ('d4'), ('d5'), ('d6'), ('d7'), ('d8')", 3),
    ("no domain", "DELETE FROM domain", 3),
    ("another domain in the place of main", "UPDATE domain SET name = 'docs'", 3),
    ("an entry of no domain", "INSERT INTO d_template VALUES ('docs', 0, 'Hello', NULL, '[]', '[]', '[]')", 3),
    ("a language of no domain", "INSERT INTO d_language SELECT 'docs', lang, header, plural FROM d_language", 3),
    ("a unit of no domain", "INSERT INTO d_unit SELECT 'docs', lang, key, plural, forms, state, obsolete, revision, comment, previous FROM d_unit", 3),
    ("a table by domains missing", "DROP TABLE d_tally", 3),
    ("a table of the first form beside", "CREATE TABLE language (lang TEXT NOT NULL PRIMARY KEY, header TEXT NOT NULL, plural TEXT NOT NULL) STRICT", 3),
    ("no policy", "DELETE FROM policy", 3),
    ("a table missing", "DROP TABLE d_vote", 3),
    ("a column missing", "ALTER TABLE d_template DROP COLUMN flags", 3),
    ("a column more", "ALTER TABLE record ADD COLUMN at INTEGER", 3),
    ("a table more", "CREATE TABLE note (text TEXT)", 3),
    ("what ANALYZE makes", "ANALYZE", 3),
    # (the kit's SQLite refuses to open these two: a refused opening is 2)
    ("a column of another type", "ALTER TABLE team DROP COLUMN role; ALTER TABLE team ADD COLUMN role TEXT NOT NULL DEFAULT '1'", 2),
    ("an index more", "CREATE INDEX by_status ON record (status)", 3),
    ("a view", "CREATE VIEW names AS SELECT name FROM team", 3),
    ("a trigger", "CREATE TRIGGER later AFTER DELETE ON d_vote BEGIN SELECT 1; END", 2),
    ("a table without rowids", "CREATE TABLE note (text TEXT PRIMARY KEY) WITHOUT ROWID", 3),
    ("tables of somebody else", "DROP TABLE d_tally; DROP TABLE d_vote_sum; DROP TABLE d_vote; DROP TABLE d_suggestion; DROP TABLE d_unit; DROP TABLE d_language; DROP TABLE d_template; DROP TABLE domain; DROP TABLE policy; DROP TABLE team; DROP TABLE record; CREATE TABLE song (title TEXT)", 3),
    ("a vote for no suggestion", f"UPDATE d_vote SET number = '{number(99)}'",2),
    ("a suggestion whose number isn't recorded", f"DELETE FROM record WHERE number = '{number(7)}'",2),
    ("a record that is no request", f"UPDATE record SET content = '{{}}' WHERE number = '{number(3)}'", 3),
    ("a content that isn't canonical", f"UPDATE record SET content = ' ' || content WHERE number = '{number(3)}'", 3),
    ("a number that is none", f"UPDATE record SET number = 'three' WHERE number = '{number(3)}'", 3),
    ("a status that no reply has", f"UPDATE record SET status = 201 WHERE number = '{number(3)}'", 3),
    ("a revision 0", "UPDATE d_unit SET revision = 0 WHERE key = 'Bye'", 3),
    ("a form too many", """UPDATE d_unit SET forms = '["Tschau","Ade"]' WHERE key = 'Bye'""", 3),
    ("forms that are no list", "UPDATE d_unit SET forms = 'Tschau' WHERE key = 'Bye'", 3),
    ("a unit that the template lacks", "UPDATE d_unit SET key = 'Ciao' WHERE key = 'Bye'", 3),
    ("a unit missing", "DELETE FROM d_unit WHERE key = 'Bye'; UPDATE d_tally SET translated = 0", 3),
    ("no manager", "DELETE FROM team WHERE role = 3", 3),
    ("a member without a name", "INSERT INTO team VALUES ('', 1)", 3),
    ("a member whose name has a blank", "INSERT INTO team VALUES ('an n', 1)", 3),
    ("an approved unit without reviews", "UPDATE d_unit SET state = 3 WHERE key = 'Bye'; UPDATE d_tally SET translated = 0, approved = 1", 3),
    ("a language without a rule", "UPDATE d_language SET plural = 'none'", 3),
    ("a language too many", languages(257), 3),
    ("a sum of no suggestion", f"INSERT INTO d_vote_sum VALUES ('{number(99)}', 1)", 2),
]

# What is kept of sums and counts, or what they are of, is changed: a query counts otherwise then. Each is refused by fault 3.
MISCOUNTED = [
    ("a count of one more", "UPDATE d_tally SET untranslated = untranslated + 1"),
    ("one counted as another", "UPDATE d_tally SET translated = 0, needs_editing = 1"),
    ("a suggestion not counted", "UPDATE d_tally SET suggestions = 0"),
    ("a count of less than none", "UPDATE d_tally SET obsolete = -1"),
    ("a tally missing", "DELETE FROM d_tally"),
    ("a tally of a language that isn't there", "INSERT INTO d_tally VALUES ('main', 'fr', 0, 0, 0, 0, 0, 0, 0)"),
    ("a tally of a domain that isn't there", "INSERT INTO d_tally SELECT 'docs', lang, untranslated, 0, translated, 0, 0, suggestions, 0 FROM d_tally"),
    ("a language of another domain without a tally", f"{DOCS}; INSERT INTO d_language SELECT 'docs', lang, header, plural FROM d_language"),
    ("a tally of a domain without a language", f"{DOCS}; INSERT INTO d_tally VALUES ('docs', 'de', 0, 0, 0, 0, 0, 0, 0)"),
    ("a tally of another language", "UPDATE d_tally SET lang = 'fr'"),
    ("a unit of another state", "UPDATE d_unit SET state = 1 WHERE key = 'Bye'"),
    ("a read-only message", "UPDATE d_template SET flags = '[\"read-only\"]' WHERE key = 'Bye'"),
    ("a suggestion missing", "DELETE FROM d_vote; DELETE FROM d_vote_sum; DELETE FROM d_suggestion"),
    ("a sum of one more", "UPDATE d_vote_sum SET sum = sum + 1"),
    ("a sum of one less", "UPDATE d_vote_sum SET sum = sum - 1"),
    ("a sum missing", "DELETE FROM d_vote_sum"),
    ("a vote more", "INSERT INTO d_vote SELECT number, 'root', 1 FROM d_suggestion"),
    ("a vote missing", "DELETE FROM d_vote"),
    ("a vote against", "UPDATE d_vote SET value = -1"),
]

# What is kept is changed with what it is of: it is what a query counts, and the file is an office's. So is one with further domains.
RECOUNTED = [
    ("another domain", DOCS),
    ("eight domains", "INSERT INTO domain VALUES ('d1'), ('d2'), ('d3'), ('d4'), ('d5'), ('d6'), ('d7')"),
    ("as many languages as may be", languages(256)),
    (
        "a language of another domain, counted so",
        f"{DOCS}; INSERT INTO d_language SELECT 'docs', lang, header, plural FROM d_language; INSERT INTO d_tally VALUES ('docs', 'de', 0, 0, 0, 0, 0, 0, 0)",
    ),
    ("a unit of another state, counted so", "UPDATE d_unit SET state = 1 WHERE key = 'Bye'; UPDATE d_tally SET translated = 0, needs_editing = 1"),
    ("a read-only message, counted so", "UPDATE d_template SET flags = '[\"read-only\"]' WHERE key = 'Bye'; UPDATE d_tally SET translated = 0, read_only = 1"),
    ("no suggestion, counted so", "DELETE FROM d_vote; DELETE FROM d_vote_sum; DELETE FROM d_suggestion; UPDATE d_tally SET suggestions = 0"),
    ("a vote against, summed so", "UPDATE d_vote SET value = -1; UPDATE d_vote_sum SET sum = 0"),
    ("a vote missing, summed so", "DELETE FROM d_vote; UPDATE d_vote_sum SET sum = 1"),
]


def run(words, given=""):
    return looks.run(PROGRAM, *words, given=given, seconds=60)


def rows(path):
    db = sqlite3.connect(path)
    found = list(db.iterdump())
    db.close()
    return found


def spoil(path, text):
    db = sqlite3.connect(path, isolation_level=None)
    for it in ("PRAGMA foreign_keys = OFF", "PRAGMA ignore_check_constraints = ON"):
        db.execute(it)
    db.executescript(text)
    db.execute("PRAGMA wal_checkpoint(TRUNCATE)")
    db.close()


def spoilt(office, path, text):
    """A copy of the office's file, spoilt."""
    shutil.copyfile(office, path)
    spoil(path, text)
    return path


def refused(path, what, fault):
    before = rows(path)
    for words in (["deliver", "--store", path], ["export", "--store", path, "--lang", "de"]):
        same(f"{what}, {words[0]}", run(words), (1, "", f"store fault {fault}\n"))
    same(f"{what}: rows", rows(path), before)


def counted(folder, office, lines, first):
    """Files whose kept sums and counts aren't those of their rows, and files whose rows and figures were changed alike."""
    kept, found = kept_and_counted(office)
    same("the office's sums and counts", kept, found)
    same("that it has both", [len(it) for it in kept], [1, 1])
    for at, (what, text) in enumerate(MISCOUNTED):
        path = spoilt(office, folder / f"miscounted-{at}.db", text)
        kept, found = kept_and_counted(path)
        same(f"{what}: counted otherwise", kept != found, True)
        refused(path, what, 3)
    for at, (what, text) in enumerate(RECOUNTED):
        path = spoilt(office, folder / f"recounted-{at}.db", text)
        kept, found = kept_and_counted(path)
        same(f"{what}: sums and counts", kept, found)
        same(what, run(["deliver", "--store", path], lines), first)
    return len(MISCOUNTED) + len(RECOUNTED)


def without_room(folder, office, lines, first):
    """Files in which nothing fits behind the last place, or the last record: what would stand there is refused, the rows stay as they were, and the office goes on."""
    suggest = json.dumps({"act": "suggest", "caller": "bea", "forms": ["Servus"], "id": "Hello", "lang": "de", "seen": 1, "number": number(100)}) + "\n"
    translate = json.dumps({"act": "translate", "caller": "ann", "forms": ["Ade"], "id": "Bye", "lang": "de", "seen": 2, "number": number(101)}) + "\n"
    no_room = '500 {"error":"refused"}\n'
    path = spoilt(office, folder / "last-place.db", "UPDATE d_suggestion SET place = 9223372036854775807")
    before = rows(path)
    same("no place behind the last", run(["deliver", "--store", path], suggest), (0, no_room, ""))
    same("no place behind the last, and no line more", run(["deliver", "--stop-at-lost", "--store", path], suggest + translate), (1, no_room, ""))
    same("no place behind the last: rows", rows(path), before)
    told = run(["deliver", "--store", path], suggest + translate + suggest)
    same("no place behind the last, and the next", (told[0], [it[:3] for it in told[1].splitlines()], told[2]), (0, ["500", "200", "500"], ""))
    path = spoilt(office, folder / "last-record.db", f"UPDATE record SET rowid = 9223372036854775807 WHERE number = '{number(len(REQUESTS))}'")
    before = rows(path)
    same("no record behind the last", run(["deliver", "--store", path], suggest + translate), (0, no_room * 2, ""))
    same("no record behind the last: repeats", run(["deliver", "--store", path], lines), first)
    same("no record behind the last: rows", rows(path), before)
    return 2


def others(folder, office):
    """What is there, and is no regular file: it isn't opened, so that nothing waits for it. A link to a file is that file."""
    fifo, listener, link = folder / "fifo", folder / "socket", folder / "link"
    os.mkfifo(fifo)
    with socket.socket(socket.AF_UNIX) as it:
        it.bind(str(listener))
    others = {"a FIFO": fifo, "a device": "/dev/zero", "another device": "/dev/null", "a socket": listener, "a folder": folder}
    for what, path in others.items():
        for words in (["deliver"], ["export", "--lang", "de"], ["init", "--manager", "root"], ["serve", "--port", 1, "--connections", 1]):
            same(f"{what}, {words[0]}", run([words[0], "--store", path, *words[1:]]), (1, "", "store fault 2\n"))
        same(f"{what}, send", run(["send", "--port", 1, "--file", path, "--tries", 1]), (1, "", "file fault\n"))
    link.symlink_to(office)
    same("a link to an office", run(["export", "--store", link, "--lang", "de"])[0], 0)
    return len(others) + 1


# An office in a new file, on a file system of so many KiB that is mounted there.
SMALL = 'mount -t tmpfs -o size="$1k" none "$2" && "$0" init --store "$2/new.db" --manager root'


def full(folder, office):
    """What is told where an output is full, and where the disk is: a receipt only of a text that was written, and `ready` only of a file that was closed."""
    with open("/dev/full", "w") as out:
        done = subprocess.run([PROGRAM, "export", "--store", office, "--lang", "de"], stdout=out, stderr=subprocess.PIPE, timeout=60)
    same("an export to a full device", (done.returncode, done.stderr), (1, b"export fault 2\n"))
    room, sizes, told = folder / "small", range(16, 1024, 24), set()
    room.mkdir()
    for size in sizes:
        words = ["unshare", "-Urm", "sh", "-c", SMALL, str(PROGRAM), str(size), str(room)]
        done = subprocess.run(words, stdin=subprocess.DEVNULL, capture_output=True, timeout=60)
        told.add((done.returncode, done.stdout, done.stderr))
        if done.returncode == 0:
            break
    same("small disks", told, {(1, b"", b"store fault 2\n"), (0, b"ready\n", b"")})
    return 2


def main():
    tried = 0
    with tempfile.TemporaryDirectory() as name:
        folder = pathlib.Path(name)
        office = folder / "office.db"
        same("init", run(["init", "--store", office, "--manager", "root"]), (0, "ready\n", ""))
        same("init again", run(["init", "--store", office, "--manager", "root"]), (1, "", "store: exists\n"))
        lines = "".join(json.dumps({**it, "number": number(n + 1)}) + "\n" for n, it in enumerate(REQUESTS))
        first = run(["deliver", "--store", office], lines)
        same("requests", (first[0], [it[:3] for it in first[1].splitlines()], first[2]), (0, ["200"] * len(REQUESTS), ""))
        same("the same again", run(["deliver", "--store", office], lines), first)
        text = run(["export", "--store", office, "--lang", "de"])
        same("an export", (text[0], 'msgstr "Tschau"' in text[1]), (0, True))
        for what, sql, fault in SPOILT:
            tried += 1
            refused(spoilt(office, folder / f"spoilt-{tried}.db", sql), what, fault)
        tried += counted(folder, office, lines, first)
        tried += without_room(folder, office, lines, first)
        tried += 1
        path = spoilt(office, folder / "spelled.db", "PRAGMA writable_schema = ON; UPDATE sqlite_schema SET sql = replace(sql, 'CREATE TABLE', 'create  table')")
        same("texts of another spelling", run(["deliver", "--store", path], lines), first)
        whole = office.read_bytes()
        for what, content in (
            ("a text", b"not a database, whatever it says\n" * 300),
            ("a short text", b"SQLite\n"),
            ("zeros", bytes(8192)),
            ("a cut file", whole[:5000]),
            ("a file that begins otherwise", b"SQLite format 4\0" + whole[16:]),
        ):
            tried += 1
            path = folder / f"spoilt-{tried}.db"
            path.write_bytes(content)
            for words in (["deliver", "--store", path], ["export", "--store", path, "--lang", "de"], ["init", "--store", path, "--manager", "root"]):
                same(f"{what}, {words[0]}", run(words), (1, "", "store fault 2\n"))
            same(f"{what}: bytes", path.read_bytes(), content)
        tried += others(folder, office)
        tried += full(folder, office)
        for what, path in (("no file", folder / "none.db"), ("a folder", folder)):
            tried += 1
            for words in (["deliver", "--store", path], ["export", "--store", path, "--lang", "de"]):
                same(f"{what}, {words[0]}", run(words), (1, "", "store fault 2\n"))
        same("no file: none made", (folder / "none.db").exists(), False)
        tried += 1
        empty = folder / "empty.db"
        empty.touch()
        same("an empty file", run(["deliver", "--store", empty]), (1, "", "store fault 3\n"))
        same("an empty file, init", run(["init", "--store", empty, "--manager", "root"]), (0, "ready\n", ""))
    print(f"{tried} files, {looks.wrong} wrong")
    return 1 if looks.wrong else 0


if __name__ == "__main__":
    sys.exit(main())
