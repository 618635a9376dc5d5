#!/usr/bin/env python3
"""Opens files as earlier programs have left them: tables without a column for a domain, smaller limits, placeholders in braces unchecked.

    tests/earlier_offices.py [PROGRAM [EARLIER]]      (crates/cli/out/cli, as ./office has built it)

Files are made by their dumps in tests/earlier/. Of two, what they hold is written below too, and compared: the eight tables of the first schema and
the ten of the second, by their statements, and the rows of such an office, as docs/FORMATS.md has them: a message that was translated under a policy
that enforces placeholders, with one that today's check finds; and a message with 50 suggestions, a further one of which was refused; votes, an
obsolete message, one that is read-only, and a second language. In the second schema a query counts the sums and the tallies. Copies that are spoilt
are refused, and aren't converted: those with a row that names one that isn't there are among them, and in the second schema those whose sums or
tallies aren't what counting gives. The program writes what they hold into tables by domains when it opens the file. What was answered then is
answered again; the message's view shows what is found; what is asked anew is judged by today's rules. The rows of the old tables stay, those by
domains are the same with `main` in front, and the sums and the counts that are kept are those that a query counts. A second opening changes nothing.
The program is killed at random moments while it opens copies: each is as it was then, or converted, and the next opening converts it. EARLIER is a
program that knows the first schema alone: it refuses a converted file and leaves it alone. Then the files that programs have left, one of schema 1
and one of schema 3 with a further domain (tests/earlier/make.py has written them): each request that they recorded gets its reply again, and the
exports have the bytes that they had. Prints what is otherwise, and last `N looks, M wrong`.
"""
import json
import pathlib
import random
import shutil
import sqlite3
import subprocess
import sys
import tempfile
import time

import looks
from dumps import dumped, made
from figures import kept_and_counted
from looks import asked, free_port, number, same
from patience import seconds

TOP = pathlib.Path(__file__).resolve().parent.parent
PROGRAM = pathlib.Path(sys.argv[1] if len(sys.argv) > 1 else TOP / "crates" / "cli" / "out" / "cli").resolve()
EARLIER = pathlib.Path(sys.argv[2]).resolve() if len(sys.argv) > 2 else None
DUMPS = TOP / "tests" / "earlier"
SECONDS = seconds(20)
FIRST = [
    "CREATE TABLE record (number TEXT NOT NULL PRIMARY KEY, content TEXT NOT NULL, status INTEGER NOT NULL, body TEXT NOT NULL) STRICT",
    "CREATE TABLE team (name TEXT NOT NULL PRIMARY KEY, role INTEGER NOT NULL CHECK (role BETWEEN 1 AND 3)) STRICT",
    "CREATE TABLE policy (one INTEGER PRIMARY KEY CHECK (one BETWEEN 1 AND 1), schema INTEGER NOT NULL, reviews INTEGER NOT NULL, guests_suggest INTEGER NOT NULL, "
    "voting INTEGER NOT NULL, accept_at INTEGER NOT NULL, placeholders INTEGER NOT NULL, line_ends INTEGER NOT NULL) STRICT",
    "CREATE TABLE template (place INTEGER PRIMARY KEY, key TEXT NOT NULL UNIQUE, plural TEXT, extracted TEXT NOT NULL, refs TEXT NOT NULL, flags TEXT NOT NULL) STRICT",
    "CREATE TABLE language (lang TEXT NOT NULL PRIMARY KEY, header TEXT NOT NULL, plural TEXT NOT NULL) STRICT",
    "CREATE TABLE unit (lang TEXT NOT NULL, key TEXT NOT NULL, plural TEXT, forms TEXT NOT NULL, state INTEGER NOT NULL CHECK (state BETWEEN 0 AND 3), "
    "obsolete INTEGER NOT NULL CHECK (obsolete BETWEEN 0 AND 1), revision INTEGER NOT NULL, comment TEXT NOT NULL, previous TEXT NOT NULL, PRIMARY KEY (lang, key)) STRICT",
    "CREATE TABLE suggestion (number TEXT NOT NULL PRIMARY KEY REFERENCES record (number), lang TEXT NOT NULL, key TEXT NOT NULL, place INTEGER NOT NULL, "
    "suggester TEXT NOT NULL, forms TEXT NOT NULL, UNIQUE (lang, key, place), FOREIGN KEY (lang, key) REFERENCES unit (lang, key) ON DELETE CASCADE) STRICT",
    "CREATE TABLE vote (number TEXT NOT NULL REFERENCES suggestion (number) ON DELETE CASCADE, voter TEXT NOT NULL, "
    "value INTEGER NOT NULL CHECK (value BETWEEN -1 AND 1) CHECK (value <> 0), PRIMARY KEY (number, voter)) STRICT",
]
COUNTED = ("untranslated", "needs_editing", "translated", "approved", "read_only", "suggestions", "obsolete")
SECOND = [
    *FIRST,
    "CREATE TABLE vote_sum (number TEXT NOT NULL PRIMARY KEY REFERENCES suggestion (number) ON DELETE CASCADE, sum INTEGER NOT NULL) STRICT",
    f"CREATE TABLE tally (lang TEXT NOT NULL PRIMARY KEY, {', '.join(f'{it} INTEGER NOT NULL' for it in COUNTED)}) STRICT",
]
# The columns of each of the eight that a domain has of its own, and its table by domains.
MOVED = {
    "template": "place, key, plural, extracted, refs, flags",
    "language": "lang, header, plural",
    "unit": "lang, key, plural, forms, state, obsolete, revision, comment, previous",
    "suggestion": "number, lang, key, place, suggester, forms",
    "vote": "number, voter, value",
}
# What is kept in the second schema, as counted.
OLD_SUMS = "SELECT s.number, 1 + coalesce((SELECT sum(value) FROM vote v WHERE v.number = s.number), 0) FROM suggestion s ORDER BY 1"
OLD_COUNTS = """SELECT l.lang, total(obsolete = 0 AND flags NOT LIKE '%"read-only"%' AND state = 0), total(obsolete = 0 AND flags NOT LIKE '%"read-only"%' AND state = 1),
    total(obsolete = 0 AND flags NOT LIKE '%"read-only"%' AND state = 2), total(obsolete = 0 AND flags NOT LIKE '%"read-only"%' AND state = 3),
    total(obsolete = 0 AND flags LIKE '%"read-only"%'), total((SELECT count(*) FROM suggestion s WHERE u.obsolete = 0 AND s.lang = u.lang AND s.key = u.key)), total(obsolete)
    FROM language l LEFT JOIN unit u ON u.lang = l.lang LEFT JOIN template t ON t.key = u.key GROUP BY l.lang ORDER BY 1"""
# What is done to a copy of the file, as SQL, before it is converted: it is no office's then. And after: the first two are refused, and the last
# isn't, since nobody reads the rows of the old tables.
SPOILT = {
    "the number of the later schema": "UPDATE policy SET schema = 3",
    "the number 0": "UPDATE policy SET schema = 0",
    "no policy": "DELETE FROM policy",
    "a table by domains beside": "CREATE TABLE domain (name TEXT NOT NULL PRIMARY KEY) STRICT",
    "a table missing": "DROP TABLE vote",
    "a table more": "CREATE TABLE note (text TEXT)",
    "a revision 0": "UPDATE unit SET revision = 0 WHERE key = 'Old'",
    "an entry without its unit": "DELETE FROM unit WHERE key = 'Fixed'",
    "no manager": "DELETE FROM team WHERE role = 3",
    "a record that is no request": "UPDATE record SET content = '{}'",
}
SPOILT_FIRST = {
    "the number of the second schema": "UPDATE policy SET schema = 2",
    "a table of sums beside": SECOND[8],
    "tables of sums and tallies beside, without a row": f"{SECOND[8]}; {SECOND[9]}",
    "these with the number of their schema": f"{SECOND[8]}; {SECOND[9]}; UPDATE policy SET schema = 2",
}
SPOILT_SECOND = {
    "the number of the first schema": "UPDATE policy SET schema = 1",
    "no table of tallies": "DROP TABLE tally",
    "a sum that is another": f"UPDATE vote_sum SET sum = sum + 1 WHERE number = '{looks.number(1000)}'",
    "a sum missing": f"DELETE FROM vote_sum WHERE number = '{looks.number(1001)}'",
    "a vote more": f"INSERT INTO vote VALUES ('{looks.number(1003)}', 'bea', 1)",
    "a tally missing": "DELETE FROM tally WHERE lang = 'fr'",
    "a tally more": "INSERT INTO tally SELECT 'it', untranslated, needs_editing, translated, approved, read_only, suggestions, obsolete FROM tally WHERE lang = 'fr'",
    **{f"another count of {it}": f"UPDATE tally SET {it} = {it} + 1 WHERE lang = 'de'" for it in COUNTED},
}
# What leaves a row that names one that isn't there: such a file isn't opened.
ORPHANS = {
    "a suggestion without its record": f"DELETE FROM record WHERE number = '{looks.number(1004)}'",
    "a vote on no suggestion": f"INSERT INTO vote VALUES ('{looks.number(50)}', 'bea', 1)",
}
ORPHANS_SECOND = {"a sum of no suggestion": f"INSERT INTO vote_sum VALUES ('{looks.number(50)}', 1)"}
SPOILT_THEN = {
    "an old table missing": ("DROP TABLE vote", 1, b"store fault 3\n"),
    "the number of the first schema": ("UPDATE policy SET schema = 1", 1, b"store fault 3\n"),
    "the number of the second schema": ("UPDATE policy SET schema = 2", 1, b"store fault 3\n"),
    "rows of the old tables that are no office's": ("UPDATE unit SET revision = 0; DELETE FROM language", 0, b""),
}
# Files that programs have left, by the schema of each.
LEFT = ("left_1", "left_3")
THEN, NOW = 50, 100
KILLS = 40
RULE = "nplurals=2; plural=n != 1;"
HEADER = [[], [], [], [], [None, None, None], f"Content-Type: text/plain; charset=UTF-8\nPlural-Forms: {RULE}\n"]
FULL = (409, {"refusal": "full", "rule": 11})

untouched = 0


def compact(value):
    return json.dumps(value, sort_keys=True, separators=(",", ":"), ensure_ascii=False)


def translate(n, seen):
    return number(n), {"act": "translate", "caller": "ann", "forms": ["Hallo {nam}"], "id": "Hi {name}", "lang": "de", "seen": seen}


def suggest(n, text):
    return number(n), {"act": "suggest", "caller": "ann", "forms": [text], "id": "Hello", "lang": "de", "seen": 1}


def suggested(n):
    return 200, {"revision": 1, "state": "untranslated", "suggestion": number(n), "votes": 1}


def record(db, request, reply):
    db.execute("INSERT INTO record VALUES (?, ?, ?, ?)", (request[0], compact(request[1]), reply[0], compact(reply[1])))


def write_suggestion(db, n, place):
    """A suggestion of ann's, with its record."""
    request = suggest(n, f"Gruss {n}")
    record(db, request, suggested(n))
    db.execute("INSERT INTO suggestion VALUES (?, 'de', 'Hello', ?, 'ann', ?)", (request[0], place, compact(request[1]["forms"])))


def write_more(db):
    """Votes, an obsolete message, one that is read-only, and a second language."""
    none = compact([None, None, None])
    db.execute("INSERT INTO template VALUES (7, 'Fixed', NULL, '[]', '[]', '[\"read-only\"]')")
    db.execute("INSERT INTO language VALUES ('fr', ?, ?)", (compact(HEADER), RULE))
    for lang, key, forms, state, obsolete, revision in (
        ("de", "Fixed", ["Fest"], 2, 0, 2),
        ("de", "Old", ["Alt"], 2, 1, 3),
        ("fr", "Hi {name}", [""], 0, 0, 1),
        ("fr", "Hello", ["Bonjour"], 1, 0, 4),
        ("fr", "Fixed", [""], 0, 0, 1),
    ):
        row = (lang, key, compact(forms), state, obsolete, revision, none)
        db.execute("INSERT INTO unit VALUES (?, ?, NULL, ?, ?, ?, ?, '[]', ?)", row)
    for n, voter, value in ((1000, "root", 1), (1000, "bea", 1), (1001, "root", -1), (1001, "bea", -1), (1002, "bea", -1)):
        db.execute("INSERT INTO vote VALUES (?, ?, ?)", (number(n), voter, value))


def write_later_suggestion(db, n, place):
    """The same in tables by domains."""
    request = suggest(n, f"Gruss {n}")
    record(db, request, suggested(n))
    db.execute("INSERT INTO d_suggestion VALUES (?, 'main', 'de', 'Hello', ?, 'ann', ?)", (request[0], place, compact(request[1]["forms"])))
    db.execute("INSERT INTO d_vote_sum VALUES (?, 1)", (request[0],))


def write_office(db, schema):
    """The tables and the rows of the office as it was left."""
    none = compact([None, None, None])
    for text in {1: FIRST, 2: SECOND}[schema]:
        db.execute(text)
    db.execute("INSERT INTO team VALUES ('root', 3), ('ann', 1)")
    db.execute("INSERT INTO policy VALUES (1, ?, 0, 0, 0, 0, 1, 0)", (schema,))
    db.execute("INSERT INTO template VALUES (1, 'Hi {name}', NULL, '[]', '[]', '[\"python-brace-format\"]')")
    db.execute("INSERT INTO template VALUES (2, 'Hello', NULL, '[]', '[]', '[]')")
    db.execute("INSERT INTO language VALUES ('de', ?, ?)", (compact(HEADER), RULE))
    db.execute("INSERT INTO unit VALUES ('de', 'Hi {name}', NULL, '[\"Hallo {nam}\"]', 2, 0, 2, '[]', ?)", (none,))
    db.execute("INSERT INTO unit VALUES ('de', 'Hello', NULL, '[\"\"]', 0, 0, 1, '[]', ?)", (none,))
    record(db, translate(50, 1), (200, {"revision": 2, "state": "translated"}))
    for place in range(THEN):
        write_suggestion(db, 1000 + place, place)
    record(db, suggest(22, "Gruezi"), FULL)
    write_more(db)
    if schema == 2:
        db.execute(f"INSERT INTO vote_sum {OLD_SUMS}")
        db.execute(f"INSERT INTO tally {OLD_COUNTS}")


def change(path, write):
    db = sqlite3.connect(path)
    with db:
        write(db)
    db.close()


def deliver(path, *requests):
    """The replies to these requests."""
    lines = "".join(compact({**act, "number": name}) + "\n" for name, act in requests)
    done = subprocess.run([PROGRAM, "deliver", "--store", path], input=lines.encode(), capture_output=True, timeout=SECONDS)
    same("the status, and faults", (done.returncode, done.stderr), (0, b""))
    replies = [line.split(" ", 1) for line in done.stdout.decode().splitlines()]
    return [(int(status), json.loads(body)) for status, body in replies]


def view(path):
    """The translated message as callers see it."""
    port = free_port()
    child = subprocess.Popen([PROGRAM, "serve", "--store", path, "--port", str(port), "--connections", "1"])
    try:
        status, shown = asked(port, "/v1/unit?lang=de&id=Hi%20%7Bname%7D")
        same("the status of serve", (status, child.wait(SECONDS)), (200, 0))
    finally:
        child.kill()
        child.wait()
    return shown["findings"], shown["forms"], shown["revision"], shown["state"]


def braces(path):
    found, forms = {"line-ends": [], "placeholders": [0]}, ["Hallo {nam}"]
    same("a translation comes again", deliver(path, translate(50, 1)), [(200, {"revision": 2, "state": "translated"})])
    same("its message", view(path), (found, forms, 2, "translated"))
    anew = (200, {"revision": 3, "state": "needs-editing"})
    same("the same under a new number", deliver(path, translate(51, 2), translate(50, 1))[0], anew)
    same("its message then", view(path), (found, forms, 3, "needs-editing"))


def suggestions(path):
    same("a refused suggestion comes again", deliver(path, suggest(22, "Gruezi")), [FULL])
    same("the same under a new number", deliver(path, suggest(23, "Gruezi"), suggest(22, "Gruezi")), [suggested(23), FULL])
    more = [suggest(2000 + n, f"Servus {n}") for n in range(NOW - THEN)]
    wanted = [suggested(2000 + n) for n in range(NOW - THEN - 1)] + [FULL]
    same("as many as there may be, and one more", deliver(path, *more), wanted)


def rows_of(path, *queries):
    db = sqlite3.connect(path)
    found = [db.execute(text).fetchall() for text in queries]
    db.close()
    return found


def dump(path):
    db = sqlite3.connect(path)
    found = list(db.iterdump())
    db.close()
    return found


def opened(path):
    """The file is opened, and nothing is asked."""
    done = subprocess.run([PROGRAM, "deliver", "--store", path], input=b"", capture_output=True, timeout=SECONDS)
    same("an opening", (done.returncode, done.stdout, done.stderr), (0, b"", b""))


def spoilt(path, what, text, status, fault):
    """What is told of a copy on which these statements ran, whose rows stay."""
    copy = path + ".spoilt"
    shutil.copyfile(path, copy)
    db = sqlite3.connect(copy)
    db.executescript(text)
    db.close()
    before = dump(copy)
    for words in (["deliver", "--store", copy], ["export", "--store", copy, "--lang", "de"]):
        done = subprocess.run([PROGRAM, *words], input=b"", capture_output=True, timeout=SECONDS)
        told = done.stderr if status else done.stderr.partition(b"bytes ")[0]
        same(f"{what}, {words[0]}", (done.returncode, told), (status, fault))
    same(f"{what}: rows", dump(copy), before)


def figures(path):
    """What is kept of sums and counts is what is counted."""
    same("sums and counts", *kept_and_counted(path))


def stopped(path):
    """The program is killed while it opens copies of the file. Each other one is looked at before the next opening, and counted where it is as it was."""
    global untouched
    draws = random.Random(1)
    before, copy = dump(path), path + ".stopped"
    shutil.copyfile(path, copy)
    begun = time.monotonic()
    opened(copy)
    taken, wanted = time.monotonic() - begun, dump(copy)
    for kill in range(KILLS):
        for it in (copy, copy + "-wal", copy + "-shm"):
            pathlib.Path(it).unlink(missing_ok=True)
        shutil.copyfile(path, copy)
        with subprocess.Popen([PROGRAM, "deliver", "--store", copy], stdin=subprocess.DEVNULL, stdout=subprocess.DEVNULL, stderr=subprocess.DEVNULL) as process:
            time.sleep(draws.uniform(0, taken))
            process.kill()
        if kill % 2:
            left = dump(copy)
            untouched += left == before
            same(f"kill {kill}", left in (before, wanted), True)
            same(f"kill {kill}: whole", rows_of(copy, "PRAGMA integrity_check", "PRAGMA foreign_key_check"), [[("ok",)], []])
        opened(copy)
        same(f"behind kill {kill}", dump(copy), wanted)


def converted(path, schema):
    """What an opening makes of the file."""
    old = {name: f"SELECT {columns} FROM {name} ORDER BY 1, 2" for name, columns in MOVED.items()}
    kept = ("SELECT * FROM vote_sum ORDER BY 1", "SELECT * FROM tally ORDER BY 1") if schema == 2 else ()
    by_domain = {name: f"SELECT {columns} FROM d_{name} ORDER BY 1, 2" for name, columns in MOVED.items()}
    others = ("SELECT * FROM record ORDER BY 1", "SELECT * FROM team ORDER BY 1")
    before, beside, counted = rows_of(path, *old.values()), rows_of(path, *others), rows_of(path, *kept)
    opened(path)
    same("the rows of the eight tables", rows_of(path, *old.values()), before)
    same("those of sums and tallies", rows_of(path, *kept), counted)
    same("records and team", rows_of(path, *others), beside)
    first = before[0]
    after = rows_of(path, *by_domain.values())
    same("the template by domains", after[0], [(place, *row[1:]) for place, row in enumerate(first)])
    same("the other rows by domains", after[1:], before[1:])
    owners = [f"SELECT DISTINCT domain FROM d_{name}" for name in ("template", "language", "unit", "suggestion", "tally")]
    same("the domains", rows_of(path, "SELECT name FROM domain", *owners), [[("main",)]] * 6)
    same("the number of the schema", rows_of(path, "SELECT one, schema, reviews, placeholders FROM policy"), [[(1, 3, 0, 1)]])
    figures(path)
    whole = dump(path)
    opened(path)
    same("a second opening", dump(path), whole)
    for what, it in SPOILT_THEN.items():
        spoilt(path, what, *it)
    if EARLIER is not None:
        done = subprocess.run([EARLIER, "deliver", "--store", path], input=b"", capture_output=True, timeout=SECONDS)
        same("an earlier program", (done.returncode, done.stdout, done.stderr), (1, b"", b"store fault 3\n"))
        same("the file behind it", dump(path), whole)


def office_of(schema, folder):
    """What is done with a file of one schema."""
    path = str(pathlib.Path(folder) / f"office{schema}.db")
    text = (DUMPS / f"schema_{schema}.sql").read_text()
    made(path, text)
    written = str(pathlib.Path(folder) / f"written{schema}.db")
    change(written, lambda db: write_office(db, schema))
    same(f"the dump of schema {schema}", dumped(written), text)
    for what, text in {**SPOILT, **{1: SPOILT_FIRST, 2: SPOILT_SECOND}[schema]}.items():
        spoilt(path, what, text, 1, b"store fault 3\n")
    for what, text in {**ORPHANS, **(ORPHANS_SECOND if schema == 2 else {})}.items():
        spoilt(path, what, text, 1, b"store fault 2\n")
    stopped(path)
    converted(path, schema)
    braces(path)
    suggestions(path)
    figures(path)
    change(path, lambda db: write_later_suggestion(db, 3000, 7000))
    done = subprocess.run([PROGRAM, "deliver", "--store", path], input=b"", capture_output=True, timeout=SECONDS)
    same("a suggestion more than there may be", (done.returncode, done.stderr), (1, b"store fault 3\n"))


def left(name, folder):
    """What an earlier program has left: its requests come again, in their order and backwards, and its languages are exported."""
    path = str(pathlib.Path(folder) / f"{name}.db")
    made(path, (DUMPS / f"{name}.sql").read_text())
    records = rows_of(path, "SELECT number, content, status, body FROM record ORDER BY rowid")[0]
    for taken in (records, records[::-1]):
        lines = "".join(compact({**json.loads(content), "number": name}) + "\n" for name, content, _, _ in taken)
        replies = "".join(f"{status} {body}\n" for _, _, status, body in taken)
        same(f"{name}: its requests", looks.run(PROGRAM, "deliver", "--store", path, given=lines), (0, replies, ""))
    texts = {tuple(it.name.split(".")[1:3]): it.read_text() for it in DUMPS.glob(f"{name}.*.po")}
    same(f"{name}: its languages", rows_of(path, "SELECT domain, lang FROM d_language ORDER BY 1, 2")[0], sorted(texts))
    for (domain, lang), text in texts.items():
        done = looks.run(PROGRAM, "export", "--store", path, "--lang", lang, "--domain", domain)
        same(f"{name}: the export of {domain} {lang}", done[:2], (0, text))
    same(f"{name}: its records", rows_of(path, "SELECT number, content, status, body FROM record ORDER BY rowid")[0], records)
    figures(path)


def main():
    with tempfile.TemporaryDirectory() as folder:
        for schema in (1, 2):
            office_of(schema, folder)
        for name in LEFT:
            left(name, folder)
    print(f"of {KILLS} kills {untouched} left the file as it was")
    return looks.told()


if __name__ == "__main__":
    sys.exit(main())
