#!/usr/bin/env python3
"""Looks with SQLite at the files that tables on SQLite leave.

    tests/store.py [PROGRAM]     (PROGRAM is what tests/store/build.py has built)

The program runs the rows of tests/store/rows.txt in files, one for each office, and a few requests more. Of each file, once it is
closed and without the log beside it: SQLite finds it whole, its references held, its schema that of the tables as they are written down
here, its rows those that the rows of the program tell, and the sums and tallies that are kept what counting gives. A run that is killed has
to leave a file of which as much holds. Each statement of the crates on SQLite that reads or removes finds its rows by a key, and those that the bench runs by themselves are the same as
the tables'. Prints what fails, and last how much was looked at; the status is 1 if anything failed.
"""
import functools
import json
import pathlib
import re
import shutil
import signal
import sqlite3
import subprocess
import sys
import tempfile
import time

from figures import COUNTED, KEPT, answers
from first_tables import FIGURES, TABLES
from looks import number
from looks import run as run_in_time

TOP = pathlib.Path(__file__).resolve().parent.parent
ROWS = (TOP / "tests" / "store" / "rows.txt").read_text()
STATEMENTS = [it for folder in ("sql_schema", "sql_statements") for it in sorted((TOP / "crates" / folder / "src").glob("*.rt"))]
PROGRAM = pathlib.Path(sys.argv[1] if len(sys.argv) > 1 else "/tmp/office-store-program/crates/stored_offices/out/stored_offices").resolve()

# A table's columns, each with its type, whether it is NOT NULL, and its place in the primary key; the columns of each further unique
# key; and its references: the other table, the columns here and there, and what is done where a row that is referred to goes.
SCHEMA = {
    "team": ([("name", "TEXT", 1, 1), ("role", "INTEGER", 1, 0)], [], []),
    "policy": (
        [("one", "INTEGER", 0, 1), ("schema", "INTEGER", 1, 0)]
        + [(it, "INTEGER", 1, 0) for it in ("reviews", "guests_suggest", "voting", "accept_at", "placeholders", "line_ends")],
        [],
        [],
    ),
    "domain": ([("name", "TEXT", 1, 1)], [], []),
    "d_template": (
        [("domain", "TEXT", 1, 1), ("place", "INTEGER", 1, 2), ("key", "TEXT", 1, 0), ("plural", "TEXT", 0, 0)]
        + [(it, "TEXT", 1, 0) for it in ("extracted", "refs", "flags")],
        [["domain", "key"]],
        [],
    ),
    "d_language": ([("domain", "TEXT", 1, 1), ("lang", "TEXT", 1, 2), ("header", "TEXT", 1, 0), ("plural", "TEXT", 1, 0)], [], []),
    "d_unit": (
        [("domain", "TEXT", 1, 1), ("lang", "TEXT", 1, 2), ("key", "TEXT", 1, 3), ("plural", "TEXT", 0, 0), ("forms", "TEXT", 1, 0)]
        + [(it, "INTEGER", 1, 0) for it in ("state", "obsolete", "revision")]
        + [(it, "TEXT", 1, 0) for it in ("comment", "previous")],
        [],
        [],
    ),
    "d_suggestion": (
        [("number", "TEXT", 1, 1), ("domain", "TEXT", 1, 0), ("lang", "TEXT", 1, 0), ("key", "TEXT", 1, 0), ("place", "INTEGER", 1, 0)]
        + [("suggester", "TEXT", 1, 0), ("forms", "TEXT", 1, 0)],
        [["domain", "lang", "key", "place"]],
        [
            ("record", ["number"], ["number"], "NO ACTION"),
            ("d_unit", ["domain", "lang", "key"], ["domain", "lang", "key"], "CASCADE"),
        ],
    ),
    "d_vote": (
        [("number", "TEXT", 1, 1), ("voter", "TEXT", 1, 2), ("value", "INTEGER", 1, 0)],
        [],
        [("d_suggestion", ["number"], ["number"], "CASCADE")],
    ),
    "d_vote_sum": (
        [("number", "TEXT", 1, 1), ("sum", "INTEGER", 1, 0)],
        [],
        [("d_suggestion", ["number"], ["number"], "CASCADE")],
    ),
    "d_tally": (
        [("domain", "TEXT", 1, 1), ("lang", "TEXT", 1, 2)]
        + [
            (it, "INTEGER", 1, 0)
            for it in ("untranslated", "needs_editing", "translated", "approved", "read_only", "suggestions", "obsolete")
        ],
        [],
        [],
    ),
    "record": (
        [("number", "TEXT", 1, 1), ("content", "TEXT", 1, 0), ("status", "INTEGER", 1, 0), ("body", "TEXT", 1, 0)],
        [],
        [],
    ),
}

# What a table refuses of a row: a statement for each bound of a column.
REFUSED = [
    "UPDATE team SET role = 0",
    "UPDATE team SET role = 4",
    "UPDATE policy SET one = 2",
    "INSERT INTO policy VALUES (2, 3, 0, 0, 0, 0, 0, 0)",
    "UPDATE d_unit SET state = 4",
    "UPDATE d_unit SET state = -1",
    "UPDATE d_unit SET obsolete = 2",
    "UPDATE d_unit SET revision = 'one'",
    "UPDATE team SET role = NULL",
    "INSERT INTO d_suggestion VALUES ('unrecorded', 'main', 'de', 'Hello', 7000, 'ann', '[]')",
    "INSERT INTO d_vote VALUES ('no suggestion', 'ann', 1)",
    "INSERT INTO d_vote_sum VALUES ('no suggestion', 1)",
    "INSERT INTO domain VALUES ('main')",
]
# The same of rows that refer to one another; the first of these make them.
WITH_VOTE = [
    "INSERT INTO record VALUES ('n', '{}', 200, '{}')",
    "INSERT INTO d_suggestion VALUES ('n', 'main', 'de', 'Hello', 7000, 'ann', '[]')",
    "INSERT INTO d_vote VALUES ('n', 'ann', 1)",
    "INSERT INTO d_vote_sum VALUES ('n', 2)",
]
REFUSED_WITH_VOTE = [
    "UPDATE d_vote SET value = 0",
    "UPDATE d_vote SET value = 2",
    "INSERT INTO d_vote VALUES ('n', 'ann', -1)",
    "INSERT INTO d_vote_sum VALUES ('n', 3)",
    "INSERT INTO record VALUES ('n', '{}', 200, '{}')",
    "DELETE FROM record WHERE number = 'n'",
    "INSERT INTO d_suggestion VALUES ('n', 'main', 'de', 'Hello', 8000, 'ann', '[]')",
]

HEADER = '[[],[],[],[],[null,null,null],"Content-Type: text/plain; charset=UTF-8\\nPlural-Forms: nplurals=2; plural=n != 1;\\n"]'
NONE = "[null,null,null]"


class Looks:
    """What was looked at, and what failed."""

    def __init__(self):
        self.looks = {}
        self.failed = 0

    def same(self, kind, what, found, wanted):
        self.looks[kind] = self.looks.get(kind, 0) + 1
        if found != wanted:
            self.failed += 1
            print(f"FAILED {what}:\n  found  {found}\n  wanted {wanted}")


run = functools.partial(run_in_time, PROGRAM, seconds=600)


def alone(path, folder):
    """A copy of the file without the log beside it."""
    copy = folder / (path.name + ".alone")
    shutil.copyfile(path, copy)
    return sqlite3.connect(copy)


def rows(db, text, *values):
    return [tuple(row) for row in db.execute(text, values).fetchall()]


def columns_of_index(db, name):
    return [row[2] for row in rows(db, "SELECT * FROM pragma_index_info(?)", name)]


def references(db, table):
    """The references of a table, in the order of the tables that they name."""
    found = {}
    for row in rows(db, "SELECT id, seq, \"table\", \"from\", \"to\", on_update, on_delete, match FROM pragma_foreign_key_list(?)", table):
        at = found.setdefault(row[0], (row[2], [], [], row[6], row[5], row[7]))
        at[1].append(row[3])
        at[2].append(row[4])
    return sorted(found.values())


def look_at_schema(looks, name, db):
    listed = rows(db, "SELECT type, name FROM sqlite_master WHERE name NOT LIKE 'sqlite_autoindex_%' ORDER BY name")
    looks.same("tables", f"{name}: what there is", listed, [("table", it) for it in sorted(SCHEMA)])
    for table, (columns, unique, foreign) in SCHEMA.items():
        at = f"{name}: {table}"
        found = rows(db, "SELECT name, type, \"notnull\", pk, dflt_value, hidden FROM pragma_table_xinfo(?)", table)
        looks.same("columns", f"{at}, columns", found, [(*it, None, 0) for it in columns])
        strict = rows(db, "SELECT type, strict, wr FROM pragma_table_list(?) WHERE schema = 'main'", table)
        looks.same("strict tables", f"{at}, strict", strict, [("table", 1, 0)])
        indexes = rows(db, "SELECT name, \"unique\", origin, partial FROM pragma_index_list(?)", table)
        keys = sorted((origin, unique_, partial, columns_of_index(db, it)) for it, unique_, origin, partial in indexes)
        primary = [it[0] for it in sorted((it for it in columns if it[3]), key=lambda it: it[3])]
        # an integer that is the primary key is the rowid, and has no index
        wanted = [] if table == "policy" else [("pk", 1, 0, primary)]
        looks.same("keys", f"{at}, keys", keys, sorted(wanted + [("u", 1, 0, it) for it in unique]))
        collations = [row[0] for it in indexes for row in rows(db, "SELECT coll FROM pragma_index_xinfo(?)", it[0])]
        looks.same("collations", f"{at}, collations", sorted(set(collations)), ["BINARY"] if collations else [])
        looks.same("references", f"{at}, references", references(db, table), sorted((*it, "NO ACTION", "NONE") for it in foreign))


def is_refused(db, text):
    try:
        db.execute(text)
    except sqlite3.IntegrityError:
        return True
    return False


def look_at_bounds(looks, name, db):
    """What the tables refuse, of an office that has a unit; nothing of it stays."""
    db.execute("PRAGMA foreign_keys = ON")
    db.isolation_level = None
    for before, texts in (([], REFUSED), (WITH_VOTE, REFUSED_WITH_VOTE)):
        db.execute("BEGIN")
        for text in before:
            db.execute(text)
        for text in texts:
            looks.same("bounds", f"{name}: {text}, refused", is_refused(db, text), True)
        if before:
            looks.same("bounds", f"{name}: a unit with a suggestion, kept", is_refused(db, "DELETE FROM d_unit"), False)
            left = [it for table in ("d_suggestion", "d_vote", "d_vote_sum") for it in rows(db, f"SELECT number FROM {table} WHERE number = 'n'")]
            looks.same("bounds", f"{name}: what stays of a suggestion whose unit goes", left, [])
        db.execute("ROLLBACK")


def look_whole(looks, name, db):
    looks.same("whole files", f"{name}: integrity", rows(db, "PRAGMA integrity_check"), [("ok",)])
    looks.same("held references", f"{name}: references", rows(db, "PRAGMA foreign_key_check"), [])


def look_at_figures(looks, name, db):
    """The sums and tallies that are kept are what counting gives; nothing of the program counts here."""
    (sums, tallies), (votes, units) = answers(db, KEPT), answers(db, COUNTED)
    looks.same("kept sums", f"{name}: sums", sums, votes)
    looks.same("kept tallies", f"{name}: tallies", tallies, units)


def counts(db):
    """How many rows the tables have, as the program tells it."""
    found = [(it, rows(db, f"SELECT count(*) FROM {it}")[0][0]) for it in SCHEMA]
    return ", ".join(f"{table} {count}" for table, count in found if count)


# ---- statements


def in_one_piece(source):
    """The source, with each text that `concat!` makes of pieces, a line each, as one."""
    return re.sub(r"concat!\((.*?)\n *\)", lambda it: '"%s"' % "".join(re.findall(r'^ *"([^"]*)"', it[1], re.MULTILINE)), source, flags=re.DOTALL)


def texts_of(path, first):
    """The texts of SQL in a source that begin so."""
    return re.findall(r'"((?:%s) [^"]*)"' % first, in_one_piece(path.read_text()))


def plan(db, text):
    places = max([0, *map(int, re.findall(r"\?(\d+)", text))])
    return [row[3] for row in rows(db, "EXPLAIN QUERY PLAN " + text, *["x"] * places)]


def is_by_key(text, step):
    """A table that is read as a whole is gone through in the order of a key; else each row is looked for by one. (One that is emptied takes no steps.
    A join has the order of its first table, but SQLite may begin with the other and sort.)"""
    if " WHERE " not in text:
        return step.startswith("SCAN ") and "TEMP B-TREE" not in step
    if " JOIN " in text and step == "USE TEMP B-TREE FOR ORDER BY":
        return True
    return bool(re.match(r"SEARCH \w+ USING (COVERING INDEX|INDEX|INTEGER PRIMARY KEY)\b", step))


def all_tables():
    """A database with the tables of each form, as a file of the second schema has them that was converted: some statements read the old ones."""
    db = sqlite3.connect(":memory:")
    made = set()
    for name, (_, columns) in {**TABLES, **FIGURES}.items():
        db.execute(f"CREATE TABLE {name} ({columns}) STRICT")
        made.add(name)
    for path in STATEMENTS:
        for text in texts_of(path, "CREATE"):
            if re.match(r"CREATE TABLE (\w+)", text)[1] not in made:
                db.execute(text)
    return db


def look_at_plans(looks):
    db = all_tables()
    for path in STATEMENTS:
        for text in texts_of(path, "SELECT|DELETE"):
            steps = plan(db, text)
            wrong = [it for it in steps if not is_by_key(text, it)]
            looks.same("plans", f"{path.name}: {text}", (bool(steps), wrong), (text.startswith("SELECT") or " WHERE " in text, []))
    kept = {it for path in STATEMENTS for it in texts_of(path, "SELECT|DELETE|INSERT|UPDATE")}
    for text in texts_of(TOP / "tests" / "store" / "bare.rt.txt", "SELECT|DELETE|INSERT|UPDATE"):
        looks.same("statements of the bench", f"bare.rt: {text}, a statement of the tables", text in kept, True)


# ---- runs


def told_counts():
    """What the rows of the program want of each office's tables, in order."""
    lines = ROWS.splitlines()
    return [line.split(" -> ", 1)[1] for line in lines if line.startswith("close -> ")]


def names(folder, count):
    return [folder / ("office.db" if at == 0 else f"office.db.{at}") for at in range(count)]


def look_at_rows(looks, folder):
    """The rows, in files."""
    ended = run("rows", folder / "office.db", given=ROWS)
    looks.same("runs", "the rows, in files", ended, (0, f"{len(ROWS.splitlines())} rows\n", ""))
    wanted = told_counts()
    for path, told in zip(names(folder, len(wanted)), wanted):
        db = alone(path, folder)
        look_whole(looks, path.name, db)
        look_at_schema(looks, path.name, db)
        looks.same("numbers of rows", f"{path.name}: rows", counts(db), told)
        look_at_figures(looks, path.name, db)
        if "d_unit" in told:
            look_at_bounds(looks, path.name, db)
        db.close()


def request(n, act, caller, seen, **fields):
    fields.update(act=act, caller=caller, id="Hello", lang="de", seen=seen)
    content = json.dumps(fields, sort_keys=True, separators=(",", ":"), ensure_ascii=False)
    fields.update(number=number(n))
    return json.dumps(fields, sort_keys=True, separators=(",", ":"), ensure_ascii=False), content


def done(revision, state="translated"):
    return 200, '{"revision":%d,"state":"%s"}' % (revision, state)


def suggested(n):
    return 200, '{"revision":1,"state":"untranslated","suggestion":"%s","votes":1}' % number(n)


# Requests to the demo office, each with its status and body.
REQUESTS = [
    (1, "suggest", "ann", 1, {"forms": ["Hallo"]}, suggested(1)),
    (2, "suggest", "root", 1, {"forms": ["Servus"]}, suggested(2)),
    (3, "suggest", "ann", 1, {"forms": ["Moin"]}, suggested(3)),
    (4, "dismiss", "ann", 1, {"suggestion": number(2)}, done(1, "untranslated")),
    (5, "accept", "root", 1, {"suggestion": number(1)}, done(2)),
    (6, "comment", "ann", 2, {"lines": ["a note", "„another\""]}, done(3)),
    (7, "translate", "ann", 2, {"forms": ["Hi"]}, (409, '{"refusal":"stale","rule":5}')),
    (8, "vote", "root", 3, {"suggestion": number(3), "value": 1}, (409, '{"refusal":"voting-off","rule":9}')),
    (9, "suggest", "root", 3, {"forms": ["\"Tag\"\n"]}, (200, '{"revision":3,"state":"translated","suggestion":"%s","votes":1}' % number(9))),
]

# What the tables hold then.
WANTED = {
    "team": [("ann", 1), ("root", 3)],
    "policy": [(1, 3, 0, 0, 0, 0, 0, 0)],
    "domain": [("main",)],
    "d_template": [("main", 0, "Hello", None, "[]", "[]", "[]")],
    "d_language": [("main", "de", HEADER, "nplurals=2; plural=n != 1;")],
    "d_unit": [("main", "de", "Hello", None, '["Hallo"]', 2, 0, 3, '["a note","„another\\""]', NONE)],
    "d_suggestion": [
        (number(3), "main", "de", "Hello", 0, "ann", '["Moin"]'),
        (number(9), "main", "de", "Hello", 1, "root", '["\\"Tag\\"\\n"]'),
    ],
    "d_vote": [],
    "d_vote_sum": [(number(3), 1), (number(9), 1)],
    "d_tally": [("main", "de", 0, 0, 1, 0, 0, 2, 0)],
}


def ordered(table):
    """Its first columns, two where it has them."""
    return ", ".join(str(at + 1) for at in range(min(2, len(SCHEMA[table][0]))))


def look_at_values(looks, folder):
    """A few requests, and what stands in each column after them."""
    lines, records = ["open demo"], []
    for n, act, caller, seen, fields, (status, body) in REQUESTS:
        line, content = request(n, act, caller, seen, **fields)
        lines.append(f"{line} -> {status} {body}")
        records.append((number(n), content, status, body))
    lines.append("over -> %d as before" % len(REQUESTS))
    ended = run("rows", folder / "values.db", given="".join(line + "\n" for line in lines + ["close"]))
    told = "close, not %s\n%d rows\n"
    db = alone(folder / "values.db", folder)
    looks.same("runs", "requests, in a file", ended, (0, told % (counts(db), len(lines) + 1), ""))
    for table, wanted in {**WANTED, "record": records}.items():
        looks.same("tables of values", f"values.db: {table}", rows(db, f"SELECT * FROM {table} ORDER BY {ordered(table)}"), wanted)
    look_whole(looks, "values.db", db)
    look_at_figures(looks, "values.db", db)
    look_at_plans(looks)
    db.close()


def look_at_bench(looks, folder):
    """Acts of the office leave what their statements leave by themselves."""
    count, found = 50, {}
    for work in ("acts", "bare", "views", "reads"):
        path = folder / f"{work}.db"
        status, told, faults = run(work, path, count)
        looks.same("runs", work, (status, bool(re.fullmatch(r"%d \d+\n" % count, told)), faults), (0, True, ""))
        db = alone(path, folder)
        look_whole(looks, path.name, db)
        found[work] = {table: rows(db, f"SELECT * FROM {table} ORDER BY {ordered(table)}") for table in SCHEMA}
        db.close()
    looks.same("tables of values", "acts, records", len(found["acts"]["record"]), count)
    unit = ("main", "de", "Hello", None, '["Hallo %d"]' % count, 2, 0, count + 1, "[]", NONE)
    looks.same("tables of values", "acts, unit", found["acts"]["d_unit"], [unit])
    for table in SCHEMA:
        looks.same("tables of values", f"acts beside bare: {table}", found["bare"][table], found["acts"][table])
        looks.same("tables of values", f"views beside reads: {table}", found["reads"][table], found["views"][table])


def look_after_kill(looks, folder, seconds):
    """A run that is killed leaves each act with its record, and the file whole."""
    path = folder / f"killed_{seconds}.db"
    child = subprocess.Popen([PROGRAM, "acts", path, "100000000"], stdout=subprocess.DEVNULL, stderr=subprocess.DEVNULL)
    while child.poll() is None and not pathlib.Path(f"{path}-wal").exists():
        time.sleep(0.01)
    time.sleep(seconds)
    child.send_signal(signal.SIGKILL)
    child.wait()
    looks.same("killed runs", f"{path.name}: the end of the run", child.returncode, -signal.SIGKILL)
    db = sqlite3.connect(path)
    look_whole(looks, path.name, db)
    records = rows(db, "SELECT count(*) FROM record")[0][0]
    looks.same("killed runs", f"{path.name}: some acts were committed", records > 0, True)
    unit = ("main", "de", "Hello", None, '["Hallo %d"]' % records, 2, 0, records + 1, "[]", NONE)
    looks.same("killed runs", f"{path.name}: unit of {records} acts", rows(db, "SELECT * FROM d_unit"), [unit])
    look_at_figures(looks, path.name, db)
    db.close()


def main():
    looks = Looks()
    with tempfile.TemporaryDirectory() as place:
        folder = pathlib.Path(place)
        look_at_rows(looks, folder)
        look_at_values(looks, folder)
        look_at_bench(looks, folder)
        for seconds in (0.5, 1, 2):
            look_after_kill(looks, folder, seconds)
    told = ", ".join(f"{kind} {count}" for kind, count in looks.looks.items())
    print(f"SQLite {sqlite3.sqlite_version}: {told}; {looks.failed} failed")
    return 1 if looks.failed else 0


if __name__ == "__main__":
    sys.exit(main())
