"""Files of the first and of the second schema: tables without a column for a domain, and in the second sums of votes and tallies beside them."""
import contextlib
import sqlite3

UNIT = "lang TEXT NOT NULL, key TEXT NOT NULL"
FLAGS = ("reviews", "guests_suggest", "voting", "accept_at", "placeholders", "line_ends")
# The columns of each table, and where a later file has its rows.
TABLES = {
    "record": ("record", "number TEXT NOT NULL PRIMARY KEY, content TEXT NOT NULL, status INTEGER NOT NULL, body TEXT NOT NULL"),
    "team": ("team", "name TEXT NOT NULL PRIMARY KEY, role INTEGER NOT NULL CHECK (role BETWEEN 1 AND 3)"),
    "policy": (
        "policy",
        "one INTEGER PRIMARY KEY CHECK (one BETWEEN 1 AND 1), schema INTEGER NOT NULL, " + ", ".join(f"{it} INTEGER NOT NULL" for it in FLAGS),
    ),
    "template": (
        "d_template",
        "place INTEGER PRIMARY KEY, key TEXT NOT NULL UNIQUE, plural TEXT, extracted TEXT NOT NULL, refs TEXT NOT NULL, flags TEXT NOT NULL",
    ),
    "language": ("d_language", "lang TEXT NOT NULL PRIMARY KEY, header TEXT NOT NULL, plural TEXT NOT NULL"),
    "unit": (
        "d_unit",
        f"{UNIT}, plural TEXT, forms TEXT NOT NULL, state INTEGER NOT NULL CHECK (state BETWEEN 0 AND 3), "
        "obsolete INTEGER NOT NULL CHECK (obsolete BETWEEN 0 AND 1), revision INTEGER NOT NULL, comment TEXT NOT NULL, "
        "previous TEXT NOT NULL, PRIMARY KEY (lang, key)",
    ),
    "suggestion": (
        "d_suggestion",
        f"number TEXT NOT NULL PRIMARY KEY REFERENCES record (number), {UNIT}, place INTEGER NOT NULL, suggester TEXT NOT NULL, "
        "forms TEXT NOT NULL, UNIQUE (lang, key, place), FOREIGN KEY (lang, key) REFERENCES unit (lang, key) ON DELETE CASCADE",
    ),
    "vote": (
        "d_vote",
        "number TEXT NOT NULL REFERENCES suggestion (number) ON DELETE CASCADE, voter TEXT NOT NULL, "
        "value INTEGER NOT NULL CHECK (value BETWEEN -1 AND 1) CHECK (value <> 0), PRIMARY KEY (number, voter)",
    ),
}
# What the second schema has beside them.
COUNTED = ("untranslated", "needs_editing", "translated", "approved", "read_only", "suggestions", "obsolete")
FIGURES = {
    "vote_sum": ("d_vote_sum", "number TEXT NOT NULL PRIMARY KEY REFERENCES suggestion (number) ON DELETE CASCADE, sum INTEGER NOT NULL"),
    "tally": ("d_tally", "lang TEXT NOT NULL PRIMARY KEY, " + ", ".join(f"{it} INTEGER NOT NULL" for it in COUNTED)),
}


def make(path, later, schema=1):
    """Makes a file of the first schema or the second, with the rows of a later one."""
    with contextlib.closing(sqlite3.connect(path)) as db:
        db.execute("PRAGMA journal_mode = WAL")
        db.execute("ATTACH ? AS later", (str(later),))
        for name, (source, columns) in {**TABLES, **(FIGURES if schema == 2 else {})}.items():
            db.execute(f"CREATE TABLE {name} ({columns}) STRICT")
            names = ", ".join(it[1] for it in db.execute(f"PRAGMA table_info({name})"))
            db.execute(f"INSERT INTO {name} SELECT {names} FROM later.{source} ORDER BY rowid")
        db.execute("UPDATE policy SET schema = ?", (schema,))
        db.commit()
