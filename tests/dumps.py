"""A file of an office as SQL, in which the file's tables and rows stand in their order."""
import contextlib
import sqlite3


def dumped(path):
    """The file's text: each table in its place among the others, since a program looks where each stands, and each row under its number."""
    lines = ["PRAGMA foreign_keys = OFF;", "BEGIN;"]
    with contextlib.closing(sqlite3.connect(path)) as db:
        tables = db.execute("SELECT name, sql FROM sqlite_schema WHERE type = 'table' ORDER BY rowid").fetchall()
        lines += [f"{text};" for _, text in tables]
        for name, _ in tables:
            columns = db.execute(f"PRAGMA table_info({name})").fetchall()
            has_number = any(it[5] and it[2] == "INTEGER" for it in columns)
            names = ", ".join([*([] if has_number else ["rowid"]), *(it[1] for it in columns)])
            shown = ", ".join(f"quote({it})" for it in names.split(", "))
            lines += [f"INSERT INTO {name} ({names}) VALUES ({', '.join(row)});" for row in db.execute(f"SELECT {shown} FROM {name} ORDER BY rowid")]
    return "\n".join([*lines, "COMMIT;"]) + "\n"


def made(path, text):
    """Makes the file of such a text."""
    with contextlib.closing(sqlite3.connect(path, isolation_level=None)) as db:
        db.executescript(text)
