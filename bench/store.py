#!/usr/bin/env python3
"""Measures acts and looks over tables on SQLite in a file, beside their statements alone.

Acts: translations of the demo office's unit, each decided, recorded and committed; the same statements in the same transactions by the
kit's `sqlite` without the office; and the same by the system's SQLite, from Python, in WAL mode with synchronous = FULL. Looks: what an
act on the unit needs to know, and its six reads alone, by both. Each on a new file, the best of several rounds in turn; a file's opening
and closing are left out. Prints how many there were a second, and the time of one beside that of the statements alone; and what an append
of a page with its fdatasync takes, of which each commit has one.

Usage: bench/store.py [FOLDER [ACTS [ROUNDS [PROGRAM]]]]      (PROGRAM is what tests/store/build.py has
built; the files are made in FOLDER, which should lie on a disk)
"""
import os
import pathlib
import re
import sqlite3
import subprocess
import sys
import tempfile
import time

TOP = pathlib.Path(__file__).resolve().parent.parent
FOLDER = sys.argv[1] if len(sys.argv) > 1 else None
ACTS = int(sys.argv[2]) if len(sys.argv) > 2 else 2_000
ROUNDS = int(sys.argv[3]) if len(sys.argv) > 3 else 5
PROGRAM = pathlib.Path(sys.argv[4] if len(sys.argv) > 4 else "/tmp/office-store-program/crates/stored_offices/out/stored_offices").resolve()
LOOKS = 10 * ACTS

# In the order in which they stand there: a look into the book, the six reads of a look, of which an act leaves the last out, and the writes, behind
# looks at the domain and, again, at the unit. The first act moves the tally.
STATEMENTS = re.findall(r'"((?:SELECT|INSERT|DELETE) [^"]*)"', (TOP / "tests" / "store" / "bare.rt.txt").read_text())
RECORD, READS, (PUT_RECORD, DOMAIN, TALLY, PUT_TALLY, PUT_UNIT) = STATEMENTS[0], STATEMENTS[1:7], STATEMENTS[7:]
UNIT = ("main", "de", "Hello")
VALUES = [("main", "de"), (), ("ann",), UNIT, ("main", "Hello"), UNIT]


def ran(work, path, count):
    """The seconds of the program's work in a new file."""
    done = subprocess.run([PROGRAM, work, path, str(count)], capture_output=True, text=True)
    told = re.fullmatch(r"%d (\d+)\n" % count, done.stdout)
    if done.returncode or not told:
        raise SystemExit("%s %s: status %d, %s%s" % (PROGRAM, work, done.returncode, done.stdout, done.stderr))
    return int(told[1]) / 1e6


def opened(path):
    """A file with the demo office, opened by SQLite."""
    ran("acts", path, 0)
    db = sqlite3.connect(path, isolation_level=None)
    if db.execute("PRAGMA journal_mode = WAL").fetchone() != ("wal",):
        raise SystemExit("no WAL mode")
    db.execute("PRAGMA synchronous = FULL")
    db.execute("PRAGMA foreign_keys = ON")
    return db


def look(db, reads=6):
    db.execute("BEGIN")
    for text, values in list(zip(READS, VALUES))[:reads]:
        db.execute(text, values).fetchall()
    db.execute("COMMIT")


def translate(db, n):
    number = "%08x-0000-4000-8000-%012x" % (n, n)
    content = '{"act":"translate","caller":"ann","forms":["Hallo %d"],"id":"Hello","lang":"de","seen":%d}' % (n, n)
    body = '{"revision":%d,"state":"translated"}' % (n + 1)
    unit = (*UNIT, None, '["Hallo %d"]' % n, 2, 0, n + 1, "[]", "[null,null,null]")
    db.execute("BEGIN")
    db.execute(RECORD, (number,)).fetchall()
    db.execute("COMMIT")
    look(db, 5)
    db.execute("BEGIN")
    db.execute(PUT_RECORD, (number, content, 200, body))
    db.execute(DOMAIN, ("main",)).fetchall()
    db.execute(READS[3], UNIT).fetchall()
    if n == 1:
        db.execute(TALLY, ("main", "de")).fetchall()
        db.execute(PUT_TALLY, ("main", "de", 0, 0, 1, 0, 0, 0, 0))
    db.execute(PUT_UNIT, unit)
    db.execute("COMMIT")


def by_sqlite(path, count, act):
    """The seconds of so many acts or looks by SQLite."""
    db = opened(path)
    start = time.monotonic()
    for n in range(1, count + 1):
        act(db, n)
    seconds = time.monotonic() - start
    db.close()
    return seconds


def appended(path, count):
    """The seconds of so many appends of a page, each with its fdatasync."""
    with open(path, "wb", buffering=0) as file:
        start = time.monotonic()
        for _ in range(count):
            file.write(bytes(4096))
            os.fdatasync(file.fileno())
        return time.monotonic() - start


ROWS = [
    ("acts, the office", "acts", ACTS, lambda path, count: ran("acts", path, count)),
    ("  their statements alone", "acts", ACTS, lambda path, count: ran("bare", path, count)),
    ("  the same by SQLite %s" % sqlite3.sqlite_version, "acts", ACTS, lambda path, count: by_sqlite(path, count, translate)),
    ("  an append and its fdatasync", "acts", ACTS, appended),
    ("looks, the office", "looks", LOOKS, lambda path, count: ran("views", path, count)),
    ("  their six reads alone", "looks", LOOKS, lambda path, count: ran("reads", path, count)),
    ("  the same by SQLite %s" % sqlite3.sqlite_version, "looks", LOOKS, lambda path, count: by_sqlite(path, count, lambda db, _: look(db))),
]


def main():
    best = [float("inf")] * len(ROWS)
    for turn in range(ROUNDS):
        with tempfile.TemporaryDirectory(dir=FOLDER) as place:
            for at, (_, _, count, work) in enumerate(ROWS):
                best[at] = min(best[at], work(os.path.join(place, "%d.db" % at), count))
    alone = {"acts": best[1] / ACTS, "looks": best[5] / LOOKS}
    print("%d acts and %d looks, the best of %d rounds" % (ACTS, LOOKS, ROUNDS))
    for (name, kind, count, _), seconds in zip(ROWS, best):
        print(
            "%-32s %9.0f a second %9.1f microseconds, ratio %.2f"
            % (name, count / seconds, seconds / count * 1e6, seconds / count / alone[kind])
        )


if __name__ == "__main__":
    main()
