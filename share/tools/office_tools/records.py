"""The records of an office's file, or of what `office-log --json` printed of one: who sent what, in the order in which the office took it."""
import collections
import contextlib
import datetime
import errno
import fcntl
import os
import shutil
import sqlite3
import urllib.parse

from office_tools import Fault
from office_tools.files import bytes_of, opened
from office_tools.replies import body_of, has_fields, value_of

# The bytes that SQLite locks for readers, and the least log that has a page for the file.
SHARED_FIRST, SHARED_SIZE = 0x40000002, 510
LEAST_FRAME = 56
RECORDS = "SELECT rowid, number, content, status, body FROM main.record ORDER BY rowid"
# The milliseconds of the year 10000.
LAST = 253_402_300_800_000
LOGGED = {"number": str, "content": dict, "status": int, "body": dict}

Record = collections.namedtuple("Record", "number content status body")


@contextlib.contextmanager
def held(path):
    """Holds the file as SQLite's readers do, so that no office opens it meanwhile."""
    file = opened(path)
    try:
        lock(path, file)
        yield
    finally:
        os.close(file)


def lock(path, file):
    try:
        fcntl.lockf(file, fcntl.LOCK_SH | fcntl.LOCK_NB, SHARED_SIZE, SHARED_FIRST)
    except OSError as why:
        in_use = why.errno in (errno.EACCES, errno.EAGAIN)
        said = "in use by another program: stop that, or take the file of a stopped office" if in_use else why.strerror
        raise Fault(f"{path}: {said}") from None


def log_of(path):
    return path.with_name(path.name + "-wal")


def copy(path, folder):
    """A copy of an office's file, with what isn't in the file itself yet, made while no program has it open."""
    with held(path):
        try:
            # The file comes last: the lock goes with the first descriptor of it that is closed.
            for it in (log_of(path), path):
                if it == path or it.exists():
                    shutil.copyfile(it, folder / it.name)
        except OSError as why:
            raise Fault(f"{path}: no copy of it: {why.strerror}") from None
    return folder / path.name


def rows(path):
    """The rows of the records, in the order in which they were written. The file is read as it lies, and nothing is written beside it."""
    log = log_of(path)
    if log.exists() and log.stat().st_size >= LEAST_FRAME:
        raise Fault(f"{path}: {log.name} has what isn't in the file yet: open and close the office once, by `office export` say")
    yield from rows_by(path, "mode=ro&immutable=1")


def rows_by(path, how):
    """The rows of the records of a file that SQLite opens so."""
    try:
        with contextlib.closing(sqlite3.connect(f"file:{urllib.parse.quote(str(path))}?{how}", uri=True)) as db:
            if not is_table(db):
                raise Fault(f"{path}: no office's file: it has no table of records")
            yield from rising(path, db.execute(RECORDS))
    except sqlite3.Error as why:
        raise Fault(f"{path}: no office's file, or a damaged one: {why}") from None


def is_table(db):
    """Whether the records are a table, each column of which is kept in its rows: a view, or a column that is computed, may never end."""
    kinds = [row[2] for row in db.execute("PRAGMA main.table_list(record)")]
    hidden = [row[6] for row in db.execute("PRAGMA main.table_xinfo(record)")]
    return kinds == ["table"] and not any(hidden)


def rising(path, found):
    """The rows without their places, which rise where the file is whole."""
    before = None
    for place, *row in found:
        if before is not None and place <= before:
            raise Fault(f"{path}: a damaged file: its records are out of order")
        before = place
        yield row


def in_copy(path):
    """The records of a copy of an office's file, which SQLite may put in order."""
    return [Record(number, body_of(content), status, body_of(body)) for number, content, status, body in rows_by(path, "mode=rw")]


def in_log(path):
    """The records that `office-log --json` printed."""
    found = []
    for number, line in enumerate(bytes_of(path).decode(errors="replace").removesuffix("\n").split("\n"), 1):
        row = value_of(line)
        if not has_fields(row, LOGGED):
            raise Fault(f"{path}: line {number} is no record, as office-log --json prints one")
        found.append(Record(*(row[it] for it in LOGGED)))
    return found


def when(number):
    """When a number was made; None where it doesn't say, or says a year of five digits."""
    if number[14:15] != "7":
        return None
    milliseconds = int(number[:8] + number[9:13], 16)
    return datetime.datetime.fromtimestamp(milliseconds / 1000, datetime.timezone.utc) if milliseconds < LAST else None


def time_of(number):
    """When a number was made, in UTC, as a text; - where it doesn't say."""
    made = when(number)
    return made.isoformat(timespec="milliseconds").replace("+00:00", "Z") if made else "-"
