"""How far an office's file has come in its project's stream."""
import json
import pathlib
import sqlite3
import time

from office_streams import FIRST_RULES, Fault, say


class Hint:
    """An offset of the stream, and the number of the request there, which was larger than any number before it in the stream. So it came there
    first, and a file that has it has all before it. The hint stands beside the file, and is believed only where the file has the request."""

    def __init__(self, store, tool):
        self.path = pathlib.Path(f"{store}.offset")
        self.store, self.tool = store, tool
        self.offset, self.number, self.rules = 0, None, FIRST_RULES
        self.largest = ""
        self.written = 0.0

    def look(self):
        """Reads the hint. The office isn't open."""
        self.offset, self.number, self.rules = 0, None, FIRST_RULES
        try:
            rows = sqlite3.connect(f"file:{self.store}?mode=rw", uri=True, timeout=30)
            try:
                self.largest = rows.execute("SELECT max(number) FROM record").fetchone()[0] or ""
                self.believe(rows, json.loads(self.path.read_text()))
            finally:
                rows.close()
        except FileNotFoundError:
            pass
        except (ValueError, KeyError, TypeError):
            say(self.tool, f"{self.path} is no hint: all is delivered from the beginning")
        except (OSError, sqlite3.Error) as why:
            raise Fault(f"{self.store}: {why}") from None

    def believe(self, rows, told):
        offset, number, rules = int(told["offset"]), str(told["number"]), str(told.get("rules", FIRST_RULES))
        if rows.execute("SELECT count(*) FROM record WHERE number = ?", (number,)).fetchone()[0] == 1:
            self.offset, self.number, self.rules = offset, number, rules
        else:
            say(self.tool, f"the hint is of another file than {self.store}: all is delivered from the beginning")

    def take(self, message, recorded, rules):
        if recorded and message.number > self.largest:
            self.largest = message.number
            self.offset, self.number, self.rules = message.offset, message.number, rules
            if 1 < time.monotonic() - self.written:
                self.write()

    def write(self):
        """On the disk it may be late: an earlier hint is as good."""
        if self.number is None:
            return
        beside = self.path.with_name(self.path.name + ".new")
        beside.write_text(json.dumps({"offset": self.offset, "number": self.number, "rules": self.rules}) + "\n")
        beside.replace(self.path)
        self.written = time.monotonic()


def records(store):
    """How many requests a file has recorded, and the last one's number. No program has it open."""
    try:
        rows = sqlite3.connect(f"file:{store}?mode=rw", uri=True, timeout=30)
        try:
            count = rows.execute("SELECT count(*) FROM record").fetchone()[0]
            last = rows.execute("SELECT number FROM record ORDER BY rowid DESC LIMIT 1").fetchone()
        finally:
            rows.close()
    except sqlite3.Error as why:
        raise Fault(f"{store}: {why}") from None
    return count, last[0] if last else None


def number_at(store, place):
    """The number of the request that a file recorded as the first, second and so on; None where it hasn't so many. No program has it open."""
    rows = sqlite3.connect(f"file:{store}?mode=rw", uri=True, timeout=30)
    try:
        found = rows.execute("SELECT number FROM record ORDER BY rowid LIMIT 1 OFFSET ?", (place - 1,)).fetchone()
    finally:
        rows.close()
    return found and found[0]
