#!/usr/bin/env python3
"""Measures what memory an office in a file needs at most, by the number of its languages and messages: for MemoryMax in office@.service; and how
long its opening and the export of a language take.

For each size an office is made by requests, with one language in which each message is translated and so many records of acts; Python's sqlite3
copies its rows into the other languages. Then the program serves it, and the most that it ever had is read (VmHWM) when it is open, behind an
export, a language's counts and a translation, and behind a new template in which every tenth message is another. Each answer has to be the right
one. Prints a row for each size: what the office has, its file, these three in MB, and the seconds from the program's start to its first answer, and
of the export.

Usage: bench/memory.py PROGRAM [FOLDER [LANGUAGESxMESSAGES..]]      (the files are made in FOLDER, up to 1 GB, which should lie on a disk)
"""
import contextlib
import json
import pathlib
import sqlite3
import sys
import tempfile
import time
import uuid

import served
from served import HEADER, asked, kilobytes

SIZES = ((3, 1_000), (10, 5_000), (30, 5_000), (100, 5_000), (8, 50_000), (32, 20_000), (32, 50_000))
RECORDS = 20_000
# What a language has in each table, beside its code, in the order of their references.
COPIED = {
    "d_language": "header, plural",
    "d_unit": "key, plural, forms, state, obsolete, revision, comment, previous",
    "d_tally": "untranslated, needs_editing, translated, approved, read_only, suggestions, obsolete",
}


def key(n, renamed=False):
    return f"Message {n:05} of a program, as long as most are{', anew' if renamed and n % 10 == 0 else ''}"


def template(messages, renamed=False):
    return "".join(f'#: source.c:{it}\nmsgid "{key(it, renamed)}"\nmsgstr ""\n\n' for it in range(messages))


def requests(messages):
    texts = "".join(f'msgid "{key(it)}"\nmsgstr "Meldung {it:05} eines Programms, so lang wie die meisten"\n\n' for it in range(messages))
    yield {"act": "template", "po": template(messages)}
    yield {"act": "language", "lang": "aa", "po": HEADER + "\n" + texts}
    for n in range(RECORDS):
        yield {"act": "translate", "lang": "aa", "id": key(n % messages), "seen": n // messages + 1, "forms": [f"Fassung {n}"]}


def made(program, path, languages, messages):
    """An office of so many languages, all with the rows of the first."""
    served.made(program, path, requests(messages))
    with contextlib.closing(sqlite3.connect(path)) as db:
        for n in range(1, languages):
            lang = "a" + chr(97 + n // 26) + chr(97 + n % 26)
            for table, columns in COPIED.items():
                db.execute(f"INSERT INTO {table} SELECT domain, ?, {columns} FROM {table} WHERE lang = 'aa'", (lang,))
        db.commit()
        db.execute("PRAGMA wal_checkpoint(TRUNCATE)")


def most(process):
    """The most memory that a process ever had, in MB."""
    return kilobytes(process, "VmHWM") / 1000


def measured(program, path, languages, messages):
    """The most memory behind an opening, behind acts on a unit and questions, and behind a template; the seconds of the opening and of an export."""
    with served.served(program, path, f"/v1/unit?lang=aa&id={key(1).replace(' ', '+')}") as (process, port, opening):
        opened = most(process)
        asked(port, "GET", "/v1/stats/aa")
        begun = time.monotonic()
        asked(port, "GET", "/v1/export/aa")
        export = time.monotonic() - begun
        seen = (RECORDS - 1 - (messages - 1)) // messages + 2
        asked(port, "POST", f"/v1/requests/{uuid.uuid4()}", {"act": "translate", "lang": "aa", "id": key(messages - 1), "seen": seen, "forms": ["Neu"]})
        used = most(process)
        told = json.loads(asked(port, "POST", f"/v1/requests/{uuid.uuid4()}", {"act": "template", "po": template(messages, True)}))
        right = {"added": messages // 10, "changed": 0, "kept": messages - messages // 10, "obsolete": messages // 10, "revived": 0}
        if list(told["languages"].values()) != [right] * languages:
            raise SystemExit(f"the template was answered {str(told)[:300]}")
        return opened, used, most(process), opening, export


def main():
    if len(sys.argv) < 2:
        raise SystemExit(__doc__)
    program, folder = pathlib.Path(sys.argv[1]).resolve(), sys.argv[2] if len(sys.argv) > 2 else None
    sizes = [tuple(map(int, it.split("x"))) for it in sys.argv[3:]] or SIZES
    print("languages, messages: file; opened, used, a template; opening, export", flush=True)
    for languages, messages in sizes:
        with tempfile.TemporaryDirectory(dir=folder, prefix="office-memory-") as name:
            path = pathlib.Path(name) / "office.db"
            made(program, path, languages, messages)
            size = path.stat().st_size / 1e6
            *memory, opening, export = measured(program, path, languages, messages)
            told = ", ".join(f"{it:6.0f} MB" for it in memory)
            print(f"{languages:3}, {messages:6}: {size:6.0f} MB; {told}; {opening:6.2f} s, {export:6.2f} s", flush=True)


if __name__ == "__main__":
    main()
