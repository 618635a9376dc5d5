#!/usr/bin/env python3
"""Measures exports of a served office in a file: what memory two of them add, and when the first byte and the last come.

`office init` makes the file; requests bring in a template of 20,000 messages and three languages that translate each. Then, in each of several
rounds, the program serves the file to one kept connection: a translation is posted, so that a commit was the last act, the program's peak of
memory is set back to what it holds then (/proc/PID/clear_refs), and one language is exported twice. Of each export the time to the first byte
and to the last is taken, and behind both the peak. Prints the least and the middle of the rounds. Each text has to be the language's, byte for
byte, and its digest the one that the head tells.

With OTHER, another program over a file of its own, which it made, takes each round in turn with the first.

Usage: bench/export.py [FOLDER [ENTRIES [ROUNDS [PROGRAM [OTHER]]]]]     (the files are made in FOLDER, which should lie on a disk;
PROGRAM is crates/cli/out/cli, as ./office has built it, where none is given; wants Linux)
"""
import hashlib
import json
import pathlib
import statistics
import sys
import tempfile
import time

from served import HEADER, TOP, kilobytes, made, number, rest_of_answer, talking

FOLDER = sys.argv[1] if len(sys.argv) > 1 else None
ENTRIES = int(sys.argv[2]) if len(sys.argv) > 2 else 20_000
ROUNDS = int(sys.argv[3]) if len(sys.argv) > 3 else 5
PROGRAMS = [pathlib.Path(it).resolve() for it in sys.argv[4:6] or [TOP / "crates" / "cli" / "out" / "cli"]]
LANGUAGES = ("cs", "de", "fr")


def key(i):
    return "Message %05d of this office" % i


def translation(i, lang):
    return "Text %05d in %s" % (i, lang)


def entry(i, form):
    return '\nmsgid "%s"\nmsgstr "%s"\n' % (key(i), form)


def language(lang, first):
    """The text of a language of whose first message this is the translation."""
    return HEADER + entry(0, first) + "".join(entry(i, translation(i, lang)) for i in range(1, ENTRIES))


def make(program, path):
    template = "".join(entry(i, "") for i in range(ENTRIES))[1:]
    acts = [{"act": "template", "po": template}]
    acts += [{"act": "language", "lang": lang, "po": language(lang, translation(0, lang))} for lang in LANGUAGES]
    made(program, path, acts)


def asked(client, reader, message):
    """What a message gets, and the seconds to the first byte of that and to the last."""
    start = time.monotonic()
    client.sendall(message)
    status = reader.read(1)
    first = time.monotonic() - start
    status += reader.readline()
    fields, body = rest_of_answer(reader, status)
    return fields, body, first, time.monotonic() - start


def translate(client, reader, turn):
    """Gives the first message another translation in the language that is exported, and answers what that is."""
    form = "Turn %d" % turn
    body = json.dumps({"act": "translate", "forms": [form], "id": key(0), "lang": "de", "seen": turn}).encode()
    head = "POST /v1/requests/%s HTTP/1.1\r\nHost: 127.0.0.1\r\nX-Office-Caller: root\r\nContent-Length: %d\r\n\r\n"
    asked(client, reader, (head % (number(1000 + turn), len(body))).encode() + body)
    return form


def measured(program, path, turn):
    """What two exports behind a commit add to the memory, in kB, and the seconds to the first byte and the last of each."""
    with talking(program, path) as (process, client), client.makefile("rb") as reader:
        text = language("de", translate(client, reader, turn)).encode()
        pathlib.Path("/proc/%d/clear_refs" % process.pid).write_text("5")
        held = kilobytes(process, "VmRSS")
        exports = [asked(client, reader, b"GET /v1/export/de HTTP/1.1\r\nHost: 127.0.0.1\r\n\r\n") for _ in range(2)]
        peak = kilobytes(process, "VmHWM")
    for fields, body, _, _ in exports:
        if body != text or fields["X-Office-SHA256"] != hashlib.sha256(text).hexdigest():
            raise SystemExit("another text than the language's")
    return held, peak - held, [it[2:] for it in exports]


def told(program, rounds):
    firsts = [first for _, _, exports in rounds for first, _ in exports]
    lasts = [last for _, _, exports in rounds for _, last in exports]
    added = [it[1] for it in rounds]
    print("%s, which held %.1f MB:" % (program, statistics.median(it[0] for it in rounds) / 1024))
    print("  memory that two exports add: least %.2f MB, middle %.2f MB" % (min(added) / 1024, statistics.median(added) / 1024))
    print("  first byte of an export: least %.1f ms, middle %.1f ms" % (1e3 * min(firsts), 1e3 * statistics.median(firsts)))
    print("  last byte of an export: least %.1f ms, middle %.1f ms" % (1e3 * min(lasts), 1e3 * statistics.median(lasts)))


def main():
    with tempfile.TemporaryDirectory(dir=FOLDER) as folder:
        paths = ["%s/office%d.db" % (folder, place) for place in range(len(PROGRAMS))]
        for program, path in zip(PROGRAMS, paths):
            make(program, path)
        rounds = [[] for _ in PROGRAMS]
        for turn in range(1, ROUNDS + 1):
            for place, program in enumerate(PROGRAMS):
                rounds[place].append(measured(program, paths[place], turn))
        print("%d languages of %d messages, %d rounds" % (len(LANGUAGES), ENTRIES, ROUNDS))
        for program, its in zip(PROGRAMS, rounds):
            told(program, its)


main()
