#!/usr/bin/env python3
"""Measures whether what is as long as it may be costs more than its length.

Growth: `office canon` of 4 and of 16 MiB; a new template of 20,000 and of 50,000 entries, by `office deliver`, in an office of 3
languages that translate each entry, a twentieth of which goes, and as many come. A byte of the large one may cost half as
much again as one of the small one.

Hostile texts beside ordinary ones that go the same way: through `office canon` strings of 262,144 bytes, in 65,536 pieces each,
of `%` alone, or of `{` alone, and 50,000 entries whose keys share a long beginning; a new template of such entries; and
translations of a message of 262,144 `%`, or `{`, into as many, where both flags of placeholders are set and the policy
wants them checked. A byte may cost three times as much.

Each the best of several rounds, in turn. Each answer has to be the right one. Prints a table; the status is 1 where a byte
costs too much.

Usage: bench/limits.py [PROGRAM]      (from the top of the repository, after ./office --version has built the program)
"""
import json
import os
import subprocess
import sys
import tempfile
import time

PROGRAM = sys.argv[1] if len(sys.argv) > 1 else os.path.join("crates", "cli", "out", "cli")
# The limits of a PO text, of its entries, of a string and of a line.
MOST_TEXT, MOST_ENTRIES, MOST_STRING, MOST_LINE = 16_777_216, 50_000, 262_144, 22_000_000
SMALL_TEXT, FEW_ENTRIES = 4_194_304, 20_000
PIECES = 65_536
LANGUAGES = ("cs", "de", "fr")
ROUNDS = 5
GROWTH, HOSTILE = 1.5, 3.0
WORDS = "und so weiter "
HEADER = (
    'msgid ""\nmsgstr ""\n"Content-Type: text/plain; charset=UTF-8\\n"\n'
    '"Plural-Forms: nplurals=2; plural=n != 1;\\n"\n'
)
POLICY = {"accept_at": 0, "guests_suggest": False, "line_ends": True, "placeholders": True, "reviews": False, "voting": False}
# What is measured, each with what it is held against and how many times as much a byte may cost.
ROWS = (
    ("canon, 4 MiB", None, None),
    ("canon, 16 MiB", "canon, 4 MiB", GROWTH),
    ("canon, strings of 65,536 pieces", "canon, 16 MiB", HOSTILE),
    ("canon, strings of 262,144 %", "canon, 16 MiB", HOSTILE),
    ("canon, strings of 262,144 {", "canon, 16 MiB", HOSTILE),
    ("canon, 50,000 keys with one beginning", "canon, 16 MiB", HOSTILE),
    ("template, 20,000 entries", None, None),
    ("template, 50,000 entries", "template, 20,000 entries", GROWTH),
    ("template, 50,000 keys with one beginning", "template, 50,000 entries", HOSTILE),
    ("translation, 262,144 bytes of words", None, None),
    ("translation, 262,144 %", "translation, 262,144 bytes of words", HOSTILE),
    ("translation, 262,144 {", "translation, 262,144 bytes of words", HOSTILE),
)


def words(size):
    """So many bytes of ordinary text."""
    return (WORDS * (size // len(WORDS) + 1))[:size]


# ---- texts for canon, as they are printed: in canonical form


def entry(i, room):
    """The i-th entry of an ordinary text, of so many bytes."""
    front = "\n#. seen by whoever opens window %d\n#: src/window%d.c:%d\n" % (i, i % 97, i)
    if i % 3 == 0:
        start = front + '#, c-format\nmsgid "%%d file of %d"\nmsgid_plural "%%d files of %d"\n' % (i, i)
        start += 'msgstr[0] "%%d Datei von %d"\nmsgstr[1] "%%d Dateien von %d ' % (i, i)
    elif i % 3 == 1:
        start = front + 'msgctxt "menu"\nmsgid "Open \\"%d\\""\nmsgstr "\\"%d\\" öffnen ' % (i, i)
    else:
        start = front + 'msgid ""\n"Line one of %d\\n"\n"line two\\n"\nmsgstr ""\n"Zeile eins von %d\\n"\n"Zeile zwei ' % (i, i)
    return start + words(room - len(start.encode()) - len('"\n')) + '"\n'


def ordinary(size):
    """Entries of one size, of which as many as may be in a text fill the longest one."""
    room = (MOST_TEXT - len(HEADER)) // MOST_ENTRIES
    return HEADER + "".join(entry(i, room) for i in range(size * MOST_ENTRIES // MOST_TEXT))


def repeated(part):
    """As many entries with this part behind their msgid as fit into a text."""
    count = (MOST_TEXT - len(HEADER)) // len('\nmsgid "00"\n' + part)
    return HEADER + "".join('\nmsgid "%02d"\n%s' % (i, part) for i in range(count))


def filled(character):
    return 'msgstr "%s"\n' % (character * MOST_STRING)


def in_pieces(text):
    """A form that stands in so many pieces."""
    size = len(text) // PIECES
    return 'msgstr ""\n' + "".join('"%s"\n' % text[at : at + size] for at in range(0, len(text), size))


def pieces():
    """A text of strings in many pieces, and the canonical one: as many entries, each string in one piece."""
    text, string = repeated(in_pieces("x" * MOST_STRING)), filled("x")
    return text, HEADER + "".join('\nmsgid "%02d"\n%s' % (i, string) for i in range(text.count("msgid ") - 1))


# ---- keys of templates


def key_apart(i):
    """A key that differs from the others at its first letters."""
    return "%05d %s" % (i, words(294))


def key_alike(i):
    """A key that differs from the others at its last letters alone."""
    return "%s %05d" % (words(294), i)


def template(key, numbers):
    return "\n".join('msgid "%s"\nmsgstr ""\n' % key(i) for i in numbers)


def language(key, count):
    """A text that translates each entry."""
    return HEADER + "".join('\nmsgid "%s"\nmsgstr "Text %05d"\n' % (key(i), i) for i in range(count))


# ---- programs


def canon(path, wanted):
    """The seconds of one run, whose output has to be this."""
    with open(path, "rb") as source, tempfile.TemporaryFile() as out:
        start = time.monotonic()
        subprocess.run([PROGRAM, "canon"], stdin=source, stdout=out, check=True)
        seconds = time.monotonic() - start
        out.seek(0)
        if out.read() != wanted:
            raise SystemExit("canon printed something else")
        return seconds


class Desk:
    """`office deliver` over an office in memory, whose manager is `root`."""

    def __init__(self):
        self.child = subprocess.Popen([PROGRAM, "deliver", "--manager", "root"], stdin=subprocess.PIPE, stdout=subprocess.PIPE)
        self.number = 0

    def ask(self, body, act, **fields):
        """The bytes of a new request, and the seconds until it is answered, which has to be by 200 and this body."""
        self.number += 1
        number = "%08x-0000-4000-8000-%012x" % (self.number, self.number)
        fields.update(act=act, caller="root", number=number)
        line = json.dumps(fields, ensure_ascii=False, sort_keys=True, separators=(",", ":")).encode()
        if len(line) > MOST_LINE or len(fields.get("po", "").encode()) > MOST_TEXT:
            raise SystemExit("a request of %d bytes is too long" % len(line))
        wanted = "200 " + json.dumps(body, sort_keys=True, separators=(",", ":"))
        start = time.monotonic()
        self.child.stdin.write(line + b"\n")
        self.child.stdin.flush()
        answer = self.child.stdout.readline()
        seconds = time.monotonic() - start
        if answer.decode() != wanted + "\n":
            raise SystemExit("%s was answered %.300s" % (act, answer.decode()))
        return len(line), seconds

    def __enter__(self):
        return self

    def __exit__(self, kind, *_):
        self.child.stdin.close()
        if self.child.wait() and kind is None:
            raise SystemExit("%s ended with status %d" % (PROGRAM, self.child.returncode))


# ---- measures: the bytes and the seconds of each, by its name


def canons():
    texts = {
        "canon, 4 MiB": ordinary(SMALL_TEXT),
        "canon, 16 MiB": ordinary(MOST_TEXT),
        "canon, strings of 262,144 %": repeated(filled("%")),
        "canon, strings of 262,144 {": repeated(filled("{")),
        "canon, 50,000 keys with one beginning": language(key_alike, MOST_ENTRIES),
    }
    texts = {name: (text, text) for name, text in texts.items()}
    texts["canon, strings of 65,536 pieces"] = pieces()
    times = {name: [] for name in texts}
    with tempfile.TemporaryDirectory() as folder:
        files = {name: os.path.join(folder, "%d.po" % at) for at, name in enumerate(texts)}
        for name, (text, _) in texts.items():
            with open(files[name], "wb") as file:
                file.write(text.encode())
        for _ in range(ROUNDS):
            for name, (_, wanted) in texts.items():
                times[name].append(canon(files[name], wanted.encode()))
        return {name: (os.path.getsize(files[name]), min(times[name])) for name in texts}


def new_templates(key, count):
    """The bytes and the best seconds of templates that change places, in each of which a twentieth is not of the other."""
    part = count // 20
    counts = {"added": part, "changed": 0, "kept": count - part, "obsolete": part, "revived": 0}
    first, second = template(key, range(count)), template(key, range(part, count + part))
    found = []
    with Desk() as desk:
        desk.ask({"languages": {}}, "template", po=first)
        for lang in LANGUAGES:
            desk.ask({"loaded": count, "missing": 0, "obsolete": 0}, "language", lang=lang, po=language(key, count))
        for po in (second, first) * ROUNDS:
            found.append(desk.ask({"languages": {lang: counts for lang in LANGUAGES}}, "template", po=po))
            # From now on what comes has been there before.
            counts = {**counts, "added": 0, "revived": part}
    return found[0][0], min(seconds for _, seconds in found)


def templates():
    return {
        "template, 20,000 entries": new_templates(key_apart, FEW_ENTRIES),
        "template, 50,000 entries": new_templates(key_apart, MOST_ENTRIES),
        "template, 50,000 keys with one beginning": new_templates(key_alike, MOST_ENTRIES),
    }


def translations():
    texts = {
        "translation, 262,144 bytes of words": words(MOST_STRING),
        "translation, 262,144 %": "%" * MOST_STRING,
        "translation, 262,144 {": "{" * MOST_STRING,
    }
    found = {name: [] for name in texts}
    entries = ('#, c-format, python-brace-format\nmsgid "%s"\nmsgstr ""\n' % text for text in texts.values())
    with Desk() as desk:
        desk.ask({"languages": {}}, "template", po="\n".join(entries))
        desk.ask({"loaded": 0, "missing": len(texts), "obsolete": 0}, "language", lang="de", po=HEADER)
        desk.ask({"units": 0}, "policy", **POLICY)
        for seen in range(1, 2 * ROUNDS + 1):
            for name, text in texts.items():
                # Another text each time, which has no placeholder either.
                form = text if seen % 2 else "-" + text[1:]
                done = {"revision": seen + 1, "state": "translated"}
                found[name].append(desk.ask(done, "translate", forms=[form], id=text, lang="de", seen=seen))
    return {name: (them[0][0], min(seconds for _, seconds in them)) for name, them in found.items()}


def main():
    found = {**canons(), **templates(), **translations()}
    missed = 0
    print("%-42s %10s %10s %10s %8s %8s" % ("the best of %d rounds" % ROUNDS, "bytes", "ms", "ns a byte", "times", "at most"))
    for name, base, most in ROWS:
        size, seconds = found[name]
        line = "%-42s %10d %10.1f %10.1f" % (name, size, seconds * 1e3, seconds / size * 1e9)
        if base is not None:
            times = seconds / size / (found[base][1] / found[base][0])
            missed += times > most
            line += " %8.2f %8.1f%s" % (times, most, ", missed" if times > most else "")
        print(line)
    return 1 if missed else 0


if __name__ == "__main__":
    sys.exit(main())
