#!/usr/bin/env python3
"""Exports offices in files with growths refused, and looks at what was written by then.

A small office, each growth of the program's in turn: either all is as with ample memory; or the export ends in fault 3 behind a beginning of
its text, and never behind all of it; or the office can't be opened, or the words can't be read. Of the growths of an export some have to be
met, also between two entries.

A language of 5,000 obsolete entries over an empty template: among the first 5,000 growths of the export there is one whose refusal gives fault 3
with the whole header and the first entry written, since entries are handed on before all rows are read. Which growth is the
export's first is found by halving: the refusal of an earlier one leaves the office unopened. Every 50th growth from there on is
refused, and the last hundred, as above.

Two languages that are exported into a folder: each stands in its file, whole, with its receipt, or isn't there, and fault 3 is told behind its
code; or the office can't be opened, and there is no folder. Some refusals cost the first language alone, others the second.

With --spoil exports that were cut off are taken for whole ones behind which the fault was told, as by a program that asks for memory once all is
written, which has to be found. The last line is `N exports, W wrong`; the status is 1 if anything was wrong.

Usage: tests/growths/export.py [PROGRAM] [--spoil]   (from the top of the repository, after ./office --version has built the program; wants cc)
"""
import argparse
import collections
import json
import os
import subprocess
import tempfile

parser = argparse.ArgumentParser(description=__doc__.split("\n", 1)[0])
parser.add_argument("program", nargs="?", default=os.path.join("crates", "cli", "out", "cli"))
parser.add_argument("--spoil", action="store_true")
GIVEN = parser.parse_args()
PROGRAM = GIVEN.program
HEADER = 'msgid ""\nmsgstr "Plural-Forms: nplurals=2; plural=n!=1;\\n"\n'
OBSOLETE, FIRST, FURTHER = 5_000, 5_000, 40
AMPLE, CUT, UNOPENED = "as with ample memory", "export fault 3", "not begun"


def entry(i, mark=""):
    return '\n%smsgid "Message %05d"\n%smsgstr "Text %05d"\n' % (mark, i, mark, i)


def source(i):
    return '\nmsgid "Message %05d"\nmsgstr ""\n' % i


def made(path, requests):
    """An office in a file, to which these were delivered."""
    subprocess.run([PROGRAM, "init", "--store", path, "--manager", "root"], check=True, stdout=subprocess.DEVNULL)
    lines = "".join(
        json.dumps({**it, "caller": "root", "number": "00000000-0000-4000-8000-%012d" % n}) + "\n" for n, it in enumerate(requests, 1)
    )
    done = subprocess.run([PROGRAM, "deliver", "--store", path], input=lines.encode(), check=True, stdout=subprocess.PIPE)
    if [line[:4] for line in done.stdout.splitlines()] != [b"200 "] * len(requests):
        raise SystemExit("answered %r" % done.stdout)
    return path


class Export:
    """The export of a language of an office in a file, with one growth refused."""

    # How many exports were run.
    runs = 0

    def __init__(self, library, path, text):
        self.library, self.path, self.text = library, path, text
        self.found = collections.Counter()

    def run(self, number):
        environment = dict(os.environ, LD_PRELOAD=self.library, FAIL_N=str(number))
        words = [PROGRAM, "export", "--store", self.path, "--lang", "de"]
        Export.runs += 1
        done = subprocess.run(words, capture_output=True, env=environment)
        return done.returncode, done.stdout.decode(), done.stderr.decode()

    def judged(self, number):
        """What came of it, and what was written."""
        status, out, faults = self.run(number)
        if GIVEN.spoil and faults == "export fault 3\n":
            out = self.text
        kind = None
        if status == 0 and out == self.text and faults.startswith("bytes %d sha256 " % len(self.text.encode())):
            kind = AMPLE
        elif status == 1 and faults == "export fault 3\n" and self.text.startswith(out) and out != self.text:
            kind = CUT
        elif status == 1 and out == "" and faults in ("", "error: out of memory\n", "store fault 1\n"):
            kind = UNOPENED
        if kind is None:
            print("growth %d refused: %r" % (number, (status, out[-200:], faults)))
        self.found[kind] += 1
        return kind, out

    def border(self, low, is_behind):
        """The first growth behind `low` of which this is so, where it is so of all behind it."""
        high = low + 1
        while not is_behind(high):
            high *= 2
        while low + 1 < high:
            middle = (low + high) // 2
            if is_behind(middle):
                high = middle
            else:
                low = middle
        return high

    def is_open(self, number):
        """Whether the office was opened."""
        return self.judged(number)[0] in (AMPLE, CUT)

    def is_whole(self, number):
        """Whether this refusal and one further behind change nothing: one alone may be of memory that is only asked for, as an opening does
        behind its maps."""
        return all(self.judged(it)[0] == AMPLE for it in (number, number + FURTHER))

    def first(self):
        """The export's first growth: none of those behind it leaves the office unopened."""
        low = 0
        while True:
            high = self.border(low, self.is_open)
            near = [*range(high, high + 20), *range(high + 20, high + 2_000, 99)]
            earlier = [number for number in near if self.judged(number)[0] == UNOPENED]
            if not earlier:
                return next(number for number in range(high, high + FURTHER) if self.judged(number)[0] == CUT)
            low = earlier[-1]

    def told(self, name):
        print("%s: %s" % (name, ", ".join("%d %s" % (n, kind) for kind, n in sorted(self.found.items(), key=str))))
        return self.found[None]


def small(library, folder):
    requests = [{"act": "template", "po": (source(0) + source(1))[1:]}]
    requests += [{"act": "language", "lang": "de", "po": HEADER + entry(0) + entry(1) + entry(2, "#~ ") + entry(3, "#~ ")}]
    text = HEADER + entry(0) + entry(1) + entry(2, "#~ ") + entry(3, "#~ ")
    export = Export(library, made(os.path.join(folder, "small.db"), requests), text)
    number, quiet, fronts = 0, 0, set()
    # Behind the last growth nothing is refused: fifty runs in a row are as with ample memory.
    while quiet < 50 and not (GIVEN.spoil and export.found[None]):
        number += 1
        kind, out = export.judged(number)
        quiet = quiet + 1 if kind == AMPLE else 0
        if kind == CUT:
            fronts.add(out)
    wrong = export.told("small office")
    if GIVEN.spoil:
        return wrong
    between = {HEADER + "".join(entry(i, "#~ " if i > 1 else "") for i in range(n)) for n in range(4)}
    if not fronts & between:
        print("no growth was refused between two entries")
        wrong += 1
    return wrong


def filed_as(lang, text, line, files):
    """What came of a language that is exported into a file; None where the line isn't that of what stands there."""
    found = files.pop(lang + ".po", None)
    if found == text and line.startswith("%s bytes %d sha256 " % (lang, len(text.encode()))):
        return AMPLE
    return CUT if found is None and line == lang + " export fault 3" else None


def filed(library, folder):
    said = {lang: HEADER + entry(0, "") + "".join(entry(i, "#~ ") for i in range(1, count)) for lang, count in (("de", 3), ("fr", 4))}
    requests = [{"act": "template", "po": source(0)[1:]}] + [{"act": "language", "lang": lang, "po": text} for lang, text in said.items()]
    path, found = made(os.path.join(folder, "filed.db"), requests), collections.Counter()
    number, quiet = 0, 0
    while quiet < 50:
        number += 1
        into = os.path.join(folder, "into-%d" % number)
        words = [PROGRAM, "export", "--store", path, "--into", into, "--lang", "de", "--lang", "fr"]
        Export.runs += 1
        done = subprocess.run(words, capture_output=True, env=dict(os.environ, LD_PRELOAD=library, FAIL_N=str(number)))
        files = {it.name: open(it.path).read() for it in os.scandir(into)} if os.path.isdir(into) else {}
        lines, status = done.stderr.decode().splitlines(), done.returncode
        if len(lines) == 2 and not done.stdout:
            kinds = tuple(filed_as(lang, said[lang], line, files) for lang, line in zip(said, lines))
        else:
            kinds = (UNOPENED,) * 2 if status == 1 and done.stderr in (b"", b"error: out of memory\n", b"store fault 1\n") else (None,)
        if None in kinds or files or status != (kinds != (AMPLE, AMPLE)):
            kinds = None
            print("growth %d refused, into a folder: %r, %s" % (number, (status, done.stdout, done.stderr), sorted(files)))
        found[kinds] += 1
        quiet = quiet + 1 if kinds == (AMPLE, AMPLE) else 0
    print("two languages into a folder: %s" % ", ".join("%d %s" % (n, " and ".join(it or ["wrong"])) for it, n in sorted(found.items(), key=str)))
    missing = [it for it in ((CUT, AMPLE), (AMPLE, CUT)) if not found[it]]
    for it in missing:
        print("no refusal leaves them %s" % " and ".join(it))
    return found[None] + len(missing)


def large(library, folder):
    text = HEADER + "".join(entry(i, "#~ ") for i in range(OBSOLETE))
    export = Export(library, made(os.path.join(folder, "large.db"), [{"act": "language", "lang": "de", "po": text}]), text)
    first = export.first()
    behind = export.border(first, export.is_whole)
    front = HEADER + entry(0, "#~ ")
    met = None
    for number in [*range(first, min(first + FIRST, behind), 50), *range(behind - 100, behind)]:
        kind, out = export.judged(number)
        if met is None and kind == CUT and out.startswith(front) and number < first + FIRST:
            met = number - first
    wrong = export.told("%d obsolete entries, of which the export takes %d growths" % (OBSOLETE, behind - first))
    if met is None:
        print("none of the first %d growths is refused behind the first entry" % FIRST)
        return wrong + 1
    print("growth %d of the export is refused behind the header and the first entry" % met)
    return wrong


with tempfile.TemporaryDirectory() as folder:
    library = os.path.join(folder, "refuse.so")
    source_of = os.path.join("tests", "growths", "refuse.c")
    subprocess.run(["cc", "-O1", "-shared", "-fPIC", "-o", library, source_of, "-ldl"], check=True)
    offices = [small] if GIVEN.spoil else [small, filed, large]
    wrong = sum(it(library, folder) for it in offices)
print("%d exports, %d wrong" % (Export.runs, wrong))
raise SystemExit(1 if wrong else 0)
