#!/usr/bin/env python3
"""Runs the program with each of its growths refused in turn, and compares what it answers.

`office deliver`, over three times the same line: either all is as with ample memory; or one line is answered
`503 {"error":"memory"}`, the others and the export as ever; or the export ends in fault 3 behind a beginning of its text;
or the office can't be opened; or the words can't be read. A line past the limit is answered `400` whichever growth was
refused while it was gathered, and a line within it `400` or `503`. `office plural` likewise, with `plural fault 6`, and `office
canon`, with `po line L kind 10`.

Usage: tests/growths/run.py        (from the top of the repository, after ./office --version has built the program; wants cc)
"""
import collections
import os
import re
import subprocess
import tempfile

PROGRAM = os.path.join("crates", "cli", "out", "cli")
REPLY = '200 {"revision":2,"state":"translated"}\n'
MEMORY = '503 {"error":"memory"}\n'
MALFORMED = '400 {"error":"malformed"}\n'
LIMIT = 22_000_000
EXPORT = (
    'msgid ""\nmsgstr ""\n"Content-Type: text/plain; charset=UTF-8\\n"\n'
    '"Plural-Forms: nplurals=2; plural=n != 1;\\n"\n\nmsgid "Hello"\nmsgstr "Hallo"\n'
)
WRONG = "as it must not be"
RULE = (
    "nplurals=3; plural=n%10==1 && n%100!=11 ? 0 : "
    "n%10>=2 && n%10<=4 && (n%100<10 || n%100>=20) ? 1 : 2;"
)

SOURCE = '#, c-format, fuzzy\n#: a.c:1\n# note\nmsgctxt ""\nmsgid "a"\n"b"\nmsgstr "c\\nd"\n#~ msgid "x"\n#~ msgstr "y"\n'
CANONICAL = (
    '# note\n#: a.c:1\n#, fuzzy, c-format\nmsgctxt ""\nmsgid "ab"\nmsgstr ""\n"c\\n"\n"d"\n\n'
    '#~ msgid "x"\n#~ msgstr "y"\n'
)


def run(library, words, lines, number):
    environment = dict(os.environ, LD_PRELOAD=library, FAIL_N=str(number))
    done = subprocess.run([PROGRAM] + words, input=lines, capture_output=True, env=environment)
    return done.returncode, done.stdout.decode(), done.stderr.decode()


def not_begun(status, out, faults):
    if out == "" and status == 1 and faults in ("", "error: out of memory\n", "store fault 1\n"):
        return "not begun"
    return None


def delivered(status, out, faults):
    if (status, out, faults) == (0, REPLY * 3 + EXPORT, ""):
        return "as with ample memory"
    for place in range(3):
        replies = REPLY * place + MEMORY + REPLY * (2 - place)
        if (status, out, faults) == (0, replies + EXPORT, ""):
            return "one line lost, the others as ever"
    rest = out[len(REPLY * 3):]
    if out.startswith(REPLY * 3) and EXPORT.startswith(rest) and rest != EXPORT:
        if (status, faults) == (1, "export fault 3\n"):
            return "export fault 3"
    return not_begun(status, out, faults)


def at_the_limit(status, out, faults):
    ample = MALFORMED + MALFORMED + REPLY
    if (status, out, faults) == (0, ample, ""):
        return "as with ample memory"
    if (status, out, faults) == (0, MALFORMED + MEMORY + REPLY, ""):
        return "the line at the limit unread"
    if (status, out, faults) == (0, MALFORMED + MALFORMED + MEMORY, ""):
        return "the last line lost"
    return not_begun(status, out, faults)


def indexed(status, out, faults):
    if (status, out, faults) == (0, "1 0\n5 2\n22 1\n", ""):
        return "as with ample memory"
    if (status, out, faults) == (1, "", "plural fault 6\n"):
        return "plural fault 6"
    return not_begun(status, out, faults)


def printed(status, out, faults):
    if (status, out, faults) == (0, CANONICAL, ""):
        return "as with ample memory"
    if (status, out) == (1, "") and re.fullmatch(r"po line [0-9]+ kind 10\n", faults):
        return "po kind 10"
    return not_begun(status, out, faults)


def sweep(name, library, words, lines, judge):
    found = collections.Counter()
    number, quiet = 0, 0
    # Behind the last growth nothing is refused: fifty runs in a row are as with ample memory.
    while quiet < 50:
        number += 1
        outcome = run(library, words, lines, number)
        kind = judge(*outcome)
        if kind is None:
            print("%s, growth %d refused: %r" % (name, number, outcome))
            kind = WRONG
        found[kind] += 1
        quiet = quiet + 1 if kind == "as with ample memory" else 0
    print("%s: %s" % (name, ", ".join("%d %s" % (n, kind) for kind, n in sorted(found.items()))))
    return found[WRONG]


with tempfile.TemporaryDirectory() as folder:
    library = os.path.join(folder, "refuse.so")
    source = os.path.join("tests", "growths", "refuse.c")
    subprocess.run(["cc", "-O1", "-shared", "-fPIC", "-o", library, source, "-ldl"], check=True)
    line = open(os.path.join("crates", "cli", "stdin")).readline()
    words = ["deliver", "--demo", "--export", "de"]
    wrong = sweep("deliver", library, words, (line * 3).encode(), delivered)
    long_lines = b" " * (LIMIT + 1) + b"\n" + b" " * LIMIT + b"\n" + line.encode()
    wrong += sweep("long lines", library, words[:2], long_lines, at_the_limit)
    wrong += sweep("plural", library, ["plural", RULE, "1", "5", "22"], b"", indexed)
    wrong += sweep("canon", library, ["canon"], SOURCE.encode(), printed)
raise SystemExit(1 if wrong else 0)
