#!/usr/bin/env python3
"""Fills a language of the demo office with as many units as it may have, 150,000, and asks for one more.

Each template brings new messages, and those of the one before become obsolete units and stay. Replies of status 200 are told
by their status, refusals by their bodies too. With --spoil the template that goes past the limit by one has a message less, as for a program that
takes one more than it may, which has to be found.

Usage: tests/limits.py [PROGRAM] [--spoil]   (from the top of the repository, after ./office --version has built the program)
"""
import argparse
import json
import os
import subprocess
import sys

LIMIT = '422 {"refusal":"limit","rule":17}'
ROLE = '403 {"refusal":"role","rule":3}'
# The fourth line's number doesn't follow.
FAULTY = 'msgid "a"\nmsgid_plural "b"\nmsgstr[0] ""\nmsgstr[2] ""\n'
PO = '422 {"kind":6,"line":4,"refusal":"po","rule":15}'


def template(number, caller, text):
    fields = dict(act="template", caller=caller, number="00000000-0000-4000-8000-%012d" % number, po=text)
    return json.dumps(fields, sort_keys=True, separators=(",", ":")) + "\n"


def messages(letters, count):
    return "".join('msgid "%s%d"\nmsgstr ""\n\n' % (letters, n) for n in range(count))


def rows(first_too_many):
    # The demo office has one unit in `de`.
    return [
        (1, "root", messages("a", 50000), "200"),
        (2, "root", messages("b", 50000), "200"),
        (3, "root", messages("c", first_too_many), LIMIT),
        (4, "root", messages("c", 49999), "200"),
        (5, "root", messages("d", 1), LIMIT),
        (6, "ann", messages("d", 1), ROLE),
        (7, "root", FAULTY, PO),
        (8, "root", messages("a", 50000), "200"),
    ]


def main():
    parser = argparse.ArgumentParser(description=__doc__.split("\n", 1)[0])
    parser.add_argument("program", nargs="?", default=os.path.join("crates", "cli", "out", "cli"))
    parser.add_argument("--spoil", action="store_true")
    given = parser.parse_args()
    tried = rows(49999 if given.spoil else 50000)
    lines = "".join(template(number, caller, text) for number, caller, text, _ in tried)
    done = subprocess.run([given.program, "deliver", "--demo"], input=lines.encode(), capture_output=True)
    replies = done.stdout.decode().splitlines()
    wrong = [
        (row[0], reply[:80], row[3])
        for row, reply in zip(tried, replies)
        if not (reply == row[3] or row[3] == "200" and reply.startswith("200 "))
    ]
    if done.returncode or len(replies) != len(tried) or wrong:
        print("FAILED", done.returncode, len(replies), wrong, done.stderr.decode()[:200])
        return 1
    print("%d templates, each answered as it has to be" % len(tried))
    return 0


if __name__ == "__main__":
    sys.exit(main())
