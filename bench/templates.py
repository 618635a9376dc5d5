#!/usr/bin/env python3
"""Measures a new template of an office in a file, of which few entries change.

An office of ENTRIES entries in each of 3 languages is made in a file by requests. Then templates are sent in turn that give the
flag `read-only` to 100 of the entries, take it from them, take 100 away at the end and bring them back; each reply has to be
the right one. Prints the best of the rounds of each, from the first byte that is sent to the last of the reply. With a second
program the same is done with it, and the ratio is told.

Usage: bench/templates.py [PROGRAM [ENTRIES [BEFORE]]]      (from the top of the repository; BEFORE is another build)
"""
import collections
import json
import os
import subprocess
import sys
import tempfile
import time

from office_acts import LANGUAGES, Requests, template

PROGRAM = sys.argv[1] if len(sys.argv) > 1 else os.path.join("crates", "cli", "out", "cli")
ENTRIES = int(sys.argv[2]) if len(sys.argv) > 2 else 20_000
BEFORE = sys.argv[3] if len(sys.argv) > 3 else None
CHANGING = min(100, ENTRIES // 2)
ROUNDS = 3


class OfficeInFile:
    """The program over an office in a file, whose manager is `root`."""

    def __init__(self, program, path):
        subprocess.run([program, "init", "--store", path, "--manager", "root"], check=True, capture_output=True)
        self.child = subprocess.Popen([program, "deliver", "--store", path], stdin=subprocess.PIPE, stdout=subprocess.PIPE)

    def send(self, line, body):
        """The seconds from the first byte to the last of the reply."""
        start = time.monotonic()
        self.child.stdin.write(line.encode())
        self.child.stdin.flush()
        reply = self.child.stdout.readline().decode()
        seconds = time.monotonic() - start
        if reply != "200 %s\n" % body:
            raise SystemExit("%.200s was answered %.200s" % (line, reply))
        return seconds

    def end(self):
        self.child.stdin.close()
        if self.child.wait():
            raise SystemExit("the program ended with status %d" % self.child.returncode)


def counted(**told):
    """The reply to a template that makes the same of each language."""
    counts = dict.fromkeys(("added", "changed", "kept", "obsolete", "revived"), 0) | told
    return json.dumps({"languages": {lang: counts for lang in LANGUAGES}}, sort_keys=True, separators=(",", ":"))


def turns(requests):
    """Templates that change few entries and end as they began, each with its name and its reply."""
    every, few = range(ENTRIES), range(0, ENTRIES, ENTRIES // CHANGING)[:CHANGING]
    rest = ENTRIES - CHANGING
    for name, numbers, flagged, told in (
        ("the flag comes to %d" % CHANGING, every, few, {"changed": CHANGING, "kept": rest}),
        ("and goes again", every, (), {"changed": CHANGING, "kept": rest}),
        ("the last %d go" % CHANGING, range(rest), (), {"obsolete": CHANGING, "kept": rest}),
        ("and come back", every, (), {"revived": CHANGING, "kept": rest}),
        ("nothing changes", every, (), {"kept": ENTRIES}),
    ):
        yield name, requests.line("template", po=template(numbers, flagged)), counted(**told)


def measured(program, folder):
    """The best seconds of each template."""
    office, requests = OfficeInFile(program, os.path.join(folder, "office.db")), Requests()
    for line, body in requests.office(range(ENTRIES), LANGUAGES):
        office.send(line, body)
    best = collections.defaultdict(lambda: float("inf"))
    for _ in range(ROUNDS):
        for name, line, body in turns(requests):
            best[name] = min(best[name], office.send(line, body))
    office.end()
    return best


def main():
    with tempfile.TemporaryDirectory() as folder:
        best = measured(PROGRAM, folder)
    before = None
    if BEFORE:
        with tempfile.TemporaryDirectory() as folder:
            before = measured(BEFORE, folder)
    print("templates of %d entries over a file, %d units, the best of %d rounds" % (ENTRIES, ENTRIES * len(LANGUAGES), ROUNDS))
    for name, seconds in best.items():
        ratio = ", ratio to the other %.2f" % (seconds / before[name]) if before else ""
        print("%-28s %9.1f ms%s" % (name, seconds * 1e3, ratio))


if __name__ == "__main__":
    main()
