#!/usr/bin/env python3
"""Measures `office deliver` on runs of 25,000, 50,000 and 100,000 requests.

Each request translates the demo office's one unit anew, under a number of its own, so each is decided, recorded and
committed. Prints, for each run, its requests, seconds, requests a second and the program's peak memory, which GNU time tells: what
wait4 gives of a child is never less than what this script has had.

Usage: bench/deliver.py [PROGRAM]       (from the top of the repository, after ./office --version has built the program; wants Debian's
package time)
"""
import os
import subprocess
import sys
import tempfile
import time

PROGRAM = sys.argv[1] if len(sys.argv) > 1 else os.path.join("crates", "cli", "out", "cli")


def request(i):
    number = "%08x-0000-4000-8000-%012x" % (i, i)
    return (
        '{"act":"translate","caller":"ann","forms":["Hallo %d"],"id":"Hello","lang":"de","number":"%s","seen":%d}\n'
        % (i, number, i)
    )


def run(count):
    with tempfile.TemporaryFile("w+") as lines, tempfile.TemporaryFile() as replies, tempfile.NamedTemporaryFile("r") as kilobytes:
        lines.writelines(request(i) for i in range(1, count + 1))
        lines.flush()
        lines.seek(0)
        start = time.monotonic()
        words = ["/usr/bin/time", "-f", "%M", "-o", kilobytes.name, PROGRAM, "deliver", "--demo"]
        status = subprocess.run(words, stdin=lines, stdout=replies).returncode
        seconds = time.monotonic() - start
        replies.seek(0)
        good = sum(line.startswith(b"200 ") for line in replies)
        if status != 0 or good != count:
            raise SystemExit("%d of %d requests were answered 200, status %d" % (good, count, status))
        print(
            "%7d requests %7.2f s %8.0f a second %7.1f MB at most"
            % (count, seconds, count / seconds, int(kilobytes.read()) / 1024)
        )


for count in (25_000, 50_000, 100_000):
    run(count)
