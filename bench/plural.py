#!/usr/bin/env python3
"""Measures `office plural` with the Russian rule of the gettext manual.

Prints the time of a whole run for one number (the program's start, the reading of the rule and its test over 0..999),
and for 100,000 numbers, the best of several runs each; their difference is the time of the further numbers, printing
them included.

Usage: bench/plural.py        (from the top of the repository, after ./office --version has built the program)
"""
import os
import subprocess
import time

RULE = (
    "nplurals=3; plural=n%10==1 && n%100!=11 ? 0 : "
    "n%10>=2 && n%10<=4 && (n%100<10 || n%100>=20) ? 1 : 2;"
)


def best(numbers, runs):
    program = os.path.join("crates", "cli", "out", "cli")
    words = [program, "plural", RULE] + [str(n) for n in numbers]
    times = []
    for _ in range(runs):
        start = time.monotonic()
        done = subprocess.run(words, stdout=subprocess.PIPE, check=True)
        times.append(time.monotonic() - start)
        if done.stdout.count(b"\n") != len(numbers):
            raise SystemExit("%d lines for %d numbers" % (done.stdout.count(b"\n"), len(numbers)))
    return min(times)


one = best([1], 50)
many = best(range(100_000), 5)
print("      1 number  %8.2f ms" % (one * 1e3))
print("100,000 numbers %8.2f ms, %.0f ns a further number" % (many * 1e3, (many - one) / 99_999 * 1e9))
