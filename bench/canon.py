#!/usr/bin/env python3
"""Measures `office canon` on catalogues of 5,000, 10,000 and 20,000 entries, the last of 4 MB, beside bench/plain, which does the same in plain
Rust, and `msgcat --no-wrap` of GNU gettext.

The entries have comments, references, flags, escapes, contexts, plurals and strings of more lines. Prints the best time and the best processor time
(user and system) of several runs of each on the same file, in turn, the most memory of each, and the ratios. What `office canon` printed has to come
out of it again as it is, and bench/plain has to print the same.

Usage: bench/canon.py [PROGRAM]   (from the top of the repository, after ./office --version has built the program; wants
msgcat, which Debian's package gettext has, and cargo, without which it goes on without bench/plain)
"""
import os
import re
import shutil
import subprocess
import sys
import tempfile
import time

PROGRAM = sys.argv[1] if len(sys.argv) > 1 else os.path.join("crates", "cli", "out", "cli")
OURS, PLAIN, MSGCAT = "office canon", "bench/plain", "msgcat --no-wrap"
COUNTS = (5_000, 10_000, 20_000)
MOST = 4_194_304
ROUNDS = 7

HEADER = (
    'msgid ""\nmsgstr ""\n"Content-Type: text/plain; charset=UTF-8\\n"\n'
    '"Plural-Forms: nplurals=2; plural=n != 1;\\n"\n'
)


def entry(i, room):
    """The i-th entry, of so many bytes."""
    front = "\n#. seen by whoever opens window %d\n#: src/window%d.c:%d\n" % (i, i % 97, i)
    if i % 4 == 0:
        start = front + '#, c-format\nmsgid "%%d file of %d"\nmsgid_plural "%%d files of %d"\n' % (i, i)
        start += 'msgstr[0] "%%d Datei von %d"\nmsgstr[1] "%%d Dateien von %d ' % (i, i)
    elif i % 4 == 1:
        start = front + 'msgctxt "menu"\nmsgid "Open \\"%d\\""\nmsgstr "\\"%d\\" öffnen ' % (i, i)
    elif i % 4 == 2:
        start = front + 'msgid ""\n"Line one of %d\\n"\n"line two\\n"\nmsgstr ""\n"Zeile eins von %d\\n"\n"Zeile zwei ' % (i, i)
    else:
        start = "\n# a note on %d%s#, fuzzy\nmsgid \"Close %d\"\nmsgstr \"Schließen %d " % (i, front, i, i)
    words = "und so weiter "
    rest = room - len(start.encode()) - len('"\n')
    return start + (words * (rest // len(words) + 1))[: max(rest, 0)] + '"\n'


def catalogue(count):
    """So many entries, all of one size, of which the greatest count still keeps the limit."""
    room = (MOST - len(HEADER)) // max(COUNTS)
    text = HEADER + "".join(entry(i, room) for i in range(count))
    if len(text.encode()) > MOST:
        raise SystemExit("%d bytes are too many" % len(text.encode()))
    return text.encode()


def build_plain(folder):
    """The words that run bench/plain; None without cargo."""
    if shutil.which("cargo") is None:
        print("cargo is missing: %s isn't built, and not measured" % PLAIN)
        return None
    target = os.path.join(folder, "target")
    command = ["cargo", "build", "--quiet", "--release", "--offline", "--target-dir", target]
    subprocess.run(command, cwd=os.path.join("bench", "plain"), check=True)
    return [os.path.join(target, "release", "plain")]


def run(words, path):
    """The seconds, those of processor, and the output of one run."""
    with open(path, "rb") as source, tempfile.TemporaryFile() as out:
        start = time.monotonic()
        child = subprocess.Popen(words, stdin=source, stdout=out)
        _, status, usage = os.wait4(child.pid, 0)
        seconds = time.monotonic() - start
        child.returncode = os.waitstatus_to_exitcode(status)
        if status != 0:
            raise SystemExit("%s ended with status %d" % (words[0], child.returncode))
        out.seek(0)
        return seconds, usage.ru_utime + usage.ru_stime, out.read()


def peak(words, path):
    """The most memory, in MB, that one run has had when its output begins.

    It stands still then, as the output is longer than a pipe holds. wait4 wouldn't tell: what it gives is never less than what this script has had.
    """
    with open(path, "rb") as source, subprocess.Popen(words, stdin=source, stdout=subprocess.PIPE) as child:
        child.stdout.read(1)
        with open("/proc/%d/status" % child.pid) as status:
            found = int(re.search(r"VmHWM:\s*(\d+) kB", status.read())[1])
        child.stdout.read()
    return found / 1024


def best(programs, path):
    """For each program its best seconds, those of processor, its most memory and its output."""
    runs = {name: [] for name in programs}
    for _ in range(ROUNDS):
        for name, words in programs.items():
            runs[name].append(run(words, path))
    memory = {name: peak(words, path) for name, words in programs.items()}
    return {name: (min(it[0] for it in of), min(it[1] for it in of), memory[name], of[-1][2]) for name, of in runs.items()}


def test(programs, found, again):
    """What was printed comes out again, and bench/plain prints the same."""
    text = found[OURS][3]
    with open(again, "wb") as file:
        file.write(text)
    if run(programs[OURS], again)[2] != text:
        raise SystemExit("what was printed comes out another way")
    if PLAIN in found and found[PLAIN][3] != text:
        raise SystemExit("%s prints something else" % PLAIN)


def measure(programs, folder, count):
    path = os.path.join(folder, "catalogue.po")
    with open(path, "wb") as file:
        file.write(catalogue(count))
    found = best(programs, path)
    test(programs, found, os.path.join(folder, "canonical.po"))
    print("%d entries, %d bytes" % (count, os.path.getsize(path)))
    for name, (seconds, processor, memory, _) in found.items():
        print("%-16s %7.1f ms, %7.1f ms of processor, %6.1f MB at most" % (name, seconds * 1e3, processor * 1e3, memory))
    for name in found:
        if name != OURS:
            ratios = tuple(found[OURS][i] / found[name][i] for i in range(3))
            print("ours : %-16s %5.2f of time, %5.2f of processor, %5.2f of memory" % ((name,) + ratios))


def main():
    if shutil.which("msgcat") is None:
        raise SystemExit("msgcat is missing: Debian's package gettext has it")
    with tempfile.TemporaryDirectory() as folder:
        plain = build_plain(folder)
        programs = {OURS: [PROGRAM, "canon"]}
        if plain is not None:
            programs[PLAIN] = plain
        programs[MSGCAT] = ["msgcat", "--no-wrap", "-"]
        for count in COUNTS:
            measure(programs, folder, count)


main()
