#!/usr/bin/env python3
"""Measures an office in a file: what opening it takes, a template of which 100 messages are others, and acts.

`office init` makes the file; requests bring in a template of 20,000 messages, three languages that translate each, and so many translations
that 100,000 requests stand recorded. Then, each in a run of its own and the best of several: a run without a request, which opens the file,
tests it whole and closes it; translations, each decided, recorded and committed; and a new template in which 100 messages have another
comment for translators. The latter two are timed from the open office to the last reply. Beside the acts stands what an append of a page with
its fdatasync takes, of which each commit has one. Then 32 exports, the languages in turn, each by an opening of its own, and all by one. Each
reply has to be the right one, and each file the text that its language prints.

With --large it measures what openings of two large files take, by PROGRAM and by the one BEFORE, in one run: see bench/large_files.py. Its status
is 1 where PROGRAM takes more than is wanted.

Usage: bench/files.py [FOLDER [RECORDS [ENTRIES]]]      (from the top of the repository, after ./office --version has built the
                                                         program; the file is made in FOLDER, which should lie on a disk)
       bench/files.py --large PROGRAM [BEFORE|- [FOLDER [RECORDS MESSAGES REFUSED LENGTH]]]
"""
import json
import os
import pathlib
import re
import subprocess
import sys
import tempfile
import threading
import time

import large_files

LARGE = sys.argv[1:2] == ["--large"]
FOLDER = sys.argv[1] if len(sys.argv) > 1 else None
RECORDS = int(sys.argv[2]) if len(sys.argv) > 2 and not LARGE else 100_000
ENTRIES = int(sys.argv[3]) if len(sys.argv) > 3 and not LARGE else 20_000
PROGRAM = os.path.join("crates", "cli", "out", "cli")
LANGUAGES = ("cs", "de", "fr")
CHANGED, ACTS, ROUNDS, EXPORTS = 100, 2_000, 3, 32
HEADER = (
    'msgid ""\nmsgstr ""\n"Content-Type: text/plain; charset=UTF-8\\n"\n'
    '"Plural-Forms: nplurals=2; plural=n != 1;\\n"\n'
)


def key(i):
    return "Message %05d of this office" % i


def template(turn):
    """The template, in which the first messages say of which turn they are."""
    comments = {i: "#. turn %d\n" % turn for i in range(CHANGED)}
    return "\n".join('%smsgid "%s"\nmsgstr ""\n' % (comments.get(i, ""), key(i)) for i in range(ENTRIES))


def language(lang):
    return HEADER + "".join('\nmsgid "%s"\nmsgstr "Text %05d in %s"\n' % (key(i), i, lang) for i in range(ENTRIES))


class Requests:
    """Lines with the replies that they have to get, and what revision each unit has."""

    def __init__(self):
        self.number, self.revisions = 0, {}

    def line(self, act, **fields):
        self.number += 1
        fields.update(act=act, caller="root", number="%08x-0000-4000-8000-%012x" % (self.number, self.number))
        return json.dumps(fields, sort_keys=True, separators=(",", ":")) + "\n"

    def office(self):
        yield self.line("template", po=template(0)), '{"languages":{}}'
        for lang in LANGUAGES:
            yield self.line("language", lang=lang, po=language(lang)), '{"loaded":%d,"missing":0,"obsolete":0}' % ENTRIES

    def acts(self, count):
        for n in range(self.number, self.number + count):
            unit = LANGUAGES[n % len(LANGUAGES)], n * 7919 % ENTRIES
            seen = self.revisions.get(unit, 1)
            self.revisions[unit] = seen + 1
            text = "Text %05d in %s, for the %dth time" % (unit[1], unit[0], seen)
            yield self.line("translate", forms=[text], id=key(unit[1]), lang=unit[0], seen=seen), '{"revision":%d,"state":"translated"}' % (seen + 1)

    def new_template(self, turn):
        counts = {"added": 0, "changed": 0, "kept": ENTRIES, "obsolete": 0, "revived": 0}
        yield self.line("template", po=template(turn)), json.dumps({"languages": dict.fromkeys(LANGUAGES, counts)}, separators=(",", ":"))


def peak(child):
    """The most memory, in MB, that a program has had which still waits for its input. (What wait tells of a child counts this script's own.)"""
    with open("/proc/%d/status" % child.pid) as status:
        return int(re.search(r"VmHWM:\s*(\d+) kB", status.read())[1]) / 1024


def ran(path, rows=()):
    """A run with these requests: the seconds of all of it, those from the open office to the last reply, and its peak memory in MB."""
    rows = list(rows)
    start = time.monotonic()
    with subprocess.Popen([PROGRAM, "deliver", "--store", path], stdin=subprocess.PIPE, stdout=subprocess.PIPE, text=True) as child:
        # A line that is no request is answered once the office is open.
        child.stdin.write("\n")
        child.stdin.flush()
        child.stdout.readline()
        opened = time.monotonic()
        # Beside the reading, since neither side could go on where both wrote more than the other takes.
        writer = threading.Thread(target=lambda: (child.stdin.writelines(line for line, _ in rows), child.stdin.flush()))
        writer.start()
        got = [child.stdout.readline().rstrip("\n") for _ in rows]
        answered = time.monotonic()
        writer.join()
        most = peak(child)
        child.stdin.close()
        child.wait()
    ended = time.monotonic()
    wrong = [(line, reply) for (line, body), reply in zip(rows, got) if reply != "200 " + body]
    if child.returncode or wrong:
        raise SystemExit("status %d, the first wrong reply of %d: %.300s" % (child.returncode, len(rows), wrong[:1]))
    return ended - start, answered - opened, most


def appended(path, count):
    """The seconds of so many appends of a page, each with its fdatasync."""
    with open(path, "wb", buffering=0) as file:
        start = time.monotonic()
        for _ in range(count):
            file.write(bytes(4096))
            os.fdatasync(file.fileno())
        return time.monotonic() - start


def exported(path, folder):
    """The seconds of exports, each by an opening of its own, and of the same by one opening."""
    langs = [LANGUAGES[n % len(LANGUAGES)] for n in range(EXPORTS)]
    start, texts = time.monotonic(), {}
    for lang in langs:
        texts[lang] = subprocess.run([PROGRAM, "export", "--store", path, "--lang", lang], stdout=subprocess.PIPE, stderr=subprocess.DEVNULL, check=True).stdout
    between = time.monotonic()
    words = [it for lang in langs for it in ("--lang", lang)]
    subprocess.run([PROGRAM, "export", "--store", path, "--into", folder, *words], stderr=subprocess.DEVNULL, check=True)
    end = time.monotonic()
    if any(pathlib.Path(folder, lang + ".po").read_bytes() != text for lang, text in texts.items()):
        raise SystemExit("another text by one opening")
    return between - start, end - between


def main():
    with tempfile.TemporaryDirectory(dir=FOLDER) as place:
        path, requests = os.path.join(place, "office.db"), Requests()
        subprocess.run([PROGRAM, "init", "--store", path, "--manager", "root"], check=True, stdout=subprocess.DEVNULL)
        _, building, _ = ran(path, requests.office())
        _, recorded, _ = ran(path, requests.acts(RECORDS - requests.number))
        size = pathlib.Path(path).stat().st_size / 1e6
        opening, _, memory = min(ran(path) for _ in range(ROUNDS))
        acts = min(ran(path, requests.acts(ACTS))[1] for _ in range(ROUNDS))
        updates = [ran(path, requests.new_template(turn)) for turn in range(1, ROUNDS + 1)]
        alone, together = exported(path, os.path.join(place, "exports"))
        append = min(appended(os.path.join(place, "pages"), ACTS) for _ in range(ROUNDS))
        updating = min(seconds for _, seconds, _ in updates)
        most = max(it for _, _, it in updates)
    print("%d records, %d languages of %d units, a file of %.1f MB" % (RECORDS, len(LANGUAGES), ENTRIES, size))
    print("the template and the languages          %9.2f s" % building)
    print("opening, with its tests, and closing    %9.2f s, at most %.1f MB" % (opening, memory))
    print("translations                            %9.0f a second (%.0f while the file was made)" % (ACTS / acts, RECORDS / (recorded or 1)))
    print("  an append and its fdatasync           %9.0f a second" % (ACTS / append))
    print("%d exports                              %9.2f s, by one opening %.2f s" % (EXPORTS, alone, together))
    print("a template with %d other comments      %9.2f s, at most %.1f MB" % (CHANGED, updating, most))


if __name__ == "__main__":
    sys.exit(large_files.main(sys.argv[2:]) if LARGE else main())
