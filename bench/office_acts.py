#!/usr/bin/env python3
"""Measures acts on units beside the size of the office, and a new template of a large one.

An office of 10 units and one of 20,000 entries in each of 3 languages are made by requests: a template, and languages whose
texts translate each entry. Both programs run side by side and get the same 1,000 translations in turn, of the 10 keys that
both have; the large office also gets 1,000 translations all over its units. Prints the best of several rounds of each, from
the first byte that is sent to the last reply, and their ratio; then the time of one request for a template that changes
a twentieth of the entries, takes away a twentieth and brings as many, and the peak memory. Each reply has to be the right
one.

Usage: bench/office_acts.py [PROGRAM [ENTRIES]]      (from the top of the repository, after ./office --version has built the
program; ENTRIES is a multiple of 20)
"""
import collections
import json
import os
import re
import subprocess
import sys
import time

PROGRAM = sys.argv[1] if len(sys.argv) > 1 else os.path.join("crates", "cli", "out", "cli")
ENTRIES = int(sys.argv[2]) if len(sys.argv) > 2 else 20_000
LANGUAGES = ("cs", "de", "fr")
KEYS, ACTS, ROUNDS = 10, 1_000, 9
HEADER = (
    'msgid ""\nmsgstr ""\n"Content-Type: text/plain; charset=UTF-8\\n"\n'
    '"Plural-Forms: nplurals=2; plural=n != 1;\\n"\n'
)
MOST_TEXT, MOST_LINE = 16_777_216, 22_000_000


def key(i):
    return "Message %05d of this office" % i


def template(numbers, flagged=()):
    """A template with these entries, some of which have the flag `read-only`."""
    flags = {i: "#, read-only\n" for i in flagged}
    return "\n".join('%smsgid "%s"\nmsgstr ""\n' % (flags.get(i, ""), key(i)) for i in numbers)


def language(numbers, lang):
    """A language's text, which translates each entry."""
    return HEADER + "".join('\nmsgid "%s"\nmsgstr "Text %05d in %s"\n' % (key(i), i, lang) for i in numbers)


class Requests:
    """Lines with the replies that they have to get, and what revision each unit has."""

    def __init__(self):
        self.number = 0
        self.revisions = collections.defaultdict(lambda: 1)

    def line(self, act, **fields):
        self.number += 1
        number = "%08x-0000-4000-8000-%012x" % (self.number, self.number)
        fields.update(act=act, caller="root", number=number)
        line = json.dumps(fields, sort_keys=True, separators=(",", ":")) + "\n"
        if len(line) > MOST_LINE or len(fields.get("po", "")) > MOST_TEXT:
            raise SystemExit("a line of %d bytes is too long" % len(line))
        return line

    def office(self, numbers, languages):
        """The template and the languages."""
        rows = [(self.line("template", po=template(numbers)), '{"languages":{}}')]
        for lang in languages:
            body = '{"loaded":%d,"missing":0,"obsolete":0}' % len(numbers)
            rows.append((self.line("language", lang=lang, po=language(numbers, lang)), body))
        return rows

    def acts(self, units):
        """A translation of each of these units."""
        rows = []
        for lang, i in units:
            seen = self.revisions[lang, i]
            self.revisions[lang, i] = seen + 1
            forms = ["Text %05d in %s, for the %dth time" % (i, lang, seen)]
            line = self.line("translate", forms=forms, id=key(i), lang=lang, seen=seen)
            rows.append((line, '{"revision":%d,"state":"translated"}' % (seen + 1)))
        return rows

    def new_template(self, entries, languages):
        """The first twentieth gets a flag, the last one goes, and as many come."""
        part = entries // 20
        po = template(list(range(entries - part)) + list(range(entries, entries + part)), range(part))
        counts = {"added": part, "changed": part, "kept": entries - 2 * part, "obsolete": part, "revived": 0}
        body = json.dumps({"languages": {lang: counts for lang in languages}}, sort_keys=True, separators=(",", ":"))
        return [(self.line("template", po=po), body)]


class Office:
    """The program over an office without a language, whose manager is `root`."""

    def __init__(self):
        words = [PROGRAM, "deliver", "--manager", "root"]
        self.child = subprocess.Popen(words, stdin=subprocess.PIPE, stdout=subprocess.PIPE)

    def send(self, rows):
        """The seconds from the first byte to the last reply. The replies to a thousand acts fit into a pipe."""
        data = "".join(line for line, _ in rows).encode()
        start = time.monotonic()
        self.child.stdin.write(data)
        self.child.stdin.flush()
        replies = [self.child.stdout.readline() for _ in rows]
        seconds = time.monotonic() - start
        for (line, body), reply in zip(rows, replies):
            if reply.decode() != "200 %s\n" % body:
                raise SystemExit("%.200s was answered %.200s" % (line, reply.decode()))
        return seconds

    def end(self):
        """The peak memory in MB. (What wait tells of a child counts this script's own.)"""
        with open("/proc/%d/status" % self.child.pid) as status:
            most = int(re.search(r"VmHWM:\s*(\d+) kB", status.read())[1]) / 1024
        self.child.stdin.close()
        if self.child.wait():
            raise SystemExit("%s ended with status %d" % (PROGRAM, self.child.returncode))
        return most


def shared(count):
    """So many acts on the keys that both offices have, in one language."""
    return [("de", i % KEYS * (ENTRIES // KEYS)) for i in range(count)]


def everywhere(count, turn):
    """So many acts all over the large office."""
    places = range(turn * count, (turn + 1) * count)
    return [(LANGUAGES[i % 3], i * 7919 % ENTRIES) for i in places]


def tell(what, seconds, ratio=None):
    print("%-40s %9.2f ms%s" % (what, seconds * 1e3, "" if ratio is None else ", ratio %.2f" % ratio))


def main():
    small, large = Office(), Office()
    for_small, for_large = Requests(), Requests()
    small.send(for_small.office(range(0, ENTRIES, ENTRIES // KEYS), ("de",)))
    building = large.send(for_large.office(range(ENTRIES), LANGUAGES))
    times = collections.defaultdict(list)
    for turn in range(ROUNDS):
        times["small"].append(small.send(for_small.acts(shared(ACTS))))
        times["large"].append(large.send(for_large.acts(shared(ACTS))))
        times["all"].append(large.send(for_large.acts(everywhere(ACTS, turn))))
    updating = large.send(for_large.new_template(ENTRIES, LANGUAGES))
    best = {name: min(seconds) for name, seconds in times.items()}
    print("%d translations, the best of %d rounds" % (ACTS, ROUNDS))
    tell("office of %d units" % KEYS, best["small"], 1)
    tell("%d units in each of %d languages" % (ENTRIES, len(LANGUAGES)), best["large"], best["large"] / best["small"])
    tell("all over these units", best["all"], best["all"] / best["small"])
    print("requests on the large office")
    tell("a new template", updating)
    tell("the first template and the languages", building)
    print("at most %.1f MB, and %.1f MB for the large office" % (small.end(), large.end()))


if __name__ == "__main__":
    main()
