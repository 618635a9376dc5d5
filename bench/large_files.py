"""Two files that are larger than most, and what an opening of each takes, for bench/files.py.

In one are 150,000 units in 8 domains, some with suggestions and votes, and then 1,000,000 records too; in the other 60 requests of 5 MB, which a
stranger sent and which were refused. The program makes them by deliveries, but for most of the first one's translations: these Python's sqlite3 writes
as deliveries would, the records and what each unit is behind its last one. Whether it is so is looked at: what was recorded is answered again, and
the next translation of a unit is the next revision.

An opening is a run without a request, which opens the file, tests it whole and closes it. Beside it stands the kit's own open, of the same program:
`office init` of a file in which an office is there opens it, looks at its tables alone, and says that it exists. The kit holds the rows of the largest
table meanwhile; what the office takes beyond that is what counts.
"""
import contextlib
import json
import sqlite3
import subprocess
import sys
import tempfile
from pathlib import Path

from served import HEADER, number

RECORDS, MESSAGES, REFUSED, LONG = 1_000_000, 6_250, 60, 5_000_000
DOMAINS, LANGUAGES = ("main", "d1", "d2", "d3", "d4", "d5", "d6", "d7"), ("cs", "de", "fr")
SUGGESTIONS, VOTERS, ROUNDS = 5_000, ("bea", "cid"), 3
# What the office may take: MB beyond the kit's own open, and times its time.
BEYOND, TIMES = 80, 3
POLICY = {"act": "policy", "reviews": False, "guests_suggest": True, "voting": True, "accept_at": 0, "placeholders": False, "line_ends": False}
# Its child's seconds, those of the processor, the most memory that it had, its status and what it told, as a small process counts them: a larger
# one's own memory would count as its child's.
WATCHED = """
import json, resource, subprocess, sys, time
start = time.monotonic()
done = subprocess.run(sys.argv[1:], stdin=subprocess.DEVNULL, capture_output=True, text=True)
seconds, used = time.monotonic() - start, resource.getrusage(resource.RUSAGE_CHILDREN)
print(json.dumps([seconds, used.ru_utime + used.ru_stime, used.ru_maxrss / 1000, done.returncode, done.stdout + done.stderr]))
"""


def key(i):
    return f"Message {i:05} of a program, as long as most"


def text(messages, form=""):
    return "".join(f'\n#: source.c:{it}\nmsgid "{key(it)}"\nmsgstr "{form.format(it)}"\n' for it in range(messages))


def in_domain(domain, **act):
    """`main` is left out of a canonical text."""
    return act if domain == "main" else {**act, "domain": domain}


def canonical(act):
    return json.dumps(act, sort_keys=True, separators=(",", ":"))


class Units:
    """The units, their translations one after another, and what revision each has."""

    def __init__(self, messages):
        self.places = [(domain, lang, it) for domain in DOMAINS for lang in LANGUAGES for it in range(messages)]
        self.revisions = [1] * len(self.places)
        self.done = 0

    def next(self):
        """The content of the next translation, and its body."""
        at = self.done * 7919 % len(self.places)
        domain, lang, message = self.places[at]
        seen = self.revisions[at]
        self.done, self.revisions[at] = self.done + 1, seen + 1
        act = in_domain(domain, act="translate", caller="ann", forms=[self.form(at)], id=key(message), lang=lang, seen=seen)
        return canonical(act), f'{{"revision":{seen + 1},"state":"translated"}}'

    def form(self, at):
        _, lang, message = self.places[at]
        return f"Text {message:05} in {lang}, for the {self.revisions[at]}th time"

    def rows(self):
        """The last form and the revision of each that was translated, by its place."""
        for at, (domain, lang, message) in enumerate(self.places):
            if self.revisions[at] > 1:
                revision, self.revisions[at] = self.revisions[at], self.revisions[at] - 1
                form, self.revisions[at] = self.form(at), revision
                yield canonical([form]), revision, domain, lang, key(message)


def beginning(messages):
    yield {**POLICY, "caller": "root"}
    yield from ({"act": "team", "caller": "root", "name": it, "role": "translator"} for it in ("ann", *VOTERS))
    for domain in DOMAINS:
        if domain != "main":
            yield {"act": "domain", "caller": "root", "name": domain}
        yield in_domain(domain, act="template", caller="root", po=text(messages))
        for lang in LANGUAGES:
            yield in_domain(domain, act="language", caller="root", lang=lang, po=HEADER + text(messages, f"Text {{:05}} in {lang}"))


def suggestions(messages, first):
    """Suggestions, each with its votes, from a request's number on."""
    for it in range(min(SUGGESTIONS, messages)):
        unit = {"lang": LANGUAGES[it % len(LANGUAGES)], "id": key(it), "seen": 1}
        domain, made = DOMAINS[it % len(DOMAINS)], number(first + it * (1 + len(VOTERS)))
        yield in_domain(domain, act="suggest", caller="ann", forms=[f"Another text {it}"], **unit)
        for voter in VOTERS:
            yield in_domain(domain, act="vote", caller=voter, suggestion=made, value=1, **unit)


def delivered(program, path, acts, first, wanted):
    """The number behind those of these requests, each of which has to get such a reply."""
    with tempfile.TemporaryFile() as replies:
        with subprocess.Popen([program, "deliver", "--store", path], stdin=subprocess.PIPE, stdout=replies) as child:
            count = 0
            for count, act in enumerate(acts, 1):
                child.stdin.write(json.dumps({**act, "number": number(first + count - 1)}).encode() + b"\n")
            child.stdin.close()
        replies.seek(0)
        told = replies.read().splitlines()
    wrong = [it for it in told if not it.startswith(wanted)]
    if child.returncode or wrong or len(told) != count:
        raise SystemExit(f"status {child.returncode}, {len(told)} replies to {count} requests, the first wrong one {wrong[:1]}")
    return first + count


def made(program, path):
    subprocess.run([program, "init", "--store", path, "--manager", "root"], check=True, stdout=subprocess.DEVNULL)


def with_units(program, path, messages):
    """Makes the file of units. The number of the next request."""
    made(program, path)
    first = delivered(program, path, beginning(messages), 1, b"200 ")
    return delivered(program, path, suggestions(messages, first), first, b"200 ")


def with_records(program, path, records, messages, first):
    """Translations of its units, until there are so many records."""
    units = Units(messages)
    with contextlib.closing(sqlite3.connect(path)) as db:
        db.execute("PRAGMA cache_size = -400000")
        db.executemany("INSERT INTO record VALUES (?, ?, 200, ?)", ((number(it), *units.next()) for it in range(first, records)))
        db.executemany("UPDATE d_unit SET forms = ?, revision = ? WHERE domain = ? AND lang = ? AND key = ?", units.rows())
        db.commit()
        db.execute("PRAGMA wal_checkpoint(TRUNCATE)")
    looked_at(program, path, units, first, records)


def looked_at(program, path, units, first, last):
    """Whether the first translation is answered again, and the last one; and whether the next one is the next revision, which is the last record."""
    with contextlib.closing(sqlite3.connect(path)) as db:
        lines = [db.execute("SELECT content, body FROM record WHERE number = ?", (number(it),)).fetchone() for it in (first, last - 1)]
    lines = [*lines, units.next()]
    numbers = (first, last - 1, last)
    given = "".join(json.dumps({**json.loads(content), "number": number(it)}) + "\n" for it, (content, _) in zip(numbers, lines))
    done = subprocess.run([program, "deliver", "--store", path], input=given, stdout=subprocess.PIPE, text=True, check=True)
    if done.stdout != "".join(f"200 {body}\n" for _, body in lines):
        raise SystemExit(f"the file that was written is told as {done.stdout}")


def with_long(program, path, count, length):
    """Makes the file of long requests."""
    made(program, path)
    act = {"act": "template", "caller": "stranger"}
    messages = text(length // len(text(1)))
    delivered(program, path, ({**act, "po": messages} for _ in range(count)), 1, b'403 {"refusal":"role"')


def watched(words, status, told):
    """The seconds of a run, those of the processor, and the most memory in MB that it had."""
    run = [sys.executable, "-I", "-S", "-c", WATCHED, *map(str, words)]
    *found, ended, said = json.loads(subprocess.run(run, stdout=subprocess.PIPE, check=True).stdout)
    if (ended, said) != (status, told):
        raise SystemExit(f"{words[1]}: status {ended}, {said}")
    return found


def measured(programs, path):
    """Of each program the kit's own open of a file, and the office's: the best of several rounds in turn, and the most memory."""
    rows = [(program, words, *told) for program in programs for words, *told in ((("init", "--manager", "root"), 1, "store: exists\n"), (("deliver",), 0, ""))]
    found = [[] for _ in rows]
    for _ in range(ROUNDS):
        for (program, (word, *words), *told), it in zip(rows, found):
            it.append(watched([program, word, "--store", path, *words], *told))
    best = [(min(it[0] for it in one), min(it[1] for it in one), max(it[2] for it in one)) for one in found]
    return list(zip(best[::2], best[1::2]))


def told(what, path, programs, names):
    print(f"{what}, a file of {path.stat().st_size / 1e6:.1f} MB", flush=True)
    found = measured(programs, path)
    for name, (kit, office) in zip(names, found):
        print(f"  {name}: the kit's own open    {kit[0]:8.2f} s, {kit[1]:.2f} of a processor, at most {kit[2]:.1f} MB")
        print(f"  {name}: the office's           {office[0]:8.2f} s, {office[1]:.2f} of a processor, at most {office[2]:.1f} MB;", end=" ")
        print(f"{office[2] - kit[2]:.1f} MB beyond, {office[0] / kit[0]:.2f} times its time, {office[1] / kit[1]:.2f} of its processor's", flush=True)
    return found[0]


def main(words):
    """Measures a program, and the one before, where it is named. The status is 1 where the first takes more than it may."""
    if not words:
        raise SystemExit("no program is named")
    programs = [Path(it).resolve() for it in words[:2] if it != "-"]
    folder = words[2] if len(words) > 2 else None
    records, messages, count, length = [int(it) for it in words[3:7]] or (RECORDS, MESSAGES, REFUSED, LONG)
    names = ("today", "before")
    with tempfile.TemporaryDirectory(dir=folder, prefix="office-large-") as place:
        path = Path(place) / "many.db"
        units = f"{len(DOMAINS) * len(LANGUAGES) * messages:,} units in {len(DOMAINS)} domains"
        first = with_units(programs[0], path, messages)
        found = [told(f"{units}, {first - 1:,} records", path, programs, names)]
        with_records(programs[0], path, records, messages, first)
        found.append(told(f"{units}, {records:,} records", path, programs, names))
        path.unlink()
        path = Path(place) / "long.db"
        with_long(programs[0], path, count, length)
        found.append(told(f"{count} refused requests of {length / 1e6:.1f} MB", path, programs, names))
    small = all(office[2] - kit[2] < BEYOND for kit, office in found)
    quick = all(office[0] <= TIMES * kit[0] for kit, office in found[:2])
    return 0 if small and quick else 1
