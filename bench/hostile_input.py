#!/usr/bin/env python3
"""Measures what small messages of anybody cost: input that is allowed, and that the office once worked on for seconds.

Refused acts: a stranger's act on the office and a stranger's translation, each refused for the role and recorded, in
an office of many units. Counts: a question for those of a language there, and of one that isn't there, behind a
translation each. Votes: a look at a unit of 99 suggestions with 9,999 votes each, the opening of its file, and what
writes one row of it or two: a vote on one of them, a translation, a comment, and the one suggestion more that there may
be; and the dismissal of one, which writes the whole unit. Role: a stranger's refused translation of a unit with 100 suggestions of eight long forms.
Placeholders: a translation of a message of 16,383 directives into one with the same directives in another order.
First act: a translation behind an opening, beside the next ones, in the office of many units. Each the best of
several, of one program or of two in turn, the second in the second column, say that of the commit before; and what is
wanted. Each answer has to be the right one. The status is 1 where the program misses what is wanted.

The offices are made by requests. Then Python's sqlite3 copies the rows of one language into the others, and writes the votes.

Usage: bench/hostile_input.py PROGRAM [OTHER [FOLDER [LANGUAGES [ENTRIES]]]]      (the files are made in FOLDER, which should lie on a disk)
"""
import contextlib
import json
import os
import shutil
import sqlite3
import subprocess
import sys
import tempfile
import time

from served import HEADER, answered, number, talking

PROGRAMS = sys.argv[1:3]
FOLDER = sys.argv[3] if len(sys.argv) > 3 else None
LANGUAGES = int(sys.argv[4]) if len(sys.argv) > 4 else 32
ENTRIES = int(sys.argv[5]) if len(sys.argv) > 5 else 15_000
ROUNDS = 5
SUGGESTIONS, VOTES = 99, 9_999
LONG_SUGGESTIONS, FORMS, LETTERS = 100, 8, 50_000
DIRECTIVES = 16_383
POLICY = {"accept_at": 0, "guests_suggest": True, "line_ends": True, "placeholders": True, "reviews": False, "voting": True}
# The first number of the requests by which an office is measured.
LATER = 1 << 20
REFUSED = '403 {"refusal":"role","rule":3}'


def key(i):
    return "Message %05d of this office" % i


def code(i):
    """The code of the i-th language."""
    return "x" + chr(97 + i // 26) + chr(97 + i % 26)


class Requests:
    """Lines, each under a new number."""

    def __init__(self, count=0):
        self.count = count

    def line(self, act, caller="root", **fields):
        self.count += 1
        return json.dumps({"act": act, "caller": caller, "number": number(self.count), **fields}, sort_keys=True, separators=(",", ":")) + "\n"


class Desk:
    """`office deliver` over a file."""

    def __init__(self, program, path):
        start = time.monotonic()
        words = [program, "deliver", "--store", path]
        self.child = subprocess.Popen(words, stdin=subprocess.PIPE, stdout=subprocess.PIPE, text=True)
        # A line that is no request is answered once the office is open.
        self.ask("\n", None)
        self.opening = time.monotonic() - start

    def ask(self, line, wanted):
        """The seconds until a line has its answer, which has to be this one."""
        start = time.monotonic()
        self.child.stdin.write(line)
        self.child.stdin.flush()
        answer = self.child.stdout.readline().rstrip("\n")
        seconds = time.monotonic() - start
        if wanted is not None and answer != wanted:
            raise SystemExit("%.200s was answered %.300s" % (line, answer))
        return seconds

    def processor(self):
        """The seconds of a processor that it has used."""
        with open("/proc/%d/schedstat" % self.child.pid) as file:
            return int(file.read().split()[0]) / 1e9

    def __enter__(self):
        return self

    def __exit__(self, kind, *_):
        self.child.stdin.close()
        if self.child.wait() and kind is None:
            raise SystemExit("%s ended with status %d" % (self.child.args[0], self.child.returncode))


def made(path, lines):
    """A new office, to which these lines were delivered. Each has to be answered 200."""
    subprocess.run([PROGRAMS[0], "init", "--store", path, "--manager", "root"], check=True, stdout=subprocess.DEVNULL)
    done = subprocess.run([PROGRAMS[0], "deliver", "--store", path], input="".join(lines), check=True, stdout=subprocess.PIPE, text=True)
    wrong = [it for it in done.stdout.splitlines() if not it.startswith("200 ")]
    if wrong or done.stdout.count("\n") != len(lines):
        raise SystemExit("the office in %s: %.300s" % (path, wrong[:1]))


def written(path, work):
    """Has SQLite write into the file, in one transaction."""
    db = sqlite3.connect(path)
    with db:
        work(db)
    db.execute("PRAGMA wal_checkpoint(TRUNCATE)")
    db.close()


# ---- offices

def many_units(path, requests):
    """An office of as many languages, each of which has a unit for each entry of the template."""
    template = "\n".join('msgid "%s"\nmsgstr ""\n' % key(i) for i in range(ENTRIES))
    texts = HEADER + "".join('\nmsgid "%s"\nmsgstr "Text %05d"\n' % (key(i), i) for i in range(ENTRIES))
    made(path, [requests.line("template", po=template), requests.line("language", lang=code(0), po=texts)])

    def copy(db):
        for i in range(1, LANGUAGES):
            for table, columns in (
                ("d_language", "header, plural"),
                ("d_unit", "key, plural, forms, state, obsolete, revision, comment, previous"),
                ("d_tally", "untranslated, needs_editing, translated, approved, read_only, suggestions, obsolete"),
            ):
                db.execute(f"INSERT INTO {table} SELECT domain, ?, {columns} FROM {table} WHERE lang = ?", (code(i), code(0)))

    written(path, copy)


def many_votes(path, requests):
    """An office of one unit, which has many suggestions with many votes: more for than against each, by one."""
    lines = [
        requests.line("template", po='msgid "Hello"\nmsgstr ""\n'),
        requests.line("language", lang="de", po=HEADER),
        requests.line("policy", **POLICY),
        requests.line("team", name="ann", role="translator"),
    ]
    lines += [requests.line("suggest", forms=["Hallo %d" % i], id="Hello", lang="de", seen=1) for i in range(SUGGESTIONS)]
    made(path, lines)

    def vote(db):
        for (own,) in db.execute("SELECT number FROM d_suggestion").fetchall():
            rows = ((own, "v%05d" % i, 1 if i % 2 == 0 else -1) for i in range(VOTES))
            db.executemany("INSERT INTO d_vote (number, voter, value) VALUES (?, ?, ?)", rows)
        votes = "SELECT sum(value) FROM d_vote WHERE d_vote.number = d_vote_sum.number"
        db.execute(f"UPDATE d_vote_sum SET sum = 1 + ({votes})")

    written(path, vote)


def long_suggestions(path, requests):
    """An office of one unit, which has many suggestions of as many forms as may be, each of them long."""
    header = HEADER.replace("nplurals=2; plural=n != 1;", "nplurals=%d; plural=n %% %d;" % (FORMS, FORMS))
    lines = [
        requests.line("template", po='msgid "Hello"\nmsgid_plural "Hellos"\nmsgstr[0] ""\nmsgstr[1] ""\n'),
        requests.line("language", lang="de", po=header),
    ]
    lines += [
        requests.line("suggest", forms=["%d %s" % (i, "x" * LETTERS)] * FORMS, id="Hello", lang="de", seen=1)
        for i in range(LONG_SUGGESTIONS)
    ]
    made(path, lines)


def directives(first, second, count=DIRECTIVES):
    """So many directives: the second argument's stands at the end, the first's everywhere else."""
    return "%%%d$d" % first * (count - 1) + "%%%d$d" % second


def many_directives(path, requests):
    """An office of one unit, whose message has many directives."""
    made(path, [
        requests.line("template", po='#, c-format\nmsgid "%s"\nmsgstr ""\n' % directives(1, 2)),
        requests.line("language", lang="de", po=HEADER),
        requests.line("policy", **POLICY),
    ])


# ---- measures

def of_many_units(program, path):
    """A stranger's refused translation, a refused act on the office, a first act behind an opening, and the next."""
    requests = Requests(LATER)
    unit = {"id": key(7), "lang": code(0)}
    acts, translations, offices = [], [], []
    with Desk(program, path) as desk:
        for seen in range(1, ROUNDS + 2):
            line = requests.line("translate", forms=["Text for the %dth time" % seen], seen=seen, **unit)
            acts.append(desk.ask(line, '200 {"revision":%d,"state":"translated"}' % (seen + 1)))
        for _ in range(ROUNDS):
            line = requests.line("translate", "stranger", forms=["Text"], seen=1, **unit)
            translations.append(desk.ask(line, REFUSED))
            offices.append(desk.ask(requests.line("team", "stranger", name="stranger", role="manager"), REFUSED))
    return [min(translations), min(offices), acts[0], min(acts[1:]), *of_counts(program, path, requests)]


def of_counts(program, path, requests):
    """A question for a language's counts, which have to be right, and for those of a language that isn't there."""
    none = {"approved": 0, "needs-editing": 0, "obsolete": 0, "read-only": 0, "suggestions": 0, "translated": ENTRIES, "untranslated": 0}
    here, nowhere = [], []
    with talking(program, path) as (_, client), client.makefile("rb") as reader:
        for turn in range(ROUNDS):
            act = {"act": "translate", "forms": ["Text of turn %d" % turn], "id": key(8), "lang": code(0), "seen": turn + 1}
            posted(client, reader, number(requests.count + turn + 1), act)
            for lang, times, status, wanted in ((code(0), here, 200, none), ("yy", nowhere, 404, {"error": "no-language"})):
                start = time.monotonic()
                client.sendall(b"GET /v1/stats/%s HTTP/1.1\r\nHost: 127.0.0.1\r\n\r\n" % lang.encode())
                body = answered(reader, status)[1]
                times.append(time.monotonic() - start)
                if json.loads(body) != wanted:
                    raise SystemExit("counts of %s: %.300s" % (lang, body))
    return [min(here), min(nowhere)]


def posted(client, reader, number, act):
    """Has an act done by a served office."""
    body = json.dumps(act).encode()
    head = "POST /v1/requests/%s HTTP/1.1\r\nHost: 127.0.0.1\r\nX-Office-Caller: root\r\nContent-Length: %d\r\n\r\n" % (number, len(body))
    client.sendall(head.encode() + body)
    answered(reader)


def looked(program, path, target, right):
    """The seconds of the best of several looks at a unit, which has to be right, and those of the opening."""
    start, times = time.monotonic(), []
    with talking(program, path) as (_, client), client.makefile("rb") as reader:
        opening = time.monotonic() - start
        for _ in range(ROUNDS):
            start = time.monotonic()
            client.sendall(b"GET %s HTTP/1.1\r\nHost: 127.0.0.1\r\n\r\n" % target)
            view = json.loads(answered(reader)[1])
            times.append(time.monotonic() - start)
            if not right(view):
                raise SystemExit("a wrong look: %.300s" % json.dumps(view))
    return min(times), opening


def of_many_votes(program, path):
    def right(view):
        return [it["votes"] for it in view["suggestions"]] == [1 + VOTES % 2] * SUGGESTIONS

    return [*looked(program, path, b"/v1/unit?lang=de&id=Hello", right), *of_few_rows(program, path)]


def of_few_rows(program, path):
    """The seconds of the best of several votes, each on another suggestion, which have to be counted, and of a processor at each; of the best of several
    translations and comments; of one suggestion, and of its dismissal."""
    with contextlib.closing(sqlite3.connect(path)) as db:
        own = [it for (it,) in db.execute("SELECT number FROM d_suggestion LIMIT ?", (ROUNDS,))]
    requests, votes, translations, comments = Requests(LATER), [], [], []
    unit = {"id": "Hello", "lang": "de"}
    with Desk(program, path) as desk:
        used = desk.processor()
        for suggestion in own:
            line = requests.line("vote", "ann", seen=1, suggestion=suggestion, value=1, **unit)
            votes.append(desk.ask(line, '200 {"accepted":false,"revision":1,"state":"untranslated","votes":%d}' % (2 + VOTES % 2)))
        used = (desk.processor() - used) / ROUNDS
        for turn in range(ROUNDS):
            seen = 2 * turn + 1
            line = requests.line("translate", "ann", seen=seen, forms=["Text of turn %d" % turn], **unit)
            translations.append(desk.ask(line, '200 {"revision":%d,"state":"translated"}' % (seen + 1)))
            line = requests.line("comment", "ann", seen=seen + 1, lines=["Turn %d" % turn], **unit)
            comments.append(desk.ask(line, '200 {"revision":%d,"state":"translated"}' % (seen + 2)))
        line = requests.line("suggest", "ann", seen=2 * ROUNDS + 1, forms=["Hallo"], **unit)
        wanted = '200 {"revision":%d,"state":"translated","suggestion":"%s","votes":1}' % (2 * ROUNDS + 1, number(requests.count))
        suggestion = desk.ask(line, wanted)
        line = requests.line("dismiss", "ann", seen=2 * ROUNDS + 1, suggestion=number(requests.count), **unit)
        dismissal = desk.ask(line, '200 {"revision":%d,"state":"translated"}' % (2 * ROUNDS + 1))
    return [min(votes), used, min(translations), min(comments), suggestion, dismissal]


def of_long_suggestions(program, path):
    """A stranger's translation, which is refused for the role."""
    requests = Requests(LATER)
    with Desk(program, path) as desk:
        lines = [requests.line("translate", "stranger", forms=["Text"] * FORMS, id="Hello", lang="de", seen=1) for _ in range(ROUNDS)]
        return [min(desk.ask(it, REFUSED) for it in lines)]


def of_many_directives(program, path):
    requests, times = Requests(LATER), []
    with Desk(program, path) as desk:
        for seen in range(1, ROUNDS + 1):
            # The same sets in another order, and another text each time.
            form = directives(2, 1, DIRECTIVES - seen % 2)
            line = requests.line("translate", forms=[form], id=directives(1, 2), lang="de", seen=seen)
            times.append(desk.ask(line, '200 {"revision":%d,"state":"translated"}' % (seen + 1)))
    return [min(times)]


def beside(make, measure):
    """What a measure gives of each program, on copies of one office."""
    results = []
    with tempfile.TemporaryDirectory(dir=FOLDER) as place:
        office = os.path.join(place, "office.db")
        make(office, Requests())
        for program in PROGRAMS:
            copy = os.path.join(place, "copy.db")
            shutil.copyfile(office, copy)
            results.append(measure(program, copy))
            os.unlink(copy)
    return list(zip(*results))


def main():
    if not PROGRAMS:
        raise SystemExit(__doc__)
    missed = 0

    def tell(what, seconds, most=None):
        nonlocal missed
        wanted = "" if most is None else "   wanted: under %.1f ms" % (most * 1e3)
        if most is not None and seconds[0] >= most:
            missed += 1
            wanted += ", missed"
        print("%-48s %s%s" % (what, "".join("%12.2f ms" % (it * 1e3) for it in seconds), wanted))

    print("%d languages of %d units, the best of %d" % (LANGUAGES, ENTRIES, ROUNDS))
    translation, office, first, following, counts, no_counts = beside(many_units, of_many_units)
    tell("a stranger's refused translation", translation)
    tell("a stranger's refused act on the office", office, 2 * translation[0])
    tell("the first act behind an opening", first, 2 * following[0])
    tell("the next acts", following)
    tell("a language's counts", counts, 0.01)
    tell("those of a language that isn't there", no_counts, 0.01)
    print("a unit of %d suggestions with %d votes each" % (SUGGESTIONS, VOTES))
    look, opening, vote, used, translation, comment, suggestion, dismissal = beside(many_votes, of_many_votes)
    tell("a look", look, 0.6)
    tell("the opening", opening)
    tell("a vote", vote, 0.02)
    tell("of a processor at each", used, 0.02)
    tell("a translation", translation, 0.02)
    tell("a comment", comment, 0.02)
    tell("a suggestion", suggestion, 0.02)
    tell("its dismissal", dismissal)
    print("a unit of %d suggestions of %d forms of %d letters" % (LONG_SUGGESTIONS, FORMS, LETTERS))
    (refused,) = beside(long_suggestions, of_long_suggestions)
    tell("a stranger's refused translation", refused, 0.02)
    print("a message of %d directives" % DIRECTIVES)
    (translated,) = beside(many_directives, of_many_directives)
    tell("a translation", translated, 0.1)
    return 1 if missed else 0


if __name__ == "__main__":
    sys.exit(main())
