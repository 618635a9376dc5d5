#!/usr/bin/env python3
"""Sends worked lists to the domains of an office in a file, and counts behind each request what the file keeps.

    tests/domains.py [PROGRAM]      (crates/cli/out/cli, as ./office has built it)

The lists, with their replies and texts, are rows of crates/cases_office/stdin: a repeat after the template is emptied, votes and automatic acceptance, placeholders
enforced, an entry that goes and comes back. Each office has the rows' demo office in `main`, the same in a second domain, `docs`, and in a third, `web`, messages,
suggestions and votes that no list is about. A list goes to `main`, to `docs`, to one behind the other, and to both in turn, under numbers of its own. Each request
is delivered by a run of the program, which gives the reply of the rows; then Python's sqlite3 looks at the closed file: it is whole, the sums and the counts that
are kept are those that queries count, the rows of the other domains are as before, and the team, the policy and the records alone change by an act on the office.
At the end the texts are those of the rows, `docs` has of each table what `main` has where both got the list, and a served office answers the counts of each domain.
What a wrong program might have left is then written into copies of the file, a mistake at a time: the looks have to tell it. Prints what is otherwise, and last
`N looks, M wrong`.
"""
import contextlib
import json
import pathlib
import re
import shutil
import sqlite3
import subprocess
import sys
import tempfile

import figures
import looks
from looks import look, number, same

TOP = pathlib.Path(__file__).resolve().parent.parent
ROWS = TOP / "crates" / "cases_office" / "stdin"
PROGRAM = pathlib.Path(sys.argv[1] if len(sys.argv) > 1 else TOP / "crates" / "cli" / "out" / "cli").resolve()

# The requests of each list, by their names in the rows.
LISTS = {
    "a repeat after the template is emptied": "hallo no-template hallo",
    "votes and automatic acceptance": "bea cay dan voting two-messages suggest ende ade by-bea by-cay by-dan",
    "placeholders enforced": "placeholders formatted one-file",
    "an entry goes and comes back": "files dateien no-files pieces comment-pieces",
}
COURSES = {"main": ("main",), "docs": ("docs",), "main, then docs": ("main", "docs"), "docs, then main": ("docs", "main")}
IN_TURN = "main and docs in turn"
DOMAINS = ("main", "docs", "web")
OF_OFFICE = ("team", "policy", "domain")

HEADER = 'msgid ""\nmsgstr ""\n"Content-Type: text/plain; charset=UTF-8\\n"\n"Plural-Forms: nplurals=2; plural=n != 1;\\n"\n'
OTHERS = 'msgid "Hello"\nmsgstr ""\n\nmsgid "Bye"\nmsgstr ""\n\n#, read-only\nmsgid "Fixed"\nmsgstr ""\n'
# What stands in the third domain.
THIRD = [
    {"act": "suggest", "caller": "ann", "id": "Hello", "forms": ["Hallo"], "seen": 1},
    {"act": "suggest", "caller": "root", "id": "Hello", "forms": ["Servus"], "seen": 1},
    {"act": "vote", "caller": "root", "id": "Hello", "seen": 1, "value": 1, "suggestion": number(90_000)},
    {"act": "vote", "caller": "ann", "id": "Hello", "seen": 1, "value": -1, "suggestion": number(90_001)},
    {"act": "translate", "caller": "ann", "id": "Bye", "forms": ["Ade"], "seen": 1},
]
FLAGS = {"reviews": False, "guests_suggest": False, "accept_at": 0, "placeholders": False, "line_ends": False}

# The rows of each table that a domain has: of all but the votes and their sums a column says whose they are.
BY_DOMAIN = ("d_template", "d_language", "d_unit", "d_suggestion", "d_tally")
OWN = {it: f"SELECT * FROM {it} WHERE domain = ? ORDER BY 2, 3" for it in BY_DOMAIN}
OWN.update({it: f"SELECT * FROM {it} WHERE number IN (SELECT number FROM d_suggestion WHERE domain = ?) ORDER BY 1, 2" for it in ("d_vote", "d_vote_sum")})
OFFICE = {it: f"SELECT * FROM {it} ORDER BY 1" for it in ("domain", "team", "policy", "record")}

# What a wrong program might leave behind an act in `docs`. Each changes a row of a file that a list has left in both domains.
MISTAKES = {
    "a message of another domain gone": "DELETE FROM d_unit WHERE domain = 'web' AND key = 'Bye'",
    "the suggestions of another domain gone": "DELETE FROM d_suggestion WHERE domain = 'web'",
    "the other domains' languages gone": "DELETE FROM d_language WHERE domain <> 'docs'",
    "a template of another domain": "UPDATE d_template SET domain = 'main', place = place + 1000, key = key || '!' WHERE domain = 'docs'",
    "a message counted in another domain": "UPDATE d_tally SET untranslated = untranslated + 1 WHERE domain = 'main'",
    "a message not counted": "UPDATE d_tally SET obsolete = obsolete - 1, translated = translated + 1 WHERE domain = 'docs'",
    "suggestions counted that were taken out": "UPDATE d_tally SET suggestions = suggestions + 1 WHERE domain = 'docs'",
    "a read-only message counted by its state": "UPDATE d_tally SET untranslated = untranslated + read_only, read_only = 0 WHERE read_only > 0",
    "a vote of nothing lowers the sum": "UPDATE d_vote_sum SET sum = sum - 1",
    "no counts of a domain": "DELETE FROM d_tally WHERE domain = 'docs'",
    "no domain": "DELETE FROM domain WHERE name = 'web'",
    "a request not recorded": "DELETE FROM record WHERE number = (SELECT number FROM record WHERE number NOT IN (SELECT number FROM d_suggestion) LIMIT 1)",
    "a state of the office for a domain's": "UPDATE policy SET reviews = 1",
}


def part():
    """The rows of the desks."""
    return ROWS.read_text().split("== desks\n", 1)[1].split("\n== ", 1)[0].splitlines()


def lists_of_rows():
    """Of each list its requests with their replies, and the text that the rows have at its end, or None."""
    named, groups = {}, []
    for row in part():
        if row == "open demo":
            groups.append(([], []))
        elif name := re.match(r"([a-z0-9-]+) is (\{.*\})$", row):
            named[name[1]] = json.loads(name[2])
        elif (reply := re.match(r"([a-z0-9-]+) -> (\d{3} \{.*\})$", row)) and reply[1] in named:
            groups[-1][0].append((reply[1], named[reply[1]], reply[2]))
        elif text := re.match(r"export de -> \d+ bytes [0-9a-f]{64}\|(.*)$", row):
            groups[-1][1].append(text[1].replace("¶", "\n"))
    found = {}
    for what, names in LISTS.items():
        requests, texts = next(it for it in groups if " ".join(name for name, _, _ in it[0]) == names)
        found[what] = [(content, reply) for _, content, reply in requests], texts[-1] if texts else None
    return found


def in_domain(domain, request, reply):
    """A request of the rows as it goes to a domain, and its reply: under another number in another domain, and so is a suggestion."""
    own = f"0000000{DOMAINS.index(domain)}-"
    spelled = json.dumps(request, ensure_ascii=False).replace("00000000-", own)
    more = {} if domain == "main" or request["act"] in OF_OFFICE else {"domain": domain}
    return {**json.loads(spelled), **more}, reply.replace("00000000-", own)


def start():
    """The requests that make the office: the rows' demo office in two domains, and the third domain."""
    acts = [{"act": "team", "name": "ann", "role": "translator"}]
    for domain in DOMAINS:
        own = {} if domain == "main" else {"domain": domain}
        acts += [{"act": "domain", "name": domain}] if own else []
        acts += [{"act": "template", "po": OTHERS if domain == "web" else 'msgid "Hello"\nmsgstr ""\n', **own}, {"act": "language", "lang": "de", "po": HEADER, **own}]
    acts.append({"act": "policy", "voting": True, **FLAGS})
    made = [{"caller": "root", "number": number(80_000 + n), **it} for n, it in enumerate(acts)]
    made += [{"domain": "web", "lang": "de", "number": number(90_000 + n), **it} for n, it in enumerate(THIRD)]
    return [*made, {"act": "policy", "caller": "root", "number": number(99_000), "voting": False, **FLAGS}]


def deliver(path, requests):
    done = looks.run(PROGRAM, "deliver", "--store", path, given="".join(json.dumps(it, ensure_ascii=False) + "\n" for it in requests))
    same("the status, and faults", (done[0], done[2]), (0, ""))
    return done[1].splitlines()


class Seen(figures.Seen):
    """What a closed file has, what is the whole office's too, and what is of no domain."""

    def __init__(self, path):
        with contextlib.closing(sqlite3.connect(path)) as db:
            super().__init__(db, OWN, DOMAINS)
            self.office = {name: list(db.execute(text)) for name, text in OFFICE.items()}
            self.others = {name: db.execute(f"SELECT count(*) FROM {name} WHERE domain NOT IN (SELECT name FROM domain)").fetchone()[0] for name in BY_DOMAIN}


def faults_of(before, seen, request, recorded):
    """What is wrong with a file behind a request: how it differs from the file before it, where it may not."""
    office = request["act"] in OF_OFFICE
    acted = () if office else (request.get("domain", "main"),)
    told = []
    if seen.whole != [[("ok",)], []]:
        told.append(f"the file isn't whole: {seen.whole}")
    if seen.kept != seen.counted:
        told.append(f"kept {seen.kept}, counted {seen.counted}")
    if any(seen.others.values()):
        told.append(f"rows of no domain: {seen.others}")
    for domain in DOMAINS:
        told += [f"{name} of {domain} changed" for name in OWN if domain not in acted and seen.own[domain][name] != before.own[domain][name]]
    told += [f"{name} changed" for name in ("domain", "team", "policy") if not (office and name == request["act"]) and seen.office[name] != before.office[name]]
    if len(seen.office["record"]) != len(before.office["record"]) + recorded or not set(before.office["record"]) <= set(seen.office["record"]):
        told.append(f"{len(seen.office['record'])} records behind {len(before.office['record'])}")
    return told


def course_of(name, rows):
    """The requests of a course, in order, and the domains that it is about."""
    if name == IN_TURN:
        return [in_domain(domain, *it) for it in rows for domain in ("docs", "main")], ("main", "docs")
    return [in_domain(domain, *it) for domain in COURSES[name] for it in rows], COURSES[name]


def without_domain(rows, domain):
    """Rows of a domain's tables, but for its name and the beginning of its requests' numbers."""
    own = f"0000000{DOMAINS.index(domain)}-"
    return [tuple(it.replace(own, "00000000-", 1) if isinstance(it, str) else it for it in row if it != domain) for row in rows]


def counts_of(seen, domain):
    """What the route of a language's counts has to answer, as the queries count."""
    names = ("untranslated", "needs-editing", "translated", "approved", "read-only", "suggestions", "obsolete")
    found = next(row for row in seen.counted[1] if row[:2] == (domain, "de"))
    return dict(zip(names, map(int, found[2:])))


def answered(path, seen, what):
    """A served office answers each domain's counts."""
    port = looks.free_port()
    child = subprocess.Popen([PROGRAM, "serve", "--store", path, "--port", str(port), "--connections", str(len(DOMAINS))])
    try:
        for domain in DOMAINS:
            same(f"{what}: counts of {domain}", looks.asked(port, f"/v1/domains/{domain}/stats/de"), (200, counts_of(seen, domain)))
        same(f"{what}: the status of serve", child.wait(60), 0)
    except ConnectionRefusedError:
        look(False, f"{what}: the office doesn't serve: {child.poll()}")
    finally:
        child.kill()
        child.wait()


def mistakes(folder, path, before, request, what):
    """Copies of a file, each with a mistake that a wrong program might have made: the looks tell each that changes a row."""
    made = set()
    for mistake, text in MISTAKES.items():
        copy = folder / "mistaken.db"
        shutil.copyfile(path, copy)
        with contextlib.closing(sqlite3.connect(copy, isolation_level=None)) as db:
            db.execute("PRAGMA foreign_keys = ON")
            db.execute(text)
            changed = db.total_changes
        if changed:
            made.add(mistake)
            look(faults_of(before, Seen(copy), request, 1), f"{what}: nothing was told of a mistake: {mistake}")
    return made


def run_course(folder, name, rows, text, what):
    """A list in a course, to an office of its own. The mistakes that were planted in its file."""
    path = folder / "office.db"
    for it in folder.glob("office.db*"):
        it.unlink()
    same("init", looks.run(PROGRAM, "init", "--store", path, "--manager", "root"), (0, "ready\n", ""))
    made = start()
    same(f"{what}: the start", [it[:3] for it in deliver(path, made)], ["200"] * len(made))
    requests, domains = course_of(name, rows)
    before, first, taken = Seen(path), None, set()
    for request, reply in requests:
        same(f"{what}: the reply to {request}", deliver(path, [request]), [reply])
        seen, anew = Seen(path), request["number"] not in taken
        same(f"{what}: behind {request}", faults_of(before, seen, request, anew), [])
        taken.add(request["number"])
        if anew:
            first = before, request, path.read_bytes()
        before = seen
    again = deliver(path, [it for it, _ in requests])
    same(f"{what}: the list again", again, [reply for _, reply in requests])
    same(f"{what}: the file then", vars(Seen(path)), vars(before))
    for domain in domains if text else ():
        done = looks.run(PROGRAM, "export", "--store", path, "--lang", "de", "--domain", domain)
        same(f"{what}: the text of {domain}", done[:2], (0, text))
    if len(domains) == 2:
        for table in OWN:
            of_docs, of_main = (without_domain(before.own[it][table], it) for it in ("docs", "main"))
            same(f"{what}: {table} of docs and of main", of_docs, of_main)
    answered(path, before, what)
    (folder / "last.db").write_bytes(first[2])
    return mistakes(folder, folder / "last.db", first[0], first[1], what)


def main():
    told = set()
    with tempfile.TemporaryDirectory(prefix="office-domains-") as place:
        for what, (rows, text) in lists_of_rows().items():
            for name in (*COURSES, IN_TURN):
                told |= run_course(pathlib.Path(place), name, rows, text, f"{what}, to {name}")
    same("mistakes that could be planted", sorted(told), sorted(MISTAKES))
    return looks.told()


if __name__ == "__main__":
    sys.exit(main())
