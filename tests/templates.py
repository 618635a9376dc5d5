#!/usr/bin/env python3
"""Sends templates of which few messages change to an office in a file, and looks at what became of the rows.

    tests/templates.py [PROGRAM] [--rounds N] [--seed S] [--messages M] [--minutes M]      (crates/cli/out/cli; 60 templates of up to 60 messages)

An office in a file has two domains, `main` and `docs`, with three languages each. Templates are drawn: a msgid_plural, a flag or comments of few messages
change, messages come, go and come back, change places, all go and come back, or nothing changes; and before each, acts on units, or another program has given
the entries other places in the file. Each list goes to the file by a run of its own. The same requests go to an office in memory from the beginning, and to the
second office that is written in tests/schedules.py from the rules: the replies have to be equal, and the exports of each language of each domain byte by byte.
Then Python's sqlite3 looks at the file: it is whole, the sums and the counts that are kept are those that queries count; the rows of units that differ from
before are as many as the reply says; each other unit's suggestions and votes, and entries that have their place and look as before, are the rows that they
were; nothing of the other domain has changed. What a wrong program might leave is written into copies, a mistake at a time: the looks have to tell it. Last, a
template of 4,000 messages in which one changes: in a file whose program is killed behind the reply, the log has few pages of entries, units, suggestions and
votes. Prints what is otherwise, and last `N looks, M wrong`.
"""
import argparse
import collections
import contextlib
import json
import pathlib
import random
import shutil
import sqlite3
import string
import subprocess
import sys
import tempfile
import time

import figures
import looks
import schedules
from figures import kept_and_counted
from looks import look, number, same
from schedules import EMPTY, Office, content_of, written

TOP = pathlib.Path(__file__).resolve().parent.parent
DOMAINS, LANGS = ("main", "docs"), ("de", "fr", "ja")
RULES = {"de": "nplurals=2; plural=n != 1;", "fr": "nplurals=2; plural=n>1;", "ja": "nplurals=1; plural=0;"}
CALLERS = ("root", "ann", "bea")
FLAGS = ("c-format", "read-only", "python-brace-format")
BY_DOMAIN = ("d_template", "d_language", "d_unit", "d_suggestion", "d_tally")
OWN = {it: f"SELECT rowid, * FROM {it} WHERE domain = ? ORDER BY rowid" for it in BY_DOMAIN}
OWN.update({it: f"SELECT rowid, * FROM {it} WHERE number IN (SELECT number FROM d_suggestion WHERE domain = ?) ORDER BY rowid" for it in ("d_vote", "d_vote_sum")})
UNITS = "SELECT lang, key, rowid, plural, forms, state, obsolete, revision, comment, previous FROM d_unit WHERE domain = ? ORDER BY 1, 2"
# The rows that hang on a unit, each with its own number in its table.
HANGING = """SELECT s.lang, s.key, 's', s.rowid, s.number, s.place, s.suggester, s.forms FROM d_suggestion s WHERE domain = ? UNION ALL
    SELECT s.lang, s.key, 'v', v.rowid, v.number, v.voter, v.value, NULL FROM d_suggestion s JOIN d_vote v ON v.number = s.number WHERE domain = ? UNION ALL
    SELECT s.lang, s.key, 'm', m.rowid, m.number, m.sum, NULL, NULL FROM d_suggestion s JOIN d_vote_sum m ON m.number = s.number WHERE domain = ? ORDER BY 1, 2, 3, 4"""
TEMPLATE = "SELECT rowid, place, key, plural, extracted, refs, flags FROM d_template WHERE domain = ? ORDER BY place"
# What a wrong program might leave behind a template of `docs`, in a file of which units stay and units change.
MISTAKES = {
    "a unit that changes keeps its row": "UPDATE d_unit SET (plural, forms, state, obsolete, revision, comment, previous) = (SELECT plural, forms, state, obsolete, revision, "
    "comment, previous FROM old.d_unit u WHERE u.domain = d_unit.domain AND u.lang = d_unit.lang AND u.key = d_unit.key) WHERE rowid = {changed}",
    "a unit that stays gets a revision": "UPDATE d_unit SET revision = revision + 1 WHERE rowid = {stays}",
    "a new unit isn't written": "DELETE FROM d_unit WHERE rowid = {added}",
    "the suggestions of a unit that stays are written anew": "UPDATE d_suggestion SET rowid = rowid + 100000 WHERE number = '{suggestion}'",
    "votes on a suggestion of a unit that stays are gone": "DELETE FROM d_vote WHERE number = '{suggestion}'",
    "the sum of a suggestion that stays is another": "UPDATE d_vote_sum SET sum = sum + 1 WHERE number = '{suggestion}'",
    "a unit of the other domain changes": "UPDATE d_unit SET revision = revision + 1 WHERE rowid = (SELECT min(rowid) FROM d_unit WHERE domain = 'main')",
    "an entry of the other domain is gone": "DELETE FROM d_template WHERE domain = 'main' AND place = (SELECT max(place) FROM d_template WHERE domain = 'main')",
    "two entries change places": "UPDATE d_template SET place = 100000 - place WHERE domain = 'docs' AND place < 2",
    "an entry is missing": "DELETE FROM d_template WHERE domain = 'docs' AND place = (SELECT max(place) FROM d_template WHERE domain = 'docs')",
    "an entry that stays is written anew": "UPDATE d_template SET rowid = rowid + 100000 WHERE rowid = {entry}",
    "the last entry stands one place on": "UPDATE d_template SET place = place + 1 WHERE domain = 'docs' AND place = (SELECT max(place) FROM d_template WHERE domain = 'docs')",
    "the counts are those of before": "UPDATE d_tally SET untranslated = untranslated + 1 WHERE domain = 'docs' AND lang = 'de'",
}


# ---- what is drawn


def message(draw, n):
    """An entry of a template, a message that no other is."""
    key = (draw.choice([None, None, None, "menu", ""]), f"{draw.choice(['Message', 'Zeile', 'a', '%d file'])} {n}")
    return {**EMPTY, "key": key, **look_of(draw, key)}


def look_of(draw, key):
    plural = f"{key[1]}s" if draw.random() < 0.3 else None
    flags = [flag for flag in FLAGS if draw.random() < 0.15]
    extracted, refs = draw.choice([([], []), (["for you"], []), (["for you", "and me"], ["a.c:1 b.c:2"])])
    return {"plural": plural, "flags": flags, "extracted": extracted, "refs": refs, "forms": [""] if plural is None else ["", ""]}


class Drawn:
    """Templates of a domain, one after another."""

    def __init__(self, draw, most):
        self.draw, self.most, self.count = draw, most, 0
        self.entries, self.away = [], []
        self.grow(most)

    def grow(self, count):
        for _ in range(count):
            self.count += 1
            self.entries.insert(self.draw.randint(0, len(self.entries)), message(self.draw, self.count))

    def some(self, most=3):
        places = range(len(self.entries))
        return self.draw.sample(places, min(len(places), self.draw.randint(1, most)))

    def replaced(self, of):
        for at in self.some():
            self.entries[at] = {**self.entries[at], **of(self.entries[at])}

    def plurals(self):
        self.replaced(lambda it: {"plural": None, "forms": [""]} if it["plural"] else {"plural": f"{it['key'][1]}n", "forms": ["", ""]})

    def read_only(self):
        self.replaced(lambda it: {"flags": [flag for flag in FLAGS if (flag in it["flags"]) != (flag == "read-only")]})

    def comments(self):
        self.replaced(lambda it: {"extracted": [*it["extracted"], "more"][-4:], "refs": [f"c.c:{self.draw.randint(1, 99)}"]})

    def any_look(self):
        self.replaced(lambda it: look_of(self.draw, it["key"]))

    def comes(self):
        self.grow(self.draw.randint(1, 3))

    def go(self):
        for at in sorted(self.some(), reverse=True):
            self.away.append(self.entries.pop(at))

    def come_back(self):
        self.draw.shuffle(self.away)
        for _ in range(min(len(self.away), self.draw.randint(1, 3))):
            it = self.away.pop()
            self.entries.insert(self.draw.randint(0, len(self.entries)), {**it, **(look_of(self.draw, it["key"]) if self.draw.random() < 0.5 else {})})

    def swap(self):
        if len(self.entries) > 1:
            one, other = self.draw.sample(range(len(self.entries)), 2)
            self.entries[one], self.entries[other] = self.entries[other], self.entries[one]

    def move(self):
        if self.entries:
            it = self.entries.pop(self.draw.randrange(len(self.entries)))
            self.entries.insert(self.draw.randint(0, len(self.entries)), it)

    def order(self):
        self.draw.choice([self.entries.reverse, lambda: self.draw.shuffle(self.entries)])()

    def empty(self):
        self.away += self.entries
        self.entries = []

    def all_back(self):
        self.entries += self.away
        self.away = []

    def halved(self):
        kept = len(self.entries) // 2
        self.away += self.entries[kept:]
        self.entries = self.entries[:kept]

    def same(self):
        pass

    FEW = ("plurals", "read_only", "comments", "any_look", "comes", "go", "come_back", "swap", "move")
    MUCH = ("order", "empty", "all_back", "halved", "same")

    def next(self):
        """The names of what changes, and the text of the next template."""
        names = [self.draw.choice(self.FEW) for _ in range(self.draw.choice([1, 1, 2, 3]))] if self.draw.random() < 0.8 else [self.draw.choice(self.MUCH)]
        if len(self.entries) < 3:
            names.append("all_back")
        for name in names:
            getattr(self, name)()
        text = written(self.entries)
        schedules.TEXTS[text] = {"entries": [dict(it) for it in self.entries], "header": None, "rule": None}
        return "+".join(names), text


def language_text(draw, lang, entries):
    """A language's text, which translates two in three of the entries."""
    rule = RULES[lang]
    header = {**EMPTY, "forms": [f"Content-Type: text/plain; charset=UTF-8\nPlural-Forms: {rule}\n"]}
    count = schedules.PLURALS[rule][0]
    found = []
    for it in entries:
        if draw.random() < 0.67:
            forms = [f"{lang} {it['key'][1]} {n}" for n in range(1 if it["plural"] is None else count)]
            flags = ["fuzzy"] * (draw.random() < 0.2) + [flag for flag in it["flags"] if flag != "read-only"]
            found.append({**it, "forms": forms, "flags": flags})
    text = written([header, *found])
    schedules.TEXTS[text] = {"entries": found, "header": header, "rule": rule}
    return text


def unit_acts(draw, office, domain, count):
    """Acts on units that are there, each with the revision that it has."""
    for _ in range(count):
        lang = draw.choice(LANGS)
        units = office.domains[domain].languages[lang]["units"]
        held = [key for key, it in units.items() if it["suggestions"] and not it["obsolete"]]
        there = [key for key, it in units.items() if not it["obsolete"]]
        if not there:
            return
        act = draw.choice(["suggest", "suggest", "suggest", "translate", "vote", "vote", "comment", "dismiss"])
        if act in ("vote", "dismiss") and not held:
            act = "suggest"
        key = draw.choice(held if act in ("vote", "dismiss") else there)
        unit = units[key]
        fields = {"act": act, "caller": draw.choice(CALLERS), "lang": lang, "id": key[1], "seen": unit["revision"]}
        fields.update({} if key[0] is None else {"ctx": key[0]})
        fields.update({} if domain == "main" else {"domain": domain})
        if act in ("suggest", "translate"):
            fields["forms"] = [f"{draw.choice('abcdefgh')} {draw.randint(1, 9)}" for _ in unit["forms"]]
        elif act == "comment":
            fields["lines"] = [f"line {draw.randint(1, 9)}"]
        else:
            fields["suggestion"] = draw.choice(unit["suggestions"])["number"]
            fields.update({"value": draw.choice([1, -1])} if act == "vote" else {})
        yield fields


# ---- the three offices


class Offices:
    """An office in a file, one in memory that gets all from the beginning each time, and the second office of the rules."""

    def __init__(self, program, path):
        self.program, self.path, self.second, self.lines, self.count = program, path, Office(), [], 0
        same("init", looks.run(program, "init", "--store", path, "--manager", "root"), (0, "ready\n", ""))

    def reply_of(self, content):
        """Takes a request into the second office; its line and the line of its reply."""
        self.count += 1
        status, body = self.second.deliver(number(self.count), content_of(content))
        line = json.dumps({**content, "number": number(self.count)}, ensure_ascii=False)
        return line, f"{status} " + json.dumps(body, ensure_ascii=False, separators=(",", ":"), sort_keys=True), body

    def send(self, what, lines, replies):
        """The same lines to the file and to the office in memory."""
        given = "".join(f"{it}\n" for it in lines)
        same(f"{what}: in the file", looks.run(self.program, "deliver", "--store", self.path, given=given), (0, "".join(f"{it}\n" for it in replies), ""))
        self.lines += lines

    def exports(self, what, domain, replies):
        """The exports of a domain: of the file, in memory and of the second office."""
        given = "".join(f"{it}\n" for it in self.lines)
        more = [] if domain == "main" else ["--domain", domain]
        for lang in LANGS:
            text = self.second.export(domain, lang)
            done = looks.run(self.program, "export", "--store", self.path, "--lang", lang, *more)
            same(f"{what}: the export of {domain} {lang}", (done[0], done[1]), (0, text))
            status, told, faults = looks.run(self.program, "deliver", "--manager", "root", "--export", lang, *more, given=given)
            parts = told.split("\n", len(self.lines))
            same(f"{what}: in memory", (status, faults, parts[len(self.lines) - len(replies) : -1]), (0, "", replies))
            same(f"{what}: the export of {domain} {lang} in memory", parts[-1], text)


# ---- what the file has


class Seen(figures.Seen):
    """What a closed file has, its units too, and what hangs on them."""

    def __init__(self, path):
        with contextlib.closing(sqlite3.connect(path)) as db:
            super().__init__(db, OWN, DOMAINS)
            self.units = {it: {row[:2]: row[2:] for row in db.execute(UNITS, (it,))} for it in DOMAINS}
            self.hanging = {it: collections.defaultdict(list) for it in DOMAINS}
            for it in DOMAINS:
                for row in db.execute(HANGING, (it,) * 3):
                    self.hanging[it][row[:2]].append(row[2:])
            self.template = {it: list(db.execute(TEMPLATE, (it,))) for it in DOMAINS}


def columns(entry):
    lists = [json.dumps(entry[name], ensure_ascii=False, separators=(",", ":")) for name in ("extracted", "refs")]
    flags = [flag for flag in entry["flags"] if flag != "fuzzy"]
    return (schedules.key_text(entry["key"]), entry["plural"], *lists, json.dumps(flags, separators=(",", ":")))


def faults_of(before, seen, domain, told, entries):
    """What is wrong with a file behind a template of a domain, whose reply told these counts of each language."""
    found = []
    if seen.whole != [[("ok",)], []]:
        found.append(f"the file isn't whole: {seen.whole}")
    if seen.kept != seen.counted:
        found.append(f"kept {seen.kept}, counted {seen.counted}")
    for other in DOMAINS:
        found += [f"{name} of {other} changed" for name in OWN if other != domain and seen.own[other][name] != before.own[other][name]]
    wanted = [(place, *columns(it)) for place, it in enumerate(entries)]
    if [row[1:] for row in seen.template[domain]] != wanted:
        found.append(f"the template has {seen.template[domain]}")
    there = set(wanted)
    found += [f"entry {row}, which stays, is another row" for row in before.template[domain] if row[1:] in there and row not in seen.template[domain]]
    old, new = before.units[domain], seen.units[domain]
    found += [f"unit {it} is gone" for it in old if it not in new]
    for lang in LANGS:
        added = [it for it in new if it not in old and it[0] == lang]
        other = [it for it in old if it in new and it[0] == lang and new[it] != old[it]]
        counts = told[lang]
        if (len(added), len(other)) != (counts["added"], counts["changed"] + counts["obsolete"] + counts["revived"]):
            found.append(f"{lang}: {len(added)} new units and {len(other)} others, by the reply {counts}")
    for it in old:
        if new.get(it) == old[it] and seen.hanging[domain][it] != before.hanging[domain][it]:
            found.append(f"of unit {it}, which stays, {seen.hanging[domain][it]} hang, not {before.hanging[domain][it]}")
    return found


def places(before, seen, domain):
    """Rows that mistakes are planted in, of those that the template has."""
    old, new = before.units[domain], seen.units[domain]
    stays = [it for it in old if new[it] == old[it]]
    found = {
        "stays": [new[it][0] for it in stays],
        "changed": [new[it][0] for it in old if new[it] != old[it]],
        "added": [new[it][0] for it in new if it not in old],
        "suggestion": [row[2] for it in stays for row in seen.hanging[domain][it] if row[0] == "v"],
        "entry": [row[0] for row in before.template[domain] if row in seen.template[domain]],
    }
    return {name: rows[0] for name, rows in found.items() if rows}


def mistakes(folder, path, old, before, seen, told, entries):
    """Copies of a file, each with a mistake. Those that could be planted; the looks tell each."""
    rows, made = places(before, seen, "docs"), set()
    for mistake, text in MISTAKES.items():
        if not {it[1] for it in string.Formatter().parse(text) if it[1]} <= set(rows):
            continue
        copy = folder / "mistaken.db"
        shutil.copyfile(path, copy)
        with contextlib.closing(sqlite3.connect(copy, isolation_level=None)) as db:
            db.execute("PRAGMA foreign_keys = ON")
            db.execute("ATTACH ? AS old", (str(old),))
            db.execute(text.format(**rows))
            changed = db.total_changes
        if changed:
            made.add(mistake)
            look(faults_of(before, Seen(copy), "docs", told, entries), f"nothing was told of a mistake: {mistake}")
    return made


# ---- templates of few messages


def begin(offices, draw, drawn):
    """The requests that make the office."""
    acts = [{"act": "team", "name": it, "role": "translator"} for it in CALLERS[1:]]
    policy = {"reviews": False, "guests_suggest": False, "voting": True, "accept_at": 0, "placeholders": False, "line_ends": False}
    acts += [{"act": "policy", **policy}, {"act": "domain", "name": "docs"}]
    for domain in DOMAINS:
        more = {} if domain == "main" else {"domain": domain}
        text = written(drawn[domain].entries)
        schedules.TEXTS[text] = {"entries": [dict(it) for it in drawn[domain].entries], "header": None, "rule": None}
        acts.append({"act": "template", "po": text, **more})
        acts += [{"act": "language", "lang": lang, "po": language_text(draw, lang, drawn[domain].entries), **more} for lang in LANGS]
    made = [offices.reply_of({"caller": "root", **it}) for it in acts]
    offices.send("the start", [it[0] for it in made], [it[1] for it in made])
    for domain in DOMAINS:
        made = [offices.reply_of(it) for it in unit_acts(draw, offices.second, domain, 60)]
        offices.send("acts", [it[0] for it in made], [it[1] for it in made])


def moved(path, domain, draw):
    """Another program gives the entries of a domain other places, in the order that they have: these may be any integers."""
    names = "rowid, domain, place, key, plural, extracted, refs, flags"
    with contextlib.closing(sqlite3.connect(path)) as db, db:
        rows = db.execute(f"SELECT {names} FROM d_template WHERE domain = ? ORDER BY place", (domain,)).fetchall()
        most = draw.choice([2 * len(rows) + 1, 10**6, 2**61])
        places = sorted(draw.sample(range(-most, most), len(rows)))
        if places and most == 2**61:
            places[0], places[-1] = -(2**63), 2**63 - 1
        db.execute("DELETE FROM d_template WHERE domain = ?", (domain,))
        db.executemany(f"INSERT INTO d_template ({names}) VALUES (?, ?, ?, ?, ?, ?, ?, ?)", [(*row[:2], it, *row[3:]) for it, row in zip(places, rows)])


def few(program, folder, given):
    draw = random.Random(given.seed)
    drawn = {it: Drawn(draw, given.messages) for it in DOMAINS}
    path, old = folder / "office.db", folder / "old.db"
    offices, planted, end, ran, kinds = Offices(program, path), set(), time.monotonic() + given.minutes * 60, 0, collections.Counter()
    begin(offices, draw, drawn)
    for n in range(given.rounds):
        if time.monotonic() > end or looks.wrong > 20:
            break
        ran += 1
        domain = draw.choice(["main", "docs", "docs"])
        made = [offices.reply_of(it) for it in unit_acts(draw, offices.second, domain, draw.randint(0, 12))]
        offices.send("acts", [it[0] for it in made], [it[1] for it in made])
        if draw.random() < 0.15:
            kinds["places moved"] += 1
            moved(path, domain, draw)
        shutil.copyfile(path, old)
        before = Seen(path)
        what, text = drawn[domain].next()
        kinds.update(what.split("+"))
        what = f"template {n} of {domain}, {what}"
        line, reply, body = offices.reply_of({"act": "template", "caller": "root", "po": text, **({} if domain == "main" else {"domain": domain})})
        offices.send(what, [line], [reply])
        seen = Seen(path)
        same(what, faults_of(before, seen, domain, body["languages"], drawn[domain].entries), [])
        offices.exports(what, domain, [reply])
        if domain == "docs" and len(planted) < len(MISTAKES):
            planted |= mistakes(folder, path, old, before, seen, body["languages"], drawn[domain].entries)
    if ran == given.rounds and ran >= 20:
        same("mistakes that could be planted", sorted(planted), sorted(MISTAKES))
    return ran, kinds


# ---- what is written of a large template

LARGE = 4_000
# Of each table, the most pages that a template may write that changes one message: the branches of its keys, a leaf or two of each, and what splits.
FEW_PAGES = 12
OF_FEW = ("d_template", "d_unit", "d_suggestion", "d_vote", "d_vote_sum")


def pages_written(path):
    """How many pages of each table a log has, with its keys."""
    log = pathlib.Path(f"{path}-wal").read_bytes()
    size = int.from_bytes(log[8:12], "big")
    frames = {int.from_bytes(log[at : at + 4], "big") for at in range(32, len(log) - size - 23, 24 + size)}
    with contextlib.closing(sqlite3.connect(path)) as db:
        owner = dict(db.execute("SELECT name, tbl_name FROM sqlite_schema"))
        named = {page: owner.get(name, name) for name, page in db.execute("SELECT name, pageno FROM dbstat")}
    return collections.Counter(named.get(page, "free") for page in frames)


def killed_behind(program, path, line):
    """The reply to a line, behind which the program is killed."""
    with subprocess.Popen([program, "deliver", "--store", path], stdin=subprocess.PIPE, stdout=subprocess.PIPE) as process:
        process.stdin.write(f"{line}\n".encode())
        process.stdin.flush()
        reply = process.stdout.readline().decode().removesuffix("\n")
        process.kill()
    return reply


def large(program, folder):
    draw, path = random.Random(1), folder / "large.db"
    offices, entries = Offices(program, path), [{**EMPTY, "key": (None, f"Message {n:05d} of this office")} for n in range(LARGE)]
    text = written(entries)
    schedules.TEXTS[text] = {"entries": entries, "header": None, "rule": None}
    acts = [{"act": "template", "po": text}, {"act": "language", "lang": "de", "po": language_text(draw, "de", entries)}]
    suggested = [{"act": "suggest", "lang": "de", "id": it["key"][1], "forms": ["Vorschlag"], "seen": 1} for it in entries[::4]]
    made = [offices.reply_of({"caller": "root", **it}) for it in [*acts, *suggested]]
    offices.send("the start of the large one", [it[0] for it in made], [it[1] for it in made])
    changed = [dict(it) for it in entries]
    changed[LARGE // 2] = {**changed[LARGE // 2], "flags": ["read-only"]}
    text = written(changed)
    schedules.TEXTS[text] = {"entries": changed, "header": None, "rule": None}
    line, reply, _ = offices.reply_of({"act": "template", "caller": "root", "po": text})
    same("the reply to the large one", killed_behind(program, path, line), reply)
    pages = pages_written(path)
    print("pages that one message of", LARGE, "writes:", ", ".join(f"{count} of {name}" for name, count in sorted(pages.items())))
    look(0 < pages["d_unit"], "no page of units is written")
    for name in OF_FEW:
        look(pages[name] <= FEW_PAGES, f"{pages[name]} pages of {name} are written")
    same("sums and counts of the large one", *kept_and_counted(path))


def words():
    parser = argparse.ArgumentParser(description=__doc__.split("\n", 1)[0])
    parser.add_argument("program", nargs="?", type=pathlib.Path, default=TOP / "crates" / "cli" / "out" / "cli")
    parser.add_argument("--rounds", type=int, default=60)
    parser.add_argument("--seed", type=int, default=1)
    parser.add_argument("--messages", type=int, default=60)
    parser.add_argument("--minutes", type=float, default=float("inf"))
    return parser.parse_args()


def main():
    given = words()
    program = given.program.resolve()
    with tempfile.TemporaryDirectory(prefix="office-templates-") as place:
        ran, kinds = few(program, pathlib.Path(place), given)
        large(program, pathlib.Path(place))
    print(f"{ran} templates: " + ", ".join(f"{name} {count}" for name, count in sorted(kinds.items())))
    return looks.told()


if __name__ == "__main__":
    sys.exit(main())
