#!/usr/bin/env python3
"""Delivers drawn lists of requests to offices in files, beside a second office that is written here from its rules.

    tests/schedules.py [PROGRAM] [--cases N] [--seed S] [--minutes M] [--first N] [--length N] [--memory] [--spoil N]

A case is a list of deliveries of few requests on few messages: with requests that come again, later or out of their order, with another content or
another caller under their number, lines that are none, and stops behind which the file is opened anew: ends of the program, and kills of it
between two requests and in the midst of some, whose requests come again in their order. Each reply is compared with that of the second
office, each export byte by byte, and at the end the sums and the counts that the file keeps with those that queries count. With `--memory` the
offices stand in memory, and there are no stops: that is for many cases in a short time. `--length N` draws N acts more for each. A case that differs
is made smaller as long as it differs, and the smallest is printed. The last line is `N cases, M deliveries, K kills, W wrong`; the status is 1 if
anything was wrong. With `--spoil N` the second office has the N-th of its planted mistakes, and the run has to find a case. Files are made under
TMPDIR: on a disk in memory it goes ten times as fast.
"""
import argparse
import json
import pathlib
import random
import re
import shutil
import subprocess
import sys
import tempfile
import time

from figures import kept_and_counted
from looks import number

TOP = pathlib.Path(__file__).resolve().parent.parent
SECONDS = 900
SPOILED = None


def spoiled(name):
    return SPOILED == name


# ---- an office, in this page's own words

UNTRANSLATED, EDITING, TRANSLATED, APPROVED = "untranslated", "needs-editing", "translated", "approved"
ROLES = ("guest", "translator", "reviewer", "manager")
NUMBER_USED = (409, {"error": "number-used"})
RULES = {
    **{"no-language": (1, 404), "no-unit": (2, 404), "role": (3, 403), "read-only": (4, 409), "stale": (5, 409), "approved": (6, 409)},
    **{"plural-count": (7, 422), "no-suggestion": (8, 404), "voting-off": (9, 409), "reviews-off": (10, 409), "full": (11, 409), "same": (12, 409)},
    **{"unfit": (13, 422), "language-exists": (14, 409), "po": (15, 422), "plural-forms": (16, 422), "limit": (17, 422), "last-manager": (18, 409)},
    **{"domain-exists": (19, 409), "no-domain": (20, 404)},
}
# The rules of the languages that are drawn, each with what it gives at a number.
PLURALS = {
    "nplurals=1; plural=0;": (1, lambda n: 0),
    "nplurals=2; plural=n != 1;": (2, lambda n: int(n != 1)),
    "nplurals=2; plural=n>1;": (2, lambda n: int(n > 1)),
    "nplurals=3; plural=n==0 ? 0 : n==1 ? 1 : 2;": (3, lambda n: min(n, 2)),
}
DIRECTIVE = re.compile(r"%(?:[1-9]\d*\$)?[-+ #0]*(?:\d+|\*)?(?:\.(?:\d+|\*)?)?(?:hh|h|ll|l|L|j|z|t)?[diouxXcspfFeEgGaA]")
BRACE = re.compile(r"\{(?:[A-Za-z_][A-Za-z0-9_]*|0|[1-9]\d*)\}")


class Refused(Exception):
    pass


def refuse(where, name, **more):
    if where:
        raise Refused(name, more)


def scan(text, doubled, pattern):
    """What a pattern finds from the left, where doubled signs are skipped."""
    found, at = [], 0
    while at < len(text):
        here = pattern.match(text, at)
        if text[at : at + 2] in doubled:
            at += 2
        elif here:
            found.append(here[0])
            at = here.end()
        else:
            at += 1
    return found


def is_part(part, whole):
    rest = iter(whole)
    return all(it in rest for it in part)


def agrees(source, form, may_leave):
    numbered = [re.match(r"%\d+\$", it) for it in source + form]
    if all(numbered) and (set(form) <= set(source) if may_leave else set(form) == set(source)):
        return True
    return is_part(form, source) if may_leave else form == source


def misplaced(entry, form, may_leave):
    """Whether a form's placeholders aren't those of its source."""
    source = entry["plural"] if entry["plural"] is not None else entry["key"][1]
    if "c-format" in entry["flags"] and not agrees(scan(source, ("%%",), DIRECTIVE), scan(form, ("%%",), DIRECTIVE), may_leave):
        return True
    ours, theirs = set(scan(source, ("{{", "}}"), BRACE)), set(scan(form, ("{{", "}}"), BRACE))
    return "python-brace-format" in entry["flags"] and not (theirs <= ours if may_leave else theirs == ours)


def ends_otherwise(entry, form):
    msgid = entry["key"][1]
    return (form[:1] == "\n") != (msgid[:1] == "\n") or (form[-1:] == "\n") != (msgid[-1:] == "\n")


class Domain:
    """What a domain has of its own."""

    def __init__(self):
        self.template, self.languages = [], {}


class Office:
    def __init__(self):
        self.team = {"root": "manager"}
        self.policy = {"reviews": False, "guests_suggest": False, "voting": False, "accept_at": 0, "placeholders": False, "line_ends": False}
        self.domains, self.book = {"main": Domain()}, {}

    def deliver(self, number, content):
        """The reply to a request; one that was there before gets its first."""
        if number in self.book:
            before, reply = self.book[number]
            if before != content:
                return NUMBER_USED
            if not spoiled("a repeat is decided anew"):
                return reply
        try:
            reply = (200, self.act(number, content))
        except Refused as why:
            name, more = why.args
            rule, status = RULES[name]
            reply = (status, {"refusal": name, "rule": rule, **more})
            if spoiled("a refusal is not recorded"):
                return reply
        self.book[number] = (content, reply)
        return reply

    def act(self, number, content):
        if "id" in content:
            return self.unit_act(number, content)
        refuse(self.role(content) < 3, "role")
        return getattr(self, f"take_{content['act']}")(content)

    def role(self, content):
        return ROLES.index(self.team.get(content["caller"], "guest"))

    def domain(self, content):
        """The domain that a request names, if it is there."""
        return self.domains.get(content.get("domain", "main"))

    # acts on the office

    def take_team(self, content):
        after = {**self.team, content["name"]: content["role"]}
        after = {name: role for name, role in after.items() if role != "guest"}
        refuse("manager" not in after.values(), "last-manager")
        self.team = after
        return {"name": content["name"], "role": content["role"]}

    def take_policy(self, content):
        ends = self.policy["reviews"] and not content["reviews"]
        self.policy = {name: content[name] for name in self.policy}
        ruled = [self.domains["main"]] if spoiled("a policy spares other domains") else self.domains.values()
        languages = [lang for domain in ruled for lang in domain.languages.values()]
        ended = [it for lang in languages for it in lang["units"].values() if ends and it["state"] == APPROVED]
        for it in ended:
            it["state"] = TRANSLATED
            it["revision"] += 1
        return {"units": len(ended)}

    def take_domain(self, content):
        refuse(content["name"] in self.domains and not spoiled("a domain is made anew"), "domain-exists")
        refuse(len(self.domains) == 8, "limit")
        self.domains[content["name"]] = Domain()
        return {"name": content["name"]}

    def take_template(self, content):
        domain = self.domain(content)
        refuse(domain is None, "no-domain")
        text = TEXTS[content["po"]]
        refuse("fault" in text, "po", **text.get("fault", {}))
        entries = [{**it, "flags": [flag for flag in it["flags"] if flag != "fuzzy"]} for it in text["entries"] if not it["obsolete"]]
        old, domain.template = {it["key"]: it for it in domain.template}, entries
        return {"languages": {name: self.retake(domain, lang, old) for name, lang in domain.languages.items()}}

    def retake(self, domain, lang, old):
        """What a new template does to a language's units."""
        counts = dict.fromkeys(("added", "changed", "kept", "obsolete", "revived"), 0)
        for entry in domain.template:
            unit = lang["units"].get(entry["key"])
            if unit is None:
                what, lang["units"][entry["key"]] = "added", fresh(lang, entry)
            elif unit["obsolete"]:
                what, unit["obsolete"] = "revived", False
                refit(lang, unit, entry)
                unit["revision"] += 1
            elif unit["plural"] != entry["plural"] or ("read-only" in old[entry["key"]]["flags"]) != ("read-only" in entry["flags"]):
                what = "changed"
                if needed(lang, unit["plural"]) != needed(lang, entry["plural"]):
                    unit["suggestions"] = []
                refit(lang, unit, entry)
                unit["revision"] += 1
            else:
                what = "kept"
            counts[what] += 1
        keys = {it["key"] for it in domain.template}
        for key, unit in lang["units"].items():
            if key not in keys and not unit["obsolete"]:
                unit.update(obsolete=True, suggestions=unit["suggestions"] if spoiled("suggestions outlive their message") else [], revision=unit["revision"] + 1)
                counts["obsolete"] += 1
        return counts

    def take_language(self, content):
        domain = self.domain(content)
        refuse(domain is None, "no-domain")
        refuse(content["lang"] in domain.languages, "language-exists")
        text = TEXTS[content["po"]]
        refuse("fault" in text, "po", **text.get("fault", {}))
        refuse(text["header"] is None, "plural-forms", fault=0)
        count, rule = PLURALS[text["rule"]]
        served = [sum(rule(n) == form for n in range(1000)) for form in range(count)]
        lang = {"header": text["header"], "count": count, "one": [it == 1 for it in served], "units": {}}
        found = {it["key"]: it for it in text["entries"]}
        for entry in domain.template:
            lang["units"][entry["key"]] = self.loaded(lang, entry, found.get(entry["key"]))
        keys = {it["key"] for it in domain.template}
        for key, it in found.items():
            if key not in keys and any(it["forms"]):
                state = EDITING if "fuzzy" in it["flags"] or not all(it["forms"]) else TRANSLATED
                lang["units"][key] = {**unit_from(it), "obsolete": True, "state": state, "previous": it["previous"] if state == EDITING else None}
        domain.languages[content["lang"]] = lang
        loaded = sum(it["key"] in found for it in domain.template)
        return {"loaded": loaded, "missing": len(domain.template) - loaded, "obsolete": sum(it["obsolete"] for it in lang["units"].values())}

    def loaded(self, lang, entry, it):
        if it is None:
            return fresh(lang, entry)
        unit = {**unit_from(it), "obsolete": False, "state": TRANSLATED, "previous": None}
        if not refit(lang, unit, entry):
            fuzzy = "fuzzy" in it["flags"] or self.result(lang, entry, unit["forms"]) != TRANSLATED
            unit.update(state=EDITING, previous=it["previous"]) if fuzzy else None
        return unit

    # acts on a unit

    def unit_act(self, number, content):
        domain = self.domains["main"] if spoiled("each unit is in main") else self.domain(content)
        lang = None if domain is None else domain.languages.get(content["lang"])
        refuse(lang is None, "no-language")
        key = (content.get("ctx"), content["id"])
        unit = lang["units"].get(key)
        refuse(unit is None or unit["obsolete"], "no-unit")
        entry = next(it for it in domain.template if it["key"] == key)
        act, role = content["act"], self.role(content)
        least = {"suggest": 0 if self.policy["guests_suggest"] else 1, "approve": 2, "send-back": 2}.get(act, 1)
        refuse(role < least, "role")
        refuse("read-only" in entry["flags"], "read-only")
        refuse(content["seen"] != unit["revision"] and not spoiled("nothing is stale"), "stale")
        refuse(act in ("translate", "accept", "comment") and unit["state"] == APPROVED and role < 2, "approved")
        refuse(act in ("suggest", "translate") and len(content["forms"]) != needed(lang, unit["plural"]), "plural-count")
        own = next((it for it in unit["suggestions"] if it["number"] == content.get("suggestion")), None)
        refuse(act in ("vote", "accept", "dismiss") and own is None, "no-suggestion")
        refuse(act == "vote" and not self.policy["voting"], "voting-off")
        refuse(act in ("approve", "send-back") and not self.policy["reviews"], "reviews-off")
        refuse(act == "suggest" and len(unit["suggestions"]) == 100, "full")
        refuse(self.is_same(act, content, lang, entry, unit, own), "same")
        self.refuse_unfit(act, content, lang, entry, unit)
        more = self.take(act, number, content, lang, entry, unit, own)
        return {"revision": unit["revision"], "state": unit["state"], **more}

    def is_same(self, act, content, lang, entry, unit, own):
        if act == "suggest":
            return content["forms"] in [unit["forms"], *(it["forms"] for it in unit["suggestions"])]
        if act == "vote":
            return content["caller"] == own["suggester"] or content["value"] == own["votes"].get(content["caller"], 0)
        if act == "translate":
            return content["forms"] == unit["forms"] and self.result(lang, entry, content["forms"]) == unit["state"]
        if act == "comment":
            return content["lines"] == unit["comment"]
        return act == "approve" and unit["state"] == APPROVED or act == "send-back" and unit["state"] == EDITING

    def refuse_unfit(self, act, content, lang, entry, unit):
        refuse(act == "suggest" and not any(content["forms"]), "unfit")
        refuse(act == "approve" and self.result(lang, entry, unit["forms"]) != TRANSLATED, "unfit")
        refuse(act == "send-back" and unit["state"] == UNTRANSLATED, "unfit")

    def take(self, act, number, content, lang, entry, unit, own):
        """What an act does to a unit, and what its reply has besides."""
        more = {}
        if act == "suggest":
            unit["suggestions"].append({"number": number, "suggester": content["caller"], "forms": content["forms"], "votes": {}})
            return {"suggestion": number, "votes": 1}
        if act == "dismiss":
            unit["suggestions"].remove(own)
            return {}
        if act == "vote":
            own["votes"] = {name: it for name, it in {**own["votes"], content["caller"]: content["value"]}.items() if it}
            total = 1 + sum(own["votes"].values())
            bound = self.policy["accept_at"] + (1 if spoiled("a vote too many is wanted") else 0)
            accepted = self.policy["accept_at"] != 0 and total >= bound and unit["state"] != APPROVED
            more = {"accepted": accepted, "votes": total}
            if not accepted:
                return more
        if act in ("vote", "accept"):
            unit["suggestions"].remove(own)
            self.put(unit, own["forms"], self.result(lang, entry, own["forms"]))
        elif act == "translate":
            self.put(unit, content["forms"], self.result(lang, entry, content["forms"]))
        elif act == "comment":
            unit["comment"] = content["lines"]
        else:
            self.put(unit, unit["forms"], APPROVED if act == "approve" else EDITING)
        unit["revision"] += 1
        return more

    def put(self, unit, forms, state):
        unit.update(forms=forms, state=state, previous=unit["previous"] if state == EDITING else None)

    def result(self, lang, entry, forms):
        if not any(forms):
            return UNTRANSLATED
        one = [entry["plural"] is not None and it for it in lang["one"]]
        for form, may_leave in zip(forms, one):
            if not form or self.policy["placeholders"] and misplaced(entry, form, may_leave) or self.policy["line_ends"] and ends_otherwise(entry, form):
                return EDITING
        return TRANSLATED

    def places(self):
        """The domain and the name of each language."""
        return [(name, lang) for name, domain in self.domains.items() for lang in domain.languages]

    def export(self, name, lang):
        """The text of a domain's language; None where it isn't there."""
        domain = self.domains.get(name)
        lang = None if domain is None else domain.languages.get(lang)
        if lang is None:
            return None
        entries = [lang["header"]]
        for it in domain.template:
            unit = lang["units"][it["key"]]
            entries.append({**it, **shown(unit), "flags": ["fuzzy"] * (unit["state"] == EDITING) + it["flags"]})
        kept = [(key, unit) for key, unit in lang["units"].items() if unit["obsolete"] and any(unit["forms"])]
        for key, unit in sorted(kept, key=lambda it: key_text(it[0]).encode()):
            entries.append({**EMPTY, **shown(unit), "key": key, "flags": ["fuzzy"] * (unit["state"] == EDITING)})
        return written(entries)


EMPTY = {"key": (None, ""), "plural": None, "extracted": [], "refs": [], "flags": [], "comment": [], "forms": [""], "previous": None, "obsolete": False}


def key_text(key):
    context, msgid = key
    return msgid if context is None else f"{context}\4{msgid}"


def needed(lang, plural):
    return 1 if plural is None else lang["count"]


def fresh(lang, entry):
    unit = {"plural": entry["plural"], "forms": [""] * needed(lang, entry["plural"]), "state": UNTRANSLATED, "obsolete": False}
    return {**unit, "revision": 1, "comment": [], "previous": None, "suggestions": []}


def unit_from(entry):
    return {"plural": entry["plural"], "forms": entry["forms"], "revision": 1, "comment": entry["comment"], "suggestions": []}


def refit(lang, unit, entry):
    """Fits a unit to its entry's plural. Returns whether anything but the plural's own place changed."""
    old, unit["plural"] = unit["plural"], entry["plural"]
    if len(unit["forms"]) != needed(lang, entry["plural"]) or not any(unit["forms"]):
        unit.update(forms=[""] * needed(lang, entry["plural"]), state=UNTRANSLATED, previous=None)
        return True
    if old != entry["plural"]:
        unit.update(state=EDITING, previous=(*entry["key"], old))
        return True
    return False


def shown(unit):
    return {name: unit[name] for name in ("plural", "comment", "forms", "previous", "obsolete")}


# ---- PO texts, as they are written

SIGNS = {"\n": "\\n", "\t": "\\t", "\r": "\\r", "\a": "\\a", "\b": "\\b", "\f": "\\f", "\v": "\\v", '"': '\\"', "\\": "\\\\"}


def string_lines(mark, keyword, text):
    pieces = re.findall(r"[^\n]*\n|[^\n]+", text) or [""]
    quoted = ['"' + "".join(SIGNS.get(it, it) for it in piece) + '"' for piece in pieces]
    return [f"{mark}{keyword} {quoted[0]}"] if len(pieces) == 1 else [f'{mark}{keyword} ""', *(mark + it for it in quoted)]


def entry_lines(it):
    mark, old = ("#~ ", "#~| ") if it["obsolete"] else ("", "#| ")
    lines = [f"{sign} {text}" if text else sign for sign, name in (("#", "comment"), ("#.", "extracted"), ("#:", "refs")) for text in it[name]]
    lines += ["#, " + ", ".join(it["flags"])] if it["flags"] else []
    names = ("msgctxt", "msgid", "msgid_plural")
    for name, text in zip(names, it["previous"] or ()):
        lines += [] if text is None else string_lines(old, name, text)
    for name, text in zip(names, (*it["key"], it["plural"])):
        lines += [] if text is None else string_lines(mark, name, text)
    if it["plural"] is None:
        return lines + string_lines(mark, "msgstr", it["forms"][0])
    return lines + [line for n, form in enumerate(it["forms"]) for line in string_lines(mark, f"msgstr[{n}]", form)]


def written(entries):
    return "\n".join("".join(line + "\n" for line in entry_lines(it)) for it in entries)


# ---- what is drawn

KEYS = [
    ((None, "Hello"), None, []),
    (("menu", "Hello"), None, ["read-only"]),
    (("", "Hello"), None, []),
    ((None, "%d file"), "%d files", ["c-format"]),
    ((None, "%1$s of %2$d"), None, ["c-format"]),
    ((None, "Line\n"), None, []),
    ((None, "{a} and {0}"), "{a} or {b}", ["python-brace-format"]),
]
FORMS = ["", "Hallo", "Servus", "%d Datei", "%d Dateien", "%2$d von %1$s", "Zeile\n", "\nZeile\nzwei", "{a} und {0}", "{b}{a}", "\t\"x\"\\"]
COMMENTS = [[], ["eins"], ["", "zwei\tx"]]
CALLERS = ["root", "ann", "bea", "cay", "zed"]
LANGS = ["de", "ru"]
DOMAINS = ["docs", "web", "main"]
# What each PO text that is drawn stands for.
TEXTS = {}
# Texts with faults, as the page of formats has them: a digit out of turn, an unknown escape, a text that is cut, a message without its form.
FAULTY = {
    'msgid "a"\nmsgid_plural "b"\nmsgstr[0] ""\nmsgstr[2] ""\n': {"kind": 6, "line": 4},
    'msgid "x"\nmsgstr "\\x41"\n': {"kind": 4, "line": 2},
    'msgid "x"\nmsgstr "abc': {"kind": 3, "line": 2},
    'msgid "x"\n': {"kind": 5, "line": 2},
}


def entries_drawn(draw, count, template):
    """Entries of a template, or of a language's text."""
    found = []
    for key, plural, flags in draw.sample(KEYS, draw.randint(0, count)):
        plural = draw.choice([plural, plural, "%d pieces" if plural else None, None])
        flags = [flag for flag in flags if draw.random() < 0.7]
        it = {**EMPTY, "key": key, "plural": plural, "flags": flags, "forms": [""] if plural is None else ["", ""]}
        if draw.random() < 0.3:
            it.update(extracted=["for you"], refs=["a.c:1 b.c:2"])
        if not template:
            count_of = 1 if plural is None else draw.choice([1, 2, 2, 3])
            it.update(forms=[draw.choice(FORMS) for _ in range(count_of)], comment=draw.choice(COMMENTS))
            it["flags"] = ["fuzzy"] * (draw.random() < 0.3) + it["flags"]
            it["previous"] = draw.choice([None, None, (None, "Old", None), ("c", "Old\n", "Olds")])
            it["obsolete"] = draw.random() < 0.3
        found.append(it)
    # Obsolete entries come last, so that a header stands first and all else is in one order.
    return sorted(found, key=lambda it: it["obsolete"])


def text_drawn(draw, template):
    """A PO text; TEXTS has what it stands for."""
    if draw.random() < 0.05:
        text = draw.choice(list(FAULTY))
        TEXTS[text] = {"fault": FAULTY[text]}
        return text
    entries, header, rule = entries_drawn(draw, 5, template), None, None
    if not template and draw.random() < 0.95:
        rule = draw.choice(list(PLURALS))
        said = f"Content-Type: text/plain; charset=UTF-8\nPlural-Forms: {rule}\n"
        header = {**EMPTY, "forms": [said], "comment": draw.choice(COMMENTS), "flags": ["fuzzy"] * (draw.random() < 0.1)}
    text = written([header, *entries] if header else entries)
    TEXTS[text] = {"entries": entries, "header": header, "rule": rule}
    return text


def domain_drawn(draw, guide):
    """A field that names a domain, most often one that is there, or none."""
    if draw.random() < (0.5 if len(guide.domains) > 1 else 0.95):
        return {}
    return {"domain": draw.choice(list(guide.domains) if draw.random() < 0.9 else DOMAINS)}


def office_act(draw, guide):
    kind = draw.random()
    more = domain_drawn(draw, guide)
    if kind < 0.04:
        return {"act": "domain", "name": draw.choice(DOMAINS)}
    if kind < 0.35:
        return {"act": "template", "po": text_drawn(draw, True), **more}
    if kind < 0.6:
        return {"act": "language", "lang": draw.choice(LANGS), "po": text_drawn(draw, False), **more}
    if kind < 0.8:
        return {"act": "team", "name": draw.choice(CALLERS), "role": draw.choice(ROLES)}
    flags = {name: draw.random() < 0.6 for name in ("reviews", "guests_suggest", "voting", "placeholders", "line_ends")}
    return {"act": "policy", **flags, "accept_at": draw.choice([0, 2, 2, 3])}


def unit_act(draw, numbers, guide):
    """An act on a unit, which most often fits what a list has brought about so far."""
    more = domain_drawn(draw, guide)
    domain = guide.domain(more)
    languages = domain.languages if domain else {}
    langs = list(languages) if draw.random() < 0.95 and languages else LANGS
    lang, act = draw.choice(langs), draw.choice(ACTS)
    units = languages[lang]["units"] if lang in languages else {}
    named = [key for key, it in units.items() if it["suggestions"]] if act in OF_SUGGESTIONS and draw.random() < 0.8 else []
    named = named or [key for key, it in units.items() if not it["obsolete"]] if draw.random() < 0.9 else []
    key = draw.choice(named or [it[0] for it in KEYS])
    unit = units.get(key)
    seen = unit["revision"] if unit and draw.random() < 0.85 else draw.choice([1, 1, 2, 3])
    fields = {"lang": lang, "id": key[1], "seen": seen, **({} if key[0] is None else {"ctx": key[0]})}
    fields.update(more)
    if act in ("suggest", "translate"):
        count = len(unit["forms"]) if unit and draw.random() < 0.9 else draw.choice([1, 2, 3])
        fields["forms"] = [draw.choice(FORMS) for _ in range(count)]
    elif act in OF_SUGGESTIONS:
        there = [it["number"] for it in unit["suggestions"]] if unit and draw.random() < 0.9 else []
        fields["suggestion"] = draw.choice(there or numbers[:20])
        fields.update({"value": draw.choice([-1, 0, 1, 1])} if act == "vote" else {})
    elif act == "comment":
        fields["lines"] = draw.choice(COMMENTS)
    return {"act": act, **fields}


ACTS = [*("suggest", "suggest", "translate", "translate", "vote", "vote", "accept", "dismiss", "comment", "approve", "approve", "send-back")]
OF_SUGGESTIONS = ("vote", "accept", "dismiss")


def template_of(keys):
    """The text of a template of these messages."""
    entries = [{**EMPTY, "key": key, "plural": plural, "flags": flags, "forms": [""] if plural is None else ["", ""]} for key, plural, flags in keys]
    text = written(entries)
    TEXTS[text] = {"entries": entries, "header": None, "rule": None}
    return text


def useful(draw, numbers):
    """Requests that begin most lists, so that what comes behind them meets something."""
    text = template_of(KEYS)
    flags = {name: draw.random() < 0.8 for name in ("reviews", "guests_suggest", "voting", "placeholders", "line_ends")}
    acts = [{"act": "template", "po": text}, {"act": "language", "lang": "de", "po": text_drawn(draw, False)}]
    if draw.random() < 0.4:
        more = {"domain": "docs"}
        acts += [{"act": "domain", "name": "docs"}, {"act": "template", "po": template_of(draw.sample(KEYS, 4)), **more}]
        acts += [{"act": "language", "lang": draw.choice(LANGS), "po": text_drawn(draw, False), **more}]
    acts += [{"act": "team", "name": name, "role": draw.choice(["translator", "reviewer"])} for name in ("ann", "bea")]
    return [{**it, "caller": "root"} for it in [*acts, {"act": "policy", **flags, "accept_at": draw.choice([0, 2, 2])}]]


def goes_and_comes(draw, numbers):
    """A suggestion on a message that a template takes away and a later one brings back, and what is then done with it."""
    (context, msgid), plural, _ = draw.choice(KEYS)
    unit = {"lang": "de", "id": msgid, **({} if context is None else {"ctx": context})}
    forms = [draw.choice(FORMS[1:]) for _ in range(1 if plural is None else 2)]
    less = template_of([it for it in KEYS if it[0] != (context, msgid)])
    acts = [{"act": "suggest", "forms": forms, "seen": 1, **unit}, {"act": "template", "po": less}, {"act": "template", "po": template_of(KEYS)}]
    then = draw.choice([{"act": "accept", "suggestion": numbers[0]}, {"act": "dismiss", "suggestion": numbers[0]}, {"act": "suggest", "forms": forms}])
    return [{**it, "caller": "root"} for it in [*acts, {**then, "seen": 3, **unit}]]


def ends_reviews(draw):
    """A message of a domain that is translated and approved, and then a policy without reviews."""
    key, plural, _ = draw.choice(KEYS)
    unit = {"lang": "de", "id": key[1], **({} if key[0] is None else {"ctx": key[0]}), **draw.choice([{}, {"domain": "docs"}])}
    flags = dict.fromkeys(("guests_suggest", "voting", "placeholders", "line_ends"), False)
    acts = [{"act": "policy", "reviews": True, "accept_at": 0, **flags}]
    acts.append({"act": "translate", "forms": ["Moin"] * (1 if plural is None else 2), "seen": 1, **unit})
    acts += [{"act": "approve", "seen": 2, **unit}, {"act": "policy", "reviews": False, "accept_at": 0, **flags}]
    return [{**it, "caller": "root"} for it in acts]


def votes(draw, numbers):
    """A suggestion and votes on it, by which it may be accepted."""
    key, plural, _ = draw.choice(KEYS)
    unit = {"lang": "de", "id": key[1], "seen": 1, **({} if key[0] is None else {"ctx": key[0]})}
    forms = [draw.choice(FORMS) for _ in range(1 if plural is None else 2)]
    acts = [{"act": "suggest", "caller": draw.choice(CALLERS), "forms": forms, **unit}]
    return acts + [{"act": "vote", "caller": it, "value": draw.choice([1, 1, -1]), "suggestion": numbers[0], **unit} for it in draw.sample(CALLERS, 2)]


def case_drawn(seed, n, length):
    """The deliveries of a case, each a number and a content, or a text that is none; and its stops: the place, and whether the program is killed."""
    draw, guide = random.Random(f"{seed}-{n}"), Office()
    numbers = [number(it) for it in range(1, 40 + length)]
    draw.shuffle(numbers)
    acts = useful(draw, numbers) if draw.random() < 0.85 else []
    count = len(acts)
    if draw.random() < 0.4:
        acts += votes(draw, numbers[count:])
    if draw.random() < 0.2:
        acts += goes_and_comes(draw, numbers[len(acts) :])
    if draw.random() < 0.2:
        acts += ends_reviews(draw)
    for it in zip(numbers, acts):
        guide.deliver(*it)
    for _ in range(length + draw.randint(2, 10)):
        act = office_act(draw, guide) if draw.random() < 0.2 else unit_act(draw, numbers, guide)
        acts.append({"caller": draw.choice(CALLERS if draw.random() < 0.5 else ["root"]), **act})
        guide.deliver(numbers[len(acts) - 1], content_of(acts[-1]))
    fresh_ones = list(zip(numbers, acts))
    found = fresh_ones[:count] if draw.random() < 0.9 else draw.sample(fresh_ones[:count], count)
    rest = fresh_ones[count:]
    if draw.random() < 0.2:
        draw.shuffle(rest)
    found += rest
    for _ in range(draw.randint(0, 4 + length // 4)):
        again, content = draw.choice(fresh_ones)
        if draw.random() < 0.2:
            content = {**content, "caller": draw.choice(CALLERS)} if draw.random() < 0.5 else draw.choice(acts)
        found.insert(draw.randint(0, len(found)), (again, content))
    if draw.random() < 0.05:
        found.insert(draw.randint(0, len(found)), draw.choice(["", "{}", "[]", "null", '{"act":"translate"}']))
    stops = sorted({draw.randint(0, len(found)) for _ in range(draw.choice([0, 0, 1, 1, 2]))})
    return found, [(place, draw.random() < 0.4) for place in stops]


# ---- a case by both


def line_of(delivery):
    return delivery if isinstance(delivery, str) else json.dumps({**delivery[1], "number": delivery[0]}, ensure_ascii=False)


def content_of(content):
    return {name: value for name, value in content.items() if (name, value) != ("domain", "main")}


def answer(office, delivery):
    """The line of the second office's reply."""
    if isinstance(delivery, str):
        return '400 {"error":"malformed"}'
    status, body = office.deliver(delivery[0], content_of(delivery[1]))
    return f"{status} " + json.dumps(body, ensure_ascii=False, separators=(",", ":"), sort_keys=True)


class Runs:
    """The program, on a file that is copied for each case."""

    def __init__(self, program, folder, in_memory):
        self.program, self.in_memory, self.store, self.empty = program, in_memory, folder / "office.db", folder / "empty.db"
        self.where = [] if in_memory else ["--store", self.store]
        self.kills = self.deliveries = 0
        if in_memory:
            return
        done = subprocess.run([program, "init", "--store", self.empty, "--manager", "root"], capture_output=True, check=False, timeout=SECONDS)
        if done.stdout != b"ready\n":
            sys.exit(f"init: {done.stdout} {done.stderr}")

    def begin(self):
        if self.in_memory:
            return
        for it in self.store.parent.glob("office.db*"):
            it.unlink()
        shutil.copyfile(self.empty, self.store)

    def whole(self, lines, place):
        """The replies to these lines, and the export of a domain's language behind them; None where there is none."""
        domain, lang = place
        words = [self.program, "deliver", *self.where, "--export", lang, *(["--domain", domain] if domain != "main" else [])]
        done = subprocess.run(words, input="".join(it + "\n" for it in lines).encode(), capture_output=True, check=False, timeout=SECONDS)
        out, faults = done.stdout.decode(), done.stderr.decode()
        parts = out.split("\n", len(lines))
        text = parts[len(lines)] if len(parts) > len(lines) else ""
        if (done.returncode, faults, text) == (1, "export fault 1\n", ""):
            text = None
        elif (done.returncode, faults) != (0, ""):
            text = f"status {done.returncode}: {faults}"
        return parts[: len(lines)], text

    def killed(self, lines, certain):
        """The replies that came before the program was killed, which is at once behind so many replies."""
        self.kills += 1
        words = [self.program, "deliver", *self.where]
        with subprocess.Popen(words, stdin=subprocess.PIPE, stdout=subprocess.PIPE, stderr=subprocess.PIPE) as process:
            said = [self.said(process, it) for it in lines[:certain]]
            try:
                process.stdin.write("".join(it + "\n" for it in lines[certain:]).encode())
                process.stdin.flush()
            except BrokenPipeError:
                said.append("the program ended")
            process.kill()
            rest = process.stdout.read().decode()
            process.stdin = None
        return said + rest.split("\n")[:-1]

    def said(self, process, line):
        process.stdin.write(f"{line}\n".encode())
        process.stdin.flush()
        return process.stdout.readline().decode().removesuffix("\n")

    def case(self, deliveries, stops, draw):
        """Where the program and the second office differ in a case; None where they don't."""
        self.begin()
        office, at = Office(), 0
        for place, is_kill in [*([] if self.in_memory else stops), (len(deliveries), False)]:
            place = min(place, len(deliveries))
            lines = [line_of(it) for it in deliveries[at:place]]
            self.deliveries += len(lines)
            if is_kill and lines:
                found = self.killed(lines, draw.randint(0, len(lines)))
                wanted = [answer(office, it) for it in deliveries[at : at + len(found)]]
                # What had no reply comes again with what follows, in its order.
                at += len(found)
            else:
                lang = draw.choice(["main", "main", "docs"]), draw.choice(LANGS)
                found, text = self.whole(lines, lang)
                wanted = [answer(office, it) for it in deliveries[at:place]]
                at = place
                if found == wanted and text != office.export(*lang):
                    return f"behind {place} deliveries: export of {lang}: {text!r}, not {office.export(*lang)!r}"
            for n, (one, other) in enumerate(zip(found, wanted)):
                if one != other:
                    return f"{one}, not {other}"
            if len(found) != len(wanted):
                return f"{len(found)} replies to {len(wanted)} lines"
        return None if self.in_memory else self.exports(office, [it for it in office.places() if it != lang and draw.random() < 0.25]) or self.figures()

    def figures(self):
        """Where the sums and the counts that the file keeps aren't those that queries count."""
        kept, counted = kept_and_counted(self.store)
        return None if kept == counted else f"kept: {kept}, counted: {counted}"

    def exports(self, office, languages):
        """Where the exports of these languages differ, of the file as it lies."""
        for lang in languages:
            text = self.whole([], lang)[1]
            if text != office.export(*lang):
                return f"the export of {lang}: {text!r}, not {office.export(*lang)!r}"
        return None


def smaller(deliveries, stops):
    """Cases with one part less."""
    for n in range(len(stops)):
        yield deliveries, stops[:n] + stops[n + 1 :]
    for n in range(len(deliveries)):
        yield deliveries[:n] + deliveries[n + 1 :], [(place - (place > n), is_kill) for place, is_kill in stops]


def shrunk(runs, seed, case, why):
    """The smallest case that is found by taking parts away, which still differs."""
    while True:
        for it in smaller(*case):
            told = runs.case(*it, random.Random(seed))
            if told:
                case, why = it, told
                break
        else:
            return case, why


MISTAKES = [
    *("a repeat is decided anew", "a refusal is not recorded", "nothing is stale", "a vote too many is wanted", "suggestions outlive their message"),
    *("a domain is made anew", "a policy spares other domains", "each unit is in main"),
]


def words():
    parser = argparse.ArgumentParser(description=__doc__.split("\n", 1)[0])
    parser.add_argument("program", nargs="?", type=pathlib.Path, default=TOP / "crates" / "cli" / "out" / "cli")
    parser.add_argument("--cases", type=int, default=1000)
    parser.add_argument("--seed", type=int, default=1)
    parser.add_argument("--minutes", type=float, default=float("inf"))
    parser.add_argument("--first", type=int, default=0)
    parser.add_argument("--length", type=int, default=0)
    parser.add_argument("--memory", action="store_true")
    parser.add_argument("--spoil", type=int)
    return parser.parse_args()


def main():
    global SPOILED
    given = words()
    SPOILED = None if given.spoil is None else MISTAKES[given.spoil]
    smallest, wrong, end, ran = None, 0, time.monotonic() + given.minutes * 60, 0
    with tempfile.TemporaryDirectory(prefix="office-schedules-") as name:
        runs = Runs(given.program.resolve(), pathlib.Path(name), given.memory)
        for n in range(given.first, given.first + given.cases):
            if time.monotonic() > end:
                break
            ran += 1
            TEXTS.clear()
            case = case_drawn(given.seed, n, given.length)
            why = runs.case(*case, random.Random(n))
            if why:
                wrong += 1
                case, why = shrunk(runs, n, case, why)
                if smallest is None or len(case[0]) < len(smallest[1][0]):
                    smallest = n, case, why
                if given.spoil is not None or wrong == 10:
                    break
    if smallest:
        n, (deliveries, stops), why = smallest
        print(f"case {n} of seed {given.seed}: {why}", f"stops: {stops}", *map(line_of, deliveries), sep="\n")
    print(f"{ran} cases, {runs.deliveries} deliveries, {runs.kills} kills, {wrong} wrong")
    return 1 if wrong else 0


if __name__ == "__main__":
    sys.exit(main())
