#!/usr/bin/env python3
"""Tries office-check and office-suggest with a real program `office`, and with the tools and translators that they are for.

    tests/checks.py [PROGRAM]      (wants GNU gettext, pofilter of translate-toolkit, i18nspector, apertium with apertium-eng-spa, curl, jq)

office-check gets a language with one fault of its own in each message, under names that are hard to tell apart; what it tells has to be what the three
tools print of the same text when they are run here by hand, no line more or less, at the messages that have the faults. office-suggest gets
commands and services that translate, and others that drop placeholders and line ends, fail, are slow or say odd things; what they suggest has to be what
they say when they are asked here, once, also behind a dismissal. Prints what is otherwise than it should be, and last `N looks, M wrong`; the
status is 1 if anything was.
"""
import contextlib
import http.server
import json
import os
import pathlib
import re
import shutil
import subprocess
import sys
import tempfile
import threading
import urllib.parse

import looks
import serve
from looks import HOST, same
from serve import PROGRAM
from tools import HEADER, RULE, act, at, ask, between, new_office, records, served, tool

CHECKERS = ("msgfmt", "pofilter", "i18nspector")


def room(folder):
    return pathlib.Path(tempfile.mkdtemp(dir=folder))


# ---- office-check

WHOLE_HEADER = """msgid ""
msgstr ""
"Project-Id-Version: hello 1.0\\n"
"Report-Msgid-Bugs-To: bugs@hello.test\\n"
"POT-Creation-Date: 2026-01-02 03:04+0000\\n"
"PO-Revision-Date: 2026-02-03 04:05+0000\\n"
"Last-Translator: Ann <ann@hello.test>\\n"
"Language-Team: German <de@hello.test>\\n"
"Language: de\\n"
"MIME-Version: 1.0\\n"
"Content-Type: text/plain; charset=UTF-8\\n"
"Content-Transfer-Encoding: 8bit\\n"
"Plural-Forms: nplurals=2; plural=n != 1;\\n"
"""
# Messages, each with a context or None, a plural or None, its flag, its forms, and what has to be found at it at least. The names are hard to
# tell apart where a tool names a message by its text: some begin with others, and some look like a tool's own words.
MESSAGES = [
    (None, "a", None, "", ["a "], {"pofilter/endwhitespace"}),
    (None, "a msgctxt b", None, "", ["b "], {"pofilter/endwhitespace"}),
    ("b", "a", None, "", ["c "], {"pofilter/endwhitespace"}),
    (None, "Line\n", None, "", ["Zeile"], {"msgfmt/line-ends", "i18nspector/inconsistent-trailing-newlines"}),
    ("Line\n", "Line\n", None, "", ["Zeile"], {"msgfmt/line-ends", "i18nspector/inconsistent-trailing-newlines"}),
    ("", "Line\n", None, "", ["Zeile"], {"msgfmt/line-ends", "i18nspector/inconsistent-trailing-newlines"}),
    (None, "Line: \"x\": 'y'\n", None, "", ["Zeile: \"x\": 'y'"], {"msgfmt/line-ends", "i18nspector/inconsistent-trailing-newlines"}),
    (None, "\nLine", None, "", ["Zeile"], {"msgfmt/line-ends", "i18nspector/inconsistent-leading-newlines"}),
    (None, "%d of %s", None, "c-format", ["%s von %d"], {"msgfmt/format", "i18nspector/c-format-string-argument-type-mismatch"}),
    ("E: de.po: x", "%d of %s\\", None, "c-format", ["%d von\\"], {"msgfmt/format", "i18nspector/c-format-string-missing-arguments"}),
    (None, "%d file", "%d files", "c-format", ["%d Datei", "%s Dateien"], {"msgfmt/format", "i18nspector/c-format-string-argument-type-mismatch"}),
    (None, "{name} is here", None, "python-brace-format", ["{nam} ist da"], {"msgfmt/format", "pofilter/pythonbraceformat"}),
    (None, "See <b>this</b>", None, "", ["Siehe <b>dies<b>"], {"pofilter/xmltags"}),
    (None, "Grüße\u2028\u202eund \x9b", None, "", ["Grüße und"], set()),
    (None, "simple", None, "", ["einfach\n"], {"msgfmt/line-ends", "i18nspector/inconsistent-trailing-newlines"}),
    (None, "fine", None, "", ["gut"], set()),
    (None, "nothing yet", None, "", [""], set()),
]
# So many of them are in the domain manual too.
OF_MANUAL = 10
FORGED = "# (pofilter) printf: forged\n# (pofilter) xmltags: forged"


def po_string(text):
    return json.dumps(text, ensure_ascii=False).replace("\x7f", "\\u007f")


def po_of(context, msgid, plural, flag, forms, comment=""):
    lines = [comment] if comment else []
    lines += [f"#, {flag}"] if flag else []
    lines += [] if context is None else [f"msgctxt {po_string(context)}"]
    lines += [f"msgid {po_string(msgid)}"] + ([] if plural is None else [f"msgid_plural {po_string(plural)}"])
    names = ["msgstr"] if plural is None else [f"msgstr[{n}]" for n in range(len(forms))]
    return "\n".join(lines + [f"{name} {po_string(form)}" for name, form in zip(names, forms)]) + "\n"


def checked_office(folder):
    """An office whose German has a fault in each message, a comment that looks like a finding, and an obsolete message with a fault; and a further domain."""
    empty = [(context, msgid, plural, flag, [""] * len(forms)) for context, msgid, plural, flag, forms, _ in MESSAGES]
    old = po_of(None, "old %d", None, "c-format", ["alt"])
    texts = [po_of(*it[:5], FORGED if it[:2] == (None, "a") else "") for it in MESSAGES]
    template = "\n".join(po_of(*it) for it in empty)
    acts = [{"act": "template", "po": template + "\n" + po_of(None, "old %d", None, "c-format", [""])}]
    acts += [{"act": "language", "lang": "de", "po": "\n".join([WHOLE_HEADER, *texts, old])}, {"act": "template", "po": template}]
    acts += [{"act": "language", "lang": "fr", "po": HEADER % ("UTF-8", RULE)}]
    own = {"domain": "manual"}
    acts += [{"act": "domain", "name": "manual"}, {"act": "template", "po": "\n".join(po_of(*it) for it in empty[:OF_MANUAL]), **own}]
    acts += [{"act": "language", "lang": "de", "po": "\n".join([WHOLE_HEADER, *texts[:OF_MANUAL]]), **own}]
    return new_office(folder, acts)


def by_hand(folder, export):
    """How many lines each tool prints of the export, without its comments and obsolete messages."""
    place = room(folder)
    text = re.sub(r"^#(?!,).*\n", "", export.split("\n\n#~ ")[0] + "\n", flags=re.M).rstrip("\n") + "\n"
    (place / "de.po").write_text(text)
    environment = {**os.environ, "LC_ALL": "C.UTF-8"}

    def run(*words):
        return subprocess.run(words, capture_output=True, cwd=place, env=environment, check=False)

    lines = {
        "msgfmt": [it for it in run("msgfmt", "-c", "-o", "/dev/null", "de.po").stderr.decode().split("\n") if re.match(r"de\.po:\d+: ", it)],
        "i18nspector": run("i18nspector", "de.po").stdout.decode().split("\n")[:-1],
    }
    states = [f"--excludefilter={it}" for it in ("untranslated", "isfuzzy", "isreview", "hassuggestion")]
    run("pofilter", "--progress=none", "--language=de", *states, "de.po", "found.po")
    lines["pofilter"] = re.findall(r"^# \(pofilter\) .*$", (place / "found.po").read_text(), re.M)
    return {name: len(found) for name, found in lines.items()}


def checked(*words, path=None):
    return tool("office-check", *words, environment=path and {"PATH": path})


def in_file(*words):
    return ["--office", PROGRAM, *words]


def key_of(finding):
    return finding.get("context"), finding["id"]


def checks(folder):
    """What is found, at which message, as lines, as JSON and beside the page."""
    path, page = checked_office(folder), room(folder)
    export = serve.run("export", "--store", path, "--lang", "de")[1]
    status, out, faults = checked(*in_file("--store", path, "--json", "--beside", page, "--page", "https://l10n.test/hello/", "de"))
    same("check: status", (status, faults, out.count("\n")), (0, "", 1))
    told = json.loads(out)
    findings = told["findings"]
    counts = {name: sum(it["tool"] == name for it in findings) for name in CHECKERS}
    same("check: as many as the tools print by hand", counts, by_hand(folder, export))
    for context, msgid, _, _, _, wanted in MESSAGES:
        found = {f"{it['tool']}/{it['name']}" for it in findings if key_of(it) == (context, msgid)}
        same(f"check: {context!r} {msgid!r}", wanted - found, set())
    same("check: nothing of other messages", {key_of(it) for it in findings} - {it[:2] for it in MESSAGES}, {(None, "")})
    same("check: nothing at what is fine", [it for it in findings if it["id"] in ("fine", "nothing yet") or "forged" in it["text"]], [])
    named = {(f"{it['tool']}/{it['name']}", it["severity"]) for it in findings if it["tool"] == "msgfmt" or it["name"] in ("xmltags", "endwhitespace")}
    wanted = {("msgfmt/line-ends", "error"), ("msgfmt/format", "error"), ("pofilter/xmltags", "error"), ("pofilter/endwhitespace", "note")}
    same("check: severities", named, wanted)
    links(findings)
    made = json.loads((page / "checks" / "de.json").read_text())
    plain = [{name: value for name, value in it.items() if name != "link"} for it in findings]
    same("check: beside the page", {**made, "made": None}, {"made": None, "domain": "main", "lang": "de", "findings": plain})
    same("check: its time", re.fullmatch(r"\d{4}-\d\d-\d\dT\d\d:\d\d:\d\dZ", made["made"]) is not None, True)
    same("check: the fields", {frozenset(it) - {"context"} for it in plain}, {frozenset({"id", "tool", "name", "text", "severity"})})
    same("check: texts on one line", [it for it in plain if "\n" in it["text"] or not it["text"]], [])
    same("check: nothing else is written", [str(it.relative_to(page)) for it in page.rglob("*")], ["checks", "checks/de.json"])
    as_lines(path, findings)
    served_alike(path, out)
    of_a_domain(path, page, findings)


def links(findings):
    """Each link is the page's address of its message."""
    for it in findings:
        place, _, query = it["link"].partition("?")
        fields = dict(urllib.parse.parse_qsl(query, keep_blank_values=True, strict_parsing=True)) if query else None
        context = {} if "context" not in it else {"ctx": it["context"]}
        wanted = ("https://l10n.test/hello/#/de/unit", {"id": it["id"], **context}) if it["id"] else ("https://l10n.test/hello/#/de", None)
        same(f"check: the link of {it['id']!r}", (place, fields), wanted)


def as_lines(path, findings):
    status, out, faults = checked(*in_file("--store", path, "--page", "https://l10n.test/hello/"))
    lines = out.split("\n")[:-1]
    german = [it for it in lines[:-1] if it.startswith("de: ")]
    same("check: lines", (status, faults, len(german)), (0, "", len(findings)))
    same("check: a line has its link", [it.split("\t")[1] for it in german], [it["link"] for it in findings])
    same("check: no control", re.search("[\0-\x08\x0b-\x1f\x7f-\x9f\u2028\u202e]", out), None)
    line = f'de: error: "Line\\n" "Line\\n": i18nspector/inconsistent-trailing-newlines: inconsistent trailing newlines\t'
    same("check: a line", len([it for it in german if it.startswith(line)]), 1)
    counts = {it: sum(one["severity"] == it for one in findings) for it in ("error", "warning", "note")}
    french = [it for it in lines[:-1] if it.startswith("fr: ")]
    same("check: French has findings", len(french) > 0, True)
    told = [int(it) for it in re.findall(r"(\d+) (?:errors|warnings|notes)", lines[-1])]
    same("check: the last line", told, [counts[it] + sum(f": {it}: " in one for one in french) for it in counts])


def served_alike(path, out):
    """An office that is served gets the same; a language or a domain that isn't there is named."""
    with served(path) as port:
        found = checked(*at(port), "--json", "de")
        same("check: served", (found[0], json.loads(found[1])["findings"]), (0, [{k: v for k, v in it.items() if k != "link"} for it in json.loads(out)["findings"]]))
        same("check: no such language", checked(*at(port), "nl", "--tool", "msgfmt")[::2], (1, "office-check: nl: no-language: the office hasn't this language\n"))
        same("check: no such domain", checked(*at(port), "--domain", "web", "de", "--tool", "msgfmt")[0], 1)


def of_a_domain(path, page, findings):
    """What is found in a further domain stands in a folder of its own beside the page, and has links to the messages of that domain."""
    keys = {it[:2] for it in MESSAGES[:OF_MANUAL]}
    wanted = [it for it in findings if key_of(it) in {*keys, (None, "")}]
    with served(path) as port:
        words = [*at(port), "--domain", "manual", "--json", "--beside", page, "--page", "https://l10n.test/hello/", "de"]
        told = json.loads(checked(*words)[1])
        links = [it["link"].replace("#/de", "#/domains/manual/de") for it in wanted]
        same("check: a domain's links", [it["link"] for it in told["findings"]], links)
        made = json.loads((page / "checks" / "manual" / "de.json").read_text())
        same("check: a domain's file", (made["domain"], len(made["findings"])), ("manual", len(links)))
        same("check: fewer than those of main", 0 < len(links) < len(findings), True)


def lists_and_tools(folder):
    with served(checked_office(folder)) as port:
        lists(folder, port)
        missing(folder, port)


def lists(folder, port):
    """Which findings a project wants: off, another severity, the last line that fits."""
    list_ = folder / "list"
    words = [*at(port), "--json", "--findings", list_, "de"]

    def found(text):
        list_.write_text(text)
        status, out, faults = checked(*words)
        same(f"list {text!r}", (status, faults), (0, ""))
        return json.loads(out)["findings"]

    whole = found("")
    same("list: off", {it["tool"] for it in found("pofilter/* off\n")}, {"msgfmt", "i18nspector"})
    same("list: the last fits", {it["name"] for it in found("* off\npofilter/xmltags on  # wanted\n")}, {"xmltags"})
    same("list: nothing", found("* off"), [])
    notes = found("msgfmt/* note\n\n# a comment\n")
    same("list: a severity", ({it["severity"] for it in notes if it["tool"] == "msgfmt"}, len(notes)), ({"note"}, len(whole)))
    for bad in ("pofilter", "pofilter/* never", "a b c"):
        list_.write_text(f"* on\n{bad}\n")
        status, out, faults = checked(*words)
        same(f"list: {bad}", (status, out, faults.startswith(f"office-check: {list_}: line 2 is no pattern")), (1, "", True))
    list_.write_text("* off\npofilter/xmltags warning\n")
    same("fail: error", checked(*words, "--fail", "error")[0], 0)
    same("fail: warning", checked(*words, "--fail", "warning")[0], 1)
    same("fail: note", checked(*words, "--fail", "note")[0], 1)


def missing(folder, port):
    """Tools that aren't there, and tools that fail."""
    place = room(folder)
    for it in ("python3", "msgfmt", "msgattrib", "msgconv", "msgcat", "i18nspector", "env", "sh"):
        (place / it).symlink_to(shutil.which(it))
    words = [*at(port), "--json", "de"]
    status, out, faults = checked(*words, path=str(place))
    told = "office-check: pofilter is not there (translate-toolkit has it): nothing is checked by it\n"
    same("without pofilter", (status, {it["tool"] for it in json.loads(out)["findings"]}, faults), (0, {"msgfmt", "i18nspector"}, told))
    status, out, faults = checked(*words, "--tool", "pofilter", "--tool", "msgfmt", path=str(place))
    same("without pofilter, which is named", (status, {it["tool"] for it in json.loads(out)["findings"]}, faults), (1, {"msgfmt"}, told))
    status, out, faults = checked(*words, "--tool", "pofilter", path=str(place))
    same("without all that are named", (status, out, faults), (1, "", told + "office-check: none of the tools is there\n"))
    for text, said in (("#!/bin/sh\necho broken >&2; exit 3\n", "pofilter: broken"), ("#!/bin/sh\necho x > found.po\n", "msgconv")):
        (place / "pofilter").unlink(missing_ok=True)
        (place / "pofilter").write_text(text)
        (place / "pofilter").chmod(0o755)
        status, out, faults = checked(*words, path=str(place))
        same(f"a pofilter that fails, {said}", (status, out, faults.startswith(f"office-check: {said}"), faults.count("\n")), (1, "", True, 1))
    (place / "i18nspector").unlink()
    (place / "i18nspector").write_text("#!/bin/sh\necho 'hello \033[31m'\n")
    (place / "i18nspector").chmod(0o755)
    status, out, faults = checked(*words, "--tool", "i18nspector", path=str(place))
    same("an i18nspector that says something else", (status, out, faults), (1, "", "office-check: i18nspector said what isn't read here: hello \\u001b[31m\n"))


# ---- office-suggest

# A template: plain, with placeholders of some kinds, over lines, plural, with a tab, of nothing to translate, and one that is translated.
PLAIN, FORMAT, BRACES, LINES, TABBED, SIGNS, DONE = "open the file", "open %s now", "hello {name}, <b>you</b>", "\n  line one\n\n\tline two %d\n", "a\tb", "%s: %d", "done"
FILES = ("one file", "%d files")
TEMPLATE = [
    *((None, msgid, None, flag) for msgid, flag in ((PLAIN, ""), (FORMAT, "c-format"), (BRACES, "python-brace-format"), (LINES, "c-format"), (TABBED, ""))),
    *((None, msgid, None, flag) for msgid, flag in ((SIGNS, "c-format"), (DONE, ""), ("not to be changed", "read-only"))),
    ("menu", PLAIN, None, ""),
    (None, FILES[0], FILES[1], "c-format"),
]
UPPER = "tr a-z A-Z"
UPPERED = {
    (None, PLAIN): ["OPEN THE FILE"],
    (None, FORMAT): ["OPEN %s NOW"],
    (None, BRACES): ["HELLO {name}, <b>YOU</b>"],
    (None, LINES): ["\n  LINE ONE\n\n\tLINE TWO %d\n"],
    (None, TABBED): ["A\tB"],
    ("menu", PLAIN): ["OPEN THE FILE"],
    (None, FILES[0]): ["ONE FILE", "%d FILES"],
}


def suggesting_office(folder, lang="de", rule=RULE, **policy):
    template = "\n".join(po_of(*it, [""] * (2 if it[2] else 1)) for it in TEMPLATE)
    text = HEADER % ("UTF-8", rule) + f'\nmsgid "{DONE}"\nmsgstr "getan"\n'
    flags = {"reviews": False, "guests_suggest": True, "voting": False, "accept_at": 0, "placeholders": True, "line_ends": True, **policy}
    return new_office(folder, [{"act": "template", "po": template}, {"act": "language", "lang": lang, "po": text}, {"act": "policy", **flags}])


def suggest(port, *more, command=UPPER, caller="machine", lang="de"):
    how = [] if command is None else ["--command", command]
    return tool("office-suggest", *at(port), "--caller", caller, "--tries", 2, *how, *more, lang)


def shown_view(port, key, lang="de"):
    context, msgid = key
    fields = {"lang": lang, "id": msgid, **({} if context is None else {"ctx": context})}
    return json.loads(ask(port, "GET", "/v1/unit?" + urllib.parse.urlencode(fields))[1])


def suggested(port, lang="de"):
    """What is suggested to each message, and by whom."""
    found = {}
    for context, msgid, _, _ in TEMPLATE:
        for it in shown_view(port, (context, msgid), lang)["suggestions"]:
            found.setdefault((context, msgid), []).append((it["suggester"], it["forms"]))
    return found


def by(caller, texts):
    return {key: [(caller, forms)] for key, forms in texts.items()}


def last(out):
    return out.split("\n")[-2] if out else out


def suggests(folder):
    """A command's words: with placeholders and line ends, once, behind a dismissal too; of another caller anew."""
    path = suggesting_office(folder)
    with served(path) as port:
        status, out, faults = suggest(port, "--dry-run")
        same("suggest --dry-run", (status, faults, last(out), suggested(port)), (0, "", "8 found, 1 left out", {}))
        status, out, faults = suggest(port)
        same("suggest", (status, faults, last(out)), (0, "", "2 left out, 7 suggested"))
        same("suggest: the suggestions", suggested(port), by("machine", UPPERED))
        named = f'left out: {json.dumps(SIGNS)} (it came back as it was)'
        same("suggest: nothing to translate", named in out.split("\n"), True)
        same("suggest, again", (suggest(port)[0], last(suggest(port)[1]), suggested(port)), (0, "2 left out, 7 suggested before", by("machine", UPPERED)))
        first = shown_view(port, (None, PLAIN))["suggestions"][0]["number"]
        act(port, 1, "root", act="dismiss", lang="de", id=PLAIN, seen=1, suggestion=first)
        rest = {key: it for key, it in UPPERED.items() if key != (None, PLAIN)}
        for command in (UPPER, "sh -c 'echo another text'"):
            same("suggest, behind a dismissal", (last(suggest(port, command=command)[1])[-18:], suggested(port)), ("7 suggested before", by("machine", rest)))
        status, out, _ = suggest(port, "--most", 2, caller="other", command="sed s/e/E/g")
        same("suggest, another caller, two at most", (status, last(out), suggested(port)[None, PLAIN]), (0, "2 suggested", [("other", ["opEn thE filE"])]))
        same("suggest --most goes on", last(suggest(port, "--most", 2, caller="other", command="sed s/e/E/g")[1])[:11], "2 suggested")
    acts = [(content["act"], content["caller"], status) for _, content, status in records(path)[3:]]
    same("suggest: the records", [it for it in acts if it[2] == 200 and it[1] == "machine"], [("suggest", "machine", 200)] * 7)


BROKEN = {
    "drops placeholders": ("sed -E s/%[a-z]|XQ[A-H]|[{][^}]*[}]//g", {FORMAT, BRACES, LINES, FILES[0]}, "its placeholders didn't stay"),
    "adds placeholders": ("sed s/$/%n/", None, "its placeholders didn't stay"),
    "adds lines": ("sed p", None, "what came back isn't one line"),
    "says nothing": ("true", None, "what came back isn't one line"),
    "speaks Latin-1": ("printf '\\344'", None, "its translation isn't UTF-8"),
    "gives orders": ("printf 'a\\033[31m'", None, "didn't stay"),
}


def broken(folder):
    """What a command breaks is left alone; each has a caller of its own."""
    with served(suggesting_office(folder)) as port:
        for n, (what, (command, named, why)) in enumerate(BROKEN.items()):
            status, out, faults = suggest(port, command=command, caller=f"machine{n}")
            left = [it for it in out.split("\n") if it.startswith("left out: ")]
            keys = {json.loads(re.findall(r'"(?:[^"\\]|\\.)*"', it)[it.startswith('left out: "menu" ')]) for it in left if why in it or "control character" in it}
            wanted = named or {it[1] for it in TEMPLATE} - {DONE, SIGNS}
            same(f"a command that {what}", (status, faults, keys - {"not to be changed"}), (0, "", wanted - {"not to be changed"}))
            same(f"a command that {what}: nothing of these is suggested", {key[1] for key in suggested_by(port, f"machine{n}")} & wanted, set())
            same(f"a command that {what}: no control", "\x1b" in out, False)
        failing(port)
        odd_services(port)


def suggested_by(port, caller):
    return [key for key, found in suggested(port).items() if caller in [name for name, _ in found]]


def failing(port):
    """Commands that fail are told, and given up when they fail again and again."""
    status, out, faults = suggest(port, command="sh -c 'echo no >&2; exit 3'")
    same("a command that fails", (status, out.count("not done: "), faults), (1, 4, "office-suggest: the translator fails again and again: sh ended with status 3: no\n"))
    status, out, faults = suggest(port, "--seconds", 1, "--most", 1, command="sleep 30")
    same("a command that sleeps", (status, faults, "(sleep takes longer than 1 seconds)" in out), (1, "", True))
    status, out, faults = suggest(port, command="/nowhere/translate")
    same("no command", (status, out, faults), (1, "", "office-suggest: /nowhere/translate: No such file or directory\n"))
    same("an empty command", suggest(port, command=" "), (1, "", "office-suggest: --command names no command\n"))
    same("no suggestion of them", suggested_by(port, "machine"), [])
    same("no such language", suggest(port, lang="fr"), (1, "", "office-suggest: fr: no-language: the office hasn't this language\n"))


def odd_services(port):
    """Services that answer otherwise than they should are given up."""
    odd = [(500, b"{}"), (200, b"null"), (200, b"[" * 100_000), (200, b'{"translatedText": 1}'), (200, b'{"translatedText": null}'), (429, b"")]
    for answer in odd:
        with model(lambda _, answer=answer: answer) as it:
            status, out, faults = suggest(port, "--service", f"http://{HOST}:{it.server_address[1]}", command=None)
            told = faults.startswith("office-suggest: the translator fails again and again: answered")
            same(f"an odd service, {answer[0]} {answer[1][:20]}", (status, told, faults.count("\n"), suggested_by(port, "machine")), (1, True, 1, []))


def roles(folder):
    """Whoever may not suggest is told so at once; with the role all is suggested."""
    path = suggesting_office(folder, guests_suggest=False)
    with served(path) as port:
        told = (1, "", "office-suggest: machine's role doesn't allow suggestions\n")
        same("no role", (suggest(port), suggest(port)), (told, told))
        act(port, 1, "root", act="team", name="machine", role="translator")
        same("with the role", (suggest(port)[0], suggested(port)), (0, by("machine", UPPERED)))


def plurals(folder):
    """Of a language with one form the plural is translated; with three, messages with a plural are left alone."""
    for rule, forms in (("nplurals=1; plural=0;", ["%d FILES"]), ("nplurals=3; plural=n%10==1 ? 0 : n==2 ? 1 : 2;", None)):
        with served(suggesting_office(folder, rule=f'"Plural-Forms: {rule}\\n"\n')) as port:
            suggest(port)
            same(f"plural: {rule}", suggested(port).get((None, FILES[0])), forms and [("machine", forms)])


def apertium(folder):
    """Apertium's Spanish, as it says it here."""
    said = subprocess.run(["apertium", "-u", "eng-spa"], input=f"{PLAIN}\n".encode(), capture_output=True, check=True).stdout.decode().strip()
    with served(suggesting_office(folder, lang="es")) as port:
        status, out, faults = suggest(port, command="apertium -u eng-spa", lang="es")
        found = suggested(port, "es")
        same("apertium", (status, faults, found[None, PLAIN], said != PLAIN), (0, "", [("machine", [said])], True))
        same("apertium: placeholders", [key for key in UPPERED if key in found and "{name}" not in found[key][0][1][0] and key == (None, BRACES)], [])
        lines = found.get((None, LINES), [("", [LINES])])[0][1][0]
        same("apertium: line ends", [re.match(r"\s*", it)[0] for it in lines.split("\n")], [re.match(r"\s*", it)[0] for it in LINES.split("\n")])


class Model(http.server.BaseHTTPRequestHandler):
    """A model behind HTTP, which answers as it is told to."""

    def do_POST(self):
        fields = json.loads(self.rfile.read(int(self.headers["Content-Length"])))
        self.server.seen.append((self.path, fields))
        status, body = self.server.answers(fields)
        self.send_response(status)
        self.send_header("Content-Length", str(len(body)))
        self.end_headers()
        self.wfile.write(body)

    def log_message(self, *_):
        pass


@contextlib.contextmanager
def model(answers):
    server = http.server.ThreadingHTTPServer((HOST, 0), Model)
    server.answers, server.seen = answers, []
    threading.Thread(target=server.serve_forever, daemon=True).start()
    try:
        yield server
    finally:
        server.shutdown()
        server.server_close()


def libre(fields):
    return 200, json.dumps({"translatedText": fields["q"].upper()}).encode()


def chat(fields):
    return 200, json.dumps({"choices": [{"message": {"content": fields["messages"][-1]["content"].upper() + "!"}}]}).encode()


CURL = (
    "sh -c 'jq -Rc \"{model: \\\"m\\\", messages: [{role: \\\"user\\\", content: .}]}\" | curl -sf http://%s:%s/v1/chat/completions -d @- | jq -r .choices[0].message.content'"
)


def services(folder):
    """A service that answers as LibreTranslate does; others; and a model that a command asks by curl."""
    with served(suggesting_office(folder)) as port, model(libre) as it:
        address = f"http://{HOST}:{it.server_address[1]}/translate"
        status, out, faults = suggest(port, "--service", address, "--to", "de-DE", command=None)
        same("service", (status, faults, suggested(port)), (0, "", by("machine", UPPERED)))
        # Nine lines, and the four with placeholders once more with names in their place.
        same("service: a line once", (len(it.seen), len({one["q"] for _, one in it.seen})), (13, 13))
        same("service: what it got", it.seen[0], ("/translate", {"q": PLAIN, "source": "en", "target": "de-DE", "format": "text"}))
        tool("office-suggest", *at(port), "--caller", "keyed", "--service", address, "de", environment={"OFFICE_SUGGEST_KEY": "k"})
        same("service: its key", it.seen[-1][1]["api_key"], "k")
        with model(chat) as other:
            status, out, faults = suggest(port, command=CURL % other.server_address, caller="model")
            same("a model by curl", (status, faults, last(out)[-11:], len(other.seen)), (0, "", "7 suggested", 13))


def main():
    with tempfile.TemporaryDirectory(prefix="office-checks-") as name:
        for it in (checks, lists_and_tools, suggests, broken, roles, plurals, apertium, services):
            it(room(pathlib.Path(name)))
    return looks.told()


if __name__ == "__main__":
    sys.exit(main())
