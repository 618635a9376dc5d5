#!/usr/bin/env python3
"""Does with real projects what a maintainer does by README and GUIDE, from a fresh clone to a release, and tells what each step took.

    tests/trial.py [--program FILE] [--store DIR] [--suites OLD,NEW] PACKAGE..

PACKAGE is a source package of Debian whose folder `po` has a template and translations. What the first suite has is brought into an office and
worked on there; what the second has comes as the next release of its repository. The clone is made of this repository's last commit, and what is
run is what `make install` puts there. What comes out of each step is compared with what GNU gettext, git or the step's own files say. The program
is the one that ./office has built, or FILE. Wants gettext, git, make, curl, apt-get and the network; what office-check and office-suggest ask is
taken as far as it is installed.

Prints a table of the steps, each with its seconds, those that its programs took of processors, and what came out; what was
otherwise than it should be stands below its step. Last comes 'N steps, M wrong'.
"""
import argparse
import ast
import collections
import contextlib
import http.client
import json
import os
import pathlib
import re
import resource
import shutil
import signal
import socket
import subprocess
import sys
import tarfile
import tempfile
import time
import urllib.parse
import uuid

import real_projects
from looks import HOST, free_port

TOP = pathlib.Path(__file__).resolve().parent.parent
SECONDS = 1800
TEAM = {"ann": "translator", "rob": "reviewer", "machine": "translator", "memory": "translator", "git": "manager"}
PEOPLE = "Ann Example <ann@example.org> ann\nRob Example <rob@example.org> rob\n"
POLICY = {"reviews": True, "voting": True, "accept_at": 2, "guests_suggest": True, "placeholders": True, "line_ends": True}


class Wrong(Exception):
    """What is otherwise than it should be."""


def number():
    """A number of version 7."""
    bits = time.time_ns() // 1_000_000 << 80 | int.from_bytes(os.urandom(10), "big")
    return str(uuid.UUID(int=bits & ~(0xF << 76 | 0x3 << 62) | 0x7 << 76 | 0x2 << 62))


def entries(text, *kinds):
    """The translations in a PO text, as gettext says, by their messages' contexts and ids."""
    found = messages(text, "--translated", *kinds)
    return {key_of(one): [text for keyword, text in one.items() if keyword.startswith("msgstr")] for one in found}


def key_of(message):
    return message.get("msgctxt"), message["msgid"]


def counted(text, *kinds):
    """How many messages of a PO text are of these kinds."""
    return len(messages(text, *kinds))


def messages(text, *kinds):
    """The messages of a PO text that are of these kinds, as gettext says: their strings by keyword."""
    laid_out = real_projects.on_file(text, "msgattrib", "--no-obsolete", "--no-wrap", "--force-po", *kinds, "FILE").decode()
    found = []
    for block in laid_out.split("\n\n")[1:]:
        parts, part = {}, None
        for keyword, piece in re.findall(r'^(?:(msgctxt|msgid|msgid_plural|msgstr(?:\[\d\])?) )?"(.*)"$', block, re.M):
            part = keyword or part
            parts[part] = parts.get(part, "") + ast.literal_eval(f'"{piece}"')
        found.append(parts)
    return found


def utf8(path):
    """A file's text in UTF-8, as gettext converts it."""
    return real_projects.on_file(path.read_bytes().replace(b"charset=CHARSET", b"charset=UTF-8"), "msgconv", "--to-code=UTF-8", "--no-wrap", "FILE")


def unpacked(package, suite, store, folder):
    """The folder `po` that a suite has of a package, with its template and translations."""
    folder.mkdir(parents=True)
    with tarfile.open(real_projects.archive_in(suite, package, store)) as archive:
        for it in archive.getmembers():
            if it.isfile() and re.fullmatch(r"[^/]+/po/([^/]+\.pot?|LINGUAS)", it.name):
                (folder / pathlib.PurePath(it.name).name).write_bytes(archive.extractfile(it).read())
    if len(list(folder.glob("*.pot"))) != 1 or not list(folder.glob("*.po")):
        raise SystemExit(f"{package} of {suite} has no folder po with a template and translations")
    return folder


class Trial:
    """One project's way, in a folder of its own."""

    def __init__(self, package, suites, store, folder, place):
        self.package, self.folder, self.place = package, folder, place
        self.old, self.new = (unpacked(package, it, store, folder / it / "po") for it in suites)
        self.requests, self.db, self.port, self.at = folder / "requests", folder / "office.db", None, []
        self.langs, self.left, self.is_full, self.rules, self.replies = [], [], False, [], ""
        # Who acted on which messages, by language; the languages that were worked on, and the message that both sides changed.
        self.acted, self.worked, self.uploaded, self.both, self.suggested_by_guest = collections.defaultdict(set), None, None, None, 0
        self.faults = []

    # ---- what steps use

    def same(self, what, found, wanted):
        if found != wanted:
            self.faults.append(f"{what}: {found!r}, not {wanted!r}")

    def run(self, *words, given=None, status=0, text=True):
        """What a command prints, as text or as bytes, which has to end with that status, where one is named; and its second output."""
        path = f"{self.place}/bin:{os.environ['PATH']}"
        settings = {"PATH": path, "LC_ALL": "C.UTF-8", "GIT_CONFIG_GLOBAL": "/dev/null", "GIT_CONFIG_NOSYSTEM": "1"}
        words = [shutil.which(str(words[0]), path=path) or words[0], *map(str, words[1:])]
        done = subprocess.run(words, input=given, capture_output=True, check=False, cwd=self.folder, timeout=SECONDS, env={**os.environ, **settings})
        if status is not None and done.returncode != status:
            raise Wrong(f"{words[0]} ended with {done.returncode}: {(done.stderr or done.stdout).decode(errors='replace')[-500:]}")
        return done.stdout.decode() if text else done.stdout, done.stderr.decode()

    def ask(self, method, target, caller="root", body=None):
        client = http.client.HTTPConnection(HOST, self.port, timeout=SECONDS)
        client.request(method, target, body and json.dumps(body).encode(), {"X-Office-Caller": caller, "Connection": "close"})
        reply = client.getresponse()
        found = reply.status, reply.read()
        client.close()
        return found

    def act(self, caller, **fields):
        """The body of a reply to an act, which is posted twice: it has to be done, and the same reply has to come again."""
        target = f"/v1/requests/{number()}"
        first, second = (self.ask("POST", target, caller, fields) for _ in range(2))
        self.same(f"{fields['act']} by {caller}, {first[1]!r}, again", (first[0], second), (200, first))
        return json.loads(first[1])

    def unit(self, lang, entry):
        """How the office shows a message that a PO text has."""
        named = {"id": entry["msgid"], **({"ctx": entry["msgctxt"]} if "msgctxt" in entry else {})}
        status, body = self.ask("GET", f"/v1/unit?{urllib.parse.urlencode({'lang': lang, **named})}")
        self.same(f"a look at {named}", status, 200)
        return named, json.loads(body)

    def export(self, lang):
        return self.ask("GET", f"/v1/export/{lang}")[1]

    @contextlib.contextmanager
    def served(self):
        """The office serves, as long as the block is run."""
        self.port = free_port()
        words = [self.place / "bin" / "office", "serve", "--store", self.db, "--port", self.port, "--connections", 1_000_000]
        with subprocess.Popen([str(it) for it in words], stderr=subprocess.PIPE) as process:
            try:
                until = time.monotonic() + SECONDS
                while process.poll() is None and time.monotonic() < until:
                    with contextlib.suppress(OSError), socket.create_connection((HOST, self.port)):
                        break
                    time.sleep(0.05)
                self.at = ["--url", f"http://{HOST}:{self.port}"]
                yield
            finally:
                process.terminate()

    def untranslated(self, lang):
        """Messages of a language that have no translation."""
        return messages(self.export(lang), "--untranslated")


# ---- the steps, in their order: each tells what came out


def reads(it):
    """office canon reads the files as they are, or says where not"""
    files = sorted(it.old.glob("*.po*"))
    faults = [it.run("office", "canon", given=path.read_bytes(), status=None)[1] for path in files]
    unread = [fault.split("\n")[0] for fault in faults if fault]
    it.same("each fault has its line and kind", [one for one in unread if not re.fullmatch(r"po line \d+ kind \d+", one)], [])
    return f"{len(files) - len(unread)} of {len(files)} files"


def imports(it):
    """office-import makes requests; a language without a rule is named with the words that tell one"""
    it.run("office-import", it.old, it.requests, status=None)
    faults = it.run("office-import", it.old, status=None)[1]
    unruled = re.findall(r"^office-import: (\S+): not loaded: .*--plural-forms '\1=RULE' tells one$", faults, re.M)
    it.rules = [word for lang in unruled for word in ("--plural-forms", f"{lang}={real_projects.rule_of(lang)}")]
    faults = it.run("office-import", *it.rules, it.old, it.requests, status=None)[1]
    it.left = left = re.findall(r"^office-import: (\S+): not loaded: (.*)$", faults, re.M)
    it.is_full = any(why.startswith("limit") for _, why in left)
    lines = [json.loads(line) for line in it.requests.read_text().split("\n")[:-1]]
    it.langs = [line["lang"] for line in lines if line["act"] == "language"]
    it.same("each file is loaded or named", sorted([*it.langs, *(lang for lang, _ in left)]), sorted(path.stem for path in it.old.glob("*.po")))
    most = int(re.search(r"^\| languages of a domain \| (\d+) \|$", (TOP / "docs" / "FORMATS.md").read_text(), re.M)[1])
    it.same("no more than may be, and the limit is told", [len(it.langs) <= most, {why for _, why in left if why.startswith("limit")} <= {f"limit: {most} languages are loaded, and a domain has no more"}], [True, True])
    return f"{len(it.langs)} languages; {len(unruled)} rules told, {len(left)} left out"


def delivers(it):
    """office init, office deliver"""
    it.run("office", "init", "--store", it.db, "--manager", "root")
    it.replies = it.run("office", "deliver", "--store", it.db, given=it.requests.read_bytes())[0]
    replies = it.replies.split("\n")[:-1]
    messages = counted(utf8(next(it.old.glob("*.pot"))))
    loaded = [json.loads(reply[4:])["loaded"] for reply in replies[1:]]
    it.same("each reply", (replies[0], loaded), ('200 {"languages":{}}', [messages] * len(it.langs)))
    return f"{messages} messages in {len(it.langs)} languages"


def team(it):
    """roles and the policy, by posts"""
    for name, role in TEAM.items():
        it.act("root", act="team", name=name, role=role)
    it.act("root", act="policy", **POLICY)
    return f"{len(TEAM)} names"


def exports(it):
    """each language's export is what msgmerge makes of its file and the template"""
    pot = it.folder / "old.pot"
    pot.write_bytes(utf8(next(it.old.glob("*.pot"))))
    for lang in it.langs:
        po = it.folder / "merged.po"
        po.write_bytes(next(line["po"] for line in map(json.loads, it.requests.read_text().split("\n")[:-1]) if line.get("lang") == lang).encode())
        it.same(f"{lang}: what import made of the file", real_projects.entries(po.read_bytes())[1], real_projects.entries(utf8(it.old / f"{lang}.po"))[1])
        merged = real_projects.tool("msgmerge", "-q", "--previous", "--no-fuzzy-matching", "--no-wrap", str(po), str(pot))
        found, wanted = real_projects.entries(it.export(lang))[1], real_projects.entries(merged)[1]
        it.same(f"{lang}: the export beside msgmerge's", sorted(set(found) ^ set(wanted)), [])
    return f"{len(it.langs)} equal msgmerge's"


def counts(it):
    """the counts of each language, as the page asks for them"""
    for lang in it.langs:
        told, text = json.loads(it.ask("GET", f"/v1/stats/{lang}")[1]), it.export(lang)
        wanted = [counted(text, *kinds) for kinds in (("--untranslated",), ("--only-fuzzy",), ("--translated", "--no-fuzzy"))]
        it.same(f"{lang}: counts", [told["untranslated"], told["needs-editing"], told["translated"] + told["approved"]], wanted)
    return f"{len(it.langs)} languages, as msgattrib counts them"


def translates(it):
    """a translator, a guest and a reviewer work, each post sent twice"""
    found = {lang: [one for one in it.untranslated(lang) if "msgid_plural" not in one][:12] for lang in it.langs}
    if not any(found.values()):
        # (where all is translated, others' translations are changed)
        found = {lang: [one for one in messages(it.export(lang), "--translated") if one["msgid"] != one.get("msgstr", one["msgid"])][:12] for lang in it.langs}
    it.worked = max(found, key=lambda lang: len(found[lang]))
    for n, entry in enumerate(found[it.worked]):
        named, view = it.unit(it.worked, entry)
        fields = {"lang": it.worked, **named, "seen": view["revision"]}
        if n % 3 == 2:
            suggestion = it.act("zoe", act="suggest", **fields, forms=[entry["msgid"]])["suggestion"]
            it.act("ann", act="accept", **fields, suggestion=suggestion)
            it.suggested_by_guest += 1
            continue
        done = it.act("ann", act="translate", **fields, forms=[entry["msgid"]])
        if n % 3 == 1:
            it.act("rob", act="approve", **{**fields, "seen": done["revision"]})
    it.acted[it.worked] |= {key_of(one) for one in found[it.worked]}
    it.same("approved", json.loads(it.ask("GET", f"/v1/stats/{it.worked}")[1])["approved"], len(found[it.worked][1::3]))
    return f"{len(found[it.worked])} messages of {it.worked}"


def uploads(it):
    """office-upload sends what a translator changed in a copy of an export, twice"""
    lang = max((one for one in it.langs if one != it.worked), key=lambda one: min(len(it.untranslated(one)), 60))
    text = it.export(lang)
    todo = messages(text, "--untranslated")
    (it.folder / "export.po").write_bytes(text)
    (it.folder / "rest.po").write_bytes(real_projects.on_file(text, "msgattrib", "--untranslated", "--no-obsolete", "--force-po", "FILE"))
    it.run("msgen", "--force-po", "-o", "filled.po", "rest.po")
    it.run("msgcat", "--use-first", "--force-po", "-o", f"{lang}.po", "filled.po", "export.po")
    for what in ("done", "repeated"):
        out = it.run("office-upload", *it.at, "--caller", "ann", lang, "export.po", f"{lang}.po")[0]
        it.same(f"uploaded: {what}", out.split("\n")[-2:], [f"{len(todo)} {what}" if todo else "nothing was changed", ""])
    it.same("untranslated then", len(it.untranslated(lang)), 0)
    it.acted[lang] |= {key_of(one) for one in todo}
    it.uploaded = lang
    return f"{len(todo)} messages of {lang}"


# ---- a repository, by office-git


def git(it, *words, folder="upstream", text=True):
    return it.run("git", "-C", folder, "-c", "user.name=Upstream", "-c", "user.email=upstream@example.org", *words, text=text)[0]


def released(it, files, message):
    """Upstream has these files, those of other languages stay."""
    (it.folder / "upstream" / "po").mkdir(exist_ok=True)
    for path in files.iterdir():
        shutil.copy(path, it.folder / "upstream" / "po")
    git(it, "add", "-A")
    git(it, "commit", "-q", "-m", message)


def repository(it):
    """upstream's bare repository with its release, a clone of it, and a first pull, which changes nothing"""
    before = {lang: it.run("office", "export", "--store", it.db, "--lang", lang, text=False)[0] for lang in it.langs}
    git(it, "init", "-q", "-b", "main", "upstream", folder=".")
    released(it, it.old, "a release")
    git(it, "clone", "-q", "--bare", "upstream", "bare.git", folder=".")
    git(it, "remote", "add", "origin", "../bare.git")
    git(it, "clone", "-q", "bare.git", "clone", folder=".")
    for name, value in (("user.name", "Our office"), ("user.email", "office@example.org")):
        git(it, "config", name, value, folder="clone")
    (it.folder / "people").write_text(PEOPLE)
    it.same("a first pull", office_git(it, "pull"), ["taken: the template", "1 taken"])
    after = {lang: it.run("office", "export", "--store", it.db, "--lang", lang, text=False)[0] for lang in it.langs}
    it.same("what it changed", [lang for lang in it.langs if before[lang] != after[lang]], [])
    return f"{git(it, 'rev-list', '--count', 'HEAD').strip()} commit"


def office_git(it, act):
    """What office-git tells, line by line."""
    some = [word for lang in it.langs for word in ("--lang", lang)] if it.left else []
    words = ["--store", it.db, "--caller", "git", "--people", "people", "--msgcat", *some, *it.rules, act, "clone"]
    out, faults = it.run("office-git", *words, status=None)
    it.same(f"office-git {act}: faults", faults, "")
    return out.split("\n")[:-1]


def pushes(it):
    """office-git: what was done in the office is a commit a language, by those who acted; a second run does nothing"""
    before = git(it, "rev-parse", "main", folder="bare.git").strip()
    told = office_git(it, "sync")
    log = git(it, "log", "--format=%an, %s", f"{before}..main", folder="bare.git").split("\n")[:-1]
    acted = sorted(lang for lang in it.langs if it.acted[lang])
    it.same("who is named", [line for line in log if line.startswith("Ann")], [f"Ann Example, Update the translation into {lang}" for lang in reversed(acted)])
    it.same("once more", office_git(it, "sync"), ["nothing has changed"])
    it.same("all that was told", [line for line in told[:-1] if not line.startswith("pushed: ")], [])
    in_repository(it, told)
    return f"{told[-1]}, {len(acted)} of ann's"


def in_repository(it, told):
    """Each language's file in the repository says what the office says, and msgfmt -c takes those that were pushed."""
    pushed = {line.split(" ")[1] for line in told if line.startswith("pushed: ")}
    with it.served():
        for lang in it.langs:
            (it.folder / "shown.po").write_bytes(git(it, "show", f"main:po/{lang}.po", folder="bare.git", text=False))
            text = utf8(it.folder / "shown.po")
            it.same(f"{lang} in the repository", entries(text), entries(it.export(lang)))
            if lang in pushed:
                real_projects.on_file(text, "msgfmt", "-c", "-o", os.devnull, "FILE")


def both_change(it):
    """in the office a message is changed that upstream changes too"""
    for lang in sorted(set(it.langs) - {it.worked, it.uploaded}):
        if not (it.new / f"{lang}.po").exists():
            continue
        old, new = (entries(utf8(folder / f"{lang}.po"), "--no-fuzzy") for folder in (it.old, it.new))
        said = entries(it.export(lang), "--no-fuzzy")
        changed = [key for key, forms in old.items() if len(forms) == 1 and new.get(key, forms) != forms and said.get(key) == forms]
        if changed:
            context, msgid = changed[0]
            named, view = it.unit(lang, {"msgid": msgid, **({"msgctxt": context} if context is not None else {})})
            it.act("ann", act="translate", lang=lang, **named, seen=view["revision"], forms=["!" + view["forms"][0]])
            it.both = lang, changed[0]
            return f"{lang}: {msgid[:40]!r}"
    return "no language has such a one"


def next_release(it):
    """office-git pull: the next release's template and what upstream changed, over what the office had"""
    git(it, "pull", "-q", "origin", "main")
    released(it, it.new, "the next release")
    git(it, "push", "-q", "origin", "main")
    told = office_git(it, "pull")
    it.same("the template first", told[:1], ["taken: the template"])
    conflicts = [line for line in told if line.startswith("conflict: ")]
    it.same("conflicts", len(conflicts), 1 if it.both else 0)
    it.same("nothing was left", [line for line in told if line.startswith("not ")], [])
    come = [] if it.left else sorted({path.stem for path in it.new.glob("*.po")} - {path.stem for path in it.old.glob("*.po")})
    it.langs += come
    with it.served():
        wanted = {key_of(one) for one in messages(utf8(next(it.new.glob("*.pot"))))}
        for lang in it.langs:
            text = it.export(lang)
            it.same(f"{lang}: the template's messages", {key_of(one) for one in messages(text)} ^ wanted, set())
            if (it.new / f"{lang}.po").exists():
                upstream(it, lang, entries(text))
    return f"{told[-1]}; {len(come)} languages come"


def upstream(it, lang, office):
    """What upstream's next release translates is what the office says, but where both changed a message."""
    theirs = {key: forms for key, forms in entries(utf8(it.new / f"{lang}.po"), "--no-fuzzy").items() if key in office}
    others = [key for key, forms in theirs.items() if office[key] != forms]
    it.same(f"{lang}: where it isn't upstream's", others, [it.both[1]] if it.both and it.both[0] == lang else [])


# ---- what is known, found and suggested


def begins(it):
    """office-import --begin, sent by office send: a language begins, or the limit is told"""
    (it.folder / "begun").mkdir(exist_ok=True)
    shutil.copy(next(it.new.glob("*.pot")), it.folder / "begun")
    lang = next(one for one in ("eo", "br", "cy", "lv", "et") if one not in it.langs)
    it.run("office-import", "--begin", lang, "begun", "begun.requests")
    request = it.run("tail", "-n", "1", "begun.requests")[0]
    (it.folder / "begun.last").write_text(request)
    reply = it.run("office", "send", "--port", it.port, "--file", "begun.last", "--tries", "3")[0]
    wanted = '422 {"refusal":"limit","rule":17}\n' if it.is_full else f'200 {{"loaded":{counted(it.export(it.worked))},"missing":0,"obsolete":0}}\n'
    it.same(f"{lang} begins", reply, wanted)
    if not it.is_full:
        it.langs.append(lang)
    return f"{lang}: {reply.strip()}"


def suggested(it, lang, *words):
    """How many suggestions a tool sends for a language; a second run sends none of them."""
    first, second = (it.run(*words, status=None)[0] for _ in range(2))
    sent = [re.findall("^suggested: (.*)", out, re.M) for out in (first, second)]
    before = re.findall("^suggested before: (.*)", second, re.M)
    it.same("a second run", (set(sent[0]) & set(sent[1]), len(before)), (set(), len(sent[0])))
    return len(sent[0])


def remembers(it):
    """office-memory suggests for messages that the next release changed; a second run sends none of them"""
    total = 0
    for lang in sorted(it.langs, key=lambda lang: len(it.untranslated(lang)))[:3] + [it.uploaded]:
        total += suggested(it, lang, "office-memory", *it.at, "--caller", "memory", lang)
    return f"{total} suggestions"


def suggests(it):
    """office-suggest has a command translate, apertium where it is there; a second run sends none of them"""
    lang = "es" if shutil.which("apertium") and "es" in it.langs and it.untranslated("es") else max(it.langs, key=lambda one: min(len(it.untranslated(one)), 20))
    command = "apertium -u eng-spa" if lang == "es" and shutil.which("apertium") else "rev"
    count = suggested(it, lang, "office-suggest", *it.at, "--caller", "machine", "--command", command, "--most", "4", lang)
    return f"{count} suggestions for {lang} by {command}"


def checks(it):
    """office-check tells what msgfmt, pofilter and i18nspector find; what msgfmt finds is what it says by hand"""
    langs = [it.worked, it.uploaded]
    told = it.run("office-check", *it.at, "--json", *langs)[0]
    found = {one["lang"]: one["findings"] for one in map(json.loads, told.split("\n")[:-1])}
    for lang in langs:
        (it.folder / "checked.po").write_bytes(it.export(lang))
        said = subprocess.run(["msgfmt", "-c", "-o", os.devnull, "checked.po"], cwd=it.folder, capture_output=True, check=False, env={**os.environ, "LC_ALL": "C.UTF-8"}).stderr.decode()
        it.same(f"{lang}: msgfmt's", len([one for one in found[lang] if one["tool"] == "msgfmt"]), len(re.findall(r"^checked\.po:\d+: ", said, re.M)))
    tools = collections.Counter(one["tool"] for findings in found.values() for one in findings)
    return ", ".join(f"{tool} {count}" for tool, count in sorted(tools.items())) or "nothing"


# ---- the release


def logs(it):
    """office-log tells who did what, behind an office that was stopped by a signal as the tool says itself"""
    told = it.run("office-log", it.db, status=None)[1]
    it.same("what it says", "open and close the office once, by `office export`" in told or not told, True)
    it.run("office", "export", "--store", it.db, "--lang", it.worked)
    lines = it.run("office-log", it.db)[0].split("\n")[:-1]
    done = collections.Counter(line.split("\t")[1] for line in lines if line.split("\t")[2] == "translate" and line.endswith("done"))
    wanted = sum(len(keys) for keys in it.acted.values()) - it.suggested_by_guest + bool(it.both)
    it.same("ann's translations", done["ann"], wanted)
    return f"{len(lines)} acts, {done['ann']} translations of ann's"


def exports_release(it):
    """office-export: msgfmt -c takes each file, its header names who translated, and msgmerge finds nothing to change in it"""
    out = it.run("office-export", "--store", it.db, "--people", "people", "--no-person", "git", "--msgcat", "--mo", "release")[0]
    it.same("written", out, f"{len(it.langs)} written, 0 not\n")
    pot = it.folder / "new.pot"
    pot.write_bytes(utf8(next(it.new.glob("*.pot"))))
    for lang in it.langs:
        path = it.folder / "release" / f"{lang}.po"
        real_projects.tool("msgfmt", "-c", "-o", os.devnull, str(path))
        merged = real_projects.tool("msgmerge", "-q", "--previous", "--no-fuzzy-matching", "--no-wrap", str(path), str(pot))
        it.same(f"{lang}: msgmerge changes", sorted(set(real_projects.entries(merged)[1]) ^ set(real_projects.entries(path.read_bytes())[1])), [])
        header = real_projects.on_file(path.read_bytes(), "msgcat", "--no-wrap", "FILE").decode().split("\n\n")[0]
        it.same(f"{lang}: names ann", '"Last-Translator: Ann Example <ann@example.org>\\n"' in header, bool(it.acted[lang]) or lang in (it.both or ())[:1])
    it.same("compiled", sorted(path.name for path in (it.folder / "release").glob("*.mo")), sorted(f"{lang}.mo" for lang in it.langs))
    return out.strip()


def pushes_again(it):
    """office-git push: the next release has what the office says"""
    told = office_git(it, "push")
    it.same("nothing was left", [line for line in told if line.startswith("not ")], [])
    it.same("once more", office_git(it, "push"), ["nothing has changed"])
    in_repository(it, told)
    return told[-1]


def sent_again(it):
    """all requests that were imported are delivered once more: each gets its reply, and nothing is otherwise"""
    with it.served():
        before = {lang: it.export(lang) for lang in it.langs}
    replies = it.run("office", "deliver", "--store", it.db, given=it.requests.read_bytes())[0]
    it.same("the replies", replies, it.replies)
    with it.served():
        it.same("the exports", {lang: it.export(lang) for lang in it.langs} == before, True)
    return f"{len(replies.splitlines())} replies"


STEPS = [reads, imports, delivers, [team, exports, counts], repository, [translates, uploads], pushes, [both_change], next_release]
STEPS += [[begins, remembers, suggests, checks], pushes_again, logs, exports_release, sent_again]


def installs(clone, prefix, program):
    """git clone, make install"""
    for words in (["git", "clone", "-q", TOP, clone], ["make", "-s", "-C", clone, "install", f"PREFIX={prefix}", f"PROGRAM={program}"]):
        subprocess.run([str(it) for it in words], check=True, capture_output=True)
    return subprocess.run([prefix / "bin" / "office", "--version"], check=True, capture_output=True, text=True).stdout.strip()


def processor_time():
    """What programs that have ended took of processors, in seconds."""
    used = resource.getrusage(resource.RUSAGE_CHILDREN)
    return used.ru_utime + used.ru_stime


def timed(rows, project, step, *given):
    """Runs a step, tells it and what was wrong, and keeps whether anything was."""
    begun, used, faults = time.monotonic(), processor_time(), getattr(given[0], "faults", [])
    faults.clear()
    try:
        told = step(*given)
    except (Wrong, real_projects.Wrong, subprocess.SubprocessError, OSError, LookupError, ValueError, TypeError) as why:
        told = "-"
        faults.append(f"{type(why).__name__}: {why}")
    rows.append(bool(faults))
    took = f"{time.monotonic() - begun:.1f} | {processor_time() - used:.1f}"
    print(f"| {project} | {step.__doc__} | {took} | {told} |", flush=True)
    for fault in faults:
        print(f"WRONG: {fault[:1000]}", flush=True)


def main(words):
    parser = argparse.ArgumentParser(description=__doc__, formatter_class=argparse.RawDescriptionHelpFormatter)
    parser.add_argument("--program", type=pathlib.Path, default=real_projects.BUILT)
    parser.add_argument("--store", type=pathlib.Path, default=pathlib.Path(tempfile.gettempdir()))
    parser.add_argument("--suites", default="bookworm,trixie")
    parser.add_argument("packages", nargs="+", metavar="PACKAGE")
    given = parser.parse_args(words)
    # (what serves is ended then too)
    signal.signal(signal.SIGTERM, lambda *_: sys.exit(1))
    rows = []
    with tempfile.TemporaryDirectory(prefix="office-trial-") as name:
        folder = pathlib.Path(name)
        print("| Project | Step | Seconds | Of processors | Came out |\n|---|---|---|---|---|")
        timed(rows, "", installs, folder / "clone", folder / "office", given.program.resolve())
        for package in given.packages:
            it = Trial(package, given.suites.split(","), given.store.resolve(), folder / package, folder / "office")
            for step in STEPS:
                with it.served() if isinstance(step, list) else contextlib.nullcontext():
                    for one in step if isinstance(step, list) else [step]:
                        timed(rows, package, one, it)
    print(f"{len(rows)} steps, {sum(rows)} wrong")
    return 1 if any(rows) else 0


if __name__ == "__main__":
    sys.exit(main(sys.argv[1:]))
