#!/usr/bin/env python3
"""Tries the way from a repository into an office and back: office-export, office-git, and what office-import and office-upload say of limits,
new languages, certificates and rates.

    tests/release.py [PROGRAM [PART..]]      (crates/cli/out/cli, as ./office has built it; wants GNU gettext, git, sshd, openssl, apt-get, the network)

Exports are compared with what `office export` prints and GNU gettext makes of it; who made them with the list of the requests that were sent.
office-git stands between a served office and bare repositories, by file and by ssh, with three releases of Debian's psmisc; it is killed behind
each command of git that it runs, and before and behind each message to the office, and run again: each change has to be there once.
Prints what is otherwise than it should be, and last `N looks, M wrong`; the status is 1 if anything was.
"""
import contextlib
import hashlib
import http.client
import http.server
import json
import os
import pathlib
import re
import shutil
import signal
import socketserver
import ssl
import subprocess
import sys
import tarfile
import tempfile
import threading
import time

WORDS = sys.argv[2:]
sys.argv[2:] = []

import front_servers
import looks
import real_projects
import tools
from looks import HOST, free_port, number, same
from serve import PROGRAM, SECONDS, TOP, run
from tools import EXAMPLE, HEADER, HELLO, RULE, act, ask, at, at_time, records, replies, room, served, tool, view

STORE = pathlib.Path(tempfile.gettempdir()) / "office-real-projects"
ENVIRONMENT = {**tools.ENVIRONMENT, "GIT_CONFIG_GLOBAL": "/dev/null", "GIT_CONFIG_NOSYSTEM": "1"}
NO_ARGUMENT, SANITY, UNKNOWN, NUMERIC = tools.NO_ARGUMENT, tools.SANITY, tools.UNKNOWN, tools.NUMERIC
PEOPLE = "# who they are\nAnn Example <ann@example.org> ann\nBea Ö. Beispiel <bea@example.org> <bea>\n"
REPORT = '"Project-Id-Version: popt 1.19\\n"'


def command(*words, given=None, folder=None, environment=None):
    """What another program than ours prints of these bytes."""
    done = subprocess.run(
        [str(it) for it in words], input=given, capture_output=True, check=False, cwd=folder, timeout=SECONDS, env={**ENVIRONMENT, **(environment or {})}
    )
    if done.returncode:
        raise SystemExit(f"{' '.join(map(str, words))}: {done.stderr.decode(errors='replace')}")
    return done.stdout.decode().removesuffix("\n")


def fields_of(text):
    """The fields of a header, as msgexec prints its string."""
    block = command("msgcat", "--no-wrap", "--force-po", "-", given=text.encode()).split("\n\n")[0]
    lines = re.findall(r'^"(.*)\\n"$', block, re.M)
    return dict(it.split(": ", 1) for it in lines if ": " in it)


def without_header(text):
    """A catalogue as gettext lays it out, without its header."""
    return command("msgcat", "--no-wrap", "--force-po", "-", given=text.encode()).split("\n\n", 1)[1]


# ---- office-export


def sent(folder):
    """An office in a file: popt's German and French, with acts at known times. Returns its file."""
    flags = {"reviews": True, "guests_suggest": True, "voting": True, "accept_at": 2, "placeholders": False, "line_ends": False}
    french = (EXAMPLE / "de.po").read_text().replace("Language: de", "Language: fr").replace("Robert Scheck", "Jean Dupont")
    acts = [
        {"act": "template", "po": (EXAMPLE / "popt.pot").read_text().replace("charset=CHARSET", "charset=UTF-8")},
        *({"act": "language", "lang": lang, "po": text} for lang, text in (("de", (EXAMPLE / "de.po").read_text()), ("fr", french))),
        *({"act": "team", "name": name, "role": "translator"} for name in ("ann", "bea", "machine")),
        {"act": "policy", **flags},
    ]
    path = tools.new_office(folder, acts)
    suggestion, other = at_time("2024-03-01T10:00:00+00:00", 21), at_time("2024-03-02T10:00:00+00:00", 22)
    lines = [
        ("ann", at_time("2023-12-31T23:59:00+00:00", 20), {"act": "translate", "id": NO_ARGUMENT, "forms": ["Option hat kein Argument"], "seen": 1}),
        ("bea", suggestion, {"act": "suggest", "id": SANITY, "forms": ["Unstimmig"], "seen": 1}),
        ("machine", other, {"act": "suggest", "id": UNKNOWN, "forms": ["Kennt keiner"], "seen": 1}),
        ("ann", at_time("2024-03-03T10:00:00+00:00", 23), {"act": "accept", "id": UNKNOWN, "suggestion": other, "seen": 1}),
        ("ann", at_time("2024-03-04T10:30:00+00:00", 24), {"act": "vote", "id": SANITY, "suggestion": suggestion, "value": 1, "seen": 1}),
        ("root", at_time("2024-03-05T10:30:00+00:00", 25), {"act": "approve", "id": SANITY, "seen": 2}),
    ]
    told = replies(path, [{**fields, "lang": "de", "caller": caller, "number": it} for caller, it, fields in lines])
    same("what was sent", [it[:3] for it in told], ["200"] * len(lines))
    return path


def opened_once(folder):
    """A program that counts how often it is run, and runs the office."""
    it = folder / "counting"
    it.write_text(f'#!/bin/sh\necho "$1" >> "{folder}/runs"\nexec "{PROGRAM}" "$@"\n')
    it.chmod(0o755)
    return it


def exports(folder):
    """From a file, with one opening: the header is the template's and the last translators', the rest what the office says."""
    path, out = sent(folder), folder / "out"
    people = folder / "people"
    people.write_text(PEOPLE)
    said = {lang: run("export", "--store", path, "--lang", lang)[1] for lang in ("de", "fr")}
    before = {it.name: hashlib.sha256(it.read_bytes()).hexdigest() for it in path.parent.iterdir()}
    words = ["--store", path, "--office", opened_once(folder), "--people", people, "--mo", out]
    same("export", tool("office-export", *words), (0, "2 written, 0 not\n", ""))
    same("export: one opening", (folder / "runs").read_text(), "serve\n")
    same("export: the file is as it was", {it.name: hashlib.sha256(it.read_bytes()).hexdigest() for it in path.parent.iterdir()}, before)
    same("export: files", tools.files_in(out), {"LINGUAS", "de.po", "de.mo", "fr.po", "fr.mo"})
    same("export: LINGUAS", (out / "LINGUAS").read_text(), "de\nfr\n")
    texts = {lang: (out / f"{lang}.po").read_text() for lang in said}
    for lang, text in texts.items():
        same(f"export: {lang}", without_header(text), without_header(said[lang]))
        same(f"export: {lang}, msgfmt", subprocess.run(["msgfmt", "-c", "-o", "-", out / f"{lang}.po"], capture_output=True, check=False).stdout, (out / f"{lang}.mo").read_bytes())
    headers(texts, said)
    no_person(folder, path, people)
    served_exports(folder, path, people, texts)
    written(folder, path, people, said)


def headers(texts, said):
    """Whom the headers name: in German bea, whose suggestion was accepted last; in French nobody, since nobody acted there."""
    was, now = fields_of(said["de"]), fields_of(texts["de"])
    wanted = {
        **was,
        "Project-Id-Version": "popt 1.19",
        "PO-Revision-Date": "2024-03-04 10:30+0000",
        "Last-Translator": "Bea Ö. Beispiel <bea@example.org>",
        "X-Generator": "Hirthusk",
    }
    same("export: the header", now, wanted)
    same("export: the fields' order", list(now), list(was))
    lines = [it for it in texts["de"].split("\n\n")[0].split("\n") if it.startswith("#")]
    old = [it for it in said["de"].split("\n\n")[0].split("\n") if it.startswith("#")]
    same("export: the lines of translators", lines, [*old, "# Ann Example <ann@example.org>, 2023, 2024.", "# Bea Ö. Beispiel <bea@example.org>, 2024."])
    same("export: nobody acted", fields_of(texts["fr"]), {**fields_of(said["fr"]), "Project-Id-Version": "popt 1.19", "X-Generator": "Hirthusk"})


def no_person(folder, path, people):
    """Who is no person isn't named: ann is then, by whose vote bea's suggestion was accepted, and nobody where neither is one."""
    words = ["office-export", "--store", path, "--office", PROGRAM, "--people", people, "--lang", "de"]
    said = fields_of(run("export", "--store", path, "--lang", "de")[1])
    for named, translator in ((["bea"], "Ann Example <ann@example.org>"), (["bea", "ann"], said["Last-Translator"])):
        out = folder / f"without-{len(named)}"
        same("no person", tool(*words, *(word for it in named for word in ("--no-person", it)), out), (0, "1 written, 0 not\n", ""))
        text = (out / "de.po").read_text()
        same(f"no person: {named}", (fields_of(text)["Last-Translator"], [it for it in named if f"<{it}@" in text]), (translator, []))


def served_exports(folder, path, people, texts):
    """From a served office with the log of its file the same comes; without one nobody is named; languages come from office.json."""
    log = folder / "log"
    log.write_text(tool("office-log", "--json", path)[1])
    with served(path) as port:
        same("served", tool("office-export", *at(port), "--people", people, "--log", log, folder / "served"), (0, "2 written, 0 not\n", ""))
        same("served: the same", {lang: (folder / "served" / f"{lang}.po").read_text() for lang in texts}, texts)
        status, out, faults = tool("office-export", *at(port), folder / "none")
        same("served, languages unknown", (status, out, "name them, or give --log" in faults), (1, "", True))
        listed = {"/office.json": (200, b'{"project":"popt","languages":["fr","xx"],"domains":{"manual":["yy"]}}')}
        with relay(port, own=listed) as front:
            status, out, faults = tool("office-export", *at(front), "--tries", 2, folder / "listed")
            further = [tool("office-export", *at(front), "--tries", 2, "--domain", it, folder / it)[::2] for it in ("manual", "web")]
        same("served, by office.json", (status, out, faults), (1, "1 written, 1 not\n", "office-export: xx: no-language: the office hasn't this language\n"))
        same("served, a domain of office.json", further[0], (1, "office-export: yy: no-language: the office hasn't this language\n"))
        same("served, a domain that isn't there", (further[1][0], "name them, or give --log" in further[1][1]), (1, True))
        same("served, without a log", fields_of((folder / "listed" / "fr.po").read_text())["Last-Translator"], "Ettore Atalan <atalanttore@googlemail.com>")
        with relay(port, change=lambda text: text.replace(b"Unbekannte", b"unbekannte")) as front:
            status, out, faults = tool("office-export", *at(front), "--tries", 2, "--lang", "fr", folder / "bent")
        told = "is not the text whose digest the office told" in faults
        same("served, bent between", (status, out, told, (folder / "bent").exists()), (1, "", True, False))


def written(folder, path, people, said):
    """Layouts, lines as gettext breaks them, what msgfmt refuses, and files that are no people's."""
    words = ["--store", path, "--office", PROGRAM, "--people", people]
    layout = ["--layout", "locale/{lang}/LC_MESSAGES/{name}.po", "--name", "popt"]
    same("layout", tool("office-export", *words, *layout, "--mo", "--lang", "de", folder / "tree"), (0, "1 written, 0 not\n", ""))
    same("layout: files", tools.files_in(folder / "tree"), {f"locale/de/LC_MESSAGES/popt.{it}" for it in ("po", "mo")})
    compiled = command("msgunfmt", folder / "tree" / "locale" / "de" / "LC_MESSAGES" / "popt.mo")
    same("layout: what is compiled", f'msgid "{NO_ARGUMENT}"\nmsgstr "Option hat kein Argument"' in compiled, True)
    (folder / "wrapped").mkdir()
    (folder / "wrapped" / "LINGUAS").write_text("# languages\nfr it")
    same("msgcat", tool("office-export", *words, "--msgcat", "--lang", "de", folder / "wrapped")[0], 0)
    text = (folder / "wrapped" / "de.po").read_text()
    same("msgcat: as msgcat breaks it", command("msgcat", "-", given=text.encode()) + "\n", text)
    differing = [it for it in command("bash", "-c", f'diff "{EXAMPLE}/de.po" "{folder}/wrapped/de.po" || true').split("\n") if it[:1] in "<>"]
    # Two messages that had none and one that had one, three fields that were there, one that is broken at a width, and two lines of translators.
    same("msgcat: the first difference", len(differing), 2 * 3 + 2 * 4 + 2)
    same("msgcat: LINGUAS is added to", (folder / "wrapped" / "LINGUAS").read_text(), "# languages\nfr it\nde\n")
    unfit(folder, path, words)
    for line in ("Ann Example ann", "Ann <ann@example.org>", "<ann@example.org> ann", "Ann <ann@example.org> Ann", "A\x1b[1m <a@example.org> ann"):
        people.write_text(f"\n{line}\n")
        status, out, faults = tool("office-export", *words, folder / "nobody")
        same(f"people: {line!r}", (status, out, f"{people}: line 2 is no person" in faults, (folder / "nobody").exists()), (1, "", True, False))


def unfit(folder, path, words):
    """A translation that msgfmt -c refuses: the language is named, and the file that is there stays."""
    (folder / "kept").mkdir()
    (folder / "kept" / "de.po").write_text("as it was\n")
    bad = {"act": "translate", "lang": "de", "id": "option type (%u) not implemented in popt\n", "forms": ["Optionstyp (%s)\n"], "seen": 1}
    same("unfit", [it[:3] for it in replies(path, [{**bad, "caller": "ann", "number": number(1)}])], ["200"])
    status, out, faults = tool("office-export", *words, folder / "kept")
    same("unfit: told", (status, out, faults.startswith("office-export: de: msgfmt: ")), (1, "1 written, 1 not\n", True))
    same("unfit: what was there", ((folder / "kept" / "de.po").read_text(), tools.files_in(folder / "kept")), ("as it was\n", {"LINGUAS", "de.po", "fr.po"}))


class Relay(http.server.BaseHTTPRequestHandler):
    """A server between a tool and an office, which may answer by itself, change texts, or stop the tool."""

    def pass_on(self):
        server = self.server
        body = self.rfile.read(int(self.headers.get("Content-Length", 0)))
        server.taken += 1
        if self.path in server.own:
            self.answer(*server.own[self.path], {})
            return
        if server.step("before"):
            # (whoever asked is gone, and the message with it)
            self.close_connection = True
            return
        client = http.client.HTTPConnection(HOST, server.office, timeout=SECONDS)
        headers = {name: self.headers[name] for name in ("X-Office-Caller", "Content-Type") if name in self.headers}
        client.request(self.command, self.path, body or None, {**headers, "Connection": "close"})
        reply = client.getresponse()
        text = reply.read()
        client.close()
        server.step("behind")
        with contextlib.suppress(OSError):
            self.answer(reply.status, server.change(text), {name: value for name, value in reply.headers.items() if name.startswith("X-")})

    def answer(self, status, text, headers):
        self.send_response(status)
        for name, value in {**headers, "Content-Length": str(len(text))}.items():
            self.send_header(name, value)
        self.end_headers()
        self.wfile.write(text)

    do_GET = do_POST = pass_on

    def log_message(self, *_):
        pass


@contextlib.contextmanager
def relay(office, own=None, change=lambda text: text, step=lambda _: None, tls=None, came=None):
    """The port of a server in front of an office; `came` gets an entry for each connection."""
    server = http.server.ThreadingHTTPServer((HOST, 0), Relay)
    server.office, server.own, server.change, server.step, server.taken = office, own or {}, change, step, 0
    server.handle_error = lambda *_: None
    if came is not None:
        accept = server.get_request
        server.get_request = lambda: came.append(True) or accept()
    if tls:
        server.socket = tls.wrap_socket(server.socket, server_side=True)
    threading.Thread(target=server.serve_forever, daemon=True).start()
    try:
        yield server.server_address[1]
    finally:
        server.shutdown()
        server.server_close()


# ---- office-git


class Project:
    """A bare repository with popt's German, a clone of it for office-git, and one in which upstream works."""

    def __init__(self, folder, files, url=None):
        self.bare, self.clone, self.work = folder / "bare.git", folder / "clone", folder / "work"
        command("git", "init", "-q", "--bare", "-b", "main", self.bare)
        command("git", "clone", "-q", self.bare, self.work)
        for clone, name in ((self.work, "Upstream"),):
            self.named(clone, name)
        command("git", "checkout", "-q", "-b", "main", folder=self.work)
        self.upstream(files, "the first", pull=False)
        command("git", "clone", "-q", url or self.bare, self.clone)
        self.named(self.clone, "Office")

    def named(self, clone, name):
        command("git", "config", "user.name", name, folder=clone)
        command("git", "config", "user.email", f"{name.lower()}@example.org", folder=clone)

    def upstream(self, files, message, pull=True):
        """A commit of upstream's, pushed."""
        if pull:
            command("git", "pull", "-q", "--rebase", "origin", "main", folder=self.work)
        for path, text in files.items():
            (self.work / path).parent.mkdir(parents=True, exist_ok=True)
            (self.work / path).write_text(text)
        command("git", "add", "-A", folder=self.work)
        command("git", "commit", "-q", "-m", message, folder=self.work)
        command("git", "push", "-q", "origin", "main", folder=self.work)

    def file(self, path, commit="main"):
        return command("git", "show", f"{commit}:{path}", folder=self.bare) + "\n"

    def log(self, form, *more):
        return command("git", "log", f"--format={form}", *more, "main", folder=self.bare).split("\n")

    def ours(self):
        """The commits that office-git made, the last first."""
        return self.log("%H", "--grep=^Office-Export: ", "--extended-regexp")


def git_words(port, *more):
    return [*at(port), "--caller", "git", "--tries", 2, *more]


def sync(project, port, *more, words="sync", environment=None):
    return tool("office-git", *git_words(port, *more), words, project.clone, environment={**ENVIRONMENT, **(environment or {})})


def popt_project(folder):
    return Project(folder, {"po/popt.pot": (EXAMPLE / "popt.pot").read_text(), "po/de.po": (EXAMPLE / "de.po").read_text(), "po/LINGUAS": "de\n", "README": "popt\n"})


def git_office(folder):
    """An office with git for a manager, and ann and bea, who translate."""
    path = pathlib.Path(tempfile.mkdtemp(dir=folder)) / "office.db"
    same("init", run("init", "--store", path, "--manager", "git")[0], 0)
    team = [{"act": "team", "name": it, "role": "translator", "caller": "git", "number": number(800 + n)} for n, it in enumerate(("ann", "bea"))]
    same("the team", [it[:3] for it in replies(path, team)], ["200"] * 2)
    return path


def translated(text, msgid, forms):
    """A PO text in which a message of one line has another translation."""
    found = re.search(rf"^msgid {re.escape(json.dumps(msgid))}\nmsgstr \".*\"$", text, re.M)
    return text[: found.start()] + f"msgid {json.dumps(msgid)}\nmsgstr {json.dumps(forms, ensure_ascii=False)}" + text[found.end() :]


def translate(port, caller, msgid, text):
    """An act of a translator's, now."""
    unit = view(port, msgid)
    made = f"{time.time_ns() // 1_000_000:012x}"
    it = f"{made[:8]}-{made[8:]}-7{os.urandom(2).hex()[1:]}-8{os.urandom(2).hex()[1:]}-{os.urandom(6).hex()}"
    status, body = ask(port, "POST", f"/v1/requests/{it}", caller, {"act": "translate", "lang": "de", "id": msgid, "forms": [text], "seen": unit["revision"]})
    same(f"an act of {caller}'s", status, 200)


def pulls_and_pushes(folder):
    """There and back, with names; what both changed; a role that is missing; a branch that moves on."""
    project, path = popt_project(folder), git_office(folder)
    (folder / "people").write_text(PEOPLE)
    with served(path) as port:
        same("pull", sync(project, port, words="pull"), (0, "taken: the template\ntaken: de\n2 taken\n", ""))
        same("pull, again", sync(project, port, words="pull"), (0, "nothing has changed\n", ""))
        same("push of nothing", sync(project, port, words="push"), (0, "nothing has changed\n", ""))
        translate(port, "ann", NO_ARGUMENT, "Option hat kein Argument")
        both_changed(project, port)
        moving(project, port)
        roles(project, port)
    named_commits(folder, project, path)


def both_changed(project, port):
    """Upstream changes one message that another changed in the office, and one that nobody did."""
    text = translated(project.file("po/de.po"), NO_ARGUMENT, "Option ohne Argument")
    project.upstream({"po/de.po": translated(text, UNKNOWN, "Option ist unbekannt")}, "German")
    status, out, faults = sync(project, port, words="push")
    same("push before a pull", (status, out, "po/de.po was changed since the last pull: pull first" in faults), (1, "", True))
    wanted = f'conflict: de "{NO_ARGUMENT}" (the office\'s text stands, upstream\'s is suggested)\ntaken: de "{UNKNOWN}"\n'
    status, out, faults = sync(project, port, words="pull")
    same("both changed", (status, out, faults), (1, wanted + "1 conflict, 1 taken\n", ""))
    found = view(port, NO_ARGUMENT)
    suggested = [(it["suggester"], it["forms"]) for it in found["suggestions"]]
    same("both changed: the office's stands", (found["forms"], suggested), (["Option hat kein Argument"], [("git", ["Option ohne Argument"])]))
    same("both changed, again", sync(project, port, words="pull"), (0, "nothing has changed\n", ""))
    status, out, _ = sync(project, port, words="push")
    same("both changed: pushed", (status, out.split()[:2], len(project.ours())), (0, ["pushed:", "de"], 1))
    text = project.file("po/de.po")
    same("both changed: upstream has both", (f'"{UNKNOWN}"\nmsgstr "Option ist unbekannt"' in text, f'"{NO_ARGUMENT}"\nmsgstr "Option hat kein Argument"' in text), (True, True))
    same("pushed: but for the header what the office says", without_header(text), without_header(ask(port, "GET", "/v1/export/de")[1]))
    same("pushed: nothing comes back", sync(project, port), (0, "nothing has changed\n", ""))
    shutil.rmtree(project.clone)
    command("git", "clone", "-q", project.bare, project.clone)
    project.named(project.clone, "Office")
    same("a new clone", sync(project, port)[1:], ("taken: the template\n1 taken\n", ""))


def moving(project, port):
    """The branch moves on between the look at it and the push: where it is another file, we go on; where it is ours, it is told."""
    place = project.clone.parent
    for files, taken in (({"README": "popt is new\n"}, True), ({"po/de.po": None}, False)):
        translate(port, "ann", NUMERIC, f"Zahl {len(files)}{taken}")
        text = translated(project.file("po/de.po"), SANITY, "Unstimmig")
        first = {path: it or text for path, it in files.items()}
        count = len(project.ours())
        status, out, faults = sync(project, port, environment=wrapped(place, "push", lambda: None, project, first))
        same(f"moving, {list(files)}", (status, len(project.ours()) - count, "pull first" in faults), (0, 1, False) if taken else (1, 0, True))
        same("moving: upstream's is there", project.log("%s", "--grep=meanwhile").count("meanwhile"), 1 if taken else 2)
    same("moving: the next run", (sync(project, port)[0], len(project.ours()) - count), (0, 1))
    same("moving: upstream's change is in the office", view(port, SANITY)["forms"], ["Unstimmig"])


def wrapped(place, word, _, project, files):
    """An environment in which git has upstream push these files before its first command of a word."""
    bin_folder = pathlib.Path(tempfile.mkdtemp(dir=place))
    copies = []
    for n, (path, text) in enumerate(files.items()):
        (bin_folder / f"file{n}").write_text(text)
        copies.append(f'cp "{bin_folder}/file{n}" "{project.work}/{path}"')
    real = shutil.which("git")
    (bin_folder / "git").write_text(
        f"""#!/bin/sh
if [ "$3" = {word} ] && [ ! -e "{bin_folder}/done" ]; then
  touch "{bin_folder}/done"
  ( cd "{project.work}" && {real} pull -q --rebase origin main && {" && ".join(copies)} && {real} commit -q -a -m meanwhile && {real} push -q origin main ) > /dev/null 2>&1
fi
exec {real} "$@"
"""
    )
    (bin_folder / "git").chmod(0o755)
    return {"PATH": f"{bin_folder}:{os.environ['PATH']}"}


def roles(project, port):
    """A caller without a role: told, and when it has one the same is sent anew."""
    project.upstream({"po/de.po": translated(project.file("po/de.po"), UNKNOWN, "Fremde Option")}, "German again")
    words = [*at(port), "--caller", "zoe", "--tries", 2, "pull", project.clone]
    for turn in range(2):
        status, out, faults = tool("office-git", *words)
        same(f"no role, {turn}", (status, out, "role: the caller's role doesn't allow it: a manager gives it a role" in faults), (1, "", True))
    same("no role: the unit", view(port, UNKNOWN)["forms"], ["Option ist unbekannt"])
    act(port, 700, "git", act="team", name="zoe", role="translator")
    same("a role", tool("office-git", *words), (0, f'taken: de "{UNKNOWN}"\n1 taken\n', ""))
    act(port, 701, "git", act="team", name="zoe", role="guest")


def named_commits(folder, project, path):
    """From the file: the commit is by the one who wrote most, and names the others, since the last one of the language alone."""
    unit = {"lang": "de", "caller": "ann"}
    times = [f"2026-11-2{n}T10:00:00+00:00" for n in range(5)]
    view_of = {}
    with served(path) as port:
        for msgid in (NO_ARGUMENT, SANITY, NUMERIC):
            view_of[msgid] = view(port, msgid)["revision"]
    lines = [
        {**unit, "act": "translate", "id": SANITY, "forms": ["Nicht stimmig"], "seen": view_of[SANITY], "number": at_time(times[0], 41)},
        {**unit, "act": "translate", "id": NUMERIC, "forms": ["Keine Zahl"], "seen": view_of[NUMERIC], "number": at_time(times[1], 42)},
        {**unit, "act": "translate", "id": NO_ARGUMENT, "forms": ["Ohne Argument"], "seen": view_of[NO_ARGUMENT], "caller": "bea", "number": at_time(times[2], 43)},
        {**unit, "act": "comment", "id": NO_ARGUMENT, "lines": ["gut"], "seen": view_of[NO_ARGUMENT] + 1, "caller": "git", "number": at_time(times[3], 44)},
    ]
    same("named: acts", [it[:3] for it in replies(path, lines)], ["200"] * 4)
    words = ["--store", path, "--office", PROGRAM, "--caller", "git", "--people", folder / "people", "--msgcat", "--message", "po: {lang} by its translators"]
    status, out, faults = tool("office-git", *words, "sync", project.clone, environment=ENVIRONMENT)
    same("named", (status, out.split()[:2], faults), (0, ["pushed:", "de"], ""))
    body = command("git", "log", "-1", "--format=%an <%ae>%n%cn%n%B", "main", folder=project.bare).strip().split("\n")
    blob = command("git", "rev-parse", "main:po/de.po", folder=project.bare)
    wanted = ["Ann Example <ann@example.org>", "Office", "po: de by its translators", "", "Co-authored-by: zoe <>"]
    wanted += ["Co-authored-by: Bea Ö. Beispiel <bea@example.org>", f"Office-Export: {blob}", f"Office-Record: {at_time(times[3], 44)}"]
    same("named: the commit", body, wanted)
    same("named: the header", fields_of(project.file("po/de.po"))["Last-Translator"], "Bea Ö. Beispiel <bea@example.org>")
    same("named, again", tool("office-git", *words, "sync", project.clone, environment=ENVIRONMENT), (0, "nothing has changed\n", ""))
    seen = revision_of(path, UNKNOWN)
    line = {**unit, "act": "translate", "id": UNKNOWN, "forms": ["?"], "seen": seen, "caller": "bea", "number": at_time(times[4], 45)}
    same("named: another's alone", [it[:3] for it in replies(path, [line])], ["200"])
    same("named: once more", tool("office-git", *words, "push", project.clone, environment=ENVIRONMENT)[0], 0)
    form = ["--format=%an%n%ad%n%(trailers:key=Co-authored-by)", "--date=format:%F %T"]
    last = command("git", "log", "-1", *form, "main", folder=project.bare).strip()
    same("named: since the last", last, "Bea Ö. Beispiel\n2026-11-24 10:00:00")


def revision_of(path, msgid):
    with served(path) as port:
        return view(port, msgid)["revision"]


# ---- stopped


class Stop:
    """Kills a run of office-git behind a command of git, or before or behind a message to the office, by its place in the run."""

    def __init__(self, place, where, at_step):
        self.folder, self.where, self.at_step, self.steps, self.victim = pathlib.Path(tempfile.mkdtemp(dir=place)), where, at_step, 0, None
        real, limit = shutil.which("git"), at_step if where == "git" else 0
        (self.folder / "git").write_text(
            f"""#!/bin/sh
echo >> "{self.folder}/count"
{real} "$@"
status=$?
[ $(wc -l < "{self.folder}/count") = {limit} ] && kill -9 $PPID
exit $status
"""
        )
        (self.folder / "git").chmod(0o755)
        (self.folder / "count").touch()

    def step(self, where):
        """Counts a step, and kills the run at its own; whether it did."""
        if where != self.where:
            return False
        self.steps += 1
        if self.steps != self.at_step:
            return False
        os.kill(self.victim, signal.SIGKILL)
        return True

    def run(self, project, office):
        """Runs it; the status, and how many steps of each kind it took."""
        with relay(office, step=self.step) as port:
            words = [tools.TOOLS / "office-git", *map(str, git_words(port)), "sync", project.clone]
            environment = {**ENVIRONMENT, "PATH": f"{self.folder}:{os.environ['PATH']}"}
            with subprocess.Popen(words, stdin=subprocess.DEVNULL, stdout=subprocess.PIPE, stderr=subprocess.PIPE, env=environment) as process:
                self.victim = process.pid
                process.communicate(timeout=SECONDS)
        return process.returncode, len((self.folder / "count").read_text()), self.steps


BOTH = f'\nmsgid "{UNKNOWN}"\nmsgstr "%s"\n\nmsgid "{NUMERIC}"\nmsgstr "%s"\n'
SMALL = {"po/x.pot": HEADER % ("UTF-8", "") + BOTH % ("", ""), "po/de.po": HEADER % ("UTF-8", RULE) + BOTH % ("Unbekannt", "Zahl")}


def change_both(project, port, n):
    """What each round has: a new template and a changed message by upstream, a changed message by ann."""
    pot = SMALL["po/x.pot"] + f'\nmsgid "Added {n % 2}"\nmsgstr ""\n'
    project.upstream({"po/x.pot": pot, "po/de.po": translated(project.file("po/de.po"), UNKNOWN, f"Unbekannt {n}")}, f"round {n}")
    translate(port, "ann", NUMERIC, f"Zahl {n}")


def stopped(folder):
    """Killed between any two steps and run again: each change is in the office once, and in the repository once."""
    project, path = Project(folder, SMALL), git_office(folder)
    with served(path) as port:
        same("stopped: the beginning", sync(project, port)[0], 0)
        change_both(project, port, 0)
        whole = Stop(folder, "before", 0)
        status, commands, _ = whole.run(project, port)
        messages = whole.steps
        same("stopped: a whole run", (status, commands > 10, messages > 5), (0, True, True))
        rounds, killed = 1, 0
        for where, count in (("git", commands), ("before", messages), ("behind", messages)):
            for at_step in range(1, count + 1):
                change_both(project, port, rounds)
                status, _, _ = Stop(folder, where, at_step).run(project, port)
                killed += status == -signal.SIGKILL
                after(project, port, rounds, f"{where} {at_step}")
                rounds += 1
        same("stopped: how often", killed, commands + 2 * messages)
        print(f"office-git: killed {killed} times, behind each of {commands} commands of git, and before and behind each of {messages} messages", flush=True)
    at_last(project, path, rounds)


def after(project, port, n, what):
    """Behind a run that was killed, the next one ends, and all of the round is there."""
    done = sync(project, port)
    same(f"stopped, {what}: the next run", (done[0], done[2]), (0, ""))
    text = project.file("po/de.po")
    found = {msgid: re.search(rf'^msgid "{msgid}"\nmsgstr "(.*)"', text, re.M)[1] for msgid in (UNKNOWN, NUMERIC, f"Added {n % 2}")}
    same(f"stopped, {what}: the repository", found, {UNKNOWN: f"Unbekannt {n}", NUMERIC: f"Zahl {n}", f"Added {n % 2}": ""})
    same(f"stopped, {what}: the office", (view(port, UNKNOWN)["forms"], view(port, UNKNOWN)["suggestions"]), ([f"Unbekannt {n}"], []))
    same(f"stopped, {what}: commits", len(project.ours()), n + 1)


def at_last(project, path, rounds):
    """In the office's records each of upstream's changes stands once, and each template."""
    found = [(it[1]["act"], (it[1].get("forms") or [None])[0]) for it in records(path) if it[1]["caller"] == "git" and it[1]["act"] != "team" and it[2] == 200]
    wanted = [("template", None)] * (rounds + 1) + [("language", None)] + [("translate", f"Unbekannt {n}") for n in range(rounds)]
    same("stopped: the records", sorted(found, key=str), sorted(wanted, key=str))
    same("stopped: no refusal", [it for it in records(path) if it[2] != 200], [])
    state = [it.name for it in (project.clone / ".git" / "office").rglob("*") if it.is_file()]
    same("stopped: nothing is left", sorted(state), ["lock", "template.pot"])
    same("stopped: the clone's files", command("git", "status", "--porcelain", folder=project.clone), "")


# ---- releases of a real project, by ssh


SUITES = ("bullseye", "bookworm", "trixie")
LANGUAGES = ("de", "sv")


def psmisc(suite):
    """The template and some languages of the psmisc that a suite of Debian has, in UTF-8."""
    wanted, found = {"psmisc.pot", *(f"{it}.po" for it in LANGUAGES)}, {}
    with tarfile.open(real_projects.archive_in(suite, "psmisc", STORE.parent)) as archive:
        for it in archive.getmembers():
            name = pathlib.PurePath(it.name)
            if it.isfile() and name.parent.name == "po" and name.name in wanted:
                found[f"po/{name.name}"] = archive.extractfile(it).read().decode()
    return found


@contextlib.contextmanager
def sshd(folder):
    """A server of ssh of our own, and the words for git to reach it."""
    port, words = free_port(), ["ssh-keygen", "-q", "-t", "ed25519", "-N", "", "-f"]
    for it in ("host", "user"):
        command(*words, folder / it)
    settings = {"ListenAddress": f"{HOST}:{port}", "HostKey": folder / "host", "PidFile": folder / "pid", "StrictModes": "no", "UsePAM": "no"}
    settings["AuthorizedKeysFile"] = folder / "user.pub"
    (folder / "sshd").write_text("".join(f"{name} {value}\n" for name, value in settings.items()))
    pathlib.Path("/run/sshd").mkdir(exist_ok=True)
    with front_servers.running([front_servers.program("sshd"), "-D", "-e", "-f", folder / "sshd"], stderr=subprocess.DEVNULL) as process:
        front_servers.listening(port, process)
        yield port, f"ssh -F /dev/null -i {folder}/user -o StrictHostKeyChecking=no -o UserKnownHostsFile=/dev/null -o LogLevel=ERROR"


def histories(folder):
    """Three releases of psmisc by ssh: what upstream translated is in the office, what was translated there is in the repository."""
    place = folder / "ssh"
    place.mkdir()
    with sshd(place) as (port, words):
        ENVIRONMENT["GIT_SSH_COMMAND"] = words
        try:
            releases_of_psmisc(folder, f"ssh://{os.environ.get('USER', 'root')}@{HOST}:{port}{folder}/bare.git")
        finally:
            del ENVIRONMENT["GIT_SSH_COMMAND"]


def releases_of_psmisc(folder, url):
    texts = [psmisc(it) for it in SUITES]
    own = dict(zip(steady(texts), ("Von ann", "Auch von ann", "Nochmals")))
    project, path = Project(folder, texts[0], url), git_office(folder)
    same("psmisc: by ssh", command("git", "remote", "get-url", "origin", folder=project.clone), url)
    with served(path) as port:
        for n, files in enumerate(texts):
            for msgid in list(own)[:n]:
                # (upstream keeps what was pushed to it)
                files["po/de.po"] = translated(files["po/de.po"], msgid, own[msgid])
            if n:
                project.upstream(files, SUITES[n])
            status, out, faults = sync(project, port, "--msgcat", "--tries", 8)
            conflicts = set(re.findall(r"^conflict: (.*) \(", out, re.M))
            same(f"psmisc, {SUITES[n]}", (status, faults, re.findall("^not .*", out, re.M)), (1 if conflicts else 0, "", []))
            compared(project, port, files, n)
            msgid = list(own)[n]
            translate(port, "ann", msgid, own[msgid])
            done = sync(project, port, "--msgcat")
            same(f"psmisc, {SUITES[n]}: pushed", (done[0], done[1].split()[:2], sync(project, port, "--msgcat")), (0, ["pushed:", "de"], (0, "nothing has changed\n", "")))
            text = project.file("po/de.po")
            same(f"psmisc, {SUITES[n]}: ann's", [translated(text, it, own[it]) == text for it in list(own)[: n + 1]], [True] * (n + 1))
    acted = [(it[1]["lang"], it[1]["id"], it[1].get("ctx"), tuple(it[1]["forms"])) for it in records(path) if it[1]["caller"] == "git" and it[1]["act"] == "translate"]
    same("psmisc: each change came once", len(acted), len(set(acted)))
    same("psmisc: templates", sum(it[1]["act"] == "template" for it in records(path)), 3)
    print(f"office-git: {len(acted)} translations of upstream's in three releases of psmisc, {len(project.ours())} commits", flush=True)


def entries_of(text):
    """The translations of a text that aren't fuzzy, as gettext says, by their msgids with contexts."""
    text = command("msgattrib", "--translated", "--no-fuzzy", "--no-obsolete", "--no-wrap", "--force-po", "-", given=text.encode())
    found = {}
    for block in text.split("\n\n")[1:]:
        lines = [it for it in block.split("\n") if not it.startswith("#")]
        start = next(at for at, it in enumerate(lines) if it.startswith("msgstr"))
        found["\n".join(lines[:start])] = "\n".join(lines[start:])
    return found


def compared(project, port, files, n):
    """Each translation of upstream's whose message the template has is in the office, and the repository has what the office says."""
    template = set(entries_of_template(files["po/psmisc.pot"]))
    for lang in LANGUAGES:
        wanted = {key: it for key, it in entries_of(files[f"po/{lang}.po"]).items() if key in template}
        export = ask(port, "GET", f"/v1/export/{lang}")[1]
        office = entries_of(export)
        same(f"psmisc, {SUITES[n]}: {lang}", {key: office.get(key) for key in wanted}, wanted)
        same(f"psmisc, {SUITES[n]}: {lang} in the repository", entries_of(project.file(f"po/{lang}.po")), office)
        done = subprocess.run(["msgfmt", "-c", "-o", os.devnull, "-"], input=project.file(f"po/{lang}.po").encode(), check=False, capture_output=True)
        same(f"psmisc, {SUITES[n]}: {lang} for msgfmt", done.returncode, 0)


def entries_of_template(text):
    blocks = command("msgcat", "--no-wrap", "--force-po", "-", given=text.replace("charset=CHARSET", "charset=UTF-8").encode()).split("\n\n")[1:]
    for block in blocks:
        lines = [it for it in block.split("\n") if not it.startswith("#")]
        yield "\n".join(lines[: next(at for at, it in enumerate(lines) if it.startswith("msgstr"))])


def steady(texts):
    """Messages of the German that are the same in all releases, on a line each."""
    found = [dict(re.findall(r'^msgid "([A-Za-z :]+)"\nmsgstr "([^"\\]+)"$', it["po/de.po"], re.M)) for it in texts]
    return sorted(msgid for msgid, text in found[0].items() if all(it.get(msgid) == text for it in found))


def made(folder):
    """A template that a command makes: once for what it says, and not for when it was made."""
    script = 'date +\'msgid ""%nmsgstr "POT-Creation-Date: %s%N\\\\n"\' > po/made.pot; cat po/messages >> po/made.pot\n'
    source = {"po/make.sh": script, "po/messages": '\nmsgid "Hello"\nmsgstr ""\n'}
    project, path = Project(folder, {**source, "po/de.po": HEADER % ("UTF-8", RULE) + HELLO % "Hallo"}), git_office(folder)
    words = ["--pot", "po/made.pot", "--make-pot", "sh po/make.sh"]
    with served(path) as port:
        same("made", sync(project, port, *words, words="pull"), (0, "taken: the template\ntaken: de\n2 taken\n", ""))
        project.upstream({"README": "new\n"}, "another file")
        same("made: only the time is another", sync(project, port, *words, words="pull"), (0, "nothing has changed\n", ""))
        project.upstream({"po/messages": source["po/messages"] + '\nmsgid "Bye"\nmsgstr ""\n'}, "another message")
        same("made: another message", sync(project, port, *words, words="pull"), (0, "taken: the template\n1 taken\n", ""))
        status, out, faults = sync(project, port, "--pot", "po/made.pot", "--make-pot", "false", words="pull")
        same("made: nothing new, nothing run", (status, out, faults), (0, "nothing has changed\n", ""))
        project.upstream({"README": "newer\n"}, "another file")
        status, out, faults = sync(project, port, "--pot", "po/made.pot", "--make-pot", "false", words="pull")
        same("made: the command fails", (status, out, faults), (1, "", "office-git: false: 1\n"))
        project.upstream({"po/de.po": "no catalogue\n"}, "broken")
        status, out, faults = sync(project, port, *words, words="pull")
        same("a broken file", (status, "not taken: po/de.po (msgconv: " in out, faults), (1, True, ""))
    same("made: worktrees", command("git", "worktree", "list", folder=project.clone).count("\n"), 0)
    same("made: templates", sum(it[1]["act"] == "template" for it in records(path)), 2)


def ends_once(folder):
    """A program that runs the office, and the first time for two seconds alone."""
    it = folder / "ending"
    it.write_text(f'#!/bin/sh\n[ -e "{folder}/ended" ] && exec "{PROGRAM}" "$@"\n: > "{folder}/ended"\nexec timeout -s KILL 2 "{PROGRAM}" "$@"\n')
    it.chmod(0o755)
    return it


def slow_msgconv(folder):
    """A folder of programs whose msgconv takes three seconds."""
    (folder / "slow").mkdir()
    it = folder / "slow" / "msgconv"
    it.write_text(f'#!/bin/sh\nsleep 3\nexec "{shutil.which("msgconv")}" "$@"\n')
    it.chmod(0o755)
    return it.parent


def given_up(folder):
    """From a file whose office goes while a catalogue is read, as one does that isn't asked for a minute: it is opened again."""
    project, path = popt_project(folder), git_office(folder)
    words = ["--store", path, "--office", ends_once(folder), "--caller", "git"]
    environment = {**ENVIRONMENT, "PATH": f"{slow_msgconv(folder)}:{ENVIRONMENT.get('PATH') or os.environ['PATH']}"}
    same("given up", tool("office-git", *words, "pull", project.clone, environment=environment), (0, "taken: the template\ntaken: de\n2 taken\n", ""))
    same("given up: it ended once", (folder / "ended").exists(), True)
    same("given up: templates", sum(it[1]["act"] == "template" for it in records(path)), 1)


def new_languages(folder):
    """A language that one side alone has comes to the other, and into LINGUAS; words from a file; a second run beside."""
    project, path = popt_project(folder), git_office(folder)
    (folder / "words").write_text("# of popt\n--caller git\n--message 'New: {lang}'\n--msgcat\n")
    with served(path) as port:
        words = [*at(port), f"@{folder}/words"]
        same("new", tool("office-git", *words, "sync", project.clone, environment=ENVIRONMENT)[0], 0)
        act(port, 1, "git", act="language", lang="eo", po=HEADER % ("UTF-8", RULE) + f'\nmsgid "{UNKNOWN}"\nmsgstr "Nekonata"\n')
        project.upstream({"po/it.po": HEADER % ("UTF-8", "") + f'\nmsgid "{UNKNOWN}"\nmsgstr "Opzione"\n'}, "Italian")
        done = tool("office-git", *words, "--lang", "eo", "--lang", "it", "sync", project.clone, environment=ENVIRONMENT)
        same("new: both ways", (done[0], sorted(it.split()[1] for it in done[1].split("\n")[:-2]), done[2]), (0, ["eo", "it", "it"], ""))
        same("new: LINGUAS", project.file("po/LINGUAS"), "de\neo\nit\n")
        same("new: messages", project.log("%s")[:2], ["New: it", "New: eo"])
        same("new: Esperanto", 'msgstr "Nekonata"' in project.file("po/eo.po"), True)
        with open(project.clone / ".git" / "office" / "main" / "main" / "lock", "w") as it:
            import fcntl

            fcntl.flock(it, fcntl.LOCK_EX)
            status, out, faults = tool("office-git", *words, "sync", project.clone, environment=ENVIRONMENT)
            same("a second run", (status, out, "another run is at work there just now" in faults), (1, "", True))


def domains(folder):
    """A program and its manual in one repository and one office: each domain has a folder, and what is done in one is nothing to the other."""
    texts = {"popt.pot": (EXAMPLE / "popt.pot").read_text(), "de.po": (EXAMPLE / "de.po").read_text()}
    project, path = Project(folder, {f"{place}/{name}": text for place in ("po", "doc", "help") for name, text in texts.items()}), git_office(folder)
    own = ["--domain", "manual", "--folder", "doc"]
    taken, nothing = (0, "taken: the template\ntaken: de\n2 taken\n", ""), (0, "nothing has changed\n", "")
    with served(path) as port:
        same("domains: the manual's pull", sync(project, port, *own, words="pull"), (0, f"taken: the domain manual\n{taken[1].replace('2', '3')}", ""))
        same("domains: main has nothing", ask(port, "GET", "/v1/export/de")[0], 404)
        same("domains: main's pull", sync(project, port, words="pull"), taken)
        act(port, 2, "ann", act="translate", domain="manual", lang="de", id=UNKNOWN, forms=["unbekannt, im Handbuch"], seen=1)
        same("domains: main's sync", sync(project, port), nothing)
        done = sync(project, port, *own)
        same("domains: the manual's sync", (done[0], done[1].split()[:2], done[2]), (0, ["pushed:", "de"], ""))
        text = f'"{UNKNOWN}"\nmsgstr "unbekannt, im Handbuch"'
        same("domains: in its folder alone", [text in project.file(f"{it}/de.po") for it in ("doc", "po")], [True, False])
        same("domains: nothing comes back", (sync(project, port, *own), sync(project, port)), (nothing, nothing))
        project.upstream({"po/de.po": translated(project.file("po/de.po"), NUMERIC, "Zahl ist falsch")}, "German")
        same("domains: upstream's change of the program", (sync(project, port, *own, words="pull"), sync(project, port, words="pull")[0]), (nothing, 0))
        seen = [view(port, NUMERIC, **it)["forms"] == ["Zahl ist falsch"] for it in ({}, {"domain": "manual"})]
        same("domains: is the program's alone", seen, [True, False])
        makes_domains(project, port, taken)
    names = [it[1]["name"] for it in records(path) if it[1]["act"] == "domain" and it[2] == 200]
    same("domains: each made once", (names[:2], len(set(names)), len(names)), (["manual", "docs"], len(names), tools.told_limits()[DOMAINS] - 1))


DOMAINS = "domains of an office, `main` among them"


def makes_domains(project, port, taken):
    """A domain that is there is not told; one by who is no manager, and one too many, are, each time anew, and come with a manager or another name."""
    def pull(domain, caller="git"):
        return tool("office-git", *at(port), "--caller", caller, "--domain", domain, "--folder", "help", "pull", project.clone, environment=ENVIRONMENT)

    act(port, 3, "git", act="domain", name="docs")
    same("domains: one that is there", pull("docs"), taken)
    for turn in range(2):
        status, out, faults = pull("help", "ann")
        same(f"domains: no manager, {turn}", (status, out, "ann: role: the caller's role doesn't allow it: a manager gives it a role" in faults), (1, "", True))
    same("domains: a manager", pull("help")[:2], (0, f"taken: the domain help\n{taken[1].replace('2', '3')}"))
    for n in range(4, tools.told_limits()[DOMAINS]):
        act(port, n, "git", act="domain", name=f"d{n}")
    told = "office-git: the domain more isn't made: the office has as many as it may have, and the next run sends all anew\n"
    same("domains: one too many", [pull("more"), pull("more")], [(1, "", told)] * 2)


# ---- office-import, office-upload


def imports(folder):
    """More languages than may be: each is told once, with the limit; too long a text; languages that are begun, or there."""
    po = folder / "many"
    po.mkdir()
    (po / "x.pot").write_text(HEADER % ("CHARSET", "") + HELLO % "")
    most = tools.told_limits()["languages of a domain"]
    letters = "abcdefghijklmnopqrstuvwxyz"
    codes = [f"{a}{b}" for a in letters for b in letters][: most + 3]
    for it in codes:
        (po / f"{it}.po").write_text(HEADER % ("UTF-8", RULE) + HELLO % it)
    status, out, faults = tools.imported(po, po / "requests")
    same("many: at last", (status, out, tools.last_of(faults)), (1, "", f"{most} of {most + 3} languages, {most + 1} new requests"))
    told = [it for it in faults.split("\n")[:-2]]
    same("many: each once", told, [f"office-import: {it}: not loaded: limit: {most} languages are loaded, and a domain has no more" for it in codes[most:]])
    pulls_many(folder, {it.name: it.read_text() for it in po.glob("*.po*")}, most)
    same("many: those that are wanted", tools.last_of(tools.imported("--lang", codes[-1], "--lang", "zz", po)[2]), "1 of 2 languages, 2 new requests")
    begun(folder)


def pulls_many(folder, files, most):
    """office-git says of each language that is too much, and of one whose text is too long, which limit that is; a second run has nothing to say."""
    longest = tools.told_limits()["string, in UTF-8"]
    files = {**files, "aa.po": HEADER % ("UTF-8", RULE) + HELLO % ("x" * (longest + 1))}
    place = folder / "pulled"
    place.mkdir()
    project, path = Project(place, {f"po/{name}": text for name, text in files.items()}), git_office(place)
    with served(path) as port:
        status, out, faults = sync(project, port, words="pull")
        told = re.findall(r"^not taken: (\S+) \((.*)\)$", out, re.M)
        same("many: pulled", (status, out.count("taken: ") - out.count("not taken: "), faults), (1, most + 1, ""))
        same("many: a long one", told[:1], [("aa", f"limit: a string of its text has {longest + 1:,} bytes, and a string at most {longest:,}")])
        same("many: those left out", told[1:], [(lang, "limit: a domain has no more languages than are there: --lang names those that are wanted") for lang, _ in told[1:]])
        same("many: so many are left out", len(told), len(files) - 1 - most)
        same("many: again", sync(project, port, words="pull"), (0, "nothing has changed\n", ""))


def begun(folder):
    """Languages that begin: as msginit begins them; one without a rule, and one that is there."""
    po = folder / "begun"
    po.mkdir()
    (po / "popt.pot").write_text((EXAMPLE / "popt.pot").read_text())
    (po / "de.po").write_text((EXAMPLE / "de.po").read_text())
    status, out, faults = tools.imported("--begin", "sr", "--begin", "rw", po, po / "requests")
    rule = "office-import: rw: not loaded: its header has no Plural-Forms, and gettext knows no rule for it: --plural-forms 'rw=RULE' tells one"
    same("begin", (status, out, faults.split("\n")[:-1]), (1, "", [rule, "office-import: the template and 2 of 3 languages, 3 new requests"]))
    text = next(it["po"] for it in tools.lines_of(po / "requests") if it.get("lang") == "sr")
    made = command("msginit", "--no-translator", "-l", "sr", "-i", po / "popt.pot", "-o", "-")
    same("begin: the rule", fields_of(text)["Plural-Forms"], fields_of(made)["Plural-Forms"])
    same("begin: the header", {**fields_of(made), "Content-Type": "text/plain; charset=UTF-8"}, fields_of(text))
    same("begin: an office's", run("deliver", "--export", "sr", given="".join(json.dumps(it) + "\n" for it in tools.lines_of(po / "requests")))[1].count("200 "), 3)
    status, out, faults = tools.imported("--begin", "de", po)
    same("begin: what is there", (status, out, faults), (1, "", "office-import: --begin de: it has begun: de.po is in the folder\n"))
    (po / "de.po").write_text(translated((po / "de.po").read_text(), UNKNOWN, "Fremd"))
    faults = tools.imported(po, po / "requests")[2]
    same("a language that is there", "office-import: de: not loaded: language-exists: the language is there already: office-upload sends what has changed in it\n" in faults, True)


def uploads(folder):
    """A certificate that isn't trusted is told at once, and by which variable it is; a front that bounds the rate is heeded."""
    path, place = tools.popt_office(folder), room(folder)
    front_servers.certificate(place)
    tls = ssl.SSLContext(ssl.PROTOCOL_TLS_SERVER)
    tls.load_cert_chain(place / "certificate.pem", place / "key.pem")
    with served(path) as office:
        tools.edited(tools.exported(office, place / "export.po"), place / "de.po", tools.EDITS)
        with relay(office, tls=tls, came=(came := [])) as port:
            words = ["--url", f"https://localhost:{port}", "--caller", "ann", "de", place / "export.po", place / "de.po"]
            status, out, faults = tool("office-upload", *words)
            same("a certificate", (status, out, "localhost: its certificate isn't trusted: " in faults, "$SSL_CERT_FILE" in faults), (1, "", True, True))
            same("a certificate: at once", len(came), 1)
            same("a certificate: trusted", tool("office-upload", *words, environment={"SSL_CERT_FILE": str(place / "certificate.pem")})[:1], (0,))
        with plain() as port:
            words[1] = f"https://localhost:{port}"
            status, out, faults = tool("office-upload", *words)
            same("no TLS", (status, out, "no TLS is spoken there" in faults), (1, "", True))
        waits(place, office)
    upload_page = (TOP / "share" / "man" / "man1" / "office-upload.1").read_text()
    same("SSL_CERT_FILE is in the page", ".It Ev SSL_CERT_FILE" in upload_page, True)


@contextlib.contextmanager
def plain():
    """The port of a server that answers whatever comes as one of HTTP without TLS does."""

    class Plain(socketserver.BaseRequestHandler):
        def handle(self):
            self.request.recv(1)
            self.request.sendall(b"HTTP/1.1 400 Bad Request\r\nContent-Length: 0\r\nConnection: close\r\n\r\n")

    with socketserver.ThreadingTCPServer((HOST, 0), Plain) as server:
        threading.Thread(target=server.serve_forever, daemon=True).start()
        yield server.server_address[1]
        server.shutdown()


def waits(place, office):
    """A 429 that says when to come again: the tool comes then."""
    came = []

    class Bounded(Relay):
        def pass_on(self):
            came.append(time.monotonic())
            if len(came) in (2, 3):
                self.rfile.read(int(self.headers.get("Content-Length", 0)))
                self.answer(429, b'{"error":"rate"}', {"Retry-After": "2"})
            else:
                Relay.pass_on(self)

        do_GET = do_POST = pass_on

    with relay(office) as port:
        server_class = Bounded
        server = http.server.ThreadingHTTPServer((HOST, 0), server_class)
        server.office, server.own, server.change, server.step, server.taken = port, {}, lambda text: text, lambda _: None, 0
        threading.Thread(target=server.serve_forever, daemon=True).start()
        words = ["--url", f"http://{HOST}:{server.server_address[1]}", "--caller", "ann", "de", place / "export.po", place / "de.po"]
        same("a rate", tool("office-upload", *words)[0], 0)
        server.shutdown()
        server.server_close()
    gaps = [second - first for first, second in zip(came, came[1:])]
    same("a rate: when it came again", [1.9 < it < 60 for it in gaps[1:3]], [True, True])


# ---- office-hook


def hooks(folder):
    """A push that a forge tells of with the right secret marks its project; nothing else does."""
    body, secret = b'{"ref":"refs/heads/main","repository":{"name":"../popt"}}', "a secret of ours"
    (folder / "secrets").write_text(f"other word\npopt {secret}\n\n")
    # As GitHub's pages have it: an HMAC of the body, by openssl.
    signature = "sha256=" + command("openssl", "dgst", "-sha256", "-hmac", secret, given=body).rsplit(" ", 1)[1]
    signed = [f"X-Hub-Signature-256: {signature}"]
    length = f"Content-Length: {len(body)}"
    rows = [
        ("signed", "POST /hook/popt", [*signed, length], body, 200),
        ("a token", "POST /hook/popt", [f"X-Gitlab-Token: {secret}", length], body, 200),
        ("another project's token", "POST /hook/popt", ["X-Gitlab-Token: word", length], body, 403),
        ("another project", "POST /hook/psmisc", [*signed, length], body, 403),
        ("another body", "POST /hook/popt", [*signed, length], body.replace(b"main", b"evil"), 403),
        ("half a body", "POST /hook/popt", [*signed, length], body[:9], 403),
        ("no signature", "POST /hook/popt", [length], body, 403),
        ("an empty one", "POST /hook/popt", ["X-Gitlab-Token:", "X-Hub-Signature-256:", length], body, 403),
        ("a path", "POST /hook/../popt", [*signed, length], body, 403),
        ("no project", "POST /hook/", [*signed, length], body, 403),
        ("no length", "POST /hook/popt", signed, body, 411),
        ("too long", "POST /hook/popt", [*signed, "Content-Length: 25000001"], body, 413),
        ("a look", "GET /hook/popt", [*signed, length], body, 501),
        ("no message", "hello", [], b"", 0),
    ]
    for what, first, lines, given, wanted in rows:
        marks = pathlib.Path(tempfile.mkdtemp(dir=folder))
        head = "".join(f"{it}\r\n" for it in (f"{first} HTTP/1.1" if " " in first else first, "Host: example.org", *lines, ""))
        done = subprocess.run(
            [tools.TOOLS / "office-hook", "--secrets", folder / "secrets", "--marks", marks], input=head.encode() + given, capture_output=True, check=False, timeout=60
        )
        status = int((re.match(rb"HTTP/1\.[01] ([0-9]{3}) ", done.stdout) or [0, 0])[1])
        same(f"hook: {what}", (status, tools.files_in(marks), done.returncode), (wanted, {"popt"} if wanted == 200 else set(), 0 if wanted == 200 else 1))


PARTS = {it.__name__: it for it in (exports, imports, uploads, hooks, pulls_and_pushes, made, given_up, new_languages, domains, histories, stopped)}


def main():
    for it in WORDS or PARTS:
        with tempfile.TemporaryDirectory(prefix="office-release-") as name:
            PARTS[it](pathlib.Path(name))
    return looks.told()


if __name__ == "__main__":
    sys.exit(main())
