#!/usr/bin/env python3
"""Drives the page of share/web in a browser, through the front server of share/front and the program.

    tests/page.py [--program FILE] [--front haproxy] [--shots FOLDER] [--times] [WORD..]    (crates/cli/out/cli, as ./office has built it)

Wants Debian's chromium, openssl and nginx, or haproxy. Keys and clicks are given as a keyboard and a mouse give them. Between the front server
and the office stands a relay, which writes down every message and can lose it, lose its answer, kill the office in between, or answer in its
place. What has to come is written down here, from docs/FORMATS.md. With --shots pictures of the page are left in that folder, with words only
the cases whose names have one of them are run. Prints what is otherwise than it should be, and last `N looks, M wrong`; the status is 1 if
anything was.
"""
import argparse
import base64
import contextlib
import json
import pathlib
import re
import sqlite3
import subprocess
import sys
import tempfile
import time
import urllib.parse

import chromium
import looks
import page_office
from looks import has, same

TOP = pathlib.Path(__file__).resolve().parent.parent
PASSWORD = "a good password"
# The last is no caller's name.
LOGINS = ("root", "ann", "bea", "rob", "eve", "7up")

# What the operator tells the page, beside the project's name and languages.
TOLD = {
    "domains": {"manual": ["de"]}, "references": "https://git.example.org/sample/{file}#L{line}", "glossary": ["glossary/terms.csv", "glossary/terms.tbx"],
    "sign_out": "sign-out",
}  # fmt: skip
CSV = 'term,de,fr,note\nfile,Datei,fichier,"a <img src=x onerror=alert(1)> of ""bytes"""\nsave,speichern,,\n'
TBX = """<?xml version="1.0"?><martif type="TBX" xml:lang="en"><text><body><termEntry><descrip type="definition">What asks &amp; waits.</descrip>
<langSet xml:lang="en"><tig><term>file selector</term></tig></langSet><langSet xml:lang="de"><tig><term>Dateiauswahl</term></tig></langSet></termEntry></body></text></martif>"""

TBX_3 = """<?xml version="1.0"?><tbx type="TBX-Core" style="dca" xml:lang="en" xmlns="urn:iso:std:iso:30042:ed-2"><text><body><conceptEntry id="c1">
<descrip type="definition">What asks &amp; waits.</descrip><langSec xml:lang="en"><termSec><term>file selector</term></termSec></langSec>
<langSec xml:lang="de"><termSec><term>Dateiauswahl</term></termSec></langSec></conceptEntry></body></text></tbx>"""

# ---- the office, at first


def header(plural):
    return f'msgid ""\nmsgstr ""\n"Content-Type: text/plain; charset=UTF-8\\n"\n"Plural-Forms: {plural}\\n"\n'


TASKS = (
    "lost reply", "lost request", "offline", "reload", "draft", "two tabs", "second tab", "answers", "used", "other caller", "signed out", "stale", "guest",
    "votes", "approved", "unfit", "same", "dismissed", "full", "gone", "keys", "unread", "one step", "two steps", "a third step", "before", "role", "ballot",
    "checked by others", "Save the file?", "sent from a file", "elsewhere",
)  # fmt: skip
# In an address it takes more bytes than the office reads of a head.
LONG = "ä" * 3000
TEMPLATE = r"""
#. Shown at the start.
#: src/main.c:12
msgid "Hello"
msgstr ""

msgctxt "menu"
msgid "Open"
msgstr ""

#, c-format
msgid "%d file"
msgid_plural "%d files"
msgstr[0] ""
msgstr[1] ""

msgid "<img src=x onerror=alert(1)>"
msgstr ""

msgid ""
"first\r\n"
"second\\"
msgstr ""

#, read-only
msgid "Not for translators"
msgstr ""

#, c-format
msgid "%s: no such file\n"
msgstr ""
""" + "".join(f'\nmsgid "{it}"\nmsgstr ""\n' for it in (*TASKS, LONG))
MESSAGES = 7 + len(TASKS) + 1
LANGUAGES = {
    "de": "nplurals=2; plural=n != 1;",
    "ru": "nplurals=3; plural=n%10==1 && n%100!=11 ? 0 : n%10>=2 && n%10<=4 && (n%100<10 || n%100>=20) ? 1 : 2;",
    "ar": "nplurals=6; plural=n==0 ? 0 : n==1 ? 1 : n==2 ? 2 : n%100>=3 && n%100<=10 ? 3 : n%100>=11 ? 4 : 5;",
}
# A translation of a message that was another then.
BEFORE = '\n#, fuzzy\n#| msgid "long before"\nmsgid "before"\nmsgstr "davor"\n'
NAMES = {"de": "German", "ru": "Russian", "ar": "Arabic"}
POLICY = {"reviews": True, "guests_suggest": True, "voting": True, "accept_at": 3, "placeholders": True, "line_ends": True}
BEGINNING = [
    {"act": "template", "po": TEMPLATE},
    *({"act": "language", "lang": lang, "po": header(plural) + (BEFORE if lang == "de" else "")} for lang, plural in LANGUAGES.items()),
    *({"act": "team", "name": name, "role": role} for name, role in (("ann", "translator"), ("bea", "translator"), ("rob", "reviewer"))),
    {"act": "policy", **POLICY},
]


class PageTab(chromium.Tab):
    """A tab with the page, by somebody who is signed in."""

    def __init__(self, world, login, context=None, stays=True, asks=True):
        super().__init__(world.browser, context)
        self.at = world.at
        self.sign_in(login)
        self.go()
        self.eval(f"localStorage.setItem('office / stay', '{json.dumps(stays)}')")
        if asks:
            self.eval("location.hash = '#/de?show=all'")
            self.wait("Object.keys(localStorage).some(it => it.includes(' rights ') && (it => it.least === it.most)(JSON.parse(localStorage[it])))")
            self.go()

    def sign_in(self, login):
        word = base64.b64encode(f"{login}:{PASSWORD}".encode()).decode()
        self.call("Network.setExtraHTTPHeaders", headers={"Authorization": f"Basic {word}"} if login else {})

    def go(self):
        self.call("Page.navigate", url=self.at)
        self.wait("document.getElementById('project')?.textContent === 'Sample project'")

    def reload(self):
        self.eval("window.old = true")
        self.call("Page.reload")
        self.wait("!window.old && document.getElementById('project')?.textContent === 'Sample project'")

    def open(self, msgid, lang="de", ctx=None):
        query = urllib.parse.urlencode({"id": msgid, **({"ctx": ctx} if ctx is not None else {}), "show": "all"})
        self.eval(f"location.hash = '#/{lang}?show=all'")
        self.wait(f"document.title.endsWith({json.dumps(f'{NAMES[lang]} – Sample project')}) && document.querySelector('#translation') === null")
        self.eval(f"location.hash = {json.dumps(f'#/{lang}/unit?{query}')}")
        self.wait(f"document.getElementById('source')?.textContent.replaceAll('↵', '') === {json.dumps(msgid)}")
        self.wait_for("#translation")

    def remember(self, caller, **known):
        """What this browser takes for its caller's role and the policy; the page is loaded again."""
        self.eval(f"localStorage.setItem('office / rights {caller}', {json.dumps(json.dumps(known))})")
        self.reload()
        self.wait_for("#translation")

    def waits(self):
        """The numbers of the requests that wait in this browser."""
        return self.eval("Object.keys(localStorage).filter(it => it.includes(' request ')).map(it => it.split(' ').at(-1)).sort()")


class World:
    """What the cases have in common."""

    def __init__(self, folder, program, server, beside):
        self.folder, self.beside, self.front = folder, beside, server.name
        self.office = page_office.Office(program, folder / "office.db", BEGINNING)
        self.relay = page_office.Relay(server.socket, self.office)
        self.office.start()
        self.browser, self.at, self.tabs = chromium.Browser(folder), f"http://{page_office.HOST}:{server.port}/", {}

    def close(self):
        self.browser.close()
        self.office.kill()

    def tab(self, login):
        """One tab for each login, each in a browser of its own."""
        if login not in self.tabs:
            self.tabs[login] = PageTab(self, login)
        return self.tabs[login]


def translate(tab, msgid, text, act="translate"):
    tab.open(msgid)
    tab.fill("#form-0", text)
    tab.click(f"#{act}")


# ---- what acts once


def case_lost_reply(world):
    """The office records the act and is killed before its reply is out; then it is started again."""
    tab = world.tab("ann")
    world.relay.mode = "lose reply"
    translate(tab, "lost reply", "verlorene Antwort")
    tab.wait_text("#outbox", "1 request waits: the office doesn't answer")
    has("what waits is told", tab.text(".waiting"), "Waits for the office's reply: Translate.")
    same("acts wait for it", tab.attribute("#translate", "aria-disabled"), "true")
    [use] = tab.waits()
    same("a number of version 7", bool(re.fullmatch(r"[0-9a-f]{8}-[0-9a-f]{4}-7[0-9a-f]{3}-[89ab][0-9a-f]{3}-[0-9a-f]{12}", use)), True)
    world.office.start()
    world.relay.mode = "pass"
    tab.wait_text("#status", "Translated. The message is now: translated.")
    same("nothing waits", (tab.waits(), tab.text("#outbox")), ([], "All sent"))
    unit = world.office.unit("lost reply")
    same("once", (unit["revision"], unit["forms"], unit["state"]), (2, ["verlorene Antwort"], "translated"))
    bodies = world.relay.bodies(use)
    same("sent again, the same", (len(bodies) > 1, len(set(bodies))), (True, 1))


def case_lost_request(world):
    """The office is killed before it has read the request."""
    tab = world.tab("ann")
    world.relay.mode = "lose request"
    translate(tab, "lost request", "verlorene Anfrage")
    tab.wait_text("#outbox", "1 request waits: the office doesn't answer")
    world.office.start()
    same("not done yet", world.office.unit("lost request")["revision"], 1)
    world.relay.mode = "pass"
    tab.wait_text("#status", "Translated.")
    same("once", world.office.unit("lost request")["revision"], 2)


def case_offline(world):
    """The browser has no connection for a while."""
    tab = world.tab("ann")
    tab.open("offline")
    tab.fill("#form-0", "ohne Netz")
    tab.offline(True)
    tab.click("#translate")
    tab.wait_text("#outbox", "1 request waits: there is no connection")
    tab.offline(False)
    tab.wait_text("#status", "Translated.")
    same("once", world.office.unit("offline")["revision"], 2)


def case_reload(world):
    """The page is loaded again while a request waits and another text is only typed."""
    tab = world.tab("ann")
    tab.open("draft")
    tab.fill("#form-0", "nur getippt")
    tab.open("reload")
    world.relay.mode = "refuse"
    tab.fill("#form-0", "neu geladen")
    tab.click("#translate")
    tab.wait_text("#outbox", "1 request waits")
    [use] = tab.waits()
    tab.reload()
    same("it is still there", tab.waits(), [use])
    tab.wait_text("#outbox", "1 request waits")
    world.relay.mode = "pass"
    tab.wait_text("#outbox", "All sent")
    unit = world.office.unit("reload")
    same("once", (unit["revision"], unit["forms"]), (2, ["neu geladen"]))
    same("the same each time", len(set(world.relay.bodies(use))), 1)
    tab.open("draft")
    same("what was typed is there", tab.value("#form-0"), "nur getippt")
    has("beside what the office has", tab.text("#office-text"), "nothing")
    tab.click("#drop-draft")
    same("and can be dropped", tab.value("#form-0"), "")


def case_two_tabs(world):
    """Two tabs of a browser make a request each while the office doesn't answer. The first sends both, and both tell of the replies."""
    one = world.tab("ann")
    two = PageTab(world, "ann", one.context)
    one.open("two tabs")
    two.open("second tab")
    world.relay.mode = "refuse"
    for tab, text in ((one, "erster"), (two, "zweiter")):
        tab.fill("#form-0", text)
        tab.click("#translate")
    two.wait_text("#outbox", "2 requests wait")
    one.wait_text("#outbox", "2 requests wait")
    waiting = one.waits()
    same("both see both", (len(set(waiting)), two.waits()), (2, waiting))
    one.rest(3)
    two.offline(True)
    world.relay.mode = "pass"
    one.wait_text("#outbox", "All sent")
    two.wait_text("#outbox", "All sent")
    two.wait_text("#status", "Translated.")
    two.offline(False)
    two.click("#unit-again")
    for tab, msgid, text in ((one, "two tabs", "erster"), (two, "second tab", "zweiter")):
        unit = world.office.unit(msgid)
        same(f"{msgid}: once", (unit["revision"], unit["forms"]), (2, [text]))
        tab.wait("document.querySelector('#unit .state').innerText === 'translated'")
        same(f"{msgid}: nothing waits on it", tab.text("#unit .waiting"), "")
    for use in waiting:
        same("one content under a number", len(set(world.relay.bodies(use))), 1)
    world.relay.mode = "refuse"
    one.fill("#form-0", "erster, neu")
    one.click("#translate")
    two.wait_text("#outbox", "1 request waits")
    one.close()
    del world.tabs["ann"]
    world.relay.mode = "pass"
    two.wait_text("#outbox", "All sent")
    same("the other tab sends what a closed one left", world.office.unit("two tabs")["forms"], ["erster, neu"])
    world.tabs["ann"] = two


def case_half(world):
    """An answer that breaks off is no reply."""
    tab = world.tab("ann")
    world.relay.mode = "half"
    translate(tab, "answers", "erste")
    tab.wait_text("#status", "Translated.")
    same("once", world.office.unit("answers")["revision"], 2)


ANSWERS = (
    # What is answered, whether the request goes again by itself, and what is told.
    ((500, "text/html", "<p>fault</p>"), True, "the front server has a fault"),
    ((500, "application/json", '{"error":"refused"}'), False, "Stopped: the office's file takes no such rows; ask its operator."),
    ((502, "text/html", "<p>gone</p>"), True, "the office doesn't answer the front server"),
    ((503, "application/json", '{"error":"memory"}'), True, "the office has no memory, or is starting"),
    ((507, "application/json", '{"error":"disk"}'), True, "the office's disk failed; it has to be started again"),
    ((429, "application/json", '{"error":"rate"}'), True, "too many requests were sent in a short time"),
    ((200, "text/html", "<p>Welcome</p>"), True, "the answer wasn't the office's"),
    ((200, "application/json", "{}"), True, "the answer wasn't the office's"),
    ((404, "text/html", "<p>no</p>"), False, "Stopped: the address isn't there."),
    ((404, "application/json", '{"error":"no-route"}'), False, "Stopped: the office doesn't know the address"),
    ((403, "text/html", "<p>no</p>"), False, "Stopped: the front server forbids it."),
    ((400, "application/json", '{"error":"malformed"}'), False, "Stopped: the office didn't understand the request"),
    ((413, "application/json", '{"error":"too-large"}'), False, "Stopped: the text is longer than the front server or the office takes."),
    ((415, "application/json", '{"error":"type"}'), False, "Stopped: the front server takes no such content."),
)


def case_answers(world):
    """What is no reply of the office: the same request goes again, or is stopped and goes again when its caller says so."""
    tab = world.tab("ann")
    for n, (answer, again, words) in enumerate(ANSWERS):
        text = f"Antwort {n}"
        revision = world.office.unit("answers")["revision"]
        tab.open("answers")
        tab.eval("window.said = []; new MutationObserver(() => window.said.push(document.getElementById('requests').innerText))"
                 ".observe(document.getElementById('requests'), {childList: true, subtree: true, characterData: true})")
        world.relay.mode = answer
        tab.fill("#form-0", text)
        tab.click("#translate")
        if not again:
            tab.wait_text("#waiting", words)
            tab.rest(1)
            [use] = tab.waits()
            same(f"{answer}: not done", world.office.unit("answers")["revision"], revision)
            tab.click(f"#again-{use}")
        tab.wait_text("#status", "Translated.")
        has(f"{answer}: told", "\n".join(tab.eval("window.said")), words)
        unit = world.office.unit("answers")
        same(f"{answer}: once", (unit["revision"], unit["forms"], tab.waits()), (revision + 1, [text], []))
        if answer[0] == 429:
            same("no sooner than the answer says", world.relay.pauses()[-1] > page_office.PAUSE - 0.05, True)
    world.relay.mode = (400, "application/json", '{"error":"malformed"}')
    tab.fill("#form-0", "weggeworfen")
    tab.click("#translate")
    tab.wait_text("#waiting", "Stopped")
    [use] = tab.waits()
    tab.click(f"#discard-{use}")
    tab.wait_text("#outbox", "All sent")
    same("thrown away, and the text is kept", (tab.waits(), tab.value("#form-0")), ([], "weggeworfen"))
    tab.click("#drop-draft")


def case_too_long(world):
    """The front takes no long request of a translator: it is stopped, and goes no further."""
    tab = world.tab("ann")
    text = "ä" * 32_000 + "…"
    tab.open("%d file")
    for at in (0, 1):
        tab.fill(f"#form-{at}", text)
    tab.click("#suggest")
    tab.wait_text("#waiting", "Stopped: the text is longer than the front server or the office takes.")
    [use] = tab.waits()
    same("it didn't come through", world.relay.bodies(use), [])
    tab.click(f"#discard-{use}")
    tab.click("#drop-draft")


def case_number_used(world):
    """Somebody has used the number meanwhile: told as a fault, and the text is kept."""
    tab = world.tab("ann")
    tab.open("used")
    world.relay.mode = "refuse"
    tab.fill("#form-0", "meins")
    tab.click("#translate")
    tab.wait_text("#outbox", "1 request waits")
    [use] = tab.waits()
    same("used", world.office.act("ann", use, act="suggest", lang="de", id="used", seen=1, forms=["anders"])[0], 200)
    world.relay.mode = "pass"
    tab.wait_text("#alert", "by a fault of this page: the request's number stands for another content")
    same("kept", (tab.waits(), tab.value("#form-0")), ([], "meins"))
    tab.click("#translate")
    tab.wait_text("#status", "Translated.")
    same("done under another number", world.office.unit("used")["forms"], ["meins"])


def case_other_caller(world):
    """What waits goes only while its caller is signed in."""
    tab = PageTab(world, "ann")
    tab.open("other caller")
    world.relay.mode = "refuse"
    tab.fill("#form-0", "von ann")
    tab.click("#translate")
    tab.wait_text("#outbox", "1 request waits: the office doesn't answer")
    [use] = tab.waits()
    tab.sign_in("bea")
    tab.wait_text("#outbox", "bea is signed in now; load the page again")
    sent = len(world.relay.bodies(use))
    world.relay.mode = "pass"
    tab.reload()
    has("who is signed in", tab.text("#who"), "bea")
    has("it waits", tab.text("#waiting"), "Translate, by ann: other caller (de), waits until ann is signed in")
    tab.click("#send-now")
    tab.rest(1)
    same("not sent by bea", (len(world.relay.bodies(use)) - sent, world.office.unit("other caller")["revision"]), (0, 1))
    tab.sign_in("ann")
    tab.reload()
    tab.wait_text("#outbox", "All sent")
    same("sent by ann", (world.office.unit("other caller")["forms"], len(set(world.relay.bodies(use)))), (["von ann"], 1))
    tab.open("signed out")
    tab.sign_in("nobody")
    tab.fill("#form-0", "abgemeldet")
    tab.click("#translate")
    tab.wait_text("#outbox", "1 request waits: you aren't signed in; load the page again")
    tab.sign_in("ann")
    tab.click("#send-now")
    tab.wait_text("#status", "Translated.")
    same("signed in again", world.office.unit("signed out")["forms"], ["abgemeldet"])
    tab.close()


def case_no_name(world):
    """A login that is no caller's name may look, and is told that it can't act."""
    tab = PageTab(world, "7up", asks=False)
    words = "your login is no caller's name in this office; ask its operator"
    same("told", tab.text("#who"), words)
    translate(tab, "unread", "nichts")
    tab.wait_text("#alert", f"Nothing was sent: {words}.")
    same("nothing waits", tab.waits(), [])
    tab.close()


# ---- what callers tell one another


def case_stale(world):
    """Another caller translates meanwhile: told, both texts are kept, and the own one may be sent again."""
    tab = world.tab("ann")
    tab.open("stale")
    same("bea", world.office.act("bea", act="translate", lang="de", id="stale", seen=1, forms=["von bea"])[0], 200)
    tab.fill("#form-0", "von ann")
    tab.click("#translate")
    tab.wait_text("#alert", "Someone changed this message after you saw it.")
    same("the own text", tab.value("#form-0"), "von ann")
    has("the other text", tab.text("#office-text"), "von bea")
    has("the revision", tab.text("#unit"), "revision 2")
    tab.reload()
    tab.wait_for("#office-text")
    same("also loaded again", (tab.value("#form-0"), "von bea" in tab.text("#office-text")), ("von ann", True))
    tab.click("#translate")
    tab.wait_text("#status", "Translated. The message is now: translated.")
    unit = world.office.unit("stale")
    same("sent again", (unit["revision"], unit["forms"], tab.text("#office-text")), (3, ["von ann"], ""))


def case_guest(world):
    """A guest may only suggest."""
    tab = world.tab("eve")
    tab.open("guest")
    same("what isn't allowed isn't there", tab.eval("[...document.querySelectorAll('#unit .buttons button')].map(it => it.id)"), ["suggest"])
    tab.fill("#form-0", "Gast")
    tab.click("#suggest")
    tab.wait_text("#status", "Suggested.")
    has("it stands there", tab.text(".suggestions"), "by eve, with votes: 1")
    same("the fields are the office's again", tab.value("#form-0"), "")
    same("the office's", [(it["suggester"], it["forms"]) for it in world.office.unit("guest")["suggestions"]], [("eve", ["Gast"])])


def case_votes(world):
    """A suggestion, votes for it, against it and taken back; one that is accepted, one by votes, one dismissed, and one that is edited."""
    eve, ann = world.tab("eve"), world.tab("ann")
    for text in ("eins", "zwei", "drei"):
        translate(eve, "votes", text, "suggest")
        eve.wait_text(".suggestions", text)
    one, two, three = (it["number"] for it in world.office.unit("votes")["suggestions"])
    ann.open("votes")
    for button, words in (("for", "Voted. The sum is 2 now."), ("against", "Voted. The sum is 0 now."), ("back", "Voted. The sum is 1 now.")):
        ann.click(f"#vote-{button}-{one}")
        ann.wait_text("#status", words)
    ann.click(f"#take-{three}")
    same("a suggestion in the fields", ann.value("#form-0"), "drei")
    ann.click("#drop-draft")
    ann.click(f"#dismiss-{three}")
    ann.wait_text("#status", "Dismissed. The message is now: untranslated.")
    ann.click(f"#vote-for-{two}")
    ann.wait_text("#status", "Voted. The sum is 2 now.")
    same("rob votes", world.office.act("rob", act="vote", lang="de", id="votes", seen=1, suggestion=two, value=1)[1]["accepted"], True)
    ann.click(f"#accept-{one}")
    ann.wait_text("#alert", "Someone changed this message after you saw it.")
    same("accepted by votes", (ann.value("#form-0"), world.office.unit("votes")["revision"]), ("zwei", 2))
    ann.click(f"#accept-{one}")
    ann.wait_text("#status", "Accepted. The message is now: translated.")
    same("where the keyboard is, as the button has gone", ann.active(), "unit-title")
    same("accepted", world.office.unit("votes")["forms"], ["eins"])


def case_comment(world):
    tab = world.tab("ann")
    tab.open("Hello")
    tab.fill("#comment", "Erste Zeile\nzweite")
    tab.click("#save-comment")
    tab.wait_text("#status", "Comment saved. The message is now: untranslated.")
    same("the comment", world.office.unit("Hello")["comment"], ["Erste Zeile", "zweite"])
    sent = len(world.relay.posts)
    tab.fill("#comment", "x" * 1001)
    tab.click("#save-comment")
    tab.wait_text("#alert", "The comment has a line of more than 1,000 bytes. Nothing was sent.")
    same("where the keyboard is", (tab.active(), tab.attribute("#comment", "aria-invalid")), ("comment", "true"))
    same("nothing was sent", len(world.relay.posts), sent)
    tab.fill("#comment", "")
    tab.click("#save-comment")
    tab.wait_text("#status", "Comment saved.")
    same("no comment", world.office.unit("Hello")["comment"], [])


def case_review(world):
    """A reviewer approves, which closes the message to translators, and sends back."""
    ann, rob = world.tab("ann"), world.tab("rob")
    translate(ann, "approved", "gut")
    ann.wait_text("#status", "Translated.")
    same("no translator approves", ann.eval("document.querySelector('#approve, #send-back')"), None)
    rob.open("approved")
    rob.click("#approve")
    rob.wait_text("#status", "Approved. The message is now: approved.")
    ann.open("approved")
    same("closed to translators", ann.eval("[document.querySelector('#translate'), document.querySelector('#suggest').className]"), [None, "first"])
    has("which is told", ann.text(".allowed"), "This message is approved: only reviewers change it.")
    ann.remember("ann", least=2, most=2)
    ann.fill("#form-0", "besser")
    ann.click("#translate")
    ann.wait_text("#alert", "This message is approved: only reviewers change it.")
    same("the text stays, and the role is another", (ann.value("#form-0"), ann.text("#who")), ("besser", "signed in as ann, translator"))
    ann.click("#drop-draft")
    rob.click("#send-back")
    rob.wait_text("#status", "Sent back. The message is now: needs editing.")
    same("sent back", world.office.unit("approved")["state"], "needs-editing")


def case_refusals(world):
    """Each refusal that a page can meet, in its words; stale, role and approved have cases of their own."""
    ann, rob = world.tab("ann"), world.tab("rob")
    ann.open("Not for translators")
    has("read-only is told", ann.text(".allowed"), "This message is read-only")
    same("and offers nothing", ann.eval("[...document.querySelectorAll('#unit .buttons button')].map(it => it.id)"), [])
    same("needs editing", world.office.act("ann", act="translate", lang="de", id="unfit", seen=1, forms=["falsch\n"])[1]["state"], "needs-editing")
    rob.open("unfit")
    same("what is refused anyway isn't there", rob.eval("document.querySelector('#send-back')"), None)
    rob.click("#approve")
    rob.wait_text("#alert", "The text doesn't allow it")
    rob.click("#suggest")
    rob.wait_text("#alert", "Nothing would change")
    translate(ann, "same", "gleich")
    ann.wait_text("#status", "Translated.")
    ann.click("#translate")
    ann.wait_text("#alert", "Nothing would change")
    ann.fill("#form-0", "")
    ann.click("#suggest")
    ann.wait_text("#alert", "a suggestion can't be empty")
    ann.click("#drop-draft")
    made = world.office.act("bea", act="suggest", lang="de", id="dismissed", seen=1, forms=["weg"])[1]["suggestion"]
    ann.open("dismissed")
    same("dismissed", world.office.act("bea", act="dismiss", lang="de", id="dismissed", seen=1, suggestion=made)[0], 200)
    ann.click(f"#vote-for-{made}")
    ann.wait_text("#alert", "This suggestion isn't there any more")
    for n in range(100):
        same("a suggestion", world.office.act("root", act="suggest", lang="de", id="full", seen=1, forms=[f"Vorschlag {n}"])[0], 200)
    translate(ann, "full", "noch einer", "suggest")
    ann.wait_text("#alert", "It is full: a message has at most 100 suggestions")
    ann.click("#drop-draft")
    refused_by_policy(world, ann, rob)


def refused_by_policy(world, ann, rob):
    made = world.office.act("bea", act="suggest", lang="de", id="dismissed", seen=1, forms=["da"])[1]["suggestion"]
    ann.open("dismissed")
    rob.open("same")
    same("policy", world.office.act("root", act="policy", **{**POLICY, "voting": False, "reviews": False})[0], 200)
    ann.click(f"#vote-for-{made}")
    ann.wait_text("#alert", "There is no voting in this office.")
    rob.click("#approve")
    rob.wait_text("#alert", "There are no reviews in this office.")
    same("policy", world.office.act("root", act="policy", **POLICY)[0], 200)
    ann.remember("ann", least=1, most=1)
    rob.remember("rob", least=2, most=2)
    ann.open("gone")
    without = TEMPLATE.replace('\nmsgid "gone"\nmsgstr ""\n', "")
    same("template", world.office.act("root", act="template", po=without)[0], 200)
    ann.fill("#form-0", "fort")
    ann.click("#translate")
    ann.wait_text("#alert", "The template doesn't have this message any more.")
    same("nothing to act on", ann.eval("document.querySelector('#translate')"), None)
    same("template", world.office.act("root", act="template", po=TEMPLATE)[0], 200)
    ann.reload()
    ann.wait_for("#translate")
    same("its text is still there", ann.value("#form-0"), "fort")
    ann.click("#drop-draft")


def case_words(world):
    """Each rule of the formats has a sentence of its own, and each error of the office a word."""
    rows = re.findall(r"^\| \d+ \| ([a-z-]+) \| \d{3} \|", (TOP / "docs" / "FORMATS.md").read_text(), re.M)
    found = world.tab("ann").eval("import('./words.js').then(it => it.REFUSALS)")
    same("the rules", sorted(found), sorted(rows))
    same("sentences", (len(rows), len(set(found.values())), [it for it in found.values() if not it.endswith(".")]), (20, 20, []))


# ---- how it is shown


def case_keyboard(world):
    """From the page's begin to a translation that is done, by keys alone."""
    tab = PageTab(world, "ann")
    tab.wait_text("#languages", "German")
    tab.key("Tab")
    same("first the way past the head", tab.active(), "skip")
    tab.key("Enter")
    same("to the content", tab.active(), "main")
    tab.key("Tab")
    same("a language", tab.eval("document.activeElement.hash"), "#/de")
    tab.key("Enter")
    tab.wait_for("#filter")
    tab.wait("document.activeElement.id === 'units-title'")
    same("no frame round a heading", tab.eval("getComputedStyle(document.activeElement).outlineStyle"), "none")
    tab.tab_to("filter")
    same("it opens on what is to do", tab.value("#filter"), "todo")
    tab.tab_to("search")
    tab.type("keys")
    tab.wait("document.querySelectorAll('#list li').length === 1")
    tab.wait_text("#found", f"1 of {MESSAGES} messages")
    tab.tab_to_where("document.activeElement.closest('#list') !== null")
    tab.key("Enter")
    tab.wait("document.activeElement.id === 'form-0'")
    tab.type("Tasten")
    tab.tab_to("translate")
    same("it is seen where the keyboard is", tab.eval("getComputedStyle(document.activeElement).outlineStyle"), "solid")
    tab.key("Enter")
    tab.wait_text("#status", "Translated. The message is now: translated.")
    same("done", world.office.unit("keys")["forms"], ["Tasten"])
    same("the keyboard stays", tab.active(), "translate")
    same("the list shows it", tab.text("#list .state"), "translated")
    tab.key("Tab", shift=True)
    same("back", tab.active(), "form-0")
    tab.eval("document.getElementById('form-0').select()")
    tab.type("Tastatur")
    tab.key("Enter", control=True)
    tab.wait_text("#list .translation", "Tastatur")
    same("by control and enter", world.office.unit("keys")["forms"], ["Tastatur"])
    tab.close()


def case_lists(world):
    """Counts, filters and the search."""
    tab = PageTab(world, "ann")
    tab.wait_text("#languages", "Russian")
    tab.wait("document.querySelectorAll('.languages progress').length === 3")
    tab.wait_text(".languages li:last-child", "No counts: the office doesn't have this language.")
    counts = world.office.ask("GET", "/v1/stats/ru")[1]
    same("Russian", counts["untranslated"], MESSAGES - 1)
    has("its counts", tab.text(".languages li:nth-child(2)"), f"0 %\nuntranslated: {MESSAGES - 1}, read-only: 1")
    tab.click(".languages li:nth-child(2) a")
    tab.wait_text("#found", f"{MESSAGES - 1} of {MESSAGES} messages")
    world.office.act("eve", act="suggest", lang="ru", id="Hello", seen=1, forms=["Здравствуйте"])
    world.office.act("ann", act="translate", lang="ru", id="draft", seen=1, forms=["черновик"])
    world.office.act("ann", act="translate", lang="ru", id="keys", seen=1, forms=["ключи"])
    world.office.act("rob", act="approve", lang="ru", id="keys", seen=2)
    world.office.act("ann", act="translate", lang="ru", id="%s: no such file\n", seen=1, forms=["нет файла\n"])
    tab.click("#list-again")
    tab.wait_text("#language-counts", "needs editing: 1, translated: 1, approved: 1")
    for value, wanted in (
        ("review", ["draft"]), ("approved", ["keys"]), ("suggestions", ["Hello"]), ("needs-editing", ["%s: no such file"]),
        ("done", ["draft", "keys"]), ("read-only", ["Not for translators"]), ("obsolete", []),
    ):  # fmt: skip
        tab.choose("filter", value)
        tab.wait(f"JSON.stringify([...document.querySelectorAll('#list .source')].map(it => it.innerText.trim())) === {json.dumps(json.dumps(wanted, separators=(',', ':')))}")
        same(value, tab.text("#found"), f"{len(wanted)} of {MESSAGES} messages")
    tab.choose("filter", "all")
    tab.fill("#search", "ЧЕРНО")
    tab.wait_text("#found", f"1 of {MESSAGES} messages")
    same("a search in translations", tab.text("#list .source"), "draft")
    tab.close()


# Rules, and the numbers below 8 that their last form is for, by the grammar in docs/FORMATS.md.
RULES = (
    ("nplurals=2; plural=n != 1;", [0, 2, 3, 4, 5, 6, 7]),
    ("nplurals=2; plural=n==1 || n==2 && n==3", [1]),
    ("nplurals=2; plural=n==1 && n==1 || n==5", [1, 5]),
    ("nplurals=2; plural=!n;", [0]),
    ("nplurals=2; plural=!(n%2)", [0, 2, 4, 6]),
    ("nplurals=2; plural=1+n*2%3==1;", [0, 3, 6]),
    ("nplurals=2; plural=n<3==1;", [0, 1, 2]),
    ("nplurals=2; plural=7-n%5-1>=4", [0, 1, 2, 5, 6, 7]),
    ("nplurals=2; plural=n%8/3/2", [6, 7]),
    ("nplurals=3; plural=n>2 ? 2 : n;", [2, 3, 4, 5, 6, 7]),
    ("nplurals=3; plural=n==0 ? 0 : n==1 ? 1 : 2;", [2, 3, 4, 5, 6, 7]),
    ("nplurals=1; plural=0;", [0, 1, 2, 3, 4, 5, 6, 7]),
)


def case_rules(world):
    """Plural rules as the page reads them."""
    tab = world.tab("ann")
    for rule, wanted in RULES:
        field = json.dumps(f"Language: x\nPlural-Forms: {rule}\n")
        same(rule, tab.eval(f"import('./plural.js').then(it => it.numbersOfForms({field})?.at(-1).filter(n => n < 8))"), wanted)
    for rule in ("nplurals=2; plural=0 $ 1;", "nplurals=2; plural=0 0;", "nplurals=2; plural=(0;", "nplurals=2; plural=n;", "nplurals=2;"):
        field = json.dumps(f"Plural-Forms: {rule}\n")
        same(f"no rule: {rule}", tab.eval(f"import('./plural.js').then(it => it.numbersOfForms({field}))"), None)


def case_plurals(world):
    """Forms with the numbers that they are for, a context, and a language that runs from right to left."""
    tab = world.tab("ann")
    tab.open("%d file", "ru")
    labels = "[...document.querySelectorAll('#translation label[for^=form]')].map(it => it.innerText)"
    wanted = ["Form 0, for 1, 21, 31, 41, 51, …", "Form 1, for 2, 3, 4, 22, 23, …", "Form 2, for 0, 5, 6, 7, 8, …"]
    same("Russian", tab.eval(labels), wanted)
    for at, text in enumerate(("%d файл", "%d файла", "файлов")):
        tab.fill(f"#form-{at}", text)
    tab.click("#translate")
    tab.wait_text("#status", "Translated. The message is now: needs editing.")
    has("a finding", tab.text("#finding-2"), "Missing: %d.")
    same("only there", tab.eval("document.querySelectorAll('.finding').length"), 1)
    has("told of the field", tab.attribute("#form-2", "aria-describedby"), "finding-2")
    tab.open("%d file", "ar")
    wanted = ["0", "1", "2", "3, 4, 5, 6, 7, …", "11, 12, 13, 14, 15, …", "100, 101, 102, 200, 201, …"]
    same("Arabic", tab.eval(labels), [f"Form {at}, for {it}" for at, it in enumerate(wanted)])
    same("its direction", tab.eval("['dir', 'lang'].map(it => document.getElementById('form-0')[it])"), ["rtl", "ar"])
    same("the page's", tab.eval("getComputedStyle(document.body).direction"), "ltr")
    tab.open("Open", "de", "menu")
    has("the context", tab.text("#unit"), "Context: menu")
    tab.fill("#form-0", "Öffnen")
    tab.click("#translate")
    tab.wait_text("#status", "Translated.")


def case_texts(world):
    """Texts are shown as they are, whatever they say, and come into the office as they were typed."""
    tab = world.tab("ann")
    markup = "<img src=x onerror=alert(1)>"
    evil = '<script>alert(2)</script><a href="https://example.org/">x</a>'
    same("bea", world.office.act("bea", act="suggest", lang="de", id=markup, seen=1, forms=[evil])[0], 200)
    same("bea", world.office.act("bea", act="comment", lang="de", id=markup, seen=1, lines=[evil])[0], 200)
    tab.open(markup)
    same("the message", tab.text("#source"), markup)
    same("a suggestion", tab.text(".suggestions .text"), evil)
    same("no elements of it", tab.eval("document.querySelectorAll('img, script:not([src]), main a[href^=http]').length"), 0)
    same("no text becomes HTML", tab.eval("(() => { try { document.body.innerHTML = '<b>x</b>'; return 'set'; } catch { return 'refused'; } })()"), "refused")
    same("which the browser tells", ["TrustedHTML" in it for it in world.browser.faults], [True])
    world.browser.faults.clear()
    tab.open("first\r\nsecond\\")
    has("told", tab.text("#translation"), "Written with escapes")
    tab.fill("#form-0", "erste\\r\nzweite\\\\")
    tab.click("#translate")
    tab.wait_text("#status", "Translated.")
    same("a carriage return", world.office.unit("first\r\nsecond\\")["forms"], ["erste\r\nzweite\\"])
    same("shown so", tab.value("#form-0"), "erste\\r\nzweite\\\\")
    tab.fill("#form-0", "falsch\\q")
    tab.click("#translate")
    tab.wait_text("#alert", "In German: the text has a backslash that begins no escape. Nothing was sent.")
    tab.eval("location.hash = '#/de/unit?id=' + encodeURIComponent('ä'.repeat(3000))")
    tab.wait_text("#unit", "The message isn't here: the message's text is too long for an address.")
    has("shown all the same", tab.text("#unit"), LONG)
    tab.open("unread")
    tab.fill("#form-0", "a\x01b")
    tab.click("#translate")
    tab.wait_text("#alert", "In German: the text has a control character that a translation can't have. Nothing was sent.")
    tab.fill("#form-0", "")
    tab.fill("#form-0", "x" * 262_145)
    tab.click("#translate")
    tab.wait_text("#alert", "In German: the text has more than 262,144 bytes. Nothing was sent.")
    tab.fill("#form-0", "")
    tab.open("%s: no such file\n")
    tab.fill("#form-0", "%s: keine solche Datei\n")
    tab.click("#translate")
    tab.wait_text("#status", "Translated. The message is now: translated.")
    same("a line end", world.office.unit("%s: no such file\n")["forms"], ["%s: keine solche Datei\n"])

# ---- what makes it fast


IDS = "[...document.querySelectorAll('#list .source')].map(it => it.innerText.trim())"


def case_next(world):
    """Control and Enter translate and go on, or stay where that is wanted; what is listed and where one is stand in the address."""
    tab = PageTab(world, "ann", stays=False)
    tab.eval("location.hash = '#/ru?search=step'")
    tab.wait(f"JSON.stringify({IDS}) === '[\"one step\",\"two steps\",\"a third step\"]'")
    same("what is to do, in the address", tab.eval("location.hash"), "#/ru?show=todo&search=step")
    tab.click("#list li:nth-child(2) a")
    tab.wait("document.activeElement.id === 'form-0'")
    tab.key("PageUp", alt=True)
    tab.wait_text("#source", "one step")
    tab.wait("document.activeElement.id === 'form-0'")
    tab.type("один шаг")
    tab.key("Enter", control=True)
    tab.wait_text("#source", "two steps")
    tab.wait("document.activeElement.id === 'form-0'")
    tab.wait_text("#status", "“one step”: Translated. The message is now: translated.")
    same("translated", world.office.unit("one step", "ru")["forms"], ["один шаг"])
    tab.wait("document.querySelector('#list li .state').innerText === 'translated'")
    tab.reload()
    tab.wait_text("#source", "two steps")
    same("loaded again", (tab.value("#search"), tab.value("#filter"), tab.eval(IDS)), ("step", "todo", ["two steps", "a third step"]))
    same("where one is", tab.text("[aria-current] .source"), "two steps")
    same("bea", world.office.act("bea", act="translate", lang="ru", id="two steps", seen=1, forms=["два шага"])[0], 200)
    tab.fill("#form-0", "два")
    tab.key("Enter", control=True)
    tab.wait_text("#source", "a third step")
    tab.wait_text("#alert", "“two steps”: Not done. Someone changed this message")
    tab.click("#told-link")
    tab.wait_text("#office-text", "два шага")
    same("the own text is kept", tab.value("#form-0"), "два")
    tab.click("#drop-draft")
    tab.click("#stay")
    tab.fill("#form-0", "оба шага")
    tab.key("Enter", control=True)
    tab.wait_text("#status", "Translated. The message is now: translated.")
    same("it stays", (tab.text("#source"), tab.active()), ("two steps", "form-0"))
    tab.reload()
    tab.wait_for("#stay")
    same("also later", tab.eval("document.getElementById('stay').checked"), True)
    tab.key("PageDown", alt=True)
    tab.wait_text("#source", "a third step")
    tab.key("PageDown", alt=True)
    tab.wait_text("#status", "This is the last message of the list.")
    tab.close()


# Texts, the message that they are for, and what is found, by docs/FORMATS.md: [placeholders, line ends], and whether they may be left out.
FINDINGS = (
    ("%d Dateien", {"id": "%d files", "flags": ["c-format"]}, False, False, False),
    ("Dateien", {"id": "%d files", "flags": ["c-format"]}, False, True, False),
    ("eine Datei", {"id": "%d file", "plural": "%d files", "flags": ["c-format"]}, True, False, False),
    ("eine %s", {"id": "%d file", "plural": "%d files", "flags": ["c-format"]}, True, True, False),
    ("%2$s %1$s", {"id": "%1$s %2$s", "flags": ["c-format"]}, False, False, False),
    ("%s %d", {"id": "%d %s", "flags": ["c-format"]}, False, True, False),
    ("100 %%", {"id": "all %%", "flags": ["c-format"]}, False, False, False),
    ("%5.2lf", {"id": "%5.2f", "flags": ["c-format"]}, False, True, False),
    ("%d", {"id": "none", "flags": []}, False, False, False),
    ("{name} in {0}", {"id": "{0} of {name}", "flags": ["python-brace-format"]}, False, False, False),
    ("{name}", {"id": "{0} of {name}", "flags": ["python-brace-format"]}, False, True, False),
    ("{{name}}", {"id": "{{x}} {01}", "flags": ["python-brace-format"]}, False, False, False),
    ("zwei\n", {"id": "two", "flags": []}, False, False, True),
    ("\nzwei", {"id": "\ntwo\n", "flags": []}, False, False, True),
    ("", {"id": "%d\n", "flags": ["c-format"]}, False, False, False),
)
# Texts for a message, and what is hinted.
HINTS = (
    ("Hallo.", "Hello", "The text ends with a full stop, the message doesn't."),
    ("Hallo", "Hello…", "The message ends with an ellipsis."),
    ("Hallo…", "Hello...", ""),
    ("こんにちは。", "Hello.", ""),
    ("Was? ", "What?", "White space at the end isn't as in the message."),
    (" Was?", "What?", "White space at the beginning isn't as in the message."),
    ("in der der Datei", "in the file", "A word stands twice: der der"),
    ("der derbe", "the rude", ""),
)


def case_findings(world):
    """What is wrong with a text is told while it is typed, as the office finds it; placeholders are marked, and inserted by keys."""
    tab = world.tab("ann")
    for text, message, may, *wanted in FINDINGS:
        given = ", ".join(json.dumps(it) for it in (text, {"plural": None, **message}, may))
        found = tab.eval(f"import('./checks.js').then(it => it.findingsOf({given})).then(it => [it.placeholders.length > 0, it['line-ends'].length > 0])")
        same(f"{text!r} for {message}", found, wanted)
    for text, msgid, wanted in HINTS:
        given = f"{json.dumps(text)}, {json.dumps({'id': msgid, 'plural': None})}, 0"
        same(f"{text!r} for {msgid!r}", tab.eval(f"import('./checks.js').then(it => it.hintsOf({given}).join(' '))"), wanted)
    tab.open("%s: no such file\n")
    same("marked in the message", tab.eval("[...document.querySelectorAll('#source mark')].map(it => it.textContent)"), ["%s"])
    tab.fill("#form-0", "keine keine Datei")
    has("while it is typed", tab.text("#finding-0"), "Missing: %s. The message ends with a line end, the text doesn't. A word stands twice: keine keine")
    same("described by it", tab.attribute("#form-0", "aria-describedby"), "source finding-0")
    tab.fill("#form-0", "")
    tab.type("Da: ")
    tab.key("1", alt=True)
    same("a placeholder by a key", (tab.value("#form-0"), tab.eval("[...document.querySelectorAll('.behind mark')].map(it => it.textContent)")), ("Da: %s", ["%s"]))
    same("both texts stand at one place", tab.eval("(([a, b]) => Math.abs(a.width - b.width) + Math.abs(a.height - b.height) + Math.abs(a.x - b.x))([...document.querySelectorAll('.field > *')].map(it => it.getBoundingClientRect())) < 1"), True)
    tab.key("0", alt=True)
    same("the message by a key", (tab.value("#form-0"), tab.text("#finding-0").strip()), ("%s: no such file\n", ""))
    tab.fill("#form-0", "")
    tab.key("1", control=True)
    same("by the other key", tab.value("#form-0"), "%s")
    tab.key("0", alt=True)
    tab.click("#insert-1")
    has("a placeholder by its button", tab.value("#form-0"), "%s: no such file\n%s")
    has("told at once", tab.text("#finding-0"), "Not in the message: %s.")
    tab.fill("#form-0", "")
    agreed(world, tab)


def agreed(world, tab):
    """The page finds what the office finds, in texts that the office has."""
    seen = 1
    for first, second in (("%d Datei", "%d Dateien"), ("Datei", "Dateien"), ("%s Datei", "%d Dateien %d"), ("eine Datei\n", "%d Dateien")):
        same("ann", world.office.act("ann", act="translate", lang="ar", id="%d file", seen=seen, forms=[first, first, second, second, second, second])[0], 200)
        seen += 1
        wanted = world.office.unit("%d file", "ar")["findings"]
        tab.open("%d file", "ar")
        found = tab.eval("[0, 1, 2, 3, 4, 5].map(at => document.querySelectorAll(`#finding-${at} .finding`).length > 0)")
        same(f"{first!r} and {second!r}", found, [at in wanted["placeholders"] + wanted["line-ends"] for at in range(6)])


def case_changes(world):
    """What is another than before: of a message, and of a suggestion."""
    tab = world.tab("ann")
    tab.open("before")
    same("the message was before", tab.eval("[...document.querySelectorAll('#unit .changes')].map(it => [it.querySelector('del')?.textContent, it.innerText])"), [["long ", "long before"]])
    same("eve", world.office.act("eve", act="suggest", lang="de", id="before", seen=1, forms=["kurz davor <b>"])[0], 200)
    tab.click("#next")
    tab.open("before")
    same("a suggestion", tab.eval("[...document.querySelectorAll('.suggestions .changes')].map(it => [it.querySelector('ins').textContent, it.innerText])[0][1]"), "kurz davor <b>")
    same("by words", tab.eval("import('./diff.js').then(it => it.changes('open the old file', 'open this file now').map(it => it.kind + ':' + it.text))"),
         ["same:open ", "out:the old", "in:this", "same: file", "in: now"])


# ---- what a caller may do


def case_roles(world):
    """A role is asked once, and kept; another one is learnt from a refusal, and asked again on a button. What isn't allowed isn't there."""
    same("root", world.office.act("root", act="translate", lang="de", id="role", seen=1, forms=["Part"])[0], 200)
    before, hello = len(world.relay.posts), world.office.unit("Hello")
    tab = PageTab(world, "bea")
    asked = [json.loads(body)["act"] for _, body, _ in world.relay.posts[before:]]
    same("asked", asked, ["approve", "comment"])
    has("told", tab.text("#who"), "signed in as bea, translator")
    same("nothing came of it", world.office.unit("Hello"), hello)
    tab.open("role")
    buttons = "[...document.querySelectorAll('#translation .buttons button')].map(it => it.id)"
    same("a translator's", tab.eval(buttons), ["translate", "suggest"])
    same("no managing", tab.eval("document.getElementById('manage').hidden"), True)
    same("root", world.office.act("root", act="team", name="bea", role="guest")[0], 200)
    tab.fill("#form-0", "Rolle")
    tab.click("#translate")
    tab.wait_text("#alert", "Your role doesn't allow this.")
    same("a guest's", (tab.eval(buttons), tab.text("#who"), tab.value("#form-0")), (["suggest"], "signed in as bea, guest", "Rolle"))
    tab.reload()
    tab.wait_for("#translation")
    same("kept", tab.eval(buttons), ["suggest"])
    same("root", world.office.act("root", act="team", name="bea", role="reviewer")[0], 200)
    tab.click("#ask-role")
    tab.wait_text("#who", "signed in as bea, reviewer")
    same("a reviewer's", tab.eval(buttons), ["translate", "suggest", "approve", "send-back"])
    same("asked no more than that", len(world.relay.posts) - before, 2 + 1 + 2)
    same("root", world.office.act("root", act="team", name="bea", role="translator")[0], 200)
    tab.close()
    made = world.office.act("eve", act="suggest", lang="de", id="ballot", seen=1, forms=["Wahl"])[1]["suggestion"]
    ann = world.tab("ann")
    same("root", world.office.act("root", act="policy", **{**POLICY, "voting": False})[0], 200)
    ann.open("ballot")
    ann.click(f"#vote-for-{made}")
    ann.wait_text("#alert", "There is no voting in this office.")
    same("no votes are offered", ann.eval("document.querySelectorAll('[id^=vote-]').length"), 0)
    same("root", world.office.act("root", act="policy", **POLICY)[0], 200)
    ann.remember("ann", least=1, most=1)


# ---- lists at once, and what lies beside the page


def snapshot(world, lang):
    words = [TOP / "share" / "tools" / "office-snapshot", "--url", f"http://{page_office.HOST}:{world.office.port}", "--to", world.beside, "--once", lang]
    same("office-snapshot", subprocess.run(words, check=False, timeout=300).returncode, 0)


def case_queues(world):
    """What is with suggestions and what is to review is there at once, from a snapshot that says how old it is."""
    act = world.office.act
    act("eve", act="suggest", lang="ar", id="Hello", seen=1, forms=["مرحبا"])
    for msgid in ("draft", "keys"):
        same("ann", act("ann", act="translate", lang="ar", id=msgid, seen=1, forms=["نص"])[0], 200)
    same("rob", act("rob", act="approve", lang="ar", id="keys", seen=2)[0], 200)
    snapshot(world, "ar")
    tab = PageTab(world, "rob")

    def asked():
        return {it for it in world.browser.asked if "/v1/unit?lang=ar" in it}

    before = asked()
    tab.eval("location.hash = '#/ar?show=suggestions'")
    tab.wait(f"JSON.stringify({IDS}) === '[\"Hello\"]'")
    has("how many", tab.text("#list .state"), "suggestions: 1")
    has("how old", tab.text("#age"), "Suggestions and approvals: as of ")
    for value, wanted in (("review", ["draft"]), ("approved", ["keys"])):
        tab.choose("filter", value)
        tab.wait(f"JSON.stringify({IDS}) === {json.dumps(json.dumps(wanted))}")
    same("nothing was asked one by one", asked(), before)
    tab.open("draft", "ar")
    tab.click("#approve")
    tab.wait_text("#status", "Approved.")
    tab.choose("filter", "review")
    tab.wait(f"JSON.stringify({IDS}) === '[]'")
    same("what the office has told since stands", tab.text("#found"), f"0 of {MESSAGES} messages")
    seen = world.office.unit("gone", "ar")["revision"]
    same("eve", act("eve", act="suggest", lang="ar", id="gone", seen=seen, forms=["ذهب"])[0], 200)
    snapshot(world, "ar")
    tab.choose("filter", "suggestions")
    tab.wait(f"JSON.stringify({IDS}) === '[\"Hello\",\"gone\"]'")
    tab.close()


def case_checks(world):
    """What other tools found stands at the message, and is listed; whatever it says is text."""
    evil = '<img src=x onerror="alert(1)">'
    findings = [
        {"id": "checked by others", "tool": "pofilter", "name": "startcaps", "text": f"begins with {evil}", "severity": "warning"},
        {"id": "Open", "context": "menu", "tool": "msgfmt", "name": "c-format", "text": "is wrong", "severity": "error"},
        {"id": "not there", "tool": "i18nspector", "name": "x", "text": "gone", "severity": "note"},
        {"id": "", "tool": "i18nspector", "name": "no-language-header-field", "text": "Language: ru", "severity": "error"},
    ]
    report = {"made": "2026-11-29T12:00:00Z", "domain": "main", "lang": "ru", "findings": findings}
    (world.beside / "checks" / "ru.json").write_text(json.dumps(report))
    tab = PageTab(world, "ann")
    tab.eval("location.hash = '#/ru?show=findings'")
    tab.wait(f"JSON.stringify({IDS}) === '[\"Open\",\"checked by others\"]'")
    has("counted", tab.text("#list li:last-child .state"), "findings: 1")
    has("how old", tab.text("#age"), "Checks: ")
    same("of the header", tab.text("#header-findings summary"), "1 finding about the header")
    tab.click("#list li:last-child a")
    tab.wait_text("#checks", f"warning begins with {evil} pofilter: startcaps")
    same("no elements of it", tab.eval("document.querySelectorAll('img').length"), 0)
    tab.eval("location.hash = '#/ar'")
    tab.wait_text("#units-title", "Arabic")
    tab.wait_for("#filter")
    same("no such list without checks", tab.eval("document.querySelector('#filter [value=findings]')"), None)
    (world.beside / "checks" / "ru.json").unlink()
    tab.close()


# ---- memory, glossary, places, and the search


def case_memory(world):
    """Beside the field stand translations of messages that are alike, terms, and other languages."""
    same("bea", world.office.act("bea", act="translate", lang="de", id="two steps", seen=1, forms=["zwei Schritte"])[0], 200)
    same("bea", world.office.act("bea", act="translate", lang="ru", id="elsewhere", seen=1, forms=["в другом месте"])[0], 200)
    tab = PageTab(world, "ann")
    tab.open("one step")
    tab.wait_text("#memory", "zwei Schritte")
    # Of 17 characters in both 12 are in common: "o", " step", and so both ways.
    has("how alike", tab.text("#memory"), "70 % alike")
    tab.click("#use-0")
    same("it is used", tab.value("#form-0"), "zwei Schritte")
    tab.click("#drop-draft")
    tab.open("Save the file?")
    tab.wait_text("#glossary", "Datei")
    same("terms", tab.eval("[...document.querySelectorAll('#glossary li > span:first-child')].map(it => it.textContent)"), ["file", "save"])
    has("a remark is text", tab.text("#glossary"), 'a <img src=x onerror=alert(1)> of "bytes"')
    tab.click("#term-0-0")
    same("inserted", tab.value("#form-0"), "Datei")
    tab.fill("#form-0", "")
    (world.beside / "glossary" / "three.tbx").write_text(TBX_3)
    wanted = {"source": ["file selector"], "terms": [{"lang": "en", "term": "file selector"}, {"lang": "de", "term": "Dateiauswahl"}], "note": "What asks & waits."}
    for name in ("terms", "three"):
        found = tab.eval(f"import('./office.js').then(it => new it.Office(new URL('.', location.href)).xml('glossary/{name}.tbx'))"
                         ".then(async it => (await import('./glossary.js')).fromTbx(it))")
        same(f"a file of TBX, {name}", found, [wanted])
    tab.open("elsewhere")
    tab.eval("document.getElementById('also').open = true")
    tab.click("#also-ru")
    tab.wait_text("#others", "в другом месте")
    tab.close()


def case_alike(world):
    """Of changed messages the page's memory finds the translation that msgmerge finds."""
    example = TOP / "docs" / "example"
    old = (example / "de.po").read_text()
    renamed = {"unknown option": "an unknown option", "invalid numeric value": "invalid value", "missing argument": "missing arguments", "memory allocation failed": "allocation of memory failed",
               "number too large or too small": "number too large", "Help options:": "Help option", "Display brief usage message": "Display a brief message of usage", "xyz": "qqqqq"}
    pot = "".join(f'msgid "{it}"\nmsgstr ""\n\n' for it in renamed.values())
    with tempfile.TemporaryDirectory() as place:
        (pathlib.Path(place) / "new.pot").write_text(header("nplurals=2; plural=n != 1;") + "\n" + pot)
        done = subprocess.run(["msgmerge", "--quiet", "--no-wrap", example / "de.po", f"{place}/new.pot"], capture_output=True, text=True, check=True)
    wanted = {msgid: re.search(rf'^msgid "{re.escape(msgid)}"\nmsgstr "(.*)"', done.stdout, re.M)[1] for msgid in renamed.values()}
    same("msgmerge finds some", sum(it != "" for it in wanted.values()) > 3, True)
    tab = world.tab("ann")
    tab.eval(f"window.old = {json.dumps(old)}")
    for msgid, text in wanted.items():
        found = tab.eval("Promise.all([import('./memory.js'), import('./catalogue.js')]).then(([m, c]) => new m.Memory().find("
                         f"{{domain: 'main', ctx: null, id: {json.dumps(msgid)}}}, [new c.Catalogue({{domain: 'main', lang: 'de'}}, window.old)], () => true))"
                         ".then(it => it[0]?.entry.forms[0] ?? '')")
        same(f"alike: {msgid}", found, text)


def case_places(world):
    """Places in the sources are links by the project's pattern, and are found by the search; so are words without their accents."""
    tab = PageTab(world, "ann")
    tab.open("Hello")
    same("a link", tab.eval("[...document.querySelectorAll('.places a')].map(it => [it.href, it.rel, it.textContent])"),
         [["https://git.example.org/sample/src/main.c#L12", "noopener noreferrer", "src/main.c:12"]])
    links = "import('./references.js').then(it => it.placesIn(['../a b.c:1 \u2068c d.c\u2069:2 e']).map(place => it.linkOf(place, {})))"
    same("places", tab.eval(links.format("'https://x.example/{file}#L{line}'")), ["https://x.example/a", "https://x.example/b.c#L1", "https://x.example/c%20d.c#L2", "https://x.example/e"])
    same("no other addresses", tab.eval(links.format("'javascript:alert(1)//{file}'")), [None] * 4)
    same("bea", world.office.act("bea", act="translate", lang="ru", id="unfit", seen=1, forms=["Ёлка élan"])[0], 200)
    tab.eval("location.hash = '#/ru?show=all'")
    tab.wait_text("#units-title", "Russian")
    tab.wait_for("#search")
    for words, wanted in (("SRC/main.c", ["Hello"]), ("menu", ["Open"]), ("елка elan", ["unfit"]), ("at the start", ["Hello"])):
        tab.fill("#search", words)
        tab.wait(f"JSON.stringify({IDS}) === {json.dumps(json.dumps(wanted, separators=(',', ':')))}")
    tab.close()


# ---- files, managers, and signing out


def case_files(world):
    """A language's file is downloaded, edited elsewhere, and what changed in it is sent; what others changed meanwhile is left alone."""
    tab = PageTab(world, "ann")
    tab.eval("location.hash = '#/ru/file'")
    tab.wait_for("#download")
    same("what is downloaded", tab.eval("fetch(document.getElementById('download').href).then(it => it.text())"), world.office.export("ru"))
    same("its name", tab.attribute("#download", "download"), "ru.po")
    before, edited = world.folder / "ru.po", world.folder / "edited.po"
    before.write_text(world.office.export("ru"))
    text = before.read_text()
    for msgid, translation in (("sent from a file", "из файла"), ("role", "роль"), ("gone", "")):
        text = text.replace(f'msgid "{msgid}"\nmsgstr ""', f'msgid "{msgid}"\nmsgstr ""\n"{translation}"' if translation else f'#, fuzzy\nmsgid "{msgid}"\nmsgstr "?"')
    done = subprocess.run(["msgconv", "--to-code=GB18030", "--width=40"], input=text.encode(), capture_output=True, check=True)
    edited.write_bytes(done.stdout.replace(b"\n", b"\r\n"))
    same("bea", world.office.act("bea", act="translate", lang="ru", id="role", seen=1, forms=["должность"])[0], 200)
    tab.give("#upload-own", edited)
    tab.give("#upload-before", before)
    tab.click("#upload-look")
    tab.wait_text("#upload-told", "1 message changed. 2 are left out:")
    same("why", sorted(tab.text("#upload-left").split("\n")), ["gone: it is marked as fuzzy", "role: the office changed it meanwhile"])
    tab.click("#upload-translate")
    tab.wait_text("#upload-sent", "1 of 1 is on its way.")
    tab.wait_text("#outbox", "All sent")
    tab.wait_text("#status", "“sent from a file”: Translated.")
    same("there", [world.office.unit(it, "ru")["forms"] for it in ("sent from a file", "role")], [["из файла"], ["должность"]])
    tab.click("#upload-look")
    tab.wait_text("#upload-told", "0 messages changed. 2 are left out:")
    edited.write_text('msgid "a"\nmsgstr "b"\nwrong\n')
    tab.give("#upload-own", edited)
    tab.click("#upload-look")
    tab.wait_text("#alert", "The file isn't read: line 3 is of no form.")
    tab.close()


def case_manage(world):
    """Managers set roles, the policy, the template and languages, by requests like all others."""
    tab = PageTab(world, "root", asks=False)
    tab.eval("location.hash = '#/de'")
    tab.wait_text("#who", "signed in as root, manager")
    tab.click("#manage")
    tab.wait("document.activeElement.id === 'manage-title'")
    world.relay.mode = "half"
    tab.fill("#team-name", "zed")
    tab.click("#team-send")
    tab.wait_text("#status", "zed is a translator now.")
    same("zed", world.office.act("zed", act="translate", lang="ar", id="role", seen=1, forms=["دور"])[0], 200)
    tab.fill("#team-name", "root")
    tab.choose("team-role", "guest")
    tab.click("#team-send")
    tab.wait_text("#alert", "Not done. No manager would be left.")
    for flag in ("reviews", "voting", "guests_suggest", "placeholders", "line_ends"):
        tab.click(f"#policy-{flag}")
    tab.fill("#policy-accept_at", "1")
    tab.click("#policy-send")
    tab.wait_text("#alert", "The sum of votes is 0, or from 2 to 100.")
    tab.fill("#policy-accept_at", "2")
    tab.click("#policy-send")
    tab.wait_text("#status", "The policy is set; 0 messages changed their state.")
    made = world.office.act("eve", act="suggest", lang="ar", id="ballot", seen=1, forms=["اقتراع"])[1]["suggestion"]
    same("one vote is enough now", world.office.act("zed", act="vote", lang="ar", id="ballot", seen=1, suggestion=made, value=1)[1]["accepted"], True)
    managed_texts(world, tab)
    same("root", world.office.act("root", act="policy", **POLICY)[0], 200)
    same("each once", len({use for use, _, _ in world.relay.posts}), len({(use, body) for use, body, _ in world.relay.posts}))
    tab.close()
    ann = world.tab("ann")
    ann.eval("location.hash = '#/~manage'")
    ann.wait_text("#manage-pane", "Only managers do this.")


def managed_texts(world, tab):
    file = world.folder / "new.pot"
    file.write_text(TEMPLATE + '\nmsgid "Größe"\nmsgstr ""\n')
    tab.give("#template-file", file)
    tab.click("#template-send")
    tab.wait_text("#status", "The template is set. ar: new 1, changed 0")
    file.write_text(TEMPLATE + '\nmsgid "x\n')
    tab.give("#template-file", file)
    tab.click("#template-send")
    tab.wait_text("#alert", f"The PO text has a fault in line {TEMPLATE.count(chr(10)) + 2}: a string without its quotes")
    tab.fill("#language-code", "eo")
    tab.fill("#language-rule", "nplurals=2; plural=n;")
    tab.click("#language-send")
    tab.wait_text("#alert", "The header's rule Plural-Forms: its value at 2 isn't below nplurals.")
    tab.fill("#language-rule", "nplurals=2; plural=n != 1;")
    tab.click("#language-send")
    tab.wait_text("#status", "The language eo is there: translations taken over: 0")
    file.write_bytes((header("nplurals=2; plural=n > 1;").replace("UTF-8", "ISO-8859-1") + '\nmsgid "Größe"\nmsgstr "café"\n').replace("\n", "\r\n").encode("latin-1"))
    tab.fill("#language-code", "oc")
    tab.give("#language-file", file)
    tab.click("#language-send")
    tab.wait_text("#status", "The language oc is there: translations taken over: 1")
    same("in UTF-8", world.office.unit("Größe", "oc")["forms"], ["café"])
    same("template", world.office.act("root", act="template", po=TEMPLATE)[0], 200)


def case_sign_out(world):
    """A browser that signed in by a password forgets it; who signed out is told so by a page, and comes back by its link."""
    world.browser.password = ("ann", PASSWORD)
    tab = PageTab(world, None, asks=False)
    has("signed in", tab.text("#who"), "signed in as ann")
    world.browser.password = None
    tab.click("#sign-out")
    tab.wait("document.body.innerText === 'You are not signed in. Sign in'")
    tab.call("Page.navigate", url=world.at)
    tab.wait("document.body.innerText === 'You are not signed in. Sign in'")
    same("signed out", "signed in as" in tab.text("body"), False)
    world.browser.password = ("ann", PASSWORD)
    tab.click("a")
    tab.wait_text("#who", "signed in as ann")
    tab.close()


# ---- domains


def case_domains(world):
    """A further domain of the office has languages of its own."""
    own, po = {"domain": "manual"}, 'msgid "Hello"\nmsgstr ""\n\nmsgid "the manual"\nmsgstr ""\n'
    acts = [{"act": "domain", "name": "manual"}, {"act": "template", "po": po, **own}, {"act": "language", "lang": "de", "po": header(LANGUAGES["de"]), **own}]
    same("the domain", [world.office.act("root", **it)[0] for it in acts], [200, 200, 200])
    tab = PageTab(world, "ann")
    tab.eval("location.hash = '#/'")
    tab.wait_text("#languages", "manual")
    tab.wait("document.querySelectorAll('.languages')[1].querySelectorAll('progress').length === 1")
    has("its counts", tab.text(".languages:last-of-type"), "untranslated: 2")
    tab.click(".languages:last-of-type a")
    tab.wait_text("#found", "2 of 2 messages")
    same("its address", tab.eval("location.hash"), "#/domains/manual/de?show=todo")
    has("told", tab.text("#units-title"), "German de · manual")
    tab.click("#list a")
    tab.wait_for("#translate")
    tab.fill("#form-0", "Hallo im Handbuch")
    tab.click("#translate")
    tab.wait_text("#status", "Translated. The message is now: translated.")
    same("in its domain alone", (world.office.unit("Hello", **own)["forms"], world.office.unit("Hello")["forms"]), (["Hallo im Handbuch"], [""]))
    has("in the replies", tab.text("#replies"), "Hello (de · manual)")
    tab.fill("#form-0", "nur getippt")
    tab.open("Hello")
    same("its draft isn't main's", tab.value("#form-0"), "")
    tab.reload()
    tab.eval("location.hash = '#/domains/manual/de/unit?id=Hello'")
    tab.wait_for("#office-text")
    same("and is there", tab.value("#form-0"), "nur getippt")
    tab.close()


OFFERED = "[...document.getElementById('template-domain').options].map(it => it.value)"
MOST_DOMAINS = int(re.search(r"^\| domains of an office, .* \| (\d+) \|$", (TOP / "docs" / "FORMATS.md").read_text(), re.M)[1])


def case_begun(world):
    """A manager adds a language to the domain that is chosen, and makes a domain, which gets a template and a language."""
    same("the domain", world.office.act("root", act="domain", name="manual")[0] in (200, 409), True)
    tab = PageTab(world, "root", asks=False)
    tab.eval("location.hash = '#/~manage'")
    tab.wait_for("#language-domain")
    adds_language(tab, "manual")
    same("a language of its domain alone", [world.office.ask("GET", f"/v1/{it}stats/fi")[0] for it in ("domains/manual/", "")], [200, 404])
    world.relay.mode = "half"
    makes_domain(tab, "web")
    tab.wait_text("#status", "The domain web is there.")
    has("in the replies", tab.text("#replies"), "Make a domain: web")
    same("what was chosen and typed stays", (tab.value("#language-domain"), tab.value("#language-code")), ("manual", "fi"))
    tab.reload()
    tab.wait_for("#template-domain")
    same("it can be chosen", tab.eval(OFFERED), ["main", "manual", "web"])
    file = world.folder / "web.pot"
    file.write_text('msgid "the web"\nmsgstr ""\n')
    tab.choose("template-domain", "web")
    tab.give("#template-file", file)
    tab.click("#template-send")
    tab.wait_text("#status", "The template is set.")
    adds_language(tab, "web")
    same("its message", world.office.unit("the web", "fi", domain="web")["state"], "untranslated")
    refused_domains(world, tab)
    tab.close()


def makes_domain(tab, name):
    tab.fill("#new-domain-name", name)
    tab.click("#new-domain-send")


def adds_language(tab, domain):
    tab.choose("language-domain", domain)
    tab.fill("#language-code", "fi")
    tab.fill("#language-rule", "nplurals=2; plural=n != 1;")
    tab.click("#language-send")
    tab.wait_text("#status", "The language fi is there: translations taken over: 0")


def refused_domains(world, tab):
    """A domain that somebody else made, one too many, and one of who is no manager any more."""
    act = world.office.act
    same("another's", act("root", act="domain", name="docs")[0], 200)
    makes_domain(tab, "docs")
    tab.wait_text("#alert", "Not done. The office has this domain already.")
    same("can be chosen too", tab.eval(OFFERED), ["main", "manual", "web", "docs"])
    same("as many as may be", {act("root", act="domain", name=f"d{n}")[0] for n in range(4, MOST_DOMAINS)}, {200})
    makes_domain(tab, "more")
    tab.wait_text("#alert", f"Not done. The office has {MOST_DOMAINS} domains, and no office has more.")
    same("none of that name", tab.eval(OFFERED), ["main", "manual", "web", "docs"])
    same("another manager", [act("root", act="team", name="bea", role="manager")[0], act("bea", act="team", name="root", role="guest")[0]], [200, 200])
    makes_domain(tab, "mine")
    tab.wait_text("#alert", "Not done. Your role doesn't allow this.")
    tab.wait_text("#manage-pane", "Only managers do this.")
    same("as before", [act("bea", act="team", name="root", role="manager")[0], act("root", act="team", name="bea", role="translator")[0]], [200, 200])


# ---- the page's own words


def case_own_words(world):
    """The page's words are in a catalogue; German has all of them, and the page speaks it where it is wanted."""
    done = subprocess.run([TOP / "tools" / "page_words", "--check"], capture_output=True, text=True, check=False)
    same("the catalogue is the page's, and German has all", (done.returncode, done.stderr), (0, ""))
    tab = PageTab(world, "ann")
    tab.choose("page-language", "de")
    tab.wait_text("#languages", "Sprachen")
    same("its language", (tab.eval("document.documentElement.lang"), tab.eval("document.title")), ("de", "Sprachen – Sample project"))
    has("who", tab.text("#who"), "angemeldet als ann, Übersetzung")
    tab.wait_text("#languages", "Russisch")
    tab.eval("location.hash = '#/de/unit?id=unread'")
    tab.wait_for("#translate")
    same("buttons", tab.eval("[...document.querySelectorAll('#translation .buttons button')].map(it => it.innerText)"), ["Übersetzen", "Vorschlagen"])
    has("a number", tab.text("#found"), "Meldungen")
    same("a text for many and for one", tab.eval("import('./i18n.js').then(it => [1, 2].map(n => it.nt('{count} request waits', '{count} requests wait', n)))"), ["1 Auftrag wartet", "2 Aufträge warten"])
    tab.reload()
    has("also later", tab.text("#who"), "angemeldet als ann")
    same("a language without a name is told once", tab.eval("import('./locales.js').then(it => ['xq', 'pt'].map(code => it.titleOf(code).map(it => it.textContent ?? it)))"),
         [["xq"], ["Portugiesisch", " ", "pt"]])
    tab.choose("page-language", "en")
    tab.wait_text("#languages", "")
    tab.wait_text("#who", "signed in as ann")
    other = chromium.Tab(world.browser)
    other.call("Emulation.setUserAgentOverride", userAgent="Chromium", acceptLanguage="de-AT,de")
    PageTab.sign_in(other, "ann")
    other.call("Page.navigate", url=world.at)
    other.wait_text("#languages", "Sprachen")
    other.close()
    tab.close()


# Of each text on the page the contrast with what is behind it, and of each thing to press its size, where they are too small.
MEASURES = """(() => {
  const numbers = (color) => color.match(/[\\d.]+/g).map(Number);
  const light = (color) => { const [r, g, b] = color.map((it) => { const s = it / 255; return s <= 0.04045 ? s / 12.92 : ((s + 0.055) / 1.055) ** 2.4; });
    return 0.2126 * r + 0.7152 * g + 0.0722 * b; };
  const behind = (it) => { for (; it; it = it.parentElement) { const c = numbers(getComputedStyle(it).backgroundColor); if ((c[3] ?? 1) > 0) return c; }
    return [255, 255, 255]; };
  const ratio = (a, b) => { const [x, y] = [light(a), light(b)].sort((m, n) => n - m); return (x + 0.05) / (y + 0.05); };
  const seen = [...document.querySelectorAll('body *')].filter((it) => it.checkVisibility() && it.getClientRects().length > 0);
  const texts = seen.filter((it) => [...it.childNodes].some((n) => n.nodeType === 3 && n.data.trim()) || 'value' in it);
  const isSeen = (it) => (numbers(getComputedStyle(it).color)[3] ?? 1) > 0;
  const pale = texts.filter(isSeen).map((it) => [it, ratio(numbers(getComputedStyle(it).color).slice(0, 3), behind(it).slice(0, 3))]).filter(([, r]) => r < 4.5);
  const small = seen.filter((it) => it.matches('button, select, input, textarea, nav a, .units a, .languages a'))
    .filter((it) => { const b = it.getBoundingClientRect(); return b.height < 24 || b.width < 24; });
  const name = (it) => `${it.tagName} ${it.id} ${it.className} ${it.textContent.slice(0, 20)}`;
  return { texts: texts.length, pale: pale.map(([it, r]) => `${name(it)} ${r.toFixed(2)}`), small: small.map(name) };
})()"""
NAMED = {"button", "textbox", "searchbox", "combobox", "link", "progressbar", "form", "region", "navigation", "complementary"}


def case_access(world):
    """Names for all that is pressed and filled in, contrast in both colour schemes, headings, and a narrow window."""
    tab = world.tab("ann")
    for path, ready in (("#/", ".languages progress"), ("#/de", "#list a"), ("#/de/unit?id=votes", "#translate")):
        tab.eval(f"location.hash = {json.dumps(path)}")
        tab.wait_for(ready)
        for scheme in ("light", "dark"):
            tab.call("Emulation.setEmulatedMedia", features=[{"name": "prefers-color-scheme", "value": scheme}])
            found = tab.eval(MEASURES)
            same(f"{path}, {scheme}", (found["texts"] > 10, found["pale"], found["small"]), (True, [], []))
        nodes = [it for it in tab.call("Accessibility.getFullAXTree")["nodes"] if not it.get("ignored")]
        kinds = [(it["role"]["value"], it.get("name", {}).get("value", "")) for it in nodes]
        same(f"{path}: names", [it for it in kinds if it[0] in NAMED and not it[1].strip()], [])
        same(f"{path}: landmarks", sorted({it for it, _ in kinds} & {"banner", "main", "complementary"}), ["banner", "complementary", "main"])
        levels = tab.eval("[...document.querySelectorAll('h1, h2, h3, h4')].filter(it => it.checkVisibility()).map(it => Number(it.tagName[1]))")
        same(f"{path}: headings", (levels[0], [it for it in zip(levels, levels[1:]) if it[1] > it[0] + 1]), (1, []))
        tab.size(320, 640)
        same(f"{path}: a narrow window", tab.eval("document.documentElement.scrollWidth - document.documentElement.clientWidth"), 0)
        tab.size(1280, 900)
    tab.call("Emulation.setEmulatedMedia", features=[])
    same("the page's language", tab.eval("document.documentElement.lang"), "en")
    has("its title", tab.eval("document.title"), "votes – German – Sample project")


FINDING = "option type (%u) not implemented in popt\n"


def popt(world, path):
    """The project of the guide in the place of the other one, with some acts."""
    world.office.kill()
    example = TOP / "docs" / "example"
    languages = {"de": (example / "de.po").read_text(), "ru": header(LANGUAGES["ru"]), "ar": header(LANGUAGES["ar"])}
    beginning = [
        {"act": "template", "po": (example / "popt.pot").read_text() + '\n#, c-format\nmsgid "%d file"\nmsgid_plural "%d files"\nmsgstr[0] ""\nmsgstr[1] ""\n'},
        *({"act": "language", "lang": lang, "po": po} for lang, po in languages.items()),
        *(it for it in BEGINNING if it["act"] in ("team", "policy")),
    ]
    world.office = world.relay.office = page_office.Office(world.office.program, path, beginning)
    world.office.start()
    act = world.office.act
    act("ann", act="translate", lang="ru", id="unknown errno", seen=1, forms=["неизвестная ошибка"])
    act("ann", act="translate", lang="de", id=FINDING, seen=1, forms=["Optionstyp ist in popt nicht vorhanden\n"])
    made = act("eve", act="suggest", lang="de", id=FINDING, seen=2, forms=["Optionstyp (%u) kennt popt nicht\n"])[1]["suggestion"]
    act("bea", act="vote", lang="de", id=FINDING, seen=2, suggestion=made, value=1)
    act("rob", act="approve", lang="de", id="unknown errno", seen=1)
    act("bea", act="comment", lang="de", id=FINDING, seen=2, lines=["%u ist die Nummer des Typs."])


def pictures(world, folder):
    """What the page looks like, at some widths."""
    popt(world, world.office.path.with_name("popt.db"))
    tab = PageTab(world, "ann", stays=False)
    tab.wait("document.querySelectorAll('.languages progress').length === 3")
    message = "/unit?" + urllib.parse.urlencode({"id": FINDING})
    for name, path, ready, size in (
        ("languages", "#/", ".languages progress", (1000, 700)),
        ("list", "#/de", "#list a", (1280, 900)),
        ("message", f"#/de{message}", "#translate", (1100, 900)),
        ("wide", f"#/de{message}", "#translate", (1500, 1000)),
        ("memory", "#/de/unit?id=unknown+option", "#memory", (1500, 1000)),
        ("file", "#/de/file", "#download", (1100, 860)),
        ("plural", "#/ru/unit?id=%25d+file", "#form-2", (1280, 900)),
        ("arabic", "#/ar/unit?id=%25d+file", "#form-5", (800, 1100)),
        ("narrow-list", "#/de", "#list a", (360, 740)),
        ("narrow", f"#/de{message}", "#translate", (360, 740)),
    ):
        tab.size(*size)
        tab.eval(f"location.hash = {json.dumps(path)}")
        tab.wait_for(ready)
        tab.rest(0.5)
        tab.shot(folder / f"{name}.png")
        if name == "message":
            tab.call("Emulation.setEmulatedMedia", features=[{"name": "prefers-color-scheme", "value": "dark"}])
            tab.shot(folder / "dark.png")
            tab.call("Emulation.setEmulatedMedia", features=[])
    tab.close()


# ---- all of it


def after_all(world):
    """Whatever was sent: one content under a number, and each number that was answered recorded once."""
    contents = {}
    for use, body, _ in world.relay.posts:
        contents.setdefault(use, set()).add(body)
    same("one content under each number", [it for it, bodies in contents.items() if len(bodies) != 1], [])
    same("faults of the page", world.browser.faults, [])
    hosts = {urllib.parse.urlsplit(it).netloc for it in world.browser.asked if it.startswith("http")}
    same("hosts that were asked", hosts, {urllib.parse.urlsplit(world.at).netloc})
    world.office.kill()
    with contextlib.closing(sqlite3.connect(world.office.path)) as file:
        recorded = [it[0] for it in file.execute("SELECT number FROM record")]
        same("whole", file.execute("PRAGMA integrity_check").fetchall(), [("ok",)])
    same("each record once", len(recorded), len(set(recorded)))


def main():
    words = argparse.ArgumentParser()
    words.add_argument("--program", default=TOP / "crates" / "cli" / "out" / "cli", type=pathlib.Path)
    words.add_argument("--front", choices=("nginx", "haproxy"), default="nginx")
    words.add_argument("--shots", type=pathlib.Path)
    words.add_argument("--times", action="store_true", help="print how long each case takes")
    words.add_argument("words", nargs="*")
    given = words.parse_args()
    cases = [(name, it) for name, it in globals().items() if name.startswith("case_") and (not given.words or any(word in name for word in given.words))]
    with tempfile.TemporaryDirectory() as made, contextlib.ExitStack() as after:
        folder = pathlib.Path(made)
        configuration = {"project": "Sample project", "languages": [*LANGUAGES, "fr"], **TOLD}
        passwords = dict.fromkeys(LOGINS, PASSWORD)
        server, beside = after.enter_context(page_office.front(folder / "front", given.front, passwords, TOP / "share" / "web", configuration))
        (beside / "glossary" / "terms.csv").write_text(CSV)
        (beside / "glossary" / "terms.tbx").write_text(TBX)
        world = World(folder, given.program.resolve(), server, beside)
        after.callback(world.close)
        for name, case in cases:
            begin, world.relay.mode = time.monotonic(), "pass"
            try:
                case(world)
            except TimeoutError as fault:
                same(name, str(fault), "done")
            if given.times:
                print(f"{name}: {time.monotonic() - begin:.1f} s", flush=True)
        if given.shots:
            given.shots.mkdir(parents=True, exist_ok=True)
            pictures(world, given.shots.resolve())
        after_all(world)
    sys.exit(looks.told())


if __name__ == "__main__":
    main()
