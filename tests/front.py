#!/usr/bin/env python3
"""Tries the front servers with the configurations of share/front as they stand, and the units of share/systemd where systemd is installed.

    tests/front.py [--program FILE] [PART..]

PART is rules, queue, projects, acts, oidc or units; all where none is named. The first three ask nginx and HAProxy for what the
configurations promise, before a stand-in for an office, which writes down what reaches it: who the caller is, however a head is
spelled; who may send what, how much and how often, from whatever addresses; what is refused by which status; that no slow client
holds the office. `acts` sends 2,000 translations by 50 and by 500 clients to the program, by each way that DEPLOYING names, also
while it is killed by SIGKILL again and again, and while it moves: each is answered, and recorded once. `oidc` is in front_oidc.py.
It wants nginx with its module of Lua, HAProxy, openssl and curl, and a machine that has time: what comes too fast has to come fast.
FILE is crates/cli/out/cli where none is named.

The last line is 'N looks, M wrong'.
"""
import argparse
import base64
import collections
import concurrent.futures
import contextlib
import dataclasses
import functools
import http.client
import http.server
import json
import pathlib
import random
import re
import shlex
import shutil
import socket
import sqlite3
import struct
import subprocess
import sys
import tempfile
import threading
import time
import uuid

import front_oidc
import front_servers as servers
import looks
from front_servers import ASKED, OPENED, PROJECT, SECONDS, TOP
from looks import HOST, free_port, same
from patience import seconds

PASSWORD = "swordfish"
LONG_NAME = "a" * 32
# Logins, and the caller that each stands for; nothing for one that is no caller's name.
CALLERS = {
    "ann": "ann",
    "Bea": "bea",
    "CAY.x-9_": "cay.x-9_",
    LONG_NAME.upper(): LONG_NAME,
    "root": "root",
    LONG_NAME + "a": None,
    "9lives": None,
    "ann+x": None,
    "ann@example.org": None,
    "ann,root": None,
    "\u00e4nn": None,
}
# The busy one sends more than one may, by six logins; the slow one doesn't end, and what the others send is refused.
BUSY = ["busy", "Busy", "BUSY", "bUsy", "buSy", "busY"]
LOGINS = {it: PASSWORD for it in [*CALLERS, *BUSY, "slow", "refused", "small", "at-once", "gone", "done"]}
# From where messages come. No address is used for two cases of wrong passwords.
ADDRESSES = [f"127.0.0.{it}" for it in range(2, 22)]
GUESSING, GUESSING_SLOWLY = "127.0.1.1", "127.0.1.2"
# What an export is, by the end of its path.
TEXTS = {"long": b"# long\n" * 600_000, "middle": b"# text\n" * 14_000, "de": b"# short\n"}
# Lines of a head that tell of a caller, in ways that a server behind might hear.
SPELLED_CALLERS = [
    ["X-Office-Caller: root"],
    ["x-office-caller: root"],
    ["X-OFFICE-CALLER:root"],
    ["X_Office_Caller: root"],
    ["X_OFFICE-CALLER: root"],
    ["X-Office-Caller: root", "X-Office-Caller: root"],
    ["X-Office-Caller: root", "x_office_caller: root"],
    ["X-Office-Caller: "],
    ["X-Office-Caller:\troot\t"],
    ["Connection: X-Office-Caller", "X-Office-Caller: root"],
    ["Connection: close, x-office-caller"],
    ["Connection: keep-alive", "Keep-Alive: timeout=60", "X-Office-Caller: root"],
]
# What is no line of a head.
BROKEN_LINES = [
    "X-Office-Caller : root",
    "X-Office-Caller\t: root",
    "X-Other: a\r\n X-Office-Caller: root",
    "X-Other: a\rX-Office-Caller: root",
    "X-Other: a\nX-Office-Caller: root",
    "X-Other: a\0X-Office-Caller: root",
    "\x0bX-Office-Caller: root",
    "X-Office-Caller\xa0: root",
]
OTHER_TYPES = [
    None,
    "",
    "text/plain",
    "application/x-www-form-urlencoded",
    "multipart/form-data; boundary=application/json",
    "application/jsonp",
    "application/json+x",
    "text/plain; application/json",
    # A browser sends this one for any site, without asking first.
    "text/plain;x=, application/json",
    "text/plain, application/json",
]
OTHER_ORIGINS = [
    "https://evil.example",
    "null",
    "https://translate.example.org.evil.example",
    "https://translate.example",
    "https://evil.example/translate.example.org",
    "https://translate.example.org:8443",
    "https://xtranslate.example.org",
    "translate.example.org",
    "file://",
    "https://",
]


# ---- a stand-in for an office


@dataclasses.dataclass
class Message:
    """A message that reached the office: its first line, the lines of its head, its body, the connection it came by, and what else that had."""

    first: str
    lines: list
    body: bytes
    connection: int
    rest: bytes = b""

    def values(self, name):
        """The values of a header, also where a server behind might take another spelling for it."""
        pairs = [it.partition(":") for it in self.lines]
        return [value.strip() for found, _, value in pairs if found.strip().lower().replace("_", "-") == name]


class StandIn:
    """Takes connections as an office does: one after another, each kept as long as its client doesn't ask for less. A body that begins with
    {"told":403, is answered by that status, and each message behind a pause."""

    def __init__(self, path):
        self.messages, self.connections, self.pause = [], 0, 0
        self.listener = socket.socket(socket.AF_UNIX)
        self.listener.bind(str(path))
        self.listener.listen(4096)
        threading.Thread(target=self.serve, daemon=True).start()

    def serve(self):
        while True:
            connection, _ = self.listener.accept()
            self.connections += 1
            with contextlib.suppress(OSError, ValueError), connection, connection.makefile("rb") as reader:
                while self.answer(connection, reader):
                    pass

    def answer(self, connection, reader):
        """Whether the connection goes on."""
        head = b"".join(iter(reader.readline, b"\r\n")).decode("latin-1").split("\r\n")[:-1]
        if not head:
            return False
        message = Message(head[0], head[1:], b"", self.connections)
        message.body = reader.read(int((message.values("content-length") or ["0"])[0]))
        self.messages.append(message)
        time.sleep(self.pause)
        export = "/export/" in head[0]
        text = TEXTS.get(head[0].split()[1].rpartition("/")[2], b"") if export else b'{"revision":2,"state":"translated"}'
        status = (re.findall(rb'^{"told":([0-9]{3}),', message.body) or [b"200"])[0].decode()
        closes = head[0].endswith("HTTP/1.0") or "close" in [it.lower() for it in message.values("connection")]
        kind = "text/plain; charset=utf-8" if export else "application/json"
        end = "Connection: close\r\n" if closes else ""
        connection.sendall(f"HTTP/1.1 {status} Told\r\nContent-Type: {kind}\r\nContent-Length: {len(text)}\r\n{end}\r\n".encode() + text)
        if closes:
            connection.shutdown(socket.SHUT_WR)
            message.rest = reader.read()
        return not closes

    def taken(self):
        """What has come since this was asked before."""
        messages, self.messages = self.messages, []
        return messages


# ---- clients


@dataclasses.dataclass
class Answer:
    status: int
    headers: dict
    body: bytes


def signed(login, password=PASSWORD):
    return "Authorization: Basic " + base64.b64encode(f"{login}:{password}".encode()).decode()


def message(method, path, *lines, body=b"", length=True):
    """A message as it is written here, line for line."""
    given = [f"{method} {path} HTTP/1.1", "Host: translate.example.org", *lines]
    if body and length:
        given.append(f"Content-Length: {len(body)}")
    return "\r\n".join(given).encode() + b"\r\n\r\n" + body


def path_of_act():
    return f"/v1/requests/{uuid.uuid4()}"


def act(login, *lines, body=b"{}", kind="application/json", length=True):
    kinds = [f"Content-Type: {kind}"] if kind else []
    return message("POST", path_of_act(), signed(login), *kinds, *lines, body=body, length=length)


def answer_of(connection, method=None):
    """The first answer on a connection, to a message of this method; the status 0 where there is none."""
    response = http.client.HTTPResponse(connection, method=method)
    try:
        response.begin()
        headers = collections.defaultdict(list)
        for name, value in response.getheaders():
            headers[name.lower()].append(value)
        return Answer(response.status, headers, response.read())
    except (http.client.HTTPException, OSError):
        return Answer(0, {}, b"")


def told(front, given, seconds=SECONDS, source=HOST):
    """The answer to a message that comes from this address."""
    with socket.create_connection((HOST, front.port), timeout=seconds, source_address=(source, 0)) as connection:
        with contextlib.suppress(BrokenPipeError, ConnectionResetError):
            connection.sendall(given)
        return answer_of(connection, given.partition(b" ")[0].decode())


# ---- rules: what both fronts promise


def refused(front, office, what, given, status, word=None):
    """An answer of the front itself, by its status (RFC 9110, 15.5) and its word; nothing reaches the office."""
    found = told(front, given)
    same(f"{front.name}: {what}", found.status, status)
    if word:
        same(f"{front.name}: {what}, in a word", (found.headers["content-type"], found.body), (["application/json"], b'{"error":"%s"}' % word.encode()))
    same(f"{front.name}: {what}, at the office", [it.first for it in office.taken()], [])
    return found


def let_in(front, office, what, given, caller="ann"):
    """One message reaches the office, by one caller, and its answer comes back."""
    found = told(front, given)
    same(f"{front.name}: {what}", found.status, 200)
    reached = office.taken()
    same(f"{front.name}: {what}, the callers", [it.values("x-office-caller") for it in reached], [[caller]])
    same(f"{front.name}: {what}, and no more", [it.rest for it in reached], [b""])
    return reached[0] if reached else Message("", [], b"", 0)


def sign_in(front, office):
    """401 has a challenge (RFC 9110, 15.5.2), for the page as for the office."""
    look = "/v1/stats/de"
    for path in (look, "/", "/caller", "/office.json", path_of_act()):
        for what, lines in {
            "no login": (),
            "a wrong password": (signed("ann", "x"),),
            "an empty one": (signed("ann", ""),),
            "an unknown login": (signed("eve"),),
            "another case": (signed("ANN"),),
            "another scheme": ("Authorization: Bearer ann",),
            "a caller alone": ("X-Office-Caller: ann",),
        }.items():
            method = "POST" if "requests" in path else "GET"
            kinds = ("Content-Type: application/json",) if method == "POST" else ()
            body = b"{}" if method == "POST" else b""
            found = refused(front, office, f"{what}, {path[:12]}", message(method, path, *lines, *kinds, body=body), 401, "sign-in")
            same(f"{front.name}: the challenge", found.headers["www-authenticate"][0][:11], "Basic realm")
    reached = let_in(front, office, "a look", message("GET", look, signed("ann")))
    same(f"{front.name}: a look's path", reached.first.split()[:2], ["GET", look])


def callers(front, office):
    """The caller is the login's, whatever the head says, however it is spelled."""
    for login, caller in CALLERS.items():
        if caller:
            let_in(front, office, f"the login {login}", act(login), caller)
        else:
            refused(front, office, f"the login {login}", act(login), 403, "login")
            refused(front, office, f"the login {login}, who am I", message("GET", "/caller", signed(login)), 403, "login")
            same(f"{front.name}: it may look", told(front, message("GET", "/v1/stats/de", signed(login))).status, 200)
            office.taken()
    found = told(front, message("GET", "/caller", signed("Bea")))
    same(f"{front.name}: who am I", (found.headers["content-type"], found.body), (["application/json"], b'{"caller":"bea"}'))
    for lines in SPELLED_CALLERS:
        let_in(front, office, f"beside {lines}", act("ann", *lines))
        given = message("POST", path_of_act(), *lines, signed("ann"), "Content-Type: application/json", body=b"{}")
        let_in(front, office, f"behind {lines}", given)
    # What is no line of a head may be refused whole (RFC 9112, 5.1 and 5.2), or be dropped.
    for line in BROKEN_LINES:
        found = told(front, act("ann", line))
        reached = [it.values("x-office-caller") for it in office.taken()]
        same(f"{front.name}: {line!r} is {found.status}", (found.status, reached) in [(400, []), (200, [["ann"]])], True)


def contents(front, office):
    """An act is JSON (415: RFC 9110, 15.5.16; a media type counts in any case, 8.3.1), from the project's own page or from a program."""
    for kind in ("application/json", "application/json; charset=utf-8", "Application/JSON", "application/json;charset=utf-8"):
        let_in(front, office, f"the type {kind}", act("ann", kind=kind))
    for kind in OTHER_TYPES:
        refused(front, office, f"the type {kind}", act("ann", kind=kind), 415, "type")
    for line in ("Sec-Fetch-Site: cross-site", "Sec-Fetch-Site: same-site", "Sec-Fetch-Site: Cross-Site", "Sec-Fetch-Site: anything"):
        refused(front, office, line, act("ann", line), 403, "other-site")
    for origin in OTHER_ORIGINS:
        # A server may take an origin without a scheme for its host's: no browser sends one.
        if origin != "translate.example.org" or front.name == "nginx":
            refused(front, office, f"the origin {origin}", act("ann", f"Origin: {origin}"), 403, "other-site")
    for lines in (
        ["Sec-Fetch-Site: same-origin", "Origin: https://translate.example.org"],
        ["Sec-Fetch-Site: none"],
        ["Origin: http://translate.example.org"],
    ):
        let_in(front, office, str(lines), act("ann", *lines))
    found = told(front, message("OPTIONS", path_of_act(), "Origin: https://evil.example", "Access-Control-Request-Method: POST"))
    allows = [it for it in found.headers if it.startswith("access-control")]
    same(f"{front.name}: what another site may is asked for without a login", (found.status >= 400, allows), (True, []))
    office.taken()


def lengths(front, office):
    """A length is told (411: RFC 9110, 15.5.12), and long acts are managers' alone (413: 15.5.14)."""
    let_in(front, office, "an act of 99,999 bytes", act("ann", body=b"x" * 99_999))
    refused(front, office, "one of 100,000", act("ann", body=b"x" * 100_000), 413, "too-large")
    refused(front, office, "a manager's login that isn't root's", act("Bea", body=b"x" * 100_000), 413, "too-large")
    reached = let_in(front, office, "a manager's of 20,971,520", act("root", body=b"x" * 20_971_520), "root")
    same(f"{front.name}: its body", len(reached.body), 20_971_520)
    refused(front, office, "a manager's of 20,971,521", act("root", body=b"x" * 20_971_521), 413, "too-large")
    for login in ("ann", "root"):
        chunked = act(login, "Transfer-Encoding: chunked", body=b"2\r\n{}\r\n0\r\nX-Office-Caller: root\r\n\r\n", length=False)
        refused(front, office, f"chunks of {login}", chunked, 411, "length")
        refused(front, office, f"no length of {login}", act(login, body=b""), 411, "length")
    # One head is one message, or none (RFC 9112, 6.3): nothing behind it is taken for another.
    hidden = act("ann")
    for what, lines in {
        "two lengths": ["Content-Length: 2", f"Content-Length: {len(hidden)}"],
        "a length and chunks": ["Transfer-Encoding: chunked", f"Content-Length: {len(hidden)}"],
        "a length in words": ["Content-Length: 2x"],
        "a list of lengths": ["Content-Length: 2, 200"],
        "a negative length": ["Content-Length: -2"],
        "another coding": ["Transfer-Encoding: xchunked", "Content-Length: 2"],
    }.items():
        found = told(front, act("ann", *lines, body=b"0\r\n\r\n" + hidden, length=False))
        reached = [len(it.body) for it in office.taken()]
        same(f"{front.name}: {what}", (found.status in (400, 411, 501), reached), (True, []))
    # A question has no body for the office, whatever comes.
    found = told(front, message("GET", "/v1/stats/de", signed("ann"), body=hidden))
    reached = office.taken()
    same(f"{front.name}: a question with a body", found.status in (200, 413), True)
    same(f"{front.name}: its body stays", [(it.first.split()[0], it.body + it.rest) for it in reached], [("GET", b"")] * (found.status == 200))
    same(f"{front.name}: a long one", told(front, message("GET", "/v1/stats/de", signed("ann"), body=b"x" * 200_000)).status, 413)
    office.taken()


def heads(front, office):
    """The office takes 32 header lines and 8,192 bytes; each message has a connection of its own, which is closed."""
    before = office.connections
    for lines in ([f"X-Line-{n}: {n}" for n in range(60)], ["Cookie: " + "c" * 3000, "User-Agent: " + "u" * 3000, "Referer: " + "r" * 3000]):
        reached = let_in(front, office, "a long head", act("ann", *lines))
        names = {it.split(":")[0].lower() for it in reached.lines} - {"connection"}
        same(f"{front.name}: the lines that reach the office", names, {"host", "x-office-caller", "content-length"})
    with socket.create_connection((HOST, front.port), timeout=SECONDS) as connection:
        for _ in range(5):
            connection.sendall(message("GET", "/v1/stats/de", signed("ann")))
            same(f"{front.name}: on a kept connection", answer_of(connection).status, 200)
    reached = office.taken()
    same(f"{front.name}: a connection for each", len({it.connection for it in reached}), 5)
    same(f"{front.name}: and none beside", office.connections - before, 7)
    query = "/v1/unit?lang=de&id=%C3%A4%20b+c%2Fd&ctx=..%2F"
    same(f"{front.name}: a query as it came", [let_in(front, office, "a query", message("GET", query, signed("ann"))).first.split()[1]], [query])
    absolute = "http://translate.example.org" + path_of_act()
    for path in ("/v1/requests/../stats/de", "/v1//stats/de", "/v1/%72equests/x", "/v1/stats/%2e%2e/requests/x", "//v1/requests/x", absolute):
        found = told(front, message("POST", path, signed("9lives"), "Content-Type: text/plain", body=b"{}"))
        reached = office.taken()
        acts = [it.first for it in reached if "/v1/requests/" in it.first and ".." not in it.first]
        same(f"{front.name}: {path} is no act past the rules ({found.status})", acts, [])
    found = told(front, act("ann").replace(b"POST /", b"POST http://translate.example.org/"))
    same(f"{front.name}: the form with a host", (found.status, [it.values("x-office-caller") for it in office.taken()]), (200, [["ann"]]))


def slow(front, office):
    """Neither a slow sender nor a slow reader holds the office."""
    with contextlib.ExitStack() as stack:
        for _ in range(3):
            sender = stack.enter_context(socket.create_connection((HOST, front.port), timeout=SECONDS))
            sender.sendall(act("slow", body=b"x" * 90_000)[:-80_000])
        silent = stack.enter_context(socket.create_connection((HOST, front.port), timeout=SECONDS))
        silent.sendall(b"GET ")
        time.sleep(0.5)
        begun = time.monotonic()
        same(f"{front.name}: beside slow senders", told(front, message("GET", "/v1/stats/de", signed("root"))).status, 200)
        same(f"{front.name}: at once", time.monotonic() - begun < seconds(2), True)
    office.taken()
    # nginx holds back a whole text, HAProxy 128 KB of it.
    name = "long" if front.name == "nginx" else "middle"
    with socket.socket() as reader:
        reader.setsockopt(socket.SOL_SOCKET, socket.SO_RCVBUF, 4096)
        reader.settimeout(SECONDS)
        reader.connect((HOST, front.port))
        reader.sendall(message("GET", f"/v1/export/{name}", signed("ann")))
        time.sleep(0.5)
        begun = time.monotonic()
        same(f"{front.name}: beside a slow reader", told(front, message("GET", "/v1/stats/de", signed("root"))).status, 200)
        same(f"{front.name}: at once", time.monotonic() - begun < seconds(2), True)
        same(f"{front.name}: the slow reader gets all", answer_of(reader).body, TEXTS[name])
    office.taken()


def asks(path):
    """What makes the message by which a login asks for this."""
    return lambda login: message("GET", path, signed(login))


def act_rate(front, office):
    """What comes too fast is 429 with Retry-After (RFC 6585, 4), of one caller alone, by whatever addresses and logins it comes. nginx takes 20 acts
    a second and lets 40 wait; HAProxy takes ten seconds together. A manager sends ten times as many."""
    hasty(front, office, "acts", act, *((300, 41, 20, 2) if front.name == "nginx" else (260, 200, 0, 0)))
    statuses = [told(front, message("GET", "/v1/stats/de", signed("busy"))).status for _ in range(5)]
    same(f"{front.name}: and questions", statuses, [200] * 5)
    statuses = collections.Counter(it.status for it in together(front, [act("root") for _ in range(300)]))
    same(f"{front.name}: 300 acts of a manager", statuses, {200: 300})
    office.taken()


def text_rate(front, office):
    """The same of whole texts: nginx takes two a second and lets 10 wait."""
    slowly = front.name == "nginx"
    hasty(front, office, "exports", asks("/v1/export/de"), *((25, 11, 2, 5) if slowly else (40, 20, 0, 0)))
    hasty(front, office, "exports of a domain", asks("/v1/domains/man/export/de"), *((25, 0, 2, 0) if slowly else (40, 0, 0, 0)))


def question_rate(front, office):
    """The same of all other questions: nginx takes 100 a second and lets 200 wait, of which the first 100 don't."""
    hasty(front, office, "questions", asks("/v1/unit?lang=de&id=x"), *((900, 201, 100, 1) if front.name == "nginx" else (1_300, 995, 0, 0, 200)))


def together(front, messages):
    """The answers to messages that come at once, each on a connection of its own, from twenty addresses in turn."""
    with contextlib.ExitStack() as stack:
        ways = [
            stack.enter_context(socket.create_connection((HOST, front.port), timeout=SECONDS, source_address=(ADDRESSES[it % 20], 0)))
            for it in range(len(messages))
        ]
        for way, given in zip(ways, messages):
            way.sendall(given)
        return [answer_of(it) for it in ways]


def hasty(front, office, what, given, count, taken, more, lasts, step=20):
    """So many messages at once, or where none may wait at the front, `step` at a time: `taken` of them, and `more` a second, are let in, the
    last behind so many seconds; somebody else doesn't wait."""
    messages, step = [given(BUSY[it % len(BUSY)]) for it in range(count)], count if more else step
    begun = time.monotonic()
    with concurrent.futures.ThreadPoolExecutor(1) as pool:
        coming = pool.submit(lambda: [it for at in range(0, count, step) for it in together(front, messages[at : at + step])])
        time.sleep(0.3)
        other = time.monotonic()
        same(f"{front.name}: another caller among the {what}", told(front, given("ann")).status, 200)
        same(f"{front.name}: at once", time.monotonic() - other < seconds(1), True)
        answers = coming.result()
    took = time.monotonic() - begun
    statuses = collections.Counter(it.status for it in answers)
    same(f"{front.name}: {what}, all answered", {429} <= set(statuses) <= {200, 429}, True)
    # (behind ten seconds HAProxy takes as many again)
    most = taken + 6 + more * took if more or took < 10 else count
    same(f"{front.name}: {what}, {statuses[200]} in {took:.1f} s", taken <= statuses[200] <= most, True)
    same(f"{front.name}: {what}, the last in {took:.1f} s", took > 0.9 * lasts, True)
    same(f"{front.name}: {what}, as many reach the office", len(office.taken()), statuses[200] + 1)
    late = {(*it.headers["retry-after"], it.body) for it in answers if it.status == 429}
    same(f"{front.name}: {what}, when to come again", late, {("1", b'{"error":"rate"}')})


def in_one_minute():
    """Waits, where it is needed, so that what follows falls into one minute of the clock."""
    if time.time() % 60 > 45:
        time.sleep(60 - time.time() % 60)


def passwords(front, office):
    """Wrong passwords use up what their address has, and no caller's rate; behind 120 of them in a minute none is looked at there, but one that
    was right there before."""
    in_one_minute()

    def look(login, source, password=PASSWORD):
        return told(front, message("GET", "/v1/stats/de", signed(login, password)), source=source).status

    wrong_act = act("ann").replace(signed("ann").encode(), signed("ann", "x").encode())
    with concurrent.futures.ThreadPoolExecutor(60) as pool:
        guesses = [pool.submit(told, front, wrong_act, SECONDS, [GUESSING_SLOWLY, *ADDRESSES][it % 3]) for it in range(240)]
        begun = time.monotonic()
        same(f"{front.name}: acts of their owner", [told(front, act("ann"), source=GUESSING_SLOWLY).status for _ in range(10)], [200] * 10)
        same(f"{front.name}: at once", time.monotonic() - begun < seconds(2), True)
        same(f"{front.name}: wrong passwords", {it.result().status for it in guesses}, {401})
    same(f"{front.name}: acts of their owner behind them", [told(front, act("ann"), source=GUESSING_SLOWLY).status for _ in range(10)], [200] * 10)
    same(f"{front.name}: somebody is signed in there", look("Bea", GUESSING), 200)
    statuses = [look("ann", GUESSING, "x") for _ in range(200)]
    same(f"{front.name}: guesses", (statuses[:120], set(statuses[121:])), ([401] * 120, {429}))
    late = told(front, message("GET", "/", signed("ann", "x")), source=GUESSING)
    same(f"{front.name}: when to come again", (late.status, late.headers["retry-after"], late.body), (429, ["60"], b'{"error":"rate"}'))
    same(f"{front.name}: a right password is no better there", look("ann", GUESSING), 429)
    same(f"{front.name}: none is", told(front, message("GET", "/"), source=GUESSING).status, 429)
    same(f"{front.name}: who was signed in there", look("Bea", GUESSING), 200)
    same(f"{front.name}: with another password", look("Bea", GUESSING, "x"), 429)
    same(f"{front.name}: from elsewhere", [look(it, source) for it in ("ann", "Bea") for source in (HOST, GUESSING_SLOWLY)], [200] * 4)
    office.taken()


REFUSED_BYTES = 2_000_000


def told_as(status, login, size=99_850):
    body = b'{"told":%d,' % status
    return act(login, body=body + b"x" * (size - len(body)))


def refusals(front, office):
    """2,000,000 bytes of a caller's acts may be refused in an hour, by whatever statuses and addresses, those on their way among them."""
    kinds = (403, 404, 409, 422)
    statuses = [told(front, told_as(kinds[it % 4], "refused"), source=ADDRESSES[it % 20]).status for it in range(25)]
    same(f"{front.name}: refused acts", statuses, [kinds[it % 4] for it in range(20)] + [429] * 5)
    late = told(front, told_as(200, "refused", 5_000))
    same(f"{front.name}: a short one more", (late.status, late.headers["retry-after"], late.body), (429, ["60"], b'{"error":"refused"}'))
    same(f"{front.name}: they may look", told(front, message("GET", "/v1/stats/de", signed("refused"))).status, 200)
    same(f"{front.name}: what reaches the office", sum(len(it.body) for it in office.taken()) <= REFUSED_BYTES, True)
    let_in(front, office, "another caller", act("ann"))
    # A record has some 150 bytes beside its content, and HAProxy counts heads.
    statuses = [told(front, told_as(403, "small", it)).status for it in [99_850] * 19 + [99_000] + [40] * 30]
    same(f"{front.name}: small ones cost their records", (statuses[:20], statuses.count(403) <= 25, set(statuses[25:])), ([403] * 20, True, {429}))
    same(f"{front.name}: what is done costs nothing", {told(front, told_as(200, "done")).status for _ in range(40)}, {200})
    same(f"{front.name}: nor what is no reply", {told(front, told_as(it, "done")).status for it in (400, 413, 500, 503, 507) * 6}, {400, 413, 500, 503, 507})
    same(f"{front.name}: a manager's", {told(front, told_as(422, "root", 1_000_000)).status for _ in range(5)}, {422})
    office.taken()
    office.pause = 0.05
    with concurrent.futures.ThreadPoolExecutor(60) as pool:
        statuses = collections.Counter(pool.map(lambda _: told(front, told_as(403, "at-once")).status, range(60)))
    same(f"{front.name}: at once", (10 <= statuses[403] <= 20, set(statuses)), (True, {403, 429}))
    same(f"{front.name}: at once, at the office", len(office.taken()), statuses[403])
    office.pause = 0.15
    for _ in range(40):
        with socket.create_connection((HOST, front.port), timeout=SECONDS) as connection:
            connection.setsockopt(socket.SOL_SOCKET, socket.SO_LINGER, struct.pack("ii", 1, 0))
            connection.sendall(told_as(403, "gone"))
            time.sleep(0.07)
    reached = -1
    while len(office.messages) > reached:
        reached = len(office.messages)
        time.sleep(1)
    office.pause = 0
    office.taken()
    same(f"{front.name}: by who goes away before the answer, {reached}", 5 <= reached <= 20, True)


def methods(front, office):
    """What the front answers itself is asked for by GET, or HEAD; else it is 405, with what would do (RFC 9110, 15.5.6)."""
    for path in ("/caller", "/office.json"):
        for method in ("POST", "PUT", "DELETE", "PATCH", "OPTIONS", "FOO"):
            found = told(front, message(method, path, signed("ann"), "Content-Type: application/json", body=b"{}"))
            same(f"{front.name}: {method} {path}", (found.status, found.headers["allow"], found.body), (405, ["GET, HEAD"], b'{"error":"method"}'))
        found = told(front, message("HEAD", path, signed("ann"), "Connection: close"))
        same(f"{front.name}: HEAD {path}", found.status, 200)
    same(f"{front.name}: nothing of it at the office", office.taken(), [])


def escapes(front, office):
    """A path's words may be escaped (RFC 3986, 2.1): the office gets them as they are meant, or as they came where they are none of its words."""
    for path, meant in {
        "/v1/stats/sr%40latin": "/v1/stats/sr@latin",
        "/v1/stats/pt%5FBR": "/v1/stats/pt_BR",
        "/v1/export/%64e": "/v1/export/de",
        "/v1/domains/man%2Dpages/stats/de": "/v1/domains/man-pages/stats/de",
        "/v1/%75nit?lang=de&id=%C3%A4%40%2F": "/v1/unit?lang=de&id=%C3%A4%40%2F",
        "/v1/stats/%C3%A4": "/v1/stats/%C3%A4",
        "/v1/stats/a%20b": "/v1/stats/a%20b",
        "/v1/stats/a%3Fb": "/v1/stats/a%3Fb",
        "/v1/stats/a%23b": "/v1/stats/a%23b",
        "/v1/stats/a%25%34%30b": "/v1/stats/a%25%34%30b",
        "/v1/stats/a%0d%0aX-Office-Caller:%20root%0d%0a": "/v1/stats/a%0d%0aX-Office-Caller:%20root%0d%0a",
    }.items():
        reached = let_in(front, office, path, message("GET", path, signed("ann")))
        same(f"{front.name}: {path}", reached.first.split()[1:2], [meant])
    path = path_of_act()
    given = message("POST", path.replace("requests", "%72%65quests"), signed("ann"), "Content-Type: application/json", body=b"{}")
    same(f"{front.name}: an act's path", let_in(front, office, "an act's path", given).first.split()[1], path)
    refused(front, office, "an act's path, as text", given.replace(b"application/json", b"text/plain"), 415, "type")


def signed_out_page(front, what, given, challenges=1):
    """A person is told by a page, which leads back to where one signs in."""
    found = told(front, given)
    same(f"{front.name}: {what}, a page", (found.status, found.headers["content-type"]), (401, ["text/html; charset=utf-8"]))
    same(f"{front.name}: {what}, the challenge", [it[:11] for it in found.headers.get("www-authenticate", [])], ["Basic realm"] * challenges)
    same(f"{front.name}: {what}, words and a way back", re.findall('>([^<>]+)<|href="([^"]*)"', found.body.decode())[1:], [("You are not signed in. ", ""), ("", "/"), ("Sign in", "")])


def sign_out(front, office):
    """A browser forgets a password that it is asked for again; a person gets a page, all others JSON; another site can't have that done."""
    for accept in ASKED:
        lines = [signed("ann"), *([f"Accept: {accept}"] if accept else [])]
        found = refused(front, office, f"sign-out, {accept}", message("GET", "/sign-out", *lines), 401, "sign-in")
        same(f"{front.name}: the challenge, {accept}", [it[:11] for it in found.headers["www-authenticate"]], ["Basic realm"])
    for accept in OPENED:
        signed_out_page(front, f"sign-out, {accept}", message("GET", "/sign-out", signed("ann"), f"Accept: {accept}"))
        for path in ("/sign-out", "/"):
            signed_out_page(front, f"{path} by nobody, {accept}", message("GET", path, f"Accept: {accept}"))
    site = "Sec-Fetch-Site: cross-site"
    for accept in (ASKED[1], OPENED[0]):
        refused(front, office, f"sign-out by another site, {accept}", message("GET", "/sign-out", signed("ann"), site, f"Accept: {accept}"), 403, "other-site")


def page(front, office):
    """The page comes from the same origin, with a policy under which nothing runs but its own files (Content Security Policy, level 3)."""
    kinds = {"/": "text/html", "/page.js": "javascript", "/page.css": "text/css", "/v1/stats/de": "json", "/caller": "json", "/office.json": "json"}
    for path, kind in kinds.items():
        found = told(front, message("GET", path, signed("ann")))
        same(f"{front.name}: {path}", (found.status, kind in found.headers["content-type"][0]), (200, True))
        policy = dict(it.strip().partition(" ")[::2] for it in found.headers["content-security-policy"][0].split(";"))
        same(f"{front.name}: {path}, by default", policy["default-src"], "'none'")
        same(f"{front.name}: {path}, scripts and styles", (policy["script-src"], policy["style-src"], policy["connect-src"]), ("'self'",) * 3)
        same(f"{front.name}: {path}, no frames, no bases", (policy["frame-ancestors"], policy["base-uri"]), ("'none'", "'none'"))
        same(f"{front.name}: {path}, once", len(found.headers["content-security-policy"]), 1)
        told_once = ("x-content-type-options", "referrer-policy", "cross-origin-opener-policy", "cross-origin-resource-policy")
        same(f"{front.name}: {path}, to itself", [found.headers[it] for it in told_once], [["nosniff"], ["no-referrer"], ["same-origin"], ["same-origin"]])
        kept = "no-cache" if "page" in path or path == "/" else "no-store"
        same(f"{front.name}: {path}, kept", found.headers["cache-control"], [kept])
    out = told(front, message("GET", "/sign-out", signed("ann")))
    same(f"{front.name}: signed out", (out.status, out.headers["www-authenticate"], out.body), (401, ['Basic realm="Translations"'], b'{"error":"sign-in"}'))
    same(f"{front.name}: the page's own", json.loads(told(front, message("GET", "/office.json", signed("ann"))).body)["project"], "Example")
    for path in ("/../office/managers", "/%2e%2e/office/managers", "/..%2foffice/users", "/page/../../nginx.conf", "/.htpasswd"):
        same(f"{front.name}: {path}", told(front, message("GET", path, signed("ann"))).status in (400, 403, 404), True)
    office.taken()


def by_http2(front, office):
    """The same rules over HTTP/2, where names are in lower case, and a length need not be told."""
    base = ["curl", "-s", "-k", "--http2", "-m", str(SECONDS), "-o", "/dev/null", "-w", "%{http_version} %{http_code}", "-u", f"ann:{PASSWORD}"]
    url = f"https://{HOST}:{front.port}"
    json_lines = ["-H", "Content-Type: application/json"]

    def status(*words):
        return subprocess.run([*base, *words], capture_output=True, text=True, check=False).stdout

    spelled = ["-H", "X-Office-Caller: root", "-H", "X_Office_Caller: root", "-H", "x-office-caller: root"]
    same(f"{front.name}: an act over HTTP/2", status(*json_lines, *spelled, "-d", "{}", url + path_of_act()), "2 200")
    same(f"{front.name}: its caller", [it.values("x-office-caller") for it in office.taken()], [["ann"]])
    same(f"{front.name}: another type", status("-d", "{}", url + path_of_act()), "2 415")
    same(f"{front.name}: another site", status(*json_lines, "-H", "Origin: https://evil.example", "-d", "{}", url + path_of_act()), "2 403")
    same(f"{front.name}: the same", status(*json_lines, "-H", f"Origin: {url}", "-d", "{}", url + path_of_act()), "2 200")
    same(f"{front.name}: a long one", status(*json_lines, "-d", "x" * 100_000, url + path_of_act()), "2 413")
    office.taken()
    given = ["-X", "POST", "-H", "Content-Length:", "-T", "-"]
    done = subprocess.run([*base, *json_lines, *given, url + path_of_act()], input=b"x" * 100_000, capture_output=True, check=False)
    same(f"{front.name}: one without a length", (done.stdout, office.taken()), (b"2 411", []))


def log(front, office):
    """The front's log says who sent which request, and its status."""
    path = path_of_act()
    given = message("POST", path, signed("Bea"), "Content-Type: application/json", body=b"{}")
    same(f"{front.name}: an act for its log", told(front, given).status, 200)
    time.sleep(0.2)
    lines = [it for it in front.log.read_text().splitlines() if path in it]
    told_by = {"nginx": " - Bea [", "haproxy": "{bea}"}[front.name]
    same(f"{front.name}: its log", [(told_by in it, " 200 " in it, PASSWORD in it) for it in lines], [(True, True, False)])
    office.taken()


def no_office(front, office):
    """Where no office is there, or it breaks off, the front says so in a word, as 502 or 503 (RFC 9110, 15.6)."""
    front.socket.unlink()
    found = told(front, act("ann"))
    same(f"{front.name}: no office", (found.status in (502, 503), found.headers["content-type"], found.body), (True, ["application/json"], b'{"error":"no-office"}'))
    same(f"{front.name}: but who is signed in", told(front, message("GET", "/caller", signed("ann"))).status, 200)
    office.taken()


def behind(front, office):
    """Behind a server that signs people in: the caller is the one that its header names, and without one nobody is signed in."""

    def by(*lines, path=None, login=()):
        path = path or path_of_act()
        body, kinds = (b"{}", ("Content-Type: application/json",)) if "requests" in path else (b"", ())
        return message("POST" if body else "GET", path, *lines, *kinds, *login, body=body)

    for path in ("/", "/caller", "/office.json", "/v1/stats/de", "/v1/export/de", None):
        for lines in ((), ("X-Forwarded-User: ",), ("X-Forwarded-User: \t ",), ("X-Office-Caller: root",), (signed("ann"),)):
            refused(front, office, f"behind another server, {lines}, {path}", by(*lines, path=path), 401, "sign-in")
    for login, caller in CALLERS.items():
        if caller and login.isascii():
            let_in(front, office, f"behind another server, {login}", by(f"X-Forwarded-User: {login}", "X-Office-Caller: root"), caller)
        elif login.isascii():
            refused(front, office, f"behind another server, {login}", by(f"X-Forwarded-User: {login}"), 403, "login")
    for lines in ((), ("X-Forwarded-User: \t ",)):
        signed_out_page(front, f"behind another server, {lines}", by(*lines, f"Accept: {OPENED[0]}", path="/"), challenges=0)
    found = told(front, by("X-Forwarded-User: Bea", path="/caller"))
    same(f"{front.name}: behind another server, who am I", found.body, b'{"caller":"bea"}')
    statuses = {told(front, by(path="/v1/stats/de")).status for _ in range(300)}
    same(f"{front.name}: nobody is signed in, again and again", (statuses, told(front, by("X-Forwarded-User: ann")).status), ({401}, 200))
    office.taken()


@contextlib.contextmanager
def page_server(folder):
    """A server of files, for the fronts that have none."""
    handler = functools.partial(QuietFiles, directory=folder)
    with http.server.ThreadingHTTPServer((HOST, 0), handler) as it:
        threading.Thread(target=it.serve_forever, daemon=True).start()
        yield it.server_address[1]
        it.shutdown()


class QuietFiles(http.server.SimpleHTTPRequestHandler):
    def log_message(self, *_):
        pass


def page_files(folder):
    path = folder / "page"
    path.mkdir()
    for name, text in {"index.html": "<!doctype html><title>Page</title>", "page.js": '"use strict";', "page.css": "body { margin: 0 }"}.items():
        (path / name).write_text(text)
    return path


RATES = [act_rate, text_rate, question_rate]
RULES = [sign_in, callers, contents, lengths, heads, methods, escapes, sign_out, slow, *RATES, passwords, refusals, page, log, no_office]


def at_front(folder, cases, make, *given, **named):
    """Tries cases at a front in a folder of its own, before a stand-in."""
    front = make(pathlib.Path(tempfile.mkdtemp(dir=folder)) / "front", *given, **named)
    office = StandIn(front.socket)
    with front.serving():
        for it in cases:
            it(front, office)


@contextlib.contextmanager
def both_fronts(folder):
    """What makes either front, by its name, with what it is made of beside its folder."""
    files = page_files(folder)
    with page_server(files) as page_port:
        yield {"nginx": (servers.Nginx, {PROJECT: LOGINS}, files), "haproxy": (servers.HAProxy, LOGINS, page_port)}


def rules(folder, _):
    with both_fronts(folder) as fronts:
        for tls, cases in ((False, RULES), (True, [by_http2])):
            for made in fronts.values():
                at_front(folder, cases, *made, tls=tls)
        (nginx, _, files), (haproxy, _, page_port) = fronts.values()
        at_front(folder, [behind], nginx, {PROJECT: {}}, files, site="office-behind")
        at_front(folder, [behind], haproxy, {}, page_port, behind=True)


# ---- the queue


class Breaking:
    """A server behind a queue: the first connections break as they are told, each later one is answered; it takes some time for each."""

    def __init__(self, port, breaks):
        self.breaks, self.messages, self.at_once, self.most = list(breaks), [], 0, 0
        self.lock = threading.Lock()
        self.listener = socket.create_server((HOST, port), backlog=512)
        threading.Thread(target=self.serve, daemon=True).start()

    def serve(self):
        while True:
            connection, _ = self.listener.accept()
            with self.lock:
                self.at_once += 1
                self.most = max(self.most, self.at_once)
                broken = self.breaks.pop(0) if self.breaks else None
            threading.Thread(target=self.answer, args=(connection, broken), daemon=True).start()

    def answer(self, connection, broken):
        with contextlib.suppress(OSError), connection, connection.makefile("rb") as reader:
            head = b"" if broken == "at once" else b"".join(iter(reader.readline, b"\r\n"))
            length = next((int(it[15:]) for it in head.lower().split(b"\r\n") if it.startswith(b"content-length:")), 0)
            body = b"" if broken else reader.read(length)
            time.sleep(0.01)
            with self.lock:
                self.at_once -= 1
            if broken == "in its answer":
                connection.sendall(b"HTTP/1.1 200 O")
            elif not broken:
                self.messages.append((head, body))
                connection.sendall(b"HTTP/1.1 200 OK\r\nContent-Type: application/json\r\nContent-Length: 2\r\nConnection: close\r\n\r\n{}")


def by_queue(path, given):
    with socket.socket(socket.AF_UNIX) as connection:
        connection.settimeout(SECONDS)
        connection.connect(str(path))
        connection.sendall(given)
        return answer_of(connection)


def queue(folder, _):
    """One connection at a time; what breaks is sent again, as it was, where it is at hand whole."""
    port, path = free_port(), folder / "queue.sock"
    with servers.queue(folder, path, port):
        late = threading.Timer(1.5, Breaking, (port, ["at once", "in its answer", "behind its head", "at once"]))
        late.start()
        same("the queue, nobody listens at first, and then all breaks", by_queue(path, act("ann")).status, 200)
    port, path = free_port(), folder / "another.sock"
    with servers.queue(folder, path, port):
        office = Breaking(port, [])
        for broken in ("at once", "in its answer", "behind its head"):
            for size in (90_000, 300_000):
                office.breaks, office.messages = [broken] * 3, []
                status = by_queue(path, act("ann", body=b"x" * size)).status
                reached = [len(body) for _, body in office.messages]
                # A longer one than is at hand whole may be given back to its client.
                wanted = [(200, [size]), (502, [])][: 2 if size > 128_000 else 1]
                same(f"the queue, {size} bytes that break {broken}: {status} {reached}", (status, reached) in wanted, True)
        office.breaks, office.messages, office.most = [], [], 0
        with concurrent.futures.ThreadPoolExecutor(60) as pool:
            answers = list(pool.map(lambda _: by_queue(path, act("ann")).status, range(120)))
        same("the queue, 60 at once", (answers, office.most, len(office.messages)), ([200] * 120, 1, 120))


# ---- projects: many on one host


def projects(folder, _):
    """Each project by its host name, with an office and logins of its own; what isn't there is 404 (RFC 9110, 15.5.5)."""
    own = {"alpha": {"ann": "a", "root": "r"}, "beta": {"ann": "b", "root": "r"}}
    front = servers.Nginx(folder / "front", own, page_files(folder), site="office-projects")
    text = (front.folder / "office" / "managers").read_text()
    (front.folder / "office" / "managers").write_text(text.replace('"beta root" 1;', ""))
    offices = {it: StandIn(front.folder / "run" / f"{it}.sock") for it in own}

    def asked(host, *lines, path="/v1/stats/de", body=b""):
        method = "POST" if body else "GET"
        return told(front, message(method, path, *lines, body=body).replace(b"translate.example.org", host.encode()))

    def reached(status, project=None):
        return status, {it: 1 if it == project else 0 for it in own}

    def outcome(*given, **named):
        return asked(*given, **named).status, {it: len(office.taken()) for it, office in offices.items()}

    with front.serving():
        for name, password in (("alpha", "a"), ("beta", "b")):
            same(name, outcome(f"{name}.translate.example.org", signed("ann", password)), reached(200, name))
            same(f"{name}, in capitals", outcome(f"{name.upper()}.Translate.Example.org", signed("ann", password)), reached(200, name))
            same(f"{name}, with a port", outcome(f"{name}.translate.example.org:443", signed("ann", password)), reached(200, name))
            same(f"{name}'s page", outcome(f"{name}.translate.example.org", signed("ann", password), path="/"), reached(200))
        same("another project's password", outcome("beta.translate.example.org", signed("ann", "a")), reached(401))
        for host in ("gamma.translate.example.org", "translate.example.org", "a.alpha.translate.example.org", "alpha.example.org", "alpha"):
            same(host, outcome(host, signed("ann", "a")), reached(404))
        for host in ("../alpha.translate.example.org", "alpha%2f.translate.example.org", "x/../alpha.translate.example.org", ""):
            status, counts = outcome(host, signed("ann", "a"))
            same(f"the host {host!r}", (status in (400, 404), counts), (True, {"alpha": 0, "beta": 0}))
        lines = (signed("root", "r"), "Content-Type: application/json")
        for name, status in (("alpha", 200), ("beta", 413)):
            host = f"{name}.translate.example.org"
            found = outcome(host, *lines, path=path_of_act(), body=b"x" * 100_000)
            same(f"a manager of alpha alone, at {name}", found, reached(status, name if status == 200 else None))
        (front.folder / "run" / "alpha.sock").unlink()
        same("no door", outcome("alpha.translate.example.org", signed("ann", "a")), reached(502))


# ---- acts: the program behind the fronts


CLIENTS = (50, 500)
# How many connections wait for an office itself; more of them may be told 502, and come again.
BACKLOG = 128
ACTS = 2_000
HEADER = 'msgid ""\nmsgstr ""\n"Content-Type: text/plain; charset=UTF-8\\n"\n"Plural-Forms: nplurals=2; plural=n != 1;\\n"\n'


def make_office(program, path, size=max(CLIENTS)):
    """An office of so many messages and as many translators in a file; how many requests made it."""

    def run(*words, given=""):
        return subprocess.run([program, *words, "--store", path], input=given, capture_output=True, text=True, check=True).stdout

    po = "\n".join(f'msgid "message {it}"\nmsgstr ""\n' for it in range(size))
    requests = [{"act": "team", "name": f"u{it}", "role": "translator"} for it in range(size)]
    requests += [{"act": "template", "po": po}, {"act": "language", "lang": "de", "po": HEADER}]
    run("init", "--manager", "root")
    told = run("deliver", given="".join(json.dumps({**it, "caller": "root", "number": str(uuid.uuid4())}) + "\n" for it in requests))
    assert [it[:3] for it in told.splitlines()] == ["200"] * len(requests)
    return len(requests)


class Office:
    """The program with an office in a file, which is served, and ended and served again."""

    def __init__(self, program, path, requests):
        self.program, self.path, self.requests, self.port = program, path, requests, free_port()

    @contextlib.contextmanager
    def serving(self, trouble=""):
        """Serves until the block ends. Meanwhile it is ended by SIGKILL again and again, each time after a while, or moves once."""
        over, opened = threading.Event(), threading.Event()
        keeper = threading.Thread(target=self.keep, args=(over, opened, trouble))
        keeper.start()
        try:
            if not opened.wait(SECONDS):
                raise SystemExit("the office doesn't open")
            yield self
        finally:
            over.set()
            keeper.join()

    def keep(self, over, opened, trouble):
        chance, self.troubles = random.Random(1), 0
        while not over.is_set():
            words = [self.program, "serve", "--store", self.path, "--port", str(self.port), "--connections", "4294967295"]
            with servers.running(words) as process:
                servers.listening(self.port, process)
                opened.set()
                lasts = not trouble or (trouble == "a move" and self.troubles)
                if over.wait(None if lasts else chance.uniform(0.2, 0.6)):
                    return
                self.troubles += 1
                if trouble == "kills":
                    process.kill()
            if trouble == "a move":
                self.move()

    def move(self):
        """Goes on from a copy of what lies in its folder, as on another host."""
        folder = self.path.parent / "moved"
        folder.mkdir()
        for it in self.path.parent.glob(self.path.name + "*"):
            shutil.copy(it, folder)
        self.path = folder / self.path.name

    def recorded(self):
        """Each act that is recorded, with its status; and the revision of each message."""
        with contextlib.closing(sqlite3.connect(self.path)) as db:
            records = db.execute("SELECT number, status FROM record").fetchall()
            revisions = db.execute("SELECT key, revision FROM d_unit WHERE domain = 'main' AND lang = 'de'").fetchall()
        return collections.Counter(records), dict(revisions)


class Client:
    """A translator who sends acts one after another, each until it is answered, on a connection that is kept."""

    def __init__(self, port, at):
        self.at, self.connection = at, http.client.HTTPConnection(HOST, port, timeout=120)
        self.lines = {"Content-Type": "application/json", "Authorization": signed(f"u{at}").partition(": ")[2]}
        self.tries, self.times, self.answers = collections.Counter(), [], {}

    def send(self, acts):
        for n in range(acts):
            act = {"act": "translate", "lang": "de", "id": f"message {self.at}", "seen": n + 1, "forms": [f"Meldung {n}"]}
            number, begun = str(uuid.uuid4()), time.monotonic()
            while number not in self.answers:
                self.try_once(number, json.dumps(act))
            self.times.append(time.monotonic() - begun)
        return self

    def try_once(self, number, body):
        try:
            self.connection.request("POST", f"/v1/requests/{number}", body, self.lines)
            response = self.connection.getresponse()
            status, text = response.status, response.read().decode()
        except (OSError, http.client.HTTPException) as fault:
            status, text = type(fault).__name__, ""
            self.connection.close()
        self.tries[status] += 1
        if status == 200:
            self.answers[number] = text
        else:
            time.sleep(0.2)


def sent(what, front, office, clients, trouble, alone):
    """2,000 acts by so many clients: each answered, each recorded once. `alone` says that no client has to send one twice."""
    begun = time.monotonic()
    with office.serving(trouble), front.serving(), concurrent.futures.ThreadPoolExecutor(clients) as pool:
        done = list(pool.map(lambda at: Client(front.port, at).send(ACTS // clients), range(clients)))
    took = time.monotonic() - begun
    tries = sum((it.tries for it in done), collections.Counter())
    answers = {number: text for it in done for number, text in it.answers.items()}
    texts = collections.Counter('{"revision":%d,"state":"translated"}' % (n + 2) for n in range(ACTS // clients) for _ in range(clients))
    same(f"{what}: the answers", collections.Counter(answers.values()), texts)
    records, revisions = office.recorded()
    same(f"{what}: each recorded once", [records[number, 200] for number in answers], [1] * ACTS)
    same(f"{what}: and nothing else", sum(records.values()), ACTS + office.requests)
    same(f"{what}: each acted once", revisions, {f"message {it}": 1 + (it < clients) * ACTS // clients for it in range(max(CLIENTS))})
    if alone:
        same(f"{what}: each at its first try", dict(tries), {200: ACTS})
    same(f"{what}: {office.troubles} times", office.troubles >= {"": 0, "a move": 1, "kills": 2}[trouble], True)
    times = sorted(time for it in done for time in it.times)
    middle, late = times[len(times) // 2], times[len(times) * 99 // 100]
    print(
        f"{what}: {ACTS / took:.0f} a second, half in {middle:.3f} s, 99 of 100 in {late:.3f} s, all in {times[-1]:.3f} s,"
        f" {office.troubles} times in trouble, tries {dict(tries)}",
        flush=True,
    )


def acts(folder, program):
    logins = {f"u{it}": PASSWORD for it in range(max(CLIENTS))}
    files = page_files(folder)
    ways = {
        "nginx and a door": (lambda at: servers.Nginx(at, {PROJECT: logins}, files), servers.door, False),
        "nginx and a queue": (lambda at: servers.Nginx(at, {PROJECT: logins}, files), servers.queue, True),
        "HAProxy and a queue": (lambda at: servers.HAProxy(at, logins, 1), servers.queue, True),
    }
    requests = make_office(program, folder / "office.db")
    for way, (make, door, again) in ways.items():
        for clients in CLIENTS:
            for trouble in ("", "kills", "a move"):
                place = pathlib.Path(tempfile.mkdtemp(dir=folder))
                shutil.copy(folder / "office.db", place)
                office, front = Office(program, place / "office.db", requests), make(place / "front")
                with door(place, front.socket, office.port):
                    what = f"{way}, {clients} clients{trouble and ', ' + trouble}"
                    sent(what, front, office, clients, trouble, again or not trouble and clients < BACKLOG)


# ---- sign-in by OpenID Connect


def oidc(folder, program):
    front_oidc.run(folder, program, same)


# ---- units of systemd


class Told(http.server.BaseHTTPRequestHandler):
    """Answers with the status that its server has."""

    def do_GET(self):
        self.server.asked.append(self.path)
        self.send_error(self.server.status)

    def log_message(self, *_):
        pass


def looked(folder, port, tools=("curl",)):
    """What the command of office-look@.service does, with an office on this port and these programs beside the shell's own: its status, what it
    told, and what it asked systemctl for."""
    own = folder / f"bin-{uuid.uuid4()}"
    own.mkdir()
    for it in ("sh", *tools):
        (own / it).symlink_to(shutil.which(it))
    (own / "systemctl").write_text(f'#!/bin/sh\necho "$@" >> {own}/asked\n')
    (own / "systemctl").chmod(0o755)
    text = (TOP / "share" / "systemd" / "office-look@.service").read_text()
    line = servers.replaced(re.search("^ExecStart=(.*)$", text, re.MULTILINE)[1], {"%%": "%", "%i": PROJECT, ":8765": f":{port}"})
    done = subprocess.run(shlex.split(line), capture_output=True, text=True, env={"PATH": str(own)}, check=False)
    asked = (own / "asked").read_text().splitlines() if (own / "asked").exists() else []
    return done.returncode, done.stderr.strip(), asked


def look(folder, program):
    """The office is started anew for 507 alone. What is asked is answered by the program, whose disk failed too."""
    again = ["restart office@example.service"]
    with http.server.ThreadingHTTPServer((HOST, 0), Told) as it:
        threading.Thread(target=it.serve_forever, daemon=True).start()
        port, it.asked = it.server_address[1], []
        for it.status in (200, 404, 400, 503, 507):
            same(f"a look, told {it.status}", looked(folder, port), (0, "", again if it.status == 507 else []))
        status, fault, asked = looked(folder, port, ())
        same("a look without curl", (status != 0, "curl" in fault, asked), (True, True, []))
        path, status = it.asked[0], it.shutdown()
    same("a look, where nobody listens", looked(folder, free_port()), (0, "", []))
    look_costs(folder, program, path)
    make_office(program, folder / "office.db", 20)
    port = free_port()
    # (from a size on, whatever is written to a file fails)
    kilobytes = sum(it.stat().st_size for it in folder.glob("office.db*")) // 1024 + 200
    words = ["bash", "-c", f'trap "" XFSZ; ulimit -f {kilobytes}; exec "$@"', "-", program, "serve", "--store", folder / "office.db"]
    with servers.running([*words, "--port", port, "--connections", "100000"]) as process:
        servers.listening(port, process, 10 * SECONDS)
        same("a look at the program", (asked_of(port, "GET", path)[0], looked(folder, port)), (404, (0, "", [])))
        statuses = set()
        for it in range(20):
            act = {"act": "comment", "lang": "de", "id": f"message {it}", "seen": 1, "lines": ["x" * 900] * 20}
            statuses.add(asked_of(port, "POST", path_of_act(), json.dumps(act), {"X-Office-Caller": "root"})[0])
        same("the disk fails", 507 in statuses, True)
        same("a look at the program then", (asked_of(port, "GET", path)[0], looked(folder, port)), (507, (0, "", again)))


def look_costs(folder, program, path):
    """What a look asks is answered in a few words, also by an office in which the language is there, with a long unit."""
    acts = [{"act": "template", "po": 'msgid "x"\nmsgstr ""\n'}, {"act": "language", "lang": "xx", "po": HEADER}]
    acts += [{"act": "suggest", "lang": "xx", "id": "x", "seen": 1, "forms": [f"{it}" * 10_000]} for it in range(20)]
    given = "".join(json.dumps({**it, "caller": "root", "number": str(uuid.uuid4())}) + "\n" for it in acts)
    file, port = folder / "long.db", free_port()
    subprocess.run([program, "init", "--store", file, "--manager", "root"], capture_output=True, check=True)
    told = subprocess.run([program, "deliver", "--store", file], input=given, capture_output=True, text=True, check=True).stdout
    same("a long unit", {it[:3] for it in told.splitlines()}, {"200"})
    with servers.running([program, "serve", "--store", file, "--port", port, "--connections", "100000"]) as process:
        servers.listening(port, process, 10 * SECONDS)
        status, answer = asked_of(port, "GET", path)
        same(f"what a look is answered there, {len(answer)} bytes", (status, len(answer) < 300), (200, True))


def asked_of(port, method, path, body=None, headers=None):
    connection = http.client.HTTPConnection(HOST, port, timeout=SECONDS)
    connection.request(method, path, body, {"Connection": "close", **(headers or {})})
    answer = connection.getresponse()
    text = answer.read()
    connection.close()
    return answer.status, text


def first_requests(folder, program):
    """The command by which DEPLOYING has the first requests delivered makes an office where there is none, and takes the one that is there."""
    text = (TOP / "docs" / "DEPLOYING.md").read_text()
    command = re.search(r"-p WorkingDirectory=/var/lib/office/example sh -c '(.*?)' < requests", text, re.DOTALL)[1]
    (folder / "office").symlink_to(program)
    given = "".join(json.dumps({"act": "team", "name": it, "role": "guest", "caller": "root", "number": str(uuid.uuid4())}) + "\n" for it in ("ann", "bea"))
    for turn in ("where there is none", "where it is"):
        words = {"cwd": folder, "input": given, "capture_output": True, "text": True, "check": False}
        done = subprocess.run(["sh", "-c", command], env={"PATH": f"{folder}:/usr/bin:/bin"}, **words)
        wanted = "".join(f'200 {{"name":"{it}","role":"guest"}}\n' for it in ("ann", "bea"))
        same(f"the first requests, {turn}", (done.returncode, done.stdout), (0, wanted))


def units(folder, program):
    """Systemd itself finds nothing wrong in the units, and the services shut in; the look does what it should, and so do the first requests."""
    for it in (first_requests, look):
        (folder / it.__name__).mkdir()
        it(folder / it.__name__, program)
    if not servers.program("systemd-analyze"):
        print("systemd isn't installed: its units aren't tried")
        return
    for it in sorted((TOP / "share" / "systemd").iterdir()):
        text = re.sub(r"^(ExecStart=-?)(office-[a-z]+)", rf"\1{TOP}/share/tools/\2", it.read_text(), flags=re.M)
        (folder / it.name).write_text(text.replace("ExecStart=office ", f"ExecStart={program} "))
    for it in sorted(folder.glob("office*@*")):
        tries = {"verify": ["verify", "--man=no", it]}
        if it.suffix == ".service":
            # The exposure in tenths: up to 2 is "safe" or "ok".
            tries["security"] = ["security", "--offline=yes", "--threshold=15", "--no-pager", it]
        for what, words in tries.items():
            done = subprocess.run(["systemd-analyze", *words], capture_output=True, text=True, check=False)
            told = done.stdout + done.stderr if what == "verify" else ""
            same(f"{it.name}: {what}", (done.returncode, told), (0, ""))


def main():
    parts = {"rules": rules, "queue": queue, "projects": projects, "acts": acts, "oidc": oidc, "units": units}
    words = argparse.ArgumentParser(description=__doc__, formatter_class=argparse.RawDescriptionHelpFormatter)
    words.add_argument("--program", type=pathlib.Path, default=TOP / "crates" / "cli" / "out" / "cli")
    words.add_argument("part", nargs="*", choices=[[], *parts])
    given = words.parse_args()
    for it in given.part or parts:
        with tempfile.TemporaryDirectory(prefix="office-front-") as name:
            parts[it](pathlib.Path(name), given.program.resolve())
    return looks.told()


if __name__ == "__main__":
    sys.exit(main())
