"""Clients for tests of a replicated log: each acts on messages of many projects, sends again what got no answer and often what got one, and keeps
every reply."""
import http.client
import json
import os
import random
import socket
import threading
import time
import urllib.parse
import uuid

HOST = "127.0.0.1"
# Behind these the same is sent again.
AGAIN = (502, 503, 504, 507)
HEADER = 'msgid ""\nmsgstr ""\n"Content-Type: text/plain; charset=UTF-8\\n"\n"Plural-Forms: nplurals=2; plural=n != 1;\\n"\n'
MANAGERS_ACTS = ("template", "language", "team", "policy")


def new_number():
    bits = time.time_ns() // 1_000_000 << 80 | int.from_bytes(os.urandom(10), "big")
    return str(uuid.UUID(int=bits & ~(0xF << 76 | 0x3 << 62) | 0x7 << 76 | 0x2 << 62))


def template(messages):
    return "\n".join(f'#, c-format\nmsgid "message {it} of %d"\nmsgstr ""\n' for it in range(messages))


def beginnings(messages, languages):
    """What brings a project in: its template, its languages, its policy and its team."""
    yield {"act": "template", "po": template(messages)}
    for lang in languages:
        yield {"act": "language", "lang": lang, "po": HEADER}
    yield {"act": "policy", "reviews": True, "guests_suggest": True, "voting": True, "accept_at": 3, "placeholders": True, "line_ends": True}
    for it in range(10):
        yield {"act": "team", "name": f"c{it}", "role": "reviewer" if 8 <= it else "translator"}


class Sender:
    """Sends requests to doors in turn until there is an answer."""

    def __init__(self, doors, chance=None):
        self.doors = doors
        self.chance = chance or random.Random()
        self.at = self.chance.randrange(len(doors))
        self.sends = 0
        self.again = {}

    def connection(self, timeout=20):
        self.at += 1
        return http.client.HTTPConnection(HOST, self.doors[self.at % len(self.doors)], timeout=timeout)

    def once(self, project, number, caller, body):
        asked = self.connection()
        try:
            asked.request("POST", f"/v1/requests/{number}", body, {"Host": f"{project}.local", "X-Office-Caller": caller})
            self.sends += 1
            answer = asked.getresponse()
            return answer.status, answer.read()
        finally:
            asked.close()

    def abandon(self, project, number, caller, body):
        """Sends, and is gone before the answer."""
        self.at += 1
        with socket.create_connection((HOST, self.doors[self.at % len(self.doors)]), 10) as it:
            head = f"POST /v1/requests/{number} HTTP/1.1\r\nHost: {project}.local\r\nX-Office-Caller: {caller}\r\nContent-Length: {len(body)}\r\n\r\n"
            it.sendall(head.encode() + body)
            self.sends += 1

    def post(self, project, number, caller, body, seconds=180):
        end = time.monotonic() + seconds
        while time.monotonic() < end:
            try:
                status, answer = self.once(project, number, caller, body)
                if status not in AGAIN:
                    return status, answer
                self.again[status] = self.again.get(status, 0) + 1
            except (OSError, http.client.HTTPException):
                self.again["broken"] = self.again.get("broken", 0) + 1
            time.sleep(0.2 + self.chance.random() * 0.5)
        raise TimeoutError(f"no answer to {number}")

    def get(self, project, path, tries=40):
        for _ in range(tries):
            asked = self.connection(10)
            try:
                asked.request("GET", path, headers={"Host": f"{project}.local"})
                answer = asked.getresponse()
                body = answer.read()
                if answer.status not in AGAIN:
                    return answer.status, body
            except (OSError, http.client.HTTPException):
                pass
            finally:
                asked.close()
            time.sleep(0.3)
        return None, b""


class Client(threading.Thread):
    def __init__(self, number, projects, doors, acts, pause, messages, languages, seed):
        super().__init__(daemon=True)
        self.chance = random.Random(f"{seed} {number}")
        self.sender = Sender(doors, self.chance)
        self.caller = f"c{number % 10}"
        self.reviewer = 8 <= number % 10
        self.projects, self.acts, self.pause, self.messages, self.languages = projects, acts, pause, messages, languages
        self.done, self.wrong, self.slow, self.when = [], [], [], []
        # What was sent without waiting for an answer, and how often no unit was seen.
        self.abandoned, self.blind = [], 0

    def run(self):
        for turn in range(self.acts):
            time.sleep(self.chance.random() * 2 * self.pause)
            try:
                self.act(turn)
            except Exception as why:  # told at the end
                self.wrong.append(f"{type(why).__name__} {why}")

    def act(self, turn):
        project, lang = self.chance.choice(self.projects), self.chance.choice(self.languages)
        message = f"message {self.chance.randrange(self.messages)} of %d"
        status, view = self.sender.get(project, "/v1/unit?" + urllib.parse.urlencode({"lang": lang, "id": message}))
        view = json.loads(view) if status == 200 else None
        self.blind += view is None
        body = json.dumps(self.body(turn, lang, message, view), ensure_ascii=False).encode()
        if self.chance.random() < 0.01:
            body = body[:-1]
        number = new_number()
        if self.chance.random() < 0.1:
            self.sender.abandon(project, number, self.caller, body)
        began = time.monotonic()
        first = self.sender.post(project, number, self.caller, body)
        self.slow.append(time.monotonic() - began)
        self.when.append((time.monotonic(), project))
        self.done.append((project, number, self.caller, body, first))
        if self.chance.random() < 0.25:
            for _ in range(self.chance.randrange(1, 4)):
                self.repeat(self.done[-1])
        if self.chance.random() < 0.2:
            self.repeat(self.chance.choice(self.done))

    def repeat(self, what):
        project, number, caller, body, first = what
        reply = self.sender.post(project, number, caller, body)
        if reply != first:
            self.wrong.append(f"{project} {number}: {first} and then {reply}")

    def body(self, turn, lang, message, view):
        seen = view["revision"] if view else 1
        unit = {"lang": lang, "id": message, "seen": seen}
        given = view["suggestions"] if view else []
        drawn = self.chance.random()
        if given and drawn < 0.35:
            act = self.chance.choice(("vote", "vote", "accept", "dismiss"))
            found = {"act": act, **unit, "suggestion": self.chance.choice(given)["number"]}
            return {**found, "value": self.chance.choice((1, 1, -1, 0))} if act == "vote" else found
        if self.reviewer and drawn < 0.5:
            return {"act": self.chance.choice(("approve", "send-back")), **unit}
        if drawn < 0.65:
            return {"act": "suggest", **unit, "forms": [f"Vorschlag %d {self.caller} {turn} „{self.chance.randrange(10**6)}“"]}
        if drawn < 0.75:
            return {"act": "comment", **unit, "lines": [f"{self.caller} in turn {turn}"]}
        return {"act": "translate", **unit, "forms": [f"Meldung %d von {self.caller}, {turn}, {self.chance.randrange(10**6)}"]}
