#!/usr/bin/env python3
"""Kills the program at random moments under load, by lines and over HTTP: each answer stays, and the office comes out the same.

    tests/kill.py [KILLS [PROGRAM]] [--seed S] [--minutes M] [--spoil]      (200 kills; crates/cli/out/cli, as ./office has built it; no end)

Each office gets one list of requests, piece by piece, by `office deliver` and by `office serve` in turn, which is sent a few requests ahead of its
answers, and is killed with SIGKILL a moment after one of them, or, now and then, while it opens the file; then the same piece is delivered again,
whole. The requests write of a unit in each way: its row alone, a suggestion, a vote with its sum, and what an accepting vote changes. Each request that
was answered before has to be recorded, in order, and to get the same answer, the file has to be whole for SQLite, and behind fifty kills all answers,
the exports and the rows of units, suggestions and votes have to equal those of an office that got the list undisturbed, and the sums and counts that
the file keeps those that queries count; then a new office begins. Most of the kills have to fall between two answers to new requests. With `--spoil`
the end of the log is cut off behind each kill, as if the program answered before it wrote, which has to be found. Prints what is otherwise, and last
`N kills, S of them of serve, C between two answers, M wrong`.
"""
import argparse
import contextlib
import json
import pathlib
import random
import shutil
import socket
import sqlite3
import subprocess
import sys
import tempfile
import time

from figures import kept_and_counted
from looks import HOST, free_port, number

TOP = pathlib.Path(__file__).resolve().parent.parent
# How many kills an office sees.
ROUND = 50
# How many requests a piece has, and how many of them an earlier piece has had.
PIECE = 40
AGAIN = 10
# How many requests are sent ahead of their answers.
AHEAD = 4
MESSAGES = 20
DOMAINS = ["main", "docs", "web"]
POLICY = {"act": "policy", "accept_at": 3, "guests_suggest": False, "line_ends": False, "placeholders": False, "reviews": False, "voting": True}
# Where acts on units write.
TABLES = ("d_unit", "d_suggestion", "d_vote", "d_vote_sum", "d_tally")
# How many ways to write of a unit are tried in turn.
WAYS = 8
# How many bytes of the log a spoilt kill loses.
SPOILT = 4096
SECONDS = 300
HEADER = 'msgid ""\nmsgstr ""\n"Content-Type: text/plain; charset=UTF-8\\n"\n"Plural-Forms: nplurals=2; plural=n != 1;\\n"\n'


def template(extra):
    return "\n".join(f'msgid "message {it}"\nmsgstr ""\n' for it in range(MESSAGES + extra))


def requests(count):
    """A list of requests: acts on units in each domain in turn, and now and then one of the office's acts."""
    visits, seen, open_ones = {}, {}, {}
    made = [{"act": "team", "name": it, "role": "translator"} for it in ("ann", "bea")] + [POLICY]
    for domain in DOMAINS:
        made += [{"act": "domain", "name": domain}] if domain != "main" else []
        made += [{"act": "template", "domain": domain, "po": template(0)}, {"act": "language", "domain": domain, "lang": "de", "po": HEADER}]
    for n in range(count):
        domain = DOMAINS[n % len(DOMAINS)]
        if n % 37 == 36:
            made.append({"act": "template", "domain": domain, "po": template(n % 5)})
        elif n % 23 == 22:
            made.append({"act": "team", "name": f"t{n}", "role": "translator"})
        else:
            at = domain, n % MESSAGES
            visits[at] = visits.get(at, -1) + 1
            fields, moves = on_unit(visits[at], f"Meldung {n}", open_ones.get(at))
            made.append({**fields, "domain": domain, "id": f"message {at[1]}", "lang": "de", "seen": seen.get(at, 1)})
            seen[at] = seen.get(at, 1) + moves
            if fields["act"] == "suggest":
                open_ones[at] = number(len(made) - 1)
    return [json.dumps({"caller": "root", **it, "number": number(n)}) for n, it in enumerate(made)]


def on_unit(visit, form, suggestion):
    """What is done to a unit at the n-th visit, and by how much its revision grows: each way to write of a unit in turn. The third vote accepts."""
    vote = {"act": "vote", "suggestion": suggestion}
    return (
        ({"act": "translate", "forms": [form]}, 1),
        ({"act": "suggest", "caller": "ann", "forms": [form]}, 0),
        ({**vote, "value": -1}, 0),
        ({**vote, "value": 0}, 0),
        ({**vote, "caller": "bea", "value": -1}, 0),
        ({**vote, "caller": "bea", "value": 1}, 0),
        ({**vote, "value": 1}, 1),
        ({"act": "comment", "lines": [form]}, 1),
    )[visit % WAYS]


def rows_of(path, table):
    with contextlib.closing(sqlite3.connect(path)) as db:
        return sorted(db.execute(f"SELECT * FROM {table}"), key=repr)


class Lines:
    """`office deliver`, which reads lines."""

    def __init__(self, process):
        self.process = process

    def send(self, lines):
        self.process.stdin.write("".join(it + "\n" for it in lines).encode())
        self.process.stdin.flush()

    def answer(self):
        return self.process.stdout.readline().decode().rstrip("\n")

    def rest(self):
        return self.process.stdout.read().decode().split("\n")[:-1]


class Posts:
    """`office serve`, over one connection."""

    def __init__(self, process):
        self.process, self.link, self.data = process, None, b""

    def send(self, lines):
        while self.link is None and self.process.poll() is None:
            try:
                self.link = socket.create_connection((HOST, self.port), SECONDS)
            except ConnectionRefusedError:
                time.sleep(0.002)
        for line in lines:
            act = json.loads(line)
            body = json.dumps({name: it for name, it in act.items() if name not in ("caller", "number")}).encode()
            head = f"POST /v1/requests/{act['number']} HTTP/1.1\r\nX-Office-Caller: {act['caller']}\r\nContent-Length: {len(body)}\r\n\r\n"
            self.link.sendall(head.encode() + body)

    def whole(self):
        """The next answer, if it is there whole."""
        head, end, rest = self.data.partition(b"\r\n\r\n")
        if not end:
            return None
        size = next(int(it.split(b":")[1]) for it in head.split(b"\r\n") if it.lower().startswith(b"content-length:"))
        if len(rest) < size:
            return None
        self.data = rest[size:]
        return f"{head.split()[1].decode()} {rest[:size].decode()}"

    def answer(self):
        while (found := self.whole()) is None:
            more = self.link.recv(65536)
            if not more:
                return ""
            self.data += more
        return found

    def rest(self):
        told = []
        try:
            while found := self.answer():
                told.append(found)
        except ConnectionResetError:
            # What came before it was read.
            pass
        return told


class Kills:
    def __init__(self, program, spoils):
        self.program, self.spoils = program, spoils
        self.kills = self.served = self.cut = self.wrong = 0

    def say(self, what):
        self.wrong += 1
        print(what, flush=True)

    def run(self, *words, given=""):
        done = subprocess.run([self.program, *map(str, words)], input=given.encode(), capture_output=True, timeout=SECONDS, check=False)
        return done.returncode, done.stdout.decode(), done.stderr.decode()

    def killed(self, path, lines, count, seconds, kind):
        """What was answered till the process was killed: so many seconds behind its first answers, which are counted."""
        port = free_port()
        words = ["deliver", "--store", path] if kind is Lines else ["serve", "--store", path, "--port", str(port), "--connections", "1"]
        with subprocess.Popen([self.program, *words], stdin=subprocess.PIPE, stdout=subprocess.PIPE, stderr=subprocess.DEVNULL) as process:
            talk, told, sent = kind(process), [], 0
            talk.port = port
            while len(told) < count:
                talk.send(lines[sent : len(told) + AHEAD])
                sent = max(sent, min(len(lines), len(told) + AHEAD))
                told.append(talk.answer())
            time.sleep(seconds)
            process.kill()
            return told + (talk.rest() if count else [])

    def recorded(self, path):
        """The replies that the file has, in the order of their records, as it lies."""
        with tempfile.TemporaryDirectory(dir=path.parent) as name:
            for it in path.parent.glob(path.name + "*"):
                shutil.copy(it, name)
            with contextlib.closing(sqlite3.connect(pathlib.Path(name, path.name))) as db:
                return [f"{status} {body}" for status, body in db.execute("SELECT status, body FROM record ORDER BY rowid")]

    def kill(self, path, piece, answers, place):
        """Kills the program while it takes the piece at a place of the list, and has it take the piece again."""
        wanted = answers[place : place + PIECE]
        kind = (Lines, Posts)[self.kills % 2]
        opening = self.kills % 16 >= 14
        told = self.killed(path, piece, 0 if opening else random.randrange(1, PIECE - AHEAD), random.uniform(0, 0.02 if opening else 0.003), kind)
        self.cut += AGAIN <= len(told) < len(piece)
        self.served += kind is Posts
        if self.spoils:
            log = pathlib.Path(f"{path}-wal")
            log.write_bytes(log.read_bytes().rstrip(b"\0")[:-SPOILT])
        found = self.recorded(path)
        if found != answers[: len(found)] or len(found) < place + len(told):
            self.say(f"kill {self.kills}: {len(found)} recorded, {place + len(told)} were answered")
        status, again, fault = self.run("deliver", "--store", path, given="".join(it + "\n" for it in piece))
        if told != wanted[: len(told)] or (status, again.split("\n")[:-1], fault) != (0, wanted, ""):
            self.say(f"kill {self.kills}: told {told[:3]}, then {status} {fault}{again[:200]}")
        db = sqlite3.connect(path)
        checks = [row for it in ("integrity_check", "foreign_key_check") for row in db.execute(f"PRAGMA {it}").fetchall()]
        db.close()
        if checks != [("ok",)]:
            self.say(f"kill {self.kills}: {checks[:3]}")
        self.kills += 1

    def office(self, folder, count):
        """An office that sees so many kills, beside one that is undisturbed."""
        lines = requests(count * (PIECE - AGAIN) + AGAIN)
        disturbed, quiet = pathlib.Path(folder, "disturbed.db"), pathlib.Path(folder, "quiet.db")
        for path in (disturbed, quiet):
            assert self.run("init", "--store", path, "--manager", "root") == (0, "ready\n", "")
        whole = "".join(it + "\n" for it in lines)
        answers = self.run("deliver", "--store", quiet, given=whole)[1].split("\n")[:-1]
        assert len(answers) == len(lines) and all(it[:3] == "200" for it in answers)
        for kill in range(count):
            place = kill * (PIECE - AGAIN)
            self.kill(disturbed, lines[place : place + PIECE], answers, place)
        if self.run("deliver", "--store", disturbed, given=whole)[1].split("\n")[:-1] != answers:
            self.say(f"behind kill {self.kills}: other answers")
        for domain in DOMAINS:
            texts = [self.run("export", "--store", it, "--lang", "de", "--domain", domain) for it in (disturbed, quiet)]
            if texts[0] != texts[1] or texts[0][0]:
                self.say(f"behind kill {self.kills}: other exports of {domain}")
        kept, counted = kept_and_counted(disturbed)
        if kept != counted:
            self.say(f"behind kill {self.kills}: sums or counts that aren't those of the rows")
        for table in TABLES:
            if rows_of(disturbed, table) != rows_of(quiet, table):
                self.say(f"behind kill {self.kills}: other rows of {table}")


def main():
    parser = argparse.ArgumentParser(description=__doc__.split("\n", 1)[0])
    parser.add_argument("kills", nargs="?", type=int, default=200)
    parser.add_argument("program", nargs="?", type=pathlib.Path, default=TOP / "crates" / "cli" / "out" / "cli")
    parser.add_argument("--seed", type=int, default=1)
    parser.add_argument("--minutes", type=float, default=float("inf"))
    parser.add_argument("--spoil", action="store_true")
    given = parser.parse_args()
    random.seed(given.seed)
    kills, end = Kills(given.program.resolve(), given.spoil), time.monotonic() + given.minutes * 60
    while kills.kills < given.kills and time.monotonic() < end and not (given.spoil and kills.wrong):
        with tempfile.TemporaryDirectory(prefix="office-kills-") as name:
            kills.office(name, min(ROUND, given.kills - kills.kills))
    if 2 * kills.cut <= kills.kills:
        kills.say("too few kills between two answers")
    print(f"{kills.kills} kills, {kills.served} of them of serve, {kills.cut} between two answers, {kills.wrong} wrong")
    return 1 if kills.wrong else 0


if __name__ == "__main__":
    sys.exit(main())
