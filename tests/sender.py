#!/usr/bin/env python3
"""Sends a list by `office send` to `office serve` over a network that loses, repeats and reorders, many times over.

    tests/sender.py [PROGRAM [COUNT [SEED]]]      (crates/cli/out/cli, as ./office has built it; 2,000 schedules; seed 1)

Each schedule begins with the same office in a file of its own, and is drawn from the seed. Of each message the network loses it, or its answer, cuts the
answer, brings the message twice, or late; and between two messages it brings again any that it ever had. `office send` sends until it holds all replies. What
it then tells, and the language's export, have to be those of the same list delivered once and in order by `office deliver`.

Between rounds that brought nothing `office send` waits, so that many schedules run side by side.

Prints the first schedules that come to something else, and last `N schedules, M otherwise; of K messages L answered`; the status is 1 if any did.
"""
import functools
import json
import pathlib
import random
import shutil
import socket
import subprocess
import sys
import tempfile
import threading
import time
from concurrent.futures import ThreadPoolExecutor

import looks
from looks import HOST, number

TOP = pathlib.Path(__file__).resolve().parent.parent
PROGRAM = pathlib.Path(sys.argv[1] if len(sys.argv) > 1 else TOP / "crates" / "cli" / "out" / "cli").resolve()
COUNT = int(sys.argv[2]) if len(sys.argv) > 2 else 2000
SEED = int(sys.argv[3]) if len(sys.argv) > 3 else 1
SECONDS = 120
TRIES = 10_000
# How many schedules run at a time: most of their time is waited.
AT_A_TIME = 24

HEADER = 'msgid ""\nmsgstr ""\n"Content-Type: text/plain; charset=UTF-8\\n"\n"Plural-Forms: nplurals=2; plural=n != 1;\\n"\n'
TEMPLATE = "\n\n".join(f'msgid "{it}"\nmsgstr ""' for it in ("Hello", "Bye", "Yes")) + "\n"


def lines_of(requests, first):
    return "".join(json.dumps({**it, "number": number(first + n)}) + "\n" for n, it in enumerate(requests))


def act(caller, kind, **more):
    return {"caller": caller, "act": kind, **more}


def on(caller, kind, msgid, **more):
    return act(caller, kind, lang="de", id=msgid, **more)


POLICY = dict(reviews=True, guests_suggest=True, voting=True, accept_at=2, placeholders=True, line_ends=True)
# Before each schedule.
MADE = lines_of(
    [act("root", "template", po='msgid "Hello"\nmsgstr ""\n'), act("root", "language", lang="de", po=HEADER), act("root", "team", name="ann", role="translator")],
    900,
)
# What is sent: acts on the office and on units, some of which are refused or stale; the suggestion's number is the seventh's.
SENT = lines_of(
    [
        act("root", "template", po=TEMPLATE),
        act("root", "team", name="bea", role="translator"),
        act("root", "policy", **{**POLICY, "accept_at": 0}),
        on("ann", "translate", "Hello", forms=["Hallo"], seen=1),
        on("bea", "translate", "Bye", forms=["Ade"], seen=1),
        on("ann", "translate", "Hello", forms=["Servus"], seen=1),
        on("zoe", "suggest", "Yes", forms=["Jawohl"], seen=1),
        on("ann", "translate", "Hello", forms=["Servus"], seen=2),
        on("ann", "vote", "Yes", seen=1, suggestion=number(7), value=1),
        on("bea", "comment", "Bye", lines=["short"], seen=2),
        on("bea", "translate", "No", forms=["Nein"], seen=1),
        act("root", "policy", **POLICY),
        on("bea", "vote", "Yes", seen=1, suggestion=number(7), value=1),
        on("ann", "translate", "Bye", forms=["Tschau"], seen=3),
        on("ann", "translate", "Hello", forms=["Moin"], seen=3),
        act("root", "domain", name="docs"),
        act("root", "template", domain="docs", po=TEMPLATE),
        act("root", "language", domain="docs", lang="de", po=HEADER),
        on("ann", "translate", "Hello", domain="docs", forms=["Guten Tag"], seen=1),
        act("root", "domain", name="web"),
        act("root", "language", domain="web", lang="de", po=HEADER),
        act("root", "template", domain="web", po=TEMPLATE),
        act("root", "domain", name="docs"),
        on("bea", "translate", "Bye", domain="web", forms=["Ade"], seen=1),
    ],
    1,
)


run = functools.partial(looks.run, PROGRAM, seconds=SECONDS)


def exported(path):
    return [run("export", "--store", path, "--lang", "de", "--domain", it)[:2] for it in ("main", "docs", "web")]


def office_at(path, turn):
    """The office in a file, as it serves, and its port: one that no connection is given by itself, unless somebody has it."""
    for port in range(10_000 + turn % 7_000, 31_000, 7_000):
        if is_taken(port):
            continue
        words = [PROGRAM, "serve", "--store", path, "--port", str(port), "--connections", "1000000"]
        office = subprocess.Popen(words, stdout=subprocess.DEVNULL, stderr=subprocess.PIPE)
        if listens(port, office):
            return office, port
        if (told := office.communicate()[1]) != b"port fault\n":
            sys.exit(f"the office ended: {told}")
    sys.exit("no free port")


def is_taken(port):
    """Whether somebody listens at the port."""
    try:
        socket.create_connection((HOST, port)).close()
    except ConnectionRefusedError:
        return False
    return True


def listens(port, process):
    """Whether the process listens, in the end; it doesn't where it has ended."""
    for _ in range(SECONDS * 500):
        if process.poll() is not None:
            return False
        try:
            socket.create_connection((HOST, port)).close()
            return process.poll() is None
        except ConnectionRefusedError:
            time.sleep(0.002)
    sys.exit("the office doesn't listen")


def read_message(stream):
    """The bytes of one message, by its Content-Length."""
    found = b""
    while b"\r\n\r\n" not in found:
        found += stream.recv(65536)
    head, body = found.split(b"\r\n\r\n", 1)
    wanted = next(int(it.split(b":")[1]) for it in head.lower().split(b"\r\n") if it.startswith(b"content-length:"))
    while len(body) < wanted:
        piece = stream.recv(65536)
        found, body = found + piece, body + piece
    return found


class Network:
    """Takes messages on a port of its own, and brings them to the office's port, or doesn't."""

    def __init__(self, port, draws):
        self.office, self.draws = port, draws
        self.had, self.late, self.messages, self.answered = [], [], 0, 0
        self.listener = socket.create_server((HOST, 0))
        self.port = self.listener.getsockname()[1]
        self.thread = threading.Thread(target=self.serve, daemon=True)
        self.thread.start()

    def serve(self):
        while True:
            try:
                stream, _ = self.listener.accept()
            except OSError:
                return
            with stream:
                answer = self.answer(read_message(stream))
                if answer:
                    stream.sendall(answer)

    def bring(self, message):
        with socket.create_connection((HOST, self.office), timeout=SECONDS) as stream:
            stream.sendall(message)
            found = b""
            while piece := stream.recv(65536):
                found += piece
        return found

    def answer(self, message):
        """What comes back for a message; nothing where it is lost."""
        self.messages += 1
        self.had.append(message)
        while self.draws.random() < 0.2:
            self.bring(self.draws.choice(self.had))
        while self.late and self.draws.random() < 0.5:
            self.bring(self.late.pop(self.draws.randrange(len(self.late))))
        kind = self.draws.choice(("lost", "lost", "late", "twice", "unanswered", "unanswered", "cut", "whole", "whole", "whole"))
        if kind == "lost":
            return b""
        if kind == "late":
            self.late.append(message)
            return b""
        answer = self.bring(message)
        if kind == "twice":
            answer = self.bring(message)
        if kind == "unanswered":
            return b""
        if kind == "cut":
            return answer[: self.draws.randrange(len(answer))]
        self.answered += 1
        return answer

    def end(self):
        """What is late arrives, and no more is taken."""
        for message in self.late:
            self.bring(message)
        self.listener.shutdown(socket.SHUT_RDWR)
        self.listener.close()
        self.thread.join()


def schedule(rooms, made, listed, turn):
    """What `office send` and the export come to, and the network."""
    path = rooms / f"{turn}.db"
    shutil.copyfile(made, path)
    office, port = office_at(path, turn)
    network = Network(port, random.Random(SEED * 1_000_000 + turn))
    told = run("send", "--port", network.port, "--file", listed, "--tries", TRIES)
    network.end()
    office.kill()
    office.communicate()
    found = told, exported(path)
    for it in rooms.glob(f"{turn}.db*"):
        it.unlink()
    return found, network


def main():
    otherwise = messages = answered = 0
    with tempfile.TemporaryDirectory(dir="/dev/shm" if pathlib.Path("/dev/shm").is_dir() else None) as name:
        folder = pathlib.Path(name)
        made, once, listed, rooms = folder / "made.db", folder / "once.db", folder / "list", folder / "rooms"
        rooms.mkdir()
        listed.write_text(SENT)
        if run("init", "--store", made, "--manager", "root") != (0, "ready\n", "") or run("deliver", "--store", made, given=MADE)[1].count("200 ") != 3:
            sys.exit("the office can't be made")
        shutil.copyfile(made, once)
        wanted = run("deliver", "--store", once, given=SENT), exported(once)
        if wanted[0][1].count("\n") != SENT.count("\n") or any(it[0] for it in wanted[1]):
            sys.exit(f"the list can't be delivered: {wanted}")
        with ThreadPoolExecutor(AT_A_TIME) as pool:
            for turn, (found, network) in enumerate(pool.map(lambda turn: schedule(rooms, made, listed, turn), range(COUNT))):
                messages, answered = messages + network.messages, answered + network.answered
                if found != wanted:
                    otherwise += 1
                    if otherwise < 4:
                        print(f"schedule {turn}: {found}, not {wanted}")
    print(f"{COUNT} schedules, {otherwise} otherwise; of {messages} messages {answered} answered")
    return 1 if otherwise else 0


if __name__ == "__main__":
    sys.exit(main())
