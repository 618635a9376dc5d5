#!/usr/bin/python3
"""Tries a replica whose log is this script: what it answers when it loses the log in the midst of its messages.

    tests/heard.py [--program FILE] [--tools FOLDER]

A replica that has lost the log takes what it has heard of it, and answers questions then as it stands. One that was told to drop what it heard,
since it attaches anew, may be late, and answers none before it has the log again. It wants no log and no engine. A line for each look, and last
`N looks, M wrong`.
"""
import argparse
import pathlib
import sys
import tempfile
import time
import types

import log_nodes

REQUESTS = 16


class Reader:
    """A log by hand: what it hands to a replica, and when it is lost, is said here."""

    def attach(self, _name, _begin, _turn, hear, lost):
        self.hear, self.lost = hear, lost
        return self

    def answer(self, *_):
        pass

    def taken(self, _message):
        pass

    def close(self):
        pass


class Heard:
    def __init__(self, given, folder):
        sys.path.insert(0, str(given.tools))
        from office_streams import offices, replica, room

        self.replicas = replica
        self.reader = Reader()
        words = types.SimpleNamespace(folder=folder, ahead=32, idle=30, answer=120, keep=600, host="h")
        programs = {"1": (given.program, offices.stops_at_lost(given.program))}
        self.replica = replica.Replica(words, self.reader, programs, room.Room(4), "heard", "heard")
        self.looks = self.wrong = 0

    def check(self, good, text):
        self.looks += 1
        self.wrong += not good
        print("good " if good else "WRONG", text, flush=True)

    def message(self, offset):
        from office_streams import REQUEST, START, Message

        number = f"01900000-0000-7000-8000-{offset:012}"
        kind, body = REQUEST, b'{"act":"team","name":"n%d","role":"translator"}' % offset
        if offset == 0:
            kind, body = START, b'{"manager":"root"}'
        return Message(offset, kind, number, "root", body, None, "", int(time.time()), (self.reader, offset))

    def taken(self, count, seconds=20):
        end = time.monotonic() + seconds
        while self.replica.total < count and time.monotonic() < end:
            time.sleep(0.05)
        return self.replica.total

    def status(self):
        question = self.replicas.Question("/v1/stats/xx")
        self.replica.ask(question)
        question.done.wait(self.replicas.PATIENCE + 2)
        return question.answer and question.answer.status

    def run(self):
        it = self.replica
        it.look(time.monotonic(), False)
        for offset in range(1 + REQUESTS):
            self.reader.hear(self.message(offset))
        self.check(self.taken(REQUESTS) == REQUESTS and self.status() == 404, "a replica with the log answers a question")
        with it.lock:
            for offset in range(1 + REQUESTS, 1 + 2 * REQUESTS):
                self.reader.hear(self.message(offset))
            self.reader.lost("the log is lost")
        self.check(self.taken(2 * REQUESTS) == 2 * REQUESTS, f"it loses the log with {REQUESTS} messages untaken, and takes them")
        self.check(self.status() == 404, "then it answers a question as it stands")
        it.look(time.monotonic() + 60, False)
        self.reader.hear(self.message(2 * REQUESTS))
        with it.lock:
            self.reader.hear(self.message(1 + 2 * REQUESTS))
            self.reader.lost("the log is lost")
            it.attach()
        self.check(self.status() is None, "it drops what it has heard, for it attaches anew, and answers no question without the log")
        it.stop()
        print(f"{self.looks} looks, {self.wrong} wrong", flush=True)
        return min(self.wrong, 1)


def main():
    parser = argparse.ArgumentParser(description=__doc__.split("\n")[0])
    parser.add_argument("--program", type=lambda it: str(pathlib.Path(it).resolve()), default=str(log_nodes.TOP / "crates" / "cli" / "out" / "cli"))
    parser.add_argument("--tools", default=log_nodes.TOOLS, help="where the tools are")
    given, _ = parser.parse_known_args()
    with tempfile.TemporaryDirectory() as folder:
        return Heard(given, folder).run()


if __name__ == "__main__":
    sys.exit(main())
