#!/usr/bin/python3
"""Measures projects whose requests are in a replicated log: one from client to reply, a late replica, a host taking over, and many streams.

    bench/streams.py [--engine nats] [--program FILE] [--folder FOLDER] [--seconds S] [--requests N] [--streams N] [--page FILE] [PART..]

PART is latency, replay, takeover or streams; all where none is named. Three nodes, hosts, door and clients are processes of this machine, on loopback
and on one disk, so they share what three machines have each for themselves: a figure is an upper bound of a time and a lower bound of a rate, the
more so where the machine does other work, whose load is printed beside. It wants what tests/cluster.py wants.

Prints a row of a table for each figure. With --page they stand in that page too, between the two lines that name this program; a row that wasn't
measured now stays there.
"""
import argparse
import http.client
import json
import os
import pathlib
import shutil
import signal
import subprocess
import sys
import tempfile
import threading
import time

TOP = pathlib.Path(__file__).resolve().parent.parent
sys.path.insert(0, str(TOP / "tests"))
import log_clients as clients
import log_hosts
import log_nodes
from log_nodes import HOST, NAMES, memory_of, seconds_of

PARTS = ("latency", "replay", "takeover", "streams")
MESSAGES = 2000
FILLER = "x" * 100
# So many of the streams are looked at.
LOOKED = 100
HEAD = ("| What | Measured | Load of the machine |", "|---|---|---|")
# What stands before the table in a page, and behind it.
MARKS = ("<!-- bench/streams.py writes this table -->", "<!-- up to here -->")
# A program that says nothing of `--stop-at-lost`, so that each line waits for the answer to the one before.
ONE_LINE = """#!/bin/sh
test "$2" = --help || exec {program} "$@"
"""


class Rows:
    """The rows of the table, printed as they come, and put into a page."""

    def __init__(self, page):
        self.page = page and pathlib.Path(page)
        print(*HEAD, sep="\n", flush=True)

    def add(self, what, figure):
        row = f"| {what} | {figure} | {os.getloadavg()[0]:.0f} |"
        print(row, flush=True)
        if self.page:
            self.put(what, row)

    def put(self, what, row):
        before, _, rest = self.page.read_text().partition(MARKS[0])
        table, mark, behind = rest.partition(MARKS[1])
        if not mark:
            raise SystemExit(f"{self.page} has no place for the table")
        rows = {it.split(" | ")[0][2:]: it for it in table.strip().splitlines()[len(HEAD) :]}
        rows[what] = row
        self.page.write_text("\n".join((before + MARKS[0], *HEAD, *rows.values(), MARKS[1] + behind)))


def clients_of(count):
    return f"{count} client{'s' if 1 < count else ''}"


def quantiles(took):
    took = sorted(took)
    return f"p50 {took[len(took) // 2] * 1000:.1f} ms, p99 {took[min(len(took) - 1, len(took) * 99 // 100)] * 1000:.1f} ms"


class Figures:
    def __init__(self, given):
        self.given = given
        self.folder = pathlib.Path(given.folder).resolve()
        self.nodes = log_nodes.KINDS[given.engine](self.folder / "nodes", given.base)
        self.place = log_hosts.Place(self.folder, self.nodes, given.program, given.port)
        self.hosts, self.door = [], None
        self.rows = Rows(given.page)
        self.turn = 0

    def host(self, name, *words):
        it = log_hosts.Host(self.place, name, words)
        self.hosts.append(it)
        return it

    def put(self, project, *hosts):
        self.place.table.place(project, *hosts)
        self.place.table.write()
        for it in hosts:
            if it.feed is None or it.feed.poll() is not None:
                it.start()
        # A door reads the table anew in a moment.
        while clients.Sender([self.door.port]).get(project, "/v1/stats/xx")[1] == b'{"error":"no-project"}':
            time.sleep(0.1)

    def begin(self, project, messages=MESSAGES):
        """The acts of managers, over the door."""
        sender = clients.Sender([self.door.port])
        for act in clients.beginnings(messages, ("de",)):
            if act["act"] != "policy":
                status, body = sender.post(project, clients.new_number(), "root", json.dumps(act).encode(), seconds=120)
                assert status == 200, (status, body)

    # --- one project, from client to reply

    def latency(self):
        self.alone()
        self.place.make("one")
        one, two = self.host("h1"), self.host("h2")
        self.put("one", one)
        self.begin("one")
        self.rows.add("memory of a feed; of a door", f"{memory_of(one.feed.pid) >> 20} MiB; {memory_of(self.door.process.pid) >> 20} MiB")
        for count in (1, 50):
            self.rows.add(f"acts on one project behind a door, {clients_of(count)}, one replica", self.load(self.door.port, "one", count))
        self.put("one", one, two)
        time.sleep(10)
        for count in (1, 50):
            self.rows.add(f"acts on one project behind a door, {clients_of(count)}, two replicas", self.load(self.door.port, "one", count))

    def alone(self):
        """An office that is served, without a log; 50 clients wait for it in turn, a connection for each act."""
        store = self.folder / "alone.db"
        acts = [it for it in clients.beginnings(MESSAGES, ("de",)) if it["act"] != "policy"]
        lines = "".join(json.dumps({**it, "caller": "root", "number": clients.new_number()}) + "\n" for it in acts)
        subprocess.run([self.given.program, "init", "--store", store, "--manager", "root"], check=True, capture_output=True)
        subprocess.run([self.given.program, "deliver", "--store", store], input=lines.encode(), check=True, capture_output=True)
        port = self.given.port + 34
        words = [self.given.program, "serve", "--store", store, "--port", str(port), "--connections", "4294967295"]
        with subprocess.Popen(words, stderr=subprocess.DEVNULL) as office:
            try:
                while not log_nodes.answers(port):
                    time.sleep(0.05)
                for count in (1, 50):
                    self.rows.add(f"acts on `office serve` alone, {clients_of(count)}", self.load(port, None, count, kept=count == 1))
            finally:
                office.kill()

    def load(self, port, project, count, kept=True):
        """So many clients, each of which sends its next act when the last is answered."""
        self.turn += 1
        took, wrong, end = [], [], time.monotonic() + self.given.seconds
        threads = [threading.Thread(target=self.client, args=(port, project, it, kept, end, took, wrong)) for it in range(count)]
        began = time.monotonic()
        for it in threads:
            it.start()
        for it in threads:
            it.join()
        told = f"{len(took) / (time.monotonic() - began):.0f} a second, {quantiles(took)}"
        return told + (f", {len(wrong)} NOT DONE: {wrong[:2]}" if wrong else "")

    def client(self, port, project, it, kept, end, took, wrong):
        connection = http.client.HTTPConnection(HOST, port, timeout=60)
        message, seen = f"message {(self.turn * 100 + it) % MESSAGES} of %d", 1
        head = {"X-Office-Caller": "c1", **({"Host": f"{project}.local"} if project else {}), **({} if kept else {"Connection": "close"})}
        while time.monotonic() < end:
            act = {"act": "translate", "lang": "de", "id": message, "seen": seen, "forms": [f"Meldung %d {seen} {FILLER}"]}
            began = time.monotonic()
            try:
                connection.request("POST", f"/v1/requests/{clients.new_number()}", json.dumps(act).encode(), head)
                answer = connection.getresponse()
                text = answer.read()
            except (OSError, http.client.HTTPException) as why:
                wrong.append(repr(why))
                connection.close()
                continue
            took.append(time.monotonic() - began)
            if answer.status != 200:
                wrong.append((answer.status, text[:60]))
                continue
            seen = json.loads(text)["revision"]

    # --- a late replica

    def publish(self, project, count):
        """Many requests in the stream, as clients would leave them in months; how many a second were published."""
        maker = log_nodes.engine_of(self.nodes).Maker(log_nodes.tool_words(self.nodes))
        began = time.monotonic()
        for it in range(count):
            unit, seen = it % 1500, 1 + it // 1500
            act = {"act": "translate", "lang": "de", "id": f"message {500 + unit} of %d", "seen": seen, "forms": [f"Meldung %d {it} {FILLER}"]}
            self.put_request(maker, project, json.dumps(act).encode())
        took = time.monotonic() - began
        maker.close()
        return count / took

    def put_request(self, maker, project, body):
        if self.given.engine == "nats":
            from office_streams import nats

            headers = {nats.KIND: "request", nats.NUMBER: clients.new_number(), nats.CALLER: "c1"}
            maker.connection.publish(f"office.{project}", body, headers, f"{maker.connection.inbox}.none")
            return
        import pika

        if not hasattr(maker, "requests"):
            maker.requests = maker.connection.channel()
        properties = pika.BasicProperties(type="request", message_id=clients.new_number(), headers={"caller": "c1"}, timestamp=int(time.time()))
        maker.requests.basic_publish("", f"office.{project}", body, properties)

    def replay(self):
        count = self.given.requests
        self.place.make("many")
        host = self.host("m1")
        self.put("many", host)
        self.begin("many")
        host.ended()
        size = self.nodes.disk("a")
        self.publish("many", count)
        time.sleep(5)
        self.rows.add("a request in a node's stream", f"{(self.nodes.disk('a') - size) / count:.0f} bytes")
        late = self.host("late")
        self.rows.add("a late replica, from the stream's beginning, many lines ahead", self.caught_up(late))
        one_line = ["--program", self.one_line_program()]
        self.rows.add("a late replica, from the stream's beginning, a line at a time", self.caught_up(self.host("slow", *one_line)))
        files = late.store("many").parent.glob("office.db*")
        self.rows.add("a request in a replica's file", f"{sum(it.stat().st_size for it in files) / count:.0f} bytes")
        hint = late.store("many").with_name("office.db.offset")
        kept = hint.read_bytes()
        hint.unlink()
        self.rows.add("a replica that has it all, without its hint: all repeats", self.caught_up(late))
        # Repeats write none.
        hint.write_bytes(kept)
        began = time.monotonic()
        late.to_the_end("many")
        self.rows.add("a replica that has it all, with its hint, up to the end", f"{time.monotonic() - began:.1f} s")
        for name, words, how in ("quick", [], "many lines ahead"), ("slow-too", one_line, "a line at a time"):
            if self.given.memory:
                it = self.in_memory(name, *words)
                self.rows.add(f"a late replica, its file in memory, {how}", self.caught_up(it))
                shutil.rmtree(it.folder)

    def one_line_program(self):
        path = self.folder / "one-line"
        path.write_text(ONE_LINE.format(program=self.given.program))
        path.chmod(0o755)
        return path

    def in_memory(self, name, *words):
        """A host whose folder is in memory."""
        it = self.host(name, *words)
        it.folder.rmdir()
        it.folder = pathlib.Path(self.given.memory) / name
        shutil.rmtree(it.folder, ignore_errors=True)
        it.folder.mkdir(parents=True)
        return it

    def caught_up(self, host):
        status, told = host.to_the_end("many", timeout=3600)
        assert status == 0, told
        taken, seconds = told.rsplit("taken ", 1)[1].split(" s,")[0].split(" in ")
        return f"{int(taken) / float(seconds):.0f} requests a second, of {taken}"

    # --- a host that is lost

    def takeover(self):
        """A project's one feed is killed and its host gone; another host feeds it: how long a client waits for its reply."""
        copy = self.folder / "copy"
        shutil.copytree(self.folder / "late" / "many", copy)
        for how in ("a copy", "the stream's beginning"):
            first, second = self.host(f"from-{how.split()[-1]}"), self.host(f"to-{how.split()[-1]}")
            shutil.copytree(copy, first.store("many").parent)
            self.put("many", first)
            self.ask()
            began = time.monotonic()
            first.lose()
            if how == "a copy":
                shutil.copytree(copy, second.store("many").parent)
            self.put("many", second)
            self.ask()
            what = f"first reply {time.monotonic() - began:.1f} s behind the loss, {self.given.requests} requests in the stream"
            self.rows.add(f"a lost host's project taken over from {how}", what)
            second.ended()

    def ask(self):
        act = {"act": "translate", "lang": "de", "id": "message 1 of %d", "seen": 1, "forms": [f"Meldung %d {time.time()}"]}
        clients.Sender([self.door.port]).post("many", clients.new_number(), "c1", json.dumps(act).encode(), seconds=3600)

    # --- many streams

    def streams(self):
        count = self.given.streams
        before = {name: (self.nodes.memory(name), self.nodes.disk(name), self.nodes.files(name)) for name in NAMES}
        names = [f"s{it:05}" for it in range(count)]
        maker = log_nodes.engine_of(self.nodes).Maker(log_nodes.tool_words(self.nodes))
        began = time.monotonic()
        for name in names:
            maker.make(name, "start", b'{"manager":"root"}')
        took = time.monotonic() - began
        maker.close()
        self.rows.add("streams made", f"{count} in {took:.0f} s, {took / count * 1000:.0f} ms each")
        some = names[:: max(1, count // LOOKED)]
        began = time.monotonic()
        assert self.place.looked(*some)
        took = time.monotonic() - began
        self.rows.add("streams looked at through each node", f"{len(some)} in {took:.1f} s, {took / len(some) * 1000:.0f} ms each")
        time.sleep(10)
        costs = [[now - was for now, was in zip((self.nodes.memory(it), self.nodes.disk(it), self.nodes.files(it)), before[it])] for it in NAMES]
        memory, disk, files = (max(it[part] for it in costs) / count for part in range(3))
        self.rows.add("a stream, on the node where it costs most", f"{memory / 1024:.0f} KiB of memory, {disk / 1024:.0f} KiB of disk, {files:.1f} descriptors")
        self.idle(names)

    def idle(self, names):
        """One feed of all these projects, none of which anybody asks for."""
        host = self.host("idle")
        for it in names:
            self.place.table.place(it, host)
        self.place.table.write()
        began = time.monotonic()
        host.start()
        while not self.is_whole(host, len(names)):
            time.sleep(1)
            if 900 < time.monotonic() - began:
                self.rows.add("a feed of as many idle projects", "not whole in 900 s")
                return
        took = time.monotonic() - began
        one = [self.nodes.seconds(it) for it in NAMES] + [seconds_of(host.feed.pid)]
        time.sleep(20)
        two = [self.nodes.seconds(it) for it in NAMES] + [seconds_of(host.feed.pid)]
        spent = [f"{(after - before) * 5:.0f} %" for before, after in zip(one, two)]
        self.rows.add("a feed of as many idle projects", f"{memory_of(host.feed.pid) >> 20} MiB, attached to all in {took:.0f} s, {spent[-1]} of a core")
        self.rows.add("the nodes meanwhile", f"{', '.join(spent[:-1])} of a core; {', '.join(str(self.nodes.memory(it) >> 20) for it in NAMES)} MiB")

    def is_whole(self, host, count):
        """Whether a feed has made the office of each project."""
        return sum(1 for _ in host.folder.glob("*/office.db")) == count

    def run(self):
        try:
            self.nodes.start_all()
            self.place.table.write()
            self.door = log_hosts.Door(self.place)
            self.door.wait_until_ready()
            for part in self.given.parts:
                getattr(self, part)()
        finally:
            for it in self.hosts:
                it.ended()
            if self.door is not None:
                self.door.stop()
            self.nodes.stop()


def main():
    signal.signal(signal.SIGTERM, lambda *_: sys.exit(1))
    parser = argparse.ArgumentParser(description=__doc__.split("\n")[0])
    parser.add_argument("--engine", choices=log_nodes.KINDS, default="rabbitmq")
    parser.add_argument("--program", type=lambda it: str(pathlib.Path(it).resolve()), default=str(TOP / "crates" / "cli" / "out" / "cli"))
    log_nodes.add_words(parser)
    parser.add_argument("--folder", help="where all is [default: a new one, which is taken away]")
    parser.add_argument("--seconds", type=float, default=5)
    parser.add_argument("--requests", type=int, default=6000)
    parser.add_argument("--streams", type=int, default=3000)
    parser.add_argument("--memory", metavar="FOLDER", help="a folder in memory, where a late replica is made too")
    parser.add_argument("--page", metavar="FILE", help="a page that has a place for the table")
    parser.add_argument("parts", nargs="*", choices=[*PARTS, []], metavar="PART")
    given = parser.parse_args()
    given.parts = given.parts or PARTS
    with tempfile.TemporaryDirectory() as folder:
        given.folder = given.folder or folder
        Figures(given).run()


if __name__ == "__main__":
    main()
