#!/usr/bin/python3
"""Tries what feeds, doors and nodes of a replicated log do where something isn't as it should be, and what operators do with them.

    tests/doubts.py [--engine nats] [--program FILE] [--folder FOLDER] [--tools FOLDER] [PART..]

PART is one of these, and all are tried where none is named:
  older_file     a file that was put back from a copy, beside a newer hint
  no_memory      a replica that loses a third of what comes, a line at a time, and with many lines ahead of their answers
  refused        the program itself, with many lines ahead, where a growth of its memory is refused now and then (wants cc)
  another_log    the file of another project
  lost_beginning a stream whose beginning is gone
  messages       a door answers what `office serve` answers, to messages in whatever spelling; and the fronts stand before it unchanged
  lines          bodies that hide what a line would have, taken as lines
  held           a file isn't written while its project is held
  apart          a project that is let go in the midst of its messages costs no other its connection
  late           no replica answers, or the log finds no stream of the project: a door tells it in time
  disagreement   a door tells that two replicas differ
  placement      a project's replica is moved, copied while it is held, and made late
  rules          an upgrade that changes a rule, at one offset of all replicas; one host hasn't the program
  full_disk      the disk of a node is full: RabbitMQ's own limit, and a small disk of its own (a tmpfs, where this process may mount one)
  rolling        all three nodes are started again, one after another, as the page says, while clients act
  power          two nodes are killed, and then all three at once, while clients act
  lost_end       all nodes lose what they wrote last, as by power; then a file is the project, and its copy begins a new stream

It wants what tests/cluster.py wants, and nginx for the fronts. A line for each look, and last `N looks, M wrong`.
"""
import argparse
import contextlib
import json
import pathlib
import shutil
import signal
import socket
import sqlite3
import subprocess
import sys
import tempfile
import threading
import time

import log_clients as clients
import log_hosts
import log_nodes
from looks import number
from log_nodes import HOST, NAMES, TOP

PARTS = (
    "older_file no_memory refused another_log lost_beginning messages lines held apart late disagreement placement rules full_disk rolling power lost_end"
).split()
SMALL_DISK = "size=160m"
TEAM = b'{"act":"team","name":"ann","role":"translator"}'
LATE = 504, b'{"error":"late"}', "1"
NO_PROJECT = 404, b'{"error":"no-project"}'

# `office deliver` by a sound program, but a third of the lines is lost for want of memory: they are answered 503 and don't reach it. Where it
# is told to stop at the first lost line it does, as the program's own option.
FORGETFUL = """#!/usr/bin/python3
import random, subprocess, sys
PROGRAM, MANY = {program!r}, {many!r}
if "--help" in sys.argv:
    print("--stop-at-lost" if MANY else "")
    sys.exit(0)
words = [it for it in sys.argv[1:] if it != "--stop-at-lost"]
if words[0] != "deliver":
    sys.exit(subprocess.run([PROGRAM, *words]).returncode)
chance = random.Random()
with subprocess.Popen([PROGRAM, *words], stdin=subprocess.PIPE, stdout=subprocess.PIPE) as office:
    for line in sys.stdin.buffer:
        if chance.random() < 1 / ({often}):
            print('503 {{"error":"memory"}}', flush=True)
            if "--stop-at-lost" in sys.argv:
                break
            continue
        office.stdin.write(line)
        office.stdin.flush()
        sys.stdout.buffer.write(office.stdout.readline())
        sys.stdout.buffer.flush()
    office.stdin.close()
sys.exit(office.returncode)
"""
# The program itself, which is refused one growth of its memory, another each time that it takes lines.
REFUSED = """#!/usr/bin/python3
import os, random, sys
if sys.argv[1] == "deliver" and "--help" not in sys.argv:
    os.environ.update(LD_PRELOAD={library!r}, FAIL_N=str(random.randrange({first}, {last})))
os.execv({program!r}, [{program!r}, *sys.argv[1:]])
"""
# A program that writes down which requests it took as lines.
NOTING = """#!/usr/bin/python3
import json, subprocess, sys
PROGRAM, NOTES = {program!r}, {notes!r}
if sys.argv[1:2] != ["deliver"] or "--help" in sys.argv:
    sys.exit(subprocess.run([PROGRAM, *sys.argv[1:]]).returncode)
with subprocess.Popen([PROGRAM, *sys.argv[1:]], stdin=subprocess.PIPE, stdout=subprocess.PIPE) as office:
    for line in sys.stdin.buffer:
        with open(NOTES, "a") as it:
            it.write(json.loads(line)["number"] + "\\n")
        office.stdin.write(line)
        office.stdin.flush()
        sys.stdout.buffer.write(office.stdout.readline())
        sys.stdout.buffer.flush()
    office.stdin.close()
sys.exit(office.returncode)
"""


class Doubts:
    def __init__(self, given):
        self.given = given
        self.folder = pathlib.Path(given.folder).resolve()
        self.nodes = log_nodes.KINDS[given.engine](self.folder / "nodes", given.base)
        self.place = log_hosts.Place(self.folder, self.nodes, given.program, given.port, given.tools)
        self.host = log_hosts.Host(self.place, "h", ["--idle", 2])
        self.hosts, self.doors = [self.host], []
        self.looks = self.wrong = 0
        self.mounted = False

    def check(self, good, text):
        self.looks += 1
        self.wrong += not good
        print("good " if good else "WRONG", text if len(text) < 700 else text[:350] + " .. " + text[-350:], flush=True)

    # --- what the parts share

    def fed(self, *projects, host=None, further=()):
        """A feed to the streams' ends; its status and what it told."""
        return (host or self.host).to_the_end(*projects, further=further, timeout=240)

    def publish(self, project, first, count):
        """Requests by nobody who waits: each makes one name a translator."""
        maker = log_nodes.engine_of(self.nodes).Maker(log_nodes.tool_words(self.nodes))
        numbers = sorted(clients.new_number() for _ in range(count))
        for it, number in enumerate(numbers, first):
            body = json.dumps({"act": "team", "name": f"n{it}", "role": "translator"}).encode()
            put_request(self.given.engine, maker, project, number, body)
        maker.close()
        return numbers

    def rows(self, store, statement):
        rows = sqlite3.connect(store)
        try:
            return rows.execute(statement).fetchall()
        finally:
            rows.close()

    def records(self, project, host=None):
        return self.rows((host or self.host).store(project), "SELECT count(*) FROM record")[0][0]

    def names(self, project, host=None):
        """The names that became translators, in the order of the records."""
        return [json.loads(it[0])["name"] for it in self.rows((host or self.host).store(project), "SELECT content FROM record ORDER BY rowid")]

    def new_host(self, name, *words):
        it = log_hosts.Host(self.place, name, ["--idle", 5, *words])
        self.hosts.append(it)
        return it

    def new_door(self, **options):
        it = log_hosts.Door(self.place, **options)
        self.doors.append(it)
        it.wait_until_ready()
        return it

    def serve(self, project, *hosts):
        """A project on hosts whose feeds run, with a door before them."""
        self.place.make(project)
        self.place.table.place(project, *hosts)
        self.place.table.write()
        for it in hosts:
            if it.feed is None or it.feed.poll() is not None:
                it.start()

    def equal(self, project, *hosts):
        """Whether the hosts' files have the same records."""
        found = [self.rows(it.store(project), "SELECT number, content, status, body FROM record ORDER BY rowid") for it in hosts]
        return all(it == found[0] for it in found), len(found[0])

    def end_feeds(self, *hosts):
        for it in hosts:
            it.ended()

    # --- a file and its hint

    def older_file(self):
        self.place.make("old")
        self.publish("old", 0, 20)
        self.fed("old")
        folder = self.host.store("old").parent
        shutil.copy(self.host.store("old"), self.folder / "old.db")
        self.publish("old", 20, 20)
        status, told = self.fed("old")
        taken = int(told.rpartition("taken ")[2].split()[0])
        self.check(status == 0 and self.records("old") == 40 and 20 <= taken < 30, f"goes on from its hint: {told}")
        for it in folder.glob("office.db-*"):
            it.unlink()
        shutil.copy(self.folder / "old.db", self.host.store("old"))
        self.check(self.records("old") == 20, "an older copy is put back, and the newer hint stays")
        status, told = self.fed("old")
        self.check(status == 0 and self.records("old") == 40 and "another file" in told, f"hint isn't believed: {told}")

    def program(self, name, text, **words):
        path = self.folder / name
        path.write_text(text.format(program=self.given.program, **words))
        path.chmod(0o755)
        return str(path)

    def no_memory(self):
        """A replica that loses a part of what comes records all the same in the stream's order."""
        for many, often in (False, 3), (True, 10):
            project = f"lost-{int(many)}"
            self.place.make(project)
            self.publish(project, 0, 60)
            forgetful = self.program("forgetful", FORGETFUL, many=many, often=often)
            status, told = self.fed(project, further=["--program", forgetful])
            in_order = self.names(project) == [f"n{it}" for it in range(60)]
            how = "many lines ahead" if many else "a line at a time"
            self.check(status == 0 and in_order and "no memory" in told, f"{how}: 60 requests in order, lost {told.count('no memory')} times: {told[-200:]}")

    def refused(self):
        """The same of the program itself: it ends behind the first line that it has no memory for, with the lines behind it untaken."""
        library = self.folder / "refuse.so"
        subprocess.run(["cc", "-shared", "-fPIC", "-O1", "-o", library, TOP / "tests" / "growths" / "refuse.c", "-ldl"], check=True)
        self.place.make("refused")
        self.publish("refused", 0, 120)
        # Where an opening is refused the replica is tried anew, as ever.
        refused = self.program("refused", REFUSED, library=str(library), first=5_000, last=30_000)
        told = []
        for _ in range(60):
            status, one = self.fed("refused", further=["--program", refused])
            told += one.splitlines()
            if status == 0:
                break
        lost = sum("no memory" in it for it in told)
        in_order = self.names("refused") == [f"n{it}" for it in range(120)]
        self.check(status == 0 and in_order and lost, f"120 requests in order, lost {lost} times by the program itself: {told[-1:]}")

    def another_log(self):
        self.place.make("two", "three")
        self.publish("two", 0, 15)
        self.publish("three", 0, 15)
        self.fed("two", "three")
        for it in self.host.store("three").parent.glob("office.db*"):
            shutil.copy(it, self.host.store("two").parent)
        status, told = self.fed("two")
        self.check(status == 1 and "is another" in told, f"the file of another project: {status} {told}")

    def lost_beginning(self):
        if self.given.engine == "nats":
            self.place.make("short")
            self.publish("short", 0, 50)
            nats = log_nodes.engine_of(self.nodes)
            connection = nats.connected(log_nodes.tool_words(self.nodes))
            connection.api(f"STREAM.PURGE.{nats.STREAM}", {"filter": "office.short", "keep": 10})
            connection.close()
        else:
            self.short_stream()
        status, told = self.fed("short")
        self.check(status == 1 and "not with its start" in told, f"a stream whose beginning is gone: {status} {told}")

    def short_stream(self):
        """A stream of RabbitMQ that keeps few bytes: its beginning goes by that, file by file."""
        rabbitmq = log_nodes.engine_of(self.nodes)
        maker = rabbitmq.Maker(log_nodes.tool_words(self.nodes))
        maker.arguments = {**rabbitmq.ARGUMENTS, "x-max-length-bytes": 40_000, "x-stream-max-segment-size-bytes": 10_000}
        maker.make("short", "start", b'{"manager":"root"}')
        for _ in range(60):
            put_request("rabbitmq", maker, "short", clients.new_number(), b'{"act":"team","name":"ann","role":"' + b"x" * 4000 + b'"}')
        maker.close()

    # --- doors

    def messages(self):
        host = self.new_host("m1", "--keep", 60)
        project = "example"
        self.serve(project, host)
        run = self.folder / "run"
        run.mkdir()
        door = self.new_door(further=["--sockets", run])
        sender = clients.Sender([door.port])
        acts = [(clients.new_number(), json.dumps(act).encode()) for act in clients.beginnings(3, ("de",))]
        replies = [sender.post(project, number, "root", body) for number, body in acts]
        self.check(all(it[0] == 200 for it in replies), f"acts of managers: {replies[:2]}")
        self.same_answers(run / f"{project}.sock", acts)
        self.fronts(run / f"{project}.sock")

    def same_answers(self, door, acts):
        """What the door answers is, byte for byte, what `office serve` answers to the same messages."""
        store = self.folder / "alone.db"
        subprocess.run([self.given.program, "init", "--store", store, "--manager", "root"], check=True, capture_output=True)
        lines = b"".join(json.dumps({**json.loads(body), "number": number, "caller": "root"}).encode() + b"\n" for number, body in acts)
        subprocess.run([self.given.program, "deliver", "--store", store], input=lines, check=True, capture_output=True)
        port = self.given.port + 34
        words = [self.given.program, "serve", "--store", store, "--port", str(port), "--connections", "10000"]
        with subprocess.Popen(words, stderr=subprocess.DEVNULL) as office:
            try:
                while not log_nodes.answers(port):
                    time.sleep(0.1)
                for name, message in MESSAGES.items():
                    alone, behind = said((HOST, port), message), patiently(str(door), message)
                    self.check(alone == behind and alone, f"{name}: {behind[:90]!r}" + ("" if alone == behind else f", and not {alone[:300]!r}"))
            finally:
                office.kill()

    def fronts(self, door):
        """nginx as share/front has it, before the door's socket."""
        import front_servers as servers

        if servers.program("nginx") is None:
            self.check(False, "nginx isn't installed")
            return
        page = TOP / "share" / "web"
        with tempfile.TemporaryDirectory() as folder:
            front = servers.Nginx(folder, {"example": {"root": "swordfish"}}, page)
            front.socket.parent.mkdir(exist_ok=True)
            front.socket.symlink_to(door)
            with front.serving():
                self.through(front)

    def through(self, front):
        import base64
        import http.client

        head = {"Authorization": "Basic " + base64.b64encode(b"root:swordfish").decode(), "Content-Type": "application/json"}
        number = clients.new_number()
        found = []
        body = b'{"act":"team","name":"ann","role":"translator"}'
        for method, target, given in ("POST", f"/v1/requests/{number}", body), ("GET", "/v1/stats/de", None), ("GET", "/", None):
            asked = http.client.HTTPConnection(HOST, front.port, timeout=30)
            asked.request(method, target, given, head)
            answer = asked.getresponse()
            found.append((answer.status, answer.read()[:60]))
            asked.close()
        good = found[0] == (200, b'{"name":"ann","role":"translator"}') and found[1][0] == 200 and found[2][0] == 200 and b"html" in found[2][1].lower()
        self.check(good, f"the front as it is, before a door: {found}")

    def lines(self):
        """A replica that takes a stream as lines answers, and records, what a served office does."""
        self.place.make("lines")
        maker = log_nodes.engine_of(self.nodes).Maker(log_nodes.tool_words(self.nodes))
        sound = b'"act":"team","name":"ann","role":"translator"}'
        for body in (b'{"caller":"zoe",' + sound, b'{"number":"x",' + sound, b'{"act":"team","name":"bea","role":"translator","caller":"root"}', b"{" + sound):
            put_request(self.given.engine, maker, "lines", clients.new_number(), body)
        maker.close()
        status, told = self.fed("lines")
        found = self.rows(self.host.store("lines"), "SELECT content FROM record")
        good = [json.loads(it[0])["caller"] for it in found] == ["root"]
        self.check(status == 0 and good, f"of four bodies, three of which name a caller or a number, one is recorded: {found} {told}")

    def held(self):
        host = self.new_host("k1")
        self.serve("held", host)
        act = self.acting("held", self.new_door(wait=2.0))
        self.check(act() == 200, "an act before")
        folder = host.store("held").parent
        (folder / "hold").touch()
        self.wait(lambda: (folder / "held").exists(), "it is held")
        before = {it.name: it.stat().st_mtime_ns for it in folder.glob("office.db*")}
        self.publish("held", 500, 5)
        time.sleep(4)
        after = {it.name: it.stat().st_mtime_ns for it in folder.glob("office.db*")}
        done = subprocess.run([self.given.program, "export", "--store", host.store("held"), "--lang", "xx"], capture_output=True, check=False)
        good = before == after and b"store fault" not in done.stderr
        self.check(good, f"and its file isn't touched, and free to be opened: {before} {after} {done.stderr}")
        (folder / "held").unlink()
        self.check(act() == 200, "and goes on behind that")
        self.end_feeds(host)
        self.check(self.records("held", host) == 7, f"with what came meanwhile: {self.records('held', host)}")

    def apart(self):
        """Two projects whose streams one feed reads at the same node, over one connection: the one is held again and again while much comes."""
        host = self.new_host("a1", "--idle", 60)
        busy, calm = "apart-ab", "apart-ba"
        self.serve(calm, host)
        self.serve(busy, host)
        folder = host.store(busy).parent
        self.wait(lambda: host.store(busy).exists() and host.store(calm).exists(), "both are fed")
        stopping = threading.Event()

        def come():
            while not stopping.is_set():
                self.publish(busy, 0, 50)

        coming = threading.Thread(target=come, daemon=True)
        coming.start()
        for _ in range(8):
            (folder / "hold").touch()
            self.wait_quietly(lambda: (folder / "held").exists())
            (folder / "held").unlink(missing_ok=True)
            self.wait_quietly(lambda: host.told(busy)["taken"])
            time.sleep(2)
        stopping.set()
        coming.join(60)
        told = (self.place.folder / f"feed-{host.name}.log").read_text()
        self.check(told.count(f"{busy}: held") == 8 and f"{calm}:" not in told, f"held {told.count(busy + ': held')} times: {told[-300:]}")
        self.end_feeds(host)

    def late(self):
        self.place.make("late")
        self.place.table.place("late", self.host)
        self.place.table.write()
        door = self.new_door(wait=2.0)
        sender = clients.Sender([door.port])
        began = time.monotonic()
        found = answered(sender, "late", "POST", f"/v1/requests/{clients.new_number()}", TEAM)
        took = time.monotonic() - began
        self.check(found == LATE and took < 5, f"without a replica: {found} in {took:.1f} s")
        found = answered(sender, "late", "GET", "/v1/stats/de")
        self.check(found == (502, b'{"error":"no-office"}', "1"), f"a question: {found}")
        found = sender.once("nobody", clients.new_number(), "root", b"{}")
        self.check(found == NO_PROJECT, f"a project that isn't in the table: {found}")
        self.unfound(door, sender)

    def unfound(self, door, sender):
        """A log that finds no stream, as behind a start of all its nodes, says nothing about the project: the request waits, or comes again."""
        self.place.table.place("unfound", self.host)
        self.place.table.write()
        self.wait_quietly(lambda: sender.get("unfound", "/v1/stats/de", tries=1) != NO_PROJECT)
        number = clients.new_number()
        found = answered(sender, "unfound", "POST", f"/v1/requests/{number}", TEAM)
        self.check(found == LATE and door.told().get("returned", 0), f"a project of the table whose stream isn't found: {found} {door.told()}")
        self.place.make("unfound")
        self.host.start()
        found = sender.post("unfound", number, "root", TEAM, seconds=60)
        self.check(found[0] == 200, f"and the same request, once it is there: {found}")

    def disagreement(self):
        """One host's program answers otherwise: who forgot an upgrade, say."""
        text = NOTING.replace("office.stdout.readline())", "office.stdout.readline().replace(b'translator', b'interpreter'))")
        other = self.program("program-other", text, notes=str(self.folder / "took-other"))
        one, two = self.new_host("d1"), self.new_host("d2", "--program", other)
        self.serve("differs", one, two)
        door = self.new_door()
        act = self.acting("differs", door)
        statuses = [act() for _ in range(3)]
        self.wait(lambda: door.told().get("disagreements", 0) == 3, f"each is told: {statuses} {door.told()}")
        self.check("replicas disagree about" in door.log.read_text(), "by a line with the request's number")

    # --- what operators do

    def placement(self):
        one, two = self.new_host("n1", "--keep", 5), self.new_host("n2", "--keep", 5)
        project = "moved"
        self.serve(project, one)
        door = self.new_door()
        act = self.acting(project, door)
        self.check(act() == 200 and act() == 200, "a project on one host")
        one.snapshot(project, self.folder / "copy")
        self.check(act() == 200, "its office was held for a copy, and goes on")
        two.store(project).parent.mkdir(parents=True)
        for it in (self.folder / "copy").iterdir():
            shutil.copy2(it, two.store(project).parent)
        two.start()
        self.place.table.place(project, one, two)
        self.place.table.write()
        self.check(act() == 200, "a second replica from the copy")
        self.wait(lambda: two.told(project)["offset"] == one.told(project)["offset"], "both are at one offset")
        self.place.table.place(project, two)
        self.place.table.write()
        self.wait(lambda: not one.told()["projects"], "the first host has let it go")
        self.check(act() == 200, "it is moved, and goes on")
        status, told = one.to_the_end(project)
        self.check(status == 0, f"its old file still is a replica: {told}")
        self.wait(lambda: two.told()["offices"] == 0, "an office that nobody asks is ended")
        self.check(act() == 200, "and is started again")
        self.end_feeds(one, two)
        one.to_the_end(project)
        self.check(self.equal(project, one, two) == (True, 6), f"both files are equal: {self.equal(project, one, two)}")
        late = self.new_host("n3")
        status, told = late.to_the_end(project)
        self.check(status == 0 and self.equal(project, two, late)[0], f"and so is a late one: {told}")

    def acting(self, project, door, seconds=90):
        """A call that makes one act more, and says its status."""
        sender, counter = clients.Sender([door.port]), iter(range(10**6))

        def act():
            body = json.dumps({"act": "team", "name": f"n{next(counter)}", "role": "translator"}).encode()
            return sender.post(project, clients.new_number(), "root", body, seconds)[0]

        return act

    def wait(self, holds, text, seconds=40):
        self.check(self.wait_quietly(holds, seconds), text)

    def wait_quietly(self, holds, seconds=40):
        end = time.monotonic() + seconds
        good = False
        while not good and time.monotonic() < end:
            with contextlib.suppress(OSError, KeyError, ValueError):
                good = holds()
            time.sleep(0.2)
        return good

    def rules(self):
        """From one offset on another program takes the requests, on each replica; who hasn't it waits there."""
        notes = {rules: self.folder / f"took-{rules}" for rules in "12"}
        programs = [f"{rules}=" + self.program(f"program-{rules}", NOTING, notes=str(path)) for rules, path in notes.items()]
        both = [it for program in programs for it in ("--program", program)]
        self.place.make("ruled")
        before = self.publish("ruled", 0, 10)
        self.place.stream("--change", "--rules", "2", "ruled")
        behind = self.publish("ruled", 10, 10)
        status, told = self.fed("ruled", further=both[:2])
        self.check(status == 1 and "of the rules 2" in told and self.records("ruled") == 10, f"a host without the program: {told}")
        status, told = self.fed("ruled", further=both)
        self.check(status == 0 and self.records("ruled") == 20, f"and with it: {told}")
        took = {rules: list(dict.fromkeys(path.read_text().split())) for rules, path in notes.items()}
        self.check(took == {"1": before, "2": behind}, f"which took which: {[len(it) for it in took.values()]}")
        late = self.new_host("r2")
        for path in notes.values():
            path.unlink()
        status, told = self.fed("ruled", host=late, further=both)
        took = {rules: path.read_text().split() for rules, path in notes.items()}
        self.check(status == 0 and took == {"1": before, "2": behind}, f"a late replica goes by both, each in its time: {told}")
        more = self.publish("ruled", 20, 3)
        status, told = self.fed("ruled", host=late, further=both)
        self.check(status == 0 and notes["2"].read_text().split()[-3:] == more, f"and goes on by the second: {told}")

    # --- nodes

    def full_disk(self):
        one, two = self.new_host("f1", "--idle", 2), self.new_host("f2", "--idle", 2)
        self.serve("full", one, two)
        door = self.new_door(wait=3.0)
        act = self.acting("full", door)
        self.check(act() == 200, "an act before")
        if self.given.engine == "rabbitmq":
            self.disk_limit(door)
        if self.mounted:
            self.small_disk(door)
        else:
            print("note: no tmpfs could be mounted here: a full disk of a node's own isn't tried", flush=True)
        self.end_feeds(one, two)
        one.to_the_end("full")
        two.to_the_end("full")
        self.check(self.equal("full", one, two)[0], f"both replicas are equal: {self.equal('full', one, two)}")

    def disk_limit(self, door):
        """RabbitMQ's own limit on one node: the log takes nothing, questions are answered, and then it goes on."""
        self.nodes.set_disk_limit("b", 900 * 10**9)
        time.sleep(3)
        sender = clients.Sender([door.port])
        number, body = clients.new_number(), b'{"act":"team","name":"patient","role":"translator"}'
        status = sender.once("full", number, "root", body)[0]
        self.check(status == 504, f"past the limit an act is late: {status}")
        # A node takes nothing from a connection that published either, so feeds hear nothing, however often they attach.
        time.sleep(30)
        self.check(sender.get("full", "/v1/stats/xx")[0] == 404, "a question is answered")
        told = [it.read_text().count("ends before") for it in self.place.folder.glob("feed-f?.log")]
        self.check(told == [0, 0], f"no feed says that the log lost its end: {told}")
        self.nodes.set_disk_limit("b", 1000)
        self.check(sender.post("full", number, "root", body, seconds=60)[0] == 200, "behind it the same request gets its reply")

    def small_disk(self, door):
        """The disk of a node is full. The node ends, or the log takes nothing until it is stopped; then the other two go on. With room again, and
        the node started anew, it has what it missed."""
        sender = clients.Sender([door.port])
        filler = self.nodes.data("b") / "filler"
        with open(filler, "wb", buffering=0) as it, contextlib.suppress(OSError):
            while True:
                it.write(b"x" * 65536)
        free = shutil.disk_usage(self.nodes.data("b")).free
        number, body = clients.new_number(), b'{"act":"team","name":"patient","role":"reviewer"}'
        status = sender.once("full", number, "root", body)[0]
        self.check(status in (200, 504), f"an act while a node has {free} bytes free: {status}")
        self.nodes.kill("b")
        self.check(sender.post("full", number, "root", body, seconds=120)[0] == 200, "the node is stopped, and the same request gets its reply")
        statuses, long_text = [], "x" * 60_000
        for it in range(40):
            body = json.dumps({"act": "template", "po": f'msgid "{it} {long_text}"\nmsgstr ""\n'}).encode()
            statuses.append(sender.post("full", clients.new_number(), "root", body, seconds=120)[0])
        self.check(statuses == [200] * 40, f"40 acts of 60 kB without that node: {statuses.count(200)} done")
        filler.unlink()
        self.nodes.start("b")
        self.nodes.wait_for_all()
        if self.given.engine == "rabbitmq":
            self.nodes.set_disk_limit("b", 1000)
        self.wait(lambda: len(log_nodes.stream_whole(self.nodes, "full", "b")) == len(log_nodes.stream_whole(self.nodes, "full", "a")),
                  "the node has what it missed", 120)

    def rolling(self):
        """Each node is stopped in good order and started again, while clients act; the next when each stream is read through each node, as the page
        has operators wait."""

        def restart(projects, _door):
            for name in NAMES:
                self.nodes.kill(name, signal.SIGTERM)
                self.nodes.start(name)
                self.nodes.wait_for_all()
                began = time.monotonic()
                good = self.wait_quietly(lambda: self.place.looked(*projects), 600)
                self.check(good, f"behind the start of {name} each stream is read through each node in {time.monotonic() - began:.1f} s")

        self.while_clients_act("roll", restart)

    def power(self):
        """Two nodes are killed, so that nothing is taken, and then, with these there again, all three at once."""

        def fail(projects, door):
            for name in NAMES[:2]:
                self.nodes.kill(name)
            # So long it takes at most until feeds know that they have lost the log.
            time.sleep(25)
            sender = clients.Sender([door.port])
            status = sender.once(projects[0], clients.new_number(), "nobody", b'{"act":"team","name":"nobody","role":"guest"}')[0]
            self.check(status == 504, f"two nodes are away, and an act is late: {status}")
            self.check(sender.get(projects[0], "/v1/stats/xx", tries=2)[0] == 404, "a question is answered")
            for name in NAMES[:2]:
                self.nodes.start(name)
            self.nodes.wait_for_all()
            time.sleep(10)
            self.kill_all()
            self.start_all()
            self.nodes.wait_for_all()
            time.sleep(10)

        self.while_clients_act("power", fail)

    def while_clients_act(self, mark, what):
        """Three projects with two replicas each, and a client of each, while something happens: each act is recorded once, on both replicas."""
        one, two = self.new_host(f"{mark}1"), self.new_host(f"{mark}2")
        projects = [f"{mark}-{it}" for it in range(3)]
        for it in projects:
            self.serve(it, one, two)
        door = self.new_door(wait=5.0)
        stopping, took, statuses = threading.Event(), [], []

        def client(project):
            act = self.acting(project, door, seconds=900)
            while not stopping.is_set():
                began = time.monotonic()
                statuses.append(act())
                took.append(time.monotonic() - began)
                time.sleep(0.1)

        threads = [threading.Thread(target=client, args=(it,), daemon=True) for it in projects]
        for it in threads:
            it.start()
        what(projects, door)
        stopping.set()
        for it in threads:
            it.join(900)
        self.check(statuses and set(statuses) == {200}, f"{len(statuses)} acts through it, the longest in {max(took):.1f} s: {set(statuses)}")
        self.end_feeds(one, two)
        for it in projects:
            one.to_the_end(it)
            two.to_the_end(it)
        found = [self.equal(it, one, two) for it in projects]
        recorded = [name for it in projects for name in self.names(it, one) if name != "nobody"]
        good = all(it[0] for it in found) and len(recorded) == len(statuses)
        self.check(good, f"replicas are equal, each act once: {found}, {len(statuses)}")

    def keep_data(self, name, kept):
        """Copies a node's data; the folder itself may be a disk of its own."""
        shutil.copytree(self.nodes.data(name), kept)

    def put_back(self, name, kept):
        for it in self.nodes.data(name).iterdir():
            shutil.rmtree(it) if it.is_dir() else it.unlink()
        shutil.copytree(kept, self.nodes.data(name), dirs_exist_ok=True)

    def lost_end(self):
        """All nodes lose what they wrote last at once, as by a power supply that fails before the system has written it."""
        self.place.make("end")
        self.publish("end", 0, 15)
        self.kill_all()
        for name in NAMES:
            self.keep_data(name, self.folder / f"before-{name}")
        self.start_all()
        self.publish("end", 15, 15)
        status, told = self.fed("end")
        self.check(self.records("end") == 30, f"30 requests are fed: {told}")
        self.kill_all()
        for name in NAMES:
            self.put_back(name, self.folder / f"before-{name}")
        self.start_all()
        status, told = self.fed("end")
        self.check(status == 1 and "ends before" in told, f"the log lost its last 15: {status} {told[-200:]}")
        self.publish("end", 200, 40)
        status, told = self.fed("end")
        self.check(status == 1 and "it is another" in told, f"and was written on: {status} {told.splitlines()[-1]}")
        self.begin_anew()

    def begin_anew(self):
        """The file that has most is the project: a new stream begins with a copy of it."""
        told = self.place.stream("--copy", self.host.store("end"), "--anew", "end")
        self.check("end made 3" in told, f"a new stream: {told.strip()}")
        other = self.new_host("e2")
        status, told = self.fed("end", host=other)
        self.check(status == 1 and "bring a copy" in told, f"a host without the copy: {told}")
        other.store("end").parent.mkdir(exist_ok=True, parents=True)
        shutil.copy2(self.host.store("end"), other.store("end"))
        self.host.store("end").with_name("office.db.offset").unlink()
        self.publish("end", 300, 5)
        for it in self.host, other:
            status, told = self.fed("end", host=it)
            self.check(status == 0 and self.records("end", it) == 35, f"{it.name} goes on from its copy: {told}")
        self.check(self.equal("end", self.host, other)[0], "and both are equal")

    def kill_all(self):
        for name in NAMES:
            self.nodes.kill(name)

    def start_all(self):
        self.nodes.start_all()
        if self.mounted and self.given.engine == "rabbitmq":
            self.nodes.set_disk_limit("b", 1000)
        time.sleep(5)

    # --- all of it

    def mount(self):
        """A small disk for one node, where this process may mount one."""
        folder = self.nodes.data("b")
        folder.mkdir(parents=True)
        done = subprocess.run(["mount", "-t", "tmpfs", "-o", SMALL_DISK, "tmpfs", folder], capture_output=True, check=False)
        self.mounted = done.returncode == 0

    def run(self):
        try:
            if "full_disk" in self.given.parts:
                self.mount()
            self.start_all()
            for part in self.given.parts:
                print(f"== {part}", flush=True)
                try:
                    getattr(self, part)()
                except Exception as why:  # told as wrong
                    self.check(False, f"{part}: {type(why).__name__} {why}")
                self.end_feeds(*self.hosts)
        finally:
            self.end_feeds(*self.hosts)
            for it in self.doors:
                it.stop()
            self.nodes.stop()
            if self.mounted:
                subprocess.run(["umount", self.nodes.data("b")], check=False)
        print(f"{self.looks} looks, {self.wrong} wrong", flush=True)
        return min(self.wrong, 1)


def put_request(engine, maker, project, number, body):
    """A request of root, by nobody who waits for a reply."""
    if engine == "nats":
        from office_streams import nats

        maker.put(project, "request", body, {nats.NUMBER: number, nats.CALLER: "root"}.items())
    else:
        import pika

        properties = pika.BasicProperties(type="request", message_id=number, headers={"caller": "root"})
        if not hasattr(maker, "requests"):
            maker.requests = maker.connection.channel()
            maker.requests.confirm_delivery()
        maker.requests.basic_publish("", f"office.{project}", body, properties, mandatory=True)


def said(place, message, seconds=30):
    """All that is answered to these bytes."""
    it = socket.socket(socket.AF_UNIX) if isinstance(place, str) else socket.socket()
    with it:
        it.settimeout(seconds)
        it.connect(place)
        it.sendall(message)
        it.shutdown(socket.SHUT_WR)
        parts = []
        with contextlib.suppress(TimeoutError, ConnectionResetError):
            while part := it.recv(65536):
                parts.append(part)
    return b"".join(parts)


def patiently(place, message, tries=30):
    """The same; what came too late is asked again, as a client does."""
    for _ in range(tries):
        answer = said(place, message)
        if answer[9:12] not in (b"502", b"504"):
            break
        time.sleep(1)
    return answer


def answered(sender, project, method, target, body=None):
    """The answer to one message of root: its status, its body, and when to come again."""
    asked = sender.connection()
    asked.request(method, target, body, {"Host": f"{project}.local", "X-Office-Caller": "root"})
    answer = asked.getresponse()
    found = answer.status, answer.read(), answer.getheader("Retry-After")
    asked.close()
    return found


def head(first, *lines):
    return "".join(f"{it}\r\n" for it in (first, *lines)).encode() + b"\r\n"


def post(n, body, *lines, caller="c1"):
    return head(f"POST /v1/requests/{number(n)} HTTP/1.1", f"X-Office-Caller: {caller}", f"Content-Length: {len(body)}", *lines) + body


def get(target, *lines):
    return head(f"GET {target} HTTP/1.1", *lines)


# Messages of HTTP, sound and otherwise; each is sent once to each side, in this order.
TRANSLATE = b'{"act":"translate","forms":["Meldung %d"],"id":"message 1 of %d","lang":"de","seen":1}'
MESSAGES = {
    "a translation": post(1, TRANSLATE),
    "a translation, again": post(1, TRANSLATE),
    "a translation, by another": post(1, TRANSLATE, caller="c2"),
    "a stale one": post(2, TRANSLATE),
    "a vote on nothing": post(3, b'{"act":"vote","id":"message 1 of %d","lang":"de","seen":2,"suggestion":"' + number(9).encode() + b'","value":1}'),
    "a guest": post(4, TRANSLATE, caller="zoe"),
    "a number in the body": post(5, b'{"number":"x",' + TRANSLATE[1:]),
    "a caller in the body": post(6, b'{"caller":"root",' + TRANSLATE[1:]),
    "a body that is none": post(7, TRANSLATE[:-1]),
    "a body of another kind": post(8, b'[1]'),
    "an empty body": post(9, b""),
    "white and lines in a body": post(10, b' {\n "act" : "team" ,\r\n"name":"ann","role":"guest"}\n', caller="root"),
    "a new domain": post(11, b'{"act":"domain","name":"manual"}', caller="root"),
    "no UTF-8": post(12, b'{"act":"\xff"}'),
    "a caller that is none": post(13, TRANSLATE, caller="Ann"),
    "two callers": post(14, TRANSLATE, "X-Office-Caller: root"),
    "a number that is none": head("POST /v1/requests/1 HTTP/1.1", "X-Office-Caller: c1", "Content-Length: 2") + b"{}",
    "no length": head(f"POST /v1/requests/{number(15)} HTTP/1.1", "X-Office-Caller: c1"),
    "two lengths": head(f"POST /v1/requests/{number(15)} HTTP/1.1", "Content-Length: 1", "Content-Length: 1") + b"{}",
    "a length with a sign": head(f"POST /v1/requests/{number(15)} HTTP/1.1", "Content-Length: +2") + b"{}",
    "chunks": head(f"POST /v1/requests/{number(15)} HTTP/1.1", "Transfer-Encoding: chunked") + b"0\r\n\r\n",
    "too long": head(f"POST /v1/requests/{number(15)} HTTP/1.1", "X-Office-Caller: c1", "Content-Length: 20971521"),
    "an export": get("/v1/export/de"),
    "an export, and no more": get("/v1/export/de", "Connection: close"),
    "an export of a domain": get("/v1/domains/main/export/de"),
    "an export of no domain": get("/v1/domains/other/export/de"),
    "an export of no language": get("/v1/export/xx"),
    "counts": get("/v1/stats/de"),
    "a unit": get("/v1/unit?lang=de&id=message%201%20of%20%25d"),
    "no unit": get("/v1/unit?lang=de&id=none"),
    "a query that is none": get("/v1/unit?lang=de&lang=de"),
    "a unit without a query": get("/v1/unit"),
    "a query elsewhere": get("/v1/stats/de?x"),
    "no route": get("/v1/other"),
    "the root": get("/"),
    "another method": head("PUT /v1/stats/de HTTP/1.1"),
    "a request by GET": get(f"/v1/requests/{number(16)}"),
    "two messages": get("/v1/stats/de") + get("/v1/stats/de", "Connection: close"),
    "HTTP/1.0": head("GET /v1/stats/de HTTP/1.0"),
    "bare line ends": b"GET /v1/stats/de HTTP/1.1\n\n",
    "a head without an end": b"GET /v1/stats/de HTTP/1.1\r\nX: y",
    "a space before the colon": get("/v1/stats/de", "X-Office-Caller : root"),
    "a folded line": get("/v1/stats/de", "X: a", " b"),
    "many lines": get("/v1/stats/de", *["X: y"] * 32),
    "too many lines": get("/v1/stats/de", *["X: y"] * 33),
    "a long head": get("/v1/stats/de", "X: " + "y" * 9000),
    "no first line": b"\r\n\r\n",
    "another version": head("GET /v1/stats/de HTTP/2.0"),
    "a body that ends early": head(f"POST /v1/requests/{number(17)} HTTP/1.1", "X-Office-Caller: c1", "Content-Length: 20") + b"{}",
    "nothing": get("/v1/stats/de", "Connection: Close, x"),
}


def main():
    signal.signal(signal.SIGTERM, lambda *_: sys.exit(1))
    parser = argparse.ArgumentParser(description=__doc__.split("\n")[0])
    parser.add_argument("--engine", choices=log_nodes.KINDS, default="rabbitmq")
    parser.add_argument("--program", type=lambda it: str(pathlib.Path(it).resolve()), default=str(TOP / "crates" / "cli" / "out" / "cli"))
    log_nodes.add_words(parser)
    parser.add_argument("--folder", help="where all is [default: a new one, which is taken away]")
    parser.add_argument("--tools", default=log_nodes.TOOLS, help="where the tools are")
    parser.add_argument("parts", nargs="*", choices=[*PARTS, []], metavar="PART")
    given = parser.parse_args()
    given.parts = given.parts or PARTS
    with tempfile.TemporaryDirectory() as folder:
        given.folder = given.folder or folder
        return Doubts(given).run()


if __name__ == "__main__":
    sys.exit(main())
