#!/usr/bin/python3
"""Tries projects on a log of three nodes, two hosts and two doors, while nodes, feeds and a host fail.

    tests/cluster.py [--engine nats] [--tls] [--program FILE] [--folder FOLDER] [--acts N] [--clients N] [--projects N] [--seconds S] [--tools FOLDER]

Nodes, feeds, doors and clients are processes of this machine, on loopback alone. Fifty clients send 5,000 acts to twenty projects, many of them
again. Meanwhile a node is killed and started again, twice; another is stopped in its tracks; feeds are killed ten times; a host is lost with its
files, and its projects are taken over from snapshots or from the streams' beginnings; replicas are added late. Then each act has to be
recorded once on each replica, each client's reply to be the first one, the replicas' tables, exports and counts equal byte for byte, and
nothing that was answered or confirmed missing in the streams; and a third office, which takes the same requests in another order of those that
don't clash, has to export the same. Publications are counted one by one: what the log confirmed and doesn't have is told.

It wants rabbitmq-server and python3-pika, or nats-server, as Debian has them, and the program `office`, which is crates/cli/out/cli where none is
named. Figures of a machine that does other work are upper bounds. A line for each event, figures, and last `N looks, M wrong`.
"""
import argparse
import hashlib
import http.client
import itertools
import json
import os
import pathlib
import random
import signal
import sqlite3
import subprocess
import sys
import tempfile
import threading
import time

import log_clients as clients
import log_hosts
import log_nodes
from log_nodes import HOST, TOP

LANGUAGES = ("de", "fr")
MESSAGES = 30
TABLES = (
    "team ORDER BY name",
    "policy",
    "domain ORDER BY name",
    "d_template ORDER BY domain, place",
    "d_language ORDER BY domain, lang",
    "d_unit ORDER BY domain, lang, key",
    "d_suggestion ORDER BY number",
    "d_vote ORDER BY number, voter",
    "d_vote_sum ORDER BY number",
    "d_tally ORDER BY domain, lang",
)
MALFORMED = (400, b'{"error":"malformed"}')


class Trial:
    def __init__(self, given):
        self.given = given
        self.folder = pathlib.Path(given.folder).resolve()
        self.began = time.monotonic()
        self.looks, self.wrong = 0, []
        self.nodes = log_nodes.KINDS[given.engine](self.folder / "nodes", given.base, given.tls)
        self.place = log_hosts.Place(self.folder, self.nodes, given.program, given.port, given.tools)
        self.projects = [f"p{it:02}" for it in range(given.projects)]
        # These have one replica, whose host is lost.
        self.single = self.projects[-max(1, given.projects // 5) :]
        self.chance = random.Random(given.seed)
        self.hosts, self.doors, self.clients, self.begun = {}, [], [], []
        self.figures = {}
        self.lost = 0.0
        # Held by whoever has a node fail, until that is there again: two at once would leave no majority.
        self.failing = threading.Lock()

    def say(self, text):
        print(f"{time.monotonic() - self.began:7.1f} {text}", flush=True)

    def check(self, good, text):
        self.looks += 1
        if not good:
            self.wrong.append(text)
            self.say(f"WRONG {text[:600]}")

    def host(self, name):
        self.hosts[name] = log_hosts.Host(self.place, name, ["--idle", 10])
        return self.hosts[name]

    # --- what is there

    def set_up(self):
        self.nodes.start_all()
        self.say("nodes are there")
        if self.given.tls:
            self.check(self.nodes.is_shut_in(), "nodes talk, or take clients, without TLS")
        made = self.place.make(*self.projects)
        self.check(made.count("made 3") == len(self.projects), made)
        first, second = self.host("h1"), self.host("h2")
        for project in self.projects:
            self.place.table.place(project, *((first,) if project in self.single else (first, second)))
        self.place.table.write()
        first.start()
        second.start()
        self.doors = [log_hosts.Door(self.place) for _ in range(2)]
        for it in self.doors:
            it.wait_until_ready()
        self.say("streams, feeds and doors are there")
        self.begin_offices()

    def begin_offices(self):
        """The acts of managers, in all projects at once."""
        acts = [act for act in clients.beginnings(MESSAGES, LANGUAGES)]

        def begin(project):
            sender = clients.Sender([door.port for door in self.doors])
            for act in acts:
                number, body = clients.new_number(), json.dumps(act).encode()
                try:
                    reply = sender.post(project, number, "root", body, seconds=120)
                except TimeoutError:
                    return
                self.begun.append((project, number, "root", body, reply))

        threads = [threading.Thread(target=begin, args=(it,)) for it in self.projects]
        for it in threads:
            it.start()
        for it in threads:
            it.join()
        self.check(len(self.begun) == len(acts) * len(self.projects), "acts of managers without an answer")
        self.check(all(reply[0] == 200 for *_, reply in self.begun), f"acts of managers: {[it[4] for it in self.begun if it[4][0] != 200][:3]}")
        self.say(f"{len(self.begun)} acts on the offices")

    # --- what happens

    def work(self):
        given = self.given
        pause = given.seconds / (given.acts / given.clients)
        ports = [door.port for door in self.doors]
        acts = given.acts // given.clients
        self.clients = [clients.Client(it, self.projects, ports, acts, pause, MESSAGES, LANGUAGES, given.seed) for it in range(given.clients)]
        for it in self.clients:
            it.start()
        start = time.monotonic()
        helpers = []
        for share, what in sorted(self.events(), key=lambda it: it[0]):
            time.sleep(max(0, start + share * given.seconds - time.monotonic()))
            helper = threading.Thread(target=self.guarded, args=(what,), daemon=True)
            helper.start()
            helpers.append(helper)
        for it in self.clients:
            it.join(given.seconds * 3 + 600)
            self.check(not it.is_alive(), "a client doesn't end")
        for it in helpers:
            it.join(900)
        self.say(f"clients are done in {time.monotonic() - start:.1f} s")

    def guarded(self, what):
        try:
            what()
        except Exception as why:  # told at the end
            self.check(False, f"{what}: {type(why).__name__} {why}")

    def events(self):
        if self.given.quiet:
            return
        yield 0.06, lambda: self.kill_node("a")
        yield 0.16, lambda: self.start_node("a")
        for it in range(10):
            yield 0.10 + 0.08 * it, self.kill_feed
        yield 0.22, self.snapshots
        yield 0.36, self.lose_host
        yield 0.39, self.take_over
        yield 0.55, lambda: self.kill_node("b")
        yield 0.65, lambda: self.start_node("b")
        yield 0.78, lambda: self.pause_node("c", self.given.pause)
        yield 0.88, self.late

    def kill_node(self, name):
        self.failing.acquire()
        self.nodes.kill(name)
        self.say(f"node {name} is killed")

    def start_node(self, name):
        while self.nodes.running[name].poll() is None:
            time.sleep(0.2)
        self.nodes.start(name)
        self.say(f"node {name} takes connections again after {self.nodes.wait(name):.1f} s")
        self.nodes.wait_for_all()
        self.failing.release()

    def pause_node(self, name, seconds):
        """As a network that doesn't reach the node, without closing a connection."""
        with self.failing:
            pid = self.nodes.pid(name)
            os.kill(pid, signal.SIGSTOP)
            self.say(f"node {name} is stopped in its tracks")
            time.sleep(seconds)
            os.kill(pid, signal.SIGCONT)
            self.say(f"node {name} goes on")

    def kill_feed(self):
        host = self.chance.choice([it for it in self.hosts.values() if it.wanted])
        host.kill()
        self.say(f"the feed of {host.name} is killed")

    def snapshots(self):
        for project in self.projects[::2]:
            self.hosts["h1"].snapshot(project, self.folder / "snapshots" / project, seconds=60)
        self.say("snapshots of every second project are taken")

    def lose_host(self):
        self.hosts["h1"].lose()
        self.lost = time.monotonic()
        self.say("host h1 is lost with its files")

    def take_over(self):
        """Where nobody else has a replica the other host takes over; the others get a second replica on a third host."""
        second, third = self.hosts["h2"], self.host("h3")
        for project in self.projects:
            host = second if project in self.single else third
            snapshot = self.folder / "snapshots" / project
            if snapshot.exists():
                target = host.store(project).parent
                target.mkdir(parents=True)
                for it in snapshot.iterdir():
                    (target / it.name).write_bytes(it.read_bytes())
            self.place.table.place(project, *((second,) if project in self.single else (second, third)))
        self.place.table.write()
        third.start()
        self.say("its projects are taken over, every second one from a snapshot, the others from the streams' beginnings")

    def late(self):
        late = self.host("h4")
        began = time.monotonic()
        status, told = late.to_the_end(*self.projects)
        self.check(status == 0, told)
        self.say(f"late replicas of all projects from their streams' beginnings: {time.monotonic() - began:.1f} s")

    # --- what holds at the end

    def settle(self):
        """All feeds end in good order; what they haven't taken yet is delivered by lines."""
        for host in self.hosts.values():
            host.ended()
        self.replicas = {project: [] for project in self.projects}
        for host in self.hosts.values():
            mine = [it for it in self.projects if host.store(it).exists()]
            if mine:
                status, told = host.to_the_end(*mine)
                self.check(status == 0, f"{host.name}: {told}")
            for project in mine:
                self.replicas[project].append(host)
        self.say("replicas: " + " ".join(f"{project}:{len(found)}" for project, found in self.replicas.items()))

    def streams(self):
        """Each stream from its beginning to its end."""
        self.read = {}
        for project in self.projects:
            found = log_nodes.stream_whole(self.nodes, project)
            offsets = [it.offset for it in found]
            self.check(offsets == sorted(set(offsets)), f"{project}: offsets")
            self.read[project] = [it for it in found if it.kind == "request"]

    def confirmed(self):
        """What the log confirmed to the doors is in the streams, by the name of each publication. One that isn't, while the same request came there by
        another, is counted: it is the engine's failure, which no client saw."""
        told = set().union(*(it.confirmed() for it in self.doors))
        there = {(project, it.number, it.asked) for project, found in self.read.items() for it in found}
        requests = {it[:2] for it in there}
        for it in told:
            self.check(it[:2] in requests, f"{it}: confirmed and lost")
        self.figures.update(confirmed=len(told), confirmed_and_not_there=len(told - there))

    def asked(self, host, project):
        """Exports and counts of a replica, over HTTP."""
        questions = [f"/v1/{kind}/{lang}" for lang in LANGUAGES for kind in ("export", "stats")]
        port = self.given.port + 34
        words = [self.given.program, "serve", "--store", host.store(project), "--port", str(port), "--connections", str(1 + len(questions))]
        served = subprocess.Popen(words)
        while not log_nodes.answers(port) and served.poll() is None:
            time.sleep(0.05)
        found = []
        for question in questions:
            it = http.client.HTTPConnection(HOST, port, timeout=60)
            it.request("GET", question, headers={"Connection": "close"})
            answer = it.getresponse()
            found.append((question, answer.status, hashlib.sha256(answer.read()).hexdigest()))
            it.close()
        try:
            served.wait(60)
        except subprocess.TimeoutExpired:
            served.kill()
            self.check(False, f"{project} on {host.name}: the office doesn't end")
        return found

    def tables(self, host, project):
        """The records in their order, and all other tables."""
        rows = sqlite3.connect(host.store(project))
        records = rows.execute("SELECT number, content, status, body FROM record ORDER BY rowid").fetchall()
        found = [rows.execute(f"SELECT * FROM {table}").fetchall() for table in TABLES]
        self.check(rows.execute("PRAGMA integrity_check").fetchone()[0] == "ok", f"{project} on {host.name}: integrity")
        rows.close()
        return records, found

    def compare(self):
        """Replicas with each other, with the stream, and with what clients heard."""
        heard = {}
        for project, number, caller, body, reply in itertools.chain(self.begun, *(it.done for it in self.clients)):
            heard.setdefault(project, {})[number] = (caller, body, reply)
        self.figures["recorded"] = 0
        for project in self.projects:
            hosts = self.replicas[project]
            seen = [self.tables(host, project) for host in hosts]
            for found, host in zip(seen[1:], hosts[1:]):
                self.check(found[0] == seen[0][0], f"{project} on {host.name}: records differ")
                self.check(found[1] == seen[0][1], f"{project} on {host.name}: tables differ")
            self.figures["recorded"] += len(seen[0][0])
            first = self.first_arrivals(project)
            self.compare_records(project, seen[0][0], first, heard.get(project, {}))
            exports = [self.asked(host, project) for host in hosts]
            for it, host in zip(exports[1:], hosts[1:]):
                self.check(it == exports[0], f"{project} on {host.name}: exports or counts differ")
            self.check(all(status == 200 for _, status, _ in exports[0]), f"{project}: {exports[0]}")
            self.in_another_order(project, first, exports[0])

    def first_arrivals(self, project):
        """The first caller and body of each number, in the order of the stream."""
        first = {}
        for it in self.read[project]:
            first.setdefault(it.number, (it.caller, it.body))
        return first

    def compare_records(self, project, records, first, heard):
        """Each act is recorded once, in the stream's order, with the reply that its client heard."""
        stands = {row[0]: (row[2], row[3].encode()) for row in records}
        self.check(len(stands) == len(records), f"{project}: recorded twice")
        self.check([it[0] for it in records] == [it for it in first if it in stands], f"{project}: order of records")
        left_out = [it for it in first if it not in stands and heard.get(it, (0, 0, MALFORMED))[2] != MALFORMED]
        self.check(not left_out, f"{project}: in the stream and not recorded: {left_out[:3]}")
        for number, (caller, body, reply) in heard.items():
            self.check(first.get(number) == (caller, body), f"{project} {number}: answered, and not so in the stream")
            wanted = None if reply == MALFORMED else reply
            self.check(stands.get(number) == wanted, f"{project} {number}: {reply} was heard, {stands.get(number)} is recorded")

    def in_another_order(self, project, first, exports):
        """Between two acts on the office, the acts of different units change places: what they export is equal."""
        store = self.folder / "other" / f"{project}.db"
        store.parent.mkdir(exist_ok=True)
        lines, moved = self.shuffled(first)
        subprocess.run([self.given.program, "init", "--store", store, "--manager", "root"], capture_output=True, check=True)
        subprocess.run([self.given.program, "deliver", "--store", store], input="\n".join(lines).encode(), capture_output=True, check=True)
        wanted = {question.rpartition("/")[2]: digest for question, _, digest in exports if "export" in question}
        for lang in LANGUAGES:
            text = subprocess.run([self.given.program, "export", "--store", store, "--lang", lang], capture_output=True, check=True).stdout
            self.check(hashlib.sha256(text).hexdigest() == wanted[lang], f"{project} {lang}: another order exports otherwise")
        self.figures["moved"] = self.figures.get("moved", 0) + moved

    def shuffled(self, first):
        """The requests as lines in another order of those that don't clash, and how many changed places."""
        parts, part = [], []
        for number, (caller, body) in first.items():
            try:
                act = json.loads(body)
            except ValueError:
                continue
            line = json.dumps({**act, "number": number, "caller": caller})
            if act["act"] in clients.MANAGERS_ACTS:
                parts += [part, [(None, line)]]
                part = []
            else:
                part.append(((act["lang"], act["id"]), line))
        parts.append(part)
        moved, lines = 0, []
        for part in parts:
            ranks = {unit: self.chance.random() for unit, _ in part}
            other = sorted(part, key=lambda it: ranks[it[0]])
            moved += sum(one != two for one, two in zip(part, other))
            lines += [line for _, line in other]
        return lines, moved

    # --- what is told

    def tell_doors(self):
        told = [it.told() for it in self.doors]
        self.figures["doors"] = told
        self.check(sum(it.get("disagreements", 0) for it in told) == 0, f"replicas disagreed: {told}")
        self.check(self.given.quiet or 0 < sum(it.get("agreements", 0) for it in told), "no reply of a second replica was compared")

    def tell(self):
        done = [it for client in self.clients for it in client.done]
        slow = sorted(it for client in self.clients for it in client.slow)
        statuses, again = {}, {}
        for *_, (status, _) in done:
            statuses[status] = statuses.get(status, 0) + 1
        for client in self.clients:
            for what, count in client.sender.again.items():
                again[what] = again.get(what, 0) + count
        self.figures.update(acts=len(done), sends=sum(it.sender.sends for it in self.clients), statuses=statuses, sent_again_behind=again)
        self.figures.update(messages=sum(len(it) for it in self.read.values()), blind=sum(it.blind for it in self.clients))
        if slow:
            quantiles = {"p50_ms": slow[len(slow) // 2] * 1000, "p99_ms": slow[len(slow) * 99 // 100] * 1000, "longest_s": slow[-1]}
            self.figures.update({name: round(it, 1) for name, it in quantiles.items()})
        self.figures["feed_starts"] = sum(it.starts for it in self.hosts.values())
        for client in self.clients:
            for it in client.wrong:
                self.check(False, it)
        self.check(len(done) == self.given.acts // self.given.clients * self.given.clients, f"{len(done)} acts have a reply")
        if self.lost:
            self.tell_lost_host()
        self.say(json.dumps(self.figures))

    def tell_lost_host(self):
        when = sorted(it for client in self.clients for it in client.when)
        for kind, projects in ("one replica", self.single), ("two replicas", self.projects[: -len(self.single)]):
            took = [min((at for at, name in when if name == project and self.lost < at), default=self.lost) - self.lost for project in projects]
            self.figures[f"answers_behind_lost_host_s, {kind}"] = [round(min(took), 1), round(max(took), 1)]

    def run(self):
        try:
            self.set_up()
            self.work()
            time.sleep(2)
            self.tell_doors()
            self.settle()
            self.streams()
            self.confirmed()
            self.compare()
            self.tell()
        finally:
            for host in self.hosts.values():
                host.ended()
            for door in self.doors:
                door.stop()
            self.nodes.stop()
        for it in self.wrong[:20]:
            print("WRONG", it[:300])
        print(f"{self.looks} looks, {len(self.wrong)} wrong", flush=True)
        return 1 if self.wrong else 0


def main():
    signal.signal(signal.SIGTERM, lambda *_: sys.exit(1))
    parser = argparse.ArgumentParser(description=__doc__.split("\n")[0])
    parser.add_argument("--engine", choices=log_nodes.KINDS, default="rabbitmq")
    parser.add_argument("--tls", action="store_true", help="TLS between the nodes, and between them and doors and feeds")
    parser.add_argument("--program", type=lambda it: str(pathlib.Path(it).resolve()), default=str(TOP / "crates" / "cli" / "out" / "cli"))
    log_nodes.add_words(parser)
    parser.add_argument("--folder", help="where all is [default: a new one, which is taken away]")
    parser.add_argument("--tools", default=log_nodes.TOOLS, help="where the tools are")
    parser.add_argument("--projects", type=int, default=20)
    parser.add_argument("--clients", type=int, default=50)
    parser.add_argument("--acts", type=int, default=5000)
    parser.add_argument("--seconds", type=float, default=150)
    parser.add_argument("--pause", type=float, default=15, help="how long a node is stopped in its tracks; about as long as net_ticktime is the worst")
    parser.add_argument("--quiet", action="store_true", help="nothing fails meanwhile")
    parser.add_argument("--seed", type=int, default=1)
    given = parser.parse_args()
    with tempfile.TemporaryDirectory() as folder:
        given.folder = given.folder or folder
        return Trial(given).run()


if __name__ == "__main__":
    sys.exit(main())
