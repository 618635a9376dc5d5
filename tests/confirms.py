#!/usr/bin/python3
"""Tries whether what a log confirms is in it, and whether what was read from it stays, where the node that leads fails meanwhile.

    tests/confirms.py [--engine nats] [--turns N] [--folder FOLDER]

A publisher at one node sends each message once to six streams; readers at the two nodes that stay read all six meanwhile. A node that leads is killed,
or stopped in its tracks and let go on, as a network that doesn't reach it for a while. Then the streams are read whole, as each node has them. The
feeds and doors stand on the second question alone: what any reader has read has to be there, at the same place, and on each node. With RabbitMQ
the first is asked for a channel of each stream, as the door has it, and for one channel of all streams, which loses what it confirmed in some runs:
that is told, and is why. A message that was confirmed on a channel of its own, or acknowledged by NATS, and isn't there is wrong here.

A line for each turn, and last `N looks, M wrong`.
"""
import argparse
import os
import pathlib
import signal
import sys
import tempfile
import threading
import time

import log_nodes
from log_nodes import HOST, NAMES

COUNT = 6
# How long is published before a node fails, and behind that; how long a node is stopped, which is longer than it takes to be given up.
BEFORE, BEHIND, STOPPED = 4, 12, 20
# So long it is waited whether a node joins the others by itself.
JOINED = 60


class Rabbit(threading.Thread):
    """Publishes to streams over one connection, with a channel for each or one for all, and so many unconfirmed on each channel."""

    def __init__(self, nodes, name, streams, window, one_channel):
        import pika

        super().__init__(daemon=True)
        self.pika, self.port, self.window = pika, nodes.port(name), window
        self.parts = [streams] if one_channel else [[it] for it in streams]
        self.confirmed, self.sent, self.refused, self.ended = set(), 0, 0, None
        self.stopping = False
        self.start()

    def run(self):
        parameters = self.pika.ConnectionParameters(HOST, self.port, heartbeat=0)
        told = {"on_open_callback": self.opened, "on_close_callback": self.closed, "on_open_error_callback": self.closed}
        self.connection = self.pika.SelectConnection(parameters, **told)
        self.connection.ioloop.start()

    def closed(self, connection, why):
        self.ended = repr(why)
        connection.ioloop.stop()

    def opened(self, connection):
        for part in self.parts:
            connection.channel(on_open_callback=lambda channel, part=part: self.ready(channel, part))

    def ready(self, channel, part):
        waiting, tags = {}, iter(range(1, 10**9))

        def publish():
            tag = next(tags)
            self.sent += 1
            what = (part[tag % len(part)], f"{channel.channel_number}-{tag}")
            waiting[tag] = what
            properties = self.pika.BasicProperties(type="request", message_id=what[1])
            channel.basic_publish("", f"office.{what[0]}", b"x", properties, mandatory=True)

        def told(frame):
            method = frame.method
            found = [it for it in waiting if it <= method.delivery_tag] if method.multiple else [method.delivery_tag]
            for tag in found:
                what = waiting.pop(tag, None)
                if isinstance(method, self.pika.spec.Basic.Ack) and what:
                    self.confirmed.add(what)
                else:
                    self.refused += 1
                if not self.stopping:
                    self.connection.ioloop.call_later(0.005, publish)

        # What is returned isn't confirmed by anything but the same channel's word, which comes behind it.
        channel.add_on_return_callback(lambda _c, method, properties, _b: self.returned(method, properties, waiting))
        channel.confirm_delivery(told)
        for _ in range(self.window):
            publish()

    def returned(self, method, properties, waiting):
        what = (method.routing_key.partition(".")[2], properties.message_id)
        for tag in [tag for tag, it in waiting.items() if it == what]:
            waiting[tag] = None
        self.refused += 1

    def end(self):
        self.stopping = True
        time.sleep(3)
        if self.ended is None:
            self.connection.ioloop.add_callback_threadsafe(self.connection.close)


class Nats(threading.Thread):
    """Publishes 200 messages a second to the subjects, whatever is acknowledged."""

    def __init__(self, nodes, name, streams):
        super().__init__(daemon=True)
        self.engine = log_nodes.engine_of(nodes)
        self.connection = self.engine.Connection(log_nodes.tool_words(nodes, (name,)).log[0], log_nodes.tool_words(nodes))
        self.streams, self.waiting = streams, {}
        self.confirmed, self.sent, self.refused, self.ended = set(), 0, 0, None
        self.connection.subscribe(f"{self.connection.inbox}.ack.*", self.told)
        self.stopping = False
        self.start()

    def run(self):
        while not self.stopping:
            what = (self.streams[self.sent % len(self.streams)], str(self.sent))
            self.waiting[what[1]] = what
            self.sent += 1
            headers = {self.engine.KIND: "request", self.engine.NUMBER: what[1]}
            self.connection.publish(f"office.{what[0]}", b"x", headers, f"{self.connection.inbox}.ack.{what[1]}")
            time.sleep(0.005)

    def told(self, told):
        what = self.waiting.pop(told.subject.rpartition(".")[2], None)
        if what and not told.status and b'"error"' not in told.body:
            self.confirmed.add(what)
        else:
            self.refused += 1

    def end(self):
        self.stopping = True
        time.sleep(3)


class Readers:
    """Readers of all streams at some nodes, which keep what they read. Where one is lost it begins again, at another node, where it was."""

    def __init__(self, nodes, names, streams):
        self.words = log_nodes.tool_words(nodes, names)
        self.reader = log_nodes.engine_of(nodes).Reader(self.words)
        self.lock = threading.Lock()
        self.read, self.stopping = set(), False
        for turn, _ in enumerate(names):
            for name in streams:
                self.begin(name, turn, 0)

    def begin(self, name, turn, offset):
        place = [offset]

        def hear(message):
            place[0] = message.offset
            with self.lock:
                self.read.add((name, message.offset, message.number))
            message.tag[0].taken(message)

        def lost(_why):
            if not self.stopping:
                threading.Timer(0.5, self.begin, (name, turn + 1, place[0])).start()

        self.reader.attach(name, offset, turn, hear, lost)

    def end(self):
        self.stopping = True
        self.reader.close()


class Trial:
    def __init__(self, given):
        self.given = given
        self.nodes = log_nodes.KINDS[given.engine](pathlib.Path(given.folder).resolve() / "nodes", given.base)
        self.looks = self.wrong = 0

    def check(self, good, text):
        self.looks += 1
        if not good:
            self.wrong += 1
            print(f"WRONG {text}", flush=True)

    def turn(self, how, mark, publisher_of, is_wrong, is_killed):
        streams = [f"{mark}-{it}" for it in range(COUNT)]
        maker = log_nodes.engine_of(self.nodes).Maker(log_nodes.tool_words(self.nodes))
        for it in streams:
            maker.make(it, "start", b"{}")
        maker.close()
        failed = self.leader()
        stay = [name for name in NAMES if name != failed]
        publisher, readers = publisher_of(stay[-1], streams), Readers(self.nodes, stay, streams)
        time.sleep(BEFORE)
        self.fail(failed, is_killed)
        publisher.end()
        readers.end()
        if is_killed:
            self.nodes.start(failed)
            self.nodes.wait_for_all()
        else:
            self.join(failed)
        time.sleep(8)
        self.wait_for_replicas(streams)
        self.compare(f"{how}, node {failed} {'killed' if is_killed else 'stopped'}", publisher, readers, streams, is_wrong)

    def fail(self, name, is_killed):
        if is_killed:
            self.nodes.kill(name)
            time.sleep(BEHIND)
        else:
            pid = self.nodes.pid(name)
            os.kill(pid, signal.SIGSTOP)
            time.sleep(STOPPED)
            os.kill(pid, signal.SIGCONT)
            time.sleep(BEHIND / 2)

    def join(self, failed):
        """A node of RabbitMQ that goes on may stay apart from the others, and is started again then, as the page says."""
        try:
            self.nodes.wait_for_all(JOINED)
        except TimeoutError:
            print(f"note: node {failed} stays apart from the others, and is started again", flush=True)
            self.nodes.kill(failed, signal.SIGTERM)
            self.nodes.start(failed)
            self.nodes.wait_for_all()

    def wait_for_replicas(self, streams, seconds=300):
        """Waits until each stream is read through each node: one that comes back takes a while to have its replicas."""
        end, found = time.monotonic() + seconds, 0
        while found < len(NAMES) and time.monotonic() < end:
            maker = log_nodes.engine_of(self.nodes).Maker(log_nodes.tool_words(self.nodes))
            found = min(maker.replicas(streams).values())
            maker.close()
        self.check(found == len(NAMES), f"a stream has {found} replicas")

    def turns(self, mark, is_killed):
        if self.given.engine == "nats":
            self.turn("acknowledged", mark, lambda name, streams: Nats(self.nodes, name, streams), True, is_killed)
            return
        for one, how in (False, "a channel for each stream"), (True, "one channel for all streams"):
            publisher_of = lambda name, streams, one=one: Rabbit(self.nodes, name, streams, 20, one)
            self.turn(how, f"{mark}-{int(one)}", publisher_of, not one, is_killed)

    def leader(self):
        leaders = self.nodes.leaders()
        return max(NAMES, key=lambda name: leaders[name])

    def compare(self, how, publisher, readers, streams, is_wrong):
        there = {}
        for name in NAMES:
            found = {it: log_nodes.stream_whole(self.nodes, it, name, quiet=1.5) for it in streams}
            there[name] = {(it, message.offset, message.number) for it, messages in found.items() for message in messages}
        first = there[NAMES[0]]
        others = sum(len(it ^ first) for it in there.values())
        self.check(not others, f"{how}: nodes differ in {others} messages")
        gone = readers.read - first
        self.check(not gone, f"{how}: {len(gone)} were read and aren't there: {sorted(gone)[:3]}")
        self.check(len(readers.read) > COUNT, "nothing was read meanwhile")
        lost = publisher.confirmed - {(it, number) for it, _, number in first}
        self.check(not is_wrong or not lost, f"{how}: {len(lost)} were confirmed and aren't there")
        print(
            f"{how}: {publisher.sent} published, {len(publisher.confirmed)} confirmed, {publisher.refused} refused, "
            f"{len(first)} there, {len(readers.read)} read meanwhile; confirmed and not there: {len(lost)}; read and not there: {len(gone)}",
            flush=True,
        )

    def run(self):
        try:
            self.nodes.start_all()
            for turn in range(self.given.turns):
                for is_killed in True, False:
                    self.turns(f"t{turn}-{int(is_killed)}", is_killed)
        finally:
            self.nodes.stop()
        print(f"{self.looks} looks, {self.wrong} wrong", flush=True)
        return min(self.wrong, 1)


def main():
    signal.signal(signal.SIGTERM, lambda *_: sys.exit(1))
    parser = argparse.ArgumentParser(description=__doc__.split("\n")[0])
    parser.add_argument("--engine", choices=log_nodes.KINDS, default="rabbitmq")
    parser.add_argument("--turns", type=int, default=3)
    log_nodes.add_words(parser)
    parser.add_argument("--folder", help="where all is [default: a new one, which is taken away]")
    given = parser.parse_args()
    with tempfile.TemporaryDirectory() as folder:
        given.folder = given.folder or folder
        return Trial(given).run()


if __name__ == "__main__":
    sys.exit(main())
