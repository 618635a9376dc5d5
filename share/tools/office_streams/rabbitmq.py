"""A log of requests in streams of RabbitMQ: a stream for each project, with a replica on each of three nodes.

What a publisher's channel confirms tells a client nothing here: behind a killed leader a channel that several streams share confirmed
messages that aren't there, and one may wait for a confirm for ever. So each project has a channel of its own, what no stream takes is
returned, and a node that confirms nothing for a while is given up. Readers see only what a majority has.
"""
import collections
import contextlib
import os
import threading
import time

import pika
import pika.adapters.utils.connection_workflow as workflow

from office_streams import REQUEST, Fault, Message, NoStream, login, say, stream, tls
from office_streams.asked import AGAIN, Asking

# What a connection ends with. A handshake that isn't answered is told by an error of another family.
LOST = (pika.exceptions.AMQPError, workflow.AMQPConnectorException, OSError)
# A stream keeps all, has a replica on each of three nodes, and is led by the node that leads fewest.
ARGUMENTS = {"x-queue-type": "stream", "x-initial-cluster-size": 3, "x-queue-leader-locator": "balanced"}
# How many channels a connection has at most; a node allows 2,047.
CHANNELS = 2000


def parameters(node, words):
    name, password = login()
    context = tls(words)
    return pika.ConnectionParameters(
        node.host,
        node.port,
        credentials=pika.PlainCredentials(name, password),
        heartbeat=words.heartbeat,
        connection_attempts=1,
        socket_timeout=3,
        stack_timeout=5,
        blocked_connection_timeout=60,
        ssl_options=pika.SSLOptions(context, node.host) if context else None,
    )


def connected(words, rounds=10):
    """A connection to whichever node answers first. All are asked for some seconds."""
    for turn in range(rounds):
        for node in words.log:
            try:
                return pika.BlockingConnection(parameters(node, words))
            except LOST as why:
                last = why
        time.sleep(min(turn, 3))
    raise Fault(f"no node of the log answers: {last!r}")


def properties_of(kind):
    return pika.BasicProperties(type=kind)


class Maker:
    """Makes streams, and looks at them."""

    def __init__(self, words, size=None):
        self.words = words
        self.arguments = ARGUMENTS if size is None else {**ARGUMENTS, "x-stream-max-segment-size-bytes": size}
        self.connection = connected(words)

    def is_there(self, name):
        try:
            looked = self.connection.channel()
            looked.queue_declare(stream(name), passive=True)
            looked.close()
            return True
        except pika.exceptions.ChannelClosedByBroker as why:
            if why.reply_code != 404:
                raise
            return False

    def make(self, name, kind, body, tries=20):
        """Makes a stream with this first message. Whether it was made, and wasn't there before. A node that has just started, or whose leader is
        away, can't for a while."""
        for _ in range(tries):
            try:
                return self.make_once(name, kind, body)
            except LOST as lost:
                why = lost
                time.sleep(1)
                self.connection = connected(self.words)
        raise Fault(f"{name}: {why}")

    def make_once(self, name, kind, body):
        # One that an earlier try left without its first message gets it now.
        if self.is_there(name) and is_read(self.connection, name):
            return False
        channel = self.connection.channel()
        channel.queue_declare(stream(name), durable=True, arguments=self.arguments)
        channel.close()
        self.put(name, kind, body)
        return True

    def put(self, name, kind, body):
        """Puts a message behind the others; a majority has it when this returns, unless a leader dies."""
        channel = self.connection.channel()
        channel.confirm_delivery()
        try:
            channel.basic_publish("", stream(name), body, properties_of(kind), mandatory=True)
        except pika.exceptions.UnroutableError:
            raise NoStream(name) from None
        channel.close()

    def remove(self, name):
        channel = self.connection.channel()
        channel.queue_delete(stream(name))
        channel.close()

    def replicas(self, names):
        """Through how many nodes each stream's first message is read: a node reads from its own replica alone."""
        found = dict.fromkeys(names, 0)
        for node in self.words.log:
            try:
                connection = pika.BlockingConnection(parameters(node, self.words))
            except LOST:
                continue
            for name in names:
                found[name] += is_read(connection, name)
            connection.close()
        return found

    def close(self):
        """A look at many streams takes longer than a node keeps a silent connection."""
        with contextlib.suppress(*LOST):
            self.connection.close()


def is_read(connection, name, seconds=20.0):
    """Whether a stream's first message is read at this node. A replica that is new is there in a while."""
    end = time.monotonic() + seconds
    while time.monotonic() < end:
        found = []
        try:
            channel = connection.channel()
            channel.basic_qos(prefetch_count=1)
            channel.basic_consume(stream(name), lambda _c, method, _p, _b: found.append(method), arguments={"x-stream-offset": "first"})
            began = time.monotonic()
            while not found and time.monotonic() - began < 3:
                connection.process_data_events(time_limit=0.1)
            close_reading(channel)
        except pika.exceptions.ChannelClosedByBroker:
            time.sleep(0.5)
        if found:
            return True
    return False


def close_reading(channel):
    """Closes a channel that reads a stream, and nothing else. Its own `close` cancels first, and rejects what comes meanwhile: a stream takes no
    rejection, and its node ends the connection for all who are on it."""
    if channel.is_open:
        channel._impl.close()
        channel._flush_output(lambda: channel.is_closed)


# ---- reading


class Attachment:
    """A project's stream, read by a channel of its own."""

    def __init__(self, name, begin, hear, lost, ahead):
        self.name, self.begin, self.hear, self.lost, self.ahead = name, begin, hear, lost, ahead
        self.connection = self.channel = None
        self.acknowledged = 0
        self.closed = False

    def open(self):
        """In the connection's thread."""
        if self.closed:
            return
        try:
            self.channel = self.connection.link.channel()
            self.channel.basic_qos(prefetch_count=self.ahead)
            self.channel.add_on_cancel_callback(lambda _: self.end("cancelled"))
            self.channel.basic_consume(stream(self.name), self.heard, arguments={"x-stream-offset": self.begin})
        except pika.exceptions.ChannelClosedByBroker as why:
            self.end(NoStream(self.name) if why.reply_code == 404 else why)

    def heard(self, _channel, method, properties, body):
        if self.closed:
            return
        headers = properties.headers or {}
        self.hear(
            Message(
                int(headers.get("x-stream-offset", -1)),
                properties.type,
                properties.message_id,
                headers.get("caller"),
                body,
                properties.reply_to,
                properties.correlation_id,
                properties.timestamp,
                (self, method.delivery_tag),
            )
        )

    def taken(self, message):
        _, tag = message.tag
        self.connection.submit(lambda: self.acknowledge(tag))

    def acknowledge(self, tag):
        if self.acknowledged < tag and not self.closed and self.channel is not None and self.channel.is_open:
            self.acknowledged = tag
            self.channel.basic_ack(tag, multiple=True)

    def end(self, why):
        if not self.closed:
            self.closed = True
            self.connection.attachments.discard(self)
            self.lost(why)

    def close(self):
        self.closed = True
        self.connection.submit(self.let_go)

    def let_go(self):
        self.connection.attachments.discard(self)
        if self.channel is not None:
            close_reading(self.channel)


class Connection(threading.Thread):
    """A connection to a node, in a thread of its own, with the channels of many projects."""

    def __init__(self, node, words):
        super().__init__(daemon=True)
        self.node, self.words = node, words
        self.todo = collections.deque()
        self.attachments = set()
        self.link = self.answers = None
        self.is_over = False
        self.start()

    def submit(self, what):
        self.todo.append(what)
        link = self.link
        if link is not None:
            try:
                link.add_callback_threadsafe(lambda: None)
            except LOST:
                pass

    def attach(self, attachment):
        attachment.connection = self
        self.attachments.add(attachment)
        self.submit(attachment.open)

    def run(self):
        why = None
        try:
            self.link = pika.BlockingConnection(parameters(self.node, self.words))
            self.answers = self.link.channel()
            looked = time.monotonic()
            while not self.is_over:
                self.link.process_data_events(time_limit=0.5)
                while self.todo:
                    self.todo.popleft()()
                if 1 < time.monotonic() - looked:
                    looked = time.monotonic()
                    self.look()
            for it in list(self.attachments):
                it.let_go()
            self.link.close()
        except LOST as lost:
            why = lost
        self.is_over = True
        for it in list(self.attachments) if why is not None else ():
            it.end(f"node {self.node.host}:{self.node.port}: {type(why).__name__} {why}")

    def look(self):
        """A channel that its node closed tells nothing by itself."""
        for it in list(self.attachments):
            if it.channel is not None and not it.channel.is_open:
                it.end("its channel was closed")

    def answer(self, message, status, body, replica):
        properties = pika.BasicProperties(
            correlation_id=message.asked,
            message_id=message.number,
            headers={"status": status, "replica": replica, "offset": message.offset},
            content_type="application/json",
        )
        if self.answers is not None and self.answers.is_open:
            self.answers.basic_publish("", message.reply_to, body, properties)


class Reader:
    """Reads the streams of many projects, over few connections."""

    def __init__(self, words):
        self.words = words
        self.connections = {}
        self.lock = threading.Lock()

    def connection(self, turn):
        """A connection to the node whose turn it is, which has room for one channel more."""
        node = self.words.log[turn % len(self.words.log)]
        with self.lock:
            there = [it for it in self.connections.get(node, ()) if not it.is_over]
            self.connections[node] = there
            free = next((it for it in there if len(it.attachments) < CHANNELS), None)
            if free is None:
                free = Connection(node, self.words)
                there.append(free)
            return free

    def attach(self, name, begin, turn, hear, lost):
        attachment = Attachment(name, begin, hear, lost, self.words.ahead)
        self.connection(turn).attach(attachment)
        return attachment

    def answer(self, message, status, body, replica):
        attachment, _ = message.tag
        connection = attachment.connection
        connection.submit(lambda: connection.answer(message, status, body, replica))

    def end(self, name):
        """The offset of the last message there is now; -1 where there is none."""
        connection = connected(self.words)
        found = []

        def heard(channel, method, properties, _body):
            found.append(properties.headers["x-stream-offset"])
            channel.basic_ack(method.delivery_tag)

        look = connection.channel()
        look.basic_qos(prefetch_count=100)
        try:
            look.basic_consume(stream(name), heard, arguments={"x-stream-offset": "last"})
        except pika.exceptions.ChannelClosedByBroker as why:
            raise (NoStream(name) if why.reply_code == 404 else Fault(f"{name}: {why}")) from None
        # The last chunk comes whole; nothing for a second means that it has come.
        quiet = time.monotonic()
        while time.monotonic() - quiet < (1.0 if found else 10.0):
            had = len(found)
            connection.process_data_events(time_limit=0.1)
            if len(found) != had:
                quiet = time.monotonic()
        close_reading(look)
        connection.close()
        return max(found, default=-1)

    def close(self):
        for there in self.connections.values():
            for it in there:
                it.is_over = True
                it.submit(lambda: None)
        for there in self.connections.values():
            for it in there:
                it.join(5)


# ---- publishing


class Line:
    """A project's channel, and what was published on it and isn't confirmed."""

    def __init__(self):
        self.channel = None
        self.waiting = []
        self.published = 0
        # Behind each tag: what was published, under which name, and when.
        self.unconfirmed = {}


class Writer(Asking):
    """The connection to the log, in a thread of its own. What has no reply when a connection ends is published again by the next one."""

    def __init__(self, words, tool, trace=None):
        super().__init__(words, tool, trace)
        self.node = os.getpid() % len(words.log)
        self.connection = self.channel = self.queue = None
        self.ready = False
        self.lines = {}
        threading.Thread(target=self.run, daemon=True).start()

    def run(self):
        while True:
            self.ready = False
            try:
                self.connection = pika.SelectConnection(
                    parameters(self.words.log[self.node], self.words),
                    on_open_callback=self.opened,
                    on_open_error_callback=self.ended,
                    on_close_callback=self.ended,
                )
                self.connection.ioloop.start()
            except Exception as why:  # whatever ends a connection: the next node
                say(self.tool, f"node {self.words.log[self.node]}: {type(why).__name__} {why}")
            self.ready = False
            self.counts["connections"] += 1
            self.node = (self.node + 1) % len(self.words.log)
            time.sleep(0.1)

    def ended(self, connection, why):
        self.ready = False
        say(self.tool, f"node {self.words.log[self.node]}: {type(why).__name__} {why}")
        connection.ioloop.stop()

    def opened(self, connection):
        connection.channel(on_open_callback=self.channel_opened)

    def channel_opened(self, channel):
        self.channel = channel
        self.lines = {}
        channel.add_on_close_callback(self.channel_closed)
        channel.queue_declare("", exclusive=True, auto_delete=True, callback=self.declared)

    def channel_closed(self, _channel, _why):
        self.ready = False
        if self.connection.is_open:
            self.connection.close()

    def declared(self, frame):
        self.queue = frame.method.queue
        self.channel.basic_consume(self.queue, self.replied, auto_ack=True)
        self.ready = True
        self.watch()
        for it in self.waiting():
            self.counts["again"] += 1
            self.publish(it)

    def watch(self):
        """Gives up a node that confirms nothing: behind a parting it may write to a leader that is none any more, for ever."""
        if not self.ready or not self.connection.is_open:
            return
        oldest = min((next(iter(line.unconfirmed.values()))[2] for line in self.lines.values() if line.unconfirmed), default=None)
        if oldest is not None and self.words.confirm < time.monotonic() - oldest:
            self.counts["given_up"] += 1
            say(self.tool, f"node {self.words.log[self.node]}: no confirm for {self.words.confirm} s")
            self.ready = False
            self.connection.close()
            self.connection.ioloop.call_later(1, self.connection.ioloop.stop)
            return
        self.connection.ioloop.call_later(0.5, self.watch)

    def ask(self, asked):
        self.wait_for(asked)
        if self.ready:
            self.connection.ioloop.add_callback_threadsafe(lambda: self.publish(asked))

    def line(self, asked):
        """The open channel of a project; None where it is to be opened first."""
        line = self.lines.get(asked.name)
        if line is None:
            line = self.lines[asked.name] = Line()
            self.connection.channel(on_open_callback=lambda channel: self.line_opened(asked.name, line, channel))
        if line.channel is None:
            line.waiting.append(asked)
            return None
        return line

    def publish(self, asked):
        if not self.ready or not self.waits(asked):
            return
        line = self.line(asked)
        if line is None:
            return
        publication = asked.publication()
        properties = pika.BasicProperties(
            type=REQUEST,
            message_id=asked.number,
            headers={"caller": asked.caller},
            reply_to=self.queue,
            correlation_id=publication,
            timestamp=int(time.time()),
        )
        try:
            line.channel.basic_publish("", stream(asked.name), asked.body, properties, mandatory=True)
        except pika.exceptions.AMQPError:
            return
        line.published += 1
        line.unconfirmed[line.published] = (asked, publication, time.monotonic())

    def line_opened(self, name, line, channel):
        channel.add_on_close_callback(lambda *_: self.line_closed(name, line))
        channel.add_on_return_callback(self.returned)
        channel.confirm_delivery(lambda frame: self.confirmed(line, frame))
        line.channel = channel
        waiting, line.waiting = line.waiting, []
        for asked in waiting:
            self.publish(asked)

    def line_closed(self, name, line):
        """What was on it is published again by another, in a moment."""
        if self.lines.get(name) is line and self.ready and self.connection.is_open:
            del self.lines[name]
            again = [asked for asked, _, _ in line.unconfirmed.values()] + line.waiting
            self.connection.ioloop.call_later(0.3, lambda: [self.publish(asked) for asked in again])

    def confirmed(self, line, frame):
        method = frame.method
        tags = [tag for tag in line.unconfirmed if tag <= method.delivery_tag] if method.multiple else [method.delivery_tag]
        for tag in tags:
            asked, publication, _ = line.unconfirmed.pop(tag, (None, None, None))
            if asked is None:
                continue
            if isinstance(method, pika.spec.Basic.Ack):
                self.note_confirm(asked, publication)
            else:
                self.counts["nacked"] += 1
                self.publish(asked)

    def returned(self, _channel, _method, properties, _body):
        """No stream took it, says the node, before it confirms it all the same. That is no word on the project: behind a start of all nodes none
        knows a stream before that has a leader. So the same comes again, as long as somebody waits."""
        asked = self.asked_by(properties.correlation_id)
        if asked is None:
            return
        self.counts["returned"] += 1
        line = self.lines.get(asked.name)
        if line is not None:
            line.unconfirmed = {tag: it for tag, it in line.unconfirmed.items() if it[0] is not asked}
        self.connection.ioloop.call_later(AGAIN, lambda: self.publish(asked))

    def replied(self, _channel, _method, properties, body):
        headers = properties.headers or {}
        self.take_reply(properties.correlation_id, properties.message_id, int(headers.get("status", 0)), body, headers.get("replica"))
