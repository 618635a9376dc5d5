"""A log of requests in NATS JetStream: one stream for all projects, replicated by three nodes, with a subject for each project.

Debian has no client for Python; what of the protocol is needed stands here. An offset is a sequence number of the one stream, so those of a
project have gaps. What a node acknowledges tells a client nothing here either: a reply does.
"""
import collections
import json
import os
import select
import socket
import ssl
import threading
import time

from office_streams import REQUEST, Fault, Message, NoStream, login, say, stream, tls
from office_streams.asked import AGAIN, Asking

LOST = (OSError, EOFError)
STREAM = "office"
NANOSECONDS = 1_000_000_000
# Errors of JetStream: no message is found, no stream is there, and the last of a subject isn't the expected one.
NO_MESSAGE, NO_STREAM, OTHER_LAST = 10037, 10059, 10071
# Between a consumer's signs of life, and how many of them may be missed.
SIGN, MISSED = 5, 3
KIND, NUMBER, CALLER, REPLY, PUBLICATION, SENT = (f"Office-{it}" for it in ("Kind", "Number", "Caller", "Reply", "Publication", "Sent"))
STATUS, REPLICA = "Office-Status", "Office-Replica"

Told = collections.namedtuple("Told", "subject reply status headers body")


def header_block(headers):
    return ("NATS/1.0\r\n" + "".join(f"{name}: {value}\r\n" for name, value in headers.items()) + "\r\n").encode()


def headers_of(block):
    """The status and the headers of a block; the status is none where it has no number."""
    first, *lines = block.decode().split("\r\n")
    pairs = (line.partition(":") for line in lines if line)
    return first[8:].strip()[:3], {name: value.strip() for name, _, value in pairs}


class Connection(threading.Thread):
    """A connection to a node, read in a thread of its own, which hands what comes to whoever subscribed."""

    def __init__(self, node, words, over=lambda why: None):
        super().__init__(daemon=True)
        self.node, self.words, self.over = node, words, over
        self.sending = threading.Lock()
        self.hears = {}
        self.subscribed = 0
        self.attachments = set()
        self.is_over = False
        self.inbox = "_INBOX." + os.urandom(9).hex()
        self.socket = socket.create_connection(node, 3)
        self.socket.setsockopt(socket.IPPROTO_TCP, socket.TCP_NODELAY, 1)
        self.buffer = b""
        try:
            self.greet()
        except BaseException:
            self.socket.close()
            raise
        self.start()

    def greet(self):
        self.socket.settimeout(5)
        if not self.line().startswith(b"INFO "):
            raise ConnectionError("no node of NATS")
        context = tls(self.words)
        if context:
            self.socket = context.wrap_socket(self.socket, server_hostname=self.node.host)
        name, password = login()
        told = {"verbose": False, "pedantic": False, "headers": True, "no_responders": True, "lang": "python", "version": "1"}
        self.send("CONNECT " + json.dumps({**told, "user": name, "pass": password}))
        self.send("PING")
        answer = self.line()
        if answer.startswith(b"-ERR"):
            raise ConnectionError(answer.decode())

    def send(self, line, *parts):
        with self.sending:
            self.socket.sendall(b"".join([line.encode(), b"\r\n", *parts]))

    def received(self, size):
        """What comes next. TLS isn't read and written at once."""
        if not isinstance(self.socket, ssl.SSLSocket):
            return self.socket.recv(size)
        comes, seconds = select.poll(), self.socket.gettimeout()
        comes.register(self.socket, select.POLLIN)
        while True:
            with self.sending:
                self.socket.settimeout(0)
                try:
                    return self.socket.recv(size)
                except ssl.SSLWantReadError:
                    pass
                finally:
                    self.socket.settimeout(seconds)
            if not comes.poll(seconds * 1000):
                raise TimeoutError("timed out")

    def more(self):
        found = self.received(1 << 16)
        if not found:
            raise EOFError("the node closed the connection")
        self.buffer += found

    def line(self):
        while b"\r\n" not in self.buffer:
            self.more()
        line, _, self.buffer = self.buffer.partition(b"\r\n")
        return line

    def exactly(self, size):
        parts, have = [self.buffer], len(self.buffer)
        while have < size:
            found = self.received(min(1 << 20, size - have))
            if not found:
                raise EOFError("the node closed the connection")
            parts.append(found)
            have += len(found)
        whole = b"".join(parts)
        self.buffer = whole[size:]
        return whole[:size]

    # What is told.

    def run(self):
        why = None
        try:
            while not self.is_over:
                self.take(self.told_line())
        except (*LOST, ValueError) as lost:
            why = lost
        self.close()
        with self.sending:
            self.socket.close()
        told = f"node {self.node.host}:{self.node.port}: {type(why).__name__} {why}"
        for it in list(self.attachments):
            it.end(told)
        self.over(told)

    def told_line(self):
        """The next line. A node that says nothing is asked whether it is there, and given up where it says nothing again."""
        for _ in range(2):
            try:
                self.socket.settimeout(self.words.heartbeat)
                return self.line()
            except TimeoutError:
                self.send("PING")
        raise TimeoutError("the node is silent")

    def take(self, line):
        words = line.split()
        if words[:1] == [b"PING"]:
            self.send("PONG")
        elif words[:1] == [b"-ERR"]:
            raise ConnectionError(line.decode())
        elif words[:1] == [b"MSG"] or words[:1] == [b"HMSG"]:
            self.take_message(words)

    def take_message(self, words):
        has_headers = words[0] == b"HMSG"
        rest = [it.decode() for it in words[1:]]
        size = int(rest[-1])
        ahead = int(rest[-2]) if has_headers else 0
        whole = self.exactly(size + 2)[:size]
        status, headers = headers_of(whole[:ahead]) if has_headers else ("", {})
        reply = rest[2] if len(rest) == (5 if has_headers else 4) else ""
        hear = self.hears.get(rest[1])
        if hear:
            hear(Told(rest[0], reply, status, headers, whole[ahead:]))

    # What is said.

    def subscribe(self, subject, hear):
        with self.sending:
            self.subscribed += 1
            name = str(self.subscribed)
        self.hears[name] = hear
        self.send(f"SUB {subject} {name}")
        return name

    def unsubscribe(self, name):
        self.hears.pop(name, None)
        self.send(f"UNSUB {name}")

    def publish(self, subject, body, headers=None, reply=""):
        block = header_block(headers) if headers else b""
        if block:
            self.send(f"HPUB {subject} {reply} {len(block)} {len(block) + len(body)}", block, body, b"\r\n")
        else:
            self.send(f"PUB {subject} {reply} {len(body)}", body, b"\r\n")

    def request(self, subject, body, headers=None, seconds=5):
        """The answer to a question."""
        inbox = f"{self.inbox}.{os.urandom(6).hex()}"
        answered, answers = threading.Event(), []
        name = self.subscribe(inbox, lambda told: (answers.append(told), answered.set()))
        self.publish(subject, body, headers, inbox)
        if not answered.wait(seconds):
            self.unsubscribe(name)
            raise TimeoutError(f"{subject}: no answer")
        self.unsubscribe(name)
        if answers[0].status == "503":
            raise ConnectionError(f"{subject}: nobody answers")
        return json.loads(answers[0].body)

    def api(self, subject, what=None, seconds=5):
        return self.request("$JS.API." + subject, b"" if what is None else json.dumps(what).encode(), seconds=seconds)

    def last(self, name):
        """The offset of a project's last message."""
        told = self.api(f"STREAM.MSG.GET.{STREAM}", {"last_by_subj": stream(name)})
        code = told.get("error", {}).get("err_code")
        if code in (NO_MESSAGE, NO_STREAM):
            raise NoStream(name)
        if code:
            raise ConnectionError(told["error"]["description"])
        return told["message"]["seq"]

    def close(self):
        """Ends the connection. The socket is closed by the thread that reads it: else that might read a file which got the socket's number."""
        self.is_over = True
        try:
            self.socket.shutdown(socket.SHUT_RDWR)
        except OSError:
            pass


def connected(words, rounds=10):
    """A connection to whichever node answers first. All are asked for some seconds."""
    for turn in range(rounds):
        for node in words.log:
            try:
                return Connection(node, words)
            except LOST as why:
                last = why
        time.sleep(min(turn, 3))
    raise Fault(f"no node of the log answers: {last!r}")


class Maker:
    """Makes the one stream, and a project's subject by its first message."""

    def __init__(self, words, size=None):
        self.words = words
        self.connection = connected(words)
        self.make_stream()

    def make_stream(self, tries=40):
        wanted = {"name": STREAM, "subjects": [stream("*")], "retention": "limits", "storage": "file", "num_replicas": 3, "discard": "new"}
        for _ in range(tries):
            try:
                told = self.connection.api(f"STREAM.CREATE.{STREAM}", wanted, seconds=10)
                if "error" not in told:
                    return
                why = told["error"]["description"]
            except LOST as lost:
                why = lost
                if self.connection.is_over:
                    self.connection = connected(self.words)
            time.sleep(0.5)
        raise Fault(f"no stream: {why}")

    def put(self, name, kind, body, further=()):
        headers = {KIND: kind, **dict(further)}
        told = self.connection.request(stream(name), body, headers, seconds=10)
        code = told.get("error", {}).get("err_code")
        if code and code != OTHER_LAST:
            raise Fault(f"{name}: {told['error']['description']}")
        return not code

    def make(self, name, kind, body):
        return self.put(name, kind, body, {"Nats-Expected-Last-Subject-Sequence": "0"}.items())

    def remove(self, name):
        self.connection.api(f"STREAM.PURGE.{STREAM}", {"filter": stream(name)})

    def replicas(self, names):
        """How many nodes have the one stream whole, as its leader says."""
        cluster = {}
        for _ in range(20):
            cluster = self.connection.api(f"STREAM.INFO.{STREAM}").get("cluster", {})
            if sum(it.get("current", False) for it in cluster.get("replicas", [])) == 2:
                break
            time.sleep(0.3)
        count = 1 + sum(it.get("current", False) for it in cluster.get("replicas", []))
        return dict.fromkeys(names, count)

    def close(self):
        self.connection.close()


# ---- reading


def offset_and_place(told):
    """A message's place in the stream, and among those of its consumer: $JS.ACK.STREAM.CONSUMER.TIMES.OFFSET.PLACE.TIME.PENDING, in later
    versions with two words more in front of STREAM."""
    words = told.reply.split(".")
    first = 5 if len(words) == 9 else 7
    return int(words[first]), int(words[first + 1])


def message_of(told, attachment):
    headers = told.headers
    sent = int(headers[SENT]) if SENT in headers else None
    kind, number, caller, reply, publication = (headers.get(it) for it in (KIND, NUMBER, CALLER, REPLY, PUBLICATION))
    return Message(offset_and_place(told)[0], kind, number, caller, told.body, reply, publication, sent, (attachment, told.reply))


class Attachment:
    """A project's subject, read by a consumer that ends with its connection."""

    def __init__(self, connection, name, begin, hear, lost):
        self.connection, self.name, self.hear, self.lost = connection, name, hear, lost
        self.begin = begin
        self.expected = 1
        self.signed = time.monotonic()
        self.closed = False
        self.subscription = None

    def open(self, ahead):
        inbox = f"{self.connection.inbox}.{os.urandom(6).hex()}"
        self.connection.attachments.add(self)
        self.subscription = self.connection.subscribe(inbox, self.heard)
        config = {
            "deliver_subject": inbox,
            "deliver_policy": "by_start_sequence",
            "opt_start_seq": max(1, self.begin),
            "filter_subject": stream(self.name),
            "ack_policy": "all",
            "max_ack_pending": ahead,
            "ack_wait": 3600 * NANOSECONDS,
            "idle_heartbeat": SIGN * NANOSECONDS,
            "inactive_threshold": 30 * NANOSECONDS,
            "replay_policy": "instant",
            "mem_storage": True,
            "num_replicas": 1,
        }
        told = self.connection.api(f"CONSUMER.CREATE.{STREAM}", {"stream_name": STREAM, "config": config})
        if "error" in told:
            raise ConnectionError(told["error"]["description"])

    def heard(self, told):
        if self.closed:
            return
        self.signed = time.monotonic()
        if told.status:
            return
        _, place = offset_and_place(told)
        if place != self.expected:
            self.end(f"message {place} of a consumer came in the place of {self.expected}")
            return
        self.expected += 1
        self.hear(message_of(told, self))

    def taken(self, message):
        self.quietly(lambda: self.connection.publish(message.tag[1], b"+ACK"))

    def quietly(self, what):
        try:
            what()
        except LOST:
            self.connection.close()

    def end(self, why):
        if not self.closed:
            self.closed = True
            self.connection.attachments.discard(self)
            self.lost(why)

    def close(self):
        self.closed = True
        self.connection.attachments.discard(self)
        self.quietly(lambda: self.connection.unsubscribe(self.subscription))


class Reader:
    """Reads the subjects of many projects, over a connection to each node."""

    def __init__(self, words):
        self.words = words
        self.connections = {}
        self.lock = threading.Lock()
        self.is_over = False
        threading.Thread(target=self.watch, daemon=True).start()

    def connection(self, turn):
        node = self.words.log[turn % len(self.words.log)]
        with self.lock:
            it = self.connections.get(node)
            if it is None or it.is_over:
                it = self.connections[node] = Connection(node, self.words)
            return it

    def attach(self, name, begin, turn, hear, lost):
        try:
            connection = self.connection(turn)
            connection.last(name)
            attachment = Attachment(connection, name, begin, hear, lost)
            attachment.open(self.words.ahead)
            return attachment
        except (*LOST, NoStream) as why:
            lost(why)
            return None

    def watch(self):
        """A consumer whose node is gone tells nothing."""
        while not self.is_over:
            time.sleep(1)
            for connection in list(self.connections.values()):
                for it in list(connection.attachments):
                    if SIGN * MISSED < time.monotonic() - it.signed:
                        it.end("its consumer is silent")

    def answer(self, message, status, body, replica):
        connection = message.tag[0].connection
        headers = {PUBLICATION: message.asked, NUMBER: message.number, STATUS: status, REPLICA: replica}
        message.tag[0].quietly(lambda: connection.publish(message.reply_to, body, headers))

    def end(self, name):
        connection = connected(self.words)
        try:
            return connection.last(name)
        finally:
            connection.close()

    def close(self):
        self.is_over = True
        for it in self.connections.values():
            it.close()


# ---- publishing


class Writer(Asking):
    """The connection to the log. What has no reply when a connection ends is published again by the next one."""

    def __init__(self, words, tool, trace=None):
        super().__init__(words, tool, trace)
        self.node = os.getpid() % len(words.log)
        self.connection = None
        self.ready = False
        self.known = set()
        # Behind each publication: whose it was, and when; and what is to be published again, and when.
        self.unconfirmed = {}
        self.again = collections.deque()
        threading.Thread(target=self.run, daemon=True).start()

    def run(self):
        while True:
            try:
                self.connection = Connection(self.words.log[self.node], self.words)
                self.connection.subscribe(f"{self.connection.inbox}.ack.>", self.confirmed)
                self.connection.subscribe(f"{self.connection.inbox}.reply", self.replied)
                self.ready = True
                self.publish_all()
                while not self.connection.is_over:
                    time.sleep(0.1)
                    self.look()
            except LOST as why:
                say(self.tool, f"node {self.words.log[self.node]}: {type(why).__name__} {why}")
            self.ready = False
            self.unconfirmed.clear()
            self.counts["connections"] += 1
            self.node = (self.node + 1) % len(self.words.log)
            time.sleep(0.1)

    def publish_all(self):
        for it in self.waiting():
            self.counts["again"] += 1
            self.publish(it)

    def look(self):
        now = time.monotonic()
        for _ in range(len(self.again)):
            when, asked = self.again.popleft()
            if now < when:
                self.again.append((when, asked))
            else:
                self.publish(asked)
        oldest = min((when for _, when in list(self.unconfirmed.values())), default=now)
        if self.words.confirm < now - oldest:
            self.counts["given_up"] += 1
            say(self.tool, f"node {self.words.log[self.node]}: no acknowledgement for {self.words.confirm} s")
            self.connection.close()

    def ask(self, asked):
        self.wait_for(asked)
        if self.ready:
            self.publish(asked)

    def is_known(self, name):
        """Whether a project has its first message; a subject takes any other."""
        if name not in self.known:
            self.connection.last(name)
            self.known.add(name)

    def publish(self, asked):
        if not self.ready or not self.waits(asked):
            return
        try:
            self.is_known(asked.name)
            publication = asked.publication()
            headers = {KIND: REQUEST, NUMBER: asked.number, CALLER: asked.caller, PUBLICATION: publication}
            headers.update({REPLY: f"{self.connection.inbox}.reply", SENT: int(time.time())})
            self.unconfirmed[publication] = (asked, time.monotonic())
            self.connection.publish(stream(asked.name), asked.body, headers, f"{self.connection.inbox}.ack.{publication}")
        except NoStream:
            self.counts["returned"] += 1
            self.again.append((time.monotonic() + AGAIN, asked))
        except LOST:
            self.again.append((time.monotonic() + 0.3, asked))

    def confirmed(self, told):
        publication = told.subject.partition(".ack.")[2]
        asked, _ = self.unconfirmed.pop(publication, (None, None))
        if asked is None:
            return
        if not told.status and b'"error"' not in told.body:
            self.note_confirm(asked, publication)
        else:
            self.counts["nacked"] += 1
            self.again.append((time.monotonic() + 0.3, asked))

    def replied(self, told):
        headers = told.headers
        self.take_reply(headers[PUBLICATION], headers[NUMBER], int(headers[STATUS]), told.body, headers[REPLICA])
