"""What the tools around a replicated log of requests share: how projects and messages are named, and which engine keeps the log.

An engine is a module beside this one, `rabbitmq` or `nats`, with three classes and LOST, what its calls raise where a node is lost. It is touched
nowhere else:

    Maker(words)     make(name, start), put(name, kind, body), replicas(names), remove(name), close()
    Reader(words)    attach(name, begin, turn, hear, lost), answer(message, status, body, replica), end(name), close()
    Writer(words)    ask(asked), and what `asked.Asking` has

A reader hands the messages of a project's stream to `hear`, one after another from the offset `begin` on, until it tells `lost` why it can't;
`turn` says at which node. What `attach` returns is told `taken(message)`, once or again, so that no more than some come ahead, and is closed.
A writer publishes what is asked until it is settled by a reply, whatever was confirmed meanwhile.
"""
import argparse
import collections
import importlib
import os
import re
import ssl
import sys

from office_tools import NAME as CALLER
from office_tools import Fault
from office_tools.lines import put

__all__ = ["CALLER", "Fault"]

PROJECT = re.compile(r"[a-z0-9][a-z0-9-]{0,23}")
NUMBER = re.compile(r"[0-9a-f]{8}-[0-9a-f]{4}-[0-9a-f]{4}-[0-9a-f]{4}-[0-9a-f]{12}")
WORD = re.compile(r"[a-z0-9][a-z0-9.-]{0,31}")
# The body of a request over HTTP, and so of a message of the log, has at most so many bytes.
LONGEST = 20_971_520
# The kinds of messages. A stream's first one says how its office starts; one may say by which rules it goes on; all others are requests.
START, RULES, REQUEST = "start", "rules", "request"
FIRST_RULES = "1"
ENGINES = ("rabbitmq", "nats")

# `asked` is the publication's name, by which its replies are told apart; `sent` is when it was published; `tag` is the engine's own.
Message = collections.namedtuple("Message", "offset kind number caller body reply_to asked sent tag")
Node = collections.namedtuple("Node", "host port")


class NoStream(Fault):
    """The log finds no stream of a project. Behind a start of all its nodes it finds one that is there in some seconds."""

    def __init__(self, name):
        super().__init__(f"{name}: the log finds no stream of it")


def say(tool, text):
    put(f"{tool}: {text}", to=sys.stderr)


def project(text):
    """A project's name, as a word of the command line."""
    if not PROJECT.fullmatch(text):
        raise argparse.ArgumentTypeError(f"{text!r} is no project's name")
    return text


def nodes(text):
    """The addresses of the log's nodes, as a word of the command line: HOST:PORT, parted by commas."""
    found = []
    for part in text.split(","):
        host, colon, port = part.rpartition(":")
        if not colon or not host or not port.isdigit():
            raise argparse.ArgumentTypeError(f"{part!r} is no HOST:PORT")
        found.append(Node(host, int(port)))
    return found


def add_words(parser):
    """The words that say where the log is, which engine keeps it, and how it is reached."""
    parser.add_argument("--log", type=nodes, required=True, metavar="NODES", help="the nodes of the log: HOST:PORT, parted by commas")
    parser.add_argument("--engine", choices=ENGINES, default=ENGINES[0], metavar="ENGINE", help=f"what keeps the log: rabbitmq or nats [default: {ENGINES[0]}]")
    parser.add_argument("--authority", metavar="FILE", help="the certificate of who signed the nodes' [default: no TLS]")
    parser.add_argument("--heartbeat", type=int, default=10, metavar="S", help="a node that is silent for S seconds is given up [default: 10]")


def engine(words):
    """The module of the engine that is named."""
    try:
        return importlib.import_module(f"office_streams.{words.engine}")
    except ImportError as why:
        raise Fault(f"{words.engine}: {why}: Debian has it as python3-{why.name}, for /usr/bin/python3") from None


def login():
    """Who signs in at the log: $OFFICE_LOG_LOGIN is NAME:PASSWORD."""
    name, _, password = os.environ.get("OFFICE_LOG_LOGIN", "guest:guest").partition(":")
    return name, password


def tls(words):
    """The context of TLS for connections to the nodes; None where there is none."""
    return ssl.create_default_context(cafile=words.authority) if words.authority else None


def stream(name):
    """The stream of a project."""
    return f"office.{name}"
