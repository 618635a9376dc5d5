"""Requests: their numbers, their lines, and files of them, which are only ever added to."""
import json
import os
import pathlib
import re
import time
import uuid

from office_tools import Fault
from office_tools.files import opened
from office_tools.lines import seen
from office_tools.replies import has_fields, value_of

# The domain that is always there.
MAIN = "main"
# Names the numbers that are made of a content.
OFFICE = uuid.uuid5(uuid.NAMESPACE_URL, "urn:office:requests")
# What each request has, and the form of a number.
REQUEST = {"act": str, "caller": str, "number": str}
NUMBER = re.compile(r"[0-9a-f]{8}(?:-[0-9a-f]{4}){3}-[0-9a-f]{12}")


def new_number():
    """A number for a new request, a UUID of version 7: it begins with the time."""
    bits = time.time_ns() // 1_000_000 << 80 | int.from_bytes(os.urandom(10), "big")
    return str(uuid.UUID(int=bits & ~(0xF << 76 | 0x3 << 62) | 0x7 << 76 | 0x2 << 62))


def number_of(*parts):
    """The number that always stands for these texts, a UUID of version 5."""
    return str(uuid.uuid5(OFFICE, json.dumps(parts)))


def compact(value):
    """A value as JSON on one line, without a character that is no letter to a terminal."""
    return seen(json.dumps(value, ensure_ascii=False, separators=(",", ":"), sort_keys=True))


def unit_of(lang, message, domain=MAIN):
    """The fields that name a message's unit. One in main names no domain."""
    unit = {"lang": lang, "id": message.msgid, **({} if domain == MAIN else {"domain": domain})}
    return unit if message.context is None else {**unit, "ctx": message.context}


def shown(message):
    """A message's name, as the tools print it: its msgid in quotes, behind its context where it has one."""
    return " ".join(compact(it) for it in (message.context, message.msgid) if it is not None)


class RequestFile:
    """A file of requests, a line of JSON each."""

    def __init__(self, path):
        self.path = pathlib.Path(path)
        self.requests = []
        if not self.path.exists():
            return
        try:
            with open(opened(self.path), encoding="utf-8") as it:
                lines = it.read().removesuffix("\n").split("\n")
        except (OSError, UnicodeDecodeError) as why:
            raise Fault(f"{self.path}: {why}") from None
        self.requests = [self.request_of(number, line) for number, line in enumerate(lines, 1) if lines != [""]]

    def request_of(self, number, line):
        request = value_of(line)
        if not has_fields(request, REQUEST) or not NUMBER.fullmatch(request["number"]):
            raise Fault(f"{self.path}: line {number} is no request")
        return request

    def add(self, requests):
        """Adds these behind the others. They are on the disk when this returns; a stop before that leaves the file as it was."""
        self.requests += requests
        beside = self.path.with_name(f"{self.path.name}.new")
        try:
            with open(beside, "w", encoding="utf-8", newline="\n") as it:
                it.writelines(compact(request) + "\n" for request in self.requests)
                it.flush()
                os.fsync(it.fileno())
            beside.replace(self.path)
        except OSError as why:
            raise Fault(f"{self.path}: {why}") from None
