"""Requests that wait at a door for their replies, whichever engine carries them."""
import collections
import os
import threading

from office_streams import say

# How many replies are kept, so that those of further replicas are compared.
RECENT = 20_000
# A log that says it has no such stream may be about to find it, as its nodes do where all of them come back. It is asked again so often.
AGAIN = 0.5


class Asked:
    """A request that waits for its reply."""

    def __init__(self, name, number, caller, body):
        self.key = os.urandom(12).hex()
        self.name, self.number, self.caller, self.body = name, number, caller, body
        self.published = 0
        self.done = threading.Event()
        self.status, self.answer, self.replica = None, None, None

    def publication(self):
        """A name for one publication more; replies tell it."""
        self.published += 1
        return f"{self.key}.{self.published}"

    def settle(self, status, answer, replica=None):
        if not self.done.is_set():
            self.status, self.answer, self.replica = status, answer, replica
            self.done.set()


class Asking:
    """What an engine's writer stands on: who waits, and what was replied."""

    def __init__(self, words, tool, trace=None):
        self.words, self.tool, self.trace = words, tool, trace
        self.lock = threading.Lock()
        self.asked = collections.OrderedDict()
        self.recent = collections.OrderedDict()
        self.counts = collections.Counter()

    def wait_for(self, asked):
        with self.lock:
            self.asked[asked.key] = asked

    def forget(self, asked):
        with self.lock:
            self.asked.pop(asked.key, None)

    def waits(self, asked):
        """Whether somebody still waits for the reply."""
        with self.lock:
            return asked.key in self.asked

    def waiting(self):
        with self.lock:
            return list(self.asked.values())

    def asked_by(self, publication):
        with self.lock:
            return self.asked.get(publication.partition(".")[0])

    def note_confirm(self, asked, publication):
        """A majority has a message, says the log. Only a reply tells a client anything. The connection before may still tell one meanwhile."""
        with self.lock:
            self.counts["confirmed"] += 1
            if self.trace:
                self.trace.write(f"{asked.name} {asked.number} {publication}\n")

    def take_reply(self, publication, number, status, body, replica):
        """The first replica's reply is the answer; the others' have to be the same."""
        key, reply = publication.partition(".")[0], (status, body)
        with self.lock:
            asked = self.asked.pop(key, None)
            had = self.recent.setdefault(key, reply)
            if RECENT < len(self.recent):
                self.recent.popitem(last=False)
        if had != reply:
            self.counts["disagreements"] += 1
            say(self.tool, f"replicas disagree about {number}: {had} and {reply} by {replica}")
        elif asked is None:
            self.counts["agreements"] += 1
        if asked is not None:
            asked.settle(status, body, replica)
