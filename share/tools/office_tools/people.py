"""People by the names of callers: a file of lines as those of git's .mailmap, `Ann Example <ann@example.org> ann`."""
import collections
import re

from office_tools import NAME, Fault
from office_tools.files import bytes_of
from office_tools.lines import UNSEEN

# A name, an address, and a caller's name, which may stand in angle brackets too, as the second address of .mailmap does.
LINE = re.compile(r"(?P<name>[^<>]*?)\s*<(?P<address>[^<>\s]+)>\s*(?P<bracket><)?(?P<caller>[^<>\s]+)(?(bracket)>)")


class Person(collections.namedtuple("Person", "name address")):
    """Who a caller is: a name and an address; a caller that nobody names is a name alone."""

    def __str__(self):
        return f"{self.name} <{self.address}>" if self.address else self.name

    @property
    def for_git(self):
        """The person as git names one, where an address has to stand."""
        return f"{self.name} <{self.address}>"


class People:
    """Who each caller is."""

    def __init__(self, path=None):
        self.known = dict(lines_of(path)) if path else {}

    def __contains__(self, caller):
        return caller in self.known

    def of(self, caller):
        return self.known.get(caller, Person(caller, ""))


def lines_of(path):
    """The callers of a file, each with its person."""
    for number, line in enumerate(bytes_of(path).decode(errors="replace").split("\n"), 1):
        line = line.partition("#")[0].strip()
        if not line:
            continue
        found = LINE.fullmatch(line)
        if not found or not found["name"] or UNSEEN.search(line) or not NAME.fullmatch(found["caller"]):
            raise Fault(f"{path}: line {number} is no person: 'Ann Example <ann@example.org> ann' is one")
        yield found["caller"], Person(found["name"], found["address"])
