"""The table of projects and hosts, which doors and feeds read: a file of JSON, read anew where it changes.

    {"hosts": {"north": "10.0.0.1:8700", "south": "10.0.0.2:8700"}, "projects": {"popt": ["north", "south"]}}

Each host has a name and the address at which its feed answers questions, each project the hosts that feed an office of it.
"""
import json
import os
import re

from office_streams import PROJECT, Fault, say

HOST = re.compile(r"[A-Za-z0-9][A-Za-z0-9.-]{0,63}")


def read(path):
    """The hosts' addresses, and the hosts of each project."""
    try:
        with open(path, encoding="utf-8") as it:
            found = json.load(it)
        hosts, projects = dict(found["hosts"]), dict(found["projects"])
    except OSError as why:
        raise Fault(f"{path}: {why.strerror}") from None
    except (ValueError, KeyError, TypeError) as why:
        raise Fault(f"{path}: no table of hosts and projects: {why!r}") from None
    for name, address in hosts.items():
        if not HOST.fullmatch(name) or not isinstance(address, str) or not address.rpartition(":")[2].isdigit():
            raise Fault(f"{path}: {name!r}: no host with its address HOST:PORT")
    for name, places in projects.items():
        if not PROJECT.fullmatch(name) or not isinstance(places, list) or not all(it in hosts for it in places):
            raise Fault(f"{path}: {name!r}: no project with hosts of the table")
    return hosts, projects


def address(text):
    host, _, port = text.rpartition(":")
    return host, int(port)


class Table:
    def __init__(self, path, tool):
        self.path, self.tool = path, tool
        self.seen = self.stamp()
        self.hosts, self.projects = read(path)

    def stamp(self):
        try:
            it = os.stat(self.path)
            return it.st_mtime_ns, it.st_size, it.st_ino
        except OSError as why:
            return why.errno

    def look(self):
        """Reads the table anew where it changed. What is no table is told, and the one before stands. Whether it is another now."""
        stamp = self.stamp()
        if stamp == self.seen:
            return False
        self.seen = stamp
        try:
            self.hosts, self.projects = read(self.path)
        except Fault as fault:
            say(self.tool, f"{fault}; the table before stands")
            return False
        return True

    def of_host(self, host):
        """The projects that a host feeds."""
        return [name for name, places in self.projects.items() if host in places]

    def replicas(self, name):
        """The hosts of a project, with their addresses."""
        return [(host, address(self.hosts[host])) for host in self.projects.get(name, ())]
