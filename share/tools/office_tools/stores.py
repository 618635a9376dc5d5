"""An office in a file, opened once by the program `office` and asked on one connection."""
import contextlib
import pathlib
import shutil
import socket
import subprocess
import time
import urllib.parse

from office_tools import Fault
from office_tools.client import Office
from office_tools.requests import MAIN

HOST = "127.0.0.1"
# What the program may take for an opening, and for a close behind the last answer, in seconds.
OPENING, CLOSING = 600, 60


def program_of(given):
    """The program `office`: the one that is named, or that on the path."""
    found = given or shutil.which("office")
    if not found:
        raise Fault("there is no program office on the path: --office names one")
    return found


def free_port():
    with socket.socket() as it:
        it.bind((HOST, 0))
        return it.getsockname()[1]


class Stored(Office):
    """The office of a file. The program serves one connection, which is this one, and ends behind it: so nobody else reaches the office
    meanwhile. It gives a connection up on which nothing comes for a minute, as where a tool works long between two questions, and is
    opened again then."""

    def __init__(self, path, program, caller, domain):
        super().__init__(urllib.parse.urlsplit(f"http://{HOST}"), caller=caller, tries=2, domain=domain)
        self.path, self.program, self.process = path, program, None

    def once(self, method, target, body):
        if self.connection.sock is None:
            self.open()
        return super().once(method, target, body)

    def open(self):
        if self.process:
            self.process.wait(CLOSING)
            self.process.stderr.close()
        port = free_port()
        words = [self.program, "serve", "--store", str(pathlib.Path(self.path).resolve()), "--port", str(port), "--connections", "1"]
        try:
            self.process = subprocess.Popen(words, stdin=subprocess.DEVNULL, stdout=subprocess.DEVNULL, stderr=subprocess.PIPE)
        except OSError as why:
            raise Fault(f"{self.program}: {why.strerror}") from None
        self.connection.sock = connected(port, self.process, self.path)

    def end(self):
        """Closes the office, which was given up before where it said so."""
        gone = self.connection.sock is None
        self.close()
        if self.process.wait(CLOSING) and not gone:
            raise Fault(f"{self.path}: {told_by(self.process)}")


@contextlib.contextmanager
def opened(path, program, caller=None, domain=MAIN):
    """The office of a file, as a client asks it."""
    office = Stored(path, program, caller, domain)
    try:
        office.open()
        yield office
        office.end()
    except subprocess.TimeoutExpired:
        raise Fault(f"{path}: {program} doesn't end") from None
    finally:
        if office.process:
            office.process.kill()
            office.process.wait()
            office.process.stderr.close()


def connected(port, process, path):
    """A connection to the port, as soon as the program takes one."""
    end = time.monotonic() + OPENING
    while time.monotonic() < end and process.poll() is None:
        with contextlib.suppress(OSError):
            link = socket.create_connection((HOST, port), timeout=60)
            link.setsockopt(socket.IPPROTO_TCP, socket.TCP_NODELAY, 1)
            return link
        time.sleep(0.01)
    raise Fault(f"{path}: {told_by(process) if process.poll() else 'not open in time'}")


def told_by(process):
    """What the program told of why it ended."""
    return process.stderr.read().decode(errors="replace").strip() or f"the program ended with status {process.returncode}"
