"""Offices in files, made by requests and served, as the programs of this folder measure them."""
import contextlib
import http.client
import json
import os
import pathlib
import socket
import subprocess
import sys
import time

TOP = pathlib.Path(__file__).resolve().parent.parent
sys.path.insert(0, str(TOP / "tests"))
from looks import HOST, free_port  # noqa: E402

HEADER = 'msgid ""\nmsgstr ""\n"Content-Type: text/plain; charset=UTF-8\\n"\n"Plural-Forms: nplurals=2; plural=n != 1;\\n"\n'
SECONDS = 1_800
ENDLESS = 4_294_967_295


def number(n):
    """The number of a request; they rise."""
    return "%08x-0000-4000-8000-%012x" % (n, n)


def made(program, path, acts, first=1):
    """Makes an office, whose manager sends these; each is to be done."""
    lines = "".join(json.dumps({**it, "caller": "root", "number": number(n)}) + "\n" for n, it in enumerate(acts, first))
    subprocess.run([program, "init", "--store", path, "--manager", "root"], check=True, stdout=subprocess.DEVNULL)
    done = subprocess.run([program, "deliver", "--store", path], input=lines.encode(), check=True, stdout=subprocess.PIPE)
    wrong = [it for it in done.stdout.splitlines() if not it.startswith(b"200 ")]
    if wrong or done.stdout.count(b"\n") != lines.count("\n"):
        raise SystemExit(f"the office answered {wrong[:1] or 'too little'}")


def processor(process):
    """The seconds of processor that a process has used when it has ended, as it should."""
    _, status, usage = os.wait4(process.pid, 0)
    process.returncode = os.waitstatus_to_exitcode(status)
    if process.returncode:
        raise SystemExit("%s ended with status %d" % (process.args[1], process.returncode))
    return usage.ru_utime + usage.ru_stime


@contextlib.contextmanager
def serves(program, path, connections):
    """A process that serves so many connections, and its port. What is still there behind the block is killed."""
    port = free_port()
    with subprocess.Popen([program, "serve", "--store", path, "--port", str(port), "--connections", str(connections)]) as process:
        try:
            yield process, port
        finally:
            if process.poll() is None:
                process.kill()


def connected(port, process):
    while process.poll() is None:
        with contextlib.suppress(ConnectionRefusedError):
            return socket.create_connection((HOST, port))
        time.sleep(0.001)
    raise SystemExit("serve ended with status %d" % process.returncode)


@contextlib.contextmanager
def talking(program, path, used=None):
    """A process that serves one connection, and that; it ends behind the block. `used` gets its seconds of processor."""
    with serves(program, path, 1) as (process, port):
        with connected(port, process) as client:
            client.setsockopt(socket.IPPROTO_TCP, socket.TCP_NODELAY, 1)
            yield process, client
        seconds = processor(process)
        if used is not None:
            used.append(seconds)


def answered(reader, wanted=200):
    """The fields and the body of the next answer, of this status."""
    return rest_of_answer(reader, reader.readline(), wanted)


def rest_of_answer(reader, status, wanted=200):
    """The same, where the status line was read."""
    fields = {}
    for line in iter(reader.readline, b"\r\n"):
        name, value = line.decode().split(": ", 1)
        fields[name] = value.rstrip()
    body = reader.read(int(fields["Content-Length"]))
    if not status.startswith(b"HTTP/1.1 %d " % wanted):
        raise SystemExit("answered %r" % (status + body)[:300])
    return fields, body


def asked(port, method, path, act=None):
    """The text of an answer of status 200, on a connection of its own."""
    with contextlib.closing(http.client.HTTPConnection(HOST, port, timeout=SECONDS)) as link:
        link.request(method, path, json.dumps(act) if act else None, {"X-Office-Caller": "root", "Connection": "close"})
        answer = link.getresponse()
        text = answer.read()
    if answer.status != 200:
        raise SystemExit(f"{path} was answered {answer.status} {text[:200]}")
    return text


@contextlib.contextmanager
def served(program, path, question):
    """A process that serves without an end, its port, and the seconds from its start to its answer to a question."""
    begun = time.monotonic()
    with serves(program, path, ENDLESS) as (process, port):
        connected(port, process).close()
        asked(port, "GET", question)
        yield process, port, time.monotonic() - begun


def kilobytes(process, field):
    """What /proc tells of a process's memory, VmRSS or VmHWM."""
    status = pathlib.Path(f"/proc/{process.pid}/status").read_text()
    return next(int(line.split()[1]) for line in status.splitlines() if line.startswith(field + ":"))
