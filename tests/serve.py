#!/usr/bin/env python3
"""Talks to `office serve` by real clients, and to servers of its own by `office send`.

    tests/serve.py [PROGRAM]      (crates/cli/out/cli, as ./office has built it; wants curl)

The clients are curl, Python's http.client, and sockets by hand: kept connections, posts behind one another, answers that are read slowly, clients
that go away. What they have to get is written down here, from docs/FORMATS.md and the worked examples. `office send` is run against
`office serve`, twice, against a port where nobody listens, and against servers that cut their answers, answer otherwise or close without a word.
Both are stopped by a signal and go on while they read and while they write; and the disk under an office fails.
Clients and servers that say nothing, or a byte a second, are waited for side by side: the whole takes two minutes.
Prints what is otherwise than it should be, and last `N looks, M wrong`; the status is 1 if anything was.
"""
import contextlib
import functools
import hashlib
import http.client
import json
import pathlib
import signal
import socket
import subprocess
import sys
import tempfile
import threading
import time

import looks
from looks import CONTROLS, HOST, free_port, number, same
from patience import seconds

TOP = pathlib.Path(__file__).resolve().parent.parent
PROGRAM = pathlib.Path(sys.argv[1] if len(sys.argv) > 1 else TOP / "crates" / "cli" / "out" / "cli").resolve()
SECONDS = seconds(300)

HEADER = 'msgid ""\nmsgstr ""\n"Content-Type: text/plain; charset=UTF-8\\n"\n"Plural-Forms: nplurals=2; plural=n != 1;\\n"\n'
HALLO = '{"act":"translate","forms":["Hallo"],"id":"Hello","lang":"de","seen":1}'
DONE = '{"revision":2,"state":"translated"}'
# The language's text with that translation.
TEXT = HEADER + '\nmsgid "Hello"\nmsgstr "Hallo"\n'
UNIT = (
    '{"comment":[],"ctx":null,"findings":{"line-ends":[],"placeholders":[]},"forms":[""],"id":"Hello","obsolete":false,"plural":null,'
    '"revision":1,"state":"untranslated","suggestions":[]}'
)
STATS = '{"approved":0,"needs-editing":0,"obsolete":0,"read-only":0,"suggestions":0,"translated":1,"untranslated":0}'

run = functools.partial(looks.run, PROGRAM, seconds=SECONDS)


# ---- offices and servers


def office(folder):
    """A file with an office: a template of one message, the language de, and ann, a translator."""
    path = pathlib.Path(tempfile.mkdtemp(dir=folder)) / "office.db"
    same("init", run("init", "--store", path, "--manager", "root"), (0, "ready\n", ""))
    requests = [
        {"act": "template", "po": 'msgid "Hello"\nmsgstr ""\n'},
        {"act": "language", "lang": "de", "po": HEADER},
        {"act": "team", "name": "ann", "role": "translator"},
    ]
    lines = "".join(json.dumps({**it, "caller": "root", "number": number(900 + n)}) + "\n" for n, it in enumerate(requests))
    status, replies, faults = run("deliver", "--store", path, given=lines)
    same("the office", (status, [it[:3] for it in replies.splitlines()], faults), (0, ["200"] * 3, ""))
    return path


@contextlib.contextmanager
def serving(path, connections, ends=(0, "", ""), port=None):
    """The port where the office in a file serves so many connections, behind which it has to end so."""
    with server(path, connections, ends, port) as (port, _):
        yield port


@contextlib.contextmanager
def server(path, connections, ends=(0, "", ""), port=None, before=()):
    """The same port, and the process, which these words start."""
    port = port or free_port()
    words = [*before, PROGRAM, "serve", "--store", str(path), "--port", str(port), "--connections", str(connections)]
    with subprocess.Popen(words, stdin=subprocess.DEVNULL, stdout=subprocess.PIPE, stderr=subprocess.PIPE) as process:
        try:
            wait_for(port, process)
            yield port, process
            out, faults = process.communicate(timeout=SECONDS)
            same("serve ends", (process.returncode, out.decode(), faults.decode()), ends)
        finally:
            process.kill()


def wait_for(port, process):
    """Waits until the port is taken, without a connection."""
    wanted = f"0100007F:{port:04X}"
    for _ in range(SECONDS * 50):
        rows = [it.split() for it in pathlib.Path("/proc/net/tcp").read_text().splitlines()[1:]]
        if any(it[1] == wanted and it[3] == "0A" for it in rows):
            return
        if process.poll() is not None:
            sys.exit(f"serve ended: {process.stderr.read().decode()}")
        time.sleep(0.02)
    sys.exit("serve doesn't listen")


def stop_and_go(process, times, rest=0.1):
    """Stops a program by a signal, and has it go on, so often: what it waits for at a socket is interrupted by that. One that ends ends it."""
    for _ in range(times):
        time.sleep(rest)
        process.send_signal(signal.SIGSTOP)
        while process.poll() is None and pathlib.Path(f"/proc/{process.pid}/stat").read_text().rpartition(")")[2].split()[0] != "T":
            time.sleep(0.01)
        process.send_signal(signal.SIGCONT)
    time.sleep(rest)


# ---- clients


def head_of(n, length=None, caller="ann", more=""):
    lines = [f"POST /v1/requests/{number(n)} HTTP/1.1", f"X-Office-Caller: {caller}"]
    lines += [] if length is None else [f"Content-Length: {length}"]
    return "".join(it + "\r\n" for it in lines) + more + "\r\n"


def post(n, body=HALLO, caller="ann", more=""):
    return (head_of(n, len(body.encode()), caller, more) + body).encode()


def get(target, more=""):
    return f"GET {target} HTTP/1.1\r\n{more}\r\n".encode()


def answer(status, phrase, body, end=False):
    close = "Connection: close\r\n" if end else ""
    return f"HTTP/1.1 {status} {phrase}\r\nContent-Type: application/json\r\nContent-Length: {len(body.encode())}\r\n{close}\r\n{body}".encode()


def refusal(status, phrase, word, end=False):
    return answer(status, phrase, '{"error":"%s"}' % word, end)


def export_answer(text, end=False):
    close = "Connection: close\r\n" if end else ""
    digest = hashlib.sha256(text.encode()).hexdigest()
    head = f"HTTP/1.1 200 OK\r\nContent-Type: text/plain; charset=utf-8\r\nContent-Length: {len(text.encode())}\r\nX-Office-SHA256: {digest}\r\n"
    return f"{head}{close}\r\n{text}".encode()


def connected(port):
    return socket.create_connection((HOST, port), SECONDS)


def told(port, stream, ends=True):
    """All that comes back for these bytes."""
    with connected(port) as it:
        it.sendall(stream)
        if ends:
            it.shutdown(socket.SHUT_WR)
        found = b""
        while piece := it.recv(65536):
            found += piece
        return found


def curl(*words):
    done = subprocess.run(["curl", "-sS", "--max-time", str(SECONDS), *words], capture_output=True, timeout=2 * SECONDS, check=False)
    return done.returncode, done.stdout.decode(), done.stderr.decode()


# ---- what is tried


def pipelined(folder):
    """The worked stream: the same post twice, in one write and byte by byte, and the answers byte for byte."""
    path = office(folder)
    stream, wanted = post(1) * 2, answer(200, "OK", DONE) * 2
    same("lengths", (len(stream), len(wanted)), (360, 212))
    with serving(path, 3) as port:
        same("pipelined", told(port, stream), wanted)
        with connected(port) as it:
            it.setsockopt(socket.IPPROTO_TCP, socket.TCP_NODELAY, 1)
            for byte in stream:
                it.sendall(bytes([byte]))
            it.shutdown(socket.SHUT_WR)
            same("byte by byte", b"".join(iter(lambda: it.recv(7), b"")), wanted)
        closing = post(1) + post(1, more="Connection: CLOSE\r\n") + post(2)
        same("nothing behind a close", told(port, closing, ends=False), answer(200, "OK", DONE) + answer(200, "OK", DONE, end=True))
    text = run("export", "--store", path, "--lang", "de")
    same("the export", text, (0, TEXT, f"bytes 138 sha256 {hashlib.sha256(TEXT.encode()).hexdigest()}\n"))


def kept_by_curl(folder):
    """curl asks for several pages on one connection."""
    path = office(folder)
    with serving(path, 2) as port:
        at = f"http://{HOST}:{port}"
        new = ["-w", " %{http_code} %{num_connects}\n"]
        posted = ["-H", "X-Office-Caller: ann", "-d", HALLO, f"{at}/v1/requests/{number(1)}"]
        words = [*new, *posted, "--next", *new, *posted, "--next", *new, f"{at}/v1/stats/de", "--next", *new, f"{at}/v1/stats/fr"]
        wanted = [f"{DONE} 200 1", f"{DONE} 200 0", f"{STATS} 200 0", '{"error":"no-language"} 404 0']
        found = curl(*words)
        same("curl", (found[0], found[1].splitlines(), found[2]), (0, wanted, ""))
        file = folder / "de.po"
        found = curl("-D", "-", "-o", str(file), f"{at}/v1/export/de")
        digest = hashlib.sha256(TEXT.encode()).hexdigest()
        same("curl, export", (found[0], f"X-Office-SHA256: {digest}\r\n" in found[1], file.read_text()), (0, True, TEXT))


def kept_by_python(folder):
    """http.client keeps a connection, and gets 500 answers."""
    path = office(folder)
    with serving(path, 1) as port:
        client = http.client.HTTPConnection(HOST, port, timeout=SECONDS)
        for n in range(1, 501):
            body = json.dumps({"act": "translate", "forms": [f"Hallo {n}"], "id": "Hello", "lang": "de", "seen": n})
            client.request("POST", f"/v1/requests/{number(n)}", body.encode(), {"X-Office-Caller": "ann"})
            reply = client.getresponse()
            found = (reply.status, reply.read().decode())
            if found != (200, '{"revision":%d,"state":"translated"}' % (n + 1)):
                same(f"post {n}", found, "its revision")
        client.request("GET", "/v1/unit?lang=de&id=Hello")
        view = json.loads(client.getresponse().read())
        same("the unit behind 500 posts", (view["revision"], view["forms"], view["state"]), (501, ["Hallo 500"], "translated"))
        client.close()


def routes(folder):
    """Each of the four routes with a right and with wrong questions, and each test that a message fails."""
    path = office(folder)
    rows = [
        ("unit", get("/v1/unit?lang=de&id=Hello"), answer(200, "OK", UNIT)),
        ("unit, of another context", get("/v1/unit?lang=de&id=Hello&ctx="), refusal(404, "Not Found", "no-unit")),
        ("unit, without id", get("/v1/unit?lang=de"), refusal(400, "Bad Request", "malformed")),
        ("request", post(1), answer(200, "OK", DONE)),
        ("request, again", post(1), answer(200, "OK", DONE)),
        ("request, number used", post(1, HALLO.replace("Hallo", "Moin")), refusal(409, "Conflict", "number-used")),
        ("request, refused", post(4, caller="zed"), answer(403, "Forbidden", '{"refusal":"role","rule":3}')),
        ("request, of no act", post(5, "{}"), refusal(400, "Bad Request", "malformed")),
        ("request, without a caller", f"POST /v1/requests/{number(6)} HTTP/1.1\r\nContent-Length: 2\r\n\r\n{{}}".encode(), refusal(400, "Bad Request", "malformed")),
        ("stats", get("/v1/stats/de"), answer(200, "OK", STATS)),
        ("stats, no language", get("/v1/stats/fr"), refusal(404, "Not Found", "no-language")),
        ("export", get("/v1/export/de"), export_answer(TEXT)),
        ("export, no language", get("/v1/export/fr"), refusal(404, "Not Found", "no-language")),
        ("export, with a query", get("/v1/export/de?id=Hello"), refusal(404, "Not Found", "no-route")),
        ("no route", b"POST /v1/nothing HTTP/1.1\r\n\r\n", refusal(404, "Not Found", "no-route")),
        ("another method", b"DELETE /v1/stats/de HTTP/1.1\r\n\r\n", refusal(405, "Method Not Allowed", "method")),
    ]
    ends = [
        ("no length", head_of(7).encode(), refusal(411, "Length Required", "length", end=True)),
        ("too large", head_of(7, 20971521).encode(), refusal(413, "Payload Too Large", "too-large", end=True)),
        ("too large, and its body", head_of(7, 20971521).encode() + b"x" * 20971521, refusal(413, "Payload Too Large", "too-large", end=True)),
        ("chunked", head_of(7, more="Transfer-Encoding: chunked\r\n").encode(), refusal(400, "Bad Request", "malformed", end=True)),
        ("no head", b"a" * 8192, refusal(431, "Request Header Fields Too Large", "head", end=True)),
        ("no HTTP", b"hello\r\n\r\n", refusal(400, "Bad Request", "malformed", end=True)),
        ("33 header lines", get("/v1/stats/de", "A: b\r\n" * 33), refusal(400, "Bad Request", "malformed", end=True)),
        ("HEAD", b"HEAD /v1/stats/de HTTP/1.1\r\n\r\n" + get("/v1/stats/de"), refusal(405, "Method Not Allowed", "method", end=True)),
        ("HTTP/1.0", b"GET /v1/stats/fr HTTP/1.0\r\n\r\n", refusal(404, "Not Found", "no-language", end=True)),
    ]
    with serving(path, 1 + len(ends)) as port:
        with connected(port) as it, it.makefile("rb") as reader:
            for what, question, wanted in rows:
                it.sendall(question)
                same(what, reader.read(len(wanted)), wanted)
        for what, question, wanted in ends:
            same(what, told(port, question, ends=False), wanted)


def make_large(path):
    """Gives the office a template whose export has 800,000 bytes."""
    po = "\n".join(f'msgid "message {n} {"x" * 2000}"\nmsgstr ""\n' for n in range(400))
    line = json.dumps({"act": "template", "po": po, "caller": "root", "number": number(800)})
    same("a large template", run("deliver", "--store", path, given=line + "\n")[1][:4], "200 ")


def large(folder):
    """A text of 800,000 bytes is read slowly by its client, and comes whole."""
    path = office(folder)
    make_large(path)
    text = run("export", "--store", path, "--lang", "de")[1]
    wanted = export_answer(text, end=True)
    with serving(path, 1) as port, connected(port) as it:
        it.setsockopt(socket.SOL_SOCKET, socket.SO_RCVBUF, 4096)
        it.sendall(get("/v1/export/de", "Connection: close\r\n"))
        found = b""
        while piece := it.recv(8192):
            found += piece
            if len(found) < 400_000:
                time.sleep(0.005)
        same("an answer read slowly", (len(found), found == wanted), (len(wanted), True))


def gone(folder):
    """Clients that go away: in mid-body, before their answer, or before a word; the office serves on, and a request acts once."""
    path = office(folder)
    with serving(path, 4) as port:
        whole = post(1)
        with connected(port) as it:
            it.sendall(whole[:150])
        with connected(port) as it:
            it.sendall(whole)
            it.shutdown(socket.SHUT_WR)
        with connected(port):
            pass
        same("asked again", told(port, whole + get("/v1/stats/de")), answer(200, "OK", DONE) + answer(200, "OK", STATS))
    with serving(path, 3) as port:
        same("a half message is answered", told(port, whole[:150]), refusal(400, "Bad Request", "malformed", end=True))
        same("silence is not", told(port, b""), b"")
        same("and the next is served", told(port, whole), answer(200, "OK", DONE))


def reset(folder):
    """A client that resets its connection in mid-body: a fault, told on the second output, and the next is served."""
    path = office(folder)
    with serving(path, 2, ends=(1, "", "serve fault 1\n")) as port:
        with connected(port) as it:
            it.sendall(post(1)[:150])
            time.sleep(0.2)
            it.setsockopt(socket.SOL_SOCKET, socket.SO_LINGER, b"\1\0\0\0\0\0\0\0")
        same("behind a reset", told(port, post(1)), answer(200, "OK", DONE))
    make_large(path)
    with serving(path, 2, ends=(1, "", "serve fault 2\n")) as port:
        with connected(port) as it:
            it.setsockopt(socket.SOL_SOCKET, socket.SO_RCVBUF, 4096)
            it.sendall(get("/v1/export/de") * 20)
            it.recv(1)
            it.setsockopt(socket.SOL_SOCKET, socket.SO_LINGER, b"\1\0\0\0\0\0\0\0")
        same("behind an answer that nobody took", told(port, post(1)), answer(200, "OK", DONE))


def silent(folder):
    """A client that says nothing more for a minute: its connection is closed, and the next is served."""
    path = office(folder)
    with serving(path, 2, ends=(1, "", "serve fault 1\n")) as port:
        begin = time.monotonic()
        with connected(port) as quiet:
            quiet.sendall(post(1)[:150])
            same("behind a silent client", told(port, post(1)), answer(200, "OK", DONE))
            same("a minute is waited", 55 < time.monotonic() - begin < 75, True)


def deaf(folder):
    """A client that takes nothing of its answers is given up too; some more of them still goes into the system's buffers."""
    path = office(folder)
    make_large(path)
    begin = time.monotonic()
    with contextlib.ExitStack() as kept_open:
        with serving(path, 1, ends=(1, "", "serve fault 2\n")) as port:
            it = kept_open.enter_context(connected(port))
            it.sendall(get("/v1/export/de") * 50)
        same("a deaf client is given up", 28 < time.monotonic() - begin < 120, True)


def stopped(folder):
    """A server that is stopped and goes on, while it reads and while it writes: no connection is lost by that."""
    path, found = office(folder), [b"", b""]
    with server(path, 1) as (port, process), connected(port) as it, contextlib.suppress(OSError):
        stream = post(1) * 2
        for begin in range(0, len(stream), 50):
            stop_and_go(process, 2)
            it.sendall(stream[begin : begin + 50])
        stop_and_go(process, 2)
        it.shutdown(socket.SHUT_WR)
        found[0] = b"".join(iter(lambda: it.recv(65536), b""))
    same("stopped while it reads", found[0], answer(200, "OK", DONE) * 2)
    make_large(path)
    text = run("export", "--store", path, "--lang", "de")[1]
    with server(path, 1) as (port, process), connected(port) as it, contextlib.suppress(OSError):
        it.sendall(get("/v1/export/de") * 20)
        stop_and_go(process, 20)
        it.shutdown(socket.SHUT_WR)
        found[1] = b"".join(iter(lambda: it.recv(65536), b""))
    same("stopped while it writes", found[1] == export_answer(text) * 20, True)


def stopped_and_silent(folder):
    """A client that says nothing more for a minute, and a server that is stopped meanwhile: the minute isn't begun anew."""
    path = office(folder)
    with server(path, 2, ends=(1, "", "serve fault 1\n")) as (port, process):
        begin = time.monotonic()
        with connected(port) as quiet:
            quiet.sendall(post(1)[:150])
            stop_and_go(process, 5, rest=9)
            same("behind a silent client of a stopped server", told(port, post(1)), answer(200, "OK", DONE))
            same("a minute is waited, by a stopped server too", 55 < time.monotonic() - begin < 75, True)


def disk_failed(folder):
    """A disk that takes no more: from there on each answer says so, and at the end the server does, by a line and by its status."""
    path = office(folder)
    kilobytes = max(it.stat().st_size for it in path.parent.iterdir()) // 1024 + 400
    before = ["bash", "-c", f'trap "" XFSZ; ulimit -f {kilobytes}; exec "$@"', "-"]
    with server(path, 1, ends=(3, "", "disk fault\n"), before=before) as (port, _):
        client, found = http.client.HTTPConnection(HOST, port, timeout=SECONDS), []
        for n in range(1, 41):
            body = json.dumps({"act": "comment", "id": "Hello", "lang": "de", "lines": [f"{n}" * 400] * 20, "seen": n})
            client.request("POST", f"/v1/requests/{number(n)}", body.encode(), {"X-Office-Caller": "root"})
            reply = client.getresponse()
            found.append((reply.status, reply.read().decode()[:16]))
        client.close()
    taken = sum(status == 200 for status, _ in found)
    same("some requests are taken, and then none", found[taken:], [(507, '{"error":"disk"}')] * (40 - taken))
    same("on a disk that takes no more", 0 < taken < 40, True)
    line = json.dumps({"act": "comment", "caller": "root", "id": "Hello", "lang": "de", "lines": [], "number": number(41), "seen": taken + 1})
    same("the office is whole behind it", run("deliver", "--store", path, given=line + "\n")[1][:4], "200 ")


def no_descriptors(folder):
    """Connections that can't be taken, since the program may have no further file open: each is told, a second behind the one before."""
    path = office(folder)
    for limit in range(4, 40):
        words = ["sh", "-c", 'ulimit -n "$0"; exec "$@"', str(limit), PROGRAM, "serve", "--store", path, "--port", str(free_port()), "--connections", "3"]
        with subprocess.Popen(words, stdin=subprocess.DEVNULL, stdout=subprocess.DEVNULL, stderr=subprocess.PIPE) as process:
            faults = [(it, time.monotonic()) for it in process.stderr]
        if faults[0][0] not in (b"store fault 2\n", b"port fault\n"):
            break
    same("no descriptors", (process.returncode, [it for it, _ in faults]), (1, [b"serve fault 1\n"] * 3))
    same("two seconds between the first and the last", 1.9 < faults[-1][1] - faults[0][1] < 20, True)


def refused(folder):
    """What keeps `serve` from serving: tables before the port, and words before both."""
    path = office(folder)
    with socket.socket() as it:
        it.bind((HOST, 0))
        it.listen()
        port = it.getsockname()[1]
        same("a port in use", run("serve", "--store", path, "--port", port, "--connections", 1), (1, "", "port fault\n"))
        same("no tables either", run("serve", "--store", folder / "none.db", "--port", port, "--connections", 1), (1, "", "store fault 2\n"))
        status, out, faults = run("serve", "--store", folder / "none.db", "--port", port, "--connections", 0)
        same("wrong words", (status, out, faults != ""), (2, "", True))
    same("the office is whole", run("export", "--store", path, "--lang", "de")[0], 0)


# ---- office send


LIST = [
    {"act": "translate", "caller": "ann", "forms": ["Hallo"], "id": "Hello", "lang": "de", "number": number(1), "seen": 1},
    {"act": "translate", "caller": "ann", "forms": ["Servus"], "id": "Hello", "lang": "de", "number": number(2), "seen": 2},
    {"act": "translate", "caller": "zed", "forms": ["Moin"], "id": "Hello", "lang": "de", "number": number(3), "seen": 3},
    {"act": "translate", "caller": "ann", "forms": ["Moin"], "id": "Hello", "lang": "fr", "number": number(4), "seen": 1},
]
REPLIES = (
    '200 {"revision":2,"state":"translated"}\n200 {"revision":3,"state":"translated"}\n403 {"refusal":"role","rule":3}\n'
    '404 {"refusal":"no-language","rule":1}\n'
)
NONE = "none\n" * len(LIST)
# What a terminal or a reader of logs takes for more than a letter, though JSON lets it stand in a string.
UNSEEN = [it for it in CONTROLS if it >= 0x20]


def listed(folder, requests):
    path = pathlib.Path(tempfile.mkdtemp(dir=folder)) / "requests"
    path.write_text("".join((it if isinstance(it, str) else json.dumps(it)) + "\n" for it in requests))
    return path


def sent(file, port, tries=1):
    return run("send", "--port", port, "--file", file, "--tries", tries)


def sends(folder):
    """A list against an office that serves it, twice: the same replies, and the office as after the first."""
    path, file, port = office(folder), listed(folder, LIST), free_port()
    for turn in ("at first", "again"):
        # The same port: it is free again as soon as the program has ended.
        with serving(path, len(LIST), port=port):
            same(f"send, {turn}", sent(file, port), (0, REPLIES, ""))
    same("the export", run("export", "--store", path, "--lang", "de")[1], TEXT.replace("Hallo", "Servus"))


def sends_nothing(folder):
    """Lists that aren't sent, and a port where nobody listens."""
    port = free_port()
    same("nobody listens", sent(listed(folder, LIST), port, 3), (1, NONE, ""))
    same("an empty list", sent(listed(folder, []), port), (0, "", ""))
    same("a malformed line", sent(listed(folder, [LIST[0], "{}"]), port), (1, "", "line 2 malformed\n"))
    same("a number twice", sent(listed(folder, [LIST[0], LIST[1], LIST[0]]), port), (1, "", "sender fault 1\n"))
    same("a malformed line before a number twice", sent(listed(folder, [LIST[0], LIST[0], "x"]), port), (1, "", "line 3 malformed\n"))
    begin = time.monotonic()
    sent(listed(folder, LIST), port, 4)
    same("0.1, 0.2 and 0.4 seconds are waited between four rounds", 0.7 <= time.monotonic() - begin < 10, True)
    same("no file", sent(folder / "nothing", port), (1, "", "file fault\n"))
    same("a folder", sent(folder, port), (1, "", "file fault\n"))


def sends_through_a_restart(folder):
    """An office that begins to listen a while later: the list waits for it."""
    path, file, port, found = office(folder), listed(folder, LIST), free_port(), []
    sender = threading.Thread(target=lambda: found.append(sent(file, port, 20)))
    sender.start()
    time.sleep(2)
    with serving(path, len(LIST), port=port):
        sender.join()
    same("sent through a restart", found, [(0, REPLIES, "")])


class Fake:
    """A server that answers each connection by the next of these bytes, whole, and then closes; it counts messages. It reads none before it may."""

    def __init__(self, *answers, may_read=True):
        self.answers = list(answers)
        self.may_read = threading.Event()
        if may_read:
            self.may_read.set()
        self.messages = []
        self.listener = socket.create_server((HOST, 0))
        self.port = self.listener.getsockname()[1]
        self.thread = threading.Thread(target=self.serve, daemon=True)
        self.thread.start()

    def serve(self):
        for it in self.answers:
            connection, _ = self.listener.accept()
            connection.settimeout(SECONDS)
            self.may_read.wait(SECONDS)
            with connection, connection.makefile("rb") as reader:
                head = b"".join(iter(reader.readline, b"\r\n"))
                length = next(int(line[16:]) for line in head.split(b"\r\n") if line.startswith(b"Content-Length: "))
                self.messages.append((head, reader.read(length)))
                connection.sendall(it)
        self.listener.close()


def sends_to_others(folder):
    """Servers that aren't offices, or answer badly: such an answer counts as lost, and the request is sent again."""
    file, whole = listed(folder, LIST[:1]), answer(200, "OK", DONE, end=True)
    lost = {
        "half an answer": whole[:60],
        "a body cut by a byte": whole[:-1],
        "a byte too many": whole + b"x",
        "nothing": b"",
        "no HTTP": b"hello\n",
        "another status": answer(503, "Service Unavailable", '{"error":"memory"}', end=True),
        "a redirection": answer(301, "Moved Permanently", "{}", end=True),
        "malformed": refusal(400, "Bad Request", "malformed", end=True),
        "an order to the terminal": answer(200, "OK", '{"revision":2,"state":"\x1b[2Jtranslated"}', end=True),
        "another": answer(200, "OK", '{"revision":2,"state":"\u009b2Jtranslated"}', end=True),
        "a line end": answer(200, "OK", '{"revision":2}\n', end=True),
    }
    lost |= {f"U+{it:04X}": answer(200, "OK", f'{{"state":"{chr(it)}translated"}}', end=True) for it in UNSEEN}
    for what, it in lost.items():
        same(what, sent(file, Fake(it).port), (1, "none\n", ""))
        fake = Fake(it, whole)
        same(f"{what}, and then a reply", sent(file, fake.port, 2), (0, f"200 {DONE}\n", ""))
        same(f"{what}: the same message twice", (len(fake.messages), len(set(fake.messages))), (2, 1))
    for status, phrase in ((200, "OK"), (403, "Forbidden"), (404, "Not Found"), (409, "Conflict"), (422, "Unprocessable Entity")):
        same(f"a reply {status}", sent(file, Fake(answer(status, phrase, "{}", end=True)).port), (0, f"{status} {{}}\n", ""))
    fake = Fake(whole)
    sent(file, fake.port)
    head, body = fake.messages[0]
    lines = head.decode().split("\r\n")
    same("the message's first line", lines[0], f"POST /v1/requests/{number(1)} HTTP/1.1")
    same("its headers", {"Connection: close", "X-Office-Caller: ann", f"Content-Length: {len(HALLO)}"} <= set(lines), True)
    same("its body", body.decode(), HALLO)


def sends_while_stopped(folder):
    """A sender that is stopped and goes on, while it waits for its answer, and while nobody reads its message: neither is lost by that."""
    long = {"act": "template", "caller": "root", "number": number(1), "po": "# x\n" * 4_000_000}
    for what, it in (("an answer", LIST[0]), ("who reads", long)):
        fake, file = Fake(answer(200, "OK", DONE, end=True), may_read=False), listed(folder, [it])
        words = [PROGRAM, "send", "--port", str(fake.port), "--file", file, "--tries", "1"]
        with subprocess.Popen(words, stdin=subprocess.DEVNULL, stdout=subprocess.PIPE, stderr=subprocess.PIPE) as process:
            stop_and_go(process, 20)
            fake.may_read.set()
            out, faults = process.communicate(timeout=SECONDS)
            same(f"stopped while it waits for {what}", (process.returncode, out.decode(), faults.decode()), (0, f"200 {DONE}\n", ""))


class Slow(threading.Thread):
    """A server that takes one message and answers it a byte a second, or not at all, until its client goes."""

    def __init__(self, answers):
        super().__init__(daemon=True)
        self.answers = answers
        self.listener = socket.create_server((HOST, 0))
        self.port = self.listener.getsockname()[1]
        self.start()

    def run(self):
        connection, _ = self.listener.accept()
        with connection, contextlib.suppress(OSError):
            while True:
                time.sleep(1)
                if self.answers:
                    connection.sendall(b"H")
                elif not connection.recv(65536):
                    return


def sends_to_slow_ones(folder):
    """A server that says nothing is waited for a minute, one that says a byte a second for two."""
    file = listed(folder, LIST[:1])
    for answers, seconds in ((False, 60), (True, 120)):
        begin = time.monotonic()
        same(f"a slow server, {answers}", sent(file, Slow(answers).port), (1, "none\n", ""))
        same(f"{seconds} seconds", seconds - 1 < time.monotonic() - begin < seconds + 10, True)


class Waiting(threading.Thread):
    """A look that waits long, beside the others. What it raises is wrong."""

    def __init__(self, look, folder):
        super().__init__()
        self.look, self.folder, self.error = look, folder, None
        self.start()

    def run(self):
        try:
            self.look(self.folder)
        except Exception as error:  # (whatever it is, it is told)
            self.error = error

    def end(self):
        self.join()
        same(self.look.__name__, self.error, None)


def main():
    with tempfile.TemporaryDirectory(prefix="office-http-") as name:
        folder = pathlib.Path(name)
        waiting = [Waiting(it, folder) for it in (silent, stopped_and_silent, deaf, sends_to_slow_ones)]
        for it in (pipelined, kept_by_curl, kept_by_python, routes, large, gone, reset, stopped, disk_failed, no_descriptors, refused):
            it(folder)
        for it in (sends, sends_nothing, sends_through_a_restart, sends_to_others, sends_while_stopped):
            it(folder)
        for it in waiting:
            it.end()
    return looks.told()


if __name__ == "__main__":
    sys.exit(main())
