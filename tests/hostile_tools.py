#!/usr/bin/env python3
"""Gives the tools of share/tools servers and files that mean them ill.

    tests/hostile_tools.py      (wants GNU gettext)

Servers answer odd bodies, of every route and status; they answer a byte at a time, without an end, or more than anybody reads. Files are pipes,
devices, folders, and databases whose table is none, or has odd rows. Each kind of control character stands in each field of a server's or a file's
that a tool prints. A tool has to end by itself, with its status, in lines of its own, without one of these characters and without a traceback;
where it goes wrong by itself the traceback has none either. Nothing in share/tools prints but the one function that escapes them. Prints what is otherwise than it should be, and last `N looks, M wrong`; the status is 1 if anything was.
"""
import ast
import contextlib
import http.server
import json
import os
import pathlib
import re
import socket
import sqlite3
import subprocess
import sys
import tempfile
import threading
import time

import looks
from looks import BIDI, CONTROLS, HOST, number, same
from patience import seconds
from serve import TOP

TOOLS = TOP / "share" / "tools"
SECONDS = seconds(60)
# Runs a tool with less patience, and room for less, than it has: an answer may take so long, and a file or an answer be so long.
IMPATIENT = """
import runpy, sys
sys.dont_write_bytecode = True
sys.path.insert(0, sys.argv[1])
import office_tools.client, office_tools.files
office_tools.client.WHOLE, office_tools.client.SILENCE = 1, 30
office_tools.client.LONGEST = office_tools.files.LONGEST = 200_000
sys.argv = sys.argv[2:]
runpy.run_path(sys.argv[0], run_name="__main__")
"""

# Runs a tool that goes wrong by itself, in its first thread or in another, with the text of $WRONG.
MISTAKEN = """
import os, runpy, sys, threading
sys.dont_write_bytecode = True
sys.path.insert(0, sys.argv[1])
import office_tools.client
def mistaken(*_):
    raise ValueError(os.environ["WRONG"])
def in_thread(*_):
    it = threading.Thread(target=mistaken)
    it.start()
    it.join()
    raise office_tools.Fault("gone wrong in a thread")
office_tools.client.Office.once = in_thread if sys.argv[2] == "thread" else mistaken
sys.argv = sys.argv[3:]
runpy.run_path(sys.argv[0], run_name="__main__")
"""

# With halves of surrogate pairs, which JSON may have.
ESCAPED = [*CONTROLS, 0xD800, 0xDFFF]
UNSEEN = re.compile("[" + "".join(re.escape(chr(it)) for it in CONTROLS if it not in (9, 10)) + "]")
HEADER = 'msgid ""\nmsgstr ""\n"Content-Type: text/plain; charset=UTF-8\\n"\n"Plural-Forms: nplurals=2; plural=n != 1;\\n"\n'
EXPORT = HEADER + '\nmsgid "Hello"\nmsgstr ""\n\nmsgid "Hello!"\nmsgstr "Hallo!"\n'
EDITED = EXPORT.replace('msgstr ""\n\nmsgid "Hello!"', 'msgstr "Hallo"\n\nmsgid "Hello!"')
VIEW = {"comment": [], "ctx": None, "forms": [""], "id": "Hello", "revision": 1, "state": "untranslated", "suggestions": []}
DONE = {"revision": 2, "state": "translated"}
DEEP = b"[" * 100_000 + b"]" * 100_000
DEEP_OBJECT = b'{"a":' * 100_000 + b"1" + b"}" * 100_000


def run(*words, patched=False):
    """The status, output and second output of a tool, as bytes, and how long it took."""
    program = [sys.executable, "-c", IMPATIENT, TOOLS] if patched else []
    start = time.monotonic()
    environment = {**os.environ, "LC_ALL": "C.UTF-8"}
    try:
        done = subprocess.run(
            [*map(str, program), str(TOOLS / words[0]), *map(str, words[1:])], capture_output=True, timeout=SECONDS, check=False, stdin=subprocess.DEVNULL, env=environment
        )
    except subprocess.TimeoutExpired:
        return "no end", b"", b"", SECONDS
    return done.returncode, done.stdout, done.stderr, time.monotonic() - start


def is_clean(*outputs):
    """Whether outputs are whole lines of UTF-8 without a control character, and no traceback."""
    text = b"".join(outputs).decode()
    return not UNSEEN.search(text) and "Traceback" not in text and (not text or text.endswith("\n"))


def one_fault(what, tool, *words, patched=False, within=60, says=""):
    """The tool has to end with status 1 and one line on the second output, which says this."""
    status, _, faults, took = run(tool, *words, patched=patched)
    lines = faults.decode(errors="replace").split("\n")
    wanted = (1, 2, "", True, True)
    same(what, (status, len(lines), lines[-1], lines[0].startswith(f"{tool}: ") and says in lines[0], took < seconds(within)), wanted)
    same(f"{what}: its line", is_clean(faults), True)


# ---- servers


class Hostile(http.server.BaseHTTPRequestHandler):
    """A server that answers by a function of the method and the path."""

    protocol_version = "HTTP/1.1"

    def answer(self):
        self.rfile.read(int(self.headers.get("Content-Length", 0)))
        status, body = self.server.answers(self.command, self.path)
        self.send_response(status)
        self.send_header("Content-Length", str(len(body)))
        self.end_headers()
        self.wfile.write(body)

    do_GET = do_POST = answer

    def log_message(self, *_):
        pass


@contextlib.contextmanager
def server(answers):
    """The port of a server that answers so."""
    it = http.server.ThreadingHTTPServer((HOST, 0), Hostile)
    it.answers, it.daemon_threads = answers, True
    threading.Thread(target=it.serve_forever, daemon=True).start()
    try:
        yield it.server_address[1]
    finally:
        it.shutdown()
        it.server_close()


def body(value):
    return value if isinstance(value, bytes) else json.dumps(value).encode()


def answers(view=VIEW, reply=DONE, export=EXPORT, status=200):
    """An office of one message, whose views, replies (of this status) or exports are these."""

    def of(method, path):
        if method == "POST":
            return status, body(reply)
        return 200, export.encode() if "/export/" in path else body(view)

    return of


def asking(place, port):
    """Words of each tool that asks a served office, which view the message Hello, and send a request."""
    (place / "export.po").write_text(EXPORT)
    (place / "de.po").write_text(EDITED)
    for it in place.glob("*.requests"):
        it.unlink()
    at = ["--url", f"http://{HOST}:{port}", "--caller", "ann", "--tries", "2", "de"]
    return [["office-memory", *at], ["office-upload", *at, place / "export.po", place / "de.po"]]


def odd(value, **fields):
    return {key: it for key, it in {**value, **fields}.items() if it != "left out"}


NO_JSON = [DEEP, DEEP_OBJECT, b"null", b"[]", b'"text"', b"12", b"", b"{", b"<html>502</html>", b'{"a":' + b"9" * 5000 + b"}"]
ODD_VIEWS = [
    *NO_JSON,
    {},
    *(odd(VIEW, **{name: it}) for name in ("state", "forms", "revision", "suggestions") for it in ("left out", None, {}, [None], [[]], True, 1.5)),
    odd(VIEW, suggestions=[{"forms": ["x"]}]),
    odd(VIEW, suggestions=[{"forms": None, "number": number(1)}]),
    odd(VIEW, suggestions=[{"forms": ["x"], "number": 1}]),
    odd(VIEW, forms=[["x"]]),
]
ODD_REFUSALS = [
    *NO_JSON,
    {},
    *({"refusal": it} for it in (None, [], {}, 1, "po", "plural-forms", "\x1b[31m")),
    *({"error": it} for it in (None, [], {}, 1, "x\u2028y")),
    *({"refusal": "po", "line": it, "kind": it} for it in (None, [], {}, "\x1b")),
    *({"refusal": "plural-forms", "fault": it, "at": it} for it in (None, [], {}, "\x1b", 4)),
]


def odd_bodies(place):
    """Odd bodies in the place of a view, a reply and a refusal."""
    for n, view in enumerate(ODD_VIEWS):
        with server(answers(view=view)) as port:
            for words in asking(place, port):
                one_fault(f"{words[0]}: odd view {n}, {str(view)[:60]}", *words, says="no view")
    for n, reply in enumerate(NO_JSON):
        with server(answers(reply=reply)) as port:
            for words in asking(place, port):
                one_fault(f"{words[0]}: odd reply {n}, {str(reply)[:60]}", *words, says="no reply")
    for n, reply in enumerate(ODD_REFUSALS):
        with server(answers(reply=reply, status=409)) as port:
            for words in asking(place, port):
                status, out, faults, _ = run(*words)
                told = out.decode().split("\n")
                same(f"{words[0]}: odd refusal {n}, {str(reply)[:60]}", (status, told[0][:9], told[1:], faults), (1, "not done:", ["1 not done", ""], b""))
                same(f"{words[0]}: odd refusal {n}: its lines", is_clean(out), True)
    for n, export in enumerate(("", "no catalogue", "\0", "msgid", EXPORT + EXPORT, 'msgid "\x1b"\nmsgstr "')):
        with server(answers(export=export)) as port:
            status, out, faults, _ = run(*asking(place, port)[0])
            same(f"odd export {n}", (status in (0, 1), is_clean(out, faults), faults.count(b"\n") <= 1), (True, True, True))


ALL = "".join(f"{chr(it)}." for it in ESCAPED)
ALL_ESCAPED = "".join(f"\\u{it:04x}." for it in ESCAPED)


def controls_served(place):
    """Each control character in each field of a server's that a tool prints."""
    upload_forms = r"since the export, to (\[.*\])\)\n"
    cases = [
        ("office-memory", answers(view=odd(VIEW, state=f"a{ALL}")), "it is a"),
        ("office-memory", answers(reply={"refusal": f"a{ALL}"}, status=409), "(a"),
        ("office-memory", answers(reply={"error": f"a{ALL}"}, status=400), "(a"),
        ("office-upload", answers(reply={"refusal": f"a{ALL}"}, status=409), "(a"),
        ("office-upload", answers(reply={"error": f"a{ALL}"}, status=400), "(a"),
        ("office-upload", answers(view=odd(VIEW, forms=[f"a{ALL}"])), None),
    ]
    for n, (tool, given, before) in enumerate(cases):
        with server(given) as port:
            _, out, faults, _ = run(*next(words for words in asking(place, port) if words[0] == tool))
        told = out.decode()
        same(f"{tool}: controls of a server, {n}", (is_clean(out, faults), faults, told.count("\n")), (True, b"", 2))
        found = re.search(upload_forms, told)
        shown = before + ALL_ESCAPED in told if before else found and json.loads(found[1]) == [f"a{ALL}"]
        same(f"{tool}: controls of a server, {n}, shown", shown, True)


PO_ESCAPES = {7: "\\a", 8: "\\b", 9: "\\t", 10: "\\n", 11: "\\v", 12: "\\f", 13: "\\r"}


def controls_exported(place):
    """Control characters of an export's messages, as far as a PO text has them."""
    controls = [*PO_ESCAPES, *range(0x7F, 0xA0), 0x2028, 0x2029, *BIDI]
    export, wanted = HEADER, []
    for it in controls:
        text = PO_ESCAPES.get(it, chr(it))
        export += f'\nmsgctxt "c{text}c"\nmsgid "{it:04x} Hello{text}you"\nmsgstr ""\n\nmsgctxt "c{text}c"\nmsgid "{it:04x} Hello{text}yo"\nmsgstr "{it:04x}{text}"\n'
        wanted.append([f"c{chr(it)}c", f"{it:04x} Hello{chr(it)}you", [f"{it:04x}{chr(it)}"]])
    with server(answers(export=export)) as port:
        status, out, faults, _ = run(*asking(place, port)[0])
    same("office-memory: controls in an export", (status, is_clean(out, faults), faults), (0, True, b""))
    named = re.findall(r"^[a-z ]+: (\".*\") (\".*\"): (\[.*\])(?: \(.*\))?$", out.decode(), re.M)
    same("office-memory: controls in an export, shown", [[json.loads(one) for one in it] for it in named], wanted)


COUNTS = {"approved": 1, "needs-editing": 0, "obsolete": 0, "read-only": 0, "suggestions": 0, "translated": 1, "untranslated": 0}
ODD_COUNTS = [*NO_JSON, {}, *({**COUNTS, name: it} for name in ("approved", "suggestions") for it in (None, [], {}, "1", 1.5, True))]
SHOWN_VIEW = {**VIEW, "obsolete": False, "state": "approved"}
ODD_SHOWN = [*ODD_VIEWS, *(odd(SHOWN_VIEW, obsolete=it) for it in ("left out", None, 0, []))]


def watched(counts=COUNTS, view=SHOWN_VIEW, status=200):
    """An office whose counts and views of messages are these."""

    def of(_, path):
        if "/export/" in path:
            return 200, EXPORT.encode()
        return (status, body(counts)) if "/stats/" in path else (200, body(view))

    return of


def watching(place, port, *words):
    return ["office-snapshot", "--url", f"http://{HOST}:{port}", "--to", place / "page", *words]


def odd_counts(place):
    """Odd bodies in the place of what office-snapshot reads, and files that are none in the place of the page's."""
    with server(watched()) as port:
        same("snapshot of an office", run(*watching(place, port, "--once", "de"))[:3], (0, b"", b""))
        found = json.loads((place / "page" / "snapshot" / "de.json").read_text())
        same("snapshot of an office: its messages", [it["id"] for it in found["units"]], ["Hello", "Hello!"])
        for it in (*no_files(place), place / "deep"):
            (place / "deep").write_bytes(DEEP)
            one_fault(f"snapshot by {it.name}", *watching(place, port, "--once", "--project", it), within=10, says=str(it))
    for n, counts in enumerate(ODD_COUNTS):
        with server(watched(counts)) as port:
            one_fault(f"snapshot: odd counts {n}, {str(counts)[:60]}", *watching(place, port, "--once", "de"), says="no language's counts")
    for n, view in enumerate(ODD_SHOWN):
        with server(watched(view=view)) as port:
            one_fault(f"snapshot: odd view {n}, {str(view)[:60]}", *watching(place, port, "--once", "de"), says="no view")
    with server(watched({"error": f"a{ALL}"}, status=400)) as port:
        looked_again(place, port)


def looked_again(place, port):
    """What office-snapshot tells while it goes on."""
    words = [str(it) for it in watching(place, port, "--every", "0.1", "de")]
    with subprocess.Popen([TOOLS / words[0], *words[1:]], stdin=subprocess.DEVNULL, stderr=subprocess.PIPE, env={**os.environ, "LC_ALL": "C.UTF-8"}) as it:
        told = [it.stderr.readline() for _ in range(2)]
        it.terminate()
    line = f"office-snapshot: a{ALL_ESCAPED}: answered 400\n".encode()
    same("snapshot: controls of a server, again and again", told, [line, line])


def mistakes(place):
    """Control characters in what Python says of a tool that goes wrong by itself."""
    for where in ("first", "thread"):
        with server(answers()) as port:
            words = [sys.executable, "-c", MISTAKEN, TOOLS, where, *asking(place, port)[0]]
            words[5] = TOOLS / words[5]
            given = {**os.environ, "LC_ALL": "C.UTF-8", "WRONG": f"a{ALL[2:-4]}"}
            done = subprocess.run([str(it) for it in words], capture_output=True, check=False, timeout=SECONDS, env=given)
        told, said = done.stderr.decode(), ALL_ESCAPED[7:-14].replace("\\u000a", "\n")
        same(f"a mistake, {where}", (done.returncode, UNSEEN.search(told), f"ValueError: a{said}\n" in told), (1, None, True))


def printers(_):
    """One function of the tools prints: no other file calls what writes to a terminal, or hands a stream of Python's to anything but it."""
    found = []
    for path in sorted(it for it in TOOLS.rglob("*") if it.is_file() and it.suffix in ("", ".py")):
        tree = ast.parse(path.read_text())
        told = {id(word.value) for call in ast.walk(tree) if isinstance(call, ast.Call) for word in call.keywords if word.arg == "to"}
        for it in ast.walk(tree):
            is_print = isinstance(it, ast.Name) and it.id == "print"
            is_stream = isinstance(it, ast.Attribute) and it.attr in ("stdout", "stderr", "__stdout__", "__stderr__") and ast.unparse(it.value) == "sys"
            if is_print or is_stream and id(it) not in told:
                found.append((str(path.relative_to(TOOLS)), ast.unparse(it)))
    same("what prints", sorted(set(found)), sorted(PRINTERS))


# The function itself; that its streams take any text, and none is written to that nobody reads; and an answer over HTTP, of a socket of systemd's.
PRINTERS = [
    *(("office_tools/lines.py", it) for it in ("print", "sys.stdout")),
    *(("office_tools/__init__.py", it) for it in ("sys.stdout", "sys.stderr")),
    ("office-hook", "sys.stdout"),
]


# ---- servers by hand


@contextlib.contextmanager
def talker(talk):
    """The port of a server that does this with each connection, behind a request's head."""
    listener = socket.create_server((HOST, 0))
    ended = threading.Event()

    def each():
        while not ended.is_set():
            with contextlib.suppress(OSError):
                connection, _ = listener.accept()
                threading.Thread(target=one, args=[connection], daemon=True).start()

    def one(connection):
        with connection, contextlib.suppress(OSError):
            connection.recv(65536)
            talk(connection, ended)

    threading.Thread(target=each, daemon=True).start()
    try:
        yield listener.getsockname()[1]
    finally:
        ended.set()
        listener.close()


def forever(first, piece, pause=0.0):
    """Says this first, and then a piece again and again."""

    def talk(connection, ended):
        connection.sendall(first)
        while not ended.is_set():
            connection.sendall(piece)
            time.sleep(pause)

    return talk


OK = b"HTTP/1.1 200 OK\r\n"
SLOW = {
    "a head that drips": forever(OK + b"X-A: ", b"a", 0.1),
    "heads without an end": forever(b"", b"HTTP/1.1 100 Continue\r\n\r\n", 0.01),
    "a body that drips": forever(OK + b"Content-Length: 100000\r\n\r\n", b"a", 0.1),
    "a body that drips to its end of connection": forever(OK + b"Connection: close\r\n\r\n", b"a", 0.1),
    "chunks that drip": forever(OK + b"Transfer-Encoding: chunked\r\n\r\n", b"1\r\na\r\n", 0.1),
    "trailers without an end": forever(OK + b"Transfer-Encoding: chunked\r\n\r\n0\r\n", b"X-A: a\r\n", 0.01),
    "a body that is cut short": lambda connection, _: connection.sendall(OK + b"Content-Length: 100000\r\n\r\n" + EXPORT.encode()),
    "a chunk that is cut short": lambda connection, _: connection.sendall(OK + b"Transfer-Encoding: chunked\r\n\r\nffff\r\n" + EXPORT.encode()),
    "silence at once": lambda *_: None,
    "a status that is none": lambda connection, _: connection.sendall(b"HTTP/1.1 abc\r\n\r\n"),
    "a head of more lines than there may be": lambda connection, _: connection.sendall(OK + b"X-A: a\r\n" * 1000 + b"\r\n"),
}
LONG = {
    "a body without an end": forever(OK + b"Connection: close\r\n\r\n", b"a" * 65536),
    "chunks without an end": forever(OK + b"Transfer-Encoding: chunked\r\n\r\n", b"ffff\r\n" + b"a" * 65535 + b"\r\n"),
    "a body of a length that nobody has": forever(OK + b"Content-Length: 99999999999999\r\n\r\n", b"a" * 65536),
}


def endless(place):
    """Answers that come too slowly, or too much of them: no answer, or a fault, in a bounded time."""
    for said, wanted in ((SLOW, "no answer, 2 times"), (LONG, "its answer is longer than 200,000 bytes")):
        for name, talk in said.items():
            with talker(talk) as port:
                one_fault(name, *asking(place, port)[0], patched=True, within=12, says=wanted)


# ---- files


def no_files(place):
    """A pipe, a device, a socket, a folder and a link to nothing, each by a name of its own."""
    os.mkfifo(place / "pipe")
    (place / "device").symlink_to("/dev/zero")
    (place / "folder").mkdir()
    (place / "nothing").symlink_to(place / "nowhere")
    with socket.socket(socket.AF_UNIX) as it:
        it.bind(str(place / "socket"))
    return [place / it for it in ("pipe", "device", "folder", "nothing", "socket")]


def odd_places(place):
    """What is no regular file, in the place of each file that a tool reads."""
    (place / "export.po").write_text(EXPORT)
    (place / "x.pot").write_text(HEADER + '\nmsgid "Hello"\nmsgstr ""\n')
    long = place / "long"
    long.write_bytes(b"#" * 200_001)
    with server(answers()) as port:
        at = ["--url", f"http://{HOST}:{port}", "--caller", "ann"]
        for it in [*no_files(place), long]:
            one_fault(f"memory from {it.name}", "office-memory", *at, "--compendium", it, "de", within=10, patched=True, says=str(it))
            one_fault(f"upload of {it.name}", "office-upload", *at, "de", place / "export.po", it, within=10, patched=True, says=str(it))
            one_fault(f"upload behind {it.name}", "office-upload", *at, "de", it, place / "export.po", within=10, patched=True, says=str(it))
            words = ["--revisions", it, "--caller", "ann", "de", place / "export.po", place / "export.po"]
            one_fault(f"upload by {it.name}", "office-upload", *words, within=10, patched=True, says=str(it))
            one_fault(f"import of {it.name}", "office-import", "--template", it, place, within=10, patched=True, says=str(it))
            if it.name not in ("long", "nothing"):
                words = [*at, "--requests", it, "de", place / "export.po", place / "export.po"]
                one_fault(f"upload with {it.name}", "office-upload", *words, within=10, says=str(it))
                one_fault(f"log of {it.name}", "office-log", it, within=10, says=f"{it}: no regular file")
    for it in place.iterdir():
        if it.name not in ("export.po", "x.pot", "folder", "long"):
            status, out, faults, took = imported_beside(place, it)
            same(f"import beside {it.name}", (status, out, b"de: not loaded: " in faults, is_clean(faults), took < seconds(10)), (1, b"", True, True, True))


def imported_beside(place, it):
    """What an import does with a folder in which a language is this."""
    folder = pathlib.Path(tempfile.mkdtemp(dir=place))
    (folder / "x.pot").write_bytes((place / "x.pot").read_bytes())
    (folder / "de.po").symlink_to(it)
    program = folder / "office"
    program.write_text('#!/bin/sh\nsed "s/.*/200 {}/"\n')
    program.chmod(0o755)
    return run("office-import", "--office", program, folder, folder / "requests")


def named_files(place):
    """Control characters in names of files, in what gettext says of a text, and in what a program says."""
    controls = [it for it in CONTROLS if it]
    (place / "x.pot").write_text(HEADER + '\nmsgid "Hello"\nmsgstr ""\n')
    for it in controls:
        (place / f"d{chr(it)}e.po").write_text(EXPORT)
    (place / "fr.po").write_text(HEADER + f'\nmsgid "Hello"\nmsgstr "{ALL[:-4]}"x\n')
    program = place / "office"
    program.write_text('#!/bin/sh\nsed "s/.*/200 {}/"\n')
    program.chmod(0o755)
    status, out, faults, _ = run("office-import", "--office", program, place, place / "requests")
    same("import of names with controls", (status, out, is_clean(faults)), (1, b"", True))
    lines = faults.decode().split("\n")
    wanted = [f"office-import: d\\u{it:04x}e: not loaded: its name is no language's code" for it in controls]
    same("import of names with controls: what is told", [one for one in wanted if one not in lines], [])
    # (the white at both ends of what a program says is left out)
    program.write_text("#!/bin/sh\nprintf '%s' '" + ALL[2:-4] + "' >&2\nexit 3\n")
    status, out, faults, _ = run("office-import", "--office", program, place)
    told = f"office-import: {program} ended with status 3: {ALL_ESCAPED[7:-14]}"
    same("import by a program with controls", (status, out, told in faults.decode().split("\n")), (1, b"", True))


# ---- databases

CREATE = "CREATE TABLE record (number TEXT NOT NULL PRIMARY KEY, content TEXT NOT NULL, status INTEGER NOT NULL, body TEXT NOT NULL) STRICT"
TEAM = {"act": "team", "caller": "root", "name": "ann", "role": "translator"}


def database(place, *statements, rows=()):
    """A file of these tables, and these rows of `record`."""
    handle, path = tempfile.mkstemp(dir=place, suffix=".db")
    os.close(handle)
    with contextlib.closing(sqlite3.connect(path)) as db:
        for it in statements:
            db.execute(it)
        for it in rows:
            db.execute("INSERT INTO record VALUES (?, ?, ?, ?)", it)
        db.commit()
    return path


def row(n, content, status=200, reply="{}"):
    return number(n), content if isinstance(content, (str, bytes)) else json.dumps(content), status, reply if isinstance(reply, str) else json.dumps(reply)


ENDLESS = "WITH RECURSIVE n(i) AS (SELECT 1 UNION ALL SELECT i FROM n)"
SCHEMAS = {
    "a view": ["CREATE VIEW record AS SELECT 1 AS rowid, '' AS number, '{}' AS content, 200 AS status, '{}' AS body"],
    "a view without an end": [f"CREATE VIEW record AS {ENDLESS} SELECT i AS rowid, '' AS number, '{{}}' AS content, 200 AS status, '{{}}' AS body FROM n"],
    "a view of itself": ["CREATE VIEW a AS SELECT * FROM record", "CREATE VIEW record AS SELECT * FROM a"],
    "a table that seems to be the schema's": [
        "CREATE TABLE pragma_table_list (schema, name, type, wr)",
        "INSERT INTO pragma_table_list VALUES ('main', 'record', 'table', 0)",
        "CREATE VIEW record AS SELECT 1 AS rowid, '' AS number, '{}' AS content, 200 AS status, '{}' AS body",
    ],
    "a column that is computed": ["CREATE TABLE record (number TEXT, content TEXT AS (zeroblob(100000000)), status INTEGER, body TEXT)"],
    "a virtual table": ["CREATE VIRTUAL TABLE record USING fts5(number, content, status, body)"],
    "a table without places": ["CREATE TABLE record (number TEXT PRIMARY KEY, content, status, body) WITHOUT ROWID"],
    "a table of other columns": ["CREATE TABLE record (x)"],
    "nothing": ["CREATE TABLE other (x)"],
}
ODD_ROWS = {
    "deep": row(1, DEEP.decode()),
    "a deep object": row(1, DEEP_OBJECT.decode()),
    "of a list": row(1, "[]"),
    "of an act that is none": row(1, {**TEAM, "act": ["team"]}),
    "of an act of a number": row(1, {**TEAM, "act": 1}),
    "of a caller that is none": row(1, {**TEAM, "caller": None}),
    "of a domain that is a list": row(1, {"act": "language", "caller": "root", "lang": "de", "domain": []}),
    "of a role that is none": row(1, {**TEAM, "role": {}}),
    "of a text that is none": row(1, {"act": "template", "caller": "root", "po": 1}),
    "of half a pair": row(1, '{"act":"template","caller":"root","po":"\\ud800"}'),
    "of a number of letters": ("x" * 14 + "7" + "x" * 21, json.dumps(TEAM), 200, "{}"),
    "of a policy of nothing": row(1, {"act": "policy", "caller": "root"}),
}


ODD_CREDITS = {
    "a language without a name": row(1, {"act": "language", "caller": "root"}),
    "a language whose name is a list": row(1, {"act": "language", "caller": "root", "lang": []}),
    "a template without a text": row(1, {"act": "template", "caller": "root"}),
    "a template of half a pair": row(1, '{"act":"template","caller":"root","po":"\\ud800"}'),
    "a vote on a list": row(1, {"act": "vote", "caller": "ann", "lang": "de", "suggestion": []}, reply={"accepted": True}),
    "a number that is a word": ("word", json.dumps(TEAM), 200, "{}"),
    "a domain that is a list": row(1, {"act": "language", "caller": "root", "lang": "de", "domain": []}),
}


def readers(place):
    """The tools that read a file's records and have a program open it, with words for a program that opens none."""
    return [["office-check", "--office", "/bin/false", "--tool", "msgfmt"], ["office-export", "--office", "/bin/false", place / "out"]]


def databases(place):
    """Files that are no office's, or have odd rows: a fault in one line."""
    for name, statements in SCHEMAS.items():
        path = database(place, *statements)
        one_fault(f"log of {name}", "office-log", path, within=10, says="no office's file")
        for tool, *words in readers(place):
            one_fault(f"{tool} of {name}", tool, "--store", path, *words, within=10, says="no office's file")
    for name, it in ODD_ROWS.items():
        path = database(place, CREATE, rows=[it])
        one_fault(f"log of a record {name}", "office-log", path, within=10, says="is no office's")
        for tool, *words in readers(place):
            one_fault(f"{tool} of a record {name}", tool, "--store", path, *words, within=10)
    for name, it in ODD_CREDITS.items():
        for tool, *words in readers(place):
            one_fault(f"{tool} of {name}", tool, "--store", database(place, CREATE, rows=[it]), *words, within=10)
    repeated(place)
    far = "ffffffff-ffff-7fff-bfff-ffffffffffff"
    status, out, faults, _ = run("office-log", database(place, CREATE, rows=[(far, json.dumps(TEAM), 200, "{}")]))
    same("log of a number of the year 10889", (status, out, faults), (0, b"-\troot\tteam\t-\tann\ttranslator\tdone\n", b""))


def repeated(place):
    """A table that shows its rows again, as a tree does that has a branch twice."""
    path = pathlib.Path(database(place, CREATE, rows=[row(n, {**TEAM, "name": "x" * 3000}) for n in range(1, 9)]))
    data = bytearray(path.read_bytes())
    with contextlib.closing(sqlite3.connect(path)) as db:
        size, root = db.execute("PRAGMA page_size").fetchone()[0], db.execute("SELECT rootpage FROM sqlite_schema WHERE name = 'record'").fetchone()[0]
    page = (root - 1) * size
    same("the table has branches", data[page], 5)
    # Each branch is where the two bytes of its cell's place say, as SQLite's description of its files has it; the second becomes the first.
    cells = [page + int.from_bytes(data[page + 12 + 2 * n : page + 14 + 2 * n], "big") for n in range(2)]
    data[cells[1] : cells[1] + 4] = data[cells[0] : cells[0] + 4]
    path.write_bytes(data)
    one_fault("log of a tree with a branch twice", "office-log", path, within=10, says="damaged")


def fields_of(text):
    """Acts with this text in each field that is printed, and the replies to them."""
    unit = {"caller": "ann", "lang": "de", "id": "Hello", "seen": 1}
    whole = {"act": f"a{text}", "caller": f"b{text}", "domain": f"p{text}", "lang": f"c{text}", "id": f"d{text}", "ctx": f"e{text}"}
    return [
        ({**whole, "forms": [f"f{text}"], "lines": [f"g{text}"], "value": f"h{text}", "role": f"i{text}", "suggestion": f"j{text}"}, {"refusal": f"k{text}"}),
        ({**unit, "act": "team", "name": f"l{text}"}, {"error": f"m{text}"}),
        ({"caller": "root", "act": "policy", **dict.fromkeys(("accept_at", "guests_suggest", "line_ends", "placeholders", "reviews", "voting"), f"n{text}")}, {}),
        ({"caller": "root", "act": "team", "name": f"o{text}"}, {}),
    ]


def controls_recorded(place):
    """Each control character in each field of a record that is printed: escaped in lines of seven columns, and whole in JSON."""
    acts = [act for it in ESCAPED for act in fields_of(chr(it))]
    path = database(place, CREATE, rows=[row(n, content, 409 if reply else 200, reply) for n, (content, reply) in enumerate(acts, 1)])
    status, out, faults, _ = run("office-log", path)
    lines = out.decode().split("\n")[:-1]
    same("log of controls", (status, faults, is_clean(out), [line.count("\t") for line in lines]), (0, b"", True, [6] * len(acts)))
    for it, line in zip(ESCAPED, lines[::4]):
        escape = f"\\u{it:04x}"
        short = {8: "\\b", 9: "\\t", 10: "\\n", 12: "\\f", 13: "\\r"}.get(it, escape)
        shown = {one for one in "abcijkp" if f"{one}{escape}" in line} | {one for one in "defgh" if f"{one}{short}" in line}
        same(f"log of U+{it:04X}: shown", shown, set("abcdefghijkp"))
    status, out, faults, _ = run("office-log", "--json", path)
    found = [json.loads(line) for line in out.decode().split("\n")[:-1]]
    same("log --json of controls", (status, is_clean(out), [(one["content"], one["body"]) for one in found]), (0, True, acts))


def main():
    for part in (odd_bodies, controls_served, controls_exported, endless, odd_places, named_files, databases, controls_recorded, odd_counts, mistakes, printers):
        with tempfile.TemporaryDirectory(prefix="office-hostile-") as name:
            part(pathlib.Path(name))
    return looks.told()


if __name__ == "__main__":
    sys.exit(main())
