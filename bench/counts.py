#!/usr/bin/env python3
"""Measures questions for a language's counts beside questions for a language that isn't there, in an office of 10 units and in a large one.

Each office is made on a new file: a template, a language whose text translates its messages, and a template of five times as many others, so that a
sixth of the units is obsolete. Its program is asked on one kept connection, behind a translation each time: for the counts, which have to be the
right ones, and for those of a language that isn't there. Prints what a question of each kind takes, its median, and how many times as long counts
take. The status is 1 where that is more than 3 times, or counts are wrong.

Usage: bench/counts.py [PROGRAM [UNITS [QUESTIONS [FOLDER]]]]      (crates/cli/out/cli, as ./office has built it; 60,000; 300; the files are made in
FOLDER, /dev/shm)
"""
import contextlib
import http.client
import json
import pathlib
import socket
import statistics
import subprocess
import sys
import tempfile
import time
import uuid

TOP = pathlib.Path(__file__).resolve().parent.parent
PROGRAM = pathlib.Path(sys.argv[1] if len(sys.argv) > 1 else TOP / "crates" / "cli" / "out" / "cli").resolve()
UNITS = int(sys.argv[2]) if len(sys.argv) > 2 else 60_000
QUESTIONS = int(sys.argv[3]) if len(sys.argv) > 3 else 300
FOLDER = sys.argv[4] if len(sys.argv) > 4 else "/dev/shm"
MOST = 3
HEADER = 'msgid ""\nmsgstr ""\n"Content-Type: text/plain; charset=UTF-8\\n"\n"Plural-Forms: nplurals=2; plural=n != 1;\\n"\n'


def entries(messages, text):
    return "".join(f'\nmsgid "Message {n}"\nmsgstr "{text}"\n' for n in messages)


def office(path, units, obsolete):
    requests = [
        {"act": "template", "po": entries(range(obsolete), "")},
        {"act": "language", "lang": "de", "po": HEADER + entries(range(obsolete), "Text")},
        {"act": "template", "po": entries(range(obsolete, units), "")},
        {"act": "team", "name": "ann", "role": "translator"},
    ]
    lines = "".join(json.dumps({**it, "caller": "root", "number": str(uuid.uuid4())}) + "\n" for it in requests)
    subprocess.run([PROGRAM, "init", "--store", path, "--manager", "root"], check=True, stdout=subprocess.DEVNULL)
    told = subprocess.run([PROGRAM, "deliver", "--store", path], input=lines.encode(), check=True, capture_output=True).stdout.split(b"\n")
    wrong = [it for it in told[:-1] if not it.startswith(b"200 ")]
    if wrong:
        raise SystemExit(f"the office was told {wrong[0][:300]}")


@contextlib.contextmanager
def served(path):
    with socket.socket() as it:
        it.bind(("127.0.0.1", 0))
        port = it.getsockname()[1]
    with subprocess.Popen([PROGRAM, "serve", "--store", path, "--port", str(port), "--connections", "1"]) as process:
        try:
            connection = http.client.HTTPConnection("127.0.0.1", port, timeout=600)
            while process.poll() is None:
                with contextlib.suppress(ConnectionRefusedError):
                    connection.connect()
                    break
                time.sleep(0.05)
            connection.sock.setsockopt(socket.IPPROTO_TCP, socket.TCP_NODELAY, 1)
            yield connection
            connection.close()
        finally:
            process.kill()


def asked(connection, method, path, act=None):
    """The seconds until the answer has come, its status and what it says."""
    start = time.perf_counter()
    connection.request(method, path, json.dumps(act) if act else None, {"X-Office-Caller": "ann"})
    answer = connection.getresponse()
    text = answer.read()
    return time.perf_counter() - start, answer.status, json.loads(text)


def measured(path, units, obsolete):
    """The median seconds of a question for counts, and of one for a language that isn't there."""
    right = dict.fromkeys(("approved", "needs-editing", "read-only", "suggestions"), 0)
    right |= {"obsolete": obsolete, "translated": 1, "untranslated": units - obsolete - 1}
    here, none = [], []
    with served(path) as connection:
        for turn in range(QUESTIONS):
            act = {"act": "translate", "lang": "de", "id": f"Message {obsolete}", "seen": turn + 1, "forms": [f"Text {turn}"]}
            told = asked(connection, "POST", f"/v1/requests/{uuid.uuid4()}", act)
            if told[1] != 200:
                raise SystemExit(f"a translation was answered {told[1:]}")
            for seconds, lang, wanted in ((here, "de", (200, right)), (none, "xx", (404, {"error": "no-language"}))):
                it = asked(connection, "GET", f"/v1/stats/{lang}")
                if it[1:] != wanted:
                    raise SystemExit(f"counts of {lang}: {it[1:]}, not {wanted}")
                seconds.append(it[0])
    return statistics.median(here), statistics.median(none)


def main():
    most = 0
    for units in (10, UNITS):
        with tempfile.TemporaryDirectory(dir=FOLDER) as place:
            path = str(pathlib.Path(place) / "office.db")
            office(path, units, units // 6)
            here, none = measured(path, units, units // 6)
        print(f"{units} units: {1e6 * here:.0f} microseconds, {1e6 * none:.0f} of a language that isn't there: {here / none:.2f} times as long")
        most = max(most, here / none)
    return 1 if most > MOST else 0


if __name__ == "__main__":
    sys.exit(main())
