#!/usr/bin/env python3
"""Measures `office serve` on one kept connection beside `office deliver --store`.

Posts: translations of one unit, each decided, recorded and committed in a file, sent one by one, each answer awaited, and all at once; and the same
requests as lines to `office deliver --store`, one by one and all at once too. Then questions for the language's counts and for the unit, one by one on
one connection. Each on a new file, the best of several rounds in turn. Prints how many there were a second, the opening of the file left out; what the
program used of a processor for each, its opening included; and how many posts for each line. The disk decides how long an act takes, and the
processor's time is the steadier measure where others use the disk too; in FOLDER /dev/shm there is no disk.

Usage: bench/serve.py [FOLDER [REQUESTS [ROUNDS [PROGRAM]]]]      (the files are made in FOLDER, which should lie on a disk; crates/cli/out/cli, as
./office has built it)
"""
import json
import os
import pathlib
import subprocess
import sys
import tempfile
import threading
import time

from served import HEADER, TOP, answered, made, number, processor, talking

FOLDER = sys.argv[1] if len(sys.argv) > 1 else None
COUNT = int(sys.argv[2]) if len(sys.argv) > 2 else 2_000
ROUNDS = int(sys.argv[3]) if len(sys.argv) > 3 else 15
PROGRAM = pathlib.Path(sys.argv[4] if len(sys.argv) > 4 else TOP / "crates" / "cli" / "out" / "cli").resolve()


def act(n):
    return {"act": "translate", "forms": ["Hallo %d" % n], "id": "Hello", "lang": "de", "seen": n}


LINES = [json.dumps({**act(n), "caller": "ann", "number": number(n)}).encode() + b"\n" for n in range(1, COUNT + 1)]


def message(n):
    body = json.dumps(act(n))
    return (
        "POST /v1/requests/%s HTTP/1.1\r\nHost: 127.0.0.1\r\nX-Office-Caller: ann\r\nContent-Length: %d\r\n\r\n%s" % (number(n), len(body), body)
    ).encode()


def office(path):
    acts = [
        {"act": "template", "po": 'msgid "Hello"\nmsgstr ""\n'},
        {"act": "language", "lang": "de", "po": HEADER},
        {"act": "team", "name": "ann", "role": "translator"},
    ]
    made(PROGRAM, path, acts, first=1 << 31)


def timed(pieces, write, read):
    """The seconds until each piece is written and has its answer: one by one, or all at once where they are one."""
    start = time.monotonic()
    if isinstance(pieces, bytes):
        # Beside the reading, since neither side could go on where both wrote more than the other takes.
        threading.Thread(target=write, args=(pieces,)).start()
        for _ in range(COUNT):
            read()
    else:
        for it in pieces:
            write(it)
            read()
    return time.monotonic() - start


def talked(path, pieces):
    """The seconds of messages on one connection, behind one that opens the office's pages, and those of processor."""
    used = []
    with talking(PROGRAM, path, used) as (_, client), client.makefile("rb") as reader:
        client.sendall(b"GET /v1/stats/de HTTP/1.1\r\n\r\n")
        answered(reader)
        seconds = timed(pieces, client.sendall, lambda: answered(reader))
    return seconds, used[0]


MESSAGES = [message(n) for n in range(1, COUNT + 1)]


def counts(path):
    return talked(path, [b"GET /v1/stats/de HTTP/1.1\r\nHost: 127.0.0.1\r\n\r\n"] * COUNT)


def views(path):
    return talked(path, [b"GET /v1/unit?lang=de&id=Hello HTTP/1.1\r\nHost: 127.0.0.1\r\n\r\n"] * COUNT)


def delivered(path, pieces):
    """The seconds of lines, behind one that is refused, which shows that the office is open, and those of processor."""
    with subprocess.Popen([PROGRAM, "deliver", "--store", path], stdin=subprocess.PIPE, stdout=subprocess.PIPE) as process:

        def write(piece):
            process.stdin.write(piece)
            process.stdin.flush()

        def read():
            reply = process.stdout.readline()
            if not reply.startswith(b"200 "):
                raise SystemExit("deliver answered %r" % reply)

        write(b"\n")
        process.stdout.readline()
        seconds = timed(pieces, write, read)
        process.stdin.close()
        return seconds, processor(process)


ROWS = [
    ("posts, one by one", lambda path: talked(path, MESSAGES)),
    ("lines to deliver, one by one", lambda path: delivered(path, LINES)),
    ("posts, all at once", lambda path: talked(path, b"".join(MESSAGES))),
    ("lines to deliver, all at once", lambda path: delivered(path, b"".join(LINES))),
    ("questions for counts", counts),
    ("questions for a unit", views),
]


def main():
    best, used = [float("inf")] * len(ROWS), [float("inf")] * len(ROWS)
    for _ in range(ROUNDS):
        with tempfile.TemporaryDirectory(dir=FOLDER) as place:
            for at, (_, work) in enumerate(ROWS):
                path = os.path.join(place, "%d.db" % at)
                office(path)
                seconds, processor_seconds = work(path)
                best[at], used[at] = min(best[at], seconds), min(used[at], processor_seconds)
    print("%d requests, the best of %d rounds" % (COUNT, ROUNDS))
    for (name, _), seconds, of_processor in zip(ROWS, best, used):
        each = (name, COUNT / seconds, seconds / COUNT * 1e6, of_processor / COUNT * 1e6)
        print("%-32s %9.0f a second %9.1f microseconds %9.1f of processor" % each)
    print("posts for each line: %.2f one by one, %.2f all at once" % (best[1] / best[0], best[3] / best[2]))


if __name__ == "__main__":
    main()
