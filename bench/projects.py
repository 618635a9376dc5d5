#!/usr/bin/env python3
"""Measures what many projects on one host take: an office in a file for each, started when it is asked for.

Makes offices of three sizes by requests: messages, languages in which every message is translated, and acts, translations one after another.
For each size prints the file's length; how long it takes from starting the program to its first answer, the best and the median of several
times; what memory the program has then, its own (not shared with other processes) and at most, and at most behind an export
of a language and a translation. Then starts many offices of the first size at once, and prints what all have together; and, where they
are installed, what a door has, systemd-socket-proxyd and HAProxy, each behind a first connection.

Usage: bench/projects.py [FOLDER [COUNT [PROGRAM]]]      (the files are made in FOLDER, which should lie on a disk; 50 offices at once;
crates/cli/out/cli, as ./office has built it)
"""
import contextlib
import json
import pathlib
import shutil
import statistics
import subprocess
import sys
import tempfile
import time
import uuid

import served
from served import HEADER, TOP, asked, kilobytes

import front_servers as servers

FOLDER = sys.argv[1] if len(sys.argv) > 1 else None
COUNT = int(sys.argv[2]) if len(sys.argv) > 2 else 50
PROGRAM = pathlib.Path(sys.argv[3] if len(sys.argv) > 3 else TOP / "crates" / "cli" / "out" / "cli").resolve()
TIMES = 7
# Messages, languages, acts.
SIZES = {"small": (100, 3, 1_000), "middle": (1_000, 10, 10_000), "large": (5_000, 30, 100_000)}


def po(messages, form):
    return "".join(f'#: source.c:{it}\nmsgid "message {it} of a program"\nmsgstr "{form.format(it)}"\n\n' for it in range(messages))


def requests(messages, languages, acts):
    yield {"act": "template", "po": po(messages, "")}
    for at in range(languages):
        yield {"act": "language", "lang": f"l{at}", "po": HEADER + "\n" + po(messages, "Meldung {} eines Programms")}
    for n in range(acts):
        message, turn = n % messages, n // messages
        act = {"act": "translate", "id": f"message {message} of a program", "lang": "l0", "seen": turn + 1}
        yield {**act, "forms": [f"Meldung {message} in der {turn}. Fassung"]}


def number(n):
    """Numbers that rise with the time, as those of uuid version 7 do."""
    return str(uuid.UUID(int=(n + 1) << 80 | 7 << 76 | 2 << 62))


def made(path, messages, languages, acts):
    subprocess.run([PROGRAM, "init", "--store", path, "--manager", "root"], check=True, stdout=subprocess.DEVNULL)
    with subprocess.Popen([PROGRAM, "deliver", "--store", path], stdin=subprocess.PIPE, stdout=subprocess.PIPE, text=True) as process:
        for n, it in enumerate(requests(messages, languages, acts)):
            process.stdin.write(json.dumps({**it, "caller": "root", "number": number(n)}) + "\n")
            process.stdin.flush()
            reply = process.stdout.readline()
            if not reply.startswith("200 "):
                raise SystemExit(f"{it['act']}: {reply}")
        process.stdin.close()


def memory(process):
    """What a process has in memory, what of it is its own, and the most it had; in MB."""
    rollup = dict(it.split(":") for it in pathlib.Path(f"/proc/{process.pid}/smaps_rollup").read_text().splitlines()[1:])
    had = [int(rollup[it].split()[0]) for it in ("Rss", "Private_Clean", "Private_Dirty")]
    return [it / 1000 for it in (had[0], had[1] + had[2], kilobytes(process, "VmHWM"))]


def serving(path):
    """The process, its port, and the seconds from its start to its first answer."""
    return served.served(PROGRAM, path, "/v1/stats/l0")


def measured(path, name, messages, languages, acts):
    made(path, messages, languages, acts)
    seconds = []
    for turn in range(1, TIMES + 1):
        with serving(path) as (process, port, it):
            seconds.append(it)
            had, own, most = memory(process)
            translation = {"act": "translate", "id": "message 0 of a program", "lang": "l1", "seen": turn, "forms": [f"Neu {turn}"]}
            asked(port, "GET", "/v1/export/l0")
            asked(port, "POST", f"/v1/requests/{uuid.uuid4()}", translation)
            later = memory(process)[2]
    size = sum(it.stat().st_size for it in path.parent.glob(path.name + "*")) / 1e6
    print(
        f"{name}: {messages} messages, {languages} languages, {acts} acts: {size:.1f} MB; opened in {min(seconds):.3f} s (median"
        f" {statistics.median(seconds):.3f} s); {had:.1f} MB, {own:.1f} MB of its own, {most:.1f} MB at most,"
        f" and {later:.1f} MB behind an export and an act",
        flush=True,
    )


def many(folder, path):
    """So many offices at once, each a copy."""
    with contextlib.ExitStack() as stack:
        begun, processes = time.monotonic(), []
        for n in range(COUNT):
            copy = folder / f"copy-{n}.db"
            shutil.copy(path, copy)
            processes.append(stack.enter_context(serving(copy))[0])
        seconds = time.monotonic() - begun
        own = sum(memory(it)[1] for it in processes)
        print(f"{COUNT} small offices at once, started one after another, copied before: {seconds:.2f} s; {own:.0f} MB of their own together")


def doors(folder, path):
    for name, make, needs in (("systemd-socket-proxyd", servers.door, "systemd-socket-proxyd"), ("HAProxy", servers.queue, "haproxy")):
        if not servers.program(needs):
            continue
        with serving(path) as (_, port, _), make(folder, folder / f"{needs}.sock", port) as process:
            asks = ["curl", "-s", "-o", "/dev/null", "--retry", "9", "--unix-socket", folder / f"{needs}.sock"]
            subprocess.run([*asks, "http://office/v1/stats/l0"], check=True)
            had, own, _ = memory(process)
        print(f"a door of {name}: {had:.1f} MB, {own:.1f} MB of its own", flush=True)


def main():
    with tempfile.TemporaryDirectory(dir=FOLDER, prefix="office-projects-") as name:
        folder = pathlib.Path(name)
        for size, (messages, languages, acts) in SIZES.items():
            measured(folder / f"{size}.db", size, messages, languages, acts)
        many(folder, folder / "small.db")
        doors(folder, folder / "small.db")


if __name__ == "__main__":
    main()
