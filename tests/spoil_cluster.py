#!/usr/bin/python3
"""Plants a wrong feed or a wrong door in a copy of the tools, one at a time: cluster.py, doubts.py or heard.py has to tell it.

    tests/spoil_cluster.py [--engine rabbitmq] [--program FILE] [WORD..]

Only spoils whose name has one of the words are tried, where there are some. The log is NATS's where none is named, since its nodes start sooner; what is
spoilt isn't the log. A line for each, and last `N looks, M wrong`: wrong is a spoil that isn't told, and tools as they are that are.
"""
import argparse
import pathlib
import shutil
import subprocess
import sys
import tempfile

from log_nodes import PYTHON, TOOLS, TOP, add_words

FEW = ["cluster.py", "--quiet", "--projects", "2", "--clients", "6", "--acts", "90", "--seconds", "6"]
REPLICA, OFFICES, ASKED, HINTS = (f"office_streams/{it}.py" for it in ("replica", "offices", "asked", "hints"))


def doubts(*parts):
    return ["doubts.py", *parts]


# A name, the file, the words that stand there, those in their place, and what has to tell.
SPOILS = (
    (
        "a feed that skips a message",
        REPLICA,
        "or not self.is_old(message):", "or not self.is_old(message):\n                  if message.offset % 30 != 25:",
        FEW,
    ),
    (
        "a feed that skips what was lost",
        REPLICA,
        "messages, turn = messages[done:], 1 if done", "messages, turn = messages[done + 1:], 1 if done",
        doubts("no_memory"),
    ),
    ("a feed that hands two at once", OFFICES, "self.window = WINDOW if many else 1", "self.window = WINDOW if many else 2", doubts("no_memory")),
    ("a feed that lets an office go on behind a lost line", OFFICES, '(["--stop-at-lost"] if many else [])', "[]", doubts("no_memory")),
    (
        "a feed that exchanges two",
        REPLICA,
        "found.append(message)\n", "found.insert(max(0, len(found) - (message.offset % 9 == 8)), message)\n",
        doubts("no_memory"),
    ),
    ("a feed that answers by itself", REPLICA, "self.reader.answer(message, status, body,", "self.reader.answer(message, 200, b'{}',", FEW),
    (
        "a feed that believes each hint",
        HINTS,
        ".fetchone()[0] == 1:\n            self.offset", ".fetchone()[0] <= 1:\n            self.offset",
        doubts("older_file"),
    ),
    ("a feed that compares nothing", REPLICA, "other = is_again and", "other = False and", doubts("another_log", "lost_end")),
    ("a feed that takes a caller of the body", OFFICES, 'or "number" in keys or "caller" in keys', "", doubts("lines")),
    ("a feed that has one program for all rules", REPLICA, "self.rules = self.hint.rules = rules", "self.hint.rules = rules", doubts("rules")),
    (
        "a feed that answers no question without the log",
        REPLICA,
        "if has_log else self.was_late", "if has_log else True",
        doubts("power"),
    ),
    (
        "a feed that is late for good where it loses the log",
        REPLICA,
        "self.was_late = self.is_behind and", "self.was_late = bool(self.waiting) or self.is_behind and",
        ["heard.py"],
    ),
    (
        "a feed that answers questions though it dropped what it heard",
        REPLICA,
        "self.was_late = self.was_late or bool(self.waiting)", "pass",
        ["heard.py"],
    ),
    ("a feed that isn't held", REPLICA, "            self.stop()\n            hold.rename", "            hold.rename", doubts("held")),
    (
        "a door that answers on a confirm",
        ASKED,
        'self.counts["confirmed"] += 1', 'self.counts["confirmed"] += 1\n            asked.settle(200, b"{}")',
        FEW,
    ),
    ("a door that compares nothing", ASKED, "if had != reply:", "if False:", doubts("disagreement")),
    ("a door that waits for ever", "office-door", "asked.done.wait(self.door.given.wait)", "asked.done.wait(60)", doubts("late")),
    ("a door that lets two callers in", "office-door", "len(callers) != 1 or", "not callers or", doubts("messages")),
    (
        "a door that takes any head",
        "office_streams/heads.py",
        "or not all(found) or MOST_LINES < len(found)", "or not all(found)",
        doubts("messages"),
    ),
)
# Of the engine's own module.
SPOILS_OF = {
    "rabbitmq": (
        (
            "a feed whose project costs others their connection",
            "office_streams/rabbitmq.py",
            "channel._impl.close()", "channel.close()",
            doubts("apart"),
        ),
        (
            "a door that takes a node's word that there is no stream",
            "office_streams/rabbitmq.py",
            "self.connection.ioloop.call_later(AGAIN, lambda: self.publish(asked))", "asked.settle(404, b'{\"error\":\"no-project\"}')",
            doubts("late"),
        ),
    ),
    "nats": (
        (
            "a door that takes a node's word that there is no stream",
            "office_streams/nats.py",
            "self.again.append((time.monotonic() + AGAIN, asked))", "asked.settle(404, b'{\"error\":\"no-project\"}')",
            doubts("late"),
        ),
    ),
}


def tried(given, test, tools):
    where = ["--base", str(given.base), "--port", str(given.port)]
    words = [PYTHON, str(TOP / "tests" / test[0]), "--engine", given.engine, "--program", given.program, "--tools", str(tools), *where, *test[1:]]
    done = subprocess.run(words, capture_output=True, text=True, timeout=1800, check=False)
    lines = done.stdout.strip().splitlines()
    told = next((it for it in lines if "WRONG" in it), "")
    return done.returncode, told[:160], (lines or [done.stderr[-300:]])[-1]


def spoilt(folder, file, old, new):
    """A copy of the tools with other words in this place."""
    shutil.copytree(TOOLS, folder, ignore=shutil.ignore_patterns("__pycache__"))
    path = folder / file
    text = path.read_text()
    if text.count(old) != 1:
        raise SystemExit(f"{file} has {text.count(old)} times {old!r}")
    path.write_text(text.replace(old, new))


def main():
    parser = argparse.ArgumentParser(description=__doc__.split("\n")[0])
    parser.add_argument("--engine", default="nats")
    parser.add_argument("--program", default=str(TOP / "crates" / "cli" / "out" / "cli"))
    add_words(parser)
    parser.add_argument("words", nargs="*", metavar="WORD")
    given = parser.parse_args()
    chosen = [it for it in SPOILS + SPOILS_OF.get(given.engine, ()) if not given.words or any(word in it[0] for word in given.words)]
    looks = wrong = 0
    sound = []
    for name, file, old, new, test in chosen:
        with tempfile.TemporaryDirectory() as folder:
            spoilt(pathlib.Path(folder) / "tools", file, old, new)
            status, told, last = tried(given, test, pathlib.Path(folder) / "tools")
        looks += 1
        wrong += status != 1 or not told
        print(f"{'told ' if status == 1 and told else 'WRONG'} {name}: {told or last}", flush=True)
        if test not in sound:
            sound.append(test)
    for test in sound:
        status, told, last = tried(given, test, TOOLS)
        looks += 1
        wrong += status != 0
        print(f"{'good ' if status == 0 else 'WRONG'} the tools as they are, {' '.join(test)}: {told or last}", flush=True)
    print(f"{looks} looks, {wrong} wrong")
    return min(wrong, 1)


if __name__ == "__main__":
    sys.exit(main())
