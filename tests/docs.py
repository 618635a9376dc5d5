#!/usr/bin/env python3
"""Runs the commands of README and of the guide as they stand on the page, and compares what they print.

    tests/docs.py [--program FILE] [--slow] [--write] [PAGE..]

A block that begins with ```sh is run by bash; all of a page are run by one shell, in their order, so what one defines the next
ones have. The next block of the page, where it begins with ```text, is what the block prints on both outputs; a block without
one has to print nothing. Each has to end with status 0. In a ```text block a line `...` stands for any lines, and `…` within
a line for any characters. What isn't run says so: a ```sh block whose first line begins with `# not run by tests/docs.py`, and
blocks of other kinds. A block whose first line begins with `# slow` is run with --slow only.

The shell stands in a new folder that looks like the top of the repository. `./office` there is the repository's, which builds
the program if need be, or with --program (or the variable OFFICE) this file. With --write the pages get what was printed, in
the place of each ```text block that differs. Pages are README.md and docs/GUIDE.md where none is named.

The last line is 'N blocks as the page says, M not'.
"""
import argparse
import dataclasses
import os
import pathlib
import re
import subprocess
import sys
import tempfile

TOP = pathlib.Path(__file__).resolve().parent.parent
PAGES = ("README.md", "docs/GUIDE.md")
SECONDS = 900
ANY_LINES = "..."
ANY_CHARACTERS = "…"


@dataclasses.dataclass
class Block:
    """A fenced block of a page: its kind, the number of its first line from 0, and its lines."""

    kind: str
    first: int
    lines: list


def blocks_of(text):
    found, block = [], None
    for number, line in enumerate(text.split("\n")):
        if block is None and line.startswith("```"):
            block = Block(line[3:].strip(), number + 1, [])
        elif block is not None and line == "```":
            found.append(block)
            block = None
        elif block is not None:
            block.lines.append(line)
    if block is not None:
        sys.exit(f"the block at line {block.first} has no end")
    return found


def is_run(block, slow):
    head = block.lines[0] if block.lines else ""
    if block.kind != "sh" or head.startswith("# not run by tests/docs.py"):
        return False
    return slow or not head.startswith("# slow")


def sessions(blocks, slow):
    """The blocks that are run, each with the block that says what it prints, or None."""
    followers = blocks[1:] + [Block("", 0, [])]
    return [(it, after if after.kind == "text" else None) for it, after in zip(blocks, followers) if is_run(it, slow)]


def pattern(lines):
    """The texts that these lines of a page stand for."""
    parts = []
    for line in lines:
        if line == ANY_LINES:
            parts.append("(?:[^\n]*\n)*?")
        else:
            parts.append("[^\n]*?".join(re.escape(it) for it in line.split(ANY_CHARACTERS)) + "\n")
    return re.compile("".join(parts))


def fill(folder, program):
    """Makes the folder look like the top of the repository."""
    for it in TOP.iterdir():
        if it.name not in (".git", "office") or it.name == "office" and program is None:
            (folder / it.name).symlink_to(it)
    if program is not None:
        office = folder / "office"
        office.write_text(f'#!/bin/sh\nexec "{program}" "$@"\n')
        office.chmod(0o755)


def run(blocks, program):
    """What each block prints, and the status that it ends with, or None where the shell ended before."""
    with tempfile.TemporaryDirectory(prefix="office-docs-") as place:
        folder, told = pathlib.Path(place) / "top", pathlib.Path(place) / "told"
        folder.mkdir()
        told.mkdir()
        fill(folder, program)
        script = []
        for number, block in enumerate(blocks):
            (told / f"{number}.sh").write_text("\n".join(block.lines) + "\n")
            script.append(f'. "{told}/{number}.sh" > "{told}/{number}.out" 2>&1; echo $? > "{told}/{number}.status"\n')
        environment = {**os.environ, "LC_ALL": "C.UTF-8"}
        subprocess.run(
            ["bash", "-c", "".join(script)], cwd=folder, env=environment, stdin=subprocess.DEVNULL, timeout=SECONDS, check=False
        )
        results = []
        for number in range(len(blocks)):
            status = told / f"{number}.status"
            out = told / f"{number}.out"
            results.append(
                (
                    out.read_text(errors="backslashreplace") if out.exists() else "",
                    int(status.read_text()) if status.exists() else None,
                )
            )
        return results


def judge(block, wanted, printed, status):
    """What is wrong with a block, or None."""
    if status is None:
        return "was not run to its end"
    if status:
        return f"ended with status {status}"
    if wanted is None:
        return "prints what the page doesn't show" if printed else None
    if not pattern(wanted.lines).fullmatch(printed):
        return "prints something else"
    return None


def check(page, program, slow, write):
    """How many blocks are as the page says, and how many not."""
    text = page.read_text()
    ran = sessions(blocks_of(text), slow)
    results = run([it for it, _ in ran], program)
    good, lines = 0, text.split("\n")
    # From the last to the first, so that the numbers of the lines before stay.
    for (block, wanted), (printed, status) in reversed(list(zip(ran, results))):
        wrong = judge(block, wanted, printed, status)
        good += wrong is None
        if wrong is None:
            continue
        print(f"{page.relative_to(TOP)}: line {block.first + 1}: {wrong}\n{printed}", end="" if printed else "\n")
        if write and wanted is not None:
            end = wanted.first + len(wanted.lines)
            lines[wanted.first : end] = printed.removesuffix("\n").split("\n") if printed else []
    if write:
        page.write_text("\n".join(lines))
    return good, len(ran) - good


def main(words):
    parser = argparse.ArgumentParser(usage=__doc__)
    parser.add_argument("--program", default=os.environ.get("OFFICE"))
    parser.add_argument("--slow", action="store_true")
    parser.add_argument("--write", action="store_true")
    parser.add_argument("pages", nargs="*", default=PAGES)
    given = parser.parse_args(words)
    program = pathlib.Path(given.program).resolve() if given.program else None
    counts = [check(TOP / it, program, given.slow, given.write) for it in given.pages]
    good, bad = (sum(column) for column in zip(*counts))
    print(f"{good} blocks as the page says, {bad} not")
    return 1 if bad or not good else 0


if __name__ == "__main__":
    sys.exit(main(sys.argv[1:]))
