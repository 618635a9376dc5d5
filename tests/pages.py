#!/usr/bin/env python3
"""Looks whether what the pages cite is in the tree.

    tests/pages.py [PAGE..]     (README, CONTRIBUTING and docs/*.md where none is named)

- a link: its file, and there the heading that it names
- a path: under the top or under crates/, where files of specs and proofs end in .antt and edits in .edit; `{a, b}` stands for both
- a function, in PROMISES and before the name of its crate in README: `fn` in that crate's sources, of a type that has it there
- a definition, in DEFINITIONS: in the file of its row
- an option behind a command of ours, or alone: in the command's source

The last line is 'N citations, M wrong'.
"""
import functools
import pathlib
import re
import sys

TOP = pathlib.Path(__file__).resolve().parent.parent
CRATES = TOP / "crates"
CODE = re.compile(r"`([^`\n]+(?:\n[^`\n]+)?)`")
FENCE = re.compile(r"^```(\w*)\n(.*?)^```$", re.S | re.M)
LINK = re.compile(r"\]\(([^()\s]+)\)")
# Where paths begin that are of this tree. A program's own name is the name of its crate too.
FIRST = {it.name for it in TOP.iterdir() if it.is_dir()} | {it.name for it in CRATES.iterdir()}
# Paths as they are on a host, or where something is installed, and not in the tree.
ELSEWHERE = re.compile(r"office/(?!src|specs|proofs|must-fail|inner-edits)|share/(office|doc)\b")
# Definitions of the toolchain.
KIT = "std/"
# Words in capitals stand for a name.
ANY_NAME = re.compile(r"\b[A-Z]{2,}\b(?![^/]*\.md)")
COMMAND = re.compile(r"(?:^|[\s;|&(])((?:\./)?office|(?:share/tools/)?office-[a-z]+|(?:tests|bench|tools)/[\w/]+(?:\.py)?)(?=\s|$)([^|;&#()]*)")
OPTION = re.compile(r"(?<![\w-])--[a-z][a-z-]*")


def expanded(text):
    """The words that one with {a, b} in it stands for."""
    found = re.search(r"\{([^{}]*)\}", text)
    if not found:
        return [text]
    return [it for part in found[1].split(",") for it in expanded(text[: found.start()] + part.strip() + text[found.end() :])]


def lines_joined(code):
    return re.sub(r"\s+", " ", code)


# ---- what there is


@functools.cache
def read(path):
    return path.read_text(errors="replace") if path.is_file() else ""


def is_there(path):
    """A path of the tree, as pages write it."""
    tried = [base / (path + end) for base in (TOP, CRATES) for end in ("", ".antt", ".edit")]
    return any(it.exists() for it in tried) or any(it for base in (TOP, CRATES) for it in base.glob(path) if "*" in path)


@functools.cache
def sources(crate):
    return "\n".join(read(it) for it in sorted((CRATES / crate / "src").rglob("*.rt")))


def has_function(crate, name):
    """A function of a crate, as pages write it: `f`, `Type::f`, `impl Trait for Type`."""
    text = sources(crate)
    if name.startswith("impl "):
        kind, of = re.fullmatch(r"impl (\w+) for (\w+)", name).groups()
        return bool(re.search(rf"impl\b[^{{;]*\b{kind}\b[^{{;]*\bfor\s+{of}\b", text))
    *of, function = name.split("::")
    kinds = "struct|enum|trait" if function[0].isupper() else "fn"
    if not re.search(rf"\b({kinds}) {function}\b", text):
        return False
    return all(re.search(rf"\b(impl|trait|struct|enum|mod)\b[^{{;]*\b{it}\b", text) for it in of)


@functools.cache
def headings(path):
    """The anchors of a page."""
    lines = re.findall(r"^#+ (.*)$", FENCE.sub("", read(path)), re.M)
    return {re.sub(r"[^\w\- ]", "", it.replace("`", "").lower()).replace(" ", "-") for it in lines}


@functools.cache
def options(command):
    """The text that has a command's options, or of no command those of all of ours."""
    tools = sorted((TOP / "share" / "tools").rglob("*"))
    if command is None:
        ours = [it for folder in ("tests", "bench", "tools") for it in sorted((TOP / folder).rglob("*.py"))]
        return "\n".join([options("office"), *map(read, tools), *map(read, ours)])
    if command in ("office", "./office"):
        return " ".join(f'"--{it}"' for it in [*re.findall(r'name: "([a-z-]+)"', sources("cli")), "help", "version"])
    if "office-" in command:
        return read(TOP / "share" / "tools" / command.split("/")[-1]) + "".join(read(it) for it in tools if it.suffix == ".py") + '"--help"'
    return read(TOP / command) + '"--help"'


def has_option(command, option):
    return re.search(rf"{option}(?![\w-])", options(command)) is not None


# ---- what a page cites


def links(page, text):
    for target in LINK.findall(text):
        if re.match(r"[a-z]+:", target):
            continue
        path, _, anchor = target.partition("#")
        file = (page.parent / path).resolve() if path else page
        yield f"link {target}", file.exists() and (not anchor or anchor in headings(file))


def paths(text):
    for code in map(lines_joined, CODE.findall(text)):
        word = code.split(" ")[0] if "{" not in code else code.replace(" ", "")
        if "/" not in word or word.split("/")[0] not in FIRST or ANY_NAME.search(word) or ELSEWHERE.match(word):
            continue
        for it in expanded(word):
            yield f"path {it}", is_there(it)


def functions_of(crates, codes):
    for code in codes:
        for name in expanded(code) if "::{" in code else [code]:
            yield f"function {name} of {', '.join(crates)}", any(has_function(it, name) for it in crates)


def promised(text):
    """The functions that carry promises: of rows, of list items, and in README of sentences."""
    for row in re.findall(r"^\| (`.*) \|$", text, re.M):
        cells = row.split(" | ")
        yield from functions_of(CODE.findall(cells[0]), map(lines_joined, CODE.findall(cells[2])))
    for crate, behind in re.findall(r"^- \*\*`(\w+)`\*\* \(([^)]*)\)", text, re.M):
        yield from functions_of([crate], map(lines_joined, CODE.findall(behind)))


def told_of(text):
    """Functions before the name of their crate, in brackets."""
    for before, crate in re.findall(r"((?:`[\w:{}, \n]+`(?:,\s+|\s+))+)\(`(\w+)`\)", text):
        if (CRATES / crate).is_dir():
            yield from functions_of([crate], map(lines_joined, CODE.findall(before)))


def defined(text):
    """The definitions of a row, each in one of the files that the row names."""
    for row in re.findall(r"^\| (.*) \|$", text, re.M):
        cells = row.split(" | ")
        if len(cells) < 4 or "/" not in cells[2]:
            continue
        files = [it for part in re.split(r"[,;]\s+(?![^{]*\})", cells[2]) for it in expanded(part.strip())]
        for it in files:
            yield f"path {it}", is_there(it) or it.startswith(KIT)
        if any(it.startswith(KIT) for it in files):
            continue
        every = "\n".join(read(CRATES / f"{it}.antt") for it in files)
        for name in CODE.findall(cells[1]):
            yield f"definition {name} in {cells[2]}", re.search(rf"(?<![\w.]){re.escape(name)}(?![\w])", every) is not None


def options_in(text):
    shells = [it for kind, it in FENCE.findall(text) if kind == "sh"]
    codes = [*map(lines_joined, CODE.findall(FENCE.sub("", text)))]
    for code in [*(it.replace("\\\n", " ") for it in shells), *codes]:
        for line in code.split("\n"):
            for command, words in COMMAND.findall(line):
                for option in OPTION.findall(words):
                    yield f"option {option} of {command}", has_option(command, option)
    for code in codes:
        if re.fullmatch(r"--[a-z][a-z-]*( [A-Z]+)?", code):
            option = code.split(" ")[0]
            yield f"option {option}", has_option(None, option)


def cited(page):
    text = read(page)
    plain = FENCE.sub("", text)
    yield from links(page, plain)
    yield from paths(plain)
    yield from options_in(text)
    yield from {"PROMISES": promised, "DEFINITIONS": defined, "README": told_of}.get(page.stem, lambda _: [])(plain)


def main(words):
    pages = [pathlib.Path(it).resolve() for it in words] or [TOP / "README.md", TOP / "CONTRIBUTING.md", *sorted((TOP / "docs").glob("*.md"))]
    count = wrong = 0
    for page in pages:
        for what, good in cited(page):
            count += 1
            wrong += not good
            if not good:
                print(f"{page.name}: {what}")
    print(f"{count} citations, {wrong} wrong")
    return 1 if wrong or not count else 0


if __name__ == "__main__":
    sys.exit(main(sys.argv[1:]))
