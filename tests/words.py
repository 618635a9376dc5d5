#!/usr/bin/env python3
"""Compares the program's words with its man page and its completion for bash and zsh, and tries wrong words.

    tests/words.py [PROGRAM]      (crates/cli/out/cli, as ./office has built it; wants bash, man)

What `office --help` and `office COMMAND --help` list, subcommands, options and arguments, each with its text, has to stand in
share/man/man1/office.1 and in the completion for zsh, and nothing else; bash has to complete to the same words. `man --warnings` has to find nothing
in the page. Wrong words have to end with status 2, and help and the version with 0. At a terminal a fault has a line behind it that says what it
means, and nowhere else; and a file's name that has control characters gives it no orders. The last line ends in 'N differences'.
"""
import http.client
import json
import os
import pathlib
import pty
import re
import subprocess
import sys
import tempfile

import looks

TOP = pathlib.Path(__file__).resolve().parent.parent
PROGRAM = TOP / "crates" / "cli" / "out" / "cli"
PAGE = TOP / "share" / "man" / "man1" / "office.1"
# From so many bytes on it is told at a terminal that a file is opened.
LARGE = 16 << 20
BASH = TOP / "share" / "bash-completion" / "completions" / "office"
ZSH = TOP / "share" / "zsh" / "site-functions" / "_office"
NUMBER = "0197f6a4-5d2e-7c31-8e2a-4b7f0c9d1e55"
# What zsh completes these values to, and the options that may be there several times.
PATHS = {"FILE": "_files", "FOLDER": "_files -/"}
SEVERAL = {("export", "--lang")}
# Words, and the status that they end with.
WORDS = [
    (["--help"], 0),
    (["-h"], 0),
    (["--version"], 0),
    (["-V"], 0),
    (["help"], 0),
    (["help", "deliver"], 0),
    (["init", "--help"], 0),
    (["export", "-h"], 0),
    (["init"], 2),
    (["init", "--store", "/nowhere/office.db"], 2),
    (["init", "--store", "/nowhere/office.db", "--manager", "Root"], 2),
    (["init", "--store", "/nowhere/office.db", "--manager", "root"], 1),
    (["export", "--store", "/nowhere/office.db"], 2),
    (["export", "--store", "/nowhere/office.db", "--lang", "d"], 2),
    (["export", "--store", "/nowhere/office.db", "--lang", "de"], 1),
    (["export", "--store", "/nowhere/office.db", "--domain", "docs", "--lang", "de"], 1),
    (["export", "--store", "/nowhere/office.db", "--domain", "docs"], 2),
    (["export", "--store", "/nowhere/office.db", "--domain", "Docs", "--lang", "de"], 2),
    (["export", "--store", "/nowhere/office.db", "--domain", "", "--lang", "de"], 2),
    (["export", "--store", "/nowhere/office.db", "--domain", "--lang", "de"], 2),
    (["export", "--store", "/nowhere/office.db", "--lang", "de", "--lang", "fr"], 2),
    (["export", "--store", "/nowhere/office.db", "--lang", "de", "--lang", "de"], 2),
    (["export", "--store", "/nowhere/office.db", "--into", "/nowhere/po"], 2),
    (["export", "--store", "/nowhere/office.db", "--lang", "de", "--into"], 2),
    (["export", "--store", "/nowhere/office.db", "--all"], 2),
    (["export", "--store", "/nowhere/office.db", "--all", "--lang", "de"], 2),
    (["export", "--store", "/nowhere/office.db", "--all", "--lang", "de", "--into", "/nowhere/po"], 2),
    (["export", "--store", "/nowhere/office.db", "--all", "--into", ""], 2),
    (["export", "--store", "/nowhere/office.db", "--all", "--into", "/nowhere/po"], 1),
    (["export", "--store", "/nowhere/office.db", "--lang", "de", "--into", ""], 2),
    (["export", "--store", "/nowhere/office.db", "--lang", "de", "--lang", "d", "--into", "/nowhere/po"], 2),
    (["export", "--store", "/nowhere/office.db", "--lang", "de", "--into", "/nowhere/po", "--into", "/nowhere/po"], 2),
    (["export", "--store", "/nowhere/office.db", "--lang", "de", "--lang", "fr", "--into", "/nowhere/po"], 1),
    (["records", "--help"], 0),
    (["records"], 2),
    (["records", "--after", NUMBER], 2),
    (["records", "--store", "/nowhere/office.db"], 1),
    (["records", "--store", "/nowhere/office.db", "--after", NUMBER], 1),
    (["records", "--store", "/nowhere/office.db", "--after"], 2),
    (["records", "--store", "/nowhere/office.db", "--after", ""], 2),
    (["records", "--store", "/nowhere/office.db", "--after", "1"], 2),
    (["records", "--store", "/nowhere/office.db", "--after", NUMBER.upper()], 2),
    (["records", "--store", "/nowhere/office.db", "--after", NUMBER.replace("-", "")], 2),
    (["records", "--store", "/nowhere/office.db", "--after", NUMBER, "--after", NUMBER], 2),
    (["deliver", "--store", "/nowhere/office.db"], 1),
    (["serve", "-h"], 0),
    (["serve", "--store", "/nowhere/office.db", "--port", "8080"], 2),
    (["serve", "--store", "/nowhere/office.db", "--connections", "1"], 2),
    (["serve", "--port", "8080", "--connections", "1"], 2),
    (["serve", "--store", "/nowhere/office.db", "--port", "0", "--connections", "1"], 2),
    (["serve", "--store", "/nowhere/office.db", "--port", "65536", "--connections", "1"], 2),
    (["serve", "--store", "/nowhere/office.db", "--port", "8080", "--connections", "0"], 2),
    (["serve", "--store", "/nowhere/office.db", "--port", "8080", "--connections", "4294967296"], 2),
    (["serve", "--store", "/nowhere/office.db", "--port", "65535", "--connections", "4294967295"], 1),
    (["serve", "--store", "/nowhere/office.db", "--port", "+8080", "--connections", "1"], 2),
    (["serve", "--store", "/nowhere/office.db", "--port", "08080", "--connections", "1"], 2),
    (["serve", "--store", "/nowhere/office.db", "--port", "8080", "--connections", "+1"], 2),
    (["serve", "--store", "/nowhere/office.db", "--port", "8080", "--connections", "01"], 2),
    (["send", "--help"], 0),
    (["send", "--port", "1", "--file", "/nowhere/requests"], 2),
    (["send", "--port", "1", "--tries", "1"], 2),
    (["send", "--file", "/nowhere/requests", "--tries", "1"], 2),
    (["send", "--port", "http", "--file", "/nowhere/requests", "--tries", "1"], 2),
    (["send", "--port", "1", "--file", "/nowhere/requests", "--tries", "0"], 2),
    (["send", "--port", "1", "--file", "/nowhere/requests", "--tries", "4294967296"], 2),
    (["send", "--port", "1", "--file", "/nowhere/requests", "--tries", "4294967295"], 1),
    (["send", "--port", "+1", "--file", "/nowhere/requests", "--tries", "1"], 2),
    (["send", "--port", "01", "--file", "/nowhere/requests", "--tries", "1"], 2),
    (["send", "--port", "1", "--file", "/nowhere/requests", "--tries", "+1"], 2),
    (["send", "--port", "1", "--file", "/nowhere/requests", "--tries", "01"], 2),
    (["deliver", "--help"], 0),
    (["plural", "-h"], 0),
    (["canon", "-V"], 0),
    ([], 2),
    (["begin"], 2),
    (["--begin"], 2),
    (["deliver", "all"], 2),
    (["deliver", "--export"], 2),
    (["deliver", "--export", "d"], 2),
    (["deliver", "--export", "german language"], 2),
    (["deliver", "--export", "de", "--domain", "Docs"], 2),
    (["deliver", "--export", "de", "--domain", ""], 2),
    (["deliver", "--export", "de", "--domain", "a" * 33], 2),
    (["deliver", "--export", "de", "--domain"], 2),
    (["deliver", "--domain", "1docs"], 2),
    (["deliver", "--manager", "Root"], 2),
    (["deliver", "--manager", ""], 2),
    (["deliver", "--manager", "a" * 33], 2),
    (["deliver", "--demo", "--demo"], 2),
    (["plural"], 2),
    (["plural", "nplurals=1; plural=0;"], 2),
    (["plural", "nplurals=1; plural=0;", "-1"], 2),
    (["plural", "nplurals=1; plural=0;", "4294967296"], 2),
    (["plural", "nplurals=1; plural=0;", "+1"], 2),
    (["plural", "nplurals=1; plural=0;", "1", "01"], 2),
    (["plural", "nplurals=1; plural=0;", "00"], 2),
    ([b"\xff"], 2),
    (["init", "--store", b"/nowhere/\xff.db", "--manager", "root"], 2),
    (["export", "--store", b"/nowhere/\xff.db", "--lang", "de"], 2),
    (["plural", b"nplurals=1; plural=\xff;", "1"], 2),
    (["canon", "all"], 2),
    (["deliver", "--manager", "a" * 32], 0),
    (["plural", "nplurals=1; plural=0;", "0", "4294967295"], 0),
    (["plural", "nplurals=1; plural=1;", "0"], 1),
    (["deliver", "--domain", "a" * 32], 0),
    (["deliver", "--demo", "--export", "de", "--domain", "main"], 0),
    (["deliver", "--demo", "--export", "de", "--domain", "docs"], 1),
    (["deliver", "--export", "xx"], 1),
]
# Words, the line of a fault that they tell, and what the line behind it has to name at a terminal. The files `{made}`, `{empty}` and `{twice}` are
# an office's, an empty one, and one of requests two of which have one number; `{po}` is a folder that isn't there.
TOLD = [
    (["export", "--store", "/nowhere/office.db", "--lang", "de"], "store fault 2", ["in use by another program", "isn't there", "no database"]),
    (["init", "--store", "{made}", "--manager", "root"], "store: exists", ["an office already"]),
    (["export", "--store", "{empty}", "--lang", "de"], "store fault 3", ["no office's"]),
    (["export", "--store", "{made}", "--lang", "de", "--into", "{po}"], "de export fault 1", ["no such domain or language"]),
    (["export", "--store", "{made}", "--all", "--into", "{po}"], "export fault 1", ["no such domain or language"]),
    (["records", "--store", "{made}", "--after", NUMBER], "records fault 1", ["No record", "that number"]),
    (["deliver", "--export", "xx"], "export fault 1", ["no such domain or language"]),
    (["deliver", "--demo", "--export", "de", "--domain", "docs"], "export fault 1", ["no such domain or language"]),
    (["send", "--port", "1", "--file", "/nowhere/requests", "--tries", "1"], "file fault", ["can't be read"]),
    (["send", "--port", "1", "--file", "{twice}", "--tries", "1"], "sender fault 1", ["twice", "Nothing was sent"]),
    (["plural", "n", "1"], "plural fault 1", ["grammar"]),
    (["plural", "nplurals=9; plural=0;", "1"], "plural fault 2", ["1 to 8"]),
    (["plural", "nplurals=1; plural=" + "(" * 32 + "0" + ")" * 32 + ";", "1"], "plural fault 3", ["512 bytes", "32"]),
    (["plural", "nplurals=2; plural=1/n;", "1"], "plural fault 4 at 0", ["no value"]),
    (["plural", "nplurals=2; plural=n;", "1"], "plural fault 5 at 2", ["isn't below nplurals"]),
    (["plural", "nplurals=2; plural=1/(n != 1000);", "1000"], "index fault 1 at 1000", ["divides by zero"]),
    (["plural", "nplurals=2; plural=(n<1000) ? 0 : 0-1;", "1000"], "index fault 2 at 1000", ["below zero"]),
    (["plural", "nplurals=2; plural=(n<1000) ? 0 : 18446744073709551615+1;", "1000"], "index fault 3 at 1000", ["18446744073709551615"]),
    (["plural", "nplurals=2; plural=(n<1000) ? 0 : 2;", "1000"], "index fault 4 at 1000", ["isn't below nplurals"]),
]


def run(program, words):
    return looks.run(program, *words)


def listed(text):
    """What help lists: for each part (Commands, Options, Arguments) names with their texts."""
    parts, part = {}, None
    for line in text.split("\n"):
        if re.fullmatch(r"[A-Z][a-z]+:", line):
            part = parts.setdefault(line[:-1], {})
        elif part is not None and (found := re.fullmatch(r" +(\S.*?)  +(\S.*)", line)):
            part[found[1]] = found[2]
    return parts


def words_of(program):
    """The subcommands with their texts, and for each its options and arguments with theirs."""
    commands = listed(run(program, ["--help"])[1])["Commands"]
    own = {it: listed(run(program, [it, "--help"])[1]) for it in commands if it != "help"}
    return commands, own


def option_names(options):
    """The words that stand for these options."""
    return {name.split(" ")[0] for option in options for name in option.split(", ")}


def page_items():
    """The items of the man page's lists up to the replies, by the subcommand that they are of, each with the text behind it in a line."""
    items, item, command, depth = {}, None, "", 0
    for line in PAGE.read_text().split(".Sh REPLIES")[0].split("\n"):
        if line.startswith(".It "):
            name = re.sub(r"\b(Cm|Ar) ", "", line[4:])
            name = ", ".join("-" + it.removeprefix("Fl ") for it in name.split(" , ")) if name.startswith("Fl") else name
            command = name if depth == 1 else command
            item = items.setdefault(("" if depth == 1 else command, name.replace(", --", ", --")), [])
        elif line.startswith((".Bl", ".El")):
            depth += 1 if line.startswith(".Bl") else -1
            item = item if line.startswith(".Bl") else None
        elif item is not None and not line.startswith("."):
            item.append(line)
    return {name: " ".join(lines) for name, lines in items.items()}


def page_name(option):
    """An option as the page's items have it: `-h, --help`, `--manager NAME`."""
    return re.sub(r"[<>]|\.\.\.", "", option)


def page_differs(commands, own):
    """What the man page lacks, or has too much; what each subcommand has stands there once."""
    wanted = {("", it): text for it, text in commands.items()}
    for command, parts in own.items():
        for part in ("Options", "Arguments"):
            for it, text in parts.get(part, {}).items():
                wanted["" if it.startswith("-h") or it.startswith("-V") else command, page_name(it)] = text
    found = page_items()
    yield from (f"the page lacks {it}" for it in wanted if it not in found)
    yield from (f"the page has {it}" for it in found if it not in wanted)
    yield from (f"the page says else of {it}: {found[it]}" for it in wanted if it in found and not found[it].startswith(wanted[it]))


def completed(words):
    """What bash completes the last of these words to."""
    line = " ".join(f"'{it}'" for it in words)
    script = f'. "{BASH}"; COMP_WORDS=({line}); COMP_CWORD={len(words) - 1}; _office; printf "%s\\n" "${{COMPREPLY[@]}}"'
    done = subprocess.run(["bash", "-c", script], capture_output=True, check=True)
    return set(done.stdout.decode().split())


def bash_differs(commands, own):
    general = {"-h", "--help", "-V", "--version"}
    wanted = [(["office", ""], set(commands) | general), (["office", "help", ""], set(commands))]
    wanted += [(["office", it, "-"], option_names(parts["Options"])) for it, parts in own.items()]
    wanted += [(["office", "de"], {"deliver"}), (["office", "deliver", "--export", ""], set())]
    for words, them in wanted:
        if completed(words) != them:
            yield f"bash completes {words} to {sorted(completed(words))}"


def quoted(text):
    """A word of the completion for zsh, in the quotes that it needs."""
    return f'"{text}"' if "'" in text else f"'{text}'"


def zsh_differs(commands, own):
    text = ZSH.read_text().replace("\\:", ":")
    lines = [it.strip().rstrip("\\").strip() for it in text.split("\n")]
    wanted = {quoted(f"{name}:{about}") for name, about in commands.items()}
    for command, parts in own.items():
        for option, about in parts["Options"].items():
            about = re.sub(r" \[default: .*\]$", "", about)
            short, _, rest = option.partition(", ")
            name, _, value = (rest or short).partition(" ")
            value = page_name(value)
            if rest:
                wanted.add(f"'({short} {name})'{{{short},{name}}}'[{about}]'")
            else:
                again = "*" if (command, name) in SEVERAL else ""
                wanted.add(quoted(f"{again}{name}[{about}]" + (f":{value}:" if value else "") + PATHS.get(value, "")))
        for name, about in parts.get("Arguments", {}).items():
            place = "*" if name.endswith("...") else str(1 + list(parts["Arguments"]).index(name))
            wanted.add(quoted(f"{place}:{page_name(name)} ({about[0].lower()}{about[1:]}):"))
    found = {it for it in lines if re.match(r"""["'][(\w*-].*:.*["']$|'\(-""", it) or re.match(r"'--[\w-]+\[", it)}
    yield from (f"zsh lacks {it}" for it in sorted(wanted - found))
    yield from (f"zsh has {it}" for it in sorted(found - wanted))


def page_warnings():
    done = subprocess.run(["man", "--warnings", "-E", "UTF-8", "-l", str(PAGE)], capture_output=True, check=False)
    yield from (f"man: {it}" for it in done.stderr.decode().split("\n") if it)


def kinds_differ(program):
    """The kinds of faults that the help of `canon` lists, beside the page's."""
    kinds = listed(run(program, ["canon", "--help"])[1]).get("Kinds", {})
    page = " ".join(PAGE.read_text().split(".It po line L kind K")[1].split(".El")[0].split())
    if list(kinds) != [str(n) for n in range(1, 11)]:
        yield f"canon's help lists the kinds {list(kinds)}"
    yield from (f"the page says else of kind {kind}" for kind, text in kinds.items() if f"{kind} {text.split(';')[0]}" not in page)


def shown_at_terminal(program, words, meanwhile=lambda: None):
    """What stands on the second output where it is a terminal; what is done meanwhile is done once the program runs."""
    ours, theirs = pty.openpty()
    with subprocess.Popen([program, *words], stdin=subprocess.DEVNULL, stdout=subprocess.DEVNULL, stderr=theirs) as process:
        os.close(theirs)
        meanwhile()
        found = b""
        try:
            while piece := os.read(ours, 4096):
                found += piece
        except OSError:
            pass  # Linux says so where the other side is closed.
        process.wait()
    os.close(ours)
    return found.decode().replace("\r\n", "\n")


def told_at_terminal(program, words, meanwhile=lambda: None):
    """The same, line by line."""
    return shown_at_terminal(program, words, meanwhile).splitlines()


def sentences_differ(program):
    with tempfile.TemporaryDirectory() as name:
        files = {it: str(pathlib.Path(name) / it) for it in ("made", "empty", "twice", "po")}
        run(program, ["init", "--store", files["made"], "--manager", "root"])
        pathlib.Path(files["empty"]).touch()
        line = '{"act":"team","caller":"root","name":"ann","number":"00000000-0000-4000-8000-000000000001","role":"translator"}\n'
        pathlib.Path(files["twice"]).write_text(line * 2)
        for words, fault, named in TOLD:
            words = [files.get(it[1:-1], it) if it.startswith("{") else it for it in words]
            if (told := run(program, words)[2]) != fault + "\n":
                yield f"{words} tell {told!r}, and not {fault}"
            told = told_at_terminal(program, words)
            if len(told) != 2 or told[0] != fault or not all(it in told[1] for it in named):
                yield f"{words} tell {told} at a terminal, of {fault}"


def orders_given(program):
    """Whatever stands in the name of a large file, which is told at a terminal: what is shown has no control character but its line ends."""
    with tempfile.TemporaryDirectory() as name:
        for it in (it for it in looks.CONTROLS if it):
            path = pathlib.Path(name) / f"a{chr(it)}b"
            with path.open("wb") as file:
                file.truncate(LARGE)
            shown = shown_at_terminal(program, ["export", "--store", str(path), "--lang", "de"]).split("\n")
            if len(shown) != 4 or not shown[0].startswith("opening ") or any(ord(one) in looks.CONTROLS for one in "".join(shown)):
                yield f"the name of a file with U+{it:04X} is shown at a terminal as {shown}"


def disk_fault_differs(program):
    """A disk that takes no more than 400 kB behind the office: `serve` tells it, and at a terminal what it means."""
    with tempfile.TemporaryDirectory() as name:
        store, port = pathlib.Path(name) / "office.db", looks.free_port()
        run(program, ["init", "--store", str(store), "--manager", "root"])
        limit = f'trap "" XFSZ; ulimit -f {store.stat().st_size // 1024 + 400}; exec "$@"'
        words = ["-c", limit, "-", str(program), "serve", "--store", str(store), "--port", str(port), "--connections", "2"]

        def post():
            looks.asked(port, "/v1/stats/de")
            body = json.dumps({"act": "template", "po": "".join(f'msgid "{n}"\nmsgstr ""\n\n' for n in range(20_000))})
            client = http.client.HTTPConnection(looks.HOST, port, timeout=60)
            client.request("POST", f"/v1/requests/{looks.number(1)}", body.encode(), {"X-Office-Caller": "root"})
            client.getresponse().read()
            client.close()

        told = told_at_terminal("bash", words, post)
        if len(told) != 2 or told[0] != "disk fault" or not all(it in told[1] for it in ("disk failed", "Open the office again")):
            yield f"serve tells {told} at a terminal, of a disk fault"


def man_page_named(program):
    """Plain `office` says where more stands."""
    if "man office" not in run(program, [])[2] + run(program, ["--help"])[1]:
        yield "office doesn't name its man page"


def status_differs(program):
    for words, status in WORDS:
        ended, out, faults = run(program, words)
        if ended != status or (status == 0 and faults) or (status == 2 and (out or not faults)):
            yield f"{words} ended with status {ended}, and not {status}: {out}{faults}"


def main(words):
    program = pathlib.Path(words[0] if words else PROGRAM).resolve()
    commands, own = words_of(program)
    wrong = [*page_differs(commands, own), *bash_differs(commands, own), *zsh_differs(commands, own)]
    wrong += [*page_warnings(), *kinds_differ(program), *man_page_named(program), *sentences_differ(program), *orders_given(program), *disk_fault_differs(program), *status_differs(program)]
    for it in wrong:
        print(it)
    print(f"{len(commands)} subcommands, {len(WORDS) + len(TOLD) + len(looks.CONTROLS)} runs: {len(wrong)} differences")
    return 1 if wrong else 0


if __name__ == "__main__":
    sys.exit(main(sys.argv[1:]))
