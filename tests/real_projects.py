#!/usr/bin/env python3
"""Brings real catalogues in, as template and language, exports them, and compares with what GNU gettext makes of the same files.

    tests/real_projects.py [--program FILE] [--store DIR] [PACKAGE..]

tests/real_projects.txt lists source packages of Debian with a template and a translation in each, or all translations (`po/*.po`). They are
fetched by `apt-get source --download-only` into DIR (office-real-projects in the folder for temporary files), unless they are there, with a list of
sources of their own, so that the machine's stays as it is. Of each, a text in another charset than UTF-8 is converted by `msgconv`, and where a header
has no plural rule it gets the one that gettext knows for the language, or one as most have it. Then an office in a file gets the template and the
languages as requests, and each language is exported.

What comes out has to be what `msgmerge --no-fuzzy-matching` makes of the translation and the template, both sorted by
`msgcat --sort-output`, apart from what docs/FORMATS.md says is dropped: previous strings where an entry isn't fuzzy, and of
obsolete entries comments of the program, references and flags other than fuzzy. The header has to be the one that went in.
`msgcmp` has to find the template's messages in the export and no others, and `msgfmt -c` to take it.

The program is the one that ./office has built, or FILE (or the variable OFFICE). Wants apt-get, gettext and the network. It stands
outside the gate. The last line is 'N catalogues come out as they went in, M not'.
"""
import argparse
import contextlib
import fnmatch
import json
import os
import pathlib
import re
import subprocess
import sys
import tarfile
import tempfile

TOP = pathlib.Path(__file__).resolve().parent.parent
sys.path.insert(0, str(TOP / "share" / "tools"))
from office_tools import po  # noqa: E402

LIST = TOP / "tests" / "real_projects.txt"
BUILT = TOP / "crates" / "cli" / "out" / "cli"
SUITE = "bookworm"
SOURCES = "deb-src [signed-by=/usr/share/keyrings/debian-archive-keyring.gpg] http://deb.debian.org/debian {} main\n"
SETTINGS = """Dir::Etc::sourcelist "{0}/sources.list";
Dir::Etc::sourceparts "/dev/null";
Dir::State::lists "{0}/lists";
Dir::Cache "{0}/cache";
APT::Get::Only-Source "true";
APT::Sandbox::User "";
"""
ENVIRONMENT = {**os.environ, "LC_ALL": "C.UTF-8"}
ONE_FORM = {"id", "ms", "zh_CN", "zh_TW", "th", "ka", "kk", "fa", "az"}


class Wrong(Exception):
    """Why a catalogue didn't come out as it went in."""


def tool(*words, given=None):
    """What a command prints of these bytes."""
    done = subprocess.run(words, input=given, capture_output=True, env=ENVIRONMENT, check=False)
    if done.returncode:
        raise Wrong(f"{words[0]}: {done.stderr.decode(errors='replace').strip()}")
    return done.stdout


def on_file(text, *words):
    """What a command prints that is given the text as a file, in the place of the word FILE."""
    with tempfile.NamedTemporaryFile(suffix=".po") as it:
        it.write(text)
        it.flush()
        return tool(*(it.name if word == "FILE" else word for word in words))


def archive_in(suite, package, store):
    """The archive of the package's sources of a suite, each of which has a folder beside the store's."""
    with contextlib.suppress(subprocess.CalledProcessError):
        # (what isn't there of its packaging is not needed)
        return archive_of(package, store / f"office-real-projects-{suite}", suite)
    return archive_of(package, store / f"office-real-projects-{suite}", suite)


def archive_of(package, store, suite=SUITE):
    """The archive of the package's sources, fetched if it isn't there."""
    folder = store / package
    found = [it for it in folder.glob("*.tar.*") if not it.name.endswith(".asc") and ".debian." not in it.name]
    if not found:
        folder.mkdir(parents=True, exist_ok=True)
        for it in ("lists/partial", "cache/archives/partial"):
            (store / it).mkdir(parents=True, exist_ok=True)
        (store / "sources.list").write_text(SOURCES.format(suite))
        (store / "settings").write_text(SETTINGS.format(store))
        apt = {**ENVIRONMENT, "APT_CONFIG": str(store / "settings")}
        if not list((store / "lists").glob("*Sources*")):
            subprocess.run(["apt-get", "-qq", "update"], env=apt, check=True)
        subprocess.run(["apt-get", "-qq", "source", "--download-only", package], cwd=folder, env=apt, check=True)
        return archive_of(package, store, suite)
    return found[0]


def members(archive):
    """The files of a package's sources, by their paths."""
    return {it.name.partition("/")[2]: it for it in archive.getmembers() if it.isfile()}


def texts_of(package, names, store):
    """The texts of the files of the package's sources that these patterns name, in UTF-8, by their paths: the first one's first."""
    with tarfile.open(archive_of(package, store)) as archive:
        there = members(archive)
        paths = [path for name in names for path in sorted(fnmatch.filter(there, name))]
        texts = {path: archive.extractfile(there[path]).read() for path in paths}
    return {path: text if is_utf8(text) else on_file(text, "msgconv", "--to-code=UTF-8", "--no-wrap", "FILE") for path, text in texts.items()}


def names_another(text):
    """Whether a header names another charset than UTF-8."""
    return re.search(rb"^\"Content-Type: [^\"]*charset=(?!utf-8\b|charset\b)", text, re.IGNORECASE | re.MULTILINE)


def rule_of(lang):
    """A plural rule for a language that gettext's own table lacks: of one form, or as most have it."""
    return "nplurals=1; plural=0;" if lang in ONE_FORM else "nplurals=2; plural=n != 1;"


def with_rule(lang, text):
    """The text, with a plural rule where its header has none."""
    laid_out = on_file(text, "msgcat", "--no-wrap", "FILE").decode()
    if po.plural_forms(laid_out):
        return text
    return po.with_plural_forms(laid_out, po.known_rule(lang) or rule_of(lang)).encode()


def is_utf8(text):
    if names_another(text):
        return False
    try:
        text.decode()
    except UnicodeDecodeError:
        return False
    return True


def exported(program, template, languages):
    """The reply to each language and its text, of an office in a file that got the template and the languages."""
    acts = [{"act": "template", "po": template.decode()}, *({"act": "language", "lang": lang, "po": text.decode()} for lang, text in languages.items())]
    requests = [{**it, "caller": "root", "number": f"01900000-0000-7000-8000-{n:012}"} for n, it in enumerate(acts)]
    lines = "".join(json.dumps(it, ensure_ascii=False) + "\n" for it in requests)
    with tempfile.TemporaryDirectory() as folder:
        store = os.path.join(folder, "office.db")
        tool(program, "init", "--store", store, "--manager", "root")
        replies = tool(program, "deliver", "--store", store, given=lines.encode()).split(b"\n")[:-1]
        refused = [(it.get("lang"), reply.decode()) for it, reply in zip(requests, replies) if not reply.startswith(b"200 ")]
        if refused:
            raise Wrong(f"refused: {refused}")
        return {lang: (reply, tool(program, "export", "--store", store, "--lang", lang)) for lang, reply in zip(languages, replies[1:])}


def blocks(text):
    """The entries of a PO text as gettext sorts and lays them out: each a text of its lines."""
    sorted_text = on_file(text, "msgcat", "--sort-output", "--no-wrap", "FILE").decode()
    return [it.split("\n") for it in sorted_text.strip("\n").split("\n\n")]


def is_header(lines):
    return 'msgid ""' in lines and not any(it.startswith("msgctxt") for it in lines) and follows_msgstr(lines)


def follows_msgstr(lines):
    return lines[lines.index('msgid ""') + 1].startswith("msgstr")


def flags_of(lines):
    return [flag.strip() for line in lines if line.startswith("#,") for flag in line[2:].split(",")]


def without_dropped(lines):
    """An entry without what docs/FORMATS.md says is dropped of it."""
    fuzzy = "fuzzy" in flags_of(lines)
    kept = []
    for line in lines:
        is_previous = line.startswith(("#|", "#~|"))
        if is_previous and not fuzzy:
            continue
        if any(it.startswith("#~ ") for it in lines) and line.startswith(("#.", "#:", "#,")):
            kept += ["#, fuzzy"] * (line.startswith("#,") and fuzzy)
            continue
        kept.append(line)
    return "\n".join(kept)


def entries(text):
    """The header, and the other entries without what is dropped, sorted."""
    found = blocks(text)
    header = [it for it in found if is_header(it)]
    others = sorted(without_dropped(it) for it in found if not is_header(it))
    return header, others


def compare(template, language, text):
    """Fails where the export isn't what went in."""
    with tempfile.TemporaryDirectory() as folder:
        files = {}
        for name, content in (("template", template), ("language", language), ("export", text)):
            files[name] = os.path.join(folder, name + ".po")
            with open(files[name], "wb") as it:
                it.write(content)
        merged = tool("msgmerge", "-q", "--previous", "--no-fuzzy-matching", "--no-wrap", files["language"], files["template"])
        tool("msgcmp", "--use-fuzzy", "--use-untranslated", files["export"], files["template"])
        tool("msgfmt", "-o", os.devnull, files["export"])
    header, others = entries(text)
    own, _ = entries(language)
    _, wanted = entries(merged)
    if header != own:
        raise Wrong("the header is another:\n" + "\n".join(header[0] if header else ["none"]))
    differing = sorted(set(others) ^ set(wanted))
    if differing or len(others) != len(wanted):
        told = [("only exported:\n" if it in others else "only merged:\n") + it for it in differing[:6]]
        raise Wrong(f"{len(differing)} entries differ\n" + "\n\n".join(told))
    return len(others)


def check(program, package, names, store):
    """How many catalogues of a package come out as they went in, and how many not, each of which is told."""
    (_, template), *others = texts_of(package, names, store).items()
    texts = {pathlib.Path(path).stem: text for path, text in others}
    languages = {lang: with_rule(lang, text) for lang, text in texts.items()}
    wrong = 0
    for lang, (reply, text) in exported(program, template, languages).items():
        try:
            count = compare(template, languages[lang], text)
            told = re.sub(rb'[{}"]', b"", reply[4:]).decode()
            ruled = "" if languages[lang] == texts[lang] else ", with a rule"
            print(f"{package} {lang}: {count} entries, {told}{ruled}", flush=True)
        except Wrong as why:
            print(f"{package} {lang}: {why}", flush=True)
            wrong += 1
    return len(languages) - wrong, wrong


def main(words):
    parser = argparse.ArgumentParser(usage=__doc__)
    parser.add_argument("--program", default=os.environ.get("OFFICE", BUILT))
    parser.add_argument("--store", type=pathlib.Path, default=pathlib.Path(tempfile.gettempdir()) / "office-real-projects")
    parser.add_argument("packages", nargs="*")
    given = parser.parse_args(words)
    rows = [line.split() for line in LIST.read_text().split("\n") if line and not line.startswith("#")]
    rows = [it for it in rows if not given.packages or it[0] in given.packages]
    good = bad = 0
    for package, *names in rows:
        try:
            right, wrong = check(given.program, package, names, given.store.resolve())
        except (Wrong, subprocess.CalledProcessError, KeyError, ValueError) as why:
            print(f"{package}: {why}", flush=True)
            right, wrong = 0, 1
        good, bad = good + right, bad + wrong
    print(f"{good} catalogues come out as they went in, {bad} not")
    return 0 if rows and not bad else 1


if __name__ == "__main__":
    sys.exit(main(sys.argv[1:]))
