#!/usr/bin/env python3
"""Looks at what `office export --into` leaves in a folder, and what it tells.

    tests/exports.py [PROGRAM] [--kills N]     (crates/cli/out/cli, as ./office has built it; 30)

An office in a file has 32 languages, each of some hundred messages, and a second domain. What is wanted comes from the
program too, asked for one language at a time: so this shows that many languages by one opening are what each is alone, and that each file is whole
at any time. Where an output or a disk is full, a place is taken or a language isn't there, its line says so, its file is as it was, and the
others are written. A program that is killed leaves each file as it was or whole. Prints what is otherwise, and last `N looks, M wrong`. Wants
strace, and the right to mount a small disk in a name space of its own.
"""
import argparse
import json
import pathlib
import random
import re
import signal
import subprocess
import sys
import tempfile
import time

import looks
from looks import has, look, number, same

TOP = pathlib.Path(__file__).resolve().parent.parent
LANGUAGES = ["de", "fr", "cs", "pt_BR", "sr@latin", "zh_TW"] + [f"l{n}" for n in range(26)]
MESSAGES = 300
PLURALS = "Content-Type: text/plain; charset=UTF-8\\nPlural-Forms: nplurals=2; plural=n != 1;\\n"


def catalogue(lang, text, messages=MESSAGES):
    entries = "".join(f'\nmsgid "Message {n}"\nmsgstr "{text} {n} in {lang}"\n' for n in range(messages))
    return f'msgid ""\nmsgstr "{PLURALS}"\n' + entries


class Office:
    """An office in a file, whose languages say these texts, and the program that has it."""

    def __init__(self, program, path, texts):
        self.program, self.path = program, path
        template = "".join(f'msgid "Message {n}"\nmsgstr ""\n\n' for n in range(MESSAGES))
        acts = [{"act": "template", "po": template}]
        acts += [{"act": "language", "lang": lang, "po": catalogue(lang, text)} for lang, text in texts.items()]
        acts += [{"act": "domain", "name": "manual"}, {"act": "template", "domain": "manual", "po": template}]
        acts += [{"act": "language", "domain": "manual", "lang": lang, "po": catalogue(lang, "Manual", 3)} for lang in ("de", "eo")]
        acts += [{"act": "domain", "name": "bare"}]
        lines = "".join(json.dumps({**it, "caller": "root", "number": number(n)}) + "\n" for n, it in enumerate(acts))
        same("init", looks.run(program, "init", "--store", path, "--manager", "root"), (0, "ready\n", ""))
        status, replies, _ = looks.run(program, "deliver", "--store", path, given=lines)
        same("requests", (status, {it[:3] for it in replies.splitlines()}), (0, {"200"}))

    def words(self, folder, langs, *more):
        return ["export", "--store", self.path, "--into", folder, *more, *(it for lang in langs for it in ("--lang", lang))]

    def into(self, folder, langs, *more):
        return looks.run(self.program, *self.words(folder, langs, *more))

    def alone(self, lang, *more):
        """A language's text and its line, of an export of it alone."""
        status, text, told = looks.run(self.program, "export", "--store", self.path, "--lang", lang, *more)
        same(f"{lang} alone", (status, told.count("\n")), (0, 1))
        return text, f"{lang} {told}"


def files_of(folder):
    """What stands in a folder: each name with its text, or what else it is."""
    return {it.name: it.read_text() if it.is_file() else "no file" for it in folder.iterdir()} if folder.is_dir() else None


def filed(texts):
    return {f"{lang}.po": text for lang, text in texts.items()}


def equal_to_single(office, place, texts, lines):
    """The files and the lines of many languages are those of each alone, in the order that is asked, whatever stood there."""
    folder = place / "new" / "folder"
    same("many languages", office.into(folder, LANGUAGES), (0, "", "".join(lines[it] for it in LANGUAGES)))
    same("their files", files_of(folder), filed(texts))
    again = [*reversed(LANGUAGES[:5]), LANGUAGES[0]]
    for it in folder.iterdir():
        it.write_text("what was there")
    same("in another order, one twice", office.into(folder, again), (0, "", "".join(lines[it] for it in again)))
    same("files that were there", files_of(folder), {**dict.fromkeys(filed(texts), "what was there"), **filed({it: texts[it] for it in again})})
    same("one language", office.into(place / "one", ["de"]), (0, "", lines["de"]))
    same("its file", files_of(place / "one"), filed({"de": texts["de"]}))
    text, line = office.alone("eo", "--domain", "manual")
    same("a domain", office.into(place / "manual", ["eo"], "--domain", "manual"), (0, "", line))
    same("its file", files_of(place / "manual"), filed({"eo": text}))
    same("printed, as ever", looks.run(office.program, "export", "--store", office.path, "--lang", "de")[1], texts["de"])


def all_languages(office, place, texts, lines):
    """With --all they are those of the domain, in the order of their codes."""
    words = ["export", "--store", office.path, "--all", "--into"]
    same("all languages", looks.run(office.program, *words, place / "all"), (0, "", "".join(lines[it] for it in sorted(LANGUAGES))))
    same("their files", files_of(place / "all"), filed(texts))
    own = {it: office.alone(it, "--domain", "manual") for it in ("de", "eo")}
    same("all of a domain", looks.run(office.program, *words, place / "own", "--domain", "manual"), (0, "", own["de"][1] + own["eo"][1]))
    same("their files", files_of(place / "own"), filed({it: text for it, (text, _) in own.items()}))
    for domain in ("bare", "none"):
        same(f"all of {domain}", looks.run(office.program, *words, place / domain, "--domain", domain), (1, "", "export fault 1\n"))
        same("a folder for nothing", files_of(place / domain), None)


def not_there(office, place, texts, lines):
    """A language that isn't there is told, and nothing of it is made or taken away; the others are written."""
    folder = place / "missing"
    folder.mkdir()
    (folder / "xx.po").write_text("what was there")
    found = office.into(folder, ["yy", "de", "xx", "fr", "eo"])
    wanted = "yy export fault 1\n" + lines["de"] + "xx export fault 1\n" + lines["fr"] + "eo export fault 1\n"
    same("languages that aren't there", found, (1, "", wanted))
    same("what is there then", files_of(folder), {"xx.po": "what was there", **filed({it: texts[it] for it in ("de", "fr")})})
    same("no domain", office.into(place / "none", ["de", "fr"], "--domain", "none"), (1, "", "de export fault 1\nfr export fault 1\n"))
    same("no store", looks.run(office.program, *office.words(place / "none", ["de"])[:2], place / "no.db", "--into", place / "none", "--lang", "de"), (1, "", "store fault 2\n"))
    same("a folder for nothing", files_of(place / "none"), None)


def taken_places(office, place, texts, lines):
    """Places that can't be written: each is told, and is as it was; a link in the place of a file is replaced, and not followed."""
    folder = place / "taken"
    (folder / "de.po" / "deep").mkdir(parents=True)
    (folder / "fr.po.new").mkdir()
    elsewhere = place / "elsewhere"
    elsewhere.write_text("elsewhere")
    (folder / "cs.po").symlink_to(elsewhere)
    found = office.into(folder, ["de", "fr", "cs"])
    same("folders in the place of files", found, (1, "", "de export fault 2\nfr export fault 2\n" + lines["cs"]))
    same("what is there then", files_of(folder), {"de.po": "no file", "fr.po.new": "no file", "cs.po": texts["cs"]})
    same("a link, and what it named", ((folder / "cs.po").is_symlink(), elsewhere.read_text()), (False, "elsewhere"))
    same("a file in the place of the folder", office.into(elsewhere, ["de", "fr"]), (1, "", "de export fault 2\nfr export fault 2\n"))
    same("it is as it was", elsewhere.read_text(), "elsewhere")
    with open("/dev/full", "w") as out:
        words = [office.program, *office.words(place / "untold", ["de", "fr"])]
        done = subprocess.run([str(it) for it in words], stderr=out, stdout=subprocess.PIPE, timeout=60, check=False)
    same("receipts that can't be told", (done.returncode, done.stdout, files_of(place / "untold")), (1, b"", filed({it: texts[it] for it in ("de", "fr")})))


def full_disk(program, place):
    """The third language is too long for the disk: it is told, nothing of it stays, and those that fit are whole."""
    said = {"de": "Text", "fr": "Texte", "cs": 500 * "Long ", "nl": "Tekst"}
    office = Office(program, place / "long.db", said)
    wanted = {it: office.alone(it) for it in said}
    small, found = place / "small", place / "found"
    small.mkdir()
    script = f'mount -t tmpfs -o size=128k none "{small}" && {{ "$@"; status=$?; cp -r "{small}/." "{found}"; exit $status; }}'
    words = ["unshare", "-Urm", "sh", "-c", script, "sh", program, *office.words(small, said)]
    done = looks.run(words[0], *words[1:])
    lines = [wanted["de"][1], wanted["fr"][1], "cs export fault 2\n", wanted["nl"][1]]
    same("a disk that is full at the third", done, (1, "", "".join(lines)))
    same("what is there then", files_of(found), filed({it: wanted[it][0] for it in ("de", "fr", "nl")}))


def calls_of(office, folder, langs):
    """The calls to the system by which a run opens files, syncs and renames them."""
    with tempfile.NamedTemporaryFile() as log:
        words = ["-f", "-y", "-o", log.name, "-e", "trace=openat,open,fsync,fdatasync,rename,renameat,renameat2", office.program, *office.words(folder, langs)]
        same("under strace", looks.run("strace", *words)[0], 0)
        return pathlib.Path(log.name).read_text().splitlines()


def by_one_opening(office, place):
    """The office's file is opened once; a text is on the disk before it gets its place."""
    calls = calls_of(office, place / "traced", LANGUAGES)
    opened = [it for it in calls if re.search(rf'open(at)?\(.*"{re.escape(str(office.path))}".* = \d', it)]
    same("openings of the office's file", len(opened), 1)
    for lang in LANGUAGES:
        its = [it for it in calls if f"/{lang}.po" in it]
        kinds = re.findall(r"\b(open|fsync|rename)\w*\(", "\n".join(its))
        same(f"{lang}: the calls on its file", kinds, ["open", "fsync", "rename"])
        has(f"{lang}: what is opened", "".join(its[:1]), f"/{lang}.po.new")


def placed(path, before, process):
    """Waits until another file is in this place, or the program has ended."""
    while path.stat().st_ino == before and process.poll() is None:
        time.sleep(0.0005)


def killed(office, other, place, kills):
    """A program that is killed, at any time or behind a file, leaves each file as it was, or whole. Two offices write over one another's."""
    folder, texts = place / "killed", [filed({it: one.alone(it)[0] for it in LANGUAGES}) for one in (office, other)]
    same("before the kills", office.into(folder, LANGUAGES)[0], 0)
    started = time.monotonic()
    other.into(place / "timed", LANGUAGES)
    whole, cut = time.monotonic() - started, 0
    for turn in range(kills):
        one, at = ((other, 1), (office, 0))[turn % 2]
        words = [str(it) for it in (one.program, *one.words(folder, LANGUAGES))]
        behind = folder / f"{random.choice(LANGUAGES)}.po"
        before = behind.stat().st_ino
        with subprocess.Popen(words, stdin=subprocess.DEVNULL, stdout=subprocess.DEVNULL, stderr=subprocess.DEVNULL) as process:
            if turn % 4 < 2:
                placed(behind, before, process)
            else:
                time.sleep(random.uniform(0, whole))
            process.send_signal(signal.SIGKILL)
        found = {name: text for name, text in files_of(folder).items() if not name.endswith(".new")}
        cut += 0 < sum(found[it] == texts[at][it] for it in found) < len(LANGUAGES)
        same(f"kill {turn}: the files", sorted(found), sorted(texts[0]))
        wrong = [it for it in found if found[it] not in (texts[0][it], texts[1][it])]
        same(f"kill {turn}: files that are neither as they were nor whole", wrong, [])
    look(cut >= kills // 10, f"only {cut} of {kills} kills met a folder that was written in part")
    same("behind the kills", office.into(folder, LANGUAGES)[0], 0)
    same("what is there then", files_of(folder), texts[0])


def main():
    parser = argparse.ArgumentParser()
    parser.add_argument("program", nargs="?", type=pathlib.Path, default=TOP / "crates" / "cli" / "out" / "cli")
    parser.add_argument("--kills", type=int, default=30)
    given = parser.parse_args()
    program = given.program.resolve()
    with tempfile.TemporaryDirectory() as name:
        place = pathlib.Path(name)
        office = Office(program, place / "office.db", dict.fromkeys(LANGUAGES, "Text"))
        single = {it: office.alone(it) for it in LANGUAGES}
        texts, lines = {it: text for it, (text, _) in single.items()}, {it: line for it, (_, line) in single.items()}
        equal_to_single(office, place, texts, lines)
        all_languages(office, place, texts, lines)
        not_there(office, place, texts, lines)
        taken_places(office, place, texts, lines)
        full_disk(program, place)
        by_one_opening(office, place)
        killed(office, Office(program, place / "other.db", dict.fromkeys(LANGUAGES, "Other")), place, given.kills)
    return looks.told()


if __name__ == "__main__":
    sys.exit(main())
