#!/usr/bin/env python3
"""Has a program make a file of an office, for later programs to open: its dump, and the export of each language.

    tests/earlier/make.py PROGRAM NAME [--main]      (writes NAME.sql and NAME.DOMAIN.LANG.po beside this script)

A list of requests is drawn from a seed as tests/schedules.py draws them, and the program's replies and exports have to be those of the second office
that is written there. With `--main` all is in the domain `main`, for a program that knows no other.
"""
import argparse
import pathlib
import subprocess
import sys
import tempfile

HERE = pathlib.Path(__file__).resolve().parent
sys.path.insert(0, str(HERE.parent))

import schedules  # noqa: E402
from dumps import dumped  # noqa: E402

LENGTH = 160


def drawn(seed, is_main):
    """Deliveries, and what the second office is behind them."""
    found = [it for it in schedules.case_drawn(str(seed), 0, LENGTH)[0] if not isinstance(it, str)]
    if is_main:
        found = [it for it in found if it[1]["act"] != "domain" and "domain" not in it[1]]
    office = schedules.Office()
    replies = [schedules.answer(office, it) for it in found]
    return found, replies, office


def is_rich(office, is_main):
    """Whether an office has a bit of everything: each state, suggestions, votes, obsolete messages, a further domain."""
    units = [it for domain in office.domains.values() for lang in domain.languages.values() for it in lang["units"].values()]
    wanted = {schedules.UNTRANSLATED, schedules.EDITING, schedules.TRANSLATED, schedules.APPROVED}
    places = [it for it in office.places() if is_main or it[0] != "main"]
    has_votes = any(it["votes"] for unit in units for it in unit["suggestions"])
    return wanted <= {it["state"] for it in units} and any(it["obsolete"] for it in units) and has_votes and len(places) > (1 if is_main else 0)


def main():
    parser = argparse.ArgumentParser(description=__doc__.split("\n", 1)[0])
    parser.add_argument("program", type=pathlib.Path)
    parser.add_argument("name")
    parser.add_argument("--main", action="store_true")
    given = parser.parse_args()
    program = given.program.resolve()
    seed, (found, replies, office) = next((it, made) for it in range(1000) for made in [drawn(it, given.main)] if is_rich(made[2], given.main))
    with tempfile.TemporaryDirectory() as folder:
        path = pathlib.Path(folder) / "office.db"
        subprocess.run([program, "init", "--store", path, "--manager", "root"], check=True, capture_output=True)
        lines = "".join(f"{schedules.line_of(it)}\n" for it in found)
        done = subprocess.run([program, "deliver", "--store", path], input=lines.encode(), capture_output=True, check=True)
        if done.stdout.decode().splitlines() != replies:
            sys.exit(f"seed {seed}: the replies aren't those of the second office")
        for domain, lang in office.places():
            words = [program, "export", "--store", path, "--lang", lang, *([] if given.main else ["--domain", domain])]
            text = subprocess.run(words, capture_output=True, check=True).stdout
            if text.decode() != office.export(domain, lang):
                sys.exit(f"seed {seed}: the export of {lang} in {domain} isn't that of the second office")
            (HERE / f"{given.name}.{domain}.{lang}.po").write_bytes(text)
        (HERE / f"{given.name}.sql").write_text(dumped(path))
    print(f"{given.name}: {len(found)} deliveries of seed {seed}, exports of {office.places()}")


if __name__ == "__main__":
    main()
