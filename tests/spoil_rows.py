#!/usr/bin/env python3
"""Sees that a program of rows reports each row whose wanted result is wrong.

    tests/spoil_rows.py CRATE [COUNT] [PROGRAM]

Of crates/CRATE/stdin it takes COUNT rows with a result (20, or all if there are fewer), spread over the file, and changes one
character of what stands behind the last ` -> ` of each, one row at a time. The program (crates/CRATE/out/CRATE, as `rt run`
leaves it) has to print each of these rows. Those that it doesn't print are listed, and the status is 1.
"""
import pathlib
import shutil
import subprocess
import sys
import tempfile

CRATES = pathlib.Path(__file__).resolve().parent.parent / "crates"
ARROW = " -> "


def run(crate, program, rows, folder):
    """What the program writes of these rows, with the crate's words and files."""
    words = (crate / "args").read_text().splitlines() if (crate / "args").exists() else []
    given = "".join(row + "\n" for row in rows)
    done = subprocess.run(
        [program, *words], input=given.encode(), stdout=subprocess.PIPE, stderr=subprocess.STDOUT, cwd=folder, timeout=120
    )
    return done.stdout.decode(errors="replace")


def spread(places, count):
    """So many of the places, from the first to the last."""
    if count >= len(places):
        return places
    if count == 1:
        return places[:1]
    return [places[i * (len(places) - 1) // (count - 1)] for i in range(count)]


def other(letter):
    """Another character: a digit for a digit, a letter for a letter."""
    for first, last in ("09", "az", "AZ"):
        if first <= letter <= last:
            return first if letter == last else chr(ord(letter) + 1)
    return "x"


def spoilt(row, turn):
    """The row with one character of its wanted result changed, at another place each turn."""
    deed, wanted = row.rsplit(ARROW, 1)
    if wanted == "":
        return deed + ARROW + "x"
    place = turn * 7 % len(wanted)
    return deed + ARROW + wanted[:place] + other(wanted[place]) + wanted[place + 1 :]


def is_reported(row, output):
    return any(row in line for line in output.split("\n"))


def main(words):
    if not 1 <= len(words) <= 3:
        sys.exit(__doc__)
    crate = CRATES / words[0]
    count = int(words[1]) if len(words) > 1 else 20
    program = pathlib.Path(words[2] if len(words) > 2 else crate / "out" / words[0]).resolve()
    rows = (crate / "stdin").read_text().split("\n")
    if rows[-1] == "":
        rows.pop()
    chosen = spread([i for i, row in enumerate(rows) if ARROW in row and not row.startswith("#")], count)
    if not chosen:
        sys.exit(f"{words[0]}: no row has a result")
    missed = []
    with tempfile.TemporaryDirectory() as place:
        folder = pathlib.Path(place) / "data"
        if (crate / "data").exists():
            shutil.copytree(crate / "data", folder)
        else:
            folder.mkdir()
        if run(crate, program, rows, folder) != (crate / "stdout").read_text():
            sys.exit(f"{words[0]}: the rows as they stand come to something else than its file stdout")
        for turn, i in enumerate(chosen):
            row = spoilt(rows[i], turn)
            if not is_reported(row, run(crate, program, rows[:i] + [row] + rows[i + 1 :], folder)):
                missed.append(row)
    for row in missed:
        print(f"not reported: {row}")
    print(f"{words[0]}: {len(chosen) - len(missed)} of {len(chosen)} reported")
    return 1 if missed else 0


if __name__ == "__main__":
    sys.exit(main(sys.argv[1:]))
