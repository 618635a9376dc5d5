#!/usr/bin/env python3
"""Proves and builds the program that keeps offices in files, outside the gate, and prints where it is.

    tests/store/build.py [FOLDER]     (FOLDER is /tmp/office-store-program where none is given)

Its files stand in this folder and not under crates/, since it would cost the gate ten minutes; they are called *.rt.txt, as the
gate takes code from crates/ alone. It is built as the crate stored_offices in a copy of the repository, which stays in FOLDER for the next
time. From nothing that takes as long as the crates below it.
"""
import filecmp
import pathlib
import shutil
import subprocess
import sys
import tempfile

TOP = pathlib.Path(__file__).resolve().parent.parent.parent
FOLDER = pathlib.Path("/tmp/office-store-program")
NAME = "stored_offices"
STANDS_ON = "store_sql office tables request_book units po_text sqlite anyhow"


def program_in(folder):
    return folder / "crates" / NAME / "out" / NAME


def put(source, to):
    """Copies a file where it differs, so that what was built of it stays."""
    to.parent.mkdir(parents=True, exist_ok=True)
    if not to.is_file() or not filecmp.cmp(source, to, shallow=False):
        shutil.copyfile(source, to)


def copied(folder):
    """Brings the copy up to date."""
    parts = [it for crate in (TOP / "crates").iterdir() for it in (crate / part for part in ("src", "specs", "proofs")) if it.is_dir()]
    files = {it.relative_to(TOP): it for part in parts for it in part.rglob("*") if it.is_file()}
    for it in pathlib.Path(__file__).parent.glob("*.rt.txt"):
        files[pathlib.Path("crates", NAME, "src", it.name.removesuffix(".txt"))] = it
    for name, source in files.items():
        put(source, folder / name)
    for part in ("src", "specs", "proofs"):
        for it in folder.glob(f"crates/*/{part}/**/*"):
            if it.is_file() and it.relative_to(folder) not in files:
                it.unlink()
    (folder / "crates.txt").write_text((TOP / "crates.txt").read_text() + f"{NAME}: {STANDS_ON}\n")
    put(TOP / "HANDLES", folder / "HANDLES")


def main(words):
    folder = pathlib.Path(words[0]).resolve() if words else FOLDER
    copied(folder)
    with tempfile.TemporaryDirectory() as place:
        done = subprocess.run(
            ["rt", "run", "--", "acts", f"{place}/first.db", "0"], cwd=folder / "crates" / NAME, stdin=subprocess.DEVNULL, capture_output=True, text=True
        )
    if done.returncode:
        print(done.stdout + done.stderr, file=sys.stderr)
        return 1
    print(program_in(folder))
    return 0


if __name__ == "__main__":
    sys.exit(main(sys.argv[1:]))
