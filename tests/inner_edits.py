#!/usr/bin/env python3
"""Tries the must-fail edits that the gate leaves out for time: those of inner functions, crates/NAME/inner-edits/*.edit.

    tests/inner_edits.py [CRATE..]

The prover has to refuse each: `rt must-fail` tries them, with the folder in the place of must-fail/ until it ends. The last line is
'N refused, M not'.
"""
import pathlib
import subprocess
import sys

CRATES = pathlib.Path(__file__).resolve().parent.parent / "crates"
ASIDE = "gate-edits"


def put_aside(crate):
    """Puts the edits of inner functions in the place of the gate's, which a crate need not have."""
    gate = crate / "must-fail"
    gate.mkdir(exist_ok=True)
    gate.rename(crate / ASIDE)
    (crate / "inner-edits").rename(gate)


def put_back():
    """Has each folder at its place, also after a run that was killed."""
    for aside in CRATES.glob(f"*/{ASIDE}"):
        gate = aside.parent / "must-fail"
        gate.rename(aside.parent / "inner-edits")
        aside.rename(gate)
        if not any(gate.iterdir()):
            gate.rmdir()


def count_refused(names):
    """Tries the crates' edits, prints what rt prints, and returns how many it refused."""
    refused = 0
    command = ["rt", "must-fail", *names]
    with subprocess.Popen(command, cwd=CRATES.parent, stdout=subprocess.PIPE, text=True) as rt:
        for line in rt.stdout:
            print(line, end="", flush=True)
            refused += ": refused, as it must be" in line
    return refused


def main(names):
    put_back()
    crates = sorted(it.parent for it in CRATES.glob("*/inner-edits") if not names or it.parent.name in names)
    if not crates:
        sys.exit(f"no edits of inner functions in: {' '.join(names)}")
    edits = sum(len(list(it.glob("inner-edits/*.edit"))) for it in crates)
    try:
        for crate in crates:
            put_aside(crate)
        refused = count_refused([it.name for it in crates])
    finally:
        put_back()
    print(f"{refused} refused, {edits - refused} not")
    return 1 if edits > refused else 0


if __name__ == "__main__":
    sys.exit(main(sys.argv[1:]))
