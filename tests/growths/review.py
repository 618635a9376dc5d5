#!/usr/bin/env python3
"""Runs one act of each kind with each of its growths refused in turn.

The rows are those of crates/cases_model/stdin behind `# One act of each kind`. With a growth refused there either is no unit, no
request, no row or no text of what came ("beside the decision"), or the decision answers want of memory and, made again, is what
it is with ample memory ("of the decision"). Never may the act come to anything else.

Usage: tests/growths/review.py        (from the top of the repository, after rt run in crates/cases_model; wants cc)
"""
import os
import subprocess
import tempfile

CRATE = os.path.join("crates", "cases_model")
PROGRAM = os.path.join(CRATE, "out", "cases_model")
PART = "== units"


def rows():
    """Who acts, and then a unit and an act on it, for each kind of act."""
    lines = open(os.path.join(CRATE, "stdin")).read().splitlines()
    first = next(i for i, line in enumerate(lines) if line.startswith("# One act of each kind")) + 1
    ends = [i for i, line in enumerate(lines) if i > first and line.startswith(("#", "== "))] + [len(lines)]
    by, *others = lines[first : ends[0]]
    pairs = list(zip(others[::2], others[1::2]))
    if len({act.split(" ")[2].split("|")[0] for _, act in pairs}) != 8 or len(pairs) != 8:
        raise SystemExit("not each kind of act: %r" % others)
    return by, pairs


def run(library, given, number):
    environment = dict(os.environ, LD_PRELOAD=library, FAIL_N=str(number))
    done = subprocess.run([PROGRAM], input=given.encode(), capture_output=True, env=environment)
    return done.returncode, done.stdout.decode(), done.stderr.decode()


def kind_of(outcome, unit, act):
    """What came of a run, or None where it is none of what may come."""
    wanted = act.split(" -> ")[1]
    kinds = {
        (0, "4 rows\n", ""): "as ever",
        (0, "%s, not %s after want of memory\n4 rows\n" % (act, wanted), ""): "of the decision",
        (0, "%s: unread\n4 rows\n" % act, ""): "beside the decision",
        (0, "%s: unread\n%s: unread\n4 rows\n" % (unit, act), ""): "beside the decision",
        (1, "", "Error: Kind(OutOfMemory)\n"): "beside the decision",
    }
    return kinds.get(outcome)


def sweep(library, by, unit, act):
    counts = {"beside the decision": 0, "of the decision": 0, "as ever": 0}
    number, quiet = 0, 0
    # Behind the last growth nothing is refused: fifty runs in a row are as ever.
    while quiet < 50:
        number += 1
        outcome = run(library, "".join(row + "\n" for row in (PART, by, unit, act)), number)
        kind = kind_of(outcome, unit, act)
        if kind is None:
            raise SystemExit("%s, growth %d refused: %r" % (act, number, outcome))
        counts[kind] += 1
        quiet = quiet + 1 if kind == "as ever" else 0
    if counts["as ever"] != quiet or counts["of the decision"] == 0:
        raise SystemExit("%s: %r" % (act, counts))
    print("%s: %d growths beside the decision, %d of it" % (act, counts["beside the decision"], counts["of the decision"]))


def main():
    by, pairs = rows()
    with tempfile.TemporaryDirectory() as folder:
        library = os.path.join(folder, "refuse.so")
        source = os.path.join("tests", "growths", "refuse.c")
        subprocess.run(["cc", "-O1", "-shared", "-fPIC", "-o", library, source, "-ldl"], check=True)
        for unit, act in pairs:
            sweep(library, by, unit, act)


if __name__ == "__main__":
    main()
