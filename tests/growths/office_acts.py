#!/usr/bin/env python3
"""Runs acts on the office, templates, languages, policies and a role, with each growth refused in turn.

`office deliver` gets each line twice: a line that is lost for want of memory acts when it comes again. So either all is as
with ample memory; or one line is answered `503 {"error":"memory"}`, and the others and the export are as ever; or the export
ends in fault 3 behind a beginning of its text; or the office can't be opened; or the words can't be read. Of each kind of act
on the office some growths have to be met.

Usage: tests/growths/office_acts.py [PROGRAM]   (from the top of the repository, after ./office --version has built the
program; wants cc)
"""
import collections
import json
import os
import subprocess
import sys
import tempfile

PROGRAM = sys.argv[1] if len(sys.argv) > 1 else os.path.join("crates", "cli", "out", "cli")
MEMORY = '503 {"error":"memory"}\n'


def request(number, caller, act, **fields):
    fields.update(act=act, caller=caller, number="00000000-0000-4000-8000-%012d" % number)
    return json.dumps(fields, sort_keys=True, separators=(",", ":")) + "\n"


def policy(number, reviews):
    return request(
        number, "root", "policy", accept_at=0, guests_suggest=False, line_ends=False, placeholders=False,
        reviews=reviews, voting=False,
    )


def counts(added, changed, kept, obsolete, revived):
    return '{"added":%d,"changed":%d,"kept":%d,"obsolete":%d,"revived":%d}' % (added, changed, kept, obsolete, revived)


FRENCH = (
    'msgid ""\nmsgstr "Plural-Forms: nplurals=2; plural=n>1;\\n"\n\nmsgid "Hello"\nmsgstr "Bonjour"\n\n'
    '#~ msgid "Old"\n#~ msgstr "Vieux"\n'
)
# Each line with the body of its reply, which is 200.
ROWS = [
    (
        request(1, "ann", "translate", forms=["Hallo"], id="Hello", lang="de", seen=1),
        '{"revision":2,"state":"translated"}',
    ),
    (policy(2, True), '{"units":0}'),
    (request(3, "root", "approve", id="Hello", lang="de", seen=2), '{"revision":3,"state":"approved"}'),
    (policy(4, False), '{"units":1}'),
    # The unit has the next revision since it isn't approved.
    (
        request(5, "ann", "translate", forms=["Servus"], id="Hello", lang="de", seen=4),
        '{"revision":5,"state":"translated"}',
    ),
    (request(6, "root", "language", lang="fr", po=FRENCH), '{"loaded":1,"missing":0,"obsolete":1}'),
    (
        request(7, "root", "template", po='msgid "Hello"\nmsgstr ""\n\nmsgid "Bye"\nmsgstr ""\n'),
        '{"languages":{"de":%s,"fr":%s}}' % (counts(1, 0, 1, 0, 0), counts(1, 0, 1, 0, 0)),
    ),
    (request(8, "root", "team", name="bea", role="translator"), '{"name":"bea","role":"translator"}'),
    (
        request(9, "bea", "translate", forms=["Ade"], id="Bye", lang="de", seen=1),
        '{"revision":2,"state":"translated"}',
    ),
    (
        request(10, "root", "template", po='msgid "Bye"\nmsgstr ""\n\nmsgid "Old"\nmsgstr ""\n'),
        '{"languages":{"de":%s,"fr":%s}}' % (counts(1, 0, 1, 1, 0), counts(0, 0, 1, 1, 1)),
    ),
]
EXPORTS = {
    "de": (
        'msgid ""\nmsgstr ""\n"Content-Type: text/plain; charset=UTF-8\\n"\n"Plural-Forms: nplurals=2; plural=n != 1;\\n"\n\n'
        'msgid "Bye"\nmsgstr "Ade"\n\nmsgid "Old"\nmsgstr ""\n\n#~ msgid "Hello"\n#~ msgstr "Servus"\n'
    ),
    "fr": (
        'msgid ""\nmsgstr "Plural-Forms: nplurals=2; plural=n>1;\\n"\n\n'
        'msgid "Bye"\nmsgstr ""\n\nmsgid "Old"\nmsgstr "Vieux"\n\n#~ msgid "Hello"\n#~ msgstr "Bonjour"\n'
    ),
}
LINES = [line for line, _ in ROWS for _ in range(2)]
REPLIES = ["200 %s\n" % body for _, body in ROWS for _ in range(2)]
WANTED = {"template", "language", "policy", "team"}


def run(library, lang, number):
    environment = dict(os.environ, LD_PRELOAD=library, FAIL_N=str(number))
    words = [PROGRAM, "deliver", "--demo", "--export", lang]
    done = subprocess.run(words, input="".join(LINES).encode(), capture_output=True, env=environment)
    return done.returncode, done.stdout.decode(), done.stderr.decode()


def lost_act(replies):
    """The act of the one line that was lost, where the others are as ever."""
    places = [i for i, reply in enumerate(replies) if reply == MEMORY]
    if len(places) != 1 or replies != REPLIES[: places[0]] + [MEMORY] + REPLIES[places[0] + 1 :]:
        return None
    return json.loads(LINES[places[0]])["act"]


def judged(lang, status, out, faults):
    """What came of a run, or None where it is none of what may come."""
    replies, export = out.splitlines(True)[: len(LINES)], EXPORTS[lang]
    rest = out[len("".join(replies)) :]
    if (status, rest, faults) == (0, export, ""):
        return "as ever" if replies == REPLIES else lost_act(replies)
    if replies == REPLIES and export.startswith(rest) and rest != export:
        if (status, faults) == (1, "export fault 3\n"):
            return "export fault 3"
    if out == "" and status == 1 and faults in ("", "error: out of memory\n", "store fault 1\n"):
        return "not begun"
    return None


def sweep(library, lang):
    found = collections.Counter()
    number, quiet = 0, 0
    # Behind the last growth nothing is refused: fifty runs in a row are as ever.
    while quiet < 50:
        number += 1
        outcome = run(library, lang, number)
        kind = judged(lang, *outcome)
        if kind is None:
            raise SystemExit("export of %s, growth %d refused: %r" % (lang, number, outcome))
        found[kind] += 1
        quiet = quiet + 1 if kind == "as ever" else 0
    if not WANTED <= set(found):
        raise SystemExit("export of %s: %r" % (lang, found))
    print("export of %s: %s" % (lang, ", ".join("%d %s" % (n, kind) for kind, n in sorted(found.items()))))


def main():
    with tempfile.TemporaryDirectory() as folder:
        library = os.path.join(folder, "refuse.so")
        source = os.path.join("tests", "growths", "refuse.c")
        subprocess.run(["cc", "-O1", "-shared", "-fPIC", "-o", library, source, "-ldl"], check=True)
        for lang in EXPORTS:
            sweep(library, lang)


if __name__ == "__main__":
    main()
