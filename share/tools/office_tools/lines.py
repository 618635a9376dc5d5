"""Lines that tools print. All that a tool tells goes through `put`: nothing else of the tools writes to a terminal or a log."""
import re
import sys
import traceback

# What a terminal or a reader of logs takes for more than a letter: control characters, marks that turn the direction of writing, line
# ends of Unicode; and halves of surrogate pairs, which no encoding has.
UNSEEN = re.compile("[\0-\x1f\x7f-\x9f\u061c\u200e\u200f\u2028-\u202e\u2066-\u2069\ud800-\udfff]")


def seen(text):
    """The text with an escape, that of JSON, in the place of each character that is no letter to a terminal."""
    return UNSEEN.sub(lambda it: f"\\u{ord(it[0]):04x}", text)


def put(*columns, to=None):
    """Prints a line of these texts, with a tab between them."""
    print("\t".join(map(seen, columns)), file=to or sys.stdout, flush=True)


def put_mistake(kind, why, trace):
    """Prints where a tool went wrong by itself, as Python does."""
    for line in "".join(traceback.format_exception(kind, why, trace)).removesuffix("\n").split("\n"):
        put(line, to=sys.stderr)


def put_mistake_of_thread(it):
    if it.exc_type is not SystemExit:
        put_mistake(it.exc_type, it.exc_value, it.exc_traceback)


def take_any_text(*streams):
    """Has streams write what their encoding lacks as escapes."""
    for it in streams:
        it.reconfigure(errors="backslashreplace")
