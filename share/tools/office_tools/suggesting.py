"""Suggestions of programs: for untranslated messages alone, under numbers that stand for what is suggested."""
import collections

from office_tools import NOT_DONE, DONE
from office_tools.lines import put
from office_tools.replies import in_words, word_of
from office_tools.requests import compact, shown

# What becomes of a message, as it is told.
SUGGESTED, BEFORE, FOUND, LEFT_OUT, UNSENT = "suggested", "suggested before", "found", "left out", "not done"


def untranslated(messages):
    """Those of an export's messages that have no text at all."""
    return [it for it in messages.values() if not it.obsolete and not it.fuzzy and not any(it.forms)]


def is_suggested(view, number):
    return any(it["number"] == number for it in view.get("suggestions", ()))


def suggest(office, unit, forms, number):
    """Suggests these forms for a unit under a number that it may have had before. Returns what became of that, and why."""
    status, view = office.view(unit)
    if status != 200:
        return UNSENT, in_words(status, view)
    if view["state"] != "untranslated":
        return LEFT_OUT, f"it is {view['state']}"
    if is_suggested(view, number):
        return BEFORE, ""
    status, body = office.send({"act": "suggest", **unit, "forms": forms, "number": number, "seen": view["revision"]})
    if word_of(body) in ("same", "number-used"):
        return BEFORE, ""
    if status != 200:
        return UNSENT, in_words(status, body)
    # The reply to a suggestion that was dismissed since is a repeat of its first.
    return (SUGGESTED if is_suggested(office.view(unit)[1], number) else BEFORE), ""


class Telling:
    """Tells what became of each message, and counts it."""

    def __init__(self):
        self.counts = collections.Counter()

    def tell(self, message, what, forms=None, why=""):
        self.counts[what] += 1
        put(f"{what}: {shown(message)}" + (f": {compact(forms)}" if forms else "") + (f" ({why})" if why else ""))

    def status(self, nothing):
        put(", ".join(f"{count} {what}" for what, count in sorted(self.counts.items())) or nothing)
        return NOT_DONE if self.counts[UNSENT] else DONE
