"""What the office answers, in words."""
import json

from office_tools import Fault

REFUSALS = {
    "no-language": "the office hasn't this language",
    "no-unit": "the office hasn't this message (any more)",
    "role": "the caller's role doesn't allow it",
    "read-only": "the message is read-only",
    "stale": "the unit was changed since it was seen",
    "approved": "the unit is approved: reviewers alone change it",
    "plural-count": "it has more or fewer forms than the language's plural rule wants",
    "no-suggestion": "there is no such suggestion (any more)",
    "voting-off": "the policy has no voting",
    "reviews-off": "the policy has no reviews",
    "full": "the unit has as many suggestions, or the suggestion as many votes, as there may be",
    "same": "nothing would change",
    "unfit": "its texts don't allow it",
    "language-exists": "the language is there already",
    "po": "the text has a fault",
    "plural-forms": "the header has no plural rule that is right",
    "limit": "a limit of the office would be passed",
    "last-manager": "no manager would be left",
    "domain-exists": "the domain is there already",
    "no-domain": "the office hasn't this domain",
    "number-used": "its number stands with another content or caller",
    "malformed": "the office doesn't read it as a request",
    "memory": "the office had no memory",
    "disk": "the office's disk failed",
}
PO_KINDS = {
    1: "not UTF-8",
    2: "a line of no form",
    3: "a string without its quotes, or with a raw control character",
    4: "a backslash without one of the nine letters",
    5: "a line that can't stand there",
    6: "a form that isn't due",
    7: "an entry that was there before",
    8: "a charset other than UTF-8",
    9: "past a limit of length or number",
}
RULE_FAULTS = {
    0: "there is none",
    1: "it isn't of the grammar",
    2: "nplurals isn't one digit from 1 to 8",
    3: "it has more than 512 bytes, or is deeper than 32",
    4: "it has no value at {at}",
    5: "its value at {at} isn't below nplurals",
}


# What an answer of these routes has, where it is one: each field with its type.
VIEW = {"revision": int, "state": str, "suggestions": list}
SUGGESTION = {"number": str}


def value_of(text):
    """The value of a JSON text; None of another text, and of one that is deeper than the office's own may be."""
    try:
        return json.loads(text)
    except (ValueError, RecursionError):
        return None


def body_of(text):
    """A reply's body; an empty one where the text is none, as a front's own answer may be."""
    body = value_of(text)
    return body if isinstance(body, dict) else {}


def has_fields(value, fields):
    """Whether a value is an object with these fields, each of its type. Truth values are no numbers."""
    return isinstance(value, dict) and all(type(value.get(name)) is kind for name, kind in fields.items())


def has_forms(value, fields):
    """Whether a value is an object with these fields and with forms, each of them a text."""
    return has_fields(value, {**fields, "forms": list}) and all(isinstance(it, str) for it in value["forms"])


def view_of(text, more=None):
    """The view of a unit that an answer of 200 has, with these fields more."""
    view = value_of(text)
    if not has_forms(view, {**VIEW, **(more or {})}) or not all(has_forms(it, SUGGESTION) for it in view["suggestions"]):
        raise Fault("its answer is no view of a message: is an office there?")
    return view


def reply_of(text):
    """The body of a reply of 200, an object."""
    body = value_of(text)
    if not isinstance(body, dict):
        raise Fault("its answer is no reply to a request: is an office there?")
    return body


def word_of(body):
    """The name of a refusal, or the word of an error; None of what was done."""
    word = body.get("refusal", body.get("error"))
    return word if isinstance(word, str) else None


def number_in(body, name):
    """A number that a body has; None where it hasn't."""
    value = body.get(name)
    return value if type(value) is int else None


def in_words(status, body):
    """Why something wasn't done."""
    word = word_of(body)
    if word is None:
        return f"answered {status}"
    said = f"{word}: {REFUSALS.get(word, f'answered {status}')}"
    if word == "po":
        kind = number_in(body, "kind")
        said += f", at line {number_in(body, 'line')} as gettext lays it out: {PO_KINDS.get(kind, kind)}"
    if word == "plural-forms":
        fault = number_in(body, "fault")
        said += ": " + RULE_FAULTS.get(fault, str(fault)).format(at=number_in(body, "at"))
    return said
