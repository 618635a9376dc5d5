"""Limits of the office, as docs/FORMATS.md has them, and which of them a text passes."""
from office_tools import po
from office_tools.replies import word_of
from office_tools.requests import compact

BYTES, ENTRIES, STRING, UNITS, LINE = 16_777_216, 50_000, 262_144, 150_000, 22_000_000


def is_passed(body):
    """Whether a refusal of a template or a language is one of a limit."""
    word = word_of(body)
    return word in ("limit", "malformed") or word == "po" and body.get("kind") == 9


def passed_by_request(request):
    """The limit that a request of a template or a language passes by itself, with its number; None where it keeps them."""
    return passed_by_line(request) or passed_by_text(request["po"])


def passed_by_text(text):
    """The limit of a PO text that this one passes, with its number; None where it keeps them."""
    size = len(text.encode())
    if size > BYTES:
        return f"its text has {size:,} bytes, and a text at most {BYTES:,}"
    messages = po.messages_in(text)
    if len(messages) > ENTRIES:
        return f"its text has {len(messages):,} entries, and a text at most {ENTRIES:,}"
    longest = max((len(it.encode()) for message in messages.values() for it in strings_of(message)), default=0)
    if longest > STRING:
        return f"a string of its text has {longest:,} bytes, and a string at most {STRING:,}"
    return None


def strings_of(message):
    return [it for it in (message.context, message.msgid, message.plural, *message.forms) if it]


def passed_by_line(request):
    """The limit that a request's line passes, with its number; None where it keeps it."""
    size = len(compact(request).encode())
    return f"its request has {size:,} bytes, and a line at most {LINE:,}" if size > LINE else None


def passed_by_units(requests):
    """The limit of a language's units, with the number that the largest language would have behind these requests of templates and languages."""
    template, units = set(), {}
    for it in requests:
        messages = po.messages_in(it["po"])
        if it["act"] == "template":
            template = set(messages)
            units = {lang: keys | template for lang, keys in units.items()}
        else:
            units[it["lang"]] = template | {key for key, message in messages.items() if any(message.forms)}
    lang, most = max(((lang, len(keys)) for lang, keys in units.items()), key=lambda it: it[1], default=("a language", len(template)))
    return f"{lang} would have {most:,} units, and a language at most {UNITS:,}"
