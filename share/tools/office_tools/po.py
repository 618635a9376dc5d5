"""PO texts, by GNU gettext: brought to UTF-8, given the plural rule that gettext knows, and read as messages."""
from __future__ import annotations

import dataclasses
import os
import re
import subprocess

from office_tools import LANG, Fault

# Where Debian's unicode-cldr-core has the plural rules of more languages than gettext's own table.
CLDR = "/usr/share/unicode/cldr"
ENVIRONMENT = {**({"GETTEXTCLDRDIR": CLDR} if os.path.isdir(CLDR) else {}), **os.environ, "LC_ALL": "C.UTF-8"}
EMPTY = """msgid ""
msgstr ""
"Content-Type: text/plain; charset=UTF-8\\n"
"Plural-Forms: nplurals=INTEGER; plural=EXPRESSION;\\n"
"""
PLURAL_FORMS = re.compile(r'"Plural-Forms: *(nplurals *= *([0-9]).*?)(?:\\n)?"')
MESSAGE_LINE = re.compile(r'(?:(msgctxt|msgid|msgid_plural|msgstr(?:\[\d+\])?) )?"(.*)"')
ESCAPES = {"n": "\n", "t": "\t", "r": "\r", "a": "\a", "b": "\b", "f": "\f", "v": "\v", '"': '"', "\\": "\\"}
LETTERS = {character: "\\" + letter for letter, character in ESCAPES.items()}


@dataclasses.dataclass
class Message:
    """A message of a PO text. A message without a context has None there."""

    context: str | None = None
    msgid: str = ""
    plural: str | None = None
    forms: list = dataclasses.field(default_factory=list)
    fuzzy: bool = False
    obsolete: bool = False
    comments: dict = dataclasses.field(default_factory=dict)
    previous: dict = dataclasses.field(default_factory=dict)

    @property
    def key(self):
        return self.context, self.msgid


def gettext(*words, given=None):
    """What a program of GNU gettext prints, of these bytes where some are given."""
    try:
        done = subprocess.run(words, input=given, capture_output=True, env=ENVIRONMENT, check=False)
    except FileNotFoundError:
        raise Fault(f"{words[0]} is not there: GNU gettext has it") from None
    if done.returncode:
        raise Fault(reason_of(words[0], done.stderr.decode(errors="replace")))
    return done.stdout


def reason_of(program, said):
    """What a program says of a text, on one line."""
    lines = [it.strip() for it in said.split("\n") if it.strip() and not it.startswith(" ")]
    return f"{program}: " + "; ".join(it.removeprefix(f"{program}: ").removeprefix("<stdin>:") for it in lines[:3])


def with_charset(data):
    """The bytes with a charset in their header, where they are UTF-8 and don't say so; gettext takes them for ASCII else."""
    if data.isascii() or b"charset=" in data.split(b"\n\n", 1)[0] or not is_utf8(data):
        return data
    field = b'"Content-Type: text/plain; charset=UTF-8\\n"\n'
    header = re.search(rb'^msgid ""\nmsgstr (?=")', data, re.M)
    if header and not re.search(rb"^msg", data[: header.start()], re.M):
        return data[: header.end()] + b'""\n' + field + data[header.end() :]
    return b'msgid ""\nmsgstr ""\n' + field + b"\n" + data


def is_utf8(data):
    try:
        data.decode()
    except UnicodeDecodeError:
        return False
    return True


def utf8(data):
    """The text of these bytes in UTF-8 with LF as line end, as gettext lays it out, no line broken at a width."""
    data = data.removeprefix(b"\xef\xbb\xbf").replace(b"\r\n", b"\n")
    # As xgettext leaves it in a template.
    data = with_charset(data.replace(b"charset=CHARSET", b"charset=UTF-8", 1))
    text = gettext("msgconv", "--to-code=UTF-8", "--no-wrap", "--force-po", "-", given=data).decode()
    # A header of one field stands on one line.
    return re.sub(r'^msgid ""\nmsgstr "(?!"$)', 'msgid ""\nmsgstr ""\n"', text, count=1, flags=re.M)


def header_of(text):
    """The header's lines, where gettext laid the text out; none where it has no header."""
    lines = text.split("\n\n", 1)[0].rstrip("\n").split("\n")
    start = next((at for at, line in enumerate(lines) if line == 'msgid ""'), None)
    has_header = start is not None and lines[start + 1].startswith("msgstr ") and not any(it.startswith("msgctxt") for it in lines)
    return lines if has_header else []


def plural_forms(text):
    """The value of the header's Plural-Forms and its number of forms; None where it has none, or none that says a number."""
    found = next(filter(None, map(PLURAL_FORMS.fullmatch, header_of(text))), None)
    return found and (found[1], int(found[2]))


def known_rule(lang):
    """The plural rule that gettext knows for a language, or None."""
    words = ["msginit", "--no-translator", "--no-wrap", f"--locale={lang}", "--input=-", "--output-file=-"]
    try:
        done = subprocess.run(words, input=EMPTY.encode(), capture_output=True, env=ENVIRONMENT, check=False)
    except FileNotFoundError:
        raise Fault("msginit is not there: GNU gettext has it") from None
    found = plural_forms(done.stdout.decode(errors="replace")) if done.returncode == 0 else None
    return found and found[0]


def begun(template, lang):
    """The text with which msginit begins a language of a template."""
    words = ["msginit", "--no-translator", "--no-wrap", f"--locale={lang}", "--input=-", "--output-file=-"]
    return utf8(gettext(*words, given=template.encode()))


def with_plural_forms(text, rule):
    """The text with this rule as its header's last field, in the place of what stood there."""
    field = f'"Plural-Forms: {rule}\\n"'
    header = header_of(text)
    if not header:
        return "\n".join(['msgid ""', 'msgstr ""', '"Content-Type: text/plain; charset=UTF-8\\n"', field, "", text])
    rest = text[len("\n".join(header)) :]
    kept = [it for it in header if not it.startswith('"Plural-Forms:')]
    if not kept[-1].endswith(('\\n"', ' ""')):
        kept[-1] = kept[-1][:-1] + '\\n"'
    return "\n".join([*kept, field]) + rest


def rule(text):
    """LANG=RULE, as a word of the command line."""
    lang, sign, value = text.partition("=")
    if not sign or not LANG.fullmatch(lang) or not PLURAL_FORMS.fullmatch(f'"Plural-Forms: {value}"'):
        raise ValueError(text)
    return lang, value


def with_rule(lang, text, told_rules):
    """The text with a plural rule in its header, and the rule that was put in: the one that was told, or that gettext knows; None where
    it has its own."""
    if plural_forms(text):
        return text, None
    found = told_rules.get(lang) or known_rule(lang)
    if found is None:
        raise Fault(f"its header has no Plural-Forms, and gettext knows no rule for it: --plural-forms '{lang}=RULE' tells one")
    return with_plural_forms(text, found), found


def unescaped(piece):
    return re.sub(r"\\(.)", lambda it: ESCAPES[it[1]], piece)


def escaped(text):
    return "".join(LETTERS.get(it, it) for it in text)


def strings_in(lines):
    """The strings of an entry's lines, by their keywords."""
    parts, part = {}, None
    for found in filter(None, map(MESSAGE_LINE.fullmatch, lines)):
        part = found[1] or part
        parts[part] = parts.get(part, "") + unescaped(found[2])
    return parts


def comments_in(block):
    """What an entry's comment lines say, by their marks: references word by word, of the flags those of formats."""
    found = {mark: [it[2:].strip(" ") for it in block if it.startswith(mark)] for mark in ("#:", "#.", "#,")}
    flags = sorted(flag for it in found["#,"] for flag in it.replace(",", " ").split() if flag.endswith("-format"))
    own = [it[1:].strip(" ") for it in block if it.startswith("#") and it[1:2] not in tuple(".:,|~=")]
    return {"#:": " ".join(found["#:"]).split(), "#.": found["#."], "#,": flags, "#": own}


def message_of(block):
    """The message of an entry's lines, where gettext or the office laid them out; None where there is none."""
    message = Message(comments=comments_in(block))
    for line in block:
        message.fuzzy |= line.startswith("#,") and "fuzzy" in line[2:].replace(" ", "").split(",")
        message.obsolete |= line.startswith("#~ ")
    message.previous = strings_in(it.removeprefix("#~| ").removeprefix("#| ") for it in block if it.startswith(("#| ", "#~| ")))
    parts = strings_in(it.removeprefix("#~ ") for it in block)
    if "msgid" not in parts:
        return None
    message.context, message.msgid, message.plural = parts.get("msgctxt"), parts["msgid"], parts.get("msgid_plural")
    message.forms = [text for name, text in parts.items() if name.startswith("msgstr")]
    return message


def laid_out(text):
    """The text as gettext lays it out, no line broken at a width."""
    return gettext("msgcat", "--to-code=UTF-8", "--no-wrap", "--force-po", "-", given=text.encode()).decode()


def messages_in(text):
    """The messages of a text that gettext or the office laid out, without its header, by their keys."""
    found = (message_of(it.split("\n")) for it in text.split("\n\n"))
    return {it.key: it for it in found if it and it.key != (None, "")}


def messages(text):
    """The messages of a text that `utf8` gave, without its header, by their keys."""
    return messages_in(laid_out(text))
