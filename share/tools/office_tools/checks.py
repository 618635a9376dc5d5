"""What msgfmt, pofilter and i18nspector find in a language's text, message by message."""
import collections
import fnmatch
import pathlib
import re
import shutil
import subprocess
import tempfile

from office_tools import Fault, po
from office_tools.files import bytes_of
from office_tools.requests import compact

# What each tool stands in, in Debian.
PACKAGES = {"msgfmt": "gettext", "pofilter": "translate-toolkit", "i18nspector": "i18nspector"}
ERROR, WARNING, NOTE = SEVERITIES = ("error", "warning", "note")
OFF, AS_IT_IS = "off", "on"
# How long a tool may take for a language, in seconds.
PATIENCE = 900

# A finding at a message; one of the header has the key of none.
Finding = collections.namedtuple("Finding", "key tool name text severity")
HEADER = (None, "")


def installed(tools):
    """Which of these tools are there."""
    return [it for it in tools if shutil.which(it)]


def said_by(words, folder):
    """The status, the output and the second output of a tool."""
    try:
        done = subprocess.run(words, capture_output=True, env=po.ENVIRONMENT, cwd=folder, timeout=PATIENCE, check=False, stdin=subprocess.DEVNULL)
    except OSError as why:
        raise Fault(f"{words[0]}: {why.strerror}") from None
    except subprocess.TimeoutExpired:
        raise Fault(f"{words[0]} takes longer than {PATIENCE} seconds") from None
    return done.returncode, done.stdout.decode(errors="replace"), done.stderr.decode(errors="replace")


def to_check(export):
    """A text as tools read it: without what nobody translates any more, and of comments with the flags alone, since others may say anything."""
    text = po.gettext("msgattrib", "--no-obsolete", "--no-wrap", "--force-po", "-", given=export.encode()).decode()
    return "".join(line + "\n" for line in text.split("\n")[:-1] if not line.startswith("#") or line.startswith("#,"))


# ---- msgfmt

MSGFMT_LINE = re.compile(r"([^:\n]+):(\d+): (?:(warning|error): )?(.*)")
# Its findings have no names of their own; these are by what they say.
MSGFMT_NAMES = [
    ("line-ends", r"both (?:begin|end) with"),
    ("header", r"header (?:field|entry)|charset|encoding"),
    ("plural-forms", r"plural (?:form|expression|handling)|nplurals"),
    ("accelerator", r"accelerator"),
    ("format", r"format|directive|argument|placeholder"),
]


def msgfmt_findings(lang, text, folder):
    """What `msgfmt -c` finds; a line that it names is one of a message."""
    status, _, said = said_by(["msgfmt", "--check", "--output-file=/dev/null", f"{lang}.po"], folder)
    keys, found = keys_by_line(text), []
    for line in said.split("\n"):
        start = MSGFMT_LINE.fullmatch(line)
        if start and start[1] == f"{lang}.po":
            name = next((name for name, pattern in MSGFMT_NAMES if re.search(pattern, start[4])), "other")
            found.append(Finding(keys.get(int(start[2]), HEADER), "msgfmt", name, start[4], start[3] or ERROR))
        elif line.startswith(" ") and found:
            found[-1] = found[-1]._replace(text=f"{found[-1].text} {line.strip()}")
    if status and not any(it.severity == ERROR for it in found):
        raise Fault(po.reason_of("msgfmt", said))
    return found


def keys_by_line(text):
    """The keys of messages by the numbers of their lines."""
    found, number = {}, 1
    for block in text.removesuffix("\n").split("\n\n"):
        lines = block.split("\n")
        message = po.message_of(lines)
        found.update({number + n: message.key for n in range(len(lines)) if message})
        number += len(lines) + 1
    return found


# ---- pofilter

# Its own classes, which its command doesn't print: what it calls critical, and cosmetic. What only tells a message's state is no finding.
CRITICAL = {"dialogsizes", "escapes", "newlines", "nplurals", "printf", "pythonbraceformat", "tabs", "validxml", "variables", "xmltags"}
COSMETIC = {
    *("accelerators", "brackets", "doublequoting", "doublespacing", "doublewords", "endpunc", "endwhitespace", "puncspacing", "simplecaps"),
    *("simpleplurals", "singlequoting", "startcaps", "startpunc", "startwhitespace", "validchars"),
}
STATES = ("hassuggestion", "isfuzzy", "isreview", "untranslated")
POFILTER_NOTE = re.compile(r"\(pofilter\) ([a-z]+): (.*)")


def pofilter_findings(lang, _, folder):
    """What pofilter finds, which it writes in the comments of the messages."""
    words = ["pofilter", "--progress=none", f"--language={lang}", *(f"--excludefilter={it}" for it in STATES), f"{lang}.po", "found.po"]
    status, _, said = said_by(words, folder)
    if status or not pathlib.Path(folder, "found.po").exists():
        # Where it finds nothing, it writes nothing.
        if status:
            raise Fault(po.reason_of("pofilter", said))
        return []
    marked = po.messages(po.utf8(bytes_of(pathlib.Path(folder, "found.po"))))
    return [it for key, message in marked.items() for it in notes_at(key, message.comments["#"])]


def notes_at(key, comments):
    found = []
    for line in comments:
        note = POFILTER_NOTE.fullmatch(line)
        if note:
            severity = ERROR if note[1] in CRITICAL else NOTE if note[1] in COSMETIC else WARNING
            found.append(Finding(key, "pofilter", note[1], note[2], severity))
        elif found:
            found[-1] = found[-1]._replace(text=f"{found[-1].text} {line}")
    return found


# ---- i18nspector

I18NSPECTOR_LINE = re.compile(r"([EWIP]): ([^:]+): ([a-z0-9-]+)(?: (.*))?")
LETTERS = {"E": ERROR, "W": WARNING, "I": NOTE, "P": NOTE}


def i18nspector_findings(lang, text, folder):
    """What i18nspector finds, which names messages by their texts."""
    status, out, said = said_by(["i18nspector", f"{lang}.po"], folder)
    names = {named_by_i18nspector(*it): it for it in po.messages(text)}
    found = []
    for line in out.split("\n"):
        parts = I18NSPECTOR_LINE.fullmatch(line)
        if parts and parts[2] == f"{lang}.po":
            name, rest = longest_name(names, parts[4] or "")
            found.append(Finding(names.get(name, HEADER), "i18nspector", parts[3], rest or parts[3].replace("-", " "), LETTERS[parts[1]]))
        elif line:
            raise Fault(f"i18nspector said what isn't read here: {line}")
    if status and not found:
        raise Fault(po.reason_of("i18nspector", said))
    return found


def escaped(text):
    """A text as i18nspector prints it."""
    if not text:
        return "(empty string)"
    return text if re.fullmatch(r"[A-Za-z0-9_.!<>=-]+", text) else repr(text)


def named_by_i18nspector(context, msgid):
    return f"msgid {escaped(msgid)}" + ("" if context is None else f" msgctxt {escaped(context)}")


def longest_name(names, said):
    """The longest of these names with which a text begins, and what stands behind it; no name, and the text, where it begins with none."""
    ends = [it.start() for it in re.finditer(r"[: ]|$", said)]
    end = max((it for it in ends if said[:it] in names), default=0)
    return said[:end], said[end:].lstrip(": ")


# ---- all of them

TOOLS = {"msgfmt": msgfmt_findings, "pofilter": pofilter_findings, "i18nspector": i18nspector_findings}


def findings(tools, wanted, lang, export):
    """What these tools find in an export that is wanted, in the order of its messages, the header's first."""
    text = to_check(export)
    with tempfile.TemporaryDirectory(prefix="office-check-") as folder:
        pathlib.Path(folder, f"{lang}.po").write_text(text, encoding="utf-8")
        found = [it for tool in tools for it in TOOLS[tool](lang, text, folder)]
    places = {key: place for place, key in enumerate([HEADER, *po.messages(text)])}
    return sorted(filter(None, map(wanted.of, found)), key=lambda it: places.get(it.key, -1))


class Wanted:
    """A project's list of the findings that it wants: lines of a pattern and a word, of which the last that fits counts."""

    def __init__(self, path):
        self.lines = []
        if path is None:
            return
        for number, line in enumerate(bytes_of(path).decode(errors="replace").split("\n"), 1):
            words = line.partition("#")[0].split()
            if words and (len(words) != 2 or words[1] not in (*SEVERITIES, OFF, AS_IT_IS)):
                raise Fault(f"{path}: line {number} is no pattern of TOOL/NAME and one of {', '.join((*SEVERITIES, OFF, AS_IT_IS))}")
            self.lines += [words] if words else []

    def of(self, finding):
        """A finding as the project wants it; None where it doesn't."""
        path = f"{finding.tool}/{finding.name}"
        word = next((word for pattern, word in reversed(self.lines) if fnmatch.fnmatchcase(path, pattern)), AS_IT_IS)
        if word == OFF:
            return None
        return finding if word == AS_IT_IS else finding._replace(severity=word)


def object_of(finding):
    """A finding as JSON has it."""
    context, msgid = finding.key
    fields = {"id": msgid, "tool": finding.tool, "name": finding.name, "text": finding.text, "severity": finding.severity}
    return fields if context is None else {**fields, "context": context}


def line_of(finding):
    """A finding as a line has it."""
    context, msgid = finding.key
    named = "the header" if finding.key == HEADER else " ".join(compact(it) for it in (context, msgid) if it is not None)
    return f"{finding.severity}: {named}: {finding.tool}/{finding.name}: {finding.text}"
