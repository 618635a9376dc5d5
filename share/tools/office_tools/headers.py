"""The header of a PO text: its fields, and the lines that name its translators."""
import re

from office_tools import po

# The fields in the order in which gettext writes them; others stand behind them.
FIELDS = (
    "Project-Id-Version",
    "Report-Msgid-Bugs-To",
    "POT-Creation-Date",
    "PO-Revision-Date",
    "Last-Translator",
    "Language-Team",
    "Language",
    "MIME-Version",
    "Content-Type",
    "Content-Transfer-Encoding",
    "Plural-Forms",
)
CONTENT_TYPE = "text/plain; charset=UTF-8"
# A line of a translator: a name with an address, and the years.
TRANSLATOR = re.compile(r"# (?P<who>.*?<(?P<address>[^<>]*)>|[^<>,]*), (?P<years>[0-9]{4}(?:[-, ]+[0-9]{4})*)\.?")
# What xgettext and msginit leave to be filled in.
NOBODY = ("# FIRST AUTHOR <EMAIL@ADDRESS>", "# Automatically generated")
PLACEHOLDERS = ("PACKAGE VERSION", "YEAR-MO-DA HO:MI+ZONE", "FULL NAME <EMAIL@ADDRESS>", "LANGUAGE <LL@li.org>")


class Header:
    """The header of a text that gettext or the office laid out."""

    def __init__(self, text):
        block, _, self.rest = text.partition("\n\n")
        lines = po.header_of(text)
        start = lines.index('msgid ""') if lines else 0
        self.comments = lines[:start]
        self.fields = [it for it in po.message_of(lines).forms[0].split("\n") if it] if lines else []
        if not lines:
            self.rest = text

    def get(self, name):
        """A field's value; None where there is none, or one that was never filled in."""
        value = next((it.partition(":")[2].strip(" \t") for it in self.fields if it.startswith(f"{name}:")), None)
        return None if value in PLACEHOLDERS else value

    def set(self, name, value):
        """Sets a field: in its place, or in that which gettext gives it."""
        field = f"{name}: {value}"
        places = [at for at, it in enumerate(self.fields) if it.startswith(f"{name}:")]
        if places:
            self.fields[places[0]] = field
            return
        before = FIELDS[: FIELDS.index(name)] if name in FIELDS else None
        at = max((at + 1 for at, it in enumerate(self.fields) if before is None or it.partition(":")[0] in before), default=0)
        self.fields.insert(at, field)

    def complete(self, lang):
        """Gives fields that gettext's checks ask for and that say nothing of anybody."""
        for name, value in (("Language", lang), ("MIME-Version", "1.0"), ("Content-Transfer-Encoding", "8bit")):
            if not self.get(name):
                self.set(name, value)
        if "charset=UTF-8" not in (self.get("Content-Type") or "").replace("utf-8", "UTF-8"):
            self.set("Content-Type", CONTENT_TYPE)

    def name_translator(self, person, year):
        """Names a translator in the comment, with a year, as gettext's manual has it: `# NAME <ADDRESS>, YEAR, YEAR.`"""
        self.comments = [it for it in self.comments if not it.startswith(NOBODY)]
        found = [(at, it) for at, it in enumerate(map(TRANSLATOR.fullmatch, self.comments)) if it]
        for at, it in found:
            if it["who"] == str(person) or person.address and it["address"] == person.address:
                if year not in years_of(it["years"]):
                    self.comments[at] = f"# {it['who']}, {it['years'].rstrip(', ')}, {year}."
                return
        self.comments.insert(found[-1][0] + 1 if found else self.end_of_comment(), f"# {person}, {year}.")

    def end_of_comment(self):
        """The place behind the translators' last line that says something."""
        return max((at + 1 for at, it in enumerate(self.comments) if it.startswith("# ")), default=0)

    def is_done(self):
        """Takes out the mark that a header has until somebody fills it in."""
        flags = [it for it in self.comments if it.startswith("#,")]
        self.comments = [it for it in self.comments if it not in flags] + without_fuzzy(flags)

    def text(self):
        """The text with this header, as the office writes one."""
        lines = [*self.comments, 'msgid ""', 'msgstr ""', *(f'"{po.escaped(it)}\\n"' for it in self.fields)]
        return "\n".join(lines) + ("\n\n" + self.rest if self.rest else "\n")


def years_of(text):
    """The years of a translator's line, of which some may be given as a range."""
    found = set()
    for first, last in re.findall(r"([0-9]{4})(?: *- *([0-9]{4}))?", text):
        found |= set(range(int(first), int(last or first) + 1))
    return found


def without_fuzzy(flags):
    """Lines of flags without fuzzy."""
    kept = ", ".join(flag for line in flags for flag in (it.strip() for it in line[2:].split(",")) if flag and flag != "fuzzy")
    return [f"#, {kept}"] if kept else []
