"""What a project releases: a language's text as the office says it, under a header that names who made it."""
import contextlib
import pathlib
import re
import tempfile

from office_tools import Fault, client, credits, name, po, records, stores
from office_tools.client import Unsaid
from office_tools.files import bytes_of
from office_tools.headers import Header
from office_tools.people import People
from office_tools.requests import MAIN

GENERATOR = "Hirthusk"
# Where a language's file stands in a folder, and the word that its layout has to have.
LAYOUT, WORD = "{lang}.po", "{lang}"
# Fields of a template's header that a language's has too.
OF_TEMPLATE = ("Project-Id-Version", "POT-Creation-Date")


class Unfit(Fault):
    """Why a language's text isn't released, in words."""


def add_words(parser):
    """The words that say what is released, and how it is written."""
    client.add_words(parser, required=False)
    parser.add_argument("--office", metavar="PROGRAM", help="the program that opens a file [default: office, where it is on the path]")
    parser.add_argument("--domain", type=name, default=MAIN, metavar="NAME", help="the domain [default: main]")
    parser.add_argument("--log", type=pathlib.Path, metavar="FILE", help="what office-log --json printed of a copy of the file, where an address is given")
    parser.add_argument("--people", type=pathlib.Path, metavar="FILE", help="who the callers are, a line of 'Ann Example <ann@example.org> ann' each")
    parser.add_argument(
        "--no-person", type=name, action="append", default=[], metavar="NAME", help="a caller who is no person, and isn't named: who brings in a repository's changes, say"
    )
    parser.add_argument("--template", type=pathlib.Path, metavar="FILE", help="the template's file, whose header is taken [default: that of the records]")
    parser.add_argument("--project", metavar="TEXT", help="the header's Project-Id-Version [default: the template's]")
    parser.add_argument("--layout", type=layout, default=LAYOUT, metavar="PATH", help="where a language's file stands in the folder [default: {lang}.po]")
    parser.add_argument("--name", type=text_domain, metavar="NAME", help="what {name} in the layout stands for [default: the domain]")
    parser.add_argument("--msgcat", action="store_true", help="breaks lines as msgcat does")


def layout(text):
    """A layout, as a word of the command line: a path in the folder with {lang}, and perhaps {name}."""
    path = pathlib.PurePosixPath(text)
    filled = text.replace(WORD, "").replace("{name}", "")
    if path.is_absolute() or ".." in path.parts or WORD not in text or path.suffix != ".po" or re.search(r"[{}\0-\x1f]", filled):
        raise ValueError(text)
    return text


def text_domain(text):
    """The name of a text domain, as a word of the command line."""
    if not re.fullmatch(r"[A-Za-z0-9_+@-][A-Za-z0-9_.+@-]*", text):
        raise ValueError(text)
    return text


def path_of(given, lang):
    """The path of a language's file in the folder."""
    return given.layout.replace(WORD, lang).replace("{name}", given.name or given.domain)


def lang_of(given, path):
    """The language whose file this path is; None of another path."""
    pattern = re.escape(given.layout.replace("{name}", given.name or given.domain)).replace(re.escape(WORD), "([A-Za-z][A-Za-z0-9_@-]{1,15})", 1)
    found = re.fullmatch(pattern.replace(re.escape(WORD), r"\1"), path)
    return found and found[1]


@contextlib.contextmanager
def sources(given, but=()):
    """The office, and what its records say, or None where there are none: at an address, or of a copy of a file, which is opened once."""
    people, but = People(given.people), {*but, *given.no_person}
    if given.url:
        found = records.in_log(given.log) if given.log else None
        office = client.Office(given.url, given.caller, given.login, given.tries, given.domain)
        yield office, found and credits.Credits(credits.known(found), given.domain, people, but)
        return
    if given.log:
        raise Fault("--log goes with --url: a file has its records itself")
    with tempfile.TemporaryDirectory(prefix="office-release-") as place:
        copy = records.copy(given.store, pathlib.Path(place))
        found = credits.Credits(credits.known(records.in_copy(copy)), given.domain, people, but)
        with stores.opened(copy, stores.program_of(given.office), domain=given.domain) as office:
            yield office, found


class Release:
    """Makes the texts that are released."""

    def __init__(self, given, office, told):
        self.given, self.office, self.credits, self.said = given, office, told, {}
        self.template = Header(po.utf8(bytes_of(given.template))) if given.template else told and told.template()

    def languages(self, named):
        """The languages that are named, or else all that the office is known to have."""
        found = named or (self.credits.languages() if self.credits else self.office.languages())
        if found is None:
            raise Fault("which languages the office has isn't told there, as a front tells by office.json: name them, or give --log")
        return found

    def take(self, languages):
        """Asks the office for the texts of these languages, one behind the other. Returns why those that it hasn't are missing."""
        missing = []
        for lang in languages:
            try:
                self.said[lang] = self.office.export(lang)
            except Unsaid as fault:
                missing.append(str(fault))
        return missing

    def text_of(self, lang, base=None, behind=None):
        """A language's text as it is released. `base` is a header that takes the place of the office's own; credits begin behind the record
        of a number. What comes out is compared with what the office said."""
        said = self.said[lang]
        text = self.under_header(Header(said), lang, base, behind).text()
        if self.given.msgcat:
            text = po.gettext("msgcat", "--force-po", "-", given=text.encode()).decode()
        if po.messages_in(said) != po.messages(text):
            raise Unfit(f"{lang}: what was written isn't what the office said")
        return text

    def under_header(self, header, lang, base, behind):
        """The header that a language is released with."""
        if base:
            rule = header.get("Plural-Forms")
            header.comments, header.fields = list(base.comments), list(base.fields)
            header.set("Plural-Forms", rule)
        header.complete(lang)
        for field in OF_TEMPLATE:
            value = self.template and self.template.get(field)
            if value:
                header.set(field, value)
        if self.given.project:
            header.set("Project-Id-Version", self.given.project)
        if self.credits:
            credits.credit(header, self.credits.changes(lang, behind), self.credits.people)
        header.set("X-Generator", GENERATOR)
        return header


def compiled(lang, text):
    """The text as msgfmt compiles it, with all of its checks."""
    with tempfile.TemporaryDirectory(prefix="office-release-") as place:
        made = pathlib.Path(place, "made.mo")
        try:
            po.gettext("msgfmt", "--check", f"--output-file={made}", "-", given=text.encode())
        except Fault as fault:
            raise Unfit(f"{lang}: {fault}") from None
        return made.read_bytes()
