"""Programs that translate a line: a command, or a service behind HTTP."""
import http.client
import os
import re
import shlex
import subprocess
import urllib.parse

from office_tools import Fault, po
from office_tools.client import connection_to, read, within
from office_tools.replies import body_of
from office_tools.requests import compact

# What a translator mustn't translate: directives of printf and of strftime, fields in braces, variables of a shell, tags, entities, addresses.
PLACEHOLDER = re.compile(
    r"%(?:\([^()]*\)|<[^<>]*>|\d+\$)?[-+#0'I ]*(?:\*|\d+)?(?:\.(?:\*|\d+))?(?:hh|ll|[hlLqjzt])?[A-Za-z%]|\{[^{}\n]*\}|\$(?:\{\w+\}|\w+)"
    r"|</?[A-Za-z][^<>\n]*>|&#?\w+;|\b(?:https?|ftp)://[^\s<>\"]+|[\w.+-]+@[\w-]+(?:\.[\w-]+)+"
)
# Names that take the place of placeholders, as no word of a language is.
NAMES = "XQA", "XQB", "XQC", "XQD", "XQE", "XQF", "XQG", "XQH"
# How often in a row a translator may fail.
FAILURES = 5


class Untranslated(Exception):
    """Why a text has no translation, in words."""


class Failed(Untranslated):
    """Why a translator gave nothing, in words."""


class Command:
    """A command that reads a line and prints its translation."""

    def __init__(self, text, seconds):
        self.words, self.seconds = shlex.split(text), seconds

    def __call__(self, line):
        try:
            done = subprocess.run(self.words, input=f"{line}\n".encode(), capture_output=True, env=po.ENVIRONMENT, timeout=self.seconds, check=False)
        except OSError as why:
            raise Fault(f"{self.words[0]}: {why.strerror}") from None
        except subprocess.TimeoutExpired:
            raise Failed(f"{self.words[0]} takes longer than {self.seconds} seconds") from None
        if done.returncode:
            said = done.stderr.decode(errors="replace").strip().split("\n")[0]
            raise Failed(f"{self.words[0]} ended with status {done.returncode}: {said}")
        return text_of(done.stdout)


def text_of(data):
    try:
        return data.decode()
    except UnicodeDecodeError:
        raise Untranslated("its translation isn't UTF-8") from None


class Service:
    """A service of HTTP with the question of LibreTranslate: q, source, target and format, answered by translatedText."""

    def __init__(self, url, source, target, seconds):
        self.seconds, self.target = seconds, url.path.rstrip("/") or "/translate"
        self.connection = connection_to(url)
        self.fields = {"source": source, "target": target, "format": "text"}
        if key := os.environ.get("OFFICE_SUGGEST_KEY"):
            self.fields["api_key"] = key

    def __call__(self, line):
        body = compact({**self.fields, "q": line}).encode()
        try:
            with within(self.seconds, self.connection):
                self.connection.request("POST", self.target, body, {"Content-Type": "application/json"})
                answer = self.connection.getresponse()
                status, text = answer.status, text_of(read(answer))
        except (OSError, http.client.HTTPException) as why:
            self.connection.close()
            raise Failed(f"no answer: {why or type(why).__name__}") from None
        found = body_of(text).get("translatedText")
        if status != 200 or not isinstance(found, str):
            raise Failed(f"answered {status}" + ("" if status != 200 else " without a translatedText"))
        return found


class Translator:
    """Translates texts line by line, so that their line ends stay, and their placeholders; each line once."""

    def __init__(self, of_line):
        self.of_line, self.known, self.failures = of_line, {}, 0

    def text(self, text):
        """A text's translation."""
        return "\n".join(map(self.line, text.split("\n")))

    def line(self, line):
        """The translation of a line, with the white at its ends as it was."""
        core = line.strip()
        if not any(map(str.isalpha, PLACEHOLDER.sub("", core))):
            return line
        if core not in self.known:
            self.known[core] = self.translated(core)
        before = line[: len(line) - len(line.lstrip())]
        return before + self.known[core] + line[len(before) + len(core) :]

    def translated(self, core):
        """The translation of a line as it is, or else of one in which names stand for the placeholders."""
        try:
            return kept(core, self.asked(core))
        except Failed:
            raise
        except Untranslated:
            names = dict(zip(dict.fromkeys(PLACEHOLDER.findall(core)), NAMES))
            if not names or len(names) < len(set(PLACEHOLDER.findall(core))) or any(name in core for name in NAMES):
                raise
        said = self.asked(PLACEHOLDER.sub(lambda it: names[it[0]], core))
        for placeholder, name in names.items():
            said = said.replace(name, placeholder)
        return kept(core, said)

    def asked(self, line):
        try:
            said = self.of_line(line).removesuffix("\n")
            self.failures = 0
        except Failed as why:
            self.failures += 1
            if self.failures >= FAILURES:
                raise Fault(f"the translator fails again and again: {why}") from None
            raise
        if not said.strip() or len(said.splitlines()) > 1:
            raise Untranslated("what came back isn't one line")
        return said.strip()


def kept(line, said):
    """A translation that has the placeholders of its line, and no control character."""
    if sorted(PLACEHOLDER.findall(said)) != sorted(PLACEHOLDER.findall(line)):
        raise Untranslated("its placeholders didn't stay: " + compact(said))
    if any(ord(it) < 32 or 0x7F <= ord(it) < 0xA0 for it in said if it not in line):
        raise Untranslated("a control character came back")
    return said


def forms_of(translator, message, count):
    """The forms of a message in a language of so many of them. With more than two nobody says which is of which number."""
    if message.plural is None:
        forms = [translator.text(message.msgid)]
    elif count == 1:
        forms = [translator.text(message.plural)]
    elif count == 2:
        forms = [translator.text(message.msgid), translator.text(message.plural)]
    else:
        raise Untranslated(f"the language has {count} forms")
    if forms == [message.msgid, message.plural][: len(forms)]:
        raise Untranslated("it came back as it was")
    return forms


def tested(message, forms, rule):
    """These forms, where msgfmt finds nothing wrong in them by the message's flags."""
    flags = [f"#, {', '.join(message.comments['#,'])}"] if message.comments["#,"] else []
    header = ['msgid ""', 'msgstr ""', '"Content-Type: text/plain; charset=UTF-8\\n"', f'"Plural-Forms: {rule};\\n"' if rule else "", ""]
    names = ["msgstr"] if message.plural is None else [f"msgstr[{n}]" for n in range(len(forms))]
    texts = [("msgid", message.msgid), *([] if message.plural is None else [("msgid_plural", message.plural)]), *zip(names, forms)]
    lines = [it for it in header[:-1] if it] + ["", *flags, *(f'{name} "{po.escaped(text)}"' for name, text in texts), ""]
    try:
        po.gettext("msgfmt", "--check-format", "--output-file=/dev/null", "-", given="\n".join(lines).encode())
    except Fault as why:
        raise Untranslated(str(why)) from None
    return forms


def service(text):
    """A service's address, as a word of the command line."""
    url = urllib.parse.urlsplit(text)
    if url.scheme not in ("http", "https") or not url.hostname or url.query or url.fragment or url.username:
        raise ValueError(text)
    return url
