"""Who made a language what it is, by the records of an office."""
import collections
import datetime

from office_tools import Fault, po
from office_tools.headers import Header
from office_tools.records import when
from office_tools.replies import has_fields
from office_tools.requests import MAIN, NUMBER

# Fields of acts that are texts, where they are there.
TEXTS = {"domain", "lang", "po", "suggestion"}
# The acts that change a unit, besides a vote by which a suggestion is accepted.
CHANGING = ("translate", "accept", "comment", "approve", "send-back")

# A change of a unit: the caller who acted, the caller who wrote the text that came with it or None, and when.
Change = collections.namedtuple("Change", "actor writer time")


class Credits:
    """What the records say of one domain. Callers that `but` names stand for no person."""

    def __init__(self, records, domain, people, but=()):
        self.records, self.domain, self.people, self.but = records, domain, people, but
        self.suggesters = {}
        for it in records:
            if it.status == 200 and it.content.get("act") == "suggest":
                self.suggesters[it.number] = it.content.get("caller")

    def of_domain(self, *acts):
        """The records of these acts in the domain that were done."""
        return [it for it in self.records if it.status == 200 and it.content.get("act") in acts and it.content.get("domain", MAIN) == self.domain]

    def languages(self):
        return sorted({it.content["lang"] for it in self.of_domain("language")})

    def template(self):
        """The header of the template's text; None where no template came."""
        found = self.of_domain("template")
        # Half a pair of surrogates, which JSON may have, is no UTF-8, and gettext says so.
        return Header(po.utf8(found[-1].content.get("po", "").encode(errors="surrogatepass"))) if found else None

    def last(self):
        """The number of the last record."""
        return self.records[-1].number if self.records else None

    def changes(self, lang, behind=None):
        """The changes of a language, in order; only those behind the record of a number where one is named."""
        since = self.place_of(behind) + 1
        found = {id(it) for it in self.of_domain(*CHANGING, "vote") if it.content.get("lang") == lang}
        return [self.change(it) for it in self.records[since:] if id(it) in found and self.is_change(it)]

    def place_of(self, number):
        if number is None:
            return -1
        return next((at for at, it in enumerate(self.records) if it.number == number), -1)

    def is_change(self, record):
        return (record.content["act"] != "vote" or record.body.get("accepted") is True) and record.content["caller"] not in self.but

    def change(self, record):
        actor, act = record.content["caller"], record.content["act"]
        writer = actor if act == "translate" else None
        if act in ("accept", "vote"):
            writer = self.suggesters.get(record.content.get("suggestion"), actor)
            # A suggestion of whoever is no person, a machine say, is taken over by the one who accepts it.
            if writer in self.but or writer not in self.people and actor in self.people:
                writer = actor
        return Change(actor, writer, time_of(record.number))


def time_of(number):
    """When a number was made, where that is no time to come."""
    made = when(number)
    return made if made and made <= datetime.datetime.now(datetime.timezone.utc) else None


def credit(header, changes, people):
    """Names in a header who translated: the last one with the time, and each with the years."""
    written = [it for it in changes if it.writer]
    if not written:
        return
    for it in written:
        if it.time:
            header.name_translator(people.of(it.writer), it.time.year)
    last = written[-1]
    header.set("Last-Translator", str(people.of(last.writer)))
    time = next((it.time for it in reversed(written) if it.time), None)
    if time:
        header.set("PO-Revision-Date", time.strftime("%Y-%m-%d %H:%M+0000"))
    header.is_done()


def known(records):
    """The records, each of which has what an act of an office has."""
    for it in records:
        fields = {"act", "caller", *(TEXTS & it.content.keys()), *({"lang"} if it.content.get("act") == "language" else ())}
        is_number = isinstance(it.number, str) and NUMBER.fullmatch(it.number)
        if not is_number or not has_fields(it.content, dict.fromkeys(fields, str)):
            raise Fault(f"the record {it.number!r} is no office's")
    return records
