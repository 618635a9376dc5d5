"""Upstream's changes of a project's files on their way into the office.

What is sent is written to files before the first of it is sent, and these are sent to their end before anything else is looked at: so a
run that was stopped anywhere goes on, and each change acts once.
"""
import collections
import pathlib
import shlex
import subprocess

from office_tools import Fault, limits, po
from office_tools.files import write
from office_tools.replies import in_words, word_of
from office_tools.requests import MAIN, RequestFile, compact, number_of, unit_of

# What becomes of a change, as it is told.
TAKEN, STANDS, CONFLICT, UNSENT = "taken", "stands so already", "conflict", "not taken"
PUSHED, UNPUSHED = "pushed", "not pushed"
# Refusals of a translation that another's act is the reason of: the office's text stands, and upstream's is suggested.
OVERTAKEN = ("stale", "approved", "read-only")
SUGGESTED = "the office's text stands, upstream's is suggested"
# Limits that a text passes beside others.
SEVERAL = {"language": "a domain has no more languages than are there: --lang names those that are wanted", "template": "a language would have too many units"}


class Told:
    """Tells what became of each change, and counts it."""

    def __init__(self, put):
        self.put = put
        self.counts = collections.Counter()

    def tell(self, what, of, why=""):
        self.counts[what] += 1
        self.put(f"{what}: {of}" + (f" ({why})" if why else ""))

    def is_all_done(self):
        return not any(self.counts[it] for it in (CONFLICT, UNSENT, UNPUSHED))


def named(request):
    """What a request is about, as it is told."""
    parts = [request.get("lang")] + [compact(request[field]) for field in ("ctx", "id") if field in request]
    if "lang" in request:
        return " ".join(it for it in parts if it)
    return f"the domain {request['name']}" if request.get("act") == "domain" else "the template"


def why(request, status, body):
    """Why the office didn't take a request: of a limit which one it is, with its number where the request itself tells."""
    passed = "po" in request and limits.is_passed(body) and limits.passed_by_request(request)
    if not passed and word_of(body) == "limit":
        passed = SEVERAL.get(request["act"])
    return f"limit: {passed}" if passed else in_words(status, body)


class Plan:
    """What one pull sends, in two files: first the domain and the template, then, made when these have acted, what is about languages."""

    def __init__(self, state, commit):
        self.commit = commit
        self.first, self.second = state / f"{commit}.template", state / f"{commit}.units"

    def begin(self, requests):
        self.second.unlink(missing_ok=True)
        RequestFile(self.first).add(requests)

    def end(self):
        self.second.unlink(missing_ok=True)
        self.first.unlink()


class Pull:
    """Brings what a commit changed into the office."""

    def __init__(self, given, repository, paths, told):
        self.given, self.repository, self.paths, self.told = given, repository, paths, told
        self.caller, self.office = given.caller or given.login.lower(), None
        self.attempts, self.sent_template = repository.state / "attempts", paths.sent_template()

    def left(self):
        """The plan that an earlier run has left; None where there is none."""
        found = sorted(self.repository.state.glob("*.template"))
        return Plan(self.repository.state, found[0].stem) if found else None

    def begin(self, head):
        """The plan of what came up to a commit."""
        plan = Plan(self.repository.state, head)
        plan.begin(self.domain_requests(head) + self.template_requests(head))
        return plan

    def carry_out(self, plan, office):
        """Sends what a plan has, and what follows from its template, to the end."""
        self.office = office
        for request in RequestFile(plan.first).requests:
            if self.send(request, plan) and request["act"] == "template":
                write(self.sent_template, request["po"].encode())
        if not plan.second.exists():
            RequestFile(plan.second).add(list(self.language_requests(plan.commit)))
        for request in RequestFile(plan.second).requests:
            self.send(request, plan)
        self.repository.set_pulled(plan.commit)
        plan.end()

    def number(self, *parts):
        """The number of a request: of the commit and the file that it comes of."""
        attempt = self.attempts.read_text(encoding="ascii") if self.attempts.exists() else ""
        return number_of("git", self.given.domain, *parts, attempt)

    def act(self, **fields):
        domain = {} if self.given.domain == MAIN else {"domain": self.given.domain}
        return {**fields, **domain, "caller": self.caller}

    # ---- the domain and the template

    def domain_requests(self, head):
        """The request that makes the domain, as long as no template of it was taken: no question tells whether it is there."""
        if self.given.domain == MAIN or self.sent_template.exists():
            return []
        return [{"act": "domain", "name": self.given.domain, "caller": self.caller, "number": self.number("domain", head)}]

    def template_requests(self, head):
        """The request of the template, where it is another than the one that was sent last."""
        data, made_of = self.template_at(head)
        if data is None:
            return []
        text = po.utf8(data)
        if self.sent_template.exists() and undated(text) == undated(self.sent_template.read_text(encoding="utf-8")):
            return []
        return [{**self.act(act="template", po=text), "number": self.number("template", made_of, self.paths.pot(head) or "")}]

    def template_at(self, head):
        """The template's bytes, and the commit that they come of; nothing where the repository has none."""
        path = self.paths.pot(head)
        if self.given.make_pot:
            return self.made(head, path), head
        blob = path and self.repository.blob_at(head, path)
        return (self.repository.bytes_of(blob), self.repository.changed_in(head, path)) if blob else (None, None)

    def made(self, head, path):
        """The template that the command makes in a checkout."""
        with self.repository.checkout(head) as folder:
            done = subprocess.run(shlex.split(self.given.make_pot), cwd=folder, capture_output=True, check=False)
            if done.returncode:
                raise Fault(f"{self.given.make_pot}: {done.stderr.decode(errors='replace').strip()[-300:] or done.returncode}")
            try:
                return pathlib.Path(folder, path).read_bytes()
            except OSError as why:
                raise Fault(f"{self.given.make_pot} made no {path}: {why.strerror}") from None

    # ---- languages

    def language_requests(self, head):
        """What upstream changed in the languages' files since the office and upstream had the same."""
        pulled, files = self.repository.pulled(), self.repository.files(head)
        for path, blob in files.items():
            lang = self.paths.lang(path)
            if lang is None or self.given.lang and lang not in self.given.lang:
                continue
            own, _ = self.repository.own(head, path, pulled)
            base = own or pulled and self.repository.blob_at(pulled, path)
            if blob == base:
                continue
            try:
                yield from self.changes(lang, path, self.repository.changed_in(head, path), blob, base)
            except Fault as fault:
                self.told.tell(UNSENT, path, str(fault))

    def changes(self, lang, path, commit, blob, base):
        """The requests of one language's file."""
        text = po.utf8(self.repository.bytes_of(blob))
        if not self.office.has(lang):
            text, _ = po.with_rule(lang, text, dict(self.given.plural_forms))
            yield {**self.act(act="language", lang=lang, po=text), "number": self.number("language", commit, path)}
            return
        office = po.messages_in(self.office.export(lang))
        before = self.messages_before(base)
        for key, message in po.messages(text).items():
            known = before.get(key)
            if message.obsolete or message.fuzzy or not any(message.forms) or known and (known.forms, known.fuzzy) == (message.forms, message.fuzzy):
                continue
            request = self.change(lang, message, known, office.get(key))
            if request:
                yield {**request, "number": self.number(commit, path, message.context, message.msgid, message.forms)}

    def messages_before(self, base):
        """The messages that a file had; none where it wasn't there, or couldn't be read."""
        try:
            return po.messages(po.utf8(self.repository.bytes_of(base))) if base else {}
        except Fault:
            return {}

    def change(self, lang, message, known, said):
        """The request of one message: a translation where the office says what upstream had before, else a suggestion."""
        if said and said.forms == message.forms and not said.fuzzy:
            return None
        unit = unit_of(lang, message, self.given.domain)
        status, view = self.office.view(unit)
        if status != 200 or view.get("obsolete"):
            self.told.tell(UNSENT, named(unit), in_words(status, view) if status != 200 else "the office has it as obsolete")
            return None
        if view["forms"] == message.forms and view["state"] in ("translated", "approved"):
            return None
        is_as_before = not any(view["forms"]) or known is not None and view["forms"] == known.forms
        act = "translate" if is_as_before else "suggest"
        return {**self.act(act=act, **unit), "forms": message.forms, "seen": view["revision"]}

    # ---- sent

    def send(self, request, plan):
        """Sends a request, and tells what came of it. Returns whether it acted."""
        status, body = self.office.send(request)
        word = word_of(body)
        if word == "role":
            self.give_up(plan, f"{self.caller}: {in_words(status, body)}: a manager gives it a role")
        elif word == "limit" and request["act"] == "domain":
            self.give_up(plan, f"the domain {request['name']} isn't made: the office has as many as it may have")
        elif word == "domain-exists":
            pass
        elif status == 200 and request["act"] == "suggest":
            self.told.tell(CONFLICT, named(request), SUGGESTED)
        elif status == 200:
            found = body.get("state") == "needs-editing"
            self.told.tell(TAKEN, named(request), "it needs editing: a check finds something" if found else "")
        elif word in OVERTAKEN and request["act"] == "translate":
            self.suggest(request)
        elif word in ("same", "number-used") and self.stands(request):
            self.told.tell(STANDS, named(request))
        else:
            self.told.tell(UNSENT, named(request), why(request, status, body))
        return status == 200 or word == "number-used"

    def suggest(self, request):
        """Suggests what could not be set."""
        status, view = self.office.view({field: request[field] for field in ("lang", "id", "ctx") if field in request})
        if status == 200:
            number = number_of("git", "suggest", request["number"])
            status, view = self.office.send({**request, "act": "suggest", "number": number, "seen": view["revision"]})
        done = status == 200 or word_of(view) in ("same", "number-used")
        self.told.tell(CONFLICT, named(request), SUGGESTED if done else in_words(status, view))

    def stands(self, request):
        """Whether the office says what a request was to bring about."""
        if "id" not in request:
            return True
        status, view = self.office.view({field: request[field] for field in ("lang", "id", "ctx") if field in request})
        return status == 200 and (view["forms"] == request["forms"] or any(it["forms"] == request["forms"] for it in view["suggestions"]))

    def give_up(self, plan, why):
        """Leaves a plan whose refusals are recorded: the next run makes another, with new numbers."""
        attempt = int(self.attempts.read_text(encoding="ascii")) if self.attempts.exists() else 0
        write(self.attempts, str(attempt + 1).encode())
        plan.end()
        raise Fault(f"{why}, and the next run sends all anew")


def undated(text):
    """A template without the line that says when it was made."""
    return "\n".join(it for it in text.split("\n") if not it.startswith('"POT-Creation-Date:'))
