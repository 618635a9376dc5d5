#!/usr/bin/env python3
"""Changes the page's code, one place at a time, and runs the case of tests/page.py that has to tell.

    tests/spoil_page.py [--program FILE] [WORD..]    (crates/cli/out/cli, as ./office has built it; wants what tests/page.py wants)

Each change is made in a copy of the page; before, the copy as it is has to pass these cases. Prints each change that no case tells, and last
`N told, M not`; the status is 1 if one wasn't. With words only the changes whose names have one of them are tried.
"""
import argparse
import dataclasses
import pathlib
import shutil
import subprocess
import sys
import tempfile

from patience import seconds

TOP = pathlib.Path(__file__).resolve().parent.parent
NEEDED = ("share/web", "share/front", "share/tools", "tools", "docs/example", "docs/FORMATS.md")
TESTS = ("page.py", "page_office.py", "chromium.py", "front_servers.py", "looks.py", "patience.py")
SECONDS = seconds(400)


@dataclasses.dataclass
class Change:
    """What is another in a file of the page, and the case that tells."""

    name: str
    file: str
    old: str
    new: str
    case: str


CHANGES = (
    Change("a number for each try", "outbox.js", "post(request.number, request.act)", "post(numberAt(Date.now()), request.act)", "lost_reply"),
    Change("5xx is final", "outbox.js", "status < 500 && !PASSING", "status < 600 && !PASSING", "lost_reply"),
    Change("429 is final", "outbox.js", "[408, 425, 429]", "[408, 425]", "answers"),
    Change("a pause isn't heard", "outbox.js", "Math.max(this.#pause, answer.pause ?? 0)", "this.#pause", "answers"),
    Change("any object is a reply", "outbox.js", "return Number.isInteger(body.revision);", "return true;", "answers"),
    Change("any 200 is a reply", "outbox.js", "if (!REPLIES", "if (status === 200) return true; if (!REPLIES", "answers"),
    Change("what is stopped goes by itself", "outbox.js", "this.caller && !it.stopped", "this.caller", "answers"),
    Change("kept for one tab", "main.js", "new Outbox(this.office, localStorage", "new Outbox(this.office, sessionStorage", "two_tabs"),
    Change("replies aren't told in other tabs", "outbox.js", ".reverse().forEach((it) => this.#tell(it))", "", "two_tabs"),
    Change("another caller's is sent", "outbox.js", "it.caller === this.caller && !it.stopped", "!it.stopped", "other_caller"),
    Change("nobody is asked who it is", "outbox.js", "if (signedIn.caller !== this.caller)", "if (false)", "other_caller"),
    Change("another act while one waits", "unit.js", "const off = this.requests().length > 0;", "const off = false;", "lost_reply"),
    Change("a refused text is dropped", "main.js", "if (status === 200) this.drafts.settle(act)", "this.drafts.settle(act)", "stale"),
    Change("a draft stays", "main.js", "if (status === 200) this.drafts.settle(act)", "", "guest"),
    Change("the first revision is seen for ever", "unit.js", "seen: this.view.revision", "seen: 1", "stale"),
    Change("no context", "drafts.js", "lang, id, ...(ctx === null ? {} : { ctx }) };", "lang, id };", "plurals"),
    Change("the first form alone", "translation.js", "texts.map(unescaped) : texts", "texts.map(unescaped) : texts.slice(0, 1)", "plurals"),
    Change("no escapes", "translation.js", "this.#escapes = needsEscapes(", "this.#escapes = false && needsEscapes(", "texts"),
    Change("text becomes HTML", "dom.js", "element.append(...children);", 'element.innerHTML = children.join("");', "texts"),
    Change("one direction", "locales.js", '? "rtl" : "ltr"', '? "ltr" : "ltr"', "plurals"),
    Change("and binds no closer than or", "plural.js", "truth(a(n) && b(n))", "truth(a(n) || b(n))", "rules"),
    Change("a rule is read in part", "plural.js", "if (this.#tokens.length > 0)", "if (false)", "rules"),
    Change("views aren't asked for", "catalogue.js", 'to review"), asks: isDone', 'to review")', "lists"),
    Change("the keyboard is lost", "dom.js", "active.id ? byId(active.id) : null", "null", "keyboard"),
    Change("a pale text", "office.css", "--quiet: #545d66", "--quiet: #949da6", "access"),
    Change("a field without a name", "translation.js", "{ htmlFor: area.id }", '{ htmlFor: "x" }', "access"),
    Change("it never goes on", "translation.js", "&& !this.#app.stays)", "&& false)", "next"),
    Change("the address isn't written", "main.js", 'history.replaceState(null, "", hrefOf({ ...route, ...this.units.view }));', "", "next"),
    Change("a frame round headings", "office.css", "h2:focus, main:focus { outline: none; }", "", "keyboard"),
    Change("no link to what was refused", "main.js", "isFault ? [words, ...link] : []", "isFault ? [words] : []", "next"),
    Change("every form may leave out", "checks.js", "(mayLeaveOut && isStruck(own, wanted))", "isStruck(own, wanted)", "findings"),
    Change("numbers of placeholders don't count", "checks.js", "if (!areNumbered([...own, ...wanted])) return false;", "return false;", "findings"),
    Change("line ends aren't looked at", "checks.js", '"line-ends": lineEndFindings(form, message)', '"line-ends": []', "findings"),
    Change("no doubled words", "checks.js", "if (doubled && !DOUBLED.test(source))", "if (false)", "findings"),
    Change("no marks in the field", "translation.js", "...marked(value, placeholders(value, this.#flags))", "value", "findings"),
    Change("keys insert nothing", "translation.js", "ctrlKey === altKey || shiftKey", "true || shiftKey", "findings"),
    Change("no changes are shown", "diff.js", "...inner, ...same(old.slice(old.length - end))", "...same(old.slice(old.length - end))", "changes"),
    Change("a role isn't kept", "rights.js", "JSON.parse(store.getItem(this.#key)) ?? NOTHING", "NOTHING", "roles"),
    Change("a refusal teaches nothing", "main.js", "this.rights.hear(act, status, body);", "", "roles"),
    Change("all acts are offered", "rights.js", "return most >= NEEDED[act];", "return true;", "roles"),
    Change("the policy isn't learnt", "rights.js", 'if (body.refusal === "voting-off") return { voting: false };', "", "roles"),
    Change("no snapshot", "library.js", "catalogue.take(snapshot.body);", "", "queues"),
    Change("an older snapshot counts", "catalogue.js", "if (entry.viewed > made || (unit", "if ((unit", "queues"),
    Change("its age isn't told", "units.js", "const { seen, checked } = this.catalogue;", "const { checked } = this.catalogue, seen = null;", "queues"),
    Change("findings without contexts", "catalogue.js", "this.entryOf({ id, ctx: context })", "this.entryOf({ id, ctx: null })", "checks"),
    Change("only what is nearly the same", "memory.js", "const LEAST = 0.6;", "const LEAST = 0.9;", "memory"),
    Change("the least alike first", "memory.js", "other.likeness - one.likeness", "one.likeness - other.likeness", "alike"),
    Change("quotes in a glossary", "glossary.js", """.replaceAll('""', '"')""", "", "memory"),
    Change("terms in parts of words", "glossary.js", "(?<!${LETTER})${quoted}(?:e?s)?(?!${LETTER})", "${quoted[0]}", "memory"),
    Change("any address is a link", "references.js", 'return url.protocol === "https:" || url.protocol === "http:" ? url.href : null;', "return url.href;", "places"),
    Change("accents count", "catalogue.js", '.replace(/\\p{M}/gu, "")', "", "places"),
    Change("places aren't searched", "catalogue.js", "...forms, ...references, ...extracted", "...forms, ...extracted", "places"),
    Change("what others changed is replaced", "file.js", 'return before && !isEqual(before.forms, entry.forms) ? "conflict" : null;', "return null;", "files"),
    Change("every file is UTF-8", "po.js", 'charset === "CHARSET" ? "utf-8" : charset', '"utf-8"', "files"),
    Change("a role's reply is none", "outbox.js", 'return typeof body.name === "string";', "return Number.isInteger(body.revision);", "manage"),
    Change("line ends of other systems", "po.js", '.replaceAll("\\r\\n", "\\n")', "", "manage"),
    Change("no way out", "main.js", "out.hidden = this.signOut === null", "out.hidden = true", "sign_out"),
    Change("one draft for all domains", "drafts.js", '${unit.domain === MAIN ? "" : `${unit.domain}/`}', "", "domains"),
    Change("a manager's texts are main's", "manage.js", "(select.value === MAIN ? {} : { domain: select.value })", "({})", "begun"),
    Change("a domain's reply is none", "outbox.js", '    case "domain":\n', "", "begun"),
    Change("a new domain is told as a template", "words.js", 'case "domain":', 'case "none":', "begun"),
    Change("a new domain is forgotten", "main.js", ', ...this.#chosen("domains", [])])]', "])]", "begun"),
    Change("a domain of another's can't be chosen", "main.js", '(status === 200 || body.refusal === "domain-exists")', "status === 200", "begun"),
    Change("a new domain isn't offered before a reload", "main.js", "this.manage.offerDomains();", "", "begun"),
    Change("a new domain takes the place of the one that was chosen", "manage.js", "select.value = chosen;", "", "begun"),
    Change("what was typed goes with a reply", "main.js", "this.manage.onRights();", "this.manage.draw();", "begun"),
    Change("a limit of domains is any", "words.js", 'if (refusal === "limit" && act === "domain")', "if (false)", "begun"),
    Change("a domain's refusal teaches nothing", "rights.js", ", domain: MANAGER", "", "begun"),
    Change("acts are main's", "drafts.js", "return { ...(domain === MAIN ? {} : { domain }), lang", "return { lang", "domains"),
    Change("one form for all numbers", "i18n.js", "index?.(n) ?? 0", "0", "own_words"),
    Change("a code is told twice", "locales.js", "...(name === code ? [] : [code])", "code", "own_words"),
    Change("the browser's languages don't count", "i18n.js", "[store.getItem(CHOICE), ...navigator.languages]", "[store.getItem(CHOICE)]", "own_words"),
)


def copied(folder):
    """A copy of what the page's test needs."""
    folder.chmod(0o755)
    for name in NEEDED:
        (folder / name).parent.mkdir(parents=True, exist_ok=True)
        copy = shutil.copytree if (TOP / name).is_dir() else shutil.copy
        copy(TOP / name, folder / name)
    (folder / "tests").mkdir()
    for name in TESTS:
        shutil.copy(TOP / "tests" / name, folder / "tests" / name)
    # What doesn't come at once doesn't come.
    waits = folder / "tests" / "chromium.py"
    waits.write_text(waits.read_text().replace("seconds(30)", "seconds(8)"))


def passes(program, cases, change=None):
    """Whether the page passes these cases, changed or as it is."""
    with tempfile.TemporaryDirectory() as made:
        folder = pathlib.Path(made)
        copied(folder)
        if change:
            file = folder / "share" / "web" / change.file
            text = file.read_text()
            if text.count(change.old) != 1:
                sys.exit(f"{change.name}: {change.file} has {change.old!r} {text.count(change.old)} times")
            file.write_text(text.replace(change.old, change.new))
        words = [sys.executable, folder / "tests" / "page.py", "--program", program, *cases]
        return subprocess.run(words, capture_output=True, timeout=SECONDS, check=False).returncode == 0


def main():
    words = argparse.ArgumentParser()
    words.add_argument("--program", default=TOP / "crates" / "cli" / "out" / "cli", type=pathlib.Path)
    words.add_argument("words", nargs="*")
    given = words.parse_args()
    tried = [it for it in CHANGES if not given.words or any(word in it.name for word in given.words)]
    program = given.program.resolve()
    if not passes(program, sorted({it.case for it in tried})):
        sys.exit("the page as it is doesn't pass")
    missed = 0
    for it in tried:
        if passes(program, [it.case], it):
            missed += 1
            print(f"{it.name}: {it.case} doesn't tell", flush=True)
    print(f"{len(tried) - missed} told, {missed} not")
    sys.exit(bool(missed))


if __name__ == "__main__":
    main()
