"""The office's languages on their way into a project's repository: a commit for each, upon what the remote has, pushed or not there at all."""
import collections

from office_tools import Fault, linguas, po, releases
from office_tools.git import EXPORT, RECORD
from office_tools.headers import Header
from office_tools.pulling import PUSHED, UNPUSHED

# How often the remote may be ahead of us before we leave it at that.
ROUNDS = 5
MESSAGE = "Update the translation into {lang}"


class Push:
    """Commits what the office says and the branch doesn't."""

    def __init__(self, given, repository, release, paths, told):
        self.given, self.repository, self.release, self.paths, self.told = given, repository, release, paths, told

    def run(self, languages, head):
        """Pushes the languages upon this commit, or upon what the remote has meanwhile."""
        for _ in range(ROUNDS):
            commits = self.commits(languages, head)
            if not commits:
                return
            why = self.repository.push(commits[-1][1])
            before, head = head, self.repository.fetch()
            if head == commits[-1][1]:
                for lang, commit in commits:
                    self.told.tell(PUSHED, f"{lang} {commit[:12]}")
                return
            if why and head == before:
                raise Fault(f"not pushed, and nothing is changed: {why}")
        raise Fault("the branch moves on all the time: run it again")

    def commits(self, languages, head):
        """The commits of the languages that differ, one upon the other, each with its language."""
        found = []
        for lang in languages:
            parent = found[-1][1] if found else head
            try:
                commit = self.commit_of(lang, head, parent)
            except releases.Unfit as fault:
                self.told.tell(UNPUSHED, str(fault))
                continue
            if commit:
                found.append((lang, commit))
        return found

    def commit_of(self, lang, head, parent):
        """The commit of a language; None where the branch has what the office says."""
        path = self.paths.of(lang)
        blob = self.repository.blob_at(head, path)
        own, record = self.repository.own(head, path)
        if blob and blob != own and blob != self.blob_pulled(path):
            raise Fault(f"{path} was changed since the last pull: pull first; nothing was pushed")
        there = po.utf8(self.repository.bytes_of(blob)) if blob else None
        text = self.release.text_of(lang, Header(there) if there else None, record)
        if there and Header(there).rest == Header(po.utf8(text.encode())).rest:
            return None
        releases.compiled(lang, text)
        files = {path: self.repository.add_blob(text.encode())}
        self.list_language(lang, parent, files)
        message, author = self.words_of(lang, files[path], record)
        return self.repository.commit(parent, files, message, author)

    def blob_pulled(self, path):
        pulled = self.repository.pulled()
        return pulled and self.repository.blob_at(pulled, path)

    def list_language(self, lang, parent, files):
        """Adds a new language to the list of them, where the folder has one."""
        path = self.paths.linguas()
        blob = path and self.repository.blob_at(parent, path)
        listed = blob and linguas.with_languages(self.repository.bytes_of(blob), [lang])
        if listed:
            files[path] = self.repository.add_blob(listed)

    def words_of(self, lang, blob, record):
        """The message of a commit, and who it is by, as git is told."""
        told = self.release.credits
        changes = told.changes(lang, record) if told else []
        author, others = people_of(changes, told and told.people)
        trailers = [f"Co-authored-by: {it.for_git}" for it in others] + [f"{EXPORT}: {blob}"]
        if told and told.last():
            trailers.append(f"{RECORD}: {told.last()}")
        message = self.given.message.replace("{lang}", lang).replace("{domain}", self.given.domain)
        times = [it.time for it in changes if it.time]
        environment = {"GIT_AUTHOR_NAME": author.name, "GIT_AUTHOR_EMAIL": author.address} if author else {}
        if author and times:
            environment["GIT_AUTHOR_DATE"] = max(times).strftime("%Y-%m-%dT%H:%M:%S+0000")
        return message + "\n\n" + "\n".join(trailers) + "\n", environment


def people_of(changes, people):
    """Whose a commit is: the one who wrote most of it, the last of several; and all others who acted, in their order."""
    written = collections.Counter(people.of(it.writer) for it in changes if it.writer)
    last = {people.of(it.writer): at for at, it in enumerate(changes) if it.writer}
    acted = [people.of(who) for it in changes for who in (it.writer, it.actor) if who]
    author = max(written, key=lambda it: (written[it], last[it])) if written else None
    author = author or (acted[-1] if acted else None)
    return author, [it for it in dict.fromkeys(acted) if it != author]
