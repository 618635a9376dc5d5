"""A clone of a project's repository, and one branch of its remote. Only objects and refs of its own are written: no working tree changes."""
import contextlib
import fcntl
import os
import pathlib
import subprocess
import tempfile
import urllib.parse

from office_tools import Fault

ENVIRONMENT = {**os.environ, "LC_ALL": "C.UTF-8", "GIT_TERMINAL_PROMPT": "0"}
# The trailers of a commit that this office made: the blob of the file that it wrote, and the last record of the office then.
EXPORT, RECORD = "Office-Export", "Office-Record"
FILE_MODE = "100644"


class Repository:
    """A clone, with what is kept for an exchange of one domain with one branch."""

    def __init__(self, path, remote, branch, domain):
        self.path, self.remote = path, remote
        self.folder = pathlib.Path(self.git("rev-parse", "--absolute-git-dir"))
        self.branch = branch or self.git("symbolic-ref", "--short", "HEAD")
        self.ref = f"refs/office/{{}}/{domain}/{self.branch}"
        self.state = self.folder / "office" / domain / urllib.parse.quote(self.branch, safe="")
        self.state.mkdir(parents=True, exist_ok=True)

    def run(self, *words, given=None, environment=None):
        """A command of git, as it ended."""
        done = {**ENVIRONMENT, **(environment or {})}
        try:
            return subprocess.run(["git", "-C", str(self.path), *words], input=given, capture_output=True, env=done, check=False)
        except FileNotFoundError:
            raise Fault("git is not there") from None

    def git(self, *words, given=None, environment=None):
        """What a command of git prints, without the last line end."""
        done = self.run(*words, given=given, environment=environment)
        if done.returncode:
            raise Fault(f"git {words[0]}: {reason_of(done.stderr)}")
        return done.stdout.decode(errors="replace").removesuffix("\n")

    @contextlib.contextmanager
    def alone(self):
        """Keeps a second run away."""
        with open(self.state / "lock", "w", encoding="ascii") as it:
            try:
                fcntl.flock(it, fcntl.LOCK_EX | fcntl.LOCK_NB)
            except BlockingIOError:
                raise Fault(f"{self.path}: another run is at work there just now") from None
            yield

    def fetch(self):
        """The branch's commit, as the remote has it now."""
        self.git("fetch", "--quiet", "--no-tags", self.remote, f"+refs/heads/{self.branch}:{self.ref.format('head')}")
        return self.git("rev-parse", self.ref.format("head"))

    def pulled(self):
        """The commit up to which upstream's changes are in the office; None before the first pull."""
        done = self.run("rev-parse", "--verify", "--quiet", self.ref.format("pulled"))
        return None if done.returncode else done.stdout.decode().strip()

    def set_pulled(self, commit):
        self.git("update-ref", self.ref.format("pulled"), commit)

    def files(self, commit):
        """The blobs of all files of a commit, by their paths."""
        listed = self.git("ls-tree", "-r", "-z", commit).split("\0")
        rows = (it.partition("\t") for it in listed if it)
        return {path: head.split()[2] for head, _, path in rows if head.split()[1] == "blob"}

    def blob_at(self, commit, path):
        """The blob of a file in a commit; None where there is none."""
        done = self.run("rev-parse", "--verify", "--quiet", f"{commit}:{path}")
        return None if done.returncode else done.stdout.decode().strip()

    def bytes_of(self, blob):
        done = self.run("cat-file", "blob", blob)
        if done.returncode:
            raise Fault(f"git cat-file: {reason_of(done.stderr)}")
        return done.stdout

    def changed_in(self, commit, path):
        """The last commit that changed a file."""
        return self.git("log", "-1", "--format=%H", commit, "--", path) or commit

    def own(self, commit, path, since=None):
        """The last commit of this office's that changed the file, as it wrote it, up to another: its blob, and the office's last record
        then, each None where there is none."""
        form = f"--format=%H%x00%(trailers:key={EXPORT},valueonly,separator=%x20)%x00%(trailers:key={RECORD},valueonly,separator=%x20)"
        behind = [f"^{since}"] if since else []
        for line in self.git("log", f"--grep=^{EXPORT}: ", form, commit, *behind, "--", path).split("\n"):
            if line:
                made, blobs, records = line.split("\0")
                blob = self.blob_at(made, path)
                if blob in blobs.split():
                    return blob, (records.split() or [None])[-1]
        return None, None

    def add_blob(self, data):
        return self.git("hash-object", "-w", "--stdin", given=data)

    def commit(self, parent, files, message, author):
        """A commit upon another, with these blobs at these paths. It is on no branch yet."""
        with tempfile.TemporaryDirectory(prefix="office-git-") as place:
            index = {"GIT_INDEX_FILE": str(pathlib.Path(place, "index"))}
            self.git("read-tree", parent, environment=index)
            for path, blob in files.items():
                self.git("update-index", "--add", "--cacheinfo", f"{FILE_MODE},{blob},{path}", environment=index)
            tree = self.git("write-tree", environment=index)
        return self.git("commit-tree", tree, "-p", parent, "-F", "-", given=message.encode(), environment=author)

    def push(self, commit):
        """Pushes a commit to the branch; why it wasn't taken, or None."""
        done = self.run("push", "--quiet", self.remote, f"{commit}:refs/heads/{self.branch}")
        return reason_of(done.stderr) if done.returncode else None

    @contextlib.contextmanager
    def checkout(self, commit):
        """A folder with a commit's files."""
        with tempfile.TemporaryDirectory(prefix="office-git-") as place:
            folder = pathlib.Path(place, "tree")
            self.git("worktree", "add", "--quiet", "--detach", str(folder), commit)
            try:
                yield folder
            finally:
                self.run("worktree", "remove", "--force", str(folder))


def reason_of(said):
    """Why git didn't do something, on one line."""
    lines = [it.strip() for it in said.decode(errors="replace").split("\n") if it.strip() and not it.startswith("hint:")]
    return "; ".join(lines[:4])
