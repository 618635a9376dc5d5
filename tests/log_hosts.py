"""Hosts and doors for tests of a replicated log: a host is a folder, with a feed for all its projects, which is started again when it ends, as
systemd would."""
import http.client
import json
import os
import pathlib
import shutil
import signal
import subprocess
import threading
import time

from log_nodes import HOST, PYTHON, TOOLS


class Table:
    """The table of projects and hosts, that feeds and doors read."""

    def __init__(self, path):
        self.path = pathlib.Path(path)
        self.hosts, self.projects = {}, {}

    def place(self, project, *hosts):
        self.projects[project] = [it.name for it in hosts]

    def write(self):
        beside = self.path.with_name(self.path.name + ".new")
        beside.write_text(json.dumps({"hosts": self.hosts, "projects": self.projects}))
        os.replace(beside, self.path)


class Place:
    """What feeds and doors of a test have in common: the folder, the log, the program, and where the tools are."""

    def __init__(self, folder, nodes, program, port, tools=TOOLS):
        self.folder, self.nodes, self.program, self.tools = pathlib.Path(folder), nodes, str(program), pathlib.Path(tools)
        self.table = Table(self.folder / "table.json")
        self.next = port

    def port(self):
        self.next += 1
        return self.next

    def tool(self, name):
        return [PYTHON, str(self.tools / name), *self.nodes.words()]

    def make(self, *projects, manager="root", further=()):
        """Makes streams; what the tool told."""
        return self.stream("--manager", manager, *further, *projects)

    def stream(self, *words):
        done = self.told(*words)
        if done.returncode != 0:
            raise RuntimeError(f"office-stream: {done.stdout} {done.stderr}")
        return done.stdout

    def looked(self, *projects):
        """Whether office-stream finds each of these streams at each node."""
        return self.told("--look", *projects).returncode == 0

    def told(self, *words):
        return subprocess.run([*self.tool("office-stream"), *map(str, words)], capture_output=True, text=True, check=False)


class Host:
    def __init__(self, place, name, words=()):
        self.place, self.name, self.words = place, name, [str(it) for it in words]
        self.folder = place.folder / name
        self.folder.mkdir(parents=True, exist_ok=True)
        self.port = place.port()
        place.table.hosts[name] = f"{HOST}:{self.port}"
        self.feed = None
        self.starts = 0
        self.lock = threading.Lock()
        self.wanted = False
        threading.Thread(target=self.keep, daemon=True).start()

    def store(self, project):
        return self.folder / project / "office.db"

    def command(self, *further):
        program = [] if "--program" in self.words else ["--program", self.place.program]
        return [*self.place.tool("office-feed"), "--folder", str(self.folder), "--host", self.name, *program, *self.words, *map(str, further)]

    def start(self):
        with self.lock:
            self.wanted = True
            self.spawn()

    def spawn(self):
        self.starts += 1
        self.folder.mkdir(exist_ok=True)
        with open(self.place.folder / f"feed-{self.name}.log", "ab") as out:
            words = self.command("--table", self.place.table.path)
            self.feed = subprocess.Popen(words, stdin=subprocess.DEVNULL, stdout=out, stderr=out)

    def keep(self):
        while True:
            time.sleep(0.2)
            with self.lock:
                if self.wanted and self.feed.poll() is not None:
                    self.spawn()

    def kill(self):
        with self.lock:
            self.feed.kill()

    def ended(self):
        """Ends the feed in good order; its status."""
        with self.lock:
            self.wanted = False
        if self.feed is None or self.feed.poll() is not None:
            return None
        self.feed.terminate()
        try:
            return self.feed.wait(90)
        except subprocess.TimeoutExpired:
            self.feed.kill()
            return self.feed.wait(10)

    def lose(self):
        """The feed is killed, and the files are gone."""
        with self.lock:
            self.wanted = False
            self.feed.kill()
        self.feed.wait(30)
        time.sleep(0.3)
        shutil.rmtree(self.folder)

    def told(self, project=None):
        """What the feed tells of itself, or of a project."""
        asked = http.client.HTTPConnection(HOST, self.port, timeout=10)
        try:
            asked.request("GET", "/feed", headers={"X-Office-Project": project} if project else {})
            return json.loads(asked.getresponse().read())
        finally:
            asked.close()

    def snapshot(self, project, target, seconds=30):
        """A copy of a project's file with its hint, while its office is held."""
        folder = self.store(project).parent
        (folder / "hold").touch()
        end = time.monotonic() + seconds
        while not (folder / "held").exists():
            if end < time.monotonic():
                raise TimeoutError(f"{project} isn't held")
            time.sleep(0.05)
        pathlib.Path(target).mkdir(parents=True, exist_ok=True)
        for it in folder.glob("office.db*"):
            shutil.copy2(it, target)
        (folder / "held").unlink()

    def to_the_end(self, *projects, further=(), timeout=600):
        """Delivers what the streams have now, in a run of its own; its status and what it told."""
        words = [it for name in projects for it in ("--project", name)]
        done = subprocess.run(
            self.command(*words, "--until-end", *further), stdin=subprocess.DEVNULL, capture_output=True, text=True, timeout=timeout, check=False
        )
        return done.returncode, done.stderr.strip()


class Door:
    def __init__(self, place, name="door", wait=8.0, further=()):
        self.port = place.port()
        self.trace = place.folder / f"confirmed-{self.port}"
        self.log = place.folder / f"{name}-{self.port}.log"
        words = [*place.tool("office-door"), "--port", str(self.port), "--table", str(place.table.path), "--wait", str(wait), "--trace", str(self.trace)]
        with open(self.log, "ab") as out:
            self.process = subprocess.Popen([*words, *map(str, further)], stdin=subprocess.DEVNULL, stdout=out, stderr=out)

    def told(self):
        asked = http.client.HTTPConnection(HOST, self.port, timeout=5)
        try:
            asked.request("GET", "/door")
            return json.loads(asked.getresponse().read())
        finally:
            asked.close()

    def wait_until_ready(self, seconds=30):
        end = time.monotonic() + seconds
        while time.monotonic() < end:
            try:
                if self.told()["ready"]:
                    return
            except (OSError, http.client.HTTPException):
                pass
            time.sleep(0.1)
        raise TimeoutError("the door isn't ready")

    def confirmed(self):
        """The publications that the log confirmed to this door: project, number, and the publication's own name."""
        return {tuple(line.split()) for line in self.trace.read_text().splitlines()} if self.trace.exists() else set()

    def stop(self):
        self.process.send_signal(signal.SIGTERM)
        try:
            self.process.wait(10)
        except subprocess.TimeoutExpired:
            self.process.kill()
            self.process.wait(10)
