"""What stands behind the page in tests/page.py: the program over a file, a relay that loses messages, and a front server."""
import contextlib
import functools
import http.client
import http.server
import json
import os
import re
import shutil
import socket
import socketserver
import subprocess
import sys
import threading
import time
import urllib.parse

import front_servers
from looks import HOST, free_port, number
from patience import seconds

PROJECT = front_servers.PROJECT
SECONDS = seconds(30)
# What the relay's answer of 429 says, in seconds: longer than the page's first pause is on a busy machine.
PAUSE = 5


class Office:
    """The program, over a file, on a port; it can be killed and started again."""

    def __init__(self, program, path, beginning):
        self.program, self.path, self.port, self.process, self.made = program, path, free_port(), None, 0
        done = subprocess.run([program, "init", "--store", self.path, "--manager", "root"], capture_output=True, check=False)
        if done.returncode != 0:
            sys.exit(f"init: {done.stderr.decode()}")
        lines = "".join(json.dumps({**it, "caller": "root", "number": number(n)}) + "\n" for n, it in enumerate(beginning))
        done = subprocess.run([program, "deliver", "--store", self.path], input=lines.encode(), capture_output=True, check=False)
        if [it[:3] for it in done.stdout.decode().splitlines()] != ["200"] * len(beginning):
            sys.exit(f"the office: {done.stdout.decode()} {done.stderr.decode()}")

    def start(self):
        if self.process and self.process.poll() is None:
            raise RuntimeError("the office is still there")
        words = [self.program, "serve", "--store", self.path, "--port", str(self.port), "--connections", "1000000"]
        self.process = subprocess.Popen(words, stdin=subprocess.DEVNULL, stderr=subprocess.DEVNULL)
        wait_until("the office serves", lambda: self.ask("GET", "/v1/stats/xx")[0] == 404)

    def kill(self):
        self.process.kill()
        self.process.wait()

    def ask(self, method, path, body=None, caller=None):
        """A client beside the front."""
        try:
            link = http.client.HTTPConnection(HOST, self.port, timeout=SECONDS)
            link.request(method, path, body, {"Connection": "close", **({"X-Office-Caller": caller} if caller else {})})
            answer = link.getresponse()
            return answer.status, json.loads(answer.read() or "null")
        except OSError:
            return 0, None
        finally:
            link.close()

    def export(self, lang="de"):
        with contextlib.closing(http.client.HTTPConnection(HOST, self.port, timeout=SECONDS)) as link:
            link.request("GET", f"/v1/export/{lang}", headers={"Connection": "close"})
            return link.getresponse().read().decode()

    def act(self, caller, use=None, **fields):
        self.made += 1
        use = use or number(10_000 + self.made)
        return self.ask("POST", f"/v1/requests/{use}", json.dumps(fields), caller)

    def unit(self, msgid, lang="de", **more):
        return self.ask("GET", "/v1/unit?" + urllib.parse.urlencode({"lang": lang, "id": msgid, **more}))[1]


def wait_until(what, condition):
    for _ in range(SECONDS * 20):
        found = condition()
        if found:
            return found
        time.sleep(0.05)
    sys.exit(f"{what}: not within {SECONDS} seconds")


class Relay(socketserver.ThreadingUnixStreamServer):
    """Hands each message on to the office, and its answer back. `mode` says what becomes of the next ones instead; `posts` has the requests, each
    with its number, its body and its time."""

    daemon_threads = True
    request_queue_size = 128

    def __init__(self, path, office):
        self.office, self.mode, self.posts = office, "pass", []
        super().__init__(str(path), RelayedMessage)
        os.chmod(path, 0o666)
        threading.Thread(target=self.serve_forever, daemon=True).start()

    def bodies(self, use):
        return [body for posted, body, _ in self.posts if posted == use]

    def pauses(self):
        """The seconds between each request and the one before."""
        times = [it[2] for it in self.posts]
        return [after - before for before, after in zip(times, times[1:])]


class RelayedMessage(socketserver.StreamRequestHandler):
    def handle(self):
        with contextlib.suppress(BrokenPipeError):
            self.hand_on()

    def hand_on(self):
        head = b"".join(iter(self.rfile.readline, b"\r\n")) + b"\r\n"
        found = re.search(rb"^content-length: *(\d+)", head, re.I | re.M)
        body = self.rfile.read(int(found[1])) if found else b""
        relay = self.server
        if head.startswith(b"POST"):
            relay.posts.append((head.split()[1].decode().rsplit("/", 1)[1], body, time.monotonic()))
        elif relay.mode != "refuse":
            self.wfile.write(self.of_office(head, body))
            return
        match relay.mode:
            case "refuse":
                return
            case "pass":
                self.wfile.write(self.of_office(head, body))
            case "lose request":
                relay.mode = "refuse"
                relay.office.kill()
            case "lose reply":
                relay.mode = "refuse"
                self.of_office(head, body)
                relay.office.kill()
            case "half":
                relay.mode = "pass"
                answer = self.of_office(head, body)
                self.wfile.write(answer[: len(answer) - 10])
            case status, kind, text:
                relay.mode = "pass"
                pause = f"Retry-After: {PAUSE}\r\n" if status == 429 else ""
                told = f"HTTP/1.1 {status} Told\r\nContent-Type: {kind}\r\n{pause}Content-Length: {len(text.encode())}\r\n\r\n{text}"
                self.wfile.write(told.encode())

    def of_office(self, head, body):
        try:
            with socket.create_connection((HOST, self.server.office.port), SECONDS) as link:
                link.sendall(head + body)
                return b"".join(iter(lambda: link.recv(65536), b""))
        except OSError:
            return b""


@contextlib.contextmanager
def front(folder, name, passwords, files, configuration):
    """nginx or HAProxy, as share/front has them, with the page's files and its office.json; and the folder of what lies beside the page."""
    folder.mkdir()
    site = folder / "site"
    shutil.copytree(files, site)
    with page_server(site) as port:
        if name == "haproxy":
            server, own, beside = front_servers.HAProxy(folder / "front", passwords, port), folder / "front" / "office", site
        else:
            server = front_servers.Nginx(folder / "front", {PROJECT: passwords}, site)
            own, beside = folder / "front" / "office" / "projects" / PROJECT, folder / "front" / "beside" / PROJECT
        (own / "office.json").write_text(json.dumps(configuration))
        for it in ("snapshot", "checks", "glossary"):
            (beside / it).mkdir(parents=True)
        with server.serving():
            yield server, beside


class PageFile(http.server.SimpleHTTPRequestHandler):
    def log_message(self, *_):
        pass


@contextlib.contextmanager
def page_server(files):
    """The port of a server of the page's files, which stands behind HAProxy."""
    with http.server.ThreadingHTTPServer((HOST, 0), functools.partial(PageFile, directory=files)) as server:
        threading.Thread(target=server.serve_forever, daemon=True).start()
        yield server.server_port
        server.shutdown()
