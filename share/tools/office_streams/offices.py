"""An office's own process, which ends with the feed that started it: `office deliver` to catch up, `office serve` where questions come."""
import collections
import ctypes
import http.client
import json
import signal
import socket
import subprocess
import tempfile
import time

from office_streams import Fault

HOST = "127.0.0.1"
LOST = b'{"error":"memory"}'
MALFORMED = (400, b'{"error":"malformed"}')
# How many lines are ahead of their answers, where the office stops at the first that it loses; and from which length on a line is alone on its
# way, so that neither side waits for the other.
WINDOW, LONG_LINE = 64, 16_384
# An answer that is longer lies in a file until it is handed on.
IN_MEMORY = 1 << 20
# What of a served office's answer goes on.
Answer = collections.namedtuple("Answer", "status kind digest body length")


def end_with_parent():
    """The child gets SIGTERM when this process is gone, however that came."""
    ctypes.CDLL(None).prctl(1, signal.SIGTERM)


def stops_at_lost(program):
    """Whether the program takes nothing behind the first line that it lost, so that many lines may be ahead of their answers. Where it can't, each
    line waits for the answer to the one before, which is slower."""
    try:
        told = subprocess.run([program, "deliver", "--help"], capture_output=True, timeout=60, check=False)
    except OSError as why:
        raise Fault(f"{program}: {why.strerror}") from None
    return b"--stop-at-lost" in told.stdout + told.stderr


def refuse_constant(name):
    raise ValueError(name)


def line_of(message):
    """The request as a line; none where a served office would find its body malformed for what a line would hide."""
    try:
        text = message.body.decode("utf-8")
        keys = json.loads(text, object_pairs_hook=lambda pairs: [key for key, _ in pairs], parse_constant=refuse_constant)
    except (ValueError, RecursionError):
        return None
    rest = text.lstrip(" \t\r\n")
    if not rest.startswith("{") or not keys or "number" in keys or "caller" in keys:
        return None
    # Valid JSON has line ends between its parts alone.
    rest = rest[1:].replace("\n", " ").replace("\r", " ")
    return f'{{"number":"{message.number}","caller":"{message.caller}",{rest}\n'.encode()


class Lines:
    """An office that takes requests as lines. Behind one that was lost for want of memory no other may be taken before it came again."""

    answers_questions = False

    def __init__(self, program, store, many):
        self.window = WINDOW if many else 1
        self.takes_no_more = False
        words = [program, "deliver", "--store", store] + (["--stop-at-lost"] if many else [])
        self.child = subprocess.Popen(words, 1 << 16, stdin=subprocess.PIPE, stdout=subprocess.PIPE, preexec_fn=end_with_parent)

    def deliver(self, messages):
        """Each message's status and body, as far as they were taken; the last may be one that was lost."""
        ahead = collections.deque()
        for message in messages:
            line = line_of(message)
            for _ in range(self.due(len(ahead), line)):
                yield self.answer(ahead.popleft())
            if line is None:
                yield MALFORMED
            elif not self.takes_no_more:
                self.write(self.child.stdin.write, line)
                ahead.append(message)
        while ahead:
            yield self.answer(ahead.popleft())
        if self.takes_no_more:
            self.gone()

    def due(self, ahead, line):
        """How many answers are read before this line goes. A full window is emptied by half, so that lines go many at once."""
        if line is None or LONG_LINE < len(line):
            return ahead
        return 0 if ahead < self.window else ahead - self.window // 2

    def write(self, how, *line):
        """An office that takes nothing more may have answered lines before, which are read first."""
        try:
            how(*line)
        except OSError:
            self.takes_no_more = True

    def answer(self, _message):
        self.write(self.child.stdin.flush)
        told = self.child.stdout.readline()
        if not told.endswith(b"\n"):
            self.gone()
        status, _, body = told[:-1].partition(b" ")
        return int(status), body

    def gone(self):
        raise Fault(f"the office ended: status {self.child.wait(60)}")

    def close(self):
        try:
            self.child.stdin.close()
        except OSError:
            pass
        self.child.stdout.read()
        return self.child.wait(600)


def free_port():
    with socket.socket() as it:
        it.bind((HOST, 0))
        return it.getsockname()[1]


class Served:
    """An office that is served over HTTP: it takes requests, and answers questions between them, on one connection."""

    answers_questions = True

    def __init__(self, program, store, _many):
        self.port = free_port()
        self.connection = None
        words = [program, "serve", "--store", store, "--port", str(self.port), "--connections", "4294967295"]
        self.child = subprocess.Popen(words, stdin=subprocess.DEVNULL, preexec_fn=end_with_parent)
        while not self.is_listening():
            if self.child.poll() is not None:
                raise Fault(f"the office doesn't start: status {self.child.returncode}")
            time.sleep(0.02)

    def is_listening(self):
        try:
            socket.create_connection((HOST, self.port), 1).close()
            return True
        except OSError:
            return False

    def deliver(self, messages):
        for message in messages:
            head = {"X-Office-Caller": message.caller}
            answer = self.ask("POST", f"/v1/requests/{message.number}", message.body, head)
            with answer.body:
                yield answer.status, answer.body.read()

    def ask(self, method, target, body=None, head=None):
        """An answer; the same is asked again where none comes: it acts once."""
        for _ in range(60):
            if self.child.poll() is not None:
                raise Fault(f"the office ended: status {self.child.returncode}")
            try:
                return self.once(method, target, body, head or {})
            except (OSError, http.client.HTTPException):
                self.pause()
                time.sleep(0.05)
        raise Fault("the office doesn't answer")

    def once(self, method, target, body, head):
        if self.connection is None:
            self.connection = http.client.HTTPConnection(HOST, self.port, timeout=120)
        self.connection.request(method, target, body, head)
        answer = self.connection.getresponse()
        kept = tempfile.SpooledTemporaryFile(IN_MEMORY)
        length = 0
        while piece := answer.read(1 << 16):
            kept.write(piece)
            length += len(piece)
        kept.seek(0)
        if answer.will_close:
            self.pause()
        return Answer(answer.status, answer.getheader("Content-Type"), answer.getheader("X-Office-SHA256"), kept, length)

    def pause(self):
        """Lets the connection go; an office gives up one on which nothing comes for a minute."""
        if self.connection is not None:
            self.connection.close()
            self.connection = None

    def close(self):
        self.pause()
        self.child.terminate()
        return self.child.wait(60)


def opened(kind, program, store, many):
    """An office's process. A file that another process still has is waited for."""
    for _ in range(50):
        try:
            return kind(program, store, many)
        except Fault as fault:
            last = fault
            time.sleep(0.2)
        except OSError as why:
            raise Fault(f"{program}: {why.strerror}") from None
    raise last


def make(program, store, manager):
    try:
        made = subprocess.run([program, "init", "--store", store, "--manager", manager], capture_output=True, text=True, check=False)
    except OSError as why:
        raise Fault(f"{program}: {why.strerror}") from None
    if made.returncode != 0:
        raise Fault(f"no office can be made: {made.stdout.strip()} {made.stderr.strip()}")
