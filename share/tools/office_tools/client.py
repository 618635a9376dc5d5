"""A client of a served office: it asks on a kept connection, and asks again where no answer comes, which acts once."""
import argparse
import base64
import collections
import contextlib
import hashlib
import http.client
import netrc
import os
import socket
import ssl
import threading
import time
import urllib.parse

from office_tools import LANG, Fault, name
from office_tools.files import LONGEST
from office_tools.replies import body_of, in_words, reply_of, view_of
from office_tools.requests import MAIN, compact

# Answers behind which the same is asked again: the office had no memory or disk, or a front didn't reach it or bounds the rate.
AGAIN = (429, 502, 503, 504, 507)
# How long nothing may come, and how long the whole of an answer may take, in seconds.
SILENCE, WHOLE = 60, 600
PIECE = 1 << 20
# How long a front may have one wait, in seconds.
LONGEST_WAIT = 30

Answer = collections.namedtuple("Answer", "status text headers")


class Unsaid(Fault):
    """Why an office doesn't say a language's text, in words."""


def add_words(parser, required=True):
    """The words that say who asks the office."""
    who = parser.add_mutually_exclusive_group(required=required)
    who.add_argument("--caller", type=name, metavar="NAME", help="who acts, where the office is asked itself")
    who.add_argument("--login", type=login, metavar="NAME", help="who signs in at a front; the password is $OFFICE_PASSWORD, or stands in ~/.netrc")
    parser.add_argument("--tries", type=count, default=8, metavar="T", help="how often each is asked at most [default: 8]")


def login(text):
    """A login: a caller's name in any case, which a front maps to lower case."""
    name(text.lower())
    return text


def count(text):
    number = int(text)
    if number < 1:
        raise ValueError(text)
    return number


def address(text):
    """An office's address, as a word of the command line: that of a port, or of a socket."""
    url = urllib.parse.urlsplit(text)
    if url.scheme == "unix" and url.path and not url.netloc:
        return url
    if url.scheme not in ("http", "https") or not url.hostname or url.query or url.fragment or url.username:
        raise argparse.ArgumentTypeError(f"{text!r} is no address: http://HOST:PORT is one (a login stands behind --login)")
    return url


def password_of(host):
    """The password for a host, from $OFFICE_PASSWORD or ~/.netrc."""
    if "OFFICE_PASSWORD" in os.environ:
        return os.environ["OFFICE_PASSWORD"]
    try:
        found = netrc.netrc().authenticators(host)
    except (OSError, netrc.NetrcParseError):
        found = None
    if found is None:
        raise Fault(f"no password: $OFFICE_PASSWORD isn't set, and ~/.netrc has none for {host}")
    return found[2]


@contextlib.contextmanager
def within(seconds, connection):
    """Breaks a connection off where what is done on it meanwhile takes longer than so many seconds."""
    if connection.sock is None:
        connection.connect()
    late = threading.Event()

    def break_off(link):
        late.set()
        with contextlib.suppress(OSError):
            # Of one with TLS the socket below is meant, which another thread may shut at any time.
            socket.socket.shutdown(link, socket.SHUT_RDWR)

    timer = threading.Timer(seconds, break_off, [connection.sock])
    timer.daemon = True
    timer.start()
    try:
        yield
    finally:
        timer.cancel()
    if late.is_set():
        raise TimeoutError


def read(answer):
    """The bytes of an answer's body, of which it has as many as it says, and no more than the longest that an office may give."""
    data = bytearray()
    while piece := answer.read(PIECE):
        data += piece
        if len(data) > LONGEST:
            answer.close()
            raise Fault(f"its answer is longer than {LONGEST:,} bytes")
    if answer.length:
        raise http.client.IncompleteRead(bytes(data))
    return bytes(data)


def wait_behind(answer, turn):
    """How long to wait before the same is asked again: as long as a front that bounds the rate says, else longer each time."""
    told = answer.headers.get("Retry-After", "") if answer and answer.status == 429 else ""
    return min(int(told), LONGEST_WAIT) if told.isdecimal() else min(10, 0.1 * 2**turn)


class SocketConnection(http.client.HTTPConnection):
    """A connection to a socket of this machine, as a door of an office has one."""

    def __init__(self, path, timeout):
        super().__init__("localhost", timeout=timeout)
        self.path = path

    def connect(self):
        self.sock = socket.socket(socket.AF_UNIX)
        self.sock.settimeout(self.timeout)
        self.sock.connect(self.path)


def connection_to(url):
    if url.scheme == "unix":
        return SocketConnection(url.path, SILENCE)
    kind = http.client.HTTPSConnection if url.scheme == "https" else http.client.HTTPConnection
    return kind(url.hostname, url.port, timeout=SILENCE)


class Office:
    """An office at an address, asked by one caller, or by nobody in particular. It is asked in one domain."""

    def __init__(self, url, caller=None, login=None, tries=8, domain=MAIN):
        self.caller = caller or login and login.lower()
        self.tries, self.domain = tries, domain
        self.where = url.hostname or url.path
        self.prefix = "" if url.scheme == "unix" else url.path.rstrip("/")
        self.connection = connection_to(url)
        self.headers = {"Content-Type": "application/json"}
        if url.scheme == "unix":
            # A connection that is kept holds the office, and a door is others' too.
            self.headers["Connection"] = "close"
        if login:
            pair = f"{login}:{password_of(url.hostname)}"
            self.headers["Authorization"] = "Basic " + base64.b64encode(pair.encode()).decode()
        elif caller:
            self.headers["X-Office-Caller"] = caller

    def once(self, method, target, body):
        """One answer; None where none came whole."""
        try:
            with within(WHOLE, self.connection):
                self.connection.request(method, self.prefix + target, body, self.headers)
                answer = self.connection.getresponse()
                return Answer(answer.status, read(answer).decode(), answer.headers)
        except ssl.SSLCertVerificationError as why:
            raise Fault(f"{self.where}: its certificate isn't trusted: {why.verify_message}; $SSL_CERT_FILE names a file of those to trust") from None
        except ssl.SSLError as why:
            if why.reason == "WRONG_VERSION_NUMBER":
                raise Fault(f"{self.where}: no TLS is spoken there: http:// is its address, or another port") from None
            self.connection.close()
            return None
        except (OSError, http.client.HTTPException, UnicodeDecodeError):
            self.connection.close()
            return None

    def asked(self, method, target, body=None):
        """An answer, asked for until it comes."""
        answer = None
        for turn in range(self.tries):
            if turn:
                time.sleep(wait_behind(answer, turn))
            answer = self.once(method, target, body)
            if answer and answer.status == 401:
                raise Fault("the front doesn't take this login and password")
            if answer and answer.status not in AGAIN:
                return answer
        told = in_words(answer.status, body_of(answer.text)) if answer else "no answer"
        raise Fault(f"{told}, {self.tries} times; run it again: what was sent acts once")

    def ask(self, method, target, body=None):
        """The status and text of an answer, asked for until it comes."""
        return self.asked(method, target, body)[:2]

    def route(self, question, lang):
        """The path of a question about a language."""
        place = "" if self.domain == MAIN else f"/domains/{self.domain}"
        return f"/v1{place}/{question}/{lang}"

    def export(self, lang):
        """A language's PO text, as long and with the digest that the office says."""
        status, text, headers = self.asked("GET", self.route("export", lang))
        if status != 200:
            raise Unsaid(f"{lang}: {in_words(status, body_of(text))}")
        if headers.get("X-Office-SHA256") not in (None, hashlib.sha256(text.encode()).hexdigest()):
            raise Fault(f"{lang}: what came is not the text whose digest the office told")
        return text

    def has(self, lang):
        """Whether the office has a language."""
        status, text = self.ask("GET", self.route("stats", lang))
        if status not in (200, 404):
            raise Fault(f"{lang}: {in_words(status, body_of(text))}")
        return status == 200

    def languages(self):
        """The domain's languages, as a front's office.json lists them; None where it doesn't."""
        status, text = self.ask("GET", "/office.json")
        listed = body_of(text) if status == 200 else {}
        further = listed.get("domains")
        domains = {**(further if isinstance(further, dict) else {}), MAIN: listed.get("languages")}
        found = domains.get(self.domain)
        is_list = isinstance(found, list) and all(isinstance(it, str) and LANG.fullmatch(it) for it in found)
        return sorted(found) if is_list else None

    def view(self, unit):
        """The status and the body of a question about a unit."""
        status, text = self.ask("GET", "/v1/unit?" + urllib.parse.urlencode({**unit, **self.in_domain()}))
        return status, view_of(text) if status == 200 else body_of(text)

    def in_domain(self):
        """The field that names the domain, where it is another than main."""
        return {} if self.domain == MAIN else {"domain": self.domain}

    def send(self, request):
        """The status and the body of a request's reply."""
        act = {key: value for key, value in request.items() if key not in ("number", "caller")}
        status, text = self.ask("POST", f"/v1/requests/{request['number']}", compact(act).encode())
        return status, reply_of(text) if status == 200 else body_of(text)

    def close(self):
        self.connection.close()
