"""Messages over HTTP/1.1 as `office serve` takes them: the tests, the statuses and the words that docs/FORMATS.md has, in its order."""
import json
import re

LONGEST_HEAD, MOST_LINES = 8192, 32
FIRST = re.compile(rb"([!#$%&'*+.^_`|~0-9A-Za-z-]+) ([\x21-\x7e\x80-\xff]+) HTTP/1\.([01])")
LINE = re.compile(rb"([!#$%&'*+.^_`|~0-9A-Za-z-]+):[ \t]*([\t\x20-\x7e\x80-\xff]*?)[ \t]*")
PHRASES = {
    200: "OK",
    400: "Bad Request",
    403: "Forbidden",
    404: "Not Found",
    405: "Method Not Allowed",
    409: "Conflict",
    411: "Length Required",
    413: "Payload Too Large",
    422: "Unprocessable Entity",
    431: "Request Header Fields Too Large",
    502: "Bad Gateway",
    503: "Service Unavailable",
    504: "Gateway Timeout",
    507: "Insufficient Storage",
}
REQUEST, EXPORT, UNIT, STATS = "request", "export", "unit", "stats"
PATHS = (
    (REQUEST, re.compile(r"/v1/requests/([^/]+)")),
    (EXPORT, re.compile(r"/v1/(?:domains/[^/]+/)?export/[^/]+")),
    (UNIT, re.compile(r"/v1/unit")),
    (STATS, re.compile(r"/v1/(?:domains/[^/]+/)?stats/[^/]+")),
)


class Refused(Exception):
    """Why a message isn't taken: its status and word, and whether nothing more is read behind it."""

    def __init__(self, status, word, end=False):
        super().__init__(word)
        self.status, self.word, self.end = status, word, end


class Head:
    def __init__(self, method, target, version, lines):
        self.method, self.target, self.version, self.lines = method, target, version, lines
        self.path, self.has_query, _ = target.partition("?")

    def values(self, name):
        return [value for found, value in self.lines if found == name]

    def ends(self):
        """Whether nothing more is read behind the message."""
        return self.version == 0 or self.method == "HEAD" or any(it.lower() == "close" for it in self.values("connection"))

    def length(self, longest):
        """The length of its body; None where it has none."""
        lengths = self.values("content-length")
        if self.values("transfer-encoding") or 1 < len(lengths) or not all(re.fullmatch("[0-9]{1,9}", it) for it in lengths):
            raise Refused(400, "malformed", end=True)
        if lengths and longest < int(lengths[0]):
            raise Refused(413, "too-large", end=True)
        return int(lengths[0]) if lengths else None

    def route(self):
        """Which path it is, and the number of a request."""
        for kind, path in PATHS:
            found = path.fullmatch(self.path)
            if found and (not self.has_query or kind == UNIT):
                if self.method != ("POST" if kind == REQUEST else "GET"):
                    raise Refused(405, "method")
                return kind, found[1] if kind == REQUEST else None
        raise Refused(404, "no-route")


def read_head(source):
    """The head of the next message; None where the stream ends before it."""
    text = source.readline(LONGEST_HEAD)
    if not text:
        return None
    lines = [text]
    size = len(text)
    while text not in (b"\n", b"\r\n") or len(lines) == 1:
        if not text.endswith(b"\n"):
            raise Refused(*((431, "head") if LONGEST_HEAD <= size else (400, "malformed")), end=True)
        if LONGEST_HEAD <= size:
            raise Refused(431, "head", end=True)
        text = source.readline(LONGEST_HEAD - size)
        size += len(text)
        lines.append(text)
    return head_of([it.rstrip(b"\n").removesuffix(b"\r") for it in lines[:-1]])


def head_of(lines):
    first = FIRST.fullmatch(lines[0])
    found = [LINE.fullmatch(it) for it in lines[1:]]
    if not first or not all(found) or MOST_LINES < len(found):
        raise Refused(400, "malformed", end=True)
    pairs = [(it[1].decode().lower(), it[2].decode("latin-1")) for it in found]
    return Head(first[1].decode(), first[2].decode("latin-1"), int(first[3]), pairs)


def read_body(source, length):
    body = source.read(length or 0)
    if len(body) != (length or 0):
        raise Refused(400, "malformed", end=True)
    return body


def answer_head(status, length, kind="application/json", further=(), end=False):
    lines = [f"HTTP/1.1 {status} {PHRASES.get(status, 'Answer')}", f"Content-Type: {kind}", f"Content-Length: {length}"]
    lines += [f"{name}: {value}" for name, value in further]
    if end:
        lines.append("Connection: close")
    return ("\r\n".join(lines) + "\r\n\r\n").encode("latin-1")


def error(word):
    return json.dumps({"error": word}, separators=(",", ":")).encode()
