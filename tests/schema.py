#!/usr/bin/env python3
"""Checks the JSON Schema of requests and the OpenAPI descriptions under share/ against the rows of requests, replies and messages.

    tests/schema.py      (wants jsonschema 4.18 or later, referencing, PyYAML and openapi-spec-validator:
                          pip install openapi-spec-validator, or in a later Debian than 12 apt-get install python3-openapi-spec-validator)

The rows are those of crates/cases_model/stdin (part requests), crates/cases_office/stdin (parts desks, maps and streams) and crates/cli, whose
programs say what the office reads and answers. Each request that a row reads has to be valid, and each that a row calls malformed has to be not,
but for what a schema can't say, which UNSAYABLE lists; a row there that a schema can say after all is told too. Each reply, view of a unit,
counts, and each message over HTTP with its answer has to be what the description says of its route, and what the one file office-front.yaml says,
which has to be the one that tools/one_description.py makes, and to describe each answer that the fronts of share/front are set to give, and no
other. Of a request with one wrong field the schema's errors name that field and no other. The files have to be valid themselves, and the
description has the program's version. Prints what is otherwise, and last `N looks, M wrong`; the status is 1 if anything was.
"""
import collections
import json
import pathlib
import re
import sys
import urllib.parse

import jsonschema
import openapi_spec_validator
import referencing
import referencing.jsonschema
import yaml

sys.path.insert(0, str(pathlib.Path(__file__).resolve().parent.parent / "tools"))
import one_description  # noqa: E402

TOP = pathlib.Path(__file__).resolve().parent.parent
SCHEMA = TOP / "share" / "schema" / "requests.schema.json"
OPENAPI = TOP / "share" / "openapi" / "office.yaml"
MODEL_ROWS = TOP / "crates" / "cases_model" / "stdin"
OFFICE_ROWS = TOP / "crates" / "cases_office" / "stdin"
CLI = TOP / "crates" / "cli"

# Malformed texts that JSON Schema takes, by why it has to, each with a pattern of the text.
UNSAYABLE = {
    "a whole number with a fraction of 0": re.compile(r'"(?:value|seen|accept_at)":-?[0-9]+\.0+[,}]'),
    "a whole number with an exponent": re.compile(r'"(?:value|seen|accept_at)":[0-9.]+e[0-9]+[,}]'),
    "a zero with a sign": re.compile(r'"(?:value|seen|accept_at)":-0[,}]'),
    "more bytes than characters": re.compile(r"[^\x00-\x7F]{131073}"),
}

looks = wrong = 0
unsayable = collections.Counter()


def look(what, holds):
    global looks, wrong
    looks += 1
    if not holds:
        wrong += 1
        print(what[:400])


# ---- validators


def registry():
    files = {"schema/requests.schema.json": json.loads(SCHEMA.read_text()), "openapi/office.yaml": DESCRIPTION, "openapi/office-front.yaml": ONE}
    make = referencing.jsonschema.DRAFT202012.create_resource
    return referencing.Registry().with_resources([(f"file:///{name}", make(it)) for name, it in files.items()])


DESCRIPTION = yaml.safe_load(OPENAPI.read_text())
ONE = yaml.safe_load(one_description.MADE.read_text())
REGISTRY = registry()


def validator(place):
    """A validator of the schema at a place of one of the files, schema/.. or openapi/..."""
    return jsonschema.Draft202012Validator({"$ref": f"file:///{place}"}, registry=REGISTRY)


REQUEST = validator("schema/requests.schema.json")
BODY = validator("schema/requests.schema.json#/$defs/body")
NAME = validator("schema/requests.schema.json#/$defs/name")


def parsed(text):
    """The value of a text of JSON; None where it is none, as the office reads it."""

    def refuse(word):
        raise ValueError(word)

    try:
        value = json.loads(text, parse_constant=refuse)
        json.dumps(value, ensure_ascii=False).encode()
    except (ValueError, RecursionError):
        return None
    return value


def is_valid(validates, text):
    value = parsed(text)
    return value is not None and validates.is_valid(value)


def judge(what, validates, text, is_read):
    """A text has to be valid exactly where it is read; or it is malformed for a reason that a schema can't say."""
    valid = is_valid(validates, text)
    if valid and not is_read:
        reasons = [why for why, pattern in UNSAYABLE.items() if pattern.search(text)]
        unsayable.update(reasons[:1])
        look(f"{what}: malformed, and valid for the schema: {text}", bool(reasons))
    else:
        look(f"{what}: {'read' if is_read else 'malformed'}, and {'valid' if valid else 'not valid'}: {text}", valid == is_read)


# ---- rows of requests


def part(path, name):
    """The rows of a part, without comments, each with its number."""
    found, inside = [], False
    for number, line in enumerate(path.read_text().split("\n"), 1):
        if line.startswith("== "):
            inside = line == f"== {name}"
        elif inside and line and not line.startswith("#"):
            found.append((f"{path.parent.name} {number}", line))
    return found


def meant(text):
    """The text that a row's escapes stand for."""
    text = re.sub(r"<(\d+)\*([^<>]*)>", lambda it: int(it[1]) * it[2], text)
    return re.sub(r"<U\+([0-9A-F]+)>", lambda it: chr(int(it[1], 16)), text)


def request_rows():
    """What the rows of requests read, and what they call malformed."""
    last = ""
    for where, line in part(MODEL_ROWS, "requests"):
        deed, _, told = line.partition(" -> ")
        word, _, texts = deed.partition("|")
        is_read = told != "malformed"
        if word == "read":
            last = meant(texts)
            judge(where, REQUEST, last, is_read)
        elif word == "but":
            old, _, new = texts.partition("|")
            judge(where, REQUEST, last.replace(meant(old), meant(new)), is_read)
        elif word.startswith("cut "):
            judge(where, REQUEST, last.encode()[: int(word[4:])].decode(errors="replace"), is_read)
        elif word == "act":
            judge(where, BODY, meant(texts), is_read)
        elif word == "copy":
            judge(where, REQUEST, meant(texts), is_read)


# ---- replies


def answers_of(path, method, status, description=DESCRIPTION):
    """What a description says of an answer, or None, and its place."""
    responses = description["paths"][path][method]["responses"]
    answer = responses.get(str(status))
    place = f"paths/{path.replace('/', '~1')}/{method}/responses/{status}"
    if answer and "$ref" in answer:
        place = answer["$ref"].removeprefix("#/")
        answer = description["components"]["responses"][place.rpartition("/")[2]]
    return answer, place


VALIDATORS = {}


def is_told_by(name, description, path, method, status, body):
    answer, place = answers_of(path, method, status, description)
    if answer is None:
        return False
    place = f"openapi/{name}#/{place}/content/application~1json/schema"
    validates = VALIDATORS.setdefault(place, validator(place))
    return is_valid(validates, body)


def is_described(path, method, status, body):
    """Whether this answer with this body of JSON is what the description says, and the one file."""
    return all(is_told_by(name, it, path, method, status, body) for name, it in (("office.yaml", DESCRIPTION), ("office-front.yaml", ONE)))


POST = "/v1/requests/{number}"


def reply(where, told):
    """A reply `STATUS BODY` has to be one of the description's."""
    status, _, body = told.partition(" ")
    look(f"{where}: no such answer: {told}", is_described(POST, "post", int(status), body))


def desk_rows():
    """What the rows of deliveries send and are answered."""
    named = {}
    for where, line in part(OFFICE_ROWS, "desks"):
        name = re.match(r"([a-z0-9-]+) is (.*)", line)
        if name:
            named[name[1]] = name[2]
            continue
        deed, _, told = line.partition(" -> ")
        text = named.get(deed, deed)
        if re.fullmatch(r"[0-9]{3} \{.*", told):
            if text.startswith("{"):
                judge(where, REQUEST, text, told != '400 {"error":"malformed"}')
            # (of many requests, the first)
            reply(where, told.replace("@", deed.split(" ")[1] if deed.startswith("many ") else "@"))
        elif deed.startswith("unit ") and told.startswith("{"):
            look(f"{where}: no such view: {told}", is_described("/v1/unit", "get", 200, told))
        elif deed.startswith("stats ") and told.startswith("{"):
            look(f"{where}: no such counts: {told}", is_described("/v1/stats/{lang}", "get", 200, told))


def program_rows():
    """What the program's own input is answered."""
    requests = (CLI / "stdin").read_text().split("\n")[:-1]
    replies = [it for it in (CLI / "stdout").read_text().split("\n") if re.match("[0-9]{3} ", it)]
    look("cli: not a reply for each request", len(requests) == len(replies))
    for number, (text, told) in enumerate(zip(requests, replies), 1):
        judge(f"cli {number}", REQUEST, text, told != '400 {"error":"malformed"}')
        reply(f"cli {number}", told)


# ---- messages over HTTP


def bytes_of(text, named):
    """The bytes that a row's text of a connection stands for."""
    while re.search(r"<[a-z0-9-]+>", text):
        text = re.sub(r"<([a-z0-9-]+)>", lambda it: named[it[1]], text)
    text = text.replace("|", "\r\n")
    text = re.sub(r"\^(\d*)\(([^()]*)\)", lambda it: int(it[1] or 1) * it[2], text)
    text = re.sub(r"\^(\d*)([nrt])", lambda it: int(it[1] or 1) * {"n": "\n", "r": "\r", "t": "\t"}[it[2]], text)
    pieces = re.split(r"\^x([0-9A-F]{2})", text)
    return b"".join(bytes([int(it, 16)]) if odd else it.encode() for odd, it in ((n % 2, it) for n, it in enumerate(pieces)))


def messages(stream):
    """The messages, or answers, of a stream up to one that isn't whole: first line, headers, body."""
    while match := re.match(rb"(.*?)\r?\n((?:[^\r\n]+\r?\n)*)\r?\n", stream):
        headers = [line.split(b":", 1) for line in match[2].splitlines()]
        if any(len(it) != 2 for it in headers):
            return
        headers = [(name.strip().lower(), value.strip()) for name, value in headers]
        lengths = [value for name, value in headers if name == b"content-length"]
        length = int(lengths[0]) if lengths and re.fullmatch(rb"[0-9]{1,9}", lengths[0]) else 0
        body = stream[match.end() : match.end() + length]
        yield match[1].decode(errors="replace"), headers, body
        stream = stream[match.end() + length :]


def query_of(text):
    """The parameters of a query; None where they are no UTF-8."""
    try:
        return urllib.parse.parse_qsl(text, keep_blank_values=True, errors="strict")
    except UnicodeDecodeError:
        return None


def route_of(target):
    """The route of a target, with its parameters, which are None where they are no UTF-8; None where there is none."""
    path, _, query = target.partition("?")
    for route in DESCRIPTION["paths"]:
        found = re.fullmatch(re.sub(r"\{(\w+)\}", r"(?P<\1>[^/]+)", route), path)
        if found and ("?" not in target or route == "/v1/unit"):
            asked = query_of(query)
            return route, None if asked is None else list(found.groupdict().items()) + asked
    return None


def is_asked_well(route, method, parameters, headers, body):
    """Whether the description takes the parameters, the caller and the body of a message."""
    if parameters is None:
        return False
    told = DESCRIPTION["paths"][route][method]
    described = [resolved(it) for it in told.get("parameters", [])]
    names = [name for name, _ in parameters]
    if len(set(names)) != len(names) or set(names) - {it["name"] for it in described}:
        return False
    if any(it.get("required") and it["name"] not in names for it in described):
        return False
    for it in described:
        validates = validator("schema/" + it["schema"]["$ref"].removeprefix("../schema/"))
        if not all(validates.is_valid(value) for name, value in parameters if name == it["name"]):
            return False
    if method == "get":
        return True
    try:
        callers = [value.decode() for name, value in headers if name == b"x-office-caller"]
        text = body.decode()
        return len(callers) == 1 and NAME.is_valid(callers[0]) and is_valid(BODY, text)
    except UnicodeDecodeError:
        return False


def resolved(parameter):
    return DESCRIPTION["components"]["parameters"][parameter["$ref"].rpartition("/")[2]] if "$ref" in parameter else parameter


def exchange(where, message, answer):
    """A message of a described route with its answer."""
    line, headers, body = message
    words = line.split(" ")
    status = int(answer[0].split(" ")[1])
    route = route_of(words[1]) if len(words) == 3 else None
    if route is None or words[0] not in [it.upper() for it in DESCRIPTION["paths"][route[0]]]:
        return
    path, parameters = route
    method, text = words[0].lower(), answer[2].decode()
    if path.endswith("/export/{lang}") and status == 200:
        digest = dict(answer[1]).get(b"x-office-sha256", b"").decode()
        pattern = answers_of(path, method, 200)[0]["headers"]["X-Office-SHA256"]["schema"]["pattern"]
        look(f"{where}: no such digest: {digest}", re.search(pattern, digest))
        look(f"{where}: no such type", dict(answer[1])[b"content-type"].decode() in answers_of(path, method, 200)[0]["content"])
    else:
        look(f"{where}: no such answer to {line}: {status} {text}", is_described(path, method, status, text))
    if status in (200, 403, 404, 422) or status == 400 and dict(answer[1]).get(b"connection") is None:
        asked_well = is_asked_well(path, method, parameters, headers, body)
        look(f"{where}: {status}, and the description takes it{'' if asked_well else ' not'}: {line} {body.decode(errors='replace')}", asked_well == (status != 400))


def stream_rows():
    """What the rows of connections send and are answered."""
    named = {}
    for where, line in part(OFFICE_ROWS, "streams"):
        name = re.match(r"([a-z0-9-]+) is (.*)", line)
        if name:
            named[name[1]] = name[2]
        elif line.startswith(("new; ", "on; ", "socket new; ")):
            asked, _, told = line.partition(" -> ")
            answers = told.partition("; ")[2]
            try:
                sent, got = bytes_of(asked.partition("; ")[2], named), bytes_of(answers, named)
            except KeyError:
                continue
            for message, answer in zip(messages(sent), messages(got)):
                exchange(where, message, answer)


NUMBER = "00000000-0000-4000-8000-000000000001"
UNIT = {"lang": "de", "id": "Hello", "seen": 1}
# Of each kind of act a request that is well.
WELL = {
    "suggest": {**UNIT, "forms": ["Hallo"]},
    "vote": {**UNIT, "suggestion": NUMBER, "value": 1},
    "accept": {**UNIT, "suggestion": NUMBER},
    "dismiss": {**UNIT, "suggestion": NUMBER},
    "translate": {**UNIT, "forms": ["Hallo"]},
    "comment": {**UNIT, "lines": ["a line"]},
    "approve": UNIT,
    "send-back": UNIT,
    "template": {"po": ""},
    "language": {"lang": "de", "po": ""},
    "team": {"name": "ann", "role": "guest"},
    "policy": {"reviews": True, "guests_suggest": True, "voting": True, "accept_at": 2, "placeholders": True, "line_ends": True},
    "domain": {"name": "manual"},
}


def named(error):
    """The field that an error of the schema names: where it is, or which is missing or too many."""
    if error.absolute_path:
        return error.absolute_path[0]
    return re.match("'([a-z_]+)' is (?:a required property|not one of)", error.message)[1]


def wrong_fields():
    """Of a request with one wrong field, one missing and one too many, each error of the schema names that field."""
    for act, fields in WELL.items():
        well = {"act": act, "number": NUMBER, "caller": "ann", **fields}
        look(f"{act}: not valid", REQUEST.is_valid(well))
        for name in well:
            for what, it in (("wrong", {**well, name: {}}), ("missing", {key: value for key, value in well.items() if key != name})):
                found = {named(error) for error in REQUEST.iter_errors(it)}
                look(f"{act}: {name} is {what}, and told of {found}", found == {name})
        for name in {"forms", "suggestion", "value", "lines", "po", "ctx", "other"} - set(well) - ({"ctx"} if "id" in well else set()):
            found = {named(error) for error in REQUEST.iter_errors({**well, name: "x"})}
            look(f"{act}: {name} is too many, and told of {found}", found == {name})
        for name in ("number", "caller"):
            body = {key: value for key, value in well.items() if key not in {"number", "caller"} - {name}}
            found = {named(error) for error in BODY.iter_errors(body)}
            look(f"{act}: {name} in a body, and told of {found}", found == {name})


def set_answers():
    """Each answer that a front's configuration is set to give: its status and its word; and each page in such an answer's place, with its type."""
    nginx = "".join(it.read_text() for it in sorted((TOP / "share" / "front" / "nginx" / "office").glob("*")) if it.is_file())
    haproxy = (TOP / "share" / "front" / "haproxy" / "office" / "front.cfg").read_text()
    words = re.findall(r"return ([0-9]{3}) '(\{\"error\":.*?\})'", nginx), re.findall(r"status ([0-9]{3}) .*?string '(\{\"error\":.*?\})'", haproxy)
    pages = re.findall(r"default_type \"(.*?)\";\s+return ([0-9]{3}) '<", nginx), re.findall(r"status ([0-9]{3}) .*?content-type '(.*?)' file .*?\.html", haproxy)
    return *words, {(status, kind) for kind, status in pages[0]}, set(pages[1])


def kinds_of(answer):
    """The types of a described answer's body."""
    name = answer.get("$ref", "").rpartition("/")[2]
    return (ONE["components"]["responses"][name] if name else answer).get("content", ())


def front_answers():
    """Each of them is described of some route; and each of the front's that is described is one of them."""
    nginx, haproxy, *pages = set_answers()
    told = {(status, kind) for it in ONE["paths"]["/sign-out"].values() for status, answer in it["responses"].items() for kind in kinds_of(answer)}
    for what, found in zip(("nginx", "haproxy"), pages):
        look(f"{what} answers the pages {found}, and described are {told}", found == {it for it in told if it[1] != "application/json"} != set())
    look("no answers of a front were found", len(set(nginx)) > 9 and len(set(haproxy)) > 9)
    routes = [(path, method) for path, it in ONE["paths"].items() for method in it]
    for status, body in sorted({*nginx, *haproxy}):
        look(f"a front answers {status} {body}", any(is_told_by("office-front.yaml", ONE, *route, status, body) for route in routes))
    for name, it in ONE["components"]["schemas"].items():
        if name.startswith("Front"):
            told = it["properties"]["error"]
            for word in told.get("enum", [told.get("const")]):
                for what, answers in (("nginx", nginx), ("haproxy", haproxy)):
                    look(f"{what} has no {word}", any(json.loads(body)["error"] == word for _, body in answers))


def files():
    """The files are valid themselves, the one file has nothing outside, and the version is the program's."""
    jsonschema.Draft202012Validator.check_schema(json.loads(SCHEMA.read_text()))
    openapi_spec_validator.validate(DESCRIPTION, base_uri=OPENAPI.as_uri())
    openapi_spec_validator.validate(ONE)
    text = one_description.MADE.read_text()
    look("tools/one_description.py makes another file", text == one_description.made())
    look("the one file has references to others", not re.search(r"\$ref: '?[^'#]", text))
    version = re.search(r'const VERSION: &str = "(.*?)";', (CLI / "src" / "subcommands.rt").read_text())[1]
    look(f"the description's version isn't {version}", (DESCRIPTION["info"]["version"], ONE["info"]["version"]) == (version, version))


def main():
    for it in (files, wrong_fields, front_answers, request_rows, desk_rows, program_rows, stream_rows):
        before = looks
        it()
        print(f"{it.__name__}: {looks - before} looks")
    for why in UNSAYABLE:
        look(f"no row has {why}", unsayable[why] > 0)
        print(f"not said by the schema: {why} ({unsayable[why]} rows)")
    print(f"{looks} looks, {wrong} wrong")
    return 1 if wrong or not looks else 0


if __name__ == "__main__":
    sys.exit(main())
