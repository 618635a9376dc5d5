"""The part `oidc` of tests/front.py: sign-in by OpenID Connect, with Apache, nginx, the program and the page as share/ has them.

The provider is tests/identity.py. What has to come is from OpenID Connect Core 1.0 and from docs/DEPLOYING.md.
"""
import contextlib
import http.cookiejar
import json
import sqlite3
import subprocess
import time
import urllib.error
import urllib.request
import uuid

import chromium
import front_servers as servers
import identity
from front_servers import ASKED, OPENED, PROJECT, SECONDS, TOP
from looks import HOST, free_port
from patience import seconds

HEADER = 'msgid ""\nmsgstr ""\n"Content-Type: text/plain; charset=UTF-8\\n"\n"Plural-Forms: nplurals=2; plural=n != 1;\\n"\n'
MESSAGES = ("typed", "saved", "sent")
ANN = {"sub": "248289761001", "preferred_username": "Ann@Example.org"}
SIGN_IN = b'{"error":"sign-in"}'
# The shortest time that a sign-in may have.
LASTS = seconds(15)


class NoRedirects(urllib.request.HTTPRedirectHandler):
    def redirect_request(self, *_):
        return None


class Client:
    """A program that keeps cookies, as a browser does."""

    def __init__(self, at):
        self.at, self.jar = at, http.cookiejar.CookieJar()
        own = (urllib.request.ProxyHandler({}), urllib.request.HTTPCookieProcessor(self.jar))
        self.once, self.follows = urllib.request.build_opener(*own, NoRedirects), urllib.request.build_opener(*own)

    def ask(self, path, body=None, follow=False, **headers):
        """The status, the headers and the body of an answer, of the last where redirections are followed."""
        given = {"Content-Type": "application/json"} if body else {"Accept": "text/html"}
        given |= {name.replace("_", "-"): it for name, it in headers.items()}
        asked = urllib.request.Request(self.at + path, body, {name: it for name, it in given.items() if it is not None})
        try:
            with (self.follows if follow else self.once).open(asked, timeout=30) as answer:
                return answer.status, answer.headers, answer.read()
        except urllib.error.HTTPError as answer:
            return answer.code, answer.headers, answer.read()

    def caller(self):
        status, _, body = self.ask("/caller")
        return status, body

    def act(self, message, seen, **headers):
        act = {"act": "translate", "lang": "de", "id": message, "seen": seen, "forms": [f"Fassung {seen}"]}
        return self.ask(f"/v1/requests/{uuid.uuid4()}", json.dumps(act).encode(), **headers)


def make_office(program, path):
    def run(*words, given=""):
        return subprocess.run([program, *words, "--store", path], input=given, capture_output=True, text=True, check=True).stdout

    po = "\n".join(f'msgid "{it}"\nmsgstr ""\n' for it in MESSAGES)
    requests = [{"act": "team", "name": it, "role": "translator"} for it in ("ann", "bea")]
    requests += [{"act": "template", "po": po}, {"act": "language", "lang": "de", "po": HEADER}]
    run("init", "--manager", "root")
    told = run("deliver", given="".join(json.dumps({**it, "caller": "root", "number": str(uuid.uuid4())}) + "\n" for it in requests))
    assert [it[:3] for it in told.splitlines()] == ["200"] * len(requests)


def records(path):
    """Who did what, with which status, of the acts of translators."""
    with contextlib.closing(sqlite3.connect(path)) as db:
        rows = db.execute("SELECT content, status FROM record").fetchall()
    told = [(json.loads(content), status) for content, status in rows]
    return sorted((it["caller"], it["id"], status) for it, status in told if it["act"] == "translate")


@contextlib.contextmanager
def served(folder, program, **changes):
    """Everything that stands before and behind: the provider, Apache, and the path of the office's file."""
    path, port = folder / "office.db", free_port()
    make_office(program, path)
    provider = identity.Provider(folder)
    nginx = servers.Nginx(folder / "nginx", {PROJECT: {}}, TOP / "share" / "web", site="office-behind", office=f"{HOST}:{port}")
    with (nginx.folder / "office" / "logins").open("a") as file:
        file.write("ann@example.org ann;\n")
    apache = servers.Apache(folder / "apache", provider.at, identity.SECRET, nginx.port, **changes)
    # (the file can be read while the office has it open no more)
    words = [program, "serve", "--store", path, "--port", str(port), "--connections", "4294967295"]
    with servers.running(words) as office, nginx.serving(), apache.serving():
        servers.listening(port, office, 10 * SECONDS)
        yield provider, apache, path, nginx
        provider.close()


def run(folder, program, same):
    folder.chmod(0o755)
    with served(folder, program) as (provider, apache, path, nginx):
        not_signed_in(same, Client(apache.at), provider)
        signed_in(same, apache, provider)
        not_let_in(same, apache, provider)
        signed_out(same, apache, provider)
        time.sleep(0.2)
        logged = [it for it in nginx.log.read_text().splitlines() if "/v1/requests/" in it and " 200 " in it]
        same("the log says who", [" - ann [" in it for it in logged], [True])
    same("who acted", records(path), [("ann", "sent", 200)])
    place = folder / "page"
    place.mkdir()
    place.chmod(0o755)
    with served(place, program, **{"OIDCSessionMaxDuration 86400": f"OIDCSessionMaxDuration {LASTS}"}) as (provider, apache, path, _):
        runs_out(same, place, apache, provider)
    same("who acted on the page", records(path), [("ann", "saved", 200)])


def not_signed_in(same, client, provider):
    """A person is led to the provider; what programs and the page's code ask for is 401, and nothing of it reaches the office."""
    for path in ("/caller", "/office.json", "/v1/stats/de", "/v1/export/de"):
        status, headers, body = client.ask(path, X_Forwarded_User="root")
        same(f"nobody, {path}", (status, headers["Content-Type"], body), (401, "application/json", SIGN_IN))
    status, _, body = client.act("sent", 1, X_Forwarded_User="ann", X_Office_Caller="ann")
    same("nobody, an act", (status, body), (401, SIGN_IN))
    for path in ("/", "/main.js", "/sign-out"):
        for accept in ASKED:
            status, headers, body = client.ask(path, Accept=accept)
            same(f"nobody's program, {path}, {accept}", (status, headers["Content-Type"], body), (401, "application/json", SIGN_IN))
    for path, leads in (("/", (302, f"{provider.at}/authorization")), ("/sign-out", (303, f"{client.at}/oidc/redirect"))):
        for accept in OPENED:
            status, headers, _ = client.ask(path, Accept=accept)
            same(f"nobody, {path}, {accept}", (status, (headers["Location"] or "").partition("?")[0]), leads)
    status, _, body = client.ask("/", follow=True)
    same("the provider's form", (status, b'id="in"' in body), (200, True))


def signed_in(same, apache, provider):
    """The caller is whom the login stands for, whatever the head says."""
    client, provider.person = Client(apache.at), ANN
    status, _, body = client.ask("/", follow=True)
    same("signed in, the page", (status, b"<title>" in body), (200, True))
    same("signed in, who am I", client.caller(), (200, b'{"caller":"ann"}'))
    status, _, body = client.act("sent", 1, X_Forwarded_User="root", X_Office_Caller="root", Authorization="Basic cm9vdDpyb290")
    same("an act", (status, json.loads(body)), (200, {"revision": 2, "state": "translated"}))
    same("a path with an escape", json.loads(client.ask("/v1/stats/d%65")[2])["translated"], 1)
    provider.person = {**ANN, "preferred_username": "Bea"}
    other = Client(apache.at)
    other.ask("/", follow=True)
    same("another", (other.caller(), client.caller()), ((200, b'{"caller":"bea"}'), (200, b'{"caller":"ann"}')))


def not_let_in(same, apache, provider):
    """A name that is no caller's; none; and tokens that the provider didn't sign, or for somebody else."""
    provider.person, client = {**ANN, "preferred_username": "9lives"}, Client(apache.at)
    client.ask("/", follow=True)
    same("no caller's name", client.caller(), (403, b'{"error":"login"}'))
    true_key, false_key = provider.key, identity.Key(provider.folder / "false.pem")
    for what, claims, key in (
        ("no name", {"sub": "1"}, true_key),
        ("an empty name", {**ANN, "preferred_username": ""}, true_key),
        ("another's signature", ANN, false_key),
        ("another's nonce", {**ANN, "nonce": "another"}, true_key),
        ("for another client", {**ANN, "aud": "another"}, true_key),
        ("by another provider", {**ANN, "iss": "https://another.example"}, true_key),
        ("out of time", {**ANN, "iat": int(time.time()) - 90_000, "exp": int(time.time()) - 86_400}, true_key),
    ):
        provider.person, provider.key, client = claims, key, Client(apache.at)
        client.ask("/", follow=True)
        same(f"{what}: not signed in", client.caller()[0] in (401, 403), True)
        same(f"{what}: no look", client.ask("/v1/stats/de")[0] in (401, 403), True)
    provider.key = true_key


def signed_out(same, apache, provider):
    """Behind a sign-out the session is gone here and at the provider, also for who kept its cookies."""
    client, provider.person = Client(apache.at), ANN
    client.ask("/", follow=True)
    same("before it", client.caller(), (200, b'{"caller":"ann"}'))
    kept = list(client.jar)
    status, headers, _ = client.ask("/sign-out")
    same("sign-out", (status, headers["Location"].startswith(f"{apache.at}/oidc/redirect?logout=")), (303, True))
    status, _, body = client.ask("/sign-out", follow=True)
    same("it ends at the provider's form", (status, b'id="in"' in body), (200, True))
    same("the provider is told", [it["post_logout_redirect_uri"] for it in provider.ended], [f"{apache.at}/"])
    same("and by a token of its own", ["id_token_hint" in it for it in provider.ended], [True])
    same("behind it", client.caller(), (401, SIGN_IN))
    for it in kept:
        client.jar.set_cookie(it)
    same("with the cookies of before", client.caller(), (401, SIGN_IN))
    program_signed_out(same, apache, provider)


def program_signed_out(same, apache, provider):
    """A program that has a session is led to the provider as a browser is, and told at the end that nobody is signed in."""
    client, provider.person, provider.ended = Client(apache.at), ANN, []
    client.ask("/", follow=True)
    same("a program, before it", client.caller(), (200, b'{"caller":"ann"}'))
    status, headers, body = client.ask("/sign-out", follow=True, Accept="application/json")
    same("a program's sign-out", (status, headers["Content-Type"], body), (401, "application/json", SIGN_IN))
    same("the provider is told of a program's", len(provider.ended), 1)
    same("a program, behind it", client.caller(), (401, SIGN_IN))


def runs_out(same, folder, apache, provider):
    """A sign-in runs out while somebody types: what is saved waits, what is typed stays, and both are there behind the next one."""
    browser = chromium.Browser(folder)
    try:
        tab = chromium.Tab(browser)
        provider.form = ANN
        tab.call("Page.navigate", url=apache.at + "/")
        begun = time.monotonic()
        tab.click("#in")
        tab.wait("document.getElementById('project')?.textContent === 'Example'")
        same("who is signed in", "ann" in tab.text("#who"), True)
        opened(tab, "typed")
        tab.fill("#form-0", "nur getippt")
        opened(tab, "saved")
        tab.fill("#form-0", "gesichert")
        provider.person = None
        tab.rest(max(0, LASTS + 2 - (time.monotonic() - begun)))
        tab.click("#translate")
        tab.wait_text("#outbox", "1 request waits: you aren't signed in")
        loaded(tab, apache.at)
        tab.click("#in")
        tab.wait_text("#outbox", "All sent")
        for message, text in (("saved", "gesichert"), ("typed", "nur getippt")):
            # (by a session of its own, which the provider gives without a form: one of before may run out meanwhile)
            tab.call("Network.clearBrowserCookies")
            loaded(tab, apache.at)
            tab.wait("document.getElementById('project')?.textContent === 'Example'")
            opened(tab, message)
            same(f"what was {message} is there", tab.value("#form-0"), text)
        same("nothing went wrong on the page", browser.faults, [])
    finally:
        browser.close()


def loaded(tab, at):
    tab.call("Page.navigate", url="about:blank")
    tab.call("Page.navigate", url=at + "/")


def opened(tab, message):
    tab.eval(f"location.hash = '#/de/unit?id={message}'")
    tab.wait(f"document.getElementById('source')?.textContent === '{message}'")
    tab.wait_for("#form-0")
