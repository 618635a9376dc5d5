"""A provider of OpenID Connect for tests: who is signed in there is what the test says, or whoever presses the button of its form.

It has what OpenID Connect Core 1.0 (3.1, the code flow), Discovery 1.0 and RP-Initiated Logout 1.0 ask of one, over HTTP on 127.0.0.1. Tokens
are signed by the program openssl (RS256).
"""
import base64
import hashlib
import html
import http.server
import json
import secrets
import subprocess
import threading
import time
import urllib.parse

CLIENT, SECRET = "office", "a secret of the client"


def encoded(value):
    """Base64 without its end, of bytes or of an object of JSON (RFC 7515)."""
    given = value if isinstance(value, bytes) else json.dumps(value).encode()
    return base64.urlsafe_b64encode(given).rstrip(b"=").decode()


class Key:
    """An RSA key in a file."""

    def __init__(self, path):
        self.path = path
        subprocess.run(["openssl", "genrsa", "-out", path, "2048"], check=True, capture_output=True)
        shown = subprocess.run(["openssl", "rsa", "-in", path, "-noout", "-modulus"], check=True, capture_output=True, text=True)
        modulus = bytes.fromhex(shown.stdout.strip().partition("=")[2])
        self.public = {"kty": "RSA", "use": "sig", "alg": "RS256", "kid": "one", "n": encoded(modulus), "e": encoded(b"\1\0\1")}

    def signed(self, claims):
        text = encoded({"alg": "RS256", "kid": "one", "typ": "JWT"}) + "." + encoded(claims)
        done = subprocess.run(["openssl", "dgst", "-sha256", "-sign", self.path], input=text.encode(), check=True, capture_output=True)
        return text + "." + encoded(done.stdout)


class Provider:
    """`person` has the claims of who is signed in, `form` those of whoever presses the button; `key` signs, and the first key is told."""

    def __init__(self, folder):
        self.key = Key(folder / "provider.pem")
        self.told_key, self.folder = self.key.public, folder
        self.person, self.form, self.codes, self.ended = None, None, {}, []
        self.server = http.server.ThreadingHTTPServer(("127.0.0.1", 0), Handler)
        self.server.provider = self
        self.at = f"http://127.0.0.1:{self.server.server_address[1]}"
        threading.Thread(target=self.server.serve_forever, daemon=True).start()

    def close(self):
        self.server.shutdown()

    def metadata(self):
        names = ("authorization", "token", "userinfo", "end_session")
        return {
            "issuer": self.at,
            "jwks_uri": f"{self.at}/keys",
            **{f"{it}_endpoint": f"{self.at}/{it}" for it in names},
            "response_types_supported": ["code"],
            "subject_types_supported": ["public"],
            "id_token_signing_alg_values_supported": ["RS256"],
            "token_endpoint_auth_methods_supported": ["client_secret_basic"],
        }

    def code(self, asked):
        code = secrets.token_urlsafe()
        self.codes[code] = asked, self.person
        return code

    def tokens(self, given):
        """What a code is exchanged for, once."""
        asked, person = self.codes.pop(given["code"])
        assert given["redirect_uri"] == asked["redirect_uri"]
        if "code_challenge" in asked:
            assert encoded(hashlib.sha256(given["code_verifier"].encode()).digest()) == asked["code_challenge"]
        now = int(time.time())
        claims = {"iss": self.at, "aud": CLIENT, "iat": now, "exp": now + 300, "nonce": asked["nonce"], **person}
        return {"access_token": secrets.token_urlsafe(), "token_type": "Bearer", "expires_in": 300, "id_token": self.key.signed(claims)}


class Handler(http.server.BaseHTTPRequestHandler):
    def log_message(self, *_):
        pass

    def answer(self, status, text="", kind="application/json", **headers):
        self.send_response(status)
        for name, value in {"Content-Type": kind, "Content-Length": str(len(text.encode())), **headers}.items():
            self.send_header(name, value)
        self.end_headers()
        self.wfile.write(text.encode())

    def do_GET(self):
        path, _, query = self.path.partition("?")
        asked, provider = dict(urllib.parse.parse_qsl(query)), self.server.provider
        match path:
            case "/.well-known/openid-configuration":
                self.answer(200, json.dumps(provider.metadata()))
            case "/keys":
                self.answer(200, json.dumps({"keys": [provider.told_key]}))
            case "/userinfo":
                self.answer(401)
            case "/authorization" if asked["client_id"] == CLIENT:
                if asked.get("pressed") and provider.form:
                    provider.person = provider.form
                self.authorize(asked)
            case "/end_session":
                provider.person = None
                provider.ended.append(asked)
                self.answer(302, Location=asked["post_logout_redirect_uri"])
            case _:
                self.answer(404)

    def authorize(self, asked):
        provider = self.server.provider
        if provider.person:
            told = urllib.parse.urlencode({"code": provider.code(asked), "state": asked["state"]})
            return self.answer(302, Location=f"{asked['redirect_uri']}?{told}")
        fields = "".join(f'<input type="hidden" name="{name}" value="{html.escape(value)}">' for name, value in asked.items())
        form = f'<!doctype html><title>Sign in</title><form>{fields}<button id="in" name="pressed" value="1">Sign in</button></form>'
        return self.answer(200, form, "text/html")

    def do_POST(self):
        given = dict(urllib.parse.parse_qsl(self.rfile.read(int(self.headers["Content-Length"])).decode()))
        pair = base64.b64decode(self.headers.get("Authorization", "Basic ").partition(" ")[2]).decode()
        if self.path != "/token" or urllib.parse.unquote_plus(pair) != f"{CLIENT}:{SECRET}":
            return self.answer(401)
        return self.answer(200, json.dumps(self.server.provider.tokens(given)), **{"Cache-Control": "no-store"})
