"""Chromium without a window, driven by its own protocol over two pipes; it wants Debian's package chromium and nothing else."""
import base64
import contextlib
import json
import os
import subprocess
import sys
import time

from patience import seconds

SECONDS = seconds(30)
WORDS = (
    "--headless=new",
    "--remote-debugging-pipe",
    "--no-sandbox",
    "--disable-gpu",
    "--disable-dev-shm-usage",
    "--disable-background-networking",
    "--disable-component-update",
    "--disable-lcd-text",
    "--no-first-run",
    "--lang=en-US",
)
# Of a key its number, and what it types.
KEYS = {"Tab": (9, ""), "Enter": (13, "\r"), "PageDown": (34, ""), "PageUp": (33, "")}
ALT, CONTROL, SHIFT = 1, 2, 8


class Browser:
    """The program. Its messages are JSON and end with a zero byte. `faults` has what pages told as one, `asked` each address that they asked for;
    `password` is the login and the password that somebody types where they are asked for."""

    def __init__(self, folder):
        self.made, self.rest, self.faults, self.asked, self.password = 0, b"", [], set(), None
        to, of = os.pipe(), os.pipe()
        words = ["chromium", *WORDS, f"--user-data-dir={folder}/chromium", "about:blank"]
        shell = ["bash", "-c", f'exec "$@" 3<&{to[0]} 4>&{of[1]}', "-", *words]
        self.process = subprocess.Popen(shell, pass_fds=(to[0], of[1]), stdout=subprocess.DEVNULL, stderr=subprocess.DEVNULL)
        os.close(to[0])
        os.close(of[1])
        self.to, self.of = to[1], of[0]

    def call(self, method, session=None, **fields):
        made = self.send(method, session, **fields)
        while True:
            message = self.next()
            if message.get("id") == made:
                if "error" in message:
                    raise RuntimeError(f"{method}: {message['error']}")
                return message["result"]
            if "method" in message:
                self.hear(message)

    def send(self, method, session, **fields):
        self.made += 1
        told = {"id": self.made, "method": method, "params": fields, **({"sessionId": session} if session else {})}
        os.write(self.to, json.dumps(told).encode() + b"\0")
        return self.made

    def next(self):
        while b"\0" not in self.rest:
            piece = os.read(self.of, 1 << 20)
            if not piece:
                sys.exit("chromium has ended")
            self.rest += piece
        message, self.rest = self.rest.split(b"\0", 1)
        return json.loads(message)

    def hear(self, message):
        fields = message.get("params", {})
        match message["method"]:
            case "Runtime.exceptionThrown":
                self.faults.append(fields["exceptionDetails"].get("exception", {}).get("description", str(fields)))
            case "Log.entryAdded" if fields["entry"]["source"] != "network":
                self.faults.append(fields["entry"]["text"])
            case "Network.requestWillBeSent":
                self.asked.add(fields["request"]["url"])
            case "Fetch.authRequired":
                # The browser asks for a password: it is typed, or the question is closed without one.
                told = {"response": "CancelAuth"}
                if self.password:
                    told = {"response": "ProvideCredentials", "username": self.password[0], "password": self.password[1]}
                fields = {"requestId": fields["requestId"], "authChallengeResponse": told}
                self.send("Fetch.continueWithAuth", message["sessionId"], **fields)
            case "Fetch.requestPaused":
                self.send("Fetch.continueRequest", message["sessionId"], requestId=fields["requestId"])

    def context(self):
        return self.call("Target.createBrowserContext")["browserContextId"]

    def close(self):
        with contextlib.suppress(SystemExit):
            self.call("Browser.close")
        self.process.wait()


class Tab:
    """A tab, in a context of its own or in another tab's: those of one context share what a site keeps."""

    def __init__(self, browser, context=None):
        context = context or browser.context()
        self.browser, self.context = browser, context
        self.target = browser.call("Target.createTarget", url="about:blank", browserContextId=context)["targetId"]
        self.session = browser.call("Target.attachToTarget", targetId=self.target, flatten=True)["sessionId"]
        for domain in ("Page", "Runtime", "Log", "Network", "Accessibility"):
            self.call(f"{domain}.enable")
        self.call("Fetch.enable", handleAuthRequests=True)
        self.size(1280, 900)

    def call(self, method, **fields):
        return self.browser.call(method, self.session, **fields)

    def offline(self, is_off):
        self.call("Network.emulateNetworkConditions", offline=is_off, latency=0, downloadThroughput=-1, uploadThroughput=-1)

    def size(self, width, height):
        self.call("Emulation.setDeviceMetricsOverride", width=width, height=height, deviceScaleFactor=1, mobile=False)

    def close(self):
        self.browser.call("Target.closeTarget", targetId=self.target)

    def eval(self, expression):
        answer = self.call("Runtime.evaluate", expression=expression, awaitPromise=True, returnByValue=True)
        if "exceptionDetails" in answer:
            raise RuntimeError(f"{expression}: {answer['exceptionDetails']}")
        return answer["result"].get("value")

    def wait(self, expression):
        def holds():
            try:
                return self.eval(expression)
            except RuntimeError:
                return False

        for _ in range(SECONDS * 20):
            if holds():
                return
            time.sleep(0.05)
        raise TimeoutError(f"{expression}: not within {SECONDS} seconds; the page says {self.text('body')[:1000]!r}")

    def rest(self, seconds):
        """Lets the page do what it does; what the browser tells is heard meanwhile."""
        end = time.monotonic() + seconds
        while time.monotonic() < end:
            self.eval("0")
            time.sleep(0.02)

    def text(self, selector):
        return self.eval(f"document.querySelector({json.dumps(selector)})?.innerText ?? ''")

    def value(self, selector):
        return self.eval(f"document.querySelector({json.dumps(selector)})?.value")

    def wait_text(self, selector, words):
        self.wait(f"(document.querySelector({json.dumps(selector)})?.innerText ?? '').includes({json.dumps(words)})")

    def wait_for(self, selector):
        self.wait(f"document.querySelector({json.dumps(selector)}) !== null")

    def attribute(self, selector, name):
        return self.eval(f"document.querySelector({json.dumps(selector)})?.getAttribute({json.dumps(name)})")

    def active(self):
        """The id of the element that has the keyboard."""
        return self.eval("document.activeElement.id")

    def key(self, key, control=False, shift=False, alt=False):
        code, text = KEYS.get(key) or (ord(key), "")
        named = key if key in KEYS else f"Digit{key}"
        fields = {"key": key, "code": named, "windowsVirtualKeyCode": code, "modifiers": ALT * alt + CONTROL * control + SHIFT * shift}
        self.call("Input.dispatchKeyEvent", type="keyDown", **fields, **({"text": text} if text and not control else {}))
        self.call("Input.dispatchKeyEvent", type="keyUp", **fields)

    def type_key(self, letter):
        fields = {"key": letter, "code": f"Key{letter.upper()}", "windowsVirtualKeyCode": ord(letter.upper())}
        self.call("Input.dispatchKeyEvent", type="keyDown", text=letter, **fields)
        self.call("Input.dispatchKeyEvent", type="keyUp", **fields)

    def tab_to(self, name):
        self.tab_to_where(f"document.activeElement.id === {json.dumps(name)}")

    def tab_to_where(self, condition):
        for _ in range(60):
            self.key("Tab")
            if self.eval(condition):
                return
        raise TimeoutError(f"{condition}: not within 60 steps")

    def type(self, text):
        self.call("Input.insertText", text=text)

    def choose(self, name, value):
        self.eval(f"(() => {{ const it = document.getElementById('{name}'); it.value = '{value}'; it.dispatchEvent(new Event('change')); }})()")

    def click(self, selector):
        self.wait_for(selector)
        box = self.eval(
            f"(() => {{ const it = document.querySelector({json.dumps(selector)}); it.scrollIntoView({{block: 'center'}});"
            " const box = it.getBoundingClientRect(); return [box.x + box.width / 2, box.y + box.height / 2]; })()"
        )
        for kind in ("mousePressed", "mouseReleased"):
            self.call("Input.dispatchMouseEvent", type=kind, x=box[0], y=box[1], button="left", clickCount=1)

    def fill(self, selector, text):
        self.click(selector)
        self.eval(f"document.querySelector({json.dumps(selector)}).select()")
        self.type(text)

    def give(self, selector, *paths):
        """Chooses files in a field for files."""
        found = self.call("Runtime.evaluate", expression=f"document.querySelector({json.dumps(selector)})")["result"]["objectId"]
        self.call("DOM.setFileInputFiles", objectId=found, files=[str(it) for it in paths])

    def shot(self, path):
        path.write_bytes(base64.b64decode(self.call("Page.captureScreenshot", format="png")["data"]))
