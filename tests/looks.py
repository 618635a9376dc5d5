"""What the scripts of this folder share: looks, which are counted, numbers of requests, runs of a program, questions to one that serves, free ports."""
import contextlib
import http.client
import json
import random
import socket
import subprocess
import time

HOST = "127.0.0.1"
# What no terminal and no log is to be given: marks of direction (UAX 9, explicit and implicit ones), the two rows of controls, line ends of Unicode.
BIDI = [0x061C, 0x200E, 0x200F, *range(0x202A, 0x202F), *range(0x2066, 0x206A)]
CONTROLS = [*range(0x20), *range(0x7F, 0xA0), 0x2028, 0x2029, *BIDI]

count = wrong = 0


def look(holds, told):
    """Counts a look; where it doesn't hold, prints what it shows."""
    global count, wrong
    count += 1
    if not holds:
        wrong += 1
        print(told, flush=True)


def same(what, found, wanted):
    look(found == wanted, f"{what}: {shown(found)}, not {shown(wanted)}")


def has(what, found, wanted):
    look(wanted in found, f"{what}: {shown(wanted)} isn't in {shown(found)}")


def shown(value, most=2000):
    text = repr(value)
    return text if len(text) <= most else f"{text[:most]} .. ({len(text)} characters)"


def told():
    """Prints how many looks there were. The status that a script ends with: 1 where something was wrong, or nothing was looked at."""
    print(f"{count} looks, {wrong} wrong")
    return 1 if wrong or not count else 0


def number(n):
    """The number of a request."""
    return f"00000000-0000-4000-8000-{n:012}"


def run(program, *words, given="", seconds=300):
    """The status and both outputs of a run; no status where it doesn't end in time."""
    try:
        words = [it if isinstance(it, bytes) else str(it) for it in words]
        done = subprocess.run([program, *words], input=given.encode(), capture_output=True, timeout=seconds, check=False)
    except subprocess.TimeoutExpired:
        return None, "", f"it didn't end within {seconds} seconds"
    return done.returncode, done.stdout.decode(errors="replace"), done.stderr.decode(errors="replace")


def asked(port, target, seconds=60):
    """The status and the body in JSON that a served office answers, once it takes connections."""
    until = time.monotonic() + seconds
    while True:
        it = http.client.HTTPConnection(HOST, port, timeout=seconds)
        try:
            it.request("GET", target)
            answer = it.getresponse()
            return answer.status, json.loads(answer.read())
        except ConnectionRefusedError:
            if time.monotonic() > until:
                raise
            time.sleep(0.05)
        finally:
            it.close()


def free_port():
    """One below those that the system gives to connections, which are many here."""
    for port in random.sample(range(20_000, 32_000), 100):
        with contextlib.suppress(OSError), socket.socket() as it:
            it.bind((HOST, port))
            return port
    raise SystemExit("no port is free")
