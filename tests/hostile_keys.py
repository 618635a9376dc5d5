#!/usr/bin/env python3
"""Gives `office canon` catalogues whose keys all have one hash, as whoever knows the reader's hash can write them.

    tests/hostile_keys.py PROGRAM [COUNT]      (50,000 entries)

They are read as they stand, in at most four times the processor's time of as many keys of many hashes; and where one of the keys comes twice, in
front or behind others, that is told as the fault of its line. Prints last `N looks, M wrong`. Ends with status 1 if something is wrong.
"""
import itertools
import resource
import subprocess
import sys

PROGRAM = sys.argv[1]
COUNT = int(sys.argv[2]) if len(sys.argv) > 2 else 50_000
SLOWER, ROUNDS, SHOWN = 4, 5, 5
HEADER = 'msgid ""\nmsgstr "Content-Type: text/plain; charset=UTF-8\\n"\n'

# The hash of `std::hash::FoldHasher`, of 32 bytes
FIRST, FACTOR, MASK = 0x243F6A8885A308D3, 0x9E3779B97F4A7C15, (1 << 64) - 1


def folded(a, b):
    product = a * b
    return (product & MASK) ^ (product >> 64)


def number(text):
    return int.from_bytes(text, "little")


def behind_block(block):
    """The state behind the first 16 bytes of 32."""
    return folded(number(block[:8]) ^ ((FIRST + 32) & MASK), number(block[8:]) ^ FACTOR)


def key_hash(key):
    return folded(number(key[16:24]) ^ behind_block(key[:16]), number(key[24:]) ^ FACTOR)


def fronts():
    """24 bytes of text each, whatever stands behind which the hash is 0: the last 8 of them are the state behind the first 16."""
    for i in itertools.count():
        block = b"front %010d" % i
        state = behind_block(block).to_bytes(8, "little")
        if all(32 <= b < 127 and b not in b'"\\' for b in state):
            yield block + state


def catalogue(keys):
    return (HEADER + "".join('\nmsgid "%s"\nmsgstr "x"\n' % key for key in keys)).encode()


def canon(text):
    """What the program makes of a text, in front of it the processor's time."""
    before = resource.getrusage(resource.RUSAGE_CHILDREN)
    done = subprocess.run([PROGRAM, "canon"], input=text, capture_output=True, timeout=600)
    after = resource.getrusage(resource.RUSAGE_CHILDREN)
    took = after.ru_utime + after.ru_stime - before.ru_utime - before.ru_stime
    return took, done.returncode, done.stdout, done.stderr.decode()


def fault_line(place):
    """The line where the fault of the key at this place is known: that behind its msgid."""
    return HEADER.count("\n") + 3 * place + 3


def main():
    front = next(fronts()).decode()
    one = ["%s%08d" % (front, i) for i in range(COUNT)]
    many = ["front %010d%016d" % (i, i) for i in range(COUNT)]
    if {key_hash(key.encode()) for key in one[:1000]} != {0} or len({key_hash(key.encode()) for key in many}) < COUNT - 10:
        sys.exit("the hashes are not those that are wanted")
    wrong = []
    texts = {"one hash": catalogue(one), "many hashes": catalogue(many)}
    best = {}
    for name, text in texts.items():
        runs = [canon(text) for _ in range(ROUNDS)]
        best[name] = min(run[0] for run in runs)
        if any(run[1:3] != (0, text) for run in runs):
            wrong.append("%d keys of %s are not printed as they stand: %s" % (COUNT, name, runs[0][3].strip()))
        print("%d keys of %s: %.0f ms" % (COUNT, name, best[name] * 1e3))
    looks = 2
    for first, again in ((0, 1), (0, 999), (500, 999), (998, 999)):
        keys = one[:999]
        keys.insert(again, keys[first])
        told = "po line %d kind 7\n" % fault_line(again)
        _, status, out, error = canon(catalogue(keys))
        looks += 1
        if (status, out, error) != (1, b"", told):
            wrong.append("key %d again at %d: %r in place of %r" % (first, again, error, told))
    looks += 1
    if best["one hash"] > SLOWER * best["many hashes"]:
        wrong.append("keys of one hash take %.1f times as long" % (best["one hash"] / best["many hashes"]))
    for it in wrong[:SHOWN]:
        print("wrong: " + it)
    print("%d looks, %d wrong" % (looks, len(wrong)))
    return 1 if wrong else 0


sys.exit(main())
