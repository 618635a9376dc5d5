#!/usr/bin/env python3
"""Gives random PO texts, good ones and broken ones, to two programs that make canonical text: both have to answer the same, and what they print has
to come out of them again as it is.

    tests/canon_texts.py PROGRAM [OTHER] [COUNT [SEED]]      (bench/plain, which cargo builds; 10,000 texts; seed 1)

A program is the office's, which is called with `canon`, or one that does the same without words, such as bench/plain. First come the texts
of crates/cases_model/stdin, part `catalogues`, whose faults or canonical texts are written there. The random ones are catalogues written in many
ways, most of them then changed in some place: bytes, lines, keywords, marks, entries, ends. Text N of a seed is always the same. Prints the first
texts that are answered otherwise, how often each fault came, and last `N texts, M of them read, K differences`. Ends with status 1 if something
differs.
"""
import collections
import multiprocessing
import os
import pathlib
import random
import re
import shutil
import subprocess
import sys
import tempfile

TOP = pathlib.Path(__file__).resolve().parent.parent
ROWS = TOP / "crates" / "cases_model" / "stdin"
PART = "== catalogues\n"
KINDS = {1: "not UTF-8", 2: "line", 3: "quote", 4: "escape", 5: "order", 6: "forms", 7: "duplicate", 8: "charset", 9: "limit"}
TEXT_LIMIT = 16_777_216
STRING_LIMIT = 262_144
ENTRY_LIMIT = 50_000
SHOWN = 5
BATCH = 25


# ---- programs


def words_of(program):
    """How the program is called: one that wants words is the office's."""
    program = str(pathlib.Path(program).resolve())
    bare = subprocess.run([program], input=b"", capture_output=True, timeout=60)
    return [program] if bare.returncode == 0 else [program, "canon"]


def built_plain(folder):
    if shutil.which("cargo") is None:
        sys.exit("cargo is missing: bench/plain can't be built, so another program has to be named")
    command = ["cargo", "build", "--quiet", "--release", "--offline", "--target-dir", folder]
    subprocess.run(command, cwd=TOP / "bench" / "plain", check=True)
    return os.path.join(folder, "release", "plain")


def answer(words, text):
    done = subprocess.run(words, input=text, capture_output=True, timeout=60)
    return done.returncode, done.stdout, done.stderr


def fault_of(told):
    """The line and the kind of the fault that was told: None where the text was read, False where it is no answer at all."""
    status, out, err = told
    if status == 0:
        return None if err == b"" else False
    found = re.fullmatch(rb"po line (\d+) kind ([1-9])\n", err)
    if status != 1 or out != b"" or found is None:
        return False
    return int(found[1]), int(found[2])


# ---- the rows


def turned(what, times, kept):
    if what.isascii() and what.isdigit():
        return bytes([int(what)]) * times
    if what.startswith("<"):
        return kept[: int(what[1:])] * times
    return b"".join(what.replace("@", str(number), 1).encode() for number in range(times))


def row_text(text, kept):
    """The bytes that the text of a row stands for: the head of crates/cases_model/src/catalogue_rows.rt says how."""
    text = text.replace("; ", "\n")
    if text.endswith(";"):
        text = text[:-1] + "\n"
    front, *parts = text.split("{")
    found = front.encode()
    for part in parts:
        inside, behind = part.split("}", 1)
        if inside.startswith(" "):
            found += b"{" + inside.encode() + b"}"
        else:
            what, star, times = inside.rpartition("*")
            found += turned(what if star else inside, int(times) if star else 1, kept)
        found += behind.encode()
    return found


def rows():
    """Each text with what comes of it: the fault's line and kind, or the canonical text, or None for any."""
    kept = b""
    _, _, part = ROWS.read_text().partition(PART)
    for row in part.partition("\n== ")[0].split("\n"):
        deed, _, wanted = row.partition(" -> ")
        name, _, text = deed.partition(" ")
        if name == "text":
            kept = row_text(text, kept)
        elif name == "fault":
            yield row, row_text(text, kept), tuple(map(int, wanted.split())) if wanted != "none" else None
        elif name == "canon":
            yield row, row_text(text, kept), row_text(wanted, kept)
        elif name in ("one", "pushed"):
            yield row, row_text(wanted, kept), row_text(wanted, kept)


def is_as_told(told, wanted):
    return told[:2] == (0, wanted) if isinstance(wanted, bytes) else fault_of(told) == wanted


def try_rows(programs):
    count = wrong = 0
    for row, text, wanted in rows():
        for words in programs:
            told = answer(words, text)
            count += 1
            if not is_as_told(told, wanted):
                wrong += 1
                print(f"{words[0]}: {row[:300]}\n    not {told[0]} {told[1][:300]} {told[2][:300]}")
    print(f"{count} answers to rows, {wrong} wrong")
    return wrong


# ---- random catalogues


PLAIN = [
    "Hello", "file", "of", "window", " ", "  ", ".", "%d", "%s", "ö", "日本語", "😀", "#", "#~ ", "msgid", "fuzzy", ",", ":", "'",
    "\x7f", "\x85", "\u2028", "\u00a0",
]
ESCAPES = ["\\n", "\\n", "\\n", "\\t", "\\r", "\\a", "\\b", "\\f", "\\v", '\\"', "\\\\"]
FLAGS = ["fuzzy", "fuzzy", "c-format", "no-wrap", "python-format", "range: 0..9", "ö", "Fuzzy", "read-only"]
CONTEXTS = ["", "menu", "\\t", "a\\nb"]
CHARSETS = ["UTF-8", "UTF-8", "utf-8", "Utf-8", " UTF-8 ", "CHARSET", "UTF-8; x=y", "UTF-8\\t", "UTF-8 ;charset=latin1"]
FOREIGN = ["ISO-8859-1", "charset", "", "UTF8", "UTF-8.", "\\fUTF-8", "UTF-8\\n", "UTF-16", "\u00a0UTF-8"]
FIELDS = [
    "Project-Id-Version: x\\n", "Plural-Forms: nplurals=2; plural=n != 1;\\n", "Content-Type : charset=x\\n", " Content-Type: charset=x\\n",
    "content-type: charset=x\\n", "no field\\n", "\\n",
]
WHITES = ["", "", "", "", " ", "\t", " \t "]


def tokens(r, most=5):
    return [r.choice(ESCAPES if r.random() < 0.35 else PLAIN) for _ in range(r.randint(0, most))]


def string_tokens(r, first=""):
    """What stands between the quotes, in tokens that may be parted."""
    found = [first] if first else []
    found += tokens(r)
    if r.random() < 0.004:
        found.append(r.choice(["a", "ö", "\\n"]) * r.choice([STRING_LIMIT // 2 - 3, STRING_LIMIT - 9, STRING_LIMIT, STRING_LIMIT + 1]))
    return found


def string_lines(r, mark, keyword, parts):
    """The lines of a string under its keyword, in one piece or more."""
    cuts = sorted(r.randint(0, len(parts)) for _ in range(r.choice([0, 0, 0, 1, 1, 2, 3])))
    ends = [*cuts, len(parts)]
    starts = [0, *cuts]
    pieces = ['"%s"%s' % ("".join(parts[a:b]), r.choice(WHITES)) for a, b in zip(starts, ends)]
    first = mark + keyword + r.choice([" ", " ", " ", "\t", "  ", " \t"]) + pieces[0]
    return [first] + [mark + piece for piece in pieces[1:]]


def comment_line(r):
    text = "".join(token for token in r.choices(PLAIN, k=r.randint(0, 4))) + r.choice(["", "", "\t", " x"])
    mark = r.choice(["#", "#", "#.", "#:", "#,"])
    if mark == "#,":
        return "#," + ",".join(r.choice(WHITES) + r.choice(FLAGS) + r.choice(WHITES) for _ in range(r.randint(1, 4)))
    if mark == "#":
        return r.choice(["#", "# " + text, "# " + text, "#x" + text])
    return mark + r.choice(["", " " + text, " " + text, text])


def previous_lines(r, mark):
    lines = []
    for keyword in ("msgctxt", "msgid", "msgid_plural"):
        if r.random() < 0.5:
            lines += string_lines(r, mark, keyword, string_tokens(r))
    return lines


def merged(r, lines, others):
    """Both lists in one, each in its order."""
    turns = [True] * len(lines) + [False] * len(others)
    r.shuffle(turns)
    left, right = iter(lines), iter(others)
    return [next(left) if turn else next(right) for turn in turns]


def message_lines(r, mark, ctx, id_tokens):
    lines = [] if ctx is None else string_lines(r, mark, "msgctxt", [ctx])
    lines += string_lines(r, mark, "msgid", id_tokens)
    if r.random() < 0.3:
        lines += string_lines(r, mark, "msgid_plural", string_tokens(r))
        for digit in range(r.choice([1, 2, 2, 2, 3, 4, 8])):
            lines += string_lines(r, mark, f"msgstr[{digit}]", string_tokens(r))
    else:
        lines += string_lines(r, mark, "msgstr", string_tokens(r))
    return lines


def entry_lines(r, number):
    obsolete = r.random() < 0.15
    comments = [comment_line(r) for _ in range(r.choice([0, 0, 1, 2, 5]))]
    if r.random() < 0.25:
        comments = merged(r, comments, previous_lines(r, "#~| " if obsolete else "#| "))
    ctx = r.choice([None, None, None, *CONTEXTS])
    if r.random() < 0.01:
        number = r.randint(0, 3)
    id_tokens = [f"m{number}"] if r.random() < 0.5 else [f"m{number}", *string_tokens(r)]
    return comments + message_lines(r, "#~ " if obsolete else "", ctx, id_tokens)


def header_lines(r):
    fields = r.sample(FIELDS, r.randint(0, 2))
    for _ in range(r.choice([0, 1, 1, 1, 1, 1, 2])):
        charset = r.choice(FOREIGN if r.random() < 0.04 else CHARSETS)
        fields.append("Content-Type:%stext/plain; charset=%s\\n" % (r.choice(["", " ", "\\t"]), charset))
    r.shuffle(fields)
    comments = [comment_line(r) for _ in range(r.choice([0, 0, 1, 2]))]
    return comments + string_lines(r, "", "msgid", []) + string_lines(r, "", "msgstr", fields)


def catalogue(r):
    """The lines of a catalogue, a list for each entry."""
    entries = [header_lines(r)] if r.random() < 0.6 else []
    return entries + [entry_lines(r, number) for number in range(r.choice([0, 1, 2, 2, 3, 3, 5, 9]))]


def with_blanks(r, lines):
    found = []
    for line in lines:
        if r.random() < 0.06:
            found += r.choice([[""], ["", ""], [" "], ["\t "]])
        found.append(line)
    return found


def text_of(r, entries):
    lines = []
    for entry in entries:
        lines += with_blanks(r, entry) + r.choice([[], [""], [""], ["", ""]])
    return ("\n".join(lines) + r.choice(["", "\n", "\n", "\n\n"])).encode()


# ---- what is broken


FORMED = [
    "", "#", "# x", "#. x", "#: x", "#, fuzzy", '#| msgctxt "x"', '#| msgid "x"', '#| msgid_plural "x"', '#| "x"', '#~| msgctxt "x"',
    '#~| msgid "x"', '#~| "x"', 'msgctxt "x"', 'msgid "x"', 'msgid "a"', 'msgid ""', 'msgid_plural "x"', 'msgid_plural ""', 'msgstr "x"',
    'msgstr ""', '"x"', '""', '"\\n"', 'msgstr[0] "x"', 'msgstr[1] "x"', 'msgstr[2] "x"', 'msgstr[7] "x"', '#~ msgctxt "x"', '#~ msgid "x"',
    '#~ msgid "a"', '#~ msgid ""', '#~ "x"', '#~ msgid_plural "x"', '#~ msgstr "x"', '#~ msgstr[0] "x"', '#~ msgstr[1] "x"',
    'msgid "%s"' % ("a" * (STRING_LIMIT + 1)), '"%s"' % ("ö" * (STRING_LIMIT // 2)),
]
FORMLESS = [
    "#,", "#, fuzzy,", "#, a,,b", "#, a\x01", "# \x02", "#=", "#= x", "#~", "#|", "#~|", "#~x", '#|msgid "x"', "#~ # x", "#~ ", '#| msgstr "x"',
    '#~| msgstr[0] "', "#| x", '#| msgid "', '"', 'msgstr[8] "x"', 'msgstr[00] "x"', 'msgstr[] "x"', 'msgstr[0 "x"', 'domain "x"', 'msgid"x"',
    "msgid", "msgid x", 'msgid "x" y', 'msgid "x', 'msgid "x\\', 'msgid "\\x41"', 'msgid "\\', 'msgid "a\tb"', 'msgid "\\e" \x01',
    'msgid "\x01\\e"', 'msgid "x" y\\e', ' msgid "x"', ' "x"', "\ufeff", "\ufeff# x", "\r", "\u00a0",
]
# Lines that stand together more often: those of previous strings, of obsolete entries and of messages.
FAMILIES = [FORMED, FORMED] + [[line for line in FORMED if re.match(front, line)] for front in (r"#~?\|", "#~", '[m"]')]
# What stands before such lines.
FRONTS = [
    [], ["# a"], ['#| msgid "a"'], ['#~| msgid "a"'], ['msgctxt "a"'], ['msgid "a"'], ['msgid ""'], ['#~ msgid "a"'], ['#~ msgid ""'],
    ['msgid "a"', 'msgid_plural "b"'], ['msgid "a"', 'msgid_plural "b"', 'msgstr[0] ""'], ['msgid "a"', 'msgstr ""'],
    ['#~ msgid "a"', '#~ msgstr ""'], ['msgid ""', 'msgstr ""'], ['msgid ""', 'msgstr "Content-Type: charset=x"'],
    ['msgid "a"', 'msgstr ""', 'msgid ""'], ['msgid "a"', 'msgstr ""', 'msgid "a"'], ['msgid "a"', 'msgstr ""', '#~ msgid ""', '#~ "a"'],
]
LETTERS = ['"', "\\", "\r", "\t", "\n", "\0", "\x1f", "\x7f", " ", "#", "~", "|", ",", "[", "]", "0", "n", "x", "ö"]
SEQUENCES = [
    b"\xc2\x80", b"\xdf\xbf", b"\xe0\xa0\x80", b"\xed\x9f\xbf", b"\xee\x80\x80", b"\xef\xbf\xbf", b"\xf0\x90\x80\x80", b"\xf4\x8f\xbf\xbf",
    b"\x80", b"\xc1\xbf", b"\xe0\x9f\xbf", b"\xed\xa0\x80", b"\xf0\x8f\xbf\xbf", b"\xf4\x90\x80\x80", b"\xf5\x80\x80\x80", b"\xe2\x82", b"\xff",
]
KEYWORDS = ["msgctxt", "msgid", "msgid_plural", "msgstr", "msgstr[0]", "msgstr[1]", "msgstr[2]", "msgstr[7]", "msgstr[8]", "msgstr[01]", "domain", "Msgid"]


def change_bytes(r, text):
    place = r.randint(0, len(text))
    new = r.choice([b"", bytes([r.randrange(256)]), r.choice(LETTERS).encode(), r.choice(LETTERS).encode(), r.choice(ESCAPES).encode(), b"\\e"])
    return text[:place] + new + text[place + r.choice([0, 0, 1, 1, 2]) :]


def change_utf8(r, text):
    """The first and the last characters of a length, and bytes that are none."""
    place = r.randint(0, len(text))
    return text[:place] + r.choice(SEQUENCES) + text[place:]


def cut_off(r, text):
    return text[: r.randint(0, len(text))]


def with_bom(r, text):
    return b"\xef\xbb\xbf" + text


def with_returns(r, text):
    return text.replace(b"\n", b"\r\n", r.choice([1, -1]))


def change_lines(r, text):
    """Two lines change places, or one goes, comes again or is put in."""
    lines = text.split(b"\n")
    a, b = r.randrange(len(lines)), r.randrange(len(lines))
    turn = r.randrange(5)
    if turn == 0:
        lines[a], lines[b] = lines[b], lines[a]
    elif turn == 1:
        del lines[a]
    elif turn == 2:
        lines.insert(a, lines[b])
    else:
        lines.insert(a, r.choice(FORMED + FORMLESS).encode())
    return b"\n".join(lines)


def change_line(r, text):
    """One line gets another keyword or mark, white, or more at its end."""
    lines = text.split(b"\n")
    place = r.randrange(len(lines))
    line = lines[place]
    turn = r.randrange(5)
    if turn == 0:
        line = re.sub(rb"msg[a-z_]+(\[\d\])?", r.choice(KEYWORDS).encode(), line, count=1)
    elif turn == 1:
        line = re.sub(rb"^(#~\| |#~ |#\| )?", r.choice([b"", b"#~ ", b"#| ", b"#~| "]), line)
    elif turn == 2:
        line = r.choice([b" ", b"\t", b"\r", b"x"]) + line
    elif turn == 3:
        line += r.choice([b" ", b"\t", b"\r", b"x", b'"', b"\\", b" #"])
    else:
        line = line.replace(r.choice([b'"', b" ", b"\\", b"]"]), b"", 1)
    lines[place] = line
    return b"\n".join(lines)


def change_charset(r, text):
    return re.sub(rb"charset=[^\\;\n]*", b"charset=" + r.choice(FOREIGN + CHARSETS).encode().replace(b"\\", b"\\\\"), text, count=1)


def lengthened(r, text):
    """A piece gets so much more that its string is about as long as it may be."""
    place = text.find(b'"', r.randint(0, len(text))) + 1
    return text[:place] + r.choice([b"a", b"\\n"]) * (STRING_LIMIT - r.choice([-1, 0, 1, 2, 5, 9, 20])) + text[place:]


def moved_entry(r, text):
    """Entries change places, or one comes twice."""
    parts = text.split(b"\n\n")
    if r.random() < 0.5:
        r.shuffle(parts)
    else:
        parts.insert(r.randint(0, len(parts)), r.choice(parts))
    return b"\n\n".join(parts)


CHANGES = [change_lines, change_line] * 6 + [change_bytes] * 5 + [cut_off, moved_entry] * 2
CHANGES += [change_utf8, with_bom, with_returns, change_charset]


def soup(r):
    """Lines of all kinds, most of which may not stand together."""
    family = r.choice(FAMILIES)
    lines = [r.choice(FORMLESS if r.random() < 0.15 else family) for _ in range(r.randint(1, 6))]
    return "\n".join(r.choice(FRONTS) + lines).encode() + r.choice([b"", b"\n"])


def large(r):
    """About as many entries, or bytes, as there may be."""
    if r.random() < 0.6:
        count = ENTRY_LIMIT + r.choice([-1, 0, 0, 1])
        header = r.choice(["", 'msgid ""\nmsgstr ""\n', 'msgctxt ""\nmsgid ""\nmsgstr ""\n'])
        last = r.choice(["", '#~ msgid "x"\n#~ msgstr "x"\n', 'msgctxt "x"\nmsgctxt "x"', "# x", 'msgid "0"'])
        return (header + "".join(f'msgid "{n}"\nmsgstr ""\n' for n in range(count)) + last).encode()
    size = TEXT_LIMIT + r.choice([-1, 0, 0, 1, 2])
    tail = r.choice([b"", b'msgid "a"\nmsgstr ""\n', b"\xff", b"msgid"])
    filler = r.choice([b"\n", b" ", b"# a comment of some length, which comes again and again\n"])
    filled = (filler * (size // len(filler) + 1))[: size - len(tail) - 1]
    return filled + b"\n" + tail


def random_text(seed, number):
    r = random.Random(f"{seed} {number}")
    kind = r.random()
    if kind < 0.004:
        return large(r)
    if kind < 0.2:
        return soup(r)
    text = text_of(r, catalogue(r))
    if kind < 0.24:
        return lengthened(r, text)
    for _ in range(r.choice([0, 0, 0, 1, 1, 1, 2, 3])):
        text = r.choice(CHANGES)(r, text)
    return text


# ---- comparing


def difference(programs, text):
    """The fault that the first program tells, and what is otherwise."""
    told = [answer(words, text) for words in programs]
    fault = fault_of(told[0])
    if told[0] != told[1]:
        return fault, "they differ"
    if fault is False:
        return fault, "that is no answer"
    if fault is None and any(answer(words, told[0][1]) != told[0] for words in programs):
        return fault, "what was printed comes out another way"
    return fault, None


def batch(work):
    """The faults of some texts, with what is otherwise."""
    programs, seed, numbers = work
    return [(number, *difference(programs, random_text(seed, number))) for number in numbers]


def shown(told):
    status, out, err = told
    return f"{status} {out[:600]} {err[:200]}"


def show(programs, seed, number, what):
    text = random_text(seed, number)
    print(f"text {number} of seed {seed}, {len(text)} bytes: {what}\n    {text[:1500]}")
    for words in programs:
        print(f"    {words[0]}: {shown(answer(words, text))}")


def try_texts(programs, count, seed):
    works = [(programs, seed, range(first, min(first + BATCH, count))) for first in range(0, count, BATCH)]
    faults = collections.Counter()
    read = differences = 0
    with multiprocessing.Pool() as pool:
        for found in pool.imap(batch, works):
            for number, fault, what in found:
                read += fault is None
                if fault:
                    faults[fault[1]] += 1
                if what is not None:
                    differences += 1
                    if differences <= SHOWN:
                        show(programs, seed, number, what)
    print("faults: " + ", ".join(f"{name} {faults[kind]}" for kind, name in KINDS.items()))
    print(f"{count} texts, {read} of them read, {differences} differences")
    return differences


def main(words):
    numbers = [word for word in words if word.isdigit()]
    paths = [word for word in words if not word.isdigit()]
    if not 1 <= len(paths) <= 2 or len(numbers) > 2 or words != paths + numbers:
        sys.exit(__doc__)
    count = int(numbers[0]) if numbers else 10_000
    seed = int(numbers[1]) if len(numbers) > 1 else 1
    with tempfile.TemporaryDirectory() as folder:
        if len(paths) < 2:
            paths.append(built_plain(folder))
        programs = [words_of(path) for path in paths]
        wrong = try_rows(programs)
        return 1 if wrong + try_texts(programs, count, seed) else 0


if __name__ == "__main__":
    sys.exit(main(sys.argv[1:]))
