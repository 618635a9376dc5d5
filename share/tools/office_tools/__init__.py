"""What the tools around `office` share: PO texts, requests, replies in words, and a client of a served office."""
import argparse
import os
import re
import sys
import threading

from office_tools.lines import put, put_mistake, put_mistake_of_thread, seen, take_any_text

# The forms of a caller's name and of a language, as docs/FORMATS.md has them.
NAME = re.compile(r"[a-z][a-z0-9._-]{0,31}")
LANG = re.compile(r"[A-Za-z][A-Za-z0-9_@-]{1,15}")

DONE, NOT_DONE = 0, 1
STATUSES = "The status is 0 where all was done, 1 where something was not done, which is named, 2 for wrong words."


class Fault(Exception):
    """Why something could not be done, in words."""


def name(text):
    """A caller's name, as a word of the command line."""
    if not NAME.fullmatch(text):
        raise ValueError(text)
    return text


def lang(text):
    """A language's code, as a word of the command line."""
    if not LANG.fullmatch(text):
        raise ValueError(text)
    return text


class Parser(argparse.ArgumentParser):
    """A reader of words, which tells of wrong ones as all else is told."""

    def error(self, message):
        super().error(seen(message))


def parser(tool, about, kind=Parser, **more):
    """A reader of a tool's words, which tells the first line of what it is about."""
    return kind(prog=tool, description=about.split("\n")[0], epilog=f"{STATUSES} See {tool}(1).", **more)


def run(tool, main):
    """Runs a tool's main, and tells what it could not do. Ends with the tool's status."""
    take_any_text(sys.stdout, sys.stderr)
    sys.excepthook, threading.excepthook = put_mistake, put_mistake_of_thread
    try:
        status = main()
    except Fault as fault:
        put(f"{tool}: {fault}", to=sys.stderr)
        status = NOT_DONE
    except BrokenPipeError:
        # Whoever read has gone away, and what is left is not to be written at the end.
        os.dup2(os.open(os.devnull, os.O_WRONLY), sys.stdout.fileno())
        status = NOT_DONE
    except KeyboardInterrupt:
        status = 130
    sys.exit(status)
