#!/usr/bin/env python3
"""Measures what a vote costs by how many votes its suggestion has already.

    bench/votes.py [PROGRAM..]

PROGRAM is crates/cli/out/cli where none is named; of more, each is measured in turn.

An office in memory gets 10,000 votes on one suggestion, of as many voters: the team has room for 999 beside its manager, so
voters come and go, and their votes stay. Lines go to the program in groups of 111, and the next group goes when the answers are
there. Told are the microseconds of a vote in the first group, in the last one, and in groups between.
"""
import json
import pathlib
import subprocess
import sys
import time
import uuid

TOP = pathlib.Path(__file__).resolve().parent.parent
VOTES, TEAM, GROUP = 10_000, 999, 111
SUGGESTION = str(uuid.UUID(int=1))


class Office:
    """An office in memory, driven line by line."""

    def __init__(self, program):
        self.run = subprocess.Popen([program, "deliver", "--demo"], stdin=subprocess.PIPE, stdout=subprocess.PIPE, text=True)
        self.number = 100

    def request(self, caller, **act):
        self.number += 1
        return json.dumps({"number": str(uuid.UUID(int=self.number)), "caller": caller, **act}) + "\n"

    def deliver(self, lines):
        """Delivers these lines, and returns the seconds until the last was answered."""
        begin = time.perf_counter()
        self.run.stdin.write("".join(lines))
        self.run.stdin.flush()
        for line in lines:
            answer = self.run.stdout.readline()
            if not answer.startswith("200 "):
                sys.exit(f"{line.strip()}\n{answer.strip()}")
        return time.perf_counter() - begin

    def close(self):
        self.run.stdin.close()
        self.run.wait()


def seconds_of_votes(program):
    """The seconds of each vote, by groups."""
    office = Office(program)
    unit = {"lang": "de", "id": "Hello", "seen": 1}
    policy = {"reviews": False, "guests_suggest": False, "voting": True, "accept_at": 0, "placeholders": False, "line_ends": False}
    suggest = json.dumps({"number": SUGGESTION, "caller": "ann", "act": "suggest", "forms": ["Hallo"], **unit}) + "\n"
    office.deliver([office.request("root", act="policy", **policy), office.request("root", act="team", name="ann", role="guest")])
    office.deliver([office.request("root", act="team", name="bea", role="translator"), suggest.replace('"ann"', '"bea"')])
    office.deliver([office.request("root", act="team", name="bea", role="guest")])
    groups = []
    for first in range(0, VOTES, TEAM):
        voters = [f"voter{number}" for number in range(first, min(first + TEAM, VOTES))]
        office.deliver([office.request("root", act="team", name=it, role="translator") for it in voters])
        for at in range(0, len(voters), GROUP):
            votes = [office.request(it, act="vote", suggestion=SUGGESTION, value=1, **unit) for it in voters[at : at + GROUP]]
            groups.append(office.deliver(votes) / len(votes))
        office.deliver([office.request("root", act="team", name=it, role="guest") for it in voters])
    office.close()
    return groups


def main():
    for program in sys.argv[1:] or [str(TOP / "crates/cli/out/cli")]:
        groups = seconds_of_votes(program)
        places = [0, len(groups) // 4, len(groups) // 2, len(groups) - 1]
        told = ", ".join(f"after {at * GROUP:,} votes {groups[at] * 1e6:.1f}" for at in places)
        print(f"{program}: microseconds a vote: {told}")


if __name__ == "__main__":
    main()
