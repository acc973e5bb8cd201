#!/usr/bin/env python3
"""Simulated days of so many checks, each audited by `tools/ne day` behind those before; what each took.

    python3 bench/days.py PROGRAM DAYS CHECKS FOLDER [WORD ..]

There is a write for each ten checks, which adds a tuple, or from the second day on by turns removes an old one, and a content check for each
hundred; some checks name versions, also of days before, and some read a snapshot of the day before. Ten replies of each day are wrong,
and these have to be found. The words go to `ne day`. FOLDER has to be empty or not there.
"""
import argparse
import json
import os
import resource
import subprocess
import sys
import time
from collections import deque
from random import Random

NE = os.path.join(os.path.dirname(os.path.dirname(os.path.abspath(__file__))), "tools", "ne")
encode = json.JSONEncoder(separators=(",", ":")).encode
WRONG = 10
OLD_VERSIONS = 1000


class Service:
    """What is stored, and what happened of late."""

    def __init__(self, checks):
        self.random, self.checks = Random(checks), checks
        self.at, self.day = 0, 0
        # the tuples in the order in which they were added, and when
        self.stored, self.added = deque(), {}
        self.versions = deque(maxlen=OLD_VERSIONS)
        # what the last day removed, with the revision
        self.removed = []

    def pair(self):
        return "d%07d" % self.random.randrange(self.checks // 2), "user-%06d" % self.random.randrange(self.checks // 10)

    def goal(self, pair):
        return ["document", pair[0], "viewer", "user", pair[1]]

    def write(self, removed):
        self.at += 1
        if self.day > 1 and self.at % 2:
            gone = self.stored.popleft()
            del self.added[gone]
            removed.append((self.at, gone))
            return {"event": "write", "revision": self.at, "remove": [self.goal(gone)]}
        last = self.pair()
        while last in self.added:
            last = self.pair()
        self.stored.append(last)
        self.added[last] = self.at
        return {"event": "write", "revision": self.at, "add": [self.goal(last)]}

    def check(self, pair, reply, at=None, **more):
        return {"event": "check", "goal": self.goal(pair), "snapshot": self.at if at is None else at, "reply": reply, **more}

    def lines(self):
        """The lines of a day."""
        self.day += 1
        removed, wrong = [], set(self.random.sample(range(self.checks), WRONG))
        if self.day == 1:
            yield {"event": "rules", "namespaces": [{"name": "document", "relations": [{"name": "viewer"}]}]}
        for number in range(self.checks):
            if number % 10 == 0:
                yield self.write(removed)
            last = self.stored[-1]
            if number % 100 == 5:
                self.versions.append((last, "v%d" % self.at, self.at))
                yield {**self.check(last, True, version="v%d" % self.at, token=self.at), "event": "content"}
            yield self.one(number, last, number in wrong)
        self.removed = removed

    def one(self, number, last, is_wrong):
        if number % 4 == 3 and self.versions and not is_wrong:
            pair, label, at = self.random.choice(self.versions)
            return self.check(pair, pair in self.added, version=label, token=at)
        if number % 100 == 50 and self.removed and not is_wrong:
            # What the day before removed was there until then.
            at, gone = self.random.choice(self.removed)
            return self.check(gone, True, at - 1)
        pair = self.pair() if number % 2 else last
        return self.check(pair, (pair in self.added) != is_wrong)


def main():
    parser = argparse.ArgumentParser(description=__doc__.split("\n\n")[0])
    parser.add_argument("program", metavar="PROGRAM")
    parser.add_argument("days", type=int, metavar="DAYS")
    parser.add_argument("checks", type=int, metavar="CHECKS")
    parser.add_argument("folder", metavar="FOLDER")
    parser.add_argument("words", nargs=argparse.REMAINDER, metavar="WORD")
    given = parser.parse_args()
    os.makedirs(given.folder, exist_ok=True)
    log, service = os.path.join(given.folder, "log"), Service(given.checks)
    print("day, MB of the log, wall s, processor s, MB of memory of the largest process so far, MB of the state, load")
    for day in range(1, given.days + 1):
        with open(log, "w", encoding="utf-8") as file:
            file.writelines(encode(line) + "\n" for line in service.lines())
        before, start = resource.getrusage(resource.RUSAGE_CHILDREN), time.monotonic()
        run = subprocess.run([sys.executable, NE, "day", "--program", given.program, *given.words, os.path.join(given.folder, "days"), "events",
                              "--from-empty", log], capture_output=True, text=True)
        took, after = time.monotonic() - start, resource.getrusage(resource.RUSAGE_CHILDREN)
        if run.returncode != 1 or "findings %d\n" % WRONG not in run.stdout or "not audited" in run.stdout:
            sys.exit("day %d: status %d\n%s%s" % (day, run.returncode, run.stdout, run.stderr))
        state = sum(os.path.getsize(os.path.join(given.folder, "days", "day%06d" % day, name)) for name in ("carry", "carried"))
        print("%d, %.0f, %.1f, %.1f, %.0f, %.1f, %.1f" % (
            day, os.path.getsize(log) / 1e6, took, after.ru_utime + after.ru_stime - before.ru_utime - before.ru_stime, after.ru_maxrss / 1e3,
            state / 1e6, os.getloadavg()[0]), flush=True)


if __name__ == "__main__":
    main()
