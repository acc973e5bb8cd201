"""The core of a monitor by simulation: whenever it is killed, and whatever receivers answer, it tells what an
unbroken one tells, and that is what an audit of the whole log finds.

SEEDS in the environment says how many worlds there are.
"""
import json
import os
import subprocess
from collections import Counter
from random import Random

from tests.simulated_monitor import told_by
from tests.test_going_on import RULES, events_of
from tests.test_monitor_stream import BASE, PLACE, lines_of
from tests.test_trace_maker import CoreCase, rel, write

SEEDS = int(os.environ.get("SEEDS", "25"))


def log_of(random, has_between):
    """Events of two or three days, with the time of each."""
    events, days = events_of(random, 60, has_between), sorted(random.sample(range(60), random.randint(0, 2)))
    for place, event in enumerate(events):
        event["time"] = "2026-11-%02dT10:00:%02dZ" % (20 + sum(place >= day for day in days), place)
    # A last write, to which no check looks, settles all.
    return [RULES, BASE, PLACE, *events, write(10 ** 6, rel("none"))]


def by_finding(counts):
    found = Counter()
    for (finding, _), count in counts.items():
        found[finding] += count
    return found


class Simulated(CoreCase):
    def findings(self, log):
        """How many findings of each kind the whole log has."""
        for name in ("trace.jsonl", "ids.jsonl"):
            if os.path.exists(self.path(name)):
                os.remove(self.path(name))
        self.put("log", [event for event in log if event is not PLACE])
        self.imported("events", "log")
        run = subprocess.run([os.environ["NEW_ENEMY"], "audit", self.path("trace.jsonl"), "--make"],
                             capture_output=True, text=True, timeout=300)
        told = self.run_tool("report", "--form", "jsonl", "trace.jsonl", self.put("report", run.stdout))
        return Counter(row["finding"] for row in map(json.loads, told.stdout.splitlines()[1:]))

    def compare(self, log, random, has_between, number):
        """What an unbroken monitor tells, which is what one tells that is killed; and how often that was."""
        whole, kept, _ = told_by(lines_of(log), random, 0.0, has_between)
        self.assertEqual(by_finding(kept.counts), self.findings(log), number)
        entries = [row for row in self.rows("trace.jsonl") if row["kind"] in ("check", "content")]
        self.assertEqual(kept.entries, len(entries))
        broken, _, lives = told_by(lines_of(log), random, 0.01, has_between)
        wanted = {row["id"]: row for row in whole["two"]}
        self.assertEqual(len(wanted), len(whole["two"]), "told twice")
        self.assertEqual([row["id"] for row in whole["one"]], [row["id"] for row in whole["two"]])
        # Who is up gets an alert once more where the monitor was killed before its mark; who can be asked, never.
        self.assertLessEqual(len(broken["two"]), len(wanted) + lives)
        self.assertEqual(len({row["id"] for row in broken["file"]}), len(broken["file"]), "told twice")
        for rows in broken.values():
            told = {row["id"]: row for row in rows}
            self.assertEqual(set(told), set(wanted), number)
            for key, row in told.items():
                self.assertEqual([row.get(name) for name in NAMES], [wanted[key].get(name) for name in NAMES])
        return whole["two"], lives

    def test_kills_at_any_moment(self):
        kinds, killed = Counter(), 0
        for number in range(SEEDS):
            random, has_between = Random("monitor %d" % number), number % 4 == 3
            told, lives = self.compare(log_of(random, has_between), random, has_between, number)
            kinds.update(row["kind"] for row in told)
            killed += lives
        self.assertGreater(killed, SEEDS)
        self.assertGreater(kinds["finding"], SEEDS)
        self.assertGreater(kinds["again"], SEEDS // 4)

    def test_days_that_end_by_the_clock(self):
        """Whenever no line comes for a day: the runs together have what the whole log has."""
        runs = 0
        for number in range(SEEDS // 3):
            random, has_between = Random("nights of a monitor %d" % number), number % 2 == 1
            log = log_of(random, has_between)
            for kills in (0.0, 0.01):
                told, kept, _ = told_by(lines_of(log), random, kills, has_between, nights=0.1)
                self.assertEqual(by_finding(kept.counts), self.findings(log), number)
                ids = [row["id"] for row in told["file"]]
                self.assertEqual(len(set(ids)), len(ids), "told twice")
                runs += len(kept.runs)
        self.assertGreater(runs, SEEDS)

    def test_other_strata(self):
        """A tuple by which a relation stands on what it did not stand on before ends the run before it."""
        for number in range(6):
            random = Random("strata of a monitor %d" % number)
            log = log_of(random, False)
            place = random.randint(20, 50)
            revision = max(event.get("revision", 0) for event in log[:place])
            for event in log[place:-1]:
                for key in ("revision", "snapshot", "token"):
                    if event.get(key, 0) > revision:
                        event[key] += 1
            log.insert(place, write(revision + 1, rel("staff", "member", "1", "doc", "reader", of="team"),
                                    time=log[place].get("time")))
            whole, kept, _ = told_by(lines_of(log), random, 0.0, False)
            broken, again, _ = told_by(lines_of(log), random, 0.01, False)
            for disk in kept, again:
                self.assertEqual(by_finding(disk.counts), self.findings(log))
            # Where the runs end hangs on which lines came together, and so do effects of changes behind an end.
            self.assertEqual(*({(row["named"], row["reply"]) for row in told["two"] if row["kind"] == "finding"}
                               for told in (whole, broken)))


# Which of a story's requests, and which finding of it, is told first hangs on what came together.
NAMES = ("kind", "effect", "outcome", "named", "reply", "count", "ignored_from")
