"""The logs of several recorders, joined while they grow: what is given out is what a join of the whole logs says."""
import json
import os
import subprocess
from unittest import mock

from new_enemy_tools.commands.join import write
from new_enemy_tools.recording.joining import UNKNOWN, Join
from new_enemy_tools.recording.live_joined import LiveJoin, Round
from new_enemy_tools.recording.log_files import LogFiles
from new_enemy_tools.recording.sketches import JoinFault, Row
from tests.simulated_crowd import run_live
from tests.simulation import given_of
from tests.simulated_case import SimulatedCase
from tests.support import Case
from tests.test_joining import change, check, events, lines

SEEDS = int(os.environ.get("SEEDS", "250"))
PROGRAM = os.path.abspath(os.environ["NEW_ENEMY"])
# Longer than a simulated recorder waits.
WAITED = 200 * 10 ** 6


class Simulated(SimulatedCase):
    """Recorders whose logs are joined at many times, each with some of its lines; at some times it is begun again."""

    RUN = run_live

    def test_no_right_reply_is_accused_and_no_wrong_one_passes(self):
        recorded = lost = rounds = begun = 0
        for seed in range(SEEDS):
            with mock.patch("new_enemy_tools.recording.sketches.WAITED", WAITED * (seed % 2)):
                world, verdict = run_live(seed)
            self.assertEqual(verdict.faults(), [], "seed %d" % seed)
            recorded, lost = recorded + len(verdict.entries), lost + verdict.lost
            rounds += sum(any(row["event"] == "check" for row in rows) for rows, _ in world.days)
            begun += world.begun
        self.assertGreater(recorded, 2 * lost)
        self.assertGreater(rounds, 1.5 * SEEDS)
        self.assertGreater(begun, 1.5 * SEEDS)

    def test_a_model_that_changes(self):
        self.assert_holds(*range(SEEDS // 3), models=True)

    def test_a_log_that_begins_among_changes_that_came_at_once(self):
        self.assert_holds(1017163)

    def findings(self, rows, name):
        """What an audit finds of a joined log, by where each check stands."""
        folder = self.path(name)
        write(iter(rows), LogFiles(folder, "joined openfga", size=1 << 62, age=float("inf")), folder)
        log, trace, ids = (self.path(name + end) for end in ("/000001.jsonl", ".trace", ".ids"))
        made = self.run_tool("import", "events", "--trace", trace, "--ids", ids, log)
        self.assertIn(made.returncode, (0, 6), made.stderr)
        audit = subprocess.run([PROGRAM, "audit", trace, "--make"], capture_output=True, text=True, timeout=300)
        report = self.run_tool("report", "--form", "jsonl", trace, self.put(name + ".report", audit.stdout))
        return {(row["from"], row["finding"]) for row in map(json.loads, report.stdout.splitlines()[1:])}

    def test_findings_are_those_of_a_join_of_the_whole_logs(self):
        found = set()
        for seed in range(12):
            world, verdict = run_live(seed, faults=0.6, requests=25)
            given = [given_of("log%d" % number, one.lines) for number, one in enumerate(world.all)]
            live, whole = (self.findings(rows, "%s%d" % (name, seed)) for name, rows in (
                ("live", verdict.rows), ("whole", Join(given, 0).lines())))
            self.assertEqual(live, whole, "seed %d" % seed)
            found |= {(seed, *one) for one in live}
        self.assertGreater(len(found), 12)

    def test_a_version_that_is_not_waited_for(self):
        with mock.patch.object(Round, "_reach", lambda self, log: 1 << 62):
            self.assert_finds("a version is left out that was saved in time", writes=0.1, requests=25)


class Logs:
    """A live join whose logs are given row by row."""

    def __init__(self, *names, hold=30.0, **values):
        self.join, self.counts = LiveJoin(names, 0, hold, **values), dict.fromkeys(names, 0)

    def add(self, name, *rows, now=0.0):
        for row in rows:
            self.counts[name] += 1
            self.join.take(name, Row(name, self.counts[name], row), len(json.dumps(row)), now)

    def round(self, *over, now=0.0):
        return self.join.round(set(over), now)


class Parts(Case):
    def test_what_each_log_has_is_given_out_at_once(self):
        logs = Logs("left", "right")
        logs.add("left", *lines(change(1, "a"), check(1, 3), change(2, "b"), check(2, 5)))
        self.assertEqual(events(logs.round()), [("rules", None), ("write", 0), ("place", 0), ("write", 1), ("check", 1),
                                                ("write", 2), ("check", 2)])
        logs = Logs("left", "right")
        logs.add("left", *lines(change(1, "a"), check(1, 3), change(2, "b"), check(2, 5)))
        logs.add("right", *lines(change(1, "a"), check(1, 4)))
        self.assertEqual(events(logs.round())[3:], [("write", 1), ("check", 1), ("check", 1)])
        self.assertEqual((logs.join.waiting, logs.join.waits_for), (1, ["right"]))
        self.assertEqual([len(log.lines) for log in logs.join.logs.values()], [1, 0])
        logs.add("right", change(2, "b"))
        self.assertEqual(events(logs.round()), [("write", 2), ("check", 2)])
        self.assertEqual((logs.join.waiting, logs.join.oldest), (0, None))
        self.assertEqual(logs.round(), [])

    def test_a_version_is_waited_for_and_then_counted(self):
        """A check that shows what another log may have saved, until it is too late for that."""
        for saves in (True, False):
            logs = Logs("left", "right")
            logs.add("left", *lines(change(1, "a"), check(1, 9, version="v")), now=5.0)
            logs.add("right", *lines(change(1, "a"), check(1, 2)), now=5.0)
            self.assertEqual(events(logs.round(now=34.9))[3:], [("write", 1), ("check", 1)])
            if saves:
                logs.add("right", check(1, 7, "content", version="v", token=1), now=34.9)
                self.assertEqual(events(logs.round(now=34.9)), [("content", 1), ("check", 1)])
            else:
                self.assertEqual([row.get("reason") for row in logs.round(now=35.0)], [UNKNOWN, None])

    def test_it_goes_on_where_it_was(self):
        """One that is begun again is given all lines anew, and gives out none twice."""
        left = lines(change(1, "a"), check(1, 3), change(2, "b"), check(2, 5))
        logs = Logs("left", "right")
        logs.add("left", *left)
        logs.add("right", *lines(change(1, "a"), check(1, 4)))
        logs.round()
        again = Logs("left", "right", before=logs.join.before, told=sorted(logs.join.told))
        again.add("left", *left[:3])
        self.assertEqual(again.round(), [])
        again.add("left", *left[3:])
        again.add("right", *lines(change(1, "a"), check(1, 4), change(2, "b"), check(2, 6)))
        self.assertEqual(events(again.round()), [("write", 2), ("check", 2), ("check", 2)])

    def test_which_changes_a_log_began_with_its_next_ones_tell(self):
        """One log has two changes that cancel each other before those with which another log begins, and a third has them behind these."""
        a, b, c, d = (change(1, user, at=at) for at, user in enumerate("abcd", 1))
        come, gone = ({**change(1, "c", side, at), side: [["document", "other", "viewer", "user", "c"]]} for side, at in (("add", 5), ("remove", 6)))

        def numbered(*changes):
            return [{**one, "revision": number} for number, one in enumerate(changes, 1)]
        later = lines(check(0, 9), changes=4)
        later[3]["add"] = [["document", "d", "viewer", "user", one] for one in "abcd"]
        logs = Logs("left", "right", "later")
        logs.add("left", *lines(a))
        logs.add("right", *lines(*numbered(a, b, c, d)))
        logs.add("later", *later)
        self.assertEqual(events(logs.round())[3:], [("write", 1)])
        logs.add("left", *numbered(a, come, gone, b, c, d)[1:])
        self.assertEqual((logs.round(), logs.join.waits_for, logs.join.waiting), ([], ["later"], 1))
        with self.assertRaisesRegex(JoinFault, "later does not begin with .* changes that are in no log, or too few of the next ones are in it$"):
            logs.round("later")
        logs.add("right", *numbered(a, b, c, d, come, gone)[4:])
        logs.add("later", *numbered(come, gone))
        self.assertEqual(events(logs.round()), [("write", 2), ("write", 3), ("write", 4), ("write", 5), ("write", 6), ("check", 6)])

    def test_what_is_refused(self):
        logs = Logs("left", "right")
        logs.add("left", *lines(change(1, "a")))
        logs.add("right", *lines(store="T"))
        with self.assertRaisesRegex(JoinFault, "right is a log of the store T, and left of S"):
            logs.round()
        logs = Logs("left")
        logs.add("left", *lines(change(1, "a")))
        logs.round()
        with self.assertRaisesRegex(JoinFault, "left was joined on the days before, and is not given"):
            Logs("right", before=logs.join.before)
