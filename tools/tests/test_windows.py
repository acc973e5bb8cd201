"""Audits in windows answer what an audit of the whole answers.

RANDOM_TRACES and BENCH_BYTES in the environment say how many random traces there are and how large each kind of bench/trace.py is.
"""
import contextlib
import io
import json
import os
import re
import shutil
import signal
import subprocess
import sys
import time
import unittest.mock
from collections import Counter
from random import Random

from hostile.inputs import worked_cases
from new_enemy_tools.importing import causes
from new_enemy_tools import limits
from new_enemy_tools.commands import ne
from new_enemy_tools.files import split_joined
from new_enemy_tools.windowing import following
from new_enemy_tools.windowing.carries import Carry, raw_of
from tests.random_windows import RandomHistory, cut_at_commits
from tests.support import EXAMPLES, TOOLS, TOP, Run, loaded_file
from tests.test_parts import BENCH_BYTES, LARGE_KINDS, MOST_BYTES, RANDOM_TRACES, PartsCase

# A window is also audited in runs of so many bytes.
STRETCHES = (300, 2_000)
NO_CARRY = "nothing can be handed on to the next window"


def order(text):
    """The place of a finding in a report."""
    found = re.match("line ([0-9]+): F([0-9]+)", text)
    return int(found[1]), int(found[2])


def line_of_entry(text):
    return int(text.partition(":")[0][5:])


class Told:
    """What windows told, one after the other."""

    def __init__(self):
        self.findings, self.not_audited, self.entries, self.counts = [], [], 0, []

    def take_run(self, case, run):
        """Takes what a run wrote that has to end well."""
        case.assertIn((run.returncode, run.stderr), ((0, ""), (1, ""), (6, "")))
        self.take(run.stdout)
        case.assertEqual(run.returncode, {"clean": 0, "dirty": 1, "incomplete": 6}[self.counts[-1]["verdict"]])

    def take(self, text):
        lines = text.splitlines()
        for line in lines:
            if line.startswith("line "):
                (self.not_audited if "not audited" in line or "audited in part" in line else self.findings).append(line)
        sums = dict(line.rsplit(" ", 1) for line in lines if not line.startswith("line "))
        self.entries += int(sums["entries"])
        self.counts.append(sums)

    @property
    def report(self):
        """The report of the whole that these findings make."""
        lines = sorted(self.findings, key=order)
        return "".join(line + "\n" for line in lines) + "entries %d\nfindings %d\nverdict %s\n" % (
            self.entries, len(lines), "dirty" if lines else "clean")


class WindowCase(PartsCase):
    def run_window(self, *words):
        out, err = io.StringIO(), io.StringIO()
        with contextlib.redirect_stdout(out), contextlib.redirect_stderr(err):
            try:
                status = ne.main(["window", *map(str, words)])
            except SystemExit as end:
                status = end.code
        return Run(status, out.getvalue(), err.getvalue())

    def audit(self, *words):
        return self.run_window("audit", *words, "--program", os.environ["NEW_ENEMY"])

    def moved(self, old, new):
        """Puts a state in the place of another."""
        shutil.rmtree(self.path(new), ignore_errors=True)
        os.rename(self.path(old), self.path(new))

    def windows(self, cuts, words_of=lambda number: ()):
        """What windows told, each behind the state of the one before; of one that has nothing to hand on the next has the lines too."""
        told, number, lines = Told(), 0, []
        shutil.rmtree(self.path("state"), ignore_errors=True)
        for place, own in enumerate(cuts):
            lines = lines + own
            is_last = place == len(cuts) - 1
            words = [self.put("window", b"".join(one + b"\n" for one in lines)), *(["--state", self.path("state")] if number else []), *words_of(place)]
            words += ["--final"] if is_last else ["--out", self.path("next")]
            run = self.audit(*words)
            if NO_CARRY in run.stderr:
                self.assertEqual((run.returncode, os.path.exists(self.path("next"))), (2, False))
                if not is_last:
                    continue
                with unittest.mock.patch.object(following, "STRETCH", WHOLE):
                    run = self.audit(*words)
            told.take_run(self, run)
            number, lines = number + 1, []
            if not is_last:
                self.moved("next", "state")
        return told

    def data(self, name):
        with open(self.path(name), "rb") as file:
            return file.read()

    def files(self):
        """What is in the folder of the test."""
        return {os.path.join(folder, name): self.data(os.path.join(folder, name)) for folder, _, names in os.walk(self.room) for name in names}

    def oldest(self, cuts):
        """The words by which each state keeps what later windows read, and no more."""
        snapshots, ats, ends, line = [], [], [], 0
        for lines in cuts:
            for line, raw in enumerate(lines, line + 1):
                value = json.loads(raw) if raw.strip() else {}
                if "snapshot" in value:
                    snapshots.append((line, value["snapshot"]))
                elif value.get("at") is not None:
                    ats.append(value["at"])
            ends.append(line)
        last = ats[-1] if ats else 0
        least = [min([snapshot for line, snapshot in snapshots if line > end] + [last]) for end in ends]
        return lambda number: ("--oldest-snapshot", least[number])

    def compare(self, random, trace, what):
        """What windows told, which has to be the whole's report, of some windows in several runs; and how many there were."""
        lines = trace.split(b"\n")[:-1] if trace.endswith(b"\n") else trace.split(b"\n")
        cuts = cut_at_commits(random, lines)
        keep = random.choice([self.oldest(cuts), self.oldest(cuts), lambda number: ("--oldest-snapshot", 0)])
        with unittest.mock.patch.object(following, "STRETCH", random.choice([following.STRETCH, *STRETCHES])), \
                unittest.mock.patch.object(following.Blocks, "__iter__", lines_of_blocks):
            told = self.windows(cuts, keep)
        self.assert_told(told, lines, "%s in %d windows" % (what, len(cuts)))
        return told.report, len(cuts)

    def assert_told(self, told, lines, what):
        """What was told is what an audit of the whole finds, but on entries that ask for what was before the first commit, which no carry has."""
        whole = self.made(b"".join(line + b"\n" for line in lines))
        below = set(map(line_of_entry, told.not_audited))
        self.assertLessEqual(below, older_than_all(lines), what)
        wanted = [line for line in whole.splitlines() if line.startswith("line ")]
        self.assertEqual(sorted(told.findings, key=order), [line for line in wanted if order(line)[0] not in below], what)
        self.assertIn("entries %d\n" % told.entries, whole)

    def made(self, trace):
        """The whole's report by made evidence."""
        run = self.run_program("audit", self.put("whole", trace), "--make")
        self.assertIn(run.returncode, (0, 1), run.stderr)
        return run.stdout

    def run_program(self, *words):
        ended = subprocess.run([os.environ["NEW_ENEMY"], *words], capture_output=True, text=True, timeout=300)
        return Run(ended.returncode, ended.stdout, ended.stderr)


WHOLE, WHOLE_BLOCKS = following.STRETCH, following.Blocks.__iter__


def older_than_all(lines):
    """The entries that ask for what was before the first commit."""
    values = [json.loads(raw) if raw.strip() else {} for raw in lines]
    first = next((value["at"] for value in values if value.get("kind") == "commit"), 0)
    return {line for line, value in enumerate(values, 1) if value.get("snapshot", first) < first}


def lines_of_blocks(blocks):
    """Line by line, so that runs of few bytes may end at any of them."""
    for block in WHOLE_BLOCKS(blocks):
        yield from block.splitlines(True)


class WholesInWindows(WindowCase):
    def test_random_histories(self):
        found, counts = set(), set()
        for number in range(RANDOM_TRACES):
            random = Random("windows %d" % number)
            lines = RandomHistory(random).lines()
            told, count = self.compare(random, b"".join(line + b"\n" for line in lines), "random %d" % number)
            found.update(re.findall(r"F[0-9]+", told))
            counts.add(count)
        self.assertEqual(found, {"F1", "F2", "F3", "F4", "F5", "F6", "F10"})
        self.assertGreaterEqual(len(counts), 7)

    def test_the_examples(self):
        for name in sorted(one.name for one in os.scandir(EXAMPLES) if one.is_file()):
            with open(os.path.join(EXAMPLES, name), "rb") as file:
                self.compare(Random(name), split_joined(file.read())[0], name)

    def test_the_kinds_of_the_benchmark(self):
        for name, made in loaded_file(os.path.join(TOP, "bench", "trace.py")).KINDS.items():
            if name not in LARGE_KINDS or BENCH_BYTES >= MOST_BYTES:
                trace = ("\n".join(made(BENCH_BYTES).lines) + "\n").encode()
                for seed in range(2):
                    self.compare(Random("%s %d" % (name, seed)), trace, name)

    def test_the_worked_cases(self):
        counts = []
        for case in worked_cases():
            trace = split_joined(case.data)[0]
            if case.wanted.status < 2 and len(trace) < MOST_BYTES and b'"commit"' in trace:
                counts.append(self.compare(Random(case.name), trace, case.name)[1])
        self.assertGreater(len(counts), 100)
        self.assertGreater(sum(counts), 2 * len(counts))


class WholesOfWhichLittleIsKept(WindowCase):
    KEEPING = ((), ("--keep-snapshots", 0), ("--keep-versions", 1), ("--keep-versions", 2, "--oldest-snapshot", 0))

    def test_random_histories(self):
        """What is told is what an audit of the whole finds, but on entries of which it is told that they were not audited, or in part."""
        left, part = Counter(), Counter()
        for number in range(RANDOM_TRACES):
            random, keeping = Random("little %d" % number), self.KEEPING[number % len(self.KEEPING)]
            lines = RandomHistory(random, 60).lines()
            told = self.windows(cut_at_commits(random, lines), lambda _, words=keeping: words)
            whole = [line for line in self.made(b"".join(line + b"\n" for line in lines)).splitlines() if line.startswith("line ")]
            unaudited = {line_of_entry(line): "in part" in line for line in told.not_audited}

            def is_sure(line):
                at, finding = order(line)
                return at not in unaudited or unaudited[at] and finding not in (2, 6)
            self.assertEqual(sorted(filter(is_sure, told.findings), key=order), list(filter(is_sure, whole)), number)
            self.assertLessEqual(set(told.findings), set(whole), number)
            left[keeping] += sum(not one for one in unaudited.values())
            part[keeping] += sum(unaudited.values())
        self.assertTrue(all(left[keeping] for keeping in self.KEEPING[:2]))
        self.assertTrue(all(part[keeping] for keeping in self.KEEPING[2:]))


class WholesInDays(WindowCase):
    def test_random_histories(self):
        """The reports of the days, behind the last of which a commit settles all."""
        found, days = set(), 0
        for number in range(RANDOM_TRACES // 4):
            random = Random("days of histories %d" % number)
            lines = [*RandomHistory(random).lines(), b'{"kind":"commit","at":1000000}']
            told, own = Told(), []
            shutil.rmtree(self.path("days"), ignore_errors=True)
            for cut in cut_at_commits(random, lines, 5):
                own = own + cut
                self.put("own", b"".join(line + b"\n" for line in own))
                run = self.run_tool("day", "--program", os.environ["NEW_ENEMY"], "--at-least", "0", "--oldest-snapshot", "0", "--keep-days", "0",
                                    "days", "trace", "own")
                if NO_CARRY in run.stderr:
                    continue
                self.assertIn(run.returncode, (0, 1, 6), run.stderr)
                days, own = days + 1, []
                told.take(self.get("days/%s/report.txt" % max(name for name in os.listdir(self.path("days")) if name.startswith("day"))))
            self.assert_told(told, lines, number)
            found.update(line.split(" ")[2] for line in told.findings)
        self.assertEqual(found, {"F1", "F2", "F3", "F4", "F5", "F6", "F10"})
        self.assertGreater(days, RANDOM_TRACES // 4)


class Handed(WindowCase):
    """What a state has of a window."""

    def test_the_lines_of_a_carry_are_those_that_made_it(self):
        """A carry says nothing of places and times, and so the lines are kept as they were; without them it says the same of each."""
        entries = 0
        for number in range(20):
            random = Random("handed %d" % number)
            # A label may have any letter.
            lines = [line.replace(b'"v1"', b'"v\\n\\u00e9 \\"\\u0000"') for line in RandomHistory(random).lines()]
            run = self.audit(self.put("window", b"".join(line + b"\n" for line in lines)), "--out", self.path("state"))
            if run.returncode == 2:
                continue
            kept = dict(line.split(b" ", 1) for line in self.data("state/carried").split(b"\n")[:-1])
            carry = Carry(self.data("state/carry"), "carry")
            for item in carry:
                said, own = json.loads(raw_of(item)), json.loads(lines[item.line - 1])
                if item.kind == "declaration":
                    self.assertEqual(said, own)
                    continue
                self.assertEqual(kept.pop(b"%d" % item.line), lines[item.line - 1])
                if item.kind != "commit" or item.number > carry.base:
                    keys = ("kind", "at", "add", "remove", "goal", "snapshot", "reply", "zookie", "version")
                    self.assertEqual(said, {key: value for key, value in own.items() if key in keys and value not in (None, [])})
                    entries += item.kind != "commit"
            self.assertEqual(kept, {})
            shutil.rmtree(self.path("state"))
        self.assertGreater(entries, 20)

    def test_the_program_goes_on_from_the_carry_of_a_state(self):
        for number, day in enumerate(DAYS[:3]):
            state = ["--state", self.path("state%d" % number)] if number else []
            self.audit(self.put("day", day), *state, "--out", self.path("state%d" % (number + 1)), "--oldest-snapshot", 0)
        run = self.run_program("follow", self.put("last", DAYS[3]), "--from", self.path("state3/carry"))
        self.assertEqual(run.stdout.splitlines()[:2], ["line 15: F6 unknown version", "line 16: F2 old token, see line 8"])


RULES = {"kind": "namespace", "name": "doc", "relations": [{"name": "viewer"}]}


def commit(at, *add, remove=()):
    return {"kind": "commit", "at": at, "add": list(add), "remove": list(remove)}


def check(snapshot, reply=True, **more):
    return {"kind": "check", "goal": "doc:a#viewer@1", "snapshot": snapshot, "reply": reply, **more}


def content(snapshot, version, **more):
    return {"kind": "content", "goal": "doc:a#viewer@1", "snapshot": snapshot, "reply": True, "version": version,
            "zookie": "z1-%016x" % snapshot, **more}


A = "doc:a#viewer@1"
DAYS = [[RULES, commit(1, A), content(1, "one"), check(1)],
        [commit(2, "doc:a#viewer@2"), commit(3, remove=[A]), check(2), content(3, "two", reply=True)],
        [commit(4, A), check(3), check(2), check(4, version="one", zookie="z1-%016x" % 1)],
        [commit(5), check(1), check(5, version="none"), check(5, version="two")]]


class NotAudited(WindowCase):
    """What a state does not keep is said, and is no finding."""

    def told(self, days, *words):
        """The output and the status of each day."""
        outcome = []
        shutil.rmtree(self.path("state"), ignore_errors=True)
        for number, day in enumerate(days):
            run = self.audit(self.put("day", day), *(["--state", self.path("state")] if number else []), "--out", self.path("next"), *words)
            self.assertEqual(run.stderr, "")
            self.moved("next", "state")
            outcome.append((run.returncode, run.stdout.splitlines()))
        return outcome

    def test_all_kept(self):
        self.assertEqual([told for _, told in self.told(DAYS, "--oldest-snapshot", 0)][2:], [
            ["line 10: F10 wrong reply", "entries 3", "findings 1", "verdict dirty"],
            ["line 15: F6 unknown version", "line 16: F2 old token, see line 8", "entries 3", "findings 2", "verdict dirty"]])

    def test_old_snapshots(self):
        """By default a state keeps what the entries of the next day need that read yesterday's state."""
        told = self.told(DAYS)
        self.assertEqual(told[2], (1, ["line 10: F10 wrong reply", "entries 3", "findings 1", "verdict dirty"]))
        self.assertEqual(told[3][1][0], "line 14: not audited, its snapshot is older than 3, where the state begins")
        self.assertEqual(told[3][1][3:], ["entries 3", "checks: 2 whole, 1 not audited", "not audited 1: " + causes.SNAPSHOT_TOO_OLD, "findings 2",
                                          "verdict dirty"])
        # a snapshot at the beginning is audited, and one before is not
        self.assertEqual(self.told(DAYS[:3], "--keep-snapshots", 0)[2][1][:2], [
            "line 10: F10 wrong reply", "line 11: not audited, its snapshot is older than 3, where the state begins"])
        # A window without commits moves nothing.
        none = [check(4), check(5, reply=False)]
        self.assertEqual(self.told([*DAYS, none, none, [commit(6), check(4)]])[6], (0, ["entries 1", "findings 0", "verdict clean"]))

    def test_old_versions(self):
        days = [*DAYS[:3], [commit(5), check(5, version="none"), check(5, version="two")]]
        told = self.told(days, "--oldest-snapshot", 0, "--keep-versions", 1)
        said = "audited in part %d: " + causes.VERSION_LET_GO + "; not looked for: F2, F6"
        self.assertEqual(told[2][1], ["line 10: F10 wrong reply", "line 12: audited in part, its version is not known, and old versions were let go",
                                      "entries 3", "checks: 2 whole, 1 in part", said % 1, "findings 1", "verdict dirty"])
        self.assertEqual(told[3], (6, ["line 14: audited in part, its version is not known, and old versions were let go",
                                       "line 15: audited in part, its version is not known, and old versions were let go",
                                       "entries 2", "checks: 0 whole, 2 in part", said % 2, "findings 0", "verdict incomplete"]))
        # what is wrong with such an entry beside its version is told
        days[3] = [commit(5), check(5, reply=False, version="none")]
        self.assertEqual(self.told(days, "--oldest-snapshot", 0, "--keep-versions", 1)[3][1][:2], [
            "line 14: F10 wrong reply", "line 14: audited in part, its version is not known, and old versions were let go"])

    def test_an_unknown_version_of_a_check_that_waits_is_counted_when_the_check_is_told(self):
        days = [[RULES, commit(1, A), content(1, "one")], [commit(2)], [check(4, version="one")], [commit(4), check(4)]]
        told = self.told(days, "--oldest-snapshot", 0, "--keep-versions", 1)
        self.assertEqual(told[2], (0, ["entries 0", "held over 1", "findings 0", "verdict clean"]))
        self.assertEqual(told[3][1][:4], ["line 5: F4 open snapshot, see line 6", "line 5: audited in part, its version is not known, and old versions were let go",
                                          "entries 2", "checks: 1 whole, 1 in part"])

    def test_the_version_of_a_check_that_waits_is_kept(self):
        """By the days that pass until a commit comes to its snapshot it would be let go."""
        days = [[RULES, commit(1, A), content(1, "one"), commit(2), check(4, version="one", zookie="z1-%016x" % 1)], [commit(3), content(3, "two"), check(3)],
                [commit(4), check(4)], [commit(5), check(5, version="one")]]
        for kept in (1, 2, 3):
            told = self.told(days, "--oldest-snapshot", 0, "--keep-versions", kept)
            self.assertEqual((told[1][1][0], told[2]), ("line 5: F4 open snapshot, see line 6", (0, ["entries 2", "findings 0", "verdict clean"])), kept)
            self.assertEqual(told[3][1][0], "line 12: audited in part, its version is not known, and old versions were let go" if kept < 3
                             else "line 12: F2 old token, see line 3", kept)

    def test_held_over(self):
        """An entry waits until a commit has come to its snapshot, and is let go where none comes for too long."""
        days = [[RULES, commit(1, A), check(1), check(3), check(100)], [check(1)], [commit(2), check(2)], [commit(3, remove=[A]), check(3, reply=False)],
                [commit(5)], [commit(6)]]
        told = self.told(days)
        self.assertEqual([lines for _, lines in told[:2]], 2 * [["entries 1", "held over 2", "findings 0", "verdict clean"]])
        # What a commit makes of an entry is told with that commit.
        self.assertEqual(told[2][1], ["line 4: F4 open snapshot, see line 7", "line 5: F4 open snapshot, see line 7", "entries 1", "held over 2",
                                      "findings 2", "verdict dirty"])
        self.assertEqual(told[3][1], ["line 4: F10 wrong reply", "entries 2", "held over 1", "findings 1", "verdict dirty"])
        self.assertEqual(told[4], (6, ["line 5: not audited, no commit has come to its snapshot 100", "entries 1", "checks: 0 whole, 1 not audited",
                                       "not audited 1: " + causes.NO_COMMIT_CAME, "findings 0", "verdict incomplete"]))
        self.assertEqual(told[5], (0, ["entries 0", "findings 0", "verdict clean"]))
        self.assertIn("\nbase 5\n", self.run_window("show", self.path("state")).stdout)

    def test_a_content_check_that_is_given_up_takes_its_version_with_it(self):
        days = [[RULES, commit(1, A), content(100, "one")], [commit(2)], [commit(3)], [commit(4)], [commit(5), check(5, version="one")]]
        told = self.told(days)
        self.assertEqual([lines[:2] for _, lines in told], [
            ["entries 0", "held over 1"], ["line 3: F4 open snapshot, see line 4", "entries 0"], ["entries 0", "held over 1"],
            ["line 3: not audited, no commit has come to its snapshot 100", "entries 1"],
            ["line 8: audited in part, its version is not known, and old versions were let go", "entries 1"]])

    def test_entries_that_wait_and_go_on_nowhere_are_not_green(self):
        day = self.put("day", [RULES, commit(1, A), check(1), check(3)])
        self.assertEqual(self.audit(day), (6, "entries 1\nheld over 1\nfindings 0\nverdict incomplete\n", ""))
        self.assertEqual(self.audit(day, "--allow-unaudited", 100).returncode, 6)
        self.assertEqual(self.audit(day, "--out", self.path("state")).returncode, 0)

    def test_at_the_end_of_a_log_nothing_waits(self):
        days = [[RULES, commit(1, A), check(1)], [check(limits.NUMBER), check(9, reply=False), check(1)]]
        self.assertEqual(self.audit(self.put("day", days[0] + days[1]), "--final"), (1, "line 5: F10 wrong reply\nentries 4\nfindings 1\nverdict dirty\n", ""))
        self.audit(self.put("day", days[0]), "--out", self.path("state"))
        self.assertEqual(self.audit(self.put("day", days[1]), "--state", self.path("state"), "--final"), (
            1, "line 5: F10 wrong reply\nentries 3\nfindings 1\nverdict dirty\n", ""))


class Refusals(WindowCase):
    """A state that is not the next one is refused by name, and nothing is written."""

    def setUp(self):
        super().setUp()
        for number, day in enumerate(DAYS[:2]):
            state = ["--state", self.path("state%d" % number)] if number else []
            self.assertIn(self.audit(self.put("day%d" % number, day), *state, "--out", self.path("state%d" % (number + 1))).returncode, (0, 1))

    def refused(self, told, *words, status=2):
        before = self.files()
        run = self.audit(*words)
        self.assertEqual((run.returncode, run.stdout), (status, ""), run)
        self.assertRegex(run.stderr, told)
        self.assertEqual(run.stderr.count("\n"), 1)
        self.assertEqual(self.files(), before)

    def test_states_that_are_not_whole(self):
        day = self.put("day", DAYS[2])
        for name in ("carry", "carried", "window.json"):
            data = self.data("state2/" + name)
            for size in [*range(0, len(data), 37), len(data) - 1]:
                shutil.rmtree(self.path("torn"), ignore_errors=True)
                shutil.copytree(self.path("state2"), self.path("torn"))
                for made in (data[:size], data[:size] + bytes([data[size] ^ 1]) + data[size + 1:]):
                    self.put("torn/" + name, made)
                    if name != "window.json" or made[:size].count(b"}") == 0:
                        self.refused("was cut short or altered|is no carry|was altered, or is of|is no state", day, "--state", self.path("torn"))
            os.remove(self.path("torn/" + name))
            self.refused("cannot open|is no state of a window", day, "--state", self.path("torn"), status=2 if name == "window.json" else 5)
        self.refused("day is no state of a window", day, "--state", day)

    def test_a_carry_of_another_window(self):
        shutil.copytree(self.path("state2"), self.path("mixed"))
        shutil.copy(self.path("state1/carry"), self.path("mixed/carry"))
        self.refused("mixed/carry is another than window.json names", self.put("day", DAYS[2]), "--state", self.path("mixed"))

    def test_a_day_twice(self):
        """A commit stands in the log already, or a version was issued; rules stand behind other lines."""
        self.refused("^trace line 9: commit not later than 3$", self.path("day1"), "--state", self.path("state2"))
        self.refused("^trace line 9: ", self.path("day0"), "--state", self.path("state2"))

    def test_a_state_that_is_there_is_not_overwritten(self):
        self.refused("state2 is there already: give the name of a folder", self.put("day", DAYS[0]), "--out", self.path("state2"))
        self.refused("day0 is there already", self.put("day", DAYS[0]), "--out", self.path("day0"))

    def test_lines_that_the_program_refuses(self):
        """They are told by the lines of the whole log, of a window that takes several runs too."""
        for day, told in (([commit(4), commit(4)], "^trace line 10: commit not later than 4$"), ([commit(3)], "^trace line 9: commit not later than 3$"),
                          ([commit(4), content(4, "one")], "^trace line 10: repeated version$"), ([RULES], "^trace line 9: bad namespace, repeated"),
                          ([{**RULES, "name": "other"}], "^trace line 9: namespace after other lines$"), ([{"kind": "x"}], "^trace line 9: unknown kind$"),
                          ([check(3), {**check(3), "goal": "doc:a#none@1"}], "^trace line 10: undeclared relation$")):
            for stretch in (0, following.STRETCH):
                with unittest.mock.patch.object(following, "STRETCH", stretch), unittest.mock.patch.object(following.Blocks, "__iter__", lines_of_blocks):
                    self.refused(told, self.put("day", day), "--state", self.path("state2"), "--out", self.path("state3"))

    def test_a_window_that_has_nothing_to_hand_on(self):
        told = "^window: no carry: no commit stands in front of all entries that wait for one: nothing can be handed on to the next window; give these lines "
        for day in ([RULES], [RULES, check(3), commit(1, A)]):
            self.refused(told, self.put("day", day), "--out", self.path("state3"))

    def test_a_trace_in_pieces(self):
        self.refused("the trace is in pieces, .*; give a shorter stretch of the log$", self.put("day", b'{"kind":"pieces","format":1,"pieces":[]}\n'),
                     "--state", self.path("state2"), "--out", self.path("state3"))

    def test_lines_that_are_no_lines(self):
        for lines, told in ((b"---\n", "line 9: not JSON"), (b'{"kind":"check"}\n\xff\n', "line 9: wrong shape"), (b"\n\xff\n", "line 10: not JSON"),
                            (b" " * (limits.LINE_BYTES + 1) + b"\n{}\n", "line 9: too long"), (b"\n[" + b"[" * 200 + b"\n", "line 10: not JSON"),
                            (b'{"kind":"commit","at":4,"kind":"x"}\n', "line 9: unknown kind"), (b'{"kind":"commit","at":4,"at":3}\n', "line 9: commit not later than 3")):
            self.refused("^trace %s$" % told, self.put("day", lines), "--state", self.path("state2"))

    def test_where_lines_come_from(self):
        day = self.put("day", [check(3, **{"from": "log:7"}), check(9, reply=False, **{"from": "log:8"}), check(3)])
        self.assertEqual(self.audit(day, "--state", self.path("state2"), "--out", self.path("state3"), "--where").stdout.splitlines()[:2], [
            "line 9: F10 wrong reply (log:7)", "line 11: F10 wrong reply"])
        run = self.audit(self.put("next", [commit(8, A), commit(9)]), "--state", self.path("state3"), "--where")
        self.assertEqual(run.stdout.splitlines()[:2], ["line 10: F4 open snapshot, see line 12 (log:8)", "line 10: F10 wrong reply (log:8)"])

    def test_usage(self):
        day = self.path("day0")
        for words in ((day, "--final", "--out", self.path("x")), (), (day, "--keep-versions", "0"), (day, "--oldest-snapshot", "-1"),
                      (day, "--oldest-snapshot", str(1 << 64)), (day, day)):
            run = self.run_window("audit", *words)
            self.assertEqual((run.returncode, run.stdout), (3, ""), words)
        self.refused("none: No such file", self.path("none"), status=5)
        self.refused("cannot open", day, "--state", self.path("none"), status=5)
        run = self.run_window("audit", day, "--program", self.path("none"))
        self.assertEqual((run.returncode, run.stdout), (5, ""))
        self.assertEqual(self.audit(self.put("day", DAYS[2]), "--state", self.path("state2"), "--oldest-snapshot", 2, "--out", self.path("state3")).returncode, 1)
        self.assertIn("base 2\n", self.run_window("show", self.path("state3")).stdout)
        # What a state has let go of it does not get back.
        run = self.audit(self.put("fourth", [check(1, reply=False)]), "--state", self.path("state3"), "--oldest-snapshot", "0", "--out", self.path("state4"))
        self.assertEqual((run.returncode, run.stdout.splitlines()[0]), (6, "line 13: not audited, its snapshot is older than 2, where the state begins"))

    def test_a_program_that_does_not_read_to_the_end(self):
        day = self.put("day", [*DAYS[0], *[check(1)] * 20_000])
        said = "not audited 0\\nopen 0\\nentries 0\\nfindings 0\\nverdict clean\\n"
        for text, status, told in (("printf '%s'" % said, 2, "ended before it had read all lines"),
                                   ("head -n 3 > /dev/null; printf '%s'" % said, 2, "ended before"), ("echo why >&2; exit 4", 4, "why"), ("exec head -c 300000 > /dev/null", 2, "not the whole of a run")):
            program = self.put("program", "#!/bin/sh\n%s\n" % text)
            os.chmod(program, 0o755)
            run = self.run_window("audit", day, "--program", program, "--out", self.path("x"))
            self.assertEqual((run.returncode, run.stdout, os.path.exists(self.path("x"))), (status, "", False), run.stderr)
            self.assertIn(told, run.stderr)

    def test_a_program_that_fails(self):
        for text, status, told in (("kill -9 $$", 2, "window: %s was killed by signal 9\n"), ("echo what; echo verdict clean", 2, "no line of a run"),
                                   ("cat; exit 0", 2, ""), ("echo 'verdict clean'", 2, "not the whole of a run"), ("exit 4", 4, ""),
                                   ("printf 'not audited 0\\nopen 0\\nentries 0\\nfindings 0\\nverdict clean\\n'; exit 6", 2, "not the whole of a run")):
            program = self.put("program", "#!/bin/sh\n%s\n" % text)
            os.chmod(program, 0o755)
            run = self.run_window("audit", self.path("day0"), "--program", program, "--out", self.path("x"))
            self.assertEqual((run.returncode, run.stdout), (status, ""), text)
            self.assertIn(told % program if "%s" in told else told, run.stderr)
            self.assertFalse(os.path.exists(self.path("x")))


KILLED = """
import os, signal, sys
from new_enemy_tools.commands import ne

def killing(call, left, is_behind):
    def called(*words, **more):
        left[0] -= 1
        if left[0] == 0 and not is_behind:
            os.kill(os.getpid(), signal.SIGKILL)
        answer = call(*words, **more)
        if left[0] == 0:
            os.kill(os.getpid(), signal.SIGKILL)
        return answer
    return called

setattr(os, sys.argv[1], killing(getattr(os, sys.argv[1]), [int(sys.argv[2])], sys.argv[3] == "behind"))
sys.exit(ne.main(sys.argv[4:]))
"""


class Kills(WindowCase):
    """A run that is killed leaves what it began with, and done again over the same lines it tells the same, and leaves the same."""

    def begun(self, place, number, when, *words):
        return subprocess.run([sys.executable, "-c", KILLED, place, str(number), when, *words], cwd=self.room, capture_output=True, text=True, timeout=300,
                              env={**os.environ, "PYTHONPATH": TOOLS})

    def killed_by_program(self, when, *words):
        """A run whose program kills it before or behind its own work, or while it works; and which has ended too."""
        real, program = os.path.abspath(os.environ["NEW_ENEMY"]), self.path("program-" + when)
        text = {"before": "kill -9 $PPID", "inside": "'%s' \"$@\" & kill -9 $PPID; wait" % real, "behind": "'%s' \"$@\"; kill -9 $PPID" % real}[when]
        self.put("program-" + when, "#!/bin/sh\n%s\n: > '%s.ended'\n" % (text, program))
        os.chmod(program, 0o755)
        run = self.run_process(*words[:1], "--program", program, *words[1:]) if words[0] == "day" else self.run_process(*words, "--program", program)
        until = time.monotonic() + 300
        while not os.path.exists(program + ".ended") and time.monotonic() < until:
            time.sleep(0.01)
        os.remove(program + ".ended")
        return run

    def test_a_window_that_is_killed(self):
        program = os.path.abspath(os.environ["NEW_ENEMY"])
        self.audit(self.put("first", DAYS[0]), "--out", self.path("one"))
        self.put("second", DAYS[1] + [check(9)])
        words = ("window", "audit", "second", "--state", "one", "--where")
        wanted = self.run_process(*words, "--out", "two", "--program", program)
        before = self.files()
        state = {name: self.data("two/" + name) for name in os.listdir(self.path("two"))}
        points = [(place, number, when) for place, number in (("mkdir", 1), ("replace", 1), ("fsync", 1), ("fsync", 2), ("fsync", 3), ("rename", 1))
                  for when in ("before", "behind")]
        runs = [self.begun(*point, *words, "--out", "new", "--program", program) for point in points[:-1]]
        runs += [self.killed_by_program(when, *words, "--out", "new") for when in ("before", "inside", "behind")]
        self.assertEqual({run.returncode for run in runs}, {-signal.SIGKILL})
        self.assertFalse(os.path.exists(self.path("new")))
        again = self.run_process(*words, "--out", "new", "--program", program)
        self.assertEqual((again.returncode, again.stdout), (wanted.returncode, wanted.stdout))
        self.assertEqual({name: self.data("new/" + name) for name in os.listdir(self.path("new"))}, state)
        # Behind its last step all is there, and was told.
        shutil.rmtree(self.path("new"))
        last = self.begun(*points[-1], *words, "--out", "new", "--program", program)
        self.assertEqual((last.returncode, last.stdout), (-signal.SIGKILL, wanted.stdout))
        self.assertEqual({name: self.data("new/" + name) for name in os.listdir(self.path("new"))}, state)
        shutil.rmtree(self.path("new"))
        self.assertEqual({name: data for name, data in self.files().items() if "program-" not in name}, before)

    def test_a_day_that_is_killed(self):
        for name, day in (("first", DAYS[0]), ("second", DAYS[1] + [check(9)])):
            self.put(name, day)
        program = os.path.abspath(os.environ["NEW_ENEMY"])
        self.run_process("day", "--program", program, "days", "trace", "first")
        shutil.copytree(self.path("days"), self.path("unbroken"))
        wanted = self.run_process("day", "--program", program, "unbroken", "trace", "second")
        kept = {name[len(self.path("unbroken")):]: data for name, data in self.files().items() if name.startswith(self.path("unbroken"))}
        begun = [lambda one=(place, number, when): self.begun(*one, "day", "--program", program, "days", "trace", "second")
                 for place, number in (("makedirs", 2), ("replace", 1), ("fsync", 1), ("fsync", 2), ("fsync", 7), ("rename", 1)) for when in ("before", "behind")]
        begun += [lambda when=when: self.killed_by_program(when, "day", "days", "trace", "second") for when in ("before", "inside", "behind")]
        for one in begun:
            shutil.rmtree(self.path("days"), ignore_errors=True)
            shutil.copytree(self.path("unbroken"), self.path("days"))
            shutil.rmtree(self.path("days/day000002"))
            run = one()
            self.assertEqual((run.returncode, run.stdout), (-signal.SIGKILL, ""))
            again = self.run_process("day", "--program", program, "days", "trace", "second")
            self.assertEqual((again.returncode, again.stdout), (wanted.returncode, wanted.stdout), again.stderr)
            self.assertEqual({name[len(self.path("days")):]: data for name, data in self.files().items() if name.startswith(self.path("days"))}, kept)
