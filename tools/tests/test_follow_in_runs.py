"""A log that is followed in runs, each behind the carry of the one before, tells what the audit of the whole log finds.

Each finding is told once, by the number of its line in the whole log; of an entry that asks below a carry's base, or names a version that was
let go, it is told that it was not audited, and nothing else.
"""
import json
import os
import re
import signal
import subprocess
import unittest
from random import Random
from typing import List, NamedTuple, Optional, Set, Tuple

from hostile.inputs import command_cases, worked_cases
from new_enemy_tools.files import split_joined
from tests.random_windows import RandomHistory
from tests.support import Case

PROGRAM = os.environ["NEW_ENEMY"]
HISTORIES = int(os.environ.get("RANDOM_RUNS", "40"))
SECONDS = 300
SHORT = 10_000
NUMBER = re.compile(rb'"(?:at|snapshot)" *: *([0-9]+)')
UNAUDITED = re.compile(r"line ([0-9]+): not audited, (?:below [0-9]+|(its version was let go))")


class Told(NamedTuple):
    """What a run told: its findings, and the lines of the entries that were not audited, also of those whose version was let go."""
    findings: List[str]
    unaudited: Set[int]
    unnamed: Set[int]
    status: int


class Ended(NamedTuple):
    """What the runs of a log found, by kind, how many entries they did not audit, for how many a version was let go, and how many there were."""
    kinds: Set[str]
    unaudited: int
    unnamed: int
    runs: int


def line_of(finding: str) -> int:
    return int(finding.split(":")[0][5:])


def told_by(out: str, status: int) -> Told:
    lines = out.splitlines()
    unaudited = {int(found[1]) for found in map(UNAUDITED.fullmatch, lines) if found}
    unnamed = {int(found[1]) for found in map(UNAUDITED.fullmatch, lines) if found and found[2]}
    findings = [line for line in lines if line.startswith("line ") and not UNAUDITED.fullmatch(line)]
    assert "not audited %d" % len(unaudited) in lines, out
    assert status == (1 if findings else 6 if unaudited else 0), (status, out)
    assert lines[-1] == "verdict " + {0: "clean", 1: "dirty", 6: "incomplete"}[status], out
    return Told(findings, unaudited, unnamed, status)


class InRuns(Case):
    def follow(self, name: str, data: bytes, begun: Optional[str], carry: Optional[str], oldest: Optional[int] = None,
               versions: Optional[int] = None) -> "subprocess.CompletedProcess[str]":
        path = self.put(name, data)
        words = [PROGRAM, "follow", path]
        words += ["--from", self.path(begun)] if begun else []
        words += ["--carry", self.path(carry)] if carry else []
        words += ["--oldest-snapshot", str(oldest)] if carry and oldest is not None else []
        words += ["--keep-versions", str(versions)] if carry and versions is not None else []
        return subprocess.run(words, stdout=subprocess.PIPE, stderr=subprocess.PIPE, universal_newlines=True, timeout=SECONDS)

    def run_all(self, random: Random, lines: List[bytes], times: List[int]) -> Tuple[List[str], Set[int], Set[int], int]:
        """Follows the lines in runs that are cut at random, and gives all that was told, what was not audited, also for its version, and how many
        runs ended."""
        cuts = sorted(random.sample(range(1, len(lines)), min(random.randint(0, 8), len(lines) - 1))) + [len(lines)]
        begun: Optional[str] = None
        begin, ended = 0, 0
        findings: List[str] = []
        unaudited: Set[int] = set()
        unnamed: Set[int] = set()
        for number, cut in enumerate(cuts):
            carry = "carry%d" % number
            oldest = random.choice([None, 0, max(0, times[cut - 1] - random.randint(0, 12)), times[cut - 1]])
            versions = random.choice([None, None, 0, 1, 3])
            run = self.follow("trace%d" % number, b"".join(lines[begin:cut]), begun, carry, oldest, versions)
            if run.returncode == 2 and run.stderr.startswith("no carry"):
                # the next run repeats these lines, and what this one told is not taken
                self.assertFalse(os.path.exists(self.path(carry)))
                if cut < len(lines):
                    continue
                if not begun:
                    # nothing was handed on: the last run is the only one
                    run = self.follow("trace%d" % number, b"".join(lines), None, None)
                    return [line for line in run.stdout.splitlines() if line.startswith("line ")], set(), set(), 1
                run = self.follow("trace%d" % number, b"".join(lines[begin:cut]), begun, None)
            self.assertIn(run.returncode, (0, 1, 6), run.stderr)
            told = told_by(run.stdout, run.returncode)
            findings += told.findings
            unaudited |= told.unaudited
            unnamed |= told.unnamed
            begun, begin, ended = carry, cut, ended + 1
        self.assertIn("open 0\n", run.stdout)
        return findings, unaudited, unnamed, ended

    def history(self, random: Random) -> Tuple[List[bytes], List[int]]:
        """The lines of a random log whose entries are all settled, and the newest timestamp up to each."""
        values = RandomHistory(random, random.randint(10, 60)).values
        values.append({"kind": "commit", "at": 10 ** 6})
        times, newest = [], 0
        for value in values:
            newest = max(newest, value.get("at", 0))
            times.append(newest)
        return [json.dumps(value, ensure_ascii=False, separators=(",", ":")).encode() + b"\n" for value in values], times

    def audited(self, lines: List[bytes]) -> Optional[List[str]]:
        """What an audit finds on the whole log; None where it is refused."""
        whole = subprocess.run([PROGRAM, "audit", self.put("whole", b"".join(lines)), "--make"], stdout=subprocess.PIPE, stderr=subprocess.PIPE,
                               universal_newlines=True, timeout=SECONDS)
        return [line for line in whole.stdout.splitlines() if line.startswith("line ")] if whole.returncode in (0, 1) else None

    def compare(self, random: Random, lines: List[bytes], times: List[int], wanted: List[str]) -> Ended:
        """Follows a log in runs, and compares what they told with what an audit finds."""
        for name in os.listdir(self.path("")):
            os.remove(self.path(name))
        findings, unaudited, unnamed, runs = self.run_all(random, lines, times)
        self.assertEqual(sorted(findings), sorted(line for line in wanted if line_of(line) not in unaudited))
        return Ended({line.split(": ")[1].split(" ")[0] for line in findings}, len(unaudited), len(unnamed), runs)

    def test_random_logs_in_runs(self) -> None:
        """Whatever the cuts and the bases: old snapshots, versions of earlier runs, rules that change, entries that wait."""
        seen, left, unnamed, runs = set(), 0, 0, 0
        for seed in range(HISTORIES):
            with self.subTest(seed=seed):
                random = Random("runs %d" % seed)
                lines, times = self.history(random)
                wanted = self.audited(lines)
                assert wanted is not None
                ended = self.compare(random, lines, times, wanted)
                seen, left, runs = seen | ended.kinds, left + ended.unaudited, runs + ended.runs
                unnamed += ended.unnamed
        self.assertGreaterEqual(seen, {"F1", "F2", "F3", "F4", "F5", "F6", "F10"})
        self.assertGreater(left, 0)
        self.assertGreater(unnamed, 0)
        self.assertGreater(runs, HISTORIES)

    def test_worked_cases_in_runs(self) -> None:
        """The traces of the worked cases of `audit --make` and of joined input, behind which a commit settles all."""
        traces = [case.files[case.words[1]] for case in command_cases() if case.words[2:] == ["--make"] and case.words[1] in case.files]
        traces += [split_joined(case.data)[0] for case in worked_cases()]
        runs = 0
        for number, data in enumerate(dict.fromkeys(data for data in traces if len(data) < SHORT)):
            lines = [line + b"\n" for line in data.split(b"\n") if line]
            newest = max(map(int, NUMBER.findall(data)), default=0)
            lines.append(b'{"kind":"commit","at":%d}\n' % (newest + 1))
            wanted = self.audited(lines)
            # behind the greatest timestamp there is none that settles
            if wanted is None or newest >= 2 ** 64 - 2:
                continue
            with self.subTest(number=number, data=data[:200]):
                runs += self.compare(Random("rows %d" % number), lines, [newest] * len(lines), wanted).runs
        self.assertGreater(runs, 200)

    def test_a_run_that_is_killed_is_repeated(self) -> None:
        """It leaves the carry that it began with, and none of its own; once more over the same lines it tells the same."""
        random = Random("runs 10")
        lines, _ = self.history(random)
        # some cut has a commit in front of all entries that wait
        cut = next(cut for cut in range(len(lines) // 2, len(lines) - 3)
                   if self.follow("one", b"".join(lines[:cut]), None, "carry1", 0).returncode != 2)
        with open(self.path("carry1"), "rb") as file:
            before = file.read()
        whole = self.follow("two", b"".join(lines[cut:]), "carry1", "carry2", 0)
        run = subprocess.Popen([PROGRAM, "follow", "--from", self.path("carry1"), "--carry", self.path("carry3")],
                               stdin=subprocess.PIPE, stdout=subprocess.PIPE)
        assert run.stdin and run.stdout
        run.stdin.write(b"".join(lines[cut:-1]))
        run.stdin.flush()
        run.stdout.read(1)
        run.send_signal(signal.SIGKILL)
        run.communicate()
        self.assertFalse(os.path.exists(self.path("carry3")))
        with open(self.path("carry1"), "rb") as file:
            self.assertEqual(file.read(), before)
        again = self.follow("two", b"".join(lines[cut:]), "carry1", "carry3", 0)
        self.assertEqual((again.stdout, again.returncode), (whole.stdout, whole.returncode))
        with open(self.path("carry2"), "rb") as file, open(self.path("carry3"), "rb") as other:
            self.assertEqual(file.read(), other.read())


if __name__ == "__main__":
    unittest.main()
