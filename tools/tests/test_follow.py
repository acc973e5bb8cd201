"""The command `follow` tells at each line of a trace what has to be told there, however the bytes come, and in the end the audit's report.

What has to be told when is worked out here from the report of `audit --make` and the lines of the trace alone.
"""
import json
import os
import re
import select
import signal
import subprocess
import time
import unittest
from concurrent.futures import ThreadPoolExecutor
from itertools import count
from random import Random
from typing import NamedTuple, Optional

from hostile.inputs import command_cases, worked_cases
from new_enemy_tools.files import split_joined
from new_enemy_tools.findings import Finding, read_report
from tests.random_traces import RandomInput
from tests.support import Case
from tests.test_effects import ChangingInput

RANDOM_TRACES = int(os.environ.get("RANDOM_FOLLOWED", "40"))
SECONDS = 300
MOST, SHORT = 2_000_000, 10_000
AT_ONCE = ("F1", "F2", "F3", "F5", "F6")
BLANK = b" \t\r"
BEAT = re.compile(rb"through line ([0-9]+): ([0-9]+) entries, ([0-9]+) findings, ([0-9]+) open\n")


class Beat(NamedTuple):
    """A heartbeat: all entries up to the line are settled, and there are so many; what was told so far; and how many wait."""
    line: int
    entries: int
    findings: int
    open: int


class Trace(NamedTuple):
    """A trace, or the lines before the one that is refused, with the answer of `audit --make` on all of it."""
    pieces: list[bytes]
    status: int
    said: bytes
    # the text that is told when each line is taken, of which line 0 has none, and the text at the end
    told: list[bytes]
    ending: bytes
    # what a heartbeat behind each line says, and how many entries are settled there
    beats: list[Beat]
    settled: list[int]
    findings: list[Finding]

    @property
    def text(self) -> bytes:
        return b"".join(self.told) + self.ending


def pieces_of(data: bytes) -> list[bytes]:
    """The lines with their newlines, which the last may lack."""
    return re.findall(rb"[^\n]*\n|[^\n]+", data)


def finding_text(found: Finding) -> bytes:
    return b"line %d: %s %s%s\n" % (found.line, found.finding.encode(), found.text.encode(),
                                    b"" if found.related is None else b", see line %d" % found.related)


def by_line_and_kind(found: Finding) -> tuple[int, int]:
    return found.line, int(found.finding[1:])


def times_of(pieces: list[bytes]) -> tuple[dict[int, int], dict[int, int]]:
    """The snapshot of each entry and the time of each commit, by their lines."""
    snapshots, times = {}, {}
    for line, piece in enumerate(pieces, 1):
        value = json.loads(piece) if piece.strip(BLANK + b"\n") else {}
        if value.get("kind") in ("check", "content"):
            snapshots[line] = value["snapshot"]
        elif value.get("at") is not None:
            times[line] = value["at"]
    return snapshots, times


def settling_line(line: int, snapshot: int, times: dict[int, int]) -> Optional[int]:
    """The line that settles an entry: its own, or that of a later commit."""
    reaching = [at for at, time_of in times.items() if time_of >= snapshot]
    return max(line, reaching[0]) if reaching else None


class Following(Case):
    def setUp(self) -> None:
        super().setUp()
        self.program = os.environ["NEW_ENEMY"]
        self.numbers = count()
        asked = subprocess.run([self.program, "follow", "--help"], capture_output=True, timeout=SECONDS)
        if asked.returncode == 3 and b"unrecognized subcommand 'follow'" in asked.stderr:
            self.skipTest("the program has no command follow")

    def audit(self, data: bytes) -> "subprocess.CompletedProcess[bytes]":
        return subprocess.run([self.program, "audit", "/dev/stdin", "--make"], input=data, capture_output=True, timeout=SECONDS)

    def trace(self, data: bytes) -> Trace:
        """What has to be told of a trace; of one that is refused, before that line."""
        answer, pieces = self.audit(data), pieces_of(data)
        refused = re.fullmatch(rb"trace line ([0-9]+): .*\n", answer.stderr)
        if refused:
            pieces = pieces[:int(refused[1]) - 1]
        report = (self.audit(b"".join(pieces)) if refused else answer).stdout
        findings = read_report(report.decode()).findings
        snapshots, times = times_of(pieces)
        settling = {line: settling_line(line, snapshot, times) for line, snapshot in snapshots.items()}
        told: list[list[Finding]] = [[] for _ in range(len(pieces) + 1)]
        left = []
        for found in sorted(findings, key=by_line_and_kind):
            moment = found.line if found.finding in AT_ONCE else found.related if found.finding == "F4" else settling[found.line]
            (left if moment is None else told[moment]).append(found)
        beats, settled = [], []
        for last in range(len(pieces) + 1):
            waiting = [line for line, by in settling.items() if line <= last and (by is None or by > last)]
            through = waiting[0] - 1 if waiting else last
            beats.append(Beat(through, sum(line <= through for line in snapshots), sum(map(len, told[:last + 1])), len(waiting)))
            settled.append(sum(line <= last for line in snapshots) - len(waiting))
        ending = b"" if refused else b"".join(map(finding_text, left)) + b"".join(report.splitlines(True)[-3:])
        return Trace(pieces, answer.returncode, answer.stderr, [b"".join(map(finding_text, some)) for some in told], ending,
                     beats, settled, findings)

    def random_traces(self) -> list[bytes]:
        given = []
        for number in range(RANDOM_TRACES):
            random = Random("follow %d" % number)
            source = (RandomInput, ChangingInput)[number % 2](random, 40)
            lines = source.lines()
            if number % 8 == 7:
                source.spoil(lines)
            given.append(b"\n".join(lines) + (b"\n" if number % 4 else b""))
        return given

    def rows_of_traces(self) -> list[bytes]:
        """The traces of the worked cases of `audit TRACE --make`, and of `make`, each once."""
        given = []
        for case in command_cases():
            if len(case.words) > 1 and (case.words[0] == "audit" and case.words[2:] == ["--make"] or case.words[0] == "make"):
                data = case.files.get(case.words[1])
                if data is not None and len(data) < MOST:
                    given.append(data)
        return list(dict.fromkeys(given))

    def started(self, *words: str) -> "subprocess.Popen[bytes]":
        run = subprocess.Popen([self.program, "follow", *words], stdin=subprocess.PIPE, stdout=subprocess.PIPE, stderr=subprocess.PIPE)
        self.addCleanup(self.ended, run)
        return run

    @staticmethod
    def ended(run: "subprocess.Popen[bytes]") -> None:
        """Ends a run if it still goes on, and closes what it was given."""
        if run.poll() is None:
            run.kill()
        for file in (run.stdin, run.stdout, run.stderr):
            if file is not None and not file.closed:
                try:
                    file.close()
                except BrokenPipeError:
                    pass
        run.wait()

    def came(self, run: "subprocess.Popen[bytes]", wanted: bytes, line: int) -> None:
        """Waits for what has to be told after a line, while the program is given no more."""
        assert run.stdout is not None
        said, until = b"", time.monotonic() + SECONDS
        while len(said) < len(wanted):
            ready, _, _ = select.select([run.stdout], [], [], max(0, until - time.monotonic()))
            more = os.read(run.stdout.fileno(), len(wanted) - len(said)) if ready else b""
            said += more
            if not more:
                break
        self.assertEqual(said, wanted, "after line %d" % line)

    def write(self, run: "subprocess.Popen[bytes]", data: bytes) -> None:
        """Gives a run some bytes; one that has ended over a refused line takes no more."""
        assert run.stdin is not None
        try:
            run.stdin.write(data)
            run.stdin.flush()
        except BrokenPipeError:
            pass

    def rest(self, run: "subprocess.Popen[bytes]") -> tuple[int, bytes, bytes]:
        """The status at the end of the input, and what came after what was read."""
        try:
            out, err = run.communicate(timeout=SECONDS)
        except BrokenPipeError:
            assert run.stdout is not None and run.stderr is not None
            out, err = run.stdout.read(), run.stderr.read()
        return run.wait(SECONDS), out, err

    def wanted_by_lines(self, trace: Trace) -> list[bytes]:
        """What has to come with heartbeats behind each line, where lines are read one by one."""
        wanted, beaten = [], 0
        for line, told in enumerate(trace.told):
            if trace.settled[line] > beaten:
                beaten = trace.settled[line]
                told += b"through line %d: %d entries, %d findings, %d open\n" % trace.beats[line]
            wanted.append(told)
        return wanted

    def assert_heartbeats(self, trace: Trace, said: bytes) -> int:
        """Each heartbeat is that of some line up to which all was told before it; gives how many there are."""
        last, beats, at, told = 0, 0, 0, b""
        lines = said.splitlines(True)
        for place, text in enumerate(lines):
            found = BEAT.fullmatch(text)
            if not found:
                told += text
                continue
            beat = Beat(*map(int, found.groups()))
            fitting = [line for line in range(at + 1, len(trace.beats)) if trace.beats[line] == beat and trace.settled[line] > trace.settled[at]
                       and told == b"".join(trace.told[:line + 1])]
            self.assertTrue(fitting, (beat, lines[:place]))
            self.assertGreaterEqual(beat.line, last)
            for later in lines[place + 1:]:
                named = re.match(rb"line ([0-9]+): ", later)
                self.assertFalse(named and int(named[1]) <= beat.line, (beat, later))
            at, last, beats = fitting[0], beat.line, beats + 1
        return beats

    def assert_at_once(self, data: bytes, trace: Trace) -> int:
        """From a file, with and without heartbeats."""
        path = self.put("followed_%d" % next(self.numbers), data)
        plain = subprocess.run([self.program, "follow", path], capture_output=True, timeout=SECONDS)
        beaten = subprocess.run([self.program, "follow", path, "--heartbeat"], capture_output=True, timeout=SECONDS)
        for run in (plain, beaten):
            self.assertEqual((run.returncode, run.stderr), (trace.status, trace.said))
        self.assertEqual(BEAT.sub(b"", beaten.stdout), plain.stdout)
        self.assert_told(trace, plain.stdout)
        return self.assert_heartbeats(trace, beaten.stdout)

    def assert_told(self, trace: Trace, said: bytes) -> None:
        """All that has to be told; before a refused line perhaps less, where that came by the same read."""
        if trace.ending:
            self.assertEqual(said, trace.text)
            lines = said.decode().splitlines(True)
            found = read_report("".join(lines)).findings
            self.assertEqual(sorted(found, key=by_line_and_kind), trace.findings)
        else:
            self.assertTrue(trace.text.startswith(said), (said, trace.text))

    def assert_by_lines(self, trace: Trace, data: bytes, *words: str) -> None:
        """What is told behind each line is there before the next line is given."""
        run = self.started(*words)
        wanted = self.wanted_by_lines(trace) if words else trace.told
        for line, piece in enumerate(trace.pieces, 1):
            self.write(run, piece)
            if piece.endswith(b"\n"):
                self.came(run, wanted[line], line)
        # behind an unterminated last line comes no heartbeat, but the last lines of the report
        left = b"" if not trace.pieces or trace.pieces[-1].endswith(b"\n") else BEAT.sub(b"", wanted[-1])
        self.write(run, b"".join(pieces_of(data)[len(trace.pieces):]))
        self.assertEqual(self.rest(run), (trace.status, left + trace.ending, trace.said))

    def assert_in_chunks(self, trace: Trace, data: bytes, random: Random) -> int:
        run, at = self.started("--heartbeat"), 0
        while at < len(data):
            size = random.choice((1, 7, 60, 400, 3000))
            self.write(run, data[at:at + size])
            at += size
            if random.random() < 0.1:
                time.sleep(0.001)
        status, said, err = self.rest(run)
        self.assertEqual((status, err), (trace.status, trace.said))
        self.assert_told(trace, BEAT.sub(b"", said))
        return self.assert_heartbeats(trace, said)

    def test_random_traces(self) -> None:
        seen, beats, refused, left = set(), 0, 0, 0
        for number, data in enumerate(self.random_traces()):
            with self.subTest(number=number):
                trace = self.trace(data)
                seen.update(found.finding for found in trace.findings)
                refused += not trace.ending
                left += trace.ending.startswith(b"line ")
                # out of the maker's reach what it has found before may help
                self.assertNotIn("F7", {found.finding for found in trace.findings})
                beats += self.assert_at_once(data, trace)
                beats += self.assert_in_chunks(trace, data, Random("chunks %d" % number))
                self.assert_by_lines(trace, data)
                self.assert_by_lines(trace, data, "--heartbeat")
        self.assertLessEqual({"F1", "F2", "F3", "F4", "F5", "F6", "F10"}, seen)
        self.assertGreater(min(beats, refused, left), 0)

    def test_worked_cases(self) -> None:
        for number, data in enumerate(self.rows_of_traces()):
            with self.subTest(number=number):
                trace = self.trace(data)
                self.assert_at_once(data, trace)
                if len(data) < SHORT:
                    self.assert_in_chunks(trace, data, Random("rows %d" % number))
                    self.assert_by_lines(trace, data, "--heartbeat")

    def test_joined_cases(self) -> None:
        """The traces of joined input, which have hardly a finding that waits, and nearly all faults of lines."""
        traces = dict.fromkeys(split_joined(case.data)[0] for case in worked_cases() if len(case.data) < SHORT)
        with ThreadPoolExecutor(4) as pool:
            statuses = list(pool.map(self.answered, traces))
        for status in (0, 1, 2):
            self.assertGreater(statuses.count(status), 50)

    def answered(self, data: bytes) -> int:
        trace = self.trace(data)
        self.assert_at_once(data, trace)
        return trace.status

    def test_killed(self) -> None:
        """What was told before is a part of the report."""
        for number, data in enumerate(self.random_traces()):
            trace, random = self.trace(data), Random("killed %d" % number)
            taken = random.randint(0, len(trace.pieces))
            run = self.started()
            self.write(run, b"".join(trace.pieces[:taken]))
            whole = taken - (taken > 0 and not trace.pieces[taken - 1].endswith(b"\n"))
            told = b"".join(trace.told[:whole + 1])
            self.came(run, told, taken)
            run.send_signal(signal.SIGKILL)
            self.assertEqual(self.rest(run), (-signal.SIGKILL, b"", b""))
            self.assertLessEqual(set(told.splitlines(True)), set(map(finding_text, trace.findings)))

    def test_a_line_that_is_cut(self) -> None:
        """Of a line of which a part has come nothing is told, and all that stands before it is."""
        data = (b'{"kind":"namespace","name":"doc","relations":[{"name":"viewer"}]}\n{"kind":"commit","at":5}\n'
                b'{"kind":"check","goal":"doc:a#viewer@1","snapshot":5,"reply":true}\n'
                b'{"kind":"check","goal":"doc:a#viewer@1","snapshot":5,"reply":true,"zookie":"z1-0000000000000006"}\n')
        run = self.started("--heartbeat")
        self.write(run, data[:-40])
        self.came(run, b"line 3: F10 wrong reply\nthrough line 3: 1 entries, 1 findings, 0 open\n", 3)
        self.write(run, data[-40:-1])
        assert run.stdout is not None
        self.assertEqual(select.select([run.stdout], [], [], 0.2)[0], [])
        self.write(run, data[-1:])
        self.came(run, b"line 4: F1 stale\nline 4: F10 wrong reply\nthrough line 4: 2 entries, 3 findings, 0 open\n", 4)
        self.assertEqual(self.rest(run), (1, b"entries 2\nfindings 3\nverdict dirty\n", b""))


if __name__ == "__main__":
    unittest.main()
