"""A world for the core of a monitor: a log that grows, a program that follows, receivers that fail, a disk, and kills
at any moment.

What the program says of lines is what the definitions say, by the tools' own reading; what a run hands on the program has made. All is drawn
by a seed.
"""
import copy
import json
import os
import subprocess
import tempfile
from collections import Counter

from new_enemy_tools.ids import Ids
from new_enemy_tools.meaning import Settled
from new_enemy_tools.monitoring.alerts import Known
from new_enemy_tools.monitoring.delivery import Send
from new_enemy_tools.monitoring.holding import Holding
from new_enemy_tools.monitoring.pure_monitor import BeginAnew, Core, EndRun, Feed, Keep, Settings
from new_enemy_tools.monitoring.run import Begun, Run
from new_enemy_tools.monitoring.stream import Chunk
from new_enemy_tools.token_order import order_findings
from new_enemy_tools.trace import read_lines
from new_enemy_tools.windowing import beginning
from new_enemy_tools.windowing.audited_window import state_behind, window_of
from new_enemy_tools.windowing.own_lines import Own
from new_enemy_tools.windowing.state import NOTHING

EARLY = ("F1", "F2", "F3", "F5", "F6")


class Killed(Exception):
    """The monitor is gone at this moment."""


class Follow:
    """What `new_enemy follow --heartbeat` says of lines behind a carry, as docs/FORMATS.md has it."""

    def __init__(self, state):
        self.lines, self.last = [(row.line, row.raw) for row in state.rows], state.lines
        # What the runs before told of the lines of the carry.
        self.told, self.settled, self.before = set(), 0, 0
        self.take(b"")
        self.before = len(self.told)

    def trace(self):
        return read_lines((line, raw) for line, raw in self.lines if raw.strip())

    def take(self, data):
        for self.last, raw in enumerate(data.split(b"\n")[:-1], self.last + 1):
            self.lines.append((self.last, raw))
        trace, found = self.trace(), []
        last = trace.commits.ats[-1] if trace.commits else -1
        is_settled = [entry.snapshot <= last for entry in trace.entries.values()]
        for entry in trace.entries.values():
            listed = list(order_findings(trace, entry))
            if Settled(trace.rules, trace.store, entry.goal, entry.snapshot).holds() != entry.reply:
                listed.append(("F10 wrong reply", None))
            for finding, related in listed:
                if entry.snapshot <= last or finding.split()[0] in EARLY or finding.startswith("F4"):
                    found.append("line %d: %s%s" % (entry.line, finding, ", see line %d" % related if related else ""))
        new = [line for line in found if line not in self.told]
        self.told.update(new)
        if sum(is_settled) > self.settled:
            self.settled = sum(is_settled)
            unsettled = [line for line, one in zip(trace.entries, is_settled) if not one]
            through = unsettled[0] - 1 if unsettled else self.last
            new.append("through line %d: %d entries, %d findings, %d open" % (
                through, len([line for line in trace.entries if line <= through]), len(self.told) - self.before, len(unsettled)))
        return new

    def end(self, state):
        trace, count = self.trace(), len(self.told) - self.before
        last = trace.commits.ats[-1] if trace.commits else -1
        return ["not audited 0", "open %d" % sum(entry.snapshot > last for entry in trace.entries.values()),
                "entries %d" % sum(line > state.lines for line in trace.entries), "findings %d" % count, "verdict %s" % ("dirty" if count else "clean")]


def handed_on(run, data):
    """What a run comes to, by the carry that the program makes of its lines."""
    with tempfile.TemporaryDirectory() as folder:
        paths = [os.path.join(folder, name) for name in ("trace", "begun", "carry")]
        for path, given in zip(paths, (data, b"" if run.state.carry is None else run.state.carry.data)):
            with open(path, "wb") as file:
                file.write(given)
        begun = [] if run.state.carry is None else ["--from", paths[1]]
        ended = subprocess.run([os.environ["NEW_ENEMY"], "follow", paths[0], *begun, "--carry", paths[2], "--oldest-snapshot", str(run.oldest)],
                               stdout=subprocess.DEVNULL, timeout=300)
        assert ended.returncode in (0, 1)
        with open(paths[2], "rb") as file:
            new, given_up = state_behind(Own(paths[0]), run.state, file.read(), run.keep)
        return window_of(Own(paths[0]), run.state, new, run.told_all(ended.returncode), given_up, True, run.stream.coverage())


class Disk:
    """What is there when a monitor begins: rows, and of each run that was kept what the next one goes on from."""

    def __init__(self):
        self.rows, self.marks = [], {}
        self.runs = [(Begun(None, NOTHING, Ids()), {}, 0)]
        self.counts, self.entries = Counter(), 0


class Receiver:
    """One that `is_asked` knows what it has, as a file does."""

    def __init__(self, random, share, is_asked):
        self.random, self.share, self.is_asked, self.got = random, share, is_asked, []

    def take(self, send):
        """What it answers; it may have the alert although it says that it has not."""
        is_down, row = self.random.random() < self.share, json.loads(send.text)
        if self.is_asked and row in self.got[-1:]:
            return None
        if not is_down or self.random.random() < 0.5:
            self.got.append(row)
        return "it is down" if is_down else None


class Life:
    """One life of a monitor, over the lines of a log, until it has read all or is killed."""

    def __init__(self, lines, disk, receivers, random, kills, has_between, settings, nights=0.0):
        self.lines, self.disk, self.receivers, self.random, self.kills = lines, disk, receivers, random, kills
        self.has_between, self.now, self.nights = has_between, 0.0, nights
        self.core = Core(settings, disk.rows, disk.marks)
        self.begin(None)

    def begin(self, holding, stop=None):
        begun, stories, at = self.disk.runs[-1]
        self.own, self.follow = [], None
        self.run = Run(Begun(begun.left, begun.state, copy.deepcopy(begun.ids)), self.has_between,
                       lambda line: self.own[line - 1 - begun.state.lines], beginning.Keep(0))
        if holding is None:
            holding, self.at = Holding(self.core.settings.hold, len(self.disk.runs) > 1, stop), at
        self.core.begin(self.run, len(self.disk.runs), stories, holding, self.now)

    def step(self):
        """At any moment it may be killed."""
        if self.random.random() < self.kills:
            raise Killed

    def do(self, outs):
        for out in outs:
            self.step()
            if isinstance(out, Feed):
                if self.follow is None:
                    self.follow = Follow(self.run.state)
                self.own += out.data.split(b"\n")[:-1]
                self.hear(self.follow.take(out.data))
            elif isinstance(out, Keep):
                self.disk.rows.append(json.loads(json.dumps(out.row)))
            elif isinstance(out, Send):
                answer = self.receivers[out.receiver].take(out)
                self.step()
                if answer is None:
                    self.disk.marks[out.receiver] = out.number
                self.step()
                self.core.answered(out.receiver, out.number, answer, self.now)
            elif isinstance(out, EndRun):
                self.end()
            elif isinstance(out, BeginAnew):
                self.begin(None, out.stop)

    def hear(self, lines):
        for line in lines:
            self.step()
            self.core.said(line, self.now)
        self.do(self.core.tell(self.now))

    def end(self):
        self.run.close()
        for line in self.follow.end(self.run.begun.state):
            self.core.said(line, self.now)
        self.do(self.core.tell(self.now, True))
        found = handed_on(self.run, b"".join(line + b"\n" for line in self.own))
        self.run.end(found)
        counts = self.core.counts - self.core.ended
        stories, at = self.core.leave(), self.at - len(self.core.holding.lines)
        begun = Begun(self.run.stream.leave(), found.new, self.run.begun.ids)
        self.step()
        self.disk.runs.append((begun, as_read(stories), at))
        self.disk.counts.update(counts)
        self.disk.entries += self.run.entries
        self.step()
        self.disk.rows[:] = list(self.core.kept_rows())
        self.step()
        self.core.holding.stop = None
        self.begin(self.core.holding)

    def live(self):
        while self.at < len(self.lines) or self.core.holding.lines or not self.core.delivery.is_idle:
            some = self.lines[self.at:self.at + self.random.randint(1, 6)]
            if some:
                self.core.read(Chunk("log", self.at + 1, b"".join(some)), self.now)
                self.at += len(some)
            self.now += 0.01 if self.at < len(self.lines) else 100.0
            self.do(self.core.move(self.now))
            self.do(self.core.tell(self.now))
            self.do(self.core.due(self.now))
            if self.random.random() < self.nights:
                # No line comes for a day.
                self.do(self.core.pass_time(self.core.holding.midnight.at + 10 ** 9 if self.core.holding.midnight else 0))
        if self.run.bytes:
            self.end()
        while not self.core.delivery.is_idle:
            self.now += 100.0
            self.do(self.core.due(self.now))


def as_read(stories):
    """As the disk has them."""
    return {key: Known(*one) for key, one in json.loads(json.dumps({key: list(one) for key, one in stories.items()})).items()}


def told_by(lines, random, kills, has_between, nights=0.0, lives=200):
    """The alerts that each receiver got, and what was counted, of a monitor that is begun again when it
    is killed; and how often it was. So often a day ends by the clock."""
    disk, settings = Disk(), Settings(("one", "two", "file"), again=float("inf"), hold=0.0,
                                      effects=frozenset(("wrong", "changed", "undecided", "possible", "none")))
    receivers = {"one": Receiver(random, 0.3 if kills else 0.0, False), "two": Receiver(random, 0.0, False),
                 "file": Receiver(random, 0.3 if kills else 0.0, True)}
    for life in range(lives + 1):
        try:
            Life(lines, disk, receivers, random, kills if life < lives else 0.0, has_between, settings, nights).live()
            return {name: one.got for name, one in receivers.items()}, disk, life
        except Killed:
            pass
    raise AssertionError("it lives for ever")
