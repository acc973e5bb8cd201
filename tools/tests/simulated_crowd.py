"""The simulation of OpenFGA with several recorders, of which each has a part of the requests, and whose logs are joined."""
from bisect import bisect_right
from random import Random

from new_enemy_tools.recording import days_joined
from new_enemy_tools.recording.days_joined import LATE, Before, join_day
from new_enemy_tools.recording.joining import UNKNOWN, Join
from new_enemy_tools.recording.live_joined import LiveJoin
from new_enemy_tools.recording.messages import Bye
from new_enemy_tools.recording.sketches import Row
from tests.simulation import GOALS, Asked, Shape, Verdict, World, given_of


class Beside(World):
    """One more recorder in a world, with clients of its own; it begins and ends when it is told."""

    def __init__(self, seed, main):
        self.main = main
        super().__init__(seed, main.shape)
        self.service, self.events, self.order, self.random, self.numbers = main.service, main.events, main.order, main.random, main.numbers
        self.whole = main.whole

    @property
    def now(self):
        return self.main.now

    @now.setter
    def now(self, at):
        self.main.now = at

    @property
    def under_way(self):
        return self.main.under_way

    @under_way.setter
    def under_way(self, count):
        self.main.under_way = count

    @property
    def quiet_since(self):
        return self.main.quiet_since

    @quiet_since.setter
    def quiet_since(self, at):
        self.main.quiet_since = at

    def _begin_store(self):
        """What is stored was there before."""

    def _show(self, saved):
        self.main._show(saved)


class Crowd(World):
    """Recorders of which each has a part of the requests. Some begin later, and some end before the others; versions that are saved through
    one are shown through another."""

    kills = True

    def __init__(self, seed, count):
        super().__init__(seed, Shape(Random("shape %d" % seed)))
        self.recorders = [self]
        for beside in [Beside("%d beside %d" % (number, seed), self) for number in range(1, count)]:
            self.later(0, self.random.choice((0, self.shape.length)), self._join, beside)
        self.all = [self]
        # the recorders that ended, and those that were killed, whose clients go on through the others
        self.over, self.killed = set(), []
        if self.random.random() < 0.3:
            self.later(10, self.shape.length, self._kill)

    def _join(self, beside):
        self.all.append(beside)
        self.recorders.append(beside)
        beside._begin_feed()
        beside.own(5, 5, beside._beat)
        if self.random.random() < 0.3:
            self.later(10, self.shape.length, self._leave, self.random.choice(self.recorders))

    def _kill(self):
        # A log that ends before any change came may be refused, where the others have those before it in another order.
        if len(self.recorders) > 1 and self.kills and self.recorders[-1].core.place.revision:
            recorder = self.recorders.pop()
            recorder.is_over = recorder.is_killed = True
            recorder.overlap = None
            self.over.add(recorder)
            self.killed.append(recorder)

    def _leave(self, recorder):
        """It gets no more requests, and ends when those under way are done."""
        if recorder in self.recorders and len(self.recorders) > 1:
            self.recorders.remove(recorder)
            self.own(60, 90, self._end, recorder)

    def _end(self, recorder):
        recorder.core.take(Bye(1), self._at())
        recorder._drain()
        recorder.core.end_asked(self._at())
        recorder.core.end(self._at())
        recorder._drain()
        recorder.overlap = None
        # It takes no more.
        recorder.is_over = True
        self.over.add(recorder)

    def _request(self):
        recorder = self.random.choice(self.recorders)
        (recorder._write if self.random.random() < self.shape.writes else recorder._check)()

    def _show(self, saved):
        goal = self.random.choice([one for one in GOALS if one[1] == saved.goal[1]])
        recorder = self.random.choice(self.recorders)
        recorder._ask(Asked(next(self.numbers), goal, self.now, self.random.random() < 0.8, False, recorder, saved))

    def run(self):
        super().run()
        for recorder in self.all[1:]:
            if recorder not in self.over:
                self._end(recorder)
        return self

    def everything(self):
        """All checks, and the lines of the joined log."""
        given = [given_of("log%d" % number, recorder.lines)._replace(is_closed=recorder not in self.killed)
                 for number, recorder in enumerate(self.all) if recorder.core.is_ready]
        self.random.shuffle(given)
        checks = [one for recorder in self.all for one in recorder.checks]
        return checks, list(Join(given, 0).lines())


class Daily(Crowd):
    """The same, whose logs are joined day by day: at some times, and of each log the base state and some of the lines from before. One that has
    ended is named as ended at once, or later."""

    kills = False

    def everything(self):
        random, closed, over, before, self.days = self.random, {}, set(), Before(), []
        for at in [*sorted(random.randint(0, self.now) for _ in range(random.randint(1, 4))), self.now]:
            given = []
            for number, recorder in enumerate(self.all):
                count, name = bisect_right(recorder.drained_at, at), "log%d" % number
                closed[name] = random.randint(closed.get(name, 0), count) if at < self.now else len(recorder.lines)
                base = next((place for place, lines in enumerate(recorder.lines[:count], 1) if b'"event":"place"' in lines), None)
                if base is not None:
                    given.append(given_of(name, recorder.lines[:max(base, closed[name])]))
                if at == self.now or recorder in self.over and closed[name] == len(recorder.lines) and random.random() < 0.5:
                    over.add(name)
            random.shuffle(given)
            if given:
                join = join_day(given, over, 0, before)
                self.days.append((list(join.lines()), join.waiting()))
                before = join.after()
        return [one for recorder in self.all for one in recorder.checks], [row for lines, _ in self.days for row in lines]


class Live(Crowd):
    """The same, whose logs are joined while they grow: at many times, some lines of each, and at some it is begun again."""

    kills = False

    def everything(self):
        random, closed, over, self.days, self.begun = self.random, {}, set(), [], 1
        names = ["log%d" % number for number in range(len(self.all))]
        rows = {name: [*given_of(name, one.lines).rows(), Row(name, 0, {"event": "closed"})] for name, one in zip(names, self.all)}
        join = LiveJoin(names, 0, 1e9)
        for at in [*sorted(random.randint(0, self.now) for _ in range(random.randint(2, 12))), self.now]:
            if random.random() < 0.2:
                join, self.begun = LiveJoin(names, 0, 1e9, join.before, sorted(join.told)), self.begun + 1
            for name, recorder in zip(names, self.all):
                count = bisect_right(recorder.drained_at, at)
                some = random.randint(closed.get(name, 0), count) if at < self.now else len(recorder.lines)
                base = next((place for place, lines in enumerate(recorder.lines[:count], 1) if b'"event":"place"' in lines), 0)
                closed[name] = max(some, base)
                have = 1 + sum(lines.count(b"\n") for lines in recorder.lines[:closed[name]]) + (at == self.now)
                for row in rows[name][join.logs[name].count:have]:
                    join.take(name, row, 1, 0.0)
                if at == self.now or recorder in self.over and closed[name] == len(recorder.lines) and random.random() < 0.5:
                    over.add(name)
            lines = join.round(over, 0.0)
            self.days.append((lines, days_joined.Waiting(join.waiting, [])))
        return [one for recorder in self.all for one in recorder.checks], [row for lines, _ in self.days for row in lines]


class OfCrowd(Verdict):
    """Of what was asked through a recorder that was killed its open end tells."""

    def _of_counts(self, answered):
        killed = sum(one.world.is_killed for one in answered)
        if not 0 <= len(answered) - len(self.entries) - self.lost <= killed:
            yield "%d checks were answered, and %d stand in the log and %d are counted" % (len(answered), len(self.entries), self.lost)
        told = [row["reason"] for row in self.rows if "is not closed" in row.get("reason", "")]
        if len(told) != sum(one.core.is_ready for one in self.world.killed):
            yield "a log that is not closed is not told"


class OfDays(Verdict):
    """Also that no day has a check that names a state behind it, and that nothing is left when all logs have ended."""

    def faults(self):
        return super().faults() + list(self._of_days())

    def _of_days(self):
        last = 0
        for rows, _ in self.world.days:
            last = max([last, *(row["revision"] for row in rows if row.get("revision") is not None)])
            for row in rows:
                if row["event"] in ("check", "content") and last < max(row.get("newest_between") or row.get("snapshot_between") or [row["snapshot"]]):
                    yield "a check names a state behind its day"
        unknown = {tuple(row["version"]) for row in self.rows if row.get("reason") == UNKNOWN}
        if any(row["event"] == "content" and (*row["goal"][:2], row.get("version")) in unknown for row in self.rows):
            yield "a version is left out that was saved in time"
        if any(row.get("reason") == LATE for row in self.rows):
            yield "content is left out that was there in time"
        if self.world.days[-1][1].checks:
            yield "checks are left when all have ended"


def _run(world, said_of, values):
    for name, value in {"shows": True, **values}.items():
        setattr(world.shape, name, value)
    return world, said_of(world.run())


def run_crowd(seed, count=None, **values):
    """The faults of one run with several recorders, whose logs are joined."""
    return _run(Crowd(seed, count or Random(seed).choice((2, 2, 3))), OfCrowd, values)


def run_days(seed, **values):
    """The faults of one run with several recorders, whose logs are joined day by day."""
    return _run(Daily(seed, Random(seed).choice((1, 2, 2, 3))), OfDays, values)


def run_live(seed, **values):
    """The faults of one run with several recorders, whose logs are joined while they grow."""
    return _run(Live(seed, Random(seed).choice((1, 2, 2, 3))), OfDays, values)
