"""What `ne monitor` has in memory from run to run, by the objects that there are: none stay of a run that has ended,
and few of a version."""
import contextlib
import gc
import io
from unittest import mock

from new_enemy_tools.commands.monitor import given_of, way_of
from new_enemy_tools.monitoring import holding, tail
from new_enemy_tools.monitoring.devices import Machine
from tests.test_going_on import RULES
from tests.test_monitor import BASE, PLACE, PROGRAM, Monitoring, files_of, timed
from tests.test_trace_maker import check, content, rel, write

# So many lines are taken at once, a run has one more where it is full, and so many there are.
LINES, RUN_BYTES, ROUNDS = 60, 12_000, 400
OWNER = rel("plan", "viewer", "owner")


def count():
    """The objects that are looked at for circles, without the lines that are read ahead."""
    gc.collect()
    return sum(type(one) is not holding.Line for one in gc.get_objects())


class Counting(Machine):
    """Counts before a run begins, when none is there; and when it has begun, how many versions it knows too."""

    def __init__(self, way):
        self.without_a_run, self.begun = [], []
        super().__init__(way)

    def _begin(self, held, stop=None):
        self.without_a_run.append(count())
        super()._begin(held, stop)
        left = self.run.begun.left
        self.begun.append((count(), 0 if left is None else len(left.issued)))


class Memory(Monitoring):
    def monitored(self, events, *words):
        self.put_log(files_of(timed(events), [], "spicedb"))
        parser, given = given_of(["--program", PROGRAM, "--once", "--hold", "0", "--most-lag", "1e9", "--day-bytes",
                                  str(RUN_BYTES), *words, self.path("log"), self.path("out")])
        machine = Counting(way_of(parser, given))
        with mock.patch.object(holding, "LINES", LINES), contextlib.redirect_stderr(io.StringIO()):
            machine.begin()
            machine.live()
            machine.stop(None)
        return machine

    def events(self, event):
        """Rounds of a change, a check, and another event of the same state."""
        events = [RULES, BASE, PLACE, write(1, OWNER)]
        for number in range(2, ROUNDS):
            user = rel("plan", "viewer", "u%d" % (number % 7))
            events += [write(number, user) if number // 7 % 2 else write(number, remove=[user]),
                       check(number, True, OWNER), event(number)]
        return events

    def test_nothing_stays_of_a_run(self):
        machine = self.monitored(self.events(lambda number: check(number, True, OWNER)))
        self.assertGreater(len(machine.begun), 8)
        for counts in (machine.without_a_run[3:], [all_of for all_of, _ in machine.begun[3:]]):
            # A run has some hundred objects at least, and a cache may get some more.
            self.assertLess(max(counts) - min(counts), 40, counts)

    def saved(self, *words):
        return self.monitored(self.events(lambda number: content(number, "v%d" % number, goal=OWNER)), *words)

    def test_a_base_state_that_is_longer_than_what_is_read_ahead(self):
        base = [write(0, *(rel("plan", "viewer", "b%d" % user) for user in range(number, number + 9)), base=True)
                for number in range(0, 900, 9)]
        checks = [check(0, user < 900, rel("plan", "viewer", "b%d" % user)) for user in range(0, 1200, 3)]
        with mock.patch.multiple(holding, MOST=500, MOST_HELD=1_000), mock.patch.object(tail, "PIECE", 2_000):
            machine = self.monitored([RULES, *base, PLACE, *checks, write(1, OWNER)])
        self.assertEqual((machine.before.entries, dict(machine.core.ended)), (len(checks), {}))

    def test_few_objects_stay_of_a_version(self):
        """What a run goes on from knows each version; when that run has ended, nothing does."""
        machine = self.saved()
        self.assertGreater(len(machine.begun), 8)
        self.assertLess(max(machine.without_a_run[3:]) - min(machine.without_a_run[3:]), 40, machine.without_a_run)
        (before, few), (behind, many) = machine.begun[3], machine.begun[-2]
        self.assertGreater(many, few + 100)
        self.assertLess((behind - before) / (many - few), 4, machine.begun)

    def test_versions_that_are_let_go(self):
        objects, versions = zip(*self.saved("--keep-versions", "2").begun[3:-1])
        self.assertGreater(len(versions), 4)
        self.assertLess(max(versions) - min(versions), 30, versions)
        self.assertLess(max(objects) - min(objects), 200, objects)
