"""What tests of simulated worlds share."""
from tests.support import Case


class SimulatedCase(Case):
    """`RUN` is of a seed, and of values of its shape, the world that ran and what is said of it."""

    def held(self, seeds, **values):
        """Each world and what is said of it, which is that nothing is wrong; how many checks were recorded and lost is counted."""
        self.recorded = self.lost = 0
        for seed in seeds:
            world, verdict = type(self).RUN(seed, **values)
            self.assertEqual(verdict.faults(), [], "seed %d" % seed)
            self.recorded, self.lost = self.recorded + len(verdict.entries), self.lost + verdict.lost
            yield world, verdict

    def assert_holds(self, *seeds, **values):
        for _ in self.held(seeds, **values):
            pass

    def assert_finds(self, fault, seeds=1000, **values):
        """Some seed shows the fault."""
        for seed in range(seeds):
            if any(one.startswith(fault) for one in type(self).RUN(seed, **values)[1].faults()):
                return
        self.fail(fault)
