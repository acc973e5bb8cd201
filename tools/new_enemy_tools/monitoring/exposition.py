"""What a monitor says of itself, in the text form of Prometheus."""
from collections import Counter
from typing import Any, Mapping, NamedTuple

from new_enemy_tools.labels import Labels, labels_of
from new_enemy_tools.monitoring.pure_monitor import Core
from new_enemy_tools.recording.metrics import family

START = "new_enemy_monitor_"


class Before(NamedTuple):
    """The sums of the runs that this monitor has ended, so that counts go on rising."""

    entries: int = 0
    not_audited: Mapping[str, int] = {}
    in_part: Mapping[str, int] = {}
    lost: Mapping[str, int] = {}
    gaps: int = 0
    labels: Labels = Labels(0, 0, 0)
    elsewhere: int = 0

    def plus(self, core: Core) -> "Before":
        """With those of the run that goes on."""
        coverage = core.coverage()
        return Before(self.entries + core.run.entries, _sum(self.not_audited, coverage.not_audited),
                      _sum(self.in_part, coverage.in_part), _sum(self.lost, coverage.lost),
                      self.gaps + coverage.uncounted, self.labels.plus(labels_of(core.run.counted)),
                      self.elsewhere + coverage.elsewhere)


def _sum(one: Mapping[str, int], other: Mapping[str, int]) -> dict[str, int]:
    return dict(Counter(one) + Counter(other))


def exposition(core: Core, before: Before, wall: int, is_caught_up: bool) -> str:
    sums, run = before.plus(core), core.run
    families: list[tuple[str, str, str, Mapping[Any, float], tuple[str, ...]]] = [
        ("entries_total", "counter", "Checks that are audited and settled.", {"": sums.entries}, ()),
        ("findings_total", "counter", "Findings by their kind and effect.", dict(core.counts), ("finding", "effect")),
        ("not_audited_total", "counter", "Checks that are not audited, by cause.", sums.not_audited, ("cause",)),
        ("in_part_total", "counter", "Checks that are audited in part, by cause.", sums.in_part, ("cause",)),
        ("lost_total", "counter", "Checks that the recorder lost, as it counted them, by cause.", sums.lost,
         ("cause",)),
        ("gaps_total", "counter", "Gaps of the recorder's log in which nobody counted.", {"": sums.gaps}, ()),
        ("other_stores_total", "counter", "Checks of other stores, as the recorder counted them.",
         {"": sums.elsewhere}, ()),
        ("lag_seconds", "gauge", "For how long the oldest reply that was read waits until it is settled.",
         {"": core.lag(wall)}, ()),
        ("open", "gauge", "Checks in the trace that no commit has settled.", {"": run.through.open}, ()),
        ("held_lines", "gauge", "Lines of the log that are held, since lines behind them may move them.",
         {"": len(core.holding.lines)}, ()),
        ("unjoined", "gauge", "Checks that wait for the logs of other recorders.", {"": core.unjoined.checks}, ()),
        ("logs_unbegun", "gauge", "Logs that have no base state so far, and are not looked at.",
         {"": len(core.unjoined.unbegun)}, ()),
        ("findings_waiting", "gauge", "Findings whose effect waits for changes.", {"": run.waiting}, ()),
        ("alerts_total", "counter", "Alerts by their kind, since this monitor began.", dict(core.alerts), ("kind",)),
        ("alerts_waiting", "gauge", "Alerts that a receiver has not got.",
         {name: len(waiting) for name, waiting in core.delivery.waiting.items()}, ("receiver",)),
        ("failures_total", "counter", "Tries at which a receiver did not take an alert.", dict(core.delivery.failed),
         ("receiver",)),
        ("bound_passed", "gauge", "1 where a bound is passed.", {name: is_on for name, is_on in core.passed.items()},
         ("bound",)),
        ("run", "gauge", "The number of the run that goes on.", {"": core.number}, ()),
        ("run_bytes", "gauge", "Bytes of the trace of this run.", {"": run.bytes}, ()),
        ("caught_up", "gauge", "1 where all of the log has been read that was there.", {"": is_caught_up}, ())]
    return "".join(line for name, kind, told, samples, labels in families
                   for line in family(START + name, kind, told, samples, *labels))
