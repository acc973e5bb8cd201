"""What is told of a window: the findings on its entries, by the lines of the log."""
from collections import Counter
from typing import Callable, Iterable, Iterator, NamedTuple, Optional

from new_enemy_tools.coverage import INCOMPLETE, Coverage
from new_enemy_tools.findings import Finding
from new_enemy_tools.importing import causes
from new_enemy_tools.windowing.following import RunReport


class Left(NamedTuple):
    """Why an entry was not audited, or in part: its cause, and how it is told."""

    cause: str
    text: str


class WindowReport(NamedTuple):
    """The report of a window, and of each entry that was not audited, or in part, why."""

    findings: list[Finding]
    not_audited: dict[int, Left]
    in_part: dict[int, Left]
    entries: int
    held: int
    # whether the entries that wait go on in a state, or none can wait any longer
    is_handed_on: bool = True
    # what of the log was looked at
    coverage: Coverage = Coverage()
    # of joined logs how many checks wait for other logs
    held_back: int = 0

    def covered(self, said: Coverage) -> "WindowReport":
        """With the sum of what was looked at, by what the lines of the window say."""
        struck, in_part = (Counter(one.cause for one in given.values()) for given in (self.not_audited, self.in_part))
        return self._replace(coverage=said.plus(Coverage(0, in_part)).without(struck))

    @property
    def verdict(self) -> str:
        return "dirty" if self.findings else "incomplete" if self.status() else "clean"

    def status(self, allowed: float = 0) -> int:
        """1 where something was found, else 6 where entries wait that no state takes on, or more than so many percent of the checks were not looked
        at whole."""
        if self.findings:
            return 1
        return INCOMPLETE if self.held and not self.is_handed_on else self.coverage.status(allowed)

    def lines(self, behind: Callable[[int], str] = lambda line: "", groups: Optional[Iterable[str]] = None,
              beside: Iterable[str] = ()) -> Iterator[str]:
        """As the program's report, with what is told behind the text of a line; the findings may be told by other lines, and the sums have
        others beside them."""
        yield from groups or ()
        told = [(one.line, text_of(one)) for one in self.findings] if groups is None else []
        told += [(line, "line %d: not audited, %s" % (line, left.text)) for line, left in self.not_audited.items()]
        told += [(line, "line %d: audited in part, %s" % (line, left.text)) for line, left in self.in_part.items()]
        for line, text in sorted(told, key=lambda one: one[0]):
            yield text + behind(line)
        yield "entries %d" % self.entries
        if self.held:
            yield "held over %d" % self.held
        yield from () if self.coverage.is_plain else self.coverage.lines()
        yield from beside
        yield "findings %d" % len(self.findings)
        yield "verdict %s" % self.verdict


def text_of(finding: Finding) -> str:
    return "line %d: %s %s%s%s" % (finding.line, finding.finding, finding.text, "" if finding.related is None else ", see line %d" % finding.related,
                                   "" if finding.step is None else " at step %d" % finding.step)


def window_report_of(told: RunReport, given_up: dict[int, int], unknown: set[int], entries: int, held: int, is_handed_on: bool) -> WindowReport:
    """What runs told, of entries of which some waited too long, and some name versions that are not known since versions were let go."""
    not_audited = {line: Left(causes.SNAPSHOT_TOO_OLD, "its snapshot is older than %d, where the state begins" % base) for line, base in told.below.items()}
    not_audited.update((line, Left(causes.NO_COMMIT_CAME, "no commit has come to its snapshot %d" % snapshot)) for line, snapshot in given_up.items())
    in_part = {line: Left(causes.VERSION_LET_GO, "its version is not known, and old versions were let go") for line in unknown}
    return WindowReport(sorted(told.findings, key=place_of), not_audited, in_part, entries, held, is_handed_on)


def place_of(finding: Finding) -> tuple[int, int]:
    """The place of a finding in a report: by its line, and by its number."""
    return finding.line, int(finding.finding[1:])
