"""What an import refuses, by file and line; what it leaves out; checks that are not audited, and those that were lost,
by cause; and lines that record no decision."""
from collections import Counter
from typing import TYPE_CHECKING, Iterator, NamedTuple, Optional

from new_enemy_tools.coverage import Coverage, counted
from new_enemy_tools.importing.pages import Page
from new_enemy_tools.importing.sequence_numbers import Numbers

if TYPE_CHECKING:
    from new_enemy_tools.importing.events import Entry, Relationship

HINT = " (without --refuse-unmapped it is left out)"
# Of one text in a file so many are listed; more are counted.
LISTED = 10
OTHER_RULES = "the log has tuples that none of its rules take, so other rules were in force: give those too"


class Refused(NamedTuple):
    file: str
    line: int
    text: str


class Refusals:
    """Collects all refusals; a tuple or rule that has no form in a trace is counted and left out, and with `is_strict` refused in place of that.

    A check that cannot be audited is counted by its cause, and refuses nothing.
    """

    def __init__(self, is_strict: bool = False, is_chained: bool = False):
        self.is_strict = is_strict
        # whether the lines are of files of tools/record whose chain was checked
        self.is_chained = is_chained
        self.refused: dict[Refused, None] = {}
        # of each reason how much was left out, and the first
        self.left_out: Counter[str] = Counter()
        self.first_left_out: dict[str, str] = {}
        # whether other rules were in force than the log has, and whether something was left out of the base state
        self.has_other_rules = self.has_older = False
        # of each cause how many checks it struck, and the first
        self.not_audited: Counter[str] = Counter()
        self.firsts: dict[str, str] = {}
        self.lost: Counter[str] = Counter()
        # gaps in which nobody counted, how long they were, and of how many that is not known
        self.uncounted = self.dark = self.undated = 0
        # checks of other stores, as the recorder counted them
        self.elsewhere = 0
        # files of a log that are not closed, and the number of the last file of a chain
        self.open = 0
        self.last_file: Optional[int] = None
        self.passed: Counter[str] = Counter()
        self.notes: dict[str, str] = {}
        # the time from which on something may be in a gap that stands further behind
        self.gap_since: Optional[int] = None
        # the changes of the schema that a log tells of
        self.updated: list[tuple[Optional[int], str, int]] = []
        # the calls that deleted something, each with its revision
        self.deleted: list[tuple[Optional[int], str, int]] = []
        # of each call that wrote, and whose line does not say all of that, the first line
        self.unseen: dict[str, tuple[str, int]] = {}
        # the pages of changes that were asked for
        self.pages: list[Page] = []
        # by file and revision the first line of a watch stream that was asked for from there on; and revisions that streams came to without
        # a change, each with its file and line
        self.starts: dict[tuple[str, int], int] = {}
        self.checkpoints: list[tuple[str, int, int]] = []
        # of relations and users that they do not take by the rules that were read before, the first line
        self.untaken: dict[tuple[tuple[str, str], tuple[str, Optional[str]]], tuple[str, int]] = {}
        # the stores that calls name, each with the first line that does
        self.stores: dict[str, tuple[str, int]] = {}
        self.doubts: list[tuple[str, Optional[str], str]] = []
        # whether the service denies what takes away something that leads into a circle
        self.denies_circles = False
        self.versions: set[tuple[str, str, str]] = set()
        # the numbers of a sequencer that lines have which were read in full
        self.numbers = Numbers()
        # whether a content check was left out of which it is not known what it issued
        self.has_lost_version = False

    def merge(self, other: "Refusals") -> None:
        """Takes what was collected from lines that stand behind."""
        self.refused.update(other.refused)
        self.left_out.update(other.left_out)
        self.first_left_out = {**other.first_left_out, **self.first_left_out}
        self.has_other_rules |= other.has_other_rules
        self.has_older |= other.has_older
        self.passed.update(other.passed)
        self.not_audited.update(other.not_audited)
        self.firsts = {**other.firsts, **self.firsts}
        self.lost.update(other.lost)
        self.uncounted += other.uncounted
        self.dark += other.dark
        self.undated += other.undated
        self.elsewhere += other.elsewhere
        self.has_lost_version |= other.has_lost_version
        for kind, text in other.notes.items():
            self.note(kind, text)
        self._reach_back(other.gap_since)
        self.updated += other.updated
        self.deleted += other.deleted
        self.pages += other.pages
        self.checkpoints += other.checkpoints
        for start, line in other.starts.items():
            self.starts.setdefault(start, line)
        self.numbers.merge(other.numbers)
        for call, place in other.unseen.items():
            self.unseen.setdefault(call, place)
        self.untaken = {**other.untaken, **self.untaken}
        for store, place in other.stores.items():
            self.stores.setdefault(store, place)
        self.doubts += other.doubts
        self.denies_circles |= other.denies_circles
        self.versions |= other.versions

    def refuse(self, file: str, line: int, text: str) -> None:
        self.refused[Refused(file, line, text)] = None

    def unmapped(self, file: str, line: int, reason: str, detail: str = "") -> None:
        """Something that has no form in a trace, and can be left out."""
        if self.is_strict:
            self.refuse(file, line, ("%s: %s" % (reason, detail) if detail else reason) + HINT)
        else:
            self.left_out[reason] += 1
            self.first_left_out.setdefault(reason, "%s:%d%s" % (file, line, ": " + detail if detail else ""))

    def unmapped_tuple(self, file: str, line: int, reason: str, given: "Relationship", is_base: bool) -> None:
        """A tuple that has no form in a trace; the userset that has it is in doubt."""
        self.unmapped(file, line, reason, str(given))
        self.doubt(*given[:3])
        self.has_older |= is_base

    def unmapped_check(self, event: "Entry", cause: str, detail: str = "") -> None:
        """A check that is not audited, by a cause of `causes`; a version that it issued is left out with it."""
        self.unread_check(event.file, event.line, cause, detail)
        if event.kind == "content" and event.version is not None:
            self.versions.add((event.goal[0], event.goal[1], event.version))

    def as_check(self, event: "Entry", cause: str) -> "Entry":
        """A content check without its version, which is left out: its reply is audited, and not what hangs on the version."""
        if event.version:
            self.versions.add((event.goal[0], event.goal[1], event.version))
        return event._replace(kind="check", version=None, newest=event.newest and event.lowest is not None, part=cause, named=event.version)

    def unread_check(self, file: str, line: int, cause: str, detail: str = "") -> None:
        """A line with a check that is not audited."""
        self.not_audited[cause] += 1
        self.firsts.setdefault(cause, "%s:%d%s" % (file, line, ": " + detail if detail else ""))

    def pass_over(self, kind: str) -> None:
        """A line that records no decision."""
        self.passed[kind] += 1

    def note(self, kind: str, text: str) -> None:
        """Says something of how the input is read, the first of each kind."""
        self.notes.setdefault(kind, text)

    def gap(self, place: str, text: str, since: Optional[int] = None) -> None:
        """Says a gap of a recorder's log, from a time on where that is known."""
        self._reach_back(since)
        self.note("gap " + place, text)
        self.note("gaps", "the log has gaps: a verdict says nothing of what was asked in them")

    def _reach_back(self, since: Optional[int]) -> None:
        if since is not None:
            self.gap_since = since if self.gap_since is None else min(since, self.gap_since)

    def lose(self, reason: str, count: Optional[int], length: Optional[int]) -> None:
        """Counts what was asked in a gap; where nobody counted, the gap and its length."""
        if count is not None:
            self.lost[reason] += count
        else:
            self.uncounted += 1
            self.dark += length or 0
            self.undated += not length

    def coverage(self, checks: int, in_part: Counter[str], since: Optional[int], until: Optional[int]) -> Coverage:
        """The sum of an import, by the checks of its trace, those in part, and the times of the first and the last check."""
        return Coverage(checks, counted(in_part), counted(self.not_audited), counted(self.lost), self.uncounted,
                        self.dark, since, until, self.open, self.last_file, OTHER_RULES if self.has_other_rules else None, self.elsewhere,
                        self.undated)

    def summary_lines(self) -> Iterator[str]:
        """How the input is read, what was passed over and left out, and what is not audited."""
        yield from self.notes.values()
        for reason, count in sorted(self.passed.items()):
            yield "passed over %d: %s" % (count, reason)
        for reason, count in sorted(self.left_out.items()):
            first = self.first_left_out.get(reason)
            yield "left out %d: %s%s" % (count, reason, "" if first is None else ", first at " + first)
        for cause, first in sorted(self.firsts.items()):
            yield "not audited: %s, first at %s" % (cause, first)

    def doubt(self, of: str, id_text: Optional[str], relation: str) -> None:
        """A userset (without an id: a relation) whose tuples or rule are left out."""
        if not self.is_strict:
            self.doubts.append((of, id_text, relation))

    def lines(self) -> list[str]:
        """Each refusal once, file by file and line by line; a text that strikes many lines of a file once, with its count."""
        counts = Counter((one.file, one.text) for one in self.refused)
        files = {file: place for place, (file, _, _) in enumerate(reversed(self.refused))}
        listed, many = [], set()
        for one in sorted(self.refused, key=lambda one: (-files[one.file], one.line)):
            count = counts[one.file, one.text]
            if count <= LISTED:
                listed.append("%s:%d: %s" % one)
            elif (one.file, one.text) not in many:
                many.add((one.file, one.text))
                listed.append("%s:%d: %s; so have %d lines more" % (*one, count - 1))
        return listed
