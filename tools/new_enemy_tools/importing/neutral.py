"""Logs of neutral events, by as many processes as there are."""
from functools import partial
from typing import Iterator, Union

from new_enemy_tools.importing import located
from new_enemy_tools.importing.block import NEWEST_BETWEEN, SNAPSHOT_BETWEEN, Reader, Usual, When
from new_enemy_tools.importing.checks import Look
from new_enemy_tools.importing.events import Event, Line, read_events
from new_enemy_tools.importing.line_shapes import GOAL, ID, LABEL, REPLY, TEXT, TIME, USER_RELATION, WHOLE, Field, Form, Said, field, form, needed
from new_enemy_tools.importing.packed_blocks import Indexer
from new_enemy_tools.importing.refusals import Refusals
from new_enemy_tools.importing.spool import Lines, Read
from new_enemy_tools.parting.sharing import shared

# Rules have no row, and stay with the process that gathers.
RULES = b'"rules"'


def _goal(path: str, thing: bytes) -> dict[str, Field]:
    """The fields of a tuple that stands at a path."""
    patterns = (TEXT + b"+", thing, TEXT + b"+", TEXT + b"+", TEXT + b"+")
    return {"%s.%d" % (path, place): field(b'"(%s)"' % pattern, name) for place, (pattern, name) in enumerate(zip(patterns, GOAL))}


STAMP = {"time": field(TIME, "time"), "sequence": field(WHOLE, "sequence")}
CHECK = form({**_goal("goal", ID), "snapshot": field(WHOLE, "snapshot"), "reply": field(REPLY, "reply"), "token": field(WHOLE, "token"),
              "version": field(LABEL, "version"), **STAMP}, "event")
CONTENT = Form(CHECK.fields, CHECK.fixed | {("newest",)})
BETWEEN = form({**_goal("goal", ID), "event": field(b'"(check|content)"', "event"), "reply": field(REPLY, "reply"), "token": field(WHOLE, "token"),
                "version": field(LABEL, "version"), **STAMP, **{"%s.%d" % (key, place): field(WHOLE, name) for key, names in (
                    ("snapshot_between", SNAPSHOT_BETWEEN), ("newest_between", NEWEST_BETWEEN)) for place, name in enumerate(names)}})
RELATION = field(b'"((?!\\*")%s+)"' % TEXT, USER_RELATION)
WRITE = form({**_goal("add.*", TEXT + b"+"), "add.*.5": RELATION, **_goal("remove.*", TEXT + b"+"), "remove.*.5": RELATION,
              "revision": field(WHOLE, "revision"), **STAMP}, "event", "base")


def look_of(said: Said) -> Look:
    shown, token, version = needed(said, "snapshot").decode(), said.get("token"), said.get("version")
    return Look(said["reply"] == b"true", int(shown), shown, None if token is None else int(token), None if version is None else version.decode(), None)


def when_of(said: Said) -> When:
    revision = needed(said, "revision")
    return When(int(revision), revision.decode())


USUAL = Usual((CHECK,), (CONTENT,), (WRITE,), look_of, when_of, lambda *_: True, between=(BETWEEN,))


class Events:
    """The events of a log."""

    def __init__(self, path: str, refusals: Refusals):
        self.path, self.refusals = path, refusals
        self.reader = Reader(path, USUAL, Indexer())

    def block(self, source: located.Source, place: located.Place) -> Union[tuple[Read, Refusals], located.Place]:
        """What a process makes of a block without rules."""
        block = source.block(place)
        if RULES in block.data:
            return place
        refusals = Refusals(self.refusals.is_strict, self.refusals.is_chained)
        read, *others = self.pieces(block, refusals)
        # The word may be written in another way.
        return place if others or not isinstance(read, Read) else (read, refusals)

    def pieces(self, block: located.Block, refusals: Refusals) -> Iterator[Union[Read, Event]]:
        def full(number: int, line: bytes) -> list[Line]:
            return list(read_events(located.line_values(number, line, self.path, refusals), self.path, refusals))
        return self.reader.pieces(block, full)


def gather_events(path: str, lines: Lines, jobs: int, refusals: Refusals) -> Iterator[int]:
    """Adds the events of a log; how many there are, now and then."""
    source, lines.facts.path = located.Source(path), path
    if not source.is_lines():
        for line in read_events(source.values(refusals), path, refusals):
            lines.add(line)
            yield lines.facts.count
        lines.facts.numbers.merge(refusals.numbers)
        return
    events = Events(path, refusals)
    for found in shared(partial(events.block, source), (place for place, _ in source.placed()), jobs):
        if isinstance(found, located.Place):
            for piece in events.pieces(source.block(found), refusals):
                lines.add_piece(piece)
        else:
            lines.add_piece(found[0])
            refusals.merge(found[1])
        lines.facts.numbers.merge(refusals.numbers)
        yield lines.facts.count
