"""What an import leaves to the import of the next day's log, so that both traces, one behind the other, are one.

Timestamps of a trace that goes on stand far apart, so that a revision which is named later has room between two that were named before.
The file is a line of JSON, and behind it the checksum of that line.
"""
import json
from hashlib import blake2b
from itertools import starmap
from typing import Any, Callable, Iterable, Iterator, NamedTuple, Optional, Sequence, Union

from new_enemy_tools import limits
from new_enemy_tools.edges import Edge, Name
from new_enemy_tools.faults import ToolFault
from new_enemy_tools.files import read_bytes, write_whole
from new_enemy_tools.ids import Ids
from new_enemy_tools.importing.between import States
from new_enemy_tools.importing.declared import Declared
from new_enemy_tools.importing.events import Event, RelationRule
from new_enemy_tools.importing.first_pass import Taken
from new_enemy_tools.importing.packed_blocks import Version
from new_enemy_tools.importing.refusals import Refusals
from new_enemy_tools.importing.spool import Facts, Lines
from new_enemy_tools.importing.strata import Edges, Reason
from new_enemy_tools.rules import places
from new_enemy_tools.texts import Tuple, Userset, parse_tuple
from new_enemy_tools.windowing.carries import touched_by
from new_enemy_tools.windowing.state import State

FORMAT = 1
APART = 1 << 20


class GoingOnFault(ToolFault):
    """Why an import cannot go on from what another one left."""


class Named(NamedTuple):
    """A revision, its timestamp, and how many lines of the trace it takes."""

    revision: int
    at: int
    lines: int


class Issued(NamedTuple):
    """A version by its object and label, where its content check stands, what `Taken` keeps of that, and its day."""

    key: Version
    file: str
    line: int
    short: tuple[Any, ...]
    day: int


class Left(NamedTuple):
    """What an import left."""

    service: str
    # how many imports went on so far
    day: int
    # of each event of rules its revision and namespaces, with the names and rewrites of their relations
    rules: list[tuple[Optional[int], dict[str, list[list[Any]]]]]
    strata: list[tuple[str, str, int]]
    edges: list[list[Any]]
    # by revision
    named: list[Named]
    # the revision of the last commit, and its file, line and text
    last: Optional[int]
    last_place: Optional[list[Any]]
    base: Optional[int]
    issued: list[Issued]
    has_gap: bool
    # the number and the hash of the last file of tools/record
    chain: Optional[list[Any]]
    # whether something was stored before the log; versions whose labels were saved twice, or whose content checks were left out; and
    # what tuples and rules were left out of
    is_older: bool = False
    twice: Sequence[Sequence[str]] = ()
    left_out: Sequence[Sequence[str]] = ()
    has_lost_version: bool = False
    doubts: Sequence[Sequence[Optional[str]]] = ()
    # the length and the checksum of the table of ids
    ids: Optional[Sequence[Union[int, str]]] = None
    # the last number of the sequence, and the first that no line has
    sequence: Optional[int] = None
    missing: Optional[int] = None


def read_left(path: str) -> Left:
    """Raises GoingOnFault where the file is none."""
    data = read_bytes(path)
    line, _, rest = data.partition(b"\n")
    if rest != b"sum %s\n" % blake2b(line, digest_size=32).hexdigest().encode():
        raise GoingOnFault("%s was not left by an import, or was altered or cut short" % path)
    value = json.loads(line)
    if value.pop("new_enemy_import") != FORMAT:
        raise GoingOnFault("%s was left by an import of another version" % path)
    left = Left(**value)
    return left._replace(named=list(starmap(Named, left.named)), issued=list(_issued_of(left.issued)))


def _issued_of(rows: Iterable[Sequence[Any]]) -> Iterator[Issued]:
    """There may be very many: a text that several have is in memory once."""
    texts: dict[Optional[str], Any] = {}
    for (of, thing, label), file, line, (goal, *rest), day in rows:
        key = texts.setdefault(of, of), texts.setdefault(thing, thing), label
        short = tuple(texts.setdefault(text, text) for text in goal), *rest
        yield Issued(key, texts.setdefault(file, file), line, short, day)


def refuse_other(left: Left, path: str, service: str) -> None:
    """Refuses what was left by an import of another service."""
    if left.service != service:
        raise GoingOnFault("%s was left by an import of %s, and the logs are of %s" % (path, left.service, service))


def write_left(path: str, left: Left) -> None:
    line = json.dumps({"new_enemy_import": FORMAT, **left._asdict()}, separators=(",", ":"))
    write_whole(path, [line, "sum " + blake2b(line.encode(), digest_size=32).hexdigest()])


def cut(left: Left, least: Optional[int], days: Optional[int], carries: Callable[[Version], bool] = lambda key: False) -> Left:
    """Without versions that were issued before the last days, but for those that the state carries all the same; and without revisions that stand
    below a timestamp, but for those that versions were issued at, and the last below."""
    if days is not None:
        left = left._replace(issued=[one for one in left.issued if one.day > left.day - days or carries(one.key)])
    if least is None:
        return left
    kept = {one.short[2] for one in left.issued} | {left.base}
    below = [one for one in left.named if one.at < least]
    return left._replace(named=[one for one in left.named if one.at >= least or one.revision in kept or one is below[-1]])


# Lines that an import cannot go on with, by what is known of all lines.
UNFIT = {"has_newest": "content checks that say `newest`", "has_asked": "snapshots of PostgreSQL"}


def refuse_unfit(facts: Facts, is_first: bool, has_state: bool, file: str, refusals: Refusals) -> None:
    """Refuses what needs all lines of a log at once."""
    for name, what in UNFIT.items():
        if getattr(facts, name):
            refusals.refuse(file, 1, "the logs have %s, and an import that goes on takes none; import all days at once" % what)
    if facts.has_between and not is_first and not has_state:
        refusals.refuse(file, 1, "the logs have checks between two states; give the state of the days before, by --state")
    if facts.last_base >= 0 and not is_first:
        refusals.refuse(*facts.base_source, "a base state stands at the beginning of the first day's log, and this is a later one")


def events_of(left: Left) -> list[Event]:
    """The rules so far."""
    return [Event("rules", "the days before", 1, revision, namespaces={name: [RelationRule(one[0], one[1], 1) for one in relations]
                                                                          for name, relations in namespaces.items()})
            for revision, namespaces in left.rules]


def new_rules(left: Left, lines: Lines, refusals: Refusals) -> list[Event]:
    """The rules of a later day; those from its beginning have to be those that were in force, or those of the first day."""
    first: dict[str, dict[str, Any]] = {}
    current: dict[str, dict[str, Any]] = {}
    for _, namespaces in left.rules:
        for name, relations in namespaces.items():
            current[name] = {**current.get(name, {}), **{relation: rewrite for relation, rewrite in relations}}
            first.setdefault(name, current[name])
    for event in lines.rules:
        if event.revision is None and not any(_are_in(event, known) for known in (first, current)):
            refusals.refuse(event.file, event.line, "the rules are others than at the end of the day before; "
                            "the log has to say from which revision on")
    new = [event for event in lines.declared() if event.revision is not None]
    known = {(name, relation) for name, relations in current.items() for relation in relations}
    refuse_new_tuplesets(new, known, {pair for _, namespaces in left.rules for pair in tuplesets_in(
        {name: [rewrite for _, rewrite in relations] for name, relations in namespaces.items()})}, refusals)
    return new


def tuplesets_in(namespaces: dict[str, list[dict[str, Any]]]) -> set[Name]:
    """The relations from whose tuples some rewrites go on."""
    return {(name, place.names[0]) for name, rewrites in namespaces.items() for rewrite in rewrites for place in places(rewrite)
            if place.form == "tuple_to"}


def refuse_new_tuplesets(events: list[Event], known: set[Name], tuplesets: set[Name], refusals: Refusals) -> None:
    """Refuses rules that go on from a relation of earlier rules from which none of these did: the trace has its tuples in a form that says
    nothing of that, and right replies would be called wrong."""
    for event in events:
        read = tuplesets_in({name: [one.rewrite for one in relations] for name, relations in event.namespaces.items()})
        for name, relation in sorted((read & known) - tuplesets):
            refusals.refuse(event.file, event.line, "a rule goes on from the tuples of %s#%s, as none did before, and those so far stand in the "
                            "trace without what it reads: import all of the log at once, or begin a new log" % (name, relation))


def _are_in(event: Event, known: dict[str, dict[str, Any]]) -> bool:
    return all(known.get(name, {}).get(one.name) == one.rewrite for name, relations in event.namespaces.items() for one in relations)


def add_edges(left: Left, edges: Edges) -> None:
    for reader, read, strict in left.edges:
        edges.add(Edge((reader[0], reader[1]), (read[0], read[1]), strict), Reason("the days before", 1, "a rule or tuple", True, True))


def has_other_strata(left: Left, strata: dict[Name, int]) -> bool:
    """Whether relations of the days before need another stratum by the rules and tuples of this one."""
    return any(strata[name, relation] != stratum for name, relation, stratum in left.strata)


def take_states(states: States, left: Left, state: State) -> Optional[int]:
    """Takes what was stored before the day, for checks between two states; the first revision of which that is known, if not of all."""
    revisions = {one.at - back: one.revision for one in left.named for back in range(one.lines)}
    base = state.base
    if base is not None:
        states.revisions.append(revisions[base])
    for row in state.rows:
        if row.kind not in "rfc" or row.number < 0:
            continue
        revision = revisions[row.number if base is None or row.number > base else base]
        if row.kind != "r":
            for live, listed in zip((True, False), touched_by(row.raw)):
                states.store.touch_texts(revision, [_pair_of(text) for text in listed], live)
        if not states.revisions or states.revisions[-1] < revision:
            states.revisions.append(revision)
    return None if base is None else revisions[base]


def _pair_of(text: bytes) -> tuple[bytes, bytes]:
    of, _, user = text.partition(b"@")
    return of, user


def take_up(left: Left, taken: Taken) -> None:
    """Goes on behind the last line of the day before."""
    taken.last, taken.has_gap, taken.may_be_older = left.last, left.has_gap, left.is_older
    taken.twice = {(of, thing, label) for of, thing, label in left.twice}
    taken.last_place = None if left.last_place is None else (left.last_place[0], left.last_place[1], left.last_place[2])
    taken.issued.update((one.key, (one.short, one.file, one.line)) for one in left.issued)


def numbered(wanted: dict[int, int], before: list[Named]) -> list[Named]:
    """Timestamps for revisions, by how many lines each takes: those that were named have theirs, and the others stand between or behind."""
    last = before[-1].revision if before else -1
    found = _named_again({revision: lines for revision, lines in wanted.items() if revision <= last}, before)
    at = found[-1].at if found else 0
    for revision in sorted(revision for revision in wanted if revision > last):
        lines = max(1, wanted[revision])
        at += APART + lines
        found.append(Named(revision, at, lines))
    if at > limits.NUMBER:
        raise GoingOnFault("there are no timestamps left: begin a new log")
    return found


def _named_again(wanted: dict[int, int], before: list[Named]) -> list[Named]:
    """The revisions that were named, and among them those that are named now; none stands behind the last."""
    known = {one.revision: one for one in before}
    if all(revision in known and lines <= known[revision].lines for revision, lines in wanted.items()):
        return list(before)
    found: list[Named] = []
    waiting: list[tuple[int, int]] = []
    for revision in sorted({*wanted, *known}):
        lines = max(1, wanted.get(revision, 1))
        one = known.get(revision)
        if one is None:
            waiting.append((revision, lines))
            continue
        one = one._replace(lines=max(one.lines, lines))
        found += _between(found[-1].at if found else -1, one.at - one.lines, waiting)
        found.append(one)
        waiting = []
    return found


def _between(low: int, high: int, waiting: list[tuple[int, int]]) -> Iterable[Named]:
    """Revisions above one timestamp, up to another, as far apart as there is room."""
    room = (high - low) // (len(waiting) + 1)
    if high < low or waiting and room < max(lines for _, lines in waiting):
        raise GoingOnFault("there is no room for %d revisions between two of the days before: import all days at once" % max(1, len(waiting)))
    return [Named(revision, low + room * place, lines) for place, (revision, lines) in enumerate(waiting, 1)]


def left_by(service: str, before: Optional[Left], declared: Declared, strata: dict[Name, int], edges: Edges, taken: Taken, named: list[Named],
            chain: Optional[list[Any]]) -> Left:
    """What is left of an import that took all lines."""
    rules: list[tuple[Optional[int], dict[str, list[list[Any]]]]] = [
        (one.at, {one.name: [[relation.name, relation.rewrite] for relation in one.relations]}) for one in declared.rules.declarations]
    day = 1 + (before.day if before else 0)
    # Those of the days before come first.
    days = [one.day for one in before.issued] if before else []
    days += [day] * (len(taken.issued) - len(days))
    issued = [Issued(key, file, line, short, one) for (key, (short, file, line)), one in zip(taken.issued.items(), days)]
    return Left(service, day, rules, [(*name, stratum) for name, stratum in strata.items()],
                [[list(edge.reader), list(edge.read), edge.strict] for edge in edges.reasons], named, taken.last,
                None if taken.last_place is None else list(taken.last_place), taken.base_revision, issued, taken.has_gap, chain,
                taken.may_be_older, sorted(taken.twice))


def with_left_out(left: Left, refusals: Refusals, taken: Taken) -> Left:
    """The same when all lines are written, with what was left out of them."""
    return left._replace(issued=[one for one in left.issued if one.key in taken.issued],
                         left_out=sorted(refusals.versions), has_lost_version=refusals.has_lost_version,
                         doubts=sorted(set(refusals.doubts), key=lambda one: tuple(part or "" for part in one)))


def take_left_out(left: Left, refusals: Refusals) -> None:
    """Goes on with what was left out on the days before."""
    refusals.versions |= {(of, thing, label) for of, thing, label in left.left_out}
    refusals.has_lost_version |= left.has_lost_version
    refusals.doubts += [(of or "", thing, relation or "") for of, thing, relation in left.doubts]


def stored_in(state: State, ids: Ids) -> Iterator[Tuple]:
    """The tuples of a state whose users are usersets, by the names of the service. As many as its lines have."""
    for row in state.rows:
        for text in (one for listed in touched_by(row.raw) for one in listed) if row.kind in "fc" else ():
            given = parse_tuple(text.decode())
            if isinstance(given.user, Userset):
                yield Tuple(_of_service(given.set, ids), _of_service(given.user, ids))


def _of_service(of: Userset, ids: Ids) -> Userset:
    return Userset(ids.name_of("namespace", of.namespace), ids.id_of("object", of.id), ids.name_of("relation", of.relation))
