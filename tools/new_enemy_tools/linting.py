"""What is odd in a trace that the program takes: what is not read, and what seems to mean something else than it says."""
import unicodedata
from typing import Callable, Iterator, NamedTuple

from new_enemy_tools import strictjson
from new_enemy_tools.entries import Entry
from new_enemy_tools.keys import Unread, unread, unread_in_expression
from new_enemy_tools.rules import places
from new_enemy_tools.texts import Tuple, Userset
from new_enemy_tools.trace import Trace, read_trace

# Importers write these beside the keys that are read.
WRITTEN = frozenset(("from", "revision", "time", "ids", "coverage", "strata"))
ENTRY = WRITTEN | {"part", "named", "again", "kind", "goal", "snapshot", "reply", "zookie", "version"}
KEYS = {"namespace": WRITTEN | {"kind", "at", "name", "relations"}, "commit": WRITTEN | {"kind", "at", "add", "remove"},
        "check": ENTRY, "content": ENTRY}
RELATION = frozenset(("name", "stratum", "rewrite"))
Name = tuple[str, str]


class Odd(NamedTuple):
    """A line, from 1, or 0 of the trace as a whole, and what is odd there."""

    line: int
    text: str

    def __str__(self) -> str:
        return "line %d: %s" % self if self.line else self.text


class Seen:
    """The unread keys of all lines, and where relations are declared."""

    def __init__(self) -> None:
        self.keys: dict[str, list[int]] = {}
        self.declared: dict[Name, int] = {}

    def take(self, line: int, value: object) -> None:
        """Takes a line of a trace that is not refused."""
        assert isinstance(value, dict)
        kind = value["kind"]
        for key in unread(value, KEYS[kind]):
            self._note(line, kind, key)
        for relation in value["relations"] if kind == "namespace" else ():
            self.declared.setdefault((value["name"], relation["name"]), line)
            for key in unread(relation, RELATION):
                self._note(line, "relation", key)
            for key in unread_in_expression(relation["rewrite"]) if relation.get("rewrite") else ():
                self._note(line, "rewrite", key)

    def _note(self, line: int, kind: str, key: Unread) -> None:
        lines = self.keys.setdefault(key.said(" of a " + kind), [line, 0])
        lines[1] += 1

    def odd(self) -> Iterator[Odd]:
        for said, (line, count) in self.keys.items():
            yield Odd(line, said + (" (on %d lines)" % count if count > 1 else ""))


def folded(label: str) -> str:
    """A label without the differences that are easily overlooked."""
    return "".join(letter for letter in unicodedata.normalize("NFKC", label).casefold() if letter.isalnum())


def odd_versions(trace: Trace) -> Iterator[Odd]:
    """Versions that no line issues, where one of another spelling is issued for the same object."""
    issued: dict[tuple[str, str, str], Entry] = {}
    for entry in trace.entries.values():
        if entry.kind == "content" and entry.version is not None:
            issued.setdefault((*entry.goal.set[:2], folded(entry.version)), entry)
    for entry in trace.entries.values():
        if entry.kind == "check" and entry.version is not None and entry.issued_on is None:
            other = issued.get((*entry.goal.set[:2], folded(entry.version)))
            if other and other.version != entry.version:
                yield Odd(entry.line, 'no line issues version "%s" of %s:%s; line %d issues "%s"'
                          % (entry.version, *entry.goal.set[:2], other.line, other.version))


class FirstReads:
    """The relations of its own object that a goal's rule reads, itself or through `computed`."""

    def __init__(self, trace: Trace):
        self.rules = trace.rules
        self.known: dict[Name, set[str]] = {}

    def of(self, namespace: str, relation: str) -> set[str]:
        read = self.known.get((namespace, relation))
        if read is None:
            read = self.known[namespace, relation] = set()
            seen, todo = {relation}, [relation]
            while todo:
                name = todo.pop()
                for rewrite in self.rules.rewrites(namespace, name):
                    for place in places(rewrite):
                        if place.form == "computed" and place.names[0] not in seen:
                            seen.add(place.names[0])
                            todo.append(place.names[0])
                        elif place.form != "computed":
                            read.add(place.names[0] if place.names else name)
        return read


def touches(trace: Trace) -> Iterator[Tuple]:
    for commit in trace.commits:
        yield from commit.add
        yield from commit.remove


def odd_goals(trace: Trace) -> Iterator[Odd]:
    """Goals that every reading of the rules answers with no, since no commit touches what they begin with."""
    touched = {one.set for one in touches(trace)}
    reads = FirstReads(trace)
    told: set[Userset] = set()
    for entry in trace.entries.values():
        of = entry.goal.set
        if of not in told and not any(Userset(of.namespace, of.id, name) in touched
                                      for name in reads.of(of.namespace, of.relation)):
            told.add(of)
            yield Odd(entry.line, "nobody ever was in %s: no commit touches what its rule reads" % (of,))


def odd_relations(trace: Trace, declared: dict[Name, int]) -> Iterator[Odd]:
    """Relations that no rule reads, no tuple refers to and no check asks for."""
    read: set[Name] = {(entry.goal.set.namespace, entry.goal.set.relation) for entry in trace.entries.values()}
    read |= {(one.user.namespace, one.user.relation) for one in touches(trace) if isinstance(one.user, Userset)}
    anywhere: set[str] = set()
    for namespace, relation in declared:
        for rewrite in trace.rules.rewrites(namespace, relation):
            for place in places(rewrite):
                read |= {(namespace, name) for name in place.names[:1]}
                anywhere |= set(place.names[1:])
    for (namespace, relation), line in declared.items():
        if (namespace, relation) not in read and relation not in anywhere:
            yield Odd(line, "relation %s#%s is read by no rule, tuple or check" % (namespace, relation))


def odd_in(data: bytes, step: Callable[[int], None]) -> list[Odd]:
    """All that is odd in a trace, by its lines; raises Fault on the first line that the program refuses."""
    trace, seen = read_trace(data, step), Seen()
    for line, raw in strictjson.lines_of(data):
        step(line)
        seen.take(line, strictjson.value_of(raw))
    found = [*seen.odd(), *odd_versions(trace), *odd_goals(trace), *odd_relations(trace, seen.declared)]
    if not trace.entries:
        found.append(Odd(0, "the trace is empty" if not trace.commits and not seen.declared
                         else "the trace has no check and no content check, so nothing is audited"))
    elif not trace.commits:
        found.append(Odd(0, "the trace has no commit, so nothing is ever stored"))
    return sorted(found, key=lambda odd: odd.line)
