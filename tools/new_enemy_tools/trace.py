"""Reads a trace, or says what is wrong with the first line that the program refuses."""
from typing import Callable, Iterable, Iterator, Optional, Union

from new_enemy_tools import limits, strictjson, texts
from new_enemy_tools.edges import Edge, TupleEdges, first_broken, rule_edges
from new_enemy_tools.entries import Commit, Commits, Entries, Entry
from new_enemy_tools.faults import ToolFault
from new_enemy_tools.garbage_collection import held_off
from new_enemy_tools.quick_reach import Look
from new_enemy_tools.rules import Rules, RulesFault
from new_enemy_tools.store import Store
from new_enemy_tools.strictjson import Object, is_u64
from new_enemy_tools.texts import Tuple, Userset
from new_enemy_tools.trace_lines import MEMBER, OtherForm, QuickCommit, is_utf8, quick_commit, quick_entry, quick_fields

KINDS = ("namespace", "commit", "check", "content")
NINE = b"9"[0]
STEP = 1_024
# Of so many texts the names are kept.
NAMED = 100_000

Label = tuple[bytes, bytes]
Names = tuple[bytes, bytes]


class Fault(ToolFault):
    """The program's one line on a refused input, and what else is to be said of it."""

    def __init__(self, part: str, line: int, cause: str, details: list[str]):
        super().__init__("%s line %d: %s" % (part, line, cause))
        self.line = line
        self.details = details


class NoEntry(ToolFault):
    """A line on which no check and no content check stands."""

    def __init__(self, line: int):
        super().__init__("line %d of the trace is no check and no content line" % line)


class Refusal(Exception):
    """A cause and its details, of the line that is being read."""

    def __init__(self, cause: str, *details: str):
        super().__init__(cause)
        self.details = list(details)


def _said(value: Object) -> tuple[Optional[str], Optional[str]]:
    """Where a line comes from, and its revision in the service."""
    return _text_or_none(value.get("from")), _text_or_none(value.get("revision"))


def _text_or_none(value: object) -> Optional[str]:
    return value if isinstance(value, str) else None


class Trace:
    """What a trace says: rules, the store, commits and entries by their lines."""

    def __init__(self) -> None:
        self.rules = Rules()
        self.store = Store()
        self.commits = Commits(self._commit_again)
        self.entries = Entries(self._entry_again)
        self.touches = 0
        # what the first line says of the table of ids
        self.table: object = None
        self._edges = TupleEdges(self.rules)
        # of each object and label, the line that issues it
        self._versions: dict[Label, int] = {}
        # the names of usersets that are declared, and the pairs of them in tuples whose edges are not broken
        self._declared: set[Names] = set()
        self._sound: set[tuple[Names, Names]] = set()
        self._names_of_texts: dict[bytes, Names] = {}

    def entry_on(self, line: int) -> Entry:
        """The entry on a line; raises NoEntry."""
        if line not in self.entries:
            raise NoEntry(line)
        return self.entries[line]

    def at_of(self, line: int) -> Optional[int]:
        """The timestamp of a line: of a commit its own, of an entry its snapshot."""
        if line in self.entries:
            return self.entries[line].snapshot
        place = self.commits.before(line)
        return self.commits.ats[place] if self.commits.lines[place:place + 1] == [line] else None

    def may_touch(self, places: range, goal: Tuple) -> bool:
        """Whether some of these commits may touch what a goal leads to: those that touch neither its user nor a userset, and have no new
        rules, do not."""
        assert isinstance(goal.user, int)
        return any(_may_touch(self.commits.commit_or_line(place), goal.user) for place in places)

    def look(self, goal: Tuple, low: int, high: int) -> Optional[Look]:
        """What commits above one timestamp, up to another do to a goal, where that is quickly seen."""
        return None

    def line_that_issues(self, of: Userset, version: str) -> Optional[int]:
        """The line that issues a version for an object."""
        return self._versions.get(_label(of, version))

    def take_quickly(self, line: int, raw: bytes) -> bool:
        """Takes a line of the form that importers write, whose names were seen before; False where it has to be looked at."""
        entry = quick_entry(raw)
        if entry is None:
            commit = quick_commit(raw)
            return commit is not None and self._commit_quickly(line, commit, raw)
        if not self._is_known(entry[1]) or not self.issue(line, entry):
            return False
        self.entries.keep(line, raw)
        return True

    def issue(self, line: int, entry: tuple[bytes, ...]) -> bool:
        """Notes the version that an entry issues, if it does; False where a line issued it before."""
        kind, _set, thing, _reply, version = entry
        return version is None or kind != b"content" or self._versions.setdefault((thing, version), line) == line

    def _is_known(self, of: bytes) -> bool:
        """Whether the text of a userset has a relation that was seen to be declared."""
        return self.store.knows(of) or _names(of) in self._declared

    def _commit_quickly(self, line: int, commit: QuickCommit, raw: bytes) -> bool:
        touched = commit.add + commit.remove
        if self.commits and commit.at <= self.commits.ats[-1] or len(set(touched)) != len(touched) \
                or self.touches + len(touched) > limits.TOUCHES:
            return False
        if not all(_names(of) in self._declared for of in self.store.untouched(touched)):
            return False
        if not all([self._is_sound(of, user) for of, user in commit.add if user[0] > NINE]):
            return False
        self.store.touch_texts(commit.at, commit.add, True)
        self.store.touch_texts(commit.at, commit.remove, False)
        self.touches += len(touched)
        self.commits.keep(line, commit.at, raw)
        return True

    def _is_sound(self, of: bytes, user: bytes) -> bool:
        """Whether the edges of a tuple with a userset as its user were seen not to be broken."""
        known = self._names_of_texts
        if len(known) > NAMED:
            known.clear()
        names = known.get(of) or known.setdefault(of, _names(of))
        return (names, known.get(user) or known.setdefault(user, _names(user))) in self._sound

    def take(self, line: int, raw: bytes) -> None:
        try:
            value = strictjson.value_of(raw)
        except strictjson.NotJson as fault:
            raise Refusal("not JSON", str(fault)) from None
        kind = value.get("kind") if isinstance(value, dict) else None
        if not isinstance(value, dict) or not isinstance(kind, str) or kind not in KINDS:
            raise Refusal("unknown kind", "the kind is %r; it should be one of %s" % (kind, ", ".join(KINDS)))
        if kind == "namespace":
            self._namespace(line, value)
        elif kind == "commit":
            self._commit(line, value)
        else:
            self._entry(line, kind, value)

    def _namespace(self, line: int, value: Object) -> None:
        try:
            declaration = self.rules.add(value)
        except RulesFault as fault:
            raise Refusal(str(fault), "namespace %r: %s" % (value.get("name"), fault.where)) from None
        if declaration.at is None and (self.commits or self.entries):
            raise Refusal("namespace after other lines",
                          "namespace %s has no `at`, and stands behind lines of other kinds" % declaration.name)
        self.rules.keep(declaration)
        self._edges.forget()
        self._sound.clear()
        self._refuse_broken(first_broken(rule_edges(declaration), self.rules.stratum), "a rule gives this edge")
        if declaration.at is None:
            return
        self._refuse_early(declaration.at)
        for given in self._edges.first.values():
            broken = first_broken(self._edges.of(given), self.rules.stratum)
            self._refuse_broken(broken, "tuple %s gives this edge under the rules of this line" % (given,))
        self.commits.keep(line, declaration.at, Commit(line, declaration.at, [], [], *_said(value), declaration.name, _text_or_none(value.get("time"))))

    def _refuse_broken(self, broken: Optional[Edge], why: str) -> None:
        if broken is None:
            return
        cause = "strata, relation %d of namespace %d reads relation %d of namespace %d" % (
            self._numbers(broken.reader) + self._numbers(broken.read))
        strata = [self.rules.stratum(*name) for name in (broken.reader, broken.read)]
        raise Refusal(cause + (" strictly" if broken.strict else ""), str(broken), why,
                      "%s#%s has stratum %d and %s#%s has stratum %d; what is read has to be %s the reader"
                      % (*broken.reader, strata[0], *broken.read, strata[1],
                         "below" if broken.strict else "at or below"))

    def _numbers(self, name: tuple[str, str]) -> tuple[int, int]:
        return self.rules.relations(name[0]).index(name[1]) + 1, list(self.rules.current).index(name[0]) + 1

    def _refuse_early(self, at: int) -> None:
        if self.commits and at <= self.commits.ats[-1]:
            last = self.commits.ats[-1]
            raise Refusal("commit not later than %d" % last,
                          "`at` is %d, and the commit before it, on line %d, has %d" % (at, self.commits.lines[-1], last))

    def _commit(self, line: int, value: Object) -> None:
        at = value.get("at")
        if not isinstance(at, int) or not is_u64(at):
            raise Refusal("wrong shape", "`at` is %r, and no whole number of 64 bits" % (at,))
        sides = [self._tuples(value, key) for key in ("add", "remove")]
        for key, given in self._keyed(sides):
            self._refuse_undeclared(given.set, "%s is %s" % (key, given))
        for place, given in enumerate(sides[0]):
            self._refuse_broken(first_broken(self._edges.of(given), self.rules.stratum),
                                "add[%d] is %s, which gives this edge" % (place, given))
        self._refuse_early(at)
        self._refuse_twice(sides)
        if self.touches + len(sides[0]) + len(sides[1]) > limits.TOUCHES:
            raise Refusal("too many changes", "more than %d touches" % limits.TOUCHES)
        self.touches += len(sides[0]) + len(sides[1])
        for given in sides[0]:
            self._edges.keep(given)
            if isinstance(given.user, Userset):
                self._sound.add((_names_of(given.set), _names_of(given.user)))
        for live, side in zip((True, False), sides):
            for given in side:
                self._declared.add(_names_of(given.set))
                self.store.touch(at, given, live)
        self.commits.keep(line, at, self._commit_of(line, value, sides))

    @staticmethod
    def _commit_of(line: int, value: Object, sides: list[list[Tuple]]) -> Commit:
        add, remove = sides
        return Commit(line, value["at"], add, remove, *_said(value), None, _text_or_none(value.get("time")))

    def _commit_again(self, line: int, raw: bytes) -> Commit:
        """A commit that was taken quickly."""
        value = strictjson.object_of(raw)
        return self._commit_of(line, value, [self._tuples(value, key) for key in ("add", "remove")])

    @staticmethod
    def _keyed(sides: list[list[Tuple]]) -> Iterator[tuple[str, Tuple]]:
        for key, side in zip(("add", "remove"), sides):
            for place, given in enumerate(side):
                yield "%s[%d]" % (key, place), given

    @staticmethod
    def _tuples(value: Object, key: str) -> list[Tuple]:
        for name in ("add", "remove"):
            listed = [] if value.get(name) is None else value[name]
            if not isinstance(listed, list) or not all(isinstance(text, str) for text in listed):
                raise Refusal("wrong shape", "`%s` is no list of texts" % name)
        read = []
        for place, text in enumerate(value.get(key) or []):
            try:
                read.append(texts.parse_tuple(text))
            except texts.TextFault as fault:
                raise Refusal(str(fault), *_text_details("%s[%d]" % (key, place), text, fault)) from None
        return read

    def _refuse_twice(self, sides: list[list[Tuple]]) -> None:
        first: dict[Tuple, str] = {}
        for place, (key, given) in enumerate(self._keyed(sides)):
            if given in first:
                raise Refusal("tuple touched twice, place %d" % place,
                              "%s is %s, which %s is too" % (key, given, first[given]))
            first[given] = key

    def _refuse_undeclared(self, of: Userset, where: str) -> None:
        if not self.rules.is_declared(of.namespace, of.relation):
            known = self.rules.relations(of.namespace)
            raise Refusal("undeclared relation", where,
                          "namespace %s declares %s" % (of.namespace, ", ".join(known)) if known
                          else "no line before declares namespace %s" % of.namespace)

    def _entry(self, line: int, kind: str, value: Object) -> None:
        self._refuse_shape(kind, value)
        try:
            goal = texts.parse_fact(value["goal"])
        except texts.TextFault as fault:
            raise Refusal(str(fault), *_text_details("goal", value["goal"], fault)) from None
        zookie, version = value.get("zookie"), value.get("version")
        if zookie is not None:
            try:
                texts.parse_zookie(zookie)
            except texts.ZookieFault as fault:
                raise Refusal(str(fault), "zookie is %r" % zookie) from None
        self._refuse_undeclared(goal.set, "goal is " + str(goal))
        self._declared.add(_names_of(goal.set))
        if kind == "content" and version is not None:
            issued = self._versions.setdefault(_label(goal.set, version), line)
            if issued != line:
                raise Refusal("repeated version", "version %r of %s:%s was issued on line %d"
                              % (version, goal.set.namespace, goal.set.id, issued))
        self.entries.keep(line, self._entry_of(line, kind, value, goal))

    def _entry_of(self, line: int, kind: str, value: Object, goal: Tuple) -> Entry:
        version = value.get("version")
        return Entry(kind, line, goal, value["snapshot"], value["reply"], value.get("zookie"), version,
                     self._issued_before(line, kind, goal.set, version), *_said(value), _text_or_none(value.get("time")),
                     _text_or_none(value.get("part")), value.get("again") is True)

    def _issued_before(self, line: int, kind: str, of: Userset, version: Optional[str]) -> Optional[int]:
        """The line before a check that issues its version."""
        issued = self.line_that_issues(of, version) if kind == "check" and version is not None else None
        return issued if issued is not None and issued < line else None

    def _entry_again(self, line: int, raw: bytes) -> Entry:
        """An entry that was taken quickly."""
        read = quick_fields(raw)
        if read is None:
            raise OtherForm
        kind, namespace, id_text, relation, user, snapshot, reply, zookie, version, revision, source, time, part, again = read
        of, label = Userset(namespace.decode(), id_text.decode(), relation.decode()), _decoded(version)
        return Entry(kind.decode(), line, Tuple(of, int(user)), int(snapshot), reply == b"true", _decoded(zookie), label,
                     None if label is None else self._issued_before(line, kind.decode(), of, label), _decoded(source), _decoded(revision),
                     _decoded(time), _decoded(part), again is not None)

    @staticmethod
    def _refuse_shape(kind: str, value: Object) -> None:
        wrong = []
        if not isinstance(value.get("goal"), str):
            wrong.append("`goal` is no text")
        if not is_u64(value.get("snapshot")):
            wrong.append("`snapshot` is %r, and no whole number of 64 bits" % (value.get("snapshot"),))
        if not isinstance(value.get("reply"), bool):
            wrong.append("`reply` is neither true nor false")
        if not isinstance(value.get("zookie"), (str, type(None))):
            wrong.append("`zookie` is no text")
        version = value.get("version")
        if version is not None and not (isinstance(version, str)
                                        and 1 <= len(version.encode()) <= limits.VERSION_BYTES):
            wrong.append("`version` is no label of 1 to %d bytes" % limits.VERSION_BYTES)
        if kind == "content" and (version is not None) != (value.get("reply") is True):
            wrong.append("a content line has a version exactly where its reply is true")
        if wrong:
            raise Refusal("wrong shape", *wrong)


def _text_details(key: str, text: str, fault: texts.TextFault) -> list[str]:
    return ["%s is %r" % (key, text), "its %s begins at byte %d: %r"
            % (fault.part, fault.at, text.encode()[fault.at:].decode(errors="replace"))]


def _names(of: bytes) -> Names:
    """The namespace and the relation in the text of a userset."""
    return of[:of.index(b":")], of[of.rindex(b"#"):]


def _names_of(of: Userset) -> Names:
    return of.namespace.encode(), b"#" + of.relation.encode()


def _label(of: Userset, version: str) -> Label:
    return ("%s:%s" % (of.namespace, of.id)).encode(), version.encode()


def _decoded(text: Optional[bytes]) -> Optional[str]:
    return None if text is None else text.decode()


def _may_touch(kept: Union[Commit, bytes], user: int) -> bool:
    if isinstance(kept, bytes):
        return b'@%d"' % user in kept or MEMBER.search(kept) is not None
    return kept.changes is not None or any(given.user == user or isinstance(given.user, Userset) for given in kept.add + kept.remove)


def _take_lines(trace: Trace, data: bytes, step: Callable[[int], None]) -> None:
    """Raises Fault on the first line that the program refuses."""
    line, is_quick = 0, is_utf8(data)
    try:
        for line, raw in strictjson.lines_of(data):
            if not (is_quick and trace.take_quickly(line, raw)):
                trace.take(line, raw)
            if line % STEP == 0:
                step(line)
    except strictjson.TooLong as fault:
        raise Fault("trace", fault.line, "too long", ["a line has at most %d bytes, and an input %d"
                                                      % (limits.LINE_BYTES, limits.INPUT_BYTES)]) from None
    except Refusal as refusal:
        raise Fault("trace", line, str(refusal), refusal.details) from None


def read_lines(numbered: Iterable[tuple[int, bytes]]) -> Trace:
    """The trace of lines with their numbers; raises Fault on the first that is refused."""
    trace = Trace()
    for line, raw in numbered:
        try:
            if not (is_utf8(raw) and trace.take_quickly(line, raw)):
                trace.take(line, raw)
        except Refusal as refusal:
            raise Fault("trace", line, str(refusal), refusal.details) from None
    return trace


def read_trace(data: bytes, step: Callable[[int], None] = lambda line: None) -> Trace:
    """The trace; raises Fault on the first line that the program refuses. `step` is told now and then how many were read."""
    trace = Trace()
    with held_off():
        _take_lines(trace, data, step)
    return trace
