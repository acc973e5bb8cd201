"""What the front ends of the services share."""
from functools import partial
from typing import Any, Callable, Iterable, Iterator, Mapping, NamedTuple, Optional, Union

from new_enemy_tools import limits
from new_enemy_tools.importing import causes, located, passing, printed
from new_enemy_tools.importing.block import Reader, Usual, When
from new_enemy_tools.importing.carried import Blocks, Carried, Otherwise, has_steps
from new_enemy_tools.importing.checks import NEWEST, Look, Row
from new_enemy_tools.importing.events import (EVERY, STAMP, Entry, Event, Line, Relationship, Stamp, newest_of, note_number,
                                              sequence_of, stamp_of)
from new_enemy_tools.importing.line_shapes import Form, Said
from new_enemy_tools.importing.packed_blocks import Indexer
from new_enemy_tools.importing.pairing import Pairing
from new_enemy_tools.importing.reading import Bad, get
from new_enemy_tools.importing.refusals import Refusals
from new_enemy_tools.importing.spool import Lines, Read
from new_enemy_tools.importing.write_calls import with_calls
from new_enemy_tools.keys import near, unread
from new_enemy_tools.rules import places


def one_of(table: Mapping[Any, bool], value: object) -> Optional[bool]:
    """What a name or a number stands for, which may have a fraction of zero; None where the table does not have it."""
    return table.get(value) if isinstance(value, (str, int, float)) and not isinstance(value, bool) else None


def text_or_none(value: object, what: str) -> Optional[str]:
    if not isinstance(value, (str, type(None))):
        raise Bad("`%s` is no text" % what)
    return value


def nested(form: str, children: list[dict[str, Any]]) -> dict[str, Any]:
    """A union or intersection, in groups where it has more children than a trace takes."""
    while len(children) > limits.CHILDREN:
        children = [{form: children[at:at + limits.CHILDREN]} for at in range(0, len(children), limits.CHILDREN)]
    return {form: children}


Users = set[tuple[str, Optional[str]]]


class ServiceRules(NamedTuple):
    """The rules of a model or schema, its id, and which users a relation takes: (type, relation or None)."""

    event: Event
    id: Optional[str]
    takes: dict[tuple[str, str], Users]
    # other rules that are known, of which it is not said when they were in force
    others: "tuple[ServiceRules, ...]" = ()
    # the users that a relation takes with a condition, a caveat or an expiration alone
    conditional: Mapping[tuple[str, str], Users] = {}


def tuplesets_of(event: Event) -> set[tuple[str, str]]:
    """The relations, by their types, from whose users rules go on."""
    return {(name, place.names[0]) for name, relations in event.namespaces.items() for relation in relations
            for place in places(relation.rewrite) if place.form == "tuple_to"}


def refuse_wild_tuplesets(event: Event, takes: dict[tuple[str, str], set[tuple[str, Optional[str]]]], refusals: Refusals) -> None:
    """No service lets a rule go on from every object of a type."""
    for name, relations in event.namespaces.items():
        for relation in relations:
            for place in places(relation.rewrite):
                wild = sorted(of for of, taken in (takes.get((name, place.names[0]), ()) if place.names else ()) if taken == EVERY)
                if place.form == "tuple_to" and wild:
                    refusals.refuse(event.file, relation.line, "%s#%s goes on from %s#%s, which takes a wildcard: %s:*"
                                    % (name, relation.name, name, place.names[0], wild[0]))


class Answer(NamedTuple):
    """A decision that a line records, and why a trace has no form for it."""

    goal: Relationship
    reply: bool
    unmapped: Optional[str]


# Whether a check sees such a tuple, services do not say.
WITHOUT_CONDITION = "tuple without the condition that the rules demand"

# A decision of which it can't be read what it was, and what is told of it.
MANY = "one of several of this line"
UNREAD = Answer(Relationship("?", "?", "?", "?", "?"), False, causes.UNREADABLE)


def each(asked: list[Any], answer_of: Callable[[Any], Answer]) -> Iterator[Answer]:
    """What is decided of each; one that can't be read costs no other. Raises Bad where there is no other."""
    for one in asked:
        try:
            answer = answer_of(one)
        except Bad:
            if len(asked) == 1:
                raise
            answer = UNREAD
        yield answer


def streamed(responses: list[Any], refusals: Refusals) -> list[Any]:
    """The answers of a call that streams them, each bare or as a `result`; a fault at their end is counted."""
    found = []
    for one in responses:
        failed = None if get(one, "result") is not None else passing.failure_of(one, ())
        if failed is None:
            found.append(get(one, "result") or one)
        else:
            refusals.pass_over(failed)
    return found


class CheckedAt(NamedTuple):
    """The snapshot and the token of a check, and its version."""

    snapshot: Optional[int]
    shown: str
    token: Optional[int]
    version: Optional[str]
    asked: Optional[tuple[Any, ...]]


def demand_of(asked_for_newest: bool, version: Optional[str], token: object) -> Optional[int]:
    """In place of a token, what a check with a version demanded that names none and asked for the newest state."""
    return NEWEST if asked_for_newest and version is not None and token is None else None


def content_of(value: object) -> Optional[dict[str, Any]]:
    content = get(value, "content")
    if not isinstance(content, (dict, type(None))):
        raise Bad("`content` is no object")
    return content


class Log:
    """Reads the log of a service with one set of rules; each service says how its lines are read."""

    NOT_TAKEN = NO_LINE = BASE = ""
    # the keys of a recorder's line; what stands within `request` and `response` is the service's own
    KEYS = STAMP | passing.KEYS | {"request", "response", "version", "content", "newest"}
    # of a response, what a decision stands in, a single one first; and the calls that have none
    DECIDES: tuple[str, ...] = ()
    DECISIONS: frozenset[str] = frozenset()
    OTHERS: dict[str, tuple[str, ...]] = {}
    # those of them that write; what is told of a call whose changes the log has; and what a log lacks that has no changes
    WRITES: tuple[str, ...] = ()
    # whether the answers of calls that write have revisions
    HAS_REVISIONS = False
    CALL_KNOWN = GIVE_CHANGES = ""
    # whether revisions are places in a feed, of which several may be one commit
    HAS_PLACES = False
    # what a request has that asks for some of the changes alone
    PARTIAL: tuple[str, ...] = ()
    # what stands in each line that says of new rules
    RULES: tuple[bytes, ...] = ()
    CONTENT = frozenset(("version", "token"))
    # the usual check, content check, and write; and the usual checks and content checks as they are printed
    CHECK: Form
    CONTENT_CHECK: Form
    WRITE: Form
    LOGGED: tuple[tuple[Form, Form], ...] = ()
    CALLS: tuple[Form, ...] = ()

    def __init__(self, rules: ServiceRules, base_at: Any, refusals: Refusals):
        self.rules, self.base_at, self.refusals = rules, base_at, refusals
        self.joining = printed.Joining()
        self.conditional = [rules.conditional]

    @staticmethod
    def read_base(text: str) -> Any:
        """The revision of the base state, in the service's own form; None where the text is none."""
        raise NotImplementedError

    def base(self, path: str) -> Iterator[Event]:
        raise NotImplementedError

    def base_number(self) -> Optional[int]:
        """The number that stands for the revision of the base state."""
        raise NotImplementedError

    def placed(self, lines: Lines, skew: Optional[int]) -> Lines:
        """The lines with numbers for revisions, where those of the service are more than that."""
        raise NotImplementedError

    def is_write(self, value: object) -> bool:
        raise NotImplementedError

    def writes(self, value: dict[str, Any], stamp: Stamp, path: str, line: int) -> Iterator[Event]:
        raise NotImplementedError

    def new_rules(self, value: object) -> object:
        """The rules that a line says are in force from there on; None where it says of none."""
        raise NotImplementedError

    def change(self, rules: object, value: dict[str, Any], stamp: Stamp, path: str, line: int) -> Iterator[Event]:
        """Rules of a line, as an event; raises Bad."""
        raise NotImplementedError

    def take(self, rules: ServiceRules) -> None:
        """Lets relations take what these rules let them, too; which were in force for a tuple, the order of lines does not say."""
        for name, taken in rules.takes.items():
            self.rules.takes.setdefault(name, set()).update(taken)
        self.conditional.append(rules.conditional)

    def look_of(self, said: Said) -> Optional[Look]:
        """What a check looked at, by the values of a line of a usual shape, as `moment` has it; None where it has none."""
        raise NotImplementedError

    def when_of(self, said: Said) -> Optional[When]:
        """The revision of a write of a usual shape, as `writes` has it; None where it has none."""
        raise NotImplementedError

    @staticmethod
    def relation_of(given: Optional[bytes]) -> Optional[str]:
        """The relation of a tuple's user, as a usual shape has it."""
        return given and given.decode() or None

    def _takes(self, of: str, relation: str, user_type: str, user_relation: Optional[str]) -> bool:
        return (user_type, user_relation) in self.rules.takes.get((of, relation), ())

    def may_store(self, given: Relationship) -> bool:
        """Whether some rules take a tuple."""
        return self._takes(given.type, given.relation, given.user_type, given.user_relation)

    def moment(self, value: dict[str, Any], content: Optional[dict[str, Any]]) -> CheckedAt:
        """What a check looked at, and what it demanded; raises Bad."""
        raise NotImplementedError

    def answers(self, value: dict[str, Any]) -> Iterator[Answer]:
        """What a line decides; raises Bad."""
        raise NotImplementedError

    def gather(self, path: str, lines: Lines, jobs: int) -> Iterator[int]:
        """Adds the lines of a log; how many there are, now and then. New rules matter to all behind them, which one process reads."""
        checks, contents = zip((self.CHECK, self.CONTENT_CHECK), *self.LOGGED)
        usual = Usual(checks, contents, (self.WRITE,), self.look_of, self.when_of, self._takes, self.relation_of,
                      self.CALLS)
        source, reader = located.Source(path), Reader(path, usual, Indexer(tuplesets_of(self.rules.event), self.HAS_PLACES))
        if not source.is_lines():
            for line in self.events(path, source.values(self.refusals)):
                lines.add(line)
                yield lines.facts.count
            lines.facts.numbers.merge(self.refusals.numbers)
            self._end(path, self.joining.left())
            return
        blocks = Blocks(source, partial(self._block, source, reader), jobs)
        for found in blocks.read():
            if isinstance(found, located.Block):
                self.joining = blocks.joining
                for piece in reader.pieces(found, partial(self._full, path)):
                    lines.add_piece(piece)
            else:
                lines.add_piece(found[0])
                self.refusals.merge(found[1])
            lines.facts.numbers.merge(self.refusals.numbers)
            yield lines.facts.count
        self._end(path, blocks.left)

    def _end(self, path: str, left: list[tuple[int, Optional[str]]]) -> None:
        """A call whose response does not stand in the file of its request was not told."""
        for line, call in left:
            self._half(path, line, call, "the log has no response of this request")
        self.joining = printed.Joining()

    def _half(self, path: str, line: int, call: Optional[str], told: str) -> None:
        """A line without what belongs to it. Of a call that wrote it is then not known what."""
        if call in self.WRITES:
            self.refusals.unseen.setdefault(call, (path, line))
        if call == "WriteSchema":
            self.refusals.refuse(path, line, told)
        elif call in self.OTHERS:
            self.refusals.pass_over("other call (%s)" % call)
        else:
            self.refusals.unread_check(path, line, causes.UNREADABLE, told)

    def _block(self, source: located.Source, reader: Reader, given: Carried) -> Union[tuple[Read, Refusals], Carried, None]:
        """What a process makes of a block; the block itself where it may have new rules, and None where lines are joined otherwise than they seem."""
        block = source.block(given.place)
        if any(mark in text for mark in self.RULES for text in (block.data, *(line for line, _ in given.waiting.values()))):
            return given
        kept = self.refusals, self.joining
        try:
            self.refusals, self.joining = Refusals(self.refusals.is_strict), printed.Joining()
            pairing = Pairing(self.joining, given, partial(self._full, reader.path), reader.ends)
            read, *others = reader.pieces(block, pairing.full, pairing if has_steps(block) else None)
            # A key of new rules may be written in another way.
            return given if others or not isinstance(read, Read) else (read, self.refusals)
        except Otherwise:
            return None
        finally:
            self.refusals, self.joining = kept

    def _full(self, path: str, number: int, line: bytes) -> list[Line]:
        """What a line has, read in full."""
        return list(self.events(path, located.line_values(number, line, path, self.refusals)))

    def events(self, path: str, values: Iterable[tuple[int, Any]]) -> Iterator[Line]:
        for line, given in values:
            if not printed.is_event(given):
                note_number(given, path, line, self.refusals)
            for key in printed.mistyped(given):
                self.refusals.refuse(path, line, key.said())
            try:
                value = self._line_within(given, line)
            except Bad as fault:
                self._half(path, line, printed.call_of(given), str(fault))
                continue
            if value is None and given is not None:
                continue
            stamp = stamp_of(value if isinstance(value, dict) else {}, path, line, self.refusals)
            try:
                yield from self._line(value, stamp, path, line)
            except Bad as fault:
                self.refusals.refuse(path, line, str(fault))

    def _line(self, value: Any, stamp: Stamp, path: str, line: int) -> Iterator[Line]:
        """What a line has; raises Bad."""
        self._refuse_unread(value)
        is_check = get(value, "request") is not None
        changes = get(value, "response") if is_check else value
        if is_check and get(changes, self.DECIDES[0]) is not None:
            yield from self._checks(value, stamp, path, line)
        elif self.is_write(changes):
            self.refuse_partial(get(value, "request"), changes, stamp, path, line)
            yield from self.writes(changes, stamp, path, line)
        elif (rules := self.new_rules(value)) is not None and passing.failure_of(value, self.DECIDES) is None:
            yield from self.change(rules, value, stamp, path, line)
        else:
            yield from self._call(value, is_check, stamp, path, line)

    def refuse_partial(self, request: object, changes: object, stamp: Stamp, path: str, line: int) -> None:
        """Of changes that were asked for in part it is not known what stands between them; raises Bad."""
        found = get(changes, "changes") or get(get(changes, "result") or changes, "updates")
        asked = [key for key in self.PARTIAL if get(request, key)] if found else []
        if asked:
            raise Bad("the request of these changes has `%s`, and an audit needs all changes: ask without it" % asked[0])

    def _call(self, value: Any, is_check: bool, stamp: Stamp, path: str, line: int) -> Iterator[Line]:
        """What a line has that is no single decision, no change and no rules; raises Bad."""
        passed = passing.failure_of(value, self.DECIDES)
        if passed is None and is_check and get(value, "response") is not None:
            made = list(self.calls(value, stamp, path, line))
            if made:
                yield from made
                return
        if passed is None and (is_check or get(value, "method") is not None):
            passed = self._other_call(value, path, line)
        if passed is None and not is_check and printed.is_own_log(value):
            passed = printed.OWN
        if passed:
            self.refusals.pass_over(passed)
        elif is_check:
            yield from self._checks(value, stamp, path, line)
        else:
            raise Bad(self.NO_LINE + printed.hint_of(value))

    def calls(self, value: dict[str, Any], stamp: Stamp, path: str, line: int) -> Iterator[Event]:
        """The writes of a call that wrote, where its line says all of them; raises Bad."""
        raise NotImplementedError

    def _other_call(self, value: object, path: str, line: int) -> Optional[str]:
        """What is told of a call that records no decision; one that wrote is kept in mind."""
        call = passing.other_call_of(value, self.OTHERS)
        if call in self.WRITES and get(get(value, "response"), "relationshipsDeletedCount") not in (0, "0"):
            self.refusals.unseen.setdefault(call, (path, line))
        return call and "other call (%s)" % call

    def with_calls(self, lines: Lines, key_of: Callable[[Row], object]) -> Lines:
        """The lines with the writes of calls as writes, but for those that the service's changes have, by what both have in common."""
        if not lines.facts.has_calls:
            return lines
        made, count = with_calls(lines, key_of, self.HAS_REVISIONS, self.refusals)
        self.refusals.passed.update({self.CALL_KNOWN: count} if count else {})
        return made

    def refuse_unseen(self, lines: Lines) -> None:
        """Writes that no line tells would make right replies behind them wrong ones, and stale ones right; the service's changes have all."""
        if any(True for _ in lines.writes()):
            return
        for call, (path, line) in self.refusals.unseen.items():
            self.refusals.refuse(path, line, "this %s wrote, and no line of the log says all of what: %s" % (call, self.GIVE_CHANGES))

    def _line_within(self, given: Any, line: int) -> Any:
        """The line that a printed one tells; None where it tells none as yet. Raises Bad."""
        value = self.joining.joined(given, line, self.KEYS) if self.joining.takes(given) else printed.unwrapped(given, self.KEYS)
        if value is not given and value is not None and value.get("request") is None and passing.method_of(value) in self.DECISIONS \
                and passing.failure_of(value, self.DECIDES) is None:
            raise Bad(printed.UNTOLD)
        return value

    def _checks(self, value: dict[str, Any], stamp: Stamp, path: str, line: int) -> Iterator[Entry]:
        """A check that can't be read is not audited. Of a content check it is then not known which version it issued."""
        try:
            answers = list(self.answers(value))
            if not answers:
                self.refusals.pass_over("call that found nothing")
                return
            content = content_of(value)
            moment = self.moment(value, content)
            newest = newest_of(value, Bad)
            if newest and content is None:
                raise Bad("`newest` is said of a content check")
            if content is not None and any(value.get(key) is not None for key in self.CONTENT):
                raise Bad("what a content check saves stands in `content`, and this line has a `version` or a `token` beside it: give each a line")
            if content is not None and len(answers) > 1:
                raise Bad("a content check asks one question, and this line %d" % len(answers))
        except Bad as fault:
            is_content = get(value, "content") is not None
            self.refusals.has_lost_version |= is_content
            self.refusals.unread_check(path, line, causes.UNREADABLE_CONTENT if is_content else causes.UNREADABLE, str(fault))
            return
        snapshot, shown, token, version, asked = moment
        if version is not None and len({one.goal[:2] for one in answers if one is not UNREAD}) > 1:
            for _ in answers:
                self.refusals.unread_check(path, line, causes.UNREADABLE, "a `version` is of one object, and this line asks of several")
            return
        for place, answer in enumerate(answers):
            entry = Entry("check" if content is None else "content", path, line, answer.goal, answer.reply, snapshot, shown, token, version,
                          None, newest, asked, sequence_of(stamp, place), stamp.time, stamp.clock)
            if answer.unmapped:
                self.refusals.unmapped_check(entry, answer.unmapped, MANY if answer is UNREAD else entry.question)
            else:
                yield entry

    def _refuse_unread(self, value: Any) -> None:
        """A key that is not read, in what is the recorder's; a line of the service alone may have others of its own."""
        if get(value, "request") is not None:
            for key in unread(value, self.KEYS):
                raise Bad(key.said())
            for key in unread(value.get("content"), self.CONTENT):
                raise Bad(key.said())
            return
        for key in unread(value, STAMP):
            if near(key.key, STAMP):
                raise Bad(key.said())

    def put(self, event: Event, given: Relationship, live: bool, reason: Optional[str]) -> bool:
        """Adds a tuple to a write; one that has no form in a trace, for this reason or another, is left out, and so is its deletion."""
        is_taken = self.may_store(given)
        if live and not is_taken and reason is None:
            user = given.user_type, given.user_relation
            is_conditional = any(user in one.get((given.type, given.relation), ()) for one in self.conditional)
            reason = WITHOUT_CONDITION if is_conditional else self.NOT_TAKEN
            if not is_conditional:
                self.refusals.has_other_rules = True
                self.refusals.untaken.setdefault(((given.type, given.relation), user), (event.file, event.line))
        if live and reason:
            self.refusals.unmapped_tuple(event.file, event.line, reason, given, event.base)
        elif live or is_taken:
            (event.add if live else event.remove).append(given)
        return not (live and reason)
