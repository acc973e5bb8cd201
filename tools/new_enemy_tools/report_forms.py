"""The forms that a report is given in for machines, and as text."""
import re
from typing import Callable, Iterator, NamedTuple, Optional

from new_enemy_tools import strictjson, texts
from new_enemy_tools.audit_summary import Telling
from new_enemy_tools.baseline import asked_of, key_of, key_with
from new_enemy_tools.effects import MEANT, RatedFinding
from new_enemy_tools.entries import Entry
from new_enemy_tools.groups import Group
from new_enemy_tools.shown import plain

Row = dict[str, object]
LEVELS = {"error": "error", "warning": "warning", "note": "notice"}


class Place(NamedTuple):
    """A file, and a line of it."""

    file: str
    line: int


def logged(source: Optional[str]) -> Optional[Place]:
    """Where the import that wrote a line of the trace had it from, if it kept that."""
    file, colon, line = (source or "").rpartition(":")
    return Place(file, int(line)) if colon and file and re.fullmatch("[1-9][0-9]{0,17}", line) else None


def place_of(telling: Telling, entry: Entry) -> Place:
    """Where an entry is shown: in the log, or where that was not kept, in the trace."""
    return logged(entry.source) or Place(telling.path, entry.line)


Places = dict[tuple[int, str], int]


def places_in(groups: list[Group]) -> Places:
    """Of each finding the number of its group, from 1."""
    return {(one.finding.line, one.finding.finding): number for number, group in enumerate(groups, 1) for one in group.findings}


def row_of(telling: Telling, told: RatedFinding) -> Row:
    """A finding as an object; a key is there where it has a value."""
    finding, entry, effect, change = told.finding, told.entry, told.effect, told.change
    log = logged(entry.source)
    row: Row = {"line": finding.line, "finding": finding.finding, "text": finding.text, "effect": effect.word,
           "severity": effect.severity, "outcome": told.outcome, "seen": effect.seen, "kind": entry.kind,
           "goal": str(entry.goal), "named": telling.names.tuple(entry.goal) if telling.names.ids else None,
           "snapshot": entry.snapshot, "reply": entry.reply, "zookie": entry.zookie,
           "zookie_at": texts.parse_zookie(entry.zookie)[0] if entry.zookie is not None else None,
           "version": entry.version, "related": finding.related,
           "related_at": None if finding.related is None else telling.trace.at_of(finding.related), "step": finding.step,
           "from": entry.source, "file": log and log.file, "file_line": log and log.line, "revision": entry.revision, "time": entry.time,
           "ignored_at": change and change.at, "ignored_since": change and change.time, "new_enemy": told.is_new_enemy or None}
    return strictjson.filled(row)


def keyed_row_of(telling: Telling, told: RatedFinding, places: Places) -> Row:
    """The same with the number of its group, if it is told, and the key by which a baseline knows it."""
    group = places.get((told.finding.line, told.finding.finding))
    return {**row_of(telling, told), **strictjson.filled({"group": group}), "key": key_of(told, telling.names)}


def sums_row(telling: Telling) -> Row:
    report, sums = telling.report, telling.sums
    return strictjson.filled({"sums": {**sums.requests._asdict(), "distinct": sums.distinct._asdict(), "new_enemies": sums.new_enemies,
                              "text": telling.said}, "groups": len(telling.groups), "service": telling.service, "entries": report.entries,
                     "findings": len(report.findings), "told": len(telling.told), "ignored": len(telling.ignored),
                     "known": len(telling.known), "verdict": report.verdict, "named": telling.names.ids is not None,
                     "held_over": telling.held_over or None, "held_back": telling.held_back or None, "uncompared": telling.uncompared or None,
                     **telling.labels._asdict(), "note": telling.labels.note, "coverage": {"state": telling.coverage.state, **telling.coverage.row()}})


def json_of(value: object) -> str:
    """A letter that is not seen is there by its number, which in JSON is the same letter."""
    return plain(strictjson.encode(value))


def json_lines(telling: Telling) -> Iterator[str]:
    """Each row is that of `keyed_row_of`, put together from what findings and entries have in common."""
    yield json_of(sums_row(telling))
    rows = RowTexts(telling)
    for told in telling.told:
        yield rows.of(told)


class EntryTexts(NamedTuple):
    """What the rows of one entry have in common, and what its keys have."""

    first: str
    last: str
    asked: str


class RowTexts:
    """The rows of findings as JSON. What is kept grows with the entries that have findings."""

    def __init__(self, telling: Telling):
        self.telling = telling
        self._places = places_in(telling.groups)
        self._entries: dict[int, EntryTexts] = {}
        self._heads: dict[tuple[str, str, Optional[str]], str] = {}

    def of(self, told: RatedFinding) -> str:
        finding, effect, entry = told.finding, told.effect, told.entry
        texts = self._entries.get(entry.line)
        if texts is None:
            texts = self._entries[entry.line] = self._texts(entry)
        said = (finding.finding, effect.word, told.outcome)
        head = self._heads.get(said) or self._heads.setdefault(said, self._head(told))
        seen = "" if effect.seen is None else '"seen":%d,' % effect.seen
        more = "" if finding.step is None else ',"step":%d' % finding.step
        if finding.related is not None:
            more = ',"related":%d,"related_at":%d%s' % (finding.related, self.telling.trace.at_of(finding.related) or 0, more)
        return '{"line":%d,%s,%s%s%s%s%s,"group":%d,"key":"%s"}' % (
            entry.line, head, seen, texts.first, more, texts.last, self._ignored(told), self._places[entry.line, finding.finding],
            key_with(finding.finding, effect.word, texts.asked))

    @staticmethod
    def _ignored(told: RatedFinding) -> str:
        change = told.change
        if change is None:
            return ""
        since = "" if change.time is None else ',"ignored_since":%s' % json_of(change.time)
        return ',"ignored_at":%d%s%s' % (change.at, since, ',"new_enemy":true' if told.is_new_enemy else "")

    @staticmethod
    def _head(told: RatedFinding) -> str:
        return json_of(strictjson.filled({"finding": told.finding.finding, "text": told.finding.text, "effect": told.effect.word,
                               "severity": told.effect.severity, "outcome": told.outcome}))[1:-1]

    def _texts(self, entry: Entry) -> EntryTexts:
        names = self.telling.names
        first = '"kind":"%s","goal":%s,%s"snapshot":%d,"reply":%s' % (
            entry.kind, json_of(str(entry.goal)), '"named":%s,' % json_of(names.tuple(entry.goal)) if names.ids else "", entry.snapshot,
            "true" if entry.reply else "false")
        if entry.zookie is not None:
            first += ',"zookie":"%s","zookie_at":%d' % (entry.zookie, texts.parse_zookie(entry.zookie)[0])
        if entry.version is not None:
            first += ',"version":' + json_of(entry.version)
        if entry.source is None and entry.revision is None and entry.time is None:
            return EntryTexts(first, "", asked_of(entry, names))
        log = logged(entry.source)
        last = json_of(strictjson.filled({"from": entry.source, "file": log and log.file, "file_line": log and log.line, "revision": entry.revision,
                               "time": entry.time}))
        return EntryTexts(first, "," + last[1:-1], asked_of(entry, names))


def sentence(row: Row) -> str:
    said = "%s %s: %s of %s at snapshot %s replied %s" % (
        row["finding"], row["text"], row["kind"], row.get("named", row["goal"]), row["snapshot"], str(row["reply"]).lower())
    for key, words in (("zookie_at", "token of %s"), ("version", "version %s"), ("related", "see line %s"),
                       ("step", "step %s"), ("from", "from %s"), ("time", "asked %s"), ("ignored_since", "ignored a change of %s"),
                       ("effect", "effect %s")):
        said += ", " + words % row[key] if key in row else ""
    return said + ": " + ("someone was %s" % row["outcome"] if "outcome" in row else MEANT[str(row["effect"])])


def group_sentence(telling: Telling, group: Group) -> str:
    """The worst finding of a group, and how often and when it was asked."""
    row = row_of(telling, group.worst)
    if group.requests > 1:
        row.pop("time", None)
    more = ["a new enemy"] if group.is_new_enemy else []
    more += ["with %s" % " and ".join(group.others)] if group.others else []
    more += [group.said] if group.requests > 1 else []
    return sentence(row) + "".join("; " + one for one in more)


def text(telling: Telling) -> Iterator[str]:
    yield telling.said
    yield from telling.notes
    yield from group_lines(telling)


def group_lines(telling: Telling) -> Iterator[str]:
    """A line for each group of findings."""
    for group in telling.groups:
        yield plain("line %d: %s" % (group.worst.finding.line, group_sentence(telling, group)))


def junit(telling: Telling) -> Iterator[str]:
    """A test for each finding, those that are not told as skipped, and behind them one for each entry without a finding; skipped is one that was
    not judged."""
    trace = telling.trace
    found = {finding.line for finding in telling.report.findings}
    skipped = [(told, "ignored: " + row.reason) for told, row in telling.ignored]
    skipped += [(told, "known from the baseline") for told in telling.known]
    unjudged = telling.unjudged - found
    yield '<?xml version="1.0" encoding="UTF-8"?>'
    yield '<testsuites><testsuite name="new_enemy" tests="%d" failures="%d" errors="0" skipped="%d">' % (
        len(telling.report.findings) + len(trace.entries) - len(found) + (not telling.coverage.is_whole), len(telling.told),
        len(skipped) + len(unjudged) + (not telling.coverage.is_whole))
    note = "".join('<property name="note" value=%s/>' % _attribute(_xml(one)) for one in telling.notes)
    yield '<properties><property name="sums" value=%s/><property name="coverage" value=%s/>%s</properties>' % (
        _attribute(telling.said), _attribute(telling.coverage.said), note)
    if not telling.coverage.is_whole:
        yield '<testcase classname=%s name="what was not looked at"><skipped message=%s/></testcase>' % (
            _attribute(_xml(telling.path)), _attribute(_xml(telling.notes[0])))
    for told in telling.told:
        row = row_of(telling, told)
        yield "%s><failure type=%s message=%s>%s</failure></testcase>" % (
            _case(telling, told.entry), _attribute(told.finding.finding),
            _attribute("%s %s, effect %s" % (row["finding"], row["text"], row["effect"])),
            escape(_xml("%s: %s" % (row["severity"], sentence(row))), quote=False))
    for told, why in skipped:
        yield "%s><skipped message=%s/></testcase>" % (_case(telling, told.entry), _attribute(_xml(why)))
    for line in trace.entries:
        if line not in found:
            end = '><skipped message="not judged with this day"/></testcase>' if line in unjudged else "/>"
            yield _case(telling, trace.entries[line]) + end
    yield "</testsuite></testsuites>"


def _case(telling: Telling, entry: Entry) -> str:
    place = place_of(telling, entry)
    return "<testcase classname=%s name=%s file=%s line=%s" % (
        _attribute(_xml(telling.path)), _attribute(_xml("line %d: %s" % (entry.line, telling.names.tuple(entry.goal)))), _attribute(_xml(place.file)),
        _attribute(str(place.line)))


def escape(text: str, quote: bool = True) -> str:
    # It takes long to load, and most forms do not need it.
    from html import escape as escaped
    return escaped(text, quote)


def _attribute(text: str) -> str:
    return '"%s"' % escape(text)


def _xml(text: str) -> str:
    """Without the letters that XML has no form for, or that are not seen."""
    return plain(text).translate({0xfffe: "?", 0xffff: "?"})


def annotations(telling: Telling) -> Iterator[str]:
    """Workflow commands, as GitHub's and Gitea's runners read them, which show few: one for each group."""
    level = "notice" if telling.coverage.is_whole else "warning"
    for number, said in enumerate([telling.said, *telling.notes]):
        yield "::%s title=new_enemy::%s" % (level if number else "notice", _data(said))
    for group in telling.groups:
        told = group.worst
        place, title = place_of(telling, told.entry), "%s %s, effect %s" % (told.finding.finding, told.finding.text, told.effect.word)
        yield "::%s file=%s,line=%d,title=%s::%s" % (LEVELS[told.effect.severity], _property(place.file), place.line,
                                                     _property(title), _data(group_sentence(telling, group)))


def _data(text: str) -> str:
    return plain(text).replace("%", "%25")


def _property(text: str) -> str:
    return _data(text).replace(":", "%3A").replace(",", "%2C")


FORMS: dict[str, Callable[[Telling], Iterator[str]]] = {
    "jsonl": json_lines, "text": text, "junit": junit, "annotations": annotations}
