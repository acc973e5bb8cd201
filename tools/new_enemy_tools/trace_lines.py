"""The lines of a trace, and the records of its evidence, as bytes: the one place that knows their form without a parse of JSON.

Of a line of the form that importers write, or of one like it, it is said here what it is, where it stands, and which keys it has. A line of
any other form is read as JSON, here or by who asks, with the same meaning: what is recognized here, trace.py takes too. So is what an
import says of the whole in ignored keys of a trace's first line and its last.
"""
import json
import re
import sys
from collections import Counter
from json.encoder import encode_basestring  # type: ignore[attr-defined]
from typing import Iterable, Iterator, Mapping, NamedTuple, Optional

from new_enemy_tools import limits, strictjson, texts

NAME = texts.NAME.pattern.encode()
# Without the two letters that JSON escapes.
ID = rb'[^\x00-\x20"#@\\\x7f]{1,%d}' % limits.OBJECT_ID_BYTES
# All of these are numbers of 64 bits.
NUMBER = rb"(?:0|[1-9][0-9]{0,18})"
PLAIN = rb'[^"\\\x00-\x1f]'
SET = NAME + b":" + ID + b"#" + NAME
# What an import says of a line beside what the program reads, in this order, each a text; and behind them that an entry stands before.
SAID = (b"revision", b"from", b"time", b"part", b"named")
AGAIN = rb',"again":true'
# What it says of the whole: of the table of ids and of strata on the first line, the sum behind the last.
WHOLE = rb'(?:,"ids":\{[^\\\x00-\x1f{}]*\})?(?:,"strata":\[[^\\\x00-\x1f{}]*\])?(?:,"coverage":\{[^\\\x00-\x1f]*\})?\}\r?\Z'
TOLD = b"".join(rb'(?:,"%s":"%s*")?' % (key, PLAIN) for key in SAID) + rb"(?:%s)?" % AGAIN + WHOLE
# The same with each text apart, but for the label of a version that is not known.
APART = b"".join(rb'(?:,"%s":"%s")?' % (key, PLAIN + b"*" if key == b"named" else b"(%s*)" % PLAIN) for key in SAID) + rb"(%s)?" % AGAIN + WHOLE
LIST = rb"\[([^\]]*)\]"
ENTRY = re.compile(rb'\{"kind":"(check|content)","goal":"((%s:%s)#%s)@%s","snapshot":%s,"reply":(true|false)'
                   rb'(?:,"zookie":"z(?:1-|2-[wcr])[0-9a-f]{16}")?(?:,"version":"(%s{1,%d})")?'
                   % (NAME, ID, NAME, NUMBER, NUMBER, PLAIN, limits.VERSION_BYTES) + TOLD)
# The same with each field apart.
FIELDS = re.compile(rb'\{"kind":"(check|content)","goal":"(%s):(%s)#(%s)@(%s)","snapshot":(%s),"reply":(true|false)'
                    rb'(?:,"zookie":"(z(?:1-|2-[wcr])[0-9a-f]{16})")?(?:,"version":"(%s{1,%d})")?'
                    % (NAME, ID, NAME, NUMBER, NUMBER, PLAIN, limits.VERSION_BYTES) + APART)
COMMIT = re.compile(rb'\{"kind":"commit","at":(%s)(?:,"add":%s)?(?:,"remove":%s)?' % (NUMBER, LIST, LIST) + TOLD)
USER = rb"%s|%s:%s#(?:%s|\.\.\.)" % (NUMBER, NAME, ID, NAME)
PAIR = re.compile(rb'"(%s)@(%s)"(?:,|\Z)' % (SET, USER))
# A commit of one tuple.
TOUCH = re.compile(rb'\{"kind":"commit","at":%s,"(add|remove)":\["(%s@(?:%s))"\]' % (NUMBER, SET, USER) + TOLD)
# Of a listed tuple, the bytes beside its userset and its user: two quotes, the letter @, and the comma behind it.
BESIDE = 4

Pair = tuple[bytes, bytes]


class OtherForm(Exception):
    """A line that was not read yet has another form than importers write."""


class QuickCommit(NamedTuple):
    """The touched tuples as their usersets and users."""

    at: int
    add: list[Pair]
    remove: list[Pair]


def _pairs(listed: Optional[bytes]) -> Optional[list[Pair]]:
    """The tuples of a list; None where anything else stands among them."""
    if not listed:
        return []
    pairs = PAIR.findall(listed)
    size = BESIDE * len(pairs) - 1 + sum([len(of) + len(user) for of, user in pairs])
    return pairs if size == len(listed) else None


def quick_entry(raw: bytes) -> Optional[tuple[bytes, ...]]:
    """The kind, the goal's userset, its object, the reply, and the version or None."""
    found = ENTRY.match(raw)
    if not found or found[1] == b"content" and (found[5] is not None) != (found[4] == b"true"):
        return None
    return found.groups()


def quick_fields(raw: bytes) -> Optional[tuple[bytes, ...]]:
    """Of an entry the kind, the goal's namespace, id, relation and user, the snapshot and the reply; the token, the version, the revision,
    the source, the time, why it is audited in part, and the mark of one that stands before, or None."""
    found = FIELDS.match(raw)
    if not found or found[1] == b"content" and (found[9] is not None) != (found[7] == b"true"):
        return None
    return found.groups()


def quick_touch(raw: bytes) -> Optional[tuple[bytes, bool]]:
    """Of a commit of one tuple its text, and whether it is added."""
    found = TOUCH.match(raw)
    return None if found is None else (found[2], found[1] == b"add")


def quick_commit(raw: bytes) -> Optional[QuickCommit]:
    found = COMMIT.match(raw)
    if not found:
        return None
    add, remove = _pairs(found[2]), _pairs(found[3])
    return None if add is None or remove is None else QuickCommit(int(found[1]), add, remove)


# Beginnings of lines

NAMESPACE_START = b'{"kind":"namespace",'
COMMIT_START = b'{"kind":"commit","at":'
CHECK_START = b'{"kind":"check","goal":'
CONTENT_START = b'{"kind":"content","goal":'
KIND_START = b'{"kind":"'
ATS = re.compile(rb"\n%s(%s)[,}]" % (re.escape(COMMIT_START), NUMBER))
TOUCHED = re.compile(rb'"([^"@]+)@')
MEMBER = re.compile(rb"@[a-z]")


def times_of(commits: list[bytes]) -> list[int]:
    """The timestamps of lines that begin as commits do; fewer where one has another form."""
    return list(map(int, ATS.findall(b"\n" + b"\n".join(commits))))


def refuse_other_keys(data: bytes, lines: int, commits: int) -> None:
    """Raises OtherForm where some of these lines may have a key twice, or another key that tells what they are."""
    # Without an escape no text has a quotation mark, so what is counted are keys.
    if b"\\" in data or lines != data.count(b'"kind"') or commits != data.count(b'"at"') or not is_utf8(data):
        raise OtherForm


def is_utf8(data: bytes) -> bool:
    if data.isascii():
        return True
    try:
        data.decode("utf-8")
    except UnicodeDecodeError:
        return False
    return True


def kind_of(raw: bytes) -> str:
    """What a line is that the program takes; an empty text for a blank one. Of a repeated key the last counts."""
    if raw.count(b'"kind"') == 1 and b"\\" not in raw:
        for start, kind in ((CHECK_START, "check"), (COMMIT_START, "commit"), (CONTENT_START, "content"), (NAMESPACE_START, "namespace")):
            if raw.startswith(start):
                return kind
    return str(strictjson.object_of(raw)["kind"]) if raw.strip(strictjson.BLANK) else ""


def commit_at(raw: bytes) -> Optional[int]:
    """The timestamp of a commit; None of any other line, and of one that the program does not take."""
    value = value_in(raw)
    at = value.get("at")
    return at if value.get("kind") == "commit" and strictjson.is_u64(at) else None


def may_issue(raw: bytes) -> bool:
    """Whether an entry may be a content check that issues a version; certain of one that has no escape."""
    return b"\\" in raw or b'"content"' in raw and b'"version"' in raw


# Lines of any spacing, as they stand in a block with their newlines


def compiled(pattern: bytes) -> "re.Pattern[bytes]":
    """Each repetition ends where its letters do, so nothing is gained by going back; Python says so from 3.11 on."""
    return re.compile(pattern if sys.version_info >= (3, 11) else re.sub(rb"([*+?}])\+", rb"\1", pattern))


_TEXT = rb'"[ !#-\[\]-~]*+"'
_NUMBER = rb"(?:0|[1-9][0-9]{0,18}+)"
_OBJECT = rb'[a-z][a-z0-9_]{0,63}+:[!$-?A-\[\]-~]{1,128}+'
_FACT = rb'"(' + _OBJECT + rb")#[a-z][a-z0-9_]{0,63}+@" + _NUMBER + rb'"'
_MEMBER = rb', ?(?!"kind"|"goal")' + _TEXT + rb": ?(?:" + _TEXT + rb"|" + _NUMBER + rb"|true|false|null)"
_STEP = rb'\{(?:"yes": ?' + _TEXT + rb'|"no": ?\[(?:' + _TEXT + rb"(?:, ?" + _TEXT + rb")*+)?+\])\}"
_END = rb"\}[ \t\r]*+\n"
# Whatever else stands on the line, it is no entry: no other key of it is `kind`.
_STANDS_EVERYWHERE = rb'\{"kind": ?"(?:commit|namespace)"[^\n\\k]*+(?:k(?!ind")[^\n\\k]*+)*+\n'
# Each match is a line in the first group, with its object or its entry's line in the second; or there lines that stand
# everywhere, with nothing in the second; or else a line in the third.
OBJECTS = compiled(rb'(\{"kind": ?"(?:check|content)", ?"goal": ?' + _FACT + rb"(?:" + _MEMBER + rb")*+" + _END
                     + rb"|(?:\n|" + _STANDS_EVERYWHERE + rb")++)|([^\n]*+\n)")
RECORDS = compiled(rb'(\{"line": ?(' + _NUMBER + rb'), ?"steps": ?\[(?:' + _STEP + rb"(?:, ?" + _STEP + rb")*+)?+\]" + _END
                     + rb"|\n++)|([^\n]*+\n)")
_SNAPSHOT = re.compile(rb',"snapshot":(%s),"reply":' % NUMBER)


def snapshots_in(lines: bytes) -> Iterator[int]:
    """Those of the entries of lines that an importer wrote."""
    return map(int, _SNAPSHOT.findall(lines))


def value_in(line: bytes) -> strictjson.Object:
    """The object of JSON that a line is; an empty one where it is none."""
    try:
        value = strictjson.value_of(line)
    except strictjson.NotJson:
        return {}
    return value if isinstance(value, dict) else {}


# Counts of lines by their keys


class Counted(NamedTuple):
    """How many checks there are, those that have some keys, and how many content checks."""

    checks: int = 0
    contents: int = 0
    with_version: int = 0
    with_token: int = 0
    with_unknown: int = 0
    # entries that stand before, at another state, and of those in part how many by cause
    again: int = 0
    part: Mapping[str, int] = {}

    @property
    def entries(self) -> int:
        return self.checks + self.contents - self.again

    def plus(self, other: "Counted", times: int = 1) -> "Counted":
        part = Counter(self.part)
        for cause, count in other.part.items():
            part[cause] += times * count
        return Counted._make([*(one + times * more for one, more in zip(self[:6], other[:6])), +part])


_COUNTED = (b"version", b"zookie", b"named")


def counted_in(lines: bytes) -> Counted:
    """Of lines of a trace; one that the program does not take may be counted or not."""
    plain = _plainly(lines)
    if plain is not None:
        return plain
    some: list[bytes] = []
    odd: list[bytes] = []
    for line in lines.split(b"\n"):
        (odd if b"\\" in line or not line.startswith(KIND_START) or line.count(b'"kind"') != 1 else some).append(line)
    plain = _plainly(b"\n".join(some))
    return _by_value(some if plain is None else odd).plus(_by_value(odd) if plain is None else plain)


def _plainly(lines: bytes) -> Optional[Counted]:
    """None where some line may have another form than importers write."""
    begun = lines.count(b"\n" + KIND_START) + lines.startswith(KIND_START)
    checks, contents = lines.count(b'{"kind":"check"'), lines.count(b'{"kind":"content"')
    counts = _counts(lines, b'"')
    # Where no text has a quotation mark and each line begins with the one key that says what it is, what is counted are keys.
    if b"\\" in lines or begun != lines.count(b'"kind"') or counts != _counts(lines, b'":"'):
        return None
    if any(counts):
        # Such a key says nothing on a line of another kind.
        others = _counts(b"\n".join([line for line in lines.split(b"\n") if not line.startswith(b'{"kind":"check"')]), b'"')
        counts = [count - other for count, other in zip(counts, others)]
    if max(counts) > checks:
        return None
    again, part = _told_of(line for line in lines.split(b"\n")) if b'"again"' in lines or b'"part"' in lines else (0, [])
    return Counted(checks, contents, counts[0], counts[1], counts[2], again, Counter(part))


def _told_of(lines: Iterator[bytes]) -> tuple[int, list[str]]:
    """Of lines without escapes how many entries stand before, and the causes of those in part."""
    again = 0
    part: list[str] = []
    for line in lines:
        if (b'"again"' in line or b'"part"' in line) and line.startswith((CHECK_START[:15], CONTENT_START[:17])):
            fields = quick_fields(line)
            value = value_in(line) if fields is None else {}
            again += fields[13] is not None if fields is not None else value.get("again") is True
            cause = fields[12] if fields is not None else value.get("part")
            part += [cause.decode("utf-8", "replace")] if isinstance(cause, bytes) else [cause] if isinstance(cause, str) else []
    return again, part


def _counts(lines: bytes, behind: bytes) -> list[int]:
    return [lines.count(b'"' + key + behind) for key in _COUNTED]


def _by_value(lines: list[bytes]) -> Counted:
    entries = [value for value in map(value_in, lines) if value.get("kind") in ("check", "content")]
    checks = [value for value in entries if value["kind"] == "check"]
    keys = [sum([value.get(key.decode()) is not None for value in checks]) for key in _COUNTED]
    return Counted(len(checks), len(entries) - len(checks), keys[0], keys[1], keys[2], sum([value.get("again") is True for value in entries]),
                   Counter(value["part"] for value in entries if isinstance(value.get("part"), str)))


# Lines as they are written


def within_quotes(text: str) -> str:
    """A text within quotation marks, of which the last is left out."""
    written: str = encode_basestring(text)
    return written[:-1]


def value_line(value: object) -> str:
    return strictjson.encode(value) + "\n"


def time_key(time: Optional[str]) -> str:
    return "" if time is None else ',"time":"%s"' % time


def source_keys(revision: str, file: str, line: int, time: Optional[str]) -> str:
    """Where a line comes from, with the bracket that ends it; of the file's name the last quotation mark is left out."""
    return ',"revision":%s,"from":%s:%d"%s}\n' % (encode_basestring(revision), file, line, time_key(time))


def commit_line(at: int, add: Iterable[str], remove: Iterable[str], source: str) -> str:
    added, removed = ",".join(map(encode_basestring, add)), ",".join(map(encode_basestring, remove))
    return '{"kind":"commit","at":%d%s%s%s' % (at, ',"add":[%s]' % added if added else "", ',"remove":[%s]' % removed if removed else "", source)


def look_text(snapshot: int, reply: bool, zookie: Optional[str], version: Optional[str], revision: str, file: str) -> str:
    """What stands in the line of an entry from the end of its goal to the number of the line that it comes from."""
    return '","snapshot":%d,"reply":%s%s%s,"revision":%s,"from":%s:' % (
        snapshot, "true" if reply else "false", "" if zookie is None else ',"zookie":"%s"' % zookie,
        "" if version is None else ',"version":' + encode_basestring(version), encode_basestring(revision), file)


def check_start(namespace: str) -> str:
    """The beginning of a check's line up to the id of its object."""
    return '{"kind":"check","goal":"%s:' % namespace


def check_lines(starts: Iterable[str], objects: Iterable[str], relations: Iterable[str], users: Iterable[str], looks: Iterable[str],
                lines: Iterable[int], times: Optional[Iterable[str]]) -> list[str]:
    """The lines of many checks, by their parts; a time may be empty."""
    parts = zip(starts, objects, relations, users, looks, lines)
    if times is None:
        return [f'{start}{thing}#{relation}@{user}{look}{line}"}}\n' for start, thing, relation, user, look, line in parts]
    return [f'{start}{thing}#{relation}@{user}{look}{line}","time":"{time}"}}\n' if time else f'{start}{thing}#{relation}@{user}{look}{line}"}}\n'
            for (start, thing, relation, user, look, line), time in zip(parts, times)]


def entry_line(kind: str, goal: str, look: str, line: int, time: Optional[str], part: Optional[str], named: Optional[str], is_again: bool) -> str:
    more = time_key(time) + ("" if part is None else ',"part":' + encode_basestring(part))
    more += ("" if named is None else ',"named":' + encode_basestring(named)) + (',"again":true' if is_again else "")
    return '{"kind":"%s","goal":%s%s%d"%s}\n' % (kind, within_quotes(goal), look, line, more)


# What an import says of the whole

_MARK = re.compile(rb'"coverage":(\{[^\\\n]*\})\}\r?$', re.MULTILINE)
# What stands behind a line in place of its last bracket.
IDS, STRATA = "ids", "strata"


def mark_text(**said: object) -> str:
    """What an import adds to a line of a trace; an empty text where that is nothing."""
    return strictjson.encode(strictjson.filled(said))[1:-1]


def with_mark(line: bytes, mark: str) -> bytes:
    """A line without its newline with what an import says behind its keys."""
    return b"%s,%s}" % (line[:-1], mark.encode()) if mark else line


def coverages_in(lines: bytes) -> list[object]:
    """The sums that imports left in lines, each the value of JSON, or None where it cannot be read."""
    found: list[object] = []
    for mark in _MARK.findall(lines):
        try:
            found.append(json.loads(mark))
        except ValueError:
            found.append(None)
    return found


def ids_in(trace: bytes) -> object:
    """What the first line of a trace says of its table; None where it says nothing."""
    end = trace.find(b"\n")
    line = trace if end < 0 else trace[:end]
    return value_in(line).get(IDS) if b'"%s"' % IDS.encode() in line else None


def is_imported(trace: bytes) -> bool:
    """Whether the first line of a trace says that an import wrote it."""
    return isinstance(ids_in(trace), dict)


def strata_in(line: bytes) -> list[tuple[str, str, int]]:
    """The strata of relations where the first line of a window, which an import wrote, says that they are others than in the days before. A
    key of a stranger that is called so says nothing: the line says beside it which table of ids is the import's."""
    if b'"%s"' % STRATA.encode() not in line or not is_imported(line):
        return []
    given = value_in(line).get(STRATA)
    if not isinstance(given, list) or not all(isinstance(one, list) and list(map(type, one)) == [str, str, int] for one in given):
        return []
    return [(name, relation, stratum) for name, relation, stratum in given]
