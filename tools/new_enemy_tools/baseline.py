"""What an earlier report told already: the keys of its findings, from JSON lines or SARIF."""
import json
from collections import Counter
from functools import lru_cache
from typing import Callable, Iterator, Optional

from new_enemy_tools.effects import RatedFinding
from new_enemy_tools.entries import Entry
from new_enemy_tools.faults import ToolFault
from new_enemy_tools.names import Names

FINGERPRINT = "finding/v1"


class BaselineFault(ToolFault):
    """What is wrong with a baseline, with its file and line."""


def key_of(told: RatedFinding, names: Names) -> str:
    """What a finding is known by in another report: what was asked, when and with what reply, and its effect. Lines and timestamps of a
    trace change from import to import, so the service's own revision stands in their place where the import kept it."""
    return key_with(told.finding.finding, told.effect.word, asked_of(told.entry, names))


def asked_of(entry: Entry, names: Names) -> str:
    """What a key has of an entry."""
    version = "null" if entry.version is None else json.dumps(names.version(entry.version))
    revision = str(entry.snapshot) if entry.revision is None else json.dumps(entry.revision)
    return '["%s", %s, %s, %s, %s]' % (entry.kind, json.dumps(names.tuple(entry.goal)), revision, "true" if entry.reply else "false", version)


def key_with(finding: str, effect: str, asked: str) -> str:
    """The hash of a list in JSON: the finding, its effect, and what was asked."""
    return _sha256()(('["%s", "%s", %s' % (finding, effect, asked[1:])).encode())[:16]


@lru_cache(1)
def _sha256() -> Callable[[bytes], str]:
    # It takes long to load, and a report without findings does not need it.
    from hashlib import sha256
    return lambda data: sha256(data).hexdigest()


def _fault(path: str, line: int) -> BaselineFault:
    return BaselineFault("%s:%d: no report of this tool in JSON lines or SARIF; write one with --form jsonl" % (path, line))


def _of_lines(path: str, text: str) -> Iterator[tuple[bool, Optional[str]]]:
    """Whether names were told, and the key, of each row."""
    is_named = False
    for number, line in enumerate(text.splitlines(), 1):
        try:
            row = json.loads(line)
            if number == 1:
                is_named = row["sums"] is not None and row["named"] is True
                yield is_named, None
            else:
                yield is_named, str(row["key"])
        except (ValueError, KeyError, TypeError, RecursionError):
            raise _fault(path, number) from None


def _of_sarif(path: str, text: str) -> Iterator[tuple[bool, Optional[str]]]:
    try:
        for run in json.loads(text)["runs"]:
            is_named = run["properties"]["named"] is True
            yield is_named, None
            for result in run["results"]:
                yield is_named, str(result["partialFingerprints"][FINGERPRINT])
    except (ValueError, KeyError, TypeError, RecursionError):
        raise _fault(path, 1) from None


def read_baseline(path: str, data: bytes, is_named: bool) -> Counter[str]:
    """How often each key stands in a baseline; raises BaselineFault where it is none, or its names are not those of this report."""
    text = data.decode("utf-8", "replace")
    keys: Counter[str] = Counter()
    rows = _of_lines(path, text) if text.startswith('{"sums":') else _of_sarif(path, text)
    for was_named, key in rows:
        if was_named != is_named:
            raise BaselineFault("%s:1: it was written %s --ids, and this report is %s" % (
                path, "with" if was_named else "without", "with it" if is_named else "without it"))
        if key is not None:
            keys[key] += 1
    return keys
