"""The lines of a log, as `import_trace events` reads them."""
import hashlib
import json
from datetime import datetime, timezone
from typing import Any, Iterable, Iterator, Optional

from new_enemy_tools.importing.events import EVERY, Relationship
from new_enemy_tools.importing.service import ServiceRules
from new_enemy_tools.importing.times import text_of_time

ENCODE = json.JSONEncoder(ensure_ascii=False, separators=(",", ":")).encode
# So many tuples of the base state stand on a line.
TUPLES = 1000
ODD = "changes of a tuple that do not come by turns"


def time_text(at: int) -> str:
    """Nanoseconds since 1970 as RFC 3339, to microseconds."""
    return datetime.fromtimestamp(at // 1000 / 1e6, timezone.utc).isoformat(timespec="microseconds")[:-6] + "Z"


def line(event: str, **values: Any) -> bytes:
    """A line without the keys that have no value; one whose texts are no Unicode becomes a line that says so."""
    kept = {key: value for key, value in values.items() if value is not None}
    try:
        return ENCODE({"event": event, **kept}).encode() + b"\n"
    except UnicodeEncodeError:
        return line("unmapped", reason="text that is no Unicode")


def tuple_list(given: Relationship) -> list[str]:
    """A tuple as a list; one for every user of a type has `*` twice."""
    if given.user_relation is None:
        return [*given[:5]]
    return [*given[:4], "*", EVERY] if given.is_every else [*given[:5], given.user_relation]


Came = tuple[Optional[int], int]


def _came(came: Optional[Came]) -> Optional[list[Optional[str]]]:
    return None if came is None else [None if came[0] is None else time_text(came[0]), time_text(came[1])]


def rules_line(rules: ServiceRules, revision: Optional[int], model: Optional[str] = None, came: Optional[Came] = None) -> bytes:
    listed = [{"name": name, "relations": [{"name": one.name, "rewrite": one.rewrite} for one in relations]}
              for name, relations in rules.event.namespaces.items()]
    return line("rules", revision=revision, model=model, came=_came(came), namespaces=listed)


def hash_of_rules(rules: ServiceRules) -> str:
    return hashlib.sha256(rules_line(rules, None)).hexdigest()


def write_line(revision: int, add: Iterable[Relationship], remove: Iterable[Relationship], time: Optional[int] = None,
               came: Optional[Came] = None) -> bytes:
    """A write; `time` is when OpenFGA says that it was, or when SpiceDB told it, and `came` from when to when by the clock of the recorder."""
    return line("write", revision=revision, time=None if time is None else text_of_time(time), came=_came(came),
                add=[tuple_list(one) for one in add] or None, remove=[tuple_list(one) for one in remove] or None)


def base_lines(revision: int, tuples: list[Relationship]) -> Iterator[bytes]:
    """The base state; one line at least, so that a log always has one."""
    for at in range(0, max(1, len(tuples)), TUPLES):
        yield line("write", revision=revision, base=True, add=[tuple_list(one) for one in tuples[at:at + TUPLES]])


def gap_line(start: Optional[int], end: int, reason: str, lost: int = 0, until: Optional[int] = None) -> bytes:
    """A gap; `until` is until when all is told, where that is before its end."""
    time = end if until is None else min(end, until)
    return line("gap", **{"from": None if start is None else time_text(start)}, to=time_text(end), reason=reason, lost=lost or None,
                time=time_text(time))


def elsewhere_line(count: int, now: int) -> bytes:
    """Checks of other stores, of which somebody said that they are no concern."""
    return line("elsewhere", count=count, time=time_text(now))


def unmapped_line(reason: str, detail: str = "", userset: Optional[Iterable[Optional[str]]] = None,
                  version: Optional[Iterable[str]] = None, base: bool = False) -> bytes:
    return line("unmapped", reason=reason, detail=detail or None, userset=None if userset is None else list(userset),
                version=None if version is None else list(version), base=base or None)
