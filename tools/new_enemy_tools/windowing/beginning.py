"""What a window begins with: the carry behind the one before, without what is let go of it.

Three things the program does not know of, and so they are done here, on a carry that it wrote: the import of a day may need other strata for the
rules of the days before; versions may be let go after some windows; and an entry that waits for a commit which does not come is given up, since
no base moves past it. Where none of these is so, a window begins with the carry as it is.
"""
from typing import NamedTuple, Optional

from new_enemy_tools import limits, strictjson
from new_enemy_tools.windowing.carries import Carry, Item, declaration, raw_of
from new_enemy_tools.windowing.state import SIZES, Head, State

Strata = dict[tuple[str, str], int]


class Keep(NamedTuple):
    """What a state keeps of the past."""

    # the oldest snapshot that later entries may have; where it is None, that is the beginning of so many windows with commits before
    oldest: Optional[int] = None
    snapshots: int = 1
    # in how many windows versions may be named, counted from the one that issues them; always where it is None
    versions: Optional[int] = None


def begun(old: State, strata: Strata, keep: Keep) -> State:
    """The state that a window begins with; it names the carry that it is made of."""
    carry, head = old.carry, old.head
    if carry is None:
        return old
    gone = set(head.given_up) | _old_versions(old, keep.versions)
    rules = _with_strata(carry, strata)
    if not gone and not rules:
        return old
    lets_go = any(item.kind == "content" for item in carry if item.line in gone)
    let_go = carry.lines if lets_go and head.let_go is None else head.let_go
    items = (rules.get(item.line, item) for item in carry if item.line not in gone)
    return State(head._replace(given_up=[], let_go=let_go), carry.having(items), old.carried, old.seal, old.untold)


def _old_versions(old: State, versions: Optional[int]) -> set[int]:
    """The content checks of windows before the last ones, but for versions that an entry names which waits."""
    if versions is None or len(old.head.sizes) <= versions:
        return set()
    end = old.head.sizes[-versions - 1]
    named = {version_of(row.raw) for row in old.waiting}
    return {row.line for row in old.rows_of("v") if row.line <= end and not (named and version_of(row.raw) in named)}


def version_of(raw: bytes) -> tuple[object, object]:
    """The object and the version that an entry names or issues."""
    value = strictjson.object_of(raw)
    return str(value.get("goal")).rpartition("#")[0], value.get("version")


def _with_strata(carry: Carry, strata: Strata) -> dict[int, Item]:
    """The rules with other strata, by their lines. These say nothing of what rules mean. An import gives those of all relations; any other key that
    is called so is a stranger's."""
    items = [item for item in carry if item.kind == "declaration"] if strata else []
    values = [strictjson.object_of(raw_of(item)) for item in items]
    if not {(value["name"], one["name"]) for value in values for one in value["relations"]} <= set(strata):
        return {}
    return {item.line: _restratified(item, value, strata) for item, value in zip(items, values)}


def _restratified(item: Item, value: strictjson.Object, strata: Strata) -> Item:
    name = value["name"]
    relations = [{**one, "stratum": strata.get((name, one["name"]), one.get("stratum") or 0)} for one in value["relations"]]
    return declaration(item.line, item.number, strictjson.encode({**value, "relations": relations}).encode())


def oldest_of(old: State, keep: Keep, has_commits: bool) -> int:
    """Up to where the base of the next carry moves at most. Where it is not known whether this window has commits, those of one more are kept."""
    ends, back = old.head.ends, keep.snapshots + (0 if has_commits else 1)
    if keep.oldest is not None:
        oldest = keep.oldest
    elif back:
        oldest = ends[-back][1] if len(ends) >= back else 0
    else:
        oldest = limits.NUMBER
    return max(oldest, old.base or 0)


def head_behind(old: State, carry: Carry, keep: Keep) -> tuple[Head, dict[int, int]]:
    """The head of the state that a carry makes, and the snapshots of the entries that are given up with it, by their lines."""
    head, last = old.head, carry.last
    ends = head.ends + ([[carry.lines, last]] if last > head.last else [])
    given_up: dict[int, int] = {}
    if keep.oldest is None and len(ends) > keep.snapshots + 2:
        end = ends[-keep.snapshots - 3][0]
        given_up = {item.line: item.number for item in carry.entries() if item.number > last and item.line <= end}
    sizes = (head.sizes + [carry.lines])[-max(SIZES, (keep.versions or 0) + 1):]
    return Head(head.window + 1, ends[-keep.snapshots - 3:], sizes, sorted(given_up), head.let_go, old.seal), given_up
