"""The values of a service's JSON, in either spelling of their keys."""
import re
from typing import Any


class Bad(Exception):
    """A line that is not what the service writes."""


def spelled(name: str) -> str:
    """The other spelling of a key: services write `tupleKey` and `tuple_key`."""
    if "_" in name:
        return re.sub("_([a-z])", lambda found: found[1].upper(), name)
    return re.sub("[A-Z]", lambda found: "_" + found[0].lower(), name)


def has_others(value: Any, known: frozenset[str]) -> bool:
    """Whether an object says something by a key that is none of these, in either spelling. What JSON of protobuf writes
    of a field that is not set says nothing."""
    others = value.keys() - known if isinstance(value, dict) else ()
    return any([value[key] for key in others if spelled(key) not in known])


# The other spelling of each key that was asked for.
OTHER: dict[str, str] = {}


def get(value: Any, name: str) -> Any:
    """The value of a key in either spelling; None where there is none."""
    if not isinstance(value, dict):
        return None
    found = value.get(name)
    if found is None and name not in value:
        other = OTHER.get(name)
        if other is None:
            other = OTHER[name] = spelled(name)
        found = value.get(other)
    return found
