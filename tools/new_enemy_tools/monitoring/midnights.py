"""When days end, in a time zone."""
from datetime import datetime, timedelta, timezone, tzinfo
from typing import NamedTuple

from new_enemy_tools.importing.times import EPOCH, SECOND, SECONDS, text_of_time

UTC = "UTC"


class NoZone(ValueError):
    """A zone that this machine does not know."""


def zone_of(name: str) -> tzinfo:
    if name == UTC:
        return timezone.utc
    try:
        # Not every machine has the tables of zones.
        from zoneinfo import ZoneInfo
        return ZoneInfo(name)
    except (ImportError, KeyError, ValueError, OSError):
        raise NoZone("%r is no time zone that this machine has; give a name as Europe/Berlin, or install tzdata"
                     % name) from None


class Midnight(NamedTuple):
    """The end of a day: in nanoseconds since 1970, and as the text that times in UTC have from then on, or a greater
    one."""

    at: int
    text: bytes


# Behind all times.
NEVER = Midnight(1 << 63, b"~")


def midnight_after(at: int, zone: tzinfo) -> Midnight:
    """The first midnight behind a time in nanoseconds."""
    now = EPOCH + at // 1_000_000_000 * SECOND
    try:
        found = _midnight(now, zone)
    except OverflowError:
        return NEVER
    behind = (found - EPOCH) // SECOND * 1_000_000_000
    return Midnight(behind, text_of_time(behind)[:SECONDS].encode())


def _midnight(now: datetime, zone: tzinfo) -> datetime:
    here = now.astimezone(zone).replace(tzinfo=None)
    for days in (1, 2):
        day = (here + timedelta(days)).date()
        # A clock that is put back may come to a midnight twice.
        for fold in (0, 1):
            found = datetime(day.year, day.month, day.day, tzinfo=zone, fold=fold).astimezone(timezone.utc)
            if found > now:
                return found
    raise AssertionError("%s has no end of a day behind %s" % (zone, now))
