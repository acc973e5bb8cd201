"""Times as services write them: RFC 3339, to nanoseconds."""
import re
from datetime import datetime, timedelta, timezone
from functools import lru_cache
from typing import Optional

FORM = re.compile(r"(\d{4}-\d\d-\d\d)[Tt](\d\d:\d\d:\d\d)(?:\.(\d{1,9}))?([Zz]|[+-]\d\d:\d\d)")
EPOCH = datetime(1970, 1, 1, tzinfo=timezone.utc)
SECOND = timedelta(seconds=1)
# Of a time to seconds so many letters.
SECONDS = len("2024-05-06T07:08:09")
# No time is longer.
LONGEST = len("2024-05-06T07:08:09.123456789+00:00")


@lru_cache(1 << 12)
def _of_text(text: str) -> Optional[int]:
    found = FORM.fullmatch(text)
    if not found:
        return None
    day, clock, fraction, zone = found.groups()
    whole = _of_second("%sT%s%s" % (day, clock, "+00:00" if zone in "Zz" else zone))
    return None if whole is None else whole * 1_000_000_000 + int((fraction or "0").ljust(9, "0"))


# Of many requests that come in one second it is read once.
@lru_cache(1 << 10)
def _of_second(text: str) -> Optional[int]:
    try:
        # One whose year in UTC is none overflows.
        return (datetime.fromisoformat(text).astimezone(timezone.utc) - EPOCH) // SECOND
    except (ValueError, OverflowError):
        return None


@lru_cache(1 << 10)
def _text_of_second(seconds: int) -> str:
    return (EPOCH + seconds * SECOND).isoformat()[:SECONDS]


def nanoseconds(text: object) -> Optional[int]:
    """Nanoseconds since 1970, or None where the text is no time."""
    return _of_text(text) if isinstance(text, str) and len(text) <= LONGEST else None


def text_of_time(at: int) -> str:
    """Nanoseconds since 1970 as a time of RFC 3339 in UTC, without zeros at the end of a fraction."""
    seconds, rest = divmod(at, 1_000_000_000)
    fraction = (".%09d" % rest).rstrip("0") if rest else ""
    return _text_of_second(seconds) + fraction + "Z"


def in_utc(text: str) -> str:
    """A time of RFC 3339 as `text_of_time` gives it; an empty text for any other."""
    if len(text) > SECONDS and text[-1] == "Z" and text[SECONDS - 9] == "T":
        return text[:-1].rstrip("0").rstrip(".") + "Z" if text[SECONDS] == "." else text
    time = nanoseconds(text)
    return "" if time is None else text_of_time(time)
