"""Lines of a service that record no decision: requests that failed, and other calls."""
import re
from typing import Iterable, Optional

from new_enemy_tools.importing.reading import Bad, get

LONGEST = 60
# What the status of a call that did not fail is called, by gRPC and by HTTP.
FINE = re.compile(r"(?i:ok|success)|0|2\d\d( .*)?|")
# Of one that failed the first letter is a digit, or it is one of these words, which are gRPC's but for the last.
FAILED = frozenset((
    "canceled", "cancelled", "unknown", "invalidargument", "deadlineexceeded", "notfound", "alreadyexists", "permissiondenied", "resourceexhausted",
    "failedprecondition", "aborted", "outofrange", "unimplemented", "internal", "unavailable", "dataloss", "unauthenticated", "code", "error", "failed"))
# What a recorder may add to say so.
KEYS = frozenset(("error", "status", "method"))


def failure_of(value: object, decides: Iterable[str]) -> Optional[str]:
    """How a request failed; None where it did not, or where its response has a decision all the same. Raises Bad."""
    response = get(value, "response")
    if any(get(response, key) is not None for key in decides):
        return None
    # Other things than calls, as spans, have a status of another kind.
    status = get(value, "status") if get(value, "request") is not None or get(value, "method") is not None else None
    code = get(status, "code")
    if isinstance(status, int) and status >= 400:
        return "failed request (%d)" % status
    for said in (status, code):
        if isinstance(said, str) and _says_failure(said):
            return _failed(said)
    if code and not isinstance(code, str):
        return _failed(code)
    for holder in (value, response):
        error = get(holder, "error")
        if error:
            return _failed(get(error, "code") or get(error, "message") or error)
    for holder in (value, response):
        if get(holder, "message") is not None and get(holder, "code"):
            return _failed(get(holder, "code"))
    return None


def _says_failure(status: str) -> bool:
    """Whether a status says that a call failed; raises Bad where that is not known."""
    if FINE.fullmatch(status):
        return False
    if status[0].isdigit() or re.sub("[^a-z]", "", status.lower()) in FAILED:
        return True
    raise Bad("it is not known whether the `status` %r says that the call failed: give a number, or gRPC's name of a code" % status[:LONGEST])


def _failed(why: object) -> str:
    return "failed request (%s)" % str(why)[:LONGEST]


def method_of(value: object) -> Optional[str]:
    """The call that a line says that it is of, without the service; raises Bad."""
    method = get(value, "method")
    if not isinstance(method, (str, type(None))):
        raise Bad("`method` is no text")
    return method and method.rsplit("/", 1)[-1].rsplit(".", 1)[-1]


def other_call_of(value: object, calls: dict[str, tuple[str, ...]]) -> Optional[str]:
    """The call of a line that records no decision: each call has keys of its request or response that no other has."""
    method = method_of(value)
    if method in calls:
        return method
    for call, keys in calls.items() if method is None else ():
        if any(get(get(value, part), key) is not None for part, key in (one.split(".") for one in keys)):
            return call
    return None
