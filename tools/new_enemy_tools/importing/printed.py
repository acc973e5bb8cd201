"""Lines as servers print them: events of CloudEvents, OpenFGA's log, and SpiceDB's log of requests and of responses.

Each becomes a line with a `request` and a `response`, as a recorder writes it. The forms of OpenFGA's and SpiceDB's logs are taken from
their public sources.
"""
import re
from datetime import datetime, timezone
from itertools import chain
from typing import Any, Generic, Iterable, Iterator, NamedTuple, Optional, TypeVar

from new_enemy_tools.importing.reading import Bad, get
from new_enemy_tools.importing.times import nanoseconds
from new_enemy_tools.keys import LONGEST, Unread
from new_enemy_tools.strictjson import filled

REQUEST, RESPONSE = "grpc.request.content", "grpc.response.content"
FINISHED = "finished call"
# A tap of Envoy, and the events in which applications say what they asked.
TAP, SAID = "http_buffered_trace", ("own", "asked", "lost", "over")
# The keys of a line of OpenFGA's log, and those of an event, that are read.
READ = frozenset(("specversion", "data", "type", "raw_request", "raw_response", "grpc_method", "grpc_service", "grpc_code", "timestamp",
                  "authorization_model_id"))
# Of a request that names none the server tells which model it took.
MODEL = "authorization_model_id"
ZONE = re.compile(r"([+-][0-9]{2})([0-9]{2})$")
REQUEST_ID = ("requestID", "requestId", "request_id")
OWN = "line of the service's own log"
UNTOLD = "the line of this call has no request and no response: run `ne record`, or let the server log both"
HEALTH = "Health"
# The keys that a recorder adds to what a server prints of a check; and those that are none of them with a slip, as far as they were met.
ADDED = frozenset(("version", "content", "newest", "token", "snapshot", "snapshot_between"))
FINE = set(ADDED)
MOST_FINE = 1 << 12
# So many calls that were answered are known until a line says that they ended.
ANSWERED = 10_000
# What is kept of a request that waits.
Asked = TypeVar("Asked")


def unwrapped(value: Any, keys: Iterable[str]) -> Any:
    """The call that a printed line tells, with those of the recorder's keys that it has; any other line as it is. Raises Bad."""
    if not isinstance(value, dict):
        return value
    if is_event(value):
        data = value["data"]
        found = {key: get(data, key) for key in ("request", "response", "error", "status")}
        added = both(added_in(data), added_in(value), "the event and its `data`")
        return filled({**found, "time": value.get("time"), "method": value.get("type"), **added})
    if "raw_request" not in value and not isinstance(value.get("grpc_method"), str):
        return value
    if _is_health(value.get("grpc_service")):
        return {"method": HEALTH}
    code, given = value.get("grpc_code"), {key: value[key] for key in keys if key in value}
    request, model = value.get("raw_request"), value.get(MODEL)
    if isinstance(request, dict) and model and not get(request, MODEL):
        request = {**request, MODEL: model}
    # One that streams its answers has none where it found nothing.
    nothing: Optional[list[Any]] = [] if value.get("grpc_method") == "StreamedListObjects" else None
    found = {"request": request, "response": value.get("raw_response", nothing), "error": value.get("error"),
             "method": value.get("grpc_method"), "status": {"code": code} if code else None, "time": time_of(value.get("timestamp"))}
    return filled({**found, **given})


def hint_of(value: Any) -> str:
    """What would mend that a line is refused which another command reads."""
    is_said = isinstance(value, dict) and (get(value, TAP) is not None or value.get("event") in SAID)
    return "; give it to `ne join`, beside a log of `ne record --changes-only`" if is_said else ""


def is_event(value: Any) -> bool:
    """Whether a line is an event of CloudEvents."""
    return isinstance(value, dict) and "specversion" in value and isinstance(value.get("data"), dict)


def added_in(value: dict[str, Any]) -> dict[str, Any]:
    """What a recorder says of a check in a line that a server printed."""
    return {key: value[key] for key in ADDED if value.get(key) is not None}


def both(one: dict[str, Any], other: dict[str, Any], what: str) -> dict[str, Any]:
    """What two parts of a line say together; raises Bad where they do not say the same."""
    for key in one.keys() & other.keys():
        if one[key] != other[key]:
            raise Bad("%s have each a `%s`, and they are not the same" % (what, key))
    return {**one, **other}


def mistyped(value: Any) -> Iterator[Unread]:
    """Keys of a printed line that are no keys of a server, but a recorder's with a slip: nobody would read them."""
    if not isinstance(value, dict):
        return
    data = value["data"] if is_event(value) else {}
    if not data and not Joining.takes(value) and "raw_request" not in value:
        return
    for part in (value, data):
        for key in () if part.keys() <= FINE else part:
            if len(key) > LONGEST or key in FINE:
                continue
            if _is_slip(key):
                yield Unread(key, ADDED)
            elif len(FINE) < MOST_FINE:
                FINE.add(key)


def _is_slip(key: str) -> bool:
    """Whether a key has the letters of one that a recorder adds in another order or case, or one letter more or less. Those of servers are
    only like them, as `context` is like `content`, or `versions`."""
    folded = key.lower()
    return any(sorted(folded) == sorted(one) or folded in _without_one(one) or one in _without_one(folded) and folded != one + "s"
               for one in ADDED)


def _without_one(key: str) -> list[str]:
    return [key[:at] + key[at + 1:] for at in range(len(key))]


def _is_health(service: object) -> bool:
    """Whether a call is of gRPC's own services, one of which has a call `Check`, too."""
    return isinstance(service, str) and service.startswith("grpc.")


def time_of(stamp: object) -> Optional[str]:
    """The time of a line of OpenFGA's log, which is a text, maybe with a zone without its colon, or seconds since 1970, of which a fraction of zero
    is not printed; None where it is neither."""
    if isinstance(stamp, str):
        stamp = ZONE.sub(r"\1:\2", stamp)
        return None if nanoseconds(stamp) is None else stamp
    if isinstance(stamp, (int, float)) and not isinstance(stamp, bool) and 0 < stamp < 1 << 33:
        return datetime.fromtimestamp(stamp, timezone.utc).strftime("%Y-%m-%dT%H:%M:%S.%fZ")
    return None


def is_own_log(value: Any) -> bool:
    """Whether a line is what a server says of itself, as at its start."""
    return isinstance(value, dict) and isinstance(value.get("level"), str) and any(isinstance(value.get(key), str) for key in ("msg", "message"))


def plain_of(content: Any) -> Any:
    """A message as its JSON has it. As a server prints one, the choice of a field stands in a holder, and both have capital letters."""
    if isinstance(content, list):
        return [plain_of(one) for one in content]
    if not isinstance(content, dict):
        return content
    made: dict[str, Any] = {}
    for key, one in content.items():
        if key[:1].isupper() and (one is None or isinstance(one, dict) and all(name[:1].isupper() for name in one)):
            made.update((name[:1].lower() + name[1:], plain_of(inner)) for name, inner in (one or {}).items())
        else:
            made[key] = plain_of(one) if isinstance(one, (dict, list)) else one
    return made


# What a line does to what waits: a request (0), a response (1), or the end of a call (2); its id, and whether more responses may come. There
# are millions of them.
Step = tuple[int, str, bool]


def is_stream(value: dict[str, Any]) -> bool:
    """Whether a response may have others behind it."""
    return str(value.get("grpc.method_type")).endswith("stream")


def is_plain_end(value: Any) -> bool:
    """Whether a line says no more than that a call ended well, of which only its id matters."""
    if not isinstance(value, dict) or value.get("message") != FINISHED or value.get("grpc.code") != "OK":
        return False
    others = {REQUEST, RESPONSE, "sequence", *REQUEST_ID[1:]}
    return REQUEST_ID[0] in value and value.keys().isdisjoint(others) and not _is_health(value.get("grpc.service")) \
        and not any(mistyped(value))


def _request_id(value: dict[str, Any]) -> Optional[str]:
    return next((value[key] for key in REQUEST_ID if isinstance(value.get(key), str)), None)


def steps_of(value: Any) -> list[Step]:
    """What a line does to what waits, if it does anything."""
    if not Joining.takes(value) or _is_health(value.get("grpc.service")):
        return []
    kind = 0 if REQUEST in value else 1 if RESPONSE in value else 2
    found = _request_id(value)
    return [] if found is None and kind < 2 else [(kind, found or "", kind == 1 and is_stream(value))]


class Waiting(NamedTuple):
    """A request, its line, what a recorder says there, and the call that it is of."""

    request: Any
    line: int
    added: dict[str, Any]
    call: Optional[str]


def call_of(value: Any) -> Optional[str]:
    """The call that a line of SpiceDB's log is of."""
    call = get(value, "grpc.method")
    return call if isinstance(call, str) else None


class UnderWay(Generic[Asked]):
    """Calls that wait for their responses, by their ids: as many as are under way at once; and those that were answered."""

    def __init__(self) -> None:
        self.waiting: dict[str, Asked] = {}
        self.answered: dict[str, None] = {}

    def answer(self, found: str, is_stream: bool = False) -> None:
        """Notes that a call was answered, whose request waits on where more responses may come."""
        self.answered[found] = None
        if len(self.answered) > ANSWERED:
            del self.answered[next(iter(self.answered))]
        if not is_stream and found in self.waiting:
            del self.waiting[found]

    def end(self, found: str) -> None:
        """Notes that a call that was answered ended well."""
        if found in self.waiting:
            del self.waiting[found]
        self.answered.pop(found, None)


class Joining(UnderWay[Waiting]):
    """Requests that are joined with their responses."""

    def __init__(self) -> None:
        super().__init__()
        # those whose id others had meanwhile, which clients may choose: of these it is not known which response is whose
        self.several: dict[str, list[Waiting]] = {}
        # what the lines did, where that is noted
        self.steps: Optional[list[Step]] = None

    @staticmethod
    def takes(value: Any) -> bool:
        """Whether a line is one of SpiceDB's log of requests and responses, or says that a call has ended."""
        return isinstance(value, dict) and (REQUEST in value or RESPONSE in value or value.get("message") == FINISHED)

    def joined(self, value: dict[str, Any], line: int, keys: Iterable[str]) -> Optional[dict[str, Any]]:
        """The request and the response, or the failure, of a call, once a line says it; None before. Raises Bad."""
        if _is_health(value.get("grpc.service")):
            return {"method": HEALTH} if RESPONSE not in value and REQUEST not in value else None
        found = _request_id(value)
        if self.steps is not None:
            self.steps += steps_of(value)
        told = {"method": value.get("grpc.method"), "time": value.get("time")}
        if RESPONSE not in value and REQUEST not in value:
            return self._ended(found, value.get("grpc.code"), told)
        if found is None:
            raise Bad("the line has no `requestID`, which joins a request and its response")
        if REQUEST in value:
            self.wait(found, value, line)
            return None
        if found in self.several:
            del self.several[found][:1]
            raise Bad("several calls with the `requestID` %s were under way at once, and it is not known which this response is of" % found[:80])
        if found not in self.waiting:
            raise Bad("the log has no request of the response with the `requestID` %s" % found[:80])
        request, _, added, _ = self.waiting[found]
        self.answer(found, is_stream(value))
        given = {key: value[key] for key in keys if key in value and key not in ("time", "error", "method")}
        given |= both(added, added_in(given), "the lines of the request and of the response")
        return filled({**told, "request": request, "response": plain_of(value[RESPONSE]), **given})

    def wait(self, found: str, value: dict[str, Any], line: int) -> None:
        """Keeps the request of a line."""
        asked = Waiting(plain_of(value[REQUEST]), line, added_in(value), call_of(value))
        if found in self.waiting:
            self.several[found] = [self.waiting.pop(found)]
        if found in self.several:
            self.several[found].append(asked)
        else:
            self.waiting[found] = asked

    def go_on(self, value: Any, line: int) -> None:
        """Goes on behind a line whose call is not asked for."""
        try:
            if self.takes(value):
                self.joined(value, line, ())
        except Bad:
            pass

    def left(self) -> list[tuple[int, Optional[str]]]:
        """The lines of requests that no line answered, and their calls."""
        waiting = [asked for found, asked in self.waiting.items() if found not in self.answered]
        return [(asked.line, asked.call) for asked in chain(waiting, *self.several.values())]

    def _ended(self, found: Optional[str], code: object, told: dict[str, Any]) -> Optional[dict[str, Any]]:
        """What the end of a call tells: that it failed, or, of one that no line told, that there was such a call."""
        asked = self.waiting.pop(found or "", None)
        request = asked and asked.request
        is_answered = found in self.answered or found in self.several
        if found is not None:
            self.answered.pop(found, None)
        if isinstance(code, str) and code != "OK":
            return filled({**told, "request": request, "status": code})
        if is_answered:
            return None
        return filled({**told, "request": request, "response": None if request is None else []})
