"""What OpenFGA's own log, SpiceDB's log of requests and responses, and Envoy's taps say of checks, in the form of what applications say
(own_events.py).

The form of a tap is that of Envoy's public documentation (`envoy.data.tap.v3`). The services' lines are read as the import reads them. None
says what it does not have, so what comes behind its last line is a gap.
"""
import base64
from collections import Counter
from typing import Any, Iterable, Iterator, NamedTuple, Optional

from new_enemy_tools.importing import causes, openfga_answers, passing, printed, spicedb_answers
from new_enemy_tools.importing.openfga import OpenFgaLog
from new_enemy_tools.importing.reading import Bad, get
from new_enemy_tools.importing.spicedb import SpiceDbLog
from new_enemy_tools.importing.spicedb_answers import revision_at, revision_in
from new_enemy_tools.importing.service import Answer, Log, content_of, text_or_none
from new_enemy_tools.importing.times import nanoseconds, text_of_time
from new_enemy_tools.recording.bodies import UNHEARD, body_of
from new_enemy_tools.recording.core import refuse_headers
from new_enemy_tools.recording.http_reading import path_of
from new_enemy_tools.recording.messages import CHECKS, Ended
from new_enemy_tools.recording.openfga import PATH, asks_for_newest, call_of, refuse_unknown
from new_enemy_tools.recording.own_events import Own
from new_enemy_tools.recording.reader import LABELS
from new_enemy_tools.recording.sketches import JoinFault, Row, Value
from new_enemy_tools.recording.spicedb import demanded_by

OTHER_TAPS = ("http_streamed_trace_segment", "socket_buffered_trace", "socket_streamed_trace_segment")
# The log's times may be cut to milliseconds; those of SpiceDB without a point are cut to seconds.
CUT, SECOND = 1_000_000, 10 ** 9
FAILED, OTHER, OTHER_STORE = "requests that failed", "other calls", "checks of other stores"
UNANSWERED = "requests without an answer"
OVER_GRPC = "a check over gRPC in a tap"
CUT_SHORT = "a check whose body Envoy cut short"
STREAMED = "a streamed list in a tap, of which it is not known when it ended"
TOKEN = "a token beside a check that no recorder passed"
# What stands for the version of a content check that saves none.
UNNAMED = "-"
# Keys by which an import places a line of the log.
PLACES = ("snapshot", "snapshot_between", "token", "newest")
ANSWERS = {"openfga": openfga_answers.answers_of, "spicedb": spicedb_answers.answers_of}


class Call(NamedTuple):
    """A call that decides: of which store, what was asked and answered, as far as that is known, from when to when, what the application says
    with it, and why it can't be taken; of SpiceDB also the token that is stored with a version. `is_content` says
    whether it is a content check: of one that was denied a log has no version."""

    store: str
    asked: object
    answered: object
    began: int
    ended: int
    save: Optional[str]
    version: Optional[str]
    why: Optional[str] = None
    service: str = "openfga"
    token: Optional[str] = None
    is_content: bool = False


def overheard(name: str, rows: Iterable[Row], took: int) -> Own:
    """What a log or some taps say; a request of the log began at most `took` nanoseconds before its line. Raises JoinFault."""
    made: list[tuple[int, Row]] = []
    passed: Counter[str] = Counter()
    until, payloads = 0, Payloads()
    service: Optional[str] = None
    for row in rows:
        is_tap = any(get(row.value, key) is not None for key in (printed.TAP, *OTHER_TAPS))
        is_payload = not is_tap and printed.Joining.takes(row.value)
        call = _tapped(row) if is_tap else payloads.call(row) if is_payload else _logged(row, took)
        if call is not None and service not in (None, "spicedb" if is_payload else "openfga"):
            raise _fault(row, "a line of another service than those before")
        service = service if call is None else "spicedb" if is_payload else "openfga"
        if isinstance(call, str):
            passed[call] += 1
        elif call is not None:
            until = max(until, call.ended)
            made += ((call.ended, row._replace(value=value)) for value in _values(call))
    passed += payloads.left()
    # The names of taps have another order.
    rows_in_order = [row for _, row in sorted(made, key=lambda one: one[0])]
    return Own(name, service or "openfga", None, until, rows_in_order, False, passed)


def _fault(row: Row, why: str) -> JoinFault:
    return JoinFault("%s:%d: %s" % (row.file, row.line, why))


def _values(call: Call) -> Iterator[Value]:
    """A line for each thing that a call decides."""
    ended = text_of_time(call.ended)
    lost = {"event": "unmapped", "store": call.store, "time": ended}
    try:
        answers = [] if call.why is not None else list(ANSWERS[call.service](call.asked, call.answered, UNHEARD))
    except Bad as fault:
        yield _unread(call, {**lost, "reason": causes.UNREADABLE, "detail": str(fault)})
        return
    is_unnamed = call.is_content and call.save is None
    save = UNNAMED if is_unnamed else call.save
    message = Ended(0, "", "", call.began, call.ended, 0, save, call.version, None, 200, None, None, None, call.why)
    try:
        refuse_headers(message, answers)
        if is_unnamed and any(one.reply for one in answers):
            raise Bad(causes.CONTENT_ODD)
        said = {"saves": save, "shows": call.version, **(_of_tokens(call) if call.service == "spicedb" else _of_model(call))}
    except Bad as fault:
        if not answers:
            yield _unread(call, {**lost, "reason": str(fault)})
        for answer in answers:
            yield {**lost, "reason": str(fault), "detail": str(answer.goal), **_saved(call, answer)}
        return
    for answer in answers:
        if answer.unmapped:
            yield {**lost, "reason": answer.unmapped, "detail": str(answer.goal), **_saved(call, answer)}
            continue
        yield {"event": "asked", "store": call.store, "began": text_of_time(call.began), "ended": ended, "goal": list(answer.goal[:5]),
               "reply": answer.reply, **{key: one for key, one in said.items() if one is not None}}


def _of_model(call: Call) -> dict[str, Any]:
    """What OpenFGA was asked to look at."""
    return {"newest": call.is_content or asks_for_newest(call.asked), "model": get(call.asked, "authorization_model_id") or None}


def _of_tokens(call: Call) -> dict[str, Any]:
    """What SpiceDB looked at, and what it was asked to; raises Bad."""
    found = revision_at(call.answered)
    if found.number is None:
        raise Bad("a snapshot of PostgreSQL, which only ne import spicedb can place")
    token = call.token if call.is_content else demanded_by(call.asked)
    if token is not None and revision_in({"token": token}, "the request's consistency").number is None:
        raise Bad("a token of PostgreSQL, which only ne import spicedb can place")
    return {"newest": get(get(call.asked, "consistency"), "fullyConsistent") is True, "snapshot": found.shown, "token": token}


def _unread(call: Call, lost: Value) -> Value:
    """A call that can't be taken. Where it is not known of what object it saved a version, any that no line has may be that one: as in a gap."""
    saved = _saved(call, None)
    if call.save is None or saved:
        return {**lost, **saved}
    return {"event": "lost", "store": call.store, "from": text_of_time(call.began), "to": text_of_time(call.ended), "count": 1, "reason": lost["reason"]}


def _saved(call: Call, answer: Optional[Answer]) -> dict[str, Any]:
    """The version that a call may have saved which is not taken."""
    thing = [] if answer is None else [*answer.goal[:2]]
    if answer is None and call.save is not None:
        found, resource = get(get(call.asked, "tuple_key"), "object"), get(call.asked, "resource")
        thing = found.split(":", 1) if isinstance(found, str) else [get(resource, "objectType"), get(resource, "objectId")]
    is_known = len(thing) == 2 and all(isinstance(one, str) for one in thing)
    return {"version": [*thing, call.save]} if call.save and is_known else {}


def _passed(row: Row, value: Value, log: type[Log]) -> Optional[str]:
    """What is counted of a line that decides nothing; raises JoinFault."""
    try:
        if passing.failure_of(value, log.DECIDES) is not None:
            return FAILED
        return None if passing.method_of(value) in log.DECISIONS else OTHER
    except Bad as fault:
        raise _fault(row, str(fault)) from None


def _named(row: Row, value: Value) -> tuple[Optional[str], Optional[str], Optional[str], bool]:
    """What is added to a printed line: the version that is saved, the one that is shown, the token that is stored
    with the first, and whether it is of a content check."""
    try:
        content, version = content_of(value), text_or_none(value.get("version"), "version")
        token = text_or_none(get(content, "token"), "token")
        return text_or_none(get(content, "version"), "version"), version, token, content is not None
    except Bad as fault:
        raise _fault(row, str(fault)) from None


def _refuse_placed(row: Row, value: Value, service: str) -> None:
    placed = next((key for key in PLACES if key in value), None)
    if placed is not None:
        raise _fault(row, "a line with `%s` has its place already; give the log to ne import %s" % (placed, service))


# SpiceDB's log

class Payloads:
    """Goes through SpiceDB's log of requests and responses, which are joined by their ids."""

    def __init__(self) -> None:
        self.joining = printed.Joining()
        # when each request was logged, by the number of its line
        self.began: dict[int, int] = {}

    def call(self, row: Row) -> Any:
        """The call of a response, what is counted of another line, or None of a request; raises JoinFault."""
        for key in printed.mistyped(row.value):
            raise _fault(row, key.said())
        at = nanoseconds(row.value.get("time"))
        if at is None:
            raise _fault(row, "the line has no `time` of RFC 3339")
        _refuse_placed(row, row.value, "spicedb")
        asked = self.joining.waiting.get(next((row.value[key] for key in printed.REQUEST_ID if isinstance(row.value.get(key), str)), ""))
        if asked is None and printed.RESPONSE in row.value:
            # The log begins behind its request, or others have its id.
            self.joining.go_on(row.value, row.line)
            value: Optional[Value] = {"method": row.value.get("grpc.method")}
        else:
            try:
                value = self.joining.joined(row.value, row.line, SpiceDbLog.KEYS)
            except Bad as fault:
                raise _fault(row, str(fault)) from None
        if value is None:
            if printed.REQUEST in row.value:
                self.began[row.line] = at
            return None
        passed = _passed(row, value, SpiceDbLog)
        if passed is not None:
            return passed
        save, version, token, is_content = _named(row, value)
        why = causes.UNREADABLE if asked is None else None
        began, ended = at if asked is None else self.began[asked[1]], at + (CUT if "." in row.value["time"] else SECOND)
        return Call("", value.get("request"), value.get("response"), began, ended, save, version, why, "spicedb", token, is_content)

    def left(self) -> Counter[str]:
        """The requests that no line answers."""
        return Counter({UNANSWERED: len(self.joining.left())} if self.joining.left() else ())


# OpenFGA's log

def _logged(row: Row, took: int) -> Any:
    """The call of a line, what is counted of another one, or None of what the server says of itself; raises JoinFault."""
    given = row.value
    for key in printed.mistyped(given):
        raise _fault(row, key.said())
    if not {"raw_request", "raw_response"} & given.keys() and not isinstance(given.get("grpc_method"), str):
        if printed.is_own_log(given):
            return None
        raise _fault(row, "no line of OpenFGA's log in JSON, and no tap of Envoy's tap filter (`%s`)" % printed.TAP)
    value = printed.unwrapped(given, OpenFgaLog.KEYS)
    _refuse_placed(row, value, "openfga")
    passed = _passed(row, value, OpenFgaLog)
    if passed is not None:
        return passed
    ended = nanoseconds(value.get("time"))
    if ended is None:
        raise _fault(row, "the line has no `timestamp`, as seconds since 1970 or as a time of RFC 3339")
    save, version, token, is_content = _named(row, value)
    asked = value.get("request")
    why = causes.UNREADABLE if asked is None else TOKEN if token is not None else None
    store = get(asked, "store_id") or given.get("store_id")
    if not isinstance(store, str):
        raise _fault(row, "the line does not say of which store it is (`store_id`)")
    return Call(store, asked, value.get("response"), ended - took, ended + CUT, save, version, why, is_content=is_content)


# Envoy's taps

def _tapped(row: Row) -> Any:
    """The call of a tap, or what is counted of another one; raises JoinFault."""
    other = next((key for key in OTHER_TAPS if get(row.value, key) is not None), None)
    if other is not None:
        raise _fault(row, "a tap of the kind `%s`; set `streaming: false` in the tap filter of HTTP" % other)
    request, response = (get(get(row.value, printed.TAP), part) for part in ("request", "response"))
    asked, answered = _headers(row, request), _headers(row, response)
    method, path = asked.get(":method", [""])[0], path_of(asked.get(":path", [""])[0])
    is_grpc = asked.get("content-type", [""])[0].startswith("application/grpc")
    call, found = call_of(method, path), PATH.search(path)
    if is_grpc and path.startswith("/openfga.") and path.rpartition("/")[2] in OpenFgaLog.DECISIONS:
        call, store = "check", ""
    elif call not in CHECKS or found is None:
        return OTHER
    else:
        store = found[1]
    if answered.get(":status", [""])[0] != "200":
        return FAILED
    began, ended = (nanoseconds(get(part, "headers_received_time")) for part in (request, response))
    if began is None or ended is None:
        raise _fault(row, "the tap does not say when its headers came; set `record_headers_received_time: true` in the tap filter")
    named = {name: asked.get(header, []) for name, header in LABELS.items()}
    twice = next((LABELS[name].title() for name, listed in named.items() if len(listed) > 1), None)
    save, version, token = (listed[0] if listed else None for listed in named.values())
    why = OVER_GRPC if is_grpc else STREAMED if call == "stream" else "%s stands twice" % twice if twice else TOKEN if token is not None else None
    bodies: list[object] = [None, None]
    try:
        for place, (part, headers) in enumerate(((request, asked), (response, answered))):
            bodies[place] = None if why is not None and place else _body(part, headers)
        if why is None:
            refuse_unknown(path, bodies[0])
    except Bad as fault:
        why = why or str(fault)
    return Call(store, bodies[0], bodies[1], began, ended, save, version, why, is_content=save is not None)


def _headers(row: Row, message: object) -> dict[str, list[str]]:
    """The values of each header."""
    found: dict[str, list[str]] = {}
    listed = get(message, "headers") or []
    if not isinstance(listed, list):
        raise _fault(row, "the headers of the tap are no list")
    for one in listed:
        name, value, raw = get(one, "key"), get(one, "value"), get(one, "raw_value")
        if value is None and isinstance(raw, str):
            try:
                # Labels that differ stay apart.
                value = base64.b64decode(raw, validate=True).decode("utf-8", "backslashreplace")
            except ValueError:
                raise _fault(row, "a header of the tap has a `raw_value` that is no Base64") from None
        if not isinstance(name, str) or not isinstance(value, str):
            raise _fault(row, "a header of the tap has no `key` or no `value`")
        found.setdefault(name.lower(), []).append(value)
    return found


def _body(message: object, headers: dict[str, list[str]]) -> object:
    """The JSON of a body; raises Bad."""
    body = get(message, "body")
    if get(body, "truncated"):
        raise Bad(CUT_SHORT)
    text, data = get(body, "as_string"), get(body, "as_bytes")
    try:
        raw = text.encode() if isinstance(text, str) else base64.b64decode(data or "", validate=True)
        encoding = next(iter(headers.get("content-encoding", ())), None)
        return body_of(Ended(0, "", "", 0, 0, 0, None, None, None, 200, None, raw, encoding))
    except (ValueError, TypeError):
        raise Bad(causes.UNREADABLE) from None


def of_store(own: Own, store: Optional[str]) -> Own:
    """What is said of one store; of others it is counted. Raises JoinFault where nothing is of it."""
    rows = [row for row in own.rows if row.value["store"] in (store, "")]
    if own.rows and not rows:
        raise JoinFault("%s has checks of the store %s alone, and the logs are of %s" % (
            own.name, own.rows[0].value["store"], store or "another service"))
    passed = own.passed + Counter({OTHER_STORE: len(own.rows) - len(rows)})
    return own._replace(store=store, rows=rows, passed=passed)
