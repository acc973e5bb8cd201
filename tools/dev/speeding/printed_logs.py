"""How services print what happens: a log's lines, with the rules and the words of an import that go with them."""
import base64
import json
from random import Random
from typing import Any, Dict, Iterator, List, Optional, Tuple, Type, Union

from speeding.world import RELATIONS, Check, Given, Write

Line = Dict[str, Any]
EPOCH = 1_700_000_000
MODEL_ID = "01HVMMBCMGZNT3SED4Z17ECXCA"
STORE_ID = "01HVMMB4MV5V7Y0A4V1J9Y0Z3H"


def time_of(seconds: float) -> str:
    whole, part = divmod(round(seconds * 1000), 1000)
    days, rest = divmod(whole, 86_400)
    return "2024-05-%02dT%02d:%02d:%02d.%03dZ" % (days % 28 + 1, rest // 3600, rest // 60 % 60, rest % 60, part)


class Form:
    """`lines` gives those of an event; `number` counts calls, and `random` draws what a line has beside."""

    def __init__(self, seed: int):
        self.random, self.number = Random(seed), 0

    def rules(self) -> str:
        """The text of the model or the schema."""
        return ""

    def words(self) -> List[str]:
        raise NotImplementedError

    def begin(self) -> List[Line]:
        return []

    def lines(self, event: Union[Write, Check]) -> Iterator[Line]:
        self.number += 1
        return self.write(event) if isinstance(event, Write) else self.check(event)

    def write(self, event: Write) -> Iterator[Line]:
        raise NotImplementedError

    def check(self, event: Check) -> Iterator[Line]:
        raise NotImplementedError

    def call_id(self) -> str:
        return "%032x" % self.random.getrandbits(128)

    def now(self) -> float:
        return self.number * 0.004


class OpenFga(Form):
    """Answers of ReadChanges, and lines with the request and the response as HTTP has them."""

    def rules(self) -> str:
        def direct(*users: str) -> Line:
            return {"directly_related_user_types": [{"type": one.split("#")[0], **({"relation": one.split("#")[1]} if "#" in one else {})}
                                                    for one in users]}
        this: Line = {"this": {}}
        rewrites = {one: {"union": {"child": [this, {"computedUserset": {"relation": above}}]}} for one, above in zip(RELATIONS, RELATIONS[1:])}
        document = {"type": "document", "relations": {**rewrites, "owner": this},
                    "metadata": {"relations": {one: direct("user", "group#member") for one in RELATIONS}}}
        group = {"type": "group", "relations": {"member": this}, "metadata": {"relations": {"member": direct("user", "group#member")}}}
        return json.dumps({"schema_version": "1.1", "id": MODEL_ID, "type_definitions": [{"type": "user"}, group, document]})

    def words(self) -> List[str]:
        return ["openfga", "--model", "rules", "--from-empty"]

    @staticmethod
    def key(given: Given) -> Line:
        user = "%s:%s%s" % (given[3], given[4], "#" + given[5] if given[5] else "")
        return {"user": user, "relation": given[2], "object": "%s:%s" % given[:2]}

    def write(self, event: Write) -> Iterator[Line]:
        changes = [{"tuple_key": {**self.key(one), "condition": None}, "operation": "TUPLE_OPERATION_" + name, "timestamp": time_of(event.at)}
                   for name, listed in (("DELETE", event.remove), ("WRITE", event.add)) for one in listed]
        token = base64.b64encode(b"%026d|document" % self.number).decode()
        yield {"changes": changes, "continuation_token": token}

    def request(self, event: Check) -> Line:
        demanded = "HIGHER_CONSISTENCY" if event.is_content or self.random.randrange(3) == 0 else "UNSPECIFIED"
        return {"tuple_key": self.key(event.goal), "contextual_tuples": {"tuple_keys": []}, "authorization_model_id": MODEL_ID, "trace": False,
                "context": None, "consistency": demanded}

    def added(self, event: Check) -> Line:
        """What a recorder adds to a line."""
        shown = {"version": event.version, "token": None if event.token is None else time_of(event.token)}
        if event.is_content:
            return {"snapshot": time_of(event.at), "content": shown if event.version else {}}
        return {"snapshot": time_of(event.at), **(shown if event.version else {})}

    def check(self, event: Check) -> Iterator[Line]:
        yield {"request": self.request(event), "response": {"allowed": event.reply, "resolution": ""}, **self.added(event)}


class OpenFgaLog(OpenFga):
    """The server's own log, to which `snapshot` and what belongs to a version are added."""

    def printed(self, method: str, request: Line, response: Line, **more: Any) -> Line:
        draw = self.random.randrange
        return {"level": "info", "timestamp": 1_714_986_000 + self.now() + 0.0001234, "msg": "grpc_req_complete", "build.version": "1.8.4",
                "build.commit": "c7ef1a95a0d4e2a0e3ca0b8a4c2bf1c2b5ae9f2c", "request_id": self.call_id(), "trace_id": self.call_id(),
                "grpc_service": "openfga.v1.OpenFGAService", "grpc_method": method, "grpc_type": "unary",
                "user_agent": "openfga-sdk go/0.6.5", "raw_request": request, "raw_response": response, "store_id": STORE_ID,
                "authorization_model_id": MODEL_ID, "peer.address": "10.0.%d.%d:%d" % (draw(9), draw(250), 30000 + draw(9999)),
                "query_duration_ms": str(draw(30)), "dispatch_count": draw(5), "datastore_query_count": draw(7), "grpc_code": 0, **more}

    def check(self, event: Check) -> Iterator[Line]:
        request = {"store_id": STORE_ID, **self.request(event)}
        yield self.printed("Check", request, {"allowed": event.reply, "resolution": ""}, **self.added(event))


class SpiceDb(Form):
    """What the gateway answers, with all that has no value."""

    def rules(self) -> str:
        return ("definition user {}\ndefinition group {\n  relation member: user | group#member\n}\ndefinition document {\n"
                "  relation viewer_of: user | group#member\n  relation editor_of: user | group#member\n  relation owner_of: user | group#member\n"
                "  permission owner = owner_of\n  permission editor = editor_of + owner\n  permission viewer = viewer_of + editor\n}\n")

    def words(self) -> List[str]:
        return ["spicedb", "--schema", "rules", "--from-empty"]

    @staticmethod
    def token(at: int) -> Line:
        digits = b"%d.0000000000" % (EPOCH * 10 ** 9 + at)
        inner = b"\x0a" + bytes([len(digits)]) + digits
        return {"token": base64.b64encode(b"\x1a" + bytes([len(inner)]) + inner).decode()}

    names: Tuple[str, str] = ("objectType", "objectId")

    def thing(self, of: str, id_text: str) -> Line:
        return dict(zip(self.names, (of, id_text)))

    def relation(self, given: Given) -> str:
        return given[2] + "_of" if given[0] == "document" else given[2]

    def relationship(self, given: Given) -> Line:
        subject: Line = {"object": self.thing(*given[3:5]), "optionalRelation": given[5] or ""}
        return {"resource": self.thing(*given[:2]), "relation": self.relation(given), "subject": subject, "optionalCaveat": None,
                "optionalExpiresAt": None}

    def updates(self, event: Write) -> List[Line]:
        return [{"operation": "OPERATION_" + name, "relationship": self.relationship(one)}
                for name, listed in (("TOUCH", event.add), ("DELETE", event.remove)) for one in listed]

    def write(self, event: Write) -> Iterator[Line]:
        yield {"result": {"updates": self.updates(event), "changesThrough": self.token(event.at), "optionalTransactionMetadata": None,
                          "schemaUpdated": False, "isCheckpoint": False}}

    def consistency(self, event: Check) -> Line:
        if event.is_content:
            return {"fullyConsistent": True}
        return {"atLeastAsFresh": self.token(event.token)} if event.token is not None else {"minimizeLatency": True}

    def added(self, event: Check) -> Line:
        if event.is_content:
            return {"content": {"version": event.version, **self.token(event.at)} if event.version else {}}
        return {"version": event.version} if event.version else {}

    def check(self, event: Check) -> Iterator[Line]:
        request = {"consistency": self.consistency(event), "resource": self.thing(*event.goal[:2]), "permission": event.goal[2],
                   "subject": {"object": self.thing(*event.goal[3:5]), "optionalRelation": ""}, "context": None, "withTracing": False}
        response = {"checkedAt": self.token(event.at), "permissionship": "PERMISSIONSHIP_%s_PERMISSION" % ("HAS" if event.reply else "NO"),
                    "partialCaveatInfo": None, "debugTrace": None, "optionalExpiresAt": None}
        yield {"request": request, "response": response, **self.added(event)}


class SpiceDbLog(SpiceDb):
    """The server's log of requests and of responses, a line each; what belongs to a version is added to the response."""

    names = ("object_type", "object_id")

    def printed(self, service: str, call: str, call_id: str, message: str, **more: Any) -> Line:
        return {"level": "info", "protocol": "grpc", "grpc.component": "server", "grpc.service": "authzed.api.v1." + service,
                "grpc.method": call, "grpc.method_type": "unary", "peer.address": "10.0.0.%d:%d" % (self.number % 250, 30000 + self.number % 9999),
                "requestID": call_id, "grpc.start_time": time_of(self.now()), **more, "time": time_of(self.now()), "message": message}

    def relationship(self, given: Given) -> Line:
        subject: Line = {"object": self.thing(*given[3:5]), **({"optional_relation": given[5]} if given[5] else {})}
        return {"resource": self.thing(*given[:2]), "relation": self.relation(given), "subject": subject}

    def asked(self, service: str, call: str, request: Line, response: Line, added: Optional[Line] = None) -> Iterator[Line]:
        call_id = "d%019x" % self.random.getrandbits(76)
        yield self.printed(service, call, call_id, "request received", **{"grpc.request.content": request})
        yield self.printed(service, call, call_id, "response sent", **{"grpc.response.content": response}, **(added or {}))
        yield self.printed(service, call, call_id, "finished call", **{"grpc.code": "OK", "grpc.time_ms": self.random.randrange(90) / 10})

    def write(self, event: Write) -> Iterator[Line]:
        updates = [{**one, "operation": {"OPERATION_TOUCH": 2, "OPERATION_DELETE": 3}[one["operation"]]} for one in self.updates(event)]
        return self.asked("PermissionsService", "WriteRelationships", {"updates": updates}, {"written_at": self.token(event.at)})

    def check(self, event: Check) -> Iterator[Line]:
        (name, value), = self.consistency(event).items()
        request = {"consistency": {"Requirement": {name[:1].upper() + name[1:]: value}}, "resource": self.thing(*event.goal[:2]),
                   "permission": event.goal[2], "subject": {"object": self.thing(*event.goal[3:5])}}
        response = {"checked_at": self.token(event.at), "permissionship": 2 if event.reply else 1}
        return self.asked("PermissionsService", "CheckPermission", request, response, self.added(event))


class Events(Form):
    """Events of no service."""

    def words(self) -> List[str]:
        return ["events", "--from-empty"]

    def begin(self) -> List[Line]:
        this: Line = {"this": {}}
        rewrites = {one: {"union": [this, {"computed": above}]} for one, above in zip(RELATIONS, RELATIONS[1:])}
        return [{"event": "rules", "namespaces": [{"name": "group", "relations": [{"name": "member"}]}, {"name": "document", "relations": [
            {"name": one, "rewrite": rewrites.get(one, this)} for one in RELATIONS]}]}]

    def stamp(self) -> Line:
        return {}

    @staticmethod
    def listed(given: Given) -> List[str]:
        return [one for one in given if one is not None]

    def write(self, event: Write) -> Iterator[Line]:
        yield {"event": "write", "revision": event.at, "add": [self.listed(one) for one in event.add],
               **({"remove": [self.listed(one) for one in event.remove]} if event.remove else {}), **self.stamp()}

    def check(self, event: Check) -> Iterator[Line]:
        said = {} if event.version is None else {"version": event.version, "token": event.token}
        yield {"event": "content" if event.is_content else "check", "goal": self.listed(event.goal), "snapshot": event.at, "reply": event.reply,
               **said, **self.stamp()}


class EventsInSequence(Events):
    """Each with the number that a sequencer gave it, and its time."""

    def begin(self) -> List[Line]:
        return [{**one, **self.stamp()} for one in super().begin()]

    def stamp(self) -> Line:
        return {"sequence": self.number, "time": time_of(self.now())}


class EventsOfClocks(Events):
    """Each with its time, by one of two clocks that are a millisecond apart at most."""

    def begin(self) -> List[Line]:
        return [{**one, **self.stamp()} for one in super().begin()]

    def words(self) -> List[str]:
        return ["events", "--from-empty", "--skew", "1"]

    def stamp(self) -> Line:
        return {"time": time_of(self.now()), "clock": "app-%d" % (self.number % 2)}


FORMS: "Dict[str, Type[Form]]" = {
    "openfga": OpenFga, "openfga_log": OpenFgaLog, "spicedb": SpiceDb, "spicedb_log": SpiceDbLog, "events": Events,
    "events_in_sequence": EventsInSequence, "events_of_clocks": EventsOfClocks}
