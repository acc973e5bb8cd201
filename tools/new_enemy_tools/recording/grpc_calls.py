"""The calls of both services over gRPC that are recorded, and how their messages are told to the keeper."""
import re
from typing import Any, NamedTuple, Optional

from new_enemy_tools.importing.reading import Bad
from new_enemy_tools.recording import openfga_messages, spicedb_messages
from new_enemy_tools.recording.messages import SIZE, Ended
from new_enemy_tools.recording.protobuf import Messages

OPENFGA = "/openfga.v1.OpenFGAService/"
PERMISSIONS = "/authzed.api.v1.PermissionsService/"
EXPERIMENTAL = "/authzed.api.v1.ExperimentalService/"
# What an encoding is called whose bodies are messages of gRPC.
GRPC = "grpc"


class Call(NamedTuple):
    """What is recorded of a call, and the names of its messages without their ends."""

    kind: str
    name: str
    messages: Messages


def _calls(service: str, messages: Messages, **kinds: str) -> dict[str, Call]:
    return {service + name: Call(kind, name, messages) for name, kind in kinds.items()}


CALLS = {**_calls(OPENFGA, openfga_messages.MESSAGES, Check="check", BatchCheck="batch", ListObjects="list", ListUsers="list",
                  StreamedListObjects="stream", Write="write"),
         **_calls(PERMISSIONS, spicedb_messages.MESSAGES, CheckPermission="check", CheckBulkPermissions="batch", LookupResources="stream",
                  LookupSubjects="stream", WriteRelationships="write", DeleteRelationships="write"),
         EXPERIMENTAL + "BulkCheckPermission": Call("batch", "CheckBulkPermissions", spicedb_messages.MESSAGES)}
# Whatever else these services are asked may be a decision, but for this; the last has no other decisions than by these names.
NONE = {OPENFGA: re.compile("(Read|Write|Create|Update|Delete|Get|ListStores|Expand)"),
        PERMISSIONS: re.compile("(Read|Import|Export|Expand)"), EXPERIMENTAL: re.compile("(?!.*(Check|Lookup))")}


def may_decide(method: str) -> bool:
    """Whether a call that is not recorded may be a decision all the same."""
    service, _, name = method.rpartition("/")
    none = NONE.get(service + "/")
    return none is not None and method not in CALLS and not none.match(name)


def joined(messages: list[bytes]) -> bytes:
    return b"".join(SIZE.pack(len(one)) + one for one in messages)


def _split(data: Optional[bytes]) -> list[bytes]:
    found, at = [], 0
    while data and at < len(data):
        size = SIZE.unpack_from(data, at)[0]
        found.append(data[at + SIZE.size:at + SIZE.size + size])
        at += SIZE.size + size
    return found


def asked(message: Ended) -> Any:
    """The request of a call, as JSON; raises Malformed."""
    call = CALLS[message.path]
    return call.messages.read(call.name + "Request", _only(_split(message.request), "requests"))


def answered(message: Ended) -> Any:
    """The response of a call, a list where it is streamed; raises Malformed."""
    call = CALLS[message.path]
    responses = [call.messages.read(call.name + "Response", one) for one in _split(message.response)]
    return responses if call.kind == "stream" else _only(responses, "answers")


def _only(found: list[Any], what: str) -> Any:
    """Of what should be one; some take the first of several, and some the last."""
    if len(found) != 1:
        raise Bad("a call with %d %s" % (len(found), what))
    return found[0]
