"""The recorder's own requests to a service, over gRPC: the schema or model, and the changes."""
from typing import Any, Iterator, Optional
from urllib.parse import urlsplit

import grpc  # type: ignore[import]

from new_enemy_tools.importing.reading import get
from new_enemy_tools.recording import openfga_messages, spicedb_messages
from new_enemy_tools.recording.asking import FeedFault
from new_enemy_tools.recording.grpc_calls import OPENFGA, PERMISSIONS
from new_enemy_tools.recording.grpc_relay import channel_of
from new_enemy_tools.recording.protobuf import Malformed, Messages

TIMEOUT = 30.0


class GrpcAsker:
    def __init__(self, url: str, key: Optional[str], ca: Optional[str], messages: Messages):
        self.channel, self.messages = channel_of(grpc, urlsplit(url), ca), messages
        self.metadata = [("authorization", "Bearer " + key)] if key else []

    def use_key(self, key: str) -> None:
        self.metadata = [("authorization", "Bearer " + key)]

    def raw(self, path: str, body: dict[str, Any], timeout: Optional[float] = TIMEOUT) -> Iterator[bytes]:
        """The answers of a call; raises FeedFault."""
        name = path.rpartition("/")[2]
        try:
            yield from self.channel.unary_stream(path)(self.messages.written(name + "Request", body), metadata=self.metadata, timeout=timeout)
        except grpc.RpcError as fault:
            code: Any = fault.code() if isinstance(fault, grpc.Call) else None
            why = "" if code is None else " (%s)" % code.name
            hint = "; give a key that may read by --key-file" if code in (
                grpc.StatusCode.UNAUTHENTICATED, grpc.StatusCode.PERMISSION_DENIED) else ""
            raise FeedFault("%s is not answered%s%s" % (name, why, hint)) from None

    def read(self, path: str, data: bytes) -> dict[str, Any]:
        """An answer as JSON; raises FeedFault."""
        name = path.rpartition("/")[2]
        try:
            return self.messages.read(name + "Response", data)
        except Malformed as fault:
            raise FeedFault("an answer of %s can't be read: %s" % (name, fault)) from None

    def stream(self, path: str, body: dict[str, Any], timeout: Optional[float] = TIMEOUT) -> Iterator[dict[str, Any]]:
        for data in self.raw(path, body, timeout):
            yield self.read(path, data)


class OpenFgaOverGrpc(GrpcAsker):
    MODELS = OPENFGA + "ReadAuthorizationModels"

    def __init__(self, url: str, key: Optional[str], ca: Optional[str]):
        super().__init__(url, key, ca, openfga_messages.MESSAGES)

    def stores(self) -> list[Any]:
        return get(next(self.stream(OPENFGA + "ListStores", {"page_size": {"value": 10}}), None), "stores") or []

    def changes(self, store: str, size: int, token: Optional[str]) -> Any:
        body = {"store_id": store, "page_size": {"value": size}, "continuation_token": token}
        return next(self.stream(OPENFGA + "ReadChanges", body), {})

    def model(self, store: str, size: int) -> tuple[object, bytes]:
        """What tells it from another is its id: the service may write one model in several ways."""
        data = next(self.raw(self.MODELS, {"store_id": store, "page_size": {"value": size}}), b"")
        return self.messages.read("IdsResponse", data), data

    def models(self, data: bytes) -> list[Any]:
        return get(self.read(self.MODELS, data), "authorization_models") or []


class SpiceDbOverGrpc(GrpcAsker):
    def __init__(self, url: str, key: Optional[str], ca: Optional[str]):
        super().__init__(url, key, ca, spicedb_messages.MESSAGES)

    def schema(self) -> tuple[str, str]:
        for answer in self.stream("/authzed.api.v1.SchemaService/ReadSchema", {}):
            text, token = get(answer, "schemaText"), get(get(answer, "readAt"), "token")
            if text and token:
                return text, token
        raise FeedFault("ReadSchema answers without a text and the token of its moment; a later SpiceDB has them")

    def relationships(self, of: str, token: str) -> Iterator[dict[str, Any]]:
        body = {"consistency": {"atExactSnapshot": {"token": token}}, "relationshipFilter": {"resourceType": of}}
        for answer in self.stream(PERMISSIONS + "ReadRelationships", body, None):
            yield get(answer, "relationship")

    def watch(self, token: str) -> Iterator[dict[str, Any]]:
        kinds = [name for number, name in spicedb_messages.KIND.items() if number]
        body = {"optionalStartCursor": {"token": token}, "optionalUpdateKinds": kinds}
        return self.stream("/authzed.api.v1.WatchService/Watch", body, None)
