"""The stand-ins of both services over gRPC, as a process: stand_in_grpc.py spicedb PORT [SHARE PLANTED] [--key KEY];
or stand_in_grpc.py openfga PORT MODEL [SHARE PLANTED] [--key KEY].

Each answers as its stand-in over HTTP does.
"""
import json
import sys
from concurrent.futures import ThreadPoolExecutor

import grpc

sys.path.insert(0, __file__.rsplit("/", 2)[0])

from tests.google_protobuf import OPENFGA_MESSAGES, SPICEDB_MESSAGES
from tests.stand_in import Faults, key_in
from tests.stand_in_openfga import OpenFga
from tests.stand_in_spicedb import Numbers, SpiceDb

SPICEDB = {"PermissionsService/CheckPermission": ("do_permissions_check", False),
           "PermissionsService/CheckBulkPermissions": ("do_permissions_checkbulk", False),
           "PermissionsService/LookupResources": ("do_permissions_resources", True),
           "PermissionsService/WriteRelationships": ("do_relationships_write", False),
           "PermissionsService/ReadRelationships": ("do_relationships_read", True),
           "SchemaService/ReadSchema": ("do_schema_read", False), "SchemaService/WriteSchema": ("do_schema_write", False),
           "WatchService/Watch": ("do_watch", True)}
OPENFGA = {"Check": "check", "BatchCheck": "batch-check", "ListObjects": "list-objects", "StreamedListObjects": "streamed-list-objects",
           "Write": "write", "ReadChanges": "changes", "ReadAuthorizationModels": "authorization-models",
           "WriteAuthorizationModel": "authorization-models", "ListStores": None}


class Answer:
    """Takes what the stand-in answers, and has what it is asked with."""

    status = 200

    def __init__(self, headers):
        self.headers = headers

    def answer(self, value, status=200):
        self.value, self.status = value, status

    def stream(self, values):
        self.value = values


class Handler(grpc.GenericRpcHandler):
    def __init__(self, service):
        self.service_ = service

    def call_of(self, name):
        """The API of a call, whether its answers are a stream, and what answers it; None where there is no such call."""
        if name.startswith("/authzed.api.v1.") and name[16:] in SPICEDB:
            call, is_stream = SPICEDB[name[16:]]
            return SPICEDB_MESSAGES, is_stream, getattr(self.service_, call)
        if name.startswith("/openfga.v1.OpenFGAService/") and name.split("/")[2] in OPENFGA:
            return OPENFGA_MESSAGES, name.endswith("StreamedListObjects"), self.openfga_call(name.split("/")[2])
        return None

    def openfga_call(self, of):
        def asked(answer, body):
            path = "/stores" if OPENFGA[of] is None else "/stores/%s/%s" % (body.get("store_id"), OPENFGA[of])
            query = {name: body[name] for name in ("page_size", "continuation_token") if name in body}
            method = "GET" if of.startswith(("Read", "List")) and of != "ListObjects" else "POST"
            self.service_.call(answer, method, path + "?" + "&".join("%s=%s" % one for one in query.items()), body)
        return asked

    def service(self, details):
        found = self.call_of(details.method)
        if found is None:
            return None
        messages, is_stream, call = found
        of = details.method.split("/")[2]

        def run(body, context):
            metadata = dict(context.invocation_metadata())
            if self.service_.key and metadata.get("authorization") != "Bearer " + self.service_.key:
                context.abort(grpc.StatusCode.UNAUTHENTICATED, "no key")
            if metadata.get("x-refuse"):
                context.set_trailing_metadata((("x-why", "asked for"), ("x-long", metadata.get("x-long", ""))))
                context.abort(grpc.StatusCode.FAILED_PRECONDITION, "refused as asked")
            context.send_initial_metadata((("x-first", "1"),))
            answer = Answer(metadata)
            call(answer, body)
            if answer.status >= 400:
                context.abort(grpc.StatusCode.INVALID_ARGUMENT, answer.value["message"])
            return answer.value
        make = grpc.unary_stream_rpc_method_handler if is_stream else grpc.unary_unary_rpc_method_handler
        return make(run, messages.decoder(of + "Request"), messages.encoder(of + "Response"))


def main(words):
    key = key_in(words)
    kind, port, *rest = words
    model = rest.pop(0) if kind == "openfga" else None
    faults = Faults(float((rest + ["0"])[0]), (rest + [None] * 2)[1])
    if model is not None:
        with open(model, encoding="utf-8") as file:
            service = OpenFga(json.load(file), faults, key)
    else:
        service = SpiceDb(faults, key, Numbers())
    # As much metadata as gRPC's libraries in Go let pass.
    server = grpc.server(ThreadPoolExecutor(32), (Handler(service),), options=[("grpc.max_metadata_size", 16 << 20)])
    found = server.add_insecure_port("127.0.0.1:" + port)
    server.start()
    sys.stdout.write("ready %d\n" % found)
    sys.stdout.flush()
    server.wait_for_termination()


if __name__ == "__main__":
    main(sys.argv[1:])
