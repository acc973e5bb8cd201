"""A client of OpenFGA over gRPC, by grpcio: openfga_grpc_client.py PORT. Each line of its input is a list of a call, its body and metadata; it
answers by a line with the status of HTTP that the gateway would have, and the JSON of the answer."""
import json
import sys

import grpc
from google.protobuf import json_format

sys.path.insert(0, __file__.rsplit("/", 2)[0])

from tests.google_protobuf import OPENFGA_MESSAGES

# So many seconds an answer may take on a machine that is overloaded.
LONG = 120


def main(words):
    channel = grpc.insecure_channel("127.0.0.1:" + words[0], [("grpc.use_local_subchannel_pool", 1)])
    for line in sys.stdin:
        name, body, metadata = json.loads(line)
        answers = OPENFGA_MESSAGES.classes[name + "Response"]
        path, sent = "/openfga.v1.OpenFGAService/" + name, OPENFGA_MESSAGES.encoder(name + "Request")(body)
        try:
            if name == "StreamedListObjects":
                found = [one.object for one in channel.unary_stream(path, None, answers.FromString)(sent, metadata=metadata, timeout=LONG)]
            else:
                answer = channel.unary_unary(path, None, answers.FromString)(sent, metadata=metadata, timeout=LONG)
                found = json_format.MessageToDict(answer, preserving_proto_field_name=True, including_default_value_fields=True)
            status = 200
        except grpc.RpcError as fault:
            status, found = 400, {"message": fault.details()}
        sys.stdout.write(json.dumps([status, found]) + "\n")
        sys.stdout.flush()


if __name__ == "__main__":
    main(sys.argv[1:])
