"""Clients of SpiceDB over gRPC, by grpcio: spicedb_grpc_clients.py PORT CLIENTS REQUESTS; or PORT [CA], to try what passes unchanged."""
import sys
import threading
from random import Random

import grpc

sys.path.insert(0, __file__.rsplit("/", 2)[0])

from tests.google_protobuf import SPICEDB_MESSAGES
from tests.stand_in_spicedb import relationship_of

encoder, decoder = SPICEDB_MESSAGES.encoder, SPICEDB_MESSAGES.decoder
PERMISSIONS = "/authzed.api.v1.PermissionsService/"
DOCUMENTS = ["d%d" % number for number in range(6)]
USERS = ["u%d" % number for number in range(5)]
FULL = {"fullyConsistent": True}
# So many seconds an answer may take on a machine that is overloaded.
LONG = 120


class Client:
    def __init__(self, port, ca=None):
        target, options = "127.0.0.1:%s" % port, [("grpc.use_local_subchannel_pool", 1), ("grpc.max_metadata_size", 16 << 20)]
        if ca is None:
            self.channel = grpc.insecure_channel(target, options)
        else:
            with open(ca, "rb") as file:
                self.channel = grpc.secure_channel(target, grpc.ssl_channel_credentials(file.read()), options)
        # of the client's last write
        self.seen = ()

    def ask(self, name, body, *metadata):
        call = self.channel.unary_unary(PERMISSIONS + name, encoder(name + "Request"), decoder(name + "Response"))
        return call.with_call(body, metadata=metadata, timeout=LONG)

    def listed(self, name, body):
        return list(self.channel.unary_stream(PERMISSIONS + name, encoder(name + "Request"), decoder(name + "Response"))(body, timeout=LONG))

    def write(self, operation, *parts):
        answer, _ = self.ask("WriteRelationships", {"updates": [{"operation": "OPERATION_" + operation, "relationship": relationship_of(one)}
                                                                for one in parts]})
        self.seen = (("x-seen", answer["writtenAt"]["token"]),)

    def check(self, user, permission, thing, consistency, *metadata):
        return self.ask("CheckPermission", {"consistency": consistency, **asked(user, permission, thing)}, *metadata, *self.seen)[0]


def asked(user, permission, thing):
    return {"resource": {"objectType": "document", "objectId": thing}, "permission": permission,
            "subject": {"object": {"objectType": "user", "objectId": user}}}


def run(port, number, requests, versions):
    client, random = Client(port), Random("client %d" % number)
    for turn in range(requests):
        form, user, thing = random.random(), random.choice(USERS), random.choice(DOCUMENTS)
        if form < 0.2:
            client.write(random.choice(["TOUCH", "DELETE"]), ("document:" + thing, random.choice(["viewer", "viewer", "banned"]), "user:" + user, ""))
        elif form < 0.3:
            version = "v%d.%d" % (number, turn)
            answer = client.check(USERS[0], "edit", thing, FULL, ("x-content-save", version))
            if answer["permissionship"] == "PERMISSIONSHIP_HAS_PERMISSION":
                versions[thing] = version, answer["checkedAt"]
        elif form < 0.6 and thing in versions:
            version, token = versions[thing]
            client.check(user, "view", thing, {"atLeastAsFresh": token}, ("x-content-version", version))
        elif form < 0.65:
            client.ask("CheckBulkPermissions", {"consistency": FULL, "items": [asked(one, "view", thing) for one in USERS]})
        elif form < 0.68:
            client.listed("LookupResources", {"consistency": FULL, "resourceObjectType": "document", "permission": "view",
                                              "subject": {"object": {"objectType": "user", "objectId": user}}})
        else:
            client.check(user, "view", thing, FULL)


def unchanged(port, ca):
    """Metadata, statuses and their details, as a client sees them, over TLS where it is given the authority."""
    client = Client(port, ca)
    answer, call = client.ask("CheckPermission", {"consistency": FULL, **asked("u0", "view", "d0")})
    found = [answer["permissionship"], dict(call.initial_metadata()).get("x-first")]
    # Tokens of users may be long.
    for metadata, name in (((("x-refuse", "1"), ("x-long", "y" * 20_000)), "CheckPermission"), ((), "ExpandPermissionTree")):
        try:
            client.channel.unary_unary(PERMISSIONS + name)(b"", metadata=metadata, timeout=LONG)
        except grpc.RpcError as fault:
            trailing = dict(fault.trailing_metadata())
            found += [fault.code().name, fault.details(), trailing.get("x-why"), len(trailing.get("x-long", ""))]
    print(found)


def main(words):
    if len(words) < 3:
        unchanged(*(words + [None])[:2])
        return
    port, clients, requests = words
    first = Client(port)
    first.write("TOUCH", *[("document:" + one, "owner", "user:" + USERS[0], "") for one in DOCUMENTS])
    versions = {}
    threads = [threading.Thread(target=run, args=(port, number, int(requests), versions)) for number in range(int(clients))]
    for one in threads:
        one.start()
    for one in threads:
        one.join()


if __name__ == "__main__":
    main(sys.argv[1:])
