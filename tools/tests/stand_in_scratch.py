"""Stand-ins of both services in which a self-test makes a place of its own: stand_in_scratch.py (openfga | spicedb) PORT [LIE].

A LIE is `wrong`, every twentieth reply; `stale`, every third from before the last 25 changes; `field`, replies by another name than the
documents have; `coded`, lists that say to be compressed in a way that nobody knows; `silent`, no answer to a check; `stays`, nothing can be
deleted; `unwatched`, Watch does not tell who is banned; `unmarked` is none: replies are of later
than the last change, and Watch has no checkpoints. GET /there tells what is there. By the word `taken` SpiceDB has a schema.
"""
import re
import sys
import threading

sys.path.insert(0, __file__.rsplit("/", 2)[0])

from tests.stand_in import Faults, serve
from tests.stand_in_openfga import STORE, OpenFga
from tests.stand_in_spicedb import FIRST, STEP, Numbers, SpiceDb

# What the definitions of the self-test mean, by SpiceDB's documents.
RULES = {
    "user": {}, "group": {"member": [("user", ""), ("group", "member")]},
    "folder": {"viewer": [("user", ""), ("user:*", ""), ("group", "member")], "can_view": ("name", "viewer")},
    "document": {
        **{name: [("user", "")] for name in ("owner", "banned", "editor", "viewer")}, "parent": [("folder", "")],
        "can_edit": ("+", [("name", "owner"), ("name", "editor")]), "can_share": ("&", [("name", "editor"), ("name", "viewer")]),
        "can_view": ("-", [("+", [("name", "viewer"), ("name", "can_edit"), ("arrow", "parent", "can_view")]), ("name", "banned")])}}


class Lies:
    """Which of the replies are lies, by their number."""

    def __init__(self, kind):
        self.kind, self.count, self.lock = kind, 0, threading.Lock()

    def now(self, kind, each):
        with self.lock:
            self.count += kind == self.kind
            return kind == self.kind and self.count % each == 0


def stays(handler):
    handler.answer({"code": 9, "message": "it stays"}, 400)


class ScratchOpenFga(OpenFga):
    def __init__(self, lies):
        super().__init__({}, Faults(0, None), None)
        self.models, self.lies, self.is_there = [], lies, False

    def call(self, handler, method, path, body):
        if (method, path) == ("GET", "/there"):
            handler.answer({"there": [STORE] if self.is_there else []})
        elif (method, path) == ("POST", "/stores"):
            self.is_there = True
            handler.answer({"id": STORE, "name": body["name"]}, 201)
        elif method == "DELETE" and self.lies.kind == "stays":
            stays(handler)
        elif (method, path) == ("DELETE", "/stores/" + STORE):
            self.is_there = False
            handler.answer({})
        else:
            super().call(handler, method, path, body)

    def check(self, handler, method, body, query):
        if self.lies.kind == "silent":
            threading.Event().wait()
        if self.lies.kind == "field":
            handler.answer({"is_allowed": True})
            return
        super().check(handler, method, body, query)

    def list_objects(self, handler, method, body, query):
        if self.lies.kind == "coded":
            # The next header goes with those of the answer.
            send, handler.send_header = handler.send_header, lambda name, value: (send(name, value), send("Content-Encoding", "other"))
        super().list_objects(handler, method, body, query)
        handler.__dict__.pop("send_header", None)

    def decided(self, user, relation, thing):
        allowed = self.holds(self.states[-1], user, relation, thing)
        if self.lies.now("stale", 3):
            old = [one for one in self.states if one is not None][-25:]
            return self.holds(old[0], user, relation, thing)
        return allowed != self.lies.now("wrong", 20)


class Between(Numbers):
    """What is read is of a revision behind that of the last change."""

    def token_of(self, revision, is_write=False):
        return super().token_of(revision + (0 if is_write else 1))

    def revision_of(self, token):
        revision = super().revision_of(token)
        return revision - (revision - FIRST) % STEP


class ScratchSpiceDb(SpiceDb):
    def __init__(self, lies, is_taken):
        super().__init__(Faults(0, None), None, Between() if lies.kind == "unmarked" else Numbers())
        self.schema, self.lies = "definition shop {}" if is_taken else "", lies

    def call(self, handler, method, path, body):
        if (method, path) == ("GET", "/there"):
            handler.answer({"there": sorted(set(re.findall(r"definition (\S+)", self.schema)) | {one[0] for one in self.commits[-1][1]})})
        elif path == "/v1/schema/read" and not self.schema:
            handler.answer({"code": 5, "message": "No schema has been defined; please call WriteSchema to start"}, 404)
        else:
            super().call(handler, method, path, body)

    def do_schema_write(self, handler, body):
        with self.changed:
            self.schema = body["schema"]
            prefix = re.match(r"definition (\w+/)user|", self.schema)[1] or ""
            self.rules = {prefix + of: renamed(names, prefix) for of, names in RULES.items()}
            revision = self.add(self.commits[-1][1], {"schemaUpdated": True, "updates": []})
        handler.answer({"writtenAt": self.tokens.token_of(revision, True)})

    def add(self, state, change):
        if self.lies.kind == "unwatched":
            change["updates"] = [one for one in change["updates"] if one["relationship"]["relation"] != "banned"]
        return super().add(state, change)

    def watched(self, after, has_checkpoints):
        return super().watched(after, has_checkpoints and self.lies.kind != "unmarked")

    def do_relationships_delete(self, handler, body):
        if self.lies.kind == "stays":
            stays(handler)
            return
        of = body["relationshipFilter"]["resourceType"] + ":"
        with self.changed:
            revision = self.add(frozenset(one for one in self.commits[-1][1] if not one[0].startswith(of)), {"updates": []})
        handler.answer({"deletedAt": self.tokens.token_of(revision, True)})

    def looked_at(self, consistency, goal, seen):
        found = super().looked_at(consistency, goal, seen)
        return self.commits[max(0, len(self.commits) - 25)] if self.lies.now("stale", 3) else found

    def do_permissions_check(self, handler, body):
        if self.lies.kind == "silent":
            threading.Event().wait()
        if self.lies.kind == "field":
            handler.answer({"checkedAt": self.tokens.token_of(self.commits[-1][0]), "decision": "PERMISSIONSHIP_HAS_PERMISSION"})
            return
        super().do_permissions_check(handler, body)

    def decided(self, state, thing, permission, subject):
        return super().decided(state, thing, permission, subject) != self.lies.now("wrong", 20)


def renamed(names, prefix):
    return {name: [(prefix + of, relation) for of, relation in rule] if isinstance(rule, list) else rule for name, rule in names.items()}


def main(words):
    lies = Lies((words + [None])[2])
    serve(ScratchOpenFga(lies) if words[0] == "openfga" else ScratchSpiceDb(lies, "taken" in words), int(words[1]))


if __name__ == "__main__":
    main(sys.argv[1:])
