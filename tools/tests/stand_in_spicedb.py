"""A small stand-in of SpiceDB's HTTP gateway as a process, after its public API documents: stand_in_spicedb.py PORT [SHARE PLANTED] [--key KEY]
[--postgres].

Of the share of checks, one is answered wrongly (`wrong`), at a snapshot before the one that its token demands (`stale`), or though it
asks for the newest state, at one before what its client was told of by then (`old`): a token that the header X-Seen has.
"""
import base64
import sys
import threading
from random import Random

sys.path.insert(0, __file__.rsplit("/", 2)[0])

from tests.spicedb_service import Service
from tests.stand_in import Faults, jitter, key_in, serve

SCHEMA = """definition user {}
definition group {
	relation member: user
}
definition document {
	relation owner: user
	relation viewer: user | group#member
	relation banned: user
	permission edit = owner
	permission view = (viewer + owner) - banned
}
"""
RULES = {"user": {}, "group": {"member": [("user", "")]},
         "document": {"owner": [("user", "")], "viewer": [("user", ""), ("group", "member")], "banned": [("user", "")],
                      "edit": ("name", "owner"), "view": ("-", [("+", [("name", "viewer"), ("name", "owner")]), ("name", "banned")])}}
# The schema without the banned, which tests write later.
OPEN = SCHEMA.replace("(viewer + owner) - banned", "viewer + owner")
OPEN_RULES = {**RULES, "document": {**RULES["document"], "view": ("+", [("name", "viewer"), ("name", "owner")])}}
# So many writes are surely behind the base state of a log.
DOZEN = 12
STEP = 1000


FIRST = 1700000000000000000
# Of so many transactions of PostgreSQL one writes relationships.
EACH = 10


def wrapped(text):
    inner = b"\x0a" + bytes([len(text)]) + text
    return {"token": base64.b64encode(b"\x1a" + bytes([len(inner)]) + inner).decode()}


def varint(number):
    return bytes([number]) if number < 128 else bytes([number & 127 | 128]) + varint(number >> 7)


class Numbers:
    """Tokens whose revisions are numbers."""

    def token_of(self, revision, is_write=False):
        return wrapped(str(revision).encode())

    def revision_of(self, token):
        return int(base64.b64decode(token["token"])[4:])


class Snapshots(Numbers):
    """Tokens as of PostgreSQL: what a transaction saw, and which one it was where it wrote. Others come and go in between."""

    def token_of(self, revision, is_write=False):
        own = 1000 + (revision - FIRST) // STEP * EACH
        if is_write:
            return wrapped(base64.b64encode(b"\x08" + varint(own) + b"\x20" + varint(own)))
        random = Random(revision)
        width = random.randint(0, EACH - 2)
        running = bytes(number for number in range(1, width) if random.random() < 0.3)
        data = b"\x08" + varint(own + 1) + b"\x10" + varint(width) + (b"\x1a" + varint(len(running)) + running if running else b"")
        return wrapped(base64.b64encode(data))

    def revision_of(self, token):
        data = base64.b64decode(base64.b64decode(token["token"])[4:])
        low, high = data[1:3]
        return FIRST + ((low & 127 | high << 7) - 1000) // EACH * STEP


def parts_of(relationship):
    thing, subject = relationship["resource"], relationship["subject"]
    return ("%(objectType)s:%(objectId)s" % thing, relationship["relation"], "%(objectType)s:%(objectId)s" % subject["object"],
            subject.get("optionalRelation", ""))


def object_of(text):
    return dict(zip(("objectType", "objectId"), text.split(":")))


def relationship_of(parts):
    return {"resource": object_of(parts[0]), "relation": parts[1], "subject": {"object": object_of(parts[2]), "optionalRelation": parts[3]}}


class SpiceDb:
    def __init__(self, faults, key, tokens):
        self.faults, self.key, self.tokens = faults, key, tokens
        self.schema, self.rules = SCHEMA, RULES
        self.commits = [(FIRST, frozenset(), None)]
        self.changed = threading.Condition()
        self.random = Random(13)
        self.is_paused = False

    def call(self, handler, method, path, body):
        name = path.removeprefix("/v1/").replace("/", "_")
        if not hasattr(self, "do_" + name):
            handler.answer({"code": 5, "message": "Not Found"}, 404)
            return
        getattr(self, "do_" + name)(handler, body)

    def do_control_pause(self, handler, body):
        """For tests: nothing is told of changes until they go on."""
        self.is_paused = True
        handler.answer({})

    def do_control_go_on(self, handler, body):
        self.is_paused = False
        handler.answer({})

    # Writes

    def do_schema_read(self, handler, body):
        with self.changed:
            handler.answer({"schemaText": self.schema, "readAt": self.tokens.token_of(self.commits[-1][0])})

    def do_schema_write(self, handler, body):
        with self.changed:
            self.schema, self.rules = body["schema"], OPEN_RULES if body["schema"] == OPEN else RULES
            revision = self.add(self.commits[-1][1], {"schemaUpdated": True, "updates": []})
        handler.answer({"writtenAt": self.tokens.token_of(revision, True)})

    def do_relationships_write(self, handler, body):
        with self.changed:
            state = set(self.commits[-1][1])
            for update in body["updates"]:
                (state.discard if update["operation"] == "OPERATION_DELETE" else state.add)(parts_of(update["relationship"]))
            revision = self.add(frozenset(state), {"updates": body["updates"]})
        handler.answer({"writtenAt": self.tokens.token_of(revision, True)})

    def add(self, state, change):
        revision = self.commits[-1][0] + STEP
        self.commits.append((revision, state, {**change, "changesThrough": self.tokens.token_of(revision, True)}))
        self.changed.notify_all()
        return revision

    # Streams

    def do_relationships_read(self, handler, body):
        at = self.tokens.revision_of(body["consistency"]["atExactSnapshot"])
        state = next(state for revision, state, _ in self.commits if revision == at)
        of = body["relationshipFilter"]["resourceType"] + ":"
        handler.stream({"readAt": self.tokens.token_of(at), "relationship": relationship_of(one)} for one in sorted(state) if one[0].startswith(of))

    def do_watch(self, handler, body):
        after = self.tokens.revision_of(body["optionalStartCursor"])
        handler.stream(self.watched(after, "WATCH_KIND_INCLUDE_CHECKPOINTS" in body.get("optionalUpdateKinds", ())))

    def watched(self, after, has_checkpoints):
        while True:
            with self.changed:
                self.changed.wait_for(lambda: self.commits[-1][0] > after, 0.1)
                if self.is_paused:
                    self.changed.wait(0.05)
                    continue
                found = [one for one in self.commits[-1000:] if one[0] > after]
                head = self.commits[-1][0]
            for revision, _, change in found:
                after = revision
                yield change
            if has_checkpoints and not found:
                yield {"updates": [], "changesThrough": self.tokens.token_of(head), "isCheckpoint": True}

    # Checks

    def looked_at(self, consistency, goal, seen):
        """The commit at which a check is evaluated, whose client has seen a token."""
        with self.changed:
            commits = list(self.commits)
        is_full = consistency.get("fullyConsistent")
        demanded = seen if is_full else consistency.get("atLeastAsFresh")
        least = self.tokens.revision_of(demanded) if demanded else commits[-1][0] - 3 * STEP
        before = [one for one in commits[DOZEN:] if one[0] < least]
        kind = "old" if is_full else "stale"
        if demanded and before and self.faults.strikes((kind, goal[1])):
            self.faults.told(kind, goal)
            return before[-1]
        return commits[-1] if is_full else self.random.choice([one for one in commits[-4:] if one[0] >= least] or commits[-1:])

    def decided(self, state, thing, permission, subject):
        service = Service(self.rules)
        service.relationships = state
        return service.check("%(objectType)s:%(objectId)s" % thing, permission, "%(objectType)s:%(objectId)s" % subject["object"])

    @staticmethod
    def permissionship(allowed):
        return "PERMISSIONSHIP_%s_PERMISSION" % ("HAS" if allowed else "NO")

    def do_permissions_check(self, handler, body):
        jitter(self.random)
        goal = [body["resource"]["objectId"], body["permission"], body["subject"]["object"]["objectId"]]
        told = self.faults.file and len(goal)
        seen = handler.headers.get("x-seen")
        revision, state, _ = self.looked_at(body.get("consistency", {}), goal, seen and {"token": seen})
        allowed = self.decided(state, body["resource"], body["permission"], body["subject"])
        if told and revision == self.commits[-1][0] and self.faults.strikes("wrong"):
            self.faults.told("wrong", goal)
            allowed = not allowed
        jitter(self.random)
        handler.answer({"checkedAt": self.tokens.token_of(revision), "permissionship": self.permissionship(allowed)})

    def do_permissions_checkbulk(self, handler, body):
        with self.changed:
            revision, state, _ = self.commits[-1]
        pairs = [{"request": one, "item": {"permissionship": self.permissionship(
            self.decided(state, one["resource"], one["permission"], one["subject"]))}} for one in body["items"]]
        handler.answer({"checkedAt": self.tokens.token_of(revision), "pairs": pairs})

    def do_permissions_resources(self, handler, body):
        with self.changed:
            revision, state, _ = self.commits[-1]
        things = sorted({one[0] for one in state if one[0].startswith(body["resourceObjectType"] + ":")})
        handler.stream({"lookedUpAt": self.tokens.token_of(revision), "resourceObjectId": one.split(":")[1],
                        "permissionship": "LOOKUP_PERMISSIONSHIP_HAS_PERMISSION"} for one in things
                       if self.decided(state, object_of(one), body["permission"], body["subject"]))


def main(words):
    key, tokens = key_in(words), Numbers()
    if "--postgres" in words:
        words.remove("--postgres")
        tokens = Snapshots()
    serve(SpiceDb(Faults(float((words + ["0"] * 3)[1]), (words + [None] * 3)[2]), key, tokens), int(words[0]))


if __name__ == "__main__":
    main(sys.argv[1:])
