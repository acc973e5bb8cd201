"""A scratch place in OpenFGA or SpiceDB, and what a self-test asks there over HTTP, after their public documents.

Both have the same rules and tuples. A tuple, as a goal, is an object, a relation and a subject: `group:g#member` and `user:*` are subjects.
Of both services `place` is what the scratch place is called, the store, or what all definitions begin with; `make` raises ToolFault where that
would touch what is there, `take_away` says what is left and why, and all calls raise FeedFault. A check is at the newest state where no token
is given; else at any that is as new as the token of an earlier reply, or as OpenFGA looks at by itself, which has no tokens.
"""
import re
import secrets
from typing import Any, NamedTuple, Optional, Sequence, Union

from new_enemy_tools.faults import ToolFault
from new_enemy_tools.importing.openfga_dsl import read_model
from new_enemy_tools.recording.asking import TIMEOUT, Asker, FeedFault

Tuple = tuple[str, str, str]
MODEL = """model
  schema 1.1
type user
type group
  relations
    define member: [user, group#member]
type folder
  relations
    define viewer: [user, user:*, group#member]
    define can_view: viewer
type document
  relations
    define parent: [folder]
    define owner: [user]
    define banned: [user]
    define editor: [user, group#member]
    define viewer: [user, user:*, group#member]
    define can_edit: owner or editor
    define can_share: editor and viewer
    define can_view: (viewer or can_edit or can_view from parent) but not banned
"""
SCHEMA = """definition %(user)s {}
definition %(group)s {
	relation member: %(user)s | %(group)s#member
}
definition %(folder)s {
	relation viewer: %(user)s | %(user)s:* | %(group)s#member
	permission can_view = viewer
}
definition %(document)s {
	relation parent: %(folder)s
	relation owner: %(user)s
	relation banned: %(user)s
	relation editor: %(user)s | %(group)s#member
	relation viewer: %(user)s | %(user)s:* | %(group)s#member
	permission can_edit = owner + editor
	permission can_share = editor & viewer
	permission can_view = (viewer + can_edit + parent->can_view) - banned
}
"""
TYPES = ("user", "group", "folder", "document")
DEFINED = re.compile(r"\b(?:definition|caveat)\s+([\w/]+)")


class Reply(NamedTuple):
    allowed: bool
    # the snapshot that it names, if it does
    token: Optional[str] = None


class OpenFga:
    def __init__(self) -> None:
        self.place = ""

    def _post(self, asker: Asker, call: str, **body: Any) -> Any:
        return asker.ask("POST", "/stores/%s/%s" % (self.place, call), body)

    def make(self, asker: Asker, base: Sequence[Tuple]) -> None:
        self.place = str(asker.ask("POST", "/stores", {"name": "new_enemy-selftest"})["id"])
        self._post(asker, "authorization-models", **read_model(MODEL, 1, []))
        self.write(asker, base, ())

    def take_away(self, asker: Asker) -> Optional[str]:
        if self.place:
            asker.raw("DELETE", "/stores/" + self.place)
        return None

    def recorder_words(self) -> list[str]:
        return ["--store", self.place]

    @staticmethod
    def _key(given: Tuple) -> dict[str, str]:
        return dict(zip(("object", "relation", "user"), given))

    def write(self, asker: Asker, add: Sequence[Tuple], remove: Sequence[Tuple]) -> None:
        sides = {"writes": add, "deletes": remove}
        self._post(asker, "write", **{side: {"tuple_keys": list(map(self._key, some))} for side, some in sides.items() if some})

    def check(self, asker: Asker, goal: Tuple, token: Optional[str]) -> Reply:
        newest = {"consistency": "HIGHER_CONSISTENCY"} if token is None else {}
        return Reply(self._post(asker, "check", tuple_key=self._key(goal), **newest)["allowed"])

    def check_all(self, asker: Asker, goals: Sequence[Tuple]) -> list[bool]:
        checks = [{"tuple_key": self._key(goal), "correlation_id": str(number)} for number, goal in enumerate(goals)]
        result = self._post(asker, "batch-check", checks=checks, consistency="HIGHER_CONSISTENCY")["result"]
        return [result[str(number)]["allowed"] for number in range(len(goals))]

    def listed(self, asker: Asker, relation: str, user: str) -> list[str]:
        found = self._post(asker, "list-objects", type="document", relation=relation, user=user, consistency="HIGHER_CONSISTENCY")
        return list(found["objects"])


class SpiceDb:
    def __init__(self) -> None:
        self.place = "selftest_%s/" % secrets.token_hex(6)

    def _others(self, asker: Asker) -> Optional[list[str]]:
        """What the schema that stands there defines beside what is of this place; None where there is none."""
        try:
            names = DEFINED.findall(asker.ask("POST", "/v1/schema/read", {})["schemaText"])
        except FeedFault as fault:
            if "is answered by 404" not in str(fault):
                raise
            names = []
        return [one for one in names if not one.startswith(self.place)] if names else None

    def make(self, asker: Asker, base: Sequence[Tuple]) -> None:
        if self._others(asker) is not None:
            self.place = ""
            raise ToolFault("this SpiceDB has a schema, and a self-test would write over it: begin an empty one, of the same version and with "
                            "the same kind of datastore")
        asker.ask("POST", "/v1/schema/write", {"schema": SCHEMA % {of: self.place + of for of in TYPES}})
        self.write(asker, base, ())

    def take_away(self, asker: Asker) -> Optional[str]:
        if not self.place or self._others(asker) is None:
            return None
        for of in TYPES[1:]:
            asker.ask("POST", "/v1/relationships/delete", {"relationshipFilter": {"resourceType": self.place + of}})
        others = self._others(asker)
        if others:
            return "others were written meanwhile: %s" % ", ".join(others)
        asker.ask("POST", "/v1/schema/write", {"schema": ""})
        return None if self._others(asker) is None else "an empty schema was written, and they stand there"

    def recorder_words(self) -> list[str]:
        return []

    def _object(self, text: str) -> dict[str, str]:
        of, _, name = text.partition(":")
        return {"objectType": self.place + of, "objectId": name}

    def _subject(self, text: str) -> dict[str, Any]:
        thing, _, relation = text.partition("#")
        return {"object": self._object(thing), **({"optionalRelation": relation} if relation else {})}

    def write(self, asker: Asker, add: Sequence[Tuple], remove: Sequence[Tuple]) -> None:
        updates = [{"operation": operation, "relationship": {"resource": self._object(thing), "relation": relation, "subject": self._subject(subject)}}
                   for operation, some in (("OPERATION_TOUCH", add), ("OPERATION_DELETE", remove)) for thing, relation, subject in some]
        asker.ask("POST", "/v1/relationships/write", {"updates": updates})

    def _asked(self, goal: Tuple) -> dict[str, Any]:
        return {"resource": self._object(goal[0]), "permission": goal[1], "subject": self._subject(goal[2])}

    def check(self, asker: Asker, goal: Tuple, token: Optional[str]) -> Reply:
        demand: dict[str, Any] = {"atLeastAsFresh": {"token": token}} if token else {"fullyConsistent": True}
        answer = asker.ask("POST", "/v1/permissions/check", {"consistency": demand, **self._asked(goal)})
        return Reply(_has(answer), answer["checkedAt"]["token"])

    def check_all(self, asker: Asker, goals: Sequence[Tuple]) -> list[bool]:
        body = {"consistency": {"fullyConsistent": True}, "items": list(map(self._asked, goals))}
        return [_has(one["item"]) for one in asker.ask("POST", "/v1/permissions/checkbulk", body)["pairs"]]

    def listed(self, asker: Asker, relation: str, user: str) -> list[str]:
        body = {"consistency": {"fullyConsistent": True}, "resourceObjectType": self.place + "document", "permission": relation,
                "subject": self._subject(user)}
        found = asker.stream("/v1/permissions/resources", body, TIMEOUT, True)
        return ["document:" + one["result"]["resourceObjectId"] for one in found]


Service = Union[OpenFga, SpiceDb]


def _has(answer: Any) -> bool:
    return bool(answer["permissionship"] == "PERMISSIONSHIP_HAS_PERMISSION")
