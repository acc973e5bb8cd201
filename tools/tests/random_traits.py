"""Random logs with tuples that a trace has no form for, and an evaluator that knows nothing of the import.

Whether such a tuple counts is drawn anew for each check, as by a caveat over the context of a request, a condition, or a time that is over.
So a check whose answer may hang on one is not to be audited, and every other one is.
"""
import random

from tests.random_models import holds, is_taken, json_of

USERS = ("user:a", "user:b", "user:c")
THINGS = {"group": ("group:x", "group:y", "group:z"), "folder": ("folder:f", "folder:g"), "doc": ("doc:1", "doc:2", "doc:3")}
MODEL = {
    "user": {},
    "group": {"member": (["user", "group#member"], ("this",))},
    "folder": {"reader": (["user", "group#member"], ("this",)), "up": (["folder"], ("this",)),
               "read": ([], ("union", [("computed", "reader"), ("from", "up", "read")]))},
    "doc": {"parent": (["folder"], ("this",)), "viewer": (["user", "group#member"], ("this",)), "banned": (["user", "group#member"], ("this",)),
            "seen": ([], ("union", [("computed", "viewer"), ("from", "parent", "read")])),
            "view": ([], ("difference", ("computed", "seen"), ("computed", "banned"))),
            "both": ([], ("intersection", [("computed", "viewer"), ("from", "parent", "read")]))}}
SCHEMA = """use expiration
definition user {}
caveat c(day int) { day == 1 }
definition group { relation member: %(both)s }
definition folder {
  relation reader: %(both)s
  relation up: folder | folder with c
  permission read = reader + up->read
}
definition doc {
  relation parent: folder | folder with c and expiration
  relation viewer: %(both)s
  relation banned: %(both)s
  permission seen = viewer + parent->read
  permission view = seen - banned
  permission both = viewer & parent->read
}
""" % {"both": "user | group#member | user with c | user with expiration | group#member with c"}
TRAITS = {"caveat": {"optionalCaveat": {"caveatName": "c"}}, "expiration": {"optionalExpiresAt": "2030-01-01T00:00:00Z"}}


def some_tuple(rng):
    """One without a circle: a group has later groups alone, and a folder stands in a later one."""
    of = rng.choice(("group", "folder", "doc", "doc", "doc"))
    thing = rng.choice(THINGS[of])
    relation = rng.choice([name for name, (users, _) in MODEL[of].items() if users])
    kind = rng.choice(MODEL[of][relation][0])
    pool = USERS if kind == "user" else [one for one in THINGS[kind.split("#")[0]] if of == "doc" or one > thing or not one.startswith(of)]
    return (thing, relation, rng.choice(pool) + kind[len(kind.split("#")[0]):]) if pool else some_tuple(rng)


def rests_on(ever, goal):
    """All usersets that an answer may rest on, by the tuples that were ever stored."""
    found, todo = set(), [goal]
    while todo:
        thing, relation = todo.pop()
        if (thing, relation) not in found:
            found.add((thing, relation))
            todo += _read(ever, thing, MODEL[thing.split(":")[0]].get(relation, ([], ("this",)))[1])
            todo += [tuple(user.split("#")) for of, name, user in ever if (of, name) == (thing, relation) and "#" in user]
    return found


def _read(ever, thing, rule):
    form, *parts = rule
    if form == "computed":
        return [(thing, parts[0])]
    if form == "from":
        return [(thing, parts[0]), *((user, parts[1]) for of, name, user in ever if (of, name) == (thing, parts[0]))]
    return [one for part in parts for inner in (part if isinstance(part, list) else [part]) for one in _read(ever, thing, inner)]


class RandomLog:
    """Changes, each with whether it stores a tuple and by which trait; and checks, each with the change behind which it was asked."""

    def __init__(self, seed, has_touch):
        self.rng = rng = random.Random(seed)
        self.has_touch, self.odd = has_touch, rng.choice((0, 0.1, 0.3))
        self.store, self.changes, self.steps = {}, [], []
        for _ in range(rng.randint(0, 8)):
            self.write()
        self.base, self.changes, self.steps = dict(self.store), [], []
        for _ in range(rng.randint(10, 40)):
            self.write() if rng.random() < 0.5 else self.check()
        self.ever = set(self.base) | {given for given, _, _ in self.changes}
        odd = {given[:2] for given, trait in self.base.items() if trait} | {given[:2] for given, live, trait in self.changes if live and trait}
        self.tainted = [not odd.isdisjoint(rests_on(self.ever, goal[:2])) for goal, _, _ in self.checks()]

    def checks(self):
        return [step[1:] for step in self.steps if step[0] == "check"]

    def write(self):
        rng = self.rng
        given = rng.choice(sorted(self.store)) if self.store and rng.random() < 0.4 else some_tuple(rng)
        trait = rng.choice(list(TRAITS)) if rng.random() < self.odd else None
        assert is_taken(MODEL, given)
        if given in self.store and (rng.random() < 0.5 or not self.has_touch):
            self.put(given, False, None)
        if given not in self.store or self.has_touch and rng.random() < 0.8:
            self.put(given, True, trait)

    def put(self, given, live, trait):
        self.store.pop(given, None)
        if live:
            self.store[given] = trait
        self.changes.append((given, live, trait))
        self.steps.append(("write", *self.changes[-1]))

    def check(self):
        rng = self.rng
        of = rng.choice(("group", "folder", "doc", "doc"))
        goal = rng.choice(THINGS[of]), rng.choice(list(MODEL[of])), rng.choice(USERS)
        seen = [given for given, trait in self.store.items() if trait is None or rng.random() < 0.5]
        self.steps.append(("check", goal, holds(MODEL, seen, *goal), len(self.changes)))


def openfga_files(log):
    """The model, the base state and the lines."""
    model = json_of({of: relations for of, relations in MODEL.items() if relations}, "m")
    for definition in model["type_definitions"]:
        for taken in definition.get("metadata", {}).get("relations", {}).values():
            listed = taken["directly_related_user_types"]
            listed += [{**one, "condition": "c"} for one in listed]

    def key(given, trait):
        found = dict(zip(("object", "relation", "user"), given))
        return {**found, "condition": {"name": "c", "context": {}}} if trait else found

    def line(step):
        if step[0] == "check":
            return {"request": {"tuple_key": key(step[1], None)}, "response": {"allowed": step[2]}, "snapshot": step[3]}
        line.at += 1
        return {"tuple_key": key(step[1], step[3]), "operation": "TUPLE_OPERATION_" + ("WRITE" if step[2] else "DELETE"),
                "timestamp": "2024-05-06T09:%02d:%02dZ" % divmod(line.at, 60)}
    line.at = 0
    return model, [{"key": key(*one)} for one in log.base.items()], list(map(line, log.steps))


def spicedb_files(log):
    """The schema, the base state and the lines; a revision is ten times the number of a change."""
    def thing(text):
        return dict(zip(("objectType", "objectId"), text.split(":")))

    def subject(user):
        of, _, relation = user.partition("#")
        return {"object": thing(of), **({"optionalRelation": relation} if relation else {})}

    def line(step):
        if step[0] == "check":
            (of, relation, user), reply = step[1], "PERMISSIONSHIP_%s_PERMISSION" % ("HAS" if step[2] else "NO")
            return {"request": {"resource": thing(of), "permission": relation, "subject": subject(user)},
                    "response": {"checkedAt": {"token": str(10 * step[3] + 10)}, "permissionship": reply}}
        line.at += 1
        (of, relation, user), live = step[1:3]
        update = {"operation": "OPERATION_" + ("TOUCH" if live else "DELETE"), "relationship": {
            "resource": thing(of), "relation": relation, "subject": subject(user), **TRAITS.get(step[3], {})}}
        return {"updates": [update], "changesThrough": {"token": str(10 * line.at + 10)}}
    line.at = 0
    shown = {None: "", "caveat": "[c]", "expiration": "[expiration:2030-01-01T00:00:00Z]"}
    base = "".join("%s#%s@%s%s\n" % (*given, shown[trait]) for given, trait in log.base.items())
    return SCHEMA, base, list(map(line, log.steps))


def expression(rule):
    form, *parts = rule
    if form == "from":
        return {"tuple_to": dict(zip(("tupleset", "computed"), parts))}
    if form == "difference":
        return {"exclusion": dict(zip(("base", "subtract"), map(expression, parts)))}
    return {form: {} if form == "this" else parts[0] if form == "computed" else list(map(expression, parts[0]))}


def events(log):
    """What a recorder writes: the rules, the base state, and the changes and checks."""
    def listed(thing, relation, user):
        return [*thing.split(":"), relation, *user.replace("#", ":").split(":")]

    def write(revision, given, live, trait, **more):
        if live and trait:
            return [{"event": "unmapped", "reason": trait, "userset": listed(*given)[:3], **more}, {"event": "write", "revision": revision, **more}]
        return [{"event": "write", "revision": revision, "add" if live else "remove": [listed(*given)], **more}]
    lines, at = [{"event": "rules", "namespaces": [{"name": of, "relations": [{"name": name, "rewrite": expression(rule)} for name, (
        _, rule) in relations.items()]} for of, relations in MODEL.items()]}, {"event": "write", "revision": 0, "base": True}], 0
    for given, trait in log.base.items():
        lines += write(0, given, True, trait, base=True)
    for kind, *step in log.steps:
        at += kind == "write"
        lines += write(at, *step) if kind == "write" else [
            {"event": "check", "goal": listed(*step[0]), "snapshot": step[2], "reply": step[1]}]
    return lines
