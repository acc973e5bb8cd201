"""OpenFGA's own meaning of a check, after its documentation, and random stores. Written apart from the importer."""

USER_TYPES = ("user", "robot")
LEVELS = {"parent": 0, "owner-Of": 0, "a0": 0, "Can-B": 0, "a1": 1, "b1": 1, "c2": 2}
TUPLESETS = ("parent", "owner-Of")


class Service:
    """A store under one model, as its JSON says; tuples are (user, relation, object)."""

    def __init__(self, model):
        self.relations = {one["type"]: one.get("relations", {}) for one in model["type_definitions"]}
        self.tuples = set()

    def check(self, user, relation, thing, path=()):
        """Whether a user has a relation; a way that comes back to where it was gives nothing."""
        rewrite = self.relations.get(thing.split(":")[0], {}).get(relation)
        if rewrite is None or (thing, relation) in path:
            return False
        return self.evaluate(rewrite, user, relation, thing, path + ((thing, relation),))

    def evaluate(self, rewrite, user, relation, thing, path):
        if "this" in rewrite:
            return self.direct(user, relation, thing, path)
        if "computedUserset" in rewrite:
            return self.check(user, rewrite["computedUserset"]["relation"], thing, path)
        if "tupleToUserset" in rewrite:
            target = rewrite["tupleToUserset"]["computedUserset"]["relation"]
            tupleset = rewrite["tupleToUserset"]["tupleset"]["relation"]
            return any(self.check(user, target, found[0], path) for found in self.tuples if found[1:] == (tupleset, thing))
        if "union" in rewrite:
            return any(self.evaluate(one, user, relation, thing, path) for one in rewrite["union"]["child"])
        if "intersection" in rewrite:
            return all(self.evaluate(one, user, relation, thing, path) for one in rewrite["intersection"]["child"])
        sides = rewrite["difference"]
        return (self.evaluate(sides["base"], user, relation, thing, path)
                and not self.evaluate(sides["subtract"], user, relation, thing, path))

    def direct(self, user, relation, thing, path):
        if (user, relation, thing) in self.tuples or (user.split(":")[0] + ":*", relation, thing) in self.tuples:
            return True
        groups = [found[0].split("#") for found in self.tuples if found[1:] == (relation, thing) and "#" in found[0]]
        return any(self.check(user, group_relation, group, path) for group, group_relation in groups)


def rewrite_of(random, name, level, depth, is_strict=False):
    """A random rewrite that reads relations of its level at most, and of lower ones where it subtracts."""
    forms = ["this"] * (not is_strict) + ["computed", "computed", "tupleTo"]
    forms += ["union", "intersection", "union"] * (depth > 0) + ["difference"] * 2 * (depth > 0 and level > 0)
    form = random.choice(forms)
    readable = [one for one in LEVELS if LEVELS[one] <= level and one not in TUPLESETS]
    if form == "this" or (not readable and form == "computed"):
        return {"this": {}}
    if form == "computed":
        return {"computedUserset": {"object": "", "relation": random.choice(readable)}}
    if form == "tupleTo":
        return {"tupleToUserset": {"tupleset": {"object": "", "relation": random.choice(TUPLESETS)},
                                   "computedUserset": {"object": "", "relation": random.choice(readable)}}}
    if form == "difference":
        return {"difference": {"base": rewrite_of(random, name, level, depth - 1, is_strict),
                               "subtract": rewrite_of(random, name, level - 1, depth - 1, True)}}
    children = [rewrite_of(random, name, level, depth - 1, is_strict) for _ in range(random.randint(1, 3))]
    return {form: {"child": children}}


def has_this(rewrite):
    return "this" in str(rewrite)


def model_of(random):
    """A random model: each relation of a type on some level, no recursion through a difference."""
    types = ["group", "Folder-Type", "doc"]
    definitions = [{"type": one} for one in USER_TYPES]
    for of in types:
        relations, listed = {}, {}
        for name, level in LEVELS.items():
            relations[name] = {"this": {}} if name in TUPLESETS else rewrite_of(random, name, level, 2)
            if name in TUPLESETS:
                users = [{"type": one} for one in random.sample(types, 2)]
            else:
                below = [one for one in LEVELS if LEVELS[one] <= level and one not in TUPLESETS]
                users = [{"type": "user"}, {"type": "robot"}, {"type": random.choice(types)}]
                users += [{"type": random.choice(types), "relation": random.choice(below)} for _ in range(2)]
            if has_this(relations[name]):
                listed[name] = {"directly_related_user_types": users}
        definitions.append({"type": of, "relations": relations, "metadata": {"relations": listed}})
    return {"schema_version": "1.1", "type_definitions": definitions}


def allow(model, **more):
    """Lets every relation that takes users take them with a condition, or all at once."""
    for one in model["type_definitions"]:
        for users in one.get("metadata", {}).get("relations", {}).values():
            listed = users["directly_related_user_types"]
            listed += [{**taken, **more} for taken in listed if taken["type"] in USER_TYPES]


OBJECTS = {"group": ["g1", "G/2"], "Folder-Type": ["f@1", "x" * 140], "doc": ["d1", "~7"]}
USERS = ["user:anne", "user:Bob@x", "robot:anne", "doc:d1"]


def tuple_of(random, model):
    """A random tuple that the model takes."""
    takers = [(one["type"], name, users["directly_related_user_types"]) for one in model["type_definitions"]
              for name, users in one.get("metadata", {}).get("relations", {}).items()]
    of, relation, users = random.choice(takers)
    taken = random.choice(users)
    if "wildcard" in taken:
        user = taken["type"] + ":*"
    elif taken["type"] in USER_TYPES:
        user = random.choice([one for one in USERS if one.startswith(taken["type"] + ":")])
    else:
        user = "%s:%s" % (taken["type"], random.choice(OBJECTS[taken["type"]]))
    if "relation" in taken:
        user += "#" + taken["relation"]
    return user, relation, "%s:%s" % (of, random.choice(OBJECTS[of]))
