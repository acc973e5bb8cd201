"""Random logs of OpenFGA whose models change and stand side by side, with an evaluator that knows nothing of the import.

What a check answers is here what the service's documents say: the model of the request decides, and a stored tuple that this model does
not take is as if it were not stored.
"""
import copy
import random

USERS = ("user:a", "user:b", "user:c")
GROUPS = ("group:x", "group:y")
FOLDERS = ("folder:f", "folder:g")
DOCS = ("doc:1", "doc:2")
# of each relation the users that it may take, and its rule
FIRST = {
    "group": {"member": (["user", "user:*", "group#member"], ("this",))},
    "folder": {"viewer": (["user", "user:*", "group#member"], ("this",)), "blocked": (["user", "user:*"], ("this",))},
    "doc": {
        "parent": (["folder", "doc"], ("this",)), "blocked": (["user", "user:*"], ("this",)),
        "editor": (["user", "group#member"], ("this",)),
        "viewer": (["user", "user:*", "group#member", "doc#editor"],
                   ("union", [("this",), ("computed", "editor"), ("from", "parent", "viewer")])),
        "seen": ([], ("difference", ("computed", "viewer"), ("computed", "blocked"))),
        "both": ([], ("intersection", [("computed", "viewer"), ("computed", "editor")]))}}
RULES = {"viewer": [("this",), ("union", [("this",), ("computed", "editor")]), FIRST["doc"]["viewer"][1]],
         "seen": [("computed", "viewer"), FIRST["doc"]["seen"][1], ("difference", ("computed", "editor"), ("computed", "blocked"))],
         "both": [FIRST["doc"]["both"][1], ("union", [("computed", "viewer"), ("computed", "blocked")])]}


def changed(rng, model):
    """A model that takes less, or more, or has another rule, or lacks a relation or a type."""
    model = copy.deepcopy(model)
    for _ in range(rng.randint(1, 3)):
        of = rng.choice([one for one in model])
        relation = rng.choice(list(FIRST[of]))
        kind = rng.random()
        if kind < 0.1 and of == "folder":
            del model["folder"]
            users, rule = model["doc"]["parent"]
            model["doc"]["parent"] = ["doc"], rule
        elif kind < 0.2 and "both" in model["doc"]:
            del model["doc"]["both"]
        elif kind < 0.3 and "group" in model and of == "group":
            del model["group"]
            for relations in model.values():
                for name, (users, rule) in relations.items():
                    relations[name] = [one for one in users if one != "group#member"] or users and ["user"], rule
        elif kind < 0.4:
            model = copy.deepcopy(FIRST)
        elif kind < 0.6 and of == "doc" and relation in RULES and relation in model["doc"]:
            rule = rng.choice(RULES[relation])
            model["doc"][relation] = model["doc"][relation][0], rule
        elif relation in model[of] and FIRST[of][relation][0]:
            most = [one for one in FIRST[of][relation][0] if one.split("#")[0].split(":")[0] in (*model, "user")]
            model[of][relation] = rng.sample(most, rng.randint(1, len(most))), model[of][relation][1]
    return model


def rewrite_of(rule):
    form, *parts = rule
    if form == "this":
        return {"this": {}}
    if form == "computed":
        return {"computedUserset": {"relation": parts[0]}}
    if form == "from":
        return {"tupleToUserset": {"tupleset": {"relation": parts[0]}, "computedUserset": {"relation": parts[1]}}}
    if form == "difference":
        return {"difference": {"base": rewrite_of(parts[0]), "subtract": rewrite_of(parts[1])}}
    return {form: {"child": [rewrite_of(one) for one in parts[0]]}}


def user_type(text):
    if text.endswith(":*"):
        return {"type": text[:-2], "wildcard": {}}
    of, _, relation = text.partition("#")
    return {"type": of, "relation": relation} if relation else {"type": of}


def json_of(model, model_id):
    listed = [{"type": "user"}]
    for of, relations in model.items():
        listed.append({"type": of, "relations": {name: rewrite_of(rule) for name, (_, rule) in relations.items()}, "metadata": {"relations": {
            name: {"directly_related_user_types": [user_type(one) for one in users]} for name, (users, _) in relations.items()}}})
    return {"id": model_id, "schema_version": "1.1", "type_definitions": listed}


def is_taken(model, stored):
    """Whether a model takes a tuple (object, relation, user)."""
    thing, relation, user = stored
    users = model.get(thing.split(":")[0], {}).get(relation, ([], None))[0]
    of, _, id_and_relation = user.partition(":")
    kind = user if id_and_relation == "*" else of + "#" + user.split("#")[1] if "#" in user else of
    return kind in users


def holds(model, store, thing, relation, user, above=()):
    """Whether a user has a relation by a model and the stored tuples that it takes."""
    goal = thing, relation
    if goal in above or relation not in model.get(thing.split(":")[0], {}):
        return False
    above += (goal,)
    kept = [one for one in store if is_taken(model, one)]

    def direct():
        for of, name, member in kept:
            if (of, name) == goal and (member in (user, "user:*")
                                       or "#" in member and holds(model, store, *member.split("#"), user, above)):
                return True
        return False

    def rule_holds(rule):
        form, *parts = rule
        if form == "this":
            return direct()
        if form == "computed":
            return holds(model, store, thing, parts[0], user, above)
        if form == "from":
            return any(holds(model, store, parent, parts[1], user, above) for of, name, parent in kept if (of, name) == (thing, parts[0]))
        if form == "difference":
            return rule_holds(parts[0]) and not rule_holds(parts[1])
        return (any if form == "union" else all)(rule_holds(one) for one in parts[0])

    return rule_holds(model[thing.split(":")[0]][relation][1])


def some_tuple(rng):
    of = rng.choice(list(FIRST))
    relation = rng.choice([name for name, (users, _) in FIRST[of].items() if users])
    thing = rng.choice({"group": GROUPS, "folder": FOLDERS, "doc": DOCS}[of])
    kind = rng.choice(FIRST[of][relation][0])
    pools = {"user": USERS, "user:*": ("user:*",), "folder": FOLDERS, "doc": DOCS, "group#member": ["%s#member" % one for one in GROUPS],
             "doc#editor": ["%s#editor" % one for one in DOCS]}
    return thing, relation, rng.choice(pools[kind])


class RandomLog:
    """The models, and the lines of a log, with the places of its checks among them."""

    def __init__(self, seed):
        self.rng = rng = random.Random(seed)
        self.models = [FIRST if rng.random() < 0.5 else changed(rng, FIRST)]
        self.starts = [-1]
        self.lines, self.checks = [], []
        self.states = [frozenset()]
        # by the lines of checks their places and models
        self.asked = {}
        for _ in range(rng.randint(15, 40)):
            self.step()
        for at, (place, number) in self.asked.items():
            newest = [one for one, start in enumerate(self.starts) if start < place]
            if rng.random() < 0.5 and place not in self.starts and newest[-1:] == [number]:
                del self.lines[at]["request"]["authorization_model_id"]

    def step(self):
        kind = self.rng.random()
        if kind < 0.1 and len(self.models) < 5:
            self.models.append(changed(self.rng, self.models[-1]))
            self.starts.append(len(self.states) - 1)
            self.lines.append({"authorization_model": json_of(self.models[-1], "m%d" % (len(self.models) - 1))})
        elif kind < 0.5:
            self.write()
        else:
            self.check()

    def write(self):
        store, given = self.states[-1], some_tuple(self.rng)
        if store and self.rng.random() < 0.3:
            given = self.rng.choice(sorted(store))
        elif not any(is_taken(model, given) for model in self.models) or given in store:
            return
        self.states.append(store ^ {given})
        self.lines.append({"tuple_key": dict(zip(("object", "relation", "user"), given)),
                           "operation": "TUPLE_OPERATION_" + ("DELETE" if given in store else "WRITE"),
                           "timestamp": "2024-05-06T09:%02d:%02dZ" % divmod(len(self.states), 60)})

    def check(self):
        rng, number, place = self.rng, self.rng.randrange(len(self.models)), self.rng.randrange(len(self.states))
        of = rng.choice(list(self.models[number]))
        goal = rng.choice({"group": GROUPS, "folder": FOLDERS, "doc": DOCS}[of]), rng.choice(list(self.models[number][of])), rng.choice(USERS)
        request = {"tuple_key": dict(zip(("object", "relation", "user"), goal)), "authorization_model_id": "m%d" % number}
        self.asked[len(self.lines)] = place, number
        reply = holds(self.models[number], self.states[place], *goal)
        self.checks.append(len(self.lines))
        self.lines.append({"request": request, "response": {"allowed": reply}, "snapshot": place})
