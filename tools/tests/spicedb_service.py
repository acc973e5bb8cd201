"""SpiceDB's own meaning of a check, after its documentation, and random stores. Written apart from the importer.

A permission is ("name", relation), ("arrow", relation, target) or (operator, parts), the operator one of + & -.
"""

USERS = ["user:tom", "user:Tom", "bot:tom", "acl/doc:d1"]
LEVELS = {"parent": 0, "scope": 0, "ra": 0, "rb": 0, "pa": 0, "pb": 1, "pc": 1, "pd": 2}
ARROWS = ("parent", "scope")
RELATIONS = ("parent", "scope", "ra", "rb")
TYPES = ("group", "folder", "acl/doc")
OBJECTS = {"group": ["g1", "g=2"], "folder": ["F/1", "a" * 200], "acl/doc": ["d1", "d|2"]}


class Service:
    """A store under one schema; relationships are (object, relation, subject, subject relation or an empty text)."""

    def __init__(self, schema):
        self.schema = schema
        self.relationships = set()

    def check(self, thing, name, user, path=()):
        """Whether a user has a permission or relation; a way that comes back to where it was gives nothing."""
        rule = self.schema[thing.split(":")[0]].get(name) if thing.split(":")[0] in self.schema else None
        if rule is None or (thing, name) in path:
            return False
        path += ((thing, name),)
        return self.related(thing, name, user, path) if isinstance(rule, list) else self.permitted(rule, thing, user, path)

    def related(self, thing, name, user, path):
        if (thing, name, user, "") in self.relationships or (thing, name, user.split(":")[0] + ":*", "") in self.relationships:
            return True
        sets = [one[2:] for one in self.relationships if one[:2] == (thing, name) and one[3]]
        return any(self.check(subject, relation, user, path) for subject, relation in sets)

    def permitted(self, rule, thing, user, path):
        if rule[0] == "name":
            return self.check(thing, rule[1], user, path)
        if rule[0] == "arrow":
            subjects = {one[2] for one in self.relationships if one[:2] == (thing, rule[1])}
            return any(self.check(subject, rule[2], user, path) for subject in subjects)
        answers = [self.permitted(part, thing, user, path) for part in rule[1]]
        if rule[0] == "-":
            return answers[0] and not any(answers[1:])
        return any(answers) if rule[0] == "+" else all(answers)


def permission_of(random, level, depth):
    """A random permission that reads its level at most, and lower ones where it subtracts."""
    kinds = ["name", "name", "arrow"] + ["+", "&", "+"] * (depth > 0) + ["-"] * 2 * (depth > 0 and level > 0)
    kind = random.choice(kinds)
    readable = [one for one in LEVELS if LEVELS[one] <= level and one not in ARROWS]
    if kind == "name":
        return "name", random.choice(readable)
    if kind == "arrow":
        return "arrow", random.choice(ARROWS), random.choice(readable)
    if kind == "-":
        lower = [permission_of(random, level - 1, depth - 1) for _ in range(random.randint(1, 2))]
        return "-", [permission_of(random, level, depth - 1)] + lower
    return kind, [permission_of(random, level, depth - 1) for _ in range(random.randint(2, 3))]


def schema_of(random):
    """Each type's relations with the subjects that they take, and its permissions."""
    schema = {}
    for of in TYPES:
        schema[of] = {}
        for name, level in LEVELS.items():
            if name in ARROWS:
                taken = [(one, "") for one in random.sample(TYPES, 2)] + [(random.choice(TYPES), "ra")]
            elif name in RELATIONS:
                taken = [("user", ""), ("bot", ""), ("acl/doc", "")]
                taken += [(random.choice(TYPES), random.choice(["ra", "rb", "pa"])) for _ in range(2)]
            schema[of][name] = list(dict.fromkeys(taken)) if name in RELATIONS else permission_of(random, level, 2)
    return schema


def allow_wildcards(schema):
    """Lets every relation that no arrow reads take all users of a type at once."""
    for names in schema.values():
        for name, rule in names.items():
            if isinstance(rule, list) and name not in ARROWS:
                rule += [("user:*", ""), ("bot:*", ""), ("acl/doc:*", "")]


def text_of(schema, random=None):
    """A schema as it is written."""
    lines = ["definition user {}", "/* robots */ definition bot {}"]
    for of, names in schema.items():
        lines.append("definition %s {" % of)
        for name, rule in names.items():
            if isinstance(rule, list):
                taken = [subject + ("#" + relation if relation else "") for subject, relation in rule]
                lines.append("\trelation %s: %s // who" % (name, " | ".join(taken)))
            else:
                lines.append("\tpermission %s = %s" % (name, expression_text(rule, random)))
        lines.append("}")
    return "\n".join(lines) + "\n"


# The closer an operator binds, the higher.
CLOSENESS = {"-": 0, "&": 1, "+": 2, "name": 3, "arrow": 3}


def expression_text(rule, random=None):
    """With all parentheses; with a source of chance only with those that are needed, and now and then some more."""
    if rule[0] == "name":
        return rule[1]
    if rule[0] == "arrow":
        return "%s->%s" % rule[1:] if len(rule[2]) % 2 else "%s.any(%s)" % rule[1:]
    texts = []
    for part in rule[1]:
        needed = CLOSENESS[part[0]] <= CLOSENESS[rule[0]] or (random is None and CLOSENESS[part[0]] < 3) or random and random.random() < 0.1
        texts.append("(%s)" % expression_text(part, random) if needed else expression_text(part, random))
    return (" %s " % rule[0]).join(texts)


def relationship_of(random, schema):
    """A random relationship that the schema takes."""
    of = random.choice(TYPES)
    name = random.choice(RELATIONS)
    subject_type, relation = random.choice(schema[of][name])
    if subject_type.endswith(":*"):
        return "%s:%s" % (of, random.choice(OBJECTS[of])), name, subject_type, ""
    found = [one for one in USERS if one.startswith(subject_type + ":")]
    found += ["%s:%s" % (subject_type, one) for one in OBJECTS.get(subject_type, ())]
    return "%s:%s" % (of, random.choice(OBJECTS[of])), name, random.choice(found), relation
