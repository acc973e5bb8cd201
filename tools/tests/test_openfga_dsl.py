"""Models in OpenFGA's own language: the same as their JSON, and refusals by line."""
import json
import os
from random import Random

from new_enemy_tools.importing.openfga_dsl import read_model
from tests import openfga_service
from tests.support import EXAMPLES, Case
from tests.test_openfga import change, check

DSL = """# what it is for
model
  schema 1.1

type user
type group
  relations
    define member: [user, group#member]  # groups in groups
type doc
  relations
    define parent: [doc]
    define owner: [user,
                   user:*]
    define banned: [user]
    define viewer: ([user, group#member] or owner or viewer from parent) but not banned
    define both: (viewer and owner) or (viewer but not (owner or banned))
"""


def text_of(model):
    """A model in the language, after its documentation; parentheses stand wherever operators differ."""
    lines = ["model", "  schema " + model["schema_version"]]
    for one in model["type_definitions"]:
        lines.append("type " + one["type"])
        lines += ["  relations"] * bool(one.get("relations"))
        for name, rewrite in one.get("relations", {}).items():
            users = one["metadata"]["relations"].get(name, {}).get("directly_related_user_types", [])
            lines.append("    define %s: %s" % (name, expression(rewrite, users)))
    return "\n".join(lines) + "\n"


def user_text(user):
    more = ":*" if "wildcard" in user else "#" + user["relation"] if "relation" in user else ""
    return user["type"] + more + (" with " + user["condition"] if "condition" in user else "")


def expression(rewrite, users):
    if "this" in rewrite:
        return "[%s]" % ", ".join(map(user_text, users))
    if "computedUserset" in rewrite:
        return rewrite["computedUserset"]["relation"]
    if "tupleToUserset" in rewrite:
        return "%s from %s" % (rewrite["tupleToUserset"]["computedUserset"]["relation"], rewrite["tupleToUserset"]["tupleset"]["relation"])
    if "difference" in rewrite:
        return "(%s) but not (%s)" % tuple(expression(rewrite["difference"][side], users) for side in ("base", "subtract"))
    form = next(iter(rewrite))
    return {"union": " or ", "intersection": " and "}[form].join("(%s)" % expression(child, users) for child in rewrite[form]["child"])


def plain(value):
    """Without what the two forms write differently: an object that is an empty text, an empty list."""
    if isinstance(value, dict):
        made = {key: plain(one) for key, one in value.items()}
        return {key: one for key, one in made.items() if one not in ("", [], {}) or key in ("this", "wildcard")}
    return [plain(one) for one in value] if isinstance(value, list) else value


def flat(value):
    """Without unions and intersections of one child, which parentheses alone are in the language."""
    if isinstance(value, dict):
        for form in ("union", "intersection"):
            if form in value and len(value[form]["child"]) == 1:
                return flat(value[form]["child"][0])
        return {key: flat(one) for key, one in value.items()}
    return [flat(one) for one in value] if isinstance(value, list) else value


class Language(Case):
    def refusals(self, text, log=()):
        self.put("model.fga", text)
        self.put("log", list(log))
        return self.refused("openfga", "--model", "model.fga", "--from-empty", "log")

    def test_random_models_are_their_json(self):
        compared = 0
        for number in range(60):
            model = openfga_service.model_of(Random("dsl %d" % number))
            openfga_service.allow(model, wildcard={})
            if any(str(rewrite).count("'this'") > 1 for one in model["type_definitions"] for rewrite in one.get("relations", {}).values()):
                continue
            faults = []
            read = json.loads(json.dumps(read_model(text_of(model), 1, faults)))
            self.assertEqual(faults, [])
            self.assertEqual(plain(read), flat(plain(model)))
            compared += 1
        self.assertGreater(compared, 5)

    def test_an_audit(self):
        log = [change("user:a"), change("group:g#member"), change("user:b", "member", "group:g"), change("user:b", "banned"),
               check(at=4), check("user:b", at=3), check("user:b", at=4, allowed=False), check("user:c", "owner", at=4, allowed=False)]
        self.put("model.fga", DSL)
        self.put("log", log)
        self.imported("openfga", "--model", "model.fga", "--from-empty", "log")
        self.assertEqual(self.audited(), "entries 4\nfindings 0\nverdict clean\n")

    def test_what_is_not_read(self):
        text = DSL + ("    define a: viewer or owner and banned\n    define b: viewer but not owner but not banned\n    define c\n"
                      "    define d: [user] or [group]\n    define e: (viewer\n    define f: viewer owner\n    define g: [user#]\n"
                      "    define g: [user\n    define h: %s\n    define parent: [user]\nextend type doc\nmodule core\nhello: you\n"
                      % ("(" * 40 + "owner" + ")" * 40))
        wanted = ["\'and\' beside \'or\' needs parentheses", "\'but\' beside \'but\' needs parentheses",
                  "`define NAME: ..` should stand here", "a second list of types", "\')\' should stand here, and not \'the end\'",
                  "nothing more should stand behind the rule, and \'owner\' does", "a relation should stand here, and not \']\'",
                  "\']\' should stand here, and not \'the end\'", "parentheses deeper than 32", "doc#parent stands twice",
                  "this line is not read: \'extend type doc\'", "this line is not read: \'module core\'",
                  "this line is not read: \'hello: you\'"]
        first = DSL.count("\n") + 1
        self.assertEqual(self.refusals(text), ["model.fga:%d: %s; `fga model transform` writes a model as JSON" % one
                                               for one in enumerate(wanted, first)])

    def test_another_schema_version(self):
        self.assertEqual(self.refusals(DSL.replace("1.1", "1.0")), ["model.fga:3: schema version '1.0': only 1.1 and 1.2 are mapped"])

    def test_the_example_is_its_json(self):
        faults = []
        with open(os.path.join(EXAMPLES, "openfga", "model.fga"), encoding="utf-8") as file:
            read = json.loads(json.dumps(read_model(file.read(), 1, faults)))
        with open(os.path.join(EXAMPLES, "openfga", "model.json"), encoding="utf-8") as file:
            wanted = json.load(file)
        del wanted["id"]
        self.assertEqual(plain(read), plain(wanted))
