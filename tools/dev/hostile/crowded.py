"""Random traces whose usersets store many usersets, and evidence that is not all good."""
import json
from random import Random
from typing import Any, Dict, List, Optional, Set

THIS: Dict[str, Any] = {"this": {}}
PARENTS = {"tuple_to": {"tupleset": "parent", "computed": "viewer"}}
MEMBERS = {"tuple_to": {"tupleset": "parent", "computed": "member"}}
# Rules of doc:ID#viewer, of folder:ID#viewer and of group:ID#member.
VIEWERS = [None, PARENTS, {"union": [THIS, PARENTS]}, {"intersection": [{"union": [THIS, MEMBERS]}, {"union": [PARENTS, THIS]}]}]
FOLDERS = [None, {"union": [THIS, PARENTS]}]
GROUPS = [None, {"union": [THIS, {"computed": "owner"}]}]
OPEN = {"exclusion": {"base": {"computed": "viewer"}, "subtract": {"computed": "banned"}}}
# What a wide rule of doc:ID#viewer is made of, and one of doc:ID#open.
LEAVES = [THIS, PARENTS, MEMBERS, {"computed": "banned"}, *({"tuple_to": {"tupleset": "parent", "computed": name}} for name in ("owner", "m", "none"))]
EXCLUSIONS = [OPEN, {"exclusion": {"base": THIS, "subtract": PARENTS}}, {"exclusion": {"base": PARENTS, "subtract": {"computed": "banned"}}}]


def relation(name: str, rewrite: Optional[Dict[str, Any]]) -> Dict[str, Any]:
    return {"name": name} if rewrite is None else {"name": name, "rewrite": rewrite}


def wide(random: Random, leaves: List[Dict[str, Any]]) -> Dict[str, Any]:
    """A rule of many places, most of which are judged by their parts."""
    inner, outer = random.sample(["union", "intersection"], 2)
    return {outer: [{inner: random.sample(leaves, random.randint(2, 4))} for _ in range(random.randint(6, 14))]}


class CrowdedTrace:
    """The lines of a trace by a seeded source of chance. Some usersets are of a namespace that is declared late or never, and some rules
    are wide, or change."""

    def __init__(self, random: Random) -> None:
        self.random = random
        self.users = random.randint(1, 6)
        self.groups, self.folders = random.randint(2, 45), random.randint(2, 45)
        self.documents = ["doc:%d" % k for k in range(random.randint(1, 3))]
        self.at = 0
        self.stored: Set[str] = set()
        self.values: List[Dict[str, Any]] = [
            {"kind": "namespace", "name": "group", "relations": [relation("owner", None), relation("member", random.choice(GROUPS))]},
            {"kind": "namespace", "name": "folder", "relations": [relation("parent", None), relation("viewer", random.choice(FOLDERS))]},
            self.rules()]
        declares, changes = random.random() < 0.6, random.random() < 0.4
        for _ in range(random.randint(3, 14)):
            self.commit()
            if declares and random.random() < 0.15:
                declares = False
                self.change({"kind": "namespace", "name": "ghost", "relations": [relation("m", None), relation("viewer", None)]})
            if changes and random.random() < 0.2:
                self.change(self.rules())
            self.values += [self.check() for _ in range(random.randint(0, 5))]

    def change(self, rules: Dict[str, Any]) -> None:
        self.at += 1
        self.values.append({**rules, "at": self.at})

    def rules(self) -> Dict[str, Any]:
        """The rules of documents."""
        random = self.random
        viewer = wide(random, LEAVES) if random.random() < 0.4 else random.choice(VIEWERS)
        opened = wide(random, LEAVES[:3] + EXCLUSIONS) if random.random() < 0.3 else OPEN
        relations = [relation("parent", None), relation("banned", None), relation("viewer", viewer), {**relation("open", opened), "stratum": 1}]
        return {"kind": "namespace", "name": "doc", "relations": relations}

    def user(self) -> int:
        return 1 + self.random.randrange(self.users)

    def group(self) -> str:
        return "group:%d" % self.random.randrange(self.groups)

    def folder(self) -> str:
        return "folder:%d" % self.random.randrange(self.folders)

    def ghost(self) -> str:
        return "ghost:%d" % self.random.randrange(60)

    def stored_userset(self) -> str:
        """A tuple of a document and a userset, of those that may be viewers or parents."""
        of = self.random.choice(self.documents)
        if self.random.random() < 0.5:
            user = self.random.choice([self.group() + "#member", self.group() + "#owner", self.group() + "#none", self.ghost() + "#m"])
            return "%s#viewer@%s" % (of, user if self.random.random() < 0.9 else self.folder() + "#viewer")
        user = self.random.choice([self.folder() + "#...", "%s#x%d" % (self.folder(), self.random.randrange(4)), self.group() + "#...", self.ghost() + "#..."])
        return "%s#parent@%s" % (of, user)

    def tuple_text(self) -> str:
        pick = self.random.random()
        if pick < 0.55:
            return self.stored_userset()
        if pick < 0.7:
            return "%s#%s@%d" % (self.group(), self.random.choice(["member", "owner"]), self.user())
        if pick < 0.8:
            return "%s#viewer@%d" % (self.folder(), self.user())
        if pick < 0.84:
            return "%s#member@%s#member" % (self.group(), self.group())
        if pick < 0.88:
            return "%s#parent@%s#..." % (self.folder(), self.folder())
        return "%s#%s@%d" % (self.random.choice(self.documents), self.random.choice(["viewer", "banned"]), self.user())

    def commit(self) -> None:
        self.at += self.random.randint(1, 3)
        add = {self.tuple_text() for _ in range(self.random.randint(1, 60))}
        before = sorted(self.stored)
        remove = set(self.random.sample(before, min(len(before), self.random.randint(0, 25))))
        add -= remove
        self.values.append({"kind": "commit", "at": self.at, "add": self.random.sample(sorted(add), len(add)), "remove": sorted(remove)})
        self.stored = (self.stored | add) - remove

    def check(self) -> Dict[str, Any]:
        snapshot = self.random.randint(max(0, self.at - 6), self.at)
        goal = "%s#%s@%d" % (self.random.choice(self.documents), self.random.choice(["viewer", "viewer", "open", "banned"]), self.user())
        return {"kind": "check", "goal": goal, "snapshot": snapshot, "reply": self.random.random() < 0.5, "zookie": "z1-%016x" % snapshot}

    def text(self) -> bytes:
        return b"".join(json.dumps(value, separators=(",", ":")).encode() + b"\n" for value in self.values)


def spoiled_steps(random: Random, steps: List[Dict[str, Any]]) -> None:
    """Leaves out a step or a fact, turns a step round, puts a step or a fact twice, or changes their order."""
    if not steps:
        return
    place, pick = random.randrange(len(steps)), random.random()
    facts = steps[place].get("no", [])
    if pick < 0.2 and len(facts) > 1:
        facts.pop(random.randrange(len(facts)))
    elif pick < 0.35:
        steps.pop(place)
    elif pick < 0.55:
        steps[place] = {"yes": random.choice(facts)} if facts else {"no": [steps[place].get("yes", "doc:0#viewer@1")]}
    elif pick < 0.7:
        random.shuffle(steps)
    elif pick < 0.85 and facts:
        facts.insert(random.randrange(len(facts) + 1), random.choice([fact for step in steps for fact in step.get("no", [])]))
    else:
        steps.insert(random.randrange(len(steps) + 1), steps[place])


def spoiled(random: Random, evidence: bytes) -> bytes:
    """Evidence of which about half of the records are spoiled."""
    lines = []
    for line in evidence.splitlines():
        record = json.loads(line)
        if random.random() < 0.5:
            spoiled_steps(random, record["steps"])
        lines.append(json.dumps(record, separators=(",", ":")).encode() + b"\n")
    return b"".join(lines)
