#!/usr/bin/env python3
"""Joined input of about so many megabytes, clean by its evidence.

    python3 bench/trace.py KIND MEGABYTES > joined

KIND is one of
  checks      checks of one stored tuple
  folders     documents in folders eight deep, whose owner is checked through `tuple_to`
  circles     rings of eight groups, and checks that nobody is in them
  toggled     one tuple added and removed in turn, and checks at old snapshots
  wide        one group of 100,000 users, and checks that a stranger is not in it
  exclusions  viewers who are not banned, and those who are
  commits     commits of four tuples each, and one check
  service     documents of which each gets one viewer, and a hundred checks for each commit
"""
import argparse
import json


def text(value):
    return json.dumps(value, separators=(",", ":"))


class Input:
    def __init__(self, size, namespaces):
        self.size = size
        self.lines = [text({"kind": "namespace", **n}) for n in namespaces]
        self.records = []
        self.bytes = 0
        self.at = 0

    def line(self, value):
        self.lines.append(text(value))
        self.bytes += len(self.lines[-1]) + 1

    def commit(self, add=(), remove=()):
        self.at += 1
        self.line({"kind": "commit", "at": self.at, "add": list(add), "remove": list(remove)})

    def check(self, goal, reply, steps, snapshot=None):
        snapshot = self.at if snapshot is None else snapshot
        line = {"kind": "check", "goal": goal, "snapshot": snapshot, "reply": reply}
        if reply:
            line["zookie"] = "z1-%016x" % snapshot
        self.line(line)
        self.records.append(text({"line": len(self.lines), "steps": steps}))
        self.bytes += len(self.records[-1]) + 1

    def is_full(self):
        return self.bytes >= self.size


THIS = {"this": {}}


def relation(name, rewrite=None):
    return {"name": name} if rewrite is None else {"name": name, "rewrite": rewrite}


def checks(size):
    given = Input(size, [{"name": "doc", "relations": [relation("viewer")]}])
    given.commit(["doc:readme#viewer@10"])
    while not given.is_full():
        given.check("doc:readme#viewer@10", True, [{"yes": "doc:readme#viewer@10"}])
    return given


def folders(size):
    owner = {"union": [THIS, {"tuple_to": {"tupleset": "parent", "computed": "owner"}}]}
    given = Input(size, [{"name": "folder", "relations": [relation("parent"), relation("owner", owner)]}])
    k = 0
    while not given.is_full():
        names = [f"folder:{k}/{depth}" for depth in range(8)]
        parents = [f"{low}#parent@{high}#..." for high, low in zip(names, names[1:])]
        given.commit(parents + [f"{names[0]}#owner@{k}"])
        given.check(f"{names[-1]}#owner@{k}", True, [{"yes": f"{name}#owner@{k}"} for name in names])
        k += 1
    return given


def circles(size):
    given = Input(size, [{"name": "group", "relations": [relation("member")]}])
    k = 0
    while not given.is_full():
        groups = [f"group:{k}/{i}#member" for i in range(8)]
        given.commit([f"{one}@{other}" for one, other in zip(groups, groups[1:] + groups[:1])])
        given.check(f"{groups[0]}@7", False, [{"no": [f"{group}@7" for group in groups]}])
        k += 1
    return given


def toggled(size):
    given = Input(size, [{"name": "doc", "relations": [relation("viewer")]}])
    goal = "doc:readme#viewer@10"
    for k in range(50000):
        given.commit([goal])
        given.commit([], [goal])
    k = 0
    while not given.is_full():
        snapshot = k * 7919 % 100000 + 1
        if snapshot % 2:
            given.check(goal, True, [{"yes": goal}], snapshot)
        else:
            given.check(goal, False, [{"no": [goal]}], snapshot)
        k += 1
    return given


def wide(size):
    given = Input(size, [{"name": "group", "relations": [relation("member")]}])
    for start in range(0, 100000, 1000):
        given.commit([f"group:all#member@{start + i}" for i in range(1000)])
    while not given.is_full():
        given.check("group:all#member@900000", False, [{"no": ["group:all#member@900000"]}])
    return given


def exclusions(size):
    viewer = {"exclusion": {"base": THIS, "subtract": {"computed": "banned"}}}
    given = Input(size, [{"name": "doc", "relations": [relation("banned"), {"stratum": 1, **relation("viewer", viewer)}]}])
    k = 0
    while not given.is_full():
        doc = f"doc:{k}"
        given.commit([f"{doc}#viewer@1", f"{doc}#viewer@2", f"{doc}#banned@2"])
        given.check(f"{doc}#viewer@1", True, [{"no": [f"{doc}#banned@1"]}, {"yes": f"{doc}#viewer@1"}])
        given.check(f"{doc}#viewer@2", False, [{"yes": f"{doc}#banned@2"}, {"no": [f"{doc}#viewer@2"]}])
        k += 1
    return given


def commits(size):
    given = Input(size, [{"name": "doc", "relations": [relation("viewer")]}])
    while not given.is_full():
        k = given.at
        given.commit([f"doc:{k}#viewer@{user}" for user in range(4)])
    given.check("doc:0#viewer@0", True, [{"yes": "doc:0#viewer@0"}])
    return given


def service(size):
    given = Input(size, [{"name": "doc", "relations": [relation("viewer")]}])
    while not given.is_full():
        given.commit([f"doc:{given.at}#viewer@10"])
        for k in range(100):
            goal = f"doc:{(k * 7919 + given.at) % given.at}#viewer@10"
            given.check(goal, True, [{"yes": goal}])
    return given


KINDS = {f.__name__: f for f in (checks, folders, circles, toggled, wide, exclusions, commits, service)}


def asked(told, kinds):
    """The kind and the bytes that the command line asks for."""
    parser = argparse.ArgumentParser(description=told, formatter_class=argparse.RawDescriptionHelpFormatter)
    parser.add_argument("kind", metavar="KIND", choices=kinds)
    parser.add_argument("megabytes", metavar="MEGABYTES", type=float)
    given = parser.parse_args()
    return given.kind, int(given.megabytes * 10**6)


def main():
    kind, size = asked(__doc__, KINDS)
    given = KINDS[kind](size)
    print("\n".join(given.lines))
    print("---")
    print("\n".join(given.records))


if __name__ == "__main__":
    main()
