"""Random traces for windows: old snapshots, and rules that change; and how they are cut."""
from tests.random_traces import NAMESPACES, READER, THIS, VIEWER, RandomInput

OWNER = {"union": [THIS, {"computed": "owner"}]}
VIEWERS = [VIEWER, THIS, OWNER, {"intersection": [VIEWER, OWNER]}]
READERS = [READER, {"computed": "viewer"}, {"exclusion": {"base": OWNER, "subtract": {"computed": "banned"}}}]
BACK = [0, 0, 0, 0, -1, 1, 3, -2, -5, -9]


class RandomHistory(RandomInput):
    """As RandomInput, with old snapshots, changes of rules, and checks of the versions of their objects."""

    def __init__(self, random, entries=40):
        self.late = False
        # of each version the goal of its content check
        self.issued = {}
        super().__init__(random, entries)

    def commit(self):
        if self.random.random() < 0.25:
            return self.change()
        commit = super().commit()
        if self.random.random() < 0.1:
            # The first commit may have the timestamp 0, and a commit may touch nothing.
            commit["add"], commit["remove"] = [], []
        if len(self.values) == len(NAMESPACES) and self.random.random() < 0.3:
            commit["at"] = self.at = 0
        return commit

    def change(self):
        self.at += self.random.randint(1, 3)
        if not self.late and self.random.random() < 0.3:
            self.late = True
            return {"kind": "namespace", "at": self.at, "name": "late", "relations": [{"name": "viewer"}]}
        relations = [dict(one) for one in NAMESPACES[0]["relations"]]
        relations[3]["rewrite"] = self.random.choice(VIEWERS)
        relations[4]["rewrite"] = self.random.choice(READERS)
        return {"kind": "namespace", "at": self.at, "name": "doc", "relations": relations}

    def tuple_text(self):
        text = super().tuple_text()
        if self.late and self.random.random() < 0.3:
            return "late" + text[text.index(":"):text.index("#")] + "#viewer" + text[text.index("@", text.index("#")):]
        return text

    def entry(self):
        entry = super().entry()
        entry["snapshot"] = max(0, self.at + self.random.choice(BACK))
        if "zookie" in entry and self.random.random() < 0.7:
            entry["zookie"] = "z1-%016x" % max(0, entry["snapshot"] + self.random.choice([0, 0, 0, -1, 1]))
        if self.late and self.random.random() < 0.2:
            entry["goal"] = "late" + entry["goal"][entry["goal"].index(":"):entry["goal"].index("#")] + "#viewer@%d" % self.random.randrange(4)
        if entry["kind"] == "check" and self.random.random() < 0.7:
            entry["goal"] = self.issued.get(entry.get("version"), entry["goal"])
        elif entry["kind"] == "content" and "version" in entry:
            self.issued[entry["version"]] = entry["goal"]
        return entry


def cut_at_commits(random, lines, most=9):
    """The lines of a trace in windows, each but the first of which begins with a commit or a change."""
    places = [place for place, line in enumerate(lines) if b'"commit"' in line or b'"namespace"' in line and b'"at"' in line]
    cuts = sorted(random.sample(places, min(len(places), random.randint(0, most - 1))))
    return [lines[low:high] for low, high in zip([0, *cuts], [*cuts, len(lines)])]
