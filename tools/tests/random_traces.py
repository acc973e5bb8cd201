"""Random joined input with all ten findings, and input that is refused."""
import json

from new_enemy_tools.evidence_maker import record
from new_enemy_tools.trace import Fault, read_trace

THIS = {"this": {}}
VIEWER = {"union": [THIS, {"computed": "owner"}, {"tuple_to": {"tupleset": "parent", "computed": "viewer"}}]}
READER = {"exclusion": {"base": {"computed": "viewer"}, "subtract": {"computed": "banned"}}}
NAMESPACES = [
    {"kind": "namespace", "name": "doc", "relations": [
        {"name": "owner"}, {"name": "parent"}, {"name": "banned"}, {"name": "viewer", "rewrite": VIEWER},
        {"name": "reader", "stratum": 1, "rewrite": READER}]},
    {"kind": "namespace", "name": "folder", "relations": [{"name": "viewer"}]},
    {"kind": "namespace", "name": "group", "relations": [{"name": "member"}]}]
LATER = {"kind": "namespace", "name": "late", "relations": [{"name": "viewer", "rewrite": {"computed": "none"}}]}
IDS = ["a", "b:c", "~1", "é", 'q"q', "back\\slash", "…" * 42, "x" * 128, "[1]", "…a", "d/e", "{}"]
STRANGE = [b"{", b"null", b"[1]", b"\xff\xfe", b'{"kind":"check"}', b'{"kind":"check","goal":"doc:a#owner@1"}', b"---x",
           b'{"kind":"check","goal":"doc:a#owner@01","snapshot":1,"reply":true}', b"{}", b'{"line":4}', b'{"line":1,"steps":[]}',
           b'{"line":true,"steps":[]}', b'{"line":5,"steps":[{}]}', b'{"line":5,"steps":[{"yes":"doc"}]}', b"[" * 200,
           b'{"line":99999999999999999999,"steps":[]}', b'{"line":4,"steps":[],"line":"x"}', b'{"line":4.0,"steps":[]}']


class PlainIds:
    """Beside random input: its ids need no escape."""

    def use_plain_ids(self):
        self.ids = [one for one in self.ids if not set(one) & set('"\\]')] or ["a"]

    def commit(self):
        self.use_plain_ids()
        return super().commit()


class RandomInput:
    """Joined input by a seeded source of chance; `ids` of it tell how many objects there are."""

    def __init__(self, random, entries=24):
        self.random = random
        self.ids = random.sample(IDS, random.randint(1, len(IDS)))
        self.at = 0
        self.labels = []
        self.values = list(NAMESPACES)
        for _ in range(entries):
            self.values.append(self.commit() if random.random() < 0.3 else self.entry())

    def user(self):
        pick = self.random.random()
        if pick < 0.6:
            return str(self.random.randrange(4))
        of = self.random.choice(self.ids)
        return "group:%s#member" % of if pick < 0.8 else "folder:%s#..." % of if pick < 0.9 else "doc:%s#viewer" % of

    def tuple_text(self):
        of, relation = self.random.choice([("doc", "owner"), ("doc", "parent"), ("doc", "banned"), ("doc", "viewer"),
                                           ("folder", "viewer"), ("group", "member")])
        return "%s:%s#%s@%s" % (of, self.random.choice(self.ids), relation, self.user())

    def commit(self):
        self.at += self.random.randint(1, 3)
        touched = list({self.tuple_text() for _ in range(self.random.randint(1, 6))})
        touched.sort()
        cut = self.random.randint(0, len(touched))
        return {"kind": "commit", "at": self.at, "add": touched[cut:], "remove": touched[:cut]}

    def entry(self):
        of, relation = self.random.choice([("doc", "viewer"), ("doc", "reader"), ("folder", "viewer"), ("group", "member")])
        snapshot = max(0, self.at + self.random.choice([0, 0, 0, 0, -1, 1, 3]))
        entry = {"kind": self.random.choice(["check", "check", "content"]), "snapshot": snapshot, "reply": self.random.random() < 0.5,
                 "goal": "%s:%s#%s@%d" % (of, self.random.choice(self.ids), relation, self.random.randrange(4))}
        if self.random.random() < 0.7:
            version, kind = self.random.choice([("z1-", ""), ("z2-", "c"), ("z2-", "w")])
            entry["zookie"] = "%s%s%016x" % (version, kind, max(0, snapshot + self.random.choice([0, 0, 0, 0, -1, 1])))
        if entry["kind"] == "content" and entry["reply"]:
            entry["version"] = "v%d" % len(self.labels)
            self.labels.append(entry["version"])
        elif entry["kind"] == "check" and self.random.random() < 0.4:
            entry["version"] = self.random.choice(self.labels or ["none"])
        return entry

    def styled(self, value):
        """A text of the value, in one of many forms."""
        pick, quick = self.random.random(), json.dumps(value, ensure_ascii=False, separators=(",", ":"))
        if value["kind"] in ("check", "content"):
            value = {**{"kind": 0, "goal": 0}, **value}
            quick = json.dumps(value, ensure_ascii=False, separators=(",", ":"))
            if pick < 0.08:
                return json.dumps(value).replace("doc", "d\\u006fc").replace("kind", "\\u006bind")
            if pick < 0.16:
                return '{"goal":"doc:a#owner@1","kind":"commit",' + quick[1:]
            if pick < 0.22:
                return quick[:-1] + ',"from":{"goal":"doc:a#owner@1","kind":"x"},"n":[1.5e3]}'
            if pick < 0.28:
                return "\t" + json.dumps(dict(reversed(value.items())), ensure_ascii=False) + " \r"
        return json.dumps(value) if pick < 0.5 else quick

    def lines(self):
        lines = []
        for value in self.values:
            lines.append(self.styled(value).encode())
            if self.random.random() < 0.1:
                lines.append(self.random.choice([b"", b" \t", b"\r"]))
        return lines

    def records(self, lines):
        """Records for the entries, of which some are missing, bad, or silent; entries without the right reply get none."""
        try:
            trace = read_trace(b"\n".join(lines))
        except Fault:
            return []
        records = []
        for entry in trace.entries.values():
            made, pick = json.loads(record(trace, entry)), self.random.random()
            if pick < 0.1:
                continue
            if pick < 0.2:
                made["steps"] = [{"yes": "group:%s#member@9" % self.ids[0]}] + made["steps"]
            elif pick < 0.3:
                made["steps"] = []
            text = json.dumps(made, ensure_ascii=pick < 0.6, separators=(",", ":"))
            if pick > 0.95:
                text = '{"line":4,"line":%d,"steps":%s,"x":"\\"line\\":7"}' % (made["line"], json.dumps(made["steps"]))
            records.append(text.encode())
        self.random.shuffle(records)
        return records

    def joined(self):
        lines = self.lines()
        return self.text(lines, self.records(lines))

    def refused(self):
        """As `joined`, with faults in the trace, in the evidence, or in both."""
        if self.random.random() < 0.2:
            self.values.insert(self.random.randint(3, 6), LATER)
        lines = self.lines()
        records = self.records(lines)
        for _ in range(self.random.choice([0, 0, 1, 2])):
            self.spoil(lines)
        for _ in range(self.random.randint(1, 3)):
            self.spoil(records)
        return self.text(lines, records)

    def spoil(self, lines):
        place, pick = self.random.randint(0, len(lines)), self.random.random()
        if lines and pick < 0.3:
            lines.insert(place, self.random.choice(lines))
        elif lines and pick < 0.6:
            place = self.random.randrange(len(lines))
            at = self.random.randint(0, len(lines[place]))
            lines[place] = lines[place][:at] + self.random.choice([b"", b"\x00", b'"', b"\\", b"9", b"}", b"\xff"]) + lines[place][at + 1:]
        else:
            lines.insert(place, self.random.choice(STRANGE))

    @staticmethod
    def text(lines, records):
        return b"".join(line + b"\n" for line in lines) + b"---\n" + b"\n".join(records)
