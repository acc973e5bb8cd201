"""What is told of a trace that is read where its findings need it is what is told of one that is read in full."""
import json
from collections import Counter
from random import Random
from typing import Iterator
from unittest import mock

from new_enemy_tools.audit_summary import told_of
from new_enemy_tools.audited_trace import read_audited
from new_enemy_tools.commands import report as command
from new_enemy_tools.effects import Effects, RatedFinding
from new_enemy_tools.findings import read_report
from new_enemy_tools.token_order import order_lines
from new_enemy_tools.trace import Trace, read_trace
from new_enemy_tools.trace_lines import OtherForm
from tests.random_traces import NAMESPACES, PlainIds, RandomInput
from tests.support import Case

KEYS = ("kind", "at", "name", "relations", "add", "remove", "goal", "snapshot", "reply", "zookie", "version", "revision", "from")
KINDS = ("junit", "jsonl", "sarif", "text", "annotations")


class OldSnapshots(PlainIds, RandomInput):
    """Random input of ids without escapes, with entries at old snapshots."""

    def entry(self) -> dict:
        self.use_plain_ids()
        entry = super().entry()
        entry["snapshot"] = max(0, self.at - self.random.choice([0, 1, 2, 4, 8]))
        if entry["kind"] == "check":
            entry["zookie"] = "z1-%016x" % self.at
        return entry


def imported(values: list[dict]) -> bytes:
    """The lines as importers write them."""
    return "".join(json.dumps({key: value[key] for key in KEYS if key in value}, ensure_ascii=False, separators=(",", ":")) + "\n"
                   for value in values).encode()


def reported(trace: Trace) -> str:
    effects = Effects(trace)
    lines = order_lines(trace) + ["line %d: F10 wrong reply" % one.line for one in trace.entries.values() if effects.holds(one.goal, one.snapshot) != one.reply]
    return "".join(line + "\n" for line in lines) + "entries %d\nfindings %d\nverdict %s\n" % (
        len(trace.entries), len(lines), "dirty" if lines else "clean")


class Audited(Case):
    def inputs(self) -> Iterator[list[dict]]:
        for number in range(60):
            yield OldSnapshots(Random("audited %d" % number), 60).values

    def told(self, trace: Trace, report: str) -> list[RatedFinding]:
        return told_of(trace, read_report(report))

    def test_effects(self) -> None:
        seen: Counter[str] = Counter()
        for values in self.inputs():
            data = imported(values)
            report = reported(read_trace(data))
            told = self.told(read_audited(data), report)
            self.assertEqual(told, self.told(read_trace(data), report))
            seen.update(one.effect.word for one in told)
            for patched in ({"FEW": 1}, {"SHORT": 0}, {"SEARCHES": 0, "NEAR": 100}, {"SEARCHES": 1, "NEAR": 0}):
                with mock.patch.multiple("new_enemy_tools.quick_reach", **patched), mock.patch("new_enemy_tools.effects.Effects.FEW", 2):
                    self.assertEqual(told, self.told(read_audited(data), report), patched)
        self.assertEqual(set(seen), {"none", "possible", "changed", "wrong"})

    def test_all_that_a_trace_says(self) -> None:
        for values in self.inputs():
            data = imported(values)
            late, full = read_audited(data), read_trace(data)
            self.assertEqual(list(late.entries.items()), list(full.entries.items()))
            self.assertEqual(list(late.commits), list(full.commits))
            touched = {given for commit in full.commits for given in (*commit.add, *commit.remove)}
            self.assertEqual({given: late.store.touches(given) for given in touched}, {given: full.store.touches(given) for given in touched})
            self.assertEqual([late.at_of(line) for line in range(80)], [full.at_of(line) for line in range(80)])

    def test_lines_that_begin_otherwise(self) -> None:
        head = imported(NAMESPACES)
        check = b'{"kind":"check","goal":"doc:a#viewer@1","snapshot":1,"reply":true}\n'
        commit = b'{"kind":"commit","at":1,"add":["doc:a#viewer@1"]}\n'
        self.assertEqual(len(read_audited(head + commit + check).entries), 1)
        blank = read_audited(head + b"\n" + commit + b"\n\n" + check)
        self.assertEqual((list(blank.entries), blank.commits.lines), ([len(NAMESPACES) + 5], [len(NAMESPACES) + 2]))
        for data in (head + check.replace(b":", b": "), head + b" \n" + check, head + commit + head, head + check[:-2] + b',"kind":"content"}',
                     head + check.replace(b"a#", b"\\u0061#"), head + commit + commit, head + b"\xff" + check, head + check[:-2] + b',"at":1}',
                     head + commit.replace(b'"at":1', b'"at":01'), head.replace(b'"namespace",', b'"namespace","at":1,'), b"{}\n",
                     head.replace(b'"doc"', b'"Doc"')):
            self.assertRaises(OtherForm, read_audited, data)

    def test_lines_of_another_form(self) -> None:
        """Where one is asked for, the trace is read in full, and so is one with a report that is not its own."""
        for number, values in enumerate(self.inputs()):
            place = Random(number).randrange(len(NAMESPACES), len(values))
            values[place]["other"] = ["x"]
            data = imported(values).splitlines(True)
            data[place] = data[place][:-2] + b',"other":"x"}\n'
            trace = b"".join(data)
            self.put("report.txt", reported(read_trace(trace)))
            self.put("trace.jsonl", trace)
            form = KINDS[number % len(KINDS)]
            run = self.run_tool("report", "--form", form, "trace.jsonl", "report.txt")
            with mock.patch.object(command, "read_audited", side_effect=OtherForm):
                self.assertEqual(run, self.run_tool("report", "--form", form, "trace.jsonl", "report.txt"))
            self.assertEqual((run.returncode, run.stderr), (0, ""))
        data[place] = b'{"kind":"check","goal":"doc:a#viewer","snapshot":1,"reply":true}\n'
        self.put("trace.jsonl", b"".join(data))
        self.put("report.txt", "entries 0\nfindings 0\nverdict clean\n")
        run = self.run_tool("report", "trace.jsonl", "report.txt")
        self.assertEqual((run.returncode, run.stderr.splitlines()[0]), (2, "trace line %d: bad text, relation at 6" % (place + 1)))
