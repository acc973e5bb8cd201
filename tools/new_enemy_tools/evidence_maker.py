"""A plain maker of evidence, which settles every userset that a goal leads to.

Tests compare it with the evidence that the program's own `make` finds.
"""
from typing import Union

from new_enemy_tools import strictjson
from new_enemy_tools.entries import Entry
from new_enemy_tools.meaning import Settled, Step
from new_enemy_tools.texts import Tuple
from new_enemy_tools.trace import Trace


def record(trace: Trace, entry: Entry) -> str:
    """The line of evidence for an entry; raises Outgrown."""
    settled = Settled(trace.rules, trace.store, entry.goal, entry.snapshot)
    listed: list[dict[str, Union[str, list[str]]]] = []
    for step in settled.steps or [Step(False, [entry.goal.set])]:
        facts = [str(Tuple(of, entry.goal.user)) for of in step.sets]
        listed.append({"yes": facts[0]} if step.yes else {"no": facts})
    return strictjson.encode({"line": entry.line, "steps": listed})
