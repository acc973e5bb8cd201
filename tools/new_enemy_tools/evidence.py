"""Reads evidence for a trace, or says what is wrong with the first record that the program refuses."""
import re
from typing import Callable, Iterator

from new_enemy_tools import limits, strictjson, texts
from new_enemy_tools.strictjson import Object, is_u64
from new_enemy_tools.trace import Fault, Refusal, Trace

Step = Callable[[int], None]
LINE = re.compile(rb'[ \t]*\{[ \t]*"line"[ \t]*:[ \t]*([0-9]{1,20})[ \t]*[,}]')


def _shape(value: object) -> tuple[int, list[Object]]:
    if not isinstance(value, dict):
        raise Refusal("wrong shape", "the record is no object")
    line, steps = value.get("line"), value.get("steps")
    if not isinstance(line, int) or not is_u64(line):
        raise Refusal("wrong shape", "`line` is %r, and no whole number of 64 bits" % (line,))
    if not isinstance(steps, list):
        raise Refusal("wrong shape", "`steps` is no list")
    for number, step in enumerate(steps, 1):
        if not isinstance(step, dict):
            raise Refusal("wrong shape", "step %d is no object" % number)
        if ("yes" in step) == ("no" in step):
            continue
        if "yes" in step and not isinstance(step["yes"], str):
            raise Refusal("wrong shape", "`yes` of step %d is no text" % number)
        if "no" in step and not (isinstance(step["no"], list) and all(isinstance(fact, str) for fact in step["no"])):
            raise Refusal("wrong shape", "`no` of step %d is no list of texts" % number)
    return line, steps


def _facts(steps: list[Object]) -> Iterator[tuple[str, str]]:
    for number, step in enumerate(steps, 1):
        if ("yes" in step) != ("no" in step):
            for fact in [step["yes"]] if "yes" in step else step["no"]:
                yield "step %d" % number, fact


def _take(value: object, trace: Trace, seen: dict[int, int], number: int) -> tuple[int, list[Object]]:
    line, steps = _shape(value)
    count = 0
    for where, fact in _facts(steps):
        count += 1
        try:
            texts.parse_fact(fact)
        except texts.TextFault as fault:
            raise Refusal(str(fault), "a fact of %s is %r" % (where, fact)) from None
    for place, step in enumerate(steps, 1):
        if ("yes" in step) == ("no" in step):
            raise Refusal("unknown step", "step %d has %s" % (place, "both yes and no" if "yes" in step
                                                              else "neither yes nor no"))
    if line not in trace.entries:
        raise Refusal("stray line", "line %d of the trace is no check and no content line" % line)
    if line in seen:
        raise Refusal("repeated line", "evidence line %d is a record for trace line %d already" % (seen[line], line))
    if count > limits.RECORD_FACTS:
        raise Refusal("too many facts", "%d facts, and at most %d" % (count, limits.RECORD_FACTS))
    seen[line] = number
    return line, steps


def _records(data: bytes, trace: Trace, is_wanted: Callable[[bytes], bool], step: Step) -> Iterator[tuple[int, list[Object]]]:
    """The line and the steps of each record that is wanted; raises Fault on the first of these that the program refuses."""
    seen: dict[int, int] = {}
    number = 0
    try:
        for number, raw in strictjson.lines_of(data):
            step(number)
            if not is_wanted(raw):
                continue
            try:
                value = strictjson.value_of(raw)
            except strictjson.NotJson as fault:
                raise Refusal("not JSON", str(fault)) from None
            yield _take(value, trace, seen, number)
    except strictjson.TooLong as fault:
        raise Fault("evidence", fault.line, "too long", ["a line has at most %d bytes" % limits.LINE_BYTES]) from None
    except Refusal as refusal:
        raise Fault("evidence", number, str(refusal), refusal.details) from None


def check_evidence(data: bytes, trace: Trace, step: Step = lambda line: None) -> None:
    """Raises Fault on the first line that the program refuses. `step` is told how many were read."""
    for _ in _records(data, trace, lambda raw: True, step):
        pass


def records_of(data: bytes, trace: Trace, lines: set[int], step: Step = lambda line: None) -> dict[int, list[Object]]:
    """The steps of the records for some lines of a trace; raises Fault where one of these is refused."""
    def is_wanted(raw: bytes) -> bool:
        """Most records begin with their line, and those for other lines need no look; an escape may hide another key."""
        found = LINE.match(raw)
        return found is None or int(found[1]) in lines or raw.count(b'"line"') != 1 or b"\\" in raw

    return {line: steps for line, steps in _records(data, trace, is_wanted, step) if line in lines}
