"""The worked inputs: those of the worked cases and of the examples."""
import os
from typing import Iterator, NamedTuple

from hostile.program_runs import Answer
from worked.cases import read_cases
from worked.made_bytes import given

TOP = os.path.realpath(os.path.join(os.path.dirname(__file__), "..", "..", ".."))
EXAMPLES = ("one_proved_check", "each_finding")


class Worked(NamedTuple):
    """A worked case: its input, the answer that is wanted, the words behind the program's name, and the files of its folder."""
    name: str
    data: bytes
    wanted: Answer
    words: list[str]
    files: dict[str, bytes]


def _cases() -> Iterator[Worked]:
    """The cases whose devices work, with what their first run has to give."""
    for name, run, _, is_heavy in read_cases():
        if not is_heavy and run.room is None and not run.is_unreadable:
            files = {file: given(pieces) for file, pieces in run.files.items()}
            yield Worked(name, given(run.stdin), Answer(run.status, run.stdout, run.stderr), run.words, files)


def worked_cases() -> list[Worked]:
    """The cases of joined input whose devices work."""
    return [case for case in _cases() if not case.words]


def command_cases() -> list[Worked]:
    """The cases with words whose devices work. Where any text may be written, the answer's is None."""
    return [case for case in _cases() if case.words]


def worked_inputs(most: int) -> list[bytes]:
    """The inputs of the cases and the examples that have no more bytes than this, each once."""
    inputs = [case.data for case in worked_cases()]
    for name in EXAMPLES:
        with open(os.path.join(TOP, "examples", name), "rb") as file:
            inputs.append(file.read())
    return list(dict.fromkeys(data for data in inputs if len(data) <= most))
