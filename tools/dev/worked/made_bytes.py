"""What makes up an input of a worked case: bytes that stand there, and bytes that are made when the case is run."""
import json
import re
from typing import List, NamedTuple, Optional, Union

QUOTED = r'"(?:[^"\\]|\\.)*"'


class Repeated(NamedTuple):
    """The same bytes so many times."""
    data: bytes
    times: int

    def given(self, _made: bytes) -> bytes:
        return self.data * self.times


class Counted(NamedTuple):
    """A text with each number from the first to the last at its %d, and another text between two of them."""
    form: str
    first: int
    last: int
    between: str

    def given(self, _made: bytes) -> bytes:
        return self.between.join(self.form % number for number in range(self.first, self.last + 1)).encode()


class Made(NamedTuple):
    """What the run before wrote on standard output."""

    def given(self, made: bytes) -> bytes:
        return made


Piece = Union[bytes, Repeated, Counted, Made]


def given(pieces: List[Piece], made: bytes = b"") -> bytes:
    """The bytes of an input, where the run before wrote these."""
    return b"".join(piece if isinstance(piece, bytes) else piece.given(made) for piece in pieces)


def unquoted(text: str) -> str:
    """What a string of JSON says; raises ValueError where it says no text."""
    said = json.loads(text)
    assert isinstance(said, str)
    said.encode()
    return said


def piece_of(said: str) -> Optional[Piece]:
    """What a line `-- SAID --` within a part stands for; None where it is none of these. Raises ValueError for a string that is no text."""
    if said == "made":
        return Made()
    found = re.fullmatch("text (%s)" % QUOTED, said)
    if found:
        return unquoted(found[1]).encode()
    found = re.fullmatch("hex ((?:[0-9a-f]{2})+)", said)
    if found:
        return bytes.fromhex(found[1])
    found = re.fullmatch(r"repeat ([0-9]+) (%s)" % QUOTED, said)
    if found:
        return Repeated(unquoted(found[2]).encode(), int(found[1]))
    found = re.fullmatch(r"count ([0-9]+) to ([0-9]+) (%s)(?: between (%s))?" % (QUOTED, QUOTED), said)
    if not found:
        return None
    counted = Counted(unquoted(found[3]), int(found[1]), int(found[2]), unquoted(found[4] or '""'))
    if counted.form.count("%") != 1 or not re.search("%(0[0-9]+)?d", counted.form) or counted.first > counted.last:
        raise ValueError("not one %d, or no number to stand there")
    return counted
