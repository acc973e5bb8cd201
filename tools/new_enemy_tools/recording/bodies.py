"""What a call asked and answered, as JSON: by the bodies of HTTP, or by the messages of gRPC."""
import gzip
import json
import zlib
from functools import lru_cache
from typing import Any

from new_enemy_tools.importing.reading import Bad, spelled
from new_enemy_tools.importing.refusals import Refusals
from new_enemy_tools.recording.grpc_calls import GRPC, answered, asked
from new_enemy_tools.recording.messages import Ended

# An answer is read up to so many bytes, also where it comes compressed.
BODY = 16 << 20


class Unheard(Refusals):
    """Takes what answers pass over, which nobody asks for here."""

    def pass_over(self, kind: str) -> None:
        """Nobody asks."""


UNHEARD = Unheard()


_other = lru_cache(256)(spelled)
# Names of answers that decide, which some clients take in capital and in small letters alike.
DECIDING = frozenset(("allowed", "result", "objects", "object", "users", "error", "permissionship", "checkedAt", "checked_at", "pairs", "item",
                      "lookedUpAt", "looked_up_at", "resourceObjectId", "resource_object_id", "subject", "subjectObjectId", "subject_object_id"))
LETTERS = frozenset(name.casefold() for name in DECIDING)


def _once(pairs: list[tuple[str, Any]]) -> dict[str, Any]:
    found = dict(pairs)
    if len(found) < len(pairs):
        raise Bad("a name that stands twice in an object of JSON")
    for name in found:
        if name not in DECIDING and name.casefold() in LETTERS:
            raise Bad("a name that stands in other letters in an object of JSON")
    return found


def _spelled_once(pairs: list[tuple[str, Any]]) -> dict[str, Any]:
    found = dict(pairs)
    if len(found) < len(pairs):
        return _once(pairs)
    for name in found:
        if "_" in name and _other(name) in found:
            raise Bad("a name that stands in both spellings in an object of JSON")
    return found


# Of a name that stands twice some readers take the first, and some the last; requests may have a name in either spelling.
ANSWERED, ASKED = (json.JSONDecoder(object_pairs_hook=hook).decode for hook in (_once, _spelled_once))


def _unpacked(data: bytes) -> bytes:
    """What was compressed, as far as an answer is read; raises Bad where it is longer, ValueError where it is cut or none."""
    reader = zlib.decompressobj(16 + zlib.MAX_WBITS)
    try:
        found = reader.decompress(data, BODY + 1)
    except zlib.error:
        raise ValueError from None
    if len(found) > BODY:
        raise Bad("an answer was too long to be kept")
    if not reader.eof:
        raise ValueError
    # What is packed in several pieces is rare, and small where it is read.
    return gzip.decompress(data) if reader.unused_data and len(data) < BODY >> 10 else found


def body_of(message: Ended) -> Any:
    """The JSON of an answer, of one value or a line for each; raises ValueError, or Bad where it is too long."""
    data = message.response or b""
    if message.encoding == "gzip":
        data = _unpacked(data)
    elif message.encoding not in (None, "", "identity"):
        raise ValueError
    if message.call != "stream":
        return ANSWERED(data.decode())
    return [ANSWERED(one.decode()) for one in data.split(b"\n") if one.strip()]


def request_of(message: Ended) -> Any:
    """The JSON of a request; raises ValueError, or Bad where it is of gRPC."""
    return asked(message) if message.encoding == GRPC else ASKED((message.request or b"").decode())


def response_of(message: Ended) -> Any:
    """The JSON of an answer, a list where it is streamed; raises as `request_of` does."""
    return answered(message) if message.encoding == GRPC else body_of(message)
