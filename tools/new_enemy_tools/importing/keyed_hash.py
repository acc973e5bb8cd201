"""What is known in short, by a key of this run alone: nobody can write two tuples or tokens that have one number."""
import os
from hashlib import blake2b

KEYED = blake2b(key=os.urandom(16), digest_size=8)


def short(given: object) -> int:
    """A number for a text, or a tuple of texts."""
    found = KEYED.copy()
    found.update(repr(given).encode("utf-8", "surrogatepass"))
    return int.from_bytes(found.digest(), "little")
