"""Inputs with some bytes flipped, cut, spliced or doubled."""
import re
from random import Random

# The first size of an input that the fuzz does not try.
SIZE = 1 << 16
CHANGES = (1, 1, 2, 4)
TOKEN = re.compile(rb'[0-9]+|"[^"\n]*"|[a-z]+|[^\n]')
STRANGE = (b"\0", b"\xff", b"\xef\xbb\xbf", b"\xc0\x80", b"\xed\xa0\x80", b"\r", b"\n", b"\n\n", b"\n---\n", b" " * 64, b"[" * 128, b"{}", b"null",
           b"\\u0000", b"\\ud800", b"\\udc00", b"\\ud83d\\ude00", b"\\\"", b"-1", b"-0", b"0", b"1e999", b"1.0", b"255", b"256",
           b"18446744073709551615", b"18446744073709551616", b"...", b"z1-", b"z2-c", b"#", b"@", b":", b"\"this\":null,")


def place_of(random: Random, data: bytes) -> tuple[int, int]:
    """The ends of some bytes of an input: a line, a token from somewhere within it, or any."""
    at, way = random.randrange(len(data) + 1), random.random()
    if way < 0.3:
        start = data.rfind(b"\n", 0, at) + 1
        end = data.find(b"\n", start) + 1
        return start, end or len(data)
    if way < 0.7:
        token = TOKEN.search(data, at)
        return token.span() if token else (at, len(data))
    return at, min(len(data), at + random.randrange(1 << random.randrange(1, 10)))


def flip(random: Random, data: bytes, inputs: list[bytes]) -> bytes:
    """One bit, or one byte by another of the input."""
    if not data:
        return data
    at = random.randrange(len(data))
    byte = data[at] ^ 1 << random.randrange(8) if random.random() < 0.5 else random.choice(data)
    return data[:at] + bytes([byte]) + data[at + 1:]


def cut(random: Random, data: bytes, inputs: list[bytes]) -> bytes:
    start, end = place_of(random, data)
    return data[:start] if random.random() < 0.1 else data[:start] + data[end:]


def splice(random: Random, data: bytes, inputs: list[bytes]) -> bytes:
    """Some bytes of another input, or strange ones, before some bytes or in their place."""
    start, end = place_of(random, data)
    if random.random() < 0.4:
        piece = random.choice(STRANGE)
    else:
        other = random.choice(inputs)
        first, behind = place_of(random, other)
        piece = other[first:behind]
    return data[:start] + piece + data[random.choice((start, end)):]


def double(random: Random, data: bytes, inputs: list[bytes]) -> bytes:
    start, end = place_of(random, data)
    times = 1 << random.randrange(12) if random.random() < 0.1 else 1
    return data[:end] + data[start:end] * times + data[end:]


def mutant(seed: int, inputs: list[bytes]) -> bytes:
    """The input of a seed: a worked one with a few changes."""
    random = Random(seed)
    data = random.choice(inputs)
    for _ in range(random.choice(CHANGES)):
        data = random.choice((flip, cut, splice, double))(random, data, inputs)[:SIZE - 1]
    return data
