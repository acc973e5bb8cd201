"""JSON as the program reads it, line by line."""
import json
import re
from typing import Any, Iterator, Union

from new_enemy_tools import limits

BLANK = b" \t\r"
BLOCK = 1 << 16
# An object of JSON.
Object = dict[str, Any]
# The text of a value, on one line without spaces, in letters as they are.
encode = json.JSONEncoder(ensure_ascii=False, separators=(",", ":")).encode
STRING = re.compile(rb'"(?:[^"\\]|\\.)*"')


def filled(found: dict[str, Any]) -> dict[str, Any]:
    """An object without the keys that have no value."""
    return {key: value for key, value in found.items() if value is not None}


def is_u64(value: object) -> bool:
    return isinstance(value, int) and not isinstance(value, bool) and 0 <= value <= limits.NUMBER


class NotJson(Exception):
    pass


class TooLong(Exception):
    def __init__(self, line: int):
        super().__init__("too long")
        self.line = line


def _float(text: str) -> float:
    value = float(text)
    if value in (float("inf"), float("-inf")):
        raise NotJson("the number %s is out of range" % text[:40])
    return value


def _int(text: str) -> Union[int, float]:
    if text == "-0" or len(text) > 300:
        return _float(text)
    return int(text)


def _constant(text: str) -> None:
    raise NotJson("%s is no JSON" % text)


DECODER = json.JSONDecoder(parse_float=_float, parse_int=_int, parse_constant=_constant)


def is_nested_too_deep(raw: bytes) -> bool:
    if raw.count(b"[") + raw.count(b"{") <= limits.NESTING:
        return False
    deepest = level = 0
    for byte in STRING.sub(b"", raw):
        if byte in b"[{":
            level += 1
            deepest = max(deepest, level)
        elif byte in b"]}":
            level -= 1
    return deepest > limits.NESTING


def has_half_pair(value: object) -> bool:
    """Whether half of a pair of code units stands alone in some text of a value."""
    try:
        json.dumps(value, ensure_ascii=False).encode("utf-8")
    except UnicodeEncodeError:
        return True
    return False


def value_of(raw: bytes) -> object:
    """The JSON value of a line; raises NotJson."""
    if is_nested_too_deep(raw):
        raise NotJson("nested more than %d deep" % limits.NESTING)
    try:
        text = raw.decode("utf-8").strip(" \t\r\n")
        value, end = DECODER.raw_decode(text)
        if end != len(text):
            raise NotJson("more text behind the value, at character %d" % end)
        if "\\u" in text and has_half_pair(value):
            raise NotJson("half of a pair of code units stands alone")
    except UnicodeDecodeError as fault:
        raise NotJson("the bytes are no UTF-8 at byte %d" % fault.start) from None
    except json.JSONDecodeError as fault:
        raise NotJson("%s at character %d" % (fault.msg.removesuffix(" starting at"), fault.pos)) from None
    return value


def object_of(raw: bytes) -> Object:
    """The object of a line that is known to be one."""
    value = value_of(raw)
    assert isinstance(value, dict)
    return value


def lines_of(data: bytes) -> Iterator[tuple[int, bytes]]:
    """The lines that are not blank, with their numbers; raises TooLong."""
    number = start = behind = 0
    while start < len(data):
        end = data.find(b"\n", start + BLOCK)
        end = len(data) if end < 0 else end
        # A block and a line at a time, so that an input of newlines alone makes no list of all its lines.
        for line in data[start:end].split(b"\n"):
            number += 1
            behind += len(line) + 1
            if len(line) > limits.LINE_BYTES or behind - 1 > limits.INPUT_BYTES:
                raise TooLong(number)
            if line.strip(BLANK):
                yield number, line
        start = end + 1
