"""Messages of gRPC as the JSON of the service's gateway, for the few fields that a recorder reads and writes."""
from typing import Any, Mapping, NamedTuple, Optional, Union

from new_enemy_tools.importing.reading import Bad, spelled
from new_enemy_tools.importing.times import text_of_time
from new_enemy_tools.importing.zedtokens import fields

TEXT, BOOL, NUMBER, ANY, TIME = "text", "bool", "number", "any", "time"
SECOND = 10 ** 9
# So much is told of a name.
LONGEST = 60


class Field(NamedTuple):
    """A field: its name in JSON, and what it is: a text, a boolean, a number, anything at all, a time, one of some names by their numbers,
    or a message; `many` where it stands several times, `named` where these are the values of a map, which has no order."""

    name: str
    kind: Union[str, dict[int, str]]
    many: bool = False
    named: bool = False


Shape = dict[int, Field]


class Malformed(Bad):
    """Bytes that are no such message."""


def numbered(*names: str) -> dict[int, str]:
    return dict(enumerate(names))


class Messages:
    """The messages of an API by their names. Fields that are not named here are passed over, but for those of `strict`, which are refused."""

    def __init__(self, shapes: Mapping[str, Shape], strict: frozenset[str] = frozenset()):
        self.shapes, self.strict = shapes, strict
        # the names that the fields of each have in JSON, in either spelling, with the message that stands there
        self.named = {shape: {name: field.kind if isinstance(field.kind, str) and field.kind in shapes else None for field in fields.values()
                              for name in (field.name, spelled(field.name))} for shape, fields in shapes.items()}

    def read(self, shape: str, data: bytes) -> dict[str, Any]:
        """A message as JSON; raises Malformed."""
        known, found, made = self.shapes[shape], _fields(shape, data), dict[str, Any]()
        unknown = found.keys() - known.keys() if shape in self.strict else ()
        if unknown:
            raise Malformed("%s has a field that is not known (%d)" % (shape, min(unknown)))
        for number, field in known.items():
            values = [self._value(shape, field, one) for one in found.get(number, ())]
            if len(values) > 1 and not field.many and not field.named:
                # Its parts would have to be put together as the service does.
                raise Malformed("%s has a field twice (%s)" % (shape, field.name))
            if values:
                made[field.name] = dict(sorted(values)) if field.named else values if field.many else values[-1]
            elif isinstance(field.kind, dict) and not field.many:
                made[field.name] = field.kind[0]
        return made

    def _value(self, shape: str, field: Field, given: Union[int, bytes]) -> Any:
        if field.named and isinstance(given, bytes):
            entry = _fields(shape, given)
            name, value = (entry.get(number, [b""])[-1] for number in (1, 2))
            return self._value(shape, Field(field.name, TEXT), name), self._value(shape, Field(field.name, field.kind), value)
        if field.kind == ANY:
            return {"given": True} if given else {}
        if isinstance(given, int):
            if field.kind in (BOOL, NUMBER):
                return bool(given) if field.kind == BOOL else given
            if isinstance(field.kind, dict):
                return field.kind.get(given, given)
        elif field.kind == TEXT:
            try:
                return given.decode()
            except UnicodeDecodeError:
                raise Malformed("%s has a text that is no UTF-8 (%s)" % (shape, field.name)) from None
        elif field.kind == TIME:
            at = self.read("Timestamp", given)
            return text_of_time(at.get("seconds", 0) * SECOND + at.get("nanos", 0))
        elif isinstance(field.kind, str) and field.kind in self.shapes:
            return self.read(field.kind, given)
        raise Malformed("%s has a field of another form (%s)" % (shape, field.name))

    def refuse_unknown(self, shape: str, value: object) -> None:
        """Raises Malformed where a message in JSON has a field that is not named here; services pass over such."""
        known = self.named[shape]
        for name, given in value.items() if isinstance(value, dict) else ():
            if name not in known:
                raise Malformed("%s has a field that is not known (%s)" % (shape, name[:LONGEST]))
            kind = known[name]
            if kind is not None:
                for one in given if isinstance(given, list) else (given,):
                    self.refuse_unknown(kind, one)

    def written(self, shape: str, value: dict[str, Any]) -> bytes:
        """A message of JSON that has the fields of its shape alone."""
        made = b""
        for number, field in self.shapes[shape].items():
            given = value.get(field.name)
            for one in given if field.many and given is not None else [given]:
                made += self._written(number, field, one)
        return made

    def _written(self, number: int, field: Field, given: Optional[Any]) -> bytes:
        if given is None:
            return b""
        if field.kind in (BOOL, NUMBER):
            return _varint(number << 3) + _varint(int(given))
        if isinstance(field.kind, dict):
            return _varint(number << 3) + _varint(next(key for key, name in field.kind.items() if name == given))
        data: bytes = given.encode() if field.kind == TEXT else self.written(str(field.kind), given)
        return _varint(number << 3 | 2) + _varint(len(data)) + data


def _fields(shape: str, data: bytes) -> dict[int, list[Any]]:
    try:
        return fields(data)
    except Exception:
        raise Malformed("a message of gRPC can't be read (%s)" % shape) from None


def _varint(value: int) -> bytes:
    made = b""
    while value > 127:
        made += bytes([value & 127 | 128])
        value >>= 7
    return made + bytes([value])
