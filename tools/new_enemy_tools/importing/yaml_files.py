"""Store files and validation files, which are YAML, as PyYAML reads it, with the line of each value; all are texts.

Refused by line are anchors, aliases, tags, several documents, and what is nested deeper than a line of a log may be.
"""
import os
from typing import Any, Iterator, Optional, Union

from new_enemy_tools import limits
from new_enemy_tools.importing.located import List, Malformed, Object, read_text

try:
    import yaml  # type: ignore[import]
except ImportError:
    yaml = None  # type: ignore[assignment]

MISSING = "YAML is read by PyYAML, which is not installed: in Debian it is the package python3-yaml"


class Text(str):
    """The text of a block, which knows its first line."""

    line = 0


Value = Union[Object, List, str]


def _fault(line: int, why: str) -> Malformed:
    return Malformed(line, "YAML that is not read: %s" % why)


class Reader:
    """Makes a value of what PyYAML finds, in which each thing says where it begins."""

    def __init__(self) -> None:
        self.found: Optional[Value] = None
        # the maps and lists that are not ended, and of each map the key that stands before its next value
        self.open: list[Union[Object, List]] = []
        self.keys: list[Optional[str]] = []

    def take(self, event: Any) -> None:
        line = event.start_mark.line + 1
        if isinstance(event, yaml.NodeEvent):
            node: Any = event
            if isinstance(event, yaml.AliasEvent) or node.anchor is not None or node.tag is not None:
                raise _fault(line, "an anchor, an alias or a tag")
            self._put(self._begun(event, line), line)
        elif isinstance(event, yaml.CollectionEndEvent):
            self.open.pop()
            self.keys.pop()
        elif isinstance(event, yaml.DocumentStartEvent) and self.found is not None:
            raise _fault(line, "a second document")

    @staticmethod
    def _begun(event: Any, line: int) -> Value:
        if isinstance(event, yaml.MappingStartEvent):
            return Object(line)
        if isinstance(event, yaml.SequenceStartEvent):
            found = List()
            found.line = line
            return found
        if event.style not in ("|", ">"):
            return str(event.value)
        text = Text(event.value)
        text.line = line + 1
        return text

    def _put(self, value: Value, line: int) -> None:
        above = self.open[-1] if self.open else None
        if above is None:
            self.found = value
        elif isinstance(above, List):
            above.append(value)
        else:
            self._put_in_map(above, value, line)
        if not isinstance(value, str):
            if len(self.open) >= limits.NESTING:
                raise _fault(line, "nested too deep")
            self.open.append(value)
            self.keys.append(None)

    def _put_in_map(self, above: Object, value: Value, line: int) -> None:
        key = self.keys[-1]
        if key is not None:
            above[key], self.keys[-1] = value, None
        elif not isinstance(value, str):
            raise _fault(line, "a key that is no text")
        elif value in above:
            raise Malformed(line, "the key %r stands twice" % str(value))
        else:
            above.lines[value], self.keys[-1] = line, str(value)


def _events(text: str) -> Iterator[Any]:
    if yaml is None:
        raise Malformed(1, MISSING)
    try:
        parse: Any = yaml.parse
        yield from parse(text, Loader=getattr(yaml, "CSafeLoader", yaml.SafeLoader))
    except yaml.MarkedYAMLError as fault:
        mark = fault.problem_mark or fault.context_mark
        raise _fault(mark.line + 1 if mark else 1, fault.problem or str(fault)) from None
    except yaml.YAMLError as fault:
        line = text.count("\n", 0, getattr(fault, "position", None) or 0) + 1
        raise _fault(line, getattr(fault, "reason", str(fault))) from None


def is_yaml(path: str) -> bool:
    return path.endswith((".yaml", ".yml"))


def read_yaml(path: str) -> Object:
    """The map of a file; raises Malformed."""
    found = parse_yaml(read_text(path))
    if not isinstance(found, Object):
        raise _fault(1, "the file is no map of keys")
    return found


def parse_yaml(text: str) -> Value:
    """The value of a text; raises Malformed."""
    reader = Reader()
    for event in _events(text):
        reader.take(event)
    return Object(1) if reader.found is None else reader.found


def beside(path: str, name: str) -> str:
    """A file that another names, from where that one stands."""
    return os.path.join(os.path.dirname(path), name)
