"""OpenFGA's language for models, as the JSON that the service has for them; what is left is refused by line.

    define viewer: [user, user:*, group#member] or editor or viewer from parent
"""
import re
from typing import Any, NamedTuple, Optional

from new_enemy_tools import limits
from new_enemy_tools.importing.located import List, Malformed, Object

TOKEN = re.compile(r"[ \t]+|(?P<word>[A-Za-z0-9_][A-Za-z0-9_./-]*)|(?P<sign>[\[\](),:#*])|(?P<other>.)")
COMMENT = re.compile(r"(?:^|(?<=\s))#.*")
OPERATORS = {"or": "union", "and": "intersection", "but": "difference"}
HEADS = re.compile(r"\s*(model|schema|type|relations|define|condition|module|extend)\b(?!\s*:)")


class Line(NamedTuple):
    number: int
    text: str


def malformed(line: int, why: str) -> Malformed:
    return Malformed(line, why + "; `fga model transform` writes a model as JSON")


def made(line: int, **values: object) -> Object:
    """An object of JSON whose values stand on one line."""
    of = Object(line)
    for key, value in values.items():
        of[key] = value
        of.lines[key] = line
    return of


def listed(line: int, values: list[Any]) -> List:
    of = List(values)
    of.line = line
    return of


class Definition:
    """The rule behind `define NAME:`, on one line or more."""

    def __init__(self, line: int, text: str):
        self.line = line
        self.tokens = [found[0] for found in TOKEN.finditer(text) if not found[0].isspace()]
        self.at = self.open = 0
        self.users: Optional[List] = None

    def here(self) -> str:
        return self.tokens[self.at] if self.at < len(self.tokens) else ""

    def next(self) -> str:
        self.at += 1
        return self.tokens[self.at - 1] if self.at <= len(self.tokens) else ""

    def take(self, wanted: str) -> None:
        found = self.next()
        if found != wanted:
            raise self.fault("%r should stand here, and not %r" % (wanted, found or "the end"))

    def word(self, what: str) -> str:
        found = self.next()
        if not re.fullmatch(r"[A-Za-z0-9_][A-Za-z0-9_./-]*", found):
            raise self.fault("%s should stand here, and not %r" % (what, found or "the end"))
        return found

    def fault(self, why: str) -> Malformed:
        return malformed(self.line, why)

    def rewrite(self) -> Object:
        found = self.expression()
        if self.here():
            raise self.fault("nothing more should stand behind the rule, and %r does" % self.here())
        return found

    def expression(self) -> Object:
        """Terms with one operator between them; `but not` stands between two."""
        parts, operator = [self.term()], ""
        while self.here() in OPERATORS:
            found = self.next()
            if found == "but":
                self.take("not")
            if operator and (found != operator or found == "but"):
                raise self.fault("%r beside %r needs parentheses" % (found, operator))
            operator = found
            parts.append(self.term())
        if not operator:
            return parts[0]
        if operator == "but":
            return made(self.line, difference=made(self.line, base=parts[0], subtract=parts[1]))
        return made(self.line, **{OPERATORS[operator]: made(self.line, child=listed(self.line, parts))})

    def term(self) -> Object:
        if self.here() == "[":
            self.directly()
            return made(self.line, this=made(self.line))
        if self.here() == "(":
            self.next()
            self.open += 1
            if self.open > limits.DEPTH:
                raise self.fault("parentheses deeper than %d" % limits.DEPTH)
            found = self.expression()
            self.take(")")
            self.open -= 1
            return found
        name = self.word("a relation, a list of types or a parenthesis")
        if self.here() != "from":
            return made(self.line, computedUserset=made(self.line, relation=name))
        self.next()
        tupleset = self.word("a relation")
        return made(self.line, tupleToUserset=made(self.line, tupleset=made(self.line, relation=tupleset),
                                                   computedUserset=made(self.line, relation=name)))

    def directly(self) -> None:
        """The list of types that a relation takes."""
        if self.users is not None:
            raise self.fault("a second list of types")
        self.users = listed(self.line, [])
        self.take("[")
        while True:
            user = made(self.line, type=self.word("a type"))
            if self.here() == ":":
                self.next()
                self.take("*")
                user["wildcard"] = made(self.line)
            elif self.here() == "#":
                self.next()
                user["relation"] = self.word("a relation")
            if self.here() == "with":
                self.next()
                user["condition"] = self.word("a condition")
            self.users.append(user)
            if self.here() != ",":
                break
            self.next()
        self.take("]")


class Reader:
    def __init__(self, text: str, first: int):
        self.lines = [Line(number, COMMENT.sub("", line).rstrip()) for number, line in enumerate(text.split("\n"), first)]
        self.at = 0
        self.model = Object(first)
        self.model.update(type_definitions=List(), conditions=Object(first))
        self.type: Optional[Object] = None
        self.faults: list[Malformed] = []

    def read(self) -> Object:
        while self.at < len(self.lines):
            line = self.lines[self.at]
            self.at += 1
            try:
                if line.text.strip():
                    self._line(line, line.text.split())
            except Malformed as fault:
                self.faults.append(fault)
        return self.model

    def _line(self, line: Line, words: list[str]) -> None:
        if words == ["model"]:
            return
        if words[0] == "schema" and len(words) == 2:
            self.model["schema_version"] = words[1]
            self.model.lines["schema_version"] = line.number
        elif words[0] == "type" and len(words) == 2:
            self.type = made(line.number, type=words[1], relations=Object(line.number),
                             metadata=made(line.number, relations=Object(line.number)))
            self.model["type_definitions"].append(self.type)
        elif words == ["relations"] and self.type is not None:
            return
        elif words[0] == "define" and self.type is not None:
            self._define(line)
        elif words[0] == "condition":
            self._condition(line)
        else:
            raise malformed(line.number, "this line is not read: %r" % line.text.strip()[:80])

    def _define(self, line: Line) -> None:
        """A rule goes on where a bracket is open."""
        name, colon, rule = line.text.strip()[len("define"):].partition(":")
        name = name.strip()
        if not colon or not re.fullmatch(r"[A-Za-z0-9_./-]+", name):
            raise malformed(line.number, "`define NAME: ..` should stand here")
        while self.at < len(self.lines) and sum(map(rule.count, "[(")) > sum(map(rule.count, "])")) \
                and not HEADS.match(self.lines[self.at].text):
            rule += " " + self.lines[self.at].text
            self.at += 1
        assert self.type is not None
        relations = self.type["relations"]
        if name in relations:
            raise malformed(line.number, "%s#%s stands twice" % (self.type["type"], name))
        definition = Definition(line.number, rule)
        relations[name] = definition.rewrite()
        relations.lines[name] = line.number
        if definition.users is not None:
            self.type["metadata"]["relations"][name] = made(line.number, directly_related_user_types=definition.users)

    def _condition(self, line: Line) -> None:
        """A condition has no form in a trace; its text goes up to the brace that closes it."""
        name = line.text.split()[1].split("(")[0] if len(line.text.split()) > 1 else "?"
        self.model["conditions"][name] = made(line.number)
        self.model["conditions"].lines[name] = line.number
        depth, is_open = 0, False
        self.at -= 1
        while self.at < len(self.lines) and (depth > 0 or not is_open):
            text = self.lines[self.at].text
            depth += text.count("{") - text.count("}")
            is_open = is_open or "{" in text
            self.at += 1


def is_dsl(text: str) -> bool:
    """Whether a text is a model in the language, and not JSON."""
    first = next((line for line in text.split("\n") if COMMENT.sub("", line).strip()), "")
    return re.match(r"\s*(model|module|schema|type)\b(?!\s*:)", first) is not None


def read_model(text: str, first: int, faults: list[Malformed]) -> Object:
    """The model of a text whose first line has a number; what is not read is added to the faults."""
    reader = Reader(text, first)
    model = reader.read()
    faults += reader.faults
    return model
