"""The text of a SpiceDB schema: definitions with relations and permissions."""
import re
from typing import Any, NamedTuple, Optional

from new_enemy_tools import limits
from new_enemy_tools.importing import located
from new_enemy_tools.importing.events import EVERY, Event, RelationRule
from new_enemy_tools.importing.refusals import Refusals
from new_enemy_tools.importing.service import ServiceRules, nested, refuse_wild_tuplesets
from new_enemy_tools.importing.yaml_files import beside, is_yaml, read_yaml
from new_enemy_tools.rules import children_of, form_of

TOKEN = re.compile(r"(?P<space>[ \t\r\n]+|//[^\n]*|/\*.*?\*/)|(?P<word>[A-Za-z_][A-Za-z0-9_]*(?:/[A-Za-z_][A-Za-z0-9_]*)*)"
                   r"|(?P<sign>->|\.\.\.|[{}()=|#:+&\-*;,.])|(?P<other>\"(?:[^\"\\\n]|\\.)*\"|'(?:[^'\\\n]|\\.)*'|.)", re.S)
STARTS = ("relation", "permission", "definition", "caveat", "use", "partial", "import", "}")
# What changes no answer, or is seen where it stands; and what puts texts together.
USES = ("expiration", "self", "typechecking")
PARTS = ("import", "partial")
OPERATORS = {"+": "union", "&": "intersection", "-": "exclusion"}
BINDING = ("-", "&", "+")


class Token(NamedTuple):
    text: str
    line: int
    is_word: bool


class Syntax(Exception):
    def __init__(self, token: Token, wanted: str):
        super().__init__("%s should stand here, and not %r" % (wanted, token.text))
        self.line = token.line


class Unmapped(Exception):
    def __init__(self, line: int, reason: str):
        super().__init__(reason)
        self.line = line


def tokens(text: str, line: int, is_file: bool) -> list[Token]:
    """With their lines, from one on; all on that line where the text is no file of its own."""
    found = []
    for match in TOKEN.finditer(text):
        if match.lastgroup != "space":
            found.append(Token(match[0], line, match.lastgroup == "word"))
        line += match[0].count("\n") * is_file
    return found + [Token("", line, False)]


def shown(rewrite: dict[str, Any]) -> str:
    """An expression with all its parentheses."""
    form = form_of(rewrite)
    if form == "this":
        return "nil"
    if form == "computed":
        return str(rewrite[form])
    if form == "tuple_to":
        return "%s->%s" % (rewrite[form]["tupleset"], rewrite[form]["computed"])
    sign = next(sign for sign, name in OPERATORS.items() if name == form)
    children = children_of(rewrite)
    return (" %s " % sign).join(shown(child) if form_of(child) in ("this", "computed", "tuple_to") else "(%s)" % shown(child)
                                for child in children)


class Parser:
    def __init__(self, text: str, path: str, refusals: Refusals, first: int = 1, is_file: bool = True):
        self.tokens, self.at = tokens(text, first, is_file), 0
        self.path, self.refusals = path, refusals
        self.open = 0
        self.signs: set[str] = set()
        self.is_mixed = False
        self.rules = Event("rules", path, 1)
        self.takes: dict[tuple[str, str], set[tuple[str, Optional[str]]]] = {}
        self.arrows: list[tuple[str, str, str, int]] = []
        self.reads: list[tuple[str, str, str, int]] = []
        self.conditional: dict[tuple[str, str], set[tuple[str, Optional[str]]]] = {}

    # Tokens

    def here(self) -> Token:
        return self.tokens[self.at]

    def next(self) -> Token:
        token = self.tokens[self.at]
        self.at += token.text != ""
        return token

    def take(self, text: str) -> Token:
        if self.here().text != text:
            raise Syntax(self.here(), repr(text))
        return self.next()

    def word(self, what: str) -> Token:
        if not self.here().is_word:
            raise Syntax(self.here(), what)
        return self.next()

    def skip_to_start(self) -> None:
        while self.here().text and self.here().text not in STARTS:
            self.next()

    def skip_block(self) -> None:
        """Over a caveat, up to the end of its body."""
        depth = 0
        while self.here().text:
            sign = self.next().text
            depth += (sign == "{") - (sign == "}")
            if sign == "}" and depth <= 0:
                return

    # The schema

    def schema(self) -> ServiceRules:
        while self.here().text:
            token = self.here()
            try:
                if token.text == "definition":
                    self.definition()
                elif token.text == "caveat":
                    self.skip_block()
                elif token.text in PARTS:
                    self.refusals.refuse(self.path, token.line, "`%s`: give the schema as one text, as `zed schema compile` makes it" % token.text)
                    if token.text == "partial":
                        self.skip_block()
                    else:
                        self.next()
                        self.next()
                elif token.text == "use":
                    self.next()
                    name = self.next()
                    if name.text not in USES:
                        self.refusals.refuse(self.path, token.line, "use %s: only %s are known" % (name.text, ", ".join(USES)))
                elif token.text == ";":
                    self.next()
                else:
                    raise Syntax(token, "a definition")
            except Syntax as fault:
                self.refusals.refuse(self.path, fault.line, str(fault))
                self.next()
                self.skip_to_start()
        self._refuse_unknown()
        refuse_wild_tuplesets(self.rules, self.takes, self.refusals)
        return ServiceRules(self.rules, None, self.takes, conditional={name: users - self.takes[name] for name, users in self.conditional.items()})

    def definition(self) -> None:
        self.take("definition")
        name = self.word("the name of a definition")
        if name.text in self.rules.namespaces:
            self.refusals.refuse(self.path, name.line, "definition %s stands twice" % name.text)
        rules: list[RelationRule] = []
        self.rules.namespaces[name.text] = rules
        self.take("{")
        while self.here().text != "}":
            token = self.next()
            try:
                if token.text == "relation":
                    rules.append(self.relation(name.text))
                elif token.text == "permission":
                    rules.append(self.permission(name.text))
                elif token.text != ";":
                    raise Syntax(token, "a relation or a permission")
            except Syntax as fault:
                self.refusals.refuse(self.path, fault.line, str(fault))
                self.skip_to_start()
                if self.here().text not in ("relation", "permission", "}"):
                    return
        self.take("}")
        names = [rule.name for rule in rules]
        for place, rule in enumerate(rules):
            if rule.name in names[:place]:
                self.refusals.refuse(self.path, rule.line, "%s#%s stands twice" % (name.text, rule.name))

    def relation(self, of: str) -> RelationRule:
        name = self.word("the name of a relation")
        self.take(":")
        for users in self.takes, self.conditional:
            users[of, name.text] = set()
        while True:
            user, is_conditional = self.user()
            (self.conditional if is_conditional else self.takes)[of, name.text].add(user)
            if self.here().text != "|":
                return RelationRule(name.text, {"this": {}}, name.line)
            self.next()

    def user(self) -> tuple[tuple[str, Optional[str]], bool]:
        """A type that a relation takes, and whether with a caveat or an expiration."""
        name, relation = self.word("a type"), None
        if self.here().text == "#":
            self.next()
            token = self.next()
            if not token.is_word and token.text != "...":
                raise Syntax(token, "a relation")
            relation = None if token.text == "..." else token.text
        elif self.here().text == ":":
            self.next()
            self.take("*")
            relation = EVERY
        is_conditional = self.here().text == "with"
        while self.here().text in ("with", "and") and is_conditional:
            self.next()
            self.word("a caveat or expiration")
        return (name.text, relation), is_conditional

    def permission(self, of: str) -> RelationRule:
        name = self.word("the name of a permission")
        if self.here().text == ":":
            # `use typechecking` lets a permission say which types it has, which changes no answer.
            while self.here().text not in ("=", "}", ""):
                self.next()
        self.take("=")
        self.open = 0
        begins, self.is_mixed = self.at, False
        try:
            rewrite = self.side_by_side(of, name.text)
            if self.is_mixed:
                self._note_reading(name, self.tokens[begins:self.at], rewrite)
        except Unmapped as fault:
            self.refusals.unmapped(self.path, fault.line, str(fault), "%s#%s" % (of, name.text))
            self.refusals.doubt(of, None, name.text)
            self.skip_to_start()
            rewrite = {"this": {}}
        return RelationRule(name.text, rewrite, name.line)

    def _note_reading(self, name: Token, given: list[Token], rewrite: dict[str, Any]) -> None:
        self.refusals.note("binding", "%s:%d: `%s` is read as `%s`: union binds closest, then intersection, then exclusion"
                           % (self.path, name.line, " ".join(token.text for token in given), shown(rewrite)))

    def side_by_side(self, of: str, name: str) -> dict[str, Any]:
        """What stands in one pair of parentheses, or in none."""
        outer, self.signs = self.signs, set()
        made = self.expression(of, name)
        self.is_mixed |= len(self.signs) > 1
        self.signs = outer
        return made

    def expression(self, of: str, name: str, level: int = 0) -> dict[str, Any]:
        """Operators bind as SpiceDB has them: exclusion loosest, then intersection, and union closest."""
        if level == len(BINDING):
            return self.term(of, name)
        sign = BINDING[level]
        parts = [self.expression(of, name, level + 1)]
        while self.here().text == sign:
            self.next()
            self.signs.add(sign)
            parts.append(self.expression(of, name, level + 1))
        if len(parts) == 1:
            return parts[0]
        if sign != "-":
            return nested(OPERATORS[sign], parts)
        subtracted = parts[1] if len(parts) == 2 else nested("union", parts[1:])
        return {"exclusion": {"base": parts[0], "subtract": subtracted}}

    def term(self, of: str, name: str) -> dict[str, Any]:
        if self.here().text == "(":
            self.next()
            self.open += 1
            if self.open > limits.DEPTH:
                raise Unmapped(self.here().line, "parentheses deeper than %d" % limits.DEPTH)
            made = self.side_by_side(of, name)
            self.take(")")
            self.open -= 1
            return made
        word = self.word("a relation, a permission or a parenthesis")
        if word.text == "self":
            raise Unmapped(word.line, word.text)
        if word.text == "nil":
            # No relationship names a permission, so what is stored for one is nothing.
            return {"this": {}}
        if self.here().text == "->":
            self.next()
            return self.arrow(of, name, word, self.word("a relation or permission"))
        if self.here().text == ".":
            self.next()
            call = self.word("any or all")
            if call.text != "any":
                raise Unmapped(call.line, ".%s()" % call.text)
            self.take("(")
            target = self.word("a relation or permission")
            self.take(")")
            return self.arrow(of, name, word, target)
        self.reads.append((of, name, word.text, word.line))
        return {"computed": word.text}

    def arrow(self, of: str, name: str, tupleset: Token, target: Token) -> dict[str, Any]:
        if self.here().text in ("->", "."):
            raise Unmapped(self.here().line, "arrow behind an arrow")
        self.reads.append((of, name, tupleset.text, tupleset.line))
        self.arrows.append((of, name, tupleset.text, tupleset.line))
        return {"tuple_to": {"tupleset": tupleset.text, "computed": target.text}}

    def _refuse_unknown(self) -> None:
        """Names that the schema does not define, and arrows that start at a permission."""
        known = {(of, rule.name): rule for of, rules in self.rules.namespaces.items() for rule in rules}
        for of, name, read, line in self.reads:
            if (of, read) not in known:
                self.refusals.refuse(self.path, line, "%s#%s reads %s, which %s does not define" % (of, name, read, of))
        for of, name, read, line in self.arrows:
            if (of, read) in known and (of, read) not in self.takes:
                self.refusals.refuse(self.path, line, "%s#%s has an arrow from %s, which is no relation" % (of, name, read))
        for (of, name), users in self.takes.items():
            for user, relation in sorted(users, key=str):
                if user not in self.rules.namespaces or (relation not in (None, EVERY) and (user, relation) not in known):
                    self.refusals.refuse(self.path, known[of, name].line, "%s#%s takes %s, which the schema does not define"
                                         % (of, name, "%s#%s" % (user, relation) if relation else user))


def read_schema(path: str, refusals: Refusals) -> Optional[ServiceRules]:
    """The rules of a schema, or of a validation file that has one."""
    try:
        if not is_yaml(path):
            return Parser(located.read_text(path), path, refusals).schema()
        given = read_yaml(path)
        if given.get("schema"):
            return Parser(given["schema"], path, refusals, located.line_of(given["schema"], 1)).schema()
        if not given.get("schemaFile"):
            raise located.Malformed(1, "the validation file has no `schema` and no `schemaFile`")
        return read_schema(beside(path, given["schemaFile"]), refusals)
    except located.Malformed as fault:
        refusals.refuse(path, fault.line, str(fault))
        return None
