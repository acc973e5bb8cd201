"""The texts of a trace's lines."""
from typing import Any, Callable, Iterable, Iterator, Optional

from new_enemy_tools import texts
from new_enemy_tools.edges import Name
from new_enemy_tools.ids import Ids
from new_enemy_tools.importing.checks import NEWEST, Checks, Look, column
from new_enemy_tools.importing.declared import Declared
from new_enemy_tools.importing.times import in_utc, text_of_time
from new_enemy_tools.rules import Declaration, Relation, form_of
from new_enemy_tools.trace_lines import check_lines, check_start, commit_line, entry_line, look_text, mark_text, source_keys, value_line, within_quotes, with_mark

Demanded = Callable[[tuple[Any, ...], Optional[str], int, Optional[int]], Optional[int]]


def _text(time: Optional[int]) -> Optional[str]:
    return None if time is None else text_of_time(time)


class Shown:
    """Lines by the timestamps of revisions; the names of rules are put into the table before all lines."""

    def __init__(self, declared: Declared, ids: Ids, strata: dict[Name, int], times: dict[int, int], demanded: Demanded):
        """`demanded` says which revision a check demanded, by its goal, version, snapshot and token."""
        self.ids, self.strata, self.times, self.demanded = ids, strata, times, demanded
        first = {one.name: one for one in declared.rules.declarations if one.at is None}
        self._head = [self._namespace(first[name]) for name in declared.head]
        self.changes = {revision: list(map(self._namespace, changes)) for revision, changes in declared.changes.items()}
        self.mark = ""
        self.files: dict[str, str] = {}

    def begin(self) -> None:
        """The first line says which table is the trace's."""
        self.mark = mark_text(ids=self.ids.mark())

    def go_on(self, has_other_strata: bool) -> None:
        """The rules stand in the days before. The first line says that an import wrote it, whose table the days before say; and where strata are
        others by now, all of them."""
        self._head = []
        listed = [[self.ids.name("namespace", name), self.ids.name("relation", relation), stratum]
                  for (name, relation), stratum in self.strata.items()]
        self.mark = mark_text(ids={"rows": len(self.ids.rows)}, strata=listed if has_other_strata else None)

    def head(self) -> Iterator[str]:
        for namespace in self._head:
            yield self._marked(value_line(namespace))

    def _marked(self, line: str) -> str:
        """The first line, with what it says of the whole."""
        if self.mark:
            line, self.mark = with_mark(line.rstrip("\n").encode(), self.mark).decode() + "\n", ""
        return line

    def _file(self, file: str) -> str:
        """A file's name as lines have it, kept from line to line."""
        known = self.files.get(file)
        if known is None:
            known = self.files[file] = within_quotes(file)
        return known

    def commit(self, revision: int, shown: str, file: str, line: int, time: Optional[int], parts: list[Any]) -> Iterator[str]:
        source = source_keys(shown, self._file(file), line, _text(time))
        for at, (add, remove) in enumerate(parts, self.times[revision] - len(parts) + 1):
            yield self._marked(commit_line(at, add, remove, source))

    def change(self, revision: int, shown: str, file: str, line: int, time: Optional[int]) -> Iterator[str]:
        changes = self.changes.get(revision, ())
        told: dict[str, Any] = {"revision": shown, "from": "%s:%d" % (file, line),
                                **({} if time is None else {"time": text_of_time(time)})}
        for at, change in enumerate(changes, self.times[revision] - len(changes) + 1):
            yield self._marked(value_line({**change, "at": at, **told}))

    def checks(self, checks: Checks) -> list[str]:
        """The lines of many checks."""
        ids = self.ids
        starts = [check_start(ids.name("namespace", of)) for of, _ in checks.pairs]
        relations = [ids.name("relation", relation) for _, relation in checks.pairs]
        tables = {of: ids.numbers["user", of] for of in {of for of, _ in checks.users}}
        users = [str(tables[of][id_text]) for of, id_text in checks.users]
        looks = self._looks([(*look[:3], look[1], *look[4:]) if look[3] == NEWEST else look for look in checks.looks], checks.file)
        pairs = column(checks.pair_of)
        made = check_lines(map(starts.__getitem__, pairs), checks.objects.split("\n"), map(relations.__getitem__, pairs),
                           map(users.__getitem__, column(checks.user_of)), map(looks.__getitem__, column(checks.look_of)), column(checks.lines, "Q"),
                           map(in_utc, checks.times.split("\n")) if checks.times else None)
        if any(look[3] == NEWEST for look in checks.looks):
            self._demand_versions(checks, looks, made)
        return made

    def _demand_versions(self, checks: Checks, looks: list[str], made: list[str]) -> None:
        """Changes the lines of checks that asked for the newest state, and saw an older one than that of their version."""
        for place, (pair, thing, look) in enumerate(zip(column(checks.pair_of), checks.objects.split("\n"), column(checks.look_of))):
            reply, snapshot, shown, token, version, _ = checks.looks[look]
            demanded = self.demanded((checks.pairs[pair][0], thing), version, snapshot, token)
            if token == NEWEST and demanded != snapshot:
                text, = self._looks([(reply, snapshot, shown, demanded, version, None)], checks.file)
                made[place] = made[place].replace(looks[look], text, 1)

    def _looks(self, looks: Iterable[tuple[Any, ...]], file: str) -> list[str]:
        """What stands in the lines of checks from their users to the numbers of the lines that they come from."""
        times, source = self.times, self._file(file)
        return [look_text(times[snapshot], reply, None if token is None else texts.zookie_text(times[token]), version, shown, source)
                for reply, snapshot, shown, token, version, _ in looks]

    def entry(self, row: tuple[Any, ...], is_again: bool = False, text: str = "") -> str:
        """The line of an entry, by the fields of its row, and the text of its goal where that is known; and whether it is one that stands
        before, at another state."""
        kind, file, line, goal, reply, snapshot, shown, token, version = row[:9]
        ids = self.ids
        text = text or "%s:%s#%s@%d" % (ids.name("namespace", goal[0]), ids.object(goal[0], goal[1]), ids.name("relation", goal[2]),
                                        ids.number("user", goal[3], goal[4]))
        token = self.demanded(goal, version, snapshot, token)
        look = Look(reply, snapshot, shown, token, None if version is None else ids.version(version), None)
        part, named = row[15:17]
        made = entry_line(kind, text, self._looks([look], file)[0], line, _text(row[13]), part, named, is_again)
        return self._marked(made) if self.mark else made

    def _namespace(self, declaration: Declaration) -> dict[str, Any]:
        relations = []
        for relation in declaration.relations:
            stratum = self.strata[declaration.name, relation.name]
            told: dict[str, Any] = {"name": self.ids.name("relation", relation.name), **({"stratum": stratum} if stratum else {})}
            relations.append({**told, "rewrite": self._rewrite(relation.rewrite)})
        return {"kind": "namespace", "name": self.ids.name("namespace", declaration.name), "relations": relations}

    def declarations(self, declared: Declared) -> Iterator[Declaration]:
        """All rules by the names of the trace, in force from revisions on."""
        for one in declared.rules.declarations:
            made = self._namespace(one)
            yield Declaration(made["name"], one.at, [Relation(relation["name"], relation.get("stratum", 0), relation["rewrite"])
                                                     for relation in made["relations"]])

    def _rewrite(self, rewrite: dict[str, Any]) -> dict[str, Any]:
        """The same rule with the names of the trace."""
        form = form_of(rewrite)
        inner = rewrite[form]
        if form == "this":
            return {form: {}}
        if form == "computed":
            return {form: self.ids.name("relation", inner)}
        if form == "tuple_to":
            return {form: {key: self.ids.name("relation", inner[key]) for key in ("tupleset", "computed")}}
        if form == "exclusion":
            return {form: {key: self._rewrite(inner[key]) for key in ("base", "subtract")}}
        return {form: [self._rewrite(child) for child in inner]}
