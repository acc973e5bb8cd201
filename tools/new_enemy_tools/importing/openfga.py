"""OpenFGA: an authorization model, tuple changes as ReadChanges gives them, and checks of a recorder's log."""
import json
import re
from functools import lru_cache
from typing import Any, Iterator, Optional

from new_enemy_tools.importing import causes, located, openfga_dsl, printed
from new_enemy_tools.importing.block import When
from new_enemy_tools.importing.checks import Look
from new_enemy_tools.importing.events import EVERY, Event, Line, Relationship, RelationRule, Stamp, put_stamp
from new_enemy_tools.importing.feed import Moment, asked_of, moment_of, placed, shown_of
from new_enemy_tools.importing.keyed_hash import short
from new_enemy_tools.importing.line_shapes import (ID, LABEL, NULL, PART, REPLY, REST, STAMP, TEXT, TIME, USER_RELATION, WHOLE, Field, Form, Said, field,
                                              form, needed)
from new_enemy_tools.importing.located import List, line_at, line_of
from new_enemy_tools.importing.models import Given, said_by
from new_enemy_tools.importing.openfga_answers import STORED, answers_of, keys_of, relationship_of
from new_enemy_tools.importing.packed_blocks import Indexer
from new_enemy_tools.importing.pages import Page, refuse_missing
from new_enemy_tools.importing.reading import Bad, get, has_others, spelled
from new_enemy_tools.importing.refusals import Refusals
from new_enemy_tools.importing.service import (Answer, CheckedAt, Log, ServiceRules, Users, demand_of, nested, one_of, refuse_wild_tuplesets,
                                               text_or_none, tuplesets_of)
from new_enemy_tools.importing.spool import CALL, Lines
from new_enemy_tools.importing.times import nanoseconds
from new_enemy_tools.importing.write_calls import unshown, without_calls
from new_enemy_tools.importing.yaml_files import beside, is_yaml, read_yaml

SCHEMAS = ("1.1", "1.2")
# By names and numbers; what JSON of protobuf leaves out is the first.
OPERATIONS = {"TUPLE_OPERATION_WRITE": True, 0: True, "TUPLE_OPERATION_DELETE": False, 1: False}
# Whether the newest state is asked for: the names and the numbers that JSON of protobuf may have.
CONSISTENCY = {None: False, "UNSPECIFIED": False, 0: False, "MINIMIZE_LATENCY": False, 100: False, "HIGHER_CONSISTENCY": True, 200: True}
ASKS_FOR_NEWEST = {json.dumps(one).encode(): asks for one, asks in CONSISTENCY.items()}
# Where a Write says what becomes of tuples that are there already, or are not; and what it says where it makes all its changes or none.
PASSES_OVER = (("writes", "on_duplicate"), ("deletes", "on_missing"))
IN_FULL = (None, "", "error")
REWRITES = ("this", "computedUserset", "tupleToUserset", "union", "intersection", "difference")

MOMENT = b'(?:%s|"(%s+)")' % (WHOLE, TEXT)
USER = field(b'"(%s+):((?!\\*")%s+)"' % (PART, REST), "user_type", "user_id")
# also one that has a relation
RELATION = field(b'"(%s+):((?!\\*")%s+)(?:#(%s+))?"' % (PART, REST, REST), "user_type", "user_id", USER_RELATION)


def _goal(path: str, thing: bytes, user: Field = USER) -> dict[str, Field]:
    """The fields of a tuple key at a path."""
    return {path + "object": field(b'"(%s+):(%s)"' % (PART, thing), "type", "id"), path + "relation": field(b'"(%s+)"' % TEXT, "relation"),
            path + "user": user}


def _forms(request: str, response: str, time: dict[str, Field], *fixed: str, read: Optional[frozenset[str]] = None) -> tuple[Form, Form]:
    """Those of a check and of a content check, by what stands before the keys of the request and of the response."""
    asked = {**_goal(request + ".tuple_key.", ID), request + ".authorization_model_id": field(b'"(%s*)"' % TEXT, "model"),
             request + ".consistency": field(b'("[A-Z_]+"|[0-9]{1,3})', "consistency", is_steady=False), request + ".context": NULL,
             request + ".contextual_tuples": NULL, request + ".contextual_tuples.tuple_keys": NULL,
             request + ".contextual_tuples.tuple_keys.0": NULL, response + ".allowed": field(REPLY, "reply"),
             "snapshot": field(MOMENT, "place", "moment", is_steady=False), **time}
    token, version = field(MOMENT, "token_place", "token", is_steady=False), field(LABEL, "version")
    check, content = ({**asked, path + "token": token, path + "version": version} for path in ("", "content."))
    # Lines of another store are seen by a shape of their own.
    fixed, free = (response + ".resolution", request + ".store_id", *fixed), (request + ".trace",)
    return form(check, *fixed, free=free, read=read), form(content, *fixed, free=free, read=read)


@lru_cache(1 << 12)
def _moment(place: Optional[bytes], text: Optional[bytes]) -> Optional[tuple[Any, ...]]:
    """The moment that a place or a text gives, as a row has it; raises Bad."""
    given = int(place) if place else text and text.decode()
    return None if given is None else tuple(moment_of(given, "a moment"))


class Unmapped(Exception):
    """A part of a model or a tuple that a trace has no form for."""

    def __init__(self, line: int, reason: str, detail: str):
        super().__init__(detail)
        self.line, self.reason, self.detail = line, reason, detail


class ModelReader:
    def __init__(self, path: str, refusals: Refusals, line: int = 1):
        """`line` is that of a model which knows none of its own."""
        self.path, self.refusals, self.line = path, refusals, line
        self.conditional: dict[tuple[str, str], set[tuple[str, Optional[str]]]] = {}

    def read(self) -> Optional[ServiceRules]:
        try:
            model = self._model()
        except located.Malformed as fault:
            self.refusals.refuse(self.path, fault.line, str(fault))
            return None
        listed = get(model, "authorization_models")
        if not isinstance(listed, list) or not listed:
            return self.rules(model)
        made = [ModelReader(self.path, self.refusals, line_of(one, 1)).rules(one) for one in listed]
        known = [one for one in made if one is not None]
        return known[0]._replace(others=tuple(known[1:])) if known else None

    def _model(self) -> object:
        """The model of a file in JSON or in OpenFGA's own language, or of a store file; raises Malformed."""
        if not is_yaml(self.path):
            text = located.read_text(self.path)
            return self._language(text, 1) if openfga_dsl.is_dsl(text) else located.parse(text)
        store = read_yaml(self.path)
        if store.get("model"):
            return self._language(store["model"], line_of(store["model"], 1))
        if not store.get("model_file"):
            raise located.Malformed(1, "the store file has no `model` and no `model_file`")
        self.path = beside(self.path, store["model_file"])
        return self._model()

    def _language(self, text: str, first: int) -> object:
        faults: list[located.Malformed] = []
        model = openfga_dsl.read_model(text, first, faults)
        for fault in faults:
            self.refusals.refuse(self.path, fault.line, str(fault))
        return model

    def rules(self, model: Any) -> Optional[ServiceRules]:
        model = get(model, "authorization_model") or model
        if not isinstance(model, dict) or not isinstance(get(model, "type_definitions"), list):
            self.refusals.refuse(self.path, self.line, "no authorization model: it has no `type_definitions`")
            return None
        if not isinstance(get(model, "id"), (str, type(None))):
            self.refusals.refuse(self.path, line_at(model, "id", self.line), "the id of the model is no text")
            return None
        if get(model, "schema_version") not in SCHEMAS:
            self.refusals.refuse(self.path, line_at(model, "schema_version", self.line), "schema version %r: only %s are mapped"
                                 % (get(model, "schema_version"), " and ".join(SCHEMAS)))
        event = Event("rules", self.path, self.line)
        takes: dict[tuple[str, str], set[tuple[str, Optional[str]]]] = {}
        for given in get(model, "type_definitions"):
            self._type(given, event, takes)
        self._refuse_unknown_users(takes, event)
        refuse_wild_tuplesets(event, takes, self.refusals)
        return ServiceRules(event, get(model, "id") or None, takes, conditional=self.conditional)

    def _type(self, given: Any, event: Event, takes: dict[tuple[str, str], set[tuple[str, Optional[str]]]]) -> None:
        line = line_of(given, self.line)
        name = get(given, "type")
        relations = get(given, "relations")
        relations = {} if relations is None else relations
        if not isinstance(name, str) or not name or not isinstance(relations, dict):
            self.refusals.refuse(self.path, line, "a type definition has no `type`, or no object as its `relations`")
            return
        if name in event.namespaces:
            self.refusals.refuse(self.path, line, "type %s stands twice" % name)
            return
        event.namespaces[name] = []
        listed = get(get(given, "metadata"), "relations")
        for relation, rewrite in relations.items():
            where = "%s#%s" % (name, relation)
            line = line_at(relations, relation, line)
            if re.search(r"\s", relation):
                self.refusals.refuse(self.path, line, "the name of %s has a space, which the service takes in none" % where)
            try:
                mapped = self._rewrite(rewrite, relations, where, line)
            except Unmapped as fault:
                self.refusals.unmapped(self.path, fault.line, fault.reason, fault.detail)
                self.refusals.doubt(name, None, relation)
                mapped = {"this": {}}
            event.namespaces[name].append(RelationRule(relation, mapped, line))
            given_users = listed.get(relation) if isinstance(listed, dict) else None
            takes[name, relation], self.conditional[name, relation] = self._users(given_users if _is_direct(rewrite) else None, where, line)
            if _is_direct(rewrite) and not get(given_users, "directly_related_user_types"):
                self.refusals.refuse(self.path, line, "%s has `this` and no `directly_related_user_types`" % where)

    def _users(self, given: Any, where: str, line: int) -> tuple[Users, Users]:
        """The users that a relation takes, and those that it takes with a condition alone."""
        users: Users = set()
        conditional: Users = set()
        listed = get(given, "directly_related_user_types")
        for user in listed if isinstance(listed, list) else ():
            here = line_of(user, line)
            if not isinstance(get(user, "type"), str) or not isinstance(get(user, "relation"), (str, type(None))):
                self.refusals.refuse(self.path, here, "%s takes a user without a type" % where)
            else:
                relation = EVERY if get(user, "wildcard") is not None else get(user, "relation") or None
                (conditional if get(user, "condition") else users).add((get(user, "type"), relation))
        return users, conditional - users

    def _refuse_unknown_users(self, takes: dict[tuple[str, str], set[tuple[str, Optional[str]]]], event: Event) -> None:
        known = {(name, relation.name) for name, listed in event.namespaces.items() for relation in listed}
        for (name, relation), users in takes.items():
            line = next(one.line for one in event.namespaces[name] if one.name == relation)
            for of, of_relation in sorted(users, key=str):
                if of not in event.namespaces or (of_relation not in (None, EVERY) and (of, of_relation) not in known):
                    self.refusals.refuse(self.path, line, "%s#%s takes %s, which the model does not define"
                                         % (name, relation, "%s#%s" % (of, of_relation) if of_relation else of))

    def _rewrite(self, given: Any, relations: dict[str, Any], where: str, line: int) -> dict[str, Any]:
        line = line_of(given, line)
        forms = [form for form in REWRITES if form in given or spelled(form) in given] if isinstance(given, dict) else []
        if len(forms) != 1 or len(given) != 1:
            raise Unmapped(line, "rewrite without a form", "%s has %s" % (where, _keys(given)))
        form, inner = forms[0], get(given, forms[0])
        if form == "this":
            return {"this": {}}
        if form == "computedUserset":
            return {"computed": self._relation(inner, relations, where, line)}
        if form == "tupleToUserset":
            tupleset = self._relation(get(inner, "tupleset"), relations, where, line)
            if not _is_plain(relations[tupleset]):
                raise Unmapped(line, "tupleset that is not direct", "%s reads %s" % (where, tupleset))
            computed = get(get(inner, "computedUserset"), "relation")
            if not isinstance(computed, str) or not computed:
                raise Unmapped(line, "rewrite without a form", "%s has no relation behind its tupleset" % where)
            return {"tuple_to": {"tupleset": tupleset, "computed": computed}}
        if form == "difference":
            return {"exclusion": {side: self._rewrite(get(inner, side), relations, where, line)
                                  for side in ("base", "subtract")}}
        children = get(inner, "child")
        if not isinstance(children, list) or not children:
            raise Unmapped(line, "rewrite without a form", "the %s of %s has no children" % (form, where))
        return nested(form, [self._rewrite(child, relations, where, line) for child in children])

    @staticmethod
    def _relation(given: object, relations: dict[str, Any], where: str, line: int) -> str:
        name = get(given, "relation")
        if not isinstance(name, str) or name not in relations or get(given, "object"):
            raise Unmapped(line_of(given, line), "rewrite without a form",
                           "%s reads %r, which its type does not define" % (where, name))
        return name


def _keys(value: object) -> str:
    return ", ".join(value) if isinstance(value, dict) and value else "none of the six forms"


def _is_plain(rewrite: object) -> bool:
    return isinstance(rewrite, dict) and list(rewrite) == ["this"]


def _is_direct(rewrite: object) -> bool:
    """Whether `this` stands anywhere in a rewrite."""
    if isinstance(rewrite, dict):
        return "this" in rewrite or any(_is_direct(inner) for inner in rewrite.values())
    return isinstance(rewrite, list) and any(_is_direct(inner) for inner in rewrite)


class OpenFgaLog(Log):
    NO_LINE = "neither changes of ReadChanges nor a check with its `request`"
    DECIDES = ("allowed", "result", "objects", "users")
    OTHERS = {"Write": ("request.writes", "request.deletes"), "Expand": ("response.tree",), "Read": ("response.tuples",),
              "ReadAuthorizationModel": ("response.authorization_model",),
              "ReadAuthorizationModels": ("response.authorization_models",), "ReadAssertions": ("response.assertions",),
              "WriteAssertions": ("request.assertions",), "GetStore": (), "ListStores": ("response.stores",), "CreateStore": (),
              "UpdateStore": (), "DeleteStore": (), "Health": (),
              # one that shows nothing, as JSON of protobuf may leave an empty list out
              "ReadChanges": ("response.continuation_token",)}
    DECISIONS = frozenset(("Check", "BatchCheck", "ListObjects", "StreamedListObjects", "ListUsers"))
    WRITES = ("Write",)
    CALL_KNOWN = "other call (Write)"
    HAS_PLACES = True
    PARTIAL = ("type",)
    GIVE_CHANGES = ("give the changes as ReadChanges answers them, or each line of Write its `time`, of which none may pass over what is there "
                    "already")
    KEYS = Log.KEYS | {"snapshot", "snapshot_between", "token"}
    RULES = (b'"type_definitions"', b'"typeDefinitions"', b'"authorization_model"', b'"authorizationModel"', b'"authorization_models"',
             b'"authorizationModels"')
    CHECK, CONTENT_CHECK = _forms("request", "response", {"time": field(TIME, "time")})
    LOGGED = (_forms("raw_request", "raw_response", {
        "timestamp": field(STAMP, "time", "epoch", is_steady=False), printed.MODEL: field(b'"(%s*)"' % TEXT, "taken")},
                     "level", "msg", "grpc_service", "grpc_method", "grpc_code", read=KEYS | printed.READ),)
    WRITE = form({"%s%s" % (page, path): one for page in ("", "changes.*.") for path, one in {
        **_goal("tuple_key.", REST + b"+", RELATION), "tuple_key.condition": NULL, "timestamp": field(b'"(%s+)"' % TEXT, "timestamp")}.items()}
        | {"time": field(TIME, "time")}, "operation", "changes.*.operation", free=("continuation_token",))
    BASE = "place in the changes feed or time of RFC 3339"

    def __init__(self, rules: ServiceRules, base_at: Optional[Moment], refusals: Refusals):
        super().__init__(rules._replace(takes={name: set(users) for name, users in rules.takes.items()}), base_at, refusals)
        refusals.denies_circles = True
        # the models of the log, each once; and what was refused of those that were read and never in force, which matters where they are used
        self.models = [rules, *rules.others]
        self.apart: dict[int, Refusals] = {}
        # of the pages of the base state where the last one stands that has another behind it, while none was the last
        self.goes_on: Optional[tuple[str, int]] = None
        self.is_whole = False

    @staticmethod
    def read_base(text: str) -> Optional[Moment]:
        try:
            return moment_of(int(text) if text.isascii() and text.isdigit() else text, "--base-at")
        except Bad:
            return None

    def base_number(self) -> Optional[int]:
        return None if self.base_at is None else 0

    def _line(self, value: Any, stamp: Stamp, path: str, line: int) -> Iterator[Line]:
        """A server may have several stores, and a trace is of one."""
        store = get(get(value, "request"), "store_id")
        for one in super()._line(value, stamp, path, line):
            if isinstance(store, str) and store:
                self.refusals.stores.setdefault(store, (path, line))
            yield one

    def _refuse_stores(self) -> None:
        (first, place), *others = self.refusals.stores.items() or [("", ("", 0))]
        for store, (path, line) in others:
            self.refusals.refuse(path, line, "this call is of the store %s, and that of %s:%d of the store %s: give the lines of one store"
                                 % (store[:80], *place, first[:80]))

    def placed(self, lines: Lines, skew: Optional[int]) -> Lines:
        self._refuse_stores()
        if self.goes_on is not None and not self.is_whole:
            self.refusals.refuse(*self.goes_on, "the base state goes on behind this page, which has a `continuation_token`: give all pages of Read")
        refuse_missing(lines, skew is not None, self.base_at is not None, self.refusals)
        self.refuse_unseen(lines)
        ends, first = None, len(self.rules.others) + 1
        if lines.facts.has_calls and any(True for _ in lines.writes()):
            # Of a call the service does not say which changes are its; where the log has any, it has all of what it shows.
            ends = unshown(lines, self.base_at is not None, self.refusals)
            lines, count = without_calls(lines, Indexer(tuplesets_of(self.rules.event), self.HAS_PLACES))
            self.refusals.passed[self.CALL_KNOWN] += count
        else:
            lines = self.with_calls(lines, lambda row: None)
        base = self.base_at or Moment(None, None, "the beginning")
        return placed(lines, base, Given(self.models, first, self.apart), skew, self.refusals, ends)

    def may_store(self, given: Relationship) -> bool:
        """Which tuples some model takes is known when all models are."""
        return True

    def base(self, path: str) -> Iterator[Event]:
        """Tuples as Read gives them, pages with `tuples` or one tuple a line; or those of a store file."""
        for line, value in self._store(path) if is_yaml(path) else located.values(path, self.refusals):
            page = value if isinstance(value, list) else get(value, "tuples")
            if isinstance(get(value, "tuples"), list):
                self.goes_on = (path, line) if get(value, "continuation_token") else self.goes_on
                self.is_whole |= not get(value, "continuation_token")
            for one in page if isinstance(page, list) else [value]:
                event = Event("write", path, line_of(one, line), 0, self.base_at.shown, base=True)
                if self._put_key(event, one if get(one, "key") is None else get(one, "key"), True):
                    yield event

    def _store(self, path: str) -> Iterator[tuple[int, object]]:
        """The tuples of a store file. Its tests say what is expected, and are no record of replies."""
        try:
            store = read_yaml(path)
        except located.Malformed as fault:
            self.refusals.refuse(path, fault.line, str(fault))
            return
        for key in "tuple_file", "tuple_files":
            if key in store:
                self.refusals.refuse(path, store.lines[key], "tuples in files of their own are not read; give them with --base")
        for _ in store.get("tests") or ():
            self.refusals.pass_over("test of a store file")
        yield 1, store.get("tuples") or List()

    def is_write(self, value: object) -> bool:
        return isinstance(get(value, "changes"), list) or get(value, "operation") is not None or (
            get(value, "tuple_key") is not None and get(value, "timestamp") is not None)

    def refuse_partial(self, request: object, changes: object, stamp: Stamp, path: str, line: int) -> None:
        """Of a page that begins at a time it is known what was before where the base state has that; a page behind another one begins there."""
        super().refuse_partial(request, changes, stamp, path, line)
        since, behind, ends = get(request, "start_time"), get(request, "continuation_token") or "", get(changes, "continuation_token") or ""
        if not isinstance(behind, str) or not isinstance(ends, str):
            raise Bad("a `continuation_token` is no text")
        if request is not None and isinstance(get(changes, "changes"), list):
            found = short(behind) if behind else None, short(ends), len(get(changes, "changes"))
            self.refusals.pages.append(Page(*found, path, line, stamp.sequence))
        if not since or behind:
            return
        begins, base = nanoseconds(since), self.base_at and self.base_at.time
        if begins is None or base is None or begins > base:
            raise Bad("the request of these changes has a `start_time`, and the log does not have those before: give all changes, or a base state "
                      "of that time")

    def writes(self, value: dict[str, Any], stamp: Stamp, path: str, line: int) -> Iterator[Event]:
        page = get(value, "changes")
        for place, change in enumerate(page if isinstance(page, list) else [value]):
            here = line_of(change, line)
            shown = get(change, "timestamp")
            revision = nanoseconds(shown)
            live = one_of(OPERATIONS, 0 if get(change, "operation") is None else get(change, "operation"))
            if revision is None or live is None:
                self.refusals.refuse(path, here, "a change has no `timestamp` of RFC 3339" if revision is None
                                     else "unknown operation %r" % (get(change, "operation"),))
                continue
            event = put_stamp(Event("write", path, here, revision, shown), stamp, place)
            event.time = revision if event.time is None else event.time
            self._put_key(event, get(change, "tuple_key"), live)
            yield event

    def calls(self, value: dict[str, Any], stamp: Stamp, path: str, line: int) -> Iterator[Event]:
        """The tuples of a Write at the time of its line, each a change of its own: the deletes first, as the service's changes have them."""
        request = get(value, "request")
        sides = [("deletes", False), ("writes", True)]
        keys = [(key, live) for side, live in sides for key in keys_of(get(request, side))]
        if not keys or any(get(get(request, side), key) not in IN_FULL for side, key in PASSES_OVER):
            return
        if stamp.time is None:
            self.refusals.unseen.setdefault("Write", (path, line))
        for place, (key, live) in enumerate(keys):
            event = put_stamp(Event(CALL, path, line_of(key, line), stamp.time, get(value, "time")), stamp, place)
            self._put_key(event, key, live)
            yield event

    def _put_key(self, event: Event, key: object, live: bool) -> bool:
        try:
            given = relationship_of(key)
        except Bad as fault:
            self.refusals.refuse(event.file, event.line, str(fault))
            return False
        # A tuple that is left out is one of the feed all the same, so that each place and each page that was read twice is known.
        unmapped = causes.TUPLE_FIELD if has_others(key, STORED) else None
        unmapped = "condition on a tuple" if get(key, "condition") else unmapped
        event.asked = (unmapped,) if live and unmapped else None
        return self.put(event, given, live, None)

    def when_of(self, said: Said) -> Optional[When]:
        shown = needed(said, "timestamp").decode()
        revision = nanoseconds(shown)
        return None if revision is None else When(revision, shown, revision)

    def look_of(self, said: Said) -> Optional[Look]:
        version, model = said.get("version"), said.get("model") or said.get("taken")
        try:
            snapshot, token = _moment(said["place"], said["moment"]), _moment(said.get("token_place"), said.get("token"))
        except Bad:
            return None
        if snapshot is None:
            return None
        asks_for_newest, label = ASKS_FOR_NEWEST.get(said.get("consistency") or b"null"), None if version is None else version.decode()
        if asks_for_newest is None:
            return None
        return Look(said.get("reply") == b"true", None, snapshot[2], demand_of(asks_for_newest, label, token), label,
                    ((snapshot,), token, model.decode() if model else None))

    def moment(self, value: dict[str, Any], content: Optional[dict[str, Any]]) -> CheckedAt:
        holder = value if content is None else content
        asked = asked_of(value, get(holder, "token"), get(get(value, "request"), "authorization_model_id"))
        version, demanded = text_or_none(get(holder, "version"), "version"), get(get(value, "request"), "consistency")
        asks_for_newest = CONSISTENCY[None] if demanded is None else one_of(CONSISTENCY, demanded)
        if asks_for_newest is None:
            raise Bad("unknown consistency %r" % (demanded,))
        return CheckedAt(None, shown_of(asked), demand_of(content is None and asks_for_newest, version, asked.token), version, asked)

    def answers(self, value: dict[str, Any]) -> Iterator[Answer]:
        return answers_of(get(value, "request"), get(value, "response"), self.refusals)

    def new_rules(self, value: object) -> object:
        request = get(value, "request")
        return request if get(request, "type_definitions") is not None else get(value, "authorization_model")

    def change(self, model: object, value: dict[str, Any], stamp: Stamp, path: str, line: int) -> Iterator[Event]:
        """A model that is in force from here on: that of WriteAuthorizationModel, or one that a recorder names."""
        if get(value, "request") is not None and get(value, "response") is None:
            raise Bad("the line of this WriteAuthorizationModel has no response, so that it is not known whether the model came into force")
        rules = ModelReader(path, self.refusals, line).rules(model)
        model_id = get(get(value, "response"), "authorization_model_id")
        if not isinstance(model_id, (str, type(None))):
            raise Bad("the id of the model is no text")
        if rules:
            model_id = model_id or rules.id
            model = self._model(rules._replace(id=model_id), path, line)
            self.take(rules)
            event = put_stamp(Event("rules", path, line, 0, "model %s" % model_id, asked=(model,)), stamp)
            yield event

    def _other_call(self, value: object, path: str, line: int) -> Optional[str]:
        """Models that were read are known by their ids; when they were in force is not."""
        response = get(value, "response")
        listed = get(response, "authorization_models")
        for model in listed if isinstance(listed, list) else [get(response, "authorization_model")]:
            known = Refusals(self.refusals.is_strict)
            rules = ModelReader(path, known, line).rules(model) if model is not None else None
            if rules is not None and rules.id is not None and not known.refused:
                self.take(rules)
                self.apart.setdefault(self._model(rules, path, line), known)
        return super()._other_call(value, path, line)

    def _model(self, rules: ServiceRules, path: str, line: int) -> int:
        """The number of a model; one that the log has already is told by its id."""
        for number, known in enumerate(self.models):
            if rules.id is not None and known.id == rules.id:
                if said_by(known) != said_by(rules):
                    raise Bad("model %s stands at %s:%d with other rules" % (rules.id, known.event.file, known.event.line))
                return number
        rules.event.file, rules.event.line = path, line
        self.models.append(rules)
        return len(self.models) - 1
