"""SpiceDB: relationships as text, the JSON of the watch stream, and checks of a recorder's log."""
import re
from dataclasses import replace
from itertools import chain, groupby
from operator import itemgetter
from typing import Any, Iterator, Optional

from new_enemy_tools.importing import line_shapes, located, printed, visibility
from new_enemy_tools.importing.block import When
from new_enemy_tools.importing.checks import Look, Row
from new_enemy_tools.importing.events import EVERY, Event, Line, Relationship, Stamp, put_stamp
from new_enemy_tools.importing.line_shapes import GOAL, ID, LABEL, NULL, TEXT, TIME, USER_RELATION, Field, Form, Said, field, form, needed
from new_enemy_tools.importing.located import line_of
from new_enemy_tools.importing.reading import Bad, get, has_others
from new_enemy_tools.importing.refusals import Refusals
from new_enemy_tools.importing.service import Answer, CheckedAt, Log, ServiceRules, demand_of, one_of, text_or_none
from new_enemy_tools.importing.spicedb_answers import answers_of, relationship_of, revision_at, revision_in, unmapped_of
from new_enemy_tools.importing.spicedb_schema import Parser
from new_enemy_tools.importing.spool import CALL, Lines, plain
from new_enemy_tools.importing.yaml_files import is_yaml, read_yaml
from new_enemy_tools.importing.zedtokens import Older, Revision, read_revision

RELATIONSHIP = re.compile(r"(?P<type>[a-z0-9_/]+):(?P<id>[A-Za-z0-9/_|\-=+]+)#(?P<relation>[a-z0-9_]+)"
                          r"@(?P<user_type>[a-z0-9_/]+):(?P<user_id>[A-Za-z0-9/_|\-=+]+|\*)"
                          r"(?:#(?P<user_relation>[a-z0-9_]+|\.\.\.))?"
                          r"(?P<traits>(?:\[.*\])*)")
# as `zed relationship read` prints it
READ = re.compile(RELATIONSHIP.pattern.replace("#(?P<relation>", " +(?P<relation>").replace("@(?P<user_type>", " +(?P<user_type>")
                  .replace("(?P<traits>", " *(?P<traits>"))
WORD = rb"[a-z0-9_]"
LATE_START = ("the watch stream begins behind all that the log has before it, by the `optionalStartCursor` of its request, and what was written "
              "between is not there: give the whole stream, or a base state of where it begins")
# By names and numbers.
CONSISTENCY = ("fullyConsistent", "minimizeLatency", "atLeastAsFresh", "atExactSnapshot")
OPERATIONS = {"OPERATION_CREATE": True, 1: True, "OPERATION_TOUCH": True, 2: True, "OPERATION_DELETE": False, 3: False}


def _goal(path: str, relation: str, thing: bytes) -> dict[str, Field]:
    """The fields of a tuple whose parts stand at paths that begin so."""
    patterns = {"resource.object_type": b"%s+" % TEXT, "resource.object_id": thing, relation: b"%s+" % TEXT,
                "subject.object.object_type": b"%s+" % TEXT, "subject.object.object_id": b'(?!\\*")%s+' % TEXT}
    return {path + key: field(b'"(%s)"' % pattern, name) for (key, pattern), name in zip(patterns.items(), GOAL)}


def _forms(path: str, *fixed: str, read: Optional[frozenset[str]] = None) -> tuple[Form, Form]:
    """Those of a check and of a content check, by what stands before `request` and `response`."""
    asked = {**_goal(path + "request.", "permission", ID), path + "request.context": NULL, path + "response.partial_caveat_info": NULL,
             path + "response.debug_trace": NULL, path + "response.optional_expires_at": NULL,
             path + "response.checked_at.token": field(b'"(%s+)"' % TEXT, "snapshot"),
             path + "request.consistency.fully_consistent": field(b"(true)", "newest"),
             path + "response.permissionship": field(b'"PERMISSIONSHIP_(HAS|NO)_PERMISSION"', "reply"), "time": field(TIME, "time")}
    token, version = field(b'"(%s+)"' % TEXT, "token"), field(LABEL, "version")
    paths = (path + "request.consistency.at_least_as_fresh.token", "version"), ("content.token", "content.version")
    fixed = (*(path + key for key in ("request.consistency.minimize_latency", "request.subject.optional_relation", "request.with_tracing")), *fixed)
    check, content = (form({**asked, at: token, label: version}, *fixed, read=read) for at, label in paths)
    return check, content


ASKED, TOLD = "asked.grpc-request-content.", "told.grpc-response-content."
# The keys of a line of the log of requests and responses that are read.
PRINTED = printed.ADDED | Log.KEYS | {"grpc-request-content", "grpc-response-content", "request_i_d", "request_id", "message",
                                      "grpc-service", "grpc-method", "grpc-method_type", "grpc-code"}
# Why a response of Watch may have no updates.
WITHOUT_UPDATES = ("isCheckpoint", "schemaUpdated", "optionalTransactionMetadata")
# A request and its response have one id.
JOINED = {"asked.request_i_d": line_shapes.CALL, "told.request_i_d": line_shapes.SAME_CALL, "told.time": field(TIME, "time")}
STEADY = tuple("%s.%s" % (part, key) for part in ("asked", "told")
               for key in ("grpc-service", "grpc-method", "grpc-method_type", "message"))


def _logged(fields: dict[str, Field], *fixed: str) -> Form:
    """That of a request and its response, as the server logs them."""
    return form({**JOINED, **fields}, *STEADY, *fixed, free=("asked.time",), read=PRINTED, depth=1)


def _logged_checks() -> tuple[Form, Form]:
    """Those of a check and of a content check."""
    needs = ASKED + "consistency._requirement."
    asked = {**_goal(ASKED, "permission", ID), TOLD + "checked_at.token": field(b'"(%s+)"' % TEXT, "snapshot"),
             TOLD + "permissionship": field(b"([12])", "reply"), needs + "_fully_consistent": field(b"(true)", "newest")}
    token, version = field(b'"(%s+)"' % TEXT, "token"), field(LABEL, "version")
    paths = (needs + "_at_least_as_fresh.token", "told.version"), ("told.content.token", "told.content.version")
    check, content = (_logged({**asked, at: token, label: version}, needs + "_minimize_latency") for at, label in paths)
    return check, content


def _asks_for_newest(consistency: object) -> bool:
    """Whether the newest state is asked for; raises Bad where it is not known what is."""
    named = [key for key in CONSISTENCY if get(consistency, key) is not None]
    is_other = consistency not in (None, {}) and not named or has_others(consistency, frozenset(CONSISTENCY))
    if is_other or get(consistency, CONSISTENCY[0]) not in (None, True):
        raise Bad("unknown consistency %s" % str(consistency)[:80])
    return named[:1] == [CONSISTENCY[0]]


def key_of(revision: Revision) -> Optional[int]:
    """What two tokens of one write have in common."""
    return revision.snapshot.own if revision.snapshot else revision.number


def _key_of_row(row: Row) -> Optional[int]:
    number: Optional[int] = row[12][0][3] if row[12] else row[3]
    return number


class SpiceDbLog(Log):
    NOT_TAKEN = "relationship that the schema does not take"
    NO_LINE = "neither a response of Watch nor a check with its `request`"

    BASE = "token or revision"
    RULES = (b'"schema"',)
    HAS_REVISIONS = True
    WRITES = ("WriteRelationships", "DeleteRelationships", "ImportBulkRelationships", "BulkImportRelationships")
    CALL_KNOWN = "other call (WriteRelationships)"
    PARTIAL = ("optionalObjectTypes", "optionalRelationshipFilters")
    GIVE_CHANGES = ("give the watch stream, which has each change with its revision, and put files together that were cut between a request "
                    "and its response")
    DECIDES = ("permissionship", "pairs", "resourceObjectId", "subject", "subjectObjectId")
    CHECK, CONTENT_CHECK = _forms("")
    LOGGED = _forms("data.", "specversion", "type", read=printed.READ | {"time"}), _logged_checks()
    CALLS = (_logged({**_goal(ASKED + "updates.*.relationship.", "relation", b"%s+" % TEXT), TOLD + "written_at.token": field(
        b'"(%s+)"' % TEXT, "revision"), ASKED + "updates.*.relationship.subject.optional_relation": field(
            b'"(\\.\\.\\.|%s*)"' % WORD, USER_RELATION)}, ASKED + "updates.*.operation"),)
    WRITE = form({"%s%s" % (result, path): one for result in ("", "result.") for path, one in {
        **_goal("updates.*.relationship.", "relation", b"%s+" % TEXT), "changes_through.token": field(b'"(%s+)"' % TEXT, "revision"),
        "updates.*.relationship.subject.optional_relation": field(b'"(\\.\\.\\.|%s*)"' % WORD, USER_RELATION),
        "schema_updated": field(b"false"), "optional_transaction_metadata": NULL, "time": field(TIME, "time")}.items()},
        *("%s%s" % (result, path) for result in ("", "result.") for path in (
            "updates.*.operation", "updates.*.relationship.optional_caveat", "updates.*.relationship.optional_expires_at", "is_checkpoint",
            "full_revision_metadata.0")))
    OTHERS = {"WriteRelationships": ("request.updates",), "DeleteRelationships": ("response.deletedAt",),
              "ReadRelationships": ("request.relationshipFilter",), "ExpandPermissionTree": ("response.treeRoot",),
              "ReadSchema": ("response.schemaText",), "ReflectSchema": (), "DiffSchema": (), "ComputablePermissions": (),
              "DependentRelations": (), "ImportBulkRelationships": (), "ExportBulkRelationships": (), "BulkImportRelationships": (),
              "BulkExportRelationships": (), "Health": ()}
    DECISIONS = frozenset(("CheckPermission", "CheckBulkPermissions", "BulkCheckPermission", "LookupResources", "LookupSubjects"))

    def __init__(self, rules: ServiceRules, base_at: Optional[Revision], refusals: Refusals):
        super().__init__(rules, base_at, refusals)
        # the changes of the schema whose text the log has
        self.written: set[Optional[int]] = set()

    @staticmethod
    def read_base(text: str) -> Optional[Revision]:
        try:
            return read_revision(text)
        except Older:
            return None

    def base_number(self) -> Optional[int]:
        return self.base_at and (self.base_at.number or 0)

    def placed(self, lines: Lines, skew: Optional[int]) -> Lines:
        """Numbers for the snapshots of PostgreSQL; a log has either those or numbers."""
        for (name, user), (path, line) in self.refusals.untaken.items():
            if user in self.rules.takes.get(name, ()):
                self.refusals.refuse(path, line, "the WriteSchema that lets %s#%s take this stands behind it, or in a file that is given behind "
                                     "this one: give that file first" % name)
        self.refuse_unseen(lines)
        self._refuse_deleted(lines)
        self._refuse_late_starts(lines)
        lines = self.with_calls(lines, _key_of_row)
        for key, path, line in self.refusals.updated:
            if key not in self.written:
                self.refusals.refuse(path, line, "the schema changes here, and the log has no WriteSchema of this revision")
        base = self.base_at and self.base_at.snapshot
        if base is None and not lines.facts.has_asked:
            return lines
        by_kind: dict[bool, Line] = {}
        for one in lines:
            if one.shown is not None:
                by_kind.setdefault(one.asked is not None or isinstance(one, Event) and one.base and base is not None, one)
        if True not in by_kind:
            return lines
        if False in by_kind:
            number, snapshot = by_kind[False], by_kind[True]
            self.refusals.refuse(number.file, number.line, "its revision %s is a number, and that of %s:%d a snapshot of PostgreSQL"
                                 % (number.shown, snapshot.file, snapshot.line))
            return Lines()
        return self.with_calls(visibility.placed(list(lines), base, skew, self.refusals), _key_of_row)

    def _refuse_late_starts(self, lines: Lines) -> None:
        """A stream begins at the base state, or where the log has come to before its first line; else the log may lack changes between."""
        starts = [(file, line, start, True) for (file, start), line in self.refusals.starts.items()]
        if not starts:
            return
        seen = [(*one, False) for one in self.refusals.checkpoints]
        seen += [(row.file, row.line, row.revision, False) for row in chain(lines.writes(), lines.calls()) if row.revision is not None]
        most: dict[str, int] = {}
        for file, _, revision, _ in seen:
            most[file] = max(revision, most.get(file, revision))
        base = [] if self.base_at is None or self.base_at.number is None else [self.base_at.number]
        for file, listed in groupby(sorted(seen + starts), itemgetter(0)):
            known = [*base, *(one for other, one in most.items() if other != file)]
            for _, line, revision, is_start in listed:
                if not is_start:
                    known = [max([*known, revision])]
                elif known and revision > max(known):
                    self.refusals.refuse(file, line, LATE_START)

    def _refuse_deleted(self, lines: Lines) -> None:
        """A deletion is in the log by its change alone. Where the log has none at all, that was refused."""
        known = {_key_of_row(row) for row in lines.writes()} if self.refusals.deleted else set()
        for key, path, line in self.refusals.deleted if known else ():
            if key not in known:
                self.refusals.refuse(path, line, "this DeleteRelationships deleted something, and the log has no change of its revision: "
                                     "give the whole watch stream")

    def _other_call(self, value: object, path: str, line: int) -> Optional[str]:
        response = get(value, "response")
        if get(response, "deletedAt") is not None and get(response, "relationshipsDeletedCount") not in (None, 0, "0"):
            self.refusals.deleted.append((key_of(revision_in(get(response, "deletedAt"), "`deletedAt` of the response")), path, line))
        return super()._other_call(value, path, line)

    def base(self, path: str) -> Iterator[Event]:
        """One relationship a line, as a text; or those of a validation file."""
        try:
            first, text = self._validated(path) if is_yaml(path) else (1, located.read_text(path))
        except located.Malformed as fault:
            self.refusals.refuse(path, fault.line, str(fault))
            return
        for line, text in enumerate(map(str.strip, text.split("\n")), first):
            if text and not text.startswith("//"):
                event = Event("write", path, line, self.base_number(), self.base_at.shown, base=True)
                if self._put_text(event, text):
                    yield event

    def _validated(self, path: str) -> tuple[int, str]:
        """The relationships of a validation file. What it asserts is no record of replies."""
        given = read_yaml(path)
        for key in "assertions", "validation":
            for _ in given.get(key) or ():
                self.refusals.pass_over("%s of a validation file" % key)
        relationships = given.get("relationships") or ""
        return line_of(relationships, 1), relationships

    def _put_text(self, event: Event, text: str) -> bool:
        found = RELATIONSHIP.fullmatch(text) or READ.fullmatch(text)
        if not found:
            self.refusals.refuse(event.file, event.line, "no relationship `type:id#relation@type:id`: %r" % text[:200])
            return False
        parts = [found[name] for name in Relationship._fields]
        parts[5] = EVERY if parts[4] == "*" else None if parts[5] == "..." else parts[5]
        traits = found["traits"]
        reason = None if not traits else "expiration" if traits.startswith("[expiration:") else "caveat"
        return self.put(event, Relationship(*parts), True, reason)

    def is_write(self, value: object) -> bool:
        response = get(value, "result") or value
        return any(get(response, key) is not None for key in ("changesThrough", "updates", "schemaUpdated"))

    def writes(self, value: dict[str, Any], stamp: Stamp, path: str, line: int) -> Iterator[Event]:
        response = get(value, "result") or value
        updates = [] if get(response, "updates") is None else get(response, "updates")
        if not isinstance(updates, list):
            raise Bad("`updates` is no list")
        revision = revision_in(get(response, "changesThrough"), "`changesThrough`")
        if not updates and not any(get(response, key) for key in WITHOUT_UPDATES):
            raise Bad("a response of Watch has no `updates`, and is no checkpoint")
        if get(response, "schemaUpdated"):
            self.refusals.updated.append((key_of(revision), path, line))
        event = put_stamp(Event("write", path, line, revision.number, revision.shown), stamp)
        if revision.snapshot:
            if revision.snapshot.own is None and updates:
                raise Bad("the snapshot of `changesThrough` does not name the transaction that wrote")
            event.asked = (revision.snapshot,)
        for update in updates:
            live = one_of(OPERATIONS, get(update, "operation"))
            given = get(update, "relationship")
            if live is None:
                raise Bad("unknown operation %r" % (get(update, "operation"),))
            event.line = line_of(update, line)
            self.put(event, relationship_of(given), live, unmapped_of(given))
        event.line = line
        if updates:
            yield event
        elif revision.number is not None:
            self.refusals.checkpoints.append((path, line, revision.number))

    def refuse_partial(self, request: object, changes: object, stamp: Stamp, path: str, line: int) -> None:
        super().refuse_partial(request, changes, stamp, path, line)
        cursor = get(request, "optionalStartCursor")
        start = None if cursor is None else revision_in(cursor, "`optionalStartCursor` of the request").number
        if start is not None:
            self.refusals.starts.setdefault((path, start), line)

    def calls(self, value: dict[str, Any], stamp: Stamp, path: str, line: int) -> Iterator[Event]:
        """The updates of a WriteRelationships, at the revision of its response."""
        updates = get(get(value, "request"), "updates")
        if not isinstance(updates, list) or not updates or get(get(value, "response"), "writtenAt") is None:
            return iter(())
        written = {"updates": updates, "changesThrough": get(get(value, "response"), "writtenAt")}
        return (replace(event, kind=CALL) for event in self.writes(written, stamp, path, line))

    def when_of(self, said: Said) -> Optional[When]:
        try:
            revision = read_revision(needed(said, "revision").decode())
        except Older:
            return None
        return When(revision.number, revision.shown) if revision and revision.number is not None else None

    @staticmethod
    def relation_of(given: Optional[bytes]) -> Optional[str]:
        return None if given == b"..." else given and given.decode() or None

    def look_of(self, said: Said) -> Optional[Look]:
        demanded, version = said.get("token"), said.get("version")
        try:
            revision = read_revision(needed(said, "snapshot").decode())
            token = None if demanded is None else read_revision(demanded.decode())
            if revision is None or token is None and demanded is not None:
                return None
            moment = self._moment_of(revision, token, None if version is None else version.decode(), said.get("newest") is not None)
        except (Bad, Older):
            return None
        return Look(said["reply"] in (b"HAS", b"2"), moment.snapshot, moment.shown, moment.token, moment.version,
                    None if moment.asked is None else tuple(map(plain, moment.asked)))

    def moment(self, value: dict[str, Any], content: Optional[dict[str, Any]]) -> CheckedAt:
        revision = revision_at(get(value, "response"))
        token = self._token(get(value, "request"), content)
        version = text_or_none(get(value if content is None else content, "version"), "version")
        asks = content is None and _asks_for_newest(get(get(value, "request"), "consistency"))
        return self._moment_of(revision, token, version, asks)

    @staticmethod
    def _moment_of(revision: Revision, token: Optional[Revision], version: Optional[str], asks_for_newest: bool) -> CheckedAt:
        if token and bool(token.snapshot) != bool(revision.snapshot):
            raise Bad("the token is of another datastore than `checkedAt`")
        asked = (revision.snapshot, token and token.snapshot) if revision.snapshot else None
        demanded = token.number if token else demand_of(asks_for_newest, version, token)
        return CheckedAt(revision.number, revision.shown, demanded, version, asked)

    @staticmethod
    def _token(request: object, content: object) -> Optional[Revision]:
        """The token that a check demanded, or the one that was stored with a content version."""
        if content is not None:
            return None if get(content, "token") is None else revision_in(content, "`content`")
        consistency = get(request, "consistency")
        demanded = get(consistency, "atLeastAsFresh") or get(consistency, "atExactSnapshot")
        return revision_in(demanded, "the request's consistency") if demanded else None

    def answers(self, value: dict[str, Any]) -> Iterator[Answer]:
        return answers_of(get(value, "request"), get(value, "response"), self.refusals)

    def new_rules(self, value: object) -> object:
        return get(get(value, "request"), "schema")

    def change(self, schema: object, value: dict[str, Any], stamp: Stamp, path: str, line: int) -> Iterator[Event]:
        """The schema of a WriteSchema, in force from the revision of its response on."""
        if not isinstance(schema, str):
            raise Bad("`schema` is no text")
        revision = revision_in(get(get(value, "response"), "writtenAt"), "`writtenAt` of the response")
        if revision.snapshot and revision.snapshot.own is None:
            raise Bad("the snapshot of `writtenAt` does not name the transaction that wrote")
        rules = Parser(schema, path, self.refusals, line, False).schema()
        event = put_stamp(rules.event, stamp)
        event.line, event.revision, event.shown = line, revision.number or 0, revision.shown
        event.asked = revision.snapshot and (revision.snapshot,)
        self.written.add(key_of(revision))
        self.take(rules)
        yield event
