"""A report as SARIF 2.1.0, a result on each line of the text."""
from typing import Iterator, Optional
from urllib.parse import quote

from new_enemy_tools.audit_summary import Telling
from new_enemy_tools.baseline import FINGERPRINT
from new_enemy_tools.effects import RatedFinding
from new_enemy_tools.findings import FORMS
from new_enemy_tools.ignoring import Row as Ignored
from new_enemy_tools.report_forms import Place, Places, json_of, keyed_row_of, logged, place_of, places_in, sentence, sums_row

SCHEMA = "https://json.schemastore.org/sarif-2.1.0.json"
ABOUT = {
    "F1": "A check was answered from before the token that its request carried.",
    "F2": "A check of a content version does not demand the state of that version's content check.",
    "F3": "A content check was not evaluated at the latest snapshot.",
    "F4": "A commit behind an entry is at or below its snapshot.",
    "F5": "The token that was stored with a content version is not that of its content check.",
    "F6": "A check names a version that no earlier line issues for its object.",
    "F7": "No evidence was given for a reply.",
    "F8": "A step of the evidence for a reply is not accepted.",
    "F9": "The evidence for a reply does not settle it.",
    "F10": "A reply is not what the rules mean over the tuples committed up to its snapshot."}
NUMBERS = {finding: number for number, finding in enumerate(FORMS)}


def _uri(path: str) -> str:
    """A path as a reference; an absolute one as a file."""
    return ("file://" if path.startswith("/") else "") + quote(path)


def _location(place: Place) -> dict[str, object]:
    return {"physicalLocation": {"artifactLocation": {"uri": _uri(place.file)}, "region": {"startLine": place.line}}}


def _related(telling: Telling, line: int) -> Place:
    """Where the line that a finding refers to is shown."""
    trace = telling.trace
    source = trace.entries[line].source if line in trace.entries else trace.commits[trace.commits.before(line)].source
    return logged(source) or Place(telling.path, line)


def _result(telling: Telling, told: RatedFinding, ignored: Optional[Ignored], places: Places) -> dict[str, object]:
    row = keyed_row_of(telling, told, places)
    location = _location(place_of(telling, told.entry))
    location["logicalLocations"] = [{"fullyQualifiedName": row.get("named", row["goal"]), "kind": "resource"}]
    result: dict[str, object] = {
        "ruleId": told.finding.finding, "ruleIndex": NUMBERS[told.finding.finding], "level": told.effect.severity,
        "message": {"text": sentence(row)}, "locations": [location], "partialFingerprints": {FINGERPRINT: row["key"]},
        "properties": row}
    if told.finding.related is not None:
        result["relatedLocations"] = [{"id": 1, "message": {"text": "see line %d of the trace" % told.finding.related},
                                       **_location(_related(telling, told.finding.related))}]
    if ignored is not None:
        result["suppressions"] = [{"kind": "external", "justification": "%s, until %s" % (ignored.reason, ignored.until)}]
    return result


def _rules() -> list[dict[str, object]]:
    return [{"id": finding, "name": "".join(word.capitalize() for word in FORMS[finding][0].split()),
             "shortDescription": {"text": FORMS[finding][0]}, "fullDescription": {"text": ABOUT[finding]}} for finding in FORMS]


def sarif(telling: Telling) -> Iterator[str]:
    """What is ignored stands there as suppressed; what is known from a baseline does not."""
    driver = {"name": "new_enemy", "rules": _rules()}
    yield '{"$schema":%s,"version":"2.1.0","runs":[{"tool":{"driver":%s},' % (json_of(SCHEMA), json_of(driver))
    level = "note" if telling.coverage.is_whole else "warning"
    notes = [{"level": level if number else "note", "message": {"text": said}} for number, said in enumerate([telling.said, *telling.notes])]
    yield '"invocations":[{"executionSuccessful":true,"toolExecutionNotifications":%s%s}],' % (
        json_of(notes), ',"properties":%s' % json_of({"coverage": telling.coverage.row()}))
    yield '"properties":%s,"results":[' % json_of(sums_row(telling))
    listed: list[tuple[RatedFinding, Optional[Ignored]]] = [(told, None) for told in telling.told] + list(telling.ignored)
    places = places_in(telling.groups)
    for number, (told, ignored) in enumerate(listed, 1):
        yield json_of(_result(telling, told, ignored, places)) + ("," if number < len(listed) else "")
    yield "]}]}"
