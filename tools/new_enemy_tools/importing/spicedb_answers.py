"""SpiceDB's relationships in JSON, and what the answers of its calls decide."""
from functools import partial
from typing import Any, Iterator, Optional

from new_enemy_tools.importing import causes
from new_enemy_tools.importing.events import EVERY, Relationship
from new_enemy_tools.importing.passing import failure_of
from new_enemy_tools.importing.reading import Bad, get, has_others
from new_enemy_tools.importing.refusals import Refusals
from new_enemy_tools.importing.service import UNREAD, Answer, each, one_of, streamed, text_or_none
from new_enemy_tools.importing.zedtokens import Older, Revision, read_revision

REPLIES = {"PERMISSIONSHIP_HAS_PERMISSION": True, "PERMISSIONSHIP_NO_PERMISSION": False}
CONDITIONAL = "PERMISSIONSHIP_CONDITIONAL_PERMISSION"
LOOKUP = "LOOKUP_"
# The fields of requests that decide, and of what they name.
ASKED = frozenset(("consistency", "resource", "permission", "subject", "context", "with_tracing", "items",
                   "resource_object_type", "subject_object_type", "optional_subject_relation", "optional_limit",
                   "optional_cursor", "optional_concrete_limit", "wildcard_option"))
OBJECT = frozenset(("object_type", "object_id"))
SUBJECT = frozenset(("object", "optional_relation"))
STORED = frozenset(("resource", "relation", "subject", "optional_caveat", "optional_expires_at"))
# What the numbers of a check, and of what a lookup found, stand for.
CHECKED = (None, "PERMISSIONSHIP_NO_PERMISSION", "PERMISSIONSHIP_HAS_PERMISSION", CONDITIONAL)
LOOKED_UP = (None, "PERMISSIONSHIP_HAS_PERMISSION", CONDITIONAL)


def revision_in(holder: object, what: str) -> Revision:
    try:
        revision = read_revision(get(holder, "token"))
    except Older as fault:
        raise Bad("%s %s" % (what, fault)) from None
    if revision is None:
        raise Bad("%s has no token whose revision is a number or a snapshot of PostgreSQL" % what)
    return revision


def _object(given: object, what: str) -> tuple[str, str]:
    of, id_text = get(given, "objectType"), get(given, "objectId")
    if not isinstance(of, str) or not of or not isinstance(id_text, str) or not id_text:
        raise Bad("the %s has no type and id" % what)
    return of, id_text


def _subject(given: object) -> tuple[str, str, Optional[str]]:
    relation = text_or_none(get(given, "optionalRelation"), "optionalRelation") or None
    of, id_text = _object(get(given, "object"), "subject")
    return of, id_text, EVERY if id_text == "*" else None if relation == "..." else relation


def relationship_of(given: object) -> Relationship:
    """The tuple of a relationship in JSON; raises Bad."""
    relation = get(given, "relation")
    if not isinstance(relation, str) or not relation:
        raise Bad("a relationship has no relation")
    return _relationship(_object(get(given, "resource"), "resource"), relation, _subject(get(given, "subject")))


def unmapped_of(given: object) -> Optional[str]:
    """What a relationship in JSON has that a trace has no form for."""
    if get(given, "optionalCaveat") or get(given, "optionalExpiresAt"):
        return "caveat" if get(given, "optionalCaveat") else "expiration"
    is_other = has_others(given, STORED) or _has_others(get(given, "resource"), get(given, "subject"))
    return causes.TUPLE_FIELD if is_other else None


def _has_others(resource: object, subject: object) -> bool:
    return has_others(resource, OBJECT) or has_others(subject, SUBJECT) or has_others(get(subject, "object"), OBJECT)


def _relationship(thing: tuple[str, str], relation: str, user: tuple[str, str, Optional[str]]) -> Relationship:
    return Relationship(thing[0], thing[1], relation, user[0], user[1], user[2])


def responses_of(response: object) -> list[Any]:
    """The answers of a call that streams them: in a list or one by one, bare or as a `result`."""
    return [get(one, "result") or one for one in (response if isinstance(response, list) else [response])]


def revision_at(response: object) -> Revision:
    """The revision that a call was evaluated at."""
    answers = responses_of(response)
    first = response if get(response, "checkedAt") is not None else answers[0]
    if len({str(get(get(one, "lookedUpAt"), "token")) for one in answers if get(one, "lookedUpAt") is not None}) > 1:
        raise Bad("the answers of this lookup have several `lookedUpAt`: give each state a line, with the request")
    looked_up = get(first, "lookedUpAt")
    if looked_up is not None:
        return revision_in(looked_up, "`lookedUpAt` of the response")
    if get(first, "checkedAt") is None:
        raise Bad("the response has no `checkedAt`, which says the state that was looked at: run `ne record`, or log whole responses")
    return revision_in(get(first, "checkedAt"), "`checkedAt` of the response")


def answers_of(request: object, response: object, refusals: Refusals) -> Iterator[Answer]:
    """What a CheckPermission, a CheckBulkPermissions, a LookupResources or a LookupSubjects decides; raises Bad."""
    if get(request, "items") is not None:
        yield from _bulk(request, response, refusals)
    elif get(request, "resourceObjectType") is not None:
        yield from each(_looked_up(response, refusals), partial(_resource, request))
    elif get(request, "subjectObjectType") is not None:
        yield from each(_looked_up(response, refusals), partial(_found_subject, request))
    else:
        yield _answer(request, get(request, "resource"), get(request, "subject"), response)


def _looked_up(response: object, refusals: Refusals) -> list[Any]:
    if response is None:
        raise Bad("the line has no response of the lookup: a list is empty where it found nothing")
    return streamed(response if isinstance(response, list) else [response], refusals) if response else []


def _resource(request: object, found: object) -> Answer:
    thing = {"objectType": get(request, "resourceObjectType"), "objectId": get(found, "resourceObjectId")}
    return _answer(request, thing, get(request, "subject"), found, LOOKED_UP)


def _found_subject(request: object, one: object) -> Answer:
    found = get(one, "subject") or one
    subject = {"object": {"objectType": get(request, "subjectObjectType"), "objectId": get(found, "subjectObjectId")},
               "optionalRelation": get(request, "optionalSubjectRelation")}
    return _answer(request, get(request, "resource"), subject, found, LOOKED_UP)


def _answer(request: object, resource: object, subject: object, found: object, numbers: tuple[Optional[str], ...] = CHECKED) -> Answer:
    permission, said = get(request, "permission"), get(found, "permissionship")
    if isinstance(said, int) and not isinstance(said, bool) and 0 < said < len(numbers):
        said = numbers[said]
    if not isinstance(permission, str) or not permission:
        raise Bad("the request has no permission")
    goal = _relationship(_object(resource, "resource"), permission, _subject(subject))
    said = said[len(LOOKUP):] if isinstance(said, str) and said.startswith(LOOKUP) else said
    if said not in (*REPLIES, CONDITIONAL):
        raise Bad("the response has no permissionship")
    unmapped = None
    if has_others(request, ASKED) or _has_others(resource, subject):
        unmapped = causes.UNKNOWN_FIELD
    elif said == CONDITIONAL:
        unmapped = causes.CONDITIONAL
    elif get(request, "context"):
        unmapped = causes.CONTEXT_OF_CAVEATS
    elif goal.user_relation == EVERY:
        unmapped = causes.USER_WILDCARD
    elif goal.user_relation is not None:
        unmapped = causes.USER_USERSET
    return Answer(goal, one_of(REPLIES, said) or False, unmapped)


def _bulk(request: object, response: object, refusals: Refusals) -> Iterator[Answer]:
    pairs, items, told = get(response, "pairs"), get(request, "items"), []
    if not isinstance(pairs, list) or not isinstance(items, list):
        raise Bad("`pairs` or `items` is no list")
    for pair in pairs:
        failed = failure_of(pair, ("item",))
        if failed and get(pair, "item") is None:
            refusals.pass_over(failed)
        else:
            told.append(pair)
    yield from each(told, _pair)
    # What was asked and has no pair.
    yield from [UNREAD] * (len(items) - len(pairs))


def _pair(pair: object) -> Answer:
    asked = get(pair, "request")
    try:
        return _answer(asked, get(asked, "resource"), get(asked, "subject"), get(pair, "item"))
    except Bad:
        goal = _relationship(_object(get(asked, "resource"), "resource"), str(get(asked, "permission")), _subject(get(asked, "subject")))
        return Answer(goal, False, causes.UNREADABLE)
