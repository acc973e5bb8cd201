"""OpenFGA's tuples as texts, and what the answers of its calls decide."""
import re
from typing import Any, Iterator, Optional

from new_enemy_tools.importing import causes
from new_enemy_tools.importing.events import EVERY, Relationship
from new_enemy_tools.importing.passing import failure_of
from new_enemy_tools.importing.reading import Bad, get, has_others
from new_enemy_tools.importing.refusals import Refusals
from new_enemy_tools.importing.service import UNREAD, Answer, each, streamed

# What a denial may have without its `allowed`.
SILENT = frozenset(("allowed", "resolution"))
# The fields of requests that decide, of each check of a batch, and of their tuple keys.
ASKED = frozenset(("store_id", "authorization_model_id", "tuple_key", "contextual_tuples", "context", "consistency", "trace",
                   "checks", "correlation_id", "type", "object", "relation", "user", "user_filters"))
KEY = frozenset(("object", "relation", "user"))
STORED = KEY | {"condition"}
# The service takes every letter in an id but blanks of ASCII.
OBJECT = re.compile(r"([^:#\s]+):([^#\s]+)", re.ASCII)


def split_object(text: object) -> tuple[str, str]:
    found = OBJECT.fullmatch(text) if isinstance(text, str) else None
    if not found:
        raise Bad("%r is no object `type:id`" % (text,))
    return found[1], found[2]


def split_user(text: object) -> tuple[str, str, Optional[str]]:
    if not isinstance(text, str):
        raise Bad("%r is no user" % (text,))
    whole, hash_sign, relation = text.rpartition("#")
    if not hash_sign:
        of, id_text = split_object(text)
        return of, id_text, EVERY if id_text == "*" else None
    if not relation:
        raise Bad("%r is no user" % text)
    return (*split_object(whole), relation)


def relationship_of(key: object) -> Relationship:
    """The tuple of a tuple key; raises Bad."""
    relation = get(key, "relation")
    if not isinstance(relation, str) or not relation:
        raise Bad("a tuple key has no `relation`")
    (of, id_text), user = split_object(get(key, "object")), split_user(get(key, "user"))
    return Relationship(of, id_text, relation, user[0], user[1], user[2])


def keys_of(side: object) -> list[Any]:
    """The tuple keys of what a Write writes or deletes; raises Bad."""
    keys = get(side, "tuple_keys") or []
    if not isinstance(keys, list):
        raise Bad("`tuple_keys` is no list")
    return keys


def answers_of(request: object, response: object, refusals: Refusals) -> Iterator[Answer]:
    """What a Check, a BatchCheck, a ListObjects or a ListUsers decides; raises Bad."""
    if get(request, "checks") is not None:
        yield from _batch(request, response, refusals)
    elif get(request, "user_filters") is not None:
        yield from _list_users(request, response)
    elif get(request, "type") is not None:
        yield from _list_objects(request, response, refusals)
    else:
        yield _answer(request, request, response)


def _answer(request: object, check: object, answer: object) -> Answer:
    """JSON of protobuf may leave a false `allowed` out, but not the answer that it stands in."""
    allowed = get(answer, "allowed") if isinstance(answer, dict) else None
    if allowed is None and isinstance(answer, dict) and not answer.keys() - SILENT:
        allowed = False
    if not isinstance(allowed, bool):
        raise Bad("the response has no `allowed`")
    return _mapped(relationship_of(get(check, "tuple_key")), allowed, *((request,) if check is request else (request, check)))


def _mapped(goal: Relationship, reply: bool, *asked: object) -> Answer:
    """An answer, with what a trace has no form for in the request or the check."""
    unmapped = None
    if any(has_others(one, ASKED) or has_others(get(one, "tuple_key"), KEY) for one in asked):
        unmapped = causes.UNKNOWN_FIELD
    elif any(_contextual(one) for one in asked):
        unmapped = causes.CONTEXTUAL
    elif any(get(one, "context") for one in asked):
        unmapped = causes.CONTEXT_OF_CONDITIONS
    elif goal.user_relation == EVERY:
        unmapped = causes.USER_TYPED_WILDCARD
    elif goal.user_relation is not None:
        unmapped = causes.USER_USERSET
    return Answer(goal, reply, unmapped)


def _contextual(asked: object) -> object:
    given = get(asked, "contextual_tuples")
    return given if isinstance(given, list) else get(given, "tuple_keys")


def _list(holder: object, key: str) -> list[Any]:
    found = get(holder, key)
    if not isinstance(found, list):
        raise Bad("`%s` is no list" % key)
    return found


def _listed(response: object, key: str) -> list[Any]:
    """What an answer lists; JSON of protobuf may leave out a list of nothing, but an answer that says something else is none."""
    if isinstance(response, dict) and get(response, key) is None and not any(response.values()):
        return []
    return _list(response, key)


def _batch(request: object, response: object, refusals: Refusals) -> Iterator[Answer]:
    results, checks = get(response, "result"), _list(request, "checks")
    results = results if isinstance(results, dict) else {}
    named = [get(check, "correlation_id") for check in checks]
    found = [(check, results.get(name) if isinstance(name, str) else None) for check, name in zip(checks, named)]
    told = []
    for check, result in found:
        failed = None if isinstance(get(result, "allowed"), bool) else failure_of(result, ("allowed",))
        if failed:
            refusals.pass_over(failed)
        else:
            told.append((check, result))
    yield from each(told, lambda one: _one_of_many(request, *one))
    # A decision on what the request does not ask.
    yield from (UNREAD for name, result in results.items() if name not in named and (get(result, "allowed") or not failure_of(result, ("allowed",))))


def _one_of_many(request: object, check: object, result: object) -> Answer:
    try:
        return _answer(request, check, result)
    except Bad:
        return Answer(relationship_of(get(check, "tuple_key")), False, causes.UNREADABLE)


def _list_objects(request: object, response: object, refusals: Refusals) -> Iterator[Answer]:
    """Of a StreamedListObjects the answers stand in a list or one by one."""
    if isinstance(response, list) or get(get(response, "result") or response, "object") is not None:
        found = [get(one, "object") for one in streamed(response if isinstance(response, list) else [response], refusals)]
    else:
        found = _listed(response, "objects")
    yield from each(found, lambda thing: _positive(request, thing, get(request, "user")))


def _list_users(request: object, response: object) -> Iterator[Answer]:
    thing = _thing(get(request, "object"))
    yield from each(_listed(response, "users"), lambda user: _positive(request, thing, _user(user)))


def _positive(request: object, thing: object, user: object) -> Answer:
    key = {"object": thing, "relation": get(request, "relation"), "user": user}
    return _mapped(relationship_of(key), True, request)


def _user(given: object) -> str:
    """A user of a list as a text; raises Bad."""
    of, userset, every = get(given, "object"), get(given, "userset"), get(given, "wildcard")
    if every is not None:
        return _thing({**every, "id": "*"} if isinstance(every, dict) else every)
    return _thing(of) if userset is None else "%s#%s" % (_thing(userset), _text(userset, "relation"))


def _thing(given: object) -> str:
    """The text of what is told by its type and id; raises Bad."""
    return "%s:%s" % (_text(given, "type"), _text(given, "id"))


def _text(holder: object, key: str) -> str:
    found = get(holder, key)
    if not isinstance(found, str):
        raise Bad("an object or a user has no `%s`" % key)
    return found
