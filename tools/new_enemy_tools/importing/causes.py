"""Why a check is audited in part, or not at all. Each cause is a text that stands here once, and is told and counted as it is.

A cause strikes one check and costs no other its audit. A check in part stands in the trace, and its line says the cause; what a check
that is not audited was told is in no trace, so that no finding is looked for.
"""
from typing import Optional

# In part: the findings that are not looked for.
VERSION_UNKNOWN = "the content version may have been saved before the log, or in a gap of it"
VERSION_LEFT_OUT = "the content check of the version is not audited"
LABEL_TWICE = "the label of the version was saved more than once"
LABEL_AGAIN = "a content check saves a label again"
LABEL_EMPTY = "the label of the version is empty"
CONTENT_ODD = "a content check has a version and the reply false, or none and the reply true"
NOT_NEWEST = "a content check is said to be newest, and is not"
VERSION_LET_GO = "the version is not known, and old versions were let go"
IN_PART: dict[str, tuple[str, ...]] = {
    VERSION_UNKNOWN: ("F2", "F6"),
    VERSION_LEFT_OUT: ("F2", "F6"),
    LABEL_TWICE: ("F2",),
    LABEL_AGAIN: ("F3", "F5"),
    LABEL_EMPTY: ("F2", "F6"),
    CONTENT_ODD: ("F3", "F5"),
    NOT_NEWEST: ("F3", "F5"),
    VERSION_LET_GO: ("F2", "F6"),
}

# Not audited.
CONTEXTUAL = "contextual tuples"
CONTEXT_OF_CONDITIONS = "context of conditions"
CONTEXT_OF_CAVEATS = "context of caveats"
CONDITIONAL = "conditional permission"
UNKNOWN_FIELD = "a request with a field that is not known"
USER_WILDCARD = "check of a wildcard as the user"
USER_TYPED_WILDCARD = "check of a typed wildcard as the user"
USER_USERSET = "check of a userset as the user"
UNKNOWN_RELATION = "check of a relation that the rules do not have"
BEFORE_BASE = "check before the base state"
OTHER_MODEL = "check with another model"
NO_ONE_SNAPSHOT = "check without one snapshot"
UNREADABLE = "check that can't be read"
UNREADABLE_CONTENT = "content check that can't be read"
HANGS_ON_LEFT_OUT = "check that hangs on a tuple or rule that was left out"
CIRCLE_TAKEN_AWAY = "check by a rule that takes away what leads into a circle"
TOO_WIDE = "check between more states than are looked at"
STATE_NOT_KEPT = "check at a state of the days before that is not kept any more"
STATE_TO_COME = "check at one of several states of which some come behind the day's log"
ORDER_UNKNOWN = "check that may have come before a line or behind it"
WITHOUT_TIME = "line without a `time`"
NO_BEGINNING = "check at a snapshot that sees no beginning of the order of commits"
TOKEN_NO_BEGINNING = "check by a token that sees no beginning of the order, with a version"
LINE_MISSING = "check behind a line of the sequence that is missing"
SNAPSHOT_TOO_OLD = "check at a snapshot older than where the state begins"
NO_COMMIT_CAME = "check at a snapshot to which no commit came"
NOT_AUDITED = (
    CONTEXTUAL, CONTEXT_OF_CONDITIONS, CONTEXT_OF_CAVEATS, CONDITIONAL, UNKNOWN_FIELD, USER_WILDCARD, USER_TYPED_WILDCARD, USER_USERSET, UNKNOWN_RELATION,
    BEFORE_BASE, OTHER_MODEL, NO_ONE_SNAPSHOT, UNREADABLE, UNREADABLE_CONTENT, HANGS_ON_LEFT_OUT, CIRCLE_TAKEN_AWAY, TOO_WIDE,
    STATE_NOT_KEPT, STATE_TO_COME, ORDER_UNKNOWN, WITHOUT_TIME, NO_BEGINNING, TOKEN_NO_BEGINNING, LINE_MISSING, SNAPSHOT_TOO_OLD, NO_COMMIT_CAME)

# Why a tuple is left out, beside what a service names itself.
TUPLE_FIELD = "a tuple with a field that is not known"

# Lost in a gap.
NO_LINE = "no line has these numbers of the sequence"

EVERY_FINDING = tuple("F%d" % number for number in range(1, 11))


def not_looked_for(cause: Optional[str]) -> tuple[str, ...]:
    """The findings that are not looked for on a check with a cause: all where it is not audited, none where it has no cause."""
    return () if cause is None else IN_PART.get(cause, EVERY_FINDING)
