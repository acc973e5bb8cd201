"""SpiceDB's schema, relationships and changes over its HTTP gateway."""
from typing import Any, Iterator, Optional

from new_enemy_tools.importing.reading import get
from new_enemy_tools.recording.asking import Asker, FeedFault

KINDS = ["WATCH_KIND_INCLUDE_RELATIONSHIP_UPDATES", "WATCH_KIND_INCLUDE_SCHEMA_UPDATES", "WATCH_KIND_INCLUDE_CHECKPOINTS"]
# A stream on which nothing comes for so long is opened again.
QUIET = 60.0


class HttpSource:
    def __init__(self, url: str, key: Optional[str], ca: Optional[str] = None):
        self.asker = Asker(url, key, ca)

    def use_key(self, key: str) -> None:
        self.asker.use_key(key)

    def schema(self) -> tuple[str, str]:
        answer = self.asker.ask("POST", "/v1/schema/read", {})
        text, token = get(answer, "schemaText"), get(get(answer, "readAt"), "token")
        if not isinstance(text, str) or not isinstance(token, str):
            raise FeedFault("ReadSchema answers without `schemaText` and `readAt`; a later SpiceDB has them")
        return text, token

    def relationships(self, of: str, token: str) -> Iterator[dict[str, Any]]:
        body = {"consistency": {"atExactSnapshot": {"token": token}}, "relationshipFilter": {"resourceType": of}}
        for value in self.asker.stream("/v1/relationships/read", body, QUIET, True):
            yield get(_result(value), "relationship")

    def watch(self, token: str) -> Iterator[dict[str, Any]]:
        for value in self.asker.stream("/v1/watch", {"optionalStartCursor": {"token": token}, "optionalUpdateKinds": KINDS}, QUIET, False):
            yield _result(value)


def _result(value: Any) -> dict[str, Any]:
    """What a line of a stream says; raises FeedFault where it is an error."""
    error = get(value, "error")
    if error:
        raise FeedFault("the service ends a stream: %s" % (get(error, "message") or error))
    found: dict[str, Any] = get(value, "result") or value
    return found
