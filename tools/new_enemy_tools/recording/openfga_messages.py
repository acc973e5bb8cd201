"""The messages of OpenFGA's gRPC that a recorder reads and writes, and all their fields.

The numbers are those of the public definitions, openfga.v1, as they are remembered. A request, a tuple or a model with a field that is not
named here is refused, so that nothing of what it means is passed over.
"""
from new_enemy_tools.recording.protobuf import ANY, BOOL, NUMBER, TEXT, TIME, Field, Messages, Shape, numbered

OPERATION = numbered("TUPLE_OPERATION_WRITE", "TUPLE_OPERATION_DELETE")
CONSISTENCY = {0: "UNSPECIFIED", 100: "MINIMIZE_LATENCY", 200: "HIGHER_CONSISTENCY"}


def _texts(*names: str) -> Shape:
    return {number: Field(name, TEXT) for number, name in enumerate(names, 1)}


STORE, MODEL, PREFERENCE = Field("store_id", TEXT), Field("authorization_model_id", TEXT), Field("consistency", CONSISTENCY)
KEY, CONTEXT, CONTEXTUAL = Field("tuple_key", "TupleKey"), Field("context", ANY), Field("contextual_tuples", "TupleKeys")
LIST = {1: STORE, 2: MODEL, 3: Field("type", TEXT), 4: Field("relation", TEXT), 5: Field("user", TEXT), 6: CONTEXTUAL, 7: CONTEXT, 8: PREFERENCE}
SHAPES: dict[str, Shape] = {
    "CheckRequest": {1: STORE, 2: KEY, 3: CONTEXTUAL, 4: MODEL, 5: Field("trace", BOOL), 6: CONTEXT, 7: PREFERENCE},
    "CheckResponse": {1: Field("allowed", BOOL)},
    "BatchCheckRequest": {1: STORE, 2: Field("checks", "Item", True), 3: MODEL, 4: PREFERENCE},
    "Item": {1: KEY, 2: CONTEXTUAL, 3: CONTEXT, 4: Field("correlation_id", TEXT)},
    "BatchCheckResponse": {1: Field("result", "Single", named=True)},
    "Single": {1: Field("allowed", BOOL), 2: Field("error", ANY)},
    "ListObjectsRequest": LIST, "StreamedListObjectsRequest": LIST,
    "ListObjectsResponse": {1: Field("objects", TEXT, True)},
    "StreamedListObjectsResponse": {1: Field("object", TEXT)},
    "ListUsersRequest": {1: STORE, 2: MODEL, 3: Field("object", "Object"), 4: Field("relation", TEXT), 5: Field("user_filters", "Filter", True),
                         6: Field("contextual_tuples", "TupleKey", True), 7: CONTEXT, 8: PREFERENCE},
    "ListUsersResponse": {1: Field("users", "User", True)},
    "User": {1: Field("object", "Object"), 2: Field("userset", "Group"), 3: Field("wildcard", "Every")},
    "Object": _texts("type", "id"), "Group": _texts("type", "id", "relation"), "Every": _texts("type"), "Filter": _texts("type", "relation"),
    # The second field of either side says what becomes of tuples that are there, or are not.
    "WriteRequest": {1: STORE, 2: Field("writes", "Writes"), 3: Field("deletes", "Deletes"), 4: MODEL},
    "Writes": {1: Field("tuple_keys", "TupleKey", True), 2: Field("on_duplicate", ANY)},
    "Deletes": {1: Field("tuple_keys", "TupleKey", True), 2: Field("on_missing", ANY)},
    "WriteResponse": {},
    "TupleKeys": {1: Field("tuple_keys", "TupleKey", True)},
    "TupleKey": {**_texts("user", "relation", "object"), 4: Field("condition", ANY)},
    "ReadChangesRequest": {1: STORE, 3: Field("page_size", "Number"), 4: Field("continuation_token", TEXT)},
    "ReadChangesResponse": {1: Field("changes", "Change", True), 2: Field("continuation_token", TEXT)},
    "Change": {1: KEY, 2: Field("operation", OPERATION), 3: Field("timestamp", TIME)},
    "ListStoresRequest": {1: Field("page_size", "Number")}, "ListStoresResponse": {1: Field("stores", "Store", True)}, "Store": _texts("id"),
    "ReadAuthorizationModelsRequest": {1: STORE, 2: Field("page_size", "Number")},
    "IdsResponse": {1: Field("authorization_models", "Store", True)},
    "ReadAuthorizationModelsResponse": {1: Field("authorization_models", "Model", True)},
    "Model": {1: Field("id", TEXT), 2: Field("schema_version", TEXT), 3: Field("type_definitions", "Type", True),
              4: Field("conditions", ANY, named=True)},
    "Type": {1: Field("type", TEXT), 2: Field("relations", "Userset", named=True), 3: Field("metadata", "Metadata")},
    "Metadata": {1: Field("relations", "Relation", named=True), 2: Field("module", TEXT), 3: Field("source_info", ANY)},
    "Relation": {1: Field("directly_related_user_types", "Reference", True), 2: Field("module", TEXT), 3: Field("source_info", ANY)},
    "Reference": {**_texts("type", "relation"), 3: Field("wildcard", ANY), 4: Field("condition", TEXT)},
    "Userset": {1: Field("this", ANY), 2: Field("computedUserset", "Computed"), 3: Field("tupleToUserset", "Through"),
                4: Field("union", "Usersets"), 5: Field("intersection", "Usersets"), 6: Field("difference", "Difference")},
    "Computed": _texts("object", "relation"), "Through": {1: Field("tupleset", "Computed"), 2: Field("computedUserset", "Computed")},
    "Usersets": {1: Field("child", "Userset", True)}, "Difference": {1: Field("base", "Userset"), 2: Field("subtract", "Userset")},
    "Number": {1: Field("value", NUMBER)}, "Timestamp": {1: Field("seconds", NUMBER), 2: Field("nanos", NUMBER)}}
# What an answer has besides decides nothing.
MESSAGES = Messages(SHAPES, frozenset(name for name in SHAPES if not name.endswith("Response") and name not in ("Store", "Single")))
