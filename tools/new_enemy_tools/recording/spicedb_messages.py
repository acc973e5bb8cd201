"""The messages of SpiceDB's gRPC, for the few fields that a recorder reads and writes.

The numbers are those of the public definitions, authzed.api.v1; fields that are not named here are passed over, but for those of what a
check demands and of a relationship.
"""
from new_enemy_tools.recording.protobuf import ANY, BOOL, TEXT, Field, Messages, numbered

PERMISSIONSHIP = numbered("PERMISSIONSHIP_UNSPECIFIED", "PERMISSIONSHIP_NO_PERMISSION", "PERMISSIONSHIP_HAS_PERMISSION",
                          "PERMISSIONSHIP_CONDITIONAL_PERMISSION")
FOUND = numbered("LOOKUP_PERMISSIONSHIP_UNSPECIFIED", "LOOKUP_PERMISSIONSHIP_HAS_PERMISSION", "LOOKUP_PERMISSIONSHIP_CONDITIONAL_PERMISSION")
OPERATION = numbered("OPERATION_UNSPECIFIED", "OPERATION_CREATE", "OPERATION_TOUCH", "OPERATION_DELETE")
KIND = numbered("WATCH_KIND_UNSPECIFIED", "WATCH_KIND_INCLUDE_RELATIONSHIP_UPDATES", "WATCH_KIND_INCLUDE_SCHEMA_UPDATES",
                "WATCH_KIND_INCLUDE_CHECKPOINTS")
TOKEN = {1: Field("token", TEXT)}
ITEM = {1: Field("resource", "Object"), 2: Field("permission", TEXT), 3: Field("subject", "Subject"), 4: Field("context", ANY)}
MESSAGES = Messages({
    "Token": TOKEN,
    "Consistency": {1: Field("minimizeLatency", BOOL), 2: Field("atLeastAsFresh", "Token"), 3: Field("atExactSnapshot", "Token"),
                    4: Field("fullyConsistent", BOOL)},
    "Object": {1: Field("objectType", TEXT), 2: Field("objectId", TEXT)},
    "Subject": {1: Field("object", "Object"), 2: Field("optionalRelation", TEXT)},
    "Relationship": {1: Field("resource", "Object"), 2: Field("relation", TEXT), 3: Field("subject", "Subject"),
                     4: Field("optionalCaveat", ANY), 5: Field("optionalExpiresAt", ANY)},
    "Update": {1: Field("operation", OPERATION), 2: Field("relationship", "Relationship")},
    "Filter": {1: Field("resourceType", TEXT)},
    "CheckPermissionRequest": {1: Field("consistency", "Consistency"), 2: Field("resource", "Object"), 3: Field("permission", TEXT),
                               4: Field("subject", "Subject"), 5: Field("context", ANY)},
    "CheckPermissionResponse": {1: Field("checkedAt", "Token"), 2: Field("permissionship", PERMISSIONSHIP)},
    "Item": ITEM,
    "Answer": {1: Field("permissionship", PERMISSIONSHIP)},
    "Pair": {1: Field("request", "Item"), 2: Field("item", "Answer"), 3: Field("error", ANY)},
    "CheckBulkPermissionsRequest": {1: Field("consistency", "Consistency"), 2: Field("items", "Item", True)},
    "CheckBulkPermissionsResponse": {1: Field("checkedAt", "Token"), 2: Field("pairs", "Pair", True)},
    "LookupResourcesRequest": {1: Field("consistency", "Consistency"), 2: Field("resourceObjectType", TEXT),
                               3: Field("permission", TEXT), 4: Field("subject", "Subject"), 5: Field("context", ANY)},
    "LookupResourcesResponse": {1: Field("lookedUpAt", "Token"), 2: Field("resourceObjectId", TEXT), 3: Field("permissionship", FOUND)},
    "LookupSubjectsRequest": {1: Field("consistency", "Consistency"), 2: Field("resource", "Object"), 3: Field("permission", TEXT),
                              4: Field("subjectObjectType", TEXT), 5: Field("optionalSubjectRelation", TEXT), 6: Field("context", ANY)},
    "LookupSubjectsResponse": {1: Field("lookedUpAt", "Token"), 2: Field("subjectObjectId", TEXT), 4: Field("permissionship", FOUND),
                               6: Field("subject", "Resolved")},
    "Resolved": {1: Field("subjectObjectId", TEXT), 2: Field("permissionship", FOUND)},
    "WriteRelationshipsRequest": {}, "DeleteRelationshipsRequest": {},
    "WriteRelationshipsResponse": {1: Field("writtenAt", "Token")},
    "DeleteRelationshipsResponse": {1: Field("deletedAt", "Token")},
    "ReadRelationshipsRequest": {1: Field("consistency", "Consistency"), 2: Field("relationshipFilter", "Filter")},
    "ReadRelationshipsResponse": {1: Field("readAt", "Token"), 2: Field("relationship", "Relationship")},
    "ReadSchemaRequest": {},
    "ReadSchemaResponse": {1: Field("schemaText", TEXT), 2: Field("readAt", "Token")},
    "WatchRequest": {2: Field("optionalStartCursor", "Token"), 4: Field("optionalUpdateKinds", KIND, True)},
    "WatchResponse": {1: Field("updates", "Update", True), 2: Field("changesThrough", "Token"), 4: Field("schemaUpdated", BOOL),
                      5: Field("isCheckpoint", BOOL)},
}, frozenset(("Consistency", "Relationship")))
