"""The messages of both services' gRPC by Google's own library, from their public definitions; apart from the recorder's reader."""
import re

from google.protobuf import descriptor_pb2, descriptor_pool, json_format, message_factory, struct_pb2, timestamp_pb2, wrappers_pb2

SPICEDB = """
message ZedToken { string token = 1; }
message Consistency { bool minimize_latency = 1; ZedToken at_least_as_fresh = 2; ZedToken at_exact_snapshot = 3; bool fully_consistent = 4; }
message ObjectReference { string object_type = 1; string object_id = 2; }
message SubjectReference { ObjectReference object = 1; string optional_relation = 2; }
message Relationship { ObjectReference resource = 1; string relation = 2; SubjectReference subject = 3; }
message RelationshipUpdate { Operation operation = 1; Relationship relationship = 2; }
enum Operation { OPERATION_UNSPECIFIED = 0; OPERATION_CREATE = 1; OPERATION_TOUCH = 2; OPERATION_DELETE = 3; }
enum Permissionship { PERMISSIONSHIP_UNSPECIFIED = 0; PERMISSIONSHIP_NO_PERMISSION = 1; PERMISSIONSHIP_HAS_PERMISSION = 2; PERMISSIONSHIP_CONDITIONAL_PERMISSION = 3; }
enum LookupPermissionship { LOOKUP_PERMISSIONSHIP_UNSPECIFIED = 0; LOOKUP_PERMISSIONSHIP_HAS_PERMISSION = 1; LOOKUP_PERMISSIONSHIP_CONDITIONAL_PERMISSION = 2; }
enum WatchKind { WATCH_KIND_UNSPECIFIED = 0; WATCH_KIND_INCLUDE_RELATIONSHIP_UPDATES = 1; WATCH_KIND_INCLUDE_SCHEMA_UPDATES = 2; WATCH_KIND_INCLUDE_CHECKPOINTS = 3; }
message CheckPermissionRequest { Consistency consistency = 1; ObjectReference resource = 2; string permission = 3; SubjectReference subject = 4; Struct context = 5; bool with_tracing = 6; }
message CheckPermissionResponse { ZedToken checked_at = 1; Permissionship permissionship = 2; }
message CheckBulkPermissionsRequestItem { ObjectReference resource = 1; string permission = 2; SubjectReference subject = 3; Struct context = 4; }
message CheckBulkPermissionsRequest { Consistency consistency = 1; repeated CheckBulkPermissionsRequestItem items = 2; }
message CheckBulkPermissionsResponseItem { Permissionship permissionship = 1; }
message CheckBulkPermissionsPair { CheckBulkPermissionsRequestItem request = 1; CheckBulkPermissionsResponseItem item = 2; }
message CheckBulkPermissionsResponse { ZedToken checked_at = 1; repeated CheckBulkPermissionsPair pairs = 2; }
message LookupResourcesRequest { Consistency consistency = 1; string resource_object_type = 2; string permission = 3; SubjectReference subject = 4; Struct context = 5; }
message LookupResourcesResponse { ZedToken looked_up_at = 1; string resource_object_id = 2; LookupPermissionship permissionship = 3; }
message WriteRelationshipsRequest { repeated RelationshipUpdate updates = 1; }
message WriteRelationshipsResponse { ZedToken written_at = 1; }
message RelationshipFilter { string resource_type = 1; }
message ReadRelationshipsRequest { Consistency consistency = 1; RelationshipFilter relationship_filter = 2; }
message ReadRelationshipsResponse { ZedToken read_at = 1; Relationship relationship = 2; }
message ReadSchemaRequest { }
message ReadSchemaResponse { string schema_text = 1; ZedToken read_at = 2; }
message WriteSchemaRequest { string schema = 1; }
message WriteSchemaResponse { ZedToken written_at = 1; }
message WatchRequest { repeated string optional_object_types = 1; ZedToken optional_start_cursor = 2; repeated WatchKind optional_update_kinds = 4; }
message WatchResponse { repeated RelationshipUpdate updates = 1; ZedToken changes_through = 2; bool schema_updated = 4; bool is_checkpoint = 5; }
"""
OPENFGA = """
message Object { string type = 1; string id = 2; }
message UsersetUser { string type = 1; string id = 2; string relation = 3; }
message TypedWildcard { string type = 1; }
message User { Object object = 1; UsersetUser userset = 2; TypedWildcard wildcard = 3; }
message UserTypeFilter { string type = 1; string relation = 2; }
message RelationshipCondition { string name = 1; Struct context = 2; }
message TupleKey { string user = 1; string relation = 2; string object = 3; RelationshipCondition condition = 4; }
message ContextualTupleKeys { repeated TupleKey tuple_keys = 1; }
enum TupleOperation { TUPLE_OPERATION_WRITE = 0; TUPLE_OPERATION_DELETE = 1; }
enum ConsistencyPreference { UNSPECIFIED = 0; MINIMIZE_LATENCY = 100; HIGHER_CONSISTENCY = 200; }
message TupleChange { TupleKey tuple_key = 1; TupleOperation operation = 2; Timestamp timestamp = 3; }
message CheckRequest { string store_id = 1; TupleKey tuple_key = 2; ContextualTupleKeys contextual_tuples = 3; string authorization_model_id = 4; bool trace = 5; Struct context = 6; ConsistencyPreference consistency = 7; }
message CheckResponse { bool allowed = 1; string resolution = 2; }
message BatchCheckItem { TupleKey tuple_key = 1; ContextualTupleKeys contextual_tuples = 2; Struct context = 3; string correlation_id = 4; }
message BatchCheckRequest { string store_id = 1; repeated BatchCheckItem checks = 2; string authorization_model_id = 3; ConsistencyPreference consistency = 4; }
message BatchCheckSingleResult { bool allowed = 1; }
message BatchCheckResponse { map BatchCheckSingleResult result = 1; }
message ListObjectsRequest { string store_id = 1; string authorization_model_id = 2; string type = 3; string relation = 4; string user = 5; ContextualTupleKeys contextual_tuples = 6; Struct context = 7; ConsistencyPreference consistency = 8; }
message ListObjectsResponse { repeated string objects = 1; }
message StreamedListObjectsRequest { string store_id = 1; string authorization_model_id = 2; string type = 3; string relation = 4; string user = 5; ContextualTupleKeys contextual_tuples = 6; Struct context = 7; ConsistencyPreference consistency = 8; }
message StreamedListObjectsResponse { string object = 1; }
message WriteRequestWrites { repeated TupleKey tuple_keys = 1; string on_duplicate = 2; }
message WriteRequestDeletes { repeated TupleKey tuple_keys = 1; string on_missing = 2; }
message WriteRequest { string store_id = 1; WriteRequestWrites writes = 2; WriteRequestDeletes deletes = 3; string authorization_model_id = 4; }
message WriteResponse { }
message ReadChangesRequest { string store_id = 1; string type = 2; Int32Value page_size = 3; string continuation_token = 4; Timestamp start_time = 5; }
message ReadChangesResponse { repeated TupleChange changes = 1; string continuation_token = 2; }
message Store { string id = 1; string name = 2; }
message ListStoresRequest { Int32Value page_size = 1; string continuation_token = 2; }
message ListStoresResponse { repeated Store stores = 1; string continuation_token = 2; }
message ReadAuthorizationModelsRequest { string store_id = 1; Int32Value page_size = 2; string continuation_token = 3; }
message ReadAuthorizationModelsResponse { repeated AuthorizationModel authorization_models = 1; string continuation_token = 2; }
message WriteAuthorizationModelRequest { string store_id = 1; repeated TypeDefinition type_definitions = 2; string schema_version = 3; }
message WriteAuthorizationModelResponse { string authorization_model_id = 1; }
message AuthorizationModel { string id = 1; string schema_version = 2; repeated TypeDefinition type_definitions = 3; }
message TypeDefinition { string type = 1; map Userset relations = 2; Metadata metadata = 3; }
message Metadata { map RelationMetadata relations = 1; string module = 2; }
message RelationMetadata { repeated RelationReference directly_related_user_types = 1; string module = 2; }
message RelationReference { string type = 1; string relation = 2; Wildcard wildcard = 3; string condition = 4; }
message Wildcard { }
message DirectUserset { }
message ObjectRelation { string object = 1; string relation = 2; }
message TupleToUserset { ObjectRelation tupleset = 1; ObjectRelation computedUserset = 2; }
message Usersets { repeated Userset child = 1; }
message Difference { Userset base = 1; Userset subtract = 2; }
message Userset { DirectUserset this = 1; ObjectRelation computedUserset = 2; TupleToUserset tupleToUserset = 3; Usersets union = 4; Usersets intersection = 5; Difference difference = 6; }
"""
TYPES = {"string": 9, "bool": 8}
BORROWED = {"Struct": struct_pb2, "Timestamp": timestamp_pb2, "Int32Value": wrappers_pb2}


class Messages:
    """Encoders and decoders of an API's messages, from and to the JSON of its gateway."""

    def __init__(self, package, definitions):
        file = descriptor_pb2.FileDescriptorProto(name="api.proto", package=package, syntax="proto3",
                                                  dependency=[one.DESCRIPTOR.name for one in BORROWED.values()])
        enums = set(re.findall(r"enum (\w+)", definitions))
        for kind, name, inner in re.findall(r"(message|enum) (\w+) \{ (.*?)\}", definitions):
            if kind == "enum":
                made = file.enum_type.add(name=name)
                for value, number in re.findall(r"(\w+) = (\d+);", inner):
                    made.value.add(name=value, number=int(number))
                continue
            made = file.message_type.add(name=name)
            for many, of, field, number in re.findall(r"(repeated |map )?(\w+) (\w+) = (\d+);", inner):
                named = "." + (("google.protobuf." if of in BORROWED else package + ".") + of)
                kinds = TYPES.get(of, 14 if of in enums else 11)
                if many == "map ":
                    # A map is a list of messages, each of a name and a value.
                    entry = made.nested_type.add(name=field.title().replace("_", "") + "Entry")
                    entry.options.map_entry = True
                    entry.field.add(name="key", number=1, label=1, type=9)
                    entry.field.add(name="value", number=2, label=1, type=kinds, type_name=named)
                    named, kinds = ".%s.%s.%s" % (package, name, entry.name), 11
                added = made.field.add(name=field, number=int(number), label=3 if many else 1, type=kinds)
                if kinds not in TYPES.values():
                    added.type_name = named
        pool = descriptor_pool.DescriptorPool()
        for one in BORROWED.values():
            pool.AddSerializedFile(one.DESCRIPTOR.serialized_pb)
        pool.Add(file)
        factory = message_factory.MessageFactory(pool)
        self.classes = {one.name: factory.GetPrototype(pool.FindMessageTypeByName("%s.%s" % (package, one.name))) for one in file.message_type}
        self.is_snake = package.startswith("openfga")

    def encoder(self, name):
        """Bytes of a message from the JSON of the gateway; keys that the API does not have are left out."""
        return lambda value: json_format.ParseDict(value, self.classes[name](), ignore_unknown_fields=self.is_snake).SerializeToString()

    def decoder(self, name):
        return lambda data: json_format.MessageToDict(self.classes[name].FromString(data), preserving_proto_field_name=self.is_snake)


SPICEDB_MESSAGES, OPENFGA_MESSAGES = Messages("authzed.api.v1", SPICEDB), Messages("openfga.v1", OPENFGA)
