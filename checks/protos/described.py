"""What Python's `google.protobuf` tells of the parts of files, in the words of the rows of crates/pbx_link_rows."""
from google.protobuf import descriptor_pb2 as pb
from google.protobuf import descriptor_pool

SCALARS = {number: name[5:].lower() for name, number in pb.FieldDescriptorProto.Type.items()}
LABELS = {1: "optional", 2: "required", 3: "repeated"}
UNPACKABLE = (9, 11, 12)


class Pool:
    """The files of some records, by Python's descriptors."""

    def __init__(self, records):
        self.pool = descriptor_pool.DescriptorPool()
        self.files = [pb.FileDescriptorProto.FromString(record) for record in records]
        self.fields = {}
        for file in self.files:
            self.pool.Add(file)
            package = file.package + "." if file.package else ""
            self.keep(package, file.extension)
            for message in file.message_type:
                self.keep_message(package, message)

    def keep(self, scope, fields):
        for field in fields:
            self.fields[scope + field.name] = field

    def keep_message(self, scope, message):
        scope = f"{scope}{message.name}."
        self.keep(scope, [*message.field, *message.extension])
        for nested in message.nested_type:
            self.keep_message(scope, nested)

    def kind(self, field):
        if field.type == 11:
            return f"message {field.message_type.full_name}"
        if field.type == 14:
            return f"enum {field.enum_type.full_name}"
        return SCALARS[field.type]

    def is_map(self, field):
        return field.label == 3 and field.type == 11 and field.message_type.GetOptions().map_entry

    def is_packed(self, field):
        record = self.fields[field.full_name]
        if field.label != 3 or field.type in UNPACKABLE:
            return False
        return record.options.packed if record.options.HasField("packed") else field.file.syntax == "proto3"

    def with_default(self, field, told):
        """The words, and behind them the default that the field declares."""
        record = self.fields[field.full_name]
        return " ".join(told + [f"default={record.default_value}"] * record.HasField("default_value"))

    def words(self, field):
        """Its kind, its label, and what else holds of a field or an extension, the oneof of a field among it."""
        told = [self.kind(field), LABELS[field.label]]
        if field.label == 3:
            told.append("map" if self.is_map(field) else "list")
        if self.is_packed(field):
            told.append("packed")
        if field.has_presence:
            told.append("presence")
        if field.containing_oneof:
            told.append(f"in {field.containing_oneof.name}")
        return self.with_default(field, told)

    def field(self, field):
        return f"({field.number} {field.full_name} {field.json_name} {self.words(field)})"

    def message(self, name):
        message = self.pool.FindMessageTypeByName(name)
        entry = " entry" if message.GetOptions().map_entry else ""
        fields = "".join(self.field(field) for field in message.fields)
        oneofs = "".join("<" + " ".join([oneof.name, *(field.name for field in oneof.fields)]) + ">" for oneof in message.oneofs)
        found = map(self.pool.FindExtensionByName, self.in_order("extension"))
        extensions = "".join(self.extension(field.full_name) for field in found if field.containing_type is message)
        return f"{message.name} {name} in {message.file.name}{entry}{fields}{oneofs}{extensions}"

    def extension(self, name):
        field = self.pool.FindExtensionByName(name)
        scope = f" in {field.extension_scope.full_name}" if field.extension_scope else ""
        return f"({field.number} {name} [{name}] {self.words(field)} extends {field.containing_type.full_name}{scope})"

    def enum(self, name):
        enum = self.pool.FindEnumTypeByName(name)
        first = {}
        for value in enum.values:
            first.setdefault(value.number, value.name)
        return name + "".join(f"({value.name} {value.number} {first[value.number]} {value.number})" for value in enum.values)

    def service(self, name):
        service = self.pool.FindServiceByName(name)
        return name + "".join(self.method(method) for method in service.methods)

    def method(self, method):
        takes = "stream " * method.client_streaming + method.input_type.full_name
        gives = "stream " * method.server_streaming + method.output_type.full_name
        return f"({method.name} {takes} {gives})"

    def declared(self, name):
        """What a file declares outside of messages, by kind, each in declared order."""
        file = self.pool.FindFileByName(name)
        told = [("message", file.message_types_by_name), ("enum", file.enum_types_by_name), ("extension", file.extensions_by_name), ("service", file.services_by_name)]
        return "".join(f"({kind} {part.full_name})" for kind, parts in told for part in parts.values())

    def names(self, kind):
        """The full names of the messages, or of the parts of another kind, in the order of the records."""
        found = []

        def walk(scope, record):
            if kind in ("enum", "extension"):
                found.extend(scope + part.name for part in getattr(record, f"{kind}_type" if kind == "enum" else kind))
            for nested in record.nested_type if isinstance(record, pb.DescriptorProto) else record.message_type:
                if kind == "message":
                    found.append(scope + nested.name)
                walk(f"{scope}{nested.name}.", nested)

        for file in self.files:
            scope = file.package + "." if file.package else ""
            walk(scope, file)
            if kind == "service":
                found.extend(scope + service.name for service in file.service)
        return found

    # ---- the shape of the types

    def in_order(self, kind):
        """The parts of a kind in the order of the shape: those of each file in the bodies of messages first, then those of the file itself."""
        found = []

        def walk(scope, message):
            full = f"{scope}{message.name}."
            own = [full + part.name for part in (message.enum_type if kind == "enum" else message.extension)]
            if kind == "enum":
                found.extend(own)
            for nested in message.nested_type:
                walk(full, nested)
            if kind == "extension":
                found.extend(own)

        for file in self.files:
            scope = file.package + "." if file.package else ""
            for message in file.message_type:
                walk(scope, message)
            found.extend(scope + part.name for part in (file.enum_type if kind == "enum" else file.extension))
        return found

    def place(self, field):
        """What one value is: a message or an enum by its place."""
        if field.type == 11:
            return f"message{self.names('message').index(field.message_type.full_name)}"
        if field.type == 14:
            return f"enum{self.in_order('enum').index(field.enum_type.full_name)}"
        return SCALARS[field.type].capitalize()

    def shape_words(self, field):
        if self.is_map(field):
            key, value = (field.message_type.fields_by_name[name] for name in ("key", "value"))
            told = [self.place(value), f"map {self.place(key)}"]
        else:
            told = [self.place(field)] + ["repeated"] * (field.label == 3)
        told += ["extension"] * field.is_extension + ["presence"] * field.has_presence + ["packed"] * self.is_packed(field)
        if field.containing_oneof:
            told.append(f"oneof{field.containing_oneof.index}")
        return self.with_default(field, told)

    def shape(self, name):
        """The place of a message, its fields and extensions, and all enums."""
        message = self.pool.FindMessageTypeByName(name)
        told = "".join(f"({field.number} {field.name} {field.json_name} {self.shape_words(field)})" for field in message.fields)
        for extension in map(self.pool.FindExtensionByName, self.in_order("extension")):
            if extension.containing_type is message:
                told += f"({extension.number} {extension.full_name} [{extension.full_name}] {self.shape_words(extension)})"
        enums = "".join(f"<{enum.full_name}" + "".join(f" {value.name}={value.number}" for value in enum.values) + ">" for enum in map(self.pool.FindEnumTypeByName, self.in_order("enum")))
        return f"{self.names('message').index(name)} {name}{told}{enums}"
