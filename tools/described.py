"""Messages of types that a record describes, by the Protocol Buffers package."""
import importlib
import warnings

from google.protobuf import descriptor_pb2, descriptor_pool, json_format, message_factory
from google.protobuf.message import DecodeError, EncodeError

import json_form
from json_form import WELL_KNOWN, is_repeated
from record import block, fields_of

DEEPEST = 4  # messages in messages have columns of their own up to here
FAULTS = (AttributeError, KeyError, TypeError, ValueError, DecodeError, RecursionError, RuntimeWarning, SystemError)

# Of bytes that are a message only up to some place the package warns, and gives that message: here that is a fault. Where it is written in C
# the warning comes as the cause of a SystemError.
warnings.filterwarnings("error", message=".*Not all data was converted", category=RuntimeWarning)


def add_files(pool, description, known):
    """Adds the files of a description to a pool, the ones that it depends on first.

    A description is Cyber RT's message ProtoDesc { 1 desc: bytes, repeated 2 dependencies: ProtoDesc }, whose desc is a
    FileDescriptorProto.
    """
    fields = fields_of(description)
    for number, value in fields:
        if number == 2:
            add_files(pool, value, known)
    file = descriptor_pb2.FileDescriptorProto.FromString(dict(fields).get(1, b""))
    if file.name not in known:
        known.add(file.name)
        pool.Add(file)


def pool_of(description):
    """The types that a description has."""
    pool = descriptor_pool.DescriptorPool()
    add_files(pool, description, set())
    return pool


def add_from_set(pool, files, name, known):
    """Adds a file of a set to a pool, the ones that it depends on first. The package itself has the files of `google/protobuf`."""
    if name in known:
        return
    known.add(name)
    if name not in files and name.startswith("google/protobuf/"):
        importlib.import_module(name.removesuffix(".proto").replace("/", ".") + "_pb2")
        files[name] = descriptor_pb2.FileDescriptorProto()
        descriptor_pool.Default().FindFileByName(name).CopyToProto(files[name])
    if name not in files:
        raise ValueError(f"{name} is not in it, and another file imports it; protoc puts it in with --include_imports")
    for other in files[name].dependency:
        add_from_set(pool, files, other, known)
    pool.Add(files[name])


def pool_of_set(path):
    """The types of a file that has a FileDescriptorSet; a ValueError where it has none."""
    with open(path, "rb") as file:
        data = file.read()
    pool, known = descriptor_pool.DescriptorPool(), set()
    try:
        files = {it.name: it for it in descriptor_pb2.FileDescriptorSet.FromString(data).file if it.name}
        for name in list(files):
            add_from_set(pool, files, name, known)
    except (ImportError, *FAULTS) as error:
        raise ValueError(f"{path}: no FileDescriptorSet: {error.__cause__ or error}") from None
    if not known:
        raise ValueError(f"{path}: no FileDescriptorSet")
    return pool


def class_in(pool, kind):
    """The class of the messages of a type; a KeyError where the pool doesn't have it."""
    found = pool.FindMessageTypeByName(kind)
    if hasattr(message_factory, "GetMessageClass"):
        return message_factory.GetMessageClass(found)
    return message_factory.MessageFactory(pool).GetPrototype(found)


def class_of(kind, description):
    """The class of the messages of a type; a ValueError where its description can't be read."""
    try:
        return class_in(pool_of(description), kind)
    except FAULTS as error:
        raise ValueError(f"no descriptor of {kind}: {error.__cause__ or error}") from None


class Types:
    """The classes of a record's messages. What a channel doesn't describe itself is looked for by the name of its type."""

    def __init__(self, forms, path=None, pool=None):
        """`forms` has the type and the description of each channel. `path` names a file with a FileDescriptorSet, whose types `pool` has."""
        self.forms, self.path = forms, path
        self.set = pool_of_set(path) if path and pool is None else pool
        self.pools = {}

    def pool(self, description):
        """The types of a description, None where it can't be read."""
        if description not in self.pools:
            try:
                self.pools[description] = pool_of(description)
            except FAULTS:
                self.pools[description] = None
        return self.pools[description]

    def elsewhere(self, kind):
        """The class of a type by the other channels, those of this type first, or by the set; None where none of these has it."""
        same = [description for name, description in self.forms.values() if name == kind]
        others = [description for name, description in self.forms.values() if name != kind]
        pools = [self.pool(it) for it in dict.fromkeys(same + others) if it] + [self.set]
        for pool in filter(None, pools):
            try:
                return class_in(pool, kind.decode("utf-8", "replace"))
            except FAULTS:
                continue
        return None

    def of(self, channel):
        """The class of a channel's messages, None where nothing is said of its type. A ValueError says why there is none else."""
        kind, description = self.forms.get(channel, (b"", b""))
        name, fault = kind.decode("utf-8", "replace"), None
        if not kind:
            return None
        if description:
            try:
                return class_of(name, description)
            except ValueError as error:
                fault = error
        found = self.elsewhere(kind)
        if found is None and (fault or self.path):
            raise fault or ValueError(f"no descriptor of {name}, neither in the record nor in {self.path}")
        return found


def message_of(kind, content):
    """The message of a class that some bytes hold, or None where they hold none."""
    try:
        return kind.FromString(content)
    except FAULTS:
        return None


def has_bytes(value):
    """Whether there are bytes in what was made of a message: some implementations of the package give them for a string that isn't UTF-8."""
    if isinstance(value, dict):
        return any(map(has_bytes, value.values()))
    return any(map(has_bytes, value)) if isinstance(value, list) else isinstance(value, bytes)


def content_from(kind, message):
    """The bytes of a message of a class that a dictionary says; a ValueError where it says none."""
    try:
        return json_form.message_from(kind, message).SerializeToString(deterministic=True)
    except (json_format.Error, EncodeError, AttributeError, *FAULTS) as error:
        raise ValueError(f"no {kind.DESCRIPTOR.full_name}: {' '.join(str(error).split())}") from None


def description_of(kind):
    """The description of a class, as records of Cyber RT have it."""
    return description_of_file(kind.DESCRIPTOR.file, set())


def description_of_file(file, known):
    """The description of a file, with the files that it depends on; those that are known are left out."""
    own = descriptor_pb2.FileDescriptorProto()
    file.CopyToProto(own)
    others = []
    for it in file.dependencies:
        if it.name not in known:
            known.add(it.name)
            others.append(block(2, description_of_file(it, known)))
    return block(1, own.SerializeToString(deterministic=True)) + b"".join(others)


def dictionary_of(kind, content):
    """The message of a class that some bytes hold, as a dictionary, or None where they hold none."""
    message = message_of(kind, content)
    try:
        found = None if message is None else json_form.dictionary_of(message)
    except (json_format.Error, *FAULTS):
        return None
    return None if has_bytes(found) else found


def is_packed(field):
    """Whether the numbers of a list are written one behind another, as one field; newer packages have a word of their own for it."""
    if hasattr(field, "is_packed"):
        return field.is_packed
    if field.GetOptions().HasField("packed"):
        return field.GetOptions().packed
    file = descriptor_pb2.FileDescriptorProto()
    field.file.CopyToProto(file)
    return file.syntax == "proto3"


def columns_of(descriptor, path=()):
    """The fields of a message, each as the fields on the way to it; repeated ones, and those of a deep message, as they are."""
    found = []
    for field in descriptor.fields:
        kind, here = field.message_type, path + (field,)
        if kind and not is_repeated(field) and not kind.full_name.startswith(WELL_KNOWN) and len(here) < DEEPEST:
            found += columns_of(kind, here)
        else:
            found.append(here)
    return found


def column_name(path):
    """The head of a column."""
    return ".".join(field.name for field in path)


def default_of(field):
    """What a field has in JSON form that isn't in the message: its zero, and nothing where the message may as well be without it."""
    if is_repeated(field) or field.has_presence:
        return None
    if field.enum_type:
        return field.enum_type.values_by_number[0].name
    if field.cpp_type == field.CPPTYPE_STRING:  # bytes, too
        return ""
    return "0" if field.cpp_type in (field.CPPTYPE_INT64, field.CPPTYPE_UINT64) else field.default_value


def with_zeros(value, kind):
    """A message in JSON form, or the messages of a list or a map, with the zeros that the form leaves out. `kind` is None for others."""
    if kind is None or kind.full_name.startswith(WELL_KNOWN):
        return value
    if isinstance(value, list):
        return [with_zeros(it, kind) for it in value]
    if kind.GetOptions().map_entry:
        return {key: with_zeros(it, kind.fields_by_name["value"].message_type) for key, it in value.items()}
    found = {}
    for field in kind.fields:
        it = value.get(field.name, default_of(field))
        if it is not None:
            found[field.name] = with_zeros(it, field.message_type)
    return found | {name: it for name, it in value.items() if name not in found}


def value_at(message, path):
    """The value of a column in a message that is a dictionary, None where the message doesn't have it."""
    for field in path[:-1]:
        message = message.get(field.name)
        if message is None:
            return None
    found = message.get(path[-1].name)
    return default_of(path[-1]) if found is None else with_zeros(found, path[-1].message_type)
