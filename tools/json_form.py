"""Messages of the Protocol Buffers package as dictionaries, in their JSON form with the names of fields as they are declared; and back.

The package looks at a field again each time that it is converted. Here the fields of a type are looked at once, which takes half of the
time. Types that have something with a form of its own are left to the package: maps, extensions, groups, the types of google.protobuf, and
for the way back oneofs.
"""
import math
import re
import struct
from base64 import b64decode, b64encode

from google.protobuf import json_format
from google.protobuf.descriptor import FieldDescriptor

WELL_KNOWN = "google.protobuf."
WHOLE = re.compile(r"-?[0-9]+")
SHORT = {FieldDescriptor.CPPTYPE_INT32, FieldDescriptor.CPPTYPE_UINT32}
LONG = {FieldDescriptor.CPPTYPE_INT64, FieldDescriptor.CPPTYPE_UINT64}
GREATEST_FLOAT = 3.4028234e38


class Unlike(Exception):
    """A value in another form than the usual one of its field."""


def is_repeated(field):
    """Whether a field is a list; newer packages have a word of their own for it."""
    return field.is_repeated if hasattr(field, "is_repeated") else field.label == FieldDescriptor.LABEL_REPEATED


def same(value):
    return value


def shown_double(value):
    if math.isfinite(value):
        return value
    return "NaN" if math.isnan(value) else "Infinity" if value > 0 else "-Infinity"


def shown_float(value):
    """A number of 32 bits with as few digits as tell it from others."""
    if not math.isfinite(value):
        return shown_double(value)
    for digits in range(6, 9):
        short = float(f"{value:.{digits}g}")
        try:
            if struct.unpack("<f", struct.pack("<f", short))[0] == value:
                return short
        except OverflowError:
            pass
    return value


def shown_bytes(value):
    return b64encode(value).decode()


def short_number(value):
    if type(value) is not int:
        raise Unlike
    return value


def long_number(value):
    if type(value) is str and WHOLE.fullmatch(value):
        return int(value)
    return short_number(value)


def real_number(value):
    if type(value) not in (int, float) or not -GREATEST_FLOAT < value < GREATEST_FLOAT:
        raise Unlike
    return value


def truth(value):
    if type(value) is not bool:
        raise Unlike
    return value


def text(value):
    if type(value) is not str:
        raise Unlike
    return value


def read_bytes(value):
    try:
        return b64decode(text(value), validate=True)
    except ValueError:
        raise Unlike from None


class Form:
    """How the messages of a type are converted. `is_plain` says whether that can be done here, and `is_plain_back` whether back."""

    def __init__(self, descriptor, forms):
        forms[descriptor.full_name] = self
        self.is_plain = not descriptor.full_name.startswith(WELL_KNOWN) and not descriptor.is_extendable
        self.is_plain_back = self.is_plain and not descriptor.oneofs
        self.shown, self.read = {}, {}
        for field in descriptor.fields:
            self.add(field, forms)

    def add(self, field, forms):
        inner = field.message_type
        if inner:
            form = forms.get(inner.full_name) or Form(inner, forms)
            is_odd = field.type == FieldDescriptor.TYPE_GROUP or inner.GetOptions().map_entry
            self.is_plain &= form.is_plain and not is_odd
            self.is_plain_back &= form.is_plain_back and not is_odd
            show, read = form.dictionary, form.arguments
        else:
            show, read = functions_of(field)
        is_list = is_repeated(field)
        self.shown[field.number] = (field.name, show, is_list)
        self.read[field.name] = (read, is_list)

    def dictionary(self, message):
        """A message as a dictionary."""
        found, shown = {}, self.shown
        for field, value in message.ListFields():
            name, show, is_list = shown[field.number]
            found[name] = [show(it) for it in value] if is_list else show(value)
        return found

    def arguments(self, given):
        """What a message of the type is made with, from a dictionary; `Unlike` where that has something unusual."""
        if type(given) is not dict:
            raise Unlike
        found, known = {}, self.read
        for name, value in given.items():
            if name not in known:
                raise Unlike
            read, is_list = known[name]
            if is_list:
                if type(value) is not list:
                    raise Unlike
                found[name] = [read(it) for it in value]
            else:
                found[name] = read(value)
        return found


def functions_of(field):
    """How a value of a field that is no message is shown, and how it is read."""
    kind = field.cpp_type
    if kind == FieldDescriptor.CPPTYPE_ENUM:
        numbers = {it.number: it.name for it in reversed(field.enum_type.values)}
        names = {it.name: it.number for it in field.enum_type.values}

        def number_of(value):
            if type(value) is not str or value not in names:
                raise Unlike
            return names[value]

        return lambda value: numbers.get(value, value), number_of
    if kind in SHORT:
        return same, short_number
    if kind in LONG:
        return str, long_number
    if kind == FieldDescriptor.CPPTYPE_BOOL:
        return same, truth
    if kind == FieldDescriptor.CPPTYPE_STRING:
        return (shown_bytes, read_bytes) if field.type == FieldDescriptor.TYPE_BYTES else (same, text)
    return (shown_float if kind == FieldDescriptor.CPPTYPE_FLOAT else shown_double), real_number


FORMS = {}  # by the class of its messages


def form_of(kind):
    if kind not in FORMS:
        FORMS[kind] = Form(kind.DESCRIPTOR, {})
    return FORMS[kind]


def dictionary_of(message):
    """A message as a dictionary."""
    form = form_of(type(message))
    return form.dictionary(message) if form.is_plain else json_format.MessageToDict(message, preserving_proto_field_name=True)


def message_from(kind, given):
    """The message of a class that a dictionary says."""
    form = form_of(kind)
    if form.is_plain_back:
        try:
            return kind(**form.arguments(given))
        except (TypeError, Unlike, ValueError):
            pass  # the package takes it, or says what is wrong with it
    return json_format.ParseDict(given, kind())
