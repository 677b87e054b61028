"""The value of a message, found by the numbers of its fields and the kind of the last one, worked out from the bytes of the wire form.

The kinds are the scalar types of Protocol Buffers (protobuf.dev, "Encoding"). Nothing here uses the Protocol Buffers package, with which
tests/tools/check_values.py compares it.
"""
from fractions import Fraction
from typing import NamedTuple

from record import read_varint, whole_of

LOWEST, GREATEST = -(2**63), 2**63 - 1
VARINT, EIGHT, BYTES, FOUR = 0, 1, 2, 5  # the types of fields on the wire
VARINTS = ("INT32", "INT64", "UINT32", "UINT64", "SINT32", "SINT64", "BOOL", "ENUM")
WIRE_TYPES = dict.fromkeys(VARINTS, VARINT)
WIRE_TYPES |= {"FIXED32": FOUR, "SFIXED32": FOUR, "FLOAT": FOUR, "FIXED64": EIGHT, "SFIXED64": EIGHT, "DOUBLE": EIGHT}


class Way(NamedTuple):
    """Where a value is: the numbers of the fields from the outside in, the kind of the last one, and by what it is multiplied."""

    path: tuple
    kind: str
    scale: int = 1  # of a FLOAT or DOUBLE


def wire_fields(data):
    """The fields of a message, each its number, its type and its value; a ValueError where the bytes are no wire form."""
    at, found = 0, []
    while at < len(data):
        tag, at = read_varint(data, at)
        kind = tag % 8
        if not 8 <= tag < 2**32 or kind not in (VARINT, EIGHT, BYTES, FOUR):
            raise ValueError("no tag, or a group")
        if kind == VARINT:
            value, at = read_varint(data, at)
        else:
            size, at = read_varint(data, at) if kind == BYTES else ({EIGHT: 8, FOUR: 4}[kind], at)
            if at + size > len(data):
                raise ValueError("a value that is cut")
            value, at = data[at : at + size], at + size
        found.append((tag // 8, kind, value if kind in (VARINT, BYTES) else int.from_bytes(value, "little")))
    return found


def last_field(data, number, kind):
    """The last field of a number and a type in a message, or None."""
    values = [value for here, its, value in wire_fields(data) if (here, its) == (number, kind)]
    return values[-1] if values else None


def value_by(content, way):
    """The value of a message of a channel that has this way, or None for one that has none: then a message is a whole number."""
    return whole_of(content) if way is None else value_of(content, way)


def value_of(content, way):
    """The value of a message, or None where it has none."""
    *outer, inmost = way.path
    try:
        for number in outer:
            content = last_field(content, number, BYTES)
            if content is None:
                return None
        bits = last_field(content, inmost, WIRE_TYPES[way.kind])
    except ValueError:
        return None
    return None if bits is None else number_of(bits, way)


def held_within(value):
    """A value held within the signed numbers of 64 bits."""
    return min(max(value, LOWEST), GREATEST)


def signed(bits, size):
    """The signed number that the low bits are in two's complement."""
    bits %= 2**size
    return bits - 2**size if bits >= 2 ** (size - 1) else bits


def zigzag(bits, size):
    """The signed number that the low bits are in zigzag: 0, 1, 2, 3 are 0, -1, 1, -2."""
    bits %= 2**size
    return -(bits // 2) - 1 if bits % 2 else bits // 2


def fraction_of(bits, exponent_size, fraction_size):
    """The number that the bits of IEEE 754 are, exactly; None for an infinity and for what isn't a number."""
    fraction, exponent = bits % 2**fraction_size, bits >> fraction_size & 2**exponent_size - 1
    if exponent == 2**exponent_size - 1:
        return None
    bias = 2 ** (exponent_size - 1) - 1
    digits = fraction if exponent == 0 else fraction + 2**fraction_size
    value = digits * Fraction(2) ** (max(exponent, 1) - bias - fraction_size)
    return -value if bits >> exponent_size + fraction_size else value


def number_of(bits, way):
    """The whole number that the bits of a field are, held within 64 signed bits; or None."""
    kind = way.kind
    if kind in ("FLOAT", "DOUBLE"):
        value = fraction_of(bits, *((8, 23) if kind == "FLOAT" else (11, 52)))
        return None if value is None else held_within(int(value * way.scale))  # `int` cuts towards zero
    if kind == "BOOL":
        return int(bits != 0)
    size = 32 if kind.endswith("32") or kind == "ENUM" else 64
    if kind.startswith("SINT"):
        return zigzag(bits, size)
    if kind in ("UINT32", "UINT64", "FIXED32", "FIXED64"):
        return held_within(bits % 2**size)
    return signed(bits, size)
