"""What hostile.py does to the files of a replay: records, texts and traces in which something is cut, doubled, exchanged, or at a limit.

A change takes the bytes of a file and a source of chance, and gives other bytes; of some the program accepts what comes out.
"""
import re

from dag import tokens_of
from mutations import changed_trace
from record import CHANNEL, HEADER_END, block, content_of, fields_of, number, record, section, sections_of, varint

LONGEST = 2**22  # bytes of what is made here
LARGE = [2**31 - 1, 2**31, 2**32 - 1, 2**32, 2**63 - 1, 2**63, 2**64 - 1]
# Beside the limits of numbers stand those of the formats: of a header, a name, a content, a section.
NUMBERS = [0, 1, 2, 127, 128, 2048, 2049, 4096, 4097, 2**28, 2**28 + 1, 2**29, 2**29 + 1, *LARGE]
WORDS = [str(it) for it in NUMBERS + [63, 64, 65, 2**64, 10**40, -1, -(2**31), -(2**31) - 1, -(2**63), -(2**63) - 1]]
EVERY_BYTE = bytes(range(256))
NAMES = [
    b"", b"/", b"/a", EVERY_BYTE, b"/" * 4096, b"/" * 4097, b"/" * 100_000, b"\xff", b"\xc0\xaf", b"\xed\xa0\x80", b"\xf4\x90\x80\x80",
    b"\n", b'"', b"\\", b"\0", b"\x7f", "é".encode(), "\U0010ffff".encode(), b"a,b", b"p@1", b"-x", b" ",
]  # fmt: skip


def any_bytes(chance, most):
    return bytes(chance.randrange(256) for _ in range(chance.randint(1, most)))


def any_range(data, chance, most):
    """Where a piece of so many bytes at most begins and ends."""
    begin = chance.randint(0, len(data))
    return begin, min(len(data), begin + chance.randint(1, most))


def flip(data, chance):
    at = chance.randrange(len(data))
    return data[:at] + bytes([data[at] ^ 1 << chance.randrange(8)]) + data[at + 1 :]


def set_byte(data, chance):
    at = chance.randrange(len(data))
    return data[:at] + bytes([chance.choice([0, 1, 0x0A, 0x22, 0x7F, 0x80, 0xFF, chance.randrange(256)])]) + data[at + 1 :]


def insert(data, chance):
    at = chance.randint(0, len(data))
    return data[:at] + chance.choice([any_bytes(chance, 8), b"\0" * 16, b"\xff" * 12, b"\x80" * 11, EVERY_BYTE]) + data[at:]


def cut_out(data, chance):
    begin, end = any_range(data, chance, 40)
    return data[:begin] + data[end:]


def cut_off(data, chance):
    return data[: chance.randint(0, len(data))]


def double(data, chance):
    begin, end = any_range(data, chance, chance.choice([1, 8, 100, len(data)]))
    return data[:begin] + data[begin:end] * chance.choice([2, 3, 100]) + data[end:]


def exchange(data, chance):
    """Two pieces change their places."""
    cuts = sorted(chance.randint(0, len(data)) for _ in range(4))
    first, second, third, fourth = cuts
    return data[:first] + data[third:fourth] + data[second:third] + data[first:second] + data[fourth:]


def append(data, chance):
    return data + chance.choice([b"\0", b"\n", data, any_bytes(chance, 40), b"\0" * 16, b"\0" * 70_000])


def replace_all(_, chance):
    return chance.choice([b"", b"\0", b"\n", EVERY_BYTE, b"\0" * HEADER_END, b"\xff" * 3000, any_bytes(chance, 3000)])


def huge_number(data, chance):
    """Eight bytes, or four, hold a large number, as in the head of a section."""
    size, at = chance.choice([4, 8]), chance.randint(0, len(data))
    return data[:at] + (chance.choice(LARGE) % 2 ** (8 * size)).to_bytes(size, "little") + data[at + size :]


BYTES = [flip, flip, set_byte, set_byte, insert, cut_out, cut_off, double, exchange, append, replace_all, huge_number]


def spoiled_bytes(data, chance):
    """A file that is changed in one to four ways, whatever it holds."""
    for _ in range(chance.choice([1, 1, 1, 2, 4])):
        data = chance.choice(BYTES)(data or b"\0", chance)
    return data


def long_varint(value, size):
    """A varint of so many bytes, the last of which may have its high bit set."""
    return bytes(value >> 7 * k & 127 | 128 for k in range(size - 1)) + bytes([value >> 7 * (size - 1) & 127])


def odd_varint(value, chance):
    """A number that is spelled too long, by which it may be none, or another number."""
    ways = [long_varint(value, 10), long_varint(value, 11), b"\x80" * 10, b"\xff" * 9 + b"\x7f", b"\xff" * 10 + b"\1", b"\x80" * 200]
    return chance.choice([*ways, varint(chance.choice(NUMBERS)), varint(chance.choice(LARGE))])


def odd_field(field, value, chance):
    """A field whose tag, length or number isn't spelled as it is written, or is another one."""
    is_number = isinstance(value, int)
    data = b"" if is_number else varint(len(value)) + value
    tag = 8 * field + (0 if is_number else 2)
    other = chance.choice([0, 8 * chance.choice([0, 1, 13, 2**29 - 1, 2**29]), 2**32 - 6, 2**32 + 2, *LARGE])
    return chance.choice([
        odd_varint(tag, chance) + (varint(value) if is_number else data),
        varint(tag) + (odd_varint(value, chance) if is_number else odd_varint(len(value), chance) + value),
        varint(other + chance.randrange(8)) + (varint(value) if is_number else data),
        varint(8 * field + chance.randrange(8)) + (varint(value) if is_number else data),
        number(field, chance.choice(NUMBERS)) if is_number else block(field, chance.choice(NAMES)),
        block(field, any_bytes(chance, 40)) if is_number else number(field, chance.choice(NUMBERS)),
    ])  # fmt: skip


def spelled(field, value):
    return number(field, value) if isinstance(value, int) else block(field, value)


def spoiled_message(data, chance, depth=2):
    """A message in which one field, or a field of one of its messages, is odd, comes twice, is left out, or at another place."""
    try:
        fields = fields_of(data)
    except ValueError:
        return spoiled_bytes(data, chance)
    if not fields:
        return odd_field(chance.randint(1, 15), chance.choice([0, b"x"]), chance)
    parts, at = [spelled(*it) for it in fields], chance.randrange(len(fields))
    field, value = fields[at]
    if isinstance(value, bytes) and depth and chance.random() < 0.6:
        parts[at] = block(field, spoiled_message(value, chance, depth - 1))
    elif chance.random() < 0.2:
        other = chance.randrange(len(parts))
        parts[at], parts[other] = parts[other], parts[at]
    else:
        odd = odd_field(field, value, chance)
        parts[at] = chance.choice([odd, odd, odd, b"", odd + parts[at], parts[at] * 2, parts[at] * 300])
    return b"".join(parts)


def parts_of(data):
    """The sections of a record, the header's the first and maybe an index the last, each a type and a body."""
    found, end = [(0, data[16 : 16 + int.from_bytes(data[8:16], "little")])], HEADER_END
    for kind, begin, end in sections_of(data):
        found.append((kind, data[begin:end]))
    return found + [(3, data[end + 16 :])] if end < len(data) else found


def odd_head(kind, body, chance):
    """A section whose head has another type, another size, or no zeros."""
    kind = chance.choice([kind, kind, 0, 1, 2, 3, 4, 5, 2**31, 2**32 - 1])
    near = [len(body) - 1, len(body) + 1, len(body) + 16]
    size = chance.choice([len(body), chance.choice(near), chance.choice(NUMBERS), chance.choice(LARGE)])
    zeros = chance.choice([bytes(4), bytes(4), b"\xff" * 4])
    return kind.to_bytes(4, "little") + zeros + (size % 2**64).to_bytes(8, "little") + body


def spoiled_sections(data, chance):
    """A record of which a section is changed, or several change their places."""
    parts = parts_of(data)
    whole = [section(*it) for it in parts]
    for _ in range(chance.choice([1, 1, 2])):
        at, other = chance.randrange(len(parts)), chance.randrange(len(parts))
        kind, body = parts[at]
        whole[at] = chance.choice([
            section(kind, spoiled_message(body, chance)), section(kind, spoiled_message(body, chance)), odd_head(kind, body, chance),
            section(kind, spoiled_bytes(body, chance)), b"", whole[at] * 2, whole[other], section(chance.randrange(6), body),
        ])  # fmt: skip
        if chance.random() < 0.3:
            whole[at], whole[other] = whole[other], whole[at]
    return whole[0].ljust(HEADER_END, chance.choice([b"\0", b"\0", b"\xff"])) + b"".join(whole[1:])


def extreme_record(_, chance):
    """A record that is well-formed, or nearly, whose channels, times, contents or numbers of them are at the limits."""
    names = [chance.choice(NAMES) for _ in range(3)] + [b"/a", b"/b"]
    if chance.random() < 0.1:
        names = [b"/%d" % k for k in range(chance.choice([1000, 1020, 1023, 1024, 1025]))]
    contents = [content_of(5), b"", b"\xff" * 11, EVERY_BYTE, content_of(-(2**63)), bytes(chance.choice([10, 1000, 1_000_000]))]
    times = [chance.choice(NUMBERS) for _ in range(4)]
    count = chance.choice([0, 1, 3, 40, len(names)])
    messages = [(names[k % len(names)], chance.choice(times), chance.choice(contents[:5])) for k in range(count)]
    if messages:
        messages[-1] = (*messages[-1][:2], contents[5])
    return record(messages, {name: (chance.choice(NAMES), chance.choice(NAMES)) for name in names})


def many_sections(data, chance):
    """A record in which a section comes some thousand times."""
    kind, body = chance.choice(parts_of(data)[1:] or [(CHANNEL, b"")])
    return data[:HEADER_END] + section(kind, chance.choice([b"", body[:100]])) * chance.choice([1000, 5000]) + data[HEADER_END:]


def spoiled_record(data, chance):
    """A record that is changed, or another one."""
    ways = [spoiled_bytes, spoiled_bytes, spoiled_sections, spoiled_sections, spoiled_sections, extreme_record, many_sections]
    changed = chance.choice(ways)(data, chance)
    return (spoiled_bytes(changed, chance) if chance.random() < 0.1 else changed)[:LONGEST]


TOKENS = [
    *(it.encode() for it in WORDS), b"00", b"08", b"0x", b"0xfffffffffffffffff", b"1.", b".5", b".", b"1e5", b"1e", b"1e+", b"1f", b"1x",
    b"9" * 5000,
    b'""', b"''", b'"', b"'", b'"\\q"', b'"\\400"', b'"\\x"', b'"\\u12"', b'"\\ud800"', b'"\\U00110000"', b'"\\U0010ffff"', b'"\\377\\0"',
    b'"' + b"a" * 100_000 + b'"', b'"' + EVERY_BYTE.replace(b"\n", b"").replace(b'"', b"").replace(b"\\", b"") + b'"', b'"\xff"',
    *(bytes([it]) for it in b"{}<>[]:,;-#\0\v\f\r\n"), b"- -", b"- 1", b"[a.b]: 1", b"[a/b] { }", b"#" + b"x" * 100_000, b"x" * 100_000,
    b"a: 1", b"NEWEST", b"OLDEST", b"true", b"inf", b"nan", b"name", b"out", b"readers", b"{ }", b"[ ]", b"[ { }, { } ]", b'": "',
]  # fmt: skip


def change_token(text, chance):
    """A token is left out, doubled, or another one stands before it or in its place."""
    try:
        tokens = [it for _, it in tokens_of(text)] or [b""]
    except ValueError:  # it is damaged already
        return spoiled_bytes(text, chance)
    for _ in range(chance.choice([1, 1, 2])):
        at = chance.randrange(len(tokens))
        token, other = tokens[at], chance.choice(TOKENS)
        tokens[at : at + 1] = chance.choice([[], [token, token], [other], [other], [other, token], [chance.choice(tokens)]])
        tokens = tokens or [b""]
    return b" ".join(tokens)


def change_number(text, chance):
    """A number becomes one at a limit."""
    found = list(re.finditer(rb"\b\d+\b", text))
    if not found:
        return text + b" processor_num: " + chance.choice(WORDS).encode()
    begin, end = chance.choice(found).span()
    return text[:begin] + chance.choice(WORDS).encode() + text[end:]


def change_string(text, chance):
    """A string becomes one of the hostile names, each byte of which has an escape."""
    found = list(re.finditer(rb'"[^"]*"', text))
    if not found:
        return text
    begin, end = chance.choice(found).span()
    return text[:begin] + b'"%s"' % b"".join(b"\\%03o" % it for it in chance.choice(NAMES)) + text[end:]


def repeat_message(text, chance):
    """A field with a message comes up to some thousand times."""
    found = list(re.finditer(rb"\b[a-z_]{1,40} \{[^{}]{0,400}(?:\{[^{}]{0,400}\}[^{}]{0,400}){0,8}\}", text[:20_000]))
    if not found:
        return text * 3
    begin, end = chance.choice(found).span()
    return text[:end] + text[begin:end] * chance.choice([1, 4, 63, 64, 1000]) + text[end:]


def deepen(text, chance):
    """Messages stand in one another, up to some thousand, or as many of them as may be."""
    pairs = [(b"a{", b"}"), (b"a<", b">"), (b"a:{", b"}"), (b"a:[{", b"}]"), (b"a[<", b">]"), (b"a{a:1 ", b"}"), (b"a:[", b"]")]
    opening, closing = chance.choice(pairs)
    depth = chance.choice([1, 62, 63, 64, 65, 66, 1000, 5000, 50_000])
    nested = opening * depth + closing * chance.choice([depth, depth, 0, depth - 1, depth + 1])
    at = chance.choice([0, len(text), chance.randint(0, len(text))])
    return text[:at] + b" " + nested + b" " + text[at:]


def spoiled_text(text, chance):
    """A configuration file that is changed."""
    ways = [change_token, change_token, change_token, change_number, change_number, change_string, repeat_message, deepen, spoiled_bytes]
    changed = chance.choice(ways)(text, chance)
    return (spoiled_bytes(changed, chance) if chance.random() < 0.1 else changed)[:LONGEST]


def change_line(trace, chance):
    """A line of a trace comes some thousand times, or something in it is at a limit."""
    lines = trace.split(b"\n")
    at = chance.randrange(len(lines))
    long = [b"roles " + b"0" * 200_000, b"call 1/1" + b" 1" * 5000, b"component " + b'"a' * 50_000, b'tape "%s" 1' % (b"a" * 100_000)]
    lines[at : at + 1] = chance.choice([[lines[at]] * 3000, [lines[at] * 50], [chance.choice(long)], [b""] * 5000, lines])
    return b"\n".join(lines)


def spoiled_trace(trace, chance):
    """A trace that is changed, mostly so that it stays one."""
    ways = [changed_trace, changed_trace, changed_trace, change_number, spoiled_bytes, change_line]
    return chance.choice(ways)(trace, chance)[:LONGEST]
