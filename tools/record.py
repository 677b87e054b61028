"""Uncompressed Cyber RT records, read and written as docs/FORMATS.md says; nothing here is taken from the program.

The tools and the tests share it. Names of channels and contents are bytes, times are in nanoseconds. A ValueError tells of bytes that are
no record.
"""
import mmap
import os
from collections import Counter
from contextlib import contextmanager

HEADER_END = 2064
CHUNK, INDEX, CHANNEL = 2, 3, 4  # types of sections
LONGEST_BODY = 200_000_000
LONGEST_TIME = 20_000_000_000


def varint(n):
    out = bytearray()
    while n >= 128:
        out.append(n % 128 + 128)
        n //= 128
    out.append(n)
    return bytes(out)


def number(field, n):
    return varint(8 * field) + varint(n)


def block(field, data):
    return varint(8 * field + 2) + varint(len(data)) + data


def section(kind, body):
    return kind.to_bytes(4, "little") + bytes(4) + len(body).to_bytes(8, "little") + body


def chunks_of(messages):
    """The messages, chunk by chunk; each is a channel, a time and a content."""
    chunks, chunk, size = [], [], 0
    for channel, time, content in messages:
        more = block(1, block(1, channel) + number(2, time) + block(3, content))
        if chunk and (size + len(more) > LONGEST_BODY or time > chunk[0][1] + LONGEST_TIME):
            chunks.append(chunk)
            chunk, size = [], 0
        chunk.append((channel, time, content, more))
        size += len(more)
    return chunks + [chunk] if chunk else chunks


def record(messages, forms=None):
    """The record of these messages. `forms` has the type and description of channels; those of others are empty."""
    counts = Counter(channel for channel, _, _ in messages)
    channels = list(counts)
    chunks = chunks_of(messages)
    parts = []
    for channel in channels:
        kind, description = (forms or {}).get(channel, (b"", b""))
        cache = number(1, counts[channel]) + block(2, channel) + block(3, kind) + block(4, description)
        parts.append((4, block(1, channel) + block(2, kind) + block(3, description), block(101, cache)))
    for chunk in chunks:
        times, raw = [it[1] for it in chunk], sum(len(it[2]) for it in chunk)
        begin, end, count = min(times), max(times), len(chunk)
        fields = number(1, begin) + number(2, end) + number(3, count) + number(4, raw)
        cache = number(1, count) + number(2, begin) + number(3, end) + number(4, raw)
        parts.append((1, fields, block(102, cache)))
        parts.append((2, b"".join(it[3] for it in chunk), block(103, number(1, count))))
    sections, entries, at = [], [], HEADER_END
    for kind, body, cache in parts:
        entries.append(block(1, number(1, kind) + number(2, at) + cache))
        sections.append(section(kind, body))
        at += len(sections[-1])
    index = section(3, b"".join(entries))
    times = [it[1] for it in messages] or [0]
    fields = [1, 0, 0, LONGEST_TIME, 0, at, len(chunks), len(channels), min(times), max(times)]
    fields += [len(messages), at + len(index), 1, LONGEST_BODY, 0]
    header = section(0, b"".join(number(k + 1, n) for k, n in enumerate(fields)))
    return header.ljust(HEADER_END, b"\0") + b"".join(sections) + index


@contextmanager
def opened(path):
    """The bytes of a file, while it is open. They are mapped, so that no more of it is in memory than is looked at."""
    with open(path, "rb") as file:
        try:
            data = mmap.mmap(file.fileno(), 0, access=mmap.ACCESS_READ)
        except (OSError, ValueError):  # a pipe, or an empty file
            data = None
        if data is None:
            yield file.read()
        else:
            with data:
                yield data


def read_varint(data, at):
    n = 0
    for k in range(10):
        if at + k >= len(data):
            raise ValueError("a number that is cut")
        byte = data[at + k]
        n += (byte % 128) << (7 * k)
        if byte < 128:
            return n % 2**64, at + k + 1
    raise ValueError("a varint of more than ten bytes")


def fields_of(data):
    """The fields of a message, number and value: an integer or bytes. Those of a fixed size, of which records have none, are left out."""
    at, found = 0, []
    while at < len(data):
        tag, at = read_varint(data, at)
        if tag % 8 == 0:
            value, at = read_varint(data, at)
        else:
            size = {1: 8, 5: 4}.get(tag % 8)
            if size is None:
                size, at = read_varint(data, at)
            value, at = data[at : at + size], at + size
        if tag < 8 or tag >= 2**32 or tag % 8 in (3, 4, 6, 7) or at > len(data):
            raise ValueError("no sequence of fields")
        if tag % 8 in (0, 2):
            found.append((tag // 8, value))
    return found


def last_of(fields):
    """The last value of each field, by its number and its type."""
    return {(number, type(value)): value for number, value in fields}


def header_of(data):
    """The numbers of a record's header, by field; a ValueError where it is no uncompressed record."""
    size = int.from_bytes(data[8:16], "little")
    if len(data) < HEADER_END or data[:4] != bytes(4) or size > HEADER_END - 16:
        raise ValueError("not a record")
    header = {number: value for number, value in fields_of(data[16 : 16 + size]) if isinstance(value, int)}
    if header.get(3, 0) != 0:
        raise ValueError(f"compressed chunks of kind {header[3]}")
    return header


def sections_of(data):
    """The sections behind the header, up to an index, one by one: their types, and where their bodies begin and end."""
    at = HEADER_END
    while at < len(data):
        kind, size = int.from_bytes(data[at : at + 4], "little"), int.from_bytes(data[at + 8 : at + 16], "little")
        start, end = at + 16, at + 16 + size
        if kind == INDEX:
            return
        if start > len(data) or end > len(data) or not 0 < kind <= CHANNEL:
            raise ValueError(f"at {at}: no whole section")
        yield kind, start, end
        at = end


def ordered_message(data):
    """The message that bytes hold, where it has just its three fields in their order; else None."""
    if len(data) < 4 or data[0] != 10 or data[1] > 127:
        return None
    name = 2 + data[1]
    if name + 3 > len(data) or data[name] != 16:
        return None
    time, end = read_varint(data, name + 1)
    if end + 2 > len(data) or data[end] != 26:
        return None
    size, content = read_varint(data, end + 1)
    return (data[2:name], time, data[content:]) if content + size == len(data) else None


def message_of(data):
    """A message of a chunk: its channel, its time and its content."""
    found = ordered_message(data)
    if found:
        return found
    fields = last_of(fields_of(data))
    return fields.get((1, bytes), b""), fields.get((2, int), 0), fields.get((3, bytes), b"")


# Nine bytes of a varint, the first eight of which say that more follow, are the times of our day in nanoseconds.
MORE = 0x8080808080808080


def plain_message(data, at, end):
    """The message in data[at:end] where it has just its three fields in their order and a time of nine bytes; else None."""
    name = at + 2 + data[at + 1]
    content = name + 12
    if content > end or data[at] != 10 or data[name] != 16 or data[name + 10] != 26 or content + data[name + 11] != end:
        return None
    time = int.from_bytes(data[name + 1 : name + 9], "little")
    if data[at + 1] > 127 or data[name + 9] > 127 or data[name + 11] > 127 or time & MORE != MORE:
        return None
    time = (time & 0x007F007F007F007F) | (time & 0x7F007F007F007F00) >> 1  # seven bits of each byte come together
    time = (time & 0x00003FFF00003FFF) | (time & 0x3FFF00003FFF0000) >> 2
    time = (time & 0x000000000FFFFFFF) | (time & 0x0FFFFFFF00000000) >> 4 | data[name + 9] << 56
    return data[at + 2 : name], time, data[content:end]


def each_message(data):
    """The messages of a record one by one, each a channel, a time and a content."""
    for kind, begin, end in sections_of(data):
        if kind == CHUNK:
            yield from messages_in(data[begin:end])


def messages_in(body):
    """The messages of a chunk's body."""
    at = 0
    while at < len(body):
        if body[at] != 10 or at + 1 == len(body):
            raise ValueError("a chunk with something else than messages")
        size, start = body[at + 1], at + 2
        if size > 127:
            size, start = read_varint(body, at + 1)
        at = start + size
        if at > len(body):
            raise ValueError("a chunk that is cut")
        yield size > 12 and plain_message(body, start, at) or message_of(body[start:at])


def messages_of(data):
    """The messages of a record in a list."""
    return list(each_message(data))


def form_in(body):
    """The name of the channel that a section is of, and its type and description."""
    fields = last_of(fields_of(body))
    return fields.get((1, bytes), b""), (fields.get((2, bytes), b""), fields.get((3, bytes), b""))


def forms_of(data):
    """The type and description of each channel that has a section, by the first of its sections."""
    found = {}
    for kind, begin, end in sections_of(data):
        if kind == CHANNEL:
            found.setdefault(*form_in(data[begin:end]))
    return found


def name_of(channel):
    """The name of a channel as a text."""
    return channel.decode("utf-8", "replace")


# What would break a line, or can't be seen.
ESCAPES = {code: f"\\{code:03o}" for code in [*range(32), 127]} | {ord("\n"): "\\n", ord("\t"): "\\t", ord("\r"): "\\r"}


def in_a_line(text):
    """A text that stands in one line: control characters are escaped as in a trace."""
    return text.translate(ESCAPES)


def fault_of(error):
    """What an error says, that of a file with the file's name before it."""
    is_named = isinstance(error, OSError) and error.filename
    return f"{os.fsdecode(error.filename)}: {error.strerror}" if is_named else str(error)


def whole_of(content):
    """The number that a content `{ 1 value: sint64 }` holds, or None."""
    try:
        numbers = [value for field, value in fields_of(content) if field == 1 and isinstance(value, int)]
    except ValueError:
        return None
    if not numbers:
        return None
    return numbers[-1] // 2 if numbers[-1] % 2 == 0 else -(numbers[-1] // 2) - 1


def content_of(value):
    """The content that holds a number."""
    return number(1, 2 * value if value >= 0 else -2 * value - 1)
