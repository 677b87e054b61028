"""The numbers in messages of described types, where the Protocol Buffers package is installed."""
import math

DEEPEST = 4  # messages in messages
MOST_FIELDS = 24  # of a channel


class Describer:
    """Finds the classes of messages by what a record describes, and by a file with a FileDescriptorSet where there is one."""

    def __init__(self, path=None):
        """A ValueError tells of a file that can't be used."""
        self.path, self.pool = path, None
        if path:
            try:
                import described  # it needs the package
            except ImportError as error:
                raise ValueError(f"{error}; --types needs the Protocol Buffers package (python3-protobuf of Debian)") from None
            self.pool = described.pool_of_set(path)

    def classes_of(self, forms):
        """The class of each channel that has one, by the types and descriptions of all. Without the package there is none."""
        if not self.path and not any(kind and description for kind, description in forms.values()):
            return {}
        try:
            import described  # it needs the package
        except ImportError:
            return {}
        types, found = described.Types(forms, self.path, self.pool), {}
        for channel in forms:
            try:
                found[channel] = types.of(channel)
            except ValueError:  # its numbers aren't plotted
                continue
        return {channel: kind for channel, kind in found.items() if kind}


def is_number(field):
    """Whether a field is a number, and not a truth value or one of an enumeration."""
    whole = (field.CPPTYPE_INT32, field.CPPTYPE_INT64, field.CPPTYPE_UINT32, field.CPPTYPE_UINT64)
    return field.cpp_type in (*whole, field.CPPTYPE_DOUBLE, field.CPPTYPE_FLOAT)


def paths_of(descriptor, before=()):
    """The ways to the single numbers of a message, each the fields on it."""
    import described  # it needs the package

    found = []
    for field in descriptor.fields:
        path = before + (field,)
        if described.is_repeated(field):
            continue
        if field.message_type is not None and len(path) < DEEPEST:
            found += paths_of(field.message_type, path)
        elif is_number(field):
            found.append(path)
    return found


def is_there(message, field):
    """Whether a message has a field; one that can't be absent is there."""
    try:
        return message.HasField(field.name)
    except ValueError:
        return True


def number_at(message, path):
    """The number at the end of a way, None where the message doesn't go so far or it is no number."""
    for field in path:
        if not is_there(message, field):
            return None
        message = getattr(message, field.name)
    return message if math.isfinite(message) else None


def read_samples(channel):
    """The times and messages of a channel's samples; bytes that are no message are left out."""
    found = []
    for time, content in channel.samples:
        try:
            found.append((time, channel.message_class.FromString(content)))
        except Exception:  # the package has errors of several kinds for bytes that are no message, and warnings
            continue
    return found


def numbers_of(channel):
    """The fields of a channel's messages that are numbers and change, each its name, times and numbers."""
    if not channel.samples:
        return
    messages, count = read_samples(channel), 0
    for path in paths_of(channel.message_class.DESCRIPTOR):
        points = [(time, value) for time, message in messages if (value := number_at(message, path)) is not None]
        if len({value for _, value in points}) > 1:
            yield ".".join(field.name for field in path), [it[0] for it in points], [it[1] for it in points]
            count += 1
        if count == MOST_FIELDS:
            return
