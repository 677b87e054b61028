"""How a page writes names, numbers and times."""
from datetime import datetime, timedelta, timezone

LONGEST_NAME = 160
PLACES = 12  # digits before or behind the point beyond which a number is written with an exponent
SECOND = 10**9
UNITS = [(86_400 * SECOND, "d"), (3_600 * SECOND, "h"), (60 * SECOND, "min"), (SECOND, "s"), (10**6, "ms"), (10**3, "µs")]
EPOCH = datetime(1970, 1, 1, tzinfo=timezone.utc)
DATES = (946_684_800_000_000_000, 4_102_444_800_000_000_000)  # times from 2000 to 2100 are taken for times of a day


def shown(name):
    """A name as a page shows it: bytes that are no UTF-8, and characters that can't be seen, as escapes; very long ones cut."""
    text = name.encode("utf-8", "surrogateescape").decode("utf-8", "backslashreplace")
    text = "".join(it if it.isprintable() else it.encode("unicode_escape").decode() for it in text)
    return text if len(text) <= LONGEST_NAME else f"{text[:LONGEST_NAME - 40]}…{text[-39:]}"


def number(value):
    """A whole number with commas."""
    return f"{value:,}".replace("-", "−")


def plural(count, word):
    """So many of something."""
    return f"{number(count)} {word}{'' if count == 1 else 's'}"


def rounded(value, digits=3):
    """A number with at least so many digits that count."""
    if value and not 10**-PLACES <= abs(value) < 10**PLACES:
        return f"{value:.{digits}g}".replace("-", "−")
    if value == 0 or abs(value) >= 10 ** (digits - 1):
        return number(round(value))
    places = digits - 1
    while abs(value) * 10 ** (places - digits + 1) < 1:
        places += 1
    text = f"{value:.{places}f}".replace("-", "−")
    return text.rstrip("0").rstrip(".") if "." in text else text


def duration(nanoseconds):
    """A time that something took: whole numbers of a unit exactly, others with some digits."""
    sign, left = ("−" if nanoseconds < 0 else ""), abs(nanoseconds)
    if left == 0:
        return "0 s"
    for size, unit in UNITS[3:]:
        if left >= size:
            if left >= 100 * SECOND:
                break
            return f"{sign}{rounded(left / size, 4)} {unit}"
    if left < 1_000:
        return f"{sign}{left} ns"
    return sign + long_duration(left)


def exact(nanoseconds):
    """A time that something took, to its last digit."""
    size, unit = next(((size, unit) for size, unit in UNITS[3:] if abs(nanoseconds) >= size), (1, "ns"))
    whole, rest = divmod(abs(nanoseconds), size)
    digits = f"{rest:0{len(str(size)) - 1}d}".rstrip("0") if size > 1 else ""
    return f"{'−' if nanoseconds < 0 else ''}{whole:,}{'.' if digits else ''}{digits} {unit}"


def long_duration(nanoseconds):
    """A time of minutes and more, in two units."""
    for (size, unit), (less, smaller) in zip(UNITS, UNITS[1:4]):
        if nanoseconds >= size:
            return f"{nanoseconds // size} {unit} {nanoseconds % size // less} {smaller}"
    return f"{nanoseconds} ns"


def date(nanoseconds):
    """A time as a date in UTC, where it is one of our days, else None."""
    if not DATES[0] <= nanoseconds < DATES[1]:
        return None
    moment = EPOCH + timedelta(microseconds=nanoseconds // 1000)
    return moment.strftime("%Y-%m-%d %H:%M:%S.%f")[:-3] + " UTC"


def size(count):
    """A number of bytes."""
    for unit, least in (("GB", 10**9), ("MB", 10**6), ("kB", 10**3)):
        if count >= least:
            return f"{rounded(count / least)} {unit}"
    return f"{count} B"
