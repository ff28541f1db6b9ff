"""Lines of a log, read from any bytes in bounded memory.

A line has a moment, the client, a method, a target, a status, the bytes and the reason; behind the reason how long
the reply took, and the origin that was asked, where the program writes them. The moment is in Unix seconds, or as in
2026-11-26T12:00:00.123Z. How long it took is in milliseconds (`12`, `12ms`), or in seconds with a point (`0.012`).
Further words are passed over."""
import calendar
import re

# Visible characters, and blanks in the last word alone.
LINE = re.compile(
    rb"(?:([0-9]{1,12})(?:\.([0-9]{1,9}))?|([0-9]{4}-[0-9]{2}-[0-9]{2}T[0-9]{2}:[0-9]{2}:[0-9]{2})(?:\.([0-9]{1,9}))?Z)"
    rb" ([!-~]+) ([!-~]+) ([!-~]+) ([0-9]{3}) ([0-9]{1,18}) ([ -~]+)"
)
# What stands behind a reason. (No reason ends so: its last word is neither a dash nor an address.)
BEHIND = re.compile(rb" ([0-9]{1,12}(?:\.[0-9]{1,9})?(?:ms|s)?|-) ([!-~]*:[0-9]{1,5}|-)(?: [ -~]*)?$")
DAY = re.compile(rb"([0-9]{4})-([0-9]{2})-([0-9]{2})T([0-9]{2}):([0-9]{2}):([0-9]{2})")
# The last second of the year 9999.
LAST_MOMENT = 253402300799
# What is read at once, and the longest line that is kept: a target of 32 KB, each byte as \xHH, and what is beside it.
PIECE, LONGEST = 1 << 20, 1 << 18


def pieces_of(file, at=lambda done: None):
    """The lines of a file, some thousands at a time, without their ends; None is one that is too long for any."""
    rest, is_too_long, done = b"", False, 0
    while piece := file.read(PIECE):
        done += len(piece)
        lines = (rest + piece).split(b"\n")
        rest = lines.pop()
        if is_too_long and lines:
            lines[0], is_too_long = None, False
        yield lines
        if is_too_long or len(rest) > LONGEST:
            rest, is_too_long = b"", True
        at(done)
    if rest or is_too_long:
        yield [None if is_too_long else rest]


def seconds_of(text, known={}):
    """The Unix seconds of a moment like 2026-11-26T12:00:00; None where there is no such day."""
    if text in known:
        return known[text]
    numbers = [int(it) for it in DAY.fullmatch(text).groups()]
    year, month, day, hour, minute, second = numbers
    if len(known) > 1000:
        known.clear()
    is_one = (
        year >= 1970
        and 1 <= month <= 12
        and 1 <= day <= calendar.monthrange(year, month)[1]
        and hour < 24
        and minute < 60
        and second < 61
    )
    known[text] = calendar.timegm((*numbers, 0, 0, 0)) if is_one else None
    return known[text]


def parts_of(line):
    """Moment, method, target, status, bytes, reason, how long it took and the origin, these two None where they don't
    stand; then the client with its port, and the digits of the moment behind its point. None of what is no line."""
    words = line and LINE.fullmatch(line)
    if not words:
        return None
    plain, digits, day, digits_of_day, client, method, target, status, length, reason = words.groups()
    moment = int(plain) if plain else seconds_of(day)
    if moment is None or moment > LAST_MOMENT:
        return None
    took = origin = None
    if b" " in reason and (behind := BEHIND.search(reason)):
        reason, took, origin = reason[: behind.start()], behind[1], behind[2]
        if not reason:
            return None
    return (
        moment,
        method,
        target,
        status,
        int(length),
        reason,
        None if took == b"-" else took,
        None if origin == b"-" else origin,
        client,
        digits or digits_of_day,
    )


def microseconds_of(took, known={}):
    """How long a reply took."""
    found = known.get(took)
    if found is None:
        if len(known) >= 20000:
            known.clear()
        found = known[took] = microseconds_read(took)
    return found


def microseconds_read(took):
    number = took.rstrip(b"ms")
    whole, _, part = number.partition(b".")
    in_seconds = int(whole) * 1000000 + int(part.ljust(6, b"0")[:6] or 0)
    if took.endswith(b"ms") or (not part and not took.endswith(b"s")):
        return in_seconds // 1000
    return in_seconds
