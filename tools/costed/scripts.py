"""The scripts that are replayed: what comes first, and what comes again and again."""

# What a name is made of, without case, and without the asterisk: a member of Vary that is one means something.
NAMES = b"abcdefghijklmnopqrstuvwxyz0123456789!#$%&'+-.^_`|~"
DATE = b"Date: Thu, 01 Jan 1970 00:01:40 GMT"
HELD = b"Cache-Control: max-age=600"
# The lines of a request or an answer of 32 KB; smaller ones have fewer, in proportion.
LINES, LARGEST = 96, 32768
TABLE = b"""version = 1
name = "edge"
capacity = 65536
max_body = 1000000
max_stored = 1000000

[[line]]
host = "*"
methods = ["*"]
path = "/"
origin = "127.0.0.1:8081"
"""


class Script:
    """What is played once, and then N times: `each(i)` is the i-th time, from 0 on. Each time the effects have to have `says`
    once more, so that what is counted is what is meant."""

    def __init__(self, before, each, says=b"Cache-Status: edge;hit", table=TABLE):
        self.before, self.each, self.says = b"config %d\n%s\nat 100\naccept 1\n" % (len(table), table) + before, each, says

    def text(self, times, start=0):
        return self.before + b"".join(self.each(i) for i in range(start, start + times))


def client(data):
    return b"client 1 %d\n%s\n" % (len(data), data)


def link(number, data):
    return b"link %d %d\n%s\n" % (number, len(data), data)


def head(*lines):
    return b"\r\n".join([*lines, b"", b""])


def count_of(size, most=LINES):
    return most * size // LARGEST


def request(size, *lines, rest=lambda room: [], target=b"/one", method=b"GET", host=b"example.com"):
    """A head: these lines, and those that `rest` makes of the bytes that are left of `size` (0: as it comes)."""
    lines = [b"%s %s HTTP/1.1" % (method, target), b"Host: " + host, *lines]
    return grown(size, lines, rest)


def answer(size, *lines, rest=lambda room: [], content=b"hello", held=HELD):
    lines = [b"HTTP/1.1 200 OK", DATE, *([held] if held else []), *lines, b"Content-Length: %d" % len(content)]
    return grown(size, lines, rest) + content


def grown(size, lines, rest):
    text = head(*lines, *rest(size - len(head(*lines))))
    if size and len(text) != size:
        raise ValueError(f"a head of {len(text)} bytes in place of {size}: {text[:60]!r}")
    return text


def line(name, members, room):
    """One line of `room` bytes: members with commas between them, filled up with blanks."""
    left = room - len(name) - 4
    value, members = bytearray(), iter(members)
    while len(value) + len(member := next(members)) + 1 <= left:
        value += member + b","
    return b"%s: %s" % (name, bytes(value[:-1]).ljust(left))


def filler(name, unit, room):
    """One line of `room` bytes: the unit as often as it goes in, and blanks."""
    left = room - len(name) - 4
    return b"%s: %s" % (name, (unit * (left // len(unit))).ljust(left))


def ordinary(count, room, name=lambda i: b"X-Field-%02d" % i):
    """So many lines that together have `room` bytes, of names and values as they are."""
    sizes = [room // count + (i < room % count) for i in range(count)]
    return [filler(name(i), b"a value of words; ", it) for i, it in enumerate(sizes)]


def short(name=lambda i: b"%02x" % i):
    """96 lines of few bytes."""
    return [name(i) + b": v" for i in range(LINES)]


def large(size):
    """The bytes of a line that stands beside 96 short ones: it is what is doubled, and the head of 32 KB just goes through."""
    return size * 7 // 8


def again(unit):
    while True:
        yield unit


def distinct(length):
    """Names of this length, one after the other; from the first again where there are no more."""
    number = 0
    while True:
        number, rest, name = number + 1, number, bytearray()
        for _ in range(length):
            rest, digit = divmod(rest, len(NAMES))
            name.append(NAMES[digit])
        yield bytes(name)


def hits(asked, stored=None, first=None):
    """Stored once, by `first` or a plain request, then asked for."""
    before = client(first or request(0)) + link(1, stored or answer(0))
    return Script(before, lambda i: client(asked))


def passed(asked, before=b"", number=1, says=b"edge;fwd="):
    """Goes on to the origin each time, and what comes isn't stored."""
    refused = answer(0, held=b"Cache-Control: no-store")
    return Script(before, lambda i: client(asked) + link(number + i, refused), says)
