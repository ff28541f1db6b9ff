"""Answers that an origin chooses: what it costs to store each, and what a hit on it costs afterwards."""
from costed import FAMILIES
from costed.requests import KINDS, LISTS, LONG_NAME
from costed.scripts import (DATE, LINES, Script, again, answer, client, count_of, distinct, filler, grown, large, line, link, ordinary, request, short)

STORED = b";stored"
# (with more than 64 names Vary counts as a star)
NOT_STORED = b"edge;fwd=uri-miss\r\n"


def family(function):
    """An answer by its size, and what is asked with it: one family for what is stored, and one for the hits on it."""
    FAMILIES.add("stored", plain="stored_plain", name=f"stored_{function.__name__}")(kept(function))
    FAMILIES.add("hits", plain="hit_plain", name=f"hit_{function.__name__}")(hit(function))
    return function


def star(function):
    """An answer whose Vary has too many names to be stored."""
    FAMILIES.add("stored", plain="stored_plain", name=f"passed_{function.__name__}")(kept(function, NOT_STORED))
    return function


def both(function, size):
    told = function(size)
    return told if isinstance(told, tuple) else (told, ())


def kept(function, told=STORED):
    def script(size):
        text, lines = both(function, size)
        return Script(b"", lambda i: client(request(0, *lines, target=b"/%06d" % i)) + link(i + 1, text), told)

    script.__doc__ = function.__doc__
    return script


def hit(function):
    def script(size):
        text, lines = both(function, size)
        asked = client(request(0, *lines))
        return Script(asked + link(1, text), lambda i: asked)

    script.__doc__ = function.__doc__
    return script


@family
def plain(size):
    """ordinary lines, of some 340 bytes each"""
    return answer(size, rest=lambda room: ordinary(count_of(size), room))


@family
def one_line(size):
    """a single line"""
    return answer(size, rest=lambda room: [filler(b"X-Long", b"a", room)])


@family
def lines_96(size):
    """96 lines, whatever the size"""
    return answer(size, rest=lambda room: ordinary(LINES - 1, room))


@family
def names_alike(size):
    """names of one length, first and last letter, as long as they go"""
    long = size // count_of(size) // 2 - 16
    return answer(size, rest=lambda room: ordinary(count_of(size), room, lambda i: b"%s%03dx" % (b"n" * long, i)))


def varied(size, members, names=lambda i: b"%02x" % i):
    return answer(size, rest=lambda room: [line(b"Vary", members, room)]), short(names)


@star
def vary_1(size):
    """Vary of names of one letter, and a request of many lines"""
    return varied(size, distinct(1))


@star
def vary_2(size):
    """Vary of names of two letters"""
    return varied(size, distinct(2))


@star
def vary_3(size):
    """Vary of names of three letters, none twice"""
    return varied(size, distinct(3))


@star
def vary_repeated(size):
    """Vary of one name, which the request has"""
    return varied(size, again(b"00"))


@star
def vary_repeated_absent(size):
    """Vary of one name, which the request lacks"""
    return varied(size, again(b"a"))


@star
def vary_alike(size):
    """Vary of names that differ from the request's in the last letters alone"""
    return varied(size, (LONG_NAME + it for it in distinct(3)), lambda i: LONG_NAME + b"%03d" % i)


@star
def vary_one_long_value(size):
    """Vary of one name again and again, and the request's value of it is half as long as a head may be"""
    text = answer(size // 2, rest=lambda room: [line(b"Vary", again(b"a"), room)])
    return text, [filler(b"a", b"v", size // 2)]


def beside(size, rest):
    """One long line beside 90 short ones."""
    return answer(0, *short(lambda i: b"x%02x" % i)[:90], *rest(large(size)))


@family
def connection_2(size):
    """Connection of names of two letters beside many lines"""
    return beside(size, rest=lambda room: [line(b"Connection", distinct(2), room)])


@family
def connection_alike(size):
    """its members differ from the lines' names in the last letters alone"""
    lines = [LONG_NAME + b"%03d: v" % i for i in range(90)]
    return answer(0, *lines, line(b"Connection", (LONG_NAME + it for it in distinct(3)), large(size)))


@family
def control_known(size):
    """Cache-Control of members that a cache knows"""
    return beside(size, rest=lambda room: [line(b"Cache-Control", again(b"public,stale-if-error=9,no-transform,immutable"), room)])


@family
def control_unknown(size):
    """Cache-Control: x,x,x.."""
    return beside(size, rest=lambda room: [line(b"Cache-Control", again(b"x"), room)])


for _kind in KINDS:
    def _of_kind(size, kind=_kind):
        return beside(size, rest=lambda room: [KINDS[kind](b"Cache-Control", room)])

    _of_kind.__name__, _of_kind.__doc__ = f"control_{_kind}", f"Cache-Control of {_kind.replace('_', ' ')}"
    if _kind != "open_quote":
        family(_of_kind)


@family
def tag_long(size):
    """a long ETag"""
    return answer(size, rest=lambda room: [b'ETag: "%s"' % (b"t" * (room - 10))])


@family
def cookies(size):
    """many lines of Set-Cookie"""
    return answer(size, rest=lambda room: ordinary(count_of(size), room, lambda i: b"Set-Cookie"))


@family
def ages(size):
    """Age: 0,0,0.."""
    return answer(size, rest=lambda room: [line(b"Age", again(b"0"), room)])


def told(**how):
    return FAMILIES.add("answers", plain="stored_plain", **how)


@told()
def answer_in_chunks(size):
    """a content that comes in chunks of one byte"""
    text = b"HTTP/1.1 200 OK\r\nCache-Control: max-age=600\r\nTransfer-Encoding: chunked\r\n\r\n"
    text += b"1\r\nx\r\n" * ((size - len(text) - 5) // 6) + b"0\r\n\r\n"
    return Script(b"", lambda i: client(request(0, target=b"/%06d" % i)) + link(i + 1, text), STORED)


@told(is_one=False)
def answer_head_in_bytes(size):
    """a head that comes byte by byte"""
    text = answer(size, rest=lambda room: [filler(b"X-Long", b"a", room)])

    def each(i):
        return client(request(0, target=b"/%06d" % i)) + b"".join(link(i + 1, text[at : at + 1]) for at in range(len(text)))

    return Script(b"", each, STORED)


@told()
def interim(size):
    """103 again and again in front of the answer"""
    early = b"HTTP/1.1 103 Early Hints\r\n\r\n"
    text = early * (size // len(early)) + answer(0)
    return Script(b"", lambda i: client(request(0, target=b"/%06d" % i)) + link(i + 1, text), STORED)


def validated(size, text):
    """Stored stale, and validated each time by a 304 of this text."""
    first = answer(0, b'ETag: "v1"', held=b"Cache-Control: max-age=600, no-cache")
    before = client(request(0)) + link(1, first)
    return Script(before, lambda i: client(request(0)) + link(i + 2, text), b"fwd-status=304")


def not_modified(size, rest):
    lines = [b"HTTP/1.1 304 Not Modified", DATE, b'ETag: "v1"', b"Cache-Control: max-age=600, no-cache"]
    return grown(size, lines, rest)


@told()
def freshened(size):
    """a 304 of many lines, each of a name of its own"""
    return validated(size, not_modified(size, lambda room: ordinary(count_of(size, 90), room)))


@told()
def freshened_alike(size):
    """a 304 of many long names that are alike"""
    long = size // count_of(size) // 2 - 16
    return validated(size, not_modified(size, lambda room: ordinary(count_of(size, 90), room, lambda i: b"%s%03dx" % (b"n" * long, i))))


@told()
def freshened_one_name(size):
    """a 304 of many lines of one name"""
    return validated(size, not_modified(size, lambda room: ordinary(count_of(size, 90), room, lambda i: b"A")))
