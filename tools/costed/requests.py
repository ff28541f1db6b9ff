"""Requests that a stranger chooses: each is a stored response's, or goes on to the origin where that is said."""
import itertools

from costed import FAMILIES
from costed.scripts import (LINES, NAMES, Script, again, answer, client, count_of, distinct, filler, head, hits, large, line, link, ordinary, passed,
                            request, short)

TAGGED = b'ETag: "v1"'
LONG_NAME = b"a-name-like-all-"


def family(**how):
    return FAMILIES.add("requests", plain="plain", **how)


def asked(size, *lines, **more):
    return hits(request(size, *lines, **more))


@family()
def plain(size):
    """ordinary lines, of some 340 bytes each"""
    return asked(size, rest=lambda room: ordinary(count_of(size), room))


@family()
def one_line(size):
    """a single line"""
    return asked(size, rest=lambda room: [filler(b"X-Long", b"a", room)])


@family()
def lines_96(size):
    """96 lines, whatever the size"""
    return asked(size, rest=lambda room: ordinary(LINES, room))


@family()
def empty_lines(size):
    """empty lines in front"""
    text = request(0)
    return hits(b"\r\n" * ((size - len(text)) // 2) + text)


def connection(size, members, names=lambda i: b"%02x" % i):
    return asked(0, *short(names), line(b"Connection", members, large(size)))


def letter_or_two(i):
    return NAMES[i : i + 1] if i < len(NAMES) else b"%02x" % i


@family()
def connection_1(size):
    """Connection: a,a,a.. beside many lines"""
    return connection(size, again(b"a"))


@family()
def connection_2(size):
    """Connection of names of two letters"""
    return connection(size, distinct(2))


@family()
def connection_3(size):
    """Connection of names of three letters, none twice"""
    return connection(size, distinct(3), lambda i: b"%02x~" % i)


@family()
def connection_alike(size):
    """its members differ from the lines' names in the last letters alone"""
    return connection(size, (LONG_NAME + it for it in distinct(3)), lambda i: LONG_NAME + b"%03d" % i)


@family()
def connection_one_member(size):
    """its members are a line's name but for the last letters; the names get longer, and so does Connection"""
    long = b"n" * (size // LINES // 2)
    lines = [long + b"%02d: v" % i for i in range(LINES)]
    return asked(0, *lines, line(b"Connection", again(long + b"xx"), size // 3))


@family()
def connection_own_name(size):
    """its members are a line's name of one letter, again and again"""
    return connection(size, again(b"a"), lambda i: b"%02x" % i if i else b"a")


@family()
def connection_own_letters(size):
    """its members are the lines' names in turn, of one letter each as far as there are letters"""
    return connection(size, itertools.cycle(map(letter_or_two, range(len(NAMES)))), letter_or_two)


@family()
def connection_own_names(size):
    """its members are the names of all lines in turn"""
    return connection(size, itertools.cycle(b"%02x" % i for i in range(LINES)))


@family()
def connection_own_long_names(size):
    """the same, of names that differ in the last letters alone"""
    own = [LONG_NAME + b"%03d" % i for i in range(LINES)]
    return connection(size, itertools.cycle(own), own.__getitem__)


# What a list is filled with. An open quote runs to the end of its line.
KINDS = {
    "commas": lambda name, room: filler(name, b",", room),
    "quotes": lambda name, room: filler(name, b'"",', room),
    "long_quote": lambda name, room: name + b': x="' + b"," * (room - len(name) - 8) + b'"',
    "escapes": lambda name, room: name + b': x="' + (b'\\"' * room)[: (room - len(name) - 8) // 2 * 2] + b'"' + b" " * (room - len(name) & 1),
    "open_quote": lambda name, room: name + b': x="' + b"\\," * ((room - len(name) - 7) // 2) + b" " * (room - len(name) - 7 & 1),
    "backslashes": lambda name, room: filler(name, b"\\", room),
}
LISTS = {"connection": b"Connection", "cache_control": b"Cache-Control", "if_none_match": b"If-None-Match", "accept_encoding": b"Accept-Encoding"}


def of_list(name, kind):
    """One list, filled with one kind of bytes; the stored response has an ETag, and Vary: Accept-Encoding."""

    def script(size):
        text = request(0, *short(), KINDS[kind](LISTS[name], large(size)))
        is_nominated = name == "accept_encoding"
        stored = answer(0, TAGGED, *([b"Vary: Accept-Encoding"] if is_nominated else []))
        return hits(text, stored, text if is_nominated else None)

    script.__doc__ = f"{LISTS[name].decode()} of {kind.replace('_', ' ')}"
    return script


for _name in LISTS:
    for _kind in KINDS:
        family(name=f"{_name}_{_kind}")(of_list(_name, _kind))


def conditions(size, members, tag=TAGGED):
    return hits(request(0, *short(), line(b"If-None-Match", members, large(size))), answer(0, tag))


@family()
def tags_strong(size):
    """If-None-Match of short tags"""
    return conditions(size, again(b'"v"'))


@family()
def tags_weak(size):
    """If-None-Match of weak tags"""
    return conditions(size, again(b'W/"v"'))


@family()
def tags_that_are_none(size):
    """If-None-Match of words without quotes"""
    return conditions(size, again(b"v"))


@family()
def tags_alike(size):
    """tags of 200 bytes, the stored one's but for the last"""
    return conditions(size, again(b'"%sx"' % (b"t" * 199)), b'ETag: "%sy"' % (b"t" * 199))


def controls(size, *members):
    return asked(0, *short(), line(b"Cache-Control", again(b",".join(members)), large(size)))


@family()
def control_known(size):
    """Cache-Control of members that a cache knows"""
    return controls(size, b"max-stale", b"max-stale=9", b"min-fresh=0", b"max-age=9999", b"stale-if-error=9", b"no-transform")


@family()
def control_unknown(size):
    """Cache-Control: x,x,x.."""
    return controls(size, b"x")


@family()
def control_arguments(size):
    """Cache-Control of unknown members with arguments in quotes"""
    return controls(size, b'x="a\\"b"')


@family()
def control_max_age(size):
    """Cache-Control of max-age, again and again"""
    return controls(size, b"max-age=9999")


@family()
def control_bad_max_age(size):
    """the same without a number, so that each has to be looked at"""
    return controls(size, b"max-age=x", b"min-fresh=x", b"max-stale=x")


def of_one_name(size, count):
    return request(size, rest=lambda room: ordinary(count, room, lambda i: b"A"))


VARIED = answer(0, b"Vary: A")


@family()
def one_name_held(size):
    """90 lines of the name that Vary has, the held variant's"""
    text = of_one_name(size, count_of(size, 90))
    return hits(text, VARIED, text)


@family()
def one_name_not_held(size):
    """the same, and another variant is held: it goes on"""
    return passed(of_one_name(size, count_of(size, 90)), client(request(0, b"A: v")) + link(1, VARIED), 2, b"edge;fwd=vary-miss")


@family()
def names_and_a_variant(size):
    """ordinary lines, and a held variant by one of them"""
    text = request(size, b"A: v", rest=lambda room: ordinary(count_of(size), room))
    return hits(text, VARIED, request(0, b"A: v"))


@family()
def names_and_a_variant_not_held(size):
    """ordinary lines, and another variant is held: it goes on"""
    text = request(size, b"A: w", rest=lambda room: ordinary(count_of(size), room))
    return passed(text, client(request(0, b"A: v")) + link(1, VARIED), 2, b"edge;fwd=vary-miss")


@family()
def names_alike(size):
    """names of one length, first and last letter, as long as they go"""
    long = size // count_of(size) // 2 - 16
    text = request(size, rest=lambda room: ordinary(count_of(size), room, lambda i: b"%s%03dx" % (b"n" * long, i)))
    return hits(text, answer(0, b"Vary: %sx" % (b"n" * (long + 3))), text)


@family()
def names_alike_short(size):
    """short names of one length, first and last letter, ordinary values"""
    text = request(size, rest=lambda room: ordinary(count_of(size), room, lambda i: b"n%02xn" % i))
    return hits(text, answer(0, b"Vary: n__n"), text)


def of_target(size, unit):
    """A target of at most 8,192 bytes: a quarter of the head. The rest is one line."""
    target = b"/" + unit * ((size // 4 - 1) // len(unit))
    text = request(size, target=target, rest=lambda room: [filler(b"X-Long", b"a", room)])
    return hits(text, first=request(0, target=target))


@family()
def target_long(size):
    """a target of one segment"""
    return of_target(size, b"a")


@family()
def target_segments(size):
    """a target of empty segments"""
    return of_target(size, b"/")


@family()
def target_escapes(size):
    """a target of escapes that mean letters"""
    return of_target(size, b"%41")


@family()
def target_query(size):
    """a long query"""
    return of_target(size, b"?")


@family()
def lengths(size):
    """Content-Length: 0,0,0.."""
    return asked(size, rest=lambda room: [b"Content-Length: " + b"0," * ((room - 18) // 2 - 1) + b"0" * (2 + room % 2)])


@family()
def codings(size):
    """Transfer-Encoding: ,,,chunked"""
    return hits(request(size, rest=lambda room: [filler(b"Transfer-Encoding", b",", room - 7) + b"chunked"]) + b"0\r\n\r\n")


def posted_family(**how):
    """What goes on with a content is held to a plain POST, which goes on too."""
    return FAMILIES.add("requests", plain="posted_whole", **how)


def posted(size, unit, last=b"0\r\n\r\n"):
    text = request(0, b"Transfer-Encoding: chunked", method=b"POST")
    count = (size - len(text) - len(last)) // len(unit) if unit else 0
    return passed(text + unit * count + last, says=b"edge;fwd=method")


@posted_family()
def chunks(size):
    """a POST whose content comes in chunks of one byte"""
    return posted(size, b"1\r\nx\r\n")


@posted_family()
def chunk_extensions(size):
    """the same, with 250 bytes of extension at each chunk"""
    return posted(size, b"1;%s\r\nx\r\n" % (b"e" * 250))


@posted_family()
def trailers(size):
    """a POST with trailers as long as they go"""
    return posted(size, b"", b"0\r\n" + b"t: v\r\n" * ((size - 100) // 6) + b"\r\n")


@family()
def posted_whole(size):
    """a POST of ordinary lines, to see what going on costs"""
    text = request(size, b"Content-Length: 0", method=b"POST", rest=lambda room: ordinary(count_of(size), room))
    return passed(text, says=b"edge;fwd=method")


@family(is_one=False)
def pipelined(size):
    """requests in one piece, all hits"""
    text = request(0)
    count = size // len(text)
    script = hits(text * count)
    script.times = count
    return script


@family(is_one=False)
def pipelined_denied(size):
    """requests of few bytes in one piece, each without a host; the connection ends with the first"""
    text = head(b"GET / HTTP/1.0")
    before = client(request(0)) + link(1, answer(0))
    return Script(before, lambda i: b"accept %d\nclient %d %d\n%s\n" % (i + 2, i + 2, size, text * (size // len(text)) + b"\n" * (size % len(text))), b"Refusal: refused: host")


@family(is_one=False)
def head_in_bytes(size):
    """a head that comes byte by byte"""
    text = request(size, rest=lambda room: [filler(b"X-Long", b"a", room)])
    script = hits(text)
    pieces = b"".join(client(text[i : i + 1]) for i in range(size))
    script.each = lambda i: pieces
    return script


@family(is_one=False)
def content_in_bytes(size):
    """a POST whose content comes byte by byte"""
    text = request(0, b"Content-Length: %d" % size, method=b"POST")
    script = passed(text, says=b"edge;fwd=method")
    refused = answer(0, held=b"Cache-Control: no-store")
    pieces = client(text) + client(b"x") * size
    script.each = lambda i: pieces + link(1 + i, refused)
    return script
