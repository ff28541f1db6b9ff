"""The cases of smuggling: messages made of the spellings, each alone, then several in one by
chance, then bytes changed by chance. Each ends in a
GET /smug, which no origin may get as a request."""
import random
import re

from attacks import spellings as how
from live.changes import changed

# The number of the case stands in place of the zeros.
UNNUMBERED = b"/smug?00000"
SMUG = b"GET %s HTTP/1.1\r\nHost: h\r\n\r\n" % UNNUMBERED
LINE = b"POST /a HTTP/1.1"
HOST = b"Host: h"
# One case in so many keeps its sending side open for a while: what comes back comes without it.
LATE = 1 / 16
# What stands for the number in the spelling of a length.
MEANT = re.compile(rb"(?<![A-Za-wyz])N")


class Case:
    """What one client sends over one connection, where its bytes are cut into pieces, and whether
    its end comes later."""

    def __init__(self, name, data, cuts=(), is_late=False):
        self.name, self.data, self.cuts, self.is_late = name, data, sorted(cuts), is_late

    def pieces(self):
        ends = [*self.cuts, len(self.data)]
        return [self.data[start:end] for start, end in zip([0, *ends], ends)]


def message(line=LINE, *lines, content=b"", end=b"\r\n\r\n", host=HOST):
    """A message; one without a Host line where `host` is None."""
    return b"\r\n".join([line, *([host] if host is not None else []), *lines]) + end + content


def chunk(data):
    return b"%x\r\n%s\r\n" % (len(data), data)


def with_length(spelling, number):
    return MEANT.sub(b"%d" % number, spelling)


def lengths(smug):
    """A length that is meant to be 0, that of a short content, and that of all that follows; the
    versions 1.1 and 1.0."""
    for it in how.LENGTHS:
        for version in (b"1.1", b"1.0"):
            line = b"POST /a HTTP/" + version
            yield message(line, with_length(it, 5), content=b"hello" + smug)
            yield message(line, with_length(it, len(smug)), content=smug)
        yield message(LINE, with_length(it, 0), content=smug)
        yield message(b"GET /a HTTP/1.1", with_length(it, len(smug)), content=smug)
        yield message(LINE, b"X: y", with_length(it, 5), b"Y: z", content=b"hello" + smug)


def codings(smug):
    """A coding whose chunks end before /smug, and one whose chunk has it."""
    for it in how.CODINGS:
        for version in (b"1.1", b"1.0"):
            yield message(b"POST /a HTTP/" + version, it, content=b"0\r\n\r\n" + smug)
        yield message(LINE, it, content=chunk(smug) + b"0\r\n\r\n" + smug)
        yield message(b"GET /a HTTP/1.1", it, content=b"5\r\nhello\r\n0\r\n\r\n" + smug)


def both(smug):
    """A length and a coding in both orders: who believes one finds /smug in the content of who
    believes the other."""
    for it in how.CODINGS:
        inside, outside = b"0\r\n\r\n" + smug, chunk(smug) + b"0\r\n\r\n"
        for content, length in ((inside, len(inside)), (outside, 4), (inside, 0)):
            size = b"Content-Length: %d" % length
            yield message(LINE, size, it, content=content + smug)
            yield message(LINE, it, size, content=content + smug)
        yield message(b"POST /a HTTP/1.0", it, b"Content-Length: %d" % len(inside), content=inside + smug)
    for it in how.LENGTHS:
        yield message(LINE, with_length(it, 5), b"Transfer-Encoding: chunked", content=b"0\r\n\r\n" + smug)
        yield message(LINE, b"Transfer-Encoding: chunked", with_length(it, 5), content=b"0\r\n\r\n" + smug)


def hosts(smug):
    for it in how.HOSTS:
        yield message(b"GET /a HTTP/1.1", host=b"Host: " + it) + smug
        yield message(b"GET http://%s/a HTTP/1.1" % it) + smug
        yield message(b"GET http://%s/a HTTP/1.1" % it, host=None) + smug
        yield message(b"GET /a HTTP/1.1", host=b"Host: h\r\nHost: " + it) + smug
    for it in how.HOST_LINES:
        line = it.replace(b"{}", b"h")
        yield message(b"GET /a HTTP/1.1", host=line) + smug
        yield message(b"GET http://h/a HTTP/1.1", host=line) + smug
        yield message(b"GET /a HTTP/1.0", host=line) + smug


def line_ends(smug):
    """An unusual end behind the start line, between two lines, and amid a value whose rest spells a
    length, a coding or /smug."""
    for it in how.LINE_ENDS:
        yield b"GET /a HTTP/1.1" + it + b"Host: h\r\n\r\n" + smug
        yield b"GET /a HTTP/1.1\r\nHost: h" + it + b"X: y\r\n\r\n" + smug
        size = b"Content-Length: %d" % len(smug)
        for rest in (size, b"Transfer-Encoding: chunked", b"Host: i", b"GET /smug HTTP/1.1"):
            yield message(LINE, b"X: y" + it + rest, content=smug)
        yield message(LINE, b"X: y" + it + b"Content-Length: 5", b"Content-Length: 0", content=smug)
        yield message(b"GET /a?b" + it + b"GET HTTP/1.1") + smug
        yield message(b"GET /a HTTP/1.1", b"X: y" + it + it + smug) + smug
    for it in how.STARTS:
        yield it + message(b"GET /a HTTP/1.1") + it + smug


def head_ends(smug):
    for it in how.HEAD_ENDS:
        yield message(b"GET /a HTTP/1.1", end=it) + smug
        yield message(LINE, b"Content-Length: %d" % len(smug), end=it, content=smug) + smug
        yield message(LINE, b"Transfer-Encoding: chunked", end=it, content=b"0\r\n\r\n" + smug)
        yield message(LINE, b"Content-Length: 0", end=it, content=smug)


def request_lines(smug):
    for it in how.REQUEST_LINES:
        yield message(it) + smug
        yield message(it, b"Content-Length: %d" % len(smug), content=smug) + smug
        yield message(it, b"Transfer-Encoding: chunked", content=b"5\r\nhello\r\n0\r\n\r\n") + smug


def chunks(smug):
    start = message(LINE, b"Transfer-Encoding: chunked")
    for it in how.SIZES:
        yield start + it + b"\r\nhello\r\n0\r\n\r\n" + smug
        yield start + it + b"\n" + b"hello\r\n0\r\n\r\n" + smug
        yield start + b"1\r\nx\r\n" + it + b"\r\nhello\r\n0\r\n\r\n" + smug
    for it in how.CHUNK_ENDS:
        yield start + b"5" + it + b"hello\r\n0\r\n\r\n" + smug
        yield start + b"5\r\nhello" + it + b"0\r\n\r\n" + smug
        yield start + b"5\r\nhello\r\n0" + it + b"\r\n" + smug
        yield start + b"5\r\nhello\r\n0\r\n" + it + smug
        yield start + b"%x" % (len(smug) + 2) + it + smug + b"\r\n0\r\n\r\n" + smug
    for it in how.LAST_CHUNKS:
        yield start + it + b"\r\n\r\n" + smug
        yield start + chunk(b"hello") + it + b"\r\n\r\n" + smug
    for it in how.TRAILERS:
        yield start + b"0\r\n" + it + b"\r\n" + smug
        yield start + chunk(b"hello") + b"0\r\n" + it + it + b"\r\n" + smug
    # (a chunk that says less or more than it has)
    for size in (0, 1, 4, 6, 7, len(smug), 70):
        yield start + b"%x\r\nhello\r\n0\r\n\r\n" % size + smug


def tricks(smug):
    for it in how.TRICKS:
        yield message(b"GET /a HTTP/1.1", it) + smug
        yield message(LINE, it, b"Content-Length: %d" % len(smug), content=smug) + smug
        yield message(LINE, b"Transfer-Encoding: chunked", it, content=b"0\r\n\r\n") + smug


FAMILIES = [lengths, codings, both, hosts, line_ends, head_ends, request_lines, chunks, tricks]


def alone():
    """Each spelling by itself: its family, and its bytes but for the number of the case."""
    return [(family.__name__, data) for family in FAMILIES for data in family(SMUG)]


LAST = b"0\r\n\r\n"
CONTENTS = [b"", b"hello", SMUG, LAST, chunk(SMUG) + LAST, chunk(b"hello") + LAST + SMUG]


def spliced(dice):
    """One to three messages behind one another, each with several spellings in one."""
    return b"".join(spliced_message(dice) for _ in range(dice.choice([1, 1, 2, 3]))) + SMUG


def spliced_message(dice):
    line = dice.choice([LINE, LINE, b"GET /a HTTP/1.1", dice.choice(how.REQUEST_LINES)])
    host = dice.choice([HOST, HOST, HOST, dice.choice(how.HOST_LINES).replace(b"{}", dice.choice(how.HOSTS))])
    end = dice.choice([b"\r\n\r\n", b"\r\n\r\n", dice.choice(how.HEAD_ENDS)])
    content = dice.choice([*CONTENTS, spliced_chunks(dice)])
    length = with_length(dice.choice(how.LENGTHS), dice.choice([0, 5, len(content), len(content) + len(SMUG)]))
    several = range(dice.choice([1, 2, 2, 3]))
    lines = [dice.choice([length, dice.choice(how.CODINGS), dice.choice(how.TRICKS)]) for _ in several]
    if dice.random() < 0.3:
        lines = [dice.choice(how.LINE_ENDS).join(lines)]
    return message(line, *lines, host=host, end=end, content=content)


def spliced_chunks(dice):
    last = dice.choice(how.LAST_CHUNKS) + b"\r\n" + dice.choice(how.TRAILERS) + b"\r\n"
    return dice.choice(how.SIZES) + b"\r\nhello\r\n" + last


def mutated(whole, dice):
    """One of the cases, with one to four changes."""
    name, data = dice.choice(whole)
    for _ in range(dice.choice([1, 1, 2, 4])):
        data = changed(data, dice)
    return f"{name}, changed", data + (SMUG if dice.random() < 0.5 else b"")


def cases(seed, splices, mutations):
    """All cases of a seed: each has its number in its /smug, and most go out in one piece."""
    dice = random.Random(seed)
    whole = alone()
    made = [*whole, *(("spliced", spliced(dice)) for _ in range(splices))]
    made += [mutated(whole, dice) for _ in range(mutations)]
    found = []
    for number, (name, data) in enumerate(made):
        count = min(len(data) - 1, dice.choice([0, 0, 0, 1, 3])) if data else 0
        cuts = dice.sample(range(1, len(data)), count) if count > 0 else []
        text = data.replace(UNNUMBERED, b"/smug?%05d" % number)
        found.append(Case(f"{name} {number}", text, cuts, dice.random() < LATE))
    return found
