"""A reader of messages that takes nothing but what RFC 9110 and 9112 spell, and names the first
thing that is otherwise."""
import re

TOKEN = rb"[!#$%&'*+\-.^_`|~0-9A-Za-z]+"
REQUEST_LINE = re.compile(rb"(%s) ([\x21-\x7e]+) HTTP/1\.1" % TOKEN)
STATUS_LINE = re.compile(rb"HTTP/1\.1 ([1-5][0-9][0-9]) [\t\x20-\x7e\x80-\xff]*")
FIELD_LINE = re.compile(rb"(%s):(.*)" % TOKEN, re.DOTALL)
VALUE = re.compile(rb"[\t\x20-\x7e\x80-\xff]*")
HOST = re.compile(rb"(?:[A-Za-z0-9._-]+|\[[0-9A-Fa-f:.]+\])(?::[0-9]{1,5})?")
LENGTH = re.compile(rb"[0-9]{1,18}")
# What a proxy has no business to pass on (RFC 9110, 7.6.1), and Expect, which this one answers itself.
HOP_BY_HOP = (b"keep-alive", b"proxy-connection", b"te", b"trailer", b"upgrade", b"expect", b"proxy-authorization")
ESCAPE = re.compile(rb"%([0-9A-Fa-f]{2})")
UNRESERVED = re.compile(rb"[0-9A-Za-z._~-]")
DENIED = b"/smug"


class Fault(Exception):
    """What a message has that none may have: a word for it, and more."""

    def __init__(self, word, more=""):
        super().__init__(f"{word}: {more}" if more else word)
        self.word = word


class Head:
    """A start line and the lines of a head, and how many bytes they take."""

    def __init__(self, data):
        end = data.find(b"\r\n\r\n")
        if end < 0:
            raise Fault("head", f"no end in {data[:200]!r}")
        self.length = end + 4
        self.first, *lines = data[:end].split(b"\r\n")
        self.fields = []
        for it in lines:
            found = FIELD_LINE.fullmatch(it)
            if not found:
                raise Fault("line", f"{it[:200]!r} is no field line")
            if not VALUE.fullmatch(found[2]):
                raise Fault("value", f"a control byte in {it[:200]!r}")
            self.fields.append((found[1].lower(), found[2].strip(b" \t")))

    def values(self, name):
        return [value for key, value in self.fields if key == name]

    def value(self, name):
        values = self.values(name)
        return b", ".join(values) if values else None

    def content_length(self):
        """What the one Content-Length says; None where there is none."""
        values = self.values(b"content-length")
        if len(values) > 1:
            raise Fault("lengths", f"{len(values)} lines of Content-Length")
        if self.values(b"transfer-encoding"):
            raise Fault("coding", "a Transfer-Encoding")
        if not values:
            return None
        if not LENGTH.fullmatch(values[0]):
            raise Fault("lengths", f"Content-Length: {values[0]!r}")
        return int(values[0])


def unescaped(found):
    """What an escape stands for, where that needs no escape; else the escape."""
    byte = bytes([int(found[1], 16)])
    return byte if UNRESERVED.fullmatch(byte) else found[0]


def is_denied(target):
    """Whether the table denies the target: /smug and all below, in whatever escapes of letters."""
    path = ESCAPE.sub(unescaped, target.partition(b"?")[0])
    return path == DENIED or path.startswith(DENIED + b"/")


def hold_forwarded(data):
    """Reads what came over one connection from the proxy: one request, which this returns, and
    nothing behind it."""
    head = Head(data)
    first = REQUEST_LINE.fullmatch(head.first)
    if not first or not first[2].startswith(b"/"):
        raise Fault("request line", repr(head.first[:200]))
    head.method, head.target = first[1], first[2]
    if is_denied(head.target):
        raise Fault("smuggled", repr(head.first[:200]))
    hosts = head.values(b"host")
    if len(hosts) != 1 or not HOST.fullmatch(hosts[0]):
        raise Fault("host", f"lines of Host: {hosts!r}")
    if head.values(b"connection") != [b"close"]:
        raise Fault("connection", f"lines of Connection: {head.values(b'connection')!r}")
    passed = [it for it in HOP_BY_HOP if head.values(it)]
    if passed:
        raise Fault("hop-by-hop", f"{passed!r} went on")
    announced, came = head.content_length() or 0, len(data) - head.length
    if announced != came:
        raise Fault("content", f"{announced} bytes announced, {came} came: {data[head.length :][:200]!r}")
    return head


class Answer:
    """One response with its content."""

    def __init__(self, head, status, content):
        self.head, self.status, self.content = head, status, content

    def value(self, name):
        value = self.head.value(name)
        return None if value is None else value.decode("latin-1")

    @property
    def is_own(self):
        """Whether the proxy itself made it."""
        return self.head.value(b"refusal") is not None


def content_of(head, status, method, rest):
    """How many bytes of content stand behind the head of a response to this method; where it isn't
    known, by what stands there."""
    length = head.content_length()
    if status < 200 or status in (204, 304):
        if length is not None and status != 304:
            raise Fault("lengths", f"Content-Length in a {status}")
        return 0
    if method == "HEAD":
        return 0
    is_left_out = method is None and (not rest or rest.startswith(b"HTTP/1.1 "))
    if is_left_out and head.value(b"x-method") in (None, b"HEAD"):
        return 0
    if length is None:
        raise Fault("lengths", f"no Content-Length in a {status}")
    return length


def read_answer(data, method=None):
    """The response that the bytes begin with, and how many of them it takes; None of a part of one."""
    if b"\r\n\r\n" not in data:
        if data and not b"HTTP/1.1 ".startswith(data[:9]) and not data.startswith(b"HTTP/1.1 "):
            raise Fault("status line", repr(data[:200]))
        return None
    head = Head(data)
    first = STATUS_LINE.fullmatch(head.first)
    if not first:
        raise Fault("status line", repr(head.first[:200]))
    status = int(first[1])
    rest = data[head.length :]
    length = content_of(head, status, method, rest)
    if len(rest) < length:
        return None
    return Answer(head, status, rest[:length]), head.length + length


def read_answers(data):
    """All responses to requests of unknown methods, and what is left behind the last whole one."""
    answers = []
    while data and (found := read_answer(data)):
        answers.append(found[0])
        data = data[found[1] :]
    return answers, data
