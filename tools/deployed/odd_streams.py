"""Odd streams of HTTP/2 through the fronts of deploy/: what RFC 9113, 8.1 to 8.3 call malformed makes no request of its own, and no
stranger is held up by streams that are begun and reset."""
import threading
import time

from deployed.fronts import Front
from deployed.stand import need, part, wait_until
from deployed.streams import Streams
from live.expect import Unexpected, expect, expect_within
from live.origin import whole
from live.scenario import KEPT

FORGED = "x-smuggled"
# A request in the place of a value: where it isn't refused, an HTTP/1.1 origin reads two.
SECOND = "\r\nx-smuggled: 1\r\n\r\nGET /admin HTTP/1.1\r\nhost: h.example\r\n\r\n"


def fields_of(target, **other):
    """The pseudo-fields of an ordinary request, some of them other ones; None leaves one out."""
    told = {"method": "GET", "scheme": "https", "path": target, "authority": "h.example", **other}
    return [(f":{name}", value) for name, value in told.items() if value is not None]


def shapes(path):
    """What is sent on a stream: a name, the fields, and what comes behind them (content as text, trailers as a list)."""
    for value in (f"{path} HTTP/1.1{SECOND}", f"{path} x", f"{path}\tx", f"{path}\0", "", path[1:], "*", f"{path}\x7f"):
        yield f":path {value!r}", fields_of(value), []
    for value in (f"GET /admin HTTP/1.1{SECOND}GET", "get", "", "G ET", "GET\0", "PURGE", "purge", "PURGEX", "CONNECT", "TRACE"):
        yield f":method {value!r}", fields_of(path, method=value), []
    for value in (f"h.example{SECOND}", "h.example evil", "h,evil.example", "h.example,evil.example", "u@h.example", "h.example/x", "h.example:99999", "", "h.example\0"):
        yield f":authority {value!r}", fields_of(path, authority=value), []
    for value in ("javascript", "", f"https{SECOND}"):
        yield f":scheme {value!r}", fields_of(path, scheme=value), []
    for name in ("method", "scheme", "path"):
        yield f"without :{name}", fields_of(path, **{name: None}), []
    for name, value in (("path", "/admin"), ("authority", "evil.example"), ("method", "POST"), ("status", "200"), (FORGED, "1")):
        yield f"a further :{name}", [*fields_of(path), (f":{name}", value)], []
        yield f":{name} behind a field", [*fields_of(path), ("accept", "*/*"), (f":{name}", value)], []
    for name in ("X-Smuggled", "x smuggled", "x-smuggled:", "a: 1\r\nx-smuggled", "a\nx-smuggled", "", "a\0", "a\x80"):
        yield f"the name {name!r}", [*fields_of(path), (name, "1")], []
    for value in (f"1{SECOND}", "1\r\nx-smuggled: 1", "1\nx-smuggled: 1", "1\rx-smuggled: 1", "1\0"):
        yield f"the value {value!r}", [*fields_of(path), ("a", value)], []
    for line in ("connection: x-forwarded-for", "transfer-encoding: chunked", "te: gzip", "upgrade: h2c", "keep-alive: 1", "proxy-connection: close"):
        yield line, [*fields_of(path), tuple(line.split(": "))], []
    yield "a further host", [*fields_of(path), ("host", "evil.example")], []
    post = fields_of(path, method="POST")
    for lengths, content in ((["5"], "abc"), (["5"], "abcdefgh"), (["5", "6"], "abcde"), (["+5"], "abcde"), (["5 "], "abcdefgh"), (["0"], "GET /admin HTTP/1.1\r\n\r\n")):
        yield f"content-length {lengths} before {content!r}", [*post, *(("content-length", it) for it in lengths)], [content]
    yield "content-length 5 and no content", [*post, ("content-length", "5")], []
    yield "transfer-encoding before a content", [*post, ("transfer-encoding", "chunked")], [f"0\r\n\r\nGET /admin HTTP/1.1{SECOND}"]
    for line in ((FORGED, "1"), (":path", "/admin"), ("content-length", "0"), ("host", "evil.example"), ("transfer-encoding", "chunked"), ("a", f"1{SECOND}")):
        yield f"the trailer {line!r}", post, ["abc", [line]]


def frames_of(connection, stream, fields, rest):
    """The frames of one request."""
    yield connection.headers(stream, fields, is_end=not rest)
    for i, it in enumerate(rest):
        is_end = i == len(rest) - 1
        yield connection.data(stream, it.encode(), is_end) if isinstance(it, str) else connection.headers(stream, it, is_end)


@part
def odd_streams(stand):
    need("nginx", "haproxy", "curl")
    for kind in ("nginx", "haproxy"):
        front = Front(stand, kind)
        yield f"make_no_other_request_through_{kind}", lambda front=front: make_no_other_request(front)
        yield f"that_are_reset_hold_nobody_up_through_{kind}", lambda front=front: that_are_reset_hold_nobody_up(front)


def make_no_other_request(front):
    """Whatever a stream says, the origin gets nothing, or the one request that its fields spell: its path and host, none of what was forged, and
    no second one. A stream behind it on the same connection, or the next connection, has its own answer."""
    tried, passed = 0, []
    for number, (name, fields, rest) in enumerate(shapes("/odd")):
        path = f"/odd/{number}"
        fields = [(key, value.replace("/odd", path)) for key, value in fields]
        front.origin.answers[path] = whole(200, "Cache-Control: no-store", content=path.encode())
        count, connection = len(front.origin.fetches), Streams(front.https)
        connection.send(*frames_of(connection, 1, fields, rest))
        told = connection.read_for(1)
        connection.close()
        expect_own_request(front, name, path, rest, front.origin.fetches[count:])
        expect(f"the page behind {name}", 200, front.ask("/a").status)
        tried, passed = tried + 1, passed + [name] * (told == 200)
    return f"{tried} streams, {len(passed)} of them answered 200: {', '.join(passed)}"


def expect_own_request(front, name, path, rest, fetches):
    """What came to the origin from a stream, if anything did."""
    fetches = [it for it in fetches if it.target != "/a"]
    if len(fetches) > 1:
        raise Unexpected(f"requests at the origin of {name}", "one at most", [it.target for it in fetches])
    content = rest[0] if rest and isinstance(rest[0], str) else ""
    for it in fetches:
        names = [key.lower() for key, _ in it.fields]
        hosts = [value for key, value in it.fields if key.lower() == "host"]
        expect(f"path and hosts at the origin of {name}", (path, ["h.example"]), (it.target, hosts))
        expect(f"what was forged, of {name}", [], [key for key in names if key in (FORGED, "transfer-encoding", "te", "upgrade")])
        expect(f"content at the origin of {name}", content.encode(), it.content)
        expect(f"bytes behind the request of {name}", len(it.content), len(bytes(it.received).partition(b"\r\n\r\n")[2]))
        address = [value for key, value in it.fields if key.lower() == "x-forwarded-for"]
        expect(f"the address that the origin is told of {name}", ["127.0.0.1"], address)


CONNECTIONS, TURNS, STREAMS = 4, 200, 10


def that_are_reset_hold_nobody_up(front):
    """Four connections begin ten streams each hundredth of a second and reset them at once (a "rapid reset"); others are answered meanwhile,
    and behind it the cache has nothing in progress."""
    front.origin.answers["/reset"] = whole(200, KEPT, content=b"reset")
    expect("status", 200, front.ask("/a").status)
    sent = []
    crowd = [threading.Thread(target=begin_and_reset, args=[front.https, sent]) for _ in range(CONNECTIONS)]
    for it in crowd:
        it.start()
    worst, asked = 0, 0
    while any(it.is_alive() for it in crowd):
        began = time.monotonic()
        expect("status beside the resets", 200, front.ask("/a", "--http2" if asked % 2 else "--http1.1").status)
        worst, asked = max(worst, time.monotonic() - began), asked + 1
    expect_within("seconds that others waited", 0, 5, worst)
    wait_until(lambda: not [it for it in front.origin.fetches if not it.is_over.is_set()], "nothing in progress at the origin")
    return f"{sum(sent)} streams reset, {asked} others, the longest wait {worst:.2f} s"


def begin_and_reset(port, sent):
    connection, stream = Streams(port, source="127.0.0.2"), 1
    for turn in range(TURNS):
        frames = []
        for _ in range(STREAMS):
            frames += [connection.headers(stream, fields_of(f"/reset/{turn}")), connection.rst(stream)]
            stream += 2
        try:
            connection.send(*frames)
        except OSError:
            # (a front may end such a connection: the client comes again)
            connection, stream = Streams(port, source="127.0.0.2"), 1
            continue
        sent.append(STREAMS)
        time.sleep(0.01)
    connection.close()
