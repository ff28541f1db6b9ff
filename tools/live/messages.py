"""Scenarios of requests and responses as well-meant clients and origins write them."""
import email.utils
import time

from live.client import request
from live.expect import Unexpected, expect, expect_answer, expect_member, expect_refusal
from live.origin import Origin, byte_by_byte, ends, head_of, raw, whole
from live.scenario import KEPT, scenario

CONTINUE = b"HTTP/1.1 100 Continue\r\n\r\n"


@scenario
def a_miss_then_a_hit(stage):
    """RFC 9111, 4: a fresh stored response is sent without the origin, with its Age; RFC 9211 names both."""
    origin = stage.origin(Origin({"/a": whole(200, KEPT, 'ETag: "v1"', content=b"hello")}))
    proxy = stage.proxy()
    miss = proxy.client().ask("/a")
    expect_answer(miss, 200, "edge;fwd=uri-miss;ttl=600;stored", b"hello")
    expect("status line", "HTTP/1.1 200 ", miss.line)
    expect("Age", None, miss.value("Age"))
    hit = proxy.client().ask("/a")
    expect_answer(hit, 200, "edge;hit;ttl=600", b"hello")
    expect("Age of a second at most", True, hit.value("Age") in ("0", "1", "2"))
    expect("Date", miss.value("Date"), hit.value("Date"))
    sent = b"GET /a HTTP/1.1\r\nHost: h\r\nVia: 1.1 edge\r\nConnection: close\r\n\r\n"
    expect("requests at the origin", [sent], [bytes(it.received) for it in origin.fetches])


@scenario
def an_answer_is_dated_by_the_clock(stage):
    """RFC 9110, 6.6.1: a missing Date is the moment of receipt."""
    stage.origin(Origin({"/a": whole(200, content=b"hello")}))
    before = int(time.time())
    answer = stage.proxy().client().ask("/a")
    date = email.utils.parsedate_to_datetime(answer.value("Date")).timestamp()
    expect("the moment of the exchange as Date", True, before <= date <= time.time())


@scenario
def a_head_is_answered_from_the_store(stage):
    """RFC 9110, 9.3.2: the fields of the GET, no content; RFC 9111, 4 lets a stored GET answer it."""
    origin = stage.origin(Origin({"/a": whole(200, KEPT, content=b"hello")}))
    client = stage.proxy().client()
    expect_answer(client.ask("/a", method="HEAD"), 200, "edge;fwd=uri-miss", b"")
    expect_answer(client.ask("/a"), 200, "edge;fwd=uri-miss;ttl=600;stored", b"hello")
    answer = client.ask("/a", method="HEAD")
    expect_answer(answer, 200, "edge;hit;ttl=600", b"")
    expect("Content-Length", "5", answer.value("Content-Length"))
    expect("methods at the origin", ["HEAD", "GET"], [it.method for it in origin.fetches])


@scenario
def a_post_goes_on_and_removes_what_is_stored(stage):
    """RFC 9111, 4.4: an unsafe request that succeeds invalidates its target."""

    def answer(fetch):
        (whole(204) if fetch.method == "POST" else whole(200, KEPT, content=b"hello"))(fetch)

    origin = stage.origin(Origin({"/a": answer}))
    client = stage.proxy().client()
    client.ask("/a")
    expect_answer(client.ask("/a"), 200, "edge;hit;ttl=600", b"hello")
    expect_answer(client.ask("/a", method="POST", content=b"x=1"), 204, "edge;fwd=method", b"")
    expect("content at the origin", b"x=1", origin.fetches[1].content)
    expect_answer(client.ask("/a"), 200, "edge;fwd=uri-miss;ttl=600;stored", b"hello")


@scenario
def a_client_waits_for_100_continue(stage):
    """RFC 9110, 10.1.1: who expects 100-continue gets it before the content; the origin gets the whole request."""
    origin = stage.origin(Origin({"/a": whole(201, content=b"made")}))
    client = stage.proxy().client()
    client.send(request("/a", "Expect: 100-continue", "Content-Length: 5", method="POST"))
    client.read_until(lambda: len(client.received) >= len(CONTINUE))
    expect("interim response", CONTINUE, bytes(client.received))
    client.at = len(CONTINUE)
    expect("no request at the origin before the content", 0, len(origin.fetches))
    client.send(b"hello")
    expect_answer(client.response(), 201, "edge;fwd=method", b"made")
    expect("content, Expect and Content-Length at the origin", (b"hello", None, "5"), seen(origin.fetches[0]))


def seen(fetch):
    return fetch.content, fetch.value("Expect"), fetch.value("Content-Length")


@scenario
def chunks_become_a_length(stage):
    """RFC 9112, 7.1: contents in chunks, with extensions and a trailer, in both directions, a byte at a time."""
    chunks = b"5;x=1\r\nhello\r\n6\r\n world\r\n0\r\nT: 1\r\n\r\n"
    head = b"HTTP/1.1 200 OK\r\nTransfer-Encoding: chunked\r\n\r\n"
    origin = stage.origin(Origin({"/a": byte_by_byte(head + chunks, 0.001)}))
    client = stage.proxy().client()
    client.send_slowly(request("/a", "Transfer-Encoding: chunked", method="POST") + chunks)
    answer = client.response()
    expect_answer(answer, 200, "edge;fwd=method", b"hello world")
    expect("Transfer-Encoding and Content-Length", (None, "11"), (answer.value("Transfer-Encoding"), answer.value("Content-Length")))
    got = origin.fetches[0]
    lengths = got.value("Content-Length"), got.value("Transfer-Encoding")
    expect("content and lengths at the origin", (b"hello world", "11", None), (got.content, *lengths))


@scenario
def a_content_may_end_with_its_connection(stage):
    """RFC 9112, 6.3: a response without a length runs until the origin closes; the client gets a length."""
    stage.origin(Origin({"/a": raw(head_of(200, [KEPT]) + b"hello", ends)}))
    client = stage.proxy().client()
    expect_answer(client.ask("/a"), 200, "edge;fwd=uri-miss;ttl=600;stored", b"hello")
    expect_answer(client.ask("/a"), 200, "edge;hit;ttl=600", b"hello")


@scenario
def conditions_are_answered_304(stage):
    """RFC 9110, 13.1.2 and 13.1.3; RFC 9111, 4.3.2: a cache answers what a client has already."""
    old = "Last-Modified: Thu, 01 Jan 2026 00:00:00 GMT"
    stage.origin(Origin({"/a": whole(200, KEPT, 'ETag: "v1"', old, "X: 1", content=b"hello")}))
    client = stage.proxy().client()
    client.ask("/a")
    since = old.replace("Last-Modified", "If-Modified-Since")
    for line in ('If-None-Match: "v1"', 'If-None-Match: "v0", W/"v1"', "If-None-Match: *", since):
        answer = client.ask("/a", line)
        expect_answer(answer, 304, "edge;hit;ttl=600", b"")
        expect(f"fields that a 304 needs, at {line}", ['"v1"', None, None], [answer.value(it) for it in ("ETag", "X", "Content-Length")])
    for line in ('If-None-Match: "v2"', "If-Modified-Since: Wed, 31 Dec 2025 00:00:00 GMT"):
        expect_answer(client.ask("/a", line), 200, "edge;hit;ttl=600", b"hello")


@scenario
def a_stale_response_is_validated(stage):
    """RFC 9111, 4.3: a stale response goes out again once the origin's 304 has freshened it."""

    def answer(fetch):
        same = fetch.value("If-None-Match") == '"v1"'
        lines = ["Cache-Control: max-age=0", 'ETag: "v1"']
        (whole(304, *lines) if same else whole(200, *lines, content=b"hello"))(fetch)

    origin = stage.origin(Origin({"/a": answer}))
    client = stage.proxy().client()
    expect_answer(client.ask("/a"), 200, "edge;fwd=uri-miss;ttl=0;stored", b"hello")
    expect_answer(client.ask("/a"), 200, "edge;fwd=stale;fwd-status=304;ttl=0", b"hello")
    expect_answer(client.ask("/a", 'If-None-Match: "v1"'), 304, "edge;fwd=stale;ttl=0", b"")
    expect("conditions at the origin", [None, '"v1"', '"v1"'], [it.value("If-None-Match") for it in origin.fetches])


@scenario
def what_the_store_may_not_answer_goes_on(stage):
    """RFC 9111, 4 and 5.2.1; RFC 9211, 2.2 names why."""
    private = whole(200, "Cache-Control: private, max-age=600", content=b"mine")
    stage.origin(Origin({"/a": whole(200, KEPT, content=b"hello"), "/private": private}))
    client = stage.proxy().client()
    client.ask("/a")
    for line, member in (
        ("Cache-Control: no-cache", "edge;fwd=request;ttl=600;stored;detail=no-cache"),
        ("Range: bytes=0-1", "edge;fwd=bypass;detail=range"),
        ('If-Match: "v1"', "edge;fwd=bypass;detail=precondition"),
    ):
        expect_answer(client.ask("/a", line), 200, member, b"hello")
    for _ in range(2):
        expect_answer(client.ask("/private"), 200, "edge;fwd=uri-miss", b"mine")
    expect_refusal(client.ask("/b", "Cache-Control: only-if-cached"), 504, "only-if-cached;fwd=uri-miss")


@scenario
def pipelined_requests_are_answered_in_order(stage):
    """RFC 9112, 9.3.2: the answers come in the order of the requests; each goes on behind the answer before it."""
    answers = {f"/{name}": whole(200, KEPT, content=name.encode() * 1000) for name in "abc"}
    origin = stage.origin(Origin(answers))
    client = stage.proxy().client()
    client.send(b"".join(request(it) for it in ("/a", "/b", "/c", "/a", "/b", "/none")))
    for name in "abc":
        expect_answer(client.response(), 200, "edge;fwd=uri-miss;ttl=600;stored", name.encode() * 1000)
    for name in "ab":
        expect_answer(client.response(), 200, "edge;hit;ttl=600", name.encode() * 1000)
    expect_answer(client.response(), 404, "edge;fwd=uri-miss", b"none")
    expect("targets at the origin", ["/a", "/b", "/c", "/none"], [it.target for it in origin.fetches])


@scenario
def a_half_closed_client_gets_its_answers(stage):
    """RFC 9112, 9.6: who sends no more reads on; the proxy closes behind the last answer."""
    stage.origin(Origin({"/a": whole(200, KEPT, content=b"hello")}))
    client = stage.proxy().client()
    client.send(request("/a") + request("/a"))
    client.half_close()
    expect_answer(client.response(), 200, "edge;fwd=uri-miss;ttl=600;stored", b"hello")
    expect_answer(client.response(), 200, "edge;hit;ttl=600", b"hello")
    expect("the connection closed", True, client.is_closed())


@scenario
def a_connection_is_kept_unless_close_is_said(stage):
    """RFC 9112, 9.3: connections of HTTP/1.1 persist; `close` and HTTP/1.0 end them."""
    stage.origin(Origin({"/a": whole(200, KEPT, content=b"hello")}))
    proxy = stage.proxy()
    client = proxy.client()
    for _ in range(20):
        expect("Connection of an answer", None, client.ask("/a").value("Connection"))
    expect("Connection of the last answer", "close", client.ask("/a", "Connection: close").value("Connection"))
    expect("the connection closed", True, client.is_closed())
    old = proxy.client()
    old.send(b"GET /a HTTP/1.0\r\nHost: h\r\nConnection: keep-alive\r\n\r\n")
    answer = old.response()
    expect_answer(answer, 200, "edge;hit;ttl=600", b"hello")
    expect("Connection, and the connection closed", ("close", True), (answer.value("Connection"), old.is_closed()))


@scenario
def the_table_decides_before_all_else(stage):
    """The first line that matches decides; what no line allows is denied. Neither reaches store or origin."""
    origin = stage.origin(Origin({"/admin": whole(200, KEPT, content=b"secret")}))
    client = stage.proxy(("/admin", ["*"], "deny"), ("/", ["GET", "HEAD"], origin.address)).client()
    expect_refusal(client.ask("/%61dmin"), 403, "denied by line 1")
    expect_refusal(client.ask("/admin/x", method="HEAD"), 403, "denied by line 1", content=False)
    for method in ("POST", "OPTIONS", "TRACE"):
        expect_refusal(client.ask("/x", method=method, content=b""), 403, "no line allows it")
    expect_answer(client.ask("/admins"), 404, "edge;fwd=uri-miss", b"none")
    expect("targets at the origin", ["/admins"], [it.target for it in origin.fetches])


@scenario
def what_could_be_read_in_two_ways_is_refused(stage):
    """RFC 9112, 2.2, 3.2, 5 and 6.3; RFC 9110, 15.5 and 15.6. The connection is closed behind each."""
    origin = stage.origin(Origin({}))
    proxy = stage.proxy()
    host = b"Host: h\r\n"
    for data, status, word in (
        (b"GET / HTTP/2.0\r\n" + host, 505, "version"),
        (b"GET / HTTP/1.1\r\nContent-Length: 1\r\nTransfer-Encoding: chunked\r\n" + host, 400, "both-lengths"),
        (b"GET / HTTP/1.1\r\nContent-Length: 1, 2\r\n" + host, 400, "length"),
        (b"GET / HTTP/1.1\r\nTransfer-Encoding: gzip, chunked\r\n" + host, 501, "coding"),
        (b"POST / HTTP/1.1\r\nExpect: x\r\n" + host, 417, "expect"),
        (b"GET / HTTP/1.1\r\nA: 1\r\n folded\r\n" + host, 400, "head"),
        (b"GET / HTTP/1.1\r\nA : 1\r\n" + host, 400, "head"),
        (b"GET / HTTP/1.1\r\nA: " + b"x" * 40000 + b"\r\n" + host, 400, "head"),
        (b"GET / HTTP/1.1\r\n", 400, "host"),
        (b"GET / HTTP/1.0\r\n", 400, "host"),
        (b"GET /a/../b HTTP/1.1\r\n" + host, 400, "dot-segment"),
        (b"GET /%zz HTTP/1.1\r\n" + host, 400, "escape"),
        (b"GET /" + b"x" * 8192 + b" HTTP/1.1\r\n" + host, 414, "too-long"),
        (b"OPTIONS * HTTP/1.1\r\n" + host, 400, "form"),
        (b"\x16\x03\x01\x02\x00\x01\x00\x01\xfc\x03\x03\r\n", 400, "head"),
    ):
        client = proxy.client()
        client.send(data + b"\r\n")
        answer = client.response()
        expect_refusal(answer, status, f"refused: {word}")
        expect(f"Connection, and the connection closed, at {word}", ("close", True), (answer.value("Connection"), client.is_closed()))
    expect("requests at the origin", 0, len(origin.fetches))


@scenario
def a_request_may_come_slowly(stage):
    """Bytes are cut anywhere by a network: a request that comes a byte at a time is the same request."""
    stage.origin(Origin({"/a": whole(200, KEPT, content=b"hello")}))
    client = stage.proxy().client()
    client.send_slowly(request("/a"))
    expect_answer(client.response(), 200, "edge;fwd=uri-miss;ttl=600;stored", b"hello")
    client.send_slowly(b"\r\n" + request("/a"))
    expect_answer(client.response(), 200, "edge;hit;ttl=600", b"hello")


@scenario
def variants_are_kept_apart(stage):
    """RFC 9111, 4.1: a response with Vary answers requests with the same values alone."""

    def answer(fetch):
        whole(200, KEPT, "Vary: Accept-Language", content=(fetch.value("Accept-Language") or "none").encode())(fetch)

    stage.origin(Origin({"/a": answer}))
    client = stage.proxy().client()
    expect_member("edge;fwd=uri-miss;ttl=600;stored", client.ask("/a", "Accept-Language: de"))
    expect_answer(client.ask("/a", "Accept-Language: en"), 200, "edge;fwd=vary-miss;ttl=600;stored", b"en")
    expect_answer(client.ask("/a", "Accept-Language: de"), 200, "edge;hit;ttl=600", b"de")
    expect_answer(client.ask("/a"), 200, "edge;fwd=vary-miss;ttl=600;stored", b"none")


@scenario
def contents_of_every_length_come_whole(stage):
    """A content is cut into pieces on the way: lengths about the sizes of reads and of buffers, both ways."""
    lengths = [0, 1, 4095, 4096, 4097, 8192, 65536, 99999, 100000, 100001, 999999, 1000000]
    text = bytes(i * 7 % 251 for i in range(1000000))
    origin = stage.origin(Origin({"/%d" % n: whole(200, content=text[:n]) for n in lengths}))
    client = stage.proxy().client()
    for at, length in enumerate(lengths):
        answer = client.ask("/%d" % length, method="POST", content=text[:length])
        expect_answer(answer, 200, "edge;fwd=method", text[:length])
        if origin.fetches[at].content != text[:length]:
            raise Unexpected("at the origin a content of", f"{length} bytes", f"{len(origin.fetches[at].content)} bytes, or others")
