"""Scenarios of those who take too long: a client whose request doesn't come whole, one that left, an origin that is silent or
never ends. Each is given up in time, and keeps nobody else waiting until then."""
import threading
import time

from live.client import request
from live.expect import Unexpected, expect, expect_answer, expect_refusal, expect_within
from live.origin import FullQueue, Origin, byte_by_byte, head_of, held_back, silent, whole
from live.scenario import AT_ONCE, KEPT, LATEST, SHORT, scenario, timed
from live.staying import HIT, STORED

# Requests side by side that don't come whole, or whose client has left.
CROWD = 300


def drip(client, data, until, pause=0.3):
    """Sends a byte now and then until the proxy ends the connection; the seconds until then."""
    began = time.monotonic()
    for byte in data:
        if not client.has_nothing_to_read(pause) or time.monotonic() - began > until:
            break
        try:
            client.send(bytes([byte]))
        except OSError:
            break
    client.settle()
    return time.monotonic() - began


@scenario
def a_request_that_drips_is_cut_off(stage):
    """`--request-timeout`: a head, a content with its length and one in chunks that come a byte at a time lose their
    connection, nothing is sent for them, and their origin hears of none."""
    origin = stage.origin(Origin({"/a": whole(200, KEPT, content=b"hello")}))
    proxy = stage.proxy(options=["--request-timeout", str(SHORT)])
    starts = b"GET /a HTTP/1.1\r\nHost: h\r\nX: ", request("/a", "Content-Length: 100000", method="POST")
    starts += (request("/a", "Transfer-Encoding: chunked", method="POST") + b"ffff\r\n",)
    told = []

    def drip_behind(client, start):
        client.send(start)
        told.append((client, drip(client, b"x" * 1000, 2 * LATEST)))

    crowd = [threading.Thread(target=drip_behind, args=[proxy.client(), it]) for it in starts]
    for it in crowd:
        it.start()
    expect_answer(proxy.client().ask("/a"), 200, STORED, b"hello")
    for it in crowd:
        it.join()
    for client, seconds in told:
        expect("bytes behind an end", (True, b""), (client.has_ended, bytes(client.received)))
        expect_within("a dripping request's end", SHORT - 0.5, LATEST, seconds)
    expect("requests at the origin", 1, len(origin.fetches))


@scenario
def an_honest_request_is_not_cut_off(stage):
    """The time-out is one of a request: a head and an upload that take less are served, also behind a longer silence and on a
    connection that lasts longer."""
    origin = stage.origin(Origin({"/a": whole(200, KEPT, content=b"hello"), "/post": whole(201, content=b"made")}))
    proxy = stage.proxy(options=["--request-timeout", str(SHORT)])
    client = proxy.client()
    time.sleep(SHORT + 1)
    for _ in range(3):
        text = request("/post", method="POST", content=b"x" * 100000)
        for i in range(4):
            client.send(text[i * 20000 :] if i == 3 else text[i * 20000 : (i + 1) * 20000])
            time.sleep(0.3)
        expect_answer(client.response("POST"), 201, "edge;fwd=method", b"made")
    expect("contents at the origin", [b"x" * 100000] * 3, [it.content for it in origin.fetches])
    client.send_slowly(request("/a"), 0.02)
    expect_answer(client.response(), 200, STORED, b"hello")


@scenario
def the_time_of_a_request_begins_behind_the_answer_before_it(stage):
    """A second request that is begun before the first is answered: the first has its answer, however long its origin takes, and
    the second has its own time from there on."""
    late = lambda fetch: (time.sleep(SHORT + 2), whole(200, content=b"late")(fetch))
    stage.origin(Origin({"/late": late, "/a": whole(200, KEPT, content=b"hello")}))
    client = stage.proxy(options=["--request-timeout", str(SHORT)]).client()
    client.send(request("/late") + request("/a")[:20])
    expect_answer(client.response(), 200, "edge;fwd=uri-miss", b"late")
    time.sleep(0.5)
    client.send(request("/a")[20:])
    expect_answer(client.response(), 200, STORED, b"hello")


def expect_nobody_waits_for(proxy, start, rest, method, answered):
    """300 clients begin a request each: another one is answered at once, and then they are, once the rest of theirs has come."""
    crowd = [proxy.client() for _ in range(CROWD)]
    for it in crowd:
        it.send(start)
    for pause in (0, 1.5):
        time.sleep(pause)
        answer, seconds = timed(proxy.client(), "/a")
        expect_answer(answer, 200, HIT, b"hello")
        expect_within("an honest client's answer", 0, AT_ONCE, seconds)
    for it in crowd:
        it.send(rest)
    for it in crowd:
        expect_answer(it.response(method), *answered)


@scenario
def heads_that_drip_keep_nobody_waiting(stage):
    """300 heads aren't whole: who comes then is answered at once, and none of them is cut off for that."""
    stage.origin(Origin({"/a": whole(200, KEPT, content=b"hello")}))
    proxy = stage.proxy()
    expect_answer(proxy.client().ask("/a"), 200, STORED, b"hello")
    expect_nobody_waits_for(proxy, b"GET /a HTTP/1.1\r\nHost: h\r\nX: ", b"x\r\n\r\n", "GET", (200, HIT, b"hello"))


@scenario
def contents_that_drip_keep_nobody_waiting(stage):
    """The same where they are amid their contents."""
    stage.origin(Origin({"/a": whole(200, KEPT, content=b"hello"), "/post": whole(201, content=b"made")}))
    proxy = stage.proxy()
    expect_answer(proxy.client().ask("/a"), 200, STORED, b"hello")
    start = request("/post", "Content-Length: 10", method="POST") + b"x"
    expect_nobody_waits_for(proxy, start, b"x" * 9, "POST", (201, "edge;fwd=method", b"made"))


@scenario
def many_newcomers_among_drips_are_answered_at_once(stage):
    """Fifty ask side by side, and one uploads, where 500 heads aren't whole."""
    stage.origin(Origin({"/a": whole(200, KEPT, content=b"hello"), "/post": whole(201, content=b"made")}))
    proxy = stage.proxy()
    expect_answer(proxy.client().ask("/a"), 200, STORED, b"hello")
    for it in [proxy.client() for _ in range(500)]:
        it.send(b"GET /a HTTP/1.1\r\nHost: h\r\nX: ")
    new = [proxy.client() for _ in range(50)]
    began = time.monotonic()
    for it in new:
        it.send(request("/a"))
    for it in new:
        expect_answer(it.response(), 200, HIT, b"hello")
    answer = proxy.client().ask("/post", method="POST", content=b"x" * 100000)
    expect_answer(answer, 201, "edge;fwd=method", b"made")
    expect_within("the last of their answers", 0, 2 * AT_ONCE, time.monotonic() - began)


@scenario
def a_client_that_sends_no_more_is_answered_in_time(stage):
    """`--abandon-timeout`: a client that has ended its input waits for its answer that long, and gets what comes by then."""
    origin = stage.origin(Origin({"/soon": lambda fetch: (time.sleep(1), whole(200, content=b"soon")(fetch)), "/never": silent}))
    proxy = stage.proxy(options=["--abandon-timeout", "3"])
    soon, never = proxy.client(), proxy.client()
    began = time.monotonic()
    for client, target in ((soon, "/soon"), (never, "/never")):
        client.send(request(target))
        client.half_close()
    expect_answer(soon.response(), 200, "edge;fwd=uri-miss", b"soon")
    expect("the connection closed", True, soon.is_closed())
    expect("the other's connection closed", True, never.is_closed())
    expect_within("its end", 2.5, LATEST, time.monotonic() - began)
    fetch = next(it for it in origin.fetches if it.target == "/never")
    expect("the link's end at the origin", True, fetch.is_over.wait(LATEST))


@scenario
def a_client_that_sends_no_more_may_read_slowly(stage):
    """What has come for one that has ended its input is sent to its end, though it takes longer than `--abandon-timeout`."""
    text = bytes(i * 7 % 251 for i in range(8000000))
    stage.origin(Origin({"/a": whole(200, KEPT, content=text)}))
    proxy = stage.proxy(options=["--abandon-timeout", "1"], max_body=16 << 20, max_stored=16 << 20)
    proxy.client().ask("/a")
    slow = proxy.client(window=65536)
    slow.send(request("/a"))
    slow.half_close()
    began = time.monotonic()
    while time.monotonic() - began < 4:
        slow.read_some(100000)
        time.sleep(0.2)
    slow.open_window()
    if slow.response().content != text:
        raise Unexpected("content", "as it was stored", "another one")
    expect("the connection closed", True, slow.is_closed())


@scenario
def a_client_that_left_is_given_up(stage):
    """A client that closes while it waits is gone after `--abandon-timeout`: its link is closed, before its origin answers."""
    origin = stage.origin(Origin({"/silent": silent, "/a": whole(200, KEPT, content=b"hello")}))
    proxy = stage.proxy(options=["--abandon-timeout", "1"])
    for i in range(20):
        waiting = proxy.client()
        waiting.send(request(f"/silent?{i}"))
        origin.wait_for(i + 1)
        waiting.leave()
    began = time.monotonic()
    for it in origin.fetches:
        expect("the link's end at the origin", True, it.is_over.wait(LATEST))
    expect_within("the links' ends", 0, 5, time.monotonic() - began)
    expect("numbers that are gone", 20, len(proxy.wait_until_happened("gone", 20)))
    expect_answer(proxy.client().ask("/a"), 200, STORED, b"hello")


@scenario
def clients_that_left_keep_nobody_waiting(stage):
    """300 clients left while their origin is silent, and `--abandon-timeout` is a minute: another one is answered at once."""
    origin = stage.origin(Origin({"/silent": silent, "/a": whole(200, KEPT, content=b"hello")}))
    proxy = stage.proxy(options=["--abandon-timeout", "60"])
    expect_answer(proxy.client().ask("/a"), 200, STORED, b"hello")
    for i in range(CROWD):
        waiting = proxy.client()
        waiting.send(request(f"/silent?{i}"))
        origin.wait_for(i + 2)
        waiting.leave()
    for _ in range(3):
        answer, seconds = timed(proxy.client(), "/a")
        expect_answer(answer, 200, HIT, b"hello")
        expect_within("an honest client's answer", 0, AT_ONCE, seconds)


@scenario
def who_waits_goes_on_where_the_first_closes(stage):
    """The client whose request is at the origin closes its connection: after `--abandon-timeout` its link is closed, and those
    that waited for its answer go forward. One that closes while it waits costs nobody anything."""
    go = threading.Event()
    origin = stage.origin(Origin({"/a": held_back(go, whole(200, KEPT, content=b"hello"))}))
    proxy = stage.proxy(options=["--abandon-timeout", "1"])
    first, second, third, fourth = (proxy.client() for _ in range(4))
    first.send(request("/a"))
    origin.wait_for(1)
    for it in (second, third, fourth):
        it.send(request("/a"))
    time.sleep(0.5)
    fourth.leave()
    expect("numbers that are gone", [4], proxy.wait_until_happened("gone", 1))
    first.leave()
    origin.wait_for(3)
    late = proxy.client()
    late.send(request("/a"))
    time.sleep(0.5)
    go.set()
    for it, member in ((second, STORED), (third, STORED), (late, f"{STORED.replace('stored', 'collapsed')}")):
        expect_answer(it.response(), 200, member, b"hello")
    expect("the link's end at the origin", True, origin.fetches[0].is_over.wait(LATEST))
    expect("requests at the origin", 3, len(origin.fetches))


@scenario
def a_connect_has_a_time_out_of_its_own(stage):
    """RFC 9110, 15.6.5: 504 where no connection comes about in `--connect-timeout`, though `--origin-timeout` is longer, and
    no sooner where it is shorter."""
    full = stage.origin(FullQueue())
    for connect, others in (("2", "60"), ("3", "1")):
        proxy = stage.proxy(full.address, options=["--connect-timeout", connect, "--origin-timeout", others])
        answer, seconds = timed(proxy.client(), "/a")
        expect_refusal(answer, 504, "origin timed-out;fwd=uri-miss")
        expect_within("504", int(connect) - 0.5, LATEST, seconds)


@scenario
def an_exchange_has_an_end(stage):
    """`--exchange-timeout`: an origin that goes on sending for ever, in its head, in its content or in interim answers, fails as
    timed-out; others are served meanwhile."""
    # (three in a row have timed out then, which may be warned of)
    stage.lines = range(2)
    endless = {
        "/head": byte_by_byte(b"HTTP/1.1 200 OK\r\nX: " + b"x" * 1000, 0.2),
        "/content": lambda fetch: (fetch.send(head_of(200, [KEPT])), byte_by_byte(b"x" * 1000, 0.2)(fetch)),
        "/interim": lambda fetch: [(fetch.send(b"HTTP/1.1 103 Early Hints\r\n\r\n"), time.sleep(0.2)) for _ in range(1000)],
    }
    origin = stage.origin(Origin({**endless, "/a": whole(200, KEPT, content=b"hello")}))
    proxy = stage.proxy(options=["--exchange-timeout", str(SHORT)])
    began = time.monotonic()
    waiting = [proxy.client() for _ in endless]
    for it, target in zip(waiting, endless):
        it.send(request(target))
    expect_answer(proxy.client().ask("/a"), 200, STORED, b"hello")
    for it in waiting:
        expect_refusal(it.response(), 504, "origin timed-out;fwd=uri-miss")
        expect_within("504", SHORT - 0.5, LATEST, time.monotonic() - began)
    for it in origin.fetches:
        expect("the link's end at the origin", True, it.is_over.wait(LATEST))
    for it in waiting:
        expect_answer(it.ask("/a"), 200, HIT, b"hello")
