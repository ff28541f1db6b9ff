"""Scenarios of requests that wait for another's answer."""
import threading
import time

from live.client import request
from live.expect import expect, expect_answer, expect_member, expect_refusal, expect_within
from live.origin import Origin, ends, held_back, silent, whole
from live.scenario import AT_ONCE, KEPT, LATEST, SHORT, scenario, timed

STORED = "edge;fwd=uri-miss;ttl=600;stored"
COLLAPSED = "edge;fwd=uri-miss;ttl=600;collapsed"
MISS = "edge;fwd=uri-miss"
# Seconds in which the proxy has read what clients have sent.
READ = 0.5


def asking(proxy, count, *words):
    """So many clients that have asked for one target. The first of them has been read before the others ask."""
    clients = [proxy.client() for _ in range(count)]
    clients[0].send(request(*words))
    time.sleep(READ)
    for it in clients[1:]:
        it.send(request(*words))
    time.sleep(READ)
    return clients


@scenario
def many_ask_for_what_is_not_stored(stage):
    """RFC 9111, 4: of a hundred requests for one target one goes to the origin, and all are answered by its answer. A
    client that waits takes nothing from another one, and its next request is answered behind this one."""
    go, text = threading.Event(), b"hello" * 2000
    answers = {"/a": held_back(go, whole(200, KEPT, 'ETag: "v1"', content=text)), "/b": whole(200, content=b"soon")}
    origin = stage.origin(Origin(answers))
    proxy = stage.proxy()
    clients = asking(proxy, 100, "/a")
    clients[50].send(request("/b"))
    answer, seconds = timed(proxy.client(), "/b")
    expect_answer(answer, 200, MISS, b"soon")
    expect_within("another target's answer", 0, AT_ONCE, seconds)
    expect("an answer before the origin's", False, any(not it.has_nothing_to_read(0) for it in clients))
    go.set()
    for it, member in zip(clients, [STORED] + [COLLAPSED] * 99):
        expect_answer(it.response(), 200, member, text)
    expect_answer(clients[50].response(), 200, MISS, b"soon")
    expect("requests at the origin for /a", 1, sum(it.target == "/a" for it in origin.fetches))
    expect_answer(proxy.client().ask("/a"), 200, "edge;hit;ttl=600", text)


@scenario
def what_may_not_be_stored_answers_one(stage):
    """Each that waited for an answer with no-store goes to the origin by itself, all of them at once, and has its own."""
    go = threading.Event()

    def answer(fetch):
        whole(200, "Cache-Control: no-store", content=fetch.value("X-Client").encode())(fetch)

    origin = stage.origin(Origin({"/a": held_back(go, answer)}))
    proxy = stage.proxy()
    clients = [proxy.client() for _ in range(10)]
    for i, it in enumerate(clients):
        it.send(request("/a", f"X-Client: {i}"))
        time.sleep(READ if i == 0 else 0)
    time.sleep(READ)
    expect("requests at the origin", 1, len(origin.fetches))
    go.set()
    for i, it in enumerate(clients):
        expect_answer(it.response(), 200, MISS, str(i).encode())
    expect("requests at the origin", 10, len(origin.fetches))


@scenario
def who_waits_goes_on_where_the_first_leaves(stage):
    """The client whose request is at the origin is cut off: its link is closed, and those that waited go forward. One that
    leaves while it waits costs nobody anything."""
    go = threading.Event()
    origin = stage.origin(Origin({"/a": held_back(go, whole(200, KEPT, content=b"hello"))}))
    proxy = stage.proxy()
    clients = asking(proxy, 4, "/a")
    clients[3].leave(reset=True)
    time.sleep(READ)
    clients[0].leave(reset=True)
    origin.wait_for(3)
    late = proxy.client()
    late.send(request("/a"))
    time.sleep(READ)
    go.set()
    for it, member in ((clients[1], STORED), (clients[2], STORED), (late, COLLAPSED)):
        expect_answer(it.response(), 200, member, b"hello")
    expect("the link's end at the origin", True, origin.fetches[0].is_over.wait(LATEST))
    expect("requests at the origin", 3, len(origin.fetches))


@scenario
def who_waits_outlasts_a_silent_origin(stage):
    """The first request times out, and those that waited for it go forward: each waits its own time-out then. No client
    that waits counts as idle, though it waits longer than the clients' time-out."""
    origin = stage.origin(Origin({"/a": silent}))
    # (three time out in a row, which is warned of when the second is over)
    stage.lines = range(2)
    proxy = stage.proxy(options=["--origin-timeout", str(SHORT), "--client-timeout", "1"])
    began = time.monotonic()
    first, *others = asking(proxy, 3, "/a")
    expect_refusal(first.response(), 504, "origin timed-out;fwd=uri-miss")
    expect_within("the first 504", SHORT, LATEST, time.monotonic() - began)
    origin.wait_for(3)
    for it in others:
        expect_refusal(it.response(), 504, "origin timed-out;fwd=uri-miss")
    expect_within("the others' 504", 2 * SHORT, 2 * LATEST, time.monotonic() - began)
    expect("requests at the origin", 3, len(origin.fetches))


@scenario
def who_waits_has_its_own_answer_where_the_origin_fails(stage):
    """A link that closes fails the first request alone."""
    go = threading.Event()
    origin = stage.origin(Origin({"/a": held_back(go, ends)}))
    proxy = stage.proxy()
    first, second = asking(proxy, 2, "/a")
    origin.answers["/a"] = whole(200, KEPT, content=b"hello")
    go.set()
    expect_refusal(first.response(), 502, "origin closed;fwd=uri-miss")
    expect_answer(second.response(), 200, STORED, b"hello")


@scenario
def variants_are_told_apart_by_the_first_answer(stage):
    """RFC 9111, 4.1: who waits and turns out to want another variant goes forward; one with the same gets what is stored."""
    go = threading.Event()

    def answer(fetch):
        whole(200, KEPT, "Vary: Accept-Language", content=fetch.value("Accept-Language").encode())(fetch)

    origin = stage.origin(Origin({"/a": held_back(go, answer)}))
    proxy = stage.proxy()
    clients = []
    for language in ("de", "en", "de", "en"):
        clients.append(proxy.client())
        clients[-1].send(request("/a", f"Accept-Language: {language}"))
        time.sleep(READ)
    go.set()
    other = "edge;fwd=vary-miss;ttl=600;stored"
    for it, member, text in zip(clients, (STORED, other, COLLAPSED, other), (b"de", b"en", b"de", b"en")):
        expect_answer(it.response(), 200, member, text)
    expect("requests at the origin", 3, len(origin.fetches))


@scenario
def who_wants_another_answer_waits_for_none(stage):
    """HEAD, a range and only-if-cached are answered at once beside a GET that is out; a condition is answered behind it."""
    go = threading.Event()
    tagged = whole(200, KEPT, 'ETag: "v1"', content=b"hello")
    answers = {"/a": lambda fetch: (fetch.method == "GET" and not fetch.value("Range") and go.wait(LATEST), tagged(fetch))}
    origin = stage.origin(Origin(answers))
    proxy = stage.proxy()
    first = proxy.client()
    first.send(request("/a"))
    origin.wait_for(1)
    answer, seconds = timed(proxy.client(), "/a", method="HEAD")
    expect_member(MISS, answer)
    expect_within("the answer to HEAD", 0, AT_ONCE, seconds)
    answer, seconds = timed(proxy.client(), "/a", "Range: bytes=0-1")
    expect_answer(answer, 200, "edge;fwd=bypass;detail=range", b"hello")
    expect_within("the answer to a range", 0, AT_ONCE, seconds)
    answer, seconds = timed(proxy.client(), "/a", "Cache-Control: only-if-cached")
    expect_refusal(answer, 504, "only-if-cached;fwd=uri-miss")
    expect_within("the answer to only-if-cached", 0, AT_ONCE, seconds)
    conditional = proxy.client()
    conditional.send(request("/a", 'If-None-Match: "v1"'))
    time.sleep(READ)
    go.set()
    expect_answer(first.response(), 200, STORED, b"hello")
    answer = conditional.response()
    expect("status where the client has what was stored", 304, answer.status)
    expect_member(COLLAPSED, answer)
    expect("requests at the origin", 3, len(origin.fetches))
