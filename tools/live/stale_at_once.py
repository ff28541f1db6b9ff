"""Scenarios of the word `stale-while-revalidate`: who is sent a page whose lifetime is over while one asks the origin about it, and who
waits. The bounds are those of docs/LINE_OPTIONS.md."""
import threading
import time

from live.expect import expect, expect_answer, expect_within
from live.figures import expect_samples, figures_with, reasons
from live.line_words import MINUTE, SECOND, by_words, expect_asked
from live.origin import held_back, silent, whole
from live.scenario import scenario, timed
from live.stale_crowds import STALE, STORED, TAG, WAITS, before_a_stale_page, expect_waiting, sent
from live.waiting import READ

ALLOWS = dict(WAITS, **{"stale-while-revalidate": 60})
# Seconds in which a client is answered that doesn't wait for the origin.
AT_ONCE = 0.05


def expect_sent_stale(answer, lifetime, content):
    """A stored response of this lifetime, beside a request that is at the origin for it."""
    left = lifetime - int(answer.value("Age"))
    expect_answer(answer, 200, f"edge;hit;ttl={left};detail=stale-while-revalidate", content)


@scenario
def who_comes_while_one_asks_is_sent_the_stale_page(stage):
    """RFC 5861, 3: the first one waits for the origin, others are sent what is held, by the line's word as by the directive of the page; what
    forbids a stale page forbids it, and the new page is for all."""
    own = [*STALE[1:], "Cache-Control: max-age=1, stale-while-revalidate=60"]
    for words, lines, version in ((ALLOWS, STALE, 4), (WAITS, own, 4)):
        go = threading.Event()
        stage.finish()
        while stage.origins:
            stage.origins.pop().close()
        client, origin = by_words(stage, words, {"/a": whole(200, *lines, content=b"old")}, version)
        expect("status", 200, client.ask("/a").status)
        proxy = stage.proxies[-1]
        origin.answers["/a"] = held_back(go, whole(200, MINUTE, 'ETag: "v2"', content=b"new"))
        first = sent(proxy, "/a")
        time.sleep(READ)
        for _ in range(10):
            expect_sent_stale(proxy.client().ask("/a"), 1, b"old")
        waiting = [sent(proxy, "/a", it) for it in ("Cache-Control: max-age=0", "Cache-Control: max-stale=0, min-fresh=1")]
        expect_waiting(waiting)
        expect_asked(origin, 2, " so far")
        go.set()
        expect_answer(first.response(), 200, STORED, b"new")
        for it in waiting:
            expect("content of who waited", b"new", it.response().content)
        expect("content", b"new", proxy.client().ask("/a").content)


@scenario
def nobody_is_sent_it_without_the_word(stage):
    """In version 3, without `wait`, and where the page forbids it, who comes while one asks waits or asks as before."""
    cases = (
        (WAITS, ["Cache-Control: max-age=1, stale-while-revalidate=60", "Age: 1", TAG], 3),
        (ALLOWS, ["Cache-Control: max-age=1, must-revalidate", "Age: 1", TAG], 4),
        (ALLOWS, ["Cache-Control: s-maxage=1", "Age: 1", TAG], 4),
        ({"stale-while-revalidate": 60}, STALE, 4),
    )
    for words, lines, version in cases:
        go = threading.Event()
        client, origin = by_words(stage, words, {"/a": whole(200, *lines, content=b"old")}, version)
        expect("status", 200, client.ask("/a").status)
        proxy = stage.proxies[-1]
        origin.answers["/a"] = held_back(go, whole(200, MINUTE, content=b"new"))
        clients = [sent(proxy, "/a")]
        time.sleep(READ)
        clients.append(sent(proxy, "/a"))
        expect_waiting(clients)
        go.set()
        for it in clients:
            expect("content", b"new", it.response().content)


@scenario
def twenty_expired_pages_of_a_silent_origin_are_sent_at_once(stage):
    """Twenty pages expire, and their origin is silent: of forty requests a second all but the first for each page are answered within 50 ms, and
    the figures count them."""
    file = f"{stage.room.name}/figures"
    pages = {f"/{n}": whole(200, SECOND, "Age: 1", TAG, content=b"old") for n in range(20)}
    client, origin = by_words(stage, ALLOWS, pages, 4, options=["--stats", file])
    for path in pages:
        expect("status", 200, client.ask(path).status)
    for path in pages:
        origin.answers[path] = silent
    proxy = stage.proxies[-1]
    leaders = [sent(proxy, path) for path in pages]
    time.sleep(READ)
    took = []
    for turn in range(160):
        begun = time.monotonic()
        answer, seconds = timed(proxy.client(), f"/{turn % 20}")
        expect_sent_stale(answer, 1, b"old")
        took.append(seconds)
        time.sleep(max(0, begun + 0.025 - time.monotonic()))
    # (a busy machine may keep a few from the processor)
    expect_within("stale answers that came later", 0, 8, sum(it > AT_ONCE for it in took))
    expect_within("the last stale answer", 0, 1, max(took))
    expect_waiting(leaders, 0)
    expect_asked(origin, 40)
    samples = figures_with(file, *next(iter(reasons(hit__stale_while_revalidate=160).items())))
    expect_samples(samples, reasons(uri_miss=20, hit__stale_while_revalidate=160))
