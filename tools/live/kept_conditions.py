"""Scenarios of clients that have a page already, over a table of version 4: their conditions stay with the proxy, so that they fill the
cache as others do. The counts at the origin are those of docs/LINE_OPTIONS.md, "conditions"."""
import threading

from live.expect import expect, expect_answer, expect_refusal
from live.line_words import MINUTE, MISS, by_words, expect_asked
from live.origin import held_back, whole
from live.scenario import scenario
from live.stale_crowds import STALE, TAG, VALIDATED, WAITS, expect_waiting
from live.waiting import asking

HAS_IT, PAGE = 'If-None-Match: "v1"', b"page"
ANSWERED, STORED = "edge;fwd=uri-miss;fwd-status=200;ttl=60;stored", "edge;fwd=uri-miss;ttl=60;stored"
COLLAPSED, HIT = "edge;fwd=uri-miss;ttl=60;collapsed", "edge;hit;ttl=60"


def conditions_of(fetch):
    """What a request brought to its origin: If-None-Match and If-Modified-Since."""
    return fetch.value("If-None-Match"), fetch.value("If-Modified-Since")


def before_a_slow_page(stage, words):
    """A proxy by a line of these words, an origin whose page takes a while, and what lets it come."""
    go = threading.Event()
    _, origin = by_words(stage, words, {"/a": held_back(go, whole(200, MINUTE, TAG, content=PAGE))}, 4)
    return stage.proxies[-1], origin, go


@scenario
def returning_visitors_fill_the_cache(stage):
    """RFC 9111, 4.3.2: of fifty GETs with If-None-Match at once one goes to the origin, without it, and each gets its 304. Fifty more
    are answered out of the store. So it is with the word `wait` and without."""
    for words in (WAITS, {}):
        proxy, origin, go = before_a_slow_page(stage, words)
        clients = asking(proxy, 50, "/a", HAS_IT)
        expect_waiting(clients)
        expect_asked(origin, 1, " so far")
        go.set()
        for it, member in zip(clients, [ANSWERED] + [COLLAPSED] * 49):
            expect_answer(it.response(), 304, member, b"")
        expect("conditions at the origin", (None, None), conditions_of(origin.fetches[0]))
        for it in asking(proxy, 50, "/a", HAS_IT):
            expect_answer(it.response(), 304, HIT, b"")
        expect_answer(proxy.client().ask("/a"), 200, HIT, PAGE)
        expect_asked(origin, 1)


@scenario
def one_who_has_the_page_leads_those_who_have_not(stage):
    """One GET with If-None-Match, then fifty without: the origin is asked once, and the others are sent the page that came to the first
    one. A star is no more than a tag."""
    for condition in (HAS_IT, "If-None-Match: *"):
        proxy, origin, go = before_a_slow_page(stage, WAITS)
        first = asking(proxy, 1, "/a", condition)
        others = asking(proxy, 50, "/a")
        expect_waiting([*first, *others])
        expect_asked(origin, 1, " so far")
        go.set()
        expect_answer(first[0].response(), 304, ANSWERED, b"")
        for it in others:
            expect_answer(it.response(), 200, COLLAPSED, PAGE)
        expect_asked(origin, 1)


@scenario
def a_condition_is_judged_on_what_would_be_sent(stage):
    """RFC 9110, 13.1.2, 13.1.3 and 13.2.1: a 304 stands for a 200 that the client has, stored or not, with its cookie; a tag that it
    hasn't gets the whole answer, and a 404 is sent as it came. A 304 that the origin sends unasked is a failure."""
    answers = {
        "/changed": whole(200, MINUTE, 'ETag: "v2"', content=PAGE),
        "/private": whole(200, "Cache-Control: no-store", TAG, "Set-Cookie: sid=1", content=PAGE),
        "/gone": whole(404, TAG, content=b"no"),
        "/dated": whole(200, MINUTE, "Last-Modified: Sun, 06 Nov 1994 08:49:37 GMT", content=PAGE),
        "/undated": whole(200, MINUTE, content=PAGE),
        "/unasked": whole(304, TAG),
    }
    client, origin = by_words(stage, {}, answers, 4)
    expect_answer(client.ask("/changed", HAS_IT), 200, STORED, PAGE)
    answer = client.ask("/private", HAS_IT)
    expect_answer(answer, 304, "edge;fwd=uri-miss;fwd-status=200", b"")
    expect("the cookie", "sid=1", answer.value("Set-Cookie"))
    expect_answer(client.ask("/gone", HAS_IT), 404, "edge;fwd=uri-miss;ttl=0;stored", b"no")
    expect_answer(client.ask("/dated", "If-Modified-Since: Sun, 06 Nov 1994 08:49:37 GMT"), 304, ANSWERED, b"")
    expect_answer(client.ask("/undated", "If-Modified-Since: Fri, 31 Dec 2100 08:49:37 GMT"), 200, STORED, PAGE)
    expect_refusal(client.ask("/unasked", HAS_IT), 502, "origin bad-answer;fwd=uri-miss")
    expect("conditions at the origin", {(None, None)}, {conditions_of(it) for it in origin.fetches})


@scenario
def the_proxys_condition_goes_in_the_clients_place(stage):
    """Where a page is held that has expired, its own tag goes forward, whatever the client has; the 304 to that is the proxy's, and the
    client's condition is judged on the page that it freshens (RFC 9111, 4.3.1 to 4.3.4)."""
    sent = (('If-None-Match: "v0"', 200, VALIDATED, PAGE), (HAS_IT, 304, "edge;fwd=stale;ttl=60", b""))
    for condition, status, member, content in sent:
        client, origin = by_words(stage, WAITS, {"/a": whole(200, *STALE, content=PAGE)}, 4)
        expect("status", 200, client.ask("/a").status)
        origin.answers["/a"] = whole(304, MINUTE, TAG)
        expect_answer(client.ask("/a", condition), status, member, content)
        expect("the condition at the origin", ('"v1"', None), conditions_of(origin.fetches[1]))


@scenario
def conditions_go_forward_where_a_line_says_so(stage):
    """`conditions = "forwarded"`, and tables of version 3: each of fifty such GETs has its own 304 of the origin, and nothing is stored. So
    it is in version 4 for a HEAD, a range and a line without cache."""
    for version, words in ((4, WAITS | {"conditions": "forwarded"}), (3, WAITS)):
        _, origin = by_words(stage, words, {"/a": whole(304, TAG)}, version)
        for it in asking(stage.proxies[-1], 50, "/a", HAS_IT):
            expect_answer(it.response(), 304, MISS, b"")
        expect("conditions at the origin", [('"v1"', None)] * 50, [conditions_of(it) for it in origin.fetches])
    client, origin = by_words(stage, {}, {"/a": whole(304, TAG)}, 4)
    expect_answer(client.ask("/a", HAS_IT, method="HEAD"), 304, MISS, b"")
    expect_answer(client.ask("/a", HAS_IT, "Range: bytes=0-1"), 304, MISS, b"")
    expect("conditions at the origin", [('"v1"', None)] * 2, [conditions_of(it) for it in origin.fetches])
    client, origin = by_words(stage, {"cache": "off"}, {"/a": whole(304, TAG)}, 4)
    expect_answer(client.ask("/a", HAS_IT), 304, "edge;fwd=bypass;detail=operator", b"")
    expect("conditions at the origin", [('"v1"', None)], [conditions_of(it) for it in origin.fetches])
