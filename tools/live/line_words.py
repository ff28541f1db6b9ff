"""Scenarios of the words of a line, by a table of version 3: what the origin is asked for with each of them, and without. The counts are
those of RFC 9111, RFC 5861 and docs/LINE_OPTIONS.md."""
import itertools
import threading
import time

from live.client import request
from live.expect import expect, expect_answer, expect_member, expect_refusal
from live.origin import Origin, Refusing, held_back, whole
from live.scenario import KEPT, scenario

MINUTE, SECOND = "Cache-Control: max-age=60", "Cache-Control: max-age=1"
MISS, MINUTE_STORED, MINUTE_HIT = "edge;fwd=uri-miss", "edge;fwd=uri-miss;ttl=60;stored", "edge;hit;ttl=60"
# Statuses that RFC 9110, 15.1 calls heuristically cacheable, but 206; and some that it doesn't.
HEURISTIC, OTHERS = (200, 203, 204, 300, 301, 308, 404, 405, 410, 414, 501), (201, 202, 302, 303, 307, 400, 401, 403, 429, 500, 502, 503)
# What is a second or two longer ago than a lifetime of one.
PAST_A_SECOND = 2.1


def by_words(stage, words=None, answers=None, version=3, **more):
    """A client, and the origin that all paths lead to, by a line with these words. What ran before is ended, and compared."""
    stage.finish()
    while stage.origins:
        stage.origins.pop().close()
    origin = stage.origin(Origin(answers or {}))
    return stage.proxy(("/", ["*"], origin.address, words or {}), version=version, **more).client(), origin


def expect_asked(origin, count, what=""):
    expect(f"requests at the origin{what}", count, len(origin.fetches))


def content_for(status):
    return b"" if status in (204, 304) else b"hello"


def counted(*lines, status=200):
    """A page with a cookie of its own for each time that the origin is asked for it."""
    numbers = itertools.count(1)
    return lambda fetch: whole(status, *lines, f"Set-Cookie: sid={next(numbers)}", content=b"welcome")(fetch)


def expect_cookie(answer, member, number):
    expect_answer(answer, 200, member, b"welcome")
    expect("the visitor's cookie", f"sid={number}", answer.value("Set-Cookie"))


@scenario
def one_visitors_cookie_goes_to_all_without_the_word(stage):
    """RFC 9111, 7.3: Set-Cookie doesn't keep a response out that states a lifetime. So it is by version 2, and by version 3 without the
    word and with the one that says so."""
    for version, words in ((2, {}), (3, {}), (3, {"set-cookie": "stored"})):
        client, origin = by_words(stage, words, {"/login": counted(MINUTE)}, version)
        expect_cookie(client.ask("/login"), MINUTE_STORED, 1)
        expect_cookie(stage.proxies[-1].client().ask("/login"), MINUTE_HIT, 1)
        expect_asked(origin, 1)


@scenario
def each_visitor_has_a_cookie_of_their_own(stage):
    """`set-cookie = "not-stored"`: a page with a cookie is passed on each time, unless it says public; pages without one are stored."""
    answers = {"/login": counted(MINUTE), "/public": counted("Cache-Control: public, max-age=60"), "/a": whole(200, MINUTE, content=b"hello")}
    client, origin = by_words(stage, {"set-cookie": "not-stored"}, answers)
    other = stage.proxies[-1].client()
    for i, it in enumerate((client, other, client), 1):
        expect_cookie(it.ask("/login"), MISS, i)
    expect_asked(origin, 3)
    expect_cookie(client.ask("/public"), MINUTE_STORED, 1)
    expect_cookie(other.ask("/public"), MINUTE_HIT, 1)
    expect_answer(client.ask("/a"), 200, MINUTE_STORED, b"hello")
    expect_answer(other.ask("/a"), 200, MINUTE_HIT, b"hello")
    expect_asked(origin, 5)


@scenario
def a_304_with_a_cookie_keeps_nothing(stage):
    """A stored page without a cookie is validated by a 304 with one: that client has the page and its cookie, and nothing stays. Without
    the word it stays, and so does the cookie."""
    for words, then, second in (
        ({"set-cookie": "not-stored"}, "edge;fwd=uri-miss;ttl=0;stored", None),
        ({}, MINUTE_HIT, "sid=1"),
    ):
        page = whole(200, "Cache-Control: max-age=0", 'ETag: "v1"', content=b"welcome")
        client, origin = by_words(stage, words, {"/a": page})
        expect_answer(client.ask("/a"), 200, "edge;fwd=uri-miss;ttl=0;stored", b"welcome")
        origin.answers["/a"] = counted(MINUTE, 'ETag: "v1"', status=304)
        expect_cookie(client.ask("/a"), "edge;fwd=stale;fwd-status=304;ttl=60", 1)
        expect("the condition at the origin", '"v1"', origin.fetches[1].value("If-None-Match"))
        origin.answers["/a"] = page
        answer = client.ask("/a")
        expect_answer(answer, 200, then, b"welcome")
        expect("the next visitor's cookie", second, answer.value("Set-Cookie"))
        expect_asked(origin, 3 if second is None else 2)


@scenario
def visitors_at_once_have_cookies_of_their_own(stage):
    """Five ask for a page at once, and wait for the first one's answer: where it isn't stored for its cookie each goes forward, where it is
    stored all have the first one's."""
    for words, cookies, member in (
        ({"set-cookie": "not-stored"}, ["sid=1", "sid=2", "sid=3", "sid=4", "sid=5"], MISS),
        ({}, ["sid=1"] * 5, "edge;fwd=uri-miss;ttl=60;collapsed"),
    ):
        go = threading.Event()
        client, origin = by_words(stage, words, {"/login": held_back(go, counted(MINUTE))})
        others = [stage.proxies[-1].client() for _ in range(4)]
        client.send(request("/login"))
        origin.wait_for(1)
        for it in others:
            it.send(request("/login"))
        expect("an answer before the first one's", False, not others[-1].has_nothing_to_read(0.5))
        expect_asked(origin, 1, " so far")
        go.set()
        expect_member(MINUTE_STORED if member != MISS else MISS, first := client.response())
        answers = [it.response() for it in others]
        for it in answers:
            expect_member(member, it)
        expect("the visitors' cookies", cookies, sorted(it.value("Set-Cookie") for it in [first, *answers]))
        expect_asked(origin, len(set(cookies)))


def a_page_of_ten_seconds():
    """A fresh page that an earlier cache has had for ten seconds: a max-age of 0 doesn't take it."""
    return whole(200, KEPT, "Age: 10", content=b"hello")


@scenario
def a_client_that_asks_anew_reaches_the_origin(stage):
    """RFC 9111, 5.2.1, without the word and with the one that says so: each of 200 requests with no-cache, max-age or min-fresh goes
    forward."""
    for words in ({}, {"request-directives": "heeded"}):
        client, origin = by_words(stage, words, {"/a": a_page_of_ten_seconds()})
        expect_answer(client.ask("/a"), 200, "edge;fwd=uri-miss;ttl=590;stored", b"hello")
        for directive, detail, count in (("no-cache", "no-cache", 100), ("max-age=0", "max-age", 50), ("min-fresh=3600", "min-fresh", 50)):
            for _ in range(count):
                answer = client.ask("/a", f"Cache-Control: {directive}")
                expect_answer(answer, 200, f"edge;fwd=request;ttl=590;stored;detail={detail}", b"hello")
        expect_asked(origin, 1 + 200)
        expect_refusal(client.ask("/a", "Cache-Control: no-cache, only-if-cached"), 504, "only-if-cached;fwd=request;detail=no-cache")


@scenario
def a_client_that_asks_anew_is_served_from_the_store(stage):
    """`request-directives = "ignored"`: the same 200 requests are hits, as is one that takes nothing else."""
    client, origin = by_words(stage, {"request-directives": "ignored"}, {"/a": a_page_of_ten_seconds()})
    expect_answer(client.ask("/a", "Cache-Control: no-cache"), 200, "edge;fwd=uri-miss;ttl=590;stored", b"hello")
    for directive, count in (("no-cache", 100), ("max-age=0", 50), ("min-fresh=3600", 50), ("no-cache, only-if-cached", 1)):
        for _ in range(count):
            expect_answer(client.ask("/a", f"Cache-Control: {directive}"), 200, "edge;hit;ttl=590", b"hello")
    expect_answer(client.ask("/a", "Pragma: no-cache"), 200, "edge;hit;ttl=590", b"hello")
    expect_asked(origin, 1)


@scenario
def the_other_directives_of_a_request_count_as_ever(stage):
    """`request-directives = "ignored"` or not: no-store, only-if-cached, max-stale and stale-if-error of a request count."""
    for words in ({}, {"request-directives": "ignored"}):
        stale = whole(200, "Cache-Control: max-age=0", content=b"hello")
        client, origin = by_words(stage, words, {"/kept": whole(200, KEPT, content=b"hello"), "/stale": stale})
        for _ in range(2):
            expect_answer(client.ask("/kept", "Cache-Control: no-store"), 200, MISS, b"hello")
        expect_refusal(client.ask("/kept", "Cache-Control: only-if-cached"), 504, "only-if-cached;fwd=uri-miss")
        expect_asked(origin, 2)
        expect_answer(client.ask("/stale"), 200, "edge;fwd=uri-miss;ttl=0;stored", b"hello")
        for it in ("max-stale", "max-stale=3600", "max-stale=3600, only-if-cached"):
            expect_answer(client.ask("/stale", f"Cache-Control: {it}"), 200, "edge;hit;ttl=0", b"hello")
        expect_refusal(client.ask("/stale", "Cache-Control: only-if-cached"), 504, "only-if-cached;fwd=stale")
        expect_asked(origin, 3)
        origin.answers["/stale"] = whole(503, content=b"down")
        answer = client.ask("/stale", "Cache-Control: stale-if-error=3600")
        expect_answer(answer, 200, "edge;fwd=stale;fwd-status=503;ttl=0;detail=stale-if-error", b"hello")
        # (no-cache isn't asked in place of an error either)
        answer = client.ask("/stale", "Cache-Control: no-cache, stale-if-error=3600")
        if words:
            expect_answer(answer, 200, "edge;fwd=stale;fwd-status=503;ttl=0;detail=stale-if-error", b"hello")
        else:
            expect_answer(answer, 503, "edge;fwd=stale;detail=no-cache", b"down")
        expect_asked(origin, 5)


@scenario
def no_lifetime_is_given_without_the_word(stage):
    """An origin that states none: nothing of it is stored, and each GET is its own."""
    client, origin = by_words(stage, {}, {f"/{it}": whole(it, content=content_for(it)) for it in HEURISTIC})
    for it in (*HEURISTIC, 200, 200):
        expect_answer(client.ask(f"/{it}"), it, MISS, content_for(it))
    expect_asked(origin, len(HEURISTIC) + 2)


@scenario
def a_line_gives_a_lifetime(stage):
    """`lifetime = 60`: what states none is stored for a minute where its status is heuristically cacheable, and not where it isn't."""
    answers = {f"/{it}": whole(it, content=content_for(it)) for it in (*HEURISTIC, *OTHERS)}
    client, origin = by_words(stage, {"lifetime": 60}, answers)
    for count, it in enumerate(HEURISTIC, 1):
        for member in (MINUTE_STORED, MINUTE_HIT, MINUTE_HIT):
            expect_answer(client.ask(f"/{it}"), it, member, content_for(it))
        expect_asked(origin, count, f" behind a {it}")
    expect_answer(client.ask("/200", method="HEAD"), 200, MINUTE_HIT, b"")
    for count, it in enumerate(OTHERS, 1):
        for _ in range(2):
            expect_answer(client.ask(f"/{it}"), it, MISS, content_for(it))
        expect_asked(origin, len(HEURISTIC) + 2 * count, f" behind a {it}")


@scenario
def a_stated_lifetime_stays_its_own(stage):
    """RFC 9111, 4.2.2: a response that states a lifetime keeps it, and what it forbids stays forbidden, as does what came for one person
    (3.5)."""
    answers = {
        "/second": whole(200, SECOND, content=b"hello"),
        "/none": whole(200, "Cache-Control: max-age=0", content=b"hello"),
        "/shared": whole(200, "Cache-Control: s-maxage=600", content=b"hello"),
        "/expires": whole(200, "Expires: 0", content=b"hello"),
        "/bad": whole(200, "Cache-Control: max-age=soon", content=b"hello"),
        "/redirect": whole(302, MINUTE, content=b"hello"),
        "/public": whole(302, "Cache-Control: public", content=b"hello"),
        "/aged": whole(200, "Age: 30", content=b"hello"),
        "/must": whole(200, "Cache-Control: must-revalidate", content=b"hello"),
        "/private": whole(200, "Cache-Control: private", content=b"hello"),
        "/no-store": whole(200, "Cache-Control: no-store", content=b"hello"),
        "/star": whole(200, "Vary: *", content=b"hello"),
        "/no-cache": whole(200, "Cache-Control: no-cache", content=b"hello"),
        "/of-one": whole(200, content=b"hello"),
    }
    client, origin = by_words(stage, {"lifetime": 60}, answers)
    stated = ("/second", 1), ("/none", 0), ("/shared", 600), ("/expires", 0), ("/bad", 0), ("/aged", 30), ("/must", 60), ("/no-cache", 60)
    for target, ttl in stated:
        expect_answer(client.ask(target), 200, f"edge;fwd=uri-miss;ttl={ttl};stored", b"hello")
    expect_answer(client.ask("/redirect"), 302, MINUTE_STORED, b"hello")
    expect_asked(origin, 9)
    for target, ttl in (("/shared", 600), ("/aged", 30), ("/must", 60)):
        expect_answer(client.ask(target), 200, f"edge;hit;ttl={ttl}", b"hello")
    expect_asked(origin, 9)
    for target, member in (("/none", "ttl=0;stored"), ("/expires", "ttl=0;stored"), ("/no-cache", "ttl=60;stored;detail=response-no-cache")):
        expect_answer(client.ask(target), 200, f"edge;fwd=stale;{member}", b"hello")
    for target, status in (("/private", 200), ("/no-store", 200), ("/star", 200), ("/public", 302)):
        for _ in range(2):
            expect_answer(client.ask(target), status, MISS, b"hello")
    for _ in range(2):
        expect_answer(client.ask("/of-one", "Authorization: Basic eDp5"), 200, MISS, b"hello")
    expect_asked(origin, 22)
    time.sleep(PAST_A_SECOND)
    expect_answer(client.ask("/second"), 200, "edge;fwd=stale;ttl=1;stored", b"hello")
    expect_asked(origin, 23)


@scenario
def a_given_lifetime_ends(stage):
    """`lifetime = 1`: past it the next GET goes forward; what an unsafe request invalidates is gone before; each variant has its own."""
    answers = {"/a": whole(200, content=b"hello"), "/vary": whole(200, "Vary: Accept-Language", content=b"hello")}
    client, origin = by_words(stage, {"lifetime": 1}, answers)
    stored = "edge;fwd=uri-miss;ttl=1;stored"
    expect_answer(client.ask("/a"), 200, stored, b"hello")
    time.sleep(PAST_A_SECOND)
    expect_answer(client.ask("/a"), 200, "edge;fwd=stale;ttl=1;stored", b"hello")
    expect_asked(origin, 2)
    expect_answer(client.ask("/a", method="POST", content=b"x"), 200, "edge;fwd=method", b"hello")
    expect_answer(client.ask("/a"), 200, stored, b"hello")
    expect_asked(origin, 4)
    expect_answer(client.ask("/vary", "Accept-Language: de"), 200, stored, b"hello")
    expect_answer(client.ask("/vary", "Accept-Language: en"), 200, "edge;fwd=vary-miss;ttl=1;stored", b"hello")
    expect_asked(origin, 6)


def stop(stage, origin):
    """From now on nobody listens at the origin's address."""
    stage.origins.remove(origin)
    origin.close()
    stage.origin(Refusing(int(origin.address.rpartition(":")[2])))


def expect_stale(answer, lifetime, status=None, content=b"hello"):
    """A stored response of this lifetime, in place of a failure or of this status."""
    expect("status", 200, answer.status)
    came = f";fwd-status={status}" if status else ""
    expect_answer(answer, 200, f"edge;fwd=stale{came};ttl={lifetime - int(answer.value('Age'))};detail=stale-if-error", content)


@scenario
def a_line_lets_stale_pages_stand_in(stage):
    """RFC 5861, 4, and `stale-if-error = 600`: the origin is stopped, and what is stale is sent, where nothing stands against it."""
    pages = {
        "/page": [SECOND],
        "/plain/page": [SECOND],
        "/short/page": [SECOND],
        "/given/page": [],
        "/must": [f"{SECOND}, must-revalidate"],
        "/proxy": [f"{SECOND}, proxy-revalidate"],
        "/shared": ["Cache-Control: s-maxage=1"],
        "/no-cache": [f"{SECOND}, no-cache"],
        "/own": [f"{SECOND}, stale-if-error=1"],
        "/odd": [f"{SECOND}, stale-if-error=soon"],
        "/tag": ['ETag: "v1"'],
    }
    origin = stage.origin(Origin({it: whole(200, *lines, content=b"hello") for it, lines in pages.items()}))
    lines = {"/plain": {}, "/short": {"stale-if-error": 1}, "/given": {"lifetime": 1, "stale-if-error": 600}, "/": {"stale-if-error": 600}}
    # (an origin that is stopped counts as silent, which is warned of when the second is over)
    stage.lines = range(2)
    client = stage.proxy(*((path, ["*"], origin.address, words) for path, words in lines.items()), version=3).client()
    for it in pages:
        expect("status", 200, client.ask(it).status)
    expect_asked(origin, len(pages))
    stop(stage, origin)
    time.sleep(PAST_A_SECOND + 1)
    expect_stale(client.ask("/page"), 1)
    expect_stale(client.ask("/given/page"), 1)
    expect_stale(client.ask("/page", method="HEAD"), 1, content=b"")
    # (of the request's own directive alone)
    expect_stale(client.ask("/plain/page", "Cache-Control: stale-if-error=600"), 1)
    for target, reason in (
        ("/plain/page", "fwd=stale;stale-if-error=no-directive"),
        ("/short/page", "fwd=stale;stale-if-error=too-stale"),
        ("/must", "fwd=stale;detail=must-revalidate;stale-if-error=must-revalidate"),
        ("/proxy", "fwd=stale;detail=must-revalidate;stale-if-error=must-revalidate"),
        ("/shared", "fwd=stale;detail=must-revalidate;stale-if-error=must-revalidate"),
        ("/no-cache", "fwd=stale;detail=response-no-cache;stale-if-error=no-cache"),
        ("/own", "fwd=stale;stale-if-error=too-stale"),
        ("/odd", "fwd=stale;stale-if-error=no-directive"),
        ("/tag", "fwd=stale;detail=no-lifetime;stale-if-error=no-lifetime"),
        ("/new", "fwd=uri-miss"),
    ):
        expect_refusal(client.ask(target), 502, f"origin refused;{reason}")
    answer = client.ask("/page", "Cache-Control: stale-if-error=1")
    expect_refusal(answer, 502, "origin refused;fwd=stale;stale-if-error=too-stale")


@scenario
def a_line_lets_stale_pages_stand_in_for_errors(stage):
    """`stale-if-error = 600`, and an origin that answers 500, 502, 503 or 504: the page goes out in its place. Any other status is passed
    on, and so are these without the word."""
    origin = stage.origin(Origin({}))
    lines = ("/plain", ["*"], origin.address), ("/", ["*"], origin.address, {"stale-if-error": 600})
    client = stage.proxy(*lines, version=3).client()
    errors = 500, 502, 503, 504
    for i, status in enumerate((*errors, 501, 404, 429, 403), 1):
        for target in (f"/{status}", f"/plain/{status}"):
            origin.answers[target] = whole(200, "Cache-Control: max-age=0", content=b"hello")
            expect_answer(client.ask(target), 200, "edge;fwd=uri-miss;ttl=0;stored", b"hello")
            origin.answers[target] = whole(status, content=b"down")
            answer = client.ask(target)
            if status in errors and "plain" not in target:
                expect_stale(answer, 0, status)
            else:
                expect_answer(answer, status, "edge;fwd=stale", b"down")
        expect_asked(origin, 4 * i)


@scenario
def an_error_that_states_a_lifetime_is_not_stored(stage):
    """`errors = "not-stored"`: of 400 and above only what RFC 9110 calls heuristically cacheable is stored. RFC 9111, 3, stores the rest
    too, where the word doesn't stand."""
    for words in ({"errors": "not-stored"}, {"errors": "stored"}, {}):
        kept = {it: it < 400 or it in HEURISTIC or words.get("errors") != "not-stored" for it in (*HEURISTIC, *OTHERS)}
        client, origin = by_words(stage, words, {f"/{it}": whole(it, MINUTE, content=content_for(it)) for it in kept})
        for it, is_kept in kept.items():
            for member in (MINUTE_STORED, MINUTE_HIT) if is_kept else (MISS, MISS):
                expect_answer(client.ask(f"/{it}"), it, member, content_for(it))
        expect_asked(origin, sum(1 if it else 2 for it in kept.values()), f" with {words}")


@scenario
def a_304_that_would_leave_an_error_leaves_none(stage):
    """A line for GET stores a 403, and one for HEAD stores no errors: what a 304 to HEAD would keep goes."""
    origin = stage.origin(Origin({"/a": whole(403, "Cache-Control: max-age=0", 'ETag: "v1"', content=b"never")}))
    lines = ("/", ["GET"], origin.address), ("/", ["HEAD"], origin.address, {"errors": "not-stored"})
    client = stage.proxy(*lines, version=3).client()
    expect_answer(client.ask("/a"), 403, "edge;fwd=uri-miss;ttl=0;stored", b"never")
    first, origin.answers["/a"] = origin.answers["/a"], whole(304, MINUTE, 'ETag: "v1"')
    expect_answer(client.ask("/a", method="HEAD"), 403, "edge;fwd=stale;fwd-status=304;ttl=60", b"")
    origin.answers["/a"] = first
    expect_answer(client.ask("/a"), 403, "edge;fwd=uri-miss;ttl=0;stored", b"never")
    expect_asked(origin, 3)


@scenario
def each_request_goes_by_the_words_of_its_line(stage):
    """One path, a line for GET and one for HEAD, with other words and other origins: what is stored by the one's lifetime is stale for
    the other, and one heeds what the other ignores."""
    first, second = (stage.origin(Origin({it: whole(200, content=b"hello") for it in ("/a", "/b")})) for _ in range(2))
    for it in (first, second):
        it.answers["/kept"] = whole(200, KEPT, content=b"hello")
        it.answers["/tag"] = whole(200, 'ETag: "v1"', content=b"hello")
    lines = [
        ("/b", ["GET"], first.address, {}),
        ("/tag", ["GET"], first.address, {}),
        ("/", ["GET"], first.address, {"lifetime": 60, "request-directives": "ignored"}),
        ("/b", ["HEAD"], second.address, {"lifetime": 60}),
        ("/tag", ["HEAD"], second.address, {"lifetime": 60}),
        ("/", ["HEAD"], second.address, {}),
    ]
    client = stage.proxy(*lines, version=3).client()
    for target, method, member, counts in (
        ("/a", "GET", MINUTE_STORED, (1, 0)),
        ("/a", "HEAD", "edge;fwd=stale;detail=no-lifetime", (1, 1)),
        ("/a", "HEAD", "edge;fwd=stale;detail=no-lifetime", (1, 2)),
        ("/a", "GET", MINUTE_HIT, (1, 2)),
        # (GET by a line that gives none; a HEAD is never stored)
        ("/b", "GET", MISS, (2, 2)),
        ("/b", "HEAD", MISS, (2, 3)),
        ("/b", "HEAD", MISS, (2, 4)),
        ("/b", "GET", MISS, (3, 4)),
        # (stored for its validator, and by the other line fresh for a minute)
        ("/tag", "GET", "edge;fwd=uri-miss;ttl=0;stored", (4, 4)),
        ("/tag", "HEAD", MINUTE_HIT, (4, 4)),
        ("/tag", "GET", "edge;fwd=stale;ttl=0;stored;detail=no-lifetime", (5, 4)),
    ):
        expect_answer(client.ask(target, method=method), 200, member, b"" if method == "HEAD" else b"hello")
        expect(f"requests at the two origins behind {method} {target}", counts, (len(first.fetches), len(second.fetches)))
    expect_answer(client.ask("/kept"), 200, "edge;fwd=uri-miss;ttl=600;stored", b"hello")
    expect_answer(client.ask("/kept", "Cache-Control: no-cache"), 200, "edge;hit;ttl=600", b"hello")
    answer = client.ask("/kept", "Cache-Control: no-cache", method="HEAD")
    expect_answer(answer, 200, "edge;fwd=request;detail=no-cache", b"")
    expect("requests at the two origins", (6, 5), (len(first.fetches), len(second.fetches)))
