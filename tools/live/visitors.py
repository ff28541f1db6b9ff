"""Scenarios of requests with a cookie, and of what an origin states by mistake, over tables of version 4. The counts at the origin are
those of docs/COOKIES.md and of docs/LINE_OPTIONS.md, "lifetime-most"."""
import threading
import time

from live.expect import expect, expect_answer, expect_member
from live.client import request
from live.line_words import MINUTE, MISS, PAST_A_SECOND, by_words, counted, expect_asked, expect_cookie
from live.origin import held_back, whole
from live.programs import run
from live.proxy import table_of
from live.scenario import scenario

ALICE, BOB, TOKEN = "Cookie: session=alice", "Cookie: session=bob", "Authorization: Basic eDp5"
FOR_ONE = "edge;fwd=uri-miss;detail=not-stored-request-cookie"
PAST = "edge;fwd=bypass;detail=cookie"
STORED, HIT = "edge;fwd=uri-miss;ttl=60;stored", "edge;hit;ttl=60"
STORED_SHORTLY, HIT_SHORTLY = "edge;fwd=uri-miss;ttl=1;stored", "edge;hit;ttl=1"
# A framework that says nothing of caching, and operators who give such pages a minute.
SILENT = {"lifetime": 60, "error-lifetime": 60, "explain": "storing"}
YEAR = "Cache-Control: max-age=31536000"
# What `check` tells of a line that has a lifetime and no word on Set-Cookie.
NO_LIFETIME = "an answer with Set-Cookie is given no lifetime"


def visitor_of(fetch):
    """Whom the origin takes a request for."""
    return (fetch.value("Cookie") or fetch.value("Authorization") or "nobody").encode()


def page(*lines, status=200):
    """A page with the name of who asks for it."""
    return lambda fetch: whole(status, *lines, content=visitor_of(fetch))(fetch)


@scenario
def each_visitor_has_a_page_of_their_own(stage):
    """RFC 6265, 4.2, and RFC 9111, 4.2.2: an origin that says nothing of caching makes a page for who sends a cookie or credentials. Over a
    line with a lifetime it goes to that visitor alone; who sends none fills the store for all."""
    answers = {"/orders": page(), "/token": page("Cache-Control: must-revalidate"), "/gone": page(status=404)}
    client, origin = by_words(stage, SILENT, answers, 4)
    asked = 0
    for target, status, visitors in (("/orders", 200, (ALICE, BOB)), ("/token", 200, (TOKEN, "Authorization: Basic eTp5")), ("/gone", 404, (ALICE, BOB))):
        for it in visitors * 2:
            expect_answer(client.ask(target, it), status, FOR_ONE, it.partition(": ")[2].encode())
            asked += 1
            expect_asked(origin, asked)
        expect_answer(client.ask(target), status, STORED, b"nobody")
        asked += 1
        for it in (*visitors, "X-Other: x"):
            expect_answer(client.ask(target, it), status, HIT, b"nobody")
        expect_asked(origin, asked)


@scenario
def what_states_its_own_lifetime_is_for_all(stage):
    """A lifetime that the origin states, and `public`, let a response to who has a cookie be stored, as ever."""
    answers = {"/a.css": page("Cache-Control: max-age=60"), "/news": page("Cache-Control: public"), "/dated": page("Expires: Thu, 01 Jan 2099 00:00:00 GMT")}
    client, origin = by_words(stage, SILENT, answers, 4)
    for target in ("/a.css", "/news"):
        expect_answer(client.ask(target, ALICE), 200, STORED, b"session=alice")
        expect_answer(client.ask(target, BOB), 200, HIT, b"session=alice")
    expect("status", 200, client.ask("/dated", ALICE).status)
    expect("the page", b"session=alice", client.ask("/dated", BOB).content)
    expect_asked(origin, 3)


@scenario
def cookies_are_shared_where_a_line_says_so(stage):
    """`cookies = "shared"`, and tables of version 3: what Alice got goes to Bob. (So don't take it where pages differ by a cookie.)"""
    for version, words in ((4, {"lifetime": 60, "cookies": "shared"}), (3, {"lifetime": 60})):
        client, origin = by_words(stage, words, {"/orders": page()}, version)
        expect_answer(client.ask("/orders", ALICE), 200, STORED, b"session=alice")
        expect_answer(client.ask("/orders", BOB), 200, HIT, b"session=alice")
        expect_asked(origin, 1)


@scenario
def a_named_cookie_bypasses_the_store(stage):
    """`session-cookies`, RFC 6265, 4.2.1: who has one of these cookies is sent nothing stored, and nothing is stored for others, over any
    line of Cookie. All others have the store's page, whatever cookies they send. A POST invalidates all the same."""
    words = {"lifetime": 60, "cookies": "shared", "session-cookies": ["sid", "login"]}
    signed_in = ("Cookie: sid=alice", "Cookie: _ga=1; login=bob", "Cookie: a=1;sid=carol", "Cookie: sid")
    client, origin = by_words(stage, words, {"/": page()}, 4)
    for it in signed_in:
        expect_answer(client.ask("/", it), 200, PAST, it.partition(": ")[2].encode())
    expect_asked(origin, 4)
    expect_answer(client.ask("/", "Cookie: _ga=1"), 200, STORED, b"_ga=1")
    for it in ("Cookie: _ga=2", "Cookie: SID=1; sid2=2; a=sid", "X-Cookie: sid=1"):
        expect_answer(client.ask("/", it), 200, HIT, b"_ga=1")
    expect_asked(origin, 5)
    for it in signed_in:
        expect_member(PAST, client.ask("/", it, "Cookie: _ga=3"))
    expect_member(PAST, client.ask("/", "Cookie: _ga=3", "Cookie: login=1"))
    expect_asked(origin, 10)
    expect("status of only-if-cached", 504, client.ask("/", signed_in[0], "Cache-Control: only-if-cached").status)
    expect_answer(client.ask("/"), 200, HIT, b"_ga=1")
    expect_member(PAST, client.ask("/", signed_in[0], method="POST", content=b"x"))
    expect_answer(client.ask("/"), 200, STORED, b"nobody")
    expect_asked(origin, 12)


@scenario
def each_scheme_has_its_own_answer(stage):
    """`vary`, RFC 9111, 4.1: what is stored over the line counts as if its Vary named the scheme that a front tells, so a redirect to https is
    sent to nobody who came by https. What goes out is the answer as it came, and a POST invalidates those of all schemes."""

    def by_scheme(fetch):
        if fetch.value("X-Forwarded-Proto") == "https":
            return whole(200, content=b"page")(fetch)
        return whole(301, "Location: https://h/")(fetch)

    client, origin = by_words(stage, {"lifetime": 60, "vary": ["X-Forwarded-Proto"]}, {"/": by_scheme}, 4)
    plain, secure = "X-Forwarded-Proto: http", "X-Forwarded-Proto: https"
    expect_answer(client.ask("/", plain), 301, STORED, b"")
    expect_answer(client.ask("/", secure), 200, "edge;fwd=vary-miss;ttl=60;stored", b"page")
    expect_asked(origin, 2)
    for _ in range(2):
        expect_answer(client.ask("/", plain), 301, HIT, b"")
        secured = client.ask("/", secure.lower())
        expect_answer(secured, 200, HIT, b"page")
        expect("Vary", None, secured.value("Vary"))
    expect_asked(origin, 2)
    expect_answer(client.ask("/"), 301, "edge;fwd=vary-miss;ttl=60;stored", b"")
    client.ask("/", plain, method="POST", content=b"x")
    expect_answer(client.ask("/", secure), 200, STORED, b"page")
    expect_asked(origin, 5)


@scenario
def a_304_for_one_visitor_keeps_nothing_for_all(stage):
    """RFC 9111, 4.3.4: a 304 freshens what is stored, and may change its lines. That to Alice keeps nothing for others; that to one without a
    cookie does."""
    for lines, members in (([ALICE], [STORED_SHORTLY, HIT_SHORTLY]), ([], [HIT_SHORTLY, HIT_SHORTLY])):
        client, origin = by_words(stage, {"lifetime": 1}, {"/a": page('ETag: "v1"')}, 4)
        expect_answer(client.ask("/a"), 200, STORED_SHORTLY, b"nobody")
        origin.answers["/a"] = lambda fetch: whole(304, 'ETag: "v1"')(fetch) if fetch.value("If-None-Match") else page('ETag: "v1"')(fetch)
        time.sleep(PAST_A_SECOND)
        expect_answer(client.ask("/a", *lines), 200, "edge;fwd=stale;fwd-status=304;ttl=1", b"nobody")
        expect("what was stored", '"v1"', origin.fetches[1].value("If-None-Match"))
        for it in members:
            expect_answer(client.ask("/a"), 200, it, b"nobody")


def expect_no_cookie(answer, member, content=b"welcome"):
    expect_answer(answer, 200, member, content)
    expect("a cookie that was set for another visitor", None, answer.value("Set-Cookie"))


@scenario
def a_cookie_stays_with_the_first_visitor(stage):
    """`set-cookie = "removed"`, RFC 6265, 3, and RFC 9111, 7.3: the first visitor has the page with its cookie; all others have the page out of
    the store, without one. What isn't stored goes out whole, to each."""
    answers = {"/": counted(), "/own": counted(MINUTE), "/private": counted("Cache-Control: private, max-age=60")}
    client, origin = by_words(stage, {"lifetime": 60, "set-cookie": "removed"}, answers, 4)
    other = stage.proxies[-1].client()
    for target in ("/", "/own"):
        expect_cookie(client.ask(target), STORED, 1)
        for it in (other, client, other):
            expect_no_cookie(it.ask(target), HIT)
        expect_no_cookie(other.ask(target, method="HEAD"), HIT, b"")
    expect_asked(origin, 2)
    for i, it in enumerate((client, other, client), 1):
        expect_cookie(it.ask("/private"), MISS, i)
    expect_asked(origin, 5)


@scenario
def a_crowd_shares_a_page_and_no_cookie(stage):
    """Five ask for a page at once over a line that removes cookies, and wait for the first one's answer: the first has its cookie, the others
    have the page alone."""
    go = threading.Event()
    client, origin = by_words(stage, {"lifetime": 60, "set-cookie": "removed"}, {"/": held_back(go, counted())}, 4)
    others = [stage.proxies[-1].client() for _ in range(4)]
    client.send(request("/"))
    origin.wait_for(1)
    for it in others:
        it.send(request("/"))
    expect("an answer before the first one's", False, not others[-1].has_nothing_to_read(0.5))
    go.set()
    expect_cookie(client.response(), STORED, 1)
    for it in others:
        expect_no_cookie(it.response(), "edge;fwd=uri-miss;ttl=60;collapsed")
    expect_asked(origin, 1)


@scenario
def a_304_brings_a_cookie_to_nobody(stage):
    """RFC 9111, 4.3.4, over a line that removes cookies: a 304 with Set-Cookie freshens the page without it, for who asked and for others. And
    where the origin fails the stale page has none."""
    client, origin = by_words(stage, {"stale-if-error": 60, "set-cookie": "removed"}, {"/a": counted("Cache-Control: max-age=0", 'ETag: "v1"')}, 4)
    expect_cookie(client.ask("/a"), "edge;fwd=uri-miss;ttl=0;stored", 1)
    origin.answers["/a"] = whole(503)
    stale = client.ask("/a")
    expect("the stale page", (200, b"welcome", None), (stale.status, stale.content, stale.value("Set-Cookie")))
    origin.answers["/a"] = counted(MINUTE, 'ETag: "v1"', status=304)
    expect_no_cookie(client.ask("/a"), "edge;fwd=stale;fwd-status=304;ttl=60")
    expect("the condition at the origin", '"v1"', origin.fetches[2].value("If-None-Match"))
    expect_no_cookie(stage.proxies[-1].client().ask("/a"), HIT)
    expect_asked(origin, 3)


@scenario
def a_page_with_a_cookie_is_given_no_lifetime(stage):
    """RFC 9111, 4.2.2 and 7.3: over a line of version 4 without a word on Set-Cookie a page that sets one and states no lifetime is each
    visitor's own. With `set-cookie = "stored"`, and in version 3, the line gives it one, and the first visitor's cookie goes to all."""
    for_one = "edge;fwd=uri-miss;detail=not-stored-set-cookie"
    answers = {"/": counted(), "/tagged": counted('ETag: "v1"'), "/own": counted(MINUTE), "/public": counted("Cache-Control: public")}
    client, origin = by_words(stage, SILENT, answers, 4)
    for target in ("/", "/tagged"):
        for i in (1, 2):
            expect_cookie(client.ask(target), for_one, i)
    for target in ("/own", "/public"):
        expect_cookie(client.ask(target), STORED, 1)
        expect_cookie(client.ask(target), HIT, 1)
    expect_asked(origin, 6)
    for version, words in ((4, {"lifetime": 60, "set-cookie": "stored"}), (3, {"lifetime": 60})):
        client, origin = by_words(stage, words, {"/": counted()}, version)
        expect_cookie(client.ask("/"), STORED, 1)
        expect_cookie(client.ask("/"), HIT, 1)
        expect_asked(origin, 1)


@scenario
def a_year_by_mistake_counts_as_the_most(stage):
    """RFC 9111, 4.2.1, and `lifetime-most`: what states a year is asked about again behind the most, and the client is told what the origin
    said. A shorter lifetime stays, and what the line gives has no most."""
    answers = {"/year": whole(200, YEAR, content=b"old"), "/none": whole(200, content=b"x"), "/zero": whole(200, "Cache-Control: max-age=0", 'ETag: "v1"', content=b"x")}
    client, origin = by_words(stage, {"lifetime": 60, "lifetime-most": 1}, answers, 4)
    first = client.ask("/year")
    expect_answer(first, 200, "edge;fwd=uri-miss;ttl=1;stored", b"old")
    expect("Cache-Control", YEAR.partition(": ")[2], first.value("Cache-Control"))
    expect_answer(client.ask("/none"), 200, STORED, b"x")
    expect_answer(client.ask("/zero"), 200, "edge;fwd=uri-miss;ttl=0;stored", b"x")
    origin.answers["/year"] = whole(200, YEAR, content=b"new")
    time.sleep(PAST_A_SECOND)
    expect_answer(client.ask("/year"), 200, "edge;fwd=stale;ttl=1;stored", b"new")
    expect_member(HIT, client.ask("/none"))
    expect_asked(origin, 4)


@scenario
def a_check_shows_words_of_version_four(stage):
    """`check --ask` shows what a line of version 4 says of cookies and of the most seconds, and where a value may not stand."""
    file = f"{stage.room.name}/table.toml"
    for words, told in (
        ({"lifetime": 60}, ["lifetime = 60", NO_LIFETIME, 'cookies = "private"']),
        ({"lifetime": 60, "lifetime-most": 86400, "cookies": "shared"}, ["lifetime = 60", "lifetime-most = 86400", NO_LIFETIME]),
        ({"error-lifetime": 5, "cookies": "private"}, ["error-lifetime = 5", NO_LIFETIME, 'cookies = "private"']),
        ({"lifetime": 60, "set-cookie": "stored"}, ["lifetime = 60", 'cookies = "private"']),
        ({"lifetime": 60, "set-cookie": "removed"}, ["lifetime = 60", 'set-cookie = "removed"', 'cookies = "private"']),
        ({"set-cookie": "removed"}, ['set-cookie = "removed"']),
        ({"cookies": "private"}, []),
        ({"session-cookies": ["sid", "login"]}, ['session-cookies = ["sid", "login"]']),
        ({"vary": ["X-Forwarded-Proto"]}, ['vary = ["X-Forwarded-Proto"]']),
    ):
        with open(file, "w", encoding="utf-8") as it:
            it.write(table_of([("/", ["*"], "127.0.0.1:1", words)], version=4))
        _, out, _ = run(stage, "check", file, "--ask", "GET http://h.example/")
        shown = [it.strip() for it in out.splitlines() if it.startswith("    ")]
        names = {"session-cookies", "vary"} & set(words)
        rest = ['conditions = "answered"', 'ranges = "served"', *(told if names else [])]
        first = [] if names else told
        expect(f"of {words}", ['cache = "on"', *first, *rest, 'loops = "refused"', "wait-timeout = 5", "key h.example:80/"], shown)
    for key, value, said in (
        ("cookies", "ignored", '"private" or "shared"'),
        ("set-cookie", "hidden", '"stored" or "not-stored", in version 4 also "removed"'),
        ("lifetime-most", 0, "from 1 to 2147483648"),
        ("session-cookies", [], "a list of 1 to 16 names"),
        ("session-cookies", ["*"], 'but not "*"'),
        ("vary", ["*"], "a list of 1 to 8 names"),
    ):
        with open(file, "w", encoding="utf-8") as it:
            it.write(table_of([("/", ["*"], "127.0.0.1:1", {key: value})], version=4))
        status, out, err = run(stage, "check", file)
        expect(f"of {key}", (2, f"config fault 12 line 1 key {key}\n", True), (status, err, said in out))
