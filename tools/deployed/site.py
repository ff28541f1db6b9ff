"""deploy/site.toml as it stands but for its ports: each line does what its comment says, and the origins are asked as often as that needs."""
import itertools
import re
import subprocess
import threading
import time

from deployed.fronts import expect_from
from deployed.stand import DEPLOY, curl, deployed, need, part, wait_until
from live.expect import expect, expect_within
from live.memory_bounds import told_of_store
from live.origin import Origin, held_back, silent, whole

URL = "http://h.example{}".format
MINUTE = "Cache-Control: max-age=60"


def with_a_cookie():
    """A page with a cookie of its own for each time that it is asked for."""
    numbers = itertools.count(1)
    return lambda fetch: whole(200, MINUTE, f"Set-Cookie: sid={next(numbers)}", content=b"welcome")(fetch)


def of_the_visitor():
    """A page for who asks, by the cookie, of an origin that says nothing of caching."""
    return lambda fetch: whole(200, content=f"hello {fetch.value('Cookie')}".encode())(fetch)


class Site:
    """A cache by this table, before an origin of pages, one of assets and one of the API."""

    def __init__(self, stand):
        bare, second = whole(200, content=b"hello"), whole(200, "Cache-Control: max-age=1", content=b"hello")
        of_pages = {"/": bare, "/news": bare, "/old": second, "/welcome": with_a_cookie(), "/account/me": with_a_cookie(), "/orders": of_the_visitor()}
        of_api = {
            "/api/public/list": bare,
            "/api/public/old": second,
            "/api/public/bad": whole(400, MINUTE, content=b"bad"),
            "/api/orders": bare,
            "/api/rates": whole(200, MINUTE, content=b"hello"),
        }
        self.pages, self.api = stand.origin(Origin(of_pages)), stand.origin(Origin(of_api))
        of_assets = {"/assets/app.js": bare, "/assets/old.js": second, "/assets/gone.js": whole(404, content=b"none")}
        self.assets = stand.origin(Origin(of_assets))
        words = {"127.0.0.1:8081": self.pages, "127.0.0.1:8083": self.assets, "127.0.0.1:8082": self.api}
        sooner = {"origin-timeout = 20 ": "origin-timeout = 3 "}
        self.cache = stand.proxy(deployed("site.toml", {**sooner, **{old: it.address for old, it in words.items()}}))

    def expect(self, origin, count, target, *answers, words=()):
        """What these requests get, one behind the other, and how many of them came to the origin."""
        before = len(origin.fetches)
        for status, reason in answers:
            expect_from(curl(self.cache.port, URL(target), *words), status, reason)
        expect(f"requests at the origin for {target}", count, len(origin.fetches) - before)


@part
def site(stand):
    need("curl")
    yield "it_is_a_table", lambda: it_is_a_table(stand)
    parts = what_is_denied, what_one_visitor_sees, what_all_share, what_many_ask_for, what_the_api_says, what_is_purged
    for it in (*parts, while_the_origins_fail, while_an_origin_hangs):
        yield it.__name__, lambda it=it: it(Site(stand))


def it_is_a_table(stand):
    ran = subprocess.run([stand.program, "check", f"{DEPLOY}/site.toml"], stdin=subprocess.DEVNULL, capture_output=True, text=True, timeout=20)
    expect("from check", (0, f"ok 7 lines\n{told_of_store(20000, 1048576, 500000000)}", ""), (ran.returncode, ran.stdout, ran.stderr))


def what_is_denied(site):
    for target in ("/admin/users", "/.git/config", "/.env"):
        site.expect(site.pages, 0, target, (403, "denied by line 1"))
    site.expect(site.assets, 0, "/assets/app.js", (403, "no line allows it"), words=["--data", "x=1"])
    site.expect(site.pages, 0, "/news", (403, "no line allows it"), words=["--request", "DELETE"])


def what_one_visitor_sees(site):
    """Never stored, whatever it says; a cookie that a page sets keeps it out, and so does one that asked for it. Assets are for all."""
    site.expect(site.pages, 2, "/account/me", *[(200, "edge;fwd=bypass;detail=operator")] * 2)
    site.expect(site.pages, 2, "/welcome", *[(200, "edge;fwd=uri-miss;detail=not-stored-set-cookie")] * 2)
    for it in ("session=alice", "session=bob"):
        answer = curl(site.cache.port, URL("/orders"), "--header", f"Cookie: {it}")
        expect_from(answer, 200, "edge;fwd=uri-miss;detail=not-stored-request-cookie")
        expect(f"the page of {it}", f"hello {it}".encode(), answer.content)
    shared = ["--header", "Cookie: session=alice"]
    site.expect(site.assets, 1, "/assets/app.js", (200, "edge;fwd=uri-miss;ttl=;stored"), (200, "edge;hit;ttl="), words=shared)


def what_all_share(site):
    """An hour, ten seconds or a minute of what states nothing; a reload is served from the store. An error isn't stored: a file may be asked for just before
    it is put there."""
    stored, hit = (200, "edge;fwd=uri-miss;ttl=;stored"), (200, "edge;hit;ttl=")
    for origin, target, most in ((site.assets, "/assets/app.js", 3600), (site.api, "/api/public/list", 10), (site.pages, "/news", 60)):
        site.expect(origin, 1, target, stored, hit, hit)
        site.expect(origin, 0, target, hit, words=["--header", "Cache-Control: no-cache"])
        ttl = int(curl(site.cache.port, URL(target)).value("Cache-Status").rpartition("=")[2])
        expect(f"of {target} a ttl up to {most}", True, most - 8 <= ttl <= most)
    site.expect(site.assets, 2, "/assets/gone.js", *[(404, "edge;fwd=uri-miss")] * 2)
    site.expect(site.api, 2, "/api/public/bad", *[(400, "edge;fwd=uri-miss;detail=not-stored-error-status")] * 2)


def what_many_ask_for(site):
    """At the end of a lifetime one of ten who ask at once goes to the origin, and the others have its answer; of a page they have the old one at once."""
    old = (site.pages, "/old"), (site.assets, "/assets/old.js"), (site.api, "/api/public/old")
    for origin, target in old:
        site.expect(origin, 1, target, (200, "edge;fwd=uri-miss;ttl=;stored"))
    time.sleep(2.1)
    for origin, target in old:
        go, before, told = threading.Event(), len(origin.fetches), []
        origin.answers[target] = held_back(go, whole(200, MINUTE, content=b"hello"))
        crowd = [threading.Thread(target=lambda: told.append(curl(site.cache.port, URL(target)).reason())) for _ in range(10)]
        for it in crowd:
            it.start()
        if origin is site.pages:
            wait_until(lambda: len(told) == 9, "the old page for nine of ten")
        else:
            time.sleep(2)
        go.set()
        for it in crowd:
            it.join()
        meanwhile = "edge;hit;ttl=;detail=stale-while-revalidate" if origin is site.pages else "edge;fwd=stale;ttl=;collapsed"
        expect("what they were told", sorted([meanwhile] * 9 + ["edge;fwd=stale;ttl=;stored"]), sorted(told))
        expect(f"requests at the origin for {target}", 1, len(origin.fetches) - before)


def what_the_api_says(site):
    """The rest of the API is stored where it says so itself, and a reload of it reaches its origin."""
    site.expect(site.api, 2, "/api/orders", *[(200, "edge;fwd=uri-miss")] * 2)
    site.expect(site.api, 1, "/api/rates", (200, "edge;fwd=uri-miss;ttl=;stored"), (200, "edge;hit;ttl="))
    words = ["--header", "Cache-Control: no-cache"]
    site.expect(site.api, 1, "/api/rates", (200, "edge;fwd=request;ttl=;stored;detail=no-cache"), words=words)
    site.expect(site.api, 1, "/api/rates", (200, "edge;fwd=method"), words=["--request", "PATCH", "--data", "x=1"])
    site.expect(site.api, 1, "/api/rates", (200, "edge;fwd=uri-miss;ttl=;stored"))


def while_an_origin_hangs(site):
    """A page that was stored is sent in its place after the seconds of its line; what is new gets 504."""
    expect_from(curl(site.cache.port, URL("/old")), 200, "edge;fwd=uri-miss;ttl=;stored")
    site.pages.answers = {it: silent for it in site.pages.answers}
    time.sleep(2.1)
    began = time.monotonic()
    site.expect(site.pages, 1, "/old", (200, "edge;fwd=stale;ttl=;detail=stale-if-error"))
    site.expect(site.pages, 1, "/news", (504, "origin timed-out;fwd=uri-miss"))
    expect_within("seconds until both", 6, 11, time.monotonic() - began)


def key_of_site():
    with open(f"{DEPLOY}/site.toml", encoding="utf-8") as it:
        return re.search(r'^key = "(\w+)"$', it.read(), re.M)[1]


def what_is_purged(site):
    """What is stored for a target goes by the key of the line, and below a path by its scope; without the key nothing does. No origin is asked."""
    stored, hit = (200, "edge;fwd=uri-miss;ttl=;stored"), (200, "edge;hit;ttl=")
    purge, key = ["--request", "PURGE"], ["--header", f"Purge-Key: {key_of_site()}"]
    for origin, target in ((site.pages, "/news"), (site.assets, "/assets/app.js")):
        site.expect(origin, 1, target, stored, hit)
        site.expect(origin, 0, target, (403, "denied by line 2"), words=purge)
        site.expect(origin, 0, target, hit)
        answer = curl(site.cache.port, URL(target), *purge, *key)
        expect("what a purge tells", (204, "1"), (answer.status, answer.value("Purged")))
        site.expect(origin, 1, target, stored, hit)
    answer = curl(site.cache.port, URL("/assets"), *purge, *key, "--header", "Purge-Scope: prefix")
    expect("what a purge of a path tells", (204, "1"), (answer.status, answer.value("Purged")))
    site.expect(site.assets, 1, "/assets/app.js", stored)
    site.expect(site.pages, 0, "/news", hit)


def while_the_origins_fail(site):
    """A page and an asset stand in for an origin that fails, an answer of the API doesn't, and nothing is made up for what is new."""
    old = "/old", "/api/public/old"
    for it in old:
        expect_from(curl(site.cache.port, URL(it)), 200, "edge;fwd=uri-miss;ttl=;stored")
    for origin in (site.pages, site.api):
        origin.answers = {it: whole(503, content=b"down") for it in origin.answers}

    def are_stale():
        return not any(curl(site.cache.port, URL(it)).reason().startswith("edge;hit") for it in old)

    wait_until(are_stale, "the end of both lifetimes")
    site.expect(site.pages, 1, "/old", (200, "edge;fwd=stale;fwd-status=503;ttl=;detail=stale-if-error"))
    site.expect(site.pages, 1, "/news", (503, "edge;fwd=uri-miss;detail=not-stored-nothing-allows"))
    site.expect(site.api, 1, "/api/public/old", (503, "edge;fwd=stale;detail=not-stored-nothing-allows"))
