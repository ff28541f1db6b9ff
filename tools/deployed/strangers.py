"""What a stranger may say through the fronts of deploy/: no field that takes a field of the front's away or passes for one, no head that
the origin takes for an error, and, where an operator wants it so, no word of the cache's own."""
import re
import socket
import threading
import time

from deployed.fronts import FILES, Front, check, expect_from, start_front, value_of
from deployed.origins import nginx_at
from deployed.stand import curl, deployed, free_port, need, part, taken_in, wait_until
from live.client import PATIENCE
from live.expect import Unexpected, expect
from live.origin import whole
from live.scenario import KEPT

# Fields that a client claims: its address and the like, another method, another target; and names that an origin may take for one.
CLAIMS = ["Forwarded: for=192.0.2.1", "X-Real-IP: 192.0.2.1", "X-Forwarded-Host: evil.example", "X-Forwarded-Port: 1", "X-Forwarded-Prefix: /evil"]
CLAIMS += ["X-Forwarded-Server: evil.example", "Proxy: http://evil.example", "X-HTTP-Method-Override: DELETE", "X-HTTP-Method: DELETE"]
CLAIMS += ["X-Method-Override: DELETE", "X-Original-URL: /admin", "X-Rewrite-URL: /admin", "X_Forwarded_For: 192.0.2.1", "X_Forwarded-Host: evil.example"]
CLAIMS += ["Transfer_Encoding: chunked", "Content_Length: 9", "Transfer.Encoding: chunked", "X.Forwarded.For: 192.0.2.1", "X_HTTP_Method_Override: DELETE"]
# Fields that any client sends, and that stay.
HONEST = ["Accept-Language: de", "Cookie: a=b", "Authorization: Basic eDp5", "X-Request-Id: 7", "X-Requested-With: XMLHttpRequest"]


WEBSOCKET = "Connection: Upgrade\r\nUpgrade: websocket\r\nSec-WebSocket-Key: dGhlIHNhbXBsZSBub25jZQ==\r\nSec-WebSocket-Version: 13\r\n"


def raw(port, text):
    """What comes over one connection until the front ends it, or nothing comes for a while; and whether it was ended."""
    with socket.create_connection(("127.0.0.1", port), timeout=PATIENCE) as it:
        it.sendall(text)
        told = b""
        try:
            while data := it.recv(65536):
                told += data
                it.settimeout(1.5)
        except TimeoutError:
            return told, False
        return told, True


def headers(lines):
    return [word for it in lines for word in ("--header", it)]


@check
def no_field_of_the_front_is_taken_away(front):
    """RFC 9110, 7.6.1: what Connection names is for one hop. So a client's goes before the front adds fields of its own."""
    for version in ("--http1.1", "--http1.0"):
        front.ask("/post", version, *headers(["Connection: close, X-Forwarded-For, X-Forwarded-Proto, Host, Cookie"]), "--data", "x")
        fetch = front.fetches("/post")[-1]
        got = [value_of(fetch, it) for it in ("X-Forwarded-For", "X-Forwarded-Proto", "Host")]
        expect(f"the front's fields at the origin by {version}", ["127.0.0.1", "https", "h.example"], got)


@check
def connections_of_1_0_and_upgrades_are_as_ever(front):
    """RFC 9112, 9.3 and C.2.2: who speaks HTTP/1.0 is kept where it asks for that, and else left; RFC 9110, 7.8: an upgrade that isn't made is
    answered as an ordinary request."""
    ask = "GET /a HTTP/{}\r\nHost: h.example\r\n{}\r\n".format
    front.ask("/a")
    for version, lines, times, is_ended in (
        ("1.0", "Connection: keep-alive\r\n", 2, False),
        ("1.0", "", 1, True),
        ("1.1", "Connection: close\r\n", 1, True),
        ("1.1", WEBSOCKET, 2, False),
    ):
        told, ended = raw(front.http, ask(version, lines).encode() * times)
        statuses = re.findall(rb"HTTP/1\.[01] (\d+)", told)
        expect(f"answers to {version} {lines!r}, and its end", ([b"200"] * times, is_ended), (statuses, ended))


@check
def what_a_client_claims_is_dropped(front):
    for version in ("--http1.1", "--http2"):
        front.ask("/post", version, *headers(CLAIMS + HONEST), "--data", "x")
        fetch = front.fetches("/post")[-1]
        names = {it.partition(":")[0].lower() for it in CLAIMS}
        expect(f"claims at the origin by {version}", [], [it for it in fetch.fields if it[0].lower() in names])
        got = [f"{it}: {value_of(fetch, it)}" for it in (line.partition(":")[0] for line in HONEST)]
        expect(f"other fields at the origin by {version}", HONEST, got)
        expect("method at the origin", "POST", fetch.method)


# Of each line of a head: how long its name and its value are. These go through, whichever front it is;
MODEST = [[(9, 3900)], [(9, 3500), (9, 3500)]]
# these are refused over HTTP/1.1, since an origin would; over HTTP/2 nginx counts packed bytes, so it may let a part of them through.
LONG = [[(9, 7300)], [(9, 12000)], [(9, 8150), (9, 8150), (9, 8150), (9, 8160)], [(9, 6000)] * 3, [(3000, 6800)], [(4000, 4000), (4000, 4000)]]
# The longest line that Apache and nginx take, with its end; the longest head that node takes.
LINE, HEAD = 8190, 16384
REFUSED = {"--http1.1": (400, 414, 431), "--http2": (0, 400, 414, 431)}


def long_head(stand, lines):
    """Words for curl, by a file, so that a failed check doesn't print them all."""
    text = "".join(f"{'x' * (name - 2)}-{i}: {'a' * value}\n" for i, (name, value) in enumerate(lines))
    return ["--header", "@" + stand.file("long-head", text)]


def status_of(port, target, *words):
    """The status; 0 where the front ends the stream or the connection of HTTP/2, with or without an answer."""
    try:
        return curl(port, f"https://h.example{target}", *words).status
    except Unexpected:
        return 0


@check
def heads_stay_below_what_origins_take(front):
    """What comes through is no longer than nginx (8,192 bytes a line), Apache (8,190) and node (16,384 in all) take."""
    for target, lines in [*(("/post", it) for it in MODEST + LONG), ("/post?" + "q" * 3900, []), ("/post?" + "q" * 8100, [])]:
        for version in ("--http1.1", "--http2"):
            status = status_of(front.https, target, version, *long_head(front.stand, lines))
            what, is_modest = f"{lines or len(target)} by {version}", lines in MODEST or not lines and len(target) < 4000
            if is_modest or status == 201:
                expect(f"status for {what}", 201, status)
                expect_below(what, bytes(front.fetches(target)[-1].received))
            elif status not in REFUSED[version]:
                raise Unexpected(f"status for {what}", "400, 414 or 431", status)
            if status == 201 and not is_modest and version == "--http1.1":
                raise Unexpected(f"status for {what}", "400, 414 or 431", status)


def expect_below(what, head):
    longest = max(len(it) + 2 for it in head.split(b"\r\n"))
    if longest > LINE or len(head) > HEAD:
        raise Unexpected(f"at the origin for {what}", f"lines of {LINE} bytes, {HEAD} in all", (longest, len(head)))


# An origin that puts a lifetime on each answer, its errors too.
ORIGIN = """
    server {
        listen 127.0.0.1:%d;
        root %s/www;
        add_header Cache-Control "max-age=60" always;
    }
"""


@part
def an_error_in_the_place_of_a_page(stand):
    """A client's `no-cache` goes to the origin although a page is held, and what comes is stored, whatever its status."""
    need("nginx", "haproxy", "curl")
    origin = nginx_at(stand, ORIGIN, {"page": "good"})
    yield "without_a_front_it_is_done", lambda: without_a_front_it_is_done(stand, origin)
    for kind in ("nginx", "haproxy"):
        yield f"not_through_{kind}", lambda kind=kind: not_through(stand, kind, origin)


def cache_of(stand, origin, purge):
    return stand.proxy(deployed("table.toml", {"127.0.0.1:8081": f"127.0.0.1:{origin}", "127.0.0.1:8089": f"127.0.0.1:{purge}"}))


def others_behind(stand, port, scheme, lines, version="--http1.1"):
    """The status that others get behind a head that goes to the origin although the page is held."""
    url = f"{scheme}://h.example/page"
    expect("status of the page", 200, curl(port, url).status)
    words = [version, "--header", "Cache-Control: no-cache", *long_head(stand, lines)]
    try:
        curl(port, url, *words)
    except Unexpected:
        # (the front may end a connection of HTTP/2)
        pass
    return curl(port, url).status


def without_a_front_it_is_done(stand, origin):
    """Why the front has to refuse such heads: nginx answers a line of 12,000 bytes with 400, and `always` gives it a lifetime."""
    cache = cache_of(stand, origin, free_port())
    expect("status of others", 400, others_behind(stand, cache.port, "http", [(9, 12000)]))


def not_through(stand, kind, origin):
    purge, http, https = free_port(), free_port(), free_port()
    cache = cache_of(stand, origin, purge)
    with socket.socket(socket.AF_INET, socket.SOCK_DGRAM) as log:
        log.bind(("127.0.0.1", 0))
        start_front(stand, kind, [http, https, cache.port, purge, log.getsockname()[1]], {})
        for lines in MODEST + LONG:
            for version in ("--http1.1", "--http2"):
                others = others_behind(stand, https, "https", lines, version)
                expect(f"status of others behind {lines} by {version}", 200, others)


# What keeps the cache's own words from strangers, in each front's file and in those for several caches.
FOR_OPERATORS = {
    "nginx": ["proxy_hide_header Cache-Status", "proxy_hide_header Refusal", "add_header Cache-Status", "add_header Refusal"],
    "haproxy": ["http-response return status 403", "http-response del-header Cache-Status", "http-response del-header Refusal"],
}
# (every address of this test is one of 127.0.0.0/8)
NEAR = {"127.0.0.0/8": "127.0.0.1/32"}


@part
def a_reason_for_operators_alone(stand):
    need("nginx", "haproxy", "curl")
    for kind, lines in FOR_OPERATORS.items():
        front = Front(stand, kind, {**taken_in(FILES[kind], *lines), **NEAR})
        yield kind, lambda front=front: reasons_are_hidden(front)


def reasons_are_hidden(front):
    """The option of the file: strangers get neither Cache-Status nor Refusal, operators get both, and the front's log has them."""
    for target, status, reason in (("/a", 200, "edge;fwd=uri-miss;ttl=;stored"), ("/a", 200, "edge;hit;ttl="), ("/admin", 403, "denied by line 1")):
        expect_from(front.ask(target), status, reason)
        answer = expect_from(front.ask(target, "--interface", "127.0.0.9"), status, "none")
        # (nginx can't tell a denial of the cache from one of the origin, whose content is its own matter)
        if front.kind == "haproxy":
            expect("denials in the content", False, b"denied" in answer.content)
    wait_until(lambda: sum("denied by line 1" in it for it in front.log()) == 2, "two such lines in the front's log", 5)


NOBODY_RELOADS = {"nginx": "proxy_set_header Cache-Control", "haproxy": "http-request del-header Cache-Control"}


@part
def what_helps_at_a_front(stand):
    need("nginx", "haproxy", "curl")
    for kind, line in NOBODY_RELOADS.items():
        front = Front(stand, kind, taken_in(FILES[kind], line))
        yield f"nobody_reloads_through_{kind}", lambda front=front: nobody_reloads(front)
        yield f"who_says_no_store_leads_nobody_through_{kind}", lambda front=front: who_says_no_store_leads_nobody(front)
    front = Front(stand, "haproxy", taken_in("haproxy.cfg", "http-response del-header Set-Cookie"))
    yield "cookies_are_for_one_through_haproxy", lambda: cookies_are_for_one(front)


def nobody_reloads(front):
    """A fresh page stays, whatever a client says of caches: so an error isn't put in its place."""
    expect_from(front.ask("/a"), 200, "edge;fwd=uri-miss;ttl=;stored")
    front.origin.answers["/a"] = whole(400, KEPT, content=b"bad")
    for it in ("no-cache", "no-store", "max-age=0", "min-fresh=9999"):
        expect_from(front.ask("/a", "--header", f"Cache-Control: {it}"), 200, "edge;hit;ttl=")


def who_says_no_store_leads_nobody(front):
    """Six ask at once for what nobody has asked for, the first of them with no-store: there is one request at the origin."""
    front.origin.answers["/led"] = lambda fetch: (time.sleep(1), whole(200, KEPT, content=b"led")(fetch))
    crowd = [threading.Thread(target=front.ask, args=["/led", *words]) for words in (["--header", "Cache-Control: no-store"], *[[]] * 5)]
    for it in crowd:
        it.start()
        time.sleep(0.1)
    for it in crowd:
        it.join()
    expect("requests at the origin", 1, len(front.fetches("/led")))


def cookies_are_for_one(front):
    """What is stored has no cookie for anybody, also where a 304 brings one; what isn't stored keeps its own."""
    cookie = "Set-Cookie: sid=1"
    front.origin.answers["/cookie"] = whole(200, "Cache-Control: max-age=600, no-cache", 'ETag: "v1"', cookie, content=b"hello")
    front.origin.answers["/own"] = whole(200, "Cache-Control: no-store", cookie, "Set-Cookie: theme=dark")
    expect("the cookie of who had it stored", None, front.ask("/cookie").value("Set-Cookie"))
    front.origin.answers["/cookie"] = whole(304, 'ETag: "v1"', "Set-Cookie: sid=2")
    answer = expect_from(front.ask("/cookie"), 200, "edge;fwd=stale;fwd-status=304;ttl=;detail=response-no-cache")
    expect("the cookie behind a 304", None, answer.value("Set-Cookie"))
    expect("the cookies of what isn't stored", "sid=1, theme=dark", front.ask("/own").value("Set-Cookie"))


@part
def a_strangers_purge(stand):
    need("nginx", "haproxy", "curl")
    for kind in ("nginx", "haproxy"):
        front = Front(stand, kind, NEAR)
        yield f"is_refused_in_any_spelling_by_{kind}", lambda front=front: is_refused_in_any_spelling(front)


def is_refused_in_any_spelling(front):
    """A method is its bytes (RFC 9110, 9.1), and some origins take `purge` for PURGE. None of these comes to an origin, and the page stays."""
    expect_from(front.ask("/a"), 200, "edge;fwd=uri-miss;ttl=;stored")
    for method in ("PURGE", "purge", "Purge", "PURGEX", "purgex", "BAN"):
        for version in ("--http1.1", "--http2"):
            status = status_of(front.https, "/a", version, "--interface", "127.0.0.9", "--request", method)
            if status not in (0, 400, 403, 405):
                raise Unexpected(f"status for {method} by {version}", "400, 403 or 405", status)
    expect_from(front.ask("/a"), 200, "edge;hit;ttl=")
    expect("requests at the origin", 1, len(front.origin.fetches))
    expect_from(front.ask("/a", "--request", "PURGE"), 204, "edge;fwd=method")
