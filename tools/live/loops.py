"""Scenarios of requests that come back to the proxy that they went through, over tables of version 4. What becomes of them is what
docs/ORIGINS.md, "Requests that come back", says of Via (RFC 9110, 7.6.3)."""
import socket
import time

from live.expect import expect, expect_answer, expect_refusal, expect_within
from live.figures import expect_samples, figures_with, of, reasons
from live.line_words import MINUTE, by_words
from live.origin import whole
from live.scenario import scenario

LOOP = "loop refused by line 1"


def own_origin(stage, words=None, **more):
    """A proxy whose origin is itself, by a line with these words. It warns of that."""
    with socket.create_server(("127.0.0.1", 0)) as free:
        address = "127.0.0.1:{}".format(free.getsockname()[1])
    stage.lines = range(3)
    return stage.proxy(("/", ["*"], address, words or {}), version=4, listen=address, records=False, **more)


@scenario
def a_table_that_asks_the_server_itself_ends_at_the_third_visit(stage):
    """A request to a proxy that is its own origin comes by three times, and its client gets the 508 of the third within a second: a GET
    that would wait for itself as well as a POST, over lines with cache and without, and many at once."""
    for words in ({}, {"wait": "missing-or-stale"}, {"cache": "off"}):
        proxy = own_origin(stage, words)
        for method, content in (("GET", None), ("HEAD", None), ("POST", b"x")):
            begun = time.monotonic()
            answer = proxy.client().ask("/a", method=method, content=content)
            expect_within(f"the answer to {method}", 0, 1, time.monotonic() - begun)
            expect(f"status and Refusal of {method}", (508, LOOP), (answer.status, answer.value("Refusal")))
            expect(f"content of {method}", b"" if method == "HEAD" else LOOP.encode(), answer.content)
        begun = time.monotonic()
        clients = [proxy.client() for _ in range(20)]
        for it in clients:
            it.send(b"GET /b HTTP/1.1\r\nHost: h\r\n\r\n")
        expect("statuses of many", {508}, {it.response().status for it in clients})
        expect_within("many answers", 0, 3, time.monotonic() - begun)
        stage.finish()


@scenario
def a_request_that_names_the_proxy_twice_reaches_no_origin(stage):
    """RFC 9110, 7.6.3: received-by of Via, also over several lines, in any case, past comments and quotes. One that was here once passes;
    so does each over a line that forwards loops, and in version 3."""
    page = {"/a": whole(200, MINUTE, content=b"page")}
    once = ("Via: 1.1 edge", "Via: 1.0 other (1.1 edge, 1.1 edge), 1.1 edge", "Via: 1.1 edge:80, 1.1 edge, 1.1 edges")
    twice = (
        ("Via: 1.1 edge, 1.1 edge",),
        ("Via: 1.0 other, HTTP/1.1 EDGE (a, (b)), 1.1 edge",),
        ("Via: 1.1 edge", "via: 1.1 core", "VIA: 1.0 edge"),
        ("Via: 1.1 other (unclosed", "Via: 1.1 edge", "Via: 1.1 edge"),
    )
    file = f"{stage.room.name}/figures"
    client, origin = by_words(stage, {"cache": "off"}, page, 4, options=["--stats", file])
    for line in once:
        expect_answer(client.ask("/a", line), 200, "edge;fwd=bypass;detail=operator", b"page")
    for lines in twice:
        expect_refusal(client.ask("/a", *lines), 508, LOOP)
    expect("requests at the origin", len(once), len(origin.fetches))
    samples = figures_with(file, of("refusals_total", cause="loop"), len(twice))
    expect_samples(samples, {of("responses_total", code=code): n for code, n in ((200, len(once)), (508, len(twice)))})
    expect_samples(samples, reasons(bypass__operator=len(once), denied=len(twice)))
    for words, version in (({"cache": "off", "loops": "forwarded"}, 4), ({"cache": "off"}, 3)):
        client, origin = by_words(stage, words, page, version)
        for lines in twice:
            expect_answer(client.ask("/a", *lines), 200, "edge;fwd=bypass;detail=operator", b"page")
        expect("requests at the origin", len(twice), len(origin.fetches))
