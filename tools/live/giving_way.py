"""Scenarios of who gives way: its place to a client that waits to be taken, or what is held for it where more is held than may be."""
import time

from live.client import request
from live.content_limit import BOTH, text_of
from live.expect import Unexpected, expect, expect_answer, expect_within
from live.figures import figures_with, of
from live.leaving import expect_left
from live.logs import lines_of
from live.origin import Origin, silent, whole
from live.scenario import AT_ONCE, KEPT, scenario, timed
from live.staying import HIT, STORED

PLACES = 60
POST = b"POST /post HTTP/1.1\r\nHost: h\r\nContent-Length: 40\r\n\r\n"


def asked_for(line):
    """What the line of a reply says of its request, its status and its reason."""
    return line[2:6]


@scenario
def an_incomplete_request_gives_its_place(stage):
    """Each place is taken by requests that aren't whole. A newcomer takes the place of one of which nothing came for a second, and waits for
    that where none is so; one whose bytes go on coming stays, and so does one that is whole and waits for its answer."""
    stage.origin(Origin({"/a": whole(200, KEPT, content=b"hello"), "/silent": silent, "/post": whole(201, content=b"made")}))
    log, file = f"{stage.room.name}/log", f"{stage.room.name}/figures"
    proxy = stage.proxy(options=["--connections", str(PLACES), "--log", log, "--stats", file])
    first = proxy.client()
    expect_answer(first.ask("/a"), 200, STORED, b"hello")
    first.leave()
    waits, steady = proxy.client(), proxy.client()
    waits.send(request("/silent"))
    steady.send(POST)
    time.sleep(0.2)
    drips = [proxy.client() for _ in range(PLACES - 2)]
    time.sleep(0.5)
    for n, it in enumerate(drips):
        it.is_cut_off = True
        it.send(b"G")
        time.sleep(0.01)
        if n % 10 == 0:
            steady.send(b"x")
    began = time.monotonic()
    newcomer = proxy.client()
    newcomer.send(request("/a"))
    while newcomer.has_nothing_to_read(0.2):
        steady.send(b"x")
        expect_within("the first newcomer's answer", 0, 3, time.monotonic() - began)
    expect_answer(newcomer.response(), 200, HIT, b"hello")
    expect("whether the one of which nothing came for the longest is gone", True, drips[0].is_closed())
    # It asks for what doesn't come, so that it isn't idle when the next one comes.
    newcomer.send(request("/silent"))
    time.sleep(0.2)
    other, seconds = timed(proxy.client(), "/a")
    expect_answer(other, 200, HIT, b"hello")
    expect_within("the next newcomer's answer", 0, AT_ONCE, seconds)
    expect("whether the next is gone", True, drips[1].is_closed())
    expect("whether the last stays", True, drips[-1].has_nothing_to_read(0.1))
    steady.send(b"y" * (40 - len(steady.sent.removeprefix(POST))))
    expect_answer(steady.response(), 201, "edge;fwd=method", b"made")
    expect("whether the one that waits stays", True, waits.has_nothing_to_read(0.1))
    samples = figures_with(file, of("unanswered_requests_total", cause="room"), 2)
    expect("connections that were closed for room", 2, samples[of("connections_cut_total", cause="room")])
    lines = [it for it in lines_of(log, 6) if it[4] == "000"]
    for it, client in zip(lines, drips):
        expect_left(it, client, ["-", "-"], "room", "-", 1.0)
    for it in drips:
        it.leave()
    stage.lines = 1


def got_whole(client, content):
    """Whether a client that now reads on gets its whole answer before its connection ends. What is kept open has no end to wait for."""
    client.open_window()
    while len(client.received) <= len(content) and client.read_some():
        pass
    client.settle()
    return client.received.endswith(content)


@scenario
def who_takes_nothing_goes_before_who_takes(stage):
    """`--content-limit` is full of answers that their clients don't take. An honest client asks for a larger one, and gets it whole: one of the
    others is cut off for it."""
    pages = {"/modest": text_of(6000000), "/large": text_of(9000000)}
    stage.origin(Origin({it: whole(200, KEPT, content=text) for it, text in pages.items()}))
    proxy = stage.proxy(options=["--content-limit", "20000000"], **BOTH)
    for it, text in pages.items():
        expect_answer(proxy.client().ask(it), 200, STORED, text)
    stuck = [proxy.client(window=4096) for _ in range(3)]
    for it in stuck:
        it.is_cut_off = True
        it.send(request("/modest"))
        it.read_some(1)
    time.sleep(1.5)
    for _ in range(5):
        expect_answer(proxy.client().ask("/large"), 200, HIT, pages["/large"])
    whole_ones = sum(got_whole(it, pages["/modest"]) for it in stuck)
    if whole_ones not in (1, 2):
        raise Unexpected("of those that took nothing", "one cut off, or two", f"{3 - whole_ones}")
