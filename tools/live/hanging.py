"""Scenarios of an origin that hangs: it stops nobody, has no more links than its bound, and is asked by one request at a time while it
doesn't answer."""
import threading
import time

from live.client import request
from live.expect import expect, expect_answer, expect_refusal, expect_within
from live.figures import expect_samples, figures_with, of
from live.origin import Origin, Refusing, held_back, silent, whole
from live.scenario import AT_ONCE, KEPT, LATEST, scenario, timed
from live.staying import HIT, STORED

MISS = "edge;fwd=uri-miss"
REFUSED = "origin refused;fwd=uri-miss"
# What may be sent, stale as it is, where its origin fails.
STALE = "Cache-Control: max-age=0, stale-if-error=600"
# Requests that hang, and what nobody else may wait beside them: a tenth of a second.
CROWD, SOON = 300, 0.1
# Exchanges in a row that fail, until an origin counts as silent.
SILENT = 3
# A time-out that is over soon.
IN_A_SECOND = ["--origin-timeout", "1"]


def expect_stale(client, target, text):
    """The stored page in place of a failure, at once."""
    answer, seconds = timed(client, target)
    expect_answer(answer, 200, f"edge;fwd=stale;ttl={-int(answer.value('Age') or 0)};detail=stale-if-error", text)
    expect_within("a stale page", 0, AT_ONCE, seconds)


def expect_refused(client, target):
    answer, seconds = timed(client, target)
    expect_refusal(answer, 502, REFUSED)
    expect_within("502", 0, AT_ONCE, seconds)


@scenario
def an_origin_that_hangs_stops_nobody(stage):
    """300 requests hang at one origin. Meanwhile 100 hits and 20 misses of another one are answered, each in a tenth of a second."""
    misses = [f"/m/{i}" for i in range(20)]
    hanging = stage.origin(Origin({"/silent": silent}))
    origin = stage.origin(Origin({it: whole(200, KEPT, content=it.encode() * 200) for it in ("/a", *misses)}))
    proxy = stage.proxy(("/silent", ["*"], hanging.address), ("/", ["*"], origin.address))
    expect_answer(proxy.client().ask("/a"), 200, STORED, b"/a" * 200)
    for i in range(CROWD):
        proxy.client().send(request(f"/silent?{i}"))
    hanging.wait_for(CROWD)
    kept = proxy.client()
    for i, miss in enumerate(misses):
        for target, member in [("/a", HIT)] * 5 + [(miss, STORED)]:
            answer, seconds = timed(kept if i % 2 else proxy.client(), target)
            expect_answer(answer, 200, member, target.encode() * 200)
            expect_within(f"the answer to {target}", 0, SOON, seconds)


@scenario
def a_connect_beyond_the_bound_of_its_origin_is_refused(stage):
    """`--origin-connections 2`, and two requests that hang: a third one is told 502 at once, `stale-if-error` lets a stored page be sent,
    another origin is asked as ever. Both are counted, and warned of once. Where a link has ended the next request has its own."""
    stage.lines = 1
    hanging = stage.origin(Origin({"/silent": silent, "/stale": whole(200, STALE, content=b"old"), "/b": whole(200, content=b"b")}))
    other = stage.origin(Origin({"/other": whole(200, content=b"other")}))
    file = f"{stage.room.name}/figures"
    lines = ("/other", ["*"], other.address), ("/", ["*"], hanging.address)
    proxy = stage.proxy(*lines, options=["--origin-connections", "2", "--stats", file])
    client, waiting = proxy.client(), [proxy.client() for _ in range(2)]
    expect_answer(client.ask("/stale"), 200, "edge;fwd=uri-miss;ttl=0;stored", b"old")
    for i, it in enumerate(waiting):
        it.send(request(f"/silent?{i}"))
    hanging.wait_for(3)
    expect_refused(client, "/b")
    expect_stale(client, "/stale", b"old")
    expect_answer(client.ask("/other"), 200, MISS, b"other")
    beyond = of("origin_connections_refused_total", origin=hanging.address, cause="limit")
    samples = figures_with(file, beyond, 2)
    expect_samples(samples, {beyond: 2, of("origin_exchanges", origin=hanging.address): 2})
    expect("requests at the origin", 3, len(hanging.fetches))
    waiting[0].leave(reset=True)
    expect("the link's end at the origin", True, hanging.fetches[1].is_over.wait(LATEST))
    expect_answer(client.ask("/b"), 200, MISS, b"b")


@scenario
def clients_that_left_give_way_where_links_are_short(stage):
    """`--origin-connections 8`, and eight clients that left while their origin is silent, though `--abandon-timeout` is 30: what another one
    asks of that origin is answered in a second, and links of those that left are closed for it."""
    origin = stage.origin(Origin({"/silent": silent, "/b": whole(200, content=b"b")}))
    proxy = stage.proxy(options=["--origin-connections", "8", "--abandon-timeout", "30"])
    leaving = [proxy.client() for _ in range(8)]
    for i, it in enumerate(leaving):
        it.send(request(f"/silent?{i}"))
        origin.wait_for(i + 1)
    for it in leaving:
        it.leave()
    time.sleep(0.2)
    for i in range(3):
        answer, seconds = timed(proxy.client(), f"/b?{i}")
        expect_answer(answer, 200, MISS, b"b")
        expect_within("the answer", 0, 1, seconds)
    expect("whether a link of one that left is closed", True, any(it.is_over.is_set() for it in origin.fetches[:8]))


def fall_silent(proxy, origin, target, first=0):
    """Three requests side by side, none of which is answered."""
    clients, before = [proxy.client() for _ in range(SILENT)], len(origin.fetches)
    for i, it in enumerate(clients):
        it.send(request(f"{target}?{first + i}"))
    origin.wait_for(before + SILENT)
    for it in clients:
        expect_refusal(it.response(), 504, "origin timed-out;fwd=uri-miss")


@scenario
def a_silent_origin_is_asked_by_one_at_a_time(stage):
    """Three exchanges in a row timed out. Then one request goes to the origin, and others are told 502 at once beside it, or are sent the
    stale page; when that one has timed out the next one goes. With its first answer the origin is asked by all again."""
    stage.lines = 1
    go = threading.Event()
    answers = {"/silent": silent, "/stale": whole(200, STALE, content=b"old"), "/late": held_back(go, whole(200, content=b"late"))}
    origin = stage.origin(Origin({**answers, "/b": whole(200, content=b"b")}))
    file = f"{stage.room.name}/figures"
    proxy = stage.proxy(options=[*IN_A_SECOND, "--stats", file])
    client = proxy.client()
    expect_answer(client.ask("/stale"), 200, "edge;fwd=uri-miss;ttl=0;stored", b"old")
    fall_silent(proxy, origin, "/silent")
    whose = {"origin": origin.address}
    figures_with(file, of("origin_silent", **whose), 1)
    probe = proxy.client()
    for i in range(2):
        probe.send(request(f"/silent?again-{i}"))
        origin.wait_for(1 + SILENT + i + 1)
        expect_refused(client, "/b")
        expect_stale(client, "/stale", b"old")
        expect_refusal(probe.response(), 504, "origin timed-out;fwd=uri-miss")
    expect("requests at the origin", 1 + SILENT + 2, len(origin.fetches))
    figures_with(file, of("origin_connections_refused_total", **whose, cause="silent"), 4)
    expect_answer(client.ask("/b"), 200, MISS, b"b")
    figures_with(file, of("origin_silent", **whose), 0)
    waiting = [proxy.client() for _ in range(5)]
    for i, it in enumerate(waiting):
        it.send(request(f"/late?{i}"))
    origin.wait_for(1 + SILENT + 2 + 1 + 5)
    go.set()
    for it in waiting:
        expect_answer(it.response(), 200, MISS, b"late")


@scenario
def a_silent_origin_is_asked_by_all_without_its_probe(stage):
    """`--origin-probe off`: behind three time-outs requests go to the origin side by side as before, and each waits its own time-out."""
    origin = stage.origin(Origin({"/silent": silent}))
    proxy = stage.proxy(options=[*IN_A_SECOND, "--origin-probe", "off"])
    for i in range(2):
        fall_silent(proxy, origin, "/silent", i * SILENT)
    expect("requests at the origin", 2 * SILENT, len(origin.fetches))


@scenario
def an_origin_that_was_down_is_asked_again(stage):
    """Nobody listens at the origin's address, for five requests; once it is up again the first request that comes is answered, and the
    others behind it."""
    stage.lines = range(2)
    down = Refusing()
    proxy = stage.proxy(down.address)
    client = proxy.client()
    for i in range(5):
        expect_refused(client, f"/b?{i}")
    down.close()
    stage.origin(Origin({"/b": whole(200, content=b"b")}, port=int(down.address.rpartition(":")[2])))
    for i in range(3):
        expect_answer(client.ask(f"/b?again-{i}"), 200, MISS, b"b")


@scenario
def an_answer_before_the_third_time_out_keeps_an_origin_open(stage):
    """Two requests timed out, one is answered, two more time out: these weren't three in a row, and two that come then go to the origin
    side by side."""
    origin = stage.origin(Origin({"/silent": silent, "/b": whole(200, content=b"b")}))
    proxy, asked = stage.proxy(options=IN_A_SECOND), 0
    for i in range(2):
        pair = [proxy.client() for _ in range(2)]
        for k, it in enumerate(pair):
            it.send(request(f"/silent?{i}-{k}"))
        asked += 2
        origin.wait_for(asked)
        for it in pair:
            expect_refusal(it.response(), 504, "origin timed-out;fwd=uri-miss")
        expect_answer(proxy.client().ask("/b"), 200, MISS, b"b")
        asked += 1
    expect("requests at the origin", asked, len(origin.fetches))
