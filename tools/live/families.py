"""Scenarios of the families of figures that no other one looks at: each is filled, and its number looked at; and each family of a page is named
by some scenario."""
import glob
import os
import re
import resource
import socket
import threading
import time

from live.client import request
from live.ending import DRAINED
from live.expect import Unexpected, expect, expect_answer, expect_within
from live.figures import expect_samples, figures_with, of, read
from live.origin import Origin, held_back, raw, whole
from live.programs import run
from live.scenario import KEPT, LATEST, scenario
from live.staying import STORED

FAMILY = re.compile(r"# TYPE (\w+) (\w+)")
# An answer as it is sent.
RAW = b"HTTP/1.1 200 OK\r\nContent-Length: 5\r\n\r\nhello"
# What stands behind the name of a histogram's samples.
PARTS = ("_bucket", "_sum", "_count")


def families_of(path):
    with open(path, encoding="ascii") as it:
        return [it[1] for it in map(FAMILY.match, it) if it]


@scenario
def each_family_of_figures_has_a_scenario(stage):
    """The name of each family that a page has, without `revcache_` in front, stands in some scenario as a text of its own."""
    stage.origin(Origin({"/a": whole(200, KEPT, content=b"hello")}))
    file = f"{stage.room.name}/figures"
    stage.proxy(options=["--stats", file]).client().ask("/a")
    texts = ""
    for path in glob.glob(f"{os.path.dirname(os.path.realpath(__file__))}/*.py"):
        with open(path, encoding="utf-8") as it:
            texts += it.read()
    words = set(re.findall('"([a-z_]+)"', texts))
    names = [it.removeprefix("revcache_") for it in families_of(file)]
    expect("families without a scenario", [], [it for it in names if not words & {it, f"revcache_{it}", *(it + part for part in PARTS)}])


@scenario
def figures_of_the_program_and_its_process(stage):
    """What it is, and what the system tells of it."""
    file = f"{stage.room.name}/figures"
    stage.origin(Origin({"/a": whole(200, KEPT, content=b"hello")}))
    proxy = stage.proxy(options=["--stats", file])
    client = proxy.client()
    client.ask("/a")
    version, _, commit = run(stage, "--version")[1].strip().removeprefix("revcache ").partition(" ")
    figures_with(file, of("stored_responses_total"), 1)
    time.sleep(1.5)
    samples = read(file)
    expect_samples(samples, {of("build_info", version=version, commit=commit.strip("()")): 1})
    expect_within("resident memory", 0.5 * proxy.resident(), 2 * proxy.resident(), samples["process_resident_memory_bytes"])
    expect_within("virtual memory", 0.5 * proxy.reserved(), 2 * proxy.reserved(), samples["process_virtual_memory_bytes"])
    expect_within("processor seconds", 0, proxy.processor_seconds(), samples["process_cpu_seconds_total"])
    expect_within("the start", time.time() - 120, time.time(), samples["process_start_time_seconds"])
    soft = resource.prlimit(proxy.process.pid, resource.RLIMIT_NOFILE)[0]
    expect("descriptors that may be open", soft, samples["process_max_fds"])
    if "process_open_fds" in samples:
        # (the folder in which they are counted isn't open then)
        expect_within("open descriptors", proxy.descriptors() - 1, proxy.descriptors() + 1, samples["process_open_fds"])
    turns = samples[of("turns_total")]
    client.ask("/a")
    time.sleep(1.5)
    expect("that turns rise", True, read(file)[of("turns_total")] > turns > 0)
    expect_samples(samples, {of("turns_cut_total", cause="listener"): 0, of("turns_cut_total", cause="memory"): 0})


@scenario
def figures_of_an_end(stage):
    """A drain is told in the last page."""
    stage.origin(Origin({"/a": whole(200, KEPT, content=b"hello")}))
    file, drain = f"{stage.room.name}/figures", f"{stage.room.name}/drain"
    proxy = stage.proxy(options=["--stats", file, "--drain", drain])
    expect_answer(proxy.client().ask("/a"), 200, STORED, b"hello")
    expect_samples(read(file), {of("draining"): 0})
    with open(drain, "wb"):
        pass
    expect("its end", DRAINED, proxy.wait())
    expect_samples(read(file), {of("draining"): 1})


@scenario
def figures_of_who_waits_and_of_origins(stage):
    """Three ask for what one origin sends late: two waited for the first one's answer. How long that took, and what came of it."""
    go = threading.Event()
    origin = stage.origin(Origin({"/a": held_back(go, whole(200, KEPT, content=b"hello")), "/raw": raw(RAW)}))
    file = f"{stage.room.name}/figures"
    proxy = stage.proxy(options=["--stats", file])
    clients = [proxy.client() for _ in range(3)]
    clients[0].send(request("/a"))
    origin.wait_for(1)
    for it in clients[1:]:
        it.send(request("/a"))
    time.sleep(0.7)
    go.set()
    for it in clients:
        expect("the status", 200, it.response().status)
    whose = {"origin": origin.address}
    samples = figures_with(file, of("origin_exchange_duration_seconds_count", **whose), 1)
    expect_samples(samples, {of("collapsed_requests_total"): 2})
    seconds = samples[of("origin_exchange_duration_seconds_sum", **whose)]
    expect_within("seconds of the exchange", 0.6, LATEST, seconds)
    expect("the same as a count", seconds, samples[of("origin_exchange_seconds_total", **whose)])
    within = {le: samples[of("origin_exchange_duration_seconds_bucket", **whose, le=le)] for le in ("0.5", "+Inf")}
    expect("exchanges within half a second, and all", {"0.5": 0, "+Inf": 1}, within)
    sums = {it: samples[of("request_duration_seconds_sum", source=it)] for it in ("store", "origin", "proxy")}
    expect_within("seconds of the origin's reply", 0.6, LATEST, sums["origin"])
    expect_within("seconds of those that waited", 1.2, 2 * LATEST, sums["store"])
    expect("seconds of refusals", 0, sums["proxy"])
    before = samples[of("origin_received_bytes_total", **whose)]
    clients[0].ask("/raw")
    samples = figures_with(file, of("origin_exchanges_total", **whose), 2)
    expect("bytes of an answer", len(RAW), samples[of("origin_received_bytes_total", **whose)] - before)


@scenario
def figures_of_what_is_not_stored_and_goes(stage):
    """A line that explains: each answer that isn't stored counts by its rule. A response that goes for another one counts with the seconds for
    which it had been stored."""
    answers = {"/private": whole(200, "Cache-Control: private", content=b"x"), "/none": whole(200, content=b"x")}
    kept = whole(200, KEPT, content=b"hello")
    origin = stage.origin(Origin({**answers, "/a": kept, "/b": kept}))
    file = f"{stage.room.name}/figures"
    line = ("/", ["GET"], origin.address, {"explain": "storing"})
    client = stage.proxy(line, version=3, capacity=1, options=["--stats", file]).client()
    for target in ("/private", "/private", "/none", "/a"):
        client.ask(target)
    samples = figures_with(file, of("stored_responses_total"), 1)
    expect_samples(samples, {of("not_stored_responses_total", rule="private"): 2, of("not_stored_responses_total", rule="no-lifetime"): 1})
    expect_samples(samples, {of("store_evicted_seconds_total"): 0})
    time.sleep(2)
    client.ask("/b")
    samples = figures_with(file, of("store_evictions_total"), 1)
    expect_within("seconds for which it had been stored", 1, LATEST, samples[of("store_evicted_seconds_total")])


@scenario
def figures_of_rooms_and_bounds(stage):
    """Who is idle gives way, who finds no room is counted, and what is held is told with its bounds."""
    text, stage.lines = b"y" * 4000000, 1
    stage.origin(Origin({"/a": whole(200, KEPT, content=b"hello"), "/large": whole(200, KEPT, content=text)}))
    file = f"{stage.room.name}/figures"
    both = {"max_body": 16 << 20, "max_stored": 16 << 20}
    proxy = stage.proxy(options=["--stats", file, "--connections", "2", "--content-limit", "20000000"], **both)
    first, second = proxy.client(), proxy.client(window=4096)
    expect_answer(first.ask("/a"), 200, STORED, b"hello")
    second.send(request("/large"))
    second.read_some(1)
    samples = figures_with(file, of("stored_responses_total"), 2)
    time.sleep(1.5)
    samples = read(file)
    expect_samples(samples, {of("connections_limit"): 2, of("content_limit_bytes"): 20000000})
    expect_within("bytes that wait for a client", 1, len(text) + 1000, samples[of("client_unsent_bytes")])
    expect_within("bytes that are held", samples[of("client_unsent_bytes")], 2 * len(text), samples[of("content_bytes")])
    first.is_cut_off = True
    third = proxy.client()
    expect_answer(third.ask("/a"), 200, "edge;hit;ttl=600", b"hello")
    figures_with(file, of("connections_cut_total", cause="room"), 1)
    second.open_window()
    if second.response().content != text:
        raise Unexpected("content", "as it was stored", "another one")
    for it in (second, third):
        it.send(b"GET /part")
    figures_with(file, of("client_received_bytes_total"), sum(len(it.sent) for it in (first, second, third)))
    fourth = socket.create_connection(("127.0.0.1", proxy.port))
    deadline = time.monotonic() + LATEST
    while read(file)[of("connections_refused_total", cause="full")] == 0:
        if time.monotonic() > deadline:
            raise Unexpected("looks that could take nobody", "at least 1", 0)
        time.sleep(0.1)
    fourth.close()
    expect_samples(figures_with(file, of("client_unsent_bytes"), 0), {of("links_without_descriptor_total"): 0, of("links_without_port_total"): 0})
