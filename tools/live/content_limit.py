"""Scenarios of `--content-limit`: what is in progress and what clients haven't taken is bounded in all, and beyond that the end is lost
for which the most is held."""
import os
import time

from live.client import request
from live.contents import MAX_BODY, OF_A_CONNECTION, HeldBack, stuck_ends, wait_until_calm
from live.expect import Unexpected, expect, expect_answer, expect_within
from live.origin import Origin, head_of, raw, silent, whole
from live.scenario import AT_ONCE, KEPT, LATEST, scenario, timed
from live.staying import HIT, STORED

BOTH = {"max_body": 16 << 20, "max_stored": 16 << 20}
# Two pages, and a limit that holds three of the first and not one of the second beside them. (The system's own buffers take some 300,000
# bytes of each answer; of a record 16,777,216 are kept.)
MODEST, GREEDY, LIMIT = 6000000, 9000000, 20000000


def text_of(size):
    return (bytes(i * 7 % 251 for i in range(251)) * (size // 251 + 1))[:size]


def expect_the_slowest_reader_is_cut_off(stage, option):
    """Four clients take nothing of their answers. The one for whom the most is kept is cut off, and the others get all."""
    pages = {"/modest": text_of(MODEST), "/greedy": text_of(GREEDY)}
    stage.origin(Origin({it: whole(200, KEPT, content=text) for it, text in pages.items()}))
    proxy = stage.proxy(options=[option, str(LIMIT)], **BOTH)
    for it, text in pages.items():
        expect_answer(proxy.client().ask(it), 200, STORED, text)
    slow = [proxy.client(window=4096) for _ in range(4)]
    greedy, *modest = slow
    greedy.is_cut_off = True
    for it, target in zip(slow, ["/greedy"] + ["/modest"] * 3):
        it.send(request(target))
        it.read_some(1)
    time.sleep(1)
    answer, seconds = timed(proxy.client(), "/modest", method="HEAD")
    expect_answer(answer, 200, HIT, b"")
    expect_within("another client's answer", 0, AT_ONCE, seconds)
    for it in slow:
        it.open_window()
    greedy.drain()
    if len(greedy.received) >= GREEDY:
        raise Unexpected("for the client that leaves most unread", "a part of its answer", f"{len(greedy.received)} bytes")
    for it in modest:
        if it.response().content != pages["/modest"]:
            raise Unexpected("content", "as the origin sent it", "another one")
        expect_answer(it.ask("/modest", method="HEAD"), 200, HIT, b"")


@scenario
def the_client_that_leaves_most_unread_is_cut_off(stage):
    """`--content-limit`."""
    expect_the_slowest_reader_is_cut_off(stage, "--content-limit")


@scenario
def the_earlier_name_of_the_content_limit_holds(stage):
    """`--unsent-limit` is the same."""
    expect_the_slowest_reader_is_cut_off(stage, "--unsent-limit")


@scenario
def the_largest_upload_is_cut_off(stage):
    """Three uploads stop amid their contents, of 8, 4 and 5 million bytes, where 15 may be in progress: the first is cut off, its origin hears
    of none, and the others are whole when the rest of them has come."""
    origin = stage.origin(Origin({"/post": whole(201, content=b"made")}))
    proxy = stage.proxy(records=False, options=["--content-limit", "15000000"], **BOTH)
    first, *others = clients = [proxy.client() for _ in range(3)]
    for it, size in zip(clients, (8000000, 4000000, 5000000)):
        it.send(request("/post", f"Content-Length: {size + 1}", method="POST") + b"x" * size)
        time.sleep(0.5)
    deadline = time.monotonic() + LATEST
    while not first.has_ended and time.monotonic() < deadline:
        if not first.has_nothing_to_read(0.2):
            first.read_some()
    expect("whether the largest upload was cut off", True, first.has_ended)
    for it in others:
        it.send(b"x")
        expect_answer(it.response("POST"), 201, "edge;fwd=method", b"made")
    expect("contents at the origin", [4000001, 5000001], [len(it.content) for it in origin.fetches])


@scenario
def the_link_that_holds_the_most_is_lost(stage):
    """Of an answer 10 million bytes have come, and no more do; an upload beside it takes 4 million, where 12 may be in progress: the answer's
    link is closed, its client is told 502, and the upload is whole."""
    part = head_of(200, [KEPT, "Content-Length: 10000001"]) + b"x" * 10000000
    origin = stage.origin(Origin({"/part": raw(part, silent), "/post": whole(201, content=b"made")}))
    proxy = stage.proxy(records=False, options=["--content-limit", "12000000"], **BOTH)
    waiting, sending = proxy.client(), proxy.client()
    waiting.send(request("/part"))
    origin.wait_for(1)
    time.sleep(1)
    expect_answer(sending.ask("/post", method="POST", content=b"x" * 4000000), 201, "edge;fwd=method", b"made")
    answer = waiting.response()
    expect("status, and the reason's first word", (502, "origin"), (answer.status, (answer.value("Refusal") or "").partition(" ")[0]))
    expect("the link's end at the origin", True, origin.fetches[0].is_over.wait(LATEST))


@scenario
def what_is_held_stays_within_the_content_limit(stage):
    """Sixty whole uploads of a megabyte whose origin reads none of them, and of whose answers a byte is missing, where 20 million bytes may
    be in progress: the program takes no more than the room of these, and 16 KiB for each connection. Others are answered meanwhile."""
    limit, count = 20000000, 60
    # (room for a million bytes has grown to 2^20; the system's library gives back what is freed, where it is told so)
    most = limit * (1 << 20) // MAX_BODY + count * OF_A_CONNECTION + (2 << 20)
    environment = {**os.environ, "MALLOC_MMAP_THRESHOLD_": "131072"}
    held_back = stage.origin(HeldBack())
    origin = stage.origin(Origin({"/a": whole(200, KEPT, content=b"hello")}))
    lines = ("/a", ["*"], origin.address), ("/", ["*"], held_back.address)
    proxy = stage.proxy(*lines, records=False, max_body=MAX_BODY, options=["--content-limit", str(limit)], environment=environment)
    expect_answer(proxy.client().ask("/a"), 200, STORED, b"hello")
    before = proxy.resident()
    ends = stuck_ends(proxy, count)
    answer, seconds = timed(proxy.client(), "/a")
    expect_answer(answer, 200, HIT, b"hello")
    expect_within("another client's answer", 0, AT_ONCE, seconds)
    wait_until_calm(proxy)
    grown = proxy.memory("VmHWM:") - before
    for it in ends:
        it.close()
    if grown > most:
        raise Unexpected(f"for {count} uploads, of memory", f"at most {most} bytes", f"{grown} bytes")
