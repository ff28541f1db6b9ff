"""Scenarios of what memory keeps: nothing of a request's head, neither with what is stored nor with what is over; and of a want of it."""
import resource
import threading

from live.client import PATIENCE, request
from live.expect import Unexpected, expect, expect_answer
from live.origin import Origin, whole
from live.scenario import KEPT, scenario

# Bytes of a head and of a target, near the most of each.
HEAD, TARGET = 30000, 8000


def pad(target):
    """A line that makes the head of a request for this target so long."""
    return "Pad: " + "x" * (HEAD - len(request(target, "Pad: ")))


@scenario
def what_is_stored_keeps_no_head(stage):
    """A thousand responses are stored and held, each to a request with a head of 30,000 bytes: they take less than 4 MB."""
    stage.origin(Origin({f"/{i}": whole(200, KEPT, content=b"hello") for i in range(1100)}))
    client = (proxy := stage.proxy(capacity=2000)).client()
    for i in range(1100):
        if i == 100:
            before = proxy.resident()
        expect_answer(client.ask(f"/{i}", pad(f"/{i}")), 200, "edge;fwd=uri-miss;ttl=600;stored", b"hello")
    grown = proxy.resident() - before
    if grown > 4 << 20:
        raise Unexpected("of 1,000 responses of 5 bytes, to requests with heads of 30,000 bytes,", "less than 4 MB", f"{grown} bytes")
    for i in [0, 100, 1099]:
        expect_answer(client.ask(f"/{i}"), 200, "edge;hit;ttl=600", b"hello")
    # (the record ends at its 16,777,216 bytes, which is said)
    stage.is_cut, stage.lines = True, 1


@scenario
def what_is_over_keeps_no_head(stage):
    """Ever new queries, in targets of 8,000 bytes and heads of 30,000, whose answers aren't stored: two hundred of
    them that are over leave the memory as it was."""
    stage.origin(Origin({"/a": whole(200, "Cache-Control: no-store", content=b"hello")}))
    client = (proxy := stage.proxy()).client()
    for i in range(250):
        if i == 50:
            before = proxy.resident()
        target = f"/a?{i}&".ljust(TARGET, "q")
        expect_answer(client.ask(target, pad(target)), 200, "edge;fwd=uri-miss", b"hello")
    grown = proxy.resident() - before
    if grown > 1 << 20:
        raise Unexpected("of 200 misses that aren't stored, with heads of 30,000 bytes,", "no memory", f"{grown} bytes")


@scenario
def a_turn_without_memory_is_done_later(stage):
    """A process that gets no more memory says so once; the upload that wanted some goes on where there is memory again."""
    stage.origin(Origin({"/a": whole(201, content=b"made")}))
    proxy = stage.proxy(records=False)
    client = proxy.client()
    expect("status", 201, client.ask("/a", method="POST", content=b"x").status)
    proxy.limit_memory(proxy.reserved())
    content = b"y" * 900_000
    sender = threading.Thread(target=client.send, args=[request("/a", method="POST", content=content)], daemon=True)
    sender.start()
    expect("a line on standard error in time", True, proxy.has_said(PATIENCE))
    proxy.limit_memory(resource.RLIM_INFINITY)
    sender.join(PATIENCE)
    expect("status", 201, client.response().status)
    expect("the content at the origin", content, stage.origins[0].fetches[1].content)
    proxy.process.terminate()
    said = "warning: no memory is left for the turn; nothing that was read is lost, and what is left undone is done in a later turn\n"
    expect("on standard error", said, proxy.wait()[2])
