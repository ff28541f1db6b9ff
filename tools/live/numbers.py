"""Scenarios of a server that has had many clients: what it tells them apart by goes on, and a reply goes to who asked."""
import socket
import struct
import threading

from live.client import PATIENCE, request
from live.expect import expect, expect_answer, expect_refusal
from live.origin import Origin, whole
from live.scenario import KEPT, scenario
from live.staying import STORED

# A number of 16 bits is one of so many. So many connections are open at a time.
NUMBERS, SIDE_BY_SIDE = 1 << 16, 100
# The first may wait for so many seconds: a program that is built with checks takes minutes for the others.
LONGEST = 600
LONG = ["--origin-timeout", str(LONGEST), "--exchange-timeout", str(LONGEST)]
# (reset, a connection leaves nothing behind in the system: its ports would run out)
RESET = struct.pack("ii", 1, 0)


def ask_and_go(proxy, count):
    """So many clients that each ask once for what is denied, wait for the answer and are gone."""
    text = request("/denied")
    for at in range(0, count, SIDE_BY_SIDE):
        ends = [socket.socket() for _ in range(min(SIDE_BY_SIDE, count - at))]
        for it in ends:
            it.settimeout(PATIENCE)
            it.connect(("127.0.0.1", proxy.port))
            it.send(text)
        for it in ends:
            expect("an answer's first bytes", b"HTTP/1.1 403 ", it.recv(4096)[:13])
            it.setsockopt(socket.SOL_SOCKET, socket.SO_LINGER, RESET)
            it.close()


@scenario
def a_reply_goes_to_who_asked_behind_many_others(stage):
    """The first client waits for its origin while 65,536 others ask and go: who comes then has its own answers, the first gets nothing
    of them, and at last what it asked for."""
    go, late = threading.Event(), whole(200, KEPT, content=b"late")
    # (it waits for as long as the others take)
    origin = stage.origin(Origin({"/late": lambda fetch: go.wait(LONGEST) and late(fetch), "/a": whole(200, KEPT, content=b"hello")}))
    proxy = stage.proxy(("/denied", ["*"], "deny"), ("/", ["GET"], origin.address), records=False, options=LONG)
    first = proxy.client()
    first.send(request("/late"))
    origin.wait_for(1)
    ask_and_go(proxy, NUMBERS - 3)
    # (of which one has the first's number where that has 16 bits)
    for _ in range(6):
        other = proxy.client()
        expect_refusal(other.ask("/denied"), 403, "denied by line 1")
    expect_answer(other.ask("/a"), 200, STORED, b"hello")
    expect("bytes for one whose answer hasn't come", True, first.has_nothing_to_read(0))
    go.set()
    expect_answer(first.response(), 200, STORED, b"late")
