"""Scenarios of a server that stays, and of clients that do: an idle one keeps its connection, costs nobody anything, and is served when it
asks again. Where all connections are open the longest idle one gives its own to a new one."""
import os
import socket
import threading
import time

from live.client import PATIENCE, request
from live.expect import Unexpected, expect, expect_answer, expect_within
from live.logs import address_of, lines_of
from live.origin import Origin, held_back, whole
from live.scenario import AT_ONCE, KEPT, LATEST, scenario, timed

STORED, HIT = "edge;fwd=uri-miss;ttl=600;stored", "edge;hit;ttl=600"
# A pause in which a client counts as idle for long, and the longest that a new one waits where the others came in its very millisecond.
PAUSE, SOON = 2.5, 2


def kept_by(stage, content=b"hello", **more):
    """A proxy before an origin whose one answer may be kept."""
    stage.origin(Origin({"/a": whole(200, KEPT, content=content)}))
    return stage.proxy(**more)


def ended(clients):
    """Those whose connection the proxy has ended."""
    for it in clients:
        it.settle()
    return [it for it in clients if it.has_ended]


@scenario
def it_stays_without_turns(stage):
    """A server that is given no turns is there still when a few seconds have gone by, idle and asked."""
    proxy = kept_by(stage)
    for member in (STORED, HIT, HIT):
        expect_answer(proxy.client().ask("/a"), 200, member, b"hello")
        time.sleep(1)
    expect("the program's status", None, proxy.process.poll())


@scenario
def a_client_has_one_number(stage):
    """A record has one `accept` of a client, however long it is idle between its requests, and one `gone` where it breaks off, or one `end`
    where it ends in order. (Each scenario's record is replayed, and has the bytes that its clients got.)"""
    proxy = kept_by(stage)
    first, second, third = (proxy.client() for _ in range(3))
    expect_answer(first.ask("/a"), 200, STORED, b"hello")
    for i in range(3):
        time.sleep(PAUSE)
        for it in (first, second, third):
            answer, seconds = timed(it, "/a", method="HEAD" if i == 1 else "GET")
            expect_answer(answer, 200, HIT, b"" if i == 1 else b"hello")
            expect_within("the answer", 0, AT_ONCE, seconds)
    told = lambda: [proxy.happened(it) for it in ("accept", "gone", "end")]  # noqa: E731
    expect("numbers that were accepted, are gone and have ended", [[1, 2, 3], [], []], told())
    second.leave(reset=True)
    proxy.wait_until_happened("gone", 1)
    third.leave()
    proxy.wait_until_happened("end", 1)
    for it in (first, proxy.client()):
        expect_answer(it.ask("/a"), 200, HIT, b"hello")
    expect("numbers that were accepted, are gone and have ended", [[1, 2, 3, 4], [2], [3]], told())


@scenario
def an_idle_client_is_let_go_in_time(stage):
    """The clients' time-out counts from the last byte, and whether a byte ever came."""
    proxy = kept_by(stage, options=["--client-timeout", "3"])
    began = time.monotonic()
    silent, idle, busy = proxy.client(), proxy.client(), proxy.client()
    expect_answer(idle.ask("/a"), 200, STORED, b"hello")
    while time.monotonic() - began < 4:
        expect_answer(busy.ask("/a"), 200, HIT, b"hello")
        time.sleep(1.5)
    for it in (silent, idle):
        expect("the idle connection closed", True, it.is_closed())
        expect_within("the idle connection's end", 3, LATEST, time.monotonic() - began)
    expect_answer(busy.ask("/a"), 200, HIT, b"hello")


@scenario
def three_hundred_idle_clients_and_an_honest_one(stage):
    """Half of the 300 never asked: another one is answered at once, and so are they all."""
    proxy = kept_by(stage)
    expect_answer(proxy.client().ask("/a"), 200, STORED, b"hello")
    idle = [proxy.client() for _ in range(300)]
    for it in idle[::2]:
        expect_answer(it.ask("/a"), 200, HIT, b"hello")
    for i in range(20):
        client = proxy.client()
        for answer, seconds in (timed(client, "/a"), timed(client, "/a")):
            expect_answer(answer, 200, HIT, b"hello")
            expect_within("an honest client's answer", 0, AT_ONCE, seconds)
        time.sleep(0.1)
    for it in idle:
        expect_answer(it.ask("/a"), 200, HIT, b"hello")


@scenario
def three_hundred_clients_come_back_at_once(stage):
    """All of them were idle, and then ask in one moment: each has its answers."""
    proxy = kept_by(stage)
    clients = [proxy.client() for _ in range(300)]
    for i, it in enumerate(clients):
        expect_answer(it.ask("/a"), 200, HIT if i else STORED, b"hello")
    time.sleep(PAUSE)
    for _ in range(2):
        for it in clients:
            it.send(request("/a") * 2)
        for it in [*clients, *clients]:
            expect_answer(it.response(), 200, HIT, b"hello")


@scenario
def a_slow_client_takes_the_rest_of_its_answer(stage):
    """A client that reads slowly keeps its connection while bytes wait for it, and gets them all."""
    # (more than the system's buffers hold)
    text = bytes(i * 7 % 251 for i in range(12000000))
    proxy = kept_by(stage, text, max_body=16 << 20, max_stored=16 << 20)
    slow = proxy.client(window=8192)
    slow.send(request("/a"))
    time.sleep(PAUSE)
    slow.open_window()
    if slow.response().content != text:
        raise Unexpected("content", "as the origin sent it", "another one")
    expect_answer(slow.ask("/a", method="HEAD"), 200, HIT, b"")


@scenario
def a_client_that_takes_nothing_is_let_go(stage):
    """The clients' time-out ends a connection whose bytes nobody takes."""
    text = bytes(i * 7 % 251 for i in range(8000000))
    proxy = kept_by(stage, text, max_body=16 << 20, max_stored=16 << 20, options=["--client-timeout", "3"])
    before = proxy.descriptors()
    stuck, began = proxy.client(window=4096), time.monotonic()
    stuck.is_cut_off = True
    stuck.send(request("/a"))
    stuck.read_some(1)
    proxy.wait_until_happened("gone", 1, 3 * LATEST)
    expect_within("its end", 2, 3 * LATEST, time.monotonic() - began)
    time.sleep(0.2)
    expect("descriptors behind it", before, proxy.descriptors())
    stuck.open_window()
    stuck.drain()
    if len(stuck.received) >= len(text):
        raise Unexpected("for a client that takes nothing", "a part of its answer", f"{len(stuck.received)} bytes")


@scenario
def a_client_has_its_address_in_the_log(stage):
    """A line of the log names its client by address and port, also behind a pause."""
    log = f"{stage.room.name}/log"
    proxy = kept_by(stage, options=["--log", log])
    clients = [proxy.client() for _ in range(3)]
    for i in range(2):
        for it in clients:
            expect_answer(it.ask("/a"), 200, STORED if it is clients[0] and not i else HIT, b"hello")
        time.sleep(PAUSE)
    told = [it[1] for it in lines_of(log, 6)]
    expect("addresses in the log", [address_of(it) for it in clients] * 2, told)


@scenario
def a_request_comes_in_pieces_behind_a_pause(stage):
    """A head byte by byte, with a pause in it, and a content in pieces behind another one."""
    origin = stage.origin(Origin({"/a": whole(200, KEPT, content=b"hello"), "/post": whole(201, content=b"made")}))
    proxy = stage.proxy()
    client = proxy.client()
    expect_answer(client.ask("/a"), 200, STORED, b"hello")
    time.sleep(PAUSE)
    head = request("/a")
    client.send_slowly(head[:10])
    time.sleep(PAUSE)
    client.send_slowly(head[10:])
    expect_answer(client.response(), 200, HIT, b"hello")
    time.sleep(PAUSE)
    text = request("/post", method="POST", content=b"x" * 3000)
    for piece in (text[:60], text[60:1000], text[1000:-1]):
        client.send(piece)
        time.sleep(0.8)
    client.send(text[-1:])
    expect_answer(client.response("POST"), 201, "edge;fwd=method", b"made")
    expect("content at the origin", b"x" * 3000, origin.fetches[1].content)
    expect("numbers", [1], proxy.happened("accept"))


@scenario
def pipelined_requests_around_pauses(stage):
    """Several requests at once from a client that was idle, one of them in two halves with a pause between: all are answered in their
    order."""
    names = [f"/{it}" for it in "abcde"]
    stage.origin(Origin({it: whole(200, KEPT, content=it.encode() * 1000) for it in names}))
    client = stage.proxy().client()
    for i in range(3):
        client.send(b"".join(map(request, names)) + request("/a")[:20])
        for it in names:
            expect_answer(client.response(), 200, HIT if i else STORED, it.encode() * 1000)
        time.sleep(1.5)
        client.send(request("/a")[20:] + request("/b"))
        expect_answer(client.response(), 200, HIT, b"/a" * 1000)
        expect_answer(client.response(), 200, HIT, b"/b" * 1000)
        time.sleep(PAUSE)


@scenario
def an_idle_client_that_ends_is_let_go(stage):
    """Clients that close while they are idle leave nothing behind: no descriptor is kept for them."""
    proxy = kept_by(stage)
    expect_answer(proxy.client().ask("/a"), 200, STORED, b"hello")
    time.sleep(0.5)
    before = proxy.descriptors()
    for reset in (False, True):
        clients = [proxy.client() for _ in range(50)]
        for it in clients[::2]:
            expect_answer(it.ask("/a"), 200, HIT, b"hello")
        time.sleep(PAUSE)
        for it in clients:
            it.leave(reset)
        deadline = time.monotonic() + LATEST
        while proxy.descriptors() > before and time.monotonic() < deadline:
            time.sleep(0.1)
        expect("descriptors behind fifty clients", before, proxy.descriptors())


@scenario
def a_half_closed_client_behind_a_pause(stage):
    """RFC 9112, 9.6: one that comes back with its last request and its end is answered, and then closed."""
    client = kept_by(stage).client()
    expect_answer(client.ask("/a"), 200, STORED, b"hello")
    time.sleep(PAUSE)
    client.send(request("/a") * 2)
    client.half_close()
    for _ in range(2):
        expect_answer(client.response(), 200, HIT, b"hello")
    expect("the connection closed", True, client.is_closed())


@scenario
def the_longest_idle_gives_its_connection(stage):
    """`--connections 4`: where all are open and one more comes, the one that has been between two requests for longest is closed for it,
    whoever came first, and the others aren't."""
    proxy = kept_by(stage, options=["--connections", "4"])
    clients = [proxy.client() for _ in range(4)]
    for i, it in enumerate([*clients, clients[0]]):
        expect_answer(it.ask("/a"), 200, HIT if i else STORED, b"hello")
        # (who was idle for longest is told by milliseconds)
        time.sleep(0.05)
    for longest in (1, 2, 3, 0):
        new = proxy.client()
        answer, seconds = timed(new, "/a")
        expect_answer(answer, 200, HIT, b"hello")
        expect_within("a new client's answer", 0, AT_ONCE, seconds)
        expect("whether the longest idle one is closed", True, clients[longest].is_closed(LATEST))
        clients.append(new)
        expect("connections that gave way", clients.index(new) - 3, len(ended(clients)))
        time.sleep(0.05)
    for it in clients[4:]:
        expect_answer(it.ask("/a"), 200, HIT, b"hello")


@scenario
def ten_of_fifty_idle_ones_give_their_connections(stage):
    """`--connections 50`: the ten that come when fifty are idle take the connections of ten that have been for longest. Whoever comes then
    is answered at once, and the others still are."""
    proxy = kept_by(stage, options=["--connections", "50"])
    first = [proxy.client() for _ in range(25)]
    for i, it in enumerate(first):
        expect_answer(it.ask("/a"), 200, HIT if i else STORED, b"hello")
    time.sleep(0.1)
    second = [proxy.client() for _ in range(25)]
    for it in second:
        expect_answer(it.ask("/a"), 200, HIT, b"hello")
    new = [proxy.client() for _ in range(10)]
    for it in new:
        answer, seconds = timed(it, "/a")
        expect_answer(answer, 200, HIT, b"hello")
        expect_within("a new client's answer", 0, AT_ONCE, seconds)
    closed = ended(first)
    expect("connections that gave way", 10, len(closed))
    for it in [*new, *second, *(it for it in first if it not in closed)]:
        expect_answer(it.ask("/a"), 200, HIT, b"hello")


@scenario
def where_descriptors_are_few_fewer_connections_are_taken(stage):
    """A process that may have 100 descriptors takes fewer clients than `--connections` says, which is warned of. 80 that stay are served all
    the same, one after the other: the longest idle give their connections."""
    stage.lines = 1
    script = f"{stage.room.name}/few"
    with open(script, "w", encoding="utf-8") as it:
        it.write(f'#!/bin/sh\nulimit -n 100\nexec "{stage.program}" "$@"\n')
    os.chmod(script, 0o755)
    stage.program = script
    proxy = kept_by(stage)
    clients = [proxy.client() for _ in range(40)]
    for i in range(80):
        if i >= 40:
            clients.append(proxy.client())
        answer, seconds = timed(clients[i], "/a")
        expect_answer(answer, 200, HIT if i else STORED, b"hello")
        expect_within("its answer", 0, AT_ONCE, seconds)
    expect_within("connections that gave way", 1, 60, len(ended(clients)))


@scenario
def connections_that_wait_keep_theirs(stage):
    """`--connections 5`, all of which wait for their origin: none gives way, and the next one is served when they have been."""
    go = threading.Event()
    late = held_back(go, whole(200, "Cache-Control: no-store", content=b"late"))
    origin = stage.origin(Origin({"/a": whole(200, KEPT, content=b"hello"), "/late": late}))
    # (it warns that new ones wait)
    stage.lines = 1
    proxy = stage.proxy(options=["--connections", "5"])
    busy = [proxy.client() for _ in range(5)]
    for i, it in enumerate(busy):
        it.send(request(f"/late?{i}"))
    origin.wait_for(5)
    last = proxy.client()
    last.send(request("/a"))
    expect("an answer while five are served", False, not last.has_nothing_to_read(2.5))
    go.set()
    for it in busy:
        expect_answer(it.response(), 200, "edge;fwd=uri-miss", b"late")
    expect_answer(last.response(), 200, STORED, b"hello")


@scenario
def silent_connections_keep_nobody_out(stage):
    """`--connections 50`, and sixty clients that connect and never say a word, and then twenty more three times: each time another
    one is answered soon, and as many give way as are too many."""
    # (who came in this very millisecond stays: then new ones wait for the next second, which may be warned of)
    stage.lines = range(2)
    proxy = kept_by(stage, options=["--connections", "50"])
    crowd = []
    for i in range(4):
        crowd += [proxy.client() for _ in range(60 if i == 0 else 20)]
        answer, seconds = timed(proxy.client(), "/a")
        expect_answer(answer, 200, HIT if i else STORED, b"hello")
        expect_within("an honest client's answer", 0, SOON, seconds)
    # (of the four that asked the first two may have gone with those that were there before them)
    expect_within("connections that gave way", 72, 74, len(ended(crowd)))


@scenario
def ten_thousand_connections_one_after_another(stage):
    """Half of them are closed by the server, half by the client. Memory is held for what is open alone."""
    proxy = kept_by(stage, records=False)
    for i in range(10000):
        if i == 2000:
            before = proxy.resident()
        ask_and_leave(proxy.port, i % 2 == 0)
    grown = proxy.resident() - before
    if grown > 2 << 20:
        raise Unexpected("of 8,000 connections that are over", "no memory", f"{grown} bytes")


def ask_and_leave(port, says_close):
    """One request over a connection of its own, whose answer is read whole."""
    with socket.create_connection(("127.0.0.1", port), timeout=PATIENCE) as it:
        it.sendall(request("/a", *["Connection: close"] if says_close else []))
        text = b""
        while not text.endswith(b"hello") and (data := it.recv(65536)):
            text += data
        expect("the end of the answer", b"hello", text[-5:])
        if says_close:
            expect("the connection's end", b"", it.recv(1))
