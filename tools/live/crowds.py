"""Scenarios of many connections, and of clients that read or send slowly beside others."""
import threading
import time

from live.asking import asked
from live.attackers import Attackers
from live.busy_origin import ANSWER
from live.client import request
from live.expect import Unexpected, expect, expect_answer, expect_member, expect_within
from live.origin import Origin, held_back, silent, whole
from live.scenario import AT_ONCE, KEPT, LATEST, scenario, timed

# Requests and connections side by side: more than a small server would serve at a time.
CROWD = 300
# Clients that stay and ask for nothing more, and the bytes of memory that each may take.
IDLE, MOST_OF_AN_IDLE_CLIENT = 700, 3000
# The most bytes that are kept for an end that doesn't read.
MOST_UNSENT = 64 << 20


@scenario
def a_slow_reader_stops_nobody(stage):
    """A client asks for 130 MB and reads nothing. Others are answered at once, what is kept for it is bounded, and it
    gets every byte once it reads."""
    text = bytes(i * 7 % 251 for i in range(65536))
    stage.origin(Origin({"/a": whole(200, KEPT, content=text)}))
    proxy = stage.proxy()
    proxy.client().ask("/a")
    before, slow = proxy.resident(), proxy.client()
    slow.send(request("/a") * 2000)
    for _ in range(20):
        answer, seconds = timed(proxy.client(), "/a")
        expect_answer(answer, 200, "edge;hit;ttl=600", text)
        expect_within("another client's answer", 0, AT_ONCE, seconds)
        time.sleep(0.02)
    grown = proxy.resident() - before
    if grown > MOST_UNSENT + (32 << 20):
        raise Unexpected("memory kept for a slow reader", f"about {MOST_UNSENT} bytes at most", f"{grown} bytes")
    for _ in range(2000):
        if slow.response().content != text:
            raise Unexpected("content", "as it was stored", "another one")


@scenario
def a_slow_origin_stops_nobody(stage):
    """Of two exchanges the later may be answered first: each connection waits for its own origin alone."""
    go = threading.Event()
    origin = stage.origin(Origin({f"/{i}": lambda fetch: (go.wait(LATEST), whole(200, content=b"late")(fetch)) for i in range(50)}))
    origin.answers["/a"] = whole(200, content=b"soon")
    proxy = stage.proxy()
    waiting = [proxy.client() for _ in range(50)]
    for i, it in enumerate(waiting):
        it.send(request(f"/{i}"))
    origin.wait_for(50)
    answer, seconds = timed(proxy.client(), "/a")
    expect_answer(answer, 200, "edge;fwd=uri-miss", b"soon")
    expect_within("another client's answer", 0, AT_ONCE, seconds)
    go.set()
    for it in waiting:
        expect_answer(it.response(), 200, "edge;fwd=uri-miss", b"late")


@scenario
def hundreds_that_wait_keep_nobody_waiting(stage):
    """300 requests are with their origin at a time. What is stored is answered at once meanwhile, and what isn't goes to the same origin; at
    last each of the 300 has its answer."""
    go = threading.Event()
    late = held_back(go, whole(200, "Cache-Control: no-store", content=b"late"))
    origin = stage.origin(Origin({"/a": whole(200, KEPT, content=b"hello"), "/b": whole(200, content=b"soon"), "/late": late}))
    proxy = stage.proxy()
    proxy.client().ask("/a")
    busy = [proxy.client() for _ in range(CROWD)]
    for i, it in enumerate(busy):
        it.send(request(f"/late?{i}"))
    origin.wait_for(CROWD + 1)
    for target, member, content in (("/a", "edge;hit;ttl=600", b"hello"), ("/b", "edge;fwd=uri-miss", b"soon")):
        answer, seconds = timed(proxy.client(), target)
        expect_answer(answer, 200, member, content)
        expect_within("an answer beside them", 0, AT_ONCE, seconds)
    go.set()
    for it in busy:
        expect_answer(it.response(), 200, "edge;fwd=uri-miss", b"late")


@scenario
def idle_clients_keep_nobody_out(stage):
    """300 connections that send nothing cost no other client its answer, and are served when they ask."""
    stage.origin(Origin({"/a": whole(200, KEPT, content=b"hello")}))
    proxy = stage.proxy()
    idle = [proxy.client() for _ in range(CROWD)]
    answer, seconds = timed(proxy.client(), "/a")
    expect_answer(answer, 200, "edge;fwd=uri-miss;ttl=600;stored", b"hello")
    expect_within("the answer", 0, AT_ONCE, seconds)
    for it in idle:
        expect_answer(it.ask("/a"), 200, "edge;hit;ttl=600", b"hello")


@scenario
def idle_clients_cost_little(stage):
    """700 clients ask once and stay. Each takes at most 3,000 bytes: the room for its next read, 4,096 bytes, is given back. All of them
    are served when they ask again."""
    stage.origin(Origin({"/a": whole(200, KEPT, content=b"hello")}))
    proxy = stage.proxy()
    for _ in range(50):
        proxy.client().ask("/a")
    before = proxy.resident()
    idle = [proxy.client() for _ in range(IDLE)]
    for it in idle:
        expect_answer(it.ask("/a"), 200, "edge;hit;ttl=600", b"hello")
    time.sleep(1)
    each = (proxy.resident() - before) / IDLE
    if each > MOST_OF_AN_IDLE_CLIENT:
        raise Unexpected("memory for an idle client", f"{MOST_OF_AN_IDLE_CLIENT} bytes at most", f"{each:.0f} bytes")
    for it in idle:
        expect_answer(it.ask("/a"), 200, "edge;hit;ttl=600", b"hello")


@scenario
def many_clients_at_a_time(stage):
    """Thirty clients ask side by side, for their own and for shared targets; each gets what it asked for, in order."""
    names = [f"/{i}" for i in range(20)]
    stage.origin(Origin({it: whole(200, KEPT, content=it.encode() * 500) for it in names}))
    proxy = stage.proxy()
    for it in names:
        proxy.client().ask(it)
    faults = []

    def ask_around(start):
        try:
            client = proxy.client()
            for i in range(40):
                target = names[(start + i * 7) % len(names)]
                if i % 10 == 9:
                    expect_member("edge;fwd=method", client.ask(target + "?x", method="POST", content=b"x" * i * 100))
                else:
                    expect_answer(client.ask(target), 200, "edge;hit;ttl=600", target.encode() * 500)
        except Exception as fault:
            faults.append(fault)

    threads = [threading.Thread(target=ask_around, args=[i]) for i in range(30)]
    for it in threads:
        it.start()
    for it in threads:
        it.join()
    if faults:
        raise faults[0]


@scenario
def an_idle_server_does_nothing(stage):
    """Nobody makes the server spin: idle clients, half a request, a client that went away or ended its input while its
    origin is silent, and one that doesn't read."""
    text = b"x" * 100000
    origin = stage.origin(Origin({"/a": whole(200, KEPT, content=text), "/silent": silent}))
    proxy = stage.proxy()
    proxy.client().ask("/a")
    for _ in range(50):
        proxy.client()
    half, slow, gone, ended = (proxy.client() for _ in range(4))
    half.send(request("/a")[:10])
    slow.send(request("/a") * 100)
    gone.send(request("/silent?1"))
    ended.send(request("/silent?2"))
    origin.wait_for(3)
    ended.half_close()
    gone.leave()
    time.sleep(0.5)
    before = proxy.processor_seconds()
    time.sleep(2)
    expect_within("of two idle seconds the processor time", 0, 0.2, proxy.processor_seconds() - before)
    slow.leave(reset=True)


@scenario
def descriptors_run_out(stage):
    """Where the system gives no more descriptors, idle connections give way. Where none is idle further ones wait in the queue,
    the server doesn't spin, says so once, and when those that are open have been answered the others' turn comes."""
    stage.lines = 1
    go = threading.Event()
    late = held_back(go, whole(200, KEPT, content=b"late"))
    origin = stage.origin(Origin({"/a": whole(200, KEPT, content=b"hello"), "/late": late}))
    proxy = stage.proxy()
    proxy.client().ask("/a")
    proxy.limit_descriptors(30)
    idle = [proxy.client() for _ in range(40)]
    expect_answer(idle[-1].ask("/a"), 200, "edge;hit;ttl=600", b"hello")
    for it in idle[20:]:
        it.leave()
    time.sleep(0.5)
    waiting = [proxy.client()]
    waiting[0].send(request("/late"))
    origin.wait_for(2)
    for _ in range(40):
        waiting.append(proxy.client())
        waiting[-1].send(request("/late"))
        time.sleep(0.05)
    last = proxy.client()
    last.send(request("/a"))
    time.sleep(1.5)
    before = proxy.processor_seconds()
    expect("an answer where no descriptor is left", False, not last.has_nothing_to_read(2))
    expect_within("of two seconds without a descriptor the processor time", 0, 0.5, proxy.processor_seconds() - before)
    go.set()
    for it in waiting:
        expect("status", 200, it.response().status)
    expect_answer(last.response(), 200, "edge;hit;ttl=600", b"hello")


@scenario
def connections_come_and_go(stage):
    """A thousand connections, one after the other, each with a request; memory is held for what is open alone."""
    stage.origin(Origin({"/a": whole(200, KEPT, content=b"hello")}))
    proxy = stage.proxy()
    proxy.client().ask("/a")
    for i in range(1000):
        client = proxy.client()
        expect_answer(client.ask("/a", "Connection: close"), 200, "edge;hit;ttl=600", b"hello")
        expect("the connection closed", True, client.is_closed())
        if i == 500:
            before = proxy.resident()
    grown = proxy.resident() - before
    if grown > 4 << 20:
        raise Unexpected("of 500 connections that are over", "no memory", f"{grown} bytes")


@scenario
def what_is_evicted_is_let_go(stage):
    """A store of two responses, and 1,200 that are stored and evicted: contents and heads of a thousand take no memory."""
    content = b"x" * 8000
    stage.origin(Origin({f"/{i}": whole(200, KEPT, content=content) for i in range(1200)}))
    client = (proxy := stage.proxy(capacity=2)).client()
    for i in range(1200):
        if i == 200:
            before = proxy.resident()
        expect_answer(client.ask(f"/{i}"), 200, "edge;fwd=uri-miss;ttl=600;stored", content)
    grown = proxy.resident() - before
    if grown > 2 << 20:
        raise Unexpected("of 1,000 responses that are evicted, of 8,000 bytes each,", "no memory", f"{grown} bytes")


@scenario
def what_is_announced_takes_no_memory(stage):
    """A hundred clients announce 16 MB each, by Content-Length or as a chunk, and send one byte of it: room is made for what
    has come."""
    stage.origin(Origin({"/a": whole(200, KEPT, content=b"hello")}))
    busy = (proxy := stage.proxy(max_body=16 << 20)).client()
    busy.ask("/a")
    before = proxy.reserved()
    for framing in ["Content-Length: 16777215\r\n\r\nx", "Transfer-Encoding: chunked\r\n\r\nffffff\r\nx"] * 50:
        proxy.client().send(f"POST /a HTTP/1.1\r\nHost: h\r\n{framing}".encode())
    proxy.wait_until_quiet()
    grown = proxy.reserved() - before
    if grown > 16 << 20:
        raise Unexpected("memory that is asked for by a hundred contents of 16 MB, of which a byte has come,", "less than one of them", f"{grown} bytes")
    expect_answer(busy.ask("/a"), 200, "edge;hit;ttl=600", b"hello")


@scenario
def uploads_beside_one_another_wait_for_none(stage):
    """Eight clients send three contents each at the same time, in some parts. While a record is written one of them is taken at a time,
    and none has to wait for that: all are answered soon."""
    stage.origin(Origin({"/a": whole(200, KEPT, content=b"hello"), "/post": whole(201, content=b"made")}))
    proxy = stage.proxy()
    clients = [proxy.client() for _ in range(8)]
    for it in clients:
        expect("status", 200, it.ask("/a").status)
    began, text = time.monotonic(), request("/post", method="POST", content=b"x" * 40)
    for _ in range(3):
        for at in range(0, len(text), 10):
            for it in clients:
                it.send(text[at : at + 10])
        for it in clients:
            expect_answer(it.response("POST"), 201, "edge;fwd=method", b"made")
    expect_within("the last answer", 0, 3 * AT_ONCE, time.monotonic() - began)


@scenario
def busy_clients_leave_an_honest_one_its_answers(stage):
    """200 clients ask for twenty hits in one write each, and again when they have them, for as long as another one asks 200 times: none of
    its answers fails, half of them come within a tenth of a second, and all at once."""
    stage.origin(Origin({"/a": whole(200, KEPT, content=ANSWER[-1024:])}))
    proxy = stage.proxy(records=False)
    proxy.client().ask("/a")
    attackers = Attackers(proxy.port, "busy", 200)
    try:
        told = asked(proxy.port, ["/a"] * 200)
    finally:
        did = attackers.end()
    expect("of the honest client's requests the unanswered", 0, told.count(None))
    expect_within("the middle one of its answers", 0, 0.1, sorted(told)[len(told) // 2])
    expect_within("its last answer", 0, AT_ONCE, max(told))
    if did["200"] < 2000:
        raise Unexpected("answers to the others", "at least 2,000", did)
