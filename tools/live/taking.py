"""Scenarios of clients that take slowly what they asked for, or not at all: what is kept for them stays small, who goes on taking
gets everything, and nobody's answer gives way to a stranger's connection."""
import threading
import time

from live.client import request
from live.expect import Unexpected, expect, expect_answer
from live.origin import Origin, whole
from live.scenario import KEPT, LATEST, scenario
from live.script import happenings_of
from live.staying import HIT, STORED

# As many requests as one read of 4,096 bytes brings, and a page of which so many would be 64 MB.
CROWD, PAGE = 146, 440000
# More than the buffers of the system and of a client hold, and a rate at which it is taken.
DOWNLOAD, STEADILY = 6000000, 250000
BOTH = {"max_body": 16 << 20, "max_stored": 16 << 20}


def text_of(size, seed=7):
    return (bytes(i * seed % 251 for i in range(251)) * (size // 251 + 1))[:size]


def short(target):
    return f"GET {target} HTTP/1.1\r\nHost:h\r\n\r\n".encode()


def two_pages(stage, **more):
    """A proxy that holds two pages, and what they are."""
    pages = {"/a": text_of(PAGE), "/b": text_of(PAGE, 11)}
    stage.origin(Origin({it: whole(200, KEPT, content=text) for it, text in pages.items()} | {"/post": whole(201, content=b"made")}))
    proxy = stage.proxy(**BOTH, **more)
    client = proxy.client()
    for it, text in pages.items():
        expect_answer(client.ask(it), 200, STORED, text)
    return proxy, pages


def expect_little(proxy, before, seconds=2.5):
    """Nobody reads for a while: two answers at most are kept meanwhile, in buffers that double as they grow."""
    time.sleep(seconds)
    grown = proxy.resident() - before
    if grown > 4 * PAGE:
        raise Unexpected("for a client that reads nothing", f"at most {4 * PAGE} bytes of memory", f"{grown} bytes")


@scenario
def pipelined_hits_that_nobody_reads(stage):
    """146 requests in 3,942 bytes, of a client that doesn't read: no more than the first are answered. When it reads it gets all
    of them, in their order."""
    proxy, pages = two_pages(stage)
    order = ["/a" if i % 3 else "/b" for i in range(CROWD)]
    before = proxy.resident()
    client = proxy.client(window=4096)
    client.send(b"".join(map(short, order)))
    expect_little(proxy, before)
    client.open_window()
    for it in order:
        expect_answer(client.response(), 200, HIT, pages[it])
    expect_answer(client.ask("/a", method="HEAD"), 200, HIT, b"")


@scenario
def pipelined_hits_behind_a_content_that_nobody_reads(stage):
    """The same behind a request with a content, whose last bytes come with those that follow; the client has sent its end."""
    proxy, pages = two_pages(stage)
    before = proxy.resident()
    client = proxy.client(window=4096)
    client.send(request("/post", method="POST", content=b"x" * 300) + short("/a") * 130)
    expect_little(proxy, before)
    client.open_window()
    expect_answer(client.response("POST"), 201, "edge;fwd=method", b"made")
    for _ in range(130):
        expect_answer(client.response(), 200, HIT, pages["/a"])
    client.half_close()
    expect("the connection closed", True, client.is_closed())


def pieces_of(proxy):
    """What clients sent, as it was handed in."""
    proxy.wait_until_quiet()
    with open(proxy.record, "rb") as it:
        return [block for words, block in happenings_of(it.read()) if words.startswith(b"client ")]


@scenario
def empty_lines_of_a_content_are_one_piece(stage):
    """An upload full of empty lines and of what looks like requests: its origin gets it as it was sent, none of it is answered, and it
    comes in few pieces where no line of it looks like a request's."""
    origin = stage.origin(Origin({"/post": whole(201, content=b"made")}))
    proxy = stage.proxy()
    client = proxy.client()
    for i, text in enumerate((b"a\n\n" * 100000, b"\r\n" * 100000, short("/a") * 300)):
        before = len(pieces_of(proxy))
        client.send(request("/post", method="POST", content=text))
        expect_answer(client.response("POST"), 201, "edge;fwd=method", b"made")
        expect("the content at the origin", text, origin.fetches[i].content)
        pieces = len(pieces_of(proxy)) - before
        if i < 2 and pieces > 3 * (len(text) // 4096 + 2):
            raise Unexpected("pieces of an upload", f"at most {3 * (len(text) // 4096 + 2)}", pieces)


@scenario
def requests_in_one_read_come_one_by_one(stage):
    """Hits, a denial and a miss in one read: each is a piece of its own in the record, and all are answered in their order."""
    stage.origin(Origin({"/a": whole(200, KEPT, content=b"hello"), "/b": whole(200, KEPT, content=b"other")}))
    proxy = stage.proxy(("/denied", ["*"], "deny"), ("/", ["GET"], stage.origins[0].address))
    client = proxy.client()
    expect_answer(client.ask("/a"), 200, STORED, b"hello")
    texts = [short(it) for it in ("/a", "/a", "/denied", "/b", "/b", "/a")]
    client.send(b"".join(texts))
    for status, content in ((200, b"hello"), (200, b"hello"), (403, b"denied by line 1"), (200, b"other"), (200, b"other"), (200, b"hello")):
        answer = client.response()
        expect("status and content", (status, content), (answer.status, answer.content))
    expect("pieces of six requests", texts, pieces_of(proxy)[1:])


def take_steadily(client, size, rate):
    """Reads so many bytes at a rate, as far as they come."""
    began = time.monotonic()
    while client.at + len(client.received) < size and client.read_some(rate // 10):
        time.sleep(max(0.0, began + len(client.received) / rate - time.monotonic()))


@scenario
def a_client_that_takes_slowly_but_steadily_is_not_silent(stage):
    """`--client-timeout 3`, and a client that takes 24 seconds for its answer, 250,000 bytes in each: it gets all of it."""
    text = text_of(DOWNLOAD)
    stage.origin(Origin({"/a": whole(200, KEPT, content=text)}))
    proxy = stage.proxy(**BOTH, options=["--client-timeout", "3"])
    client = proxy.client()
    client.send(request("/a"))
    take_steadily(client, DOWNLOAD, STEADILY)
    answer = client.response()
    expect("status", 200, answer.status)
    if answer.content != text:
        raise Unexpected("content", "as the origin sent it", "another one")


@scenario
def no_stranger_cuts_a_download_off(stage):
    """Clients whose connection is closed behind their answer, since they said so or speak HTTP/1.0, take 14 MB at their own pace;
    300 strangers are refused meanwhile, and leave their connections open. The answers come whole."""
    text = text_of(14000000)
    stage.origin(Origin({"/a": whole(200, KEPT, content=text)}))
    proxy = stage.proxy(**BOTH)
    clients = [proxy.client() for _ in range(2)]
    clients[0].send(request("/a", "Connection: close"))
    clients[1].send(b"GET /a HTTP/1.0\r\nHost: h\r\n\r\n")
    readers = [threading.Thread(target=take_steadily, args=[it, 14000000, 3000000]) for it in clients]
    for it in readers:
        it.start()
    time.sleep(0.3)
    strangers = [proxy.client() for _ in range(300)]
    for it in strangers:
        it.send(b"X\r\n\r\n")
    for it in strangers:
        expect("status", 400, it.response().status)
    for it in readers:
        it.join()
    for it in clients:
        if it.response().content != text:
            raise Unexpected("content", "as the origin sent it", "another one")
        expect("the connection closed", True, it.is_closed())


@scenario
def a_closed_connection_that_takes_nothing_ends(stage):
    """What waits for a client whose connection is closed behind it is kept until nothing of it was taken for `--client-timeout`."""
    text = text_of(DOWNLOAD)
    stage.origin(Origin({"/a": whole(200, KEPT, content=text), "/b": whole(200, KEPT, content=b"hello")}))
    proxy = stage.proxy(**BOTH, options=["--client-timeout", "3"])
    first = proxy.client()
    expect_answer(first.ask("/b"), 200, STORED, b"hello")
    first.leave()
    time.sleep(0.5)
    before = proxy.descriptors()
    stuck, began = proxy.client(window=4096), time.monotonic()
    stuck.is_cut_off = True
    stuck.send(request("/a", "Connection: close"))
    stuck.read_some(1)
    while proxy.descriptors() > before and time.monotonic() - began < 3 * LATEST:
        time.sleep(0.1)
    expect("descriptors behind it", before, proxy.descriptors())
    stuck.open_window()
    stuck.drain()
    if len(stuck.received) >= len(text):
        raise Unexpected("for a client that takes nothing", "a part of its answer", f"{len(stuck.received)} bytes")
