"""Scenarios of large answers: they come whole, and nothing comes amid them."""
import threading
import time

from live.expect import Unexpected, expect, expect_answer
from live.origin import Origin, held_back, whole
from live.scenario import KEPT, LATEST, scenario
from live.staying import HIT, STORED
from live.taking import BOTH, DOWNLOAD, pieces_of, short, text_of
from live.waiting import MISS

# The most bytes of a content, and so many answers come while a client takes what is before them.
LARGEST, LATE = 16 << 20, 8


@scenario
def an_answer_of_the_most_bytes_comes_whole(stage):
    """An answer of just max_body and max_stored, 16 MiB: the origin's, then the stored one, and one behind it on the same connection."""
    text = text_of(LARGEST)
    stage.origin(Origin({"/a": whole(200, KEPT, content=text)}))
    client = stage.proxy(max_body=LARGEST, max_stored=LARGEST, records=False).client()
    for member in (STORED, HIT, HIT):
        expect_answer(client.ask("/a"), 200, member, text)


def wait_for_piece(proxy, piece):
    """Until what a client sent last was handed in."""
    deadline = time.monotonic() + LATEST
    while pieces_of(proxy)[-1:] != [piece] and time.monotonic() < deadline:
        pass


@scenario
def a_short_answer_waits_behind_a_long_one(stage):
    """A client takes slowly what it asked for; the answers to what it asked for behind that, which their origin gives meanwhile, come
    behind all of it, and in their order."""
    text, go = text_of(DOWNLOAD), [threading.Event() for _ in range(LATE)]
    late = {f"/{i}": held_back(it, whole(200, "Cache-Control: no-store", content=b"late %d" % i)) for i, it in enumerate(go)}
    origin = stage.origin(Origin({"/a": whole(200, KEPT, content=text)} | late))
    proxy = stage.proxy(**BOTH)
    expect_answer(proxy.client().ask("/a"), 200, STORED, text)
    client = proxy.client(window=4096)
    # (what ends the first request brings the others: no more than a dozen stand in so few bytes)
    begun = b"GET /a HTTP/1.1\r\n"
    client.send(begun)
    wait_for_piece(proxy, begun)
    client.send(b"Host: h\r\n\r\n" + b"".join(short(f"/{i}") for i in range(LATE)))
    for i, it in enumerate(go):
        origin.wait_for(i + 2)
        # (the system has room for more of what waits, and isn't asked for it yet)
        taken = len(client.received)
        while len(client.received) < taken + 20000:
            client.read_some(4096)
        it.set()
        expect("the link's end at the origin", True, origin.fetches[i + 1].is_over.wait(LATEST))
    if len(client.received) >= len(text):
        raise Unexpected("of a long answer", "a part, while short ones come behind it", f"{len(client.received)} bytes")
    client.open_window()
    expect_answer(client.response(), 200, HIT, text)
    for i in range(LATE):
        expect_answer(client.response(), 200, MISS, b"late %d" % i)
