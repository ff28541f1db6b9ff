"""Scenarios of connections that are over for the proxy and not for their clients, and of clients that take nothing: each is let go."""
import time

from live.clocks import Clock
from live.expect import Unexpected, expect, expect_answer, expect_refusal, expect_within
from live.origin import Origin, whole
from live.scenario import KEPT, LATEST, SHORT, scenario
from live.staying import STORED
from live.taking import BOTH, DOWNLOAD, short, text_of
from live.waiting import READ

# So many closed connections stay open by half at a time; one whose client goes on sending stays so many seconds (docs/DECISIONS_SERVER.md).
CLOSING, PATIENT = 256, 30


def refused(proxy):
    """A client whose connection is closed behind its answer, and that keeps its own half open."""
    client = proxy.client()
    client.send(b"X\r\n\r\n")
    expect_refusal(client.response(), 400, "refused: head")
    expect("the proxy's end", True, client.is_closed())
    return client


def is_reset(client):
    """Whether bytes that are sent behind the proxy's end meet a connection that is gone: the system says so with the next ones."""
    try:
        for _ in range(3):
            client.send(b"x")
            time.sleep(0.1)
    except OSError:
        return True
    return False


def fewer_descriptors(proxy, count, within=LATEST):
    """How many the program has open, once they are no more than so many; or when that time is over."""
    deadline = time.monotonic() + within
    while (found := proxy.descriptors()) > count and time.monotonic() < deadline:
        time.sleep(0.05)
    return found


@scenario
def few_closed_connections_stay(stage):
    """RFC 9112, 9.6: a connection is closed by half first. Of 300 whose clients go on to keep theirs open 256 stay so at most: the one
    that was closed first is closed whole, and the last one isn't."""
    proxy = stage.proxy(("/", ["*"], "deny"), records=False)
    before = proxy.descriptors()
    clients = [refused(proxy) for _ in range(CLOSING + 44)]
    # (none of them is silent for long enough to be closed for that)
    if (more := fewer_descriptors(proxy, before + CLOSING, 1) - before) > CLOSING:
        raise Unexpected("descriptors for closed connections", f"at most {CLOSING}", more)
    expect("whether the first and the last are closed whole", (True, False), (is_reset(clients[0]), is_reset(clients[-1])))
    for it in clients:
        it.leave()


@scenario
def a_trickle_holds_no_closed_connection(stage):
    """A client that sends a byte each second behind the end of its connection: it is closed whole after half a minute. The clock of
    the proxy goes ten times as fast."""
    clock = Clock(stage.room.name, 0, "SHIFT_STEADY")
    proxy = stage.proxy(("/", ["*"], "deny"), records=False, environment=clock.environment)
    client, seconds = refused(proxy), 0
    while seconds < 3 * PATIENT:
        try:
            client.send(b"x")
        except OSError:
            break
        seconds += 1
        clock.set(seconds)
        time.sleep(0.1)
    # (the time that goes by meanwhile counts as well, and the proxy may be late)
    expect_within("the end of a closed connection", PATIENT // 2, 2 * PATIENT, seconds)
    client.leave()


def expect_let_go(proxy, client, before, began, text):
    """A client that began to ask then, and takes nothing of what it asked for, is cut off in time, and lacks a part of it."""
    client.is_cut_off = True
    expect("descriptors behind it", before, fewer_descriptors(proxy, before, 2 * LATEST))
    expect_within("its end", SHORT / 2, 2 * LATEST, time.monotonic() - began)
    client.open_window()
    client.drain()
    if len(client.received) >= len(text):
        raise Unexpected("for a client that takes nothing", "a part of its answer", f"{len(client.received)} bytes")


@scenario
def who_takes_nothing_and_asks_again_is_let_go(stage):
    """`--client-timeout`: a client that takes nothing of its answer is silent, also where it has sent a whole further request, or has
    begun one, and sends more of it meanwhile."""
    text = text_of(DOWNLOAD)
    stage.origin(Origin({"/a": whole(200, KEPT, content=text)}))
    proxy = stage.proxy(**BOTH, options=["--client-timeout", str(SHORT)])
    before = proxy.descriptors()
    expect_answer(proxy.client().ask("/a"), 200, STORED, text)
    # (what ends the first request brings the first bytes of the next: a piece of a request that was begun is at least so long)
    begun = b"GET /a HTTP/1.1\r\n", b"Host: h\r\n\r\nGET /a HTTP/1.1\r\nHo", b"st: h\r\n\r\n"
    for first, *others in ((short("/a"), short("/a")), begun):
        expect("descriptors before it", before, fewer_descriptors(proxy, before))
        client, began = proxy.client(window=4096), time.monotonic()
        client.send(first)
        time.sleep(READ)
        for it in others:
            client.send(it)
            time.sleep(READ)
        expect_let_go(proxy, client, before, began, text)
