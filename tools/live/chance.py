"""A scenario by chance: what clients and origins do is drawn from a fixed seed."""
import random
import threading
import time

from live.client import request
from live.expect import Unexpected
from live.origin import Origin, byte_by_byte, ends, head_of, raw, whole
from live.scenario import KEPT, scenario

CLIENTS, STEPS, SEED = 24, 12, 9111
# Clients whose requests don't come whole.
DRIPS = 300
STALE = ["Cache-Control: max-age=0, stale-if-error=600", 'ETag: "v1"']


def validated(fetch):
    (whole(304, *STALE) if fetch.value("If-None-Match") else whole(200, *STALE, content=b"stale"))(fetch)


def failing_at_times(fetch):
    (whole(200, *STALE, content=b"at times") if len(fetch.received) % 2 else whole(503))(fetch)


ANSWERS = {
    "/kept": whole(200, KEPT, 'ETag: "k"', content=b"kept" * 100),
    "/large": whole(200, KEPT, content=b"large" * 20000),
    "/huge": whole(200, content=b"huge" * 25000),
    "/never": whole(200, "Cache-Control: no-store", content=b"never"),
    "/vary": whole(200, KEPT, "Vary: A", content=b"vary"),
    "/stale": validated,
    "/times": failing_at_times,
    "/gone": ends,
    "/cut": raw(head_of(200, ["Content-Length: 9"]) + b"cut", ends),
    "/reset": lambda fetch: fetch.reset(),
    "/slow": byte_by_byte(head_of(200, [KEPT, "Content-Length: 4"]) + b"slow", 0.001),
    "/late": lambda fetch: (time.sleep(0.05), whole(200, content=b"late")(fetch)),
    "/chunks": raw(head_of(200, [KEPT, "Transfer-Encoding: chunked"]) + b"3\r\nchu\r\n3\r\nnks\r\n0\r\n\r\n"),
    "/close": raw(head_of(200, [KEPT]) + b"to the close", ends),
}
LINES = ["Cache-Control: no-cache", "Cache-Control: max-stale=10", 'If-None-Match: "k"', "A: 1", "A: 2", "Range: bytes=0-1"]
WRONG = [b"GET /a/../b HTTP/1.1\r\nHost: h\r\n\r\n", b"GET / HTTP/3.0\r\nHost: h\r\n\r\n", b"hello\r\n\r\n"]


def some_request(dice):
    """The bytes of a request, and its method."""
    target, method = dice.choice([*ANSWERS]), dice.choice(["GET"] * 6 + ["HEAD", "POST", "POST"])
    lines = dice.sample(LINES, dice.choice([0, 0, 1]))
    if method != "POST":
        return request(target, *lines, method=method), method
    content = b"x" * dice.choice([0, 1, 5000, 20000])
    if dice.random() < 0.5:
        return request(target, method=method, content=content), method
    chunks = b"%x\r\n%s\r\n" % (len(content), content) if content else b""
    return request(target, "Transfer-Encoding: chunked", method=method) + chunks + b"0\r\n\r\n", method


def send_in_pieces(client, data, dice):
    """Most often at once."""
    cuts = sorted(dice.randrange(len(data)) for _ in range(dice.choice([0, 0, 0, 1, 3])))
    for start, end in zip([0, *cuts], [*cuts, len(data)]):
        client.send(data[start:end])
        if end < len(data):
            time.sleep(dice.random() / 200)


def step(client, dice):
    """Does one of the things that clients do; whether the client can go on."""
    asked = [some_request(dice) for _ in range(dice.choice([1, 1, 1, 2, 5]))]
    way = dice.random()
    if way < 0.04:
        client.send(dice.choice(WRONG))
        return client.response().status < 400
    send_in_pieces(client, b"".join(it for it, _ in asked), dice)
    if way < 0.10:
        time.sleep(dice.random() / 50)
        client.leave(reset=dice.random() < 0.5)
        return False
    if way < 0.15:
        client.half_close()
    for _, method in asked:
        answer = client.response(method)
        if not (answer.value("Cache-Status") or answer.value("Refusal")):
            raise Unexpected("an answer that names its reason", "Cache-Status or Refusal", answer.head)
    if way > 0.9:
        time.sleep(dice.random() * 3)
    return way >= 0.15


def go_about(proxy, seed, faults):
    dice, client = random.Random(seed), None
    try:
        for _ in range(STEPS):
            client = client or proxy.client()
            if not step(client, dice):
                client = None
    except (Unexpected, OSError) as fault:
        faults.append(fault)


@scenario
def whatever_happens_can_be_replayed(stage):
    """Clients of every kind before origins of every kind, side by side, some of which are idle at times: each answer names its
    reason, and the replay of the record has what each of them got, to the byte."""
    stage.origin(Origin(dict(ANSWERS)))
    all_go_about(stage.proxy(capacity=8), SEED)


def all_go_about(proxy, seed):
    """The clients, each by a seed of its own, until they have ended."""
    faults = []
    threads = [threading.Thread(target=go_about, args=[proxy, seed + i, faults]) for i in range(CLIENTS)]
    for it in threads:
        it.start()
    for it in threads:
        it.join()
    if faults:
        raise faults[0]
    proxy.wait_until_quiet()


@scenario
def whatever_happens_among_drips_can_be_replayed(stage):
    """The same beside 300 requests that don't come whole: whoever asks has its answers."""
    stage.origin(Origin(dict(ANSWERS)))
    proxy = stage.proxy(capacity=8)
    for i in range(DRIPS):
        start = request("/kept") if i % 2 else request("/kept", "Content-Length: 9", method="POST")
        proxy.client().send(start[:-2] if i % 2 else start)
    time.sleep(2)
    all_go_about(proxy, SEED + CLIENTS)
