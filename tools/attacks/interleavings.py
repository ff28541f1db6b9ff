"""Many clients at once, whose requests come in pipelines cut by chance and some of whom leave amid
them: each answer has to be the one to its own request, in order and whole. What a client asks for
names it, and the origin's answer names what was asked."""
import random
import time

from attacks.echoes import STATUSES, Echo, content_of
from attacks.findings import Found
from attacks.strict import Fault, read_answer
from attacks.threads import side_by_side
from live.client import request
from live.expect import Unexpected

CLIENTS = 80
# The longest that a client waits for the next bytes of an answer, in seconds: a machine may be busy.
PATIENCE = 60
KINDS = ["/plain"] * 4 + ["/kept"] * 4 + ["/large", "/old", "/old", "/hints", "/chunks", "/extra", "/slow", "/close"]
KINDS += ["/failing", "/unchanged", "/early", "/cut", "/cut-chunks", "/gone", "/reset"]
# Targets that several clients ask for, so that answers are stored, waited for and validated.
SHARED = 12
GARBAGE = [b"GET / HTTP/3.0\r\nHost: h\r\n\r\n", b"hello\r\n\r\n", b"GET / HTTP/1.1\r\nHost: h\r\nA: \0\r\n\r\n"]
METHODS = ["GET"] * 6 + ["POST"]


class Asked:
    """One request, and what has to come back."""

    def __init__(self, kind, token, dice):
        self.kind, self.target = kind, f"{kind}?{token}"
        self.status = STATUSES.get(kind, 200)
        methods = METHODS + ["HEAD"] if kind in ("/plain", "/kept") else METHODS
        self.method = "POST" if kind == "/early" else dice.choice(methods)
        lines = ['If-None-Match: "w"'] if kind == "/unchanged" else []
        content = None
        if self.method == "POST":
            size = 100000 if kind == "/early" else dice.choice([0, 1, 3000])
            content = (b"GET /smug HTTP/1.1\r\nHost: h\r\n\r\n" * (size // 32 + 1))[:size]
        self.data = request(self.target, *lines, method=self.method, content=content)

    def hold(self, answer):
        """Whether the answer is the one to this request: None, or what is wrong."""
        if answer.status != self.status:
            told = f"{answer.status} {answer.value(b'refusal')}"
            return f"{self.method} {self.target}: {self.status} is expected, {told} came"
        if self.status == 502:
            return None if answer.is_own else f"{self.target}: a 502 of the origin's"
        if answer.value(b"x-target") != self.target:
            return f"{self.target}: the answer is to {answer.value(b'x-target')}"
        wanted = b"" if self.method == "HEAD" or self.status == 304 else content_of(self.target)
        if answer.content != wanted:
            return f"{self.target}: another content of {len(answer.content)} bytes, {answer.content[:80]!r}"
        return None


def some(dice, name, kinds):
    """A request for a target of this client's own, or for one that others ask for, too."""
    kind = dice.choice(kinds)
    is_shared = kind in ("/kept", "/old", "/large") and dice.random() < 0.7
    return Asked(kind, f"shared-{dice.randrange(SHARED)}" if is_shared else f"{name}-{dice.getrandbits(32):08x}", dice)


def next_answer(client, method):
    """The next answer that is no interim one."""
    while True:
        found = read_answer(bytes(client.received[client.at :]), method)
        if found is None:
            if not client.read_some():
                return None
            continue
        client.at += found[1]
        if found[0].status >= 200:
            return found[0]


def send_cut(client, data, dice):
    cuts = sorted(dice.randrange(len(data)) for _ in range(dice.choice([0, 0, 1, 3, 6])))
    for start, end in zip([0, *cuts], [*cuts, len(data)]):
        client.send(data[start:end])
        if end < len(data):
            time.sleep(dice.random() / 500)


class Walk:
    """What one client does, by a seed of its own."""

    def __init__(self, proxy, seed, name, steps, tally, kinds):
        self.proxy, self.name, self.steps, self.tally, self.kinds = proxy, name, steps, tally, kinds
        self.dice = random.Random(f"{seed}-{name}")
        self.client = None

    def count(self, what, number=1):
        with self.tally.lock:
            self.tally.counts[what] += number

    def fail(self, word, what):
        self.count(word)
        case = b"sent:\n" + bytes(self.client.sent) + b"\ncame:\n" + bytes(self.client.received)
        self.tally.find(Found(word, what, case), f"interleavings, client {self.name}")
        self.client = None

    def run(self):
        for _ in range(self.steps):
            if self.tally.is_full():
                return
            if self.client is None:
                self.client = self.proxy.client()
                self.client.socket.settimeout(PATIENCE)
            try:
                self.step()
            except Fault as fault:
                self.fail(f"answer, {fault.word}", str(fault))
            except Unexpected:
                self.fail("missing", f"no answer within {PATIENCE} s")
            except OSError as fault:
                self.fail("missing", repr(fault))

    def step(self):
        """A pipeline whose answers are all read, or one that is left; at times no request."""
        way = self.dice.random()
        asked = [some(self.dice, self.name, self.kinds) for _ in range(self.dice.choice([1, 1, 2, 3, 6]))]
        self.count("requests", len(asked))
        data = b"".join(it.data for it in asked) + (self.dice.choice(GARBAGE) if way < 0.04 else b"")
        if 0.04 <= way < 0.16:
            self.leave(data, is_reset=way < 0.10)
            return
        send_cut(self.client, data, self.dice)
        if way >= 0.92:
            self.client.half_close()
        for i, it in enumerate(asked):
            self.hold(it, len(asked) - i)
            if self.client is None:
                return
        if way < 0.04:
            self.hold_refusal()
        if self.client and (way < 0.04 or way >= 0.92):
            self.hold_end()

    def hold(self, asked, left):
        answer = next_answer(self.client, asked.method)
        if answer is None:
            self.fail("missing", f"the connection's end, before the answer to {asked.target} and {left - 1} more")
            return
        fault = asked.hold(answer)
        if fault:
            self.fail("wrong", fault)
        else:
            self.count("right")

    def hold_refusal(self):
        answer = next_answer(self.client, None)
        if answer is None or not answer.is_own or answer.status // 100 not in (4, 5):
            self.fail("wrong", f"to what is no request: {answer and answer.status}")

    def hold_end(self):
        """The proxy ends the connection, and nothing stands behind the last answer."""
        if self.client.is_closed():
            self.client.drain()
            self.client = None
        else:
            more = bytes(self.client.received[self.client.at :])[:200]
            self.fail("answer, more", f"behind the last answer: {more!r}, or no end")

    def leave(self, data, is_reset):
        """Goes away behind a part of what it sends, or behind all of it."""
        self.count("aborts")
        send_cut(self.client, data[: self.dice.randrange(len(data)) + 1], self.dice)
        time.sleep(self.dice.choice([0, 0.001, 0.01]))
        self.client.leave(reset=is_reset)
        self.client = None


def run(proxy, seed, steps, tally, clients, kinds=KINDS):
    """The clients side by side, until all have ended."""
    side_by_side([Walk(proxy, seed, str(i), steps, tally, kinds).run for i in range(clients)])


def play(start, seed, steps, tally, clients=CLIENTS, kinds=KINDS):
    """The clients before a proxy that `start` makes for the origin."""
    origin = Echo()
    with start(origin) as proxy:
        run(proxy, seed, steps, tally, clients, kinds)
    hold_origin(origin, tally)
    origin.close()


def hold_origin(origin, tally):
    """No request that reached the origin is one that stood in a content."""
    tally.counts["forwarded"] += len(origin.fetches)
    for it in origin.fetches:
        if it.target.startswith("/smug"):
            tally.find(Found("smuggled", it.target, bytes(it.received)), "interleavings")
