"""Origins that mean harm: the client gets one whole well-formed answer or a 502, nothing of a
second response, and the answer to its next request behind it."""
import random
import re
import socket
import threading

from attacks.client import play
from attacks.findings import Found
from attacks.hostile_answers import ANSWERS, NAMED, SECOND
from attacks.strict import Fault, read_answer
from attacks.threads import side_by_side
from shared.sockets import SIZE, accepted, close_listener, read_to_the_end, received

TARGET = re.compile(rb"[A-Z]+ /(\d+)\?(\w+)")
NAMES = [*ANSWERS]
AFTER = b"GET /after HTTP/1.1\r\nHost: h\r\n\r\n"
METHODS = ("GET", "HEAD", "POST")
# An upload that is answered before it is read.
UPLOAD = b"GET /smug HTTP/1.1\r\nHost: h\r\n\r\n" * 28000
EARLY = b"HTTP/1.1 401 No\r\nContent-Length: 4\r\n\r\ngood" + SECOND
# What stands for the answer to the request behind.
NEXT = b"HTTP/1.1 200 OK\r\nX-After: yes\r\nContent-Length: 5\r\n\r\nafter"
WAIT = 10


def cut(data, how):
    """The pieces in which the bytes go out: at once, one by one, or cut by chance."""
    if how == "whole":
        return [data]
    if how == "bytes":
        return [data[i : i + 1] for i in range(len(data))]
    dice = random.Random(how)
    ends = sorted({dice.randrange(len(data) + 1) for _ in range(5)} | {len(data)})
    return [data[start:end] for start, end in zip([0, *ends], ends)]


class HostileOrigin:
    """Answers by the number of the target, cut as its query says, and ends the connection."""

    def __init__(self):
        self.listener = socket.create_server(("127.0.0.1", 0), backlog=512)
        self.address = "127.0.0.1:%d" % self.listener.getsockname()[1]
        self.smuggled = []
        threading.Thread(target=self.accept, daemon=True).start()

    def accept(self):
        for connection in accepted(self.listener):
            threading.Thread(target=self.serve, args=[connection], daemon=True).start()

    def serve(self, connection):
        with connection:
            connection.settimeout(WAIT)
            connection.setsockopt(socket.IPPROTO_TCP, socket.TCP_NODELAY, 1)
            try:
                head, rest = self.read_head(connection)
                self.answer(connection, head, rest)
                connection.shutdown(socket.SHUT_WR)
                read_to_the_end(connection)
            except OSError:
                pass

    def read_head(self, connection):
        data = b""
        for piece in received(connection):
            data += piece
            if b"\r\n\r\n" in data:
                break
        else:
            raise ConnectionError
        head, _, rest = data.partition(b"\r\n\r\n")
        if b" /smug" in head.partition(b"\r\n")[0]:
            self.smuggled.append(data)
        return head, rest

    def answer(self, connection, head, rest):
        found = TARGET.match(head)
        if not found:
            is_early = head.split(b" ")[1].startswith(b"/early")
            connection.sendall(EARLY if is_early else NEXT)
            return
        length = re.search(rb"(?i)\r\nContent-Length: (\d+)", head)
        while length and len(rest) < int(length[1]):
            rest += connection.recv(SIZE) or b"x" * int(length[1])
        for piece in cut(ANSWERS[NAMES[int(found[1])]][0], found[2].decode()):
            connection.sendall(piece)

    def close(self):
        close_listener(self.listener)


def parsed(data, methods):
    """The final answers to requests of these methods, and nothing else."""
    answers = []
    for method in methods:
        while True:
            found = read_answer(data, method)
            if found is None:
                raise Fault("missing", f"the answer to a {method}, behind {len(answers)} others: {data[:200]!r}")
            data = data[found[1] :]
            if found[0].status >= 200:
                break
        answers.append(found[0])
    if data:
        raise Fault("more", f"behind the last answer: {data[:200]!r}")
    return answers


def hold(name, method, first, allowed):
    """Whether the first answer is one that the client may be given."""
    if first.status == 502 and first.is_own:
        return
    if first.is_own or (first.status not in (200, 204, 205, 304, 401)):
        raise Fault("status", f"{first.status} {first.value(b'refusal')}")
    if first.value(b"x-second"):
        raise Fault("second", "a field of the second response")
    if name in NAMED and first.value(NAMED[name]):
        raise Fault("named", f"{NAMED[name]!r} goes on, which Connection names")
    if method == "HEAD" or allowed is None:
        return
    if not allowed:
        raise Fault("not refused", f"{first.status} with {first.content[:200]!r}")
    if first.content not in allowed:
        raise Fault("content", f"{first.content[:200]!r} where {allowed!r} may be")


def exchange(port, name, method, how):
    """One hostile answer, and behind it a good one on the same connection, in one pipeline."""
    text, allowed = ANSWERS[name]
    content = b"Content-Length: 32\r\n\r\n" + UPLOAD[:32] if method == "POST" else b"\r\n"
    asked = b"%s /%d?%s HTTP/1.1\r\nHost: h\r\n" % (method.encode(), NAMES.index(name), how.encode())
    got = play(port, [asked + content + AFTER])
    judge(name, [method, "GET"], got, allowed, text)
    return got


def judge(name, methods, got, allowed, text):
    try:
        first, after = parsed(got.data, methods)
        hold(name, methods[0], first, allowed)
        if after.status != 200 or after.content != b"after" or not after.value(b"x-after"):
            raise Fault("next", f"the next request's answer is {after.status} {after.content[:100]!r}")
        stored = (after.value(b"cache-status") or "") + (first.value(b"cache-status") or "")
        if name in NAMED and "stored" in stored:
            raise Fault("stored", f"an answer whose Connection names {NAMED[name]!r}")
    except Fault as fault:
        raise Found(f"hostile, {fault.word}", f"{fault}; the client got {got.data[:400]!r}", text) from None


def upload(port, times):
    """An upload that the origin answers before it has read it, with a second response behind; and
    the next request."""
    head = b"POST /early?%d HTTP/1.1\r\nHost: h\r\nContent-Length: %d\r\n\r\n" % (times, len(UPLOAD))
    got = play(port, [head + UPLOAD + AFTER])
    judge("an early answer to an upload", ["POST", "GET"], got, [b"good"], EARLY)


def plan(seed, cuts, names):
    """Which answers are given, to which methods and cut how."""
    how = ["whole", "bytes", *(f"s{seed}c{i}" for i in range(cuts))]
    all_of_them = [(name, method, it) for name in names for method in METHODS for it in how]
    # (an answer of 40,000 bytes isn't sent byte by byte)
    return [it for it in all_of_them if it[2] != "bytes" or len(ANSWERS[it[0]][0]) < 5000]


def work(planned, port, tally):
    for name, method, how in planned:
        if tally.is_full():
            return
        case = f"hostile origins, {name!r} to a {method}, {how}"
        try:
            exchange(port, name, method, how)
        except Found as found:
            tally.find(found, case)
        except OSError as fault:
            tally.find(Found("connection", repr(fault), ANSWERS[name][0]), case)
        with tally.lock:
            tally.counts["hostile answers"] += 1


def uploads(port, times, tally):
    for i in range(times):
        try:
            upload(port, i)
        except Found as found:
            tally.find(found, "hostile origins, an early answer")
        tally.counts["early answers"] += 1


def run(start, seed, tally, workers, cuts=2, times=10, names=NAMES):
    origin = HostileOrigin()
    with start(origin) as proxy:
        planned = plan(seed, cuts, names)
        side_by_side([lambda i=i: work(planned[i::workers], proxy.port, tally) for i in range(workers)])
        uploads(proxy.port, times, tally)
    for it in origin.smuggled:
        tally.find(Found("smuggled", repr(it[:200]), it), "hostile origins")
    origin.close()
