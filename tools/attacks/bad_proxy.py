"""A small proxy of Python that holds every rule that the attack looks at but one, so that a
self-test sees each of them told. It reads strictly, sends each request over a connection of its
own, and stores nothing."""
import contextlib
import itertools
import re
import socket
import threading

from live.client import Client
from attacks.strict import HOST, HOP_BY_HOP, REQUEST_LINE, Fault, Head, is_denied, read_answer
from shared.sockets import SIZE, accepted, close_listener, read_to_the_end, received

WAIT = 5
CHUNK = re.compile(rb"([0-9A-Fa-f]{1,8})\r\n")
EMPTY = b"HTTP/1.1 200 \r\nContent-Length: 0\r\n\r\n"
SMUG = b"GET /smug HTTP/1.1\r\nHost: h\r\nConnection: close\r\n\r\n"


def refused(status, method=b"", more=b""):
    """An answer of the proxy's own."""
    content = b"" if method == b"HEAD" else b"no"
    return b"HTTP/1.1 %d \r\nRefusal: no\r\nContent-Length: 2\r\n%s\r\n%s" % (status, more, content)


class Request:
    """A request that is read, and how many bytes it takes; None of a content that isn't whole."""

    def __init__(self, data):
        self.head = Head(data)
        first, hosts = REQUEST_LINE.fullmatch(self.head.first), self.head.values(b"host")
        is_good = first and first[2].startswith(b"/") and len(hosts) == 1 and HOST.fullmatch(hosts[0])
        if not is_good:
            raise Fault("request")
        self.method, self.target = first.groups()
        rest = data[self.head.length :]
        if self.head.value(b"transfer-encoding") == b"chunked" and not self.head.value(b"content-length"):
            self.content, size = unchunked(rest)
        else:
            size = self.head.content_length() or 0
            self.content = rest[:size]
        self.is_whole = size is not None and len(rest) >= size
        self.length = self.head.length + (size or 0)


def unchunked(data):
    """The content of chunks without extensions or trailers, and how many bytes they take; None
    where they aren't whole."""
    at, content = 0, b""
    while True:
        found = CHUNK.match(data, at)
        if not found:
            if b"\r\n" in data[at : at + 10] or len(data) > at + 10:
                raise Fault("chunk")
            return b"", None
        size, at = int(found[1], 16), found.end()
        if len(data) < at + size + 2:
            return b"", None
        if data[at + size : at + size + 2] != b"\r\n":
            raise Fault("chunk")
        content, at = content + data[at : at + size], at + size + 2
        if not size:
            return content, at


def forwarded(request, fault):
    """The bytes that go to the origin."""
    gone = {b"host", b"connection", b"content-length", b"transfer-encoding", *HOP_BY_HOP}
    lines = [b"Host: " + request.head.values(b"host")[0]]
    lines += [b"%s: %s" % it for it in request.head.fields if it[0] not in gone]
    lines += [b"Content-Length: %d" % len(request.content)] * (2 if fault == "lengths" else 1)
    lines += {
        "host": [b"Host: i"],
        "coding": [b"Transfer-Encoding: chunked"],
        "value": [b"X: y\rz"],
        "line": [b"X : y"],
        "hop-by-hop": [b"Upgrade: h2c"],
    }.get(fault, [])
    lines += [] if fault == "connection" else [b"Connection: close"]
    target = b"http://h" + request.target if fault == "request line" else request.target
    text = b"\r\n".join([b"%s %s HTTP/1.1" % (request.method, target), *lines, b"", b""]) + request.content
    return text + (SMUG if fault == "content" else b"")


class BadProxy:
    """Before one origin. `fault` names the rule that it breaks."""

    def __init__(self, origin, fault):
        host, port = origin.split(":")
        self.origin, self.fault, self.last, self.numbers = (host, int(port)), fault, b"", itertools.count(1)
        self.listener = socket.create_server(("127.0.0.1", 0), backlog=512)
        self.port = self.listener.getsockname()[1]
        threading.Thread(target=self.accept, daemon=True).start()

    def client(self):
        return Client(self.port, next(self.numbers))

    def accept(self):
        for connection in accepted(self.listener):
            threading.Thread(target=self.serve, args=[connection], daemon=True).start()

    def serve(self, client):
        client.settimeout(WAIT)
        with client:
            with contextlib.suppress(OSError):
                self.converse(client)
                client.shutdown(socket.SHUT_WR)
                read_to_the_end(client)

    def converse(self, client):
        data, has_ended = b"", False
        while True:
            try:
                request = Request(data) if b"\r\n\r\n" in data else None
            except Fault:
                client.sendall(refused(400, more=b"Connection: close\r\n"))
                return
            if request and request.is_whole:
                data = data[request.length :]
                client.sendall(self.reply(request))
                if self.fault == "cut":
                    return
                if self.fault == "no end" and not data:
                    threading.Event().wait(WAIT * 3)
                continue
            if has_ended:
                return
            piece = client.recv(SIZE)
            data, has_ended = data + piece, not piece

    def reply(self, request):
        """What the client is sent for a request."""
        if is_denied(request.target) and self.fault != "smuggled":
            return refused(403, request.method)
        came = self.ask(forwarded(request, self.fault))
        answer = self.read(came, request.method.decode())
        if not answer:
            return EMPTY if self.fault == "lenient" else refused(502, request.method)
        return spoiled(answer, self.swapped(answer), self.fault)

    def ask(self, text):
        """All that the origin sends."""
        came = b""
        with contextlib.suppress(OSError), socket.create_connection(self.origin, WAIT) as it:
            it.sendall(text)
            for piece in received(it):
                came += piece
                if self.fault != "raw" and self.read(came, text.split(b" ")[0].decode()):
                    break
        return came

    def read(self, came, method):
        """The first final answer, where it is well-formed."""
        if self.fault == "raw":
            return came
        try:
            while found := read_answer(came, method):
                if found[0].status >= 200:
                    return came[: found[1]]
                came = came[found[1] :]
        except Fault:
            pass
        return None

    def swapped(self, answer):
        """The answer that another one got last."""
        last, self.last = self.last or answer, answer
        return last

    def close(self):
        close_listener(self.listener)


def spoiled(answer, last, fault):
    """The answer, as the fault has it."""
    if fault == "swapped":
        return last
    if fault == "twice":
        return answer * 2
    if fault == "cut":
        return answer[:-1]
    if fault == "answer length":
        return answer.replace(b"\r\nContent-Length:", b"\r\nContent-Length: 1\r\nContent-Length:", 1)
    if fault == "answer value":
        return answer.replace(b"\r\n", b"\r\nX: \x00\r\n", 1)
    return answer


@contextlib.contextmanager
def bad_proxy(origin, fault):
    it = BadProxy(origin.address, fault)
    try:
        yield it
    finally:
        it.close()
