"""Scenarios of origins that reset the connection: what they had said before counts, as far as it has come."""
import array
import fcntl
import signal
import socket
import struct
import termios
import threading
import time

from live.client import PATIENCE, request
from live.expect import Unexpected, expect, expect_answer, expect_refusal
from live.origin import FullQueue, Origin, head_of
from live.scenario import scenario
from shared.sockets import accepted, close_listener

LARGE, SMALL = b"x" * 400000, b"y" * 50000
CLOSED = "origin closed;fwd=uri-miss"


def is_over(connection):
    """Whether the system knows the connection no more (TCP_CLOSE): the proxy has ended it, once it had a whole answer."""
    return connection.getsockopt(socket.IPPROTO_TCP, socket.TCP_INFO, 1)[0] == 7


def has_arrived(connection):
    """Waits until the other end's system has all that was sent."""
    left, deadline = array.array("i", [1]), time.monotonic() + PATIENCE
    while left[0] and not is_over(connection):
        fcntl.ioctl(connection, termios.TIOCOUTQ, left)
        if time.monotonic() > deadline:
            raise Unexpected("of an answer", "that all has been taken", f"{left[0]} bytes left")


def reset_behind(connection, text):
    """Sends this, and then a reset once the proxy's system has all of it."""
    connection.sendall(text)
    has_arrived(connection)
    connection.setsockopt(socket.SOL_SOCKET, socket.SO_LINGER, struct.pack("ii", 1, 0))
    connection.close()


def with_length(content, status=200):
    return head_of(status, [f"Content-Length: {len(content)}"]) + content


def answered_and_reset(text):
    return lambda fetch: reset_behind(fetch.socket, text)


@scenario
def what_came_before_a_reset_is_read(stage):
    """A hundred whole answers of 400 KB, each with a reset behind it, come whole. One that only its end would have made whole is 502 (RFC 9112,
    8: an error of the connection below)."""
    answers = {"/whole": with_length(LARGE), "/end": head_of(200, []) + LARGE}
    stage.origin(Origin({path: answered_and_reset(text) for path, text in answers.items()}))
    client = stage.proxy(records=False).client()
    for _ in range(100):
        expect_answer(client.ask("/whole"), 200, "edge;fwd=uri-miss", LARGE)
    expect_refusal(client.ask("/end"), 502, CLOSED)


@scenario
def a_reset_that_is_there_with_the_answer(stage):
    """A server that was halted finds an answer and the reset behind it in one."""
    chunked = head_of(200, ["Transfer-Encoding: chunked"]) + b"%x\r\n%s\r\n0\r\n\r\n" % (len(SMALL), SMALL)
    texts = {"/length": with_length(SMALL), "/chunks": chunked, "/end": head_of(200, []) + SMALL, "/part": with_length(SMALL)[:-1], "/none": b""}
    go, done = threading.Event(), threading.Semaphore(0)

    def answer(text):
        def held(fetch):
            if go.wait(PATIENCE):
                reset_behind(fetch.socket, text)
                done.release()

        return held

    origin = stage.origin(Origin({path: answer(text) for path, text in texts.items()}))
    proxy = stage.proxy()
    clients = {path: proxy.client() for path in texts}
    for path, it in clients.items():
        it.send(request(path))
    origin.wait_for(len(texts))
    proxy.wait_until_quiet()
    proxy.process.send_signal(signal.SIGSTOP)
    go.set()
    for _ in texts:
        done.acquire(timeout=PATIENCE)
    proxy.process.send_signal(signal.SIGCONT)
    for path, it in clients.items():
        if path in ("/length", "/chunks"):
            expect_answer(it.response(), 200, "edge;fwd=uri-miss", SMALL)
        else:
            expect_refusal(it.response(), 502, CLOSED)


class Hasty:
    """An origin that reads the head of a request, answers, and closes with a content unread: its system sends a reset."""

    def __init__(self, answers):
        self.answers, self.listener = answers, socket.create_server(("127.0.0.1", 0), backlog=512)
        self.address = "127.0.0.1:%d" % self.listener.getsockname()[1]
        threading.Thread(target=self.accept, daemon=True).start()

    def accept(self):
        for connection in accepted(self.listener):
            with connection:
                head = connection.recv(1000)
                connection.sendall(self.answers[head.split(b" ")[1].decode()])

    def close(self):
        close_listener(self.listener)


@scenario
def an_early_answer_reaches_an_upload(stage):
    """RFC 9112, 9.5: an origin answers 401 and reads no further. Sixty uploads of 900 KB get that answer; of one that only its end would have
    made whole they get 502, and no part of it."""
    denied = head_of(401, ["Content-Length: 2", "WWW-Authenticate: Basic"]) + b"no"
    origin = stage.origin(Hasty({"/whole": denied, "/end": head_of(401, ["WWW-Authenticate: Basic"]) + b"no"}))
    proxy = stage.proxy(origin.address, records=False)
    for _ in range(60):
        expect_answer(proxy.client().ask("/whole", method="POST", content=b"z" * 900000), 401, "edge;fwd=method", b"no")
        expect_refusal(proxy.client().ask("/end", method="POST", content=b"z" * 900000), 502, "origin closed;fwd=method")


class Full(Hasty):
    """An origin that has too much to do: it answers each connection when it comes, without a look at its request, and resets it."""

    def accept(self):
        for connection in accepted(self.listener):
            reset_behind(connection, self.answers)


@scenario
def an_answer_that_comes_before_its_request(stage):
    """The reset behind it comes before the first write, amid it, or behind it: each of sixty requests, and of sixty uploads, gets the answer."""
    origin = stage.origin(Full(head_of(503, ["Content-Length: 4"]) + b"busy"))
    proxy = stage.proxy(origin.address, records=False)
    for _ in range(60):
        expect_answer(proxy.client().ask("/a"), 503, "edge;fwd=uri-miss", b"busy")
        expect_answer(proxy.client().ask("/a", method="POST", content=b"z" * 300000), 503, "edge;fwd=method", b"busy")


class Late(FullQueue):
    """An origin that lets the proxy wait for its connection, then answers each one unread, and resets it."""

    def wait_for_the_proxy(self):
        """Until it has asked for a connection, as the system tells (SYN-SENT)."""
        port, deadline = self.listener.getsockname()[1], time.monotonic() + PATIENCE
        mine = {it.getsockname()[1] for it in self.waiting}
        while time.monotonic() < deadline:
            with open("/proc/thread-self/net/tcp", encoding="ascii") as it:
                rows = [line.split() for line in it.readlines()[1:]]
            asking = {int(row[1][-4:], 16) for row in rows if row[3] == "02" and int(row[2][-4:], 16) == port}
            if asking - mine:
                return
            time.sleep(0.05)
        raise Unexpected("from the proxy", "a connect", "none")

    def make_room(self):
        """Those that filled the queue leave, so that the proxy's next try is let in. (It tries after 1, 3, 7 and 15 seconds.)"""
        self.mine, self.early = {it.getsockname() for it in self.waiting}, []
        while self.waiting:
            self.waiting.pop().close()
        self.listener.settimeout(0)
        try:
            while True:
                self.take(*self.listener.accept())
        except BlockingIOError:
            self.listener.settimeout(PATIENCE)

    def take(self, connection, address):
        if address in self.mine:
            connection.close()
        else:
            self.early.append(connection)

    def answer(self, text):
        while not self.early:
            self.take(*self.listener.accept())
        reset_behind(self.early.pop(), text)


@scenario
def a_reset_that_comes_with_the_connect(stage):
    """A connection is made late, and answered and reset before the server looks at it: the answer counts, and where none is whole it is
    `origin closed`: nothing was refused."""
    texts = {"/whole": with_length(SMALL), "/end": head_of(200, []) + SMALL, "/none": b""}
    origins = {path: stage.origin(Late()) for path in texts}
    proxy = stage.proxy(*((path, ["*"], it.address) for path, it in origins.items()), options=["--connect-timeout", "20"], records=False)
    clients = {path: proxy.client() for path in texts}
    for path, it in clients.items():
        it.send(request(path))
    for it in origins.values():
        it.wait_for_the_proxy()
    proxy.process.send_signal(signal.SIGSTOP)
    for it in origins.values():
        it.make_room()
    for path, it in origins.items():
        it.answer(texts[path])
    proxy.process.send_signal(signal.SIGCONT)
    expect_answer(clients["/whole"].response(), 200, "edge;fwd=uri-miss", SMALL)
    for it in ("/end", "/none"):
        expect_refusal(clients[it].response(), 502, CLOSED)
    expect("whether all that fell out was told so", None, proxy.process.poll())
