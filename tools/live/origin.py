"""An origin on 127.0.0.1 whose answers are functions, by the path that is asked for."""
import socket
import struct
import threading
import time

from live.client import PATIENCE
from live.expect import Skipped, Unexpected
from shared.sockets import SIZE, accepted, close_listener


class Fetch:
    """One connection of the proxy to an origin: the request that came, and whether the proxy has ended it."""

    def __init__(self, connection):
        self.socket, self.received, self.is_whole, self.is_over = connection, bytearray(), False, threading.Event()
        self.method = self.target = ""
        self.content = b""
        connection.settimeout(PATIENCE)
        connection.setsockopt(socket.IPPROTO_TCP, socket.TCP_NODELAY, 1)

    def read_request(self):
        while b"\r\n\r\n" not in self.received:
            self.read_some()
        head, _, _ = bytes(self.received).partition(b"\r\n\r\n")
        first, *lines = head.decode("latin-1").split("\r\n")
        self.method, self.target, _ = first.split(" ")
        self.fields = [tuple(it.split(": ", 1)) for it in lines]
        length = int(dict(self.fields).get("Content-Length", 0))
        while len(self.received) < len(head) + 4 + length:
            self.read_some()
        self.content = bytes(self.received[len(head) + 4 :])
        self.is_whole = True

    def read_some(self):
        data = self.socket.recv(SIZE)
        if not data:
            raise ConnectionError("the proxy has ended the connection")
        self.received += data

    def value(self, name):
        return dict(self.fields).get(name)

    def send(self, data):
        self.socket.sendall(data)

    def wait_for_its_end(self):
        """Reads until the proxy ends the connection; what comes meanwhile is kept."""
        try:
            while True:
                self.read_some()
        except OSError:
            self.is_over.set()

    def reset(self):
        self.socket.setsockopt(socket.SOL_SOCKET, socket.SO_LINGER, struct.pack("ii", 1, 0))
        self.socket.close()


class Origin:
    """`answers` has a function of a `Fetch` for each path; what isn't there is 404."""

    def __init__(self, answers, port=0):
        self.answers, self.fetches, self.came = answers, [], threading.Condition()
        self.listener = socket.create_server(("127.0.0.1", port), backlog=512)
        self.address = "127.0.0.1:%d" % self.listener.getsockname()[1]
        threading.Thread(target=self.accept, daemon=True).start()

    def accept(self):
        for connection in accepted(self.listener):
            fetch = Fetch(connection)
            with self.came:
                self.fetches.append(fetch)
                self.came.notify_all()
            threading.Thread(target=self.serve, args=[fetch], daemon=True).start()

    def serve(self, fetch):
        try:
            fetch.read_request()
            with self.came:
                self.came.notify_all()
            self.answers.get(fetch.target.partition("?")[0], whole(404, content=b"none"))(fetch)
            fetch.wait_for_its_end()
        except OSError:
            fetch.is_over.set()
        finally:
            fetch.socket.close()

    def wait_for(self, count):
        """The fetches, once so many requests have come."""
        with self.came:
            if not self.came.wait_for(lambda: sum(it.is_whole for it in self.fetches) >= count, PATIENCE):
                raise Unexpected("requests at the origin", count, len(self.fetches))
        return self.fetches

    def wait_for_connections(self, count, seconds):
        """Until the thread that accepts has come to so many, for a while."""
        self.wait_within(lambda: len(self.fetches) >= count, seconds)

    def wait_within(self, is_so, seconds):
        """Whether something is so of what has come, in time."""
        with self.came:
            return self.came.wait_for(is_so, seconds)

    def close(self):
        close_listener(self.listener)


def head_of(status, lines):
    return "".join(f"{it}\r\n" for it in [f"HTTP/1.1 {status} Said so", *lines, ""]).encode("latin-1")


def whole(status, *lines, content=b""):
    """An answer with its length, at once."""
    length = [] if status in (204, 304) else [f"Content-Length: {len(content)}"]
    text = head_of(status, [*lines, *length])
    return lambda fetch: fetch.send(text + (b"" if fetch.method == "HEAD" else content))


def raw(text, then=lambda fetch: None):
    """These bytes, and what is done behind them."""

    def answer(fetch):
        fetch.send(text)
        then(fetch)

    return answer


def ends(fetch):
    """The origin sends no more."""
    fetch.socket.shutdown(socket.SHUT_WR)


def byte_by_byte(text, pause):
    def answer(fetch):
        for byte in text:
            fetch.send(bytes([byte]))
            time.sleep(pause)

    return answer


def held_back(event, answer):
    """An answer that isn't sent before the scenario says so."""

    def wait(fetch):
        if event.wait(PATIENCE):
            answer(fetch)

    return wait


def silent(fetch):
    """Nothing, until the proxy ends the connection."""
    fetch.wait_for_its_end()


class Refusing:
    """An address at which nobody listens: the port is taken, so no other program can."""

    def __init__(self, port=0):
        self.socket = socket.socket()
        # (connections that are over may stand at the port still)
        self.socket.setsockopt(socket.SOL_SOCKET, socket.SO_REUSEADDR, 1)
        self.socket.bind(("127.0.0.1", port))
        self.address = "127.0.0.1:%d" % self.socket.getsockname()[1]

    def close(self):
        self.socket.close()


class FullQueue:
    """A listener that accepts nothing and whose queue is full, so that a connect to it hangs."""

    def __init__(self):
        self.listener = socket.socket()
        self.listener.bind(("127.0.0.1", 0))
        self.listener.listen(0)
        self.address = "127.0.0.1:%d" % self.listener.getsockname()[1]
        self.waiting = []
        for _ in range(8):
            one = socket.socket()
            one.settimeout(0.5)
            self.waiting.append(one)
            try:
                one.connect(self.listener.getsockname())
            except socket.timeout:
                return
        raise Skipped("here a listener's queue is never full")

    def close(self):
        for it in [*self.waiting, self.listener]:
            it.close()
