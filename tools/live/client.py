"""A client that keeps every byte that it gets."""
import select
import socket
import struct
import time

from live.expect import Unexpected

# The longest that a scenario waits for anything, in seconds.
PATIENCE = 20


class Response:
    """A response as its bytes spell it. The proxy ends each line of a head by CR LF, and states each content's length."""

    def __init__(self, head, content):
        first, *lines = head.decode("latin-1").split("\r\n")[:-2]
        self.line, self.head, self.content = first, head, content
        self.status = int(first.split(" ")[1])
        self.fields = [tuple(it.split(": ", 1)) for it in lines]

    def value(self, name):
        """The values of the lines of a name, joined; None where there is no such line."""
        values = [it for key, it in self.fields if key.lower() == name.lower()]
        return ", ".join(values) if values else None


class Client:
    """A connection to the proxy. `number` tells it from the others of its run; the proxy has numbers of its own. One with a
    small `window` leaves what it doesn't read at the proxy, and not in the system's buffers."""

    def __init__(self, port, number, window=None):
        self.number, self.sent, self.received, self.at = number, bytearray(), bytearray(), 0
        # (one that is cut off while bytes wait for it lacks these, and says so here)
        self.has_left = self.has_ended = self.was_reset = self.is_cut_off = False
        self.socket = socket.socket()
        self.socket.settimeout(PATIENCE)
        if window:
            self.socket.setsockopt(socket.SOL_SOCKET, socket.SO_RCVBUF, window)
        self.socket.connect(("127.0.0.1", port))
        self.socket.setsockopt(socket.IPPROTO_TCP, socket.TCP_NODELAY, 1)

    def send(self, data):
        self.sent += data
        self.socket.sendall(data)

    def send_slowly(self, data, pause=0.001):
        for byte in data:
            self.send(bytes([byte]))
            time.sleep(pause)

    def ask(self, target, *lines, method="GET", content=None):
        """Sends a request, and reads its response."""
        self.send(request(target, *lines, method=method, content=content))
        return self.response(method)

    def response(self, method="GET"):
        """Reads the next response that isn't an interim one."""
        end = self.read_until(lambda: self.received.find(b"\r\n\r\n", self.at) + 1)
        head = bytes(self.received[self.at : end + 3])
        length = 0
        if method != "HEAD":
            length = int(Response(head, b"").value("Content-Length") or 0)
        self.at = end + 3
        self.read_until(lambda: len(self.received) >= self.at + length)
        content = bytes(self.received[self.at : self.at + length])
        self.at += length
        return Response(head, content)

    def read_until(self, is_there):
        """Reads until `is_there` says so, and returns what it said."""
        while not (found := is_there()):
            if not self.read_some():
                raise Unexpected("an answer", "", f"the connection's end behind {bytes(self.received[self.at :])!r}")
        return found

    def read_some(self, size=1 << 18):
        """Whether something came before the connection's end."""
        try:
            data = self.socket.recv(size)
        except ConnectionResetError:
            self.was_reset = True
            data = b""
        except socket.timeout:
            raise Unexpected("an answer", f"within {PATIENCE} s", f"nothing behind {bytes(self.received[self.at :][-200:])!r}") from None
        self.received += data
        self.has_ended = not data
        return bool(data)

    def is_closed(self, within=PATIENCE):
        """Whether the proxy ends the connection in time, with no byte more that wasn't asked for."""
        deadline = time.monotonic() + within
        while not self.has_ended:
            left = deadline - time.monotonic()
            if left <= 0 or not select.select([self.socket], [], [], left)[0]:
                return False
            self.read_some()
        return not self.was_reset and self.at == len(self.received)

    def open_window(self):
        """From now on it reads as fast as any: a small window makes for many small pieces."""
        self.socket.setsockopt(socket.SOL_SOCKET, socket.SO_RCVBUF, 4 << 20)

    def has_nothing_to_read(self, seconds):
        return not select.select([self.socket], [], [], seconds)[0]

    def half_close(self):
        self.socket.shutdown(socket.SHUT_WR)

    def leave(self, reset=False):
        """Goes away without reading on."""
        if reset:
            self.socket.setsockopt(socket.SOL_SOCKET, socket.SO_LINGER, struct.pack("ii", 1, 0))
        self.has_left = True
        self.socket.close()

    def settle(self):
        """Reads what is there still."""
        while not self.has_left and not self.has_ended and select.select([self.socket], [], [], 0)[0]:
            self.read_some()

    def drain(self):
        """Reads to the end of a connection whose other end is gone."""
        while not self.has_left and not self.has_ended:
            self.read_some()
        self.socket.close()


class Said:
    """What a program that is no `Client` got over a connection."""

    def __init__(self, number, received):
        self.number, self.sent, self.received = number, None, received
        self.has_left, self.has_ended, self.is_cut_off = False, True, False

    def settle(self):
        pass

    drain = settle


def request(target, *lines, method="GET", content=None):
    """A request of HTTP/1.1 with a Host line."""
    head = [f"{method} {target} HTTP/1.1", "Host: h", *lines]
    if content is not None:
        head.append(f"Content-Length: {len(content)}")
    return "".join(f"{it}\r\n" for it in [*head, ""]).encode("latin-1") + (content or b"")
