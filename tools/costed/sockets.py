"""A server under callgrind on 127.0.0.1, and what it is asked."""
import contextlib
import socket
import subprocess
import tempfile
import threading
import time

from costed import spending
from costed.counting import Failed
from costed.kinds import CONTENT, HOST, TABLE
from costed.scripts import head
from shared.sockets import accepted

ONE = head(b"GET /one HTTP/1.1", HOST)
HELD = head(b"GET /held HTTP/1.1", HOST)
# How many times more the one of two servers is asked; and where there are many connections, of which the way to their rest differs.
MORE, LONG = 4000, 12000
# Seconds until what was sent has been read, and whoever is idle counts as that.
QUIET = 4


class Origin:
    """It answers each request with a response of 1 KiB that may be kept, and what is asked for /held once it is let go."""

    def __init__(self):
        self.listener = socket.create_server(("127.0.0.1", 0), backlog=1024)
        self.address = b"127.0.0.1:%d" % self.listener.getsockname()[1]
        self.held, self.asked = threading.Event(), []
        threading.Thread(target=self.run, daemon=True).start()

    def run(self):
        for link in accepted(self.listener):
            threading.Thread(target=self.answer, args=(link,), daemon=True).start()

    def answer(self, link):
        with link, contextlib.suppress(OSError):
            target = link.recv(4096).split(b" ")[1]
            self.asked.append(target)
            if target == b"/held":
                self.held.wait()
            date = time.strftime("Date: %a, %d %b %Y %H:%M:%S GMT", time.gmtime()).encode()
            lines = [date, b"Cache-Control: max-age=600", b"Content-Type: text/plain", b'ETag: "v1"', b"Content-Length: 1024"]
            link.sendall(head(b"HTTP/1.1 200 OK", *lines) + CONTENT)
            link.recv(1)

    def close(self):
        self.held.set()
        self.listener.close()


def read(link, says=b"edge;hit;ttl="):
    """Reads an answer whole, which has to say so."""
    answer = b""
    while not answer.endswith(b"\r\n\r\n" + CONTENT):
        piece = link.recv(65536)
        if not piece:
            raise Failed(f"the server ended a connection behind {answer!r}")
        answer += piece
    if not answer.startswith(b"HTTP/1.1 200 ") or says not in answer:
        raise Failed(f"wanted {says!r}, got {answer[:300]!r}")


def ask(link, times, says=b"edge;hit;ttl="):
    for _ in range(times):
        link.sendall(ONE)
        read(link, says)


def served(program, options, play):
    """What a server spent that was played with: instructions by object and function, calls of the allocators, and its pages of figures."""
    origin = Origin()
    with contextlib.closing(origin), tempfile.TemporaryDirectory(prefix="hit-cost-") as room:
        with open(f"{room}/table.toml", "wb") as it:
            it.write(TABLE.replace(b"127.0.0.1:8081", origin.address))
        words = ["serve", f"{room}/table.toml", "--listen", "127.0.0.1:0", "--drain", f"{room}/drain", "--client-timeout", "600"]
        words += [it.replace("ROOM", room) for it in options]
        words = [*spending.callgrind(f"{room}/out"), program, *words]
        server = subprocess.Popen(words, stdin=subprocess.DEVNULL, stdout=subprocess.DEVNULL, stderr=subprocess.PIPE)
        try:
            port = next((int(it.split(b":")[1]) for it in server.stderr if it.startswith(b"listening on ")), None)
            if port is None:
                raise Failed("the server doesn't listen")
            threading.Thread(target=server.stderr.read, daemon=True).start()
            play(port, origin)
            with open(f"{room}/drain", "wb"):
                pass
            if server.wait(60):
                raise Failed(f"the server ended with status {server.returncode}")
        except (OSError, subprocess.TimeoutExpired) as fault:
            raise Failed(f"the server was lost: {fault}") from None
        finally:
            server.kill()
        return spending.counted(f"{room}/out", program)


class Clients:
    """Connections that are ended together."""

    def __init__(self, port):
        self.port, self.all = port, contextlib.ExitStack()

    def __enter__(self):
        return self

    def __exit__(self, *_):
        self.all.close()

    def one(self):
        link = self.all.enter_context(socket.create_connection(("127.0.0.1", self.port)))
        link.setsockopt(socket.IPPROTO_TCP, socket.TCP_NODELAY, 1)
        link.settimeout(60)
        return link

    def first(self):
        """A connection that has had /one stored."""
        link = self.one()
        ask(link, 1, b"edge;fwd=uri-miss;ttl=")
        return link


def hits(times, idle=0):
    """So many hits on one connection, where so many others have asked once and stay."""

    def play(port, origin):
        with Clients(port) as clients:
            link = clients.first()
            for _ in range(idle):
                ask(clients.one(), 1)
            if idle:
                time.sleep(QUIET)
            ask(link, times)

    return play


def connections(times):
    """So many connections, one after the other, of one hit each."""

    def play(port, origin):
        with Clients(port) as clients:
            clients.first()
            for _ in range(times):
                with Clients(port) as it:
                    ask(it.one(), 1)

    return play


def beside(times, waiting):
    """So many hits on one connection, where so many others wait for one answer: with its link they are open ends."""

    def play(port, origin):
        with Clients(port) as clients:
            link, others = clients.first(), wait(clients, waiting)
            ask(link, times)
            go_on(origin, others)

    return play


def wait(clients, count):
    """So many clients that have asked for /held, and have been read."""
    others = [clients.one() for _ in range(count)]
    for it in others:
        it.sendall(HELD)
    time.sleep(QUIET)
    return others


def go_on(origin, others):
    """Each is answered, by one answer of the origin."""
    origin.held.set()
    for it in others:
        read(it, b"edge;fwd=uri-miss;ttl=")
    if origin.asked.count(b"/held") != 1:
        raise Failed(f"/held was asked for {origin.asked.count(b'/held')} times")


def waiting(count):
    def play(port, origin):
        with Clients(port) as clients:
            clients.first()
            go_on(origin, wait(clients, count))

    return play


# By name: what it is, a play of so many times, and how many those are, fewer and more.
SERVED = {
    "served_hit": ("served: a hit, the only connection", hits, (200, 200 + MORE)),
    "served_connection": ("served: a connection that asks once, for a hit, and ends", connections, (100, 1100)),
    "served_idle_16": ("served: a hit, 15 other connections idle", lambda n: hits(n, 15), (200, 200 + LONG)),
    "served_idle_256": ("served: a hit, 255 other connections idle", lambda n: hits(n, 255), (200, 200 + LONG)),
    "served_busy_16": ("served: a hit, 14 others wait for one answer", lambda n: beside(n, 14), (200, 200 + LONG)),
    "served_busy_256": ("served: a hit, 254 others wait for one answer", lambda n: beside(n, 254), (200, 200 + LONG)),
    "served_waits": ("served: a connection that waits for another's answer, behind 127 to 254 that do", waiting, (127, 255)),
}


def cost(program, name):
    _, play, (fewer, more) = SERVED[name]
    less, much = (served(program, [], play(n))[:2] for n in (fewer, more))
    return spending.cost(program, less, much, more - fewer)
