"""Clients that mean no good, or no longer anything, by the thousand: one process of its own, over epoll."""
import errno
import heapq
import json
import os
import select
import signal
import socket
import time
from collections import Counter

# The least time between two connections of one attacker, and that of one who leaves; between two bytes; until one leaves.
AGAIN, AGAIN_BEHIND_LEAVING, BETWEEN_BYTES, STAY = 0.1, 1.0, 2.0, 0.05
# A busy one asks for so many hits in one write, and again when it has them. One of a crowd asks again a while after its answer.
AT_ONCE = 20
# One that is stuck has room for so much of an answer, and takes none of it.
WINDOW = 4096
# So many ports of one address are used, and then those of the next one.
PORTS_OF_AN_ADDRESS = 20000
BIND_WITHOUT_PORT = 24
STATUSES = b"200", b"429", b"502", b"503", b"504"
STARTS = {
    "idle": b"GET /a HTTP/1.1\r\nHost: h\r\n\r\n",
    "head": b"GET /a HTTP/1.1\r\nHost: h\r\nX: ",
    "content": b"POST /post HTTP/1.1\r\nHost: h\r\nContent-Length: 100000\r\n\r\nx",
    "leave": b"GET /endless?%d HTTP/1.1\r\nHost: h\r\n\r\n",
    "hang": b"GET /silent?%d HTTP/1.1\r\nHost: h\r\n\r\n",
    "busy": b"GET /a HTTP/1.1\r\nHost: h\r\n\r\n" * AT_ONCE,
    "byte": b"G",
    "crowd": b"GET /slow HTTP/1.1\r\nHost: h\r\n\r\n",
    "stuck": b"GET /kept?1000000 HTTP/1.1\r\nHost: h\r\n\r\n",
}
KINDS = {it: [it] for it in STARTS} | {"mixture": ["idle", "head", "content", "leave"]}
WHAT_THEY_DO = {
    "idle": "ask once and stay",
    "head": "send a head, a byte every 2 s",
    "content": "send a content, a byte every 2 s",
    "leave": "ask for an answer without an end and close, each second",
    "hang": "ask for what its origin never answers, and wait",
    "busy": f"ask for {AT_ONCE} hits in one write, again and again",
    "byte": "send a byte and wait",
    "crowd": "ask for one page that takes 2 s and is stale when it comes",
    "stuck": "ask for 1 MB and take nothing of it",
    "mixture": "are a quarter of each of the first four",
}


class Attacker:
    def __init__(self, number, kind):
        self.number, self.kind, self.socket, self.began, self.is_up = number, kind, None, 0.0, False
        self.asked_at, self.left, self.rest = 0.0, 0, b""


class Attack:
    """So many attackers before a port, until the process is told to end."""

    def __init__(self, port, kind, count):
        self.port, self.poll, self.due, self.by_socket, self.told = port, select.epoll(), [], {}, Counter()
        kinds = KINDS[kind]
        self.attackers = [Attacker(i, kinds[i % len(kinds)]) for i in range(count)]
        self.order, self.is_over = 0, False

    def plan(self, seconds, act, one):
        self.order += 1
        heapq.heappush(self.due, (time.monotonic() + seconds, self.order, act, one, one.began))

    def connect(self, one):
        one.began, one.is_up = time.monotonic(), False
        one.socket = socket.socket(socket.AF_INET, socket.SOCK_STREAM | socket.SOCK_NONBLOCK)
        one.socket.setsockopt(socket.SOL_IP, BIND_WITHOUT_PORT, 1)
        if one.kind == "stuck":
            one.socket.setsockopt(socket.SOL_SOCKET, socket.SO_RCVBUF, WINDOW)
        one.socket.bind((f"127.0.1.{1 + one.number // PORTS_OF_AN_ADDRESS}", 0))
        code = one.socket.connect_ex(("127.0.0.1", self.port))
        self.told["connections"] += 1
        if code not in (0, errno.EINPROGRESS):
            self.told["refused"] += 1
            one.socket.close()
            self.plan(AGAIN, self.connect, one)
            return
        self.by_socket[one.socket.fileno()] = one
        self.poll.register(one.socket, select.EPOLLIN | select.EPOLLOUT)

    def has_connected(self, one):
        """Begins what its kind does."""
        one.is_up = True
        self.poll.modify(one.socket, 0 if one.kind == "stuck" else select.EPOLLIN)
        start = STARTS[one.kind]
        one.asked_at, one.left, one.rest = time.monotonic(), AT_ONCE, b""
        one.socket.send(start % self.told["asked"] if b"%d" in start else start)
        self.told["asked"] += 1
        if one.kind == "leave":
            self.plan(STAY, self.leave, one)
        elif one.kind in ("head", "content"):
            self.plan(BETWEEN_BYTES, self.drip, one)

    def drip(self, one):
        one.socket.send(b"x")
        self.plan(BETWEEN_BYTES, self.drip, one)

    def ask_again(self, one):
        one.asked_at = time.monotonic()
        one.socket.send(STARTS[one.kind])

    def leave(self, one):
        self.close(one, AGAIN_BEHIND_LEAVING)

    def close(self, one, again):
        del self.by_socket[one.socket.fileno()]
        one.socket.close()
        one.socket = None
        pause = max(again - (time.monotonic() - one.began), 0.001)
        one.began = 0.0
        self.plan(pause, self.connect, one)

    def happen(self, one, event):
        try:
            if event & (select.EPOLLHUP | select.EPOLLERR):
                raise ConnectionResetError
            if not one.is_up and event & select.EPOLLOUT:
                self.has_connected(one)
            if event & select.EPOLLIN:
                data = one.socket.recv(65536)
                if not data:
                    raise ConnectionResetError
                self.count(one, data)
        except BlockingIOError:
            pass
        except OSError:
            self.told["cut" if one.is_up else "refused"] += 1
            self.close(one, AGAIN)

    def count(self, one, data):
        """Answers by their status, and the longest that one with another status than 200 took."""
        # (a status may come in two parts)
        data = one.rest + data
        one.rest, began = data[-11:], self.told["200"]
        for it in STATUSES:
            self.told[it.decode()] += data.count(b"HTTP/1.1 " + it)
        if data.startswith(b"HTTP/1.1 5"):
            self.told["slowest error, ms"] = max(self.told["slowest error, ms"], int((time.monotonic() - one.asked_at) * 1000))
        if one.kind == "crowd" and self.told["200"] > began:
            self.plan(AGAIN, self.ask_again, one)
        elif one.kind == "busy":
            one.left -= self.told["200"] - began
            if one.left <= 0:
                one.left += AT_ONCE
                one.socket.send(STARTS["busy"])

    def act(self):
        """What is due by the clock; the seconds until the next of it."""
        now = time.monotonic()
        while self.due and self.due[0][0] <= now:
            _, _, act, one, began = heapq.heappop(self.due)
            # (what was planned for a connection that is over isn't done to the next one)
            if one.began == began:
                try:
                    act(one)
                except OSError:
                    self.told["cut"] += 1
                    self.close(one, AGAIN)
        return max(0.0, min(self.due[0][0] - now, 0.5)) if self.due else 0.5

    def run(self, report):
        """Connects all at first, no more than the queue of a listener holds at a time, and tells when they have."""
        signal.signal(signal.SIGTERM, lambda *_: setattr(self, "is_over", True))
        for i, one in enumerate(self.attackers):
            one.began = 0.0
            self.plan(i / 5000, self.connect, one)
        began, is_told = time.monotonic(), False
        while not self.is_over:
            for number, event in self.poll.poll(self.act()):
                if number in self.by_socket:
                    self.happen(self.by_socket[number], event)
            are_up = self.told["asked"] >= len(self.attackers)
            if not is_told and (are_up or time.monotonic() - began > 5 + len(self.attackers) / 1000):
                os.write(report, b"ready\n")
                is_told = True
        self.told["open at the end"] = sum(it.is_up and it.socket is not None for it in self.attackers)
        os.write(report, json.dumps(self.told).encode())


class Attackers:
    """The process of an attack; it has begun when this is made."""

    def __init__(self, port, kind, count):
        self.report, report = os.pipe()
        self.child = os.fork()
        if self.child == 0:
            try:
                Attack(port, kind, count).run(report)
            finally:
                os._exit(0)
        os.close(report)
        os.read(self.report, 6)

    def end(self):
        """What they did."""
        os.kill(self.child, signal.SIGTERM)
        text = b""
        while data := os.read(self.report, 65536):
            text += data
        os.close(self.report)
        os.waitpid(self.child, 0)
        return json.loads(text or b"{}")
