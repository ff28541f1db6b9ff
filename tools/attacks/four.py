"""Four honest clients in a process of their own, over epoll: each asks by the clock, whether the answers before have come or not."""
import errno
import gc
import json
import os
import select
import socket
import time
from collections import deque

from live.client import request

# How long one waits for an answer, and the longest that the loop waits for an event.
LONGEST, TICK = 20.0, 0.02


class Kind:
    """What one asks for, each so many seconds, and what it has to get. One that stays keeps its connection; one with a pace sends so
    many bytes in a second."""

    def __init__(self, text, status, content, every, stays=False, pace=None):
        self.text, self.status, self.content, self.every, self.stays, self.pace = text, status, content, every, stays, pace


HIT = request("/a")
KINDS = {
    "visitor": Kind(HIT, 200, b"x" * 1024, 0.05, stays=True),
    "newcomer": Kind(HIT, 200, b"x" * 1024, 0.1),
    "downloader": Kind(request("/kept?990000"), 200, b"y" * 990000, 0.5),
    "uploader": Kind(request("/post", method="POST", content=b"z" * 400000), 201, b"", 1.0, pace=100000),
}


class Connection:
    """A connection of a kind, what it has still to send of its request, and what came of the answer."""

    def __init__(self, name, port):
        self.name, self.kind = name, KINDS[name]
        self.socket = socket.socket(socket.AF_INET, socket.SOCK_STREAM | socket.SOCK_NONBLOCK)
        self.code = self.socket.connect_ex(("127.0.0.1", port))
        self.is_up, self.has_answered, self.due = False, False, None
        self.began, self.text, self.sent, self.came = 0.0, b"", 0, bytearray()

    def ask(self, due):
        """Its request counts from when it was due."""
        self.due, self.began, self.text, self.sent, self.came = due, time.monotonic(), self.kind.text, 0, bytearray()

    def send(self):
        """As much as it may have sent by now, and as the system takes."""
        if not self.is_up or self.due is None:
            return
        most = len(self.text)
        if self.kind.pace:
            most = min(most, int((time.monotonic() - self.began + TICK) * self.kind.pace))
        if self.sent < most:
            try:
                self.sent += self.socket.send(memoryview(self.text)[self.sent : most])
            except BlockingIOError:
                pass

    def is_whole(self):
        """Whether its answer has come; it raises where another one did."""
        head, end, content = bytes(self.came[:1000]).partition(b"\r\n\r\n")
        if not end:
            return False
        if not head.startswith(b"HTTP/1.1 %d " % self.kind.status):
            raise ConnectionError(head.partition(b"\r\n")[0].decode("latin-1"))
        at = len(head) + 4
        if len(self.came) - at < len(self.kind.content):
            return False
        if self.came[at:] != self.kind.content:
            raise ConnectionError("another content")
        return True


class Four:
    """The loop: what is due is asked for, what may be sent is sent, and what has come is read."""

    def __init__(self, port):
        self.port, self.poll, self.open = port, select.epoll(), {}
        self.told, self.why = {it: [] for it in KINDS}, {it: [] for it in KINDS}
        # (those that stay have one connection each, and what it hasn't asked for yet)
        self.staying, self.waiting = {}, {it: deque() for it in KINDS}

    def begin(self, name, due):
        if KINDS[name].stays:
            self.waiting[name].append(due)
            self.go_on(name)
        else:
            self.connect(name, due)

    def go_on(self, name):
        """Who stays asks for the next, if it waits for nothing."""
        one = self.staying.get(name)
        if not self.waiting[name] or one and one.due is not None:
            return
        if one:
            one.ask(self.waiting[name].popleft())
            self.happen(one, select.EPOLLOUT)
        else:
            self.staying[name] = self.connect(name, self.waiting[name].popleft())

    def connect(self, name, due):
        one = Connection(name, self.port)
        one.ask(due)
        self.open[one.socket.fileno()] = one
        self.poll.register(one.socket, select.EPOLLIN | select.EPOLLOUT)
        if one.code not in (0, errno.EINPROGRESS):
            self.end(one, os.strerror(one.code))
        return one

    def happen(self, one, event):
        if event & select.EPOLLOUT and not one.is_up:
            one.is_up = True
            self.poll.modify(one.socket, select.EPOLLIN)
        try:
            one.send()
            if event & ~select.EPOLLOUT:
                data = one.socket.recv(1 << 18)
                if not data:
                    raise ConnectionError("its end")
                one.came += data
                if one.is_whole():
                    self.answered(one)
        except BlockingIOError:
            pass
        except OSError as fault:
            self.end(one, str(fault))

    def answered(self, one):
        self.told[one.name].append(time.monotonic() - one.due)
        one.due, one.has_answered = None, True
        if one.kind.stays:
            self.go_on(one.name)
        else:
            self.end(one, None)

    def end(self, one, why):
        """A connection is over; what it had asked for has failed. A kept one may end between two requests: what was asked for on it then is
        asked for once more, as browsers do (RFC 9112, 9.3.1)."""
        del self.open[one.socket.fileno()]
        one.socket.close()
        if one.due is not None and one.has_answered and not one.came:
            self.waiting[one.name].appendleft(one.due)
        elif one.due is not None:
            self.told[one.name].append(None)
            self.why[one.name].append(f"{why} behind {one.sent} bytes sent, {len(one.came)} got, {time.monotonic() - one.began:.1f} s")
        if self.staying.get(one.name) is one:
            del self.staying[one.name]
            self.go_on(one.name)

    def run(self, seconds):
        gc.disable()
        started = time.monotonic()
        due = {it: started for it in KINDS}
        while any(it.due is not None for it in self.open.values()) or time.monotonic() < started + seconds:
            now = time.monotonic()
            for name, kind in KINDS.items():
                while due[name] <= now and due[name] < started + seconds:
                    self.begin(name, due[name])
                    due[name] += kind.every
            for number, event in self.poll.poll(TICK):
                if number in self.open:
                    self.happen(self.open[number], event)
            for one in [*self.open.values()]:
                if one.due is not None and now - one.began > LONGEST:
                    self.end(one, "no answer")
                elif one.kind.pace and one.is_up:
                    self.happen(one, select.EPOLLOUT)
        return {"told": self.told, "why": self.why}


def asked_by_four(port, seconds):
    """Of each of the four the seconds that its answers took, None where none came or another one did, and why."""
    there, here = os.pipe()
    child = os.fork()
    if child == 0:
        try:
            text = json.dumps(Four(port).run(seconds)).encode()
            with os.fdopen(here, "wb") as it:
                it.write(text)
        finally:
            os._exit(0)
    os.close(here)
    with os.fdopen(there, "rb") as it:
        text = it.read()
    os.waitpid(child, 0)
    return json.loads(text)
