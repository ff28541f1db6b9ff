"""An origin in a process of its own, for measurements: it answers thousands of connections at a time, over epoll."""
import os
import select
import signal
import socket
import time

from shared.sockets import accepted

ANSWER = b"HTTP/1.1 200 OK\r\nCache-Control: max-age=600\r\nConnection: close\r\nContent-Length: 1024\r\n\r\n" + b"x" * 1024
MADE = b"HTTP/1.1 201 Created\r\nConnection: close\r\nContent-Length: 0\r\n\r\n"
ENDLESS = b"HTTP/1.1 200 OK\r\nCache-Control: no-store\r\nConnection: close\r\n\r\n"
LARGE = b"HTTP/1.1 200 OK\r\nCache-Control: no-store\r\nConnection: close\r\nContent-Length: %d\r\n\r\n"
KEPT = LARGE.replace(b"no-store", b"max-age=600")
# (stale when it comes, since it takes longer)
SLOW = ANSWER.replace(b"max-age=600", b"max-age=1")
# The paths whose answers come later: after how many seconds, and which.
LATER = {b"/late": (3, MADE), b"/slow": (2, SLOW)}


class Serving:
    """`/endless` is answered by a byte each half second for ever, `/silent` by nothing, `/late` by 201 after three seconds, `/slow` by a page
    after two, `/large?N` by N bytes, `/kept?N` by N that may be kept, what else has a content by 201 once it is whole, and all else by 1 KiB
    that may be kept."""

    def __init__(self, listener):
        self.listener, self.poll, self.open, self.endless, self.late = listener, select.epoll(), {}, set(), []
        listener.setblocking(False)
        self.poll.register(listener, select.EPOLLIN)

    def run(self):
        due = time.monotonic()
        while True:
            for number, event in self.poll.poll(0.1):
                if number == self.listener.fileno():
                    self.accept()
                elif number in self.open:
                    self.happen(number, event)
            while self.late and self.late[0][0] <= time.monotonic():
                _, number, connection, answer = self.late.pop(0)
                if number in self.open and self.open[number][0] is connection:
                    self.send(number, answer, True)
            if time.monotonic() >= due:
                due = time.monotonic() + 0.5
                for number in [*self.endless]:
                    self.send(number, b"x")

    def accept(self):
        for connection in accepted(self.listener):
            connection.setblocking(False)
            # (what has come, what is to be sent)
            self.open[connection.fileno()] = [connection, b"", b""]
            self.poll.register(connection, select.EPOLLIN)

    def close(self, number):
        self.endless.discard(number)
        self.open.pop(number)[0].close()

    def happen(self, number, event):
        one = self.open[number]
        if event & select.EPOLLOUT:
            self.send(number, b"")
            return
        try:
            data = one[0].recv(1 << 20)
        except OSError:
            data = b""
        if not data:
            self.close(number)
            return
        one[1] += data
        self.answer(number, one[1])

    def answer(self, number, text):
        head, end, content = text.partition(b"\r\n\r\n")
        target = text.split(b" ", 2)[1:2]
        length = next((int(it.split(b":")[1]) for it in head.lower().split(b"\r\n") if it.startswith(b"content-length:")), 0)
        if not end or len(content) < length or not target:
            return
        path, _, rest = target[0].partition(b"?")
        if path == b"/endless":
            self.endless.add(number)
            self.send(number, ENDLESS)
        elif path in (b"/large", b"/kept"):
            count = int(rest.partition(b"-")[0])
            self.send(number, (LARGE if path == b"/large" else KEPT) % count + b"y" * count, True)
        elif path in LATER:
            seconds, later = LATER[path]
            self.late.append((time.monotonic() + seconds, number, self.open[number][0], later))
            self.late.sort(key=lambda it: it[0])
        elif path != b"/silent":
            self.send(number, MADE if length else ANSWER, True)

    def send(self, number, data, is_last=False):
        """What the system doesn't take now is sent when it does."""
        one = self.open[number]
        one[2] += data
        if is_last:
            one[1] = None
        try:
            while one[2]:
                one[2] = one[2][one[0].send(one[2]) :]
        except BlockingIOError:
            self.poll.modify(one[0], select.EPOLLOUT)
            return
        except OSError:
            self.close(number)
            return
        if one[1] is None:
            self.close(number)
        else:
            self.poll.modify(one[0], select.EPOLLIN)


class BusyOrigin:
    """The process; `address` is where it listens."""

    def __init__(self):
        listener = socket.create_server(("127.0.0.1", 0), backlog=4096)
        self.port = listener.getsockname()[1]
        self.address = f"127.0.0.1:{self.port}"
        self.child = os.fork()
        if self.child == 0:
            try:
                Serving(listener).run()
            finally:
                os._exit(1)
        listener.close()

    def close(self):
        os.kill(self.child, signal.SIGKILL)
        os.waitpid(self.child, 0)
