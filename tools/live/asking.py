"""An honest client in a process of its own, over epoll: it asks by the clock, whether the answers before have come or not."""
import errno
import gc
import json
import os
import select
import socket
import time

from live.busy_origin import ANSWER
from live.client import request

# How long it waits for an answer, and so many ask in a second.
LONGEST, RATE = 5.0, 200


class Asking:
    """One request over a connection of its own for each target."""

    def __init__(self, port, targets, source):
        self.port, self.targets, self.source = port, targets, source
        self.poll, self.open, self.told = select.epoll(), {}, [None] * len(targets)

    def begin(self, i):
        end = socket.socket(socket.AF_INET, socket.SOCK_STREAM | socket.SOCK_NONBLOCK)
        end.bind((self.source, 0))
        began, code = time.monotonic(), end.connect_ex(("127.0.0.1", self.port))
        if code not in (0, errno.EINPROGRESS):
            end.close()
            return
        self.open[end.fileno()] = [end, i, began, b"", request(self.targets[i], "Connection: close")]
        self.poll.register(end, select.EPOLLOUT)

    def happen(self, number, event):
        """It is over where its answer has ended, and right where it is the origin's."""
        one = self.open[number]
        end, i, began, _, text = one
        try:
            if text:
                end.send(text)
                one[4] = b""
                self.poll.modify(end, select.EPOLLIN)
                return
            data = end.recv(65536)
        except BlockingIOError:
            return
        except OSError:
            data, one[3] = b"", b""
        one[3] += data
        if data:
            return
        if one[3].startswith(b"HTTP/1.1 200") and one[3].endswith(ANSWER[-1024:]):
            self.told[i] = time.monotonic() - began
        self.end(number)

    def end(self, number):
        self.open.pop(number)[0].close()

    def run(self):
        gc.disable()
        started, at = time.monotonic(), 0
        while at < len(self.targets) or self.open:
            now = time.monotonic()
            while at < len(self.targets) and started + at / RATE <= now:
                self.begin(at)
                at += 1
            for number in [key for key, one in self.open.items() if now - one[2] > LONGEST]:
                self.end(number)
            wait = started + at / RATE - now if at < len(self.targets) else 0.1
            for number, event in self.poll.poll(max(0.0, min(wait, 0.1))):
                if number in self.open:
                    self.happen(number, event)
        return self.told


def asked(port, targets, source="127.0.0.1"):
    """The seconds until each target's answer was whole; None where it didn't come in five, or another one did."""
    there, here = os.pipe()
    child = os.fork()
    if child == 0:
        try:
            os.write(here, json.dumps(Asking(port, targets, source).run()).encode())
        finally:
            os._exit(0)
    os.close(here)
    text = b""
    while data := os.read(there, 65536):
        text += data
    os.close(there)
    os.waitpid(child, 0)
    return json.loads(text)


def share(took, part):
    """Of what was waited, in milliseconds: no more than this for so large a part."""
    return sorted(took)[min(len(took) - 1, int(part * len(took)))] * 1000


def summed(told):
    """`failed of all, median, p99, worst`."""
    took = [it for it in told if it is not None]
    times = f"median {share(took, 0.5):,.1f} ms, p99 {share(took, 0.99):,.1f} ms, worst {max(took) * 1000:,.1f} ms" if took else "none answered"
    return f"{len(told) - len(took):>4} failed of {len(told):,}, {times}"
