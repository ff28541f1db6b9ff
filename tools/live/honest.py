"""A client that means well, beside others: what it has to wait, and what a hit costs meanwhile."""
import socket
import statistics
import threading
import time

from live.busy_origin import ANSWER
from live.client import PATIENCE, request
from live.expect import Unexpected
from shared.sockets import SIZE, received

# Requests a second, and how long one waits.
RATE, LONGEST = 5, 5.0
SIDE_BY_SIDE = 32


def connect(proxy):
    return socket.create_connection(("127.0.0.1", proxy.port), timeout=PATIENCE)


def ask(port, told, target, source):
    """One request over a connection of its own; the seconds until its answer was whole, or None."""
    began = time.monotonic()
    try:
        with socket.create_connection(("127.0.0.1", port), timeout=LONGEST, source_address=(source, 0)) as it:
            it.sendall(request(target, "Connection: close"))
            text = b""
            for data in received(it, 65536):
                text += data
                it.settimeout(max(0.01, began + LONGEST - time.monotonic()))
        is_right = text.startswith(b"HTTP/1.1 200") and text.endswith(ANSWER[-1024:])
    except OSError:
        is_right = False
    told.append(time.monotonic() - began if is_right else None)


def waits(port, seconds, target="/a", source="127.0.0.1"):
    """The seconds of each answer, of five asked for in a second; None where none came."""
    told, crowd = [], []
    for i in range(int(seconds * RATE)):
        crowd.append(threading.Thread(target=ask, args=[port, told, target, source]))
        crowd[-1].start()
        time.sleep(1 / RATE)
    for it in crowd:
        it.join()
    return told


def summed(told):
    """`failed of all, median, worst` of what was waited."""
    took = [it for it in told if it is not None]
    times = f"median {statistics.median(took) * 1000:,.1f} ms, worst {max(took) * 1000:,.1f} ms" if took else "none answered"
    return f"{len(told) - len(took):>3} failed of {len(told)}, {times}"


def read_answers(connection, count):
    """Reads until so many whole answers have come."""
    left = b""
    while count:
        data = connection.recv(SIZE)
        if not data:
            raise Unexpected("answers", f"{count} more", "the connection's end")
        left += data
        found = left.count(ANSWER[-1024:])
        if found:
            count, left = count - found, left[left.rindex(ANSWER[-1024:]) + 1024 :]


def hits_a_second(proxy, count):
    """Of the program's processor: one request after another on a few connections."""
    ends = [connect(proxy) for _ in range(SIDE_BY_SIDE)]
    before = proxy.processor_seconds()
    for _ in range(count // SIDE_BY_SIDE):
        for it in ends:
            it.sendall(request("/a"))
        for it in ends:
            read_answers(it, 1)
    spent = proxy.processor_seconds() - before
    for it in ends:
        it.close()
    return count / max(spent, 0.01)
