"""One address that opens as many connections as it can and sends a byte on each, or nothing: through the fronts of deploy/ others are
answered all the same."""
import resource
import socket
import time

from deployed.fronts import Front
from deployed.stand import need, part
from live.expect import Unexpected, expect, expect_within

# More than haproxy's `maxconn`, and more than nginx takes by its own default of 512 a worker.
CONNECTIONS = 3000
ASKED, LONGEST = 60, 2.0


@part
def one_address(stand):
    need("nginx", "haproxy", "curl")
    take_descriptors()
    for kind in ("nginx", "haproxy"):
        front = Front(stand, kind, records=False)
        for scheme, said in (("http", b"G"), ("https", b"")):
            name = f"with_{len(said)}_bytes_on_each_of_{CONNECTIONS}_holds_nobody_up_at_{kind}_by_{scheme}"
            yield name, lambda front=front, scheme=scheme, said=said: holds_nobody_up(front, scheme, said)


def take_descriptors():
    _, most = resource.getrlimit(resource.RLIMIT_NOFILE)
    resource.setrlimit(resource.RLIMIT_NOFILE, (most, most))


def holds_nobody_up(front, scheme, said):
    """Sixty requests of another address, each on a connection of its own."""
    expect("status", 200, front.ask("/a", scheme=scheme).status)
    held = [it for _ in range(CONNECTIONS) if (it := held_connection(getattr(front, scheme), said))]
    try:
        worst = 0
        for _ in range(ASKED):
            began = time.monotonic()
            expect("status beside them", 200, front.ask("/a", scheme=scheme).status)
            worst = max(worst, time.monotonic() - began)
        expect_within("seconds that others waited", 0, LONGEST, worst)
        left = sum(is_open(it) for it in held)
        # (nginx counts an address by its requests alone, so these stay there until their head is due)
        if front.kind == "haproxy" and left > 100:
            raise Unexpected("connections of that address", "at most 100", left)
    finally:
        for it in held:
            it.close()
    return f"{left} of {CONNECTIONS} stay, the longest wait of {ASKED} others {worst:.2f} s"


def held_connection(port, said):
    """A connection of the second address; none where it is refused."""
    try:
        it = socket.create_connection(("127.0.0.1", port), timeout=5, source_address=("127.0.0.2", 0))
        it.sendall(said)
        return it
    except OSError:
        return None


def is_open(connection):
    connection.setblocking(False)
    try:
        return connection.recv(1) != b""
    except BlockingIOError:
        return True
    except OSError:
        return False
