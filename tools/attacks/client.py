"""One connection of a client that sends bytes as they are and keeps what it gets."""
import contextlib
import select
import socket
import time

from shared.sockets import SIZE, received

# The longest that it waits for the proxy, in seconds.
WAIT = 10
# Between two pieces: the proxy reads them one by one.
PAUSE = 0.001
# How long a client that is late with its end waits for what comes without it.
LATE = 0.05


class Got:
    """All that came over a connection, and how it ended."""

    def __init__(self, data, is_ended, was_reset):
        self.data, self.is_ended, self.was_reset = data, is_ended, was_reset


def send(it, pieces, is_late):
    """Sends the pieces and the end, which the other end may have closed meanwhile; what came before
    a late end."""
    data = bytearray()
    with contextlib.suppress(OSError):
        for i, piece in enumerate(pieces):
            if i:
                time.sleep(PAUSE)
            it.sendall(piece)
        while is_late and select.select([it], [], [], LATE)[0]:
            piece = it.recv(SIZE)
            data += piece
            is_late = bool(piece)
        it.shutdown(socket.SHUT_WR)
    return data


def play(port, pieces, is_late=False):
    """Sends all, then its end, and reads to the end."""
    was_reset = False
    with socket.create_connection(("127.0.0.1", port), timeout=WAIT) as it:
        it.setsockopt(socket.IPPROTO_TCP, socket.TCP_NODELAY, 1)
        data = send(it, pieces, is_late)
        try:
            for piece in received(it):
                data += piece
        except socket.timeout:
            return Got(bytes(data), False, False)
        except OSError:
            was_reset = True
    return Got(bytes(data), True, was_reset)
