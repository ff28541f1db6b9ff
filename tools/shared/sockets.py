"""What origins and clients of `live`, `attacks` and `costed` do alike with their sockets."""
import socket

# The most bytes that one read takes.
SIZE = 1 << 18


def accepted(listener):
    """Each connection, until the listener is closed; of a listener that doesn't block, each that waits."""
    while True:
        try:
            connection, _ = listener.accept()
        except OSError:
            return
        yield connection


def close_listener(listener):
    """(a close alone doesn't wake the thread that accepts)"""
    listener.shutdown(socket.SHUT_RDWR)
    listener.close()


def received(connection, size=SIZE):
    """What comes over a connection, piece by piece, until the other end sends no more. What a read raises goes to the caller."""
    while piece := connection.recv(size):
        yield piece


def read_to_the_end(connection):
    """Reads what still comes, and keeps none of it."""
    for _ in received(connection):
        pass
