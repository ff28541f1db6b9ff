"""An origin that keeps what comes over each connection, to the byte, and answers."""
import socket
import threading

from attacks.strict import REQUEST_LINE, Fault, Head
from shared.sockets import accepted, close_listener, received

# The longest that it waits for bytes that should come, in seconds.
WAIT = 5
# Until the proxy has ended a connection that was answered.
WAIT_FOR_END = 1


def answer_to(data):
    """An answer that nobody may store, which names what was read; None of a part of a request."""
    if b"\r\n\r\n" not in data:
        return None
    lines = b""
    try:
        head = Head(data)
        length = head.content_length() or 0
        if len(data) < head.length + length:
            return None
        first = REQUEST_LINE.fullmatch(head.first)
        if first:
            lines = b"X-Method: %s\r\nX-Target: %s\r\n" % first.groups()
    except Fault:
        pass
    content = b"" if b"X-Method: HEAD\r\n" in lines else b"ok"
    return b"HTTP/1.1 200 OK\r\n%sContent-Length: 2\r\n\r\n%s" % (lines, content)


class Recorder:
    """It serves one connection after the other."""

    def __init__(self):
        self.listener = socket.create_server(("127.0.0.1", 0), backlog=512)
        self.address = "127.0.0.1:%d" % self.listener.getsockname()[1]
        self.seen, self.open, self.changed = [], 0, threading.Condition()
        threading.Thread(target=self.accept, daemon=True).start()

    def accept(self):
        for connection in accepted(self.listener):
            with self.changed:
                self.open += 1
            data = self.serve(connection)
            with self.changed:
                self.seen.append(data)
                self.open -= 1
                self.changed.notify_all()

    def serve(self, connection):
        """All that came over the connection."""
        data, is_answered = b"", False
        connection.settimeout(WAIT)
        with connection:
            try:
                for piece in received(connection):
                    data += piece
                    answer = None if is_answered else answer_to(data)
                    if answer:
                        connection.sendall(answer)
                        connection.settimeout(WAIT_FOR_END)
                        is_answered = True
            except OSError:
                pass
        return data

    def take(self):
        """What came since the last time, a text for each connection; none is open any more."""
        with self.changed:
            self.changed.wait_for(lambda: self.open == 0, WAIT)
            seen, self.seen = self.seen, []
        return seen

    def close(self):
        close_listener(self.listener)
