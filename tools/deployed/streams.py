"""A client of HTTP/2 that sends whatever frames it is told to (RFC 9113), with fields as literals (RFC 7541, 6.2.2)."""
import socket
import ssl
import struct
import time

DATA, HEADERS, RST_STREAM, SETTINGS, PING, GOAWAY = 0, 1, 3, 4, 6, 7
END_STREAM, END_HEADERS, ACK = 1, 4, 1
PREFACE = b"PRI * HTTP/2.0\r\n\r\nSM\r\n\r\n"
# RFC 7541, appendix A: the places of `:status` in the table that never changes; appendix B: its digits in Huffman's code.
STATUSES = {8: 200, 9: 204, 10: 206, 11: 304, 12: 400, 13: 404, 14: 500}
DIGITS = {"00000": "0", "00001": "1", "00010": "2", "011001": "3", "011010": "4", "011011": "5", "011100": "6", "011101": "7", "011110": "8", "011111": "9"}


def number(value, bits, first=0):
    """RFC 7541, 5.1: a number behind the first bits of a byte."""
    most = (1 << bits) - 1
    if value < most:
        return bytes([first | value])
    told, value = [first | most], value - most
    while value >= 128:
        told.append(value % 128 + 128)
        value //= 128
    return bytes([*told, value])


def block_of(fields):
    """The fields as literals that no table keeps. Names and values are bytes, whatever they are."""
    text = b""
    for pair in fields:
        text += b"\0"
        for it in pair:
            it = it.encode("latin-1")
            text += number(len(it), 7) + it
    return text


def status_of(block):
    """The status of a response's block, where its first field is one."""
    while block and block[0] & 0xE0 == 0x20:
        # (a new size of the table)
        block = block[1:]
    if not block:
        return None
    if block[0] & 0x80:
        return STATUSES.get(block[0] & 0x7F)
    length, text = block[1] & 0x7F, block[2:]
    if not block[1] & 0x80:
        return int(text[:length])
    bits, told = "".join(f"{it:08b}" for it in text[:length]), ""
    while len(told) < 3:
        code = next(it for it in DIGITS if bits.startswith(it))
        told, bits = told + DIGITS[code], bits[len(code) :]
    return int(told)


class Streams:
    """A connection of HTTP/2 over TLS."""

    def __init__(self, port, source="127.0.0.1", patience=5):
        context = ssl.create_default_context()
        context.check_hostname, context.verify_mode = False, ssl.CERT_NONE
        context.set_alpn_protocols(["h2"])
        plain = socket.create_connection(("127.0.0.1", port), timeout=patience, source_address=(source, 0))
        self.socket = context.wrap_socket(plain, server_hostname="h.example")
        self.patience, self.got, self.is_over = patience, b"", False
        self.statuses, self.reset, self.ended = {}, {}, set()
        self.socket.sendall(PREFACE + self.frame(SETTINGS, 0, 0, b""))

    @staticmethod
    def frame(kind, flags, stream, content):
        return struct.pack(">I", len(content))[1:] + bytes([kind, flags]) + struct.pack(">I", stream) + content

    def send(self, *frames):
        self.socket.sendall(b"".join(frames))

    def headers(self, stream, fields, is_end=True):
        return self.frame(HEADERS, END_HEADERS | (END_STREAM if is_end else 0), stream, block_of(fields))

    def data(self, stream, content, is_end=True):
        return self.frame(DATA, END_STREAM if is_end else 0, stream, content)

    def rst(self, stream):
        """The client wants no answer any more (CANCEL)."""
        return self.frame(RST_STREAM, 0, stream, struct.pack(">I", 8))

    def read_for(self, stream):
        """Reads until the stream has ended, or the connection has: its status, `reset`, or `closed`."""
        deadline = time.monotonic() + self.patience
        while stream not in self.ended and stream not in self.reset and not self.is_over:
            if time.monotonic() > deadline:
                return "silent"
            self.read_some()
        return self.statuses.get(stream) or ("reset" if stream in self.reset else "closed")

    def read_some(self):
        try:
            more = self.socket.recv(65536)
        except TimeoutError:
            return
        except OSError:
            more = b""
        self.is_over = self.is_over or not more
        self.got += more
        while len(self.got) >= 9 and len(self.got) >= 9 + (length := int.from_bytes(self.got[:3], "big")):
            kind, flags, stream = self.got[3], self.got[4], int.from_bytes(self.got[5:9], "big")
            content, self.got = self.got[9 : 9 + length], self.got[9 + length :]
            self.take(kind, flags, stream, content)

    def take(self, kind, flags, stream, content):
        if kind == SETTINGS and not flags & ACK:
            self.send(self.frame(SETTINGS, ACK, 0, b""))
        elif kind == PING and not flags & ACK:
            self.send(self.frame(PING, ACK, 0, content))
        elif kind == HEADERS and stream not in self.statuses:
            self.statuses[stream] = status_of(content)
        elif kind == RST_STREAM:
            self.reset[stream] = int.from_bytes(content, "big")
        elif kind == GOAWAY:
            # (what was begun may still be answered)
            self.goaway = int.from_bytes(content[4:8], "big")
        if kind in (DATA, HEADERS) and flags & END_STREAM:
            self.ended.add(stream)

    def close(self):
        self.socket.close()
