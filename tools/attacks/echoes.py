"""Origins of every kind, each of whose answers names the target that it was asked for and has a
content of its own."""
import time
import zlib

from live.origin import Origin, ends, head_of

KEPT = "Cache-Control: max-age=600"
OLD = ["Cache-Control: max-age=0", 'ETag: "v"']
# What stands behind an answer that has ended: nobody asked for it.
SECOND = b"HTTP/1.1 200 OK\r\nX-Target: second\r\nContent-Length: 6\r\n\r\nsecond"


def content_of(target):
    """The content of a target: another one for each, some kilobytes, and a hundred for those of
    /large."""
    seed = zlib.crc32(target.encode())
    size = 100000 + seed % 9999 if target.startswith("/large") else seed % 5000 + 1
    text = f"{target}:{seed};".encode()
    return (text * (size // len(text) + 1))[:size]


def head(fetch, status, *lines):
    return head_of(status, [f"X-Target: {fetch.target}", *lines])


def sized(fetch, status, *lines):
    content = content_of(fetch.target)
    return head(fetch, status, *lines, f"Content-Length: {len(content)}") + (b"" if fetch.method == "HEAD" else content)


def chunked(fetch, last=b"0\r\nX: y\r\n\r\n"):
    content, size = content_of(fetch.target), 700
    parts = (content[at : at + size] for at in range(0, len(content), size))
    chunks = b"".join(b"%x;a=b\r\n%s\r\n" % (len(it), it) for it in parts)
    return head(fetch, 200, "Transfer-Encoding: chunked") + chunks + last


def piece_by_piece(fetch):
    text = sized(fetch, 200)
    for at in range(0, len(text), 997):
        fetch.send(text[at : at + 997])
        time.sleep(0.002)


def cut(fetch, text):
    fetch.send(text[:-1])
    ends(fetch)


def to_the_close(fetch):
    fetch.send(head(fetch, 200) + content_of(fetch.target))
    ends(fetch)


def unchanged(fetch):
    """A 304 to who names the validator."""
    is_known = fetch.value("If-None-Match")
    fetch.send(head(fetch, 304, *OLD) if is_known else sized(fetch, 200, *OLD))


def early(fetch):
    """An answer in front of the content, and another one behind it."""
    fetch.send(sized(fetch, 401) + SECOND)


ANSWERS = {
    "/plain": lambda fetch: fetch.send(sized(fetch, 200)),
    "/kept": lambda fetch: fetch.send(sized(fetch, 200, KEPT)),
    "/large": lambda fetch: fetch.send(sized(fetch, 200, KEPT)),
    "/old": unchanged,
    "/hints": lambda fetch: fetch.send(head_of(103, ["Link: </x>"]) * 3 + sized(fetch, 200)),
    "/chunks": lambda fetch: fetch.send(chunked(fetch)),
    "/extra": lambda fetch: fetch.send(sized(fetch, 200) + SECOND),
    "/slow": piece_by_piece,
    "/close": to_the_close,
    "/failing": lambda fetch: fetch.send(sized(fetch, 500)),
    "/unchanged": lambda fetch: fetch.send(head(fetch, 304)),
    "/early": lambda fetch: None,
    "/cut": lambda fetch: cut(fetch, sized(fetch, 200)),
    "/cut-chunks": lambda fetch: cut(fetch, chunked(fetch)),
    "/gone": ends,
    "/reset": lambda fetch: fetch.reset(),
}
# The status that a client gets, where it isn't 200.
STATUSES = {"/failing": 500, "/unchanged": 304, "/early": 401}
STATUSES |= {it: 502 for it in ("/cut", "/cut-chunks", "/gone", "/reset")}


class Echo(Origin):
    """It answers what is asked of /early before it reads the content."""

    def __init__(self):
        super().__init__(dict(ANSWERS))

    def serve(self, fetch):
        try:
            while b"\r\n\r\n" not in fetch.received:
                fetch.read_some()
            words = bytes(fetch.received).split(b" ", 2)
            if words[1].startswith(b"/early"):
                fetch.target = words[1].decode("latin-1")
                early(fetch)
        except OSError:
            fetch.is_over.set()
            return
        super().serve(fetch)
