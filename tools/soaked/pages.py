"""The origin of a soak: pages whose content says what it is, and a book of what it gave, which tells what an answer may be."""
import hashlib
import itertools
import random
import threading
from http.server import BaseHTTPRequestHandler, ThreadingHTTPServer

# How many targets of each kind there are, and for how many seconds an answer may be kept.
COUNTS = {"page": 200, "variant": 50, "large": 20, "failing": 30, "chunked": 30}
LIFETIMES = {"page": 2, "variant": 3, "large": 30, "failing": 1, "chunked": 5}
STALE = 600
LANGUAGES = ["de", "en", "fr", "none"]
LARGE = 400000


def filler(*words, length):
    """So many bytes that nothing else of the soak has."""
    seed = hashlib.sha256(repr(words).encode()).digest()
    return (seed * (length // len(seed) + 1))[:length]


def content_of(kind, number, version, word=""):
    head = f"{kind} {number} {version} {word}\n".encode()
    length = LARGE if kind == "large" else 100 + number * 37 % 3000
    return head + filler(kind, number, version, word, length=length)


class Book:
    """Which version of each page is current. A version begins when a POST has come to the origin, and counts for all who ask once its
    answer has come back through the proxy (RFC 9111, 4.4)."""

    def __init__(self):
        self.lock, self.versions, self.promised = threading.Lock(), {}, {}
        self.secrets, self.asked, self.denied = itertools.count(1), 0, 0

    def current(self, page):
        with self.lock:
            self.asked += 1
            return self.versions.get(page, 1)

    def change(self, page):
        with self.lock:
            self.versions[page] = self.versions.get(page, 1) + 1
            return self.versions[page]

    def promise(self, page, version):
        """The POST of this version was answered: nobody gets an earlier one from now on."""
        with self.lock:
            self.promised[page] = max(version, self.promised.get(page, 1))

    def least(self, page):
        with self.lock:
            return self.promised.get(page, 1)

    def most(self, page):
        with self.lock:
            return self.versions.get(page, 1)


def origin_of(book, seed):
    """An origin on a free port, in threads of its own."""
    dice = random.Random(seed)

    class Handler(BaseHTTPRequestHandler):
        protocol_version = "HTTP/1.1"

        def log_message(self, *_):
            pass

        def do_GET(self):
            words = self.path.strip("/").split("/")
            try:
                getattr(self, f"get_{words[0]}", self.get_none)(*words[1:])
            except OSError:
                self.close_connection = True

        do_HEAD = do_GET

        def do_POST(self):
            content = self.rfile.read(int(self.headers.get("Content-Length", 0)))
            words = self.path.strip("/").split("/")
            if words[0] == "page":
                version = book.change((words[0], int(words[1])))
                self.answer(200, b"changed to %d" % version, "Cache-Control: no-store")
            else:
                self.answer(201, hashlib.sha256(content).hexdigest().encode())

        def answer(self, status, content, *lines):
            head = [f"HTTP/1.1 {status} ", f"Content-Length: {len(content)}", "Connection: close", f"Date: {self.date_time_string()}", *lines, "", ""]
            self.wfile.write("\r\n".join(head).encode() + (b"" if self.command == "HEAD" else content))
            self.close_connection = True

        def page_of(self, kind, number, word="", *lines):
            page, tag = (kind, int(number)), f'"{kind}-{number}-{{}}-{word}"'
            version = book.current(page)
            lines = [f"Cache-Control: max-age={LIFETIMES[kind]}, stale-if-error={STALE}", f"ETag: {tag.format(version)}", *lines]
            if self.headers.get("If-None-Match") == tag.format(version):
                self.wfile.write("\r\n".join(["HTTP/1.1 304 ", f"Date: {self.date_time_string()}", "Connection: close", *lines, "", ""]).encode())
                self.close_connection = True
                return
            self.answer(200, content_of(kind, int(number), version, word), *lines)

        def get_page(self, number):
            self.page_of("page", number)

        def get_large(self, number):
            self.page_of("large", number)

        def get_variant(self, number):
            self.page_of("variant", number, self.headers.get("Accept-Language", "none"), "Vary: Accept-Language")

        def get_failing(self, number):
            # (some fail at once, some in the middle, some say so)
            way = dice.random()
            if way < 0.2:
                self.answer(503, b"not now")
            elif way < 0.4:
                self.close_connection = True
            elif way < 0.5:
                self.wfile.write(b"HTTP/1.1 200 \r\nContent-Length: 100\r\nCache-Control: max-age=60\r\n\r\nhalf")
                self.close_connection = True
            else:
                self.page_of("failing", number)

        def get_chunked(self, number):
            content = content_of("chunked", int(number), book.current(("chunked", int(number))))
            head = ["HTTP/1.1 200 ", "Transfer-Encoding: chunked", "Connection: close", f"Cache-Control: max-age={LIFETIMES['chunked']}", "", ""]
            self.wfile.write("\r\n".join(head).encode())
            for at in range(0, len(content), 700):
                piece = content[at : at + 700]
                self.wfile.write(b"%x\r\n%s\r\n" % (len(piece), piece))
            self.wfile.write(b"0\r\n\r\n")
            self.close_connection = True

        def get_secret(self):
            # (no two requests may get one of these)
            self.answer(200, b"secret %d" % next(book.secrets), "Cache-Control: no-store")

        def get_own(self):
            # (with a lifetime, and for one user alone: RFC 9111, 3.5)
            self.answer(200, f"page of {self.headers.get('Authorization')}".encode(), "Cache-Control: max-age=60")

        def get_admin(self, *_):
            book.denied += 1
            self.answer(200, b"what the table denies", "Cache-Control: max-age=60")

        def get_a(self):
            self.answer(200, b"a" * 1024, "Cache-Control: max-age=600")

        def get_none(self, *_):
            if self.path.startswith(("/endless", "/silent")):
                # (until the proxy ends the connection: a thread that slept on would count among thousands)
                self.connection.settimeout(30)
                self.rfile.read(1)
            self.answer(404, b"none")

    class Server(ThreadingHTTPServer):
        request_queue_size, daemon_threads = 512, True

        def handle_error(self, *_):
            pass

    it = Server(("127.0.0.1", 0), Handler)
    threading.Thread(target=it.serve_forever, daemon=True).start()
    return it
