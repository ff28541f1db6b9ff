"""Origins by a helper: haproxy or nginx between the cache and two origins, which are stopped, move, and speak TLS."""
import http.server
import socket
import ssl
import struct
import subprocess
import threading
import time

from deployed.stand import curl, deployed, free_port, need, part, taken_in, wait_until
from live.expect import Unexpected, expect, expect_within

NAME = "app.example"
FILES = {"haproxy": "origins/haproxy.cfg", "nginx": "origins/nginx.conf"}
# The lines for TLS, and those in whose place they stand.
OVER_TLS = {"haproxy": ["server-template app 4 app.example:443"], "nginx": ["proxy_pass https", "proxy_ssl"]}
PLAIN = {"haproxy": "    server-template app 4 app.example:80\n", "nginx": "            proxy_pass http://app;\n"}
# What each says of an origin that can't be connected.
AWAY = {"haproxy": 503, "nginx": 502}
PATH = "//a%2Fb/x;y/%C3%A9?q=%20&r=a+b"


class Small:
    """An origin that tells its address, and counts what it was asked and over how many connections. It can be stopped
    and started anew."""

    def __init__(self, address, port, tls=None):
        self.place, self.tls, self.seen, self.used, self.open = (address, port), tls, [], set(), set()
        # by how many seconds its clock is behind, and for how long its answers may be kept
        self.behind, self.lifetime = 0, 1
        self.start()

    def start(self):
        origin = self

        class Handler(http.server.BaseHTTPRequestHandler):
            protocol_version = "HTTP/1.1"

            def setup(self):
                super().setup()
                origin.open.add(self.connection)

            def do_GET(self):
                length = int(self.headers.get("Content-Length") or 0)
                self.rfile.read(length)
                # (`path` has one slash where two stand in front)
                target = self.requestline.split()[1]
                if target != "/health":
                    origin.seen.append((self.command, target, list(self.headers.items())))
                    origin.used.add((self.client_address, id(origin.server)))
                content = origin.place[0].encode()
                self.send_response(200)
                self.send_header("Cache-Control", f"max-age={origin.lifetime}, stale-if-error=60")
                self.send_header("Content-Length", str(len(content)))
                self.end_headers()
                self.wfile.write(content)

            do_POST = do_GET

            def date_time_string(self, timestamp=None):
                return super().date_time_string(time.time() - origin.behind)

            def log_message(self, *words):
                pass

        class Server(http.server.ThreadingHTTPServer):
            def handle_error(self, request, client_address):
                """(a connection that is closed while it stops)"""

        self.server = Server(self.place, Handler)
        if self.tls:
            context = ssl.SSLContext(ssl.PROTOCOL_TLS_SERVER)
            context.load_cert_chain(*self.tls)
            self.server.socket = context.wrap_socket(self.server.socket, server_side=True)
        threading.Thread(target=self.server.serve_forever, args=[0.05], daemon=True).start()

    def close(self):
        if self.server:
            self.server.shutdown()
            self.server.server_close()
            for it in list(self.open):
                try:
                    it.shutdown(socket.SHUT_RDWR)
                except OSError:
                    pass
            self.server = None


class Names:
    """A name server: each name has the addresses of `known` at that moment (RFC 1035, section 4)."""

    def __init__(self, known):
        self.known, self.socket = known, socket.socket(socket.AF_INET, socket.SOCK_DGRAM)
        self.socket.bind(("127.0.0.1", 0))
        self.port = self.socket.getsockname()[1]
        threading.Thread(target=self.serve, daemon=True).start()

    def serve(self):
        while True:
            try:
                asked, client = self.socket.recvfrom(4096)
            except OSError:
                return
            labels, at = [], 12
            while asked[at]:
                labels.append(asked[at + 1 : at + 1 + asked[at]].decode().lower())
                at += 1 + asked[at]
            question = asked[12 : at + 5]
            is_address = struct.unpack(">H", asked[at + 1 : at + 3])[0] == 1
            found = self.known.get(".".join(labels), []) if is_address else []
            records = b"".join(struct.pack(">HHHIH", 0xC00C, 1, 1, 1, 4) + socket.inet_aton(it) for it in found)
            self.socket.sendto(asked[:2] + struct.pack(">HHHHH", 0x8180, 1, len(found), 0, 0) + question + records, client)

    def close(self):
        self.socket.close()


class Helped:
    """Two origins at one port of two addresses, the helper before them, and the cache before that."""

    def __init__(self, stand, kind, tls=None, words=()):
        need(kind, "curl")
        self.stand, self.kind, self.port = stand, kind, free_port()
        self.origins = [stand.origin(Small(it, self.port, tls)) for it in ("127.0.0.2", "127.0.0.3")]
        self.names = stand.origin(Names({NAME: [it.place[0] for it in self.origins]}))
        listen = free_port()
        self.start(listen, {**dict(words), **(self.of_haproxy(tls) if kind == "haproxy" else self.of_nginx(tls)), "127.0.0.1:8081": f"127.0.0.1:{listen}"})
        self.listen = listen
        self.cache = stand.proxy(deployed("table.toml", {"127.0.0.1:8081": f"127.0.0.1:{listen}"}))

    def of_haproxy(self, tls):
        """(The name has no address that the system would know.)"""
        put = {"parse-resolv-conf": f"nameserver test 127.0.0.1:{self.names.port}", "libc,none": "none"}
        return {**put, **({} if tls else {"app.example:80": f"app.example:{self.port}"})}

    def of_nginx(self, tls):
        put = {f"app-{i}.example:80": f"{it.place[0]}:{self.port}" for i, it in enumerate(self.origins, 1)}
        return {**put, "user www-data;\n": "", "/run/nginx.pid": f"{self.stand.folder}/helper-{self.port}.pid"}

    def start(self, listen, words):
        text, folder = deployed(FILES[self.kind], words), self.stand.folder
        if self.kind == "haproxy":
            self.stand.start(f"helper-{self.port}", ["haproxy", "-db", "-f", self.stand.file(f"helper-{self.port}.cfg", text)], listen)
            return
        folders = "".join(f"    {it}_temp_path {folder}/helper-{self.port}-{it};\n" for it in ("client_body", "proxy", "fastcgi", "uwsgi", "scgi"))
        file = self.stand.file(f"helper-{self.port}.conf", text.replace("http {\n", f"http {{\n{folders}", 1))
        self.stand.start(f"helper-{self.port}", ["nginx", "-e", f"{folder}/helper.log", "-c", file, "-g", "daemon off;"], listen)

    def ask(self, path, *words):
        return curl(self.cache.port, f"http://h.example{path}", *words)

    def wait_for(self, status, path="/wait"):
        """Each time another page, so that none is stored."""
        numbers = iter(range(10000))
        wait_until(lambda: self.ask(f"{path}/{next(numbers)}").status == status, f"a page of the origins with status {status}", 30)


@part
def origins_by_haproxy(stand):
    yield from helped_by(stand, "haproxy")


@part
def origins_by_nginx(stand):
    yield from helped_by(stand, "nginx")


def helped_by(stand, kind):
    helped = Helped(stand, kind)
    helped.wait_for(200)
    yield "both_are_asked_over_kept_connections", lambda: both_are_asked_over_kept_connections(helped)
    yield "requests_come_as_the_cache_sent_them", lambda: requests_come_as_the_cache_sent_them(helped)
    yield "one_is_stopped", lambda: one_is_stopped(helped)
    yield "both_are_stopped", lambda: both_are_stopped(helped)
    yield "a_clock_that_is_behind", lambda: a_clock_that_is_behind(stand, helped)
    if kind == "haproxy":
        yield "a_name_moves", lambda: a_name_moves(helped)
    yield "over_tls", lambda: over_tls(stand, kind)
    yield "over_tls_to_a_stranger", lambda: over_tls_to_a_stranger(stand, kind)


def both_are_asked_over_kept_connections(helped):
    before = [len(it.seen) for it in helped.origins]
    for it in helped.origins:
        it.used.clear()
    for number in range(100):
        expect("status", 200, helped.ask(f"/kept/{number}").status)
    counts = [len(it.seen) - old for it, old in zip(helped.origins, before)]
    expect("requests of both", 100, sum(counts))
    for it in counts:
        expect_within("requests of one", 20, 80, it)
    connections = sum(len(it.used) for it in helped.origins)
    expect_within("connections", 1, 20, connections)
    return f"100 requests over {connections} connections"


def requests_come_as_the_cache_sent_them(helped):
    """The target's bytes, Host and the cache's Via; nothing of the helper's own that a client is known by. The origin's
    Date comes back, since ages count from it."""
    answer = helped.ask(PATH)
    _, path, fields = next(it for origin in helped.origins for it in origin.seen if it[1].startswith("//a"))
    names = {name.lower(): value for name, value in fields}
    expect("the target", PATH, path)
    expect("Host and Via", ("h.example", "1.1 edge"), (names.get("host"), names.get("via")))
    expect("fields of the helper", [], [it for it in names if it.startswith("x-") or it == "forwarded"])
    expect("who made the answer", True, (answer.value("Server") or "").startswith("BaseHTTP"))
    expect("status of a POST", 200, helped.ask("/post", "--data", "x=1").status)
    expect("the POST", 1, sum(it[:2] == ("POST", "/post") for origin in helped.origins for it in origin.seen))


def one_is_stopped(helped):
    """In the middle of 300 requests of four clients: none is lost. Started again it has its part."""
    statuses, lock = [], threading.Lock()

    def work(client):
        for number in range(75):
            status = helped.ask(f"/stopped/{client}/{number}").status
            with lock:
                statuses.append(status)

    threads = [threading.Thread(target=work, args=[it], daemon=True) for it in range(4)]
    for it in threads:
        it.start()
    wait_until(lambda: len(statuses) > 100, "100 answers")
    helped.origins[0].close()
    for it in threads:
        it.join(60)
    expect("answers that aren't 200", [], [it for it in statuses if it != 200])
    expect("answers", 300, len(statuses))
    helped.origins[0].start()
    before, numbers = len(helped.origins[0].seen), iter(range(10000))
    wait_until(lambda: helped.ask(f"/again/{next(numbers)}") and len(helped.origins[0].seen) > before, "a request for the one that is back", 30)


def both_are_stopped(helped):
    """What is stale is sent, since the helper's own answer is an error of the origin; all else is that error."""
    expect("stored", "edge;fwd=uri-miss;ttl=;stored", helped.ask("/page").reason())
    for it in helped.origins:
        it.close()
    status = AWAY[helped.kind]
    wait_until(lambda: helped.ask("/page").reason().startswith("edge;fwd=stale"), "the end of a lifetime of a second")
    answer = helped.ask("/page")
    expect("of a page that is stale", (200, f"edge;fwd=stale;fwd-status={status};ttl=;detail=stale-if-error"), (answer.status, answer.reason()))
    helped.wait_for(status, "/new")
    expect("its reason", "edge;fwd=uri-miss", helped.ask("/new").reason())
    for it in helped.origins:
        it.start()
    helped.wait_for(200, "/back")


def a_name_moves(helped):
    """To another address, without a restart of anything."""
    third = helped.stand.origin(Small("127.0.0.4", helped.port))
    helped.names.known[NAME] = ["127.0.0.4"]
    numbers = iter(range(10000))
    wait_until(lambda: helped.ask(f"/moved/{next(numbers)}").content == b"127.0.0.4", "an answer of the new address", 60)
    wait_until(lambda: all(helped.ask(f"/moved/{next(numbers)}").content == b"127.0.0.4" for _ in range(10)), "all of the new address", 60)
    expect("status of what follows", 200, helped.ask("/moved/last").status)
    expect_within("requests of the new address", 11, 10000, len(third.seen))


# What has ages count from this machine's clock: a line that is a comment, and one that is left out.
OWN_CLOCK = {"haproxy": ["http-response set-header Date"], "nginx": ["            proxy_pass_header Date;"]}


def a_clock_that_is_behind(stand, helped):
    """By two minutes: what may be kept for one is born old, each time, and a hit where the helper says what time it is."""
    kind = helped.kind
    if kind == "haproxy":
        words = taken_in(FILES[kind], *OWN_CLOCK[kind])
    else:
        line = next(it for it in deployed(FILES[kind], {}).splitlines(keepends=True) if it.startswith(OWN_CLOCK[kind][0]))
        words = {line: ""}
    other = Helped(stand, kind, words=words)
    for it in helped.origins + other.origins:
        it.behind, it.lifetime = 120, 60
    other.wait_for(200)
    for it, reasons in ((helped, [False, False]), (other, [False, True])):
        got = [it.ask("/clock") for _ in reasons]
        expect("what is a hit", reasons, [one.reason().startswith("edge;hit") for one in got])
        ttl = int(got[0].value("Cache-Status").partition("ttl=")[2].partition(";")[0])
        expect("what is born old", it is helped, ttl < 0)
    for it in helped.origins:
        it.behind, it.lifetime = 0, 1


def certificate(stand, name):
    """A certificate for a name, and its key; it is its own authority."""
    need("openssl")
    both = f"{stand.folder}/{name}.pem", f"{stand.folder}/{name}.key"
    words = ["openssl", "req", "-x509", "-newkey", "ec", "-pkeyopt", "ec_paramgen_curve:P-256", "-nodes", "-days", "2", "-subj", f"/CN={name}"]
    ran = subprocess.run([*words, "-addext", f"subjectAltName=DNS:{name}", "-out", both[0], "-keyout", both[1]], capture_output=True, timeout=60)
    if ran.returncode:
        raise Unexpected("from openssl", "a certificate", ran.stderr)
    return both


def helped_over_tls(stand, kind, name):
    """By the lines that are comments as they stand. Origins with a certificate for this name; trusted is that for app.example and it."""
    tls, trusted = certificate(stand, name), stand.file(f"trusted-{kind}-{name}.pem", "")
    with open(trusted, "w", encoding="ascii") as out:
        for path in {tls[0], certificate(stand, NAME)[0] if name != NAME else tls[0]}:
            with open(path, encoding="ascii") as it:
                out.write(it.read())
    options = taken_in(FILES[kind], *OVER_TLS[kind])
    words = {old: new.replace("/etc/ssl/certs/ca-certificates.crt", trusted) for old, new in options.items()}
    return tls, {**words, PLAIN[kind]: ""}


def over_tls(stand, kind):
    helped = tls_helped(stand, kind, NAME)
    helped.wait_for(200)
    expect_within("requests that came over TLS", 1, 1000, sum(len(it.seen) for it in helped.origins))


def over_tls_to_a_stranger(stand, kind):
    """An origin with a certificate for another name, of an authority that is trusted, isn't asked."""
    helped = tls_helped(stand, kind, "stranger.example")
    helped.wait_for(AWAY[kind])
    expect("requests that came to it", [], [it for origin in helped.origins for it in origin.seen])


def tls_helped(stand, kind, name):
    tls, words = helped_over_tls(stand, kind, name)

    class Secure(Helped):
        def start(self, listen, put):
            put = {old: new.replace(":443", f":{self.port}") for old, new in put.items()}
            super().start(listen, put)

    return Secure(stand, kind, tls, words)
