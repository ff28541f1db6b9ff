"""The fronts of deploy/: TLS and HTTP/2 by nginx and by haproxy before the proxy."""
import os
import re
import select
import socket
import threading
import time

from deployed.stand import curl, deployed, free_port, need, part, taken_in, wait_until, without_tls
from live.expect import Unexpected, expect, expect_within
from live.origin import Origin, silent, whole
from live.script import happenings_of
from live.scenario import KEPT

# Spellings of /admin/secret.txt for origins that merge slashes, decode %2F, read a backslash as a slash, or cut at a semicolon.
SPELLINGS = ["//admin/secret.txt", "/%2Fadmin/secret.txt", "/%2fadmin/secret.txt", "/admin%2Fsecret.txt", "/x%2F..%2Fadmin/secret.txt"]
SPELLINGS += ["/x/a%2F..%2F..%2Fadmin/secret.txt", "/admin;x/secret.txt", "/x/..%5Cadmin/secret.txt", "/x/..\\admin/secret.txt", "/x//..//admin/secret.txt"]
# The file of each front.
FILES = {"nginx": "nginx.conf", "haproxy": "haproxy.cfg"}
# The second cache of the files, which stands in while the first is restarted.
SECOND = "127.0.0.1:8180"
# Six seconds of time-out for an origin, in place of the default of 60: more than a crowd's answers take on a busy machine.
SHORT = ["--origin-timeout", "6"]


class Front:
    """A front before a proxy before an origin, by the files of deploy/."""

    def __init__(self, stand, kind, words=(), options=SHORT, records=True, redirects=False):
        """`words` take the place of others in the file. Only with `redirects` port 80 is as in the file."""
        self.stand, self.kind = stand, kind
        self.http, self.https, self.purge = free_port(), free_port(), free_port()
        self.origin = stand.origin(Origin(answers()))
        table = deployed("table.toml", {"127.0.0.1:8081": self.origin.address, "127.0.0.1:8089": f"127.0.0.1:{self.purge}"})
        self.table, self.proxy = table, stand.proxy(table, options, records=records)
        # (haproxy logs to a service of the system, by datagrams)
        self.logged, self.lines = socket.socket(socket.AF_INET, socket.SOCK_DGRAM), []
        self.logged.bind(("127.0.0.1", 0))
        self.logged.setblocking(False)
        ports = [self.http, self.https, self.proxy.port, self.purge, self.logged.getsockname()[1]]
        self.process = start_front(stand, kind, ports, {**dict(words), "127.0.0.1:8081": self.origin.address}, redirects)

    def ask(self, target, *words, host="h.example", scheme="https"):
        return curl(self.https if scheme == "https" else self.http, f"{scheme}://{host}{target}", *words)

    def log(self):
        """The lines that the front has logged."""
        if self.kind == "nginx":
            with open(f"{self.stand.folder}/access.log", encoding="utf-8") as it:
                return it.read().splitlines()
        while select.select([self.logged], [], [], 0)[0]:
            self.lines.append(self.logged.recv(65536).decode("latin-1").rstrip("\n"))
        return self.lines

    def told(self, words):
        """What haproxy answers on its socket."""
        return haproxy_says(f"{self.stand.folder}/admin.sock", words)

    def fetches(self, target):
        """The requests that the origin got for a target."""
        return [it for it in self.origin.fetches if it.target == target]


def haproxy_says(path, words):
    """What haproxy answers on a socket."""
    with socket.socket(socket.AF_UNIX) as it:
        it.settimeout(10)
        it.connect(path)
        it.sendall(words.encode() + b"\n")
        text = b""
        while data := it.recv(65536):
            text += data
    return text.decode()


def start_front(stand, kind, numbers, words, redirects=False):
    """The front of a file of deploy/, with these words in place of others. Nobody is its second cache, unless they name one."""
    http, https, cache, purge, log = numbers
    stand.certificate()
    words = {**({} if redirects else without_tls(FILES[kind])), SECOND: f"127.0.0.1:{free_port()}", **words, "/etc/revcache": stand.folder}
    words |= {"127.0.0.1:8080": f"127.0.0.1:{cache}", "127.0.0.1:8089": f"127.0.0.1:{purge}"}
    if kind == "nginx":
        words |= {"listen 80;": f"listen 127.0.0.1:{http};", "listen 443 ssl": f"listen 127.0.0.1:{https} ssl"}
        folders = "".join(f" {it}_temp_path {stand.folder}/{it};" for it in ("client_body", "proxy", "fastcgi", "uwsgi", "scgi"))
        words |= {"/run/nginx.pid": f"{stand.folder}/nginx.pid", "/var/log/nginx": stand.folder, "server_tokens off;": f"server_tokens off;{folders}"}
        file = stand.file("nginx.conf", deployed("nginx.conf", words))
        return stand.start("nginx", ["nginx", "-e", f"{stand.folder}/error.log", "-c", file, "-g", "daemon off;"], https)
    words |= {"bind :80\n": f"bind 127.0.0.1:{http}\n", "bind :443 ssl": f"bind 127.0.0.1:{https} ssl"}
    words |= {"    user haproxy\n    group haproxy\n": "", "/run/haproxy": stand.folder, "/dev/log": f"127.0.0.1:{log}"}
    file = stand.file("haproxy.cfg", deployed("haproxy.cfg", words))
    return stand.start("haproxy", ["haproxy", "-f", file], https)


def answers():
    vary = [KEPT, "Vary: X-Forwarded-Proto"]
    by_scheme = {"https": whole(200, *vary, content=b"safe"), "http": whole(301, *vary, "Location: https://h.example/scheme")}
    return {
        "/a": whole(200, KEPT, 'ETag: "v1"', content=b"hello"),
        "/big": whole(200, KEPT, content=b"x" * 90000),
        "/large": whole(200, "Cache-Control: no-store", content=b"y" * 900000),
        "/post": whole(201, content=b"made"),
        "/scheme": lambda fetch: by_scheme[value_of(fetch, "X-Forwarded-Proto")](fetch),
        "/silent": silent,
        "/slow": lambda fetch: (time.sleep(1), whole(200, "Cache-Control: no-store", content=b"slow")(fetch)),
        "/long-head": whole(200, KEPT, *(f"X-{i}: {'z' * 1000}" for i in range(28)), content=b"hello"),
        "/purged": whole(200, KEPT, content=b"first"),
        "/purged?b": whole(200, KEPT, content=b"first"),
        **{f"/kept/{i}": whole(200, KEPT, content=b"hello") for i in range(5)},
    }


def value_of(fetch, name):
    """The value of a line of a request. haproxy writes its own names in lower case."""
    return next((value for key, value in fetch.fields if key.lower() == name.lower()), None)


CHECKS = []


def check(function):
    CHECKS.append(function)
    return function


def checks_of(stand, kind):
    front = Front(stand, kind)
    for it in CHECKS:
        yield it.__name__, lambda it=it: it(front)


@part
def nginx(stand):
    need("nginx", "curl")
    yield from checks_of(stand, "nginx")
    yield "port_80_redirects", lambda: port_80_redirects(Front(stand, "nginx", records=False, redirects=True))
    yield "a_path_of_yours_has_its_spelling", lambda: a_path_of_yours_has_its_spelling(Front(stand, "nginx", taken_in(FILES["nginx"], '"~*^/npm/', '"~*^/shop/')))


@part
def haproxy(stand):
    need("haproxy", "curl")
    yield from checks_of(stand, "haproxy")
    yield "port_80_redirects", lambda: port_80_redirects(Front(stand, "haproxy", records=False, redirects=True))
    options = taken_in(FILES["haproxy"], "acl is_spelt_so path -i -m reg ^/npm", "acl is_spelt_so path -i -m reg ^/shop")
    yield "a_path_of_yours_has_its_spelling", lambda: a_path_of_yours_has_its_spelling(Front(stand, "haproxy", options))


def port_80_redirects(front):
    """Whoever comes without TLS is sent to https by the front itself; neither the cache nor the origin hears of it. A method stays what it is (308)."""
    for words, status in (([], 301), (["--head"], 301), (["--data", "x"], 308), (["--request", "PURGE"], 308)):
        answer = front.ask("/a/b?c=d", *words, scheme="http")
        expect(f"by {words} status and Location", (status, "https://h.example/a/b?c=d"), (answer.status, answer.value("Location")))
    answer = front.ask("/a", host="H.Example.:80", scheme="http")
    expect("Location of another spelling", "https://h.example/a", answer.value("Location"))
    expect("requests at the origin", 0, len(front.origin.fetches))
    expect_from(front.ask("/a"), 200, "edge;fwd=uri-miss;ttl=;stored")


def a_path_of_yours_has_its_spelling(front):
    """With the lines for npm and for servlets their paths come through as they are; the same bytes elsewhere are refused."""
    for target in ("/npm/@babel%2fcore", "/npm/@babel%2Fcore?x=1", "/shop/page/1;jsessionid=AB12.node-1"):
        front.ask(target)
        expect(f"requests for {target} at the origin", 1, len(front.fetches(target)))
    for target in ("/@babel%2fcore", "/npm/@babel%2f..%2fcore", "/npm/x/..%2fcore", "/shop/;x", "/shop/page;jsessionid=a;b", "/shop/page;jsessionid=a/b", "/x;jsessionid=a"):
        expect(f"status for {target}", 400, front.ask(target).status)


def expect_from(answer, status, reason):
    expect("status and reason", (status, reason), (answer.status, answer.reason()))
    return answer


@check
def a_miss_and_hits_over_http_2_and_1(front):
    """RFC 9113 at the front, and the same stored response for whoever asks: over HTTP/2, 1.1, 1.0 and without TLS."""
    answer = expect_from(front.ask("/a", "--http2"), 200, "edge;fwd=uri-miss;ttl=;stored")
    expect("version and content", ("HTTP/2", b"hello"), (answer.version, answer.content))
    for words, version, more in (
        (["--http2"], "HTTP/2", {}),
        (["--http1.1"], "HTTP/1.1", {}),
        (["--http1.0"], "HTTP/1.1", {}),
        ([], "HTTP/1.1", {"scheme": "http"}),
    ):
        answer = expect_from(front.ask("/a", *words, **more), 200, "edge;hit;ttl=")
        expect(f"by {words} version and content", (version, b"hello"), (answer.version.replace("HTTP/1.0", "HTTP/1.1"), answer.content))
    expect("requests at the origin", 1, len(front.fetches("/a")))


@check
def head_conditions_and_contents(front):
    """HEAD, If-None-Match, a POST of 200,000 bytes over HTTP/2, and a head of 28,000 bytes."""
    front.ask("/a")
    expect_from(front.ask("/a", "--head"), 200, "edge;hit;ttl=")
    expect_from(front.ask("/a", "--header", 'If-None-Match: "v1"'), 304, "edge;hit;ttl=")
    file = front.stand.file("content", "x" * 200000)
    answer = expect_from(front.ask("/post", "--http2", "--data-binary", f"@{file}"), 201, "edge;fwd=method")
    expect("contents", (b"made", b"x" * 200000), (answer.content, front.fetches("/post")[-1].content))
    expect_from(front.ask("/long-head"), 200, "edge;fwd=uri-miss;ttl=;stored")
    expect("content", b"y" * 900000, front.ask("/large").content)


@check
def a_content_above_the_bound_is_413(front):
    """RFC 9110, 15.5.14; the answer comes although not all was read."""
    file = front.stand.file("content", "x" * 1500000)
    for words in (["--http1.1"], ["--http2"], ["--http1.1", "--header", "Expect:"]):
        expect(f"status by {words}", 413, front.ask("/post", *words, "--data-binary", f"@{file}").status)


@check
def a_host_has_one_spelling(front):
    """RFC 9110, 4.2.3: upper case and the default port are the same host; a final dot is taken away. So there is one key."""
    front.ask("/a")
    count = len(front.origin.fetches)
    for words, host in (
        (["--http2"], "H.Example"),
        (["--http2"], "h.example."),
        (["--http1.1"], "H.EXAMPLE."),
        (["--http1.1", "--header", "Host: h.example:443"], "h.example"),
        (["--http2", "--header", "Host: h.example.:443"], "h.example"),
        (["--http1.1", "--header", "Host: H.Example", "--request-target", "https://H.Example/a"], "h.example"),
        (["--http1.1", "--header", "Host: H.Example.", "--request-target", "https://H.Example./a"], "h.example"),
    ):
        expect_from(front.ask("/a", *words, host=host), 200, "edge;hit;ttl=")
    expect("requests at the origin", count, len(front.origin.fetches))
    expect("Host at the origin", "h.example", value_of(front.fetches("/a")[-1], "Host"))


@check
def spellings_of_a_path_are_refused(front):
    """What a tolerant origin would read as /admin/secret.txt doesn't come through; in a query it does."""
    count = len(front.origin.fetches)
    for target in SPELLINGS:
        for words in (["--http1.1"], ["--http2"]):
            expect(f"status for {target} by {words}", 400, front.ask(target, *words).status)
    target = "https://h.example//admin/secret.txt"
    expect(f"status for {target}", 400, front.ask("/a", "--http1.1", "--request-target", target).status)
    expect("requests at the origin", count, len(front.origin.fetches))
    expect("status with such a query", 200, front.ask("/a?u=http://x/%2F;y=%5C").status)


@check
def the_table_denies_behind_it(front):
    """What the table denies is 403 with its line, also by an escaped letter; dot segments are refused, whoever does it first."""
    for target in ("/admin", "/admin/secret.txt", "/%61dmin/secret.txt"):
        expect_from(front.ask(target), 403, "denied by line 1")
    for target in ("/x/../admin/secret.txt", "/x/%2e%2e/admin/secret.txt", "/../admin"):
        expect(f"status for {target}", 400, front.ask(target).status)


@check
def options_are_answered_at_the_front(front):
    """A preflight of CORS: 204 with what is allowed to a listed origin, and without it to another. TRACE and CONNECT are refused."""
    count = len(front.origin.fetches)
    ask = ["--request", "OPTIONS", "--header", "Access-Control-Request-Method: PUT", "--header"]
    for origin, allowed in (("https://app.example", "https://app.example"), ("https://other.example", None)):
        answer = front.ask("/a", *ask, f"Origin: {origin}")
        got = answer.status, answer.value("Access-Control-Allow-Origin"), answer.reason()
        expect(f"status, the allowed origin and the reason for {origin}", (204, allowed, "none"), got)
    for words in (["--request", "TRACE"], ["--http1.1", "--request", "CONNECT"]):
        status = front.ask("/a", *words).status
        if status not in (400, 405):
            raise Unexpected(f"by {words}", "400 or 405", status)
    expect("requests at the origin", count, len(front.origin.fetches))


@check
def a_scheme_has_its_own_answer_by_vary(front):
    """An origin that redirects http to https and says Vary: X-Forwarded-Proto: each scheme has its own, from the store too."""
    for _ in range(2):
        for words, scheme, status in ((["--http2"], "https", 200), (["--http1.1"], "http", 301)):
            answer = front.ask("/scheme", *words, "--header", "X-Forwarded-Proto: gopher", scheme=scheme)
            expect(f"status by {scheme}", status, answer.status)
    expect("the second reason", "edge;hit;ttl=", answer.reason())
    expect("schemes at the origin", ["https", "http"], [value_of(it, "X-Forwarded-Proto") for it in front.fetches("/scheme")])


@check
def a_dot_segment_of_apt_is_taken_out(front):
    """apt asks flat repositories for /apt/./Packages (RFC 3986, 5.2.4). What stands behind it is judged as any path; in a query it stays."""
    for words in (["--http1.1"], ["--http2"]):
        expect("status of /./a", 200, front.ask("/./a?x=/./y", *words).status)
        expect("status of a denied path", 403, front.ask("/./admin/secret.txt", *words).status)
        expect("status of two slashes behind it", 400, front.ask("/x/.//admin/secret.txt", *words).status)
        expect("status of a query with it", 200, front.ask("/a?z=/./y", *words).status)
    expect("targets at the origin", {"/a?x=/./y", "/a?z=/./y"}, {it.target for it in front.origin.fetches if "/y" in it.target})


@check
def a_client_cannot_name_its_address(front):
    front.ask("/post", "--header", "X-Forwarded-For: 192.0.2.1", "--data", "x")
    expect("X-Forwarded-For at the origin", "127.0.0.1", value_of(front.fetches("/post")[-1], "X-Forwarded-For"))


@check
def connections_to_the_cache_are_kept(front):
    """Five requests on a client's connection take one to the cache."""
    for words in (["--http1.1"], ["--http2"]):
        targets = [f"https://h.example/kept/{i}" for i in range(5)]
        before = len(connections_with(front, b"/kept/"))
        for it in targets[1:]:
            words += ["--connect-to", f"::127.0.0.1:{front.https}", it]
        front.ask("/kept/0", *words)
        time.sleep(0.2)
        more = len(connections_with(front, b"/kept/")) - before
        # (the first may go on one that is kept from an earlier check)
        expect_within("further connections to the cache", 0, 1, more)
    expect("requests at the origin", 5, sum(it.target.startswith("/kept/") for it in front.origin.fetches))


def connections_with(front, word):
    """The numbers of the proxy's connections on which such requests came, by its record."""
    with open(front.proxy.record, "rb") as it:
        happenings = happenings_of(it.read())
    return {words for words, block in happenings if words.startswith(b"client ") and block and word in block}


@check
def idle_connections_leave_room(front):
    """Behind 200 requests at once the front keeps fewer connections open than the cache has."""
    failed = []

    def one(address):
        try:
            expect("content", b"slow", front.ask("/slow", "--http1.1", "--interface", address).content)
        except Unexpected as fault:
            failed.append(fault)

    # (of four addresses: one may have 60 in progress)
    crowd = [threading.Thread(target=one, args=[f"127.0.0.{i % 4 + 1}"]) for i in range(200)]
    for it in crowd:
        it.start()
    for it in crowd:
        it.join()
    expect("failures", [], failed)
    wait_until(lambda: not connections_to_origin(front), "no connection to the origin")
    # (a connection that was closed is left up to five seconds of quiet)
    pid = front.proxy.process.pid
    wait_until(lambda: sockets_of(pid) <= 80, "at most 80 sockets of the cache", 8)
    return f"{sockets_of(pid)} sockets of the cache"


def connections_to_origin(front):
    return [it for it in front.origin.fetches if not it.is_over.is_set()]


def sockets_of(pid):
    count = 0
    for it in os.listdir(f"/proc/{pid}/fd"):
        try:
            count += os.readlink(f"/proc/{pid}/fd/{it}").startswith("socket:")
        except FileNotFoundError:
            # (closed since)
            pass
    return count


@check
def failures_come_through(front):
    """The cache's own answers, with their reasons: a silent origin, and only-if-cached."""
    expect_from(front.ask("/silent"), 504, "origin timed-out;fwd=uri-miss")
    expect_from(front.ask("/none-held", "--header", "Cache-Control: only-if-cached"), 504, "only-if-cached;fwd=uri-miss")


@check
def a_slow_client_waits_at_the_front(front):
    """Others are served while one reads nothing of its answer."""
    front.ask("/big")
    slow = threading.Thread(target=front.ask, args=["/large", "--limit-rate", "200k"])
    slow.start()
    for _ in range(5):
        began = time.monotonic()
        expect_from(front.ask("/big"), 200, "edge;hit;ttl=")
        expect_within("another's answer", 0, 2, time.monotonic() - began)
    slow.join()


@check
def a_purge_takes_the_stored_response_away(front):
    """RFC 9111, 4.4: an unsafe request that succeeds invalidates its target, and no other."""
    for it in ("/purged", "/purged?b"):
        expect_from(front.ask(it), 200, "edge;fwd=uri-miss;ttl=;stored")
        expect_from(front.ask(it), 200, "edge;hit;ttl=")
    front.origin.answers["/purged"] = whole(200, KEPT, content=b"second")
    expect_from(front.ask("/purged", "--http2", "--request", "PURGE"), 204, "edge;fwd=method")
    expect("content", b"second", expect_from(front.ask("/purged"), 200, "edge;fwd=uri-miss;ttl=;stored").content)
    expect_from(front.ask("/purged?b"), 200, "edge;hit;ttl=")
    expect("methods at the origin", {"GET"}, {it.method for it in front.fetches("/purged")})
    expect_from(front.ask("/admin", "--request", "PURGE"), 403, "denied by line 1")


@check
def the_front_logs_the_reason(front):
    """The line of the front's log has what the cache said."""
    front.ask("/a")
    if front.kind == "nginx":
        line = re.compile(r'127\.0\.0\.1 \[.*\] "GET /a HTTP/2\.0" 200 [0-9.]+ "edge;hit;ttl=[0-9]+" "-"')
    else:
        line = re.compile(r'.* cache/cache .* 200 .* \{edge;hit;ttl=[0-9]+\|\} "GET (https://h\.example)?/a HTTP/2\.0"')
    wait_until(lambda: any(line.fullmatch(it) for it in front.log()), "such a line in the front's log", 5)
