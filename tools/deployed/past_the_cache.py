"""What goes past the cache, by the lines of the fronts that are comments as they stand: a stream comes as it is sent, a large file comes
whole, and a stranger claims as little there as elsewhere."""
import socket
import threading

from deployed.fronts import FILES, start_front, value_of
from deployed.stand import curl, free_port, need, part, taken_in
from deployed.strangers import CLAIMS, headers
from live.client import PATIENCE
from live.expect import Unexpected, expect
from live.origin import Origin, whole

PATH = "/past-the-cache"
HEAD = b"HTTP/1.1 200 OK\r\nContent-Type: text/event-stream\r\nConnection: close\r\n\r\n"
LINES = {
    "nginx": ['"~*^/past-the-cache/', "location /past-the-cache/"],
    "haproxy": ["acl answers_options path -m beg /past", "http-request set-header Connection upgrade", "use_backend past_the_cache", "backend past_the_cache"],
}


class Past:
    """A front with these lines before an origin, and nobody where the cache would listen."""

    def __init__(self, stand, kind):
        need(kind, "curl")
        self.kind, self.go_on, self.http = kind, threading.Event(), free_port()
        answers = {"/events": self.events, "/large": whole(200, content=b"x" * 3000000), "/post": whole(200, content=b"posted")}
        answers["/options"] = whole(204, "Access-Control-Allow-Origin: https://page.example")
        self.origin = stand.origin(Origin({f"{PATH}{name}": it for name, it in answers.items()} | {f"{PATH}/socket": switched}))
        words = {**taken_in(FILES[kind], *LINES[kind]), "127.0.0.1:8081": self.origin.address}
        start_front(stand, kind, [self.http, free_port(), free_port(), free_port(), free_port()], words)

    def events(self, fetch):
        """Two events, the second one when the first has come."""
        fetch.send(HEAD + b"data: 1\n\n")
        if not self.go_on.wait(PATIENCE):
            raise ConnectionError("the first event hasn't come")
        fetch.send(b"data: 2\n\n")
        fetch.socket.close()

    def connect(self, lines):
        it = socket.create_connection(("127.0.0.1", self.http), timeout=PATIENCE)
        it.sendall(("\r\n".join(["GET %s HTTP/1.1" % lines[0], "Host: h.example", *lines[1:]]) + "\r\n\r\n").encode())
        return it


def switched(fetch):
    """Another protocol (RFC 9110, 7.8), in which each byte comes back in upper case."""
    upgrade, connection = ((value_of(fetch, it) or "").lower() for it in ("Upgrade", "Connection"))
    if upgrade != "websocket" or "upgrade" not in connection:
        return whole(400, content=b"no upgrade")(fetch)
    fetch.send(b"HTTP/1.1 101 Switching Protocols\r\nConnection: Upgrade\r\nUpgrade: websocket\r\nSec-WebSocket-Accept: s3pPLMBiTxaQ9kYGzzhZRbK+xOo=\r\n\r\n")
    fetch.send(fetch.socket.recv(100).upper())
    fetch.socket.close()


def until(it, text):
    """What has come when the text has."""
    came = b""
    while text not in came:
        data = it.recv(65536)
        if not data:
            raise Unexpected("over the connection", text, came)
        came += data
    return came


@part
def past_the_cache(stand):
    for kind in LINES:
        front = Past(stand, kind)
        for it in (
            a_stream_comes_as_it_is_sent,
            a_large_file_comes_whole,
            a_stranger_claims_no_field,
            no_path_climbs_past_the_table,
            another_protocol_is_passed_on,
            a_preflight_is_passed_on,
        ):
            yield f"{it.__name__}_{kind}", lambda it=it, front=front: it(front)


def a_stream_comes_as_it_is_sent(front):
    with front.connect([f"{PATH}/events"]) as it:
        until(it, b"data: 1\n\n")
        front.go_on.set()
        until(it, b"data: 2\n\n")


def a_large_file_comes_whole(front):
    """Three times as large as the table lets a content be, down and up."""
    expect("bytes of the file", 3000000, len(curl(front.http, f"http://h.example{PATH}/large", "--http1.1").content))
    words = ["--http1.1", "--header", "Expect:", "--data-binary", "y" * 100000]
    expect("what a POST gets", b"posted", curl(front.http, f"http://h.example{PATH}/post", *words).content)


def a_stranger_claims_no_field(front):
    curl(front.http, f"http://h.example{PATH}/large", "--http1.1", *headers(["Connection: close, X-Forwarded-For", *CLAIMS]))
    fetch = front.origin.fetches[-1]
    names = {name.lower() for name, _ in fetch.fields}
    expect("claims at the origin", [], [it for it in CLAIMS if it.partition(":")[0].lower() in names])
    expect("the front's field at the origin", "127.0.0.1", value_of(fetch, "X-Forwarded-For"))


def no_path_climbs_past_the_table(front):
    """What begins as the path that goes past the cache and leads elsewhere is no such path: it would pass the table's denials."""
    for it in ("/../admin", "/./../admin", "/x/../../admin", "/%2e%2e/admin", "/.%2E/admin", "/%2e./admin", "/..", "/%2E%2e"):
        before = len(front.origin.fetches)
        curl(front.http, f"http://h.example{PATH}{it}", "--http1.1")
        expect(f"requests to the origin for {PATH}{it}", before, len(front.origin.fetches))


def another_protocol_is_passed_on(front):
    """WebSocket (RFC 6455, 4.1): its fields go on, and then its bytes both ways."""
    upgrade = ["Connection: Upgrade", "Upgrade: websocket", "Sec-WebSocket-Key: dGhlIHNhbXBsZSBub25jZQ==", "Sec-WebSocket-Version: 13"]
    with front.connect([f"{PATH}/socket", *upgrade]) as it:
        expect("the answer", b"HTTP/1.1 101", until(it, b"\r\n\r\n")[:12])
        it.sendall(b"hello")
        until(it, b"HELLO")


def a_preflight_is_passed_on(front):
    """OPTIONS, too, is a matter of that origin."""
    words = ["--request", "OPTIONS", "--header", "Origin: https://page.example", "--header", "Access-Control-Request-Method: PUT"]
    answer = curl(front.http, f"http://h.example{PATH}/options", "--http1.1", *words)
    expect("what the origin allows", "https://page.example", answer.value("Access-Control-Allow-Origin"))
