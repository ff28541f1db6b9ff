"""A browser before the fronts of deploy/, over TLS and HTTP/2: an event stream and a WebSocket past the cache, and what CORS lets it do."""
import base64
import hashlib
import json
import os
import subprocess
import threading

from deployed.fronts import FILES, Front, value_of
from deployed.pages import browser
from deployed.past_the_cache import HEAD, LINES, PATH
from deployed.stand import need, part, taken_in, wait_until
from live.client import PATIENCE
from live.expect import expect
from live.origin import whole
from live.scenario import KEPT

# The page asks for each of these, and tells its origin what came of it. The second event comes once the first has been told of.
PAGE = """<!doctype html><title>Page</title><script>
const told = {}
const tell = (name, value) => { told[name] = value; return fetch("/told", {method: "POST", body: JSON.stringify(told)}) }
const events = new EventSource("PATH/events"), seen = []
events.onmessage = it => { seen.push(it.data); seen.length == 2 ? (events.close(), tell("events", seen)) : fetch("PATH/first-came") }
const socket = new WebSocket("wss://" + location.host + "PATH/socket")
socket.onopen = () => socket.send("hello")
socket.onmessage = it => { tell("socket", it.data); socket.close() }
socket.onerror = () => tell("socket", "an error")
fetch("https://h.example/api", {method: "PUT", headers: {"Content-Type": "application/json"}, body: "{}"})
    .then(it => it.text()).then(it => tell("put", it)).catch(it => tell("put", it.name))
</script>""".replace("PATH", PATH)
# The protocol's own number (RFC 6455, 1.3).
MAGIC = b"258EAFA5-E914-47DA-95CA-C5AB0DC85B11"


@part
def browsers(stand):
    need("curl")
    browser()
    for kind in LINES:
        yield f"a_page_through_{kind}", lambda kind=kind: a_page(stand, kind)


def a_page(stand, kind):
    """A page of the listed origin does all of it; one of another host may not send PUT to h.example, and does the rest."""
    front = Front(stand, kind, taken_in(FILES[kind], *LINES[kind]), records=False)
    for host, put in (("app.example", "changed"), ("other.example", "TypeError")):
        came, told = threading.Event(), {}
        cors = "Access-Control-Allow-Origin: https://app.example"
        front.origin.answers |= {
            "/page": whole(200, KEPT, "Content-Type: text/html", content=PAGE.encode()),
            "/told": lambda fetch, told=told: (told.update(json.loads(fetch.content)), whole(204)(fetch)),
            "/api": whole(200, cors, content=b"changed"),
            f"{PATH}/events": lambda fetch, came=came: two_events(fetch, came),
            f"{PATH}/first-came": lambda fetch, came=came: (came.set(), whole(204, "Connection: close")(fetch)),
            f"{PATH}/socket": in_upper_case,
        }
        process = begin(stand, front, f"https://{host}/page")
        try:
            wait_until(lambda told=told: len(told) == 3, "three things that the page tells", 40)
        finally:
            process.kill()
            process.communicate()
        expect(f"what the page of {host} tells", {"events": ["1", "2"], "socket": "HELLO", "put": put}, told)


def begin(stand, front, url):
    """A browser without a window, for which each host is the front."""
    profile = f"{stand.folder}/browser-{front.kind}"
    how = ["--headless=new", "--no-sandbox", "--disable-gpu", f"--user-data-dir={profile}", "--ignore-certificate-errors"]
    how += [f"--host-resolver-rules=MAP *.example:443 127.0.0.1:{front.https}", url]
    environment = {**os.environ, "HOME": stand.folder, "XDG_CONFIG_HOME": profile, "XDG_CACHE_HOME": profile}
    return subprocess.Popen([browser(), *how], stdin=subprocess.DEVNULL, stdout=subprocess.DEVNULL, stderr=subprocess.DEVNULL, env=environment)


def two_events(fetch, came):
    fetch.send(HEAD + b"data: 1\n\n")
    if came.wait(PATIENCE):
        fetch.send(b"data: 2\n\n")
    fetch.wait_for_its_end()


def in_upper_case(fetch):
    """A WebSocket (RFC 6455, 4.2.2 and 5.2) whose one text comes back in upper case."""
    key = hashlib.sha1(value_of(fetch, "Sec-WebSocket-Key").encode() + MAGIC).digest()
    lines = ["HTTP/1.1 101 Switching Protocols", "Connection: Upgrade", "Upgrade: websocket", f"Sec-WebSocket-Accept: {base64.b64encode(key).decode()}"]
    fetch.send("\r\n".join([*lines, "", ""]).encode())
    frame = fetch.socket.recv(100)
    mask, text = frame[2:6], frame[6 : 6 + (frame[1] & 0x7F)]
    text = bytes(it ^ mask[i % 4] for i, it in enumerate(text)).upper()
    fetch.send(bytes([0x81, len(text)]) + text)
    fetch.wait_for_its_end()
