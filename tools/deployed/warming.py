"""tools/warm: which targets of a log it takes, in which order and at which rate, and what it tells of the answers."""
import subprocess
import sys
import threading
import time

from deployed.reports import LOG, TOOLS
from deployed.stand import part
from live.expect import expect, expect_within
from live.origin import Origin, whole
from live.proxy import table_of

KEPT = "Cache-Control: max-age=600"
# By hand: of by_hand.log GETs that were hits, or whose answer was stored.
COUNTED = [
    ("4", "http://a.example/img/1.png"),
    ("3", "http://a.example/img/2.png?x=/y"),
    ("2", "http://b.example:8080/api/b"),
]
# Lines of which no target is asked for: no GET, neither a hit nor stored, or no URI that could be asked for.
NONE = [
    "1 c HEAD http://h/head 200 0 hit;ttl=1",
    "1 c GET http://h/miss 200 1 fwd=uri-miss",
    "1 c GET http://h/off 200 1 fwd=bypass;detail=operator",
    "1 c GET http://h/denied 403 1 denied by line 1",
    "1 c POST http://h/post 200 1 fwd=method",
    "1 c GET http://h/failed 504 1 origin timed-out;fwd=uri-miss",
    "1 c GET /odd 200 1 hit;ttl=1",
    "1 c GET http://h/\\xC3 200 1 hit;ttl=1",
    "1 c GET http:///no 200 1 hit;ttl=1",
    "1 c GET http://h/" + "x" * 9000 + " 200 1 hit;ttl=1",
    "no line",
]


def run(*words):
    return subprocess.run([sys.executable, f"{TOOLS}/warm", *words], capture_output=True, text=True, timeout=60)


def hits(targets):
    """A log of which each target was a hit as often as it says."""
    return "".join(f"1 c GET http://h.example{target} 200 1 hit;ttl=1\n" * times for target, times in targets)


@part
def warm(stand):
    yield "which_targets", lambda: which_targets(stand)
    yield "what_is_stored_then", lambda: what_is_stored_then(stand)
    yield "its_rate_and_its_crowd", lambda: its_rate_and_its_crowd(stand)
    yield "who_does_not_answer", lambda: who_does_not_answer(stand)


def which_targets(stand):
    ran = run(LOG, "--list")
    expect("targets of the log", (0, COUNTED), (ran.returncode, [tuple(it.split()) for it in ran.stdout.splitlines()]))
    expect(
        "the first of them",
        COUNTED[:1],
        [tuple(it.split()) for it in run(LOG, "--list", "--top", "1").stdout.splitlines()],
    )
    for it in NONE:
        ran = run(stand.file("none", f"{it}\n"))
        wanted = 1, "the log has no target that was a hit or was stored\n", ""
        expect(f"of `{it[:60]}`", wanted, (ran.returncode, ran.stdout, ran.stderr))
    for words in (["--top", "0"], ["--rate", "0"], ["--to", "h"], ["--header", "a\r\nb: c"], ["--jobs", "0"]):
        expect(f"status with {words}", 2, run(LOG, *words).returncode)
    expect("status of a log that isn't there", 1, run(f"{stand.folder}/nothing").returncode)


def what_is_stored_then(stand):
    """Five targets, one held already, one private, one denied: the least frequent first, with their host and field."""
    kept = whole(200, KEPT, "Vary: Accept-Encoding", content=b"a")
    origin = stand.origin(
        Origin({"/a": kept, "/b": kept, "/held": kept, "/private": whole(200, "Cache-Control: private", content=b"p")})
    )
    proxy = stand.proxy(table_of([("/denied", ["*"], "deny"), ("/", ["*"], origin.address)]))
    log = stand.file("log", hits([("/a", 5), ("/b?x=1", 4), ("/held", 3), ("/private", 2), ("/denied", 1)]))
    words = [log, "--to", f"127.0.0.1:{proxy.port}", "--header", "Accept-Encoding: gzip", "--jobs", "1"]
    client = proxy.client()
    client.ask("http://h.example/held", "Accept-Encoding: gzip")
    ran = run(*words)
    said = ran.stdout.splitlines()
    expect("status and standard error", (0, ""), (ran.returncode, ran.stderr))
    expect(
        "what it says first",
        True,
        said[0].startswith("5 targets asked for in ")
        and said[0].endswith(" s: 2 stored, 1 there already, 2 not stored"),
    )
    expect(
        "why not",
        ["1 not stored: 200 fwd=uri-miss", "1 not stored: 403 denied by line 1"],
        sorted(it.strip() for it in said[1:]),
    )
    expect("targets at the origin", ["/held", "/private", "/b?x=1", "/a"], [it.target for it in origin.fetches])
    expect(
        "fields there",
        {("h.example", "gzip")},
        {(it.value("Host"), it.value("Accept-Encoding")) for it in origin.fetches},
    )
    for target in ("/a", "/b?x=1"):
        answer = client.ask(f"http://h.example{target}", "Accept-Encoding: gzip")
        expect(f"the answer for {target}", "edge;hit;ttl=", answer.value("Cache-Status")[:13])
    again = run(*words).stdout.splitlines()[0]
    expect("asked once more", "0 stored, 3 there already, 2 not stored", again.partition(": ")[2])


def its_rate_and_its_crowd(stand):
    """No more requests a second than it is told, and no more at a time."""
    now, most, lock = [0], [0], threading.Lock()

    def slow(fetch):
        with lock:
            now[0] += 1
            most[0] = max(most[0], now[0])
        time.sleep(0.2)
        with lock:
            now[0] -= 1
        whole(200, KEPT, content=b"a")(fetch)

    origin = stand.origin(Origin({f"/{i}": slow for i in range(12)}))
    proxy = stand.proxy(table_of([origin.address]))
    log = stand.file("rate", hits([(f"/{i}", 1) for i in range(12)]))
    began = time.monotonic()
    ran = run(log, "--to", f"127.0.0.1:{proxy.port}", "--rate", "1000", "--jobs", "3")
    expect("what it says", "12 stored, 0 there already, 0 not stored", ran.stdout.partition(": ")[2].strip())
    # (12 requests of 0.2 s, three at a time)
    expect_within("for 12 slow answers", 0.8, 20, time.monotonic() - began)
    expect_within("requests at a time", 2, 3, most[0])
    began = time.monotonic()
    run(log, "--to", f"127.0.0.1:{proxy.port}", "--rate", "10")
    expect_within("for 12 hits at 10 a second", 1.1, 20, time.monotonic() - began)
    return f"{most[0]} at a time"


def who_does_not_answer(stand):
    """A port at which nobody listens, and a server that closes: it is told, with status 1."""
    log = stand.file("two", hits([("/a", 2), ("/b", 1)]))
    ran = run(log, "--to", "127.0.0.1:1")
    expect("nobody there", (1, ""), (ran.returncode, ran.stderr))
    expect("what it says", "  2 not answered: ConnectionRefusedError", ran.stdout.splitlines()[1])
    closing = stand.origin(Origin({"/a": lambda fetch: fetch.reset(), "/b": lambda fetch: fetch.reset()}))
    ran = run(log, "--to", closing.address)
    expect("a server that breaks off", (1, ""), (ran.returncode, ran.stderr))
    expect("what it says then", "  2 not answered: ConnectionResetError", ran.stdout.splitlines()[1])
