"""What an operator does on a bad day, tried: docs/BAD_DAYS.md."""
import signal
import subprocess
import time
from collections import Counter

from deployed.fronts import Front, expect_from
from deployed.reports import run, words_of
from deployed.stand import curl, deployed, need, part, put_for
from live.expect import Unexpected, expect, expect_within
from live.origin import Origin, whole
from live.scenario import KEPT

PURGE_LINE = '[[line]]                 # takes what is stored'
HELD = "Cache-Control: max-age=600, stale-if-error=600"


@part
def bad_days(stand):
    need("curl")
    for it in (the_origin_is_down, a_wrong_lifetime_is_taken_back, a_store_that_is_too_small_shows, an_incident_is_replayed):
        yield it.__name__, lambda it=it: it(stand)


@part
def bad_days_of_nginx(stand):
    need("nginx", "curl")
    limits = {"rate=200r/s": "rate=10r/s", "burst=400": "burst=20"}
    yield "a_client_that_floods_is_held_back", lambda: a_client_that_floods_is_held_back(Front(stand, "nginx", limits))


@part
def bad_days_of_haproxy(stand):
    need("haproxy", "curl")
    limits = {"gt 2000": "gt 30"}
    yield "a_client_that_floods_is_held_back", lambda: a_client_that_floods_is_held_back(Front(stand, "haproxy", limits))


def cache_before(stand, origin, words=(), **more):
    """A proxy by deploy/table.toml, with these words in place of others."""
    return stand.proxy(put_for(deployed("table.toml", {"127.0.0.1:8081": origin.address}), dict(words)), **more)


def the_origin_is_down(stand):
    """What is fresh is sent; what is stale is sent for as long as its origin allowed; the rest is 502 with its reason."""
    lines = {"/fresh": KEPT, "/stale": "Cache-Control: max-age=1, stale-if-error=600", "/strict": "Cache-Control: max-age=1"}
    origin = stand.origin(Origin({it: whole(200, line, content=b"hello") for it, line in lines.items()}))
    cache = cache_before(stand, origin)
    url = "http://h.example{}".format
    for it in lines:
        expect_from(curl(cache.port, url(it)), 200, "edge;fwd=uri-miss;ttl=;stored")
    stand.origins.remove(origin)
    origin.close()
    time.sleep(2.1)
    for it, status, reason in (
        ("/fresh", 200, "edge;hit;ttl="),
        ("/stale", 200, "edge;fwd=stale;ttl=;detail=stale-if-error"),
        ("/strict", 502, "origin refused;fwd=stale;stale-if-error=no-directive"),
        ("/new", 502, "origin refused;fwd=uri-miss"),
    ):
        expect_from(curl(cache.port, url(it)), status, reason)


def a_wrong_lifetime_is_taken_back(stand):
    """A path whose answers went out with too long a lifetime: a line without cache in front, and a restart at the same port."""
    origin = stand.origin(Origin({"/news/a": whole(200, "Cache-Control: max-age=31536000", content=b"wrong"), "/b": whole(200, KEPT)}))
    first, url = cache_before(stand, origin), "http://h.example/news/a"
    for reason in ("edge;fwd=uri-miss;ttl=;stored", "edge;hit;ttl="):
        expect_from(curl(first.port, url), 200, reason)
    origin.answers["/news/a"] = whole(200, KEPT, content=b"right")
    first.process.send_signal(signal.SIGTERM)
    first.wait()
    line = '[[line]]\nhost = "*"\nmethods = ["*"]\npath = "/news"\norigin = "%s"\ncache = "off"\n\n' % origin.address
    words = {"version = 1": "version = 2", PURGE_LINE: line + PURGE_LINE}
    again = cache_before(stand, origin, words, listen=f"127.0.0.1:{first.port}")
    for _ in range(2):
        expect("content", b"right", expect_from(curl(again.port, url), 200, "edge;fwd=bypass;detail=operator").content)
    for reason in ("edge;fwd=uri-miss;ttl=;stored", "edge;hit;ttl="):
        expect_from(curl(again.port, "http://h.example/b"), 200, reason)


def a_store_that_is_too_small_shows(stand):
    """Eight targets in turn, room for four: each is evicted before it is asked for again, and the log's report says so."""
    origin = stand.origin(Origin({f"/{i}": whole(200, KEPT, content=b"hello") for i in range(8)}))
    log = f"{stand.folder}/access.log"
    cache = cache_before(stand, origin, {"capacity = 1000 ": "capacity = 4 "}, options=["--log", log])
    for _ in range(3):
        for i in range(8):
            expect_from(curl(cache.port, f"http://h.example/{i}"), 200, "edge;fwd=uri-miss;ttl=;stored")
    cache.process.send_signal(signal.SIGTERM)
    cache.wait()
    told = words_of(run("--table", f"{cache.folder}/table.toml", log).stdout)
    for it in (
        "hit ratio: 0.0 % of 24",
        "stored again while the last would have been fresh: 16 of 24 that were stored for want of any",
        "fwd=uri-miss;stored 24 100.0 %",
        "h.example 24 0.0 %",
        "refusals: none",
    ):
        if it not in told:
            raise Unexpected("from the report", it, told)


def an_incident_is_replayed(stand):
    """`--record`, and the record replayed: the effects have each answer that went out, with its reason, to the byte."""
    origin = stand.origin(Origin({"/a": whole(200, "Cache-Control: max-age=600, no-cache", 'ETag: "v1"', content=b"hello")}))
    cache = cache_before(stand, origin, records=True)
    url = "http://h.example/a"
    expect_from(curl(cache.port, url), 200, "edge;fwd=uri-miss;ttl=;stored")
    answer = expect_from(curl(cache.port, url), 200, "edge;fwd=stale;ttl=;stored;detail=response-no-cache")
    cache.process.send_signal(signal.SIGTERM)
    cache.wait()
    with open(cache.record, "rb") as script:
        ran = subprocess.run([stand.program], stdin=script, capture_output=True, timeout=60)
    expect("status and line of the replay", (0, b""), (ran.returncode, ran.stderr))
    told = f"Cache-Status: {answer.value('Cache-Status')}\r\n".encode()
    if ran.stdout.count(told) != 1:
        raise Unexpected("once in the effects", told, ran.stdout[-600:])


def a_client_that_floods_is_held_back(front):
    """One that asks 300 times at once gets 429 for what is beyond the front's limits; another address is served."""
    front.ask("/a")
    words = ["curl", "--silent", "--noproxy", "*", "--connect-to", f"::127.0.0.1:{front.http}", "--interface", "127.0.0.9"]
    words += ["--parallel", "--parallel-max", "50", "--output", "/dev/null", "--write-out", "%{http_code}\\n", "http://h.example/a#[1-300]"]
    ran = subprocess.run(words, capture_output=True, text=True, timeout=120)
    told = Counter(ran.stdout.split())
    expect("statuses", ["200", "429"], sorted(told))
    expect_within("refused of 300", 100, 290, told["429"])
    expect_from(front.ask("/a", "--interface", "127.0.0.8"), 200, "edge;hit;ttl=")
    return f"{told['429']} of 300 refused"
