"""Scenarios of ranges, over tables of versions 3 and 4: which parts of a stored page are sent out of the store, and which the origin is asked
for (RFC 9110, 13.1.5, 14.1.2, 14.2; docs/LINE_OPTIONS.md, "ranges")."""
import shutil
import subprocess
import threading
import time

from live.client import request
from live.expect import expect, expect_answer
from live.line_words import MINUTE, MISS, PAST_A_SECOND, SECOND, by_words, expect_asked
from live.origin import held_back, whole
from live.scenario import scenario
from live.stale_crowds import TAG, expect_waiting
from live.waiting import asking

PAGE = bytes(range(256)) * 40
STORED, HIT = "edge;fwd=uri-miss;ttl=60;stored", "edge;hit;ttl=60"
FILLED = "edge;fwd=uri-miss;fwd-status=200;ttl=60;stored"


def filled(stage, *lines, words=None, content=PAGE, version=4):
    """A client of a proxy that has the page, and its origin."""
    client, origin = by_words(stage, words, {"/a": whole(200, *(lines or (MINUTE, TAG)), content=content)}, version)
    expect("status", 200, client.ask("/a").status)
    return client, origin


def expect_part(answer, first, last, member=HIT, content=PAGE):
    """The bytes from the first to the last, and the line that says so."""
    expect_answer(answer, 206, member, content[first : last + 1])
    told = answer.value("Content-Range"), answer.value("Content-Length")
    expect("Content-Range and Content-Length", (f"bytes {first}-{last}/{len(content)}", str(last + 1 - first)), told)


@scenario
def parts_are_cut_from_a_stored_page(stage):
    """RFC 9110, 14.1.2: the first 500 bytes, the second 500, the last 500, and from a byte on; the origin isn't asked. Behind the end, and
    for the last 0 bytes, there is nothing."""
    client, origin = filled(stage)
    size = len(PAGE)
    for text, first, last in (
        ("0-499", 0, 499), ("500-999", 500, 999), ("-500", size - 500, size - 1), (f"{size - 9}-", size - 9, size - 1),
        ("0-0", 0, 0), ("-1", size - 1, size - 1), ("0-", 0, size - 1), (f"7-{10**30}", 7, size - 1), (f"-{10**30}", 0, size - 1),
    ):
        expect_part(client.ask("/a", f"Range: bytes={text}"), first, last)
    for text in (f"{size}-", f"{size}-{size + 1}", "-0", f"{10**30}-"):
        answer = client.ask("/a", f"Range: bytes={text}")
        expect_answer(answer, 416, HIT, b"")
        expect("of a 416", (f"bytes */{size}", None), (answer.value("Content-Range"), answer.value("Cache-Control")))
    expect_asked(origin, 1)


@scenario
def other_ranges_get_the_whole(stage):
    """RFC 9110, 14.2: several ranges, another unit, what is malformed, and a HEAD are answered as without Range."""
    client, origin = filled(stage)
    for text in ("bytes=0-1,3-4", "bytes=0-1, -1", "items=0-1", "bytes=5-1", "bytes=a-b", "bytes=", "bytes=1", "0-1", "bytes= 0-1"):
        expect_answer(client.ask("/a", f"Range: {text}"), 200, HIT, PAGE)
    expect_answer(client.ask("/a", "Range: bytes=0-1", "Range: bytes=0-1"), 200, HIT, PAGE)
    expect_answer(client.ask("/a", "Range: bytes=0-1", method="HEAD"), 200, HIT, b"")
    expect_asked(origin, 1)


@scenario
def a_download_goes_on_where_the_page_has_not_changed(stage):
    """RFC 9110, 13.1.5: If-Range by a strong entity tag, and by a date that is Last-Modified; else the download begins anew. A condition
    comes first (13.2.2)."""
    client, origin = filled(stage)
    expect_part(client.ask("/a", "Range: bytes=100-", 'If-Range: "v1"'), 100, len(PAGE) - 1)
    for other in ('"v0"', 'W/"v1"', "Sun, 06 Nov 1994 08:49:37 GMT", "*"):
        expect_answer(client.ask("/a", "Range: bytes=100-", f"If-Range: {other}"), 200, HIT, PAGE)
    expect_answer(client.ask("/a", "Range: bytes=100-", 'If-None-Match: "v1"'), 304, HIT, b"")
    expect_asked(origin, 1)
    client, _ = filled(stage, MINUTE, "Last-Modified: Sun, 06 Nov 1994 08:49:37 GMT")
    expect_part(client.ask("/a", "Range: bytes=100-", "If-Range: Sun, 06 Nov 1994 08:49:37 GMT"), 100, len(PAGE) - 1)
    expect_answer(client.ask("/a", "Range: bytes=100-", "If-Range: Sun, 06 Nov 1994 08:49:38 GMT"), 200, HIT, PAGE)


@scenario
def a_stale_page_is_validated_and_then_cut(stage):
    """RFC 9111, 4.3: the proxy's condition goes forward beside the Range; behind a 304 the part is cut from what is stored, and stays a hit.
    Where the page has changed the origin's part is passed on, and isn't stored."""
    client, origin = filled(stage, SECOND, TAG)
    time.sleep(PAST_A_SECOND)
    origin.answers["/a"] = whole(304, MINUTE, TAG)
    expect_part(client.ask("/a", "Range: bytes=0-9"), 0, 9, "edge;fwd=stale;fwd-status=304;ttl=60")
    sent = origin.fetches[1].value("Range"), origin.fetches[1].value("If-None-Match")
    expect("Range and If-None-Match at the origin", ("bytes=0-9", '"v1"'), sent)
    expect_part(client.ask("/a", "Range: bytes=10-19"), 10, 19)
    expect_asked(origin, 2)
    client, origin = filled(stage, SECOND, TAG)
    time.sleep(PAST_A_SECOND)
    origin.answers["/a"] = whole(206, MINUTE, 'ETag: "v2"', "Content-Range: bytes 0-9/20", content=b"changed...")
    expect_answer(client.ask("/a", "Range: bytes=0-9"), 206, "edge;fwd=stale", b"changed...")
    origin.answers["/a"] = whole(200, MINUTE, 'ETag: "v2"', content=PAGE)
    expect_answer(client.ask("/a"), 200, "edge;fwd=stale;ttl=60;stored", PAGE)


@scenario
def a_range_of_what_is_not_stored_goes_to_the_origin(stage):
    """It goes forward with its Range, and its part isn't stored. An origin without ranges answers whole, which is stored as any; a 416 isn't."""
    answers = {
        "/part": whole(206, MINUTE, "Content-Range: bytes 0-1/4", content=b"pa"),
        "/whole": whole(200, MINUTE, content=PAGE),
        "/short": whole(416, MINUTE, "Content-Range: bytes */4"),
    }
    client, origin = by_words(stage, {}, answers, 4)
    for _ in range(2):
        expect_answer(client.ask("/part", "Range: bytes=0-1"), 206, MISS, b"pa")
        expect_answer(client.ask("/short", "Range: bytes=9-"), 416, MISS, b"")
    expect("Range at the origin", ["bytes=0-1", "bytes=9-"] * 2, [it.value("Range") for it in origin.fetches])
    expect_answer(client.ask("/whole", "Range: bytes=0-1"), 200, STORED, PAGE)
    expect_part(client.ask("/whole", "Range: bytes=0-1"), 0, 1)


@scenario
def ranges_wait_for_the_whole_and_lead_nobody(stage):
    """One GET of the whole at the origin, and fifty of parts: one request there, and fifty parts of its answer. A range leads nobody."""
    go = threading.Event()
    client, origin = by_words(stage, {}, {"/a": held_back(go, whole(200, MINUTE, TAG, content=PAGE))}, 4)
    proxy = stage.proxies[-1]
    first = asking(proxy, 1, "/a")
    origin.wait_for(1)
    others = asking(proxy, 50, "/a", "Range: bytes=5-9")
    expect_waiting([*first, *others])
    expect_asked(origin, 1, " so far")
    go.set()
    expect_answer(first[0].response(), 200, STORED, PAGE)
    for it in others:
        expect_part(it.response(), 5, 9, "edge;fwd=uri-miss;ttl=60;collapsed")
    go.clear()
    client, origin = by_words(stage, {}, {"/a": held_back(go, whole(206, MINUTE, "Content-Range: bytes 5-9/10", content=b"parts"))}, 4)
    ranged = asking(stage.proxies[-1], 3, "/a", "Range: bytes=5-9")
    origin.wait_for(3)
    go.set()
    for it in ranged:
        expect_answer(it.response(), 206, MISS, b"parts")


@scenario
def ranges_go_forward_where_a_line_says_so(stage):
    """`ranges = "forwarded"`, and tables of version 3: each range of a stored page is the origin's."""
    for version, words in ((4, {"ranges": "forwarded"}), (3, {})):
        client, origin = filled(stage, words=words, version=version)
        origin.answers["/a"] = whole(206, MINUTE, f"Content-Range: bytes 0-1/{len(PAGE)}", content=PAGE[:2])
        for _ in range(2):
            expect_answer(client.ask("/a", "Range: bytes=0-1"), 206, "edge;fwd=bypass;detail=range", PAGE[:2])
        expect_asked(origin, 3)
        expect_answer(client.ask("/a"), 200, HIT, PAGE)


@scenario
def a_range_fills_the_store_with_the_whole(stage):
    """`ranges = "filled"`: a range first. The origin is asked without Range and If-Range; the client gets its part, and the whole, and other
    ranges, are hits behind it."""
    client, origin = by_words(stage, {"ranges": "filled"}, {"/a": whole(200, MINUTE, TAG, content=PAGE)}, 4)
    expect_part(client.ask("/a", "Range: bytes=256-511", 'If-Range: "v1"'), 256, 511, FILLED)
    sent = origin.fetches[0].value("Range"), origin.fetches[0].value("If-Range")
    expect("Range and If-Range at the origin", (None, None), sent)
    expect_answer(client.ask("/a"), 200, HIT, PAGE)
    expect_part(client.ask("/a", "Range: bytes=-10"), len(PAGE) - 10, len(PAGE) - 1)
    expect_asked(origin, 1)


@scenario
def each_of_a_crowd_of_ranges_gets_its_own_part(stage):
    """`ranges = "filled"`: 20 GETs of different ranges at once. The origin is asked once, and each gets its own part of the answer."""
    go = threading.Event()
    client, origin = by_words(stage, {"ranges": "filled"}, {"/a": held_back(go, whole(200, MINUTE, TAG, content=PAGE))}, 4)
    proxy = stage.proxies[-1]
    ranged = [asking(proxy, 1, "/a", "Range: bytes=0-9")[0]]
    origin.wait_for(1)
    for at in range(1, 20):
        ranged.append(proxy.client())
        ranged[-1].send(request("/a", f"Range: bytes={at * 100}-{at * 100 + 9}"))
    expect_waiting(ranged)
    expect_asked(origin, 1, " so far")
    go.set()
    for at, it in enumerate(ranged):
        expect_part(it.response(), at * 100, at * 100 + 9, "edge;fwd=uri-miss;ttl=60;collapsed" if at else FILLED)
    expect_answer(client.ask("/a"), 200, HIT, PAGE)
    expect_asked(origin, 1)


@scenario
def a_range_of_what_may_not_be_stored_gets_its_part(stage):
    """`ranges = "filled"`: a part of an answer with no-store, each time from the origin; a 416 behind its end, and the whole where If-Range
    names another page. An error is passed on as it came."""
    answers = {"/a": whole(200, "Cache-Control: no-store", TAG, content=PAGE), "/missing": whole(404, content=PAGE)}
    client, origin = by_words(stage, {"ranges": "filled"}, answers, 4)
    part = "edge;fwd=uri-miss;fwd-status=200"
    expect_part(client.ask("/a", "Range: bytes=5-9"), 5, 9, part)
    expect_answer(client.ask("/a", f"Range: bytes={len(PAGE)}-"), 416, part, b"")
    expect_answer(client.ask("/a", "Range: bytes=5-9", 'If-Range: "v0"'), 200, MISS, PAGE)
    expect_answer(client.ask("/missing", "Range: bytes=5-9"), 404, MISS, PAGE)
    expect("Range at the origin", [None] * 4, [it.value("Range") for it in origin.fetches])


@scenario
def curl_resumes_a_download(stage):
    """`curl -r` gets a part of a stored page, and `curl -C -` the rest of a file that is there in part."""
    if not shutil.which("curl"):
        return
    _, origin = filled(stage)
    proxy, file = stage.proxies[-1], f"{stage.room.name}/part"
    url = proxy.url("/a")
    told = ["curl", "-s", "--noproxy", "*", "-H", "Host: h"]
    proxy.unseen_client()
    got = subprocess.run([*told, "-r", "256-511", url], capture_output=True, check=True).stdout
    expect("the part", PAGE[256:512], got)
    with open(file, "wb") as it:
        it.write(PAGE[:1000])
    proxy.unseen_client()
    subprocess.run([*told, "-C", "-", "-o", file, url], check=True)
    with open(file, "rb") as it:
        expect("the file", PAGE, it.read())
    expect_asked(origin, 1)
