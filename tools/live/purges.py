"""Scenarios of lines that purge: what docs/TABLE.md, "Lines that purge", says of the key, of what goes and of what is on its way."""
import threading
import time

from live.expect import expect, expect_answer, expect_refusal, expect_within
from live.figures import expect_samples, figures_with, of
from live.line_words import MINUTE, SECOND, expect_asked
from live.origin import Origin, held_back, whole
from live.scenario import scenario
from live.stale_crowds import sent
from live.waiting import READ, asking

KEY = "c2d9f1b07a5e4d38Z"
SHOWN = f"Purge-Key: {KEY}"
STORED = "edge;fwd=uri-miss;ttl=60;stored"
DENIED = "denied by line 1"
STALE_MODE, TAG = "Purge-Mode: stale", 'ETag: "v"'


def purging(stage, answers, words=None, **more):
    """A proxy that purges by its first line, and the origin of the second, which may have words."""
    stage.finish()
    while stage.origins:
        stage.origins.pop().close()
    origin = stage.origin(Origin(answers))
    return stage.proxy(("/", ["PURGE"], "purge", {"key": KEY}), ("/", ["*"], origin.address, words or {}), version=4, **more), origin


def expect_purged(answer, count):
    expect("status, Purged, content and Cache-Status", (204, str(count), b"", None), (answer.status, answer.value("Purged"), answer.content, answer.value("Cache-Status")))


@scenario
def what_is_held_for_a_target_is_purged_by_its_key(stage):
    """All variants of one target go, and no other target; without the key, with another or with an order that isn't known nothing goes."""
    varied = whole(200, MINUTE, "Vary: X-A", content=b"page")
    file = f"{stage.room.name}/figures"
    proxy, origin = purging(stage, {"/a": varied, "/a/b": varied, "/a?b": varied}, options=["--stats", file])
    client = proxy.client()
    for path, lines in (("/a", ("X-A: 1",)), ("/a", ("X-A: 2",)), ("/a/b", ()), ("/a?b", ())):
        expect("status", 200, client.ask(path, *lines).status)
    others = ("Purge-Scope: site", "Purge-Scope: ALL", "purge-tag: a, b", "Purge-Mode: soft", "Purge-Anything: x")
    for lines in ((), (f"Purge-Key: {KEY[:-1]}z",), (f"Purge-Key: {KEY[:-1]}",), (f"Purge-Key: {KEY}x",), (f"Key: {KEY}",), *((SHOWN, it) for it in others)):
        expect_refusal(client.ask("/a", *lines, method="PURGE"), 403, DENIED)
    expect_answer(client.ask("/a", "X-A: 1"), 200, "edge;hit;ttl=60", b"page")
    expect_purged(client.ask("/a", SHOWN, method="PURGE"), 2)
    expect_purged(client.ask("/a", SHOWN, method="PURGE"), 0)
    expect_answer(client.ask("/a", "X-A: 1"), 200, STORED, b"page")
    expect("a hit", b"page", client.ask("/a/b").content)
    expect("another hit", b"page", client.ask("/a?b").content)
    expect_asked(origin, 5)
    samples = figures_with(file, of("responses_total", code=204), 2)
    counts = {"hit": 3, "uri-miss": 4, "vary-miss": 1, "denied": 10, "purged": 2}
    expect_samples(samples, {of("requests_total", reason=reason, detail=""): n for reason, n in counts.items()})


@scenario
def a_purge_takes_what_is_within_its_scope(stage):
    """By Purge-Scope a prefix, a host or all goes: `/a` with its query and what is below it, not `/ab`; and no other host."""
    targets = ("/a", "/a?b", "/a/", "/a/b?c", "/ab", "/b")
    proxy, origin = purging(stage, {path.partition("?")[0]: whole(200, MINUTE, content=b"page") for path in targets}, capacity=100)
    client = proxy.client()

    def purge(target, scope, count):
        expect_purged(client.ask(target, SHOWN, f"Purge-Scope: {scope}", method="PURGE"), count)

    def expect_held(host, held):
        for path in targets:
            answer = client.ask(f"http://{host}{path}", "Cache-Control: only-if-cached")
            expect(f"status of {host}{path}", 200 if path in held else 504, answer.status)

    for host in ("h", "g"):
        for path in targets:
            expect("status", 200, client.ask(f"http://{host}{path}").status)
    purge("/a", "prefix", 4)
    expect_held("h", ("/ab", "/b"))
    expect_held("g", targets)
    purge("http://g/a/", "prefix", 2)
    expect_held("g", ("/a", "/a?b", "/ab", "/b"))
    purge("/x", "host", 2)
    expect_held("h", ())
    purge("/x", "all", 4)
    expect_held("g", ())
    expect_asked(origin, 12)


@scenario
def what_names_a_tag_is_purged_by_it(stage):
    """By Purge-Tag all goes that names the tag in its Cache-Tag, within Purge-Scope where that stands, and what has more than 64 tags by each. No
    client sees a Cache-Tag: at a miss, a hit, HEAD, a range or a 304. Two lines of Purge-Tag are denied."""
    tags = {"/a": "front, news", "/b": "sport,news", "/c": "old-news", "/d": None, "/e": ", ".join(f"t{n}" for n in range(65)), "/f": ",".join(f"t{n}" for n in range(64))}
    answers = {path: whole(200, MINUTE, 'ETag: "v"', *((f"Cache-Tag: {it}",) if it else ()), content=b"page") for path, it in tags.items()}
    proxy, origin = purging(stage, answers, capacity=100)
    client = proxy.client()

    def purge(count, *lines):
        expect_purged(client.ask("/x", SHOWN, *lines, method="PURGE"), count)

    def expect_held(host, held):
        for path in tags:
            answer = client.ask(f"http://{host}{path}", "Cache-Control: only-if-cached")
            expect(f"status of {host}{path}", 200 if path in held else 504, answer.status)

    for host in ("h", "g"):
        for path in tags:
            expect("Cache-Tag at a miss", (200, None), (lambda it: (it.status, it.value("Cache-Tag")))(client.ask(f"http://{host}{path}")))
    for status, lines, more in ((200, (), {}), (200, (), {"method": "HEAD"}), (206, ("Range: bytes=0-1",), {}), (304, ('If-None-Match: "v"',), {}), (416, ("Range: bytes=9-",), {})):
        answer = client.ask("http://h/a", *lines, **more)
        expect(f"Cache-Tag of a {status}", (status, None), (answer.status, answer.value("Cache-Tag")))
    expect_refusal(client.ask("/x", SHOWN, "Purge-Tag: news", "Purge-Tag: sport", method="PURGE"), 403, DENIED)
    purge(3, "Purge-Tag: news", "Purge-Scope: host")
    expect_held("h", ("/c", "/d", "/f"))
    expect_held("g", tags)
    purge(1, "purge-tag: t63", "Purge-Scope: host")
    expect_held("h", ("/c", "/d"))
    purge(3, "Purge-Tag: news")
    expect_held("g", ("/c", "/d", "/f"))
    purge(0, "Purge-Tag: News")
    expect_held("h", ("/c", "/d"))
    expect_asked(origin, 12)


@scenario
def what_was_asked_for_before_a_purge_of_a_tag_is_not_stored(stage):
    """Nobody knows yet which tags an answer on its way will name: what was asked for before isn't stored, whatever it names."""
    go = threading.Event()
    proxy, origin = purging(stage, {"/a": held_back(go, whole(200, MINUTE, "Cache-Tag: sport", content=b"old"))})
    first = sent(proxy, "/a")
    time.sleep(READ)
    expect_purged(proxy.client().ask("/x", SHOWN, "Purge-Tag: news", method="PURGE"), 0)
    go.set()
    expect_answer(first.response(), 200, "edge;fwd=uri-miss", b"old")
    expect_answer(proxy.client().ask("/a"), 200, STORED, b"old")
    expect_asked(origin, 2)


@scenario
def what_was_asked_for_before_a_purge_of_its_prefix_is_not_stored(stage):
    """An answer on its way for a target below a purged path isn't stored; one beside it is."""
    go = threading.Event()
    answers = {path: held_back(go, whole(200, MINUTE, content=b"old")) for path in ("/a/b", "/ab")}
    proxy, origin = purging(stage, answers)
    below, beside = sent(proxy, "/a/b"), sent(proxy, "/ab")
    time.sleep(READ)
    expect_purged(proxy.client().ask("/a", SHOWN, "Purge-Scope: prefix", method="PURGE"), 0)
    go.set()
    for it in (below, beside):
        expect("content", b"old", it.response().content)
    for path in ("/a/b", "/ab"):
        expect("content", b"old", proxy.client().ask(path).content)
    expect_asked(origin, 3)


@scenario
def what_was_asked_for_before_a_purge_is_not_stored(stage):
    """An answer that was on its way when the purge came goes to its client and isn't stored. Over a line with
    `wait = "missing-or-stale"` no later GET waits for it."""
    go = threading.Event()
    answers = {"/a": held_back(go, whole(200, MINUTE, content=b"old"))}
    proxy, origin = purging(stage, answers, {"wait": "missing-or-stale"})
    first = sent(proxy, "/a")
    time.sleep(READ)
    begun = time.monotonic()
    expect_purged(proxy.client().ask("/a", SHOWN, method="PURGE"), 0)
    expect_within("the purge", 0, 1, time.monotonic() - begun)
    origin.answers["/a"] = whole(200, MINUTE, content=b"new")
    expect_answer(proxy.client().ask("/a"), 200, STORED, b"new")
    go.set()
    expect_answer(first.response(), 200, "edge;fwd=uri-miss", b"old")
    expect_answer(proxy.client().ask("/a"), 200, "edge;hit;ttl=60", b"new")
    expect_asked(origin, 2)


@scenario
def what_is_purged_to_be_stale_is_sent_while_one_asks(stage):
    """By Purge-Mode: stale what is held stays and is stale. Over a line with `wait` and `stale-while-revalidate` twenty clients at once cost its
    origin one request, with its tag; nineteen are answered at once. Its 304 makes the page fresh. Two words are denied."""
    go = threading.Event()
    proxy, origin = purging(stage, {"/a": whole(200, MINUTE, TAG, content=b"old")}, {"wait": "missing-or-stale", "stale-while-revalidate": 60})
    client = proxy.client()
    expect_answer(client.ask("/a"), 200, STORED, b"old")
    expect_refusal(client.ask("/a", SHOWN, STALE_MODE, STALE_MODE, method="PURGE"), 403, DENIED)
    expect("a hit", b"old", client.ask("/a", "Cache-Control: only-if-cached").content)
    expect_purged(client.ask("/a", SHOWN, STALE_MODE, method="PURGE"), 1)
    origin.answers["/a"] = held_back(go, whole(304, MINUTE, TAG))
    crowd = asking(proxy, 20, "/a")
    begun = time.monotonic()
    origin.wait_for(2)
    while sum(not it.has_nothing_to_read(0) for it in crowd) < 19 and time.monotonic() - begun < 5:
        time.sleep(0.01)
    expect_within("the stale answers", 0, 1, time.monotonic() - begun)
    waiting = [it for it in crowd if it.has_nothing_to_read(0)]
    expect("clients that wait for the origin", 1, len(waiting))
    for it in crowd:
        if it not in waiting:
            answer = it.response()
            expect("a stale page", (200, b"old", True), (answer.status, answer.content, answer.value("Cache-Status").endswith(";detail=stale-while-revalidate")))
    expect_asked(origin, 2, " so far")
    go.set()
    expect_answer(waiting[0].response(), 200, "edge;fwd=stale;fwd-status=304;ttl=60", b"old")
    expect("the condition at the origin", '"v"', origin.fetches[1].value("If-None-Match"))
    expect_answer(proxy.client().ask("/a"), 200, "edge;hit;ttl=60", b"old")
    expect_purged(client.ask("/a", SHOWN, method="PURGE"), 1)
    expect("without the word it goes", 504, client.ask("/a", "Cache-Control: only-if-cached").status)
    expect_asked(origin, 2)


@scenario
def a_304_asked_for_before_a_purge_makes_nothing_fresh(stage):
    """The 304 that was on its way when a page was purged to be stale is sent, and the page stays stale: the next client asks again. Its 304
    makes it fresh."""
    go = threading.Event()
    proxy, origin = purging(stage, {"/a": whole(200, SECOND, "Age: 1", TAG, content=b"old")})
    client = proxy.client()
    expect("status", 200, client.ask("/a").status)
    origin.answers["/a"] = held_back(go, whole(304, MINUTE, TAG))
    first = sent(proxy, "/a")
    origin.wait_for(2)
    expect_purged(client.ask("/a", SHOWN, STALE_MODE, method="PURGE"), 1)
    go.set()
    answer = first.response()
    expect("the 304 of before", (200, b"old"), (answer.status, answer.content))
    expect_answer(client.ask("/a"), 200, "edge;fwd=stale;fwd-status=304;ttl=60", b"old")
    expect_answer(client.ask("/a"), 200, "edge;hit;ttl=60", b"old")
    expect_asked(origin, 3)


@scenario
def the_key_stands_in_no_log(stage):
    """Neither a purge nor a request with a wrong key leaves a key in the log or in the figures; each has its line."""
    log, file = f"{stage.room.name}/log", f"{stage.room.name}/figures"
    proxy, _ = purging(stage, {"/a": whole(200, MINUTE, content=b"page")}, options=["--log", log, "--stats", file])
    client = proxy.client()
    expect("status", 200, client.ask("/a").status)
    expect_purged(client.ask("/a", SHOWN, method="PURGE"), 1)
    expect_refusal(client.ask("/b", "Purge-Key: another-try-of-a-key", method="PURGE"), 403, DENIED)
    figures_with(file, of("responses_total", code=403), 1)
    stage.finish()
    for path in (log, file):
        with open(path, encoding="utf-8") as it:
            text = it.read()
        expect(f"keys in {path}", (False, False), (KEY in text, "another-try" in text))
        if path == log:
            told = [" ".join(line.split()[2:-2]) for line in text.splitlines()]
            expect("lines of the log", ["PURGE http://h/a 204 0 Purged: 1", "PURGE http://h/b 403 16 denied by line 1"], told[1:])
