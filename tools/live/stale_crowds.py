"""Scenarios of the word `wait`: which GETs for a page whose lifetime is over wait for the first one's answer, and
which don't. The counts at the origin are those of docs/LINE_OPTIONS.md."""
import threading
import time

from live.client import request
from live.expect import expect, expect_answer, expect_refusal, expect_within
from live.line_words import MINUTE, MINUTE_HIT, MISS, PAST_A_SECOND, SECOND, by_words, expect_asked, expect_stale
from live.logs import lines_of
from live.origin import Origin, ends, held_back, silent, whole
from live.scenario import AT_ONCE, KEPT, LATEST, SHORT, scenario, timed
from live.told_words import TOOLS, told
from live.waiting import READ, asking

WAITS, ERROR = {"wait": "missing-or-stale"}, {"stale-if-error": 600}
TAG = 'ETag: "v1"'
# (an earlier cache has had it for all of its second)
STALE = ["Cache-Control: max-age=1", "Age: 1", TAG]
WENT, VALIDATED = "edge;fwd=stale", "edge;fwd=stale;fwd-status=304;ttl=60"
STORED, COLLAPSED = "edge;fwd=stale;ttl=60;stored", "edge;fwd=stale;ttl=60;collapsed"
# What sends a page forward whose lifetime is over, and whose origin fails.
KEPT_BACK = "fwd=stale;stale-if-error=no-directive"


def before_a_stale_page(stage, words, *lines):
    """A proxy that holds a page whose lifetime is over, by a line of these words, and its origin."""
    client, origin = by_words(stage, words, {"/a": whole(200, *(lines or STALE), content=b"old")})
    expect("status", 200, client.ask("/a").status)
    expect_asked(origin, 1)
    return stage.proxies[-1], origin


def numbered(*lines, status=200):
    """An answer whose content is the line X-Client of its request."""
    return lambda fetch: whole(status, *lines, content=fetch.value("X-Client").encode())(fetch)


def sent(proxy, *words):
    """A client that has sent this request."""
    it = proxy.client()
    it.send(request(*words))
    return it


def expect_waiting(clients, seconds=READ):
    time.sleep(seconds)
    expect("an answer before the first one's", False, any(not it.has_nothing_to_read(0) for it in clients))


@scenario
def a_crowd_at_an_expired_page_asks_its_origin_once(stage):
    """RFC 9111, 4, and `wait = "missing-or-stale"`: of a hundred GETs for a page whose second is over one goes to the
    origin, with the page's tag. Its 304 answers all; so does a 200 that is stored, with its own content."""
    for lines, seconds, answer, member, content in (
        ([SECOND, TAG], PAST_A_SECOND, whole(304, MINUTE, TAG), VALIDATED, b"old"),
        (STALE, 0, whole(200, MINUTE, 'ETag: "v2"', content=b"new"), STORED, b"new"),
    ):
        go = threading.Event()
        proxy, origin = before_a_stale_page(stage, WAITS, *lines)
        origin.answers["/a"] = held_back(go, answer)
        time.sleep(seconds)
        clients = asking(proxy, 100, "/a")
        expect_waiting(clients)
        expect_asked(origin, 2, " so far")
        go.set()
        for it, one in zip(clients, [member] + [COLLAPSED] * 99):
            expect_answer(it.response(), 200, one, content)
        expect("the condition at the origin", '"v1"', origin.fetches[1].value("If-None-Match"))
        expect_answer(proxy.client().ask("/a"), 200, MINUTE_HIT, content)
        expect_asked(origin, 2)


@scenario
def a_crowd_at_an_expired_page_asks_it_each_for_itself(stage):
    """Without the word, and with the one that says so: of a hundred GETs for such a page each is validated by
    itself."""
    for words in ({}, {"wait": "missing"}):
        go = threading.Event()
        proxy, origin = before_a_stale_page(stage, words)
        origin.answers["/a"] = held_back(go, whole(304, MINUTE, TAG))
        clients = asking(proxy, 100, "/a")
        origin.wait_for(101)
        go.set()
        for it in clients:
            expect_answer(it.response(), 200, VALIDATED, b"old")
        expect("the conditions at the origin", {'"v1"'}, {it.value("If-None-Match") for it in origin.fetches[1:]})
        expect_asked(origin, 101)


@scenario
def each_line_says_whether_its_gets_wait(stage):
    """One line with the word and one without: at a stale page five ask as one by the first, and as five by the second.
    What is missing is waited for by both."""
    go, pages = threading.Event(), ("/waits/a", "/plain/a")
    origin = stage.origin(Origin({it: whole(200, *STALE, content=b"old") for it in pages}))
    proxy = stage.proxy(("/waits", ["*"], origin.address, WAITS), ("/", ["*"], origin.address), version=3)
    for it in pages:
        expect("status", 200, proxy.client().ask(it).status)
    missing = [f"{it}/new" for it in pages]
    origin.answers = dict.fromkeys(pages, held_back(go, whole(304, MINUTE, TAG)))
    origin.answers |= dict.fromkeys(missing, held_back(go, whole(200, MINUTE, content=b"new")))
    clients = {it: [sent(proxy, it)] for it in (*pages, *missing)}
    origin.wait_for(2 + 4)
    for it, some in clients.items():
        some += [sent(proxy, it) for _ in range(4)]
    expect_waiting([it for some in clients.values() for it in some])
    counts = [sum(it.target == target for it in origin.fetches) for target in clients]
    expect("requests at the origin by each line, and for what is missing", [1 + 1, 1 + 5, 1, 1], counts)
    go.set()
    of_missing = ["edge;fwd=uri-miss;ttl=60;stored"] + ["edge;fwd=uri-miss;ttl=60;collapsed"] * 4
    members = [VALIDATED] + [COLLAPSED] * 4, [VALIDATED] * 5, of_missing, of_missing
    for (target, some), told_so in zip(clients.items(), members):
        for it, member in zip(some, told_so):
            expect_answer(it.response(), 200, member, b"new" if target in missing else b"old")
    expect_asked(origin, 2 + 6 + 2)


@scenario
def a_crowd_goes_on_behind_what_is_not_stored(stage):
    """A hundred wait for an answer that has no-store by now: the first gets it, and the others go to the origin, all at
    once, and have their own."""
    go, rest = threading.Event(), threading.Event()
    proxy, origin = before_a_stale_page(stage, WAITS)
    origin.answers["/a"] = held_back(go, numbered("Cache-Control: no-store"))
    clients = [proxy.client() for _ in range(100)]
    for i, it in enumerate(clients):
        it.send(request("/a", f"X-Client: {i}"))
        time.sleep(READ if i == 0 else 0)
    expect_waiting(clients)
    expect_asked(origin, 2, " so far")
    origin.answers["/a"] = held_back(rest, numbered("Cache-Control: no-store"))
    go.set()
    expect_answer(clients[0].response(), 200, WENT, b"0")
    origin.wait_for(1 + 100)
    expect_waiting(clients[1:], 0)
    rest.set()
    for i, it in enumerate(clients[1:], 1):
        expect_answer(it.response(), 200, WENT, str(i).encode())
    expect_asked(origin, 1 + 100)


@scenario
def a_crowd_goes_on_behind_what_is_stale_at_once(stage):
    """A 304 that gives a lifetime of 0: it answers the first alone. Each other is validated by itself, and waits no second
    time."""
    go = threading.Event()
    proxy, origin = before_a_stale_page(stage, WAITS)
    origin.answers["/a"] = held_back(go, whole(304, "Cache-Control: max-age=0", TAG))
    clients = asking(proxy, 10, "/a")
    expect_asked(origin, 2, " so far")
    go.set()
    for it in clients:
        expect_answer(it.response(), 200, "edge;fwd=stale;fwd-status=304;ttl=0", b"old")
    expect_asked(origin, 1 + 10)


@scenario
def what_is_for_one_alone_leads_nobody(stage):
    """RFC 9111, 3.5 and 5.2.1.5: behind a GET with Authorization or no-store no other waits by a line with the word,
    neither for a stale page nor for a missing one. The next one leads."""
    targets = {"/a": WENT, "/new": MISS}
    for line in ("Authorization: Basic eDp5", "Cache-Control: no-store"):
        go, rest = threading.Event(), threading.Event()

        def answer(fetch, name=line.partition(":")[0], go=go, rest=rest):
            ready, content = (rest, b"new") if fetch.value(name) is None else (go, b"of one")
            held_back(ready, whole(200, MINUTE, content=content))(fetch)

        proxy, origin = before_a_stale_page(stage, WAITS)
        origin.answers = dict.fromkeys(targets, answer)
        alone = {it: sent(proxy, it, line) for it in targets}
        origin.wait_for(1 + 2)
        others = {it: [sent(proxy, it)] for it in targets}
        origin.wait_for(1 + 2 + 2)
        for it, some in others.items():
            some += sent(proxy, it), sent(proxy, it)
        expect_waiting([it for some in others.values() for it in some])
        expect_asked(origin, 1 + 2 + 2, " so far")
        go.set()
        for it, went in targets.items():
            expect_answer(alone[it].response(), 200, went, b"of one")
        expect_waiting([it for some in others.values() for it in some])
        rest.set()
        for it, went in targets.items():
            for one, word in zip(others[it], ("stored", "collapsed", "collapsed")):
                expect_answer(one.response(), 200, f"{went};ttl=60;{word}", b"new")
        expect_asked(origin, 1 + 2 + 2)


@scenario
def those_with_authorization_wait_for_each_other(stage):
    """By a line with the word one of three GETs with Authorization goes to the origin, and `public` lets the others be
    sent its answer (RFC 9111, 3.5)."""
    go, words = threading.Event(), "Authorization: Basic eDp5"
    answers = {"/new": held_back(go, whole(200, f"{MINUTE}, public", content=b"new"))}
    client, origin = by_words(stage, WAITS, answers)
    client.send(request("/new", words))
    origin.wait_for(1)
    others = [sent(stage.proxies[-1], "/new", words) for _ in range(2)]
    expect_waiting([client, *others])
    go.set()
    for it, word in zip((client, *others), ("stored", "collapsed", "collapsed")):
        expect_answer(it.response(), 200, f"{MISS};ttl=60;{word}", b"new")
    expect_asked(origin, 1)


@scenario
def who_leads_over_a_plain_line_leads_all(stage):
    """Without the word a GET with Authorization or no-store is waited for where nothing is held, as ever; its answer
    isn't stored."""
    for line in ("Authorization: Basic eDp5", "Cache-Control: no-store"):
        go = threading.Event()
        answers = {"/new": held_back(go, whole(200, MINUTE, content=b"new"))}
        client, origin = by_words(stage, {"wait": "missing"}, answers)
        client.send(request("/new", line))
        origin.wait_for(1)
        others = [sent(stage.proxies[-1], "/new") for _ in range(2)]
        expect_waiting([client, *others])
        expect_asked(origin, 1, " so far")
        go.set()
        expect_answer(client.response(), 200, MISS, b"new")
        for it in others:
            expect_answer(it.response(), 200, "edge;fwd=uri-miss;ttl=60;stored", b"new")
        expect_asked(origin, 3)


@scenario
def a_failure_is_told_to_the_first_alone(stage):
    """The origin ends the link of the first of ten without an answer: that one gets 502, the others go to the origin,
    each for itself, and have what comes by then."""
    go, rest = threading.Event(), threading.Event()
    proxy, origin = before_a_stale_page(stage, WAITS)
    origin.answers["/a"] = held_back(go, ends)
    first, *others = asking(proxy, 10, "/a")
    expect_asked(origin, 2, " so far")
    origin.answers["/a"] = held_back(rest, whole(200, MINUTE, content=b"new"))
    go.set()
    expect_refusal(first.response(), 502, f"origin closed;{KEPT_BACK}")
    origin.wait_for(1 + 10)
    rest.set()
    for it in others:
        expect_answer(it.response(), 200, STORED, b"new")
    expect_asked(origin, 1 + 10)


@scenario
def a_stale_page_stands_in_for_each_of_a_crowd(stage):
    """`stale-if-error = 600` beside the word: where the origin fails, or answers 503, the first is sent the stale page;
    the others ask for themselves, and then are sent it too."""
    for answer, status in ((ends, None), (whole(503, content=b"down"), 503)):
        go = threading.Event()
        proxy, origin = before_a_stale_page(stage, {**WAITS, **ERROR})
        origin.answers["/a"] = held_back(go, answer)
        clients = asking(proxy, 10, "/a")
        expect_asked(origin, 2, " so far")
        go.set()
        for it in clients:
            expect_stale(it.response(), 1, status, b"old")
        expect_asked(origin, 1 + 10)


@scenario
def a_crowd_outlasts_a_silent_origin(stage):
    """A silent origin keeps a crowd until the first one's time-out, and each other until its own behind that: 504, or
    the stale page by `stale-if-error`."""
    pages = {"/a": WAITS, "/b": {**WAITS, **ERROR}}
    origin = stage.origin(Origin({it: whole(200, *STALE, content=b"old") for it in pages}))
    lines = [(path, ["*"], origin.address, words) for path, words in pages.items()]
    # (three and more time out in a row, which is warned of when the second is over)
    stage.lines = range(2)
    proxy = stage.proxy(*lines, version=3, options=["--origin-timeout", str(SHORT)])
    for it in pages:
        expect("status", 200, proxy.client().ask(it).status)
    origin.answers = dict.fromkeys(pages, silent)
    began, clients = time.monotonic(), {it: asking(proxy, 3, it) for it in pages}
    for place, count in enumerate((1, 2, 2)):
        expect_refusal(clients["/a"][place].response(), 504, f"origin timed-out;{KEPT_BACK}")
        expect_stale(clients["/b"][place].response(), 1, None, b"old")
        expect_within("both answers", count * SHORT, count * LATEST, time.monotonic() - began)
    expect_asked(origin, 2 + 2 * 3)


@scenario
def a_crowd_goes_on_where_the_first_leaves(stage):
    """The client whose request is at the origin is cut off: its link is closed, and those that waited go there. Who
    comes then waits for the first of these; who leaves while it waits costs nobody anything."""
    go = threading.Event()
    proxy, origin = before_a_stale_page(stage, WAITS)
    origin.answers["/a"] = held_back(go, whole(304, MINUTE, TAG))
    clients = asking(proxy, 4, "/a")
    clients[3].leave(reset=True)
    time.sleep(READ)
    expect_asked(origin, 2, " so far")
    clients[0].leave(reset=True)
    origin.wait_for(1 + 3)
    late = asking(proxy, 2, "/a")
    expect_asked(origin, 1 + 3, " so far")
    go.set()
    for it, member in zip((*clients[1:3], *late), (VALIDATED, VALIDATED, COLLAPSED, COLLAPSED)):
        expect_answer(it.response(), 200, member, b"old")
    expect("the link's end at the origin", True, origin.fetches[1].is_over.wait(LATEST))
    expect_asked(origin, 1 + 3)


@scenario
def each_way_to_be_stale_waits_for_the_first(stage):
    """Whatever lets no stale page be sent: must-revalidate, or a request's max-stale, max-age or min-fresh. All wait
    for one, and what it brings is sent with the detail of each one's own rule. tools/report counts these as hits, for
    which the origin wasn't asked."""
    details = {"max-stale=0": "max-stale", "max-stale, max-age=50": "max-age", "max-stale, min-fresh=30": "min-fresh"}
    by_page = dict.fromkeys(["", "max-stale=3600", "min-fresh=30"], "must-revalidate")
    asked = {"/a": {"": "", **details}, "/must": by_page}
    pages, log = {"/a": MINUTE, "/must": f"{MINUTE}, must-revalidate"}, f"{stage.room.name}/log"
    # (an earlier cache has had them for longer than their minute)
    answers = {it: whole(200, line, "Age: 100", TAG, content=b"old") for it, line in pages.items()}
    client, origin = by_words(stage, WAITS, answers, options=["--log", log])
    for it in pages:
        expect("status", 200, client.ask(it).status)
    go = threading.Event()
    origin.answers = {it: held_back(go, whole(304, line, TAG)) for it, line in pages.items()}
    proxy, clients = stage.proxies[-1], {}
    for count, it in enumerate(pages, 3):
        clients[it] = [sent(proxy, it)]
        origin.wait_for(count)
        clients[it] += [sent(proxy, it, f"Cache-Control: {words}") for words in asked[it] if words]
    expect_waiting([it for some in clients.values() for it in some])
    expect_asked(origin, 2 + 2, " so far")
    go.set()
    for it, some in clients.items():
        for one, member, detail in zip(some, [VALIDATED] + [COLLAPSED] * 3, asked[it].values()):
            expect_answer(one.response(), 200, f"{member};detail={detail}" if detail else member, b"old")
    expect_asked(origin, 2 + 2)
    lines_of(log, 9)
    expect("in the report the hits", True, "\nhit ratio: 55.6 % of 9\n" in told([f"{TOOLS}/report", log], 0))


NO_CACHE = "Cache-Control: no-cache"
# Pages, the lines of one GET for each, and of another that goes to the origin beside it, and what the two are told.
BESIDE = [
    ("/no-cache", [f"{KEPT}, no-cache", TAG], [], [], [f"{WENT};detail=response-no-cache"] * 2),
    ("/no-lifetime", [TAG], [], [], [f"{WENT};detail=no-lifetime"] * 2),
    ("/fresh", [KEPT, TAG], [NO_CACHE], [NO_CACHE], ["edge;fwd=request;detail=no-cache"] * 2),
    ("/stale", STALE, [NO_CACHE], [NO_CACHE], [f"{WENT};detail=no-cache"] * 2),
    ("/reload", STALE, [], [NO_CACHE], [WENT, f"{WENT};detail=no-cache"]),
    ("/variants", [*STALE, "Vary: X"], [], ["X: 1"], [WENT, "edge;fwd=vary-miss"]),
    ("/range", STALE, [], ["Range: bytes=0-1"], [WENT, "edge;fwd=bypass;detail=range"]),
]


@scenario
def what_is_asked_by_each_anew_makes_nobody_wait(stage):
    """By a line with the word: no-cache of the page or of the request, a page without lifetime, another variant and a
    range go to the origin beside a GET that is there, as does HEAD; only-if-cached is told 504, and one with max-stale
    is a hit, both at once."""
    go, late = threading.Event(), whole(200, "Cache-Control: no-store", content=b"new")
    client, origin = by_words(stage, WAITS, {it: whole(200, *lines, content=b"old") for it, lines, *_ in BESIDE})
    proxy, clients, count = stage.proxies[-1], [], len(BESIDE)
    for target, *_ in BESIDE:
        expect("status", 200, client.ask(target).status)
    later = held_back(go, late)
    origin.answers = {it: lambda fetch: (late if fetch.method == "HEAD" else later)(fetch) for it, *_ in BESIDE}
    for target, _, first, second, members in BESIDE:
        for words, member in zip((first, second), members):
            clients.append((sent(proxy, target, *words), member))
            count += 1
            origin.wait_for(count)
    answer, seconds = timed(proxy.client(), "/reload", method="HEAD")
    expect_answer(answer, 200, WENT, b"")
    expect_within("the answer to HEAD", 0, AT_ONCE, seconds)
    answer, seconds = timed(proxy.client(), "/reload", "Cache-Control: only-if-cached")
    expect_refusal(answer, 504, "only-if-cached;fwd=stale")
    expect_within("the answer to only-if-cached", 0, AT_ONCE, seconds)
    answer, seconds = timed(proxy.client(), "/reload", "Cache-Control: max-stale")
    expect_answer(answer, 200, f"edge;hit;ttl={1 - int(answer.value('Age'))}", b"old")
    expect_within("the answer to max-stale", 0, AT_ONCE, seconds)
    go.set()
    for it, member in clients:
        expect_answer(it.response(), 200, member, b"new")
    expect_asked(origin, 3 * len(BESIDE) + 1)
