"""Scenarios of what is told of the words of a line: why an answer isn't stored, in it and in the log, and what may stand in a table."""
import os
import socket
import subprocess
import sys
import threading

from live.client import PATIENCE, request
from live.expect import Unexpected, expect, expect_answer, expect_member, expect_refusal
from live.line_words import MINUTE, MISS, by_words, expect_asked
from live.logs import lines_of, without_ttl
from live.memory_bounds import told_of_store
from live.origin import held_back, whole
from live.programs import expect_ended, run
from live.proxy import table_of
from live.scenario import KEPT, scenario

TOOLS = os.path.dirname(os.path.dirname(os.path.realpath(__file__)))
# Of each storing rule that an answer meets: the target, its answer, the lines of the request, and the word.
REASONS = [
    ("/none", whole(200, content=b"hello"), [], "no-lifetime"),
    ("/private", whole(200, "Cache-Control: private", content=b"hello"), [], "private"),
    ("/no-store", whole(200, "Cache-Control: no-store", content=b"hello"), [], "no-store"),
    ("/part", whole(206, MINUTE, "Content-Range: bytes 0-4/9", content=b"hello"), [], "status"),
    ("/same", whole(304, MINUTE, 'ETag: "v1"'), ['If-None-Match: "v1"'], "status"),
    ("/asked", whole(200, MINUTE, content=b"hello"), ["Cache-Control: no-store"], "request-no-store"),
    ("/login", whole(200, MINUTE, content=b"hello"), ["Authorization: Basic eDp5"], "authorization"),
    ("/moved", whole(302, "Location: /b", content=b"hello"), [], "nothing-allows"),
    ("/error", whole(500, content=b"hello"), [], "nothing-allows"),
    ("/star", whole(200, MINUTE, "Vary: *", content=b"hello"), [], "vary-star"),
    ("/named", whole(200, MINUTE, "Connection: cache-control", content=b"hello"), [], "connection-field"),
    ("/unknown", whole(299, f"{MINUTE}, must-understand", content=b"hello"), [], "must-understand"),
    ("/large", whole(200, MINUTE, content=b"x" * 1001), [], "too-large"),
    ("/cookie", whole(200, MINUTE, "Set-Cookie: sid=1", content=b"hello"), [], "set-cookie"),
    ("/forbidden", whole(403, MINUTE, content=b"hello"), [], "error-status"),
]
EXPLAINED = {"explain": "storing", "set-cookie": "not-stored", "errors": "not-stored"}


def told(words, status):
    """What a tool of the repository writes, which has to end with this status."""
    ran = subprocess.run([sys.executable, *words], capture_output=True, text=True, timeout=PATIENCE)
    expect(f"from {os.path.basename(words[0])} status and standard error", (status, ""), (ran.returncode, ran.stderr))
    return ran.stdout


@scenario
def an_answer_that_is_not_stored_tells_why(stage):
    """RFC 9211, 2.8, and `explain = "storing"`: the first storing rule against an answer is its detail, in the answer and in the log, and
    tools/why has its words; tools/report counts each under its own. What is stored says none, and a reuse rule's detail stays."""
    log, page = f"{stage.room.name}/log", f"{stage.room.name}/report.html"
    answers = {target: answer for target, answer, _, _ in REASONS} | {"/kept": whole(200, KEPT, content=b"hello")}
    client, origin = by_words(stage, EXPLAINED, answers, max_stored=1000, options=["--log", log])
    asked = [(target, "GET", lines, f"edge;fwd=uri-miss;detail=not-stored-{word}") for target, _, lines, word in REASONS]
    asked += [
        ("/none", "HEAD", [], "edge;fwd=uri-miss;detail=not-stored-method"),
        ("/none", "POST", [], "edge;fwd=method;detail=not-stored-method"),
        ("/kept", "GET", ["Range: bytes=0-1"], "edge;fwd=bypass;detail=range"),
        ("/kept", "GET", ['If-Match: "v1"'], "edge;fwd=bypass;detail=precondition"),
        ("/kept", "HEAD", ["Range: bytes=0-1"], "edge;fwd=bypass;detail=range"),
        ("/kept", "GET", [], "edge;fwd=uri-miss;ttl=600;stored"),
        ("/kept", "GET", [], "edge;hit;ttl=600"),
    ]
    for target, method, lines, member in asked:
        answer = client.ask(target, *lines, method=method, content=b"x" if method == "POST" else None)
        expect_member(member, answer)
    expect_asked(origin, len(asked) - 1)
    reasons = [without_ttl(it[6]) for it in lines_of(log, len(asked))]
    expect("reasons in the log", [without_ttl(it.partition(";")[2]) for *_, it in asked], reasons)
    for text in (told([f"{TOOLS}/report", log, "--top", "100"], 0), told([f"{TOOLS}/report", log, "--html", page], 0)):
        if "none of a log" in text:
            raise Unexpected("from tools/report", "each line read", text)
    counts = [it.split() for it in told([f"{TOOLS}/report", log, "--top", "100"], 0).splitlines()]
    for word in {it for *_, it in REASONS}:
        reason, count = f"fwd=uri-miss;detail=not-stored-{word}", sum(it == word for *_, it in REASONS)
        expect(f"in the report, of {reason}, the answers", [str(count)], [it[1] for it in counts if it[:1] == [reason]])
        expect(f"from tools/why, of {reason}, the storing rules", 1, told([f"{TOOLS}/why", f"edge;{reason}"], 0).count(" of storing, "))


@scenario
def another_detail_stands_in_front_of_why(stage):
    """`explain = "storing"`, and a stored page that its origin no longer lets be stored: the storing rule is told where the answer would
    have no detail, and where it has one, that stays."""
    words = {"explain": "storing", "stale-if-error": 600}
    for lines, directives, status, member in (
        (["Cache-Control: max-age=0"], [], 200, "edge;fwd=stale;detail=not-stored-private"),
        (["Cache-Control: max-age=0, must-revalidate"], [], 200, "edge;fwd=stale;detail=must-revalidate"),
        (["Cache-Control: no-cache"], [], 200, "edge;fwd=stale;detail=response-no-cache"),
        ([KEPT], ["Cache-Control: no-cache"], 200, "edge;fwd=request;detail=no-cache"),
        (["Cache-Control: max-age=0"], [], 304, "edge;fwd=stale;fwd-status=304;ttl=0"),
        (["Cache-Control: max-age=0"], [], 503, "edge;fwd=stale;fwd-status=503;ttl=0;detail=stale-if-error"),
        (["Cache-Control: max-age=0, must-revalidate"], [], 503, "edge;fwd=stale;detail=must-revalidate"),
    ):
        client, origin = by_words(stage, words, {"/a": whole(200, *lines, 'ETag: "v1"', content=b"hello")})
        expect("status", 200, client.ask("/a").status)
        origin.answers["/a"] = whole(status, "Cache-Control: private, max-age=0", 'ETag: "v1"', content=b"" if status == 304 else b"other")
        expect_member(member, client.ask("/a", *directives))
        expect_asked(origin, 2)


@scenario
def no_answer_tells_why_without_the_word(stage):
    """The same answers, without the word and with the one that says so: no detail."""
    for words in (EXPLAINED | {"explain": "reuse"}, {it: value for it, value in EXPLAINED.items() if it != "explain"}):
        client, _ = by_words(stage, words, {target: answer for target, answer, _, _ in REASONS}, max_stored=1000)
        for target, _, lines, _ in REASONS:
            expect_member(MISS, client.ask(target, *lines))


@scenario
def an_answer_that_was_overtaken_tells_it(stage):
    """A GET is at its origin while a POST for its target is answered: its answer isn't stored, and says so."""
    go = threading.Event()
    answers = {"GET": held_back(go, whole(200, KEPT, content=b"old")), "POST": whole(200, content=b"made")}
    client, origin = by_words(stage, {"explain": "storing"}, {"/a": lambda fetch: answers[fetch.method](fetch)})
    other = stage.proxies[-1].client()
    client.send(request("/a"))
    origin.wait_for(1)
    expect_answer(other.ask("/a", method="POST", content=b"x"), 200, "edge;fwd=method;detail=not-stored-method", b"made")
    go.set()
    expect_answer(client.response(), 200, "edge;fwd=uri-miss;detail=not-stored-overtaken", b"old")
    expect_answer(other.ask("/a"), 200, "edge;fwd=uri-miss;ttl=600;stored", b"old")
    expect_asked(origin, 3)


# Of each word a value that may stand, the ends of its range among them; values that may not; and what is said of these.
VALUES = [
    ("lifetime", [1, 60, 2147483648], [0, -1, 2147483649, "60", 1.5, True], "a whole number of seconds from 1 to 2147483648, without quotes"),
    ("stale-if-error", [0, 60, 2147483648], [-1, 2147483649, "60", 1.5], "a whole number of seconds from 0 to 2147483648, without quotes"),
    ("set-cookie", ["stored", "not-stored"], ["Stored", "off", "", 0, False], '"stored" or "not-stored", in version 4 also "removed"'),
    ("errors", ["stored", "not-stored"], ["not stored", "no", 0], '"stored" or "not-stored"'),
    ("request-directives", ["heeded", "ignored"], ["ignore", "off", 1], '"heeded" or "ignored"'),
    ("wait", ["missing", "missing-or-stale"], ["stale", "Missing", "off", "", 1, True], '"missing" or "missing-or-stale"'),
    ("explain", ["reuse", "storing"], ["on", "stored", 1, True], '"reuse" or "storing"'),
]


@scenario
def a_word_that_may_not_stand_is_told(stage):
    """A word in a line that denies or has no cache, or with another value, is fault 12 with the line and the key; in versions 1 and 2 it
    is a key that isn't known. `check` and `serve` say the same, and what may stand there."""
    file, address = f"{stage.room.name}/table.toml", "127.0.0.1:1"

    def expect_told(version, line, ended, said):
        # (the last of three lines, so that its number is one that was counted)
        with open(file, "w", encoding="utf-8") as it:
            it.write(table_of([("/a", ["*"], "deny"), ("/b", ["*"], address), ("/", ["*"], *line)], version=version))
        for words in (["check", file], ["serve", file, "--listen", "127.0.0.1:0", "--turns", "1"]):
            expect_ended(stage, words, ended, said)

    for key, good, bad, said in VALUES:
        fault = 2, f"config fault 12 line 3 key {key}\n"
        sentence = f"in [[line]] number 3 {key} has to be {said}, in a line that has an origin and its cache on\n"
        for value in good:
            with open(file, "w", encoding="utf-8") as it:
                it.write(table_of([("/", ["*"], address, {key: value})], version=3))
            expect_ended(stage, ["check", file], (0, ""), "ok 1 lines\n")
        for value in bad:
            expect_told(3, (address, {key: value}), fault, sentence)
        expect_told(3, ("deny", {key: good[0]}), fault, sentence)
        expect_told(3, (address, {"cache": "off", key: good[0]}), fault, sentence)
        for version in (1, 2):
            expect_told(version, (address, {key: good[0]}), (2, f"config fault 2 key {key}\n"), "need version = 3")


@scenario
def a_word_of_a_line_that_denies_is_told(stage):
    """The first line denies and has a word: fault 12 of line 1, for each of the words, and nothing is listened on."""
    file = f"{stage.room.name}/table.toml"
    with socket.create_server(("127.0.0.1", 0)) as taken:
        address = "127.0.0.1:%d" % taken.getsockname()[1]
    for key, good, _, said in VALUES:
        with open(file, "w", encoding="utf-8") as it:
            it.write(table_of([("/", ["*"], "deny", {key: good[-1]})], version=3))
        for words in (["check", file], ["serve", file, "--listen", address, "--turns", "1"]):
            status, out, err = run(stage, *words)
            expect(f"from `{' '.join(words)}` status and standard error", (2, f"config fault 12 line 1 key {key}\n"), (status, err))
            expect("on standard output", (True, 1), (f"in [[line]] number 1 {key} has to be {said}" in out, out.count("\n")))


@scenario
def the_site_of_deploy_is_a_table(stage):
    """`check` and `serve` take deploy/site.toml as it stands, and it denies what it says."""
    with open(f"{TOOLS}/../deploy/site.toml", encoding="utf-8") as it:
        text = it.read()
    expect("its lines", 7, text.count("\n[[line]]"))
    file = f"{stage.room.name}/site.toml"
    with open(file, "w", encoding="utf-8") as it:
        it.write(text)
    for path in (f"{TOOLS}/../deploy/site.toml", file):
        # (20,000 responses of 1,048,576 bytes, and 500,000,000 bytes of all)
        expect("from check", (0, f"ok 7 lines\n{told_of_store(20000, 1048576, 500000000)}", ""), run(stage, "check", path))
    client = stage.proxy_of(text).client()
    for target in ("/admin", "/.git/config", "/.env"):
        expect_refusal(client.ask(target), 403, "denied by line 1")
    expect_refusal(client.ask("/assets/a", method="POST", content=b"x"), 403, "no line allows it")
