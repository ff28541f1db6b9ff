"""Scenarios of `origin-timeout`, the time that a line of version 4 gives its origin to send a byte. What becomes of an exchange whose time
is over is what docs/LIMITS.md, "Time-outs", and RFC 5861, 4 say."""
import time

from live.client import request
from live.expect import expect, expect_answer, expect_refusal, expect_within
from live.origin import Origin, byte_by_byte, head_of, silent, whole
from live.programs import run
from live.proxy import table_of
from live.scenario import KEPT, LATEST, scenario

MISS, TIMED_OUT = "edge;fwd=uri-miss", "origin timed-out;fwd=uri-miss"
STORED = f"{MISS};ttl=600;stored"
STALE = "Cache-Control: max-age=0, stale-if-error=600"
# The time-out of all other lines, and what an end comes too late at most.
OTHERS, LATER = 5, 2.5
# What `check --ask` shows of each line of version 4 with its cache on that doesn't say it.
WAITS = "wait-timeout = 5"


def expect_timed_out(client, began, seconds):
    """504, once so many seconds are over."""
    expect_refusal(client.response(), 504, TIMED_OUT)
    expect_within(f"504 behind {seconds} s", seconds, seconds + LATER, time.monotonic() - began)


@scenario
def a_line_has_a_time_out_of_its_own(stage):
    """Two lines to two silent origins: the one that is given a second gets its client a 504 then, or its stale page where `stale-if-error`
    lets that be sent, and its links are closed. The other one is waited for as `--origin-timeout` says."""
    quick = stage.origin(Origin({"/quick": silent, "/quick/stale": whole(200, STALE, content=b"old")}))
    other = stage.origin(Origin({"/other": silent}))
    lines = ("/quick", ["*"], quick.address, {"origin-timeout": 1}), ("/", ["*"], other.address)
    proxy = stage.proxy(*lines, version=4, options=["--origin-timeout", str(OTHERS)])
    first, second, late = (proxy.client() for _ in range(3))
    expect_answer(first.ask("/quick/stale"), 200, f"{MISS};ttl=0;stored", b"old")
    quick.answers["/quick/stale"] = silent
    began = time.monotonic()
    for it, target in ((first, "/quick"), (second, "/quick/stale"), (late, "/other")):
        it.send(request(target))
    expect_timed_out(first, began, 1)
    answer = second.response()
    expect_answer(answer, 200, f"edge;fwd=stale;ttl={-int(answer.value('Age'))};detail=stale-if-error", b"old")
    expect_within("the stale page", 1, 1 + LATER, time.monotonic() - began)
    for it in quick.fetches[1:]:
        expect("the link's end at the origin", True, it.is_over.wait(LATEST))
    expect_timed_out(late, began, OTHERS)


@scenario
def a_line_may_give_its_origin_more_time(stage):
    """`origin-timeout` above `--origin-timeout`: what comes in its time is an answer, and each byte begins it anew. Another line to the same
    origin has no more than the option's second."""
    text = head_of(200, [KEPT, "Content-Length: 5"]) + b"hello"
    slowly = lambda fetch: (time.sleep(2.5), fetch.send(text[:-2]), byte_by_byte(text[-2:], 2.5)(fetch))  # noqa: E731
    origin = stage.origin(Origin({"/slow": slowly, "/slow/never": silent, "/a": silent}))
    lines = ("/slow", ["*"], origin.address, {"origin-timeout": 4}), ("/", ["*"], origin.address)
    proxy = stage.proxy(*lines, version=4, options=["--origin-timeout", "1"])
    slow, never, other = (proxy.client() for _ in range(3))
    began = time.monotonic()
    for it, target in ((slow, "/slow"), (never, "/slow/never"), (other, "/a")):
        it.send(request(target))
    expect_timed_out(other, began, 1)
    expect_timed_out(never, began, 4)
    expect_answer(slow.response(), 200, STORED, b"hello")
    expect_within("the slow answer", 5, LATEST, time.monotonic() - began)


@scenario
def each_link_has_the_time_of_its_own_line(stage):
    """Sixty links to one silent origin, by three lines with and without cache, begun in turn: each ends in the time of its own line, and
    `--exchange-timeout` ends those whose line gives longer."""
    times = {"/one": 1, "/four": 4, "/long": 8}
    origin = stage.origin(Origin({path: silent for path in times}))
    lines = [(path, ["*"], origin.address, {"origin-timeout": n if n < 8 else 86400, "cache": cache})
             for (path, n), cache in zip(times.items(), ("on", "off", "off"))]
    proxy = stage.proxy(*lines, version=4, options=["--origin-probe", "off", "--exchange-timeout", "8"])
    began, waiting = time.monotonic(), []
    for i in range(20):
        for path, seconds in times.items():
            waiting.append((seconds, proxy.client()))
            waiting[-1][1].send(request(f"{path}?{i}"))
    origin.wait_for(len(waiting))
    took = time.monotonic() - began
    for seconds, it in sorted(waiting, key=lambda pair: pair[0]):
        answer = it.response()
        expect("a time-out", (504, "origin timed-out"), (answer.status, answer.value("Refusal").partition(";")[0]))
        expect_within(f"504 behind {seconds} s", seconds, seconds + LATER + took, time.monotonic() - began)


@scenario
def a_check_shows_the_time_out_of_a_line(stage):
    """`check --ask` shows what a line gives its origin, with its cache on or off, and says which seconds may stand where."""
    file = f"{stage.room.name}/table.toml"
    for words, told in (
        ({"origin-timeout": 5}, ['cache = "on"', 'conditions = "answered"', 'ranges = "served"', 'loops = "refused"', "origin-timeout = 5", WAITS]),
        ({"origin-timeout": 86400, "cache": "off"}, ['cache = "off"', 'loops = "refused"', "origin-timeout = 86400"]),
        ({}, ['cache = "on"', 'conditions = "answered"', 'ranges = "served"', 'loops = "refused"', WAITS]),
        ({"ranges": "filled"}, ['cache = "on"', 'conditions = "answered"', 'ranges = "filled"', 'loops = "refused"', WAITS]),
    ):
        with open(file, "w", encoding="utf-8") as it:
            it.write(table_of([("/", ["*"], "127.0.0.1:1", words)], version=4))
        _, out, _ = run(stage, "check", file, "--ask", "GET http://h.example/")
        shown = [it.strip() for it in out.splitlines() if it.startswith("    ")]
        expect(f"of {words}", [*told, "key h.example:80/"], shown)
    for origin, seconds in (("127.0.0.1:1", 0), ("127.0.0.1:1", 86401), ("deny", 5)):
        with open(file, "w", encoding="utf-8") as it:
            it.write(table_of([("/", ["*"], origin, {"origin-timeout": seconds})], version=4))
        status, out, err = run(stage, "check", file)
        said = "be a whole number of seconds from 1 to 86400, without quotes, and not to stand in a line that denies or purges" in out
        expect(f"of {seconds}", (2, "config fault 12 line 1 key origin-timeout\n", True), (status, err, said))
