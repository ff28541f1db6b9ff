"""Scenarios of `wait-timeout`, the time for which a request waits for the answer to another over a line of version 4. What becomes of it
then is what docs/CROWDS.md says: it goes to the origin by itself, or is sent what is stored by then."""
import itertools
import time

from live.client import request
from live.expect import expect, expect_answer, expect_within
from live.line_words import by_words, expect_asked
from live.origin import silent, whole
from live.programs import run
from live.proxy import table_of
from live.scenario import KEPT, scenario
from live.waiting import COLLAPSED, READ, STORED, asking

# What the end of a time comes too late at most.
LATER = 2.5


def silent_at_first(answer):
    """The first request has no answer, and each other one has this."""
    numbers = itertools.count()
    return lambda fetch: (answer if next(numbers) else silent)(fetch)


def expect_nothing(clients, seconds):
    time.sleep(seconds)
    expect("an answer", [], [i for i, it in enumerate(clients) if not it.has_nothing_to_read(0)])


@scenario
def who_has_waited_long_enough_goes_by_itself(stage):
    """`wait-timeout = 1`: an origin is silent on one connection, and twenty GETs of one page come. Those that wait go to the origin by
    themselves after a second, or get what the first of them brought, and the one that led waits on."""
    page = whole(200, KEPT, content=b"hello")
    client, origin = by_words(stage, {"wait-timeout": 1}, {"/a": silent_at_first(page)}, version=4)
    client.leave()
    began = time.monotonic()
    clients = asking(stage.proxies[-1], 20, "/a")
    for it in clients[1:]:
        answer = it.response()
        collapsed = (answer.value("Cache-Status") or "").endswith(";collapsed")
        expect_answer(answer, 200, COLLAPSED if collapsed else STORED, b"hello")
    expect_within("the last of them", 1, 1 + 2 * READ + LATER, time.monotonic() - began)
    expect("the one that led", True, clients[0].has_nothing_to_read(0))
    expect("more than one request at the origin", True, 2 <= len(origin.fetches) <= 20)


@scenario
def each_waits_for_its_own_time(stage):
    """`wait-timeout = 2`: the second GET goes to the origin two seconds behind its own arrival, and its answer is stored. The third one,
    which came later, waits on, and is sent that at its own time: the origin isn't asked again."""
    page = whole(200, KEPT, content=b"hello")
    client, origin = by_words(stage, {"wait-timeout": 2}, {"/a": silent_at_first(page)}, version=4)
    second, third = (stage.proxies[-1].client() for _ in range(2))
    client.send(request("/a"))
    origin.wait_for(1)
    second.send(request("/a"))
    time.sleep(1.5)
    third.send(request("/a"))
    came = time.monotonic()
    expect_answer(second.response(), 200, STORED, b"hello")
    expect_asked(origin, 2)
    expect_answer(third.response(), 200, COLLAPSED, b"hello")
    expect_within("the third one's answer", 2, 2 + LATER, time.monotonic() - came)
    expect_asked(origin, 2)


@scenario
def without_the_word_a_request_waits_five_seconds_or_on(stage):
    """A line of version 4 that doesn't say: five seconds. In version 3 a request waits until its leader has its answer."""
    page = whole(200, KEPT, content=b"hello")
    for version in (4, 3):
        _, origin = by_words(stage, {}, {"/a": silent_at_first(page)}, version=version)
        came = time.monotonic()
        clients = asking(stage.proxies[-1], 2, "/a")
        expect_nothing(clients, 4 - 2 * READ)
        if version == 4:
            expect_answer(clients[1].response(), 200, STORED, b"hello")
            expect_within("the answer", 5, 5 + 2 * READ + LATER, time.monotonic() - came)
            expect_asked(origin, 2)
        else:
            expect_nothing(clients, 4)
            expect_asked(origin, 1)


@scenario
def a_check_shows_for_how_long_a_line_lets_wait(stage):
    """`check --ask` shows the seconds of a line, and says which may stand where."""
    file = f"{stage.room.name}/table.toml"
    for words, told in (({"wait-timeout": 1}, ["wait-timeout = 1"]), ({}, ["wait-timeout = 5"]), ({"cache": "off"}, [])):
        with open(file, "w", encoding="utf-8") as it:
            it.write(table_of([("/", ["*"], "127.0.0.1:1", words)], version=4))
        _, out, _ = run(stage, "check", file, "--ask", "GET http://h.example/")
        expect(f"of {words}", told, [it.strip() for it in out.splitlines() if "wait-timeout" in it])
    for words in ({"wait-timeout": 0}, {"wait-timeout": 86401}, {"wait-timeout": 5, "cache": "off"}):
        with open(file, "w", encoding="utf-8") as it:
            it.write(table_of([("/", ["*"], "127.0.0.1:1", words)], version=4))
        status, out, err = run(stage, "check", file)
        said = "be a whole number of seconds from 1 to 86400, without quotes, in a line that has an origin and its cache on" in out
        expect(f"of {words}", (2, "config fault 12 line 1 key wait-timeout\n", True), (status, err, said))
