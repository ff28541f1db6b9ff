"""Scenarios of clients that leave before their answer, or are given up: each has its line in the log, and counts by its cause."""
import time

from live.client import request
from live.expect import Unexpected, expect, expect_answer
from live.figures import figures_with, of
from live.logs import address_of, lines_of
from live.origin import Origin, silent, whole
from live.scenario import KEPT, LATEST, scenario
from live.staying import HIT, STORED

# A head that isn't whole.
PART = b"GET /part HTTP/1.1\r\nHost: h\r\nX-Mo"


def expect_left(line, client, asked, cause, origin, least=0.0):
    """The line about a client that left: what it asked for, why there is no answer, the origin that was asked, and how long it had waited."""
    moment, who, *words, took, its = line
    expect("a line of who left", [address_of(client), *asked, "000", "0", f"left;cause={cause}", origin], [who, *words, its])
    if not least <= float(took) < 60 or abs(float(moment) - time.time()) > 60:
        raise Unexpected("a moment of this minute, and a time from", (time.time(), least), (moment, took))


def counted(**causes):
    return {of("unanswered_requests_total", cause=cause.replace("_", "-")): number for cause, number in causes.items()}


def one_line(log, count):
    """The last of so many lines."""
    return lines_of(log, count)[-1]


@scenario
def who_leaves_has_a_line(stage):
    """Who breaks off while its origin is silent, who closes and waits too long, who never sent its request whole, who waited for another's
    answer: each has one line, with `left` and the cause in the place of the reason, and is counted by that; who asks for nothing, and who
    has its answer, has none."""
    origin = stage.origin(Origin({"/a": whole(200, KEPT, content=b"hello"), "/silent": silent, "/led": silent}))
    log, file = f"{stage.room.name}/log", f"{stage.room.name}/figures"
    options = ["--log", log, "--stats", file, "--abandon-timeout", "1", "--request-timeout", "4", "--client-timeout", "8"]
    proxy = stage.proxy(options=options)
    address, asked = origin.address, ["GET", "http://h/silent"]
    well, idle = proxy.client(), proxy.client()
    expect_answer(well.ask("/a"), 200, STORED, b"hello")
    idle.leave()
    broken = proxy.client()
    broken.send(request("/silent"))
    origin.wait_for(2)
    time.sleep(0.3)
    who = address_of(broken)
    broken.leave(reset=True)
    line = one_line(log, 2)
    expect("who broke off", who, line[1])
    expect("its line", ["GET", "http://h/silent", "000", "0", "left;cause=closed", address], [*line[2:7], line[8]])
    closed = proxy.client()
    closed.send(request("/silent"))
    origin.wait_for(3)
    closed.half_close()
    expect_left(one_line(log, 3), closed, asked, "abandon-timeout", address, 1.0)
    part = proxy.client()
    part.send(PART)
    time.sleep(0.3)
    part.half_close()
    expect("the connection closed", True, part.is_closed())
    expect_left(one_line(log, 4), part, ["GET", "/part"], "closed", "-")
    slow = proxy.client()
    slow.send(PART)
    for _ in range(4):
        time.sleep(0.7)
        slow.send(b"x")
    expect_left(one_line(log, 5), slow, ["GET", "/part"], "request-timeout", "-", 4.0)
    leader, waiting = proxy.client(), proxy.client()
    leader.send(request("/led"))
    origin.wait_for(4)
    waiting.send(request("/led"))
    time.sleep(0.3)
    waiting.leave(reset=True)
    line = one_line(log, 6)
    expect("who waited for another", ["GET", "http://h/led", "000", "0", "left;cause=closed", "-"], [*line[2:7], line[8]])
    expect_answer(proxy.client().ask("/a"), 200, HIT, b"hello")
    samples = figures_with(file, of("unanswered_requests_total", cause="closed"), 3)
    wanted = counted(closed=3, abandon_timeout=1, request_timeout=1, client_timeout=0, content_limit=0, memory=0)
    expect("requests that were never answered", wanted, {name: samples[name] for name in wanted})
    leader.leave(reset=True)
    line = one_line(log, 8)
    expect("who led", ["GET", "http://h/led", "000", "0", "left;cause=closed", address], [*line[2:7], line[8]])


@scenario
def who_is_silent_in_a_request_is_counted(stage):
    """A client that is silent in the middle of its request for `--client-timeout`, and one for whom too much is held, are counted by these
    causes, with no log too."""
    stage.origin(Origin({"/a": whole(200, KEPT, content=b"hello")}))
    file = f"{stage.room.name}/figures"
    options = ["--stats", file, "--client-timeout", "2", "--request-timeout", "30", "--content-limit", "1000000"]
    proxy = stage.proxy(options=options)
    quiet, large = proxy.client(), proxy.client()
    quiet.send(PART)
    large.send(b"POST /a HTTP/1.1\r\nHost: h\r\nContent-Length: 999999\r\n\r\n" + b"y" * 990000)
    other = proxy.client()
    other.send(b"POST /a HTTP/1.1\r\nHost: h\r\nContent-Length: 999999\r\n\r\n" + b"y" * 500000)
    samples = figures_with(file, of("unanswered_requests_total", cause="content-limit"), 1, LATEST)
    samples = figures_with(file, of("unanswered_requests_total", cause="client-timeout"), 2, 2 * LATEST)
    wanted = counted(closed=0, abandon_timeout=0, request_timeout=0, client_timeout=2, content_limit=1, memory=0)
    expect("requests that were never answered", wanted, {name: samples[name] for name in wanted})
    expect_answer(proxy.client().ask("/a"), 200, STORED, b"hello")
