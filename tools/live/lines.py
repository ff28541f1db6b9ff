"""Scenarios of what stands in a line: one of the log, whose words are the proxy's own, and one of a table, all of which counts."""
import os
import resource
import time

from live.client import PATIENCE
from live.expect import expect, expect_answer, expect_refusal
from live.logs import expect_lines, lines_of, words_of
from live.origin import Origin, whole
from live.programs import expect_ended
from live.proxy import Proxy, table_of
from live.scenario import KEPT, scenario
from live.staying import HIT, STORED

# The most bytes of a table (docs/TABLE.md).
MOST_TABLE = 1 << 20
# What an origin says that would be a reason of the proxy's: lines of its head, and a content that looks like one.
OTHERS = ["Cache-Status: edge;hit;ttl=1;detail=other", "Refusal: denied by line 9", 'Cache-Status: "edge;hit", edge;hit']
CONTENT = b"\r\nCache-Status: edge;hit\r\n\r\n\nRefusal: denied by line 9\r\n\r\n"


@scenario
def a_reason_is_the_proxys_own(stage):
    """RFC 9211, 2: a cache adds its member behind those of others. An origin that writes Cache-Status and Refusal itself, in its head
    and in its content, names no reason of a line of the log."""
    origin = stage.origin(Origin({"/a": whole(200, KEPT, *OTHERS, content=CONTENT), "/b": whole(503, *OTHERS, content=CONTENT)}))
    log = f"{stage.room.name}/log"
    client = stage.proxy(("/denied", ["*"], "deny"), ("/", ["GET", "HEAD"], origin.address), options=["--log", log]).client()
    asked = ("GET", "/a"), ("GET", "/a"), ("HEAD", "/a"), ("GET", "/b"), ("GET", "/denied")
    for method, target in asked:
        client.ask(target, method=method)
    size = str(len(CONTENT))
    told = ("200", size, "fwd=uri-miss;ttl=;stored"), ("200", size, "hit;ttl="), ("200", "0", "hit;ttl="), ("503", size, "fwd=uri-miss")
    told += (("403", "16", "denied by line 1"),)
    expected = [[method, f"http://h{target}", *more] for (method, target), more in zip(asked, told)]
    expect_lines(lines_of(log, len(expected)), client, expected, origin.address)


@scenario
def a_line_names_a_request_of_any_size(stage):
    """A request whose content is larger than what may be stored, and all behind it, have their method and target in the log."""
    origin = stage.origin(Origin({"/a": whole(200, KEPT, content=b"hello"), "/post": whole(201, content=b"made")}))
    log = f"{stage.room.name}/log"
    client = stage.proxy(options=["--log", log], max_body=1000000, max_stored=1000).client()
    told = []
    for size in (1000, 1001, 200000, 1000000):
        expect_answer(client.ask("/post", method="POST", content=b"y" * size), 201, "edge;fwd=method", b"made")
        told.append(["POST", "http://h/post", "201", "4", "fwd=method"])
    for member in (STORED, HIT):
        expect_answer(client.ask("/a"), 200, member, b"hello")
        told.append(["GET", "http://h/a", "200", "5", "hit;ttl=" if member == HIT else "fwd=uri-miss;ttl=;stored"])
    expect_lines(lines_of(log, len(told)), client, told, origin.address)


def text_behind(log, size):
    """The text of a log, once a whole line stands behind so many bytes."""
    deadline = time.monotonic() + PATIENCE
    while True:
        with open(log, encoding="ascii") as it:
            text = it.read()
        if len(text) > size and text.endswith("\n") or time.monotonic() > deadline:
            return text
        time.sleep(0.05)


def deaf_to_size(stage):
    """The program, to which a file that may not grow is one that can't be written: no signal ends it."""
    script = f"{stage.room.name}/program"
    with open(script, "w", encoding="utf-8") as it:
        it.write(f"#!/bin/sh\ntrap '' XFSZ\nexec '{stage.program}' \"$@\"\n")
    os.chmod(script, 0o700)
    return script


@scenario
def a_torn_line_is_ended(stage):
    """A write that fails amid a line, as on a full disk, leaves the first part of it: the next line that can be written begins behind
    an LF, so none is two in one."""
    table, log, torn = table_of([("/", ["*"], "deny")]), f"{stage.room.name}/log", 20
    proxy = Proxy(deaf_to_size(stage), stage.room.name, table, options=["--log", log], records=False)
    stage.proxies.append(proxy)
    client = proxy.client()
    client.ask("/a")
    first = text_behind(log, 0)
    resource.prlimit(proxy.process.pid, resource.RLIMIT_FSIZE, (len(first) + torn, resource.RLIM_INFINITY))
    expect_refusal(client.ask("/lost"), 403, "denied by line 1")
    expect("whether a lost line is told", True, proxy.has_said(PATIENCE))
    resource.prlimit(proxy.process.pid, resource.RLIMIT_FSIZE, (resource.RLIM_INFINITY, resource.RLIM_INFINITY))
    client.ask("/b")
    lines = text_behind(log, len(first) + torn).splitlines()
    expect("lines, and the length of a torn one", (3, torn), (len(lines), len(lines[1])))
    told = ["403", "16", "denied by line 1"]
    expect_lines([words_of(lines[0]), words_of(lines[2])], client, (["GET", "http://h/a", *told], ["GET", "http://h/b", *told]))
    stage.lines, stage.said = 1, f"the log {log} can't be written: File too large (os error 27)\n".encode()


@scenario
def a_table_beyond_its_limit_is_none(stage):
    """A table has 1,048,576 bytes at most. One of a byte more is refused, by `check` and by `serve`, though what stands behind the
    limit is a comment, and though what stands in front of it is a table."""
    file, line = f"{stage.room.name}/table.toml", '\n[[line]]\nhost = "*"\nmethods = ["*"]\npath = "/"\norigin = "deny"\n'
    text = table_of([("/a", ["*"], "127.0.0.1:1")])
    padded = lambda size, last: text + "#" * (size - len(text) - len(last) - 1) + "\n" + last
    fault = (2, "config fault 1\n")
    for size, last, ended, said in (
        (MOST_TABLE, "", (0, ""), "ok 1 lines\n"),
        (MOST_TABLE, line, (0, ""), "ok 2 lines\n"),
        (MOST_TABLE + 1, "", fault, ""),
        (MOST_TABLE + len(line), line, fault, ""),
    ):
        with open(file, "w", encoding="utf-8") as it:
            it.write(padded(size, last))
        expect("bytes of a table", size, os.path.getsize(file))
        expect_ended(stage, ["check", file], ended, said)
        if ended != (0, ""):
            expect_ended(stage, ["serve", file, "--listen", "127.0.0.1:0", "--turns", "1"], ended, said)
