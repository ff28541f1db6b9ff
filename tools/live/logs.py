"""Scenarios of the log: a line for each reply, whatever a client sends, and whether or not it can be written."""
import os
import re
import shutil
import signal
import subprocess
import time

from live.client import PATIENCE, request
from live.expect import Skipped, Unexpected, expect, expect_answer, expect_refusal
from live.origin import Origin, whole
from live.proxy import Proxy, table_of
from live.scenario import KEPT, scenario


def address_of(client):
    return "%s:%d" % client.socket.getsockname()


def lines_of(path, count):
    """The lines of a log, once there are so many; what a ttl says is left out."""
    deadline = time.monotonic() + PATIENCE
    while True:
        with open(path, encoding="ascii") as it:
            text = it.read()
        if text.count("\n") >= count or time.monotonic() > deadline:
            break
        time.sleep(0.05)
    expect("lines of the log", (count, True), (text.count("\n"), not text or text.endswith("\n")))
    return [words_of(one) for one in text.splitlines()]


def words_of(line):
    """The nine words of a line; the reason alone, the last but two, has blanks of its own."""
    *front, rest = line.split(" ", 6)
    return [*front, *rest.rsplit(" ", 2)]


def without_ttl(reason):
    return ";".join("ttl=" if it.startswith("ttl=") else it for it in reason.split(";"))


def has_asked(reason):
    """Whether an origin was asked for a reply, by its reason."""
    words = reason.split(";")
    return words[0].startswith("origin ") or words[0].startswith("fwd=") and "collapsed" not in words


def expect_lines(lines, client, expected, origin=None):
    """Each line but its moment, which is one of this minute, and its time, which is no longer than that. `origin` is the address of
    the one that is asked."""
    for (moment, who, *words, reason, took, asked), one in zip(lines, expected):
        for it in (moment, took):
            if not re.fullmatch("[0-9]+[.][0-9]{3}", it):
                raise Unexpected("seconds with three digits", "as in 0.012", it)
        if abs(float(moment) - time.time()) > 60 or float(took) > 60:
            raise Unexpected("a moment of this minute, and a time", time.time(), (moment, took))
        expect("a line of the log", [address_of(client), *one], [who, *words, without_ttl(reason)])
        expect("the origin that was asked", origin if has_asked(reason) else "-", asked)


@scenario
def a_line_for_each_reply(stage):
    """What was asked, and what was told: from the store and from the origin, denied and refused, one behind the other."""
    stage.origin(Origin({"/a": whole(200, KEPT, content=b"hello"), "/post": whole(201, content=b"made")}))
    log = f"{stage.room.name}/log"
    lines = ("/denied", ["*"], "deny"), ("/", ["GET", "HEAD", "POST"], stage.origins[0].address)
    proxy = stage.proxy(*lines, options=["--log", log])
    client = proxy.client()
    client.ask("/a?x=1")
    client.ask("/a?x=1")
    client.ask("/a?x=1", method="HEAD")
    client.send(request("/post", "Expect: 100-continue", method="POST", content=b"y" * 5000) + request("/denied/b") + request("/a?x=1"))
    for it in (100, 201, 403, 200):
        expect("status", it, client.response().status)
    client.ask("http://Other.Example:8080/a", method="PUT", content=b"z")
    client.ask("/a/../b")
    expect_lines(
        lines_of(log, 8),
        client,
        (
            ["GET", "http://h/a?x=1", "200", "5", "fwd=uri-miss;ttl=;stored"],
            ["GET", "http://h/a?x=1", "200", "5", "hit;ttl="],
            ["HEAD", "http://h/a?x=1", "200", "0", "hit;ttl="],
            ["POST", "http://h/post", "201", "4", "fwd=method"],
            ["GET", "http://h/denied/b", "403", "16", "denied by line 1"],
            ["GET", "http://h/a?x=1", "200", "5", "hit;ttl="],
            ["PUT", "http://other.example:8080/a", "403", "17", "no line allows it"],
            ["GET", "/a/../b", "400", "20", "refused: dot-segment"],
        ),
        stage.origins[0].address,
    )


@scenario
def bytes_that_would_break_a_line(stage):
    """What isn't visible stands as \\xHH, and what couldn't be read is a dash."""
    stage.origin(Origin({}))
    log = f"{stage.room.name}/log"
    proxy = stage.proxy(options=["--log", log])
    client = proxy.client()
    client.send(b"GET /\xc3\xa9 HTTP/1.1\r\nHost: h\r\n\r\n")
    expect_refusal(client.response(), 400, "refused: form")
    expect_lines(lines_of(log, 1), client, (["GET", "/\\xC3\\xA9", "400", "13", "refused: form"],))
    other = proxy.client()
    other.send(b"GET /a HTTP/1.1\r\nHost : h\r\n\r\n")
    expect_refusal(other.response(), 400, "refused: head")
    expect_lines(lines_of(log, 2)[1:], other, (["GET", "/a", "400", "13", "refused: head"],))


HOST = b"Host: h\r\n"
# What a client sends, and of the line that is written about it method and target, the status and the word of its refusal
# (docs/LOG.md, "What a log reader sees"): both words are dashes where the request line itself is at fault.
REFUSED = [
    (b"POST /up?x=1 HTTP/1.1\r\n" + HOST + b"Content-Length: 1000001\r\n\r\n", "POST /up?x=1", 413, "too-large"),
    (b"PUT http://Other:80/up HTTP/1.1\r\n" + HOST + b"Content-Length: x\r\n\r\n", "PUT http://Other:80/up", 400, "length"),
    (b"POST /up HTTP/1.1\r\n" + HOST + b"Content-Length: 3\r\nTransfer-Encoding: chunked\r\n\r\n", "POST /up", 400, "both-lengths"),
    (b"POST /up HTTP/1.1\r\n" + HOST + b"Transfer-Encoding: gzip, chunked\r\n\r\n", "POST /up", 501, "coding"),
    (b"POST /up HTTP/1.1\r\n" + HOST + b"Transfer-Encoding: chunked\r\n\r\n3\r\nabc\r\nxyz\r\n", "POST /up", 400, "chunk"),
    (b"POST /up HTTP/1.1\r\n" + HOST + b"Expect: tea\r\nContent-Length: 1\r\n\r\n", "POST /up", 417, "expect"),
    (b"GET /a HTTP/2.0\r\n" + HOST + b"\r\n", "GET /a", 505, "version"),
    (b"\r\n\n\r\nGET /a HTTP/1.1\nHost : h\n\n", "GET /a", 400, "head"),
    (b"GET /a HTTP/1.1\r\n" + HOST + b"X: " + b"y" * 33000 + b"\r\n\r\n", "GET /a", 400, "head"),
    (b"GET /\xc3\xa9\\ HTTP/1.1\r\nHost : h\r\n\r\n", "GET /\\xC3\\xA9\\x5C", 400, "head"),
    (b"X\r\n\r\n", "- -", 400, "head"),
    (b"GET  /a HTTP/1.1\r\n" + HOST + b"\r\n", "- -", 400, "head"),
    (b"GET /a b HTTP/1.1\r\n" + HOST + b"\r\n", "- -", 400, "head"),
    (b"GET /\x1b[2J HTTP/1.1\r\n" + HOST + b"\r\n", "- -", 400, "head"),
    (b"G(T /a HTTP/1.1\r\n" + HOST + b"\r\n", "- -", 400, "head"),
    (b"GET /" + b"a" * 33000, "- -", 400, "head"),
]


@scenario
def a_refused_message_has_its_method_and_target(stage):
    """What is refused before it is whole has in its line the method and the target that its request line names, as they came; whether
    it comes at once, behind another request, or in pieces."""
    stage.origin(Origin({"/a": whole(200, KEPT, content=b"hello")}))
    log = f"{stage.room.name}/log"
    proxy = stage.proxy(options=["--log", log])
    expect_answer(proxy.client().ask("/a"), 200, "edge;fwd=uri-miss;ttl=600;stored", b"hello")
    count = 1
    hit = ["GET", "http://h/a", "200", "5", "hit;ttl="]
    for text, asked, status, word in REFUSED:
        line = [*asked.split(" "), str(status), str(len("refused: " + word)), "refused: " + word]
        for way in ("at once", "behind another", "in pieces"):
            client = proxy.client()
            if way == "behind another":
                client.send(request("/a") + text)
                expect_answer(client.response(), 200, "edge;hit;ttl=600", b"hello")
            elif way == "in pieces" and len(text) < 1000:
                client.send_slowly(text)
            else:
                client.send(text)
            expect_refusal(client.response(), status, "refused: " + word)
            lines = [hit, line] if way == "behind another" else [line]
            expect_lines(lines_of(log, count + len(lines))[count:], client, lines)
            count += len(lines)


@scenario
def a_log_is_added_to(stage):
    """A start leaves the lines of the one before."""
    stage.origin(Origin({"/a": whole(200, KEPT, content=b"hello")}))
    log = f"{stage.room.name}/log"
    for i in range(2):
        proxy = stage.proxy(options=["--log", log])
        expect_answer(proxy.client().ask("/a"), 200, "edge;fwd=uri-miss;ttl=600;stored", b"hello")
        lines_of(log, i + 1)
        proxy.stop(0)


@scenario
def a_log_on_standard_output(stage):
    """`--log -`: the lines come on standard output, behind their replies."""
    origin = stage.origin(Origin({"/a": whole(200, KEPT, content=b"hello")}))
    proxy = Proxy(stage.program, stage.room.name, table_of([origin.address]), options=["--log", "-"], records=False)
    try:
        client = proxy.client()
        for _ in range(2):
            client.ask("/a")
        time.sleep(0.5)
        proxy.process.send_signal(signal.SIGTERM)
        _, out, err = proxy.wait()
    finally:
        proxy.process.kill()
    expect("on standard error", "", err)
    lines = [words_of(it) for it in out.decode().splitlines()]
    told = ["GET", "http://h/a", "200", "5"]
    expect("lines", 2, len(lines))
    expect_lines(lines, client, ([*told, "fwd=uri-miss;ttl=;stored"], [*told, "hit;ttl="]), origin.address)


@scenario
def a_log_that_cannot_be_written(stage):
    """A full disk: it is told once, with the system's reason on standard output, and each reply goes out."""
    if not os.path.exists("/dev/full"):
        raise Skipped("there is no /dev/full")
    stage.origin(Origin({"/a": whole(200, KEPT, content=b"hello")}))
    client = stage.proxy(options=["--log", "/dev/full"]).client()
    for it in ("edge;fwd=uri-miss;ttl=600;stored", "edge;hit;ttl=600", "edge;hit;ttl=600"):
        expect_answer(client.ask("/a"), 200, it, b"hello")
    time.sleep(0.2)
    stage.lines, stage.said = 1, b"the log /dev/full can't be written: No space left on device (os error 28)\n"


@scenario
def who_may_read_what_is_written(stage):
    """Whatever the umask, a log is read by its user and group alone (a query may have a password in it), a record by its user, and the figures
    by all; nobody else writes any of them."""
    stage.origin(Origin({"/a": whole(200, KEPT, content=b"hello")}))
    log, figures = f"{stage.room.name}/log", f"{stage.room.name}/figures"
    before = os.umask(0)
    try:
        proxy = stage.proxy(options=["--log", log, "--stats", figures])
    finally:
        os.umask(before)
    expect_answer(proxy.client().ask("/a"), 200, "edge;fwd=uri-miss;ttl=600;stored", b"hello")
    lines_of(log, 1)
    modes = [oct(os.stat(it).st_mode & 0o777) for it in (log, figures, proxy.record)]
    expect("rights of log, figures and record", ["0o640", "0o644", "0o600"], modes)


@scenario
def a_log_whose_folder_is_removed(stage):
    """The file of a log and its folder are removed: once that is seen, which takes a second, its lines are lost, which is told and counted. Where
    the folder is there again so is the log."""
    folder, figures = f"{stage.room.name}/logs", f"{stage.room.name}/figures"
    os.mkdir(folder)
    stage.origin(Origin({"/a": whole(200, KEPT, content=b"hello")}))
    client = stage.proxy(options=["--log", f"{folder}/log", "--stats", figures]).client()
    expect_answer(client.ask("/a"), 200, "edge;fwd=uri-miss;ttl=600;stored", b"hello")
    shutil.rmtree(folder)
    time.sleep(2.2)
    for _ in range(3):
        expect_answer(client.ask("/a"), 200, "edge;hit;ttl=600", b"hello")
    deadline = time.monotonic() + PATIENCE
    while " 3\n" not in (told := lost_lines(figures)):
        if time.monotonic() > deadline:
            raise Unexpected("lines that were lost", 3, told)
        time.sleep(0.1)
    os.mkdir(folder)
    time.sleep(2.2)
    client.ask("/a")
    expect("a line of the new log", "hit;ttl=", without_ttl(lines_of(f"{folder}/log", 1)[0][6]))
    stage.lines, stage.said = 1, f"the log {folder}/log can't be written: No such file or directory (os error 2)\n".encode()


def lost_lines(path):
    with open(path, encoding="ascii") as it:
        return next(line for line in it if line.startswith("revcache_log_lost_lines_total{"))


@scenario
def a_log_on_a_full_standard_output(stage):
    """`--log -`: where standard output takes no line, nothing else is said there, and each reply goes out."""
    if not os.path.exists("/dev/full"):
        raise Skipped("there is no /dev/full")
    origin = stage.origin(Origin({"/a": whole(200, KEPT, content=b"hello")}))
    with open("/dev/full", "wb") as full:
        proxy = Proxy(stage.program, stage.room.name, table_of([origin.address]), options=["--log", "-"], records=False, output=full)
    try:
        client = proxy.client()
        for it in ("edge;fwd=uri-miss;ttl=600;stored", "edge;hit;ttl=600"):
            expect_answer(client.ask("/a"), 200, it, b"hello")
        time.sleep(0.2)
        proxy.process.send_signal(signal.SIGTERM)
        expect("on standard error", "log fault\n", proxy.wait()[2])
    finally:
        proxy.process.kill()


@scenario
def lines_of_another_program_are_told(stage):
    """A log to which somebody else adds lines is told of, once. One that is emptied, or moved away, isn't."""
    origin = stage.origin(Origin({"/a": whole(200, KEPT, content=b"hello")}))
    log = f"{stage.room.name}/log"
    proxy = Proxy(stage.program, stage.room.name, table_of([origin.address]), options=["--log", log], records=False)
    try:
        client = proxy.client()

        def ask_and_wait(change):
            client.ask("/a")
            change()
            time.sleep(2.2)

        ask_and_wait(lambda: os.truncate(log, 0))
        ask_and_wait(lambda: os.rename(log, f"{log}.1"))
        ask_and_wait(lambda: add_line(f"{log}.1"))
        ask_and_wait(lambda: add_line(log))
        ask_and_wait(lambda: add_line(log))
        proxy.process.send_signal(signal.SIGTERM)
        said = f"warning: another program adds lines to {log}, too: give each a log of its own\n"
        expect("on standard error", said, proxy.wait()[2])
    finally:
        proxy.process.kill()


def add_line(path):
    with open(path, "ab") as it:
        it.write(b"a line of another program\n")


REFUSER = os.path.join(os.path.dirname(os.path.dirname(os.path.realpath(__file__))), "refuse_memory", "refuse_memory.c")


def told_of_a_denial(stage, library, n):
    """A server whose Nth request for memory is refused is asked for what is denied: how many requests there were before the answer and
    behind it, and what it has said on standard output and standard error; or nothing, where the answer itself took the request that was
    refused, so that its connection was closed. (The lines behind the first go where that stood, and take no memory.)"""
    file = f"{stage.room.name}/count"
    with open(file, "wb") as it:
        it.write(bytes(8))
    more = {**os.environ, "LD_PRELOAD": library, "REFUSE_COUNT": file, "REFUSE_ONLY": str(n)}
    table, log = table_of([("/", ["*"], "deny")]), f"{stage.room.name}/log"
    proxy = Proxy(stage.program, stage.room.name, table, options=["--log", log], records=False, environment=more)
    try:
        client, before = proxy.client(), number_in(file)
        try:
            answer = client.ask("/a")
        except Unexpected:
            return None
        expect_refusal(answer, 403, "denied by line 1")
        time.sleep(0.1)
        proxy.process.terminate()
        return before, number_in(file), *proxy.wait()[1:]
    finally:
        proxy.process.kill()


def number_in(file):
    with open(file, "rb") as it:
        return int.from_bytes(it.read(), "little")


@scenario
def a_line_without_memory_is_lost(stage):
    """The last requests for memory of an answer, for the line about it, are refused one by one: the answer goes out, and why its line is lost
    is told."""
    if not shutil.which("cc"):
        raise Skipped("there is no cc")
    library = f"{stage.room.name}/refuse_memory.so"
    subprocess.run(["cc", "-O1", "-shared", "-fPIC", "-o", library, REFUSER], check=True)
    first, last, *said = told_of_a_denial(stage, library, 0)
    expect("where nothing is refused, on both outputs", [b"", ""], said)
    lost = 0
    for n in range(last, first, -1):
        told = told_of_a_denial(stage, library, n)
        # (how many turns it takes is chance, so a run may have fewer requests for memory, and the Nth of it may be an answer's)
        if told is None or told[1] < n:
            continue
        _, _, *said = told
        if "log fault" not in said[1]:
            # (behind the line some are for what is looked at once a second)
            continue
        expect("on both outputs", [b"no memory is left for lines of the log; give the process more\n", "log fault\n"], said)
        lost += 1
    expect("whether a line was lost", True, lost > 0)


@scenario
def lines_that_were_lost_are_counted(stage):
    """At its end by its turns the program says how many lines it couldn't write."""
    if not os.path.exists("/dev/full"):
        raise Skipped("there is no /dev/full")
    origin = stage.origin(Origin({}))
    table = table_of([("/", ["*"], "deny"), ("/never", ["GET"], origin.address)])
    proxy = Proxy(stage.program, stage.room.name, table, turns=12, options=["--log", "/dev/full"], records=False)
    client = proxy.client()
    for _ in range(3):
        expect_refusal(client.ask("/a"), 403, "denied by line 1")
    said = b"the log /dev/full can't be written: No space left on device (os error 28)\n"
    expect("status, output and standard error", (0, said, "log fault\nlog fault 3\n"), proxy.wait())


@scenario
def a_log_that_cannot_be_opened(stage):
    """A start fails where there is no place for its log."""
    file = f"{stage.room.name}/table.toml"
    with open(file, "w", encoding="utf-8") as it:
        it.write(table_of(["127.0.0.1:1"]))
    words = [stage.program, "serve", file, "--listen", "127.0.0.1:0", "--turns", "1", "--log", f"{stage.room.name}/none/log"]
    ran = subprocess.run(words, stdin=subprocess.DEVNULL, capture_output=True, timeout=PATIENCE)
    expect("status and standard error", (1, b"write fault\n"), (ran.returncode, ran.stderr))
    said = f"the log {stage.room.name}/none/log can't be opened: No such file or directory"
    expect("on standard output", True, said in ran.stdout.decode())
