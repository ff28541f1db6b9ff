"""Scenarios of other programs as clients and origin, of the command line, and of the record itself."""
import http.client
import os
import pty
import resource
import signal
import socket
import subprocess
import sys
import urllib.request

from live.cases import paths
from live.client import PATIENCE
from live.expect import Skipped, Unexpected, expect, expect_answer
from live.origin import Origin, whole
from live.proxy import Proxy, table_of
from live.scenario import KEPT, scenario

TOOLS = os.path.dirname(os.path.dirname(os.path.realpath(__file__)))
NO_ADDRESSES = ["localhost:0", "127.0.0.1", ":0", "[::1]:0", "127.0.0.1:65536", "127.0.0.1:08", "127.0.0.01:8", "127.0.0.1:+1"]
NO_ADDRESSES += ["fd:", "fd:2", "fd:03", "fd:+3", "fd:three", "fd:2147483648", "3"]
# Options of `serve` whose number is outside of their range, or whose word is none of theirs.
NO_NUMBERS = [("--turns", "0"), ("--turns", "4294967296"), ("--connections", "0"), ("--connections", "1048577")]
NO_NUMBERS += [("--origin-connections", "0"), ("--origin-connections", "65537"), ("--origin-probe", "maybe")]
NO_NUMBERS += [(f"--{it}-limit", number) for it in ("content", "unsent") for number in ("0", "1099511627777")]
NO_NUMBERS += [(f"--{it}-timeout", "0") for it in ("client", "request", "abandon", "connect", "origin", "exchange", "drain")]
WRONG_CAPACITY = "capacity has to be a whole number from 1 to 65536, without quotes"
# A table at fault, made of a good one by putting something in a text's place: the line on standard error, and a part of what
# is said of it, which has what may stand there.
FAULTS = [
    ('name = "edge"', "name = edge", "config fault 1", "the table is no TOML"),
    ('name = "edge"', 'name = "edge"\ncolour = 1', "config fault 2 key colour", "correct its spelling or delete it"),
    ('path = "/"', 'path = "/"\ncache = "off"', "config fault 2 key cache", "cache needs version = 2"),
    ('name = "edge"', 'name = "Edge"', "config fault 3", "a lower-case letter and at most 31 of a-z, 0-9 and -"),
    ("version = 1", "version = 5", "config fault 4 key version", "version has to be 1, 2, 3 or 4, without quotes"),
    ("capacity = 64", 'capacity = "64"', "config fault 4 key capacity", WRONG_CAPACITY),
    ("max_body = 1000000", "max_body = -1", "config fault 4 key max_body", "max_body has to be a whole number from 0 to 16777216"),
    ("max_stored = 100000", "max_stored = 1.5", "config fault 4 key max_stored", "max_stored has to be a whole number from 0 to 16777216"),
    ('host = "*"', 'host = "h.example:80"', "config fault 5 line 1", "in [[line]] number 1 host has to be \"*\" or one host in lower case, without a port"),
    ('methods = ["*"]', 'methods = ["CONNECT"]', "config fault 6 line 1", "in [[line]] number 1 methods has to be a list of 1 to 32"),
    ('path = "/"', 'path = "/a/"', "config fault 7 line 1", "in [[line]] number 1 path has to begin with / and not to end with it"),
    ('origin = "127.0.0.1:1"', 'origin = "localhost:1"', "config fault 8 line 1", 'in [[line]] number 1 origin has to be "deny" or an IPv4 address and a port'),
    ("[[line]]", "[line]", "config fault 9", "a table has 1 to 256 lines, or 1 to 4096 in version 4, each of which begins with [[line]]"),
    ('version = 1', 'version = 2', "config fault 11 line 1", 'in [[line]] number 1 cache has to be "on" or "off"'),
    ('methods = ["*"]', 'methods = ["get"]', "config fault 13 line 1", "in [[line]] number 1 a method has a letter in lower case"),
    ('path = "/"', 'path = "/*.php"', "config fault 14 line 1", "in [[line]] number 1 path has a *, which is that character and no pattern"),
]
# Where such a fault is, where a third line says it: a part of that line.
PLACES = {
    "config fault 1": "line 2, column 8",
    "config fault 2 key colour": "the key colour stands at the top of the table",
    "config fault 2 key cache": "the key cache stands in [[line]] number 1",
}
# Lines of which some are never reached, and what is told of a table with them.
CROSSED = [
    ("/a", ["GET"], "127.0.0.1:1", {"errors": "not-stored"}),
    ("/", ["*"], "127.0.0.1:2", {"lifetime": 60, "set-cookie": "not-stored", "wait": "missing-or-stale", "explain": "storing"}),
    ("/a/b", ["GET"], "deny"),
    ("/c", ["POST"], "127.0.0.1:3"),
    ("/", ["TRACEROUTE"], "deny"),
]
IDLE = "".join(f"line {n} is never reached: line {first} takes all of it\n" for n, first in ((3, 1), (4, 2), (5, 2)))
IDLE += "max_stored is above max_body: what is larger than max_body isn't stored either\n"
SECOND_WORDS = ['cache = "on"', "lifetime = 60", "error-lifetime = 60", 'set-cookie = "not-stored"', 'wait = "missing-or-stale"', 'explain = "storing"']
SECOND_LINE = "is allowed by line 2, origin 127.0.0.1:2"
SECURE = "https comes by a front alone, which takes it away; a request that names it itself is refused: scheme"
# What requests meet there.
MET = [
    ("GET http://h.example/a/b", "is allowed by line 1, origin 127.0.0.1:1", ['cache = "on"', 'errors = "not-stored"', "key h.example:80/a/b"]),
    ("GET https://h.example", SECOND_LINE, [*SECOND_WORDS, "key h.example:80/", SECURE]),
    ("DELETE http://H.example:81/%61?x=/", SECOND_LINE, [*SECOND_WORDS, "key h.example:81/%61?x=/"]),
    ("OPTIONS http://h.example/a", "is denied: no line allows it", ["key h.example:80/a"]),
    ("GET http://h.example/a/../b", "is refused before the table is asked: no segment of a path may be . or .., escaped or not", []),
]
# The most bytes of a script, and of one happening in it.
MOST_SCRIPT, MOST_HAPPENING = 16777216, 4200


def fields_of(answer):
    """The status line and the fields of what curl wrote, from its last head on."""
    head = answer.rpartition(b"HTTP/1.1 ")[2].partition(b"\r\n\r\n")[0].decode()
    status, *lines = head.split("\r\n")
    return int(status), dict(it.split(": ", 1) for it in lines)


@scenario
def curl_gets_heads_posts_and_asks_with_conditions(stage):
    """curl over HTTP/1.1 and 1.0: a miss, a hit, HEAD, conditions, contents with and without a length."""
    origin = stage.origin(Origin({"/a": whole(200, KEPT, 'ETag: "v1"', content=b"hello"), "/post": whole(201, content=b"made")}))
    proxy = stage.proxy()
    big, url = f"{stage.room.name}/big", proxy.url
    with open(big, "wb") as it:
        it.write(b"x" * 200000)
    for words, status, member in (
        ([url("/a")], 200, "edge;fwd=uri-miss;ttl=;stored"),
        ([url("/a")], 200, "edge;hit;ttl="),
        (["--head", url("/a")], 200, "edge;hit;ttl="),
        (["--http1.0", url("/a")], 200, "edge;hit;ttl="),
        (["--http2", url("/a")], 200, "edge;hit;ttl="),
        (["--header", 'If-None-Match: "v1"', url("/a")], 304, "edge;hit;ttl="),
        (["--range", "0-1", url("/a")], 200, "edge;fwd=bypass;detail=range"),
        (["--data", "x=1", url("/post")], 201, "edge;fwd=method"),
        (["--data-binary", f"@{big}", url("/post")], 201, "edge;fwd=method"),
        (["--data-binary", f"@{big}", "--header", "Expect: 100-continue", url("/post")], 201, "edge;fwd=method"),
        (["--data-binary", f"@{big}", "--header", "Transfer-Encoding: chunked", url("/post")], 201, "edge;fwd=method"),
        (["--path-as-is", url("/a/../b")], 400, None),
    ):
        got, fields = fields_of(proxy.curl(*words))
        expect(f"from curl {' '.join(words)} the status", status, got)
        words_of = (fields.get("Cache-Status") or "").split(";")
        expect("Cache-Status", member, ";".join("ttl=" if it.startswith("ttl=") else it for it in words_of) or None)
    expect("lengths of contents at the origin", ["3"] + ["200000"] * 3, [it.value("Content-Length") for it in origin.fetches[2:]])


@scenario
def the_standard_library_as_client(stage):
    """Python's http.client over one connection, and urllib."""
    stage.origin(Origin({"/a": whole(200, KEPT, content=b"hello"), "/post": whole(201, content=b"made")}))
    proxy = stage.proxy()
    connection = http.client.HTTPConnection("127.0.0.1", proxy.port, timeout=10)
    for method, target, content, status, text in (
        ("GET", "/a", None, 200, b"hello"),
        ("HEAD", "/a", None, 200, b""),
        ("POST", "/post", b"x" * 50000, 201, b"made"),
        ("GET", "/a", None, 200, b"hello"),
        ("GET", "/none", None, 404, b"none"),
    ):
        connection.request(method, target, content)
        answer = connection.getresponse()
        expect(f"status and content of {method} {target}", (status, text), (answer.status, answer.read()))
    connection.close()
    with urllib.request.build_opener(urllib.request.ProxyHandler({})).open(proxy.url("/a"), timeout=10) as answer:
        expect("what urllib read", b"hello", answer.read())
    proxy.unseen_client()
    proxy.unseen_client()


@scenario
def the_standard_library_as_origin(stage):
    """Files of Python's http.server, which speaks HTTP/1.0, by tools/origin: a miss and a hit, as README shows."""
    with open(f"{stage.room.name}/file.txt", "wb") as it:
        it.write(b"hello")
    words = [sys.executable, f"{TOOLS}/origin", "0"]
    with subprocess.Popen(words, cwd=stage.room.name, stdin=subprocess.DEVNULL, stderr=subprocess.PIPE) as origin:
        try:
            address = origin.stderr.readline().decode().strip().removeprefix("listening on ")
            client = stage.proxy(address).client()
            expect_answer(client.ask("/file.txt"), 200, "edge;fwd=uri-miss;ttl=60;stored", b"hello")
            expect_answer(client.ask("/file.txt"), 200, "edge;hit;ttl=60", b"hello")
        finally:
            origin.kill()


def run(stage, *words, handed_on=()):
    """The status, the output and the line on standard error of a program that ends by itself."""
    ran = subprocess.run([stage.program, *words], stdin=subprocess.DEVNULL, capture_output=True, timeout=20, pass_fds=handed_on)
    return ran.returncode, ran.stdout.decode(), ran.stderr.decode()


def expect_ended(stage, words, ended, said=""):
    """Status and standard error of a program that ends by itself, and on standard output a text that has these words."""
    status, out, err = run(stage, *words)
    expect(f"from `{' '.join(words)}` status and standard error", ended, (status, err))
    if said not in out:
        raise Unexpected(f"from `{' '.join(words)}`, on standard output", f"`{said}`", out)


@scenario
def the_command_line_checks_a_table(stage):
    """`check` names what is wrong with a table; what is no command line is a usage fault. What a fault was about stands on standard output."""
    file, wrong = f"{stage.room.name}/table.toml", f"{stage.room.name}/wrong.toml"
    for name, text in ((file, table_of(["127.0.0.1:1"])), (wrong, table_of(["127.0.0.1:1"], capacity=0))):
        with open(name, "w", encoding="utf-8") as it:
            it.write(text)
    with socket.create_server(("127.0.0.1", 0)) as taken:
        address = "127.0.0.1:%d" % taken.getsockname()[1]
        serve = ["serve", file, "--listen"]
        usage, table = (64, "usage fault\n"), (2, "config fault 4 key capacity\n")
        for words, ended, said in (
            (["check", file], (0, ""), "ok 1 lines\n"),
            (["check", f"{TOOLS}/../deploy/table.toml"], (0, ""), "ok 3 lines\n"),
            (["check", f"{TOOLS}/../deploy/site.toml"], (0, ""), "ok 7 lines\n"),
            (["check", wrong], table, f"{WRONG_CAPACITY}\n"),
            (["check", f"{file}.none"], (1, "read fault\n"), f"the table {file}.none can't be read: No such file or directory"),
            (["check", stage.room.name], (1, "read fault\n"), f"the table {stage.room.name} can't be read: Is a directory"),
            (["check"], usage, "<FILE>"),
            (["sing"], usage, "'sing'"),
            (["serv", file], usage, "'serve'"),
            ([*serve, address, "--turn", "1"], usage, "'--turns'"),
            ([*serve[:2]], usage, "--listen <ADDRESS>"),
            *(([*serve, it, "--turns", "1"], usage, f"invalid value '{it}' for '--listen <ADDRESS>'") for it in NO_ADDRESSES),
            (["check", file, file], usage, file),
            *(([*serve, "127.0.0.1:0", *it], usage, f"'{it[1]}' for '{it[0]} ") for it in NO_NUMBERS),
            ([*serve, address, "--turns", "1"], (1, "socket fault\n"), f"{address} can't be listened on: Address already in use"),
            (["serve", wrong, "--listen", address, "--turns", "1"], table, f"{WRONG_CAPACITY}\n"),
            (["serve", wrong, "--listen", address, "--log", "-"], table, ""),
        ):
            expect_ended(stage, words, ended, said)
        said = run(stage, "serve", wrong, "--listen", address, "--log", "-")[1]
        expect("where the log is on standard output, there", "", said)
    for words in (["--help"], ["--version"], ["serve", "--help"]):
        expect(f"status of {words}", 0, run(stage, *words)[0])


@scenario
def help_has_groups_defaults_and_statuses(stage):
    """`--help` and `serve --help` have each option with its default under its heading, an example and the exit statuses; `--version` the release."""
    said = run(stage, "serve", "--help")[1]
    for it in ("Times of clients:", "Times of origins:", "Bounds:", "Files:", "--stats <FILE>", "[default: 16384]", "[default: 1024]", "[default: 1073741824]", "Example:", "Exit statuses:", "  64  "):
        if it not in said:
            raise Unexpected("from serve --help", f"`{it}`", said)
    said = run(stage, "--help")[1]
    for it in ("serve", "check", "Exit statuses:"):
        if it not in said:
            raise Unexpected("from --help", f"`{it}`", said)
    expect("from --version", "revcache 0.2.0\n", run(stage, "--version")[1])


@scenario
def a_stamped_program_names_its_commit(stage):
    """tools/stamp: the copy says which commit it is of, to who asks for its version and in its figures; the program itself doesn't. What is
    stamped already, has the bytes for the commit twice, or would get what is no commit's name is refused, and nothing is written."""
    commit, copy = "0123456789abcdef0123456789abcdef01234567", f"{stage.room.name}/stamped"
    expect("from tools/stamp", 0, stamped(stage.program, copy, commit))
    ran = subprocess.run([copy, "--version"], stdin=subprocess.DEVNULL, capture_output=True, timeout=PATIENCE)
    expect("status, output and standard error", (0, f"revcache 0.2.0 ({commit})\n".encode(), b""), (ran.returncode, ran.stdout, ran.stderr))
    stage.origin(Origin({}))
    for program, named in ((stage.program, ""), (copy, commit)):
        file = f"{stage.room.name}/figures-{named}"
        proxy = Proxy(program, stage.room.name, table_of([stage.origins[0].address]), options=["--stats", file], records=False)
        proxy.stop(0)
        with open(file, encoding="ascii") as it:
            expect("the build in the figures", 1, it.read().count(f',version="0.2.0",commit="{named}"}} 1\n'))
    twice, into = f"{stage.room.name}/twice", f"{stage.room.name}/into"
    with open(stage.program, "rb") as it:
        built = it.read()
    with open(twice, "wb") as it:
        it.write(built + built)
    for program, name in ((copy, commit), (twice, commit), (stage.program, commit[1:]), (stage.program, "g" + commit[1:])):
        expect("from tools/stamp", 1, stamped(program, into, name))
        expect("whether a copy is there", False, os.path.exists(into))


def stamped(program, into, commit):
    words = [f"{TOOLS}/stamp", program, "--into", into, "--commit", commit]
    return subprocess.run(words, capture_output=True, timeout=PATIENCE).returncode


@scenario
def who_sits_at_a_terminal_is_told_what_is_awaited(stage):
    """Without a word and on a terminal: a line on standard error says that a script is read; its effects are as they are."""
    ours, its = pty.openpty()
    try:
        pipes = {"stdout": subprocess.PIPE, "stderr": subprocess.PIPE}
        with subprocess.Popen([stage.program], stdin=its, **pipes) as program:
            told = program.stderr.readline().decode()
            # (the end of a terminal's input)
            os.write(ours, b"\x04")
            out, err = program.communicate(timeout=20)
    finally:
        os.close(its)
        os.close(ours)
    expect("the line", "a script is read from here, to its end (Ctrl-D); revcache --help shows what else there is\n", told)
    expect("status, effects and the fault", (1, b"", b"script fault line 1\n"), (program.returncode, out, err))


@scenario
def a_check_says_what_may_stand_there(stage):
    """`check` of a table at fault: beside the line that names the fault, one on standard output says what may stand there, and where it is."""
    good, file = table_of(["127.0.0.1:1"]), f"{stage.room.name}/table.toml"
    for old, new, named, words in FAULTS:
        text = good.replace(old, new, 1)
        if named == "config fault 11 line 1":
            text += 'cache = "maybe"\n'
        if named in ("config fault 13 line 1", "config fault 14 line 1"):
            text = text.replace("version = 1", "version = 4", 1)
        with open(file, "w", encoding="utf-8") as it:
            it.write(text)
        status, out, err = run(stage, "check", file)
        expect(f"of `{new}` status and standard error", (2, f"{named}\n"), (status, err))
        # (what a parser says of a text that is no TOML may have more lines)
        said, _, place = out.partition("\n")
        if words not in said or PLACES.get(named, "") not in place or bool(place) != (named in PLACES):
            raise Unexpected(f"of `{new}`, on standard output", f"a line with `{words}`, then {PLACES.get(named, 'none')}", out)


@scenario
def a_check_says_what_has_no_effect_and_what_a_request_meets(stage):
    """`check` of a good table names lines that are never reached and a limit above another; with `--ask` also what a request meets."""
    file = f"{stage.room.name}/table.toml"
    with open(file, "w", encoding="utf-8") as it:
        it.write(table_of(CROSSED, max_body=10, max_stored=11, version=3))
    # (64 responses of 11 bytes, with 80,000 beside each)
    store = "the store takes 6 MB at most\n"
    expect("of a table", (0, f"ok 5 lines\n{store}{IDLE}", ""), run(stage, "check", file))
    for asked, met, words in MET:
        told = f"{asked} {met}\n" + "".join(f"    {it}\n" for it in words)
        expect(f"of `{asked}`", (0, f"ok 5 lines\n{store}{IDLE}{told}", ""), run(stage, "check", file, "--ask", asked))
    for words in ("", "GET", "http://h.example/", "GET h.example/", "GET ftp://h.example/", "G@T http://h.example/"):
        status, out, err = run(stage, "check", file, "--ask", words)
        expect(f"of `{words}` status and standard error", (64, "usage fault\n"), (status, err))


@scenario
def a_table_that_asks_the_server_itself_is_told(stage):
    """`serve` warns of each line whose origin is the address that it listens on, or this machine's where it listens on all; of no other."""
    file = f"{stage.room.name}/table.toml"
    with socket.create_server(("127.0.0.1", 0)) as free:
        port = free.getsockname()[1]
    own, other, deny = f"127.0.0.1:{port}", f"127.0.0.1:{port - 1}", "deny"
    for listen, origins, lines, version in (
        (own, (other, own, deny, own), (2, 4), 1),
        (f"0.0.0.0:{port}", (own, f"127.0.0.2:{port}", other, f"192.0.2.1:{port}"), (1, 2), 3),
        (own, (f"127.0.0.2:{port}", other, deny), (), 1),
        (own, (own, deny), (1,), 4),
    ):
        with open(file, "w", encoding="utf-8") as it:
            it.write(table_of([(f"/{i}", ["*"], origin) for i, origin in enumerate(origins)], version=version))
        status, _, err = run(stage, "serve", file, "--listen", listen, "--turns", "1")
        told = [it for it in err.splitlines() if it.startswith("warning: the origin")]
        end = "twice, and are refused then" if version == 4 else "until connections run out"
        words = f"is this server itself: its requests come back {end}"
        expect(f"on {listen}", (0, [f"warning: the origin of line {n} {words}" for n in lines]), (status, told))


def replay(stage, script, **more):
    """The status, the effects and the line on standard error of a replay."""
    ran = subprocess.run([stage.program], input=script, stderr=subprocess.PIPE, timeout=20, **{"stdout": subprocess.PIPE, **more})
    return ran.returncode, ran.stdout, ran.stderr


def example(name, ending, default=None):
    """What examples/ has under this name, or what stands for it."""
    path = paths(ending).get(name)
    if path is None and default is not None:
        return default
    with open(path, "rb") as it:
        return it.read()


@scenario
def a_replay_ends_by_its_status(stage):
    """The exit status of a script that plays, of each example that is at fault, of a word too many, and of an output that is full."""
    names = list(paths("status"))
    expect("of the examples at fault", 10, len(names))
    for it in ["first_run", *names]:
        ended = int(example(it, "status", b"0")), example(it, "effects"), example(it, "stderr", b"")
        expect(f"from a replay of {it} status, effects and standard error", ended, replay(stage, example(it, "script")))
    for words in ([""], ["", "check"], ["--"]):
        expect_ended(stage, words, (64, "usage fault\n"))
    if not os.path.exists("/dev/full"):
        raise Skipped("there is no /dev/full")
    with open("/dev/full", "wb") as full:
        ended = replay(stage, example("first_run", "script"), stdout=full)
    expect("from a replay whose output is full", (1, None, b"write fault\n"), ended)


@scenario
def a_script_has_at_most_its_limit(stage):
    """A script of 16,777,216 bytes is replayed; of one with a byte more, what was read is."""
    first, effects = example("first_run", "script"), example("first_run", "effects")
    for size, ended in ((MOST_SCRIPT, (0, effects, b"")), (MOST_SCRIPT + 1, (1, effects, b"read fault\n"))):
        front = first + b"gone 2\nclient 2 "
        # (the length has eight digits, and a line end stands behind it and behind the block)
        length = size - len(front) - 10
        script = front + b"%d\n" % length + b"x" * length + b"\n"
        expect("the script's length", size, len(script))
        expect(f"from a script of {size} bytes status, effects and standard error", ended, replay(stage, script))


@scenario
def it_ends_when_its_turns_are_over(stage):
    """`--turns`: a server without peers ends by itself with status 0, and leaves a record that can be replayed."""
    origin = stage.origin(Origin({}))
    proxy = stage.proxy(turns=3)
    expect("status, output and standard error", (0, b"", ""), proxy.wait())
    proxy.compare([origin])


@scenario
def it_starts_again_at_its_port(stage):
    """What a supervisor does: the program is ended while clients are connected, and started again at once, with an
    empty store."""
    origin = stage.origin(Origin({"/a": whole(200, KEPT, content=b"hello")}))
    first = stage.proxy()
    client = first.client()
    expect_answer(client.ask("/a"), 200, "edge;fwd=uri-miss;ttl=600;stored", b"hello")
    first.stop(0)
    first.compare([origin])
    expect("the connection's end", True, client.has_ended)
    origin.fetches.clear()
    again = stage.proxy(listen=f"127.0.0.1:{first.port}")
    expect_answer(again.client().ask("/a"), 200, "edge;fwd=uri-miss;ttl=600;stored", b"hello")


@scenario
def a_record_is_readable_to_its_owner_alone(stage):
    """It holds what was sent: its mode is 0600, though the process could make a file that others read."""
    stage.origin(Origin({}))
    before = os.umask(0o022)
    try:
        proxy = stage.proxy()
    finally:
        os.umask(before)
    expect("the mode of the record", "0o600", oct(os.stat(proxy.record).st_mode & 0o777))


@scenario
def a_record_is_cut_at_the_limit_of_a_script(stage):
    """A record ends before a script's 16,777,216 bytes, which is said once; serving goes on. It replays to its end."""
    stage.origin(Origin({"/a": whole(201, content=b"made")}))
    proxy = stage.proxy()
    client = proxy.client()
    for _ in range(20):
        expect_answer(client.ask("/a", method="POST", content=b"x" * 999999), 201, "edge;fwd=method", b"made")
    size = os.path.getsize(proxy.record)
    if not MOST_SCRIPT - MOST_HAPPENING <= size <= MOST_SCRIPT:
        raise Unexpected("a record of", f"{MOST_SCRIPT - MOST_HAPPENING} to {MOST_SCRIPT} bytes", f"{size} bytes")
    stage.is_cut, stage.lines = True, 1


@scenario
def a_record_that_cannot_be_written_ends_the_server(stage):
    """A write fault of the record is the server's own: here its file may not grow beyond its first bytes."""
    file, record = f"{stage.room.name}/table.toml", f"{stage.room.name}/record"
    with open(file, "w", encoding="utf-8") as it:
        it.write(table_of(["127.0.0.1:1"]))
    words = [stage.program, "serve", file, "--listen", "127.0.0.1:0", "--turns", "3", "--record", record]
    ran = subprocess.run(words, stdin=subprocess.DEVNULL, capture_output=True, timeout=20, preexec_fn=allow_short_files_only)
    expect("status, and the last line on standard error", (1, b"write fault"), (ran.returncode, ran.stderr.rstrip(b"\n").rpartition(b"\n")[2]))


def allow_short_files_only():
    """Of a process and those that it starts: a file beyond 100 bytes is one that can't be written."""
    resource.setrlimit(resource.RLIMIT_FSIZE, (100, 100))
    signal.signal(signal.SIGXFSZ, signal.SIG_IGN)
