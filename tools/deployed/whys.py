"""tools/why: what it says of texts, of answers of the program and of strangers, and where tables have moved."""
import os
import re
import shutil
import socket
import subprocess
import sys
import threading

from deployed.stand import part
from explained import self_test
from explained.documents import Documents, cells_of, sections_of
from explained.entries import Words
from explained.sources import Sources
from explained.texts import Texts, value_of
from live.expect import expect
from live.origin import Origin, whole
from live.proxy import table_of

TOOLS = os.path.dirname(os.path.dirname(os.path.realpath(__file__)))
ROOT = os.path.dirname(TOOLS)
# A text, and of what it says the rule or word, its section (RFC 9111, 5861, 9211), and who can change something.
SAID = [
    ("Cache-Status: edge;fwd=stale;detail=must-revalidate", ["MustRevalidate", "RFC 9111, section 5.2.2.2", "Origin"]),
    (
        "edge;fwd=stale;fwd-status=304;ttl=60",
        ["NoMaxStale", "RFC 9111, section 4.2.4", "RFC 9211, section 2.3", "Client"],
    ),
    ("fwd=request;detail=min-fresh", ["BelowMinFresh", "RFC 9111, section 5.2.1.3", "Client"]),
    (
        "edge;fwd=bypass;detail=operator",
        ["Operator", "own: a choice of this project", "rule 0 of reuse", "this rule of storing"],
    ),
    (
        "edge;fwd=uri-miss",
        ["UriMiss", "RFC 9111, section 4", "Private", "NothingToReuse", "TooLarge", "RFC 9111, section 3.5"],
    ),
    ("edge;hit;ttl=5", ["sent a stored response", "RFC 9211, section 2.1", "RFC 9211, section 2.4"]),
    ("edge;fwd=uri-miss;ttl=9;collapsed", ["waited for another request", "RFC 9211, section 2.6"]),
    ('"front, a";hit, edge;fwd=vary-miss;ttl=1;stored', ["VaryMiss", "RFC 9111, section 4.1", "Vary"]),
    (
        "edge;fwd=stale;fwd-status=500;ttl=-3;detail=stale-if-error",
        ["detail=stale-if-error", "The origin failed", "RFC 9211, section 2.3"],
    ),
    ("edge;hit;ttl=-5;detail=stale-while-revalidate", ["sent a stored response", "another request is at the origin", "RFC 5861, section 3"]),
    (
        "Refusal: origin timed-out;fwd=stale;stale-if-error=no-directive",
        ["--origin-timeout", "NoDirective", "RFC 5861, section 4"],
    ),
    ("only-if-cached;fwd=uri-miss", ["wants only what is stored", "UriMiss", "504"]),
    ("denied by line 3", ["403", "Line N of the table", "Operator"]),
    ("no line allows it", ["403", "No line of the table", "Operator"]),
    ("loop refused by line 3", ["508", "names this proxy twice", "RFC 9110, section 7.6.3"]),
    ("refused: chunk", ["fault 6 of messages", "CRLF", "Client"]),
    ("refused: dot-segment", ["fault 7 of targets", "RFC 3986, section 3.3", "Client"]),
    ("no-lifetime", ["rule 12 of reuse", "rule 3 after an error", "max-age"]),
    ("Overtaken", ["rule 14 of storing", "RFC 9111, section 4.4"]),
    ("timed-out", ["origin timed-out", "--connect-timeout"]),
    ("config fault 8 line 1", ["BadOrigin", "IPv4 address and a port"]),
    ("usage fault", ["64"]),
    ("draining", ["drain"]),
    ("1764050018 127.0.0.1:40001 GET http://a.example/admin 403 16 denied by line 1", ["403", "Line N of the table"]),
    (
        "2026-11-26T12:00:00.123Z 127.0.0.1:40001 GET http://a/ 200 1 fwd=method 0.1 127.0.0.1:80",
        ["rule 1 of reuse", "RFC 9111, section 4"],
    ),
]
UNKNOWN = [
    "fwd=nothing",
    "edge;fwd=stale;detail=nothing",
    "denied by line x",
    "loop refused by line x",
    "refused: nothing",
    "origin nothing",
    "uri-mis",
    "",
    ";;;",
    "hit hit",
    "\x1b[2J",
]


def run(*words):
    return subprocess.run([sys.executable, f"{TOOLS}/why", *words], capture_output=True, text=True, timeout=60)


def words_of(text):
    return " ".join(text.split())


@part
def why(stand):
    yield "all_has_its_words", all_has_its_words
    yield "texts_say_their_rule", texts_say_their_rule
    yield "what_is_unknown", what_is_unknown
    yield "parts_of_a_document", parts_of_a_document
    yield "a_table_may_move", lambda: a_table_may_move(stand)
    yield "an_answer_of_the_program", lambda: an_answer_of_the_program(stand)
    yield "answers_of_strangers", answers_of_strangers
    yield "a_request_of_a_browser", a_request_of_a_browser


def all_has_its_words():
    ran = run("--self-test")
    expect("status and standard error", (0, ""), (ran.returncode, ran.stderr))
    return ran.stdout.strip()


def texts_say_their_rule():
    found = texts(ROOT)
    for text, wanted in SAID:
        entries = found.of(text) if not text[0].isdigit() and not text.startswith("2026") else []
        said = (
            words_of(run(text).stdout)
            if not entries
            else " ".join(f"{it.title} {' '.join(map(' '.join, it.parts))}" for it in entries)
        )
        expect(f"of {text}, what isn't said", [], [it for it in wanted if it not in said])
    said = words_of(run(*SAID[0][0].split(" ")).stdout)
    expect("printed, what isn't said", [], [it for it in SAID[0][1] if it not in said])


def texts(root):
    return Texts(Words(Documents(f"{root}/docs"), Sources(ROOT)))


def what_is_unknown():
    """It is told so, with status 1 and no byte that a terminal would take for a command."""
    for text in UNKNOWN:
        ran = run(text)
        expect(f"of {text!r} status and standard error", (1, ""), (ran.returncode, ran.stderr))
        expect(f"of {text!r} hidden characters", [], re.findall(r"[^ -~\n]", ran.stdout))
    expect("a word that is nearly one", True, "uri-miss" in run("uri-mis").stdout)
    expect("status without a text", 2, run().returncode)


def parts_of_a_document():
    """Rows, sections and values, by hand."""
    expect("a row with bars in it", ["a", "`b | c`", "d | e", ""], cells_of("| a | `b | c` | d \\| e |  |"))
    for cell, wanted in (
        ("9111, 5.2.2.2, 5.2.2.8; own", [("9111", "5.2.2.2"), ("9111", "5.2.2.8")]),
        ("9110, 4.2.1, 7.2; 3986, 3.2.2", [("9110", "4.2.1"), ("9110", "7.2"), ("3986", "3.2.2")]),
        ("9111, 3 and 3.3", [("9111", "3"), ("9111", "3.3")]),
        ("own", []),
    ):
        expect(f"sections of {cell}", wanted, sections_of(cell))
    for text, wanted in (
        ("cache-status:  a;hit ,edge; hit ; ttl=1", "edge;hit;ttl=1"),
        ("Refusal:no line allows it", "no line allows it"),
        ("edge;hit", "edge;hit"),
    ):
        expect(f"the value of {text}", wanted, value_of(text))


def a_table_may_move(stand):
    """The tables of three pages in another one, in another order: all has the same words, and another place."""
    folder = f"{stand.folder}/moved"
    shutil.copytree(f"{ROOT}/docs", f"{folder}/docs")
    os.symlink(f"{ROOT}/crates", f"{folder}/crates")
    parts = []
    for name in ("RULES.md", "REASONS.md", "OPERATIONS.md"):
        with open(f"{folder}/docs/{name}", encoding="utf-8") as it:
            parts += re.split(r"(?m)^(?=## )", it.read())
        os.remove(f"{folder}/docs/{name}")
    with open(f"{folder}/docs/ANOTHER.md", "w", encoding="utf-8") as it:
        it.write("\n".join(reversed(parts)))
    expect("what lacks its words", [], self_test.faults_of(texts(folder), folder)[1])
    entry = texts(folder).of("fwd=vary-miss")[0]
    expect("its place", True, 'docs/ANOTHER.md, "Reuse"' in dict(entry.parts)["defined in"])
    expect("a rule without a table is missed", True, bool(self_test.faults_of(texts(stand.folder), ROOT)[1]))


def an_answer_of_the_program(stand):
    """It asks, says what came first, and then why: a miss, a hit, an answer that isn't stored, a refusal."""
    kept, private = whole(200, "Cache-Control: max-age=600", content=b"a"), whole(
        200, "Cache-Control: private", content=b"b"
    )
    origin = stand.origin(Origin({"/a": kept, "/b": private}))
    proxy = stand.proxy(table_of([("/no", ["*"], "deny"), ("/", ["*"], origin.address)]))
    for target, first, wanted in (
        (
            "/a",
            "Cache-Status: edge;fwd=uri-miss;ttl=600;stored",
            ["200 to GET http://h.example/a", "Cache-Control: max-age=600", "rule 5 of reuse"],
        ),
        ("/a", "Cache-Status: edge;hit;ttl=", ["Age: ", "RFC 9211, section 2.1"]),
        ("/b", "Cache-Status: edge;fwd=uri-miss", ["Cache-Control: private", "Private", "RFC 9111, section 5.2.2.7"]),
        ("/no/x", "Refusal: denied by line 1", ["403 to GET", "Line N of the table"]),
    ):
        ran = run(f"http://h.example{target}", "--to", f"127.0.0.1:{proxy.port}")
        expect(f"of {target} status and standard error", (0, ""), (ran.returncode, ran.stderr))
        expect(f"of {target} the first line", first, ran.stdout.split("\n")[0][: len(first)])
        expect(f"of {target} what isn't said", [], [it for it in wanted if it not in words_of(ran.stdout)])
    expect("the host at the origin", ["h.example"] * 2, [it.value("Host") for it in origin.fetches])


# What a stranger answers, and of what is said a part.
STRANGE = [
    (b"HTTP/1.1 200 OK\r\nContent-Length: 0\r\n\r\n", 1, "neither Cache-Status nor Refusal"),
    (b"HTTP/1.1 200 OK\r\nCache-Status: edge;hit\x1b[2J;ttl=\xff\r\nContent-Length: 0\r\n\r\n", 1, "\\x1b[2J"),
    (b"SSH-2.0-x\r\n\r\n", 1, "it can't be told"),
    (b"", 1, "it can't be told"),
]


def answers_of_strangers():
    """Who isn't the proxy, and what can't be asked for."""
    for text, status, said in STRANGE:
        with socket.create_server(("127.0.0.1", 0)) as listener:
            threading.Thread(target=answer_once, args=[listener, text], daemon=True).start()
            ran = run("http://127.0.0.1:%d/" % listener.getsockname()[1])
        told = ran.stdout + ran.stderr
        expect(f"of {text} status, and what is said", (status, True), (ran.returncode, said in told))
        expect(f"of {text} hidden characters", [], re.findall(r"[^ -~\n]", told))
    for url in (
        "https://h.example/",
        "http://127.0.0.1:1/",
        "http://127.0.0.1:99999999/",
        "http:///x",
        "http://h/\x01",
    ):
        ran = run(url)
        expect(f"of {url} status and lines on standard error", (1, 1), (ran.returncode, ran.stderr.count("\n")))


# An answer that isn't stored, to a request with a cookie; and of what is said a part.
UNSTORED = b"HTTP/1.1 200 OK\r\nCache-Control: max-age=60\r\nSet-Cookie: a=b\r\nContent-Length: 2000000\r\nCache-Status: edge;fwd=uri-miss\r\n\r\n"
OLD = b"HTTP/1.1 200 OK\r\nDate: Sun, 06 Nov 1994 08:49:37 GMT\r\nAge: 7\r\nContent-Length: 0\r\nCache-Status: edge;fwd=uri-miss;ttl=-9;stored\r\n\r\n"
VARIED = b"HTTP/1.1 200 OK\r\nVary: Accept-Encoding, Cookie, X-Shop\r\nContent-Length: 0\r\nCache-Status: edge;fwd=vary-miss;ttl=60;stored\r\n\r\n"
BROWSER = ["--header", "Accept-Encoding: gzip, br", "--header", "Cookie: sid=1"]


def a_request_of_a_browser():
    """Fields of the request go out as they are given, and the answer is judged by them and by the table; what can't be
    sent isn't asked. Of a response that was stored too old the clocks are compared."""
    for text, words, wanted in (
        (UNSTORED, BROWSER, ["with Accept-Encoding, Cookie", "2000000 bytes: compare that with max_stored", 'if the line has set-cookie = "not-stored"']),
        (UNSTORED, [*BROWSER, "--table", f"{ROOT}/deploy/site.toml"], ["not stored: rule 13 of storing, TooLarge", "max_stored of the table is 1048576"]),
        (UNSTORED, ["--header", "Authorization: Basic eDp5"], ["not stored: rule 8 of storing, Authorization", "RFC 9111, section 3.5"]),
        (VARIED, BROWSER, ["Vary names Accept-Encoding: this request had gzip, br Vary names Cookie: this request had sid=1 Vary names X-Shop: this request had none"]),
        (OLD, [], ["s behind this machine's clock it came with an Age of 7 s", "born old", "compare the clocks of origin and proxy"]),
    ):
        seen = []
        with socket.create_server(("127.0.0.1", 0)) as listener:
            threading.Thread(target=answer_once, args=[listener, text, seen], daemon=True).start()
            ran = run("http://127.0.0.1:%d/" % listener.getsockname()[1], *words)
        expect(f"with {words} status and standard error", (0, ""), (ran.returncode, ran.stderr))
        expect(f"with {words} what isn't said", [], [it for it in wanted if it not in words_of(ran.stdout)])
        lines = [it for it in words[1::2] if words[words.index(it) - 1] == "--header"]
        expect(f"with {words} the fields of the request", lines, seen[0].decode().split("\r\n")[3:-2])
    for line in ("Host: h", "no colon", "a: b\nc: d"):
        expect(f"status with --header {line!r}", 2, run("http://127.0.0.1:1/", "--header", line).returncode)
    expect("status with --header and no URL", 2, run("hit", "--header", "A: b").returncode)


def answer_once(listener, text, seen=None):
    connection, _ = listener.accept()
    with connection:
        (seen if seen is not None else []).append(connection.recv(65536))
        connection.sendall(text)
