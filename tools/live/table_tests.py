"""Scenarios of tests of a table: a file of questions with what is expected of each, and what a new table changes for the requests of a log."""
from live.expect import Unexpected, expect
from live.logs import lines_of
from live.memory_bounds import told_of_store
from live.origin import Origin, whole
from live.programs import run
from live.proxy import table_of
from live.scenario import KEPT, scenario

LINES = [("/admin", ["*"], "deny"), ("/api", ["GET", "POST"], "127.0.0.1:1"), ("/", ["GET"], "127.0.0.1:2")]
# Questions with what is expected of each, and what a request meets there.
MET = [
    ("GET http://h.example/admin/x => denied by line 1", None),
    ("GET http://h.example/%61dmin => denied", None),
    ("POST https://h.example/api/v1?x => line 2", None),
    ("GET http://h.example/apis => line 3", None),
    ("POST http://h.example/ => no line", None),
    ("POST http://h.example/ => denied", None),
    ("GET http://h.example/a/../b => refused", None),
    ("GET http://h.example/a => line 2", "allowed by line 3"),
    ("GET http://h.example/a => denied", "allowed by line 3"),
    ("GET http://h.example/admin => line 1", "denied by line 1"),
    ("GET http://h.example/admin => denied by line 2", "denied by line 1"),
    ("GET http://h.example/admin => no line", "denied by line 1"),
    ("DELETE http://h.example/ => denied by line 3", "denied: no line allows it"),
    ("GET http://h.example/a => refused", "allowed by line 3"),
    ("GET http://h.example/%2e%2e => denied", "refused before the table is asked"),
]
NO_QUESTIONS = ["GET http://h.example/", "GET => line 1", "GET http://h.example/ => line", "GET http://h.example/ => line 65536"]
NO_QUESTIONS += ["GET h.example/ => denied", "GET http://h.example/ => allowed", "=> denied", "GET http://h.example/ => line -1"]


def write(path, text):
    with open(path, "w", encoding="utf-8") as it:
        it.write(text)
    return path


@scenario
def a_table_is_tested_by_questions(stage):
    """`check --ask-file`: each question that is answered otherwise than expected is told with its line, and the status is 3; else it is 0.
    A line that is no question is named, with status 1."""
    table, file = write(f"{stage.room.name}/table.toml", table_of(LINES)), f"{stage.room.name}/questions"
    front = f"ok 3 lines\n{told_of_store(64, 100000)}"
    good = [it for it, met in MET if met is None]
    write(file, "# what has to hold\n\n" + "".join(f"  {it}\n" for it in good))
    expect("of what holds", (0, f"{front}{len(good)} questions, 0 answered otherwise\n", ""), run(stage, "check", table, "--ask-file", file))
    write(file, "".join(f"{it}\n" for it, _ in MET))
    told = "".join(f"line {n}: {it}: it is {met}\n" for n, (it, met) in enumerate(MET, 1) if met)
    told += f"{len(MET)} questions, {len(MET) - len(good)} answered otherwise\n"
    expect("of all", (3, front + told, "answers differ\n"), run(stage, "check", table, "--ask-file", file))
    for it in NO_QUESTIONS:
        write(file, f"{good[0]}\n\n{it}\n")
        status, out, err = run(stage, "check", table, "--ask-file", file)
        expect(f"of `{it}` status and standard error", (1, "read fault\n"), (status, err))
        if f"line 3 of the questions, '{it}', is none" not in out:
            raise Unexpected("on standard output", f"that `{it}` is none", out)
    write(file, "")
    expect("of none", (0, f"{front}0 questions, 0 answered otherwise\n", ""), run(stage, "check", table, "--ask-file", file))
    status, out, err = run(stage, "check", table, "--ask-file", f"{file}.none")
    expect("of a file that isn't there", (1, "read fault\n", True), (status, err, "can't be read: No such file" in out))


# A table of version 4 with lists, and tests of it: hosts below one (RFC 1034, 3.1) and paths of a list; a line that one in front takes.
LISTS = """version = 4
name = "edge"
capacity = 64
max_body = 1000000
max_stored = 100000

[[line]]
host = ["shop.example", "*.shop.example"]
methods = ["*"]
path = ["/admin", "/debug"]
origin = "deny"

[[line]]
host = ["*.shop.example", "*.example.net"]
methods = ["GET", "HEAD"]
path = "/"
origin = "127.0.0.1:1"

[[line]]
host = "a.shop.example"
methods = ["GET"]
path = ["/a", "/b"]
origin = "127.0.0.1:2"

[[line]]
host = "*"
methods = ["GET"]
path = ["/open", "/free"]
origin = "127.0.0.1:3"
"""
OF_LISTS = [
    "GET http://shop.example/admin/x => denied by line 1",
    "GET http://a.b.shop.example/debug => denied by line 1",
    "GET http://ashop.example/admin => no line",
    "GET http://a.shop.example/a => line 2",
    "GET http://x.example.net/ => line 2",
    "GET http://example.net/ => no line",
    "GET http://shop.example/free/x => line 4",
    "GET http://shop.example/fre => no line",
]


@scenario
def a_table_with_lists_is_tested_by_questions(stage):
    """A line of version 4 has lists of hosts and paths: `check` tells which line is never reached, and each question is answered as expected."""
    table, file = write(f"{stage.room.name}/table.toml", LISTS), write(f"{stage.room.name}/questions", "".join(f"{it}\n" for it in OF_LISTS))
    front = f"ok 4 lines\n{told_of_store(64, 100000)}line 3 is never reached: line 2 takes all of it\n"
    told = f"{front}{len(OF_LISTS)} questions, 0 answered otherwise\n"
    expect("of what holds", (0, told, ""), run(stage, "check", table, "--ask-file", file))


# Answers of an origin, by a line that stores neither errors nor cookies and tells why: what Cache-Status says of each.
ANSWERS = [
    ("Cache-Control: max-age=60", "stored", "fwd=uri-miss;ttl=60;stored"),
    ("200 | cache-control:max-age=60 | ETag: \"v1\"", "stored", "fwd=uri-miss;ttl=60;stored"),
    ("Cache-Control: private, max-age=60", "not stored", "fwd=uri-miss;detail=not-stored-private"),
    ("404 | Cache-Control: max-age=60", "stored", "fwd=uri-miss;ttl=60;stored"),
    ("500 | Cache-Control: max-age=60", "not stored", "fwd=uri-miss;detail=not-stored-error-status"),
    ("Cache-Control: max-age=60 | Set-Cookie: a=b", "not stored", "fwd=uri-miss;detail=not-stored-set-cookie"),
    ("Content-Type: text/plain", "not stored", "fwd=uri-miss;detail=not-stored-no-lifetime"),
    ("302 | Location: /", "not stored", "fwd=uri-miss;detail=not-stored-nothing-allows"),
    ("204 | Cache-Control: max-age=60", "stored", "fwd=uri-miss;ttl=60;stored"),
    ("Cache-Control: max-age=60 | Vary: *", "not stored", "fwd=uri-miss;detail=not-stored-vary-star"),
]
NO_ANSWERS = ["nonsense", "99 | a: b", "600", ": b", "Cache-Control: max-age=60 | b"]


@scenario
def an_answer_is_tried_by_a_table(stage):
    """`check --answer`, with --ask and in a file of questions: whether an origin's answer would be stored, as the proxy itself says when it plays
    it; what is no answer is named. A request that the table denies has none."""
    words = {"explain": "storing", "set-cookie": "not-stored", "errors": "not-stored"}
    table = write(f"{stage.room.name}/table.toml", table_of([("/admin", ["*"], "deny"), ("/", ["GET", "POST"], "127.0.0.1:1", words)], version=3))
    file = f"{stage.room.name}/questions"
    for answer, word, reason in ANSWERS:
        status, out, err = run(stage, "check", table, "--ask", "GET http://h.example/a", "--answer", answer)
        told = (0, f"    with this answer: {word}, {reason}", "")
        expect(f"of `{answer}`", told, (status, out.splitlines()[-1], err))
    asked = "".join(f"answer: {answer}\nGET http://h.example/a => {word}\n" for answer, word, _ in ANSWERS)
    write(file, asked)
    told = f"{len(ANSWERS)} questions, 0 answered otherwise"
    status, out, _ = run(stage, "check", table, "--ask-file", file)
    expect("of all", (0, told), (status, out.splitlines()[-1]))
    write(file, "GET http://h.example/a => stored\nGET http://h.example/admin => stored\nPOST http://h.example/a => stored\n")
    status, out, _ = run(stage, "check", table, "--ask-file", file, "--answer", "Cache-Control: max-age=60")
    lines = [
        "line 2: GET http://h.example/admin => stored: it is denied by line 1",
        "line 3: POST http://h.example/a => stored: it is not stored, fwd=method;detail=not-stored-method",
        "3 questions, 2 answered otherwise",
    ]
    expect("of what isn't stored", (3, lines), (status, out.splitlines()[-3:]))
    for it in NO_ANSWERS:
        status, _, err = run(stage, "check", table, "--ask", "GET http://h.example/a", "--answer", it)
        expect(f"of `{it}` status and standard error", (64, "usage fault\n"), (status, err))
        write(file, f"answer: {it}\n")
        status, _, err = run(stage, "check", table, "--ask-file", file)
        expect(f"of `{it}` in a file", (1, "read fault\n"), (status, err))


@scenario
def a_new_table_is_compared_by_a_log(stage):
    """`check NEW --against OLD --log FILE`: of the requests in a server's log it tells which go to another origin, have other words or are
    denied by one table alone, how many, and one of each; a line that only moved is no change."""
    log = f"{stage.room.name}/access.log"
    stage.origin(Origin({it: whole(200, KEPT, content=b"hello") for it in ("/a", "/b", "/api/x", "/static/y")}))
    address = stage.origins[0].address
    old = table_of([("/admin", ["*"], "deny"), ("/", ["GET"], address)], version=3)
    proxy = stage.proxy_of(old, None, ["--log", log])
    client = proxy.client()
    for target in ("/a", "/b", "/admin/u", "/api/x", "/api/x", "/static/y", "/a/../b"):
        client.ask(target)
    lines_of(log, 7)
    proxy.stop(0)
    lines = [("/static", ["GET"], address, {"lifetime": 60}), ("/api", ["GET"], "127.0.0.1:1"), ("/b", ["GET"], "deny"), ("/", ["GET"], address)]
    new, old = write(f"{stage.room.name}/new.toml", table_of(lines, version=3)), write(f"{stage.room.name}/old.toml", old)
    front, before = f"ok 4 lines\n{told_of_store(64, 100000)}", f"    before allowed by line 2, origin {address}\n"
    changes = [
        ("1 as GET http://h/admin/u\n", "    before denied by line 1\n", f"    now allowed by line 4, origin {address}\n"),
        ("1 as GET http://h/static/y\n", before, f"    now allowed by line 1, origin {address}\n"),
        ("2 as GET http://h/api/x\n", before, "    now allowed by line 2, origin 127.0.0.1:1\n"),
        ("1 as GET http://h/b\n", before, "    now denied by line 3\n"),
    ]
    status, out, err = run(stage, "check", new, "--against", old, "--log", log)
    expect("status and standard error", (0, ""), (status, err))
    told = out.removeprefix(front)
    expect("in front", f"{front}of 7 requests in the log 5 would be decided otherwise\n", out[: len(front)] + told.partition("\n")[0] + "\n")
    for it in changes:
        if "".join(it) not in told:
            raise Unexpected("on standard output", "".join(it), told)
    expect("lines about changes", 3 * len(changes), told.count("\n") - 1 - told.count("no request that can be asked"))
    same = run(stage, "check", old, "--against", old, "--log", log)
    expect("of the same table", True, same[1].startswith("ok 2 lines\n") and "of 7 requests in the log 0 would be decided otherwise\n" in same[1])
    for words in (["--against", old], ["--log", log]):
        expect(f"of {words[0]} alone", (64, "usage fault\n"), run(stage, "check", new, *words)[::2])
