"""Scenarios of the figures that `--stats FILE` writes: they are what was done, and Prometheus' own tool takes them."""
import os
import re
import shutil
import subprocess
import time

from live.client import PATIENCE
from live.expect import Skipped, Unexpected, expect, expect_answer, expect_refusal
from live.origin import Origin, Refusing, ends, raw, silent, whole
from live.proxy import table_of
from live.scenario import KEPT, LATEST, scenario

# A sample: its name, the address that its program listens on, its other labels, its value.
LABEL = r'[a-z_]+="[^"\\]*"'
SAMPLE = re.compile(rf'([a-z_]+)\{{listen="([0-9.:]+)"(?:,({LABEL}(?:,{LABEL})*))?\}} ([0-9]+(?:[.][0-9]{{3}})?)')
LAST = "revcache_record_state{"


def read(path):
    """The samples of a page, which is whole whenever it is read: each name with its labels but the program's, and its number."""
    with open(path, encoding="ascii") as it:
        lines = it.read().splitlines()
    samples, programs = {}, set()
    for line in lines:
        if line.startswith(("# HELP ", "# TYPE ")):
            continue
        it = SAMPLE.fullmatch(line)
        if not it:
            raise Unexpected("a sample", 'as in name{listen="127.0.0.1:8080"} 1', line)
        samples[it[1] + ("{" + it[3] + "}" if it[3] else "")] = float(it[4])
        programs.add(it[2])
    expect("the last sample of a page, and its programs", (True, 1), (lines[-1].startswith(LAST), len(programs)))
    return samples


def figures_with(path, name, number, within=PATIENCE):
    """The samples of a page, once one of them has come to a number."""
    deadline = time.monotonic() + within
    while True:
        samples = read(path)
        if samples.get(name) == number:
            return samples
        if time.monotonic() > deadline:
            raise Unexpected(f"of {name}", number, samples.get(name))
        time.sleep(0.05)


def expect_samples(samples, expected):
    """Each of these samples, and of the families named here no other that isn't 0."""
    for name, number in expected.items():
        expect(f"of {name}", number, samples.get(name))
    families = {name.partition("{")[0] for name in expected if "{" in name}
    for name, number in samples.items():
        if name.partition("{")[0] in families and name not in expected:
            expect(f"of {name}", 0, number)


def of(name, **labels):
    """The name of a sample."""
    text = ",".join(f'{key}="{value}"' for key, value in labels.items())
    return f"revcache_{name}" + ("{" + text + "}" if text else "")


def reasons(**counts):
    """Samples of replies, by reason and detail."""
    pairs = ((key.replace("_", "-").partition("--"), n) for key, n in counts.items())
    return {of("requests_total", reason=reason, detail=detail): n for (reason, _, detail), n in pairs}


def in_all(samples, name):
    return sum(number for key, number in samples.items() if key.partition("{")[0] == f"revcache_{name}")


@scenario
def figures_are_what_was_done(stage):
    """A miss, hits, a POST, a denial, what no line allows, a message that is refused, an origin that refuses and one that breaks off, an
    error of an origin: each is counted by its reason, status and cause, and at its origin."""
    answers = {"/a": whole(200, KEPT, content=b"hello"), "/post": whole(201, content=b"made"), "/error": whole(500, content=b"no")}
    origin = stage.origin(Origin({**answers, "/cut": raw(b"HTTP/1.1 200 OK\r\nContent-Length: 5\r\n\r\nhe", ends)}))
    down = Refusing()
    file = f"{stage.room.name}/figures"
    lines = ("/denied", ["*"], "deny"), ("/down", ["GET"], down.address), ("/", ["GET", "POST"], origin.address)
    client = stage.proxy(*lines, options=["--stats", file]).client()
    for reason in ("fwd=uri-miss;ttl=600;stored", "hit;ttl=600", "hit;ttl=600", "hit;ttl=600"):
        expect_answer(client.ask("/a"), 200, "edge;" + reason, b"hello")
    client.ask("/a", "Range: bytes=0-1")
    client.ask("/post", method="POST", content=b"x" * 1000)
    client.ask("/error")
    expect_refusal(client.ask("/denied"), 403, "denied by line 1")
    expect_refusal(client.ask("/a", method="PUT", content=b"x"), 403, "no line allows it")
    expect_refusal(client.ask("/a", "Cache-Control: only-if-cached, no-cache"), 504, "only-if-cached;fwd=request;detail=no-cache")
    expect_refusal(client.ask("/down"), 502, "origin refused;fwd=uri-miss")
    expect_refusal(client.ask("/cut"), 502, "origin closed;fwd=uri-miss")
    expect_refusal(client.ask("/a/../b"), 400, "refused: dot-segment")
    samples = figures_with(file, of("refusals_total", cause="dot-segment"), 1)
    expect_samples(samples, reasons(hit=3, uri_miss=2, bypass__range=1, method=1, denied=2, only_if_cached=1, origin_failed=2, refused=1))
    statuses = {200: 5, 201: 1, 500: 1, 403: 2, 504: 1, 502: 2, 400: 1}
    expect_samples(samples, {of("responses_total", code=code): n for code, n in statuses.items()})
    causes = {"denied": 1, "no-line": 1, "only-if-cached": 1, "origin-refused": 1, "origin-closed": 1, "dot-segment": 1}
    expect_samples(samples, {of("refusals_total", cause=cause): n for cause, n in causes.items()})
    here, there = {"origin": origin.address}, {"origin": down.address}
    expect_samples(samples, {of("origin_exchanges_total", **here): 5, of("origin_exchanges_total", **there): 1})
    expect_samples(samples, {of("origin_failures_total", **here, kind="closed"): 1, of("origin_failures_total", **there, kind="refused"): 1})
    expect_samples(samples, {of("origin_responses_total", **here, code="2xx"): 3, of("origin_responses_total", **here, code="5xx"): 1})
    expect_bytes(samples, stage, client, origin)
    expect_samples(samples, {of("stored_responses_total"): 1, of("store_responses"): 1})
    expect_samples(samples, {of("connections_accepted_total"): 1, of("log_lines_total"): 0})
    expect("replies by how long they took", 13, in_all(samples, "request_duration_seconds_count"))
    expect("replies of origins", 6, samples[of("request_duration_seconds_count", source="origin")])


def expect_bytes(samples, stage, client, origin):
    """Bytes are those that the client and the origin saw."""
    expect("bytes from clients", len(client.sent), samples[of("client_received_bytes_total")])
    expect("bytes to clients", len(client.received), samples[of("client_sent_bytes_total")])
    sent = sum(len(it.received) for it in origin.fetches)
    expect("bytes to the origin", sent, samples[of("origin_sent_bytes_total", origin=origin.address)])
    began = samples["revcache_start_time_seconds"]
    if not abs(began - time.time()) < 60 or samples["revcache_stats_time_seconds"] < began:
        raise Unexpected("a start of this minute", time.time(), began)
    expect("the record's state", 1, samples[of("record_state", state="writing")])


@scenario
def figures_of_connections_and_times(stage):
    """Who is open and cut off by a time-out, how long an answer took, and how long an origin is being waited for."""
    wait = 0.3
    answers = {"/a": whole(200, KEPT, content=b"hello"), "/silent": silent}
    answers["/late"] = lambda fetch: (time.sleep(wait), whole(200, content=b"late")(fetch))
    origin = stage.origin(Origin(answers))
    file = f"{stage.room.name}/figures"
    options = ["--stats", file, "--client-timeout", "8", "--origin-timeout", "4", "--log", f"{stage.room.name}/log"]
    proxy = stage.proxy(options=options)
    idle, late, waiting = proxy.client(), proxy.client(), proxy.client()
    idle.ask("/a")
    late.ask("/late")
    waiting.send(b"GET /silent HTTP/1.1\r\nHost: h\r\n\r\n")
    figures_with(file, of("log_lines_total"), 2, LATEST)
    samples = figures_with(file, of("origin_exchanges", origin=origin.address), 1, LATEST)
    expect_samples(samples, {of("connections", state="open"): 3})
    expect_samples(samples, {of("origin_exchanges", origin=origin.address): 1})
    if not 0 < samples["revcache_oldest_exchange_age_seconds"] < LATEST:
        raise Unexpected("the age of the oldest exchange", "above 0", samples["revcache_oldest_exchange_age_seconds"])
    within = {le: samples[of("request_duration_seconds_bucket", source="origin", le=le)] for le in ("0.1", "0.5", "+Inf")}
    expect("replies of the origin within a tenth and half a second, and all", {"0.1": 1, "0.5": 2, "+Inf": 2}, within)
    expect_refusal(waiting.response(), 504, "origin timed-out;fwd=uri-miss")
    samples = figures_with(file, of("timeouts_total", kind="client"), 3, 2 * LATEST)
    expect_samples(samples, {of("timeouts_total", kind="client"): 3, of("timeouts_total", kind="origin"): 1})
    expect_samples(samples, {of("origin_failures_total", origin=origin.address, kind="timed-out"): 1})
    expect_samples(samples, {of("log_lines_total"): 3, of("log_lost_lines_total"): 0, of("connections", state="open"): 0})


@scenario
def figures_of_the_store(stage):
    """What is held, what went since the store was full, and what an unsafe method or a new answer took out."""
    kept = whole(200, KEPT, content=b"hello")
    stage.origin(Origin({**{f"/{name}": kept for name in "abc"}, "/c": lambda fetch: (whole(201) if fetch.method == "POST" else kept)(fetch)}))
    file = f"{stage.room.name}/figures"
    client = stage.proxy(capacity=2, options=["--stats", file]).client()
    told = lambda held, evicted, removed: {  # noqa: E731
        of("store_capacity_responses"): 2, of("store_responses"): held, of("store_evictions_total"): evicted, of("store_removals_total"): removed}
    expect_samples(read(file), told(0, 0, 0))
    for name in "ab":
        expect_answer(client.ask(f"/{name}"), 200, "edge;fwd=uri-miss;ttl=600;stored", b"hello")
    expect_samples(figures_with(file, of("store_responses"), 2), told(2, 0, 0))
    # The third takes the place of the first, which was used least lately.
    expect_answer(client.ask("/c"), 200, "edge;fwd=uri-miss;ttl=600;stored", b"hello")
    expect_samples(figures_with(file, of("store_evictions_total"), 1), told(2, 1, 0))
    client.ask("/c", method="POST", content=b"x")
    expect_samples(figures_with(file, of("store_removals_total"), 1), told(1, 1, 1))
    client.ask("/b", "Cache-Control: no-cache")
    expect_samples(figures_with(file, of("store_removals_total"), 2), told(1, 1, 2))


def weight_of(answer, host, target, nominated=0):
    """The bytes that a stored response weighs, by docs/LIMITS.md: its content, each of its lines with four beside name and value, host and
    target twice, what its Vary nominates, and 1,200."""
    beside = ("age", "cache-status", "content-length")
    lines = [it for it in answer.fields if it[0].lower() not in beside]
    return len(answer.content) + sum(len(name) + len(value) + 4 for name, value in lines) + 2 * len(host + target) + nominated + 1200


@scenario
def figures_of_what_the_store_weighs(stage):
    """`revcache_store_bytes` is the weight of what is held: it rises by a response that is stored, changes with one that is freshened,
    and falls by one that is replaced, invalidated or evicted."""
    file = f"{stage.room.name}/figures"
    varying = whole(200, KEPT, "Vary: Accept-Language", content=b"y" * 3000)
    posted = lambda fetch: (whole(204) if fetch.method == "POST" else whole(200, KEPT, content=b"z"))(fetch)  # noqa: E731
    stage.origin(Origin({"/a": whole(200, KEPT, content=b"x" * 5000), "/b": varying, "/c": posted}))
    client = stage.proxy(options=["--stats", file], capacity=2).client()

    def expect_weight(*weights):
        expect_samples(figures_with(file, of("store_bytes"), sum(weights)), {of("store_responses"): len(weights)})

    expect_weight()
    first = weight_of(client.ask("/a"), "h", "/a")
    expect_weight(first)
    second = weight_of(client.ask("/b?q", "Accept-Language: de"), "h", "/b?q", len("Accept-Language") + len("de"))
    expect_weight(first, second)
    expect_answer(client.ask("/a"), 200, "edge;hit;ttl=600", b"x" * 5000)
    expect_weight(first, second)
    third = weight_of(client.ask("/c"), "h", "/c")
    expect_weight(first, third)
    expect("the status", 204, client.ask("/c", method="POST", content=b"").status)
    expect_weight(first)


@scenario
def figures_are_taken_by_promtool(stage):
    """`promtool check metrics` has nothing to say of a page."""
    if not shutil.which("promtool"):
        raise Skipped("there is no promtool (Debian's package prometheus)")
    origin = stage.origin(Origin({"/a": whole(200, KEPT, content=b"hello")}))
    file = f"{stage.room.name}/figures"
    client = stage.proxy(options=["--stats", file]).client()
    client.ask("/a")
    client.ask("/none")
    figures_with(file, of("origin_exchanges_total", origin=origin.address), 2)
    with open(file, "rb") as it:
        ran = subprocess.run(["promtool", "check", "metrics"], stdin=it, capture_output=True, timeout=PATIENCE)
    expect("promtool's status and words", (0, b"", b""), (ran.returncode, ran.stdout, ran.stderr))


@scenario
def figures_that_another_program_writes(stage):
    """Two programs with one file of figures: the second one says so at its start. One that begins anew, or long after, doesn't."""
    file, table = f"{stage.room.name}/figures", f"{stage.room.name}/table.toml"
    with open(table, "w", encoding="utf-8") as it:
        it.write(table_of(["127.0.0.1:1"]))
    first = stage.proxy_of(table_of(["127.0.0.1:1"]), None, ["--stats", file])
    said = f"warning: the program on 127.0.0.1:{first.port} writes its figures into {file}, too: give each a file of its own"

    def warnings_at(port):
        words = [stage.program, "serve", table, "--listen", f"127.0.0.1:{port}", "--turns", "1", "--stats", file]
        ran = subprocess.run(words, stdin=subprocess.DEVNULL, capture_output=True, timeout=PATIENCE)
        return [it for it in ran.stderr.decode().splitlines() if it.startswith("warning: the program on")]

    expect("what a second one says", [said], warnings_at(0))
    first.stop(0)
    expect("what the same one says", [], [it for it in warnings_at(first.port) if str(first.port) in it])
    time.sleep(4.5)
    expect("what one says that comes later", [], warnings_at(0))


@scenario
def figures_that_cannot_be_written(stage):
    """Where there is no place for them, at the start or later, or their disk is full, that is told once, and the program serves. They come once
    they can be written."""
    folder, full = f"{stage.room.name}/there", f"{stage.room.name}/full"
    os.mkdir(folder)
    os.symlink("/dev/full", f"{full}.tmp")
    stage.origin(Origin({"/a": whole(200, KEPT, content=b"hello")}))
    clients = [stage.proxy(options=["--stats", it], records=False).client() for it in (f"{folder}/figures", f"{stage.room.name}/none/figures", full)]
    shutil.rmtree(folder)
    time.sleep(3)
    for it in clients:
        expect_answer(it.ask("/a"), 200, "edge;fwd=uri-miss;ttl=600;stored", b"hello")
    expect("whether there is a file of what a full disk took", False, os.path.exists(full))
    os.remove(f"{full}.tmp")
    time.sleep(2.2)
    figures_with(full, of("connections_accepted_total"), 1)
    stage.lines = 1
