"""Scenarios of origins that fail, and of clients that do."""
import signal
import threading
import time

from live.client import request
from live.expect import expect, expect_answer, expect_member, expect_refusal, expect_within
from live.origin import FullQueue, Origin, Refusing, byte_by_byte, ends, head_of, held_back, raw, silent, whole
from live.scenario import AT_ONCE, KEPT, LATEST, SHORT, scenario, timed


@scenario
def a_silent_origin_times_out(stage):
    """RFC 9110, 15.6.5: 504 where an origin doesn't answer in time. Others are served meanwhile, its link is closed."""
    origin = stage.origin(Origin({"/silent": silent, "/a": whole(200, KEPT, content=b"hello")}))
    proxy = stage.proxy(options=["--origin-timeout", str(SHORT)])
    waiting, other = proxy.client(), proxy.client()
    began = time.monotonic()
    waiting.send(request("/silent"))
    origin.wait_for(1)
    answer, seconds = timed(other, "/a")
    expect_answer(answer, 200, "edge;fwd=uri-miss;ttl=600;stored", b"hello")
    expect_within("another client's answer", 0, AT_ONCE, seconds)
    expect_refusal(waiting.response(), 504, "origin timed-out;fwd=uri-miss")
    expect_within("504", SHORT, LATEST, time.monotonic() - began)
    expect("the link's end at the origin", True, origin.fetches[0].is_over.wait(LATEST))
    expect_answer(waiting.ask("/a"), 200, "edge;hit;ttl=600", b"hello")


@scenario
def a_time_out_counts_from_the_last_byte(stage):
    """An origin that goes on sending isn't silent, however long it takes."""
    text = head_of(200, [KEPT, "Content-Length: 5"]) + b"hello"
    stage.origin(Origin({"/a": lambda fetch: (fetch.send(text[:-5]), byte_by_byte(text[-5:], 0.6)(fetch))}))
    proxy = stage.proxy(options=["--origin-timeout", str(SHORT + 1)])
    answer, seconds = timed(proxy.client(), "/a")
    expect_answer(answer, 200, "edge;fwd=uri-miss;ttl=600;stored", b"hello")
    expect_within("the answer", 2.4, 10, seconds)


@scenario
def what_came_during_a_pause_came_in_time(stage):
    """A server that the system halts for a while (a machine that is moved, too little processor) reads what has come
    meanwhile before it calls anyone silent."""
    go = threading.Event()
    origin = stage.origin(Origin({"/a": held_back(go, whole(200, KEPT, content=b"hello"))}))
    proxy = stage.proxy(options=["--origin-timeout", str(SHORT), "--client-timeout", str(SHORT)])
    waiting, idle = proxy.client(), proxy.client()
    waiting.send(request("/a"))
    origin.wait_for(1)
    # (the server has come to wait: the signal that halts it ends that wait too, with no word of what is ready)
    time.sleep(0.5)
    proxy.process.send_signal(signal.SIGSTOP)
    go.set()
    idle.send(request("/a"))
    time.sleep(SHORT + 2)
    proxy.process.send_signal(signal.SIGCONT)
    expect_answer(waiting.response(), 200, "edge;fwd=uri-miss;ttl=600;stored", b"hello")
    expect("status for the other client", 200, idle.response().status)


@scenario
def stale_is_sent_for_a_failed_origin(stage):
    """RFC 5861, 4: a stale response in place of a time-out, of a closed link and of a 503."""
    lines = ["Cache-Control: max-age=0, stale-if-error=600", 'ETag: "v1"']
    answers = {f"/{it}": whole(200, *lines, content=b"hello") for it in ("silent", "closed", "error")}
    origin = stage.origin(Origin(dict(answers)))
    client = stage.proxy(options=["--origin-timeout", str(SHORT)]).client()
    for it in answers:
        expect_answer(client.ask(it), 200, "edge;fwd=uri-miss;ttl=0;stored", b"hello")
    origin.answers.update({"/silent": silent, "/closed": ends, "/error": whole(503)})
    for it, detail in (("/closed", ""), ("/error", ";fwd-status=503"), ("/silent", "")):
        answer = client.ask(it)
        expect_answer(answer, 200, f"edge;fwd=stale{detail};ttl={-int(answer.value('Age'))};detail=stale-if-error", b"hello")


@scenario
def a_refused_connection_is_502(stage):
    """RFC 9110, 15.6.3. Nobody listens at the origin's address."""
    # (behind the third it counts as silent, which is warned of when the second is over)
    stage.lines = range(2)
    refusing = stage.origin(Refusing())
    client = stage.proxy(refusing.address).client()
    for _ in range(3):
        expect_refusal(client.ask("/a"), 502, "origin refused;fwd=uri-miss")
    expect_refusal(client.ask("/a", method="POST", content=b"x"), 502, "origin refused;fwd=method")


@scenario
def an_origin_with_a_full_queue_times_out(stage):
    """A connect that hangs has a time-out of its own; nobody else waits for it."""
    full = stage.origin(FullQueue())
    good = stage.origin(Origin({"/a": whole(200, KEPT, content=b"hello")}))
    lines = ("/full", ["*"], full.address), ("/", ["*"], good.address)
    proxy = stage.proxy(*lines, options=["--connect-timeout", str(SHORT), "--origin-timeout", "1"])
    waiting, other = proxy.client(), proxy.client()
    began = time.monotonic()
    waiting.send(request("/full"))
    time.sleep(0.1)
    answer, seconds = timed(other, "/a")
    expect_answer(answer, 200, "edge;fwd=uri-miss;ttl=600;stored", b"hello")
    expect_within("another client's answer", 0, AT_ONCE, seconds)
    expect_refusal(waiting.response(), 504, "origin timed-out;fwd=uri-miss")
    expect_within("504", SHORT, LATEST, time.monotonic() - began)


@scenario
def an_answer_that_is_cut_off_is_502(stage):
    """RFC 9112, 8: an incomplete response is told apart from a whole one, and isn't stored."""
    head, chunked = head_of(200, [KEPT, "Content-Length: 5"]), head_of(200, [KEPT, "Transfer-Encoding: chunked"])
    reset = lambda fetch: fetch.reset()
    answers = {
        "/before": ends,
        "/head": raw(head[:30], ends),
        "/content": raw(head + b"hel", ends),
        "/chunk": raw(chunked + b"5\r\nhel", ends),
        "/last": raw(chunked + b"5\r\nhello\r\n0\r\n", ends),
        "/reset": reset,
        "/reset_inside": raw(head + b"hel", reset),
    }
    origin = stage.origin(Origin(dict(answers)))
    client = stage.proxy().client()
    for it in answers:
        expect_refusal(client.ask(it), 502, "origin closed;fwd=uri-miss")
    origin.answers.update({it: whole(200, content=b"hello") for it in answers})
    for it in answers:
        expect_answer(client.ask(it), 200, "edge;fwd=uri-miss", b"hello")


@scenario
def an_end_that_comes_with_data_is_read(stage):
    """A server that was halted for a while finds an origin's answer and its end, and a client's request and its end, in one: it reads both.
    An answer without a length is whole then, one that lacks a part is 502, and the client is let go behind its answer."""
    go, head = threading.Event(), head_of(200, [KEPT])
    parts = {"/whole": head + b"hello", "/part": head_of(200, [KEPT, "Content-Length: 6"]) + b"hello"}
    origin = stage.origin(Origin({path: held_back(go, raw(text, ends)) for path, text in parts.items()} | {"/a": whole(200, KEPT, content=b"a")}))
    proxy = stage.proxy()
    waiting, leaving = [proxy.client() for _ in parts], proxy.client()
    expect_answer(leaving.ask("/a"), 200, "edge;fwd=uri-miss;ttl=600;stored", b"a")
    for it, path in zip(waiting, parts):
        it.send(request(path))
    origin.wait_for(3)
    proxy.wait_until_quiet()
    proxy.process.send_signal(signal.SIGSTOP)
    go.set()
    leaving.send(request("/a"))
    leaving.half_close()
    time.sleep(0.5)
    proxy.process.send_signal(signal.SIGCONT)
    expect_answer(waiting[0].response(), 200, "edge;fwd=uri-miss;ttl=600;stored", b"hello")
    expect_refusal(waiting[1].response(), 502, "origin closed;fwd=uri-miss")
    expect_answer(leaving.response(), 200, "edge;hit;ttl=600", b"a")
    expect("the connection closed", True, leaving.is_closed())


@scenario
def an_answer_that_is_none_is_502(stage):
    """RFC 9112, 6.3: what can't be framed is a bad answer; contents above max_body aren't passed on."""
    answers = {
        "/lengths": (raw(head_of(200, ["Content-Length: 5", "Transfer-Encoding: chunked"]) + b"hello"), "bad-answer"),
        "/status": (raw(head_of(999, []) + b"hello", ends), "bad-answer"),
        "/text": (raw(b"hello\r\n\r\n", ends), "bad-answer"),
        "/unasked": (whole(304, 'ETag: "v1"'), "bad-answer"),
        "/large": (raw(head_of(200, ["Content-Length: 1000001"])), "too-large"),
        "/endless": (raw(head_of(200, []) + b"x" * 1000001), "too-large"),
    }
    stage.origin(Origin({path: answer for path, (answer, _) in answers.items()}))
    client = stage.proxy().client()
    for path, (_, word) in answers.items():
        expect_refusal(client.ask(path), 502, f"origin {word};fwd=uri-miss")


@scenario
def interim_answers_are_passed_over(stage):
    """RFC 9110, 15.2: any number of interim responses may come before the final one."""
    early = b"HTTP/1.1 103 Early Hints\r\nLink: </a.css>\r\n\r\nHTTP/1.1 100 Continue\r\n\r\n"
    stage.origin(Origin({"/a": raw(early + head_of(200, ["Content-Length: 5"]) + b"hello")}))
    expect_answer(stage.proxy().client().ask("/a"), 200, "edge;fwd=uri-miss", b"hello")


@scenario
def an_origin_that_answers_byte_by_byte(stage):
    """A response that comes a byte at a time is the same response."""
    text = head_of(200, [KEPT, "Content-Length: 5"]) + b"hello" + b"and more"
    stage.origin(Origin({"/a": byte_by_byte(text[:-8], 0.002), "/more": raw(text)}))
    client = stage.proxy().client()
    expect_answer(client.ask("/a"), 200, "edge;fwd=uri-miss;ttl=600;stored", b"hello")
    expect_answer(client.ask("/a"), 200, "edge;hit;ttl=600", b"hello")
    expect_answer(client.ask("/more"), 200, "edge;fwd=uri-miss;ttl=600;stored", b"hello")


@scenario
def a_client_that_leaves_costs_its_answer_alone(stage):
    """What a client asked for before it closed is stored for the next one; what it began to ask is forgotten."""
    go = threading.Event()
    origin = stage.origin(Origin({"/a": held_back(go, whole(200, KEPT, content=b"hello" * 20000))}))
    proxy = stage.proxy()
    for reset in (False, True):
        half = proxy.client()
        half.send(request("/a")[:-2])
        half.leave(reset)
    waiting = proxy.client()
    waiting.send(request("/a"))
    origin.wait_for(1)
    waiting.leave()
    time.sleep(0.1)
    go.set()
    expect("the link's end at the origin", True, origin.fetches[0].is_over.wait(LATEST))
    expect_answer(proxy.client().ask("/a"), 200, "edge;hit;ttl=600", b"hello" * 20000)
    expect("requests at the origin", 1, len(origin.fetches))


@scenario
def a_client_that_is_cut_off_frees_its_link(stage):
    """A reset tells that nobody waits any more: the exchange is given up before the origin has answered."""
    origin = stage.origin(Origin({"/silent": silent, "/a": whole(200, KEPT, content=b"hello")}))
    proxy = stage.proxy()
    for i in range(5):
        waiting = proxy.client()
        waiting.send(request("/silent"))
        origin.wait_for(i + 1)
        waiting.leave(reset=True)
        expect("the link's end at the origin", True, origin.fetches[i].is_over.wait(LATEST))
    expect_answer(proxy.client().ask("/a"), 200, "edge;fwd=uri-miss;ttl=600;stored", b"hello")


@scenario
def a_client_that_leaves_amid_an_answer(stage):
    """A reset in the middle of an answer ends that connection and no other."""
    stage.origin(Origin({"/a": whole(200, KEPT, content=b"x" * 100000)}))
    proxy = stage.proxy()
    proxy.client().ask("/a")
    for _ in range(3):
        leaving = proxy.client()
        leaving.send(request("/a") * 50)
        leaving.read_some(1000)
        leaving.leave(reset=True)
        expect_answer(proxy.client().ask("/a"), 200, "edge;hit;ttl=600", b"x" * 100000)


@scenario
def a_post_over_max_body_gets_its_413(stage):
    """RFC 9110, 15.5.14, and RFC 9112, 9.6: the refusal reaches a client that is still sending, ten times of ten."""
    origin = stage.origin(Origin({}))
    proxy = stage.proxy()
    content = b"x" * 3000000
    chunks = b"%x\r\n%s\r\n0\r\n\r\n" % (len(content), content)
    for _ in range(5):
        for data in (request("/a", method="POST", content=content), request("/a", "Transfer-Encoding: chunked", method="POST") + chunks):
            client = proxy.client()
            client.send(data)
            answer = client.response()
            expect_refusal(answer, 413, "refused: too-large")
            expect("Connection, and the connection closed", ("close", True), (answer.value("Connection"), client.is_closed()))
    expect("requests at the origin", 0, len(origin.fetches))


@scenario
def an_idle_client_is_let_go(stage):
    """After the clients' time-out an idle connection is closed; one that waits for its answer isn't idle."""
    stage.origin(Origin({"/a": lambda fetch: (time.sleep(SHORT + 2), whole(200, KEPT, content=b"hello")(fetch))}))
    proxy = stage.proxy(options=["--client-timeout", str(SHORT)])
    began = time.monotonic()
    waiting, idle, half = proxy.client(), proxy.client(), proxy.client()
    waiting.send(request("/a"))
    half.send(request("/a")[:20])
    for it in (idle, half):
        expect("the idle connection closed", True, it.is_closed())
        expect_within("the idle connection's end", SHORT, LATEST, time.monotonic() - began)
    expect_answer(waiting.response(), 200, "edge;fwd=uri-miss;ttl=600;stored", b"hello")
    expect_member("edge;hit;ttl=600", waiting.ask("/a"))
