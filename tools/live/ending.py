"""Scenarios of a server's end and of its files: it is drained, its log is moved away, its record is never written over another."""
import os
import subprocess
import threading
import time

from live.client import PATIENCE, Said, request
from live.expect import Unexpected, expect, expect_answer, expect_within
from live.logs import lines_of, without_ttl
from live.origin import Origin, held_back, silent, whole
from live.proxy import BOUNDS, LISTENING, WARNING, table_of
from live.record import compare_clients, replay
from live.scenario import KEPT, LATEST, scenario
from live.staying import HIT, STORED

# How a server ends that was drained: its status, its output, and what it says behind its first line.
DRAINED = 0, b"", "draining\n"


def drained_by(stage, *options):
    """A proxy, and the file whose being there drains it."""
    file = f"{stage.room.name}/drain"
    return stage.proxy(options=["--drain", file, *options]), file


def put(path):
    with open(path, "wb"):
        pass


def is_refused(proxy):
    """Whether a new connection is refused, or ends without an answer, or gets none in a second."""
    try:
        client = proxy.client()
    except OSError:
        return True
    # (it is no part of what is compared: nothing may come)
    client.has_left = True
    try:
        client.send(request("/a"))
        return client.has_nothing_to_read(1) or not client.socket.recv(1)
    except OSError:
        return True
    finally:
        client.socket.close()


def is_soon_refused(proxy):
    """The same within two seconds: who comes while the listener's queue is emptied is still served."""
    deadline = time.monotonic() + 2
    while not is_refused(proxy):
        if time.monotonic() > deadline:
            return False
        time.sleep(0.1)
    return True


@scenario
def a_drain_file_that_was_left_is_told(stage):
    """The file of `--drain` is there at the start: the server ends at once, and says which file that is."""
    file = f"{stage.room.name}/drain"
    put(file)
    proxy = stage.proxy_of(table_of(["127.0.0.1:1"]), None, ["--drain", file])
    told = f"draining\nwarning: {file} was there at the start, so it ends at once: remove that file before a start\n"
    expect("its end", (0, b"", told), proxy.wait())


@scenario
def a_drained_server_ends_in_order(stage):
    """`--drain FILE`: once it is there no connection is taken and what is idle is closed; an answer that is on its way, and one
    that waits for it, come whole; then the server ends with status 0."""
    go, text = threading.Event(), b"late" * 20000
    answers = {"/late": held_back(go, whole(200, KEPT, content=text)), "/a": whole(200, KEPT, content=b"hello")}
    origin = stage.origin(Origin(answers))
    proxy, file = drained_by(stage, "--drain-timeout", "15")
    kept, silent_one, half = proxy.client(), proxy.client(), proxy.client()
    expect_answer(kept.ask("/a"), 200, STORED, b"hello")
    half.send(request("/a")[:20])
    time.sleep(2)
    idle, first, second = proxy.client(), proxy.client(), proxy.client()
    expect_answer(idle.ask("/a"), 200, HIT, b"hello")
    first.send(request("/late"))
    origin.wait_for(2)
    second.send(request("/late"))
    time.sleep(0.3)
    put(file)
    began = time.monotonic()
    for it in (kept, silent_one, idle):
        expect("an idle connection closed", True, it.is_closed(5))
    expect_within("the idle connections' ends", 0, 5, time.monotonic() - began)
    expect("a new connection refused", True, is_soon_refused(proxy))
    expect("the program's status while answers are due", None, proxy.process.poll())
    half.send(request("/a")[20:])
    go.set()
    for it, member in ((first, STORED), (second, STORED.replace("stored", "collapsed"))):
        expect_answer(it.response(), 200, member, text)
        expect("the connection closed", True, it.is_closed())
    half.drain()
    expect("status, output and standard error", DRAINED, proxy.wait())
    expect("a new connection refused", True, is_refused(proxy))
    proxy.compare([origin])


@scenario
def a_drained_server_sends_what_is_unsent(stage):
    """A client that reads slowly has the rest of its answer before the server ends."""
    text = bytes(i * 7 % 251 for i in range(12000000))
    origin = stage.origin(Origin({"/a": whole(200, KEPT, content=text)}))
    file = f"{stage.room.name}/drain"
    proxy = stage.proxy(options=["--drain", file, "--drain-timeout", "15"], max_body=16 << 20, max_stored=16 << 20)
    slow = proxy.client(window=8192)
    slow.send(request("/a"))
    origin.wait_for(1)
    time.sleep(0.5)
    put(file)
    time.sleep(2.5)
    expect("the program's status while bytes wait", None, proxy.process.poll())
    slow.open_window()
    if slow.response().content != text:
        raise Unexpected("content", "as the origin sent it", "another one")
    expect("the connection closed", True, slow.is_closed())
    expect("status, output and standard error", DRAINED, proxy.wait())
    proxy.compare([origin])


@scenario
def a_drained_server_answers_what_was_sent_ahead(stage):
    """Of two clients that sent four requests at once and read slowly one has done so for a while when the drain begins, the other just
    has: the request of each that was begun is answered as ever, the next one is the last, and says so, and what stands behind it isn't
    read (RFC 9112, section 9.6)."""
    text = bytes(i * 7 % 251 for i in range(2000000))
    origin = stage.origin(Origin({"/a": whole(200, KEPT, content=text)}))
    file = f"{stage.room.name}/drain"
    proxy = stage.proxy(options=["--drain", file, "--drain-timeout", "15"], max_body=16 << 20, max_stored=16 << 20)
    clients = [proxy.client(window=8192)]
    clients[0].send(request("/a") * 4)
    time.sleep(2.5)
    clients.append(proxy.client(window=8192))
    clients[1].send(request("/a") * 4)
    time.sleep(0.3)
    put(file)
    time.sleep(2.5)
    expect("the program's status while requests wait", None, proxy.process.poll())
    for it in clients:
        it.open_window()
        answers = [it.response() for _ in range(2)]
        if [answer.content for answer in answers] != [text] * 2:
            raise Unexpected("contents", "as the origin sent them", "others")
        expect("Connection of both", [None, "close"], [answer.value("Connection") for answer in answers])
        expect("the connection closed", True, it.is_closed())
    expect("status, output and standard error", DRAINED, proxy.wait())
    proxy.compare([origin])


@scenario
def a_drain_ends_in_time(stage):
    """`--drain-timeout`: an exchange that has no end is cut then, and the status is 0 all the same."""
    origin = stage.origin(Origin({"/silent": silent}))
    proxy, file = drained_by(stage, "--drain-timeout", "2")
    client = proxy.client()
    client.send(request("/silent"))
    origin.wait_for(1)
    put(file)
    began = time.monotonic()
    expect("status, output and standard error", DRAINED, proxy.wait())
    expect_within("the program's end", 1.5, LATEST, time.monotonic() - began)
    proxy.compare([origin])


@scenario
def an_idle_server_is_drained_at_once(stage):
    """Nothing is open: it ends within a second or two, with status 0. Its port is free."""
    origin = stage.origin(Origin({"/a": whole(200, KEPT, content=b"hello")}))
    proxy, file = drained_by(stage)
    expect_answer(proxy.client().ask("/a"), 200, STORED, b"hello")
    put(file)
    began = time.monotonic()
    expect("status, output and standard error", DRAINED, proxy.wait())
    expect_within("the program's end", 0, 5, time.monotonic() - began)
    proxy.compare([origin])
    os.remove(file)
    origin.fetches.clear()
    again = stage.proxy(listen=f"127.0.0.1:{proxy.port}")
    expect_answer(again.client().ask("/a"), 200, STORED, b"hello")


@scenario
def a_drain_file_out_of_sight_ends_nothing(stage):
    """Where the file system can't tell whether the file of `--drain` is there, the server goes on."""
    stage.origin(Origin({"/a": whole(200, KEPT, content=b"hello")}))
    file = f"{stage.room.name}/no-folder"
    put(file)
    proxy = stage.proxy(options=["--drain", f"{file}/drain"])
    expect_answer(proxy.client().ask("/a"), 200, STORED, b"hello")
    # It looks each second.
    time.sleep(2.5)
    expect_answer(proxy.client().ask("/a"), 200, HIT, b"hello")


@scenario
def a_log_is_opened_anew(stage):
    """The log is moved away: soon lines go to a new file of its name, and none is lost meanwhile. The same where it is removed."""
    stage.origin(Origin({"/a": whole(200, KEPT, content=b"hello")}))
    log, moved = f"{stage.room.name}/log", f"{stage.room.name}/log.1"
    client = stage.proxy(options=["--log", log]).client()
    client.ask("/a")
    lines_of(log, 1)
    os.rename(log, moved)
    asked, began = 1, time.monotonic()
    while not os.path.exists(log) and time.monotonic() - began < LATEST:
        client.ask("/a")
        asked += 1
        time.sleep(0.1)
    client.ask("/a")
    time.sleep(0.2)
    expect("lines of both files", asked + 1, count_of(moved) + count_of(log))
    os.remove(log)
    while not os.path.exists(log) and time.monotonic() - began < 2 * LATEST:
        time.sleep(0.1)
    client.ask("/a")
    words = lines_of(log, 1)[0]
    expect("its line", ["GET", "http://h/a", "200", "5", "hit;ttl="], [*words[2:6], without_ttl(words[6])])


def count_of(path):
    with open(path, "rb") as it:
        return it.read().count(b"\n")


@scenario
def a_record_is_never_written_over(stage):
    """`--record` with the name of a file that is there: the server doesn't start, says on standard output why, and leaves the file."""
    file, record = f"{stage.room.name}/table.toml", f"{stage.room.name}/incident"
    with open(file, "w", encoding="utf-8") as it:
        it.write(table_of(["127.0.0.1:1"]))
    with open(record, "wb") as it:
        it.write(b"what happened")
    words = [stage.program, "serve", file, "--listen", "127.0.0.1:0", "--turns", "1", "--record", record]
    ran = subprocess.run(words, stdin=subprocess.DEVNULL, capture_output=True, timeout=PATIENCE)
    said = [it for it in ran.stderr.decode().splitlines() if not it.startswith((LISTENING, BOUNDS, WARNING))]
    expect("status and lines on standard error", (1, ["write fault"]), (ran.returncode, said))
    expect("on standard output", True, f"the record {record} is never written over: take another name, or %s" in ran.stdout.decode())
    with open(record, "rb") as it:
        expect("the file that was there", b"what happened", it.read())


@scenario
def other_bytes_than_the_replay_has_are_refused(stage):
    """The comparison itself: of clients that had two answers each, one with a byte changed, without its last answer, with one
    more, with its answers in another order or with another client's, one that has another's requests, and one that nobody counts, are
    all told."""
    origin = stage.origin(Origin({f"/{i}": whole(200, KEPT, content=b"hello %d" % i) for i in range(4)}))
    proxy = stage.proxy()
    clients, ends = [proxy.client() for _ in range(3)], {}
    for target in (0, 1):
        for i, it in enumerate(clients):
            it.ask(f"/{i + target}")
            ends[i, target] = it.at
    proxy.stop(0)
    proxy.compare([origin])
    effects, got = replay(proxy.program, proxy.record), [bytes(it.received) for it in clients]
    first, second = got[0][: ends[0, 0]], got[0][ends[0, 0] :]
    for wrong in (
        [first.replace(b"hello 0", b"hello 9") + second, *got[1:]],
        [first, *got[1:]],
        [first + second + second, *got[1:]],
        [second + first, *got[1:]],
        [got[1], got[0], got[2]],
        got[:2],
    ):
        seen = [Said(i + 1, text) for i, text in enumerate(wrong)]
        for it, client in zip(seen, clients):
            it.sent = client.sent
        try:
            compare_clients(proxy.record, effects, seen, False)
        except Unexpected:
            continue
        raise Unexpected("from a comparison with other bytes", "that they are told", "nothing")


@scenario
def a_record_is_named_by_its_start(stage):
    """`%s` in the name is the moment of the start in Unix seconds, so that each start has a record of its own."""
    stage.origin(Origin({"/a": whole(200, KEPT, content=b"hello")}))
    names = []
    for _ in range(2):
        before = int(time.time())
        proxy = stage.proxy(options=["--record", f"{stage.room.name}/incident-%s"], records=False)
        after = int(time.time())
        expect_answer(proxy.client().ask("/a"), 200, STORED, b"hello")
        found = [it for it in os.listdir(stage.room.name) if it.startswith("incident-") and it not in names]
        expect("a record by its moment", True, found in [[f"incident-{it}"] for it in range(before, after + 1)])
        names += found
        proxy.stop(0)
        proxy.record = f"{stage.room.name}/{found[0]}"
        proxy.compare([])
        time.sleep(1.1)


class Busy(threading.Thread):
    """A client that asks again and again on one connection, until an answer says that it closes: how many answers it got, and when
    the last one came."""

    def __init__(self, client, pause):
        super().__init__()
        self.client, self.pause, self.answers, self.ended, self.fault = client, pause, 0, None, None

    def run(self):
        try:
            while self.ended is None:
                answer = self.client.ask("/a")
                expect_answer(answer, 200, HIT, b"hello")
                self.answers += 1
                if answer.value("Connection") == "close":
                    self.ended = time.monotonic()
                else:
                    time.sleep(self.pause)
            expect("the connection closed", True, self.client.is_closed())
        except (OSError, Unexpected) as fault:
            self.fault = fault


def busy_clients_are_told(stage, pauses, records):
    """Clients that ask on and on, each with a pause of its own behind each answer: behind the drain's beginning each is told by its next
    answer that its connection ends, and none fails."""
    origin = stage.origin(Origin({"/a": whole(200, KEPT, content=b"hello")}))
    file = f"{stage.room.name}/drain"
    proxy = stage.proxy(options=["--drain", file, "--drain-timeout", "20"], records=records)
    expect_answer(proxy.client().ask("/a"), 200, STORED, b"hello")
    clients = [Busy(proxy.client(), pause) for pause in pauses]
    for it in clients:
        it.start()
    time.sleep(1.5)
    put(file)
    began = time.monotonic()
    for it in clients:
        it.join()
    expect("faults", [], [str(it.fault) for it in clients if it.fault])
    expect("that each had answers before", True, all(it.answers > 1 for it in clients))
    # (the file is looked for once a second)
    expect_within("the last answers", 0, 3, max(it.ended for it in clients) - began)
    expect("status, output and standard error", DRAINED, proxy.wait())
    expect_within("the program's end", 0, 5, time.monotonic() - began)
    if records:
        proxy.compare([origin])


@scenario
def a_drain_tells_busy_clients(stage):
    """Sixteen clients that ask without a pause, or every tenth of a second, when the drain begins: the next answer of each says
    `Connection: close`, none fails, and the program ends within seconds. So it is while a record is written, and it replays."""
    busy_clients_are_told(stage, [0, 0.1] * 8, True)


@scenario
def a_drain_without_a_record_tells_busy_clients(stage):
    """The same where a turn takes many things."""
    busy_clients_are_told(stage, [0, 0.01, 0.1, 0.4] * 4, False)
