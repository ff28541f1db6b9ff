"""Scenarios of a listening socket that a supervisor keeps and hands on: who connects while one program ends and the next begins is served."""
import os
import socket
import sys
import threading
import time

from live.client import PATIENCE, request
from live.ending import DRAINED, put
from live.expect import expect, expect_within
from live.origin import Origin, whole
from live.programs import expect_ended, run
from live.proxy import Proxy, table_of
from live.scenario import KEPT, scenario
from shared.sockets import received

# How long one request may wait behind a change of the table, in seconds, and how many are asked in one. (A quiet machine needs 0.02; under the gate
# two processors may have other work. What the machine itself stood still, and packets that the system sent again, count apart.)
LONGEST, RATE = 2.0, 200
# A packet that opens a connection is sent again after a second.
SENT_AGAIN = 1.0
# Where struct tcp_info has how many packets were sent again (linux/tcp.h: tcpi_total_retrans).
TOTAL_RETRANS = 100


class Supervisor:
    """Keeps a listening socket, and starts one program after another over it, each with a table of its own."""

    def __init__(self, stage, options=()):
        self.stage, self.drain, self.options = stage, f"{stage.room.name}/drain", options
        self.socket = socket.create_server(("127.0.0.1", 0), backlog=1024)
        self.port, self.program = self.socket.getsockname()[1], None

    def start(self, text):
        fd = self.socket.fileno()
        options = ["--drain", self.drain, *self.options]
        self.program = Proxy(self.stage.program, self.stage.room.name, text, None, options, f"fd:{fd}", records=False, handed_on=(fd,))
        self.stage.proxies.append(self.program)
        expect("the port that it says", self.port, self.program.port)

    def end(self):
        """Ends the program as OPERATIONS says, by its file."""
        put(self.drain)
        try:
            expect("status, output and standard error", DRAINED, self.program.wait())
        finally:
            os.remove(self.drain)

    def change(self, text):
        self.end()
        self.start(text)


def ask(port, target):
    """One request on a connection of its own: what came, and after how many seconds, but for those in which the system waited to send again."""
    began = time.monotonic()
    with socket.create_connection(("127.0.0.1", port), timeout=PATIENCE) as it:
        it.sendall(request(target, "Connection: close"))
        got = b""
        for piece in received(it, 65536):
            got += piece
        info = it.getsockopt(socket.IPPROTO_TCP, socket.TCP_INFO, TOTAL_RETRANS + 4)
    again = int.from_bytes(info[TOTAL_RETRANS:], sys.byteorder)
    return got, time.monotonic() - began - again * SENT_AGAIN


@scenario
def who_comes_between_two_programs_is_served(stage):
    """`--listen fd:N`: connections that come before the program begins, and between one program and the next, wait and are served."""
    stage.origin(Origin({"/a": whole(200, KEPT, content=b"hello")}))
    supervisor, text = Supervisor(stage), table_of([stage.origins[0].address])
    for _ in range(3):
        early = [socket.create_connection(("127.0.0.1", supervisor.port), timeout=PATIENCE) for _ in range(10)]
        for it in early:
            it.sendall(request("/a", "Connection: close"))
        supervisor.start(text)
        for it in early:
            got = b""
            for piece in received(it, 65536):
                got += piece
            it.close()
            expect("an answer", (True, True), (got.startswith(b"HTTP/1.1 200 "), got.endswith(b"hello")))
        supervisor.end()
    supervisor.socket.close()


class Askers:
    """Ask for targets in turn, ten side by side, until they are ended; and see meanwhile how long the machine stands still."""

    def __init__(self, port, targets):
        self.port, self.targets, self.found, self.stood, self.ends = port, targets, [], [], threading.Event()
        self.threads = [threading.Thread(target=self.ask_on, args=[number], daemon=True) for number in range(10)]
        self.threads.append(threading.Thread(target=self.look_at_the_clock, daemon=True))

    def __enter__(self):
        for it in self.threads:
            it.start()
        return self

    def __exit__(self, *_):
        self.ends.set()
        for it in self.threads:
            it.join()

    def ask_on(self, number):
        while not self.ends.is_set():
            self.ask(self.targets[number % len(self.targets)])
            time.sleep(10 / RATE)

    def ask(self, target):
        try:
            self.found.append(ask(self.port, target))
        except OSError as fault:
            self.found.append((repr(fault).encode(), 0))

    def look_at_the_clock(self):
        while not self.ends.is_set():
            began = time.monotonic()
            time.sleep(0.01)
            self.stood.append(time.monotonic() - began - 0.01)


def expect_none_fails(supervisor, tables, targets, changes):
    """While the table changes so often, from one to the next, these targets are asked for: each is answered, by the old table or the new one,
    within a second."""
    supervisor.start(tables[0])
    with Askers(supervisor.port, targets) as askers:
        for number in range(changes):
            # (what has answered has looked for its drain file: what is put there now wasn't left from before)
            askers.ask(targets[0])
            time.sleep(0.5)
            supervisor.change(tables[(number + 1) % len(tables)])
        askers.ask(targets[0])
        time.sleep(0.5)
    supervisor.end()
    supervisor.socket.close()
    failed = [got for got, _ in askers.found if not (got.startswith(b"HTTP/1.1 200 ") and got.endswith(b"hello"))]
    expect("requests that failed", [], failed)
    expect("that many were asked", True, len(askers.found) > 100)
    # (a change may meet a machine that stands still at each of its three steps: the end, the start, and the answer)
    expect_within("the longest wait", 0, LONGEST + 3 * max(askers.stood), max(seconds for _, seconds in askers.found))


def two_tables(stage):
    """Two tables that send `/` to one origin."""
    address = stage.origins[0].address
    return [table_of([("/none", ["*"], "deny"), ("/", ["*"], address)]), table_of([address])]


@scenario
def no_request_fails_while_the_table_changes(stage):
    """Two hundred requests a second, and five changes of the table."""
    stage.origin(Origin({"/a": whole(200, KEPT, content=b"hello")}))
    expect_none_fails(Supervisor(stage), two_tables(stage), ["/a"], 5)


@scenario
def no_hit_is_lost_while_the_table_changes(stage):
    """The same with `--store` and twenty changes: each target is fetched once in all."""
    targets = [f"/{it}" for it in "abcde"]
    origin = stage.origin(Origin({it: whole(200, KEPT, content=b"hello") for it in targets}))
    expect_none_fails(Supervisor(stage, ["--store", f"{stage.room.name}/store"]), two_tables(stage), targets, 20)
    expect("fetches", [("GET", it) for it in targets], sorted((it.method, it.target) for it in origin.fetches))


@scenario
def what_is_no_listener_is_refused(stage):
    """`--listen fd:N` with what is no listening TCP socket over IPv4: a sentence, and status 1; nothing is served."""
    file, room = f"{stage.room.name}/table.toml", stage.room.name
    with open(file, "w", encoding="utf-8") as it:
        it.write(table_of(["127.0.0.1:1"]))
    listener = socket.create_server(("127.0.0.1", 0))
    connected = socket.create_connection(listener.getsockname())
    taken = listener.accept()[0]
    local = socket.socket(socket.AF_UNIX)
    local.bind(f"{room}/socket")
    local.listen()
    datagrams = socket.socket(socket.AF_INET, socket.SOCK_DGRAM)
    datagrams.bind(("127.0.0.1", 0))
    unbound = socket.socket()
    wide = listener_of_ipv6()
    with open(file, "rb") as plain:
        for it in (plain, connected, taken, local, datagrams, unbound, *wide):
            words = [stage.program, "serve", file, "--listen", f"fd:{it.fileno()}", "--turns", "1"]
            status, out, err = run(stage, *words[1:], handed_on=(it.fileno(),))
            expect(f"of {it} status and standard error", (1, "socket fault\n"), (status, err))
            named = f"fd:{it.fileno()} is no TCP socket over IPv4 that was bound and listens: "
            expect("on standard output", True, out.startswith(named))
    expect_ended(stage, ["serve", file, "--listen", "fd:99", "--turns", "1"], (1, "socket fault\n"), "fd:99 is no TCP socket over IPv4")
    for it in (listener, connected, taken, local, datagrams, unbound, *wide):
        it.close()


def listener_of_ipv6():
    """One, or none where the machine has no IPv6."""
    try:
        return [socket.create_server(("::1", 0), family=socket.AF_INET6)]
    except OSError:
        return []
