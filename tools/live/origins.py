"""Scenarios of the origin that a reply is said to be of, in the log and in the figures: links to several fail at once, and clients leave."""
import signal
import threading
import time

from live.client import request
from live.expect import expect, expect_refusal
from live.figures import figures_with, of
from live.logs import address_of, lines_of, words_of
from live.origin import Fetch, Origin, Refusing, held_back, silent
from live.scenario import LATEST, SHORT, scenario


class Three:
    """A program before three origins, one for each of /a, /b and /c, which say nothing until they break off; the log and the figures are
    kept."""

    def __init__(self, stage, *options, records=True):
        self.stage = stage
        self.log, self.file = f"{stage.room.name}/log", f"{stage.room.name}/figures"
        self.origins = {name: stage.origin(Origin({})) for name in "abc"}
        self.breaks = {}
        lines = [(f"/{name}", ["*"], it.address) for name, it in self.origins.items()]
        self.proxy = stage.proxy(*lines, options=["--log", self.log, "--stats", self.file, *options], records=records)

    def waiting(self, names):
        """Clients, each of which waits for the origin of one of these paths."""
        clients, before = [], {name: len(it.fetches) for name, it in self.origins.items()}
        for name in names:
            self.breaks[name] = threading.Event()
            self.origins[name].answers = {f"/{name}": held_back(self.breaks[name], Fetch.reset)}
        for name in names:
            client = self.proxy.client()
            # (a collapsed request has no link of its own)
            client.send(request(f"/{name}?{len(clients)}"))
            clients.append(client)
            before[name] += 1
            self.origins[name].wait_for(before[name])
        # (the server has come to wait)
        time.sleep(0.5)
        return clients

    def break_off(self, names):
        for name in names:
            self.breaks[name].set()

    def halted(self, do, seconds=0.5):
        """Has the program halted by the system while something is done: it sees all of it between two turns."""
        self.proxy.process.send_signal(signal.SIGSTOP)
        do()
        time.sleep(seconds)
        self.proxy.process.send_signal(signal.SIGCONT)

    def expect_told(self, client, status, refusal, name):
        """A reply, and the origin of its line: that of a path, or none."""
        expect_refusal(client.response(), status, refusal)
        deadline = time.monotonic() + LATEST
        while not (asked := [words[-1] for words in self.lines() if words[1] == address_of(client)]):
            expect("a line of the log in time", True, time.monotonic() < deadline)
            time.sleep(0.05)
        expect("the origin that was asked", [self.origins[name].address if name else "-"], asked)

    def lines(self):
        with open(self.log, encoding="ascii") as it:
            return [words_of(one) for one in it.read().splitlines()]

    def expect_failures(self, kind, counts):
        """How often each of these origins has failed, in the figures."""
        for name, count in counts.items():
            figures_with(self.file, of("origin_failures_total", origin=self.origins[name].address, kind=kind), count)


@scenario
def failures_of_several_origins_at_once(stage):
    """Three origins break off between two turns: each reply is of its own."""
    it = Three(stage, records=False)
    clients = it.waiting("abc")
    it.halted(lambda: it.break_off("abc"))
    for client, name in zip(clients, "abc"):
        it.expect_told(client, 502, "origin closed;fwd=uri-miss", name)
    it.expect_failures("closed", {"a": 1, "b": 1, "c": 1})


@scenario
def failures_at_once_and_a_client_that_leaves(stage):
    """Three origins are silent for too long, and a client has left, between two turns: each reply is of its own origin."""
    # (what b left unanswered adds up to an origin that counts as silent, of which a warning may come in time or not)
    it = Three(stage, "--origin-timeout", str(SHORT), "--origin-probe", "off", records=False)
    clients = it.waiting("abc")
    it.halted(lambda: clients[1].leave(reset=True), SHORT + 2)
    for client, name in ((clients[0], "a"), (clients[2], "c")):
        it.expect_told(client, 504, "origin timed-out;fwd=uri-miss", name)
    clients = it.waiting("bbb")
    it.halted(lambda: clients[1].leave(reset=True), SHORT + 2)
    for client in (clients[0], clients[2]):
        it.expect_told(client, 504, "origin timed-out;fwd=uri-miss", "b")
    it.expect_failures("timed-out", {"a": 1, "b": 2, "c": 1})


@scenario
def a_link_that_was_dropped_for_its_client_is_no_reply_s(stage):
    """A client leaves while its origin is silent, and others fail then, or later: their replies aren't of the origin that nobody waited for."""
    it = Three(stage, records=False)
    clients = it.waiting("abc")
    it.halted(lambda: (clients[1].leave(reset=True), it.break_off("ac")))
    it.expect_told(clients[0], 502, "origin closed;fwd=uri-miss", "a")
    it.expect_told(clients[2], 502, "origin closed;fwd=uri-miss", "c")
    left, stays = it.waiting("ab")
    left.leave(reset=True)
    figures_with(it.file, of("origin_exchanges", origin=it.origins["a"].address), 0)
    it.break_off("b")
    it.expect_told(stays, 502, "origin closed;fwd=uri-miss", "b")
    it.expect_failures("closed", {"a": 1, "b": 1, "c": 1})


@scenario
def a_link_that_was_begun_in_vain_is_its_origin_s(stage):
    """One origin refuses while another is being waited for, and its client leaves then."""
    waited, down = stage.origin(Origin({"/a": silent})), stage.origin(Refusing())
    lines = ("/a", ["*"], waited.address), ("/down", ["*"], down.address)
    log, file = f"{stage.room.name}/log", f"{stage.room.name}/figures"
    proxy = stage.proxy(*lines, options=["--log", log, "--stats", file])
    left, stays = proxy.client(), proxy.client()
    left.send(request("/a"))
    waited.wait_for(1)
    left.leave(reset=True)
    expect("the link's end at the origin", True, waited.fetches[0].is_over.wait(LATEST))
    expect_refusal(stays.ask("/down"), 502, "origin refused;fwd=uri-miss")
    told = [(it[4], it[-1]) for it in lines_of(log, 2)]
    expect("status and origin of each line", [("000", waited.address), ("502", down.address)], told)
    samples = figures_with(file, of("origin_failures_total", origin=down.address, kind="refused"), 1)
    expect("failures of the other origin", 0, samples[of("origin_failures_total", origin=waited.address, kind="refused")])
