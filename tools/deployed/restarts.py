"""A restart of the cache behind each front of deploy/, while clients ask: with the second cache of the files no request is lost."""
import http.client
import itertools
import os
import signal
import threading
import time
from collections import Counter

from deployed.fronts import SECOND, Front, expect_from
from deployed.scale_out import Fleet
from deployed.scale_out_nginx import NginxFleet
from deployed.stand import curl, free_port, need, part, wait_until
from live.client import PATIENCE
from live.expect import Unexpected, expect, expect_within
from live.origin import whole
from live.scenario import KEPT

# Clients, each of an address of its own, and what each asks for in turn: hits, misses, and what changes something at the origin.
CLIENTS, PAUSE = 12, 0.05
ASKS = ["GET /a", "GET /new", "POST /post", "GET /a", "PUT /put", "DELETE /put"]
# How long systemd waits before it starts what has ended (RestartSec of the unit), and how long it waits for its end.
ABSENCE, ENDING = 1, 90
# What each front sends a second time, where the cache broke off before an answer.
SENT_AGAIN = {"nginx": {"GET", "PUT", "DELETE"}, "haproxy": {"GET"}}
# What each answers for a cache that isn't there.
AWAY = {"nginx": 502, "haproxy": 503}


class Crowd:
    """Clients on kept connections, which ask until they are told to stop; what each was told."""

    def __init__(self, port):
        self.port, self.over, self.told, self.numbers = port, threading.Event(), [], itertools.count(1)
        self.threads = [threading.Thread(target=self.ask_on, args=[f"127.0.1.{i + 1}"]) for i in range(CLIENTS)]
        for it in self.threads:
            it.start()

    def ask_on(self, address):
        connection = http.client.HTTPConnection("127.0.0.1", self.port, timeout=PATIENCE, source_address=(address, 0))
        for words in itertools.cycle(ASKS):
            if self.over.is_set():
                break
            method, target = words.split(" ")
            target += "" if target == "/a" else f"?{next(self.numbers)}"
            self.told.append((method, target, self.ask(connection, method, target)))
            time.sleep(PAUSE)
        connection.close()

    @staticmethod
    def ask(connection, method, target):
        """The status, or what became of the connection."""
        try:
            connection.request(method, target, body=b"x" if method in ("POST", "PUT") else None, headers={"Host": "h.example"})
            answer = connection.getresponse()
            answer.read()
            return answer.status
        except (OSError, http.client.HTTPException) as fault:
            connection.close()
            return repr(fault)

    def stop(self):
        self.over.set()
        for it in self.threads:
            it.join()
        return self.told


class Restarted:
    """A front before a cache that is restarted, and before a second one, or none."""

    def __init__(self, stand, kind, has_second=True):
        self.stand, self.kind, self.drain = stand, kind, f"{stand.folder}/drain"
        self.options, second = ["--drain", self.drain], free_port()
        self.front = Front(stand, kind, {SECOND: f"127.0.0.1:{second}"}, options=self.options, records=False)
        slow = whole(200, KEPT, content=b"slow")
        more = {"/new": whole(200, KEPT, content=b"new"), "/put": whole(204), "/slow": lambda fetch: (time.sleep(2), slow(fetch))}
        self.front.origin.answers.update(more)
        self.second = stand.proxy(self.front.table, listen=f"127.0.0.1:{second}") if has_second else None
        self.wait_for_both(has_second)

    def wait_for_both(self, has_second=True):
        """Until the front knows what is there: haproxy asks each two seconds."""
        if self.kind == "haproxy":
            wait_until(lambda: ("cache", "standby")[: 1 + has_second] == tuple(self.up()), "the caches that haproxy takes for healthy")

    def up(self):
        rows = [it.split(",") for it in self.front.told("show stat").splitlines() if it.startswith("cache,")]
        return [it[1] for it in rows if it[1] in ("cache", "standby") and it[17].startswith("UP")]

    def start_again(self):
        """As systemd does behind its stop."""
        time.sleep(ABSENCE)
        if os.path.exists(self.drain):
            os.remove(self.drain)
        listen = f"127.0.0.1:{self.front.proxy.port}"
        self.front.proxy = self.stand.proxy(self.front.table, self.options, listen=listen)
        self.wait_for_both()

    def drained(self):
        """A restart by the unit."""
        with open(self.drain, "w", encoding="ascii"):
            pass
        expect("status of the program that ends", 0, self.front.proxy.process.wait(ENDING))
        self.start_again()

    def killed(self):
        self.front.proxy.process.send_signal(signal.SIGKILL)
        self.front.proxy.wait()
        self.start_again()

    def begin_second_anew(self):
        """A restart of the second one, which serves nobody."""
        self.second.process.send_signal(signal.SIGTERM)
        self.second.wait()
        self.second = self.stand.proxy(self.front.table, listen=f"127.0.0.1:{self.second.port}")
        self.wait_for_both()

    def under_load(self, restart, times=1):
        """What a crowd was told meanwhile, and what came to the origin."""
        before, crowd = len(self.front.origin.fetches), Crowd(self.front.http)
        time.sleep(0.5)
        for i in range(times):
            slow = [self.slowly(i)]
            restart()
            expect("what was under way", [(200, b"slow")], slow[0]())
            time.sleep(0.5)
        return crowd.stop(), self.front.origin.fetches[before:]

    def slowly(self, number):
        """Begins a request that takes two seconds; to be called for what came of it."""
        answers = []

        def ask():
            try:
                answer = self.front.ask(f"/slow?{number}&{time.monotonic()}", scheme="http")
                answers.append((answer.status, answer.content))
            except Unexpected as fault:
                answers.append(fault)

        one = threading.Thread(target=ask)
        one.start()
        time.sleep(0.2)
        return lambda: (one.join(), answers)[1]


@part
def restarts_nginx(stand):
    need("nginx", "curl")
    yield from checks_of(stand, "nginx")


@part
def restarts_haproxy(stand):
    need("haproxy", "curl")
    yield from checks_of(stand, "haproxy")


@part
def restarts_of_several(stand):
    for name, kind in (("haproxy", Fleet), ("nginx", NginxFleet)):
        fleet = kind(stand)
        yield f"one_after_the_other_loses_no_request_{name}", lambda fleet=fleet: one_after_the_other_loses_no_request(fleet)


def checks_of(stand, kind):
    behind = Restarted(stand, kind)
    for it in (
        a_restart_loses_no_request,
        an_upgrade_loses_no_request,
        a_kill_loses_what_may_not_be_sent_again,
        what_is_under_way_is_sent_again_where_it_may_be,
        the_second_one_forgets_by_its_restart,
    ):
        yield it.__name__, lambda it=it: it(behind)
    yield "without_the_second_one_requests_are_lost", lambda: without_the_second_one_requests_are_lost(stand, kind)


def lost(told):
    return [it for it in told if it[2] not in (200, 201, 204)]


def a_restart_loses_no_request(behind):
    """Three restarts by the file of `--drain`, as the unit stops: each request has its answer, and each that changes something is at the
    origin once."""
    told, fetches = behind.under_load(behind.drained, 3)
    expect_each_once(told, fetches)
    return f"0 of {len(told)} lost"


def one_after_the_other_loses_no_request(fleet):
    """Each of four caches ends by its file of `--drain` and is started again, by nobody's leave but its own."""
    fleet.origin.answers.update({"/a": whole(200, KEPT), "/new": whole(200, KEPT), "/post": whole(201), "/put": whole(204)})
    before, crowd = len(fleet.origin.fetches), Crowd(fleet.http)
    time.sleep(0.5)
    for i, it in enumerate(fleet.caches):
        with open(fleet.drain(i), "w", encoding="ascii"):
            pass
        expect("status of the program that ends", 0, it.process.wait(ENDING))
        time.sleep(ABSENCE)
        os.remove(fleet.drain(i))
        fleet.start(i)
        # (haproxy asks each second, and twice; nginx tries again behind two)
        time.sleep(2.5)
    told = crowd.stop()
    expect_each_once(told, fleet.origin.fetches[before:])
    return f"0 of {len(told)} lost"


def expect_each_once(told, fetches):
    """Each request has its answer, and each that changes something is at the origin once."""
    expect("requests that are lost", [], lost(told))
    asked = Counter((it.method, it.target) for it in fetches)
    expect("requests that weren't once at the origin", [], [it for it in told if it[0] != "GET" and asked[it[:2]] != 1])


def an_upgrade_loses_no_request(behind):
    """The second one first, which serves nobody, and then the other."""
    told, fetches = behind.under_load(lambda: (behind.begin_second_anew(), behind.drained()))
    expect_each_once(told, fetches)
    return f"0 of {len(told)} lost"


def a_kill_loses_what_may_not_be_sent_again(behind):
    """Three ends at once, as by a lack of memory: of what was under way a front sends again what does no harm twice (RFC 9110, 9.2.2), and
    nothing else."""
    told, fetches = behind.under_load(behind.killed, 3)
    gone, asked = lost(told), Counter((it.method, it.target) for it in fetches if it.method not in SENT_AGAIN[behind.kind])
    expect("lost requests that may be sent again", [], [it for it in gone if it[0] in SENT_AGAIN[behind.kind]])
    expect_within("requests that are lost", 0, 3 * CLIENTS, len(gone))
    expect("others that were sent again", [], [it for it in asked if asked[it] > 1])
    return f"{len(gone)} of {len(told)} lost"


def what_is_under_way_is_sent_again_where_it_may_be(behind):
    """A kill while the origin has a request: who waits has an answer of the second cache's, or learns that there is none."""
    for method in ("GET", "PUT", "POST"):
        answers, target = [], f"/slow?{method}"
        connection = http.client.HTTPConnection("127.0.0.1", behind.front.http, timeout=PATIENCE)
        one = threading.Thread(target=lambda: answers.append(Crowd.ask(connection, method, target)))
        one.start()
        wait_until(lambda: [it.target for it in behind.front.origin.fetches].count(target) == 1, "the request at the origin")
        behind.killed()
        one.join()
        count, is_answered = [it.target for it in behind.front.origin.fetches].count(target), answers == [200]
        expect(f"{method}: requests at the origin, and whether it is answered", (2, True) if method in SENT_AGAIN[behind.kind] else (1, False), (count, is_answered))


def the_second_one_forgets_by_its_restart(behind):
    """What it has stored while it stood in is purged by no purge through the front, which goes to the first; its restart takes it away."""
    held = ["--header", "Cache-Control: only-if-cached"]
    url = "http://h.example/a"
    curl(behind.second.port, url)
    expect_from(behind.front.ask("/a", "--request", "PURGE"), 204, "edge;fwd=method")
    expect("what the first has", 504, curl(behind.front.proxy.port, url, *held).status)
    expect("what the second has", 200, curl(behind.second.port, url, *held).status)
    behind.begin_second_anew()
    expect("what the second has behind its restart", 504, curl(behind.second.port, url, *held).status)


def without_the_second_one_requests_are_lost(stand, kind):
    """Why there is one: a cache that is away for a second, and nobody where the second one would listen."""
    alone = Restarted(stand, kind, has_second=False)
    crowd = Crowd(alone.front.http)
    time.sleep(0.5)
    alone.front.proxy.process.send_signal(signal.SIGKILL)
    alone.front.proxy.wait()
    time.sleep(3)
    told = crowd.stop()
    if AWAY[kind] not in {it[2] for it in told}:
        raise Unexpected("statuses", AWAY[kind], Counter(it[2] for it in told))
    return f"{len(lost(told))} of {len(told)} lost"
