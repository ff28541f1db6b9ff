"""Several caches behind haproxy, by deploy/scale-out: each target is fetched once, and a cache that goes takes its own part."""
import http.client
import os
import re
import signal
import subprocess
import sys
import threading
import time

from deployed.fronts import haproxy_says
from deployed.stand import curl, deployed, free_port, need, part, put_for, wait_until, without_tls
from deployed.strangers import CLAIMS, HONEST, LONG, headers, long_head
from live.expect import expect, expect_within
from live.origin import Origin, whole
from live.scenario import KEPT

TOOLS = os.path.dirname(os.path.dirname(os.path.realpath(__file__)))
OBJECTS, CACHES, CLIENTS = 1000, 4, 4
# A quarter of the objects, and how far the ring's parts may be from it: 100 points for each unit of weight.
LEAST, MOST = 200, 300


class Fleet:
    """haproxy before four caches before one origin that counts."""

    def __init__(self, stand, words=()):
        """`words` take the place of others in the file."""
        need("haproxy")
        stand.certificate()
        self.stand, self.http, self.purge, self.socket = stand, free_port(), free_port(), f"{stand.folder}/admin.sock"
        self.origin = stand.origin(Origin({f"/{i}": whole(200, KEPT, content=b"%d" % i) for i in range(OBJECTS)}))
        self.table = deployed("table.toml", {"127.0.0.1:8081": self.origin.address, "127.0.0.1:8089": f"127.0.0.1:{self.purge}"})
        self.caches = [stand.proxy(self.table, self.options(i)) for i in range(CACHES)]
        ports = {**without_tls("scale-out/haproxy.cfg"), "bind :80\n": f"bind 127.0.0.1:{self.http}\n", "bind :443 ssl": f"bind 127.0.0.1:{free_port()} ssl"}
        ports |= {f"127.0.0.1:{8101 + i}": f"127.0.0.1:{it.port}" for i, it in enumerate(self.caches)}
        paths = {"    user haproxy\n    group haproxy\n": "", "/run/haproxy": stand.folder, "/etc/revcache": stand.folder}
        ports["127.0.0.1:8089"] = f"127.0.0.1:{self.purge}"
        limits = {"/dev/log": f"{stand.folder}/log", "gt 2000": "gt 1000000"}
        text = deployed("scale-out/haproxy.cfg", {**dict(words), **ports, **paths, **limits})
        self.process = stand.start("haproxy", ["haproxy", "-f", stand.file("haproxy.cfg", text)], self.http)
        self.wait_for("abcd")

    def log(self, index):
        """The log of a cache, which goes on behind a restart."""
        return f"{self.stand.folder}/access-{index}.log"

    def drain(self, index):
        """The file by which a cache ends."""
        return f"{self.stand.folder}/drain-{index}"

    def options(self, index):
        return ["--log", self.log(index), "--drain", self.drain(index)]

    def told(self, words):
        """What haproxy answers on its socket."""
        return haproxy_says(self.socket, words)

    def up(self):
        """The names of the caches that haproxy takes for healthy."""
        rows = [it.split(",") for it in self.told("show stat").splitlines() if it.startswith("caches,")]
        return "".join(it[1] for it in rows if it[1] in "abcd" and it[17].startswith("UP"))

    def wait_for(self, names):
        wait_until(lambda: self.up() == names, f"the caches {names} up")

    def ask_all(self, midway=None):
        """Asks for each object once, by four clients at a time; what was told, and how many fetches it took. `midway` is
        called when three in ten have been answered."""
        before, told = len(self.origin.fetches), []
        crowd = [threading.Thread(target=self.ask_some, args=[range(i, OBJECTS, CLIENTS), told]) for i in range(CLIENTS)]
        for it in crowd:
            it.start()
        if midway:
            wait_until(lambda: len(told) >= 3 * OBJECTS // 10, "three answers in ten")
            midway()
        for it in crowd:
            it.join()
        expect("answers", OBJECTS, len(told))
        return told, len(self.origin.fetches) - before

    def ask_some(self, numbers, told):
        """A client, which takes a new connection where one was lost, and asks nothing a second time."""
        connection = http.client.HTTPConnection("127.0.0.1", self.http, timeout=20)
        for i in numbers:
            try:
                connection.request("GET", f"/{i}", headers={"Host": "h.example"})
                answer = connection.getresponse()
                told.append((answer.status, answer.read() == b"%d" % i))
            except (OSError, http.client.HTTPException) as fault:
                told.append((repr(fault), False))
                connection.close()
        connection.close()

    def stop(self, index):
        self.caches[index].process.send_signal(signal.SIGTERM)
        self.caches[index].process.wait()

    def start(self, index):
        listen = f"127.0.0.1:{self.caches[index].port}"
        self.caches[index] = self.stand.proxy(self.table, self.options(index), listen=listen)

    def begin_anew(self, index, between=lambda: None):
        """A cache is taken out, started again with an empty store, and put back; clients ask behind it. Answers how many
        fetches each of the two took: what is done between the start and the front, and the clients."""
        name = "abcd"[index]
        self.told(f"set server caches/{name} state maint")
        self.stop(index)
        self.start(index)
        before = len(self.origin.fetches)
        between()
        between_fetches = len(self.origin.fetches) - before
        self.told(f"set server caches/{name} state ready")
        self.wait_for("abcd")
        told, fetches = self.ask_all()
        expect_all(told)
        return between_fetches, fetches

    def warm(self, index):
        """tools/warm with the log of a cache; what it wrote."""
        words = [self.log(index), "--top", str(OBJECTS), "--to", f"127.0.0.1:{self.caches[index].port}", "--rate", "500"]
        ran = subprocess.run([sys.executable, f"{TOOLS}/warm", *words], capture_output=True, text=True, timeout=60)
        expect("status and standard error of tools/warm", (0, ""), (ran.returncode, ran.stderr))
        return ran.stdout


@part
def scale_out(stand):
    fleet = Fleet(stand)
    for it in (
        each_object_is_fetched_once,
        a_cache_that_stops_costs_its_part,
        a_cache_that_comes_back_takes_its_part,
        a_cache_is_drained_without_an_error,
        a_cache_is_warmed_before_clients_come,
        a_stranger_takes_and_claims_no_field,
        a_post_takes_away_what_its_cache_has,
        an_origin_that_fails_takes_no_cache_out,
    ):
        yield it.__name__, lambda it=it: it(fleet)


def expect_all(told):
    """Each answer was the origin's, and none an error."""
    expect("statuses and right contents", [(200, True)], sorted(set(told), key=str))


def each_object_is_fetched_once(fleet):
    """1,000 objects over four caches: 1,000 fetches at first, and then none."""
    told, fetches = fleet.ask_all()
    expect_all(told)
    expect("fetches", OBJECTS, fetches)
    told, fetches = fleet.ask_all()
    expect_all(told)
    expect("fetches at the second asking", 0, fetches)
    parts = [int(it.split(",")[7]) for it in fleet.told("show stat").splitlines() if it[:9] in {f"caches,{it}," for it in "abcd"}]
    for it in parts:
        expect_within("requests to a cache of the 2,000", 2 * LEAST, 2 * MOST, it)
    return f"{OBJECTS} fetches, then 0; requests by cache {parts}"


def a_cache_that_stops_costs_its_part(fleet):
    """One cache is stopped while clients ask: its part is fetched by the others, and no client gets an error."""
    told, during = fleet.ask_all(midway=lambda: fleet.stop(1))
    expect_all(told)
    fleet.wait_for("acd")
    told, behind = fleet.ask_all()
    expect_all(told)
    expect_within("objects fetched again", LEAST, MOST, during + behind)
    told, again = fleet.ask_all()
    expect_all(told)
    # (what was asked for before haproxy had seen it may have gone to another cache than the ring has)
    expect_within("fetches at the last asking", 0, 10, again)
    return f"{during} fetched again in the pass, {behind} in the next, then {again}; {3 * len(told)} answers, no error"


def a_cache_that_comes_back_takes_its_part(fleet):
    """Started again it has an empty store: its part is fetched once more, and no other."""
    fleet.start(1)
    fleet.wait_for("abcd")
    told, fetches = fleet.ask_all()
    expect_all(told)
    expect_within("objects fetched again", LEAST, MOST, fetches)
    told, again = fleet.ask_all()
    expect_all(told)
    expect("fetches at the second asking", 0, again)
    return f"{fetches} fetched again"


def a_cache_is_drained_without_an_error(fleet):
    """What an upgrade does: drained by the socket, stopped once nobody is served there, started again and made ready."""
    fleet.told("set server caches/c state drain")
    told, fetches = fleet.ask_all()
    expect_all(told)
    expect_within("objects fetched by the others", LEAST, MOST, fetches)
    row = next(it.split(",") for it in fleet.told("show stat").splitlines() if it.startswith("caches,c,"))
    expect("requests in progress at the drained cache", "0", row[4])
    fleet.stop(2)
    fleet.start(2)
    fleet.told("set server caches/c state ready")
    fleet.wait_for("abcd")
    told, _ = fleet.ask_all()
    expect_all(told)
    return f"{fetches} fetched by the others"


def a_cache_is_warmed_before_clients_come(fleet):
    """Between its start and its place in the front a cache is asked for what its log has: then clients wait for no fetch, where without
    it they wait for one of each target of its part."""
    said = []
    _, without = fleet.begin_anew(3)
    warmed, behind = fleet.begin_anew(3, lambda: said.append(fleet.warm(3)))
    expect_within("fetches behind a restart", LEAST, MOST, without)
    expect("fetches behind a restart with tools/warm", 0, behind)
    counts = re.fullmatch(r"([0-9,]+) targets asked for in [0-9.]+ s: ([0-9,]+) stored, 0 there already, 0 not stored\n", said[0])
    # (each target that it asks for is one fetch, and the cache had no other)
    expect("fetches of tools/warm", [f"{warmed:,}"] * 2, list(counts.groups()) if counts else said)
    return f"{without} fetches by clients without it; with it {warmed} by tools/warm, and then {behind}"


def a_stranger_takes_and_claims_no_field(fleet):
    """What Connection names would be taken away, the front's own fields too; what passes for one of them is dropped, and a head that
    an origin would refuse is refused here."""
    lines = ["Connection: close, X-Forwarded-For, X-Forwarded-Proto", *CLAIMS, *HONEST]
    curl(fleet.http, "http://h.example/strange", "--http1.1", *headers(lines))
    fields = {name.lower(): value for name, value in fleet.origin.fetches[-1].fields}
    expect("the front's fields at the origin", ("127.0.0.1", "http"), (fields.get("x-forwarded-for"), fields.get("x-forwarded-proto")))
    expect("claims at the origin", [], [it for it in CLAIMS if it.partition(":")[0].lower() in fields])
    expect("other fields at the origin", HONEST, [f"{name}: {fields.get(name.lower())}" for name in (it.partition(":")[0] for it in HONEST)])
    for lines in LONG:
        answer = curl(fleet.http, "http://h.example/strange", "--http1.1", *long_head(fleet.stand, lines))
        # (haproxy itself refuses a name of more than 255 bytes)
        expect(f"is refused: {lines}", True, answer.status in (400, 431))


def a_post_takes_away_what_its_cache_has(fleet):
    """RFC 9111, 4.4, although it goes to its cache by a way of its own: to the one that holds the target."""
    for i in range(20):
        url = f"http://h.example/{i}?posted"
        fleet.origin.answers[f"/{i}"] = whole(200, KEPT, content=b"%d" % i)
        for words, reason in (([], "fwd=uri-miss;ttl=;stored"), ([], "hit;ttl="), (["--data", "x"], "fwd=method"), ([], "fwd=uri-miss;ttl=;stored")):
            expect(f"of {url} {words} the reason", f"edge;{reason}", curl(fleet.http, url, *words).reason())


def an_origin_that_fails_takes_no_cache_out(fleet):
    """The health check asks nothing of an origin: while it is away each cache stays up, and serves what it has."""
    address = fleet.origin.address
    fleet.stand.origins.remove(fleet.origin)
    fleet.origin.close()
    time.sleep(3)
    expect("the caches that are up", "abcd", fleet.up())
    told, _ = fleet.ask_all()
    expect_all(told)
    return f"with nobody at {address}"
