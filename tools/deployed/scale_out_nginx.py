"""Several caches behind nginx, by deploy/scale-out/nginx.conf; and a purge that reaches all of them, through nginx and through haproxy."""
import signal

from deployed.fronts import FILES
from deployed.scale_out import CACHES, LEAST, MOST, OBJECTS, Fleet, a_post_takes_away_what_its_cache_has, expect_all
from deployed.stand import curl, deployed, free_port, need, part, put_for, taken_in, wait_until, without_tls
from deployed.strangers import CLAIMS, FOR_OPERATORS, HONEST, LONG, NEAR, headers, long_head
from live.expect import expect, expect_within
from live.origin import Origin, whole
from live.scenario import KEPT


class NginxFleet(Fleet):
    """nginx before four caches before one origin that counts."""

    def __init__(self, stand, words=()):
        need("nginx", "curl")
        stand.certificate()
        self.stand, self.http, self.purge = stand, free_port(), free_port()
        self.origin = stand.origin(Origin({f"/{i}": whole(200, KEPT, content=b"%d" % i) for i in range(OBJECTS)}))
        self.table = deployed("table.toml", {"127.0.0.1:8081": self.origin.address, "127.0.0.1:8089": f"127.0.0.1:{self.purge}"})
        self.caches = [stand.proxy(self.table, self.options(i)) for i in range(CACHES)]
        ports = {**without_tls("scale-out/nginx.conf"), "listen 80;": f"listen 127.0.0.1:{self.http};", "listen 443 ssl": f"listen 127.0.0.1:{free_port()} ssl"}
        ports |= {f"127.0.0.1:{8101 + i}": f"127.0.0.1:{it.port}" for i, it in enumerate(self.caches)}
        paths = {"/run/nginx.pid": f"{stand.folder}/nginx.pid", "/var/log/nginx": stand.folder, "/etc/revcache": stand.folder}
        ports["127.0.0.1:8089"] = f"127.0.0.1:{self.purge}"
        folders = "".join(f" {it}_temp_path {stand.folder}/{it};" for it in ("client_body", "proxy", "fastcgi", "uwsgi", "scgi"))
        # (one address asks for 1,000 objects as fast as it can)
        limits = {"rate=200r/s": "rate=100000r/s", "burst=400": "burst=100000", "    server_tokens off;": f"    server_tokens off;{folders}"}
        text = deployed("scale-out/nginx.conf", {**dict(words), **ports, **paths, **limits})
        words = ["nginx", "-e", f"{stand.folder}/error.log", "-c", stand.file("nginx.conf", text), "-g", "daemon off;"]
        self.process = stand.start("nginx", words, self.http)

    def front_log(self):
        with open(f"{self.stand.folder}/access.log", encoding="utf-8") as it:
            return it.read().splitlines()


@part
def scale_out_nginx(stand):
    fleet = NginxFleet(stand)
    for it in (
        each_object_is_fetched_once,
        a_cache_that_stops_costs_its_part,
        a_cache_that_comes_back_takes_its_part,
        a_stranger_takes_and_claims_no_field,
        a_post_takes_away_what_its_cache_has,
        a_purge_through_nginx_asks_each_cache,
        a_cache_that_is_away_stands_in_the_log,
        a_strangers_purge_is_refused,
    ):
        yield it.__name__, lambda it=it: it(fleet)


@part
def purge_of_several(stand):
    """Through haproxy."""
    fleet = Fleet(stand)
    for it in (a_purge_through_haproxy_is_done_by_each_cache, a_cache_that_is_away_is_left_out, a_purge_that_fails_is_told, a_client_steers_no_purge):
        yield it.__name__, lambda it=it: it(fleet)


@part
def a_reason_of_several_for_operators_alone(stand):
    for kind, (name, lines) in zip((NginxFleet, Fleet), FOR_OPERATORS.items()):
        fleet = kind(stand, {**taken_in(f"scale-out/{FILES[name]}", *lines), **NEAR})
        yield name, lambda fleet=fleet: reasons_are_hidden(fleet)


def reasons_are_hidden(fleet):
    """The option of the file: strangers get neither Cache-Status nor Refusal, operators get both."""
    for target, status, reason in (("/7", 200, "edge;fwd=uri-miss;ttl=;stored"), ("/7", 200, "edge;hit;ttl="), ("/admin", 403, "denied by line 1")):
        url = f"http://h.example{target}"
        for words, told in (([], reason), (["--interface", "127.0.0.9"], "none")):
            answer = curl(fleet.http, url, *words)
            expect(f"status and reason of {target} {words}", (status, told), (answer.status, answer.reason()))


def each_object_is_fetched_once(fleet):
    """1,000 objects over four caches: 1,000 fetches at first, and then none; each cache has its part."""
    for passes, fetches in ((1, OBJECTS), (2, 0)):
        told, came = fleet.ask_all()
        expect_all(told)
        expect(f"fetches of pass {passes}", fetches, came)
    ports = [it.split("] ")[1].split(" ") for it in fleet.front_log()]
    counts = [sum(f"127.0.0.1:{it.port}" in words for words in ports) for it in fleet.caches]
    for it in counts:
        expect_within("requests to a cache of the 2,000", 2 * LEAST - 100, 2 * MOST + 100, it)
    return f"{OBJECTS} fetches, then 0; requests by cache {counts}"


def a_cache_that_stops_costs_its_part(fleet):
    """One cache is stopped while clients ask: its part is fetched by the others, and no client gets an error."""
    told, during = fleet.ask_all(midway=lambda: fleet.stop(1))
    expect_all(told)
    told, behind = fleet.ask_all()
    expect_all(told)
    expect_within("objects fetched again", LEAST - 50, MOST + 50, during + behind)
    told, again = fleet.ask_all()
    expect_all(told)
    expect("fetches at the last asking", 0, again)
    return f"{during} fetched again in the pass, {behind} in the next, then {again}; {3 * len(told)} answers, no error"


def a_cache_that_comes_back_takes_its_part(fleet):
    """Started again it has an empty store: its part is fetched once more, and no other."""
    fleet.start(1)
    # (nginx tries it again two seconds behind its failures)
    wait_until(lambda: fleet.ask_all()[1] == 0 and served_by(fleet, 1), "the cache that came back serves")
    told, again = fleet.ask_all()
    expect_all(told)
    expect("fetches at the second asking", 0, again)


def served_by(fleet, index):
    """Whether one of the last 1,000 requests went to this cache alone."""
    return any(f" 127.0.0.1:{fleet.caches[index].port} " in it for it in fleet.front_log()[-OBJECTS:])


def a_stranger_takes_and_claims_no_field(fleet):
    """What Connection names would be taken away, the front's own fields too; what passes for one of them is dropped, and a head that an
    origin would refuse is refused here."""
    lines = ["Connection: close, X-Forwarded-For, X-Forwarded-Proto", *CLAIMS, *HONEST]
    curl(fleet.http, "http://h.example/strange", "--http1.1", *headers(lines))
    fields = {name.lower(): value for name, value in fleet.origin.fetches[-1].fields}
    expect("the front's fields at the origin", ("127.0.0.1", "http"), (fields.get("x-forwarded-for"), fields.get("x-forwarded-proto")))
    expect("claims at the origin", [], [it for it in CLAIMS if it.partition(":")[0].lower() in fields])
    expect("other fields at the origin", HONEST, [f"{name}: {fields.get(name.lower())}" for name in (it.partition(":")[0] for it in HONEST)])
    for lines in LONG:
        expect(f"is refused: {lines}", True, curl(fleet.http, "http://h.example/strange", "--http1.1", *long_head(fleet.stand, lines)).status in (400, 431))
    expect("a path that is misspelt", 400, curl(fleet.http, "http://h.example//admin").status)


def fill(fleet, url):
    for it in fleet.caches:
        curl(it.port, url)
        expect("a hit at each cache", "edge;hit;ttl=", curl(it.port, url).reason())


def held_by(fleet, url):
    """Which caches hold it, without asking an origin."""
    return [i for i, it in enumerate(fleet.caches) if curl(it.port, url, "--header", "Cache-Control: only-if-cached").status == 200]


def purge(fleet, url, *words):
    return curl(fleet.http, url, "--request", "PURGE", *words)


def a_purge_through_nginx_asks_each_cache(fleet):
    """The client gets the answer of the first; each cache's own stands in the log."""
    url = "http://h.example/7"
    fill(fleet, url)
    before = len(fleet.front_log())
    expect("status of a purge through nginx", 204, purge(fleet, url).status)
    # (the answers to the mirrored ones may come behind it)
    wait_until(lambda: held_by(fleet, url) == [], "no cache holds it")
    wait_until(lambda: len(purges(fleet, before)) == CACHES, "a line of the log for each cache")
    ports = {f"127.0.0.1:{it.port}" for it in fleet.caches}
    expect("the caches of these lines, with their answers", {(it, "204") for it in ports}, set(purges(fleet, before)))


def purges(fleet, before):
    """The cache and the status of each line about a purge."""
    lines = [it for it in fleet.front_log()[before:] if '"PURGE ' in it]
    return [(it.partition('" ')[2].split(" ")[2], it.partition('" ')[2].split(" ")[0]) for it in lines]


def a_cache_that_is_away_stands_in_the_log(fleet):
    """What a mirrored purge comes to isn't told to the client: the log has a 502 for it, and the others have done it."""
    url = "http://h.example/8"
    fill(fleet, url)
    fleet.stop(2)
    before = len(fleet.front_log())
    expect("status of a purge through nginx", 204, purge(fleet, url).status)
    wait_until(lambda: len(purges(fleet, before)) == CACHES, "a line of the log for each cache")
    away = f"127.0.0.1:{fleet.caches[2].port}"
    expect("the answers in the log", [502], [int(status) for cache, status in purges(fleet, before) if cache == away])
    fleet.start(2)
    expect("caches that hold it", [], held_by(fleet, url))


def a_strangers_purge_is_refused(fleet):
    """Who isn't an operator's address gets 403, and nothing goes; the paths of the mirror are nobody's."""
    for it in "bcd":
        expect("status of a path of the mirror", 404, purge(fleet, f"http://h.example/.purge-of-revcache/{it}").status)
    path = f"{fleet.stand.folder}/nginx.conf"
    with open(path, encoding="utf-8") as it:
        text = it.read()
    with open(path, "w", encoding="utf-8") as it:
        it.write(put_for(text, {"127.0.0.0/8 1;": "192.0.2.0/24 1;"}))
    fleet.process.send_signal(signal.SIGHUP)
    wait_until(lambda: purge(fleet, "http://h.example/9").status == 403, "nginx with the new list")
    url = "http://h.example/10"
    fill(fleet, url)
    for _ in range(10):
        expect("status of a stranger's purge", 403, purge(fleet, url).status)
    expect("caches that hold it", list(range(CACHES)), held_by(fleet, url))


def a_purge_through_haproxy_is_done_by_each_cache(fleet):
    """A 204 comes when each cache has done it: none holds the target then."""
    url = "http://h.example/7"
    fill(fleet, url)
    answer = purge(fleet, url)
    said = (answer.value("Cache-Status") or "").count("edge;fwd=method")
    expect("status of a purge through haproxy, and the caches that say so", (204, CACHES), (answer.status, said))
    expect("caches that hold it", [], held_by(fleet, url))


def a_cache_that_is_away_is_left_out(fleet):
    """haproxy knows that it is down: the others are purged, and what comes back is empty."""
    url = "http://h.example/8"
    for away, left in ((0, "bcd"), (2, "abd"), (3, "abc")):
        fill(fleet, url)
        fleet.stop(away)
        fleet.wait_for(left)
        expect(f"status of a purge without cache {away}", 204, purge(fleet, url).status)
        fleet.start(away)
        fleet.wait_for("abcd")
        expect("caches that hold it", [], held_by(fleet, url))


def a_purge_that_fails_is_told(fleet):
    """A cache that refuses while haproxy takes it for healthy: the client gets no 204, and may ask again."""
    url = "http://h.example/9"
    fill(fleet, url)
    fleet.told("set server caches/c health up")
    fleet.told("disable health caches/c")
    fleet.stop(2)
    expect("no 204 for a purge", True, purge(fleet, url).status in (502, 503, 504))
    fleet.start(2)
    fleet.told("enable health caches/c")
    fleet.wait_for("abcd")
    expect("status of the next purge", 204, purge(fleet, url).status)
    expect("caches that hold it", [], held_by(fleet, url))


def a_client_steers_no_purge(fleet):
    """The word that says how far a purge has come is the front's own."""
    url = "http://h.example/10"
    fill(fleet, url)
    expect("status of a purge", 204, purge(fleet, url, "--header", "Purge-Step: d").status)
    expect("caches that hold it", [], held_by(fleet, url))
    curl(fleet.http, "http://h.example/11?steered", "--header", "Purge-Step: d")
    expect("the word at the origin", [], [value for name, value in fleet.origin.fetches[-1].fields if name.lower() == "purge-step"])
