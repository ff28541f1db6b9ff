"""What the fronts of deploy/ make of Accept-Encoding: two spellings, so that an origin that varies by it has two variants of a page."""
from deployed.fronts import Front, value_of
from deployed.scale_out import Fleet
from deployed.scale_out_nginx import NginxFleet
from deployed.stand import curl, part
from live.expect import expect
from live.origin import whole
from live.scenario import KEPT

# What browsers and tools send, and what the grammar allows (RFC 9110, 12.5.3): those that take gzip, and those that don't.
TAKE = ["gzip, deflate, br, zstd", "gzip, deflate, br", "gzip, deflate", "gzip", "GZIP;q=0.5, identity"]
TAKE += ["br;q=1.0, gzip;q=0.8, *;q=0.1", "gzip ; q=1", "deflate, gzip;q=0.001", "x-gzip", "gzip;q=1.000", "gzip;Q=0.5", "br,gzip"]
TAKE += ["*;q=0, gzip", "identity;q=0, gzip;q=1.0", "gzip\t;\tq=0.9"]
# (`*` would allow gzip, too: who sends it alone gets the content as it is, which is always right)
DONT = ["", "identity", "br", "gzip;q=0", "gzip;q=0.000, br", "br, gzip; q=0.0 , deflate", "deflate, zstd", "x-bzip2", "*", "*;q=0", "*;q=0.5"]
DONT += ["gzip;q=0, *", "gzip;Q=0", "identity, gzip;q=0.00", "gzip-like", "not-gzip", "bgzip, gzipped", "br;x=gzip", ","]


def tried(port, origin):
    """Many values each: one fetch for those that take gzip, and one for those that don't."""
    origin.answers["/varies"] = lambda fetch: whole(200, KEPT, "Vary: Accept-Encoding", content=f"for {value_of(fetch, 'Accept-Encoding')}".encode())(fetch)
    for values, at_the_origin in ((TAKE, "gzip"), (DONT, None)):
        before = len(origin.fetches)
        for it in values:
            words = ["--header", f"Accept-Encoding: {it}"] if it else []
            expect(f"content for {it!r}", f"for {at_the_origin}".encode(), curl(port, "http://h.example/varies", *words).content)
        expect(f"what the origin was asked for, of {values}", [at_the_origin], [value_of(it, "Accept-Encoding") for it in origin.fetches[before:]])
    return f"{len(TAKE) + len(DONT)} values, 2 fetches"


@part
def codings(stand):
    for kind in ("nginx", "haproxy"):
        front = Front(stand, kind, records=False)
        yield f"two_variants_behind_{kind}", lambda front=front: tried(front.http, front.origin)


@part
def codings_of_several(stand):
    for name, kind in (("haproxy", Fleet), ("nginx", NginxFleet)):
        fleet = kind(stand)
        yield f"two_variants_behind_{name}", lambda fleet=fleet: tried(fleet.http, fleet.origin)
