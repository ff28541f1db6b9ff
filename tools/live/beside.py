"""What is measured by hand of an honest client beside crowds: of those that hang at an origin, are idle, drip or are busy, also at haproxy
and nginx by the same clients."""
import re
import resource
import statistics
import subprocess
import tempfile
import time

from live.asking import asked, summed
from live.attackers import WHAT_THEY_DO, Attackers
from live.busy_origin import BusyOrigin
from live.expect import Skipped, Unexpected
from live.honest import hits_a_second
from live.peers import found, started

# Hits that the honest client asks for, and misses at another origin than the one that hangs.
HITS, MISSES = 1000, 100
# Each of the three, in this order; who comes from elsewhere than the crowd.
NAMES = "revcache", "haproxy", "nginx"
HONEST = "127.0.0.7"
# Hits over which the processor's time is counted; milliseconds of wrk's units.
COUNTED, UNITS = 64000, {"us": 0.001, "ms": 1, "s": 1000, "m": 60000}


def targets():
    """Of every eleven requests one is a miss."""
    every = (HITS + MISSES) // MISSES
    return [f"/m/{i}" if i % every == every - 1 else "/a" for i in range(HITS + MISSES)]


def beside(proxy, kind, count, seconds=1):
    """What an honest client waited beside so many, and what they did."""
    asked(proxy.port, ["/a"] * 20, HONEST)
    attackers = Attackers(proxy.port, kind, count)
    try:
        time.sleep(seconds)
        spent = proxy.processor_seconds()
        told = asked(proxy.port, targets(), HONEST)
        spent = proxy.processor_seconds() - spent
    finally:
        did = attackers.end()
    they = ", ".join(f"{it} {did[it]:,}" for it in sorted(did) if did[it])
    return f"{summed(told)}; of the processor {spent:.1f} s; they: {they}"


def of_each(program, origin, kind, count, names=NAMES, **more):
    """The same at each of the three."""
    for name in names:
        with tempfile.TemporaryDirectory(prefix="live-test-") as room:
            try:
                proxy = started(name, program, room, origin, **more)
            except Skipped as why:
                print(f"    {name:8} skipped: {why}")
                continue
            try:
                print(f"    {name:8} {beside(proxy, kind, count)}", flush=True)
            finally:
                proxy.end()


def measure_hanging(program, _room, origin, *counts):
    """Requests that hang at one origin, without its bound and with it, and an honest client of another one."""
    hanging = BusyOrigin()
    try:
        for count in counts or (300, within(10000, 2)):
            for bound in (65536, None):
                told = f"links to one origin: {bound or 'the default'}"
                print(f"{count:,} that {WHAT_THEY_DO['hang']} ({told}):", flush=True)
                options = ["--origin-connections", str(bound)] if bound else []
                names = NAMES if bound else NAMES[:1]
                of_each(program, origin, "hang", count, names, hanging=hanging.address, is_large=True, options=room_for(count) + options)
    finally:
        hanging.close()


def room_for(count):
    """The program's options for so many clients, and some more."""
    return ["--connections", str(count + 500), "--client-timeout", "600"]


def within(count, each=1):
    """So many connections, each of which takes so many descriptors of a proxy, or as many as a process may have here."""
    most = resource.getrlimit(resource.RLIMIT_NOFILE)[1]
    resource.setrlimit(resource.RLIMIT_NOFILE, (most, most))
    return count if most == resource.RLIM_INFINITY else min(count, (most - 1000) // each)


def measure_dripping(program, _room, origin, *kinds, count=10000):
    """So many heads or contents that come byte by byte, that ask another origin and leave, or that ask for hits all the time."""
    count, other = within(count, 2), BusyOrigin()
    try:
        for kind in kinds or ("head", "content", "leave", "busy"):
            print(f"{count:,} that {WHAT_THEY_DO[kind]}:", flush=True)
            of_each(program, origin, kind, count, hanging=other.address, is_large=True, options=room_for(count))
    finally:
        other.close()


def measure_idle(program, _room, origin, *_, count=10000):
    """So many idle clients: an honest one beside them, what each takes of memory, and what hits cost."""
    few, count = within(count, 2), within(count)
    print(f"{few:,} that {WHAT_THEY_DO['idle']}:", flush=True)
    of_each(program, origin, "idle", few, is_large=True, options=room_for(few))
    with tempfile.TemporaryDirectory(prefix="live-test-") as room:
        proxy = started("revcache", program, room, origin, options=room_for(count))
        try:
            told_of_idle(proxy, count)
        finally:
            proxy.end()


def told_of_idle(proxy, count):
    hits_a_second(proxy, COUNTED // 4)
    alone, before = hits_a_second(proxy, COUNTED), proxy.resident()
    attackers = Attackers(proxy.port, "idle", count)
    try:
        # (what a client has just asked for is still with it)
        time.sleep(5)
        held = proxy.resident() - before
        print(f"memory: {held / count:,.0f} bytes for each of {count:,} idle clients, {held / 1e6:,.1f} MB in all", flush=True)
        beside_them = hits_a_second(proxy, COUNTED)
        print(f"hits a second of its processor: {alone:,.0f} without them, {beside_them:,.0f} with them, {beside_them / alone:.2f} times")
    finally:
        attackers.end()


def loaded(proxy, connections, seconds, *words):
    """By wrk: hits a second, hits a second of the proxy's processor, the median and the 99th percentile in milliseconds, and failures."""
    before = proxy.processor_seconds()
    words = [found("wrk"), "-t2", f"-c{connections}", f"-d{seconds}", "--timeout", "10", "--latency", *words, f"http://127.0.0.1:{proxy.port}/a"]
    told = subprocess.run(words, capture_output=True, text=True, check=True).stdout
    spent = proxy.processor_seconds() - before
    done, took = re.search(r"(\d+) requests in ([\d.]+)(m?)s", told).group(1, 2)
    shares = [float(n) * UNITS[unit] for n, unit in re.findall(r"^ +(?:50|99)% +([\d.]+)(us|ms|s|m)", told, re.M)]
    if len(shares) != 2:
        raise Unexpected("from wrk", "two shares of its latencies", told)
    errors = sum(int(it) for line in re.findall(r"Socket errors: .*|Non-2xx.*", told) for it in re.findall(r"\d+\b", line.partition(":")[2]))
    return int(done) / float(took), int(done) / max(spent, 0.01), *shares, errors


def measure_busy(program, _room, origin, *counts, rounds=3, seconds=4):
    """Hits of so many busy connections, and with a connection for each request; medians of rounds in which all take turns."""
    counts = [within(it) for it in counts or (32, 1000, 4000)]
    cases = {f"{it:,} connections": [it] for it in counts}
    cases["a connection for each"] = [counts[0], "-H", "Connection: close"]
    rows = {}
    for number in range(rounds):
        for name in NAMES:
            with tempfile.TemporaryDirectory(prefix="live-test-") as room:
                proxy = started(name, program, room, origin, is_large=True, is_single=True, options=room_for(max(counts)))
                try:
                    asked(proxy.port, ["/a"] * 20, HONEST)
                    for case, (connections, *words) in cases.items():
                        rows.setdefault((case, name), []).append(loaded(proxy, connections, seconds, *words))
                finally:
                    proxy.end()
        print(f"round {number + 1} of {rounds}", flush=True)
    for (case, name), figures in rows.items():
        rate, own, median, p99, errors = (statistics.median(it) for it in zip(*figures))
        first, theirs = rows[next(iter(cases)), name], rows[case, "haproxy"]
        ratio = lambda others: statistics.median(mine[1] / other[1] for mine, other in zip(figures, others))  # noqa: E731
        told = f"{rate:>9,.0f} a second, {own:>9,.0f} of its processor ({ratio(first):.2f} of its first row, {ratio(theirs):.2f} of haproxy's)"
        print(f"{case:22} {name:9} {told}, median {median:,.1f} ms, p99 {p99:,.1f} ms, {errors:.0f} errors", flush=True)
