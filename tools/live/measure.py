"""What is measured by hand: memory over many connections, and what an honest client has to wait beside others. The gate doesn't, since
figures differ by machine."""
import sys
import tempfile
import threading
import time

from live import beside, contents
from live.attackers import WHAT_THEY_DO, Attackers
from live.busy_origin import BusyOrigin
from live.client import request
from live.expect import Skipped, Unexpected
from live.honest import SIDE_BY_SIDE, connect, hits_a_second, read_answers, summed, waits
from live.peers import Ours, started
from live.restart_times import measure_restart

STEPS, HITS = 10, 64000


def misses(proxy, first, count):
    """Asks for targets that nobody asked for before, over a few connections."""
    ends = [connect(proxy) for _ in range(SIDE_BY_SIDE)]
    at = first
    while at < first + count:
        asked = 0
        for it in ends[: first + count - at]:
            it.sendall(request(f"/{at + asked}"))
            asked += 1
        for it in ends[:asked]:
            read_answers(it, 1)
        at += asked
    for it in ends:
        it.close()


def connections(proxy, _first, count):
    """Opens connections that ask once and go, half of them without a word."""
    left = count
    while left:
        ends = [connect(proxy) for _ in range(min(left, SIDE_BY_SIDE))]
        for it in ends[::2]:
            it.sendall(request("/a"))
        for it in ends[::2]:
            read_answers(it, 1)
        for it in ends:
            it.close()
        left -= len(ends)


def memory_over(step, count, program, room, origin):
    """Prints the memory that the program holds, at each tenth of the way."""
    proxy = Ours(program, room, [origin], capacity=1000)
    try:
        began = time.monotonic()
        print(f"{0:>8} {step.__name__}: {proxy.resident() // 1024:>8} KiB", flush=True)
        for i in range(STEPS):
            step(proxy, i * count // STEPS, count // STEPS)
            seconds = time.monotonic() - began
            print(f"{(i + 1) * count // STEPS:>8} {step.__name__}: {proxy.resident() // 1024:>8} KiB, {seconds:.0f} s", flush=True)
    finally:
        proxy.end()


def measure_misses(program, room, origin, count=200000):
    memory_over(misses, count, program, room, origin)


def measure_connections(program, room, origin, count=100000):
    memory_over(connections, count, program, room, origin)


def measure_returning(program, room, origin, count=10000):
    """So many clients that come back in turn: the memory behind each round."""
    count = beside.within(count)
    proxy = Ours(program, room, [origin], options=["--connections", str(count + 100), "--client-timeout", "600"])
    try:
        empty, began = proxy.resident(), time.monotonic()
        clients = [connect(proxy) for _ in range(count)]
        for i in range(6):
            for it in clients:
                it.sendall(request("/a"))
                read_answers(it, 1)
            time.sleep(2)
            held = proxy.resident()
            told = f"{held // 1024:>8} KiB, {(held - empty) / count:,.0f} bytes a client, {time.monotonic() - began:.0f} s"
            print(f"{count} clients, round {i + 1}: {told}", flush=True)
        for it in clients:
            it.close()
    finally:
        proxy.end()


def measure_pipelined(program, room, origin, count=1000):
    """So many hits that are asked for in one write, beside ten in a write and one: what they cost of the program's processor."""
    proxy = Ours(program, room, [origin])
    try:
        hits_a_second(proxy, HITS // 4)
        for ahead in (1, 10, count):
            with connect(proxy) as it:
                before = proxy.processor_seconds()
                for _ in range(HITS // ahead):
                    sender = threading.Thread(target=it.sendall, args=[request("/a") * ahead])
                    sender.start()
                    read_answers(it, ahead)
                    sender.join()
                spent = proxy.processor_seconds() - before
            print(f"{ahead:>6} hits in a write: {spent / (HITS // ahead * ahead) * 1e6:.1f} us of the processor each", flush=True)
    finally:
        proxy.end()


def measure_attacks(program, _room, origin, *kinds, count=1000, seconds=10):
    """Attackers of each kind before the program, haproxy and nginx: what an honest client waits for a stored answer."""
    count = beside.within(count)
    for kind in kinds or ("idle", "head", "content", "leave", "mixture"):
        print(f"{count:,} that {WHAT_THEY_DO[kind]}:", flush=True)
        for name in ("revcache", "haproxy", "nginx"):
            with tempfile.TemporaryDirectory(prefix="live-test-") as room:
                try:
                    proxy = started(name, program, room, origin)
                except Skipped as why:
                    print(f"    {name:8} skipped: {why}")
                    continue
                try:
                    waits(proxy.port, 0.4)
                    attackers = Attackers(proxy.port, kind, count)
                    try:
                        time.sleep(1)
                        told = summed(waits(proxy.port, seconds))
                    finally:
                        did = attackers.end()
                    print(f"    {name:8} {told}; they: {', '.join(f'{it} {did[it]:,}' for it in sorted(did))}", flush=True)
                finally:
                    proxy.end()


MODES = {it.__name__.removeprefix("measure_"): it for it in (
    measure_misses, measure_connections, measure_returning, measure_pipelined, measure_attacks,
    beside.measure_hanging, beside.measure_idle, beside.measure_dripping, beside.measure_busy, contents.measure_contents, measure_restart)}


def run(mode, program, words):
    """Measures; a number among the words is the count, of `hanging` and `busy` some counts, others are kinds of attackers."""
    numbers = [int(it) for it in words if it.isdecimal()]
    are_many = mode in ("hanging", "busy")
    origin = BusyOrigin()
    try:
        with tempfile.TemporaryDirectory(prefix="live-test-") as room:
            kinds = numbers if are_many else [it for it in words if not it.isdecimal()]
            MODES[mode](program, room, origin.address, *kinds, **({} if are_many else {"count": it for it in numbers}))
    except (Unexpected, OSError) as fault:
        print(fault, file=sys.stderr)
        return 1
    finally:
        origin.close()
    return 0
