"""Honest clients beside crowds of attackers, of one kind or of two: who of them fails, and how long they wait, also at haproxy and nginx."""
import itertools
import tempfile
import time

from attacks.findings import Found
from attacks.four import KINDS, asked_by_four
from live.attackers import WHAT_THEY_DO, Attackers
from live.beside import NAMES, summed, within
from live.busy_origin import BusyOrigin
from live.expect import Skipped
from live.peers import Ours, started

# How many there are of each kind. The program has small bounds, so that its rules of who gives way are at work: fewer connections than those
# of one byte, and less that may be held than is asked for and not taken. haproxy and nginx have room for all.
COUNTS = {"byte": 1500, "head": 600, "content": 600, "crowd": 600, "stuck": 150, "leave": 600, "hang": 600, "busy": 200}
OPTIONS = ["--connections", "1200", "--content-limit", "40000000"]
BOTH = {"max_body": 1 << 20, "max_stored": 1 << 20}
# The attackers have so long to come.
FIRST = 2


def crowds_of(words):
    """Lists of kinds, by what the command line names."""
    if words == "all":
        return [[it] for it in COUNTS]
    if words == "pairs":
        return [list(it) for it in itertools.combinations(COUNTS, 2)]
    return [it.split("+") for it in words.split(",") if it]


def told_of(port, crowd, seconds):
    """What the four got beside a crowd."""
    attackers = []
    try:
        for it in crowd:
            attackers.append(Attackers(port, it, COUNTS[it]))
        time.sleep(FIRST if crowd else 0)
        return asked_by_four(port, seconds)
    finally:
        for it in attackers:
            it.end()


def start(name, program, room, origin, hanging):
    """One of the three; what hangs has an origin of its own."""
    if name == "revcache":
        lines = [*((path, ["*"], hanging.address) for path in ("/silent", "/endless")), origin.address]
        return Ours(program, room, lines, OPTIONS, **BOTH)
    return started(name, program, room, origin.address, hanging=hanging.address, is_large=True)


def play(name, program, origin, hanging, crowd, seconds, tally):
    with tempfile.TemporaryDirectory(prefix="attack-") as room:
        try:
            proxy = start(name, program, room, origin, hanging)
        except Skipped as why:
            print(f"    {name:8} skipped: {why}", flush=True)
            return
        try:
            told = told_of(proxy.port, crowd, seconds)
        finally:
            proxy.end()
    for it in KINDS:
        print(f"    {name:8} {it:10} {summed(told['told'][it])}", flush=True)
        if name == "revcache" and told["why"][it]:
            tally.find(Found("honest", f"{it}: {told['why'][it][0]}, and {len(told['why'][it]) - 1} more"), "+".join(crowd) or "nobody")


def run(program, crowds, seconds, tally):
    within(0)
    origin, hanging = BusyOrigin(), BusyOrigin()
    try:
        for crowd in [[], *crowds]:
            what = "; ".join(f"{COUNTS[it]:,} that {WHAT_THEY_DO[it]}" for it in crowd)
            print(f"beside {what or 'nobody'}:", flush=True)
            for name in NAMES:
                play(name, program, origin, hanging, crowd, seconds, tally)
    finally:
        origin.close()
        hanging.close()
