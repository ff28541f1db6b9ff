"""The same cases before origins that others wrote: none of these has read a request for /smug."""
from attacks.client import play
from attacks.findings import Found
from attacks.real_origins import smuggled, started
from attacks.smuggling import hold_answers
from attacks.threads import side_by_side
from live.expect import Skipped, Unexpected

# So many cases are played before the log is read.
BLOCK = 500


def play_block(cases, proxy, origin, tally, name):
    """Plays some cases; where the log then has a /smug, they are played one by one."""
    for case in cases:
        try:
            tally.counts[f"{name}: answers"] += len(hold_answers(case, play(proxy.port, case.pieces(), case.is_late)))
        except Found as found:
            tally.find(found, f"{name}, {case.name}")
        except OSError as fault:
            tally.find(Found("connection", repr(fault), case.data), f"{name}, {case.name}")
        tally.counts[f"{name}: cases"] += 1
    lines = origin.asked()
    tally.counts[f"{name}: requests"] += len(lines)
    found = smuggled(lines)
    if found:
        tally.find(whose(cases, proxy, origin) or Found("smuggled", f"{found!r}, by none of the cases alone"), name)


def whose(cases, proxy, origin):
    """The case by which the log has a /smug."""
    for case in cases:
        play(proxy.port, case.pieces())
        found = smuggled(origin.asked(0.1))
        if found:
            return Found("smuggled", f"the log has {found!r}", case.data)
    return None


def work(name, cases, start, tally):
    try:
        with started(name) as origin, start(origin) as proxy:
            for at in range(0, len(cases), BLOCK):
                if not tally.is_full():
                    play_block(cases[at : at + BLOCK], proxy, origin, tally, name)
        if len(cases) > BLOCK and not tally.counts[f"{name}: requests"]:
            tally.find(Found("origin", "no request stands in its log"), name)
    except Skipped as why:
        print(f"{name} skipped: {why}", flush=True)
    except Unexpected as fault:
        tally.find(Found("origin", str(fault)), name)


def run(names, cases, start, tally):
    """All these origins side by side."""
    side_by_side([lambda it=it: work(it, cases, start, tally) for it in names])
