"""Clients that ask and leave, before each front of deploy/: others are served meanwhile."""
import socket
import threading
import time

from deployed.fronts import Front, connections_to_origin
from deployed.stand import need, part, wait_until
from live.client import PATIENCE, request
from live.expect import Unexpected, expect, expect_within
from live.honest import summed, waits
from live.origin import silent, whole
from live.scenario import KEPT

# Addresses: of who attacks alone, of a crowd, and of who means well.
OWN, CROWD, HONEST = "127.0.0.1", ("127.0.0.2", "127.0.0.3", "127.0.0.4", "127.0.0.5", "127.0.0.6", "127.0.0.7"), "127.0.0.9"
# What the files of deploy/ let one address have in progress.
IN_PROGRESS = 60
# Requests a second of one address that leave, within the fronts' limits; for so long; and how soon others have to be answered.
RATE, SECONDS, SOON = 150, 6, 1.5


@part
def clients_that_leave_nginx(stand):
    need("nginx")
    yield from checks_of(stand, "nginx")


@part
def clients_that_leave_haproxy(stand):
    need("haproxy")
    yield from checks_of(stand, "haproxy")


def checks_of(stand, kind):
    front = Front(stand, kind, options=[], records=False)
    for it in (others_are_served_meanwhile, others_are_served_beside_slow_answers, others_are_served_beside_many_who_leave, others_are_served_beside_who_wait):
        yield it.__name__, lambda it=it: it(front)


def leave_again_and_again(port, target, over, sources=(OWN,)):
    """Connects, asks, and closes in order 50 ms later, so many times a second, from each address in turn."""
    waiting, began, count = [], time.monotonic(), 0
    while not over.is_set():
        count += 1
        it = socket.create_connection(("127.0.0.1", port), timeout=5, source_address=(sources[count % len(sources)], 0))
        it.sendall(request(f"{target}?{count}"))
        waiting.append((time.monotonic() + 0.05, it))
        while waiting and waiting[0][0] < time.monotonic():
            waiting.pop(0)[1].close()
        time.sleep(max(0.0, began + count / RATE - time.monotonic()))
    for _, it in waiting:
        it.close()


def others_are_served_meanwhile(front):
    """150 times a second a client of one address asks for what its origin is silent on, and closes 50 ms later. Another one, of
    another address, gets what is stored all the while; when they have stopped, no link to the origin is left."""
    return served_beside_leavers(front, silent, [OWN])


def others_are_served_beside_slow_answers(front):
    """The same, and the origin answers after eight seconds."""
    return served_beside_leavers(front, answers_late, [OWN])


def others_are_served_beside_many_who_leave(front):
    """The same, and they come from six addresses in turn, so that none has many in progress."""
    return served_beside_leavers(front, answers_late, CROWD)


def answers_late(fetch):
    time.sleep(8)
    whole(200, "Cache-Control: no-store", content=b"late")(fetch)


def served_beside_leavers(front, answer, sources):
    front.origin.answers.update({"/a": whole(200, KEPT, content=b"x" * 1024), "/left": answer})
    expect("an answer before", 0, waits(front.http, 0.2, source=HONEST).count(None))
    over = threading.Event()
    crowd = threading.Thread(target=leave_again_and_again, args=[front.http, "/left", over, sources])
    crowd.start()
    try:
        time.sleep(1)
        told = waits(front.http, SECONDS, source=HONEST)
    finally:
        over.set()
        crowd.join()
    if None in told:
        raise Unexpected("while clients leave", "no answer that fails", summed(told))
    expect_within("the slowest answer", 0, SOON, max(told))
    wait_until(lambda: not connections_to_origin(front), "no link to the origin")
    return summed(told)


def others_are_served_beside_who_wait(front):
    """Four addresses ask 70 times each at once for what the origin answers after eight seconds, and wait: what is beyond 60 of one
    address is refused with 429, and there is room left for others at the cache."""
    front.origin.answers.update({"/a": whole(200, KEPT, content=b"x" * 1024), "/late": answers_late})
    expect("an answer before", 0, waits(front.http, 0.2, source=HONEST).count(None))
    crowd = []
    for i in range(4 * (IN_PROGRESS + 10)):
        it = socket.create_connection(("127.0.0.1", front.http), timeout=PATIENCE, source_address=(CROWD[i % 4], 0))
        it.sendall(request(f"/late?{i}", "Connection: close"))
        crowd.append(it)
    told = waits(front.http, 3, source=HONEST)
    statuses = [it.recv(65536)[9:12] for it in crowd]
    for it in crowd:
        it.close()
    if None in told:
        raise Unexpected("while clients wait", "no answer that fails", summed(told))
    expect_within("the slowest answer", 0, SOON, max(told))
    expect("statuses", {b"200", b"429"}, set(statuses))
    expect_within("requests that were let through", 4 * IN_PROGRESS - 4, 4 * IN_PROGRESS + 4, statuses.count(b"200"))
    wait_until(lambda: not connections_to_origin(front), "no link to the origin")
    return f"{summed(told)}; {statuses.count(b'429')} of {len(crowd)} refused"
