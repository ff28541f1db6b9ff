"""How many calls of the system a request takes, counted by strace."""
import os
import shutil
import signal
import subprocess
import time

from live.client import PATIENCE, request
from live.expect import Skipped, expect, expect_answer
from live.origin import Origin, whole
from live.scenario import KEPT, scenario

# Requests of each kind, one behind the other on one connection, and the most calls of one. A hit: a wait, a read, a write. A miss: of its client
# those, and of its link a socket and its connect, a write, its events, a wait, a read, and two that end it.
REQUESTS = 200
MOST = {"hit": 3.4, "miss": 11.5}


class Counted:
    """The calls of a process, while this is entered."""

    def __init__(self, process, file):
        self.process, self.file, self.strace = process, file, shutil.which("strace")
        if not self.strace:
            raise Skipped("strace isn't here")

    def __enter__(self):
        self.run = subprocess.Popen([self.strace, "-f", "-o", self.file, "-p", str(self.process.pid)], stdout=subprocess.DEVNULL, stderr=subprocess.PIPE)
        said = self.run.stderr.readline().decode()
        if "attached" not in said:
            self.run.wait()
            raise Skipped(f"strace can't follow a process here: {said.strip()}")
        return self

    def __exit__(self, *_):
        self.run.send_signal(signal.SIGINT)
        self.run.wait(PATIENCE)
        self.run.stderr.close()

    def names(self):
        """The name of each call, in order. (Lines that are no call tell of signals and ends.)"""
        with open(self.file, encoding="utf-8") as it:
            words = [line.split(None, 1)[1] for line in it]
        return [it.split("(")[0] for it in words if "(" in it and not it.startswith(("+++", "---", "<..."))]


def calls_of(stage, kind, paths):
    """The calls for requests of these paths, one behind the other."""
    stage.origin(Origin({"/": whole(200, KEPT, content=b"kept"), **{it: whole(200, "Cache-Control: no-store", content=b"new") for it in paths if it != "/"}}))
    proxy = stage.proxy(records=False)
    client = proxy.client()
    expect_answer(client.ask("/"), 200, "edge;fwd=uri-miss;ttl=600;stored", b"kept")
    counted = Counted(proxy.process, os.path.join(proxy.folder, f"calls-{kind}"))
    with counted:
        for it in paths:
            expect(f"the status of {it}", 200, client.ask(it).status)
        time.sleep(0.05)
    return counted.names()


def expect_few(stage, kind, paths):
    names = calls_of(stage, kind, paths)
    each = len(names) / len(paths)
    counts = ", ".join(f"{it} {names.count(it)}" for it in sorted(set(names)))
    expect(f"calls of a {kind}, at most {MOST[kind]}: {each:.2f} ({counts})", True, each <= MOST[kind])


@scenario
def a_hit_takes_three_calls_of_the_system(stage):
    expect_few(stage, "hit", ["/"] * REQUESTS)


@scenario
def a_miss_takes_eleven_calls_of_the_system(stage):
    expect_few(stage, "miss", [f"/{it}" for it in range(REQUESTS)])


# So many clients that ask at once for 4 KiB each: in a turn the replies take more than the 128 KiB that the C library keeps by itself.
BUSY, ROUNDS, BEGINNING = 64, 60, 20
OF_MEMORY = ("brk", "mmap", "munmap", "mremap")


def ask_together(clients):
    """Each asks, and each is answered then."""
    for it in clients:
        it.send(request("/"))
    for it in clients:
        expect("the status of a hit", 200, it.response().status)


@scenario
def busy_turns_keep_the_memory_that_they_free(stage):
    """What a turn of many replies frees the next one uses: the system isn't asked for it each time."""
    stage.origin(Origin({"/": whole(200, KEPT, content=b"k" * 4096)}))
    proxy = stage.proxy(records=False)
    clients = [proxy.client() for _ in range(BUSY)]
    expect_answer(clients[0].ask("/"), 200, "edge;fwd=uri-miss;ttl=600;stored", b"k" * 4096)
    for _ in range(BEGINNING):
        ask_together(clients)
    counted = Counted(proxy.process, os.path.join(proxy.folder, "calls-busy"))
    with counted:
        for _ in range(ROUNDS):
            ask_together(clients)
    names = counted.names()
    count = sum(names.count(it) for it in OF_MEMORY)
    expect(f"calls for memory of {ROUNDS} rounds of {BUSY} hits, at most 6: {count}", True, count <= 6)


OF_OPTIONS = ("ioctl", "fcntl", "setsockopt", "getsockopt", "getpeername", "getsockname")


@scenario
def a_client_is_accepted_by_one_call(stage):
    """A stream comes from its listener with all its options: that it never blocks, its buffer, and that it sends at once."""
    stage.origin(Origin({"/": whole(200, KEPT, content=b"kept")}))
    proxy = stage.proxy(records=False)
    expect_answer(proxy.client().ask("/"), 200, "edge;fwd=uri-miss;ttl=600;stored", b"kept")
    counted = Counted(proxy.process, os.path.join(proxy.folder, "calls-accept"))
    with counted:
        for _ in range(20):
            expect("the status of a hit", 200, proxy.client().ask("/").status)
    names = counted.names()
    expect("connections that were accepted", True, names.count("accept4") >= 20)
    expect("calls for options of their streams", 0, sum(names.count(it) for it in OF_OPTIONS))
