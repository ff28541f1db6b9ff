"""Scenarios of a store that is kept over a restart: `--store FILE` is written at the end of a drain, and read and taken away at the start.
After a kill, and where the file was damaged, the store begins empty."""
import os
import shutil
import stat
import subprocess
import time

from live.expect import expect, expect_answer, expect_within
from live.origin import Origin, whole
from live.proxy import WARNING
from live.record import compare_clients, replay
from live.scenario import KEPT, scenario
from live.staying import HIT, STORED

# How a server ends that was drained: its status, its output, and what it says behind its first line.
DRAINED = 0, b"", "draining\n"
# What is said of a file that isn't used, behind its name.
NOT_USED = "isn't used: "
# Where the digest begins, from the end; the first line of the format, and that of the next version.
DIGEST, FIRST, NEXT_FIRST = 8, b"revcache store 1\n", b"revcache store 2\n"


class Restarted:
    """A program that keeps its store in a file, and is drained, killed and started again before the same origin."""

    def __init__(self, stage, answers, **table):
        self.stage, self.table = stage, table
        self.origin = stage.origin(Origin(answers))
        self.store, self.file = f"{stage.room.name}/store", f"{stage.room.name}/drain"
        self.records = False
        self.start()

    def start(self):
        """Starts it; the warnings that it gives at its start."""
        if os.path.exists(self.file):
            os.remove(self.file)
        options = ["--store", self.store, "--drain", self.file]
        self.proxy = self.stage.proxy(self.origin.address, options=options, records=self.records, **self.table)
        return [it for it in self.proxy.told if it.startswith(WARNING)]

    def drain(self):
        with open(self.file, "wb"):
            pass
        expect("status, output and standard error", DRAINED, self.proxy.wait())

    def restart(self):
        self.drain()
        return self.start()

    def kill(self):
        self.proxy.process.kill()
        self.proxy.process.communicate()

    def ask(self, path, member, content, **more):
        """Asks, by a connection of its own, and holds the answer to these."""
        client = self.proxy.client()
        answer = client.ask(path, **more)
        expect_answer(answer, 200, member, content)
        client.leave()
        return answer

    def fetches(self):
        return [(it.method, it.target) for it in self.origin.fetches]

    def files(self):
        """The names of what stands beside the store's own."""
        folder, name = os.path.split(self.store)
        return sorted(it for it in os.listdir(folder) if it.startswith(name))

    def content(self):
        with open(self.store, "rb") as it:
            return it.read()


def page(text):
    return whole(200, KEPT, content=text)


@scenario
def a_store_is_kept_over_a_restart(stage):
    """What was stored is sent after a restart, and after a second one, with the age that it has then. The file is the owner's alone,
    and gone while the server serves."""
    at = Restarted(stage, {"/a": page(b"hello"), "/b": page(b"other")})
    at.ask("/a", STORED, b"hello")
    stored = time.time()
    at.drain()
    expect("files", ["store"], at.files())
    expect("the mode of the file", 0o600, stat.S_IMODE(os.stat(at.store).st_mode))
    time.sleep(2)
    expect("warnings", [], at.start())
    expect("files while it serves", [], at.files())
    age = int(at.ask("/a", HIT, b"hello").value("Age"))
    expect_within("the age", int(time.time() - stored) - 1, int(time.time() - stored) + 1, age)
    at.ask("/b", STORED, b"other")
    expect("warnings", [], at.restart())
    at.ask("/a", HIT, b"hello")
    at.ask("/b", HIT, b"other")
    expect("fetches", [("GET", "/a"), ("GET", "/b")], at.fetches())


@scenario
def an_empty_store_is_kept_too(stage):
    """Nothing was stored: a file without a response is written, and the next start has nothing to say."""
    at = Restarted(stage, {"/a": page(b"hello")})
    # (a file of --drain that is there at the first look counts as left by somebody)
    time.sleep(1)
    at.drain()
    expect("the file's first line", FIRST, at.content()[: len(FIRST)])
    expect("warnings", [], at.start())
    at.ask("/a", STORED, b"hello")


@scenario
def a_killed_server_begins_empty(stage):
    """The file was taken away at the start: after a kill there is none, and each target is fetched anew."""
    at = Restarted(stage, {"/a": page(b"hello")})
    at.ask("/a", STORED, b"hello")
    at.restart()
    at.ask("/a", HIT, b"hello")
    at.kill()
    expect("files", [], at.files())
    expect("warnings", [], at.start())
    at.ask("/a", STORED, b"hello")


@scenario
def what_was_invalidated_before_a_kill_stays_away(stage):
    """A POST drops what was held since an earlier process. After a kill nothing of the old file comes back, not even where a kill came
    between the steps of the start and has left what was read."""
    at = Restarted(stage, {"/a": page(b"hello")})
    at.ask("/a", STORED, b"hello")
    at.drain()
    shutil.copyfile(at.store, f"{at.store}-then")
    at.start()
    client = at.proxy.client()
    expect("status of POST", 200, client.ask("/a", method="POST").status)
    client.leave()
    at.kill()
    shutil.move(f"{at.store}-then", f"{at.store}.read")
    expect("warnings", [], at.start())
    expect("files", [], at.files())
    at.ask("/a", STORED, b"hello")


@scenario
def the_order_of_use_is_kept(stage):
    """What was used longest ago goes first, also where it was used before the restart: of three /b."""
    at = Restarted(stage, {f"/{it}": page(it.encode()) for it in "abcd"}, capacity=3)
    for it in "abc":
        at.ask(f"/{it}", STORED, it.encode())
    at.ask("/a", HIT, b"a")
    at.restart()
    at.ask("/d", STORED, b"d")
    for it in "cad":
        at.ask(f"/{it}", HIT, it.encode())
    at.ask("/b", STORED, b"b")


def expect_refused(stage, change, why, **table):
    """A file that was changed so isn't used: that is told with these words, the file is kept, and the store begins empty."""
    at = Restarted(stage, {"/a": page(b"hello"), "/b": page(b"other")})
    at.ask("/a", STORED, b"hello")
    at.ask("/b", STORED, b"other")
    at.drain()
    changed = change(at.content())
    with open(at.store, "wb") as it:
        it.write(changed)
    at.table = table
    bad = f"{at.store}.bad"
    expect("warnings", [f"{WARNING}the store {at.store} {NOT_USED}{why}; the store begins empty, and {bad} is kept"], at.start())
    expect("files", ["store.bad"], at.files())
    with open(bad, "rb") as it:
        expect("the file that is kept", changed, it.read())
    at.ask("/a", STORED, b"hello")
    at.kill()


@scenario
def a_damaged_store_is_not_used(stage):
    """One bit of a content is another, the file is cut, something follows it, or it is none."""
    at = b"hello"
    for change, why in (
        (lambda it: it.replace(at, b"hellp"), "its digest isn't that of its bytes"),
        (lambda it: it[: it.index(at)], "it ends early, behind 0 whole responses"),
        (lambda it: it[:-DIGEST], "it ends early, behind 2 whole responses"),
        (lambda it: it + b"x", "bytes follow its end"),
        (lambda it: b"version = 4\nname = \"edge\"\n", "it is no file of a store"),
        (lambda it: it.replace(FIRST, NEXT_FIRST), "its format is of another version"),
    ):
        expect_refused(stage, change, why)
        os.remove(f"{stage.room.name}/store.bad")


@scenario
def a_store_above_its_bounds_is_not_used(stage):
    """The table has a smaller capacity now, or a smaller max_store: no part of the file is used."""
    expect_refused(stage, lambda it: it, "it has more responses than the table's capacity", capacity=1)
    os.remove(f"{stage.room.name}/store.bad")
    large = {"version": 4, "max_stored": 65536, "max_store": 65536}
    at = Restarted(stage, {"/a": page(b"x" * 60000), "/b": page(b"y" * 60000)})
    at.ask("/a", STORED, b"x" * 60000)
    at.ask("/b", STORED, b"y" * 60000)
    at.drain()
    at.table = large
    told = f"{WARNING}the store {at.store} {NOT_USED}with response 2 it is above the table's max_store; the store begins empty, and {at.store}.bad is kept"
    expect("warnings", [told], at.start())
    at.ask("/a", STORED, b"x" * 60000)


@scenario
def a_store_that_is_cut_off_is_not_kept(stage):
    """A request is still open when the time of the drain is over: its answer may be one that drops what is held. That is told, and no
    file is written."""
    at = Restarted(stage, {"/a": page(b"hello"), "/silent": lambda fetch: None})
    at.ask("/a", STORED, b"hello")
    at.kill()
    options = ["--store", at.store, "--drain", at.file, "--drain-timeout", "2"]
    at.proxy = stage.proxy(at.origin.address, options=options, records=False)
    client = at.proxy.client()
    client.send(b"GET /silent HTTP/1.1\r\nHost: h.example\r\n\r\n")
    at.origin.wait_for(2)
    with open(at.file, "wb"):
        pass
    told = "draining\nwarning: the store isn't kept: 1 requests were still open\n"
    expect("status, output and standard error", (0, b"", told), at.proxy.wait())
    expect("files", [], at.files())


@scenario
def a_record_over_a_store_is_replayed_over_it(stage):
    """What was kept is held at first, so the record of the next server begins with it: the file stays beside the record, and a replay over
    it sends what was sent. A replay without it asks the origin."""
    at = Restarted(stage, {"/a": page(b"hello"), "/b": page(b"other")})
    at.ask("/a", STORED, b"hello")
    at.drain()
    at.records = True
    expect("warnings", [], at.start())
    server, kept = at.proxy, f"{at.proxy.record}.store"
    at.ask("/a", HIT, b"hello")
    at.ask("/b", STORED, b"other")
    at.drain()
    expect("the mode of the file", 0o600, stat.S_IMODE(os.stat(kept).st_mode))
    effects = replay(stage.program, server.record, kept)
    compare_clients(server.record, effects, server.clients, False)
    alone = replay(stage.program, server.record)
    expect("requests of both replays", (1, 2), tuple(len(it.forwards[at.origin.address]) for it in (effects, alone)))


@scenario
def a_replay_over_what_is_no_store_sends_nothing(stage):
    """Of the file that a replay is to begin over one bit is another, or there is none: that is told, with status 1, and nothing is sent."""
    at = Restarted(stage, {"/a": page(b"hello")})
    at.ask("/a", STORED, b"hello")
    at.drain()
    at.records = True
    at.start()
    at.kill()
    kept = f"{at.proxy.record}.store"
    with open(kept, "rb") as it:
        content = it.read()
    with open(kept, "wb") as it:
        it.write(content.replace(b"hello", b"hellp"))
    for store, told in ((kept, b"store fault 8\n"), (f"{kept}-not", b"read fault\n")):
        with open(at.proxy.record, "rb") as script:
            ran = subprocess.run([stage.program, "replay", "--store", store], stdin=script, capture_output=True, timeout=10)
        expect("status, output and standard error", (1, b"", told), (ran.returncode, ran.stdout, ran.stderr))
