"""A scenario of deploy/revcache-records: of a server that is asked for longer than a record lasts, the latest records stay."""
import contextlib
import glob
import os
import re
import subprocess
import threading
import time

from live.client import PATIENCE
from live.ending import DRAINED, put
from live.expect import Unexpected, expect
from live.handed_on import Supervisor, ask
from live.origin import Origin, whole
from live.proxy import table_of
from live.record import replay
from live.scenario import KEPT, scenario

ROOT = os.path.dirname(os.path.dirname(os.path.dirname(os.path.realpath(__file__))))
# A record of so many bytes calls for the next, so many stay, so many seconds are between two starts, and so many are made.
BYTES, STAY, SECONDS, STARTS = 100000, 2, 2, 5
CONTENT = 4000


class Kept(Supervisor):
    """Starts the program once more whenever it has ended by its drain file, as systemd does."""

    def __init__(self, stage, options):
        super().__init__(stage, options)
        self.starts, self.is_over, self.fault = 0, threading.Event(), None
        self.thread = threading.Thread(target=self.start_again, args=[table_of([stage.origins[0].address])], daemon=True)

    def start_again(self, text):
        try:
            while not self.is_over.is_set():
                self.starts += 1
                self.start(text)
                expect("status, output and standard error", DRAINED, self.program.wait())
                os.remove(self.drain)
        except BaseException as fault:
            self.fault = fault


@contextlib.contextmanager
def records_kept(folder, drain):
    """The program of deploy/ at work on the records of a folder."""
    words = [f"{ROOT}/deploy/revcache-records", folder, str(BYTES), str(STAY), str(SECONDS), f"touch {drain}"]
    with subprocess.Popen(words, stdin=subprocess.DEVNULL, stdout=subprocess.PIPE, stderr=subprocess.PIPE) as it:
        try:
            yield
            expect("of revcache-records the status and what it says", (None, b""), (it.poll(), os.read(it.stderr.fileno(), 1) if it.poll() is not None else b""))
        finally:
            it.kill()


def page(fetch):
    """A page of its own for each number, which may be kept."""
    number = fetch.target.rpartition("?")[2]
    whole(200, KEPT, content=f"page {number}\n".encode() * CONTENT)(fetch)


def pages_of(effects):
    """Which pages the clients of a replay got, by their numbers."""
    text = b"".join(bytes(it) for it in effects.clients.values())
    return set(re.findall(rb"\r\n\r\npage ([0-9]+)\n", text))


@scenario
def the_latest_records_stay(stage):
    """The server begins anew whenever its record is large enough: no request fails, each record begins with what the one before it left (so a
    replay asks the origin for nothing that was held), and the last two have all of the latest requests."""
    stage.origin(Origin({"/page": page}))
    room = stage.room.name
    server = Kept(stage, ["--store", f"{room}/store", "--record", f"{room}/record.%s"])
    server.thread.start()
    numbers, latest = iter(range(1, 100000)), []
    with records_kept(room, server.drain):
        while server.starts < STARTS and server.fault is None:
            number = next(numbers)
            for target in (f"/page?{number}", "/page?0"):
                got, _ = ask(server.port, target)
                expect(f"the answer to {target}", (True, True), (got.startswith(b"HTTP/1.1 200 "), b"\r\n\r\npage " in got))
            latest.append((time.time(), number))
            time.sleep(0.02)
        wait_until_settled(room)
        # (what answers has begun: it sees a drain file that is put there now)
        ask(server.port, "/page?0")
    server.is_over.set()
    put(server.drain)
    server.thread.join(20)
    expect("of the program's ends", None, server.fault)
    server.socket.close()
    look_at_records(stage, room, latest)


def records_of(room):
    return sorted(glob.glob(f"{room}/record.??????????"))


def wait_until_settled(room):
    """Until the latest record is a short one, and the older ones have gone."""
    deadline = time.monotonic() + PATIENCE
    while len(found := records_of(room)) > STAY or os.path.getsize(found[-1]) >= BYTES:
        if time.monotonic() > deadline:
            raise Unexpected("records", STAY, found)
        time.sleep(0.1)


def look_at_records(stage, room, latest):
    records = records_of(room)
    expect("records that stay", STAY, len(records))
    effects = [replay(stage.program, it, f"{it}.store") for it in records]
    began = int(records[0].rpartition(".")[2])
    wanted = {b"%d" % number for moment, number in latest if moment > began + 1}
    expect("of the latest pages those that no replay sends", set(), wanted - set.union(*(pages_of(it) for it in effects)))
    asked = [text for it in effects for _, text in it.forwards.get(stage.origins[0].address, [])]
    expect("of replays the requests for what was held", [], [it for it in asked if b" /page?0 " in it])
    expect("stores beside no record", [], sorted(it for it in glob.glob(f"{room}/record.*.store") if it[: -len(".store")] not in records))
