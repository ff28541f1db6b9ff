"""Scenarios of a store's file where the program is killed, or a call fails, at each of its calls on that file: tools/kill_at, which `cc`
builds, stands in front of the system's. Never is a part of a store used, nor what was invalidated since."""
import os
import shutil
import subprocess

from live.expect import Skipped, Unexpected, expect
from live.restarts import Restarted, page
from live.scenario import scenario
from live.staying import STORED

SOURCE = os.path.join(os.path.dirname(os.path.dirname(os.path.realpath(__file__))), "kill_at", "kill_at.c")
# A run has some forty calls on the file.
MOST = 200
# That of table_of.
NAME = "edge"


class Tried(Restarted):
    """A program with a store in its file that holds /a, which is started again with a kill or a failure at one of its calls on that file."""

    def __init__(self, stage):
        if not shutil.which("cc"):
            raise Skipped("there is no cc")
        super().__init__(stage, {"/a": page(b"hello"), "/b": page(b"other")})
        self.library = f"{stage.room.name}/kill_at.so"
        subprocess.run(["cc", "-O1", "-shared", "-fPIC", "-o", self.library, SOURCE], check=True)
        self.ask("/a", STORED, b"hello")
        self.drain()
        self.whole = self.content()

    def start_with(self, **words):
        """Starts it with the file as it was, and these words to kill_at; whether it came as far as to listen."""
        self.remove()
        with open(self.store, "wb") as it:
            it.write(self.whole)
        words = {key: str(value) for key, value in words.items()}
        environment = {**os.environ, "LD_PRELOAD": self.library, "KILL_NAME": self.store, **words}
        options = ["--store", self.store, "--drain", self.file]
        try:
            self.proxy = self.stage.proxy(self.origin.address, options=options, records=False, environment=environment)
        except Unexpected:
            return False
        return True

    def remove(self):
        for it in (*self.files(), os.path.basename(self.file)):
            path = f"{os.path.dirname(self.store)}/{it}"
            if os.path.exists(path):
                os.remove(path)

    def invalidate(self):
        """Drops /a, stores /b, and ends by the drain; its status."""
        client = self.proxy.client()
        expect("status of POST", 200, client.ask("/a", method="POST").status)
        client.leave()
        self.ask("/b", STORED, b"other")
        with open(self.file, "wb"):
            pass
        return self.proxy.wait()[0]

    def member(self, path, content):
        """What Cache-Status says of a page that is asked for."""
        client = self.proxy.client()
        answer = client.ask(path)
        client.leave()
        expect("status and content", (200, content), (answer.status, answer.content))
        return answer.value("Cache-Status")

    def expect_sound(self, is_dropped):
        """Started again: what was dropped is gone, whatever is held is whole, and nothing is left beside it. Whether /a and /b are held."""
        warnings = self.start()
        expect("warnings", [], warnings)
        expect("files while it serves", [], self.files())
        held = [self.member(path, content).startswith(f"{NAME};hit") for path, content in (("/a", b"hello"), ("/b", b"other"))]
        if is_dropped:
            expect("that what was dropped is held", False, held[0])
        self.kill()
        return held


def tries(at, words_of, is_over):
    """Tries each call in turn, until a run is over as if nothing had been: whether each came as far as to listen, and whether /a and /b
    were held behind it."""
    for number in range(1, MOST):
        listened = at.start_with(**words_of(number))
        status = at.invalidate() if listened else None
        if is_over(number, status):
            return
        yield listened, *at.expect_sound(listened)
    raise Unexpected("calls on the file", f"fewer than {MOST}", MOST)


@scenario
def a_kill_at_each_call_leaves_no_part_of_a_store(stage):
    """Killed in front of each call on the file of the store, and amid each write: at the start, and at the end behind a POST that drops /a.
    Until the file is taken away the next start uses it, and behind the last step at the end the new one."""
    at = Tried(stage)
    for more in ({}, {"KILL_HALF": 1}):
        found = list(tries(at, lambda number, more=more: {"KILL_AT": number, **more}, lambda _, status: status == 0))
        expect("kills at the start and at the end", {True, False}, {it[0] for it in found})
        expect("that /a is held behind the first, and /b behind the last", (True, True), (found[0][1], found[-1][2]))
        expect("that there are more than ten", True, len(found) > 10)


@scenario
def a_failure_at_each_call_leaves_no_part_of_a_store(stage):
    """Each call on the file of the store fails in turn: the program says so or goes on, and the next one uses a whole store or none."""
    at, log = Tried(stage), f"{stage.room.name}/calls"

    def words_of(number):
        for it in (log, f"{at.store}.bad"):
            if os.path.exists(it):
                os.remove(it)
        return {"FAIL_AT": number, "KILL_LOG": log}

    def is_over(number, status):
        """The run had no such call."""
        expect(f"where call {number} fails the status", True, status in (None, 0, 1))
        if os.path.exists(f"{at.store}.bad"):
            os.remove(f"{at.store}.bad")
        with open(log, encoding="ascii") as it:
            return len(it.read().split()) < number

    found = list(tries(at, words_of, is_over))
    expect("that there are more than ten", True, len(found) > 10)
