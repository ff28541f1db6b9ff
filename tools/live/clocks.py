"""Scenarios of a clock that doesn't go on as time does: tools/shift_clock, which `cc` builds, stands in front of the system's."""
import os
import re
import shutil
import subprocess
import time

from live.expect import Skipped, Unexpected, expect, expect_answer, expect_within
from live.origin import Origin, whole
from live.scenario import KEPT, scenario
from live.staying import HIT, STORED

SOURCE = os.path.join(os.path.dirname(os.path.dirname(os.path.realpath(__file__))), "shift_clock", "shift_clock.c")
WARNING = re.compile(r"warning: the clock went back by (\d+) seconds; what was stored before may be sent for so much longer\n")


class Clock:
    """The clock that a program sees, so many seconds ahead of the system's: that of the day, or the one that never goes back."""

    def __init__(self, folder, ahead, name="SHIFT_CLOCK"):
        if not shutil.which("cc"):
            raise Skipped("there is no cc")
        library, self.file = f"{folder}/shift_clock.so", f"{folder}/clock"
        subprocess.run(["cc", "-O1", "-shared", "-fPIC", "-o", library, SOURCE], check=True)
        self.set(ahead)
        self.environment = {**os.environ, "LD_PRELOAD": library, name: self.file}

    def set(self, ahead):
        with open(f"{self.file}.new", "w", encoding="ascii") as it:
            it.write(str(ahead))
        os.replace(f"{self.file}.new", self.file)


@scenario
def a_clock_that_goes_back_is_told(stage):
    """An hour back, and then ten seconds: the first is told by its seconds, the second comes within a minute. What was stored before
    counts as received in the future, so as of no age."""
    clock = Clock(stage.room.name, 3600)
    origin = stage.origin(Origin({"/a": whole(200, KEPT, content=b"hello")}))
    proxy = stage.proxy(environment=clock.environment)
    client = proxy.client()
    expect_answer(client.ask("/a"), 200, STORED, b"hello")
    time.sleep(2)
    for ahead in (0, -10):
        clock.set(ahead)
        time.sleep(2)
        answer = client.ask("/a")
        expect_answer(answer, 200, HIT, b"hello")
        expect("Age", "0", answer.value("Age"))
    proxy.process.terminate()
    status, out, err = proxy.wait()
    told = WARNING.fullmatch(err)
    if told is None or not 3595 <= int(told[1]) <= 3600:
        raise Unexpected("on standard error", "one line, that the clock went back by about 3600 seconds", err)
    expect("on standard output", b"", out)
    proxy.compare([origin])


@scenario
def a_clock_that_goes_back_is_recorded(stage):
    """Two hundred seconds on, and then a hundred back: what is stored is as old as the clock has it, and a replay of the record tells the
    same ages to the byte."""
    clock = Clock(stage.room.name, 0)
    stage.origin(Origin({"/a": whole(200, KEPT, content=b"hello")}))
    client = stage.proxy(environment=clock.environment).client()
    expect_answer(client.ask("/a"), 200, STORED, b"hello")
    for ahead in (200, 100):
        clock.set(ahead)
        answer = client.ask("/a")
        expect("status and content", (200, b"hello"), (answer.status, answer.content))
        expect_within("by its Age an answer", ahead, ahead + 20, int(answer.value("Age")))
    # (that it went back may be told meanwhile)
    stage.lines = range(2)
