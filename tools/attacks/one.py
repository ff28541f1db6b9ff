"""One case again: what a client or an origin sends, whole, byte by byte and cut by chance; what
came of it is printed."""
import random

from attacks import beside_real, hostile, hostile_answers, smuggling
from attacks.cases import Case
from attacks.client import play
from attacks.findings import Found
from attacks.recorder import Recorder

CUTS = 20


def bytes_of(text):
    """The bytes that a file has, or that hexadecimal digits spell."""
    try:
        return bytes.fromhex(text)
    except ValueError:
        with open(text, "rb") as it:
            return it.read()


def ways(data):
    """The same bytes in other pieces."""
    dice = random.Random(1)
    yield Case("whole", data)
    yield Case("byte by byte", data, range(1, min(len(data), 2000)))
    for i in range(CUTS if len(data) > 3 else 0):
        yield Case(f"cut by chance {i + 1}", data, dice.sample(range(1, len(data)), 2))


def play_case(text, start, tally, names):
    """What a client sends: what came at a recording origin and back is shown for the whole, and
    judged for each way."""
    data, recorder = bytes_of(text), Recorder()
    with start(recorder) as proxy:
        for case in ways(data):
            got = play(proxy.port, case.pieces())
            seen = recorder.take()
            if case.name == "whole":
                print(f"sent: {data!r}")
                print("".join(f"at the origin: {it!r}\n" for it in seen) + f"at the client: {got.data!r}")
            try:
                smuggling.hold(case, seen, got)
            except Found as found:
                tally.find(found, f"smuggling, {case.name}")
            tally.counts["cases"] += 1
    recorder.close()
    beside_real.run(names, list(ways(data)), start, tally)


def play_answer(text, start, tally):
    """What an origin answers: what a client got to each method is shown."""
    data, name = bytes_of(text), "the given one"
    known = next((it for it in hostile_answers.ANSWERS.values() if it[0] == data), None)
    hostile.ANSWERS[name] = known or (data, None)
    hostile.NAMES.append(name)
    origin = hostile.HostileOrigin()
    with start(origin) as proxy:
        for method in hostile.METHODS:
            for how in ("whole", "bytes", *(f"c{i}" for i in range(CUTS))):
                try:
                    got = hostile.exchange(proxy.port, name, method, how)
                    if how == "whole":
                        print(f"to a {method}: {got.data!r}")
                except Found as found:
                    tally.find(found, f"hostile origins, {method}, {how}")
                tally.counts["hostile answers"] += 1
    origin.close()
