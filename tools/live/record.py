"""Replays the record of a run, and compares what went out with what came in at the other ends."""
import subprocess

from live.client import PATIENCE
from live.expect import Unexpected, expect
from live.matching import match, numbers_of
from live.script import happenings_of


class Effects:
    """The effects that a replay writes, by the end that they are for."""

    def __init__(self, text):
        self.clients, self.forwards, self.closed = {}, {}, set()
        at = 0
        while at < len(text):
            end = text.index(b"\n", at)
            word, number, *rest = text[at:end].decode().split(" ")
            at = end + 1
            if rest:
                length = int(rest[-1])
                block, at = text[at : at + length], at + length + 1
            if word == "client":
                self.clients.setdefault(int(number), bytearray()).extend(block)
            elif word == "forward":
                self.forwards.setdefault(rest[0], []).append((int(number), block))
            elif word == "close":
                self.closed.add(int(number))


def replay(program, file, store=None):
    """The effects of a recorded script, over the store in a file if one is given."""
    words = [program] if store is None else [program, "replay", "--store", store]
    with open(file, "rb") as script:
        ran = subprocess.run(words, stdin=script, capture_output=True, timeout=60)
    expect("from the record's replay the status and standard error", (0, b""), (ran.returncode, ran.stderr))
    return Effects(ran.stdout)


def compare_clients(file, effects, clients, is_cut):
    """Each client got the bytes of the replay, those of its number: all of them, but where it went away itself or was cut off. A record
    that was cut has the first part of what happened."""
    with open(file, "rb") as script:
        numbers = numbers_of(script.read(), effects)
    for it, number in zip(clients, match(numbers, clients, is_cut)):
        if number in effects.closed and not it.has_left and not it.has_ended:
            raise Unexpected(f"client {it.number}, by the replay,", "to be closed", "an open connection")


def refused_in(script):
    """The links of a record that were refused: by their origin, or at once, since it has as many as may be or is silent."""
    lines = (words.split(b" ") for words, _ in happenings_of(script))
    return {int(it[1]) for it in lines if it[0] == b"fail" and it[2] == b"refused"}


def compare_origins(file, effects, origins, is_cut):
    """Each connection that an origin accepted brought the bytes of the replay's forward, but for those that were refused."""
    with open(file, "rb") as script:
        refused = refused_in(script.read())
    for it in origins:
        wanted = [text for number, text in effects.forwards.get(it.address, []) if number not in refused]
        got = it.fetches
        # (on a busy machine the thread that accepts may come late; of a record that is cut the last may never come)
        it.wait_for_connections(len(wanted), 1 if is_cut else PATIENCE)
        for i, (text, fetch) in enumerate(zip(wanted, got)):
            came = bytes(fetch.received)
            expect(f"by connection {i + 1} to an origin, by the replay,", text if fetch.is_whole else text[: len(came)], came)
        if not is_cut:
            expect(f"by the replay connections to {it.address}:", len(wanted), len(got))
