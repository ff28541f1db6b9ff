"""What a restart with `--store` takes, measured by hand: how long the file is written and read, and the memory meanwhile. The file is on
/dev/shm, which is memory, so that no disk is measured."""
import os
import tempfile
import time

from live.client import request
from live.expect import expect
from live.honest import SIDE_BY_SIDE, connect
from live.peers import Ours
from shared.sockets import received

MEMORY, WITHIN = "/dev/shm", 120
# The most responses that a table lets be held, and bytes of each, so that all come to a gigabyte.
MOST, LENGTH = 65536, 16384


def peak(proxy):
    """The most memory that the program has held, in bytes."""
    return proxy.memory("VmHWM:")


def wait_for(path, proxy, most=0, spent=0):
    """Until a file is there: when that was, and the most memory and the processor's time that the program had taken."""
    deadline = time.monotonic() + WITHIN
    while not os.path.exists(path):
        if time.monotonic() > deadline:
            raise OSError(f"{path} isn't there within {WITHIN} s")
        try:
            most, spent = max(most, peak(proxy)), proxy.processor_seconds()
        except (OSError, StopIteration):
            pass
        time.sleep(0.002)
    return time.monotonic(), most, spent


def told(what, size, seconds, spent, memory, before):
    rate = f"{size / spent / 1e6:,.0f} MB in a second of the processor"
    held = f"{memory / 1e6:,.0f} MB held at most, {(memory - before) / 1e6:,.1f} MB beside the store"
    print(f"{what}: {size / 1e6:,.0f} MB in {seconds:.2f} s, {spent:.2f} s of the processor's, {rate}; {held}", flush=True)


def fill(proxy, count, length):
    """Asks for so many targets that may be kept, over a few connections."""
    ends = [connect(proxy) for _ in range(SIDE_BY_SIDE)]
    for first in range(0, count, len(ends)):
        asked = ends[: count - first]
        for i, it in enumerate(asked):
            it.sendall(request(f"/kept?{length}-{first + i}"))
        for it in asked:
            read_whole(it, length)
    for it in ends:
        it.close()


def read_whole(connection, length):
    """Reads one answer with a content of so many bytes; its head."""
    text = b""
    for data in received(connection):
        text += data
        if (at := text.find(b"\r\n\r\n")) >= 0 and len(text) >= at + 4 + length:
            return text[:at]
    raise OSError(f"an answer ends early, behind {len(text)} bytes")


def measure_restart(program, _room, origin, count=MOST):
    """So many responses of 16 KiB, written at the end of a drain and read at the next start."""
    with tempfile.TemporaryDirectory(prefix="live-test-", dir=MEMORY) as room:
        store, drain = f"{room}/store", f"{room}/drain"
        options, table = ["--store", store, "--drain", drain], {"capacity": count}
        proxy = Ours(program, room, [origin], options, **table)
        fill(proxy, count, LENGTH)
        held = proxy.resident()
        print(f"{count:,} responses are stored: {held / 1e6:,.0f} MB held", flush=True)
        with open(drain, "wb"):
            pass
        began, most, before = wait_for(f"{store}.new", proxy)
        ended, most, behind = wait_for(store, proxy, most)
        expect("status at the end of the drain", 0, proxy.wait()[0])
        size = os.path.getsize(store)
        told("written", size, ended - began, behind - before, most, held)
        os.remove(drain)
        began = time.monotonic()
        proxy = Ours(program, room, [origin], options, **table)
        seconds = time.monotonic() - began
        told("read, from the start until it listens", size, seconds, proxy.processor_seconds(), peak(proxy), proxy.resident())
        with connect(proxy) as it:
            it.sendall(request(f"/kept?{LENGTH}-{count - 1}"))
            expect("that the last one is held", True, b"\r\nCache-Status: edge;hit;" in read_whole(it, LENGTH))
        proxy.end()
