"""Scenarios of what the bounds come to in memory: `check` tells it of a table, and `serve` of all, and both where that is more than there is."""
import os

from live.expect import Unexpected, expect
from live.origin import Origin, whole
from live.programs import run
from live.proxy import table_of
from live.scenario import KEPT, scenario

# Bytes beside the content of a stored response, and of a connection, as docs/LIMITS.md has them.
BESIDE, CONNECTION = 80000, 16384
CGROUPS = "/sys/fs/cgroup"


def megabytes(count):
    return -(-count // 1000000)


def number_in(path):
    """The number that is a file's text, or none."""
    try:
        with open(path, encoding="ascii") as it:
            return int(it.read())
    except (OSError, ValueError):
        return None


def bounds_of_cgroups():
    """The bounds of this process's cgroups for memory, from its own up to the top, in either form of the system's."""
    with open("/proc/self/cgroup", encoding="ascii") as it:
        lines = [line.rstrip("\n").split(":", 2) for line in it]
    for _, controllers, path in lines:
        is_one = not controllers
        if is_one or "memory" in controllers.split(","):
            top, name = (CGROUPS, "memory.max") if is_one else (f"{CGROUPS}/memory", "memory.limit_in_bytes")
            parts = [it for it in path.split("/") if it]
            yield from (number_in(os.path.join(top, *parts[:count], name)) for count in range(len(parts) + 1))


def allowed():
    """How much memory there is for a program that is started here, and what says so."""
    with open("/proc/meminfo", encoding="ascii") as it:
        machine = next(int(line.split()[1]) * 1024 for line in it if line.startswith("MemTotal:"))
    least = min([it for it in bounds_of_cgroups() if it is not None], default=machine)
    return (least, "this cgroup may have") if least < machine else (machine, "this machine has")


def told_of_store(capacity, max_stored, max_store=None):
    """What `check` tells of a table's store."""
    most, (bytes_there, owner) = capacity * (max_stored + BESIDE), allowed()
    most = most if max_store is None else min(most, max_store + max_store // 10)
    text = f"the store takes {megabytes(most)} MB at most\n"
    if most > bytes_there:
        text += f"that is more than the {megabytes(bytes_there)} MB that {owner}: lower capacity, max_stored or max_store\n"
    return text


@scenario
def a_check_tells_what_the_store_takes(stage):
    """`check` tells the megabytes of a table's store, rounded up, and where there are fewer."""
    file = f"{stage.room.name}/table.toml"
    for capacity, max_stored, most in ((1, 0, 1), (64, 100000, 12), (1000, 100000, 180), (25, 920000, 25), (65536, 16777216, 1104755)):
        with open(file, "w", encoding="utf-8") as it:
            it.write(table_of(["127.0.0.1:1"], capacity=capacity, max_stored=max_stored, max_body=16777216))
        status, out, err = run(stage, "check", file)
        expect("status and standard error", (0, ""), (status, err))
        expect(f"of {capacity} responses of {max_stored} bytes", f"ok 1 lines\n{told_of_store(capacity, max_stored)}", out)
        if f" {most} MB at most\n" not in out:
            raise Unexpected("from check", f"{most} MB", out)


@scenario
def a_check_tells_what_the_store_takes_by_weight(stage):
    """Where a table bounds the bytes of its store, `check` tells these and a tenth of them, if not the number of responses allows less."""
    file = f"{stage.room.name}/table.toml"
    for capacity, max_stored, max_store, most in ((1000, 100000, 65536, 1), (1000, 100000, 100000000, 110), (1000, 100000, 200000000, 180)):
        with open(file, "w", encoding="utf-8") as it:
            it.write(table_of(["127.0.0.1:1"], capacity=capacity, max_stored=min(max_stored, max_store), max_body=16777216, version=4, max_store=max_store))
        status, out, err = run(stage, "check", file)
        expect("status and standard error", (0, ""), (status, err))
        expect(f"of {max_store} bytes", f"ok 1 lines\n{told_of_store(capacity, min(max_stored, max_store), max_store)}", out)
        if f" {most} MB at most\n" not in out:
            raise Unexpected("from check", f"{most} MB", out)


@scenario
def a_server_tells_what_its_bounds_come_to(stage):
    """`serve` tells at its start what the store, what is in progress and connections take at most; with a warning where there is less."""
    stage.origin(Origin({"/a": whole(200, KEPT, content=b"hello")}))
    # (64 responses of 100,000 bytes; twice 1,000,000; ten connections)
    small = stage.proxy(options=["--content-limit", "1000000", "--connections", "10"])
    told = "at most 14 MB are held: 12 of stored responses, 3 of what is in progress and connections"
    expect("in front of its address", [told], small.told)
    expect("an answer", 200, small.client().ask("/a").status)
    logging = stage.proxy(options=["--content-limit", "1000000", "--connections", "10", "--log", f"{stage.room.name}/log"], records=False)
    expect("in front of its address, with a log", [told], logging.told)
    large = stage.proxy(options=["--content-limit", "1099511627776"], capacity=65536, max_stored=1000000, records=False)
    count, owner = allowed()
    expect("lines in front of its address", 2, len(large.told))
    warning = f"warning: that is more than the {megabytes(count)} MB that {owner}: lower capacity, max_stored, max_store, --content-limit or --connections"
    expect("the second", warning, large.told[1])
