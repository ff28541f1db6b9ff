"""Scenarios of local ports, in a network of their own: a namespace with a thousand of them, where they can be had."""
import ctypes
import fcntl
import socket
import struct
import threading

from live.client import request
from live.expect import Skipped, expect, expect_answer, expect_refusal
from live.figures import figures_with, of
from live.origin import Origin, silent, whole
from live.scenario import scenario

# The kernel's: a namespace of the network's own, and an interface that is up.
CLONE_NEWNET, SIOCSIFFLAGS, UP_AND_RUNNING = 0x40000000, 0x8914, 0x41
SYSTEM = "/proc/sys/net/ipv4"


def enter_namespace(ports):
    """Moves the calling thread, and what it starts, into a network with so many local ports, none of which is used again for a minute."""
    try:
        if ctypes.CDLL(None, use_errno=True).unshare(CLONE_NEWNET):
            raise OSError(ctypes.get_errno(), "unshare")
        with socket.socket(socket.AF_INET, socket.SOCK_DGRAM) as it:
            fcntl.ioctl(it, SIOCSIFFLAGS, struct.pack("16sh22x", b"lo", UP_AND_RUNNING))
        have_ports(ports)
        # (a port that was used isn't used again for a minute, on this machine neither)
        with open(f"{SYSTEM}/tcp_tw_reuse", "w", encoding="ascii") as it:
            it.write("0\n")
    except OSError as fault:
        raise Skipped(f"no namespace of the network is to be had: {fault}") from None


def have_ports(count):
    """This network has so many local ports."""
    with open(f"{SYSTEM}/ip_local_port_range", "w", encoding="ascii") as it:
        it.write(f"20000 {19999 + count}\n")


def in_namespace(ports):
    """Plays a scenario in such a network."""

    def decorate(function):
        def play(stage):
            fault = []

            def run():
                try:
                    enter_namespace(ports)
                    function(stage)
                except BaseException as it:  # noqa: B036 (it is raised anew below)
                    fault.append(it)

            thread = threading.Thread(target=run)
            thread.start()
            thread.join()
            if fault:
                raise fault[0]

        play.__name__, play.__doc__ = function.__name__, function.__doc__
        return play

    return decorate


def kept_ports():
    """How many connections of this network keep their ports for a minute (TIME-WAIT)."""
    with open("/proc/thread-self/net/tcp", encoding="ascii") as it:
        return sum(line.split()[3] == "06" for line in it.readlines()[1:])


@scenario
@in_namespace(1000)
def links_keep_no_local_port(stage):
    """A thousand local ports, and an origin that never closes first: 3,000 misses are answered."""
    origin = stage.origin(Origin({f"/{it}": whole(200, content=b"hello") for it in range(10)}, port=18081))
    client = stage.proxy(records=False, listen="127.0.0.1:18080").client()
    for it in range(3000):
        expect_answer(client.ask(f"/{it % 10}"), 200, "edge;fwd=uri-miss", b"hello")
    expect("ports that links keep", 0, kept_ports())
    expect("exchanges", 3000, len(origin.fetches))


@scenario
@in_namespace(1000)
def no_local_port_is_told(stage):
    """Where no local port is left, what comes is 502. That is told on standard error and counted, and the origin isn't taken for a silent one."""
    stage.lines = 1
    origin = stage.origin(Origin({"/silent": silent, "/a": whole(200, content=b"hello")}, port=18081))
    file = f"{stage.room.name}/figures"
    proxy = stage.proxy(records=False, listen="127.0.0.1:18080", options=["--stats", file])
    clients = [proxy.client() for _ in range(14)]
    have_ports(10)
    for n, it in enumerate(clients[:10]):
        it.send(request(f"/silent?{n}"))
    origin.wait_for(10)
    for it in clients[10:]:
        expect_refusal(it.ask("/a"), 502, "origin refused;fwd=uri-miss")
    samples = figures_with(file, of("links_without_port_total"), 4)
    whose = {"origin": origin.address}
    expect("refused as silent", 0, samples[of("origin_connections_refused_total", **whose, cause="silent")])
    have_ports(1000)
    expect_answer(clients[10].ask("/a"), 200, "edge;fwd=uri-miss", b"hello")
    expect("whether it was told", True, proxy.has_said(1))
