"""The unit for systemd, as far as it can be tried without a running systemd."""
import http.client
import os
import re
import shlex
import socket
import stat
import subprocess

from deployed.stand import DEPLOY, deployed, free_port, need, part, wait_until
from live.expect import Unexpected, expect, expect_within


@part
def unit(stand):
    need("systemd-analyze")
    yield "systemd_reads_it", lambda: systemd_reads_it(stand)
    yield "it_gives_few_privileges", lambda: it_gives_few_privileges(stand)
    yield "a_table_with_a_mistake_fails_the_start", lambda: a_table_with_a_mistake_fails_the_start(stand)
    yield "its_commands_serve_and_stop", lambda: its_commands_serve_and_stop(stand)
    yield "its_socket_is_handed_on", lambda: its_socket_is_handed_on(stand)


def unit_file(stand, name="revcache.service", words=()):
    return stand.file(name, deployed("revcache.service", {"/usr/local/bin/revcache": stand.program, **dict(words)}))


def analyze(*words):
    ran = subprocess.run(["systemd-analyze", *words], capture_output=True, text=True, timeout=60)
    return ran.returncode, ran.stdout, ran.stderr


def systemd_reads_it(stand):
    """`systemd-analyze verify` has nothing to say, of the unit, of its socket, of the template that OPERATIONS makes of it, and of the unit
    that keeps records."""
    stand.file("revcache.socket", deployed("revcache.socket", {}))
    unit_file(stand, "revcache@.service", [("127.0.0.1:8080", "127.0.0.1:%i")])
    stand.file("revcache-records.service", deployed("revcache-records.service", {"/usr/local/bin/revcache-records": f"{DEPLOY}/revcache-records"}))
    for it in (unit_file(stand), *(f"{stand.folder}/{name}" for name in ("revcache@8101.service", "revcache.socket", "revcache-records.service"))):
        status, out, err = analyze("verify", it)
        said = [line for line in (out + err).splitlines() if "revcache" in line]
        expect(f"from systemd-analyze verify {it} status and lines", (0, []), (status, said))


def it_gives_few_privileges(stand):
    """`systemd-analyze security`: its measure goes from 0 to 10, and 2 is where it says OK."""
    status, out, err = analyze("security", "--offline=true", unit_file(stand))
    found = re.search(r"Overall exposure level for revcache.service: ([0-9.]+)", out)
    if status or not found:
        raise Unexpected("from systemd-analyze security", "a level", (status, out[-200:], err[-200:]))
    expect_within("the level of exposure", 0, 2, float(found[1]))
    return f"exposure {found[1]}"


def a_table_with_a_mistake_fails_the_start(stand):
    """The command of ExecStartPre, as it stands, on the table of deploy/ and on one with a mistake."""
    table = stand.file("table.toml", deployed("table.toml", {}))
    wrong = stand.file("wrong.toml", deployed("table.toml", {'path = "/admin"': 'path = "/admin/"'}))
    for path, ended in ((table, (0, "ok 3 lines\n", "")), (wrong, (2, "in [[line]] number 1 path has to begin", "config fault 7 line 1\n"))):
        with open(unit_file(stand, words=[("/etc/revcache/table.toml", path)]), encoding="utf-8") as it:
            command = next(line.partition("=")[2].split() for line in it if line.startswith("ExecStartPre="))
        ran = subprocess.run(command, stdin=subprocess.DEVNULL, capture_output=True, text=True, timeout=20)
        said = ran.stdout[: len(ended[1])]
        expect(f"from `{' '.join(command)}` status and lines", ended, (ran.returncode, said, ran.stderr))


def its_commands_serve_and_stop(stand):
    """ExecStart and ExecStop as they stand but for their folders: it writes its log and its figures, others may read the
    figures, and it ends by its drain file."""
    port, table = free_port(), stand.file("table.toml", deployed("table.toml", {}))
    folders = {"%t/%N": f"{stand.folder}/run", "%L/%N": f"{stand.folder}/log"}
    for it in folders.values():
        os.makedirs(it, exist_ok=True)
    words = [("127.0.0.1:8080", f"127.0.0.1:{port}"), ("/etc/revcache/table.toml", table), *folders.items()]
    with open(unit_file(stand, words=words), encoding="utf-8") as it:
        lines = dict(line.rstrip("\n").split("=", 1) for line in it if re.match(r"(ExecStart|ExecStop|UMask|RuntimeDirectoryMode)=", line))
    expect("who may go into the folder of the figures", "0755", lines["RuntimeDirectoryMode"])
    with subprocess.Popen(lines["ExecStart"].split(), stderr=subprocess.PIPE, umask=int(lines["UMask"], 8), stdin=subprocess.DEVNULL) as served:
        try:
            expect("on standard error", f"listening on 127.0.0.1:{port}\n", line_where_it_listens(served))
            asked = http.client.HTTPConnection("127.0.0.1", port, timeout=20)
            asked.request("HEAD", "/admin")
            expect("the answer", 403, asked.getresponse().status)
            asked.close()
            wait_until(lambda: "denied by line 1" in text_of(f"{folders['%L/%N']}/access.log"), "a line in the log")
            wait_until(lambda: 'code="403"} 1' in text_of(f"{folders['%t/%N']}/revcache.prom"), "the answer in the figures")
            mode = stat.S_IMODE(os.stat(f"{folders['%t/%N']}/revcache.prom").st_mode)
            expect("who may read the figures", 0o644, mode)
            stop = shlex.split(lines["ExecStop"].replace("$MAINPID", str(served.pid)))
            with subprocess.Popen(stop, stdin=subprocess.DEVNULL) as stops:
                expect("the program's end", (0, b"draining\n"), (served.wait(40), served.stderr.read()))
                expect("from ExecStop", 0, stops.wait(10))
        finally:
            served.kill()


def line_where_it_listens(served):
    """The line that says so; in front of it stands what the bounds come to."""
    for line in iter(served.stderr.readline, b""):
        if not line.startswith((b"at most ", b"warning: ")):
            return line.decode()
    return ""


def its_socket_is_handed_on(stand):
    """The commands of socket.conf as they stand but for their folders: ExecStart is that of the unit but for the socket and the store, and that of
    with-record.conf but for the record and a drain's time. It serves what systemd-socket-activate hands on, and ends where ExecReload says so; that
    does nothing where the table has a mistake. At its end the store is there for nobody else to read, and the next start takes it away."""
    need("systemd-socket-activate")
    port, run, state = free_port(), f"{stand.folder}/socket-run", f"{stand.folder}/state"
    for it in (f"{stand.folder}/log", run, state):
        os.makedirs(it, exist_ok=True)
    path = stand.file("socket-table.toml", deployed("table.toml", {}))
    words = {"/usr/local/bin/revcache": stand.program, "/etc/revcache/table.toml": path, "%t/%N": run, "%L/%N": f"{stand.folder}/log", "%S/%N": state}
    starts, reload = [], ""
    for name in ("revcache.service", "socket.conf", "with-record.conf"):
        for line in deployed(name, words).splitlines():
            if line.startswith("ExecStart="):
                starts.append(line.partition("=")[2])
            if line.startswith("ExecReload="):
                reload = shlex.split(line.partition("=")[2])
    kept = starts[0].replace("127.0.0.1:8080", "fd:3") + f" --store {state}/store"
    recorded = f"{kept} --record {state}/record.%%s --drain-timeout 5"
    expect("ExecStart of the three", [starts[0], "", kept, "", recorded], starts)
    with handed_on(port, starts[2]) as served:
        try:
            stand.file("socket-table.toml", deployed("table.toml", {'path = "/admin"': 'path = "/admin/"'}))
            ran = subprocess.run(reload, stdin=subprocess.DEVNULL, capture_output=True, timeout=20)
            expect("from ExecReload with a mistake in the table", (2, False), (ran.returncode, os.path.exists(f"{run}/drain")))
            stand.file("socket-table.toml", deployed("table.toml", {}))
            ran = subprocess.run(reload, stdin=subprocess.DEVNULL, capture_output=True, timeout=20)
            expect("from ExecReload", (0, True), (ran.returncode, os.path.exists(f"{run}/drain")))
            expect("the program's end", 0, served.wait(40))
        finally:
            served.kill()
    expect("what is kept, and who may read it", (["store"], 0o600), (os.listdir(state), stat.S_IMODE(os.stat(f"{state}/store").st_mode)))
    os.remove(f"{run}/drain")
    with handed_on(port, starts[2]) as served:
        served.kill()
    expect("what is kept while it serves", [], os.listdir(state))


def handed_on(port, start):
    """The program of a line of ExecStart, with a socket for this port that systemd-socket-activate hands on; it has answered a request."""
    activate = ["systemd-socket-activate", "--listen", f"127.0.0.1:{port}", *start.split()]
    served = subprocess.Popen(activate, stdin=subprocess.DEVNULL, stderr=subprocess.PIPE)
    try:
        wait_until(lambda: can_connect(port), "the port that is kept open")
        asked = http.client.HTTPConnection("127.0.0.1", port, timeout=20)
        asked.request("HEAD", "/admin")
        expect("the answer", 403, asked.getresponse().status)
        asked.close()
    except BaseException:
        served.kill()
        raise
    return served


def can_connect(port):
    with socket.socket() as it:
        return it.connect_ex(("127.0.0.1", port)) == 0


def text_of(path):
    if not os.path.exists(path):
        return ""
    with open(path, encoding="ascii") as it:
        return it.read()
