"""The built program in front of origins, with a record of what happens at its connections."""
import itertools
import json
import os
import resource
import select
import subprocess
import tempfile
import time

from live import record
from live.client import PATIENCE, Client, Said
from live.expect import Skipped, Unexpected, expect
from live.script import numbers_with

LISTENING = "listening on "
# What is said in front of that: what the bounds come to in memory, that a large store is read, and warnings of the table and of the bounds.
BOUNDS, READS, WARNING = "at most ", "the store ", "warning: "


def table_of(lines, max_body=1000000, max_stored=100000, capacity=64, version=1, max_store=None):
    """The operator's table, of (path, methods, origin), behind which its other words may stand, or of an origin's address for everything."""
    text = f'version = {version}\nname = "edge"\ncapacity = {capacity}\nmax_body = {max_body}\nmax_stored = {max_stored}\n'
    text += "" if max_store is None else f"max_store = {max_store}\n"
    for it in lines:
        path, methods, origin, *more = it if isinstance(it, tuple) else ("/", ["*"], it)
        names = ", ".join(f'"{name}"' for name in methods)
        text += f'\n[[line]]\nhost = "*"\nmethods = [{names}]\npath = "{path}"\norigin = "{origin}"\n'
        # (a text or a number is written in TOML as in JSON)
        text += "".join(f"{key} = {json.dumps(value)}\n" for words in more for key, value in words.items())
    return text


class Proxy:
    """A running program, and the clients that connect to it. It stays until it is stopped, but where it is given turns."""

    def __init__(self, program, folder, table, turns=None, options=(), listen="127.0.0.1:0", records=True, environment=None, output=subprocess.PIPE, handed_on=()):
        self.program, self.folder, self.clients, self.numbers = program, folder, [], itertools.count(1)
        # (a record is never written over another one)
        self.record = next(it for it in (f"{folder}/record-{i}" for i in itertools.count(1)) if not os.path.exists(it))
        with open(f"{folder}/table.toml", "w", encoding="utf-8") as it:
            it.write(table)
        words = ["serve", f"{folder}/table.toml", "--listen", listen]
        words += ["--turns", str(turns)] if turns else []
        words += ["--record", self.record] if records else []
        self.is_recorded = records
        how = {"stdin": subprocess.DEVNULL, "stdout": output, "stderr": subprocess.PIPE, "env": environment, "pass_fds": handed_on}
        self.process = subprocess.Popen([program, *words, *options], **how)
        self.told = []
        self.port = self.read_port()

    def read_port(self):
        """The port of the line that says where the program listens; the lines in front of it are kept."""
        deadline = time.monotonic() + PATIENCE
        while (line := self.read_line(deadline)).startswith((BOUNDS, READS, WARNING)):
            self.told.append(line)
        if not line.startswith(f"{LISTENING}127.0.0.1:"):
            raise Unexpected("on standard error", "listening on 127.0.0.1:PORT", line)
        return int(line.rpartition(":")[2])

    def read_line(self, deadline):
        """The next line on standard error."""
        line = b""
        while not line.endswith(b"\n"):
            is_there = select.select([self.process.stderr], [], [], deadline - time.monotonic())[0]
            byte = os.read(self.process.stderr.fileno(), 1) if is_there else b""
            if not byte:
                self.process.kill()
                raise Unexpected("on standard error", "listening on 127.0.0.1:PORT", line)
            line += byte
        return line.decode().rstrip("\n")

    def client(self, **more):
        it = Client(self.port, next(self.numbers), **more)
        self.clients.append(it)
        return it

    def curl(self, *words):
        """What curl wrote, with the heads that came in front. It makes one connection."""
        words = ["curl", "--silent", "--show-error", "--noproxy", "*", "--max-time", str(PATIENCE), "--include", "--raw", *words]
        try:
            ran = subprocess.run(words, capture_output=True, timeout=2 * PATIENCE)
        except FileNotFoundError:
            raise Skipped("there is no curl") from None
        self.clients.append(Said(next(self.numbers), ran.stdout))
        expect("curl's status and its line on standard error", (0, b""), (ran.returncode, ran.stderr))
        return ran.stdout

    def unseen_client(self):
        """Counts a client that keeps no bytes."""
        self.clients.append(Said(next(self.numbers), None))

    def url(self, target):
        return f"http://127.0.0.1:{self.port}{target}"

    def resident(self):
        """The memory that the program holds, in bytes."""
        return self.memory("VmRSS:")

    def reserved(self):
        """The memory that the program has asked for, used or not, in bytes."""
        return self.memory("VmSize:")

    def memory(self, name):
        with open(f"/proc/{self.process.pid}/status", encoding="utf-8") as it:
            return next(int(line.split()[1]) * 1024 for line in it if line.startswith(name))

    def processor_seconds(self):
        """The processor time that the program has taken."""
        with open(f"/proc/{self.process.pid}/stat", encoding="utf-8") as it:
            user, system = it.read().rpartition(")")[2].split()[11:13]
        return (int(user) + int(system)) / os.sysconf("SC_CLK_TCK")

    def descriptors(self):
        """How many the program has open."""
        return len(os.listdir(f"/proc/{self.process.pid}/fd"))

    def limit_descriptors(self, count):
        resource.prlimit(self.process.pid, resource.RLIMIT_NOFILE, (count, count))

    def limit_memory(self, count):
        """The bytes of memory that the program may have, used or not; those that it has stay."""
        resource.prlimit(self.process.pid, resource.RLIMIT_AS, (count, resource.RLIM_INFINITY))

    def has_said(self, within):
        """Whether something more comes on standard error in time."""
        return bool(select.select([self.process.stderr], [], [], within)[0])

    def wait(self):
        """Waits for the end of the program by itself; its status, and what it wrote behind its first line."""
        try:
            out, err = self.process.communicate(timeout=PATIENCE)
        except subprocess.TimeoutExpired:
            raise Unexpected("the program's end", f"within {PATIENCE} s", "a running program") from None
        return self.process.returncode, out, err.decode()

    def happened(self, word):
        """The numbers that a word of the record came with so far, as those of `gone`."""
        with open(self.record, "rb") as it:
            return numbers_with(it.read(), word.encode())

    def wait_until_happened(self, word, count, within=PATIENCE):
        """Until a word stands in the record so often; the numbers that it came with."""
        deadline = time.monotonic() + within
        while len(found := self.happened(word)) < count:
            if time.monotonic() > deadline:
                raise Unexpected(f"in the record within {within} s", f"`{word}` {count} times", f"{len(found)} times")
            time.sleep(0.05)
        return found

    def wait_until_quiet(self):
        """Until the record has stopped growing: what it has last was carried out."""
        size = -1
        while (now := os.path.getsize(self.record)) != size:
            size = now
            time.sleep(0.5)

    def stop(self, lines, said=b""):
        """Ends the program as a supervisor does. It has said so many lines behind its first, or as many as a range has, and on standard
        output what is given."""
        for it in self.clients:
            it.settle()
        ended = self.process.poll()
        if ended is not None:
            raise Unexpected("the program", "to run still", f"status {ended}, and {self.process.stderr.read()!r}")
        self.process.terminate()
        _, out, err = self.wait()
        if out != said or err.count("\n") not in (lines if isinstance(lines, range) else [lines]):
            raise Unexpected(f"of output {said!r} and of standard error", f"{lines} lines more", (out, err))

    def compare(self, origins, is_cut=False):
        """Replays the record of the run, and compares it with what every client and origin got."""
        for it in self.clients:
            it.drain()
        effects = record.replay(self.program, self.record)
        record.compare_clients(self.record, effects, self.clients, is_cut)
        record.compare_origins(self.record, effects, origins, is_cut)


class Stage:
    """What one scenario starts, and its end: the program is stopped, its record replayed, and all compared."""

    def __init__(self, program):
        self.program, self.room = program, tempfile.TemporaryDirectory(prefix="live-test-")
        self.origins, self.proxies, self.lines, self.said, self.is_cut = [], [], 0, b"", False

    def origin(self, it):
        self.origins.append(it)
        return it

    def proxy(self, *lines, turns=None, options=(), listen="127.0.0.1:0", records=True, environment=None, **table):
        """A program before the origins of these lines, or before the ones that were made."""
        text = table_of(lines or [it.address for it in self.origins], **table)
        return self.proxy_of(text, turns, options, listen, records, environment)

    def proxy_of(self, text, *more):
        """A program by the text of a table."""
        it = Proxy(self.program, self.room.name, text, *more)
        self.proxies.append(it)
        return it

    def finish(self):
        """Called where all that the scenario itself expects has come."""
        running = [it for it in self.proxies if it.process.returncode is None]
        for it in running:
            it.stop(self.lines, self.said)
        for it in (one for one in running if one.is_recorded):
            it.compare([one for one in self.origins if hasattr(one, "fetches")], self.is_cut)

    def clear(self):
        for it in self.proxies:
            if it.process.poll() is None:
                it.process.kill()
                it.process.communicate()
        for it in self.origins:
            it.close()
        self.room.cleanup()
