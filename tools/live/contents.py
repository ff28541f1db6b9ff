"""What contents take of memory: on their way in, at an origin that reads nothing, and out to clients that read nothing."""
import socket
import tempfile
import threading
import time

from live.client import request
from live.honest import connect
from live.peers import Ours
from shared.sockets import accepted, close_listener

# So many contents side by side, and what is allowed for each connection beside the limit of contents.
COUNT, MAX_BODY, OF_A_CONNECTION = 256, 1000000, 16 << 10
# The default of `--content-limit`, and less than the contents take.
LIMITS = 1 << 30, 100000000


def megabytes(count):
    return f"{count / 1000000:,.1f} MB"


def wait_until_calm(proxy):
    """Until the program takes less than half a processor, for a minute at most."""
    for _ in range(60):
        spent = proxy.processor_seconds()
        time.sleep(1)
        if proxy.processor_seconds() - spent < 0.5:
            return


class HeldBack:
    """An origin that reads nothing, and sends all of an answer but its last byte."""

    def __init__(self):
        self.listener, self.ends = socket.create_server(("127.0.0.1", 0), backlog=1024), []
        self.address = f"127.0.0.1:{self.listener.getsockname()[1]}"
        threading.Thread(target=self.serve, daemon=True).start()

    def serve(self):
        for end in accepted(self.listener):
            self.ends.append(end)
            threading.Thread(target=self.answer, args=[end], daemon=True).start()

    def answer(self, end):
        head = f"HTTP/1.1 200 OK\r\nContent-Length: {MAX_BODY}\r\n\r\n".encode()
        try:
            end.sendall(head + b"x" * (MAX_BODY - 1))
        except OSError:
            pass

    def close(self):
        close_listener(self.listener)
        for it in self.ends:
            it.close()


def upload(proxy, told):
    """One content, whose answer takes three seconds: whether it came."""
    try:
        with connect(proxy) as it:
            it.sendall(request("/late", f"Content-Length: {MAX_BODY}", method="POST") + b"x" * MAX_BODY)
            told.append(it.recv(65536).startswith(b"HTTP/1.1 201"))
    except OSError:
        told.append(False)


def uploads(proxy, count=COUNT):
    """So many contents side by side."""
    told = []
    crowd = [threading.Thread(target=upload, args=[proxy, told]) for _ in range(count)]
    for it in crowd:
        it.start()
    for it in crowd:
        it.join()
    return f"{told.count(True)} answered and {told.count(False)} cut off of {count} uploads"


def stuck_ends(proxy, count):
    """So many whole contents whose origin reads none of them, and of whose answers a byte is missing: the most that a request takes."""
    ends = []
    for _ in range(count):
        it = connect(proxy)
        try:
            it.sendall(request("/", f"Content-Length: {MAX_BODY}", method="POST") + b"x" * MAX_BODY)
        except OSError:
            # (too much is in progress)
            pass
        ends.append(it)
    return ends


def held(proxy, ends):
    """What the program holds once it has done all that it can; then the ends are closed."""
    time.sleep(1)
    wait_until_calm(proxy)
    bytes_held = proxy.resident()
    for it in ends:
        it.close()
    return megabytes(bytes_held)


def stuck(proxy, count=COUNT):
    return f"{held(proxy, stuck_ends(proxy, count))} for {count} that wait for their last byte"


def unread(proxy, count=COUNT):
    """So many clients that ask for four contents each, one behind the other, and read nothing: until no more is kept for them."""
    ends = []
    for i in range(count):
        it = socket.socket()
        it.setsockopt(socket.SOL_SOCKET, socket.SO_RCVBUF, 4096)
        it.connect(("127.0.0.1", proxy.port))
        it.sendall(b"".join(request(f"/large?{MAX_BODY}-{i}-{j}") for j in range(4)))
        ends.append(it)
    return f"{held(proxy, ends)} for {count} that ask for four answers each and read nothing"


def measure_contents(program, _room, origin):
    """The most memory that 256 contents of 1,000,000 bytes take, beside the bound of docs/LIMITS.md, "Memory": room doubles as it grows."""
    held_back = HeldBack()
    for limit in LIMITS:
        print(f"--content-limit {limit:,}:", flush=True)
        for has_log in (False, True):
            for step, it in ((uploads, origin), (stuck, held_back.address), (unread, origin)):
                with tempfile.TemporaryDirectory(prefix="live-test-") as room:
                    log = ["--log", f"{room}/log"] if has_log else []
                    proxy = Ours(program, room, [it], [*log, "--content-limit", str(limit)], max_body=MAX_BODY)
                    try:
                        told_of(step, proxy, limit, has_log)
                    finally:
                        proxy.end()
    held_back.close()


def told_of(step, proxy, limit, has_log):
    before = proxy.resident()
    told, peak = step(proxy), proxy.memory("VmHWM:") - before
    bound = 2 * limit + COUNT * OF_A_CONNECTION
    print(f"    {step.__name__}, {'with' if has_log else 'without'} a log: {told}", flush=True)
    most = f"{megabytes(peak)}, {peak / COUNT / MAX_BODY:.2f} times {COUNT} contents"
    print(f"        at most {most}; {'within' if peak <= bound else 'BEYOND'} the bound of {megabytes(bound)}", flush=True)
