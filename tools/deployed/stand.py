"""What a part starts: programs in a temporary folder, with the files of deploy/ for free ports; and curl."""
import os
import re
import shutil
import signal
import socket
import subprocess
import tempfile
import time

from live.client import PATIENCE
from live.expect import Skipped, Unexpected
from live.proxy import Proxy

DEPLOY = os.path.join(os.path.dirname(os.path.dirname(os.path.dirname(os.path.realpath(__file__)))), "deploy")
# What sends port 80 to https, in the file of each front.
REDIRECTS = {
    "nginx": re.compile(r"    server \{\n        listen 80;\n(?:        .*\n)*    \}\n"),
    "haproxy": re.compile(r"(?:    http-request redirect scheme https .*\n)+"),
}
PARTS = {}


def part(function):
    """A generator of (name, check) pairs; what it starts stands while its checks are played."""
    PARTS[function.__name__] = function
    return function


def need(*programs):
    for it in programs:
        if not shutil.which(it, path=f"{os.environ.get('PATH', '')}:/usr/sbin:/sbin"):
            raise Skipped(f"there is no {it}")


def free_port():
    with socket.socket() as it:
        it.bind(("127.0.0.1", 0))
        return it.getsockname()[1]


def wait_until(is_so, what, seconds=PATIENCE):
    """Asks again and again, and returns what is told."""
    deadline = time.monotonic() + seconds
    while not (found := is_so()):
        if time.monotonic() > deadline:
            raise Unexpected(what, f"within {seconds} s", "it isn't so")
        time.sleep(0.05)
    return found


def is_listening(port):
    with socket.socket() as it:
        return it.connect_ex(("127.0.0.1", port)) == 0


def put_for(text, words):
    """The text with other words; each has to stand in it, or the file isn't the one that is meant to be tried."""
    for old, new in words.items():
        if old not in text:
            raise Unexpected("in the file", old, "it isn't there")
        text = text.replace(old, new)
    return text


def taken_in(name, *beginnings):
    """Options of a file of deploy/, as words for `put_for`: lines that are comments as they stand and begin so, each with what belongs to it."""
    with open(f"{DEPLOY}/{name}", encoding="utf-8") as it:
        lines = it.read().splitlines(keepends=True)
    words = {}
    for beginning in beginnings:
        found = [i for i, it in enumerate(lines) if it.lstrip(" ").startswith(f"#{beginning}")]
        if not found:
            raise Unexpected(f"in deploy/{name}", f"#{beginning}", "it isn't there")
        for i in found:
            old = "".join(option_at(lines, i))
            words[old] = re.sub(r"^( *)#", r"\1", old, flags=re.M)
    return words


def without_tls(name):
    """A file of deploy/ for a site that answers on port 80, too, as words for `put_for`."""
    with open(f"{DEPLOY}/{name}", encoding="utf-8") as it:
        text = it.read()
    kind = "nginx" if name.endswith("nginx.conf") else "haproxy"
    found = REDIRECTS[kind].search(text)
    if not found:
        raise Unexpected(f"in deploy/{name}", "what sends port 80 to https", "it isn't there")
    more = {"listen 443 ssl http2;": "listen 80;\n        listen 443 ssl http2;"} if kind == "nginx" else {}
    return {found[0]: "", **more}


def option_at(lines, i):
    """The line, those that are further in behind it, and their closing bracket."""
    yield lines[i]
    indent = lines[i].partition("#")[0] + "#"
    for it in lines[i + 1 :]:
        if not it.startswith((f"{indent}    ", f"{indent}}}")):
            return
        yield it


class Answer:
    """What curl wrote of one response."""

    def __init__(self, text):
        head, _, self.content = text.partition(b"\r\n\r\n")
        while head.startswith(b"HTTP/1.1 100"):
            head, _, self.content = self.content.partition(b"\r\n\r\n")
        first, *lines = head.decode("latin-1").split("\r\n")
        words = first.split(" ")
        self.version, self.status = words[0], int(words[1]) if len(words) > 1 else 0
        self.fields = {}
        for it in lines:
            name, _, value = it.partition(":")
            self.fields.setdefault(name.lower(), []).append(value.strip())

    def value(self, name):
        values = self.fields.get(name.lower())
        return ", ".join(values) if values else None

    def reason(self):
        """The proxy's member of Cache-Status or its Refusal, the number behind ttl= left out."""
        words = (self.value("Cache-Status") or self.value("Refusal") or "none").split(";")
        return ";".join("ttl=" if it.startswith("ttl=") else it for it in words)


class Stand:
    """The programs of a part, and their folder."""

    def __init__(self, program):
        self.program, self.room = program, tempfile.TemporaryDirectory(prefix="deploy-test-")
        self.folder = self.room.name
        # (a front that has become another user has to come to its files)
        os.chmod(self.folder, 0o755)
        self.origins, self.proxies, self.processes = [], [], []

    def origin(self, it):
        self.origins.append(it)
        return it

    def proxy(self, table, options=(), listen="127.0.0.1:0", records=False):
        folder = tempfile.mkdtemp(prefix="revcache-", dir=self.folder)
        it = Proxy(self.program, folder, table, options=options, listen=listen, records=records)
        self.proxies.append(it)
        return it

    def file(self, name, text):
        path = f"{self.folder}/{name}"
        with open(path, "w", encoding="utf-8") as it:
            it.write(text)
        return path

    def start(self, name, words, port):
        """A program that listens on a port. What it says is kept in NAME.said."""
        with open(f"{self.folder}/{name}.said", "wb") as said:
            process = subprocess.Popen(words, stdin=subprocess.DEVNULL, stdout=said, stderr=said, cwd=self.folder)
        self.processes.append(process)

        def is_up():
            if process.poll() is not None:
                with open(f"{self.folder}/{name}.said", encoding="utf-8", errors="replace") as it:
                    raise Unexpected(f"from {name}", "a running program", f"status {process.returncode}: {it.read()[-600:]}")
            return is_listening(port)

        wait_until(is_up, f"{name} listening on port {port}")
        return process

    def certificate(self):
        """A certificate for h.example and its key, as two files and as one."""
        need("openssl")
        both = f"{self.folder}/front.pem", f"{self.folder}/front.key"
        words = ["openssl", "req", "-x509", "-newkey", "ec", "-pkeyopt", "ec_paramgen_curve:P-256", "-nodes", "-days", "2"]
        words += ["-subj", "/CN=h.example", "-out", both[0], "-keyout", both[1]]
        ran = subprocess.run(words, capture_output=True, timeout=60)
        if ran.returncode:
            raise Unexpected("from openssl", "a certificate", ran.stderr)
        with open(f"{self.folder}/front-with-key.pem", "wb") as out:
            for it in both:
                with open(it, "rb") as one:
                    out.write(one.read())
        return both

    def clear(self):
        for it in self.processes + [one.process for one in self.proxies]:
            if it.poll() is None:
                it.send_signal(signal.SIGTERM)
        for it in self.processes + [one.process for one in self.proxies]:
            try:
                it.communicate(timeout=5)
            except subprocess.TimeoutExpired:
                it.kill()
                it.communicate()
        for it in self.origins:
            it.close()
        self.room.cleanup()


def deployed(name, words):
    """A file of deploy/ with these words in place of its ports and paths."""
    with open(f"{DEPLOY}/{name}", encoding="utf-8") as it:
        return put_for(it.read(), words)


def curl(port, url, *words):
    """One response. Whatever host and port the URL names, the connection goes to this port of 127.0.0.1."""
    need("curl")
    how = ["curl", "--silent", "--show-error", "--noproxy", "*", "--insecure", "--path-as-is", "--max-time", str(PATIENCE)]
    ran = subprocess.run([*how, "--include", "--connect-to", f"::127.0.0.1:{port}", *words, url], capture_output=True, timeout=2 * PATIENCE)
    if ran.returncode:
        raise Unexpected(f"from curl {' '.join(words)} {url}", "status 0", (ran.returncode, ran.stderr.decode()))
    return Answer(ran.stdout)
