"""Origins that others wrote, each with a configuration and a log of its own: a line for each
request that it has read."""
import contextlib
import os
import shutil
import signal
import socket
import subprocess
import sys
import tempfile
import time

from live.expect import Skipped, Unexpected
from attacks.strict import is_denied

# The longest that a start may take, and until what was logged stands in the file, in seconds.
WAIT, SETTLED = 10, 0.5
NGINX = """
daemon off; master_process off; pid {0}/pid; error_log {0}/errors;
events {{ worker_connections 512; }}
http {{
    log_format request '$request';
    access_log {0}/log request;
    client_body_temp_path {0}/body; proxy_temp_path {0}/proxy; fastcgi_temp_path {0}/fastcgi;
    uwsgi_temp_path {0}/uwsgi; scgi_temp_path {0}/scgi;
    server {{ listen 127.0.0.1:{1}; location / {{ root {0}/files; }} }}
}}
"""
APACHE = """
ServerRoot {0}
ServerName h
Listen 127.0.0.1:{1}
PidFile {0}/pid
ErrorLog {0}/errors
{2}
LoadModule mpm_event_module /usr/lib/apache2/modules/mod_mpm_event.so
LoadModule authz_core_module /usr/lib/apache2/modules/mod_authz_core.so
LogFormat "%r" request
CustomLog {0}/log request
DocumentRoot {0}/files
"""
NODE = """
const fs = require("fs"), [log, port] = process.argv.slice(2);
const told = (it) => fs.appendFileSync(log, it + "\\n");
const server = require("http").createServer((asked, answer) => {
  told(`${asked.method} ${asked.url} HTTP/${asked.httpVersion}`);
  asked.on("error", () => {});
  asked.resume().on("end", () => answer.end("ok"));
});
server.on("clientError", (fault, it) => { told(`- ${fault.code}`); it.destroy(); });
server.listen(port, "127.0.0.1");
"""
PYTHON = """
import sys
from http.server import BaseHTTPRequestHandler, ThreadingHTTPServer
log = open(sys.argv[1], "a", buffering=1, encoding="latin-1")
class Handler(BaseHTTPRequestHandler):
    protocol_version = "HTTP/1.1"
    def handle_one(self):
        self.rfile.read(int(self.headers.get("Content-Length", 0)))
        self.send_response(200)
        self.send_header("Content-Length", "2")
        self.end_headers()
        self.wfile.write(b"" if self.command == "HEAD" else b"ok")
    do_GET = do_HEAD = do_POST = do_PUT = do_DELETE = do_OPTIONS = do_TRACE = do_BREW = handle_one
    def log_message(self, *_):
        log.write(self.requestline + "\\n")
class Server(ThreadingHTTPServer):
    daemon_threads, request_queue_size = True, 128
    def handle_error(self, *_):
        log.write("- fault\\n")
Server(("127.0.0.1", int(sys.argv[2])), Handler).serve_forever()
"""
SEARCHED = f"{os.environ.get('PATH', '')}:/usr/sbin:/sbin"


def program(name):
    found = shutil.which(name, path=SEARCHED)
    if not found:
        raise Skipped(f"there is no {name}")
    return found


def nginx(folder, port):
    return [program("nginx"), "-e", f"{folder}/errors", "-c", written(folder, "conf", NGINX.format(folder, port))]


def apache2(folder, port):
    found = program("apache2")
    user = "User www-data\nGroup www-data" if os.geteuid() == 0 else ""
    return [found, "-DFOREGROUND", "-f", written(folder, "conf", APACHE.format(folder, port, user))]


def node(folder, port):
    return [program("node"), written(folder, "origin.js", NODE), f"{folder}/log", str(port)]


def python(folder, port):
    return [sys.executable, written(folder, "origin.py", PYTHON), f"{folder}/log", str(port)]


KINDS = {it.__name__: it for it in (nginx, apache2, node, python)}


def written(folder, name, text):
    with open(f"{folder}/{name}", "w", encoding="utf-8") as it:
        it.write(text)
    return f"{folder}/{name}"


class RealOrigin:
    """A running origin; `asked` has the requests that it read since the last time."""

    def __init__(self, folder, port, process):
        self.address, self.process, self.log, self.at = f"127.0.0.1:{port}", process, f"{folder}/log", 0

    def asked(self, wait=SETTLED):
        time.sleep(wait)
        if not os.path.exists(self.log):
            return []
        with open(self.log, "rb") as it:
            it.seek(self.at)
            text = it.read()
        text = text[: text.rfind(b"\n") + 1]
        self.at += len(text)
        return text.splitlines()


def smuggled(lines):
    """Those of the lines that are a request for what the table denies."""
    words = ((it, it.split(b" ")) for it in lines)
    return [line for line, parts in words if len(parts) > 1 and is_denied(parts[1])]


def free_port():
    with socket.socket() as it:
        it.bind(("127.0.0.1", 0))
        return it.getsockname()[1]


@contextlib.contextmanager
def started(name):
    """The origin of this name, in a folder of its own; Skipped where the machine lacks it."""
    folder = tempfile.mkdtemp(prefix="attack-origin-")
    os.chmod(folder, 0o755)
    os.mkdir(f"{folder}/files")
    written(f"{folder}/files", "a", "ok")
    process = None
    try:
        port = free_port()
        words = KINDS[name](folder, port)
        with open(f"{folder}/said", "wb") as said:
            process = subprocess.Popen(words, stdin=subprocess.DEVNULL, stdout=said, stderr=said, cwd=folder)
        wait_for(process, name, port, folder)
        yield RealOrigin(folder, port, process)
    finally:
        if process and process.poll() is None:
            process.send_signal(signal.SIGTERM)
            try:
                process.wait(WAIT)
            except subprocess.TimeoutExpired:
                process.kill()
                process.wait()
        shutil.rmtree(folder, ignore_errors=True)


def wait_for(process, name, port, folder):
    deadline = time.monotonic() + WAIT
    while time.monotonic() < deadline and process.poll() is None:
        with socket.socket() as it:
            if it.connect_ex(("127.0.0.1", port)) == 0:
                return
        time.sleep(0.05)
    with open(f"{folder}/said", encoding="utf-8", errors="replace") as it:
        raise Unexpected(f"from {name}", "a running program", f"status {process.poll()}: {it.read()[-600:]}")
