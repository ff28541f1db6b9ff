"""haproxy and nginx beside the program: as their Debian packages come, as a proxy with a cache before one origin, or with room for more
connections, and a second origin for what hangs."""
import os
import shutil
import socket
import subprocess
import time

from live.client import PATIENCE
from live.expect import Skipped, Unexpected
from live.proxy import Proxy, table_of

# (the time-outs of haproxy.cfg and the connections of nginx.conf are those of the packages' own files)
HAPROXY = """{globals}defaults
    mode http
    timeout connect 5000
    timeout client 50000
    timeout server 50000
cache c
    total-max-size 64
    max-age 3600
{vary}frontend f
    bind 127.0.0.1:{port}
    http-request cache-use c
    http-response cache-store c
{fields}    use_backend h if {{ path_beg /silent /endless }}
    default_backend o
backend o
    server o {origin}
backend h
    server h {hanging}
"""
NGINX = """daemon off; user root; worker_processes {workers}; pid {room}/nginx.pid; error_log {room}/nginx.log;
events {{ worker_connections {connections}; }}
http {{ sendfile on; tcp_nopush on; access_log off; client_body_temp_path {room}/body; proxy_temp_path {room}/proxy;
fastcgi_temp_path {room}/f; uwsgi_temp_path {room}/u; scgi_temp_path {room}/s;
proxy_cache_path {room}/cache levels=1:2 keys_zone=c:10m;
server {{ listen 127.0.0.1:{port}; location /silent {{ proxy_pass http://{hanging}; }}
location /endless {{ proxy_pass http://{hanging}; }}
location / {{ proxy_cache c; proxy_pass http://{origin}; }} }} }}
"""


# What a cache adds to each message, of which the program's hits have the like.
VARY, FIELDS = "    process-vary on\n", """    http-request add-header Via "1.1 haproxy"
    http-after-response add-header Cache-Status "haproxy;hit" if { res.cache_hit }
"""


def found(program):
    path = shutil.which(program, path="/usr/sbin:/sbin:/usr/bin:/usr/local/sbin:/usr/local/bin")
    if path is None:
        raise Skipped(f"there is no {program}")
    return path


def free_port():
    with socket.socket() as it:
        it.bind(("127.0.0.1", 0))
        return it.getsockname()[1]


class Peer:
    """A running haproxy or nginx."""

    def __init__(self, room, text, words, **values):
        self.port, path = free_port(), f"{room}/configuration"
        with open(path, "w", encoding="ascii") as it:
            it.write(text.format(port=self.port, room=room, **values))
        with open(f"{room}/said", "wb") as said:
            self.process = subprocess.Popen([*words, path], stdin=subprocess.DEVNULL, stdout=said, stderr=said)
        deadline = time.monotonic() + PATIENCE
        while not self.is_up():
            if self.process.poll() is not None or time.monotonic() > deadline:
                status = self.process.poll()
                self.process.kill()
                self.process.wait()
                raise Unexpected(f"from {words[0]}", "a running program", f"status {status}, see {room}/said")
            time.sleep(0.05)

    def is_up(self):
        with socket.socket() as it:
            return it.connect_ex(("127.0.0.1", self.port)) == 0

    def processor_seconds(self):
        """The processor time that it and its workers have taken."""
        with open(f"/proc/{self.process.pid}/task/{self.process.pid}/children", encoding="ascii") as it:
            return sum(seconds_of(pid) for pid in [self.process.pid, *it.read().split()])

    def end(self):
        self.process.terminate()
        self.process.wait()


def seconds_of(pid):
    with open(f"/proc/{pid}/stat", encoding="utf-8") as it:
        user, system = it.read().rpartition(")")[2].split()[11:13]
    return (int(user) + int(system)) / os.sysconf("SC_CLK_TCK")


class Ours(Proxy):
    """The program with its defaults."""

    def __init__(self, program, room, origins, options=(), **table):
        super().__init__(program, room, table_of(origins, **table), options=options, records=False)

    def end(self):
        self.process.kill()
        self.process.communicate()


def started(name, program, room, origin, hanging=None, is_large=False, is_single=False, options=()):
    """One of the three before an origin, and before one for `/silent` and `/endless`; with room for 16,384 connections, or with one thread that does what
    the program's does, if asked."""
    values = {"origin": origin, "hanging": hanging or origin}
    if name == "haproxy":
        # (it takes as many connections as its descriptors allow)
        values |= {"globals": "global\n    nbthread 1\n", "vary": VARY, "fields": FIELDS} if is_single else dict.fromkeys(("globals", "vary", "fields"), "")
        return Peer(room, HAPROXY, [found("haproxy"), "-db", "-f"], **values)
    if name == "nginx":
        values |= {"workers": 1 if is_single else "auto", "connections": 16384 if is_large else 768}
        return Peer(room, NGINX, [found("nginx"), "-c"], **values)
    return Ours(program, room, [*((path, ["*"], hanging) for path in ("/silent", "/endless") if hanging), origin], options)
