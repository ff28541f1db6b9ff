"""The fronts' files, read by their programs: as they stand, and with all the options that are comments."""
import os
import re
import subprocess

from deployed.stand import DEPLOY, free_port, need, part, put_for
from live.expect import expect

# An option: the sign of a comment, and right behind it (or four blanks further in, for what belongs to it) the words of the file.
OPTION = re.compile(r"^( *)#(?=\S|    )", re.M)
FILES = {"nginx": ["nginx.conf", "scale-out/nginx.conf"], "haproxy": ["haproxy.cfg", "scale-out/haproxy.cfg"]}


@part
def files_are_read(stand):
    for kind, files in FILES.items():
        need(kind)
        stand.certificate()
        os.makedirs(f"{stand.folder}/pages", exist_ok=True)
        stand.file("pages/502.html", "<!doctype html><title>Soon</title>")
        for it in files:
            yield f"{it}_as_it_stands", lambda it=it, kind=kind: is_read(stand, kind, it, with_options=False)
            yield f"{it}_with_all_its_options", lambda it=it, kind=kind: is_read(stand, kind, it, with_options=True)


def is_read(stand, kind, name, with_options):
    """Neither a fault nor a warning."""
    with open(f"{DEPLOY}/{name}", encoding="utf-8") as it:
        text = it.read()
    count = len(OPTION.findall(text))
    text = OPTION.sub(r"\1", text) if with_options else text
    status, said = read_by_nginx(stand, text) if kind == "nginx" else read_by_haproxy(stand, text)
    expect("status and warnings", (0, []), (status, [it for it in said.splitlines() if re.search(r"\[(warn|emerg|alert|error)", it, re.I)]))
    return f"{count} lines of options" if with_options else None


def read_by_nginx(stand, text):
    ports = {"listen 80;": f"listen 127.0.0.1:{free_port()};", "listen 443 ssl": f"listen 127.0.0.1:{free_port()} ssl"}
    paths = {"/run/nginx.pid": f"{stand.folder}/nginx.pid", "/var/log/nginx": stand.folder, "/etc/revcache": stand.folder}
    file = stand.file("read.conf", put_for(text, {**ports, **paths, "listen 127.0.0.1:8089": f"listen 127.0.0.1:{free_port()}"}))
    return ran("nginx", "-t", "-e", f"{stand.folder}/error.log", "-c", file)


def read_by_haproxy(stand, text):
    file = stand.file("read.cfg", put_for(text, {"/run/haproxy": stand.folder, "/etc/revcache": stand.folder}))
    return ran("haproxy", "-c", "-f", file)


def ran(*words):
    done = subprocess.run(words, stdin=subprocess.DEVNULL, capture_output=True, text=True, timeout=60)
    return done.returncode, done.stdout + done.stderr
