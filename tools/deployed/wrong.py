"""Wrong files for deploy/: a part has to refuse each, or what it holds to the right one says little."""
import shutil
import tempfile

from deployed import files, stand

# The file, the words that are changed, what they become, and the part that has to notice.
WRONG = [
    ("nginx.conf", "server 127.0.0.1:8180 max_fails=0 backup;", "server 127.0.0.1:8180 down;", "restarts_nginx"),
    ("nginx.conf", "proxy_next_upstream error timeout;", "proxy_next_upstream error timeout non_idempotent;", "restarts_nginx"),
    ("haproxy.cfg", "weight 256", "weight 0", "restarts_haproxy"),
    ("haproxy.cfg", "retry-on conn-failure empty-response", "retry-on none", "restarts_haproxy"),
    ("nginx.conf", "#    if ($request_method = OPTIONS) {", "#    if ($request_method != PATCH) {", "preflights_of_an_api"),
    ("haproxy.cfg", "answers_options !{ path -i -m reg /([.]|%2e)+(/|$) }", "answers_options", "preflights_of_an_api"),
    ("haproxy.cfg", "acl is_allowed_origin req.hdr(origin) -m str https://app.example", "acl is_allowed_origin req.hdr(origin) -m found", "haproxy"),
    ("nginx.conf", '"~*(^|,)\\s*(x-)?gzip', '"~*gzip', "codings"),
    ("haproxy.cfg", "http-request del-header Accept-Encoding unless takes_gzip", "", "codings"),
    ("nginx.conf", "        #    proxy_buffering off;\n", "", "past_the_cache"),
    ("nginx.conf", "proxy_set_header Upgrade $upgrade_sent;", "", "past_the_cache"),
    ("nginx.conf", "#add_header Refusal $refusal_for_operators", "#add_header Refusal $upstream_http_refusal", "a_reason_for_operators_alone"),
    ("haproxy.cfg", "#http-response del-header Refusal unless is_operator", "#http-response del-header Refusal if is_operator", "a_reason_for_operators_alone"),
    ("scale-out/haproxy.cfg", "hash-type consistent djb2 avalanche     # (the same ring)", "hash-type consistent", "scale_out"),
    ("scale-out/nginx.conf", "hash $host$target consistent;           # (the same ring)", "hash $target consistent;", "scale_out_nginx"),
    ("origins/haproxy.cfg", "    option redispatch 1 ", "    #", "origins_by_haproxy"),
    ("origins/haproxy.cfg", "http-reuse always", "http-reuse never", "origins_by_haproxy"),
    ("origins/haproxy.cfg", "verify required", "verify none", "origins_by_haproxy"),
    ("origins/nginx.conf", "#proxy_ssl_verify on;", "#proxy_ssl_verify off;", "origins_by_nginx"),
    ("origins/nginx.conf", "proxy_set_header Host $http_host;", "", "origins_by_nginx"),
    ("origins/nginx.conf", "proxy_next_upstream error timeout;", "proxy_next_upstream off;", "origins_by_nginx"),
    ("origins/nginx.conf", "        keepalive 32;", "", "origins_by_nginx"),
    ("haproxy.cfg", "    tcp-request connection reject if { sc_conn_cur(1) gt 100 }\n", "", "one_address"),
    ("nginx.conf", "worker_connections 8192", "worker_connections 512", "one_address"),
    ("nginx.conf", "if ($request_method ~ ^(GET|HEAD)$) { return 301 https://$host$target; }", "", "nginx"),
    ("haproxy.cfg", "code 308 if !{ ssl_fc }", "code 308 if !{ ssl_fc } METH_GET", "haproxy"),
    ("nginx.conf", "(?<above>[^?]*?)/", "(?<above>.*?)/", "nginx"),
    ("haproxy.cfg", " if { path -m sub /./ }", " if { path -m end /Packages }", "haproxy"),
    ("nginx.conf", '#"~*^/npm/@[a-z0-9._-]+%2f[a-z0-9._-]+(\\?|$)" 0;', '#"~*^/npm/[^?]*%2f" 0;', "nginx"),
    ("haproxy.cfg", ";jsessionid=[a-z0-9._-]+$", ";jsessionid=", "haproxy"),
    ("haproxy.cfg", "req.fhdr(host),host_only", "req.hdr(host),host_only", "odd_streams"),
    ("table.toml", '["GET", "HEAD", "POST", "PUT", "DELETE", "PATCH"]', '["*"]', "a_strangers_purge"),
    ("revcache.service", "UMask=0022", "UMask=0077", "unit"),
    ("socket.conf", "--listen fd:3", "--listen 127.0.0.1:8080", "unit"),
    ("socket.conf", " --store %S/%N/store", "\n# --store %S/%N/store", "unit"),
    ("with-record.conf", " --store %S/%N/store", "", "unit"),
    ("socket.conf", "check /etc/revcache/table.toml && touch", "check /etc/revcache/table.toml; touch", "unit"),
    ("revcache.service", " --stats %t/%N/revcache.prom", "", "unit"),
]


class Unsaid:
    """A progress that keeps what it is told."""

    def __init__(self):
        self.lines = []

    def say(self, line):
        self.lines.append(line)

    def show(self, line):
        pass


def refused(play, program, name, old, new, part):
    """What the part says of a wrong file; none where it notices nothing."""
    right = stand.DEPLOY
    with tempfile.TemporaryDirectory(prefix="deploy-wrong-") as room:
        shutil.copytree(right, f"{room}/deploy")
        with open(f"{right}/{name}", encoding="utf-8") as it:
            text = stand.put_for(it.read(), {old: new})
        with open(f"{room}/deploy/{name}", "w", encoding="utf-8") as it:
            it.write(text)
        stand.DEPLOY = files.DEPLOY = f"{room}/deploy"
        said = Unsaid()
        try:
            held = play(part, program, said, "")
        finally:
            stand.DEPLOY = files.DEPLOY = right
    if False not in held:
        return "skipped" if None in held else None
    why = next(it for it in said.lines if " ok" not in it and "skipped" not in it)
    # (a file that no program reads, or that isn't the one that is meant, shows nothing)
    return None if "a running program" in why or "in the file" in why else f"refused: {why[:120]}"


def try_all(play, program, progress):
    """A line for each; how many weren't refused."""
    left = 0
    for number, (name, old, new, part) in enumerate(WRONG, 1):
        progress.show(f"wrong file {number} of {len(WRONG)}: {name}, {part}")
        what = f"{name}: {old.strip()!r}{f' to {new.strip()!r}' if new else ' left out'}"
        answer = refused(play, program, name, old, new, part)
        progress.say(f"{what}: {answer or f'NOT REFUSED by {part}'}")
        left += answer is None
    return left
