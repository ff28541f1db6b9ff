"""nginx as origin: what it needs behind a cache, and what it reads as one path."""
import os

from deployed.fronts import SPELLINGS, start_front
from deployed.stand import curl, deployed, free_port, need, part
from live.expect import Unexpected, expect

TEXT = "".join(f"line {i} of a text that a packer makes much smaller\n" for i in range(400))
# The origin of docs/ORIGINS.md, "nginx as origin".
ORIGIN = """
    server {
        listen 127.0.0.1:%d;
        root %s/www;
        expires 60s;
        absolute_redirect off;
        gzip on;
        gzip_types text/plain;
        gzip_proxied any;
        gzip_vary on;
    }
"""


@part
def nginx_as_origin(stand):
    need("nginx", "curl")
    origin = start_origin(stand)
    purge, http, https = free_port(), free_port(), free_port()
    cache = stand.proxy(deployed("table.toml", {"127.0.0.1:8081": f"127.0.0.1:{origin}", "127.0.0.1:8089": f"127.0.0.1:{purge}"}))
    start_front(stand, "nginx", [http, https, cache.port, purge, 0], {})
    yield "it_packs_what_goes_through_the_cache", lambda: it_packs_what_goes_through_the_cache(https)
    yield "it_reads_a_denied_path_in_other_spellings", lambda: it_reads_a_denied_path_in_other_spellings(cache.port, https)
    yield "it_redirects_without_its_own_address", lambda: it_redirects_without_its_own_address(https)


def start_origin(stand):
    return nginx_at(stand, ORIGIN, {"text.txt": TEXT, "admin/secret.txt": "secret", "folder/text.txt": TEXT})


def nginx_at(stand, server, files):
    """An nginx of this server, with files at its root."""
    port = free_port()
    for name, text in files.items():
        os.makedirs(os.path.dirname(f"{stand.folder}/www/{name}"), exist_ok=True)
        stand.file(f"www/{name}", text)
    folders = "".join(f"    {it}_temp_path {stand.folder}/origin-{it};\n" for it in ("client_body", "proxy", "fastcgi", "uwsgi", "scgi"))
    head = f"pid {stand.folder}/origin.pid;\nevents {{ }}\nhttp {{\n    types {{ text/plain txt; }}\n    access_log off;\n{folders}"
    file = stand.file("origin.conf", f"{head}{server % (port, stand.folder)}}}\n")
    stand.start("origin", ["nginx", "-e", f"{stand.folder}/origin.log", "-c", file, "-g", "daemon off;"], port)
    return port


def it_packs_what_goes_through_the_cache(https):
    """`gzip_proxied any` packs for a request with Via, and `gzip_vary on` keeps the packed answer from who can't read it."""
    url = "https://h.example/text.txt"
    packed = ["--http2", "--header", "Accept-Encoding: gzip"]
    for words, coding, reason in (
        (packed, "gzip", "edge;fwd=uri-miss;ttl=;stored"),
        (packed, "gzip", "edge;hit;ttl="),
        (["--http2"], None, "edge;fwd=vary-miss;ttl=;stored"),
        (["--http2"], None, "edge;hit;ttl="),
    ):
        answer = curl(https, url, *words)
        got = answer.status, answer.value("Content-Encoding"), answer.reason()
        expect(f"by {words} status, coding and reason", (200, coding, reason), got)
        if coding is None:
            expect("content", TEXT.encode(), answer.content)
        elif len(answer.content) > len(TEXT) / 4:
            raise Unexpected("a packed content", f"below {len(TEXT) // 4} bytes", len(answer.content))


def it_reads_a_denied_path_in_other_spellings(cache, https):
    """Why the front refuses them: without it the origin gives what line 1 of the table denies, to some spellings of it."""
    given = [it for it in SPELLINGS if curl(cache, f"http://h.example{it}").content == b"secret"]
    if "//admin/secret.txt" not in given or "/%2Fadmin/secret.txt" not in given:
        raise Unexpected("without the front", "the file by // and by %2F", given)
    for it in SPELLINGS:
        answer = curl(https, f"https://h.example{it}")
        expect(f"status for {it} through the front", 400, answer.status)
    return f"without the front {len(given)} of {len(SPELLINGS)} spellings gave the file"


def it_redirects_without_its_own_address(https):
    """`absolute_redirect off`: else the origin's own address and port go out to the client."""
    answer = curl(https, "https://h.example/folder")
    expect("status and Location", (301, "/folder/"), (answer.status, answer.value("Location")))
