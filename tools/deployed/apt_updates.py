"""apt through a cache: who has the lists already asks with If-Modified-Since, and is answered from the store."""
import gzip
import hashlib
import os
import subprocess

from deployed.stand import need, part
from live.expect import Unexpected, expect
from live.origin import Origin, whole
from live.proxy import table_of

# (apt asks for each list with `Cache-Control: max-age=0`, which over a line without the second word is a request at the origin)
WORDS = {"lifetime": 600, "request-directives": "ignored"}
CHANGED = "Last-Modified: Sun, 01 Nov 2026 10:00:00 GMT"
PACKAGE = b"Package: hello\nVersion: 1.0\nArchitecture: all\nMaintainer: A <a@h.example>\nFilename: lists/hello.deb\nSize: 1\nSHA256: " + b"0" * 64 + b"\nDescription: d\n\n"


class Repository:
    """A signed repository with one package, and the key that signed it."""

    def __init__(self, folder):
        self.key = f"{folder}/key.gpg"
        os.makedirs(f"{folder}/gpg", mode=0o700)
        self.environment = {**os.environ, "GNUPGHOME": f"{folder}/gpg", "LC_ALL": "C"}
        self.gpg("--passphrase", "", "--quick-generate-key", "a@h.example", "ed25519", "sign", "never")
        with open(self.key, "wb") as it:
            it.write(self.gpg("--export"))
        lists = {"Packages": PACKAGE, "Packages.gz": gzip.compress(PACKAGE, mtime=0)}
        sums = "".join(f" {hashlib.sha256(it).hexdigest()} {len(it)} {name}\n" for name, it in lists.items())
        release = f"Origin: h\nDate: Sun, 01 Nov 2026 10:00:00 UTC\nArchitectures: all amd64\nSHA256:\n{sums}".encode()
        self.files = {**lists, "InRelease": self.gpg("--passphrase", "", "--clearsign", content=release)}

    def gpg(self, *words, content=b""):
        return subprocess.run(["gpg", "--batch", *words], input=content, capture_output=True, env=self.environment, timeout=20, check=True).stdout

    def answers(self):
        return {f"/debian/lists/{name}": whole(200, CHANGED, content=it) for name, it in self.files.items()}


def update(folder, port, key):
    """What `apt-get update` prints on a machine that knows this repository alone, and keeps its lists in the folder."""
    for it in ("lists/partial", "cache/archives/partial", "parts"):
        os.makedirs(f"{folder}/{it}", exist_ok=True)
    with open(f"{folder}/sources.list", "w", encoding="ascii") as it:
        it.write(f"deb [signed-by={key}] http://127.0.0.1:{port}/debian lists/\n")
    open(f"{folder}/status", "a", encoding="ascii").close()
    places = {"Dir::Etc::sourcelist": "sources.list", "Dir::Etc::sourceparts": "parts", "Dir::State::lists": "lists", "Dir::State::status": "status", "Dir::Cache": "cache"}
    options = [*(f"{name}={folder}/{it}" for name, it in places.items()), "APT::Sandbox::User=root", "Acquire::http::Proxy=false", "Acquire::Languages=none"]
    words = ["apt-get", *(word for it in options for word in ("-o", it)), "update"]
    ran = subprocess.run(words, stdin=subprocess.DEVNULL, capture_output=True, text=True, timeout=60, env={**os.environ, "LC_ALL": "C"})
    if ran.returncode:
        raise Unexpected("from apt-get update", "status 0", f"{ran.returncode}: {ran.stdout}{ran.stderr}")
    return ran.stdout


@part
def apt(stand):
    need("apt-get", "gpg")
    repository = Repository(stand.folder)
    for it in (four_updates_ask_the_origin_once, a_second_machine_asks_nothing_of_the_origin):
        yield it.__name__, lambda it=it: it(stand, repository)


def cached(stand, repository):
    origin = stand.origin(Origin(repository.answers()))
    return origin, stand.proxy(table_of([("/", ["GET", "HEAD"], origin.address, WORDS)], version=4))


def asked_of(origin, before=0):
    return sorted(it.target.rpartition("/")[2] for it in origin.fetches[before:])


def four_updates_ask_the_origin_once(stand, repository):
    """The first one fills the store, and each later one finds by its own condition that nothing changed."""
    origin, cache = cached(stand, repository)
    folder = f"{stand.folder}/first"
    update(folder, cache.port, repository.key)
    expect("what the first update asked the origin for", ["InRelease", "Packages.gz"], asked_of(origin))
    for it in range(2, 5):
        told = update(folder, cache.port, repository.key)
        expect(f"update {it}: has nothing changed", (True, False), ("Hit:1" in told, "Get:" in told))
    expect("asked of the origin by all four", ["InRelease", "Packages.gz"], asked_of(origin))


def a_second_machine_asks_nothing_of_the_origin(stand, repository):
    """What one machine asked for with its conditions fills the store for those that have nothing yet."""
    origin, cache = cached(stand, repository)
    folder = f"{stand.folder}/second"
    before = stand.proxy(table_of([("/", ["GET", "HEAD"], origin.address)], version=4))
    update(folder, before.port, repository.key)
    first = len(origin.fetches)
    update(folder, cache.port, repository.key)
    told = update(f"{stand.folder}/third", cache.port, repository.key)
    expect("has the other machine its lists", True, "Get:1" in told)
    expect("asked of the origin for both", ["InRelease", "Packages.gz"], asked_of(origin, first))
