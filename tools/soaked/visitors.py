"""The clients of a soak: each looks at every byte that it gets."""
import hashlib
import http.client
import random
import threading
import time
from array import array
from collections import Counter

from soaked.pages import COUNTS, LANGUAGES, LIFETIMES, content_of, filler

# How long one waits for an answer.
LONGEST = 30


class Wrong(Exception):
    """An answer that may not be."""


class Told:
    """What came of all requests."""

    def __init__(self):
        # (an hour has some two million answers)
        self.lock, self.counts, self.wrong, self.lost, self.waits = threading.Lock(), Counter(), [], [], array("f")
        self.secrets = set()

    def add(self, kind, status, reason, seconds):
        with self.lock:
            self.counts[kind] += 1
            self.counts[f"status {status}"] += 1
            self.counts["from the store"] += ";hit" in reason or "stale-if-error" in reason
            self.waits.append(seconds)

    def is_new_secret(self, secret):
        with self.lock:
            is_new = secret not in self.secrets
            self.secrets.add(secret)
            return is_new


class Visitor(threading.Thread):
    """One that asks for this and that, on a connection that it keeps for a while."""

    def __init__(self, number, port, book, told, until, seed, pause):
        super().__init__(daemon=True)
        self.number, self.port, self.book, self.told, self.until, self.pause = number, port, book, told, until, pause
        self.dice, self.connection = random.Random(f"{seed} {number}"), None

    def run(self):
        while time.monotonic() < self.until:
            kind = self.dice.choices(*zip(*WEIGHTS.items()))[0]
            began = time.monotonic()
            try:
                status, reason = getattr(self, f"ask_{kind}")()
                self.told.add(kind, status, reason, time.monotonic() - began)
            except Wrong as fault:
                self.told.wrong.append(str(fault))
            except (OSError, http.client.HTTPException) as fault:
                # (a kept connection may end between two requests: that is counted, and is no answer lost)
                self.drop()
                is_end = isinstance(fault, (http.client.RemoteDisconnected, ConnectionResetError, BrokenPipeError))
                if is_end and not self.is_fresh and not self.has_begun:
                    self.told.counts["kept connections that ended"] += 1
                else:
                    self.told.lost.append(f"{kind}: {fault!r} after {time.monotonic() - began:.2f} s")
            time.sleep(self.pause * self.dice.random() * 2)
        self.drop()

    def drop(self):
        if self.connection:
            self.connection.close()
        self.connection = None

    def ask(self, target, method="GET", content=None, **lines):
        """Status, fields and content of an answer."""
        self.is_fresh, self.has_begun = self.connection is None, False
        if self.is_fresh:
            self.connection = http.client.HTTPConnection("127.0.0.1", self.port, timeout=LONGEST)
        self.connection.request(method, target, content, {name.replace("_", "-"): value for name, value in lines.items()})
        answer = self.connection.getresponse()
        self.has_begun = True
        told = answer.status, answer.headers, answer.read()
        if self.dice.random() < 0.1 or answer.headers.get("Connection") == "close":
            self.drop()
        return told

    def ask_for(self, kind, word="", **lines):
        """A page of a kind: its version may not be one that a change has overtaken, or one that isn't there yet."""
        number = min(int(self.dice.paretovariate(1)), COUNTS[kind]) - 1
        page, least = (kind, number), self.book.least((kind, number))
        status, fields, content = self.ask(f"/{kind}/{number}", **lines)
        reason = fields.get("Cache-Status") or fields.get("Refusal") or ""
        if status == 200:
            self.look_at(page, word, least, fields, content)
        elif kind != "failing" or status not in (502, 503, 504):
            raise Wrong(f"/{kind}/{number}: status {status} ({reason})")
        return status, reason

    def look_at(self, page, word, least, fields, content):
        kind, number = page
        words = content.partition(b"\n")[0].decode("latin-1").split(" ")
        version = int(words[2]) if len(words) > 2 and words[2].isdigit() else 0
        if content != content_of(kind, number, version, word):
            raise Wrong(f"{page} for {word!r}: {content[:80]!r} .., {len(content)} bytes")
        if not least <= version <= self.book.most(page):
            raise Wrong(f"{page}: version {version}, where {least} to {self.book.most(page)} may be sent; {fields.get('Cache-Status')}, Age {fields.get('Age')}")
        is_hit = ";hit" in (fields.get("Cache-Status") or "")
        if is_hit and int(fields.get("Age", "0")) >= LIFETIMES[kind]:
            raise Wrong(f"{page}: a hit of Age {fields.get('Age')}, lifetime {LIFETIMES[kind]}")

    def ask_page(self):
        return self.ask_for("page")

    def ask_large(self):
        return self.ask_for("large")

    def ask_chunked(self):
        return self.ask_for("chunked")

    def ask_failing(self):
        return self.ask_for("failing")

    def ask_variant(self):
        language = self.dice.choice(LANGUAGES)
        return self.ask_for("variant", language, **({} if language == "none" else {"Accept_Language": language}))

    def ask_change(self):
        """A POST to a page: whoever asks behind its answer gets the new version, or a later one."""
        number = min(int(self.dice.paretovariate(1)), COUNTS["page"]) - 1
        status, fields, content = self.ask(f"/page/{number}", "POST", b"change")
        if status != 200 or not content.startswith(b"changed to "):
            raise Wrong(f"POST /page/{number}: {status} {content[:80]!r}")
        self.book.promise(("page", number), int(content.split(b" ")[2]))
        return status, fields.get("Cache-Status", "")

    def ask_upload(self):
        content = filler("upload", self.number, self.dice.random(), length=self.dice.choice([10, 3000, 200000]))
        status, fields, told = self.ask("/upload", "POST", content)
        if (status, told) != (201, hashlib.sha256(content).hexdigest().encode()):
            raise Wrong(f"POST /upload of {len(content)} bytes: {status} {told[:80]!r}")
        return status, fields.get("Cache-Status", "")

    def ask_secret(self):
        status, fields, content = self.ask("/secret")
        if status != 200 or not self.told.is_new_secret(content):
            raise Wrong(f"/secret: {status} {content[:80]!r}, which another had, too")
        return status, fields.get("Cache-Status", "")

    def ask_own(self):
        user = f"Basic {self.dice.randrange(1000)}"
        status, fields, content = self.ask("/own", Authorization=user)
        if (status, content) != (200, f"page of {user}".encode()):
            raise Wrong(f"/own of {user}: {status} {content[:80]!r}")
        return status, fields.get("Cache-Status", "")

    def ask_denied(self):
        target = self.dice.choice(["/admin", "/admin/x", "/%61dmin", "/admin?x"])
        status, fields, content = self.ask(target)
        if (status, fields.get("Refusal")) != (403, "denied by line 1"):
            raise Wrong(f"{target}: {status} {content[:80]!r}")
        return status, fields.get("Refusal")


# Of a hundred requests or so, how many are of each kind.
WEIGHTS = {"page": 40, "variant": 15, "large": 3, "chunked": 8, "failing": 8, "change": 6, "upload": 5, "secret": 5, "own": 5, "denied": 3}
