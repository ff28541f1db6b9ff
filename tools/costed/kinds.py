"""Kinds of requests, each as a replay: what comes first, what comes N times, and what the proxy has to do of each."""
from costed.effects import asked, closed, dropped, effects, hold, sent
from costed.scripts import DATE, TABLE, head

HOST = b"Host: example.com"
BROWSER = [
    HOST,
    b"User-Agent: Mozilla/5.0 (X11; Linux x86_64; rv:120.0) Gecko/20100101 Firefox/120.0",
    b"Accept: text/html,application/xhtml+xml,application/xml;q=0.9,image/avif,image/webp,*/*;q=0.8",
    b"Accept-Language: en-US,en;q=0.5",
    b"Accept-Encoding: gzip, deflate, br",
    b"Referer: http://example.com/index.html",
    b"Cookie: session=0123456789abcdef0123456789abcdef; theme=dark",
    b"Sec-Fetch-Dest: document",
    b"Sec-Fetch-Mode: navigate",
    b"Sec-Fetch-Site: same-origin",
    b"Upgrade-Insecure-Requests: 1",
    b"Priority: u=1",
]
CONTENT = b"x" * 1024
# Of a full store each further response takes the place of another.
FULL = TABLE.replace(b"65536", b"100")
DENIED = TABLE.replace(b"[[line]]", b'[[line]]\nhost = "*"\nmethods = ["*"]\npath = "/admin"\norigin = "deny"\n\n[[line]]')
WORDS = TABLE.replace(b"version = 1", b"version = 3") + b"""lifetime = 60
stale-if-error = 3600
set-cookie = "not-stored"
errors = "not-stored"
request-directives = "ignored"
"""
EXPLAINED = WORDS + b'explain = "storing"\n'
# Of version 4, with a bound of bytes within which some hundred are held; and with all words of a line as well.
BOUNDED = TABLE.replace(b"version = 1", b"version = 4").replace(b"max_stored = 1000000", b"max_stored = 100000\nmax_store = 262144")
ALL_WORDS = BOUNDED + b"""lifetime = 60
error-lifetime = 5
lifetime-most = 86400
stale-if-error = 3600
stale-while-revalidate = 60
set-cookie = "removed"
cookies = "private"
session-cookies = ["sid", "login"]
errors = "not-stored"
request-directives = "ignored"
wait = "missing-or-stale"
explain = "storing"
conditions = "answered"
loops = "refused"
vary = ["X-Forwarded-Proto"]
origin-timeout = 5
ranges = "served"
wait-timeout = 5
"""
# 4,096 lines of version 4: of hosts and the hosts below them, and two for every host, of which the last has what is asked for.
TOP, LINE = TABLE.replace(b"version = 1", b"version = 4").partition(b"[[line]]")[::2]
OF_HOSTS = [LINE.replace(b'"*"', b'["h%d.example.com", "*.h%d.example.com"]' % (i, i), 1) for i in range(4094)]
MANY_LINES = TOP + b"\n".join(b"[[line]]" + it for it in [*OF_HOSTS, LINE.replace(b'"/"', b'["/other", "/another"]'), LINE])
HIT, STORED, PASSED = b"Cache-Status: edge;hit;ttl=", b"Cache-Status: edge;fwd=uri-miss;ttl=600;stored\r\n", b"Cache-Status: edge;fwd=uri-miss\r\n"


def client(number, target, *lines, method=b"GET", content=b""):
    data = head(b"%s %s HTTP/1.1" % (method, target), *(lines or [HOST])) + content
    return b"client %d %d\n%s\n" % (number, len(data), data)


def answer(number, *lines, first=b"HTTP/1.1 200 OK", content=CONTENT):
    """What an origin answers on a link; of 1 KiB, or what `content` has."""
    length = [b"Content-Length: %d" % len(content)] if content is not None else []
    data = head(first, DATE, *lines, b"Content-Type: text/plain", b'ETag: "v1"', *length) + (content or b"")
    return b"link %d %d\n%s\n" % (number, len(data), data)


def kept(number):
    return answer(number, b"Cache-Control: max-age=600")


def passed(number):
    return answer(number, b"Cache-Control: no-store")


ONE_STORED = client(1, b"/one") + kept(1)


class Kind:
    """`each(i)` is the i-th time, from 0 on, and `does(i)` what the proxy does of it. Before them comes `before(most)`, the same for both
    numbers of times. `after` has what comes behind so many of them, and what the proxy does of that; `proof` has the same, and is played
    only where the effects are looked at. `times` is how many are counted, where that isn't for the caller to say."""

    def __init__(self, name, what, each, does, table=TABLE, before=lambda most: ONE_STORED, after=None, proof=None, times=None):
        self.name, self.what, self.each, self.does, self.table = name, what, each, does, table
        self.before, self.after, self.proof, self.times = before, after, proof, times

    def begun(self, most):
        return b"config %d\n%s\nat 100\naccept 1\n" % (len(self.table), self.table) + self.before(most)

    def text(self, n, most):
        text = self.begun(most) + b"".join(self.each(i) for i in range(n))
        return text + (self.after[0](n) if self.after else b"")

    def check(self, program, n):
        """Holds each time to what it has to do."""
        begun = sum(1 for _ in effects(program.effects(self.begun(n))))
        text, wanted = self.text(n, n), [it for i in range(n) for it in self.does(i)]
        for more in (self.after, self.proof):
            wanted += more[1](n) if more else []
        hold(program.effects(text + (self.proof[0](n) if self.proof else b"")), begun, wanted)


KINDS = {}


def kind(name, what, each, does, **how):
    KINDS[name] = Kind(name, what, each, does, **how)


def hit(name, what, *lines, status=200, content=CONTENT, method=b"GET", has=HIT, **how):
    text = client(1, b"/one", *lines, method=method)
    kind(name, what, lambda i: text, lambda i: [sent(1, status, has, content=content)], **how)


def path(i):
    return b"/path-%06d" % i


def forwarded(target, link, *has, method=b"GET"):
    return asked(link, b"%s %s HTTP/1.1\r\n" % (method, target), *has)


def miss(name, what, response, has, **how):
    """Each has a target of its own, and a link."""
    kind(
        name,
        what,
        lambda i: client(1, path(i)) + response(i + 1),
        lambda i: [forwarded(path(i), i + 1), dropped(i + 1), sent(1, 200, has, content=CONTENT)],
        before=lambda most: b"",
        **how,
    )


hit("hit", "a hit, with one line in its head", HOST)
hit("hit_two", "with two lines", HOST, b"Accept: */*")
hit("hit_browser", "with twelve lines, as a browser sends them", *BROWSER)
hit("head", "HEAD", HOST, method=b"HEAD", content=b"")
hit("not_modified", "a 304 to the client: If-None-Match has the stored tag", HOST, b'If-None-Match: "v1"', status=304, content=b"")
hit("hit_words", "a hit over a line with six words", HOST, table=EXPLAINED)
hit("hit_all_words", "a hit over a line with all words, within a bound of bytes", HOST, table=ALL_WORDS)
hit("hit_lines", "a hit under 4,096 lines: of hosts, of the hosts below them and of every host", HOST, table=MANY_LINES)
hit(
    "hit_lifetime",
    "the same, stored by the line's `lifetime` (and a line shorter)",
    HOST,
    table=EXPLAINED,
    before=lambda most: client(1, b"/one") + answer(1),
)
miss("stored", "a miss that is stored", kept, STORED)
miss("stored_full", "a miss that is stored in the place of another", kept, STORED, table=FULL)
miss("stored_bounded", "the same within a bound of bytes", kept, STORED, table=BOUNDED)
miss("passed", "a miss that isn't stored", passed, PASSED)
miss("passed_words", "the same over a line with five words", passed, PASSED, table=WORDS)
miss(
    "passed_explained",
    'the same with `explain = "storing"` as well',
    passed,
    b"edge;fwd=uri-miss;detail=not-stored-no-store\r\n",
    table=EXPLAINED,
)
kind(
    "validated",
    "a validation: the origin answers 304",
    lambda i: client(1, b"/one") + answer(i + 2, b"Cache-Control: no-cache", first=b"HTTP/1.1 304 Not Modified", content=None),
    lambda i: [forwarded(b"/one", i + 2, b'If-None-Match: "v1"'), dropped(i + 2), sent(1, 200, b"edge;fwd=stale;fwd-status=304", content=CONTENT)],
    before=lambda most: client(1, b"/one") + answer(1, b"Cache-Control: no-cache"),
)
kind(
    "denied",
    "a denial by the table",
    lambda i: client(1, b"/admin"),
    lambda i: [sent(1, 403, b"Refusal: denied by line 1\r\n", content=b"denied by line 1")],
    table=DENIED,
)
kind(
    "connection",
    "a connection that asks once, for a hit, and ends",
    lambda i: b"accept %d\n" % (i + 2) + client(i + 2, b"/one") + b"end %d\n" % (i + 2),
    lambda i: [sent(i + 2, 200, HIT, content=CONTENT), closed(i + 2)],
)


def invalidation(name, what, others):
    """Each removes what is stored for its target, while so many other exchanges are open. Afterwards nothing is held for any of them."""

    def before(most):
        stored = b"".join(client(1, path(i)) + kept(i + 1) for i in range(most))
        return stored + b"".join(b"accept %d\n" % i + client(i, b"/open-%d" % i) for i in range(2, others + 2))

    count = {}

    def link(i):
        return count["stored"] + others + i + 1

    def begun(most):
        count["stored"] = most
        return before(most)

    kind(
        name,
        what,
        lambda i: client(1, path(i), HOST, b"Content-Length: 2", method=b"POST", content=b"hi") + answer(link(i)),
        lambda i: [forwarded(path(i), link(i), method=b"POST"), dropped(link(i)), sent(1, 200, b"edge;fwd=method", content=CONTENT)],
        before=begun,
        proof=(
            lambda n: b"".join(client(1, path(i), HOST, b"Cache-Control: only-if-cached") for i in range(n)),
            lambda n: [sent(1, 504, b"only-if-cached;fwd=uri-miss", content=b"only-if-cached;fwd=uri-miss")] * n,
        ),
    )


invalidation("invalidated", "an invalidation: a POST that succeeds", 0)
invalidation("invalidated_200", "the same, with 200 other exchanges open", 200)


def waits(name, what, times):
    """Each comes while the first one's answer is held back, and is answered by it."""
    collapsed = b"edge;fwd=uri-miss;ttl=600;collapsed\r\n"
    kind(
        name,
        what,
        lambda i: b"accept %d\n" % (i + 2) + client(i + 2, b"/one"),
        lambda i: [],
        before=lambda most: client(1, b"/one"),
        after=(
            lambda n: kept(1),
            lambda n: [dropped(1), sent(1, 200, STORED, content=CONTENT)] + [sent(i + 2, 200, collapsed, content=CONTENT) for i in range(n)],
        ),
        times=times,
    )


waits("waits_125", "a connection that waits for another's answer, behind 125 to 249 that do", 125)
waits("waits_5000", "behind 5,000 to 9,999", 5000)
# What is told as the difference of two kinds, by so many.
DIFFERENCES = {
    "further_line": ("hit_browser", "hit", 11, "each further line of a browser's eleven"),
    "accept_and_close": ("connection", "hit", 1, "its accept and its end alone"),
    "served_accept_close": ("served_connection", "served_hit", 1, "its accept and its close alone"),
}

