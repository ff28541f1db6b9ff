"""The page of tools/report: it stands alone, nothing of a log is more than text in it, and a browser draws it."""
import os
import random
import re
import shutil
import subprocess
import zlib
from html.parser import HTMLParser

from deployed.reports import LOG, TIMED, run, some_file
from deployed.stand import part
from live.expect import Skipped, Unexpected, expect, expect_within

BROWSERS = ["chromium", "chromium-browser", "google-chrome"]
# Targets, reasons and origins that would be markup, script, style or a link where they weren't escaped.
HOSTILE = [
    "1764050000 c GET http://<script>x()</script>/a 200 5 hit;ttl=5 1 -",
    "1764050001 c GET http://h/</title><script>x()</script>/b 503 5 fwd=uri-miss 2 <img/src=http://evil/>:80",
    "1764050002 c GET http://h/'onmouseover='x()'/\"onload=\"x() 500 5 fwd=uri-miss 3 'onload=x():80",
    "1764050003 c GET http://h/&lt;b&gt;&#60;script&#62; 404 5 fwd=uri-miss 4 javascript:80",
    "1764050004 c GET http://h/--></style><svg/onload=x()> 403 5 denied by <script>x()</script> 5 -",
    "1764050005 c GET http://h/" + "</td>" * 300 + " 502 5 origin closed;fwd=<iframe/src=x> 6 h:80",
]
# The colours of a hit and of the page's ground by day, and that of its ground by night (tools/reported/style.py).
HIT, DAY, NIGHT = (0x2F, 0x9E, 0x6E), (0xFF, 0xFF, 0xFF), (0x15, 0x18, 0x1B)
WIDE, HIGH = 900, 700


@part
def report_page(stand):
    yield "a_page_of_a_counted_log", lambda: a_page_of_a_counted_log(stand)
    yield "a_page_stands_alone", lambda: a_page_stands_alone(stand)
    yield "hostile_names_are_text", lambda: hostile_names_are_text(stand)
    yield "pages_of_any_file", lambda: pages_of_any_file(stand)
    yield "a_browser_draws_it", lambda: a_browser_draws_it(stand)
    yield "a_browser_finds_no_fault", lambda: a_browser_finds_no_fault(stand)
    yield "a_million_lines_in_a_browser", lambda: a_million_lines_in_a_browser(stand)


def page_of(stand, log):
    file = f"{stand.folder}/page.html"
    ran = run(log, "--html", file)
    expect("status and standard error", (0, ""), (ran.returncode, ran.stderr))
    with open(file, encoding="utf-8") as it:
        return it.read()


class Reader(HTMLParser):
    """The tags of a page with their attributes, and its text."""

    def __init__(self, text):
        super().__init__()
        self.tags, self.text = [], []
        self.feed(text)

    def handle_starttag(self, tag, attributes):
        self.tags.append((tag, dict(attributes)))

    def handle_data(self, data):
        self.text.append(data)

    def values(self, attribute):
        return [it[attribute] for _, it in self.tags if attribute in it]

    def words(self):
        return " ".join(" ".join(self.text).split())


def a_page_of_a_counted_log(stand):
    """Its figures are those that were counted by hand; each link leads to words, and these name a section."""
    for log, told in (
        (
            LOG,
            [
                "hit ratio 41.7 %",
                "a.example/img 9 44.4 %",
                "b.example:8080 3 2 1 0 0 5 60.0 %",
                "http://a.example/img/1.png 1 100.0 %",
            ],
        ),
        (TIMED, ["hit ratio 50.0 %", "127.0.0.1:9002 4 0 1 2 2 4 100.0 %", "forwarded 6 0.120 5.000 5.001"]),
    ):
        page = Reader(page_of(stand, log))
        expect("figures that aren't in the page", [], [it for it in told if it not in page.words()])
        links = {it[1:] for it in page.values("href") if it.startswith("#")}
        expect("links that lead nowhere", [], sorted(links - set(page.values("id"))))
        expect_within("links", 5, 100, len(links))
    # (RFC 9111, section 4.2.4 is about stale responses, and RFC 9111, section 4 about reuse)
    wanted = {
        "reuse-14",
        "reuse-5",
        "parameter-hit",
        "parameter-stored",
        "origin-timed-out",
        "origin-closed",
        "message-head",
        "refusal-denied",
    }
    expect("words that aren't there", [], sorted(wanted - set(page.values("id"))))
    expect(
        "a link to RFC 9111, section 4.2.4",
        True,
        "https://www.rfc-editor.org/rfc/rfc9111#section-4.2.4" in page.values("href"),
    )


def a_page_stands_alone(stand):
    """No script, and nothing that a browser would fetch."""
    text = page_of(stand, TIMED)
    page = Reader(text)
    tags = {tag for tag, _ in page.tags}
    expect(
        "tags that fetch or run",
        set(),
        tags & {"script", "link", "img", "iframe", "object", "embed", "base", "form", "use", "image"},
    )
    expect(
        "attributes that fetch or run",
        [],
        [
            it
            for _, one in page.tags
            for it in one
            if it in ("src", "srcset", "data", "xlink:href") or it.startswith("on")
        ],
    )
    expect("what its style fetches", [], re.findall(r"url\(|@import", text))
    expect("its policy", True, "default-src 'none'; style-src 'unsafe-inline'" in page.values("content"))
    expect(
        "links elsewhere",
        set(),
        {it.split("/rfc/")[0] for it in page.values("href") if not it.startswith("#")} - {"https://www.rfc-editor.org"},
    )
    expect_within("bytes", 10000, 200000, len(text))


def hostile_names_are_text(stand):
    """A log whose names would be markup gives the tags of an honest one, and shows each name."""
    page = Reader(page_of(stand, stand.file("hostile.log", "\n".join(HOSTILE) + "\n")))
    honest = Reader(page_of(stand, TIMED))
    expect("tags beyond those of an honest log", set(), {it for it, _ in page.tags} - {it for it, _ in honest.tags})
    names = {name for _, it in page.tags for name in it} - {name for _, it in honest.tags for name in it}
    expect("attributes beyond those", set(), names)
    shown = page.words()
    for name in (
        "<script>x()<",
        "http://h/</title><script>x()</script>/b",
        "'onmouseover='x()'",
        "&lt;b&gt;&#60;script&#62;",
        "403 denied by <script>x()</script>",
        "<img/src=http://evil/>:80",
    ):
        expect(f"{name} as text", True, name in shown)


# Files of which a page is made: logs with changed bytes, words out of order, and moments of any year.
FILES, SEED = 60, 9211
REASONS = [
    "hit;ttl=1",
    "fwd=uri-miss;ttl=6;stored",
    "denied by line 3",
    "fwd=stale;fwd-status=503;detail=stale-if-error",
    "origin closed;fwd=method",
]


def some_log(dice):
    """Lines whose moments are near one another, or of any year until 9999."""
    lines, begin = [], dice.choice([0, 1764050000, 253402000000])
    for _ in range(dice.choice([1, 2, 30, 300])):
        moment = dice.choice([begin + dice.randrange(10 ** dice.randrange(1, 6)), dice.randrange(253402300799)])
        words = dice.choice([200, 404, 500]), dice.choice(REASONS), dice.random(), dice.randrange(5)
        lines.append("%d c GET http://h/x 200 %d %s %.3f h:%d\n" % (moment, *words))
    return "".join(lines).encode("ascii")


def pages_of_any_file(stand):
    """Each that has a line of a log gives a page of the tags that an honest log gives, with numbers that are some."""
    dice, pages, honest = random.Random(SEED), 0, {tag for tag, _ in Reader(page_of(stand, TIMED)).tags}
    with open(LOG, "rb") as it:
        log = it.read()
    for number in range(FILES):
        with open(f"{stand.folder}/any", "wb") as it:
            it.write(some_log(dice) if number % 2 else some_file(log, dice))
        ran = run(f"{stand.folder}/any", "--html", f"{stand.folder}/any.html")
        expect(f"of file {number} standard error", "", ran.stderr)
        if ran.returncode:
            continue
        with open(f"{stand.folder}/any.html", encoding="utf-8") as it:
            text = it.read()
        pages += 1
        expect(f"of file {number} other tags", set(), {tag for tag, _ in Reader(text).tags} - honest)
        expect(f"of file {number} numbers that are none", [], re.findall(r"[^a-z](?:nan|inf)[^a-z]", text))
    expect_within("pages", FILES // 2, FILES, pages)
    return f"{pages} pages of {FILES} files"


def browser():
    found = next((it for it in BROWSERS if shutil.which(it)), None)
    if not found:
        raise Skipped(f"there is no {BROWSERS[0]}")
    return found


def browse(stand, file, *words):
    """What a browser without a window writes to its outputs."""
    profile = f"{stand.folder}/browser"
    how = ["--headless=new", "--no-sandbox", "--disable-gpu", "--hide-scrollbars", "--force-device-scale-factor=1"]
    how += [f"--user-data-dir={profile}", f"--window-size={WIDE},{HIGH}", *words]
    environment = {**os.environ, "HOME": stand.folder, "XDG_CONFIG_HOME": profile, "XDG_CACHE_HOME": profile}
    ran = subprocess.run([browser(), *how, f"file://{file}"], capture_output=True, timeout=120, env=environment)
    if ran.returncode:
        raise Unexpected("a browser's status", 0, (ran.returncode, ran.stderr[-300:]))
    return ran.stdout.decode("utf-8", "replace"), ran.stderr.decode("utf-8", "replace")


def pixels_of(path):
    """How often each colour stands in a picture: PNG of 8 bits, RGB or RGBA, not interlaced (ISO/IEC 15948)."""
    with open(path, "rb") as it:
        data = it.read()
    at, packed = 8, b""
    while at < len(data):
        length, kind = int.from_bytes(data[at : at + 4], "big"), data[at + 4 : at + 8]
        if kind == b"IHDR":
            wide, high = int.from_bytes(data[at + 8 : at + 12], "big"), int.from_bytes(data[at + 12 : at + 16], "big")
            expect("bits, and no interlacing", (8, 0), (data[at + 16], data[at + 20]))
            size = {2: 3, 6: 4}[data[at + 17]]
        packed += data[at + 8 : at + 8 + length] if kind == b"IDAT" else b""
        at += 12 + length
    rows, before, counts = zlib.decompress(packed), bytearray(wide * size), {}
    for number in range(high):
        line = rows[number * (wide * size + 1) : (number + 1) * (wide * size + 1)]
        before = unfiltered(line[0], bytearray(line[1:]), before, size)
        for x in range(0, wide * size, size):
            colour = tuple(before[x : x + 3])
            counts[colour] = counts.get(colour, 0) + 1
    return counts


def unfiltered(way, line, above, size):
    """A row of a picture, from the differences that are stored of it."""
    for i in range(len(line) if way else 0):
        left, corner = (line[i - size], above[i - size]) if i >= size else (0, 0)
        if way == 1:
            guess = left
        elif way == 2:
            guess = above[i]
        elif way == 3:
            guess = (left + above[i]) // 2
        else:
            near = left + above[i] - corner
            guess = min((left, above[i], corner), key=lambda it: abs(near - it))
        line[i] = (line[i] + guess) & 255
    return line


def a_browser_draws_it(stand):
    """A picture of the page: by day and by night its ground and the areas have their colours."""
    page_of(stand, LOG)
    for scheme, ground in (("1", DAY), ("0", NIGHT)):
        shot = f"{stand.folder}/shot.png"
        browse(
            stand,
            f"{stand.folder}/page.html",
            f"--blink-settings=preferredColorScheme={scheme}",
            f"--screenshot={shot}",
        )
        counts = pixels_of(shot)
        expect("pixels", WIDE * HIGH, sum(counts.values()))
        expect_within("colours", 30, WIDE * HIGH, len(counts))
        expect_within("pixels of the ground", WIDE * HIGH // 50, WIDE * HIGH, counts.get(ground, 0))
        if ground == DAY:
            expect_within("pixels of hits", 500, WIDE * HIGH // 2, counts.get(HIT, 0))
    return f"{len(counts):,} colours by night"


def a_browser_finds_no_fault(stand):
    """It reads the page as it is written, areas and all, and finds no fault; in a page that has one it does."""
    listen = ["--dump-dom", "--enable-logging=stderr", "--v=0"]
    bad = stand.file("bad.html", "<script>throw new Error('a fault of a script')</script>")
    expect("what is said of a script's fault", True, "a fault of a script" in browse(stand, bad, *listen)[1])
    for log in (LOG, stand.file("hostile.log", "\n".join(HOSTILE) + "\n")):
        text = page_of(stand, log)
        dom, said = browse(stand, f"{stand.folder}/page.html", *listen)
        expect("what is said of the page", [], [it for it in said.split("\n") if "CONSOLE" in it])
        expect("its areas", text.count('class="area '), dom.count('class="area '))
        expect_within("areas", 4, 12, dom.count('class="area '))
        expect(
            "its tags",
            [tag for tag, _ in Reader(text).tags if tag != "tbody"],
            [tag for tag, _ in Reader(dom).tags if tag != "tbody"],
        )


# What the lines of a large log say in turn: two hits, what is stored, and a denial.
IN_TURN = [
    "200 9 hit;ttl=5 2 -",
    "200 9 hit;ttl=4 3 -",
    "200 9 fwd=uri-miss;ttl=9;stored 40 127.0.0.1:80",
    "403 16 denied by line 1 0 -",
]


def a_million_lines_in_a_browser(stand):
    """1,000,000 lines of a day: the figures are right, the page is as small as another, and a browser draws it."""
    path, day = f"{stand.folder}/day.log", 1764028800
    with open(path, "w", encoding="ascii") as it:
        for i in range(1000000):
            it.write(f"{day + i * 86400 // 1000000} c GET http://h{i % 7}.example/{i % 50}/{i} {IN_TURN[i % 4]}\n")
    text = page_of(stand, path)
    words = Reader(text).words()
    for figure in (
        "answers 1,000,000",
        "hit ratio 66.7 %",
        "of 750,000; left out: 250,000 refused or failed",
        "403 250,000 25.0 %",
    ):
        expect(f"`{figure}` in the page", True, figure in words)
    expect_within("bytes", 10000, 250000, len(text))
    shot = f"{stand.folder}/day.png"
    browse(stand, f"{stand.folder}/page.html", "--blink-settings=preferredColorScheme=1", f"--screenshot={shot}")
    expect_within("pixels of hits", 500, WIDE * HIGH // 2, pixels_of(shot).get(HIT, 0))
    return f"{len(text):,} bytes"
