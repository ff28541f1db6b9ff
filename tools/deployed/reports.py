"""tools/report, on a log that was written and counted by hand (tools/deployed/by_hand.log), and on what is no log."""
import contextlib
import importlib.machinery
import importlib.util
import io
import os
import pty
import random
import re
import resource
import subprocess
import sys

from deployed.stand import DEPLOY, part
from live.changes import changed
from live.expect import Unexpected, expect, expect_within
from reported import lines, times
from reported.queries import Queries
from reported.times import Origins

TOOLS = os.path.dirname(os.path.dirname(os.path.realpath(__file__)))
LOG, TIMED = f"{TOOLS}/deployed/by_hand.log", f"{TOOLS}/deployed/by_hand_timed.log"
ASKED = f"{TOOLS}/deployed/by_hand_asked.log"
# What the log comes to, counted by hand: the words of each line but its bar.
COUNTED = """
22 answers, 5,831 bytes of content, from 2025-11-25 05:53:20 to 2025-11-25 05:55:01 UTC
a minute: 12.9 asked, 20 at most (2025-11-25 05:53); 2.9 stored, 3 at most (2025-11-25 05:53)
hit ratio: 41.7 % of 12; left out 8 refused or failed, 1 of lines without cache, 1 by other methods than GET and HEAD
byte hit ratio: 45.3 % of 5,589 bytes of content
stored again while the last would have been fresh: 1 of 4 that were stored for want of any
2xx 13 59.1 %
200 12 54.5 %
201 1 4.5 %
4xx 4 18.2 %
400 2 9.1 %
403 2 9.1 %
5xx 5 22.7 %
502 2 9.1 %
504 3 13.6 %
hit 4 18.2 %
fwd=uri-miss;stored 4 18.2 %
failed at the origin 3 13.6 %
fwd=uri-miss 2 9.1 %
refused by the table 2 9.1 %
refused, malformed 2 9.1 %
fwd=uri-miss;collapsed 1 4.5 %
fwd=method 1 4.5 %
fwd=bypass;detail=operator 1 4.5 %
fwd=stale;stored 1 4.5 %
refused, only-if-cached 1 4.5 %
a.example 10 40.0 %
b.example:8080 2 50.0 %
a.example/img 9 44.4 %
b.example:8080/api 2 50.0 %
a.example/ 1 0.0 %
http://a.example/img/1.png 2 28.6 %
http://a.example/img/2.png?x=/y 2 28.6 %
http://a.example/ 1 14.3 %
http://a.example/img/3.png 1 14.3 %
http://b.example:8080/api/b 1 14.3 %
most missed paths: misses, and with how many different queries
http://a.example/img/1.png 2 28.6 % 0
http://a.example/img/2.png 2 28.6 % 1
http://a.example/ 1 14.3 % 0
http://a.example/img/3.png 1 14.3 % 0
http://b.example:8080/api/b 1 14.3 % 0
http://a.example/img/1.png 1 100.0 %
wait = "missing-or-stale" 0 of 1, a guess
2 not stored, and nothing says why: explain = "storing" in the line has the answer say it
127.0.0.1 22 100.0 % 8 5,831
403 denied by line 1 2 25.0 %
504 origin timed-out;fwd=uri-miss 2 25.0 %
502 origin refused;fwd=uri-miss 1 12.5 %
504 only-if-cached;fwd=uri-miss 1 12.5 %
400 refused: head 1 12.5 %
400 refused: form 1 12.5 %
b.example:8080 2 1 0 0 60.0 % of 5
a.example 0 0 1 0 14.3 % of 7
1 lines that are none of a log
left before an answer: none
"""
# The same of the log that tells how long answers took, and the origin that was asked.
COUNTED_TIMED = """
14 answers, 171 bytes of content, from 2026-11-26 12:00:00 to 2026-11-26 12:01:59 UTC
a minute: 7.0 asked, 8 at most (2026-11-26 12:01); 0.5 stored, 1 at most (2026-11-26 12:00)
hit ratio: 50.0 % of 8; left out 4 refused or failed, 1 by other methods than GET and HEAD, 1 with a range, a content or a precondition
2xx 9 64.3 %
200 7 50.0 %
201 1 7.1 %
206 1 7.1 %
4xx 2 14.3 %
500 1 7.1 %
fwd=stale;detail=stale-if-error 2 14.3 %
a.example/x 7 57.1 %
a.example/y 1 0.0 %
http://a.example/x 3 75.0 %
targets stored again while the last would have been fresh: none
failures by origin: timed out (504), other (502), 5xx of its own; of these with a stored response in its place; share of what it was asked
127.0.0.1:9002 0 1 2 2 100.0 % of 4
127.0.0.1:9001 1 0 0 0 25.0 % of 4
seconds from a request's first byte: median, 99 in 100 took no longer, longest
hit 4 0.002 0.004 0.004
forwarded 6 0.120 5.000 5.001
refused or failed 4 0.000 60.000 60.000
seconds by origin, cut to three digits: median, 95 in 100 took no longer, 99 in 100 took no longer, longest
127.0.0.1:9001 4 0.120 60.000 60.000 60.000
127.0.0.1:9002 4 0.080 5.000 5.000 5.001
slowest targets, whatever the query: on the average, the longest, and how often an origin answered
POST http://a.example/x 0.250 0.250 1
http://a.example/y 0.080 0.080 1
http://a.example/x 0.075 0.120 2
http://a.example/x 0.150 0.120 2
"""
# Of a log that has who asked, queries, and an answer of each kind that tells of a word of the table.
COUNTED_ASKED = """
29 answers, 14,006 bytes of content, from 2026-11-26 12:00:00 to 2026-11-26 12:01:45 UTC
hit ratio: 4.0 % of 25; left out 4 refused or failed
byte hit ratio: 7.2 % of 13,840 bytes of content
stored again while the last would have been fresh: 0 of 5 that were stored for want of any
http://a.example/page/1?utm_source=1 2 8.3 %
most missed paths: misses, and with how many different queries
http://a.example/page/1 5 20.8 % 4
http://a.example/s 4 16.7 % 0
http://a.example/n 3 12.5 % 0
http://a.example/big 2 8.3 % 0
http://a.example/v 1 4.2 % 0
what would have been a hit with a word of the table (docs/LINE_OPTIONS.md), of the answers that tell it
request-directives = "ignored" 2 of 2, sure of each by itself
lifetime = 60 2 of 5, a guess
wait = "missing-or-stale" 2 of 4, a guess
a larger max_stored 1 of 2, a guess
stale-if-error = SECONDS 2 of 2, a guess, and no hits
2 kept out by the line's own set-cookie, cookies or errors: detail=not-stored-set-cookie, not-stored-request-cookie, not-stored-error-status
2 kept out by the origin or the client, and no word helps: another detail=not-stored-.. (tools/why)
2 not stored, and nothing says why: explain = "storing" in the line has the answer say it
10.0.0.2 20 69.0 % 0 13,340
10.0.0.1 5 17.2 % 0 500
10.0.0.3 4 13.8 % 4 166
seconds by origin, cut to three digits: median, 95 in 100 took no longer, 99 in 100 took no longer, longest
127.0.0.1:9001 20 0.100 0.190 0.200 0.200
127.0.0.1:9002 7 0.300 5.000 5.000 5.000
http://a.example/s 0.550 1.000 4
http://a.example/v 0.200 0.200 1
http://a.example/u 0.185 0.190 2
http://a.example/r 0.065 0.070 2
http://a.example/s 2.200 1.000 4
http://a.example/u 0.370 0.190 2
http://a.example/big 0.270 0.140 2
http://a.example/page/1 0.150 0.050 5
"""
# What stands in front of a reason and behind it: the moment in Unix seconds, the reason, how long it took in microseconds, the origin.
FORMS = {
    b"1764050000 c GET http://h/ 200 5 hit;ttl=1": (1764050000, b"hit;ttl=1", None, None),
    b"1764050000.123 c GET http://h/ 200 5 fwd=uri-miss;ttl=6;stored 0.012 127.0.0.1:8081": (1764050000, b"fwd=uri-miss;ttl=6;stored", 12000, b"127.0.0.1:8081"),
    b"1764050002.870 c GET http://h/ 403 16 denied by line 1 0.000 -": (1764050002, b"denied by line 1", 0, None),
    b"1764050000.5 c GET http://h/ 200 5 hit;ttl=1 7 -": (1764050000, b"hit;ttl=1", 7000, None),
    b"2025-11-25T05:53:20Z c GET http://h/ 200 5 hit;ttl=1 7ms -": (1764050000, b"hit;ttl=1", 7000, None),
    b"2025-11-25T05:53:20.999Z c GET http://h/ 403 5 denied by line 1 0.5 -": (1764050000, b"denied by line 1", 500000, None),
    b"1 c GET http://h/ 403 5 denied by line 12 13 -": (1, b"denied by line 12", 13000, None),
    b"1 c GET http://h/ 403 5 denied by line 12": (1, b"denied by line 12", None, None),
    b"1 c GET http://h/ 403 5 no line allows it - -": (1, b"no line allows it", None, None),
    b"1 c - - 400 5 refused: head 2s -": (1, b"refused: head", 2000000, None),
    b"1 c GET http://h/ 502 5 origin closed;fwd=uri-miss 1.25 10.0.0.1:80": (1, b"origin closed;fwd=uri-miss", 1250000, b"10.0.0.1:80"),
    b"1 c GET http://h/ 200 5 fwd=uri-miss 12.345 [::1]:8081 and more": (1, b"fwd=uri-miss", 12345000, b"[::1]:8081"),
}
# Two origins, told apart by the table: /img goes to one, all else to another.
# Lines of which the program writes none: what each has that a line of a log hasn't.
NO_LINES = {
    "a moment beyond any year": b"99999999999999999999 a GET http://h/ 200 1 hit",
    "a moment behind the year 9999": b"253402300800 a GET http://h/ 200 1 hit",
    "a negative moment": b"-1 a GET http://h/ 200 1 hit",
    "a host of a byte above 7E": b"1 a GET http://\xff/ 200 1 hit",
    "an escape in a target": b"1 a GET http://h/\x1b[31m 200 1 hit",
    "an escape in a reason": b"1 a GET http://h/ 400 1 denied by \x1b[2J",
    "a NUL": b"1 a GET http://h/\0 200 1 hit",
    "a status of four digits": b"1 a GET http://h/ 2000 1 hit",
    "a length that is no number": b"1 a GET http://h/ 200 1_0 hit",
    "a length of 5,000 digits": b"1 a GET http://h/ 200 " + b"9" * 5000 + b" hit",
    "no reason": b"1 a GET http://h/ 200 1",
    "nothing": b"",
    "a day that isn't": b"2026-02-30T12:00:00.000Z a GET http://h/ 200 1 hit",
    "an hour that isn't": b"2026-02-03T24:00:00Z a GET http://h/ 200 1 hit",
    "a day of the year 1": b"0001-01-01T00:00:00Z a GET http://h/ 200 1 hit",
    "no reason before its time": b"1 a GET http://h/ 200 1  12 -",
    "a target of a megabyte": b"1 a GET http://h/" + b"x" * 1100000 + b" 200 1 hit",
    "a CR at its end": b"1 a GET http://h/ 200 1 hit\r",
}
# Such numbers, and pieces of lines, are put into files of random bytes.
FILES, SEED = 600, 5861
WORDS = [b"1", b"253402300799", b"9" * 5000, b"a", b"GET", b"-", b"http://h/a", b"http://h:8080/", b"http://", b"//"]
WORDS += [b"200", b"504", b"hit", b"fwd=uri-miss", b";ttl=" + b"9" * 5000, b";stored", b"denied by line 1", b"\x1b[2J"]
WORDS += [b"12.345", b"7ms", b"127.0.0.1:80", b"2026-11-26T12:00:00.123Z", b"9" * 12 + b".9"]
WORDS += [b"\xff", b"\0", b"\r", b"%", b"%zz", b"\\x1b", b";", b"origin refused"]
TABLE = """
[[line]]
host = "*"
methods = ["GET"]
path = "/%69mg"
origin = "127.0.0.1:9001"

[[line]]
host = "b.example"
methods = ["*"]
path = "/"
origin = "127.0.0.1:9002"
"""


def run(*words, **more):
    return subprocess.run([sys.executable, f"{TOOLS}/report", *words], capture_output=True, text=True, timeout=120, **more)


def processor_seconds():
    """Those of the programs that were run and have ended: others' work makes a machine slow, and not the report."""
    spent = resource.getrusage(resource.RUSAGE_CHILDREN)
    return spent.ru_utime + spent.ru_stime


def words_of(text):
    """Each line without its bar and with single blanks."""
    return [" ".join(line.rstrip("# \n").split()) for line in text.splitlines()]


@part
def report(stand):
    yield "a_log_that_was_counted_by_hand", a_log_that_was_counted_by_hand
    yield "a_log_with_times_and_origins", a_log_with_times_and_origins
    yield "a_log_of_who_asks_and_what_a_word_would_change", lambda: a_log_of_who_asks(stand)
    yield "a_crawl_with_a_query_of_its_own_each", lambda: a_crawl_with_queries(stand)
    yield "what_was_born_old", lambda: what_was_born_old(stand)
    yield "queries_and_times_are_bounded", queries_and_times_are_bounded
    yield "forms_of_a_line", forms_of_a_line
    yield "origins_by_the_table", lambda: origins_by_the_table(stand)
    yield "what_is_no_log", lambda: what_is_no_log(stand)
    yield "lines_that_the_program_writes_never", lambda: lines_that_the_program_writes_never(stand)
    yield "files_of_random_bytes", lambda: files_of_random_bytes(stand)
    yield "how_far_it_is_on_a_terminal", how_far_it_is_on_a_terminal
    yield "a_million_lines", lambda: a_million_lines(stand)
    yield "names_without_end", names_without_end


def a_log_that_was_counted_by_hand():
    ran = run(LOG)
    told = words_of(ran.stdout)
    expect("status and standard error", (0, ""), (ran.returncode, ran.stderr))
    expect("figures that aren't told", [], [it for it in COUNTED.split("\n") if it not in told])
    titles = [it for it in told if it and it not in COUNTED.split("\n")]
    expect("lines beyond the figures: titles, and why a word is told", 11, len(titles))
    with open(LOG, "rb") as it:
        expect("of standard input", ran.stdout, run("-", stdin=it).stdout)


def a_log_with_times_and_origins():
    ran = run(TIMED)
    expect("status and standard error", (0, ""), (ran.returncode, ran.stderr))
    told = words_of(ran.stdout)
    expect("figures that aren't told", [], [it for it in COUNTED_TIMED.split("\n") if it not in told])


def a_log_of_who_asks(stand):
    """As text, and the same numbers in the page."""
    ran = run(ASKED)
    expect("status and standard error", (0, ""), (ran.returncode, ran.stderr))
    told = words_of(ran.stdout)
    expect("figures that aren't told", [], [it for it in COUNTED_ASKED.split("\n") if it not in told])
    run(ASKED, "--html", f"{stand.folder}/asked.html")
    with open(f"{stand.folder}/asked.html", encoding="utf-8") as it:
        cells = " ".join(re.sub(r"<[^>]*>", " ", it.read().replace("&quot;", '"')).split())
    expect("numbers that the page lacks", [], [it for it in OF_PAGE if it not in cells])


# Rows of the page, as they are read from left to right.
OF_PAGE = [
    'request-directives = "ignored" 2 2 sure of each by itself a fresh response was held: fwd=request',
    "lifetime = 60 2 5 a guess within 60 s",
    'wait = "missing-or-stale" 2 4 a guess',
    "byte hit ratio 7.2 % of 13,840 bytes of content",
    "http://a.example/page/1 5 20.8 % 4",
    "10.0.0.2 20 69.0 % 0 13,340",
    "127.0.0.1:9001 20 0.100 0.190 0.200 0.200",
    "http://a.example/s 4 0.550 1.000 2.200",
]


def a_crawl_with_queries(stand):
    """200 misses of one page, each with a query of its own, are one row that says so."""
    line = "%d 10.0.0.%d:1 GET http://h.example/page/1?utm_source=%d 200 9 fwd=uri-miss;ttl=60;stored 0.010 127.0.0.1:81\n"
    text = "".join(line % (1795694400 + number, number % 7, number) for number in range(200))
    told = words_of(run(stand.file("crawl", text)).stdout)
    expect("the row of the page", True, "http://h.example/page/1 200 100.0 % 200" in told)
    expect("the clients", True, "10.0.0.0 29 14.5 % 0 261" in told and "10.0.0.6 28 14.0 % 0 252" in told)


def what_was_born_old(stand):
    """Responses whose lifetime was over when they were stored are told, and aren't taken for others that expired."""
    line = "179569440%d 10.0.0.1:1 GET http://h.example/ 200 9 %s 0.010 127.0.0.1:81\n"
    reasons = ["fwd=uri-miss;ttl=-60;stored", *["fwd=stale;ttl=-60;stored"] * 3, "fwd=uri-miss;ttl=0;stored"]
    told = words_of(run(stand.file("old", "".join(line % it for it in enumerate(reasons)))).stdout)
    expect("how many", 1, len([it for it in told if it.startswith("4 stored when they were over already (ttl below 0)")]))
    expect("what they aren't taken for", [], [it for it in told if it.startswith("wait =")])


def queries_and_times_are_bounded():
    """Where there are too many the numbers are about right, and say so."""
    some, one, other = Queries(most=500), [0], [0]
    for number in range(400):
        some.add(b"/a?%d" % (number % 200), one)
    expect("exact up to the bound", ({id(one): 200}, 1), (some.by_row(), some.one_in()))
    for number in range(20000):
        some.add(b"/a?%d" % number, one)
        some.add(b"/b?%d" % (number % 10000), other)
    expect_within("targets that are remembered", 100, 500, len(some.rows))
    expect_within("of how many one is counted", 32, 256, some.one_in())
    expect_within("queries of 20,000", 12000, 28000, some.by_row()[id(one)])
    expect_within("queries of 10,000", 5000, 15000, some.by_row()[id(other)])
    origins = Origins()
    for number in range(1, times.MOST_ORIGINS + 100):
        for took in range(1000000, 1000000 + 10000 * 700, 10000):
            origins.add(b"%d" % number, took, 1)
    origins.bound()
    expect("origins, and digits", (times.MOST_ORIGINS + 1, 2), (len(origins.rows), origins.digits))
    expect_within("different times", 1000, 2 * times.MOST_TIMES, sum(len(it.counts) for it in origins.rows.values()))
    expect("the last of all is the others", times.OTHERS, origins.shown(times.MOST_ORIGINS + 1)[-1][0])
    # (1.00 to 7.99 s, each once: the 350th is 4.49 s, to two digits)
    expect("a median to two digits", 4400000, origins.rows[b"1"].least(50))


def forms_of_a_line():
    """A line of each form, by what is read of it; and three lines of a file without a line end."""
    for line, (moment, *rest) in FORMS.items():
        parts = lines.parts_of(line) or [None] * 10
        took = parts[6] and lines.microseconds_of(parts[6])
        expect(f"of {line} moment, reason, microseconds and origin", [moment, *rest], [parts[0], parts[5], took, parts[7]])
    pieces = [it for some in lines.pieces_of(io.BytesIO(b"a\n\nb")) for it in some]
    expect("lines of a file without an end", [b"a", b"", b"b"], pieces)


def origins_by_the_table(stand):
    ran = run(LOG, "--table", stand.file("two.toml", TABLE))
    told = words_of(ran.stdout)[-3:]
    # (a POST to a.example/ has no line there)
    named = ["127.0.0.1:9002 2 1 0 0 60.0 % of 5", "127.0.0.1:9001 0 0 1 0 20.0 % of 5"]
    expect("the last lines", [*named, "1 lines that are none of a log"], told)
    ran = run(LOG, "--table", f"{DEPLOY}/table.toml", "--top", "1")
    expect("with one of each list", "127.0.0.1:8081 2 1 1 0 33.3 % of 12", words_of(ran.stdout)[-2])


def what_is_no_log(stand):
    ran = run(stand.file("none", "a\n\nb c d e f g h\n"))
    expect("status and lines", (1, "3 lines that are none of a log\n"), (ran.returncode, ran.stdout))
    expect("status of a file that isn't there", 1, run(f"{stand.folder}/nothing").returncode)


def lines_that_the_program_writes_never(stand):
    """Each is counted as none of a log, beside a line that is one; and no byte of it goes to the terminal."""
    good = b"1 a GET http://h/ 200 1 hit\n"
    for what, line in NO_LINES.items():
        with open(f"{stand.folder}/none", "wb") as it:
            it.write(good + line + b"\n")
        ran = run(f"{stand.folder}/none")
        told = words_of(ran.stdout)
        expect(f"of {what} status and standard error", (0, ""), (ran.returncode, ran.stderr))
        wanted = "1 answers", "1 lines that are none of a log"
        expect(f"of {what} the first and the last line", wanted, (told[0].split(",")[0], told[-1]))
    ran = run(LOG, "--table", stand.file("escape.toml", TABLE.replace("127.0.0.1:9002", "\\u001b[31m\\u00ff")))
    expect("an origin of hidden characters", r"\x1b[31m\xff 2 1 0 0 60.0 % of 5", words_of(ran.stdout)[-3])


def report_module():
    """tools/report, to be called in this process: a fault in it is one of the test."""
    loader = importlib.machinery.SourceFileLoader("report", f"{TOOLS}/report")
    module = importlib.util.module_from_spec(importlib.util.spec_from_loader("report", loader))
    loader.exec_module(module)
    return module


def some_line(dice):
    """Words behind one another, or what is a line of a log but for one or two of its words."""
    if dice.random() < 0.5:
        return b" ".join(dice.choice(WORDS) for _ in range(dice.choice([1, 6, 7, 7, 7, 8])))
    numbers = dice.getrandbits(36), dice.choice(WORDS), dice.randrange(1000), dice.getrandbits(64)
    return b"%d a GET http://h/%s %d %d %s" % (*numbers, b"".join(dice.sample(WORDS, 3)))


def some_file(log, dice):
    """A log of which some bytes are changed, words behind one another, or just bytes."""
    way = dice.randrange(3)
    if way == 0:
        for _ in range(dice.choice([1, 2, 8, 30])):
            log = changed(log, dice)
        return log
    if way == 1:
        return b"\n".join(some_line(dice) for _ in range(40))
    return dice.randbytes(dice.choice([1, 100, 3000]))


def counted(pattern, told):
    """The number that a line begins with; 0 where there is no such line."""
    found = re.search(f"(?m)^{pattern}", told)
    return int(found[1].replace(",", "")) if found else 0


def files_of_random_bytes(stand):
    """Each line of any file is an answer or is counted as none of a log; nothing but visible characters is written."""
    report, dice = report_module(), random.Random(SEED)
    with open(LOG, "rb") as it:
        log = it.read()
    answers, table = 0, ["--table", f"{DEPLOY}/table.toml"]
    for number in range(FILES):
        text = some_file(log, dice)
        with open(f"{stand.folder}/random", "wb") as it:
            it.write(text)
        with contextlib.redirect_stdout(io.StringIO()) as out:
            status = report.main([f"{stand.folder}/random", *(table if number % 2 else [])])
        told = out.getvalue()
        count, faults = counted(r"([0-9,]+) answers", told), counted(r"([0-9,]+) lines that are none", told)
        answers += count
        wanted = text.count(b"\n") + (text != b"" and not text.endswith(b"\n")), 1 if count == 0 else 0
        expect(f"of file {number} lines and status", wanted, (count + faults, status))
        expect(f"of file {number} hidden characters", [], re.findall(r"[^ -~\n]", told))
    if not answers:
        raise Unexpected("of all files", "some lines that are of a log", "none")
    return f"{FILES:,} files, {answers:,} lines of a log in them"


def how_far_it_is_on_a_terminal():
    """Where standard error is a terminal it tells how far it is, and takes it away again; standard output is as ever."""
    ours, theirs = pty.openpty()
    ran = subprocess.run([sys.executable, f"{TOOLS}/report", LOG], stdout=subprocess.PIPE, stderr=theirs, text=True, timeout=60)
    os.close(theirs)
    shown = os.read(ours, 65536).decode("ascii")
    os.close(ours)
    size = f"{os.path.getsize(LOG):,}"
    expect("what is shown at first", f"\r{size} of {size} bytes (100 %), 0 s, 22 answers\r", shown.partition("\r\r")[0] + "\r")
    expect("what is left at the end", "", shown.rstrip("\r").rpartition("\r")[2].strip())
    expect("characters of a terminal's commands", [], re.findall(r"[^ -~\r]", shown))
    expect("standard output", run(LOG).stdout, ran.stdout)


def a_million_lines(stand):
    """1,100,000 lines, each target stored again and again; as text and as a page."""
    with open(LOG, encoding="utf-8") as it:
        text = it.read()
    file, began = stand.file("million", text * 50000), processor_seconds()
    ran = run(file)
    seconds = processor_seconds() - began
    if not ran.stdout.startswith("1,100,000 answers, 291,550,000 bytes of content"):
        raise Unexpected("a first line of", "1,100,000 answers, 291,550,000 bytes", ran.stdout[:200])
    expect("the ratio", True, "hit ratio: 41.7 % of 600,000; left out 400,000 refused or failed" in ran.stdout)
    expect_within("the report", 0, 30, seconds)
    page = run(file, "--html", f"{stand.folder}/million.html")
    told = re.search(r": ([0-9,]+) bytes about 1,100,000 answers, in [0-9.]+ s with ([0-9]+) MB\n", page.stdout)
    if not told:
        raise Unexpected("of the page", "its bytes, seconds and MB", page.stdout[-200:] + page.stderr[-200:])
    expect_within("bytes of the page", 10000, 300000, int(told[1].replace(",", "")))
    expect_within("MB for the page", 1, 100, int(told[2]))
    return f"1,100,000 lines in {seconds:.1f} s of the processor; a page of {told[1]} bytes with {told[2]} MB"


# Lines in which each host, segment, target, reason, time and origin is another one, and the memory that they may take.
NAMES, MOST_MB = 300000, 170


def names_without_end():
    """Memory doesn't grow with the names: of so many the rarest are counted as others."""
    script = "import sys\n"
    script += f"for i in range({NAMES}):\n"
    script += "    sys.stdout.write(f'{i * 37} c{i}:1 GET http://{i:0300}/{i:0300}/{i}?{i} 200 1 fwd=uri-miss;x{i};ttl=9{i};stored {i}.{i:06} h{i}:80\\n')\n"
    with subprocess.Popen([sys.executable, "-c", script], stdout=subprocess.PIPE) as writes:
        ran = run("-", "--html", "/dev/null", stdin=writes.stdout)
    told = re.search(r"about ([0-9,]+) answers, in [0-9.]+ s with ([0-9]+) MB\n", ran.stdout)
    expect("answers", f"{NAMES:,}", told[1] if told else ran.stdout[-300:] + ran.stderr[-300:])
    expect_within("MB", 1, MOST_MB, int(told[2]))
    return f"{NAMES:,} lines of names of 300 bytes with {told[2]} MB"
