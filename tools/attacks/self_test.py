"""Whether the attack finds what it looks for: against bad heads, and against proxies that each
break one rule."""
import random

from attacks import beside_real, client, hostile, interleavings, shared_answers, smuggling
from attacks.bad_proxy import bad_proxy
from attacks.cases import SMUG, Case, message
from attacks.findings import Tally
from attacks.four import KINDS as KINDS_OF_FOUR
from attacks.four import asked_by_four
from attacks.real_origins import smuggled
from attacks.strict import Fault, hold_forwarded, read_answers
from live.busy_origin import BusyOrigin
from live.client import Response

GOOD = [b"GET /a HTTP/1.1", b"Host: h", b"Via: 1.1 edge", b"Connection: close"]
# (a forwarded message, and the word for what is wrong with it)
BAD_HEADS = [
    ([*GOOD], b"", None),
    ([*GOOD, b"Content-Length: 5"], b"hello", None),
    ([b"GET /smug?1 HTTP/1.1", *GOOD[1:]], b"", "smuggled"),
    ([b"GET /%73mug/x HTTP/1.1", *GOOD[1:]], b"", "smuggled"),
    ([b"GET /smugness HTTP/1.1", *GOOD[1:]], b"", None),
    ([b"GET  /a HTTP/1.1", *GOOD[1:]], b"", "request line"),
    ([b"GET http://h/a HTTP/1.1", *GOOD[1:]], b"", "request line"),
    ([b"GET /a HTTP/1.0", *GOOD[1:]], b"", "request line"),
    ([b"GET /a\x0b HTTP/1.1", *GOOD[1:]], b"", "request line"),
    ([*GOOD, b"Host: i"], b"", "host"),
    ([GOOD[0], *GOOD[2:]], b"", "host"),
    ([GOOD[0], b"Host: h, i", *GOOD[2:]], b"", "host"),
    ([*GOOD, b"X: y\rZ: z"], b"", "value"),
    ([*GOOD, b"X: y\nZ: z"], b"", "value"),
    ([*GOOD, b"X: \0"], b"", "value"),
    ([*GOOD, b"X: \x1b"], b"", "value"),
    ([*GOOD, b"X: \x7f"], b"", "value"),
    ([*GOOD, b"X : y"], b"", "line"),
    ([*GOOD, b" folded"], b"", "line"),
    ([*GOOD, b"X"], b"", "line"),
    ([*GOOD, b"Content-Length: 5", b"Content-Length: 5"], b"hello", "lengths"),
    ([*GOOD, b"Content-Length: +5"], b"hello", "lengths"),
    ([*GOOD, b"Content-Length: 5"], b"hell", "content"),
    ([*GOOD, b"Content-Length: 5"], b"hello!", "content"),
    ([*GOOD], SMUG, "content"),
    ([*GOOD, b"Transfer-Encoding: chunked"], b"0\r\n\r\n", "coding"),
    ([*GOOD, b"Upgrade: h2c"], b"", "hop-by-hop"),
    ([*GOOD[:3]], b"", "connection"),
    ([*GOOD[:3], b"Connection: keep-alive"], b"", "connection"),
]
# (what a client got, and the word for what is wrong with it)
BAD_ANSWERS = [
    (b"HTTP/1.1 200 \r\nContent-Length: 2\r\n\r\nok" * 2, None),
    (b"HTTP/1.1 200 \r\nContent-Length: 2\r\nContent-Length: 2\r\n\r\nok", "lengths"),
    (b"HTTP/1.1 200 \r\nContent-Length: 2, 2\r\n\r\nok", "lengths"),
    (b"HTTP/1.1 200 \r\n\r\nok", "lengths"),
    (b"HTTP/1.1 204 \r\nContent-Length: 0\r\n\r\n", "lengths"),
    (b"HTTP/1.1 200 \r\nTransfer-Encoding: chunked\r\n\r\n0\r\n\r\n", "coding"),
    (b"HTTP/1.1 200 \r\nX: y\rz\r\nContent-Length: 2\r\n\r\nok", "value"),
    (b"HTTP/1.1 200 \r\nX: y\r\n z\r\nContent-Length: 2\r\n\r\nok", "line"),
    (b"HTTP/1.0 200 \r\nContent-Length: 2\r\n\r\nok", "status line"),
    (b"HTTP/1.1 999 \r\nContent-Length: 2\r\n\r\nok", "status line"),
    (b"HTTP/1.1 200 \r\nContent-Length: 1\r\n\r\nok", "status line"),
]
# What each proxy is found by, where it breaks the rule of this name; one without a fault has nothing to find.
SMUGGLING = {
    None: None, "smuggled": "smuggled", "host": "host", "lengths": "lengths", "coding": "coding", "value": "value",
    "line": "line", "connection": "connection", "request line": "request line", "hop-by-hop": "hop-by-hop",
    "content": "content", "twice": "answers", "cut": "answer, cut", "no end": "no end",
    "answer length": "answer, lengths", "answer value": "answer, value",
}
INTERLEAVINGS = {None: None, "swapped": "wrong", "cut": "missing"}
# (and for which hostile answer)
HOSTILE = [
    ("raw", "extra answer", "more"), ("raw", "short", "missing"), ("raw", "both", "coding"),
    ("raw", "two lengths", "lengths"), ("raw", "bare CR", "value"), ("raw", "folded", "line"),
    ("raw", "HTTP/2.0", "status line"), ("raw", "204 with a content", "lengths"),
    (None, "names its Set-Cookie", "named"), ("lenient", "plus", "not refused"), ("swapped", "length 0", "next"),
    (None, "plus", None), (None, "extra answer", None),
]
# What is made for a client who asks with the first lines, over a line with these words, and may be sent to one who asks with the second
# (none), or why it may not. `asked`: the origin was asked for him, too.
KEPT, DE, EN, AUTH = "Cache-Control: max-age=60", ["Accept-Language: de"], ["Accept-Language: en"], ["Authorization: Basic YTpi"]
SHARED = [
    (200, [KEPT], [], [], {}, None),
    (200, [KEPT], [], [], {"cache": "off"}, "the line has no cache"),
    (206, [KEPT], [], [], {}, "a part"),
    (200, [KEPT], ["Range: bytes=0-1"], [], {"ranges": "forwarded"}, "a part"),
    (200, [KEPT], [], ["Range: bytes=0-1"], {"ranges": "forwarded"}, "a range was asked for"),
    (200, [KEPT], ["Range: bytes=0-1"], [], {}, None),
    (206, [KEPT], ["Range: bytes=0-1"], [], {}, "a part"),
    (200, [KEPT], [], ["Range: bytes=0-1"], {}, None),
    (200, [f"{KEPT}, no-store"], [], [], {}, "no-store"),
    (200, [f"{KEPT}, must-understand, no-store"], [], [], {}, None),
    (299, [f"{KEPT}, must-understand"], [], [], {}, "must-understand"),
    (200, [f'{KEPT}, private="X"'], [], [], {}, "private"),
    (200, [f'{KEPT}, x="a, private"'], [], [], {}, None),
    (200, [KEPT], ["Cache-Control: No-Store"], [], {}, "no-store of the request"),
    (200, [KEPT], AUTH, [], {}, "Authorization"),
    (200, [f"{KEPT}, public"], AUTH, [], {}, None),
    (200, [KEPT], [], AUTH, {}, None),
    (200, [KEPT, "Vary: *"], [], [], {}, "Vary: *"),
    (200, [KEPT, "Vary: X, Accept-Language"], DE, DE, {}, None),
    (200, [KEPT, "Vary: accept-language"], DE, EN, {}, "another accept-language"),
    (200, [KEPT, "Vary: Accept-Language"], DE, [], {}, "another accept-language"),
    (200, [KEPT, "Connection: cache-control"], [], [], {}, "Connection names Cache-Control"),
    (200, [KEPT, "Set-Cookie: a=b"], [], [], {}, None),
    (200, [KEPT, "Set-Cookie: a=b"], [], [], {"set-cookie": "not-stored"}, "Set-Cookie"),
    (200, [f"{KEPT}, public", "Set-Cookie: a=b"], [], [], {"set-cookie": "not-stored"}, None),
    (500, [KEPT], [], [], {"errors": "not-stored"}, "an error"),
    (404, [KEPT], [], [], {"errors": "not-stored"}, None),
    (200, [f"{KEPT}, no-cache"], [], [], {}, "no-cache"),
    (200, [KEPT], [], ["Cache-Control: no-cache"], {}, "no-cache of the request"),
    (200, [KEPT], [], ["Cache-Control: no-cache"], {"request-directives": "ignored"}, None),
    (200, [], [], [], {}, "no lifetime"),
    (200, [], ["Cookie: sid=1"], [], {"lifetime": 60}, "for one visitor"),
    (200, ["Cache-Control: must-revalidate"], AUTH, [], {"lifetime": 60}, "for one visitor"),
    (404, [], ["Cookie: sid=1"], [], {"error-lifetime": 60}, "for one visitor"),
    (200, [], ["Cookie: sid=1"], [], {"lifetime": 60, "cookies": "shared"}, None),
    (200, [], [], ["Cookie: sid=1"], {"lifetime": 60}, None),
    (200, ["Cache-Control: public"], ["Cookie: sid=1"], [], {"lifetime": 60}, None),
    (200, [KEPT], ["Cookie: sid=1"], [], {"lifetime": 60}, None),
    (200, ["Set-Cookie: a=b"], [], [], {"lifetime": 60}, "for one visitor"),
    (200, ["Set-Cookie: a=b"], [], [], {"lifetime": 60, "set-cookie": "removed"}, None),
    (200, ["Set-Cookie: a=b", "Cache-Control: public"], [], [], {"lifetime": 60}, None),
    (200, ["Set-Cookie: a=b"], ["Cookie: sid=1"], [], {"lifetime": 60, "set-cookie": "removed"}, "for one visitor"),
    (404, [], [], [], {"lifetime": 60}, "no lifetime"),
    (404, [], [], [], {"lifetime": 60, "error-lifetime": 60}, None),
    (200, ["Cache-Control: max-age=60, s-maxage=0"], [], [], {}, "no lifetime"),
    (200, ["Cache-Control: max-age=0"], [], ["Cache-Control: max-stale"], {}, None),
]
# The kinds of the echoing origin that this proxy can read.
KINDS = ["/plain", "/kept", "/hints", "/extra", "/slow", "/failing", "/gone"]


def word_of(read, data):
    try:
        read(data)
    except Fault as fault:
        return fault.word
    return None


def checker():
    """The pairs of what is expected of the strict readers, and what they say."""
    for lines, content, word in BAD_HEADS:
        data = b"\r\n".join([*lines, b"", b""]) + content
        yield f"a forwarded {data!r}", word, word_of(hold_forwarded, data)
    for data, word in BAD_ANSWERS:
        yield f"an answer {data!r}", word, word_of(read_answers, data)
    cut = b"HTTP/1.1 200 \r\nContent-Length: 3\r\n\r\nok"
    yield "a cut answer", cut, read_answers(cut)[1]
    lines = [b"GET /smug?1 HTTP/1.1", b"GET /a?/smug HTTP/1.1", b"- 400", b"POST /smug"]
    yield "a log", [lines[0], lines[3]], smuggled(lines)


def told(word, tally):
    """What has to be told, and whether it was; where nothing has to be, all that was."""
    words = tally.words()
    return (word, word if word in words else words) if word else (set(), words)


def found_by(play):
    tally = Tally()
    play(tally)
    return tally


def smuggling_words():
    """One good request, and one with a content and a /smug behind it."""
    upload = message(b"POST /a HTTP/1.1", b"Content-Length: 5", content=b"hello")
    cases = [Case("good", message(b"GET /a HTTP/1.1")), Case("behind", upload + SMUG)]
    for fault, word in SMUGGLING.items():
        start = lambda origin: bad_proxy(origin, fault)  # noqa: B023,E731
        tally = found_by(lambda tally: smuggling.work(cases, start, tally))  # noqa: B023
        yield f"smuggling, a proxy with the fault {fault!r}", *told(word, tally)


def real_origin_words():
    """A proxy that denies nothing, before an origin whose log tells it; and which of the cases it was."""
    cases = [Case("good", message(b"GET /a HTTP/1.1")), Case("smuggled", message(b"GET /a HTTP/1.1") + SMUG)]
    for fault, word in (("smuggled", "smuggled"), (None, None)):
        start = lambda origin: bad_proxy(origin, fault)  # noqa: B023,E731
        tally = found_by(lambda tally: beside_real.run(["python"], cases, start, tally))  # noqa: B023
        yield f"a real origin, a proxy with the fault {fault!r}", *told(word, tally)
        yield "the case", [cases[1].data] if fault else [], [it.case for _, it in tally.found]


def interleavings_words():
    for fault, word in INTERLEAVINGS.items():
        start = lambda origin: bad_proxy(origin, fault)  # noqa: B023,E731
        tally = found_by(lambda tally: interleavings.play(start, 1, 3, tally, clients=8, kinds=KINDS))  # noqa: B023
        yield f"interleavings, a proxy with the fault {fault!r}", *told(word, tally)


def hostile_words():
    for fault, name, word in HOSTILE:
        start = lambda origin: bad_proxy(origin, fault)  # noqa: B023,E731
        tally = found_by(lambda tally: hostile.run(start, 1, tally, 1, cuts=0, times=0, names=[name]))  # noqa: B023
        yield f"{name!r}, a proxy with the fault {fault!r}", *told(word and f"hostile, {word}", tally)


def shared_words():
    """What is sent to another client is judged; and one's own answer is nobody else's."""
    for status, lines, first, second, words, why in SHARED:
        case = shared_answers.Case(0, random.Random(0))
        case.status, case.lines, case.asked = status, lines, [first, second, []]
        response = Response(b"HTTP/1.1 %d \r\nCache-Status: edge;hit;ttl=60\r\n\r\n" % status, b"made for 0/0.")
        yield f"{status} {lines} for {first} sent to {second} over {words}", why, shared_answers.judge(case, 1, response, {(0, 0)}, (4, words))
        yield "one's own answer", None, shared_answers.judge(case, 0, response, {(0, 0)}, (4, words))
    response.content = b"made for 1/0."
    yield "another target's", "the answer of another target", shared_answers.judge(case, 1, response, {(0, 0)}, (4, {}))


def four_words():
    """Of the four honest clients all fail at a proxy that cuts answers, and none at the origin itself."""
    origin = BusyOrigin()
    try:
        with bad_proxy(origin, "cut") as proxy:
            for what, port, expected in (("the origin", origin.port, set()), ("a proxy that cuts", proxy.port, {*KINDS_OF_FOUR})):
                why = asked_by_four(port, 1)["why"]
                yield f"who fails of the four at {what}", expected, {it for it in why if why[it]}
    finally:
        origin.close()


def run():
    """Prints what isn't as it should be; whether all is."""
    count, wrong, client.WAIT = 0, 0, 2
    for part in (checker, smuggling_words, real_origin_words, interleavings_words, hostile_words, shared_words, four_words):
        for what, expected, got in part():
            count += 1
            if expected != got:
                wrong += 1
                print(f"{what}: expected {expected!r}, got {got!r}")
    print(f"self-test: {count - wrong} of {count} as expected")
    return not wrong
