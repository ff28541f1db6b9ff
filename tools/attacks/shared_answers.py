"""Words and versions of tables: whether anything is sent to somebody else than it was made for that the RFCs, or the words of the line, forbid.

Each case has a target of its own, an answer of the origin by chance, and three clients with requests by chance, one behind the other or at
once. The origin writes into each content for whom it is: so what a client gets tells whether it was made for another, and by which request.
What may be given to another is judged here from RFC 9111, sections 3 and 4, and docs/LINE_OPTIONS.md, by no code of the proxy's. The other way
round (that it could have been given and wasn't) is no finding.
"""
import random
import re
import threading
import time
from concurrent.futures import ThreadPoolExecutor
from email.utils import formatdate

from attacks.findings import Found
from attacks.target import DENIED
from live.client import Client, request
from live.expect import Unexpected
from live.origin import Origin, head_of

TAG = '"v1"'
# RFC 9110, 15.1: what may have a lifetime that the response doesn't state, and what of it is no error; what must-understand needs.
HEURISTIC = {200, 203, 204, 206, 300, 301, 308, 404, 405, 410, 414, 501}
GOOD = {200, 203, 204, 300, 301, 308}
UNDERSTOOD = HEURISTIC - {206}
ALL_WORDS = {"lifetime": 60, "set-cookie": "not-stored", "errors": "not-stored", "request-directives": "ignored", "wait": "missing-or-stale"}
# Version and words of the one line that allows.
LINES = {
    "version 1": (1, {}),
    "version 2": (2, {}),
    "version 2 without cache": (2, {"cache": "off"}),
    "version 3": (3, {}),
    "lifetime of version 3": (3, {"lifetime": 60}),
    "cookies": (3, {"set-cookie": "not-stored"}),
    "errors": (3, {"errors": "not-stored", "lifetime": 60}),
    "directives": (3, {"request-directives": "ignored"}),
    "waiting": (3, {"wait": "missing-or-stale", "stale-if-error": 60}),
    "all words of version 3": (3, {**ALL_WORDS, "explain": "storing"}),
    "version 4": (4, {}),
    "forwarded ranges": (4, {"ranges": "forwarded"}),
    "lifetime of version 4": (4, {"lifetime": 60}),
    "shared cookies": (4, {"lifetime": 60, "cookies": "shared"}),
    "removed cookies": (4, {"lifetime": 60, "set-cookie": "removed"}),
    "a most": (4, {"lifetime-most": 60}),
    "both lifetimes": (4, {"lifetime": 60, "error-lifetime": 30}),
    "all words of version 4": (4, {**ALL_WORDS, "error-lifetime": 30, "explain": "storing"}),
}
STATUSES = [200] * 10 + [203, 204, 206, 299, 300, 301, 302, 308, 404, 404, 405, 410, 414, 500, 501, 503]
LIFETIMES = ["max-age=60", "max-age=60", "s-maxage=60", "max-age=0", "max-age=1x", "", "", "", "no-cache, max-age=60", "max-age=60, no-cache=\"X\""]
SHARING = ["", "", "", "public", "private", 'private="X-A"', "PRIVATE", "no-store", "must-revalidate", "must-understand, no-store", 'x="a, private", y']
LINES_OF_ANSWERS = [["Vary: Accept-Language"], ["Vary: X-Other, accept-language"], ["Vary: *"], ["Vary: Accept-Language", "Vary: *"], ["Set-Cookie: sid=secret"], [f"ETag: {TAG}"]]
LINES_OF_ANSWERS += [["Expires: Thu, 01 Jan 2099 00:00:00 GMT"], ["Expires: 0"], ["Connection: Cache-Control"]]
ASKED = [[], [], [], ["Cookie: sid=1"], ["Authorization: Basic YTpi"], ["Cache-Control: no-store"], ["Cache-Control: no-cache"], ["Cache-Control: max-age=0"]]
ASKED += [["Cache-Control: only-if-cached"], ["Cache-Control: max-stale"], ["Range: bytes=0-1"], [f"If-None-Match: {TAG}"], ["Accept-Language: de"], ["Accept-Language: en"]]
ASKED += [["Accept-Language: de", "Accept-Language: en"], ["Authorization: Basic YTpi", "Accept-Language: de"], ["Pragma: no-cache"], ["X-Other: x"]]
MARK = re.compile(rb"made for (\d+)/(\d+)\.")


def words_of(lines, name):
    """The members of a list field, in lower case, with their arguments: a comma in quotes ends none (RFC 9110, 5.6.1)."""
    text = ", ".join(it.partition(": ")[2] for it in lines if it.lower().startswith(f"{name}: "))
    return [it.strip() for it in re.findall(r'(?:[^,"]|"(?:\\.|[^"\\])*")+', text.lower()) if it.strip()]


def has(lines, directive):
    return any(it.partition("=")[0] == directive for it in words_of(lines, "cache-control"))


class Case:
    """A target, what its origin answers, and who asks."""

    def __init__(self, number, dice):
        self.number, self.status = number, dice.choice(STATUSES)
        control = ", ".join(it for it in (dice.choice(LIFETIMES), dice.choice(SHARING)) if it)
        self.lines = ([f"Cache-Control: {control}"] if control else []) + [it for lines in dice.sample(LINES_OF_ANSWERS, dice.choice([0, 0, 1, 1, 2])) for it in lines]
        self.asked = [dice.choice(ASKED) for _ in range(3)]
        self.at_once = dice.random() < 0.3

    def target(self):
        return f"/case/{self.number}"

    def spelled(self):
        """What is needed to understand a finding."""
        return repr((self.status, self.lines, self.asked, "at once" if self.at_once else "one by one")).encode()


class Answering:
    """The origin: the answer of a case, for whoever asks; 304 where the condition of the request holds (RFC 9110, 13.2.2)."""

    def __init__(self, cases):
        self.cases, self.came, self.lock = cases, set(), threading.Lock()

    def get(self, path, _):
        return self.answer

    def answer(self, fetch):
        case, who = self.cases[int(fetch.target.rpartition("/")[2])], int(fetch.value("X-Who"))
        with self.lock:
            self.came.add((case.number, who))
        if case.at_once:
            time.sleep(0.02)
        dated = [f"Date: {formatdate(usegmt=True)}", *case.lines]
        if f"ETag: {TAG}" in case.lines and fetch.value("If-None-Match") == TAG and case.status == 200:
            fetch.send(head_of(304, dated))
            return
        content = b"" if case.status == 204 else b"made for %d/%d." % (case.number, who)
        fetch.send(head_of(case.status, [*dated, *([] if case.status == 204 else [f"Content-Length: {len(content)}"])]) + content)


def forwards_ranges(line):
    """Whether a request for a range goes past the store; else it is answered by what is stored, and a whole answer to it is (RFC 9110, 14.2)."""
    version, words = line
    return version < 4 or words.get("ranges") == "forwarded"


def forbids_storing(case, who, line):
    """Why what the case's origin answered to `who` may be given to nobody else (RFC 9111, section 3); none where it may."""
    answer, asked, words = case.lines, case.asked[who], line[1]
    if words.get("cache") == "off":
        return "the line has no cache"
    if case.status == 206 or (forwards_ranges(line) and any(it.startswith("Range") for it in asked)):
        return "a part"
    if has(answer, "must-understand") and case.status not in UNDERSTOOD:
        return "must-understand"
    if has(answer, "no-store") and not has(answer, "must-understand"):
        return "no-store"
    if has(asked, "no-store"):
        return "no-store of the request"
    if has(answer, "private"):
        return "private"
    allows = any(has(answer, it) for it in ("public", "s-maxage", "must-revalidate"))
    if any(it.startswith("Authorization") for it in asked) and not allows:
        return "Authorization"
    if "*" in words_of(answer, "vary"):
        return "Vary: *"
    if "cache-control" in words_of(answer, "connection"):
        return "Connection names Cache-Control"
    if words.get("set-cookie") == "not-stored" and sets_cookie(answer) and not has(answer, "public"):
        return "Set-Cookie"
    if words.get("errors") == "not-stored" and case.status >= 400 and case.status not in HEURISTIC:
        return "an error"
    return None


def sets_cookie(lines):
    return any(it.startswith("Set-Cookie") for it in lines)


def is_for_one(case, who, version, words):
    """What sets a cookie, or was asked for with a cookie or credentials, and others may have by the lifetime of the line alone
    (docs/COOKIES.md)."""
    if version < 4 or has(case.lines, "public"):
        return False
    by_answer = sets_cookie(case.lines) and "set-cookie" not in words
    by_request = words.get("cookies") != "shared" and any(it.startswith(("Cookie", "Authorization")) for it in case.asked[who])
    if not (by_answer or by_request):
        return False
    stated = any(it.partition("=")[0] in ("max-age", "s-maxage") for it in words_of(case.lines, "cache-control"))
    if stated or any(it.startswith("Expires") for it in case.lines):
        return False
    return lifetime_of(case, version, words) > 0


def lifetime_of(case, version, words):
    """The seconds that the response is fresh for anybody, by what it states or by the line (RFC 9111, 4.2.1)."""
    for directive in ("s-maxage", "max-age"):
        found = [it.partition("=")[2] for it in words_of(case.lines, "cache-control") if it.partition("=")[0] == directive]
        if found:
            return int(found[0]) if len(found) == 1 and found[0].isdecimal() else 0
    expires = [it for it in case.lines if it.startswith("Expires")]
    if expires:
        return 10**9 if "2099" in expires[0] else 0
    if version < 4:
        return words.get("lifetime", 0) if case.status in HEURISTIC else 0
    return words.get("lifetime", 0) if case.status in GOOD else words.get("error-lifetime", 0) if case.status in HEURISTIC else 0


def forbids_sending(case, maker, who, was_asked, line):
    """Why what was made for `maker` may not be sent to `who` (RFC 9111, section 4); none where it may. Behind a validation for `who` it may be old."""
    version, words = line
    asked = case.asked[who]
    if is_for_one(case, maker, version, words):
        return "for one visitor"
    for name in words_of(case.lines, "vary"):
        values = [", ".join(words_of(case.asked[it], name)) for it in (maker, who)]
        if values[0] != values[1]:
            return f"another {name}"
    if forwards_ranges(line) and any(it.startswith("Range") for it in asked):
        return "a range was asked for"
    if was_asked:
        return None
    if has(case.lines, "no-cache"):
        return "no-cache"
    # (max-age=0 takes an answer whose age is 0, as it is within the second: RFC 9111, 5.2.1.1)
    if words.get("request-directives") != "ignored" and has(asked, "no-cache"):
        return "no-cache of the request"
    if lifetime_of(case, version, words) == 0 and not has(asked, "max-stale"):
        return "no lifetime"
    return None


def judge(case, who, response, came, line):
    """What is wrong with a response; none where nothing is."""
    made = MARK.search(response.content)
    was_asked = (case.number, who) in came
    if made is None or (int(made[1]), int(made[2])) == (case.number, who):
        return None
    if int(made[1]) != case.number:
        return "the answer of another target"
    maker = int(made[2])
    status = response.value("Cache-Status") or "no Cache-Status"
    told_from_store = ";hit" in status or ";collapsed" in status or ";fwd-status=304" in status or (was_asked and ";fwd=" in status)
    if not told_from_store:
        return f"it came from the store, and its reason is {status!r}"
    return forbids_storing(case, maker, line) or forbids_sending(case, maker, who, was_asked, line)


def play_case(port, case, came, line, tally):
    """Three clients of a case, one behind the other or at once."""
    clients = [Client(port, number) for number in range(3)]
    texts = [request(case.target(), f"X-Who: {who}", *lines) for who, lines in enumerate(case.asked)]
    if case.at_once:
        for it, text in zip(clients, texts):
            it.send(text)
    for who, (it, text) in enumerate(zip(clients, texts)):
        if not case.at_once:
            it.send(text)
        try:
            response = it.response()
        except Unexpected as fault:
            raise Found("no answer", f"to client {who} of {case.target()}: {fault}", case.spelled()) from None
        wrong = judge(case, who, response, came, line)
        if wrong:
            maker = MARK.search(response.content)[2].decode()
            raise Found("given to another", f"what was made for client {maker} was sent to client {who}: {wrong}", case.spelled())
        with tally.lock:
            made = MARK.search(response.content)
            tally.counts["shared answers"] += 1
            tally.counts["from the store"] += made is not None and int(made[2]) != who
        it.socket.close()


def run(start, seed, count, tally, workers):
    """`count` cases over each line."""
    for name, line in LINES.items():
        dice = random.Random(f"{seed} {name}")
        cases = [Case(number, dice) for number in range(count)]
        origin = Origin(Answering(cases))
        version, words = line
        with start(origin, lines=[DENIED, ("/", ["*"], origin.address, words)], version=version, capacity=4 * count) as proxy:

            def one(case, line=line, origin=origin, proxy=proxy, name=name):
                if tally.is_full():
                    return
                try:
                    play_case(proxy.port, case, origin.answers.came, line, tally)
                except (Found, OSError) as fault:
                    tally.find(fault if isinstance(fault, Found) else Found("no answer", str(fault), case.spelled()), f"shared answers, {name}")

            with ThreadPoolExecutor(workers) as pool:
                list(pool.map(one, cases))
        origin.close()
