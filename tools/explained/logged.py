"""What a log has about one URL: how often each reason came, and when (tools/why URL --log LOG)."""
import re
import time
from collections import Counter

from explained.asking import target_of
from reported.lines import parts_of

# What is read at once.
PIECE = 1 << 22
# Of a reason what differs from one answer to the next.
NUMBERS = re.compile(r";(?:ttl|fwd-status)=-?[0-9]+")
BORN_OLD = re.compile(r";ttl=-[0-9]+;stored")


class Found:
    """The lines about a target."""

    def __init__(self):
        self.reasons, self.first, self.last = Counter(), None, None

    def take(self, line, target):
        parts = parts_of(line)
        if parts is None or parts[2] != target:
            return
        moment, reason = parts[0], parts[5].decode("ascii")
        self.first = moment if self.first is None else self.first
        self.last = moment
        # (one that was stored when its lifetime was over keeps its number: it is told apart)
        self.reasons[reason if BORN_OLD.search(reason) else NUMBERS.sub("", f";{reason}")[1:]] += 1


def read(path, url):
    """The lines of a log about a URL. Only those that have its text are read as lines: a log may be long."""
    target, found, rest = target_of(url).encode("utf-8", "replace"), Found(), b""
    needle = b" " + target + b" "
    with open(path, "rb") as file:
        while piece := file.read(PIECE):
            text, _, rest = (rest + piece).rpartition(b"\n") if b"\n" in piece else (b"", b"", rest + piece)
            at = text.find(needle)
            while at >= 0:
                begin, end = text.rfind(b"\n", 0, at) + 1, text.find(b"\n", at)
                found.take(text[begin : end if end >= 0 else len(text)], target)
                at = text.find(needle, end) if end >= 0 else -1
        if needle in rest:
            found.take(rest, target)
    return found


def when(moment):
    return time.strftime("%Y-%m-%d %H:%M:%S", time.gmtime(moment))


def told(found, url):
    """How often each reason came."""
    whole = sum(found.reasons.values())
    if not whole:
        return [f"the log has no answer to {target_of(url)}"]
    lines = [f"{whole:,} answers to {target_of(url)}, from {when(found.first)} to {when(found.last)} UTC"]
    return [*lines, *(f"  {count:>11,} {100 * count / whole:>5.1f} %  {reason}" for reason, count in found.reasons.most_common())]


def misses(found, most):
    """The reasons that came most often and are no hits."""
    return [it for it, _ in found.reasons.most_common() if not it.startswith("hit")][:most]
