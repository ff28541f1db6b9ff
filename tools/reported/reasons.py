"""What a reason in a log says: the words of Cache-Status behind the proxy's name, or those of Refusal or Purged."""
import re

from reported.hints import hint_of

# The program's are shorter.
LONGEST = 200
TTL = re.compile(r";ttl=(-?[0-9]{1,18})")
# What the answers of a page are painted by, in this order: hits, what the origin was asked for, refusals and failures.
KINDS = [
    "hit",
    "collapsed",
    "fwd=stale",
    "fwd=uri-miss",
    "fwd=vary-miss",
    "fwd=request",
    "fwd=method",
    "fwd=bypass",
    "refused",
    "failed at the origin",
    "left",
]
REFUSED, FAILED, GONE = (KINDS.index(it) for it in ("refused", "failed at the origin", "left"))
# Why an answer counts in no hit ratio: nothing was looked up for it.
LEFT_OUT = [
    "refused or failed",
    "of lines without cache",
    "by other methods than GET and HEAD",
    "with a range, a content or a precondition",
    "that were never answered",
]
# Of whose time is told.
HIT, COLLAPSED, FORWARDED, OWN, LEFT = range(5)
LANES = ["hit", "collapsed", "forwarded", "refused or failed", "left"]
FAMILIES = {
    "refused": "refused, malformed",
    "denied": "refused by the table",
    "no": "refused by the table",
    "loop": "refused by the table",
    "origin": "failed at the origin",
}


class Reason:
    """A reason, read once. `word` is what it says but for what differs from one answer to the next."""

    __slots__ = ("word", "ttl", "is_refusal", "family", "is_failure", "is_hit", "is_stored", "is_new", "is_covered")
    __slots__ += ("is_left", "is_purge", "is_covered_error", "asks", "kind", "lane", "left_out", "hint", "same")

    def __init__(self, text):
        words = text.decode("ascii").split(";")
        self.word = ";".join(it for it in words if not it.startswith(("ttl=", "fwd-status=")))
        found = TTL.search(f";{';'.join(words)}")
        self.ttl = int(found[1]) if found else 0
        # A client that left before its answer, or whose exchange ended without one.
        self.is_left = words[0] == "left"
        self.is_purge = words[0].startswith("Purged: ")
        if self.is_purge:
            self.word = "purged"
        self.is_refusal = not self.is_left and not self.word.startswith(("hit", "fwd=", "purged"))
        self.family = (
            FAMILIES.get(words[0].partition(" ")[0].rstrip(":"), "refused, only-if-cached")
            if self.is_refusal
            else self.word
        )
        self.is_failure = self.is_refusal and words[0].startswith("origin ")
        is_hit, is_collapsed = self.word.startswith("hit"), "collapsed" in words[1:]
        self.is_hit, self.is_stored = (is_hit or is_collapsed) and not self.is_refusal, "stored" in words[1:]
        self.is_new = self.is_stored and words[0] == "fwd=uri-miss"
        # A stored response was sent in place of a failure, or of an error of the origin's own.
        self.is_covered = not self.is_refusal and (
            "detail=stale-if-error" in words or "detail=reuse-after-error" in words
        )
        statuses = [it for it in words if it.startswith("fwd-status=5")]
        self.is_covered_error = self.is_covered and bool(statuses)
        self.asks = self.is_failure or not (self.is_refusal or self.is_hit or self.is_left or self.is_purge)
        self.kind = self.kind_of(words, is_hit, is_collapsed)
        self.lane = LEFT if self.is_left else OWN if self.is_refusal or self.is_purge else HIT if is_hit else COLLAPSED if is_collapsed else FORWARDED
        self.left_out = self.why_left_out(words)
        self.hint = None if self.is_purge else hint_of(words, self.is_refusal, self.is_stored)

    def kind_of(self, words, is_hit, is_collapsed):
        if self.is_refusal:
            return FAILED if self.is_failure else REFUSED
        if self.is_left:
            return GONE
        if self.is_purge:
            return KINDS.index("fwd=method")
        name = "hit" if is_hit else "collapsed" if is_collapsed else words[0]
        return KINDS.index(name) if name in KINDS else KINDS.index("fwd=bypass")

    def why_left_out(self, words):
        """Its place in LEFT_OUT; None where it counts in a hit ratio."""
        if self.is_refusal:
            return 0
        if self.is_left:
            return 4
        if words[0] == "fwd=bypass":
            return 1 if "detail=operator" in words else 3
        return 2 if words[0] == "fwd=method" or self.is_purge else None


class Reasons(dict):
    """The reasons that were read already, as far as there is room. `same` is an earlier one that says the same but
    for numbers, if there is one."""

    MOST = 20000

    def __init__(self):
        self.known = {}

    def __missing__(self, text):
        if len(self) >= self.MOST:
            self.clear()
            self.known.clear()
        it = Reason(text[:LONGEST])
        other = self.known.setdefault((it.word, it.is_covered_error), it)
        # (one that named itself would be a cycle)
        it.same = other if other is not it else None
        if len(text) <= LONGEST:
            self[text] = it
        return it
