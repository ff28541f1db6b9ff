"""Which answers would have been hits with a word of the table (docs/LINE_OPTIONS.md), as far as a log tells it.

The log has the first rule against a stored response (docs/REASONS.md, "Reuse"), and over a line with
`explain = "storing"` the first one against storing ("Storing"). It has no age of what was stored, no Vary and no
Cache-Control, so all but one of these is a guess."""

# The lifetime that is tried, in seconds, and for how many targets at a time something is remembered.
LIFETIME, MOST = 60, 100000
# Statuses to which `lifetime` gives one; behind a validation the client may have got 304.
HEURISTIC = frozenset(b"200 203 204 300 301 308 404 405 410 414 501 304".split())
REQUEST, NO_LIFETIME, STALE, TOO_LARGE, NO_DIRECTIVE, OWN_WORD, OTHER_RULE, UNTOLD, BORN_OLD = range(9)
# What stale responses are named by for which others wait by `wait`.
OVER = {None, "must-revalidate", "max-stale", "max-age", "min-fresh"}
NOT_STORED = {"not-stored-no-lifetime": NO_LIFETIME, "not-stored-too-large": TOO_LARGE}
NOT_STORED |= {f"not-stored-{it}": OWN_WORD for it in ("set-cookie", "request-cookie", "error-status")}
# The rows of the list: the word, how sure it is, and what is counted of which answers.
WORDS = [
    (
        'request-directives = "ignored"',
        "sure of each by itself",
        "a fresh response was held: fwd=request",
    ),
    (
        f"lifetime = {LIFETIME}",
        "a guess",
        f"within {LIFETIME} s of such an answer for the same target: fwd=stale;detail=no-lifetime, "
        "detail=not-stored-no-lifetime",
    ),
    (
        'wait = "missing-or-stale"',
        "a guess",
        "while another such request for the same target was at the origin: fwd=stale with ttl and no detail, or with "
        "must-revalidate, max-stale, max-age, min-fresh",
    ),
    (
        "a larger max_stored",
        "a guess",
        "such an answer for the same target came before: detail=not-stored-too-large",
    ),
    (
        "stale-if-error = SECONDS",
        "a guess, and no hits",
        "stale answers in place of a failure: stale-if-error=no-directive, too-stale",
    ),
]
NOT_HITS = [
    (BORN_OLD, "stored when they were over already (ttl below 0): a clock that is behind, an Age, or no lifetime to speak of"),
    (
        OWN_WORD,
        "kept out by the line's own set-cookie, cookies or errors: detail=not-stored-set-cookie, not-stored-request-cookie, "
        "not-stored-error-status",
    ),
    (OTHER_RULE, "kept out by the origin or the client, and no word helps: another detail=not-stored-.. (tools/why)"),
    (UNTOLD, 'not stored, and nothing says why: explain = "storing" in the line has the answer say it'),
]


def hint_of(words, is_refusal, is_stored):
    """What the words of a reason tell; None where it is nothing of this."""
    parameters = {it.partition("=")[0]: it.partition("=")[2] for it in words}
    detail = parameters.get("detail")
    if is_refusal:
        told = parameters.get("stale-if-error")
        return NO_DIRECTIVE if words[0].startswith("origin ") and told in ("no-directive", "too-stale") else None
    if is_stored and parameters.get("ttl", "").startswith("-"):
        return BORN_OLD
    if "collapsed" in parameters or words[0] in ("hit", "fwd=bypass", "fwd=method"):
        return None
    if words[0] == "fwd=request":
        return REQUEST
    if words[0] == "fwd=stale" and detail == "no-lifetime":
        return NO_LIFETIME
    if "ttl" in parameters:
        return STALE if words[0] == "fwd=stale" and detail in OVER else None
    if is_stored:
        return None
    if detail is None:
        return UNTOLD
    return NOT_STORED.get(detail, OTHER_RULE if detail.startswith("not-stored-") else None)


class Ends:
    """Until when something lasts, by target; where there are too many, what ends first goes."""

    def __init__(self, most=MOST):
        self.ends, self.most = {}, most

    def joins(self, target, begin, end):
        """Whether it begins before what lasts already has ended; else it lasts itself, until `end`."""
        number = hash(target)
        if begin < self.ends.get(number, begin):
            return True
        if len(self.ends) >= self.most and number not in self.ends:
            least = sorted(self.ends.values())[len(self.ends) // 2]
            self.ends = {it: until for it, until in self.ends.items() if until > least}
        self.ends[number] = end
        return False


class Hints:
    """How many answers each word is about, and how many of them would have been hits."""

    def __init__(self):
        self.asked, self.hits = [0] * 9, [0] * 9
        self.with_lifetime, self.over, self.large = Ends(), Ends(), Ends()

    def take(self, hint, target, status, moment, digits, took):
        """One answer; `took` in microseconds."""
        if hint == NO_LIFETIME and status not in HEURISTIC:
            hint = OTHER_RULE
        self.asked[hint] += 1
        if hint == REQUEST or hint == NO_DIRECTIVE:
            self.hits[hint] += 1
        elif hint == NO_LIFETIME:
            self.hits[hint] += self.with_lifetime.joins(target, moment, moment + LIFETIME)
        elif hint == STALE:
            end = moment * 1000000 + int((digits or b"0").ljust(6, b"0")[:6])
            self.hits[hint] += self.over.joins(target, end - took, end)
        elif hint == TOO_LARGE:
            self.hits[hint] += self.large.joins(target, 0, 1)

    def rows(self):
        """The word, the answers that would have been hits, those that it is about, how sure it is, and why."""
        kinds = (REQUEST, NO_LIFETIME, STALE, TOO_LARGE, NO_DIRECTIVE)
        rows = [(word, self.hits[kind], self.asked[kind], *why) for kind, (word, *why) in zip(kinds, WORDS)]
        return [it for it in rows if it[2]]

    def others(self):
        """What no word makes a hit, or nobody can tell."""
        return [(self.asked[kind], why) for kind, why in NOT_HITS if self.asked[kind]]
