"""What is counted of a log, in one pass and in bounded memory."""
from collections import Counter

from reported.hints import Hints
from reported.lines import microseconds_of, parts_of
from reported.queries import Queries
from reported.reasons import FORWARDED, KINDS, LANES, LEFT, LEFT_OUT, Reasons
from reported.tallies import KEPT, Tally, short
from reported.times import Origins, Slow, Times

# How many different (host, segment, status, reason, origin) are counted before they are added to the tallies.
MOST_COUNTS = 20000
# How many targets are remembered with the moment until which what was stored for them is fresh.
MOST_FRESH = 250000
# Of so many minutes the counts are kept where there are twice as many.
MOST_MINUTES = 20000
# Bins of time: how wide they may be, in seconds, each a multiple of the one before, and how many there are at most.
WIDTHS = [1, 5, 10, 30, 60, 300, 600, 1800, 3600, 10800, 43200, 86400, 604800, 2419200, 24192000, 241920000, 10**12]
MOST_BINS = 3000
# The columns of a bin behind those of the kinds: what counts in the hit ratio, the hits of it, and what was stored.
LOOKED_UP, HITS, STORED = len(KINDS), len(KINDS) + 1, len(KINDS) + 2
COLUMNS = len(KINDS) + 3


class Bins:
    """Counts over time; the bins grow wider where there are too many."""

    def __init__(self):
        self.rows, self.level, self.width = {}, 0, WIDTHS[0]

    def row(self, moment):
        found = self.rows.get(moment // self.width)
        if found is None:
            if len(self.rows) >= MOST_BINS:
                self.widen()
            found = self.rows.setdefault(moment // self.width, [0] * COLUMNS)
        return found

    def widen(self):
        self.level += 1
        times, self.width = WIDTHS[self.level] // self.width, WIDTHS[self.level]
        old, self.rows = self.rows, {}
        for number, row in old.items():
            kept = self.rows.setdefault(number // times, [0] * COLUMNS)
            for at, count in enumerate(row):
                kept[at] += count


class Minutes:
    """What was asked and stored in each minute; of very many minutes those of the least go."""

    def __init__(self):
        self.rows = {}

    def row(self, minute):
        if minute not in self.rows and len(self.rows) >= 2 * MOST_MINUTES:
            self.rows = dict(sorted(self.rows.items(), key=lambda it: max(it[1]))[-MOST_MINUTES:])
        return self.rows.setdefault(minute, [0, 0])

    def busiest(self, column):
        """The most in a minute, and the first minute that had it."""
        minute, row = max(self.rows.items(), key=lambda it: (it[1][column], -it[0]))
        return row[column], minute


class Figures:
    def __init__(self, table=None):
        self.table, self.reasons, self.faults, self.bytes = table, Reasons(), 0, 0
        self.first = self.last = self.row = self.minute = None
        self.counts, self.bins, self.times = Counter(), Bins(), [Times() for _ in LANES]
        self.minutes, self.asked, self.stored = Minutes(), 0, 0
        self.fresh_until, self.new, self.early = {}, 0, 0
        self.words, self.families, self.refusals = Tally(), Tally(), Tally()
        self.statuses, self.left_out = Counter(), [0] * len(LEFT_OUT)
        # Of each name what counts in the hit ratio, and the hits of it; of a target how often it was missed, and how
        # often it was stored again too early.
        self.hosts, self.segments, self.missed, self.again = Tally(2), Tally(2), Tally(), Tally()
        # Of each path, whatever its query: how often it was missed, and with which queries.
        self.paths, self.queries = Tally(kept=KEPT // 2), Queries()
        # Of each cause how often a request was never answered for it, and of each origin that had been asked then.
        self.left, self.left_origins = Tally(), Tally()
        # Of each client how often it asked, what of it was refused or failed, and its bytes of content.
        self.clients = Tally(3, KEPT // 2)
        # The bytes of content of what counts in the hit ratio, and of the hits of it.
        self.bytes_looked_up = self.bytes_of_hits = 0
        # Of each origin what it failed at, by the columns of `failures_of`, and what it was asked for.
        self.origins, self.origins_are_told = Tally(6), bool(table)
        # How long answers took, by lane, origin and text until it is folded; of each target at the origin.
        self.took, self.origin_times, self.slow, self.hints = Counter(), Origins(), Slow(), Hints()

    def read(self, pieces):
        for lines in pieces:
            for line in lines:
                parts = parts_of(line)
                if parts is None:
                    self.faults += 1
                else:
                    self.take(*parts)
        self.fold()

    def take(self, moment, method, target, status, length, reason, took, origin, client, digits):
        reason = self.reasons[reason]
        self.bytes += length
        if moment != self.last:
            self.turn_to(moment)
        parts = target.split(b"/", 4)
        host, segment = (short(parts[2]), short(parts[3].partition(b"?")[0])) if len(parts) > 3 else (b"-", b"")
        name = self.name_of(origin, method, target, host) if reason.asks or reason.is_covered else None
        self.counts[host, segment, status, reason.same or reason, name] += 1
        if len(self.counts) > MOST_COUNTS:
            self.fold()
        row, minute = self.row, self.minute
        self.asked += 1
        minute[0] += 1
        row[reason.kind] += 1
        self.clients.add(short(client.rpartition(b":")[0] or client), 1, reason.is_refusal, length)
        if reason.is_left:
            self.left_origins.add(short(origin) if origin else b"none", 1)
        if reason.left_out is None:
            row[LOOKED_UP] += 1
            self.bytes_looked_up += length
            if reason.is_hit:
                row[HITS] += 1
                self.bytes_of_hits += length
            else:
                self.miss(target)
        if reason.is_stored:
            self.stored += 1
            minute[1] += 1
            row[STORED] += 1
            if reason.is_new:
                self.store(target, moment, reason.ttl)
        if took:
            self.take_time(reason, method, target, took, name if origin or self.table else None)
        if reason.hint is not None:
            self.hints.take(reason.hint, target, status, moment, digits, microseconds_of(took) if took else 0)

    def miss(self, target):
        """Counts a miss of a target, and of its path."""
        path, mark, _ = target.partition(b"?")
        self.missed.add(short(target), 1)
        row = self.paths.add(short(path), 1)
        if mark:
            self.queries.add(target, row)

    def turn_to(self, moment):
        """Lines of another moment follow."""
        if self.first is None:
            self.first = moment
        self.last, self.row, self.minute = moment, self.bins.row(moment), self.minutes.row(moment // 60)

    def name_of(self, origin, method, target, host):
        """Whose failure it would be: the origin that the line has, or the table; else the host."""
        if origin:
            self.origins_are_told = True
            return short(origin)
        return self.table.origin(method, target).encode("utf-8", "replace") if self.table else host

    def take_time(self, reason, method, target, took, name):
        self.took[reason.lane, name, took] += 1
        if len(self.took) > MOST_COUNTS:
            self.fold_times()
        if reason.lane == FORWARDED and not reason.is_covered:
            path = target.partition(b"?")[0]
            self.slow.take(short(path if method == b"GET" else method + b" " + path), microseconds_of(took))

    def fold_times(self):
        for (lane, name, text), count in self.took.items():
            took = microseconds_of(text)
            self.times[lane].add(took, count)
            if name is not None and lane != LEFT:
                self.origin_times.add(name, took, count)
        self.took.clear()
        self.origin_times.bound()

    def store(self, target, moment, ttl):
        """Counts what is stored anew though the last one for its target would have been fresh still."""
        self.new += 1
        number = hash(target)
        if moment < self.fresh_until.get(number, 0):
            self.early += 1
            self.again.add(short(target), 1)
        elif len(self.fresh_until) >= MOST_FRESH:
            self.forget(moment)
        self.fresh_until[number] = moment + ttl

    def forget(self, moment):
        """Makes room: what is fresh no more goes, and the half that is fresh for the shortest time."""
        least = max(moment, sorted(self.fresh_until.values())[len(self.fresh_until) // 2])
        self.fresh_until = {number: until for number, until in self.fresh_until.items() if until > least}

    def fold(self):
        """Adds what was counted to the tallies."""
        for (host, segment, status, reason, name), count in self.counts.items():
            self.words.add(reason.word, count)
            self.families.add(reason.family, count)
            self.statuses[status.decode("ascii")] += count
            if reason.is_left:
                self.left.add(reason.word, count)
            if reason.is_refusal:
                self.refusals.add(f"{status.decode('ascii')} {reason.word}", count)
            if reason.left_out is None:
                self.hosts.add(host, count, count * reason.is_hit)
                self.segments.add(host + b"/" + segment, count, count * reason.is_hit)
            else:
                self.left_out[reason.left_out] += count
            if name is not None:
                self.origins.add(name, *failures_of(reason, status, count))
        self.counts.clear()
        self.fold_times()

    def ratio(self):
        """What was looked up, and how much of it was a hit."""
        return self.hosts.sums()


def failures_of(reason, status, count):
    """Of so many answers: all failures of the origin, then those by a time-out, by another failure, by a 5xx of its
    own, and those for which a stored response was sent; then what was asked."""
    late = reason.is_failure and status == b"504"
    own = reason.is_covered_error or (not reason.is_refusal and not reason.is_covered and status[:1] == b"5")
    failed = reason.is_failure or reason.is_covered or own
    return [count * it for it in (failed, late, reason.is_failure and not late, own, reason.is_covered, True)]
