"""How long answers took: by what came of them, by origin, and by target."""
from collections import Counter

from reported.tallies import KEPT, Tally

# How many origins have times of their own (a table has 4,096 lines at most), and how many different times all of them
# have together while these are told to three digits; where there are more it is two.
MOST_ORIGINS, MOST_TIMES = 4200, 200000
OTHERS = "other origins"


class Times:
    """How long answers took, cut to so many digits, and the longest of them to the microsecond."""

    def __init__(self, digits=3):
        self.counts, self.longest, self.digits = Counter(), 0, digits

    def add(self, took, count):
        self.longest = max(self.longest, took)
        self.counts[self.cut(took)] += count

    def cut(self, took):
        unit = 10 ** max(0, len(str(took)) - self.digits)
        return took // unit * unit

    def cut_to(self, digits):
        self.digits, old, self.counts = digits, self.counts, Counter()
        for took, count in old.items():
            self.counts[self.cut(took)] += count

    def number(self):
        return sum(self.counts.values())

    def least(self, hundredths):
        """The least time that so many in a hundred answers took no longer than, cut to its digits."""
        wanted = -(-self.number() * hundredths // 100)
        for took in sorted(self.counts):
            wanted -= self.counts[took]
            if wanted <= 0:
                return took
        return 0


class Origins:
    """The times of each origin; beyond so many of them those of the others are told together."""

    def __init__(self):
        self.rows, self.digits = {}, 3

    def add(self, name, took, count):
        if name not in self.rows and len(self.rows) >= MOST_ORIGINS:
            name = OTHERS
        if name not in self.rows:
            self.rows[name] = Times(self.digits)
        self.rows[name].add(took, count)

    def bound(self):
        """Fewer digits where there are very many different times."""
        if self.digits > 2 and sum(len(it.counts) for it in self.rows.values()) > MOST_TIMES:
            self.digits = 2
            for it in self.rows.values():
                it.cut_to(2)

    def shown(self, most):
        """Those that were asked most often, each with its times."""
        return sorted(self.rows.items(), key=lambda it: (it[0] == OTHERS, -it[1].number(), it[0]))[:most]


class Slow(Tally):
    """Of each target how long its origin took in all, how often it was asked, and the longest; where there are too
    many those go that took little in all and on the average."""

    def __init__(self, kept=KEPT // 2):
        super().__init__(3, kept)

    def take(self, name, took):
        row = self.add(name, took, 1, 0)
        row[2] = max(row[2], took)

    def prune(self):
        kept = {it[0] for it in self.by_sum()[: self.kept // 2]} | {it[0] for it in self.by_mean()[: self.kept // 2]}
        self.gone += len(self.rows) - len(kept)
        self.rows = {name: row for name, row in self.rows.items() if name in kept}

    def by_sum(self):
        return sorted(self.rows.items(), key=lambda it: (-it[1][0], it[0]))

    def by_mean(self):
        return sorted(self.rows.items(), key=lambda it: (-it[1][0] / it[1][1], it[0]))
