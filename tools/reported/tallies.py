"""Counts by name that take bounded memory, whatever names come."""
# How many names are kept when there are twice as many, and how much of a name.
KEPT, LONGEST = 10000, 300


def short(name):
    """A name that is kept: of a long one its begin, and a number that tells it from others."""
    return name if len(name) <= LONGEST else name[: LONGEST - 20] + b"..%016x" % (hash(name) & (1 << 64) - 1)


class Tally:
    """Some numbers for each name. Where there are too many names the rarest go, and only the sums have them."""

    def __init__(self, columns=1, kept=KEPT):
        self.rows, self.rest, self.gone, self.kept = {}, [0] * columns, 0, kept

    def add(self, name, *numbers):
        row = self.rows.get(name)
        if row is None:
            if len(self.rows) >= 2 * self.kept:
                self.prune()
            row = self.rows[name] = [0] * len(self.rest)
        for at, number in enumerate(numbers):
            row[at] += number
        return row

    def prune(self):
        rarest = sorted(self.rows.items(), key=lambda it: it[1])[: -self.kept]
        for name, row in rarest:
            del self.rows[name]
            self.rest = [a + b for a, b in zip(self.rest, row)]
        self.gone += len(rarest)

    def sums(self):
        sums = list(self.rest)
        for row in self.rows.values():
            sums = [a + b for a, b in zip(sums, row)]
        return sums

    def shown(self, most):
        """The names with the greatest first number, and the rest as one row."""
        rows = sorted(self.rows.items(), key=lambda it: ([-n for n in it[1]], it[0]))
        if len(rows) > most + 1 or (self.gone and len(rows) > most):
            rest, count = rows[most:], len(rows) - most + self.gone
            sums = [sum(it) for it in zip(self.rest, *(it[1] for it in rest))]
            rows = [*rows[:most], (f"{count:,} others", sums)]
        elif self.gone:
            rows.append((f"{self.gone:,} others", self.rest))
        return rows
