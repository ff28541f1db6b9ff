"""How many different queries a path was missed with, in bounded memory."""
from collections import Counter

# So many different targets are remembered. Where there are more, only each second, fourth, eighth .. one is.
MOST = 100000


class Queries:
    """The different targets that had a query, each with the row of its path."""

    def __init__(self, most=MOST):
        self.rows, self.mask, self.most = {}, 0, most

    def add(self, target, row):
        number = hash(target)
        if not number & self.mask:
            self.rows[number] = row
            if len(self.rows) > self.most:
                self.mask = 2 * self.mask + 1
                self.rows = {it: row for it, row in self.rows.items() if not it & self.mask}

    def one_in(self):
        """Of how many targets one was counted: 1 where the numbers are exact."""
        return self.mask + 1

    def by_row(self):
        """How many there are, by the `id` of a path's row."""
        counts = Counter(id(row) for row in self.rows.values())
        return {row: count * self.one_in() for row, count in counts.items()}


def shown(tally, queries, most):
    """The paths that were missed most, each with its misses and its queries; the rest as one row."""
    counts, rows, left = queries.by_row(), [], len(queries.rows) * queries.one_in()
    for name, row in tally.shown(most):
        count = counts.get(id(row), 0) if name in tally.rows else left
        left -= count
        rows.append((name, [row[0], count]))
    return rows
