"""Pictures over time, as SVG that stands in a page: stacked areas and shares."""
import time
from html import escape

from reported.figures import HITS, LOOKED_UP, STORED
from reported.reasons import KINDS

# The picture's size in its own units, and the room for its scales.
WIDE, HIGH, LEFT, RIGHT, TOP, BELOW = 1000, 260, 58, 10, 10, 24
MOST_COLUMNS = 240
# Seconds between two marks of the scale of time, and how wide a column may be: a multiple of a bin.
STEPS = [
    1,
    5,
    10,
    30,
    60,
    300,
    600,
    1800,
    3600,
    7200,
    21600,
    43200,
    86400,
    172800,
    604800,
    2419200,
    31536000,
    315360000,
]
TIMES = [
    a * b for b in (1, 60, 3600, 86400, 864000, 8640000, 86400000, 864000000) for a in (1, 2, 5, 10, 15, 20, 30)
] + [10**12]


class Series:
    """The bins of a log as columns of equal width, without gaps. What lies far from nearly all answers is left out."""

    def __init__(self, figures):
        bins, self.left_out = figures.bins, 0
        numbers, counts = sorted(bins.rows), {number: sum(row[: len(KINDS)]) for number, row in bins.rows.items()}
        first, last = window(numbers, counts)
        span = (last - first + 1) * bins.width
        self.width = next(it for it in [*TIMES, 10**15] if it % bins.width == 0 and span <= it * MOST_COLUMNS)
        self.begin = first * bins.width // self.width
        count = last * bins.width // self.width - self.begin + 1
        self.columns = [[0] * len(next(iter(bins.rows.values()))) for _ in range(count)]
        for number in numbers:
            if not first <= number <= last:
                self.left_out += counts[number]
                continue
            column = self.columns[number * bins.width // self.width - self.begin]
            for at, it in enumerate(bins.rows[number]):
                column[at] += it
        self.ends = (
            max(min(figures.first, figures.last), first * bins.width),
            min(max(figures.first, figures.last), (last + 1) * bins.width) + 1,
        )

    def moments(self, at):
        return (self.begin + at) * self.width, (self.begin + at + 1) * self.width

    def minutes(self, at):
        """How much time of a column the log has; a quarter of it at least, so that a rest of it isn't a peak."""
        begin, end = self.moments(at)
        return max(min(end, self.ends[1]) - max(begin, self.ends[0]), self.width / 4) / 60

    def x(self, at):
        return LEFT + (WIDE - LEFT - RIGHT) * at / len(self.columns)


def window(numbers, counts):
    """The first and the last bin: of all, or where these lie far apart, of the least stretch with 99 answers in 100."""
    wanted, sum_, begin, best = 0.99 * sum(counts.values()), 0, 0, (numbers[0], numbers[-1])
    for number in numbers:
        sum_ += counts[number]
        while sum_ - counts[numbers[begin]] >= wanted:
            sum_ -= counts[numbers[begin]]
            begin += 1
        if sum_ >= wanted and number - numbers[begin] < best[1] - best[0]:
            best = numbers[begin], number
    return best if 3 * (best[1] - best[0] + 1) < numbers[-1] - numbers[0] + 1 else (numbers[0], numbers[-1])


def when(moment, step):
    form = "%Y-%m-%d" if step >= 86400 else "%m-%d %H:%M" if step >= 21600 else "%H:%M" if step >= 60 else "%H:%M:%S"
    return time.strftime(form, time.gmtime(moment))


def number(value):
    """To three digits."""
    return f"{value:,.0f}" if value >= 100 else f"{value:.3g}"


def scale(most):
    """The end of a scale, and the steps between its marks."""
    step = 10 ** len(str(int(most))) / 10 if most >= 1 else 0.1
    step = next(step * it for it in (0.1, 0.2, 0.5, 1, 2, 5) if most <= 5 * step * it)
    return step * -(-most // step) or step, step


def frame(series, most, step, unit, name):
    """The scales of a picture: lines for values, marks for moments."""
    lines, value = [], 0.0
    while value <= most + step / 2:
        y = HIGH - BELOW - (HIGH - TOP - BELOW) * value / most
        lines.append(f'<line x1="{LEFT}" x2="{WIDE - RIGHT}" y1="{y:.1f}" y2="{y:.1f}"/>')
        lines.append(f'<text x="{LEFT - 6}" y="{y + 4:.1f}" text-anchor="end">{number(value)}{unit}</text>')
        value += step
    begin, end = series.moments(0)[0], series.moments(len(series.columns) - 1)[1]
    step = next((it for it in STEPS if end - begin <= 8 * it), STEPS[-1])
    for moment in range(-(-begin // step) * step, end, step):
        x = series.x((moment - begin) / series.width)
        anchor = "start" if x < LEFT + 30 else "end" if x > WIDE - RIGHT - 30 else "middle"
        lines.append(
            f'<text x="{x:.1f}" y="{HIGH - 6}" text-anchor="{anchor}">{when(moment, step)}</text>'
            f'<line x1="{x:.1f}" x2="{x:.1f}" y1="{TOP}" y2="{HIGH - BELOW}"/>'
        )
    return (
        f'<g class="scale">{"".join(lines)}</g>',
        f'<svg viewBox="0 0 {WIDE} {HIGH}" role="img" aria-label="{escape(name)}">',
    )


def path(series, lower, upper, most):
    """An area between two lines, each from the picture's left end to its right one."""

    def points(values, order):
        for at in order:
            for x in ([series.x(at), series.x(at + 0.5)] if at == 0 else [series.x(at + 0.5)]) + (
                [series.x(at + 1)] if at == len(values) - 1 else []
            ):
                yield x, HIGH - BELOW - (HIGH - TOP - BELOW) * min(values[at], most) / most

    there = list(points(upper, range(len(upper))))
    back = list(points(lower, range(len(lower))))[::-1]
    return "M" + "L".join(f"{x:.1f} {y:.1f}" for x, y in there + back) + "Z"


def hints(series, text):
    """What is told of each column where the pointer stands on it."""
    rects = []
    for at in range(len(series.columns)):
        x, wide = series.x(at), (WIDE - LEFT - RIGHT) / len(series.columns)
        begin, end = series.moments(at)
        place = f'x="{x:.1f}" y="{TOP}" width="{wide:.1f}" height="{HIGH - TOP - BELOW}"'
        said = f"{when(begin, 0)} to {when(end, 0)}, {text(at)}"
        rects.append(f"<rect {place}><title>{escape(said)}</title></rect>")
    return f'<g class="hints">{"".join(rects)}</g>'


def stacked(series):
    """Requests a minute by kind, one above the other."""
    rates = [[count / series.minutes(at) for count in column[: len(KINDS)]] for at, column in enumerate(series.columns)]
    most, step = scale(max(map(sum, rates)) or 1)
    grid, head = frame(series, most, step, "", "requests a minute by reason, over time")
    below, areas = [0.0] * len(rates), []
    for kind, name in enumerate(KINDS):
        above = [a + b[kind] for a, b in zip(below, rates)]
        if above != below:
            areas.append(f'<path class="area k{kind}" d="{path(series, below, above, most)}"/>')
        below = above

    def text(at):
        kinds = sorted(((rates[at][kind], name) for kind, name in enumerate(KINDS) if rates[at][kind]), reverse=True)
        return f"{number(sum(rates[at]))} a minute: " + ", ".join(f"{name} {number(rate)}" for rate, name in kinds)

    return f"{head}{''.join(areas)}{grid}{hints(series, text)}</svg>"


def ratio(series):
    """The share of hits in what was looked up; 0 where nothing was."""
    shares = [100 * it[HITS] / it[LOOKED_UP] if it[LOOKED_UP] else 0 for it in series.columns]
    grid, head = frame(series, 100, 25, " %", "hit ratio over time")
    area = f'<path class="area k0" d="{path(series, [0] * len(shares), shares, 100)}"/>'
    told = lambda at: f"{shares[at]:.1f} % of {series.columns[at][LOOKED_UP]:,}"
    return f"{head}{area}{grid}{hints(series, told)}</svg>"


def stored(series):
    """What was stored a minute."""
    rates = [column[STORED] / series.minutes(at) for at, column in enumerate(series.columns)]
    most, step = scale(max(rates) or 1)
    grid, head = frame(series, most, step, "", "stored a minute, over time")
    area = f'<path class="area k3" d="{path(series, [0] * len(rates), rates, most)}"/>'
    return f"{head}{area}{grid}{hints(series, lambda at: f'{number(rates[at])} stored a minute')}</svg>"
