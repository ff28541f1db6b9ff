"""What was counted, as text for a terminal."""
import re
import time

from reported import queries
from reported.reasons import LANES, LEFT_OUT

# Of a bar, and of a name that isn't cut.
WIDTH, LONGEST = 40, 100
HINTS = "what would have been a hit with a word of the table (docs/LINE_OPTIONS.md)"
HIDDEN = re.compile(r"[^ -~]")


def visible(text):
    """The text without what a terminal might take for a command."""
    return HIDDEN.sub(lambda it: f"\\x{ord(it[0]):02x}", text)


def text_of(name):
    """A name of a tally, as text."""
    return name if isinstance(name, str) else name.decode("utf-8", "replace")


def when(moment):
    return time.strftime("%Y-%m-%d %H:%M:%S", time.gmtime(moment))


def bar(share):
    return "#" * (max(1, round(WIDTH * min(1, share))) if share > 0 else 0)


def names_of(rows):
    """The rows with their names as text, long ones cut, and the width of the longest."""
    rows = [(text_of(name), numbers) for name, numbers in rows]
    rows = [(name if len(name) <= LONGEST else f"{name[:LONGEST]}..", numbers) for name, numbers in rows]
    return rows, max((len(name) for name, _ in rows), default=0)


def counts(title, rows, whole):
    """Each with its share of the whole."""
    rows, width = names_of(rows)
    if not rows:
        return [f"{title}: none", ""]
    most = max(numbers[0] for _, numbers in rows)
    lines = [f"  {name:<{width}} {n[0]:>11,} {100 * n[0] / whole:>5.1f} % {bar(n[0] / most)}" for name, n in rows]
    return [title, *lines, ""]


def statuses(figures):
    """By hundreds, and single ones below each."""
    whole, rows = sum(figures.statuses.values()), []
    for hundred in sorted({it[0] for it in figures.statuses}):
        ones = sorted((it, count) for it, count in figures.statuses.items() if it[0] == hundred)
        rows += [(f"{hundred}xx" if hundred != "0" else "none", [sum(count for _, count in ones)]), *((f"  {it}", [count]) for it, count in ones)]
    return counts("statuses", rows, whole)


def ratios(title, tally, most):
    """The share of hits in what was looked up, by name."""
    rows, width = names_of(tally.shown(most))
    if not rows:
        return [f"{title}: none", ""]
    lines = [
        f"  {name:<{width}} {asked:>11,} {100 * hits / asked:>5.1f} % {bar(hits / asked)}"
        for name, (asked, hits) in rows
        if asked
    ]
    return [title, *lines, ""]


def failures(figures, most):
    """Who failed, how often by what, and the share of it in what each was asked."""
    tally = figures.origins
    rows = [(name, numbers) for name, numbers in tally.shown(len(tally.rows)) if numbers[0]]
    title = f"failures by {'origin' if figures.origins_are_told else 'host'}"
    if not rows:
        return [f"{title}: none", ""]
    if len(rows) > most + 1:
        rows = [
            *rows[:most],
            (f"{len(rows) - most:,} others", [sum(it) for it in zip(*(one[1] for one in rows[most:]))]),
        ]
    rows, width = names_of(rows)
    kinds = "timed out (504), other (502), 5xx of its own; of these with a stored response in its place"
    head = f"{title}: {kinds}; share of what it was asked"
    text = [head]
    for name, (failed, late, other, own, covered, asked) in rows:
        share = failed / asked
        numbers = f"{late:>9,} {other:>9,} {own:>9,} {covered:>9,} {100 * share:>5.1f} % of {asked:,}"
        text.append(f"  {name:<{width}} {numbers} {bar(share)}")
    return [*text, ""]


def seconds(microseconds):
    """Seconds to the millisecond; to the microsecond below one."""
    return (
        f"{microseconds / 1000000:.3f}" if microseconds >= 1000 or not microseconds else f"{microseconds / 1000000:.6f}"
    )


def durations(figures):
    rows = [(lane, it) for lane, it in zip(LANES, figures.times) if it.number()]
    return times("seconds from a request's first byte", rows, (50, 99))


def times(title, rows, hundredths):
    """How many answers, the times within which so many in a hundred of them were sent, and the longest."""
    if not rows:
        return []
    rows, width = names_of(rows)
    named = ["median" if it == 50 else f"{it} in 100 took no longer" for it in hundredths]
    text = [f"{title}: {', '.join(named)}, longest"]
    for name, it in rows:
        numbers = " ".join(f"{seconds(n):>10}" for n in (*map(it.least, hundredths), it.longest))
        text.append(f"  {name:<{width}} {it.number():>11,} {numbers}")
    return [*text, ""]


def digits(figures):
    """How exact the times by origin are."""
    return "three digits" if figures.origin_times.digits == 3 else "two digits, since there are very many different ones"


def by_origin(figures, most):
    return times(f"seconds by origin, cut to {digits(figures)}", figures.origin_times.shown(most), (50, 95, 99))


def slowest(figures, most):
    """The targets that took the longest, one by one and in all."""
    text = []
    for title, rows in (
        ("slowest targets, whatever the query: on the average, the longest, and how often an origin answered", figures.slow.by_mean()),
        ("targets that kept origins busy for the longest: seconds in all, the longest, and how often", figures.slow.by_sum()),
    ):
        if not rows:
            continue
        named, width = names_of(rows[:most])
        is_mean = not text
        text.append(title)
        for name, (took, count, longest) in named:
            text.append(f"  {name:<{width}} {seconds(took // count if is_mean else took):>13} {seconds(longest):>10} {count:>11,}")
        text.append("")
    return text


def paths(figures, most):
    """The paths that are missed most, each with how many different queries it was missed with."""
    rows, width = names_of(queries.shown(figures.paths, figures.queries, most))
    one_in, whole = figures.queries.one_in(), sum(figures.paths.sums()) if figures.paths.rows else 0
    if not rows:
        return ["most missed paths: none", ""]
    text = [f"most missed paths: misses, and with how many different queries{about(one_in)}"]
    text += [f"  {name:<{width}} {n:>11,} {100 * n / whole:>5.1f} % {count:>11,}" for name, (n, count) in rows]
    return [*text, ""]


def about(one_in):
    return f" (about: one in {one_in:,} targets was counted)" if one_in > 1 else ""


def left(figures, most):
    """Requests that were never answered: by cause, and by the origin that had been asked."""
    if not figures.left.rows:
        return ["left before an answer: none", ""]
    whole = sum(figures.left.sums())
    text = counts("left before an answer, or ended without one", figures.left.shown(most), whole)
    return [*text[:-1], *counts("these by the origin that had been asked", figures.left_origins.shown(most), whole)]


def clients(figures, most):
    rows, width = names_of(figures.clients.shown(most))
    text = ["clients that ask most (behind a front it is the front): answers, refused or failed ones, bytes of content"]
    for name, (count, refused, length) in rows:
        text.append(f"  {name:<{width}} {count:>11,} {100 * count / figures.asked:>5.1f} % {refused:>11,} {length:>15,}")
    return [*text, ""]


def hints(figures):
    """What a word of the table would have made a hit."""
    rows, others = figures.hints.rows(), figures.hints.others()
    if not rows and not others:
        return [f"{HINTS}: nothing that a log tells", ""]
    text, width = [f"{HINTS}, of the answers that tell it"], max((len(it[0]) for it in rows), default=0)
    for word, hits, asked, how_sure, why in rows:
        text += [f"  {word:<{width}} {hits:>11,} of {asked:,}, {how_sure}", f"      {why}"]
    text += [f"  {count:,} {why}" for count, why in others]
    return [*text, ""]


def minutes(figures):
    """What is asked and stored a minute, over all, and in the busiest minute of each."""
    span, parts = max(1, figures.last - figures.first + 1) / 60, []
    for column, (count, what) in enumerate(((figures.asked, "asked"), (figures.stored, "stored"))):
        most, minute = figures.minutes.busiest(column)
        parts.append(f"{count / span:,.1f} {what}" + (f", {most:,} at most ({when(minute * 60)[:-3]})" if most else ""))
    return f"a minute: {'; '.join(parts)}"


def ratio(figures):
    asked, hits = figures.ratio() if figures.hosts.rows else (0, 0)
    text = f"hit ratio: {100 * hits / asked:.1f} % of {asked:,}" if asked else "hit ratio: nothing was looked up"
    left = ", ".join(f"{count:,} {why}" for why, count in zip(LEFT_OUT, figures.left_out) if count)
    return f"{text}; left out {left}" if left else text


def byte_ratio(figures):
    whole, hits = figures.bytes_looked_up, figures.bytes_of_hits
    return f"byte hit ratio: {100 * hits / whole:.1f} % of {whole:,} bytes of content" if whole else "byte hit ratio: no content was looked up"


def report(figures, most):
    whole, missed = figures.asked, figures.ratio() if figures.hosts.rows else [0, 0]
    text = [
        f"{whole:,} answers, {figures.bytes:,} bytes of content, from {when(figures.first)} to {when(figures.last)} UTC"
    ]
    text += [minutes(figures), ratio(figures), byte_ratio(figures)]
    text += [
        f"stored again while the last would have been fresh: {figures.early:,} of {figures.new:,} "
        "that were stored for want of any",
        "",
    ]
    text += [*statuses(figures), *counts("reasons", figures.families.shown(most), whole)]
    text += ratios("hit ratio by host", figures.hosts, most)
    text += ratios("hit ratio by first path segment", figures.segments, most)
    text += counts("most missed targets", figures.missed.shown(most), missed[0] - missed[1])
    text += paths(figures, most)
    text += counts(
        "targets stored again while the last would have been fresh", figures.again.shown(most), figures.early
    )
    text += hints(figures)
    text += counts("refusals", figures.refusals.shown(most), sum(figures.refusals.sums()))
    text += left(figures, most)
    text += clients(figures, most) + failures(figures, most)
    return text + durations(figures) + by_origin(figures, most) + slowest(figures, most)
