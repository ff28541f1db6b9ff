"""What was counted, as one page that stands alone: no script, nothing from a network, all of a log escaped."""
import os
import re
from html import escape

from explained.documents import Documents
from explained.entries import Words
from explained.sources import Sources
from explained.texts import Texts
from reported import charts, queries
from reported.reasons import FAILED, GONE, KINDS, LANES, LEFT_OUT, REFUSED, Reason
from reported.style import STYLE
from reported.text import about, byte_ratio, digits, minutes, seconds, text_of, visible, when

ROOT = os.path.dirname(os.path.dirname(os.path.dirname(os.path.realpath(__file__))))
# A longer name is cut, and stands whole where the pointer is.
LONGEST = 120
RFC = re.compile(r"RFC (\d{4}), section ([\d.]*\d)")


def safe(text):
    """Any text, as text of a page."""
    return escape(visible(text_of(text)), quote=True)


def name_cell(name):
    text = text_of(name)
    cut = safe(text[:LONGEST] + "..") if len(text) > LONGEST else safe(text)
    return (
        f'<td class="name" title="{safe(text)}">{cut}</td>' if len(text) > LONGEST else f'<td class="name">{cut}</td>'
    )


def bar_cell(share, kind=""):
    return f'<td class="bar"><div class="{kind}" style="width:{100 * max(0, min(1, share)):.1f}%"></div></td>'


def table(title, heads, rows, note=""):
    """A table in a section; a row is a list of cells. `note` stands above it."""
    if not rows:
        return f"<section><h2>{escape(title)}</h2><p>none</p></section>"
    head = "".join(f"<th>{escape(it)}</th>" for it in heads)
    body = "".join(f"<tr>{''.join(it)}</tr>" for it in rows)
    note = f"<p>{note}</p>" if note else ""
    rows = f"<table><thead><tr>{head}</tr></thead><tbody>{body}</tbody></table>"
    return f'<section><h2>{escape(title)}</h2>{note}<div class="wide">{rows}</div></section>'


def cell(number):
    return f'<td class="number">{number}</td>'


class Reasons:
    """The words for the reasons of a log; each entry stands in the page once."""

    def __init__(self, root):
        self.entries = {}
        try:
            self.texts = Texts(Words(Documents(f"{root}/docs"), Sources(root)))
            self.texts.of_reason("hit")
        except (OSError, LookupError):
            # Without the sources beside it the page has no words.
            self.texts = None

    def links(self, word):
        """The entries of a reason, as links to their words."""
        found = self.texts.of_reason(word) if self.texts else []
        # (a word of a list lacks ttl: what had something stored may have been sent, or stored anew)
        found = [it for it in found if it.key != "not-stored" or not word.startswith(("fwd=stale", "fwd=request"))]
        self.entries |= {it.key: it for it in found}
        names = [(it.key, it.title.rpartition(", ")[2].partition(":")[0]) for it in found]
        links = ", ".join(f'<a href="#{escape(key)}">{escape(name)}</a>' for key, name in names)
        # (a detail that stands in place of the rules' own is of no one of them)
        found.sort(key=lambda it: not it.key.startswith("detail-"))
        standard = next((dict(it.parts)["standard"] for it in found if "standard" in dict(it.parts)), "")
        return f"{links}<br>{marked(standard)}" if standard else links

    def section(self):
        if not self.entries:
            return ""
        told = "".join(self.one(it) for _, it in sorted(self.entries.items()))
        head = "<h2>What the reasons mean</h2><p>From the tables in docs/; <code>tools/why</code> prints the same.</p>"
        return f'<section class="words">{head}{told}</section>'

    def one(self, entry):
        parts = "".join(f"<dt>{escape(name)}</dt><dd>{marked(text)}</dd>" for name, text in entry.parts)
        return f'<article id="{escape(entry.key)}"><h3>{escape(entry.title)}</h3><dl>{parts}</dl></article>'


def marked(text):
    """Words of the documents: code as code, a section of an RFC as a link to it."""
    text = re.sub(r"`([^`]*)`", r"<code>\1</code>", escape(text))
    return RFC.sub(r'<a href="https://www.rfc-editor.org/rfc/rfc\1#section-\2">RFC \1, section \2</a>', text)


def legend(figures):
    """What the areas are painted by, and how much of it there was."""
    items, whole = [], figures.asked
    counts = [sum(it) for it in zip(*figures.bins.rows.values())][: len(KINDS)]
    for kind, count in enumerate(counts):
        if count:
            items.append(
                f'<li><i class="k{kind}"></i>{escape(KINDS[kind])} <b>{count:,}</b> {100 * count / whole:.1f} %</li>'
            )
    return f'<ul class="legend">{"".join(items)}</ul>'


def reasons_table(figures, reasons, most):
    rows, whole = [], figures.asked
    for word, (count,) in figures.words.shown(max(most, 20)):
        is_rest = word not in figures.words.rows
        kind = "" if is_rest else f"k{Reason(word.encode('ascii')).kind}"
        links = "" if is_rest else reasons.links(word)
        rows.append(
            [
                name_cell(word),
                cell(f"{count:,}"),
                cell(f"{100 * count / whole:.1f} %"),
                bar_cell(count / whole, kind),
                f'<td class="why">{links}</td>',
            ]
        )
    return table("Reasons", ["reason", "answers", "share", "", "words"], rows)


def refusals_table(figures, reasons, most):
    rows, whole = [], sum(figures.refusals.sums())
    for word, (count,) in figures.refusals.shown(most):
        links = reasons.links(word[4:]) if word in figures.refusals.rows else ""
        kind = f"k{FAILED if word[4:].startswith('origin ') else REFUSED}"
        rows.append(
            [
                name_cell(word),
                cell(f"{count:,}"),
                cell(f"{100 * count / whole:.1f} %"),
                bar_cell(count / whole, kind),
                f'<td class="why">{links}</td>',
            ]
        )
    return table("Refusals by cause", ["status and Refusal", "answers", "share", "", "words"], rows)


def left_table(figures, reasons, most):
    """Requests that were never answered."""
    rows, whole = [], sum(figures.left.sums()) if figures.left.rows else 0
    for word, (count,) in figures.left.shown(most):
        links = reasons.links(word) if word in figures.left.rows else ""
        share = [cell(f"{count:,}"), cell(f"{100 * count / whole:.1f} %"), bar_cell(count / whole, f"k{GONE}")]
        rows.append([name_cell(word), *share, f'<td class="why">{links}</td>'])
    return table("Left before an answer, or ended without one", ["cause", "requests", "share", "", "words"], rows)


def left_origins_table(figures, most):
    rows, whole = [], sum(figures.left_origins.sums()) if figures.left_origins.rows else 0
    for name, (count,) in figures.left_origins.shown(most):
        share = [cell(f"{count:,}"), cell(f"{100 * count / whole:.1f} %"), bar_cell(count / whole, f"k{GONE}")]
        rows.append([name_cell(name), *share])
    return table("Left while this origin was asked", ["origin", "requests", "share", ""], rows)


def statuses_table(figures):
    rows, whole = [], sum(figures.statuses.values())
    for status, count in sorted(figures.statuses.items()):
        kind = {"2": "k0", "5": f"k{FAILED}"}.get(status[0], "k3")
        rows.append(
            [name_cell(status), cell(f"{count:,}"), cell(f"{100 * count / whole:.1f} %"), bar_cell(count / whole, kind)]
        )
    return table("Statuses", ["status", "answers", "share", ""], rows)


def ratios_table(title, tally, most):
    rows = [
        [name_cell(name), cell(f"{asked:,}"), cell(f"{100 * hits / asked:.1f} %"), bar_cell(hits / asked, "k0")]
        for name, (asked, hits) in tally.shown(most)
        if asked
    ]
    return table(title, ["", "looked up", "hits", ""], rows)


def counts_table(title, tally, whole, most, kind):
    rows = [
        [name_cell(name), cell(f"{n:,}"), cell(f"{100 * n / whole:.1f} %"), bar_cell(n / whole, kind)]
        for name, (n,) in tally.shown(most)
    ]
    return table(title, ["target", "times", "share", ""], rows)


def failures_table(figures, most):
    rows = [it for it in figures.origins.shown(len(figures.origins.rows)) if it[1][0]][:most]
    cells = [
        [
            name_cell(name),
            *(cell(f"{it:,}") for it in n),
            cell(f"{100 * n[0] / n[5]:.1f} %"),
            bar_cell(n[0] / n[5], f"k{FAILED}"),
        ]
        for name, n in rows
    ]
    heads = [
        "origin" if figures.origins_are_told else "host",
        "failures",
        "timed out (504)",
        "other (502)",
        "5xx of its own",
        "covered",
        "asked",
        "share",
        "",
    ]
    note = "What an origin failed at. Covered are failures in whose place a stored response was sent."
    return table("Origins that failed", heads, cells, note)


def durations_table(figures):
    rows = [(lane, it) for lane, it in zip(LANES, figures.times) if it.number()]
    return times_table("Seconds from a request's first byte", rows, (50, 99))


def times_table(title, rows, hundredths, note=""):
    """How many answers, the times within which so many in a hundred were sent, and the longest."""
    cells = [
        [
            name_cell(name),
            cell(f"{it.number():,}"),
            *(cell(seconds(n)) for n in (*map(it.least, hundredths), it.longest)),
            "<td></td>",
        ]
        for name, it in rows
    ]
    named = ["median" if it == 50 else f"{it} in 100 took no longer" for it in hundredths]
    return table(title, ["", "answers", *named, "longest", ""], cells, note) if cells else ""


def origins_table(figures, most):
    note = f"From a request's first byte to its reply. Medians and the like are cut to {digits(figures)}."
    return times_table("Seconds by origin", figures.origin_times.shown(most), (50, 95, 99), note)


def slow_table(title, rows, note):
    most = max((took for _, (took, _, _) in rows), default=1) or 1
    cells = [
        [
            name_cell(name),
            cell(f"{count:,}"),
            cell(seconds(took // count)),
            cell(seconds(longest)),
            cell(seconds(took)),
            bar_cell(took / most, "k3"),
        ]
        for name, (took, count, longest) in rows
    ]
    return table(title, ["target", "answers", "mean", "longest", "in all", ""], cells, note) if cells else ""


def paths_table(figures, most):
    whole = sum(figures.paths.sums()) if figures.paths.rows else 0
    cells = [
        [name_cell(name), cell(f"{n:,}"), cell(f"{100 * n / whole:.1f} %"), cell(f"{count:,}"), bar_cell(n / whole, "k3")]
        for name, (n, count) in queries.shown(figures.paths, figures.queries, most)
    ]
    note = "Targets without their query, and with how many different queries each was missed"
    note += f"{about(figures.queries.one_in())}: where these are nearly as many as the misses, the query may change nothing."
    return table("Most missed paths", ["path", "misses", "share", "queries", ""], cells, escape(note))


def clients_table(figures, most):
    cells = [
        [
            name_cell(name),
            cell(f"{count:,}"),
            cell(f"{100 * count / figures.asked:.1f} %"),
            cell(f"{refused:,}"),
            cell(f"{length:,}"),
            bar_cell(count / figures.asked, "k3"),
        ]
        for name, (count, refused, length) in figures.clients.shown(most)
    ]
    heads = ["client", "answers", "share", "refused or failed", "bytes of content", ""]
    return table("Clients that ask most", heads, cells, "Behind a front it is the front.")


def hints_table(figures):
    cells = [
        [
            name_cell(word),
            cell(f"{hits:,}"),
            cell(f"{asked:,}"),
            f"<td>{escape(how_sure)}</td>",
            f'<td class="why">{escape(why)}</td>',
        ]
        for word, hits, asked, how_sure, why in figures.hints.rows()
    ]
    for count, why in figures.hints.others():
        cells.append([name_cell("-"), cell("0"), cell(f"{count:,}"), "<td></td>", f'<td class="why">{escape(why)}</td>'])
    heads = ["word (docs/LINE_OPTIONS.md)", "hits", "of these answers", "", "counted"]
    note = "A log has the first rule against an answer, and neither ages nor Vary nor Cache-Control: so these are guesses, but for the first word."
    return table("What would have been a hit with a word of the table", heads, cells, note)


def tiles(figures):
    """The figures at the head of the page."""
    asked, hits = figures.ratio() if figures.hosts.rows else (0, 0)
    whole = figures.asked
    failed = figures.origins.sums() if figures.origins.rows else [0] * 6
    left = "; ".join(f"{count:,} {why}" for why, count in zip(LEFT_OUT, figures.left_out) if count)
    told = [
        ("answers", f"{whole:,}", minutes(figures)),
        (
            "hit ratio",
            f"{100 * hits / asked:.1f} %" if asked else "none",
            f"of {asked:,}; left out: {left or 'nothing'}",
        ),
        (
            "byte hit ratio",
            f"{100 * figures.bytes_of_hits / figures.bytes_looked_up:.1f} %" if figures.bytes_looked_up else "none",
            byte_ratio(figures).partition(" % ")[2] or "no content was looked up",
        ),
        ("origins failed", f"{failed[0]:,}", f"of {failed[5]:,} that they were asked"),
        (
            "stored again too early",
            f"{figures.early:,}",
            f"of {figures.new:,} stored for want of any; where these are many, the store is too small",
        ),
    ]
    return (
        '<div class="tiles">'
        + "".join(f"<div><h2>{escape(a)}</h2><b>{b}</b><p>{escape(c)}</p></div>" for a, b, c in told)
        + "</div>"
    )


def picture(title, svg, more=""):
    return f'<section class="picture"><h2>{escape(title)}</h2>{svg}{more}</section>'


def page(figures, most, name):
    reasons, series = Reasons(ROOT), charts.Series(figures)
    missed = figures.ratio() if figures.hosts.rows else [0, 0]
    note = (
        f"<p>{series.left_out:,} answers of other times lie far outside, and aren't drawn.</p>"
        if series.left_out
        else ""
    )
    parts = [
        tiles(figures),
        picture("Requests a minute, by reason", charts.stacked(series), legend(figures) + note),
        picture("Hit ratio", charts.ratio(series)),
        picture("Stored a minute", charts.stored(series)),
        reasons_table(figures, reasons, most),
        '<div class="pair">',
        ratios_table("Hit ratio by host", figures.hosts, most),
        ratios_table("Hit ratio by first path segment", figures.segments, most),
        "</div>",
        hints_table(figures),
        failures_table(figures, most),
        origins_table(figures, most),
        refusals_table(figures, reasons, most),
        left_table(figures, reasons, most),
        left_origins_table(figures, most),
        '<div class="pair">',
        counts_table("Most missed targets", figures.missed, missed[0] - missed[1], most, "k3"),
        paths_table(figures, most),
        "</div>",
        '<div class="pair">',
        clients_table(figures, most),
        counts_table("Stored again while the last would have been fresh", figures.again, figures.early, most, "k2"),
        "</div>",
        '<div class="pair">',
        slow_table("Slowest targets", figures.slow.by_mean()[:most], "By the mean of their seconds, whatever the query."),
        slow_table(
            "Targets that kept origins busy", figures.slow.by_sum()[:most], "By their seconds in all, whatever the query."
        ),
        "</div>",
        '<div class="pair">',
        statuses_table(figures),
        durations_table(figures),
        "</div>",
        reasons.section(),
    ]
    faults = f" {figures.faults:,} lines were none of a log." if figures.faults else ""
    span = f"{when(figures.first)} to {when(figures.last)} UTC, {figures.bytes:,} bytes of content"
    top = f"<h1>{safe(name)}</h1><p>{span}.{faults}</p>"
    policy = "<meta http-equiv=\"Content-Security-Policy\" content=\"default-src 'none'; style-src 'unsafe-inline'\">"
    meta = f'<meta charset="utf-8">{policy}<meta name="viewport" content="width=device-width, initial-scale=1">'
    meta += '<meta name="color-scheme" content="light dark">'
    body = "\n".join(it for it in parts if it)
    head = f"<head>{meta}<title>{safe(name)}</title><style>{STYLE}</style></head>"
    return f'<!doctype html>\n<html lang="en">\n{head}\n<body>\n{top}\n{body}\n</body>\n</html>\n'
