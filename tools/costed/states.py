"""What it costs to hold much: one further hit beside it, and its memory; each beside the same with few."""
from concurrent.futures import ThreadPoolExecutor

from costed.counting import Failed, cost
from costed.keys import fill
from costed.scripts import TABLE, Script, answer, client, link, request

ONE = client(request(0)) + link(1, answer(0))
HIT = b"Cache-Status: edge;hit"
# So many hits are counted behind what is held; where instructions would take an hour, so many are timed.
COUNTED, TIMED = 32, 20_000


class State:
    """What holds so many, few and many: `shows` sees that in the effects. With many a hit may cost `more` times what it costs with few, and
    each of them may take `most` bytes."""

    def __init__(self, name, what, script, shows, few, many, more, most, is_timed=False):
        self.name, self.what, self.script, self.shows, self.few, self.many = name, what, script, shows, few, many
        self.more, self.most, self.is_timed = more, most, is_timed

    def counts(self, quick):
        """Few, and many or an eighth of them."""
        return self.few, self.many // 8 if quick else self.many

    def spent(self, program, count):
        """What a hit costs beside so many, in instructions or in microseconds of the processor; and the bytes that they take."""
        script = self.script(count)
        less, taken, few = program.used(script.text(1))
        if not self.shows(few, count):
            raise Failed(f"it doesn't hold {count:,}")
        if not self.is_timed:
            return cost(program, script, first=1, more=COUNTED)[0], taken
        much, _, many = program.used(script.text(1 + TIMED))
        if many.count(script.says) - few.count(script.says) != TIMED:
            raise Failed("it is no hit")
        return (much - less) / TIMED * 1e6, taken

    def judge(self, program, quick):
        """A line of the table, and the bounds that aren't held."""
        few, many = self.counts(quick)
        (less, taken), (much, all_taken) = (self.spent(program, it) for it in (few, many))
        bytes_each = (all_taken - taken) / (many - few)
        unit = "us" if self.is_timed else "  "
        counts = f"{few:>6,} {many:>7,} {less:>11,.0f} {much:>11,.0f} {unit}"
        row = f"{self.name:<10} {counts} {much / less:>6.2f} ({self.more}) {bytes_each:>7,.0f} ({self.most:,})  {self.what}"
        broken = []
        if much > self.more * less:
            broken.append(f"{self.name}: beside {many:,} a hit costs {much / less:.2f} times what it costs beside {few:,}; the bound is {self.more}")
        # Of a few hundred the pages that are begun count for too much.
        if bytes_each > self.most and not quick:
            broken.append(f"{self.name}: each takes {bytes_each:,.0f} bytes; the bound is {self.most:,}")
        return row, broken


def asked_by(i, target=b"/one"):
    text = request(0, target=target)
    return b"accept %d\nclient %d %d\n%s\n" % (i, i, len(text), text)


def waiting(count):
    """So many that wait for one answer."""
    return Script(ONE + b"".join(asked_by(i + 2, b"/other") for i in range(count)), hit)


def open_ones(count):
    """So many that wait, each for an answer of its own."""
    return Script(ONE + b"".join(asked_by(i + 2, b"/%d" % i) for i in range(count)), hit)


def connected(count):
    """So many connections that have asked once."""
    return Script(ONE + b"".join(asked_by(i + 2) for i in range(count)), hit)


def lines(count):
    """A table of so many lines, of which the last allows the request."""
    top, line = TABLE.replace(b"version = 1", b"version = 4").partition(b"[[line]]")[::2]
    others = [b"[[line]]" + line.replace(b'"*"', b'"h%d.example.com"' % i, 1) for i in range(count - 1)]
    return Script(ONE, hit, table=top + b"\n".join([*others, b"[[line]]" + line]))


def responses(count):
    """So many responses, of as many targets."""
    stored = (client(request(0, target=b"/%d" % i)) + link(i + 2, answer(0)) for i in range(count - 1))
    return Script(ONE + b"".join(stored), hit)


def variants(count):
    """So many of one target; what is asked for is in their middle."""
    text = client(request(0, b"A: v%d" % (count // 2)))
    return Script(fill("numbers", count), lambda i: text)


def hit(i):
    return client(request(0))


def none_is_answered(effects, count):
    """But for the one that is stored, and the hit."""
    return effects.count(b"HTTP/1.1 200 ") == 2


def all_are_answered(effects, count):
    return effects.count(b"HTTP/1.1 200 ") == count + 2


def all_are_stored(effects, count):
    return effects.count(b";stored") == count


STATES = [
    State("waiting", "requests that wait for one answer", waiting, none_is_answered, 64, 4096, 1.1, 2000),
    State("open", "requests that wait, each for its own answer", open_ones, none_is_answered, 64, 4096, 1.1, 2700),
    State("connected", "connections that have asked once", connected, all_are_answered, 64, 16384, 1.1, 500),
    State("lines", "lines of a table, of which the last allows", lines, none_is_answered, 1, 4096, 2, 3000),
    State("responses", "stored responses", responses, all_are_stored, 64, 65536, 1.1, 900),
    State("variants", "variants of one target", variants, all_are_stored, 4096, 65536, 100, 1200, is_timed=True),
]


def tell(program, jobs, quick):
    """A table of the states. What is timed comes last, when nothing else of it runs."""
    print(f"\nstates: {'few':>9} {'many':>7} {'a hit, few':>11} {'many':>11} {'times (bound)':>16} {'bytes of each (bound)':>16}")
    broken, told = [], []
    with ThreadPoolExecutor(jobs) as pool:
        told += [(it, pool.submit(it.judge, program, quick)) for it in STATES if not it.is_timed]
    for it, judged in told + [(it, None) for it in STATES if it.is_timed and not quick]:
        try:
            row, found = judged.result() if judged else it.judge(program, quick)
        except Failed as fault:
            row, found = f"{it.name:<10} {fault}", [f"{it.name}: {fault}"]
        print(row, flush=True)
        broken += found
    return broken
