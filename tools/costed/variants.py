"""What one request costs where its target has many variants: in instructions, and in microseconds."""
from concurrent.futures import ThreadPoolExecutor, wait

from costed.counting import Failed, check
from costed.keys import VARIANTS, one_more, variants

COUNT, LONGEST_SCRIPT, MOST = 8000, 16_000_000, 1000
# How many requests are counted behind them.
TIMES = 4
HOWS = {"held": "held", "other": "not held", "held_large": "held, 28 KB", "other_large": "not held, 28 KB", "more": "one more"}


def script_of(name, how):
    return one_more(name, COUNT) if how == "more" else variants(name, COUNT, how)


class Variants:
    """What is counted of one kind of variants: of each script what it takes beyond what all of them begin with."""

    def __init__(self, program, name):
        self.program, self.name = program, name
        self.scripts = {how: script_of(name, how) for how in HOWS}
        self.before = self.scripts["held"].text(0)

    def instructions(self):
        for it in self.scripts.values():
            check(self.program, it, 0, TIMES)
        base = self.program.instructions(self.before).total()
        return {how: (self.program.instructions(it.text(TIMES)).total() - base) / TIMES for how, it in self.scripts.items()}

    def microseconds(self):
        """By the processor's time of a replay with many."""
        base = self.least(self.before)
        return {how: self.beyond(it, base) for how, it in self.scripts.items()}

    def beyond(self, script, base):
        times = min(2000, (LONGEST_SCRIPT - len(self.before)) // len(script.each(0)))
        return (self.least(script.text(times)) - base) / times * 1e6

    def least(self, text):
        """The least of some runs; of one alone where it takes long."""
        first = self.program.time(text)
        return min(first, *(self.program.time(text) for _ in range(4))) if first < 5 else first


def tell(program, jobs):
    """A table of the variants, and what takes a millisecond or more. Times are taken when nothing else of it runs."""
    broken = []
    print(f"\nvariants: one request where a target has {COUNT:,}; instructions, and microseconds")
    print(f"{'':<12}" + "".join(f"{it:>24}" for it in HOWS.values()))
    all_of_them = [Variants(program, it) for it in VARIANTS]
    with ThreadPoolExecutor(jobs) as pool:
        counted = [pool.submit(it.instructions) for it in all_of_them]
        wait(counted)
    for it, counts in zip(all_of_them, counted):
        try:
            count, took = counts.result(), it.microseconds()
        except Failed as fault:
            broken.append(f"variants of {it.name}: {fault}")
            continue
        row = "".join(f"{count[how]:>14,.0f} {took[how]:>9,.0f}" for how in HOWS)
        print(f"{it.name:<12}{row}  {VARIANTS[it.name][2]}", flush=True)
        slow = {how: us for how, us in took.items() if us >= MOST}
        broken += [f"variants of {it.name}, {HOWS[how]}: {us:,.0f} microseconds; the bound is {MOST:,}" for how, us in slow.items()]
    return broken
