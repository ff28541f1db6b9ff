"""What a run of the program spends, by callgrind: instructions by object and function, and requests for memory."""
import os
import re
import shutil
import subprocess
import tempfile
from collections import Counter

from costed.counting import SAME_FOR_ALL_SIZES

BLOCKS = SAME_FOR_ALL_SIZES["GLIBC_TUNABLES"]
# The function that makes a page of figures and writes it.
PAGE = "figures::Figures::write"
ALLOCATORS = ("malloc", "calloc", "realloc", "aligned_alloc", "posix_memalign", "memalign")


def by_blocks():
    """From here on the C library clears and copies by blocks. Its `rep stosb` and `rep movsb` count as an instruction for each byte."""
    os.environ["GLIBC_TUNABLES"] = BLOCKS


def callgrind(out):
    return ["valgrind", "--tool=callgrind", f"--callgrind-out-file={out}", "--compress-strings=no", "--compress-pos=no"]


def is_program(place, program):
    return os.path.realpath(place) == os.path.realpath(program)


def counted(out, program):
    """Of callgrind's file: instructions by object and function, the program's calls of the allocators, and what its pages of figures cost."""
    spent, calls, pages = Counter(), Counter(), Counter()
    place, function, is_call, called, times = "", "", False, "", 0
    with open(out, encoding="utf-8", errors="replace") as it:
        for line in it:
            if line.startswith("ob="):
                place = line[3:].strip()
            elif line.startswith("fn="):
                function = line[3:].strip()
            elif line.startswith("cfn="):
                called = line[4:].strip()
            elif line.startswith("calls="):
                is_call, times = True, int(line[6:].split()[0])
            elif re.match(r"[0-9+*-]", line):
                if is_call:
                    is_call = False
                    if called.split("'")[0] in ALLOCATORS and is_program(place, program):
                        calls[called] += times
                    if PAGE in called:
                        pages.update(count=times, spent=int(line.split()[1]))
                else:
                    spent[(place, function)] += int(line.split()[1])
    return spent, calls, pages


def can_count():
    """Whether valgrind is there, and counts a program of this machine's."""
    with tempfile.TemporaryDirectory(prefix="hit-cost-") as room:
        how = {"stdin": subprocess.DEVNULL, "stdout": subprocess.DEVNULL, "stderr": subprocess.DEVNULL}
        return bool(shutil.which("valgrind")) and not subprocess.run([*callgrind(f"{room}/out"), "true"], check=False, **how).returncode


def replayed(program, text):
    """What one replay spends: instructions by object and function, and calls of the allocators."""
    with tempfile.TemporaryDirectory(prefix="hit-cost-") as room:
        out = f"{room}/out"
        subprocess.run([*callgrind(out), program], input=text, stdout=subprocess.DEVNULL, stderr=subprocess.DEVNULL, check=True)
        spent, calls, _ = counted(out, program)
        return spent, calls


class Cost:
    """What one of something costs: instructions by object and function, those of the program, all, and requests for memory."""

    def __init__(self, program, by, requests):
        self.program, self.by, self.requests = program, by, requests
        self.all = sum(by.values())
        self.own = sum(n for (place, _), n in by.items() if is_program(place, program))

    def less(self, other, count):
        """A share of what it costs more than another."""
        by = Counter({it: (self.by[it] - other.by[it]) / count for it in self.by | other.by})
        return Cost(self.program, by, (self.requests - other.requests) / count)


def cost(program, fewer, others, more):
    """Of two runs, of which the second has `more` of something more than the first."""
    less, much = (Cost(program, spent, sum(calls.values())) for spent, calls in (fewer, others))
    return much.less(less, more)
