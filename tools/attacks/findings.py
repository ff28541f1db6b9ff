"""What a run has found, and the counts that it ends with."""
import os
import tempfile
import threading
from collections import Counter

# A run ends where it has found so much.
MOST = 10
# A case that has more bytes stands in its file alone.
MOST_SHOWN = 1000


class Found(Exception):
    """Something that may not be: a word for its kind, what came, and the bytes of the case."""

    def __init__(self, word, what, case=b""):
        super().__init__(f"{word}: {what}")
        self.word, self.case = word, case


class Tally:
    """Counts by name, and what was found."""

    def __init__(self):
        self.counts, self.found, self.lock = Counter(), [], threading.Lock()

    def find(self, found, name):
        self.found.append((name, found))

    def is_full(self):
        return len(self.found) >= MOST

    def words(self):
        """The kinds of what was found."""
        return {it.word for _, it in self.found}


def again(name, path):
    """How a case is run again."""
    if name.startswith("interleavings"):
        return "what one client sent and got; the same seed has all of them do the same again"
    return f"`tools/attack {'--answer' if name.startswith('hostile') else '--case'} {path}` plays them again"


def tell(found, name):
    """Prints a finding with the bytes of its case, and keeps these in a file."""
    text = str(found)
    print(f"FOUND in {name}: {text if len(text) < 600 else text[:600] + ' ..'}")
    if not found.case:
        return
    file, path = tempfile.mkstemp(prefix="attack-", suffix=".case")
    with os.fdopen(file, "wb") as it:
        it.write(found.case)
    if len(found.case) <= MOST_SHOWN:
        print(f"    its bytes: {found.case!r}\n    as hexadecimal digits: {found.case.hex()}")
    print(f"    its {len(found.case):,} bytes are kept in {path}: {again(name, path)}")
