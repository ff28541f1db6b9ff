"""Scripts in pieces: what AFL++ changes, and what the program is given of it.

Lengths stand in front of the blocks of a script, so a change by chance would nearly always be refused at its first line. AFL++ changes
scripts in pieces instead: each happening and the table behind one another, with the byte 1E (the record separator) between them and
without lengths. `post_process` spells the script of it, its lengths in step, before each run. AFL++ loads this file as a module of its own
(AFL_PYTHON_MODULE), so it stands on nothing of tools/.
"""
import re

SEPARATOR = b"\x1e"
HAS_BLOCK = re.compile(rb"(?:config|client \d{1,20}|link \d{1,20})\n")


def script_of(pieces):
    """The script that these pieces spell."""
    out = []
    for it in bytes(pieces).split(SEPARATOR):
        line = HAS_BLOCK.match(it)
        out.append(b"%s %d\n%s\n" % (line[0][:-1], len(it) - line.end(), it[line.end() :]) if line else it + b"\n")
    return b"".join(out)


def pieces_of(parts):
    """The pieces of a script, which comes as `happenings_of` gives it; None where a block has a separator."""
    spelled = [words if block is None else words + b"\n" + block for words, block in parts]
    return None if any(SEPARATOR in it for it in spelled) else SEPARATOR.join(spelled)


def init(seed):
    """AFL++ asks for it; the dice are its own."""


def deinit():
    """AFL++ asks for it."""


def post_process(buf):
    return bytearray(script_of(buf))
