"""Scripts and effects as docs/RECORDS.md has them: where the happenings of a script end, and whether a text is one of effects."""
import re

BLOCK = re.compile(rb"(?:config|client \d+|link \d+) (\d+)")
EFFECT = re.compile(rb"(?:client \d+|forward \d+ [0-9.]+:\d+) (\d+)|close \d+|drop \d+")


def ends_of(script):
    """The places behind the table and behind each happening or moment of a script that holds."""
    at, ends = 0, []
    while at < len(script):
        line = script[at : script.index(b"\n", at)]
        at += len(line) + 1
        has_block = BLOCK.fullmatch(line)
        if has_block:
            at += int(has_block[1]) + 1
        ends.append(at)
    return ends


def numbers_with(script, word):
    """The numbers that a word stands with, as those of `gone`, in a script that may be amid its next happening."""
    at, found = 0, []
    while (end := script.find(b"\n", at)) >= 0:
        line, at = script[at:end], end + 1
        has_block = BLOCK.fullmatch(line)
        if has_block:
            at += int(has_block[1]) + 1
        elif line.startswith(word + b" "):
            found.append(int(line.split(b" ")[1]))
    return found


def is_effects(text):
    """Whether a text is whole effects, one behind the other."""
    at = 0
    while at < len(text):
        end = text.find(b"\n", at)
        line = EFFECT.fullmatch(text[at:end]) if end >= 0 else None
        if line is None:
            return False
        at = end + 1
        if line[1] is not None:
            at += int(line[1]) + 1
            if at > len(text) or text[at - 1 : at] != b"\n":
                return False
    return True


def happenings_of(script):
    """The parts of a script that holds: the table first, then each happening, as its words in front of its block and the block."""
    parts, start = [], 0
    for end in ends_of(script):
        line, _, rest = script[start:end].partition(b"\n")
        is_block = BLOCK.fullmatch(line) is not None
        parts.append((line.rpartition(b" ")[0], rest[:-1]) if is_block else (line, None))
        start = end
    return parts


def script_of(parts):
    """The script that these parts spell."""
    return b"".join(words + b"\n" if block is None else b"%s %d\n%s\n" % (words, len(block), block) for words, block in parts)
