"""The effects of a replay, and what they have to be."""
from costed.counting import Failed

BLOCKS = (b"client", b"forward")


def effects(text):
    """Each effect: its words without a length, and its block."""
    at = 0
    while at < len(text):
        end = text.index(b"\n", at)
        words, at = text[at:end], end + 1
        if words.split(b" ")[0] not in BLOCKS:
            yield words, b""
            continue
        words, length = words.rsplit(b" ", 1)
        yield words, text[at : at + int(length)]
        at += int(length) + 1


class Wanted:
    """An effect of these words, whose block begins and ends so and has these texts."""

    def __init__(self, words, begins=b"", has=(), ends=b""):
        self.words, self.begins, self.has, self.ends = words, begins, has, ends

    def is_met(self, words, block):
        return words == self.words and block.startswith(self.begins) and block.endswith(self.ends) and all(it in block for it in self.has)

    def __repr__(self):
        return f"{self.words!r} that begins with {self.begins!r}, has {self.has!r} and ends with {self.ends[-40:]!r}"


def sent(client, status, *has, content=b""):
    """An answer to a client, with this content and no more."""
    return Wanted(b"client %d" % client, b"HTTP/1.1 %d " % status, has, b"\r\n\r\n" + content)


def asked(link, first, *has):
    """A request to an origin, on a new link."""
    return Wanted(b"forward %d 127.0.0.1:8081" % link, first, has)


def dropped(link):
    return Wanted(b"drop %d" % link)


def closed(client):
    return Wanted(b"close %d" % client)


def hold(text, skipped, wanted):
    """Behind so many effects these have to stand, and no more."""
    told = list(effects(text))[skipped:]
    for (words, block), want in zip(told, wanted):
        if not want.is_met(words, block):
            raise Failed(f"wanted {want}, got {words!r} {block[:300]!r}")
    if len(told) != len(wanted):
        raise Failed(f"wanted {len(wanted)} effects, got {len(told)}")
