"""Bytes that are changed by chance: what is hostile to a reader of almost any kind."""

PIECES = [b"\r\n", b"\n", b"\r\n\r\n", b"\0", b" ", b":", b",", b'"', b"%", b"/", b"..", b"0", b"99999999999999999999", b"chunked", b"\xff"]


def changed(data, dice):
    """Some bytes, changed in one of the ways that there are."""
    at = dice.randrange(len(data) + 1)
    to = min(len(data), at + dice.choice([1, 1, 2, 8, 40]))
    ways = [
        data[:at] + bytes([dice.randrange(256)]) + data[at + 1 :],
        data[:at] + dice.choice(PIECES) + data[at:],
        data[:at] + data[to:],
        data[:to] + data[at:to] + data[to:],
        data[:at],
    ]
    return dice.choice(ways)
