"""The operator's table, as far as it tells origins apart."""
import functools
import re

ESCAPE = re.compile(r"%([0-9A-Fa-f]{2})")
UNRESERVED = frozenset("ABCDEFGHIJKLMNOPQRSTUVWXYZabcdefghijklmnopqrstuvwxyz0123456789-._~")


def normal(path):
    """A path as the table compares it: an escape of what needs none is that character, other digits are upper case."""

    def one(found):
        text = chr(int(found[1], 16))
        return text if text in UNRESERVED else found[0].upper()

    return ESCAPE.sub(one, path)


def texts_of(value):
    """The texts of a key that has one or a list of them."""
    return value if isinstance(value, list) else [value]


def names(text, host):
    """Whether a host of a line matches: every one, those below one, or this one."""
    return text == "*" or (host.endswith(text[1:]) if text.startswith("*.") else text == host)


def is_below(path, asked):
    """Whether a path of a line matches a normal path."""
    return path == "/" or asked == path or asked.startswith(path + "/")


class Table:
    """Which origin a request goes to: that of the first line of which one host, one method and one path match."""

    def __init__(self, file):
        import tomllib

        with open(file, "rb") as it:
            self.all = tomllib.load(it)
        self.lines = self.all["line"]
        for it in self.lines:
            texts = *texts_of(it["host"]), *texts_of(it["path"]), it["origin"], *it["methods"]
            if not all(isinstance(text, str) for text in texts):
                raise ValueError("a line of the table has a host, methods, a path and an origin")
        self.short = functools.lru_cache(maxsize=50000)(self.find)

    def origin(self, method, target):
        return (self.short if len(method) + len(target) < 300 else self.find)(method, target)

    def find(self, method, target):
        found = self.line(method.decode("ascii"), target.decode("ascii"))
        return found["origin"] if found else "no line of the table"

    def line(self, method, target):
        """The line that decides on a request; None where none does."""
        host, path = target.partition("//")[2].partition("/")[::2]
        host = re.sub(r":[0-9]*$", "", host)
        path = normal("/" + path.partition("?")[0])
        for it in self.lines:
            below = any(is_below(normal(one), path) for one in texts_of(it["path"]))
            named = any(names(one, host) for one in texts_of(it["host"]))
            if named and below and ("*" in it["methods"] or method in it["methods"]):
                return it
        return None
