"""Cases of examples/ as the scripts that they spell: examples/README.md has their form."""
import glob
import os
import re
from email.utils import formatdate

EXAMPLES = f"{os.path.dirname(os.path.realpath(__file__))}/../../examples"
TABLE = b"""version = 1
name = "edge"
capacity = 2
max_body = 1000
max_stored = 1000

[[line]]
host = "*"
methods = ["GET", "HEAD", "POST"]
path = "/"
origin = "127.0.0.1:8081"
"""
ESCAPE = re.compile(r"\\(?:x([0-9A-F]{2})|\{date (\d+)\}|\{(.*?)\*(\d+)\}|(.))")
PLAIN = {"r": b"\r", "n": b"\n", "t": b"\t", "\\": b"\\", ".": b""}
# what happens, and the words of it in a script
WORDS = [
    (r"at (\d+)", b"at %s\n"),
    (r"client (\d+) connects", b"accept %s\n"),
    (r"client (\d+) ends", b"end %s\n"),
    (r"client (\d+) leaves", b"gone %s\n"),
    (r"client (\d+) is to end", b"retire %s\n"),
    (r"client (\d+) has waited long enough", b"overdue %s\n"),
    (r"link (\d+) ends", b"shut %s\n"),
    (r"link (\d+) fails (\S+)", b"fail %s %s\n"),
]


def bytes_of(text):
    """The bytes that a line below a statement spells."""

    def one(escape):
        code, moment, part, times, letter = escape.groups()
        if code:
            return bytes([int(code, 16)])
        if moment:
            return formatdate(int(moment), usegmt=True).encode()
        return bytes_of(part) * int(times) if times else PLAIN[letter]

    out, at = b"", 0
    for it in ESCAPE.finditer(text):
        out += text[at : it.start()].replace("↵", "\r\n").encode() + one(it)
        at = it.end()
    return out + text[at:].replace("↵", "\r\n").encode()


def script_of_case(text):
    """The script that a case spells."""
    out, lines = b"", [it for it in text.split("\n") if not it.startswith("#")]
    if "table" not in lines:
        out = b"config %d\n%s\n" % (len(TABLE), TABLE)
    for at, line in enumerate(lines):
        below = []
        for it in lines[at + 1 :]:
            if it and not it.startswith("    "):
                break
            below.append(it[4:])
        if line == "table":
            table = "".join(f"{it}\n" for it in "\n".join(below).rstrip("\n").split("\n")).encode()
            out += b"config %d\n%s\n" % (len(table), table)
        if sent := re.fullmatch(r"(client|link) (\d+) sends", line):
            block = b"".join(bytes_of(it) for it in below)
            out += b"%s %s %d\n%s\n" % (sent[1].encode(), sent[2].encode(), len(block), block)
        for form, words in WORDS:
            if happens := re.fullmatch(form, line):
                out += words % tuple(it.encode() for it in happens.groups())
    return out


EFFECTS = [(r"client (\d+) is closed", b"close %s\n"), (r"link (\d+) is dropped", b"drop %s\n")]
BLOCKS = [(r"client (\d+) gets", b"client %s %d\n"), (r"link (\d+) is opened to (\S+)", b"forward %s %s %d\n")]


def effects_of_case(text):
    """The text of the effects that a case expects, without the line of a fault."""
    out, lines = b"", [it for it in text.split("\n") if not it.startswith("#")]
    for at, line in enumerate(lines):
        block = b""
        for it in lines[at + 1 :]:
            if it and not it.startswith("    "):
                break
            block += bytes_of(it[4:])
        for form, words in EFFECTS:
            if effect := re.fullmatch(form, line):
                out += words % effect[1].encode()
        for form, words in BLOCKS:
            if effect := re.fullmatch(form, line):
                out += words % (*[it.encode() for it in effect.groups()], len(block)) + block + b"\n"
    return out


def paths(ending):
    """Name -> path of the files of examples/ that end so. Each folder there is a subject; a name stands in one of them alone."""
    found = {}
    for path in sorted(glob.glob(f"{EXAMPLES}/*/*.{ending}"), key=os.path.basename):
        name = os.path.basename(path).removesuffix(f".{ending}")
        if name in found:
            raise ValueError(f"two examples have the name {name}: {found[name]} and {path}")
        found[name] = path
    return found


def effects_of(name):
    """The text of the effects of an example that ends well."""
    for ending, spelled in (("effects", None), ("case", effects_of_case)):
        path = paths(ending).get(name)
        if path:
            with open(path, "rb") as it:
                return spelled(it.read().decode()) if spelled else it.read()
    return None


def examples():
    """Name -> script of each example: scripts as they stand, and those that cases spell."""
    scripts, cases, refusals = paths("script"), paths("case"), paths("refusal")
    found = {}
    for name in sorted({*scripts, *cases}):
        if name in scripts:
            with open(scripts[name], "rb") as it:
                found[name] = it.read()
        elif name not in refusals:
            with open(cases[name], encoding="utf-8") as it:
                found[name] = script_of_case(it.read())
    return found
