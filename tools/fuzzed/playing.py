"""What each script has to do, whatever is in it: a status and a line that are known, whole effects, none behind a close."""
import glob
import os
import re
import resource
import subprocess

from live.script import EFFECT, is_effects

MOST_BYTES = 64 << 20
# What is begun with, and kept: a longer script makes each run slow.
MOST_SEED_BYTES = 4096
ENDS = {
    0: re.compile(rb""),
    1: re.compile(rb"(?:script fault line \d+|engine fault [1-5]|read fault|no memory)\n"),
    2: re.compile(rb"config fault \d+(?: (?:line|key) [!-~]+)?\n"),
}


class Wrong(Exception):
    """A run that ends or writes otherwise than it may."""


def hold_effects(text):
    """Whole effects; none names a connection behind its close, and no link is dropped twice."""
    if not is_effects(text):
        raise Wrong("no whole effects")
    closed, dropped, at = set(), set(), 0
    while at < len(text):
        line = text[at : text.index(b"\n", at)]
        length = EFFECT.fullmatch(line)[1]
        at += len(line) + 1 + (int(length) + 1 if length else 0)
        word, number = line.split(b" ")[:2]
        if word in (b"client", b"close") and number in closed:
            raise Wrong(f"an effect for connection {number.decode()} behind its close")
        if word == b"drop" and number in dropped:
            raise Wrong(f"a second drop of link {number.decode()}")
        (closed if word == b"close" else dropped if word == b"drop" else set()).add(number)


def play(program, script):
    """Plays a script; its exit status."""
    try:
        limit = lambda: resource.setrlimit(resource.RLIMIT_DATA, (MOST_BYTES, MOST_BYTES))  # noqa: E731
        ran = subprocess.run([program], input=script, capture_output=True, timeout=20, preexec_fn=limit)
    except subprocess.TimeoutExpired:
        raise Wrong("no end within 20 seconds") from None
    if ran.returncode not in ENDS or not ENDS[ran.returncode].fullmatch(ran.stderr) or b"no memory" in ran.stderr:
        raise Wrong(f"status {ran.returncode}, {ran.stderr[:200]!r}")
    hold_effects(ran.stdout)
    return ran.returncode


def found(folder):
    """Name -> script of those that a fuzzer found."""
    scripts = {}
    for path in sorted(glob.glob(f"{folder}/*.script")):
        with open(path, "rb") as it:
            scripts[os.path.basename(path)] = it.read()
    return scripts
