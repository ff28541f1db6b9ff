"""Instructions of a replay by callgrind, and seconds of the processor."""
import os
import re
import resource
import shlex
import subprocess
import tempfile
from collections import Counter


# Copies by `rep movsb`, which the C library has for more than 2 KB, would count as an instruction for each byte.
SAME_FOR_ALL_SIZES = {**os.environ, "GLIBC_TUNABLES": "glibc.cpu.hwcaps=-ERMS,-FSRM"}


class Failed(Exception):
    """A replay that didn't do what it was made for."""


class Program:
    def __init__(self, words, seconds=600):
        self.words, self.seconds = shlex.split(words), seconds

    def is_there(self):
        return all(os.access(it, os.R_OK) for it in self.words if it.startswith("/"))

    def run(self, words, text, **how):
        try:
            done = subprocess.run(words, input=text, timeout=self.seconds, **how)
        except subprocess.TimeoutExpired:
            raise Failed(f"a replay took more than {self.seconds} s") from None
        if done.returncode:
            why = f": {done.stderr.decode().strip()}" if done.stderr else ""
            raise Failed(f"a replay ended with status {done.returncode}{why}")
        return done.stdout

    def effects(self, text):
        return self.run(self.words, text, capture_output=True)

    def time(self, text):
        """Seconds of the processor that one replay takes."""
        before = resource.getrusage(resource.RUSAGE_CHILDREN)
        self.run(self.words, text, stdout=subprocess.DEVNULL)
        after = resource.getrusage(resource.RUSAGE_CHILDREN)
        return after.ru_utime + after.ru_stime - before.ru_utime - before.ru_stime

    def used(self, text):
        """What one replay uses: seconds of the processor, and the bytes that it has at most without its script and its effects, which it
        holds to its end; and these. GNU time starts it, since what is started from here has this process's memory for its own most."""
        with tempfile.TemporaryFile() as script, tempfile.TemporaryFile() as effects:
            script.write(text)
            script.seek(0)
            told = subprocess.run(["time", "-f", "%U %S %M", *self.words], stdin=script, stdout=effects, stderr=subprocess.PIPE, check=False)
            if told.returncode:
                raise Failed(f"a replay ended with status {told.returncode}")
            user, system, most = told.stderr.split()
            effects.seek(0)
            written = effects.read()
            return float(user) + float(system), int(most) * 1024 - len(text) - len(written), written

    def instructions(self, text):
        """Instructions of one replay with its libraries, by function."""
        with tempfile.TemporaryDirectory(prefix="costs-") as room:
            out = f"{room}/out"
            words = ["valgrind", "--tool=callgrind", f"--callgrind-out-file={out}", "--compress-strings=no", "--compress-pos=no"]
            self.run([*words, *self.words], text, stdout=subprocess.DEVNULL, stderr=subprocess.DEVNULL, env=SAME_FOR_ALL_SIZES)
            return read(out)


def read(path):
    spent, function, is_call = Counter(), "", False
    with open(path, encoding="utf-8", errors="replace") as it:
        for line in it:
            if line.startswith("fn="):
                function = line[3:].strip()
            elif line.startswith("calls="):
                is_call = True
            elif re.match(r"[0-9+*-]", line):
                if not is_call:
                    spent[function] += int(line.split()[1])
                is_call = False
    return spent


def check(program, script, first, more):
    """Each further time has to have its effect once more, or it costs something else than what is asked for."""
    few, many = (program.effects(script.text(n)).count(script.says) for n in (first, first + more))
    wanted = more * getattr(script, "times", 1)
    if many - few != wanted:
        raise Failed(f"{script.says.decode()!r} stood {many - few} times in the effects, in place of {wanted}")


def cost(program, script, first=2, more=2):
    """Instructions of one time, by function: of a script with `more` times more, less those of the one with `first`."""
    check(program, script, first, more)
    few, many = (program.instructions(script.text(n)) for n in (first, first + more))
    spent = Counter({it: (many[it] - few[it]) / more for it in many | few})
    return sum(spent.values()), spent
