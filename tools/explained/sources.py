"""What the program can write, by the definitions of crates/*/specs and the texts of its sources."""
import glob
import os
import re

HEAD = re.compile(r"(?:abbrev|unfoldable) pub (\w+) : (?:\(\w+ : )?(\w+)\)? →")
EQUATION = re.compile(r"(\w+) \(?(?:\w+\.)?([A-Z]\w*)\b[^=]*= (.*)")
TEXT = re.compile(r'codes "((?:[^"\\]|\\.)*)"')
# Texts on standard error, in the sources of the program.
SAID = re.compile(r'(?:eprintln!\(rt;\s*"|\.eprintln\("|write_str\(\s*")((?:[^"\\{]|\\.)*)')


class Sources:
    def __init__(self, root):
        self.root, self.equations, self.files = root, {}, {}
        for path in sorted(glob.glob(f"{root}/crates/*/specs/*.antt")):
            with open(path, encoding="utf-8") as it:
                self.read(os.path.relpath(path, root), it.read())

    def read(self, file, text):
        """Equations of functions by the constructor of their first argument."""
        types = {}
        for line in text.split("\n"):
            if head := HEAD.match(line):
                types[head[1]] = head[2]
            elif (found := EQUATION.match(line)) and found[1] in types:
                key = found[1], types[found[1]]
                self.files[key] = file
                self.equations.setdefault(key, {}).setdefault(found[2], found[3])

    def table(self, function, type):
        """By constructor what stands on the right of the function's equation; fails where there is no such function."""
        if (function, type) not in self.equations:
            raise LookupError(f"no definition {function} of {type} stands in crates/*/specs")
        return self.equations[function, type]

    def texts(self, function, type):
        """By constructor the first text of its equation; None where it has none."""
        return {name: text_in(right) for name, right in self.table(function, type).items()}

    def numbers(self, function, type):
        return {name: int(right) for name, right in self.table(function, type).items()}

    def definition(self, type, name, functions):
        """Where the condition of a rule is: the first of these functions that says something of it; fails where none is there."""
        if not any((it, type) in self.equations for it in functions):
            raise LookupError(f"no definition {' or '.join(functions)} of {type} stands in crates/*/specs")
        for it in functions:
            right = self.equations.get((it, type), {}).get(name)
            if right and right != "false":
                return f"{self.files[it, type]} (`{it} {name}`)"
        return None

    def place(self, name):
        """The file that a definition stands in, whatever its type; fails where none has it."""
        for path in sorted(glob.glob(f"{self.root}/crates/*/specs/*.antt")):
            with open(path, encoding="utf-8") as it:
                if f" pub {name} :" in it.read():
                    return f"{os.path.relpath(path, self.root)} (`{name}`)"
        raise LookupError(f"no definition {name} stands in crates/*/specs")

    def parameters(self):
        """The parameters that a member of Cache-Status or a refusal can have, without what stands behind a `=`."""
        found = set()
        for key in (("hit_or_forward_text", "How"), ("refusal_text", "Cause")):
            with open(f"{self.root}/{self.files[key]}", encoding="utf-8") as it:
                found |= {one.strip(";=") for one in TEXT.findall(it.read()) if one.startswith(";")}
        return found

    def said(self):
        """What the program says on standard error beside the definitions' lines: each text up to what is put in it."""
        found = set()
        for crate in ("proxy_program", "proxy_files", "proxy_replay"):
            for path in glob.glob(f"{self.root}/crates/{crate}/src/*.rt"):
                with open(path, encoding="utf-8") as it:
                    found |= {one.partition(";")[0].strip() for one in SAID.findall(it.read())}
        return found - {""}


def text_in(right):
    found = TEXT.search(right)
    return found[1].replace('\\"', '"') if found else None
