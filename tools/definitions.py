"""Tries the mutants of definitions: what `tools/mutants --definitions` does.

All mutants of a crate are tried in one copy of it, where each has its own set of files: `specs/Rules.antt` as the first
one changes it is `specs/Rules_m1.antt`, and so with each definition, lemma, law and proof that rests on it. So the
compiler starts once for some dozen mutants, and only the laws are proved, each time over one changed definition. The
set number 0 changes nothing: if a law of it isn't proved, the others tell nothing.

A law that is computed, as worked cases are, takes a second or two, and one whose proof rests on the crate's lemmas takes these
with it. So the computed ones come first, of these those that name the definition itself or what rests on it at once, then those
that rest on few files of lemmas, and the others are asked only of mutants that none of these refuses.
"""
import glob
import os
import re
import subprocess
import tempfile
import threading
import time
from concurrent.futures import ThreadPoolExecutor

from progress import Progress, clock

BEGIN, END = "<!-- tools/mutants --definitions writes from here -->", "<!-- to here, of definitions -->"
# So many mutants are tried by one start of the compiler.
AT_ONCE = 40
# What the prover said is written by one lane at a time.
WRITING = threading.Lock()
# The laws are asked in these steps: those on no file of lemmas, first the nearest to the change, on at most so many, and on any number.
NEAREST, COMPUTED, ON_FEW, ON_MANY = STEPS = range(4)
# the beginning of what is said where the prover can't read a set
UNREAD = "the prover can't read the changed definition"
# a module that a file of laws declares
MOD = r"^(?:pub(?:\(crate\))? )?mod (\w+);\n"
LAYERS, FEW = 2, 1


class Mutant:
    """An edit of specs/ alone. A line `same: WHY` says of one that it means what the definition means."""

    def __init__(self, rt, crate, file):
        self.crate, self.file, self.name = crate, file, os.path.basename(file).removesuffix(".edit")
        lines = (rt.rtlib.text_of(file) or "").split("\n")
        self.sentence = lines[0][2:].strip() if lines[0].startswith("# ") else ""
        self.same = next((it[len("same: ") :].strip() for it in lines if it.startswith("same: ")), "")
        self.texts, self.fault = rt.read_edit(file, crate.folder)
        if not self.fault and not all(it.startswith("specs/") for it in self.texts):
            self.fault = "it changes more than specs/"
        if not self.fault and not self.sentence:
            self.fault = "its first line doesn't say what it does wrong"


def mutants_of(rt, crate):
    return [Mutant(rt, crate, it) for it in sorted(glob.glob(f"{crate.folder}/mutants/definitions/**/*.edit", recursive=True))]


def without_modules(text):
    """A source without the modules that it declares, and without what it hands out of them."""
    names = "|".join(re.findall(MOD, text, flags=re.M)) or "(?!)"
    text = re.sub(rf"^pub use (?:{names})::(?:\{{[^}}]*\}}|\w+);\n", "", text, flags=re.M)
    return re.sub(MOD, "", text, flags=re.M)


class Copy:
    """The sources of a crate, and the sets of files that mutants of it have in one copy, with the laws of one step."""

    def __init__(self, rt, crate, step):
        self.crate, self.files, self.step, self.names = crate, {}, step, {}
        for at, _folders, names in os.walk(crate.folder):
            part = os.path.relpath(at, crate.folder).split("/")[0]
            if part in ("src", "specs", "proofs"):
                for name in names:
                    self.files[os.path.relpath(f"{at}/{name}", crate.folder)] = rt.rtlib.text_of(f"{at}/{name}")
        named = re.compile(r"src/((?:\w+/)*\w*(?:laws|cases))\.rt$")
        self.laws = [it[1] for it in map(named.match, self.files) if it]
        self.values = {it for path, text in self.files.items() if path.startswith("src/") for it in self.values_in(text)}

    def values_in(self, text):
        """The modules of the types by which contracts see those of this source. A type of the program that holds one of these is seen
        by the crate's own module, never by a copy, so the set that changes nothing leaves them alone where nothing below them changes."""
        for body in re.findall(r"^impl\b[^\n]* Model for .*?^\}", text, re.M | re.S):
            seen = {it for value in re.findall(r"ghost Value = \{(.*?)\};", body, re.S) for it in re.findall(r"\w+", value)}
            imports = re.findall(rf"ghost use Rattle\.{self.crate.name}\.(specs\.\w+)\.\{{(.*?)\}};", body, re.S)
            yield from (module for module, names in imports if seen & set(re.findall(r"\w+", names)))

    def module(self, path):
        """`specs.Rules` of specs/Rules.antt, and None of what no other file imports."""
        found = re.fullmatch(r"(specs|proofs)/([\w/]+)\.antt", path)
        is_shared = found and found[2] != "Lib" and (found[1] == "specs" or "/" not in found[2])
        return f"{found[1]}.{found[2].replace('/', '.')}" if is_shared else None

    def resting_on(self, changed):
        """The modules of definitions and lemmas that rest on these."""
        return {it for layer in self.layers(changed) for it in layer}

    def layers(self, changed):
        """These modules, those that name one of them, those that name one of these, and so on."""
        found, layers = set(changed), [set(changed)]
        while more := {it for path in self.files if (it := self.module(path)) and it not in found and self.names_one_of(self.files[path], layers[-1])}:
            found |= more
            layers.append(more)
        return layers

    def names_one_of(self, text, modules):
        return any(it in modules for it in self.named(text))

    def named(self, text):
        """The modules of this crate that a text names."""
        if text not in self.names:
            self.names[text] = self.named_in(text)
        return self.names[text]

    def named_in(self, text):
        by_dots = re.findall(rf"\bRattle\.{self.crate.name}\.((?:specs|proofs)\.\w+)", text)
        by_colons = re.findall(rf"\b(?:crate|{self.crate.name})::(specs|proofs)::(\w+)", text)
        return {*by_dots, *(".".join(it) for it in by_colons)}

    def renamed(self, text, modules, laws, mark):
        """The text, with the modules and laws of this set in place of the crate's."""
        name = self.crate.name
        by_dots = lambda it: f"{it[0]}{mark}" if it[1] in modules else it[0]
        by_colons = lambda it: f"{it[0]}{mark}" if f"{it[1]}.{it[2]}" in modules else it[0]
        text = re.sub(rf"\bRattle\.{name}\.((?:specs|proofs)\.\w+)", by_dots, text)
        text = re.sub(rf"\b(?:crate|{name})::(specs|proofs)::(\w+)", by_colons, text)
        for law in laws:
            dots, others = law.replace("/", "."), "".join(rf"(?!{it}\b)" for it in self.inside(law))
            text = re.sub(rf"\bRattle\.{name}\.proofs\.{re.escape(dots)}\.{others}", f"Rattle.{name}.proofs.{dots}{mark}.", text)
        return text

    def inside(self, law):
        """The files of laws in the folder of this one, by their own names."""
        return [it.removeprefix(f"{law}/") for it in self.laws if it.startswith(f"{law}/")]

    def with_proofs(self, law):
        """The paths of a file of laws and of its proofs, without those of the files in its folder."""
        inside = tuple(f"proofs/{law}/{it}/" for it in self.inside(law))
        return [it for it in self.files if it == f"src/{law}.rt" or it.startswith(f"proofs/{law}/") and not it.startswith(inside)]

    def step_of(self, texts, own):
        """The step in which a law is asked whose proof is these texts, in a folder of that name."""
        found, new = set(), {it for text in texts for it in self.named(text)}
        while new := {it for it in new if it.startswith("proofs.") and it != own} - found:
            found |= new
            new = {it for path, text in self.files.items() if self.module(path) in new for it in self.named(text)}
        return COMPUTED if not found else ON_FEW if len(found) <= FEW else ON_MANY

    def functions_on(self, law, modules):
        """The functions of a file of laws that are asked in this step and whose statement or proof rests on these modules."""
        text, found = self.files[f"src/{law}.rt"], []
        imports = re.findall(rf"ghost use Rattle\.{self.crate.name}\.(specs\.\w+)\.\{{(.*?)\}};", text, re.S)
        changed = {it.split(" as ")[-1].strip() for module, names in imports if module in modules for it in names.split(",")}
        whole = re.findall(rf"ghost use Rattle\.{self.crate.name}\.(specs\.\w+) as (\w+);", text)
        changed |= {name for module, name in whole if module in modules}
        for above, name, statement in re.findall(r"((?:^#\[[^\n]*\n)*)^pub fn (\w+)(.*?)^(?:\{\}|\})$", text, re.M | re.S):
            proofs = [it for path, it in self.files.items() if path.startswith(f"proofs/{law}/{name}/")]
            is_named = changed & set(re.findall(r"\w+", statement)) or any(self.names_one_of(it, modules) for it in [above, *proofs])
            own = f"proofs.{law.partition('/')[0]}"
            found += [name] * bool(is_named and self.step_of([above, *proofs], own) == max(self.step, COMPUTED))
        return found

    def asked(self, changed):
        """The laws of this step over changed modules, as functions by their files."""
        every = self.functions_of(self.moved(changed))
        if self.step > COMPUTED:
            return every
        by_layer = [self.functions_of(it & self.moved(changed)) for it in self.layers(changed)]
        near = [it for it in by_layer if any(it.values())][:LAYERS]
        is_near = lambda law, name: any(name in it[law] for it in near)
        return {law: [it for it in names if is_near(law, it) == (self.step == NEAREST)] for law, names in every.items()}

    def moved(self, changed):
        """What rests on these, as far as the laws of this step may name it."""
        return {it for it in self.resting_on(changed) if self.step > COMPUTED or it.startswith("specs.")}

    def functions_of(self, modules):
        return {law: self.functions_on(law, modules) for law in self.laws}

    def needed(self, laws, modules):
        """Those of these modules that the files of these laws name, at once or by others."""
        texts = lambda law: [self.files[it] for it in self.with_proofs(law)]
        by_module = {self.module(path): text for path, text in self.files.items() if self.module(path)}
        found, new = set(), {it for law in laws for text in texts(law) for it in self.named(text)}
        while new := (new & modules) - found:
            found |= new
            new = {it for module in new for it in self.named(by_module[module])}
        return found

    def texts_of(self, number, texts):
        """The files of the set with that number, in which these texts replace the crate's, and the laws that rest on them."""
        mark, files = f"_m{number}", {}
        changed = {self.module(it) for it in texts} - {None}
        functions = self.asked(changed)
        laws = [it for it in self.laws if functions[it]]
        modules = self.needed(laws, self.moved(changed)) | changed
        for path in self.files:
            if self.module(path) in modules:
                files[path.replace(".antt", f"{mark}.antt")] = self.renamed(texts.get(path, self.files[path]), modules, laws, mark)
        for law in laws:
            for path in self.with_proofs(law):
                to = path.replace(f"/{law}.rt", f"/{law}{mark}.rt").replace(f"proofs/{law}/", f"proofs/{law}{mark}/")
                text = self.renamed(self.files[path], modules, laws, mark)
                files[to] = without_modules(text) if to.endswith(".rt") else text
        return files, [f"{law}{mark}/{name}" for law in laws for name in functions[law]]

    def write(self, room, sets):
        """Writes the crate and the sets, each declared where the crate declares its own."""
        files = {**self.files}
        for texts in sets:
            files.update(texts)
        new = [it for it in files if it not in self.files]
        for part in ("specs", "proofs"):
            modules = [self.module(it) for it in new if it.startswith(f"{part}/")]
            lines = [f"pub mod {it.partition('.')[2]}\n" for it in modules if it]
            files[f"{part}/Lib.antt"] = files.get(f"{part}/Lib.antt", "").rstrip("\n") + "\n" + "".join(lines)
        for path in [it for it in new if it.endswith(".rt")]:
            folder, _, name = path.removeprefix("src/").removesuffix(".rt").rpartition("/")
            above = f"src/{folder}.rt" if folder else "src/lib.rt"
            plain = re.sub(r"_m\d+$", "", name)
            files[above] = re.sub(rf"^((?:pub(?:\(crate\))? )?mod ){plain};$", rf"\g<0>\n\g<1>{name};", files[above], count=1, flags=re.M)
        for path, text in files.items():
            os.makedirs(os.path.dirname(f"{room}/{path}"), exist_ok=True)
            with open(f"{room}/{path}", "w", encoding="utf-8") as it:
                it.write(text)


def said_of(rt, crate, room, laws, kept):
    """What the prover says of these laws of the copy."""
    only = [word for it in laws for word in ("--only", f"{crate.name}::{it.replace('/', '::')}")]
    # libraries that aren't built are read as they are written, and nothing of them is proved
    words = crate.words(["--jobs", "1", *only], as_source=not all(it.is_built() for it in crate.below()))
    how = {"cwd": room, "stdin": subprocess.DEVNULL, "stdout": subprocess.PIPE, "stderr": subprocess.STDOUT, "errors": "replace"}
    ran = subprocess.run([*rt.rtlib.guarded(), rt.rtlib.RATTLE, "check", *words, "--incremental", kept], **how)
    return ran.stdout


class Tried:
    """What became of one mutant."""

    def __init__(self, mutant, refused_by, fault=""):
        self.mutant, self.refused_by, self.fault = mutant, refused_by, fault

    def word(self):
        if self.fault:
            return f"BAD: {self.fault}"
        if self.refused_by:
            return f"refused by {', '.join(self.refused_by)}" + (", though its line says that it means the same" if self.mutant.same else "")
        return f"the same in meaning: {self.mutant.same}" if self.mutant.same else "SURVIVES"

    def is_well(self):
        return not self.fault and bool(self.refused_by) != bool(self.mutant.same)


def judged(mutant, number, laws, said):
    """The functions that aren't proved of the set with that number."""
    unread = re.search(rf"^(?:\./)?specs/\S*_m{number}\.antt:\d+:\d+: error.*", said, re.M)
    if unread:
        return Tried(mutant, [], f"{UNREAD}: {unread[0][:300]}")
    found = [it for law in laws for it in re.findall(rf"^fn \w+::({law.replace('/', '::')}): (.*)", said, re.M)]
    if laws and not found:
        return Tried(mutant, [], f"the prover says nothing of its laws: {said.rstrip()[-300:]}")
    return Tried(mutant, [it.replace(f"_m{number}::", "::") for it, outcome in found if outcome != "proved"])


def try_some(rt, crate, mutants, kept):
    """Tries these mutants by the laws of one step after another: of those that survive one, the next."""
    tried = {it: Tried(it, []) for it in mutants}
    for step in STEPS:
        alive = [it for it in mutants if not tried[it].refused_by and not tried[it].fault]
        tried.update({it.mutant: it for it in try_by(step, rt, crate, alive, kept)})
    return [*tried.values()]


def try_by(step, rt, crate, mutants, kept):
    """Tries these mutants in one copy, by the laws of this step."""
    copy = Copy(rt, crate, step)
    same = {it: text for it, text in copy.files.items() if it.startswith("specs/") and copy.module(it) and copy.module(it) not in copy.values}
    sets = {0: copy.texts_of(0, same), **{at + 1: copy.texts_of(at + 1, it.texts) for at, it in enumerate(mutants)}}
    if not any(laws for number, (_texts, laws) in sets.items() if number):
        return [Tried(it, []) for it in mutants]
    with tempfile.TemporaryDirectory(prefix="definitions-") as room:
        copy.write(room, [texts for texts, _laws in sets.values()])
        said = said_of(rt, crate, room, [law for _texts, laws in sets.values() for law in laws], kept)
    os.makedirs(f"{crate.folder}/out/mutants", exist_ok=True)
    with WRITING, open(f"{crate.folder}/out/mutants/definitions.txt", "a", encoding="utf-8") as it:
        it.write(said)
    unchanged = judged(None, 0, sets[0][1], said)
    if unchanged.fault.startswith(UNREAD):
        return [try_alone(rt, copy, it, kept) for it in mutants]
    if unchanged.fault or unchanged.refused_by:
        return [Tried(it, [], f"its crate's laws aren't proved as they are: {unchanged.fault or unchanged.refused_by}") for it in mutants]
    return [judged(it, at + 1, sets[at + 1][1], said) for at, it in enumerate(mutants)]


def try_alone(rt, copy, mutant, kept):
    """Tries a mutant by all laws of its crate, in a copy of its own. So it is where a definition builds a value of a type of the program
    that holds one which contracts see otherwise: only the crate's own modules can, and no set beside them."""
    laws = [f"{law}/{name}" for law in copy.laws for name in re.findall(r"^pub fn (\w+)", copy.files[f"src/{law}.rt"], re.M)]
    with tempfile.TemporaryDirectory(prefix="definitions-") as room:
        copy.write(room, [])
        for path, text in mutant.texts.items():
            with open(f"{room}/{path}", "w", encoding="utf-8") as it:
                it.write(text)
        said = said_of(rt, copy.crate, room, laws, kept)
    unread = re.search(r"^(?:\./)?specs/\S*\.antt:\d+:\d+: error.*", said, re.M)
    found = [it for law in copy.laws for it in re.findall(rf"^fn \w+::({law.replace('/', '::')}::\w+): (.*)", said, re.M)]
    if unread or not found:
        return Tried(mutant, [], f"{UNREAD}: {(unread[0] if unread else said.rstrip())[-300:]}")
    return Tried(mutant, [it.rpartition("::")[2] for it, outcome in found if outcome != "proved"])


class Batches:
    """Tries mutants of crates, so many at once, side by side: each lane keeps its own work of a crate from one batch to the next."""

    def __init__(self, rt, room, lanes):
        self.rt, self.room, self.pool, self.printing = rt, room, ThreadPoolExecutor(lanes), threading.Lock()
        self.progress, self.whole, self.done, self.began = Progress(), 0, 0, time.monotonic()

    def try_batch(self, crate, mutants):
        kept = f"{self.room}/{crate.name}-{threading.get_ident()}"
        os.makedirs(kept, exist_ok=True)
        began = time.monotonic()
        tried = try_some(self.rt, crate, mutants, kept)
        self.say(tried)
        return tried, time.monotonic() - began

    def say(self, tried):
        with self.printing:
            for it in tried:
                self.progress.say(f"{it.mutant.crate.name}/{it.mutant.name}: {it.word()}")
            self.done += len(tried)
            self.progress.show(f"{self.done} of {self.whole} tried, {clock(time.monotonic() - self.began)}")

    def begin(self, crate, names):
        """What is begun of the crate's mutants that have these names, or of all: those that can't be read, and the batches."""
        mutants = [it for it in mutants_of(self.rt, crate) if not names or it.name in names]
        good, bad = [it for it in mutants if not it.fault], [Tried(it, [], it.fault) for it in mutants if it.fault]
        self.whole += len(mutants)
        self.say(bad)
        return bad, [self.pool.submit(self.try_batch, crate, good[at : at + AT_ONCE]) for at in range(0, len(good), AT_ONCE)]

    def end(self, crate, bad, batches):
        """What became of the crate's mutants, with a line that counts them."""
        done = [it.result() for it in batches]
        tried = bad + [it for some, _seconds in done for it in some]
        if tried:
            self.say_count(crate, tried, sum(seconds for _some, seconds in done))
        return tried

    def say_count(self, crate, tried, seconds):
        with self.printing:
            self.progress.say(f"{crate.name}: {counted(tried)}, in {seconds:.0f} s of a lane")


def counted(tried):
    refused = sum(bool(it.refused_by) for it in tried)
    same = sum(it.is_well() and bool(it.mutant.same) for it in tried)
    bad = sum(bool(it.fault) for it in tried)
    return f"{len(tried)} tried, {refused} refused by a law, {same} the same in meaning, {len(tried) - refused - same - bad} survive, {bad} bad"


def write_page(rt, page, tried):
    """Writes the counts of the crates that were tried, and their mutants that mean the same, between the two marks."""
    before, _, rest = (rt.rtlib.text_of(page) or "").partition(BEGIN)
    old, is_there, after = rest.partition(END)
    if not is_there:
        print(f"{page} lacks the marks of the table of definitions, so it isn't written")
        return
    rows = {it.split(" | ")[0]: it for it in old.split("\n") if it.startswith(("| hx_", "| proxy_"))}
    for name, of_crate in tried.items():
        if of_crate:
            same = [f"`{it.mutant.name}`: {it.mutant.same}" for it in of_crate if it.is_well() and it.mutant.same]
            others = [f"`{it.mutant.name}` **survives**" for it in of_crate if not it.is_well()]
            refused = sum(bool(it.refused_by) for it in of_crate)
            rows[f"| {name}"] = f"| {name} | {len(of_crate)} | {refused} | {'<br>'.join(same + others)} |"
    head = "| Crate | Mutants | Refused by a law | The others |\n|---|---|---|---|"
    with open(page, "w", encoding="utf-8") as it:
        it.write(before + BEGIN + "\n\n" + "\n".join([head, *rows.values()]) + "\n\n" + END + after)


def main(rt, crates, names, page):
    """names: of mutants, where not all of these crates are to be tried; then the page stays as it is."""
    lanes = os.environ.get("RT_JOBS", "")
    with tempfile.TemporaryDirectory(prefix="definitions-kept-") as room:
        batches = Batches(rt, room, int(lanes) if lanes.isdigit() else rt.processors())
        begun = [(it, *batches.begin(it, names)) for it in crates]
        tried = {crate.name: batches.end(crate, bad, some) for crate, bad, some in begun}
        batches.progress.clear()
    if not names:
        write_page(rt, page, tried)
    every = [it for of_crate in tried.values() for it in of_crate]
    print(counted(every))
    wrong = [f"{it.mutant.crate.name}/{it.mutant.name}" for it in every if not it.is_well()]
    if wrong:
        print(f"to be mended: {' '.join(wrong)}")
    return 1 if wrong else 0
