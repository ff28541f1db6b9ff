"""The Debian package of tools/package: held to lintian, installed, upgraded, removed and purged in a root of its own, and its pages."""
import fnmatch
import gzip
import os
import re
import shutil
import subprocess

from deployed.stand import DEPLOY, need, part
from deployed.unit import analyze
from deployed.whys import SAID
from live.expect import Skipped, Unexpected, expect
from live.memory_bounds import told_of_store
from packaged.pages import options_of_help, options_of_table

ROOT = os.path.dirname(DEPLOY)
FIRST, NEXT = "0.2.0", "0.2.1"
BY = "An Operator <operator@revcache.org>"
TABLE, ROTATED = "etc/revcache/table.toml", "etc/logrotate.d/revcache"
TOOLS = ["report", "why", "warm"]


@part
def package(stand):
    need("dpkg", "dpkg-deb", "dpkg-shlibdeps", "strip", "go-md2man", "lintian", "man", "systemd-analyze")
    if os.geteuid():
        raise Skipped("dpkg --root is root's")
    first, later = (built(stand, it) for it in (FIRST, NEXT))
    yield "lintian_has_no_error", lambda: lintian_has_no_error(first)
    yield "its_program_names_its_commit", lambda: its_program_names_its_commit(stand, first)
    yield "man_reads_the_pages", lambda: man_reads_the_pages(stand, first)
    yield "systemd_reads_its_units", lambda: systemd_reads_its_units(stand, first)
    yield "the_pages_have_what_help_has", lambda: the_pages_have_what_help_has(stand, first)
    yield "the_tables_page_has_each_word", lambda: the_tables_page_has_each_word(stand, first)
    yield "its_tools_say_what_those_here_say", lambda: its_tools_say_what_those_here_say(stand, first)
    yield "its_log_is_rotated", lambda: its_log_is_rotated(stand, first)
    yield "an_upgrade_restarts_the_second_cache_first", lambda: an_upgrade_restarts_the_second_cache_first(stand)
    yield "it_is_installed_upgraded_removed_and_purged", lambda: it_is_installed_upgraded_removed_and_purged(stand, first, later)
    yield "a_table_of_the_operator_stays", lambda: a_table_of_the_operator_stays(stand, first, later)
    yield "what_was_written_goes_by_a_purge", lambda: what_was_written_goes_by_a_purge(stand, first)


def run(*words, **more):
    ran = subprocess.run(words, stdin=subprocess.DEVNULL, capture_output=True, text=True, timeout=120, **more)
    if ran.returncode:
        raise Unexpected(f"from {' '.join(words[:3])}", "status 0", (ran.returncode, ran.stdout[-400:], ran.stderr[-400:]))
    return ran.stdout


def built(stand, version):
    words = [f"{ROOT}/tools/package", "--program", stand.program, "--into", stand.folder, "--version", version, "--maintainer", BY]
    return run(*words).strip()


def lintian_has_no_error(path):
    said = run("lintian", "--allow-root", "--fail-on", "error", "--tag-display-limit", "0", path)
    return f"{len([it for it in said.splitlines() if it.startswith('W:')])} warnings"


def unpacked(stand, path, name):
    run("dpkg-deb", "--extract", path, f"{stand.folder}/{name}")
    return f"{stand.folder}/{name}"


def its_program_names_its_commit(stand, path):
    """That of the package; the program that was packed doesn't."""
    commit = run("git", "-C", ROOT, "rev-parse", "HEAD").strip()
    program = f"{unpacked(stand, path, 'program')}/usr/bin/revcache"
    expect("of the program in the package", f"revcache 0.2.0 ({commit})\n", run(program, "--version"))
    expect("of the program that was packed", "revcache 0.2.0\n", run(stand.program, "--version"))


def man_reads_the_pages(stand, path):
    """Without a warning, and each of them has its name as `whatis` wants it."""
    tree = unpacked(stand, path, "pages")
    for it in ("man1/revcache.1.gz", "man5/revcache-table.5.gz", *(f"man1/revcache-{tool}.1.gz" for tool in TOOLS)):
        ran = subprocess.run(["man", "--warnings", "-l", f"{tree}/usr/share/man/{it}"], capture_output=True, text=True, timeout=60)
        expect(f"from man {it} status and warnings", (0, ""), (ran.returncode, ran.stderr))
        expect(f"a line of NAME in {it}", True, re.search(r"NAME\n +revcache[a-z-]* +- ", ran.stdout) is not None)


def systemd_reads_its_units(stand, path):
    """As installed, but for the program's path: `systemd-analyze verify` has nothing to say of the unit, and of one of the template."""
    tree = unpacked(stand, path, "units")
    for name, as_name in (("revcache.service", "revcache.service"), ("revcache@.service", "revcache@8101.service"), ("revcache.socket", "revcache.socket"), ("revcache-records.service", "revcache-records.service")):
        with open(f"{tree}/lib/systemd/system/{name}", encoding="utf-8") as it:
            text = it.read().replace("/usr/bin/revcache-records", f"{tree}/usr/bin/revcache-records").replace("/usr/bin/revcache ", f"{stand.program} ")
        status, out, err = analyze("verify", "--man=no", stand.file(as_name, text))
        said = [line for line in (out + err).splitlines() if "revcache" in line]
        expect(f"from systemd-analyze verify {as_name} status and lines", (0, []), (status, said))


def the_pages_have_what_help_has(stand, path):
    """Each option of `serve --help` with its default stands in docs/OPERATIONS.md, and so in revcache(1), and no other."""
    said = run(stand.program, "serve", "--help")
    with open(f"{ROOT}/docs/OPERATIONS.md", encoding="utf-8") as it:
        expect("options and defaults of OPERATIONS", options_of_help(said), options_of_table(it.read()))
    with gzip.open(f"{unpacked(stand, path, 'help')}/usr/share/man/man1/revcache.1.gz", "rt") as it:
        named = set(re.findall(r"^\\fB\\fC--([a-z-]+)", it.read(), re.M))
    expect("options of revcache(1)", set(options_of_help(said)), named)
    return f"{len(named)} options"


def page_of(tree, name):
    """A manual page as it is read."""
    ran = subprocess.run(["man", "-l", f"{tree}/usr/share/man/{name}"], capture_output=True, text=True, timeout=60, env={**os.environ, "MANWIDTH": "1000"})
    return re.sub(r".\x08", "", ran.stdout)


def the_tables_page_has_each_word(stand, path):
    """Each word that a line of version 3 may have, by its definition, with its values, and a section of its own."""
    with open(f"{ROOT}/crates/hx_allow/specs/Rows.antt", encoding="utf-8") as it:
        words = {row[1]: re.findall(r'codes "([^"]+)"', row[0])[1:] for row in re.finditer(r'^word_row \w+ = \w+ \(codes "([^"]+)"\).*', it.read(), re.M)}
    page = page_of(unpacked(stand, path, "words"), "man5/revcache-table.5.gz")
    expect("words without a section of their own", [], [it for it in words if not re.search(rf"^ *{it}$", page, re.M)])
    shown = {word: " ".join(re.findall(rf"^ *{word} += +.*$", page, re.M)) for word in words}
    values = [(word, value) for word, values in words.items() for value in values[1:]]
    expect("values that aren't shown", [], [(word, value) for word, value in values if f'"{value}"' not in shown[word]])
    expect("a section on which line's words count", True, "Which line's words count" in page)
    return f"{len(words)} words"


def its_tools_say_what_those_here_say(stand, path):
    """The same of logs and of texts, but for their own names; each option of --help stands in its page. They need nothing
    of the repository: they are run from a copy of the package, in another folder."""
    tree, renamed = unpacked(stand, path, "tools"), lambda text: re.sub(rf"tools/({'|'.join(TOOLS)})\b", r"revcache-\1", text)
    for it in ("by_hand.log", "by_hand_timed.log", "by_hand_asked.log"):
        log = f"{ROOT}/tools/deployed/{it}"
        expect(f"of revcache-report {it}", renamed(run(f"{ROOT}/tools/report", log)), run(f"{tree}/usr/bin/revcache-report", log, cwd="/"))
        expect(f"of revcache-warm --list {it}", run(f"{ROOT}/tools/warm", log, "--list"), run(f"{tree}/usr/bin/revcache-warm", log, "--list", cwd="/"))
    for text, _ in SAID:
        expect(f"of revcache-why {text}", renamed(run(f"{ROOT}/tools/why", text)), run(f"{tree}/usr/bin/revcache-why", text, cwd="/"))
    run(f"{tree}/usr/bin/revcache-why", "--self-test", cwd="/")
    run(f"{tree}/usr/bin/revcache-report", f"{ROOT}/tools/deployed/by_hand.log", "--html", f"{stand.folder}/installed.html", cwd="/")
    with open(f"{stand.folder}/installed.html", encoding="utf-8") as it:
        expect("words for the reasons in the page", True, "What the reasons mean" in it.read())
    for it in TOOLS:
        page, said = page_of(tree, f"man1/revcache-{it}.1.gz"), run(f"{tree}/usr/bin/revcache-{it}", "--help")
        options = set(re.findall(r"^  (?:-h, )?(--[a-z-]+)", said, re.M))
        expect(f"options of revcache-{it} that its page lacks", set(), {one for one in options if not re.search(rf"^ +(?:-h, )?{one}\b", page, re.M)})
    expect("files of the package that name what isn't installed", [], list(unnamed(tree)))
    return f"{len(SAID)} texts"


def unnamed(tree):
    """Where the documents that go with the package name a tool as it is called in the repository, or a file of deploy/ another
    path of the program."""
    share = f"{tree}/usr/share"
    for words in (["-E", rf"tools/({'|'.join(TOOLS)})\b", f"{share}/revcache/docs", f"{share}/revcache/tools"], ["-F", "/usr/local/bin/revcache", f"{share}/doc/revcache/deploy"]):
        yield from subprocess.run(["grep", "-rl", *words], capture_output=True, text=True, timeout=60).stdout.split()


def its_log_is_rotated(stand, path):
    """The unit's log is one that the file for logrotate names, of the unit and of one of several; where it is there, logrotate reads it."""
    tree = unpacked(stand, path, "rotated")
    with open(f"{tree}/etc/logrotate.d/revcache", encoding="ascii") as it:
        text = it.read()
    patterns = re.search(r"^(/.*) \{$", text, re.M)[1].split()
    for name, as_name in (("revcache.service", "revcache"), ("revcache@.service", "revcache@8101")):
        with open(f"{tree}/lib/systemd/system/{name}", encoding="utf-8") as it:
            logs = re.findall(r"^ExecStart=.* --log (\S+) --stats (\S+) ", it.read(), re.M)
        log, stats = (it.replace("%L", "/var/log").replace("%t", "/run").replace("%N", as_name) for it in logs[0])
        expect(f"of {name} its log among those that are rotated", True, any(fnmatch.fnmatchcase(log, it) for it in patterns))
        expect(f"of {name} the folder of its figures", f"/run/{as_name}", os.path.dirname(stats))
    if not shutil.which("logrotate"):
        return "logrotate isn't here"
    file, log = stand.file("rotate", re.sub(r"^/.* \{$", f"{stand.folder}/access.log {{", text, flags=re.M)), stand.file("access.log", "a line\n")
    os.chmod(file, 0o644)
    run("logrotate", "--force", "--state", f"{stand.folder}/state", file)
    expect("the log once it is rotated", (False, True), (os.path.exists(log), os.path.exists(f"{log}.1")))


# What stands in for systemd: which units run, in the order in which systemctl lists them; what is done is written down.
STAND_INS = {
    "systemctl": 'echo "systemctl $*" >> "$DONE"\ncase "$*" in\n'
    "*list-units*'revcache@*.service'*) echo 'revcache@8101.service x'; echo 'revcache@8180.service x' ;;\n"
    "*list-units*revcache.service*) echo 'revcache.service x' ;;\nesac\n",
    "deb-systemd-invoke": 'echo "$*" >> "$DONE"\n',
}


def an_upgrade_restarts_the_second_cache_first(stand):
    """The one that stands in for revcache.service has to have the new program and an empty store when it does."""
    with open(f"{ROOT}/tools/packaged/debian/postinst", encoding="utf-8") as it:
        script = stand.file("postinst", it.read().replace("/run/systemd/system", stand.folder))
    for name, text in STAND_INS.items():
        os.chmod(stand.file(name, f"#!/bin/sh\n{text}"), 0o755)
    for words, wanted in ((("configure", "0.2.0"), ["restart revcache@8101.service", "restart revcache@8180.service", "restart revcache.service"]), (("configure", ""), [])):
        done = stand.file("done", "")
        env = {**os.environ, "PATH": f"{stand.folder}:{os.environ['PATH']}", "DONE": done}
        env.pop("DPKG_ROOT", None)
        run("sh", script, *words, env=env)
        with open(done, encoding="utf-8") as it:
            expect(f"of {words} what is restarted", wanted, [line for line in it.read().splitlines() if line.startswith("restart")])


class Scratch:
    """A root of its own, in which nothing else is installed."""

    def __init__(self, stand, name):
        self.root = f"{stand.folder}/{name}"
        os.makedirs(f"{self.root}/var/lib/dpkg/updates")
        os.makedirs(f"{self.root}/var/lib/dpkg/info")
        for it in ("status", "available"):
            with open(f"{self.root}/var/lib/dpkg/{it}", "w", encoding="ascii"):
                pass

    def dpkg(self, *words):
        """(Its scripts run outside of the root, with its path in DPKG_ROOT; what it depends on isn't there.)"""
        how = ["--force-depends", "--force-script-chrootless", "--force-confold", "--force-confdef"]
        return run("dpkg", f"--root={self.root}", f"--log={self.root}/log", *how, *words)

    def state(self):
        """Of the package: what is wanted, its state, its version."""
        words = ["dpkg-query", f"--admindir={self.root}/var/lib/dpkg", "-W", "-f", "${db:Status-Abbrev}${Version}", "revcache"]
        ran = subprocess.run(words, capture_output=True, text=True, timeout=60)
        return tuple(ran.stdout.split()) if ran.returncode == 0 else None

    def files(self):
        """The files and links that stand in the root, but for dpkg's own."""
        found = {os.path.relpath(f"{at}/{it}", self.root) for at, _, names in os.walk(self.root) for it in names}
        return {it for it in found if not it.startswith("var/lib/dpkg") and it != "log"}

    def write(self, name, text):
        os.makedirs(os.path.dirname(f"{self.root}/{name}"), exist_ok=True)
        with open(f"{self.root}/{name}", "w", encoding="utf-8") as it:
            it.write(text)

    def text(self, name):
        with open(f"{self.root}/{name}", encoding="utf-8") as it:
            return it.read()


def it_is_installed_upgraded_removed_and_purged(stand, first, later):
    """The program runs where it was installed and accepts the table that came with it; a removal keeps the table alone, and a purge nothing."""
    scratch = Scratch(stand, "whole")
    scratch.dpkg("--install", first)
    expect("the state", ("ii", FIRST), scratch.state())
    expect("from revcache check of the installed table", f"ok 3 lines\n{told_of_store(1000, 100000)}", run(f"{scratch.root}/usr/bin/revcache", "check", f"{scratch.root}/{TABLE}"))
    for it in ("revcache.service", "revcache@.service"):
        expect(f"the program of {it}", True, "ExecStart=/usr/bin/revcache serve /etc/revcache/table.toml" in scratch.text(f"lib/systemd/system/{it}"))
    expect("the program of socket.conf", True, "ExecStart=/usr/bin/revcache serve /etc/revcache/table.toml --listen fd:3 " in scratch.text("usr/share/revcache/socket.conf"))
    scratch.dpkg("--install", later)
    expect("the state behind an upgrade", ("ii", NEXT), scratch.state())
    scratch.dpkg("--remove", "revcache")
    expect("what a removal leaves", {TABLE, ROTATED}, scratch.files())
    scratch.dpkg("--purge", "revcache")
    expect("what a purge leaves", (set(), None, False), (scratch.files(), scratch.state(), os.path.exists(f"{scratch.root}/etc/revcache")))


def a_table_of_the_operator_stays(stand, first, later):
    """An upgrade doesn't write over it; where the next package has another table to start from, that one is put beside."""
    scratch, own = Scratch(stand, "own"), "# mine\n"
    scratch.dpkg("--install", first)
    scratch.write(TABLE, own)
    scratch.dpkg("--install", later)
    expect("the table behind an upgrade", own, scratch.text(TABLE))
    tree = f"{stand.folder}/other"
    run("dpkg-deb", "--raw-extract", later, tree)
    for name, old, new in ((TABLE, 'name = "edge"', 'name = "other"'), ("DEBIAN/control", f"Version: {NEXT}", "Version: 0.2.2")):
        with open(f"{tree}/{name}", encoding="utf-8") as it:
            text = it.read()
        with open(f"{tree}/{name}", "w", encoding="utf-8") as it:
            it.write(text.replace(old, new))
    run("dpkg-deb", "--root-owner-group", "--build", tree, f"{stand.folder}/other.deb")
    scratch.dpkg("--install", f"{stand.folder}/other.deb")
    expect("the table behind another", own, scratch.text(TABLE))
    expect("the new one beside it", True, 'name = "other"' in scratch.text(f"{TABLE}.dpkg-dist"))


def what_was_written_goes_by_a_purge(stand, first):
    """Logs and records, of one and of several, and the links of units that were enabled; not what is the operator's own in the folder."""
    scratch = Scratch(stand, "purged")
    scratch.dpkg("--install", first)
    written = ["var/log/private/revcache/access.log", "var/lib/private/revcache@8101/incident.1"]
    written += ["etc/systemd/system/multi-user.target.wants/revcache@8101.service"]
    for it in [*written, "etc/revcache/front.key"]:
        scratch.write(it, "x")
    scratch.dpkg("--remove", "revcache")
    expect("what a removal leaves", {TABLE, ROTATED, "etc/revcache/front.key", *written}, scratch.files())
    scratch.dpkg("--purge", "revcache")
    expect("what a purge leaves", {"etc/revcache/front.key"}, scratch.files())
