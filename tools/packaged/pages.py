"""The manual pages, from the documents: what a page says is what they say. go-md2man writes the form that man reads."""
import re
import subprocess

LINK = re.compile(r"\[([^\]]+)\]\([^)]*\)")
OPTION = re.compile(r"^\s+(?:-\w, )?--([a-z][a-z-]*)(?: <\w+>)?(.*)$")
DEFAULT = re.compile(r"\[default: ([^\]]+)\]")
ROW = re.compile(r"^\| `--([a-z-]+)(?: \w+)?` \| ([^|]+) \|")


def section(text, title):
    """What stands below a heading, as far as the next one of its height."""
    lines = text.split("\n")
    at = next(i for i, line in enumerate(lines) if line.lstrip("#") == f" {title}" and line.startswith("#"))
    height = len(lines[at]) - len(lines[at].lstrip("#"))
    end = next((i for i in range(at + 1, len(lines)) if re.match(rf"#{{1,{height}}} ", lines[i])), len(lines))
    return "\n".join(lines[at + 1 : end]).strip("\n")


def cells(line):
    return [it.strip().replace("\0", "|") for it in line.replace("\\|", "\0").strip().strip("|").split("|")]


def without_tables(text):
    """Each row of a table as a word and what is said of it: a terminal has no room for tables."""
    out, heads = [], None
    for line in text.split("\n"):
        if not line.startswith("|"):
            heads = None
            out.append(line)
        elif heads is None:
            heads = cells(line)
        elif set(line) - set("|- :"):
            out.append(said(heads, *cells(line)))
    return "\n".join(out)


def said(heads, first, *rest):
    if heads[0] == "Option":
        default, values, bounds = rest
        return f"{first}\n: {bounds}. {values and f'{values}. '}Default: {default}.\n"
    named = [f"{name}: {it}" if name else it for name, it in zip(heads[1:], rest) if it]
    return f"{f'{heads[0]} ' if heads[0] == 'No' else ''}{first or 'nothing'}\n: {'. '.join(named)}.\n"


def plain(text):
    """Without links, without lists of contents, and without tables."""
    kept = [line for line in text.split("\n") if not re.match(r"^- .*\]\(#", line)]
    return LINK.sub(r"\1", without_tables("\n".join(kept)))


def roff(text):
    """What man reads, of a page in Markdown."""
    ran = subprocess.run(["go-md2man"], input=text, capture_output=True, text=True, check=True, timeout=60)
    return ran.stdout


def program_page(operations, version, date):
    """revcache(1): its forms, its options, its faults and exit statuses."""
    server = section(operations, "The server").split("\nTo try the server")[0]
    forms, _, rest = server.partition("\nFILE is the table.")
    parts = [
        f'% revcache 1 "{date}" "revcache {version}" "User Commands"',
        "# NAME", "revcache - caching reverse proxy for HTTP/1.1 that names the reason of every answer",
        "# SYNOPSIS", forms,
        "# DESCRIPTION", plain(f"FILE is the table.{rest}"),
        "# DRAINING", plain(section(operations, "To drain")),
        "# EXIT STATUS", plain(section(operations, "Faults and exit statuses")),
        "# FILES", "/etc/revcache/table.toml: the operator's table, revcache-table(5).",
        "/usr/share/doc/revcache: the documents for operators, and files for nginx, haproxy, Prometheus and Grafana.",
        "/var/log/revcache/access.log, /run/revcache/revcache.prom: the unit's log and figures.",
        "# SEE ALSO", "revcache-table(5), revcache-report(1), revcache-why(1), revcache-warm(1), nginx(8), haproxy(1), systemctl(1)",
    ]  # fmt: skip
    return roff("\n\n".join(parts) + "\n")


def table_page(table, words, version, date):
    """revcache-table(5): the operator's table, and the words of a line of version 3."""
    head = [f'% revcache-table 5 "{date}" "revcache {version}" "File Formats"', "# NAME", "revcache-table - the operator's table of revcache(1)"]
    head += ["# DESCRIPTION", "/etc/revcache/table.toml is one file in TOML. It says which requests go to which origin, and what is denied."]
    parts = [f"# {it.upper()}\n\n{plain(section(table, it))}" for it in ("The table", "Spellings that pass a denial", "Lines without cache")]
    parts = [it.replace("LINE_OPTIONS.md", '"Words of version 3"') for it in parts]
    begin, *sections = re.split(r"^## ", words, flags=re.M)
    of_words = begin.partition("\n\n")[2].partition("For operators")[2].partition(". ")[2]
    parts += [f"# WORDS OF VERSION 3\n\n{plain(of_words)}", *(f"## {plain(it)}" for it in sections)]
    return roff("\n\n".join([*head, *parts, "# SEE ALSO", "revcache(1)"]) + "\n")


def tool_page(name, text, version, date):
    """A page of a tool, by what its --help says: its usage, what it is, and its options."""
    usage, said, *groups = re.split(r"\n\n(?=\S)", f"{text.strip()}\n")
    at = next(i for i, it in enumerate(groups) if re.match(r"(positional arguments|options):\n", it))
    what = " ".join(said.split())
    what = what[what.index(": ") + 2 :].partition(". ")[0].rstrip(".")
    forms = " ".join(usage.removeprefix("usage:").split())
    parts = [
        f'% {name} 1 "{date}" "revcache {version}" "User Commands"',
        "# NAME", f"{name} - {what}",
        "# SYNOPSIS", f"**{forms}**",
        "# DESCRIPTION", *(escaped(it) for it in [said, *groups[:at]]),
        "# OPTIONS", *(options(it) for it in groups[at:]),
        "# SEE ALSO", "revcache(1), revcache-table(5)",
    ]  # fmt: skip
    return roff("\n\n".join(parts) + "\n")


def escaped(text):
    """A paragraph of --help: one that is indented stays as it is, of another words in signs stay words."""
    return text if text.startswith("    ") else re.sub(r"([*_<>\[\]])", r"\\\1", text)


def options(text):
    """Words and options of --help, each with what is said of it."""
    out = []
    for line in text.split("\n")[1:]:
        if found := re.match(r"  (\S(?:\S| (?! ))*)(?:  +(.*))?$", line):
            out.append([found[1], found[2] or ""])
        elif out:
            out[-1][1] += f" {line.strip()}"
    return "\n".join(f"`{name}`\n: {escaped(' '.join(said.split()) or 'what it is about, above')}\n" for name, said in out)


def options_of_help(text):
    """The options that `serve --help` names, each with its default."""
    found, last = {}, None
    for line in text.split("\n"):
        if named := OPTION.match(line):
            last = named[1]
            found[last] = None
        if last and (default := DEFAULT.search(line)):
            found[last] = default[1]
    found.pop("help", None)
    return found


def options_of_table(operations):
    """The options that the table of OPERATIONS names, each with its default."""
    rows = [it for it in map(ROW.match, operations.split("\n")) if it]
    return {it[1]: None if it[2].startswith("none") else it[2] for it in rows}
