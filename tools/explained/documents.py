"""The tables and paragraphs of docs/*.md. A table is found by the heads of its columns, so it may move elsewhere."""
import glob
import os
import re

CODE = re.compile(r"`+[^`]*`+")
# A line of an index says nothing but where something is said.
OF_INDEX = re.compile(r" *- (?:\[.+\]\(#\S+\)|\*\*[^*]+\*\*)")


def cells_of(line):
    """The cells of a row: bars inside code, or behind a backslash, cut nothing."""
    hidden = CODE.sub(lambda it: it[0].replace("|", "\0"), line.strip()).replace("\\|", "\0")
    return [it.strip().replace("\0", "|") for it in hidden.strip("|").split("|")]


class Table:
    def __init__(self, page, section, heads):
        self.page, self.section, self.heads, self.rows = page, section, heads, []

    def place(self):
        return f'{self.page}, "{plain(self.section)}"'


class Documents:
    """What stands in the pages of a folder: tables, and paragraphs, each with its page and section."""

    def __init__(self, folder):
        self.tables, self.paragraphs = [], []
        for path in sorted(glob.glob(f"{folder}/*.md")):
            with open(path, encoding="utf-8") as it:
                self.read(f"docs/{os.path.basename(path)}", it.read().split("\n"))

    def read(self, page, lines):
        section, table, text = "", None, []
        for at, line in enumerate([*lines, ""]):
            is_row = line.startswith("|")
            if is_row and table is None and at + 1 < len(lines) and re.fullmatch(r"\|[-:| ]+\|", lines[at + 1].strip()):
                table = Table(page, section, cells_of(line))
                self.tables.append(table)
            elif is_row and table and not re.fullmatch(r"\|[-:| ]+\|", line.strip()):
                table.rows.append(dict(zip(table.heads, cells_of(line))))
            elif not is_row:
                table = None
            is_index = OF_INDEX.fullmatch(line)
            is_end = not line.strip() or is_row or is_index or line.startswith(("#", "- "))
            if is_end and text:
                self.paragraphs.append((page, section, " ".join(text)))
                text = []
            if line.startswith("#"):
                section = line.lstrip("# ")
            elif line.strip() and not is_row and not is_index:
                text.append(line.strip())

    def with_heads(self, *heads, without=()):
        """The tables that have these columns, and none of the others."""
        return [it for it in self.tables if set(heads) <= set(it.heads) and not set(without) & set(it.heads)]

    def row(self, is_one, *heads, without=()):
        """The first row for which it is so, with its table; nothing where there is none."""
        for table in self.with_heads(*heads, without=without):
            for row in table.rows:
                if is_one(row):
                    return table, row
        return None, {}

    def said_of(self, words):
        """Where these words stand as code, in paragraphs and in rows of tables: names and texts, and the place."""
        code = re.compile(rf"`[^`]*(?<![\w-]){re.escape(words)}(?![\w-])[^`]*`")
        for page, section, text in self.paragraphs:
            if code.search(text):
                yield [("says", text)], f'{page}, "{plain(section)}"'
        for table in self.tables:
            for row in table.rows:
                if any(code.search(it) for it in row.values()):
                    yield [(head or "what", cell) for head, cell in row.items()], table.place()


def plain(text):
    """A heading without the folder that it names."""
    return re.sub(r" \(`[^)]*\)$", "", text)


def codes_in(cell):
    """What stands as code in a cell."""
    return [it.strip("`") for it in CODE.findall(cell)]


# In the cells of a column that says which section of which RFC.
PART = re.compile(r"(\d{4}), ((?:\d+(?:\.\d+)*)(?:(?:, and |, | and )\d+(?:\.\d+)*(?!\d))*)")


def sections_of(cell):
    """(RFC, section) of each that a cell names, as in `9111, 5.2.2.2, 5.2.2.8; own`."""
    found = []
    for part in cell.split(";"):
        for rfc, numbers in PART.findall(part):
            found += [(rfc, it) for it in re.findall(r"\d+(?:\.\d+)*", numbers)]
    return found
