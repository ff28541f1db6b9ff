"""What is to be said of one rule, fault, refusal or parameter: its rows in docs/, and where it is defined."""
import re

from explained.documents import codes_in, plain, sections_of

PLAIN, CHANGE = "In plain words", "What can be changed"
# Who can change something, as a part of an entry, and as the cells of that column begin.
CHANGERS = {"Origin", "Client", "Operator", "to do"}
# How the row of a response is named that was stored when its lifetime was over.
BORN_OLD = "ttl=-N;stored"
# How the row of a purge is named.
PURGED = "Purged: N"
WHO = re.compile(r"(?:^|(?<=[.;] ))(Origin|Client|Operator|Nothing)(?=[:,.])")


class Entry:
    """A title and parts, each a name and a text. `key` tells it from others."""

    def __init__(self, key, title, parts):
        self.key, self.title, self.parts = key, title, [(name, text) for name, text in parts if text]


def changes_of(cell):
    """Who can change what, one by one; what isn't somebody's stands under "to do"."""
    marks = [it.start() for it in WHO.finditer(cell)]
    if not marks:
        return [("to do", cell)]
    pieces = [cell[a:b].strip() for a, b in zip(marks, [*marks[1:], len(cell)])]
    return [
        ("to do", it) if it.startswith("Nothing") else tuple(one.strip() for one in it.split(":", 1)) for it in pieces
    ]


def link_of(cell):
    """The sections that a cell names, in words."""
    parts = [f"RFC {rfc}, section {section}" for rfc, section in sections_of(cell)]
    if re.search(r"\bown\b", cell):
        parts.append("own: a choice of this project (docs/DECISIONS.md)")
    return "; ".join(parts)


class Words:
    """The words for everything that the program can write."""

    def __init__(self, documents, sources):
        self.documents, self.sources = documents, sources

    def parts(self, rows, defined):
        """Of a rule's row and its row of plain words."""
        (table, row), more = rows, row_of_words(rows, self.documents)
        where = row.get("Applies if")
        yield PLAIN.lower(), more.get(PLAIN)
        yield "stands where", where
        yield from changes_of(more[CHANGE]) if more.get(CHANGE) else ()
        yield "standard", link_of(row.get("RFC") or more.get("RFC", ""))
        yield "defined in", "; ".join(it for it in (defined, table and table.place()) if it)

    def reuse(self, name):
        """A reuse rule, by its name."""
        rows = self.documents.row(lambda it: it["Rule"] == name, "Rule", "Applies if", "fwd", "detail")
        reason, detail = (self.sources.texts(it, "ReuseRule")[name] for it in ("reuse_rule_reason", "reuse_rule_detail"))
        number = self.sources.numbers("reuse_rule_number", "ReuseRule")[name]
        title = f"fwd={reason}{f';detail={detail}' if detail else ''}: rule {number} of reuse, {name}"
        return Entry(
            f"reuse-{number}",
            title,
            self.parts(rows, self.sources.definition("ReuseRule", name, ["reuse_rule_condition", "reuse_rule_applies"])),
        )

    def storing(self, name):
        rows = self.documents.row(lambda it: it["Rule"] == name, "Rule", "Applies if", "RFC", without=["fwd", "Word"])
        number = self.sources.numbers("storing_rule_number", "StoreRule")[name]
        return Entry(
            f"storing-{number}",
            f"rule {number} of storing, {name}",
            self.parts(rows, self.sources.definition("StoreRule", name, ["storing_rule_applies"])),
        )

    def error(self, name):
        rows = self.documents.row(lambda it: it["Rule"] == name, "Rule", "Applies if", "Word", "RFC")
        number, word = (
            self.sources.numbers("error_rule_number", "ErrorRule")[name],
            self.sources.texts("error_rule_word", "ErrorRule")[name],
        )
        defined = self.sources.definition("ErrorRule", name, ["error_rule_condition"])
        return Entry(
            f"error-{number}", f"stale-if-error={word}: rule {number} after an error, {name}", self.parts(rows, defined)
        )

    def message(self, name):
        """A fault of a message."""
        rows = self.documents.row(lambda it: it["Fault"] == name, "Fault", "Applies if", "Answer to a client")
        word = self.sources.texts("frame_fault_word", "FrameFault")[name]
        return Entry(
            f"message-{word}",
            f"refused: {word}: fault {rows[1].get('No')} of messages, {name}",
            self.parts(rows, self.place(rows[0])),
        )

    def target(self, name):
        rows = self.documents.row(lambda it: it["Fault"] == name, "Fault", "Applies if", "RFC", "Answer")
        word = self.sources.texts("target_fault_word", "TargetFault")[name]
        defined = self.sources.definition("TargetFault", name, ["target_fault_applies"])
        return Entry(
            f"target-{word}",
            f"refused: {word}: fault {rows[1].get('No')} of targets, {name}",
            self.parts(rows, defined),
        )

    def place(self, table):
        """The folder that the heading of a table names."""
        found = re.search(r"`(crates/[^`]*)`", table.section) if table else None
        return found[1] if found else None

    def of_table(self, key, title, column, name, defined, more=()):
        """What has a row of plain words alone."""
        table, row = self.documents.row(lambda it: it[column].strip("`") == name, column, PLAIN, CHANGE)
        parts = [(PLAIN.lower(), row.get(PLAIN)), *more, *(changes_of(row[CHANGE]) if row.get(CHANGE) else ())]
        parts.append(("standard", link_of(row.get("RFC", ""))))
        return Entry(
            key, title, [*parts, ("defined in", "; ".join(it for it in (defined, table and table.place()) if it))]
        )

    def kind(self, name):
        """How an origin failed."""
        word = self.sources.texts("fail_kind_word", "FailKind")[name]
        defined = self.sources.definition("FailKind", name, ["fail_kind_word"])
        return self.of_table(f"origin-{word}", f"origin {word}: the origin failed", "KIND", word, defined)

    def cause(self, name):
        """A refusal."""
        word = NAMES_OF_CAUSES[name]
        refusal = self.documents.row(
            lambda it: any(one.startswith(word) for one in codes_in(it["Refusal"])), "Status", "Refusal", "Why"
        )[1]
        more = [("status", refusal.get("Status")), ("why", refusal.get("Why"))]
        defined = self.sources.definition("Cause", name, ["refusal_text"])
        return self.of_table(f"refusal-{name.lower()}", word, "Refusal", word, defined, more)

    def detail(self, name):
        """What is said where a stored response was sent after all."""
        word = self.sources.texts("detail_word", "Detail")[name]
        defined = self.sources.definition("Detail", name, ["detail_word"])
        return self.of_table(
            f"detail-{word}", f"detail={word}", "Detail", word, defined, [("in a log", self.log_words(word))]
        )

    def purged(self):
        """What is said of a purge."""
        defined = self.sources.place("fields_of_purge")
        return self.of_table("purged", PURGED, "Detail", PURGED, defined)

    def born_old(self):
        """What is said where a response was stored whose lifetime was over by then."""
        defined = self.sources.place("ttl_of_passed_answer")
        return self.of_table("detail-born-old", "ttl below 0 beside stored: born old", "Detail", BORN_OLD, defined)

    def left(self, name):
        """Why a request was never answered."""
        word = self.sources.texts("unanswered_name", "UnansweredCause")[name]
        defined = self.sources.definition("UnansweredCause", name, ["unanswered_name"])
        return self.of_table(f"left-{word}", f"left;cause={word}: no answer was sent", "Left", word, defined)

    def log_words(self, word):
        """What a log reader sees, of a parameter or a detail."""
        found = self.documents.row(
            lambda it: any(names(one, word) for one in codes_in(it["Words"])), "Words", "The proxy"
        )[1]
        return found.get("The proxy")

    def parameter(self, word, value=None):
        """A parameter of Cache-Status; what the proxy did may hang on its value."""
        rows = self.documents.row(
            lambda it: any(names(one, word) for one in codes_in(it["Parameter"])), "Parameter", "Where", "RFC"
        )
        table, row = rows
        parts = [
            ("the proxy", value and self.log_words(f"{word}={value}") or self.log_words(word)),
            ("where", row.get("Where")),
            ("standard", link_of(row.get("RFC", ""))),
        ]
        defined = self.sources.files["hit_or_forward_text", "How"]
        return Entry(f"parameter-{word}", word, [*parts, ("defined in", table and f"{defined}; {table.place()}")])


# How the rows of refusals are named.
NAMES_OF_CAUSES = {
    "Denied": "denied by line N",
    "NoLine": "no line allows it",
    "Looped": "loop refused by line N",
    "OnlyIfCached": "only-if-cached",
    "Origin": "origin",
}
NAMES_OF_CAUSES |= {"Frame": "refused", "Target": "refused"}


def row_of_words(rows, documents):
    """The row of plain words that stands under the same heading as a rule's row, perhaps on another page."""
    table, row = rows
    if not table:
        return {}
    column = "Rule" if "Rule" in table.heads else "Fault"
    for it in documents.with_heads(column, PLAIN, CHANGE):
        if plain(it.section) == plain(table.section):
            return next((one for one in it.rows if one[column] == row[column]), {})
    return {}


def names(code, word):
    """Whether a cell's code names a parameter or a detail: `;fwd-status=N` names fwd-status, and `vary-miss` itself."""
    return any(word in (it, it.partition("=")[0], it.partition("=")[2]) for it in code.strip(";").split(";"))
