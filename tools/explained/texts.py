"""Which rule, fault or refusal a text names."""
import difflib
import itertools
import re

from explained.documents import codes_in
from explained.entries import CHANGERS, NAMES_OF_CAUSES, Entry

# What stands in front of the word of a storing rule.
NOT_STORED = "not-stored-"
# Of the places that only mention a text so many are shown.
MOST_PLACES = 3


class Texts:
    def __init__(self, words):
        self.words, self.sources, self.documents = words, words.sources, words.documents
        self.by_text = {}
        for name in self.sources.table("reuse_rule_number", "ReuseRule"):
            reason, detail = (self.sources.texts(it, "ReuseRule")[name] for it in ("reuse_rule_reason", "reuse_rule_detail"))
            self.by_text[reason, detail] = name

    def of(self, text, in_hand=None):
        """Entries for a value of Cache-Status or of Refusal, a line on standard error, or a word; none if unknown. Where
        the answer is in hand, it is said which rule of storing stands."""
        text = value_of(text)
        return self.of_reason(text, in_hand) or self.of_line(text) or self.of_word(text) or self.in_documents(text)

    def of_reason(self, text, in_hand=None):
        """Entries for a reason in a log: what it says itself, and not what is said of it elsewhere."""
        return self.of_refusal(text) or (self.of_member(text, in_hand) if self.is_member(text) else [])

    def is_member(self, text):
        """Whether it is a member of Cache-Status, with the proxy's name or without."""
        return bool(re.match(r"(?:[^;= ]+;)?(?:hit|fwd=[a-z-]+)(?:;|$)", text))

    def of_member(self, text, in_hand=None):
        parts = text.split(";")
        parameters = {it.partition("=")[0]: it.partition("=")[2] for it in parts}
        reason, detail = parameters.get("fwd"), parameters.get("detail")
        entries = [self.words.parameter("hit")] if "hit" in parameters else self.of_rule(reason, detail)
        told = ("fwd-status", "ttl", "stored", "collapsed")
        entries += [self.words.parameter(it, parameters[it]) for it in told if it in parameters]
        entries += [self.words.detail(name) for name, word in self.own_details().items() if word == detail]
        if entries and "stored" in parameters and parameters.get("ttl", "").startswith("-"):
            entries.insert(0, self.words.born_old())
        is_sent = {"hit", "stored", "collapsed", "ttl"} & set(parameters) or detail in self.own_details().values()
        if self.storing_rules(detail):
            # why it isn't stored is why it is missed again and again: it comes first
            return [*map(self.words.storing, self.storing_rules(detail)), *entries]
        if entries and not is_sent and in_hand and reason not in ("method", "bypass"):
            return [*self.decided(in_hand), *entries]
        return [*entries, self.not_stored(reason, detail)] if entries and not is_sent else entries

    def decided(self, in_hand):
        """The rule of storing that stands against an answer in hand, or those that may."""
        stands, may = in_hand.first()
        if stands:
            entry = self.words.storing(stands[0])
            return [Entry(entry.key, f"not stored: {entry.title}", [("in this answer", stands[1]), *entry.parts])]
        rules = [(self.words.storing(name), why) for name, why in may]
        parts = [(it.title.partition(", ")[2], f"{why}. {in_short(it)}") for it, why in rules]
        title = "no ;stored: nothing in the answer itself keeps it out, so one of these does, which no client can see"
        return [Entry("not-stored", title, parts)]

    def storing_rules(self, detail):
        """The storing rule that a detail names, by which an answer isn't stored."""
        word = (detail or "").removeprefix(NOT_STORED)
        return self.named("storing_rule_word", "StoreRule", word) if word != detail else []

    def own_details(self):
        return self.sources.texts("detail_word", "Detail")

    def of_rule(self, reason, detail):
        """The rule of a reason and a detail; where the detail stands in place of the rule's, each of that reason."""
        if (reason, detail) in self.by_text:
            return [self.words.reuse(self.by_text[reason, detail])]
        if self.storing_rules(detail):
            # it stands where the rule has no detail of its own
            return self.of_rule(reason, None)
        if detail in self.own_details().values():
            return [self.words.reuse(name) for (it, _), name in self.by_text.items() if it == reason]
        return []

    def not_stored(self, reason, detail):
        """What may have kept an answer without `;stored` out of the store."""
        if reason == "method":
            names = ["Method"]
        elif reason == "bypass":
            names = ["Operator" if detail == "operator" else "Bypass"]
        else:
            names = [it for it in self.sources.table("storing_rule_number", "StoreRule") if it not in ("Operator", "Bypass")]
        rules = [self.words.storing(it) for it in names]
        parts = [(it.title.partition(", ")[2], in_short(it)) for it in rules]
        if len(names) == 1:
            return Entry(
                f"not-stored-{names[0].lower()}", "no ;stored: this rule of storing kept the answer out", parts
            )
        return Entry("not-stored", "no ;stored: the first of these rules that stands kept the answer out", parts)

    def of_left(self, text):
        """Of a request that was never answered; without its cause each of them."""
        words = self.sources.texts("unanswered_name", "UnansweredCause")
        cause = text.removeprefix("left;cause=")
        return [self.words.left(name) for name, word in words.items() if text == "left" or word == cause]

    def of_refusal(self, text):
        head, *rest = text.split(";")
        if head == "left":
            return self.of_left(text)
        more = {it.partition("=")[0]: it.partition("=")[2] for it in rest}
        if re.fullmatch(r"denied by line [0-9N]+", text):
            return [self.words.cause("Denied")]
        if re.fullmatch(r"Purged: [0-9N]+", text):
            return [self.words.purged()]
        if re.fullmatch(r"loop refused by line [0-9N]+", text):
            return [self.words.cause("Looped")]
        if text == NAMES_OF_CAUSES["NoLine"]:
            return [self.words.cause("NoLine")]
        if text.startswith("refused: "):
            return self.of_fault(text.removeprefix("refused: "))
        if head == NAMES_OF_CAUSES["OnlyIfCached"] and "fwd" in more:
            return [self.words.cause("OnlyIfCached"), *self.of_rule(more["fwd"], more.get("detail"))]
        kinds = {word: name for name, word in self.sources.texts("fail_kind_word", "FailKind").items()}
        kind = kinds.get(head.removeprefix("origin ")) if head.startswith("origin ") else None
        if not kind:
            return []
        entries = [self.words.kind(kind), *self.of_rule(more.get("fwd"), more.get("detail"))]
        return entries + [
            self.words.error(it) for it in self.named("error_rule_word", "ErrorRule", more.get("stale-if-error"))
        ]

    def named(self, function, type, word):
        """The constructors that have this word."""
        return [name for name, it in self.sources.texts(function, type).items() if word and it == word]

    def of_fault(self, word):
        """A fault of a message or of a target, by its word."""
        entries = [self.words.message(it) for it in self.named("frame_fault_word", "FrameFault", word)]
        return entries + [
            self.words.target(it) for it in self.named("target_fault_word", "TargetFault", word) if it != "OutOfMemory"
        ]

    def of_line(self, text):
        """A line on standard error."""
        entries, number = [], re.match(r"config fault (\d+)", text)
        if number:
            table, row = self.documents.row(
                lambda it: it["No"] == number[1], "No", "Fault", "What is wrong", "What to do"
            )
            if table:
                parts = [
                    ("what is wrong", row["What is wrong"]),
                    ("Operator", row["What to do"]),
                    ("in", table.place()),
                ]
                entries.append(Entry(f"config-{number[1]}", f"config fault {number[1]}: {row['Fault']}", parts))
        for table in (it for it in self.documents.tables if it.heads[0] == "Standard error"):
            for row in table.rows:
                if any(is_said(one, text) for one in codes_in(row["Standard error"])):
                    parts = [(head.lower(), row[head]) for head in table.heads[1:]]
                    entries.append(
                        Entry("line", row["Standard error"], [*parts, *self.sentence(text), ("in", table.place())])
                    )
        return entries

    def sentence(self, text):
        """The sentence of a fault that a line names by its number."""
        name = next((it for it in self.named("engine_fault_line", "EngineFault", text)), None)
        if name and ("fault_text", "EngineFault") in self.sources.equations:
            yield "in plain words", self.sources.texts("fault_text", "EngineFault")[name]

    def of_word(self, word):
        """All that one word names."""
        entries = [self.words.reuse(it) for it in self.names_of_rules(word)]
        entries += [self.words.storing(it) for it in self.storing_rules(word.removeprefix("detail="))]
        entries += [
            self.words.storing(it) for it in self.sources.table("storing_rule_number", "StoreRule") if it.lower() == word.lower()
        ]
        for function, type, make in (
            ("error_rule_word", "ErrorRule", self.words.error),
            ("fail_kind_word", "FailKind", self.words.kind),
            ("detail_word", "Detail", self.words.detail),
        ):
            entries += [make(it) for it in self.named(function, type, word)]
        entries += self.of_fault(word) + [
            self.words.error(it) for it in self.sources.table("error_rule_number", "ErrorRule") if it == word
        ]
        entries += [self.words.message(it) for it in self.sources.table("frame_fault_word", "FrameFault") if it == word]
        entries += [
            self.words.target(it)
            for it in self.sources.table("target_fault_word", "TargetFault")
            if it == word != "OutOfMemory"
        ]
        entries += [self.words.cause(it) for it, one in NAMES_OF_CAUSES.items() if word == one and it != "Target"]
        if word.partition("=")[0] in self.sources.parameters() - {"fwd", "detail", "stale-if-error"}:
            entries.append(self.words.parameter(word.partition("=")[0]))
        return list({it.key: it for it in entries}.values())

    def names_of_rules(self, word):
        """Reuse rules by reason, detail or name."""
        word = word.removeprefix("fwd=").removeprefix("detail=")
        return [
            name
            for (reason, detail), name in self.by_text.items()
            if word in (reason, detail) or word.lower() == name.lower()
        ]

    def in_documents(self, text):
        """Where the text stands as code."""
        found = itertools.islice(self.documents.said_of(text), MOST_PLACES) if len(text) > 2 else []
        return [Entry(f"place-{at}", text, [*parts, ("in", place)]) for at, (parts, place) in enumerate(found)]

    def nearest(self, text):
        """Words that are nearly this one."""
        known = (
            {it for pair in self.by_text for it in pair if it}
            | set(self.by_text.values())
            | set(self.sources.table("storing_rule_number", "StoreRule"))
        )
        for function, type in (
            ("error_rule_word", "ErrorRule"),
            ("fail_kind_word", "FailKind"),
            ("frame_fault_word", "FrameFault"),
            ("target_fault_word", "TargetFault"),
        ):
            known |= set(self.sources.texts(function, type).values())
        return difflib.get_close_matches(value_of(text), sorted(known | self.sources.parameters()), 3, 0.6)


def in_short(entry):
    """A rule in one text: what it is, who can change what, and its sections."""
    told = dict(entry.parts)
    changes = [it if who == "to do" else f"{who}: {it}" for who, it in entry.parts if who in CHANGERS]
    standard = re.sub(r"own: .*", "own", told.get("standard", ""))
    return " ".join([told.get("in plain words", ""), *changes, f"({standard})"])


def value_of(text):
    """The value of a header line, and of several members of Cache-Status the last one, which is the proxy's."""
    text = re.sub(r"(?i)^\s*(cache-status|refusal)\s*:", "", text).strip()
    # (a comma inside quotes is of a member of another cache)
    members = re.findall(r'(?:"(?:[^"\\]|\\.)*"|[^,"])+', text)
    return re.sub(r"\s*;\s*", ";", members[-1].strip()) if members else ""


def is_said(code, text):
    """Whether a line on standard error is of this form; N, L and K stand for numbers and keys."""
    form = re.escape(code.strip()).replace("N", "[0-9]+")
    return bool(re.match(rf"{form}(?![a-z])", text))
