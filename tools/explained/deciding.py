"""Which rule of storing stands against an answer that is in hand: docs/RULES.md, "Storing", in the order of the numbers.

A client sees neither what Connection named, nor what was written meanwhile, nor the table, unless it is given. Of the
rules that ask for these it is said what in the answer they would be about."""
import re

TOKEN = re.compile(r"[!#$%&'*+.^_`|~0-9A-Za-z-]+")
ENTITY_TAG = re.compile(r'(?:W/)?"[!#-~\x80-\xff]*"')
# The three forms of HTTP-date (RFC 9110, section 5.6.7), as far as a client has to tell them from other texts.
DATE = re.compile(
    r"(?:[A-Z][a-z]{2}, [0-9]{2} [A-Z][a-z]{2} [0-9]{4} [0-9:]{8} GMT|[A-Z][a-z]{5,8}, [0-9]{2}-[A-Z][a-z]{2}-[0-9]{2} "
    r"[0-9:]{8} GMT|[A-Z][a-z]{2} [A-Z][a-z]{2} [ 0-9][0-9] [0-9:]{8} [0-9]{4})"
)
HEURISTIC = {200, 203, 204, 206, 300, 301, 308, 404, 405, 410, 414, 501}
# Whether a rule stands: it does, it doesn't, or it may.
STANDS, FALLS, MAY = "stands", "doesn't stand", "may stand"


def members(values):
    """The members of a list field; a comma inside quotes parts nothing, and a quote without an end hides the rest."""
    found = []
    for value in values:
        found += re.findall(r'(?:"(?:[^"\\]|\\.)*(?:"|$)|[^,"])+', value)
    return [it.strip(" \t") for it in found if it.strip(" \t")]


def values_of(fields, name):
    return [value for key, value in fields if key.lower() == name.lower()]


def directives(fields):
    """The names in Cache-Control, in lower case."""
    return {it.partition("=")[0].strip().lower() for it in members(values_of(fields, "Cache-Control"))}


def line_of(fields, name):
    """The lines of a field, as they came."""
    return "; ".join(f"{name}: {value}" for value in values_of(fields, name)) or f"no {name}"


class InHand:
    """A request by GET, and the answer that an origin gave to it through the proxy. `words` are those of the table's
    line, with `max_stored` and `version`; None where the table isn't known."""

    def __init__(self, asked, status, fields, words=None):
        self.asked, self.status, self.fields, self.words = list(asked), status, list(fields), words
        self.said, self.wanted = directives(self.fields), directives(self.asked)

    def has(self, name):
        return bool(values_of(self.fields, name))

    def control(self):
        return line_of(self.fields, "Cache-Control")

    def has_lifetime(self):
        return bool(self.said & {"max-age", "s-maxage"}) or self.has("Expires")

    def has_validator(self):
        tags, dates = values_of(self.fields, "ETag"), values_of(self.fields, "Last-Modified")
        return bool(len(tags) == 1 and ENTITY_TAG.fullmatch(tags[0]) or len(dates) == 1 and DATE.fullmatch(dates[0]))

    def content(self):
        """How long the content is, as it is said."""
        return (values_of(self.fields, "Content-Length") or ["an unknown number of"])[0]

    def by_table(self, concerns, key, holds, wanted):
        """A rule that asks for the table's `key`, where the answer is one that it concerns."""
        if not concerns:
            return FALLS, ""
        if self.words is None:
            return MAY, wanted
        return (STANDS, f"{key} of the table is {self.words[key]}") if holds(self.words.get(key)) else (FALLS, "")

    def too_large(self):
        length = (values_of(self.fields, "Content-Length") or [""])[0]
        verdict, why = self.by_table(
            not length or length != "0",
            "max_stored",
            lambda most: length.isdigit() and int(length) > most,
            "compare that with max_stored of the table (--table FILE does)",
        )
        return verdict, f"the content has {self.content()} bytes: {why}"

    def word_of_lifetime(self):
        """The word by which a line gives this status a lifetime."""
        of_errors = self.status >= 400 and (self.words or {}).get("version", 4) >= 4
        return "error-lifetime" if of_errors else "lifetime"

    def with_a_cookie(self):
        """The rule of answers with Set-Cookie: those that the line stores none of, and those that only the line gives a lifetime."""
        sets_cookie = self.has("Set-Cookie") and "public" not in self.said
        verdict, why = self.by_table(sets_cookie, "set-cookie", lambda it: it == "not-stored", 'if the line has set-cookie = "not-stored"')
        word = self.word_of_lifetime()
        if sets_cookie and self.status in HEURISTIC and not self.has_lifetime():
            if self.words is None:
                why += f", or in a table of version 4 {word} and no set-cookie"
            elif self.words.get("version", 4) >= 4 and word in self.words and "set-cookie" not in self.words:
                verdict, why = STANDS, f"the line's {word} isn't given to such an answer without a word on set-cookie"
        return verdict, f"it sets a cookie, {self.control()}: {why}"

    def for_one_visitor(self):
        """The rule of answers to a request with a cookie or credentials that only the line gives a lifetime."""
        tells = [name for name in ("Cookie", "Authorization") if values_of(self.asked, name)]
        given = self.status in HEURISTIC and not self.has_lifetime() and "public" not in self.said
        if not (tells and given):
            return FALLS, ""
        why = f"the request has {tells[0]}; {self.control()}, no Expires"
        word = self.word_of_lifetime()
        if self.words is None:
            return MAY, f'{why}: if the line has {word} in a table of version 4, and no cookies = "shared"'
        if self.words.get("version", 4) < 4 or word not in self.words or self.words.get("cookies") == "shared":
            return FALLS, ""
        return STANDS, f"{why}: the line's {word} isn't given to such a request"

    def judged(self):
        """Of each rule its name, whether it stands, and what of the answer says so."""
        allows = self.said & {"public", "max-age", "s-maxage"} or self.has("Expires") or self.status in HEURISTIC
        yield "Operator", FALLS, "detail=operator would say so"
        yield "Method", FALLS, "this was a GET"
        yield "Bypass", FALLS, "fwd=bypass would say so"
        yield "Status", STANDS if self.status in (206, 304) else FALLS, f"status {self.status}"
        understood = self.status in HEURISTIC - {206}
        yield "MustUnderstand", STANDS if "must-understand" in self.said and not understood else FALLS, f"{self.control()}, status {self.status}"
        is_no_store = "no-store" in self.said and "must-understand" not in self.said
        yield "ResponseNoStore", STANDS if is_no_store else FALLS, self.control()
        yield "RequestNoStore", STANDS if "no-store" in self.wanted else FALLS, f"of the request {line_of(self.asked, 'Cache-Control')}"
        yield "Private", STANDS if "private" in self.said else FALLS, self.control()
        is_shared = self.said & {"must-revalidate", "public", "s-maxage"}
        is_authorized = bool(values_of(self.asked, "Authorization"))
        yield "Authorization", STANDS if is_authorized and not is_shared else FALLS, f"the request has Authorization; {self.control()}"
        yield "NothingAllows", FALLS if allows else STANDS, f"status {self.status}, {self.control()}, no Expires"
        is_star = any(it == "*" or not TOKEN.fullmatch(it) for it in members(values_of(self.fields, "Vary")))
        yield "VaryStar", STANDS if is_star else FALLS, line_of(self.fields, "Vary")
        yield "ConnectionField", MAY, "the origin's Connection isn't passed on: ask the origin itself"
        is_given = self.words is not None and self.word_of_lifetime() in self.words and self.status in HEURISTIC
        has_none = not self.has_lifetime() and not self.has_validator() and not is_given
        lacks = f"{self.control()}, no Expires, no ETag or Last-Modified that can be read"
        yield "NothingToReuse", STANDS if has_none else FALLS, lacks
        yield "TooLarge", *self.too_large()
        yield "Overtaken", MAY, "if the target was written (POST, PUT, PURGE ..) while the answer was on its way"
        yield "Serials", FALLS, "no server lives that long"
        yield "SetCookie", *self.with_a_cookie()
        is_error = self.status >= 400 and self.status not in HEURISTIC
        verdict, why = self.by_table(is_error, "errors", lambda it: it == "not-stored", 'if the line has errors = "not-stored"')
        yield "ErrorStatus", verdict, f"status {self.status}: {why}"
        yield "RequestCookie", *self.for_one_visitor()

    def first(self):
        """The first rule that stands, with what says so, or None; and those that may stand, where none does. (What stands
        keeps the answer out, whether or not one that nobody can see stands before it.)"""
        may = []
        for name, verdict, why in self.judged():
            if verdict == STANDS:
                return (name, why), []
            if verdict == MAY:
                may.append((name, why))
        return None, may
