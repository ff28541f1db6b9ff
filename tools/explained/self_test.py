"""Whether all that the program can write has its words, and whether a lack of them would be found."""
import os
import re
import tempfile

from explained import asking, logged
from explained.deciding import InHand
from explained.entries import CHANGE, CHANGERS, PLAIN, Words
from explained.texts import Texts

# The lists of rules: the type, its number, and how it is looked up.
RULES = [
    ("ReuseRule", "reuse_rule_number", Words.reuse),
    ("StoreRule", "storing_rule_number", Words.storing),
    ("ErrorRule", "error_rule_number", Words.error),
]
# Lists of words. (Out of memory is told of no target: it is the program's own.)
FAULTS = [("FrameFault", "frame_fault_word", Words.message), ("TargetFault", "target_fault_word", Words.target)]
OTHERS = [("FailKind", "fail_kind_word", Words.kind), ("Cause", "refusal_text", Words.cause), ("Detail", "detail_word", Words.detail)]
OTHERS.append(("UnansweredCause", "unanswered_name", Words.left))


# What may stand against any answer that says nothing against itself.
UNSEEN = ["ConnectionField", "TooLarge", "Overtaken"]
TAKEN = ["ConnectionField", "Overtaken"]
VISITOR = [("Cookie", "session=alice")]
MINUTE, COOKIE = ("Cache-Control", "max-age=60"), ("Set-Cookie", "sid=1")
# An answer in hand: what was asked with, its status and fields, the table's words if they are known; then the rule that
# stands, or those that may (docs/RULES.md, "Storing").
IN_HAND = [
    ([], 200, [("Cache-Control", "max-age=60, Private")], None, "Private"),
    ([], 200, [("Cache-Control", "private"), ("Cache-Control", "no-store")], None, "ResponseNoStore"),
    ([], 200, [("Cache-Control", "must-understand, no-store, max-age=60")], None, UNSEEN),
    ([], 299, [("Cache-Control", "must-understand, max-age=60")], None, "MustUnderstand"),
    ([], 200, [("Cache-Control", 'max-age=60, x="private, no-store"')], None, UNSEEN),
    ([], 200, [("Cache-Control", 'max-age=60, x=", no-store')], None, UNSEEN),
    ([("Cache-Control", "no-store")], 200, [MINUTE], None, "RequestNoStore"),
    ([("Authorization", "Basic eDp5")], 200, [MINUTE], None, "Authorization"),
    ([("authorization", "Basic eDp5")], 200, [("Cache-Control", "s-maxage=60")], None, UNSEEN),
    ([("If-None-Match", '"v1"')], 304, [MINUTE, ("ETag", '"v1"')], None, "Status"),
    ([], 206, [MINUTE], None, "Status"),
    ([], 302, [("Location", "/")], None, "NothingAllows"),
    ([], 302, [("Location", "/"), ("Expires", "0")], None, UNSEEN),
    ([], 200, [MINUTE, ("Vary", "Accept-Encoding, *")], None, "VaryStar"),
    ([], 200, [MINUTE, ("Vary", "Accept-Encoding")], None, UNSEEN),
    ([], 200, [("Content-Length", "5")], None, "NothingToReuse"),
    ([], 404, [("ETag", "v1")], None, "NothingToReuse"),
    ([], 200, [("ETag", 'W/"v1"')], None, UNSEEN),
    ([], 200, [("Last-Modified", "Sun, 06 Nov 1994 08:49:37 GMT")], None, UNSEEN),
    ([], 200, [("Content-Length", "5")], {"max_stored": 9, "lifetime": 60}, ["ConnectionField", "Overtaken"]),
    ([], 302, [("Location", "/")], {"max_stored": 9, "lifetime": 60}, "NothingAllows"),
    ([], 200, [MINUTE, ("Content-Length", "5000000")], {"max_stored": 1048576}, "TooLarge"),
    ([], 200, [MINUTE, ("Content-Length", "1048576")], {"max_stored": 1048576}, ["ConnectionField", "Overtaken"]),
    ([], 200, [MINUTE, COOKIE], None, [*UNSEEN, "SetCookie"]),
    ([], 200, [MINUTE, COOKIE, ("Content-Length", "5")], {"max_stored": 9, "set-cookie": "not-stored"}, "SetCookie"),
    ([], 200, [("Cache-Control", "public, max-age=60"), COOKIE], None, UNSEEN),
    ([], 200, [COOKIE, ("Content-Length", "5")], {"max_stored": 9, "lifetime": 60, "version": 4}, "SetCookie"),
    ([], 200, [COOKIE, ("ETag", '"v1"')], {"max_stored": 9, "lifetime": 60, "version": 4}, "SetCookie"),
    ([], 200, [COOKIE, ("Content-Length", "5")], {"max_stored": 9, "lifetime": 60, "version": 3}, TAKEN),
    ([], 200, [COOKIE, ("Content-Length", "5")], {"max_stored": 9, "lifetime": 60, "set-cookie": "stored", "version": 4}, TAKEN),
    ([], 200, [COOKIE, ("Content-Length", "5")], {"max_stored": 9, "lifetime": 60, "set-cookie": "removed", "version": 4}, TAKEN),
    ([], 200, [MINUTE, COOKIE, ("Content-Length", "5")], {"max_stored": 9, "lifetime": 60, "version": 4}, TAKEN),
    ([], 404, [COOKIE, ("Content-Length", "5")], {"max_stored": 9, "error-lifetime": 5, "version": 4}, "SetCookie"),
    ([], 500, [MINUTE], None, [*UNSEEN, "ErrorStatus"]),
    ([], 500, [MINUTE, ("Content-Length", "5")], {"max_stored": 9, "errors": "not-stored"}, "ErrorStatus"),
    ([], 404, [MINUTE], None, UNSEEN),
    (VISITOR, 200, [("ETag", '"v1"')], None, [*UNSEEN, "RequestCookie"]),
    (VISITOR, 200, [("Content-Length", "5")], {"max_stored": 9, "lifetime": 60, "version": 4}, "RequestCookie"),
    (VISITOR, 200, [("Content-Length", "5")], {"max_stored": 9, "lifetime": 60, "cookies": "shared", "version": 4}, TAKEN),
    (VISITOR, 200, [("Content-Length", "5")], {"max_stored": 9, "lifetime": 60, "version": 3}, TAKEN),
    (VISITOR, 200, [MINUTE, ("Content-Length", "5")], {"max_stored": 9, "lifetime": 60, "version": 4}, TAKEN),
    (VISITOR, 200, [("Cache-Control", "public"), ("Content-Length", "5")], {"max_stored": 9, "lifetime": 60, "version": 4}, TAKEN),
    ([("Authorization", "Basic eDp5")], 200, [("Cache-Control", "must-revalidate")], {"max_stored": 9, "lifetime": 60, "version": 4}, "RequestCookie"),
    (VISITOR, 404, [("Content-Length", "5")], {"max_stored": 9, "error-lifetime": 5, "version": 4}, "RequestCookie"),
    (VISITOR, 404, [("Content-Length", "5")], {"max_stored": 9, "lifetime": 60, "version": 4}, "NothingToReuse"),
    ([], 404, [("Content-Length", "5")], {"max_stored": 9, "lifetime": 60, "version": 3}, TAKEN),
]
# Lines of --header, and whether they may be sent.
HEADERS = {"Accept-Encoding: gzip, br": True, "Cookie:sid=1": True, "X-Empty:": True, "Host: h": False, "no colon": False}
HEADERS |= {"two\r\nlines: x": False, "a: b\r\nc: d": False, ": x": False, "Content-Length: 0": False}
# A value of Cache-Status, and what is told first of it.
FIRST = {
    "edge;fwd=uri-miss;ttl=-60;stored": "detail-born-old",
    "edge;fwd=stale;ttl=-60;stored": "detail-born-old",
    "edge;fwd=uri-miss;ttl=60;stored": "reuse-5",
    "edge;fwd=uri-miss;ttl=0;stored": "reuse-5",
    "edge;hit;ttl=-5": "parameter-hit",
    "edge;hit;ttl=-5;detail=stale-while-revalidate": "parameter-hit",
    "edge;fwd=uri-miss;detail=not-stored-private": "storing-7",
    "edge;fwd=uri-miss;detail=not-stored-no-lifetime": "storing-12",
    "edge;fwd=stale;detail=stale-if-error;ttl=-5": "reuse-7",
}


def lacking(entry, root, wanted=("in plain words", "standard", "defined in")):
    """What an entry lacks."""
    told = dict(entry.parts)
    found = [it for it in wanted if it not in told]
    if PLAIN.lower() in wanted and not CHANGERS & set(told):
        found.append(CHANGE.lower())
    for path in re.findall(r"(?:crates|docs)/[\w./]+", told.get("defined in", "")):
        if not os.path.exists(f"{root}/{path}"):
            found.append(f"{path}, which isn't there")
    return [f"{entry.title} has no {it}" for it in found]


def of_rules(words, root):
    """Each rule by its number and words, in its own table."""
    for type, function, make in RULES:
        for name, number in words.sources.numbers(function, type).items():
            entry = make(words, name)
            yield f"{type} {name}", lacking(entry, root, ("in plain words", "stands where", "standard", "defined in"))
            yield f"{type} {name} by number", [] if row_agrees(words, type, name, number) else [
                f"{entry.title}: its row has another number or other words"
            ]


def row_agrees(words, type, name, number):
    """Whether the row of a rule has the number and the words that the definitions have."""
    if type == "ReuseRule":
        _, row = words.documents.row(lambda it: it["Rule"] == name, "Rule", "Applies if", "fwd", "detail")
        told = [words.sources.texts(it, type)[name] or "" for it in ("reuse_rule_reason", "reuse_rule_detail")]
        return [row.get(it) for it in ("No", "fwd", "detail")] == [str(number), *told]
    if type == "ErrorRule":
        _, row = words.documents.row(lambda it: it["Rule"] == name, "Rule", "Applies if", "Word", "RFC")
        return [row.get(it) for it in ("No", "Word")] == [str(number), words.sources.texts("error_rule_word", type)[name]]
    word = words.sources.texts("storing_rule_word", type)[name]
    _, row = words.documents.row(lambda it: it["Rule"] == name, "Rule", "Applies if", "`not-stored-`", "RFC")
    return [row.get(it) for it in ("No", "`not-stored-`")] == [str(number), word]


def of_words(words, root):
    """Each fault, refusal and detail."""
    for type, function, make in FAULTS:
        for name in words.sources.table(function, type):
            if name != "OutOfMemory":
                yield f"{type} {name}", lacking(
                    make(words, name), root, ("in plain words", "stands where", "defined in")
                )
    for type, function, make in OTHERS:
        for name in words.sources.table(function, type):
            yield f"{type} {name}", lacking(make(words, name), root)
    yield "born old", lacking(words.born_old(), root)
    yield "purged", lacking(words.purged(), root)
    for it in sorted(words.sources.parameters() - {"fwd", "detail", "stale-if-error"}):
        yield f"parameter {it}", lacking(words.parameter(it), root, ("the proxy", "where", "standard", "defined in"))


def of_texts(found):
    """Each text that the program can write names the rule that it is of, and nothing else of its kind."""
    sources = found.sources
    for name, number in sources.numbers("reuse_rule_number", "ReuseRule").items():
        reason, detail = (sources.texts(it, "ReuseRule")[name] for it in ("reuse_rule_reason", "reuse_rule_detail"))
        rule = f"fwd={reason}" + (f";detail={detail}" if detail else "")
        for text in (
            f"Cache-Status: edge;{rule}",
            rule,
            f"Refusal: only-if-cached;{rule}",
            f"origin closed;{rule};stale-if-error=too-stale",
        ):
            keys = [it.key for it in found.of(text) if it.key.startswith("reuse-")]
            yield text, [] if keys == [f"reuse-{number}"] else [f"{text} is taken for {keys}"]
    for name, number in sources.numbers("storing_rule_number", "StoreRule").items():
        word = f"not-stored-{sources.texts('storing_rule_word', 'StoreRule')[name]}"
        for text in (f"Cache-Status: edge;fwd=uri-miss;detail={word}", f"fwd=stale;detail={word}", word):
            keys = [it.key for it in found.of(text) if it.key.startswith("storing-")]
            yield text, [] if keys == [f"storing-{number}"] else [f"{text} is taken for {keys}"]
    lines = [
        *sources.texts("table_fault_line", "TableFault").values(),
        *sources.texts("engine_fault_line", "EngineFault").values(),
    ]
    lines += [*sources.texts("fault_line", "ReplayFault").values(), *sources.said()]
    for it in sorted({it.strip() for it in lines if it}):
        # (a number or a key follows)
        text = f"{it} 1" if it.endswith(("line", "key")) else it
        yield it, [] if found.of(text) else [f"`{it}` has no words in docs/"]


def of_asking(found):
    """What is told of an answer in hand: the rule that stands, first; of a response that was stored too old; and lines of
    --header."""
    rules = sorted(found.sources.numbers("storing_rule_number", "StoreRule").items(), key=lambda it: it[1])
    judged = [name for name, _, _ in InHand([], 200, []).judged()]
    yield "order", [] if judged == [it for it, _ in rules] else [f"rules of storing are judged in the order {judged}"]
    for asked, status, fields, words, wanted in IN_HAND:
        it = InHand(asked, status, fields, words)
        stands, may = it.first()
        got = stands[0] if stands else [name for name, _ in may]
        what = f"of {status} {fields} to {asked} with {words}"
        yield what, [] if got == wanted else [f"{what}: {got} stands, and not {wanted}"]
        key = found.of("edge;fwd=uri-miss", it)[0].key
        first = f"storing-{dict(rules)[wanted]}" if stands else "not-stored"
        yield f"{what}, told", [] if key == first else [f"{what}: {key} is told first, and not {first}"]
    for text, wanted in FIRST.items():
        key = found.of(text)[0].key
        yield text, [] if key == wanted else [f"{text}: {key} is told first, and not {wanted}"]
    for line, may in HEADERS.items():
        yield line, [] if (asking.fault_of([line]) is None) == may else [f"--header {line!r} is taken wrongly"]
    named = asking.fields_of(["Cookie:sid=1", "Accept-Encoding:  gzip, br "])
    yield "fields", [] if named == [("Cookie", "sid=1"), ("Accept-Encoding", "gzip, br")] else [f"--header gives {named}"]


# Lines of a log, of which the first four are about a page by different spellings.
LOG = b"""1764050000.123 127.0.0.1:1 GET http://h.example/a 200 5 fwd=uri-miss;ttl=60;stored 0.012 127.0.0.1:8081
1764050001.123 127.0.0.1:1 GET http://h.example/a 200 5 hit;ttl=59 0.000 -
1764050002.123 127.0.0.1:1 GET http://h.example/a 200 5 hit;ttl=58 0.000 -
1764050003.123 127.0.0.1:1 GET http://h.example/a 000 0 left;cause=closed 3.000 127.0.0.1:8081
1764050004.123 127.0.0.1:1 GET http://h.example/a?x 200 5 fwd=uri-miss 0.012 127.0.0.1:8081
1764050005.123 127.0.0.1:1 GET http://other.example/a 200 5 fwd=uri-miss 0.012 127.0.0.1:8081
1764050006.123 127.0.0.1:1 GET http://h.example/b 502 20 origin closed;fwd=uri-miss 0.012 127.0.0.1:8081"""
LOGGED = {
    "http://h.example/a": {"hit": 2, "fwd=uri-miss;stored": 1, "left;cause=closed": 1},
    "https://H.example:443/a": {"hit": 2, "fwd=uri-miss;stored": 1, "left;cause=closed": 1},
    "http://h.example:80/a?x": {"fwd=uri-miss": 1},
    "http://h.example/b": {"origin closed;fwd=uri-miss": 1},
    "http://h.example": {},
}


def of_log():
    """What is told of a URL by a log."""
    with tempfile.NamedTemporaryFile() as file:
        file.write(LOG)
        file.flush()
        for url, wanted in LOGGED.items():
            got = dict(logged.read(file.name, url).reasons)
            yield f"the log of {url}", [] if got == wanted else [f"a log has of {url} {got}, and not {wanted}"]


def faults_of(found, root):
    """How many have their words, and what is lacking."""
    count, faults = 0, []
    for checks in (of_rules(found.words, root), of_words(found.words, root), of_texts(found), of_asking(found), of_log()):
        for _, lacks in checks:
            count += not lacks
            faults += lacks
    return count, faults


def is_found(found, root):
    """What isn't noticed: a row of each table of plain words that is taken away, a rule that has another number."""
    unseen = []
    for table in found.documents.with_heads(PLAIN, CHANGE):
        row = table.rows.pop()
        if not faults_of(found, root)[1]:
            unseen.append(f"that the row of {next(iter(row.values()))} is missing in {table.place()}")
        table.rows.append(row)
    for table in found.documents.with_heads("No", "Rule", "Applies if"):
        number, table.rows[0]["No"] = table.rows[0]["No"], "99"
        if not faults_of(found, root)[1]:
            unseen.append(f"that a rule has another number in {table.place()}")
        table.rows[0]["No"] = number
    return unseen


def run(root, found):
    assert isinstance(found, Texts)
    count, faults = faults_of(found, root)
    faults += [f"the self-test doesn't notice {it}" for it in is_found(found, root)] if not faults else []
    for it in faults:
        print(it)
    print(f"why: {count} rules, faults, refusals and lines have their words, {len(faults)} lack them")
    return 1 if faults else 0
