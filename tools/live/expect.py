"""What a scenario expects, and how it says that something else came."""


class Unexpected(Exception):
    """Something else came than was expected."""

    def __init__(self, what, expected, got):
        super().__init__(f"expected {what} {shown(expected)}, got {shown(got)}")


class Skipped(Exception):
    """The machine lacks what the scenario needs."""


def shown(value):
    text = value if isinstance(value, str) else repr(value)
    return text if len(text) <= 400 else f"{text[:300]} .. ({len(value)} in all) .. {text[-60:]}"


def expect(what, expected, got):
    if expected != got:
        raise Unexpected(what, *near_difference(expected, got))


def near_difference(expected, got):
    """Of two long texts of bytes only what stands about their first difference."""
    if not (isinstance(expected, bytes) and isinstance(got, bytes)) or max(len(expected), len(got)) <= 400:
        return expected, got
    at = next((i for i, (a, b) in enumerate(zip(expected, got)) if a != b), min(len(expected), len(got)))
    return tuple(f"{it[max(0, at - 60) : at + 120]!r} (from byte {max(0, at - 60)} of {len(it)})" for it in (expected, got))


def expect_member(expected, response):
    """The proxy's member of Cache-Status. The clock goes on between a response's date and its use: a ttl may be up to a
    minute less than it is at the start, and never more."""
    got = response.value("Cache-Status") or "none"
    words = list(zip(expected.split(";"), got.split(";")))
    is_same = expected.count(";") == got.count(";") and all(a == b or is_ttl_within(a, b) for a, b in words)
    if not is_same:
        raise Unexpected("Cache-Status", expected, got)


def is_ttl_within(expected, got):
    if not (expected.startswith("ttl=") and got.startswith("ttl=")):
        return False
    return 0 <= int(expected[4:]) - int(got[4:]) <= 60


def expect_answer(response, status, member, content):
    """An answer that an origin gave, now or earlier."""
    expect("status", status, response.status)
    expect_member(member, response)
    expect("content", content, response.content)
    expect("Refusal", None, response.value("Refusal"))


def expect_refusal(response, status, text, content=True):
    """An answer of the proxy's own: its text stands in Refusal, and as the content of what isn't an answer to HEAD."""
    got = response.status, response.value("Refusal"), response.value("Content-Type"), response.value("Cache-Status")
    expect("status, Refusal, Content-Type and Cache-Status", (status, text, "text/plain", None), got)
    expect("Content-Length", str(len(text)), response.value("Content-Length"))
    expect("content", text.encode() if content else b"", response.content)


def expect_within(what, least, most, seconds):
    if not least <= seconds <= most:
        raise Unexpected(f"{what} after", f"{least} to {most} s", f"{seconds:.2f} s")
