"""Many keys and many variants: here what is doubled is their number."""
from costed import FAMILIES
from costed.scripts import Script, answer, client, link, ordinary, request

# So many are asked for, evenly spread over those that are held.
ASKED = 32


def family(**how):
    return FAMILIES.add("keys", sizes=(100, 1000, 8000), **how)


def spread(count, ask):
    """Each stored; then `ASKED` of them asked for."""
    before = b"".join(client(ask(i)) + link(i + 1, answer(0)) for i in range(count))
    script = Script(before, lambda i: b"".join(client(ask(k * count // ASKED)) for k in range(ASKED)))
    script.times = ASKED
    return script


@family()
def keys_of_one_path(count):
    """a hit on one of so many queries of one path"""
    return spread(count, lambda i: request(0, target=b"/one?%d" % i))


@family()
def keys_of_one_host(count):
    """a hit on one of so many paths"""
    return spread(count, lambda i: request(0, target=b"/%d" % i))


@family()
def keys_of_many_hosts(count):
    """a hit on one of so many hosts"""
    return spread(count, lambda i: request(0, host=b"h%d.example" % i))


@family()
def keys_alike(count):
    """a hit on one of so many paths that share 1,000 bytes"""
    return spread(count, lambda i: request(0, target=b"/%s%d" % (b"p" * 1000, i)))


# Blocks of 28 letters with one sum under FNV-1 with addition in place of exclusive or: a row of k of them, each the one or the
# other, is one of 2^k values whose sums are the same. The tail makes the sum of sixteen of the first block and itself 0.
BLOCKS = b"NNNNNNNNNNNNNNNNNNNNNNNNNNNN", b"MSUNOTRUJROSKJNINSNNNNNNNQLK"
TAIL = b"IGWTLONGUTQPPPPOPPPPPPPPPPP>UR"


def alike_in_sum(i):
    return b"".join(BLOCKS[i >> k & 1] for k in range(16))


def in_cases(i):
    return b"".join(b"a" if i >> k & 1 else b"A" for k in range(16))


# By name: what the origin varies by, the lines of the i-th request, and what it is.
VARIANTS = {
    "numbers": (b"A", lambda i: [b"A: v%d" % i], "values of few bytes"),
    "two_names": (b"A, B", lambda i: [b"A: same", b"B: v%d" % i], "two names, one of which has one value in all"),
    "long": (b"A", lambda i: [b"A: %s%06d" % (b"v" * 1500, i)], "values of 1,506 bytes that differ in the last letters"),
    "cases": (b"A", lambda i: [b"A: " + in_cases(i)], "values that differ in case alone"),
    "sums": (b"A", lambda i: [b"A: " + alike_in_sum(i)], "values whose sums under FNV are the same"),
    "zero_sums": (b"A", lambda i: [b"A: " + alike_in_sum(i) + TAIL], "the same, and the sum is 0"),
}
LARGE = 28 * 1024


def fill(name, count):
    vary, lines, _ = VARIANTS[name]
    text = answer(0, b"Vary: " + vary)
    return b"".join(client(request(0, *lines(i))) + link(i + 1, text) for i in range(count))


def asked(name, count, how):
    """A request for a held variant or for one that isn't, small or of 96 lines and 28 KB."""
    _, lines, _ = VARIANTS[name]
    wanted = lines(count // 2 if how.startswith("held") else count + 1)
    if not how.endswith("large"):
        return request(0, *wanted)
    return request(LARGE, *wanted, rest=lambda room: ordinary(96 - len(wanted), room))


def variants(name, count, how):
    text = client(asked(name, count, how))
    if how.startswith("held"):
        return Script(fill(name, count), lambda i: text)
    passed = answer(0, b"Vary: A", held=b"Cache-Control: no-store")
    return Script(fill(name, count), lambda i: text + link(count + 1 + i, passed), b"edge;fwd=vary-miss")


def one_more(name, count):
    """What it costs to store a further variant."""
    vary, lines, _ = VARIANTS[name]
    text = answer(0, b"Vary: " + vary)
    return Script(fill(name, count), lambda i: client(request(0, *lines(count + i))) + link(count + 1 + i, text), b"edge;fwd=vary-miss")


@FAMILIES.add("keys", sizes=(100, 1000, 8000), name="first_of_a_key")
def first_of_a_key(count):
    """what it costs to store a response of a new path beside so many"""
    before = b"".join(client(request(0, target=b"/%d" % i)) + link(i + 1, answer(0)) for i in range(count))
    return Script(before, lambda i: client(request(0, target=b"/n%d" % i)) + link(count + 1 + i, answer(0)), b";stored")
