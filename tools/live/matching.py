"""Whose bytes are whose. The proxy numbers connections as it takes them, so each client has had one number, and no number two clients. Which
one is told by the bytes alone."""
from live.expect import Unexpected
from live.script import happenings_of


class Number:
    """One number of a record: what came from it, and what the replay tells it."""

    def __init__(self, number):
        self.number, self.sent, self.told = number, bytearray(), b""


def numbers_of(script, effects):
    """The numbers of a record that have bytes. Each was accepted once, and is gone once at most."""
    numbers, gone = {}, set()
    for words, block in happenings_of(script):
        word, _, rest = words.partition(b" ")
        if word == b"accept":
            if int(rest) in numbers:
                raise Unexpected(f"of number {int(rest)} in the record", "one accept", "another one")
            numbers[int(rest)] = Number(int(rest))
        elif word == b"client":
            numbers[int(rest)].sent += block
        elif word == b"gone":
            if int(rest) in gone:
                raise Unexpected(f"of number {int(rest)} in the record", "one gone", "another one")
            gone.add(int(rest))
    for it in numbers.values():
        it.sent, it.told = bytes(it.sent), bytes(effects.clients.get(it.number, b""))
    return [it for it in numbers.values() if it.sent or it.told]


class Seen:
    """What is known of a client: what it sent and got, as far as that is known, and whether it got all that it was told."""

    def __init__(self, client):
        self.sent = None if client.sent is None else bytes(client.sent)
        self.received = None if client.received is None else bytes(client.received)
        self.lacks = client.has_left or client.is_cut_off

    def has_sent(self, number):
        return self.sent is None or self.sent.startswith(number.sent)

    def has_got(self, number, is_cut):
        if self.received is None or self.received == number.told:
            return True
        return (self.lacks and number.told.startswith(self.received)) or (is_cut and self.received.startswith(number.told))

    def fits(self, number, is_cut):
        return self.has_sent(number) and self.has_got(number, is_cut)

    def known(self):
        """How much: who got all its bytes is found a number before others."""
        return (self.sent is None) + (self.received is None), self.lacks, -len(self.received or b"")


class Matching:
    """Clients and numbers in pairs."""

    def __init__(self, numbers, clients, is_cut):
        self.numbers, self.is_cut, self.seen = numbers, is_cut, [Seen(it) for it in clients]
        self.client_of, self.number_of, self.fitting = {}, {}, {}

    def fits(self, i, k):
        """Whether the i-th client can have had the k-th number. Equal texts are looked at once."""
        it, number = self.seen[i], self.numbers[k]
        key = it.sent, it.received, it.lacks, number.sent, number.told
        if key not in self.fitting:
            self.fitting[key] = it.fits(number, self.is_cut)
        return self.fitting[key]

    def pair(self, i):
        """Finds a number for a client, for which others may have to take another one; whether there is one."""
        paths, tried = [(i, iter(range(len(self.numbers))))], set()
        taken = []
        while paths:
            one, left = paths[-1]
            k = next((it for it in left if it not in tried and self.fits(one, it)), None)
            if k is None:
                paths.pop()
                if taken:
                    taken.pop()
                continue
            tried.add(k)
            taken.append(k)
            if k not in self.client_of:
                for (client, _), number in zip(paths, taken):
                    self.client_of[number], self.number_of[client] = client, number
                return True
            paths.append((self.client_of[k], iter(range(len(self.numbers)))))
        return False

    def search(self):
        """For each client its number, or None: of who got bytes each has one, and each number is a client's."""
        for i in sorted(range(len(self.seen)), key=lambda it: self.seen[it].known()):
            is_paired = self.pair(i)
            if not is_paired and self.seen[i].received and not self.seen[i].lacks and not self.is_cut:
                raise self.untold(i)
        for k, number in enumerate(self.numbers):
            if k not in self.client_of:
                raise self.nearest(number)
        return [self.numbers[self.number_of[i]].number if i in self.number_of else None for i in range(len(self.seen))]

    def nearest(self, number):
        """What is said where a number is nobody's: what the client got that got most of it."""
        others = [it for i, it in enumerate(self.seen) if i not in self.number_of and it.has_sent(number)]
        near = max((it.received or b"" for it in others), key=lambda it: common(it, number.told), default=b"")
        return Unexpected(f"by the replay for number {number.number}", *parts(number.told, near))

    def untold(self, i):
        """What is said where a client got what no number was told."""
        received = self.seen[i].received
        free = [it for k, it in enumerate(self.numbers) if k not in self.client_of and self.seen[i].has_sent(it)]
        near = max((it.told for it in free), key=lambda it: common(it, received), default=b"")
        return Unexpected(f"by the replay for client {i + 1}", *parts(near, received))


def common(a, b):
    """How many bytes two texts have in common at their start."""
    least, most = 0, min(len(a), len(b))
    while least < most:
        middle = (least + most + 1) // 2
        least, most = (middle, most) if a[:middle] == b[:middle] else (least, middle - 1)
    return least


def parts(expected, got):
    """Of two texts what stands about their first difference."""
    at = max(0, common(expected, got) - 60)
    return tuple(f"{it[at : at + 180]!r} (from byte {at} of {len(it)})" for it in (expected, got))


def match(numbers, clients, is_cut):
    """For each client the number that it had, or None where it has left no bytes: each number's bytes went to one client, and each client got
    all of its number's bytes, and no others. A record that was cut has the first part of what happened."""
    return Matching(numbers, clients, is_cut).search()
