"""A cache that drops what was used longest ago, under requests for keys as Zipf's law spreads them."""
from bisect import bisect
from itertools import accumulate

BUCKETS = 64
KEY, CHAIN, BEFORE, BEHIND, VALUE, ENTRY = 0, 1, 2, 3, 4, 5


class Cache:
    """A hash table of chains, and a list in the order of use through the same entries.

    The table is an object of references to objects of 64 buckets, as a runtime without large objects splits it. An entry has its key, the
    next one of its chain, its neighbours in the order of use, and its value: an object of 7 to 63 numbers. The list's two ends are
    an entry without a key."""

    def __init__(self, domain, room):
        self.domain, self.room, self.count = domain, room, 0
        self.parts = max(1, min(127, room // BUCKETS))
        self.table = domain.new(self.parts)
        for part in range(self.parts):
            self.table.set(part, domain.new(BUCKETS))
        self.ends = domain.new(ENTRY)
        self.ends.set(BEFORE, self.ends)
        self.ends.set(BEHIND, self.ends)

    def bucket(self, key):
        place = (key * 2_654_435_761 >> 7) % (self.parts * BUCKETS)
        return self.table.get(place // BUCKETS), place % BUCKETS

    def find(self, key):
        part, place = self.bucket(key)
        entry = part.get(place)
        while entry and entry.get(KEY) != key:
            entry = entry.get(CHAIN)
        return entry

    def unlink(self, entry):
        before, behind = entry.get(BEFORE), entry.get(BEHIND)
        before.set(BEHIND, behind)
        behind.set(BEFORE, before)

    def put_first(self, entry):
        second = self.ends.get(BEHIND)
        entry.set(BEFORE, self.ends)
        entry.set(BEHIND, second)
        second.set(BEFORE, entry)
        self.ends.set(BEHIND, entry)

    def drop_last(self):
        last = self.ends.get(BEFORE)
        self.unlink(last)
        key = last.get(KEY)
        part, place = self.bucket(key)
        entry = part.get(place)
        if entry.is_same(last):
            part.set(place, last.get(CHAIN))
            return
        following = entry.get(CHAIN)
        while not following.is_same(last):
            entry, following = following, following.get(CHAIN)
        entry.set(CHAIN, last.get(CHAIN))

    def ask(self, key, fields):
        """The value of a key, made where it isn't there."""
        entry = self.find(key)
        if entry:
            self.unlink(entry)
            self.put_first(entry)
            entry.get(VALUE).get(0)
            return
        if self.count == self.room:
            self.drop_last()
        else:
            self.count += 1
        entry, value = self.domain.new(ENTRY), self.domain.new(fields)
        value.set(0, key)
        entry.set(KEY, key)
        entry.set(VALUE, value)
        part, place = self.bucket(key)
        entry.set(CHAIN, part.get(place))
        part.set(place, entry)
        self.put_first(entry)


def cache(mutator, size):
    """A cache of so many thousand entries, asked for eight times as many keys by Zipf's law, exponent 0.9, in 20 phases."""
    [domain] = mutator.domains
    room = 1000 * size
    weights = list(accumulate(1 / rank ** 0.9 for rank in range(1, 8 * room + 1)))
    keys = list(range(8 * room))
    mutator.random.shuffle(keys)
    cached = Cache(domain, room)
    for _ in range(20):
        for _ in range(room // 4):
            key = keys[bisect(weights, mutator.random.random() * weights[-1])]
            cached.ask(key, 7 + key % 57)
        mutator.end_phase()
