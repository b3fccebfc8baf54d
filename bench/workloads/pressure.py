"""Programs by which page traffic is distinguished: much that lives and little that is used, a change of what is used, a stream of objects
that die young beside a cache, and a list that is longer than memory."""
from bisect import bisect
from itertools import accumulate

from cache import Cache

RECORD = 24


def table_of(domain, count, make):
    """An object of references to objects of 64 references, each to what `make` makes."""
    top = domain.new(-(-count // 64))
    for part in range(-(-count // 64)):
        row = domain.new(64)
        for place in range(min(64, count - 64 * part)):
            row.set(place, make(64 * part + place))
        top.set(part, row)
    return top


def record(domain, key):
    """A record of a key and some numbers."""
    made = domain.new(RECORD)
    for field, number in enumerate((key, 0, 7 * key)):
        made.set(field, number)
    return made


def accounts(mutator, size):
    """Much lives, and little is used: so many thousand records, and for each thousand 225 requests in each of 24 phases.

    In a phase 99 % of the requests go to one group of 64 records, which lie together; a request reads a record, makes
    five objects that die at once, and one in two puts a new record in its place. Each phase has another group."""
    [domain] = mutator.domains
    count = 1000 * size // 64 * 64
    table = table_of(domain, count, lambda key: record(domain, key))
    mutator.end_phase()
    for _ in range(24):
        group = mutator.random.randrange(count // 64)
        for _ in range(225 * size):
            part = mutator.random.randrange(count // 64) if mutator.random.random() < 0.01 else group
            serve(mutator, domain, table, part, mutator.random.randrange(64))
        mutator.end_phase()


def serve(mutator, domain, table, part, place):
    """A request for a record."""
    row = table.get(part)
    found = row.get(place)
    key, times = found.get(0), found.get(1)
    work = domain.new(3)
    for _ in range(4):
        following = domain.new(3)
        following.set(0, work)
        following.set(1, times)
        work = following
    if mutator.random.random() < 0.5:
        renewed = record(domain, key)
        renewed.set(1, times + 1)
        row.set(place, renewed)


def passes(mutator, size):
    """A change of what is used: a compiler's passes, each of which makes the next form of a program and drops the last one, six times.

    A form is so many thousand nodes, in blocks of 64, which are made one after another from those of the form before. Then it is worked on:
    blocks near one that moves on slowly are read, and nodes of them are replaced. The forms have nodes of another size each."""
    [domain] = mutator.domains
    blocks = 1000 * size // 64
    form = table_of(domain, 64 * blocks, lambda key: node(domain, key, 6))
    mutator.end_phase()
    for number in range(6):
        fields = (14, 6, 28)[number % 3]
        form = translated(domain, form, blocks, fields)
        mutator.end_phase()
        for first in range(8):
            for _ in range(85 * size):
                block = (first * blocks // 8 + mutator.random.randrange(max(blocks // 6, 1))) % blocks
                improve(mutator, domain, form, block, fields)
            mutator.end_phase()


def node(domain, key, fields):
    made = domain.new(fields)
    made.set(0, key)
    return made


def translated(domain, form, blocks, fields):
    """A form of nodes of so many fields, made from another one, whose blocks are dropped as they are done."""
    made = domain.new(blocks)
    for block in range(blocks):
        old, new = form.get(block), domain.new(64)
        for place in range(64):
            new.set(place, node(domain, old.get(place).get(0), fields))
        made.set(block, new)
        form.set(block, None)
    return made


def improve(mutator, domain, form, block, fields):
    """Looks at four nodes of a block and replaces one of them."""
    row = form.get(block)
    places = [mutator.random.randrange(64) for _ in range(4)]
    keys = [row.get(place).get(0) for place in places]
    row.set(places[0], node(domain, keys[0], fields))


def requests(mutator, size):
    """A program that allocates much and keeps little, beside a cache of so many thousand entries: 225 requests for each thousand, in each of 20 phases.

    A request makes a list of 12 objects of up to 14 fields and goes through it once. One request in two asks the cache, for one of four times
    as many keys as it has room for, by Zipf's law of exponent 0.8; a cache that is full drops what was asked for longest ago."""
    [domain] = mutator.domains
    room = 1000 * size
    weights = list(accumulate(1 / rank ** 0.8 for rank in range(1, 4 * room + 1)))
    keys = list(range(4 * room))
    mutator.random.shuffle(keys)
    cached = Cache(domain, room)
    for key in keys[:room]:
        cached.ask(key, 7 + key % 57)
    mutator.end_phase()
    for _ in range(20):
        for number in range(225 * size):
            work(mutator, domain)
            if number % 2 == 0:
                key = keys[bisect(weights, mutator.random.random() * weights[-1])]
                cached.ask(key, 7 + key % 57)
        mutator.end_phase()


def work(mutator, domain):
    """A list that is made, gone through and dropped."""
    first = last = domain.new(2 + mutator.random.randrange(13))
    for number in range(11):
        following = domain.new(2 + mutator.random.randrange(13))
        following.set(1, number)
        last.set(0, following)
        last = following
    at = first
    while at:
        at = at.get(0)


def chain(mutator, size):
    """A list that is followed from end to end: so many thousand objects of 13 fields, 16 times.

    At every eighth object one is made that dies at once, and at every 64th one of the list is replaced. Within fewer frames than the list has
    pages a choice by what was used last always lets go what is wanted next."""
    [domain] = mutator.domains
    head = domain.new(14)
    last = head
    for key in range(1000 * size):
        following = domain.new(13)
        following.set(1, key)
        last.set(0, following)
        last = following
    mutator.end_phase()
    for _ in range(16):
        before, at, place = head, head.get(0), 0
        while at:
            place += 1
            if place % 8 == 0:
                domain.new(13).set(1, place)
            if place % 64 == 0:
                renewed = domain.new(13)
                renewed.set(0, at.get(0))
                renewed.set(1, at.get(1))
                before.set(0, renewed)
                at = renewed
            before, at = at, at.get(0)
        mutator.end_phase()
