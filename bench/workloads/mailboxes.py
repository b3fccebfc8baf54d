"""Lanes that send one another letters: a mailbox is a domain, and it changes hands with what lies in it."""

LANES = 4


def letters(mutator, size):
    """Four lanes, each with a domain of its own and a mailbox that goes round: so many hundred letters a phase and lane, in 40 phases.

    In a phase a lane reads the letters of the mailbox that it holds, copies one in four of them to a list of its own (which is cut
    off after a thousand), and lays new ones into the mailbox. At the end of the phase each mailbox goes to the next lane."""
    own, boxes = mutator.domains[:LANES], mutator.domains[LANES:]
    lists = [domain.new(2) for domain in own]
    held = list(boxes)
    heads = {box.number: box.new(2) for box in boxes}
    for phase in range(40):
        for lane in range(LANES):
            box = held[lane]
            read(mutator, own[lane], lists[lane], heads[box.number])
            write(mutator, box, heads[box.number], 100 * size)
        for lane in range(LANES):
            mutator.give(held[lane], (lane + 1) % LANES)
        held = held[-1:] + held[:-1]
        if phase % 8 == 7:
            for entries in lists:
                cut_behind(entries, 1000)
        mutator.end_phase()


def read(mutator, domain, entries, head):
    """Reads each letter of a mailbox, and keeps a copy of one in four."""
    letter = head.get(0)
    while letter:
        length = letter.get(1)
        if mutator.random.random() < 0.25:
            copy = domain.new(2 + length)
            for field in range(1, 2 + length):
                copy.set(field, letter.get(field))
            copy.set(0, entries.get(0))
            entries.set(0, copy)
        letter = letter.get(0)


def write(mutator, box, head, count):
    """Lays new letters into a mailbox, whose old ones are dropped."""
    head.set(0, None)
    for _ in range(count):
        length = mutator.random.randrange(1, 14)
        letter = box.new(2 + length)
        letter.set(1, length)
        for field in range(2, 2 + length):
            letter.set(field, mutator.random.randrange(1 << 20))
        letter.set(0, head.get(0))
        head.set(0, letter)


def cut_behind(entries, count):
    """Drops what stands after the first so many of a list."""
    entry = entries
    for _ in range(count):
        following = entry.get(0)
        if not following:
            return
        entry = following
    entry.set(0, None)
