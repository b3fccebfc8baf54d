"""Binary trees: GCBench, by Ellis, Kovac and Boehm, and the binary trees of the benchmarks game. The field's old standards."""


def bottom_up(domain, depth):
    """A whole tree of this depth, made from its leaves up. A node has two children and two numbers."""
    if depth == 0:
        return domain.new(4)
    left, right = bottom_up(domain, depth - 1), bottom_up(domain, depth - 1)
    node = domain.new(4)
    node.set(0, left)
    node.set(1, right)
    return node


def populate(node, depth):
    """Makes a whole tree of this depth below a node, from the top down."""
    if depth > 0:
        for child in (0, 1):
            node.set(child, node.domain.new(4))
            populate(node.get(child), depth - 1)


def count(node):
    """The nodes of a tree."""
    left, right = node.get(0), node.get(1)
    return 1 + (count(left) + count(right) if left else 0)


def gcbench(mutator, size):
    """GCBench: a tree to stretch the heap, a tree and an array that live long, and trees that die young, of growing depths.

    The array is a list of objects of 64 numbers. The size is the depth of the tree that lives long; the first one is one deeper, and
    of the others there are as many as give each depth the same number of nodes."""
    [domain] = mutator.domains
    bottom_up(domain, size + 1)
    mutator.end_phase()
    long_lived = domain.new(4)
    populate(long_lived, size)
    array = domain.new(64)
    for part in range(64):
        numbers = domain.new(64)
        for index in range(64):
            numbers.set(index, 64 * part + index)
        array.set(part, numbers)
    mutator.end_phase()
    for depth in range(4, size + 1, 2):
        for _ in range(1 << (size - depth)):
            populate(domain.new(4), depth)
            bottom_up(domain, depth)
        mutator.end_phase()
    count(long_lived)
    array.get(31).get(7)
    mutator.end_phase()


def binary_trees(mutator, size):
    """The binary trees of the benchmarks game: one tree lives through the run, and many that are made and counted die at once."""
    [domain] = mutator.domains
    count(bottom_up(domain, size + 1))
    mutator.end_phase()
    long_lived = bottom_up(domain, size)
    mutator.end_phase()
    for depth in range(4, size + 1, 4):
        for _ in range(1 << (size - depth)):
            count(bottom_up(domain, depth))
        mutator.end_phase()
    count(long_lived)
    mutator.end_phase()
