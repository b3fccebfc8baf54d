"""Ordered maps: a B-tree that is filled and thinned, and a balanced tree that never changes, of which many versions live."""

LEAF, COUNT = 0, 1
ORDER = 16
KEYS, SPLIT = 2, 2 * ORDER - 1
CHILDREN = KEYS + SPLIT
NODE = CHILDREN + SPLIT + 1


class BTree:
    """A B-tree of minimum degree 16, by Cormen and others: a node has up to 31 keys, and in an inner node 32 children. A leaf's values
    are objects of 3 numbers in place of children, so both are objects of 65 fields."""

    def __init__(self, domain):
        self.domain = domain
        self.root = self.node(is_leaf=True)

    def node(self, is_leaf):
        made = self.domain.new(NODE)
        made.set(LEAF, int(is_leaf))
        made.set(COUNT, 0)
        return made

    def value(self, key):
        made = self.domain.new(3)
        made.set(0, key)
        return made

    @staticmethod
    def place(node, key):
        """How many of the node's keys are below the key: a binary search."""
        low, high = 0, node.get(COUNT)
        while low < high:
            middle = (low + high) // 2
            if node.get(KEYS + middle) < key:
                low = middle + 1
            else:
                high = middle
        return low

    @staticmethod
    def move(source, at, target, to, count, shift):
        """Copies `count` keys and as many of what stands beside them, and `shift` of these more."""
        for index in sorted(range(count), reverse=to > at):
            target.set(KEYS + to + index, source.get(KEYS + at + index))
        for index in sorted(range(count + shift), reverse=to > at):
            target.set(CHILDREN + to + index, source.get(CHILDREN + at + index))

    def split(self, parent, place):
        """Splits a full child: its upper half becomes a node after it. A leaf keeps its middle key, which the parent gets too."""
        child = parent.get(CHILDREN + place)
        is_leaf = child.get(LEAF)
        right = self.node(bool(is_leaf))
        middle = child.get(KEYS + ORDER - 1)
        self.move(child, ORDER, right, 0, ORDER - 1, 0 if is_leaf else 1)
        right.set(COUNT, ORDER - 1)
        child.set(COUNT, ORDER if is_leaf else ORDER - 1)
        for index in range(ORDER, SPLIT + (0 if is_leaf else 1)):
            child.set(CHILDREN + index, None)
        count = parent.get(COUNT)
        for index in range(count, place, -1):
            parent.set(KEYS + index, parent.get(KEYS + index - 1))
            parent.set(CHILDREN + index + 1, parent.get(CHILDREN + index))
        parent.set(KEYS + place, middle)
        parent.set(CHILDREN + place + 1, right)
        parent.set(COUNT, count + 1)

    def insert(self, key):
        if self.root.get(COUNT) == SPLIT:
            root = self.node(is_leaf=False)
            root.set(CHILDREN, self.root)
            self.root = root
            self.split(root, 0)
        node = self.root
        while not node.get(LEAF):
            place = self.place(node, key)
            if node.get(CHILDREN + place).get(COUNT) == SPLIT:
                self.split(node, place)
                place += int(node.get(KEYS + place) < key)
            node = node.get(CHILDREN + place)
        place, count = self.place(node, key), node.get(COUNT)
        if place == count or node.get(KEYS + place) != key:
            self.move(node, place, node, place + 1, count - place, 0)
            node.set(KEYS + place, key)
            node.set(COUNT, count + 1)
        node.set(CHILDREN + place, self.value(key))

    def remove(self, key):
        """Takes a key out of its leaf. Leaves aren't joined: they may run empty, as in the B-trees of many databases."""
        node = self.root
        while not node.get(LEAF):
            node = node.get(CHILDREN + self.place(node, key))
        place, count = self.place(node, key), node.get(COUNT)
        if place < count and node.get(KEYS + place) == key:
            self.move(node, place + 1, node, place, count - place - 1, 0)
            node.set(CHILDREN + count - 1, None)
            node.set(COUNT, count - 1)


def b_tree(mutator, size):
    """A B-tree: so many thousand random keys are put in, then every other key is taken out, and a tenth as many are put in again."""
    [domain] = mutator.domains
    tree = BTree(domain)
    keys = list(range(1000 * size))
    mutator.random.shuffle(keys)
    for batch in range(0, len(keys), 1000):
        for key in keys[batch:batch + 1000]:
            tree.insert(key)
        mutator.end_phase()
    for key in keys[::2]:
        tree.remove(key)
    mutator.end_phase()
    for key in keys[:len(keys) // 10]:
        tree.insert(key)
    mutator.end_phase()


LEFT, RIGHT, SIZE, KEY, VALUE = 0, 1, 2, 3, 4


def weight(node):
    return node.get(SIZE) if node else 0


def made(domain, left, key, value, right):
    node = domain.new(5)
    node.set(LEFT, left)
    node.set(RIGHT, right)
    node.set(SIZE, weight(left) + weight(right) + 1)
    node.set(KEY, key)
    node.set(VALUE, value)
    return node


def with_left_rotated(domain, left, key, value, right):
    middle = right.get(LEFT)
    if weight(middle) < 2 * weight(right.get(RIGHT)):
        return made(domain, made(domain, left, key, value, middle), right.get(KEY), right.get(VALUE), right.get(RIGHT))
    return made(domain, made(domain, left, key, value, middle.get(LEFT)), middle.get(KEY), middle.get(VALUE),
                made(domain, middle.get(RIGHT), right.get(KEY), right.get(VALUE), right.get(RIGHT)))


def with_right_rotated(domain, left, key, value, right):
    middle = left.get(RIGHT)
    if weight(middle) < 2 * weight(left.get(LEFT)):
        return made(domain, left.get(LEFT), left.get(KEY), left.get(VALUE), made(domain, middle, key, value, right))
    return made(domain, made(domain, left.get(LEFT), left.get(KEY), left.get(VALUE), middle.get(LEFT)), middle.get(KEY),
                middle.get(VALUE), made(domain, middle.get(RIGHT), key, value, right))


def balanced(domain, left, key, value, right):
    """A node of these, balanced by weight as Adams has it, with the factors 3 and 2."""
    if weight(left) + weight(right) > 1:
        if weight(right) > 3 * weight(left):
            return with_left_rotated(domain, left, key, value, right)
        if weight(left) > 3 * weight(right):
            return with_right_rotated(domain, left, key, value, right)
    return made(domain, left, key, value, right)


def inserted(domain, node, key, value):
    """The tree with the key: a new way from the root to it, and the rest shared."""
    if not node:
        return made(domain, None, key, value, None)
    here = node.get(KEY)
    if key < here:
        return balanced(domain, inserted(domain, node.get(LEFT), key, value), here, node.get(VALUE), node.get(RIGHT))
    if key > here:
        return balanced(domain, node.get(LEFT), here, node.get(VALUE), inserted(domain, node.get(RIGHT), key, value))
    return made(domain, node.get(LEFT), key, value, node.get(RIGHT))


def persistent_map(mutator, size):
    """A map that never changes: so many thousand updates, each a version of its own, of which the last 64 live, and every 100th."""
    [domain] = mutator.domains
    ring, kept, tree = domain.new(64), domain.new(127), None
    for update in range(1000 * size):
        value = domain.new(1)
        value.set(0, update)
        tree = inserted(domain, tree, mutator.random.randrange(500 * size), value)
        ring.set(update % 64, tree)
        if update % 100 == 0:
            kept.set(update // 100 % 127, tree)
        if update % 500 == 499:
            mutator.end_phase()
