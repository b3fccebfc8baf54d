"""An image of a heap, read for tools that draw or print it: `heapmap` and `why`. What is here is neither proved nor does it look for all
faults of an image; `bin/bc_heapview` does."""
import sys
from array import array
from dataclasses import dataclass

MAGIC = int.from_bytes(b'bcimage1', 'big')
CLASSES = (2, 4, 8, 16, 32, 64, 128)
SUPERPAGE_WORDS = 2048


@dataclass
class Object:
    """An object: where it lies, what made it, its domain, and the bits of its fields."""
    address: int
    lane: int
    serial: int
    domain: int
    fields: array

    @property
    def name(self):
        return f'{self.lane}.{self.serial}'

    @property
    def size_class(self):
        return class_of(len(self.fields))


@dataclass
class Image:
    """What an image says: the numbers of its setup, its root slots domain after domain, and its objects by ascending addresses."""
    setup: dict
    roots: array
    objects: list

    def __post_init__(self):
        self.numbers = {each.address: number for number, each in enumerate(self.objects)}

    def target(self, bits):
        """The number of the object that a word refers to, or None."""
        return self.numbers[bits // 2 - 1] if bits and bits % 2 == 0 else None


def class_of(fields):
    """The words of the cell of an object with so many fields."""
    return next(words for words in CLASSES if fields < words)


def read(path):
    """The image in a file. It ends the program where the file isn't one."""
    items = array('Q')
    data = path.read_bytes()
    items.frombytes(data[:len(data) // 8 * 8])
    if sys.byteorder == 'little':
        items.byteswap()
    try:
        return parsed(items)
    except (IndexError, KeyError, StopIteration, ValueError) as error:
        sys.exit(f'{path}: no image of a heap ({error or "too short"})')


def parsed(items):
    if not items or items[0] != MAGIC:
        raise ValueError('it begins otherwise')
    names = ('version', 'lanes', 'domains', 'slots', 'superpages', 'nursery', 'buffer', 'frames', 'phases')
    setup = dict(zip(names, items[1:10]))
    at = 10 + setup['domains'] + setup['lanes']
    behind = at + setup['domains'] * setup['slots']
    roots, at = items[at:behind], behind
    objects = []
    for _ in range(setup['superpages']):
        pair, at = items[at], at + 1
        if pair == 0:
            continue
        count, at = items[at], at + 1
        for _ in range(count):
            address, head = items[at], items[at + 1]
            fields = head % 128
            at += 2
            objects.append(Object(address, head >> 13 & 15, head >> 17, head >> 7 & 63, items[at:at + fields]))
            at += fields
    if at > len(items):
        raise ValueError('too short')
    return Image(setup, roots, objects)


def edges_of(image):
    """A graph: node 0 stands before all root slots, then come the slots that refer to an object, then the objects. It gives the slots, and for
    each node the nodes that it refers to."""
    slots = [slot for slot, bits in enumerate(image.roots) if image.target(bits) is not None]
    first = 1 + len(slots)
    edges = [list(range(1, first))]
    edges += [[first + image.target(image.roots[slot])] for slot in slots]
    for each in image.objects:
        edges.append([first + number for number in map(image.target, each.fields) if number is not None])
    return slots, edges


def dominators(edges):
    """The dominator tree of a graph by Lengauer and Tarjan: the nodes that node 0 leads to, in the order of a walk in depth, and for each node
    the last node that all ways from node 0 to it share, or None where there is no way."""
    order, parent, index = walk(edges)
    semi, best, link = list(range(len(order))), list(range(len(order))), [None] * len(order)
    buckets, idom = [[] for _ in order], [0] * len(order)
    before = [[] for _ in order]
    for number, node in enumerate(order):
        for other in edges[node]:
            before[index[other]].append(number)
    for number in range(len(order) - 1, 0, -1):
        for other in before[number]:
            semi[number] = min(semi[number], semi[least(other, semi, best, link)])
        buckets[semi[number]].append(number)
        link[number] = parent[number]
        for waiting in buckets[parent[number]]:
            found = least(waiting, semi, best, link)
            idom[waiting] = found if semi[found] < semi[waiting] else parent[number]
        buckets[parent[number]] = []
    for number in range(1, len(order)):
        if idom[number] != semi[number]:
            idom[number] = idom[idom[number]]
    above = [None] * len(edges)
    for number in range(1, len(order)):
        above[order[number]] = order[idom[number]]
    return order, above


def walk(edges):
    """A walk in depth from node 0: its order, the place in it of each node's parent, and each node's place."""
    order, parent, index = [0], [0], {0: 0}
    stack = [(0, iter(edges[0]))]
    while stack:
        place, rest = stack[-1]
        for node in rest:
            if node not in index:
                index[node] = len(order)
                stack.append((len(order), iter(edges[node])))
                parent.append(place)
                order.append(node)
                break
        else:
            stack.pop()
    return order, parent, index


def least(number, semi, best, link):
    """The place with the least semidominator on the way up through linked places, which it shortens."""
    if link[number] is None:
        return number
    way = [number]
    while link[link[way[-1]]] is not None:
        way.append(link[way[-1]])
    for each in reversed(way[:-1]):
        up = link[each]
        if semi[best[up]] < semi[best[each]]:
            best[each] = best[up]
        link[each] = link[up]
    return best[number]


def retained(image):
    """What each root slot holds alone: for each slot that refers to an object the bytes of the cells, and how many objects, that nothing but it
    leads to; the same of what several slots lead to; and which objects are reached."""
    slots, edges = edges_of(image)
    order, above = dominators(edges)
    first = 1 + len(slots)
    size = [0] * len(edges)
    count = [0] * len(edges)
    for node in order:
        if node >= first:
            size[node], count[node] = 8 * image.objects[node - first].size_class, 1
    shared = [0, 0]
    for node in reversed(order[1:]):
        if node >= first and above[node] == 0:
            shared = [shared[0] + size[node], shared[1] + count[node]]
        size[above[node]] += size[node]
        count[above[node]] += count[node]
    held = {slot: (size[1 + number], count[1 + number]) for number, slot in enumerate(slots)}
    reached = bytearray(len(image.objects))
    for node in order:
        if node >= first:
            reached[node - first] = 1
    return held, tuple(shared), reached


def short_bytes(count):
    """A number of bytes, for people."""
    for unit, size in (('MiB', 1 << 20), ('KiB', 1 << 10)):
        if count >= size:
            return f'{count / size:.1f} {unit}'
    return f'{count} bytes'
