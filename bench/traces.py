"""The traces of the benches: setups, the random mix of operations, and a table of shapes, each with what it models."""
import random
from dataclasses import dataclass
from itertools import islice
from typing import Callable, Optional

LIMIT = 16_777_216


@dataclass(frozen=True)
class Setup:
    """What a trace's header says. There is a frame for every page, or for so many of them."""
    lanes: int = 1
    domains: int = 1
    slots: int = 1
    superpages: int = 1
    nursery: int = 1
    buffer: int = 1
    resident: Optional[int] = None
    version: int = 1

    def pages(self):
        return 4 * self.superpages

    def frames(self):
        return self.lanes * self.nursery + (self.pages() if self.resident is None else self.resident)

    def heap_bytes(self):
        return 4096 * (self.lanes * self.nursery + self.pages())

    def header(self):
        return (f'bc-trace {self.version}\nlanes {self.lanes}\ndomains {self.domains}\nslots {self.slots}\nsuperpages {self.superpages}\n'
                f'nursery {self.nursery}\nbuffer {self.buffer}\nframes {self.frames()}\n')

    def phase(self, operations='', turns='', gives=''):
        """A phase in which lane 0 does these operations, and the other lanes nothing."""
        return self.phase_of([operations], turns, gives)

    def phase_of(self, operations, turns='', gives=''):
        texts = list(operations) + [''] * (self.lanes - len(operations))
        return f'phase\n{turns}' + ''.join(f'lane {lane}\n{text}' for lane, text in enumerate(texts)) + f'{gives}end\n'


def shift(before, withheld):
    """The operand of a `turn` line in which so many frames are withheld, where it was another number before."""
    return '' if withheld == before else f' -{withheld - before}' if withheld > before else f' +{before - withheld}'


LARGEST = Setup(lanes=16, domains=64, slots=256, superpages=4096, nursery=16, buffer=4096)


@dataclass(frozen=True)
class Mix:
    """How often each operation stands among twenty, the number of fields of new objects, and the fields that are written."""
    kinds: str = 'new ' * 6 + 'who len set set cut ' + 'link ' * 3 + 'load ' * 3 + 'copy clear same'
    fewest: int = 0
    most: int = 7
    touched: int = 4


EVEN = Mix()
MOSTLY_NEW = 'new ' * 14 + 'who set link load copy clear'
MOSTLY_LINK = 'new ' * 4 + 'who set ' + 'link ' * 12 + 'load clear'
MOSTLY_LOAD = 'new ' * 4 + 'who set ' + 'link ' * 3 + 'load ' * 10 + 'clear'


def operation(rng, setup, lane, mix, kinds):
    """A random operation of the lane, on domains that it holds from the start."""
    held = setup.domains // setup.lanes
    domain, other = lane + setup.lanes * rng.randrange(held), lane + setup.lanes * rng.randrange(held)
    slot, place, field = rng.randrange(setup.slots), rng.randrange(setup.slots), rng.randrange(mix.touched)
    kind = kinds[rng.randrange(20)]
    if kind == 'new':
        return f'new {domain} {slot} {mix.fewest + rng.randrange(mix.most - mix.fewest + 1)}\n'
    if kind == 'set':
        return f'set {domain} {slot} {field} {rng.randrange(1000)}\n'
    if kind == 'cut':
        return f'cut {domain} {slot} {field}\n'
    if kind in ('link', 'load'):
        return f'{kind} {domain} {slot} {field} {other} {place}\n'
    if kind in ('copy', 'same'):
        return f'{kind} {domain} {slot} {other} {place}\n'
    return f'{kind} {domain} {slot}\n'


def mixed_phases(setup, mix, operations=20_000, working=None):
    """Phases without end of so many random operations, shared by the lanes; or by those of a smaller setup, on its domains and slots."""
    rng, kinds, working = random.Random(7), mix.kinds.split(), working or setup
    while True:
        yield setup.phase_of([''.join(operation(rng, working, lane, mix, kinds) for _ in range(operations // working.lanes))
                              for lane in range(working.lanes)])


def mixed(setup, mix, size, operations=20_000):
    """As many phases of a mix as fit the size in bytes."""
    texts, left = [], size - len(setup.header()) - len('done\n')
    for phase in mixed_phases(setup, mix, operations):
        left -= len(phase)
        if left < 0:
            return whole(setup, texts)
        texts.append(phase)


def whole(setup, phases):
    return setup.header() + ''.join(phases) + 'done\n'


def short_phases(setup, count, operations=''):
    return whole(setup, [setup.phase(operations)] * count)


def stores(setup, count):
    """An object in a cell is made to refer to a new one, again and again."""
    return whole(setup, [setup.phase('new 0 0 1\n'), setup.phase('new 0 1 0\nlink 0 0 0 0 1\n' * count)])


def large_objects(setup, count, live=64):
    """Objects of 127 fields, of which so many live: those in the root slots."""
    rng = random.Random(7)
    return whole(setup, [setup.phase(''.join(f'new 0 {rng.randrange(live)} 127\n' for _ in range(count)))])


def pairs(setup, count, domains):
    """An object of each size class in so many domains, 14 more of the largest in domain 0, so that all superpages are in use with one
    free cell of that class, and then objects of that class in one slot: each fourth finds the nursery full."""
    sizes = [1, 3, 7, 15, 31, 63, 127]
    each = ''.join(f'new {domain} {slot} {fields}\n' for domain in range(domains) for slot, fields in enumerate(sizes))
    more = ''.join(f'new 0 {7 + slot} 127\n' for slot in range(14))
    return whole(setup, [setup.phase(each + more), setup.phase('new 0 31 127\n' * count)])


def notices(setup, count):
    """An object in a cell, which is looked at in so many phases; with each come 64 notices, of which the first takes its page away."""
    looks = setup.phase('len 0 0\n', turns='turn' + ' 0' * 64 + '\n')
    return whole(setup, [setup.phase('new 0 0 1\n'), setup.phase('new 0 1 127\n' * 8)] + [looks] * count)


def full_heap(setup, count):
    """As many objects of 127 fields as there are cells, less one, in trees of three levels, and then objects of that size."""
    left, lines = 16 * setup.superpages - 1, []
    for root in range(2, setup.slots):
        for child in range(-1, 127):
            for grandchild in range(-1, 127):
                if left == 0:
                    break
                left -= 1
                if child < 0:
                    lines.append(f'new 0 {root} 127\n')
                    break
                if grandchild < 0:
                    lines.append(f'new 0 0 127\nlink 0 {root} {child} 0 0\n')
                else:
                    lines.append(f'new 0 1 127\nlink 0 0 {grandchild} 0 1\n')
    return whole(setup, [setup.phase(''.join(lines) + 'clear 0 1\n'), setup.phase('new 0 0 127\n' * count)])


def chain_followed(setup, count, times):
    """A list of so many objects of one field, the newest first, which is followed from its head so many times."""
    more = 'new 0 1 1\nlink 0 1 0 0 0\ncopy 0 1 0 0\n'
    made = 'new 0 0 1\n' + more * (count - 1)
    return whole(setup, [setup.phase(made)] + [setup.phase('copy 0 0 0 1\n' + 'load 0 1 0 0 1\n' * count)] * times)


def moving_working_set(setup, rounds, window=4):
    """A list in each root slot but the first, of as many objects of three fields as a page has cells, and rounds of steps along some
    lists side by side, of which one is left for the next one in each round. Each step writes a number."""
    rng, lists = random.Random(7), setup.slots - 1
    phases = [setup.phase('new 0 0 3\n' + f'copy 0 0 0 {slot}\n' + f'new 0 0 3\nlink 0 0 0 0 {slot}\ncopy 0 0 0 {slot}\n' * 127)
              for slot in range(1, setup.slots)]
    for first in range(rounds):
        lines = []
        for _ in range(20):
            lines.append(f'copy 0 {1 + (first + rng.randrange(window)) % lists} 0 0\n')
            lines.append('load 0 0 0 0 0\nset 0 0 1 7\n' * 10)
        phases.append(setup.phase(''.join(lines)))
    return whole(setup, phases)


def random_writes(setup, count):
    """An object of 127 fields in each root slot, and so many writes to such objects without any order, in phases of 50."""
    rng = random.Random(7)
    slots = [(domain, slot) for domain in range(setup.domains) for slot in range(setup.slots)]
    made = setup.phase(''.join(f'new {domain} {slot} 127\n' for domain, slot in slots))
    writes = [f'set {domain} {slot} 0 7\n' for domain, slot in rng.choices(slots, k=count)]
    return whole(setup, [made] + [setup.phase(''.join(writes[first:first + 50])) for first in range(0, count, 50)])


@dataclass(frozen=True)
class Shape:
    """A kind of trace. `make` takes a setup and a size: bytes of a mix, else the number of what the shape repeats. The goals are how many
    times the time of the plain program, and that over the Boehm collector, `bc` may take."""
    name: str
    models: str
    setup: Setup
    make: Callable
    timed: int
    quick: int
    counted: int
    goal: Optional[float] = None
    boehm_goal: Optional[float] = None


def mix_of(mix):
    return lambda setup, size: mixed(setup, mix, size)


MIB = 1 << 20
FOUR = Setup(lanes=4, domains=8, slots=64, superpages=1024, nursery=4, buffer=4096)


def mix_shape(name, models, mix, setup=FOUR, timed=LIMIT, boehm_goal=None):
    return Shape(name, models, setup, mix_of(mix), timed, min(timed, 4 * MIB), MIB, 1.0, boehm_goal)


SHAPES = [
    mix_shape('even', 'a program of four lanes that does a little of everything, with many small objects, some of them dropped: the '
              'trace of `bench/make-trace`', EVEN, boehm_goal=1.5),
    mix_shape('even, one lane', 'the same of one lane with one domain', EVEN, Setup(1, 1, 64, 1024, 4, 4096)),
    mix_shape('even, sixteen lanes', 'the same of sixteen lanes with four domains each', EVEN, Setup(16, 64, 64, 1024, 4, 4096)),
    mix_shape('new, small', 'a functional program: two thirds of its operations make objects of up to 7 fields', Mix(MOSTLY_NEW)),
    mix_shape('new, large', 'the same with objects of 63 to 127 fields', Mix(MOSTLY_NEW, 63, 127, 63), timed=4 * MIB),
    mix_shape('link, small', 'a program that changes a graph: more than half of its operations write references, in objects of up to 7 '
              'fields', Mix(MOSTLY_LINK)),
    mix_shape('link, large', 'the same with objects of 63 to 127 fields', Mix(MOSTLY_LINK, 63, 127, 63)),
    mix_shape('load, small', 'a program that walks a graph: half of its operations read fields, of objects of up to 7 fields',
              Mix(MOSTLY_LOAD)),
    mix_shape('load, large', 'the same with objects of 63 to 127 fields', Mix(MOSTLY_LOAD, 63, 127, 63)),
    Shape('who', 'reading and printing alone: one phase of two million operations that do nothing', Setup(),
          lambda setup, count: short_phases(setup, 1, 'who 0 0\n' * count), 2_090_000, 400_000, 100_000, 1.5),
    Shape('empty phases', 'a program of one lane that hands its domain over again and again and does nothing between', Setup(),
          short_phases, 986_000, 200_000, 50_000),
    Shape('short phases', 'a server of the largest setup whose phases have one operation each: what a phase costs besides its work', LARGEST,
          lambda setup, count: short_phases(setup, count, 'who 0 0\n'), 100_000, 10_000, 2_000, 4.0),
    Shape('buffer 1', 'a program that keeps young objects in old ones, with a write buffer of one entry, in the largest setup: a '
          'minor collection for each store', Setup(16, 64, 256, 4096, 16, 1), stores, 300_000, 30_000, 3_000, 4.0),
    Shape('nursery 1', 'a program of large objects with a nursery of one page, in the largest setup: a minor collection for each four objects',
          Setup(16, 64, 256, 4096, 1, 4096), large_objects, 160_000, 20_000, 8_000),
    Shape('448 pairs', 'a heap just large enough, with an object of each size class in each of 64 domains: each fourth object is a fail-safe',
          Setup(1, 64, 32, 448, 1, 4096), lambda setup, count: pairs(setup, count, 64), 4_000, 800, 200, 10.0),
    Shape('full heap', 'a heap that is full to the last cell: each fourth object is a fail-safe over 16,384 objects of 127 fields',
          Setup(1, 1, 8, 1024, 1, 4096), full_heap, 400, 40, 40),
    Shape('opening', 'a trace of a header and `done` with 4,096 superpages', Setup(1, 1, 1, 4096, 1, 1), lambda setup, count: whole(setup, []),
          1, 1, 1),
]


def lines_for(size, line):
    return line * (size // len(line))


def read_alone(line, setup=Setup(), kind='operations'):
    """A trace of one phase that has such lines alone."""
    return lambda size: whole(setup, [setup.phase(**{kind: lines_for(size, line)})])


def read_phases(setup, operations='', turns=''):
    phase = setup.phase_of([operations] * setup.lanes, turns)
    return lambda size: whole(setup, [phase] * (size // len(phase)))


# What a reader meets: the kind of lines, and a maker of a trace of about so many bytes of them.
READINGS = [
    ('operations of all kinds', lambda size: mixed(FOUR, EVEN, size, 4_000)),
    ('`who` alone', read_alone('who 0 0\n')),
    ('`set` of numbers of 19 digits', read_alone('set 0 0 0 9223372036854775807\n')),
    ('gives', read_alone('give 0 0\n', kind='gives')),
    ('turns of 64 hints', read_alone('turn' + ' 4294967295' * 64 + '\n', kind='turns')),
    ('turns of 64 hints `0`', read_alone('turn' + ' 0' * 64 + '\n', kind='turns')),
    ('turns of one hint `0`', read_alone('turn 0\n', kind='turns')),
    ('turns that withhold and return a frame', read_alone('turn -1\nturn +1\n', Setup(version=3), kind='turns')),
    ('turns without a hint', read_alone('turn\n', kind='turns')),
    ('phases of four lanes with ten operations each', read_phases(Setup(4, 4, 1, 4), 'who 0 0\n' * 10)),
    ('phases of one `who`', read_phases(Setup(), 'who 0 0\n')),
    ('empty phases of sixteen lanes', read_phases(Setup(16, 16, 1, 16))),
    ('empty phases of one lane', read_phases(Setup())),
]

# Four lanes with one domain each.
FOUR_APART = Setup(4, 4, 64, 128, 4, 4096)

# The same operations in two setups, the least that does them as it is and a large one: with the same nursery and write buffer where
# they say how often the nurseries are emptied, and with superpages enough that no collection is saved but where the row is of one.
SETUPS = [
    ('phases of one `who`', Setup(), Setup(1, 64, 256, 4096, 16, 4096), lambda setup: short_phases(setup, 2_000, 'who 0 0\n')),
    ('the same, sixteen lanes in both', Setup(16), LARGEST, lambda setup: short_phases(setup, 2_000, 'who 0 0\n')),
    ('stores with a minor collection each', Setup(1, 1, 2, 8, 1, 1), Setup(16, 64, 256, 4096, 1, 1), lambda setup: stores(setup, 4_000)),
    ('objects of 127 fields', Setup(1, 1, 64, 640, 1, 1), Setup(16, 64, 256, 4096, 1, 1), lambda setup: large_objects(setup, 8_000)),
    ('an even mix of four lanes', FOUR_APART, Setup(16, 64, 256, 4096, 4, 4096),
     lambda setup: whole(setup, islice(mixed_phases(setup, EVEN, working=FOUR_APART), 4))),
    ('fail-safes of a heap of seven superpages', Setup(1, 1, 32, 7, 1, 1), Setup(16, 64, 256, 7, 1, 1),
     lambda setup: pairs(setup, 2_000, 1)),
    ('a working set that moves, within four frames', Setup(1, 1, 17, 8, 1, 64, 4), Setup(16, 64, 17, 4096, 1, 64, 4),
     lambda setup: moving_working_set(setup, 100)),
    ('64 notices a phase, few pages in use', Setup(1, 1, 2, 8, 1, 1), Setup(16, 64, 256, 4096, 1, 1), lambda setup: notices(setup, 200)),
]

# Heaps of 64 and of 1,024 superpages, 15 of 16 of which are full of objects of 127 fields: four a page.
WRITTEN = [Setup(1, superpages // 16, 240, superpages, 4, 64) for superpages in (64, 1024)]
