"""A program's heap as a trace: the program works on objects through variables, and each thing that it does to them is written down.

A variable is a root slot. `Domain.new` makes an object and answers a variable that holds it; `get` loads a field, `set` writes one. A
variable that Python lets go is cleared, and its slot is used again. So the trace reads and writes what the program does, in its
order, and keeps alive what the program keeps.

Beside the trace the objects themselves are kept, to know what a load answers, and how many superpages is needed by what is reached
at the end of each phase: `Mutator.trace` makes the heap as large as the most of these, times a factor.

Under a budget that breathes (`BUDGETS`) phases are cut into short ones, and each has a `turn` line that withholds so many frames as the budget
takes away at that time of the run."""
import argparse
import os
import random
import sys
from math import ceil

LIMIT = 16_777_216
MOST_FIELDS = 127
MOST_SLOTS = 256
MOST_SUPERPAGES = 4096
CLASSES = (2, 4, 8, 16, 32, 64, 128)
# the part of the frames that a budget leaves at a time of the run, which goes from 0 to 1
BUDGETS = {
    'wave': lambda time: 1 if int(8 * time) % 2 == 0 else 0.5,
    'squeeze': lambda time: max(1 - time, 0.25),
    'shock': lambda time: 0.25 if 0.5 <= time < 0.625 else 1,
}
# so many operations has a phase at most where a budget breathes
STEP = 4000


class Refused(Exception):
    """What a trace can't say."""


def whole(least, most):
    """A type of an option of the command line: a whole number from the least to the most."""
    def number(word):
        if not word.isdecimal() or not least <= int(word) <= most:
            raise argparse.ArgumentTypeError(f'{word} is no whole number from {least} to {most}')
        return int(word)
    return number


def share(most):
    """A type of an option: a number from 0 to the most."""
    def number(word):
        try:
            found = float(word)
        except ValueError:
            found = -1.0
        if not 0 <= found <= most:
            raise argparse.ArgumentTypeError(f'{word} is no number from 0 to {most}')
        return found
    return number


def printed(text):
    """Writes a whole text to standard output, and answers the exit status: a reader that went away is none of our business."""
    try:
        sys.stdout.write(text)
        sys.stdout.flush()
    except BrokenPipeError:
        os.dup2(os.open(os.devnull, os.O_WRONLY), sys.stdout.fileno())
    except OSError as error:
        os.dup2(os.open(os.devnull, os.O_WRONLY), sys.stdout.fileno())
        print(f'{os.path.basename(sys.argv[0])}: {error}', file=sys.stderr)
        return 1
    return 0


class Thing:
    """An object of the heap: its domain, and what its fields hold: None, a number, or another object."""
    __slots__ = ('domain', 'fields')

    def __init__(self, domain, fields):
        self.domain, self.fields = domain, [None] * fields

    def pair(self):
        return self.domain, next(size for size in CLASSES if size > len(self.fields))


class Variable:
    """A root slot that holds an object."""
    __slots__ = ('domain', 'slot', 'thing')

    def __init__(self, domain, thing):
        self.domain, self.thing = domain, thing
        self.slot = domain.take_slot(thing)

    def __del__(self):
        self.domain.give_back(self.slot)

    def __len__(self):
        return len(self.thing.fields)

    def __bool__(self):
        return True

    def get(self, field):
        """What a field holds: None, a number, or a variable with the object."""
        value, domain = self.thing.fields[field], self.domain
        answer = Variable(domain, value) if isinstance(value, Thing) else value
        slot = answer.slot if isinstance(value, Thing) else domain.scratch
        domain.write(f'load {domain.number} {self.slot} {field} {domain.number} {slot}')
        return answer

    def set(self, field, value):
        """Writes a field: None, a number, or the object of a variable."""
        number, slot = self.domain.number, self.slot
        if value is None:
            self.domain.write(f'cut {number} {slot} {field}')
        elif isinstance(value, Variable):
            self.domain.write(f'link {number} {slot} {field} {value.domain.number} {value.slot}')
            value = value.thing
        else:
            self.domain.write(f'set {number} {slot} {field} {value}')
        self.thing.fields[field] = value

    def copied(self, domain):
        """A variable of another domain with the same object."""
        answer = Variable(domain, self.thing)
        domain.write(f'copy {self.domain.number} {self.slot} {domain.number} {answer.slot}')
        return answer

    def is_same(self, other):
        """Whether two variables hold one object. The trace asks it too."""
        self.domain.write(f'same {self.domain.number} {self.slot} {other.domain.number} {other.slot}')
        return self.thing is other.thing


class Domain:
    """A domain with the variables of the lane that holds it. Slot 0 takes the numbers that are loaded. Of a frozen domain nothing is written:
    its variables are read by `copied`, and one that Python lets go keeps its slot."""

    def __init__(self, mutator, number, lane):
        self.mutator, self.number, self.lane = mutator, number, lane
        self.scratch, self.free, self.held = 0, [], [None]

    def write(self, line):
        if self.lane is None:
            raise Refused(f'domain {self.number} is frozen')
        self.mutator.write(self.lane, line)

    def take_slot(self, thing):
        if self.free:
            slot = self.free.pop()
            self.held[slot] = thing
            return slot
        if len(self.held) == MOST_SLOTS:
            raise Refused(f'more than {MOST_SLOTS - 1} variables in domain {self.number}')
        self.held.append(thing)
        return len(self.held) - 1

    def give_back(self, slot):
        if self.lane is None:
            return
        self.held[slot] = None
        self.free.append(slot)
        if not self.mutator.is_done:
            try:
                self.write(f'clear {self.number} {slot}')
            except Refused:
                self.mutator.is_done = True  # Python drops what is raised here; the next line that the program writes is refused too

    def new(self, fields):
        """A variable with a new object, whose fields hold nothing."""
        if fields > MOST_FIELDS:
            raise Refused(f'an object of {fields} fields, where {MOST_FIELDS} are the most')
        variable = Variable(self, Thing(self.number, fields))
        self.write(f'new {self.number} {variable.slot} {fields}')
        return variable


class Mutator:
    """Writes a trace phase by phase. A phase has one `turn` line of so many notices, whose hints are drawn, and of the frames that a budget
    withholds."""

    def __init__(self, lanes=1, domains=1, notices=0, seed=7, budget=None):
        self.lanes, self.notices, self.random, self.budget = lanes, notices, random.Random(seed), budget
        self.domains = [Domain(self, number, number % lanes) for number in range(domains)]
        self.is_done, self.size, self.need = False, 0, 1
        self.phases, self.lines, self.changes, self.version = [], [[] for _ in range(lanes)], [], 1
        self.operations, self.begun = 0, 0

    def write(self, lane, line):
        self.size += len(line) + 1
        if self.size > LIMIT - 65_536:
            raise Refused(f'the trace is longer than {LIMIT} bytes: choose a smaller size')
        self.lines[lane].append(line)
        self.operations += 1
        if self.budget and self.operations - self.begun == STEP:
            self.cut_phase([])

    def add_domain(self):
        """One domain more, held by the lane that holds it at the start."""
        self.domains.append(Domain(self, len(self.domains), len(self.domains) % self.lanes))

    def give(self, domain, lane):
        """The domain changes hands at the end of this phase."""
        self.changes.append((domain, lane))

    def freeze(self, domain):
        """From the end of this phase on all lanes may read the domain, and none may write it."""
        self.changes.append((domain, None))
        self.version = 2

    def end_phase(self):
        changes, self.changes = self.changes, []
        self.cut_phase(changes)
        for domain, lane in changes:
            domain.lane = lane

    def cut_phase(self, changes):
        """Ends the text of a phase with these domains changing hands, and begins the next one."""
        hints = ''.join(f' {self.random.randrange(1 << 14)}' for _ in range(self.notices))
        lanes = [line for lane, lines in enumerate(self.lines) for line in [f'lane {lane}', *lines]]
        given = [f'freeze {domain.number}' if lane is None else f'give {domain.number} {lane}' for domain, lane in changes]
        text = '\n'.join([*lanes, *given, 'end\n'])
        self.phases.append((self.begun, hints, text))
        self.size += len(hints) + len(text) - sum(len(line) + 1 for lines in self.lines for line in lines) + len('phase\nturn -16640\n')
        self.lines, self.begun = [[] for _ in range(self.lanes)], self.operations
        self.need = max(self.need, self.needed())

    def turn_line(self, begun, hints, frames):
        """The line of a phase before which so many operations are done, where there are so many frames beyond those of the nurseries."""
        left = BUDGETS[self.budget](begun / max(self.operations, 1)) if self.budget else 1
        withheld = min(round((1 - left) * frames), frames - 2)
        return f'turn{f" -{withheld}" if withheld else ""}{hints}\n' if withheld or hints else ''

    def needed(self):
        """How many superpages what is reached now needs, where it is packed."""
        todo = [thing for domain in self.domains for thing in domain.held if thing]
        seen, counts = set(map(id, todo)), {}
        while todo:
            thing = todo.pop()
            counts[thing.pair()] = counts.get(thing.pair(), 0) + 1
            for value in thing.fields:
                if isinstance(value, Thing) and id(value) not in seen:
                    seen.add(id(value))
                    todo.append(value)
        return sum(ceil(count / (4 * (512 // size))) for (_, size), count in counts.items())

    def trace(self, factor, nursery, buffer, share):
        """The whole trace, in a heap of the superpages needed times the factor, with frames for this share of the heap's pages."""
        self.is_done = True
        superpages = max(self.need + 1, ceil(self.need * factor))
        if superpages > MOST_SUPERPAGES:
            raise Refused(f'the heap needs {superpages} superpages, where {MOST_SUPERPAGES} are the most: choose a smaller size')
        lanes_pages = self.lanes * nursery
        frames = min(max(lanes_pages + round(share * 4 * superpages), lanes_pages + 2), lanes_pages + 4 * superpages)
        slots = max(len(domain.held) for domain in self.domains)
        header = {'bc-trace': 3 if self.budget else self.version, 'lanes': self.lanes, 'domains': len(self.domains), 'slots': slots, 'superpages': superpages,
                  'nursery': nursery, 'buffer': buffer, 'frames': frames}
        phases = (f'phase\n{self.turn_line(begun, hints, frames - lanes_pages)}{text}' for begun, hints, text in self.phases)
        return ''.join(f'{word} {number}\n' for word, number in header.items()) + ''.join(phases) + 'done\n'
