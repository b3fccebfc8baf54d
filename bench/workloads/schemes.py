"""Scheme programs as traces: what the program of crates/scheme does to its heap, as it writes it down itself. Environments, frames of the control
stack and all data are objects, and each register of the machine is a root slot. A phase has 20,000 operations."""
import os
import subprocess
import tempfile
from pathlib import Path

from mutator import Refused, Thing

TOP = Path(__file__).resolve().parent.parent.parent
PROGRAM = os.environ.get('SCHEME', str(TOP / 'crates/scheme/out/scheme'))
OPERATIONS = 20_000


def scheme_trees(mutator, size):
    """Binary trees in Scheme (size: the greatest depth): examples/scheme/binary-trees.scm."""
    run(mutator, 'binary-trees', '(define most 11)', f'(define most {size})')


def scheme_deriv(mutator, size):
    """Symbolic derivatives in Scheme (size: how often one is taken): examples/scheme/deriv.scm."""
    run(mutator, 'deriv', '(repeat 1000)', f'(repeat {size})')


def scheme_queens(mutator, size):
    """Queens on boards in Scheme (size: the largest board): examples/scheme/queens.scm."""
    run(mutator, 'queens', '((> n 7))', f'((> n {size}))')


def run(mutator, name, sized, instead):
    """Runs a program with another size, and writes the trace of it."""
    text = (TOP / f'examples/scheme/{name}.scm').read_text(encoding='utf-8')
    if text.count(sized) != 1:
        raise Refused(f'examples/scheme/{name}.scm has no line {sized}')
    with tempfile.TemporaryDirectory() as room:
        program, trace = Path(room) / f'{name}.scm', Path(room) / 'trace'
        program.write_text(text.replace(sized, instead), encoding='utf-8')
        try:
            ran = subprocess.run([PROGRAM, program, '--superpages', '4096', '--trace', trace], stdout=subprocess.DEVNULL, stderr=subprocess.PIPE, check=False)
        except FileNotFoundError:
            raise Refused(f'{PROGRAM} is not built: bin/scheme builds it') from None
        if ran.returncode:
            raise Refused(f'the program ended with status {ran.returncode}: {ran.stderr.decode("utf-8", "replace").strip()}')
        write(mutator, trace)


def write(mutator, trace):
    """Writes the operations of a trace of one lane and one domain, and keeps what they do to root slots and objects."""
    domain, slots, count = mutator.domains[0], [], 0
    with open(trace, encoding='ascii') as lines:
        for line in lines:
            word, *operands = line.split()
            if word == 'slots':
                slots = [None] * int(operands[0])
                domain.held = list(slots)
            if len(operands) < 2 or word == 'turn':
                continue
            _, slot, *rest = map(int, operands)
            mutator.write(0, line.rstrip('\n'))
            operate(domain, slots, word, slot, rest)
            count += 1
            if count % OPERATIONS == 0:
                mutator.end_phase()
    mutator.end_phase()


def operate(domain, slots, word, slot, rest):
    """Does an operation on root slots and objects. A slot's number isn't kept among those that hold objects."""
    put, value = slot, slots[slot]
    if word == 'new':
        value = Thing(domain, rest[0])
    elif word == 'clear':
        value = None
    elif word == 'set':
        value.fields[rest[0]] = rest[1]
    elif word == 'cut':
        value.fields[rest[0]] = None
    elif word == 'link':
        value.fields[rest[0]] = slots[rest[2]]
    elif word == 'load':
        put, value = rest[2], value.fields[rest[0]]
    elif word == 'copy':
        put = rest[1]
    if word in ('new', 'clear', 'load', 'copy'):
        slots[put] = value
        domain.held[put] = value if isinstance(value, Thing) else None
