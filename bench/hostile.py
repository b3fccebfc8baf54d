"""The runs of the benches for hostile use: words and an input, and what the program says where nothing fails."""
import random
import re
import subprocess
import sys
from dataclasses import dataclass, field
from importlib.machinery import SourceFileLoader
from importlib.util import module_from_spec, spec_from_loader
from pathlib import Path

sys.dont_write_bytecode = True
TOP = Path(__file__).resolve().parent.parent
HERE = TOP / 'bench'
sys.path.insert(0, str(HERE))
NAMES = ('full-superpage', 'one-object-too-many', 'long-chain', 'compaction-makes-room')
# two phases and more, of which the first is saved
PHASED = ('give-and-take', 'out-of-heap-in-the-third-phase')
# no run takes a second, but the machine may be busy
LONGEST = 120


@dataclass
class Run:
    """A run of the program: its name, its words, its input, whether its turns are to start threads, and once it ran its status, output and
    standard error."""
    name: str
    words: list
    text: bytes = b''
    is_racing: bool = False
    status: int = 0
    out: bytes = b''
    err: bytes = b''
    starts: list = field(default_factory=list)

    def learn(self, program):
        """Notes how it ends where nothing fails, and where the texts of its phases begin."""
        ran = subprocess.run([program, *self.words], input=self.text, capture_output=True, timeout=LONGEST)
        self.status, self.out, self.err = ran.returncode, ran.stdout, ran.stderr
        self.starts = [0] + [at + 1 for at in range(len(self.out)) if self.out[at:at + 7] == b'\nphase ']
        return self

    def is_ordinary(self, status, out, err):
        return (status, out, err) == (self.status, self.out, self.err)

    def is_out_of_memory(self, status, out, err):
        """Ended out of memory, after whole texts of phases."""
        return status == 7 and err == b'bc: out of memory\n' and self.out.startswith(out) and (len(out) in self.starts if out else True)


def built(words):
    """The program that the option --bc names, or the one that bin/bc builds; and the other words. Asked for help it prints that, and ends."""
    if words[:1] in (['-h'], ['--help']):
        print(sys.modules['__main__'].__doc__)
        raise SystemExit(0)
    if '--bc' in words:
        at = words.index('--bc')
        return str(Path(words[at + 1]).resolve()), words[:at] + words[at + 2:]
    subprocess.run([TOP / 'bin/bc', 'run'], input=(TOP / 'examples/header-only.trace').read_bytes(), capture_output=True, check=True)
    program = re.search(r'^program=\$top/(\S+)$', (TOP / 'bin/bc').read_text(encoding='utf-8'), re.MULTILINE)
    return str(TOP / program[1]), words


def preloaded(room):
    """The library that refuses, built in this folder."""
    library = room / 'failing.so'
    subprocess.run(['gcc', '-shared', '-fPIC', '-O1', '-Wall', '-o', library, HERE / 'failing.c', '-ldl'], check=True)
    return library


def number(words, option, default):
    """The number that an option gives, and the other words."""
    if option not in words:
        return default, words
    at = words.index(option)
    return int(words[at + 1]), words[:at] + words[at + 2:]


def noticed(text):
    """The trace with lines of notices in each phase, some for pages that there aren't. They change no reply."""
    rng = random.Random(17)
    lines = ['turn 0 4294967295 3 2', 'turn', *(f'turn {rng.randrange(64)}' for _ in range(6))]
    return text.replace(b'\nphase\n', ('\nphase\n' + '\n'.join(lines) + '\n').encode())


def example(name):
    return (TOP / 'examples' / f'{name}.trace').read_bytes()


def racing(lanes=4, size=1_200_000):
    """Runs of the two traces of `bench/races`, with so many lanes and at most so many bytes each. Each of them starts threads for its turns,
    where these aren't refused; `is_racing` says that it is to."""
    spec = spec_from_loader('races', SourceFileLoader('races', str(HERE / 'races')))
    races = module_from_spec(spec)
    spec.loader.exec_module(races)
    for mix, text in races.traces_of(lanes, size, small=1):
        yield Run(f'{mix}-mix-{lanes}-lanes, 4 workers', ['run', '--workers', '4'], text.encode(), is_racing=True)


def runs_of(names, operations):
    """Each trace with and without notices, and the workload of so many operations, with 1 and 4 workers."""
    for workers in ('1', '4'):
        for name in names:
            yield Run(f'{name}, {workers} workers', ['run', '--workers', workers], example(name))
            yield Run(f'{name} with notices, {workers} workers', ['run', '--workers', workers], noticed(example(name)))
        yield Run(f'churn 1 {operations}, {workers} workers', ['churn', '1', str(operations), '--workers', workers])
        drawn = subprocess.run([HERE / 'churn-trace', '1', str(operations)], capture_output=True, check=True).stdout
        yield Run(f'trace of churn 1 {operations} with notices, {workers} workers', ['run', '--workers', workers], noticed(drawn))


def images_of(program, names):
    """For each of these examples: its image after the first phase is written, and the trace goes on from there, with 1 and 4 workers."""
    for name in names:
        text = example(name)
        image = subprocess.run([program, 'save', '1'], input=text, capture_output=True, check=True).stdout
        for workers in ('1', '4'):
            yield Run(f'save 1 of {name}, {workers} workers', ['save', '1', '--workers', workers], text)
            yield Run(f'resume of {name}, {workers} workers', ['resume', '--workers', workers], image + text)
