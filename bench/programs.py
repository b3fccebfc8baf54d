"""The programs that the benches run, made where they must be."""
import subprocess
from pathlib import Path

TOP = Path(__file__).resolve().parent.parent


def built_program(crate):
    """The program of a crate, which `rt run` makes, and runs once with the words and the input that the crate's folder has for it."""
    words = (crate / 'args').read_text(encoding='ascii').split()
    source = crate / 'stdin'
    with open(source if source.exists() else '/dev/null', 'rb') as given:
        subprocess.run(['rt', 'run', '--', *words], cwd=crate, stdin=given, stdout=subprocess.DEVNULL, stderr=subprocess.DEVNULL, check=True)
    return str(crate / 'out' / crate.name)


def built_bc():
    """The program `bc`, which bin/bc makes."""
    with open(TOP / 'examples/header-only.trace', 'rb') as trace:
        subprocess.run([TOP / 'bin/bc', 'run'], stdin=trace, stdout=subprocess.DEVNULL, check=True)
    return str(TOP / 'crates/bc/out/bc')
