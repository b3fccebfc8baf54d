"""Makes a log of what a Python program does to objects of its own, for tools/from-log.

    from logged import logged, root, drop, log_to

    @logged
    class Node:
        left: object
        right: object

    log_to(sys.stdout)
    node = Node()
    root(0, node)          # the program keeps it, for example in a global variable

A class's fields are its annotations, in their order, those of its bases first. What a field holds beside objects of logged classes is
nothing to the log. An object that the program holds in local variables alone is not a root: tools/from-log keeps those that were used
last. Lists are `Array(length)`."""
from itertools import count

MOST_FIELDS = 127
_numbers = count(1)
_sink = None


def log_to(sink):
    """Writes the log to a text file from here on."""
    global _sink
    _sink = sink


def _write(*words):
    if _sink:
        print(*words, file=_sink)


def _number(value):
    """The number of a logged object, or `-`."""
    return getattr(value, '_logged', '-') if hasattr(type(value), '_fields_logged') else '-'


def _made(thing, fields):
    if fields > MOST_FIELDS:
        raise ValueError(f'an object of {fields} fields, where {MOST_FIELDS} are the most')
    object.__setattr__(thing, '_logged', next(_numbers))
    _write('alloc', thing._logged, fields)


def _stored(thing, index, old, value):
    if _number(value) != '-' or _number(old) != '-':
        _write('store', thing._logged, index, _number(value))


def logged(kind):
    """A class whose objects are logged: each one that is made, and each of its fields that is set."""
    names = [name for base in reversed(kind.__mro__) for name in base.__dict__.get('__annotations__', {})]
    places = {name: place for place, name in enumerate(dict.fromkeys(names))}
    make, store = kind.__new__, kind.__setattr__

    def make_logged(made_kind, *arguments, **named):
        thing = make(made_kind) if make is object.__new__ else make(made_kind, *arguments, **named)
        _made(thing, len(places))
        return thing

    def set_logged(thing, name, value):
        old = thing.__dict__.get(name)
        store(thing, name, value)
        if name in places:
            _stored(thing, places[name], old, value)

    kind.__new__, kind.__setattr__, kind._fields_logged = make_logged, set_logged, True
    return kind


class Array:
    """A list of a fixed length, as one object."""
    _fields_logged = True

    def __init__(self, length):
        self._items = [None] * length
        _made(self, length)

    def __len__(self):
        return len(self._items)

    def __getitem__(self, index):
        return self._items[index]

    def __setitem__(self, index, value):
        old, self._items[index] = self._items[index], value
        _stored(self, index, old, value)


def root(slot, thing):
    """A root of the program refers to a logged object; where it is None, to nothing any more."""
    if thing is None:
        drop(slot)
    else:
        _write('root', slot, _number(thing))


def drop(slot):
    """A root of the program refers to nothing any more."""
    _write('drop', slot)
