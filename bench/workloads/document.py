"""A document tree, parsed from a real file and then edited: JSON, or XML by its ending."""
import json
import xml.etree.ElementTree as xml
from pathlib import Path

# what Debian's packages iso-codes and shared-mime-info bring
KNOWN = ['/usr/share/iso-codes/json/iso_3166-2.json', '/usr/share/iso-codes/json/iso_639-3.json',
         '/usr/share/mime/packages/freedesktop.org.xml']
KIND, NAME, TEXT, COUNT, CHILDREN, NODE = 0, 1, 2, 3, 4, 5
WIDE = 64


class Node:
    """What was parsed: a name, a text, and children."""

    def __init__(self, name, text, children):
        self.name, self.text, self.children = name, text, children


def from_json(name, value):
    if isinstance(value, dict):
        return Node(name, '', [from_json(key, one) for key, one in value.items()])
    if isinstance(value, list):
        return Node(name, '', [from_json('', one) for one in value])
    return Node(name, str(value), [])


def from_xml(element):
    attributes = [Node(key, value, []) for key, value in element.attrib.items()]
    return Node(element.tag, (element.text or '').strip(), attributes + [from_xml(child) for child in element])


def parsed(path):
    if path.endswith('.xml'):
        return from_xml(xml.parse(path).getroot())
    return from_json('', json.loads(Path(path).read_text(encoding='utf-8')))


class Tree:
    """The tree on the heap. A node has a kind, its name, its text, how many children it has, and their list.

    A text is a list of objects of up to 60 words of seven bytes. Children are a list of parts of up to 63, each with the part after it.
    Names are kept once each, in a list of their own, as a parser interns them."""

    def __init__(self, domain):
        self.domain, self.names, self.interned = domain, {}, domain.new(2)

    def text(self, text):
        words = [text.encode()[at:at + 7] for at in range(0, len(text.encode()), 7)]
        first = None
        for end in range((len(words) - 1) // 60 * 60, -1, -60):
            piece = words[end:end + 60]
            part = self.domain.new(1 + len(piece))
            part.set(0, first)
            for index, word in enumerate(piece, start=1):
                part.set(index, int.from_bytes(word, 'big'))
            first = part
        return first

    def name(self, name):
        """The object of a name: found in the list of names, or put there."""
        if name not in self.names:
            entry = self.domain.new(2)
            entry.set(0, self.text(name))
            entry.set(1, self.interned.get(1))
            self.interned.set(1, entry)
            self.names[name] = len(self.names)
        entry = self.interned.get(1)
        for _ in range(min(len(self.names) - 1 - self.names[name], 32)):
            entry = entry.get(1)
        return entry.get(0)

    def make(self, node):
        made = self.domain.new(NODE)
        made.set(KIND, 1 if node.children else 0)
        if node.name:
            made.set(NAME, self.name(node.name))
        if node.text:
            made.set(TEXT, self.text(node.text))
        made.set(COUNT, len(node.children))
        for end in range((len(node.children) - 1) // (WIDE - 1) * (WIDE - 1), -1, 1 - WIDE):
            made.set(CHILDREN, self.part(node.children[end:end + WIDE - 1], made.get(CHILDREN)))
        return made

    def part(self, children, behind):
        part = self.domain.new(1 + len(children))
        part.set(0, behind)
        for index, child in enumerate(children, start=1):
            part.set(index, self.make(child))
        return part


def random_way(mutator, node):
    """A node somewhere below, with the part of the list of children that it stands in, and its place there."""
    found = None
    while True:
        part = node.get(CHILDREN)
        if not part:
            return found
        for _ in range(mutator.random.randrange(1 + (node.get(COUNT) - 1) // (WIDE - 1))):
            part = part.get(0) or part
        place = 1 + mutator.random.randrange(len(part) - 1)
        below = part.get(place)
        if not below:
            return found
        node, found = below, (part, place, below)
        if mutator.random.random() < 0.2:
            return found


def edit(mutator, tree, root, parts):
    """One edit: a text is written anew, a subtree is taken out, one is put in its place, or two change places."""
    one, other = random_way(mutator, root), random_way(mutator, root)
    if not one or not other:
        return
    kind = mutator.random.randrange(4)
    if kind == 0:
        one[2].set(TEXT, tree.text('edited ' * mutator.random.randrange(1, 12)))
    elif kind == 1:
        one[0].set(one[1], None)
    elif kind == 2:
        one[0].set(one[1], tree.make(mutator.random.choice(parts)))
    else:
        other[0].set(other[1], tree.make(Node('moved', '', [])))
        one[0].set(one[1], other[2])


def document(mutator, size, path=None):
    """A document parsed from a file, and then so many thousand edits, in ten phases. A child that was taken out leaves a gap."""
    found = path or next((known for known in KNOWN if Path(known).exists()), None)
    if not found:
        raise FileNotFoundError('no document: install iso-codes, or name a file of JSON or XML by --file')
    parsed_tree = parsed(found)
    top = parsed_tree.children[0] if len(parsed_tree.children) == 1 else parsed_tree
    [domain] = mutator.domains
    tree = Tree(domain)
    root = tree.make(top)
    mutator.end_phase()
    for _ in range(10):
        for _ in range(100 * size):
            edit(mutator, tree, root, top.children)
        mutator.end_phase()
