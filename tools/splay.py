#!/usr/bin/env python3
"""A program whose log is an example: the splay tree by which JavaScript's engines measure their collectors. tools/splay.py [NODES [STEPS]]

It keeps a splay tree of so many nodes (800), each with a payload tree of depth 3, and in each step (2000) it puts in a node with a new
key and takes out the greatest key below it. It prints the log of its objects: `tools/splay.py | tools/from-log -` is a trace."""
import random
import sys

sys.dont_write_bytecode = True
from logged import Array, log_to, logged, root  # noqa: E402


@logged
class Node:
    left: object
    right: object
    payload: object

    def __init__(self, key, payload):
        self.key, self.left, self.right, self.payload = key, None, None, payload


@logged
class Payload:
    left: object
    right: object
    numbers: object

    def __init__(self, depth):
        if depth == 0:
            self.numbers = Array(10)
        else:
            self.left, self.right = Payload(depth - 1), Payload(depth - 1)


class SplayTree:
    """Sleator's and Tarjan's tree, with their splaying from the top down. Its root is the program's root 0."""

    def __init__(self):
        self.top = None

    def set_top(self, node):
        self.top = node
        root(0, node)

    def splay(self, key):
        """Brings the node with this key, or one beside where it would be, to the top."""
        header = Node(None, None)
        root(1, header)
        left = right = header
        node = self.top
        while True:
            if key < node.key:
                if node.left and key < node.left.key:
                    node = rotated_right(node)
                if not node.left:
                    break
                right.left, right, node = node, node, node.left
            elif key > node.key:
                if node.right and key > node.right.key:
                    node = rotated_left(node)
                if not node.right:
                    break
                left.right, left, node = node, node, node.right
            else:
                break
        left.right, right.left = node.left, node.right
        node.left, node.right = header.right, header.left
        self.set_top(node)
        root(1, None)

    def insert(self, key):
        node = Node(key, Payload(3))
        if self.top:
            self.splay(key)
            if self.top.key == key:
                return False
            if key > self.top.key:
                node.left, node.right = self.top, self.top.right
                self.top.right = None
            else:
                node.right, node.left = self.top, self.top.left
                self.top.left = None
        self.set_top(node)
        return True

    def remove(self, key):
        self.splay(key)
        left, right = self.top.left, self.top.right
        if not left:
            self.set_top(right)
            return
        self.set_top(left)
        root(2, right)
        self.splay(key)
        self.top.right = right
        root(2, None)

    def greatest_below(self, key):
        node, found = self.top, None
        while node:
            if node.key < key:
                node, found = node.right, node.key
            else:
                node = node.left
        return found


def rotated_right(node):
    below = node.left
    node.left, below.right = below.right, node
    return below


def rotated_left(node):
    below = node.right
    node.right, below.left = below.left, node
    return below


USAGE = 'usage: tools/splay.py [NODES [STEPS]]'


def main():
    if sys.argv[1:2] in (['--help'], ['-h']):
        print(USAGE)
        return
    nodes, steps = (int(word) for word in (sys.argv[1:] + ['800', '2000'][len(sys.argv) - 1:]))
    drawn, tree = random.Random(7), SplayTree()
    log_to(sys.stdout)
    for _ in range(nodes):
        tree.insert(drawn.random())
    for _ in range(steps):
        key = drawn.random()
        while not tree.insert(key):
            key = drawn.random()
        below = tree.greatest_below(key)
        tree.remove(key if below is None else below)


if __name__ == '__main__':
    main()
