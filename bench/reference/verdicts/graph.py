#!/usr/bin/env python3
"""Compares the verdicts on methods that call one another at random: chains, cycles, locks and what is refused.

    python3 graph.py [--program PATH] [--seed S] [--seconds T]
"""
import collections
import random
import tempfile
import time

from aml import lines as tree_lines
from aml import op, packaged, table_of
from generate import argument, local, string
from judge import Judge
from names import Namespace
from program import Program, given_words, run_deeply, words_of


class Graph:
    """Methods with bodies of little but calls."""

    def __init__(self, rng):
        self.rng = rng
        self.number = rng.choice([5, 12, 40, 100, 250])
        self.degree = rng.choice([0.3, 0.7, 1, 1.5, 2.5])
        self.forward = rng.choice([0.5, 0.9, 0.99, 1])
        self.near = rng.choice([1, 1, 3, 100])
        self.bad = rng.choice([0, 0, 0.005, 0.05])
        self.locks = rng.choice([0, 0, 0.1, 0.4])
        self.counts = [rng.choice([0, 0, 0, 1, 2]) for _ in range(self.number)]
        self.chain = rng.choice([0, 0, 0.95, 0.99, 1])
        if self.chain:
            self.forward, self.locks = rng.choice([1, 1, 0.995]), rng.choice([0, 0, 0.05])
            self.bad, self.near, self.number = rng.choice([0, 0, 0.0005]), rng.choice([1, 2, 3]), rng.choice([70, 100, 150])
        self.counts = [rng.choice([0, 0, 0, 1, 2]) for _ in range(self.number)]

    def name(self, i):
        return f"G{i:03d}".encode()

    def other(self, i):
        rng = self.rng
        step = rng.randrange(1, self.near + 1)
        if rng.random() < self.forward:
            return min(i + step, self.number - 1) if i + 1 < self.number else None
        return rng.randrange(self.number)

    def call(self, i, depth=1):
        found = self.other(i)
        if found is None or (found == i and self.rng.random() < 0.95):
            return b"\1"
        return self.name(found) + b"".join(self.argument(i, depth) for _ in range(self.counts[found]))

    def argument(self, i, depth):
        rng, roll = self.rng, self.rng.random()
        if depth and roll < 0.15:
            return self.call(i, depth - 1)
        if roll < 0.15 + self.bad:
            return rng.choice([string("a"), local(7), b"NONE", op("Timer")])
        return rng.choice([b"\1", b"\0", argument(0)]) if self.counts[i] else b"\1"

    def statement(self, i, depth):
        rng, roll = self.rng, self.rng.random()
        if roll < self.bad / 2:
            return rng.choice([op("Timer"), local(7), b"NONE", op("Break"), b"\xfe"])
        if roll < 0.35:
            return self.call(i)
        if roll < 0.45:
            return op("Store", self.call(i), local(0))
        if roll < 0.5 and depth:
            return op("If", rng.choice([b"\1", self.call(i)]),
                      self.statement(i, depth - 1)) + rng.choice([b"", packaged(b"\xa1", self.statement(i, depth - 1))])
        if roll < 0.55 and depth:
            return op("While", b"\1", self.statement(i, depth - 1) + op("Break"))
        if roll < 0.55 + self.locks:
            mutex = b"MTX%d" % rng.randrange(4)
            return op("Acquire", mutex, b"\0\0") + self.statement(i, depth) + op("Release", mutex)
        if roll < 0.8:
            return op("Noop")
        return op("Return", self.call(i) if rng.random() < 0.4 else b"\1")

    def body(self, i):
        rng = self.rng
        many = 0
        while rng.random() < self.degree / (1 + self.degree):
            many += 1
        made = b"".join(self.statement(i, 2) for _ in range(many))
        if rng.random() < self.chain and i + 1 < self.number:
            link = self.name(i + 1) + b"".join(self.argument(i, 1) for _ in range(self.counts[i + 1]))
            made = rng.choice([link + made, made + link, made + op("Return", b"\1") + link,
                               made + op("If", b"\1", link), made + op("Return", link)])
        if self.chain:
            return made + op("Return", b"\1")
        return made + (op("Return", self.call(i) if rng.random() < 0.3 else b"\1") if rng.random() < 0.7 else b"")

    def table(self):
        front = b"".join(op("Mutex", b"MTX%d" % k, bytes([k])) for k in range(4))
        order = list(range(self.number))
        if self.rng.random() < 0.5:
            self.rng.shuffle(order)
        return table_of(front + b"".join(op("Method", self.name(i), bytes([self.counts[i]]), self.body(i))
                                         for i in order), self.rng.choice([1, 2]))


def compare(program, seed, counts):
    """How many verdicts on one table were compared, and how many differ."""
    table = Graph(random.Random(seed)).table()
    judge = Judge(Namespace([table]))
    mine, theirs = list(judge.lines()), program.lines([table])
    for line in mine:
        words = line.split(" ")
        counts["accepted" if words[1] == "accepted" else words[4]] += 1
    found = 0
    for a, b, method in zip(mine, theirs, judge.namespace.methods):
        if a != b:
            found += 1
            print("DIFFERENCE", seed, a, "|", b)
            if isinstance(judge.bodies[method][0], list):
                print("\n".join(tree_lines(judge.bodies[method][0])), flush=True)
    return len(mine), found + (len(mine) != len(theirs))


def main():
    words = words_of(__doc__)
    words.add_argument("--seed", type=int, default=1)
    words.add_argument("--seconds", type=float, default=60)
    given = given_words(words)
    began, seed, total, found, counts = time.time(), given.seed, 0, 0, collections.Counter()
    with tempfile.TemporaryDirectory() as folder:
        program = Program(given.program, folder)
        while time.time() - began < given.seconds:
            compared, differ = compare(program, seed, counts)
            total, found, seed = total + compared, found + differ, seed + 1
    print(f"tables to seed {seed - 1}: {dict(sorted(counts.items()))}")
    print(f"{total} compared, {found} differences")
    return 1 if found else 0


if __name__ == "__main__":
    run_deeply(main)
