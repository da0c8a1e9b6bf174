#!/usr/bin/env python3
"""Compares cases at the limits: great buffers and packages, long loops, wide fields, many names in a body.

    python3 limits.py [--program PATH]
"""
import random

from aml import NONE, NameString, Node, argument, buffer, literal, local
from handmade import Hand, compare_by_hand, define, element, give, name, named
from namespace import Buffer, Namespace, Text
from program import given_words, run_deeply, words_of

LIMIT = 3_000_000


def table_bodies():
    """Great buffers, fields and packages of the table, and long loops."""
    yield lambda: [Node("Store", literal(0x1AB), Node("Index", named("GREA"), literal(65535), NONE)), give(named("GREA"))]
    yield lambda: [Node("Store", literal(0x1AB), Node("Index", named("GREA"), literal(65536), NONE))]
    yield lambda: [give(Node("SizeOf", named("GREA")))]
    yield lambda: [Node("Store", literal(1), named("LAST")), give(element(named("GREA"), literal(65535)))]
    yield lambda: [Node("Store", literal(3), named("OVER"))]
    yield lambda: [Node("Store", buffer(256, bytes(range(256))), named("WIDE")), give(named("WIDE"))]
    yield lambda: [Node("Store", buffer(256, bytes(range(1, 256))), named("W7__")), give(named("W7__"))]
    yield lambda: [Node("Store", buffer(256, bytes(range(1, 256))), named("XW__")), give(named("XW__"))]
    yield lambda: [Node("Store", literal(2**64 - 1), named("XW__")), give(named("XW__"))]
    yield lambda: [Node("Store", buffer(256, bytes(range(1, 256))), named("BW__")), give(named("BW__"))]
    yield lambda: [give(named("TOO_"))]
    yield lambda: [give(element(named("PKG0"), literal(65534)))]
    yield lambda: [give(element(named("PKG0"), literal(65535)))]
    yield lambda: [give(element(named("PKG0"), literal(1)))]
    yield lambda: [give(Node("SizeOf", named("PKG0")))]
    yield lambda: [Node("Store", Node("VarPackage", literal(65535), []), local(0)), give(Node("SizeOf", local(0)))]
    yield lambda: [Node("Store", literal(0), local(0)),
                   Node("While", Node("LLess", local(0), literal(30000)), [Node("Increment", local(0))]), give(local(0))]
    yield lambda: [Node("Store", literal(20000), local(0)),
                   Node("While", local(0), [Node("Subtract", local(0), literal(1), local(0)),
                                            Node("If", Node("LEqual", local(0), literal(7)), [Node("Break")])]),
                   give(local(0))]
    yield lambda: [define(f"N{n:03d}", literal(n)) for n in range(700)] + [Node("Store", literal(5), named("N500")),
            give(Node("Add", named("N699"), named("N500"), NONE))]


def body_bodies():
    """Great buffers of a body with fields at their ends, and terms deep in one another."""
    yield lambda: [define("OWNB", buffer(65536)), Node("CreateField", named("OWNB"), literal(65536 * 8 - 2048),
                                                       literal(2048), name("TAIL")),
                   Node("Store", buffer(256, bytes(range(256))), named("TAIL")), give(named("OWNB"))]
    yield lambda: [define("OWNB", buffer(65536)), Node("CreateField", named("OWNB"), literal(65536 * 8 - 2047),
                                                       literal(2048), name("TAIL")), give(named("TAIL"))]
    yield lambda: [define("OWNB", buffer(65536)), Node("CreateQWordField", named("OWNB"), literal(2**61), name("TAIL")),
                   give(named("TAIL"))]
    yield lambda: [define("OWNB", buffer(65536)),
                   Node("CreateBitField", named("OWNB"), literal(2**32 + 8), name("TAIL")), give(named("TAIL"))]
    yield lambda: [define("OWNB", buffer(65536)), Node("CreateField", named("OWNB"), literal(8), literal(2**32 + 8),
                                                       name("TAIL")), give(named("TAIL"))]
    yield lambda: [define("OWNB", buffer(65536)),
                   Node("CreateField", named("OWNB"), literal(2**64 - 1), literal(2**64 - 1), name("TAIL")),
                   give(named("TAIL"))]
    yield lambda: [define("OWNB", buffer(65536)), Node("CreateField", named("OWNB"), literal(2**64 - 1), literal(2048),
                                                       name("TAIL")), give(named("TAIL"))]
    yield lambda: [Node("Store", literal(1), local(0)), give(nested(61))]
    yield lambda: [give(Node("Concatenate", named("GREA"), buffer(0), local(0)))]
    yield lambda: [give(Node("Concatenate", named("GREA"), buffer(1), local(0)))]
    yield lambda: [give(Node("LEqual", named("GREA"), named("GREA")))]
    yield lambda: [named("DEEP", literal(62), named("GREA"))]
    yield lambda: [give(Node("SizeOf", Node("Path", NameString(("GREA",)), [])))]


def bodies():
    """All of them."""
    yield from table_bodies()
    yield from body_bodies()


def nested(depth):
    """A sum within sums."""
    made = literal(1)
    for _ in range(depth):
        made = Node("Add", made, local(0), NONE)
    return made


def module():
    """The definitions of the table."""
    items = [("name", "WIDE", 2048), ("name", "W7__", 2041), ("name", "TOO_", 2049)]
    made = [define("GREA", buffer(65536, b"\x01\x02")),
            define("PKG0", Node("VarPackage", literal(65535), [literal(5), Node("Package", 1, [literal(1)])])),
            Node("CreateBitField", named("GREA"), literal(65536 * 8 - 1), name("LAST")),
            Node("CreateField", named("GREA"), literal(65536 * 8 - 1), literal(2), name("OVER")),
            Node("OperationRegion", name("REG0"), 0, literal(0xF000), literal(1200)), Node("Field", name("REG0"), 4, items),
            Node("OperationRegion", name("REG1"), 1, literal(0x70), literal(16)),
            Node("Field", name("REG1"), 2, [("skip", 3), ("name", "IDX0", 11), ("name", "DAT0", 8)]),
            Node("IndexField", name("IDX0"), name("DAT0"), 1, [("skip", 5), ("name", "XW__", 2048)]),
            Node("BankField", name("REG0"), name("IDX0"), literal(0x1FFF), 3, [("skip", 31), ("name", "BW__", 2048)]),
            Node("Method", name("DEEP"), 2,
                 [Node("If", argument(0), [give(named("DEEP", Node("Subtract", argument(0), literal(1), NONE),
                                                      argument(1)))]), give(argument(1))]),
            Node("Method", name("ARGB"), 1,
                 [Node("Concatenate", argument(0), argument(0), local(0)), give(Node("SizeOf", local(0)))])]
    return made + [Node("Method", name(f"M{number:03d}"), 0, body()) for number, body in enumerate(bodies())]


class Limits(Hand):
    """What `Comparison` asks of a board, of this table."""

    def __init__(self, revision):
        self.modules = [module()]
        self.namespace = Namespace(self.modules, 64 if revision >= 2 else 32)
        self.revision, self.osi = revision, None
        self.registers = [("mem", 0xF000, bytes(range(256)) * 4), ("io", 0x70, bytes(range(16)))]

    def methods(self):
        return [t for t in self.namespace.pairs.values() if t.kind == "method" and t.path != ("DEEP",)]

    def arguments_for(self, method):
        if method.count == 0:
            return []
        return [random.choice([Buffer(bytes(32768)), Buffer(bytes(32769)), Text(b"a" * 32768), Text(b"a" * 32769)])]


def main():
    return compare_by_hand(given_words(words_of(__doc__)), Limits, LIMIT)


if __name__ == "__main__":
    run_deeply(main)
