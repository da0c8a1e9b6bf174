#!/usr/bin/env python3
"""Compares small cases made by hand, of names that bodies make and of other corners.

    python3 handmade.py [--program PATH]
"""
import random
import tempfile

from aml import NONE, NameString, Node, argument, buffer, literal, local, path, text
from compare import LIMIT, Comparison
from namespace import Namespace
from program import Program, given_words, run_deeply, words_of


def name(spelling):
    """A name from text: `\\A.B`, `^A`, `A`."""
    rooted = spelling.startswith("\\")
    bare = spelling.lstrip("\\^")
    return NameString(bare.split(".") if bare else (), rooted, len(spelling) - len(spelling.lstrip("^")))


def named(spelling, *arguments):
    """A name as a term."""
    return path(name(spelling), *arguments)


def define(segment, data):
    """A Name."""
    return Node("DefName", name(segment), data)


def byte_field(source, number, segment):
    """A CreateByteField."""
    return Node("CreateByteField", source, literal(number), name(segment))


def give(term):
    """A Return."""
    return Node("Return", term)


def element(whole, place):
    """What stands at a place of something."""
    return Node("DerefOf", Node("Index", whole, place, NONE))


def own_name_bodies():
    """Names and buffer fields that bodies make, over own names and those of the table."""
    yield lambda: [byte_field(named("OWNA"), 0, "OWNA"), give(named("OWNA"))]
    yield lambda: [byte_field(named("BUF0"), 1, "BUF0"), give(named("BUF0"))]
    yield lambda: [byte_field(named("BUF0"), 1, "BUF0"), byte_field(named("BUF0"), 0, "OWNA"), give(named("OWNA"))]
    yield lambda: [byte_field(named("BUF0"), 1, "BUF0"), byte_field(named("\\BUF0"), 0, "OWNA"), give(named("OWNA"))]
    yield lambda: [byte_field(named("OWNB"), 0, "OWNA"), define("OWNB", buffer(4)), give(named("OWNA"))]
    yield lambda: [define("OWNB", buffer(4)), byte_field(named("OWNB"), 3, "OWNA"),
                   Node("Store", literal(7), named("OWNA")), give(named("OWNB"))]
    yield lambda: [define("OWNB", buffer(4)), byte_field(named("OWNB"), 4, "OWNA"),
                   Node("Store", literal(7), named("OWNA")), give(named("OWNB"))]
    yield lambda: [define("OWNB", literal(4)), byte_field(named("OWNB"), 0, "OWNA"),
                   Node("CondRefOf", named("OWNA"), NONE), give(named("OWNA"))]
    yield lambda: [define("OWNB", literal(4)), byte_field(named("OWNB"), 0, "OWNA"), Node("Store", text(b"a"), named("OWNA"))]
    yield lambda: [define("OWNB", literal(4)), define("OWNB", literal(5))]
    yield lambda: [byte_field(named("BUF0"), 0, "OWNB"), define("OWNB", literal(5))]
    yield lambda: [define("OWNB", literal(5)), byte_field(named("BUF0"), 0, "OWNB")]
    yield lambda: [give(named("OWNB")), define("OWNB", literal(4))]
    yield lambda: [named("INT0"), define("INT0", text(b"own")), give(named("INT0"))]
    yield lambda: [named("INT0"), define("INT0", text(b"own")), Node("Store", text(b"new"), named("INT0")),
                   Node("Store", named("INT0"), local(0)), give(named("\\INT0"))]
    yield lambda: [define("OWNB", Node("Package", 2, [named("OWNB"), named("INT0")])), give(named("OWNB"))]
    yield lambda: [define("INT0", Node("Package", 2, [named("OWNB"), named("INT0")])), give(named("INT0"))]
    yield lambda: [named("METH", literal(3)), define("METH", literal(9)), give(named("METH"))]
    yield lambda: [define("METH", literal(9)), give(named("\\METH", literal(4)))]
    yield lambda: [Node("If", literal(1), [define("OWNB", literal(1))])]
    yield lambda: [Node("If", literal(0), [define("OWNB", literal(1))]), define("OWNB", literal(2)), give(named("OWNB"))]
    yield lambda: [Node("DefName", name("\\OWNB"), literal(1))]
    yield lambda: [Node("DefName", NameString(("OWNB",), long_form=True), literal(1)), give(named("OWNB"))]
    yield lambda: [Node("DefName", name("^OWNB"), literal(1))]
    yield lambda: [Node("DefName", NameString(("OWNB", "OWNC")), literal(1))]
    yield lambda: [define("OWNB", literal(1)), Node("CondRefOf", named("OWNB"), NONE),
                   give(Node("CondRefOf", named("^OWNB"), NONE))]
    yield lambda: [Node("Store", Node("CondRefOf", named("OWNB"), NONE), local(0)), define("OWNB", literal(1)), give(local(0))]
    yield lambda: [define("OWNB", buffer(4)), Node("Store", literal(9), Node("Index", named("OWNB"), literal(1), NONE)),
                   give(named("OWNB"))]
    yield lambda: [define("OWNB", text(b"abcd")),
                   Node("Store", literal(9), Node("Index", named("OWNB"), literal(1), NONE)), give(named("OWNB"))]
    yield lambda: [define("OWNB", buffer(4)), Node("Store", text(b"x"), Node("Index", named("OWNB"), literal(4), NONE))]
    yield lambda: [define("OWNB", buffer(4)), Node("Store", text(b"x"), Node("Index", named("OWNB"), literal(3), NONE))]


def predefined_bodies():
    """Elements of what cannot have any, and names that are there before all tables."""
    yield lambda: [Node("Store", local(0), Node("Index", named("METH", local(1)), literal(3), NONE))]
    yield lambda: [Node("Store", literal(1), Node("Index", named("METH", local(1)), local(2), NONE))]
    yield lambda: [Node("Store", literal(1), Node("Index", named("METH", local(1)), literal(2), NONE))]
    yield lambda: [Node("Store", literal(1), Node("Index", named("NONE"), local(2), NONE))]
    yield lambda: [Node("Store", literal(1), Node("Index", named("NONE"), local(2), local(3)))]
    yield lambda: [Node("Store", literal(1), Node("Index", local(0), local(2), NONE))]
    yield lambda: [Node("Store", literal(1), Node("Index", named("FLD0"), literal(0), NONE))]
    yield lambda: [Node("Store", literal(1), Node("Index", named("ALI0"), literal(0), NONE)), give(named("BUF0"))]
    yield lambda: [Node("Store", literal(1), Node("Index", named("_OS_"), literal(0), NONE))]
    yield lambda: [Node("Store", text(b"acpichecK"), named("_OS_")), give(named("_OS_"))]
    yield lambda: [Node("Store", text(b"acpicheck1"), named("_OS_"))]
    yield lambda: [Node("Store", literal(2**64 - 1), named("_REV")), give(named("_REV"))]


def mutex_bodies():
    """Mutexes that are taken, held and released."""
    yield lambda: [Node("Acquire", named("_GL_"), 0)]
    yield lambda: [Node("Release", named("_GL_"))]
    yield lambda: [Node("Release", named("ALGL"))]
    yield lambda: [Node("Acquire", local(0), 0)]
    yield lambda: [Node("Acquire", named("NONE"), 0)]
    yield lambda: [Node("Acquire", named("MTX1"), 0), Node("Acquire", named("MTX0"), 0)]
    yield lambda: [Node("Acquire", named("MTX1"), 0), Node("Acquire", named("ALMT"), 0), Node("Release", named("MTX1")),
                   Node("Release", named("ALMT")), give(literal(1))]
    yield lambda: [Node("Acquire", named("MTX1"), 0), give(local(0))]
    yield lambda: [Node("Acquire", named("MTX1"), 0), give(literal(0))]
    yield lambda: [Node("Acquire", named("MTX1"), 0), named("REL1")]
    yield lambda: [give(Node("Acquire", named("MTX1"), 0))]
    yield lambda: [named("TAKE")]
    yield lambda: [give(Node("Add", named("TAKE"), local(0), NONE))]
    yield lambda: [Node("Acquire", named("MTX1"), 0), named("LOW0")]
    yield lambda: [Node("Acquire", named("MTX0"), 0), named("LOW0"), Node("Release", named("MTX0")), give(literal(5))]


def notify_bodies():
    """Objects that are told of something, and mutexes in a wrong order."""
    yield lambda: [Node("Notify", local(0), local(1))]
    yield lambda: [Node("Notify", local(0), literal(1))]
    yield lambda: [Node("Notify", named("NONE"), local(1))]
    yield lambda: [Node("Notify", named("_SB_"), local(1))]
    yield lambda: [Node("Notify", named("_SB_"), text(b"a"))]
    yield lambda: [Node("Notify", named("ADEV"), literal(2**64 - 1))]
    yield lambda: [Node("Notify", named("METH"), literal(1))]
    yield lambda: [Node("Notify", Node("Debug"), local(1))]
    yield lambda: [Node("Notify", named("POWR"), literal(1))]
    yield lambda: [Node("Notify", named("PROC"), literal(1)), Node("Notify", named("THRM"), literal(2)),
                   Node("Notify", named("MTX0"), local(2))]
    yield lambda: [Node("Acquire", named("MTX0"), 0), Node("Acquire", named("MTX1"), 0), Node("Release", named("MTX0")),
                   Node("Release", named("MTX1"))]
    yield lambda: [Node("Acquire", named("MTX1"), 0), Node("Acquire", named("MTX1"), 0), Node("Release", named("MTX1")),
                   give(literal(1))]
    yield lambda: [Node("Release", named("NONE")), give(literal(1))]
    yield lambda: [Node("Release", named("INT0")), give(literal(1))]
    yield lambda: [Node("Release", Node("Index", named("BUF0"), literal(0), NONE))]


def operator_bodies():
    """Operators at what they do not take."""
    yield lambda: [Node("SizeOf", named("FLD0"))]
    yield lambda: [Node("SizeOf", named("METH"))]
    yield lambda: [Node("Increment", named("METH"))]
    yield lambda: [Node("Increment", named("WIDE"))]
    yield lambda: [Node("Increment", named("NONE"))]
    yield lambda: [Node("Store", named("WIDE"), named("WIDE"))]
    yield lambda: [Node("Store", buffer(16), named("WIDE"))]
    yield lambda: [Node("Store", buffer(17), named("WIDE"))]
    yield lambda: [Node("Store", buffer(1), named("FLD0"))]
    yield lambda: [Node("Store", literal(5), named("WIDE"))]
    yield lambda: [Node("Divide", literal(7), literal(2), Node("Debug"), named("NONE"))]
    yield lambda: [Node("Divide", literal(7), literal(0), local(0), local(1))]
    yield lambda: [Node("Divide", literal(7), text(b"0"), local(0), local(1))]
    yield lambda: [Node("Divide", text(b"7"), text(b"0"), local(0), local(1))]
    yield lambda: [Node("LEqual", Node("Package", 0, []), text(b"a"))]
    yield lambda: [Node("LEqual", text(b"a"), Node("Package", 0, []))]
    yield lambda: [Node("LEqual", literal(1), text(b"a"))]
    yield lambda: [Node("Concatenate", literal(1), text(b"a"), NONE)]
    yield lambda: [Node("Concatenate", text(b"a"), literal(1), NONE)]
    yield lambda: [give(element(Node("Package", 3, [named("NONE"), literal(1)]), literal(0)))]
    yield lambda: [give(element(Node("Package", 3, [named("NONE"), literal(1)]), literal(2)))]
    yield lambda: [give(element(Node("Package", 3, [named("NONE"), literal(1)]), literal(3)))]
    yield lambda: [give(element(text(b""), literal(0)))]
    yield lambda: [give(element(literal(1), text(b"a")))]
    yield lambda: [give(element(text(b"a"), text(b"a")))]


def flow_bodies():
    """Exits out of no loop, and values of statements and of methods that give none."""
    yield lambda: [Node("Break")]
    yield lambda: [Node("While", literal(1), [Node("If", literal(1), [Node("Break")])]), Node("Continue")]
    yield lambda: [Node("Store", literal(0), local(0)),
                   Node("While", Node("LLess", local(0), literal(2)), [Node("Increment", local(0)), named("BRKM")])]
    yield lambda: [give(Node("Store", literal(1), named("INT0")))]
    yield lambda: [give(Node("Store", literal(1), Node("Debug")))]
    yield lambda: [Node("While", Node("Store", literal(1), named("INT0")), [])]
    yield lambda: [named("METH", Node("Store", literal(1), named("FLD0")))]
    yield lambda: [give(named("NOVA"))]
    yield lambda: [named("NOVA"), give(literal(1))]
    yield lambda: [Node("If", named("NOVA"), [])]
    yield lambda: [Node("Store", named("NOVA"), NONE)]
    yield lambda: [named("METH", named("NOVA"))]
    yield lambda: [named("_OSI", named("NOVA"))]
    yield lambda: [named("AOSI", text(b"X"))]
    yield lambda: [give(named("AOSI", text(b"X")))]
    yield lambda: [give(named("_OSI", text(b"")))]
    yield lambda: [give(Node("Add", named("_OSI", literal(1)), local(0), NONE))]


def reference_bodies():
    """Operators that name an object without reading it, and literals within literals."""
    yield lambda: [Node("RefOf", named("NONE"))]
    yield lambda: [Node("CondRefOf", named("NONE"), local(0))]
    yield lambda: [Node("CondRefOf", local(0), NONE)]
    yield lambda: [Node("CondRefOf", Node("Debug"), NONE)]
    yield lambda: [give(Node("CondRefOf", named("_OSI"), NONE))]
    yield lambda: [give(Node("CondRefOf", named("\\"), NONE))]
    yield lambda: [give(Node("CondRefOf", named("^"), NONE))]
    yield lambda: [give(Node("CondRefOf", named("^^"), NONE))]
    yield lambda: [named("^")]
    yield lambda: [Node("Store", literal(1), named("^"))]
    yield lambda: [Node("Sleep", text(b"a"))]
    yield lambda: [Node("ToInteger", buffer(0), named("NONE"))]
    yield lambda: [Node("ToInteger", text(b"1"), NONE)]
    yield lambda: [Node("ToBuffer", text(b"1"), NONE)]
    yield lambda: [Node("ToBuffer", Node("Package", 0, []), NONE)]
    yield lambda: [Node("Return", Node("Buffer", literal(2), b"abc"))]
    yield lambda: [Node("Return", Node("VarPackage", literal(2), [literal(1), literal(2), Node("Buffer", local(0), b"")]))]
    yield lambda: [Node("Return", Node("Buffer", Node("Buffer", literal(1), b""), b""))]


def bodies():
    """Bodies as functions, so that each has nodes of its own."""
    for part in (own_name_bodies, predefined_bodies, mutex_bodies, notify_bodies, operator_bodies, flow_bodies,
                 reference_bodies):
        yield from part()


def inner_bodies():
    """Bodies that stand in a device within a device, where `^` names something."""
    yield lambda: [give(Node("CondRefOf", named("^"), NONE))]
    yield lambda: [give(Node("CondRefOf", named("^^"), NONE))]
    yield lambda: [give(Node("CondRefOf", named("^^^"), NONE))]
    yield lambda: [give(Node("CondRefOf", named("^^^^"), NONE))]
    yield lambda: [Node("Notify", named("^"), literal(1))]
    yield lambda: [Node("Notify", named("^^"), literal(1)), give(named("INT0"))]
    yield lambda: [give(named("^INT0"))]
    yield lambda: [give(named("^^INT0"))]
    yield lambda: [give(named("^^^INT0"))]
    yield lambda: [give(named("INT0"))]
    yield lambda: [give(named("DEV1.INT0"))]
    yield lambda: [give(named("^^DEV1.INT0"))]
    yield lambda: [give(Node("Package", 4, [named("INT0"), named("^INT0"), named("DEV1.INT0"), named("^")]))]
    yield lambda: [define("INT0", literal(0x77)), give(Node("Package", 2, [named("INT0"), named("^^INT0")]))]


class Hand:
    """What `Comparison` asks of a board."""

    def __init__(self, revision):
        self.modules = [module()]
        self.namespace = Namespace(self.modules, 64 if revision >= 2 else 32)
        self.revision, self.registers, self.osi = revision, [("io", 0x60, bytes(range(1, 33)))], "X" if revision > 1 else ""

    def methods(self):
        return [t for t in self.namespace.pairs.values() if t.kind == "method" and t.count == 0]

    def arguments_for(self, method):
        return []

    def kinds_text(self):
        return b""


def module():
    """The definitions of the table."""
    made = [define("BUF0", buffer(4, b"\x01\x02\x03\x04")), define("INT0", literal(0x10)), define("STR0", text(b"abc")),
            Node("OperationRegion", name("REG0"), 1, literal(0x60), literal(32)),
            Node("Field", name("REG0"), 1, [("name", "FLD0", 8), ("skip", 24), ("name", "WIDE", 128)]),
            Node("Mutex", name("MTX0"), 0), Node("Mutex", name("MTX1"), 1), Node("Alias", name("MTX1"), name("ALMT")),
            Node("Alias", name("BUF0"), name("ALI0")), Node("Alias", name("_GL_"), name("ALGL")),
            Node("Alias", name("_OSI"), name("AOSI")),
            Node("Method", name("METH"), 1, [give(argument(0))]), Node("Method", name("NOVA"), 0, [Node("Noop")]),
            Node("Method", name("BRKM"), 0, [Node("Break")]),
            Node("Method", name("REL1"), 0, [Node("Release", named("MTX1"))]),
            Node("Method", name("TAKE"), 0, [Node("Acquire", named("MTX1"), 0)]),
            Node("Method", name("LOW0"), 0, [Node("Acquire", named("MTX0"), 0), Node("Release", named("MTX0")),
                                             give(literal(2))])]
    for number, body in enumerate(bodies()):
        made.append(Node("Method", name(f"M{number:03d}"), 0, body()))
    made += [Node("PowerResource", name("POWR"), 0, 0, []), Node("Processor", name("PROC"), 1, 0x410, 6, []),
             Node("ThermalZone", name("THRM"), [])]
    inner = [define("INT0", literal(0x30))] + [Node("Method", name(f"N{n:03d}"), 0, body()) for n,
                                               body in enumerate(inner_bodies())]
    outer = [define("INT0", literal(0x20)), Node("Device", name("DEV1"), inner)]
    made.append(Node("Device", name("DEV0"), outer))
    made.append(Node("Alias", name("DEV0"), name("ADEV")))
    made.append(Node("Device", name("\\ADEV.DEV2"), [Node("Method", name("OUTS"), 0, [give(named("INT0"))])]))
    made.append(Node("Method", name("\\ADEV.OUT2"), 0, [give(named("INT0"))]))
    made.append(Node("Scope", name("ADEV"),
                     [Node("Method", name("OUT3"), 0, [give(named("INT0"))]),
                      Node("DefName", name("^PKG0"), Node("Package", 2, [named("INT0"), named("DEV1")]))]))
    return made


def compare_by_hand(given, cases, limit):
    """Compares the board of each revision, and gives a script's status."""
    compared = differences = 0
    for revision in (1, 2):
        with tempfile.TemporaryDirectory() as folder:
            comparison = Comparison(Program(given.program), folder, revision, limit)
            comparison.evaluation_case(random.Random(revision), cases(revision))
        compared, differences = compared + comparison.done, differences + comparison.differences
    print(f"{compared} compared, {differences} differences")
    return 1 if differences else 0


def main():
    return compare_by_hand(given_words(words_of(__doc__)), Hand, LIMIT)


if __name__ == "__main__":
    run_deeply(main)
