#!/usr/bin/env python3
"""Compares the verdicts on tables made by hand, for edges that chance seldom meets.

    python3 edges.py [--program PATH] [--show]

With --show each verdict is printed.
"""
import tempfile

from aml import integer, op, packaged, table_of
from generate import NONE, argument, buffer, local, string
from judge import verdict_lines
from program import Program, given_words, run_deeply, words_of

L0, L1, L2, A0 = local(0), local(1), local(2), argument(0)
COUNT = [0]


def give(term):
    """A Return."""
    return op("Return", term)


def method(body, count=0, name=None):
    """A method of its own name."""
    COUNT[0] += 1
    return op("Method", (name or f"E{COUNT[0]:03X}").encode(), bytes([count]), body)


def set_to(value, slot=L0):
    """A Store of an integer into a local."""
    return op("Store", integer(value), slot)


def up(limit, body=b"", slot=L0):
    """A loop that counts a local up to a limit."""
    return op("While", op("LLess", slot, limit), body + op("Increment", slot))


def qword(value):
    """An integer in eight bytes."""
    return b"\x0e" + value.to_bytes(8, "little")


def bounds():
    """Steps at and round 2^63, and greater ones that do not count."""
    c = (2 ** 63 - 8) // 6
    most = set_to(0) + up(qword(c))
    made = [method(most + op("Noop") * k) for k in range(4)]
    made += [method(most, name="MOST"), method(b"MOST"), method(op("If", A0, op("Noop") * 3), 1)]
    huge = set_to(0, L1) + op("While", op("LLess", L1, qword(2 ** 63)),
                              set_to(0, L2) + up(qword(2 ** 63), slot=L2) + op("Increment", L1))
    made += [method(huge), method(set_to(0) + up(b"\0", huge)), method(set_to(0) + up(b"\1", huge)),
             method(set_to(0) + op("While", L0, huge + op("Decrement", L0)))]
    made += [method(set_to(0) + op("While", op("LGreater", L0, b"\x0a\5"), huge + op("Decrement", L0))),
             method(set_to(6) + op("While", op("LGreater", L0, b"\x0a\5"), huge + op("Decrement", L0)))]
    made += [method(set_to(0)
                    + up(b"\0", set_to(0, L1) + up(qword(2 ** 64 - 1), set_to(0, L2) + up(qword(2 ** 64 - 1), slot=L2),
                                                   slot=L1)) + give(L0))]
    made += [method(set_to(0) + up(b"\0", b"MOST" * 5)), method(set_to(0) + up(b"\0", b"MOST" * 5, L0) + b"MOST")]
    made += [method(op("While", b"\1", huge + op("Break"))), method(op("If", b"\0", most) + packaged(b"\xa1", most)),
             method(op("If", b"\0", most + op("Noop")) + packaged(b"\xa1", most))]
    made += [method(give(b"\1") + huge), method(give(b"\1") + set_to(0) + up(b"\0", huge))]
    made += [method(op("Acquire", b"MTX1", b"\0\0") + huge), method(huge + op("Acquire", b"MTX1", b"\0\0") + give(b"\1"))]
    made += [method(set_to(2 ** 63 - 1) + op("While", L0, op("Decrement", L0))),
             method(set_to(2 ** 64 - 1) + op("While", op("LGreater", L0, qword(2 ** 64 - 2)), op("Decrement", L0)) + give(L0))]
    made += [method(op("While", A0, op("Subtract", A0, b"\1", A0)), 1),
             method(op("Store", A0, L0) + op("While", op("LGreater", L0, qword(2 ** 64 - 1)), huge + op("Decrement", L0)), 1)]
    return [b"".join([op("Mutex", b"MTX1", b"\1")] + made)]


def great():
    """Packages, buffers and strings at their limits."""
    package = op("VarPackage", b"\x0b\xff\xff", b"\1" * 3)
    full = op("VarPackage", b"\x0b\xff\xff", b"\1" * 65535)
    over = op("VarPackage", b"\x0b\xff\xff", b"\1" * 65536 + string("a"))

    def at(what, index):
        return op("DerefOf", op("Index", what, index, NONE))

    made = [op("Name", b"PKGA", package), op("Name", b"PKGF", full), op("Name", b"PKGO", over),
            op("Name", b"BUFF", buffer(65536)), op("Name", b"STRF", string("a" * 65536))]
    for name in (b"PKGA", b"PKGF", b"PKGO", b"BUFF", b"STRF"):
        made += [method(give(at(name, integer(i)))) for i in (0, 2, 3, 65534, 65535, 65536)]
        made += [method(give(at(name, op("And", A0, integer(i), NONE))), 1) for i in (2, 65534, 65535, 65536)]
        made += [method(op("Store", name, L0) + give(op("SizeOf", L0))), method(give(op("SizeOf", name))),
                 method(give(at(buffer(65536), op("SizeOf", name)))),
                 method(give(at(buffer(65536), op("Subtract", op("SizeOf", name), b"\1", NONE))))]
        made += [method(give(at(buffer(65536), op("And", op("SizeOf", name), op("SizeOf", name), NONE)))),
                 method(give(op("Concatenate", name, name, NONE)))]
    made += [method(give(op("Concatenate", b"BUFF", buffer(0), NONE))),
             method(give(op("Concatenate", b"BUFF", buffer(1), NONE))),
             method(give(op("Concatenate", b"STRF", string(""), NONE))),
             method(give(op("Concatenate", string("a"), b"STRF", NONE)))]
    made += [method(package), method(full), method(over), method(op("VarPackage", b"\x0c\0\0\1\0")),
             method(op("VarPackage", b"\x0e\1\0\0\0\1\0\0\0")), method(op("Buffer", b"\x0e\1\0\0\0\1\0\0\0", b"")),
             method(op("Buffer", b"\x0c\1\0\1\0", b"\1")), method(op("Buffer", b"\0", bytes(65536))),
             method(op("Buffer", b"\0", bytes(65537))), method(op("Buffer", L0, bytes(65537))),
             method(op("Buffer", b"AAAA", bytes(65537)))]
    made += [method(give(at(b"HANY\1", op("SizeOf", b"HANY\1")))),
             op("Method", b"HANY", b"\1", op("If", A0, give(package)) + give(op("Package", b"\0"))),
             method(op("Store", b"HANY\1", L0) + give(at(buffer(65535), op("SizeOf", L0)))),
             method(op("Store", b"HANY\1", L0) + give(at(buffer(65536), op("SizeOf", L0))))]
    return [b"".join(made)]


def externals():
    """How many terms a name takes that names nothing."""
    made = [op("External", b"EXA0", b"\x08", b"\1"),
            op("Device", b"DEV0", op("External", b"EXA0", b"\1", b"\2") + op("External", b"EXA1", b"\x08", b"\2")
               + op("External", b"^EXA2", b"\x08", b"\1") + op("External", b"^^EXA3", b"\x08", b"\1") +
               b"".join(method(n + b"\1" * 4) for n in (b"EXA0", b"EXA1", b"EXA2", b"EXA3", b"EXA4", b"EXA5", b"\\EXA1",
                                                        b"^EXA1", b"\\\x2eDEV0EXA1", b"\x2eDEV0EXA1", b"\x2f\x01EXA1")))]
    names = (b"EXA0", b"EXA1", b"EXA2", b"EXA3", b"EXA4", b"EXA5", b"EXA6", b"EXA7", b"\\EXA4", b"^EXA4", b"^^EXA4",
             b"\x2eDEV0EXA1", b"\\\x2eDEV0EXA1")
    made += [method(n + b"\1" * 4 + give(op("Add", n, b"\1", NONE))) for n in names]
    made += [method(n + b"\1" * k) for n in names for k in (0, 1, 2)]
    made += [method(op("External", b"EXA6", b"\x08", b"\1")), method(b"EXA6\1"),
             method(op("Scope", b"DEV0", op("External", b"EXA7", b"\x08", b"\1")))]
    made += [op("External", b"EXA8", b"\x08", b"\xff"), method(b"EXA8" + b"\1" * 254), method(b"EXA8" + b"\1" * 255),
             method(b"EXA8" + b"\1" * 256)]
    made += [method(op("Name", b"EXA0", b"\1") + b"EXA0" + op("Noop")),
             method(op("If", b"\1", op("Name", b"EXA0", b"\1")) + b"EXA0" + op("Noop")),
             method(op("Name", b"^EXA0", b"\1") + b"EXA0" + op("Noop"))]
    return [b"".join(made), op("External", b"EXA4", b"\x08", b"\1") + op("External", b"EXA0", b"\x08", b"\2")
            + op("Scope", b"DEV0", op("External", b"EXA5", b"\x08", b"\3"))]


def own_names():
    """Own names that hide others, before and behind their definition."""
    made = [op("Method", b"MET1", b"\1", give(A0)), op("Name", b"BUF4", buffer(4)), op("Name", b"BUF1", buffer(1)),
            op("Name", b"INT0", b"\1"), op("Device", b"DEV0"), op("Mutex", b"MTX1", b"\1")]
    return [b"".join(made + [method(body, 1) for body in own_data() + own_fields()])]


def own_data():
    """Bodies with names of their own, most of them of data."""
    def own(data):
        return op("Name", b"MET1", data)

    return [
        b"MET1\1" + own(b"\1") + give(b"MET1"), own(b"\1") + b"MET1" + op("Noop"),
        own(buffer(3)) + give(op("DerefOf", op("Index", b"MET1", b"\x0a\2", NONE))),
        own(buffer(3)) + give(op("DerefOf", op("Index", b"MET1", b"\x0a\3", NONE))),
        own(b"\1") + op("Increment", b"MET1") + give(b"MET1"), own(b"\1") + give(b"\\MET1\1"),
        own(b"\1") + give(b"^MET1\1"), own(b"\1") + give(b"\x2f\1MET1"), op("Name", b"\x2f\1MET1", b"\1") + give(b"MET1"),
        op("Name", b"BUF4", buffer(2)) + op("Store", b"\1", op("Index", b"BUF4", b"\x0a\3", NONE)),
        op("Store", b"\1", op("Index", b"BUF4", b"\x0a\3", NONE)) + op("Name", b"BUF4", buffer(2)),
        op("CreateByteField", b"BUF4", b"\x0a\3", b"BUF4") + give(b"BUF4"),
        op("CreateByteField", b"MET1\1", b"\0", b"MET1"), op("CreateByteField", b"NONE", b"\0", b"NONE"),
        op("CreateByteField", b"OWN0", b"\0", b"OWN1") + op("Name", b"OWN0", buffer(1)),
        op("Name", b"OWN0", buffer(1)) + op("CreateByteField", b"OWN0", b"\0", b"OWN1") + op("CreateByteField", b"OWN1",
            b"\0", b"OWN2"), give(b"\1") + op("Name", b"OWN0", b"\1") + b"OWN0",
        give(b"\1") + op("Name", b"OWN0", b"\1") + op("Name", b"OWN0", b"\1"),
        op("If", b"\1", b"OWN0") + op("Name", b"OWN0", b"\1"),
        op("Name", b"OWN0", b"\1") + op("If", b"OWN0", op("Store", b"OWN0", L0)) + op("SizeOf", b"OWN0"),
        op("Name", b"OWN0", op("Package", b"\2", b"OWN0" + b"\1")) + give(op("DerefOf", op("Index", b"OWN0", b"\1", NONE))),
        op("Name", b"OWN0", op("Package", b"\2", b"OWN0" + b"\1"))
        + give(op("DerefOf", op("Index", b"OWN0", b"\0", NONE))), own(b"\1") + give(op("Package", b"\1", b"MET1")),
        op("Name", b"DEV0", b"\1") + op("Notify", b"DEV0", b"\1"),
        op("Name", b"DEV0", b"\1") + op("Notify", b"^DEV0", b"\1"),
        op("Name", b"DEV0", b"\1") + op("Notify", b"\\DEV0", b"DEV0"),
        op("Name", b"MTX1", b"\1") + op("Acquire", b"MTX1", b"\0\0"),
        op("Name", b"OWN0", b"\1") + give(op("CondRefOf", b"OWN0", NONE)),
        op("Name", b"OWN0", string("ab")) + op("Store", string("cd"), b"OWN0") + op("Store", string("c"), b"OWN0"),
        op("Name", b"OWN0", op("Package", b"\1", b"\1")) + op("Store", b"OWN0", b"OWN0"),
        op("Name", b"OWN0", buffer(0)) + op("CreateField", b"OWN0", b"\0", b"\0", b"OWN1") + b"OWN1",
        op("Name", b"OWN0", buffer(300)) + op("CreateField", b"OWN0", b"\0", b"\x0b\0\x08", b"OWN1") + op("CreateField",
            b"OWN0", b"\0", b"\x0b\1\x08", b"OWN2") + op("Store", b"OWN1", L0) + b"OWN2",
    ]


def own_fields():
    """Bodies with buffer fields of their own, and with own names where none can stand."""
    return [
        op("CreateBitField", b"BUF1", b"\x0a\7", b"OWN0") + op("CreateBitField", b"BUF1", b"\x0a\x08", b"OWN1")
        + give(op("Add", b"OWN0", b"OWN1", NONE)), op("CreateByteField", b"BUF1", qword(2 ** 61), b"OWN1") + b"OWN1",
        op("CreateByteField", b"BUF1", qword(2 ** 32), b"OWN1") + b"OWN1",
        op("CreateField", b"BUF1", qword(2 ** 64 - 1), b"\1", b"OWN1") + b"OWN1",
        op("CreateField", b"BUF1", qword(2 ** 64 - 1), qword(2 ** 32 + 2), b"OWN1") + b"OWN1",
        op("CreateByteField", b"INT0", b"\0", b"OWN1") + op("CondRefOf", b"OWN1", NONE) + op("SizeOf", b"OWN1"),
        op("CreateByteField", b"INT0", b"\0", b"OWN1") + op("Store", b"NONE", b"OWN1"),
        op("CreateByteField", b"INT0", b"\0", b"OWN1") + op("Store", b"\1", b"OWN1"),
        op("CreateField", b"INT0", b"\0", b"\0", b"OWN1") + op("Store", b"\1", b"OWN1"),
        op("CreateByteField", b"BUF4", b"\x5b\x30", b"OWN1"), op("CreateByteField", b"BUF4", string("a"), b"OWN1"),
        op("CreateByteField", L0, b"\0", b"OWN1"), op("CreateByteField", b"NONE", b"NONE", b"OWN1"),
        op("CreateByteField", b"DEV0", b"\0", b"OWN1"), op("CreateByteField", b"_REV", b"\0", b"OWN1"),
        op("Name", b"OWN0", b"\1") + op("While", op("LLess", b"OWN0", b"\x0a\5"), op("Increment", b"OWN0")),
        op("Name", b"OWN0", b"\1") + op("If", op("LLess", b"OWN0", b"\x0a\4"),
                                        give(op("DerefOf", op("Index", b"BUF4", b"OWN0", NONE)))),
        op("Name", b"\0", b"\1"), op("Name", b"\\", b"\1"), op("Name", b"\\\0", b"\1"), op("Name", b"^\0", b"\1"),
        op("Name", b"\x2eOWN0OWN1", b"\1"), op("While", b"\1", op("Name", b"OWN0", b"\1") + op("Break")),
        packaged(b"\xa0", b"\1") + packaged(b"\xa1", op("CreateByteField", b"BUF4", b"\0", b"OWN0")),
        op("Name", b"OWN0", b"\1") + op("Alias", b"OWN0", b"OWN1"),
        op("Name", b"OWN0", b"\1") + op("Field", b"OWN0", b"\1", b"OWN0\x08"),
        op("Name", b"OWN0", b"\1") + op("Wait", b"OWN0", b"NONE"), op("Name", b"OWN0", b"\1") + b"\x2eOWN0OWN0",
        op("Name", b"OWN0", b"\1") + op("Scope", b"OWN0", b"OWN0"),
    ]


def links():
    """What is linked once all tables are loaded: sources, regions and names that come later, and by aliases."""
    def use(name):
        return method(give(name)) + method(op("Store", b"\1", name))

    first = [op("CreateByteField", b"LATE", b"\0", b"CLA0"), op("CreateByteField", b"LATE", b"\x0a\4", b"CLA1"),
             op("Field", b"RLAT", b"\1", b"FLA0\x08" + b"FLA1\x20"),
             op("Device", b"DEV0", op("CreateByteField", b"LATE", b"\1", b"CLA2") + op("Field", b"RLAT", b"\1",
                b"FLA2\x08") + op("Name", b"LATE", buffer(1)) + op("CreateByteField", b"\\LATE", b"\1", b"CLA3")
                + op("CreateByteField", b"^LATE", b"\1", b"CLA4")),
             op("IndexField", b"FIX0", b"FDA0", b"\1", b"FIN0\x08" + b"FIN1\x09"),
             op("BankField", b"RLAT", b"FIX0", b"\1", b"\1", b"FBA0\x08"),
             op("IndexField", b"FBA0", b"FDA0", b"\1", b"FIN2\x08"),
             op("IndexField", b"FIX0", b"FIN0", b"\1", b"FIN3\x08"),
             op("BankField", b"RLAT", b"FIN0", b"\1", b"\1", b"FBA1\x08"),
             op("IndexField", b"CLA0", b"FDA0", b"\1", b"FIN4\x08"),
             op("IndexField", b"FIX0", b"FIX0", b"\1", b"FIN5\x10"),
             op("IndexField", b"FODD", b"FODD", b"\1", b"FIN6\x10"),
             op("IndexField", b"FWID", b"FWID", b"\4", b"FIN7\x41" b"\4"),
             op("IndexField", b"FIX0", b"FQWD", b"\4", b"FIN8\x40\4" + b"FIN9\x08"),
             op("BankField", b"RLAT", b"FWID", qword(2 ** 64 - 1), b"\1", b"FBA2\x0c"),
             op("IndexField", b"FIX0", b"FDA0", b"\x21", b"FIA0\x04"),
             op("IndexField", b"FIX0", b"FDA0", b"\x41", b"FIA1\x0c"),
             op("IndexField", b"FIX0", b"FPAR", b"\2", b"FIA2\x0c"),
             op("IndexField", b"FIX0", b"FDA0", b"\1", b"\1\2\0" + b"FIA3\x08" + b"\1\1\0" + b"FIA4\x08" + b"\2FIX0"
                + b"FIA5\x08")]
    second = [op("Name", b"LATE", buffer(4)), op("OperationRegion", b"RLAT", b"\1", b"\0", b"\x0a\4"),
              op("OperationRegion", b"RG10", b"\0", b"\0", b"\x0a\x40"), op("Alias", b"RG10", b"RALI"),
              op("Field", b"RALI", b"\1", b"FIX0\x08" + b"FDA0\x08" + b"\0\3" + b"FODD\x03"),
              op("Field", b"RG10", b"\3", b"\0\x08" + b"FWID\x41\4" + b"\0\x3f" + b"FQWD\x40\4" + b"\0\4" + b"FPAR\x10"),
              op("Alias", b"FIX0", b"FIXA"), op("Alias", b"FDA0", b"FDAA"),
              op("IndexField", b"FIXA", b"FDAA", b"\1", b"FIB0\x08"), op("Alias", b"LATE", b"LATA"),
              op("CreateByteField", b"LATA", b"\0", b"CLA5"), op("Alias", b"DEV0", b"DEVA"),
              op("Scope", b"DEVA", op("Name", b"INN0", b"\1")), op("Name", b"\x2eDEVAINN1", b"\1")]
    names = [b"CLA0", b"CLA1", b"FLA0", b"FLA1", b"\\\x2eDEV0CLA2", b"\\\x2eDEV0CLA3", b"\\\x2eDEV0CLA4",
             b"\\\x2eDEV0FLA2", b"FBA0", b"FBA1", b"FBA2", b"FIXA", b"CLA5", b"\\\x2eDEVACLA2", b"\\\x2eDEV0INN0",
             b"\\\x2eDEVAINN0", b"\\\x2eDEV0INN1", b"\\\x2eDEVAINN1", b"^\x2eDEV0INN0", b"^\x2eDEVAINN1", b"FIB0",
             b"FODD", b"FWID", b"FQWD", b"FPAR"] + [b"FIN%d" % i for i in range(10)] + [b"FIA%d" % i for i in range(6)]
    return [b"".join(first), b"".join(second + [use(name) for name in names])]


def calls():
    """The order of what is told at a call."""
    chain = [f"HC{i:02d}".encode() for i in range(70)]
    made = [op("Method", name, b"\0", give(chain[i + 1] if i < 69 else b"\1")) for i, name in enumerate(chain)]
    made += [op("Mutex", b"MTX%d" % i, bytes([i])) for i in range(4)]
    made += [op("Method", b"HX64", b"\1", give(b"HC07")), op("Method", b"HX6S", b"\1", op("If", A0, give(b"HC07"))),
             op("Method", b"HX63", b"\1", give(b"HC08")), op("Method", b"HX6N", b"\1", b"HC07"),
             op("Method", b"HXDD", b"\0", give(b"\1") + b"HC06"),
             op("Method", b"HXPK", b"\0", give(b"\1") + op("Store", b"\1", op("Index", b"HC06", b"\0", NONE)))]
    made += [op("Method", b"HACQ", b"\1", op("Acquire", b"MTX0", b"\0\0") + op("Release", b"MTX0") + give(A0)),
             op("Method", b"HACD", b"\1", give(A0) + op("Acquire", b"MTX1", b"\0\0")),
             op("Method", b"HACC", b"\1", give(b"HACD" + A0)), op("Method", b"HSOM", b"\1", op("If", A0, give(b"\1"))),
             op("Method", b"HREF", b"\1", give(op("Timer"))), op("Method", b"HNOB", b"\1", b"\xfe"),
             op("Method", b"HX6A", b"\1", op("Acquire", b"MTX1", b"\0\0") + op("Release", b"MTX1") + give(b"HC07"))]

    def held(level, body):
        return op("Acquire", b"MTX%d" % level, b"\0\0") + body + op("Release", b"MTX%d" % level)

    for callee in (b"HX64", b"HX6S", b"HX63", b"HX6N", b"HACQ", b"HACD", b"HACC", b"HSOM", b"HREF", b"HNOB", b"HX6A"):
        for part in (b"\1", string("a"), b"NONE", L0, b"SELF" + b"\1"):
            for level in (None, 0, 1, 2):
                for body in (callee + part, give(callee + part), op("Store", callee + part, L1)):
                    made.append(method(body if level is None else held(level, body)))
    made += [op("Method", b"SELF", b"\1", give(b"SELF" + A0)), method(b"HXDD"), method(give(b"HXPK")),
             method(give(b"HC06")), method(give(b"HC05")), method(give(b"HC07"))]
    return [b"".join(made + cycles())]


def cycles():
    """Cycles by way of what is refused, of dead code, and of names where no call can stand."""
    return [op("Method", b"CYA0", b"\0", give(b"\1") + b"CYA1"), op("Method", b"CYA1", b"\0", op("Timer") + b"CYA0"),
            op("Method", b"CYA2", b"\0", b"CYA0"), op("Method", b"CYB0", b"\0", op("CopyObject", b"CYB1", L0)),
            op("Method", b"CYB1", b"\0", b"CYB0"), op("Method", b"CYC0", b"\0", op("Scope", b"NONE", b"CYC1")),
            op("Method", b"CYC1", b"\0", b"CYC0"),
            op("Method", b"CYD0", b"\0", op("Package", b"\1", b"CYD1") + op("CondRefOf", b"CYD1", NONE)),
            op("Method", b"CYD1", b"\0", b"CYD0"), op("Method", b"CYE0", b"\0", b"CYE1" + b"\xfe"),
            op("Method", b"CYE1", b"\0", b"CYE0"), op("Method", b"CYF0", b"\0", op("Method", b"AAAA", b"\0", b"CYF1")),
            op("Method", b"CYF1", b"\0", b"CYF0"),
            op("Method", b"CYG0", b"\0", op("Buffer", b"CYG1", b"")), op("Method", b"CYG1", b"\0", b"CYG0"),
            op("Method", b"CYH0", b"\0", op("Store", b"\1", op("Index", b"CYH1", b"\0", NONE))),
            op("Method", b"CYH1", b"\0", b"CYH0"), op("Method", b"CYI0", b"\0", op("Store", b"\1", b"CYI1")),
            op("Method", b"CYI1", b"\0", b"CYI0"),
            op("Method", b"CYJ0", b"\0", op("Name", b"CYJ1", b"\1") + give(b"CYJ1")),
            op("Method", b"CYJ1", b"\0", give(b"CYJ0")),
            op("Method", b"CYK0", b"\0", op("Field", b"NONE", b"\0", b"\2" + op("Buffer", b"CYK1", b""))),
            op("Method", b"CYK1", b"\0", b"CYK0"), op("Method", b"CYL0", b"\1", b"_OSI" + b"CYL1"),
            op("Method", b"CYL1", b"\0", b"CYL0\1"), op("Method", b"CYM0", b"\0", b"EXTM" + b"CYM1"),
            op("External", b"EXTM", b"\x08", b"\1"), op("Method", b"CYM1", b"\0", b"CYM0")]


def dsm():
    """The kinds that a _DSM has of itself."""
    def body(k):
        return give(op("DerefOf", op("Index", A0, integer(k), NONE)))

    made = [op("Method", b"_DSM", b"\4", body(15) + op("Store", argument(3), L0) + give(op("SizeOf", L0)))]
    for number, (flags, inner) in enumerate([(4, body(16)), (3, body(15)), (5, body(15)), (0x8C, body(15)),
                                             (4, give(op("Add", argument(1), argument(2), argument(3)))),
                                             (4, give(op("DerefOf", op("Index", argument(3), b"\0", NONE)))),
                                             (4, give(argument(3)))]):
        made.append(op("Device", b"DV%02d" % number, op("Method", b"_DSM", bytes([flags]), inner)))
    made += [op("Name", b"BUFX", buffer(16))]
    for path in (b"\\_DSM", b"\\\x2eDV03_DSM", b"\\\x2eDV06_DSM", b"\\\x2eDV04_DSM"):
        made += [method(give(path + b"BUFX\0\0" + op("Package", b"\0"))),
                 method(give(path + buffer(15) + b"\0\0" + op("Package", b"\0"))),
                 method(give(path + b"BUFX" + b"\0\0\0")),
                 method(give(path + b"BUFX\xff\xff" + op("Package", b"\1", b"AAAA")))]
    return [b"".join(made)]


CASES = [dsm, bounds, great, externals, own_names, links, calls]


def compare(program, case, revision, shows):
    """How many verdicts on one case were compared, and how many differ."""
    COUNT[0] = 0
    tables = [table_of(body, revision, b"SSDT" if i else b"DSDT") for i, body in enumerate(case())]
    mine, theirs = verdict_lines(tables), program.lines(tables)
    found = 0
    for a, b in zip(mine, theirs):
        if a != b:
            found += 1
            print("DIFFERENCE", case.__name__, revision, "\n  reference", a, "\n  program  ", b)
        elif shows:
            print(case.__name__, revision, a)
    if len(mine) != len(theirs):
        found += 1
        print("DIFFERENCE in the number of lines", case.__name__, len(mine), len(theirs))
    return len(mine), found


def main():
    words = words_of(__doc__)
    words.add_argument("--show", action="store_true")
    given = given_words(words)
    found = total = 0
    with tempfile.TemporaryDirectory() as folder:
        program = Program(given.program, folder)
        for case in CASES:
            for revision in (1, 2):
                compared, differ = compare(program, case, revision, given.show)
                total, found = total + compared, found + differ
    print(f"{total} compared, {found} differences")
    return 1 if found else 0


if __name__ == "__main__":
    run_deeply(main)
