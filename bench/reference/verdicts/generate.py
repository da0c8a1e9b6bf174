"""Random tables: named objects of every kind, and methods over them with a bias to what is accepted and to the edges."""
import random

from aml import (CLASSES, OPERATORS, Reader, Spelling, bits_bytes, integer, name_bytes, op, packaged,
                 table_of)
from judge import Judge, read_signatures
from names import Namespace, sound

EDGES = [0, 1, 2, 3, 4, 5, 7, 8, 9, 15, 16, 17, 31, 32, 33, 63, 64, 65, 127, 128, 255, 256, 257, 65535, 65536,
         2 ** 31, 2 ** 32 - 1, 2 ** 32, 2 ** 32 + 1, 2 ** 32 + 3, 2 ** 33, 2 ** 63 - 1, 2 ** 63, 2 ** 64 - 1]
SMALL = [0, 1, 2, 3, 4, 5, 7, 8, 15, 16]
PAIRS = ["Add", "Subtract", "Multiply", "ShiftLeft", "ShiftRight", "And", "Nand", "Or", "Nor", "Xor"]
NONE, DEBUG = b"\0", b"\x5b\x31"
TYPES = ("int", "buf", "str", "pkg")


def local(number):
    return bytes([0x60 + number])


def argument(number):
    return bytes([0x68 + number])


def spelt(rng, value):
    """An integer in any spelling that can hold it."""
    choices = [bytes([lead]) + value.to_bytes(size, "little")
               for lead, size in ((0x0A, 1), (0x0B, 2), (0x0C, 4), (0x0E, 8)) if value < 1 << 8 * size]
    choices += [integer(value)] * 4
    if value == 2 ** 64 - 1:
        choices += [b"\xff"] * 4
    return rng.choice(choices)


def string(text):
    return b"\x0d" + text.encode() + b"\0"


def buffer(size, front=b""):
    return op("Buffer", integer(size), front)


class Tables:
    """The definitions that a table's methods speak of, and their names by what they are."""

    def __init__(self, rng, revision):
        self.rng = rng
        self.revision = revision
        self.parts = []
        self.count = 0
        self.callees = []
        self.data()
        self.places()
        self.regions()
        self.index_and_bank()
        self.buffer_fields()
        self.callee_methods()
        self.aliases()
        self.sort()

    def add(self, *parts):
        self.parts.append(b"".join(parts))

    def fresh(self, prefix):
        self.count += 1
        return f"{prefix}{self.count:03X}"

    # Data.

    def data(self):
        rng = self.rng
        for value in rng.sample(EDGES, 4):
            self.add(op("Name", self.fresh("I").encode(), spelt(rng, value)))
        for size in (0, 1, 2, 4, 5, 8, 9, 16, 33, rng.randrange(300), 256):
            front = bytes(rng.randrange(256) for _ in range(rng.choice([0, 0, 1, size, size + 1])))
            self.add(op("Name", self.fresh("B").encode(), buffer(rng.choice([size, size, 0]), front)))
        for size in (0, 1, 3, 8, rng.randrange(40)):
            self.add(op("Name", self.fresh("S").encode(), string("x" * size)))
        for _ in range(9):
            self.add(op("Name", self.fresh("P").encode(), self.package(3)))
        self.add(op("Name", b"BUF4", buffer(4)))
        self.add(op("Name", b"BUF5", buffer(5)))
        # Two great ones, whose join is past what a value may hold.
        for size in (40000, 25536, 25537, 65536):
            self.add(op("Name", self.fresh("B").encode(), buffer(size)))
        for size in (40000, 25536, 25537):
            self.add(op("Name", self.fresh("S").encode(), string("g" * size)))

    def package(self, depth):
        """A package of some mixture of elements."""
        rng = self.rng
        mood = rng.choice(["int", "int", "buf", "str", "mixed", "pkg", "same", "all"])
        count = rng.choice([0, 1, 2, 3, 4, 5])
        one = self.package(depth - 1) if depth else b"\1"
        elements = []
        for _ in range(count):
            kind = mood if mood != "all" else rng.choice(["int", "buf", "str", "name", "pkg", "mixed"])
            if kind == "int":
                elements.append(spelt(rng, rng.choice(EDGES)))
            elif kind == "buf":
                elements.append(buffer(rng.choice([0, 1, 4]), bytes(rng.choice([0, 1]))))
            elif kind == "str":
                elements.append(string("y" * rng.choice([0, 2, 2])))
            elif kind == "name":
                elements.append(rng.choice([b"\\_SB_", b"NONE", b"\\_GL_", b"^AAAA", b"_REV"]))
            elif kind == "same":
                elements.append(one)
            elif kind == "pkg" and depth:
                elements.append(self.package(depth - 1))
            else:
                elements.append(rng.choice([b"\0", string("z"), buffer(3)]))
        size = max(0, count + rng.choice([0, 0, 0, 0, 0, 1, -1]))
        inner = b"".join(elements)
        if rng.random() < 0.5:
            return op("Package", bytes([size]), inner)
        return op("VarPackage", spelt(rng, size), inner)

    # Devices and the like.

    def places(self):
        rng = self.rng
        inner = op("Name", b"INNR", b"\x0a\x05") + op("Mutex", b"INMX", b"\x02")
        self.add(op("Device", b"DEV0", inner))
        self.add(op("Device", b"DEV1", op("Device", b"DEV2", op("Name", b"DEEP", buffer(3)))))
        self.add(op("Processor", b"CPU0", b"\1", b"\0" * 4, b"\6", b""))
        self.add(op("ThermalZone", b"THM0", b""))
        self.add(op("PowerResource", b"PWR0", b"\0", b"\0\0", b""))
        self.add(op("Event", b"EVT0"))
        for number, level in enumerate((0, 1, 1, 3, 15, 0xF2)):
            self.add(op("Mutex", b"MTX%d" % number, bytes([level])))
        for count in (0, 1, 2, 3, 7):
            self.add(op("External", b"EXT%d" % count, b"\x08", bytes([count])))
        self.add(op("External", b"EXTD", b"\x01", b"\2"))
        self.add(op("External", name_bytes("\\DEV0.EXTE"), b"\x08", b"\2"))
        self.add(op("External", b"EXTE", b"\x08", b"\1"))
        self.add(op("External", b"EXTD", b"\x08", b"\1"))
        self.add(op("External", b"MTX0", b"\x08", b"\3"))

    # Regions.

    def regions(self):
        rng = self.rng
        self.region_names = []
        for number in range(14):
            space = rng.choice([0, 1, 2, 3, 5, 1, 1, 0, 4, 6, 0x80] if number > 3 else [0, 1])
            size = rng.choice([0, 1, 2, 3, 4, 8, 9, 16, 64, 300]) if number > 3 else rng.choice([16, 64, 300])
            place = rng.choice([0x60, 0, 2 ** 32 - 1, 2 ** 64 - size if size else 0, 2 ** 64 - 4] if number > 3 else [0x60])
            place_term, size_term = spelt(rng, place), spelt(rng, size)
            if number > 3 and rng.random() < 0.1:
                place_term = rng.choice([op("Add", b"\1", b"\1", NONE), b"INNR", local(0)])
            if number > 3 and rng.random() < 0.1:
                size_term = rng.choice([op("Add", b"\1", b"\x0a\x20", NONE), string("a")])
            name = self.fresh("R")
            self.region_names.append(name)
            self.add(op("OperationRegion", name.encode(), bytes([space]), place_term, size_term))
        # Fields whose first bit is past 2^32.
        self.add(op("OperationRegion", b"RBIG", b"\0", b"\0", b"\x0e" + (2 ** 40).to_bytes(8, "little")))
        far = (b"\0" + bits_bytes(2 ** 28 - 1)) * 17
        self.add(op("Field", b"RBIG", b"\1", b"FR00" + b"\x08" + far + b"FR01\x08" + b"FR02\x10"))
        self.add(op("Field", b"RBIG", b"\3", far * 15 + b"FR03\x20"))
        self.add(op("DataTableRegion", b"DTRG", string("A"), string("B"), string("C")))
        for name in self.region_names + self.region_names[:4] * 2:
            self.field_list(op_name="Field", front=name.encode())
        for name in (b"DTRG", b"NONE", b"INNR"):
            self.field_list(op_name="Field", front=name)
        # Plain fields that index and bank fields may stand on.
        self.list_fields = []
        for width, access in ((8, 1), (16, 2), (32, 3), (64, 4), (8, 1), (3, 0), (5, 0x21), (32, 1), (8, 0x41), (65, 1)):
            name = self.fresh("L")
            skip = rng.choice([0, 0, 8, 3])
            items = (b"\0" + bits_bytes(skip) if skip else b"") + name.encode() + bits_bytes(width)
            self.add(op("Field", self.region_names[rng.randrange(4)].encode(), bytes([access]), items))
            self.list_fields.append(name)

    def flags(self):
        rng = self.rng
        access = rng.choice([0, 1, 1, 2, 3, 4] * 4 + [5, 6, 15])
        return bytes([access | rng.choice([0, 0x10]) | rng.choice([0, 0, 0x20, 0x40] * 3 + [0x60])])

    def field_list(self, op_name, front):
        """A list of fields, among them some of no bits, wide ones, and some behind a connection."""
        rng = self.rng
        items = b""
        for _ in range(rng.choice([1, 2, 3, 5])):
            roll = rng.random()
            if roll < 0.25:
                items += b"\0" + bits_bytes(rng.choice([0, 1, 3, 8, 16, 20, 4000]))
            elif roll < 0.32:
                items += bytes([1, rng.choice([1, 2, 3, 4, 0x13, 5]), rng.randrange(256)])
            elif roll < 0.34:
                items += rng.choice([b"\x02EVT0", b"\x02" + buffer(2), b"\x03\1\2\3"])
            bits = rng.choice([1, 1, 2, 4, 7, 8, 8, 8, 9, 15, 16, 16, 31, 32, 32, 33, 63, 64, 64, 65, 72, 0, 128, 2048, 2049])
            items += self.fresh("F").encode() + bits_bytes(bits)
        self.add(op(op_name, front, self.flags(), items))

    def index_and_bank(self):
        rng = self.rng
        plain = self.list_fields
        for _ in range(12):
            index, data = rng.choice(plain), rng.choice(plain)
            if rng.random() < 0.7:
                index, data = plain[rng.choice([0, 1, 4, 5])], plain[rng.choice([0, 1, 2, 3])]
            if rng.random() < 0.1:
                data = rng.choice(["NONE", "INNR", "F020"])
            access = {0: 1, 1: 2, 2: 3, 3: 4}.get(plain.index(data) if data in plain else 9, rng.choice([1, 2, 3, 4]))
            if rng.random() < 0.1:
                access = rng.choice([0, 1, 2, 3, 4, 5])
            flags = bytes([access | rng.choice([0, 0, 0x20, 0x40] * 3 + [0x60])])
            items = b""
            for _ in range(rng.choice([1, 2, 3])):
                items += rng.choice([b"", b"", b"\0" + bits_bytes(rng.choice([3, 8, 20, 300]))])
                items += self.fresh("X").encode() + bits_bytes(rng.choice([1, 4, 8, 16, 24, 32, 64, 65, 100, 0]))
            self.add(op("IndexField", index.encode(), data.encode(), flags, items))
        for _ in range(10):
            region = self.region_names[rng.choice([0, 1, 2, 3, 3, 5, 8])]
            bank = rng.choice(plain[:8] + ["NONE", "INNR"]) if rng.random() < 0.4 else plain[rng.choice([0, 1, 4, 5])]
            value = spelt(rng, rng.choice(EDGES))
            if rng.random() < 0.1:
                value = rng.choice([op("Add", b"\1", b"\1", NONE), string("q"), b"INNR"])
            items = b""
            for _ in range(rng.choice([1, 2])):
                items += rng.choice([b"", b"\0" + bits_bytes(rng.choice([3, 8]))])
                items += self.fresh("K").encode() + bits_bytes(rng.choice([1, 4, 8, 16, 24, 32, 64, 65]))
            self.add(op("BankField", region.encode(), bank.encode(), value, self.flags(), items))

    def buffer_fields(self):
        rng = self.rng
        space = Namespace([table_of(b"".join(self.parts), self.revision)])
        buffers = [(p[0], o.content[1]) for p, o in space.paths.items() if o.kind == "data" and o.content[0] == "buf"
                   and len(p) == 1]
        for form, bits in (("CreateBitField", 1), ("CreateByteField", 8), ("CreateWordField", 16),
                           ("CreateDWordField", 32), ("CreateQWordField", 64)) * 2:
            name, size = rng.choice(buffers)
            most = 8 * size - bits if bits == 1 else size - bits // 8
            index = max(0, rng.choice([0, most, most, most + 1, 2 ** 32, 2 ** 32 + 1, 2 ** 61, 2 ** 64 - 1, 1]))
            self.add(op(form, name.encode(), spelt(rng, index), self.fresh("C").encode()))
        for _ in range(8):
            name, size = rng.choice(buffers)
            bits = rng.choice([0, 1, 3, 8, 9, 32, 33, 64, 65, 72, 2048, 2049, 2 ** 32 + 8, 2 ** 64 - 1, 8 * size, 8 * size])
            index = max(0, rng.choice([0, 8 * size - bits, 8 * size - bits + 1, 2 ** 64 - 1]))
            self.add(op("CreateField", name.encode(), spelt(rng, index), spelt(rng, bits), self.fresh("C").encode()))
        for source in (b"NONE", b"INNR", b"P015", b"S010", b"_REV", b"_OS_", b"DEV0"):
            self.add(op("CreateByteField", source, b"\0", self.fresh("C").encode()))

    # Methods that others call.

    def callee(self, name, count, body, result):
        self.add(op("Method", name.encode(), bytes([count | self.rng.choice([0, 8, 0x30])]), body))
        if result:
            self.callees.append((name, count, result))

    def callee_methods(self):
        def ret(term):
            return op("Return", term)

        for count in range(8):
            last = argument(count - 1) if 0 < count else b"\x0a\x07"
            self.callee(f"HI{count}_", count, ret(last), "int")
        self.callee("HBUF", 0, ret(buffer(4)), "buf")
        self.callee("HBU1", 1, ret(buffer(5)), "buf")
        self.callee("HSTR", 0, ret(string("abc")), "str")
        self.callee("HPKG", 0, ret(op("Package", b"\2", b"\1" + b"\x0a\x09")), "pkg")
        self.callee("HANY", 1, op("If", argument(0), ret(op("Package", b"\1", b"\1")))
                    + ret(op("Package", b"\1", string("a"))), "any")
        self.callee("HMIX", 1, op("If", argument(0), ret(b"\1")) + ret(string("a")), "mixed")
        self.callee("HNON", 0, op("Noop"), "none")
        self.callee("HNO1", 1, op("Increment", argument(0)), "none")
        self.callee("HSOM", 1, op("If", argument(0), ret(b"\1")), "some")
        self.callee("HSO2", 0, op("While", b"\1", ret(b"\1")), "some")
        self.callee("HREF", 1, op("Return", op("Timer")), "refused")
        self.callee("HRE2", 0, ret(local(0)), "refused")
        self.callee("HBAD", 1, b"\xa4\x72\x01", "refused")
        self.callee("HBA2", 0, b"\x5b\x31", "refused")
        self.callee("HDEP", 0, ret(b"HBA2"), "refused")
        self.callee("HCY0", 0, ret(b"HCY1"), "refused")
        self.callee("HCY1", 0, ret(b"HCY0"), "refused")
        self.callee("HSLF", 1, ret(b"HSLF" + argument(0)), "refused")
        for number, level in enumerate((0, 1, 3)):
            mutex = f"MTX{number if number < 2 else 3}".encode()
            self.callee(f"HMX{level}", 0, op("Acquire", mutex, b"\xff\xff") + op("Release", mutex), "none")
        self.callee("HMXC", 0, b"HMX1" + ret(b"\1"), "int")
        self.callee("HMXD", 0, ret(b"\1") + op("Acquire", b"MTX0", b"\0\0"), "int")
        self.callee("HBIG", 0, op("Store", b"\0", local(0))
                    + op("While", op("LLess", local(0), b"\x0e" + (2 ** 60).to_bytes(8, "little")),
                         op("Increment", local(0))) + ret(b"\1"), "int")
        self.callee("HSIG", 3, ret(op("DerefOf", op("Index", argument(0), b"\0", NONE))), "sig")
        self.callee("HSI2", 2, ret(argument(1)), "sig2")
        self.long_chain(ret)

    def long_chain(self, ret):
        """Methods of which each calls the next one, and some that call into the chain near its greatest length."""
        names = [f"HC{i:02d}" for i in range(70)]
        for i, name in enumerate(names):
            body = ret(names[i + 1].encode()) if i + 1 < len(names) else ret(b"\1")
            self.callee(name, 0, body, "int" if i in (5, 6, 7) else None)
        self.callee("HX64", 1, ret(b"HC07"), "int")
        self.callee("HX6S", 1, op("If", argument(0), ret(b"HC07")), "some")
        self.callee("HACQ", 1, op("Acquire", b"MTX0", b"\0\0") + op("Release", b"MTX0") + ret(argument(0)), "int")
        self.callee("HACS", 1, op("If", argument(0), ret(argument(0))) + op("Acquire", b"MTX1", b"\0\0") + op("Release",
                    b"MTX1"), "some")

    def signatures(self):
        alias = [name for name, there in self.by["method"] if there.path[0] != name]
        return "".join(f"\\{name} int:0 buf:1\n"
                       for name in alias) + "# kinds\n\\HSIG buf:4 int:9 str:1\n\\HSI2 pkg\n\\NONE int\n"

    def aliases(self):
        rng = self.rng
        for source in (b"B00A", b"I001", b"HI1_", b"HREF", b"DEV0", b"MTX1", b"_OSI", b"_GL_", b"THM0", b"HBUF",
                       b"EVT0", b"P015"):
            self.add(op("Alias", source, self.fresh("A").encode()))
        self.add(op("Alias", self.list_fields[0].encode(), self.fresh("A").encode()))

    def sort(self):
        """The names by what they are, from the namespace of these definitions."""
        self.space = Namespace([table_of(b"".join(self.parts), self.revision)])
        width = self.space.width
        self.by = {}
        for path, there in self.space.paths.items():
            name = path[0] if len(path) == 1 else "\\" + ".".join(path)
            kind = there.kind
            if kind == "data":
                kind = there.content[0]
            elif kind == "field":
                kind = ("field" if there.bits <= width else "wide") if sound(there) else "badfield"
            elif kind == "bufferfield":
                fine = (there.source and there.source[0] == "buf" and 1 <= there.bits <= 2048
                        and there.offset + there.bits <= 8 * there.source[1])
                kind = ("bfield" if there.bits <= width else "bwide") if fine else "badbfield"
            self.by.setdefault(kind, []).append((name, there))

    def pick(self, kind):
        return self.rng.choice(self.by[kind])

    def any_name(self):
        rng = self.rng
        kind = rng.choice(list(self.by) + ["missing"] * 2)
        if kind == "missing":
            return rng.choice(["NONE", "EXT0", "EXT1", "EXT2", "EXTD", "EXTE", "\\", "^", "^NONE", "^^B00A",
                               "\\DEV0.NONE", "DEV0.INNR", "^DEV0.INNR", "\\_SB_",
                               "^INNR", "INNR", "INMX", "^INMX", "^^DEV2.DEEP", "^DEEP", "DEEP", "^^^B00A", "^B00A",
                               "\\DEV1.DEV2.DEEP", "\\DEV1.DEV2", "^^DEV2", "^^", "\\B00A.B00A"])
        return self.pick(kind)[0]


class Maker:
    """One method's body."""

    def __init__(self, tables, count, methods, wrong):
        self.tables = tables
        self.rng = tables.rng
        self.count = count
        self.methods = methods
        self.wrong = wrong
        self.known = {}
        self.args = ["int"] * count
        self.own = {}
        self.pending = []
        self.loops = []
        self.held = []
        self.width = 32 if tables.revision < 2 else 64

    def chance(self, part):
        return self.rng.random() < part

    def slips(self):
        return self.rng.random() < self.wrong

    # Slots.

    def slots(self, kind):
        found = [local(i) for i, k in self.known.items() if k == kind]
        return found + [argument(i) for i, k in enumerate(self.args) if k == kind]

    def free_local(self):
        busy = {number for number in self.loops if number is not None}
        return self.rng.choice([i for i in range(8) if i not in busy] or [0])

    def set_slot(self, code, kind):
        byte = code[0]
        if 0x60 <= byte <= 0x67:
            self.known[byte - 0x60] = kind
        elif 0x68 <= byte < 0x68 + self.count:
            self.args[byte - 0x68] = kind

    # Terms.

    def literal(self):
        rng = self.rng
        return spelt(rng, rng.choice(SMALL if self.chance(0.6) else EDGES))

    def term(self, kind, depth):
        if self.slips():
            return self.chaos(depth)
        return getattr(self, kind)(depth)

    def chaos(self, depth):
        rng, roll = self.rng, self.rng.random()
        if roll < 0.3:
            return self.term(rng.choice(TYPES), depth - 1) if depth > 0 else self.literal()
        if roll < 0.4:
            return rng.choice([local, argument])(rng.randrange(7))
        if roll < 0.7:
            return self.name_in_term(self.tables.any_name(), depth - 1)
        return Chaos(self.tables, self.name_in_term).term(min(depth, 2))

    def arity(self, name):
        spelled = name_bytes(name)
        read, _ = Reader(spelled).name_string(0, len(spelled))
        if read.lone() in self.own:
            return 0
        return self.tables.space.arity(("M___",), read)

    def name_in_term(self, name, depth):
        """A name with as many terms as it takes."""
        terms = [self.term("int", depth) if depth > 0 else self.literal() for _ in range(self.arity(name))]
        return name_bytes(name) + b"".join(terms)

    def int_leaf(self):
        rng = self.rng
        slots = self.slots("int")
        roll = rng.random()
        if slots and roll < 0.45:
            return rng.choice(slots)
        if roll < 0.6:
            return self.literal()
        if roll < 0.7:
            return name_bytes(self.tables.pick("int")[0])
        if roll < 0.8:
            return name_bytes(self.tables.pick(rng.choice([k for k in ("field", "bfield") if k in self.tables.by]))[0])
        own = [n for n, k in self.own.items() if k[0] == "int"]
        if own and roll < 0.9:
            return rng.choice(own).encode()
        return self.literal()

    def int(self, depth):
        rng = self.rng
        if depth <= 0 or self.chance(0.25):
            return self.int_leaf()
        roll = rng.randrange(24)
        if roll < 6:
            return op(rng.choice(PAIRS), self.term("int", depth - 1), self.int_or_count(depth - 1),
                      self.target("int", depth - 1))
        if roll == 6:
            return op("Divide", self.term("int", depth - 1), self.divisor(), self.target("int", depth - 1),
                      self.target("int", depth - 1))
        if roll == 7:
            return op("Mod", self.term("int", depth - 1), self.divisor(), self.target("int", depth - 1))
        if roll == 8:
            return op(rng.choice(["LAnd", "LOr", "LGreater", "LLess"]), self.term("int", depth - 1),
                      self.term("int", depth - 1))
        if roll == 9:
            return self.equal(depth)
        if roll == 10:
            return op("LNot", self.term("int", depth - 1))
        if roll == 11:
            return op(rng.choice(["FindSetLeftBit", "FindSetRightBit", "Not"]), self.term("int", depth - 1),
                      self.target("int", depth - 1))
        if roll == 12:
            return op("ToInteger", self.term(rng.choice(["int", "buf"]), depth - 1), self.target("int", depth - 1))
        if roll in (13, 14):
            return self.byte_read(depth)
        if roll in (15, 16):
            return self.element_read(depth)
        if roll == 17:
            return self.size_of()
        if roll == 18:
            return self.condref()
        if roll == 19:
            return op(rng.choice(["Increment", "Decrement"]), self.int_place())
        if roll == 20:
            return self.store_operand("int", depth)
        if roll == 21:
            return self.call("int", depth)
        if roll == 22:
            return rng.choice([b"_OSI", b"\\_OSI"]) + self.term("str", depth - 1)
        if self.held and self.chance(0.3):
            return self.acquire()
        return self.int_leaf()

    def int_or_count(self, depth):
        return spelt(self.rng, self.rng.choice([0, 1, 31, 32, 33, 63, 64, 65, 2 ** 32,
                                                4])) if self.chance(0.3) else self.term("int", depth)

    def divisor(self):
        if self.slips():
            return self.rng.choice([b"\0", spelt(self.rng, 2 ** 32), self.int_leaf(), string("d")])
        return spelt(self.rng, self.rng.choice([1, 2, 3, 10, 16, 255, 2 ** 32 - 1, 2 ** 32 + 1, 2 ** 63, 2 ** 64 - 1]))

    def equal(self, depth):
        first = self.rng.choice(["int", "str", "buf"])
        second = first if not self.slips() else self.rng.choice(TYPES)
        return op("LEqual", self.term(first, depth - 1), self.term(second, depth - 1))

    def byte_read(self, depth):
        """A byte of a buffer or string of known length, with an index at its edge."""
        name, length, code = self.sized(self.rng.choice(["buf", "buf", "str"]))
        return op("DerefOf", op("Index", code, self.index(length, depth - 1), NONE))

    def sized(self, kind):
        """A name of data of this kind, and its length."""
        own = [(n, k[1]) for n, k in self.own.items() if k[0] == kind]
        if own and self.chance(0.3):
            name, length = self.rng.choice(own)
            return name, length, name.encode()
        name, there = self.tables.pick(kind)
        content = there.content
        return name, content[1] if kind != "pkg" else len(content[1]), name_bytes(name)

    def index(self, length, depth):
        """An index that is below the length by a literal, a mask, a remainder or what was compared."""
        rng = self.rng
        if self.slips():
            return self.term("int", depth)
        edge = length if self.chance(0.15) else length - 1
        edge = max(edge, 0)
        roll = rng.randrange(8)
        if roll < 2:
            return spelt(rng, rng.choice([0, edge, edge]))
        if roll == 2 and edge + 1 & edge == 0:
            return op("And", self.term("int", depth), spelt(rng, edge), NONE)
        if roll == 3:
            return op("And", spelt(rng, edge), self.term("int", depth), self.target("int", depth - 1))
        if roll == 4:
            return op("Mod", self.term("int", depth), spelt(rng, edge + 1), NONE)
        if roll == 5 and edge >= 255:
            return self.byte_read(depth)
        if roll == 6:
            slots = self.slots("int")
            return rng.choice(slots) if slots and self.chance(0.5) else spelt(rng, edge)
        return op("ShiftRight", spelt(rng, edge * 2 + rng.randrange(2)), b"\1", NONE)

    def element_read(self, depth):
        name, length, code = self.sized("pkg")
        if self.chance(0.15):
            code = self.term("pkg", depth - 1)
        return op("DerefOf", op("Index", code, self.index(length, depth - 1), NONE))

    def size_of(self):
        rng = self.rng
        if self.slips():
            return op("SizeOf", rng.choice([self.supername(1), name_bytes(self.tables.any_name())]))
        slots = self.slots("buf") + self.slots("str") + self.slots("pkg") + self.slots("any")
        if slots and self.chance(0.5):
            return op("SizeOf", rng.choice(slots))
        return op("SizeOf", self.sized(rng.choice(["buf", "str", "pkg"]))[2])

    def condref(self):
        if self.slips():
            return op("CondRefOf", self.supername(1), self.target("int", 1))
        return op("CondRefOf", name_bytes(self.tables.any_name()), NONE)

    def int_place(self):
        """Something with an integer that Increment takes."""
        if self.slips():
            return self.supername(1)
        busy = [local(n) for n in self.loops if n is not None]
        slots = [s for s in self.slots("int") if s not in busy or self.chance(0.1)]
        if slots and self.chance(0.7):
            return self.rng.choice(slots)
        return name_bytes(self.tables.pick(self.rng.choice(["int", "field"]))[0])

    def store_operand(self, kind, depth):
        source = self.term(kind, depth - 1)
        if self.slips():
            return op("Store", source, self.target(kind, depth - 1))
        if self.chance(0.3):
            return op("Store", source, self.rng.choice([NONE, DEBUG]))
        place = local(self.free_local())
        self.set_slot(place, kind)
        return op("Store", source, place)

    def call(self, kind, depth):
        rng = self.rng
        if self.methods and self.chance(0.3):
            name, count = rng.choice(self.methods)
            return name_bytes(name) + b"".join(self.term("int", depth - 1) for _ in range(count))
        wanted = [c for c in self.tables.callees if c[2] == kind]
        if self.slips() or not wanted:
            wanted = self.tables.callees
        name, count, result = rng.choice(wanted)
        if result == "sig":
            return name.encode() + self.sized("buf")[2] + self.index(10,
                    depth - 1) + rng.choice([string("a"), string(""), self.term("str", depth - 1)])
        if result == "sig2":
            return name.encode() + self.term("pkg", depth - 1) + self.term("int", depth - 1)
        return name.encode() + b"".join(self.term("int", depth - 1) for _ in range(count))

    def buf(self, depth):
        rng, roll = self.rng, self.rng.randrange(10)
        slots = self.slots("buf")
        if slots and roll < 3:
            return rng.choice(slots)
        if roll == 3 and depth > 0:
            return op("Concatenate", self.term("buf", depth - 1), self.term("buf", depth - 1), self.target("buf", depth - 1))
        if roll == 4 and depth > 0:
            return op("ToBuffer", self.term(rng.choice(["int", "buf"]), depth - 1), self.target("buf", depth - 1))
        if roll == 5 and depth > 0:
            return self.call("buf", depth)
        if roll == 6:
            wide = [k for k in ("wide", "bwide") if k in self.tables.by]
            if wide:
                return name_bytes(self.tables.pick(rng.choice(wide))[0])
        if roll == 7 and depth > 0:
            return self.store_operand("buf", depth)
        if roll == 8:
            return self.literal_buffer()
        return self.sized("buf")[2]

    def literal_buffer(self):
        rng = self.rng
        if self.slips():
            return op("Buffer", self.term("int", 1), b"\1\2")
        return op("Buffer", spelt(rng, rng.choice([0, 1, 4, 8, 16])), bytes(rng.choice([0, 1, 5])))

    def str(self, depth):
        rng, roll = self.rng, self.rng.randrange(8)
        slots = self.slots("str")
        if slots and roll < 3:
            return rng.choice(slots)
        if roll == 3 and depth > 0:
            return op("Concatenate", self.term("str", depth - 1), self.term("str", depth - 1), self.target("str", depth - 1))
        if roll == 4 and depth > 0:
            return self.call("str", depth)
        if roll == 5:
            return self.sized("str")[2]
        if roll == 6 and depth > 0:
            return self.store_operand("str", depth)
        return string("s" * rng.choice([0, 1, 3, 8]))

    def pkg(self, depth):
        rng, roll = self.rng, self.rng.randrange(8)
        slots = self.slots("pkg") + self.slots("any")
        if slots and roll < 3:
            return rng.choice(slots)
        if roll == 3:
            return self.literal_package()
        if roll == 4 and depth > 0:
            return self.call(rng.choice(["pkg", "any"]), depth)
        if roll == 5 and depth > 0:
            return self.store_operand("pkg", depth)
        if roll == 6 and depth > 0:
            return self.element_read(depth)
        return self.sized("pkg")[2]

    def literal_package(self):
        rng = self.rng
        if self.slips():
            element = rng.choice([op("Buffer", op("Add", b"\1", b"\1", NONE), b""), op("VarPackage", local(0), b""),
                                  op("VarPackage", b"\1", op("Package", b"\0", op("Buffer", string("a"), b"")))])
            return op("Package", bytes([rng.choice([0, 1, 2])]), b"\1" + element + op("Buffer", b"I001", b""))
        return self.tables.package(2)

    # Targets.

    def target(self, kind, depth):
        rng = self.rng
        if self.slips():
            return rng.choice([NONE, self.supername(depth)])
        roll = rng.random()
        if roll < 0.45:
            return NONE
        if roll < 0.5:
            return DEBUG
        if roll < 0.75 or kind == "pkg":
            place = local(self.free_local()) if self.chance(0.8) or not self.count else argument(rng.randrange(self.count))
            self.pending.append((place, kind))
            self.set_slot(place, kind)
            return place
        if kind == "int":
            if roll < 0.83 and depth > 0:
                name, length, code = self.sized("buf")
                return op("Index", code, self.index(length, depth - 1), NONE)
            if roll < 0.9:
                return name_bytes(self.tables.pick("int")[0])
            kinds = [k for k in ("field", "bfield", "wide", "bwide") if k in self.tables.by]
            return name_bytes(self.tables.pick(rng.choice(kinds))[0])
        return self.sized(kind)[2]

    def supername(self, depth):
        rng, roll = self.rng, self.rng.randrange(10)
        if roll < 4:
            return name_bytes(self.tables.any_name())
        if roll < 6:
            return rng.choice([local, argument])(rng.randrange(7))
        if roll == 6:
            return DEBUG
        if depth <= 0:
            return local(1)
        if roll == 7:
            return op("RefOf", self.supername(depth - 1))
        if roll == 8:
            return op("DerefOf", self.term("int", depth - 1))
        first = rng.choice([self.sized(rng.choice(["buf", "str", "pkg"]))[2], local(1), self.term("buf", depth - 1),
                            self.name_in_term(self.tables.any_name(), depth - 1)])
        return op("Index", first, self.term("int", depth - 1), rng.choice([NONE, NONE, NONE, local(2)]))

    # Statements.

    def block(self, depth, count, top=False):
        return b"".join(self.statement(depth, top) for _ in range(count))

    def statement(self, depth, top=False):
        rng = self.rng
        if self.chance(self.wrong / 2):
            return Chaos(self.tables, self.name_in_term).statement(2)
        roll = rng.randrange(30)
        if roll < 6:
            return self.store(depth)
        if roll < 9 and depth > 0:
            return self.conditional(depth)
        if roll < 13 and depth > 0:
            return self.loop(depth)
        if roll == 13:
            return op(rng.choice(["Increment", "Decrement"]), self.int_place())
        if roll < 17:
            return self.term(rng.choice(TYPES), 2)
        if roll == 17:
            return op("Notify", self.notified(), self.term("int", 1))
        if roll == 18:
            return op(rng.choice(["Sleep", "Stall"]), self.term("int", 1))
        if roll in (19, 20):
            return self.guarded(depth)
        if roll in (21, 22) and (top or self.slips()):
            return self.definition()
        if roll == 23:
            return self.call(rng.choice(["none", "some", "int", "buf", "mixed"]), 2)
        if roll == 24 and (self.loops or self.slips()):
            return op(rng.choice(["Break", "Continue", "Break"]))
        if roll == 25 and self.chance(0.3):
            return op("Return", self.term(rng.choice(TYPES), 2))
        if roll == 26:
            return rng.choice([op("Noop"), op("BreakPoint")])
        if roll == 27:
            return self.mixed()
        if roll == 28 and self.slips():
            return rng.choice([op("Release", self.mutex()), self.acquire()])
        return self.store(depth)

    def store(self, depth):
        kind = self.rng.choice(["int", "int", "int", "int", "buf", "str", "pkg"])
        source = self.term(kind, 2)
        return op("Store", source, self.target_or_local(kind))

    def target_or_local(self, kind):
        if self.chance(0.5):
            place = local(self.free_local())
            self.set_slot(place, kind)
            return place
        return self.target(kind, 2)

    def mixed(self):
        """Something of no one kind."""
        rng = self.rng
        names = [c for c in self.tables.callees if c[2] in ("mixed", "any")]
        name, count, kind = rng.choice(names)
        source = name.encode() + b"".join(self.term("int", 1) for _ in range(count))
        if self.chance(0.3):
            return source
        place = local(self.free_local())
        self.set_slot(place, kind)
        if self.slips():
            place = self.supername(1)
        return op("Store", source, place)

    def notified(self):
        rng = self.rng
        if self.slips():
            return self.supername(2)
        return name_bytes(self.tables.pick(rng.choice(["device", "processor", "thermal"]))[0])

    def mutex(self):
        if self.slips():
            return self.supername(1)
        return name_bytes(self.tables.pick("mutex")[0])

    def acquire(self):
        return op("Acquire", self.mutex(), bytes(2))

    def guarded(self, depth):
        """Statements between an Acquire and its Release."""
        rng = self.rng
        name, there = self.tables.pick("mutex")
        most = max([t.level for t in self.held], default=0)
        for _ in range(8):
            if name not in ("_GL_",) and there.level >= most and there.path != ("_GL_",):
                break
            name, there = self.tables.pick("mutex")
        code = name_bytes(name)
        self.held.append(there)
        inner = self.block(depth - 1, rng.choice([0, 1, 2]))
        if self.chance(0.2):
            inner += self.call("none", 1)
        self.held.pop()
        if self.slips():
            return op("Acquire", code, b"\1\0") + inner
        if self.chance(0.06):
            return inner + op("Release", code)
        return op("Acquire", code, b"\xff\xff") + inner + op("Release", code)

    def conditional(self, depth):
        rng = self.rng
        slots = self.slots("int")
        before = (dict(self.known), list(self.args))
        if slots and self.chance(0.4):
            slot = rng.choice(slots)
            name, length, code = self.sized(rng.choice(["buf", "str", "pkg"]))
            limit = max(0, rng.choice([length, length, length, length + 1, length - 1, 0]))
            test = op("LLess", slot, spelt(rng, limit))
            front = op("Store", op("DerefOf", op("Index", code, slot, NONE)),
                       rng.choice([NONE, DEBUG, local(self.free_local())]))
            inner = front + self.block(depth - 1, rng.choice([0, 1, 2]))
        else:
            test = self.term("int", 2)
            inner = self.block(depth - 1, rng.choice([0, 1, 1, 2, 3]))
        inner += self.exit(0.2)
        after_first = (dict(self.known), list(self.args))
        self.known, self.args = dict(before[0]), list(before[1])
        made = op("If", test, inner)
        if self.chance(0.5):
            made += packaged(b"\xa1", self.block(depth - 1, rng.choice([0, 1, 2])) + self.exit(0.15))
        self.known = {k: v for k, v in self.known.items() if after_first[0].get(k) == v}
        return made

    def exit(self, part):
        """Now and then what leaves a list, and dead code behind it."""
        if not self.chance(part):
            return b""
        rng = self.rng
        choices = [op("Return", self.term(rng.choice(TYPES), 1))] if self.chance(0.4) else []
        if self.loops or self.slips():
            choices += [op("Break"), op("Continue")]
        if not choices:
            return b""
        dead = self.block(1, rng.choice([0, 0, 0, 1, 2]))
        return rng.choice(choices) + dead

    def loop(self, depth):
        rng = self.rng
        roll = rng.random()
        if self.slips():
            return op("While", self.term("int", 1), self.block(depth - 1, 2))
        if roll < 0.25:
            self.loops.append(None)
            before = dict(self.known)
            slots = self.slots("int")
            test = op("LLess", rng.choice(slots),
                      spelt(rng, rng.choice(SMALL))) if slots and self.chance(0.3) else self.term("int", 1)
            inner = self.block(depth - 1, rng.choice([0, 1, 2])) + rng.choice([op("Break"), op("Break"),
                    op("Return", self.term("int", 1))])
            self.known = {k: v for k, v in self.known.items() if before.get(k) == v}
            self.loops.pop()
            return op("While", test, inner)
        return self.counted(depth, roll < 0.65)

    def counted(self, depth, upward):
        """A loop that counts a local up or down."""
        rng = self.rng
        number = self.free_local()
        code = local(number)
        start = spelt(rng, rng.choice(SMALL if not upward or self.chance(0.8) else EDGES))
        front = op("Store", start, code) if not self.slips() else b""
        if not upward and self.chance(0.3):
            front = op("And", self.term("int", 1), spelt(rng, rng.choice([3, 7, 255])), code)
        self.known[number] = "int"
        limit = rng.choice(SMALL if self.chance(0.85) else EDGES)
        one = spelt(rng, 1) if self.chance(0.9) else spelt(rng, rng.choice([2 ** 32 + 1, 2]))
        if upward:
            test = op("LLess", code, spelt(rng, limit))
            step = rng.choice([op("Increment", code), op("Add", code, one, code), op("Add", one, code, code)])
        else:
            test = code if self.chance(0.4) else op("LGreater", code, spelt(rng, limit))
            step = rng.choice([op("Decrement", code), op("Subtract", code, one, code)])
        if self.slips():
            step = rng.choice([op("Subtract", one, code, code), op("Increment", code), op("Decrement", code),
                               op("Store", step, NONE), b"", step + step])
        before = dict(self.known)
        self.loops.append(number)
        ahead = self.body_part(depth, code, limit if upward else 0)
        held = self.loops
        behind = self.block(depth - 1, rng.choice([0, 0, 1]))
        if self.chance(0.25):
            behind += op("If", self.term("int", 1),
                         self.block(0, rng.choice([0, 1])) + rng.choice([op("Continue"), op("Break"), op("Continue")]))
        if self.chance(0.07):
            ahead += op("If", self.term("int", 1), rng.choice([op("Continue"), op("Break"), op("Break")]))
        if self.chance(0.04):
            behind += rng.choice([op("Break"), op("Continue"), op("Return", b"\1")])
        held.pop()
        if self.chance(0.9):
            self.known = {k: v for k, v in self.known.items() if before.get(k) == v}
        return front + op("While", test, ahead + step + behind)

    def body_part(self, depth, code, limit):
        """What a loop does before its step, with the counter as an index now and then."""
        rng = self.rng
        made = b""
        if limit and self.chance(0.5):
            bufs = [(n, t) for n, t in self.tables.by["buf"] if abs(t.content[1] - limit) <= 1 or t.content[1] > limit]
            if bufs:
                name, there = rng.choice(bufs)
                made += op("Store", rng.choice([code, b"\1"]), op("Index", name_bytes(name), code, NONE))
        return made + self.block(depth - 1, rng.choice([0, 1, 1, 2]))

    def definition(self):
        rng = self.rng
        name = f"O{rng.randrange(36 if self.slips() else 4096):03X}"
        if self.slips():
            name = rng.choice([name, "B00A", "HI1_", "^" + name, "\\" + name, name + ".AAAA"])
        if self.chance(0.6):
            made = rng.choice(["int", "buf", "str", "pkg"])
            length = rng.choice([0, 1, 4, 8, 16])
            data = {"int": self.literal(), "buf": buffer(length), "str": string("o" * length),
                    "pkg": self.literal_package()}[made]
            if self.slips():
                data = rng.choice([b"\x5b\x30", op("Buffer", local(0), b""), op("VarPackage", string(""), b""),
                                   self.literal_buffer()])
            front = op("Name", name_bytes(name), data)
            if len(name) == 4 and made != "pkg":
                self.own[name] = (made, length)
            return front
        form, bits = rng.choice([("CreateBitField", 1), ("CreateByteField", 8), ("CreateWordField", 16),
                                 ("CreateDWordField", 32), ("CreateQWordField", 64), ("CreateField", None)])
        source, length, code = self.sized("buf")
        if self.slips():
            code = rng.choice([self.term("int", 1), self.name_in_term(self.tables.any_name(), 1), local(0), name_bytes(name)])
        parts = []
        if bits is None:
            bits = rng.choice([1, 8, 9, self.width, self.width + 1, 72, 0, 2049, 8 * length])
            index = rng.choice([0, 8 * length - bits, 8 * length - bits + 1])
            parts = [spelt(rng, max(0, index)), spelt(rng, bits)]
        else:
            most = 8 * length - 1 if bits == 1 else length - bits // 8
            parts = [spelt(rng, max(0, rng.choice([0, most, most, most + 1, 2 ** 32, 2 ** 64 - 1, 2 ** 61])))]
        if self.slips():
            parts[-1] = self.term("int", 1)
        if len(name) == 4:
            self.own[name] = ("int" if bits <= self.width else "bufferfield", 0)
        return op(form, code, *parts, name_bytes(name))

    def body(self):
        rng = self.rng
        made = self.block(3, rng.choice([1, 2, 3, 4, 6]), True)
        if self.chance(0.15):
            # The steps of this loop tell the greatest value that the term may have.
            made += op("Store", self.term("int", 3), local(7)) + op("While", local(7), op("Decrement", local(7)))
        if self.chance(0.7):
            made += op("Return", self.term(rng.choice(["int", "int", "buf", "str", "pkg"]), 2))
            if self.chance(0.1):
                made += self.block(2, 2, True)
        return made


class Chaos:
    """Any operator with any parts, as long as the grammar lets them stand."""

    def __init__(self, tables, name_in_term):
        self.tables = tables
        self.rng = tables.rng
        self.name_in_term = name_in_term

    def statement(self, depth):
        return self.operator(self.rng.choice(list(OPERATORS)), depth)

    def term(self, depth):
        rng, roll = self.rng, self.rng.random()
        if roll < 0.2 or depth <= 0:
            return spelt(rng, rng.choice(EDGES))
        if roll < 0.35:
            return rng.choice([local, argument])(rng.randrange(7))
        if roll < 0.45:
            return self.name_in_term(self.tables.any_name(), depth - 1)
        return self.operator(rng.choice([c for c, k in CLASSES.items() if k in "DE"]), depth)

    def operator(self, opcode, depth):
        name, letters = OPERATORS[opcode]
        parts = b"".join(self.part(letter, name, depth - 1) for letter in letters if letter != "P")
        lead = bytes([opcode]) if opcode < 256 else bytes([opcode >> 8, opcode & 255])
        made = packaged(lead, parts) if letters.startswith("P") else lead + parts
        if name == "If" and self.rng.random() < 0.4:
            made += packaged(b"\xa1", self.part("L", name, depth - 1))
        return made

    def part(self, letter, name, depth):
        rng = self.rng
        if letter in "bwd":
            return bytes(rng.randrange(4) for _ in range({"b": 1, "w": 2, "d": 4}[letter]))
        if letter == "t":
            return self.term(depth)
        if letter == "g":
            return NONE if rng.random() < 0.6 else self.supername(depth)
        if letter == "s":
            return self.supername(depth)
        if letter == "m":
            return rng.choice([local(1), argument(1), name_bytes(self.tables.any_name())])
        if letter == "n":
            return name_bytes(rng.choice([f"N{rng.randrange(4096):03X}", self.tables.any_name(), "^AAAA", "\\"]))
        if letter == "D":
            return rng.choice([b"\1", string("a"), buffer(3), b"\x5b\x30", self.tables.package(1),
                               op("Buffer", self.term(depth), b"")])
        if letter == "L":
            return b"".join(self.statement(depth)
                            for _ in range(rng.choice([0, 1, 2]))) if depth > 0 else rng.choice([b"", op("Noop"),
                    op("Break"), op("Return", b"\1")])
        if letter == "Y":
            return bytes(rng.randrange(256) for _ in range(rng.choice([0, 1, 4])))
        if letter == "K":
            return b"".join(rng.choice([b"\1", string("k"), buffer(1), b"KKKK", b"\\_SB_"])
                            for _ in range(rng.choice([0, 1, 2])))
        return rng.choice([b"", b"FFFF\x08", b"\0\x08GGGG\x03", b"\1\2\3", b"\2HHHH",
                           b"\2" + op("Buffer", self.term(depth), b""), b"\3\1\2\3"])

    def supername(self, depth):
        rng, roll = self.rng, self.rng.random()
        if roll < 0.4:
            return name_bytes(self.tables.any_name() or "\\")
        if roll < 0.7 or depth <= 0:
            return rng.choice([local, argument])(rng.randrange(7))
        if roll < 0.8:
            return DEBUG
        return self.operator(rng.choice([0x71, 0x83, 0x88]), depth)


def field_body(rng, tables):
    """One field or other object, used in one way."""
    kinds = [k for k in ("field", "wide", "badfield", "bfield", "bwide", "badbfield") if k in tables.by]
    name, there = tables.pick(rng.choice(kinds))
    code, bits = name_bytes(name), there.bits
    fitting = buffer(min(65536, (bits + 7) // 8))
    return rng.choice([
        lambda: op("Return", code), lambda: op("Store", b"\1", code), lambda: op("Increment", code),
        lambda: op("SizeOf", code), lambda: code,
        lambda: op("Store", fitting, code),
        lambda: op("Store", rng.choice([buffer(bits // 8), string("a" * min(4000, (bits + 7) // 8))]), code),
        lambda: op("CondRefOf", code, NONE),
        lambda: op("Store", code, code), lambda: op("Add", code, code, code), lambda: op("Notify", code, code),
        lambda: op("Acquire", code, b"\0\0"),
        lambda: op("Store", code, op("Index", code, b"\0", NONE)),
        lambda: op("Return", op("DerefOf",
                                op("Index", code, spelt(rng, rng.choice([bits // 8, max(0, (bits + 7) // 8 - 1)])), NONE))),
        lambda: op("If", op("LLess", code, code), op("Store", code, local(0))) + op("Return",
            op("ToBuffer", code, NONE)), lambda: op("Return", op("ToInteger", code, code)),
        lambda: op("CreateByteField", code, b"\0", b"OWNF"), lambda: op("Divide", code, b"\x0a\3", code, code),
        lambda: op("Name", b"OWNN", fitting) + op("Store", b"OWNN", code),
        lambda: op("Store", b"\x0a\3", local(0)) + op("While", local(0),
                                                      op("Store", local(0), code) + op("Decrement", local(0)))
        + op("Return", op("Not", code, code)),
    ])()


LIKELY_BYTES = list(b"\0\1\x0a\x0d\x11\x12\x5b\x60\x68\x70\x72\x83\x88\xa0\xa1\xa2\xa4\xff\x5c\x5e\x2e\x2f")


def mutated(rng, body, start=0):
    """Some bytes changed, taken out or put in."""
    made = bytearray(body)
    for _ in range(rng.choice([1, 1, 1, 2, 3])):
        if not made:
            break
        at = rng.randrange(len(made))
        roll = rng.randrange(5)
        if roll < 2:
            made[at] = rng.choice([rng.randrange(256), rng.choice(LIKELY_BYTES)])
        elif roll == 2:
            del made[at]
        elif roll == 3:
            made.insert(at, rng.randrange(256))
        else:
            del made[at:]
    return bytes(made)


NASTY = [b"\x5b", b"\x5b\x31", b"\0", b"\x2e", b"\x2e\x41", b"\x2eAAAA", b"\x2eAAAAB", b"\x2f", b"\x2f\0", b"\x2f\1AAA",
         b"\x5c", b"\x5c\0", b"\x5e", b"\x5e\0",
         b"\x5e\x5c", b"\x0d", b"\x0dAB", b"\x0d\x80\0", b"\xfe", b"\xa1", b"\xa1\1", b"0AAA", b"A0\0", b"AAa0",
         b"\x0a", b"\x0b\1", b"\x0e\0\0",
         b"\x11", b"\x11\x40", b"\x11\0", b"\x11\x3f", b"\x11\1", b"\x12\1", b"\x12\2\1", b"\x13\2", b"\x13\5\x0b\1\0",
         b"\x5b\x30", b"\x5b\x80", b"\x5b\xff", b"\x5b\x81\1",
         b"\x60", b"\x71", b"\x83", b"\x88", b"\x72", b"\xa5", b"\x14", b"\x14\1", b"\x08", b"\x13\6\x0c\0\0\1\0",
         b"\x11\6\x0c\1\0\1\0\xfe", b"\x11\6\x0c\0\0\1\0\xfe", b"\x15", b"\xa0\2\1\xa1", b"\xa0\2\1\xa1\0", b"\xa0\2\1\xa1\1"]


def faulty_body(rng, chaos):
    """Well formed bytes that are cut and go on with something nasty, within some packages."""
    made = chaos.statement(rng.choice([1, 2, 3]))
    made = made[:rng.randrange(len(made) + 1)] + rng.choice(NASTY + [b""])
    if rng.random() < 0.3:
        made += rng.choice([b"\0", b"AAAA", b"\x60\x60", b"\1\1\1\1", b"\xff"])
    for _ in range(rng.choice([0, 0, 1, 2])):
        made = rng.choice([op("If", b"\1", made), op("While", b"\1", made), op("Scope", b"AAAA", made),
                           op("Package", b"\2", made), op("Field", b"AAAA", b"\0", made), op("Buffer", b"\2", made),
                           op("VarPackage", made)])
    return made


def near_deepest(rng, chaos):
    """Any statement, well formed or not, just above the greatest depth or below it."""
    levels = rng.choice([59, 60, 61, 61, 62, 62, 63, 63, 63, 64])
    if rng.random() < 0.3:
        return op("Return", b"\x92" * (levels - 1) + chaos.term(3))
    inner = chaos.statement(rng.choice([1, 2, 3, 4])) if rng.random() < 0.6 else faulty_body(rng, chaos)
    if rng.random() < 0.2:
        inner = mutated(rng, inner)
    if rng.random() < 0.2:
        inner = op("If", b"\1", rng.choice([b"", op("Noop")])) + packaged(b"\xa1", inner)
    return nest(b"\1", levels - rng.choice([0, 1]), inner)


def deep_body(rng, maker):
    """A body near the greatest depth."""
    kind = rng.randrange(6)
    levels = rng.choice([60, 61, 62, 63, 64])
    inner = maker.int_leaf() if kind < 3 else b""
    if kind == 0:
        return op("Return", b"\x92" * levels + inner)
    if kind == 1:
        made = rng.choice([op("Increment", local(0)), op("Store", b"\1", NONE), op("Store", b"\1", local(1)),
                           op("SizeOf", b"S00F"), op("DerefOf", op("Index", b"S00F", b"\0", NONE)),
                           op("Buffer", b"\1", b""), op("Package", b"\1", rng.choice([b"\1", b"AAAA", b""])),
                           op("Event", b"EEEE")])
        if made[:2] == b"\x5b\x02":
            return nest(b"", levels, made)
        return op("Store", b"\0", local(0)) + op("Return", b"\x92" * (levels - 1) + made)
    last = rng.choice([b"", op("Noop"), op("Return", b"\1"), op("Return", b"\x92\x01"), op("Increment", local(0)),
                       op("If", b"\1", b""), b"\xa0\x03\x01\xa3\xa1\x02\xa3", op("Name", b"QQQQ", b"\1"),
                       op("Event", b"EEEE"), b"\x00", b"AAAA", b"\xfe",
                       op("Field", b"RRRR", b"\0", b"\x02" + buffer(1)), op("Field", b"RRRR", b"\0", b"\x02CCCC"),
                       op("CopyObject", b"\1", local(1))])
    return op("Store", b"\0", local(0)) + nest(b"\1", levels - rng.choice([0, 1, 2]), last)


def nest(test, levels, last):
    """Ifs within one another."""
    made = last
    for _ in range(levels):
        made = op("If", test or b"\1", made)
    return made


class Made:
    """A method as it was made: its path, its arguments, its body, and the table that it stands in."""

    def __init__(self, path, count, body, table=0):
        self.path, self.count, self.body, self.table = path, count, body, table

    def name(self):
        return "\\" + ".".join(self.path)

    def code(self, body):
        method = op("Method", self.path[-1].encode(), bytes([self.count]), body)
        if self.path[-1] == "_DSM":
            return op("Device", self.path[0].encode(), method)
        if len(self.path) > 1:
            return op("Scope", name_bytes("\\" + ".".join(self.path[:-1])), method)
        return method


class Case:
    """Two tables with their methods and what is said of their arguments."""

    def __init__(self, seed, methods, styles=("long", "pairs", "flow"), probes=True):
        # What is over there stands on this file, so it can't be read before this one was.
        import sharp
        self.sharp = sharp
        rng = random.Random(seed)
        self.revision = rng.choice([1, 2, 2])
        Spelling.rng = None
        self.tables = Tables(rng, self.revision)
        self.rng = rng
        self.styles = styles
        self.signatures = self.tables.signatures()
        self.front = b"".join(self.tables.parts)
        self.made = []
        Spelling.rng = rng
        for i in range(methods):
            self.build(i)
        Spelling.rng = None
        self.judge = Judge(Namespace(self.all_tables()), read_signatures(self.signatures))
        if probes:
            self.probe()

    def path(self, number, count):
        roll = self.rng.random()
        if count == 4 and roll < 0.7:
            return (f"D{number:03X}", "_DSM")
        name = f"M{number:03X}"
        if roll < 0.85:
            return (name,)
        return ("DEV0", name) if roll < 0.93 else ("DEV1", "DEV2", name)

    def build(self, number):
        rng = self.rng
        style = rng.choice(self.styles)
        count = rng.choice([0, 0, 1, 1, 1, 2, 3, 7, 4])
        path = self.path(number, count)
        callees = [(m.path[-1], m.count) for m in self.made[-12:] if len(m.path) == 1]
        maker = Maker(self.tables, count, callees, rng.choice([0, 0, 0, 0.004, 0.02, 0.08]))
        if style in ("kinds", "args"):
            count = 2
            path = (f"M{number:03X}",)
            maker.count, maker.args = 2, ["int", "int"]
        if style == "long" and 0.05 < rng.random() < 0.06:
            maker.methods.append((path[-1], count))
        if path[-1] == "_DSM":
            maker.args = ["buf", "int", "int", "pkg"]
        if rng.random() < 0.15 and count and style not in ("kinds", "args"):
            maker.args = [rng.choice(TYPES) for _ in range(count)]
            self.sign(path, maker.args)
        self.made.append(Made(path, count, self.body(maker, style, path), 1 if rng.random() < 0.1 else 0))

    def sign(self, path, kinds):
        words = {"int": ["int", "int:9", "int:0", "int:18446744073709551615"], "buf": ["buf:4", "buf:0", "buf:16"],
                 "str": ["str:3", "str:0"], "pkg": ["pkg"]}
        chosen = [self.rng.choice(words[k]) for k in kinds]
        self.signatures += " ".join(["\\" + ".".join(path)]
                                    + chosen[:self.rng.choice([len(chosen), len(chosen), 1, 0])]) + "\n"

    def args(self, path):
        """A body over an argument of a told kind, and the kind told."""
        rng, GREAT = self.rng, self.sharp.GREAT
        kind = rng.choice(["buf", "str", "int", "int"])
        size = rng.choice(GREAT + EDGES)
        body = self.sharp.args_body(rng, kind, size)
        name = "\\" + ".".join(path)
        if f"{name} " not in self.signatures:
            self.signatures += f"{name} {kind}:{size} int:{rng.choice(GREAT)}\n"
        return body

    def body(self, maker, style, path):
        rng = self.rng
        if style == "two":
            return self.sharp.Two(self.tables, path[-1], maker.count).body()
        if style == "pairs":
            return self.sharp.Pairs(self.tables, path[-1], maker.count).body()
        if style == "deep":
            return near_deepest(rng, Chaos(self.tables, maker.name_in_term))
        if style == "mutated":
            return mutated(rng, self.body(maker, rng.choice(["long", "pairs", "flow", "fields", "faults"]), path))
        if style == "kinds":
            return self.sharp.kinds_body(rng)
        if style == "args":
            return self.args(path)
        if style == "faults":
            return faulty_body(rng, Chaos(self.tables, maker.name_in_term))
        if style == "fields":
            return field_body(rng, self.tables)
        if style == "flow":
            return self.sharp.Flow(self.tables, maker.count).body()
        roll = rng.random()
        if roll < 0.02:
            return deep_body(rng, maker)
        if roll < 0.05:
            chaos = Chaos(self.tables, maker.name_in_term)
            return b"".join(chaos.statement(4) for _ in range(rng.choice([1, 2, 3])))
        body = maker.body()
        return mutated(rng, body) if roll < 0.15 else body

    def probe(self):
        """Callers that show what a method gives: its result is handed on at its greatest, and one below that."""
        judge = self.judge
        before = len(self.made)
        for number, made in enumerate(list(self.made)):
            method = judge.namespace.paths[made.path]
            verdict = judge.verdict(method)
            if not verdict.accepted or len(made.path) > 1 or self.rng.random() < 0.3:
                continue
            call = made.path[-1].encode() + b"".join(self.given(kind) for kind in verdict.arguments)
            self.add_probe(number, call, verdict.result)
        judge.extend(self.all_tables(), sum(len(made.code(made.body)) for made in self.made[before:]), self.signatures)

    def given(self, kind):
        """A term that fits an argument's kind."""
        if kind[0] == "int":
            return spelt(self.rng, self.rng.choice([0, kind[1]]))
        if kind[0] == "buf":
            return buffer(min(kind[1], 65536))
        if kind[0] == "str":
            return string("p" * min(kind[1], 100))
        return op("Package", b"\0", b"")

    def add_probe(self, number, call, kind):
        rng = self.rng
        taker, asker = (f"U{number:03X}",), (f"V{number:03X}",)
        if kind is not None and kind[0] == "pkg" and kind[1] and rng.random() < 0.8:
            index = rng.randrange(len(kind[1]))
            place = spelt(rng, index) if rng.random() < 0.7 else op("Mod", b"\x0c" + bytes(4), spelt(rng, len(kind[1])), NONE)
            call, kind = op("DerefOf", op("Index", call, place, NONE)), kind[1][index]
            if kind is not None and kind[0] not in ("int", "buf", "str"):
                kind = None
        word = "pkg"
        if kind is None or kind[0] == "mixed":
            word = rng.choice(["int", "pkg"])
        elif kind[0] == "int":
            word = f"int:{max(0, kind[1] - rng.choice([0, 1]))}"
        elif kind[0] in ("buf", "str"):
            word = f"{kind[0]}:{max(0, kind[1] - rng.choice([0, 0, 1]))}"
        self.signatures += f"\\{taker[0]} {word}\n"
        self.made.append(Made(taker, 1, op("Noop")))
        self.made.append(Made(asker, 0, taker[0].encode() + call))

    def all_tables(self, only=None, body=None):
        """The tables with all methods, or with one method's body put in the place of its own."""
        parts = [[self.front], []]
        for made in self.made:
            parts[made.table].append(made.code(body if made.name() == only else made.body))
        return [table_of(b"".join(parts[0]), self.revision), table_of(b"".join(parts[1]), 1, b"SSDT")]
