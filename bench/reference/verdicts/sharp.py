"""Small bodies that meet at one point: one operator with a cause in several of its parts, and lists full of exits."""
from aml import LETTERS, name_bytes, op, packaged
from generate import DEBUG, EDGES, NONE, SMALL, argument, buffer, local, spelt, string

PROFILE = ["Store", "Add", "Concatenate", "Subtract", "Increment", "Decrement", "Multiply", "Divide", "ShiftLeft",
           "ShiftRight", "And", "Nand", "Or", "Nor", "Xor", "Not", "FindSetLeftBit", "FindSetRightBit", "DerefOf", "Mod",
           "SizeOf", "LAnd", "LOr", "LNot", "LEqual", "LGreater", "LLess", "ToBuffer", "ToInteger", "CondRefOf",
           "Acquire"]
OUTSIDE = ["RefOf", "ConcatenateResTemplate", "Match", "ObjectType", "ToDecimalString", "ToHexString", "ToString",
           "CopyObject", "Mid", "LoadTable", "Load", "Wait", "FromBCD", "ToBCD", "Timer", "Revision", "Index"]
STATEMENTS = ["Notify", "Return", "Stall", "Sleep", "Release", "If", "While"]


class Pairs:
    """One or two operators, each part of which is fine, of another kind, or has a cause of its own."""

    def __init__(self, tables, name, count):
        self.tables = tables
        self.rng = tables.rng
        self.name = name
        self.count = count
        self.trouble = self.rng.choice([0.1, 0.3, 0.5])

    def named(self, *kinds):
        kinds = [k for k in kinds if k in self.tables.by]
        return name_bytes(self.tables.pick(self.rng.choice(kinds))[0])

    def ones(self, count):
        return b"".join(self.term(0) for _ in range(count))

    def integer(self, depth):
        rng = self.rng
        if depth > 0 and rng.random() < 0.3:
            return self.operator(rng.choice(PROFILE), depth - 1)
        return rng.choice([b"\1", b"\0", spelt(rng, rng.choice(EDGES)), local(0), local(6), argument(0),
                           self.named("int"), self.named("field", "bfield"), b"HI0_"])

    def other(self, depth):
        rng = self.rng
        return rng.choice([string("abc"), string(""), buffer(4), buffer(0), op("Package", b"\1", b"\1"), local(1),
                           local(2), local(3), local(4), local(5),
                           self.named("buf"), self.named("str"), self.named("pkg"), self.named("wide", "bwide"),
                           b"HBUF", b"HSTR", b"HPKG", b"HANY\1", b"HMIX\1"])

    def causer(self, depth):
        rng = self.rng
        inner = self.term(depth - 1) if depth > 0 else b"\1"
        choices = [
            lambda: rng.choice([b"NONE", b"EXT0", b"EXT1" + inner, b"EXT2" + inner + b"NONE", b"\\NONE", b"^^NONE",
                                b"EXTD" + inner]),
            lambda: rng.choice([op("Timer"), op("Index", inner, b"\0", NONE), op("DerefOf", inner),
                                op("Store", inner, self.named("int", "field")), op("CondRefOf", local(0), NONE),
                                op("RefOf", local(0)),
                                op("CopyObject", inner, local(0)), op("Buffer", inner, b"\1"),
                                op("Concatenate", buffer(65536), buffer(1), self.target(0)), op("Revision"),
                                op("SizeOf", DEBUG),
                                op("Increment", DEBUG), op("ObjectType", local(0)), op("ToHexString", inner, NONE),
                                op("VarPackage", inner, b"\1"), op("Package", b"\1", b"\1" + op("Buffer", local(0), b""))]),
            lambda: self.named("device", "mutex", "event", "region", "scope", "power", "thermal", "processor"),
            lambda: rng.choice([local(7), argument(6),
                                op("DerefOf", op("Index", op("Package", b"\2", b"\1"), b"\1", NONE)),
                                op("DerefOf", op("Index", op("Package", b"\2", b"\1"), op("And", local(0), b"\1", NONE),
                                                 NONE))]),
            lambda: self.name.encode() + self.ones(self.count),
            lambda: rng.choice([op("DerefOf", op("Index", self.named("buf", "str"), spelt(rng, 300), NONE)),
                                op("ToInteger", buffer(0), self.target(0)), op("DerefOf", op("Index", b"HANY\1", b"\0", NONE)),
                                op("DerefOf", op("Index", op("Package", b"\1", b"\1"), inner, NONE))]),
            lambda: rng.choice([op("Divide", inner, b"\0", NONE, NONE), op("Mod", b"\1", local(0), NONE),
                                op("Divide", b"\1", inner, self.target(0), self.target(0)),
                                op("Mod", inner, spelt(rng, 2 ** 32), self.target(0))]),
            lambda: self.named("badfield", "badbfield"),
            lambda: rng.choice([b"HNON", b"HSOM" + inner, b"HSO2", b"HNO1" + inner]),
            lambda: rng.choice([b"HREF" + inner, b"HBAD" + inner, b"HCY0", b"HSLF" + inner, b"HDEP"]),
            lambda: rng.choice([b"HC05", b"HC06", b"HC07", b"HC04"]),
            lambda: rng.choice([b"HMX0", b"HMXD", b"HMXC", op("Acquire", b"MTX0", b"\0\0"),
                                op("Acquire", b"MTX1", b"\0\0"), op("Acquire", b"_GL_", b"\0\0"),
                                op("Acquire", b"NONE", b"\0\0")]),
            lambda: rng.choice([b"_OSI" + inner, b"HSIG" + inner + self.term(0) + self.term(0), b"HSI2" + inner + b"\1",
                                b"HI2_" + inner + self.term(0)]),
            lambda: op("DerefOf", op("Index", op("Package", b"\2", b"NONE\1"),
                                     rng.choice([b"\0", op("And", local(0), b"\1", NONE)]), NONE)),
        ]
        return rng.choice(choices)()

    def term(self, depth):
        roll = self.rng.random()
        if roll < self.trouble:
            return self.causer(depth)
        if roll < self.trouble + (1 - self.trouble) * 0.3:
            return self.other(depth)
        return self.integer(depth)

    def fitting(self, name, number, depth):
        """A term of the kind that an operator wants, with other ones now and then."""
        rng = self.rng
        if rng.random() < self.trouble:
            return self.term(depth)
        if name == "Concatenate":
            return rng.choice([self.named("buf"), local(1),
                               buffer(4)]) if rng.random() < 0.7 else rng.choice([self.named("str"), local(2)])
        if name in ("LEqual", "ToBuffer", "ToInteger", "Store", "Return"):
            return self.term(depth) if rng.random() < 0.3 else rng.choice([self.integer(depth), self.named("buf"),
                    self.named("str")])
        if name in ("Divide", "Mod") and number == 1:
            return spelt(rng, rng.choice([1, 3, 2 ** 32, 2 ** 32 + 2, 0, 7]))
        return self.integer(depth)

    def target(self, depth):
        rng, roll = self.rng, self.rng.random()
        if roll < 0.25:
            return NONE
        if roll < 0.45:
            return rng.choice([local, argument])(rng.randrange(7))
        if roll < 0.5:
            return DEBUG
        return self.supername(depth)

    def supername(self, depth):
        rng, roll = self.rng, self.rng.random()
        if roll < 0.25:
            return self.named(*self.tables.by)
        if roll < 0.35:
            return rng.choice([b"NONE", b"EXT1", b"\\", b"^", b"OWN0", b"OWN1", b"OWN2", b"OWN3", b"OWN4"])
        if roll < 0.5:
            return self.named("badfield", "badbfield", "field", "wide", "bfield", "bwide")
        if roll < 0.6:
            return rng.choice([local, argument])(rng.randrange(7))
        if roll < 0.66:
            return rng.choice([DEBUG, op("RefOf", local(0)), op("DerefOf", self.term(0))])
        first = rng.choice([self.named("buf"), self.named("buf"), self.named("str", "pkg", "int", "field"), b"NONE",
                            b"EXT1" + self.term(0), b"HI1_" + self.term(0), local(1), argument(0), b"OWN1", b"OWN3",
                            self.term(0), self.name.encode() + self.ones(self.count)])
        return op("Index", first, self.term(depth), rng.choice([NONE] * 6 + [local(0), DEBUG, b"NONE"]))

    def operator(self, name, depth):
        rng = self.rng
        if name == "DerefOf" and rng.random() < 0.9:
            first = rng.choice([self.named("buf", "str", "pkg"), local(1), local(2), local(3), local(4), b"HPKG",
                                self.term(depth)])
            return op(name, op("Index", first, self.fitting(name, 1, depth), rng.choice([NONE] * 8 + [local(0), b"NONE"])))
        parts = []
        for number, letter in enumerate(LETTERS[name]):
            if letter == "t":
                parts.append(self.fitting(name, number, depth))
            elif letter == "g":
                parts.append(self.target(depth))
            elif letter == "s":
                parts.append(self.mutex() if name in ("Acquire", "Release") and rng.random() < 0.7 else self.supername(depth))
            elif letter in "bwd":
                parts.append(bytes({"b": 1, "w": 2, "d": 4}[letter]))
            elif letter == "m":
                parts.append(rng.choice([local(0), b"NONE", b"I001"]))
            elif letter == "n":
                parts.append(b"NONE")
            elif letter == "L":
                parts.append(self.inner(name, depth))
        return op(name, *parts)

    def mutex(self):
        return name_bytes(self.tables.pick("mutex")[0])

    def inner(self, name, depth):
        made = self.statement(depth - 1) if depth > 0 else b""
        if name == "While" and self.rng.random() < 0.8:
            return made + self.rng.choice([op("Break"), op("Return", self.term(0))])
        return made

    def statement(self, depth):
        rng, roll = self.rng, self.rng.random()
        if roll < 0.45:
            return self.operator(rng.choice(STATEMENTS), depth)
        if roll < 0.9:
            return self.operator(rng.choice(PROFILE), depth)
        if roll < 0.95:
            return self.operator(rng.choice(OUTSIDE), depth)
        return self.term(depth)

    def definition(self):
        """An own definition with trouble in its parts."""
        rng = self.rng
        name = rng.choice([b"OWN0", b"OWN1", b"OWN5", b"OWN5", b"^OWN", b"\\OWN6", b"\x2f\x01OWN7", b"B00A", b"\0",
                           b"\x2eOWN8OWN8"])
        if name == b"^OWN":
            name = b"^OWN9"
        form = rng.choice(["Name", "CreateByteField", "CreateBitField", "CreateField", "CreateQWordField"])
        if form == "Name":
            return op(form, name, rng.choice([b"\1", string("a"), op("Buffer", self.term(0), b""), b"\x5b\x30",
                                              op("Package", b"\1", rng.choice([b"\1", b"NONE",
                                                 op("Buffer", self.term(0), b""), op("VarPackage", self.term(0), b"")]))]))
        source = rng.choice([self.named("buf"), self.named("buf"), self.named("str", "pkg", "int"), name, b"OWN1",
                             b"OWN2", b"OWN4", b"OWN5", b"NONE", self.term(1), self.named(*self.tables.by), local(1)])
        numbers = [rng.choice([spelt(rng, rng.choice(SMALL)), spelt(rng, rng.choice(SMALL)), self.term(0)])
                   for _ in range(2 if form == "CreateField" else 1)]
        return op(form, source, *numbers, name)

    def body(self):
        rng = self.rng
        made = b"".join([op("Store", b"\x0a\x05", local(0)), op("Store", buffer(4), local(1)),
                         op("Store", string("abc"), local(2)),
                         op("Store", self.tables.package(1), local(3)), op("Store", b"HANY\1", local(4)),
                         op("Store", b"HMIX\1", local(5)), op("Store", b"\x0a\x02", local(6))])
        made += op("Name", b"OWN0", b"\1") + op("Name", b"OWN1", buffer(4)) + op("Name", b"OWN3",
                op("Package", b"\1", b"\1")) + op("CreateByteField", b"OWN1", b"\x0a\x03", b"OWN2")
        if rng.random() < 0.5:
            made += op("CreateWordField", rng.choice([b"OWN1", b"OWN1", b"OWN0", b"BUF5"]),
                       spelt(rng, rng.choice([0, 2, 3])), b"OWN4")
        held = rng.random() < 0.4
        mutex = rng.choice([b"MTX1", b"MTX2", b"MTX3"])
        if held:
            made += op("Acquire", mutex, b"\0\0")
        if rng.random() < 0.2:
            made += self.definition()
        for _ in range(rng.choice([1, 1, 1, 2])):
            made += self.statement(2)
        if rng.random() < 0.2:
            made += self.definition()
        if held and rng.random() < 0.8:
            made += op("Release", mutex)
        if rng.random() < 0.5:
            made += op("Return", self.term(1))
        return made


class Flow:
    """Lists full of exits, loops and locks over a few locals."""

    def __init__(self, tables, count):
        self.tables = tables
        self.rng = tables.rng
        self.count = count
        self.loops = 0
        self.counters = []
        self.wild = self.rng.choice([0, 0, 0.03, 0.1])
        self.locks = self.rng.choice([0, 0.06, 0.12])
        self.exits = self.rng.choice([0.05, 0.15, 0.3])

    def chance(self, part):
        return self.rng.random() < part

    def slot(self):
        rng = self.rng
        if self.count and self.chance(0.2):
            return argument(rng.randrange(self.count))
        free = [n for n in range(5) if n not in self.counters or self.chance(self.wild / 3)]
        return local(rng.choice(free or [5]))

    def any_slot(self):
        rng = self.rng
        return argument(rng.randrange(self.count)) if self.count and self.chance(0.3) else local(rng.randrange(5))

    def value(self):
        rng, roll = self.rng, self.rng.random()
        if roll < 0.6:
            return spelt(rng, rng.choice(SMALL))
        if roll < 0.8:
            return self.any_slot()
        if self.chance(1 - 3 * self.wild):
            return op("Add", self.any_slot(), b"\1", NONE) if self.chance(0.5) else spelt(rng, rng.choice(EDGES))
        return rng.choice([string("ab"), buffer(4), buffer(5), op("Package", b"\1", b"\1"), op("Package", b"\1", b"\0"),
                           b"HANY\1", b"HMIX\1"])

    def test(self):
        rng, roll = self.rng, self.rng.random()
        if roll < 0.3:
            return self.any_slot()
        if roll < 0.7:
            return op("LLess", self.any_slot(), spelt(rng, rng.choice([0, 1, 2, 4, 4, 5, 2 ** 32, 2 ** 32 + 4])))
        if roll < 0.8:
            return op("LGreater", self.any_slot(), spelt(rng, rng.choice(SMALL)))
        if roll < 0.85:
            return op("Store", self.value(), self.slot())
        if roll < 0.9 and self.wild:
            return op("Acquire", rng.choice([b"MTX1", b"MTX2"]), b"\0\0")
        return rng.choice([b"\1", b"\0", op("Increment", self.slot())])

    def list(self, depth, most=3):
        return b"".join(self.statement(depth) for _ in range(self.rng.randrange(most + 1)))

    def exit(self):
        rng = self.rng
        choices = [op("Return", self.value())]
        if self.loops or self.chance(self.wild):
            choices += [op("Break"), op("Continue")] * 2
        return rng.choice(choices)

    def statement(self, depth):
        rng = self.rng
        if self.chance(self.exits):
            return self.exit()
        if self.chance(self.wild / 3):
            return self.strange(depth)
        if self.chance(self.locks):
            name = rng.choice([b"MTX1", b"MTX2", b"MTX3"])
            front, back = op("Acquire", name, b"\0\0"), op("Release", name)
            if self.chance(self.wild):
                return rng.choice([front, back])
            return front + self.list(depth - 1, 2) + back if depth > 0 else front + back
        roll = rng.random()
        if depth > 0 and roll < 0.3:
            made = op("If", self.test(), self.list(depth - 1))
            return made + packaged(b"\xa1", self.list(depth - 1)) if self.chance(0.6) else made
        if depth > 0 and roll < 0.5:
            return self.loop(depth)
        if roll < 0.75:
            return op("Store", self.value(), self.slot())
        if roll < 0.82:
            return op(rng.choice(["Increment", "Decrement"]), self.slot())
        if roll < 0.92:
            return rng.choice([op("Store", self.any_slot(), op("Index", b"BUF4", self.any_slot(), NONE)),
                               op("DerefOf", op("Index", rng.choice([b"BUF4", b"BUF5"]), self.any_slot(), NONE))])
        return rng.choice([self.any_slot(), op("Noop"), op("Subtract", self.any_slot(), b"\1", self.slot()),
                           op("Divide", self.any_slot(), b"\x0a\x03", self.slot(), self.slot())])

    def strange(self, depth):
        """What counts in a loop's shape, though it is outside the profile, or does not though it seems to."""
        rng = self.rng
        return rng.choice([
            lambda: op("CopyObject", b"\1", self.any_slot()), lambda: op("CondRefOf", b"B003", self.any_slot()),
            lambda: op("Store", b"\1", op("Index", b"BUF4", b"\1", self.any_slot())),
            lambda: op("Load", b"NONE", self.any_slot()),
            lambda: op("Scope", b"DEV0", self.list(depth - 1, 2) if depth > 0 else b""),
            lambda: op("Method", b"AAAA", b"\0", op("Increment", self.any_slot())),
            lambda: op("RefOf", self.any_slot()), lambda: op("Signal", self.any_slot()), lambda: op("Name", b"AAAA", b"\1"),
            lambda: op("Store", op("Increment", self.any_slot()), NONE),
            lambda: op("LLess", op("Decrement", self.any_slot()), b"\1"),
            lambda: op("Field", b"DEV0", b"\0", b"\2" + op("Buffer", op("Increment", self.any_slot()), b"")),
            lambda: op("Match", b"\1", b"\0", op("Increment", self.any_slot()), b"\0", b"\1", b"\1"),
            lambda: op("Increment", op("Index", b"BUF4", op("Increment", self.any_slot()), NONE)),
            lambda: op("Store", b"\1", DEBUG),
            lambda: op("Buffer", op("Add", b"\1", b"\1", self.any_slot()), b""), lambda: b"HMX1", lambda: b"HMX0",
            lambda: b"NONE",
        ])()

    def loop(self, depth):
        rng, roll = self.rng, self.rng.random()
        self.loops += 1
        if roll < 0.35:
            made = op("While", self.test(),
                      self.list(depth - 1) + rng.choice([op("Break"), op("Break"), op("Return", self.value()),
                                                         op("Continue") if self.wild else op("Break")]))
            self.loops -= 1
            return made
        number = rng.choice([n for n in range(5) if n not in self.counters] or [0])
        code, limit = local(number), spelt(rng, rng.choice([0, 1, 4, 4, 5, 10, 2 ** 32 + 4]))
        self.counters.append(number)
        if rng.random() < 0.6:
            test, step = op("LLess", code, limit), rng.choice([op("Increment", code), op("Add", code, b"\1", code),
                                                               op("Add", b"\1", code, code)])
        else:
            test, step = rng.choice([code, op("LGreater", code, limit)]), rng.choice([op("Decrement", code),
                    op("Subtract", code, b"\1", code)])
        kept, self.exits = self.exits, self.exits if self.chance(self.wild) else 0
        ahead = self.list(depth - 1, 2)
        self.exits = kept
        made = op("While", test, ahead + step + self.list(depth - 1, 2))
        self.counters.pop()
        self.loops -= 1
        front = op("Store", spelt(rng, rng.choice(SMALL)), code) if self.chance(0.5) else b""
        return front + made

    def body(self):
        rng = self.rng
        made = b""
        for number in range(5):
            if not self.chance(self.wild):
                made += op("Store", spelt(rng, rng.choice([0, 1, 3, 4, 5, 100])), local(number))
        made += self.list(4, 5)
        if self.chance(0.6):
            made += op("Return", self.value())
        return made


def shapes(rng, depth=2):
    """Packages of a few shapes, each in several spellings."""
    def package(size, *parts):
        if rng.random() < 0.5:
            return op("Package", bytes([size]), *parts)
        return op("VarPackage", spelt(rng, size), *parts)

    five = rng.choice([b"\x0a\5", b"\x0b\5\0", b"\x0e\5\0\0\0\0\0\0\0", b"\x0e\5\0\0\0\1\0\0\0"])
    choices = [lambda: package(1, five), lambda: package(1, five, rng.choice([b"\1", string("q"), buffer(2)])),
               lambda: package(1, b"\x0a\6"), lambda: package(2, five), lambda: package(2, five, five),
               lambda: package(2, five, b"\x0a\6"),
               lambda: package(2, rng.choice([b"NONE", b"\\_SB_", b"I001"]), five),
               lambda: package(2, five, rng.choice([b"NONE", b"BUF4"])), lambda: package(0), lambda: package(0, five),
               lambda: package(1, string("ab")), lambda: package(1, string("cd")),
               lambda: package(1, op("Buffer", spelt(rng, rng.choice([0, 2])), b"\1\2")),
               lambda: package(1, op("Buffer", spelt(rng, 3), rng.choice([b"", b"\1\2\3"]))),
               lambda: package(3, five, string("a")), lambda: package(2, string("a"), string("bc")),
               lambda: package(2, string("ab"), string("bc"))]
    if depth:
        def inner():
            return shapes(rng, depth - 1)

        choices += [lambda: package(1, inner()), lambda: package(2, inner(), inner()),
                    lambda: package(2, inner(), five), lambda: package(2, *[inner()] * 2)] * 2
    return rng.choice(choices)()


def anything(rng):
    """A value of some kind."""
    return rng.choice([lambda: shapes(rng), lambda: shapes(rng), lambda: shapes(rng),
                       lambda: spelt(rng, rng.choice(EDGES)), lambda: string(rng.choice(["", "ab", "cd", "abc"])),
                       lambda: buffer(rng.choice([0, 1, 2, 4, 5])),
                       lambda: b"HANY\1", lambda: b"HMIX\1",
                       lambda: op("DerefOf", op("Index", shapes(rng),
                                                rng.choice([b"\0", b"\1", op("And", argument(0), b"\1", NONE)]), NONE))])()


def kinds_body(rng):
    """A local that has one of two kinds, and what is then done with it."""
    first, second = anything(rng), anything(rng)
    if rng.random() < 0.2:
        second = first
    code = local(0)
    meet = rng.choice([
        lambda: op("If", argument(0), op("Store", first, code)) + packaged(b"\xa1", op("Store", second, code)),
        lambda: op("Store", first, code) + op("If", argument(0), op("Store", second, code)),
        lambda: op("Store", first, code) + op("Store", b"\0", local(1)) + op("While", op("LLess", local(1), b"\x0a\3"),
            op("Store", second, code) + op("Increment", local(1))),
        lambda: op("Store", first, code) + op("While", argument(0), op("Store", second, code) + op("Break")),
        lambda: op("Store", first, code) + op("While", argument(0),
                                              op("If", code, op("Store", second, code) + op("Break")) + op("Break")),
        lambda: op("Store", first, code) + op("Store", b"\0", local(1)) + op("While", op("LLess", local(1), b"\x0a\3"),
            op("Increment", local(1)) + op("If", argument(0),
                                           op("Store", second, code) + op(rng.choice(["Continue", "Break"])))),
        lambda: op("If", argument(0), op("Store", first, code)) + packaged(b"\xa1",
            op("Store", second, code) + op("Return", b"\1")),
        lambda: op("While", b"\1", op("Store", second, code) + op("Return", first)) + op("Store", first, code),
    ])()
    place = rng.choice([b"\0", b"\0", b"\1", op("And", argument(0), b"\1", NONE), op("And", argument(0), b"\0", NONE)])

    def at(what):
        return op("DerefOf", op("Index", what, place, NONE))

    use = rng.choice([
        lambda: op("Return", code), lambda: op("Return", code), lambda: op("Return", op("SizeOf", code)),
        lambda: op("Return", at(code)), lambda: op("Return", at(code)), lambda: op("Return", at(at(code))),
        lambda: op("Return", op("Add", code, b"\1", NONE)),
        lambda: op("Return", op("LEqual", code, anything(rng))),
        lambda: op("Return", op("LEqual", anything(rng), code)),
        lambda: op("Return", op("Concatenate", code, code, NONE)),
        lambda: op("Store", code, rng.choice([b"BUF4", b"BUF5", b"I001", NONE, DEBUG, argument(0)])),
        lambda: b"HSI2" + code + b"\1", lambda: b"HSIG" + code + b"\1" + string("a"), lambda: code,
        lambda: op("Return", op("ToInteger", code, NONE)), lambda: op("Return", op("ToBuffer", code, NONE)),
        lambda: op("Return", op("LNot", code)),
        lambda: op("Return", op("DerefOf", op("Index", buffer(8), op("SizeOf", code), NONE))),
        lambda: op("If", code, b""), lambda: op("Return", op("Mod", code, b"\x0a\3", NONE)),
    ])()
    return meet + use


GREAT = [0, 1, 4, 8, 9, 255, 65535, 65536, 65537, 2 ** 32 - 1, 2 ** 32, 2 ** 32 + 1, 2 ** 61, 2 ** 63, 2 ** 64 - 1]


def args_body(rng, kind, size):
    """What is done with an argument of a told kind and a great length."""
    edge = spelt(rng, max(0, min(2 ** 64 - 1, size + rng.choice([-1, -1, 0, 1]))))
    if rng.random() < 0.3:
        return greatest_body(rng, kind)
    other = {"buf": buffer, "str": lambda n: string("x" * n)}.get(kind, buffer)
    return used_argument(rng, size, edge, other)


def greatest_body(rng, kind):
    """A body whose loop's steps tell the greatest value that a term over the argument may have."""
    first, kept = argument(0), local(0)
    number = spelt(rng, rng.choice(EDGES + GREAT))

    def two(names):
        operands = [(first, number), (number, first), (first, first), (first, argument(1))]
        return op(rng.choice(names), *rng.choice(operands), NONE)

    if kind != "int" or rng.random() < 0.1:
        term = rng.choice([op("SizeOf", first), op("ToInteger", first, NONE)])
    else:
        term = rng.choice([
            two(["Add", "Multiply", "And", "Or", "Xor", "ShiftLeft", "ShiftRight", "Subtract", "Nand"]),
            two(["Add", "Multiply", "And", "Or", "Xor", "ShiftLeft", "ShiftRight"]),
            op("Divide", first, number, NONE, NONE), op("Mod", first, number, NONE), op("Increment", first),
            op("ToInteger", op("ToBuffer", first, NONE), NONE), op("FindSetLeftBit", first, NONE)])
    return op("Store", term, kept) + op("While", kept, op("Decrement", kept))


def used_argument(rng, size, edge, other):
    """One use of the argument; the edge is an integer near its length or its greatest value."""
    first, kept = argument(0), local(0)
    return rng.choice([
        lambda: op("Return", op("SizeOf", first)), lambda: op("Store", first, kept) + op("Return", op("SizeOf", kept)),
        lambda: op("Return", op("DerefOf", op("Index", first, edge, NONE))),
        lambda: op("Return", op("DerefOf", op("Index", first, op("And", argument(1), edge, NONE), NONE))),
        lambda: op("If", op("LLess", argument(1), edge),
                   op("Return", op("DerefOf", op("Index", first, argument(1), NONE)))),
        lambda: op("Return", op("Concatenate", first, first, NONE)),
        lambda: op("Return", op("Concatenate", first, other(rng.choice([0, 1, 2])), kept)),
        lambda: op("Return", op("Concatenate", other(rng.choice([0, 1, 65536 - size if 0 <= size <= 65536 else 0])),
                                first, NONE)),
        lambda: op("Return", op("ToInteger", first, NONE)), lambda: op("Return", op("ToBuffer", first, kept)),
        lambda: op("Return", op("LEqual", first, other(1))),
        lambda: op("Store", first, rng.choice([b"BUF4", b"BUF5", b"B002"])), lambda: op("Return", first),
        lambda: op("Return", op("Add", first, b"\1", NONE)), lambda: op("Return", op("Multiply", first, first, NONE)),
        lambda: op("Store", first, kept) + op("While", kept, op("Decrement", kept)),
        lambda: op("Store", first, kept) + op("While", op("LGreater", kept, edge), op("Decrement", kept)) + op("Return",
            kept), lambda: op("While", argument(1), op("Store", other(1), first) + op("Break")) + op("Return", first),
        lambda: op("Return", op("ShiftLeft", first, spelt(rng, rng.choice([0, 1, 31, 32, 33, 63, 64, 65])), NONE)),
        lambda: op("Store", op("DerefOf", op("Index", first, b"\0", NONE)), kept) + op("Return",
            op("DerefOf", op("Index", buffer(rng.choice([255, 256])), kept, NONE))),
        lambda: op("Return", op("Or", first, argument(1), NONE)),
        lambda: op("Return", op("Xor", first, spelt(rng, rng.choice(EDGES)), NONE)),
        lambda: op("Return", op("Divide", first, spelt(rng, rng.choice(EDGES)), kept, argument(1))),
        lambda: op("Divide", first, spelt(rng, rng.choice(EDGES)), kept, NONE) + op("Return", kept),
        lambda: op("Return", op("Mod", first, spelt(rng, rng.choice(EDGES)), kept)),
        lambda: op("Increment", first) + op("Return", first), lambda: op("Return", op("Decrement", first)),
        lambda: op("Return", op("ShiftRight", first, spelt(rng, rng.choice([0, 1, 31, 32, 33, 63, 64, 65, 2 ** 32])),
                                NONE)), lambda: op("Return", op("FindSetLeftBit", first, NONE)),
        lambda: op("Return", op("And", first, argument(1), kept)),
        lambda: op("If", op("LLess", first, edge), op("Return", first)),
        lambda: op("If", op("LLess", first, edge), b"") + op("Return", first),
        lambda: op("If", op("LLess", first, edge), op("Noop")) + packaged(b"\xa1", op("Return", b"\1")) + op("Return",
            first), lambda: op("While", op("LLess", first, edge), op("Return", first)),
        lambda: op("While", op("LLess", first, edge), op("Break")) + op("Return", first),
    ])()


class Two(Pairs):
    """Two causes that meet in one operator, one call, or one list."""

    def cause(self):
        return self.causer(0)

    def one(self, name):
        """An operator of which two parts have a cause, or one part and what it does itself."""
        rng = self.rng
        letters = LETTERS[name].replace("P", "")
        places = [i for i, letter in enumerate(letters) if letter in "tgs"]
        bad = set(rng.sample(places, min(2, len(places)))) if rng.random() < 0.8 else {rng.choice(places)}
        parts = []
        for number, letter in enumerate(letters):
            if letter == "t":
                fine = rng.choice([self.named("buf"), self.named("str")]) if name == "Concatenate" else spelt(rng, 3)
                parts.append(rng.choice([self.cause(), self.cause(), self.other(0)]) if number in bad else fine)
            elif letter == "g":
                parts.append(self.supername(0) if number in bad else NONE)
            elif letter == "s":
                parts.append(self.supername(0) if number in bad else self.mutex() if name in ("Acquire", "Release")
                             else local(0))
            elif letter == "L":
                parts.append(self.cause() if rng.random() < 0.5 else self.inner(name, 1))
            else:
                parts.append(bytes({"b": 1, "w": 2, "d": 4}.get(letter, 1)))
        return op(name, *parts)

    def call(self):
        rng = self.rng
        callee, count = rng.choice([(b"HI2_", 2), (b"HI3_", 3), (b"HSIG", 3), (b"HSI2", 2), (b"HX64", 1), (b"HX6S", 1),
                                    (b"HACQ", 1), (b"HACS", 1), (b"HSOM", 1), (b"HREF", 1), (b"HBAD", 1), (b"HSLF", 1),
                                    (b"HNO1", 1), (b"HBU1", 1), (b"_OSI", 1), (self.name.encode(), self.count)])
        parts = b"".join(rng.choice([self.cause(), self.other(0), b"\1", self.integer(0)]) for _ in range(count))
        return rng.choice([lambda x: x, lambda x: op("Return", x), lambda x: op("Store", x, self.target(0)),
                           lambda x: op("Add", x, self.cause(), NONE), lambda x: op("Notify", b"NONE", x)])(callee + parts)

    def flow(self):
        """Causes in the blocks and tests of Ifs and loops, and at their ends."""
        rng = self.rng
        lock = op("Acquire", b"MTX4", b"\0\0")

        def bad():
            return rng.choice([self.cause(), self.cause(), b"", lock, op("Return", self.cause()),
                               op("Store", string("a"), local(0)), op("Continue"), op("Break"), op("Release", b"MTX4")])

        step = rng.choice([op("Increment", local(0)), op("Increment", local(6)), op("Decrement", local(0)), b""])
        test = rng.choice([b"\1", op("LLess", local(0), spelt(rng, rng.choice([9, 2 ** 63, 2 ** 64 - 1]))), local(0),
                           op("LLess", local(7), b"\x0a\x09"), local(1), self.cause()])
        big = op("While", op("LLess", local(0), b"\x0e" + (2 ** 62).to_bytes(8, "little")), op("Increment", local(0)))
        return rng.choice([
            lambda: op("If", test, bad() + bad()), lambda: op("If", test, bad()) + packaged(b"\xa1", bad()),
            lambda: op("While", test, bad() + step + bad()), lambda: op("While", test, bad() + bad() + op("Break")),
            lambda: op("While", op("LLess", local(0), b"\x0a\x09"),
                       op("If", local(6), bad() + op(rng.choice(["Break", "Noop"]))) + op("Increment", local(0))
                       + bad()), lambda: lock + bad(), lambda: big + bad() + lock, lambda: big + bad() + big,
            lambda: big + op("Return", self.cause()),
            lambda: op("While", test, op("If", local(6), bad() + op("Continue")) + bad()),
            lambda: op("Return", self.cause()) + bad() + op("While", test, bad() + step + bad()),
            lambda: op("Return", self.cause()) + op("If", test, bad()) + packaged(b"\xa1", bad()) + bad(),
        ])()

    def body(self):
        rng = self.rng
        made = b"".join([op("Store", b"\x0a\x05", local(0)), op("Store", buffer(4), local(1)),
                         op("Store", string("abc"), local(2)), op("Store", op("Package", b"\1", b"\1"), local(3)),
                         op("Store", b"HANY\1", local(4)), op("Store", b"HMIX\1", local(5)),
                         op("Store", b"\x0a\x02", local(6))])
        made += op("Name", b"OWN1", buffer(4)) + op("CreateByteField", b"OWN1", b"\x0a\x04", b"OWN2")
        if rng.random() < 0.4:
            made += op("Acquire", rng.choice([b"MTX1", b"MTX2", b"MTX3"]), b"\0\0")
        roll = rng.random()
        if roll < 0.5:
            made += self.one(rng.choice([name for name in PROFILE + STATEMENTS
                                         if any(letter in "tgs" for letter in LETTERS[name])] + ["Index"]))
        elif roll < 0.7:
            made += self.call()
        else:
            made += self.flow()
        if rng.random() < 0.5:
            made += self.cause()
        return made
