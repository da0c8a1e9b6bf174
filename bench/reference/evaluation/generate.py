"""Random tables whose methods are meaningful for the most part, and often wrong at an edge."""
from aml import CREATE_FIELDS, NONE, OPERATORS, OUTSIDE, NameString, Node, argument, buffer, literal, local, path, text
from evaluate import is_sound
from namespace import Buffer, Namespace, Package, Text

PREDEFINED = [("_GPE",), ("_PR_",), ("_SB_",), ("_SI_",), ("_TZ_",), ("_REV",), ("_OSI",), ("_OS_",), ("_GL_",)]
EDGES = [0, 1, 2, 3, 7, 8, 15, 16, 31, 32, 33, 63, 64, 65, 127, 128, 255, 256, 0xFFFF, 0x10000, 2**31 - 1, 2**31,
         2**32 - 1, 2**32, 2**32 + 1, 2**63 - 1, 2**63, 2**64 - 2, 2**64 - 1, 0x123456789ABCDEF0, 0x5AA5]
FIELD_BITS = [1, 2, 3, 4, 5, 7, 8, 9, 12, 15, 16, 17, 24, 31, 32, 33, 40, 63, 64, 65, 100, 128, 130, 200]
TWO_INTEGERS = ["Add", "Subtract", "Multiply", "ShiftLeft", "ShiftRight", "And", "Nand", "Or", "Nor", "Xor"]
COMPARISONS = ["LAnd", "LOr", "LGreater", "LLess", "LEqual"]


class Board:
    """Tables with their namespace, bodies filled in, and the registers and answers of their world."""

    wrong_arguments = 10

    def __init__(self, chance):
        self.chance = chance
        self.revision = chance.choice([0, 1, 1, 2, 2, 2, 2, 3])
        self.taken = set(PREDEFINED)
        self.known = []  # paths and what stands there, in order of definition
        self.alias_of = {}  # what an alias's path stands for
        self.argument_kinds = {}
        self.numbers = 0
        count = chance.choice([1, 1, 1, 2, 3])
        self.modules = [self.module(number) for number in range(count)]
        self.namespace = Namespace(self.modules, 64 if self.revision >= 2 else 32)
        self.registers = self.random_registers()
        self.osi = chance.choice([None, "X", "Windows 2015", "", "x"])
        self.fill_bodies()

    def one_in(self, count):
        return self.chance.randrange(count) == 0

    # The module: what stands in each scope.

    def module(self, number):
        nodes = self.definitions((), 1) + (self.methods_without_value() if number == 0 else [])
        for where in [("_SB_",), ("_SI_",)] + [p for p, kind in self.known if kind in ("device", "thermal")]:
            if self.one_in(2):
                name = NameString(where, rooted=self.one_in(2), long_form=self.one_in(4))
                nodes.append(Node("Scope", name, self.definitions(self.alias_of.get(where, where), 2)))
        self.chance.shuffle(self.known)
        return nodes

    def methods_without_value(self):
        """Methods that end without a Return, always or for the argument Zero."""
        self.taken |= {("NVA_",), ("NVB_",)}
        self.argument_kinds |= {("NVA_",): [], ("NVB_",): ["integer"]}
        given = Node("If", argument(0), [Node("Return", argument(0))])
        return [Node("Method", NameString(("NVA_",)), 0, [Node("Noop")]), Node("Method", NameString(("NVB_",)), 1, [given])]

    def definitions(self, scope, depth):
        nodes = []
        makers = ([self.data_name] * 5 + [self.region_with_fields] * 2
                  + [self.index_fields, self.bank_fields, self.stacked_fields, self.edge_fields]
                  + [self.buffer_field_definition] * 2 + [self.mutex] * 2 + [self.method] * 4 + [self.device_like] * 2
                  + [self.alias, self.external, self.event])
        for _ in range(self.chance.randrange(4, 12)):
            nodes += self.chance.choice(makers)(scope, depth) or []
        return nodes

    def fresh(self, scope, letter, kind):
        """A new lone name in a scope; some repeat a name of another scope."""
        for _ in range(50):
            segment = f"{letter}{self.chance.choice('ABC')}{self.chance.choice('0123')}_"
            if self.one_in(2):
                self.numbers += 1
                segment = f"{letter}{self.numbers:03X}"
            if scope + (segment,) not in self.taken:
                self.taken.add(scope + (segment,))
                self.known.append((scope + (segment,), kind))
                return NameString((segment,), long_form=self.one_in(12))
        raise RuntimeError("no fresh name")

    def fresh_away(self, scope, letter, kind):
        """A new name that is at times defined in another scope, by its whole path or by its parents; and its path."""
        homes = [where for where, what in self.known if what in ("device", "thermal", "processor", "power")] + [(), ("_SB_",)]
        if not self.one_in(5):
            name = self.fresh(scope, letter, kind)
            return name, scope + name.segments
        home = self.chance.choice(homes)
        if scope and self.one_in(2):
            home = scope[:self.chance.randrange(len(scope))]
        where = home + self.fresh(home, letter, kind).segments
        if scope[:len(home)] == home and len(scope) > len(home) and self.one_in(2):
            return NameString(where[len(home):], parents=len(scope) - len(home)), where
        return NameString(where, rooted=True, long_form=self.one_in(6)), where

    def loose_spelling(self, where, scope):
        """A name that may mean the path, or another object of that segment further up, or nothing."""
        if self.one_in(3):
            return NameString(where[-1:], long_form=self.one_in(6))
        if scope and self.one_in(4):
            parents = self.chance.randrange(1, len(scope) + 2)
            return NameString(where[max(0, len(scope) - parents):] or where, parents=parents)
        return self.spelling(where, scope)

    def some(self, kind):
        found = [where for where, what in self.known if what == kind]
        return self.chance.choice(found) if found else None

    def spelling(self, where, scope):
        """Names that mean a path, as seen from a scope, in a module."""
        if where[:-1] == scope and self.one_in(2):
            return NameString(where[-1:])
        return NameString(where, rooted=True, long_form=self.one_in(8))

    def data_name(self, scope, depth):
        kind = self.chance.choice(["integer", "integer", "buffer", "buffer", "string", "package"])
        name, _ = self.fresh_away(scope, kind[0].upper(), kind)
        return [Node("DefName", name, self.data(kind, scope, 0))]

    def data(self, kind, scope, depth):
        if kind == "integer":
            return self.number()
        if kind == "buffer":
            content = self.bytes_of(self.chance.choice([0, 1, 2, 3, 4, 8, 9, 16]))
            return buffer(self.number(self.chance.choice([0, len(content), 1, 4, 8, 9, 17, 40])), content)
        if kind == "string":
            return text(bytes(self.chance.choice(b"ABXYz\x01\x7f\"\\ ") for _ in range(self.chance.randrange(0, 6))))
        elements = [self.package_element(scope, depth) for _ in range(self.chance.randrange(0, 6))]
        count = self.chance.choice([len(elements), len(elements), max(0, len(elements) - 1), len(elements) + 2])
        if self.one_in(4):
            return Node("VarPackage", self.number(count), elements)
        return Node("Package", count, elements)

    def package_element(self, scope, depth):
        if self.one_in(4) and self.known:
            if self.one_in(6):
                return path(NameString(("NONE",), rooted=self.one_in(2)))
            if self.one_in(10):
                return path(NameString((), rooted=True))
            return path(self.loose_spelling(self.chance.choice(self.known)[0], scope))
        kinds = ["integer"] * 3 + ["buffer", "string"] + (["package"] * 2 if depth < 3 else [])
        return self.data(self.chance.choice(kinds), scope, depth + 1)

    def number(self, value=None):
        if value is None:
            value = self.any_number()
        forms = [form for form, limit in (("Byte", 8), ("Word", 16), ("DWord", 32), ("QWord", 64)) if value < 2**limit]
        return literal(value, self.chance.choice(forms)) if self.one_in(3) else literal(value)

    def any_number(self):
        chance = self.chance
        if self.one_in(3):
            return chance.randrange(0, 20)
        if self.one_in(6):
            return chance.getrandbits(chance.choice([8, 16, 32, 64]))
        return chance.choice(EDGES)

    def bytes_of(self, count):
        return bytes(self.chance.randrange(256) for _ in range(count))

    def region(self, scope):
        chance = self.chance
        name = self.fresh(scope, "R", "region")
        space = chance.choice([0, 1, 2, 3, 5]) if not self.one_in(20) else chance.choice([4, 6, 0x80])
        place = chance.choice([0, 0x10, 0x60, 0x61, 0x1000, 0xFFF0, 2**32 - 16, 2**32, 2**64 - 512, 2**64 - 64])
        size = chance.choice([1, 2, 4, 7, 8, 9, 16, 33, 64, 64, 256, 512, 513])
        if self.one_in(25):
            place, size = 2**64 - chance.choice([1, 8, 64]), chance.choice([1, 8, 9, 64, 65])
        place, size = self.number(place), self.number(size)
        if self.one_in(30):
            place = Node("Add", self.number(1), self.number(2), NONE)
        elif self.one_in(40):
            size = path(NameString(("_REV",)))
        if self.one_in(60):
            return name, Node("DataTableRegion", name, text(b"A"), text(b"B"), text(b"C"))
        return name, Node("OperationRegion", name, space, place, size)

    def flags(self, access=None):
        if access is None:
            access = self.chance.choice([0, 1, 2, 3, 4])
            if self.one_in(30):
                access = self.chance.choice([5, 6, 15])
        rule = self.chance.choice([0, 0, 1, 2]) if not self.one_in(40) else 3
        return access | rule << 5 | self.chance.randrange(2) << 4 | self.chance.randrange(2) << 7

    def field_items(self, scope, letter, most):
        chance = self.chance
        items = []
        for _ in range(chance.randrange(1, 6)):
            if self.one_in(3):
                items.append(("skip", chance.choice([1, 3, 4, 7, 8, 12, 16, 24, 31, 64]) if not self.one_in(30)
                              else 2**28 - 1))
            if self.one_in(10):
                items.append(("access", chance.choice([0, 1, 2, 3, 4, 0x12, 5]), chance.randrange(256)))
            bits = chance.choice(FIELD_BITS)
            if self.one_in(40):
                bits = chance.choice([0, 2048, 2049, 1000, 520])
            items.append(("name", self.fresh(scope, letter, "field").segments[0], min(bits, most) or bits))
            if self.one_in(30):
                items.append(chance.choice([("connection", b"\\NONE"), ("connection", b"\x11\x03\x01\x00"),
                                            ("extended", bytes([chance.randrange(5), 0, 0]))]))
        return items

    def region_with_fields(self, scope, depth):
        name, region = self.region(scope)
        if self.one_in(12) and self.known:
            where = self.some("region") if not self.one_in(4) else self.chance.choice(self.known)[0]
            name = self.loose_spelling(where, scope)
        return [region, Node("Field", name, self.flags(), self.field_items(scope, "F", 2048))]

    def index_fields(self, scope, depth):
        """An index and a data field, and fields behind them; at times a wrong one of these."""
        chance = self.chance
        name, region = self.region(scope)
        region.parts[-1] = self.number(chance.choice([16, 64])) if region.op == "OperationRegion" else region.parts[-1]
        width = chance.choice([1, 1, 2, 3, 4])
        index_bits, data_bits = chance.choice([8, 8, 3, 16, 32, 40, 64, 70, 128]), 4 << width
        if self.one_in(15):
            data_bits += 1
        index, data = self.fresh(scope, "J", "field"), self.fresh(scope, "J", "field")
        lead = [("skip", chance.choice([1, 4, 8, 16]))] if self.one_in(3) else []
        items = lead + [("name", index.segments[0], index_bits), ("skip", chance.choice([3, 8, 24])) ] * 1
        items += [("name", data.segments[0], data_bits)]
        parts = [NameString(index.segments), NameString(data.segments)]
        if self.one_in(12) and self.known:
            parts[chance.randrange(2)] = self.spelling(self.some("field"), scope)
        if self.one_in(20):
            parts[chance.randrange(2)] = NameString(("NONE",))
        if self.one_in(12):
            parts[0] = NameString(data.segments)
        over = Node("IndexField", *parts, self.flags(width if not self.one_in(12) else None),
                    self.field_items(scope, "X", 2048))
        fields = Node("Field", name, self.flags(), items)
        return [region, fields, over] if not self.one_in(6) else [over, region, fields]

    def bank_fields(self, scope, depth):
        chance = self.chance
        first, bank_region = self.region(scope)
        second, region = self.region(scope)
        bank = self.fresh(scope, "L", "field")
        items = [("name", bank.segments[0], chance.choice([1, 4, 8, 8, 12, 16, 16, 33, 65]))]
        value = self.number(chance.choice([0x1234, 0xFFFF, 0x123456789ABCDEF0, 2**64 - 1, self.any_number(),
                                           self.any_number()]))
        if self.one_in(25):
            value = Node("Add", self.number(1), self.number(1), NONE) if self.one_in(2) else path(NameString(("_REV",)))
        bank_name = NameString(bank.segments)
        if self.one_in(12) and self.known:
            bank_name = self.spelling(self.some("field"), scope)
        if self.one_in(4):
            second = first
        over = Node("BankField", second, bank_name, value, self.flags(), self.field_items(scope, "K", 2048))
        return [bank_region, region, Node("Field", first, self.flags(), items), over]

    def edge_fields(self, scope, depth):
        """Fields that end at the end of their region, or a bit before or behind, in a region at the end of all places."""
        chance = self.chance
        name = self.fresh(scope, "R", "region")
        size = chance.randrange(1, 40)
        place = chance.choice([0x60, 2**64 - size, 2**64 - size, 2**64 - size + 1, 2**32 - size, 2**64 - 1, 0])
        made = [Node("OperationRegion", name, chance.choice([0, 1, 2, 3, 5]), self.number(place), self.number(size))]
        for _ in range(3):
            access = chance.randrange(5)
            width, total = 4 << max(access, 1), 8 * size
            end = chance.choice([total, total // width * width, total // width * width + 1, total - 1, total + 1,
                                 total + 1, width])
            bits = min(chance.choice(FIELD_BITS), end)
            field = self.fresh(scope, "F", "field").segments[0]
            items = ([("skip", end - bits)] if end > bits else []) + [("name", field, bits)]
            if self.one_in(3):
                bank = self.fresh(scope, "L", "field").segments[0]
                made.append(Node("Field", name, 1, [("name", bank, 8)]))
                made.append(Node("BankField", name, NameString((bank,)), self.number(), self.flags(access), items))
            else:
                made.append(Node("Field", name, self.flags(access), items))
        return made

    def stacked_fields(self, scope, depth):
        """Index and bank fields over index and bank fields, which cannot be accessed."""
        name, region = self.region(scope)
        bank, index, data = (self.fresh(scope, letter, "field") for letter in "LJJ")
        banked, indexed, last = (self.fresh(scope, letter, "field") for letter in "KXX")
        items = [("name", plain.segments[0], 8) for plain in (bank, index, data)]

        def lone(field):
            return NameString(field.segments)
        made = [region, Node("Field", name, 1, items),
                Node("BankField", name, lone(bank), self.number(), 1, [("name", banked.segments[0], 8)]),
                Node("IndexField", lone(index), lone(data), 1, [("name", indexed.segments[0], 8)])]
        over = [("name", last.segments[0], 8)]
        first, second = self.chance.choice([(index, banked), (banked, data), (indexed, data), (index, indexed),
                                            (None, banked), (None, indexed)])
        if first is None:
            return made + [Node("BankField", name, lone(second), literal(2), 1, over)]
        return made + [Node("IndexField", lone(first), lone(second), 1, over)]

    def buffer_field_definition(self, scope, depth):
        source = self.some("buffer")
        if source is None or self.one_in(12):
            source = self.chance.choice(self.known)[0] if self.known and not self.one_in(3) else ("NONE",)
        name = self.fresh(scope, "C", "bufferfield")
        spelt = self.loose_spelling(source, scope) if self.one_in(8) else self.spelling(source, scope)
        return [self.create_form(path(spelt), name)]

    def create_form(self, source, name):
        chance = self.chance
        op = chance.choice(list(CREATE_FIELDS) + ["CreateField"] * 3)
        index = chance.choice([0, 0, 1, 2, 3, 5, 7, 8, 12, 31, 63, 64]) if not self.one_in(15) else self.any_number()
        numbers = [self.number(index)]
        if self.one_in(30):
            numbers = [self.number(chance.choice([2**61, 2**61 + 1, 2**32 // 8, 2**32, 2**64 - 1, 2**63]))]
        if op == "CreateField":
            count = chance.choice(FIELD_BITS) if not self.one_in(15) else self.any_number()
            numbers.append(self.number(count if not self.one_in(12) else chance.choice([0, 2048, 2049, 4096, 2**32])))
        return Node(op, source, *numbers, name)

    def mutex(self, scope, depth):
        return [Node("Mutex", self.fresh_away(scope, "T", "mutex")[0], self.chance.choice([0, 1, 2, 3, 15, 0x12]))]

    def event(self, scope, depth):
        return [Node("Event", self.fresh(scope, "E", "event"))]

    def device_like(self, scope, depth):
        if depth > 3:
            return []
        kind = self.chance.choice(["Device", "Device", "Device", "Processor", "ThermalZone", "PowerResource"])
        word = {"Device": "device", "Processor": "processor", "ThermalZone": "thermal", "PowerResource": "power"}[kind]
        name = self.fresh(scope, "D", word)
        numbers = {"Processor": [1, 0x410, 6], "PowerResource": [0, 0]}.get(kind, [])
        return [Node(kind, name, *numbers, self.definitions(scope + name.segments, depth + 1))]

    def alias(self, scope, depth):
        if not self.known:
            return []
        source, kind = self.chance.choice(self.known)
        if self.one_in(5):
            source, kind = self.chance.choice([(("_GL_",), "global"), (("_OSI",), "osi"), (("_OS_",), "string"),
                                               (("_REV",), "integer")])
        name = self.fresh(scope, "A", kind)
        self.alias_of[scope + name.segments] = self.alias_of.get(source, source)
        return [Node("Alias", self.spelling(source, scope), name)]

    def external(self, scope, depth):
        name = NameString((self.chance.choice(["XTA_", "XTB_", "XTC_"]),), rooted=self.one_in(2))
        return [Node("External", name, self.chance.choice([8, 8, 8, 0]), self.chance.choice([0, 1, 2, 3]))]

    def method(self, scope, depth):
        count = self.chance.choice([0, 0, 1, 1, 2, 3, 7])
        kinds = [self.chance.choice(["integer"] * 6 + ["buffer", "string", "package"]) for _ in range(count)]
        name, where = self.fresh_away(scope, "M", "method")
        self.argument_kinds[where] = kinds
        flags = count | self.chance.choice([0, 0, 0x08, 0x58, 0xF0])
        return [Node("Method", name, flags, [])]

    def random_registers(self):
        contents = []
        for thing in self.namespace.pairs.values():
            is_whole = thing.kind == "region" and None not in (thing.place, thing.size) and thing.space is not None
            if is_whole and not self.one_in(4):
                space = {0: "mem", 1: "io", 2: "pci", 3: "ec", 5: "cmos"}.get(thing.space)
                count = min(thing.size, 64, 2**64 - thing.place)
                if space and count:
                    contents.append((space, thing.place, self.bytes_of(count)))
        return contents

    def fill_bodies(self):
        for thing in self.methods():
            if thing.body:
                continue
            if self.one_in(40):
                thing.body.append(Node("Raw", self.chance.choice([b"\xa4", b"\x02", b"\x14\x00", b"\x70\x00"])))
                thing.body = None
            else:
                thing.body += Body(self, thing).statements_of_method()

    def methods(self):
        seen = []
        for thing in self.namespace.pairs.values():
            if thing.kind == "method" and thing not in seen:
                seen.append(thing)
        return seen

    def arguments_for(self, method):
        made = []
        for number, kind in enumerate(self.argument_kinds[method.path]):
            if self.one_in(self.wrong_arguments):
                made.append(self.value_of(self.chance.choice(["integer", "buffer", "string", "package"])))
            else:
                made.append(self.value_of(kind, self.argument_size(method.path, number)))
        return made

    def argument_size(self, where, number):
        """The length that a buffer or string argument mostly has: it depends on nothing but its place."""
        return (4, 9, 16, 5)[(len(where) + number) % 4]

    def kinds_text(self):
        """A signature text that tells the kinds of all arguments."""
        lines = []
        for where, kinds in self.argument_kinds.items():
            words = [{"integer": "int", "package": "pkg", "buffer": "buf:", "string": "str:"}[kind] for kind in kinds]
            words = [word + str(self.argument_size(where, number)) if word.endswith(":") else word for number,
                     word in enumerate(words)]
            lines.append(" ".join(["\\" + ".".join(where), *words]) + "\n")
        return "".join(lines).encode()

    def value_of(self, kind, size=None):
        if size is not None and kind in ("buffer", "string"):
            content = self.bytes_of(size)
            return Buffer(content) if kind == "buffer" else Text(bytes(65 + byte % 26 for byte in content))
        if kind == "integer":
            value = self.any_number() if not self.one_in(3) else self.chance.randrange(0, 70)
            return value & self.namespace.most
        if kind == "buffer":
            return Buffer(self.bytes_of(self.chance.choice([0, 1, 4, 5, 8, 9, 16])))
        if kind == "string":
            return Text(bytes(self.chance.choice(b"ABX\x01\x7f ") for _ in range(self.chance.randrange(0, 4))))
        return Package(())


class Body:
    """Makes the statements of one method."""

    def __init__(self, board, method):
        self.board, self.chance, self.method = board, board.chance, method
        self.namespace = board.namespace
        self.kinds = dict(enumerate(board.argument_kinds[method.path]))
        self.locals = {}
        self.own = {}
        self.loops = 0
        self.faults = self.chance.choice([0, 0, 0, 0.01, 0.03, 0.1, 0.3])
        self.things = list(self.namespace.pairs.items())

    def one_in(self, count):
        return self.chance.randrange(count) == 0

    def fault(self):
        return self.chance.random() < self.faults

    # Names.

    def name_of(self, where):
        """A name that means the object at a path, as seen from this method."""
        thing = self.namespace.pairs[where]
        lone = NameString(where[-1:], long_form=self.one_in(10))
        if where[-1] not in self.own and self.namespace.resolve(self.method.path, lone) is thing and not self.one_in(3):
            return lone
        scope = self.method.path
        for parents in range(len(scope), 0, -1):
            kept = scope[:len(scope) - parents]
            if where[:len(kept)] == kept and len(where) > len(kept) and self.one_in(2):
                return NameString(where[len(kept):], parents=parents, long_form=self.one_in(4))
        return NameString(where, rooted=True, long_form=self.one_in(4))

    def where_of(self, condition):
        found = [where for where, thing in self.things if condition(thing)]
        return self.chance.choice(found) if found else None

    def missing(self):
        return self.chance.choice([
            NameString(("NONE",)), NameString(("NONE", "NONE")), NameString((), rooted=True),
            NameString(("NONE",), rooted=True), NameString(("NONE",), parents=9), NameString(("_SB_", "NONE"), long_form=True),
        ])

    def data_where(self, kind):
        types = {"integer": int, "buffer": Buffer, "string": Text, "package": Package}[kind]
        return self.where_of(lambda thing: thing.kind == "data" and isinstance(thing.value, types))

    def own_of(self, kind):
        found = [segment for segment, what in self.own.items() if what == kind]
        return self.chance.choice(found) if found else None

    def data_path(self, kind, careful=False):
        """A name of a data name of a kind, or None."""
        segment = self.own_of(kind)
        if segment is not None and self.one_in(2):
            return path(NameString((segment,)))
        where = self.data_where(kind)
        return None if where is None else path(self.name_of(where))

    def object_path(self, kinds):
        where = self.where_of(lambda thing: thing.kind in kinds)
        return None if where is None else path(self.name_of(where))

    def field_path(self, kind="integer"):
        width = self.namespace.width

        def fits(thing):
            if thing.kind == "bufferfield":
                sound = thing.bits and 1 <= thing.bits <= 2048
            else:
                sound = thing.kind == "field" and is_sound(thing)
            return sound and (thing.bits <= width) == (kind == "integer")
        if self.own_of("bufferfield") and self.one_in(3):
            return path(NameString((self.own_of("bufferfield"),)))
        where = self.where_of(fits)
        return None if where is None else path(self.name_of(where))

    # Terms by kind.

    def term(self, kind, depth=3):
        if self.fault():
            return self.bad_term(depth) if self.one_in(2) else self.good_term(
                self.chance.choice(["integer", "buffer", "string", "package"]), depth)
        return self.good_term(kind, depth)

    def good_term(self, kind, depth):
        for _ in range(10):
            made = self.chance.choice(MAKERS[kind])(self, depth)
            if made is not None:
                return made
        return self.leaf(kind)

    def leaf(self, kind):
        return self.board.data(kind, self.method.path, 2)

    def leaf_term(self, kind, depth):
        return self.leaf(kind)

    def variable(self, kind):
        choices = [local(number) for number, what in self.locals.items() if what == kind]
        choices += [argument(number) for number, what in self.kinds.items() if what == kind]
        if not choices:
            return None
        return self.chance.choice(choices)

    def any_data(self, kind):
        return self.data_path(kind)

    def two_integers(self, depth):
        if depth <= 0:
            return None
        return Node(self.chance.choice(TWO_INTEGERS), self.term("integer", depth - 1), self.term("integer", depth - 1),
                    self.target("integer", depth))

    def shift(self, depth):
        if depth <= 0:
            return None
        count = self.board.number(self.chance.choice([0, 1, 8, 31, 32, 33, 63, 64, 65, 127, 2**32, 2**63, 2**64 - 1]))
        return Node(self.chance.choice(["ShiftLeft", "ShiftRight"]), self.term("integer", depth - 1), count,
                    self.target("integer", depth))

    def division(self, depth):
        if depth <= 0:
            return None
        divisor = self.board.number(self.chance.choice([1, 2, 3, 7, 16, 2**32 - 1, 2**32 + 1, 2**31]))
        if self.one_in(8):
            divisor = self.term("integer", depth - 1)
        if self.one_in(2):
            return Node("Mod", self.term("integer", depth - 1), divisor, self.target("integer", depth))
        return Node("Divide", self.term("integer", depth - 1), divisor, self.target("integer", depth),
                    self.target("integer", depth))

    def one_integer(self, depth):
        if depth <= 0:
            return None
        op = self.chance.choice(["Not", "FindSetLeftBit", "FindSetRightBit", "ToInteger"])
        return Node(op, self.term("integer", depth - 1), self.target("integer", depth))

    def buffer_to_integer(self, depth):
        return Node("ToInteger", self.term("buffer", depth - 1), self.target("integer", depth)) if depth > 0 else None

    def comparison(self, depth):
        if depth <= 0:
            return None
        op = self.chance.choice(COMPARISONS)
        kind = self.chance.choice(["integer", "buffer", "string"]) if op == "LEqual" else "integer"
        made = Node(op, self.term(kind, depth - 1), self.term(kind, depth - 1))
        return Node("LNot", made) if self.one_in(4) else made

    def logical_not(self, depth):
        return Node("LNot", self.term("integer", depth - 1)) if depth > 0 else None

    def size_of(self, depth):
        kind = self.chance.choice(["buffer", "string", "package"])
        named = self.variable(kind) or self.data_path(kind)
        return Node("SizeOf", named) if named is not None else None

    def cond_ref_of(self, depth):
        if self.one_in(3):
            return Node("CondRefOf", path(self.missing()), NONE)
        return Node("CondRefOf", path(self.name_of(self.chance.choice(self.things)[0])), NONE)

    def index_term(self, depth, mask):
        if self.one_in(2):
            return self.board.number(self.chance.randrange(0, max(mask, 1)) if not self.one_in(8) else mask)
        if self.one_in(6):
            return self.term("integer", depth - 1)
        return Node("And", self.term("integer", depth - 1), self.board.number(self.chance.choice([0, 1, 3])), NONE)

    def byte_of(self, depth):
        if depth <= 0:
            return None
        kind = self.chance.choice(["buffer", "buffer", "string"])
        return Node("DerefOf", Node("Index", self.term(kind, depth - 1), self.index_term(depth - 1, 4), NONE))

    def element_of(self, depth):
        """What stands in a package, by a random way down; its kind may be any."""
        if depth <= 0:
            return None
        return Node("DerefOf", Node("Index", self.term("package", depth - 1), self.index_term(depth - 1, 3), NONE))

    def call_of(self, kind, depth):
        where = self.where_of(lambda thing: thing.kind == "method")
        if depth <= 0 or where is None or not self.one_in(3):
            return None
        return self.call(where, depth)

    def call(self, where, depth):
        thing = self.namespace.pairs[where]
        return path(self.name_of(where),
                    *[self.term(kind, min(depth - 1, 1)) for kind in self.board.argument_kinds[thing.path]])

    def ask_osi(self, depth):
        name = NameString(("_OSI",), rooted=self.one_in(2))
        if name.is_lone() and "_OSI" in self.own:
            return None
        asked = text(self.chance.choice([b"X", b"Windows 2015", b"", b"x"])) if not self.one_in(3) else self.term("string", 1)
        return path(name, asked)

    def counted(self, depth):
        named = self.chance.choice([self.variable("integer"), self.data_path("integer"), self.field_path()])
        return Node(self.chance.choice(["Increment", "Decrement"]), named) if named is not None else None

    def store_operand(self, depth, kind="integer"):
        if depth <= 0:
            return None
        number = self.chance.randrange(6)
        value = self.term(kind, depth - 1)
        target = self.chance.choice([local(number), NONE, Node("Debug"), local(number)])
        if target.op == "Local":
            self.locals[number] = kind
        return Node("Store", value, target)

    def acquire(self, depth):
        named = self.object_path(["mutex"])
        return Node("Acquire", named, self.chance.choice([0, 0xFFFF])) if named is not None and self.one_in(6) else None

    def concatenation(self, kind, depth):
        if depth <= 0:
            return None
        return Node("Concatenate", self.term(kind, depth - 1), self.term(kind, depth - 1), self.target(kind, depth))

    def integer_to_buffer(self, depth):
        if depth <= 0:
            return None
        return Node("ToBuffer", self.term(self.chance.choice(["integer", "buffer"]), depth - 1), self.target("buffer", depth))

    # Targets.

    def target(self, kind, depth):
        if self.fault():
            return self.bad_target(depth)
        for _ in range(6):
            made = self.chance.choice(TARGETS)(self, kind, depth)
            if made is not None:
                return made
        return NONE

    def no_target(self, kind, depth):
        return NONE

    def local_target(self, kind, depth):
        number = self.chance.randrange(6)
        self.locals[number] = kind
        return local(number)

    def argument_target(self, kind, depth):
        number = self.chance.randrange(7)
        if not self.one_in(3):
            return None
        self.kinds[number] = kind
        return argument(number)

    def debug_target(self, kind, depth):
        return Node("Debug")

    def name_target(self, kind, depth):
        return self.data_path(kind) if kind == "integer" or self.one_in(3) else None

    def field_target(self, kind, depth):
        return self.field_path(self.chance.choice(["integer", "integer", "buffer"])) if kind == "integer" else (
            self.field_path("buffer") if kind == "buffer" and self.one_in(3) else None)

    def element_target(self, kind, depth):
        named = self.data_path("buffer")
        if kind != "integer" or named is None:
            return None
        return Node("Index", named, self.index_term(max(depth - 1, 0), 4), NONE)

    # What errs.

    def bad_term(self, depth):
        """A term that errs, or that gives a value of an unlikely kind."""
        for _ in range(10):
            made = self.chance.choice(BAD_TERMS)(self, depth)
            if made is not None:
                return made
        return path(self.missing())

    def unset_variable(self, depth):
        if self.one_in(2):
            return argument(self.chance.choice([n for n in range(7) if n not in self.kinds] or [6]))
        return local(self.chance.choice([n for n in range(8) if n not in self.locals] or [7]))

    def missing_name(self, depth):
        return path(self.missing()) if not self.one_in(3) else self.external_call(depth)

    def external_call(self, depth):
        """A name that nothing defines, with as many terms as an External tells."""
        name = NameString((self.chance.choice(["XTA_", "XTB_", "XTC_"]),), rooted=self.one_in(2))
        if name.is_lone() and name.segments[0] in self.own:
            return None
        count = self.namespace.arity(self.method.path, name)
        return path(name, *[self.term("integer", 0) for _ in range(count)])

    def unreadable(self, depth):
        return self.object_path(["scope", "device", "processor", "power", "thermal", "mutex", "event", "region"])

    def unsound_field(self, depth=0):
        where = self.where_of(lambda thing: thing.kind == "field" and not is_sound(thing))
        return None if where is None else path(self.name_of(where))

    def any_buffer_field(self, depth=0):
        return self.object_path(["bufferfield"])

    def any_wide_field(self, depth=0):
        return self.field_path("buffer")

    def zero_division(self, depth):
        return Node(*self.chance.choice([
            ("Mod", self.term("integer", 0), literal(0), NONE),
            ("Divide", self.term("integer", 0), literal(0), NONE, NONE),
            ("Mod", self.term("integer", 0), literal(2**32), NONE),
        ]))

    def outside_term(self, depth):
        return self.chaos(self.chance.choice(sorted(op for op in OUTSIDE if OPERATORS[op][1] in "DE")), depth)

    def misplaced_index(self, depth):
        return Node("Index", self.term("buffer", 0), self.term("integer", 0), self.chance.choice([NONE, local(0)]))

    def bad_dereference(self, depth):
        if self.one_in(2):
            return Node("DerefOf", self.term("integer", 0))
        if self.one_in(2):
            return Node("DerefOf", Node("Index", self.term("buffer", 0), self.term("integer", 0), local(1)))
        return Node("DerefOf", Node("Index", self.any_term(0), self.any_term(0), NONE))

    def bad_store(self, depth):
        return Node("Store", self.any_term(0), self.bad_target(0) if self.one_in(2) else self.target("integer", 0))

    def computed_size(self, depth):
        def sized():
            return Node("Buffer", Node("Add", literal(1), literal(2), NONE) if self.one_in(2) else local(0), b"\x01")
        if self.one_in(2):
            return sized()
        if self.one_in(2):
            return Node("VarPackage", local(0) if self.one_in(2) else literal(1), [sized()])
        inner = Node("Package", 1, [literal(1), sized()])
        return Node("Package", self.chance.choice([0, 1, 2]), [literal(3), inner, sized()])

    def bad_supername(self, depth):
        op = self.chance.choice(["Increment", "Decrement", "SizeOf", "CondRefOf", "Acquire"])
        more = {"CondRefOf": [self.chance.choice([NONE, local(1)])], "Acquire": [0xFFFF]}.get(op, [])
        return Node(op, self.supername(depth), *more)

    def supername(self, depth):
        """Anything that may stand in a supername place."""
        return self.chance.choice([
            lambda: local(self.chance.randrange(8)), lambda: argument(self.chance.randrange(7)),
            lambda: Node("Debug"), lambda: Node("RefOf", local(1)), lambda: Node("DerefOf", self.any_term(0)),
            lambda: Node("Index", self.any_term(0), self.any_term(0), NONE),
            lambda: path(self.missing()), lambda: path(self.name_of(self.chance.choice(self.things)[0])),
            lambda: path(self.name_of(self.chance.choice(self.things)[0])),
            lambda: path(NameString((self.chance.choice(list(self.own) or ["NONE"]),))),
        ])()

    def any_term(self, depth):
        if self.one_in(3):
            return self.bad_term(depth)
        return self.good_term(self.chance.choice(["integer", "integer", "buffer", "string", "package"]), depth)

    def no_value(self, depth):
        if ("NVA_",) in self.namespace.pairs and not self.one_in(4):
            if self.one_in(2):
                return path(self.name_of(("NVA_",)))
            return path(self.name_of(("NVB_",)), self.term("integer", 0) if self.one_in(2) else literal(0))
        where = self.where_of(lambda thing: thing.kind == "method" and thing.count == 0)
        return None if where is None else path(self.name_of(where))

    def empty_to_integer(self, depth):
        source = buffer(0) if self.one_in(2) else self.good_term("buffer", 0)
        return Node("ToInteger", source, self.bad_target(0) if self.one_in(3) else NONE)

    def any_name(self, depth):
        """Any object as a term, with as many terms behind it as it takes."""
        where = self.chance.choice(self.things)[0]
        name = self.name_of(where)
        return path(name, *[self.any_term(depth - 1) if depth > 0 else self.leaf("integer")
                            for _ in range(self.arity(name))])

    def arity(self, name):
        if name.is_lone() and name.segments[0] in self.own:
            return 0
        return self.namespace.arity(self.method.path, name)

    def bad_target(self, depth):
        for _ in range(10):
            made = self.chance.choice(BAD_TARGETS)(self)
            if made is not None:
                return made
        return path(self.missing())

    def any_element_target(self):
        whole = self.chance.choice([
            lambda: self.data_path("buffer"), lambda: self.data_path("buffer"), lambda: self.data_path("string"),
            lambda: self.data_path("package"), lambda: self.any_name(0), lambda: local(0),
            lambda: self.missing_name(0), lambda: self.leaf("buffer")])()
        if whole is None:
            return None
        return Node("Index", whole, self.any_term(1), NONE if not self.one_in(6) else local(3))

    def chaos(self, op, depth):
        """An operator with any operands that the grammar lets stand."""
        letters = OPERATORS[op][2].lstrip("P")
        return Node(op, *[self.chaos_operand(letter, depth - 1) for letter in letters])

    def chaos_operand(self, letter, depth):
        if letter == "t":
            return self.chaos_term(depth)
        if letter == "g":
            return NONE if self.one_in(3) else self.supername(0) if self.one_in(2) else local(self.chance.randrange(8))
        if letter == "s":
            return self.supername(0)
        if letter == "m":
            return local(self.chance.randrange(8)) if self.one_in(2) else path(self.missing())
        if letter == "n":
            return self.missing()
        if letter in "bwd":
            return self.chance.randrange({"b": 256, "w": 65536, "d": 2**32}[letter])
        if letter == "Y":
            return self.board.bytes_of(self.chance.randrange(4))
        if letter == "K":
            return [self.board.package_element(self.method.path, 2) for _ in range(self.chance.randrange(3))]
        if letter == "F":
            return [("name", "FFFF", 8)]
        return [self.chaos_statement(depth) for _ in range(self.chance.randrange(3))]

    def chaos_term(self, depth):
        if depth <= 0 or self.one_in(3):
            return self.any_term(0)
        ops = [op for op, (_, kind, _) in OPERATORS.items() if kind == "E"] + ["Revision"]
        return self.chaos(self.chance.choice(ops), depth)

    def chaos_statement(self, depth):
        ops = [op for op in OPERATORS if op not in ("Else", "DefName", "Buffer", "Package", "VarPackage")]
        return self.chaos(self.chance.choice(ops), depth) if not self.one_in(3) else self.statement(1)

    # Statements.

    def statements_of_method(self):
        made = []
        style = self.chance.random()
        if style < 0.04:
            return self.recursion()
        if style < 0.06:
            return self.great_buffers()
        if style < 0.16:
            self.faults = max(self.faults, 0.05)
            for _ in range(self.chance.randrange(1, 4)):
                made.append(self.statement(1))
                made.append(self.chaos_statement(3))
        elif style < 0.36:
            made += [self.statement(2) for _ in range(self.chance.randrange(0, 4))]
            made.append(self.double_fault())
        elif style < 0.5:
            made += self.mutex_statements()
        for _ in range(self.chance.randrange(1, 7)):
            made += self.top_statement()
        if not self.one_in(6):
            made.append(self.return_statement())
        return made

    def recursion(self):
        """The method calls itself, so often as its argument says or without an end."""
        name = self.name_of(self.method.path)
        kinds = self.board.argument_kinds[self.method.path]
        if not kinds or kinds[0] != "integer":
            return [Node("Return", path(name, *[self.leaf(kind) for kind in kinds]))]
        again = path(name, Node("Subtract", argument(0), literal(1), NONE), *[self.leaf(kind) for kind in kinds[1:]])
        least = literal(self.chance.randrange(1, 12))
        return [Node("If", Node("LGreater", argument(0), least), [Node("Return", Node("Add", again, literal(1), NONE))]),
                Node("Return", literal(7))]

    def great_buffers(self):
        if self.one_in(3):
            doubled = [Node("Concatenate", local(0), local(0), local(0)), Node("Increment", local(1))]
            start = self.chance.choice([text(b"A"), text(b"AB"), text(b"ABC"), buffer(1), buffer(3)])
            turns = literal(self.chance.choice([14, 15, 16, 17]))
            return [Node("Store", start, local(0)), Node("Store", literal(0), local(1)),
                    Node("While", Node("LLess", local(1), turns), doubled), Node("Return", Node("SizeOf", local(0)))]
        size = self.chance.choice([0x8000, 0x7FFF, 0x8001, 0x4000])
        more = self.chance.choice([0, 1, 2, 3])
        return [Node("Store", buffer(size), local(0)), Node("Concatenate", local(0), local(0), local(1)),
                Node("Concatenate", local(1), buffer(more), self.chance.choice([NONE, local(2), path(self.missing())])),
                Node("Return", Node("SizeOf", local(1)))]

    def top_statement(self):
        """A statement at the top of a body, where names may be made."""
        if self.one_in(6):
            return [self.own_name()]
        if self.one_in(6):
            return [self.own_buffer_field()]
        return [self.statement(3)]

    def own_segment(self):
        if self.one_in(4):
            return self.chance.choice(self.things)[0][-1]
        return self.chance.choice(["OWNA", "OWNB", "OWNC", "OWND", "OWNE", "OWNF"])

    def own_name(self):
        segment = self.own_segment()
        kind = self.chance.choice(["integer", "buffer", "buffer", "string", "package"])
        data = self.leaf(kind)
        if self.fault():
            data = self.chance.choice([Node("Revision"), self.computed_size(0)])
        name = NameString((segment,), long_form=self.one_in(10), rooted=self.fault())
        if name.is_lone() and (segment not in self.own):
            self.own[segment] = kind
        return Node("DefName", name, data)

    def own_buffer_field(self):
        source = self.data_path("buffer") or self.leaf("integer")
        if self.fault():
            source = self.any_term(0)
        elif self.one_in(15):
            source = self.any_name(0)
        segment = self.own_segment()
        if segment in self.own and not self.fault():
            segment = "OWN" + self.chance.choice("GHIJKLMN")
        form = self.board.create_form(source, NameString((segment,)))
        if self.fault():
            form.parts[1] = self.any_term(1)
        if segment not in self.own:
            self.own[segment] = "bufferfield"
        return form

    def statement(self, depth):
        for _ in range(20):
            made = self.chance.choice(STATEMENT_MAKERS)(self, depth)
            if made is not None:
                return made
        return Node("Noop")

    def store_statement(self, depth):
        kind = self.chance.choice(["integer"] * 4 + ["buffer", "buffer", "string", "package"])
        value = self.term(kind, depth)
        return Node("Store", value, self.target(kind, depth))

    def fitting_store(self, depth):
        """A buffer or string into a name or field of the same length."""
        where = self.where_of(lambda t: t.kind == "data" and isinstance(t.value, (Buffer, Text)))
        if where is None:
            return None
        value = self.namespace.pairs[where].value
        length = len(value) if not self.one_in(6) else len(value) + 1
        if isinstance(value, Buffer):
            source = buffer(length, self.board.bytes_of(self.chance.randrange(length + 1)))
        else:
            source = text(bytes(self.chance.choice(b"abc") for _ in range(length)))
        return Node("Store", source, path(self.name_of(where)))

    def wide_field_store(self, depth):
        where = self.where_of(lambda t: t.kind in ("field", "bufferfield") and t.bits
                              and self.namespace.width < t.bits <= 2048)
        if where is None:
            return None
        length = (self.namespace.pairs[where].bits + 7) // 8 + (self.chance.choice([-1, 1]) if self.one_in(8) else 0)
        return Node("Store", buffer(length, self.board.bytes_of(length)), path(self.name_of(where)))

    def field_store(self, depth):
        where = self.where_of(lambda t: t.kind == "field" and is_sound(t)
                              and t.form == self.chance.choice(["Field", "IndexField", "BankField"]))
        if where is None:
            return None
        return Node("Store", self.term("integer", 1), path(self.name_of(where)))

    def expression(self, depth):
        return self.term(self.chance.choice(["integer"] * 4 + ["buffer", "string", "package"]), depth)

    def if_statement(self, depth):
        if depth <= 0:
            return None
        before, kinds = dict(self.locals), dict(self.kinds)
        block = [self.statement(depth - 1) for _ in range(self.chance.randrange(0, 3))]
        first = self.locals
        self.locals = dict(before)
        parts = [self.term("integer", depth - 1), block]
        if self.one_in(2):
            parts.append(Node("Else", [self.statement(depth - 1) for _ in range(self.chance.randrange(0, 3))]))
        self.locals = {n: kind for n, kind in self.locals.items() if first.get(n) == kind}
        self.kinds = kinds if self.one_in(2) else self.kinds
        return Node("If", *parts)

    def up_loop(self, depth):
        """While (LLess (L, c)) {.. Increment (L)}; it is preceded by a Store that stands in an If."""
        if depth <= 0 or self.loops >= 2:
            return None
        counter = 7 - self.loops
        self.loops += 1
        before = dict(self.locals)
        body = [self.statement(depth - 1) for _ in range(self.chance.randrange(0, 3))]
        step = self.chance.choice([
            lambda: Node("Increment", local(counter)), lambda: Node("Add", local(counter), literal(1), local(counter)),
            lambda: Node("Add", literal(1), local(counter), local(counter))])()
        body.insert(self.chance.randrange(len(body) + 1), step)
        if self.one_in(5):
            body.append(Node("If", self.term("integer", 1), [Node(self.chance.choice(["Continue", "Break"]))]))
        self.loops -= 1
        self.locals = {n: k for n, k in before.items() if self.locals.get(n) == k}
        loop = Node("While", Node("LLess", local(counter), self.board.number(self.chance.randrange(0, 6))), body)
        return Node("If", literal(1), [Node("Store", literal(0), local(counter)), loop])

    def down_loop(self, depth):
        if depth <= 0 or self.loops >= 2:
            return None
        counter = 7 - self.loops
        self.loops += 1
        before = dict(self.locals)
        body = [self.statement(depth - 1) for _ in range(self.chance.randrange(0, 2))] + [Node("Decrement", local(counter))]
        self.loops -= 1
        self.locals = {n: k for n, k in before.items() if self.locals.get(n) == k}
        loop = Node("While", local(counter), body)
        return Node("If", literal(1), [Node("Store", literal(self.chance.randrange(5)), local(counter)), loop])

    def once_loop(self, depth):
        if depth <= 0:
            return None
        self.loops += 1
        before = dict(self.locals)
        body = [self.statement(depth - 1) for _ in range(self.chance.randrange(0, 3))]
        self.loops -= 1
        self.locals = {n: k for n, k in before.items() if self.locals.get(n) == k}
        return Node("While", self.term("integer", 1),
                    body + [Node("Break") if not self.one_in(4) else self.return_statement()])

    def leave(self, depth):
        if not self.loops and not self.fault():
            return None
        return Node(self.chance.choice(["Break", "Continue"])) if self.one_in(4) else None

    def notify(self, depth):
        named = self.object_path(["device", "processor", "thermal"] if not self.one_in(8) else ["power", "thermal"])
        if self.fault():
            named = self.supername(0)
        return None if named is None else Node("Notify", named, self.term("integer", depth - 1))

    def pause(self, depth):
        return Node(self.chance.choice(["Sleep", "Stall"]), self.term("integer", depth - 1))

    def plain_call(self, depth):
        where = self.where_of(lambda thing: thing.kind == "method")
        return self.call(where, depth) if where is not None and self.one_in(2) else None

    def plain_name(self, depth):
        return self.chance.choice([self.variable("integer"), self.data_path("integer"), self.field_path()])

    def return_statement(self, depth=3):
        return Node("Return", self.term(self.chance.choice(["integer"] * 3 + ["buffer", "string", "package"]), depth))

    def early_return(self, depth):
        return self.return_statement(1) if self.one_in(8) else None

    def nothing(self, depth):
        return Node(self.chance.choice(["Noop", "BreakPoint"]))

    def stray_definition(self, depth):
        if not self.fault():
            return None
        return self.chance.choice([
            lambda: Node("DefName", NameString(("OWNZ",)), literal(1)), lambda: Node("Mutex", NameString(("OWNZ",)), 1),
            lambda: self.board.create_form(self.any_term(0), NameString(("OWNZ",))),
            lambda: Node("Event", NameString(("OWNZ",))), lambda: Node("External", NameString(("OWNZ",)), 8, 1),
            lambda: Node("Method", NameString(("OWNZ",)), 0, [Node("Noop")]),
            lambda: Node("OperationRegion", NameString(("OWNZ",)), 0, literal(0), local(1)),
            lambda: Node("Alias", NameString(("_SB_",)), NameString(("OWNZ",))),
        ])()

    def mutex_statements(self):
        """Mutexes taken and given back, in order for the most part, with statements and calls between."""
        made, held = [], []
        for _ in range(self.chance.randrange(2, 8)):
            if held and self.one_in(2):
                named = held.pop() if not self.one_in(10) else self.chance.choice(held)
                made.append(Node("Release", path(self.name_of(named))))
            elif self.one_in(5):
                made.append(self.statement(1))
            else:
                where = self.mutex_to_take(held)
                if where is None:
                    continue
                held.append(where)
                taken = Node("Acquire", path(self.name_of(where)), 0xFFFF)
                made.append(taken if not self.one_in(4) else Node("Store", taken, local(5)))
        if not self.one_in(5):
            made += [Node("Release", path(self.name_of(where))) for where in reversed(held)]
        return made

    def mutex_to_take(self, held):
        if self.one_in(25):
            return ("_GL_",)
        level = max([self.namespace.pairs[where].level for where in held], default=0)
        return self.where_of(lambda t: t.kind == "mutex" and not t.is_global and (t.level >= level or self.one_in(8)))

    def double_fault(self):
        """An operator whose operands and targets err in several places."""
        op = self.chance.choice(TWO_INTEGERS + [
            "Divide", "Mod", "Not", "FindSetLeftBit", "ToBuffer", "ToInteger", "Concatenate", "LEqual", "LGreater", "LAnd",
            "LNot", "Increment", "Decrement", "SizeOf", "CondRefOf", "Acquire", "Release", "Notify", "Notify", "Sleep",
            "Stall", "Return", "Store", "DerefOf", "call", "WrittenIndex", "If", "While"])
        if op == "WrittenIndex":
            return Node("Store", self.mostly_wrong(), self.any_element_target() or NONE)
        if op == "DerefOf":
            index = Node("Index", self.mostly_wrong(), self.mostly_wrong(), NONE)
            return Node("Store", Node("DerefOf", index), self.wrong_target())
        if op == "call":
            where = self.where_of(lambda thing: thing.kind in ("method", "osi"))
            if where is None:
                return Node("Noop")
            name = self.name_of(where)
            return path(name, *[self.mostly_wrong() for _ in range(self.arity(name))])
        letters = OPERATORS[op][2].lstrip("P")
        parts = [self.double_fault_operand(letter) for letter in letters]
        return Node(op, *parts)

    def double_fault_operand(self, letter):
        if letter == "t":
            return self.mostly_wrong()
        if letter == "s":
            return self.supername(0)
        if letter == "L":
            return [Node("Break") if self.one_in(2) else self.statement(0)]
        if letter == "w":
            return 0xFFFF
        return self.wrong_target()

    def mostly_wrong(self):
        if self.one_in(2):
            return self.good_term(self.chance.choice(["integer"] * 5 + ["buffer", "string"]), 1)
        return self.any_term(1)

    def wrong_target(self):
        return self.bad_target(0) if self.one_in(2) else self.target(self.chance.choice(["integer", "buffer"]), 1)


def variable_maker(kind):
    return lambda body, depth: body.variable(kind)


def data_maker(kind):
    return lambda body, depth: body.data_path(kind)


def leaf_maker(kind):
    return lambda body, depth: body.leaf(kind)


MAKERS = {
    "integer": [leaf_maker("integer")] * 3 + [variable_maker("integer")] * 4 + [data_maker("integer")] * 2 + [
        lambda body, depth: body.field_path()] * 4 + [Body.two_integers] * 4 + [
        Body.shift, Body.division, Body.division, Body.one_integer, Body.buffer_to_integer, Body.comparison,
        Body.comparison, Body.logical_not, Body.size_of, Body.cond_ref_of, Body.byte_of, Body.byte_of, Body.element_of,
        lambda body, depth: body.call_of("integer", depth), Body.ask_osi, Body.counted, Body.store_operand, Body.acquire],
    "buffer": [leaf_maker("buffer")] * 2 + [variable_maker("buffer")] * 3 + [data_maker("buffer")] * 3 + [
        lambda body, depth: body.field_path("buffer")] * 2 + [
        lambda body, depth: body.concatenation("buffer", depth), Body.integer_to_buffer,
        lambda body, depth: body.store_operand(depth, "buffer"), lambda body, depth: body.call_of("buffer", depth)],
    "string": [leaf_maker("string")] * 2 + [variable_maker("string")] * 3 + [data_maker("string")] * 2 + [
        lambda body, depth: body.concatenation("string", depth)],
    "package": [leaf_maker("package")] * 2 + [variable_maker("package")] * 2 + [data_maker("package")] * 3 + [
        Body.element_of],
}
TARGETS = [Body.no_target] * 3 + [Body.local_target] * 4 + [
    Body.argument_target, Body.debug_target, Body.name_target, Body.name_target, Body.field_target, Body.field_target,
    Body.element_target]
BAD_TERMS = [
    Body.unset_variable, Body.missing_name, Body.unreadable, Body.unsound_field, Body.any_buffer_field,
    Body.any_wide_field, Body.zero_division, Body.outside_term, Body.misplaced_index, Body.bad_dereference,
    Body.bad_store, Body.computed_size, Body.bad_supername, Body.bad_supername, Body.no_value,
    Body.any_name, Body.empty_to_integer]
BAD_TARGETS = [
    lambda body: path(body.missing()), lambda body: body.unreadable(0), lambda body: body.unsound_field(),
    lambda body: body.any_buffer_field(), lambda body: body.any_wide_field(), lambda body: Node("RefOf", local(0)),
    lambda body: Node("DerefOf", local(0)), Body.any_element_target, Body.any_element_target,
    lambda body: body.data_path("string"), lambda body: body.data_path("package"), lambda body: body.data_path("buffer"),
    lambda body: body.object_path(["method"]), lambda body: body.object_path(["osi"])]
STATEMENT_MAKERS = [Body.store_statement] * 6 + [
    Body.fitting_store, Body.wide_field_store, Body.wide_field_store, Body.field_store, Body.field_store, Body.field_store,
    Body.expression, Body.expression, Body.if_statement, Body.if_statement, Body.up_loop, Body.down_loop, Body.once_loop,
    Body.leave, Body.leave, Body.notify, Body.pause, Body.plain_call, Body.plain_call, Body.plain_name, Body.early_return,
    Body.nothing, Body.stray_definition, Body.counted]
