"""Boards that each dwell on one part of the meaning: fields, mutexes, names of bodies, operators at their edges."""
from aml import CREATE_FIELDS, NONE, NameString, Node, argument, buffer, literal, local, path, text
from evaluate import is_sound
from generate import EDGES, TWO_INTEGERS, Board, Body


class FieldBoard(Board):
    """Regions, index fields and bank fields, most of them sound; methods that read and write them."""

    def module(self, number):
        nodes = []
        for _ in range(self.chance.randrange(2, 5)):
            nodes += self.chance.choice([self.region_with_fields, self.index_fields, self.bank_fields,
                                         self.index_fields, self.bank_fields, self.stacked_fields, self.edge_fields,
                                         self.edge_fields])((), 1)
        for _ in range(3):
            nodes += self.data_name((), 1)
        for _ in range(10):
            nodes += self.method((), 1)
        return nodes

    def region(self, scope):
        name, region = super().region(scope)
        if region.op == "OperationRegion" and not self.one_in(6):
            # A region of a width 32 whose place is cut may wrap, which is fine: it is the cut place that counts.
            region.parts[-1] = self.number(self.chance.choice([64, 128, 300, 600]))
            region.parts[2] = self.number(self.chance.choice([0, 0x60, 0x61, 0xFFF3, 2**32 - 8, 2**64 - 600, 2**64 - 601]))
        return name, region

    def method(self, scope, depth):
        name = self.fresh(scope, "M", "method")
        count = self.chance.choice([0, 1])
        self.argument_kinds[scope + name.segments] = ["integer"] * count
        return [Node("Method", name, count, [])]

    def fill_bodies(self):
        for thing in self.methods():
            thing.body += FieldBody(self, thing).statements_of_method()

    def field_items(self, scope, letter, most):
        """Now and then a list goes past bits that 32 bits cannot count, and past bytes that they cannot either."""
        items = super().field_items(scope, letter, most)
        if self.one_in(8) and letter != "J":
            return [("skip", 2**28 - 1)] * self.chance.choice([1, 16, 17, 130]) + [("skip",
                    self.chance.choice([1, 8, 33]))] + items
        return items

    def region_with_fields(self, scope, depth):
        made = super().region_with_fields(scope, depth)
        if made[0].op == "OperationRegion" and self.one_in(4):
            made[0].parts[2:] = [self.number(self.chance.choice([0, 0x1000, 2**40])),
                                 self.number(self.chance.choice([2**62, 2**32 - 1, 2**33]))]
        return made


class FieldBody(Body):
    """A method that reads and writes fields, and at its end now and then an unsound one."""

    def statements_of_method(self):
        self.faults = 0
        made = []
        for _ in range(self.chance.randrange(1, 6)):
            made += self.access()
        unsound = self.unsound_field()
        if unsound is not None and self.one_in(4):
            made.append(Node("Store", unsound, local(2)) if self.one_in(2) else Node("Store", literal(1), unsound))
        where = self.some_field()
        if where and not self.one_in(4):
            made.append(Node("Return", path(self.name_of(where))))
        return made

    def some_field(self):
        form = self.chance.choice(["Field", "IndexField", "IndexField", "BankField", "BankField"])
        whole = not self.one_in(12)
        return self.where_of(lambda thing: thing.kind == "field" and thing.form == form and (is_sound(thing) or not whole))

    def access(self):
        where = self.some_field()
        if where is None:
            return []
        field = self.namespace.pairs[where]
        named = path(self.name_of(where))
        wide = field.bits > self.namespace.width
        kind = self.chance.randrange(7)
        if kind == 0:
            return [Node("Store", named, local(1))]
        if kind == 1 and not wide:
            return [Node(self.chance.choice(["Increment", "Decrement"]), named)]
        if kind == 2 and wide:
            length = (field.bits + 7) // 8
            return [Node("Store", buffer(length, self.board.bytes_of(length)), named)]
        if kind == 3:
            return [Node("Divide", self.board.number(), self.board.number(7), named,
                         path(self.name_of(self.some_field() or where)))]
        if kind == 4 and not wide:
            return [Node("Xor", named, self.board.number(), path(self.name_of(where)))]
        if kind == 5:
            return [named]
        source = argument(0) if self.kinds and self.one_in(2) else self.board.number()
        return [Node("Store", source, named)]


class MutexBoard(Board):
    """Mutexes of several levels, and methods that take and release them round calls of one another."""

    def module(self, number):
        nodes = []
        for level in (0, 1, 1, 2, 3, 15):
            nodes.append(Node("Mutex", self.fresh((), "T", "mutex"), level | self.chance.choice([0, 0x30])))
        for _ in range(3):
            nodes += self.alias((), 1)
        nodes += self.device_like((), 3)
        for _ in range(8):
            name = self.fresh((), "M", "method")
            count = self.chance.randrange(2)
            self.argument_kinds[name.segments] = ["integer"] * count
            nodes.append(Node("Method", name, count | self.chance.choice([0, 0x88]), []))
        return nodes

    def fill_bodies(self):
        for thing in self.methods():
            body = MutexBody(self, thing)
            thing.body += body.statements_of_method()


class MutexBody(Body):
    """A method that takes and releases mutexes, and calls others meanwhile."""

    def statements_of_method(self):
        self.faults = 0
        made = self.run_of(self.chance.randrange(1, 7), 2)
        if not self.one_in(3):
            made.append(Node("Return", self.chance.choice([literal(1), Node("Acquire", self.some_mutex(), 0)])
                             if self.one_in(8) else literal(3)))
        return made

    def some_mutex(self):
        if self.one_in(40):
            return path(NameString(("_GL_",)))
        if self.one_in(60):
            return self.supername(0)
        return self.object_path(["mutex"])

    def run_of(self, count, depth):
        """Statements in which most of what is taken is released again in order."""
        made = []
        for _ in range(count):
            made += self.piece(depth)
        return made

    def piece(self, depth):
        kind = self.chance.randrange(12)
        if kind < 5 and self.one_in(6):
            return self.crossed()
        if kind < 5:
            where = self.where_of(lambda thing: thing.kind == "mutex" and (not thing.is_global or self.one_in(20)))
            inside = self.run_of(self.chance.randrange(0, 3), depth - 1) if depth > 0 else []
            taken = Node("Acquire", path(self.name_of(where)), self.chance.choice([0, 0xFFFF]))
            if self.one_in(4):
                taken = self.chance.choice([Node("Store", taken, local(0)), Node("If", taken, [Node("Noop")])])
            released = [] if self.one_in(14) else [Node("Release", path(self.name_of(where)))]
            return [taken, *inside, *released]
        if kind < 8:
            where = self.where_of(lambda thing: thing.kind == "method")
            name = self.name_of(where)
            return [path(name, *[literal(self.chance.randrange(3))
                                 for _ in self.board.argument_kinds[self.namespace.pairs[where].path]])]
        if kind == 8 and self.kinds and depth > 0:
            parts = [argument(0), self.run_of(self.chance.randrange(3), depth - 1)]
            if self.one_in(2):
                parts.append(Node("Else", self.run_of(self.chance.randrange(2), depth - 1)))
            return [Node("If", *parts)]
        if kind == 9 and depth > 0:
            body = self.run_of(self.chance.randrange(1, 3), depth - 1)
            self.chance.shuffle(body) if self.one_in(4) else None
            loop = Node("While", Node("LLess", local(7), literal(2)), [Node("Increment", local(7)), *body])
            return [Node("Store", literal(0), local(7)), loop]
        if kind == 10 and self.one_in(4):
            return [Node("Release", self.some_mutex())]
        if kind == 10 and self.one_in(4):
            return [path(NameString(("_OSI",)), text(b"X"))]
        if kind == 11 and self.one_in(4):
            return [Node("Return", self.chance.choice([lambda: literal(2), lambda: local(5),
                                                       lambda: Node("Acquire", self.some_mutex(), 1)])())]
        return [Node("Sleep", literal(depth))]

    def crossed(self):
        """Two mutexes of rising level, or one twice, released in an order that may be the wrong one."""
        found = sorted((where for where, thing in self.things if thing.kind == "mutex" and not thing.is_global),
                       key=lambda where: self.namespace.pairs[where].level)
        first = self.chance.randrange(len(found))
        pair = [found[first], found[self.chance.randrange(first, len(found))]]
        taken = [Node("Acquire", path(self.name_of(where)), 0xFFFF) for where in pair]
        back = pair if self.one_in(2) else pair[::-1]
        return taken + [Node("Release", path(self.name_of(where))) for where in back]


class OwnBoard(Board):
    """Names and buffer fields that bodies make, over own names and over those of the module."""

    def module(self, number):
        nodes = []
        for _ in range(4):
            nodes += self.data_name((), 1)
            nodes += self.buffer_field_definition((), 1)
        for segment in ("OWNA", "OWNB", "OWNC"):
            if self.one_in(2) and (segment,) not in self.taken:
                self.taken.add((segment,))
                kind = self.chance.choice(["integer", "buffer", "string", "package"])
                self.known.append(((segment,), kind))
                nodes.append(Node("DefName", NameString((segment,)), self.data(kind, (), 0)))
        for _ in range(10):
            nodes += self.method((), 1)
        return nodes

    def method(self, scope, depth):
        segment = self.chance.choice(["OWND", "OWNE", "OWNF"])
        if self.one_in(2) and (segment,) not in self.taken:  # an own name of another body may hide this method
            self.taken.add((segment,))
            self.known.append(((segment,), "method"))
            name = NameString((segment,))
        else:
            name = self.fresh(scope, "M", "method")
        count = self.chance.choice([0, 0, 1, 2])
        self.argument_kinds[scope + name.segments] = ["integer"] * count
        return [Node("Method", name, count, [])]

    def fill_bodies(self):
        for thing in self.methods():
            thing.body += OwnBody(self, thing).statements_of_method()


class OwnBody(Body):
    """A method that makes names and uses them."""

    def statements_of_method(self):
        self.faults = self.chance.choice([0, 0, 0, 0.05])
        self.sizes = {}
        made = []
        for _ in range(self.chance.randrange(2, 9)):
            kind = self.chance.randrange(5)
            if kind == 0:
                made.append(self.own_name())
            elif kind < 3:
                made.append(self.own_field_of_fitting_size())
            else:
                made.append(self.use())
        made.append(Node("Return", self.own_path() or self.term("integer", 1)))
        return made

    def own_path(self):
        return path(NameString((self.chance.choice(list(self.own)),), long_form=self.one_in(10))) if self.own else None

    def own_name(self):
        form = super().own_name()
        segment = form.parts[0].segments[0]
        if form.parts[1].op == "Buffer" and form.parts[1].parts[0].op == "Literal":
            self.sizes.setdefault(segment, max(form.parts[1].parts[0].parts[0], len(form.parts[1].parts[1])))
        return form

    def own_field_of_fitting_size(self):
        """A field that ends at or near the end of its buffer, and is bytes or bits long."""
        sources = [(path(NameString((s,))), size) for s, size in self.sizes.items() if self.own.get(s) == "buffer"]
        where = self.data_where("buffer")
        if where is not None:
            sources.append((path(self.name_of(where)), len(self.namespace.pairs[where].value)))
        free = [s for s in ("OWNA", "OWNB", "OWNC", "OWND", "OWNE", "OWNF", "OWNG", "OWNH") if s not in self.own]
        if not sources or not free:
            return self.own_buffer_field()
        source, size = self.chance.choice(sources)
        op = self.chance.choice(list(CREATE_FIELDS) + ["CreateField"] * 3)
        segment = self.chance.choice(free)
        self.own[segment] = "bufferfield"
        name = NameString((segment,), long_form=self.one_in(10))
        over = self.chance.choice([0] * 8 + [1])
        if op == "CreateField":
            start = self.chance.randrange(0, 8 * size + 1)
            count = self.chance.choice([8 * size - start, self.chance.randrange(0, 8 * size - start + 1)]) + over
            return Node(op, source, self.board.number(start), self.board.number(count), name)
        bits, unit = CREATE_FIELDS[op]
        last = max(0, (8 * size - bits) // unit) + over
        return Node(op, source, self.board.number(self.chance.choice([last, self.chance.randrange(last + 1)])), name)

    def use(self):
        named = self.own_path()
        if named is None:
            return self.statement(1)
        kind = self.own[named.parts[0].segments[0]]
        if kind == "bufferfield" or kind == "integer":
            return self.chance.choice([
                lambda: Node("Store", self.term("integer", 1), named), lambda: Node("Increment", named),
                lambda: Node("Store", self.term("buffer", 1), named),
                lambda: Node("Store", named, local(self.chance.randrange(3))),
                lambda: Node("Add", self.board.number(), literal(1), named), lambda: Node("CondRefOf", named, NONE)])()
        if kind == "buffer":
            size = self.sizes.get(named.parts[0].segments[0], 1)
            return self.chance.choice([
                lambda: Node("Store", self.board.number(),
                             Node("Index", named, literal(self.chance.randrange(size + 1)), NONE)),
                lambda: Node("Store", buffer(size, self.board.bytes_of(size)), named),
                lambda: Node("Store", Node("SizeOf", named), local(1)),
                lambda: Node("Store", Node("DerefOf", Node("Index", named, literal(self.chance.randrange(size + 1)),
                                                           NONE)), local(1))])()
        return self.chance.choice([
            lambda: Node("Store", Node("SizeOf", named), Node("Debug")), lambda: Node("Store", self.term(kind, 1), named),
            lambda: Node("Store", Node("DerefOf", Node("Index", named, literal(self.chance.randrange(3)), NONE)), local(2))])()


class OperatorBoard(Board):
    """Methods that put the results of many operators at edges behind one another in a buffer."""

    wrong_arguments = 200

    def module(self, number):
        nodes = []
        if number == 0:
            nodes.append(Node("DefName", NameString(("BUF0",)), buffer(16, self.bytes_of(16))))
            self.known.append((("BUF0",), "buffer"))
        for _ in range(8):
            name = self.fresh((), "M", "method")
            self.argument_kinds[name.segments] = ["integer"] * 3
            nodes.append(Node("Method", name, 3, []))
        return nodes

    def fill_bodies(self):
        for thing in self.methods():
            thing.body += OperatorBody(self, thing).statements_of_method()

    def any_number(self):
        chance = self.chance
        if self.one_in(4):
            return chance.getrandbits(chance.choice([1, 4, 8, 31, 32, 33, 63, 64]))
        return (chance.choice(EDGES) + chance.choice([0, 0, 0, 1, -1])) % 2**64


class OperatorBody(Body):
    """A method that keeps the results of many operators in a buffer."""

    def statements_of_method(self):
        made = [Node("Store", buffer(0), local(0))]
        self.literal_divisors = self.one_in(2)
        for number in range(1, 4):
            made.append(Node("Store", self.board.number(), local(number)))
        for _ in range(25):
            made += self.computed(self.chance.randrange(14))
        made.append(Node("Return", local(0)))
        return made

    def number(self):
        if self.one_in(3):
            return self.chance.choice([argument(self.chance.randrange(3)), local(self.chance.randrange(1, 4))])
        return self.board.number()

    def count(self):
        if self.one_in(3):
            return self.number()
        return self.board.number(self.chance.choice([0, 1, 7, 31, 32, 33, 63, 64, 65, 95, 127, 128, 2**31, 2**32,
                                                     2**32 + 1, 2**63, 2**64 - 1]))

    def kept(self):
        """A target among the integer locals, or none."""
        return self.chance.choice([NONE, local(self.chance.randrange(1, 4))])

    def computed(self, kind):
        if kind < 4:
            value = Node(self.chance.choice(TWO_INTEGERS), self.number(), self.number(), self.kept())
        elif kind < 6:
            value = Node(self.chance.choice(["ShiftLeft", "ShiftRight"]), self.number(), self.count(), self.kept())
        elif kind < 8:
            divisor = Node("Or", self.number(), literal(1 << self.chance.randrange(3)), NONE)
            if self.literal_divisors:
                divisor = self.board.number(self.chance.choice([1, 2, 3, 10, 2**31, 2**32 - 1, 2**32 + 1, 2**63, 2**64 - 1]))
            value = self.chance.choice([
                lambda: Node("Divide", self.number(), divisor, self.kept(), self.kept()),
                lambda: Node("Divide", self.number(), divisor, local(1),
                             Node("Index", path(NameString(("BUF0",))), Node("And", local(1), literal(15), NONE), NONE)),
                lambda: Node("Mod", self.number(), divisor, self.kept())])()
        elif kind == 8:
            value = Node(self.chance.choice(["Not", "FindSetLeftBit", "FindSetRightBit", "ToInteger"]), self.number(),
                         self.kept())
        elif kind == 9:
            value = Node(self.chance.choice(["LAnd", "LOr", "LEqual", "LGreater", "LLess"]), self.number(), self.number())
            value = Node("LNot", value) if self.one_in(2) else value
        elif kind == 10:
            value = Node(self.chance.choice(["Increment", "Decrement"]), local(self.chance.randrange(1, 4)))
        elif kind == 11:
            data = self.board.bytes_of(self.chance.randrange(1, 12))
            value = Node("ToInteger", buffer(len(data), data), self.kept())
        elif kind == 12:
            same = self.chance.choice(["Buffer", "String"])
            a, b = (self.chance.choice([b"", b"A", b"AB", b"A\x01", b"AB\x7f"]) for _ in range(2))
            value = Node("LEqual", *(buffer(len(x), x) if same == "Buffer" else text(x) for x in (a, b)))
        else:
            index = Node("And", self.number(), literal(15), NONE)
            write = Node("Store", self.number(), Node("Index", path(NameString(("BUF0",))), index, NONE))
            again = Node("DerefOf", Node("Index", path(NameString(("BUF0",))),
                                         Node("And", self.number(), literal(15), NONE), NONE))
            return [write, Node("Concatenate", local(0), Node("ToBuffer", again, NONE), local(0))]
        return [Node("Concatenate", local(0), Node("ToBuffer", value, NONE), local(0))]


class PackageBoard(Board):
    """Packages within packages, by names, locals and arguments, and ways down into them."""

    def module(self, number):
        nodes = []
        for _ in range(6):
            name = self.fresh((), "P", "package")
            nodes.append(Node("DefName", name, self.data("package", (), 0)))
        nodes += self.data_name((), 1) + self.device_like((), 3) + self.alias((), 1) + self.region_with_fields((), 1)
        for _ in range(12):
            nodes += self.method((), 1)
        return nodes

    def method(self, scope, depth):
        name = self.fresh(scope, "M", "method")
        count = self.chance.choice([0, 1])
        self.argument_kinds[scope + name.segments] = ["package"] * count
        return [Node("Method", name, count, [])]

    def fill_bodies(self):
        for thing in self.methods():
            thing.body += PackageBody(self, thing).statements_of_method()


class PackageBody(Body):
    """A method that goes down into packages."""

    def statements_of_method(self):
        self.faults = self.chance.choice([0, 0, 0.03])
        made = []
        for _ in range(self.chance.randrange(0, 3)):
            made.append(Node("Store", self.way_down(self.chance.randrange(4)), local(self.chance.randrange(3))))
            self.locals[made[-1].parts[1].parts[0]] = "package"
        if self.one_in(3):
            made.append(self.own_name())
        made.append(Node("Return", self.chance.choice([
            lambda: self.way_down(self.chance.randrange(5)),
            lambda: Node("SizeOf", self.variable("package") or path(self.name_of(self.data_where("package")))),
            lambda: self.term("package", 2), lambda: self.call_of("package", 2) or self.way_down(2)])()))
        return made

    def way_down(self, depth):
        if depth == 0:
            return self.term("package", 1)
        return Node("DerefOf", Node("Index", self.way_down(depth - 1),
                                    literal(self.chance.choice([0, 0, 1, 1, 2, 3, 5])), NONE))


class EffectBoard(Board):
    """Operands that change what an earlier operand read, and what a later one reads."""

    def module(self, number):
        if number > 0:
            return []
        names = [("CNT0", "integer", self.number()), ("BUF0", "buffer", buffer(16, self.bytes_of(16))),
                 ("STR0", "string", text(b"abc")),
                 ("PKG0", "package", Node("Package", 3, [self.number(), self.number(), buffer(5)]))]
        nodes = [Node("DefName", NameString((segment,)), data) for segment, _, data in names]
        nodes.append(Node("OperationRegion", NameString(("REG0",)), 1, literal(0x60), literal(16)))
        nodes.append(Node("Field", NameString(("REG0",)), self.chance.choice([1, 2, 0x21]), [
            ("name", "FLD0", 8), ("name", "FLD1", 12), ("name", "FLD2", 32)]))
        nodes.append(Node("CreateByteField", path(NameString(("BUF0",))), literal(3), NameString(("BYT0",))))
        nodes.append(Node("CreateField", path(NameString(("BUF0",))), literal(5), literal(13), NameString(("BIT0",))))
        nodes.append(Node("Device", NameString(("DEV0",)), []))
        nodes += self.helpers()
        for _ in range(12):
            name = self.fresh((), "M", "method")
            self.argument_kinds[name.segments] = ["integer", "buffer"]
            nodes.append(Node("Method", name, 2, []))
        return nodes

    def helpers(self):
        """Methods that change names and give integers or buffers."""
        def named(segment):
            return path(NameString((segment,)))

        def masked():
            return Node("And", argument(0), literal(15), NONE)
        write = [Node("Store", argument(0), Node("Index", named("BUF0"), masked(), NONE)), Node("Increment", named("CNT0")),
                 Node("Store", argument(0), named("FLD0")), Node("Return", masked())]
        give = [Node("Store", argument(0), named("BIT0")), Node("Return", named("BUF0"))]
        return [Node("Method", NameString(("WRBF",)), 1, write), Node("Method", NameString(("GETB",)), 1, give),
                Node("Method", NameString(("BOTH",)), 2,
                     [Node("Store", literal(0), argument(0)), Node("Return", argument(1))])]

    def methods(self):
        return [thing for thing in super().methods() if thing.path[0] not in ("WRBF", "GETB", "BOTH")]

    def fill_bodies(self):
        for thing in self.methods():
            thing.body += EffectBody(self, thing).statements_of_method()


class EffectBody(Body):
    """A method whose operands change names, locals, buffers and registers."""

    def named(self, segment):
        return path(NameString((segment,)))

    def statements_of_method(self):
        made = [Node("Store", self.board.number(), local(number)) for number in (1, 2, 3)]
        made += [Node("Store", self.plain_buffer(), local(0)), Node("Store", argument(1), local(4)),
                 Node("Store", self.named("PKG0"), local(5))]
        if self.one_in(2):
            made.append(Node("DefName", NameString(("OWNB",)), buffer(9, self.board.bytes_of(9))))
            made.append(Node("CreateWordField", self.named("OWNB"), literal(2), NameString(("OWNW",))))
            self.own = {"OWNB": "buffer", "OWNW": "bufferfield"}
        for _ in range(self.chance.randrange(2, 7)):
            made.append(self.statement_of_effects())
        made.append(Node("Return", self.chance.choice([self.whole, self.bytes])(2)))
        return made

    def statement_of_effects(self):
        if self.one_in(8):
            return Node("Notify", self.named("DEV0"), self.whole(2)) if self.one_in(3) else Node("Sleep", self.whole(2))
        if self.one_in(3):
            return Node("Store", self.bytes(2), self.chance.choice([local(0), local(4), Node("Debug")]))
        return Node("Store", self.whole(3), self.whole_target())

    def whole_target(self):
        if self.one_in(4):
            place = Node("And", self.whole(1), literal(self.chance.choice([15, 15, 7, 31])), NONE)
            return Node("Index", self.named(self.chance.choice(["BUF0", "BUF0", "OWNB"] if "OWNB" in self.own
                                                               else ["BUF0"])), place, NONE)
        return self.chance.choice([
            lambda: local(self.chance.randrange(1, 4)), lambda: argument(0), lambda: NONE,
            lambda: self.named(self.chance.choice(["CNT0", "FLD0", "FLD1", "FLD2", "BYT0", "BIT0"])),
            lambda: self.named("OWNW" if "OWNW" in self.own else "BIT0")])()

    def plain_buffer(self):
        size = self.chance.choice([4, 9, 16, 16, 4, 9, 16, 1])
        return buffer(size, self.board.bytes_of(size))

    def whole(self, depth):
        simple = [lambda: local(self.chance.randrange(1, 4)), lambda: argument(0), lambda: self.board.number(),
                  lambda: self.named(self.chance.choice(["CNT0", "FLD0", "FLD1", "BYT0", "BIT0"])),
                  lambda: self.named("OWNW" if "OWNW" in self.own else "FLD2")]
        deep = [lambda: Node("Store", self.whole(depth - 1),
                             self.chance.choice([local(self.chance.randrange(1, 4)), argument(0)])),
                lambda: Node("Increment",
                             self.chance.choice([local(self.chance.randrange(1, 4)),
                                                 self.named(self.chance.choice(["CNT0", "BYT0", "FLD1"]))])),
                lambda: path(NameString(("WRBF",)), self.whole(depth - 1)),
                lambda: Node(self.chance.choice(TWO_INTEGERS), self.whole(depth - 1), self.whole(depth - 1),
                             self.whole_target()),
                lambda: Node("Divide", self.whole(depth - 1), Node("Or", self.whole(depth - 1), literal(1), NONE),
                             self.whole_target(), self.whole_target()),
                lambda: Node("DerefOf", Node("Index", self.bytes(depth - 1),
                                             Node("And", self.whole(depth - 1), literal(3), NONE), NONE)),
                lambda: Node("LEqual", self.bytes(depth - 1), self.bytes(depth - 1)),
                lambda: Node("ToInteger", self.bytes(depth - 1), self.whole_target()),
                lambda: Node("SizeOf", self.chance.choice([local(0), local(4), self.named("BUF0")])),
                lambda: Node(self.chance.choice(["LLess", "LGreater", "LOr", "LAnd"]), self.whole(depth - 1),
                             self.whole(depth - 1)),
                lambda: Node("ToInteger",
                             Node("DerefOf", Node("Index", self.whole_package(depth - 1),
                                                  literal(self.chance.randrange(3)), NONE)), NONE)]
        return self.chance.choice(deep if depth > 0 and not self.one_in(4) else simple)()

    def whole_package(self, depth):
        return self.chance.choice([local(5), self.named("PKG0"), Node("Store", self.named("PKG0"), local(5))])

    def bytes(self, depth):
        simple = [lambda: local(0), lambda: local(4), lambda: argument(1), lambda: self.named("BUF0"), self.plain_buffer,
                  lambda: self.named("OWNB" if "OWNB" in self.own else "BUF0")]
        deep = [lambda: Node("Store", self.bytes(depth - 1), self.chance.choice([local(0), local(4), argument(1)])),
                lambda: path(NameString(("GETB",)), self.whole(depth - 1)),
                lambda: path(NameString(("BOTH",)), self.bytes(depth - 1), self.bytes(depth - 1)),
                lambda: Node("Concatenate", self.bytes(depth - 1), self.bytes(depth - 1),
                             self.chance.choice([NONE, local(0), local(4)])),
                lambda: Node("ToBuffer", self.chance.choice([self.whole, self.bytes])(depth - 1),
                             self.chance.choice([NONE, local(0), local(4)]))]
        return self.chance.choice(deep if depth > 0 and not self.one_in(4) else simple)()


class CarefulBoard(EffectBoard):
    """Bodies that a verifier accepts for the most part: loops of the accepted shapes, calls of earlier methods, no faults."""

    wrong_arguments = 1000

    def module(self, number):
        nodes = super().module(number)
        if number == 0:
            for segment, level in (("MTX0", 1), ("MTX1", 2)):
                nodes.append(Node("Mutex", NameString((segment,)), level))
        return nodes

    def argument_size(self, where, number):
        return 16

    def fill_bodies(self):
        self.finished = []
        for thing in self.methods():
            thing.body += CarefulBody(self, thing).statements_of_method()
            self.finished.append(thing)


class CarefulBody(EffectBody):
    """A method that a verifier accepts for the most part."""

    def statements_of_method(self):
        self.own, self.free, self.held = {}, [6, 7], 0
        made = [Node("Store", self.board.number(), local(number)) for number in (1, 2, 3)]
        made += [Node("Store", self.plain_buffer(), local(0)), Node("Store", argument(1), local(4)),
                 Node("Store", self.named("PKG0"), local(5))]
        made += self.block(self.chance.randrange(2, 6), 3)
        return made + [Node("Return", self.chance.choice([self.whole, self.whole, self.bytes])(2))]

    def block(self, count, depth, in_loop=False):
        made = []
        for _ in range(count):
            made += self.careful_statement(depth, in_loop)
        return made

    def careful_statement(self, depth, in_loop):
        kind = self.chance.randrange(12)
        if depth <= 0 or kind < 4:
            return [self.statement_of_effects()]
        if kind < 6:
            parts = [self.whole(1), self.block(self.chance.randrange(3), depth - 1, in_loop)]
            if self.one_in(2):
                parts.append(Node("Else", self.block(self.chance.randrange(3), depth - 1, in_loop)))
            return [Node("If", *parts)]
        if kind < 9 and self.free:
            return self.loop(depth)
        if kind == 9 and self.held < 2:
            segment = ("MTX0", "MTX1")[self.held]
            self.held += 1
            inside = self.block(self.chance.randrange(3), depth - 1)
            self.held -= 1
            return [Node("Acquire", self.named(segment), 0xFFFF), *inside, Node("Release", self.named(segment))]
        if kind == 10 and self.board.finished and self.held == 0:
            callee = self.chance.choice(self.board.finished)
            return [path(NameString(callee.path), self.whole(1), self.bytes(1))]
        if in_loop and self.held == 0:
            return [Node("If", self.whole(1), [Node("Break")])]
        return [Node("If", self.whole(1), [Node("Return", self.whole(1))])] if self.held == 0 else []

    def loop(self, depth):
        counter = self.free.pop()
        held, self.held = self.held, 2  # nothing is taken or left within, so that what is held stays the same
        inside = self.block(self.chance.randrange(3), depth - 1)
        self.held = held
        turns = self.chance.randrange(5)
        kind = self.chance.randrange(4)
        if kind == 0:
            test, start = Node("LLess", local(counter), literal(turns)), self.chance.randrange(3)
            step = Node("Increment", local(counter))
        elif kind == 1:
            test, start = Node("LLess", local(counter), literal(turns)), 0
            step = Node("Add", *self.chance.choice([(literal(1), local(counter)), (local(counter), literal(1))]),
                        local(counter))
        elif kind == 2:
            test, start = local(counter), turns
            step = self.chance.choice([Node("Decrement", local(counter)),
                                       Node("Subtract", local(counter), literal(1), local(counter))])
        else:
            test, start = Node("LGreater", local(counter), literal(1)), turns
            step = Node("Decrement", local(counter))
        inside.insert(self.chance.randrange(len(inside) + 1), step)
        if self.one_in(4):
            inside.append(Node("If", self.whole(1), [Node(self.chance.choice(["Break", "Continue"]))]))
        if self.one_in(6):
            inside.append(Node("Break"))
        self.free.append(counter)
        return [Node("Store", literal(start), local(counter)), Node("While", test, inside)]

    def plain_buffer(self):
        return buffer(16, self.board.bytes_of(self.chance.randrange(17)))

    def whole(self, depth):
        made = super().whole(depth)
        while made.op in ("Divide", "ToInteger", "DerefOf"):
            if made.op == "Divide":
                return Node("Divide", made.parts[0], self.board.number(self.chance.choice([1, 3, 10, 2**32 - 1])),
                            *made.parts[2:])
            if made.op == "DerefOf":
                return made
            made = super().whole(depth)
        return made

    def bytes(self, depth):
        simple = [lambda: local(0), lambda: local(4), lambda: argument(1), lambda: self.named("BUF0"), self.plain_buffer]
        deep = [lambda: Node("Store", self.bytes(depth - 1), self.chance.choice([local(0), local(4), argument(1)])),
                lambda: path(NameString(("GETB",)), self.whole(depth - 1)),
                lambda: path(NameString(("BOTH",)), self.bytes(depth - 1), self.bytes(depth - 1)) if self.one_in(8)
                else local(0),
                lambda: Node("ToBuffer", self.bytes(depth - 1), self.chance.choice([NONE, local(0), local(4)]))]
        return self.chance.choice(deep if depth > 0 and not self.one_in(4) else simple)()

    def whole_target(self):
        if self.one_in(4):
            return Node("Index", self.named("BUF0"), Node("And", self.whole(1), literal(15), NONE), NONE)
        return self.chance.choice([
            lambda: local(self.chance.randrange(1, 4)), lambda: argument(0), lambda: NONE,
            lambda: self.named(self.chance.choice(["CNT0", "FLD0", "FLD1", "FLD2", "BYT0", "BIT0"]))])()


class DepthBoard(Board):
    """Calls as deep as they may be and one deeper, and terms nested as deep as they may be."""

    def module(self, number):
        nodes = self.data_name((), 1) + self.mutex((), 1) + self.region_with_fields((), 1) + self.method((), 1)
        nodes.append(Node("Method", NameString(("RAWB",)), 1, [Node("Raw", b"\xa4")])) if number == 0 else None
        for _ in range(8):
            name = self.fresh((), "M", "method")
            self.argument_kinds[name.segments] = ["integer", "integer"]
            nodes.append(Node("Method", name, 2, []))
        return nodes

    def methods(self):
        return [thing for thing in super().methods() if thing.path != ("RAWB",)]

    def fill_bodies(self):
        self.namespace.pairs[("RAWB",)].body = None
        self.argument_kinds[("RAWB",)] = ["integer"]
        for thing in self.methods():
            if thing.body:
                continue
            many = len(self.argument_kinds[thing.path]) == 2
            thing.body += DepthBody(self, thing).statements_of_method() if many else Body(self, thing).statements_of_method()

    def arguments_for(self, method):
        made = super().arguments_for(method)
        return [self.chance.choice([60, 61, 62, 62, 63, 63, 64, 65])] + made[1:] if len(made) == 2 else made


class DepthBody(Body):
    """A method that calls others, at the greatest depth and round it."""

    def statements_of_method(self):
        self.faults = 0.1
        me = self.name_of(self.method.path)
        fewer = Node("Subtract", argument(0), literal(1), NONE)
        if self.one_in(3):
            return [Node("Return", self.nested(self.chance.choice([5, 60, 61, 62])))]
        again = path(me, fewer, self.chance.choice([lambda: argument(1), lambda: self.nested(3)])())
        if self.one_in(3):
            again = Node("Add", again, self.mostly_wrong(), NONE)
        last = self.chance.choice([
            lambda: path(NameString(("RAWB",)), self.mostly_wrong()), lambda: path(me, literal(0), self.mostly_wrong()),
            lambda: path(NameString(("_OSI",)), self.chance.choice([text(b"X"), self.mostly_wrong()])),
            lambda: self.call_any(), lambda: path(NameString(("NONE",)))])()
        held = self.where_of(lambda thing: thing.kind == "mutex" and not thing.is_global) if self.one_in(3) else None
        made = [Node("Acquire", path(self.name_of(held)), 0)] if held else []
        given = Node("Return", again) if self.one_in(2) else again
        made += [Node("If", argument(0), [given]), self.statement(1)]
        made += [Node("Release", path(self.name_of(held)))] if held and self.one_in(2) else []
        return made + [Node("Return", last)]

    def call_any(self):
        where = self.where_of(lambda thing: thing.kind == "method")
        return path(self.name_of(where),
                    *[self.mostly_wrong() for _ in self.board.argument_kinds[self.namespace.pairs[where].path]])

    def nested(self, depth):
        """Operators within one another, each as an operand of the next."""
        made = self.mostly_wrong() if self.one_in(3) else self.board.number()
        for _ in range(depth - 8):
            made = self.chance.choice([
                lambda inner: Node("LNot", inner), lambda inner: Node("Not", inner, NONE),
                lambda inner: Node("Add", inner, literal(1), NONE), lambda inner: Node("Subtract", literal(1), inner, NONE),
                lambda inner: Node("LEqual", literal(1), inner), lambda inner: Node("Store", inner, local(0)),
                lambda inner: Node("ToInteger", inner, NONE)])(made)
        return made


class ChaosBoard(Board):
    """Any operators with any operands that the grammar lets stand."""

    def module(self, number):
        nodes = super().module(number)
        for _ in range(15):
            nodes += self.method((), 1)
        return nodes

    def fill_bodies(self):
        for thing in self.methods():
            if thing.body:
                continue
            body = Body(self, thing)
            body.faults = self.chance.choice([0.05, 0.3])
            made = [Node("Store", body.leaf(kind), local(number)) for number,
                    kind in enumerate(["integer", "buffer", "string", "package"])]
            body.locals = dict(enumerate(["integer", "buffer", "string", "package"]))
            made = made[:self.chance.randrange(5)]
            body.locals = dict(list(body.locals.items())[:len(made)])
            thing.body += made + [body.chaos_statement(self.chance.choice([2, 3, 4]))
                                  for _ in range(self.chance.randrange(1, 4))]


class DoubleFaultBoard(ChaosBoard):
    """Operators that err in several places, so that the first error told shows the order of judging."""

    def fill_bodies(self):
        for thing in self.methods():
            if thing.body:
                continue
            body = Body(self, thing)
            body.faults = self.chance.choice([0, 0.05, 0.2])
            thing.body += [body.statement(1) for _ in range(self.chance.randrange(2))] + [body.double_fault()]


BOARDS = {"careful": CarefulBoard, "chaos": ChaosBoard, "double": DoubleFaultBoard, "depth": DepthBoard,
          "effects": EffectBoard, "fields": FieldBoard, "mutexes": MutexBoard, "own": OwnBoard,
          "operators": OperatorBoard, "packages": PackageBoard}
