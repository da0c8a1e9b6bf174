"""Makes methods' bodies at random, over every operator that has a meaning, most of which a verifier accepts.

A Maker writes one method after the other. It knows of each local, argument and name the kind that a verifier would
know, or less, and writes each operand of a kind that its operator takes; so what it writes is accepted. A daring one
writes now and then more than it knows: an index or a value one past what may be. What a verifier accepts of that must
go well too.

Kinds are tuples: ("int", most), ("buf", bytes), ("str", characters), ("pkg", elements), ("anypkg",); an element of a
package is a kind, "name" or "unset".
"""
from collections import Counter
from dataclasses import dataclass, field

import rows

LOCALS, ARGUMENTS = range(0x60, 0x68), range(0x68, 0x6F)
DEPTH, BREADTH = 3, 5
PAIRS = {"Subtract": 0x74, "Nand": 0x7C, "Nor": 0x7E}
COMPARED = {"LAnd": 0x90, "LOr": 0x91, "LGreater": 0x94, "LLess": 0x95}
BUFFER_FIELDS = {"CreateBitField": (0x8D, 1), "CreateByteField": (0x8C, 8), "CreateWordField": (0x8B, 16),
                 "CreateDWordField": (0x8A, 32), "CreateQWordField": (0x8F, 64)}


def package(opcode, inner):
    """An operator with a package length round all behind it."""
    return bytes(opcode) + rows.package_length(len(inner)) + inner


def literal(number):
    """An integer literal."""
    if number < 2:
        return bytes([number])
    for opcode, size in ((0x0A, 1), (0x0B, 2), (0x0C, 4), (0x0E, 8)):
        if number < 1 << 8 * size:
            return bytes([opcode]) + number.to_bytes(size, "little")
    raise ValueError(number)


@dataclass
class Method:
    """A method that was written: what a caller has to know of it, and the operators in it."""
    name: bytes
    args: list
    gives: tuple
    least: int
    body: bytes = b""
    operators: Counter = field(default_factory=Counter)


@dataclass
class Names:
    """What a table defines beside methods, by kind."""
    data: dict = field(default_factory=dict)
    fields: dict = field(default_factory=dict)
    mutexes: dict = field(default_factory=dict)
    devices: list = field(default_factory=list)


class Maker:
    """Writes methods over the names of a table, at a width of integers."""

    def __init__(self, chance, names, width, daring):
        self.chance, self.names, self.width, self.daring = chance, names, width, daring
        self.greatest = (1 << width) - 1
        self.methods = []

    # What is known within a method.

    def begin(self, name, args, gives):
        self.method = Method(name, args, gives, 16)
        self.slots = {ARGUMENTS[k]: kind for k, kind in enumerate(args)}
        self.owns, self.own_fields = {}, {}
        self.held, self.locked, self.loops = [], set(), []
        self.may_return, self.may_break, self.may_continue = gives is not None, False, False
        self.dead = False

    def took(self, name):
        self.method.operators[name] += 1

    def dares(self):
        return self.chance.random() < self.daring

    def flips(self, share=0.5):
        return self.chance.random() < share

    def data_of(self, test):
        """The names of data whose kind passes a test, own ones among them."""
        return [name for names in (self.names.data, self.owns) for name, kind in names.items() if test(kind)]

    def fields_of(self, test):
        """The names of fields that are read as a kind which passes a test."""
        return [name for names in (self.names.fields, self.own_fields) for name, kind in names.items() if test(kind)]

    def slots_of(self, test):
        return [slot for slot, kind in self.slots.items() if kind and test(kind)]

    def set_slot(self, slot, kind):
        self.slots[slot] = kind

    def takes(self, slot, kind):
        """Whether a local or an argument may hold a value of a kind from here on: in a loop of the kind before it."""
        if slot in self.locked:
            return False
        before = self.loops[-1].get(slot) if self.loops else None
        return not before or (before[0] == kind[0] == "int") or before == kind

    # Targets.

    def target(self, kind, share=0.4):
        """A target for a value of a kind, or none; what it holds is known from then on."""
        if not self.flips(share):
            return b"\x00"
        ways = [self.slot_target] * 3 + [self.debug_target]
        if kind[0] == "int":
            ways += [self.integer_target, self.field_target, self.index_target]
        elif kind[0] in ("buf", "str"):
            ways += [self.same_target]
        return self.chance.choice(ways)(kind) or b"\x00"

    def slot_target(self, kind):
        slots = [slot for slot in [*LOCALS, *ARGUMENTS] if self.takes(slot, kind)]
        if not slots:
            return b""
        slot = self.chance.choice(slots)
        self.took("Local" if slot in LOCALS else "Arg")
        self.set_slot(slot, kind)
        return bytes([slot])

    def debug_target(self, _kind):
        self.took("Debug")
        return b"\x5B\x31"

    def integer_target(self, _kind):
        names = self.data_of(lambda kind: kind[0] == "int")
        return self.chance.choice(names) if names else b""

    def same_target(self, kind):
        names = self.data_of(lambda own: own == kind) + self.fields_of(lambda own: own == kind and kind[0] == "buf")
        return self.chance.choice(names) if names else b""

    def field_target(self, _kind):
        names = self.fields_of(lambda kind: True)
        if not names:
            return b""
        self.took("field stored")
        return self.chance.choice(names)

    def index_target(self, _kind):
        names = self.data_of(lambda kind: kind[0] == "buf" and kind[1] > 0)
        if not names:
            return b""
        name = self.chance.choice(names)
        size = (self.names.data | self.owns)[name][1]
        term, _ = self.integer(size - 1 + self.dares(), 1)
        self.took("Index stored")
        return b"\x88" + name + term + b"\x00"

    # Terms of integers: each gives its bytes and its greatest value.

    def integer(self, most, depth=DEPTH):
        """A term of an integer of at most `most`."""
        most = min(most, self.greatest)
        ways = [self.literal_term] + [self.known_term] * 3
        if depth > 0:
            ways += self.composed(most)
        for _ in range(8):
            found = self.chance.choice(ways)(most, depth - 1)
            if found:
                return found
        return self.literal_term(most, 0)

    def composed(self, most):
        """The ways to compose a term of an integer of at most `most`."""
        ways = [self.masked, self.rest, self.quotient, self.shifted_right, self.summed, self.multiplied, self.joined,
                self.shifted_left, self.sized, self.element, self.converted, self.kept, self.called, self.stepped]
        if most >= self.width:
            ways.append(self.bit_number)
        if most >= 255:
            ways.append(self.byte)
        if most == self.greatest:
            ways += [self.wrapped, self.inverted, self.compared, self.equal, self.negated, self.asked, self.interface]
        return ways

    def literal_term(self, most, _depth):
        numbers = [0, min(1, most), most, self.chance.randint(0, most), self.chance.randint(0, min(most, 20))]
        number = self.chance.choice(numbers)
        self.took("literal")
        if number == self.greatest and self.flips():
            return b"\xFF", number
        if self.width == 32 and self.flips(0.1):
            return literal(number | self.chance.getrandbits(32) << 32), number
        return literal(number), number

    def known_term(self, most, _depth):
        """A local, an argument, a data name or a field."""
        fits = lambda kind: kind[0] == "int" and kind[1] <= most
        slots, names, fields = self.slots_of(fits), self.data_of(fits), self.fields_of(fits)
        found = [bytes([slot]) for slot in slots] * 2 + names + fields
        if not found:
            return None
        term = self.chance.choice(found)
        if term[0] in LOCALS or term[0] in ARGUMENTS:
            self.took("Local" if term[0] in LOCALS else "Arg")
            return term, self.slots[term[0]][1]
        self.took("field read" if term in fields else "data name")
        return term, {**self.names.data, **self.owns, **self.names.fields, **self.own_fields}[term][1]

    def binary(self, name, opcode, left, right, most):
        self.took(name)
        return bytes([opcode]) + left + right + self.target(("int", most)), most

    def masked(self, most, depth):
        left, _ = self.integer(self.greatest, depth)
        mask = most + self.dares()
        parts = [left, literal(min(mask, self.greatest))]
        if self.flips(0.3):
            parts.reverse()
        return self.binary("And", 0x7B, *parts, most)

    def rest(self, most, depth):
        left, greatest = self.integer(self.greatest, depth)
        divisor = self.chance.randint(0 if self.dares() else 1, min(most, 99) + 1)
        return self.binary("Mod", 0x85, left, literal(divisor), min(greatest, max(divisor - 1, 0)))

    def quotient(self, most, depth):
        divisor = self.chance.choice([1, 2, 3, 7, 16, 255])
        left, greatest = self.integer(min(most * divisor, self.greatest), depth)
        self.took("Divide")
        first = self.target(("int", min(greatest, divisor - 1)))
        most = greatest // divisor
        return b"\x78" + left + literal(divisor) + first + self.target(("int", most)), most

    def shifted_right(self, most, depth):
        count = self.chance.choice([0, 1, 3, 8, self.width - 1, self.width, 200])
        left, greatest = self.integer(min(most << count, self.greatest), depth)
        return self.binary("ShiftRight", 0x7A, left, literal(count), greatest >> count)

    def shifted_left(self, most, depth):
        if most == self.greatest and self.flips():
            left, _ = self.integer(most, depth)
            right, _ = self.integer(most, depth)
            return self.binary("ShiftLeft", 0x79, left, right, most)
        count = self.chance.choice([0, 1, 2, 4])
        left, greatest = self.integer(most >> count, depth)
        return self.binary("ShiftLeft", 0x79, left, literal(count), greatest << count)

    def summed(self, most, depth):
        share = self.chance.randint(0, most)
        left, one = self.integer(share, depth)
        right, other = self.integer(most - share + self.dares(), depth)
        return self.binary("Add", 0x72, left, right, one + other)

    def multiplied(self, most, depth):
        factor = self.chance.choice([1, 2, 3, 5])
        left, one = self.integer(most // factor, depth)
        right, other = self.integer(factor, depth)
        return self.binary("Multiply", 0x77, left, right, one * other)

    def joined(self, most, depth):
        whole = (1 << (most + 1).bit_length() - 1) - 1
        left, one = self.integer(whole, depth)
        right, other = self.integer(whole, depth)
        name, opcode = self.chance.choice([("Or", 0x7D), ("Xor", 0x7F)])
        return self.binary(name, opcode, left, right, (1 << max(one, other).bit_length()) - 1)

    def wrapped(self, most, depth):
        name, opcode = self.chance.choice(list(PAIRS.items()))
        return self.binary(name, opcode, self.integer(most, depth)[0], self.integer(most, depth)[0], most)

    def inverted(self, most, depth):
        self.took("Not")
        return b"\x80" + self.integer(most, depth)[0] + self.target(("int", most)), most

    def bit_number(self, _most, depth):
        name, opcode = self.chance.choice([("FindSetLeftBit", 0x81), ("FindSetRightBit", 0x82)])
        self.took(name)
        return bytes([opcode]) + self.integer(self.greatest, depth)[0] + self.target(("int", self.width)), self.width

    def compared(self, most, depth):
        name, opcode = self.chance.choice(list(COMPARED.items()))
        self.took(name)
        return bytes([opcode]) + self.integer(most, depth)[0] + self.integer(most, depth)[0], most

    def equal(self, most, depth):
        self.took("LEqual")
        kind = self.chance.choice([("int", most), ("buf", 4), ("str", 3)])
        other = kind if kind[0] == "int" else (kind[0], self.chance.randint(0, 5))
        return b"\x93" + self.term(kind, depth)[0] + self.term(other, depth)[0], most

    def negated(self, most, depth):
        self.took("LNot")
        return b"\x92" + self.integer(most, depth)[0], most

    def asked(self, most, _depth):
        self.took("CondRefOf")
        names = list(self.names.data) + list(self.names.fields) + self.names.devices + [b"NONE", b"\\_SB_"]
        return b"\x5B\x12" + self.chance.choice(names) + b"\x00", most

    def interface(self, most, depth):
        self.took("_OSI")
        return b"\\_OSI" + self.term(("str", self.chance.choice([0, 3])), depth)[0], most

    def sized(self, most, _depth):
        has = lambda kind: kind[0] != "int" and kind[0] != "anypkg" and size_of(kind) <= most
        found = [(bytes([slot]), self.slots[slot]) for slot in self.slots_of(has)]
        found += [(name, (self.names.data | self.owns)[name]) for name in self.data_of(has)]
        found += [(bytes([slot]), None) for slot in self.slots_of(lambda kind: kind[0] == "anypkg") if most >= 65535]
        if not found:
            return None
        term, kind = self.chance.choice(found)
        self.took("SizeOf")
        return b"\x87" + term, size_of(kind) if kind else 65535

    def byte(self, _most, depth):
        """A byte of a buffer or a string."""
        kind = (self.chance.choice(["buf", "str"]), self.chance.choice([1, 3, 4, 16]))
        left, kind = self.term(kind, depth)
        index, _ = self.integer(kind[1] - 1 + self.dares(), depth)
        self.took("DerefOf Index")
        return b"\x83\x88" + left + index + b"\x00", 255

    def element(self, most, depth):
        """An element of a package that is an integer."""
        return self.element_of(lambda kind: kind[0] == "int" and kind[1] <= most, depth)

    def element_of(self, test, depth):
        """An element of a package, whose kind passes a test: its bytes and what stands behind its kind's name."""
        packages = [(name, (self.names.data | self.owns)[name]) for name in self.data_of(lambda kind: kind[0] == "pkg")]
        packages += [(bytes([slot]), self.slots[slot]) for slot in self.slots_of(lambda kind: kind[0] == "pkg")]
        places = [(term, place, kind) for term, package in packages for place, kind in enumerate(package[1])
                  if isinstance(kind, tuple) and test(kind)]
        if not places:
            return None
        term, place, kind = self.chance.choice(places)
        self.took("DerefOf Index")
        whole = (self.names.data | self.owns).get(term) or self.slots.get(term[0])
        alike = all(isinstance(it, tuple) and it[0] == "int" and test(it) for it in whole[1])
        if kind[0] == "int" and alike and self.flips():
            index, _ = self.integer(len(whole[1]) - 1 + self.dares(), depth)
            return b"\x83\x88" + term + index + b"\x00", max(it[1] for it in whole[1])
        return b"\x83\x88" + term + literal(place) + b"\x00", kind[1]

    def converted(self, most, depth):
        """ToInteger of an integer or a buffer."""
        sizes = [size for size in (1, 2, 4, 8, 9) if (1 << min(8 * size, self.width)) - 1 <= most]
        self.took("ToInteger")
        if sizes and self.flips():
            size = self.chance.choice(sizes)
            term, kind = self.term(("buf", 0 if self.dares() else size), depth)
            greatest = (1 << min(8 * kind[1], self.width)) - 1
        else:
            term, greatest = self.integer(most, depth)
        return b"\x99" + term + self.target(("int", greatest)), greatest

    def kept(self, most, depth):
        """A Store as an operand."""
        term, greatest = self.integer(most, depth)
        self.took("Store as operand")
        target = self.chance.choice([self.slot_target, self.debug_target])(("int", greatest)) or b"\x00"
        return b"\x70" + term + target, greatest

    def stepped(self, most, _depth):
        """Increment or Decrement of a local, an argument, a name or a field."""
        slots = [slot for slot in self.slots_of(lambda kind: kind[0] == "int") if slot not in self.locked]
        if slots and self.flips(0.7):
            slot = self.chance.choice(slots)
            known = self.slots[slot][1]
            up = known + 1 <= most
            if not up and most < self.greatest:
                return None
            after = known + 1 if up and known < self.greatest else self.greatest
            self.took("Increment" if up else "Decrement")
            self.set_slot(slot, ("int", after if up else self.greatest))
            return bytes([0x75 if up else 0x76, slot]), self.slots[slot][1]
        names = self.data_of(lambda kind: kind[0] == "int") + self.fields_of(lambda kind: kind[0] == "int")
        if most < self.greatest or not names:
            return None
        name, opcode = self.chance.choice([("Increment", 0x75), ("Decrement", 0x76)])
        self.took(name)
        return bytes([opcode]) + self.chance.choice(names), self.greatest

    def called(self, most, depth):
        return self.call(lambda kind: kind and kind[0] == "int" and kind[1] <= most, depth)

    def call(self, test, depth):
        """A call of a method whose result passes a test: its bytes and what stands behind its kind's name."""
        level = max((self.names.mutexes[name] for name in self.held), default=0)
        methods = [method for method in self.methods if test(method.gives) and method.least >= level]
        if not methods:
            return None
        method = self.chance.choice(methods)
        self.took("call")
        self.method.least = min(self.method.least, method.least)
        return method.name + b"".join(self.term(kind, depth)[0] for kind in method.args), (method.gives or (0, 0))[1]

    # Terms of any kind: each gives its bytes and its kind.

    def term(self, kind, depth=DEPTH):
        """A term of a kind; its own may lie within it."""
        if kind[0] == "int":
            term, most = self.integer(kind[1], depth)
            return term, ("int", most)
        if kind[0] in ("buf", "str"):
            return self.bytes_term(kind, depth), kind
        return self.package_term(kind), kind

    def bytes_term(self, kind, depth):
        """A term of a buffer or a string of just so many bytes."""
        same = lambda own: own == kind
        known = [bytes([slot]) for slot in self.slots_of(same)] + self.data_of(same)
        known += self.fields_of(same) if kind[0] == "buf" else []
        ways = [lambda: self.bytes_literal(kind), lambda: self.chance.choice(known) if known else None]
        if depth > 0:
            ways += [lambda: self.concatenated(kind, depth - 1), lambda: self.bytes_kept(kind, depth - 1),
                     lambda: self.first(self.element_of(same, depth - 1)),
                     lambda: self.first(self.call(same, depth - 1)), lambda: self.buffer_made(kind, depth - 1)]
        for _ in range(6):
            found = self.chance.choice(ways)()
            if found:
                return found
        return self.bytes_literal(kind)

    @staticmethod
    def first(found):
        return found[0] if found else None

    def bytes_literal(self, kind):
        if kind[0] == "str":
            self.took("String")
            return b"\x0D" + bytes(self.chance.randint(1, 127) for _ in range(kind[1])) + b"\x00"
        self.took("Buffer")
        told = self.chance.randint(0, kind[1])
        first = told if self.flips() else kind[1]
        given = kind[1] if first < kind[1] else self.chance.randint(0, kind[1])
        return package([0x11], literal(first) + self.chance.randbytes(given))

    def concatenated(self, kind, depth):
        first = self.chance.randint(0, kind[1])
        self.took("Concatenate")
        left, right = self.bytes_term((kind[0], first), depth), self.bytes_term((kind[0], kind[1] - first), depth)
        return b"\x73" + left + right + self.target(kind)

    def bytes_kept(self, kind, depth):
        term = self.bytes_term(kind, depth)
        self.took("Store as operand")
        return b"\x70" + term + (self.slot_target(kind) or b"\x00")

    def buffer_made(self, kind, depth):
        """ToBuffer of an integer or a buffer."""
        if kind[0] != "buf":
            return None
        if 8 * kind[1] == self.width and self.flips():
            term = self.integer(self.greatest, depth)[0]
        else:
            term = self.bytes_term(kind, depth)
        self.took("ToBuffer")
        return b"\x96" + term + self.target(kind)

    def package_term(self, kind):
        fits = lambda own: own == kind or kind[0] == "anypkg" and own[0] in ("pkg", "anypkg")
        known = [bytes([slot]) for slot in self.slots_of(fits)] + self.data_of(fits)
        if known and self.flips(0.6):
            return self.chance.choice(known)
        if self.flips(0.3):
            element = self.element_of(fits, 1)
            if element:
                return element[0]
        self.took("Package")
        return package_literal(self.chance, kind[1] if kind[0] == "pkg" else (("int", 5), "name", "unset"))

    # Statements.

    def statements(self, count, depth, top=False):
        """Statements, and whether the end behind them is reached: not where one of them is an If that does not go on."""
        outside = self.dead
        found, reached = self.some_statements(count, depth, top)
        reached = reached and self.dead == outside
        self.dead = outside
        return found, reached

    def some_statements(self, count, depth, top):
        found, reached = b"", True
        for _ in range(count):
            ways = [self.stored] * 4 + [self.evaluated] * 2
            ways += [self.nothing, self.event, self.notified, self.stored_bytes]
            if depth > 0:
                ways += [self.branch] * 3 + [self.loop] * 2 + [self.guarded]
            if top:
                ways += [self.own_name, self.own_field]
            found += self.chance.choice(ways)(depth - 1) or b""
            leaves = self.leaving()
            if leaves:
                return found + leaves, False
        return found, reached

    def leaving(self):
        """Now and then a Return, Break or Continue, where one may stand."""
        if self.may_return and self.flips(0.04):
            return self.returned()
        if self.may_break and self.flips(0.06):
            self.took("Break")
            return b"\xA5"
        if self.may_continue and self.flips(0.2):
            self.took("Continue")
            return b"\x9F"
        return b""

    def returned(self):
        self.took("Return")
        return b"\xA4" + self.term(self.method.gives)[0]

    def stored(self, _depth):
        term, most = self.integer(self.chance.choice([3, 15, 255, self.greatest]))
        self.took("Store")
        return b"\x70" + term + self.target(("int", most), 1)

    def stored_bytes(self, _depth):
        kind = self.chance.choice([("buf", 4), ("buf", 16), ("buf", 9), ("str", 3), ("pkg", (("int", 3), ("int", 9)))])
        term, kind = self.term(kind)
        self.took("Store")
        return b"\x70" + term + self.target(kind, 1)

    def evaluated(self, _depth):
        """Any term as a statement."""
        found = self.call(lambda kind: True, 1) if self.flips(0.3) else None
        return found[0] if found else self.integer(self.greatest)[0]

    def nothing(self, _depth):
        name, opcode = self.chance.choice([("Noop", 0xA3), ("BreakPoint", 0xCC)])
        self.took(name)
        return bytes([opcode])

    def event(self, _depth):
        name, opcode = self.chance.choice([("Sleep", 0x22), ("Stall", 0x21)])
        self.took(name)
        return b"\x5B" + bytes([opcode]) + self.integer(self.greatest, 1)[0]

    def notified(self, _depth):
        self.took("Notify")
        return b"\x86" + self.chance.choice(self.names.devices) + self.integer(self.greatest, 1)[0]

    def test(self):
        """A test, and the local or argument that it tells something of, with its greatest value there."""
        slots = self.slots_of(lambda kind: kind[0] == "int")
        if slots and self.flips():
            slot, most = self.chance.choice(slots), self.chance.choice([1, 2, 4, 16])
            self.took("LLess")
            told = min(self.slots[slot][1], most - 1)
            return b"\x95" + bytes([slot]) + literal(most), slot, told
        return self.integer(self.greatest)[0], None, 0

    def branch(self, depth):
        """An If, perhaps with an Else."""
        test, slot, most = self.test()
        self.took("If")
        before = dict(self.slots)
        if slot:
            self.slots[slot] = ("int", most)
        block, first = self.statements(self.chance.randint(0, BREADTH), depth)
        then, self.slots = self.slots, dict(before)
        found, second = package([0xA0], test + block), True
        if self.flips():
            self.took("Else")
            block, second = self.statements(self.chance.randint(0, BREADTH), depth)
            found += package([0xA1], block)
        # behind a Break no end of either block counts, and then both do
        if self.dead or first and second:
            self.slots = both(then, self.slots)
        elif first:
            self.slots = then
        elif not second:
            self.slots = both(then, self.slots)
        # what stands behind two blocks of which neither goes on is dead up to the end of its own block
        self.dead = self.dead or not (first or second)
        return found

    def loop(self, depth):
        """A While of one of the three shapes."""
        if len(self.loops) > 1:
            return b""
        self.took("While")
        kept = self.may_break, self.may_continue
        found = self.chance.choice([self.once, self.up, self.down])(depth)
        self.may_break, self.may_continue = kept
        return found

    def in_loop(self, count, depth, steps, begins):
        """The statements of a loop's body, of which a step is at the top, and what is known behind it."""
        self.loops.append(dict(begins))
        self.may_break, self.may_continue = True, False
        before, reached = self.statements(count, depth)
        after, outside = b"", self.dead
        self.dead = outside or not reached
        if steps:
            before += steps()
            self.may_continue = True
            after, _ = self.statements(self.chance.randint(0, 2), depth)
        self.dead = outside
        self.loops.pop()
        self.slots = dict(begins)
        return before + after

    def widened(self):
        """What is known, with any integer in each local and argument that holds one."""
        any_integer = ("int", self.greatest)
        return {slot: any_integer if kind and kind[0] == "int" else kind for slot, kind in self.slots.items()}

    def once(self, depth):
        test, _, _ = self.test()
        begins = self.widened()
        self.slots = dict(begins)
        body = self.in_loop(self.chance.randint(0, BREADTH), depth, None, begins)
        leaves = b"\xA5"
        if self.may_return and self.flips(0.3):
            leaves = self.returned()
            self.slots = dict(begins)
        self.took("While ONCE")
        return package([0xA2], test + body + leaves)

    def counter(self, most):
        """A local that counts, with a store of at most `most` into it."""
        free = [slot for slot in LOCALS if self.takes(slot, ("int", self.greatest))]
        if not free:
            return None, b"", 0
        term, known = self.integer(most, 1)
        slot = self.chance.choice(free)
        self.set_slot(slot, ("int", known))
        return slot, b"\x70" + term + bytes([slot]), known

    def up(self, depth):
        slot, begins, _ = self.counter(self.greatest if self.flips(0.2) else 2)
        if slot is None:
            return b""
        turns = self.chance.randint(0, 5)
        known = self.widened()
        self.slots = dict(known)
        self.slots[slot] = ("int", max(turns - 1, 0) if turns else self.greatest)
        return begins + self.turned(slot, b"\x95" + bytes([slot]) + literal(turns), depth, known, [
            bytes([0x75, slot]), bytes([0x72, slot, 1, slot]), bytes([0x72, 1, slot, slot])], 1)

    def down(self, depth):
        slot, begins, _ = self.counter(5)
        if slot is None:
            return b""
        known = self.widened()
        self.slots = dict(known)
        test = bytes([slot]) if self.flips() else b"\x94" + bytes([slot]) + literal(self.chance.randint(0, 3))
        return begins + self.turned(slot, test, depth, known, [
            bytes([0x76, slot]), bytes([0x74, slot, 1, slot])], 0)

    def turned(self, slot, test, depth, known, steps, more):
        """A loop over a local, which nothing else in its body stores into."""
        self.locked.add(slot)

        def step():
            self.took("step")
            most = self.slots[slot][1]
            self.slots[slot] = ("int", most + 1 if more and most < self.greatest else self.greatest)
            return self.chance.choice(steps)

        body = self.in_loop(self.chance.randint(0, 3), depth, step, known)
        self.locked.discard(slot)
        return package([0xA2], test + body)

    def guarded(self, depth):
        """Statements between Acquire and Release."""
        level = max((self.names.mutexes[name] for name in self.held), default=0)
        free = [name for name, own in self.names.mutexes.items() if own >= level]
        if not free:
            return b""
        name = self.chance.choice(free)
        self.took("Acquire")
        self.took("Release")
        self.method.least = min(self.method.least, self.names.mutexes[name])
        self.held.append(name)
        kept = self.may_return, self.may_break, self.may_continue
        self.may_return = self.may_break = self.may_continue = False
        found, _ = self.statements(self.chance.randint(0, 3), depth)
        self.may_return, self.may_break, self.may_continue = kept
        self.held.pop()
        return b"\x5B\x23" + name + b"\xFF\xFF" + found + b"\x5B\x27" + name

    def own_name(self, _depth):
        name = b"OW%02d" % (len(self.owns) + len(self.own_fields))
        package_kind = ("pkg", (("int", 3), ("int", 9)))
        kind = self.chance.choice([("int", self.greatest), ("buf", 4), ("buf", 9), ("str", 3), package_kind])
        self.took("Name")
        if kind[0] == "int":
            found = literal(self.chance.randint(0, self.greatest))
        elif kind[0] == "pkg":
            found = package_literal(self.chance, kind[1])
        else:
            found = self.bytes_literal(kind)
        self.owns[name] = kind
        return b"\x08" + name + found

    def own_field(self, _depth):
        known = self.names.data | self.owns
        sources = [(name, known[name][1]) for name in self.data_of(lambda kind: kind[0] == "buf")]
        name = b"OW%02d" % (len(self.owns) + len(self.own_fields))
        found, kind = buffer_field(self.chance, self.width, sources, name, self.dares())
        if found:
            self.took("CreateField")
            self.own_fields[name] = kind
        return found

    def make(self, name, args, gives):
        """Writes a method, and keeps it for those that come after."""
        self.begin(name, args, gives)
        found, reached = self.statements(self.chance.randint(1, 8), 2, True)
        if gives and (reached or self.flips()):
            found += self.returned()
        self.method.body = found
        self.methods.append(self.method)
        return self.method


def size_of(kind):
    """How large a value of a kind is."""
    return len(kind[1]) if kind[0] == "pkg" else kind[1]


def both(one, other):
    """What is known behind two ends."""
    found = {}
    for slot in one.keys() | other.keys():
        first, second = one.get(slot), other.get(slot)
        if first and second and first[0] == second[0] == "int":
            found[slot] = ("int", max(first[1], second[1]))
        else:
            found[slot] = first if first == second else None
    return found


def package_literal(chance, elements):
    """A Package of elements of these kinds, the last ones of which may be missing."""
    kept = len(elements)
    while kept and elements[kept - 1] == "unset":
        kept -= 1
    found = b""
    for kind in elements[:kept]:
        if kind == "name":
            found += b"DEV0"
        elif kind[0] == "int":
            found += literal(kind[1])
        elif kind[0] == "buf":
            found += package([0x11], literal(kind[1]) + chance.randbytes(chance.randint(0, kind[1])))
        elif kind[0] == "str":
            found += b"\x0D" + bytes(chance.randint(1, 127) for _ in range(kind[1])) + b"\x00"
        else:
            found += package_literal(chance, kind[1])
    if chance.random() < 0.3:
        return package([0x13], literal(len(elements)) + found)
    return package([0x12], bytes([len(elements)]) + found)


def buffer_field(chance, width, sources, name, dares):
    """A CreateField form over one of these buffers, and the kind as which it is read."""
    if chance.random() < 0.3:
        sources = [(source, size) for source, size in sources if size]
        if not sources:
            return b"", None
        source, size = chance.choice(sources)
        bits = chance.randint(1, 8 * size)
        place = chance.randint(0, 8 * size - bits) + dares
        found = b"\x5B\x13" + source + literal(place) + literal(bits) + name
    else:
        opcode, bits = chance.choice(list(BUFFER_FIELDS.values()))
        sources = [(source, size) for source, size in sources if 8 * size >= bits]
        if not sources:
            return b"", None
        source, size = chance.choice(sources)
        unit = 1 if bits == 1 else 8
        found = bytes([opcode]) + source + literal(chance.randint(0, (8 * size - bits) // unit) + dares) + name
    return found, ("int", (1 << bits) - 1) if bits <= width else ("buf", (bits + 7) // 8)
