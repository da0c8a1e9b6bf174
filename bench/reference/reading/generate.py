"""Makes inputs: well-formed tables and bodies from the operator table, and mutations of them; texts with bad lines."""
import grammar

HEADER_REST = b"ACPICK" + b"ROWS0001" + b"\1\0\0\0" + b"ROWS" + b"\1\0\0\0"


def fitted(data):
    """A table with its length and its checksum made to fit."""
    data = bytearray(data)
    data[4:8] = len(data).to_bytes(4, "little")
    data[9] = 0
    data[9] = -sum(data) % 256
    return bytes(data)


def table(signature, revision, contents):
    """A table with these bytes behind its header."""
    return fitted(signature + bytes(4) + bytes([revision]) + bytes(1) + HEADER_REST + contents)


def code_bytes(code):
    """The bytes of an opcode."""
    return bytes([0x5B, code & 0xFF]) if code > 0xFF else bytes([code])


class Maker:
    """What all generators share: choices, numbers and names."""

    # How often a length or a string is wrong.
    slips = 0.0

    def __init__(self, rng):
        self.rng = rng
        self.fresh = 0

    def chance(self, part):
        """True in this part of all cases."""
        return self.rng.random() < part

    def pkg_value(self, value, least=0):
        """A PkgLength of a value, sometimes spelt longer than needed."""
        sizes = [size for size in (1, 2, 3, 4) if size >= least and value < (64, 1 << 12, 1 << 20, 1 << 28)[size - 1]]
        size = self.rng.choice(sizes) if self.chance(0.15) else sizes[0]
        if size == 1:
            return bytes([value])
        ignored = self.rng.choice((0, 0, 0x10, 0x20, 0x30))
        return bytes([size - 1 << 6 | ignored | value & 15]) + (value >> 4).to_bytes(size - 1, "little")

    def package(self, inner):
        """A PkgLength and the bytes that it encloses."""
        sizes = [size for size in (1, 2, 3, 4) if len(inner) + size < (64, 1 << 12, 1 << 20, 1 << 28)[size - 1]]
        size = self.rng.choice(sizes) if self.chance(0.15) else sizes[0]
        value = len(inner) + size
        if self.chance(self.slips):
            value = max(0, min(self.rng.choice((0, 1, size - 1, size, value - 1, value + 1, value + 2)), 16 << 8 * (size - 1)))
        if size == 1:
            return bytes([value % 64]) + inner
        ignored = self.rng.choice((0, 0, 0x10, 0x20, 0x30))
        return bytes([size - 1 << 6 | ignored | value & 15]) + (value >> 4 & 256**(size - 1) - 1).to_bytes(size - 1,
                "little") + inner

    def number(self, count):
        """A number of so many bytes, often an edge."""
        edge = self.rng.choice((0, 1, 2, 3, 7, 8, 15, 16, 63, 64, 127, 128, 255))
        value = edge if self.chance(0.6) else self.rng.getrandbits(8 * count)
        return (value % 256**count).to_bytes(count, "little")

    def segment(self):
        """A segment out of few, so that names meet."""
        return self.rng.choice((b"AAAA", b"BBBB", b"CCCC", b"DDDD", b"A000", b"_B1_", b"ZZ_9", b"____"))

    def new_segment(self):
        """A segment that no other one is."""
        self.fresh += 1
        number, text = self.fresh, ""
        for _ in range(3):
            number, digit = divmod(number, 37)
            text = "ABCDEFGHIJKLMNOPQRSTUVWXYZ_0123456789"[digit] + text
        return b"N" + text.encode()

    def segments(self, segments):
        """The spelling of segments."""
        count = len(segments)
        if count == 0:
            return b"\0"
        if self.chance(0.1) or count > 2:
            return bytes([0x2F, count]) + b"".join(segments)
        return (b"\x2E" if count == 2 else b"") + b"".join(segments)

    def any_name(self):
        """A name of any form."""
        count = self.rng.choice((1, 1, 1, 1, 2, 2, 3, 4, 0))
        prefix = self.rng.choice((b"", b"", b"", b"\\", b"\\", b"^", b"^^", b"^^^"))
        if count == 0 and prefix == b"":
            count = 1
        return prefix + self.segments([self.segment() for _ in range(count)])

    def spelt(self, path, scope):
        """One of the spellings of a path in a scope."""
        common = 0
        while common < min(len(path), len(scope)) and path[common] == scope[common]:
            common += 1
        forms = [b"\\" + self.segments(path)]
        up = len(scope) - common
        for more in range(0, common + 1):
            if more == 0 or self.chance(0.3):
                forms.append(b"^" * (up + more) + self.segments(path[common - more:]))
        if len(path) > len(scope) == common and self.chance(0.7):
            return self.segments(path[common:])
        return self.rng.choice(forms)


class Terms(Maker):
    """Terms and statements from the operator table."""

    slips = 0.004

    def __init__(self, rng, names=(), is_module=False):
        super().__init__(rng)
        self.names = list(names)
        self.own = {}
        self.is_module = is_module

    def known_name(self):
        """A name's spelling, and how many terms it takes."""
        if self.own and self.chance(0.2):
            return self.rng.choice(list(self.own)), 0
        if self.names and self.chance(0.85):
            return self.rng.choice(self.names)
        return self.any_name(), 0

    def leaf(self):
        """A term without operands."""
        choice = self.rng.randrange(10)
        if choice < 3:
            return bytes([self.rng.randrange(0x60, 0x6F)])
        if choice < 7:
            return self.literal()
        if choice == 7:
            return b"\x0D" + bytes(self.rng.randrange(1, 128) for _ in range(self.rng.randrange(4))) + b"\0"
        if choice == 8:
            return self.rng.choice((b"\x5B\x30", b"\x5B\x33"))
        return self.name_term(0)

    def literal(self):
        """An integer literal."""
        code, count = self.rng.choice(((0, 0), (1, 0), (0xFF, 0), (0x0A, 1), (0x0B, 2), (0x0C, 4), (0x0E, 8)))
        return bytes([code]) + self.number(count)

    def small_literal(self):
        """An integer literal of a size that is no too large one in most cases."""
        if self.chance(0.03):
            return self.rng.choice((b"\xFF", b"\x0C\x01\x00\x01\x00", b"\x0C\x00\x00\x01\x00", b"\x0B\xFF\xFF"))
        return self.rng.choice((b"\0", b"\1", b"\x0A" + self.number(1), b"\x0B" + self.number(1) + b"\0",
                                b"\x0C" + self.number(1) + bytes(3), b"\x0E" + self.number(1) + bytes(7)))

    def name_term(self, depth):
        """A name and the terms that it takes."""
        name, count = self.known_name()
        count = 0 if self.is_module or name in self.own else count
        return name + b"".join(self.term(depth - 1) for _ in range(count))

    def term(self, depth):
        """A term with parts of at most this depth."""
        if depth <= 0 or self.chance(0.2):
            return self.leaf()
        if self.chance(0.2):
            return self.name_term(depth)
        groups = [item for item in grammar.OPERATORS.values() if item.group in "DE"]
        return self.operator(self.rng.choice(groups), depth)

    def operator(self, operator, depth):
        """An operator with its operands."""
        letters, before = operator.letters, b""
        parts = [self.operand(letter, operator.code, depth - 1) for letter in letters.replace("P", "")]
        inner = b"".join(parts)
        made = code_bytes(operator.code) + before + (self.package(inner) if "P" in letters else inner)
        if operator.code == grammar.IF and self.chance(0.5):
            made += b"\xA1" + self.package(self.statements(depth - 1))
        return made

    def operand(self, letter, code, depth):
        """What one letter asks for."""
        if letter in grammar.NUMBER_BYTES:
            return self.number(grammar.NUMBER_BYTES[letter])
        if letter == "n":
            return self.any_name() if self.chance(0.7) else self.known_name()[0]
        if letter == "c":
            if self.is_module or self.chance(0.7):
                return self.small_literal()
            return self.term(depth)
        if letter == "o":
            return self.known_name()[0] if self.is_module else self.term(depth)
        if letter == "z" and self.chance(5 * self.slips):
            return self.rng.choice((b"\x80\0", b"A\xFF\0", b"\x7F\x80", b"AB", b""))
        if letter == "z":
            return bytes(self.rng.randrange(1, 128) for _ in range(self.rng.randrange(6))) + b"\0"
        if letter == "Y":
            return bytes(self.rng.randrange(256) for _ in range(self.rng.choice((0, 0, 1, 3, 8))))
        if letter == "D":
            return self.data(depth)
        made = {"t": self.term, "g": self.target, "s": self.supername, "m": self.simple_name, "L": self.statements,
                "K": self.elements, "F": self.field_list}
        return made[letter](depth)

    def data(self, depth):
        """Data of a Name."""
        found = [item for item in grammar.OPERATORS.values() if item.group == "D"]
        operator = self.rng.choice(found)
        if operator.code == grammar.REVISION and (self.is_module or self.chance(0.5)):
            return self.literal()
        return self.operator(operator, depth)

    def elements(self, depth):
        """Elements of a package."""
        made = b""
        for _ in range(self.rng.choice((0, 1, 2, 3))):
            if self.chance(0.4):
                made += self.known_name()[0]
            else:
                operator = self.rng.choice([item for item in grammar.OPERATORS.values()
                                            if item.group == "D" and item.code != grammar.REVISION
                                            and (depth > 0 or "P" not in item.letters)])
                made += self.operator(operator, depth)
        return made

    def target(self, depth):
        """A target or none."""
        return b"\0" if self.chance(0.4) else self.supername(depth)

    def supername(self, depth):
        """A supername."""
        choice = self.rng.randrange(10)
        if choice < 4:
            return self.known_name()[0]
        if choice < 7 or depth <= 0:
            return bytes([self.rng.randrange(0x60, 0x6F)])
        if choice == 7:
            return b"\x5B\x31"
        return self.operator(grammar.OPERATORS[self.rng.choice((0x71, 0x83, 0x88))], depth)

    def simple_name(self, depth):
        """A simple name."""
        return self.known_name()[0] if self.chance(0.5) else bytes([self.rng.randrange(0x60, 0x6F)])

    def field_item(self, depth, segment):
        """One item of a field list."""
        choice = self.rng.randrange(10)
        bits = self.rng.choice((0, 1, 8, 16, 63, 64, 65, 4095, 4096, 70000, 1 << 20, (1 << 28) - 1))
        if choice < 4:
            return segment + self.pkg_value(bits)
        if choice < 6:
            return b"\0" + self.pkg_value(bits)
        if choice == 6:
            return b"\1" + self.number(2)
        if choice == 7:
            return b"\2" + self.known_name()[0]
        if choice == 8:
            return b"\2" + self.operator(grammar.OPERATORS[grammar.BUFFER], depth)
        return b"\3" + self.number(3)

    def field_list(self, depth):
        """A field list."""
        return b"".join(self.field_item(depth, self.segment()) for _ in range(self.rng.choice((0, 1, 2, 3, 4))))

    def statement(self, depth, is_top=False):
        """A statement of a body."""
        if is_top and self.chance(0.12):
            return self.own_definition(depth)
        if self.chance(0.25):
            return self.name_term(depth)
        if self.chance(0.05):
            return bytes([self.rng.randrange(0x60, 0x6F)])
        group = self.rng.choice("DEESSNN")
        found = [item for item in grammar.OPERATORS.values() if item.group == group]
        operator = self.rng.choice(found)
        if depth <= 0 and "L" in operator.letters:
            return b"\xA3"
        return self.operator(operator, depth)

    def own_definition(self, depth):
        """A definition at a body's top of a name out of few, which takes nothing behind it."""
        segment = self.rng.choice([name for name, _ in self.names if len(name) == 4] or [self.segment()])
        spelling = self.rng.choice((segment, segment, b"\x2F\x01" + segment, b"\\" + segment))
        if self.chance(0.6):
            made = b"\x08" + spelling + self.data(depth - 1)
        else:
            code = self.rng.choice(grammar.CREATE_FIELDS)
            letters = grammar.OPERATORS[code].letters[:-1]
            made = code_bytes(code) + b"".join(self.operand(item, code, depth - 1) for item in letters) + spelling
        if spelling[:1] != b"\\":
            self.own[segment] = 0
        return made

    def statements(self, depth):
        """A statement list."""
        if self.is_module:
            return b"".join(self.definition(depth) for _ in range(self.rng.choice((0, 1, 2, 3))))
        return b"".join(self.statement(depth) for _ in range(self.rng.choice((0, 1, 1, 2, 3))))

    def definition(self, depth):
        """A definition of a module, whatever it names."""
        found = [item for item in grammar.OPERATORS.values() if item.group == "N"]
        operator = self.rng.choice(found)
        if depth <= 0 and "L" in operator.letters:
            operator = grammar.OPERATORS[0x5B02]
        return self.operator(operator, depth)

    def body(self):
        """The statements of a body."""
        self.own = {}
        return b"".join(self.statement(self.rng.choice((1, 2, 3, 4)), True)
                        for _ in range(self.rng.choice((1, 1, 2, 3, 5))))

    def nested(self, depth, leaf):
        """Terms or statements nested this deep, in which the deepest part is this leaf."""
        kind = self.rng.choice("tsK") if leaf is None else "t"
        inner = leaf if leaf is not None else self.rng.choice((b"\1", b"\x60", b"AAAA", b"\x5B\x33", b"\x02"))
        for level in range(depth - 1):
            kind, inner = self.around(kind, inner, level == depth - 2)
        return inner

    def around(self, kind, inner, is_last):
        """A bigger part that has this part one deeper, and the kind of place where it may stand."""
        wraps = [
            lambda: ("t", b"\x92" + inner), lambda: ("t", b"\x72" + inner + b"\1\0"),
            lambda: ("t", b"\x72\1" + inner + b"\0"), lambda: ("t", b"\x83" + inner),
            lambda: ("t", b"\x11" + self.package(inner + b"xy")), lambda: ("K", b"\x13" + self.package(inner)),
            lambda: ("s", b"\x83" + inner), lambda: ("s", b"\x88\1" + inner + b"\0"),
            lambda: ("L", b"\xA0" + self.package(inner)), lambda: ("L", b"\xA4" + inner),
            lambda: ("t", b"\x80" + inner + b"\0"),
        ]
        supers = [lambda: ("t", b"\x70\1" + inner), lambda: ("t", b"\x75" + inner), lambda: ("s", b"\x71" + inner),
                  lambda: ("t", b"\x80\1" + inner), lambda: ("s", b"\x88\1\1" + inner),
                  lambda: ("L", b"\x86" + inner + b"\1")]
        elements = [lambda: ("K", b"\x12" + self.package(b"\1" + inner)),
                    lambda: ("t", b"\x13" + self.package(b"\1\1" + inner))]
        lists = [lambda: ("L", b"\xA0" + self.package(b"\1" + inner)),
                 lambda: ("L", b"\xA0" + self.package(b"\1") + b"\xA1" + self.package(inner)),
                 lambda: ("L", b"\xA2" + self.package(b"\1" + inner)),
                 lambda: ("L", b"\x10" + self.package(b"\\\0" + inner)),
                 lambda: ("L", b"\x5B\x82" + self.package(b"QQQQ" + inner))]
        possible = {"t": wraps + (lists if is_last else []), "s": supers, "K": elements + wraps, "L": lists}[kind]
        return self.rng.choice(possible)()


def mutated(rng, data):
    """Bytes with a few of them changed, put in, taken out or cut off."""
    data = bytearray(data)
    for _ in range(rng.choice((1, 1, 1, 2, 3))):
        at = rng.randrange(len(data) + 1)
        choice = rng.randrange(8)
        byte = rng.choice((0, 1, 2, 3, 0x2E, 0x2F, 0x5B, 0x5C, 0x5E, 0x60, 0x68, 0x70, 0x71, 0x83, 0x88, 0xA0, 0xA1,
                           0x11, 0x12, 0x13, 0x0D, 0x80, 0xFF, 0x41, 0x30, 0x40, 0x15, 0x06, 0x08, 0x10, 0x14,
                           rng.randrange(256), rng.randrange(256), rng.randrange(256)))
        if choice < 3 and at < len(data):
            data[at] = byte
        elif choice == 3 and at < len(data):
            data[at] = (data[at] + rng.choice((-2, -1, 1, 2))) % 256
        elif choice == 4:
            data[at:at] = bytes([byte])
        elif choice == 5 and at < len(data):
            del data[at]
        elif choice == 6:
            del data[at:at + rng.randrange(1, 6)]
        else:
            del data[len(data) - rng.randrange(0, min(6, len(data) + 1)):]
    return bytes(data)


class Tables(Terms):
    """Sets of tables whose definitions know what there is, so that most of them load, and some only nearly."""

    KINDS = (0x06, 0x08, 0x08, 0x10, 0x10, 0x14, 0x14, 0x15, 0x15, 0x8A, 0x8B, 0x8C, 0x8D, 0x8F, 0x5B01, 0x5B02, 0x5B13,
             0x5B80, 0x5B81, 0x5B81, 0x5B82, 0x5B82, 0x5B83, 0x5B84, 0x5B85, 0x5B86, 0x5B87, 0x5B88)

    def __init__(self, rng, wild=0.04):
        super().__init__(rng, (), True)
        self.wild = wild
        self.externals = []
        self.paths = {(name.encode(),): kind for name, kind in
                      (("_GPE", "scope"), ("_PR_", "scope"), ("_SB_", "scope"), ("_SI_", "scope"), ("_TZ_", "scope"),
                       ("_REV", "data"), ("_OSI", "method"), ("_OS_", "data"), ("_GL_", "mutex"))}

    def known_name(self):
        """The spelling of a path that there is, or any name."""
        if self.chance(0.9):
            return b"\\" + self.segments(self.rng.choice(list(self.paths))), 0
        return self.any_name(), 0

    def set_of_tables(self, is_plain=False):
        """One to three tables."""
        count = 1 if is_plain else self.rng.choice((1, 1, 1, 2, 2, 3))
        found = []
        for number in range(count):
            contents = self.contents((), self.rng.choice((1, 2, 3, 4, 6, 9)), 3)
            signature = b"SSDT" if number else b"DSDT"
            if self.chance(self.wild / 4):
                signature = self.rng.choice((b"SSDT", b"DSDT", b"PSDT", b"APIC"))
            found.append(table(signature, self.rng.choice((0, 1, 2, 2, 2, 3, 255)), contents))
        return found

    def contents(self, scope, count, depth):
        """The definitions of a scope."""
        return b"".join(self.definition_in(scope, depth) for _ in range(count))

    def scopes(self):
        """Paths that definitions may stand below."""
        return [()] + [path for path, kind in self.paths.items() if kind in ("scope", "alias of scope")]

    def place_for(self, scope):
        """The path of a new definition: mostly in this scope and new."""
        parent = scope if self.chance(0.7) else self.rng.choice(self.scopes())
        if self.chance(self.wild):
            parent = self.rng.choice(list(self.paths)) if self.chance(0.7) else (self.segment(), self.segment())
        if self.chance(self.wild):
            return self.rng.choice(list(self.paths) + [()])
        segment = self.new_segment() if self.chance(0.5) else self.segment()
        path = parent + (segment,)
        return path if path not in self.paths or self.chance(self.wild) else parent + (self.new_segment(),)

    def name_for(self, path, scope):
        """The spelling of a path, sometimes wrong."""
        if self.chance(self.wild / 2):
            return self.any_name()
        return self.spelt(path, scope)

    def definition_in(self, scope, depth):
        """One definition in a scope."""
        code = self.rng.choice(self.KINDS)
        if code == 0x10:
            target = self.rng.choice(self.scopes())
            name = self.name_for(target, scope)
            if target and self.chance(0.2):
                name = target[-1]
            inner = self.contents(target, self.rng.choice((0, 1, 2, 3)) if depth > 0 else 0, depth - 1)
            return b"\x10" + self.package(name + inner)
        if code == 0x15:
            path = self.place_for(scope)
            name = self.any_name() if self.chance(0.3) else self.name_for(path, scope)
            self.externals.append(path)
            return b"\x15" + name + bytes([self.rng.choice((8, 8, 8, 0, 1, 9)), self.rng.randrange(9)])
        if code in (0x5B81, 0x5B86, 0x5B87):
            return self.field_definition(code, scope)
        path = self.place_for(scope)
        name = self.name_for(path, scope)
        if code in (0x5B82, 0x5B83, 0x5B84, 0x5B85):
            middle = {0x5B82: b"", 0x5B83: self.number(6), 0x5B84: self.number(3), 0x5B85: b""}[code]
            if path:
                self.paths.setdefault(path, "scope")
            inner = self.contents(path, self.rng.choice((0, 1, 2, 3)) if depth > 0 else 0, depth - 1)
            return code_bytes(code) + self.package(name + middle + inner)
        if code == 0x06:
            return self.alias(scope, path, name)
        made = self.simple(code, name)
        self.note(path, "method" if code == 0x14 else "data")
        return made

    def note(self, path, kind):
        """Keeps that there is a path; the root is none that can be named so."""
        if path:
            self.paths.setdefault(path, kind)

    def alias(self, scope, path, name):
        """An Alias."""
        source = self.rng.choice(list(self.paths))
        spelling = source[-1] if self.chance(0.3) else self.name_for(source, scope)
        if self.chance(self.wild):
            spelling = self.any_name()
        kind = self.paths[source]
        self.note(path, "alias of scope" if kind in ("alias of scope", "scope") else "data")
        return b"\x06" + spelling + name

    def simple(self, code, name):
        """A definition that opens no scope, of this name."""
        operator = grammar.OPERATORS[code]
        letters = operator.letters.replace("P", "")
        place = letters.rindex("n") if code in grammar.CREATE_FIELDS else letters.index("n")
        parts = [name if at == place else self.operand(letter, code, 2) for at, letter in enumerate(letters)]
        inner = b"".join(parts)
        return code_bytes(code) + (self.package(inner) if "P" in operator.letters else inner)

    def field_definition(self, code, scope):
        """A Field, IndexField or BankField of new fields."""
        front = {0x5B81: lambda: self.known_name()[0],
                 0x5B86: lambda: self.known_name()[0] + self.known_name()[0],
                 0x5B87: lambda: self.known_name()[0] + self.known_name()[0] + self.term(1)}[code]()
        items = b""
        for _ in range(self.rng.choice((0, 1, 2, 3, 4))):
            path = scope + (self.new_segment() if not self.chance(self.wild) else self.segment(),)
            items += self.field_item(2, path[-1])
            self.paths.setdefault(path, "data")
        return code_bytes(code) + self.package(front + self.number(1) + items)


def mutated_table(rng, data):
    """A table with a mutation in it; mostly length and checksum are made to fit again."""
    if rng.random() < 0.85 and len(data) > 36:
        return fitted(data[:36] + mutated(rng, data[36:]))
    changed = mutated(rng, data)
    return fitted(changed) if rng.random() < 0.5 and len(changed) >= 36 else changed


def other_table(rng):
    """A file for `tables`: a root pointer, an XSDT, a FADT, a MADT, or any other one."""
    choice = rng.randrange(10)
    if choice < 2:
        return root_pointer(rng)
    if choice == 2:
        return table(b"XSDT", 1, rng.randbytes(rng.choice((0, 8, 16, 7, 9, 15, 3))))
    if choice == 3:
        return table(b"FACP", rng.randrange(7), rng.randbytes(rng.choice((
            rng.randrange(0, 16), rng.randrange(70, 84), rng.randrange(100, 116), 208, 240))))
    if choice < 8:
        return table(b"APIC", rng.randrange(7), madt_contents(rng))
    if choice == 8:
        return b"FACS" + rng.randbytes(rng.randrange(0, 64))
    return table(rng.choice((b"HPET", rng.randbytes(4), b'A"\\B', b"DSDT", b"RSDT", b"FACP", b"XSDT", b"APIC")),
                 rng.randrange(256), rng.randbytes(rng.randrange(20)))


def with_sum(data, at, end):
    """Bytes in which the one at this place makes those before the end sum to zero."""
    data = bytearray(data)
    data[at] = 0
    data[at] = -sum(data[:end]) % 256
    return bytes(data)


def root_pointer(rng):
    """A root pointer."""
    revision = rng.choice((0, 1, 2, 2, 2, 3, 255))
    front = b"RSD PTR " + b"\0" + rng.randbytes(6) + bytes([revision]) + rng.randbytes(4)
    front = with_sum(front, 8, 20)
    if revision < 2:
        return front + rng.randbytes(rng.choice((0, 0, 5)))
    length = rng.choice((36, 36, 36, 36, 40, 35, 20, 0, 41, 0xFFFFFFFF))
    whole = front + length.to_bytes(4, "little") + rng.randbytes(12) + rng.randbytes(rng.choice((0, 0, 4, 9)))
    return with_sum(whole, 32, length)


def madt_contents(rng):
    """The front of a MADT and structures of every type and length."""
    if rng.random() < 0.05:
        return rng.randbytes(rng.randrange(9))
    made = rng.randbytes(8)
    lengths = {0: 8, 1: 12, 2: 10, 3: 8, 4: 6, 5: 12, 9: 16, 10: 12}
    for _ in range(rng.choice((0, 1, 2, 4, 8))):
        kind = rng.choice((0, 1, 2, 3, 4, 5, 6, 7, 8, 9, 10, 11, 12, 127, 255, rng.randrange(256)))
        length = lengths.get(kind, rng.choice((2, 3, 4, 8, 255)))
        if rng.random() < 0.2:
            length = rng.choice((length + 1, length + 7, length - 1, 0, 1, 2))
        made += bytes([kind, length % 256]) + rng.randbytes(max(length - 2, 0))
    if rng.random() < 0.15:
        made = made[:len(made) - rng.randrange(1, 4)]
    return made


def mutated_file(rng, data):
    """A file with changed bytes, cut or not, with or without its sums made to fit."""
    changed = mutated(rng, data)
    if changed[:8] == b"RSD PTR " and len(changed) >= 20 and rng.random() < 0.7:
        changed = with_sum(changed, 8, 20)
        if changed[15] >= 2 and len(changed) > 32 and rng.random() < 0.7:
            changed = with_sum(changed, 32, int.from_bytes(changed[20:24], "little"))
        return changed
    return fitted(changed) if len(changed) >= 10 and rng.random() < 0.7 else changed
