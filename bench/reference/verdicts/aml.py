"""Reading AML into trees, and writing trees as AML again.

A reader walks the bytes once and stops at the first fault. Trees keep the place of every part, so that a verdict can
name it.
"""

DEEPEST = 64
LARGEST_BUFFER = 65536
LARGEST_PACKAGE = 65535

# Operand letters: t term, g target, s supername, m simple name, n name string, b w d numbers, P length of what follows,
# L statements, Y bytes, K package elements, F fields, D a data operator.
DATA_OPERATORS = {
    0x11: ("Buffer", "PtY"), 0x12: ("Package", "PbK"), 0x13: ("VarPackage", "PtK"), 0x5B30: ("Revision", ""),
}
EXPRESSIONS = {
    0x70: ("Store", "tg"), 0x71: ("RefOf", "s"), 0x72: ("Add", "ttg"), 0x73: ("Concatenate", "ttg"),
    0x74: ("Subtract", "ttg"), 0x75: ("Increment", "s"), 0x76: ("Decrement", "s"), 0x77: ("Multiply", "ttg"),
    0x78: ("Divide", "ttgg"), 0x79: ("ShiftLeft", "ttg"), 0x7A: ("ShiftRight", "ttg"), 0x7B: ("And", "ttg"),
    0x7C: ("Nand", "ttg"), 0x7D: ("Or", "ttg"), 0x7E: ("Nor", "ttg"), 0x7F: ("Xor", "ttg"), 0x80: ("Not", "tg"),
    0x81: ("FindSetLeftBit", "tg"), 0x82: ("FindSetRightBit", "tg"), 0x83: ("DerefOf", "t"),
    0x84: ("ConcatenateResTemplate", "ttg"), 0x85: ("Mod", "ttg"), 0x87: ("SizeOf", "s"), 0x88: ("Index", "ttg"),
    0x89: ("Match", "tbtbtt"), 0x8E: ("ObjectType", "s"), 0x90: ("LAnd", "tt"), 0x91: ("LOr", "tt"),
    0x92: ("LNot", "t"), 0x93: ("LEqual", "tt"), 0x94: ("LGreater", "tt"), 0x95: ("LLess", "tt"),
    0x96: ("ToBuffer", "tg"), 0x97: ("ToDecimalString", "tg"), 0x98: ("ToHexString", "tg"), 0x99: ("ToInteger", "tg"),
    0x9C: ("ToString", "ttg"), 0x9D: ("CopyObject", "tm"), 0x9E: ("Mid", "tttg"), 0x5B12: ("CondRefOf", "sg"),
    0x5B1F: ("LoadTable", "tttttt"), 0x5B20: ("Load", "ng"), 0x5B23: ("Acquire", "sw"), 0x5B25: ("Wait", "st"),
    0x5B28: ("FromBCD", "tg"), 0x5B29: ("ToBCD", "tg"), 0x5B33: ("Timer", ""),
}
STATEMENTS = {
    0x86: ("Notify", "st"), 0x9F: ("Continue", ""), 0xA0: ("If", "PtL"), 0xA2: ("While", "PtL"), 0xA3: ("Noop", ""),
    0xA4: ("Return", "t"), 0xA5: ("Break", ""), 0xCC: ("BreakPoint", ""), 0x5B21: ("Stall", "t"),
    0x5B22: ("Sleep", "t"), 0x5B24: ("Signal", "s"), 0x5B26: ("Reset", "s"), 0x5B27: ("Release", "s"),
    0x5B32: ("Fatal", "bdt"),
}
DEFINITIONS = {
    0x06: ("Alias", "nn"), 0x08: ("Name", "nD"), 0x10: ("Scope", "PnL"), 0x14: ("Method", "PnbY"),
    0x15: ("External", "nbb"), 0x8A: ("CreateDWordField", "ttn"), 0x8B: ("CreateWordField", "ttn"),
    0x8C: ("CreateByteField", "ttn"), 0x8D: ("CreateBitField", "ttn"), 0x8F: ("CreateQWordField", "ttn"),
    0x5B01: ("Mutex", "nb"), 0x5B02: ("Event", "n"), 0x5B13: ("CreateField", "tttn"),
    0x5B80: ("OperationRegion", "nbtt"), 0x5B81: ("Field", "PnbF"), 0x5B82: ("Device", "PnL"),
    0x5B83: ("Processor", "PnbdbL"), 0x5B84: ("PowerResource", "PnbwL"), 0x5B85: ("ThermalZone", "PnL"),
    0x5B86: ("IndexField", "PnnbF"), 0x5B87: ("BankField", "PnntbF"), 0x5B88: ("DataTableRegion", "nttt"),
}
OPERATORS = {}
CLASSES = {}
for letter, group in (("D", DATA_OPERATORS), ("E", EXPRESSIONS), ("S", STATEMENTS), ("N", DEFINITIONS)):
    OPERATORS.update(group)
    CLASSES.update(dict.fromkeys(group, letter))
OPCODES = {name: opcode for opcode, (name, _) in OPERATORS.items()}
LETTERS = {name: letters for name, letters in OPERATORS.values()}
LETTERS["If"] = "PtL"
# The letters of the parts that a tree keeps: the length itself is no part.
PART_LETTERS = {name: letters.replace("P", "") for name, letters in LETTERS.items()}

CREATE_FORMS = {"CreateDWordField": 32, "CreateWordField": 16, "CreateByteField": 8, "CreateBitField": 1,
                "CreateQWordField": 64, "CreateField": None}
NUMBER_SIZES = {"b": 1, "w": 2, "d": 4}
INTEGER_SIZES = {0x0A: 1, 0x0B: 2, 0x0C: 4, 0x0E: 8}
SUPERNAME_OPERATORS = {0x71, 0x83, 0x88}


def is_name_start(byte):
    return byte in (0x5C, 0x5E, 0x2E, 0x2F, 0x5F) or 0x41 <= byte <= 0x5A


def is_lead(byte):
    return byte == 0x5F or 0x41 <= byte <= 0x5A


def is_follower(byte):
    return is_lead(byte) or 0x30 <= byte <= 0x39


class Fault(Exception):
    """The first fault of some bytes: its number and its place."""

    def __init__(self, number, at):
        super().__init__(number, at)
        self.number = number
        self.at = at


class NameString:
    """A name as it is spelt: from the root, or so many parents up, then segments."""
    __slots__ = ("rooted", "parents", "segs")

    def __init__(self, rooted, parents, segs):
        self.rooted = rooted
        self.parents = parents
        self.segs = segs

    def lone(self):
        """The segment, where the name is one segment and nothing else."""
        if self.rooted or self.parents or len(self.segs) != 1:
            return None
        return self.segs[0]

    def __str__(self):
        return ("\\" if self.rooted else "^" * self.parents) + ".".join(self.segs)


class Node:
    """A part of a tree: its operator, its place, its end, its parts in order, and its own value."""
    __slots__ = ("op", "at", "end", "parts", "value", "own")

    def __init__(self, op, at, end=0, parts=(), value=None, own=False):
        self.op = op
        self.at = at
        self.end = end
        self.parts = parts
        self.value = value
        self.own = own


def children(node):
    """The parts of a node that are nodes themselves, in order."""
    for part in node.parts:
        if isinstance(part, Node):
            yield part
        elif isinstance(part, list):
            for inner in part:
                # An item of a field list holds a node only where it is a connection's Buffer.
                if isinstance(inner, tuple):
                    inner = inner[1]
                if isinstance(inner, Node):
                    yield inner


class Reader:
    """Reads terms from bytes; `arity` tells how many terms a name takes, and None means a module."""

    def __init__(self, data, arity=None):
        self.data = data
        self.arity = arity
        self.own = set()
        self.calls = []

    def byte(self, at, end):
        if at >= end:
            raise Fault("E201", end)
        return self.data[at]

    def length(self, at, end):
        lead = self.byte(at, end)
        more = lead >> 6
        if at + 1 + more > end:
            raise Fault("E201", end)
        if more == 0:
            return lead & 63, at + 1
        value = lead & 15
        for i in range(more):
            value |= self.data[at + 1 + i] << (4 + 8 * i)
        return value, at + 1 + more

    def package(self, at, end):
        """The end of the package whose length stands here, and the place behind the length."""
        value, next_at = self.length(at, end)
        if value < next_at - at:
            raise Fault("E202", at)
        if at + value > end:
            raise Fault("E207", at)
        return at + value, next_at

    def number(self, at, end, size):
        if at + size > end:
            raise Fault("E201", end)
        return int.from_bytes(self.data[at:at + size], "little"), at + size

    def segment(self, at, end):
        for i in range(4):
            byte = self.byte(at + i, end)
            if not (is_lead(byte) if i == 0 else is_follower(byte)):
                raise Fault("E203", at + i)
        return self.data[at:at + 4].decode("ascii"), at + 4

    def name_string(self, at, end):
        rooted, parents = False, 0
        if self.byte(at, end) == 0x5C:
            rooted, at = True, at + 1
        else:
            while self.byte(at, end) == 0x5E:
                parents, at = parents + 1, at + 1
        byte, count = self.byte(at, end), 1
        if byte == 0:
            return NameString(rooted, parents, ()), at + 1
        if byte == 0x2E:
            count, at = 2, at + 1
        elif byte == 0x2F:
            count = self.byte(at + 1, end)
            if count == 0:
                raise Fault("E203", at + 1)
            at += 2
        segs = []
        for _ in range(count):
            seg, at = self.segment(at, end)
            segs.append(seg)
        return NameString(rooted, parents, tuple(segs)), at

    def string(self, at, end):
        behind = self.data.find(b"\0", at, end)
        text = self.data[at:end if behind < 0 else behind]
        if not text.isascii():
            raise Fault("E206", at + next(i for i, byte in enumerate(text) if byte > 0x7F))
        if behind < 0:
            raise Fault("E201", end)
        return text, behind + 1

    def opcode(self, at, end):
        byte = self.byte(at, end)
        if byte != 0x5B:
            return byte, at + 1
        return 0x5B00 | self.byte(at + 1, end), at + 2

    def enter(self, at, end, depth):
        """A part begins here: it has a byte, and isn't too deep."""
        byte = self.byte(at, end)
        if depth > DEEPEST:
            raise Fault("E205", at)
        return byte

    def simple_data(self, at, end):
        """Integer or string data, or None."""
        byte = self.data[at]
        if byte in (0, 1):
            return Node("int", at, at + 1, value=byte)
        if byte == 0xFF:
            return Node("int", at, at + 1, value=2 ** 64 - 1)
        if byte in INTEGER_SIZES:
            value, next_at = self.number(at + 1, end, INTEGER_SIZES[byte])
            return Node("int", at, next_at, value=value)
        if byte == 0x0D:
            value, next_at = self.string(at + 1, end)
            return Node("string", at, next_at, value=value)
        return None

    def local_or_argument(self, at):
        byte = self.data[at]
        if 0x60 <= byte <= 0x67:
            return Node("Local", at, at + 1, value=byte - 0x60)
        if 0x68 <= byte <= 0x6E:
            return Node("Arg", at, at + 1, value=byte - 0x68)
        return None

    def plain_name(self, at, end, in_package=False):
        """A name that takes no terms."""
        name, next_at = self.name_string(at, end)
        own = not in_package and name.lone() in self.own
        return Node("name", at, next_at, value=name, own=own)

    def term_name(self, at, end, depth):
        """A name that takes terms where it names a method."""
        node = self.plain_name(at, end)
        if self.arity is None:
            return node
        next_at, arguments = node.end, []
        if not node.own:
            for _ in range(self.arity(node.value)):
                argument = self.term(next_at, end, depth + 1)
                arguments.append(argument)
                next_at = argument.end
            self.calls.append(node)
        node.parts, node.end = arguments, next_at
        return node

    def term(self, at, end, depth, classes="DE"):
        byte = self.enter(at, end, depth)
        found = self.simple_data(at, end) or self.local_or_argument(at)
        if found:
            return found
        if is_name_start(byte):
            return self.term_name(at, end, depth)
        opcode, next_at = self.opcode(at, end)
        if CLASSES.get(opcode, "") not in classes or opcode not in OPERATORS:
            raise Fault("E204", at)
        return self.operator(opcode, at, next_at, end, depth)

    def data_operator(self, at, end, depth, revision=True):
        self.enter(at, end, depth)
        found = self.simple_data(at, end)
        if found:
            return found
        opcode, next_at = self.opcode(at, end)
        if opcode not in DATA_OPERATORS or (opcode == 0x5B30 and not revision):
            raise Fault("E204", at)
        return self.operator(opcode, at, next_at, end, depth)

    def element(self, at, end, depth):
        byte = self.enter(at, end, depth)
        if is_name_start(byte):
            return self.plain_name(at, end, in_package=True)
        return self.data_operator(at, end, depth, revision=False)

    def supername(self, at, end, depth):
        byte = self.enter(at, end, depth)
        found = self.local_or_argument(at)
        if found:
            return found
        if is_name_start(byte):
            return self.plain_name(at, end)
        opcode, next_at = self.opcode(at, end)
        if opcode == 0x5B31:
            return Node("Debug", at, next_at)
        if opcode not in SUPERNAME_OPERATORS:
            raise Fault("E204", at)
        return self.operator(opcode, at, next_at, end, depth)

    def simple_name(self, at, end, depth):
        byte = self.enter(at, end, depth)
        found = self.local_or_argument(at)
        if found:
            return found
        if is_name_start(byte):
            return self.plain_name(at, end)
        # No operator may stand here, but one that is cut short is told as such.
        self.opcode(at, end)
        raise Fault("E204", at)

    def target(self, at, end, depth):
        if self.byte(at, end) == 0:
            return Node("none", at, at + 1)
        return self.supername(at, end, depth)

    def fields(self, at, end, depth):
        """The items of a field list: (kind, name or number, bits)."""
        items = []
        while at < end:
            byte = self.data[at]
            if byte == 0:
                bits, at = self.length(at + 1, end)
                items.append(("skip", None, bits))
            elif byte == 1:
                access, at = self.number(at + 1, end, 1)
                _, at = self.number(at, end, 1)
                items.append(("access", access, 0))
            elif byte == 2:
                if self.byte(at + 1, end) == 0x11:
                    buffer = self.data_operator(at + 1, end, depth)
                    at = buffer.end
                    items.append(("connection", buffer, 0))
                else:
                    name, at = self.name_string(at + 1, end)
                    items.append(("connection", name, 0))
            elif byte == 3:
                _, at = self.number(at + 1, end, 3)
                items.append(("extended", None, 0))
            else:
                seg, at = self.segment(at, end)
                bits, at = self.length(at, end)
                items.append(("field", seg, bits))
        return items

    def statements(self, at, end, depth, top=False):
        found = []
        while at < end:
            node = self.statement(at, end, depth)
            at = node.end
            found.append(node)
            if top:
                self.note_own(node)
        return found

    def statement(self, at, end, depth):
        node = self.term(at, end, depth, "DESN")
        if node.op == "If" and self.arity is not None:
            node.parts.append(self.otherwise(node, end, depth))
        return node

    def otherwise(self, node, end, depth):
        at = node.end
        if at >= end or self.data[at] != 0xA1:
            return None
        inner_end, next_at = self.package(at + 1, end)
        node.end = inner_end
        return self.statements(next_at, inner_end, depth + 1)

    def note_own(self, node):
        """A definition at the top of a body makes its name an own one from here on."""
        if node.op == "Name" or node.op in CREATE_FORMS:
            name = node.parts[0] if node.op == "Name" else node.parts[-1]
            if name.value.lone():
                self.own.add(name.value.lone())

    def operator(self, opcode, at, next_at, end, depth):
        name, letters = OPERATORS[opcode]
        node = Node(name, at, parts=[])
        for letter in letters:
            if letter == "P":
                end, next_at = self.package(next_at, end)
                continue
            part, next_at = self.part(letter, next_at, end, depth + 1)
            node.parts.append(part)
            if letter == "t" and name in ("Buffer", "VarPackage"):
                self.check_size(node)
        node.end = next_at
        if name == "Buffer" and node.parts[0].op == "int" and len(node.parts[1]) > LARGEST_BUFFER:
            raise Fault("E208", at)
        return node

    def check_size(self, node):
        largest = LARGEST_BUFFER if node.op == "Buffer" else LARGEST_PACKAGE
        size = node.parts[0]
        if size.op == "int" and size.value > largest:
            raise Fault("E208", node.at)

    def part(self, letter, at, end, depth):
        if letter in NUMBER_SIZES:
            return self.number(at, end, NUMBER_SIZES[letter])
        if letter == "n":
            name, next_at = self.name_string(at, end)
            return Node("name", at, next_at, value=name), next_at
        if letter == "Y":
            return bytes(self.data[at:end]), end
        if letter == "L":
            return self.statements(at, end, depth), end
        if letter == "F":
            return self.fields(at, end, depth), end
        if letter == "K":
            return self.elements(at, end, depth), end
        read = {"t": self.term, "g": self.target, "s": self.supername, "m": self.simple_name, "D": self.data_operator}
        node = read[letter](at, end, depth)
        return node, node.end

    def elements(self, at, end, depth):
        found = []
        while at < end:
            node = self.element(at, end, depth)
            at = node.end
            found.append(node)
        return found


def read_module(table, start=36):
    """The definitions of a table, whose header is skipped."""
    return Reader(table).statements(start, len(table), 1)


def read_body(table, start, end, arity):
    """The statements of a method's body, and the names in it that stand in a term's place."""
    reader = Reader(table, arity)
    return reader.statements(start, end, 1, top=True), reader.calls


# Writing.

class Spelling:
    """How lengths and names are spelt: as short as can be, or now and then longer, where there is a source of chance."""
    rng = None

    @classmethod
    def is_longer(cls):
        return cls.rng is not None and cls.rng.random() < 0.01


def length_bytes(inner):
    """The length of a package with so many bytes behind its length."""
    if Spelling.is_longer() and inner < 4000:
        size = Spelling.rng.choice([2, 3, 4])
        value = inner + size
        front = (size - 1) << 6 | Spelling.rng.choice([0, 0x10, 0x30]) | value & 15
        return bytes([front]) + (value >> 4).to_bytes(size - 1, "little")
    for size, limit in ((1, 1 << 6), (2, 1 << 12), (3, 1 << 20), (4, 1 << 28)):
        value = inner + size
        if value < limit:
            if size == 1:
                return bytes([value])
            rest = value >> 4
            return bytes([(size - 1) << 6 | value & 15]) + rest.to_bytes(size - 1, "little")
    raise ValueError("too long")


def bits_bytes(bits):
    """A number of bits in a field list."""
    if bits < 64:
        return bytes([bits])
    for size, limit in ((2, 1 << 12), (3, 1 << 20), (4, 1 << 28)):
        if bits < limit:
            return bytes([(size - 1) << 6 | bits & 15]) + (bits >> 4).to_bytes(size - 1, "little")
    raise ValueError("too many bits")


def packaged(opcode, inner):
    return opcode + length_bytes(len(inner)) + inner


def integer(value):
    """The shortest spelling of an integer."""
    if value == 0:
        return b"\0"
    if value == 1:
        return b"\1"
    for lead, size in ((0x0A, 1), (0x0B, 2), (0x0C, 4), (0x0E, 8)):
        if value < 1 << 8 * size:
            return bytes([lead]) + value.to_bytes(size, "little")
    raise ValueError("too great")


def name_bytes(text):
    """A name string of its text."""
    if text.startswith("\\"):
        return b"\\" + name_bytes_behind(text[1:])
    parents = len(text) - len(text.lstrip("^"))
    return b"^" * parents + name_bytes_behind(text[parents:])


def name_bytes_behind(text):
    if not text:
        return b"\0"
    segs = text.encode().split(b".")
    if Spelling.is_longer():
        return b"\x2f" + bytes([len(segs)]) + b"".join(segs)
    if len(segs) == 1:
        return segs[0]
    if len(segs) == 2:
        return b"\x2e" + b"".join(segs)
    return b"\x2f" + bytes([len(segs)]) + b"".join(segs)


def opcode_bytes(opcode):
    return bytes([opcode]) if opcode < 256 else bytes([opcode >> 8, opcode & 255])


def op(name, *parts):
    """An operator with its parts as bytes."""
    inner = b"".join(parts)
    lead = opcode_bytes(OPCODES[name])
    return packaged(lead, inner) if LETTERS[name].startswith("P") else lead + inner


def table_of(body, revision=2, signature=b"DSDT"):
    head = signature + (36 + len(body)).to_bytes(4, "little") + bytes([revision, 0])
    table = bytearray(head + b"ACPICKROWS0001\1\0\0\0ROWS\1\0\0\0" + body)
    table[9] = -sum(table) % 256
    return bytes(table)


def encode(node):
    """The bytes of a tree that was read; integers and names keep no spelling but the shortest."""
    if node.op == "int":
        return b"\xff" if node.value == 2 ** 64 - 1 else integer(node.value)
    if node.op == "string":
        return b"\x0d" + node.value + b"\0"
    if node.op == "name":
        return name_bytes(str(node.value)) + b"".join(map(encode, node.parts))
    if node.op in ("Local", "Arg"):
        return bytes([(0x60 if node.op == "Local" else 0x68) + node.value])
    if node.op == "none":
        return b"\0"
    if node.op == "Debug":
        return b"\x5b\x31"
    if node.op == "If":
        made = op("If", encode(node.parts[0]), encode_list(node.parts[1]))
        return made if node.parts[2] is None else made + packaged(b"\xa1", encode_list(node.parts[2]))
    return op(node.op, *(encode_part(letter, part) for letter, part in zip(PART_LETTERS[node.op], node.parts)))


def encode_list(nodes):
    return b"".join(map(encode, nodes))


def encode_part(letter, part):
    if letter in NUMBER_SIZES:
        return part.to_bytes(NUMBER_SIZES[letter], "little")
    if letter == "Y":
        return part
    if letter == "F":
        return b"".join(map(encode_item, part))
    if letter in "LK":
        return encode_list(part)
    return encode(part)


def encode_item(item):
    kind, what, bits = item
    if kind == "skip":
        return b"\0" + bits_bytes(bits)
    if kind == "access":
        return bytes([1, what, 0])
    if kind == "connection":
        return b"\2" + (encode(what) if isinstance(what, Node) else name_bytes(str(what)))
    if kind == "extended":
        return b"\3\0\0\0"
    return what.encode() + bits_bytes(bits)


# Printing.

def text(node):
    """A tree in a form near to ASL, on one line."""
    if node.op == "int":
        return str(node.value) if node.value < 1000 else hex(node.value)
    if node.op == "string":
        return repr(node.value.decode("latin1"))
    if node.op == "name":
        mark = "'" if node.own else ""
        return f"{node.value}{mark}" + (f" ({', '.join(map(text, node.parts))})" if node.parts else "")
    if node.op in ("Local", "Arg"):
        return f"{node.op}{node.value}"
    if not node.parts:
        return node.op
    return f"{node.op} ({', '.join(map(part_text, node.parts))})"


def part_text(part):
    if isinstance(part, Node):
        return text(part)
    if isinstance(part, list):
        return "{" + "; ".join(text(p) if isinstance(p, Node) else str(p) for p in part) + "}"
    if isinstance(part, bytes):
        return f"<{part.hex()}>"
    return str(part)


def lines(nodes, indent=1):
    """Statements as lines, with their places."""
    for node in nodes:
        pad = "  " * indent
        if node.op in ("If", "While"):
            yield f"{node.at:6}{pad}{node.op} ({text(node.parts[0])}) {{"
            yield from lines(node.parts[1], indent + 1)
            if node.op == "If" and node.parts[2] is not None:
                yield f"      {pad}}} Else {{"
                yield from lines(node.parts[2], indent + 1)
            yield f"      {pad}}}"
        else:
            yield f"{node.at:6}{pad}{text(node)}"
