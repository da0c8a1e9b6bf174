"""Trees of AML, and how they are written down as bytes.

A tree is made of `Node`s. `encode` writes trees as bytes and notes for each node the place of its first byte in the
table, which is what errors are told by.
"""

# Each operator: its opcode, its class (Data, Expression, Statement, definitioN) and a letter for each operand.
OPERATORS = {
    "Buffer": (b"\x11", "D", "PtY"), "Package": (b"\x12", "D", "PbK"), "VarPackage": (b"\x13", "D", "PtK"),
    "Revision": (b"\x5b\x30", "D", ""),
    "Store": (b"\x70", "E", "tg"), "RefOf": (b"\x71", "E", "s"), "Add": (b"\x72", "E", "ttg"),
    "Concatenate": (b"\x73", "E", "ttg"), "Subtract": (b"\x74", "E", "ttg"), "Increment": (b"\x75", "E", "s"),
    "Decrement": (b"\x76", "E", "s"), "Multiply": (b"\x77", "E", "ttg"), "Divide": (b"\x78", "E", "ttgg"),
    "ShiftLeft": (b"\x79", "E", "ttg"), "ShiftRight": (b"\x7a", "E", "ttg"), "And": (b"\x7b", "E", "ttg"),
    "Nand": (b"\x7c", "E", "ttg"), "Or": (b"\x7d", "E", "ttg"), "Nor": (b"\x7e", "E", "ttg"),
    "Xor": (b"\x7f", "E", "ttg"), "Not": (b"\x80", "E", "tg"), "FindSetLeftBit": (b"\x81", "E", "tg"),
    "FindSetRightBit": (b"\x82", "E", "tg"), "DerefOf": (b"\x83", "E", "t"),
    "ConcatenateResTemplate": (b"\x84", "E", "ttg"), "Mod": (b"\x85", "E", "ttg"), "SizeOf": (b"\x87", "E", "s"),
    "Index": (b"\x88", "E", "ttg"), "Match": (b"\x89", "E", "tbtbtt"), "ObjectType": (b"\x8e", "E", "s"),
    "LAnd": (b"\x90", "E", "tt"), "LOr": (b"\x91", "E", "tt"), "LNot": (b"\x92", "E", "t"),
    "LEqual": (b"\x93", "E", "tt"), "LGreater": (b"\x94", "E", "tt"), "LLess": (b"\x95", "E", "tt"),
    "ToBuffer": (b"\x96", "E", "tg"), "ToDecimalString": (b"\x97", "E", "tg"), "ToHexString": (b"\x98", "E", "tg"),
    "ToInteger": (b"\x99", "E", "tg"), "ToString": (b"\x9c", "E", "ttg"), "CopyObject": (b"\x9d", "E", "tm"),
    "Mid": (b"\x9e", "E", "tttg"), "CondRefOf": (b"\x5b\x12", "E", "sg"), "LoadTable": (b"\x5b\x1f", "E", "tttttt"),
    "Load": (b"\x5b\x20", "E", "ng"), "Acquire": (b"\x5b\x23", "E", "sw"), "Wait": (b"\x5b\x25", "E", "st"),
    "FromBCD": (b"\x5b\x28", "E", "tg"), "ToBCD": (b"\x5b\x29", "E", "tg"), "Timer": (b"\x5b\x33", "E", ""),
    "Notify": (b"\x86", "S", "st"), "Continue": (b"\x9f", "S", ""), "If": (b"\xa0", "S", "PtL"),
    "Else": (b"\xa1", "S", "PL"), "While": (b"\xa2", "S", "PtL"), "Noop": (b"\xa3", "S", ""),
    "Return": (b"\xa4", "S", "t"), "Break": (b"\xa5", "S", ""), "BreakPoint": (b"\xcc", "S", ""),
    "Stall": (b"\x5b\x21", "S", "t"), "Sleep": (b"\x5b\x22", "S", "t"), "Signal": (b"\x5b\x24", "S", "s"),
    "Reset": (b"\x5b\x26", "S", "s"), "Release": (b"\x5b\x27", "S", "s"), "Fatal": (b"\x5b\x32", "S", "bdt"),
    "Alias": (b"\x06", "N", "nn"), "DefName": (b"\x08", "N", "nt"), "Scope": (b"\x10", "N", "PnL"),
    "Method": (b"\x14", "N", "PnbL"), "External": (b"\x15", "N", "nbb"),
    "CreateDWordField": (b"\x8a", "N", "ttn"), "CreateWordField": (b"\x8b", "N", "ttn"),
    "CreateByteField": (b"\x8c", "N", "ttn"), "CreateBitField": (b"\x8d", "N", "ttn"),
    "CreateQWordField": (b"\x8f", "N", "ttn"), "Mutex": (b"\x5b\x01", "N", "nb"), "Event": (b"\x5b\x02", "N", "n"),
    "CreateField": (b"\x5b\x13", "N", "tttn"), "OperationRegion": (b"\x5b\x80", "N", "nbtt"),
    "Field": (b"\x5b\x81", "N", "PnbF"), "Device": (b"\x5b\x82", "N", "PnL"),
    "Processor": (b"\x5b\x83", "N", "PnbdbL"), "PowerResource": (b"\x5b\x84", "N", "PnbwL"),
    "ThermalZone": (b"\x5b\x85", "N", "PnL"), "IndexField": (b"\x5b\x86", "N", "PnnbF"),
    "BankField": (b"\x5b\x87", "N", "PnntbF"), "DataTableRegion": (b"\x5b\x88", "N", "nttt"),
}

# Operators that are read but never evaluated.
OUTSIDE = {
    "Revision", "RefOf", "CopyObject", "ObjectType", "Match", "Mid", "ToString", "ToHexString", "ToDecimalString",
    "ConcatenateResTemplate", "FromBCD", "ToBCD", "Timer", "Fatal", "Load", "LoadTable", "Signal", "Wait", "Reset",
}

CREATE_FIELDS = {  # the bits of each form, and how many bits its index counts
    "CreateBitField": (1, 1), "CreateByteField": (8, 8), "CreateWordField": (16, 8), "CreateDWordField": (32, 8),
    "CreateQWordField": (64, 8),
}

LITERAL_BYTES = {"Byte": (0x0A, 1), "Word": (0x0B, 2), "DWord": (0x0C, 4), "QWord": (0x0E, 8)}


class Node:
    """A term, a target, a statement or a definition, with its operands in the order of their letters."""

    __slots__ = ("op", "parts", "at")

    def __init__(self, op, *parts):
        self.op = op
        self.parts = list(parts)
        self.at = None

    def __repr__(self):
        return show(self)


class NameString:
    """A name as it is spelt: from the root, or behind so many parents, and its segments."""

    __slots__ = ("rooted", "parents", "segments", "long_form")

    def __init__(self, segments, rooted=False, parents=0, long_form=False):
        self.segments = tuple(segments)
        self.rooted = rooted
        self.parents = parents
        self.long_form = long_form

    def is_lone(self):
        return not self.rooted and self.parents == 0 and len(self.segments) == 1

    def encode(self):
        prefix = b"\\" if self.rooted else b"^" * self.parents
        count = len(self.segments)
        joined = "".join(self.segments).encode()
        if count == 0:
            return prefix + b"\x00"
        if count == 1 and not self.long_form:
            return prefix + joined
        if count == 2 and not self.long_form:
            return prefix + b"\x2e" + joined
        return prefix + b"\x2f" + bytes([count]) + joined

    def __repr__(self):
        prefix = "\\" if self.rooted else "^" * self.parents
        return prefix + ".".join(self.segments) + ("/long" if self.long_form else "")


NONE = Node("None")


def literal(value, form=None):
    """An integer literal; without a form the shortest one."""
    if form is None:
        form = shortest_form(value)
    return Node("Literal", value, form)


def shortest_form(value):
    if value == 0:
        return "Zero"
    if value == 1:
        return "One"
    if value == 2**64 - 1:
        return "Ones"
    for form, (_, size) in LITERAL_BYTES.items():
        if value < 256**size:
            return form
    raise ValueError(value)


def local(number):
    return Node("Local", number)


def argument(number):
    return Node("Arg", number)


def path(name, *arguments):
    return Node("Path", name, list(arguments))


def text(content):
    return Node("String", content)


def buffer(size, content=b""):
    return Node("Buffer", size if isinstance(size, Node) else literal(size), content)


def package_length(inside, extra=0):
    """The PkgLength of a package with so many bytes behind it; `extra` more bytes than needed."""
    for count, limit in ((1, 1 << 6), (2, 1 << 12), (3, 1 << 20), (4, 1 << 28)):
        if extra and count < 1 + extra:
            continue
        if inside + count < limit:
            return length_bytes(inside + count, count)
    raise ValueError("package too long")


def length_bytes(value, count):
    if count == 1:
        return bytes([value])
    rest = value >> 4
    return bytes([(count - 1) << 6 | value & 15]) + bytes(rest >> 8 * i & 255 for i in range(count - 1))


def bit_count(value):
    """A number of bits in a field list, spelt as a PkgLength."""
    for count, limit in ((1, 1 << 6), (2, 1 << 12), (3, 1 << 20), (4, 1 << 28)):
        if value < limit:
            return length_bytes(value, count)
    raise ValueError("too many bits")


class Rope:
    """Bytes in pieces, so that long packages are not copied over and over. A piece is bytes, a node or a rope."""

    def __init__(self):
        self.length = 0
        self.pieces = []

    def add(self, piece):
        self.pieces.append(piece)
        if not isinstance(piece, Node):
            self.length += piece.length if isinstance(piece, Rope) else len(piece)


def rope_of(node):
    """What is written for a node, with the node itself as a mark at its front."""
    rope = Rope()
    rope.add(node)
    write_plain(node, rope) if node.op in PLAIN else write_operator(node, rope)
    return rope


def write_plain(node, rope):
    op, parts = node.op, node.parts
    if op == "Literal":
        rope.add(literal_bytes(*parts))
    elif op == "String":
        rope.add(b"\x0d" + parts[0] + b"\x00")
    elif op == "Local":
        rope.add(bytes([0x60 + parts[0]]))
    elif op == "Arg":
        rope.add(bytes([0x68 + parts[0]]))
    elif op == "Debug":
        rope.add(b"\x5b\x31")
    elif op == "None":
        rope.add(b"\x00")
    elif op == "Raw":
        rope.add(parts[0])
    elif op == "Path":
        rope.add(parts[0].encode())
        for term in parts[1]:
            rope.add(rope_of(term))


PLAIN = {"Literal", "String", "Local", "Arg", "Debug", "None", "Raw", "Path"}


def literal_bytes(value, form):
    if form == "Zero":
        return b"\x00"
    if form == "One":
        return b"\x01"
    if form == "Ones":
        return b"\xff"
    opcode, size = LITERAL_BYTES[form]
    return bytes([opcode]) + value.to_bytes(size, "little")


def write_operator(node, rope):
    opcode, _, letters = OPERATORS[node.op]
    rope.add(opcode)
    inner = Rope() if letters[:1] == "P" else rope
    for letter, part in zip(letters.lstrip("P"), node.parts):
        write_operand(letter, part, inner)
    if inner is not rope:
        rope.add(package_length(inner.length))
        rope.add(inner)
    if node.op == "If" and len(node.parts) > 2:
        rope.add(rope_of(node.parts[2]))


def write_operand(letter, part, rope):
    if letter in "tgsm":
        rope.add(rope_of(part))
    elif letter == "n":
        rope.add(part.encode())
    elif letter in "bwd":
        rope.add(part.to_bytes({"b": 1, "w": 2, "d": 4}[letter], "little"))
    elif letter in "LK":
        for item in part:
            rope.add(rope_of(item))
    elif letter == "Y":
        rope.add(part)
    elif letter == "F":
        for item in part:
            rope.add(field_item(item))


def field_item(item):
    """An item of a field list: ("name", segment, bits), ("skip", bits), ("access", type, attribute),
    ("connection", bytes) or ("extended", three bytes)."""
    what = item[0]
    if what == "name":
        return item[1].encode() + bit_count(item[2])
    if what == "skip":
        return b"\x00" + bit_count(item[1])
    if what == "access":
        return bytes([1, item[1], item[2]])
    if what == "connection":
        return b"\x02" + item[1]
    return b"\x03" + item[1]


def flatten(rope, out, base):
    """Puts the pieces into `out` and tells each node its place."""
    stack = [iter(rope.pieces)]
    while stack:
        for piece in stack[-1]:
            if isinstance(piece, Rope):
                stack.append(iter(piece.pieces))
                break
            if isinstance(piece, Node):
                if piece is not NONE and piece.at is not None:
                    raise ValueError(f"{piece!r} stands twice")
                if piece is not NONE:
                    piece.at = base + len(out)
            else:
                out += piece
        else:
            stack.pop()


def encode(nodes, base=36):
    rope = Rope()
    for node in nodes:
        rope.add(rope_of(node))
    out = bytearray()
    flatten(rope, out, base)
    return bytes(out)


def table(signature, revision, body):
    """A table with this body, its length and its checksum to fit."""
    head = signature + (36 + len(body)).to_bytes(4, "little") + bytes([revision, 0]) + b"REFERSREFERS01"
    head += (1).to_bytes(4, "little") + b"REFS" + (1).to_bytes(4, "little")
    whole = bytearray(head + body)
    whole[9] = -sum(whole) % 256
    return bytes(whole)


def show(node):
    """The node in words close to ASL, for people."""
    op, parts = node.op, node.parts
    if op == "Literal":
        return hex(parts[0])
    if op == "String":
        return repr(parts[0].decode("latin1"))
    if op in ("Local", "Arg"):
        return f"{op}{parts[0]}"
    if op == "Raw":
        return f"raw {parts[0].hex()}"
    if op == "Path":
        return repr(parts[0]) + (f" ({', '.join(map(show, parts[1]))})" if parts[1] else "")
    if op in ("None", "Debug"):
        return op
    return op + " (" + ", ".join(show_part(part) for part in parts) + ")"


def show_part(part):
    if isinstance(part, Node):
        return show(part)
    if isinstance(part, list):
        return "{" + "; ".join(show_part(item) for item in part) + "}"
    if isinstance(part, bytes):
        return part[:16].hex() + (f"..{len(part)}" if len(part) > 16 else "")
    return repr(part) if not isinstance(part, int) else hex(part)
