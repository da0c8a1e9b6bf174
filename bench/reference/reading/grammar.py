"""Reads AML: names, numbers and terms of a module or of a method's body, or the first fault of bytes that are none.

Every reader is handed the place where it begins and the end of the package around it, and gives what it read with
the place behind it. Places are those of the whole table, so a fault's place can be printed as it is.
"""
import re
from collections import Counter, namedtuple

from faults import Fault

GREATEST_DEPTH = 64
GREATEST_BUFFER = 65536
GREATEST_PACKAGE = 65535

Operator = namedtuple("Operator", "code group letters word")
Term = namedtuple("Term", "code at end parts")
Name = namedtuple("Name", "rooted parents segments at")
FieldItem = namedtuple("FieldItem", "what at value bits")

# One line an operator: its code, its word, its operands. Beside the plain letters: c is a term that has to be a
# literal in a module, o a term that has to be a name there, D an operator of data, q eight bytes, z a string.
TEXT = {
    "D": """00 Zero; 01 One; FF Ones; 0A Byte b; 0B Word w; 0C DWord d; 0E QWord q; 0D String z; 11 Buffer P c Y;
        12 Package P b K; 13 VarPackage P c K; 5B30 Revision""",
    "E": """70 Store t g; 71 RefOf s; 72 Add t t g; 73 Concatenate t t g; 74 Subtract t t g; 75 Increment s;
        76 Decrement s; 77 Multiply t t g; 78 Divide t t g g; 79 ShiftLeft t t g; 7A ShiftRight t t g; 7B And t t g;
        7C Nand t t g; 7D Or t t g; 7E Nor t t g; 7F Xor t t g; 80 Not t g; 81 FindSetLeftBit t g;
        82 FindSetRightBit t g; 83 DerefOf t; 84 ConcatenateResTemplate t t g; 85 Mod t t g; 87 SizeOf s;
        88 Index t t g; 89 Match t b t b t t; 8E ObjectType s; 90 LAnd t t; 91 LOr t t; 92 LNot t; 93 LEqual t t;
        94 LGreater t t; 95 LLess t t; 96 ToBuffer t g; 97 ToDecimalString t g; 98 ToHexString t g; 99 ToInteger t g;
        9C ToString t t g; 9D CopyObject t m; 9E Mid t t t g; 5B12 CondRefOf s g; 5B1F LoadTable t t t t t t;
        5B20 Load n g; 5B23 Acquire s w; 5B25 Wait s t; 5B28 FromBCD t g; 5B29 ToBCD t g; 5B33 Timer""",
    "S": """86 Notify s t; 9F Continue; A0 If P t L; A2 While P t L; A3 Noop; A4 Return t; A5 Break; CC BreakPoint;
        5B21 Stall t; 5B22 Sleep t; 5B24 Signal s; 5B26 Reset s; 5B27 Release s; 5B32 Fatal b d t""",
    "N": """06 Alias n n; 08 Name n D; 10 Scope P n L; 14 Method P n b Y; 15 External n b b; 8A CreateDWordField o c n;
        8B CreateWordField o c n; 8C CreateByteField o c n; 8D CreateBitField o c n; 8F CreateQWordField o c n;
        5B01 Mutex n b; 5B02 Event n; 5B13 CreateField o c c n; 5B80 OperationRegion n b t t; 5B81 Field P n b F;
        5B82 Device P n L; 5B83 Processor P n b d b L; 5B84 PowerResource P n b w L; 5B85 ThermalZone P n L;
        5B86 IndexField P n n b F; 5B87 BankField P n n t b F; 5B88 DataTableRegion n t t t""",
}


def operators():
    """All operators by their codes; a code of two bytes is 5Bxx as a number."""
    found = {}
    for group, text in TEXT.items():
        for item in text.split(";"):
            code, word, *letters = item.split()
            found[int(code, 16)] = Operator(int(code, 16), group, "".join(letters), word)
    return found


OPERATORS = operators()
IF, ELSE, DEBUG, REVISION, NAME, BUFFER, VAR_PACKAGE = 0xA0, 0xA1, 0x5B31, 0x5B30, 0x08, 0x11, 0x13
CREATE_FIELDS = (0x8A, 0x8B, 0x8C, 0x8D, 0x8F, 0x5B13)
LITERALS = (0x00, 0x01, 0xFF, 0x0A, 0x0B, 0x0C, 0x0E)
SUPERNAME_OPERATORS = (0x71, 0x83, 0x88)
NUMBER_BYTES = {"b": 1, "w": 2, "d": 4, "q": 8}
NAME_TERM = "name"
STRING_END = re.compile(rb"[\x00\x80-\xFF]")


def is_lead(byte):
    """Whether a segment may begin with this byte."""
    return 0x41 <= byte <= 0x5A or byte == 0x5F


def begins_name(byte):
    """Whether this byte, where a term or an operator is asked for, begins a name."""
    return is_lead(byte) or byte in (0x5C, 0x5E, 0x2E, 0x2F)


def is_local_or_argument(code):
    """Whether this is the code of a local or an argument."""
    return 0x60 <= code <= 0x6E


def is_known(code):
    """Whether this is the code of an operator, of a local or of an argument."""
    return code in OPERATORS or is_local_or_argument(code)


def number_at(data, at, count):
    """The number of so many bytes, the lowest first."""
    return int.from_bytes(data[at:at + count], "little")


def read_byte(data, at, end):
    """One byte."""
    if at >= end:
        raise Fault("E201", end)
    return data[at], at + 1


def read_number(data, at, end, count):
    """A number of so many bytes."""
    if end - at < count:
        raise Fault("E201", end)
    return number_at(data, at, count), at + count


def read_pkg_length(data, at, end):
    """The value of a PkgLength, which may be spelt longer than needed."""
    lead, place = read_byte(data, at, end)
    more = lead >> 6
    if more == 0:
        return lead & 0x3F, place
    rest, place = read_number(data, place, end, more)
    return lead & 0x0F | rest << 4, place


def read_package_end(data, at, end):
    """The end of the package whose PkgLength stands here, and the place behind that PkgLength."""
    value, place = read_pkg_length(data, at, end)
    if value < place - at:
        raise Fault("E202", at)
    if at + value > end:
        raise Fault("E207", at)
    return at + value, place


def read_segment(data, at, end):
    """The four bytes of a segment."""
    for place in range(at, at + 4):
        byte, _ = read_byte(data, place, end)
        if not (is_lead(byte) or place > at and 0x30 <= byte <= 0x39):
            raise Fault("E203", place)
    return data[at:at + 4], at + 4


def read_name(data, at, end):
    """A name string: its prefixes and its segments."""
    start = at
    byte, place = read_byte(data, at, end)
    rooted, parents = byte == 0x5C, 0
    if rooted:
        at = place
    while not rooted and byte == 0x5E:
        parents, at = parents + 1, place
        byte, place = read_byte(data, at, end)
    count, at = read_segment_count(data, at, end)
    segments = []
    for _ in range(count):
        segment, at = read_segment(data, at, end)
        segments.append(segment)
    return Name(rooted, parents, tuple(segments), start), at


def read_segment_count(data, at, end):
    """How many segments stand in a name, and where they begin."""
    byte, place = read_byte(data, at, end)
    if byte == 0x00:
        return 0, place
    if byte == 0x2E:
        return 2, place
    if byte == 0x2F:
        count, behind = read_byte(data, place, end)
        if count == 0:
            raise Fault("E203", place)
        return count, behind
    return 1, at


def is_lone(name):
    """Whether a name is one segment without prefix, however it is spelt."""
    return not name.rooted and name.parents == 0 and len(name.segments) == 1


def read_string(data, at, end):
    """The bytes of a string up to its zero byte."""
    found = STRING_END.search(data, at, end)
    if found is None:
        raise Fault("E201", end)
    if data[found.start()] > 0x7F:
        raise Fault("E206", found.start())
    return data[at:found.start()], found.end()


def literal_value(term):
    """The value of an integer literal, or None for any other term."""
    fixed = {0x00: 0, 0x01: 1, 0xFF: 2**64 - 1}
    if term.code in fixed:
        return fixed[term.code]
    return term.parts[0] if term.code in LITERALS else None


class Reader:
    """Reads one module, or with an arity one body."""

    def __init__(self, data, arity=None, counts=None):
        self.data = data
        self.arity = arity
        self.is_module = arity is None
        self.own_names = set()
        self.counts = counts if counts is not None else Counter()

    def read_all(self, at, end):
        """The statements of the whole module or body, whose own names are known behind their definitions."""
        found = []
        while at < end:
            term, at = self.statement(at, end, 1)
            found.append(term)
            if term.code == NAME or term.code in CREATE_FIELDS:
                self.add_own_name(term)
        return found

    def add_own_name(self, term):
        """Keeps the name that a definition at the top of a body made."""
        name = term.parts[0] if term.code == NAME else term.parts[-1]
        if is_lone(name):
            self.own_names.add(name.segments[0])

    def first_code(self, at, end, depth):
        """The code of the operator here, or the byte that begins a name; the depth is asked with its first byte."""
        byte, place = read_byte(self.data, at, end)
        if depth > GREATEST_DEPTH:
            raise Fault("E205", at)
        if byte != 0x5B:
            return byte, place
        second, place = read_byte(self.data, place, end)
        return 0x5B00 | second, place

    def statement(self, at, end, depth):
        """One statement of a module's or a body's list."""
        code, place = self.first_code(at, end, depth)
        if self.is_module:
            self.check_module_statement(code, at)
        elif begins_name(code):
            return self.name_term(at, end, depth)
        elif not is_known(code):
            raise Fault("E204", at)
        term, place = self.operator(code, at, place, end, depth)
        if code == IF:
            return self.with_else(term, place, end, depth)
        return term, place

    @staticmethod
    def check_module_statement(code, at):
        """A module's list holds definitions alone."""
        if code in OPERATORS and OPERATORS[code].group == "N":
            return
        raise Fault("E209" if is_known(code) or begins_name(code) else "E204", at)

    def with_else(self, term, at, end, depth):
        """An If with the statements of its Else, which are one deeper than the If, or with None."""
        if at >= end or self.data[at] != ELSE:
            return term._replace(parts=term.parts + [None]), at
        self.counts["Else"] += 1
        package_end, place = read_package_end(self.data, at + 1, end)
        statements = self.statements(place, package_end, depth + 1)
        return Term(term.code, term.at, package_end, term.parts + [statements]), package_end

    def statements(self, at, end, depth):
        """A statement list that fills its package."""
        found = []
        while at < end:
            term, at = self.statement(at, end, depth)
            found.append(term)
        return found

    def term(self, at, end, depth):
        """A term: data, an expression, a local, an argument or a name with what it takes."""
        code, place = self.first_code(at, end, depth)
        if begins_name(code):
            return self.name_term(at, end, depth)
        if is_local_or_argument(code) or code in OPERATORS and OPERATORS[code].group in "DE":
            return self.operator(code, at, place, end, depth)
        raise Fault("E204", at)

    def name_term(self, at, end, depth):
        """A name where a term stands, and the terms that it takes."""
        name, place = read_name(self.data, at, end)
        parts = [name]
        for _ in range(self.taken_terms(name)):
            term, place = self.term(place, end, depth + 1)
            parts.append(term)
        self.counts["call" if len(parts) > 1 else "name"] += 1
        return Term(NAME_TERM, at, place, parts), place

    def taken_terms(self, name):
        """How many terms a name takes."""
        if self.is_module or is_lone(name) and name.segments[0] in self.own_names:
            return 0
        return self.arity(name)

    def operator(self, code, at, place, end, depth):
        """An operator and its operands, which meet end to end."""
        if is_local_or_argument(code):
            self.counts["local or argument"] += 1
            return Term(code, at, place, []), place
        parts = []
        for letter in OPERATORS[code].letters:
            if letter == "P":
                end, place = read_package_end(self.data, place, end)
                continue
            part, place = self.operand(letter, code, at, place, end, depth + 1)
            parts.append(part)
            if letter == "c":
                self.check_size(code, part, at, place, end)
        self.counts[OPERATORS[code].word] += 1
        return Term(code, at, place, parts), place

    @staticmethod
    def check_size(code, size, at, place, end):
        """A literal size has a limit, whatever stands in the elements behind it; a computed one has none."""
        value = literal_value(size)
        if value is None:
            return
        if code == BUFFER and max(value, end - place) > GREATEST_BUFFER:
            raise Fault("E208", at)
        if code == VAR_PACKAGE and value > GREATEST_PACKAGE:
            raise Fault("E208", at)

    def operand(self, letter, code, at, place, end, depth):
        """What one letter asks for."""
        if letter in NUMBER_BYTES:
            return read_number(self.data, place, end, NUMBER_BYTES[letter])
        if letter == "n":
            return read_name(self.data, place, end)
        if letter == "z":
            return read_string(self.data, place, end)
        if letter == "Y":
            return self.data[place:end], end
        if letter == "L":
            return self.statements(place, end, depth), end
        if letter == "K":
            return self.elements(place, end, depth), end
        if letter == "F":
            return self.field_list(place, end, depth), end
        if letter == "D":
            return self.data_operator(at, place, end, depth)
        if letter in "co":
            return self.asked(letter, at, place, end, depth)
        return {"t": self.term, "g": self.target, "s": self.supername, "m": self.simple_name}[letter](place, end, depth)

    def asked(self, letter, at, place, end, depth):
        """A term that in a module has to be a literal or a name."""
        if not self.is_module:
            return self.term(place, end, depth)
        code, behind = self.first_code(place, end, depth)
        if letter == "o" and begins_name(code):
            return self.name_term(place, end, depth)
        if letter == "c" and code in LITERALS:
            return self.operator(code, place, behind, end, depth)
        raise self.module_fault(code, at, place)

    @staticmethod
    def module_fault(code, at, place):
        """What is known but can't stand is the asking operator's fault, what is unknown its own."""
        if is_known(code) or begins_name(code):
            return Fault("E209", at)
        return Fault("E204", place)

    def data_operator(self, at, place, end, depth):
        """The data of a Name."""
        code, behind = self.first_code(place, end, depth)
        is_data = code in OPERATORS and OPERATORS[code].group == "D"
        if self.is_module and (not is_data or code == REVISION):
            raise self.module_fault(code, at, place)
        if not is_data:
            raise Fault("E204", place)
        return self.operator(code, place, behind, end, depth)

    def elements(self, at, end, depth):
        """The elements of a package up to its end; names among them take nothing."""
        found = []
        while at < end:
            code, place = self.first_code(at, end, depth)
            if begins_name(code):
                element, at = read_name(self.data, at, end)
            elif code in OPERATORS and OPERATORS[code].group == "D" and code != REVISION:
                element, at = self.operator(code, at, place, end, depth)
            else:
                raise Fault("E204", at)
            found.append(element)
        return found

    def target(self, at, end, depth):
        """A supername or none; none has no depth."""
        byte, place = read_byte(self.data, at, end)
        if byte == 0:
            return None, place
        return self.supername(at, end, depth)

    def supername(self, at, end, depth):
        """A name, a local, an argument, Debug, RefOf, DerefOf or Index."""
        code, place = self.first_code(at, end, depth)
        if begins_name(code):
            return read_name(self.data, at, end)
        if code == DEBUG:
            self.counts["Debug"] += 1
            return Term(code, at, place, []), place
        if is_local_or_argument(code) or code in SUPERNAME_OPERATORS:
            return self.operator(code, at, place, end, depth)
        raise Fault("E204", at)

    def simple_name(self, at, end, depth):
        """A name, a local or an argument."""
        code, place = self.first_code(at, end, depth)
        if begins_name(code):
            return read_name(self.data, at, end)
        if is_local_or_argument(code):
            return self.operator(code, at, place, end, depth)
        raise Fault("E204", at)

    def field_list(self, at, end, depth):
        """The items of a field list up to its end."""
        found = []
        while at < end:
            item, at = self.field_item(at, end, depth)
            self.counts["item " + item.what] += 1
            found.append(item)
        return found

    def field_item(self, at, end, depth):
        """One item: a field, bits to skip, an access, a connection, or an extended access."""
        byte = self.data[at]
        if is_lead(byte):
            segment, place = read_segment(self.data, at, end)
            bits, place = read_pkg_length(self.data, place, end)
            return FieldItem("field", at, segment, bits), place
        if byte == 0:
            bits, place = read_pkg_length(self.data, at + 1, end)
            return FieldItem("skip", at, None, bits), place
        if byte == 1:
            value, place = read_number(self.data, at + 1, end, 2)
            return FieldItem("access", at, value, 0), place
        if byte == 2:
            return self.connection(at, end, depth)
        if byte == 3:
            value, place = read_number(self.data, at + 1, end, 3)
            return FieldItem("extended", at, value, 0), place
        raise Fault("E203", at)

    def connection(self, at, end, depth):
        """A connection: a name, or a Buffer one deeper than the list's operator."""
        byte, place = read_byte(self.data, at + 1, end)
        if byte != BUFFER:
            name, place = read_name(self.data, at + 1, end)
            return FieldItem("connection", at, name, 0), place
        code, place = self.first_code(at + 1, end, depth)
        term, place = self.operator(code, at + 1, place, end, depth)
        return FieldItem("buffer connection", at, term, 0), place


def read_module(data, at, counts=None):
    """The definitions of a module from a place to the end."""
    return Reader(data, None, counts).read_all(at, len(data))


def read_body(data, at, end, arity, counts=None):
    """The statements of a body; the arity tells how many terms a name takes that the body didn't make."""
    return Reader(data, arity, counts).read_all(at, end)
