#!/usr/bin/env python3
"""What operators give, here, in ACPICA's acpiexec and by the specification's text: operators.py [ACPICHECK].

Each row is a body in ASL and what it gives: each operator over integers with each pair of the values 0, 1, 2, counts about both
widths, the sign bit and its neighbours, and the greatest, at both widths; operators over buffers and strings, empty ones and such of
65,536 bytes among them; fields of buffers; stores into names and into bytes of buffers; loops, calls, CondRefOf and `_OSI`. What a
row gives is worked out here from the text of ACPI 6.5, 19.6, as the lines of `JOINED` and `MADE` and the functions beside the rows
say it. Rows in which the profile and ACPICA differ by choice are those of `own_rows`, and are asked of acpicheck alone.

`iasl` and `acpiexec` are of Debian's acpica-tools (apt-get install acpica-tools).
"""
import itertools
import re
import string
import subprocess
import sys
import tempfile
from pathlib import Path

ACPICHECK = Path(__file__).resolve().parent.parent / "crates/acpicheck/out/acpicheck"
MOST_BYTES = 65_536
DIGITS = string.digits + string.ascii_uppercase


def truth(holds, greatest):
    return greatest if holds else 0


def bit_of(number, first):
    """The number of a bit that is set, counted from 1: the first from the top or from the bottom, and 0 where none is."""
    bits = [n for n in range(64) if number >> n & 1]
    return 0 if not bits else (bits[-1] if first == "left" else bits[0]) + 1


# an operator of two integers, and what it gives before the result is cut to the width
JOINED = {
    "Add": lambda a, b, m: a + b,
    "Subtract": lambda a, b, m: a - b,
    "Multiply": lambda a, b, m: a * b,
    "And": lambda a, b, m: a & b,
    "NAnd": lambda a, b, m: ~(a & b),
    "Or": lambda a, b, m: a | b,
    "NOr": lambda a, b, m: ~(a | b),
    "XOr": lambda a, b, m: a ^ b,
    "ShiftLeft": lambda a, b, m: a << b if b < 64 else 0,
    "ShiftRight": lambda a, b, m: a >> b if b < 64 else 0,
    "LAnd": lambda a, b, m: truth(a and b, m),
    "LOr": lambda a, b, m: truth(a or b, m),
    "LEqual": lambda a, b, m: truth(a == b, m),
    "LGreater": lambda a, b, m: truth(a > b, m),
    "LLess": lambda a, b, m: truth(a < b, m),
    # of these `iasl` makes a LNot of the three before
    "LNotEqual": lambda a, b, m: truth(a != b, m),
    "LLessEqual": lambda a, b, m: truth(a <= b, m),
    "LGreaterEqual": lambda a, b, m: truth(a >= b, m),
}
# where the second is no zero
DIVIDED = {"Mod": lambda a, b: a % b, "Divide": lambda a, b: a // b}
# an operator of one
MADE = {
    "Not": lambda a, m: ~a,
    "FindSetLeftBit": lambda a, m: bit_of(a, "left"),
    "FindSetRightBit": lambda a, m: bit_of(a, "right"),
    "LNot": lambda a, m: truth(a == 0, m),
    "ToInteger": lambda a, m: a,
}


def values(width):
    top = 2**width - 1
    sign = 2 ** (width - 1)
    return sorted({0, 1, 2, 31, 32, 33, 63, 64, 65, sign - 1, sign, sign + 1, top - 1, top})


def integer_rows(width):
    top = 2**width - 1
    for a in values(width):
        for b in values(width):
            begin = f"Store ({a:#x}, Local0) Store ({b:#x}, Local1) "
            for name, gives in JOINED.items():
                yield f"{begin}Return ({name} (Local0, Local1))", gives(a, b, top) & top
            if b:
                yield f"{begin}Return (Mod (Local0, Local1))", a % b
                yield f"{begin}Return (Divide (Local0, Local1, Local2, Local3))", a // b
                yield f"{begin}Divide (Local0, Local1, Local2, Local3) Return (Local2)", a % b
        begin = f"Store ({a:#x}, Local0) "
        for name, gives in MADE.items():
            yield f"{begin}Return ({name} (Local0))", gives(a, top) & top
        yield f"{begin}Return (Increment (Local0))", (a + 1) & top
        yield f"{begin}Decrement (Local0) Return (Local0)", (a - 1) & top
        yield f"{begin}Return (ToBuffer (Local0))", a.to_bytes(width // 8, "little")


def bytes_text(these):
    return "Buffer () {" + ", ".join(map(str, these)) + "}" if these else "Buffer (0) {}"


def data_rows(width):
    top = 2**width - 1
    size = width // 8
    for these in (bytes([7]), bytes(range(1, size)), bytes(range(1, size + 1)), bytes(range(1, 2 * size + 1))):
        yield f"Return (ToInteger ({bytes_text(these)}))", int.from_bytes(these[:size], "little")
        yield f"Store ({bytes_text(these)}, Local0) Return (SizeOf (Local0))", len(these)
        for i in range(len(these)):
            yield f"Store ({bytes_text(these)}, Local0) Return (DerefOf (Index (Local0, {i})))", these[i]
        for other in (b"", these, these + b"\0", these[:-1]):
            yield f"Store ({bytes_text(these)}, Local0) Store ({bytes_text(other)}, Local1) Return (LEqual (Local0, Local1))", truth(these == other, top)
            yield f"Return (Concatenate ({bytes_text(these)}, {bytes_text(other)}))", these + other
    for one in ("", "A", "AB", "ABCD"):
        yield f'Store ("{one}", Local0) Return (SizeOf (Local0))', len(one)
        for two in ("", "A", "AC", "ABCDE"):
            yield f'Store ("{one}", Local0) Store ("{two}", Local1) Return (LEqual (Local0, Local1))', truth(one == two, top)
            yield f'Return (Concatenate ("{one}", "{two}"))', one + two
    yield "Return (SizeOf (LONG))", MOST_BYTES
    yield f"Return (DerefOf (Index (LONG, {MOST_BYTES - 1})))", 0
    yield "Return (DerefOf (Index (LONG, 1)))", 2
    yield "Return (ToInteger (LONG))", 0x0201
    yield "Store (Concatenate (LONG, Buffer (0) {}), Local0) Return (SizeOf (Local0))", MOST_BYTES
    yield "Store (LONG, Local0) Return (LEqual (Local0, LONG))", top


# the buffer of which fields are made, an integer that is stored into them, and how many bits of an index the operators of one size count
HELD = bytes(range(0x71, 0x85))
STORED = 0x9ABC_DEF1
# a text that `acpiexec` knows in `_OSI` by itself, and acpicheck by an option
KNOWN = "Windows 2001"
SIZES = {"Bit": (1, 1), "Byte": (8, 8), "Word": (16, 8), "DWord": (32, 8), "QWord": (64, 8)}


def field_rows(width):
    """Fields of a buffer of twenty bytes, by the bits of the number that its bytes make, the lowest first."""
    counted = [(f"CreateField (HELD, {first}, {bits}, PART)", first, bits) for first, bits in
               itertools.product((0, 1, 5, 8, 13, 31, 64, 71), (1, 3, 8, 12, 32, 33, 64, 65, 70))]
    sized = [(f"Create{size}Field (HELD, {index}, PART)", index * unit, bits) for size, (bits, unit) in SIZES.items()
             for index in (0, 1, 7, 12)]
    number = int.from_bytes(HELD, "little")
    for form, first, bits in counted + sized:
        ones = 2**bits - 1
        made = f"Name (HELD, {bytes_text(HELD)}) {form} "
        field = number >> first & ones
        # ACPICA reads what CreateField makes as a buffer however few its bits are, the profile by the width of integers
        read = "ToInteger (PART)" if bits <= width else "PART"
        yield made + f"Return ({read})", field if bits <= width else field.to_bytes((bits + 7) // 8, "little")
        left = number & ~(ones << first) | (STORED & ones) << first
        yield made + f"Store (0x{STORED:X}, PART) Return (HELD)", left.to_bytes(len(HELD), "little")


def with_byte(these, i, value):
    """Bytes, of which one is the lowest eight bits of a value."""
    return these[:i] + bytes([value % 256]) + these[i + 1:]


def written_rows(width):
    """Stores into an Index: a byte of the buffer that a name holds."""
    for value in values(width):
        for i in (0, 1, len(HELD) - 1):
            made = f"Name (HELD, {bytes_text(HELD)}) Store ({i}, Local0) "
            yield f"{made}Store ({value:#x}, Index (HELD, Local0)) Return (HELD)", with_byte(HELD, i, value)
            yield f"{made}Add ({value:#x}, 5, Index (HELD, Local0)) Return (HELD)", with_byte(HELD, i, value + 5)
            twice = with_byte(with_byte(HELD, i, value), 1, value + 1)
            yield f"{made}Store ({value:#x}, Index (HELD, Local0)) Add ({value:#x}, 1, Index (HELD, 1)) Return (HELD)", twice
    yield f"Store (0xA5, Index (WIDE, {MOST_BYTES - 1})) Return (DerefOf (Index (WIDE, {MOST_BYTES - 1})))", 0xA5


def named_rows(width):
    """Stores into names that hold a value of the same kind and length."""
    top = 2**width - 1
    for value in values(width):
        for made, name in (("Name (HELD, 7) ", "HELD"), ("", "INT0")):
            yield f"{made}Store ({value:#x}, {name}) Return ({name})", value
            yield f"{made}Store ({value:#x}, {name}) Increment ({name}) Return ({name})", (value + 1) & top
            yield f"{made}Store ({value:#x}, {name}) Subtract (5, {name}, {name}) Return ({name})", (5 - value) & top
    for these in (b"\x09", bytes(range(9, 13)), bytes(range(200, 220))):
        made = f"Name (HELD, {bytes_text(bytes(len(these)))}) "
        yield f"{made}Store ({bytes_text(these)}, HELD) Return (HELD)", these
        yield f"{made}ToBuffer ({bytes_text(these)}, HELD) Return (HELD)", these
        yield f"{made}Store ({bytes_text(these)}, HELD) Store (HELD, Local0) Store (1, Index (HELD, 0)) Return (Local0)", these
    for text in ("A", "XY", "a text of 24 characters."):
        yield f'Name (HELD, "{"-" * len(text)}") Store ("{text}", HELD) Return (HELD)', text


def multiples_passed_over(count, by):
    """The sum of the numbers from 1 to a count that are no multiple."""
    return sum(n for n in range(1, count + 1) if n % by)


def loop_rows():
    """Loops, by how many turns they make and which of them are left early."""
    turn = "While (LLess (Local0, {0})) {{ Increment (Local0) "
    for count in (0, 1, 2, 3, 7, 40):
        begin = "Store (0, Local0) Store (0, Local1) "
        until = turn.format(count)
        yield f"{begin}{until}Add (Local1, Local0, Local1) }} Return (Local1)", sum(range(1, count + 1))
        yield f"{begin}While (One) {{ If (LEqual (Local0, {count})) {{ Break }} Increment (Local0) }} Return (Local0)", count
        yield f"{begin}{until}If (LEqual (Local0, 3)) {{ Break }} }} Return (Local0)", min(count, 3)
        for by in (1, 2, 3):
            passed = f"If (LEqual (Mod (Local0, {by}), 0)) {{ Continue }} Add (Local1, Local0, Local1)"
            yield f"{begin}{until}{passed} }} Return (Local1)", multiples_passed_over(count, by)
        # a Break and a Continue are of the inner loop: so many turns of it as the number of the outer one's, of which each counts
        inner = "Store (0, Local2) While (One) { If (LEqual (Local2, Local0)) { Break } Increment (Local2) Increment (Local1) Continue }"
        yield f"{begin}{until}{inner} }} Return (Local1)", sum(range(1, count + 1))
        yield f"{begin}{until}If (LEqual (Local0, 5)) {{ Return (77) }} }} Return (Local0)", 77 if count >= 5 else count


def switch_rows():
    """A Switch, of which `iasl` makes a While with a Break behind its first turn."""
    for number in range(5):
        cases = "Case (1) { Store (11, Local1) } Case (3) { Store (33, Local1) } Default { Store (99, Local1) }"
        wanted = {1: 11, 3: 33}.get(number, 99)
        yield f"Store ({number}, Local0) Switch (ToInteger (Local0)) {{ {cases} }} Return (Local1)", wanted


# the methods that rows call
CALLED = """
Method (PASS, 1) { Return (Arg0) }
Method (LESS, 2) { Return (Subtract (Arg0, Arg1)) }
Method (LAST, 7) { Return (Arg6) }
Method (OVER, 1) { Store (7, Arg0) Store (8, Local0) Return (Arg0) }
Method (FACT, 1) { If (LLess (Arg0, 2)) { Return (1) } Return (Multiply (Arg0, FACT (Subtract (Arg0, 1)))) }
Method (ONCE, 1) { Name (OWN0, 5) Add (OWN0, Arg0, OWN0) Return (OWN0) }
Method (SOME, 1) { If (Arg0) { Return (1) } }
Method (DEEP, 1) { If (LEqual (Arg0, 0)) { Return (0) } Return (DEEP (Subtract (Arg0, 1))) }
"""


def factorial(number):
    return 1 if number < 2 else number * factorial(number - 1)


def call_rows(width):
    top = 2**width - 1
    for a in values(width):
        begin = f"Store ({a:#x}, Local0) "
        yield f"{begin}Return (PASS (Local0))", a
        yield f"{begin}Return (LAST (1, 2, 3, 4, 5, 6, Local0))", a
        # from the first argument to the last, each by its value then
        yield f"{begin}Return (LESS (Increment (Local0), Increment (Local0)))", (a + 1 - (a + 2)) & top
        yield f"{begin}Return (Add (LESS (Local0, 3), PASS (Local0)))", (a - 3 + a) & top
        # the callee's locals and arguments are its own
        yield f"{begin}Return (OVER (Local0))", 7
        yield f"{begin}OVER (Local0) Return (Local0)", a
        # and so are its own names, made anew by each call
        yield f"{begin}ONCE (Local0) Return (ONCE (Local0))", (5 + a) & top
        yield f"{begin}Return (LNot (SOME (Local0)))" if a else f"{begin}Return (Local0)", 0
    for number in (0, 1, 2, 5, 12, 20, 34):
        yield f"Return (FACT ({number}))", factorial(number) & top
    yield "Return (DEEP (62))", 0


def reference_rows(width):
    """CondRefOf: whether a name names something there."""
    top = 2**width - 1
    for name, there in (("LONG", 1), ("\\LONG", 1), ("PASS", 1), ("\\_SB", 1), ("MISS", 0), ("\\_SB.LONG", 0), ("\\_SB.MISS", 0)):
        yield f"Return (CondRefOf ({name}))", truth(there, top)
        yield f"If (CondRefOf ({name})) {{ Return (5) }} Return (6)", 5 if there else 6
    yield "Name (OWN1, 1) Return (CondRefOf (OWN1))", top


def interface_rows():
    """`_OSI`, of a system that knows the text `KNOWN`."""
    for text in ("", KNOWN + " ", KNOWN[:-1], KNOWN.lower(), "No Such System"):
        yield f'Return (_OSI ("{text}"))', 0
    yield f'Store ("{KNOWN}", Local0) If (_OSI (Local0)) {{ Return (5) }} Return (6)', 5


# what acpicheck alone is asked: the body, and the line that it prints, by the places of the DSDT that `own_rows` makes
def own_rows(width):
    yield "Return (SizeOf (NONE))", 0
    yield "Return (Concatenate (NONE, NONE))", b""
    yield "Store (ToInteger (NONE), Local0)", "A4 Index"
    yield "Return (Concatenate (LONG, Buffer (1) {}))", "A6 Outside"
    yield "Return (DerefOf (Index (NONE, Zero)))", "A4 Index"
    yield f"Return (DerefOf (Index (LONG, {MOST_BYTES})))", "A4 Index"
    yield "Store (Zero, Local1) Return (Mod (One, Local1))", "A3 Divisor"
    yield "Store (Zero, Local1) Return (Divide (One, Local1))", "A3 Divisor"
    yield 'Store ("1", Local0) Return (Add (Local0, One))', "A2 Kind"
    yield 'Store ("1", Local0) Return (ToInteger (Local0))', "A2 Kind"
    yield "If (Zero) { Store (One, Local0) } Return (Add (Local0, One))", "A1 Unset"
    yield f"Store (One, Index (LONG, {MOST_BYTES}))", "A4 Index"
    yield "Store (One, Index (NONE, Zero))", "A4 Index"
    yield "Name (HELD, Buffer (2) {}) Store (Buffer (3) {}, HELD)", "A2 Kind"
    yield 'Name (HELD, "AB") Store ("ABC", HELD)', "A2 Kind"
    yield 'Name (HELD, 1) Store ("1", HELD)', "A2 Kind"
    yield "Name (HELD, Package (1) { 2 }) Store (HELD, HELD)", "A2 Kind"
    yield "Return (CondRefOf (LONG, Local0))", "A6 Outside"
    yield "Return (Add (SOME (0), 1))", "A8 NoValue"
    yield "Return (DEEP (63))", "A9 Depth"
    yield "Store (1, Local0) Return (_OSI (Local0))", "A2 Kind"
    # at 32 bits ACPICA answers Ones of 64
    yield f'Return (_OSI ("{KNOWN}"))', 2**width - 1
    # of a local that is read before the Increment, ACPICA passes what it holds behind it
    yield "Store (8, Local0) Return (LESS (Increment (Local0), Local0))", 0
    yield "Store (8, Local0) Return (LESS (Local0, Increment (Local0)))", 2**width - 1


def name_numbered(n):
    """The name of the method of a row."""
    return "T" + "".join(DIGITS[n // 36**place % 36] for place in (2, 1, 0))


def source(width, bodies):
    methods = "".join(f"Method ({name_numbered(n)}) {{ {body} }}\n" for n, body in enumerate(bodies))
    return f"""
DefinitionBlock ("", "DSDT", {2 if width == 64 else 1}, "ACPICK", "OPERATOR", 1) {{
Name (LONG, Buffer ({MOST_BYTES}) {{ 1, 2 }})
Name (WIDE, Buffer ({MOST_BYTES}) {{}})
Name (NONE, Buffer (0) {{}})
Name (INT0, 3)
{CALLED}{methods}}}
"""


def told_here(said):
    found = re.search(r'^result (?:0x([0-9a-f]+)|buffer ([0-9a-f]+|-)|string "(.*)")$', said, re.M)
    if found:
        if found[1]:
            return int(found[1], 16)
        return found[3] if found[2] is None else bytes.fromhex(found[2].replace("-", ""))
    found = re.search(r"^error \d+ \d+ (.*)$", said, re.M)
    return found[1] if found else said.strip()[-60:]


def ours(program, table, method):
    command = [program, "eval", "--plain", "100000", "--osi", KNOWN, "--method", "\\" + method, table]
    return told_here(subprocess.run(command, capture_output=True, text=True, check=False).stdout)


def told_there(said):
    found = re.search(r"\[Integer\] = ([0-9A-F]+)", said)
    if found:
        return int(found[1], 16)
    found = re.search(r'\[String\] Length [0-9A-F]+ = "(.*)"', said)
    if found:
        return found[1]
    found = re.search(r"\[Buffer\] Length ([0-9A-F]+) =(.*)", said, re.S)
    if not found:
        return said.strip()[-60:]
    rows = re.findall(r"^ *(?:[0-9A-F]{4}:)? *((?:[0-9A-F]{2} ){1,16})", found[2], re.M)
    return bytes.fromhex("".join(rows))[:int(found[1], 16)]


def theirs(table, count):
    asked = "".join(f"execute {name_numbered(n)}\n" for n in range(count)) + "quit\n"
    said = subprocess.run(["acpiexec", "-di", table], input=asked, capture_output=True, text=True, check=False).stdout
    return {answer[:4]: told_there(answer) for answer in re.split(r"Evaluating \\", said)[1:]}


def compiled(folder, width, bodies):
    asl = Path(folder) / f"rows{width}.asl"
    asl.write_text(source(width, bodies))
    subprocess.run(["iasl", "-oa", "-p", f"{folder}/rows{width}", asl], capture_output=True, check=True)
    return f"{folder}/rows{width}.aml"


def compare(program, folder, width):
    """The numbers of rows and of differences."""
    rows = [*integer_rows(width), *data_rows(width), *field_rows(width), *written_rows(width), *named_rows(width), *loop_rows(),
            *switch_rows(), *call_rows(width), *reference_rows(width), *interface_rows()]
    own = list(own_rows(width))
    table = compiled(folder, width, [body for body, _ in rows + own])
    there = theirs(table, len(rows))
    differences = 0
    for n, (body, wanted) in enumerate(rows + own):
        method = name_numbered(n)
        answers = {"acpicheck": ours(program, table, method)} | ({"acpiexec": there.get(method)} if n < len(rows) else {})
        for who, answer in answers.items():
            if answer != wanted:
                differences += 1
                print(f"{width} bits: {body}: wanted {wanted!r}, {who} gives {answer!r}")
    return len(rows) + len(own), differences


def main(words):
    program = words[0] if words else str(ACPICHECK)
    with tempfile.TemporaryDirectory() as folder:
        counts = [compare(program, folder, width) for width in (64, 32)]
    rows, differences = (sum(column) for column in zip(*counts))
    print(f"{rows} rows, {differences} differences")
    return differences != 0


if __name__ == "__main__":
    sys.exit(main(sys.argv[1:]))
