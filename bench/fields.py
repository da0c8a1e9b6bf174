#!/usr/bin/env python3
"""Prints the rows of crates/acpicheck/rows/field_bits.rows: reads and writes of fields, worked out bit by bit.

fields.py rows        a row for each case: a method that stores into a field and returns it, its steps, and its events
fields.py limit       the row of crates/aml_fields_tests/src/fields.rt, whose limit ends within the write
fields.py sums STEP   the rows of crates/aml_fields_tests/src/field_sums.rt at its STEP, by four processes; with 1 some minutes

A field of at most 64 bits is given the integer VALUE, and one of more the bytes 37 i + 11 modulo 256. Of the row whose
limit ends within the write is told, its numbers in hex: the events of the write, each `rADDRESS=VALUE` or
`wADDRESS=VALUE`; what a read without limit gives then; and in decimal the numbers of events of one read and of one write.

A sum takes in each field of 1 to 130 bits at each STEP-th first bit from 0 to 130, read and written as an integer where it has no
more than 64 bits, and as bytes; each event's kind, address, width and value, each value and each number of events. There
the world answers a unit's read by its address alone.

Nothing here has a mask or a shift over more than one bit: a unit is a list of its bits.
"""
import multiprocessing
import re
import sys

import rows

PLACE = 0x10
LENGTH = 280
VALUE = 0xFEDCBA9876543211
NO_LIMIT = 1000
LETTERS = 118


def first_bytes():
    return [(73 * i + 29) % 256 for i in range(LENGTH)]


def bits_of(number, count):
    return [number // 2**i % 2 for i in range(count)]


def number_of(bits):
    return sum(bit * 2**i for i, bit in enumerate(bits))


class World:
    """Bytes as lists of bits, the events of their accesses, and how many more may come."""

    def __init__(self, limit):
        self.bits = [bit for byte in first_bytes() for bit in bits_of(byte, 8)]
        self.log, self.left = [], limit

    def event(self):
        if self.left == 0:
            return False
        self.left -= 1
        return True

    def read(self, unit, width):
        if not self.event():
            return None
        found = self.bits[unit * width:(unit + 1) * width]
        self.log.append(f"r{PLACE + unit * (width // 8):x}={number_of(found):x}")
        return found

    def write(self, unit, width, bits):
        if not self.event():
            return False
        self.log.append(f"w{PLACE + unit * (width // 8):x}={number_of(bits):x}")
        self.bits[unit * width:(unit + 1) * width] = bits
        return True


def touched(width, at, count):
    return sorted({bit // width for bit in range(at, at + count)})


def write(world, width, others, at, count, value):
    """Whether all events of the write were within the limit."""
    for unit in touched(width, at, count):
        places = range(unit * width, (unit + 1) * width)
        beside = [place for place in places if not at <= place < at + count]
        known = [{"Ones": 1}.get(others, 0)] * width
        if beside and others == "Preserve":
            known = world.read(unit, width)
            if known is None:
                return False
        mixed = [value[place - at] if at <= place < at + count else known[place - unit * width] for place in places]
        if not world.write(unit, width, mixed):
            return False
    return True


def given(count):
    if count <= 64:
        return bits_of(VALUE, count)
    return [bit for i in range((count + 7) // 8) for bit in bits_of((37 * i + 11) % 256, 8)][:count]


def read(world, width, at, count):
    answers = {unit: world.read(unit, width) for unit in touched(width, at, count)}
    return [answers[bit // width][bit % width] for bit in range(at, at + count)]


def bytes_from(bits):
    """The bytes that bits are made of, with zeros behind the last one."""
    padded = bits + [0] * (-len(bits) % 8)
    return bytes(number_of(padded[first:first + 8]) for first in range(0, len(padded), 8))


def limit_row(width, others, at, count, limit):
    """What is told of a field whose write ends at a limit."""
    world, whole = World(limit), World(NO_LIMIT)
    write(world, width, others, at, count, given(count))
    log, world.left, world.log = list(world.log), NO_LIMIT, []
    value = number_of(read(world, width, at, count))
    write(whole, width, others, at, count, given(count))
    return f"{' '.join(log)} {value:x} {len(world.log)} {len(whole.log)}"


def number(count):
    """A number as a field list has it (ACPI 6.5, 20.2.4)."""
    return [count] if count < 64 else [0x40 | count % 16, count // 16]


def hex_bytes(found):
    return " ".join(f"{byte:02X}" for byte in found)


def literal(count):
    """The term of what a field of so many bits is given."""
    if count <= 64:
        return hex_bytes([0x0E, *VALUE.to_bytes(8, "little")])
    found = bytes_from(given(-count // 8 * -8))
    size = [0x0A, len(found)] if len(found) < 256 else [0x0B, *len(found).to_bytes(2, "little")]
    return hex_bytes([0x11, *rows.package_length(len(size) + len(found)), *size, *found])


def event_line(event, width):
    """A line of the program, of an event as the world has it."""
    kind, address, value = re.fullmatch(r"([rw])([0-9a-f]+)=([0-9a-f]+)", event).groups()
    return f"{'read' if kind == 'r' else 'write'} mem 0x{address} {width} 0x{value}"


def wrapped(line):
    """The lines of a row's line that is long; a word that is longer stands alone."""
    while len(line) > LETTERS:
        cut = line.rfind(" ", 5, LETTERS - 1)
        cut = cut if cut > 0 else line.find(" ", LETTERS)
        if cut < 0:
            break
        yield f"{line[:cut]} \\"
        line = f"    {line[cut + 1:]}"
    yield line


def program_row(width, name, others, at, count):
    """The lines of the row in which a method stores into a field and returns it."""
    world = World(NO_LIMIT)
    write(world, width, others, at, count, given(count))
    bits = read(world, width, at, count)
    result = f"0x{number_of(bits):x}" if count <= 64 else f"buffer {bytes_from(bits).hex()}"
    flags = {8: 1, 16: 2, 32: 3, 64: 4}[width] + {"Preserve": 0, "Ones": 0x20, "Zeros": 0x40}[others]
    before = hex_bytes([0, *number(at)]) + " " if at else ""
    inner = 4 + 1 + (1 + len(number(at)) if at else 0) + 4 + len(number(count))
    yield f"# {name}Acc, {others}, {count} bits from bit {at} on"
    yield (f'definitions 5B 80 "RGN0" 00 0A {PLACE:02X} 0B {hex_bytes(LENGTH.to_bytes(2, "little"))}  5B 81 '
           f'{hex_bytes(rows.package_length(inner))} "RGN0" {flags:02X} {before}"FLD0" {hex_bytes(number(count))}')
    lines = "; ".join([event_line(event, width) for event in world.log] + [f"result {result}"])
    body = f'70 {literal(count)} "FLD0" A4 "FLD0"'
    yield from wrapped(f"{body} | {5 + len(world.log)} | --regs registers.regs | {lines}")


def cases():
    widths = {8: "Byte", 16: "Word", 32: "DWord", 64: "QWord"}
    for width, name in widths.items():
        yield width, name, "Preserve", 4, 8
        yield width, name, "Ones", width - 1, 2
        yield width, name, "Zeros", 3, width
    yield 8, "Byte", "Preserve", 1, 65
    yield 64, "QWord", "Preserve", 130, 130
    yield 8, "Byte", "Preserve", 5, 2048
    yield 64, "QWord", "Ones", 70, 2048


SPREAD = 0x9E3779B97F4A7C15
WIDTHS = {"Byte": 8, "Word": 16, "DWord": 32, "QWord": 64}


def mixed(total, part):
    return (total * 0x100000001B3 + part) % 2**64


class Answering:
    """Answers a unit's read by the highest bits of its address, spread; keeps the sum of all events."""

    def __init__(self):
        self.sum, self.made = 0, 0

    def event(self, kind, address, width, value):
        for part in (kind, address, width, value):
            self.sum = mixed(self.sum, part)
        self.made += 1

    def read(self, unit, width):
        address = PLACE + unit * (width // 8)
        spread = bits_of(address * SPREAD % 2**64, 64)[64 - width:]
        self.event(1, address, width, number_of(spread))
        return spread

    def write(self, unit, width, bits):
        self.event(2, PLACE + unit * (width // 8), width, number_of(bits))
        return True


def field_sum(width, others, at, count):
    world, integer = Answering(), 0
    if count <= 64:
        integer = number_of(read(world, width, at, count))
        write(world, width, others, at, count, bits_of(VALUE, 64))
    before = world.made
    bits = read(world, width, at, count)
    reads, bits = world.made - before, bits + [0] * (-count % 8)
    wide = 0
    for first in range(0, len(bits), 8):
        wide = mixed(wide, number_of(bits[first:first + 8]))
    before = world.made
    write(world, width, others, at, count, [bit for i in range((count + 7) // 8) for bit in bits_of((37 * i + 11) % 256, 8)])
    wide = mixed(mixed(wide, reads), world.made - before)
    return mixed(mixed(integer, wide), world.sum)


def sum_row(row):
    name, others, step = row
    total = 0
    for at in range(0, 131, step):
        place = 0
        for count in range(1, 131):
            place = mixed(place, field_sum(WIDTHS[name], others, at, count))
        total = mixed(total, place)
    digits = f"{total:016x}"
    return f"    ({name}, {others}, 0x{'_'.join(digits[i:i + 4] for i in range(0, 16, 4))}),"


def print_rows():
    text = "".join(f"{byte:02x}" for byte in first_bytes())
    parts = " ".join(f'"{text[first:first + 70]}"' for first in range(0, len(text), 70))
    print("\n".join(wrapped(f'file registers.regs "mem {PLACE:x} " {parts}')))
    for case in cases():
        print("\n" + "\n".join(program_row(*case)))


def main(words):
    if words == ["rows"]:
        print_rows()
    elif words == ["limit"]:
        print(limit_row(32, "Preserve", 5, 64, 3))
    elif len(words) == 2 and words[0] == "sums":
        with multiprocessing.Pool(4) as pool:
            sums = [(name, others, int(words[1])) for name in WIDTHS for others in ("Preserve", "Ones", "Zeros")]
            print("\n".join(pool.map(sum_row, sums, 1)))
    else:
        print(__doc__, end="", file=sys.stderr)
        return 2
    return 0


if __name__ == "__main__":
    sys.exit(main(sys.argv[1:]))
