#!/usr/bin/env python3
"""Runs methods that `verify` accepts: none may err, and each must end within the steps of its verdict.

    python3 bench/accepted.py [--program PATH] [--bodies N] [--seed S] [--keep FOLDER]

A table has names of each kind, regions with fields, fields of buffers, mutexes, and methods that are made at random
(bench/terms.py) and call each other. Every second table is sure: each of its methods is written so that it must be
accepted. In the others some dare more than is known. Beside each stands a table in which a few operators and literals
of the first are others: of that much is refused, and what is accepted was not written to be. `verify` judges all, with
the kinds of arguments that the methods were written for. Each accepted method is evaluated three times by
`eval --plain` with just its own steps, over registers of all zeros, of all ones and of made bytes, with arguments that
are least, greatest and made; and then by `eval` without `--plain`, which evaluates it straight from its bytes.

A run is a failure where its last line is `error` or `out of steps`, or its status is not 0, or where the lines without
`--plain` are not the same; a refusal in a sure table is one; and where `verify` itself ends otherwise than with 0 or 3.
A failure is told with the seed and the number of its table, and kept in FOLDER, if one is given. Methods of more than
200,000 steps are judged and not run. N accepted bodies are wanted, 10,000 if it is not given; S is 1, and tables are
numbered from 0. Behind all stands how often each operator stood in a method that was accepted as it was written.
"""
import argparse
import os
import random
import subprocess
import sys
import tempfile
from collections import Counter
from concurrent.futures import ProcessPoolExecutor

import rows
import terms

MOST_STEPS = 200_000
SECONDS = 60
WORKERS = 4
METHODS = 6
DARING = 0.03
TABLES = 8
REGISTERS = ["zeros", "ones", "made"]
SPACES = {"mem": (0, 0x1000, 64), "io": (1, 0x60, 64)}
# Operators of the same operands, and literals: each may stand for another of its row.
ALIKE = [bytes([0x72, 0x74, 0x77, 0x79, 0x7A, 0x7B, 0x7C, 0x7D, 0x7E, 0x7F, 0x85, 0x73]),
         bytes([0x80, 0x81, 0x82, 0x96, 0x99]), bytes([0x90, 0x91, 0x93, 0x94, 0x95]), bytes([0x75, 0x76, 0x87]),
         bytes([0xA3, 0xA5, 0x9F, 0xCC, 0x00, 0x01, 0xFF]), bytes(range(0x60, 0x6F)), bytes([0x00, 0x01, 0xFF])]


def field_list(chance, region, prefix):
    """A Field of a region of 64 bytes, its names with their bits, and the kinds by their bits."""
    access = chance.choice([0, 1, 2, 3, 4])
    flags = access | chance.choice([0, 0x20, 0x40]) | chance.choice([0, 0x10])
    found, bits, names = b"", 0, {}
    for number in range(5):
        skipped, size = chance.choice([0, 0, 3, 17]), chance.choice([1, 4, 8, 13, 16, 32, 33, 64, 65, 72])
        if bits + skipped + size > 500:
            break
        name = prefix + b"%02d" % number
        found += (b"\x00" + field_length(skipped) if skipped else b"") + name + field_length(size)
        bits += skipped + size
        names[name] = size
    return terms.package([0x5B, 0x81], region + bytes([flags]) + found), names


def field_length(bits):
    """A number of bits as a field list has it."""
    if bits < 64:
        return bytes([bits])
    return bytes([0x40 | bits & 15, bits >> 4])


def read_as(bits, width):
    """The kind as which a field of so many bits is read."""
    return ("int", (1 << bits) - 1) if bits <= width else ("buf", (bits + 7) // 8)


def data_names(chance, width):
    """Definitions of names of data, and their kinds."""
    greatest = (1 << width) - 1
    elements = (("int", 3), ("buf", 4), ("str", 3), "name", ("pkg", (("int", 1), ("int", 2))), "unset")
    kinds = {b"INT0": ("int", greatest), b"INT1": ("int", greatest), b"BUF0": ("buf", 16), b"BUF1": ("buf", 4),
             b"BUF9": ("buf", 9), b"BUFE": ("buf", 0), b"STR0": ("str", 3), b"STRE": ("str", 0),
             b"PKG0": ("pkg", (("int", 3), ("int", 9))), b"PKG1": ("pkg", elements)}
    found = b""
    for name, kind in kinds.items():
        found += b"\x08" + name
        if kind[0] == "int":
            found += terms.literal(chance.randint(0, greatest))
        elif kind[0] == "buf":
            found += terms.package([0x11], terms.literal(kind[1]) + chance.randbytes(chance.randint(0, kind[1])))
        elif kind[0] == "str":
            found += b"\x0D" + bytes(chance.randint(1, 127) for _ in range(kind[1])) + b"\x00"
        else:
            found += terms.package_literal(chance, kind[1])
    return found, kinds


def reached_fields(width):
    """An index field and a bank field over SystemIO, and their kinds."""
    found = b"\x5B\x80RGN2\x01\x0A\x70\x0A\x08" + terms.package([0x5B, 0x81], b"RGN2\x01IDX0\x08DAT0\x08BNK0\x04")
    found += terms.package([0x5B, 0x86], b"IDX0DAT0\x01\x00\x14IXF0\x04IXF1\x0D")
    found += terms.package([0x5B, 0x87], b"RGN2BNK0\x01\x03\x00\x20BKF0\x08")
    bits = {b"IDX0": 8, b"DAT0": 8, b"BNK0": 4, b"IXF0": 4, b"IXF1": 13, b"BKF0": 8}
    return found, {name: read_as(size, width) for name, size in bits.items()}


def surroundings(chance, width):
    """What a table defines beside its methods, and the names of it."""
    found, data = data_names(chance, width)
    names = terms.Names(data=data, devices=[b"DEV0"], mutexes={b"MTX1": 1, b"MTX3": 3, b"MTX5": 5})
    found += terms.package([0x5B, 0x82], b"DEV0")
    for name, level in names.mutexes.items():
        found += b"\x5B\x01" + name + bytes([level])
    for number, (_, (space, address, size)) in enumerate(SPACES.items()):
        region = b"RGN%d" % number
        found += b"\x5B\x80" + region + bytes([space]) + terms.literal(address) + terms.literal(size)
        definition, bits = field_list(chance, region, b"F%d" % number)
        found += definition
        names.fields |= {name: read_as(size, width) for name, size in bits.items()}
    definition, kinds = reached_fields(width)
    found += definition
    names.fields |= kinds
    for number in range(4):
        name = b"BF%02d" % number
        sources = [(source, kind[1]) for source, kind in data.items() if kind[0] == "buf"]
        definition, kind = terms.buffer_field(chance, width, sources, name, False)
        found += definition
        names.fields |= {name: kind} if definition else {}
    return found, names


def argument_kinds(chance, greatest):
    """The kinds of a method's arguments."""
    choices = [("int", greatest), ("int", 15), ("int", 0), ("int", 300), ("buf", 4), ("buf", 0), ("str", 3),
               ("anypkg",)]
    return [chance.choice(choices) for _ in range(chance.randint(0, 4))]


def made_table(chance, daring):
    """A table, its revision, its methods, and the text of their kinds."""
    width = chance.choice([32, 64])
    definitions, names = surroundings(chance, width)
    maker = terms.Maker(chance, names, width, daring)
    greatest = (1 << width) - 1
    for number in range(METHODS):
        gives = chance.choice([("int", 3), ("int", 255), ("int", greatest), ("buf", 4), ("str", 3), None])
        method = maker.make(b"M%03d" % number, argument_kinds(chance, greatest), gives)
        inner = method.name + bytes([len(method.args)]) + method.body
        definitions += terms.package([0x14], inner)
    text = "".join(f"\\{method.name.decode()}{''.join(' ' + kind_text(kind) for kind in method.args)}\n"
                   for method in maker.methods)
    return definitions, 2 if width == 64 else 1, maker.methods, text


def kind_text(kind):
    """A kind, as a text of signatures has it."""
    if kind[0] == "anypkg":
        return "pkg"
    return f"{kind[0]}:{kind[1]}"


def argument_text(chance, kind, registers):
    """An argument of a kind, as `--args` has it: least, greatest, or made."""
    if kind[0] == "anypkg":
        return "pkg"
    if kind[0] == "int":
        return str({"zeros": 0, "ones": kind[1]}.get(registers, chance.randint(0, kind[1])))
    if kind[0] == "str":
        return "str:" + "".join(chance.choice("ABCxyz019 ") for _ in range(kind[1]))
    made = {"zeros": bytes(kind[1]), "ones": b"\xFF" * kind[1]}.get(registers, chance.randbytes(kind[1]))
    return f"buf:{made.hex()}"


def registers_text(chance, registers):
    """The text that sets the registers of a run."""
    found = ""
    for space, (_, address, size) in SPACES.items():
        made = {"zeros": bytes(size), "ones": b"\xFF" * size}.get(registers, chance.randbytes(size))
        found += f"{space} {address:x} {made.hex()}\n"
    return found


def changed(chance, definitions, methods):
    """The definitions with a few bytes of bodies changed to others like them."""
    table = bytearray(definitions)
    for _ in range(chance.randint(1, 4)):
        method = chance.choice(methods)
        first = definitions.find(method.body) if method.body else -1
        if first < 0:
            continue
        place = first + chance.randrange(len(method.body))
        row = [row for row in ALIKE if table[place] in row]
        if row:
            table[place] = chance.choice(chance.choice(row))
        elif place and table[place - 1] == 0x0A:
            table[place] = chance.choice([0, 1, 2, 3, 4, 15, 16, 17, 255])
    return bytes(table)


def run(program, words, room):
    """The program's status and its lines."""
    ran = subprocess.run([program, *words], capture_output=True, cwd=room, timeout=SECONDS)
    return ran.returncode, ran.stdout.decode("ascii").splitlines()


class Tried:
    """What came of some tables."""

    def __init__(self):
        self.accepted, self.runs, self.long, self.methods = Counter(), 0, 0, Counter()
        self.causes, self.operators, self.failures = Counter(), Counter(), []

    def add(self, other):
        for name in ("accepted", "methods", "causes", "operators"):
            setattr(self, name, getattr(self, name) + getattr(other, name))
        self.runs, self.long = self.runs + other.runs, self.long + other.long
        self.failures += other.failures


def tried_method(program, tried, chance, room, method, steps):
    """Runs an accepted method over each kind of registers, with its steps and by its verdict, and gives the failures."""
    found = []
    for registers in REGISTERS:
        with open(f"{room}/t.regs", "w", encoding="ascii") as it:
            it.write(registers_text(chance, registers))
        words = ["eval", "--method", f"\\{method.name.decode()}", "--regs", "t.regs"]
        if method.args:
            words += ["--args", ",".join(argument_text(chance, kind, registers) for kind in method.args)]
        status, lines = run(program, [*words, "--plain", str(steps), "t.bin"], room)
        tried.runs += 1
        if status or not lines or not lines[-1].startswith("result "):
            found.append(f"{' '.join(words)} --plain {steps}: status {status}, {lines[-1:]}")
        elif run(program, [*words, "--kinds", "t.kinds", "t.bin"], room) != (status, lines):
            found.append(f"{' '.join(words)}: without --plain {steps} it has other lines")
    return found


def tried_table(program, tried, chance, room, table, methods, written, sure):
    """Judges a table and runs what is accepted."""
    with open(f"{room}/t.bin", "wb") as it:
        it.write(table)
    status, lines = run(program, ["verify", "--kinds", "t.kinds", "t.bin"], room)
    if status not in (0, 3) or len(lines) != len(methods):
        return [f"verify: status {status}, {lines[-1:]}"]
    found = []
    for method, line in zip(methods, lines):
        words = line.split()
        tried.methods[written] += 1
        if words[1] != "accepted":
            tried.causes[words[4]] += written
            found += [f"it must be accepted: {line}"] if sure and written else []
            continue
        tried.accepted[written] += 1
        tried.operators += method.operators if written else Counter()
        if int(words[2]) > MOST_STEPS:
            tried.long += 1
            continue
        found += tried_method(program, tried, chance, room, method, int(words[2]))
    return found


def part(task):
    """What comes of some tables."""
    program, seed, first, behind, keep = task
    tried = Tried()
    with tempfile.TemporaryDirectory() as room:
        for number in range(first, behind):
            chance = random.Random(seed * 1_000_003 + number)
            sure = number % 2 == 0
            definitions, revision, methods, text = made_table(chance, 0 if sure else DARING)
            with open(f"{room}/t.kinds", "w", encoding="ascii") as it:
                it.write(text)
            for written in (True, False):
                inner = definitions if written else changed(chance, definitions, methods)
                table = rows.table_of(b"DSDT", revision, inner)
                name = f"table {number} of seed {seed}, {'as written' if written else 'changed'}"
                found = tried_table(program, tried, chance, room, table, methods, written, sure)
                tried.failures += [f"{name}: {line}" for line in found]
                if found and keep:
                    for suffix, content in (("bin", table), ("kinds", text.encode())):
                        with open(f"{keep}/{seed}-{number}-{int(written)}.{suffix}", "wb") as it:
                            it.write(content)
    return tried


def told(tried, seed, tables):
    """Tells what came of all tables, but for the failures."""
    causes = ", ".join(f"{count} {cause}" for cause, count in tried.causes.most_common())
    operators = ", ".join(f"{name} {count}" for name, count in sorted(tried.operators.items()))
    print(f"operators of accepted bodies: {operators}")
    print(f"refused as written: {causes or 'none'}")
    print(f"seed {seed}, {tables} tables: accepted {tried.accepted[True]} of {tried.methods[True]} bodies as written "
          f"and {tried.accepted[False]} of {tried.methods[False]} changed ones; {tried.runs} runs, {tried.long} bodies "
          "too long to run")
    print(f"{sum(tried.accepted.values()) - len(tried.failures)} passed, {len(tried.failures)} failed")


def main():
    words = argparse.ArgumentParser()
    words.add_argument("--program", default=rows.PROGRAM)
    words.add_argument("--bodies", type=int, default=10_000)
    words.add_argument("--seed", type=int, default=1)
    words.add_argument("--first", type=int, default=0, help="the number of the first table")
    words.add_argument("--keep")
    given = words.parse_args()
    if not os.path.isfile(given.program):
        print(f"there is no program {given.program}")
        return 1
    if given.keep:
        os.makedirs(given.keep, exist_ok=True)
    program, tried, number = os.path.abspath(given.program), Tried(), given.first
    with ProcessPoolExecutor(WORKERS) as pool:
        while sum(tried.accepted.values()) < given.bodies:
            tasks = [(program, given.seed, first, first + TABLES, given.keep)
                     for first in range(number, number + WORKERS * TABLES, TABLES)]
            for one in pool.map(part, tasks):
                tried.add(one)
                for line in one.failures:
                    print(line, flush=True)
            number += WORKERS * TABLES
            if not sum(tried.accepted.values()):
                break
    told(tried, given.seed, number - given.first)
    return 1 if tried.failures or not tried.runs else 0


if __name__ == "__main__":
    sys.exit(main())
