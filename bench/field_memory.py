#!/usr/bin/env python3
"""Writes and reads fields of simulated memory here and in ACPICA's acpiexec: field_memory.py [ACPICHECK] [STEP].

One DSDT has a region of system memory, and over it fields of each access width, each rule for the other bits, and each STEP-th first
bit and number of bits up to 130 (STEP is 7 unless it is given). For each field a method fills the region, stores into the field and
gives all bytes of the region; another gives the field's value. Methods, region and fields are the same for both programs, each of
which keeps the region's bytes in a memory of its own; what they give must be the same. Prints the number of fields and the differences.

Fields that ACPICA reads past the region's end, or with another access width than their list asks for, are none of these: the region
is as long as the last unit of any of them. `iasl` and `acpiexec` are of Debian's acpica-tools (apt-get install acpica-tools).
"""
import re
import subprocess
import sys
import tempfile
from itertools import product
from pathlib import Path

ACPICHECK = Path(__file__).resolve().parent.parent / "crates/acpicheck/out/acpicheck"
BYTES = 64
WIDTHS = {"ByteAcc": 8, "WordAcc": 16, "DWordAcc": 32, "QWordAcc": 64}
RULES = ("Preserve", "WriteAsOnes", "WriteAsZeros")
MOST_FIELDS = 400
VALUE = 0xFEDCBA9876543211


def fields(step):
    sizes = range(1, 131, step)
    return list(product(WIDTHS, RULES, sizes, sizes))


def stored(bits):
    """What is stored: an integer, or for a field of more than 64 bits a buffer of just its bytes."""
    if bits <= 64:
        return f"{VALUE:#x}"
    return "Buffer () {" + ", ".join(str((37 * i + 11) % 256) for i in range((bits + 7) // 8)) + "}"


def source(chosen):
    """The ASL over some fields."""
    first = ", ".join(str((73 * i + 29) % 256) for i in range(BYTES))
    parts = [f"""
DefinitionBlock ("", "DSDT", 2, "ACPICK", "FIELDMEM", 1) {{
OperationRegion (MEM0, SystemMemory, 0x10000, {BYTES})
Field (MEM0, ByteAcc, NoLock, Preserve) {{ ALL0, {8 * BYTES} }}
Method (FILL) {{ Store (Buffer ({BYTES}) {{ {first} }}, ALL0) }}
"""]
    for n, (width, rule, at, bits) in enumerate(chosen):
        parts.append(f"""
Field (MEM0, {width}, NoLock, {rule}) {{ , {at}, F{n:03X}, {bits} }}
Method (W{n:03X}) {{ FILL () Store ({stored(bits)}, F{n:03X}) Return (ALL0) }}
Method (R{n:03X}) {{ FILL () Return (F{n:03X}) }}
""")
    return "".join(parts) + "}\n"


def told_here(said):
    """A value as acpicheck prints it: an integer, or bytes in hex."""
    found = re.search(r"^result (?:0x([0-9a-f]+)|buffer ([0-9a-f]+))$", said, re.M)
    if not found:
        return said.strip().splitlines()[-1:]
    return int(found[1], 16) if found[1] else found[2]


def ours(program, table, method):
    command = [program, "eval", "--plain", "100000", "--method", "\\" + method, table]
    return told_here(subprocess.run(command, capture_output=True, text=True, check=False).stdout)


def told_there(said):
    found = re.search(r"\[Integer\] = ([0-9A-F]+)", said)
    if found:
        return int(found[1], 16)
    found = re.search(r"\[Buffer\] Length [0-9A-F]+ =(.*)", said, re.S)
    if not found:
        return said.strip().splitlines()[-1:]
    rows = re.findall(r"^ *(?:[0-9A-F]+:)? *((?:[0-9A-F]{2} ){1,16})", found[1], re.M)
    return "".join(rows).replace(" ", "").lower()


def theirs(table, methods):
    """What acpiexec tells of each method, in one run."""
    asked = "".join(f"execute {method}\n" for method in methods) + "quit\n"
    said = subprocess.run(["acpiexec", "-di", table], input=asked, capture_output=True, text=True, check=False).stdout
    answers = re.split(r"Evaluating \\", said)[1:]
    return {answer[:4]: told_there(answer) for answer in answers}


def main(words):
    step = int(words.pop()) if words and words[-1].isdigit() else 7
    program = words[0] if words else str(ACPICHECK)
    cases = fields(step)
    differences = 0
    with tempfile.TemporaryDirectory() as folder:
        for start in range(0, len(cases), MOST_FIELDS):
            chosen = cases[start:start + MOST_FIELDS]
            asl = Path(folder) / "fields.asl"
            asl.write_text(source(chosen))
            subprocess.run(["iasl", "-oa", "-p", folder + "/fields", asl], capture_output=True, check=True)
            table = folder + "/fields.aml"
            methods = [f"{kind}{n:03X}" for n in range(len(chosen)) for kind in "WR"]
            there = theirs(table, methods)
            for n, case in enumerate(chosen):
                for kind in "WR":
                    method = f"{kind}{n:03X}"
                    here = ours(program, table, method)
                    if here != there.get(method):
                        differences += 1
                        print(*case, "write" if kind == "W" else "read", here, there.get(method), sep=" | ")
    print(f"{len(cases)} fields, {differences} differences")
    return differences != 0


if __name__ == "__main__":
    sys.exit(main(sys.argv[1:]))
