#!/usr/bin/env python3
"""Times the verdicts on methods that someone would choose who wants them to be slow: verdicts.py [ACPICHECK].

Each kind of table is made at two sizes, the second twice the first, and `verify` is run on it a few times: told are the
bytes, the least processor time, the largest resident set and how many methods were accepted. What is linear takes twice
the time at the second size.

| kind | the table |
|---|---|
| methods | methods that return One |
| chain | methods each of which calls the next; those with chains of more than 64 are refused |
| star | methods that all call one |
| statements | one method of statements `Add (Local0, One, Local0)` |
| nested_ifs | a method of nests of 62 Ifs, each block of which sets all eight locals |
| ifs_of_packages | a method of Ifs in a row, each of which stores a package of 16 elements into a local that already holds one |
| loops | a method of loops of 16 turns in a row, whose bodies set all locals |
| devices | devices as firmware has them: each with eight methods that read and write fields, test, add and call a method of the root |
| packages | data names that hold packages of 64 elements, of which no two are alike, and a method that looks at each |
"""
import os
import subprocess
import sys
import tempfile

import tables

HERE = os.path.dirname(os.path.abspath(__file__))
ACPICHECK = f"{os.path.dirname(HERE)}/crates/acpicheck/out/acpicheck"
RUNS = 3


def calling(names, callee):
    return b"".join(tables.method(name, b"\xa4" + callee(i)) for i, name in enumerate(names))


def nest(depth):
    inside = b""
    for _ in range(depth):
        inside = tables.package(b"\xa0", b"\x68" + b"".join(b"\x70\x01" + bytes([0x60 + i]) for i in range(8)) + inside)
    return inside


def taking_one(body):
    return tables.package(b"\x14", b"MAIN\x01" + body + b"\xa4\x01")


def a_package(number, size):
    elements = b"".join(b"\x0c" + (number * size + k).to_bytes(4, "little") for k in range(size))
    return tables.package(b"\x12", bytes([size]) + elements)


def a_loop():
    step = b"\x75\x67" + b"".join(b"\x70\x01" + bytes([0x60 + i]) for i in range(7))
    return b"\x70\x00\x67" + tables.package(b"\xa2", b"\x95\x67\x0a\x10" + step)


def a_method_of_a_device(number):
    fields = [b"FLD" + b"%X" % (number + i & 15) for i in range(3)]
    first = b"\x70" + fields[0] + b"\x60" + tables.package(b"\xa0", b"\x93\x60\x01\xa4\x00")
    second = b"\x72\x60\x0a\x05\x61\x70\x61CNT0" + tables.package(b"\xa0", b"\x94\x61\x0a\x10\x70\x0a\x10" + fields[1])
    third = tables.package(b"\xa1", b"\x70HLPR\x61\x61") + b"\x7b" + fields[2] + b"\x0a\x7f\x62\xa4HLPR\x62"
    return tables.method(b"M%03X" % number, first + second + third)


def devices(count):
    region = b"\x5b\x80REGN\x01\x0b\x00\x10\x0a\x20"
    field = tables.package(b"\x5b\x81", b"REGN\x01" + b"".join(b"FLD%X\x08" % i for i in range(16)))
    helper = tables.package(b"\x14", b"HLPR\x01\xa4\x7b\x68\x0a\x0f\x00")
    each = [tables.package(b"\x5b\x82", b"D%03X" % i + b"\x08_HID\x0c\x41\xd0\x0c\x01" + b"".join(a_method_of_a_device(k) for k in range(8)))
            for i in range(count)]
    return region + field + b"\x08CNT0\x00" + helper + b"".join(each)


def definitions(kind, count):
    names = tables.other_names(count) if kind in ("methods", "chain", "star", "packages") else []
    if kind == "methods":
        return tables.methods(names)
    if kind == "chain":
        return calling(names, lambda i: names[i + 1] if i + 1 < count else b"\x01")
    if kind == "star":
        return tables.MAIN + calling(names, lambda i: b"MAIN")
    if kind == "statements":
        return tables.method(b"MAIN", b"\x70\x00\x60" + b"\x72\x60\x01\x60" * count + b"\xa4\x60")
    if kind == "nested_ifs":
        return taking_one(nest(62) * count)
    if kind == "ifs_of_packages":
        sets = b"".join(b"\x70" + a_package(0, 16) + bytes([0x60 + i]) for i in range(8))
        ifs = b"".join(tables.package(b"\xa0", b"\x68\x70" + a_package(i % 7, 16) + bytes([0x60 + i % 8])) for i in range(count))
        return taking_one(sets + ifs)
    if kind == "devices":
        return devices(count)
    if kind == "loops":
        return tables.method(b"MAIN", a_loop() * count + b"\xa4\x01")
    held = b"".join(b"\x08" + name + a_package(i, 64) for i, name in enumerate(names))
    seen = b"".join(b"\x70\x83\x88" + name + b"\x01\x00\x60" for name in names)
    return held + tables.method(b"MAIN", seen + b"\xa4\x01")


SIZES = {"methods": 25_000, "chain": 25_000, "star": 25_000, "statements": 500_000, "nested_ifs": 250,
         "ifs_of_packages": 10_000, "loops": 20_000, "packages": 8_000, "devices": 58}


def timed(program, path):
    """The lines of a run, its processor time and its largest resident set in KiB."""
    run = subprocess.Popen([program, "verify", path], stdout=subprocess.PIPE, stderr=subprocess.PIPE)
    lines = run.stdout.read().splitlines()
    _, _, used = os.wait4(run.pid, 0)
    run.returncode = 0
    return lines, used.ru_utime + used.ru_stime, used.ru_maxrss


def main(program):
    print("kind count bytes seconds KiB accepted of")
    for kind, first in SIZES.items():
        for count in (first, 2 * first):
            with tempfile.TemporaryDirectory() as folder:
                path = os.path.join(folder, "dsdt.bin")
                table = tables.dsdt(definitions(kind, count))
                with open(path, "wb") as file:
                    file.write(table)
                runs = [timed(program, path) for _ in range(RUNS)]
            lines = runs[0][0]
            accepted = sum(b" accepted " in line for line in lines)
            print(kind, count, len(table), f"{min(run[1] for run in runs):.3f}", max(run[2] for run in runs), accepted, len(lines), flush=True)


if __name__ == "__main__":
    main(sys.argv[1] if len(sys.argv) > 1 else ACPICHECK)
