#!/usr/bin/env python3
"""Times loops over single calls, two of them beside loops in C: loops.py [ACPI_LOOPS [DSDT ..]].

| loop | what a turn does |
|---|---|
| get | reads the integer that a name holds |
| set | makes a name hold an integer |
| read | reads a field of 8 bits in the midst of a unit of 16, from a world that keeps no log |
| write | gives that field an integer, and preserves the unit's other bits |

Each runs at two sizes, the second twice the first, the best of five processor times; a turn is the difference of both over that of
the turns. Behind them comes a table of the verdicts on all methods of a DSDT that is loaded once, the best of 25: of two with devices
as `bench/verdicts.py` makes them, the second twice the first, and of those that are handed in. The program is the one that `rt ci`
leaves in crates/acpi_loops/out. The loops in C make the same masks over a unit that is read and written by functions that the compiler
does not see (`cc -O2`).
"""
import os
import resource
import subprocess
import sys
import tempfile
from pathlib import Path

import tables
import verdicts

PROGRAM = Path(__file__).resolve().parent.parent / "crates/acpi_loops/out/acpi_loops"
TURNS = 10_000_000
RUNS = 5
JUDGED = 10
JUDGED_RUNS = 25
DEVICES = (58, 116)

WORLD = """
#include <stdint.h>
static uint64_t calls;
int read_unit(uint64_t address, unsigned width, uint64_t *value) { calls++; *value = 0xa55a; return address == 16 && width == 16; }
int write_unit(uint64_t address, unsigned width, uint64_t value) { calls++; return address == 16 && width == 16 && value == 0xac3a; }
"""

LOOPS = """
#include <stdint.h>
#include <stdio.h>
#include <stdlib.h>
int read_unit(uint64_t address, unsigned width, uint64_t *value);
int write_unit(uint64_t address, unsigned width, uint64_t value);
int main(int count, char **words)
{
    uint64_t turns = strtoull(words[2], 0, 10), sum = 0, unit;
    for (uint64_t turn = 0; turn < turns; turn++) {
        if (!read_unit(16, 16, &unit)) return 1;
        if (words[1][0] == 'r') sum += unit >> 4 & 0xff;
        else if (write_unit(16, 16, (unit & ~(uint64_t) 0xff0) | (uint64_t) 0xc3 << 4)) sum++;
    }
    printf("%llu\\n", (unsigned long long) sum);
}
"""


def time_of(program, loop, turns, more=(), runs=RUNS):
    """The best processor time, and what was printed."""
    least, said = None, ""
    for _ in range(runs):
        before = resource.getrusage(resource.RUSAGE_CHILDREN)
        said = subprocess.run([program, loop, str(turns), *more], capture_output=True, text=True, check=True).stdout
        after = resource.getrusage(resource.RUSAGE_CHILDREN)
        took = after.ru_utime + after.ru_stime - before.ru_utime - before.ru_stime
        least = took if least is None else min(least, took)
    return least, said


def turn_of(program, loop):
    """Both times, the nanoseconds of a turn, and what was printed."""
    first, _ = time_of(program, loop, TURNS)
    second, said = time_of(program, loop, 2 * TURNS)
    return first, second, (second - first) / TURNS * 1e9, said


def judging(program, path):
    """The milliseconds in which all methods of a table are judged, and how many are accepted; None where it does not load."""
    first, _ = time_of(program, "verify", JUDGED, [path], JUDGED_RUNS)
    second, said = time_of(program, "verify", 2 * JUDGED, [path], JUDGED_RUNS)
    if said == "none\n":
        return None
    return (second - first) / JUDGED * 1e3, int(said) // (2 * JUDGED)


def with_devices(folder, count):
    """The file of a table with so many devices."""
    path = f"{folder}/devices{count}"
    Path(path).write_bytes(tables.dsdt(verdicts.devices(count)))
    return path


def tell_verdicts(program, folder, paths):
    """Prints the table of verdicts, and returns whether each table loads."""
    print("verdicts                bytes accepted   a turn")
    all_load = True
    for name, path in [*((f"devices {count}", with_devices(folder, count)) for count in DEVICES), *zip(paths, paths)]:
        found = judging(program, path)
        if found is None:
            print(f"{name:<22} does not load")
            all_load = False
            continue
        took, accepted = found
        size = os.path.getsize(path)
        print(f"{name:<22} {size:>6} {accepted:>8} {took:8.2f} ms {size / took / 1e3:6.1f} MB/s")
    return all_load


def built(folder):
    """The loops in C."""
    for name, text in (("world.c", WORLD), ("loops.c", LOOPS)):
        (Path(folder) / name).write_text(text)
    program = f"{folder}/loops"
    subprocess.run([os.environ.get("CC", "cc"), "-O2", "-o", program, f"{folder}/world.c", f"{folder}/loops.c"], check=True)
    return program


def main(words):
    program = words[0] if words else str(PROGRAM)
    print("loop       here              a turn     in C     times")
    same = True
    with tempfile.TemporaryDirectory() as folder:
        other = built(folder)
        for loop in ("get", "set", "read", "write"):
            first, second, turn, said = turn_of(program, loop)
            line = f"{loop:<6} {first:6.3f} {second:6.3f} s {turn:8.2f} ns"
            if loop in ("read", "write"):
                _, _, c_turn, c_said = turn_of(other, loop)
                same = same and said == c_said
                line += f" {c_turn:8.2f} ns {turn / c_turn:6.1f}"
            print(line)
        all_load = tell_verdicts(program, folder, words[1:])
    if not same:
        print("the sums differ")
    return not (same and all_load)


if __name__ == "__main__":
    sys.exit(main(sys.argv[1:]))
