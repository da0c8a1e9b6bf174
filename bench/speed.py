#!/usr/bin/env python3
"""Times acpicheck beside ACPICA's acpiexec on loops: speed.py [ACPICHECK] [LOOP ..].

`iasl` and `acpiexec` are of Debian's acpica-tools (apt-get install acpica-tools). One DSDT has a method for each loop and number of
turns. Each is run at two sizes, the second twice the first; of each the least processor time of five runs counts. What a turn costs is
the difference of both over the difference of the turns, so that starting, loading, reading and judging are left out. It is evaluated
straight from its bytes (`eval`), where the verifier accepts it, then from its tree (`eval --plain`), and by acpiexec; all must give the
same integer, and where they do not, both are printed and the status is 1.

Behind `resident` stands how much memory acpicheck had resident at most, at each of its two sizes, by `/usr/bin/time` (apt-get install
time). It should not grow with the turns, but in TEXT, whose string does, and in KEEP and INDX, fields of regions, each access of which is an
event that is kept to be printed.
"""
import re
import resource
import shutil
import subprocess
import sys
import tempfile
from pathlib import Path

ACPICHECK = Path(__file__).resolve().parent.parent / "crates/acpicheck/out/acpicheck"
TIME = "/usr/bin/time"
STEPS = str(2**64 - 1)
RUNS = 5

# the turns of the first size, here and there
LOOPS = {
    "ARIT": (2_000_000, 100_000),
    "BUFF": (1_000_000, 50_000),
    "CALL": (1_000_000, 50_000),
    "DEEP": (30_000, 1_000),
    "PACK": (1_000_000, 10_000),
    "NEST": (1_000_000, 10_000),
    "CRCS": (300, 10),
    "TEXT": (10_000, 8_000),
    "KEEP": (100_000, 10_000),
    "INDX": (100_000, 10_000),
}


def crc_table():
    for n in range(256):
        for _ in range(8):
            n = n >> 1 ^ (0xEDB88320 if n & 1 else 0)
        yield n


# each loop's statements, which `TURNS` stands in for the number of turns
STATEMENTS = {
    "ARIT": """
  Store (Zero, Local0)
  Store (One, Local1)
  While (LLess (Local0, TURNS)) { And (Add (Multiply (Local1, 3), 7), 0xFFFF, Local1) Increment (Local0) }
  Return (Local1)""",
    "BUFF": """
  Store (Zero, Local0)
  While (LLess (Local0, TURNS)) {
    And (Local0, 0xFFFF, Local1)
    Add (DerefOf (Index (BUF0, Local1)), 3, Index (BUF0, Local1))
    Increment (Local0)
  }
  Return (DerefOf (Index (BUF0, 7)))""",
    "CALL": """
  Store (Zero, Local0)
  Store (Zero, Local1)
  While (LLess (Local0, TURNS)) { Store (SUM3 (Local0, Local1, 5), Local1) Increment (Local0) }
  Return (Local1)""",
    "DEEP": """
  Store (Zero, Local0)
  Store (Zero, Local1)
  While (LLess (Local0, TURNS)) { Store (D000 (Local1), Local1) Increment (Local0) }
  Return (Local1)""",
    "PACK": """
  Store (Zero, Local0)
  Store (Zero, Local1)
  While (LLess (Local0, TURNS)) {
    Add (Local1, DerefOf (Index (PKG0, Mod (Local0, 1000))), Local1)
    Increment (Local0)
  }
  Return (Local1)""",
    "NEST": """
  Store (Zero, Local0)
  Store (Zero, Local1)
  While (LLess (Local0, TURNS)) {
    Add (Local1, DerefOf (Index (DerefOf (Index (PKG1, 2)), Mod (Local0, 250))), Local1)
    Increment (Local0)
  }
  Return (Local1)""",
    "CRCS": """
  Store (Zero, Local0)
  Store (Zero, Local1)
  While (LLess (Local0, TURNS)) {
    Store (0xFFFFFFFF, Local1)
    Store (Zero, Local2)
    While (LLess (Local2, 4096)) {
      XOr (ShiftRight (Local1, 8), DerefOf (Index (CRC0, And (XOr (Local1, DerefOf (Index (DAT0, Local2))), 0xFF))), Local1)
      Increment (Local2)
    }
    Increment (Local0)
  }
  Return (Local1)""",
    "TEXT": """
  Store (Zero, Local0)
  Store ("", Local1)
  While (LLess (Local0, TURNS)) { Concatenate (Local1, "ab", Local1) Increment (Local0) }
  Return (SizeOf (Local1))""",
    "KEEP": """
  Store (Zero, Local0)
  While (LLess (Local0, TURNS)) { Add (FLD0, One, FLD0) Increment (Local0) }
  Return (FLD0)""",
    "INDX": """
  Store (Zero, Local0)
  While (LLess (Local0, TURNS)) { Add (IXF0, One, IXF0) Increment (Local0) }
  Return (IXF0)""",
}


def method(loop, turns):
    """The name of the method that makes so many turns of a loop, which are its own or those of acpiexec, once or twice."""
    mine, other = LOOPS[loop]
    return loop[:3] + str([mine, 2 * mine, other, 2 * other].index(turns) + 1)


def source():
    """The ASL of the loops, a method for each number of turns: the verifier wants the number to be a constant."""
    integers = ", ".join(str(n * 7) for n in range(1000))
    inner = ", ".join(f"Package (250) {{ {', '.join(str(n * 7) for n in range(first, first + 250))} }}" for first in range(0, 1000, 250))
    table = ", ".join(hex(n) for n in crc_table())
    deep = "".join(
        f"Method (D{n:03}, 1) {{ Return ({f'D{n + 1:03} (Arg0)' if n < 59 else 'Add (Arg0, 1)'}) }}\n" for n in reversed(range(60)))
    loops = "".join(
        f"Method ({method(loop, turns)}) {{{text.replace('TURNS', hex(turns))}\n}}\n"
        for loop, text in STATEMENTS.items() for n in LOOPS[loop] for turns in (n, 2 * n))
    return f"""
DefinitionBlock ("", "DSDT", 2, "ACPICK", "SPEED", 1) {{
Name (BUF0, Buffer (65536) {{}})
Name (PKG0, Package (1000) {{ {integers} }})
Name (PKG1, Package (4) {{ {inner} }})
Name (CRC0, Package (256) {{ {table} }})
Name (DAT0, Buffer (4096) {{ 1, 2, 3, 4, 5, 6, 7, 8 }})
OperationRegion (REG0, SystemMemory, 0x1000, 4)
Field (REG0, WordAcc, NoLock, Preserve) {{ FLD0, 8, , 8 }}
OperationRegion (REG1, SystemIO, 0x70, 2)
Field (REG1, ByteAcc, NoLock, Preserve) {{ IDX0, 8, DAT1, 8 }}
IndexField (IDX0, DAT1, ByteAcc, NoLock, Preserve) {{ IXF0, 8 }}
Method (SUM3, 3) {{ Return (And (Add (Add (Arg0, Arg1), Arg2), 0xFFFFFF)) }}
{deep}
{loops}
}}
"""


def processor_time():
    """What all commands took so far, in seconds."""
    used = resource.getrusage(resource.RUSAGE_CHILDREN)
    return used.ru_utime + used.ru_stime


def run(command):
    """The processor time of a command, how many KiB it had resident at most, and what it printed."""
    with tempfile.NamedTemporaryFile("r") as noted:
        start = processor_time()
        said = subprocess.run([TIME, "-f", "%M", "-o", noted.name, *command], capture_output=True, text=True, check=False).stdout
        return processor_time() - start, int(noted.read().split()[-1]), said


def best(command):
    """The least processor time of some runs, the most that one had resident, and what the last one printed."""
    took, resident, said = zip(*(run(command) for _ in range(RUNS)))
    return min(took), max(resident), said[-1]


def value(said):
    """The integer that a program printed, or its last line."""
    found = re.search(r"^result (0x[0-9a-f]+)$|\[Integer\] = ([0-9A-F]+)", said, re.M)
    if not found:
        return said.strip().splitlines()[-1] if said.strip() else "nothing"
    return int(found[1] or found[2], 16)


def ours(program, table, loop, turns, words):
    return best([program, "eval", *words, "--method", "\\" + method(loop, turns), table])


def theirs(table, loop, turns):
    return best(["acpiexec", "-di", "-b", f"execute {method(loop, turns)}", table])


def costs(run_at, turns):
    """What a turn takes by two sizes, in seconds; the most memory at both; the value at the second."""
    (first, small, _), (second, large, said) = run_at(turns), run_at(2 * turns)
    return (second - first) / turns, (small, large), said


def main(words):
    program = words[0] if words else str(ACPICHECK)
    for tool, package in (("iasl", "acpica-tools"), ("acpiexec", "acpica-tools"), (TIME, "time")):
        if not shutil.which(tool):
            sys.exit(f"{tool} is missing: apt-get install {package}")
    with tempfile.TemporaryDirectory() as folder:
        asl = Path(folder) / "speed.asl"
        asl.write_text(source())
        subprocess.run(["iasl", "-oa", "-p", folder + "/speed", asl], capture_output=True, check=True)
        table, differ = folder + "/speed.aml", 0
        print("loop   from bytes     --plain    acpiexec   times plain   times acpiexec  resident")
        for loop in words[1:] or LOOPS:
            mine, other = LOOPS[loop]
            there, _, told = costs(lambda n: theirs(table, loop, n), other)
            plain, held, _ = costs(lambda n: ours(program, table, loop, n, ["--plain", STEPS]), mine)
            said = [ours(program, table, loop, 2 * other, words)[2] for words in ([], ["--plain", STEPS])]
            if said[0].startswith("\\"):
                here, _, said = "refused", held, said[1:]
                print(f"{loop}      {here:>8} {plain * 1e9:8.0f} ns {there * 1e9:8.0f} ns {'':13} {'':16}"
                      f" {held[0]:7}, {held[1]} KiB", end="")
            else:
                here, held, _ = costs(lambda n: ours(program, table, loop, n, []), mine)
                print(f"{loop}   {here * 1e9:8.0f} ns {plain * 1e9:8.0f} ns {there * 1e9:8.0f} ns {plain / here:13.2f} {there / here:16.1f}"
                      f" {held[0]:7}, {held[1]} KiB", end="")
            is_same = isinstance(value(told), int) and all(value(it) == value(told) for it in said)
            differ += not is_same
            print("" if is_same else f"  here {said}, there {value(told)}")
    return 1 if differ else 0


if __name__ == "__main__":
    sys.exit(main(sys.argv[1:]))
