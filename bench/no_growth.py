#!/usr/bin/env python3
"""Counts the growths of memory of evaluations, by a `malloc` of its own: no_growth.py [ACPICHECK].

Of a method that evaluates integers alone there are as many, however often its loop turns: none is made for a turn. Each loop below is run
with 1,000 turns and with 2,000, straight from its bytes, and both must have the same number of growths. Growths of loading, judging and
printing are in both. `iasl` is of Debian's acpica-tools (apt-get install acpica-tools); a C compiler is needed for the `malloc`.

Events of regions are not among them, as the register file keeps each.
"""
import shutil
import subprocess
import sys
import tempfile
from pathlib import Path

import growths
import rows

TURNS = (1_000, 2_000)

# each loop's statements
LOOPS = {
    "ARIT": "And (Add (Multiply (Local1, 3), 7), 0xFFFF, Local1)",
    "LOGI": "If (LAnd (Local1, LNot (LEqual (Local1, 5)))) { Store (One, Local2) } Else { Store (2, Local2) }",
    "DIVI": "Divide (Local0, 7, Local1, Local2)",
    "NAME": "Add (INT0, Local0, INT0) Increment (INT1)",
    "CALL": "Store (SUM3 (Local0, Local1, 5), Local1)",
    "LONG": "Store (LOOP (Local0), Local1)",
    "DEEP": "Store (D000 (Local1), Local1)",
    "MUTE": "Acquire (MTX0, 0xFFFF) Release (MTX0)",
    "TAKE": "TAKE ()",
    "BOTH": "Acquire (MTX0, 0xFFFF) Acquire (MTX1, 0xFFFF) Release (MTX1) Release (MTX0)",
}


def method(loop, turns):
    return f"{loop[:3]}{TURNS.index(turns) + 1}"


def source():
    """The ASL of the loops, a method for each number of turns."""
    deep = "".join(f"Method (D{n:03}, 1) {{ Return ({f'D{n + 1:03} (Arg0)' if n < 39 else 'Add (Arg0, 1)'}) }}\n" for n in reversed(range(40)))
    loops = "".join(
        f"Method ({method(loop, turns)}) {{ Store (Zero, Local0) Store (Zero, Local1)\n"
        f"  While (LLess (Local0, {turns})) {{ {text} Increment (Local0) }} Return (Local1) }}\n"
        for loop, text in LOOPS.items() for turns in TURNS)
    return f"""
DefinitionBlock ("", "DSDT", 2, "ACPICK", "GROWTH", 1) {{
Name (INT0, 0) Name (INT1, 0) Mutex (MTX0, 0) Mutex (MTX1, 1)
Method (SUM3, 3) {{ Return (And (Add (Add (Arg0, Arg1), Arg2), 0xFFFFFF)) }}
Method (LOOP, 1) {{ Store (3, Local0) While (Local0) {{ Decrement (Local0) }} Return (Arg0) }}
Method (TAKE) {{ Acquire (MTX0, 0xFFFF) Release (MTX0) }}
{deep}
{loops}
}}
"""


def main(words):
    program = words[0] if words else str(rows.PROGRAM)
    if not shutil.which("iasl"):
        sys.exit("iasl is missing: apt-get install acpica-tools")
    failed = 0
    with tempfile.TemporaryDirectory() as folder:
        table, shim, count_to = f"{folder}/growth.aml", f"{folder}/shim.so", f"{folder}/count"
        Path(f"{folder}/growth.asl").write_text(source())
        Path(f"{folder}/shim.c").write_text(growths.SHIM)
        subprocess.run(["cc", "-shared", "-fPIC", "-o", shim, f"{folder}/shim.c", "-ldl"], check=True)
        subprocess.run(["iasl", "-oa", "-p", f"{folder}/growth", f"{folder}/growth.asl"], capture_output=True, check=True)
        for loop in LOOPS:
            counts = []
            for turns in TURNS:
                given = {"LD_PRELOAD": shim, "GROWTHS": count_to, "REFUSED_GROWTH": "-1"}
                words = [program, "eval", "--method", "\\" + method(loop, turns), table]
                said = subprocess.run(words, env=given, capture_output=True, check=True).stdout
                counts.append(int(Path(count_to).read_text()))
            failed += counts[1] != counts[0]
            print(f"{loop}  {counts[0]} growths, {counts[1]} with twice the turns  {said.decode().strip()}")
    print(f"{len(LOOPS) - failed} passed, {failed} failed")
    return 1 if failed else 0


if __name__ == "__main__":
    sys.exit(main(sys.argv[1:]))
