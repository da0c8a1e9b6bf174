#!/usr/bin/env python3
"""Runs a short comparison of each reading with the program, one after the other, with the same inputs every time.

    python3 bench/reference/run.py [--program PATH] [--seconds S]

Each reading gets about S seconds, 20 if it is not given, which its comparisons share. A comparison passes where it
saw no difference and compared something. The program is the one that `rt ci` leaves in crates/acpicheck/out, or the
one at PATH.
"""
import argparse
import os
import re
import subprocess
import sys

HERE = os.path.dirname(os.path.abspath(__file__))
PROGRAM = f"{os.path.dirname(os.path.dirname(HERE))}/crates/acpicheck/out/acpicheck"
SEED = "1"
MANY = "1000000"
# All short bodies take minutes, so that `short` is left out.
READING = ["tables", "names", "bodies", "places", "arity", "settled", "notes", "asked", "folders", "texts"]
# Of each reading its comparisons: a script and its words.
COMPARISONS = {
    "verdicts": [["compare.py", "--methods", "60", "--tables", MANY, "--seed", SEED], ["graph.py", "--seed", SEED]],
    "reading": [["compare.py", "--what", what, "--cases", MANY, "--seed", SEED] for what in READING],
    "evaluation": [["compare.py", "--what", what, "--cases", MANY, "--seed", SEED]
                   for what in ("eval", "resources", "routing")],
}
# Beyond its seconds a comparison ends what it has begun.
PATIENCE = 600
LAST_LINE = re.compile(r"(\d+) compared, (\d+) differences")


def passes(folder, words, program, seconds):
    """Runs one comparison, tells what came of it, and says whether it passes."""
    command = [sys.executable, *words, "--program", program, "--seconds", str(seconds)]
    ran = subprocess.run(command, cwd=f"{HERE}/{folder}", capture_output=True, text=True, timeout=seconds + PATIENCE)
    lines = ran.stdout.splitlines()
    found = LAST_LINE.fullmatch(lines[-1]) if lines else None
    is_good = found is not None and ran.returncode == 0 and int(found[1]) > 0 and int(found[2]) == 0
    name = " ".join([folder, words[0].removesuffix(".py")] + words[2:3] * ("--what" in words))
    print(f"{name}: {found[0] if found else 'no result'}", flush=True)
    if not is_good:
        print("\n".join([f"  python3 bench/reference/{folder}/{' '.join(words)}", *lines[:40], ran.stderr[-2000:]]))
    return is_good


def main():
    words = argparse.ArgumentParser()
    words.add_argument("--program", default=PROGRAM)
    words.add_argument("--seconds", type=float, default=20)
    given = words.parse_args()
    if not os.path.isfile(given.program):
        print(f"there is no program {given.program}")
        return 1
    program, passed, failed = os.path.abspath(given.program), 0, 0
    for folder, comparisons in COMPARISONS.items():
        for one in comparisons:
            is_good = passes(folder, one, program, given.seconds / len(comparisons))
            passed, failed = passed + is_good, failed + (not is_good)
    print(f"{passed} passed, {failed} failed")
    return 1 if failed else 0


if __name__ == "__main__":
    sys.exit(main())
