#!/usr/bin/env python3
"""Runs acpicheck over machines' own tables: machines.py FOLDER [ACPICHECK].

In the folder, or in folders in it, each file whose name begins with DSDT is a machine, with the SSDT and the APIC whose names end as its
own does, or else `APIC`. All files but FACS are listed (`tables`); of each machine the names, the verdicts, each `_STA` evaluated, each
`_CRS` and each `_PRT`. What is printed is how often each answer came: verdicts with what stands at a refusal's place, and the last line
of whatever did not end with status 0. QEMU's sources have such a folder, `tests/data/acpi`.
"""
import collections
import re
import subprocess
import sys
from pathlib import Path

ACPICHECK = Path(__file__).resolve().parent.parent / "crates/acpicheck/out/acpicheck"
# Tables are read as iasl writes them, with Externals in Ifs that never run.
OPENED = "--dead-externals"
PLACE = re.compile(r": (V\d+ \w+): .*?, byte \d+ \((.*?)\)")


def run(program, *words):
    done = subprocess.run([program, *map(str, words)], capture_output=True, text=True, stdin=subprocess.DEVNULL, timeout=60, check=False)
    return done.returncode, done.stdout.splitlines(), done.stderr.splitlines()


def beside(dsdt, name):
    """The table of a machine that ends as its DSDT does."""
    file = dsdt.with_name(name + dsdt.name.removeprefix("DSDT"))
    return file if file.exists() else None


def judge(program, files, counts):
    _, lines, notes = run(program, "verify", "--explain", OPENED, *files)
    for words in map(str.split, lines):
        counts["verdict"][words[1] if words[1] == "accepted" else " ".join(words[4:])] += 1
    for cause, found in PLACE.findall("\n".join(notes)):
        counts["refused at"][f"{cause}: {found}"] += 1


def ask(program, dsdt, files, path, kind, counts):
    """One object by the command that its name wants."""
    last = path.split(".")[-1]
    if last == "_STA" and kind == "method":
        words = ["eval", "--method", path]
    elif last == "_CRS":
        words = ["resources", "--object", path]
    elif last == "_PRT":
        madt = beside(dsdt, "APIC") or dsdt.with_name("APIC")
        words = ["routing", "--object", path, *(["--madt", madt] if madt.exists() else [])]
    else:
        return
    status, lines, _ = run(program, *words, OPENED, *files)
    counts[last]["done" if status == 0 else lines[-1]] += 1


def machine(program, dsdt, counts):
    files = [dsdt, *filter(None, [beside(dsdt, "SSDT")])]
    status, names, notes = run(program, "names", OPENED, *files)
    if status != 0:
        counts["not loaded"][f"{names[-1]}: {notes[-1]}"] += 1
        return
    judge(program, files, counts)
    for line in names:
        path, kind, *_ = line.split()
        ask(program, dsdt, files, path, kind, counts)


def main(folder, program=ACPICHECK):
    counts = collections.defaultdict(collections.Counter)
    for file in sorted(Path(folder).rglob("*")):
        if file.is_file() and re.match(r"[A-Z0-9]{4}(\.|$)", file.name) and not file.name.startswith("FACS"):
            status, lines, notes = run(program, "tables", file)
            counts["tables"]["listed" if status == 0 else f"{lines[-1]}: {notes[-1]}"] += 1
        if file.name.startswith("DSDT"):
            machine(program, file, counts)
    for what, answers in counts.items():
        print(what)
        for answer, count in answers.most_common():
            print(f"{count:7} {answer}")


if __name__ == "__main__":
    main(*sys.argv[1:])
