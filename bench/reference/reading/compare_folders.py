"""Compares what stands for a folder: its tables' files in their order, by `tables` and `names`, and what standard error says
of those that are passed over."""
import os
import re
import shutil
import subprocess

import compare
import generate

SECONDS = 30
# A table's file: its signature, then digits, an ending that such files have, or both.
TABLE_FILE = re.compile(r"([A-Za-z0-9_!]{4})([0-9]*)(\.(?i:dat|aml|bin))?", re.DOTALL)
RANKS = {"dsdt": 0, "ssdt": 1}
FRONTS = ("dsdt", "DSDT", "ssdt", "SSDT", "Ssdt", "apic", "FACP", "xsdt", "_SB_", "ABC", "data!", "ss dt", "SSDTx", "ssdt-")
ENDS = ("", "", ".dat", ".aml", ".dat.old", ".", ".BIN", ".dsl", ".c")


def rank_of(name):
    """Where a file of that name stands among others, or None where it is no table's."""
    found = TABLE_FILE.fullmatch(name)
    number = int(found[2] or "0") if found else 0
    return None if not found or number >= 2**64 else (RANKS.get(found[1].lower(), 2), number)


# What is told of an entry that is not taken.
PASSED, FOLDER = "no table's file, passed over", "a folder, not entered"


def folder_input(rng):
    """Names with their bytes; None is a folder's."""
    tables = iter(generate.Tables(rng, 0.0).set_of_tables() + [generate.other_table(rng) for _ in range(6)])
    files = {}
    for _ in range(rng.randrange(9)):
        digits = rng.choice(("", "", "1", "2", "10", "02", "7", "18446744073709551615", "18446744073709551616"))
        name = rng.choice(FRONTS) + digits + rng.choice(ENDS)
        if name not in files:
            files[name] = None if rng.random() < 0.1 else next(tables, b"")
    return files


def wanted_of(command, files):
    """The answer of a command over a folder, and the lines of standard error in any order."""
    known = {name: rank_of(name) for name, data in files.items() if data is not None}
    passed = [name for name in files if known.get(name) is None]
    notes = [f"acpicheck: tables/{name}: {PASSED if files[name] is not None else FOLDER}" for name in passed]
    limit = 3 if command == "tables" else 2
    taken = sorted((*rank, f"tables/{name}") for name, rank in known.items() if rank and rank[0] < limit)
    data = [files[path.removeprefix("tables/")] for _, _, path in taken]
    if not data:
        return None, notes
    return (compare.reference_tables if command == "tables" else compare.reference_names)(data), notes


def told(path, folder, command, files):
    """The status, the lines of standard output, and those of standard error."""
    top = os.path.join(folder, "tables")
    shutil.rmtree(top, ignore_errors=True)
    os.mkdir(top)
    for name, data in files.items():
        if data is None:
            os.mkdir(os.path.join(top, name))
            continue
        with open(os.path.join(top, name), "wb") as file:
            file.write(data)
    done = subprocess.run([path, command, "tables"], capture_output=True, cwd=folder, timeout=SECONDS)
    lines = [text.decode("latin1").splitlines() for text in (done.stdout, done.stderr)]
    return done.returncode, *lines


def compare_folders(program, counts, rng, cases):
    """What stands for folders."""
    inputs = [(rng.choice(("tables", "names")), folder_input(rng)) for _ in range(cases)]
    started = [program.start(lambda folder, it=it: told(program.path, folder, *it)) for it in inputs]
    for (command, files), run in zip(inputs, started):
        (answer, notes), (status, lines, told_lines) = wanted_of(command, files), run.result()
        counts.cases += 1
        counts.read["no table" if answer is None else command] += 1
        passed = [line for line in told_lines if line.endswith((PASSED, FOLDER))]
        is_right = sorted(passed) == sorted(notes)
        if answer is None:
            none = "no table's file" if command == "tables" else "no file of a DSDT or an SSDT"
            is_right &= f"acpicheck: tables: {none} in this folder" in told_lines and lines[-1:] == ["fault E523 File"]
        else:
            is_right &= answer == (status, lines)
        if not is_right:
            inputs_told = [f"{name} {'folder' if data is None else data.hex()}" for name, data in files.items()]
            counts.tell(f"folder by {command}", inputs_told, (answer, notes), (status, lines, told_lines))
