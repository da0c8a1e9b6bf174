#!/usr/bin/env python3
"""Runs the built program over the stored cases, and over its rows (bench/rows.py); and compares the README's example
with its file (bench/readme.py).

    python3 bench/cases.py
    rt ci | python3 bench/cases.py after

A case is a folder crates/acpicheck/cases/NAME:

| file | what it says |
|---|---|
| words | the words, one a line, each with Python's escapes for bytes, as \\xff; no file: no words |
| input | standard input; no file: an empty one |
| NAME.hex | hex text, spaces and line ends left out, whose bytes stand in the file NAME where the program runs |
| NAME.link | where the link NAME leads that stands there |
| a folder | a folder of that name there, with such files |
| output | what standard output must be; no file: nothing |
| status | the status that the program must end with; no file: 0 |
| notes | lines that must stand on standard error, parts of lines where they do not begin as the program's own; no file: it must be empty |
| sink | the file that standard output goes to, as /dev/full, in place of a pipe |
| memory | how many bytes of memory the program may have; no file: as many as there are |

The program is the one that `rt ci` leaves in crates/acpicheck/out. With the word `after` the lines of `rt ci` are read
from standard input and printed, and the last line counts its checks too; a run that ends without its counts is a
failure.
"""
import os
import re
import resource
import subprocess
import sys
import tempfile

import readme
import rows

TOP = os.path.dirname(os.path.dirname(os.path.abspath(__file__)))
CRATE = f"{TOP}/crates/acpicheck"
SECONDS = 60
# What a line that the program itself tells begins with.
OWN = "acpicheck: "
COUNTS = re.compile(r"(\d+) passed, (\d+) failed\n?")


def part(case, name, default=None):
    """The bytes of a file of the case."""
    try:
        with open(f"{case}/{name}", "rb") as it:
            return it.read()
    except FileNotFoundError:
        return default


def words_of(case):
    lines = part(case, "words", b"").decode("ascii").splitlines()
    return [line.encode("ascii").decode("unicode_escape").encode("latin-1") for line in lines]


def lay_out(case, room):
    """Writes the case's files, and those of its folders, where the program is to run."""
    for name in os.listdir(case):
        if os.path.isdir(f"{case}/{name}"):
            os.mkdir(f"{room}/{name}")
            lay_out(f"{case}/{name}", f"{room}/{name}")
        elif name.endswith(".hex"):
            with open(f"{room}/{name.removesuffix('.hex')}", "wb") as it:
                it.write(bytes.fromhex(part(case, name).decode("ascii")))
        elif name.endswith(".link"):
            os.symlink(part(case, name).decode().strip(), f"{room}/{name.removesuffix('.link')}")


def limit_of(memory):
    """Holds the process that calls it to that many bytes."""
    return lambda: resource.setrlimit(resource.RLIMIT_AS, (memory, memory))


def run(program, case, room):
    """The program's status, standard output and standard error."""
    lay_out(case, room)
    sink = part(case, "sink")
    memory = part(case, "memory")
    with open(sink.decode().strip() if sink else os.devnull, "wb") as full:
        out = full if sink else subprocess.PIPE
        ran = subprocess.run([program, *words_of(case)], input=part(case, "input", b""), stdout=out,
                             stderr=subprocess.PIPE, cwd=room, timeout=SECONDS,
                             preexec_fn=limit_of(int(memory)) if memory else None)
    return ran.returncode, ran.stdout or b"", ran.stderr


def differences(program, case):
    """What differs from what the case wants."""
    try:
        with tempfile.TemporaryDirectory() as room:
            status, output, notes = run(program, case, room)
    except (OSError, subprocess.TimeoutExpired, ValueError) as error:
        return [f"it did not run: {error}"]
    found = []
    wanted = int(part(case, "status", b"0"))
    if status != wanted:
        found.append(f"status {status}, wanted {wanted}")
    if output != part(case, "output", b""):
        found.append(f"it wrote {output[:200]!r}")
    told = part(case, "notes", b"").decode().splitlines()
    if not told and notes:
        found.append(f"on standard error {notes[:200]!r}")
    lines = notes.decode(errors="replace").splitlines()
    found += [f"not on standard error: {line}" for line in told if not is_told(line, lines)]
    return found


def is_told(note, lines):
    """Whether a note is told: a line of the program's own as it stands, any other text within a line."""
    return note in lines if note.startswith(OWN) else any(note in line for line in lines)


def counts_of(lines):
    """Prints the lines of the checks before, and returns how many passed and failed."""
    last = ""
    for last in lines:
        print(last, end="", flush=True)
    counts = COUNTS.fullmatch(last)
    return (int(counts[1]), int(counts[2])) if counts else (0, 1)


def main(words):
    program, folder = f"{CRATE}/out/acpicheck", f"{CRATE}/cases"
    passed, failed = counts_of(sys.stdin) if words == ["after"] else (0, 0)
    names = sorted(os.listdir(folder))
    if not names or not os.path.isfile(program):
        print("cases: there is no built program, or no case")
        failed += 1
        names = []
    for name in names:
        found = differences(program, f"{folder}/{name}")
        for line in found:
            print(f"case {name}: {line}")
        passed, failed = passed + (not found), failed + bool(found)
    unlike = readme.found()
    for line in unlike:
        print(f"readme: {line}")
    passed, failed = passed + (not unlike), failed + bool(unlike)
    right, wrong = rows.counts(program, rows.all_files())
    passed, failed = passed + right, failed + wrong
    print(f"{passed} passed, {failed} failed")
    return 1 if failed else 0


if __name__ == "__main__":
    sys.exit(main(sys.argv[1:]))
