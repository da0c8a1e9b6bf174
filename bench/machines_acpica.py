#!/usr/bin/env python3
"""Compares evaluations of machines' own methods with ACPICA's: machines_acpica.py FOLDER [ACPICHECK].

In the folder, or in folders in it, each file whose name begins with DSDT is a machine, with the SSDT whose name ends as
its own does. Each method that is accepted is evaluated with as many ones as it takes arguments, by acpicheck and by
`acpiexec` (of Debian's acpica-tools), over registers that all hold zero. Printed are the methods whose values differ and,
last, how many do not; the status is 1 where one differs or nothing was compared. Packages are compared without the names
in them, which `acpiexec` prints by their last segments. As it runs methods named `_REG` and `_STA` of its own accord
first, it has copies of the tables in which they are named otherwise. What is refused is counted, what is not evaluated
(`_OSI`, and methods whose arguments are no integers), and what `acpiexec` does not show.
"""
import collections
import concurrent.futures
import os
import re
import subprocess
import sys
import tempfile
from pathlib import Path

ACPICHECK = Path(__file__).resolve().parent.parent / "crates/acpicheck/out/acpicheck"
OURS = re.compile(r'(0x[0-9a-f]+)|buffer ?([0-9a-f]*)|string "((?:[^"\\]|\\.)*)"|package \[|\]|, |[^,\]]+')
NAME = "a name, or nothing"
# acpiexec prints no value that takes more than 16 KiB, and sleeps as long as a method asks it to.
TOO_LARGE, TOO_LONG = "AE_BUFFER_OVERFLOW", "it sleeps"
SECONDS = 10


def run(*words):
    done = subprocess.run([*map(str, words)], capture_output=True, text=True, stdin=subprocess.DEVNULL, timeout=SECONDS, check=False)
    return done.returncode, done.stdout.splitlines()


def ours(text):
    """The value of a line `result`: an integer, a text, a buffer's bytes, a list, or None."""
    if text == "none":
        return None
    lists = [[]]
    for it in OURS.finditer(text):
        if it[0] == "package [":
            lists.append([])
        elif it[0] == "]":
            lists[-2].append(lists.pop())
        elif it[1]:
            lists[-1].append(int(it[1], 16))
        elif it[2] is not None:
            lists[-1].append(bytes.fromhex(it[2]))
        elif it[3] is not None:
            lists[-1].append(it[3].encode().decode("unicode_escape"))
        elif it[0] != ", ":
            lists[-1].append(NAME)
    return lists[0][0]


class Theirs:
    """The value that `acpiexec` prints, line by line."""

    def __init__(self, lines):
        self.lines = iter(lines)

    def buffer(self, length, line):
        found = b""
        while True:
            digits = re.match(r"\s*(?:[0-9A-F]{4}: )?((?:[0-9A-F]{2} )*)", line + " ")
            found += bytes.fromhex(digits[1])
            if len(found) >= length:
                return found[:length]
            line = next(self.lines)

    def value(self):
        line = next(self.lines)
        if found := re.match(r"\s*\[Integer\] = ([0-9A-F]+)", line):
            return int(found[1], 16)
        if found := re.match(r'\s*\[String\] Length [0-9A-F]+ = "(.*)"', line):
            return found[1].encode().decode("unicode_escape")
        if found := re.match(r"\s*\[Buffer\] Length ([0-9A-F]+) =(.*)", line):
            return self.buffer(int(found[1], 16), found[2])
        if found := re.match(r"\s*\[Package\] Contains (\d+) Elements", line):
            return [self.value() for _ in range(int(found[1]))]
        return NAME


def theirs(path, files, arguments):
    try:
        _, lines = run("acpiexec", "-di", "-b", " ".join(["execute", path, *arguments]), *files)
    except subprocess.TimeoutExpired:
        return TOO_LONG
    for number, line in enumerate(lines):
        if line.startswith("No object was returned"):
            return None
        if re.match(r"Evaluation of .* returned object", line):
            return Theirs(lines[number + 1:]).value()
    return next(iter(re.findall(r"AE_\w+", "\n".join(lines))), "nothing was printed")


def renamed(text):
    return text.replace(b"_REG", b"_RE0").replace(b"_STA", b"_ST0")


def with_names_changed(files, folder):
    """Copies of the tables in which nothing is named `_REG` or `_STA`."""
    copies = []
    for file in files:
        table = bytearray(renamed(file.read_bytes()))
        table[9] = (table[9] - sum(table)) % 256
        copies.append(Path(folder, f"{len(copies)}.aml"))
        copies[-1].write_bytes(table)
    return copies


def compare(program, files, path, count):
    """Whether both give the same, or how the method was refused."""
    arguments = ["1"] * count
    given = ["--args", ",".join(arguments)] if arguments else []
    status, lines = run(program, "eval", "--dead-externals", "--method", path, *given, *files)
    if status != 0:
        return "refused" if " refused " in lines[-1] else "not evaluated"
    with tempfile.TemporaryDirectory() as folder:
        there = theirs(renamed(path.encode()).decode(), with_names_changed(files, folder), arguments)
    here = ours(lines[-1].removeprefix("result "))
    if there in (TOO_LARGE, TOO_LONG):
        return "not shown"
    return "equal" if here == there else f"{path} of {files[0]}: here {here}, there {there}"


def methods(program, files):
    status, lines = run(program, "names", "--dead-externals", *files)
    found = [line.split() for line in lines if re.search(r" method \d$", line)]
    return [(files, path, int(count)) for path, _, count in found] if status == 0 else []


def main(folder, program=ACPICHECK):
    asked = []
    for dsdt in sorted(Path(folder).rglob("DSDT*")):
        ssdt = dsdt.with_name(dsdt.name.replace("DSDT", "SSDT", 1))
        asked += methods(program, [dsdt, *filter(Path.exists, [ssdt])])
    counts = collections.Counter()
    # (more than there are processors, since most of the time acpiexec sleeps)
    with concurrent.futures.ThreadPoolExecutor(4 * len(os.sched_getaffinity(0))) as pool:
        for answer in pool.map(lambda it: compare(program, *it), asked):
            kind = answer if answer in ("equal", "refused", "not evaluated", "not shown") else "differ"
            counts[kind] += 1
            if kind == "differ":
                print(answer)
    print(", ".join(f"{count} {kind}" for kind, count in sorted(counts.items())) or "there is no method")
    return 1 if counts["differ"] or not counts["equal"] else 0


if __name__ == "__main__":
    sys.exit(main(*sys.argv[1:]))
