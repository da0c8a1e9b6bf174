#!/usr/bin/env python3
"""Compares which of several faults of one command line is told first, for all commands, by files and by standard input.

    python3 order.py [--program PATH] [--step N]

With --step only every Nth mixture of faults is compared.
"""
import collections
import itertools
import os
import sys

import compare
import compare_texts
import generate
import texts

MADT = generate.table(b"APIC", 1, bytes(8))
STATES = {
    "--args": {"good": "5", "bad": "x"},
    "--regs": {"good": b"io 0 11\n", "bad": b"#\nio 0\n", "missing": None},
    "--kinds": {"good": b"\\ARG1 int\n", "bad": b"\\ARG1 in\n", "missing": None},
    "--madt": {"good": MADT, "bad": MADT + b"\0", "other": generate.table(b"DSDT", 2, bytes(8)), "missing": None},
    "--method": {"good": "\\ARG1", "bad": "\\NONE", "refused": "\\BADM"},
    "--object": {"bad": "\\NONE"},
    "--plain": {"good": "9", "bad": "y"},
}
NAMES = ("regs", "kinds", "madt", "table0", "table1")
TABLES = {"good": compare_texts.FIXED[2], "bad": compare_texts.FIXED[2] + b"\0", "missing": None}


def requests():
    """Every command with every mixture of good, bad and missing options and files."""
    for command, allowed in texts.OPTIONS.items():
        choices = [[(name, state) for state in ([None] if not needed else []) + list(STATES[name])] if name in STATES
                   else [(name, None)] for name, needed in allowed.items()]
        for options in itertools.product(*choices):
            for files in (("good",), ("bad",), ("missing",), ("good", "missing"), ("bad", "missing"), ("missing", "bad")):
                yield command, [option for option in options if option[1]], files


def as_files(command, options, files):
    """The words and the files of a request."""
    words, found = [command], {}
    for name, state in options:
        value = STATES[name][state]
        if isinstance(value, str):
            words += [name, value]
        else:
            words += [name, name[2:]]
            found[name[2:]] = value
    for number, state in enumerate(files):
        words.append(f"table{number}")
        found[f"table{number}"] = TABLES[state]
    return words, {name: data for name, data in found.items() if data is not None}


def as_input(words, found):
    """The same by standard input; a missing file is a line that is no hex text."""
    order = [name for name in NAMES if name in words]
    first = " ".join("@" if word in order else word for word in words)
    return "\n".join([first] + [found[name].hex() if name in found else "zz" for name in order]).encode() + b"\n"


def put_files(program, found):
    """Writes the files of a request and takes away those of others."""
    for name in NAMES:
        if name in found:
            program.put(name, found[name])
        elif os.path.exists(f"{program.folder}/{name}"):
            os.remove(f"{program.folder}/{name}")


def wanted_answer(words, make):
    """The reading's answer, or None where it does not say what is evaluated."""
    try:
        return make()
    except NotImplementedError:
        return (1, ["fault E525 NoSuchObject"]) if "\\NONE" in words else None


def compare_request(program, request, seen):
    """How many answers on a request were compared, and how many differ."""
    words, found = as_files(*request)
    put_files(program, found)
    data = as_input(words, found)
    count = told = 0
    for got, make in ((program.run(words), lambda: texts.answer(words, texts.Files(found))),
                      (program.run([], data), lambda: texts.answer_input(data))):
        wanted = wanted_answer(words, make)
        if request[0] == "verify" and wanted is None:
            continue
        seen[wanted[1][-1].split()[1] if wanted[1] else "-"] += 1
        count += 1
        if wanted != got:
            told += 1
            print("difference", words, request, wanted[0], wanted[1][-2:], got[0], got[1][-2:])
    return count, told


def main():
    words = compare.words_of(__doc__)
    words.add_argument("--step", type=int, default=1)
    given = compare.given_words(words)
    program, count, told, seen = compare.Program(given.program), 0, 0, collections.Counter()
    for request in itertools.islice(requests(), 0, None, given.step):
        compared, differ = compare_request(program, request, seen)
        count, told = count + compared, told + differ
    print("faults", dict(sorted(seen.items())))
    print(f"{count} compared, {told} differences")
    return 1 if told else 0


if __name__ == "__main__":
    sys.exit(main())
