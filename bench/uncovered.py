#!/usr/bin/env python3
"""Lists the public functions whose bodies no wrong body of `crates/*/edits` turns: uncovered.py [CRATE ..].

Left out are laws, whose bodies are empty, and crates that stand in tests alone. What is listed has no wrong body that could
be written so, as a function that gives back its one field.
"""
import re
import sys

import edit_texts
from edits import TOP

OF_TESTS = re.compile(r"\w+_tests|acpi_samples|acpi_loops|acpi_example")


def uncovered(crate):
    """The public functions of a crate that no edit touches, by path, line, type and name."""
    sources = edit_texts.Sources(TOP, crate)
    touched = set()
    for file in edit_texts.edit_files(TOP, crate):
        edit = edit_texts.read_edit(TOP, crate, file)
        touched |= frozenset() if edit.is_further else sources.touched(edit)
    for path, functions in sources.functions.items():
        lines = sources.texts[path].split("\n")
        for function in functions:
            is_public = re.match(r"\s*pub (const )?fn", lines[function.head])
            is_law = not any(lines[at].endswith("{") for at in range(function.head, function.last))
            if is_public and not is_law and function not in touched:
                yield path, function


def main(words):
    for crate in words or edit_texts.crates_of(TOP):
        if OF_TESTS.fullmatch(crate):
            continue
        for path, function in uncovered(crate):
            name = "::".join(it for it in (function.type, function.trait, function.name) if it)
            print(f"crates/{crate}/{path}:{function.head + 1}: {name}")


if __name__ == "__main__":
    main(sys.argv[1:])
