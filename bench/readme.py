#!/usr/bin/env python3
"""Compares the README's example for authors of boot code with the file that the gate compiles and runs.

    python3 bench/readme.py

The README has the whole text of crates/acpi_example/src/value.rt, as a block of code that is marked as rust, and no
other such block.
"""
import os
import re
import sys

TOP = os.path.dirname(os.path.dirname(os.path.abspath(__file__)))
QUOTED = f"{TOP}/crates/acpi_example/src/value.rt"
BLOCK = re.compile(r"^```rust\n(.*?)^```$", re.DOTALL | re.MULTILINE)


def differences(page, file):
    """What differs between the block of a page and a file's text."""
    blocks = BLOCK.findall(page)
    if len(blocks) != 1:
        return [f"the README has {len(blocks)} blocks of rust, wanted 1"]
    if blocks[0] == file:
        return []
    for number, (has, wanted) in enumerate(zip(blocks[0].splitlines(), file.splitlines()), 1):
        if has != wanted:
            return [f"line {number} of the README's example is {has!r}, and the file has {wanted!r}"]
    return ["the README's example and the file are not of the same length"]


def found():
    """What differs between the README and the file."""
    with open(f"{TOP}/README.md", encoding="utf-8") as page, open(QUOTED, encoding="utf-8") as file:
        return differences(page.read(), file.read())


def main():
    lines = found()
    for line in lines:
        print(f"readme: {line}")
    return 1 if lines else 0


if __name__ == "__main__":
    sys.exit(main())
