#!/usr/bin/env python3
"""Measures the stack that the deepest evaluations take: stack.py [ACPICHECK] [FORM ..].

For each form of term a DSDT is made of 64 methods, or as many as may be active, each of which calls the next within as many terms of
the form, one within the other, as may be. What is printed is the least stack, in KiB, with which the program ends its evaluation, to
16 KiB, by trying: straight from the bytes, where the verifier accepts the method, and from its tree (`--plain`).

The next term of a form is its first operand, or its second where the name of the form says so; of `Store`, whose target is a local,
it is the source, and of `DerefOf`, which is of an Index, the index, or what that is of: a package in packages, down to its integer. Of `Add into an Index` it is the index of the target, as in
`Add (1, 1, Index (BUFF, Add (1, 1, Index (BUFF, ..))))`: a Store into an Index cannot stand so, since it is no operand.
"""
import resource
import subprocess
import sys
import tempfile
from pathlib import Path

from tables import dsdt, method, names_in_order, package

ACPICHECK = Path(__file__).resolve().parent.parent / "crates/acpicheck/out/acpicheck"
METHODS = 64
DEPTH = 64
MOST = 64 * 1024
PLAIN = ["--plain", "1000000"]

# what stands round a term of the form, and how many terms deep that is
AROUND = {
    "LNot": (b"\x92", b"", 1),
    "Add": (b"\x72", b"\x00\x00", 1),
    "LEqual": (b"\x93", b"\x00", 1),
    "second of LEqual": (b"\x93\x00", b"", 1),
    "Divide": (b"\x78", b"\x01\x00\x00", 1),
    "ToInteger": (b"\x99", b"\x00", 1),
    "Concatenate": (b"\x73", b"\x0da\x00\x00", 1),
    "second of Concatenate": (b"\x73\x0da\x00", b"\x00", 1),
    "Store": (b"\x70", b"\x60", 1),
    "DerefOf": (b"\x83\x88BUFF", b"\x00", 2),
    "source of DerefOf": (b"\x83\x88", b"\x00\x00", 2),
    "Add into an Index": (b"\x72\x01\x01\x88BUFF", b"\x00", 2),
    "argument": (b"PASS", b"", 1),
}
BLOCKS = {"If": b"\xa0", "While": b"\xa2"}


def statement(form, inside):
    """A statement of the form round a call, as deep as statements may be."""
    if form in BLOCKS:
        for _ in range(DEPTH - 1):
            inside = package(BLOCKS[form], b"\x01" + inside + (b"\xa5" if form == "While" else b""))
        return inside
    before, behind, deep = AROUND[form]
    times = (DEPTH - 2) // deep
    return before * times + inside + behind * times


def packages(deep):
    """One in packages, so many in one another."""
    inside = b"\x01"
    for _ in range(deep):
        inside = package(b"\x12", b"\x01" + inside)
    return inside


def constant(form):
    """What the last method begins with."""
    if form == "source of DerefOf":
        return b"DEEP"
    return b"\x0db\x00" if "Concatenate" in form else b"\x01"


def table(form):
    """The methods, the last of which does the same round a constant."""
    last = constant(form)
    methods = METHODS - 1 if form == "argument" else METHODS
    names = [b"MAIN", *names_in_order(methods - 1)]
    calls = b"".join(method(name, statement(form, inside) + b"\xa4" + last) for name, inside in zip(names, [*names[1:], last]))
    names_first = b"\x08BUFF" + package(b"\x11", b"\x0a\x04") + b"\x08DEEP" + packages((DEPTH - 2) // 2)
    return dsdt(names_first + package(b"\x14", b"PASS\x01\xa4\x68") + calls)


def ends(program, words, file, kib):
    """Whether the program ends its evaluation with so much stack."""
    limit = (kib * 1024, kib * 1024)
    words = [program, "eval", "--method", "\\MAIN", *words, file]
    return subprocess.run(words, stdin=subprocess.DEVNULL, stdout=subprocess.PIPE, stderr=subprocess.DEVNULL,
                          preexec_fn=lambda: resource.setrlimit(resource.RLIMIT_STACK, limit))


def least(program, words, file):
    """The least stack with which the program ends, or what it says where it gives no result."""
    whole = ends(program, words, file, MOST)
    if whole.returncode != 0 or not whole.stdout.startswith(b"result"):
        return whole.stdout.decode().strip()
    low, high = 64, MOST
    while high - low > 16:
        middle = (low + high) // 2
        low, high = (low, middle) if ends(program, words, file, middle).returncode == 0 else (middle, high)
    return f"{high} KiB"


def main(words):
    program = words.pop(0) if words and "/" in words[0] else str(ACPICHECK)
    with tempfile.TemporaryDirectory() as room:
        for form in words or [*AROUND, *BLOCKS]:
            file = f"{room}/dsdt.aml"
            Path(file).write_bytes(table(form))
            print(f"{form}: {least(program, [], file)}, --plain {least(program, PLAIN, file)}", flush=True)


if __name__ == "__main__":
    main(sys.argv[1:])
