#!/usr/bin/env python3
"""Every operator with every nasty byte at each of its parts, at the top, in other statements, and near the greatest depth.

    python3 exhaustive.py [--program PATH] [--first N] [--seconds T]

With --first only the bodies from the Nth on are compared, and each in fewer places.
"""
import itertools
import tempfile
import time
import zlib

from aml import LETTERS, OPCODES, op, packaged, table_of
from generate import NASTY, nest
from judge import verdict_lines
from program import FOREVER, Program, given_words, run_deeply, words_of

GOOD = {"t": b"\1", "g": b"\x60", "s": b"\x60", "m": b"\x60", "n": b"AAAA", "b": b"\1", "w": b"\1\2", "d": b"\1\2\3\4",
        "D": b"\1", "L": b"\xa3", "Y": b"\1\2", "K": b"\1AAAA", "F": b"FFFF\x08"}
ITEMS = [b"\0", b"\0\x40", b"\1", b"\1\1", b"\2", b"\3", b"\3\1\1", b"AAAA", b"AAAA\x80", b"AAA", b"AAA\x5b", b"\x04",
         b"\2\x11\2\x60", b"\2\x11\3\1\2", b"\2\0", b"\2\x5c\0", b"\2\x60", b"\2\x11", b"\2AAAA\2BBBB", b"\2\x11\2\xfe",
         b"0AAA\1", b"\xff"]
MORE = [b"\x60", b"\x68", b"\x6e", b"\x6f", b"\x5b\x31", b"\x5b\x30", b"\x5b\x12", b"\x71\x60", b"\x83\1",
        b"\x88\1\1\0", b"\x88\x60\x60\x60", b"\x72\1\1\0", b"\1", b"\xff", b"\x0a\1", b"\x0dA\0", b"\x11\2\1",
        b"\x12\2\1", b"\x13\2\1", b"AAAA", b"\x5cAAAA", b"\x5eAAAA",
        b"\x2eAAAABBBB", b"\x2f\1AAAA", b"\xa3", b"\x06AAAABBBB", b"\x08AAAA\1", b"\xa0\2\1", b"\xa4\1", b"\x9f",
        b"\xcc", b"\x14\6AAAA\0", b"\x5b\x82\5AAAA", b"\x5b\x2a", b"\x5b\x2a\1", b"\x86\x60\1", b"\x3a", b"\x7b",
        b"\x5b\x33", b"\x8f", b"\xa1\1"]


def bodies():
    """Fronts of operators, each with something at the part that comes next."""
    for name, letters in LETTERS.items():
        lead = OPCODES[name]
        opcode = bytes([lead]) if lead < 256 else bytes([lead >> 8, lead & 255])
        plain = [letter for letter in letters if letter != "P"]
        for number, letter in enumerate(plain):
            if letter in "bwdY" and number:
                tails = [b"", b"\1", b"\1\1"]
            else:
                tails = NASTY + MORE + [b""] + (ITEMS if letter == "F" else [])
            front = b"".join(GOOD[x] for x in plain[:number])
            for tail in tails:
                inner = front + tail
                yield packaged(opcode, inner) if "P" in letters else opcode + inner
                if number + 1 < len(plain) and len(tail) > 0 and tail not in NASTY:
                    rest = b"".join(GOOD[x] for x in plain[number + 1:])
                    yield packaged(opcode, inner + rest) if "P" in letters else opcode + inner + rest
    for tail in NASTY + MORE:
        yield tail
        yield packaged(b"\xa0", b"\1") + b"\xa1" + tail
        yield packaged(b"\xa0", b"\1") + packaged(b"\xa1", tail)
    # Lengths of packages, at and past what encloses them.
    for opcode, inner in ((b"\xa0", b"\1\xa3"), (b"\x11", b"\1\xa3"), (b"\x12", b"\1\1"), (b"\x5b\x82", b"AAAA"),
                          (b"\x10", b"AAAA\xa3"), (b"\x5b\x81", b"AAAA\1")):
        for length in range(len(inner) + 3):
            for spelling in (bytes([length]), bytes([0x40 | length, 0]), bytes([0xB0 | length, 0, 0]),
                             bytes([0xC0 | length, 0, 0, 0]), b"\x40\1", b"\xc0", b"\x80\0"):
                yield opcode + spelling + inner
                yield opcode + spelling + inner + b"\1"


def wrapped(body, few):
    """A body in the places where it is compared."""
    yield body
    if few:
        if zlib.crc32(body) % 3 == 0:
            yield nest(b"\1", 62 + zlib.crc32(body) % 2, body)
        return
    yield op("If", b"\1", body)
    yield op("While", b"\1", op("Scope", b"AAAA", body)) + b"\1"
    for levels in (61, 62, 63):
        yield nest(b"\1", levels, body)


def compare(program, chunk):
    """How many verdicts on these bodies were compared, and how many differ."""
    front = op("Method", b"AAAA", b"\0", b"") + op("Device", b"DEV0", b"")
    methods = [op("Method", f"M{i:03X}".encode(), b"\0", body) for i, body in enumerate(chunk)]
    table = table_of(front + b"".join(methods), 2)
    mine, theirs = verdict_lines([table]), program.lines([table])
    found = 0
    for a, b, body in zip(mine[1:], theirs[1:], chunk):
        if a != b:
            found += 1
            print("DIFFERENCE", a, "|", b, "|", body.hex(" ")[-120:], flush=True)
    if len(mine) != len(theirs):
        found += 1
        print("DIFFERENCE in the number of lines", len(mine), len(theirs))
    return len(mine), found


def main():
    words = words_of(__doc__)
    words.add_argument("--first", type=int, default=0)
    words.add_argument("--seconds", type=float, default=FOREVER)
    given = given_words(words)
    began, found, total = time.time(), 0, 0
    with tempfile.TemporaryDirectory() as folder:
        program = Program(given.program, folder)
        chosen = itertools.islice(bodies(), given.first, None)
        every = (made for body in chosen for made in wrapped(body, given.first > 0))
        while time.time() - began < given.seconds and (chunk := list(itertools.islice(every, 1000))):
            compared, differ = compare(program, chunk)
            total, found = total + compared, found + differ
    print(f"{total} compared, {found} differences")
    return 1 if found else 0


if __name__ == "__main__":
    run_deeply(main)
