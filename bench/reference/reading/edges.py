#!/usr/bin/env python3
"""Compares program and reading at limits that random inputs don't reach: paths, sizes, long files and inputs.

    python3 edges.py [--program PATH] [--paths]

With --paths tables with nearly as many paths as there may be are compared too, which takes long.
"""
import itertools
import sys

import compare
import generate
import texts

SEGMENT = "ABCDEFGHIJKLMNOPQRSTUVWXYZ_"


def segment(number):
    """A segment of its own for each number."""
    text = ""
    for _ in range(4):
        number, digit = divmod(number, 27)
        text = SEGMENT[digit] + text
    return text.encode()


def package(inner):
    """The shortest package."""
    size = 1 if len(inner) < 63 else 2 if len(inner) < 4094 else 3 if len(inner) < 2**20 - 3 else 4
    value = len(inner) + size
    if size == 1:
        return bytes([value]) + inner
    return bytes([size - 1 << 6 | value & 15]) + (value >> 4).to_bytes(size - 1, "little") + inner


def path_limits():
    """Tables with nearly as many paths as there may be."""
    full = b"".join(b"\x08" + segment(number) + b"\0" for number in range(65525))
    device = full[:-12] + b"\x5B\x82\5ZZZZ"
    for more in (b"", b"\x08ZZZA\0", b"\x08ZZZA\0\x08ZZZB\0", b"\x08ZZZA\0\x08ZZZA\0", b"\x08ZZZA\0\x08\x2EAAABZZZB\0",
                 b"\x08ZZZA\0\x06ZZZZZZZB", b"\x08ZZZA\0\x06AAABZZZB", b"\x06QQQQZZZA", b"\x06AAABZZZA\x06AAABZZZB",
                 b"\x5B\x81\x10AAAB\0ZZZA\1ZZZB\1", b"\x5B\x82\x0AZZZA\x08ZZZB", b"\x08ZZZA\0\x10\5ZZZB",
                 b"\x08ZZZA\0\x15ZZZB\x08\1", b"\x08ZZZA\0\x5B\x82\x0BZZZB\x08AAAA\0", b"\x08ZZZA\0\x08\\\0\0"):
        yield [generate.table(b"DSDT", 2, full), generate.table(b"SSDT", 2, more)]
    yield [generate.table(b"DSDT", 2, device + b"\x10\x16ZZZZ\x08AAAA\0\x08AAAB\0\x08AAAC\0")]


def sizes():
    """Buffers and packages round their limits, in modules and in terms of modules."""
    for count in (65535, 65536, 65537, 70000):
        for size in (b"\1", b"\x0B\xFF\xFF", b"\x0C\0\0\1\0", b"\x0C\1\0\1\0", b"\x0E\0\0\1\0\0\0\0\0", b"\xFF", b"\x60"):
            buffer = b"\x11" + package(size + bytes(count))
            yield b"\x08BUF0" + buffer
            yield b"\x08PKG0\x12" + package(b"\1" + buffer)
            yield b"\x5B\x80REG0\1" + buffer + b"\1"
            yield b"\x5B\x81" + package(b"REG0\0\2" + buffer)
    for size in (b"\x0B\xFF\xFF", b"\x0C\xFF\xFF\0\0", b"\x0C\0\0\1\0", b"\xFF", b"\x0E\xFF\xFF\0\0\0\0\0\0",
                 b"\x0E\0\0\0\0\1\0\0\0", b"\x0C\0\0\1"):
        for elements in (b"", b"\2", b"\1", b"\x5B\x30", b"\x08"):
            yield b"\x08PKG0\x13" + package(size + elements)
            yield b"\x08BUF0\x11" + package(size + elements)
    for bits in (b"\0", b"\xFF", b"\x0C\0\0\0\x80", b"\x0E\0\0\0\0\1\0\0\0", b"\x0E\5\0\0\0\1\0\0\0", b"\x0E" + b"\xFF" * 8):
        yield b"\x5B\x13BUF0\0" + bits + b"FLD0"
    for bits in (b"\0", b"\x3F", b"\x40\0", b"\x4F\xFF", b"\xCF\xFF\xFF\xFF", b"\xFF\xFF\xFF\xFF", b"\xC0\0\0\0",
                 b"\x80\0\0", b"\xC0\0\0"):
        yield b"\x5B\x81" + package(b"REG0\0FLD0" + bits)
        yield b"\x5B\x81" + package(b"REG0\0\0" + bits + b"FLD0\1")
    yield b"\x08STR0\x0D" + b"A" * 70000 + b"\0"
    yield b"\x08STR0\x0D" + b"A" * 70000
    yield b"\x08" + b"^" * 300 + b"STR0\0"
    for count in (1, 2, 64, 255):
        yield b"\x08\x2F" + bytes([count]) + b"AAAA" * count + b"\0"
        yield b"\x06\x2F" + bytes([count]) + b"AAAA" * count + b"BBBB"


def bodies():
    """Large buffers and packages in bodies."""
    for count in (65535, 65536, 65537):
        for size in (b"\1", b"\x0C\0\0\1\0", b"\x0C\1\0\1\0", b"\x60", b"\x72\1\1\0", b"\x0A"):
            for front in (b"\xA4", b"\x08BUFF", b"\x5B\x81"):
                buffer = b"\x11" + package(size + bytes(count))
                yield front + (buffer if front != b"\x5B\x81" else package(b"REG0\0\2" + buffer))
    for size in (b"\x0B\xFF\xFF", b"\x0C\0\0\1\0", b"\xFF", b"\x60", b"\x0C\0\0\1"):
        for elements in (b"", b"\2", b"\1", b"AAAA", b"\x60"):
            yield b"\xA4\x13" + package(size + elements)
            yield b"\xA4\x12" + package(b"\1\x13" + package(size + elements))


def check(number, wanted, got, told):
    """Counts a difference."""
    if wanted != got:
        told.append(number)
        print("difference", number, compare.tail(wanted), compare.tail(got), flush=True)


def long_inputs(program, told):
    """Files and inputs round the greatest length, and how many were compared."""
    limit = texts.GREATEST_INPUT
    for size in (limit, limit + 1):
        data = generate.table(b"DSDT", 2, b"\x08STR0\x0D" + b"A" * (size - 36 - 7) + b"\0")
        program.put("f", data)
        for command in (["names"], ["tables"]):
            wanted = texts.answer(command + ["f"], texts.Files({"f": data}))
            check((command, size), wanted, program.run(command + ["f"]), told)
    inputs = [b"names " + b"x" * (size - 6) for size in (limit, limit + 1)]
    small = generate.table(b"DSDT", 2, b"")
    for size in (limit - 1, limit, limit + 1, limit + 2):
        for last in (b"", b"\n"):
            for words in (b"tables @ @\n", b"tables @\n"):
                front = words + small.hex().encode() + b"\n"
                inputs.append(front + b"0" * (size - len(front) - len(last)) + last)
    for data in inputs:
        check(("input", data[:20], len(data), data[-1:]), texts.answer_input(data), program.run([], data), told)
    return 4 + len(inputs)


def compare_names(program, told, paths):
    """Sets of tables by `names`."""
    sets = [[generate.table(b"DSDT", revision, contents)] for contents in sizes() for revision in (1, 2)]
    count = 0
    for files in itertools.chain(path_limits() if paths else (), sets):
        count += 1
        check(files[0][36:56].hex(), compare.reference_names(files), program.run_files(["names"], files), told)
    return count


def compare_bodies(program, told):
    """Bodies by `verify`."""
    count = 0
    for body in bodies():
        count += 1
        files = compare.bodies_tables([(0, 0, body)])
        wanted, got = compare.body_lines(files), compare.program_body_lines(program, files)
        if wanted != got:
            told.append(body)
            print("difference", body[:20].hex(), wanted["\\M000"], got.get("\\M000"))
    return count


def main():
    words = compare.words_of(__doc__)
    words.add_argument("--paths", action="store_true")
    given = compare.given_words(words)
    program, told = compare.Program(given.program), []
    count = compare_names(program, told, given.paths) + compare_bodies(program, told) + long_inputs(program, told)
    print(f"{count} compared, {len(told)} differences")
    return 1 if told else 0


if __name__ == "__main__":
    sys.exit(main())
