#!/usr/bin/env python3
"""Runs every command over hostile tables: mutations of the tables that the rows and the examples have.

    python3 bench/hostile.py [--program PATH] [--runs N] [--seed S] [--keep FOLDER]

A run takes a list of tables from a row or from the examples, changes one or more of them, and gives them to a command.
The changes: bytes at random places, or set to 00, FF, 3F, 40, C0 and the opcodes that begin packages; a part cut out,
doubled, or taken from another table; a cut at the end; two machines' tables in one list; lists in another order. In
two of three runs length and checksum are made to fit afterwards, so that the change is read and not refused at once.

A run is bad where the status is none of 0 to 3, a signal ends it, it takes more than a second of processor time, or
its resident set passes 100 MB. Each bad run is told with its number, and its files are kept in FOLDER, if one is
given. N is 100,000 and S is 1, if they are not given; the seed and the number of a run say all that is random in it.
"""
import argparse
import glob
import os
import random
import resource
import sys
import tempfile
from concurrent.futures import ProcessPoolExecutor

import rows

SECONDS, KIB = 1.0, 100 * 1024
WORKERS = 4
MARKS = [0x00, 0x01, 0x3F, 0x40, 0x5B, 0x5C, 0x5E, 0x2E, 0x2F, 0x10, 0x11, 0x12, 0x13, 0x14, 0x15, 0x70, 0x80, 0xA0, 0xA1,
         0xA2, 0xC0, 0xFF]
NAMES = ["\\MAIN", "\\_SB_.PCI0._STA", "\\_OSI", "\\M000"]
# Objects of the tables that rows of resources and of routing have.
OBJECTS = ["\\BUF0", "\\M000", "\\M004", "\\_SB_.LNKA._CRS", "\\LNKC._CRS", "\\_SB_.PCI0.COM1._CRS"]
PRTS = ["\\_SB_.PCI0._PRT", "\\_PRT", "\\PKG0"]


def seeds():
    """The lists of tables of the rows and of the examples."""
    found, _ = rows.read_all(rows.all_files())
    lists = [[content for name, content in sorted(row.files.items()) if len(content) >= rows.HEADER] for row in found]
    lists += [[open(path, "rb").read()] for path in sorted(glob.glob(f"{rows.TOP}/examples/*.dat"))]
    unique = {tuple(tables) for tables in lists if tables and sum(map(len, tables)) < 1 << 16}
    return sorted(unique)


def changed(chance, table, others):
    """A table with one change."""
    place = chance.randrange(len(table) + 1)
    end = min(len(table), place + chance.choice([1, 2, 4, 8, 16, 64, 256]))
    kind = chance.randrange(7)
    if kind == 0 and table:
        at = chance.randrange(len(table))
        return table[:at] + bytes([chance.randrange(256)]) + table[at + 1:]
    if kind == 1 and table:
        at = chance.randrange(len(table))
        return table[:at] + bytes([chance.choice(MARKS)]) + table[at + 1:]
    if kind == 2:
        return table[:place] + table[end:]
    if kind == 3:
        return table[:end] + table[place:end] * chance.choice([1, 2, 50]) + table[end:]
    if kind == 4:
        other = chance.choice(others)
        at = chance.randrange(len(other) + 1)
        return table[:place] + other[at:at + chance.choice([4, 16, 64, 1024])] + table[place:]
    if kind == 5:
        return table[:place]
    return table[:place] + bytes([chance.choice(MARKS)]) * chance.choice([1, 3, 60, 70, 5000]) + table[place:]


def words_of(chance, count):
    """A command over so many files."""
    files = [f"t{k}.bin" for k in range(count)]
    name, asked, prt = chance.choice(NAMES), chance.choice(OBJECTS), chance.choice(PRTS)
    return chance.choice([
        ["tables", *files],
        ["names", *files],
        ["names", "--dead-externals", *files],
        ["verify", *files],
        ["verify", "--explain", "--dead-externals", *files],
        ["eval", "--plain", "10000", "--method", name, *files],
        ["eval", "--plain", "10000", "--dead-externals", "--method", name, *files],
        ["eval", "--plain", "10000", "--args", "0x1,buf:00FF,str:A,pkg", "--method", name, *files],
        ["eval", "--method", name, *files],
        ["resources", "--object", asked, *files],
        ["routing", "--object", prt, *files],
        ["routing", "--object", prt, "--madt", files[-1], *files],
    ])


def hostile(seed, number, lists):
    """The files and the words of a run."""
    chance = random.Random(seed * 1_000_003 + number)
    tables = list(chance.choice(lists))
    others = [table for table in chance.choice(lists)]
    if chance.randrange(8) == 0:
        tables += others
    if chance.randrange(8) == 0:
        chance.shuffle(tables)
    for _ in range(chance.choice([1, 1, 2, 3, 8])):
        which = chance.randrange(len(tables))
        tables[which] = changed(chance, tables[which], others)
    if chance.randrange(3):
        tables = [rows.fitted(table) if len(table) >= rows.HEADER else table for table in tables]
    return tables, words_of(chance, len(tables))


def run(program, words, room):
    """How a run of the program ends: its status or its signal, its processor time, its resident set in KiB."""
    child = os.fork()
    if child == 0:
        try:
            os.chdir(room)
            null = os.open(os.devnull, os.O_RDWR)
            for handle in range(3):
                os.dup2(null, handle)
            resource.setrlimit(resource.RLIMIT_CPU, (20, 20))
            os.execv(program, [program, *words])
        finally:
            os._exit(127)
    _, status, used = os.wait4(child, 0)
    return status, used.ru_utime + used.ru_stime, used.ru_maxrss


def what_is_wrong(answer):
    """What is bad of a run, or nothing."""
    status, seconds, kib = answer
    if os.WIFSIGNALED(status):
        return f"signal {os.WTERMSIG(status)}"
    if os.WEXITSTATUS(status) > 3:
        return f"status {os.WEXITSTATUS(status)}"
    if seconds > SECONDS:
        return f"{seconds:.1f} s"
    if kib > KIB:
        return f"{kib} KiB"
    return ""


def part(task):
    """The bad runs among some, with the statuses of all and the greatest time and memory."""
    program, seed, first, behind, keep = task
    lists, bad, statuses, slowest, largest = seeds(), [], {}, 0.0, 0
    with tempfile.TemporaryDirectory() as room:
        for number in range(first, behind):
            tables, words = hostile(seed, number, lists)
            for k, table in enumerate(tables):
                with open(f"{room}/t{k}.bin", "wb") as it:
                    it.write(table)
            answer = run(program, words, room)
            wrong = what_is_wrong(answer)
            status = os.waitstatus_to_exitcode(answer[0])
            statuses[status] = statuses.get(status, 0) + 1
            slowest, largest = max(slowest, answer[1]), max(largest, answer[2])
            if wrong:
                bad.append(f"run {number}: {wrong}: {' '.join(words)}")
                if keep:
                    for k, table in enumerate(tables):
                        with open(f"{keep}/run{number}-t{k}.bin", "wb") as it:
                            it.write(table)
    return bad, statuses, slowest, largest


def main():
    words = argparse.ArgumentParser()
    words.add_argument("--program", default=rows.PROGRAM)
    words.add_argument("--runs", type=int, default=100_000)
    words.add_argument("--seed", type=int, default=1)
    words.add_argument("--keep")
    given = words.parse_args()
    if not os.path.isfile(given.program):
        print(f"there is no program {given.program}")
        return 1
    if given.keep:
        os.makedirs(given.keep, exist_ok=True)
    step = max(1, min(1000, given.runs // WORKERS))
    tasks = [(os.path.abspath(given.program), given.seed, first, min(first + step, given.runs), given.keep)
             for first in range(0, given.runs, step)]
    failed, statuses, slowest, largest = 0, {}, 0.0, 0
    with ProcessPoolExecutor(WORKERS) as pool:
        for bad, counts, seconds, kib in pool.map(part, tasks):
            failed += len(bad)
            for line in bad:
                print(line, flush=True)
            for status, count in counts.items():
                statuses[status] = statuses.get(status, 0) + count
            slowest, largest = max(slowest, seconds), max(largest, kib)
    ends = ", ".join(f"{count} with {status}" for status, count in sorted(statuses.items()))
    print(f"seed {given.seed}: statuses {ends}; at most {slowest:.2f} s and {largest} KiB")
    print(f"{given.runs - failed} passed, {failed} failed")
    return 1 if failed else 0


if __name__ == "__main__":
    sys.exit(main())
