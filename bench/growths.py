#!/usr/bin/env python3
"""Refuses each growth of memory in turn, in the tests and in the rows of the program that are marked for it.

    python3 bench/growths.py

A test whose name begins with `rows_of_` or `want_of_memory` makes a call again where the first try wants memory, and
compares the answer, so it passes whichever growth is refused. Every crate of crates.txt whose sources have such a test
is taken. A row is taken that stands under `growths` in its file (bench/rows.py). The built program is run on it, and
whichever growth is refused, it must end as the row says or tell want of memory: with status 1, and on standard output
a beginning of what the row says, behind which `fault E524 NoMemory` may stand; on standard error whole lines of the
program's own, since it may have told of the row's fault, or of the file, before memory was wanted.

The programs are those that `make test` leaves in crates/NAME/out; one that is missing, or older than the sources that
it is built from, or that lists no such test, is a failure. The N-th growth of a run is refused by a `malloc` of this
script's own, for which a C compiler is needed.
"""
import os
import re
import subprocess
import sys
import tempfile
from concurrent.futures import ThreadPoolExecutor

import rows

SHIM = r"""
#define _GNU_SOURCE
#include <dlfcn.h>
#include <stdio.h>
#include <stdlib.h>

static long grown, refused;

static int refuses(void)
{
    if (!refused) {
        const char *text = getenv("REFUSED_GROWTH");
        refused = text ? atol(text) : -1;
    }
    return ++grown == refused;
}

void *malloc(size_t size)
{
    static void *(*next)(size_t);
    if (!next)
        next = dlsym(RTLD_NEXT, "malloc");
    return refuses() ? NULL : next(size);
}

void *realloc(void *old, size_t size)
{
    static void *(*next)(void *, size_t);
    if (!next)
        next = dlsym(RTLD_NEXT, "realloc");
    return refuses() ? NULL : next(old, size);
}

__attribute__((destructor)) static void tell(void)
{
    const char *path = getenv("GROWTHS");
    FILE *file = path && *path ? fopen(path, "w") : NULL;
    long count = grown;
    if (file) {
        fprintf(file, "%ld", count);
        fclose(file);
    }
}
"""

NO_MEMORY = b"fault E524 NoMemory\n"
NOTE = re.compile(rb"(acpicheck: [^\n]+\n)*")
NAMED = re.compile(r"\bfn ((?:rows_of_|want_of_memory)\w*)")


def crates_of(top):
    """The crates of crates.txt, each with the libraries that it uses."""
    with open(f"{top}/crates.txt", encoding="utf-8") as it:
        lines = [line.partition("#")[0].partition(":") for line in it]
    return {front.split()[0]: back.split() for front, _, back in lines if front.split()}


def sources(top, name):
    for folder, _, files in os.walk(f"{top}/crates/{name}/src"):
        yield from (f"{folder}/{file}" for file in files if file.endswith(".rt"))


def has_named_tests(top, name):
    texts = (open(file, encoding="utf-8").read() for file in sources(top, name))
    return any(NAMED.search(text) for text in texts)


def changed(top, crates, name):
    """When a crate's sources, or those of the libraries below it, changed last."""
    below, left = set(), [name]
    while left:
        crate = left.pop()
        if crate in crates and crate not in below:
            below.add(crate)
            left += crates[crate]
    return max(os.path.getmtime(file) for crate in below for file in sources(top, crate))


def complaint(top, crates, name, program):
    """What is wrong with a program of a crate, or nothing."""
    if not os.path.isfile(program):
        return f"{name}: there is no {os.path.basename(program)}: run make test first"
    if os.path.getmtime(program) < changed(top, crates, name):
        return f"{name}: {os.path.basename(program)} is older than its sources: run make test first"
    return None


def programs(top):
    """The test programs to run, and what is wrong with those that cannot be, or with the built program."""
    crates, found = crates_of(top), []
    bad = [complaint(top, crates, "acpicheck", rows.PROGRAM)]
    for name in crates:
        program = f"{top}/crates/{name}/out/{name}_tests"
        if has_named_tests(top, name):
            bad.append(complaint(top, crates, name, program))
            found += [] if bad[-1] else [program]
    return found, [line for line in bad if line]


def named_tests(program):
    listed = subprocess.run([program, "--list"], capture_output=True, text=True, check=True).stdout
    names = [line.partition(": test")[0] for line in listed.splitlines() if line.endswith(": test")]
    return [name for name in names if NAMED.match("fn " + name.rpartition("::")[2])]


def run(shim, program, test, count_to, number):
    """Runs a test with its number-th growth refused, and returns its status and the growths that it had."""
    given = {"LD_PRELOAD": shim, "GROWTHS": count_to, "REFUSED_GROWTH": str(number)}
    ran = subprocess.run([program, test], env=given, capture_output=True, timeout=60)
    with open(count_to) as it:
        return ran.returncode, int(it.read()), ran.stdout + ran.stderr


def tried_in_turn(shim, program, test, count_to):
    """Runs a test with no growth refused, then with each; returns how many were refused, and how many runs failed."""
    status, growths, said = run(shim, program, test, count_to, -1)
    failed = 0
    for number in range(growths + 1):
        if number:
            status, _, said = run(shim, program, test, count_to, number)
        if status:
            failed += 1
            print(f"  growth {number}: status {status}: {said.decode(errors='replace')[:200]}")
    print(f"{os.path.basename(program)} {test}: {growths} growths, {failed} failed")
    return growths, failed


def run_row(shim, program, row, room, number):
    """Runs a row with the number-th growth refused, and returns the program's status, standard output and error."""
    given = {"LD_PRELOAD": shim, "GROWTHS": "" if number > 0 else f"{room}/count", "REFUSED_GROWTH": str(number)}
    return rows.run(program, row, room, env=given)


def wants_memory(answer, output):
    """Whether an answer of the program is one to want of memory, behind a beginning of what the row says."""
    status, written, notes = answer
    return status == 1 and output.startswith(written.removesuffix(NO_MEMORY)) and bool(NOTE.fullmatch(notes))


def row_in_turn(shim, program, row):
    """Runs a row with no growth refused, and then with each; returns how many were refused, and what failed."""
    output, _ = rows.answer_of(row.output)
    failed = []
    with tempfile.TemporaryDirectory() as room:
        rows.lay_out(row, room)
        answer = run_row(shim, program, row, room, -1)
        with open(f"{room}/count") as it:
            growths = int(it.read())
        if not rows.is_answer(answer, row, row.output):
            failed.append(f"row {row.place}: without a refusal: {answer}")
        for number in range(1, growths + 1):
            answer = run_row(shim, program, row, room, number)
            if not rows.is_answer(answer, row, row.output) and not wants_memory(answer, output):
                failed.append(f"row {row.place}: growth {number}: {answer}")
    return growths, failed


def rows_in_turn(shim, program):
    """Does so with all rows that are marked; returns how many growths were refused, and how many runs failed."""
    every, bad = rows.read_all(rows.all_files())
    marked = [row for row in every if row.growths]
    bad += [] if marked else ["there is no row under growths"]
    tried, failed = 0, len(bad)
    for line in bad:
        print(f"rows: {line}")
    with ThreadPoolExecutor(rows.WORKERS) as pool:
        for growths, wrong in pool.map(lambda row: row_in_turn(shim, program, row), marked):
            tried, failed = tried + growths, failed + len(wrong)
            for line in wrong:
                print(f"  {line}")
    print(f"{len(marked)} rows: {tried} growths, {failed} failed")
    return tried, failed


def main():
    top = os.path.dirname(os.path.dirname(os.path.abspath(__file__)))
    found, bad = programs(top)
    for line in bad:
        print(line)
    tried, failed = 0, len(bad)
    with tempfile.TemporaryDirectory() as room:
        shim, count_to = f"{room}/shim.so", f"{room}/count"
        subprocess.run(["cc", "-x", "c", "-shared", "-fPIC", "-o", shim, "-"], input=SHIM.encode(), check=True)
        for program in found:
            tests = named_tests(program)
            if not tests:
                failed += 1
                print(f"{os.path.basename(program)}: it lists no test whose name begins with rows_of_ or want_of_memory")
            for test in tests:
                growths, wrong = tried_in_turn(shim, program, test, count_to)
                tried, failed = tried + growths, failed + wrong
        if os.path.isfile(rows.PROGRAM):
            growths, wrong = rows_in_turn(shim, rows.PROGRAM)
            tried, failed = tried + growths, failed + wrong
    print(f"{tried} refused, {failed} failed")
    return 1 if failed or not tried else 0


if __name__ == "__main__":
    sys.exit(main())
