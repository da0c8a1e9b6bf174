#!/usr/bin/env python3
"""Compares what the program evaluates with what this reading evaluates, over random tables.

    python3 compare.py [--program PATH] [--what W] [--focus F] [--cases N] [--first K] [--seed S] [--seconds T] [--counts]

W is `eval`, `resources` or `routing`. Each method of a table is evaluated with just its steps, with one step less, now
and then with fewer, and, where `verify` accepts it, without --plain: then its steps must not be more than its verdict
says. A focus makes tables that dwell on one part of the meaning: `fields`, `mutexes`, `own` (names that bodies make),
`operators`, `packages`, `effects` (operands that change what others read), `careful` (accepted bodies), `depth`
(calls), `double` (two errors in one operator) and `chaos`; without one a table has something of each.

The status must be that of the last line: 1 of a fault, 3 of an error, of `out of steps` and of a method that is refused,
else 0; a difference in it is one too. So is a method that `verify` accepts and `eval` refuses.

Of one sort of difference the first ones are told in full, with the seed and the case. With --counts it is told how
often each thing was met. S is 1, and cases are numbered from 0, or from K on.
"""
import collections
import os
import random
import tempfile
import time

import resources_compare
from aml import encode, show, table
from evaluate import Machine, Registers
from focus import BOARDS
from generate import Board
from namespace import Buffer, Text, is_integer, show_path
from program import Program, given_words, run_deeply, words_of

LIMIT = 3000
FOREVER = 1e9


def status_of(line):
    """The status that goes with a last line."""
    if line.startswith("fault "):
        return 2 if line.startswith("fault E520 ") else 1
    is_refused = line.startswith("\\") and " refused " in line
    return 3 if is_refused or line.startswith("error ") or line == "out of steps" else 0


class Comparison:
    """Runs of the program over files of one folder, and how often they differ from the reading."""

    def __init__(self, program, folder, seed=0, limit=LIMIT):
        self.program, self.folder, self.seed, self.limit = program, folder, seed, limit
        self.case = 0
        self.done = 0
        self.differences = 0
        self.counts = collections.Counter()
        self.shown = collections.Counter()

    def write(self, name, content):
        """The path of a file with this content."""
        place = os.path.join(self.folder, name)
        with open(place, "wb") as out:
            out.write(content)
        return place

    def tell(self, what, lines):
        """Prints a difference; of one sort only the first ones in full."""
        self.differences += 1
        self.shown[what] += 1
        if self.shown[what] > 6:
            return
        print(f"==== {what}: seed {self.seed}, case {self.case}")
        for line in lines:
            print("  " + line, flush=True)

    def same(self, what, words, wanted, told):
        """Runs the program and compares its lines with those wanted, and its status with that of the last of them."""
        self.done += 1
        status, lines, notes = self.program.run(words)
        wanted_status = status_of(wanted[-1] if wanted else "")
        if lines == wanted and status == wanted_status:
            return True
        first = next((i for i, (a, b) in enumerate(zip(lines, wanted)) if a != b), min(len(lines), len(wanted)))
        self.tell(what, [*told, f"words {' '.join(words)}", f"status {status}, wanted {wanted_status}; {notes[:200]}",
                                f"first difference at line {first}",
                                f"program   {lines[max(0, first - 3):first + 3]} .. {lines[-1:]}",
                                f"reference {wanted[max(0, first - 3):first + 3]} .. {wanted[-1:]}"])
        return False

    # Evaluations.

    def evaluation_case(self, chance, board, runs=2):
        """The names of a board, and the methods of it."""
        files = self.write_tables(board)
        registers = self.write("regs", registers_text(board.registers))
        if not self.same("names", ["names", *files], board.namespace.listing(), []):
            return
        self.kinds = ["--kinds", self.write("kinds", board.kinds_text())]
        self.accepted_paths = accepted_of(self.program.run(["verify", *self.kinds, *files])[1])
        options = ["--regs", registers] + (["--osi", board.osi] if board.osi is not None else [])
        for method in board.methods():
            if method.body is None:
                continue
            for _ in range(runs if method.count else 1):
                self.evaluation(board, method, options, files, chance)

    def write_tables(self, board):
        """The files of a board's tables."""
        files = []
        for number, module in enumerate(board.modules):
            content = table(b"SSDT" if number else b"DSDT", board.revision if number == 0 else 2, encode(module))
            files.append(self.write(f"table{number}", content))
        return files

    def evaluation(self, board, method, options, files, chance):
        """A method with just its steps, and with fewer."""
        arguments = board.arguments_for(method)
        answers = [board.osi.encode()] if board.osi is not None else []
        whole = Machine(board.namespace, Registers(board.registers), answers, self.limit, self.counts).run(method, arguments)
        words = options + (["--args", ",".join(map(argument_text, arguments))] if arguments else [])
        call = f"{show_path(method.path)}({', '.join(map(argument_text, arguments))})"
        told = [f"table {method.table} {call} width {board.namespace.width}"]
        told += [f"{node.at:5} {show(node)}" for node in method.body]
        self.counts["outcome", whole.line.split()[0] if not whole.line.startswith("error") else whole.line.split()[3]] += 1
        self.counts["events", min(len(whole.events), 20)] += 1

        def plain(count, outcome):
            return self.same("plain", ["eval", "--plain", str(count), "--method", show_path(method.path), *words,
                                              *files],
                             outcome.events + [outcome.line], told)
        if not plain(whole.steps, whole) or whole.line == "out of steps":
            return
        fewer = [whole.steps - 1] * (whole.steps > 0) + ([chance.randrange(whole.steps - 1)] if whole.steps > 1
                                                         and chance.randrange(4) == 0 else [])
        for count in fewer:
            part = Machine(board.namespace, Registers(board.registers), answers, count).run(method, arguments)
            if part.line != "out of steps":
                raise RuntimeError("the reference takes fewer steps than it says")
            plain(count, part)
        self.accepted(method, words, files, whole, told)

    def accepted(self, method, words, files, whole, told):
        """Without a number of steps a method that `verify` accepts gives the same, where it takes the arguments by their kinds."""
        if show_path(method.path) not in self.accepted_paths:
            self.counts["accepted", "no"] += 1
            return
        words = ["eval", "--method", show_path(method.path), *self.kinds, *words, *files]
        status, lines, _ = self.program.run(words)
        if lines and lines[-1].startswith("fault E522"):
            self.counts["accepted", "no"] += 1
            return
        self.counts["accepted", "yes"] += 1
        self.counts["accepted with events", min(len(whole.events), 5)] += 1
        self.same("accepted", words, whole.events + [whole.line], told)
        bound = self.accepted_paths[show_path(method.path)]
        if whole.steps > bound:
            self.tell("bound", told + [f"{whole.steps} steps, the verdict says {bound}"])
        self.counts["bound", "is met" if whole.steps == bound else "is not met"] += 1


def accepted_of(lines):
    """The bound of each accepted method."""
    return {line.split()[0]: int(line.split()[2]) for line in lines if line.split()[1:2] == ["accepted"]}


def registers_text(contents):
    return "".join(f"{space} {address:x} {data.hex()}\n" for space, address, data in contents).encode()


def argument_text(value):
    if is_integer(value):
        return hex(value) if value % 2 else str(value)
    if isinstance(value, Buffer):
        return "buf:" + value.hex()
    if isinstance(value, Text):
        return "str:" + value.decode("latin1")
    return "pkg"


def compare_case(comparison, what, focus, chance):
    """One case of what is asked for."""
    if what == "resources":
        resources_compare.resources_case(comparison, chance)
    elif what == "routing":
        resources_compare.routing_case(comparison, chance)
    else:
        comparison.evaluation_case(chance, BOARDS.get(focus, Board)(chance))


def main():
    words = words_of(__doc__)
    words.add_argument("--cases", type=int, default=50)
    words.add_argument("--seed", type=int, default=1)
    words.add_argument("--first", type=int, default=0)
    words.add_argument("--seconds", type=float, default=FOREVER)
    words.add_argument("--what", default="eval", choices=["eval", "resources", "routing"])
    words.add_argument("--focus", choices=sorted(BOARDS))
    words.add_argument("--counts", action="store_true")
    given, began = given_words(words), time.time()
    with tempfile.TemporaryDirectory() as folder:
        comparison = Comparison(Program(given.program), folder, given.seed)
        for case in range(given.first, given.first + given.cases):
            if time.time() - began > given.seconds:
                break
            comparison.case = case
            compare_case(comparison, given.what, given.focus, random.Random(f"{given.seed} {case}"))
    if given.counts:
        for key, count in sorted(comparison.counts.items(), key=str):
            print("  ", *key, count)
    if comparison.shown:
        print(f"differences by sort: {dict(comparison.shown)}")
    print(f"{comparison.done} compared, {comparison.differences} differences")
    return 1 if comparison.differences else 0


if __name__ == "__main__":
    run_deeply(main)
