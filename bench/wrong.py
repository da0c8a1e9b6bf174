#!/usr/bin/env python3
"""Makes wrong bodies of a crate's functions at random and lists those that its contracts let through.

    python3 bench/wrong.py CRATE [SEED]

A wrong body is a function's with one line turned: a comparison, a test, a number, a byte of a text, a variant, a field or
two arguments changed for others, or a call left out. Of each function one is made, as SEED (1) says, and all are tried in
one check, over the libraries that `make test` or `rt check` left. Told are those that are still proved, with the line as it
was and as it is. Some of them mean the same as the right body, or differ in time alone; of the others each is a contract to
strengthen, or a test to write.
"""
import random
import re
import sys
import tempfile

import edit_checks
import edit_texts
import edits as script
from edit_checks import PROVED, REFUSED
from edit_texts import Edit

TURNS = [
    (r" < ", " <= "), (r" <= ", " < "), (r" > ", " >= "), (r" >= ", " > "), (r" == ", " != "), (r" != ", " == "),
    (r" && ", " || "), (r" \|\| ", " && "), (r"\btrue\b", "false"), (r"\bfalse\b", "true"), (r"\bif (?!let)!", "if "),
    (r"\bif (?!let |!)(?=[\w.]+\()", "if !"), (r"\.0\b", ".1"), (r"\.1\b", ".0"), (r"\.at\b", ".end"), (r"\.end\b", ".at"),
    (r"\.is_some\(\)", ".is_none()"), (r"\.is_none\(\)", ".is_some()"), (r"\.min\(", ".max("), (r"\.max\(", ".min("),
]
NUMBER = re.compile(r"(?<![\w.\"'])(?:0x[0-9A-Fa-f_]+|\d[\d_]*)(?![\w.\"'])")
TEXT = re.compile(r'b?"((?:[^"\\]|\\.)*)"')
PAIR = re.compile(r"\((&?(?:mut )?[a-z]\w*), (&?(?:mut )?[a-z]\w*)([,)])")
VARIANT = re.compile(r"\b([A-Z]\w+)::([A-Z]\w+)\b(?![({])")
CALL = re.compile(r"\s+(?:self\.|\w+\.)*\w+\(.*\)\??;")


def numbers(line):
    for it in NUMBER.finditer(line):
        text = it[0].replace("_", "")
        yield line[: it.start()] + str(int(text, 0) + 1) + line[it.end() :]


def texts(line):
    for it in TEXT.finditer(line):
        if it[1] and it[1][-1].isalpha():
            other = "b" if it[1][-1] == "a" else "a"
            yield line[: it.end(1) - 1] + other + line[it.end(1) :]


def turned(line, variants):
    """The line turned in each way that is known."""
    found = []
    for old, new in TURNS:
        found += [line[: it.start()] + new + line[it.end() :] for it in re.finditer(old, line)]
    found += [*numbers(line), *texts(line)]
    found += [line[: it.start()] + f"({it[2]}, {it[1]}{it[3]}" + line[it.end() :] for it in PAIR.finditer(line)]
    for it in VARIANT.finditer(line):
        others = sorted(variants.get(it[1], set()) - {it[2]})
        found += [line[: it.start(2)] + other + line[it.end(2) :] for other in others[:3]]
    if CALL.fullmatch(line):
        found.append("")
    return [it for it in found if it != line]


def body_of(lines, function):
    """The lines of a function's body, without its head and its contract."""
    for at in range(function.head, function.last + 1):
        if lines[at].endswith("{"):
            return range(at + 1, function.last)
    return range(0)


def wrong_bodies(sources, chosen):
    """Of each function one, where one is known."""
    variants = {}
    for text in sources.texts.values():
        for kind, variant in VARIANT.findall(text):
            variants.setdefault(kind, set()).add(variant)
    found = []
    for path, functions in sources.functions.items():
        lines = sources.texts[path].split("\n")
        for function in functions:
            if sources.function_at(path, function.first) is not function:
                continue
            ways = []
            for at in body_of(lines, function):
                line = lines[at]
                if re.match(r"\s*(//|#|ghost|prove!|use )", line):
                    continue
                ways += [(at, it) for it in turned(line, variants)]
            if not ways:
                continue
            at, line = chosen.choice(ways)
            name = "::".join(it for it in (function.module, function.type + function.trait, function.name) if it)
            text = f"{path}:{at + 1}\n  - {lines[at].strip()}\n  + {line.strip()}"
            found.append(Edit(sources.crate, name, text, {(path, at): line}))
    return found


class Wrong(script.Trial):
    """Wrong bodies, as they are tried: those that do not compile are left out."""

    def __init__(self, room, edits):
        super().__init__(room, edits)
        self.last = {}

    def run(self):
        self.leave_out_what_does_not_compile(list(self.left), self.room.check(self.left, [""]))
        print(f"{len(self.left)} wrong bodies compile, {len(self.found)} do not", flush=True)
        while batch := self.next_batch():
            self.try_together(batch)
            print(f"a check of {len(batch)}: {len(self.left)} left", flush=True)

    def try_together(self, batch):
        """As the edits are, and keeps what was said of each."""
        check = self.room.check

        def heard(edits, only):
            said = check(edits, only)
            self.last.update((it.name, said.of_edit(self.sources, it)) for it in edits)
            return said

        self.room.check = heard
        super().try_together(batch)
        self.room.check = check


def main(words):
    if not words or len(words) > 2:
        print(__doc__, end="", file=sys.stderr)
        return 2
    top, crate = script.TOP, words[0]
    crates = edit_texts.crates_of(top)
    with tempfile.TemporaryDirectory(prefix="wrong-") as place:
        room = edit_checks.Room(top, place, crate, crates, True, 1)
        why = room.build_below()
        if why:
            print(why)
            return 1
        edits = wrong_bodies(room.sources, random.Random(int(words[1]) if words[1:] else 1))
        trial = Wrong(room, edits)
        trial.run()
    refused = sum(kind == REFUSED for kind, _ in trial.found.values())
    unsure = [it for it in trial.left if trial.last.get(it.name, ("", ""))[0] != PROVED]
    for edit in trial.left:
        kind, text = trial.last.get(edit.name, ("", "not tried"))
        told = "still proved" if kind == PROVED else f"not sure ({text[:160]})"
        print(f"{told}: {edit.name} at crates/{crate}/{edit.text}")
    proved = len(trial.left) - len(unsure)
    print(f"{crate}: {refused} refused, {proved} still proved, {len(unsure)} not sure, {room.seconds:.0f} processor seconds")
    return 0


if __name__ == "__main__":
    sys.exit(main(sys.argv[1:]))
