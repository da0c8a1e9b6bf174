#!/usr/bin/env python3
"""Tries bench/edits.py itself, on a small crate with edits that it must see refused and edits that it must not pass.

    python3 bench/edits_test.py

The crate is written into a folder of its own. An edit that is right code must be told as still proved, one that does
not compile, one whose text stands twice and one that takes away only a name must each be told as such, and each makes
the run fail. The others must be told as refused, in their own functions.
"""
import contextlib
import hashlib
import io
import os
import sys
import tempfile

import edit_checks
import edit_kept
import edits

SOURCE = """#![tactic(auto)]

ghost use Rattle.std.specs.Prelude.{◌≡◌, ◌+◌, ◌*◌, ◌<◌, ◌≤◌, length};
ghost use Rattle.tiny.specs.Limits.{most_half};

/// At most a number.
pub fn part(n: u32) -> u32
    ensures { result ≤ n }
{
    n / 2
}

/// Half of a byte.
pub fn half(n: u8) -> u8
    ensures { result ≤ most_half }
{
    n / 2
}

/// At most each of two numbers.
pub fn lesser(a: u32, b: u32) -> u32
    ensures first { result ≤ a }
    ensures second { result ≤ b }
{
    if a < b { a } else { b }
}

/// At most each of three numbers.
pub fn least(a: u32, b: u32, c: u32) -> u32
    ensures first { result ≤ a }
    ensures second { result ≤ b }
    ensures third { result ≤ c }
{
    lesser(lesser(a, b), c)
}

const MOST: u32 = 7;

/// A number, or the greatest where it is above.
pub fn bounded(n: u32) -> u32
    ensures { result ≤ 7 }
{
    if n < MOST { n } else { MOST }
}

/// At most a number, by two steps of which each calls the other.
#[cycle(steps)]
pub fn down(n: u32) -> u32
    ensures { result ≤ n }
{
    if n == 0 { 0 } else { across(n - 1) }
}

#[cycle(steps)]
fn across(n: u32) -> u32
    ensures { result ≤ n }
{
    if n < 2 { n } else { down(n - 1) }
}

/// The sum of the bytes, of which there are few enough that it fits.
pub fn total(a: &[u8]) -> usize
    requires { length a.now ≤ 65536 }
    ensures { result ≤ 255 * length a.now }
{
    let mut sum: usize = 0;
    for b in a {
        sum += *b as usize;
    }
    return sum;
}
"""
LIMITS = """use Rattle.std.specs.Prelude.{ℕ}

abbrev pub most_half : ℕ
most_half = 127
"""
INVARIANTS = """use Rattle.std.proofs.Common.{◌*◌, ◌≤◌}
use Rattle.tiny.proofs.total.Given as goal

abbrev pub invariant-loop-b : goal.invariant-loop-b
invariant-loop-b l = l.sum ≤ 255 * l.b-index
"""
MEASURES = """use Rattle.tiny.proofs.+steps.Given as goal

abbrev pub decreases-across : goal.decreases-across
decreases-across l = l.n

abbrev pub decreases-down : goal.decreases-down
decreases-down l = l.n
"""
# Each edit of the code, its pairs, and what must be told of it.
EDITS = {
    "greater_number_told": ([("if a < b", "if b < a")], "refused: tiny::lesser at "),
    "third_number_left_out": ([("lesser(lesser(a, b), c)", "lesser(a, b)")], "refused: tiny::least at "),
    "greater_bound": ([("const MOST: u32 = 7;", "const MOST: u32 = 8;")], "refused: tiny::bounded at "),
    "right_constant": ([("const MOST: u32 = 7;", "const MOST: u32 = 6;")], "NOT REFUSED: STILL PROVED"),
    "right_code": ([("n / 2", "n / 4")], "NOT REFUSED: STILL PROVED"),
    "whole_byte": ([("n / 2", "n")], "refused: tiny::half at "),
    "one_where_there_is_none": ([("{ 0 } else { across", "{ 1 } else { across")], "refused: tiny::down at "),
    "right_code_in_a_cycle": ([("if n < 2 { n }", "if n < 2 { 0 }")], "NOT REFUSED: STILL PROVED"),
    "no_code": ([("for b in a {", "for b in two {")], "NOT REFUSED: it does not compile"),
    "text_that_stands_twice": ([("ensures first { result ≤ a }", "")], "BAD EDIT: an old text stands in src/lib.rt 2 times"),
    "another_name": (
        [("let mut sum: usize = 0;", "let mut all: usize = 0;"), ("sum += *b", "all += *b"), ("return sum;", "return all;")],
        "NOT REFUSED: it fell only by a name that went",
    ),
}
# The functions in which the texts of some stand.
INSIDE = {"right_code": "part", "whole_byte": "half"}
# Those that are tried where there is time.
FURTHER = ("third_number_left_out", "right_code_in_a_cycle", "no_code")
# The same of edits of definitions.
DEFINITIONS = {
    "lesser_limit": ([("most_half = 127", "most_half = 126")], "refused: tiny::half at "),
    "greater_limit": ([("most_half = 127", "most_half = 128")], "NOT REFUSED: STILL PROVED"),
    "limit_of_no_name": ([("most_half = 127", "most_half = no_limit")], "NOT REFUSED: the definitions are not read"),
}
ALL = EDITS | DEFINITIONS


# An error that a check tells over two lines, whose second says what went.
TWO_LINES = """./proofs/total/Invariants.antt:5:23: error: `invariant-loop-b`: record `Rattle.tiny.proofs.total.Lts.Given.Live-loop-b`
  has no field `sum`
fn tiny::total: not proved
"""


def write(top, name, text):
    os.makedirs(os.path.dirname(f"{top}/{name}"), exist_ok=True)
    with open(f"{top}/{name}", "w", encoding="utf-8") as it:
        it.write(text)


def file_of(name):
    return f"crates/tiny/{'further' if name in FURTHER else 'edits'}/{name}.edit"


def lay_out(top):
    write(top, "crates.txt", "tiny:\n")
    write(top, "crates/tiny/src/lib.rt", SOURCE)
    write(top, "crates/tiny/specs/Lib.antt", "pub mod Limits\n")
    write(top, "crates/tiny/specs/Limits.antt", LIMITS)
    write(top, "crates/tiny/proofs/total/Invariants.antt", INVARIANTS)
    write(top, "crates/tiny/proofs/+steps/Invariants.antt", MEASURES)
    for name, (pairs, _) in ALL.items():
        file = "src/lib.rt" if name in EDITS else "specs/Limits.antt"
        inside = f"in: {INSIDE[name]}\n" if name in INSIDE else ""
        text = f"file: {file}\n{inside}" + "".join(f"old: {old}\nnew: {new}\n" for old, new in pairs)
        write(top, file_of(name), text)


def run(top):
    """The status of a run over the crate, and what it printed."""
    told = io.StringIO()
    with contextlib.redirect_stdout(told):
        status = edits.main([], top, edit_kept.Kept(top, {"tiny": []}, f"{top}/kept"))
    return status, told.getvalue()


def differences():
    """What a run told otherwise than it must."""
    if not edit_checks.Said(1, TWO_LINES).lost("tiny::total"):
        return ["a name that went is not seen where the second line of an error tells it"]
    with tempfile.TemporaryDirectory(prefix="edits-test-") as top:
        lay_out(top)
        status, told = run(top)
        lines = {line.partition(": ")[0]: line for line in told.split("\n") if line.startswith("edit tiny/")}
        found = [f"of {name} it told: {lines.get(f'edit tiny/{name}')}" for name, (_, wanted) in ALL.items()
                 if not lines.get(f"edit tiny/{name}", "").startswith(f"edit tiny/{name}: {wanted}")]
        wrong = sum("refused: " != wanted[:9] for _, wanted in ALL.values())
        if status != 1 or not told.endswith(f"{len(ALL) - wrong} passed, {wrong} failed\n"):
            found.append(f"it ended with status {status} and {told.split(chr(10))[-2:]}")
        # what was refused is kept, and of the rest nothing is
        for name, (_, wanted) in ALL.items():
            if wanted[:9] != "refused: ":
                os.remove(f"{top}/{file_of(name)}")
        status, told = run(top)
        if status or told.count("(kept)") != len(ALL) - wrong:
            found.append(f"with those refused alone it ended with status {status}: {told}")
    return found


def differences_once(kept):
    """As differences, but for what passed on this machine with the same scripts and toolchain."""
    with open(os.path.abspath(__file__), "rb") as it:
        mark = f"{kept.at}/test-{hashlib.sha256(kept.base.encode() + it.read()).hexdigest()}"
    if kept.is_ours and os.path.exists(mark):
        return []
    found = differences()
    if kept.is_ours and not found:
        with open(mark, "w", encoding="utf-8"):
            pass
    return found


def main():
    found = differences()
    for line in found:
        print(f"edits_test: {line}")
    print(f"edits_test: {'failed' if found else 'passed'}")
    return 1 if found else 0


if __name__ == "__main__":
    sys.exit(main())
