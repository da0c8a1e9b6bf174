#!/usr/bin/env python3
"""Tries wrong rules of the judgement, one at a time: python3 bench/rules.py [--from N] [NAME ..].

Each is one text of crates/aml_judged/specs in the place of another. `rt check` of aml_judged must refuse it, and what
refused it is told: a proof of a law, or one of the examples (proofs/*Examples, Edges, Rows), which alone show a rule
that refuses too much. The crate is checked in a copy of the repository in a temporary folder, over what `rt check` kept
of it, so the repository stays as it is. The last line counts; a rule that is proved, whose text does not stand once, or
with which a file of specs/ has an error, so that it is no definition, is a failure. A NAME that no rule has is told, and
then none is tried. Where each rule stands is in docs/VERDICTS.md.
"""
import argparse
import os
import re
import shutil
import subprocess
import sys
import tempfile
from dataclasses import dataclass

TOP = os.path.dirname(os.path.dirname(os.path.abspath(__file__)))
EXAMPLES = re.compile(r"proofs/(\w*Examples|Edges|Rows)\.antt")
ERROR = re.compile(r"\./((?:proofs|specs)/[\w/+-]+\.antt):\d+:\d+: error")


@dataclass(frozen=True)
class Wrong:
    """A rule and the text that makes it wrong."""
    name: str
    file: str
    old: str
    new: str


RULES = [
    Wrong("Continue that counts nowhere", "Judge",
          "continued = if_counts env.counts env",
          "continued = None"),
    Wrong("Continue not compared", "Judge",
          "comes_back end continued start = end_within end start && exit_within continued start",
          "comes_back end continued start = end_within end start"),
    Wrong("lesser block of an If", "Judged",
          "(max n m))",
          "(min n m))"),
    Wrong("one turn less, rising", "Judge",
          "often env.looped c at (begun ts env) (test (begun ts env)) body",
          "often env.looped (c - 1) at (begun ts env) (test (begun ts env)) body"),
    Wrong("one turn less, falling", "Judge",
          "often env.looped (a - c) at (begun ts env)",
          "often env.looped (a - c - 1) at (begun ts env)"),
    Wrong("last test not counted", "Judge",
          "after xt n (turned outer turns at n start et (body held))",
          "after xt 0 (turned outer turns at n start et (body held))"),
    Wrong("call without its bound", "Judge",
          "Goes a.result env (taking a.least) a.bound",
          "Goes a.result env (taking a.least) 0"),
    Wrong("65 methods", "Verdicts",
          "verdict_of (is_short called_from 64 k)",
          "verdict_of (is_short called_from 65 k)"),
    Wrong("Break's environment dropped", "Judge",
          "after_loop (Some b) env = join_env env b",
          "after_loop (Some b) env = env"),
    Wrong("end of one block alone", "Known",
          "pick true true a b = record a {\n  locals = join_slots a.locals b.locals;",
          "pick true true a b = record a {\n  locals = a.locals;"),
    Wrong("unset joined to set", "Known",
          "join_slot j k = None",
          "join_slot j None = j\njoin_slot None k = None"),
    Wrong("Mod by any operand", "KindRules",
          "divisor_kind p o a = refuses cause.Divisor p",
          "divisor_kind p o a = Ok a"),
    Wrong("Mod's greatest one less", "KindRules",
          "applied width arithmetic.Mod a b (Some (suc c)) = min a c",
          "applied width arithmetic.Mod a b (Some (suc c)) = min a (c - 1)"),
    Wrong("narrowed by one too much", "Judge",
          "record env { locals = lower env.locals i n }",
          "record env { locals = lower env.locals i (n - 1) }"),
    Wrong("own integer with its first value", "Bodies",
          "first_kind_by here (Literal o) at ts = goes (IntUpTo (greatest here.width))",
          "first_kind_by here (Literal o) at ts = goes (IntUpTo 0)"),
    Wrong("buffers of any length stored", "KindRules",
          "may_replace (BufOf n) (BufOf m) = n == m",
          "may_replace (BufOf n) (BufOf m) = true"),
    Wrong("strings of any length stored", "KindRules",
          "may_replace (StrOf n) (StrOf m) = n == m",
          "may_replace (StrOf n) (StrOf m) = true"),
    Wrong("computed size taken", "Judge",
          "judged_literal (Some from) k = stops cause.OutsideProfile from",
          "judged_literal (Some from) k = goes (Always k)"),
    Wrong("exits in dead code count", "Judge",
          "if_counts false x = None",
          "if_counts false x = Some x"),
    Wrong("level of a callee not asked", "Judge",
          "is_level (Some least) ms = nat_le (greatest_level 0 ms) least",
          "is_level (Some least) ms = true"),
    Wrong("level of a callee not counted", "Judge",
          "Goes a.result env (taking a.least) a.bound",
          "Goes a.result env (taking None) a.bound"),
    Wrong("ends that hold different mutexes", "Known",
          "ends_agree a b = if a.counts && b.counts then same_held a.held b.held else true",
          "ends_agree a b = true"),
    Wrong("mutex held at the end", "Judge",
          "none_held_at true held at = stops cause.StillHeld at",
          "none_held_at true held at = goes tt"),
    Wrong("sum not capped", "KindRules",
          "applied width arithmetic.Add a b o = capped width (a + b)",
          "applied width arithmetic.Add a b o = a + b"),
    Wrong("product as a sum", "KindRules",
          "applied width arithmetic.Multiply a b o = capped width (a * b)",
          "applied width arithmetic.Multiply a b o = capped width (a + b)"),
    Wrong("And gives the first", "KindRules",
          "applied width arithmetic.And a b o = min a b",
          "applied width arithmetic.And a b o = a - 1"),
    Wrong("Or gives the greater", "KindRules",
          "applied width arithmetic.Or a b o = ones_over width (max a b)",
          "applied width arithmetic.Or a b o = max a b"),
    Wrong("shift left by one less", "KindRules",
          "= capped width (a * 2 ^ c)",
          "= capped width (a * 2 ^ (c - 1))"),
    Wrong("shift right by one more", "KindRules",
          "applied width arithmetic.ShiftRight a b (Some c) = a / 2 ^ c",
          "applied width arithmetic.ShiftRight a b (Some c) = a / 2 ^ (c + 1)"),
    Wrong("Not gives the operand's greatest", "KindRules",
          "transformed_most width bitwise.Not = greatest width",
          "transformed_most width bitwise.Not = 0"),
    Wrong("bits counted from zero", "KindRules",
          "transformed_most width bitwise.FindSetLeftBit = width",
          "transformed_most width bitwise.FindSetLeftBit = width - 1"),
    Wrong("quotient of one divisor more", "KindRules",
          "quotient_most a (Some (suc c)) = a / suc c",
          "quotient_most a (Some (suc c)) = a / (suc c + 1)"),
    Wrong("quotient stored first", "Judge",
          "_ ← judged_store r d.remainder",
          "_ ← judged_store r d.quotient"),
    Wrong("LEqual's second not asked", "KindRules",
          "equal_kind p (BufOf a) q k = refuses cause.WrongKind q",
          "equal_kind p (BufOf a) q k = Ok tt"),
    Wrong("truth at most one", "KindRules",
          "then_rule (integer_kind q k) (λ b. Ok (IntUpTo (greatest width))))",
          "then_rule (integer_kind q k) (λ b. Ok (IntUpTo 1)))"),
    Wrong("joined as long as the first", "KindRules",
          "(BufOf (a + b))",
          "(BufOf a)"),
    Wrong("joined without limit", "KindRules",
          "limited_kind op n k = if nat_le n most_bytes then Ok k else refuses cause.OutsideProfile op",
          "limited_kind op n k = Ok k"),
    Wrong("empty buffer as an integer", "KindRules",
          "if n == 0 then refuses cause.Index op else Ok (IntUpTo (buffer_most width n))",
          "Ok (IntUpTo (buffer_most width n))"),
    Wrong("integer as a byte more", "KindRules",
          "converted_kind width conversion.ToBuffer op p (IntUpTo a) = Ok (BufOf (width / 8))",
          "converted_kind width conversion.ToBuffer op p (IntUpTo a) = Ok (BufOf (width / 8 + 1))"),
    Wrong("size not reduced", "KindRules",
          "size_kind width p (BufOf n) = Ok (IntUpTo (n % 2 ^ width))",
          "size_kind width p (BufOf n) = Ok (IntUpTo (n - 1))"),
    Wrong("size of any package", "KindRules",
          "size_kind width p AnyPkg = Ok (IntUpTo most_elements)",
          "size_kind width p AnyPkg = Ok (IntUpTo (most_elements - 1))"),
    Wrong("CondRefOf gives zero alone", "Judge",
          "judged_asked Name NoTarget at = goes (Always (IntUpTo (greatest here.width)))",
          "judged_asked Name NoTarget at = goes (Always (IntUpTo 0))"),
    Wrong("CondRefOf with a target", "Judge",
          "judged_asked what into at = stops cause.OutsideProfile at",
          "judged_asked what into at = goes (Always (IntUpTo (greatest here.width)))"),
    Wrong("_OSI of anything", "KindRules",
          "interface_kind width p k = refuses cause.WrongKind p",
          "interface_kind width p k = Ok (IntUpTo (greatest width))"),
    Wrong("_OSI gives zero alone", "KindRules",
          "interface_kind width p (StrOf n) = Ok (IntUpTo (greatest width))",
          "interface_kind width p (StrOf n) = Ok (IntUpTo 0)"),
    Wrong("index at the length", "KindRules",
          "inside op a n k = if nat_lt a n then k else refuses cause.Index op",
          "inside op a n k = if nat_le a n then k else refuses cause.Index op"),
    Wrong("any index leads to the first element", "KindRules",
          "place_led s None = joined_places s",
          "place_led s None = place_numbered s 0"),
    Wrong("unset element read", "KindRules",
          "element_read_kind op (Some Anything) = refuses cause.Unset op",
          "element_read_kind op (Some Anything) = Ok (IntUpTo 0)"),
    Wrong("byte written at the length", "KindRules",
          "if nat_lt a n then then_rule (integer_kind op v)",
          "if nat_le a n then then_rule (integer_kind op v)"),
    Wrong("field one bit less", "KindRules",
          "then IntUpTo (2 ^ bits - 1)",
          "then IntUpTo (2 ^ (bits - 1) - 1)"),
    Wrong("field read without its events", "Judge",
          "judged_field (Some f) at = pays (read_count f)",
          "judged_field (Some f) at = pays 0"),
    Wrong("field written without its events", "Judge",
          "pays (write_count f) tt",
          "pays 0 tt"),
    Wrong("field of a buffer past its end", "KindRules",
          "if nat_le (first_bit f + f.bits) (8 * n) then Ok tt",
          "if nat_le (first_bit f) (8 * n) then Ok tt"),
    Wrong("any buffer into a wide field", "KindRules",
          "(n == (bits + 7) / 8)",
          "(n == n)"),
    Wrong("mutex below those held", "Judge",
          "taken_or (nat_le (greatest_level 0 ms) m.level) at m ms",
          "taken_or true at m ms"),
    Wrong("mutex taken is not held", "Judge",
          "with_mutexes env (ms ++ m ∷ [])",
          "with_mutexes env ms"),
    Wrong("release of another mutex", "Judge",
          "released_or None at = stops cause.NotHeld at",
          "released_or None at = λ env. Goes tt env no_exits 0"),
    Wrong("Notify without its event", "Judge",
          "    _ ← ruled (notice_kind (place o) may)\n      _ ← ruled (integer_kind (place a) k)\n      pays 1 Never",
          "    _ ← ruled (notice_kind (place o) may)\n      _ ← ruled (integer_kind (place a) k)\n      pays 0 Never"),
    Wrong("argument of any kind", "Judge",
          "if within k a then are_within ks as' ts",
          "if true then are_within ks as' ts"),
    Wrong("callee that is refused", "Judge",
          "is_accepted at None = stops cause.CalleeRefused at",
          "is_accepted at None = λ env. Goes (record { args = []; result = Never; bound = 0; least = None }) env no_exits 0"),
    Wrong("result that may be missing", "Judge",
          "wanted at y = stops cause.NoResult at",
          "wanted at (Sometimes k) = goes k\n  wanted at y = stops cause.NoResult at"),
    Wrong("end reached, and always a result", "Verdicts",
          "result_of true (Some k) = Sometimes k",
          "result_of true (Some k) = Always k"),
    Wrong("bound of 2 to the 63", "Verdicts",
          "nat_lt n most_steps",
          "nat_le n most_steps"),
]


def needed():
    """aml_judged and the crates below it, each with the libraries that it uses."""
    with open(f"{TOP}/crates.txt", encoding="utf-8") as it:
        lines = [line.partition("#")[0].partition(":") for line in it]
    libraries = {front.split()[0]: back.split() for front, _, back in lines if front.split()}
    found, left = {}, ["aml_judged"]
    while left:
        crate = left.pop()
        if crate in libraries and crate not in found:
            found[crate] = libraries[crate]
            left += libraries[crate]
    return found


def copied(room):
    """A copy of the crates that are checked, with what checks kept of them."""
    os.makedirs(f"{room}/crates")
    shutil.copy(f"{TOP}/HANDLES", room)
    subprocess.run(["git", "init", "-q", room], check=True)
    crates = needed()
    with open(f"{room}/crates.txt", "w", encoding="utf-8") as it:
        it.writelines(f"{crate}: {' '.join(libraries)}\n" for crate, libraries in crates.items())
    for crate in crates:
        shutil.copytree(f"{TOP}/crates/{crate}", f"{room}/crates/{crate}")


def tried(room, rule):
    """What refuses a rule: names of files of proofs; nothing where it is proved."""
    path = f"{room}/crates/aml_judged/specs/{rule.file}.antt"
    with open(path, encoding="utf-8") as it:
        text = it.read()
    if text.count(rule.old) != 1:
        raise ValueError(f"its text stands {text.count(rule.old)} times")
    with open(path, "w", encoding="utf-8") as it:
        it.write(text.replace(rule.old, rule.new))
    ran = subprocess.run(["rt", "check"], cwd=f"{room}/crates/aml_judged", capture_output=True, text=True, check=False)
    with open(path, "w", encoding="utf-8") as it:
        it.write(text)
    files = sorted(set(ERROR.findall(ran.stdout + ran.stderr)))
    undefined = [file for file in files if file.startswith("specs/")]
    if undefined:
        raise ValueError("it is no definition: " + " ".join(undefined))
    if ran.returncode and not files:
        raise ValueError("it was not judged: " + (ran.stdout + ran.stderr)[-200:])
    return files if ran.returncode else []


def told(files):
    """What refused a rule, in words."""
    laws = [file for file in files if not EXAMPLES.fullmatch(file)]
    examples = [file for file in files if EXAMPLES.fullmatch(file)]
    words = (["a law"] if laws else []) + (["an example"] if examples else [])
    return f"{' and '.join(words)}: {' '.join(laws + examples)}"


def main():
    words = argparse.ArgumentParser()
    words.add_argument("--from", type=int, default=1, dest="first")
    words.add_argument("names", nargs="*")
    given = words.parse_args()
    unknown = [name for name in given.names if name not in {rule.name for rule in RULES}]
    rules = [rule for rule in RULES[given.first - 1:] if not given.names or rule.name in given.names]
    if unknown or not rules:
        print("\n".join(f"{name}: no rule has that name" for name in unknown) or "there is no rule to try")
        return 1
    failed = 0
    with tempfile.TemporaryDirectory() as room:
        copied(f"{room}/all")
        for rule in rules:
            try:
                files = tried(f"{room}/all", rule)
                failed += not files
                print(f"{rule.name}: {'refused by ' + told(files) if files else 'PROVED'}", flush=True)
            except ValueError as error:
                failed += 1
                print(f"{rule.name}: {error}", flush=True)
    print(f"{len(rules) - failed} passed, {failed} failed")
    return 1 if failed else 0


if __name__ == "__main__":
    sys.exit(main())
