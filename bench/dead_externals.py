#!/usr/bin/env python3
"""Tables whose Externals stand in an `If (Zero)`, read by acpicheck and by ACPICA: dead_externals.py FOLDER [ACPICHECK].

`iasl` (of Debian's acpica-tools) makes into FOLDER the tables of three kinds of sets:

  calls     `calls.asl`, a DSDT and three SSDTs that call one another
  scopes    `scopes.asl`, a DSDT and two SSDTs with Externals within scopes and devices, which open scopes of one another
  many N    a DSDT with 1, 20 and 300 Externals of methods of 0 to 7 arguments, each called, and an SSDT that has them

Of each table NAME.aml there are then two others: NAME.opened.aml, in which the If is a Scope of no name, and NAME.plain.aml, in which the
Externals stand without it. The bytes are changed here by the layout that `iasl` uses, one If that is first in the table, and not by
acpicheck. Compared are, and each difference is printed:

  `names --dead-externals` of a set, and `names` of the opened and of the plain tables
  these names, with their kinds and methods' numbers of arguments, and those of `acpiexec`, as `against_acpica.py` compares them
  what `eval --dead-externals` and `acpiexec` give for each method, with arguments of one to seven where it takes some

The methods calculate with integers alone, and call one another from table to table. The last line counts what was compared and what differed.
With `time` behind FOLDER and ACPICHECK, tables of 20,000 and 40,000 such Ifs are listed instead, and their processor time told.
"""
import os
import re
import resource
import subprocess
import sys

from against_acpica import PREDEFINED, acpica, ours

HERE = os.path.dirname(os.path.abspath(__file__))
ACPICHECK = f"{os.path.dirname(HERE)}/crates/acpicheck/out/acpicheck"
COUNTS = (1, 20, 300)
TIMED = (20_000, 40_000)
HEADER = 36
STEPS = "100000"
BATCH = 10
BLOCKS = {"calls": 4, "scopes": 3}


def callers(count):
    """A DSDT that calls so many methods of other tables, the number n with n modulo 8 arguments."""
    lines = [f'DefinitionBlock ("many{count}.aml", "DSDT", 2, "ACPICK", "MANY", 1)', "{"]
    for n in range(count):
        kinds = ", ".join(["IntObj"] * (n % 8))
        lines.append(f"    External (\\_SB.M{n:03}, MethodObj" + (f", IntObj, {{{kinds}}})" if kinds else ")"))
    lines.append("    Scope (\\_SB)")
    lines.append("    {")
    for n in range(count):
        arguments = ", ".join(f"Add (Local0, {k})" for k in range(n % 8))
        lines.append(f"        Method (C{n:03}) {{ Local0 = {n}; Return (M{n:03} ({arguments})) }}")
    return "\n".join(lines + ["    }", "}", ""])


def callees(count):
    """An SSDT with these methods: each adds its arguments, each times another number."""
    lines = [f'DefinitionBlock ("callees{count}.aml", "SSDT", 2, "ACPICK", "CALLEES", 1)', "{", "    Scope (\\_SB)", "    {"]
    for n in range(count):
        value = str(1000 + n)
        for k in range(n % 8):
            value = f"Add ({value}, Multiply (Arg{k}, {3 + k}))"
        lines.append(f"        Method (M{n:03}, {n % 8}) {{ Return ({value}) }}")
    return "\n".join(lines + ["    }", "}", ""])


def package(table, at):
    """The end of the package whose length stands at a place, and the place behind the length."""
    more = table[at] >> 6
    value = table[at] & 0x3F if more == 0 else table[at] & 0x0F
    for n in range(more):
        value |= table[at + 1 + n] << 4 + 8 * n
    return at + value, at + 1 + more


def summed(table):
    """The table with its length and a checksum that fits."""
    table = bytearray(table)
    table[4:8] = len(table).to_bytes(4, "little")
    table[9] = 0
    table[9] = -sum(table) % 256
    return bytes(table)


def others(table):
    """The same table with its first If opened, and with what it holds in its place; a table without Externals stays."""
    if table[HEADER] != 0xA0:
        return table, table
    end, next_place = package(table, HEADER + 1)
    if table[next_place] != 0:
        raise SystemExit("the first If has another test than Zero")
    opened = table[:HEADER] + b"\x10" + table[HEADER + 1:]
    plain = table[:HEADER] + table[next_place + 1:end] + table[end:]
    return summed(opened), summed(plain)


def sets():
    """Each set: its name, and of each table the name and the text."""
    for name in BLOCKS:
        with open(f"{HERE}/{name}.asl", encoding="ascii") as it:
            blocks = it.read().split("DefinitionBlock")[1:]
        yield name, [(f"{name}{n}", "DefinitionBlock" + block) for n, block in enumerate(blocks)]
    for count in COUNTS:
        yield f"many {count}", [(f"many{count}", callers(count)), (f"callees{count}", callees(count))]


def make(folder, name, text):
    """The table of a text and the two others, in files; whether its Externals stand in an If."""
    with open(f"{folder}/{name}.asl", "w", encoding="ascii") as it:
        it.write(text)
    subprocess.run(["iasl", f"{name}.asl"], cwd=folder, check=True, capture_output=True)
    with open(f"{folder}/{name}.aml", "rb") as it:
        table = it.read()
    for what, bytes_of in zip(("opened", "plain"), others(table)):
        with open(f"{folder}/{name}.{what}.aml", "wb") as it:
            it.write(bytes_of)
    return table[HEADER] == 0xA0


def said(words):
    return subprocess.run(words, capture_output=True, text=True, encoding="latin-1", check=False).stdout


def value(text):
    """The integer that a program printed, or its last line."""
    found = re.search(r"^result (0x[0-9a-f]+)$|\[Integer\] = ([0-9A-F]+)", text, re.M)
    if not found:
        return text.strip().splitlines()[-1] if text.strip() else "nothing"
    return int(found[1] or found[2], 16)


def compare_names(program, folder, name, tables):
    """The names of a set, by acpicheck from the three forms of its tables and by acpiexec: how many, and what differs."""
    files = {form: [f"{folder}/{table}{form}.aml" for table in tables] for form in ("", ".opened", ".plain")}
    listed = said([program, "names", "--dead-externals", *files[""]])
    differences = [f"names of the tables{form} differ" for form in (".opened", ".plain") if said([program, "names", *files[form]]) != listed]
    listing = f"{folder}/{name.replace(' ', '')}.names"
    with open(listing, "w", encoding="latin-1") as it:
        it.write(listed)
    here, there = ours(listing), acpica(files[""])
    for path in sorted((here.keys() | there.keys()) - PREDEFINED):
        if here.get(path) != there.get(path):
            differences.append(f"{path}: {here.get(path, 'missing')} here, {there.get(path, 'missing')} there")
    return here, differences


def theirs(files, calls):
    """What `acpiexec` prints of each call, some calls a run."""
    texts = []
    for n in range(0, len(calls), BATCH):
        some = calls[n:n + BATCH]
        printed = said(["acpiexec", "-di", "-b", ";".join(" ".join(["execute", *call]) for call in some), *files]).split("Evaluating ")[1:]
        if len(printed) != len(some):
            raise SystemExit(f"acpiexec evaluated {len(printed)} of {len(some)} calls")
        texts += printed
    return texts


def compare_values(program, files, paths):
    """Each method, with arguments from one up: how many were called, and what differs."""
    methods = [(path, int(kind.split()[1])) for path, kind in paths.items() if kind.startswith("method") and path not in PREDEFINED]
    calls = [[path, *(hex(n + 1) for n in range(count))] for path, count in methods]
    differences = []
    for (path, *arguments), text in zip(calls, theirs(files, calls)):
        listed = ["--args", ",".join(arguments)] if arguments else []
        here = value(said([program, "eval", "--dead-externals", "--plain", STEPS, "--method", path, *listed, *files]))
        if here != value(text) or not isinstance(here, int):
            differences.append(f"{path}: {here} here, {value(text)} there")
    return len(methods), differences


def compare(program, folder):
    names = values = differences = 0
    for name, texts in sets():
        opened = sum(make(folder, *text) for text in texts)
        tables = [table for table, _ in texts]
        paths, other_names = compare_names(program, folder, name, tables)
        called, other_values = compare_values(program, [f"{folder}/{table}.aml" for table in tables], paths)
        for line in other_names + other_values:
            print(f"  {line}")
        print(f"{name}: {len(texts)} tables, {opened} with an If, {len(paths)} names, {called} methods")
        names, values, differences = names + len(paths), values + called, differences + len(other_names + other_values)
    print(f"{names} names and {values} methods compared, {differences} differences")
    return differences


def dead_ifs(count):
    """A DSDT of so many Ifs of one External each."""
    part = b"\xa0\x09\x00\x15" + b"M000" + b"\x08\x00"
    return summed(b"DSDT" + bytes(4) + b"\x02\x00ACPICKDEADIFS0" + bytes(12) + part * count)


def timed(program, folder):
    for count in TIMED:
        file = f"{folder}/dead{count}.aml"
        with open(file, "wb") as it:
            it.write(dead_ifs(count))
        took = []
        for _ in range(15):
            before = resource.getrusage(resource.RUSAGE_CHILDREN)
            listed = said([program, "names", "--dead-externals", file])
            after = resource.getrusage(resource.RUSAGE_CHILDREN)
            took.append(after.ru_utime + after.ru_stime - before.ru_utime - before.ru_stime)
        print(f"{count} dead Ifs, {os.path.getsize(file)} bytes: {min(took) * 1000:.1f} ms of processor time, {len(listed.splitlines())} lines")
    return 0


def main(words):
    if not 1 <= len(words) <= 3 or words[-1] == "time" and len(words) < 2:
        sys.exit(__doc__)
    job = timed if words[-1] == "time" else compare
    words = words[:-1] if words[-1] == "time" else words
    os.makedirs(words[0], exist_ok=True)
    return job(words[1] if len(words) > 1 else ACPICHECK, words[0])


if __name__ == "__main__":
    sys.exit(1 if main(sys.argv[1:]) else 0)
