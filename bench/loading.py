#!/usr/bin/env python3
"""Times reading and loading, by the tables that tables.py makes: loading.py [ACPICHECK [KIND ..]].

Each kind of table is made at two sizes, the second twice the first. Told are its bytes, the least processor time of RUNS
whole processes and the greatest resident set, by `/usr/bin/time` (apt-get install time), as a row of a table. A table whose
method MAIN is read is evaluated (`eval --plain`); of the others `names` is written. What is linear takes twice the time
at the second size.
"""
import subprocess
import sys
import tempfile
from pathlib import Path

import tables

ACPICHECK = Path(__file__).resolve().parent.parent / "crates/acpicheck/out/acpicheck"
TIME = "/usr/bin/time"
RUNS = 5
EVALUATED = ["eval", "--plain", "1000000000", "--method", "\\MAIN"]

# the first size of each kind, and what is asked of it
KINDS = {
    "ones": (300_000, EVALUATED),
    "adds": (75_000, EVALUATED),
    "nested": (62_500, EVALUATED),
    "package": (32_767, EVALUATED),
    "methods": (25_000, ["names"]),
    "methods_chosen": (25_000, ["names"]),
    "uses_chosen": (25_000, EVALUATED),
    "chosen": (100_000, EVALUATED),
    "names": (25_000, ["names"]),
    "device_names": (25_000, ["names"]),
    "aliases": (25_000, ["names"]),
    "fields": (25_000, ["names"]),
    "deep_names": (1_000, ["names"]),
    "searched": (20_000, ["names"]),
    "searched_past": (20_000, ["names"]),
    "searched_behind": (20_000, ["names"]),
    "searched_untold": (50_000, EVALUATED),
    "externals": (25_000, EVALUATED),
    "deep_externals": (25_000, EVALUATED),
    "long_externals": (8_000, EVALUATED),
}


def timed(program, words, path):
    """The processor seconds and the KiB of a run, which has to end with a value, or with an error of AML where names mean nothing."""
    ran = subprocess.run([TIME, "-f", "%U %S %M", str(program), *words, path], stdout=subprocess.DEVNULL, stderr=subprocess.PIPE, text=True)
    if ran.returncode not in (0, 3):
        sys.exit(f"{path}: status {ran.returncode}: {ran.stderr[-300:]}")
    user, system, held = ran.stderr.split()[-3:]
    return float(user) + float(system), int(held)


def main(words):
    program = words[0] if words else ACPICHECK
    print("| table | bytes | processor time | resident |\n|---|---|---|---|")
    for kind in words[1:] or KINDS:
        first, asked = KINDS[kind]
        for count in (first, 2 * first):
            with tempfile.TemporaryDirectory() as folder:
                path = f"{folder}/dsdt.bin"
                table = tables.dsdt(tables.body_of(kind, count))
                Path(path).write_bytes(table)
                runs = [timed(program, asked, path) for _ in range(RUNS)]
            seconds, held = min(it[0] for it in runs), max(it[1] for it in runs)
            print(f"| `{kind} {count}` | {len(table):,} | {seconds * 1000:.0f} ms | {held / 1024:.1f} MiB |", flush=True)


if __name__ == "__main__":
    main(sys.argv[1:])
