#!/usr/bin/env python3
"""Compares a listing of names with ACPICA's: against_acpica.py LISTING TABLE [TABLE ..].

LISTING is what `list_names` prints of the tables. `acpiexec` (of Debian's acpica-tools) loads the same tables, and its
`namespace` command lists what it has. Printed are the paths that only one of both has, and those whose kinds differ;
the last line counts both, and the status is 1 where they differ or nothing was compared. What differs by nature is left
out: the predefined names, as `acpiexec` takes `_SB_` and `_TZ_` for a device and a thermal zone, and `\\_TI_`, which is
its own.
"""
import re
import subprocess
import sys

KINDS = {
    "Device": "device", "Method": "method", "Integer": "integer", "String": "string", "Buffer": "buffer", "Package": "package",
    "Region": "region", "RegionField": "field", "IndexField": "field", "BankField": "field", "BufferField": "bufferfield",
    "Mutex": "mutex", "Event": "event", "MethodAlias": "alias", "Alias": "alias", "Processor": "processor", "Power": "power", "Thermal": "thermal", "Scope": "scope",
}
LINE = re.compile(r"^ ?([0-9A-F]+) +([A-Z_][A-Z0-9_]{3}) (\w+)(.*)$")
PREDEFINED = {"\\_GPE", "\\_PR_", "\\_SB_", "\\_SI_", "\\_TZ_", "\\_REV", "\\_OSI", "\\_OS_", "\\_GL_"}


def acpica(tables):
    """The paths of `acpiexec`, each with its kind and a method's number of arguments."""
    said = subprocess.run(["acpiexec", "-di", "-b", "namespace", *tables], capture_output=True, text=True, check=False).stdout
    paths, above = {}, []
    for line in said.splitlines():
        found = LINE.match(line)
        if not found:
            continue
        depth, segment, kind, rest = int(found[1], 16), found[2], found[3], found[4]
        above[depth:] = [segment]
        told = KINDS.get(kind, kind)
        if told == "method":
            told += " " + re.search(r"Args (\d)", rest)[1]
        if above[0] != "_TI_":
            paths["\\" + ".".join(above)] = told
    return paths


def ours(listing):
    """The paths of a listing; of a kind that is told with a number, but a method's, the kind alone."""
    paths = {}
    with open(listing, encoding="latin-1") as lines:
        for line in lines:
            path, kind = line.rstrip("\n").split(" ", 1)
            paths[path] = kind if kind.startswith("method") else kind.split(" ")[0]
    return paths


def main(listing, tables):
    a, b = ours(listing), acpica(tables)
    differences, compared = 0, sorted((a.keys() | b.keys()) - PREDEFINED)
    for path in compared:
        if a.get(path) != b.get(path):
            differences += 1
            print(f"{path}: {a.get(path, 'missing')} here, {b.get(path, 'missing')} there")
    print(f"{len(a)} paths here, {len(b)} there, {differences} differences")
    return 1 if differences or not compared else 0


if __name__ == "__main__":
    sys.exit(main(sys.argv[1], sys.argv[2:]))
