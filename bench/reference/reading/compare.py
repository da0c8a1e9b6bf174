#!/usr/bin/env python3
"""Compares what the program reads with what this reading reads, over generated inputs.

    python3 compare.py [--program PATH] [--what W] [--cases N] [--seed S] [--seconds T] [--most M]

| W | what is compared |
|---|---|
| `tables` | the command `tables`: root pointers, XSDT, FADT, MADT, other tables, cut and changed |
| `names` | the command `names`: sets of tables of all definitions, well-formed, changed, nested to the limit |
| `bodies` | by `verify`, whether a body can be read, or its first fault and its place |
| `short` | the same of all bodies of one and two bytes, and of many bytes out of few |
| `places` | the same of every first byte in every kind of place, at several depths, and in modules |
| `arity` | how many terms a name takes: methods, aliases, Externals, own names, in scopes of several tables |
| `settled` | what regions, index, bank and buffer fields and package elements name once all tables are loaded |
| `notes` | what people are told of definitions that are refused |
| `asked` | what people are told of paths that are no method's |
| `folders` | which files of a folder are taken, in which order, and which are told as passed over |
| `texts` | `eval` with `--args`, `--regs`, `--kinds`, `--plain`, `--osi`, by files and by standard input |

Each difference is told with its bytes and both outputs, made smaller where that is easy; behind M of them, 20 if it is
not given, the script stops. Last stand counts of faults and of what was read.
"""
import argparse
import collections
import itertools
import os
import queue
import random
import subprocess
import sys
import tempfile
import time
from concurrent.futures import ThreadPoolExecutor

import generate
import namespace
import tables
from faults import Fault

TOP = os.path.dirname(os.path.dirname(os.path.dirname(os.path.dirname(os.path.abspath(__file__)))))
PROGRAM = f"{TOP}/crates/acpicheck/out/acpicheck"
SECONDS = 30
# Behind so many cases the time is looked at; a case of some is many bodies, and one of `short` has all short ones first.
CASES_AT_ONCE = {"bodies": 450, "short": 450, "places": 20, "arity": 5, "settled": 20, "asked": 5}
FOREVER = 10**6
BODIES_PER_TABLE = 150
WORKERS = 4


class Program:
    """The built program, run in a folder of its own."""

    def __init__(self, path):
        self.path = os.path.abspath(path)
        # It is taken away when the script ends, however it ends.
        self.room = tempfile.TemporaryDirectory()
        self.folder = self.room.name
        self.runs = 0
        self.pool = None
        self.free = queue.Queue()

    def put(self, name, data):
        """Writes a file."""
        with open(os.path.join(self.folder, name), "wb") as file:
            file.write(data)
        return name

    def run(self, words, data=b"", folder=None):
        """The status and the lines of a run."""
        self.runs += 1
        try:
            done = subprocess.run([self.path, *words], input=data, stdout=subprocess.PIPE, stderr=subprocess.DEVNULL,
                                  cwd=folder or self.folder, timeout=SECONDS)
        except subprocess.TimeoutExpired:
            return "timeout", []
        text = done.stdout.decode("latin1")
        lines = text.split("\n")
        if lines[-1] != "":
            return "no line end", lines
        return done.returncode, lines[:-1]

    def start_files(self, command, files):
        """The answer of a command over files, as something to be waited for; several may be under way."""
        return self.start(lambda folder: self.run_in(folder, command, files))

    def start(self, work):
        """Work in a free folder."""
        if self.pool is None:
            self.pool = ThreadPoolExecutor(WORKERS)
            for number in range(WORKERS):
                folder = os.path.join(self.folder, f"worker{number}")
                os.mkdir(folder)
                self.free.put(folder)

        def done():
            folder = self.free.get()
            try:
                return work(folder)
            finally:
                self.free.put(folder)
        return self.pool.submit(done)

    def run_in(self, folder, command, files):
        """A command over files of these bytes in a folder."""
        names = []
        for number, data in enumerate(files):
            names.append(f"file{number}")
            with open(os.path.join(folder, names[-1]), "wb") as file:
                file.write(data)
        return self.run(command + names, folder=folder)

    def run_files(self, command, files):
        """A command over files of these bytes."""
        names = [self.put(f"file{number}", data) for number, data in enumerate(files)]
        return self.run(command + names)


class Counts:
    """How often each fault was told and each thing was read."""

    def __init__(self):
        self.faults = collections.Counter()
        self.read = collections.Counter()
        self.cases = 0
        self.differences = []

    def note(self, lines):
        """Counts the faults of an output."""
        for line in lines[-1:]:
            words = line.split()
            if words and words[0] == "fault":
                self.faults[words[1]] += 1

    def tell(self, kind, inputs, wanted, got):
        """Prints a difference."""
        self.differences.append((kind, inputs, wanted, got))
        print(f"difference: {kind}")
        for item in inputs:
            print("  input    ", item.hex() if isinstance(item, bytes) else item)
        print("  reference", wanted)
        print("  program  ", got, flush=True)


def tail(answer):
    """The end of an answer, short enough to be printed."""
    return answer[0], [line[:200] for line in answer[1][-3:]]


def first_difference(wanted, got):
    """The first lines that differ."""
    for number, (one, other) in enumerate(zip(wanted[1], got[1])):
        if one != other:
            return number, one, other
    return len(wanted[1]), len(got[1]), wanted[0], got[0]


def smaller(files, differs):
    """Files with as many bytes taken out as possible while they still differ."""
    files, spent = list(files), 0
    for size in (64, 16, 4, 1):
        for number in range(len(files)):
            at = len(files[number])
            while at > 36 and spent < 3000:
                at = max(36, at - size)
                less = files[:]
                less[number] = generate.fitted(files[number][:at] + files[number][at + size:])
                spent += 1
                if len(less[number]) < len(files[number]) and differs(less):
                    files = less
    return files


def compare_tables(program, counts, rng, cases):
    """The command `tables` over files of every kind."""
    def make():
        files = [generate.other_table(rng) for _ in range(rng.choice((1, 1, 1, 2, 3)))]
        return [generate.mutated_file(rng, data) if rng.random() < 0.5 else data for data in files]
    for files, wanted, got in answered(program, [make() for _ in range(cases)], ["tables"], reference_tables):
        counts.cases += 1
        counts.note(wanted[1])
        counts.read.update(line.split()[0] for line in wanted[1] if line.startswith("  "))
        if wanted != got:
            counts.tell("tables", files, tail(wanted), tail(got))


def answered(program, inputs, command, reference):
    """Inputs with the reference's answer and the program's, of which several runs are under way at once."""
    started = [program.start_files(command, files) for files in inputs]
    for files, run in zip(inputs, started):
        yield files, reference(files), run.result()


def reference_tables(files):
    """The reference's answer for `tables`."""
    lines = tables.listing(files)
    return int(bool(lines) and lines[-1].startswith("fault ")), lines


def reference_names(files, counts=None):
    """The reference's answer for `names`."""
    try:
        return 0, namespace.Namespace(files, counts).listing()
    except Fault as fault:
        return 1, [fault.line()]


def compare_names(program, counts, rng, cases):
    """The command `names` over sets of tables."""
    inputs = [names_input(rng) for _ in range(cases)]
    check_names(program, counts, inputs)


def check_names(program, counts, inputs):
    """Sets of tables by `names`."""
    for files, wanted, got in answered(program, inputs, ["names"], lambda files: reference_names(files, counts.read)):
        counts.cases += 1
        counts.note(wanted[1])
        if wanted[0] == 0:
            counts.faults["loaded"] += 1
        if wanted != got:
            files = smaller(files, lambda less: reference_names(less) != program.run_files(["names"], less))
            wanted, got = reference_names(files), program.run_files(["names"], files)
            counts.tell("names", files, tail(wanted), tail(got))
            print("  first    ", first_difference(wanted, got))


def names_input(rng):
    """A set of tables: well-formed, mutated, or nested deeply."""
    choice = rng.random()
    if choice < 0.1:
        maker = generate.Terms(rng, [(b"\\_SB_", 0)], True)
        depth, levels = rng.choice((60, 62, 63, 64, 64, 65, 65, 66, 67)), rng.randrange(0, 66)
        return [generate.table(b"DSDT", 2, deep_module(maker, depth, levels))]
    files = generate.Tables(rng, rng.choice((0.0, 0.02, 0.05, 0.2))).set_of_tables()
    if rng.random() < 0.55:
        number = rng.randrange(len(files))
        files[number] = generate.mutated_table(rng, files[number])
    return files


def deep_module(maker, depth, levels):
    """Scopes around a definition whose term is nested so that both are this deep together."""
    levels, is_data = min(levels, depth - 2), maker.chance(0.5)
    leaves = (b"\x0D\0", b"\1", b"\x11\3\1\2", b"\1", b"\x0A\1") + (() if is_data else (b"AAAA", b"\x60", b"\x5C\0"))
    inner = maker.rng.choice(leaves)
    if maker.chance(0.2):
        inner = maker.rng.choice((b"\x5B", b"\2", b"\x60", b"", b"\x5C\0", b"\xFF\xFF", b"\x5B\x31", b"\xA1\1"))
    wraps = [lambda: b"\x12" + maker.package(b"\1" + inner), lambda: b"\x13" + maker.package(b"\1\1" + inner)]
    if not is_data:
        wraps += [lambda: b"\x92" + inner, lambda: b"\x80" + inner + b"\0", lambda: b"\x72\1" + inner + b"\0"]
    for _ in range(depth - levels - 2):
        inner = maker.rng.choice(wraps)()
    data = [lambda: b"\x08NNNN" + inner]
    flat = [lambda: b"\x06_SB_AAAA", lambda: b"\x5B\x02EEEE", lambda: b"\x5B\x81" + maker.package(b"\\\0\1\2" + inner),
            lambda: b"\x8A" + inner + b"\1FFFF", lambda: b"\x8ABUF0" + inner + b"FFFF",
            lambda: b"\x14" + maker.package(b"MMMM\0" + inner),
            lambda: b"\x5B\x81" + maker.package(b"\\\0\1\2\x11\3\1\2")]
    terms = [lambda: b"\x5B\x80RRRR\1" + inner + b"\1", lambda: b"\x5B\x80RRRR\1\1" + inner,
             lambda: b"\x5B\x88DDDD\1" + inner + b"\1", lambda: b"\x5B\x87" + maker.package(b"RRRRFFFF" + inner + b"\1")]
    inner = maker.rng.choice(flat if maker.chance(0.15) else data if is_data and maker.chance(0.6) else terms)()
    for _ in range(levels):
        inner = maker.rng.choice((
            lambda: b"\x10" + maker.package(b"\\\0" + inner),
            lambda: b"\x5B\x82" + maker.package(maker.new_segment() + inner)))()
    return inner


PREAMBLE_NAMES = [(b"MET%d" % count, count) for count in range(8)] + [(b"EXT%d" % count, count) for count in range(8)] + [
    (b"INT0", 0), (b"BUF0", 0), (b"STR0", 0), (b"PKG0", 0), (b"FLD0", 0), (b"MTX0", 0), (b"DEV0", 0), (b"ALS3", 3),
    (b"ALSO", 1), (b"_OSI", 1), (b"\\_OSI", 1), (b"\\MET2", 2), (b"^MET2", 2), (b"\\\x2EDEV0MET1", 3), (b"DEXT", 4),
    (b"\x2F\1MET2", 2), (b"EXTT", 2), (b"EXTU", 0), (b"EXTM", 2), (b"EXTD", 1), (b"EXTS", 3), (b"\\\0", 0),
    (b"\\\x2EDEV0DEXT", 4), (b"^DEXT", 4), (b"\x2EAAAABBBB", 0), (b"EXTB", 9), (b"^^MET1", 1), (b"^^^MET1", 0),
    (b"\\\x2E_SB_EXT6", 6), (b"EXT6", 6), (b"NONE", 0)]


def preamble():
    """Definitions that give names of every arity, in scopes that hide some of them."""
    maker = generate.Maker(random.Random(0))
    made = b"".join(b"\x14" + maker.package(b"MET%d" % count + bytes([count | 0x58 * (count & 1)])) for count in range(8))
    made += b"".join(b"\x15EXT%d\x08%c" % (count, count) for count in range(8) if count != 6)
    made += b"\x08INT0\1\x08BUF0\x11\3\x0A\x10\x08STR0\x0DAB\0\x08PKG0\x12\3\2\1"
    made += b"\x5B\x80GPIO\1\x0A\x60\x0A\4\x5B\x81\x0BGPIO\1FLD0\x08" + b"\x5B\1MTX0\3"
    made += b"\x06MET3ALS3\x06_OSIALSO\x15INT0\x08\3\x15EXTT\1\3\x15EXTT\x08\2\x15EXTT\x08\5\x15^EXTU\x08\1"
    made += b"\x15\\\x2EM000EXTM\x08\2\x15\\\x2E_SB_EXT6\x08\6\x15EXTB\x08\x09\x15\\\0\x08\2"
    inner = b"\x14\x06MET1\x03\x08MET2\0\x15DEXT\x08\4\x15EXTD\x08\1\x15EXT2\x08\5"
    inner += b"\x5B\x82" + maker.package(b"DEV1" + b"\x15EXTD\x08\3\x14\6MET1\1" + b"\x15^MET4\x08\1")
    made += b"\x5B\x82" + maker.package(b"DEV0" + inner)
    return made


PREAMBLE = preamble()


def bodies_tables(bodies):
    """A DSDT and an SSDT with a method of each body in one of several scopes."""
    maker = generate.Maker(random.Random(0))
    groups = {0: b"", 1: b"", 2: b"", 3: b"", 4: b""}
    for number, (place, flags, body) in enumerate(bodies):
        groups[place] += b"\x14" + maker.package(b"M%03d" % number + bytes([flags]) + body)
    scopes = {1: b"\\DEV0", 2: b"\\\x2EDEV0DEV1", 3: b"\\_SB_"}
    contents = PREAMBLE + groups[0]
    for place, name in scopes.items():
        contents += b"\x10" + maker.package(name + groups[place])
    return [generate.table(b"DSDT", 2, contents), generate.table(b"SSDT", 2, b"\x15EXTS\x08\3\x15EXT1\x08\6" + groups[4])]


def body_lines(files, counts=None):
    """The reference's line or None for each method."""
    space = namespace.Namespace(files)
    return {namespace.printed(method.path): space.body_line(method, counts) for method in space.methods}


def program_body_lines(program, files):
    """The program's line of each method whose body it can't read, None for others."""
    status, lines = program.run_files(["verify"], files)
    found = {}
    for line in lines:
        words = line.split(" ")
        refused = len(words) == 6 and words[1] == "refused" and words[4].startswith("E")
        found[words[0]] = line if refused else None
        if len(words) < 3 or words[1] not in ("accepted", "refused"):
            found[line] = "strange"
    return found if status in (0, 3) else {"status": status, "lines": lines}


def random_body(rng, maker):
    """A body: well-formed, mutated, deep, or of bytes."""
    choice = rng.random()
    if choice < 0.15:
        leaf = rng.choice((None, b"\1", b"\x60", b"AAAA", b"\x5B", b"\2", b"", b"\x5B\x33", b"MET0", b"MET1", b"EXT1",
                           b"\x5C\0", b"\x5C", b"\x0A", b"\x2F\0", b"\x0D\x80", b"\xA1", b"\x5B\x31", b"\x5B\x30"))
        body = maker.nested(rng.randrange(60, 68), leaf)
        return generate.mutated(rng, body) if rng.random() < 0.2 else body
    if choice < 0.2:
        return bytes(rng.choice((0, 1, 0x60, 0x70, 0xA0, 0xA1, 0x5B, 0x11, 0x12, 0x41, 0x0D, 4, 8, rng.randrange(256)))
                     for _ in range(rng.randrange(12)))
    body = maker.body()
    return generate.mutated(rng, body) if rng.random() < 0.65 else body


def compare_bodies(program, counts, rng, cases):
    """The bodies of methods by `verify`."""
    maker = generate.Terms(rng, PREAMBLE_NAMES)
    while cases > 0:
        bodies = [(rng.choice((0, 0, 0, 1, 2, 3, 4)), rng.randrange(8), random_body(rng, maker))
                  for _ in range(min(BODIES_PER_TABLE, cases))]
        bodies = [(place, flags, body if len(body) < 20000 else b"") for place, flags, body in bodies]
        cases -= len(bodies)
        counts.cases += len(bodies)
        files = bodies_tables(bodies)
        wanted = body_lines(files, counts.read)
        got = program_body_lines(program, files)
        for line in wanted.values():
            counts.faults[line.split()[4] if line else "parses"] += 1
        if wanted != got:
            tell_bodies(program, counts, bodies, wanted, got)


def tell_bodies(program, counts, bodies, wanted, got):
    """Each body that differs, made smaller."""
    shown = 0
    for number, (place, flags, body) in enumerate(bodies):
        path = [path for path in wanted if path.endswith(f"M{number:03d}")][0]
        if wanted.get(path) == got.get(path, "missing"):
            continue
        shown += 1
        if shown > 3:
            break
        body = smaller_body(program, place, flags, body)
        files = bodies_tables([(place, flags, body)])
        counts.tell(f"body in scope {place}", [body], [*body_lines(files).values()][-1:] if place else
                    body_lines(files).get("\\M000"),
                    [line for line in program.run_files(["verify"], files)[1] if "M000" in line])
    if shown == 0:
        counts.tell("bodies", bodies_tables(bodies), "", str(got)[:300])


def smaller_body(program, place, flags, body):
    """A body with as many bytes taken out as possible while the answers still differ."""
    def differs(less):
        files = bodies_tables([(place, flags, less)])
        return body_lines(files) != program_body_lines(program, files)
    if not differs(body):
        return body
    for size in (32, 8, 2, 1, 1):
        at = len(body)
        while at > 0:
            at = max(0, at - size)
            less = body[:at] + body[at + size:]
            if differs(less):
                body = less
    return body


ALPHABET = bytes(sorted({0x00, 0x01, 0x02, 0x03, 0x04, 0x05, 0x06, 0x08, 0x0A, 0x0B, 0x0D, 0x10, 0x11, 0x12, 0x13, 0x14,
                         0x15, 0x23, 0x2E, 0x2F, 0x30, 0x31, 0x40, 0x41, 0x5B, 0x5C, 0x5E, 0x60, 0x68, 0x70, 0x71, 0x75,
                         0x80, 0x83, 0x87, 0x88, 0x8A, 0x92, 0x93, 0x9D, 0xA0, 0xA1, 0xA2, 0xA3, 0xA4, 0xC0, 0xFF}))


def short_bodies(rng, cases):
    """All bodies of one and two bytes, those of three of some bytes, and some longer ones of those bytes."""
    yield from (bytes([one]) for one in range(256))
    yield from (bytes([one, two]) for one in range(256) for two in range(256))
    yield from (bytes(item) for item in itertools.product(ALPHABET, repeat=3))
    for _ in range(cases):
        yield bytes(rng.choice(ALPHABET) for _ in range(rng.randrange(4, 9)))


def compare_short(program, counts, rng, cases):
    """Short bodies, all or many of them."""
    check_short(program, counts, short_bodies(rng, cases), 3000)


def firsts():
    """All first bytes of a part, and all second ones behind 5B."""
    return [bytes([byte]) for byte in range(256)] + [b"\x5B" + bytes([byte]) for byte in range(256)]


RESTS = (b"", b"\1\1\1\0", b"AAAAA\0", b"\1\1EFGH\0")


def body_places(maker):
    """What may stand before a part in a body, as functions of the part: one for each kind of place."""
    return [lambda part: part, lambda part: b"\x70\1" + part, lambda part: b"\x75" + part, lambda part: b"\x9D\1" + part,
            lambda part: b"\xA4" + part, lambda part: b"\xA4\x12" + maker.package(b"\1" + part),
            lambda part: b"\x08ABCD" + part, lambda part: b"\xA4\x11" + maker.package(part),
            lambda part: b"\xA4\x13" + maker.package(part), lambda part: b"\x5B\x81" + maker.package(b"AAAA\0\2" + part),
            lambda part: b"\x5B\x81" + maker.package(b"AAAA\0" + part), lambda part: b"\xA0" + maker.package(b"\1" + part),
            lambda part: b"\xA0\2\1" + part, lambda part: b"\x5B\x12" + part, lambda part: b"\x5B\x20" + part,
            lambda part: b"\x8A" + part, lambda part: b"\x8A\1" + part, lambda part: b"\x15" + part,
            lambda part: b"\x10" + maker.package(part), lambda part: b"\xA0" + part, lambda part: b"\xA4\x89\1" + part]


def wrapped(maker, depth, statement):
    """A statement below so many Ifs."""
    for _ in range(depth):
        statement = b"\xA0" + maker.package(b"\1" + statement)
    return statement


def compare_places(program, counts, rng, cases):
    """Every first byte in every kind of place: in bodies at several depths, and in modules."""
    maker = generate.Maker(rng)
    places, parts = body_places(maker), firsts()
    bodies = [wrapped(maker, rng.choice((0, 0, 62, 63, 64)), rng.choice(places)(rng.choice(parts) + rng.choice(RESTS)))
              for _ in range(cases * 20)]
    check_short(program, counts, bodies, 2000)
    before = [lambda part: part, lambda part: b"\x08ABCD" + part, lambda part: b"\x08ABCD\x11" + maker.package(part),
              lambda part: b"\x08ABCD\x13" + maker.package(part), lambda part: b"\x8A" + part, lambda part: b"\x8DABCD" + part,
              lambda part: b"\x5B\x13ABCD\1" + part, lambda part: b"\x5B\x80ABCD\1" + part,
              lambda part: b"\x5B\x80ABCD\1\x11" + maker.package(part),
              lambda part: b"\x08ABCD\x12" + maker.package(b"\1" + part),
              lambda part: b"\x5B\x81" + maker.package(b"ABCD\0\2" + part),
              lambda part: b"\x5B\x81" + maker.package(b"ABCD\0" + part),
              lambda part: b"\x06" + part, lambda part: b"\x10" + maker.package(part),
              lambda part: b"\x14" + maker.package(part),
              lambda part: b"\x5B\x81" + maker.package(b"ABCD\0\2\x11" + maker.package(part))]
    chosen = [deeper(maker, rng.choice((0, 0, 0, 62, 63)), rng.choice(before)(rng.choice(parts) + rng.choice(RESTS)))
              for _ in range(cases * 4)]
    check_names(program, counts, [[generate.table(b"DSDT", 2, contents)] for contents in chosen])


def deeper(maker, depth, contents):
    """Contents of a module below so many Scopes of the root."""
    for _ in range(depth):
        contents = b"\x10" + maker.package(b"\\\0" + contents)
    return contents


def check_short(program, counts, bodies, size):
    """Bodies, many in one table."""
    bodies = iter(bodies)
    while some := list(itertools.islice(bodies, size)):
        contents = b"".join(b"\x14" + generate.Maker(random.Random(0)).package(b"Q%03X\0" % number + body)
                            for number, body in enumerate(some))
        files = [generate.table(b"DSDT", 2, contents)]
        wanted, got = body_lines(files, counts.read), program_body_lines(program, files)
        counts.cases += len(some)
        counts.faults.update(line.split()[4] if line else "parses" for line in wanted.values())
        for path in wanted:
            if wanted[path] != got.get(path):
                counts.tell("short body", [some[int(path[2:], 16)]], wanted[path], got.get(path))


def arity_input(rng):
    """Tables, and behind them one whose methods hand a name none to nine terms before a statement that is no term."""
    maker = generate.Tables(rng, rng.choice((0.0, 0.0, 0.02)))
    maker.slips = 0.0
    maker.KINDS = maker.KINDS + (0x14,) * 4 + (0x15,) * 12 + (0x06,) * 4
    files = maker.set_of_tables()
    contents, bodies = b"", {}
    for number in range(15):
        scope = rng.choice(maker.scopes())
        name = asked_name(rng, maker, scope)
        front = rng.choice((b"", b"", b"", b"\x08" + (name if len(name) == 4 else maker.segment()) + b"\1",
                            b"\x08\x2F\1" + (name if len(name) == 4 else maker.segment()) + b"\1"))
        for terms in range(10):
            path = scope + (b"T%02d%d" % (number, terms),)
            body = front + name + b"\1" * terms + b"\xA3"
            bodies[path] = body
            contents += b"\x14" + maker.package(b"\\" + maker.segments(path) + b"\0" + body)
    return files + [generate.table(b"SSDT", 2, contents)], bodies


def asked_name(rng, maker, scope):
    """A name whose arity is asked for: of something that there is, or of an External, or any."""
    if rng.random() < 0.25:
        return maker.any_name()
    methods = [path for path, kind in maker.paths.items() if kind == "method"]
    path = rng.choice(rng.choice((list(maker.paths), methods, maker.externals or methods)))
    if not path:
        return maker.any_name()
    return path[-1] if rng.random() < 0.5 else maker.spelt(path, scope + (b"T000",))


def compare_arity(program, counts, rng, cases):
    """How many terms names take in methods of many scopes."""
    for _ in range(cases):
        files, bodies = arity_input(rng)
        try:
            wanted = body_lines(files, counts.read)
        except Fault as fault:
            counts.faults[fault.number] += 1
            continue
        got = program_body_lines(program, files)
        counts.cases += len(wanted)
        taken = collections.Counter(path[:-1] for path, line in wanted.items() if line and path[-5:-3] != "T_")
        counts.faults.update(f"takes {count}" for count in taken.values())
        if wanted != got:
            for path in wanted:
                if wanted[path] != got.get(path):
                    counts.tell("arity", files, (path, wanted[path]), got.get(path))
                    break


def words_of(description):
    """A parser of the words that all scripts have."""
    words = argparse.ArgumentParser(description=description, formatter_class=argparse.RawDescriptionHelpFormatter)
    words.add_argument("--program", default=PROGRAM)
    return words


def given_words(words):
    """The words that were given; without a program there is nothing to compare."""
    given = words.parse_args()
    if not os.path.isfile(given.program):
        sys.exit(f"there is no program {given.program}")
    return given


def main():
    # Two of these stand on this file, so they can't be read before this one was.
    import compare_folders
    import compare_notes
    import compare_texts
    compares = {"tables": compare_tables, "names": compare_names, "bodies": compare_bodies, "arity": compare_arity,
                "short": compare_short, "places": compare_places, "texts": compare_texts.compare_texts,
                "notes": compare_notes.compare_notes, "asked": compare_notes.compare_asked,
                "folders": compare_folders.compare_folders, "settled": compare_texts.compare_settled}
    words = words_of(__doc__)
    words.add_argument("--what", default="names", choices=compares)
    words.add_argument("--cases", type=int, default=1000)
    words.add_argument("--seed", type=int, default=1)
    words.add_argument("--seconds", type=float, default=FOREVER)
    words.add_argument("--most", type=int, default=20)
    given = given_words(words)
    program, counts, rng = Program(given.program), Counts(), random.Random(given.seed)
    left, last = given.cases, time.monotonic() + given.seconds
    while left > 0 and len(counts.differences) < given.most and time.monotonic() < last:
        some = min(left, CASES_AT_ONCE.get(given.what, 100))
        compares[given.what](program, counts, rng, some)
        left -= some
    print("faults", dict(sorted(counts.faults.items())))
    print("read", dict(sorted(counts.read.items(), key=lambda item: item[1])))
    print(f"{counts.cases} compared, {len(counts.differences)} differences")
    return 1 if counts.differences else 0


if __name__ == "__main__":
    sys.exit(main())
