"""Compares how the program reads words, texts and standard input, and what settled fields of tables name."""
import os
import random

import generate
import namespace
import texts
from faults import Fault

SPACE_NUMBERS = (0, 1, 2, 3, 5)
PLACES = (0, 0x10, 0x60, 2**32 - 8, 2**63, 2**64 - 8)


def space_name(space, number):
    """The name of the field of one place in one space."""
    return b"F%d%02d" % (space, number)


def fixed_table(revision):
    """A table with methods of every number of arguments, and one that reads qwords of every space."""
    maker = generate.Maker(random.Random(0))
    made, reads = b"", b""
    for space in SPACE_NUMBERS:
        for number, place in enumerate(PLACES):
            region = b"R%d%02d" % (space, number)
            made += b"\x5B\x80" + region + bytes([space]) + b"\x0E" + place.to_bytes(8, "little") + b"\x0A\x08"
            made += b"\x5B\x81" + maker.package(region + b"\4" + space_name(space, number) + b"\x40\4")
            reads += space_name(space, number)
    made += b"\x14" + maker.package(b"READ\0" + reads)
    for count in range(8):
        made += b"\x14" + maker.package(b"ARG%d" % count + bytes([count]))
        for argument in range(count):
            made += b"\x14" + maker.package(b"RT%d%d" % (count, argument) + bytes([count]) + b"\xA4"
                                            + bytes([0x68 + argument]))
    made += b"\x14" + maker.package(b"_DSM\4\xA4\x68") + b"\x14\7BADM\0\2" + b"\x06ARG2ALS2"
    made += b"\x5B\x82" + maker.package(b"DEV0" + b"\x14" + maker.package(b"_DSM\4\xA4\x6A") + b"\x14"
                                        + maker.package(b"_DSN\4\xA4\x6B"))
    return generate.table(b"DSDT", revision, made)


FIXED = {revision: fixed_table(revision) for revision in (1, 2)}


class TextMaker(generate.Maker):
    """Texts with every kind of bad line."""

    def number_text(self, base):
        """Digits of a number, sometimes of a bad one."""
        value = self.rng.choice((0, 1, 7, 16, 41, 255, 2**31, 2**32 - 1, 2**32, 2**63, 2**64 - 1, 2**64, 2**65, 2**70,
                                 self.rng.getrandbits(20)))
        if self.chance(0.5):
            value = self.rng.randrange(300)
        text = format(value, "d" if base == 10 else self.rng.choice("xX"))
        if self.chance(0.1):
            text = "0" * self.rng.choice((1, 2, 20)) + text
        if self.chance(0.08):
            text = self.rng.choice(("", "+" + text, "-" + text, text + "_", " " + text, text + "h", "0x" + text, "1_0", "g",
                                    text + "\u0661", text + "."))
        return text

    def hex_text(self, most=10):
        """Hex digits, sometimes bad ones."""
        text = self.rng.randbytes(self.rng.choice((0, 1, 2, 3, most))).hex()
        if self.chance(0.3):
            text = text.upper()
        if self.chance(0.1):
            text += self.rng.choice(("0", "g", "0x", " ", "-", "\u0661", "00 "))
        return text

    def argument(self):
        """An element of `--args`."""
        choice = self.rng.randrange(16)
        if choice < 4:
            return self.number_text(10)
        if choice < 7:
            return "0x" + self.number_text(16)
        if choice < 10:
            return "buf:" + self.hex_text(16)
        if choice < 13:
            return "str:" + self.rng.choice(("", "A", "AB", "ab c", "x" * 20, "\x01\x7f", "\u00e9", "a:b", "\"\\", "\t",
                                             "=", "0x"))
        if choice < 15:
            return "pkg"
        return self.rng.choice(("", " ", "pkg:", "Pkg", "buf", "str", "int:5", "buf:zz", "BUF:00", "0X10", "x10", "00", "0x",
                                "buf: 00", " 5", "5 ", "-", "str", "pkg "))

    def args_text(self, count):
        """A text of `--args` of about so many elements."""
        if self.chance(0.1):
            count = self.rng.randrange(9)
        return ",".join(self.argument() for _ in range(count))

    def line_break(self):
        """What stands between two lines."""
        return self.rng.choice((b"\n", b"\n", b"\n", b"\n", b"\n", b"\n\n", b"\r\n" if self.chance(0.05) else b"\n"))

    def lines(self, make):
        """A text of lines, with or without the last line end."""
        text = b""
        for _ in range(self.rng.choice((0, 1, 1, 2, 3, 5))):
            text += make() + self.line_break()
        return text[:-1] if self.chance(0.2) else text

    def comment(self):
        """A line that counts for nothing, or nearly."""
        return self.rng.choice((b"", b"#", b"# mem", b"#\xff\x00", b" #" if self.chance(0.1) else b"# x"))

    def regs_line(self):
        """A line of `--regs`."""
        if self.chance(0.15):
            return self.comment()
        space = self.rng.choice((b"mem", b"io", b"pci", b"ec", b"cmos"))
        if self.chance(0.04):
            space = self.rng.choice((b"IO", b"smbus", b"", b"ioo", b"0", b"i", b"m\xff"))
        place = self.rng.choice(PLACES) + self.rng.choice((0, 0, 1, 2, 7, -1, 8))
        address = format(max(place, 0), self.rng.choice("xxX")).encode()
        if self.chance(0.1):
            address = b"0" * self.rng.choice((1, 4, 17)) + address
        if self.chance(0.05):
            address = self.rng.choice((b"0x10", b"", b"g", b"10h", b"-1", b"+1", b"1" * 17, b"f" * 16, b"\xff"))
        data = self.rng.randbytes(self.rng.choice((1, 1, 2, 4, 8, 16))).hex().encode()
        if self.chance(0.06):
            data = self.rng.choice((b"", data + b"0", data + b"g", b"0x11", data.upper(), data + b"\xff"))
        line = space + b" " + address + b" " + data
        if self.chance(0.06):
            line = self.rng.choice((line + b" ", b" " + line, b" int", b" ", line.replace(b" ", b"  ", 1),
                                    line.replace(b" ", b"\t"),
                                    line + b" 00", space + b" " + address, space, line + b" #", line + b"\r", line + b"\0"))
        return line

    def kinds_line(self):
        """A line of `--kinds`."""
        if self.chance(0.15):
            return self.comment()
        path = self.rng.choice((b"\\ARG%d" % self.rng.randrange(8),
                                b"\\RT%d%d" % (self.rng.randrange(8), self.rng.randrange(8)),
                                b"\\_DSM", b"\\ALS2", b"\\DEV0._DSM", b"\\DEV0._DSN", b"x", b"\\NONE", b"\xff\xfe",
                                b"DEV0._DSM"))
        words = [path] + [self.kind() for _ in range(self.rng.choice((0, 1, 2, 3, 4, 8)))]
        line = b" ".join(words)
        if self.chance(0.05):
            line = self.rng.choice((line + b" ", b" " + line, line.replace(b" ", b"  ", 1), line.replace(b" ", b"\t"),
                                    line + b"\r"))
        return line

    def kind(self):
        """A kind's word."""
        if self.chance(0.03):
            return self.rng.choice((b"int:", b"buf", b"str", b"buf:", b"pkg:1", b"Int", b"int:0x5", b"int:-1",
                                    b"int:+1", b"any",
                                    b"int:5:6", b":", b"buf:1,2", b"int :5", b"pkgs", b"int:18446744073709551616",
                                    b"buf:18446744073709551616", b"str:99999999999999999999999", b"int:\xff", b"strs:1"))
        return self.rng.choice((b"int", b"pkg", b"int:%d" % self.rng.choice((0, 1, 41, 255, 300, 2**32 - 1, 2**64 - 1)),
                                b"buf:%d" % self.rng.choice((0, 1, 2, 3, 16, 2**64 - 1)), b"buf:002",
                                b"str:%d" % self.rng.choice((0, 1, 2, 3, 2**63)), b"int:00000000000000000000000000041"))


def request(rng):
    """The words and the files of a run of `eval` over the fixed table."""
    maker = TextMaker(rng)
    method, count = rng.choice([("\\READ", 0)] * 4 + [(f"\\ARG{count}", count) for count in range(8)] + [
        (f"\\RT{count}{rng.randrange(count)}", count) for count in (1, 1, 2, 3, 4, 7)] + [
        ("\\_DSM", 4), ("\\DEV0._DSM", 4), ("\\DEV0._DSN", 4), ("\\BADM", 0), ("\\ALS2", 2)])
    if rng.random() < 0.05:
        method = rng.choice(("\\NONE", "READ", "\\", "", "\\READ.", "\\_OSI", "\\DEV0", "\\_REV", "\\read", "\\DEV0.ARG1",
                             "\\\\READ", "\\READ ", "\\ARG", "\\DEV0.", "._DSM", "\u00e9"))
    words, files = [["eval"]], {}
    options = [["--method", method]]
    if rng.random() < (0.9 if count else 0.1):
        options.append(["--args", fitting_args(maker, rng, method, count)])
    if rng.random() < 0.5:
        options.append(["--regs", "regs"])
        files["regs"] = maker.lines(maker.regs_line)
    if rng.random() < 0.5:
        options.append(["--kinds", "kinds"])
        files["kinds"] = maker.lines(maker.kinds_line)
    if rng.random() < 0.4:
        options.append(["--plain", rng.choice(("100", "1", "2", "0", "18446744073709551615"))])
    if rng.random() < 0.1:
        options.append(["--osi", rng.choice(("X", "", "@"))])
    rng.shuffle(options)
    files["table"] = FIXED[rng.choice((1, 2))]
    if method == "\\READ":
        files["table"] = FIXED[2]
    if rng.random() < 0.04:
        files["table"] = rng.choice((b"", files["table"][:40], files["table"] + b"\0"))
    return words + options + [["table"]], files


def fitting_args(maker, rng, method, count):
    """Arguments that often fit."""
    if "_DSM" in method and rng.random() < 0.7:
        return f"buf:{rng.randbytes(16).hex()},{rng.randrange(9)},0x{rng.randrange(99):x},pkg"
    if rng.random() < 0.4:
        return ",".join(rng.choice(("5", "0x29", "4294967295", "4294967296", "18446744073709551615", "0", "256"))
                        for _ in range(count))
    return maker.args_text(count)


def as_input(rng, groups, files):
    """The same request by standard input, where each file is a line."""
    order = [option[1] for name in ("--regs", "--kinds") for option in groups if option[0] == name] + ["table"]
    words = [["@" if word in files else word for word in group] for group in groups]
    lines = [files[name].hex() for name in order]
    lines = [line.upper() if rng.random() < 0.1 else line for line in lines]
    if rng.random() < 0.15:
        number = rng.randrange(len(lines))
        lines[number] = rng.choice((lines[number] + "0", lines[number] + " ", "zz" + lines[number],
                                    lines[number] + "\r", "", " "))
    if rng.random() < 0.08:
        del lines[rng.randrange(len(lines))]
    first = " ".join(word for group in words for word in group)
    if rng.random() < 0.06:
        first = rng.choice((first + " ", " " + first, first.replace(" ", "  ", 1), first.replace("@", "x"), "", first + "\r",
                            first.replace("eval", "names"), first + " @", "names @", "tables @ @", "tables", "names"))
    text = first.encode("utf-8", "surrogateescape") + b"\n" + "\n".join(lines).encode() + (b"\n" if rng.random() < 0.7
            else b"")
    if rng.random() < 0.03:
        text = rng.choice((b"", first.encode(), b"\n", b"\n\n", text.replace(b"\n", b"\r\n"), b"\xff" + text,
                           text + b"\n00\n"))
    return text


def text_case(rng):
    """A run: its words and its files, or its standard input."""
    groups, files = request(rng)
    if rng.random() < 0.4:
        return None, as_input(rng, groups, files)
    words = [word for group in groups for word in group]
    return words, {name: data for name, data in files.items() if rng.random() > 0.01}


def run_case(program, words, files):
    """The program's answer for a run, in a folder that has its files and no others."""
    def work(folder):
        if words is None:
            return program.run([], files, folder)
        for name in ("regs", "kinds", "table"):
            path = os.path.join(folder, name)
            if name in files:
                with open(path, "wb") as file:
                    file.write(files[name])
            elif os.path.exists(path):
                os.remove(path)
        return program.run(words, folder=folder)
    return program.start(work)


def compare_texts(program, counts, rng, cases):
    """Runs of `eval` with every option, by files and by standard input."""
    made = [text_case(rng) for _ in range(cases)]
    started = [run_case(program, words, files) for words, files in made]
    for (words, files), run in zip(made, started):
        try:
            wanted = texts.answer_input(files) if words is None else texts.answer(words, texts.Files(files))
        except NotImplementedError:
            continue
        got = run.result()
        counts.cases += 1
        counts.note(wanted[1])
        last = wanted[1][-1].split() if wanted[1] else ["nothing"]
        counts.faults["outcome " + last[0] if last[0] != "fault" else "any fault"] += 1
        if wanted != got:
            shown = [files] if words is None else [words] + [f"{name} {data!r}" for name,
                                                             data in files.items() if name != "table"]
            counts.tell("texts", shown, (wanted[0], wanted[1][-3:]), (got[0], got[1][-3:]))
            number = next((at for at, (one, other) in enumerate(zip(wanted[1], got[1])) if one != other), None)
            if number is not None:
                print("  first    ", wanted[1][number], "|", got[1][number])


SCOPES = ((), (b"_SB_",), (b"_SB_", b"DEV0"), (b"_SB_", b"DEV0", b"DEV1"), (b"_GPE",), (b"_SB_", b"DEV2"))
REGIONS, FIELDS, BUFFERS = (b"RGA0", b"RGB0", b"RGC0"), (b"IXA0", b"IXB0", b"IXC0"), (b"BFA0", b"BFB0", b"BFC0")


class Settled(generate.Maker):
    """Tables whose definitions name things of other scopes and tables, before or after they are defined."""

    def __init__(self, rng):
        super().__init__(rng)
        self.taken, self.read, self.packages, self.number = set(), [], [], 0

    def reference(self, pool):
        """A name that may find one of these in some scope."""
        choice = self.rng.randrange(8)
        segment = self.rng.choice(pool)
        if choice < 4:
            return segment if self.chance(0.9) else b"\x2F\1" + segment
        if choice == 4:
            return b"^" * self.rng.randrange(1, 4) + segment
        path = self.rng.choice(SCOPES) + (segment,)
        return b"\\" + self.segments(path) if choice < 7 else self.segments(path[-2:])

    def free(self, scope, pool):
        """A segment of these that is still free in a scope."""
        free = [segment for segment in pool if scope + (segment,) not in self.taken]
        if not free:
            return None
        segment = self.rng.choice(free)
        self.taken.add(scope + (segment,))
        return segment

    def item(self, scope):
        """One definition in a scope."""
        self.number += 1
        name, own = b"F%03d" % self.number, self.rng.randrange(12)
        path = scope + (name,)
        if own < 2:
            return self.region(scope)
        if own == 2:
            return self.index_target(scope)
        if own == 3:
            return self.buffer(scope)
        if own == 4:
            pool = self.rng.choice((REGIONS, FIELDS, BUFFERS))
            segment = self.free(scope, pool)
            return b"\x06" + b"\\\x2E_GPE" + pool[0] + segment if segment else b""
        if own in (5, 10) and self.chance(0.5):
            path = self.rng.choice(SCOPES) + (name,)
        if own == 5:
            self.packages.append(path)
            count = self.rng.randrange(1, 4)
            inner = b"".join(self.reference(REGIONS + FIELDS + BUFFERS + (b"DEV0", b"DEV1", b"ALSD")) for _ in range(count))
            where = name if path == scope + (name,) and self.chance(0.5) else b"\\" + self.segments(path)
            return b"\x08" + where + b"\x12" + self.package(bytes([count]) + inner)
        self.read.append(path)
        if own < 8:
            return b"\x5B\x81" + self.package(self.reference(REGIONS) + b"\1" + name + b"\x08")
        if own == 8:
            return b"\x5B\x86" + self.package(self.reference(FIELDS) + self.reference(FIELDS) + b"\1" + name + b"\x08")
        if own == 9:
            return b"\x5B\x87" + self.package(self.reference(REGIONS) + self.reference(FIELDS) + b"\x0A\5\1" + name + b"\x08")
        return b"\x8C" + self.reference(BUFFERS) + b"\0\\" + self.segments(path)

    def region(self, scope):
        """A region at an address of its own."""
        segment = self.free(scope, REGIONS)
        place = (self.number * 16).to_bytes(2, "little")
        return b"\x5B\x80" + segment + b"\1\x0B" + place + b"\1" if segment else b""

    def index_target(self, scope):
        """A field that index and bank fields may stand over, in a region of any name."""
        segment = self.free(scope, FIELDS)
        bits = b"\x08" if self.chance(0.9) else b"\x04"
        return b"\x5B\x81" + self.package(self.reference(REGIONS) + b"\1" + segment + bits) if segment else b""

    def buffer(self, scope):
        """A buffer of one byte of its own, or now and then something else."""
        segment = self.free(scope, BUFFERS)
        if not segment:
            return b""
        return b"\x08" + segment + (b"\x11\3\1" + bytes([self.number % 256]) if self.chance(0.85) else b"\1")

    def tables(self):
        """The tables, the last of which has a method for each that is read."""
        devices = b"\x10" + self.package(b"_SB_" + b"\x5B\x82" + self.package(
            b"DEV0" + b"\x5B\x82" + self.package(b"DEV1")) + b"\x5B\x82" + self.package(b"DEV2")) + b"\x06\\\x2E_SB_DEV0ALSD"
        contents = [devices + self.roots(), b"", b""]
        for _ in range(self.rng.choice((10, 20, 40))):
            scope = self.rng.choice(SCOPES)
            item = self.item(scope)
            name = b"\\" + self.segments(scope)
            contents[self.rng.randrange(3)] += b"\x10" + self.package(name + item)
        for number, path in enumerate(self.read):
            contents[2] += b"\x14" + self.package(b"M%03d\0" % number + b"\\" + self.segments(path))
        for number, path in enumerate(self.packages):
            contents[2] += b"\x14" + self.package(b"P%03d\0" % number + b"\xA4\\" + self.segments(path))
        return contents

    def roots(self):
        """What aliases may name: one region, field and buffer."""
        made = b""
        for pool, item in ((REGIONS, b"\x5B\x80%b\1\x0A\7\1"), (FIELDS, b"\x5B\x81\x0B" + b"RGA0\1%b\x08"),
                           (BUFFERS, b"\x08%b\x11\3\1\xFE")):
            self.taken.add((b"_GPE", pool[0]))
            made += item % pool[0]
        made = b"\x10" + self.package(b"_GPE" + made)
        for pool, item in ((REGIONS, b"\x5B\x80%b\1\x0A\x09\1"), (FIELDS, b"\x5B\x81\x0B" + b"RGA0\1%b\x08"),
                           (BUFFERS, b"\x08%b\x11\3\1\xFD")):
            if self.chance(0.6):
                self.taken.add((pool[0],))
                made += item % pool[0]
        return made


def settled_tables(rng):
    """A set of tables, with the paths whose reading is asked for and those of packages."""
    maker = Settled(rng)
    contents = maker.tables()
    return maker, contents


def finished(contents, more):
    """Tables of these contents, with more behind those of the last one."""
    contents = contents[:2] + [contents[2] + more]
    return [generate.table(b"SSDT" if number else b"DSDT", 2, item) for number, item in enumerate(contents)]


def plain_place(space, field):
    """The address of the byte of a field of a plain list, or None where it is outside its region or no such field."""
    if field is None or field.term is None or field.term.code != 0x5B81 or field.item is None:
        return None
    region = namespace.find(space.objects, field.scope, field.term.parts[0])
    if region is None or region.term is None or region.term.code != 0x5B80:
        return None
    return namespace.grammar.literal_value(region.term.parts[2])


def expected(space, path):
    """The accesses of a reading of what stands at a path and a buffer's byte, or the cause of a refusal."""
    found = space.objects[path]
    code, parts = found.term.code, found.term.parts
    if code == 0x8C:
        source = namespace.find(space.objects, found.scope, parts[0].parts[0])
        if source is None or not source.text.startswith("buffer "):
            return "V3"
        return [], source.term.parts[1].parts[1][0]
    if code == 0x5B81:
        place = plain_place(space, found)
        return "V9" if place is None else ([("read", place)], None)
    over = [namespace.find(space.objects, found.scope, part) for part in parts[:2]]
    if code == 0x5B86:
        index, data = (plain_place(space, item) for item in over)
        if index is None or data is None or over[1].item[0].bits != 8:
            return "V9"
        return [("write", index, over[0].item[0].bits, 0), ("read", data)], None
    bank, region = plain_place(space, over[1]), over[0]
    if bank is None or region is None or region.term is None or region.term.code != 0x5B80:
        return "V9"
    place = namespace.grammar.literal_value(region.term.parts[2])
    return [("write", bank, over[1].item[0].bits, 5), ("read", place)], None


def events_of(readings):
    """The lines of one reading behind the other; a register keeps what was written to it."""
    lines, registers = [], {}
    for accesses, value in readings:
        for access in accesses:
            place = access[1]
            value = registers.get(place, 0)
            if access[0] == "read" or access[2] < 8:
                lines.append(f"read io {place:#x} 8 {value:#x}")
            if access[0] == "write":
                mask = 2**access[2] - 1
                registers[place] = value & ~mask | access[3] & mask
                lines.append(f"write io {place:#x} 8 {registers[place]:#x}")
        lines.append(f"notify \\_SB_.DEV0 {value:#x}")
    return lines


def element_text(space, scope, element):
    """What a package's name element prints as."""
    found = namespace.find(space.objects, scope, element)
    return "unresolved" if found is None else namespace.printed(found.path)


def compare_settled(program, counts, rng, cases):
    """What fields, buffer fields and packages name once all tables are loaded."""
    for _ in range(cases):
        maker, contents = settled_tables(rng)
        files = finished(contents, b"")
        counts.cases += 1
        try:
            space = namespace.Namespace(files)
        except Fault as fault:
            counts.faults[fault.line().split()[1]] += 1
            continue
        told = {path: expected(space, path) for path in maker.read}
        check_verdicts(program, counts, files, space, maker, told)
        sound = [path for path in maker.read if not isinstance(told[path], str)]
        reads = b"".join(b"\x86\\\x2E_SB_DEV0\\" + maker.segments(path) for path in sound)
        files = finished(contents, b"\x14" + maker.package(b"ALL0\0" + reads))
        events = events_of([told[path] for path in sound])
        got = program.run_files(["eval", "--plain", "10000", "--method", "\\ALL0"], files)
        counts.read.update(namespace.grammar.OPERATORS[space.objects[path].term.code].word for path in sound)
        counts.faults.update(value for value in told.values() if isinstance(value, str))
        if got != (0, events + ["result none"]):
            counts.tell("settled fields", files, events, got)
        for number, path in enumerate(maker.packages):
            check_package(program, counts, files, space, number, path)


def check_verdicts(program, counts, files, space, maker, told):
    """Whether each field that can't be read is refused for that."""
    got = dict(line.split(" ", 1) for line in program.run_files(["verify"], files)[1])
    for number, path in enumerate(maker.read):
        words = got[f"\\M{number:03d}"].split()
        cause = "ok" if words[0] == "accepted" else words[3]
        wanted = told[path] if isinstance(told[path], str) else "ok"
        if cause != wanted:
            counts.tell("settled verdict", files, (namespace.printed(path), wanted), cause)


def check_package(program, counts, files, space, number, path):
    """Whether a package's elements name what they have to."""
    found = space.objects[path]
    elements = [element_text(space, found.scope, element) for element in found.term.parts[1].parts[1]]
    got = program.run_files(["eval", "--plain", "10", "--method", f"\\P{number:03d}"], files)
    counts.read["element"] += len(elements)
    if got != (0, [f"result package [{', '.join(elements)}]"]):
        counts.tell("settled package", files, elements, got)
