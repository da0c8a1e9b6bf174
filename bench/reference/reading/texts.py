"""Reads words, `--args`, `--regs`, `--kinds` and standard input, and says what the program then prints.

Only methods of a simple form are evaluated: no statements, statements that each name a field of one whole qword,
and a last Return of an argument. That is enough to see what was read.
"""
import re

import grammar
import namespace
import tables
from faults import Fault

GREATEST_INPUT = 16777216
GREATEST_BUFFER = 65536
SPACES = {b"mem": 0, b"io": 1, b"pci": 2, b"ec": 3, b"cmos": 5}
SPACE_WORDS = {number: word.decode() for word, number in SPACES.items()}
LIMIT = 2**64
OPTIONS = {
    "tables": {}, "names": {}, "verify": {"--kinds": False},
    "eval": {"--method": True, "--args": False, "--regs": False, "--kinds": False, "--osi": False, "--plain": False},
    "resources": {"--object": True, "--regs": False, "--kinds": False},
    "routing": {"--object": True, "--madt": False, "--regs": False, "--kinds": False},
}


def read_hex(text):
    """The bytes of a hex text of either case, or None."""
    if len(text) % 2 or not re.fullmatch(rb"[0-9A-Fa-f]*", text):
        return None
    return bytes.fromhex(text.decode())


def read_decimal(text):
    """A number below 2 to the 64 in decimal digits, or None."""
    if not re.fullmatch(rb"[0-9]+", text):
        return None
    digits = text.lstrip(b"0")
    return int(digits or b"0") if len(digits) <= 20 and int(digits or b"0") < LIMIT else None


def read_hex_number(text):
    """A number below 2 to the 64 in hex digits, or None."""
    if not re.fullmatch(rb"[0-9A-Fa-f]+", text):
        return None
    value = int(text, 16)
    return value if value < LIMIT else None


def read_argument(text):
    """One element of `--args`."""
    if text == b"pkg":
        return "pkg", b""
    if text.startswith(b"buf:"):
        data = read_hex(text[4:])
        if data is None or len(data) > GREATEST_BUFFER:
            raise Fault("E521")
        return "buf", data
    if text.startswith(b"str:"):
        if any(byte == 0 or byte > 0x7F for byte in text[4:]):
            raise Fault("E521")
        return "str", text[4:]
    value = read_hex_number(text[2:]) if text.startswith(b"0x") else read_decimal(text)
    if value is None:
        raise Fault("E521")
    return "int", value


def read_args(text):
    """The list of `--args`, empty without one."""
    return [] if text is None else [read_argument(item) for item in text.split(b",")]


def text_lines(text):
    """The lines that count, with their numbers from 1."""
    lines = text.split(b"\n")
    if lines[-1] == b"":
        lines.pop()
    return [(number, line) for number, line in enumerate(lines, 1) if line and not line.startswith(b"#")]


def read_kind(text):
    """One kind of a signature line, or None."""
    if text in (b"int", b"pkg"):
        return text.decode(), LIMIT - 1
    word, colon, number = text.partition(b":")
    if word not in (b"int", b"buf", b"str") or not colon:
        return None
    value = read_decimal(number)
    return None if value is None else (word.decode(), value)


def read_kinds(text):
    """The kinds of arguments by path words."""
    found = {}
    for number, line in text_lines(text):
        path, *words = line.split(b" ")
        kinds = [read_kind(word) for word in words]
        if not path or path in found or None in kinds:
            raise Fault("E501", number)
        found[path] = kinds
    return found


def read_regs(text):
    """The bytes of registers by space and address."""
    found = {}
    for number, line in text_lines(text):
        words = line.split(b" ")
        space = SPACES.get(words[0])
        address = read_hex_number(words[1]) if len(words) == 3 else None
        data = read_hex(words[2]) if len(words) == 3 else None
        if space is None or address is None or not data or address + len(data) > LIMIT:
            raise Fault("E511", number)
        found.update({(space, address + at): byte for at, byte in enumerate(data)})
    return found


def read_words(words):
    """The command, its options and its files."""
    if not words or words[0] not in OPTIONS:
        raise Fault("E520")
    allowed, options, files, place, ended = OPTIONS[words[0]], {}, [], 1, False
    while place < len(words):
        word = words[place]
        place += 1
        if ended or word == "-" or not word.startswith("-"):
            files.append(word)
            continue
        if word == "--":
            ended = True
            continue
        name, equals, value = word.partition("=")
        if name not in allowed or name in options:
            raise Fault("E520")
        if not equals:
            if place == len(words) or words[place].startswith("-") and words[place] != "-":
                raise Fault("E520")
            value, place = words[place], place + 1
        options[name] = value
    if not files or any(needed and name not in options for name, needed in allowed.items()):
        raise Fault("E520")
    if "--plain" in options and read_decimal(options["--plain"].encode()) is None:
        raise Fault("E520")
    return words[0], options, files


class StandardInput:
    """Files as hex lines behind the first line of standard input."""

    def __init__(self, data):
        self.data = data
        if not data:
            raise Fault("E523")
        first, _, self.rest = data.partition(b"\n")
        try:
            self.words = first.decode("utf-8").split(" ")
        except UnicodeDecodeError:
            raise Fault("E520") from None

    def read(self, word):
        """The bytes of the next line."""
        if len(self.data) > GREATEST_INPUT or word != "@" or not self.rest:
            raise Fault("E523")
        line, _, self.rest = self.rest.partition(b"\n")
        data = read_hex(line)
        if data is None:
            raise Fault("E523")
        return data


class Files:
    """Files by their names."""

    def __init__(self, files):
        self.files = files

    def read(self, word):
        """The bytes of a file, which has a limit."""
        if word not in self.files or len(self.files[word]) > GREATEST_INPUT:
            raise Fault("E523")
        return self.files[word]


def answer(words, source):
    """The status and the lines of a run."""
    lines = []
    try:
        command, options, files = read_words(words)
        return run_command(command, options, files, source, lines), lines
    except Fault as fault:
        return 2 if fault.number == "E520" else 1, lines + [fault.line()]


def answer_input(data):
    """The status and the lines of a run without words."""
    try:
        source = StandardInput(data)
    except Fault as fault:
        return 2 if fault.number == "E520" else 1, [fault.line()]
    return answer(source.words, source)


def run_command(command, options, files, source, lines):
    """One command; its lines are put behind those that are there, and its status is given."""
    if command == "tables":
        return run_tables(files, source, lines)
    args = read_args(options["--args"].encode() if "--args" in options else None)
    regs = read_regs(source.read(options["--regs"])) if "--regs" in options else {}
    kinds = read_kinds(source.read(options["--kinds"])) if "--kinds" in options else {}
    if "--madt" in options:
        read_madt(source.read(options["--madt"]))
    space = namespace.Namespace([source.read(word) for word in files])
    if command == "names":
        lines += space.listing()
        return 0
    if command == "eval":
        return run_eval(space, options, args, regs, kinds, lines)
    raise NotImplementedError(command)


def read_madt(data):
    """The faults of a MADT; their places are told alone."""
    tables.read_header(data, b"APIC")
    tables.madt_lines(data)


def run_tables(files, source, lines):
    """Each file is read and listed before the next one is read."""
    for number, word in enumerate(files):
        data = source.read(word)
        try:
            lines += tables.table_lines(data)
        except Fault as fault:
            raise Fault(fault.number, number, *fault.places) from None
    return 0


def run_eval(space, options, args, regs, kinds, lines):
    """An evaluation of a method of a simple form."""
    path = tuple(segment.encode() for segment in options["--method"][1:].split("."))
    method = space.objects.get(path)
    if not options["--method"].startswith("\\") or method is None or method.term is None or method.term.code != 0x14:
        raise Fault("E525")
    refused = space.body_line(method)
    if refused:
        lines.append(refused)
        return 3
    if not arguments_fit(space, method, args, kinds, "--plain" in options):
        raise Fault("E522")
    return run_simple(space, method, args, regs, options, lines)


def arguments_fit(space, method, args, kinds, is_plain):
    """Whether these arguments may be handed to the method."""
    greatest = 2**space.width - 1
    if len(args) != method.arguments:
        return False
    if is_plain:
        return all(kind != "int" or value <= greatest for kind, value in args)
    wanted = list(kinds.get(namespace.printed(method.path).encode("latin1"), default_kinds(method)))
    wanted += [("int", LIMIT - 1)] * len(args)
    return all(argument_fits(argument, kind, greatest) for argument, kind in zip(args, wanted))


def default_kinds(method):
    """The kinds of a device specific method of four arguments that no text names."""
    if method.path[-1] == b"_DSM" and method.arguments == 4:
        return [("buf", 16), ("int", LIMIT - 1), ("int", LIMIT - 1), ("pkg", 0)]
    return []


def argument_fits(argument, kind, greatest):
    """Whether one argument is of one kind."""
    if argument[0] != kind[0]:
        return False
    if kind[0] == "int":
        return argument[1] <= min(kind[1], greatest)
    return kind[0] == "pkg" or len(argument[1]) == kind[1]


def value_text(argument):
    """A value as it is printed."""
    kind, value = argument
    if kind == "int":
        return f"{value:#x}"
    if kind == "buf":
        return f"buffer {value.hex() or '-'}"
    return f'string "{tables.escaped(value)}"' if kind == "str" else "package []"


def run_simple(space, method, args, regs, options, lines):
    """The events and the outcome of a method of a simple form."""
    left = int(options.get("--plain", LIMIT))
    for term in space.body(method):
        if term.code == 0xA4:
            if left < 2:
                lines.append("out of steps")
                return 3
            lines.append("result " + value_text(args[term.parts[0].code - 0x68]))
            return 0
        if left < 2:
            lines.append("out of steps")
            return 3
        left -= 2
        lines.append(field_event(space, method, term.parts[0], regs))
    lines.append("result none")
    return 0


def field_event(space, method, name, regs):
    """The one read of a field of one whole qword in its region."""
    found = namespace.find(space.objects, method.path, name)
    region = namespace.find(space.objects, found.scope, found.term.parts[0])
    place = grammar.literal_value(region.term.parts[2]) + found.item[1] // 8
    number = region.term.parts[1]
    value = sum(regs.get((number, place + at), 0) << 8 * at for at in range(8))
    return f"read {SPACE_WORDS[number]} {place:#x} 64 {value:#x}"
