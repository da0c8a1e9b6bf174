#!/usr/bin/env python3
"""Runs the built program over rows: of evaluations, of loads, of resources, and of commands.

    python3 bench/rows.py [--program PATH] [FILE..]

A file crates/acpicheck/rows/NAME.rows is lines of text. What stands in a line holds in all lines below it.

| line | what it says |
|---|---|
| `# TEXT`, or an empty line | nothing |
| `BYTES \\| STEPS \\| OUTPUT` | a row of an evaluation: MAIN's body, the steps, what is written |
| `BYTES \\| STEPS \\| WORDS \\| OUTPUT` | the same with further words of the program, as `--args 0x1,0x2` |
| `definitions BYTES` | these definitions stand behind the method MAIN; none at a file's front |
| `revision 1` | the DSDT of evaluations and loads has this revision; 2 at a file's front |
| `BYTES \\| OUTPUT` | a row of a load: a DSDT's definitions, what `names` writes behind the predefined names |
| `BYTES, BYTES \\| OUTPUT` | the same of a DSDT and an SSDT |
| `resources BYTES \\| OUTPUT` | a row of resources: a buffer's bytes, what `resources` writes of a name of it |
| `resources BYTES:0..5 \\| OUTPUT` | the same of as many of these bytes, with each number |
| `$ WORDS \\| OUTPUT` | a row of a command: the program's words, what is written |
| `< INPUT \\| OUTPUT` | a row without words: standard input, what is written |
| `table NAME SIGNATURE REVISION BYTES` | the file NAME is such a table with BYTES behind its header |
| `file NAME BYTES` | the file NAME has just these bytes |
| `lines NAME OUTPUT` | a line NAME in an OUTPUT stands for these |
| `growths`, `no growths` | `make growths` takes the rows, or does not, as at a file's front |

BYTES are two hex digits a byte, and between double quotes the printable characters of names and texts; `*N` behind
one of these is N of it, and `-` alone is no byte. A line that ends in `\\` goes on with the next one.

MAIN takes as many arguments as `--args` lists. Its body begins at place 43 of the table dsdt.bin, or one or two bytes
further on where it has more than 57 bytes or 4,087. STEPS is a number; with `=` before it the program is also run with
one step less, and must write `out of steps` and nothing else. In a row of a command `--plain =N` says the same.

WORDS stand between spaces; `""` is the empty one, and `\\xHH` in one is a byte, `\\xHH*N` N of it. One that begins with
the NAME of a file above is that file:

| word | the file |
|---|---|
| `dsdt.bin` | as it is |
| `dsdt.bin:36`, `dsdt.bin:0..35` | cut behind so many bytes; of a range the row is run with each number |
| `dsdt.bin[8=01,47=02]`, `dsdt.bin[43=02..05]` | with other bytes at these places; of a range with each byte |

A `table` that is cut or changed has its length and its checksum made to fit then, but not where `!` ends the word; a
`file` has what it has. In the OUTPUT of a range `{N}` is its number.

INPUT is text in which `;` is a line end, with the spaces behind it, `(TEXT)*N` is N such texts, and a file's word
between braces is its hex text.

In a row of resources the buffer stands alone in a DSDT, under the name BUF0. In the OUTPUT of its range `{N}` is the
number too.

OUTPUT is the lines of standard output with `; ` between each two; `+ ` at a line's front stands for two spaces, and
` *N` behind a line for N of it; `-` alone is no line. The status must be that of the last line: 2 of E520, 1 of
another fault, 3 of an error and `out of steps`, else 0; but 3 where any line is that of a refused method and the last
one is no fault. Standard error must be empty where the status is 0 or 3, but where a method that `eval`, `resources` or
`routing` judged is refused, or an AML error ended the evaluation: of that people must be told why.

The program is the one that `rt ci` leaves in crates/acpicheck/out, or the one at PATH. FILE is a path; without any, all
files are taken.
"""
import os
import re
import subprocess
import sys
import tempfile
from concurrent.futures import ThreadPoolExecutor
from dataclasses import dataclass, field, replace

TOP = os.path.dirname(os.path.dirname(os.path.abspath(__file__)))
PROGRAM = f"{TOP}/crates/acpicheck/out/acpicheck"
FOLDER = f"{TOP}/crates/acpicheck/rows"
SECONDS = 60
WORKERS = 4
HEADER = 36
PIECE = re.compile(r'\s*(?:"([ !#-\[\]-~]+)"|([0-9A-F]{2}))(?:\*([0-9]+))?(?![^\s"])')
STEPS = re.compile(r"=?[0-9]+")
FILE_WORD = re.compile(r"(?P<name>[a-z0-9_]+\.[a-z]+)(\[(?P<changes>[^\]]+)\])?(:(?P<cut>[0-9.]+))?(?P<as_it_is>!?)")
BYTE = re.compile(rb"\\x([0-9a-f]{2})(?:\*([0-9]+))?")
TIMES = re.compile(r"\(([^()]*)\)\*([0-9]+)")
PREDEFINED = [r"\_GPE scope", r"\_PR_ scope", r"\_SB_ scope", r"\_SI_ scope", r"\_TZ_ scope", r"\_REV integer",
              r"\_OSI method 1", r"\_OS_ string 9", r"\_GL_ mutex"]
OUT_OF_STEPS = "out of steps"


@dataclass(frozen=True)
class Bytes:
    """A file: a table whose length and checksum are made to fit, or just these bytes."""
    bytes: bytes
    is_table: bool = False


@dataclass(frozen=True)
class Above:
    """What the lines above a row say."""
    definitions: bytes = b""
    revision: int = 2
    growths: bool = False
    files: dict = field(default_factory=dict)
    lines: dict = field(default_factory=dict)


@dataclass(frozen=True)
class Row:
    """What the program is run on, and what it must write and end with."""
    place: str
    growths: bool
    files: dict
    words: list
    input: bytes
    output: str
    less: list = None


def bytes_of(text):
    """The bytes that BYTES spells."""
    found, place, text = b"", 0, "" if text.strip() == "-" else text.rstrip()
    while place < len(text):
        piece = PIECE.match(text, place)
        if not piece:
            raise ValueError(f"no bytes: {text[place:place + 20].strip()}")
        found += (piece[1].encode() if piece[1] else bytes.fromhex(piece[2])) * int(piece[3] or 1)
        place = piece.end()
    return found


def package_length(inner):
    """The PkgLength of a package of so many bytes behind it (ACPI 6.5, 20.2.4)."""
    if inner + 1 < 0x40:
        return bytes([inner + 1])
    more = 1 if inner + 2 < 1 << 12 else 2 if inner + 3 < 1 << 20 else 3
    length = inner + 1 + more
    return bytes([more << 6 | length & 15]) + (length >> 4).to_bytes(more, "little")


def fitted(table):
    """A table with its length and its checksum (ACPI 6.5, 5.2.6)."""
    front, behind = table[:4] + len(table).to_bytes(4, "little") + table[8:9], table[10:]
    return front + bytes([-sum(front + behind) % 256]) + behind


def table_of(signature, revision, behind):
    """A table with these bytes behind its header."""
    ids = b"ACPICK" + b"ROWS0001" + b"\1\0\0\0" + b"ROWS" + b"\1\0\0\0"
    return fitted(signature + bytes(4) + bytes([revision]) + bytes(1) + ids + behind)


def main_table(above, body, words):
    """The DSDT of an evaluation."""
    arguments = words[words.index("--args") + 1].count(",") + 1 if "--args" in words else 0
    inner = b"MAIN" + bytes([arguments]) + body
    return table_of(b"DSDT", above.revision, b"\x14" + package_length(len(inner)) + inner + above.definitions)


def span(text, base):
    """The numbers of `N` or of `N..M`."""
    low, _, high = text.partition("..")
    return range(int(low, base), int(high or low, base) + 1)


def changed(table, changes, number):
    """The bytes of a file in which others stand; of a range the one with this number."""
    new = bytearray(table)
    for place, _, byte in (change.partition("=") for change in changes.split(",")):
        new[int(place)] = number if ".." in byte else int(byte, 16)
    return bytes(new)


def numbers_of(word):
    """The numbers of the range in a word of a file."""
    spans = [span(text.partition("=")[2], 16) for text in (word["changes"] or "").split(",") if ".." in text]
    spans += [span(word["cut"], 10)] if word["cut"] and ".." in word["cut"] else []
    return spans


def file_of(above, word, number):
    """The bytes of the file that a word names, at a number of its range."""
    it = above.files[word["name"]]
    made = changed(it.bytes, word["changes"], number) if word["changes"] else it.bytes
    if word["cut"]:
        made = made[:number if ".." in word["cut"] else int(word["cut"])]
    return fitted(made) if it.is_table and not word["as_it_is"] else made


def whole_lines(lines):
    """Lines with those that they go on with, each with the number of its first one."""
    kept, first = "", 0
    for number, line in enumerate(lines, 1):
        first = first if kept else number
        kept += line.strip()
        if kept.endswith("\\"):
            kept = kept[:-1].rstrip() + " "
        else:
            yield first, kept
            kept = ""
    if kept:
        raise ValueError(f"{first}: its last line goes on")


def output_of(above, text):
    """The lines of standard output that an OUTPUT says."""
    found = []
    for line in re.split(r";\s+", text):
        line, times = re.fullmatch(r"(.*?)(?: \*([0-9]+))?", line.strip()).groups()
        found += above.lines.get(line, [re.sub(r"^\+ ", "  ", line)]) * int(times or 1)
    if not text or "" in found:
        raise ValueError("no output")
    return found if text != "-" else []


def steps_of(words):
    """The words with the steps that they say, and those with one step less where `=` asks for it."""
    places = [i for i, word in enumerate(words) if i and words[i - 1] == "--plain" and STEPS.fullmatch(word)]
    if not places or not words[places[0]].startswith("="):
        return words, None
    place, steps = places[0], int(words[places[0]][1:])
    if not steps:
        raise ValueError("no step can be taken away")
    return [words[:place] + [str(it)] + words[place + 1:] for it in (steps, steps - 1)]


def evaluation(above, place, parts):
    """The row of an evaluation."""
    body, steps, *further, output = parts
    if len(further) > 1 or not STEPS.fullmatch(steps):
        raise ValueError("no row")
    further = [word_of(word) for word in further[0].split()] if further else []
    words, less = steps_of(["eval", "--method", r"\MAIN", "--plain", steps, *further, "dsdt.bin"])
    files = {word: file_of(above, it, 0) for word, it in files_of(above, further).items()}
    files |= {"dsdt.bin": main_table(above, bytes_of(body), further)}
    return [Row(place, above.growths, files, words, b"", output_of(above, output), less)]


def load(above, place, text, output):
    """The row of a load."""
    modules = [bytes_of(module) for module in text.split(",")]
    files = {"dsdt.bin": table_of(b"DSDT", above.revision, modules[0])}
    files |= {f"ssdt{number}.bin": table_of(b"SSDT", 2, module) for number, module in enumerate(modules[1:], 1)}
    lines = output_of(above, output)
    lines = lines if lines and lines[-1].startswith("fault ") else PREDEFINED + lines
    return [Row(place, above.growths, files, ["names", *files], b"", lines)]


def buffer_table(inner):
    """A DSDT of Name (BUF0, Buffer () {..})."""
    size = bytes([10, len(inner)]) if len(inner) < 256 else b"\x0b" + len(inner).to_bytes(2, "little")
    return table_of(b"DSDT", 2, b"\x08BUF0\x11" + package_length(len(size + inner)) + size + inner)


def resources(above, place, text, output):
    """The rows of resources, one for each number of the range behind the bytes."""
    spelled, cut = re.fullmatch(r"(.*?)(?::([0-9.]+))?", text).groups()
    inner, rows = bytes_of(spelled), []
    for number in span(cut, 10) if cut else [len(inner)]:
        if number > len(inner):
            raise ValueError("fewer bytes than the range says")
        lines = [line.replace("{N}", str(number)) for line in output_of(above, output)]
        files = {"dsdt.bin": buffer_table(inner[:number])}
        words = ["resources", "--object", r"\BUF0", "dsdt.bin"]
        rows.append(Row(f"{place}{f' at {number}' if cut else ''}", above.growths, files, words, b"", lines))
    return rows


def word_of(text):
    """The word that a text between spaces spells."""
    spelled = b"" if text == '""' else text.encode("ascii")
    spelled = BYTE.sub(lambda it: bytes.fromhex(it[1].decode()) * int(it[2] or 1), spelled)
    return spelled.decode("utf-8", "surrogateescape")


def files_of(above, words):
    """The words that name files above, each with what it says of its file."""
    spelled = {word: FILE_WORD.fullmatch(word) for word in words}
    return {word: it for word, it in spelled.items() if it and it["name"] in above.files}


def command(above, place, text, output):
    """The rows of a command, one for each number of the range in its words."""
    words = [word_of(word) for word in text.split()]
    named = files_of(above, words)
    spans = [it for word in named.values() for it in numbers_of(word)]
    if len(spans) > 1 or spans and not spans[0]:
        raise ValueError("two ranges, or an empty one")
    words, less = steps_of(words)
    rows = []
    for number in spans[0] if spans else [0]:
        files = {word: file_of(above, it, number) for word, it in named.items()}
        lines = [line.replace("{N}", str(number)) for line in output_of(above, output)]
        rows.append(Row(f"{place}{f' at {number}' if spans else ''}", above.growths, files, words, b"", lines, less))
    return rows


def hex_text(above, text):
    """The hex text of the file that a word between braces names."""
    word = FILE_WORD.fullmatch(text)
    if not word or numbers_of(word):
        raise ValueError(f"no file: {text}")
    return file_of(above, word, 0).hex()


def standard_input(above, place, text, output):
    """The row of a standard input."""
    text = re.sub(r"\{([^}]*)\}", lambda it: hex_text(above, it[1]), re.sub(r"; *", "\n", text))
    text = TIMES.sub(lambda it: it[1] * int(it[2]), text)
    given = word_of(text).encode("utf-8", "surrogateescape")
    return [Row(place, above.growths, {}, [], given, output_of(above, output))]


def rows_of(above, place, line):
    """The rows that a line spells, below what stands above it."""
    *parts, output = [part.strip() for part in line.split("|")]
    if line.startswith("$ ") and len(parts) == 1:
        return command(above, place, parts[0][2:], output)
    if line.startswith("< ") and len(parts) == 1:
        return standard_input(above, place, parts[0][2:], output)
    if line.startswith("resources ") and len(parts) == 1:
        return resources(above, place, parts[0].removeprefix("resources"), output)
    if len(parts) == 1:
        return load(above, place, parts[0], output)
    return evaluation(above, place, [*parts, output])


def file_line(kind, rest):
    """The name of a file and the file, of a line that says it."""
    name, _, text = rest.strip().partition(" ")
    if not FILE_WORD.fullmatch(name) or not text and kind == "table":
        raise ValueError("no file")
    if kind == "file":
        return {name: Bytes(bytes_of(text))}
    signature, revision, *behind = text.split(None, 2)
    if len(signature) != 4:
        raise ValueError("a signature has four characters")
    return {name: Bytes(table_of(signature.encode(), int(revision), bytes_of("".join(behind))), True)}


def below(above, line):
    """What holds below a line that is no row."""
    word, _, rest = line.partition(" ")
    if word == "definitions":
        return replace(above, definitions=bytes_of(rest))
    if word == "revision":
        return replace(above, revision=int(rest))
    if word in ("table", "file"):
        return replace(above, files=above.files | file_line(word, rest))
    if word == "lines":
        name, _, output = rest.strip().partition(" ")
        return replace(above, lines=above.lines | {name: output_of(above, output.strip())})
    if line in ("growths", "no growths"):
        return replace(above, growths=line == "growths")
    raise ValueError("no such line")


def read(path):
    """The rows of a file."""
    rows, above = [], Above()
    with open(path, encoding="ascii") as it:
        for number, line in whole_lines(it):
            line = line.strip()
            try:
                if "|" in line and not line.startswith("#"):
                    rows += rows_of(above, f"{os.path.basename(path)}:{number}", line)
                elif line and not line.startswith("#"):
                    above = below(above, line)
            except (IndexError, KeyError, TypeError, ValueError) as error:
                raise ValueError(f"{number}: {error}") from error
    return rows


def read_all(paths):
    """The rows of files, and what is wrong with those that cannot be read."""
    rows, bad = [], []
    for path in paths:
        try:
            found = read(path)
        except (OSError, ValueError) as error:
            bad.append(f"{path}:{error}")
            continue
        rows += found
        if not found:
            bad.append(f"{path}: no row")
    return rows, bad


def all_files():
    """The files of the folder, in order."""
    if not os.path.isdir(FOLDER):
        return []
    return [f"{FOLDER}/{name}" for name in sorted(os.listdir(FOLDER)) if name.endswith(".rows")]


def status_of(line):
    """The status that goes with a last line."""
    if line.startswith("fault "):
        return 2 if line.startswith("fault E520 ") else 1
    return 3 if line.startswith("error ") or line == OUT_OF_STEPS else 0


def answer_of(lines):
    """The standard output and the status that lines stand for."""
    last = lines[-1] if lines else ""
    is_refused = any(re.match(r"\\\S* refused ", line) for line in lines)
    return "".join(f"{line}\n" for line in lines).encode(), status_of(last) or (3 if is_refused else 0)


def lay_out(row, room):
    """Writes a row's files where the program is to run."""
    for name, content in row.files.items():
        with open(f"{room}/{name}", "wb") as it:
            it.write(content)


def run(program, row, room, words=None, env=None):
    """The program's status, standard output and standard error."""
    ran = subprocess.run([program, *(words or row.words)], input=row.input, capture_output=True, cwd=room, env=env,
                         timeout=SECONDS)
    return ran.returncode, ran.stdout, ran.stderr


def is_told_why(row, lines):
    """Whether people are told why: of a method that was asked for and is refused; of an AML error."""
    words = row.words or row.input.partition(b"\n")[0].decode(errors="replace").split()
    asked, last = words[:1] in (["eval"], ["resources"], ["routing"]), (lines or [""])[-1]
    return last.startswith("error ") or asked and bool(re.match(r"\\\S* refused ", last))


def is_answer(answer, row, lines):
    """Whether an answer of the program is what a row wants. Standard error is silent unless something is wrong."""
    written, status = answer_of(lines)
    return answer[:2] == (status, written) and (status in (1, 2) or is_told_why(row, lines) == bool(answer[2]))


def differences(program, row):
    """What the program does otherwise than a row says, a line each."""
    found = []
    tries = [(row.words, row.output)] + ([(row.less, [OUT_OF_STEPS])] if row.less else [])
    try:
        with tempfile.TemporaryDirectory() as room:
            lay_out(row, room)
            for words, lines in tries:
                answer = run(program, row, room, words)
                if not is_answer(answer, row, lines):
                    status, written, notes = answer
                    text = written.decode(errors="replace").strip().replace("\n", "; ")
                    found.append(f"{' '.join(words)}: status {status}, {text[:200]!r}, {notes[:200]!r}: not "
                                 f"{'; '.join(lines)[:200]}")
    except (OSError, subprocess.TimeoutExpired) as error:
        found.append(f"it did not run: {error}")
    return found


def counts(program, paths):
    """Runs the rows of files, tells what differs, and returns how many passed and failed."""
    rows, bad = read_all(paths)
    if not os.path.isfile(program):
        bad, rows = bad + [f"there is no program {program}"], []
    if not rows:
        bad.append("there is no row")
    for line in bad:
        print(f"rows: {line}")
    failed = len(bad)
    with ThreadPoolExecutor(WORKERS) as pool:
        for row, found in zip(rows, pool.map(lambda row: differences(program, row), rows)):
            failed += bool(found)
            if found:
                print(f"row {row.place}: {'; also '.join(found)}")
    return len(rows) + len(bad) - failed, failed


def main(words):
    program = PROGRAM
    if words[:1] == ["--program"] and len(words) > 1:
        program, words = os.path.abspath(words[1]), words[2:]
    passed, failed = counts(program, words or all_files())
    print(f"{passed} passed, {failed} failed")
    return 1 if failed else 0


if __name__ == "__main__":
    sys.exit(main(sys.argv[1:]))
