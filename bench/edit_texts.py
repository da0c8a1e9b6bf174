"""The must-fail edits of a crate as texts: how they are read, which lines and functions they touch, and many laid in at once.

An edit's texts are one line each, so it changes lines and leaves their number: many edits stand in one file together
where they touch different lines, and what is said of a line is said of its edit.
"""
import collections
import dataclasses
import glob
import os
import re

FUNCTION = re.compile(r'(\s*)(?:pub(?:\([^)]*\))? )?(?:(?:const|unsafe|final|extern "C") )*fn (\w+)')
IMPORT = re.compile(r"\s*(?:pub(?:\([^)]*\))? |ghost )?use\b")
CONSTANT = re.compile(r"\s*(?:pub(?:\([^)]*\))? )?const (\w+):")
# As rt fmt lays them out, on a line or two: `impl<T> Type<T>` and `impl<T> Trait<U> for Type<T>`.
IMPL = re.compile(r"(?:unsafe )?(impl|trait)\b")
# The folder of a crate's edits that are tried where there is time.
FURTHER = "further"

# A function as the source has it: its module's path, the type and the trait of its impl, its name, its first line, that of its
# attributes where it has some, that of its head, and its last.
Function = collections.namedtuple("Function", "module type trait name first head last")


@dataclasses.dataclass(eq=False)
class Edit:
    """An edit, and for each line that it changes, by path and number from 0, the new line."""

    crate: str
    name: str
    text: str
    lines: dict
    is_further: bool


class BadEdit(Exception):
    """Why an edit can't be laid in."""


def crates_of(top):
    """The crates of crates.txt, each with the libraries that it uses."""
    with open(f"{top}/crates.txt", encoding="utf-8") as it:
        lines = [line.partition("#")[0].partition(":") for line in it]
    return {front.split()[0]: back.split() for front, _, back in lines if front.split()}


def below(crates, crate):
    """The crates of the repository that a crate stands on, each after those that it uses."""
    found = {}

    def visit(name):
        for dep in crates[name]:
            if dep in crates and dep not in found:
                visit(dep)
                found[dep] = None

    visit(crate)
    return list(found)


def edit_files(top, crate):
    """The files of a crate's edits, those that each gate tries first. What stands in must-fail rt ci tries."""
    return [file for folder in ("edits", FURTHER) for file in sorted(glob.glob(f"{top}/crates/{crate}/{folder}/*.edit"))]


def read_text(path):
    with open(path, encoding="utf-8", newline="") as it:
        return it.read()


def pairs_of(text):
    """The pairs of an edit, each with its file, and with the function that an `in:` line names, or with none."""
    path, inside, old, found = "", "", "", []
    for line in text.split("\n"):
        word, _, rest = line.partition(" ")
        if word == "file:":
            path, inside = rest.strip(), ""
        elif word == "in:":
            inside = rest.strip()
        elif word == "old:":
            old = rest
        elif word == "new:":
            if not path or not old:
                raise BadEdit("a 'new:' line stands before any 'file:' or 'old:' line")
            found.append((path, inside, old, rest))
            old = ""
    if not found:
        raise BadEdit("it has no 'old:' and 'new:' pair")
    return found


def parts_of(path, text, inside):
    """A file's text in three: what stands before a function, the function and what stands behind it; or all in the midst."""
    if not inside:
        return "", text, ""
    found = [it for it in functions_of(path, text) if f"::{path_of(it)}".endswith(f"::{inside}")]
    if len(found) != 1:
        raise BadEdit(f"{path} has {len(found)} functions {inside}, and not one")
    lines, first, behind = re.split(r"(?<=\n)", text), found[0].first, found[0].last + 1
    return "".join(lines[:first]), "".join(lines[first:behind]), "".join(lines[behind:])


def read_edit(top, crate, file):
    """An edit, once each of its old texts was found to stand just once; a file is read as the pairs before have left it."""
    folder, text, texts, was = f"{top}/crates/{crate}", read_text(file), {}, {}
    for path, inside, old, new in pairs_of(text):
        if not path.startswith(("src/", "specs/")) or os.path.normpath(path) != path:
            raise BadEdit(f"{path} is no file below src/ or specs/, and an edit of anything else shows nothing of the code")
        if path not in texts:
            if not os.path.isfile(f"{folder}/{path}"):
                raise BadEdit(f"there is no file {path}")
            texts[path] = was[path] = read_text(f"{folder}/{path}")
        before, part, behind = parts_of(path, texts[path], inside)
        if part.count(old) != 1:
            raise BadEdit(f"an old text stands in {path} {part.count(old)} times, and not once")
        texts[path] = before + part.replace(old, new) + behind
    lines = {}
    for path, now in texts.items():
        for at, (one, other) in enumerate(zip(was[path].split("\n"), now.split("\n"))):
            if one != other:
                lines[path, at] = other
    if not lines:
        raise BadEdit("it changes nothing")
    is_further = os.path.basename(os.path.dirname(file)) == FURTHER
    return Edit(crate, os.path.basename(file).removesuffix(".edit"), text, lines, is_further)


def head_of(lines, at):
    """The type and the trait of the impl, or the trait, that begins at a line, as a check spells them: without parameters of
    the impl's own, and with a capital letter at first, as in U64."""
    text = ""
    for line in lines[at : at + 8]:
        text += " " + line.strip()
        if "{" in line:
            break
    text = text.partition("{")[0].partition(" where ")[0]
    parameters = re.match(r"\s*(?:unsafe )?impl<([^>]*)>", text)
    own = {it.partition(":")[0].strip() for it in parameters[1].split(",")} if parameters else set()
    text = re.sub(r"^(\s*)(?:unsafe )?impl<[^>]*>", r"\1impl", text)
    text = re.sub(r"'\w+,? ?|\w+::|\bpub(\([^)]*\))? ", "", text)
    while re.search(r"<[^<>]*<", text):
        # of what stands within brackets the name alone
        text = re.sub(r"(<[^<>]*?\w+)<[^<>]*>", r"\1", text)
    front, _, back = text.strip().rpartition(" for ")
    words = [it for it in re.findall(r"\w+", front) if it not in ("impl", *own)]
    kind = re.sub(r"<.*", "", back).split()[-1] if back else ""
    return kind[:1].upper() + kind[1:], "".join(words)


def last_line(lines, at, indent):
    """The last line of the function that begins at a line: of a trait's method without a body that of its signature."""
    if lines[at].endswith(("}", ";")) and lines[at].count("{") == lines[at].count("}"):
        return at
    has_body = lines[at].endswith("{")
    for it in range(at + 1, len(lines)):
        if lines[it].startswith((indent + "}", indent + "{}")):
            return it
        # (a body begins at the function's own indent)
        has_body = has_body or lines[it].startswith((indent + "{", indent + ")")) and lines[it].endswith("{")
        if lines[it].endswith(";") and not has_body:
            return it
    return at


def functions_of(path, text):
    """The functions of a source file in the layout of rt fmt, where what begins at an indent ends by a brace at the same."""
    module = "::".join(it for it in path.removeprefix("src/").removesuffix(".rt").split("/") if it != "mod")
    module = "" if module in ("lib", "main") else module
    lines, found, kind, trait = text.split("\n"), [], "", ""
    for at, line in enumerate(lines):
        if IMPL.match(line):
            kind, trait = head_of(lines, at)
        elif line.startswith("}"):
            kind, trait = "", ""
        head = FUNCTION.match(line)
        if not head:
            continue
        # (of what begins with attributes, a check tells the place of these)
        first = at
        while lines[first - 1].strip().startswith("#["):
            first -= 1
        found.append(Function(module, kind, trait, head[2], first, at, last_line(lines, at, head[1])))
    return found


def path_of(function):
    """The path below the crate by which a check is asked for a function. An impl without a trait may stand elsewhere than
    its type, so of its functions this is the end of their names."""
    kind = function.type + function.trait
    module = "" if function.type and not function.trait else function.module
    return "::".join(it for it in (module, kind, function.name) if it)


def names_of(crate, function, names):
    """The names by which a check tells of a function and of the closures in it, among those that it told."""
    kind = function.type + function.trait
    exact = ["::".join(it for it in (crate, function.module, kind, function.name) if it)]
    # an impl without a trait may stand beside its type, or in another module
    elsewhere = re.compile(rf"{crate}::(?:\w+::)*{kind}::{function.name}")
    found = [it for it in exact if it in names] or [it for it in names if kind and elsewhere.fullmatch(it)]
    if len(found) != 1:
        return []
    front = found[0].removesuffix(f"{kind}::{function.name}" if kind else function.name)
    closures = f"{front}fn::{kind}::{function.name}::" if kind else f"{front}fn::{function.name}::"
    return found + [it for it in names if it.startswith(closures)]


class Sources:
    """A crate's source files, with their functions, and its definitions."""

    def __init__(self, top, crate):
        folder = f"{top}/crates/{crate}"
        paths = [it for kind in ("src/**/*.rt", "specs/**/*.antt") for it in sorted(glob.glob(kind, root_dir=folder, recursive=True))]
        self.crate, self.texts = crate, {it: read_text(f"{folder}/{it}") for it in paths}
        self.functions = {path: functions_of(path, text) for path, text in self.texts.items() if path.endswith(".rt")}

    def function_at(self, path, line):
        """The outermost function that a line stands in, if it stands in one."""
        return next((it for it in self.functions.get(path, []) if it.first <= line <= it.last), None)

    def touched_at(self, edit):
        """The functions that an edit changes, each with its file, whatever imports it changes beside them; or none where it
        changes what else stands outside of functions."""
        changed = [it for it in edit.lines if not IMPORT.match(self.line(*it))]
        found = {(path, self.function_at(path, line)) for path, line in changed}
        return frozenset() if any(function is None for _, function in found) else frozenset(found)

    def touched(self, edit):
        """The functions that an edit changes, as touched_at."""
        return frozenset(function for _, function in self.touched_at(edit))

    def reached_at(self, edit):
        """The same, and of an edit of constants the functions that name them; or none where something else outside of
        functions names one."""
        constants = [CONSTANT.match(self.line(path, line)) for path, line in edit.lines]
        if not all(constants):
            return self.touched_at(edit)
        named = re.compile(rf"\b(?:{'|'.join(it[1] for it in constants)})\b")
        lines = [(path, at, line) for path in self.functions for at, line in enumerate(self.texts[path].split("\n"))]
        found = {(path, self.function_at(path, at)) for path, at, line in lines
                 if named.search(line) and not IMPORT.match(line) and (path, at) not in edit.lines}
        return frozenset() if any(function is None for _, function in found) else frozenset(found)

    def reached(self, edit):
        """The functions that an edit changes or whose constants it does, as reached_at."""
        return frozenset(function for _, function in self.reached_at(edit))

    def line(self, path, number):
        return self.texts[path].split("\n")[number]

    def with_edits(self, edits):
        """The files that these edits change, with all of them laid in. No two of them touch one line."""
        changed = {}
        for edit in edits:
            for (path, line), new in edit.lines.items():
                lines = changed.setdefault(path, self.texts[path].split("\n"))
                lines[line] = new
        return {path: "\n".join(lines) for path, lines in changed.items()}
