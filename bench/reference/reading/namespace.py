"""Loads tables: their definitions by paths, the faults of loading, what a name names, and the lines of `names`."""
from collections import Counter
from dataclasses import dataclass

import grammar
import tables
from faults import Fault, WORDS

GREATEST_PATHS = 65535
HEADER = 36
SCOPES = {"scope", "device", "processor", "power", "thermal"}
PREDEFINED = [("_GPE", "scope"), ("_PR_", "scope"), ("_SB_", "scope"), ("_SI_", "scope"), ("_TZ_", "scope"),
              ("_REV", "integer"), ("_OSI", "method 1"), ("_OS_", "string 9"), ("_GL_", "mutex")]
OPENED = {0x5B82: "device", 0x5B83: "processor", 0x5B84: "power", 0x5B85: "thermal"}
FIELD_LISTS = (0x5B81, 0x5B86, 0x5B87)
CREATED_BITS = {0x8A: 32, 0x8B: 16, 0x8C: 8, 0x8D: 1, 0x8F: 64}
METHOD_TYPE = 8


@dataclass
class Object:
    """What stands at a path; an alias is a second path of the same object."""
    path: tuple
    text: str
    table: int = 0
    term: object = None
    scope: tuple = ()
    item: object = None
    access: int = None

    @property
    def arguments(self):
        """How many arguments a call takes, or none of what is no method."""
        return int(self.text.split()[1]) if self.text.startswith("method ") else 0


def printed(path):
    """A path as it is printed."""
    return "\\" + ".".join(segment.decode("latin1") for segment in path)


def absolute(scope, name):
    """The one path that a name spells in a scope, or None above the root."""
    if name.rooted:
        return name.segments
    if name.parents > len(scope):
        return None
    return scope[:len(scope) - name.parents] + name.segments


def wants(name, path, missing="which nothing before it defines, or which holds no names"):
    """What is told of a name that wants a path which is not there, or that leads above the root."""
    wanted = "a path above the root" if path is None else printed(path)
    return f"the name at byte {name.at} wants {wanted}, {missing}"


def find(entries, scope, name):
    """What a name finds among entries by paths: a lone segment by upward search, any other at its one path."""
    if not grammar.is_lone(name):
        path = absolute(scope, name)
        return None if path is None else entries.get(path)
    for length in range(len(scope), -1, -1):
        path = scope[:length] + name.segments
        if path in entries:
            return entries[path]
    return None


class Namespace:
    """All paths of a list of tables, or the first fault of loading them."""

    def __init__(self, files, counts=None):
        self.files = files
        self.objects = {(name.encode(),): Object((name.encode(),), text) for name, text in PREDEFINED}
        self.made = {}
        self.externals = {}
        self.methods = []
        self.width = 64
        self.counts = counts if counts is not None else Counter()
        for number, data in enumerate(files):
            try:
                self.load_table(number, data)
            except Fault as fault:
                raise Fault(fault.number, number, *fault.places, note=fault.note) from None

    def load_table(self, number, data):
        """The header, then the whole module, then its definitions in order."""
        tables.read_header(data, b"SSDT" if number else b"DSDT")
        if number == 0:
            self.width = 32 if data[8] < 2 else 64
        module = grammar.read_module(data, HEADER, self.counts)
        self.define_all(number, module, ())

    def define_all(self, number, statements, scope):
        """The definitions of a statement list."""
        for term in statements:
            self.define_term(number, term, scope)

    def define_term(self, number, term, scope):
        """What one definition puts into the namespace."""
        code, parts = term.code, term.parts
        if code == 0x10:
            self.define_all(number, parts[1], self.opened(scope, parts[0]))
        elif code == 0x15:
            self.note_external(scope, parts)
        elif code == 0x06:
            self.define_alias(number, scope, parts[0], parts[1])
        elif code in FIELD_LISTS:
            self.define_fields(number, term, scope)
        elif code in OPENED:
            made = self.define(number, term, scope, parts[0], OPENED[code])
            self.define_all(number, parts[-1], made.path)
        else:
            name = parts[-1] if code in grammar.CREATE_FIELDS else parts[0]
            made = self.define(number, term, scope, name, self.text_of(term))
            if code == 0x14:
                self.methods.append(made)

    def text_of(self, term):
        """The word behind a path, of a definition that opens no scope."""
        code, parts = term.code, term.parts
        if code == 0x08:
            return self.data_text(parts[1])
        if code == 0x14:
            return f"method {parts[1] & 7}"
        if code == 0x5B13:
            return f"bufferfield {grammar.literal_value(parts[2]) % 2**self.width}"
        if code in CREATED_BITS:
            return f"bufferfield {CREATED_BITS[code]}"
        return {0x5B01: "mutex", 0x5B02: "event", 0x5B80: "region", 0x5B88: "region"}[code]

    @staticmethod
    def data_text(data):
        """The kind and length of a Name's data."""
        if data.code == 0x0D:
            return f"string {len(data.parts[0])}"
        if data.code == 0x11:
            return f"buffer {max(grammar.literal_value(data.parts[0]), len(data.parts[1]))}"
        if data.code == 0x12:
            return f"package {data.parts[0]}"
        if data.code == 0x13:
            return f"package {grammar.literal_value(data.parts[0])}"
        return "integer"

    def check_place(self, scope, name):
        """The path of a new definition, whose parent has to be a scope that is there already."""
        path = absolute(scope, name)
        if path is not None and path in self.objects:
            raise Fault("E301", name.at, note=self.is_there(path, name))
        if path == ():
            raise Fault("E302", name.at, note=f"the name at byte {name.at} is the root's, which no definition makes")
        if path is None or not self.is_scope(path[:-1]):
            raise Fault("E302", name.at, note=wants(name, path and path[:-1]))
        if len(self.objects) >= GREATEST_PATHS:
            raise Fault("E303", name.at)
        return path

    def is_there(self, path, name):
        """What is told of a path that is defined twice."""
        first = "there from the beginning"
        if path in self.made:
            number, at = self.made[path]
            first = f"already defined at byte {at} of file{number}"
        return f"{printed(path)}, defined at byte {name.at}, is {first}"

    def is_scope(self, path):
        """Whether definitions may stand below this path."""
        return path == () or path in self.objects and self.objects[path].text in SCOPES

    def define(self, number, term, scope, name, text, item=None, access=None):
        """A new object with its first path."""
        path = self.check_place(scope, name)
        self.made[path] = number, name.at
        self.objects[path] = Object(path, text, number, term, scope, item, access)
        return self.objects[path]

    def define_alias(self, number, scope, source, name):
        """A second path of an object that is there already."""
        path = self.check_place(scope, name)
        found = find(self.objects, scope, source)
        if found is None:
            raise Fault("E304", source.at, note=wants(source, absolute(scope, source), "which nothing before it defines"))
        self.made[path] = number, name.at
        self.objects[path] = found

    def define_fields(self, number, term, scope):
        """Each named field of a list, with the access that holds for it."""
        flags = next(part for part in reversed(term.parts[:-1]) if isinstance(part, int))
        access, place = flags & 15, 0
        for item in term.parts[-1]:
            if item.what == "access":
                access = item.value & 15
            if item.what == "field":
                name = grammar.Name(False, 0, (item.value,), item.at)
                self.define(number, term, scope, name, f"field {item.bits}", (item, place), access)
            place += item.bits

    def opened(self, scope, name):
        """The scope that a Scope opens: of an alias the object's first path."""
        if absolute(scope, name) == ():
            return ()
        found = find(self.objects, scope, name)
        if found is None or found.text not in SCOPES:
            raise Fault("E302", name.at, note=wants(name, absolute(scope, name)))
        return found.path

    def note_external(self, scope, parts):
        """The first External of a method at a path tells how many terms a missing name takes."""
        path = absolute(scope, parts[0])
        if path is not None and parts[1] == METHOD_TYPE:
            self.externals.setdefault(path, parts[2])

    def arity(self, scope):
        """How many terms a name takes in the body of the method at this path."""
        def count(name):
            found = find(self.objects, scope, name)
            if found is not None:
                return found.arguments
            return find(self.externals, scope, name) or 0
        return count

    def listing(self):
        """The lines of `names`."""
        return [f"{printed(path)} {found.text}" if found.path == path else
                f"{printed(path)} alias {printed(found.path)}" for path, found in self.objects.items()]

    def body_span(self, method):
        """The places in its table at which a method's body begins and ends."""
        return method.term.end - len(method.term.parts[2]), method.term.end

    def body(self, method, counts=None):
        """The statements of a method's body."""
        begin, end = self.body_span(method)
        return grammar.read_body(self.files[method.table], begin, end, self.arity(method.path), counts)

    def body_line(self, method, counts=None):
        """The line of a method whose body can't be read, or None."""
        try:
            self.body(method, counts)
        except Fault as fault:
            return " ".join([printed(method.path), "refused", str(method.table), str(fault.places[0]), fault.number,
                             WORDS[fault.number]])
        return None
