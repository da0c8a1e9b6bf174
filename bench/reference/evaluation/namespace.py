"""The names of a set of tables: what stands where, and what a name string means."""
from aml import CREATE_FIELDS


class Buffer(bytes):
    """A buffer's bytes."""


class Text(bytes):
    """A string's bytes."""


class Package(tuple):
    """A package's elements: values, `Link`s or `UNSET`."""


class Link:
    """A name as an element of a package: the object that it names, or None."""

    def __init__(self, target):
        self.target = target


class Unset:
    """What an element of a package holds where none was given."""

    def __repr__(self):
        return "unset"


UNSET = Unset()


class Computed(Exception):
    """A literal that is none: something within it has a computed size. It carries the node."""


class Thing:
    """An object of the namespace. What it holds besides depends on its kind."""

    def __init__(self, kind, where, **more):
        self.kind = kind
        self.path = where
        self.__dict__.update(more)


def is_integer(value):
    return isinstance(value, int)


class Namespace:
    """The names of some tables, and what is known of each object."""

    def __init__(self, modules, width, host_name=b"acpicheck"):
        """`modules` holds the definitions of each table, in order."""
        self.width = width
        self.most = 2**width - 1
        self.pairs = {}
        self.aliases = []
        self.externals = []
        for segment in ("_GPE", "_PR_", "_SB_", "_SI_", "_TZ_"):
            self.put((segment,), "scope")
        self.put(("_REV",), "data", value=2)
        self.put(("_OSI",), "osi")
        self.put(("_OS_",), "data", value=Text(host_name))
        self.put(("_GL_",), "mutex", level=0, is_global=True)
        for number, module in enumerate(modules):
            self.table = number
            self.define_all(module, ())
        for thing in list(self.pairs.values()):
            self.finish(thing)

    def put(self, where, kind, **more):
        if where in self.pairs:
            raise ValueError(f"{where} stands already")
        self.pairs[where] = Thing(kind, where, **more)
        return self.pairs[where]

    def spelt(self, scope, name):
        """The one path that a name spells from a scope, or None above the root."""
        if name.rooted:
            return name.segments
        if name.parents > len(scope):
            return None
        return scope[:len(scope) - name.parents] + name.segments

    def resolve(self, scope, name):
        """What a name means in a scope: a lone segment is looked for upward."""
        if name.is_lone():
            for length in range(len(scope), -1, -1):
                found = self.pairs.get(scope[:length] + name.segments)
                if found is not None:
                    return found
            return None
        where = self.spelt(scope, name)
        return None if where is None else self.pairs.get(where)

    # Definitions in the order of their bytes.

    def define_all(self, nodes, scope):
        for node in nodes:
            self.define(node, scope)

    def define(self, node, scope):
        op, parts = node.op, node.parts
        if op == "Scope":
            opened = self.resolve(scope, parts[0])
            self.define_all(parts[1], opened.path if opened else self.spelt(scope, parts[0]))
        elif op in ("Device", "ThermalZone", "Processor", "PowerResource"):
            kind = {"Device": "device", "ThermalZone": "thermal", "Processor": "processor", "PowerResource": "power"}[op]
            thing = self.put(self.spelt(scope, parts[0]), kind)
            self.define_all(parts[-1], thing.path)
        elif op == "Alias":
            self.pairs[self.spelt(scope, parts[1])] = self.resolve(scope, parts[0])
            self.aliases.append(self.spelt(scope, parts[1]))
        elif op == "External":
            where = self.spelt(scope, parts[0])
            if parts[1] == 8 and where is not None:
                self.externals.append((where, parts[2]))
        else:
            self.define_leaf(node, scope)

    def define_leaf(self, node, scope):
        op, parts = node.op, node.parts
        if op == "DefName":
            self.put(self.spelt(scope, parts[0]), "data", literal=parts[1], scope=scope)
        elif op == "Method":
            self.put(self.spelt(scope, parts[0]), "method", node=node, table=self.table, count=parts[1] & 7, body=parts[2])
        elif op == "Mutex":
            self.put(self.spelt(scope, parts[0]), "mutex", level=parts[1] & 15, is_global=False)
        elif op == "Event":
            self.put(self.spelt(scope, parts[0]), "event")
        elif op == "OperationRegion":
            place, size = self.number(parts[2]), self.number(parts[3])
            self.put(self.spelt(scope, parts[0]), "region", space=parts[1], place=place, size=size)
        elif op == "DataTableRegion":
            self.put(self.spelt(scope, parts[0]), "region", space=None, place=None, size=None)
        elif op in ("Field", "IndexField", "BankField"):
            self.define_fields(node, scope)
        else:
            bits, offset = self.buffer_field_numbers(node)
            self.put(self.spelt(scope, parts[-1]), "bufferfield", source_name=parts[0].parts[0], scope=scope, bits=bits,
                     offset=offset)

    def number(self, node):
        """An integer literal cut to the width, or None for any other term."""
        return node.parts[0] & self.most if node.op == "Literal" else None

    def buffer_field_numbers(self, node):
        """The bits of a buffer field and its first bit; a number is None where it is no literal."""
        index = self.number(node.parts[1])
        if node.op == "CreateField":
            return self.number(node.parts[2]), index
        bits, unit = CREATE_FIELDS[node.op]
        return bits, None if index is None else index * unit

    def define_fields(self, node, scope):
        flags, items = node.parts[-2], node.parts[-1]
        access, rule = flags & 15, flags >> 5 & 3
        offset, outside = 0, False
        for item in items:
            if item[0] == "access":
                access = item[1] & 15
            elif item[0] in ("connection", "extended"):
                outside = True
            elif item[0] == "skip":
                offset += item[1]
            else:
                self.put(scope + (item[1],), "field", form=node.op, node=node, scope=scope, access=access, rule=rule,
                         offset=offset, bits=item[2], outside=outside)
                offset += item[2]

    # What is known once all tables are loaded.

    def finish(self, thing):
        if thing.kind == "data" and not hasattr(thing, "value"):
            thing.value = self.content(thing.literal, thing.scope)
        elif thing.kind == "bufferfield":
            thing.source = self.resolve(thing.scope, thing.source_name)
        elif thing.kind == "field":
            names = thing.node.parts
            first = self.resolve(thing.scope, names[0])
            if thing.form == "Field":
                thing.region = first
            elif thing.form == "IndexField":
                thing.index, thing.data = first, self.resolve(thing.scope, names[1])
            else:
                thing.region, thing.bank = first, self.resolve(thing.scope, names[1])
                thing.bank_value = self.number(names[2])

    def content(self, node, scope):
        """The value of a literal. A computed size within it is told by the node that has it."""
        op, parts = node.op, node.parts
        if op == "Literal":
            return parts[0] & self.most
        if op == "String":
            return Text(parts[0])
        if op == "Revision" or (op in ("Buffer", "VarPackage") and parts[0].op != "Literal"):
            raise Computed(node)
        if op == "Buffer":
            size = max(parts[0].parts[0], len(parts[1]))
            return Buffer(parts[1] + bytes(size - len(parts[1])))
        count = parts[0] if op == "Package" else parts[0].parts[0]
        elements = [self.element(item, scope) for item in parts[1]]
        return Package((elements + [UNSET] * count)[:count])

    def element(self, node, scope):
        if node.op == "Path":
            return Link(self.resolve(scope, node.parts[0]))
        return self.content(node, scope)

    def arity(self, scope, name):
        """How many terms stand behind a name in a body."""
        found = self.resolve(scope, name)
        if found is not None:
            return {"method": getattr(found, "count", 0), "osi": 1}.get(found.kind, 0)
        return self.external_count(scope, name)

    def external_count(self, scope, name):
        lengths = range(len(scope), -1, -1) if name.is_lone() else (None,)
        for length in lengths:
            where = self.spelt(scope, name) if length is None else scope[:length] + name.segments
            for told, count in self.externals:
                if told == where:
                    return count
        return 0

    # The listing.

    def listing(self):
        return [show_path(where) + " " + self.listed(where, thing) for where, thing in self.pairs.items()]

    def listed(self, where, thing):
        if where in self.aliases:
            return "alias " + show_path(thing.path)
        if thing.kind == "method":
            return f"method {thing.count}"
        if thing.kind == "osi":
            return "method 1"
        if thing.kind in ("field", "bufferfield"):
            return f"{thing.kind} {thing.bits}"
        if thing.kind != "data":
            return thing.kind
        if is_integer(thing.value):
            return "integer"
        word = {Buffer: "buffer", Text: "string", Package: "package"}[type(thing.value)]
        return f"{word} {len(thing.value)}"


def show_path(where):
    return "\\" + ".".join(where)


def show_value(value):
    if is_integer(value):
        return hex(value)
    if isinstance(value, Buffer):
        return "buffer " + (value.hex() or "-")
    if isinstance(value, Text):
        return 'string "' + "".join(shown_byte(byte) for byte in value) + '"'
    return "package [" + ", ".join(map(show_element, value)) + "]"


def show_element(element):
    if element is UNSET:
        return "unset"
    if isinstance(element, Link):
        return "unresolved" if element.target is None else show_path(element.target.path)
    return show_value(element)


def shown_byte(byte):
    if 0x20 <= byte <= 0x7E and byte not in b'"\\':
        return chr(byte)
    return f"\\x{byte:02x}"
