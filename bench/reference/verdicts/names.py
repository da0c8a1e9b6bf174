"""The namespace of some tables: which object stands at which path, and the fields with what they stand on."""
from aml import CREATE_FORMS, Node, read_module

ACCESS_WIDTHS = {0: 8, 1: 8, 2: 16, 3: 32, 4: 64}
SPACES = {0, 1, 2, 3, 5}
MOST_BITS = 2048


class Object:
    """What stands at a path: its kind, its first path, and further parts by kind."""

    def __init__(self, kind, path, **parts):
        self.kind = kind
        self.path = path
        self.__dict__.update(parts)


class Namespace:
    """Objects by their paths, as tuples of segments."""

    def __init__(self, tables):
        self.tables = tables
        self.width = 32 if tables[0][8] < 2 else 64
        self.greatest = 2 ** self.width - 1
        self.paths = {}
        self.methods = []
        self.externals = {}
        self.later = []
        self.predefine()
        for number, table in enumerate(tables):
            self.define_all((), read_module(table), number)
        for task in self.later:
            task()

    def predefine(self):
        for seg in ("_GPE", "_PR_", "_SB_", "_SI_", "_TZ_"):
            self.add((seg,), "scope")
        self.add(("_REV",), "data", content=("int", 2))
        self.add(("_OSI",), "osi", arguments=1)
        self.add(("_OS_",), "data", content=("str", 9))
        self.add(("_GL_",), "mutex", level=0)

    def add(self, path, kind, **parts):
        assert path not in self.paths, path
        made = self.paths[path] = Object(kind, path, **parts)
        return made

    # Looking up.

    def absolute(self, scope, name):
        """The path that a name spells, or None above the root."""
        if name.rooted:
            return name.segs
        if name.parents > len(scope):
            return None
        return scope[:len(scope) - name.parents] + name.segs

    def search(self, found, scope, name):
        """What a name names among these paths."""
        if name.lone() is None:
            return found.get(self.absolute(scope, name))
        for length in range(len(scope), -1, -1):
            there = found.get(scope[:length] + name.segs)
            if there is not None:
                return there
        return None

    def resolve(self, scope, name):
        return self.search(self.paths, scope, name)

    def arity(self, scope, name):
        """How many terms a name takes behind it in a body."""
        there = self.resolve(scope, name)
        if there is None:
            return self.search(self.externals, scope, name) or 0
        return there.arguments if there.kind in ("method", "osi") else 0

    # Defining.

    def define_all(self, scope, nodes, table):
        for node in nodes:
            self.define(scope, node, table)

    def define(self, scope, node, table):
        operator, parts = node.op, node.parts
        if operator == "Scope":
            there = self.resolve(scope, parts[0].value)
            opened = there.path if there else self.absolute(scope, parts[0].value)
            self.define_all(opened, parts[1], table)
        elif operator == "Alias":
            self.paths[self.absolute(scope, parts[1].value)] = self.resolve(scope, parts[0].value)
        elif operator == "External":
            path = self.absolute(scope, parts[0].value)
            if parts[1] == 8 and path is not None:
                self.externals.setdefault(path, parts[2])
        elif operator in ("Field", "IndexField", "BankField"):
            self.define_fields(scope, node)
        else:
            name = parts[-1] if operator in CREATE_FORMS else parts[0]
            self.define_one(self.absolute(scope, name.value), scope, node, table)

    def define_one(self, path, scope, node, table):
        operator, parts = node.op, node.parts
        if operator == "Name":
            self.add(path, "data", content=self.content(parts[1]))
        elif operator == "Method":
            flags = parts[1]
            start = node.end - len(parts[2])
            made = self.add(path, "method", arguments=flags & 7, table=table, at=node.at, start=start, end=node.end)
            self.methods.append(made)
        elif operator == "Mutex":
            self.add(path, "mutex", level=parts[1] & 15)
        elif operator == "Event":
            self.add(path, "event")
        elif operator == "OperationRegion":
            self.add(path, "region", space=parts[1], place=self.literal(parts[2]), size=self.literal(parts[3]))
        elif operator == "DataTableRegion":
            self.add(path, "region", space=None, place=None, size=None)
        elif operator in CREATE_FORMS:
            self.define_buffer_field(path, scope, node)
        else:
            kinds = {"Device": "device", "Processor": "processor", "PowerResource": "power", "ThermalZone": "thermal"}
            self.add(path, kinds[operator])
            self.define_all(path, parts[-1], table)

    def literal(self, node):
        """An integer literal's value at this width, or None of any other term."""
        return node.value & self.greatest if node.op == "int" else None

    def content(self, node):
        """The kind of literal data, an integer's greatest value being itself."""
        if node.op == "int":
            return ("int", node.value & self.greatest)
        if node.op == "string":
            return ("str", len(node.value))
        if node.op == "Buffer":
            return ("buf", max(node.parts[0].value, len(node.parts[1])))
        size, elements = (node.parts[0].value if isinstance(node.parts[0], Node) else node.parts[0]), node.parts[1]
        shape = [("name",) if e.op == "name" else self.content(e) for e in elements[:size]]
        return ("pkg", tuple(shape + [None] * (size - len(shape))))

    def create_numbers(self, node):
        """The first bit and the number of bits of a CreateField form, its numbers being literals."""
        bits = CREATE_FORMS[node.op]
        index = self.literal(node.parts[1])
        if bits is None:
            return index, self.literal(node.parts[2])
        return (index if bits == 1 else 8 * index), bits

    def define_buffer_field(self, path, scope, node):
        offset, bits = self.create_numbers(node)
        made = self.add(path, "bufferfield", offset=offset, bits=bits, source=None)

        def link():
            source = self.resolve(scope, node.parts[0].value)
            made.source = source.content if source and source.kind == "data" else None
        self.later.append(link)

    def define_fields(self, scope, node):
        """The fields of a list, each of which knows its place, and later what it stands on."""
        operator, parts = node.op, node.parts
        flags = parts[-2]
        access, offset, outside = flags & 15, 0, False
        for kind, what, bits in parts[-1]:
            if kind == "access":
                access = what & 15
            elif kind in ("connection", "extended"):
                outside = True
            elif kind == "field":
                made = self.add(scope + (what,), "field", form=operator, bits=bits, offset=offset, access=access,
                                rule=flags >> 5 & 3, outside=outside)
                self.later.append(lambda made=made: self.link_field(made, scope, node))
            if kind in ("skip", "field"):
                offset += bits

    def link_field(self, made, scope, node):
        """What the field's names name, whatever it is."""
        parts = node.parts
        first = self.resolve(scope, parts[0].value)
        if made.form == "IndexField":
            made.index, made.data = first, self.resolve(scope, parts[1].value)
            return
        made.region = first
        if made.form == "BankField":
            made.bank, made.bank_value = self.resolve(scope, parts[1].value), self.literal(parts[2])


# Fields of regions.

def units(field):
    """The units that a field touches, as (unit, whether it is wholly the field's)."""
    width = ACCESS_WIDTHS[field.access]
    first, last = field.offset // width, (field.offset + field.bits - 1) // width
    for unit in range(first, last + 1):
        whole = unit * width >= field.offset and (unit + 1) * width <= field.offset + field.bits
        yield unit, whole


def within_region(field):
    region = field.region
    if region is None or region.kind != "region" or region.space not in SPACES:
        return False
    if region.place is None or region.size is None or region.place + region.size > 2 ** 64:
        return False
    width = ACCESS_WIDTHS[field.access]
    last = (field.offset + field.bits - 1) // width
    return (last + 1) * width // 8 <= region.size


def is_list_field(there):
    """A field of a plain field list, which index and bank fields may stand on, and which is sound itself."""
    return there is not None and there.kind == "field" and there.form == "Field" and sound(there)


def sound(field):
    """Whether a region's field is within the profile and its region."""
    if field.outside or field.access not in ACCESS_WIDTHS or field.rule == 3 or not 1 <= field.bits <= MOST_BITS:
        return False
    if field.form == "IndexField":
        if not is_list_field(field.index) or not is_list_field(field.data):
            return False
        return field.data.bits == ACCESS_WIDTHS[field.access]
    if not within_region(field):
        return False
    if field.form == "BankField":
        return is_list_field(field.bank) and field.bank_value is not None
    return True


def unit_events(field, is_write):
    """How many events one access to one unit makes."""
    if field.form == "IndexField":
        return write_events(field.index) + (write_events(field.data) if is_write else read_events(field.data))
    if field.form == "BankField":
        return write_events(field.bank) + 1
    return 1


def read_events(field):
    return sum(1 for _ in units(field)) * unit_events(field, False)


def write_events(field):
    """Each unit is written, and read before it where other bits of it are kept."""
    total = 0
    for _, whole in units(field):
        if not whole and field.rule == 0:
            total += unit_events(field, False)
        total += unit_events(field, True)
    return total
