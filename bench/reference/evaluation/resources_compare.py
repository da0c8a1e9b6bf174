"""Generated resource templates and `_PRT`s, and what the program and the reference make of them."""
from aml import NONE, NameString, Node, buffer, encode, literal, local, path, table, text
from evaluate import Machine, Registers
from namespace import Buffer, Namespace, Package, show_path
from resources import LARGE_LENGTHS, ResourceFault, items
from routes import Override, RouteFault, links_of, routes

LIMIT = 100_000


# Bytes of resource templates.

def small(name, data):
    return bytes([name << 3 | len(data)]) + data


def large(name, data):
    return bytes([0x80 | name]) + len(data).to_bytes(2, "little") + data


def random_bytes(chance, count):
    return bytes(chance.choice([0, 1, 2, 0x0F, 0x10, 0x18, 0xFF, chance.randrange(256)]) for _ in range(count))


def random_item(chance):
    kind = chance.randrange(14)
    if kind < 3:
        mask = chance.choice([0, 1 << chance.randrange(16), chance.randrange(65536)]).to_bytes(2, "little")
        return small(0x04, mask + random_bytes(chance, chance.randrange(2)))
    if kind == 3:
        return small(0x08, random_bytes(chance, 7))
    if kind == 4:
        return small(0x09, random_bytes(chance, 3))
    if kind < 7:
        count = chance.choice([0, 1, 2, 3])
        numbers = b"".join(chance.choice([5, 9, 16, 2**32 - 1, chance.getrandbits(32)]).to_bytes(4, "little")
                           for _ in range(count))
        told = count if chance.randrange(8) else chance.randrange(6)
        return large(0x09, random_bytes(chance, 1) + bytes([told]) + numbers + random_bytes(chance,
                     chance.choice([0, 0, 0, 1, 4, 6])))
    if kind < 10:
        name = chance.choice([0x05, 0x06, 0x07, 0x08, 0x0A])
        return large(name, random_bytes(chance, LARGE_LENGTHS[name] + chance.choice([0, 0, 1, 12])))
    if kind == 10:
        return small(chance.choice([0, 1, 2, 3, 5, 6, 7, 0x0A, 0x0E]), random_bytes(chance, chance.randrange(8)))
    if kind == 11:
        return large(chance.choice([0, 1, 2, 3, 4, 0x0B, 0x0C, 0x0E, 0x0F, 0x7F]),
                     random_bytes(chance, chance.choice([0, 1, 5, 300])))
    if kind == 12:
        return random_bytes(chance, chance.randrange(1, 5))
    name = chance.choice(sorted(LARGE_LENGTHS))
    return large(name, random_bytes(chance, chance.randrange(LARGE_LENGTHS[name] + 1)))


def good_item(chance):
    while True:
        made = random_item(chance)
        try:
            items(made + b"\x79\x00")
            return made
        except ResourceFault:
            pass


def template(chance, fault=4):
    """A resource template, at times cut or with a wrong item."""
    pick = random_item if chance.randrange(fault) == 0 else good_item
    made = b"".join(pick(chance) for _ in range(chance.choice([0, 1, 1, 2, 3, 6]))) + b"\x79" + random_bytes(chance, 1)
    if chance.randrange(4) == 0:
        made += random_bytes(chance, chance.randrange(1, 6))
    if chance.randrange(fault) == 0:
        made = made[:chance.randrange(len(made) + 1)]
    if chance.randrange(3 * fault) == 0:  # too short a length, and fewer bytes than it says
        name = chance.choice(sorted(LARGE_LENGTHS))
        length = chance.randrange(LARGE_LENGTHS[name] + 2)
        made = made[:-2] + bytes([0x80 | name, length, 0]) + bytes(chance.randrange(length + 1))
    return made


def buffer_of(data, more=0):
    return buffer(len(data) + more if more else literal(len(data)), data)


def crs_method(chance, name, data):
    """A method that gives a template: a literal, one in an own name, changed by fields, or a name's content."""
    how = chance.choice([0, 1, 2, 3, 3, 3])
    place = 1 if data[:1] in (b"\x22", b"\x23") else 5 if data[:1] == b"\x89" else max(len(data) - 2, 0)
    if how == 0 or len(data) < 4:
        body = [Node("Return", buffer_of(data))]
    elif how == 1:
        made = [Node("DefName", NameString(("RBUF",)), buffer_of(data))]
        made.append(Node("CreateWordField", path(NameString(("RBUF",))), literal(place), NameString(("IRQW",))))
        made.append(Node("Store", literal(1 << chance.randrange(16)), path(NameString(("IRQW",)))))
        body = made + [Node("Return", path(NameString(("RBUF",))))]
    elif how == 2:
        body = [Node("Store", buffer_of(data), local(0)), Node("Return", local(0))]
    else:
        body = [Node("DefName", NameString(("RBUF",)), buffer_of(data)),
                Node("Store", path(NameString(("REGF",), rooted=True)),
                     Node("Index", path(NameString(("RBUF",))), literal(place), NONE)),
                Node("Increment", path(NameString(("COUN",), rooted=True))),
                Node("Store", path(NameString(("COUN",), rooted=True)), path(NameString(("REGF",), rooted=True))),
                Node("Return", path(NameString(("RBUF",))))]
    return Node("Method", name, 0, body)


def shared_definitions():
    """A counter and a register that templates change as they are made."""
    region = NameString(("REGR",))
    return [Node("DefName", NameString(("COUN",)), literal(3)),
            Node("OperationRegion", region, 1, literal(0x60), literal(4)),
            Node("Field", region, 1, [("name", "REGF", 8)])]


def odd_objects(chance, prefix):
    """Names and methods that give no template or no package."""
    return [
        Node("DefName", NameString((prefix + "INT",)), literal(5)), Node("DefName", NameString((prefix + "STR",)), text(b"A")),
        Node("DefName", NameString((prefix + "PKG",)), Node("Package", 1, [literal(1)])),
        Node("Method", NameString((prefix + "NON",)), 0, [Node("Noop")]),
        Node("Method", NameString((prefix + "MIN",)), 0, [Node("Return", literal(9))]),
        Node("Method", NameString((prefix + "ARG",)), 1, [Node("Return", Node("Arg", 0))]),
        Node("Method", NameString((prefix + "BAD",)), 0, [Node("Return", local(3))]),
        Node("Method", NameString((prefix + "RAW",)), 0, [Node("Raw", b"\xa4")]),
        Node("Device", NameString((prefix + "DEV",)), []), Node("Mutex", NameString((prefix + "MTX",)), 0),
    ]


def value_of_object(machine, thing):
    """What a data name holds or a method gives; None where it gives nothing."""
    if thing.kind == "data":
        return machine.contents[thing]
    machine.fuel = LIMIT
    return machine.run(thing, []).value


def refused_lines(program, files):
    """The line of each refused method, as `verify` tells it."""
    return {line.split()[0]: line for line in program.run(["verify", *files])[1] if line.split()[1] == "refused"}


def takes_part(thing):
    return thing is not None and (thing.kind == "data" or thing.kind == "method" and thing.count == 0)


def resources_case(comparison, chance):
    """A table of templates, of which `resources` asks for every name."""
    module = shared_definitions() + odd_objects(chance, "O")
    for number in range(25):
        name = NameString((f"B{number:03d}",))
        data = template(chance)
        module.append(Node("DefName", name, buffer_of(data, chance.choice([0, 0, 0, 1]))) if chance.randrange(3)
                      else crs_method(chance, name, data))
    module.append(Node("Alias", NameString(("B000",)), NameString(("ALI0",))))
    module.append(Node("Alias", NameString(("OBAD",)), NameString(("ALI1",))))
    revision = chance.choice([1, 2])
    namespace = Namespace([module], 64 if revision == 2 else 32)
    files = [comparison.write("dsdt", table(b"DSDT", revision, encode(module)))]
    registers = Registers([("io", 0x60, bytes([chance.randrange(256)]))])
    regs = comparison.write("regs", f"io 60 {registers.bytes['io', 0x60]:02x}\n".encode())
    refused = refused_lines(comparison.program, files)
    for where, thing in namespace.pairs.items():
        machine = Machine(namespace, Registers([("io", 0x60, bytes([registers.bytes["io", 0x60]]))]), (), LIMIT)
        wanted = resources_lines(machine, thing, refused)
        comparison.counts["resources", wanted[-1].split()[0] + " " + wanted[-1].split()[1] if wanted[-1] != "end"
                          else "end"] += 1
        for line in wanted:
            comparison.counts["item", line.split()[0]] += 1
        told = [show_path(where), str(getattr(thing, "value", b"") or b"")[:300]]
        comparison.same("resources", ["resources", "--object", show_path(where), "--regs", regs, *files], wanted, told)


def resources_lines(machine, thing, refused):
    """What `resources` prints of an object."""
    if not takes_part(thing):
        return ["fault E525 NoSuchObject"]
    if show_path(thing.path) in refused:
        return [refused[show_path(thing.path)]]
    value = value_of_object(machine, thing)
    if not isinstance(value, Buffer):
        return ["fault E421 NotBuffer"]
    try:
        return [item.line() for item in items(value)]
    except ResourceFault as fault:
        return [fault.line]


# Routing.

def link_definitions(chance, number):
    """A device that may be a link, with or without a `_CRS` of some kind."""
    name = NameString((f"LNK{number}",))
    crs = NameString(("_CRS",))
    data = interrupt_template(chance) if chance.randrange(15) else template(chance, 8)
    how = chance.choice([0, 1, 2, 3, 4, 4]) if chance.randrange(4) == 0 else chance.randrange(5, 20)
    if how == 0:
        inside = []
    elif how == 1:
        inside = [Node("DefName", crs, chance.choice([literal(1), text(b"x"), Node("Package", 0, [])]))]
    elif how == 2:
        inside = [Node("Method", crs, chance.choice([0, 1]),
                       chance.choice([[Node("Return", local(0))], [Node("Noop")], [Node("Return", literal(3))],
                                      [Node("Raw", b"\xa4")]]))]
    elif how == 3:
        inside = [Node("DefName", NameString(("XCRS",)), buffer_of(data)), Node("Alias", NameString(("XCRS",)), crs)]
    elif how == 4:  # it would give a buffer, but a verifier refuses it
        unset = Node("If", literal(0), [Node("Store", local(3), local(4))])
        inside = [Node("Method", crs, 0, [unset, Node("Return", buffer_of(data))])]
    elif how < 8:
        inside = [Node("DefName", crs, buffer_of(data))]
    else:
        inside = [crs_method(chance, crs, data)]
    return Node("Device", name, inside)


def interrupt_template(chance):
    made = good_item(chance) if chance.randrange(4) == 0 else b""
    if chance.randrange(2):
        made += small(0x04, (1 << chance.randrange(16)).to_bytes(2, "little") + random_bytes(chance, chance.randrange(2)))
    else:
        made += large(0x09, random_bytes(chance, 1) + b"\x01" + chance.choice([3, 5, 9, 20, 2**32 - 1]).to_bytes(4, "little"))
    return made + b"\x79\x00"


def prt_element(chance, names):
    address = literal(chance.choice([0xFFFF, 0x1FFFF, 0, 2**32 - 1, 2**64 - 1]))
    pin = literal(chance.randrange(4))
    source = path(chance.choice(names)) if chance.randrange(4) else literal(0)
    index = literal(chance.choice([0, 0, 5, 16, 2**32 - 1]))
    parts = [address, pin, source, index]
    if chance.randrange(30) == 0:
        parts[1:] = chance.choice([[literal(4), parts[2], literal(0)], [pin, literal(0), literal(2**32)],
                                   [pin, parts[2], literal(2**32)],
                                   [pin, literal(0), literal(2**64 - 1)]])
    elif chance.randrange(25) == 0:
        parts[chance.randrange(4)] = chance.choice([
            lambda: literal(4), lambda: literal(2**32), lambda: text(b"A"), lambda: path(chance.choice(names)),
            lambda: Node("Package", 0, []), lambda: literal(1), lambda: buffer(1), lambda: literal(2**64 - 1)])()
    count = 4 if chance.randrange(50) else chance.choice([3, 5])
    if count == 5 and chance.randrange(2):
        parts.append(literal(0))
    if chance.randrange(70) == 0:
        return chance.choice([lambda: literal(0), lambda: path(chance.choice(names)), lambda: text(b"")])()
    return Node("Package", count, parts)


def prt_definitions(chance, names):
    """Names and methods with packages of routes."""
    made = []
    for number in range(16):
        elements = [prt_element(chance, names) for _ in range(chance.choice([0, 1, 1, 1, 2, 2, 3, 6]))]
        count = len(elements) + (chance.randrange(2) if chance.randrange(10) == 0 else 0)
        package = Node("Package", count, elements)
        name = NameString((f"PR{number:02d}",))
        if chance.randrange(3):
            made.append(Node("DefName", name, package))
        else:
            made.append(Node("Method", name, 0, [Node("Increment", path(NameString(("COUN",), rooted=True))),
                                                 Node("Return", package)]))
    return made


def other_link(chance, links):
    """A link, or a link's _CRS, of another table."""
    number = chance.randrange(len(links))
    if not links[number].parts[-1]:
        crs = Node("DefName", NameString(("_CRS",)), buffer_of(interrupt_template(chance)))
        return Node("Scope", NameString(("_SB_", f"LNK{number}"), rooted=True), [crs])
    return Node("Scope", NameString(("_SB_",)), [link_definitions(chance, 9)])


def routing_modules(chance):
    """Two tables with links and a bridge with routes, and the nodes that a difference is told with."""
    links = [link_definitions(chance, number) for number in range(chance.randrange(2, 7))]
    devices = [Node("Alias", NameString(("LNK0",)), NameString(("ALNK",)))] if chance.randrange(2) else []
    scope = Node("Scope", NameString(("_SB_",), rooted=True), links + devices)
    module = shared_definitions() + odd_objects(chance, "O") + [scope]
    names = [NameString(("_SB_", f"LNK{number}"), rooted=True) for number in range(len(links))] * 3
    if devices:
        names.append(NameString(("_SB_", "ALNK"), rooted=True))
        if chance.randrange(2):
            crs = NameString(("_SB_", "ALNK", "_CRS"), rooted=True)
            module.append(Node("DefName", crs, buffer_of(interrupt_template(chance))))
    lone = [NameString((f"LNK{number}",)) for number in range(len(links))]
    if chance.randrange(4) == 0:
        names += [NameString(("_SB_",)), NameString(("NONE",)), NameString(("COUN",), rooted=True)]
    names += [NameString((f"LNK{chance.randrange(3)}",), parents=parents) for parents in (1, 2, 3)]
    inside = [link_definitions(chance, chance.randrange(len(links)))] if chance.randrange(3) == 0 else []
    inside += prt_definitions(chance, names + lone)
    bridge = Node("Device", NameString(("_SB_", "PCI0"), rooted=True), inside)
    modules = [module, []]
    modules[chance.randrange(2)].append(bridge)
    if chance.randrange(2):
        modules[1].append(other_link(chance, links))
    return modules, links + devices + inside


def routing_case(comparison, chance):
    """Tables of links and routes, of which `routing` asks for every name and some others."""
    revision = chance.choice([1, 2, 2])
    modules, nodes = routing_modules(chance)
    namespace = Namespace(modules, 64 if revision == 2 else 32)
    for thing in namespace.pairs.values():
        if thing.kind == "method" and any(node.op == "Raw" for node in thing.body):
            thing.body = None
    files = [comparison.write("dsdt", table(b"DSDT", revision, encode(modules[0]))),
             comparison.write("ssdt", table(b"SSDT", 2, encode(modules[1])))]
    byte = bytes([chance.randrange(256)])
    regs = comparison.write("regs", f"io 60 {byte.hex()}\n".encode())
    refused = refused_lines(comparison.program, files)
    for where, thing in namespace.pairs.items():
        if not where[-1].startswith("PR") and chance.randrange(6):
            continue
        overrides = random_overrides(chance)
        words = ["--regs", regs]
        if overrides is not None:
            words += ["--madt", comparison.write("madt", madt(chance, overrides))]
        machine = Machine(namespace, Registers([("io", 0x60, byte)]), (), LIMIT)
        wanted = routing_lines(machine, thing, refused, overrides)
        comparison.counts["routing", routing_outcome(wanted)] += 1
        told = [show_path(where), f"revision {revision}, overrides {[vars(o) for o in overrides or []]}"]
        told += [repr(node) for node in nodes]
        comparison.same("routing", ["routing", "--object", show_path(where), *words, *files], wanted, told)


def routing_outcome(lines):
    """What is counted of an answer."""
    if not lines:
        return "nothing printed"
    return "routes" if lines[-1].startswith("0x") else " ".join(lines[-1].split()[:2])


def routing_lines(machine, thing, refused, overrides):
    """What `routing` prints of an object."""
    if not takes_part(thing):
        return ["fault E525 NoSuchObject"]
    if show_path(thing.path) in refused:
        return [refused[show_path(thing.path)]]
    value = value_of_object(machine, thing)
    if not isinstance(value, Package):
        return ["fault E422 NotPackage"]
    try:
        found = {}
        for link in links_of(value):
            found[link] = link_items(machine, link, refused)
        return routes(value, found, overrides)
    except (ResourceFault, RouteFault) as fault:
        return [fault.line]


def link_items(machine, link, refused):
    """The items of a link's `_CRS`, or None where it has none that counts."""
    crs = machine.namespace.pairs.get(link.path + ("_CRS",))
    if not takes_part(crs) or show_path(crs.path) in refused:
        return None
    value = value_of_object(machine, crs)
    return items(value) if isinstance(value, Buffer) else None


def random_overrides(chance):
    if chance.randrange(3) == 0:
        return None
    return [Override(chance.choice([0, 0, 0, 1]), chance.randrange(16),
                     chance.choice([9, 20, 2**32 - 1, chance.randrange(100)]), chance.choice([0, 0xF, 0xD, 5, 0xA]))
            for _ in range(chance.choice([0, 1, 16, 40]))]


def madt(chance, overrides):
    body = (0xFEE00000).to_bytes(4, "little") + b"\x01\x00\x00\x00"
    for override in overrides:
        if chance.randrange(4) == 0:
            body += bytes([0x7F, 4, 0, 0]) if chance.randrange(2) else bytes([0, 8]) + bytes(6)
        made = override.structure()
        if chance.randrange(6) == 0:
            made = made[:1] + bytes([12]) + made[2:] + b"\xff\xff"
        body += made
    return table(b"APIC", 5, body)
