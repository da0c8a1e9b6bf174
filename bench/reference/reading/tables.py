"""Reads table headers, RSDP, XSDT, FADT and MADT, and writes the lines of `tables`."""
from faults import Fault
from grammar import number_at

HEADER, OLD_RSDP, NEW_RSDP, MADT_FRONT = 36, 20, 36, 44
RSDP_SIGNATURE = b"RSD PTR "

# Of each listed structure of a MADT its length and its line: words, then place, bytes and form of a number.
STRUCTURES = {
    0: (8, "processor", [("uid", 2, 1, "d"), ("id", 3, 1, "d"), ("flags", 4, 4, "x")]),
    1: (12, "ioapic", [("id", 2, 1, "d"), ("address", 4, 4, "x"), ("base", 8, 4, "d")]),
    2: (10, "override", [("bus", 2, 1, "d"), ("source", 3, 1, "d"), ("number", 4, 4, "d"), ("flags", 8, 2, "x")]),
    3: (8, "nmi", [("number", 4, 4, "d"), ("flags", 2, 2, "x")]),
    4: (6, "local-nmi", [("uid", 2, 1, "d"), ("lint", 5, 1, "d"), ("flags", 3, 2, "x")]),
    5: (12, "local-address", [("", 4, 8, "x")]),
    9: (16, "x2apic", [("uid", 12, 4, "d"), ("id", 4, 4, "d"), ("flags", 8, 4, "x")]),
    10: (12, "x2apic-nmi", [("uid", 4, 4, "d"), ("lint", 8, 1, "d"), ("flags", 2, 2, "x")]),
}


def escaped(text):
    """Bytes as they are printed in a text."""
    return "".join(chr(byte) if 0x20 <= byte <= 0x7E and byte not in b'"\\' else f"\\x{byte:02x}" for byte in text)


def read_header(data, signature=None):
    """The faults of a header, in their order."""
    if len(data) < HEADER:
        raise Fault("E101", len(data))
    if number_at(data, 4, 4) != len(data):
        raise Fault("E102", 4)
    if sum(data) % 256:
        raise Fault("E103", 9)
    if signature is not None and data[:4] != signature:
        raise Fault("E104", 0)


def read_rsdp(data):
    """The faults of a root pointer, in their order."""
    if len(data) < OLD_RSDP:
        raise Fault("E101", len(data))
    if data[:8] != RSDP_SIGNATURE:
        raise Fault("E104", 0)
    if sum(data[:OLD_RSDP]) % 256:
        raise Fault("E103", 8)
    if data[15] < 2:
        return
    if len(data) < NEW_RSDP:
        raise Fault("E101", len(data))
    length = number_at(data, 20, 4)
    if length < NEW_RSDP or length > len(data):
        raise Fault("E102", 20)
    if sum(data[:length]) % 256:
        raise Fault("E103", 32)


def rsdp_lines(data):
    """The one line of a root pointer."""
    read_rsdp(data)
    line = f"rsdp revision {data[15]} rsdt {number_at(data, 16, 4):#x}"
    return [line + f" xsdt {number_at(data, 24, 8):#x}" if data[15] >= 2 else line]


def xsdt_lines(data):
    """The addresses of an XSDT."""
    if (len(data) - HEADER) % 8:
        raise Fault("E105", len(data) - (len(data) - HEADER) % 8)
    return [f"  entry {number_at(data, at, 8):#x}" for at in range(HEADER, len(data), 8)]


def fadt_lines(data):
    """The fields of a FADT that it has."""
    def field(at, count, form):
        return format(number_at(data, at, count), form) if len(data) >= at + count else "absent"
    flags = field(112, 4, "#x")
    reduced = flags if flags == "absent" else "yes" if int(flags, 16) >> 20 & 1 else "no"
    return [f"  dsdt {field(40, 4, '#x')}", f"  profile {field(45, 1, 'd')}", f"  sci {field(46, 2, 'd')}",
            f"  flags {flags}", f"  hardware-reduced {reduced}", f"  x_dsdt {field(140, 8, '#x')}"]


def structures(data):
    """The places and types and lengths of a MADT's structures."""
    at = MADT_FRONT
    while at < len(data):
        length = data[at + 1] if at + 1 < len(data) else 0
        least = STRUCTURES.get(data[at], (2,))[0]
        if length < max(least, 2) or at + length > len(data):
            raise Fault("E105", at)
        yield at, data[at], length
        at += length


def structure_line(data, at, kind, length):
    """The line of one structure."""
    if kind not in STRUCTURES:
        return f"  other type {kind} length {length}"
    _, word, fields = STRUCTURES[kind]
    shown = [f"{name} {number_at(data, at + place, count):{'#x' if form == 'x' else 'd'}}".strip()
             for name, place, count, form in fields]
    return "  " + " ".join([word] + shown)


def madt_lines(data):
    """The front and the structures of a MADT."""
    if len(data) < MADT_FRONT:
        raise Fault("E101", len(data))
    flags = number_at(data, 40, 4)
    front = [f"  local {number_at(data, 36, 4):#x}", f"  flags {flags:#x}", f"  pcat {'yes' if flags & 1 else 'no'}"]
    return front + [structure_line(data, *found) for found in structures(data)]


def table_lines(data):
    """The lines of one file, or its fault."""
    if data[:8] == RSDP_SIGNATURE:
        return rsdp_lines(data)
    if data[:4] == b"FACS":
        return ["facs left out"]
    read_header(data)
    first = (f'table {escaped(data[:4])} length {len(data)} revision {data[8]} oem "{escaped(data[10:16])}" '
             f'"{escaped(data[16:24])}" {number_at(data, 24, 4):#x}')
    contents = {b"XSDT": xsdt_lines, b"FACP": fadt_lines, b"APIC": madt_lines}.get(data[:4])
    return [first] + (contents(data) if contents else [])


def listing(files):
    """The lines of `tables`: those of the files before a fault stay."""
    found = []
    for number, data in enumerate(files):
        try:
            found += table_lines(data)
        except Fault as fault:
            return found + [Fault(fault.number, number, *fault.places).line()]
    return found
