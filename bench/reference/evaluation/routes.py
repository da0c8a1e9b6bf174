"""Where interrupts of PCI slots go: a `_PRT`, the links that it names, and the overrides of a MADT."""
from namespace import Link, Package, is_integer

FAULTS = {"E411": "BadEntry", "E412": "NoLink"}


class RouteFault(Exception):
    """A fault of a package of routes, by the line that tells it."""

    def __init__(self, number, element):
        super().__init__(number, element)
        self.line = f"fault {number} {FAULTS[number]} {element}"


class Override:
    """An interrupt source override of a MADT."""

    def __init__(self, bus, source, number, flags):
        self.bus, self.source, self.number, self.flags = bus, source, number, flags

    def structure(self):
        return bytes([2, 10, self.bus, self.source]) + self.number.to_bytes(4, "little") + self.flags.to_bytes(2, "little")


def isa_number(overrides, source):
    """The global interrupt of an ISA interrupt: the first override of bus 0 with that source, else itself."""
    for override in overrides or []:
        if override.bus == 0 and override.source == source:
            return override.number
    return source


def links_of(value):
    """The objects that elements name as their source, in order of first appearance.

    An element that is a package of another length names a link too: all links are read before an element is judged.
    """
    found = []
    for element in value:
        if isinstance(element, Package) and len(element) > 2 and isinstance(element[2], Link):
            target = element[2].target
            if target is not None and target not in found:
                found.append(target)
    return found


def routes(value, items_of_links, overrides):
    """The lines of a `_PRT`; `items_of_links` has the items of each link that has some."""
    return [route(number, element, items_of_links, overrides) for number, element in enumerate(value)]


def route(number, element, items_of_links, overrides):
    if not isinstance(element, Package) or len(element) != 4:
        raise RouteFault("E411", number)
    address, pin, source, index = element
    if not is_integer(address) or not is_integer(pin) or pin > 3 or not is_integer(index):
        raise RouteFault("E411", number)
    if isinstance(source, Link):
        interrupt, mode, polarity = link_interrupt(number, source, items_of_links, overrides)
    elif is_integer(source) and source == 0 and index < 2**32:
        interrupt, mode, polarity = index, "level", "low"
    else:
        raise RouteFault("E411", number)
    return f"{address:#x} {'ABCD'[pin]} {interrupt} {mode} {polarity}"


def link_interrupt(number, source, items_of_links, overrides):
    for item in items_of_links.get(source.target) or []:
        if item.is_interrupt():
            if not item.numbers():
                break
            first = item.numbers()[0]
            mode, polarity, _ = item.signals()
            return first if item.is_large else isa_number(overrides, first), mode, polarity
    raise RouteFault("E412", number)
