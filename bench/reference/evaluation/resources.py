"""The items of a resource template, and their printed lines."""

SMALL_LENGTHS = {0x04: (2, 3), 0x08: (7,), 0x09: (3,), 0x0F: (1,)}
LARGE_LENGTHS = {0x05: 17, 0x06: 9, 0x08: 13, 0x07: 23, 0x0A: 43, 0x09: 2}
FAULTS = {"E401": "Truncated", "E402": "BadItem", "E403": "NoEnd"}


class ResourceFault(Exception):
    """A fault of a template, by the line that tells it."""

    def __init__(self, number, at):
        super().__init__(number, at)
        self.line = f"fault {number} {FAULTS[number]} {at}"


class Item:
    """An item of a template: its tag and its bytes."""

    def __init__(self, tag, data):
        self.tag = tag
        self.data = data
        self.is_large = tag >= 0x80
        self.name = tag & 0x7F if self.is_large else tag >> 3

    def number(self, place, size):
        return int.from_bytes(self.data[place:place + size], "little")

    def is_interrupt(self):
        return self.name == (0x09 if self.is_large else 0x04)

    def numbers(self):
        """The interrupts of an interrupt item."""
        if self.is_large:
            return [self.number(2 + 4 * i, 4) for i in range(self.data[1])]
        return [i for i in range(16) if self.number(0, 2) >> i & 1]

    def signals(self):
        """Mode, polarity and sharing of an interrupt item."""
        if self.is_large:
            edge, low, shared = (self.data[0] >> bit & 1 for bit in (1, 2, 3))
        elif len(self.data) < 3:
            edge, low, shared = 1, 0, 0
        else:
            edge, low, shared = (self.data[2] >> bit & 1 for bit in (0, 3, 4))
        return "edge" if edge else "level", "low" if low else "high", "shared" if shared else "exclusive"

    def line(self):
        if self.is_interrupt():
            word = "interrupt" if self.is_large else "irq"
            numbers = ",".join(map(str, self.numbers())) or "-"
            return " ".join([word, numbers, *self.signals()])
        shape = (LARGE_LINES if self.is_large else SMALL_LINES).get(self.name)
        return shape(self) if shape else f"other {self.tag:#x} length {len(self.data)}"

    def address_space(self, word, size):
        _, least, most, _, length = (self.number(3 + size * i, size) for i in range(5))
        return f"{word} space type {self.data[0]} {least:#x} {most:#x} length {length}"


SMALL_LINES = {
    0x08: lambda item: (f"io {item.number(1, 2):#x} {item.number(3, 2):#x} align {item.number(5, 1)} "
                        f"length {item.number(6, 1)}"),
    0x09: lambda item: f"fixed-io {item.number(0, 2):#x} length {item.number(2, 1)}",
    0x0F: lambda item: "end",
}
LARGE_LINES = {
    0x05: lambda item: (f"memory {item.number(1, 4):#x} {item.number(5, 4):#x} align {item.number(9, 4)} "
                        f"length {item.number(13, 4)}"),
    0x06: lambda item: f"fixed-memory {item.number(1, 4):#x} length {item.number(5, 4)}",
    0x08: lambda item: item.address_space("word", 2),
    0x07: lambda item: item.address_space("dword", 4),
    0x0A: lambda item: item.address_space("qword", 8),
}


def items(data):
    """The items up to the first end tag; what follows it counts for nothing."""
    found, at = [], 0
    while True:
        if at >= len(data):
            raise ResourceFault("E403", at)
        item, end = item_at(data, at)
        found.append(item)
        if not item.is_large and item.name == 0x0F:
            return found
        at = end


def item_at(data, at):
    tag = data[at]
    if tag < 0x80:
        start, length = at + 1, tag & 7
        if length not in SMALL_LENGTHS.get(tag >> 3, range(8)):
            raise ResourceFault("E402", at)
    else:
        if at + 3 > len(data):
            raise ResourceFault("E401", at)
        start, length = at + 3, int.from_bytes(data[at + 1:at + 3], "little")
        if length < LARGE_LENGTHS.get(tag & 0x7F, 0):
            raise ResourceFault("E402", at)
    if start + length > len(data):
        raise ResourceFault("E401", at)
    item = Item(tag, data[start:start + length])
    # The numbers of an extended interrupt are counted by its second byte, so they are asked once it is all there.
    if tag == 0x89 and length < 2 + 4 * item.data[1]:
        raise ResourceFault("E402", at)
    return item, start + length
