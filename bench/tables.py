#!/usr/bin/env python3
"""Writes tables whose reading and evaluation is timed: tables.py KIND COUNT FILE.

| kind | the table |
|---|---|
| adds | a method MAIN of COUNT statements `Add (Local0, One, Local0)` behind a first Store, and a Return |
| ones | a method MAIN of COUNT statements One |
| again | the same, and behind them an If (Zero) in which MAIN calls itself |
| nested | a method MAIN of COUNT statements, each a chain of 62 LNot, one within the other, round a One |
| deepest | COUNT methods, the first of them MAIN, each of which returns what it calls the next with: 62 calls, one within the other, of a method that returns its argument |
| deepest_ifs | COUNT methods, the first of them MAIN, each of which calls the next within 63 Ifs, one within the other |
| package | a method MAIN that returns a package of COUNT elements One |
| methods | COUNT methods that return One, named in order: MAAA, MAAB and so on |
| chosen | a method MAIN that makes COUNT names of its own by Name |
| methods_chosen | COUNT methods that return One, and behind them such a method MAIN |
| uses_chosen | the same methods, and a method MAIN that calls each of them once |
| names | COUNT names of Zero at the root, and a method MAIN |
| device_names | the same names in one Device |
| aliases | COUNT aliases of MAIN |
| fields | a region, and COUNT field lists of one field each |
| deep_names | COUNT names in a scope that is 10,000 segments deep |
| searched | COUNT aliases of MAIN, which is at the root, in a scope that is 1,000 segments deep |
| searched_past | the same aliases, where beside each device of that scope stands one that has a MAIN of its own |
| searched_behind | the same, where that one is made first |
| searched_untold | a method MAIN of COUNT statements that are one name, in a scope that is 1,000 segments deep, where at each segment an External spells a path through that name and tells nothing of it |
| externals | COUNT Externals of methods of one argument at the root, and a body that calls each |
| deep_externals | COUNT such Externals in a scope that is 10,000 segments deep |
| long_externals | COUNT such Externals at the root, of names of 255 segments, the first of which differ |
| routes | 1,000 link devices, whose `_CRS` is a method that returns an interrupt, and a `_PRT` of COUNT elements that name them in turn |
| routes_last | the same, where each element names the last link, but for the first ones, which name each once |

The names of `chosen`, `methods_chosen` and `uses_chosen` are those that whoever writes a table would choose against a
reader that keeps names in a hash map of the kit: its default hasher has a fixed seed, and these names all begin their
search in the same part of the map. A reader that keeps them in order does not notice.
"""
import itertools
import sys

FIRST = "ABCDEFGHIJKLMNOPQRSTUVWXYZ_"
OTHER = FIRST + "0123456789"
BITS_64 = (1 << 64) - 1


def folded_multiply(a, b):
    product = a * b
    return product & BITS_64 ^ product >> 64


def fed(state, number, size):
    """The hasher's state behind a number of `size` bytes, 1 or 8."""
    spread = number * 0x10101 if size == 1 else number
    return folded_multiply(state ^ spread, 0x9E37_79B9_7F4A_7C15 ^ 2 * size)


def hashes():
    """Each name of four characters and its hash in the kit's maps: four bytes are fed behind their number."""
    start = fed(0x243F_6A88_85A3_08D3, 4, 8)
    one = [(a, fed(start, ord(a), 1)) for a in FIRST]
    two = [(n + a, fed(h, ord(a), 1)) for n, h in one for a in OTHER]
    three = [(n + a, fed(h, ord(a), 1)) for n, h in two for a in OTHER]
    for name, state in three:
        for a in OTHER:
            full = fed(state, ord(a), 1)
            yield (full ^ full >> 32) & 0xFFFF_FFFF, name + a


def chosen_names(count):
    """So many names, but MAIN, whose search begins at the lowest groups of a map that holds as many."""
    groups = 1
    while 9 * groups < count:
        groups *= 2
    ordered = sorted((h % groups, h, name) for h, name in hashes() if name != "MAIN")
    if count > len(ordered):
        raise ValueError(f"at most {len(ordered)} names")
    return [name.encode() for _, _, name in ordered[:count]]


def names_in_order(count):
    """So many names that begin with M."""
    if count > len(OTHER) ** 3:
        raise ValueError(f"at most {len(OTHER) ** 3} names")
    for i in range(count):
        yield ("M" + "".join(OTHER[i // len(OTHER) ** k % len(OTHER)] for k in (2, 1, 0))).encode()


def pkg_length(inside):
    """The PkgLength of a package with these bytes behind it, its own bytes counted."""
    for size, limit in ((1, 1 << 6), (2, 1 << 12), (3, 1 << 20), (4, 1 << 28)):
        value = len(inside) + size
        if value < limit:
            if size == 1:
                return bytes([value])
            rest = value >> 4
            return bytes([(size - 1) << 6 | value & 15] + [rest >> 8 * i & 255 for i in range(size - 1)])
    raise ValueError("too long")


def package(opcode, inside):
    return opcode + pkg_length(inside) + inside


def method(name, body):
    return package(b"\x14", name + b"\x00" + body)


def methods(names):
    return b"".join(method(name, b"\xa4\x01") for name in names)


def name_of(segments):
    """A relative path of 2 to 255 segments."""
    if len(segments) == 1:
        return segments[0]
    return b"\x2f" + bytes([len(segments)]) + b"".join(segments)


def in_scope(depth, inside):
    """Definitions in a chain of so many devices, which is opened by names of at most 255 segments."""
    while depth > 0:
        step = min(depth, 255)
        inside = package(b"\x10", name_of([b"DEEP"] * step) + inside)
        depth -= step
    return inside


def deep(depth, inside, beside=b""):
    """A chain of so many devices, one in the other, each behind some terms, and definitions in the last of them."""
    made, at = b"", 0
    while at < depth:
        step = min(depth - at, 60 - at // 255)
        devices = b""
        for _ in range(step):
            devices = package(b"\x5b\x82", b"DEEP" + beside + devices)
        made += in_scope(at, devices)
        at += step
    return made + in_scope(depth, inside)


def deep_beside(depth, inside, beside_first=False):
    """Such a chain, beside each device of which stands one that has a MAIN of its own, and the definitions in its last."""
    pair = [package(b"\x5b\x82", b"DEEP"), package(b"\x5b\x82", b"SIDE" + b"\x08MAIN\x00")]
    if beside_first:
        pair.reverse()
    return b"".join(in_scope(at, b"".join(pair)) for at in range(depth)) + in_scope(depth, inside)


def other_names(count):
    """So many names that begin with N, so that none of them is MAIN."""
    return [b"N" + name[1:] for name in names_in_order(count)]


def zeros(count):
    return b"".join(b"\x08" + name + b"\x00" for name in other_names(count))


MAIN = method(b"MAIN", b"\xa4\x01")


def dsdt(body):
    length = 36 + len(body)
    head = b"DSDT" + length.to_bytes(4, "little") + b"\x02\x00" + b"ACPICKBENCH001" + (1).to_bytes(4, "little") + b"BNCH" + (1).to_bytes(4, "little")
    table = bytearray(head + body)
    table[9] = -sum(table) % 256
    return bytes(table)


def deepest(names):
    """Methods that each return PASS (PASS (.. (the next method))), 62 times, and the last one so of One."""
    inner = [*names[1:], b"\x01"]
    calls = b"".join(method(name, b"\xa4" + b"PASS" * 62 + next) for name, next in zip(names, inner))
    return package(b"\x14", b"PASS\x01\xa4\x68") + calls


def deepest_ifs(names):
    """Methods that each return One behind If (One) {If (One) {.. {the next method}}}, 63 Ifs deep, and the last one so round One."""
    calls = b""
    for name, inside in zip(names, [*names[1:], b"\x01"]):
        for _ in range(63):
            inside = package(b"\xa0", b"\x01" + inside)
        calls += method(name, inside + b"\xa4\x01")
    return calls


def link(name):
    """A device with a method _CRS that returns a buffer of an interrupt, level triggered and active low."""
    buffer = package(b"\x11", b"\x0a\x06" + bytes.fromhex("230002187900"))
    return package(b"\x5b\x82", name + method(b"_CRS", b"\xa4" + buffer))


def routes(names, named):
    """Links of these names, and a _PRT of an element for each name."""
    elements = b"".join(package(b"\x12", b"\x04\x0c" + (i << 16 | 0xFFFF).to_bytes(4, "little") + b"\x00" + name + b"\x00") for i, name in enumerate(named))
    prt = b"\x08_PRT" + package(b"\x13", b"\x0b" + len(named).to_bytes(2, "little") + elements)
    return b"".join(link(name) for name in names) + prt


def body_of(kind, count):
    if kind == "adds":
        return method(b"MAIN", b"\x70\x00\x60" + b"\x72\x60\x01\x60" * count + b"\xa4\x60")
    if kind == "ones":
        return method(b"MAIN", b"\x01" * count)
    if kind == "again":
        return method(b"MAIN", b"\x01" * count + package(b"\xa0", b"\x00MAIN"))
    if kind == "nested":
        return method(b"MAIN", (b"\x92" * 62 + b"\x01") * count)
    if kind == "deepest":
        return deepest([b"MAIN", *names_in_order(count - 1)])
    if kind == "deepest_ifs":
        return deepest_ifs([b"MAIN", *names_in_order(count - 1)])
    if kind == "package":
        return method(b"MAIN", b"\xa4" + package(b"\x13", b"\x0b" + count.to_bytes(2, "little") + b"\x01" * count))
    if kind == "methods":
        return methods(names_in_order(count))
    if kind == "chosen":
        return method(b"MAIN", b"".join(b"\x08" + name + b"\x00" for name in chosen_names(count)))
    if kind == "methods_chosen":
        return methods([*chosen_names(count), b"MAIN"])
    if kind == "uses_chosen":
        names = chosen_names(count)
        return methods(names) + method(b"MAIN", b"".join(names))
    if kind == "names":
        return MAIN + zeros(count)
    if kind == "device_names":
        return MAIN + package(b"\x5b\x82", b"DEV0" + zeros(count))
    if kind == "aliases":
        return MAIN + b"".join(b"\x06MAIN" + name for name in other_names(count))
    if kind == "fields":
        region = b"\x5b\x80REG0\x01\x0a\x60\x0a\x04"
        return MAIN + region + b"".join(package(b"\x5b\x81", b"REG0\x01" + name + b"\x08") for name in other_names(count))
    if kind == "deep_names":
        return MAIN + deep(10_000, zeros(count))
    if kind == "searched":
        return MAIN + deep(1_000, b"".join(b"\x06MAIN" + name for name in other_names(count)))
    if kind == "searched_past":
        return MAIN + deep_beside(1_000, b"".join(b"\x06MAIN" + name for name in other_names(count)))
    if kind == "searched_behind":
        return MAIN + deep_beside(1_000, b"".join(b"\x06MAIN" + name for name in other_names(count)), True)
    if kind == "searched_untold":
        body = method(b"BODY", b"\xa4\x01" + b"NONE" * count)
        return deep(1_000, body + b"\x06BODY\\MAIN", b"\x15\x2eNONETOLD\x08\x01")
    if kind == "externals":
        names = other_names(count)
        return b"".join(b"\x15" + name + b"\x08\x01" for name in names) + method(b"MAIN", b"".join(name + b"\x01" for name in names))
    if kind == "deep_externals":
        return MAIN + deep(10_000, b"".join(b"\x15" + name + b"\x08\x01" for name in other_names(count)))
    if kind == "long_externals":
        return MAIN + b"".join(b"\x15" + name_of([name] + [b"DEEP"] * 254) + b"\x08\x01" for name in other_names(count))
    if kind in ("routes", "routes_last"):
        names = other_names(1_000)
        turn = itertools.cycle(names if kind == "routes" else names[-1:])
        return routes(names, list(itertools.islice(itertools.chain(names, turn), count)))
    raise ValueError(kind)


if __name__ == "__main__":
    kind, count, file = sys.argv[1], int(sys.argv[2]), sys.argv[3]
    with open(file, "wb") as out:
        out.write(dsdt(body_of(kind, count)))
