#!/usr/bin/env python3
"""Resource templates as iasl compiles and disassembles them, as rows of the program (apt-get install acpica-tools).

    bench/resources.py          says whether the rows are what iasl gives
    bench/resources.py --write  writes them

The templates of bench/resources.asl are compiled, and the table is disassembled with `iasl -d`. What that prints of each template is
put into acpicheck's form, line by line; with the template's bytes it is a row of crates/acpicheck/rows/compiled.rows. So the numbers,
the modes and the order of items that the rows want are iasl's. Of descriptors that acpicheck does not tell apart iasl
prints more; their rows have the tag and the length that the ACPI specification gives them.
"""
import pathlib
import re
import subprocess
import sys
import tempfile

HERE = pathlib.Path(__file__).resolve().parent
ROWS = HERE.parent / 'crates/acpicheck/rows/compiled.rows'
HEAD = '''# Resource templates as iasl 20200925 compiles them, with what `iasl -d` says of them in the form of acpicheck's lines.
# bench/resources.py makes these rows from bench/resources.asl.

growths
'''
WIDTH = 118
MODES = {'Edge': 'edge', 'Level': 'level', 'ActiveHigh': 'high', 'ActiveLow': 'low', 'Shared': 'shared', 'Exclusive': 'exclusive'}
SPACES = {'Memory': 0, 'IO': 1, 'BusNumber': 2}
# descriptors with no line of their own, by tag and length (ACPI 6.5, tables 6.27 and 6.40)
OTHERS = {
    'DMA': (0x2A, 2),
    'StartDependentFn': (0x31, 1),
    'StartDependentFnNoPri': (0x30, 0),
    'EndDependentFn': (0x38, 0),
    'Memory24': (0x81, 9),
}


def numbers(text):
    return [int(word, 0) for word in re.findall(r'\b(?:0x[0-9A-Fa-f]+|[0-9]+)\b', text)]


def listed(text):
    return ','.join(map(str, numbers(text))) or '-'


def modes(words):
    return ' '.join(MODES[word] for word in words if word in MODES)


def line(macro, arguments, items):
    """The line of a descriptor that iasl wrote as a macro."""
    words = re.findall(r'\w+', arguments)
    found = numbers(re.sub(r'"[^"]*"', '', arguments))
    space = re.fullmatch(r'(Word|DWord|QWord)(Memory|IO|BusNumber|Space)', macro)
    if macro == 'IRQ':
        return f'irq {listed(items)} {modes(words)}'
    if macro == 'IRQNoFlags':
        return f'irq {listed(items)} edge high exclusive'
    if macro == 'Interrupt':
        return f'interrupt {listed(items)} {modes(words)}'
    if macro in ('IO', 'Memory32'):
        least, greatest, alignment, length = found
        name = 'io' if macro == 'IO' else 'memory'
        return f'{name} {least:#x} {greatest:#x} align {alignment} length {length}'
    if macro in ('FixedIO', 'Memory32Fixed'):
        base, length = found
        name = 'fixed-io' if macro == 'FixedIO' else 'fixed-memory'
        return f'{name} {base:#x} length {length}'
    if space:
        kind = found[0] if space[2] == 'Space' else SPACES[space[2]]
        rest = found[2:] if space[2] == 'Space' else found
        _, least, greatest, _, length = rest[:5]
        return f'{space[1].lower()} space type {kind} {least:#x} {greatest:#x} length {length}'
    if macro == 'VendorShort':
        return f'other {0x70 + len(numbers(items)):#x} length {len(numbers(items))}'
    if macro == 'VendorLong':
        return f'other 0x84 length {len(numbers(items))}'
    tag, length = OTHERS[macro]
    return f'other {tag:#x} length {length}'


def told(disassembly):
    """The lines of each template, by its name."""
    text = re.sub(r'//[^\n]*|/\*.*?\*/', '', disassembly, flags=re.S)
    parts = re.split(r'Name \((\w{4}), ResourceTemplate \(\)', text)[1:]
    macro = re.compile(r'(\w+)\s*\(([^()]*)\)\s*(\{[^{}]*\})?')
    return {name: [line(*match.groups('')) for match in macro.finditer(body)] + ['end']
            for name, body in zip(parts[::2], parts[1::2])}


def package_end(table, at):
    lead = table[at]
    more = lead >> 6
    size = lead & (0x3F if more == 0 else 0x0F)
    for i in range(more):
        size |= table[at + 1 + i] << (4 + 8 * i)
    return at + 1 + more, at + size


def template(table, name):
    """The bytes of the buffer that a Name has."""
    at = table.index(b'\x08' + name.encode() + b'\x11') + 6
    first, end = package_end(table, at)
    skipped = {0x0A: 2, 0x0B: 3, 0x0C: 5}[table[first]]
    return table[first + skipped:end]


def rows(folder):
    source = folder / 'resources.asl'
    source.write_text((HERE / 'resources.asl').read_text())
    subprocess.run(['iasl', '-p', folder / 'table', source], check=True, stdout=subprocess.DEVNULL, stderr=subprocess.DEVNULL)
    subprocess.run(['iasl', '-d', folder / 'table.aml'], check=True, stdout=subprocess.DEVNULL, stderr=subprocess.DEVNULL)
    table = (folder / 'table.aml').read_bytes()
    for name, lines in told((folder / 'table.dsl').read_text()).items():
        yield template(table, name), lines


def row(data, lines):
    """A row of resources, over as many lines as it takes."""
    out = ['resources']
    for word in f'{data.hex(" ").upper()} | {"; ".join(lines)}'.split(' '):
        if len(out[-1]) + 1 + len(word) > WIDTH:
            out[-1] += ' \\'
            out.append(f'    {word}')
        else:
            out[-1] += f' {word}'
    return ''.join(f'{line}\n' for line in out)


def written(found):
    return HEAD + ''.join(f'\n{row(data, lines)}' for data, lines in found)


def main():
    with tempfile.TemporaryDirectory() as folder:
        found = list(rows(pathlib.Path(folder)))
    if sys.argv[1:] == ['--write']:
        ROWS.write_text(written(found))
    elif ROWS.read_text() != written(found):
        sys.exit(f'{ROWS.name} is not what iasl gives')
    items = sum(len(lines) for _, lines in found)
    print(f'{len(found)} templates, {items} items')


if __name__ == '__main__':
    main()
