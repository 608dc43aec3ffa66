"""Reads the debug information of an ELF32 file: the line tables, functions and their ranges of DWARF 2 to 5, as the
standard has them. Split units (.dwo) are read beside their skeletons."""
from __future__ import annotations

import os
import struct
import zlib
from collections.abc import Iterator
from dataclasses import dataclass, field
from typing import Any

# Tags, attributes and codes by their names in the standard.
SUBPROGRAM, INLINED = 0x2e, 0x1d
NAME, STMT_LIST, LOW_PC, HIGH_PC, COMP_DIR, PRODUCER = 0x03, 0x10, 0x11, 0x12, 0x1b, 0x25
ABSTRACT_ORIGIN, DECL_COLUMN, DECL_FILE, DECL_LINE, SPECIFICATION, ENTRY_PC, RANGES = 0x31, 0x39, 0x3a, 0x3b, 0x47, 0x52, 0x55
LINKAGE_NAME, STR_OFFSETS_BASE, ADDR_BASE, RNGLISTS_BASE, DWO_NAME = 0x6e, 0x72, 0x73, 0x74, 0x76
CALL_FILE, CALL_LINE, CALL_ALL_CALLS = 0x58, 0x59, 0x7a
MIPS_LINKAGE_NAME, GNU_ALL_CALL_SITES, GNU_DWO_NAME = 0x2007, 0x2117, 0x2130
GNU_RANGES_BASE, GNU_ADDR_BASE = 0x2132, 0x2133
# Entries whose children may be functions with code; those of others are left out.
OUTER = {0x03, 0x0b, 0x11, 0x1d, 0x2e, 0x39, 0x3c, 0x4a, 0x02, 0x13, 0x17}

FIXED = {0x01: 4, 0x05: 2, 0x06: 4, 0x07: 8, 0x0b: 1, 0x0c: 1, 0x11: 1, 0x12: 2, 0x13: 4, 0x14: 8, 0x19: 0, 0x1c: 4,
         0x1e: 16, 0x20: 8, 0x21: 0, 0x24: 8, 0x25: 1, 0x26: 2, 0x27: 3, 0x28: 4, 0x29: 1, 0x2a: 2, 0x2b: 3, 0x2c: 4}
OFFSETS = {0x0e, 0x10, 0x17, 0x1d, 0x1f, 0x1f20, 0x1f21}
NUMBERS = {0x0f, 0x15, 0x1a, 0x1b, 0x22, 0x23, 0x1f01, 0x1f02}
STRX, ADDRX = {0x1a, 0x25, 0x26, 0x27, 0x28, 0x1f02}, {0x1b, 0x29, 0x2a, 0x2b, 0x2c, 0x1f01}
ADDRESSES = ADDRX | {0x01}


class Broken(Exception):
    """Debug information that cannot be read."""


# What may be raised where debug information is damaged.
DAMAGED = (Broken, ArithmeticError, AttributeError, LookupError, RecursionError, TypeError, ValueError, struct.error, zlib.error)


class Elf:
    """The sections of a file, by their names."""

    def __init__(self, file: bytes) -> None:
        self.file, self.headers, self.rows = file, {}, []
        if file[:6] != b'\x7fELF\1\2':
            raise Broken('no big-endian ELF32 file')
        shoff, = struct.unpack_from('>I', file, 32)
        size, count, names = struct.unpack_from('>3H', file, 46)
        if not shoff or size != 40 or shoff + 40 * count > len(file) or names >= count:
            return
        self.rows = [struct.unpack_from('>10I', file, shoff + 40 * number) for number in range(count)]
        strings = self.contents(self.rows[names])
        self.headers = {strings[row[0]:].split(b'\0', 1)[0].decode('utf-8', 'replace'): row for row in self.rows}

    def segments(self) -> list[tuple[int, ...]]:
        """The program headers."""
        phoff, count = *struct.unpack_from('>I', self.file, 28), *struct.unpack_from('>H', self.file, 44)
        return [struct.unpack_from('>8I', self.file, phoff + 32 * number) for number in range(count)]

    def code(self) -> list[range]:
        """The addresses of the sections that hold instructions."""
        return [range(row[3], row[3] + row[5]) for row in self.rows if row[2] & 4]

    def functions(self) -> Iterator[tuple[int, str]]:
        """The addresses and names of the functions in the table of symbols."""
        symbols, (*_, link, _, _, size) = self.section('.symtab'), self.headers.get('.symtab', (0,) * 10)
        if size != 16 or link >= len(self.rows):
            return
        names = self.contents(self.rows[link])
        for at in range(0, len(symbols) - 15, 16):
            name, value, _, info = struct.unpack_from('>3IB', symbols, at)
            if info & 15 == 2:
                yield value, names[name:max(names.find(b'\0', name), name)].decode('utf-8', 'replace')

    def contents(self, row: tuple[int, ...]) -> bytes:
        return self.file[row[4]:row[4] + row[5]]

    def section(self, name: str) -> bytes:
        """The bytes of a section, which may be compressed; none where it isn't there."""
        if name not in self.headers or self.headers[name][1] == 8:  # SHT_NOBITS
            return b''
        row = self.headers[name]
        data = self.contents(row)
        if row[2] & 0x800:  # SHF_COMPRESSED
            if struct.unpack_from('>I', data)[0] != 1:
                raise Broken(f'{name} is compressed otherwise than by zlib')
            data = zlib.decompress(data[12:])
        return data


class Reader:
    """Numbers and strings of a section, one after the other."""

    def __init__(self, data: bytes, at: int = 0) -> None:
        self.data, self.at, self.wide = data, at, False

    def number(self, size: int) -> int:
        value = int.from_bytes(self.data[self.at:self.at + size], 'big')
        self.at += size
        if self.at > len(self.data):
            raise Broken('a section is cut off')
        return value

    def offset(self) -> int:
        return self.number(8 if self.wide else 4)

    def length(self) -> int:
        """The length before a unit, which says how wide its offsets are."""
        length = self.number(4)
        self.wide = length == 0xffffffff
        return self.number(8) if self.wide else length

    def uleb(self) -> int:
        if self.at < len(self.data) and self.data[self.at] < 0x80:
            self.at += 1
            return self.data[self.at - 1]
        value = shift = 0
        while True:
            if self.at >= len(self.data):
                raise Broken('a section is cut off')
            byte = self.data[self.at]
            self.at += 1
            value |= (byte & 0x7f) << shift
            shift += 7
            if byte < 0x80:
                return value

    def sleb(self) -> int:
        begun = self.at
        value = self.uleb()
        bits = 7 * (self.at - begun)
        return value - (value >> bits - 1 << bits)

    def string(self) -> str:
        end = self.data.find(b'\0', self.at)
        if end < 0:
            raise Broken('a string is cut off')
        found = self.data[self.at:end]
        self.at = end + 1
        return found.decode('utf-8', 'replace')

    def form(self, form: int, constant: int | None = None) -> Any:
        """The value of an attribute as it is written; a block's is its bytes."""
        if form in FIXED:
            return constant if form == 0x21 else True if form == 0x19 else self.number(FIXED[form])
        if form in OFFSETS:
            return self.offset()
        if form in NUMBERS:
            return self.uleb()
        if form == 0x08:
            return self.string()
        if form == 0x0d:
            return self.sleb()
        if form == 0x16:
            return self.form(self.uleb())
        if form not in (0x03, 0x04, 0x09, 0x0a, 0x18):
            raise Broken(f'the form {form:#x} is not known')
        size = self.number({0x03: 2, 0x04: 4, 0x0a: 1}[form]) if form in (0x03, 0x04, 0x0a) else self.uleb()
        self.at += size
        return self.data[self.at - size:self.at]


# How what stands behind a form of another size than a fixed one is skipped.
LEB, STRING, BLOCK, BLOCK1, BLOCK2, BLOCK4, OTHER = range(-1, -8, -1)
SKIPPED = {0x08: STRING, 0x09: BLOCK, 0x18: BLOCK, 0x0a: BLOCK1, 0x03: BLOCK2, 0x04: BLOCK4, 0x0d: LEB, **dict.fromkeys(NUMBERS, LEB)}


@dataclass
class Abbreviation:
    tag: int
    has_children: bool
    fields: list  # attribute, form, constant
    skips: dict = field(default_factory=dict)  # by whether offsets are wide: sizes and what else is to be skipped

    def steps(self, wide: bool) -> list[int]:
        """What is skipped of an entry: sizes from 0 on, and other parts."""
        if wide not in self.skips:
            steps = [0]
            for _, form, _ in self.fields:
                size = FIXED.get(form, (8 if wide else 4) if form in OFFSETS else SKIPPED.get(form, OTHER))
                if size >= 0 and steps[-1] >= 0:
                    steps[-1] += size
                else:
                    steps.append(size)
            self.skips[wide] = steps
        return self.skips[wide]


@dataclass
class Row:
    """A row of a line table: the place in the source of the words from an address on."""
    address: int
    file: int
    line: int
    column: int
    is_statement: bool


class Entry:
    """An entry of a unit: its attributes, as they are written."""

    def __init__(self, unit: Unit, offset: int, abbreviation: Abbreviation, forms: dict[int, tuple[int, Any]]) -> None:
        self.unit, self.offset, self.abbreviation, self.forms = unit, offset, abbreviation, forms
        self.tag = abbreviation.tag

    def __contains__(self, attribute: int) -> bool:
        return attribute in self.forms

    def get(self, attribute: int, default: Any = None) -> Any:
        """An attribute's value, where strings and addresses are looked up."""
        if attribute not in self.forms:
            return default
        form, value = self.forms[attribute]
        return self.unit.value(form, value)


class LineTable:
    """The files and rows of a unit's line table."""

    def __init__(self, dwarf: Dwarf, at: int) -> None:
        self.dwarf = dwarf
        read = self.read = Reader(dwarf.section('line'), at)
        self.end = read.length() + read.at
        self.version = read.number(2)
        if not 2 <= self.version <= 5:
            raise Broken(f'a line table has version {self.version}')
        if self.version >= 5:
            read.number(2)
        header_size = read.offset()
        self.first = read.at + header_size
        self.least = read.number(1)
        if self.version >= 4:
            read.number(1)
        self.default = bool(read.number(1))
        self.base = read.number(1) - 256 if read.data[read.at] > 127 else read.number(1)
        self.range, self.opcode_base = read.number(1), read.number(1)
        self.lengths = [read.number(1) for _ in range(self.opcode_base - 1)]
        if self.version >= 5:
            self.folders = [row.get(1, '') for row in self.listed()]
            self.files = [(row.get(1, '?'), row.get(2, 0)) for row in self.listed()]
        else:
            self.folders = [''] + list(iter(read.string, ''))
            self.files = [('?', 0)] + [(name, self.old_file()) for name in iter(read.string, '')]

    def old_file(self) -> int:
        folder, _, _ = (self.read.uleb() for _ in range(3))
        return folder

    def listed(self) -> Iterator[dict[int, Any]]:
        """Rows of folders or files, by the contents that they have."""
        formats = [(self.read.uleb(), self.read.uleb()) for _ in range(self.read.number(1))]
        for _ in range(self.read.uleb()):
            yield {kind: self.dwarf.string(form, self.read.form(form)) for kind, form in formats}

    def path(self, number: int, folder: str) -> str:
        """The path of a file by its number, below the unit's folder."""
        name, at = self.files[number] if number < len(self.files) else ('?', 0)
        own = self.folders[at] if at < len(self.folders) else ''
        return os.path.normpath(os.path.join(folder, own, name))

    def sequences(self) -> Iterator[tuple[list[Row], int]]:
        """The rows in address order, each sequence with the address behind its last word."""
        self.read.at = self.first
        while self.read.at < self.end:
            yield LineProgram(self).run()


class LineProgram:
    """The registers of a line table's program, and the rows of one sequence that it makes."""

    def __init__(self, table: LineTable) -> None:
        self.table, self.read, self.rows = table, table.read, []
        self.address, self.file, self.line, self.column, self.is_statement = 0, 1, 1, 0, table.default

    def run(self) -> tuple[list[Row], int]:
        """Carries out opcodes up to the end of the sequence."""
        read = self.read
        while read.at < self.table.end:
            opcode = read.data[read.at]
            read.at += 1
            if opcode >= self.table.opcode_base:
                self.special(opcode - self.table.opcode_base)
            elif opcode:
                self.standard(opcode)
            elif self.ends():
                break
        return self.rows, self.address

    def append(self) -> None:
        self.rows.append(Row(self.address, self.file, self.line, self.column, self.is_statement))

    def special(self, step: int) -> None:
        self.address += step // self.table.range * self.table.least
        self.line += self.table.base + step % self.table.range
        self.append()

    def ends(self) -> bool:
        """An extended opcode: whether it is DW_LNE_end_sequence."""
        size = self.read.uleb()
        behind, opcode = self.read.at + size, self.read.number(1)
        if opcode == 2:  # DW_LNE_set_address
            self.address = self.read.number(size - 1)
        self.read.at = behind
        return opcode == 1

    def standard(self, opcode: int) -> None:
        """The opcodes of a table in the standard, from DW_LNS_copy on."""
        read, table = self.read, self.table
        match opcode:
            case 1: self.append()
            case 2: self.address += read.uleb() * table.least
            case 3: self.line += read.sleb()
            case 4: self.file = read.uleb()
            case 5: self.column = read.uleb()
            case 6: self.is_statement = not self.is_statement
            case 8: self.address += (255 - table.opcode_base) // table.range * table.least
            case 9: self.address += read.number(2)
            case _:
                for _ in range(table.lengths[opcode - 1]):
                    read.uleb()


def behind_part(info: bytes, at: int, part: int) -> int | None:
    """The offset behind a string or a block, or None where it must be read to tell."""
    if part == STRING:
        return info.index(0, at) + 1
    read = Reader(info, at)
    size = read.uleb() if part == BLOCK else read.number({BLOCK1: 1, BLOCK2: 2, BLOCK4: 4}[part]) if part != OTHER else None
    return None if size is None else read.at + size


class Unit:
    """A compilation unit, or its part in a .dwo file, which has the line table and addresses of its skeleton."""

    def __init__(self, dwarf: Dwarf, read: Reader, skeleton: Unit | None = None) -> None:
        self.dwarf, self.skeleton, self.start = dwarf, skeleton, read.at
        self.end = read.length() + read.at
        self.wide, self.version, self.kind = read.wide, read.number(2), 1
        if not 2 <= self.version <= 5:
            raise Broken(f'a unit has version {self.version}')
        if self.version >= 5:
            self.kind, _, abbreviations = read.number(1), read.number(1), read.offset()
            read.at += {4: 8, 5: 8, 2: 8 + (8 if read.wide else 4), 6: 8 + (8 if read.wide else 4)}.get(self.kind, 0)
        else:
            abbreviations, _ = read.offset(), read.number(1)
        self.first, self.abbreviations = read.at, dwarf.abbreviations(abbreviations)
        self.top = self.entry(self.first)[0]
        self.folder = self.attribute(COMP_DIR, '')
        self.own_lines = None

    def attribute(self, attribute: int, default: Any = None) -> Any:
        """An attribute of the unit, or of its skeleton."""
        if attribute in self.top or not self.skeleton:
            return self.top.get(attribute, default)
        return self.skeleton.attribute(attribute, default)

    def lines(self) -> LineTable | None:
        """The unit's line table, or None."""
        if self.skeleton:
            return self.skeleton.lines()
        if self.own_lines is None and STMT_LIST in self.top:
            self.own_lines = self.dwarf.line_table(self.top.get(STMT_LIST))
        return self.own_lines

    def path(self, number: int) -> str:
        folder = self.skeleton.folder if self.skeleton else self.folder
        return self.lines().path(number, folder) if self.lines() else '?'

    def entry(self, at: int) -> tuple[Entry | None, int]:
        """The entry at an offset, or None where one ends a list of children; and the offset behind it."""
        read = Reader(self.dwarf.section('info'), at)
        read.wide = self.wide
        code = read.uleb()
        if code == 0:
            return None, read.at
        if code not in self.abbreviations:
            raise Broken(f'the entry at {at:#x} has no abbreviation')
        abbreviation = self.abbreviations[code]
        forms = {}
        for attribute, form, constant in abbreviation.fields:
            if form == 0x10 and self.version == 2:  # DW_FORM_ref_addr had the size of an address
                form = 0x06
            forms[attribute] = form, read.form(form, constant)
        return Entry(self, at, abbreviation, forms), read.at

    def behind(self, info: bytes, at: int) -> tuple[int, Abbreviation | None]:
        """The offset behind an entry that isn't wanted, and its abbreviation."""
        begun, code, at = at, info[at], at + 1
        if code > 0x7f:
            read = Reader(info, begun)
            code, at = read.uleb(), read.at
        abbreviation = self.abbreviations.get(code)
        if abbreviation is None or self.version == 2:
            return self.entry(begun)[1], abbreviation
        for step in abbreviation.steps(self.wide):
            if step >= 0:
                at += step
            elif step == LEB:
                while info[at] > 0x7f:
                    at += 1
                at += 1
            else:
                at = behind_part(info, at, step)
                if at is None:
                    return self.entry(begun)[1], abbreviation
        return at, abbreviation

    def functions(self) -> Iterator[Entry]:
        """The functions and inlined copies of them, outer ones first."""
        info, at, depth, skipped = self.dwarf.section('info'), self.first, 0, None
        while at < self.end:
            code = info[at]
            abbreviation = self.abbreviations.get(code) if 0 < code < 0x80 else None
            if skipped is None and (abbreviation is None or abbreviation.tag in (SUBPROGRAM, INLINED)):
                entry, at = self.entry(at)
                abbreviation = entry and entry.abbreviation
                if entry and entry.tag in (SUBPROGRAM, INLINED):
                    yield entry
            else:
                at, abbreviation = self.behind(info, at)
            if abbreviation is None:
                depth -= 1
                if skipped is not None and depth <= skipped:
                    skipped = None
                if depth <= 0:
                    return
            elif abbreviation.has_children:
                if skipped is None and abbreviation.tag not in OUTER:
                    skipped = depth
                depth += 1

    def value(self, form: int, value: Any) -> Any:
        if form in ADDRX:
            base = self.attribute(ADDR_BASE, self.attribute(GNU_ADDR_BASE, 0))
            return self.dwarf.address(base + 4 * value)
        if form in STRX:
            return self.dwarf.string_at(self, value)
        if form in (0x11, 0x12, 0x13, 0x14, 0x15):
            return self.start + value
        return self.dwarf.string(form, value)

    def referred(self, offset: int) -> Entry | None:
        """The entry at an offset of the section, which may be another unit's."""
        unit = self if self.start <= offset < self.end else self.dwarf.unit_at(offset)
        return unit.entry(offset)[0]

    def ranges(self, entry: Entry) -> Iterator[tuple[int, int]]:
        """The addresses of an entry's code, from and up to."""
        if RANGES in entry:
            form, value = entry.forms[RANGES]
            yield from self.listed_ranges(form, value)
        elif LOW_PC in entry and HIGH_PC in entry:
            low, high = entry.get(LOW_PC), entry.get(HIGH_PC)
            yield low, high if entry.forms[HIGH_PC][0] in ADDRESSES else low + high

    def listed_ranges(self, form: int, value: int) -> Iterator[tuple[int, int]]:
        base = self.attribute(LOW_PC, 0)
        if self.version < 5:
            start = value + (self.skeleton.attribute(GNU_RANGES_BASE, 0) if self.skeleton else 0)
            yield from old_ranges(Reader(self.dwarf.outer.section('ranges'), start), base)
            return
        if form == 0x23:
            first = self.top.get(RNGLISTS_BASE, 20 if self.wide else 12)
            size = 8 if self.wide else 4
            value = first + Reader(self.dwarf.section('rnglists'), first + size * value).number(size)
        yield from self.new_ranges(Reader(self.dwarf.section('rnglists'), value), base)

    def new_ranges(self, read: Reader, base: int) -> Iterator[tuple[int, int]]:
        indexed = lambda: self.value(0x1b, read.uleb())
        while kind := read.number(1):
            if kind == 1:
                base = indexed()
            elif kind == 2:
                yield indexed(), indexed()
            elif kind == 3:
                low = indexed()
                yield low, low + read.uleb()
            elif kind == 4:
                yield base + read.uleb(), base + read.uleb()
            elif kind == 5:
                base = read.number(4)
            elif kind == 6:
                yield read.number(4), read.number(4)
            elif kind == 7:
                low = read.number(4)
                yield low, low + read.uleb()
            else:
                raise Broken(f'a range has the kind {kind}')


def old_ranges(read: Reader, base: int) -> Iterator[tuple[int, int]]:
    """A list of .debug_ranges."""
    while (pair := (read.number(4), read.number(4))) != (0, 0):
        if pair[0] == 0xffffffff:
            base = pair[1]
        else:
            yield base + pair[0], base + pair[1]


class Dwarf:
    """The debug information of a file, or of a .dwo file behind it."""

    def __init__(self, elf: Elf, outer: Dwarf | None = None) -> None:
        self.elf, self.outer, self.suffix = elf, outer or self, '.dwo' if outer else ''
        self.sections, self.tables, self.line_tables = {}, {}, {}

    def section(self, name: str) -> bytes:
        if name not in self.sections:
            self.sections[name] = self.elf.section(f'.debug_{name}{self.suffix}')
        return self.sections[name]

    def units(self, skeleton: Unit | None = None) -> list[Unit]:
        read, self.found = Reader(self.section('info')), []
        while read.at < len(read.data):
            unit = Unit(self, read, skeleton)
            self.found.append(unit)
            read.at = unit.end
        return self.found

    def unit_at(self, offset: int) -> Unit | None:
        for unit in self.found:
            if unit.start <= offset < unit.end:
                return unit
        raise Broken(f'no unit is at {offset:#x}')

    def abbreviations(self, at: int) -> dict[int, Abbreviation]:
        if at not in self.tables:
            self.tables[at] = dict(self.read_abbreviations(Reader(self.section('abbrev'), at)))
        return self.tables[at]

    @staticmethod
    def read_abbreviations(read: Reader) -> Iterator[tuple[int, Abbreviation]]:
        while code := read.uleb():
            tag, has_children, fields = read.uleb(), bool(read.number(1)), []
            while True:
                attribute, form = read.uleb(), read.uleb()
                if (attribute, form) == (0, 0):
                    break
                fields.append((attribute, form, read.sleb() if form == 0x21 else None))
            yield code, Abbreviation(tag, has_children, fields)

    def line_table(self, at: int) -> LineTable:
        if at not in self.line_tables:
            self.line_tables[at] = LineTable(self.outer, at)
        return self.line_tables[at]

    def address(self, at: int) -> int:
        return Reader(self.outer.section('addr'), at).number(4)

    def string(self, form: int, value: Any) -> Any:
        """A value, where one that says where a string stands is that string."""
        if form == 0x0e:
            return Reader(self.section('str'), value).string()
        return Reader(self.outer.section('line_str'), value).string() if form == 0x1f else value

    def string_at(self, unit: Unit, number: int) -> str:
        """A string by its number in the table of offsets; that of a .dwo file begins with a header since version 5."""
        size = 8 if unit.wide else 4
        base = unit.top.forms.get(STR_OFFSETS_BASE, (0, size * 2 if unit.version >= 5 else 0))[1]
        offset = Reader(self.section('str_offsets'), base + size * number).number(size)
        return Reader(self.section('str'), offset).string()
