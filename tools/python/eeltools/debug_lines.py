"""The lines and functions of a program by its debug information, which may stand in files beside it."""
from __future__ import annotations

import functools
import os
import re
from collections.abc import Iterable
from dataclasses import dataclass, field
from typing import NamedTuple

from . import dwarf
from .dwarf import Dwarf, Entry, Unit
from .scripting import note, read_file, refuse
from .shown import Shown, demangled

ROOT_HELP = 'where sources stand: OLD=NEW for those whose path begins with OLD, or a folder below which each stands by its ' \
            'whole path or by the end of it; may be given several times'
OPTIMISED = 'was optimised: a line whose instructions were moved or joined may have the count of another'


class Line(NamedTuple):
    """A line of a source."""
    path: str
    number: int


@dataclass
class Row:
    """A row of a line table: the place in the source of the words from an address up to another."""
    address: int
    end: int
    line: Line
    column: int
    marks: bool  # where a statement begins, though its instructions may stand elsewhere
    last: int = 0  # where the rows of the same line end that come behind it without a mark


@dataclass
class Copy:
    """A copy of a function by inlining: where it is entered, if that is said and else its lowest address; its words; the
    line of the call in whose place it stands, if that is said; and its offset, which is behind those of outer copies."""
    entry: int
    words: set[int]
    is_said: bool
    called: Line | None = None
    offset: int = 0


@dataclass
class Function:
    """A function where it was declared, with the addresses at which its code begins, its inlined copies, and the keys by
    which `body_at` names its code and theirs."""
    name: str
    line: Line
    symbol: str
    column: int = 0
    starts: list[int] = field(default_factory=list)
    copies: list = field(default_factory=list)
    bodies: set = field(default_factory=set)


def marks_statements(rows: list[Row]) -> bool:
    """Whether rows mark where statements begin, also where no word of them stands, as in gcc's optimised code. clang's
    don't: it marks a row where its line is another than that of the row before, and so no test of a loop."""
    empty = any(row.marks and row.address == row.end for row in rows[:-1])
    return empty and not all(row.marks for row in rows)


def is_plain(producer: str) -> bool:
    """Whether a producer tells its options, and among them no level above -O0."""
    levels = re.findall(r' -O(\w*)', producer)
    return ' -' in producer and levels[-1:] in ([], ['0'])


def below(path: str, roots: list[str] | None) -> str:
    """Where a source stands, by what is said of that: its path with another beginning, or below a folder."""
    for root in roots or ():
        old, equals, new = root.partition('=')
        if equals and not os.path.isdir(root):
            if f'{path}/'.startswith(old.rstrip('/') + '/'):
                return os.path.join(new, path[len(old):].lstrip('/')) if path != old else new
            continue
        parts = path.strip('/').split('/')
        for at in range(len(parts)):
            if os.path.isfile(found := os.path.join(root, *parts[at:])):
                return found
    folders = [root for root in roots or () if '=' not in root or os.path.isdir(root)]
    return os.path.join(folders[0], path.lstrip('/')) if folders else path


def tell_missing(paths: Iterable[str]) -> None:
    """Says which sources aren't there."""
    for number, path in enumerate(path for path in paths if not os.path.isfile(path)):
        note(f'{path} is not there, so that its lines have no text{"" if number else "; --source-root says where it is"}')


def described(entry: Entry) -> Entry:
    """The entry that has a function's name: its own, or the one to which it refers, of another unit perhaps."""
    for attribute in (dwarf.ABSTRACT_ORIGIN, dwarf.SPECIFICATION):
        if attribute in entry and dwarf.NAME not in entry:
            return described(entry.unit.referred(entry.get(attribute)))
    return entry


def copy_of(entry: Entry, lowest: int, words: set[int]) -> Copy:
    """An inlined copy; where it is entered is an address, or how far behind its lowest address that is."""
    if dwarf.ENTRY_PC not in entry:
        return Copy(lowest, words, False)
    form, _ = entry.forms[dwarf.ENTRY_PC]
    address = entry.get(dwarf.ENTRY_PC)
    return Copy(address if form in dwarf.ADDRESSES else lowest + address, words, True)


class DebugLines:
    """All lines and functions of a program that have code. It may be said where sources stand."""

    def __init__(self, shown: Shown, roots: list[str] | None = None) -> None:
        self.place_of = functools.cache(lambda path: below(path, roots))
        self.shown, self.marks, self.line_at, self.body_at, self.functions = shown, [], {}, {}, {}
        self.is_optimised, self.missing, self.producers = False, [], []
        self.start, self.end = shown.text().start, shown.text().stop
        try:
            self.read(dwarf.Dwarf(shown.linked or shown.elf))
        except dwarf.DAMAGED as error:
            refuse(f'{shown.name}: its debug information cannot be read: {error}')
        if self.missing:
            note(f'{self.missing[0]} is missing: functions are those of symbols, and inlined copies are not told apart')

    def path(self, unit: Unit, number: int) -> str:
        """The path of a source, by its number in a unit."""
        return self.place_of(unit.path(number))

    def words(self, low: int, high: int) -> range:
        """The addresses of the text's words in a range."""
        return range(max(low, self.start) & -4, min(high, self.end), 4)

    def read(self, debug: Dwarf) -> None:
        for unit in debug.units():
            parts = list(self.parts(unit))
            is_unoptimised = any(is_plain(part.attribute(dwarf.PRODUCER, '')) for part in parts)
            for rows, end in unit.lines().sequences() if unit.lines() and unit.kind not in (2, 6) else ():
                self.add_rows(unit, rows, end, is_unoptimised)
            for part in parts:
                self.add_bodies(part)
        names = demangled(function.name for function in self.functions.values())
        for function, name in zip(self.functions.values(), names):
            function.name = name

    def parts(self, unit: Unit) -> list[Unit]:
        """The unit itself, or those of the .dwo file that it names, beside the objects or beside the program."""
        name = unit.top.get(dwarf.DWO_NAME) or unit.top.get(dwarf.GNU_DWO_NAME)
        if not name:
            return [unit]
        beside = os.path.join(os.path.dirname(os.path.abspath(self.shown.name)), os.path.basename(name))
        for path in (os.path.join(unit.folder, name), beside):
            if os.path.isfile(path):
                return dwarf.Dwarf(dwarf.Elf(read_file(path)), unit.dwarf).units(unit)
        self.missing.append(name)
        return []

    def add_rows(self, unit: Unit, rows: list[dwarf.Row], end: int, is_unoptimised: bool) -> None:
        """Each word has the last row at or before its address; line 0 says that there is none. Where nothing was optimised
        no statement went elsewhere, and marks tell of lines without words alone."""
        paths = {number: self.path(unit, number) for number in {row.file for row in rows}}
        lines = {(file, number): Line(paths[file], number) for file, number in {(row.file, row.line) for row in rows}}
        ends = [row.address for row in rows[1:]] + [end]
        rows = [Row(row.address, behind, lines[row.file, row.line], row.column, row.is_statement)
                for row, behind in zip(rows, ends)]
        for row, behind in zip(reversed(rows), [None, *reversed(rows)]):
            goes_on = behind is not None and behind.line == row.line and not behind.marks
            row.last = behind.last if goes_on else row.end
        if marks_statements(rows):
            own = {row.line for row in rows if row.end > row.address} if is_unoptimised else ()
            self.marks += [row for row in rows if row.marks and row.line.number and row.line not in own]
        for row in rows:
            if row.line.number:
                self.line_at.update((address, row.line) for address in self.words(row.address, row.end))

    def add_bodies(self, unit: Unit) -> None:
        """Inner bodies come after those in which they lie, and take their words; what the linker left out has none."""
        producer = unit.attribute(dwarf.PRODUCER, '')
        self.producers.append(producer)
        self.is_optimised |= ' -O' in producer and not is_plain(producer)
        for entry in unit.functions():
            if not producer.startswith('GNU'):  # clang doesn't tell its options
                self.is_optimised |= dwarf.CALL_ALL_CALLS in entry or dwarf.GNU_ALL_CALL_SITES in entry
            ranges = list(unit.ranges(entry))
            words = {address for low, high in ranges for address in self.words(low, high)}
            if words:
                self.body_at.update(dict.fromkeys(words, (id(unit), entry.offset)))
                self.add_function(unit, entry, ranges, words)

    def line_of(self, entry: Entry, file: int, number: int) -> Line | None:
        """A place in a source that attributes name, or None. File 0 is none before version 5."""
        file, number = entry.get(file), entry.get(number)
        if not number or file is None or not file and entry.unit.version < 5 or not entry.unit.lines():
            return None
        return Line(self.path(entry.unit, file), number)

    def add_function(self, unit: Unit, entry: Entry, ranges: list[tuple[int, int]], words: set[int]) -> None:
        named = described(entry)
        line = self.line_of(named, dwarf.DECL_FILE, dwarf.DECL_LINE)
        if not line:
            return
        name = named.get(dwarf.LINKAGE_NAME) or named.get(dwarf.MIPS_LINKAGE_NAME) or named.get(dwarf.NAME, '?')
        column = named.get(dwarf.DECL_COLUMN) or 0
        function = self.functions.setdefault((line, name), Function(name, line, name, column))
        function.bodies.add((id(unit), entry.offset))
        if entry.tag == dwarf.SUBPROGRAM:
            function.starts.append(ranges[0][0])
        else:
            copy = copy_of(entry, min(ranges)[0], words)
            copy.called, copy.offset = self.line_of(entry, dwarf.CALL_FILE, dwarf.CALL_LINE), entry.offset
            function.copies.append(copy)
