"""A program as `eel show` and `eel list` print it."""
from __future__ import annotations

import array
import bisect
import difflib
import functools
import os
import re
import subprocess
import sys
import zlib
from collections import defaultdict
from collections.abc import Iterable, Iterator
from dataclasses import dataclass, field
from typing import TYPE_CHECKING

from .dwarf import Elf
from .scripting import EEL, MEMORY, WORDS, note, read_file, read_lines, refuse, wants_built
from .spelling import spelled

if TYPE_CHECKING:
    from .runs import Run

OTHER_MACHINES = {3: 'Intel 386', 8: 'MIPS', 20: 'PowerPC', 21: 'PowerPC 64', 22: 'S/390', 40: 'ARM', 62: 'x86-64', 183: 'AArch64',
                  243: 'RISC-V'}  # by the numbers in ELF headers
Way = tuple[str, int | None, int | None]  # the kind of an edge and its ends
NAMES_HELP = 'names of routines: lines of `nm`, an address and a name'
# Lines of nm: of a symbol that is defined elsewhere or nowhere; and of another, with its size perhaps (-S), whose name may
# have spaces (-C) and its line behind it (-l).
UNDEFINED = re.compile(r'\s*[Uwv]\s')
NAMED = re.compile(r'\s*(?P<address>[0-9a-fA-F]{1,16})\s+(?:(?:[0-9a-fA-F]{8}|[0-9a-fA-F]{16})\s+(?=[A-Za-z]\s))?'
                   r'(?:(?P<kind>[A-Za-z])\s+)?(?P<name>\S(?:[^\t]*[^\s])?)\s*(?:\t.*)?')


def call_eel(*words: str, given: bytes = b'', stdout: int = subprocess.PIPE) -> subprocess.CompletedProcess[bytes]:
    """A call of `eel`."""
    wants_built()
    return subprocess.run([EEL, *words], input=given, stdout=stdout, stderr=subprocess.PIPE)


def status_of(called: subprocess.CompletedProcess[bytes]) -> int:
    """The status with which a script ends where a call of `eel` fails: that of the call."""
    return called.returncode if called.returncode > 0 else MEMORY


def eel(*words: str) -> list[str]:
    """The lines that a call of `eel` prints."""
    called = call_eel(*words)
    if called.returncode:
        told = called.stderr.decode('utf-8', 'replace').strip().removeprefix('eel: ')
        more = f': {explained(words[1], told.split()[-1])}' if 'file fault' in told else ''
        refuse(f'{told or f"eel {words[0]}: status {called.returncode}"}{more}', status_of(called))
    return called.stdout.decode('utf-8', 'replace').splitlines()


def explained(name: str, code: str) -> str:
    """What `eel --faults` says of a file's fault, on one line; what is for another processor has that named."""
    file = read_file(name)
    machine = int.from_bytes(file[18:20], 'big' if file[5:6] == b'\2' else 'little')
    if code in ('3', '4', '7') and machine in OTHER_MACHINES:
        return f'it is for another processor, {OTHER_MACHINES[machine]}; build it for SPARC V8'
    rows, left, right = call_eel('--faults').stdout.decode().splitlines(), [], []
    for row in rows:
        if row[:4].strip() == code or left and row[:4].strip() == '' and row:
            left.append(row[4:61].strip())
            right.append(row[61:].strip())
        elif left:
            break
    return f'it {" ".join(filter(None, left))}; {" ".join(filter(None, right))}'


def demangled(names: Iterable[str]) -> list[str]:
    """The names as C++ writes them, where `c++filt` of the binutils is there."""
    names = list(names)
    if not any(name.startswith('_Z') for name in names):
        return names
    try:
        filtered = subprocess.run(['c++filt'], input='\n'.join(names), capture_output=True, text=True)
    except OSError:
        return names
    lines = filtered.stdout.splitlines()
    return lines if len(lines) == len(names) else names


@dataclass(slots=True)
class Block:
    """A basic block: the address of its first word, how many words it has, and the edges into it and out of it."""
    first: int
    words: int
    into: list[Edge] = field(default_factory=list)
    out: list[Edge] = field(default_factory=list)

    def addresses(self) -> range:
        return range(self.first, self.first + 4 * self.words, 4)

    def last(self) -> int:
        return self.first + 4 * self.words - 4


@functools.cache
def address_in(word: str) -> int | None:
    """An address that `show` prints, or None for what lies outside the text or isn't there."""
    return None if word in ('x', '-', 'off') else int(word.rstrip('+'), 16)


class Edge:
    """An edge from block to block, where None is all that lies outside, and the delay slot that is run on it."""
    __slots__ = 'number', 'kind', 'printed', 'source', 'target', 'slot'

    def __init__(self, number: str, kind: str, source: str, target: str, slot: str) -> None:
        self.number, self.kind, self.printed = int(number), kind, (kind, source, target)
        self.source, self.target, self.slot = address_in(source), address_in(target), address_in(slot)

    def way(self) -> Way:
        """What edges have in common that are told as one, those of a block and of its landed copy."""
        return self.kind, self.source, self.target


NOP = 0x01000000


def is_address(text: str) -> bool:
    """Whether a word is meant as the address of a routine that perhaps a run alone shows: with 0x, or of eight digits."""
    return re.fullmatch('0[xX][0-9a-fA-F]+|[0-9a-fA-F]{8}', text) is not None


def is_call(word: int | None) -> bool:
    """Whether a word is a CALL, or a JMPL that links."""
    return word is not None and (word >> 30 == 1 or word & 0xfff80000 == 0x9fc00000)


def is_transfer(word: int | None) -> bool:
    """Whether a word is a branch, a CALL or a JMPL."""
    return word is not None and (word >> 30 == 1 or word >> 30 == 0 and word >> 22 & 7 == 2
                                 or word >> 30 == 2 and word >> 19 & 63 == 0x38)


def is_return(word: int | None) -> bool:
    """Whether a word is a `ret` or a `retl`."""
    return word in (0x81c7e008, 0x81c3e008, 0x81c7e00c, 0x81c3e00c)


def is_save(word: int | None) -> bool:
    return word is not None and word >> 30 == 2 and word >> 19 & 63 == 0x3c


def is_trap(word: int | None) -> bool:
    """Whether a word is a `ta`."""
    return word is not None and word & 0xfff80000 == 0x91d00000


def is_unimplemented(word: int | None) -> bool:
    """Whether a word is an UNIMP, as stands behind calls that return structs."""
    return word is not None and word >> 30 == 0 and word >> 22 & 7 == 0


class Shown:
    """The routines, blocks, edges and switches of the program of a file, with the names of a file of `nm`, if any."""

    def __init__(self, name: str, names: str | None = None) -> None:
        self.name, self.file, self.merged, self.inner = name, read_file(name), set(), set()
        if self.file[4032:4036] == b'EELN':
            refuse(f'{name} is an edited file; its original is wanted, which `eel restore {name} OUT` writes')
        self.read(eel('show', name))
        self.elf, self.linked = Elf(self.file), None
        self.loaded = [(row[2], row[2] + row[4], row[1]) for row in self.elf.segments() if row[0] == 1]
        if '.debug_info' not in self.elf.headers and '.gnu_debuglink' in self.elf.headers:
            self.linked = self.linked_file()
        self.take_names(self.linked.functions() if self.linked else [])
        self.take_names(self.named(names) if names else [])

    def read(self, printed: list[str]) -> None:
        rows = defaultdict(list)
        for kind, *words in map(str.split, printed):
            rows[kind].append(words)
        names = demangled(row[1] for row in rows['routine'])
        self.routines = {int(row[0], 16): f'at {row[0]}' if own == '-' else own
                         for row, own in zip(rows['routine'], names)}
        self.blocks = {int(row[1], 16): Block(int(row[1], 16), int(row[2])) for row in rows['block']}
        self.edges = [Edge(*row) for row in rows['edge']]
        self.switches = {int(row[0], 16): (int(row[1], 16), int(row[2])) for row in rows['switch']}
        self.starts, self.firsts = sorted(self.routines), sorted(self.blocks)
        for edge in self.edges:
            if edge.source is not None:
                self.blocks[edge.source].out.append(edge)
            if edge.target is not None:
                self.blocks[edge.target].into.append(edge)
        self.holding = [block for first in self.firsts for block in [self.blocks[first]] * self.blocks[first].words]
        self.entry = int.from_bytes(self.file[24:28], 'big')

    def linked_file(self) -> Elf | None:
        """The file that .gnu_debuglink names, where gdb looks for it, if it has the contents that are meant."""
        link = self.elf.section('.gnu_debuglink')
        name, wanted = link.split(b'\0', 1)[0].decode('utf-8', 'replace'), int.from_bytes(link[-4:], 'big')
        folder = os.path.dirname(os.path.abspath(self.name))
        for place in (folder, os.path.join(folder, '.debug'), '/usr/lib/debug' + folder):
            path = os.path.join(place, name)
            if os.path.isfile(path):
                file = read_file(path)
                if zlib.crc32(file) == wanted:
                    return Elf(file)
                note(f'{path} belongs to another program than {self.name}')
        note(f'the debug information of {self.name} is in {name}, which is missing: there are no lines, only functions')
        return None

    def named(self, names: str) -> Iterator[tuple[int, str]]:
        """The routines of a file with lines of `nm`, or of addresses and names."""
        for at, line in enumerate(read_lines(names), 1):
            if not line.strip() or UNDEFINED.match(line):
                continue
            found = NAMED.fullmatch(line)
            if not found:
                refuse(f'{names}: line {at}: no line of nm')
            if (found['kind'] or 'T') in 'tTwWi':
                yield int(found['address'], 16), found['name']

    def take_names(self, pairs: Iterable[tuple[int, str]]) -> None:
        """Gives routines names, and adds those that weren't known where a block begins, behind nops perhaps, or within one."""
        pairs = list(pairs)
        if not pairs:
            return
        firsts = {self.first_instruction(block): first for first, block in self.blocks.items()}
        pairs = [(firsts.get(address, address), name) for address, name in pairs]
        pairs = [(first, name) for first, name in pairs if self.block_of(first)]
        for (address, _), name in zip(pairs, demangled(name for _, name in pairs)):
            if self.routines.get(address, 'at ').startswith('at '):
                self.add_routine(address, name)
        self.starts = sorted(self.routines)

    def add_routine(self, address: int, name: str) -> None:
        """A routine that begins at a word, which may stand in the midst of a block: what ends by a trap isn't left there."""
        self.routines[address] = name
        if address not in self.blocks:
            self.inner.add(address)

    def parts_of(self, block: Block) -> Iterator[tuple[int | None, range]]:
        """The routines whose words a block has, each with the addresses of these."""
        addresses = block.addresses()
        starts = [start for start in addresses[1:] if start in self.inner] if self.inner else []
        for low, high in zip([block.first, *starts], [*starts, addresses.stop]):
            yield self.routine_of(low), range(low, high, 4)

    def first_instruction(self, block: Block) -> int:
        """The address of a block's first word but for nops, which stand between functions."""
        return next((address for address in block.addresses() if self.word(address) != NOP), block.first)

    def entered_at(self, address: int) -> int | None:
        """The routine that is entered by a jump to a word: which begins there, or in its block with nops before it; or None."""
        if address in self.routines:
            return address
        block = self.block_of(address)
        return block.first if block and block.first in self.routines and address == self.first_instruction(block) else None

    def split(self, run: Run) -> None:
        """Begins a routine at each SAVE at which the run landed: programs without symbols have routines where a CALL
        leads, and are called through registers elsewhere. What may still be several routines in one is merged."""
        odd, jumping = set(), set()
        for target, _ in run.landings():
            if self.entered_at(target) is None:
                first = self.first_instruction(self.blocks[target]) if target in self.blocks else target
                if is_save(self.word(first)):
                    self.add_routine(target, f'at {first:08x}')
                elif not self.is_behind_call(target):
                    odd.add(target)
        for jump, _ in run.jumps():
            if not is_call(word := self.word(jump)) and not is_return(word):
                jumping.add(jump)
        self.starts = sorted(self.routines)
        jumping = set(map(self.routine_of, jumping))  # by a table, perhaps
        self.merged = {start for start in map(self.routine_of, odd) if start not in jumping and self.is_unnamed(start)}

    def is_unnamed(self, start: int | None) -> bool:
        return self.name_of(start).startswith(('at ', '?'))

    def call_before(self, address: int) -> int | None:
        """The call from which control comes back to an address, behind an UNIMP perhaps, or None."""
        behind = 12 if is_unimplemented(self.word(address - 4)) else 8
        return address - behind if is_call(self.word(address - behind)) else None

    def is_behind_call(self, address: int) -> bool:
        return self.call_before(address) is not None

    def block_of(self, address: int) -> Block | None:
        """The block that holds a word of the text, or None."""
        number, rest = divmod(address - self.firsts[0], 4)
        return self.holding[number] if not rest and 0 <= number < len(self.holding) else None

    def text(self) -> range:
        """The addresses of the text's words."""
        return range(self.firsts[0], self.blocks[self.firsts[-1]].last() + 4, 4)

    def blocks_between(self, start: int, end: int) -> list[int]:
        """The first words of the blocks between two addresses."""
        return self.firsts[bisect.bisect_left(self.firsts, start):bisect.bisect_left(self.firsts, end)]

    def routine_of(self, address: int) -> int | None:
        """Where the routine that holds a word begins, or None before the first one."""
        at = bisect.bisect(self.starts, address)
        return self.starts[at - 1] if at else None

    def name_of(self, start: int | None) -> str:
        """The name of a routine, and of what stands before the first one."""
        return f'{"?" if start is None else self.routines.get(start, "?")}{" (merged)" if start in self.merged else ""}'

    def place(self, address: int | None) -> str:
        """An address with the routine that holds it and how far behind its beginning that is."""
        if address is None:
            return 'x'
        start = self.routine_of(address)
        behind = '' if start in (None, address) else f'+{address - start:#x}'
        return f'{address:08x} {self.name_of(start)}{behind}'

    def routine_called(self, name: str) -> int:
        """Where the routine of a name or an address in hexadecimal begins; a name goes before an address."""
        found = [start for start, own in self.routines.items() if name == own or own.startswith(name + '(')]
        found = found or [start for start in self.starts if f'{start:08x}' == name.lower().removeprefix('0x').zfill(8)]
        if len(found) != 1:
            near = '' if found else self.names_near(name)
            refuse(f'{self.name} has {"several routines" if found else "no routine"} {name}{near}', WORDS)
        return found[0]

    def names_near(self, name: str) -> str:
        """What may have been meant by a name: copies of it that the compiler made, or names that are nearly it."""
        names = defaultdict(list)
        for own in self.routines.values():
            names[re.split('[.(]', own)[0]].append(own)
        near = names.get(name) or [own for base in difflib.get_close_matches(name, names, 3) for own in names[base]]
        return f'; there is {", ".join(near[:4])}' if near else ''

    def offset_of(self, address: int) -> int | None:
        """Where a word that is loaded at an address stands in the file, or None."""
        for start, end, offset in self.loaded:
            if start <= address <= end - 4:
                return offset + address - start
        return None

    def word(self, address: int) -> int | None:
        """The word of the file that is loaded at an address, or None."""
        number, rest = divmod(address - self.firsts[0], 4)
        if 0 <= number < len(self.words) and not rest:
            return self.words[number]
        offset = self.offset_of(address)
        return None if offset is None else int.from_bytes(self.file[offset:offset + 4], 'big')

    @functools.cached_property
    def words(self) -> array.array[int]:
        """The words of the text, as far as the file has them."""
        offset = self.offset_of(self.firsts[0])
        end = next((end for start, end, _ in self.loaded if start <= self.firsts[0] < end), self.firsts[0])
        size = min(4 * len(self.holding), end - self.firsts[0]) & -4
        words = array.array('I', b'' if offset is None else self.file[offset:offset + size])
        if sys.byteorder == 'little':
            words.byteswap()
        return words

    @functools.cache
    def cases(self) -> set[int | None]:
        """The addresses to which the known switches lead, which needn't be those of blocks."""
        return {self.word(table + 4 * number) for table, count in self.switches.values() for number in range(count)}

    def leads_to(self, block: Block) -> Iterator[int]:
        """The addresses to which control may go from a block, calls that return and switches among them."""
        for edge in block.out:
            if edge.target is not None:
                yield edge.target
            if edge.kind == 'call' or edge.kind == 'out' and self.word(block.last()) >> 25 & 31:  # a jump that links
                yield block.last() + 8
        table, count = self.switches.get(block.last(), (0, 0))
        yield from filter(None, (self.word(table + 4 * number) for number in range(count)))

    def code(self, run: Run | None = None) -> set[int]:
        """The blocks that hold code: those in sections of instructions, or without sections the routines; those to which
        the entry and a run lead; and those to which they do. What is run as a delay slot alone isn't among them."""
        sections, slots = self.elf.code(), {edge.slot for edge in self.edges}
        waiting = [self.entry] + ([] if sections else self.starts)
        waiting += [first for first, times in (run.blocks if run else {}).items() if times]
        waiting += [first for first in self.firsts
                    if first not in slots and any(first in section for section in sections)]
        found = set()
        while waiting:
            block = self.block_of(waiting.pop())
            if block and block.first not in found:
                found.add(block.first)
                waiting.extend(self.leads_to(block))
        return found

    def slot_of(self, block: Block) -> tuple[int | None, list[str]]:
        """The delay slot behind a block, or None, and the kinds of the edges on which it is run."""
        kinds = [edge.kind for edge in block.out if edge.slot is not None]
        return next((edge.slot for edge in block.out if edge.slot is not None), None), kinds

    @functools.cached_property
    def listed(self) -> list[str]:
        """The lines of `eel list`, one for each word of the text."""
        return eel('list', self.name)

    def long_text_at(self, address: int) -> str:
        """The instruction at an address of the text as `eel list` writes it."""
        return self.listed[(address - self.firsts[0]) // 4][9:]

    def text_at(self, address: int) -> str:
        """The same as assemblers write it."""
        return spelled(self.long_text_at(address), self.routines.get)


def share(part: int, whole: int) -> str:
    """A share in per cent."""
    return f'{100 * part / whole if whole else 0:.1f} %'


def figure(count: int, is_sure: bool) -> str:
    """A count, with `about` before one that may be off."""
    return str(count) if is_sure else f'about {count}'


def known(count: int | None) -> str:
    """A count, or what stands for one that isn't known."""
    return '?' if count is None else str(count)
