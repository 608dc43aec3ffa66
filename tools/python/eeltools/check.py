"""Says whether a program can be edited and run: tools/check.py FILE

It names the float, V9 and other instructions that no run gets past, and the system calls, each with the functions where
they are. What is looked at are the words to which CALLs, branches and switches lead from where the program is entered;
those to which only jumps through registers may lead are told apart.

The status is 0 where nothing stands in the way, 1 where the file can't be edited or run, and 2 where something may stop
its run; else 64 for wrong words, 65 for bad NAMES, 66 for a file that is missing.
"""
from __future__ import annotations

import os
import tempfile
from collections import defaultdict
from collections.abc import Iterable, Iterator

from .scripting import CONTENTS, Parser, print_lines, read_file, refuse, said_if_long
from .shown import NAMES_HELP, Shown, call_eel, explained, is_trap, status_of

REFUSED, MAY_STOP = 1, 2  # statuses
NO_ROOM = 69  # that of `eel`
CALLS = {1: 'exit', 3: 'read', 4: 'write', 17: 'brk'}
G1, EXIT, SYSTEM_CALL = 1, 1, 0x91d02010  # ta 16
FLOAT_LOADS = {0x20, 0x21, 0x23, 0x24, 0x25, 0x27}
COPROCESSOR_LOADS = {0x30, 0x31, 0x33, 0x34, 0x35, 0x37}
V9_LOADS = {0x08, 0x0b, 0x0e, 0x18, 0x1b, 0x1e, 0x22, 0x2d, 0x32, 0x36, 0x3c, 0x3d, 0x3e}
V9_OPERATIONS = {0x09, 0x0d, 0x2b, 0x2c, 0x2d, 0x2e, 0x2f, 0x3e}
PRIVILEGED = {0x29: 'rd %psr', 0x2a: 'rd %wim', 0x2b: 'rd %tbr', 0x31: 'wr %psr', 0x32: 'wr %wim', 0x33: 'wr %tbr',
              0x39: 'rett'}
PRIVILEGED_LOADS = {0x10: 'lda', 0x11: 'lduba', 0x12: 'lduha', 0x13: 'ldda', 0x14: 'sta', 0x15: 'stba', 0x16: 'stha',
                    0x17: 'stda', 0x19: 'ldsba', 0x1a: 'ldsha', 0x1d: 'ldstuba', 0x1f: 'swapa', 0x26: 'std %fq',
                    0x36: 'std %cq'}
TRAP_OF = {'float': 4, 'coprocessor': 36, 'privileged': 3}  # else 2


def sort_of(word: int) -> str | None:
    """Why no run gets past a word that is no instruction here; UNIMP is meant to stop a run."""
    op, op2, op3 = word >> 30, word >> 22 & 7, word >> 19 & 63
    if privileged_name(word):
        return 'privileged'
    if op == 0:
        return {0: None, 1: 'V9', 3: 'V9', 5: 'V9', 6: 'float', 7: 'coprocessor'}.get(op2, 'unknown')
    if op == 2 and op3 in (0x34, 0x35) or op == 3 and op3 in FLOAT_LOADS:
        return 'float'
    if op == 2 and op3 in (0x36, 0x37) or op == 3 and op3 in COPROCESSOR_LOADS:
        return 'coprocessor'
    if op == 2 and (op3 in V9_OPERATIONS or op3 == 0x28) or op == 3 and op3 in V9_LOADS:
        return 'V9'
    return 'unknown'


def privileged_name(word: int) -> str | None:
    """The name of an instruction that only a kernel may carry out, or None."""
    return {2: PRIVILEGED, 3: PRIVILEGED_LOADS}.get(word >> 30, {}).get(word >> 19 & 63)


class Reach:
    """The words to which control leads from the entry, and those of the other code. None leads on behind a system call
    that is known to be `exit`; and where there are sections, words in those of code alone are looked at."""

    def __init__(self, shown: Shown) -> None:
        self.shown, self.sections = shown, shown.elf.code()
        self.exits = {address for address in shown.text()
                      if shown.word(address) == SYSTEM_CALL and self.value(address, G1) == EXIT}
        self.sure = self.words(self.reached([shown.entry]))
        self.maybe = self.words(shown.code()) - self.sure
        self.maybe -= {address for end in self.exits & self.sure for address in self.data_behind(end)}

    def data_behind(self, end: int) -> Iterator[int]:
        """What stands behind a known exit, up to the next routine or what is reached, is taken for data."""
        address = end + 4
        while self.shown.block_of(address) and address not in self.sure and address not in self.shown.routines:
            yield address
            address += 4

    def reached(self, waiting: list[int]) -> set[int]:
        found = set()
        while waiting:
            block = self.shown.block_of(waiting.pop())
            if block and block.first not in found:
                found.add(block.first)
                waiting.extend(() if self.exits.intersection(block.addresses()) else self.shown.leads_to(block))
        return found

    def words(self, firsts: Iterable[int]) -> set[int]:
        found = set()
        for block in (self.shown.blocks[first] for first in firsts):
            exits = sorted(self.exits.intersection(block.addresses()))
            found.update(range(block.first, exits[0] + 4, 4) if exits else block.addresses())
            slot, _ = self.shown.slot_of(block)
            if slot is not None and not exits:
                found.add(slot)
        return {word for word in found if not self.sections or any(word in section for section in self.sections)}

    def function(self, address: int) -> str:
        return self.shown.name_of(self.shown.routine_of(address))

    def is_odd(self, address: int) -> bool:
        """Whether a word is listed as a number, or is a V9 one that has bits set that V8 ignores; or is privileged."""
        return self.shown.long_text_at(address).startswith('.word') or bool(privileged_name(self.shown.word(address) or 0))

    def value(self, address: int, register: int) -> int | list[int] | None:
        """What stands in a register: a number, the register of the routine's argument in a list, or None."""
        for before in range(address - 4, (self.shown.routine_of(address) or address) - 4, -4):
            word = self.shown.word(before)
            if word is not None and writes(word, register):
                if word & 0xc1ffe000 == 0x80102000:  # or %g0,NUMBER
                    return word & 0x1fff
                if word & 0xc1ffffe0 != 0x80100000:  # or %g0,REGISTER
                    return None
                register = word & 31
        return [register]

    def system_calls(self, address: int) -> list[tuple[int | None, str]]:
        """The numbers that a system call may have in %g1, with their functions: by the words before it, or where it has
        its function's argument, by those before that is called."""
        value = self.value(address, G1)
        if not isinstance(value, list):
            return [(value, self.function(address))]
        argument = value[0] & 15  # %i0 was %o0 before the SAVE
        routine = self.shown.blocks.get(self.shown.routine_of(address))
        calls = [self.shown.blocks[edge.source].last() for edge in (routine.into if routine else ())
                 if edge.kind == 'call' and argument >= 8]
        numbers = [(self.value(call + 8, argument), self.function(call)) for call in calls]
        return [(None if isinstance(number, list) else number, function) for number, function in numbers]


def writes(word: int, register: int) -> bool:
    """Whether an instruction writes a register."""
    op, op2, op3 = word >> 30, word >> 22 & 7, word >> 19 & 63
    keeps = {0: op2 != 4, 1: True, 2: op3 in (0x30, 0x3a, 0x3b), 3: op3 in (4, 5, 6, 7)}[op]  # stores, and the like
    return not keeps and word >> 25 & 31 == register


def where(functions: set[str]) -> str:
    """Some functions, by name."""
    names = sorted(functions)
    return ', '.join(names[:4]) + (f' and {len(names) - 4} more' if len(names) > 4 else '')


def stops(reach: Reach, words: set[int]) -> dict[str, list[int]]:
    """What no run gets past, by sorts, with the functions where they are."""
    found = defaultdict(list)
    for address in sorted(words):
        sort = sort_of(reach.shown.word(address)) if reach.is_odd(address) else None
        if sort:
            found[sort].append(address)
    return found


def traps(reach: Reach, words: set[int]) -> tuple[dict[int | None, set[str]], dict[str, set[str]]]:
    """The system calls by number, and the other traps, each with its functions."""
    calls, others = defaultdict(set), defaultdict(set)
    for address in sorted(words):
        word = reach.shown.word(address)
        if word == SYSTEM_CALL:
            for number, function in reach.system_calls(address):
                if number is not None or address in reach.sure:
                    calls[number].add(function)
        elif is_trap(word) and (text := reach.shown.text_at(address)) != 'ta 3' and text.startswith('ta '):
            others[text].add(reach.function(address))
    return calls, others


class Findings:
    """Lines of what was found, and whether something may stop a run."""

    def __init__(self, reach: Reach) -> None:
        self.reach, self.stops_runs = reach, False

    def stop_lines(self) -> Iterator[str]:
        for words, how in ((self.reach.sure, ''), (self.reach.maybe, ', where only jumps through registers may lead')):
            for sort, addresses in sorted(stops(self.reach, words).items()):
                self.stops_runs = True
                functions = where(set(map(self.reach.function, addresses)))
                count = f'{len(addresses)} {sort} instruction{"s" if len(addresses) > 1 else ""}'
                name, trap = privileged_name(self.reach.shown.word(addresses[0])), TRAP_OF.get(sort, 2)
                first = f'{addresses[0]:08x}{f" ({name})" if name else ""}'
                yield f'{count}, the first at {first}, in {functions}{how}: a run ends there by trap {trap}'

    def call_lines(self) -> Iterator[str]:
        calls, others = traps(self.reach, self.reach.sure | self.reach.maybe)
        known = [f'{CALLS[number]} (in {where(calls[number])})' for number in CALLS if number in calls]
        yield f'system calls: {", ".join(known) or "none of those that are known"}'
        for number in sorted(set(calls) - set(CALLS), key=lambda number: number or 0):
            named = 'of a number that is had elsewhere' if number is None else f'{number}, which fails with ENOSYS'
            self.stops_runs |= number is not None
            yield f'a system call {named}, in {where(calls[number])}'
        for text, functions in sorted(others.items()):
            number = text.removeprefix('ta ')
            trap = f'ends by trap {128 + int(number) % 128}' if number.isdecimal() else 'traps'
            yield f'{text}, at which a run {trap}, in {where(functions)}'

    def lines(self) -> Iterator[str]:
        stopping, calls = list(self.stop_lines()), list(self.call_lines())
        yield 'can be run: ' + ('not past what is listed here' if self.stops_runs else 'yes')
        yield from (f'  {line}' for line in stopping + calls)


def refused(name: str) -> str | None:
    """Why a file can't be edited, or None: a profile of it is made. Where that can't be told the script ends."""
    with tempfile.TemporaryDirectory(prefix='eel-check-') as folder:
        made = call_eel('edit', name, os.path.join(folder, 'written'), 'profile')
    told = made.stderr.decode('utf-8', 'replace').strip().removeprefix('eel: ').removeprefix(f'{name}: ')
    if made.returncode not in (0, CONTENTS, NO_ROOM):
        refuse(f'{name}: {told or f"status {made.returncode}"}', status_of(made))
    return told if made.returncode else None


def main() -> int:
    parser = Parser(__doc__)
    parser.add_argument('file', metavar='FILE', help='the program')
    parser.add_argument('--names', metavar='NAMES', help=NAMES_HELP)
    words = parser.parse_args()
    read_file(words.file)
    with said_if_long('it is edited'):
        why = refused(words.file)
    if why:
        more = [f'  {explained(words.file, why.split()[2])}'] if 'file fault' in why else []
        print_lines([f'{words.file}: can be edited: no: {why}', *more])
        return REFUSED
    with said_if_long('its instructions are looked through'):
        shown = Shown(words.file, words.names)
        findings = Findings(Reach(shown))
        lines = list(findings.lines())
    count = sum(block.words for block in shown.blocks.values())
    size = f'{count} words, {len(shown.routines)} routines, {len(shown.edges)} edges'
    print_lines([f'{words.file}: {size}', 'can be edited: yes', *lines])
    return MAY_STOP if findings.stops_runs else 0
