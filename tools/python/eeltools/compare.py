"""Compares two profiles: tools/compare.py FILE COUNTS [NEW] COUNTS

It prints what differs between two runs of the program FILE, or between one of it and one of the program NEW, as it is
after a change: its functions, or with --lines its lines, or with --instructions the instructions of ten functions, each
time with what they took before and after and the difference, the greatest first.

Functions are told apart by their names; a compiler's parts and copies of one, such as `.isra.0`, `.constprop.0` and
`.part.0`, count for it. Lines are paired by their sources' names and their numbers; where both sources can be read and
are two files, as by --source-root and --new-source-root, by what `diff` finds in common. Instructions are paired by
their addresses in one program, and in two by what their functions have in common.
"""
from __future__ import annotations

import os
import re
from argparse import Namespace
from collections import Counter
from collections.abc import Iterable, Iterator, Mapping
from difflib import SequenceMatcher

from .annotate import code_words
from .debug_lines import ROOT_HELP, DebugLines, Line
from .runs import RUN_HELP, run_of
from .scripting import WORDS, Parser, print_lines, read_lines, refuse
from .shown import NAMES_HELP, Shown
from .source_counts import SourceCounts

Row = tuple[int, int, int | None, int | None, str]  # counts before and after, other numbers before and after, and a text
FUNCTIONS = 10
PARTS = r'\.(?:isra|constprop|part|cold|lto_priv|localalias|llvm)(?:\.\d+)*'
COPY = re.compile(rf'(?:{PARTS})+$|(?: \[clone {PARTS}\])+$')
PART = re.compile(r'\.(?:part|cold)\b')
ADDRESS = re.compile(r'(?<=%hi\()0x\w+|(?<= )0x\w{8}$')


def function_of(name: str) -> str:
    """The function of which a routine is a part or a copy by the compiler, by its name."""
    return COPY.sub('', name)


class Side:
    """One of the two profiles."""

    def __init__(self, name: str, counts: str, names: str | None, root: list[str] | None, inlined: bool) -> None:
        self.shown = Shown(name, names)
        self.run = run_of(self.shown, counts)
        self.counts = SourceCounts(self.shown, self.run, DebugLines(self.shown, root))
        self.names = {start: function_of(self.shown.name_of(start)) for start in [None, *self.shown.starts]}
        self.words = {address: self.names[start] for start, words in code_words(self.shown, self.run).items()
                      for address in words}
        self.inlined = inlined
        if inlined:
            self.name_copies()

    def name_copies(self) -> None:
        """Each word counts for the innermost function that was inlined there."""
        copies = [(copy, function_of(function.name)) for function in self.counts.debug.functions.values()
                  for copy in function.copies]
        for copy, name in sorted(copies, key=lambda pair: pair[0].offset):
            self.words.update(dict.fromkeys(copy.words & self.words.keys(), name))

    def functions(self) -> tuple[Counter[str], Mapping[str, int | None]]:
        """How many instructions each function took, and how often it was called."""
        taken = Counter()
        for address, name in self.words.items():
            taken[name] += self.run.words[address]
        return taken, self.calls_with_copies() if self.inlined else self.calls()

    def calls_with_copies(self) -> Counter[str]:
        calls = Counter()
        for function in self.counts.functions:
            calls[function_of(function.name)] += function.calls
        return calls

    def calls(self) -> Mapping[str, int | None]:
        """A function's calls of its own parts aren't counted. Where those of a routine aren't known, its function's are None."""
        calls, costs = Counter(), self.counts.costs
        counts = {start: costs.calls_of(start) for start in costs.entered.keys() & self.names.keys()}
        for start, count in counts.items():
            calls[self.names[start]] += count or 0
        for call in costs.calls:
            if PART.search(self.shown.name_of(call.callee)) and self.names.get(call.caller) == self.names[call.callee]:
                calls[self.names[call.callee]] -= call.count
        return calls | {self.names[start]: None for start, count in counts.items() if count is None}

    def lines(self) -> tuple[Counter[Line], Counter[Line]]:
        """How many instructions each line took, and how often it was reached."""
        taken, times = Counter(), Counter(self.counts.lines)
        for address, line in self.counts.debug.line_at.items():
            taken[line] += self.run.words.get(address, 0)
        return taken, times

    def instructions(self, function: str) -> list[int]:
        """The addresses of a function's words, in their order."""
        return sorted(address for address, name in self.words.items() if name == function)


def signed(number: int) -> str:
    return f'{number:+d}' if number else '0'


def row(before: int | None, after: int | None, more: str, text: str) -> str:
    """A line of a table: `-` stands for what isn't there."""
    shown = ['-' if count is None else str(count) for count in (before, after)]
    return f'{shown[0]:>14} {shown[1]:>14} {signed((after or 0) - (before or 0)):>14} {more:>12}  {text}'


def table(heading: tuple[str, str], rows: Iterable[Row], told: Iterable[str]) -> Iterator[str]:
    """Rows of counts before and after, of another number before and after, and of a text; the greatest differences first."""
    rows = [found for found in rows if found[0] != found[1] or found[2] != found[3]]
    yield f'{"before":>14} {"after":>14} {"difference":>14} {heading[0]:>12}  {heading[1]}'
    yield from told
    for before, after, old, new, text in sorted(rows, key=lambda found: (-abs(found[1] - found[0]), found[4])):
        yield row(before, after, '?' if None in (old, new) else signed(new - old), text)


def total(before: Side, after: Side) -> Iterator[str]:
    """The line for all instructions."""
    old, new = before.run.total, after.run.total
    yield row(old, new, '', f'all{f", {100 * (new - old) / old:+.1f} %" if old else ""}')


def function_lines(before: Side, after: Side) -> Iterator[str]:
    (taken, calls), (new_taken, new_calls) = before.functions(), after.functions()
    rows = [(taken[name], new_taken[name], calls.get(name, 0), new_calls.get(name, 0), name) for name in {*taken, *new_taken}]
    return table(('calls', 'function'), rows, total(before, after))


def texts_of(path: str) -> list[str]:
    return read_lines(path) if os.path.isfile(path) else []


def paired_sources(old: set[str], new: set[str]) -> dict[str, str]:
    """Paths of the same source: the same, or the only ones of their name."""
    pairs = {path: path for path in old & new}
    rest, names = {}, Counter(os.path.basename(path) for path in [*(old - new), *(new - old)])
    for path in new - old:
        rest[os.path.basename(path)] = path
    pairs.update((path, rest[name]) for path in old - new
                 if (name := os.path.basename(path)) in rest and names[name] == 2)
    return pairs


def paired_numbers(old: list[str], new: list[str]) -> dict[int, int]:
    """The new numbers of lines by the old ones, where two sources are alike, or differ in as many lines."""
    pairs = {}
    for _, low, high, new_low, new_high in SequenceMatcher(None, old, new, autojunk=False).get_opcodes():
        if high - low == new_high - new_low:
            pairs.update(zip(range(low + 1, high + 1), range(new_low + 1, new_high + 1)))
    return pairs


def paired_lines(old: set[Line], new: set[Line]) -> Iterator[tuple[Line, Line]]:
    """The new line of each old one that has one."""
    pairs, numbers = paired_sources({line.path for line in old}, {line.path for line in new}), {}
    for path, other in pairs.items():
        texts = texts_of(path), texts_of(other)
        numbers[path] = paired_numbers(*texts) if path != other and all(texts) else None
    for line in old:
        number = line.number if numbers.get(line.path) is None else numbers[line.path].get(line.number)
        if line.path in pairs and number:
            yield line, line._replace(path=pairs[line.path], number=number)


def line_lines(before: Side, after: Side) -> Iterator[str]:
    (taken, times), (new_taken, new_times) = before.lines(), after.lines()
    old, new = {*taken, *times}, {*new_taken, *new_times}
    if not old or not new:
        refuse('there are no line tables: compile both programs with -g')
    pairs = {line: other for line, other in paired_lines(old, new)}
    rows = [(taken[line], new_taken[pairs[line]], times[line], new_times[pairs[line]], place(line, pairs[line]))
            for line in pairs]
    rows += [(taken[line], 0, times[line], 0, place(line, None)) for line in old - pairs.keys()]
    rows += [(0, new_taken[line], 0, new_times[line], place(None, line)) for line in new - {*pairs.values()}]
    return table(('times', 'line'), rows, total(before, after))


def place(line: Line | None, new: Line | None) -> str:
    """A line with its text; where it has another number now, or is in one program alone, that is said."""
    shown = new or line
    text = ''.join(texts_of(shown.path)[shown.number - 1:shown.number]).strip()
    moved = f' (was {line.number})' if line and new and line.number != new.number else ''
    alone = ' (before)' if new is None else ' (after)' if line is None else ''
    return f'{os.path.basename(shown.path)}:{shown.number}{moved}{alone}  {text}'.rstrip()


def aligned(before: Side, after: Side, function: str) -> list[tuple[int | None, int | None]]:
    """The addresses of a function's instructions, paired; None stands for what one program alone has."""
    old, new = before.instructions(function), after.instructions(function)
    if before.shown.file == after.shown.file:
        return [(address, address) for address in old]
    kinds = [[ADDRESS.sub('', side.shown.text_at(address)) for address in own] for side, own in ((before, old), (after, new))]
    pairs = []
    for kind, low, high, new_low, new_high in SequenceMatcher(None, *kinds, autojunk=False).get_opcodes():
        if kind == 'equal':
            pairs += zip(old[low:high], new[new_low:new_high])
        else:
            pairs += [(address, None) for address in old[low:high]] + [(None, address) for address in new[new_low:new_high]]
    return pairs


def instruction_lines(before: Side, after: Side, asked: str | None) -> Iterator[str]:
    """The instructions whose counts differ, of one function or of those that differ most."""
    (taken, _), (new_taken, _) = before.functions(), after.functions()
    names = {*taken, *new_taken}
    if asked and asked not in names:
        refuse(f'there is no function {asked}', WORDS)
    differing = sorted((name for name in names if taken[name] != new_taken[name]),
                       key=lambda name: (-abs(new_taken[name] - taken[name]), name))
    for name in [asked] if asked else differing[:FUNCTIONS]:
        yield f'{name}: {taken[name]} before, {new_taken[name]} after, {signed(new_taken[name] - taken[name])}'
        for old, new in aligned(before, after, name):
            counts = [None if address is None else side.run.words[address] for side, address in ((before, old), (after, new))]
            if counts[0] != counts[1] and any(counts):
                text = before.shown.text_at(old) if new is None else after.shown.text_at(new)
                shown = (old,) if before.shown.file == after.shown.file else (old, new)
                where = '  '.join(8 * ' ' if address is None else f'{address:08x}' for address in shown)
                yield row(*counts, '', f'{where}  {text}')
        yield ''


def parsed() -> Namespace:
    parser = Parser(__doc__, '%(prog)s [OPTION..] FILE COUNTS [NEW] COUNTS')
    parser.add_argument('file', metavar='FILE', help='the program')
    parser.add_argument('counts', metavar='COUNTS', help=RUN_HELP)
    parser.add_argument('new', metavar='NEW', nargs='?', help='the program after a change, else the same')
    parser.add_argument('new_counts', metavar='COUNTS', help='the same of the other run')
    form = parser.add_mutually_exclusive_group()
    form.add_argument('--lines', action='store_true', help='lines of the sources, in place of functions')
    form.add_argument('--instructions', action='store_true', help=f'instructions of the {FUNCTIONS} functions that differ most')
    parser.add_argument('--function', metavar='NAME', help='with --instructions: those of this function')
    parser.add_argument('--inlined', action='store_true', help='count copies by inlining for the function that was inlined')
    parser.add_argument('--names', metavar='NAMES', help=NAMES_HELP)
    parser.add_argument('--new-names', metavar='NAMES', help='the same for NEW')
    parser.add_argument('--source-root', metavar='FOLDER', action='append', help=ROOT_HELP)
    parser.add_argument('--new-source-root', metavar='FOLDER', action='append', help='the same for NEW')
    words = parser.parse_args()
    if words.function and not words.instructions:
        parser.error('--function wants --instructions')
    if (words.new_names or words.new_source_root) and not words.new:
        parser.error('--new-names and --new-source-root want NEW')
    return words


def main() -> None:
    words = parsed()
    before = Side(words.file, words.counts, words.names, words.source_root, words.inlined)
    names, root = (words.new_names, words.new_source_root) if words.new else (words.names, words.source_root)
    after = Side(words.new or words.file, words.new_counts, names, root, words.inlined)
    if words.instructions:
        print_lines(instruction_lines(before, after, words.function))
    else:
        print_lines(line_lines(before, after) if words.lines else function_lines(before, after))
