"""Prints how often a run reached each line of a program's sources.

The program must be the original that was edited, with debug information (gcc -g or clang -g). Lines are printed as gcov
prints them: `count: line: text`, `#####` where never, and `-` where there is no code. A program without line tables
gets its functions alone. By visits, calls and branches are worked out from how often instructions ran.
"""
from __future__ import annotations

import functools
import os
from argparse import Namespace
from collections import Counter, defaultdict
from collections.abc import Iterable, Iterator
from dataclasses import dataclass
from typing import Any

from .call_costs import CallCosts
from .callgrind import Callgrind
from .debug_lines import OPTIMISED, ROOT_HELP, DebugLines, Function, Line, tell_missing
from .folded import Folded
from .line_counts import LineCounts
from .runs import RUN_HELP, Run, run_of
from .scripting import Parser, note, print_lines, read_lines, refuse
from .shown import NAMES_HELP, Shown, figure

INLINED_HELP = 'with --callgrind: tell copies by inlining as functions, which are called where they stand'


@dataclass
class Called:
    """A function or routine, where it stands, and how often it was called."""
    name: str
    line: Line | None
    calls: int
    is_known: bool = True  # else so often its first instruction ran
    symbol: str = ''  # if that is another name
    column: int = 0


class SourceCounts:
    """How often a run reached lines, functions and branches."""

    def __init__(self, shown: Shown, run: Run, debug: DebugLines) -> None:
        self.shown, self.debug, self.run = shown, debug, run
        self.costs = CallCosts(shown, run)
        counted = LineCounts(shown, run, debug)
        self.lines, self.unsure = reached(counted.lines, debug, run), counted.unsure

    @functools.cached_property
    def declared(self) -> dict[int, Line]:
        return {start: function.line for function in self.debug.functions.values() for start in function.starts}

    def line_of(self, start: int | None) -> Line | None:
        """Where a routine is declared, or begins."""
        return self.declared.get(start) or self.debug.line_at.get(start)

    def entries(self, address: int, words: set[int]) -> int:
        """How often an inlined copy was entered: by the edges that lead to its entry from words that aren't its own."""
        block = self.shown.blocks.get(address)
        if block is None:
            return self.run.times(address)
        return sum(self.run.edge(edge) for edge in block.into
                   if edge.source is None or self.shown.blocks[edge.source].last() not in words)

    def calls(self, function: Function) -> int:
        copies = sum(self.entries(copy.entry, copy.words) for copy in function.copies)
        calls = (self.costs.calls_of(start) if start in self.shown.routines else None for start in function.starts)
        return copies + sum(self.run.times(start) if count is None else count for start, count in zip(function.starts, calls))

    @functools.cached_property
    def functions(self) -> list[Called]:
        """The functions of the debug information, and the routines that it doesn't know, which stand alone."""
        functions = [Called(function.name, function.line, self.calls(function), symbol=function.symbol, column=function.column)
                     for function in self.debug.functions.values()]
        return functions + list(map(self.routine, self.alone))

    @functools.cached_property
    def alone(self) -> list[int]:
        """The routines that the debug information doesn't know."""
        known = {start for function in self.debug.functions.values() for start in function.starts}
        code = self.shown.code()
        return [start for start in self.shown.starts if start not in known and self.shown.block_of(start).first in code]

    def routine(self, start: int | None) -> Called:
        calls, line = self.costs.calls_of(start), self.debug.line_at.get(start)
        return Called(self.shown.name_of(start), line, self.run.times(start) if calls is None else calls, calls is not None)

    def sources(self) -> dict[str, dict[int, int]]:
        """The counts of each source, by numbers of lines."""
        sources = defaultdict(dict)
        for line, count in sorted(self.lines.items(), key=lambda item: (item[0].path, item[0].number)):
            sources[line.path][line.number] = count
        return sources


def reached(lines: dict[Line, int], debug: DebugLines, run: Run) -> dict[Line, int]:
    """All lines; where a function's code has none of the line that names it, that one is reached by its calls."""
    named = {function.line for function in debug.functions.values()}
    known = {(line, debug.body_at.get(address)) for address, line in debug.line_at.items() if line in named}
    known |= {(row.line, debug.body_at.get(row.address)) for row in debug.marks if row.line in named}
    for function in debug.functions.values():
        for entered in function.starts + [copy.entry for copy in function.copies if copy.is_said]:
            if (function.line, debug.body_at.get(entered)) not in known:
                lines[function.line] = lines.get(function.line, 0) + run.times(entered)
    return lines


def is_newer(path: str, program: str) -> bool:
    """Whether a source was changed since the program was built."""
    return os.path.isfile(path) and os.path.getmtime(path) > os.path.getmtime(program)


def tell_limits(counts: SourceCounts, program: str, paths: Iterable[str]) -> None:
    """Says once what may be wrong with lines, and which of the sources aren't there whose lines are printed."""
    for path in filter(lambda path: is_newer(path, program), counts.sources()):
        note(f'{path} is newer than {program}: its lines may have moved')
    tell_missing(paths)
    if counts.debug.is_optimised:
        note(f'{program} {OPTIMISED}')


def gcov_lines(counts: SourceCounts) -> Iterator[str]:
    for path, counted in counts.sources().items():
        yield f'{"-":>9}:{0:>5}:Source:{path}'
        texts = read_lines(path) if os.path.isfile(path) else []
        for number in range(1, max(len(texts), *counted) + 1):
            sure = Line(path, number) not in counts.unsure
            count = figure(counted[number], sure) if counted.get(number) else '#####' if number in counted else '-'
            yield f'{count:>9}:{number:>5}:{texts[number - 1] if number <= len(texts) else "/*EOF*/"}'


def function_lines(counts: SourceCounts) -> Iterator[str]:
    for function in sorted(counts.functions, key=lambda function: -function.calls):
        calls = function.calls or '#####' if function.is_known else '?'
        yield f'{calls:>9}: function {function.name}'


def branch_ways(counts: SourceCounts) -> Iterator[tuple[Line, Counter[Any]]]:
    """The branches with a condition and the known switches, each with its line and how often each way was gone, by its kind
    or its case, where that is known."""
    for block in counts.shown.blocks.values():
        line = counts.debug.line_at.get(block.last())
        ways = Counter()
        for edge in block.out:
            ways[edge.target if edge.kind == 'case' else edge.kind] += counts.run.edge(edge)
        is_switch = any(edge.kind == 'case' for edge in block.out)
        if is_switch:
            del ways['out']  # of its landed copy
        if line and (is_switch or {'taken', 'untaken'} <= ways.keys()) and all(map(counts.run.is_known, block.out)):
            yield line, ways


def lcov_functions(functions: list[Called]) -> Iterator[str]:
    yield from (f'FN:{function.line.number},{function.name}' for function in functions)
    yield from (f'FNDA:{function.calls},{function.name}' for function in functions)
    yield f'FNF:{len(functions)}'
    yield f'FNH:{sum(function.calls > 0 for function in functions)}'


def lcov_branches(found: dict[Line, list[list[int]]], path: str) -> Iterator[str]:
    ways = []
    for line in sorted((line for line in found if line.path == path), key=lambda line: line.number):
        for block, counts in enumerate(found[line]):
            for way, count in enumerate(counts):
                yield f'BRDA:{line.number},{block},{way},{count if any(counts) else "-"}'
                ways.append(count)
    yield f'BRF:{len(ways)}'
    yield f'BRH:{sum(count > 0 for count in ways)}'


def lcov_lines(counts: SourceCounts) -> Iterator[str]:
    """A record of each source, as `geninfo` of lcov writes them."""
    found = defaultdict(list)
    for line, ways in branch_ways(counts):
        found[line].append(list(ways.values()))
    yield 'TN:'
    for path, counted in counts.sources().items():
        yield f'SF:{path}'
        own = [function for function in counts.functions if function.line and function.line.path == path]
        yield from lcov_functions(own)
        yield from lcov_branches(found, path)
        yield from (f'DA:{number},{count}' for number, count in counted.items())
        yield f'LF:{len(counted)}'
        yield f'LH:{sum(count > 0 for count in counted.values())}'
        yield 'end_of_record'


def printed(shown: Shown, run: Run, words: Namespace, debug: DebugLines | None = None) -> Iterator[str]:
    """The lines for a run."""
    counts = SourceCounts(shown, run, debug or DebugLines(shown, words.source_root))
    if words.callgrind:
        return Callgrind(counts, words.inlined).lines()
    if words.folded:
        return Folded(counts.costs, run.total).lines()
    if not counts.lines:
        if words.lcov:
            refuse(f'{words.file} has no line tables: compile it with -g')
        note(f'{words.file} has no line tables (compile it with -g), so that only functions are printed')
        return function_lines(counts)
    tell_limits(counts, words.file, counts.sources())
    return lcov_lines(counts) if words.lcov else gcov_lines(counts)


def parsed(args: list[str] | None = None) -> Namespace:
    parser = Parser(__doc__)
    parser.add_argument('file', metavar='FILE', help='the program')
    parser.add_argument('counts', metavar='COUNTS', help=RUN_HELP)
    form = parser.add_mutually_exclusive_group()
    form.add_argument('--lcov', action='store_true', help='print a tracefile, of which genhtml makes pages')
    form.add_argument('--callgrind', action='store_true', help='print a profile for callgrind_annotate and KCachegrind')
    form.add_argument('--folded', action='store_true', help='print stacks of calls with their costs, for flame graphs')
    parser.add_argument('--inlined', action='store_true', help=INLINED_HELP)
    parser.add_argument('--names', metavar='NAMES', help=NAMES_HELP)
    parser.add_argument('--source-root', metavar='FOLDER', action='append', help=ROOT_HELP)
    words = parser.parse_args(args)
    if words.inlined and not words.callgrind:
        parser.error('--inlined wants --callgrind')
    return words


def main() -> None:
    words = parsed()
    shown = Shown(words.file, words.names)
    print_lines(printed(shown, run_of(shown, words.counts), words))
