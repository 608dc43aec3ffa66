"""Prints a program's instructions, routine by routine, with how often a run executed each.

With COUNTS the routines come hottest first, each with its share of all instructions that ran, and on a terminal in
colours: red is hot, and grey never ran. What is no code is left out: the words that stand in no section of
instructions, and to which no routine, no edge and not this run leads. By counts of edges a landing in the midst of a
block counts for the whole block; visits of words are exact. With --source each line of the source stands before its
instructions.

With a trace the last edges of a run are printed, the oldest first, each with the instructions that it led to: that in
its delay slot, and those of its block, of which the last ones may not have been reached. With --routine those that
lead into this routine, within it and out of it are printed.
"""
from __future__ import annotations

import os
import sys
from argparse import Namespace
from collections import defaultdict
from collections.abc import Iterator

from .debug_lines import ROOT_HELP, DebugLines, Line, tell_missing
from .runs import TRACE_HELP, Run, is_trace, run_of, trace_of
from .scripting import Parser, print_lines, read_lines
from .shown import NAMES_HELP, Edge, Shown, share

RED, YELLOW, GREY, PLAIN = '\x1b[1;31m', '\x1b[33m', '\x1b[90m', '\x1b[0m'


def code_words(shown: Shown, run: Run | None) -> dict[int | None, list[int]]:
    """The addresses of a program's code, by routine, in address order."""
    blocks = [shown.blocks[first] for first in shown.code(run)]
    words = {address for block in blocks for address in block.addresses()}
    words |= {slot for slot, _ in map(shown.slot_of, blocks) if slot is not None}
    routines = defaultdict(list)
    for address in sorted(words):
        routines[shown.routine_of(address)].append(address)
    return routines


class Annotation:
    def __init__(self, shown: Shown, run: Run | None, coloured: bool, line_at: dict[int, Line]) -> None:
        self.shown, self.run, self.line_at = shown, run, line_at
        self.most = max(run.words.values()) if run else 0
        self.colours = {'hot': RED, 'warm': YELLOW, 'cold': GREY} if coloured else {}

    def heat(self, count: int) -> str:
        """How hot an instruction is beside the hottest one."""
        return 'cold' if not count else 'hot' if 2 * count >= self.most else 'warm' if 10 * count >= self.most else ''

    def heading(self, start: int | None, words: list[int]) -> str:
        if not self.run:
            return f'{self.shown.name_of(start)}:'
        executed = self.executed(words)
        part = share(executed, self.run.total)
        return f'{self.shown.name_of(start)}: {executed} of {self.run.total} instructions, {part}'

    def executed(self, words: list[int]) -> int:
        return sum(self.run.words[address] for address in words) if self.run else 0

    def line(self, address: int) -> str:
        text = f'{address:08x}  {self.shown.text_at(address)}'
        if not self.run:
            return text
        count = self.run.words[address]
        line = f'{count:>{len(str(self.most))}} {share(count, self.run.total):>7}  {text}'
        colour = self.colours.get(self.heat(count))
        return f'{colour}{line}{PLAIN}' if colour else line

    def lines(self, routines: dict[int | None, list[int]]) -> Iterator[str]:
        """All routines, the hottest first."""
        for start, words in sorted(routines.items(), key=lambda item: -self.executed(item[1])):
            yield self.heading(start, words)
            before = None
            for address in words:
                line = self.line_at.get(address)
                if line and line != before:
                    yield source_line(line)
                before = line
                yield self.line(address)
            yield ''


def source_line(line: Line) -> str:
    """A line of a source, as a comment: patch.py leaves it out."""
    texts = read_lines(line.path)[line.number - 1:line.number] if os.path.isfile(line.path) else []
    return f'# {os.path.basename(line.path)}:{line.number}  {"".join(texts).strip()}'.rstrip()


class Trail:
    """The last edges of a run, with the instructions to which each led."""

    def __init__(self, shown: Shown, numbers: list[int], routine: int | None) -> None:
        self.shown, self.routine = shown, routine
        self.numbers = [number for number in numbers
                        if routine is None or routine in self.routines(shown.edges[number])]

    def routines(self, edge: Edge) -> list[int | None]:
        """The routines from which an edge leads and to which it does."""
        return [self.shown.routine_of(end) for end in (edge.source, edge.target) if end is not None]

    def lines(self) -> Iterator[str]:
        for number in self.numbers:
            edge = self.shown.edges[number]
            yield f'edge {number} {edge.kind}: {self.shown.place(edge.source)} -> {self.shown.place(edge.target)}'
            if edge.slot is not None:
                yield f'  {edge.slot:08x}  {self.shown.text_at(edge.slot)}    (slot)'
            if edge.target is not None:
                for address in self.shown.blocks[edge.target].addresses():
                    yield f'  {address:08x}  {self.shown.text_at(address)}'


def parsed(args: list[str] | None = None) -> Namespace:
    parser = Parser(__doc__)
    parser.add_argument('file', metavar='FILE', help='the program')
    parser.add_argument('counts', metavar='COUNTS', nargs='?', help=TRACE_HELP)
    parser.add_argument('--routine', metavar='NAME', help='this routine alone, by its name or its address')
    parser.add_argument('--names', metavar='NAMES', help=NAMES_HELP)
    parser.add_argument('--source', action='store_true', help='with the lines of the source')
    parser.add_argument('--source-root', metavar='FOLDER', action='append', help=ROOT_HELP)
    return parser.parse_intermixed_args(args)


def printed(shown: Shown, run: Run | None, words: Namespace, debug: DebugLines | None = None) -> Iterator[str]:
    """The lines for a run, if any."""
    routines = code_words(shown, run)
    if words.routine:
        start = shown.routine_called(words.routine)
        routines = {start: routines[start]}
    coloured = sys.stdout is not None and sys.stdout.isatty() and 'NO_COLOR' not in os.environ
    if not words.source and not words.source_root:
        return Annotation(shown, run, coloured, {}).lines(routines)
    line_at = (debug or DebugLines(shown, words.source_root)).line_at
    printed_lines = (line_at.get(address) for addresses in routines.values() for address in addresses)
    tell_missing(sorted({line.path for line in printed_lines if line}))
    return Annotation(shown, run, coloured, line_at).lines(routines)


def main() -> None:
    words = parsed()
    shown = Shown(words.file, words.names)
    if words.counts is not None and is_trace(words.counts):
        routine = shown.routine_called(words.routine) if words.routine else None
        print_lines(Trail(shown, trace_of(shown, words.counts), routine).lines())
        return
    print_lines(printed(shown, run_of(shown, words.counts) if words.counts is not None else None, words))
