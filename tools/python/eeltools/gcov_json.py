"""Lines, functions and branches in the form of `gcov --json-format`, version 1, which gcc has written from version 9 on, for
what reads that. Columns in which functions end aren't known, and are 0."""
from __future__ import annotations

import json
import os
import re
from collections import defaultdict
from collections.abc import Iterator
from typing import Any

from .debug_lines import Line
from .line_counts import has_work
from .source_counts import Called, SourceCounts, branch_ways

FORMAT = '1'


class GcovJson:
    """The object. A part of the code is the body of a function, or a routine that debug information doesn't know."""

    def __init__(self, counts: SourceCounts) -> None:
        self.counts, self.shown, self.run, self.debug = counts, counts.shown, counts.run, counts.debug
        self.words, self.branches = defaultdict(list), defaultdict(list)
        self.part_lines, self.part_blocks = defaultdict(set), defaultdict(set)
        bodies = [function.bodies for function in self.debug.functions.values()]
        self.known = set().union(*bodies)
        self.find_parts()
        for line, ways in branch_ways(counts):
            self.branches[line] += [{'count': count, 'throw': False, 'fallthrough': way == 'untaken'} for way, count in ways.items()]
        self.named = list(zip(bodies + [{start} for start in counts.alone], counts.functions))
        self.symbol_of = {part: called.symbol or called.name for parts, called in self.named for part in parts}
        self.owner = {called.line: called.symbol for _, called in self.named if called.symbol}
        self.owner.update((row.line, self.symbol_of[part]) for row in self.debug.marks
                          if (part := self.part_of(row.address)) in self.symbol_of)

    def find_parts(self) -> None:
        code = self.shown.code(self.run)
        for address in sorted(self.debug.line_at.keys() | self.debug.body_at.keys()):
            part, block = self.part_of(address), self.shown.block_of(address)
            if line := self.debug.line_at.get(address):
                self.words[line].append(address)
                self.part_lines[part].add(line)
            if block and block.first in code:
                self.part_blocks[part].add(block.first)

    def part_of(self, address: int) -> Any:
        body = self.debug.body_at.get(address)
        return body if body in self.known else self.shown.routine_of(address)

    def lines(self) -> Iterator[str]:
        """One line, as gcov prints it."""
        yield json.dumps({'gcc_version': self.compiler(), 'format_version': FORMAT, 'current_working_directory': os.getcwd(),
                          'data_file': self.shown.name, 'files': list(self.files())})

    def compiler(self) -> str:
        """The version of the compiler that most units name, which isn't the assembler."""
        found = [re.search(r'\d+(?:\.\d+)+|$', name)[0] for name in self.debug.producers if not name.startswith('GNU AS')]
        return max(sorted(found), key=found.count, default='')

    def files(self) -> Iterator[dict[str, Any]]:
        functions = defaultdict(list)
        for parts, called in self.named:
            if called.line:
                functions[called.line.path].append(self.function(parts, called))
        for path, counted in self.counts.sources().items():
            yield {'file': path, 'functions': sorted(functions[path], key=lambda function: function['start_line']),
                   'lines': [self.line(Line(path, number), count) for number, count in counted.items()]}

    def function(self, parts: set[Any], called: Called) -> dict[str, Any]:
        """A function goes up to the last line of its own source that has code of it."""
        ends = (line.number for part in parts for line in self.part_lines[part] if line.path == called.line.path)
        blocks = set().union(*(self.part_blocks[part] for part in parts))
        return {'name': called.symbol or called.name, 'demangled_name': called.name, 'start_line': called.line.number,
                'start_column': called.column, 'end_line': max(ends, default=called.line.number), 'end_column': 0,
                'blocks': len(blocks), 'blocks_executed': sum(bool(self.run.blocks[first]) for first in blocks),
                'execution_count': called.calls}

    def line(self, line: Line, count: int) -> dict[str, Any]:
        names = (self.symbol_of.get(self.part_of(address)) for address in self.words[line])
        name = next(filter(None, names), self.owner.get(line))
        has_unexecuted = not count or any(has_work(self.shown.word(address)) and not self.run.times(address)
                                          for address in self.words[line])
        return {'line_number': line.number, 'count': count, 'unexecuted_block': has_unexecuted,
                'branches': self.branches[line], **({'function_name': name} if name else {})}
