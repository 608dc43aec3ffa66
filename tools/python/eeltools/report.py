"""The report of a profile: functions, loops, lines and kinds of instructions, the hottest first."""
from __future__ import annotations

import os
from collections import Counter
from collections.abc import Callable, Iterable, Iterator
from typing import Any

from .call_costs import POINTER_NAME
from .debug_lines import DebugLines, Line
from .filters import Filters, debug_of_routines
from .instruction_mix import InstructionMix
from .line_counts import LineCounts
from .loops import Loop, loops
from .runs import Run
from .scripting import read_lines
from .shown import Shown, figure, known, share
from .source_counts import SourceCounts, reached

FUNCTIONS, LOOPS, LINES, WIDTH = 20, 5, 10, 60


def table(heading: tuple[Any, ...], rows: Iterable[tuple[Any, ...]]) -> Iterator[str]:
    """A table of lines, each with a share, numbers and a text."""
    yield ''
    *numbers, text = heading
    yield f'{"share":>7} {"instructions":>14} {"".join(f"{number:>{width}} " for number, width in numbers)} {text}'
    for part, count, *told, text in rows:
        columns = ''.join(f'{number:>{width}} ' for number, (_, width) in zip(told, numbers))
        yield f'{part:>7} {count:>14} {columns} {text}'


class Report:
    """The functions, loops and lines of a run, and its instructions by kind; or those that filters take."""

    def __init__(self, shown: Shown, run: Run, debug: DebugLines, filters: Filters = Filters()) -> None:
        self.shown, self.run, self.debug, self.filters, self.paths = shown, run, debug, filters, set()
        self.counts = SourceCounts(shown, run, debug)
        self.unsure = {shown.routine_of(address) for address in run.unsure if run.words[address]}
        self.routines = {start for start in [None, *shown.starts] if filters.takes_function(shown.name_of(start))}

    def share(self, count: int) -> str:
        return share(count, self.run.total)

    def takes(self, routine: int | None, line: Line | None) -> bool:
        return routine in self.routines and self.filters.takes_line(line)

    def takes_word(self, address: int) -> bool:
        is_wanted = self.filters.function is None or self.shown.routine_of(address) in self.routines
        return is_wanted and self.filters.takes_line(self.debug.line_at.get(address))

    def split(self, rows: Iterable[Any], is_wanted: Callable[[Any], bool], count_of: Callable[[Any], Any],
              most: int | None) -> tuple[list[Any], list[Any]]:
        return self.filters.split(rows, is_wanted, count_of, self.run.total, most)

    def left_out(self, count: int, is_sure: bool, columns: int, number: int, what: str) -> Iterator[tuple[Any, ...]]:
        """The row of what filters leave out of a table, if that is anything: so many rows, or parts of rows alone."""
        if count and self.filters.options():
            told = f': {number} {what}{"s" if number > 1 else ""}' if number else ''
            yield self.share(count), figure(count, is_sure), *columns * [''], f'left out{told}'

    def functions(self, most: int | None) -> Iterator[str]:
        costs = self.counts.costs
        ranked = sorted(filter(costs.own.get, costs.own), key=lambda start: (-costs.own[start], start or 0))
        chosen, hidden = self.split(ranked, lambda start: self.takes(start, self.counts.line_of(start)), costs.own.get, most)
        rest, is_sure = sum(map(costs.own.get, hidden)), self.unsure.isdisjoint(hidden)
        rows = [(self.share(costs.own[start]), figure(costs.own[start], start not in self.unsure),
                 self.share(costs.inclusive[start]), known(costs.calls_of(start)), self.shown.name_of(start)) for start in chosen]
        rows += self.left_out(rest, is_sure, 2, len(hidden), 'function')
        if hidden and not self.filters.options():
            rows.append((self.share(rest), figure(rest, is_sure), '', '', f'{len(hidden)} more, which --all prints'))
        if costs.through_pointers():
            rows.append((self.share(costs.through_pointers()), costs.through_pointers(), '', '',
                         f'{POINTER_NAME}: called by several functions, in whose shares with calls it is not'))
        yield from table((('with calls', 11), ('calls', 12), 'function'), rows)

    def loop_place(self, loop: Loop) -> str:
        line = self.debug.line_at.get(loop.head)
        source = f', {os.path.basename(line.path)}:{line.number}' if line else ''
        place = f'at {loop.head:08x}{source}' if loop.head >= 0 else 'from label to label, by jumps through registers'
        return f'{self.shown.name_of(loop.routine)} {place}'

    def loops(self) -> Iterator[str]:
        found = [loop for loop in loops(self.shown, self.run) if loop.own and loop.rounds]
        chosen, hidden = self.split(found, lambda loop: self.takes(loop.routine, self.debug.line_at.get(loop.head)),
                                    lambda loop: loop.own, LOOPS)
        rows = [(self.share(loop.own), figure(loop.own, self.is_sure(loop)), loop.rounds, self.loop_place(loop)) for loop in chosen]
        rows += self.left_out(sum(loop.own for loop in hidden), all(map(self.is_sure, hidden)), 1, len(hidden), 'loop')
        if rows:
            yield from table((('rounds', 12), 'loop'), rows)

    def is_sure(self, loop: Loop) -> bool:
        return not self.run.unsure or all(self.run.unsure.isdisjoint(self.shown.blocks[first].addresses())
                                          for first in loop.blocks if first >= 0)

    def times(self) -> dict[Line, int]:
        """How often each line was reached, in the functions that filters take."""
        if self.filters.function is None:
            return self.counts.lines
        debug = debug_of_routines(self.debug, self.shown.routine_of, self.routines)
        return reached(LineCounts(self.shown, self.run, debug).lines, debug, self.run)

    def lines(self) -> Iterator[str]:
        taken, wanted = Counter(), Counter()
        for address, count in self.run.words.items():
            if count and address in self.debug.line_at:
                line = self.debug.line_at[address]
                taken[line] += count
                wanted[line] += count if self.takes_word(address) else 0
        ranked = sorted(taken, key=lambda line: (-wanted[line], line.path, line.number))
        chosen, hidden = self.split(ranked, wanted.get, wanted.get, LINES)
        rows = list(self.line_rows(chosen, wanted))
        rest = taken.total() - sum(map(wanted.get, chosen))
        rows += self.left_out(rest, self.counts.unsure.isdisjoint(hidden), 1, len(hidden), 'line')
        if rows:
            yield from table((('times', 12), 'line'), rows)
        else:
            yield from ('', 'There are no line tables: compile it with -g to see its lines.')

    def line_rows(self, lines: list[Line], taken: Counter[Line]) -> Iterator[tuple[str, str, str, str]]:
        """The rows of lines, with their texts."""
        self.paths, texts, times = {line.path for line in lines}, {}, self.times()
        for path in filter(os.path.isfile, self.paths):
            texts[path] = read_lines(path)
        for line in lines:
            text = ''.join(texts.get(line.path, [])[line.number - 1:line.number]).strip()
            place, sure = f'{os.path.basename(line.path)}:{line.number}', line not in self.counts.unsure
            text = text if len(text) <= WIDTH else f'{text[:WIDTH]} ..'
            yield (self.share(taken[line]), figure(taken[line], sure), figure(times.get(line, 0), sure),
                   f'{place}  {text}'.rstrip())

    def mix(self) -> Iterator[str]:
        counts = InstructionMix(self.shown, self.run).counts(self.takes_word)
        kinds, hidden = self.split([kind for kind, _ in counts.most_common()], counts.get, counts.get, None)
        rows = [(self.share(counts[kind]), figure(counts[kind], not self.run.unsure), kind) for kind in kinds]
        rest = self.run.total - sum(map(counts.get, kinds))
        rows += self.left_out(rest, not self.run.unsure, 0, len(hidden), 'kind')
        yield from table(('kind',), rows)

    def all(self, most: int | None) -> Iterator[str]:
        yield from self.functions(most)
        yield from self.loops()
        yield from self.lines()
        yield from self.mix()
