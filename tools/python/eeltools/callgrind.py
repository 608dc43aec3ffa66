"""A profile as `callgrind` of valgrind writes it: what ran in each function, by events, its calls and its jumps."""
from __future__ import annotations

import functools
import os
from collections import Counter, defaultdict
from collections.abc import Iterable, Iterator, Sequence
from dataclasses import dataclass, field
from typing import TYPE_CHECKING

from .call_costs import POINTER
from .debug_lines import Copy, Line
from .instruction_mix import LONG_NAMES, InstructionMix

if TYPE_CHECKING:
    from .source_counts import SourceCounts

START, START_NAME = -2, '(start of the program)'  # from which the program's start is called
UNKNOWN = '???'


@functools.cache
def path_of(line: Line | None) -> str:
    """The file of a line, from the current folder: callgrind_annotate takes one with a whole path for two."""
    return os.path.relpath(line.path) if line else UNKNOWN


@dataclass(eq=False)
class Body:
    """A function, or with --inlined a copy of one, which is entered where it stands so many times, with its words."""
    name: str
    line: Line | None
    copy: Copy | None = None
    words: list[int] = field(default_factory=list)
    count: int = 0


def sums(rows: Iterable[Sequence[int]]) -> list[int]:
    return [sum(column) for column in zip(*rows)]


def numbers(costs: list[int]) -> str:
    """The numbers of a line: zeros at the end are left out."""
    while costs and not costs[-1]:
        costs = costs[:-1]
    return ''.join(f' {cost}' for cost in costs)


class Callgrind:
    """The lines of the file. Inlined code counts for its own lines, in whatever file these are, and for the function that
    it is part of; or, where copies are wanted, for the function that was inlined, which then is called from there."""

    def __init__(self, counts: SourceCounts, with_copies: bool) -> None:
        self.counts, self.shown, self.debug, self.costs = counts, counts.shown, counts.debug, counts.costs
        self.mix = InstructionMix(counts.shown, counts.run)
        self.own = {address: self.mix.costs(address) for address in self.mix.kinds}
        self.calls, self.copies = defaultdict(list), defaultdict(list)
        self.routines = {start: Body(self.shown.name_of(start), counts.line_of(start))
                         for start in {*map(self.shown.routine_of, self.own)}}
        self.bodies = {address: self.routines[self.shown.routine_of(address)] for address in sorted(self.own)}
        if with_copies:
            self.find_copies()
        self.share()

    def find_copies(self) -> None:
        """Outer copies come first, so that each word is the innermost one's. One in its own function is part of that."""
        found = [(copy, function) for function in self.debug.functions.values() for copy in function.copies]
        for copy, function in sorted(found, key=lambda pair: pair[0].offset):
            parts = defaultdict(list)
            for address in sorted(copy.words & self.own.keys()):
                if self.bodies[address].name != function.name:
                    parts[self.bodies[address]].append(address)
            for outer, addresses in parts.items():
                entered = self.counts.entries(copy.entry, copy.words) if copy.entry in addresses else 0
                body = Body(function.name, function.line, copy, addresses, entered or self.counts.run.times(addresses[0]))
                self.bodies.update(dict.fromkeys(addresses, body))
                self.copies[outer].append(body)

    def share(self) -> None:
        """The calls of each instruction with their costs, and those of the start, by each event."""
        own = [Counter() for _ in self.mix.events]
        for address, costs in self.own.items():
            for counter, cost in zip(own, costs):
                counter[self.shown.routine_of(address)] += cost
        each = [self.costs, *map(self.costs.of, own[1:])]
        for call, *others in zip(*(costs.calls for costs in each)):
            self.calls[call.address].append((call, [call.cost, *(other.cost for other in others)]))
        self.roots = [(start, count, [costs.rest_of(start) for costs in each]) for start, count in self.costs.roots.items()
                      if self.costs.above[start] or self.has_parts(start)]

    def has_parts(self, start: int | None) -> bool:
        """Whether a routine has lines of several files, which callgrind_annotate takes for several functions."""
        own = self.routines.get(start)
        return own is not None and any(self.path_at(address, own) != path_of(own.line)
                           for address, body in self.bodies.items() if body is own)

    def path_at(self, address: int, body: Body) -> str:
        line = self.debug.line_at.get(address)
        return path_of(line) if line else path_of(body.line)

    def position(self, address: int, line: Line | None) -> str:
        return f'0x{max(address, 0):08x} {line.number if line else 0}'

    def calls_at(self, address: int, line: Line | None) -> Iterator[str]:
        """The calls of an instruction, each with what it cost."""
        for call, costs in self.calls[address]:
            yield f'cfi={path_of(self.counts.line_of(call.callee))}'
            yield f'cfn={self.costs.name_of(call.callee)}'
            yield f'calls={call.count} {self.position(call.callee, self.debug.line_at.get(call.callee))}'
            yield self.position(address, line) + numbers(costs)

    def jumps_at(self, address: int, line: Line | None) -> Iterator[str]:
        """The branch of a block, or its jump through a known table: how often it went where. What leads to another
        routine's begin is a call."""
        block = self.shown.block_of(address)
        if block.last() != address:
            return
        ways, called = Counter(), {call.callee for call, _ in self.calls[address]}
        is_conditional = any(edge.kind == 'untaken' for edge in block.out)
        for edge in block.out:
            if edge.kind in ('taken', 'case') and edge.target not in (None, *called) and self.counts.run.is_known(edge):
                ways[edge.target] += self.counts.run.edge(edge)
        own = self.bodies[address]
        for target, count in ways.items():
            if count or is_conditional:
                there, target_line = self.bodies.get(target, own), self.debug.line_at.get(target)
                if self.path_at(target, there) != self.path_at(address, own):
                    yield f'jfi={self.path_at(target, there)}'
                if there is not own:
                    yield f'jfn={there.name}'
                counts = f'jcnd={count}/{self.counts.run.times(address)}' if is_conditional else f'jump={count}'
                yield f'{counts} {self.position(target, target_line)}'
                yield self.position(address, line)

    def entries_of(self, body: Body) -> Iterator[str]:
        """The calls of a copy in the function in which it stands: by what it cost, and in which line."""
        costs = sums([self.own[address] for address in body.words]
                     + [costs for address in body.words for _, costs in self.calls[address]])
        yield f'cfi={path_of(body.line)}'
        yield f'cfn={body.name}'
        yield f'calls={body.count} {self.position(body.copy.entry, self.debug.line_at.get(body.copy.entry))}'
        yield self.position(body.copy.entry, body.copy.called) + numbers(costs)

    def instruction(self, address: int) -> Iterator[str]:
        line = self.debug.line_at.get(address)
        yield self.position(address, line) + numbers(self.own[address])
        yield from self.calls_at(address, line)
        yield from self.jumps_at(address, line)

    def body(self, body: Body, addresses: list[int]) -> Iterator[str]:
        """A function's instructions, which may have lines of several files, and its calls of copies."""
        own = path = path_of(body.line)
        yield from (f'fl={own}', f'fn={body.name}')
        parts = [(self.path_at(address, body), self.instruction(address)) for address in addresses]
        parts += [(path_of(copy.copy.called) if copy.copy.called else own, self.entries_of(copy)) for copy in self.copies[body]]
        for here, lines in parts:
            if here != path:
                yield f'{"fe" if here == own else "fi"}={here}'
            path = here
            yield from lines
        yield ''

    def start(self) -> Iterator[str]:
        """What calls the routines that no routine calls."""
        yield from (f'fl={UNKNOWN}', f'fn={START_NAME}')
        for start, count, costs in self.roots:
            yield from (f'cfi={path_of(self.counts.line_of(start))}', f'cfn={self.costs.name_of(start)}',
                        f'calls={count} {self.position(start, self.debug.line_at.get(start))}', f'0x00000000 0{numbers(costs)}')
        yield ''

    def lines(self) -> Iterator[str]:
        totals = numbers(sums(self.own.values()))
        yield from ('# callgrind format', 'version: 1', 'creator: source_counts.py', f'cmd: {self.shown.name}',
                    'positions: instr line', *(f'event: {event} : {LONG_NAMES[event]}' for event in self.mix.events),
                    f'events: {" ".join(self.mix.events)}', f'summary:{totals}', '', f'ob={os.path.abspath(self.shown.name)}')
        bodies = defaultdict(list)
        for address, body in self.bodies.items():
            bodies[body].append(address)
        for body in [*bodies, *(body for body in self.copies if body not in bodies)]:
            yield from self.body(body, bodies[body])
        if self.calls[POINTER]:
            yield from (f'fl={UNKNOWN}', f'fn={self.costs.name_of(POINTER)}', *self.calls_at(POINTER, None), '')
        if self.roots:
            yield from self.start()
        yield f'totals:{totals}'
