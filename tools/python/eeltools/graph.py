"""Draws a program for Graphviz: tools/graph.py FILE COUNTS | dot -Tsvg > graph.svg

Without --routine it is the call graph: routines with their shares of the instructions and how often they were called,
the hundred of most instructions where there are more. With --routine NAME it is the flow graph of one: its blocks, and
edges with their counts, where a block has several ways out also with the share of each. An edge is the heavier and the
redder the more often it was completed; edges that weren't are grey. Landings and ways out of the program have a small
node each, and a dotted edge leads behind a call. A block and its landed copy are drawn as one.

With a trace in place of COUNTS the blocks are drawn to which the last edges of a run led, each edge with the places at
which it stands in their order. By visits an edge whose count doesn't follow from them has a `?`.
"""
from __future__ import annotations

import math
from argparse import Namespace
from collections import Counter, defaultdict
from collections.abc import Iterable, Iterator

from .call_costs import POINTER, CallCosts
from .runs import TRACE_HELP, Run, Trace, is_trace, run_of, trace_of
from .scripting import Parser, note, print_lines
from .shown import NAMES_HELP, Block, Edge, Shown, Way, is_call, is_return, share

MOST_ROUTINES = 100
MANY_BLOCKS = 200
STYLE = ('  node [shape=box, fontname=monospace, fontsize=11]; edge [fontname=monospace, fontsize=10];',)
# Else dot takes minutes for a thousand blocks.
QUICK = ('  graph [splines=polyline, nslimit=1, nslimit1=1, mclimit=0.5];',)


def quoted(text: str) -> str:
    return '"' + text.replace('\\', '\\\\').replace('"', '\\"').replace('\n', '\\l') + '"'


def node(address: int | None) -> str:
    return f'"{address:08x}"'


def heat_of(part: int, most: int) -> float:
    """How heavy an edge is, from 0 to 1, by the logarithm."""
    return math.log1p(part) / math.log1p(most) if most else 0


def looks_of(label: str, heat: float) -> str:
    return f'label={quoted(label)}; penwidth={1 + 5 * heat:.1f}; color="0.0 {heat:.2f} {0.8 * heat:.2f}"'


class CallGraph:
    """Routines, and how often each calls another; without a run whether it can by a CALL or a branch."""

    def __init__(self, shown: Shown, run: Run | None) -> None:
        self.shown, self.run = shown, run
        self.costs = CallCosts(shown, run or Anything())
        ranked = sorted(self.routines(), key=lambda start: (-self.costs.own[start], start))
        self.drawn, self.left_out = ranked[:MOST_ROUTINES], len(ranked) - MOST_ROUTINES
        self.drawn += [POINTER] if self.costs.above[POINTER] or self.costs.below[POINTER] else []
        self.counts = Counter()
        for call in self.costs.calls:
            if {call.caller, call.callee} <= set(self.drawn):
                self.counts[call.caller, call.callee] += call.count

    def routines(self) -> list[int]:
        code = self.shown.code(self.run)
        return [start for start in self.shown.starts if start in code and (not self.run or self.costs.own[start])]

    def routine(self, start: int | None) -> str:
        name = self.costs.name_of(start)
        if not self.run:
            return f'  {node(start)} [label={quoted(name)}];'
        own, total = self.costs.own[start], self.run.total
        if start == POINTER:
            label = f'{name}\n{share(self.costs.inclusive[start], total)} of instructions, in what is called so\n'
            return f'  {node(start)} [label={quoted(label)}, style=dashed];'
        label = f'{name}\n{share(own, total)} of instructions\n{self.costs.calls_of(start)} calls\n'
        return f'  {node(start)} [label={quoted(label)}, style=filled, fillcolor="0.0 {0.7 * own / total:.2f} 1.0"];'

    def call(self, pair: tuple[int | None, int | None], count: int) -> str:
        looks = looks_of(str(count), heat_of(count, max(self.counts.values()))) if self.run else ''
        return f'  {node(pair[0])} -> {node(pair[1])} [{looks}];'

    def lines(self) -> Iterator[str]:
        yield from ('digraph calls {', *STYLE)
        yield from map(self.routine, self.drawn)
        yield from (self.call(pair, count) for pair, count in self.counts.items())
        yield '}'


class Anything(Run):
    """Each edge once, for what is so of all runs."""
    words, total, starts = {}, 0, 1

    def edge(self, edge: Edge) -> bool:
        return edge.kind not in ('land', 'out')

    def jumps(self) -> Iterable[tuple[int, int]]:
        return ()

    landings = jumps


class FlowGraph:
    """The blocks of one routine, or those that the last edges of a run touched, and their edges."""

    def __init__(self, shown: Shown, run: Run | None, routine: int | None, with_code: bool) -> None:
        self.shown, self.run, self.routine, self.with_code = shown, run, routine, with_code
        self.counts, self.unknown = Counter(), set()
        for edge in shown.edges if run else []:
            self.counts[edge.way()] += run.edge(edge)
            if not run.is_known(edge):
                self.unknown.add(edge.way())
        self.most = max(self.counts.values(), default=0)
        self.places = defaultdict(list)
        for edge in shown.edges if isinstance(run, Trace) else []:
            self.places[edge.way()] += run.places.get(edge.number, [])
        self.clusters = defaultdict(list)
        for first in sorted(shown.code(run) if routine is not None else run.blocks):
            starts = [start for start, _ in shown.parts_of(shown.blocks[first])]
            if routine in (None, *starts):
                self.clusters[starts[0] if routine is None else routine].append(first)
        self.drawn = {first for blocks in self.clusters.values() for first in blocks}

    def instructions(self, block: Block) -> Iterator[str]:
        """The instructions of a block and that in its delay slot, a line each."""
        for address in block.addresses():
            yield f'{address:08x}  {self.shown.text_at(address)}'
        slot, kinds = self.shown.slot_of(block)
        if slot is not None:
            condition = '' if len(kinds) == len(block.out) else f', if {kinds[0]}'
            yield f'{slot:08x}    {self.shown.text_at(slot)}    (slot{condition})'

    def block(self, block: Block) -> str:
        if self.with_code:
            label = ''.join(f'{line}\n' for line in self.instructions(block))
        else:
            label = f'{block.first:08x}, {block.words} {"word" if block.words == 1 else "words"}'
        cold = self.run and not self.run.blocks[block.first]
        return f'    {node(block.first)} [label={quoted(label)}{", color=gray, fontcolor=gray" if cold else ""}];'

    def cluster(self, start: int | None, blocks: list[int]) -> Iterator[str]:
        yield f'  subgraph "cluster_{start or 0:08x}" {{'
        yield f'    label={quoted(self.shown.name_of(start))}; color=gray;'
        yield from (self.block(self.shown.blocks[first]) for first in blocks)
        yield '  }'

    def looks(self, edge: Edge, name: str) -> str:
        """The label of an edge, its width and its colour."""
        way, count = edge.way(), self.counts[edge.way()]
        if not self.run:
            return f'label={quoted(name)}'
        if way in self.unknown:
            return f'label={quoted(name + " ?")}'
        if not count:
            return 'color=lightgray'
        if isinstance(self.run, Trace):
            return self.trace_looks(way, name)
        ways = {way.way() for way in self.shown.blocks[edge.source].out} if edge.source is not None else []
        part = f', {share(count, sum(self.counts[way] for way in ways))}' if len(ways) > 1 else ''
        return looks_of(f'{name} {count}{part}', heat_of(count, self.most))

    def trace_looks(self, way: Way, name: str) -> str:
        """The same of an edge of a trace: at which places it stands, of which the last are shown."""
        places = sorted(self.places[way])
        label = f'{name} {"..., " if len(places) > 4 else ""}{", ".join(map(str, places[-4:]))}'
        return looks_of(label, places[-1] / self.run.length)

    def small(self, name: str, label: str) -> str:
        return f'  {quoted(name)} [label={quoted(label)}, shape=plaintext, fontsize=9, width=0, height=0, margin=0];'

    def landing(self, edge: Edge) -> Iterator[str]:
        """A landing behind a call is drawn from the call, and another from a small node."""
        for before in (8, 12):
            block = self.shown.block_of(edge.target - before)
            if block and block.first in self.drawn and block.last() == edge.target - before \
                    and is_call(self.shown.word(block.last())):
                yield f'  {node(block.first)} -> {node(edge.target)} [style=dotted; {self.looks(edge, "back")}];'
                return
        name = f'land {edge.target:08x}'
        yield self.small(name, 'called' if edge.target in self.shown.routines else 'land')
        yield f'  {quoted(name)} -> {node(edge.target)} [style=dashed; {self.looks(edge, "land")}];'

    def leaving(self, edge: Edge) -> Iterator[str]:
        word, name = self.shown.word(self.shown.blocks[edge.source].last()), f'out {edge.source:08x} {edge.kind}'
        yield self.small(name, 'return' if is_return(word) else 'by register' if edge.kind == 'out' else 'outside')
        yield f'  {node(edge.source)} -> {quoted(name)} [style=dashed; {self.looks(edge, edge.kind)}];'

    def edge(self, edge: Edge) -> Iterator[str]:
        if edge.source is None:
            yield from self.landing(edge)
        elif edge.target is None:
            yield from self.leaving(edge)
        else:
            style = 'style=dashed; ' if edge.kind == 'call' else ''
            yield f'  {node(edge.source)} -> {node(edge.target)} [{style}{self.looks(edge, edge.kind)}];'

    def around(self, edges: list[Edge]) -> Iterator[str]:
        """The blocks of other routines at the ends of edges, with the names of those."""
        for address in sorted({end for edge in edges for end in (edge.source, edge.target)} - self.drawn - {None}):
            start = self.shown.routine_of(address)
            label = self.shown.name_of(start) + ('' if address == start else f' {address:08x}')
            yield f'  {node(address)} [label={quoted(label)}, color=gray];'

    def is_drawn(self, edge: Edge) -> bool:
        """Edges out of what is drawn, and those into it that were completed."""
        if edge.source is None or edge.source not in self.drawn:
            return edge.target in self.drawn and bool(self.counts[edge.way()])
        return self.routine is not None or bool(self.counts[edge.way()])

    def lines(self) -> Iterator[str]:
        yield from ('digraph flow {', *STYLE, *(QUICK if len(self.drawn) > MANY_BLOCKS else ()))
        for start, blocks in self.clusters.items():
            yield from self.cluster(start, blocks)
        edges = list({edge.way(): edge for edge in self.shown.edges if self.is_drawn(edge)}.values())
        yield from self.around(edges)
        for edge in edges:
            yield from self.edge(edge)
        yield '}'


def printed(shown: Shown, run: Run | None, words: Namespace) -> Iterator[str]:
    """The drawing of a run, if any."""
    if words.routine or isinstance(run, Trace):
        routine = shown.routine_called(words.routine) if words.routine else None
        return FlowGraph(shown, run, routine, words.code).lines()
    calls = CallGraph(shown, run)
    left_out = f', without {calls.left_out} routines of fewer instructions' if calls.left_out > 0 else ''
    note(f'this is the call graph{left_out}; --routine NAME draws the flow graph of one')
    return calls.lines()


def parsed(args: list[str] | None = None) -> Namespace:
    parser = Parser(__doc__)
    parser.add_argument('file', metavar='FILE', help='the program')
    parser.add_argument('counts', metavar='COUNTS', nargs='?', help=TRACE_HELP)
    parser.add_argument('--routine', metavar='NAME', help='the flow graph of this routine, by its name or its address')
    parser.add_argument('--code', action='store_true', help='with the instructions in each block')
    parser.add_argument('--names', metavar='NAMES', help=NAMES_HELP)
    return parser.parse_intermixed_args(args)


def main() -> None:
    words = parsed()
    shown = Shown(words.file, words.names)
    if words.counts is not None and is_trace(words.counts):
        run = Trace(shown, trace_of(shown, words.counts))
    else:
        run = run_of(shown, words.counts) if words.counts is not None else None
    print_lines(printed(shown, run, words))
