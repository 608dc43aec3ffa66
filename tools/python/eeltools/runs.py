"""What `eel counts`, `visits` and `trace` print of a run, as counts of a program's words, blocks and edges."""
from __future__ import annotations

import functools
import re
from collections import Counter, defaultdict
from collections.abc import Iterable, Iterator, Mapping, Set

from .scripting import read_lines, refuse
from .shown import Block, Edge, Shown, Way, address_in, is_transfer, is_trap, is_unimplemented

RUN_HELP = 'what `eel counts` printed of a run of its profile, or `eel visits` of a file that `every` made, with what ' \
           '`eel counts` prints of the same behind it, perhaps'
TRACE_HELP = RUN_HELP + '; or `eel trace` of one that `trace` made'
KINDS = {'fall', 'taken', 'untaken', 'call', 'out', 'land', 'case'}


def is_trace(name: str) -> bool:
    """Whether the last line of a file is that of a trace."""
    lines = read_lines(name)
    return bool(lines) and ' ring ' in lines[-1]


def counts_of(shown: Shown, name: str) -> dict[int, int]:
    """How often a run completed each edge of a program, by the lines of a file, which must be of this program."""
    counts, total = {}, None
    for at, line in enumerate(read_lines(name), 1):
        words = line.split()
        if total is not None or len(words) != 6 or words[0] not in ('edge', 'edges') or not words[5].isdecimal():
            refuse(f'{name}: line {at}: not a line of eel counts')
        if words[0] == 'edges':
            total = words[1], int(words[5])
            continue
        number = int(words[1]) if words[1].isdecimal() else len(shown.edges)
        if number >= len(shown.edges) or shown.edges[number].printed != tuple(words[2:5]):
            refuse(f'{name}: line {at}: {shown.name} has no such edge')
        counts[number] = int(words[5])
    if total is None:
        refuse(f'{name}: the last line is missing')
    if total != (str(len(shown.edges)), sum(counts.values())):
        refuse(f'{name}: these are not the counts of all edges of {shown.name}')
    return counts


def visits_of(shown: Shown, name: str, lines: list[str]) -> dict[int, int]:
    """How often a run carried out the word at each address, by the lines of a file, which must be of this program."""
    visits, total, text = {}, None, shown.text()
    for at, line in enumerate(lines, 1):
        words = line.split()
        if total is None and len(words) == 3 and words[0] == 'word' and words[2].isdecimal():
            address = int(words[1], 16) if re.fullmatch('[0-9a-f]{8}', words[1]) else -1
            if address not in text:
                refuse(f'{name}: line {at}: {shown.name} has no such word')
            visits[address] = int(words[2])
        elif total is None and re.fullmatch(r'words \d+ visited \d+ visits \d+', line):
            total = [int(number) for number in words[1::2]]
        else:
            refuse(f'{name}: line {at}: not a line of eel visits')
    if total is None:
        refuse(f'{name}: the last line is missing')
    if total != [len(text), len(visits), sum(visits.values())]:
        refuse(f'{name}: these are not the visits of all words of {shown.name}')
    return visits


def ways_of(shown: Shown, name: str, lines: list[str], before: int) -> Counter[Way]:
    """How often a run went each way from word to word, by the lines that `eel counts` printed of a file that `every`
    made; they stand behind others."""
    ways, total, text = Counter(), None, shown.text()
    for at, line in enumerate(lines, before + 1):
        words = line.split()
        if total is not None or len(words) != 6 or words[0] not in ('edge', 'edges') or not words[5].isdecimal():
            refuse(f'{name}: line {at}: not a line of eel counts')
        if words[0] == 'edges':
            total = int(words[5])
            continue
        kind, source, target = words[2], *map(address_in, words[3:5])
        if kind not in KINDS or not all(end is None or end in text for end in (source, target)):
            refuse(f'{name}: line {at}: {shown.name} has no such edge')
        ways[kind, source, target] += int(words[5])
    if total is None:
        refuse(f'{name}: the last line is missing')
    if total != ways.total():
        refuse(f'{name}: these are not the counts of all edges of {shown.name}')
    return ways


def trace_of(shown: Shown, name: str) -> list[int]:
    """The numbers of the last edges that a run completed, the oldest first, by the lines of a file of this program."""
    numbers, total = [], None
    for at, line in enumerate(read_lines(name), 1):
        words = line.split()
        if total is None and len(words) == 5 and words[0] == 'edge' and words[1].isdecimal():
            number = int(words[1])
            if number >= len(shown.edges) or shown.edges[number].printed != tuple(words[2:]):
                refuse(f'{name}: line {at}: {shown.name} has no such edge')
            numbers.append(number)
        elif total is None and re.fullmatch(r'edges \d+ ring \d+', line):
            total = int(words[1])
        else:
            refuse(f'{name}: line {at}: not a line of eel trace')
    if total != len(numbers):
        refuse(f'{name}: the last line is missing, or is that of another number of edges')
    return numbers


class Run:
    """How often a run went which way, by the edges of the program: so often it carried out the word at each address, all
    in all and those of which it isn't sure; came into each block; completed each edge; and began."""
    shown: Shown
    words: dict[int, int]
    total: int
    unsure: Set[int]  # is empty but for counts of edges
    blocks: dict[int, int]
    edges: dict[int, int]
    starts: int

    def edge(self, edge: Edge) -> int:
        return self.edges.get(edge.number, 0)

    def times(self, address: int) -> int:
        return self.words.get(address, 0)

    def jumps(self) -> Iterable[tuple[int, int]]:
        """Each jump through a register that was made, and how often."""
        for edge in self.shown.edges:
            if edge.kind == 'out' and self.edge(edge):
                yield self.shown.blocks[edge.source].last(), self.edge(edge)

    def entries(self, address: int) -> Mapping[int, int] | None:
        """How often control came to a word in the midst of a block, by the words before it, or None where that isn't known."""
        return None

    def landings(self) -> Iterable[tuple[int, int]]:
        """Each place at which control landed from such a jump, and how often."""
        for edge in self.shown.edges:
            if edge.kind == 'land' and self.edge(edge):
                yield edge.target, self.edge(edge)

    def is_known(self, edge: Edge) -> bool:
        return True


class Executions(Run):
    """How often a run went into each block, and executed the word at each address, those in delay slots too, by the
    counts of edges.

    A landing in the midst of a block counts for all words of the block, but for those that no run goes on from. So does
    the block in which the run ended, unless that has a `ta`, where it exited, or it is known where the run stood. The
    words of such blocks are unsure.
    """

    def __init__(self, shown: Shown, counts: dict[int, int], stands: int | None = None) -> None:
        self.shown, self.edges, self.unsure, entered = shown, counts, set(), shown.block_of(shown.entry)
        self.blocks = {block.first: sum(map(self.edge, block.into)) for block in shown.blocks.values()}
        self.starts = max(1, sum(map(self.edge, entered.out)) - self.blocks[entered.first])  # more of merged counts
        self.blocks[entered.first] += self.starts
        self.words = {}
        for block in shown.blocks.values():
            self.words.update(dict.fromkeys(block.addresses(), self.blocks[block.first]))
        for edge in shown.edges:
            if edge.slot is not None:
                self.words[edge.slot] += self.edge(edge)
        for block in filter(lambda block: self.blocks[block.first], shown.blocks.values()):
            if self.lands_within(block):
                self.unsure.update(block.addresses())
            self.end_in(block, stands)
        executed = [address for address, times in self.words.items() if times]
        self.words.update((address, int(address == stands)) for address in executed
                          if is_unimplemented(shown.word(address)))
        self.total = sum(self.words.values())

    def lands_within(self, block: Block) -> bool:
        """Whether control may have come to a block by a jump behind its first word: by a switch of which a case is there;
        or more often than it came back there from a call, or to what is neither that nor a routine's first instruction."""
        if any(edge.kind == 'case' and self.edge(edge) for edge in block.into) \
                and not self.shown.cases().isdisjoint(block.addresses()[1:]):
            return True
        landed = sum(self.edge(edge) for edge in block.into if edge.kind == 'land')
        is_entered = block.first in self.shown.routines and block.first == self.shown.first_instruction(block)
        if not landed or block.words == 1 or is_entered:
            return False
        calls = self.shown.block_of(self.shown.call_before(block.first) or -1)
        return calls is None or landed > sum(self.edge(edge) for edge in calls.out)

    def end_in(self, block: Block, stands: int | None) -> None:
        """What stands behind the place at which a run ended wasn't run: the `ta` of a block that wasn't left, or where
        it is said to have stood."""
        ended = self.blocks[block.first] - sum(map(self.edge, block.out))
        if ended <= 0:
            return
        if stands in self.words and stands - 4 == block.last() and is_transfer(self.shown.word(block.last())):
            self.words[stands] += ended  # in the slot, whose edge wasn't completed
            return
        exits = [address for address in block.addresses() if is_trap(self.shown.word(address))]
        last = stands if stands in block.addresses() else exits[-1] if exits else None
        if last is None:
            self.unsure.update(block.addresses()[1:])
        for address in range(last + 4, block.last() + 4, 4) if last is not None else ():
            self.words[address] -= ended


class Visits(Run):
    """How often a run carried out the word at each address, as it was counted: exactly, and up to where it stood. How
    often edges were completed is worked out from it, and isn't known of all."""
    unsure = frozenset()

    def __init__(self, shown: Shown, visits: dict[int, int]) -> None:
        self.shown = shown
        self.words = dict.fromkeys((address for block in shown.blocks.values() for address in block.addresses()), 0)
        self.words.update(visits)
        self.starts, self.total = 1, sum(visits.values())
        self.find_ways(shown)
        completed, self.edges = {way: count for way, count in self.ways.items() if count}, {}
        for edge in shown.edges:
            if count := completed.pop(edge.way(), 0):
                self.edges[edge.number] = count

    def find_ways(self, shown: Shown) -> None:
        self.blocks = {first: self.words[first] for first in shown.blocks}
        for first in filter(lambda first: is_unimplemented(shown.word(first)), shown.blocks):
            self.blocks[first] = self.words.get(first + 4, 0)
        self.ways = solutions(list(self.equations(shown)))

    def equations(self, shown: Shown) -> Iterator[tuple[int, set[Way]]]:
        """Sums of ways that are known: what comes into a block and leaves it, and what runs a delay slot. A landing is
        taken to be one at a routine, behind a call, or where nothing else leads."""
        slots = defaultdict(set)
        for edge in shown.edges:
            if edge.slot is not None:
                slots[edge.slot].add(edge.way())
        for block in shown.blocks.values():
            into = {edge.way() for edge in block.into if edge.kind != 'land'}
            is_label = not into and block.first not in slots  # of a switch, perhaps
            if block.first in shown.routines or shown.is_behind_call(block.first) or is_label:
                into.add(('land', None, block.first))
            out = {edge.way() for edge in block.out}
            if block.first in slots:  # a block of one word, at which control arrives seldom but to run it as a slot
                own = out if len(out) == 1 else {('in', None, block.first)}
                self.blocks[block.first] = 0
                yield self.words[block.first], own | slots[block.first]
                if not into:
                    yield 0, own | out
            else:
                yield self.blocks[block.first] - (shown.entry == block.first), into
                yield self.words[block.last()], out

    def is_known(self, edge: Edge) -> bool:
        return edge.way() in self.ways


class Exact(Visits):
    """The same, with the ways from word to word, which were counted, too: so edges are as exact as words. Of a switch
    that only `show` knows, since it sees whole blocks, a case has what landed at it, unless others lead there."""

    def __init__(self, shown: Shown, visits: dict[int, int], ways: Counter[Way]) -> None:
        self.counted = ways
        super().__init__(shown, visits)

    def find_ways(self, shown: Shown) -> None:
        arrived, left, within = Counter(), Counter(), Counter()
        for (kind, source, target), count in self.counted.items():
            arrived[target] += count
            left[source] += count
            if kind == 'land':
                within[shown.block_of(target).first] += count
        ended = {word: times for word in arrived.keys() | left.keys() if (times := arrived[word] - left[word]) > 0}
        self.starts = max(1, sum(ended.values()))
        self.blocks = {first: arrived[first] for first in shown.blocks}
        for first, count in within.items():
            self.blocks[first] += count - self.counted['land', None, first]
        entered = shown.block_of(shown.entry)
        self.blocks[entered.first] += self.starts
        last, counted = {block.first: block.last() for block in shown.blocks.values()}, self.counted
        self.ways = {edge.way(): counted.get((edge.kind, last.get(edge.source), edge.target), 0)
                     for edge in shown.edges if edge.kind != 'case'}
        self.find_cases(shown, last)

    def jumps(self) -> Iterator[tuple[int, int]]:
        return ((source, count) for (kind, source, _), count in self.counted.items() if kind == 'out')

    def landings(self) -> Iterator[tuple[int, int]]:
        return ((target, count) for (kind, _, target), count in self.counted.items() if kind == 'land')

    def entries(self, address: int) -> Mapping[int, int]:
        return self.arrivals.get(address, {})

    @functools.cached_property
    def arrivals(self) -> dict[int, Counter[int]]:
        """How often control came to the routines that begin within a block from each word before."""
        found = defaultdict(Counter)
        for (kind, source, target), count in self.counted.items():
            if target in self.shown.inner and kind != 'land':
                found[target][source] += count
        return found

    def find_cases(self, shown: Shown, last: dict[int, int]) -> None:
        """A case has what landed at its block, if it is that of one switch alone, and if all of them come to what went
        out at the jump."""
        cases = defaultdict(set)
        for edge in shown.edges:
            if edge.kind == 'case':
                cases[last[edge.source]].add(edge.target)
        jumps = Counter(target for targets in cases.values() for target in targets)
        for jump, targets in cases.items():
            landed = {target: self.counted['land', None, target] for target in targets}
            known = {target: self.counted['case', jump, target] for target in targets}
            if sum(known.values()):
                landed = known
            elif sum(landed.values()) != self.counted['out', jump, None] or any(jumps[target] > 1 for target in targets):
                continue
            for target, count in landed.items():
                self.ways['case', shown.block_of(jump).first, target] = count
                if landed is not known:
                    self.ways['land', None, target] = 0
            if landed is not known:
                self.ways['out', shown.block_of(jump).first, None] = 0


def solutions(equations: list[tuple[int, set[Way]]]) -> dict[Way, int]:
    """What sums of numbers that aren't negative determine, step by step: the last unknown number of a sum, and all
    unknown numbers of one that is 0."""
    sums, unknown, holding, found = [], [], defaultdict(list), {}
    for number, (total, ways) in enumerate(equations):
        sums.append(total)
        unknown.append(set(ways))
        for way in ways:
            holding[way].append(number)
    waiting = list(range(len(sums)))
    while waiting:
        number = waiting.pop()
        if len(unknown[number]) != 1 and sums[number] > 0:
            continue
        value = max(sums[number], 0)
        for way in list(unknown[number]):
            found[way] = value
            for other in holding[way]:
                sums[other] -= value
                unknown[other].discard(way)
                waiting.append(other)
    return found


class Trace(Run):
    """The last edges that a run completed, by the places at which each stands in their order, from 1 on."""

    def __init__(self, shown: Shown, numbers: list[int]) -> None:
        self.places, self.length = defaultdict(list), len(numbers)
        for place, number in enumerate(numbers, 1):
            self.places[number].append(place)
        ends = [end for number in numbers for end in (shown.edges[number].source, shown.edges[number].target)]
        self.blocks = Counter(end for end in ends if end is not None)

    def edge(self, edge: Edge) -> int:
        return len(self.places.get(edge.number, []))


def run_of(shown: Shown, name: str, stands: int | None = None) -> Run:
    """What a file tells of a run: the visits of all words, and the ways from word to word, perhaps; or the counts of
    edges, where it may be said at which instruction the run stands. Routines are split by it."""
    if is_trace(name):
        refuse(f'{name}: these are the last edges of a run; counts or visits are wanted')
    lines = read_lines(name)
    if not lines or lines[0].split(' ')[0] not in ('word', 'words'):
        run = Executions(shown, counts_of(shown, name), stands)
    else:
        ends = next((at for at, line in enumerate(lines, 1) if line.startswith('words ')), len(lines))
        visits = visits_of(shown, name, lines[:ends])
        ways = ways_of(shown, name, lines[ends:], ends) if lines[ends:] else None
        run = Visits(shown, visits) if ways is None else Exact(shown, visits, ways)
    shown.split(run)
    return run
