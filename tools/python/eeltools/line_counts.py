"""How often a run reached each line of a program's sources."""
from __future__ import annotations

import bisect
from collections import defaultdict

from .debug_lines import DebugLines, Line
from .runs import Run
from .shown import NOP, Block, Shown

MOST_TOGETHER = 12  # blocks of a line that are looked at together
BRANCH_ALWAYS = 0x10800000, 0xdfc00000


def has_work(word: int | None) -> bool:
    """Whether a word is more than a jump to what comes next in the source, or a filler."""
    value, mask = BRANCH_ALWAYS
    return word is not None and word != NOP and word & mask != value


class Passes:
    """Which blocks of a routine a run can come to one after the other without going round a loop."""

    def __init__(self, shown: Shown, blocks: list[int]) -> None:
        self.bits = {first: 1 << number for number, first in enumerate(blocks)}
        ways = {first: [target for target in shown.leads_to(shown.blocks[first]) if target in self.bits] for first in blocks}
        self.behind = {}
        for first in blocks:
            if first not in self.behind:
                self.search(first, ways)

    def search(self, root: int, ways: dict[int, list[int]]) -> None:
        """What can come behind each block, as a set of bits, by a search in depth; what leads back is left out."""
        path, waiting = {root}, [(root, iter(ways[root]))]
        while waiting:
            block, targets = waiting[-1]
            target = next((target for target in targets if target not in path and target not in self.behind), None)
            if target is not None:
                path.add(target)
                waiting.append((target, iter(ways[target])))
                continue
            waiting.pop()
            path.discard(block)
            self.behind[block] = 0
            for target in ways[block]:
                if target not in path:
                    self.behind[block] |= self.bits[target] | self.behind.get(target, 0)

    def are_apart(self, block: int, other: int) -> bool:
        """Whether no pass comes to both."""
        return not (self.behind[block] & self.bits[other] or self.behind[other] & self.bits[block])


def most_apart(counts: dict[int, int], passes: Passes) -> int:
    """The greatest sum of counts of blocks of which no pass comes to two."""
    ranked, best = sorted(counts.items(), key=lambda item: -item[1])[:MOST_TOGETHER], 0

    def add(at: int, chosen: list[int], total: int) -> None:
        nonlocal best
        best = max(best, total)
        if at < len(ranked) and total + sum(count for _, count in ranked[at:]) > best:
            block, count = ranked[at]
            if all(passes.are_apart(block, other) for other in chosen):
                add(at + 1, [*chosen, block], total + count)
            add(at + 1, chosen, total)

    add(0, [], 0)
    return best


class LineCounts:
    """Lines by their instructions: in each function, and each copy by inlining, a line is as often reached as its most
    executed instruction; or, where it stands in blocks of which no pass comes to two, as all of these. The copies add up.

    Where the compiler marked statements, which in optimised code may have gone elsewhere, a line is as often reached as
    the position in it that was reached most: as often as the blocks in which its marks stand, or as the most executed
    instruction that belongs to one of its marks. A line of which something ran was reached, whatever its marks say."""

    def __init__(self, shown: Shown, run: Run, debug: DebugLines) -> None:
        self.shown, self.run, self.debug, self.passes = shown, run, debug, {}
        self.lines = self.executed()
        self.lines.update((line, count) for line, count in self.marked().items() if count or not self.lines.get(line))
        self.unsure = {debug.line_at[address] for address in run.unsure if address in debug.line_at}

    def block_of(self, address: int) -> Block | None:
        """The block that holds a word or, of a delay slot, that of its transfer; what stands behind a `b,a` is none."""
        block = self.shown.block_of(address)
        before = self.shown.block_of(address - 4) if block and block.first == address else None
        return before if before and self.shown.slot_of(before)[0] == address else block

    def passes_of(self, routine: int | None) -> Passes:
        if routine not in self.passes:
            start = routine or 0
            behind = self.shown.starts[bisect.bisect(self.shown.starts, start):][:1] or [1 << 32]
            self.passes[routine] = Passes(self.shown, self.shown.blocks_between(start, *behind))
        return self.passes[routine]

    def executed(self) -> dict[Line, int]:
        """Words that never ran say only that the line has code."""
        places, working = defaultdict(dict), set()
        lines, body_at, words = dict.fromkeys(self.debug.line_at.values(), 0), self.debug.body_at, self.run.words
        for address, line in self.debug.line_at.items():
            if count := words.get(address):
                block, counts = self.block_of(address).first, places[line, body_at.get(address)]
                counts[block] = max(counts.get(block, 0), count)
                if (line, block) not in working and self.works(address):
                    working.add((line, block))
        for (line, _), counts in places.items():
            apart = self.apart({first: count for first, count in counts.items() if (line, first) in working})
            lines[line] += max(*counts.values(), apart)
        return lines

    def works(self, address: int) -> bool:
        """Whether a word does something for its line. Where nothing was optimised, what fills the slot of a jump to what
        comes next is of a line before."""
        before = self.shown.word(address - 4)
        fills = not self.debug.is_optimised and before is not None and not has_work(before) and before != NOP
        return not fills and has_work(self.shown.word(address))

    def apart(self, counts: dict[int, int]) -> int:
        """The sum for blocks of which no pass comes to two, by routines."""
        if len(counts) < 2:
            return 0
        routines = defaultdict(dict)
        for first, count in counts.items():
            routines[self.shown.routine_of(first)][first] = count
        return sum(most_apart(own, self.passes_of(routine)) for routine, own in routines.items())

    def marked(self) -> dict[Line, int]:
        copies, most = defaultdict(dict), defaultdict(int)
        for row in self.debug.marks:
            block = self.shown.block_of(row.address)
            if block:
                position, counts = (row.line, row.column), copies[row.line, row.column]
                own = self.greatest(row.address, row.end)
                counts[block.first] = max(counts.get(block.first, 0), own)
                if row.last > row.end:
                    own = max(own, self.greatest(row.end, row.last))
                most[position] = max(most[position], own)
        lines = defaultdict(int)
        for position, counts in copies.items():
            lines[position[0]] = max(lines[position[0]], sum(counts.values()), most[position])
        return lines

    def greatest(self, low: int, high: int) -> int:
        """The greatest count of the words in a range, or of that at its begin where it is empty."""
        if high - low <= 4:
            return self.run.times(low)
        return max(map(self.run.times, self.debug.words(low, high)), default=self.run.times(low))
