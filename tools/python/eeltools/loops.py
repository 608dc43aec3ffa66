"""The loops of a program in a run: natural loops of each routine, with the instructions that they took."""
from __future__ import annotations

from collections import defaultdict
from collections.abc import Iterator
from dataclasses import dataclass, field

from .runs import Run
from .shown import Edge, Shown, is_return


@dataclass
class Loop:
    """A loop: the block at which it begins, its blocks, and how often control came back to its beginning."""
    head: int
    routine: int | None
    rounds: int = 0
    blocks: set[int] = field(default_factory=set)
    instructions: int = 0
    own: int = 0  # without those of the loops within it


def labels_of(routine: int | None) -> int:
    """The place through which jumps lead to a routine's labels: no address."""
    return -1 - (routine or 0)


def completed(shown: Shown, run: Run) -> Iterator[tuple[Edge, int]]:
    """The edges that were completed, and how often."""
    return ((shown.edges[number], count) for number, count in run.edges.items() if count)


def ways_within(shown: Shown, run: Run) -> dict[int, dict[int, int]]:
    """Where control went within each routine, and how often; from a call it goes on behind it. Jumps through a register
    to labels of the routine lead through a place of their own, since it isn't known which leads to which."""
    ways = defaultdict(lambda: defaultdict(int))
    for edge, count in completed(shown, run):
        if edge.kind == 'land' and edge.target not in shown.routines and not shown.is_behind_call(edge.target):
            ways[labels_of(shown.routine_of(edge.target))][edge.target] += count
        if edge.source is None:
            continue
        last = shown.blocks[edge.source].last()
        if edge.kind == 'call' or edge.kind == 'out' and shown.word(last) >> 25 & 31:
            for behind in (last + 8, last + 12):
                if behind in shown.blocks and shown.is_behind_call(behind) and run.blocks[behind]:
                    ways[edge.source][behind] += count
        elif edge.kind == 'out' and not is_return(shown.word(last)):
            ways[edge.source][labels_of(shown.routine_of(last))] += count
        elif edge.target is not None and shown.routine_of(edge.target) == shown.routine_of(last):
            ways[edge.source][edge.target] += count
    return ways


def back_ways(heads: list[int], ways: dict[int, dict[int, int]]) -> Iterator[tuple[int, int]]:
    """The ways that lead back to a block on the path to them, by a search in depth from the given blocks."""
    seen, path = set(), set()
    for head in heads:
        if head in seen:
            continue
        seen.add(head)
        path.add(head)
        waiting = [(head, iter(ways[head]))]
        while waiting:
            block, targets = waiting[-1]
            for target in targets:
                if target in path:
                    yield block, target
                elif target not in seen:
                    seen.add(target)
                    path.add(target)
                    waiting.append((target, iter(ways[target])))
                    break
            else:
                path.discard(block)
                waiting.pop()


def leading_to(head: int, ends: list[int], before: dict[int, set[int]]) -> set[int]:
    """The blocks from which the ends are reached without the head, and the head."""
    found, waiting = {head}, list(ends)
    while waiting:
        block = waiting.pop()
        if block not in found:
            found.add(block)
            waiting.extend(before[block])
    return found


def costs_of(shown: Shown, run: Run) -> dict[int, int]:
    """The instructions of each block, with those in its delay slot."""
    costs = defaultdict(int)
    for first, block in shown.blocks.items():
        costs[first] = sum(map(run.words.__getitem__, block.addresses()))
    for edge, count in completed(shown, run):
        if edge.slot is not None and edge.source is not None:
            costs[edge.source] += count
            costs[shown.block_of(edge.slot).first] -= count
    return costs


def loops(shown: Shown, run: Run) -> list[Loop]:
    """All loops that went round, those of most instructions of their own first."""
    ways, before, found, costs = ways_within(shown, run), defaultdict(set), {}, costs_of(shown, run)
    for block, targets in list(ways.items()):
        for target in targets:
            before[target].add(block)
    ends = defaultdict(list)
    for block, head in back_ways(list(shown.starts) + sorted(ways), ways):
        loop = found.setdefault(head, Loop(head, shown.routine_of(head) if head >= 0 else -1 - head))
        loop.rounds += ways[block][head]
        ends[head].append(block)
    for head, loop in found.items():
        loop.blocks = leading_to(head, ends[head], before)
        loop.instructions = sum(costs[block] for block in loop.blocks)
    inner = {}
    for loop in sorted(found.values(), key=lambda loop: -len(loop.blocks)):
        inner.update(dict.fromkeys(loop.blocks, loop.head))
    for block, head in inner.items():
        found[head].own += costs[block]
    return sorted(found.values(), key=lambda loop: (-loop.own, loop.head))
