"""What calls cost where routines call each other: equations of which each routine has one."""
from __future__ import annotations

import heapq
from collections import Counter
from collections.abc import Hashable, Iterable, Mapping
from typing import Generic, TypeVar

Node = TypeVar('Node', bound=Hashable)


class Recursion(Generic[Node]):
    """Routines that call each other. Where A is the matrix of how many calls of another routine a call of each makes, a call
    costs x = costs + A x, and the diagonal of the inverse of 1 - A says how often a routine is called within one call of its
    own. Routines are taken out one by one, those with the fewest neighbours first, and then put back in turn: of the inverse
    only those entries are worked out that are needed (Takahashi's equations)."""

    def __init__(self, costs: Mapping[Node, float], calls: Iterable[tuple[Node, Node, float]]) -> None:
        self.costs = dict(costs)
        self.rows: dict[Node, Counter[Node]] = {node: Counter() for node in costs}
        self.columns: dict[Node, set[Node]] = {node: set() for node in costs}
        for caller, callee, number in calls:
            self.rows[caller][callee] += number
            self.columns[callee].add(caller)
        self.steps: list[tuple[Node, float, Counter[Node], dict[Node, float]]] = []
        self.each: dict[Node, float] = {}
        self.inverse: dict[tuple[Node, Node], float] = {}
        self.take_out()
        self.put_back()

    def ways(self, node: Node) -> int:
        """By how many calls the routine would be replaced."""
        return len(self.rows[node]) * len(self.columns[node])

    def take_out(self) -> None:
        places = {node: place for place, node in enumerate(self.rows)}
        waiting = [(self.ways(node), place, node) for node, place in places.items()]
        heapq.heapify(waiting)
        while waiting:
            ways, _, node = heapq.heappop(waiting)
            if node in self.rows and ways == self.ways(node):
                for other in self.take(node):
                    heapq.heappush(waiting, (self.ways(other), places[other], other))

    def take(self, node: Node) -> set[Node]:
        """Takes out a routine, and answers its neighbours, which now call each other in its place."""
        row, above = self.rows.pop(node), self.columns.pop(node)
        pivot = 1 - row.pop(node, 0)
        above.discard(node)
        for callee in row:
            self.columns[callee].discard(node)
        factors = {caller: self.rows[caller].pop(node) / pivot for caller in above}
        for caller, factor in factors.items():
            self.costs[caller] += factor * self.costs[node]
            for callee, number in row.items():
                self.rows[caller][callee] += factor * number
                self.columns[callee].add(caller)
        self.steps.append((node, pivot, row, factors))
        return {*row, *factors}

    def put_back(self) -> None:
        each, inverse = self.each, self.inverse
        for node, pivot, row, factors in reversed(self.steps):
            each[node] = (self.costs[node] + sum(number * each[callee] for callee, number in row.items())) / pivot
            for callee in row:
                inverse[callee, node] = sum(inverse[callee, caller] * factor for caller, factor in factors.items())
            for caller in factors:
                inverse[node, caller] = sum(number * inverse[callee, caller] for callee, number in row.items()) / pivot
            inverse[node, node] = (1 + sum(number * inverse[callee, node] for callee, number in row.items())) / pivot


def solved(costs: Mapping[Node, float], calls: Iterable[tuple[Node, Node, float]]) -> tuple[dict[Node, float], dict[Node, float]]:
    """What a call of each of some routines costs, with those that it leads to, and how often a routine is called within
    one call of its own, that one included: for each routine what it costs itself, and how many calls of others it makes."""
    found = Recursion(costs, calls)
    return found.each, {node: found.inverse[node, node] for node in costs}
