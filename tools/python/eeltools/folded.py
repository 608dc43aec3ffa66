"""Stacks of calls with what they cost, as scripts for flame graphs read them: names from the outermost on, and a number.

Costs are shared out as in call_costs.py. A recursion is folded: of its routines the one that was entered stands first,
and each other behind it. What costs less than a 20,000th of all isn't divided further.
"""
from __future__ import annotations

from collections import Counter, defaultdict
from collections.abc import Iterator

from .call_costs import CallCosts, components

PARTS = 20000


class Folded:
    """The cost of each stack of routines."""

    def __init__(self, costs: CallCosts, total: int) -> None:
        self.costs, self.least, self.stacks, self.group_of = costs, max(1, total // PARTS), Counter(), {}
        nodes = sorted({*costs.own, *costs.below, *costs.above, *costs.roots}, key=lambda node: node or 0)
        for group in components(nodes, [(call.caller, call.callee) for call in costs.calls]):
            self.group_of.update(dict.fromkeys(group, dict.fromkeys(group)))
        waiting = [((), root, costs.rest_of(root)) for root in costs.roots]
        while waiting:
            waiting += self.divide(*waiting.pop())

    def divide(self, above: tuple[int | None, ...], node: int | None,
               cost: int) -> Iterator[tuple[tuple[int | None, ...], int | None, int]]:
        """What a routine costs below a stack: its own part counts, and those of what it calls are answered."""
        path, group = (*above, node), self.group_of[node]
        if cost < self.least:
            self.stacks[path] += cost
            return
        parts = []
        for member in group:
            stack = path if member == node else (*path, member)
            parts.append((stack, None, self.costs.own[member]))
            below = defaultdict(int)
            for call in self.costs.below[member]:
                if call.callee not in group:
                    below[call.callee] += call.cost
            parts += [(stack, callee, own) for callee, own in below.items()]
        whole, before, given = sum(own for _, _, own in parts), 0, 0
        for stack, callee, own in parts:
            before += own
            part = cost * before // whole - given if whole else 0
            given += part
            if callee is None:
                self.stacks[stack] += part
            elif part:
                yield stack, callee, part

    def lines(self) -> Iterator[str]:
        for stack, cost in sorted(self.stacks.items(), key=lambda item: (-item[1], item[0])):
            if cost:
                yield f'{";".join(self.costs.name_of(node).replace(";", ",") for node in stack)} {cost}'
