"""The calls between a program's routines in a run, and what they cost, as a profiler tells it."""
from __future__ import annotations

import copy
from collections import Counter, defaultdict
from collections.abc import Hashable, Iterable, Iterator, Sequence
from dataclasses import dataclass, replace
from typing import TypeVar

from .recursions import solved
from .runs import Run
from .shown import Shown, is_call, is_return

Node = TypeVar('Node', bound=Hashable)
POINTER, POINTER_NAME = -1, '(through a pointer)'  # the node from which calls come whose caller isn't known


@dataclass
class Call:
    """An instruction that calls a routine, or goes on to one in the end of another, how often it did, and what that
    cost, with what was called from there."""
    address: int
    caller: int | None
    callee: int | None
    count: int
    cost: int = 0


def after_all_below(nodes: Iterable[Node], below: dict[Node, set[Node]], seen: set[Node]) -> list[Node]:
    """The nodes and all that they lead to but what was seen, each behind those, except for what leads back to it."""
    order = []
    for node in nodes:
        waiting = [] if node in seen else [(node, iter(below[node]))]
        seen.add(node)
        while waiting:
            found = next((lower for lower in waiting[-1][1] if lower not in seen), None)
            if found is None:
                order.append(waiting.pop()[0])
            else:
                seen.add(found)
                waiting.append((found, iter(below[found])))
    return order


def components(nodes: Iterable[Node], edges: Iterable[tuple[Node, Node]]) -> Iterator[list[Node]]:
    """The strongly connected components of a graph, each behind all that lead to it (Kosaraju's algorithm)."""
    below, above = defaultdict(set), defaultdict(set)
    for source, target in edges:
        below[source].add(target)
        above[target].add(source)
    seen = set()
    for node in reversed(after_all_below(nodes, below, set())):
        if node not in seen:
            yield after_all_below([node], above, seen)


class CallCosts:
    """Calls with inclusive costs: a routine's instructions and those of the routines that it calls. They are shared out
    among its callers by the numbers of their calls: each call of a routine is taken to cost what another costs.

    A call through a register has a caller where one routine alone made such calls, or where one alone was called so.
    Else its caller isn't known: it comes from the node POINTER, and what it costs is that node's and no routine's."""

    def __init__(self, shown: Shown, run: Run) -> None:
        self.shown, self.run = shown, run
        self.own = Counter()
        for block in shown.blocks.values() if run.words else ():
            if any(map(run.words.get, block.addresses())):
                for start, addresses in shown.parts_of(block):
                    if own := sum(map(run.words.get, addresses)):
                        self.own[start] += own
        self.landed, self.sites, within = self.through_registers()
        self.calls = [Call(*site, count) for site, count in self.find().items()]
        self.entered = Counter(self.landed)
        for call in self.calls:
            self.entered[call.callee] += call.count
        self.entered[shown.entry] += run.starts
        self.calls += self.matched(within)
        self.link()
        self.roots = Counter({shown.routine_of(shown.entry): run.starts})
        if self.below[POINTER]:
            self.roots[POINTER] = 1
        self.find_more_roots()
        self.inclusive = {}
        self.share_all()

    def link(self) -> None:
        self.below, self.above = defaultdict(list), defaultdict(list)
        for call in self.calls:
            self.below[call.caller].append(call)
            self.above[call.callee].append(call)

    def of(self, own: Counter[int | None]) -> CallCosts:
        """The same calls in their order, with what they cost where routines have other costs, such as their loads."""
        other = copy.copy(self)
        other.own, other.inclusive, other.calls = own, {}, [replace(call, cost=0) for call in self.calls]
        other.link()
        other.share_all()
        return other

    def name_of(self, start: int | None) -> str:
        return POINTER_NAME if start == POINTER else self.shown.name_of(start)

    def find(self) -> Counter[tuple[int, int | None, int]]:
        """How often each instruction calls each routine: by a CALL, or from another routine by a branch, a switch or in
        order."""
        found = Counter()
        for edge in self.shown.edges:
            if edge.source is not None and edge.target in self.shown.routines and self.run.edge(edge):
                last = self.shown.blocks[edge.source].last()
                caller = self.shown.routine_of(last)
                if edge.kind == 'call' or edge.target != caller:
                    found[last, caller, edge.target] += self.run.edge(edge)
        for start in self.shown.inner:
            for source, count in (self.run.entries(start) or {}).items():
                found[source, self.shown.routine_of(source), start] += count
        return found

    def through_registers(self) -> tuple[Counter[int], Counter[int], dict[int | None, int]]:
        """How often each routine was called through a register; how often each instruction made such calls, by a JMPL
        that links, or by one that leaves its routine for another; and how often control came into the midst of a routine
        from elsewhere, where several may be merged."""
        landed, sites, jumps, labels = Counter(), Counter(), defaultdict(Counter), Counter()
        for jump, count in self.run.jumps():
            word = self.shown.word(jump)
            if is_call(word):
                sites[jump] += count
            elif not is_return(word):
                jumps[self.shown.routine_of(jump)][jump] += count
        for target, count in self.run.landings():
            routine = self.shown.entered_at(target)
            if routine is not None:
                landed[routine] += count
            elif not self.shown.is_behind_call(target):
                labels[self.shown.routine_of(target)] += count
        for routine, own in jumps.items():
            leaving = own.total() - labels[routine]
            for jump, count in own.items():
                if leaving > 0:
                    sites[jump] += min(count, leaving)
                    leaving -= count
        within = {routine: count - jumps[routine].total() for routine, count in labels.items()
                  if count > jumps[routine].total()}
        return +landed, sites, within

    def matched(self, within: dict[int | None, int]) -> list[Call]:
        """The calls through registers, and those of the node POINTER where it isn't known who made which."""
        targets = self.landed + Counter(within)
        callers = {self.shown.routine_of(site) for site in self.sites}
        if not targets:
            return []
        if len(callers) == 1 or len(targets) == 1 and self.sites:
            return self.dealt(list(self.sites.items()), list(targets.items()))
        return [Call(POINTER, POINTER, target, count) for target, count in targets.items()]

    def dealt(self, sites: list[tuple[int, int]], targets: list[tuple[int | None, int]]) -> list[Call]:
        """Calls of one routine, or to one: each of its instructions has as many as it made, in their order."""
        calls, (site, left) = [], sites.pop(0)
        for target, wanted in targets:
            while wanted:
                count = min(wanted, left) if sites else wanted
                if count:
                    calls.append(Call(site, self.shown.routine_of(site), target, count))
                    wanted, left = wanted - count, left - count
                if wanted and sites:
                    site, left = sites.pop(0)
        return calls

    def find_more_roots(self) -> None:
        """What nobody called, as far as is known, counts as called from outside, so that no instruction is lost."""
        while lost := {start for start in self.own if self.own[start]} - self.reached():
            called = {call.callee for start in lost for call in self.below[start] if call.caller != call.callee}
            self.roots.update(lost - called or {min(lost, key=lambda start: start or 0)})

    def reached(self) -> set[int | None]:
        found, waiting = set(), list(self.roots)
        while waiting:
            start = waiting.pop()
            if start not in found:
                found.add(start)
                waiting.extend(call.callee for call in self.below[start])
        return found

    def calls_of(self, start: int | None) -> int | None:
        """How often a routine was entered, or None where that isn't known."""
        return None if start in self.shown.inner and self.run.entries(start) is None else self.entered[start]

    def through_pointers(self) -> int:
        """What was called by calls whose callers aren't known, or 0."""
        return self.inclusive.get(POINTER, 0)

    def rest_of(self, start: int | None) -> int:
        """What a routine cost beyond what its callers were told."""
        return max(0, self.inclusive.get(start, 0) - sum(call.cost for call in self.above[start]))

    def share_all(self) -> None:
        """Gives each call its cost and each routine its inclusive cost, those called first."""
        nodes = sorted({*self.own, *self.below, *self.above, *self.roots}, key=lambda node: node or 0)
        pairs = [(call.caller, call.callee) for call in self.calls]
        for members in reversed(list(components(nodes, pairs))):
            group = set(members)
            calls = [call for member in members for call in self.above[member]]
            inner, outer = [call for call in calls if call.caller in group], [call for call in calls if call.caller not in group]
            costs = {member: self.own[member] + sum(call.cost for call in self.below[member] if call.callee not in group)
                     for member in members}
            if inner:
                self.share_recursion(members, costs, inner, outer)
            else:
                self.inclusive[members[0]] = costs[members[0]]
                share_out(costs[members[0]], outer, [call.count for call in outer], self.roots[members[0]])

    def share_recursion(self, members: list[int | None], costs: dict[int | None, int], inner: list[Call],
                        outer: list[Call]) -> None:
        """In a recursion, too, each call of a routine counts as much as any other. What a routine costs with what it calls
        is that of its outermost calls: those within them are parts of it."""
        called = Counter(self.roots)
        for call in inner + outer:
            called[call.callee] += call.count
        each, again = solved({member: costs[member] / called[member] for member in members},
                             [(call.caller, call.callee, call.count / called[call.caller]) for call in inner])
        total = sum(costs.values())
        entered = sum(each[member] * self.roots[member] for member in members if self.roots[member])
        share_out(total, outer, [call.count * each[call.callee] for call in outer], entered)
        inside, outside = defaultdict(list), Counter()
        for call in outer:
            outside[call.callee] += call.cost
        for call in inner:
            inside[call.callee].append(call)
        for member in members:
            known = outside[member] + (each[member] * self.roots[member] if self.roots[member] else 0)
            wanted = round(called[member] * each[member] / again[member])
            self.inclusive[member] = min(total, max(wanted, round(known), self.own[member]))
            own = inside[member]
            share_out(max(0, self.inclusive[member] - round(known)), own, [call.count for call in own], 0)


def share_out(cost: int, calls: list[Call], weights: Sequence[float], elsewhere: float) -> None:
    """Shares a cost out among calls by their weights, and what is called from elsewhere by that weight."""
    whole, before, given = sum(weights) + elsewhere, 0, 0
    for call, weight in zip(calls, weights):
        before += weight
        call.cost = round(cost * (before / whole)) - given if whole else 0
        given += call.cost
