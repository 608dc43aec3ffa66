"""A profile as one object of JSON, whose schema is docs/profile.schema.json: all of it, whatever a report leaves out."""
from __future__ import annotations

import hashlib
import json
from collections.abc import Iterable, Iterator
from typing import Any

from .annotate import code_words
from .debug_lines import Line
from .endings import Ending
from .instruction_mix import InstructionMix
from .loops import loops
from .report import Report

VERSION = 1  # is raised with each change of the schema


def hexadecimal(address: int | None) -> str | None:
    """An address, or None for what has none, such as all that lies outside of the text."""
    return None if address is None or address < 0 else f'0x{address:08x}'


def place(line: Line | None) -> dict[str, Any]:
    """A line of a source, if there is one."""
    return {'file': line.path if line else None, 'line': line.number if line else None}


def with_commas(lines: Iterable[str]) -> Iterator[str]:
    """Lines with a comma behind each but the last."""
    before = None
    for line in lines:
        if before is not None:
            yield f'{before},'
        before = line
    if before is not None:
        yield before


def object_lines(parts: list[tuple[str, Any]]) -> Iterator[str]:
    """The lines of an object by pairs of a key and a value; what isn't text, a number or an object is a list, of which each
    item has a line."""
    yield '{'
    for at, (key, value) in enumerate(parts, 1):
        end = ',' if at < len(parts) else ''
        if isinstance(value, (str, int, dict)):
            yield f'{json.dumps(key)}: {json.dumps(value)}{end}'
        else:
            yield f'{json.dumps(key)}: ['
            yield from with_commas(map(json.dumps, value))
            yield f']{end}'
    yield '}'


class ProfileJson:
    """The object of a report, of a run that ended so, at an instruction of the original or not."""

    def __init__(self, report: Report, arguments: list[str], counted: str, ending: Ending, stands: int | None) -> None:
        self.report, self.shown, self.run, self.counts = report, report.shown, report.run, report.counts
        self.arguments, self.counted, self.ending, self.stands = arguments, counted, ending, stands
        self.code = self.shown.code(self.run)

    def lines(self) -> Iterator[str]:
        return object_lines([
            ('version', VERSION), ('program', self.program()), ('counted', self.counted), ('ending', self.ended()),
            ('steps', {'original': self.run.total, 'with_counters': self.ending.steps, 'exact': not self.run.unsure}),
            ('functions', self.functions()), ('calls', self.calls()), ('loops', self.loops()), ('lines', self.source_lines()),
            ('kinds', self.kinds()), ('edges', self.edges()), ('instructions', self.instructions())])

    def program(self) -> dict[str, Any]:
        return {'file': self.shown.name, 'arguments': self.arguments, 'entry': hexadecimal(self.shown.entry),
                'sha256': hashlib.sha256(self.shown.file).hexdigest()}

    def ended(self) -> dict[str, Any]:
        ending = self.ending
        return {'kind': ending.kind, 'number': ending.number if ending.kind in ('exit', 'trap') else None,
                'address': hexadecimal(self.stands), 'text': ending.explained()}

    def functions(self) -> Iterator[dict[str, Any]]:
        costs = self.counts.costs
        starts = {start for start in self.shown.starts if self.shown.block_of(start).first in self.code}
        for start in sorted(starts | costs.own.keys(), key=lambda start: start or 0):
            yield {'address': hexadecimal(start), 'name': self.shown.name_of(start), **place(self.counts.line_of(start)),
                   'instructions': costs.own.get(start, 0), 'with_calls': costs.inclusive.get(start, 0),
                   'calls': costs.calls_of(start), 'exact': start not in self.report.unsure}

    def calls(self) -> Iterator[dict[str, Any]]:
        for call in self.counts.costs.calls:
            yield {'address': hexadecimal(call.address), 'caller': hexadecimal(call.caller),
                   'callee': hexadecimal(call.callee), 'count': call.count, 'with_calls': call.cost}

    def loops(self) -> Iterator[dict[str, Any]]:
        for loop in loops(self.shown, self.run):
            if loop.rounds:
                yield {'address': hexadecimal(loop.head), 'function': hexadecimal(loop.routine),
                       **place(self.report.debug.line_at.get(loop.head)), 'rounds': loop.rounds, 'instructions': loop.own,
                       'with_inner': loop.instructions, 'exact': self.report.is_sure(loop)}

    def source_lines(self) -> Iterator[dict[str, Any]]:
        taken = dict.fromkeys(self.counts.lines, 0)
        for address, line in self.report.debug.line_at.items():
            taken[line] = taken.get(line, 0) + self.run.words.get(address, 0)
        for line in sorted(taken):
            yield {**place(line), 'instructions': taken[line], 'times': self.counts.lines.get(line, 0),
                   'exact': line not in self.counts.unsure}

    def kinds(self) -> Iterator[dict[str, Any]]:
        counts = InstructionMix(self.shown, self.run).counts()
        return ({'kind': kind, 'instructions': count} for kind, count in counts.most_common())

    def edges(self) -> Iterator[dict[str, Any]]:
        """The edges of code, each with its landed copy; and how often they were completed, where that is known."""
        counts, first = {}, {}
        for edge in self.shown.edges:
            if (edge.target if edge.source is None else edge.source) in self.code:
                way = edge.way()
                first.setdefault(way, edge)
                counts[way] = counts.get(way, 0) + self.run.edge(edge)
        for way, edge in first.items():
            yield {'number': edge.number, 'kind': edge.kind, 'from': hexadecimal(edge.source), 'to': hexadecimal(edge.target),
                   'slot': hexadecimal(edge.slot), 'count': counts[way] if self.run.is_known(edge) else None}

    def instructions(self) -> Iterator[dict[str, Any]]:
        line_at = self.report.debug.line_at
        for start, addresses in sorted(code_words(self.shown, self.run).items(), key=lambda item: item[0] or 0):
            for address in addresses:
                yield {'address': hexadecimal(address), 'text': self.shown.text_at(address), 'function': hexadecimal(start),
                       **place(line_at.get(address)), 'count': self.run.words.get(address, 0),
                       'exact': address not in self.run.unsure}
