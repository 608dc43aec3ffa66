"""Adds the counts of several runs of one program: tools/merge.py COUNTS COUNTS.. > SUM

They are lines that `eel counts` printed, or `eel visits`, of edits of the same program, or what `profile.py --counts`
kept of it. What is printed is such lines again, which the other scripts read, and which can be the weights of a profile.
"""
from __future__ import annotations

import re
from collections.abc import Iterator

from .scripting import Parser, print_lines, read_lines, refuse

EDGE = re.compile(r'(edge (\d+) \w+ \S+ \S+) (\d+)')
WORD = re.compile(r'(word ([0-9a-f]{8})) (\d+)')
LAST = {EDGE: re.compile(r'(edges \d+ counted )(\d+)( executions) (\d+)'),
        WORD: re.compile(r'(words \d+ visited )(\d+)( visits) (\d+)')}


def parts_of(name: str) -> dict[re.Pattern[str], list[str]]:
    """The lines of a file by their kind: visits, with the counts of the ways between words behind them or not; or counts."""
    lines = read_lines(name)
    ends = next((at for at, line in enumerate(lines, 1) if line.startswith('words ')), 0)
    if lines and lines[0].startswith('word'):
        return {WORD: lines[:ends or None], **({EDGE: lines[ends:]} if ends and lines[ends:] else {})}
    return {EDGE: lines}


def added(names: list[str], kind: re.Pattern[str],
          parts: list[dict[re.Pattern[str], list[str]]]) -> tuple[dict[str, tuple[str, int]], re.Match[str]]:
    """The sums by the edges or words in their order, and the last line of the first file."""
    sums, first = {}, None
    for name, part in zip(names, parts):
        lines = part[kind]
        last = LAST[kind].fullmatch(lines[-1]) if lines else None
        if not last:
            refuse(f'{name}: the last line is not that of {"visits" if kind == WORD else "counts"}')
        first = first or last
        if last[1] != first[1]:
            refuse(f'{name}: these are counts of another program than those of {names[0]}')
        left, offset = int(last[4]), len(part[WORD]) if kind == EDGE and WORD in part else 0
        for at, line in enumerate(lines[:-1], offset + 1):
            row = kind.fullmatch(line)
            if not row or sums.setdefault(row[2], (row[1], 0))[0] != row[1]:
                refuse(f'{name}: line {at}: no line of counts of the same program')
            sums[row[2]] = row[1], sums[row[2]][1] + int(row[3])
            left -= int(row[3])
        if left:
            refuse(f'{name}: the counts do not come to their sum')
    return sums, first


def lines_of(kind: re.Pattern[str], sums: dict[str, tuple[str, int]], first: re.Match[str]) -> Iterator[str]:
    base = 10 if kind == EDGE else 16
    for key in sorted(sums, key=lambda key: int(key, base)):
        yield f'{sums[key][0]} {sums[key][1]}'
    number = first[2] if kind == EDGE else len(sums)
    yield f'{first[1]}{number}{first[3]} {sum(count for _, count in sums.values())}'


def main() -> None:
    parser = Parser(__doc__, '%(prog)s COUNTS COUNTS..')
    parser.add_argument('counts', metavar='COUNTS', nargs='+', help='what `eel counts` or `eel visits` printed')
    names = parser.parse_args().counts
    parts = [parts_of(name) for name in names]
    for name, part in zip(names, parts):
        if part.keys() != parts[0].keys():
            refuse(f'{name}: these are counts of another kind than those of {names[0]}')
    sums = [(kind, *added(names, kind, parts)) for kind in parts[0]]
    print_lines(line for kind, *found in sums for line in lines_of(kind, *found))
