"""Prints the edges of a function by its name: tools/edges.py FILE FUNCTION[+OFFSET]..

Each edge that enters the function, leaves it or lies within it is printed with its number, which scripts name. With an
offset (0x18, say) it is the edges into and out of the block that holds this word. With --do OPERATION lines of a script
are printed in place of them: `edges.py FILE f --do 'keep 0 %o0'` keeps the first argument of each call of f. Such lines
are for the edges that enter, unless --leave or --within says otherwise.
"""
from __future__ import annotations

import re
from argparse import Namespace
from collections.abc import Iterator

from .scripting import WORDS, Parser, print_lines, refuse
from .shown import NAMES_HELP, Edge, Shown

WAYS = ('enter', 'leave', 'within')
OPERATION = re.compile(r'(?:add|put) \d+ \d+|(?:keep|top) \d+ %[goli][0-7]|count \d+')


def edges_of(shown: Shown, name: str) -> dict[str, list[Edge]]:
    """The edges that enter a function or a block, leave it, and lie within it."""
    function, _, offset = name.partition('+')
    start, ways = shown.routine_called(function), {way: [] for way in WAYS}
    if offset:
        if not re.fullmatch('0x[0-9a-fA-F]+|[0-9]+', offset):
            refuse(f'{name}: {offset} is no offset, such as 0x18', WORDS)
        block = shown.block_of(start + int(offset, 0))
        if block is None or start not in dict(shown.parts_of(block)):
            refuse(f'{name}: {function} is shorter', WORDS)
        inside = {block.first}
    else:
        inside = {block.first for block in shown.blocks.values() if start in dict(shown.parts_of(block))}
    for edge in shown.edges:
        source, target = edge.source in inside, edge.target in inside
        is_call = edge.kind == 'call' and edge.target == start
        is_return = edge.source is None and not offset and edge.target != start  # from a call that the function makes
        if target and (source and not is_call or is_return):
            ways['within'].append(edge)
        elif target:
            ways['enter'].append(edge)
        elif source:
            ways['leave'].append(edge)
    return ways


def printed(shown: Shown, words: Namespace) -> Iterator[str]:
    for name in words.names_of:
        for way, edges in edges_of(shown, name).items():
            for edge in edges if way in words.ways else ():
                if words.do:
                    yield f'edge {edge.number} {words.do}'
                else:
                    yield f'{way:<6} edge {edge.number} {edge.kind}: {shown.place(edge.source)} -> {shown.place(edge.target)}'


def main() -> None:
    parser = Parser(__doc__, '%(prog)s [OPTION..] FILE FUNCTION[+OFFSET]..')
    parser.add_argument('file', metavar='FILE', help='the program')
    parser.add_argument('names_of', metavar='FUNCTION', nargs='+', help='a function, by its name or its address')
    for way in WAYS:
        parser.add_argument(f'--{way}', dest='ways', action='append_const', const=way,
                            help=f'the edges that {"lie within it" if way == "within" else way + " it"} alone')
    parser.add_argument('--do', metavar='OPERATION', help='print lines of a script with this operation')
    parser.add_argument('--names', metavar='NAMES', help=NAMES_HELP)
    words = parser.parse_intermixed_args()
    if words.do and not OPERATION.fullmatch(words.do):
        parser.error(f'{words.do!r} is none of `add CELL AMOUNT`, `put CELL VALUE`, `keep CELL REG`, `top CELL REG` and '
                     '`count CELL`')
    words.ways = words.ways or (['enter'] if words.do else WAYS)
    print_lines(printed(Shown(words.file, words.names), words))
