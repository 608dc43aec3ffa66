#!/usr/bin/env python3
"""Prints how many steps programs take, and their files that are edited without snippets and with counters, and how many
counters there are and spill a register, in all and by sorts of edges.

A file FILE.input beside FILE is its input. Steps are the least limit with which `eel run` ends.
"""
import collections
import os
import struct
import subprocess
import tempfile

from called import EEL, built, input_of, parser_of, read_program
from listing import Graph, Program, home
from sparc import ADD, ADDCC, G0, LD, ST, Word, form3, sethi

FIRST_KEPT = 0xfffff008 - 2**32


def stopped(eel, name, limit, given):
    run = subprocess.run([eel, 'run', name, '-n', str(limit)], input=given, capture_output=True, check=False)
    return run.stderr.split(b'\n')[-2].startswith(b'stopped')


def steps(eel, name, given):
    """The least limit, found by doubling and then by halving."""
    high = 1
    while stopped(eel, name, high, given):
        high *= 2
    low = high // 2
    while high - low > 1:
        middle = (low + high) // 2
        low, high = (middle, high) if stopped(eel, name, middle, given) else (low, middle)
    return high


def is_kept(word):
    """A store of a register in word 2 of the editor's page, or one behind it."""
    fields = Word(word)
    return (fields.op == 3 and fields.op3 == ST and fields.rs1 == G0 and fields.simm13 is not None
            and fields.simm13 % 0x2000 >= FIRST_KEPT % 0x2000)


def sorts(original):
    """The sort of each edge: a landing to which a call comes back, another landing, an edge in a loop, or another."""
    graph = Graph(Program(original))
    loops = [(target, word) for word, (kind, target, _, _) in enumerate(graph.ends)
             if kind == 'branch' and target is not None and target <= word]
    for edge in graph.edges:
        if edge.kind == 'land':
            block = home(edge.target)
            call = block > 1 and graph.ends[graph.last(block - 2)][0] == 'call'
            yield 'behind calls' if call else 'landings'
        else:
            last = graph.last(home(edge.source))
            yield 'in loops' if any(first <= last <= word for first, word in loops) else 'others'


def cells(file):
    """Where the cells begin, and the number of the edge of each, by the notes."""
    at, = struct.unpack_from('>I', file, 4040)
    base, _, segments = struct.unpack_from('>3I', file, at + 24)
    at += 36 + 8 * segments
    at += 4 + 4 * struct.unpack_from('>I', file, at)[0]
    count, = struct.unpack_from('>I', file, at)
    edges = struct.iter_unpack('>4I', file[at + 4:at + 4 + 16 * count])
    return base, {cell: number for number, (_, _, _, cell) in enumerate(edges) if cell != 0xffffffff}


def is_one_more(word, register):
    """The low word of a counter is raised: with the codes where these are dead, and else into another register."""
    rd = Word(word).rd
    return word == form3(2, rd, ADDCC if rd == register else ADD, register, ('i', 1))


def counters(file, original):
    """How many counters of each sort the code of an edited file has, and how many of them spill a register."""
    phoff, = struct.unpack_from('>I', file, 28)
    count, = struct.unpack_from('>H', file, 44)
    segments = [struct.unpack_from('>8I', file, phoff + 32 * number) for number in range(count)]
    _, offset, _, _, size, _, _, _ = [segment for segment in segments if segment[0] == 1 and segment[6] == 5][-1]
    words = struct.unpack_from(f'>{size // 4}I', file, offset)
    named, (base_of_cells, edge_of) = list(sorts(original)), cells(file)
    found, spilled = collections.Counter(), collections.Counter()
    for at in range(len(words) - 3):
        high, load, add, store = words[at:at + 4]
        base, register, low = Word(high).rd, Word(load).rd, (load & 0x1fff) - 4
        address = Word(high).imm22 << 10 | low & 0x3ff
        edge = edge_of.get(address - base_of_cells >> 2)
        if (edge is not None and high == sethi(base, address) and load == form3(3, register, LD, base, ('i', low + 4))
                and is_one_more(add, register) and store == form3(3, Word(add).rd, ST, base, ('i', low + 4))):
            found[named[edge]] += 1
            spilled[named[edge]] += at > 0 and is_kept(words[at - 1])
    return found, spilled


def main():
    parser = parser_of(__doc__)
    parser.add_argument('--eel', metavar='PROGRAM', default=EEL, help='the program that is run, in place of ./eel')
    parser.add_argument('files', metavar='FILE', nargs='+', help='a program')
    words = parser.parse_args()
    eel = built(words.eel)
    with tempfile.TemporaryDirectory() as folder:
        out = os.path.join(folder, 'out')
        for name in words.files:
            original, given = read_program(name), input_of(name)
            told, own = [os.path.basename(name)], steps(eel, name, given)
            told.append(str(own))
            for tool in ('plain', 'profile'):
                subprocess.run([eel, 'edit', name, out, tool], check=True)
                edited = steps(eel, out, given)
                told += [str(edited), f'{edited / own:.2f}']
            with open(out, 'rb') as file:
                found, spilled = counters(file.read(), original)
            told += [str(found.total()), str(spilled.total())]
            told += [f'{sort} {found[sort]}/{spilled[sort]}' for sort in sorted(found)]
            print(*told, sep='\t', flush=True)


if __name__ == '__main__':
    main()
