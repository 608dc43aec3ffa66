#!/usr/bin/env python3
"""Prints what `eel show FILE` must print of each program file, made apart from the proved program.

With --compare, runs ./eel show of each file instead, and says for which the two differ. With --random COUNT, does so
for that many files with random words, symbols and section tables, and with --switches COUNT for files with switches and
what is nearly one.
"""
import bisect
import collections
import os
import random
import struct
import subprocess
import sys
import tempfile
from dataclasses import dataclass

from called import EEL, built, natural, parser_of, read_program
from random_switches import near_switch, switch_words
from sparc import JMPL, NOP, Word, branch, call
from switches import open_switches, switches, told_apart



class Program:
    """The text of a file, its entry, and its function symbols, as pairs of word and name."""

    def __init__(self, file):
        self.file = file
        self.entry, phoff, shoff = struct.unpack('>3I', file[24:36])
        phnum, = struct.unpack('>H', file[44:46])
        for number in range(phnum):
            kind, offset, vaddr, _, filesz, memsz, flags, _ = struct.unpack(
                '>8I', file[phoff + 32 * number:phoff + 32 * number + 32])
            if kind == 1 and memsz and flags & 3 == 1:
                memory = file[offset:offset + filesz].ljust(memsz, b'\0')
                self.start = vaddr
                self.words = struct.unpack(f'>{memsz // 4}I', memory[:memsz // 4 * 4])
        self.functions = list(self.read_functions(shoff))

    def word_at(self, address):
        distance = address - self.start
        if distance % 4 == 0 and 0 <= distance < 4 * len(self.words):
            return distance // 4
        return None

    def read_functions(self, shoff):
        entsize, count = struct.unpack('>2H', self.file[46:50])
        if not shoff or entsize != 40 or not count or shoff + 40 * count > len(self.file):
            return
        sections = [struct.unpack('>10I', self.file[shoff + 40 * k:shoff + 40 * k + 40]) for k in range(count)]
        tables = [section for section in sections if section[1] == 2][:1]
        for _, _, _, _, offset, size, link, _, _, symbol_size in tables:
            if offset + size > len(self.file) or symbol_size != 16 or link >= count:
                return
            _, kind, _, _, strings, strings_size, _, _, _, _ = sections[link]
            if kind != 3 or strings + strings_size > len(self.file):
                return
            names = self.file[strings:strings + strings_size]
            for at in range(offset, offset + size // 16 * 16, 16):
                name, value, _, info = struct.unpack('>3IB', self.file[at:at + 13])
                if info & 15 == 2 and self.word_at(value) is not None:
                    yield self.word_at(value), names[name:].split(b'\0')[0][:255]

    def target(self, word):
        """The address to which a branch or a CALL leads."""
        fields = Word(self.words[word])
        return (self.start + 4 * word + 4 * (fields.disp30 if fields.op == 1 else fields.disp22)) % 2**32

    def end(self, word):
        """How control leaves a word: a transfer's name, its target, whether it is annulled, its condition."""
        fields = Word(self.words[word])
        if fields.op == 1:
            return 'call', self.word_at(self.target(word)), False, None
        if fields.op == 0 and fields.op2 == 2:
            target = self.word_at(self.target(word)) if fields.cond else None
            return 'branch', target, bool(fields.annul), fields.cond
        if fields.op == 2 and fields.op3 == JMPL:
            return 'jump', None, False, None
        return 'fall', None, False, None


@dataclass(frozen=True)
class Landed:
    """The landed copy of a block, which has this number."""
    block: int


@dataclass
class Edge:
    """An edge between nodes: a block is its number, and None is all that lies outside."""
    kind: str
    source: int | Landed | None
    target: int | Landed | None
    slot: int | None = None  # the word that is run on the edge, which may be the one behind the text


def home(node):
    """The number of a node's block, or None for all that lies outside."""
    return node.block if isinstance(node, Landed) else node


class Graph:
    """The routines of a program with their names, the first words of its blocks, its switches, and its edges between
    blocks, their landed copies, and all that lies outside."""

    def __init__(self, program):
        self.start, self.count = program.start, len(program.words)
        self.ends = [program.end(word) for word in range(self.count)]
        self.entry = program.word_at(program.entry)
        self.routines = {self.entry: b''}
        self.routines |= {target: b'' for kind, target, _, _ in self.ends if kind == 'call' and target is not None}
        self.routines |= dict(reversed(program.functions))
        self.firsts = sorted({word for word in self.leaders() if word < self.count})
        self.block_of = {first: number for number, first in enumerate(self.firsts)}
        blocks = range(len(self.firsts))
        # between blocks alone: to find the switches
        self.direct = [edge for number in blocks for edge in self.edges_from(number)]
        self.switches = switches(program, self)
        self.opens = open_switches(program, self, self.switches)
        self.jumps = {one.block: one for one in self.opens}
        self.compares = {one.edge.source: one for one in self.opens}
        self.copied = sorted({*self.jumps, *self.compares})
        self.own = [edge for number in blocks for edge in self.leaving(number)]
        self.own += [edge for number in self.copied for edge in self.leaving(Landed(number))]
        self.edges = self.own + [Edge('land', None, node) for number in blocks for node in self.landings(number)]

    def leaders(self):
        yield 0
        yield from self.routines
        for word, (kind, target, _, _) in enumerate(self.ends):
            if target is not None:
                yield target
            if kind != 'fall':
                yield from (word + 1, word + 2)

    def last(self, number):
        """The last word of a block."""
        return (self.firsts[number + 1] if number + 1 < len(self.firsts) else self.count) - 1

    def address(self, word):
        return f'{self.start + 4 * word:08x}'

    def node_text(self, node):
        """The address of a node's block, with a sign for its landed copy; x for all that lies outside."""
        return 'x' if node is None else self.address(self.firsts[home(node)]) + '+' * isinstance(node, Landed)

    def holding(self, word):
        """The block that holds a word."""
        return bisect.bisect(self.firsts, word) - 1

    def lands(self, word):
        """The node at which control lands that comes to a word from outside, which may have no word of the text."""
        if word is None:
            return None
        block = self.holding(word)
        if block in self.jumps or block in self.compares and word > self.compares[block].compare:
            return Landed(block)
        return block

    def landings(self, block):
        """The nodes of a block at which control can land."""
        if block in self.jumps:
            return [Landed(block)]
        return [block, Landed(block)] if block in self.compares else [block]

    def leaving(self, node):
        """The edges that leave a block or a landed copy."""
        if node in self.jumps:
            one = self.jumps[node]
            targets = dict.fromkeys(self.lands(word) for word in one.targets)
            return [Edge('case', node, target, one.jump + 1) for target in targets]
        return [Edge(edge.kind, node, self.directed(node, edge), edge.slot) for edge in self.edges_from(home(node))]

    def directed(self, node, edge):
        """Where a direct edge leads: to an open switch's jump itself only from its comparison by the way to it."""
        if edge.target in self.jumps:
            way = self.jumps[edge.target].edge
            if (node, edge.kind) != (way.source, way.kind):
                return Landed(edge.target)
        return edge.target

    def words_of(self, number):
        return range(self.firsts[number], self.last(number) + 1)

    def edges_from(self, number):
        """The edges of a block to blocks."""
        last = self.last(number)
        kind, target, annul, cond = self.ends[last]
        slot = last + 1
        if kind == 'fall':
            yield Edge('fall', number, self.block_of.get(last + 1))
        elif kind == 'call':
            yield Edge('call', number, self.block_of.get(target), slot)
        elif kind == 'jump':
            yield Edge('out', number, None, slot)
        else:
            always, never = cond == 8, cond == 0
            if not never:
                yield Edge('taken', number, self.block_of.get(target), None if annul and always else slot)
            if not always:
                yield Edge('untaken', number, self.block_of.get(last + 2), None if annul else slot)


def listing(file):
    graph = Graph(Program(file))
    address, node = graph.address, graph.node_text

    def slot(word):
        return '-' if word is None else address(word) if word < graph.count else 'off'

    lines = []
    for start in sorted(graph.routines):
        name = bytes(byte if 0x21 <= byte <= 0x7e else 63 for byte in graph.routines[start]).decode() or '-'
        lines.append(f'routine {address(start)} {name}')
    for number, first in enumerate(graph.firsts):
        lines.append(f'block {number} {address(first)} {graph.last(number) + 1 - first}')
    for number, edge in enumerate(graph.edges):
        lines.append(f'edge {number} {edge.kind} {node(edge.source)} {node(edge.target)} {slot(edge.slot)}')
    lines += [f'switch {address(one.jump)} {one.table:08x} {one.count}' for one in graph.switches]
    lines.append(f'routines {len(graph.routines)} blocks {len(graph.firsts)} edges {len(graph.edges)}')
    return '\n'.join(lines) + '\n'


def random_word(count):
    """A word of a text of so many: mostly transfers that lead near it."""
    near = random.randrange(-count - 3, count + 3)
    branching = branch(random.randrange(16), random.randrange(2), near)
    return random.choice([branching, branching, call(near), 0x81c7e008, random.getrandbits(32), NOP, NOP])


def random_text(start):
    """Words at an address, mostly transfers, and one at which the program is entered."""
    count = random.randrange(1, 40)
    words = [random_word(count) for _ in range(count)]
    if random.randrange(3) == 0:
        words = near_switch(start) + words[:random.randrange(9)]
    return words, random.randrange(len(words))


def random_file(text_at):
    """A program without a fault whose section table can mostly be read, and mostly names functions."""
    start = 0x10000 + 4 * random.randrange(100)
    words, entry = text_at(start)
    count = len(words)
    text = struct.pack(f'>{count}I', *words)
    strings = b'\0main\0f\0' + bytes(random.choices(b' A~\x7f\xffa', k=random.randrange(400)))
    symbols = b''.join(
        struct.pack('>IIIBBH', random.randrange(len(strings) + 9), start + random.randrange(-9, 4 * count + 9), 4,
                    random.choice([0x12, 0x02, 0x11, 0x10, 0x22]), 0, 1)
        for _ in range(random.randrange(20))) + bytes(random.randrange(16))
    places = [84 + len(text), 84 + len(text) + len(strings)]
    sections = [(0,) * 10,
                (0, random.choice([2, 2, 2, 3]), 0, 0, places[1], len(symbols) + random.choice([0, 0, 0, 500]),
                 random.choice([2, 2, 2, 0, 1, 3]), 0, 0, random.choice([16, 16, 16, 12])),
                (0, random.choice([3, 3, 3, 2]), 0, 0, places[0], len(strings) + random.choice([0, 0, 0, 99999]),
                 1, 0, 0, 16)]
    table = b''.join(struct.pack('>10I', *section) for section in sections)
    table = table[:len(table) - random.choice([0, 0, 0, 0, 1])]
    shoff = random.choice([places[1] + len(symbols)] * 9 + [0])
    header = struct.pack('>4sBBB9xHHIIIIIHHHHHH', b'\x7fELF', 1, 2, 1, 2, 2, 1, start + 4 * entry, 52,
                         shoff, 0, 52, 32, 1, random.choice([40] * 9 + [44]), random.choice([3] * 8 + [0, 4]), 0)
    segment = struct.pack('>8I', 1, 84, start, start, len(text), len(text), 5, 0)
    return header + segment + text + strings + symbols + table


def differs(eel, name, wanted):
    """Whether the program shows the file otherwise."""
    return subprocess.run([eel, 'show', name], capture_output=True).stdout.decode() != wanted


def compare_random(eel, text_at, count):
    sorts = collections.Counter()
    with tempfile.TemporaryDirectory() as folder:
        name = os.path.join(folder, 'program')
        for number in range(count):
            random.seed(number)
            file = random_file(text_at)
            with open(name, 'wb') as target:
                target.write(file)
            if differs(eel, name, listing(file)):
                print(f'random file {number} differs')
                return 1
            program = Program(file)
            graph = Graph(program)
            sorts.update(why or 'open' for _, why in told_apart(program, graph, graph.switches))
    told = ', '.join(f'{number} {sort}' for sort, number in sorted(sorts.items()))
    print(f'{count} random files, {sorts.total()} switches: {told}')
    return 0


def main():
    parser = parser_of(__doc__)
    parser.add_argument('--eel', metavar='PROGRAM', default=EEL, help='the program that is run, in place of ./eel')
    kind = parser.add_mutually_exclusive_group()
    kind.add_argument('--compare', action='store_true', help='compare with what `show` prints of the files')
    kind.add_argument('--random', metavar='COUNT', type=natural, help='compare for random files')
    kind.add_argument('--switches', metavar='COUNT', type=natural, help='compare for random files with switches')
    parser.add_argument('files', metavar='FILE', nargs='*', help='a program')
    words = parser.parse_args()
    count = words.switches if words.random is None else words.random
    if words.compare or count is not None:
        built(words.eel)
    if count is not None:
        return compare_random(words.eel, switch_words if words.random is None else random_text, count)
    if not words.files:
        parser.error('FILE is missing')
    fault = 0
    for name in words.files:
        wanted = listing(read_program(name))
        if not words.compare:
            print(wanted, end='')
        elif differs(words.eel, name, wanted):
            print(f'{name} differs')
            fault = 1
    return fault


if __name__ == '__main__':
    sys.exit(main())
