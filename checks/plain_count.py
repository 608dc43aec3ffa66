#!/usr/bin/env python3
"""Runs a program and prints how often its run completes each edge of its flow graph, made apart from the proved program.

The run takes the standard input, and at most LIMIT steps: 100000000 unless said otherwise. Lines are those of
`eel counts`: `edge N KIND FROM TO COUNT` for each edge that was completed, and how many edges there are, how many of
them lie off a spanning tree, and the sum of the counts. With --visits they are those of `eel visits`: how often each word was
carried out or begun. With --trace they are those of `eel trace`: the last 2^K edges. The ending and the number of steps go to
the error stream, and what the program writes is dropped.

The machine is that of The SPARC Architecture Manual, Version 8: its integer unit in user mode, with eight windows.
With --programs, runs the small programs of programs.py instead, and prints those that end otherwise than is known.
"""
import collections
import functools
import struct
import sys

from called import natural, parser_of, read_program
from listing import Graph, Program, home
from programs import SMALL
from sparc import (
    ADD, ADDX, AND, ANDN, JMPL, OR, ORN, SDIV, SLL, SMUL, SRA, SRL, SUB, SUBX, TICC, UDIV, UMUL, XNOR, XOR, Word, signed)

MASK = 0xffffffff
READ, WRITE, EXECUTE = 4, 2, 1
HEAP = 0x80000000
MOST_BITS = 16  # of a ring of edges
STACK, STACK_END = 0xeff00000, 0xf0000000
fields = functools.cache(Word)


class Ended(Exception):
    """The end of a run, with its line."""


def trap(number):
    return Ended(f'trap {number}')


class Region:
    """Bytes in memory, of which the first `size` are mapped."""

    def __init__(self, start, data, flags, size=None):
        self.start, self.data, self.flags = start, bytearray(data), flags
        self.size = len(self.data) if size is None else size


class Memory:
    def __init__(self, file, args):
        self.heap = Region(HEAP, bytes(1 << 24), READ | WRITE, 0)
        self.regions = [self.heap]
        phoff, = struct.unpack('>I', file[28:32])
        phnum, = struct.unpack('>H', file[44:46])
        for at in range(phoff, phoff + 32 * phnum, 32):
            kind, offset, vaddr, _, filesz, memsz, flags, _ = struct.unpack('>8I', file[at:at + 32])
            if kind == 1 and memsz:
                self.regions.append(Region(vaddr, file[offset:offset + filesz].ljust(memsz, b'\0'), flags & 7))
        self.regions.append(Region(STACK, self.stack(args), READ | WRITE))

    def stack(self, args):
        """The bytes of the stack, with the arguments at its end; sets the stack pointer."""
        texts = [b'program\0'] + [arg + b'\0' for arg in args]
        strings = b''.join(texts)
        at = STACK_END - (len(strings) + 7) // 8 * 8
        self.sp = (at - 64 - 4 * (len(texts) + 5)) // 8 * 8
        words = [len(texts)] + [at + sum(map(len, texts[:k])) for k in range(len(texts))] + [0] * 4
        below = self.sp + 64 - STACK
        top = struct.pack(f'>{len(words)}I', *words).ljust(at - self.sp - 64, b'\0') + strings
        return (bytes(below) + top).ljust(STACK_END - STACK, b'\0')

    def find(self, address, count):
        """The region that has these bytes, and where they begin in it."""
        for region in self.regions:
            if region.start <= address and address + count <= region.start + region.size:
                return region, address - region.start
        return None, 0

    def fetch(self, address):
        region, at = self.find(address, 4)
        if address % 4 or region is None or region.flags & (EXECUTE | WRITE) != EXECUTE:
            raise trap(1)
        return int.from_bytes(region.data[at:at + 4], 'big')

    def read(self, address, count):
        """The bytes there, or None where they may not be read."""
        region, at = self.find(address, count)
        return bytes(region.data[at:at + count]) if region and region.flags & READ else None

    def write(self, address, data):
        """Whether the bytes could be written."""
        region, at = self.find(address, len(data))
        if region is None or not region.flags & WRITE:
            return False
        region.data[at:at + len(data)] = data
        return True


class Machine:
    """A program that runs: one call of `step` for each instruction."""

    def __init__(self, file, args, given):
        self.memory, self.given = Memory(file, args), given
        self.pc, = struct.unpack('>I', file[24:28])
        self.npc = self.pc + 4 & MASK
        self.slot = None  # 'taken' or 'untaken' while the instruction at pc is in a delay slot
        self.globals, self.windowed = [0] * 8, [0] * 128
        self.window, self.valid = 0, 1
        self.n = self.z = self.v = self.c = False
        self.y = 0
        self.set(14, self.memory.sp)

    def place(self, number, window=None):
        return (16 * (self.window if window is None else window) + number - 8) % 128

    def get(self, number):
        return self.globals[number] if number < 8 else self.windowed[self.place(number)]

    def set(self, number, value):
        if number >= 8:
            self.windowed[self.place(number)] = value & MASK
        elif number:
            self.globals[number] = value & MASK

    def step(self):
        word = fields(self.memory.fetch(self.pc))
        if word.op == 1:
            self.transfer()
            self.set(15, self.pc)
            self.delay(self.pc + 4 * word.disp30)
        elif word.op == 0:
            self.branch_or_sethi(word)
        elif word.op == 2:
            self.operate(word)
        else:
            self.access(word)

    def go_on(self):
        self.pc, self.npc, self.slot = self.npc, self.npc + 4 & MASK, None

    # Transfers, and their delay slots.

    def transfer(self):
        if self.slot:
            raise Ended('couple')

    def delay(self, target):
        self.pc, self.npc, self.slot = self.npc, target & MASK, 'taken'

    def holds(self, cond):
        rows = [False, self.z, self.z or self.n != self.v, self.n != self.v, self.c or self.z, self.c, self.n, self.v]
        return rows[cond % 8] != (cond >= 8)

    def branch_or_sethi(self, word):
        if word.op2 == 4:
            self.set(word.rd, word.imm22 << 10)
            self.go_on()
        elif word.op2 == 2:
            self.branch(word.cond, word.annul, self.pc + 4 * word.disp22 & MASK)
        else:
            raise trap({6: 4, 7: 0x24}.get(word.op2, 2))

    def branch(self, cond, annul, target):
        self.transfer()
        if self.holds(cond):
            if cond == 8 and annul:
                self.pc, self.npc = target, target + 4 & MASK
            else:
                self.delay(target)
        elif annul:
            self.pc, self.npc = self.pc + 8 & MASK, self.pc + 12 & MASK
        else:
            self.go_on()
            self.slot = 'untaken'

    # Instructions of registers.

    def operand(self, word):
        return self.get(word.rs2) if word.simm13 is None else word.simm13 & MASK

    def operate(self, word):
        rd, op3, rs1 = word.rd, word.op3, word.rs1
        if op3 < 0x20 and op3 & 15 not in (9, 13):
            self.arithmetic(op3 & 15, op3 >> 4, rd, self.get(rs1), self.operand(word))
        elif 0x20 <= op3 <= 0x23:
            self.tagged(op3 & 1, op3 & 2, rd, self.get(rs1), self.operand(word))
        elif op3 == 0x24:
            self.multiply_step(rd, self.get(rs1), self.operand(word))
        elif SLL <= op3 <= SRA:
            self.shift(op3, rd, self.get(rs1), self.operand(word) % 32)
        elif op3 == 0x28 and rs1 == 0:
            self.set(rd, self.y)
        elif op3 == 0x28 and rs1 == 15 and rd == 0 or op3 == 0x3b:
            pass
        elif op3 == 0x30 and rd == 0:
            self.y = self.get(rs1) ^ self.operand(word)
        elif op3 == JMPL:
            return self.jump(rd, self.get(rs1) + self.operand(word) & MASK)
        elif op3 == TICC:
            return self.software_trap(word.cond, (self.get(rs1) + self.operand(word)) % 128)
        elif op3 == 0x3c:
            self.save(rd, self.get(rs1) + self.operand(word))
        elif op3 == 0x3d:
            self.restore(rd, self.get(rs1) + self.operand(word))
        elif op3 in (0x29, 0x2a, 0x2b, 0x31, 0x32, 0x33, 0x39):
            raise trap(3)
        else:
            raise trap({0x34: 4, 0x35: 4, 0x36: 0x24, 0x37: 0x24}.get(op3, 2))
        self.go_on()

    def put(self, rd, value, sets, overflow=False, carry=False):
        """A result, with the codes where the operation sets them."""
        value &= MASK
        if sets:
            self.n, self.z, self.v, self.c = bool(value >> 31), value == 0, overflow, carry
        self.set(rd, value)

    def arithmetic(self, kind, sets, rd, a, b):
        if kind in (ADD, ADDX):
            total = a + b + (self.c if kind == ADDX else 0)
            self.put(rd, total, sets, self.sum_overflows(a, b, total), total > MASK)
        elif kind in (SUB, SUBX):
            total = a - b - (self.c if kind == SUBX else 0)
            self.put(rd, total, sets, self.sum_overflows(a, ~b, total), total < 0)
        elif kind in (UMUL, SMUL):
            product = a * b if kind == UMUL else signed(a) * signed(b)
            self.y = product >> 32 & MASK
            self.put(rd, product, sets)
        elif kind in (UDIV, SDIV):
            self.divide(kind, sets, rd, a, b)
        else:
            other = ~b if kind in (ANDN, ORN) else b
            value = {AND: a & b, OR: a | b, XOR: a ^ b, ANDN: a & other, ORN: a | other, XNOR: ~(a ^ b)}[kind]
            self.put(rd, value, sets)

    @staticmethod
    def sum_overflows(a, b, total):
        return bool((a ^ total) & (b ^ total) & 1 << 31)

    def divide(self, kind, sets, rd, a, b):
        if b == 0:
            raise trap(0x2a)
        dividend = self.y << 32 | a
        if kind == UDIV:
            quotient, least, most = dividend // b, 0, MASK
        else:
            dividend, b = signed(dividend, 64), signed(b)
            quotient = abs(dividend) // abs(b) * (1 if (dividend < 0) == (b < 0) else -1)
            least, most = -1 << 31, (1 << 31) - 1
        fitting = max(least, min(most, quotient))
        self.put(rd, fitting, sets, fitting != quotient)

    def tagged(self, subtracts, traps, rd, a, b):
        total = a - b if subtracts else a + b
        overflow = self.sum_overflows(a, ~b if subtracts else b, total) or bool((a | b) & 3)
        if traps and overflow:
            raise trap(10)
        self.put(rd, total, True, overflow, total < 0 or total > MASK)

    def multiply_step(self, rd, a, b):
        shifted = (self.n != self.v) << 31 | a >> 1
        addend = b if self.y & 1 else 0
        self.y = (a & 1) << 31 | self.y >> 1
        self.put(rd, shifted + addend, True, self.sum_overflows(shifted, addend, shifted + addend),
                 shifted + addend > MASK)

    def shift(self, op3, rd, value, count):
        self.set(rd, value << count if op3 == SLL else value >> count if op3 == SRL else signed(value) >> count)

    def jump(self, rd, target):
        self.transfer()
        if target % 4:
            raise trap(7)
        self.set(rd, self.pc)
        self.delay(target)

    # Loads and stores.

    LOADS = {0: (4, False), 1: (1, False), 2: (2, False), 3: (8, False), 9: (1, True), 10: (2, True)}
    STORES = {4: 4, 5: 1, 6: 2, 7: 8}

    def access(self, word):
        rd, op3, rs1 = word.rd, word.op3, word.rs1
        if op3 in (0x20, 0x21, 0x23, 0x24, 0x25, 0x27):
            raise trap(4)
        if op3 in (0x30, 0x31, 0x33, 0x34, 0x35, 0x37):
            raise trap(0x24)
        if 0x10 <= op3 <= 0x17 or op3 in (0x19, 0x1a, 0x1d, 0x1f, 0x26, 0x36):
            raise trap(3)
        if op3 not in self.LOADS and op3 not in self.STORES and op3 not in (0x0d, 0x0f) or op3 in (3, 7) and rd % 2:
            raise trap(2)
        address = self.get(rs1) + self.operand(word) & MASK
        size = self.LOADS[op3][0] if op3 in self.LOADS else self.STORES.get(op3, 1 if op3 == 0x0d else 4)
        if address % size:
            raise trap(7)
        if op3 in self.STORES:
            self.store(address, self.stored(rd, size))
        else:
            data = self.load(address, size)
            if op3 in (0x0d, 0x0f):
                self.store(address, b'\xff' if op3 == 0x0d else self.stored(rd, 4))
            self.loaded(rd, data, self.LOADS.get(op3, (0, False))[1])
        self.go_on()

    def stored(self, rd, size):
        if size == 8:
            return struct.pack('>2I', self.get(rd), self.get(rd + 1))
        return struct.pack('>I', self.get(rd))[4 - size:]

    def loaded(self, rd, data, extends):
        if len(data) == 8:
            self.set(rd + 1, int.from_bytes(data[4:], 'big'))
        self.set(rd, int.from_bytes(data[:4], 'big', signed=extends))

    def load(self, address, size):
        data = self.memory.read(address, size)
        if data is None:
            raise trap(9)
        return data

    def store(self, address, data):
        if not self.memory.write(address, data):
            raise trap(9)

    # Windows.

    def save(self, rd, value):
        if self.valid == 7:
            self.spill()
        self.window, self.valid = (self.window - 1) % 8, self.valid + 1
        self.set(rd, value)

    def restore(self, rd, value):
        if self.valid == 1:
            data = None if self.get(30) % 8 else self.memory.read(self.get(30), 64)
            if data is None:
                raise Ended('window')
            for number, word in enumerate(struct.unpack('>16I', data)):
                self.windowed[self.place(16 + number, self.window + 1)] = word
            self.valid = 2
        self.window, self.valid = (self.window + 1) % 8, self.valid - 1
        self.set(rd, value)

    def spill(self):
        """Saves the oldest window, which is then no longer valid."""
        oldest = self.window + self.valid - 1
        words = [self.windowed[self.place(number, oldest)] for number in range(16, 32)]
        address = self.windowed[self.place(14, oldest)]
        if address % 8 or not self.memory.write(address, struct.pack('>16I', *words)):
            raise Ended('window')
        self.valid -= 1

    # Software traps and system calls.

    def software_trap(self, cond, number):
        if self.holds(cond):
            if number == 3:
                while self.valid > 1:
                    self.spill()
            elif number == 16:
                self.call_system()
            else:
                raise trap(0x80 + number)
        self.go_on()

    def call_system(self):
        number, first, address, count = self.get(1), self.get(8), self.get(9), self.get(10)
        if number == 1:
            raise Ended(f'exit {first % 256}')
        if number == 3:
            answer = self.read_input(first, address, count)
        elif number == 4:
            answer = self.write_output(first, address, count)
        elif number == 17:
            answer = self.set_heap_end(first)
        else:
            answer = 90, True
        self.set(8, answer[0])
        self.c = answer[1]

    def read_input(self, descriptor, address, count):
        if descriptor != 0:
            return 9, True
        data = self.given[:count]
        if data and not self.memory.write(address, data):
            return 14, True
        self.given = self.given[count:]
        return len(data), False

    def write_output(self, descriptor, address, count):
        if descriptor not in (1, 2):
            return 9, True
        if count and self.memory.read(address, count) is None:
            return 14, True
        return count, False

    def set_heap_end(self, end):
        if not HEAP <= end <= HEAP + (1 << 24):
            return 12, True
        self.memory.heap.size = end - HEAP
        return 0, False


class Counts:
    """How often the edges of a program's graph are completed, which were the last, and the node at which its walk stands."""

    def __init__(self, file):
        self.program = Program(file)
        self.graph = Graph(self.program)
        self.counts = [0] * len(self.graph.edges)
        self.last = collections.deque(maxlen=1 << MOST_BITS)
        self.visits = collections.Counter()
        # a node has one edge of a kind, but one for each target of landings and of a switch's jump
        self.numbers = {self.way(edge.kind, edge.source, edge.target): number
                        for number, edge in enumerate(self.graph.edges)}
        self.lands = [self.graph.lands(word) for word in range(self.graph.count)]
        self.node = self.graph.holding(self.graph.entry)

    @staticmethod
    def way(kind, source, target):
        return (kind, source, target) if kind in ('case', 'land') else (kind, source)

    def complete(self, kind, target=None):
        """Control leaves the walk's node by the edge of a kind, and of a target where the node has more of them."""
        number = self.numbers[self.way(kind, self.node, target)]
        self.counts[number] += 1
        self.last.append(number)
        self.node = self.graph.edges[number].target

    def stepped(self, pc, before, after, next_pc):
        """A step at pc was made, with what its delay slot was before it and is after it."""
        if after is None and before is None:
            self.left(self.program.word_at(pc))
        elif after is None:
            kind = self.graph.ends[self.program.word_at(pc - 4)][0]
            if kind == 'jump':
                self.jumped(self.program.word_at(next_pc))
            else:
                self.complete('call' if kind == 'call' else before)

    def jumped(self, word):
        """A JMPL went on at a word, or outside the text."""
        landed = None if word is None else self.lands[word]
        if self.node in self.graph.jumps:
            self.complete('case', landed)
            return
        self.complete('out')
        if landed is not None:
            self.complete('land', landed)

    def left(self, word):
        """Control left a word without a delay slot: a branch annulled it, or it may be the last of its block."""
        kind, _, _, cond = self.graph.ends[word]
        if kind == 'branch':
            self.complete('taken' if cond == 8 else 'untaken')
        elif self.node is not None and word == self.graph.last(home(self.node)):
            self.complete('fall')

    def edge_text(self, number):
        edge, node = self.graph.edges[number], self.graph.node_text
        return f'edge {number} {edge.kind} {node(edge.source)} {node(edge.target)}'

    def lines(self):
        lines = [f'{self.edge_text(number)} {count}' for number, count in enumerate(self.counts) if count]
        off_tree = len(self.counts) - len(self.graph.firsts) - len(self.graph.copied)
        lines.append(f'edges {len(self.counts)} counted {off_tree} executions {sum(self.counts)}')
        return '\n'.join(lines) + '\n'

    def visit_lines(self):
        """How often the words of the text were carried out or begun."""
        visits = [(pc, count) for pc, count in sorted(self.visits.items()) if self.program.word_at(pc) is not None]
        lines = [f'word {pc:08x} {count}' for pc, count in visits]
        lines.append(f'words {self.graph.count} visited {len(visits)} visits {sum(count for _, count in visits)}')
        return '\n'.join(lines) + '\n'

    def last_lines(self, bits):
        """The last edges that a ring of 2^bits places holds, the oldest first."""
        last = list(self.last)[-(1 << bits):]
        lines = [self.edge_text(number) for number in last]
        lines.append(f'edges {len(last)} ring {1 << bits}')
        return '\n'.join(lines) + '\n'


def word_visits(file, args=(), given=b'', limit=100_000_000):
    """The lines that tell how often a run carries out each word of the text."""
    machine, program = Machine(file, args, given), Program(file)
    visits = [0] * len(program.words)
    for _ in range(limit):
        word = program.word_at(machine.pc)
        if word is not None:
            visits[word] += 1
        try:
            machine.step()
        except Ended:
            break
    lines = [f'word {program.start + 4 * word:08x} {count}' for word, count in enumerate(visits) if count]
    lines.append(f'words {len(visits)} visited {len(lines)} visits {sum(visits)}')
    return '\n'.join(lines) + '\n'


def walk(file, args, given, limit):
    """What a run completes of the edges, its ending, and its steps."""
    machine, counts = Machine(file, args, given), Counts(file)
    for steps in range(limit):
        pc, before = machine.pc, machine.slot
        counts.visits[pc] += 1
        try:
            machine.step()
        except Ended as ended:
            return counts, str(ended), steps + 1
        counts.stepped(pc, before, machine.slot, machine.pc)
    counts.visits[machine.pc] += 1
    return counts, f'stopped {limit}', limit


def count(file, args=(), given=b'', limit=100_000_000):
    """The lines of a run, its ending, and its steps."""
    counts, ending, steps = walk(file, args, given, limit)
    return counts.lines(), ending, steps


def edge_counts(file, args=(), given=b'', limit=100_000_000):
    """How often a run completes each edge."""
    return walk(file, args, given, limit)[0].counts


def last_edges(file, bits, args=(), given=b'', limit=100_000_000):
    """The lines of the last edges that a run completes."""
    return walk(file, args, given, limit)[0].last_lines(bits)


def print_differing():
    for program in SMALL:
        lines, ending, steps = count(program.file(), given=program.given)
        if (ending, steps) != (program.ending, program.steps):
            print(f'{program.name}: {ending} after {steps} steps, where {program.ending} after {program.steps} was wanted')


def parsed():
    parser = parser_of(__doc__, '%(prog)s FILE [--visits | --trace K] [-n LIMIT] [-- ARG..]\n       %(prog)s --programs')
    parser.add_argument('file', metavar='FILE', nargs='?', help='a program')
    kind = parser.add_mutually_exclusive_group()
    kind.add_argument('--visits', action='store_true', help='how often each word was carried out or begun')
    kind.add_argument('--trace', metavar='K', type=natural, help='the last 2^K edges')
    kind.add_argument('--programs', action='store_true', help='run the small programs, and say which end otherwise than they must')
    parser.add_argument('-n', dest='limit', metavar='LIMIT', type=natural, default=100_000_000, help='how many steps at most')
    at = sys.argv.index('--') if '--' in sys.argv else len(sys.argv)
    words = parser.parse_args(sys.argv[1:at])
    if (words.file is None) != words.programs:
        parser.error('FILE is wanted, or --programs')
    return words, sys.argv[at + 1:]


def main():
    words, args = parsed()
    if words.programs:
        return print_differing()
    file = read_program(words.file)
    counts, ending, steps = walk(file, [arg.encode() for arg in args], sys.stdin.buffer.read(), words.limit)
    lines = counts.visit_lines() if words.visits else counts.lines() if words.trace is None else counts.last_lines(words.trace)
    print(lines, end='')
    print(ending, 'after', steps, 'steps', file=sys.stderr)


if __name__ == '__main__':
    main()
