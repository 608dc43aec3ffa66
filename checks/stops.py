#!/usr/bin/env python3
"""Stops the profiles of programs after each of their first thousand steps, and compares what `./eel counts` tells of each
stop with the walk of the original's run up to the last instruction that was visited. Both runs are those of
plain_count.py, which shares nothing with the proved program.

With --visits edits with `every` are stopped, and told by `./eel visits`; with --trace K edits with `trace K`, told by `./eel
trace`. Prints a line for each program: how many stops there were, how many of them at visits, how many had counts, and how
many were between places; and then each stop that differs.
"""
import bisect
import os
import random
import struct
import subprocess
import sys
import tempfile

from called import EEL, built, natural, parser_of, refuse
from crashes import CRASHES
from plain_count import Counts, Ended, Machine
from programs import C_PROGRAMS, SMALL
from random_programs import random_program
from random_switches import random_switches

# What comes of the profiles that are stopped under the gate, as this script found it.
KNOWN = {'carry_loop': (84, 23, 28, 56), 'inner_landings': (73, 10, 34, 39), 'switch_of_four': (25, 12, 21, 4),
    'lands_in_a_switch': (369, 87, 186, 183), 'shares_a_table': (203, 57, 115, 88), 'loads_before_its_jump': (114, 27, 61, 53),
    'ends_with_a_switch': (28, 11, 23, 5), 'ends_with_a_comparison': (13, 7, 9, 4), 'newline_count': (1000, 397, 503, 497)}

STEPS = 1000
ENDINGS = ['none', 'exit', 'trap', 'window', 'couple']


class Notes:
    """The version of a written file's notes and the size of its original, where visits stand, its pages, and its cells."""

    def __init__(self, file):
        self.version, at, length = struct.unpack_from('>3I', file, 4032 + 4)
        words = list(struct.unpack_from(f'>{length // 4}I', file, at))
        self.length = words[1]
        self.base, self.cells, segments = words[6:9]
        self.pages = list(zip(words[9:9 + 2 * segments:2], words[10:10 + 2 * segments:2]))
        rest = words[9 + 2 * segments:]
        rest = rest[1 + rest[0]:]
        rest = rest[1 + 4 * rest[0]:]
        rows = rest[1:]
        self.ranges = [tuple(rows[k:k + 4]) for k in range(0, len(rows), 4)]
        self.lows = [row[0] for row in self.ranges]

    def range_at(self, address):
        number = bisect.bisect_right(self.lows, address) - 1
        if number >= 0 and address < self.ranges[number][1]:
            return self.ranges[number]
        return None

    def place(self, address):
        """Whether counts can be told where a run stands there, and the address that is visited, if one is."""
        noted = self.range_at(address)
        if noted:
            return True, noted[2] if noted[0] == address else None
        outside = not any(start <= address < start + length for start, length in self.pages)
        return outside, address if outside else None


class Walk:
    """The run of an original with its counts, one step at a time."""

    def __init__(self, file, given):
        self.machine, self.counts = Machine(file, [], given), Counts(file)

    def step(self):
        pc, before = self.machine.pc, self.machine.slot
        try:
            self.machine.step()
        except Ended:
            return
        self.counts.stepped(pc, before, self.machine.slot, self.machine.pc)


def dump(machine, notes, ending, steps):
    kind, number = (ending.split() + ['0'])[:2] if ending else ('none', '0')
    cells = machine.memory.read(notes.base, 4 * notes.cells)
    told = [notes.cells] if notes.version == 1 else [notes.length, notes.cells]
    head = struct.pack('>4s4IQ', b'EELD', notes.version, ENDINGS.index(kind), int(number), machine.pc, steps)
    return head + struct.pack(f'>{len(told)}I', *told) + cells


class Told:
    """An edit that is stopped, the command that tells of its dumps, and the lines of a walk that it must print."""

    def __init__(self, tool, command, lines):
        self.tool, self.command, self.lines = tool, command, lines

    def told(self, bytes_of_dump):
        with open('dump', 'wb') as file:
            file.write(bytes_of_dump)
        ran = subprocess.run([EEL, self.command, 'written', 'dump'], capture_output=True)
        return ran.returncode, ran.stdout, ran.stderr


COUNTS = Told(['profile'], 'counts', Counts.lines)
VISITS = Told(['every'], 'visits', Counts.visit_lines)


def last_edges(bits):
    return Told(['trace', str(bits)], 'trace', lambda counts: counts.last_lines(bits))


def stop_everywhere(name, file, given, way):
    """Edits the program, and how often its profile was stopped, at visits, with counts and without; and how many stops differ."""
    with open('original', 'wb') as out:
        out.write(file)
    if subprocess.run([EEL, 'edit', 'original', 'written', *way.tool]).returncode:
        return None
    with open('written', 'rb') as read:
        written = read.read()
    notes, walk = Notes(written), Walk(file, given)
    machine, ending = Machine(written, [], given), None
    stops = visits = known = between = differ = 0
    for steps in range(STEPS):
        in_place, visited = notes.place(machine.pc)
        if visited is not None and not ending:
            if visits:
                walk.step()
            visits += 1
            walk.counts.visits[walk.machine.pc] += 1
        if in_place:
            known, wanted = known + 1, (0, way.lines(walk.counts).encode(), b'')
        else:
            between += 1
            wanted = 65, b'', f'eel: dump: pc {machine.pc:08x} between places\n'.encode()
        stops += 1
        got = way.told(dump(machine, notes, ending, steps))
        if got != wanted or visited is not None and not ending and visited != walk.machine.pc:
            differ += 1
            print(f'{name}: after {steps} steps {got} where {wanted} was wanted')
        if ending:
            break
        try:
            machine.step()
        except Ended as ended:
            ending = str(ended)
    return stops, visits, known, between, differ


def line(name, stops, visits, known, between):
    return f'{name}: {stops} stops, {visits} visits, {known} told, {between} between places'


def printed():
    """What crates/program_runs prints of the profiles that it stops."""
    return [f'{line(name, *numbers)}\n'.encode() for name, numbers in KNOWN.items()]


def report(name, file, given, way):
    answer = stop_everywhere(name, file, given, way)
    if answer is None:
        print(f'{name}: not edited')
        return 1
    print(line(name, *answer[:-1]))
    return answer[-1]


def parsed():
    parser = parser_of(__doc__)
    kind = parser.add_mutually_exclusive_group()
    kind.add_argument('--visits', action='store_true', help='edits with `every`')
    kind.add_argument('--trace', metavar='K', type=natural, help='edits with `trace K`')
    maker = parser.add_mutually_exclusive_group()
    maker.add_argument('--random', metavar='COUNT', type=natural, help='random programs, each the same in each run')
    maker.add_argument('--switches', metavar='COUNT', type=natural, help='random programs with switches')
    parser.add_argument('--first', metavar='NUMBER', type=natural, default=0, help='the number of the first of these')
    parser.add_argument('names', metavar='NAME', nargs='*', help='programs of crates/program_runs, or those of crashes.py: all unless some are named')
    return parser.parse_args()


def main():
    words, programs = parsed(), SMALL + CRASHES + C_PROGRAMS
    if unknown := set(words.names) - {program.name for program in programs}:
        refuse(f'{min(unknown)}: no program of crates/program_runs or crashes.py')
    built(EEL)
    os.chdir(tempfile.mkdtemp())
    way = VISITS if words.visits else COUNTS if words.trace is None else last_edges(words.trace)
    if words.random is not None or words.switches is not None:
        count, maker = (words.switches, random_switches) if words.random is None else (words.random, random_program)
        faults = 0
        for seed in range(words.first, words.first + count):
            random.seed(seed)
            faults += report(f'random {seed}', maker(), b'a line, and another\nof them\n', way)
        return 1 if faults else 0
    chosen = [program for program in programs if not words.names or program.name in words.names]
    return 1 if sum(report(program.name, program.file(), program.given, way) for program in chosen) else 0


if __name__ == '__main__':
    sys.exit(main())
