#!/usr/bin/env python3
"""Follows a program and its edited file side by side, and says whether docs/STATEMENT.md shows what comes of it.

The program is carry_loop of crates/program_runs, with a counter on the edge that leads back to its loop's begin. The edited
file is run by `./eel run -n M -d DUMP` for each number of steps M: where it stands and what its cell holds is in the dump.
The original is run by plain_count.py. A row tells where the edited file stands after M steps, the instruction there, and
where that is a visit, after how many steps N the original stands at which instruction. With --write the rows are put into
STATEMENT.md, below its line `<!-- trace -->`.
"""
import itertools
import os
import re
import struct
import subprocess
import sys
import tempfile

from called import EEL, TOP, built, parser_of
from disassembler import text
from plain_count import Machine
from programs import SMALL
from stops import Notes

STATEMENT = os.path.join(TOP, 'docs', 'STATEMENT.md')
NAME, SCRIPT = 'carry_loop', 'edge 1 add 0 1\n'
FIRST, LAST = 25, 5  # so many rows at the begin and at the end
TABLE = re.compile(r'(<!-- trace -->\n(?:\|.*\n){2})((?:\|.*\n)*)')


def edited(original):
    """The file that `eel edit` writes, in this folder."""
    for name, data in ('original', original), ('script', SCRIPT.encode()):
        with open(name, 'wb') as out:
            out.write(data)
    subprocess.run([EEL, 'edit', 'original', 'written', 'script', 'script'], check=True)
    with open('written', 'rb') as file:
        return file.read()


def stop_after(steps):
    """Where the edited file's run stands after so many steps, its cell, and how it ended, if it did."""
    ran = subprocess.run([EEL, 'run', 'written', '-n', str(steps), '-d', 'dump'], input=b'', capture_output=True, check=True)
    with open('dump', 'rb') as file:
        dump = file.read()
    pc, = struct.unpack_from('>I', dump, 16)
    cell, = struct.unpack_from('>I', dump, 36)
    ending = ran.stderr.decode().split('\n')[-2]
    return pc, cell, None if ending.startswith('stopped') else ending


def instruction(machine, pc):
    return f'`{text(int.from_bytes(machine.memory.read(pc, 4), "big"), pc)}`'


def rows(original):
    """A row for each state of the edited file's run."""
    written = edited(original)
    notes, own, new, visits = Notes(written), Machine(original, [], b''), Machine(written, [], b''), 0
    for steps in itertools.count():
        pc, cell, ending = stop_after(steps)
        here = [str(steps), f'`{pc:08x}`']
        if ending:
            yield [*here, ending, str(visits), f'`{own.pc:08x}`', ending, str(cell)]
            return
        told = ['', '', '']
        if (visited := notes.place(pc)[1]) is not None:
            if visits:
                own.step()
            if own.pc != visited:
                raise ValueError(f'after {steps} steps {visited:08x} is visited, and {own.pc:08x} comes next')
            told, visits = [str(visits), f'`{own.pc:08x}`', instruction(own, own.pc)], visits + 1
        yield [*here, instruction(new, pc), *told, str(cell)]


def shown(lines):
    """The first and the last rows, as a table's."""
    dots = [['..'] * len(lines[0])]
    return ''.join(f'| {" | ".join(row)} |\n' for row in lines[:FIRST] + dots + lines[-LAST:])


def main():
    parser = parser_of(__doc__)
    parser.add_argument('--write', action='store_true', help='put the rows into docs/STATEMENT.md')
    words = parser.parse_args()
    built(EEL)
    original = next(program for program in SMALL if program.name == NAME).file()
    with tempfile.TemporaryDirectory() as folder:
        os.chdir(folder)
        found = shown(list(rows(original)))
        os.chdir(TOP)
    with open(STATEMENT, encoding='utf-8') as file:
        document = file.read()
    if words.write:
        with open(STATEMENT, 'w', encoding='utf-8') as out:
            out.write(TABLE.sub(lambda table: table[1] + found, document))
    elif TABLE.search(document)[2] != found:
        print(f'docs/STATEMENT.md shows another trace than this:\n{found}', end='')
        return 1
    return 0


if __name__ == '__main__':
    sys.exit(main())
