#!/usr/bin/env python3
"""Runs the programs of programs.py and crashes.py by ./eel, each beside its edited file, and then random programs. Each
edited file must have just the bytes that written.py makes, and its original again where it is restored.

COUNT is how many random programs there are: 300 unless said otherwise. With --switches, they are those with switches.
Random program number N is the same in each run. Prints a line for each answer that differs. Where a program comes to a page
of its edited file nothing is promised, so that runs may differ then.
"""
import collections
import os
import random
import re
import subprocess
import sys
import tempfile

from called import EEL, built, natural, parser_of
from crashes import CRASHES
from plain_count import Ended, Machine
from programs import C_PROGRAMS, SMALL
from random_programs import random_program
from random_switches import random_switches
from stops import Notes
from written import written


# How many steps a random program may make, and how many an edited file may make for each step of its original.
STEPS = 3000
EACH = 64

# What random programs come to.
ENDS = {'trap 1': 'left their text', 'trap 7': 'were misaligned', 'couple': 'had a transfer in a slot'}

ENDED = re.compile(rb'(.*)(exit \d+|trap \d+|window|couple|stopped) ?\d*\n', re.DOTALL)

GIVEN = b'a line, and another\nof them\n'


def eel(*words, given=b''):
    ran = subprocess.run([EEL, *words], input=given, capture_output=True)
    return ran.returncode, ran.stdout, ran.stderr


def put(name, content):
    with open(name, 'wb') as file:
        file.write(content)


def get(name):
    with open(name, 'rb') as file:
        return file.read()


def compare(name, got, wanted):
    if got != wanted:
        print(f'{name}: {got} where {wanted} was wanted')
    return got != wanted


def compare_run(program, words, ending):
    wanted = 0, program.output, program.errors + ending.encode() + b'\n'
    return compare(f'{program.name}, {words}', eel('run', *words, given=program.given), wanted)


def edit_fault(file):
    """Edits the file f, which has these bytes, as g, and says what is wrong with that, if anything."""
    if eel('edit', 'f', 'g', 'plain') != (0, b'', b'') or get('g') != written(file):
        return 'not edited'
    if eel('restore', 'g', 'h') != (0, b'', b'') or get('h') != file:
        return 'not restored'
    return None


def compare_program(program):
    """Runs the file f in just its steps, in one less, and its edited file."""
    steps = program.steps
    faults = compare_run(program, ['f', '-n', str(steps)], program.ending)
    faults += compare_run(program, ['f', '-n', str(steps - 1)], f'stopped {steps - 1}')
    faults += compare(f'{program.name}, its edit', edit_fault(program.file()), None)
    return faults + compare_run(program, ['g', '-n', str(EACH * (steps + 1))], program.ending)


def run(name, steps):
    """A run's output, its errors, and its ending."""
    _, output, errors = eel('run', name, '-n', str(steps), given=GIVEN)
    errors, ending = ENDED.fullmatch(errors).groups()
    return output, errors, ending.decode()


def begins(part, whole):
    """Whether a run has put out the first bytes of what another one has."""
    return all(after.startswith(before) for before, after in zip(part[:2], whole[:2]))


def compare_runs(steps):
    """How the file f ends, and whether its edited file g runs otherwise: where f goes on, g has put out as much as f
    by then, and no more than f will."""
    first, edited = run('f', steps), run('g', EACH * (steps + 1))
    if first[2] != 'stopped':
        return ENDS.get(first[2], 'ended otherwise'), first != edited
    later = run('f', EACH * (steps + 1))
    goes_on = edited[2] == 'stopped' and begins(edited, later)
    return 'went on', not begins(first, edited) or not (goes_on or edited == later)


def touches(file, pages):
    """Whether a run fetches, loads or stores in some pages, by the machine of plain_count.py."""
    machine, touched = Machine(file, [], GIVEN), []
    find = machine.memory.find

    def watch(address, count):
        touched.extend(start for start, length in pages if start < address + count and address < start + length)
        return find(address, count)

    machine.memory.find = watch
    try:
        for _ in range(EACH * (STEPS + 1)):
            machine.step()
    except Ended:
        pass
    return bool(touched)


def compare_random(maker, number):
    """How random program N ends, and whether its edited file isn't as it must be."""
    random.seed(number)
    file = maker()
    put('f', file)
    fault = edit_fault(file)
    if fault:
        return fault, True
    end, differs = compare_runs(STEPS)
    if differs and touches(file, Notes(get('g')).pages):
        return 'came to a page of their edited file', False
    return end, differs


def compare_all_random(maker, count, first):
    ends = collections.Counter()
    faults = 0
    for number in range(first, first + count):
        end, differs = compare_random(maker, number)
        ends[end] += 1
        faults += differs
        if differs:
            print(f'random program {number} differs: {end}')
    told = ''.join(f', {number} {end}' for end, number in sorted(ends.items()))
    print(f'{count} random programs{told}; {faults} differ')
    return faults


def main():
    parser = parser_of(__doc__)
    parser.add_argument('--switches', action='store_true', help='random programs are those with switches')
    parser.add_argument('count', metavar='COUNT', type=natural, nargs='?', default=300, help='how many random programs')
    parser.add_argument('first', metavar='FIRST', type=natural, nargs='?', default=0, help='the number of the first')
    words = parser.parse_args()
    built(EEL)
    maker, count, first = random_switches if words.switches else random_program, words.count, words.first
    faults = 0
    os.chdir(tempfile.mkdtemp())
    programs = SMALL + CRASHES + C_PROGRAMS
    for program in programs:
        put('f', program.file())
        faults += compare_program(program)
    print(f'{len(programs)} programs, {faults} answers differ')
    faults += compare_all_random(maker, count, first)
    return 1 if faults else 0


if __name__ == '__main__':
    sys.exit(main())
