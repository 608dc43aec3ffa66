#!/usr/bin/env python3
"""Runs random programs by ./eel and by qemu-sparc, and says for which the two differ.

Each program fills its registers, carries out some sixty random instructions (arithmetic, branches with and without
annulled slots, CALLs, loads and stores, windows up to a dozen deep), and puts out all registers of the current
window, the codes, Y, and its data. Random file number N is the same in each run. With --edited, ./eel also edits each
program and runs the edited file, which must put out and come to the same.
"""
import os
import random
import struct
import subprocess
import sys
import tempfile

from called import EEL, built, needs, natural, parser_of
from sparc import JMPL, NOP, O7, branch, call, form3, set_register


TEXT = 0x10000
DATA = 0x30000
DATA_SIZE = 0x400  # the program's loads and stores; the registers are put out behind it

# Registers that programs may change: %g2 to %g5, %o0 to %o5, %l0 to %l7, %i0 to %i5. %g6 points to the data, %g1
# and %g7 are for the end.
FREE = [2, 3, 4, 5, 8, 9, 10, 11, 12, 13] + list(range(16, 30))
NUMBERS = [0, 1, 2, 3, 31, 32, 0x7f, 0x80, 0xffff, 0x7fffffff, 0x80000000, 0xfffffffe, 0xffffffff]


def number():
    return random.choice([random.choice(NUMBERS), random.getrandbits(32), random.getrandbits(8)])


def operand():
    register = ('r', random.choice(FREE + [0]))
    return random.choice([register, ('i', random.getrandbits(13)), ('i', random.randrange(-4, 5))])


# ADD AND OR XOR SUB ANDN ORN XNOR ADDX UMUL SMUL SUBX, their forms that set codes, tagged ones, MULScc and shifts
PLAIN = [0, 1, 2, 3, 4, 5, 6, 7, 8, 10, 11, 12]
EXTENDED = [0x18, 0x1c]  # ADDXcc and SUBXcc
WITH_CODES = [op3 | 0x10 for op3 in PLAIN if op3 | 0x10 not in EXTENDED]
SIMPLE = PLAIN + WITH_CODES * 2 + [0x20, 0x21, 0x24, 0x24, 0x25, 0x26, 0x27]
DIVISIONS = [14, 15, 30, 31]


def operation(op3):
    return form3(2, random.choice(FREE + [0]), op3, random.choice(FREE + [0]), operand())


def simple():
    return [operation(random.choice(SIMPLE))]


def arithmetic():
    """An operation. Before ADDXcc and SUBXcc stands an ADDcc: where they follow an operation of logic, qemu-sparc 7.2
    clears V and C, which the manual (B.12, B.13) takes from the sum."""
    if random.random() < 0.1:
        return [operation(0x10), operation(random.choice(EXTENDED))]
    return simple()


def division():
    """A division by a register that has a low bit, so that it isn't 0; mostly with a small Y."""
    divisor = random.choice(FREE)
    y = random.choice([('i', 0), ('i', random.randrange(-3, 4)), ('r', random.choice(FREE))])
    return [form3(2, divisor, 2, divisor, ('i', 1)), form3(2, 0, 0x30, 0, y), NOP, NOP, NOP,
            form3(2, random.choice(FREE), random.choice(DIVISIONS), random.choice(FREE), ('r', divisor))]


def y_register():
    if random.random() < 0.5:
        return [form3(2, random.choice(FREE), 0x28, 0, ('r', 0))]
    return [form3(2, 0, 0x30, random.choice(FREE), operand()), NOP, NOP, NOP]


# op3 of a load or store, with its size: LD LDUB LDUH LDD ST STB STH STD LDSB LDSH LDSTUB SWAP
ACCESSES = [(0, 4), (1, 1), (2, 2), (3, 8), (4, 4), (5, 1), (6, 2), (7, 8), (9, 1), (10, 2), (13, 1), (15, 4)]


def access():
    op3, size = random.choice(ACCESSES)
    place = random.randrange(DATA_SIZE // size) * size
    rd = random.choice([register for register in FREE if size < 8 or register % 2 == 0])
    if random.random() < 0.3:
        return set_register(7, place) + [form3(3, rd, op3, 6, ('r', 7))]
    return [form3(3, rd, op3, 6, ('i', place))]


def transfer():
    """A branch over up to three instructions, or a CALL to the one behind its slot."""
    skipped = [word for _ in range(random.randrange(4)) for word in arithmetic()]
    slot = simple()
    if random.random() < 0.15:
        return [call(2 + len(skipped))] + slot + skipped
    if random.random() < 0.15:
        # a jump by %o7, which a CALL to the next instruction set
        target = 4 * (4 + len(skipped))
        return [call(2), NOP, form3(2, 0, JMPL, O7, ('i', target))] + slot + skipped
    return [branch(random.randrange(16), random.randrange(2), 2 + len(skipped))] + slot + skipped


def body():
    words, depth = [], 0
    for _ in range(60):
        choice = random.random()
        if choice < 0.12 and depth < 12:
            words.append(form3(2, 14, 0x3c, 14, ('i', -96)))
            depth += 1
        elif choice < 0.2 and depth:
            words.append(form3(2, random.choice(FREE), 0x3d, random.choice(FREE), operand()))
            depth -= 1
        else:
            words += random.choices([arithmetic, division, y_register, access, transfer], [8, 1, 1, 3, 3])[0]()
    return words


def end():
    """Puts out the registers, the codes, Y and the data, and exits with a byte of %o0."""
    words = [form3(2, 1, 2, 0, ('i', 0))]
    for bit, cond in enumerate([6, 1, 7, 5]):  # N, Z, V, C: the slot of a branch that is annulled unless taken
        words += [branch(cond, 1, 2), form3(2, 1, 2, 1, ('i', 1 << bit))]
    registers = [1] + FREE + [15]
    for index, register in enumerate(registers):
        words.append(form3(3, register, 4, 6, ('i', DATA_SIZE + 4 * index)))
    words += [form3(2, 1, 0x28, 0, ('r', 0)), form3(3, 1, 4, 6, ('i', DATA_SIZE + 4 * len(registers)))]
    words += [form3(2, 16, 2, 8, ('i', 0)), form3(2, 8, 2, 0, ('i', 1)), form3(2, 9, 2, 6, ('i', 0)),
              form3(2, 10, 2, 0, ('i', DATA_SIZE + 4 * len(registers) + 4)), form3(2, 1, 2, 0, ('i', 4)), 0x91d02010]
    return words + [form3(2, 8, 1, 16, ('i', 0xff)), form3(2, 1, 2, 0, ('i', 1)), 0x91d02010]


def program():
    # qemu-sparc loads the first window from its frame where a program comes back to it, which no save has filled.
    words = [form3(2, 14, 0x3c, 14, ('i', -96))] + set_register(6, DATA)
    for register in FREE:
        words += set_register(register, number())
    words += [form3(2, 0, 0x30, 0, ('r', random.choice(FREE))), NOP, NOP, NOP]
    words += body() + end()
    text = struct.pack(f'>{len(words)}I', *words)
    data = bytes(random.choices(range(256), k=DATA_SIZE))
    start = 52 + 2 * 32
    header = struct.pack('>4sBBB9xHHIIIIIHHHHHH', b'\x7fELF', 1, 2, 1, 2, 2, 1,
                         TEXT + start, 52, 0, 0, 52, 32, 2, 0, 0, 0)
    size = start + len(text)
    place = -(-size // 0x10000) * 0x10000
    segments = [struct.pack('>8I', 1, 0, TEXT, TEXT, size, size, 5, 0x10000),
                struct.pack('>8I', 1, place, DATA, DATA, len(data), 0x1000, 6, 0x10000)]
    return (header + b''.join(segments) + text).ljust(place, b'\0') + data


def eel_run(name):
    ran = subprocess.run([EEL, 'run', name], capture_output=True)
    return ran.stdout, ran.stderr


def qemu_run(name):
    """What qemu-sparc puts out, and the ending line that belongs to its status."""
    ran = subprocess.run(['qemu-sparc', name], capture_output=True)
    return ran.stdout, b'exit %d\n' % ran.returncode


def edited_run(name):
    """What the edited file of a program comes to, or None where it can't be edited."""
    edit = subprocess.run([EEL, 'edit', name, f'{name}.edited', 'plain'], capture_output=True)
    return None if edit.returncode or edit.stderr else eel_run(f'{name}.edited')


def main():
    parser = parser_of(__doc__)
    parser.add_argument('--edited', action='store_true', help='also edit each program and run the edited file')
    parser.add_argument('count', metavar='COUNT', type=natural, help='how many programs')
    parser.add_argument('first', metavar='FIRST', type=natural, nargs='?', default=0, help='the number of the first')
    words = parser.parse_args()
    needs('qemu-sparc')
    built(EEL)
    count, first = words.count, words.first
    others = {'qemu-sparc': qemu_run} | ({'its edited file': edited_run} if words.edited else {})
    differ = dict.fromkeys(others, 0)
    with tempfile.TemporaryDirectory() as folder:
        name = os.path.join(folder, 'program')
        for seed in range(first, first + count):
            random.seed(seed)
            with open(name, 'wb') as target:
                target.write(program())
            os.chmod(name, 0o755)
            ours = eel_run(name)
            for other, run in others.items():
                theirs = run(name)
                if theirs != ours:
                    print(f'program {seed} differs from {other}: {ours[1]}, and {theirs and theirs[1]}')
                    differ[other] += 1
    print(f'{count} programs', *[f'{number} differ from {other}' for other, number in differ.items()], sep=', ')
    return 1 if any(differ.values()) else 0


if __name__ == '__main__':
    sys.exit(main())
