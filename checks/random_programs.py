"""Random programs with transfers of all kinds."""
import random
import struct

from beside_qemu import FREE, SIMPLE, access, arithmetic, division, number, operand, simple, y_register
from programs import Program
from sparc import G1, G6, JMPL, O0, O1, O2, O7, SP, TICC, branch, call, form3, set_register

# Where the text stands, and addresses outside it and all pages of an edited file.
TEXT = 0x10054
OUTSIDE = [0, 8, TEXT - 4, 0x71ad4, 0x7ffffffc, 0xeffffffc, 0xffffeffc]

# Where %g6 points below %sp, and where registers are put there, behind the other data.
AREA = -0x1000
SHOWN = 0x400

WRITE, READ, BRK, NO_CALL = 4, 3, 17, 99


def move(rd, value):
    return form3(2, rd, 2, 0, ('i', value))


def trap(condition, number):
    return form3(2, condition, TICC, 0, ('i', number))


def lone_branch():
    """A branch on any condition: mostly a few words on, often back, and seldom out of the text."""
    kind = random.choices([range(2, 14), range(0, 4), range(-30, 2), [-100000, 100000, -1 << 21, (1 << 21) - 1]],
                          [60, 27, 12, 1])[0]
    return [branch(random.randrange(16), random.randrange(2), random.choice(kind))]


def with_g1():
    """An operation that writes or reads %g1, which an edited file takes for its jumps and gives back."""
    rd, rs1 = random.sample([G1, random.choice(FREE)], 2)
    return [form3(2, rd, random.choice(SIMPLE), rs1, operand())]


def slot():
    """Mostly no transfer."""
    return random.choices([simple, with_g1, access, near_stack, end, lone_branch, lone_call, lone_jump],
                          [60, 20, 10, 7, 1, 1, 1, 1])[0]()


def branching():
    return lone_branch() + slot()


def lone_call():
    """A CALL: mostly a few words on, and seldom out of the text."""
    kind = random.choices([range(2, 14), range(-8, 2), [100000, -100000, 1 << 28, -1 << 29]], [60, 6, 1])[0]
    return [call(random.choice(kind))]


def calling():
    return lone_call() + slot()


def lone_jump():
    """A JMPL by %o7, which mostly has the address of the last CALL or JMPL."""
    offset = random.choices([4 * random.randrange(2, 16), 4 * random.randrange(-4, 9), random.randrange(-20, 40)],
                            [60, 10, 1])[0]
    return [form3(2, random.choice([0, O7, O7, *FREE]), JMPL, O7, ('i', offset))]


def returning():
    return lone_jump() + slot()


def routine():
    """A subroutine that control goes past, and then a CALL of it."""
    inner = [word for _ in range(random.randrange(5)) for word in random.choice([simple, with_g1, access])()]
    inner += [form3(2, 0, JMPL, O7, ('i', 8))] + slot()
    return [branch(8, 0, 2 + len(inner))] + simple() + inner + [call(-len(inner))] + slot()


def jumping(here):
    """A JMPL whose target is set before: mostly a word nearby, seldom data, outside the text, or misaligned."""
    if random.random() < 0.01:
        return [form3(2, O7, JMPL, G6, ('i', 8))] + slot()
    near = here + 4 * random.choices([random.randrange(2, 30), random.randrange(-8, 2)], [95, 5])[0]
    target = random.choices([near, random.choice(OUTSIDE), near + random.randrange(1, 4)], [60, 1, 1])[0]
    base, other = random.sample([G1, *FREE], 2)
    rd, offset = random.choice([0, 0, O7, O7, base, other]), 4 * random.randrange(-9, 9)
    words = set_register(base, target - offset & 0xffffffff)
    if random.random() < 0.5:
        return words + [form3(2, rd, JMPL, base, ('i', offset))] + slot()
    first, second = random.sample([base, other], 2)
    return words + [move(other, offset), form3(2, rd, JMPL, first, ('r', second))] + slot()


def puts():
    """Puts out six registers, %g1 among them."""
    registers = random.sample(FREE, 6)
    registers[random.randrange(6)] = G1
    stores = [form3(3, register, 4, G6, ('i', SHOWN + 4 * index)) for index, register in enumerate(registers)]
    descriptor = random.choice([1, 1, 1, 2])
    place = form3(2, O1, 0, G6, ('i', SHOWN))
    return stores + [move(G1, WRITE), move(O0, descriptor), place, move(O2, 24), trap(8, 16)]


def system_call():
    """One that reads, moves the heap's end, or isn't there; or all windows are saved."""
    if random.random() < 0.3:
        return [trap(8, 3)]
    number = random.choice([READ, BRK, NO_CALL])
    return [move(G1, number), move(O0, 0), form3(2, O1, 0, G6, ('i', 8)), move(O2, random.randrange(12)), trap(8, 16)]


def near_stack():
    """A word that is stored or loaded near %sp."""
    return [form3(3, random.choice(FREE), random.choice([0, 4]), SP, ('i', 4 * random.randrange(-20, 16)))]


def window():
    return [random.choice([form3(2, SP, 0x3c, SP, ('i', -96)), form3(2, random.choice(FREE), 0x3d, 0, ('i', 1))])]


def end():
    """What mostly ends a run: a trap on a condition, a wrong access, no instruction, a privileged one, or an exit."""
    wrong = [form3(3, 2, random.choice([0, 4]), G6, ('i', 2)), form3(3, 2, 0, 0, ('i', 64)), 0, 0x87480000]
    return random.choice([[trap(random.randrange(16), random.randrange(128))], [random.choice(wrong)],
                          [move(G1, 1), trap(8, 16)]])


PARTS = {simple: 22, with_g1: 10, branching: 18, calling: 4, returning: 2, routine: 4, jumping: 5, arithmetic: 6,
         access: 8, near_stack: 6, y_register: 2, division: 1, puts: 6, system_call: 2, window: 1, end: 1}


def body(count, here):
    """So many parts, the first at an address."""
    words = []
    for part in random.choices(list(PARTS), PARTS.values(), k=count):
        words += part(here + 4 * len(words)) if part is jumping else part()
    return words


def start(here):
    """Gives the registers their first values; %o7 has an address nearby."""
    words = [form3(2, G6, 0, SP, ('i', AREA))] + set_register(O7, here + 4 * random.randrange(32, 60))
    for register in FREE:
        words += set_register(register, number())
    return words


def random_program():
    """A file whose entry stands somewhere in its text, and whose last word may be a transfer."""
    words = body(random.randrange(12), TEXT)
    entry = TEXT + 4 * len(words)
    words += start(entry)
    words += body(random.randrange(1, 70), TEXT + 4 * len(words)) + puts()
    words += random.choices([end, lone_branch, lone_call, lone_jump], [90, 5, 3, 2])[0]()
    text = b''.join(struct.pack('>I', word) for word in words)
    file = bytearray(Program('', text.hex(), 0, '').file())
    file[24:28] = struct.pack('>I', entry)
    return bytes(file)
