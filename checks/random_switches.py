"""Random programs with switches, right ones and nearly right ones."""
import random
import struct

from beside_qemu import FREE, simple
import sparc
from random_programs import end, lone_branch, lone_call, lone_jump, move, puts, start, trap, with_g1
from sparc import ADD, AND, G1, JMPL, LD, NOP, O7, OR, SLL, SP, ST, SUBCC, branch, form3, sethi

# Behind a file's header and two of segments.
TEXT = 0x10074

ALWAYS, ABOVE, NOT_ABOVE, POSITIVE = 8, 12, 4, 14
REGISTERS = FREE + [G1, O7]
ROUNDS = 7  # a register that the programs use for nothing else

# Words that take the place of others: a nop, other comparisons, branches, sums, shifts, loads and jumps, a SAVE, and a
# trap.
EXCHANGED = [
    NOP, 0x80a22002, 0x80a22005, 0x90a22003, 0x8092200f, 0x0880000c, 0x0880000d, 0x3880000c, 0x08800002, 0x28800002,
    0x912a2003, 0x932a2002, 0x82006078, 0x82004008, 0x82020001, 0x82120000, 0x82806078, 0xc2004008, 0xc2020001,
    0xd0004008, 0xc2184008, 0x81c06000, 0x81c04008, 0x81c20000, 0x9de3bfa0, 0x91d02003, 0x10bffff5]


def near_switch(start):
    """A switch of four entries, a few words of which are exchanged."""
    table = start + 36
    words = [0x90102003, 0x80a22003, 0x1880000c, 0x912a2002, 0x03000000 | table >> 10, 0x82106000 | table & 0x3ff,
             0xc2004008, 0x81c04000, NOP, *[start + 56] * 3, start + 52, 0x90102005, 0x82102001, 0x91d02010]
    for _ in range(random.randrange(4)):
        words[random.randrange(len(words))] = random.choice([*EXCHANGED, start + 4 * random.randrange(20)])
    return words


def one_in(count):
    return random.randrange(count) == 0


class Text:
    """Words from an address on. Those that lead somewhere are functions of the text and of where they stand."""

    def __init__(self, first):
        self.first, self.words, self.places = first, [], {}

    def mark(self, name):
        self.places[name] = len(self.words)

    def address(self, name, further=0):
        return self.first + 4 * (self.places[name] + further)

    def done(self):
        return [word(self, at) if callable(word) else word & 0xffffffff for at, word in enumerate(self.words)]


def lead(condition, annul, name, further=0):
    return lambda text, at: branch(condition, annul, text.places[name] + further - at)


def call(name):
    return lambda text, at: sparc.call(text.places[name] - at)


def address(name, further=0, misaligned=0):
    return lambda text, at: text.address(name, further) + misaligned


def high(rd, name, distance=0):
    return lambda text, at: sethi(rd, text.address(name) - distance)


def low(rd, name, distance=0):
    return lambda text, at: form3(2, rd, OR, rd, ('i', text.address(name) - distance & 0x3ff))


def idle(used):
    """A word that leaves the codes and these registers."""
    rd = random.choice([register for register in REGISTERS if register not in used] + [0])
    return random.choice([NOP, move(rd, random.randrange(-9, 9)), form3(3, random.choice(FREE), ST, SP, ('i', -8)),
                          form3(2, rd, SLL, rd, ('i', 2)), form3(3, rd, LD, SP, ('i', -8))])


def idles(used, most):
    return [idle(used) for _ in range(random.randrange(most))]


def mark(name):
    """Stands among the words of a part where a name is to be marked."""
    return name


class Switch:
    """Its parts: lists of words and of names, each of which control enters only at a name."""

    def __init__(self, number, count):
        self.number, self.count = number, count
        self.index, self.shifted, self.base, self.entry = random.sample(REGISTERS, 4)
        if one_in(3):
            self.entry = random.choice([self.index, self.shifted, self.base])
        if one_in(3):
            self.shifted = self.index
        self.used = {self.index, self.shifted, self.base, self.entry}
        self.limit = random.choice([0, 1, 2, 3, 3, 5, 9])
        self.is_taken = one_in(2)
        self.annul = random.randrange(2)
        # the table of another switch, from one of its first words on, or its own one
        self.table, self.further = self.named('table'), 0
        if number and one_in(4):
            self.table, self.further = f'table {random.randrange(number)}', random.randrange(2)
            self.limit = random.choice([0, 1, 2, 3])

    def named(self, what):
        return f'{what} {self.number}'

    def comparison(self):
        """SUBcc of the index and the limit, seldom another word."""
        rd = random.choice([0, 0, 0, *(register for register in REGISTERS if register not in self.used)])
        wrong = [form3(2, 0, SUBCC, self.index, ('r', self.base)), form3(2, 0, 0x10, self.index, ('i', self.limit)),
                 form3(2, self.index, SUBCC, self.index, ('i', self.limit)), form3(2, 0, SUBCC, 0, ('i', self.limit)),
                 form3(2, 0, SUBCC, self.index, ('i', -self.limit - 1))]
        return random.choice(wrong) if one_in(12) else form3(2, rd, SUBCC, self.index, ('i', self.limit))

    def lookup(self):
        """The words that load an entry, where the load stands among them, and the operand of the jump."""
        distance = random.choice([0, 0, 0, 4, 64]) - 4 * self.further
        shift = form3(2, self.shifted, SLL, self.index, ('i', 2 if random.random() < 0.97 else 3))
        words = [shift, high(self.base, self.table, distance), low(self.base, self.table, distance)]
        if one_in(2):
            words = [words[1], words[2], words[0]] if self.base != self.index else words
        one, other = random.sample([self.base, self.shifted], 2)
        if distance or one_in(3):
            words += [form3(2, one, ADD, one, ('r', other)), form3(3, self.entry, LD, one, ('i', distance))]
        else:
            words.append(form3(3, self.entry, LD, one, ('r', other)))
        load = len(words) - 1
        goes = self.entry
        if one_in(5):
            goes = random.choice(REGISTERS)
            moves = [form3(2, goes, OR, self.entry, ('i', 0)), form3(2, goes, ADD, 0, ('r', self.entry))]
            words.append(random.choice(moves))
        if one_in(12):
            words += [words[load], form3(3, goes, LD, self.entry, ('i', 0))][:random.randrange(1, 3)]
        return words, load, goes

    def slot(self):
        """The slot of the jump: seldom a transfer."""
        return random.choice([idle(set()), idle(set()), simple()[0], with_g1()[0], move(O7, 1)] if not one_in(12)
                             else [*lone_branch(), *lone_call(), *lone_jump()])

    def target(self):
        """An entry of the table."""
        any_one = random.randrange(self.count)
        if one_in(60):
            return random.choice([0, 0x10, 0xffffffff, address(self.named('case 0'), 0, 2), address('end')])
        if one_in(4):
            name = random.choice(['compare', 'behind', 'jump', 'load', 'goes', 'slot', 'table', 'join'])
            return address(f'{name} {any_one}', random.choice([0, 0, 0, 1, 2, -1]))
        return address(self.named(f'case {random.randrange(3)}'), random.choice([0, 0, 0, 1, 2]))

    def after(self):
        """The next switch, or the end of the program."""
        return f'begin {self.number + 1}'

    def begin(self):
        """Gives the index a value, and mostly goes to the comparison; seldom into the midst of the blocks."""
        words = [mark(self.named('begin'))]
        for _ in range(random.randrange(3)):
            words += simple()
        value = random.choice([*range(self.limit + 1), *range(self.limit + 1), self.limit + 1, -1])
        if one_in(4):
            return words + self.lands(value)
        by_round = form3(2, self.index, AND, ROUNDS, ('i', random.choice([1, 3, 7])))
        words.append(random.choice([move(self.index, value), by_round]))
        if one_in(3):
            return words + [call(self.named('compare')), idle({self.index})]
        return words + [lead(ALWAYS, 0, self.named('compare')), idle({self.index})]

    def lands(self, value):
        """Goes to a word of the switch's blocks by JMPL, with all registers as they are in a right one."""
        name = self.named(random.choice(['compare', 'behind', 'jump', 'load', 'goes', 'slot', 'case 0', 'case 1']))
        by, case = random.choice(FREE), self.named(f'case {random.randrange(3)}')
        words = [high(by, name), low(by, name)]
        fixed = [[move(self.index, value)], [form3(2, self.shifted, SLL, self.index, ('i', 2))],
                 [high(self.base, self.table), low(self.base, self.table)]]
        if one_in(2):
            fixed.append([high(self.entry, case), low(self.entry, case)])
        return [word for part in fixed for word in part] + words + [
            form3(2, random.choice([0, O7]), JMPL, by, ('i', random.choice([0, 0, 0, 4]))), idle(self.used)]

    def blocks(self):
        """The comparison's block and the jump's, one part or two."""
        words, load, goes = self.lookup()
        runs_slot = self.is_taken or not self.annul
        kept = load if random.random() < 0.8 else len(words)
        before = random.randrange(kept + 1) if one_in(2) else 0
        in_slot = min(1, kept - before) if runs_slot and one_in(2) else 0
        slot = words[before] if in_slot else random.choice([idle(self.used)] * 9 + lone_branch())
        rest = words[before + in_slot:]
        at_load = load - before - in_slot
        condition = NOT_ABOVE if self.is_taken else ABOVE
        if one_in(20):
            condition = random.randrange(16)
        compare = [mark(self.named('compare')), *self.idles(2), self.comparison(), mark(self.named('behind')),
                   *self.idles(2), *words[:before], *self.idles(2)]
        default = random.choice([self.after(), self.named('case 0'), self.named('case 1')])
        if one_in(8):
            default = random.choice([self.named('jump'), f'jump {random.randrange(self.count)}'])
        jump = [mark(self.named('jump'))]
        for at, word in enumerate(rest):
            jump += self.idles(2) if one_in(4) else []
            jump += [mark(self.named('load'))] if at == max(at_load, 0) else []
            jump.append(word)
        rd = random.choice([0, 0, 0, O7, random.choice(REGISTERS)])
        operand = ('i', 0) if one_in(2) else ('r', 0)
        goes_by = form3(2, rd, JMPL, goes, operand) if not one_in(9) else form3(2, rd, JMPL, 0, ('r', goes))
        jump += [mark(self.named('goes')), goes_by, mark(self.named('slot')), self.slot()]
        if not rest:
            jump.insert(1, mark(self.named('load')))
        if self.is_taken:
            compare += [lead(condition, self.annul, self.named('jump')), slot]
            return [compare + [lead(ALWAYS, 0, default), idle(set())], jump]
        return [compare + [lead(condition, self.annul, default), slot] + jump]

    def idles(self, most):
        return idles(self.used, most)

    def cases(self):
        for number in range(3):
            words = [mark(self.named(f'case {number}'))]
            for _ in range(random.randrange(1, 4)):
                words += random.choice([simple, with_g1])()
            yield words + [lead(ALWAYS, 0, self.after()), idle(set())]

    def second_way(self):
        """Another edge into the switch's blocks."""
        name = self.named(random.choice(['jump', 'jump', 'load', 'goes', 'behind', 'compare', 'slot', 'case 0']))
        on_condition = lead(random.randrange(1, 16), random.randrange(2), name)
        way = random.choice([lead(ALWAYS, 0, name), on_condition, call(name)])
        return [mark(self.named('join')), idle(set()), way, idle(set()), lead(ALWAYS, 0, self.after()), NOP]

    def parts(self):
        yield self.begin()
        own = [mark(self.named('table')), *(self.target() for _ in range(self.limit + 1))]
        blocks = self.blocks()
        if one_in(2):
            blocks[-1] += own
        else:
            # what falls out of the table doesn't come into the next part
            yield own + ([] if one_in(4) else [lead(ALWAYS, 0, self.after()), NOP])
        yield from blocks
        yield from self.cases()
        if one_in(6):
            yield self.second_way()
        else:
            yield [mark(self.named('join')), idle(set()), lead(ALWAYS, 0, self.after()), NOP]


def put(text, part):
    for word in part:
        if isinstance(word, str):
            text.mark(word)
        else:
            text.words.append(word)


def is_name(word, *names):
    return isinstance(word, str) and word.split()[0] in names


def last_part(parts):
    """A part that is to come last, cut off behind its transfer: a switch's jump, or the branch behind its comparison."""
    blocks = [at for at, part in enumerate(parts) if any(is_name(word, 'behind', 'goes') for word in part)]
    part = parts.pop(random.choice(blocks))
    slots = [at for at, word in enumerate(part) if is_name(word, 'slot')]
    if slots:
        # a table that stands behind the jump stays, before all
        table = [at for at, word in enumerate(part) if is_name(word, 'table')]
        return (part[table[0]:] if table else []) + part[:slots[0] + 1]
    return part[:-3]


def switch_words(first):
    """The words of a text from an address on, and the number of the one at which it is entered. It goes through its
    switches a few times."""
    text, count = Text(first), random.choice([1, 1, 2, 3])
    parts = [part for number in range(count) for part in Switch(number, count).parts()]
    random.shuffle(parts)
    again = [form3(2, ROUNDS, SUBCC, ROUNDS, ('i', 1)), lead(POSITIVE, 0, 'begin 0'), NOP]
    finish = [*random.choice([end(), []]), move(G1, 1), trap(ALWAYS, 16), lead(ALWAYS, 0, f'begin {count}'), NOP]
    closing = [mark(f'begin {count}'), *again, *puts(), *finish]
    entering = [mark('entry'), *start(first), move(ROUNDS, random.randrange(1, 9)), lead(ALWAYS, 0, 'begin 0'), NOP]
    parts.insert(random.randrange(len(parts) + 1), closing)
    parts.insert(random.randrange(len(parts) + 1), entering)
    if one_in(6):
        parts.append(last_part(parts))
    for part in parts:
        put(text, part)
    text.mark('end')
    words = text.done()
    if one_in(4):
        for _ in range(random.randrange(1, 4)):
            words[random.randrange(len(words))] = random.choice([*EXCHANGED, first + 4 * random.randrange(len(words))])
    return words, text.places['entry']


def random_switches():
    """A file of such words, with zeros behind them wherever a load by a wrong index may lead: an edited file has its
    tables and its code behind those."""
    words, entry = switch_words(TEXT)
    size = 4 * len(words)
    identity = b'\x7fELF' + bytes([1, 2, 1]) + bytes(9)
    header = struct.pack('>HHIIIIIHHHHHH', 2, 2, 1, TEXT + 4 * entry, 52, 0, 0, 52, 32, 2, 0, 0, 0)
    code = struct.pack('>8I', 1, 116, TEXT, TEXT, size, size, 5, 0x10000)
    zeros = struct.pack('>8I', 1, 0, 0x20000, 0x20000, 0, 0xe0000, 6, 0x10000)
    return identity + header + code + zeros + struct.pack(f'>{len(words)}I', *words)
