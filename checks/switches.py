"""The switches of a program, found apart from the proved program: what the words between a comparison and a jump give
registers is followed word by word.
"""
from dataclasses import dataclass

from sparc import JMPL, OR, SLL, SUBCC, TICC, Word

# What a register may be known to hold: a number, the index, a number and four times the index, the word there with the
# LD that loaded it.
UNKNOWN, INDEX = ('unknown',), ('index',)

ALU = set(range(0x28)) - {0x09, 0x0d, 0x19, 0x1d}
SETS_CODES = ALU & set(range(0x10, 0x25))
LOADS = {0x00, 0x01, 0x02, 0x09, 0x0a, 0x0d, 0x0f}  # LDD, 0x03, has two registers


def number(n):
    return 'number', n % 2**32


def sets_codes(word):
    return word.op == 2 and word.op3 in SETS_CODES


def second(word, known):
    """What is known of the second operand."""
    return known[word.rs2] if word.simm13 is None else number(word.simm13)


def plus(one, other):
    if one[0] != 'number':
        one, other = other, one
    if one[0] != 'number':
        return UNKNOWN
    if other[0] in ('number', 'place'):
        return other[0], (one[1] + other[1]) % 2**32
    return other if one[1] == 0 else UNKNOWN


def either(one, other):
    if one[0] == other[0] == 'number':
        return number(one[1] | other[1])
    if one == number(0):
        return other
    return one if other == number(0) else UNKNOWN


def address(word, known):
    """What is known of rs1 and the second operand, added."""
    return plus(known[word.rs1], second(word, known))


def result(word, known):
    """What an instruction of op 2 puts into rd."""
    one, other = known[word.rs1], second(word, known)
    if word.op3 == 0x00:
        return address(word, known)
    if word.op3 == OR:
        return either(one, other)
    if word.op3 == SLL and one == INDEX and other == number(2):
        return 'place', 0
    return UNKNOWN


def loaded_table(word, known):
    """The address of the table from which an LD loads an entry, if it does."""
    place = address(word, known)
    return place[1] if word.op == 3 and word.op3 == 0x00 and place[0] == 'place' else None


def follow(program, at, known):
    """What is known after a word of the text."""
    word = Word(program.words[at])
    if word.op == 2 and word.op3 in (TICC, 0x3c, 0x3d):
        return [number(0)] + [UNKNOWN] * 31
    written = {}
    if word.op == 1:
        written[15] = UNKNOWN
    elif word.op == 0 and word.op2 == 4:
        written[word.rd] = number(word.imm22 << 10)
    elif word.op == 2 and (word.op3 in ALU or word.op3 == JMPL or word.op3 == 0x28 and word.rs1 == 0):
        written[word.rd] = result(word, known)
    elif word.op == 3 and word.op3 in LOADS:
        table = loaded_table(word, known)
        written[word.rd] = UNKNOWN if table is None else ('entry', table, at)
    elif word.op == 3 and word.op3 == 0x03 and word.rd % 2 == 0:
        written = {word.rd: UNKNOWN, word.rd + 1: UNKNOWN}
    return [number(0)] + [written.get(register, known[register]) for register in range(1, 32)]


@dataclass
class Switch:
    """A jump through a table: words of the text but for the table's address."""
    jump: int
    table: int
    count: int
    block: int  # of the jump
    edge: object  # into that block, from the comparison's
    compare: int  # SUBcc
    maker: int  # the LD that loaded the entry to which the jump goes
    loads: list  # all that load an entry of the table in the jump's block
    targets: list  # the words to which the entries lead


class Entries:
    """The direct edges into each block that count: not the way on from a block that is only a slot."""

    def __init__(self, graph):
        self.graph = graph
        self.into = [[] for _ in graph.firsts]
        for edge in graph.direct:
            if edge.target is not None:
                self.into[edge.target].append(edge)

    def is_bare(self, block):
        """A block of one word behind a transfer, to which no edge leads and where no routine begins."""
        first = self.graph.firsts[block]
        return (self.graph.last(block) == first and first > 0 and self.graph.ends[first - 1][0] != 'fall'
                and first not in self.graph.routines and not self.into[block])

    def only(self, block):
        """The one edge into a block, or None."""
        edges = [edge for edge in self.into[block] if not (edge.kind == 'fall' and self.is_bare(edge.source))]
        return edges[0] if len(edges) == 1 else None


def comparison(program, graph, block):
    """The word of a block that sets the codes last, where that compares a register with a limit."""
    setting = [at for at in range(graph.firsts[block], graph.last(block) + 1) if sets_codes(Word(program.words[at]))]
    if setting:
        word = Word(program.words[setting[-1]])
        if word.op3 == SUBCC and word.simm13 is not None and 0 <= word.simm13 < 1024 and word.rs1 not in (0, word.rd):
            return setting[-1], word.rs1, word.simm13
    return None


def table_at(program, address, count):
    """The words to which the entries of a table lead, if it stands whole in the text and all of them lead to words."""
    start = program.word_at(address)
    if start is None or start + count > len(program.words):
        return None
    targets = [program.word_at(entry) for entry in program.words[start:start + count]]
    return None if None in targets else targets


def switch(program, graph, entries, block):
    """The switch of a block, if it has one."""
    first, jump = graph.firsts[block], graph.last(block)
    if graph.ends[jump][0] != 'jump' or first == graph.entry:
        return None
    edge = entries.only(block)
    if edge is None:
        return None
    branch = graph.last(edge.source)
    if (edge.kind, graph.ends[branch][3]) not in (('untaken', 12), ('taken', 4)):
        return None
    found = comparison(program, graph, edge.source)
    if found is None:
        return None
    compare, register, limit = found
    known = [number(0)] + [INDEX if other == register else UNKNOWN for other in range(1, 32)]
    slot = [edge.slot] if edge.slot is not None and edge.slot < graph.count else []
    for word in [*range(compare + 1, branch), *slot]:
        known = follow(program, word, known)
    tables = {}
    for word in range(first, jump):
        tables[word] = loaded_table(Word(program.words[word]), known)
        known = follow(program, word, known)
    goes = address(Word(program.words[jump]), known)
    if goes[0] != 'entry':
        return None
    _, table, maker = goes
    targets = table_at(program, table, limit + 1)
    if targets is None:
        return None
    loads = [word for word, loaded in tables.items() if loaded == table]
    return Switch(jump, table, limit + 1, block, edge, compare, maker, loads, targets)


def switches(program, graph):
    """All switches, in address order of their jumps."""
    entries = Entries(graph)
    found = [switch(program, graph, entries, block) for block in range(len(graph.firsts))]
    return [each for each in found if each is not None]


def why_closed(program, graph, one, opens):
    """The first condition that a switch doesn't meet to be open, where these are the open ones before it, or None."""
    def addresses(switch):
        return range(switch.table, switch.table + 4 * switch.count, 4)

    if not graph.firsts[one.block] <= one.maker < one.jump:
        return 'load elsewhere'
    if one.jump + 1 == graph.count:
        return 'jump last'
    if graph.last(one.edge.source) + 1 == graph.count:
        return 'branch last'
    if any(address in addresses(other) for other in opens for address in addresses(one)):
        return 'table shared'
    return None


def told_apart(program, graph, found):
    """Each switch, and why it isn't open, or None."""
    opens = []
    for one in found:
        why = why_closed(program, graph, one, opens)
        if why is None:
            opens.append(one)
        yield one, why


def open_switches(program, graph, found):
    """Those whose jumps get an edge for each target."""
    return [one for one, why in told_apart(program, graph, found) if why is None]
