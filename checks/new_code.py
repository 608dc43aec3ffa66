"""The code that an edit without snippets makes of a text, and the tables that lead to it, made apart from EEL."""
import struct
from dataclasses import dataclass

import sparc
from listing import Edge, Landed, home
from sparc import ADD, G0, G1, G2, JMPL, LD, NOP, O7, SLL, SRL, ST, SWAP, Word, form3, sethi

PAGE = 4096

COUPLE = 0x10800002  # ba to the word after the next one
ALWAYS_OR_NEVER = (8, 0)
ANNULLED = 16


def words(*numbers):
    return struct.pack(f'>{len(numbers)}I', *numbers)


# ---- words: those of the editor's page have numbers, 0 for jumps and for the address of a switch's entry, 1 for the
# target, 2 for a register, 7 for what was found and for another register

def store(register, number):
    return form3(3, register, ST, G0, ('i', 4 * number - PAGE))


def load(register, number):
    return form3(3, register, LD, G0, ('i', 4 * number - PAGE))


def load_at(register, one, other):
    return form3(3, register, LD, one, ('r', other))


def exchange(register, number):
    return form3(3, register, SWAP, G0, ('i', 4 * number - PAGE))


def operation(op3, register, number, source=None):
    return form3(2, register, op3, register if source is None else source, ('i', number))


def jump(address):
    """Goes to an address by %g1, which waits in word 0 meanwhile."""
    return [store(G1, 0), sethi(G1, address), operation(JMPL, G0, address & 0x3ff, G1), load(G1, 0)]


def bicc(condition, here, to):
    return sparc.branch(condition % 16, condition // 16, (to - here) // 4)


def branch(condition, here, to, is_long):
    """On a condition: with a nop in its slot, annulled where it isn't taken, or on the opposite one past a jump."""
    return [bicc(condition ^ 8, 0, 24), NOP, *jump(to)] if is_long else [bicc(ANNULLED | condition, here, to), NOP]


def link(register, address):
    """A register takes the address of a CALL or a JMPL; %g0 takes none."""
    return [sethi(register, address), operation(ADD, register, address & 0x3ff)] if register else []


def jump_image(value, address, jumps):
    """The target of a JMPL is looked up in the table at `jumps`, by two registers that it doesn't name: first there is
    what leads from the target to its entry, and then the entry. Word 7 takes it. A misaligned target traps there."""
    fields = Word(value)
    named = (fields.rd, fields.rs1, fields.rs2 if fields.simm13 is None else G0)
    one, other = [register for register in range(1, 6) if register not in named][:2]
    target = form3(2, one, ADD, fields.rs1, fields.operand())
    return [store(one, 7), store(other, 2), target, store(one, 1), operation(SRL, other, 16, one), operation(SLL, other, 2),
            sethi(one, jumps), load_at(other, one, other), target, load_at(one, other, one),
            exchange(one, 7), load(other, 2), *link(fields.rd, address)]


def keep_load(value):
    """Word 0 takes the address from which an LD loads."""
    fields = Word(value)
    return [store(G1, 0), form3(2, G1, ADD, fields.rs1, fields.operand()), exchange(G1, 0)]


def choose(distance):
    """Goes to the piece whose address stands so far behind the entry whose address was kept."""
    return [store(G1, 2), store(G2, 7), load(G1, 0), sethi(G2, distance), operation(ADD, G2, distance & 0x3ff),
            load_at(G1, G1, G2), load(G2, 7), form3(2, G0, JMPL, G1, ('i', 0)), load(G1, 2)]


# Goes on at what was found.
FOUND = [exchange(G1, 7), operation(JMPL, G0, 0, G1), load(G1, 7)]

# Goes to the target itself.
FOREIGN = [store(G1, 2), load(G1, 1), operation(JMPL, G0, 0, G1), load(G1, 2)]


# ---- pieces

@dataclass
class Piece:
    """A visit, the words that carry it out, those behind them, and the piece at which control then goes on."""
    visit: tuple = None  # the address of a word, and the node
    words: tuple = ()
    branch: tuple = None  # a condition, and the piece to which it leads
    rest: tuple = ()
    then: int = None


def in_order(pieces):
    """The numbers of the pieces as they are laid. One that has nowhere to go is followed by the next one of the list.
    Where it goes may follow it, unless that is laid or is to follow another; else the lowest one that is left does."""
    laid, left, piece = {0: None}, 1, 0
    while len(laid) < len(pieces):
        while left in laid:
            left += 1
        then = pieces[piece].then
        if then is None:
            piece = piece + 1 if piece + 1 < len(pieces) else left
        else:
            piece = then if then not in laid and pieces[then - 1].then is not None else left
        laid[piece] = None
    return list(laid)


class Layout:
    """Pieces one after the other. A jump to the piece that comes next takes no word, and one that a displacement of 22
    bits can't make, or a branch, is long: as few of them as can be."""

    def __init__(self, pieces, base):
        self.pieces, self.base, self.order = pieces, base, in_order(pieces)
        self.needless = {piece for piece, behind in zip(self.order, self.order[1:]) if pieces[piece].then == behind}
        self.long = set()
        self.lay()
        while more := {(piece, what) for piece, what, here, to in self.jumps()
                       if not -2**21 <= (self.at[to] - here) // 4 < 2**21} - self.long:
            self.long |= more
            self.lay()

    def visit_size(self, number):
        piece = self.pieces[number]
        return 4 * (len(piece.words) + (0 if not piece.branch else 6 if (number, 'branch') in self.long else 2))

    def jump_size(self, number):
        if self.pieces[number].then is None or number in self.needless:
            return 0
        return 16 if (number, 'then') in self.long else 4

    def lay(self):
        self.at, here = {}, self.base
        for number in self.order:
            self.at[number] = here
            here += self.visit_size(number) + 4 * len(self.pieces[number].rest) + self.jump_size(number)
        self.end = here

    def jumps(self):
        """Branches and jumps that take words: the piece, which of the two, where it stands, and the piece to which it
        leads."""
        for number in self.order:
            piece = self.pieces[number]
            if piece.branch:
                yield number, 'branch', self.at[number] + 4 * len(piece.words), piece.branch[1]
            if self.jump_size(number):
                here = self.at[number] + self.visit_size(number) + 4 * len(piece.rest)
                yield number, 'then', here, piece.then

    def code(self):
        leads = {(number, what): (here, self.at[to]) for number, what, here, to in self.jumps()}
        for number in self.order:
            piece = self.pieces[number]
            yield from piece.words
            if piece.branch:
                yield from branch(piece.branch[0], *leads[number, 'branch'], (number, 'branch') in self.long)
            yield from piece.rest
            if (number, 'then') in leads:
                here, to = leads[number, 'then']
                yield from jump(to) if (number, 'then') in self.long else [bicc(ANNULLED | 8, here, to)]

    def visits(self):
        """Where visits stand, in order of address: the addresses of the first word and behind the last, and the visit."""
        for number in self.order:
            if self.pieces[number].visit:
                yield self.at[number], self.at[number] + self.visit_size(number), self.pieces[number].visit


class Pieces:
    """An image of each word for each node whose block holds it, the way along each edge but for the landings, a landing
    at each word, the way along a Case edge for each entry of a switch's table, and the foreign piece."""

    def __init__(self, program, graph, places):
        self.program, self.graph, self.places = program, graph, places
        self.ways = {(edge.source, edge.kind): number for number, edge in enumerate(graph.own)}
        makers = {'image': self.image, 'way': self.way, 'landing': self.landing, 'keep': self.keep, 'case': self.case,
                  'foreign': lambda: Piece(words=FOREIGN)}
        named = list(self.names())
        self.numbers = {name: number for number, name in enumerate(named)}
        self.list = [makers[kind](*rest) for kind, *rest in named]

    def names(self):
        """What each piece is, in their order."""
        words = range(self.graph.count)
        yield from (('image', self.in_order(word), word) for word in words)
        yield from (('way', number) for number in range(len(self.graph.own)))
        yield from (('landing', word) for word in words)
        for one in self.graph.opens:
            yield from (('image', Landed(one.edge.source), word) for word in self.graph.words_of(one.edge.source))
            for word in self.graph.words_of(one.block):
                if word == one.loads[0]:
                    yield 'keep', one.block
                yield 'image', one.block, word
        for one in self.graph.opens:
            yield from (('case', one.block, entry) for entry in range(one.count))
        yield 'foreign',

    def in_order(self, word):
        """The node of a word's image that the image of the word before falls into."""
        block = self.graph.holding(word)
        return Landed(block) if block in self.graph.jumps else block

    def address(self, word):
        return self.program.start + 4 * word

    def node_number(self, node):
        """Blocks have their numbers, all that lies outside the next one, and then come landed copies."""
        outside = len(self.graph.firsts)
        return outside if node is None else outside + 1 + node.block if isinstance(node, Landed) else node

    def visit(self, word, node):
        return self.address(word), self.node_number(node)

    def enter(self, node, word):
        """The piece where control comes to a word at a node: the load of an open switch has its address kept before."""
        if node in self.graph.jumps and word == self.graph.jumps[node].loads[0]:
            return self.numbers['keep', node]
        return self.numbers['image', node, word]

    def lands(self, word):
        return self.enter(self.graph.lands(word), word)

    def way_out(self, node, kind):
        return self.numbers['way', self.ways[node, kind]]

    def image(self, node, word):
        kind, _, _, condition = self.graph.ends[word]
        value, visit = self.program.words[word], self.visit(word, node)
        if kind == 'branch' and condition in ALWAYS_OR_NEVER:
            return Piece(visit, (NOP,), then=self.way_out(node, 'taken' if condition else 'untaken'))
        if kind == 'branch':
            return Piece(visit, branch=(condition, self.way_out(node, 'taken')), then=self.way_out(node, 'untaken'))
        if kind == 'call':
            return Piece(visit, link(O7, visit[0]), then=self.way_out(node, 'call'))
        if kind == 'jump' and node in self.graph.jumps:
            return Piece(visit, [*link(Word(value).rd, visit[0]), *choose(self.distance(node))])
        if kind == 'jump':
            return Piece(visit, jump_image(value, visit[0], self.places.second), then=self.way_out(node, 'out'))
        if node != self.in_order(word):
            return Piece(visit, (value,))
        if word + 1 == self.graph.count:
            return Piece(visit, (value,), rest=jump(self.address(word + 1)))
        in_slot = word and self.graph.ends[word - 1][0] != 'fall'
        behind = self.numbers['image', self.in_order(word + 1), word + 1]
        return Piece(visit, (value,), then=behind if in_slot else None)

    def distance(self, block):
        """How far the word that leads to the piece of a table's first entry stands behind that entry."""
        before = sum(one.count for one in self.graph.opens if one.block < block)
        return (self.places.cases + 4 * before - self.graph.jumps[block].table) % 2**32

    def keep(self, block):
        return Piece(words=keep_load(self.program.words[self.graph.jumps[block].loads[0]]))

    def landing(self, word):
        return Piece(then=self.lands(word))

    def way(self, number):
        """The way along an edge. Where control falls to the next word there is none, and Case edges have theirs by
        entries."""
        edge = self.graph.own[number]
        if edge.kind in ('fall', 'case'):
            return Piece(then=0)
        return self.along(edge, None if edge.target is None else self.graph.firsts[home(edge.target)])

    def case(self, block, entry):
        """The way to where an entry leads, unless an earlier entry leads there."""
        one = self.graph.jumps[block]
        word = one.targets[entry]
        if one.targets.index(word) < entry:
            return Piece(then=0)
        return self.along(Edge('case', block, self.graph.lands(word), one.jump + 1), word)

    def along(self, edge, word):
        """Along an edge, to a word at its target."""
        if edge.slot == self.graph.count:
            return Piece(rest=jump(self.places.first))
        visit, copy = None, ()
        if edge.slot is not None:
            visit, copy = self.visit(edge.slot, edge.source), (self.program.words[edge.slot],)
            if self.graph.ends[edge.slot][0] != 'fall':
                return Piece(visit, (COUPLE, COUPLE))
        if edge.kind == 'out':
            return Piece(visit, copy, rest=FOUND)
        if edge.target is not None:
            return Piece(visit, copy, then=self.enter(edge.target, word))
        last = self.graph.last(home(edge.source))
        to = self.address(last + 2) if edge.kind == 'untaken' else self.program.target(last)
        return Piece(visit, copy, rest=jump(to))

    def cases(self):
        """The pieces of Case edges, by all entries of the open switches' tables."""
        for one in self.graph.opens:
            yield from (self.numbers['case', one.block, one.targets.index(word)] for word in one.targets)

    def ranges(self, layout):
        """Where visits stand. The first is that of a slot behind the text, in the table, if an edge runs one."""
        table, end = self.places.first, self.graph.count
        behind = [words(table, table + 4, *self.visit(end, edge.source))
                  for edge in self.graph.edges if edge.slot == end]
        return behind[:1] + [words(lo, hi, *visit) for lo, hi, visit in layout.visits()]


# ---- the tables

def up(number, size):
    return (number + size - 1) // size * size


class Places:
    """Where both tables stand in their segment; the words behind them that have the addresses of pieces of Case edges,
    one for each entry of an open switch's table; and the code, behind the segment's last page."""

    def __init__(self, program, graph, base):
        entries = sum(one.count for one in graph.opens)
        self.first = base
        self.second = base + table_size(program)
        self.cases = self.second + second_size(program)
        self.code = self.cases + up(4 * entries, PAGE)


def pages_of(program, size):
    return range(program.start // size, (program.start + 4 * len(program.words) - 1) // size + 1)


def table_size(program):
    return PAGE * (3 + len(pages_of(program, PAGE << 10)) + len(pages_of(program, PAGE)))


def table_words(program, base, landings, foreign):
    """Blocks of three levels: the first one, those of the second and the third for all that holds no text, and then
    those that do."""
    parts, pages = pages_of(program, PAGE << 10), pages_of(program, PAGE)
    blocks = [base + PAGE * number for number in range(3 + len(parts) + len(pages))]
    seconds, thirds = dict(zip(parts, blocks[3:])), dict(zip(pages, blocks[3 + len(parts):]))
    yield from (seconds.get(part, blocks[1]) for part in range(1024))
    yield from [blocks[2]] * 1024
    yield from [foreign] * 1024
    for part in parts:
        yield from (thirds.get(page, blocks[2]) for page in range(1024 * part, 1024 * part + 1024))
    for page in pages:
        yield from (landings.get(address, foreign) for address in range(PAGE * page, PAGE * page + PAGE, 4))


def span(program):
    """From the first 64 KiB that hold text to the end of its last page."""
    first, last = pages_of(program, 1 << 16)[0], pages_of(program, PAGE)[-1]
    return range(first << 16, PAGE * (last + 1))


def second_size(program):
    return (1 << 18) + len(span(program)) + (1 << 16)


def second_words(program, base, landings, foreign):
    """A word for each high half of an address, which leads from the address to its entry; the entries, and 64 KiB of them
    for all that holds no text."""
    entries, halves = base + (1 << 18), pages_of(program, 1 << 16)
    for half in range(1 << 16):
        yield (entries - (halves[0] << 16) if half in halves else entries + len(span(program)) - (half << 16)) % 2**32
    yield from (landings.get(address, foreign) for address in span(program)[::4])
    yield from [foreign] * (1 << 14)
