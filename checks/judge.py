"""What is wrong with a file, from its format alone and apart from EEL: the codes of an ELF file's faults, to be edited or
to be run; where notes and dumps break a rule; the first bad line of a script."""
import re
import struct
from collections import namedtuple

MIB = 1 << 20

# How many program headers a file may have, and how much memory.
EDIT_LIMITS = 64, 128 * MIB
RUN_LIMITS = 80, 1280 * MIB

Header = namedtuple('Header', 'kind offset start physical size memory flags align')
Notes = namedtuple('Notes', 'version delta length tool start words entry base cells segments blocks edges ranges')
Dump = namedtuple('Dump', 'version kind number pc steps length cells')


def half(file, at):
    return int.from_bytes(file[at:at + 2], 'big')


def word(file, at):
    return int.from_bytes(file[at:at + 4], 'big')


# ---- files

def header_faults(file, most):
    """The codes 1 to 9 that hold."""
    if len(file) < 52:
        return [1]
    count = half(file, 44)
    rules = {2: file[:4] == b'\x7fELF', 3: file[4] == 1, 4: file[5] == 2, 5: file[6] == 1 and word(file, 20) == 1,
             6: half(file, 16) == 2, 7: half(file, 18) == 2, 8: half(file, 40) == 52 and half(file, 42) == 32,
             9: 1 <= count <= most and word(file, 28) + 32 * count <= len(file)}
    return [code for code, holds in rules.items() if not holds]


def headers(file):
    at = word(file, 28)
    return [Header(*struct.unpack_from('>8I', file, at + 32 * number)) for number in range(half(file, 44))]


def loadable(file):
    return [header for header in headers(file) if header.kind == 1 and header.memory]


def is_text(header):
    return header.flags & 3 == 1


def leaves_file(header, size):
    return header.size > header.memory or (header.size > 0 and header.offset + header.size > size)


def is_inside(header):
    return 0x1000 <= header.start and header.start + header.memory <= 0x80000000


def is_aligned(header):
    align = header.align
    if align == 0:
        return True
    return align & (align - 1) == 0 and align <= 1 << 20 and header.start % align == header.offset % align


def descend(loads):
    return any(later.start < header.start + header.memory for header, later in zip(loads, loads[1:]))


def text_faults(file, texts):
    """The codes 15 to 19 that hold; of several texts the first is looked at."""
    if not texts:
        return [15, 19]
    text = texts[0]
    words = text.memory // 4
    entry = word(file, 24) - text.start
    rules = {16: len(texts) == 1, 17: text.start % 4 == 0 and text.memory >= 4, 18: words <= 1 << 20,
             19: entry >= 0 and entry % 4 == 0 and entry // 4 < words}
    return [code for code, holds in rules.items() if not holds]


def edit_faults(file):
    """All codes that hold, in order, of a file that is to be edited or shown."""
    most, memory = EDIT_LIMITS
    faults = header_faults(file, most)
    if faults:
        return faults
    loads = loadable(file)
    if any(header.kind in (2, 3) for header in headers(file)):
        faults.append(10)
    if any(header.kind == 1 and leaves_file(header, len(file)) for header in headers(file)):
        faults.append(11)
    if not all(is_inside(header) for header in loads):
        faults.append(12)
    if descend(loads):
        faults.append(13)
    if not all(is_aligned(header) for header in loads):
        faults.append(14)
    faults += text_faults(file, [header for header in loads if is_text(header)])
    if sum(header.memory for header in loads) > memory:
        faults.append(20)
    return faults


def run_faults(file):
    """All codes that hold, in order, of a file that is to be run."""
    most, memory = RUN_LIMITS
    faults = header_faults(file, most)
    if faults:
        return faults
    loads = loadable(file)
    if any(header.kind == 1 and leaves_file(header, len(file)) for header in headers(file)):
        faults.append(11)
    if not all(is_inside(header) or (header.start, header.memory) == (0xfffff000, 4096) for header in loads):
        faults.append(12)
    if descend(loads):
        faults.append(13)
    if not all(is_aligned(header) for header in loads):
        faults.append(14)
    if sum(header.memory for header in loads) > memory:
        faults.append(20)
    return faults


def room_of(file):
    """How much room a file without a fault leaves above its segments."""
    end = max(header.start + header.memory for header in loadable(file))
    base = (end + 0xffff) // 0x10000 * 0x10000
    return min(1 << 30, 0x80000000 - base)


# ---- notes

class Bad(Exception):
    """The first word that is missing or breaks its rule."""


class Words:
    """Big-endian words, read from left to right."""

    def __init__(self, file):
        self.file = file
        self.at = 0

    def word(self, holds=None):
        at = self.at
        if at + 4 > len(self.file):
            raise Bad(at)
        self.at += 4
        read = word(self.file, at)
        if holds and not holds(read):
            raise Bad(at)
        return read

    def row(self, size):
        """Where a row stands, and its words."""
        at = self.at
        return at, [self.word() for _ in range(size)]


def keep(holds, at):
    if not holds:
        raise Bad(at)


def noted_segments(words, count):
    end = 0
    for _ in range(count):
        at, (start, length) = words.row(2)
        keep(start >= end and length and start + length <= 1 << 32, at)
        end = start + length
        yield start, end


def noted_blocks(words, count, text):
    before = -1
    for _ in range(count):
        first = words.word(lambda first: (first == 0 if before < 0 else first > before) and first < text)
        before = first
        yield first


def noted_edges(words, count, blocks, cells, version):
    taken = set()
    for _ in range(count):
        at, (kind, source, target, cell) = words.row(4)
        keep(kind <= 6 and source <= 2 * blocks and target <= 2 * blocks, at)
        # a counter has as many cells as the version
        fits = cell % version == 0 and cell + version <= cells
        keep(cell == 0xffffffff or fits and cell not in taken, at)
        taken.add(cell)
        yield kind, source, target, cell


def noted_ranges(words, count, blocks, segments):
    end = 0
    for _ in range(count):
        at, (low, high, address, node) = words.row(4)
        keep(low % 4 == high % 4 == address % 4 == 0 and end <= low < high and node <= 2 * blocks, at)
        keep(any(start <= low and high <= stop for start, stop in segments), at)
        end = high
        yield low, high, address, node


def notes_in(told, size, version):
    """The notes of a version in these bytes, of a file of this size."""
    words = Words(told)
    delta = words.word(lambda delta: delta >= 4096)
    length = words.word(lambda length: delta + length <= size)
    tool = words.word(lambda tool: tool <= version + 1)
    start = words.word(lambda start: start % 4 == 0 and start >= 0x1000)
    count = words.word(lambda count: 1 <= count <= MIB and start + 4 * count <= 0x80000000)
    entry = words.word()
    base = words.word()
    cells = words.word()
    keep(base % 4 == 0 and base + 4 * cells <= 1 << 32, 24)
    keep(cells <= version << 22, 28)
    segments = list(noted_segments(words, words.word(lambda segments: segments <= 8)))
    at, (block_count,) = words.row(1)
    keep(entry < block_count, 20)
    keep(block_count <= count, at)
    blocks = list(noted_blocks(words, block_count, count))
    edges = list(noted_edges(words, words.word(lambda edges: edges < 1 << 24), block_count, cells, version))
    ranges = list(noted_ranges(words, words.word(lambda ranges: ranges < 1 << 26), block_count, segments))
    keep(words.at == len(told), words.at)
    return Notes(version, delta, length, tool, start, count, entry, base, cells, segments, blocks, edges, ranges)


def notes_of(file):
    """The notes of a file, or None where it has none. Bad says where they break a rule."""
    if len(file) < 4096 or word(file, 4032) != 0x45454c4e or word(file, 4036) not in (1, 2):
        return None
    at, size = word(file, 4040), word(file, 4044)
    keep(at + size <= len(file), 0)
    return notes_in(file[at:at + size], len(file), word(file, 4036))


def are_mapped(file, notes):
    """The cells lie in one loaded segment that may be read."""
    end = notes.base + 4 * notes.cells
    return notes.cells == 0 or any(
        header.flags & 4 and header.start <= notes.base and end <= header.start + header.memory
        for header in loadable(file))


# ---- dumps

def dump_of(file):
    words = Words(file)
    words.word(lambda mark: mark == 0x45454c44)
    version = words.word(lambda version: version in (1, 2))
    kind = words.word(lambda kind: kind <= 4)
    number = words.word(lambda number: number <= (255 if kind in (1, 2) else 0))
    pc = words.word()
    keep(len(file) >= 28, 20)
    steps = words.word() << 32 | words.word()
    length = words.word() if version == 2 else 0
    count = words.word(lambda count: len(file) == words.at + 4 * count)
    return Dump(version, kind, number, pc, steps, length, [words.word() for _ in range(count)])


# ---- scripts

NUMBER = rb'(0|[1-9]\d*)'
LINE = re.compile(rb'edge ' + NUMBER + rb' (?:(?:add|put) ' + NUMBER + rb' ' + NUMBER
                  + rb'|(?:keep|top) ' + NUMBER + rb' %[goli][0-7]|count ' + NUMBER + rb')', re.ASCII)


def script_fault(script, edges):
    """The number of the first bad line and what is bad about it, or None."""
    lines = script.split(b'\n')
    operations = {}
    for number, line in enumerate(lines, 1):
        if not line or line.startswith(b'#'):
            continue
        found = LINE.fullmatch(line)
        numbers = [int(text) for text in found.groups() if text] if found else [1 << 32]
        if any(value >= 1 << 32 for value in numbers):
            return number, 'grammar'
        edge, cell = numbers[:2]
        if edge >= edges:
            return number, 'edge'
        # a counter has the next cell, too
        if cell + (b' count ' in line) >= 1 << 22:
            return number, 'cell'
        operations[edge] = operations.get(edge, 0) + 1
        if operations[edge] > 8:
            return number, 'operations'
    return None


# ---- counts

EDGE_LINE = re.compile(rb'edge (0|[1-9]\d*) (fall|taken|untaken|call|out|land|case) (x|[0-9a-f]{8}\+?) (x|[0-9a-f]{8}\+?) ([1-9]\d*)')
LAST_LINE = re.compile(rb'edges (0|[1-9]\d*) counted (0|[1-9]\d*) executions (0|[1-9]\d*)')


def weight_fault(text, edges):
    """The first bad line of weights, and why, for edges by their kind and their nodes."""
    *lines, rest = text.split(b'\n')
    before, total = -1, 0
    for number, line in enumerate(lines, 1):
        entry, last = EDGE_LINE.fullmatch(line), LAST_LINE.fullmatch(line)
        if entry and int(entry[1]) < 2**32 and int(entry[5]) < 2**64:
            if not before < int(entry[1]) < len(edges) or edges[int(entry[1])] != entry.group(2, 3, 4):
                return number, 'edge'
            before, total = int(entry[1]), total + int(entry[5])
        elif last and int(last[1]) < 2**32 and int(last[2]) < 2**32 and int(last[3]) < 2**128:
            if int(last[1]) != len(edges) or int(last[3]) != total:
                return number, 'total'
            return (number + 1, 'grammar') if number < len(lines) or rest else None
        else:
            return number, 'grammar'
    return len(lines) + 1, 'grammar'


def nodes_of(notes):
    """The nodes of the noted graph: blocks, the outside, and the landed copies that an edge or a place names."""
    ends = [node for _, source, target, _ in notes.edges for node in (source, target)]
    return {*range(len(notes.blocks) + 1), *ends, *(node for _, _, _, node in notes.ranges)}


def spans(edges, nodes):
    """These edges are a spanning tree of the nodes."""
    joined = {node: node for node in nodes}

    def top(node):
        while joined[node] != node:
            joined[node] = joined[joined[node]]
            node = joined[node]
        return node

    for _, source, target, _ in edges:
        source, target = top(source), top(target)
        if source == target:
            return False
        joined[source] = target
    return len(edges) == len(nodes) - 1


def node_of(notes, pc):
    """The node where a run stands, or None between places."""
    for low, high, _, node in notes.ranges:
        if low <= pc < high:
            return node
    return None if any(start <= pc < end for start, end in notes.segments) else len(notes.blocks)


def counter(version, cells, cell):
    """The number of a counter, which has its high word first where it has two cells."""
    return int.from_bytes(struct.pack(f'>{version}I', *cells[cell:cell + version]), 'big')


def flow(notes, start, end, cells):
    """The one flow from a node to another whose values on the edges with cells are those of their counters."""
    values = [None if cell == 0xffffffff else counter(notes.version, cells, cell) for _, _, _, cell in notes.edges]
    at = [[] for _ in range(2 * len(notes.blocks) + 1)]
    excess = [(node == start) - (node == end) for node in range(len(at))]
    for number, (_, source, target, _) in enumerate(notes.edges):
        if values[number] is None:
            at[source].append(number)
            at[target].append(number)
        else:
            excess[source] -= values[number]
            excess[target] += values[number]
    leaves = [node for node, edges in enumerate(at) if len(edges) == 1]
    while leaves:
        node = leaves.pop()
        if not at[node]:
            continue
        number, = at[node]
        _, source, target, _ = notes.edges[number]
        values[number] = excess[node] if node == source else -excess[node]
        excess[source] -= values[number]
        excess[target] += values[number]
        for end_node in (source, target):
            at[end_node].remove(number)
            if len(at[end_node]) == 1:
                leaves.append(end_node)
    return values


def count_fault(notes, dump):
    """Why no counts can be rebuilt, as it is told behind a name, or None."""
    if notes.tool != 1 or not spans([row for row in notes.edges if row[3] == 0xffffffff], nodes_of(notes)):
        return 'no profile'
    if dump.version != notes.version:
        return f'dump version {dump.version}, notes version {notes.version}'
    if notes.version == 2 and dump.length != notes.length:
        return f'made for {dump.length} bytes, {notes.length} wanted'
    if len(dump.cells) != notes.cells:
        return f'{len(dump.cells)} cells, {notes.cells} wanted'
    if notes.version == 1 and dump.steps >= 1 << 32:
        return f'{dump.steps} steps'
    node = node_of(notes, dump.pc)
    if node is None:
        return f'pc {dump.pc:08x} between places'
    values = flow(notes, notes.entry, node, dump.cells)
    impossible = [number for number, value in enumerate(values) if value < 0]
    large = [number for number, value in enumerate(values) if value >= 1 << 64]
    for number in impossible[:1] or large[:1]:
        return f'edge {number} would be {values[number]}'
    return None
