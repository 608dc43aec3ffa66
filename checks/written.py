"""The file that an edit without snippets writes of a program, made apart from EEL."""
import struct

from listing import Graph, Program
from new_code import PAGE, Layout, Pieces, Places, second_words, table_words, up, words

EDITOR_PAGE = 0xfffff000
KINDS = ['fall', 'taken', 'untaken', 'call', 'out', 'land', 'case']


def notes(graph, pieces, ranges, *head):
    """The numbers at the head, blocks, edges without cells, and the places of visits."""
    edges = [words(KINDS.index(edge.kind), pieces.node_number(edge.source), pieces.node_number(edge.target), 0xffffffff)
             for edge in graph.edges]
    return b''.join([words(*head, len(graph.firsts), *graph.firsts, len(edges)), *edges, words(len(ranges)), *ranges])


def carried(header, delta):
    """A program header of the original, whose bytes stand further on; the text is no longer executable."""
    kind, offset, start, physical, size, memory, flags, align = header
    if kind == 1 and flags & 3 == 1:
        flags &= ~1
    return words(kind, (offset + delta) % 2**32, start, physical, size, memory, flags, align)


def section_table(original, delta):
    """The table of the original, whose sections stand further on; and how many they are, and which has their names."""
    at, = struct.unpack_from('>I', original, 32)
    size, count, names = struct.unpack_from('>3H', original, 46)
    if not at or size != 40 or not count or at + 40 * count > len(original):
        return b'', 0, 0
    table = b''
    for number in range(count):
        name, kind, flags, address, offset, *rest = struct.unpack_from('>10I', original, at + 40 * number)
        table += words(name, kind, flags, address, (offset + delta) % 2**32 if kind else offset, *rest)
    return table, count, names


def written(original):
    """For a file that can be edited."""
    program = Program(original)
    graph = Graph(program)
    at, = struct.unpack_from('>I', original, 28)
    count, = struct.unpack_from('>H', original, 44)
    segments = [struct.unpack_from('>8I', original, at + 32 * number) for number in range(count)]
    loaded = [header for header in segments if header[0] == 1 and header[5]]
    places = Places(program, graph, up(max(header[2] + header[5] for header in loaded), 0x10000))
    pieces = Pieces(program, graph, places)
    layout = Layout(pieces.list, places.code)
    at, code = layout.at, words(*layout.code())
    # nothing is done on the way from a landing to its image
    landings = {pieces.address(word): at[pieces.lands(word)] for word in range(graph.count)}
    foreign = at[len(at) - 1]
    tables = words(*table_words(program, places.first, landings, foreign),
                   *second_words(program, places.second, landings, foreign), *(at[case] for case in pieces.cases()))
    added = [(places.first, 4, tables.ljust(places.code - places.first, b'\0')), (places.code, 5, code),
             (EDITOR_PAGE, 6, bytes(PAGE))]
    noted = [number for vaddr, _, content in added for number in (vaddr, len(content))]
    delta = max(PAGE, *(header[7] for header in loaded))
    told = notes(graph, pieces, pieces.ranges(layout), delta, len(original), 0, program.start, graph.count,
                 graph.holding(graph.entry), places.first, 0, len(added), *noted)
    headers = [carried(header, delta) for header in segments
               if header[0] != 6 and (header[0] != 1 or header[5])]
    parts = [(delta, original)]
    end = delta + len(original)
    for vaddr, flags, content in added:
        place = up(end, PAGE)
        headers.append(words(1, place, vaddr, vaddr, len(content), len(content), flags, PAGE))
        parts.append((place, content))
        end = place + len(content)
    notes_at = up(end, 4)
    sections, section_count, names = section_table(original, delta)
    entered = at[pieces.enter(graph.holding(graph.entry), graph.entry)]
    head = original[:16] + struct.pack('>HHIIII', 2, 2, 1, entered, 52, notes_at + len(told) if sections else 0)
    head += original[36:40] + struct.pack('>6H', 52, 32, len(headers), 40, section_count, names)
    locator = words(0x45454c4e, 2, notes_at, len(told))
    file = b''
    for where, part in ((0, b''.join([head, *headers])), (4032, locator), *parts, (notes_at, told + sections)):
        file += bytes(where - len(file)) + part
    return file
