"""Sessions that are tables: bad files, notes and dumps through every command that reads them, and devices that fail at each
of their calls. What must come of each row is spelled out here, and the faults are judged by judge.py, too."""
import struct

import disassembler
import judge
import plain_count
from programs import SMALL
from written import written

DEVICE_FAULT = b'eel: device fault\n'

PROGRAMS = {program.name: program for program in SMALL}
THREE_WORDS = PROGRAMS['three_words'].file()
CARRY_LOOP = PROGRAMS['carry_loop'].file()
ECHOES = PROGRAMS['echoes']

LISTING = (b'routine 00010054 -\nblock 0 00010054 3\nedge 0 fall 00010054 x -\n'
    b'edge 1 land x 00010054 -\nroutines 1 blocks 1 edges 2\n')

INSTRUCTIONS = disassembler.listing(0x10054, struct.unpack('>3I', THREE_WORDS[84:96])).encode()


def call(words, status, out=b'', err=b'', changed=()):
    """A call, and what is printed of it: its status, what it put out, and the names that it has changed."""
    line = ' '.join(['eel', *words.split()])
    printed = f'{line}: {status}\n'.encode()
    printed += out and out + b'\n'
    printed += err and b'to the error stream: ' + err + b'\n'
    printed += b''.join(f'changed: {name}\n'.encode() for name in changed)
    return line, printed


def patched(file, patches, base=0):
    """The file with these bytes at these offsets from `base`, and zeros before them where there was nothing."""
    file = bytearray(file)
    for at, digits in patches.items():
        new = bytes.fromhex(digits)
        file += bytes(max(0, base + at + len(new) - len(file)))
        file[base + at:base + at + len(new)] = new
    return bytes(file)


def patch(verb, old, new, patches):
    """The line of a script that does so."""
    return ' '.join([verb, old, new, *(f'{at} {digits}' for at, digits in patches.items())]), b''


def header(kind, offset, start, size, memory, flags, align):
    return struct.pack('>8I', kind, offset, start, start, size, memory, flags, align).hex()


# ---- files with faults

TEXT = header(1, 84, 0x10054, 12, 12, 5, 0x10000)


def with_headers(*rows):
    """three_words with these program headers, behind its text."""
    return {28: '00000060', 44: f'{len(rows):04x}', 96: ''.join(rows)}


def with_segment(start, memory, flags=6, align=1):
    """three_words with a second segment."""
    return with_headers(TEXT, header(1, 0, start, 0, memory, flags, align))


def with_empty_headers(count):
    return {28: '00000060', 44: f'{count:04x}', 96: TEXT, 96 + 32 * count - 1: '00'}


# What is changed in three_words; the code that an edit and a listing find in it, if any; and that of a run, or its ending.
FAULTS = {
    'magic': ({0: '7e'}, 2, 2),
    'class': ({4: '02'}, 3, 3),
    'order': ({5: '01'}, 4, 4),
    'identity_version': ({6: '00'}, 5, 5),
    'version': ({20: '00000002'}, 5, 5),
    'kind': ({16: '0003'}, 6, 6),
    'machine': ({18: '0012'}, 7, 7),
    'header_size': ({40: '0040'}, 8, 8),
    'entry_size': ({42: '0038'}, 8, 8),
    'no_headers': ({44: '0000'}, 9, 9),
    'sixty_five_outside': ({44: '0041'}, 9, 9),
    'sixty_four_headers': (with_empty_headers(64), None, 'exit 3'),
    'sixty_five_headers': (with_empty_headers(65), 9, 'exit 3'),
    'eighty_headers': (with_empty_headers(80), 9, 'exit 3'),
    'eighty_one_headers': (with_empty_headers(81), 9, 9),
    'table_outside': ({28: '00000041'}, 9, 9),
    'table_far_outside': ({28: 'ffffffff'}, 9, 9),
    'dynamic': (with_headers(TEXT, header(2, 0, 0, 0, 0, 0, 0)), 10, 'exit 3'),
    'interpreted': (with_headers(TEXT, header(3, 0, 0, 0, 0, 0, 0)), 10, 'exit 3'),
    'more_file_than_memory': ({68: '00000010', 72: '0000000c'}, 11, 11),
    'bytes_outside': ({68: '0000000d', 72: '0000000d'}, 11, 11),
    'bytes_far_outside': ({56: 'ffff0054'}, 11, 11),
    'empty_with_bytes': (with_headers(TEXT, header(1, 0, 0, 1, 0, 6, 0)), 11, 11),
    'empty_at_zero': (with_headers(TEXT, header(1, 0, 0, 0, 0, 6, 3)), None, 'exit 3'),
    'below_the_room': ({60: '00000054', 80: '00000001'}, 12, 12),
    'above_the_room': (with_segment(0x7ffffff0, 17), 12, 12),
    'round_the_end': (with_segment(0xfffffff0, 17), 12, 12),
    'last_page': (with_segment(0xfffff000, 4096), 12, 'exit 3'),
    'half_a_last_page': (with_segment(0xfffff000, 2048), 12, 12),
    'descending': (with_segment(0x10000, 16), 13, 13),
    'overlapping': (with_segment(0x1005f, 16), 13, 13),
    'adjoining': (with_segment(0x10060, 16), None, 'exit 3'),
    'align_of_three': ({80: '00000003'}, 14, 14),
    'large_align': ({80: '00200000'}, 14, 14),
    'incongruent': ({56: '00000050'}, 14, 14),
    'no_align': ({56: '00000054', 80: '00000000'}, None, 'exit 3'),
    'writable_text': ({76: '00000007'}, 15, 'trap 1'),
    'two_texts': (with_segment(0x20000, 16, flags=5), 16, 'exit 3'),
    'writable_second': (with_segment(0x20000, 16, flags=7), None, 'exit 3'),
    'text_between_words': ({60: '00010055', 80: '00000001'}, 17, 'trap 1'),
    'three_bytes_of_text': ({68: '00000003', 72: '00000003'}, 17, 'trap 1'),
    'large_text': ({72: '00400004'}, 18, 'exit 3'),
    'entry_behind': ({24: '00010060'}, 19, 'trap 1'),
    'entry_before': ({24: '00010050'}, 19, 'trap 1'),
    'entry_between': ({24: '00010056'}, 19, 'trap 1'),
    'much_memory': (with_segment(0x20000, (128 << 20) - 11), 20, 'exit 3'),
    'too_much_memory': (with_segment(0x20000, (1280 << 20) - 11), 20, 20),
}

# Files that have every fault from their code on, as far as faults go together: the first is told. The text is as short as
# it is told to be large.
HEADER_FAULTS = {2: {0: '7e'}, 3: {4: '02'}, 4: {5: '01'}, 5: {6: '02'}, 6: {16: '0003'}, 7: {18: '0012'}, 8: {40: '0040'},
    9: {44: '0041'}}
SEVERAL = {f'from_{code}': ({at: digits for later in range(code, 10) for at, digits in HEADER_FAULTS[later].items()}, code, code)
    for code in range(2, 10)}


def with_faults(first):
    """three_words with a data segment, and the faults from this code on."""
    text_start = 0x10055 if first <= 17 else 0x10054
    text_align = 3 if first <= 14 else 1
    data_start = 0x800 if first <= 12 else (0x1000 if first <= 13 else 0x30000000)
    text = header(1, 84, text_start, 12, 0x400004 if first <= 18 else 12, 5, text_align)
    size = 0x60000001 if first <= 11 else 0
    data = header(1, 0, data_start, size, 0x50000000, 5 if first <= 16 else 6, text_align)
    rows = [text, data] + [header(3, 0, 0, 0, 0, 0, 0)] * (first <= 10)
    return {**with_headers(*rows), 24: '00010056' if first <= 19 else '00010054'}


SEVERAL |= {f'from_{code}': (with_faults(code), code, {10: 11, 15: 20}.get(code, code if code in range(11, 15) else 20))
    for code in [10, 11, 12, 13, 14, 16, 17, 18, 19, 20]}

# The table of sections lies outside the file, or its symbols do: that is no fault.
SECTIONED = {'sections_outside': {32: '7fffffff', 46: '00280003'},
    'symbols_outside': {32: '00000060', 46: '00280002', 96 + 40 + 4: '00000002', 96 + 40 + 16: '00ffffff00000010',
                        96 + 40 + 36: '00000010', 96 + 79: '10'}}


# How the faults are shown, by their codes.
FAULT_TEXTS = ['Short', 'Magic', 'Class', 'Order', 'Version', 'Kind', 'Machine', 'HeaderSize', 'Headers', 'Dynamic',
    'SegmentFile', 'SegmentRoom', 'SegmentOrder', 'Align', 'NoText', 'ManyTexts', 'TextShape', 'TextLarge', 'Entry', 'MemoryLarge']


def fault_texts():
    return ''.join(f'{code} {text}\n' for code, text in enumerate(FAULT_TEXTS, 1)).encode()


def first_of(codes):
    return codes[0] if codes else None


def agree(name, file, code, run):
    """The table and the judge say the same."""
    assert first_of(judge.edit_faults(file)) == code, name
    assert first_of(judge.run_faults(file)) == (run if isinstance(run, int) else None), name


def file_fault(name, code):
    return f'eel: {name}: file fault {code}\n'.encode()


def judged(name, code, run, listing=LISTING):
    """Such a file, edited, shown and run."""
    if code is None:
        yield call(f'edit {name} out plain', 0, changed=['out'])
        yield call(f'show {name}', 0, listing)
        yield call('run out', 0, err=f'{run}\n'.encode())
        yield call('restore out again', 0, changed=['again'])
        yield f'same again {name}', b''
        yield 'cut three_words out 0', b''
        yield 'cut three_words again 0', b''
    else:
        yield call(f'edit {name} out plain', 65, err=file_fault(name, code))
        yield call(f'show {name}', 65, err=file_fault(name, code))
    if isinstance(run, int):
        yield call(f'run {name}', 65, err=file_fault(name, run))
    else:
        yield call(f'run {name}', 0, err=f'{run}\n'.encode())


def faulty():
    """Files with each fault, files with several, and each first part of a file."""
    yield 'watch', b''
    yield 'hold three_words', b''
    yield 'cut three_words out 0', b''
    yield 'cut three_words again 0', b''
    for name, (patches, code, run) in {**FAULTS, **SEVERAL}.items():
        agree(name, patched(THREE_WORDS, patches), code, run)
        yield patch('patch', 'three_words', name, patches)
        yield from judged(name, code, run)
    for name, patches in SECTIONED.items():
        agree(name, patched(THREE_WORDS, patches), None, 'exit 3')
        yield patch('patch', 'three_words', name, patches)
        yield from judged(name, None, 'exit 3')
    for size in range(len(THREE_WORDS)):
        # the file header, the program header, and the text's bytes
        code = 1 if size < 52 else (9 if size < 84 else 11)
        agree(size, THREE_WORDS[:size], code, code)
        yield f'cut three_words cut {size}', b''
        yield from judged('cut', code, code)


# ---- notes

# What the notes of carry_loop's profile have: four segments, four blocks, nine edges, five counters of one cell or of two, and
# a place for each word and for each way past the branch's slot.
COUNTED = [1, 5, 6, 7, 8]  # the edges off the tree
COUNTERS = len(COUNTED)
BLOCKS_AT = 36 + 8 * 4
EDGES_AT = BLOCKS_AT + 4 + 4 * 4
RANGES_AT = EDGES_AT + 4 + 16 * 9
RANGES = 7 + 2
NOTES_END = RANGES_AT + 4 + 16 * RANGES


def segment(number):
    return 36 + 8 * number


def edge(number):
    return EDGES_AT + 4 + 16 * number


def place(number):
    return RANGES_AT + 4 + 16 * number


# What is changed in the notes of either version, and the offset that is named.
BAD_NOTES = [
    ({0: '00000fff'}, 0),
    ({4: 'ffffffff'}, 4),
    ({8: 'ffffffff'}, 8),
    ({12: '00010055'}, 12),
    ({12: '00000ffc'}, 12),
    ({16: '00000000'}, 16),
    ({16: '00100001'}, 16),
    ({12: '7fffffec'}, 16),
    ({20: '00000004'}, 20),
    ({20: 'ffffffff'}, 20),
    ({24: '00020001'}, 24),
    ({24: 'fffffff0'}, 24),
    ({28: '40000000'}, 24),
    ({32: '00000009'}, 32),
    ({segment(0) + 4: '00000000'}, segment(0)),
    ({segment(0) + 4: 'ffffffff'}, segment(0)),
    ({segment(1): '00000000'}, segment(1)),
    ({segment(3): '00000000'}, segment(3)),
    ({segment(3) + 4: '00001001'}, segment(3)),
    ({BLOCKS_AT: '00000000'}, 20),
    ({BLOCKS_AT: '00000008'}, BLOCKS_AT),
    ({BLOCKS_AT + 4: '00000001'}, BLOCKS_AT + 4),
    ({BLOCKS_AT + 8: '00000000'}, BLOCKS_AT + 8),
    ({BLOCKS_AT + 12: '00000001'}, BLOCKS_AT + 12),
    ({BLOCKS_AT + 16: '00000007'}, BLOCKS_AT + 16),
    ({EDGES_AT: '01000000'}, EDGES_AT),
    ({edge(0): 'ffffffff'}, edge(0)),
    ({edge(0): '00000007'}, edge(0)),
    ({edge(1) + 4: '00000009'}, edge(1)),
    ({edge(2) + 8: '00000009'}, edge(2)),
    ({edge(0) + 12: '0000000a'}, edge(0)),
    ({edge(0) + 12: 'fffffffe'}, edge(0)),
    ({edge(0) + 12: '00000000', edge(1) + 12: 'ffffffff', edge(2) + 12: '00000000'}, edge(2)),
    ({edge(8) + 8: 'ffffffff'}, edge(8)),
    ({RANGES_AT: '04000000'}, RANGES_AT),
    ({place(0): '00000001'}, place(0)),
    ({place(0) + 4: '00000000'}, place(0)),
    ({place(1) + 4: '00000003'}, place(1)),
    ({place(1) + 8: '00010056'}, place(1)),
    ({place(2) + 12: '00000009'}, place(2)),
    ({place(2): '00010000'}, place(2)),
    ({place(0): '00010000'}, place(0)),
    ({place(RANGES - 1) + 4: 'fffffffc'}, place(RANGES - 1)),
    ({RANGES_AT: f'{RANGES - 1:08x}'}, NOTES_END - 16),
    ({RANGES_AT: f'{RANGES + 1:08x}'}, NOTES_END),
]


# What only one of them refuses.
BAD_BY_VERSION = {
    1: [({8: '00000003'}, 8), ({28: '00400001'}, 28), ({edge(0) + 12: '00000005'}, edge(0))],
    2: [({8: '00000004'}, 8), ({28: '00800001'}, 28), ({edge(0) + 12: '00000001'}, edge(0)),
        ({edge(0) + 12: '00000009'}, edge(0)), ({28: '00000009'}, edge(COUNTED[-1]))],
}


def profile_notes(version):
    """Notes of that shape, made of those of the edit without snippets."""
    file = written(CARRY_LOOP)
    at, size = judge.word(file, 4040), judge.word(file, 4044)
    plain = bytearray(file[at:at + size])
    plain[8:12] = struct.pack('>I', 1)
    plain[24:36] = struct.pack('>3I', 0x1f000, version * COUNTERS, 4)
    notes = plain[:36] + struct.pack('>2I', 0x1f000, 0x1000) + plain[36:]
    for counter, number in enumerate(COUNTED):
        notes[edge(number) + 12:edge(number) + 16] = struct.pack('>I', version * counter)
    return bytes(notes), len(file) + 8


def place_of_fault(notes, size, version):
    try:
        judge.notes_in(notes, size, version)
    except judge.Bad as bad:
        return bad.args[0]
    return None


def bad_notes(name, at):
    return f'eel: {name}: bad notes at {at}\n'.encode()


REPORTS = ['counts', 'visits', 'trace']


def read_by_some(name, line):
    yield call(f'restore {name} out', 65, err=line)
    for report in REPORTS:
        yield call(f'{report} {name} dump', 65, err=line)


def read_by_all(name, line):
    """The notes of this file are refused by every command that reads them."""
    yield from read_by_some(name, line)
    yield call(f'run {name} -d other', 65, err=line)


def told_by_none(name, line=None):
    """Notes that keep their rules, and are those of no profile, or of another version; of no word's blocks, and of no ring."""
    yield call(f'counts {name} dump', 65, err=line or f'eel: {name}: no profile\n'.encode())
    yield call(f'visits {name} dump', 65, err=f'eel: {name}: not every word\n'.encode())
    yield call(f'trace {name} dump', 65, err=f'eel: {name}: no trace\n'.encode())


def counted(name):
    lines, _, _ = plain_count.count(PROGRAMS[name].file(), [], b'')
    return lines.encode()


def badly_noted(written, version, read):
    """Notes of a version with each rule broken, by commands that read them."""
    notes, size = profile_notes(version)
    assert place_of_fault(notes, size, version) is None and len(notes) == NOTES_END
    for patches, at in BAD_NOTES + BAD_BY_VERSION[version]:
        assert place_of_fault(patched(notes, patches), size, version) == at, patches
        yield patch('noted', written, 'bad', patches)
        yield from read('bad', bad_notes('bad', at))


def cut_off(written, version):
    """Notes cut off at each word."""
    notes, size = profile_notes(version)
    for cut in range(place(2)):
        if cut % 4 in (0, 3):
            assert place_of_fault(notes[:cut], size, version) == cut // 4 * 4
            yield patch('patch', written, 'bad', {4044: f'{cut:08x}'})
            # a run takes its memory before its notes are looked at
            read = read_by_all if cut % 16 == 0 else read_by_some
            yield from read('bad', bad_notes('bad', cut // 4 * 4))


def noted():
    """Notes and dumps with each rule broken, and cut off at each word, by every command that reads them."""
    yield 'watch', b''
    yield 'hold carry_loop', b''
    yield 'hold carry_loop.narrow', b''
    yield call('edit carry_loop written profile', 0, changed=['written'])
    yield call('run written -d dump', 0, err=b'exit 4\n', changed=['dump'])
    yield call('counts written dump', 0, counted('carry_loop'))
    yield from badly_noted('written', 2, read_by_all)
    yield from badly_noted('carry_loop.narrow', 1, read_by_some)
    yield from cut_off('written', 2)
    # an edge or a place at a landed copy, which no edge without a cell joins to the other nodes
    notes, size = profile_notes(2)
    for patches in ({edge(1) + 4: '00000005'}, {edge(2) + 8: '00000008'}, {place(2) + 12: '00000006'}):
        assert place_of_fault(patched(notes, patches), size, 2) is None
        yield patch('noted', 'written', 'bad', patches)
        yield from told_by_none('bad')
    # a tool that version 2 alone has
    yield patch('noted', 'written', 'bad', {8: '00000003'})
    yield from told_by_none('bad')
    for at in (4040, 4044):
        yield patch('patch', 'written', 'bad', {at: 'ffffffff'})
        yield from read_by_all('bad', bad_notes('bad', 0))
    for patches in ({4032: '45454c44'}, {4036: '00000000'}, {4036: '00000003'}, {4036: '00020000'}, {4032: '00000000'}):
        yield patch('patch', 'written', 'bad', patches)
        yield from read_by_all('bad', b'eel: bad: no notes\n')
    # notes of one version that are read as those of the other
    yield patch('patch', 'written', 'bad', {4036: '00000001'})
    yield from told_by_none('bad', b'eel: dump: dump version 2, notes version 1\n')
    yield patch('patch', 'carry_loop.narrow', 'bad', {4036: '00000002'})
    yield from read_by_all('bad', bad_notes('bad', edge(COUNTED[1])))
    # judged as a file before its notes are looked at
    yield 'cut written bad 4095', b''
    yield from read_by_some('bad', b'eel: bad: no notes\n')
    yield call('run bad -d other', 65, err=file_fault('bad', 11))
    # the cells lie outside every segment, leave their segment, or lie where the original's text is read
    for base in ('00001000', '00010060'):
        yield patch('noted', 'written', 'bad', {24: base})
        yield call('run bad -d other', 65, err=bad_notes('bad', 24))
        yield call('run bad', 0, err=b'exit 4\n')
        yield call('counts bad dump', 0, counted('carry_loop'))
    yield patch('noted', 'carry_loop.narrow', 'bad', {24: '00010054'})
    yield call('run bad -d other', 0, err=b'exit 4\n', changed=['other'])
    yield 'hold carry_loop.words', b''
    yield 'cells other carry_loop.words', b''


# The fields of a dump of either version: where each begins.
DUMP_FIELDS = {1: [0, 4, 8, 12, 16, 20, 28], 2: [0, 4, 8, 12, 16, 20, 28, 32]}


def bad_dumps(version):
    """What is changed in a dump of a version with five counters, and the offset that is named."""
    count_at, count = DUMP_FIELDS[version][-1], version * COUNTERS
    end = count_at + 4 + 4 * count
    # as version 1 its number of cells would be the size of the original
    as_narrow = [({4: '00000001'}, 28)] if version == 2 else []
    return as_narrow + [
        ({0: '45454c4e'}, 0),
        ({4: '00000000'}, 4),
        ({4: '00000003'}, 4),
        ({4: '01000000'}, 4),
        ({8: '00000005'}, 8),
        ({8: 'ffffffff'}, 8),
        ({12: '00000100'}, 12),
        ({8: '00000000'}, 12),
        ({8: '00000002', 12: '00000100'}, 12),
        ({8: '00000003', 12: '00000001'}, 12),
        ({8: '00000004', 12: '00000001'}, 12),
        ({count_at: f'{count - 1:08x}'}, count_at),
        ({count_at: f'{count + 1:08x}'}, count_at),
        ({count_at: f'{(1 << 30) + count:08x}'}, count_at),
        ({end: '00'}, count_at),
        ({end: '00000000'}, count_at),
    ]


def dump_fault(dump):
    try:
        judge.dump_of(dump)
    except judge.Bad as bad:
        return bad.args[0]
    return None


def ended_dump(version):
    """Of that shape, with cells of some kind."""
    count = version * COUNTERS
    told = [len(CARRY_LOOP), count] if version == 2 else [count]
    return struct.pack(f'>4s4IQ{len(told) + count}I', b'EELD', version, 1, 4, 0x20000, 40, *told, *range(count))


def read_by_reports(written, at):
    """The dump is refused by each command that reads it."""
    for report in REPORTS:
        yield call(f'{report} {written} bad', 65, err=f'eel: bad: bad dump at {at}\n'.encode())


def badly_dumped(written, dump, version):
    """Dumps of a version with each rule broken, and each first part of one."""
    told = ended_dump(version)
    for patches, at in bad_dumps(version):
        assert dump_fault(patched(told, patches)) == at, patches
        yield patch('patch', dump, 'bad', patches)
        yield from read_by_reports(written, at)
    for size in range(len(told)):
        at = max(at for at in DUMP_FIELDS[version] if at <= size)
        assert dump_fault(told[:size]) == at
        yield f'cut {dump} bad {size}', b''
        yield from read_by_reports(written, at)


def dumped():
    """Dumps with each rule broken, and each first part of one."""
    yield 'watch', b''
    yield 'hold carry_loop', b''
    yield 'hold carry_loop.narrow', b''
    yield 'hold carry_loop.narrow_dump', b''
    yield call('edit carry_loop written profile', 0, changed=['written'])
    yield call('run written -d dump', 0, err=b'exit 4\n', changed=['dump'])
    yield from badly_dumped('written', 'dump', 2)
    yield from badly_dumped('carry_loop.narrow', 'carry_loop.narrow_dump', 1)
    # notes are judged before the dump, and the dump before there are counts
    yield 'cut dump bad 35', b''
    for report in REPORTS:
        yield call(f'{report} carry_loop bad', 65, err=b'eel: carry_loop: no notes\n')
    yield call('edit carry_loop plain plain', 0, changed=['plain'])
    yield from read_by_reports('plain', 32)
    yield from told_by_none('plain')


# ---- devices that fail

class Fault(Exception):
    """A call of a device failed."""


class Stream:
    """Takes what has room, and fails at one of its writes, or where it is full."""

    def __init__(self, room, failing):
        self.room = room
        self.failing = failing
        self.writes = 0
        self.taken = b''

    def put(self, piece):
        while piece:
            number, self.writes = self.writes, self.writes + 1
            count = min(len(piece), self.room - len(self.taken))
            if number == self.failing or count == 0:
                raise Fault
            self.taken += piece[:count]
            piece = piece[count:]


class Devices:
    """What a call of the editor has to do with, and what it does: which of its calls fails, and how much streams take."""

    def __init__(self, failing, rooms):
        self.failing = failing
        self.calls = {'files': 0, 'input': 0}
        self.out, self.err = (Stream(room, failing.get(name)) for name, room in zip(('out', 'err'), rooms))
        self.changed = []

    def use(self, device, times=1):
        for _ in range(times):
            number, self.calls[device] = self.calls[device], self.calls[device] + 1
            if number == self.failing.get(device):
                raise Fault

    def put(self, name):
        self.use('files')
        self.changed = [name]


def perform(steps, pieces, status, devices):
    """Does the steps of a command, and then writes the pieces of its line. What comes of it: a status."""
    try:
        for step in steps:
            step(devices)
    except Fault:
        pieces, status = [DEVICE_FAULT], 74
    try:
        for piece in pieces:
            devices.err.put(piece)
    except Fault:
        return 74
    return status


def fetch(devices):
    devices.use('files')


def read(times):
    return lambda devices: devices.use('input', times)


def put(name):
    return lambda devices: devices.put(name)


def prints(text):
    return lambda devices: devices.out.put(text)


def warns(text):
    return lambda devices: devices.err.put(text)


def told(*words):
    """The pieces of a line."""
    return [b'eel: ', *(word.encode() for word in words)]


# A call; what it does with its devices, in order; the pieces of its line; and its status where nothing fails.
ECHO = [fetch, read(2), prints(ECHOES.output), warns(ECHOES.errors)]
DONE = {
    'edit echoes out plain': ([fetch, put('out')], [], 0),
    'edit echoes out script echoes.counting': ([fetch, fetch, put('out')], [], 0),
    'edit echoes out profile': ([fetch, put('out')], [], 0),
    'edit echoes out every': ([fetch, put('out')], [], 0),
    'edit echoes out trace 2': ([fetch, put('out')], [], 0),
    'run echoes': (ECHO, [b'exit ', b'3', b'\n'], 0),
    'run profiled -d out': ([*ECHO, put('out')], [b'exit ', b'3', b'\n'], 0),
    'run profiled -n 3 -d out': ([fetch, read(2), put('out')], [b'stopped ', b'3', b'\n'], 0),
    'restore profiled out': ([fetch, put('out')], [], 0),
    'show three_words': ([fetch, prints(LISTING)], [], 0),
    'list three_words': ([fetch, prints(INSTRUCTIONS)], [], 0),
    'words three_words.listing out': ([fetch, put('out')], [], 0),
    'edit echoes out profile echoes.rows': ([fetch, fetch, put('out')], [], 0),
    'counts profiled dump': (
        [fetch, fetch, prints(plain_count.count(ECHOES.file(), [], ECHOES.given)[0].encode())], [], 0),
    'visits marked marked_dump': ([fetch, fetch, prints(plain_count.word_visits(CARRY_LOOP).encode())], [], 0),
    'trace traced traced_dump': ([fetch, fetch, prints(plain_count.last_edges(CARRY_LOOP, 1).encode())], [], 0),
    'demo 1 1': ([prints(b'demo 1 routines 1\nwords 11 blocks 8 edges 17\nending exit 178 steps 35\nexecutions 11\n')], [], 0),
}

OF_ANOTHER = told(
    'of_another', ': ', 'made for ', str(len(CARRY_LOOP)), ' bytes, ', str(len(THREE_WORDS)), ' wanted', '\n')

REFUSED = {
    'help': ([], [b'eel: bad words\n'], 64),
    'edit short out plain': ([fetch], told('short', ': ', 'file fault ', '1', '\n'), 65),
    'show short': ([fetch], told('short', ': ', 'file fault ', '1', '\n'), 65),
    'run short': ([fetch, read(2)], told('short', ': ', 'file fault ', '1', '\n'), 65),
    'edit echoes out script echoes': ([fetch, fetch], told('echoes', ': line ', '1', ': ', 'grammar', '\n'), 65),
    'list short': ([fetch], told('short', ': ', 'file fault ', '1', '\n'), 65),
    'words echoes out': ([fetch], told('echoes', ': line ', '1', ': ', 'grammar', '\n'), 65),
    'edit echoes out profile echoes': ([fetch, fetch], told('echoes', ': line ', '1', ': ', 'grammar', '\n'), 65),
    'restore echoes out': ([fetch], told('echoes', ': ', 'no notes', '\n'), 65),
    'restore unnoted out': ([fetch], told('unnoted', ': ', 'bad notes at ', '8', '\n'), 65),
    'run unnoted -d out': ([fetch, read(2)], told('unnoted', ': ', 'bad notes at ', '8', '\n'), 65),
    'counts profiled short': ([fetch, fetch], told('short', ': ', 'bad dump at ', '0', '\n'), 65),
    'counts plain dump': ([fetch, fetch], told('plain', ': ', 'no profile', '\n'), 65),
    'counts three_profiled of_an_older_version': (
        [fetch, fetch], told('of_an_older_version', ': ', 'dump version ', '1', ', notes version ', '2', '\n'), 65),
    'counts three_profiled of_another': ([fetch, fetch], OF_ANOTHER, 65),
    'counts three_profiled three_cells': (
        [fetch, fetch], told('three_cells', ': ', '3', ' cells, ', '2', ' wanted', '\n'), 65),
    'counts carry_loop.narrow narrow_long_run': ([fetch, fetch], told('narrow_long_run', ': ', '4294967296', ' steps', '\n'), 65),
    'counts three_profiled in_no_place': ([fetch, fetch], told('in_no_place', ': pc ', 'fffff000', ' between places\n'), 65),
    'counts branching taken_twice': (
        [fetch, fetch], told('taken_twice', ': ', 'edge ', '1', ' would be ', '-1', '\n'), 65),
    'counts three_profiled too_many_landings': (
        [fetch, fetch], told('too_many_landings', ': ', 'edge ', '0', ' would be ', '18446744073709551616', '\n'), 65),
    'edit short out every': ([fetch], told('short', ': ', 'file fault ', '1', '\n'), 65),
    'edit short out trace 2': ([fetch], told('short', ': ', 'file fault ', '1', '\n'), 65),
    'edit carry_loop out profile rows.bad0': ([fetch, fetch], told('rows.bad0', ': line ', '1', ': ', 'edge', '\n'), 65),
    'edit carry_loop out profile rows.bad14': ([fetch, fetch], told('rows.bad14', ': line ', '2', ': ', 'total', '\n'), 65),
    'visits echoes dump': ([fetch, fetch], told('echoes', ': ', 'no notes', '\n'), 65),
    'visits unnoted dump': ([fetch, fetch], told('unnoted', ': ', 'bad notes at ', '8', '\n'), 65),
    'visits marked short': ([fetch, fetch], told('short', ': ', 'bad dump at ', '0', '\n'), 65),
    'visits profiled dump': ([fetch, fetch], told('profiled', ': ', 'not every word', '\n'), 65),
    'visits marked of_an_older_version': (
        [fetch, fetch], told('of_an_older_version', ': ', 'dump version ', '1', ', notes version ', '2', '\n'), 65),
    'visits three_marked of_another': ([fetch, fetch], OF_ANOTHER, 65),
    'visits three_marked three_cells': ([fetch, fetch], told('three_cells', ': ', '3', ' cells, ', '6', ' wanted', '\n'), 65),
    'visits marked out_of_place': ([fetch, fetch], told('out_of_place', ': pc ', 'fffff000', ' between places\n'), 65),
    'trace echoes dump': ([fetch, fetch], told('echoes', ': ', 'no notes', '\n'), 65),
    'trace unnoted dump': ([fetch, fetch], told('unnoted', ': ', 'bad notes at ', '8', '\n'), 65),
    'trace traced short': ([fetch, fetch], told('short', ': ', 'bad dump at ', '0', '\n'), 65),
    'trace profiled dump': ([fetch, fetch], told('profiled', ': ', 'no trace', '\n'), 65),
    'trace traced of_an_older_version': (
        [fetch, fetch], told('of_an_older_version', ': ', 'dump version ', '1', ', notes version ', '2', '\n'), 65),
    'trace three_traced of_another': ([fetch, fetch], OF_ANOTHER, 65),
    'trace four_traced ring_of_two': ([fetch, fetch], told('ring_of_two', ': ', '3', ' cells, ', '5', ' wanted', '\n'), 65),
    'trace four_traced ring_in_no_place': ([fetch, fetch], told('ring_in_no_place', ': pc ', 'fffff000', ' between places\n'), 65),
    'trace four_traced ring_of_edge_9': ([fetch, fetch], told('ring_of_edge_9', ': ', 'cell ', '2', ' has ', '10', '\n'), 65),
    'edit cramped out plain': ([fetch], told('cramped', ': ', 'room ', '1050112', ' needed, ', '0', ' had', '\n'), 69),
    'edit cramped out every': ([fetch], told('cramped', ': ', 'room ', '1050904', ' needed, ', '0', ' had', '\n'), 69),
    'edit cramped out trace 16': ([fetch], told('cramped', ': ', 'room ', '1312772', ' needed, ', '0', ' had', '\n'), 69),
    'show missing': ([fetch], [DEVICE_FAULT], 74),
}


def failing_lines(failing):
    return [(f'fail {device} {number}', b'') for device, number in failing.items()]


def row(words, command, failing, rooms=(1 << 16, 1 << 16)):
    """A call in which these calls of devices fail: the files keep their bytes but for a name that was put."""
    steps, pieces, status = command
    devices = Devices(failing, rooms)
    came = perform(steps, pieces, status, devices)
    yield from failing_lines(failing)
    yield call(words, came, devices.out.taken, devices.err.taken, devices.changed)
    if devices.changed:
        yield 'same out good', b''
        yield 'cut three_words out 0', b''


def uses(command):
    """How many calls of each device it makes where none fails."""
    steps, pieces, status = command
    devices = Devices({}, (1 << 16, 1 << 16))
    perform(steps, pieces, status, devices)
    return {**devices.calls, 'out': devices.out.writes, 'err': devices.err.writes}


def failures(words, command):
    """Each call of each device fails in turn, from the first to one past the last; and besides the write of the line."""
    for device, count in uses(command).items():
        if count or device == 'err':
            for number in range(count + 1):
                yield from row(words, command, {device: number})
        for number in range(count):
            if device != 'err':
                yield from row(words, command, {device: number, 'err': 0})
                yield from row(words, command, {device: number, 'err': 1})


def sizes(size, some):
    """Each number of bytes up to so many; of a long text some alone."""
    return range(size + 1) if size <= some else [*range(some // 2), *range(size - some // 2, size + 1)]


def in_each_room(words, command, some=20):
    """A stream takes each number of bytes, from none to all."""
    steps, pieces, status = command
    devices = Devices({}, (1 << 16, 1 << 16))
    perform(steps, pieces, status, devices)
    for number in sizes(len(devices.out.taken), some) if devices.out.taken else []:
        yield f'room {number} 65536', b''
        yield from row(words, command, {}, (number, 1 << 16))
    for number in sizes(len(devices.err.taken), some):
        yield f'room 65536 {number}', b''
        yield from row(words, command, {}, (1 << 16, number))
    yield 'room 65536 65536', b''


def good(words, command):
    """What the call writes where nothing fails."""
    devices = Devices({}, (1 << 16, 1 << 16))
    perform(*command, devices)
    if devices.changed:
        yield call(words.replace('out', 'good'), 0, devices.out.taken, devices.err.taken, ['good'])


LONG = {'edit long out plain': ([fetch], told('long', ': ', 'longer than ', '67108864', ' bytes', '\n'), 66),
    'edit three_words out script long': ([fetch, fetch], told('long', ': ', 'longer than ', '16777216', ' bytes', '\n'), 66),
    'list long': ([fetch], told('long', ': ', 'longer than ', '67108864', ' bytes', '\n'), 66),
    'words long out': ([fetch], told('long', ': ', 'longer than ', '67108864', ' bytes', '\n'), 66)}


def long():
    """Files above their limits: each write of the line fails in turn."""
    yield 'hold three_words', b''
    yield 'zeros long 67108865', b''
    for words, command in LONG.items():
        for number in range(uses(command)['err'] + 1):
            yield from row(words, command, {'err': number})


def is_report(words):
    """Whether a call tells of a dump by a file of another edit than a profile: these stand in a session of their own."""
    return words.split()[0] in ('visits', 'trace')


def devices():
    """Every other command with each call of each device failing in turn, and in streams of each size that matters."""
    yield 'watch', b''
    for name in ('three_words', 'three_words.listing', 'echoes', 'echoes.counting', 'echoes.rows', 'cramped', 'taken_branch',
            'taken_twice', 'three_cells', 'in_no_place', 'of_another', 'of_an_older_version', 'too_many_landings',
            'carry_loop', 'carry_loop.narrow', 'narrow_long_run', 'rows.bad0', 'rows.bad14'):
        yield f'hold {name}', b''
    yield 'input echoes.input', b''
    yield 'cut three_words out 0', b''
    yield 'cut three_words good 0', b''
    yield 'cut three_words short 0', b''
    yield call('edit echoes plain plain', 0, changed=['plain'])
    yield call('edit echoes profiled profile', 0, changed=['profiled'])
    yield call('run profiled -d dump', 0, ECHOES.output, ECHOES.errors + b'exit 3\n', ['dump'])
    yield call('edit taken_branch branching profile', 0, changed=['branching'])
    yield call('edit three_words three_profiled profile', 0, changed=['three_profiled'])
    yield patch('noted', 'profiled', 'unnoted', {8: 'ffffffff'})
    for words, command in DONE.items():
        if not is_report(words):
            yield from good(words, command)
            yield from failures(words, command)
    for words, some in {'run echoes': 20, 'run profiled -d out': 6, 'show three_words': 200, 'demo 1 1': 4}.items():
        yield from good(words, DONE[words])
        yield from in_each_room(words, DONE[words], some)
    for words, command in REFUSED.items():
        if not is_report(words):
            yield from failures(words, command)
    for words in ('help', 'edit short out plain', 'edit cramped out plain', 'edit carry_loop out profile rows.bad0',
            'edit carry_loop out profile rows.bad14'):
        yield from in_each_room(words, REFUSED[words], 60)


def reports():
    """Visits and last edges with each call of each device failing in turn, and lines that break off at each byte."""
    yield 'watch', b''
    for name in ('three_words', 'carry_loop', 'echoes', 'three_cells', 'of_another', 'of_an_older_version', 'ring_of_two',
            'ring_of_edge_9', 'ring_in_no_place'):
        yield f'hold {name}', b''
    yield 'cut three_words short 0', b''
    yield call('edit carry_loop profiled profile', 0, changed=['profiled'])
    yield call('run profiled -d dump', 0, err=b'exit 4\n', changed=['dump'])
    yield call('edit three_words three_marked every', 0, changed=['three_marked'])
    yield call('edit three_words three_traced trace 1', 0, changed=['three_traced'])
    yield call('edit carry_loop four_traced trace 2', 0, changed=['four_traced'])
    yield call('edit carry_loop marked every', 0, changed=['marked'])
    yield call('run marked -d marked_dump', 0, err=b'exit 4\n', changed=['marked_dump'])
    yield call('edit carry_loop traced trace 1', 0, changed=['traced'])
    yield call('run traced -d traced_dump', 0, err=b'exit 4\n', changed=['traced_dump'])
    yield patch('patch', 'marked_dump', 'out_of_place', {16: 'fffff000'})
    yield patch('noted', 'profiled', 'unnoted', {8: 'ffffffff'})
    for words, command in [*DONE.items(), *REFUSED.items()]:
        if is_report(words):
            yield from failures(words, command)
    for words in ('visits profiled dump', 'trace profiled dump', 'trace four_traced ring_of_edge_9'):
        yield from in_each_room(words, REFUSED[words], 60)
