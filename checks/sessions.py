"""Sessions that crates/program_runs plays: calls of the editor over files in memory, and what must come of each."""
import functools
import os
import struct
from dataclasses import replace

import disassembler
import listing
import listings
import plain_count
import tables
from programs import C_PROGRAMS, RUNS, SMALL, SWITCHING, Program
from written import written

BAD_WORDS = b'eel: bad words\n'
DEVICE_FAULT = b'eel: device fault\n'
CRAMPED_PROFILE = b'eel: cramped: room 1050632 needed, 0 had\n'
CRAMPED_TRACE = b'eel: cramped: room 1312772 needed, 0 had\n'

# Prints five bytes of its first argument, and exits with the number of arguments, its name among them.
ARGUMENT = Program('prints_its_argument',
    'd203a048 82102004 90102001 94102005 91d02010 d003a040 82102001 91d02010', 8, 'exit 3', output=b'hello')

# Files that are shown, too, with their endings: transfers out of the text, slots behind it, words that are none.
SHOWN = {'leaves_at_both_ends': 'trap 1', 'never_and_always': 'trap 1', 'ends_with_a_jump': 'trap 1',
    'ends_with_a_branch': 'trap 1', 'leads_to_a_slot': 'couple', 'data_words': 'trap 2'}



def draws(number):
    """The numbers that are drawn, one after the other."""
    while True:
        number = (1103515245 * number + 12345) % 2**32
        yield number >> 16


def drawn_routines(number, count):
    """How often the loop of each turns, and what each turn adds."""
    drawn = draws(number)
    return [(1 + next(drawn) % 16, next(drawn) % 64) for _ in range(count)]


def made(number, count):
    """The program that `demo` makes, of so many routines."""
    routines = drawn_routines(number, count)
    calls = [[0x40000000 + 2 * count + 2 + 5 * routine, 0x01000000] for routine in range(count)]
    codes = [[0x84102000 + turns, 0x90022000 + amount, 0x84a0a001, 0x12bffffe, 0x01000000, 0x81c3e008, 0x01000000]
        for turns, amount in routines]
    words = [word for code in [*calls, [0x82102001, 0x91d02010], *codes] for word in code]
    steps = 2 * count + 2 + sum(4 * turns + 3 for turns, _ in routines)
    total = sum(turns * amount for turns, amount in routines)
    return Program(f'made_{number}_{count}', ' '.join(f'{word:08x}' for word in words), steps, f'exit {total % 256}')


# One that is edited and counted, too.
MADE = made(1, 1)

EDITED = {program.name: program for program in [*SMALL, *C_PROGRAMS, ARGUMENT, MADE]}
EDITED |= {name: Program(name, listings.WORDS[name], 0, ending) for name, ending in SHOWN.items()}
THREE_WORDS = EDITED['three_words']
ECHOES = EDITED['echoes']

# The sieve goes to a thousand only.
EDITED['sieve'] = replace(EDITED['sieve'], output=b'168\n')
ARGUMENTS = {'sieve': ' -- 1000', ARGUMENT.name: ' -- hello world'}

# Programs whose edited files stand beside them, byte for byte.
WRITTEN = ['three_words', 'annulled_branches', 'carry_loop', 'transfer_in_slot', 'call_and_return', 'inner_landings',
    'ends_with_a_branch', 'branches', 'fractions']

LISTING = (b'routine 00010054 -\nblock 0 00010054 3\nedge 0 fall 00010054 x -\n'
    b'edge 1 land x 00010054 -\nroutines 1 blocks 1 edges 2\n')


def call(words, status, out=b'', err=b''):
    """A call, and what is printed of it."""
    line = ' '.join(['eel', *words])
    printed = f'{line}: {status}\n'.encode()
    printed += out and out + b'\n'
    printed += err and b'to the error stream: ' + err + b'\n'
    return line, printed


def eel(words, status, out=b'', err=b''):
    return call(words.split(), status, out, err)


def cramped():
    """three_words with a second segment, of 16 bytes without file bytes at the end of a program's addresses."""
    file = bytearray(THREE_WORDS.file())
    file[44:46] = struct.pack('>H', 2)
    first = struct.pack('>8I', 1, 116, 0x10074, 0x10074, 12, 12, 5, 0x10000)
    second = struct.pack('>8I', 1, 0, 0x7fff0000, 0x7fff0000, 0, 0x10000, 6, 0)
    file[24:28] = struct.pack('>I', 0x10074)
    return bytes(file[:52]) + first + second + bytes(file[84:])


def program_file(name):
    """The file of a program: those that a compiler made stand in program_runs."""
    if EDITED[name].words:
        return EDITED[name].file()
    with open(os.path.join(RUNS, 'data', name), 'rb') as opened:
        return opened.read()


def ran(program):
    """What a run puts out to its streams."""
    return program.output, program.errors + program.ending.encode() + b'\n'


def edits():
    """Programs beside their edited files, which run as they do."""
    for name in WRITTEN:
        yield f'hold {name}.edited', b''
    for name, program in EDITED.items():
        arguments = ARGUMENTS.get(name, '')
        yield f'hold {name}', b''
        if program.given:
            yield f'input {name}.input', b''
        yield eel(f'edit {name} edited plain', 0)
        if name in WRITTEN:
            yield f'same edited {name}.edited', b''
        yield eel('restore edited restored', 0)
        yield f'same restored {name}', b''
        yield eel(f'run {name}{arguments}', 0, *ran(program))
        yield eel(f'run edited{arguments}', 0, *ran(program))


def words():
    """Words inside and outside the grammar."""
    yield 'hold three_words', b''
    yield 'hold prints_its_argument', b''
    yield 'hold newline_count', b''
    yield 'input newline_count.input', b''
    for line in ['', 'help', 'edit three_words out', 'show',
            'restore', 'restore three_words', 'restore three_words out out',
            'show three_words three_words', 'run', 'run three_words -q', 'run three_words -n',
            'run three_words -n 0x1', 'run three_words -n 18446744073709551616',
            'run three_words -n 1 -n 2', 'run three_words x', 'edit three_words out script',
            'edit three_words out script three_words out', 'run three_words -d', 'run three_words -d out -d out',
            'run three_words -d out -n', 'run three_words -n 1 -d out -n 1', 'run three_words -d out x']:
        yield eel(line, 64, err=BAD_WORDS)
    yield eel('run three_words -n 2', 0, err=b'stopped 2\n')
    yield eel('run three_words -n 18446744073709551615', 0, err=b'exit 3\n')
    yield eel('run three_words -n 00000000000000000000 -- -n -- a', 0, err=b'stopped 0\n')
    yield eel('run prints_its_argument -- hello world', 0, b'hello', b'exit 3\n')
    yield eel('run newline_count -n 463091', 0, b'4096', b'stopped 463091\n')
    most = 'run three_words -n 0 --' + 1000 * ' x'
    yield eel(most, 0, err=b'stopped 0\n')
    yield eel(most + ' x', 64, err=BAD_WORDS)
    yield eel('show three_words', 0, LISTING)


def broken():
    """three_words edited, with notes that name a tool that there isn't, in the word at 8."""
    file = bytearray(written(THREE_WORDS.file()))
    notes_at, = struct.unpack_from('>I', file, 4040)
    file[notes_at + 8:notes_at + 12] = struct.pack('>I', 4)
    return bytes(file)


def restores():
    """Files of which the original can't be told."""
    yield 'hold three_words', b''
    yield 'hold three_words.broken', b''
    yield eel('restore three_words out', 65, err=b'eel: three_words: no notes\n')
    yield eel('restore three_words.broken out', 65, err=b'eel: three_words.broken: bad notes at 8\n')
    yield eel('restore missing out', 74, err=DEVICE_FAULT)
    yield eel('run out', 74, err=DEVICE_FAULT)
    yield 'hold three_words.edited', b''
    yield eel('restore three_words.edited three_words.edited', 0)
    yield 'same three_words.edited three_words', b''


CARRY_LOOP = EDITED['carry_loop']
THREE_LINES = b'edge 1 add 0 3\nedge 1 top 1 %g2\nedge 2 keep 2 %o0\n'

# Counters of two cells, of which one begins before its low word is 0 again, and what they come to.
TWO_COUNTERS = b'edge 0 put 1 4294967294\nedge 1 count 0\nedge 1 count 2\nedge 2 count 4\n'
TWO_COUNTED = [1, 2, 0, 4, 0, 1]


def bad_line(line, cause):
    return f'eel: carry_loop.bad: line {line}: {cause}\n'.encode()


# Scripts with a bad line, and what is said of them.
BAD_LINES = {
    b'edge 9 add 0 1': bad_line(1, 'edge'),
    b'edge 1  add 0 1\n': bad_line(1, 'grammar'),
    b'# cells\n\nedge 1 add 4194304 1\n': bad_line(3, 'cell'),
    b'edge 1 add 0 1\n' * 9: bad_line(9, 'operations'),
    b'edge 1 count 0\nedge 1 count 4194303\n': bad_line(2, 'cell'),
    b'edge 9 count 4194303\n': bad_line(1, 'edge'),
    b'edge 1 count 0 1\n': bad_line(1, 'grammar'),
    b'edge 1 count 01\n': bad_line(1, 'grammar'),
    b'edge 1 count\n': bad_line(1, 'grammar'),
    b'edge 1 count \n': bad_line(1, 'grammar'),
    b'edge 1 count %g1\n': bad_line(1, 'grammar'),
    b'edge 1 counts 0\n': bad_line(1, 'grammar'),
    b'edge 1 count 4294967296\n': bad_line(1, 'grammar'),
    b'edge 2 add 0 1\nedge 1 top 1 %g2\n' * 8 + b'\nedge 2 keep 2 %o0\nedge 9\n': bad_line(18, 'operations'),
}


def counting(program):
    """A script that counts every edge, each in the cell with its number."""
    edges = len(plain_count.Counts(program).counts)
    return ''.join(f'edge {number} add {number} 1\n' for number in range(edges)).encode()


def words_of(numbers):
    return struct.pack(f'>{len(numbers)}I', *numbers)


# The programs of which every edge is counted. The sieve is left out, whose run is long.
COUNTED = [name for name in EDITED if name != 'sieve']


def scripts():
    """Programs edited by scripts: the cells are what a plain count of the original's edges says."""
    yield 'hold carry_loop', b''
    yield 'hold carry_loop.script', b''
    yield 'hold carry_loop.cells', b''
    yield eel('edit carry_loop edited script carry_loop.script', 0)
    yield eel('run edited -d dump', 0, err=b'exit 4\n')
    yield 'cells dump carry_loop.cells', b''
    yield eel('run edited -n 1 -d early', 0, err=b'stopped 1\n')
    yield eel('run edited -d again -n 1', 0, err=b'stopped 1\n')
    yield 'same early again', b''
    yield eel('run edited -d -- -- x', 0, err=b'exit 4\n')
    yield 'same -- dump', b''
    yield 'hold counters.script', b''
    yield 'hold counters.cells', b''
    yield eel('edit carry_loop edited script counters.script', 0)
    yield eel('run edited -d dump', 0, err=b'exit 4\n')
    yield 'cells dump counters.cells', b''
    yield eel('run carry_loop -d dump', 65, err=b'eel: carry_loop: no notes\n')
    yield eel('edit carry_loop edited script missing', 74, err=DEVICE_FAULT)
    yield eel('edit carry_loop edited script carry_loop', 65, err=b'eel: carry_loop: line 1: grammar\n')
    yield 'zeros long 16777217', b''
    yield eel('edit carry_loop edited script long', 66, err=b'eel: long: longer than 16777216 bytes\n')
    for number, line in enumerate(BAD_LINES.values()):
        yield f'hold carry_loop.bad{number}', b''
        yield eel(f'edit carry_loop edited script carry_loop.bad{number}', 65,
            err=line.replace(b'carry_loop.bad', f'carry_loop.bad{number}'.encode()))
    for name in COUNTED:
        program = EDITED[name]
        arguments = ARGUMENTS.get(name, '')
        yield f'hold {name}', b''
        yield f'hold {name}.counting', b''
        yield f'hold {name}.counts', b''
        if program.given:
            yield f'input {name}.input', b''
        yield eel(f'edit {name} edited script {name}.counting', 0)
        yield eel(f'run edited -d dump{arguments}', 0, *ran(program))
        yield f'cells dump {name}.counts', b''
    yield 'hold three_words', b''
    yield eel('edit three_words edited plain', 0)
    yield eel('run edited -d dump', 0, err=b'exit 3\n')
    yield 'fail files 1', b''
    yield eel('run edited -d dump', 74, err=DEVICE_FAULT)


def refusals():
    """Files that are refused, and files and streams that fail."""
    yield 'hold three_words', b''
    yield eel('edit missing out plain', 74, err=DEVICE_FAULT)
    yield 'fail files 0', b''
    yield eel('edit three_words out plain', 74, err=DEVICE_FAULT)
    yield eel('edit three_words out plain', 0)
    yield 'fail files 1', b''
    yield eel('edit three_words other plain', 74, err=DEVICE_FAULT)
    yield eel('edit out other plain', 65, err=b'eel: out: file fault 12\n')
    yield eel('show other', 74, err=DEVICE_FAULT)
    yield eel('run other', 74, err=DEVICE_FAULT)
    yield 'hold cramped', b''
    yield eel('edit cramped other plain', 69, err=b'eel: cramped: room 1050112 needed, 0 had\n')
    yield 'zeros long 67108865', b''
    yield eel('edit long other plain', 66, err=b'eel: long: longer than 67108864 bytes\n')
    yield eel('show long', 66, err=b'eel: long: longer than 67108864 bytes\n')
    yield eel('run long', 65, err=b'eel: long: file fault 2\n')
    yield 'hold echoes', b''
    yield 'input echoes.input', b''
    yield 'fail input 1', b''
    yield eel('run echoes', 74, err=DEVICE_FAULT)
    yield 'room 5 100', b''
    yield eel('run echoes', 74, b'hello', DEVICE_FAULT)
    yield eel('show three_words', 74, LISTING[:5], DEVICE_FAULT)
    yield 'room 100 4', b''
    yield eel('run echoes', 74, ECHOES.output, b'hele')
    yield eel('help', 74, err=b'eel:')
    yield eel('edit other out plain', 74, err=b'eel:')
    # an input of its limit, and of one byte more
    yield 'room 100 100', b''
    yield 'input_zeros 67108864', b''
    yield eel('run three_words', 0, err=b'exit 3\n')
    yield 'input_zeros 67108865', b''
    yield eel('run three_words', 66, err=b'eel: standard input: longer than 67108864 bytes\n')
    yield eel('run out -d dump', 66, err=b'eel: standard input: longer than 67108864 bytes\n')
    yield eel('run dump', 74, err=DEVICE_FAULT)


def profiles():
    """Programs with counters: what is rebuilt of the dumps of their runs is a plain count of the originals' runs."""
    for name, program in EDITED.items():
        arguments = ARGUMENTS.get(name, '')
        lines, _, _ = plain_count.count(program.file(), [word.encode() for word in arguments.split()[1:]], program.given)
        yield f'hold {name}', b''
        if program.given:
            yield f'input {name}.input', b''
        yield eel(f'edit {name} profiled profile', 0)
        yield eel(f'run profiled -d dump{arguments}', 0, *ran(program))
        yield eel('counts profiled dump', 0, lines.encode())


# ---- instructions

# Programs whose instructions are listed, and whose words are made of such a listing again.
LISTED = ['three_words', 'carry_loop', 'switch_of_four', 'data_words', 'queens']


def text_of(name):
    program = listing.Program(program_file(name))
    return program.start, program.words


def instructions(name):
    return disassembler.listing(*text_of(name)).encode()


# Listings with a bad line, and which.
BAD_LISTINGS = {
    b'00010054 nop\n': 1,
    b'00010054 or %g0,1,%g1': 1,
    b'00010054  or %g0,1,%g1\n': 1,
    b'00010054 or %g0,01,%g1\n': 1,
    b'00010056 or %g0,1,%g1\n': 1,
    b'0001005C or %g0,1,%g1\n': 1,
    b'00010054 .word 0x01000000\n': 1,
    b'00010054 or %g0,1,%g1\n00010058 or %g0,4096,%o0\n': 2,
    b'00010054 or %g0,1,%g1\n0001005c ta %g0,16\n': 2,
    b'00010054 or %g0,1,%g1\n00010058 ta %g0,16\n\n': 3,
    b'fffffffc ta %g0,16\n00000000 ta %g0,16\n': 2,
}


def listed():
    """Instructions that are listed, and words that are made of listings."""
    for name in LISTED:
        yield f'hold {name}', b''
        yield f'hold {name}.listing', b''
        yield f'hold {name}.text', b''
        yield eel(f'list {name}', 0, instructions(name))
        yield eel(f'words {name}.listing words', 0)
        yield f'same words {name}.text', b''
    yield 'cut three_words empty 0', b''
    yield eel('words empty words', 0)
    yield 'same words empty', b''
    yield eel('words missing words', 74, err=DEVICE_FAULT)
    yield eel('list missing', 74, err=DEVICE_FAULT)
    yield eel('list three_words.listing', 65, err=b'eel: three_words.listing: file fault 2\n')
    for number, line in enumerate(BAD_LISTINGS.values()):
        name = f'listing.bad{number}'
        yield f'hold {name}', b''
        yield eel(f'words {name} words', 65, err=f'eel: {name}: line {line}: grammar\n'.encode())
    for words in ('list', 'list a b', 'words a', 'words a b c'):
        yield eel(words, 64, err=BAD_WORDS)


# ---- weights

# Programs whose counters are placed by the counts of their own runs.
WEIGHED = ['carry_loop', 'three_words', 'inner_landings', 'switch_of_four', 'newline_count', 'queens']
WEIGHED_STEPS = 142017  # of queens


def rows(name):
    """What is counted of a program's run."""
    return plain_count.count(program_file(name), [], EDITED[name].given)[0].encode()


def bad_rows():
    """Lines that are no weights of carry_loop, and why."""
    lines = rows('carry_loop').decode().splitlines(keepends=True)
    whole, first, last = ''.join(lines), lines[0], lines[-1]
    yield 'edge 0 call 00010054 00010058 1\n' + whole, (1, 'edge')
    yield first + first + whole, (2, 'edge')
    yield 'edge 9 fall 00010054 00010058 1\n', (1, 'edge')
    yield whole.replace('edge 0 fall 00010054', 'edge 0 fall 00010055'), (1, 'edge')
    yield whole.replace(' 00010054 ', ' 00010054+ '), (1, 'edge')
    yield whole.replace('edge 1 ', 'edge 01 '), (2, 'grammar')
    yield first[:-2] + '0\n' + whole, (1, 'grammar')
    yield whole.replace('edge 0 fall', 'edge 0  fall'), (1, 'grammar')
    yield whole.replace('edge 0 fall', 'edge 0 falls'), (1, 'grammar')
    yield whole + last, (len(lines) + 1, 'grammar')
    yield ''.join(lines[:-1]), (len(lines), 'grammar')
    yield whole[:-1], (len(lines), 'grammar')
    yield '', (1, 'grammar')
    yield whole.replace('edges 9', 'edges 8'), (len(lines), 'total')
    yield first + last, (2, 'total')
    yield whole.replace('executions 6', 'executions 340282366920938463463374607431768211456'), (len(lines), 'grammar')
    yield whole.replace('executions 6', 'executions 340282366920938463463374607431768211455'), (len(lines), 'total')


def weighed():
    """Counters that are placed by what an earlier run has counted: the counts are the same."""
    for name in WEIGHED:
        program = EDITED[name]
        yield f'hold {name}', b''
        yield f'hold {name}.rows', b''
        if program.given:
            yield f'input {name}.input', b''
        yield eel(f'edit {name} weighed profile {name}.rows', 0)
        yield eel('run weighed -d dump', 0, *ran(program))
        yield eel('counts weighed dump', 0, rows(name))
    # the last of them ends with this step: machine steps of the file, on the interpreter of plain_count.py
    yield eel(f'run weighed -n {WEIGHED_STEPS}', 0, *ran(program))
    yield eel(f'run weighed -n {WEIGHED_STEPS - 1}', 0, program.output, f'stopped {WEIGHED_STEPS - 1}\n'.encode())
    # an edge may have any number of executions, and one without a line has none
    yield 'hold most.rows', b''
    yield eel('edit carry_loop weighed profile most.rows', 0)
    yield eel('run weighed -d dump', 0, *ran(CARRY_LOOP))
    yield eel('counts weighed dump', 0, rows('carry_loop'))
    yield eel('edit carry_loop weighed profile missing', 74, err=DEVICE_FAULT)
    yield eel('edit missing weighed profile missing', 74, err=DEVICE_FAULT)
    yield eel('edit carry_loop.rows weighed profile carry_loop.rows', 65, err=b'eel: carry_loop.rows: file fault 2\n')
    for number, (_, (line, cause)) in enumerate(bad_rows()):
        name = f'rows.bad{number}'
        yield f'hold {name}', b''
        yield eel(f'edit carry_loop weighed profile {name}', 65, err=f'eel: {name}: line {line}: {cause}\n'.encode())
    yield 'hold cramped', b''
    yield 'hold cramped.rows', b''
    yield eel('edit cramped weighed profile cramped.rows', 69, err=CRAMPED_PROFILE)
    yield eel('edit cramped weighed profile carry_loop.rows', 65, err=b'eel: carry_loop.rows: line 1: edge\n')


def dump(length, pc, steps, cells):
    """What a run that hasn't ended has come to, of a file whose original has this length."""
    head = struct.pack('>4s4IQ2I', b'EELD', 2, 0, 0, pc, steps, length, len(cells))
    return head + words_of(cells)


def narrow_dump(pc, steps, cells):
    """The same in version 1, whose counters have one cell each."""
    return struct.pack('>4s4IQI', b'EELD', 1, 0, 0, pc, steps, len(cells)) + words_of(cells)


def of_three_words(pc, steps, cells):
    return dump(len(THREE_WORDS.file()), pc, steps, cells)


# A dump of taken_branch, whose branch is counted where it is taken: twice, where the block was entered once.
TAKEN_TWICE = dump(len(EDITED['taken_branch'].file()), 0, 3, [0, 2, *[0] * 12])

# Dumps of three_words with counters, whose counted edge is its landing. No run makes them.
DUMPS = {'taken_twice': TAKEN_TWICE, 'three_cells': of_three_words(0, 3, [0, 1, 1]),
    'in_no_place': of_three_words(0xfffff000, 3, [0, 0]), 'cut_dump': of_three_words(0, 3, [0, 1])[:35],
    'three_cells_of_a_long_run': of_three_words(0, 1 << 32, [0, 1, 1]),
    'long_run': of_three_words(0, 1 << 32, [1, 0]), 'longest_run': of_three_words(0, (1 << 64) - 1, [0xffffffff, 0xfffffffe]),
    'too_many_landings': of_three_words(0, (1 << 64) - 1, [0xffffffff, 0xffffffff]),
    'of_another': dump(len(CARRY_LOOP.file()), 0, 1 << 32, [0, 1, 1]),
    'of_an_older_version': narrow_dump(0xfffff000, 1 << 32, [1, 1, 1])}

# The same of carry_loop with counters of one cell, as notes of version 1 tell of it. They stand in program_runs, with the dump
# of its run, as EEL wrote them before counters had two cells.
NARROW_DUMPS = {'narrow_long_run': narrow_dump(0, 1 << 32, [0] * 5), 'four_cells_of_a_long_run': narrow_dump(0, 1 << 32, [0] * 4),
    'narrow_in_no_place': narrow_dump(0xfffff000, 3, [0] * 5), 'narrow_cut': narrow_dump(0, 3, [1])[:31],
    'of_a_newer_version': dump(0, 0xfffff000, 1 << 32, [1, 1, 1])}


def three_words_counts(landings):
    lines = f'edge 0 fall 00010054 x {landings + 1}\nedge 1 land x 00010054 {landings}\n'
    return f'{lines}edges 2 counted 1 executions {2 * landings + 1}\n'.encode()


def uncounted():
    """Files and dumps that have no counts, and dumps of long runs."""
    yield 'hold three_words', b''
    for name in DUMPS:
        yield f'hold {name}', b''
    yield eel('edit three_words plain plain', 0)
    yield eel('edit three_words profiled profile', 0)
    yield eel('counts profiled missing', 74, err=DEVICE_FAULT)
    yield eel('counts three_words cut_dump', 65, err=b'eel: three_words: no notes\n')
    yield eel('counts plain cut_dump', 65, err=b'eel: cut_dump: bad dump at 32\n')
    yield eel('counts plain of_an_older_version', 65, err=b'eel: plain: no profile\n')
    yield eel('counts profiled of_an_older_version', 65, err=b'eel: of_an_older_version: dump version 1, notes version 2\n')
    yield eel('counts profiled of_another', 65, err=b'eel: of_another: made for 112 bytes, 96 wanted\n')
    yield eel('counts profiled three_cells', 65, err=b'eel: three_cells: 3 cells, 2 wanted\n')
    yield eel('counts profiled three_cells_of_a_long_run', 65, err=b'eel: three_cells_of_a_long_run: 3 cells, 2 wanted\n')
    yield eel('counts profiled in_no_place', 65, err=b'eel: in_no_place: pc fffff000 between places\n')
    yield eel('counts profiled long_run', 0, three_words_counts(1 << 32))
    yield eel('counts profiled longest_run', 0, three_words_counts((1 << 64) - 2))
    yield eel('counts profiled too_many_landings', 65, err=b'eel: too_many_landings: edge 0 would be 18446744073709551616\n')
    yield 'hold taken_branch', b''
    yield eel('edit taken_branch branching profile', 0)
    yield eel('counts branching taken_twice', 65, err=b'eel: taken_twice: edge 1 would be -1\n')
    yield eel('run profiled -n 0 -d dump', 0, err=b'stopped 0\n')
    yield eel('counts profiled dump', 0, b'edges 2 counted 1 executions 0\n')
    yield eel('counts profiled', 64, err=BAD_WORDS)
    yield eel('counts profiled dump dump', 64, err=BAD_WORDS)


# Programs of which each word is marked.
VISITED = [*(program.name for program in SMALL), ARGUMENT.name, MADE.name, *SHOWN, 'word_count', 'queens', 'dispatch']


def visited():
    """Programs with counters where each word is a block: their visits are a plain count of the words that the originals run."""
    for name in VISITED:
        program, arguments = EDITED[name], ARGUMENTS.get(name, '')
        lines = plain_count.word_visits(program_file(name), [word.encode() for word in arguments.split()[1:]], program.given)
        yield f'hold {name}', b''
        if program.given:
            yield f'input {name}.input', b''
        yield eel(f'edit {name} marked every', 0)
        yield eel(f'run marked -d dump{arguments}', 0, *ran(program))
        yield eel('visits marked dump', 0, lines.encode())
    yield eel('restore marked restored', 0)
    yield f'same restored {VISITED[-1]}', b''


# Where the original stands in the edited three_words.
ORIGINAL_AT = 0x10000


def unvisited():
    """Files and dumps that have no visits."""
    yield 'hold three_words', b''
    for name in DUMPS:
        yield f'hold {name}', b''
    yield eel('edit three_words plain plain', 0)
    yield eel('edit three_words profiled profile', 0)
    yield eel('edit three_words marked every', 0)
    yield eel('run profiled -d dump', 0, err=b'exit 3\n')
    yield eel('visits profiled dump', 65, err=b'eel: profiled: not every word\n')
    yield eel('visits profiled missing', 74, err=DEVICE_FAULT)
    yield eel('visits missing dump', 74, err=DEVICE_FAULT)
    yield eel('visits three_words cut_dump', 65, err=b'eel: three_words: no notes\n')
    yield eel('visits profiled cut_dump', 65, err=b'eel: cut_dump: bad dump at 32\n')
    yield eel('visits plain of_an_older_version', 65, err=b'eel: plain: not every word\n')
    yield eel('visits profiled of_an_older_version', 65, err=b'eel: profiled: not every word\n')
    yield eel('visits marked of_an_older_version', 65, err=b'eel: of_an_older_version: dump version 1, notes version 2\n')
    yield eel('visits marked of_another', 65, err=b'eel: of_another: made for 112 bytes, 96 wanted\n')
    # an original that is none any more, one that leaves its first word by a branch, and notes of another entry
    yield f'patch marked faulty {ORIGINAL_AT} 00', b''
    yield f'patch marked unlike {ORIGINAL_AT + 84} 10800002', b''
    yield 'noted marked entered 20 00000001', b''
    for name in ('faulty', 'unlike', 'entered'):
        yield eel(f'visits {name} dump', 65, err=f'eel: {name}: not every word\n'.encode())
    # at its first word, and in no place
    yield eel('run marked -n 0 -d dump', 0, err=b'stopped 0\n')
    yield eel('visits marked dump', 0, b'word 00010054 1\nwords 3 visited 1 visits 1\n')
    yield eel('visits marked in_no_place', 65, err=b'eel: in_no_place: 2 cells, 6 wanted\n')
    for words in ('visits', 'visits marked', 'visits marked dump dump', 'edit three_words marked every three_words'):
        yield eel(words, 64, err=BAD_WORDS)
    yield 'hold cramped', b''
    yield eel('edit cramped marked every', 69, err=b'eel: cramped: room 1050904 needed, 0 had\n')
    yield eel('edit of_another marked every', 65, err=b'eel: of_another: file fault 1\n')
    yield 'hold carry_loop.narrow', b''
    yield 'hold carry_loop.narrow_dump', b''
    yield eel('visits carry_loop.narrow carry_loop.narrow_dump', 65, err=b'eel: carry_loop.narrow: not every word\n')


def narrow():
    """A file with counters of one cell, as it was written before, and dumps of it."""
    yield 'hold carry_loop', b''
    yield 'hold carry_loop.narrow', b''
    yield 'hold carry_loop.narrow_dump', b''
    for name in NARROW_DUMPS:
        yield f'hold {name}', b''
    yield eel('restore carry_loop.narrow restored', 0)
    yield 'same restored carry_loop', b''
    yield eel('run carry_loop.narrow -d dump', 0, err=b'exit 4\n')
    yield 'same dump carry_loop.narrow_dump', b''
    yield eel('counts carry_loop.narrow carry_loop.narrow_dump', 0, rows('carry_loop'))
    yield eel('run carry_loop.narrow -n 0 -d dump', 0, err=b'stopped 0\n')
    yield eel('counts carry_loop.narrow dump', 0, b'edges 9 counted 5 executions 0\n')
    yield eel('counts carry_loop.narrow narrow_cut', 65, err=b'eel: narrow_cut: bad dump at 28\n')
    yield eel('counts carry_loop.narrow of_a_newer_version', 65, err=b'eel: of_a_newer_version: dump version 2, notes version 1\n')
    yield eel('counts carry_loop.narrow four_cells_of_a_long_run', 65, err=b'eel: four_cells_of_a_long_run: 4 cells, 5 wanted\n')
    yield eel('counts carry_loop.narrow narrow_long_run', 65, err=b'eel: narrow_long_run: 4294967296 steps\n')
    yield eel('counts carry_loop.narrow narrow_in_no_place', 65, err=b'eel: narrow_in_no_place: pc fffff000 between places\n')
    yield eel('edit carry_loop written profile', 0)
    yield eel('run written -d wide', 0, err=b'exit 4\n')
    yield eel('counts written wide', 0, rows('carry_loop'))
    yield eel('counts written carry_loop.narrow_dump', 65,
        err=b'eel: carry_loop.narrow_dump: dump version 1, notes version 2\n')
    yield eel('counts carry_loop.narrow wide', 65, err=b'eel: wide: dump version 2, notes version 1\n')


# ---- the last edges

# Of some programs so many bits: more edges than places, as many, and fewer.
TRACED = {'carry_loop': [1, 3, 16], 'three_words': [1], 'inner_landings': [2], 'switch_of_four': [5], 'call_and_return': [3],
    **{program.name: [3] for program in SWITCHING}, 'newline_count': [6], 'calculator': [5], 'queens': [4], ARGUMENT.name: [1]}

# Dumps of carry_loop with a ring of four places: rings that hold no edge and the last edge, one with an edge too many, and
# dumps that are not of its runs.
CARRY_LENGTH = len(CARRY_LOOP.file())
RING_DUMPS = {'ring_of_none': dump(CARRY_LENGTH, 0, 1, [4294967295, 0, 0, 0, 0]),
    'ring_of_one': dump(CARRY_LENGTH, 0, 1, [4294967295, 0, 0, 0, 9]),
    'ring_of_edge_9': dump(CARRY_LENGTH, 0, 1, [2, 9, 10, 0, 99]),
    'ring_of_two': dump(CARRY_LENGTH, 0, 1, [0, 10, 10]),
    'ring_of_another': dump(CARRY_LENGTH + 1, 0, 1, [0, 10, 10]),
    'narrow_ring': narrow_dump(0xfffff000, 1, [0, 10, 10]),
    'ring_in_no_place': dump(CARRY_LENGTH, 0xfffff000, 1, [6, 99, 99, 99, 99])}

LAST_OF_CARRY_LOOP = (b'edge 1 taken 00010058 00010058\n' * 3 + b'edge 2 untaken 00010058 00010068\nedges 4 ring 4\n')


def traced():
    """Rings of edges: the last edges are those of a plain walk, and files, dumps and words that have none."""
    yield 'hold carry_loop', b''
    yield 'hold carry_loop.ring', b''
    yield eel('edit carry_loop traced trace 2', 0)
    yield eel('restore traced restored', 0)
    yield 'same restored carry_loop', b''
    yield eel('run traced -d dump', 0, *ran(CARRY_LOOP))
    yield 'cells dump carry_loop.ring', b''
    yield eel('trace traced dump', 0, LAST_OF_CARRY_LOOP)
    yield 'patch dump bad 44 00000063', b''
    yield eel('trace traced bad', 65, err=b'eel: bad: cell 2 has 99\n')
    yield eel('run traced -n 0 -d dump', 0, err=b'stopped 0\n')
    yield eel('trace traced dump', 0, b'edges 0 ring 4\n')
    for name in RING_DUMPS:
        yield f'hold {name}', b''
    yield eel('trace traced ring_of_none', 0, b'edges 0 ring 4\n')
    yield eel('trace traced ring_of_one', 0, b'edge 8 land x 00010068\nedges 1 ring 4\n')
    yield eel('trace traced ring_of_edge_9', 65, err=b'eel: ring_of_edge_9: cell 2 has 10\n')
    yield eel('trace traced ring_in_no_place', 65, err=b'eel: ring_in_no_place: pc fffff000 between places\n')
    yield eel('trace traced ring_of_two', 65, err=b'eel: ring_of_two: 3 cells, 5 wanted\n')
    yield eel('trace traced ring_of_another', 65,
        err=f'eel: ring_of_another: made for {CARRY_LENGTH + 1} bytes, {CARRY_LENGTH} wanted\n'.encode())
    yield eel('trace traced narrow_ring', 65, err=b'eel: narrow_ring: dump version 1, notes version 2\n')
    yield eel('counts traced narrow_ring', 65, err=b'eel: traced: no profile\n')
    yield eel('trace traced missing', 74, err=DEVICE_FAULT)
    yield eel('trace missing dump', 74, err=DEVICE_FAULT)
    yield eel('trace carry_loop dump', 65, err=b'eel: carry_loop: no notes\n')
    yield eel('trace traced carry_loop', 65, err=b'eel: carry_loop: bad dump at 0\n')
    # none but a trace has last edges, whatever its dump is
    yield 'hold carry_loop.narrow', b''
    yield eel('trace carry_loop.narrow dump', 65, err=b'eel: carry_loop.narrow: no trace\n')
    yield eel('edit carry_loop profiled profile', 0)
    yield eel('trace profiled narrow_ring', 65, err=b'eel: profiled: no trace\n')
    yield eel('edit carry_loop plain plain', 0)
    yield eel('trace plain narrow_ring', 65, err=b'eel: plain: no trace\n')
    # nor one with cells that are no ring: the notes have how many there are at 28
    yield 'noted traced odd 28 00000004', b''
    yield eel('trace odd narrow_ring', 65, err=b'eel: odd: no trace\n')
    yield 'hold three_words', b''
    yield 'hold three_words.ring', b''
    yield eel('edit three_words traced trace 2', 0)
    yield eel('run traced -d dump', 0, *ran(THREE_WORDS))
    yield 'cells dump three_words.ring', b''
    yield eel('trace traced dump', 0, b'edges 0 ring 4\n')
    for name, rings in TRACED.items():
        program = EDITED[name]
        arguments = ARGUMENTS.get(name, '')
        yield f'hold {name}', b''
        if program.given:
            yield f'input {name}.input', b''
        for bits in rings:
            lines = plain_count.last_edges(program_file(name), bits, [word.encode() for word in arguments.split()[1:]], program.given)
            yield eel(f'edit {name} traced trace {bits}', 0)
            yield eel(f'run traced -d dump{arguments}', 0, *ran(program))
            yield eel('trace traced dump', 0, lines.encode())
    for line in ['edit a b trace', 'edit a b trace 0', 'edit a b trace 17', 'edit a b trace 02', 'edit a b trace +2',
            'edit a b trace 100', 'edit a b trace 2 2', 'edit a b traces 2', 'edit a b trace -1', 'trace',
            'trace a', 'trace a b c']:
        yield eel(line, 64, err=BAD_WORDS)
    yield eel('edit missing traced trace 16', 74, err=DEVICE_FAULT)
    yield eel('edit missing traced trace 1', 74, err=DEVICE_FAULT)
    yield eel('edit ring_of_none traced trace 2', 65, err=b'eel: ring_of_none: file fault 2\n')
    yield 'hold cramped', b''
    yield eel('edit cramped traced trace 16', 69, err=CRAMPED_TRACE)


def told(number, count, executions):
    """What `demo` prints."""
    program = made(number, count)
    return (f'demo {number} routines {count}\n'
        f'words {9 * count + 2} blocks {7 * count + 1} edges {15 * count + 2}\n'
        f'ending {program.ending} steps {program.steps}\nexecutions {executions}\n').encode()


def counted(number, count):
    """How often the edges of a program that is made are completed in all, by a plain count of its run."""
    return sum(plain_count.edge_counts(made(number, count).file(), [], b''))


def demo():
    """Programs that are made from numbers, and words that say none."""
    for number, count in [(1, 1), (0, 1), (4294967295, 10)]:
        yield eel(f'demo {number} {count}', 0, told(number, count, counted(number, count)))
    yield eel('demo 0000000001 0000000001', 0, told(1, 1, counted(1, 1)))
    # of each routine: its call, the way to its loop, a way out of each turn, the return, the landing behind the call
    yield eel('demo 7 60000', 0, told(7, 60000, sum(turns + 4 for turns, _ in drawn_routines(7, 60000))))
    for line in ['demo 1 0', 'demo 1 100001', 'demo 4294967296 1', 'demo 00000000001 1', 'demo 1 x', 'demo -1 1',
            'demo 1', 'demo 1 1 1']:
        yield eel(line, 64, err=BAD_WORDS)
    yield 'room 5 100', b''
    yield eel('demo 1 1', 74, b'demo ', DEVICE_FAULT)


@functools.cache
def sessions():
    """The sessions by their names: each is a list of lines, with what must come of it."""
    own = [edits, scripts, words, restores, refusals, profiles, uncounted, narrow, visited, unvisited, traced, demo, listed,
           weighed]
    others = [tables.faulty, tables.noted, tables.dumped, tables.devices, tables.reports, tables.long]
    return {session.__name__: list(session()) for session in [*own, *others]}


def files():
    """Scripts, and the files that they name besides the programs."""
    for name in WRITTEN:
        yield f'{name}.edited', written(EDITED[name].file())
    yield 'carry_loop.script', THREE_LINES
    yield 'carry_loop.cells', words_of([12, 4, 4])
    yield 'counters.script', TWO_COUNTERS
    yield 'counters.cells', words_of(TWO_COUNTED)
    for number, script in enumerate(BAD_LINES):
        yield f'carry_loop.bad{number}', script
    for name in COUNTED:
        file = program_file(name)
        yield f'{name}.counting', counting(file)
        arguments = ARGUMENTS.get(name, '').split()[1:]
        counts = plain_count.edge_counts(file, [word.encode() for word in arguments], EDITED[name].given)
        yield f'{name}.counts', words_of(counts)
    yield 'three_words.broken', broken()
    yield ARGUMENT.name, ARGUMENT.file()
    yield MADE.name, MADE.file()
    yield 'cramped', cramped()
    yield 'cramped.rows', b'edges 2 counted 1 executions 0\n'
    for name in LISTED:
        start, words = text_of(name)
        yield f'{name}.listing', instructions(name)
        yield f'{name}.text', words_of(words)
    for number, lines in enumerate(BAD_LISTINGS):
        yield f'listing.bad{number}', lines
    for name in {**dict.fromkeys(WEIGHED), 'echoes': None}:
        yield f'{name}.rows', rows(name)
    yield 'most.rows', b'edge 1 taken 00010058 00010058 18446744073709551615\nedges 9 counted 0 executions 18446744073709551615\n'
    for number, (lines, _) in enumerate(bad_rows()):
        yield f'rows.bad{number}', lines.encode()
    yield 'carry_loop.words', CARRY_LOOP.file()[84:104]
    yield 'carry_loop.ring', words_of([6, 2, 3, 2, 2])
    yield 'three_words.ring', words_of([0] * 5)
    yield from {**DUMPS, **NARROW_DUMPS, **RING_DUMPS}.items()
    for name, lines in sessions().items():
        yield name, ''.join(f'{line}\n' for line, _ in lines).encode()


def printed():
    """What is printed of each script."""
    return {name: f'{name}:\n'.encode() + b''.join(text for _, text in lines) for name, lines in sessions().items()}
