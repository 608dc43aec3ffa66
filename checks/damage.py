#!/usr/bin/env python3
"""Damages files (programs, written files, dumps, scripts and weights) by bits, fields, cuts and splices, and has the built
program_runs do every command on each. What must come of each is told by judge.py: the status, the line, and that no file
has changed after a refusal.

COUNT is how many files are damaged: 10000 unless said otherwise. Input N is the same in each run. PROGRAM is the built
program_runs, in crates/program_runs/out unless said otherwise. Prints a line for each answer that differs, how often each
status was seen, and how much time and memory the largest call of PROGRAM took, each of which does all with some hundred
files.
"""
import collections
import multiprocessing
import os
import random
import re
import resource
import struct
import subprocess
import sys
import tempfile
import time

import judge
from called import built, natural, parser_of
from listing import Graph, Program, listing
from programs import C_PROGRAMS, RUNS, SMALL

BATCH = 250
# The script of a session, each folder's own.
CALLS = 'calls'

# The processor time and the memory that a batch may take: a program that is run has 1,280 MiB at most.
SECONDS = 600
MEMORY = 3 << 30

# How many steps a damaged program may make.
STEPS = 500

# Larger texts are judged alone, since listing them takes this script too long.
MOST_WORDS = 4096

PROGRAMS = ['three_words', 'taken_branch', 'carry_loop', 'call_and_return', 'inner_landings', 'switch_of_four',
    'window_overflow', 'branches']
PROFILED = ['carry_loop', 'call_and_return', 'switch_of_four']

SCRIPT = b'edge 0 add 0 1\nedge 1 top 1 %g2\n# kept\n\nedge 2 keep 2 %o0\nedge 1 put 3 4294967295\nedge 8 count 4194302\n'

ROWS = (b'edge 0 fall 00010054 00010058 1\nedge 1 taken 00010058 00010058 4\nedge 2 untaken 00010058 00010068 1\n'
    b'edges 9 counted 5 executions 6\n')

INTERESTING = [0, 1, 2, 3, 4, 0x34, 0x54, 0xfff, 0x1000, 0x10000, 0x10054, 0x100000, 0x100001, 0x400000, 0x400004, 0x800000,
    0x800002, 0x8000000, 0x7ffffffc, 0x80000000, 0xfffff000, 0xfffffffc, 0xffffffff]


def file_of(name):
    return next(program for program in SMALL + C_PROGRAMS if program.name == name).file()


# ---- damage

def a_bit(file, others, at):
    place = at(file)
    return [(place, bytes([file[place] ^ 1 << random.randrange(8)]))]


def a_byte(file, others, at):
    return [(at(file), bytes([random.randrange(256)]))]


def a_field(file, others, at):
    place = at(file) // 4 * 4
    return [(place, struct.pack('>I', random.choice(INTERESTING)))]


def near_field(file, others, at):
    """A word of the file that is one more or less, or a few."""
    place = at(file) // 4 * 4
    value = judge.word(file, place) + random.choice([-4096, -32, -4, -1, 1, 4, 32, 4096])
    return [(place, struct.pack('>I', value % 2**32))]


def a_half(file, others, at):
    place = at(file) // 2 * 2
    return [(place, struct.pack('>H', random.choice([0, 1, 2, 3, 5, 32, 40, 52, 63, 64, 65, 80, 81, 0xffff])))]


def a_splice(file, others, at):
    other = random.choice(others)
    start, size = random.randrange(len(other)), random.choice([4, 8, 16, 32, 64])
    return [(at(file), other[start:start + size])]


KINDS = [a_bit, a_bit, a_byte, a_field, a_field, near_field, near_field, a_half, a_splice]


class Place:
    """Offsets that matter in a file: its headers, or its notes, or anywhere."""

    def __init__(self, *spans):
        self.spans = spans

    def __call__(self, file):
        start, end = random.choice([span for span in self.spans if span[0] < len(file)] or [(0, len(file))])
        return random.randrange(start, max(start + 1, min(end, len(file))))


def damaged(file, others, at):
    """Patches of the file, and how much of it is left."""
    patches = []
    for _ in range(random.choice([1, 1, 1, 2, 3])):
        patches += random.choice(KINDS)(file, others, at)
    size = random.randrange(len(file)) if random.random() < 0.1 else len(file)
    return patches, size


def apply(file, patches, size):
    file = bytearray(file[:size])
    for at, new in patches:
        file += bytes(max(0, at + len(new) - len(file)))
        file[at:at + len(new)] = new
    return bytes(file)


# ---- what must come of it

DONE = 0, None


def told(name, text):
    return 65, f'eel: {name}: {text}\n'.encode()


def fault_of(codes):
    return told('f', f'file fault {codes[0]}') if codes else None


def text_words(file):
    return next(header.memory for header in judge.loadable(file) if judge.is_text(header)) // 4


def no_room(file, operations, cells):
    needed = (1 << 20) + 512 * text_words(file) + 4 * cells + 128 * operations
    had = judge.room_of(file)
    return (69, f'eel: f: room {needed} needed, {had} had\n'.encode()) if had < needed else DONE


def profile_asks(file):
    """How many operations and cells the room of a profile is reckoned with."""
    graph = Graph(Program(file))
    # those of a landing are made for each word, those of a switch's edges for each entry of its table
    once = sum(edge.kind != 'case' for edge in graph.own)
    entries = sum(one.count for one in graph.opens)
    # a counter has two cells
    return once + text_words(file) + entries, 2 * (len(graph.edges) - len(graph.firsts) - len(graph.copied))


def notes_fault(name, file):
    """Why the notes don't read, if so, and the notes."""
    try:
        notes = judge.notes_of(file)
    except judge.Bad as bad:
        return told(name, f'bad notes at {bad.args[0]}'), None
    return (None, notes) if notes else (told(name, 'no notes'), None)


def dump_fault(name, file):
    try:
        return None, judge.dump_of(file)
    except judge.Bad as bad:
        return told(name, f'bad dump at {bad.args[0]}'), None


def counts_of(written, written_name, bytes_of_dump, dump_name):
    fault, notes = notes_fault(written_name, written)
    if fault:
        return fault
    fault, dump = dump_fault(dump_name, bytes_of_dump)
    if fault:
        return fault
    cause = judge.count_fault(notes, dump)
    return told(written_name if cause == 'no profile' else dump_name, cause) if cause else DONE


def program_calls(file, dump):
    """Every command on a file, and what must come of it: a status, a line, and the names that may change."""
    fault = fault_of(judge.edit_faults(file))
    large = not fault and text_words(file) > MOST_WORDS
    if not large:
        yield 'edit f out plain', fault or no_room(file, 0, 0), ['out']
        yield 'edit f out profile', fault or no_room(file, *profile_asks(file)), ['out']
        yield 'show f', fault or DONE, []
        yield 'list f', fault or DONE, []
    refused = fault_of(judge.run_faults(file))
    yield f'run f -n {STEPS}', refused or DONE, []
    unnoted, notes = notes_fault('f', file)
    yield 'restore f again', unnoted or DONE, ['again']
    if not refused and notes and not judge.are_mapped(file, notes):
        unnoted = told('f', 'bad notes at 24')
    yield f'run f -n {STEPS} -d other', refused or unnoted or DONE, ['other']
    yield 'counts f dump', counts_of(file, 'f', dump, 'dump'), []


def dump_calls(dump, written):
    yield 'counts written f', counts_of(written, 'written', dump, 'f'), []


def script_calls(script, edges):
    bad = judge.script_fault(script, edges)
    yield 'edit base out script f', told('f', f'line {bad[0]}: {bad[1]}') if bad else DONE, ['out']


def weight_calls(lines, edges):
    bad = judge.weight_fault(lines, edges)
    yield 'edit base out profile f', told('f', f'line {bad[0]}: {bad[1]}') if bad else DONE, ['out']


# ---- batches

Input = collections.namedtuple('Input', 'base patches size calls')


class Inputs:
    """What is damaged, and what stands beside it in the folder."""

    def __init__(self, folder):
        self.files = {name: file_of(name) for name in PROGRAMS}
        for name in PROFILED:
            for kind in ('written', 'dump'):
                with open(os.path.join(folder, f'{name}.{kind}'), 'rb') as opened:
                    self.files[f'{name}.{kind}'] = opened.read()
        self.files['script'] = SCRIPT
        self.files['rows'] = ROWS
        shown = listing(self.files['carry_loop']).encode().splitlines()
        self.edges = [tuple(line.split()[2:5]) for line in shown if line.startswith(b'edge ')]

    def program(self):
        """A damaged program; the others are those from which parts are spliced."""
        base = random.choice(PROGRAMS)
        file = self.files[base]
        others = [self.files[name] for name in PROGRAMS]
        patches, size = damaged(file, others, Place((0, 84), (0, 84), (0, 148), (0, len(file))))
        return Input(base, patches, size, list(program_calls(apply(file, patches, size), self.files['carry_loop.dump'])))

    def written(self):
        """A damaged written file: its headers, its locator and its notes above all."""
        name = random.choice(PROFILED)
        base = f'{name}.written'
        file = self.files[base]
        notes, size = judge.word(file, 4040), judge.word(file, 4044)
        at = Place((0, 212), (4032, 4048), (notes, notes + 52), (notes, notes + size), (0, len(file)))
        patches, size = damaged(file, [file, file[notes:]], at)
        return Input(base, patches, size, list(program_calls(apply(file, patches, size), self.files['carry_loop.dump'])))

    def dump(self):
        name = random.choice(PROFILED)
        base = f'{name}.dump'
        file = self.files[base]
        patches, size = damaged(file, [self.files[f'{other}.dump'] for other in PROFILED], Place((0, len(file))))
        calls = dump_calls(apply(file, patches, size), self.files['carry_loop.written'])
        return Input(base, patches, size, list(calls))

    def script(self):
        """Scripts are damaged by bytes that scripts are made of, too."""
        patches, size = damaged(SCRIPT, [SCRIPT], Place((0, len(SCRIPT))))
        if random.random() < 0.7:
            at = random.randrange(len(SCRIPT))
            patches.append((at, random.choice([b' ', b'\n', b'0', b'9', b'#', b'%', b'edge ', b'add', b'count', b'8', b'\0'])))
        return Input('script', patches, size, list(script_calls(apply(SCRIPT, patches, size), len(self.edges))))

    def rows(self):
        """So are weights."""
        patches, size = damaged(ROWS, [ROWS], Place((0, len(ROWS))))
        if random.random() < 0.7:
            at = random.randrange(len(ROWS))
            patches.append((at, random.choice([b' ', b'\n', b'0', b'9', b'+', b'x', b'edge ', b'fall', b'000100', b'18446744073709551616'])))
        return Input('rows', patches, size, list(weight_calls(apply(ROWS, patches, size), self.edges)))

    def draw(self, number):
        random.seed(number)
        return random.choice([self.program, self.program, self.program, self.written, self.written, self.dump, self.script,
            self.rows])()


def lines_of(input):
    """What a session does for an input."""
    yield f'cut {input.base} f {input.size}'
    yield ' '.join(['patch', 'f', 'f', *(f'{at} {new.hex()}' for at, new in input.patches if new)])
    for words, _, _ in input.calls:
        yield f'eel {words}'


PREPARED = ['watch', 'room 16777216 1048576', 'hold script', 'hold rows', *(f'hold {name}' for name in PROGRAMS),
    *(f'hold {name}.{kind}' for name in PROFILED for kind in ('written', 'dump')),
    'patch carry_loop.dump dump', 'patch carry_loop.written written', 'patch carry_loop base']


def play(program, folder, lines, limits=None):
    """Plays a session, and answers what it printed, its status, and the time and memory that it took."""
    with open(os.path.join(folder, CALLS), 'w') as script:
        script.write(''.join(f'{line}\n' for line in lines))
    started = time.monotonic()
    with tempfile.TemporaryFile() as printed:
        ran = subprocess.Popen([program, 'session', CALLS], cwd=folder, stdout=printed, stderr=subprocess.DEVNULL,
                               preexec_fn=limits)
        _, status, used = os.wait4(ran.pid, 0)
        ran.returncode = status
        printed.seek(0)
        return printed.read(), status, time.monotonic() - started, used.ru_maxrss


def limit_time():
    resource.setrlimit(resource.RLIMIT_CPU, (SECONDS, SECONDS))


RAN = re.compile(rb'(?:exit|trap|stopped) \d+\n|window\n|couple\n')


def differs(words, wanted, names, status, told):
    """Whether a call came to something else than it must."""
    code, line = wanted
    changed = set(re.findall(rb'^changed: (.*)$', told, re.MULTILINE))
    if status != code or changed - {name.encode() for name in names}:
        return True
    if code:
        return told != b'to the error stream: ' + line + b'\n' or bool(changed)
    return words.startswith('run ') and not RAN.search(told)


def answers(printed, batch):
    """Each call of a batch, with its status and what was printed of it."""
    at = 0
    calls = [(number, call) for number, input in batch for call in input.calls]
    starts = []
    for _, (words, _, _) in calls:
        line = f'eel {words}: '.encode()
        at = printed.find(line, at)
        if at < 0 or (at and printed[at - 1:at] != b'\n'):
            break
        starts.append((at, at + len(line)))
        at += len(line)
    for (number, call), (_, begin), (end, _) in zip(calls, starts, [*starts[1:], (len(printed), 0)]):
        status, _, rest = printed[begin:end].partition(b'\n')
        yield number, call, int(status), rest
    if len(starts) < len(calls):
        yield calls[len(starts)][0], calls[len(starts)][1], None, printed[-200:]


def judge_batch(job):
    """Plays some hundred inputs: how many of each status there were, what differs, the time and the memory."""
    program, source, numbers = job
    with tempfile.TemporaryDirectory() as folder:
        for name in set(os.listdir(source)) - {CALLS}:
            os.symlink(os.path.join(source, name), os.path.join(folder, name))
        inputs = Inputs(folder)
        batch = [(number, inputs.draw(number)) for number in numbers]
        lines = PREPARED + [line for _, input in batch for line in lines_of(input)]
        printed, ended, seconds, memory = play(program, folder, lines, limit_time)
    seen = collections.Counter()
    odd = []
    if ended or memory << 10 > MEMORY:
        odd.append(f'inputs from {numbers[0]} on: ended with {ended}, in {memory >> 10} MiB')
    for number, (words, wanted, names), status, told in answers(printed, batch):
        seen[words.split()[0], status] += 1
        if differs(words, wanted, names, status, told):
            odd.append(f'input {number}: {words}: {status} {told[:200]} where {wanted} was wanted')
    return seen, odd, seconds, memory


def prepare(program, folder):
    """The files that are damaged: programs, and the written files and dumps that the built program makes of some."""
    for name in PROGRAMS:
        with open(os.path.join(folder, name), 'wb') as file:
            file.write(file_of(name))
    for name, text in (('script', SCRIPT), ('rows', ROWS)):
        with open(os.path.join(folder, name), 'wb') as file:
            file.write(text)
    lines = [f'hold {name}' for name in PROFILED]
    for name in PROFILED:
        lines += [f'eel edit {name} {name}.written profile', f'eel run {name}.written -d {name}.dump',
                  f'keep {name}.written', f'keep {name}.dump']
    play(program, folder, lines)


def main():
    parser = parser_of(__doc__)
    parser.add_argument('count', metavar='COUNT', type=natural, nargs='?', default=10000, help='how many files')
    parser.add_argument('first', metavar='FIRST', type=natural, nargs='?', default=0, help='the number of the first')
    parser.add_argument('program', metavar='PROGRAM', nargs='?', default=os.path.join(RUNS, 'out', 'program_runs'),
                        help='the built program_runs')
    words = parser.parse_args()
    count, first, program = words.count, words.first, os.path.abspath(built(words.program))
    seen, faults, longest, largest = collections.Counter(), 0, 0, 0
    with tempfile.TemporaryDirectory() as folder, multiprocessing.Pool() as pool:
        prepare(program, folder)
        jobs = [(program, folder, range(start, min(start + BATCH, first + count)))
                for start in range(first, first + count, BATCH)]
        for of_batch, odd, seconds, memory in pool.imap_unordered(judge_batch, jobs):
            seen += of_batch
            faults += len(odd)
            longest, largest = max(longest, seconds), max(largest, memory)
            for line in odd:
                print(line, flush=True)
    for command in sorted({command for command, _ in seen}):
        told = ', '.join(f'{number} of status {status}' for (name, status), number in sorted(seen.items(), key=str)
                         if name == command)
        print(f'{command}: {told}')
    print(f'{count} files, {sum(seen.values())} calls, {faults} differ; '
          f'a batch took {longest:.1f} s and {largest >> 10} MiB at most')
    return 1 if faults else 0


if __name__ == '__main__':
    sys.exit(main())
