"""Lines of small programs, beside gcov's counts of a build for this machine, and by hand."""
import contextlib
import io
import os
import random
import shutil
import subprocess
import time
import unittest
from types import SimpleNamespace

import given
from eeltools import Refused, dwarf
from eeltools.debug_lines import DebugLines, Line, Row, below, is_plain
from eeltools.line_counts import LineCounts, Passes, most_apart
from eeltools.shown import Shown
from sparc import NOP, OR, TICC, branch, form3

ALWAYS = 8
GCC = 'sparc64-linux-gnu-gcc'
OPTIONS = ['-m32', '-mcpu=v8', '-msoft-float', '-ffreestanding', '-nostdlib', '-static', '-fno-pie', '-no-pie', '-g',
           '-fno-asynchronous-unwind-tables', '-Wl,-z,noexecstack', '-Wl,--build-id=none']
START = ('__asm__(".global _start\\n_start: call main\\nnop\\nmov 1,%g1\\nta 16");\n'
         '#define BARRIER __asm__ volatile("" ::: "memory")\n')
SOURCE = START + """int values[] = {5, 0, 2, 9, 4};
int is_large(int v)
{
    BARRIER;
    return v && v > 3;
}
int length(const char *s)
{
    int n = 0;
    BARRIER;
    while (*s && *s != '\\n')
        s++, n++;
    return n;
}
int main(void)
{
    int found = 0;
    for (int i = 0; i < 5; i++)
        found += is_large(values[i]);
    return found + length("a line\\nanother");
}
"""
# What gcov has of these lines, by their numbers.
BY_GCOV = {6: 5, 7: 5, 11: 1, 12: 1, 13: 7, 14: 6, 15: 1, 19: 1, 20: 6, 21: 5, 22: 1}


def compiled(*options):
    source, made = f'{given.FOLDER.name}/lines.c', f'{given.FOLDER.name}/lines'
    with open(source, 'w') as opened:
        opened.write(SOURCE)
    subprocess.run([GCC, *OPTIONS, *options, source, '-o', made], check=True, stderr=subprocess.DEVNULL)
    return made


@unittest.skipUnless(shutil.which(GCC), f'there is no {GCC}')
class Compiled(unittest.TestCase):
    def test_lines_behind_a_barrier_are_those_of_gcov(self):
        own = Shown(compiled('-O0'))
        run, _ = given.run_in(own)
        lines = LineCounts(own, run, DebugLines(own)).lines
        self.assertEqual({line.number: count for line, count in lines.items() if line.number in BY_GCOV}, BY_GCOV)


class Built(unittest.TestCase):
    """A program that stands here with its debug information, so that no compiler is needed: lines.c has its source."""
    # Where each line's words begin, up to the end, by `objdump -dl`.
    BY_OBJDUMP = [(0x10084, 17), (0x10094, 16), (0x10098, 9), (0x100a4, 8), (0x100a8, 10), (0x100ac, 9), (0x100bc, 17), (0x100d4, 8),
                  (0x100dc, 20), (0x100e4, 23), (0x100e8, 25), (0x100f4, 26), (0x100fc, None)]
    # The line of each function, where it begins by nm, and its copies by llvm-symbolizer: begin, words, and the call's line.
    FUNCTIONS = {'main': (22, [0x100e4], []), 'all_bits': (14, [0x10084], []), 'bits_of': (6, [], [(0x10098, 9, 18)])}
    # How often lines were reached, by hand: 5 has three bits up to its last one, and 2 has two.
    BY_HAND = {6: 2, 8: 2, 9: 7, 10: 5, 11: 2, 15: 1, 16: 1, 17: 3, 18: 2, 23: 1, 25: 1, 26: 1}

    def setUp(self):
        self.own = Shown(os.path.join(given.CHECKS, 'units', 'lines'))
        self.debug = DebugLines(self.own)

    def test_each_word_has_its_line(self):
        wanted = {address: Line('/build/lines.c', number) for (begin, number), (end, _) in
                  zip(self.BY_OBJDUMP, self.BY_OBJDUMP[1:]) for address in range(begin, end, 4)}
        self.assertEqual(self.debug.line_at, wanted)

    def test_functions_and_their_copies(self):
        found = {function.name: (function.line.number, function.starts,
                                 [(copy.entry, len(copy.words), copy.called.number) for copy in function.copies])
                 for function in self.debug.functions.values()}
        self.assertEqual(found, self.FUNCTIONS)

    def test_lines_were_reached(self):
        run, _ = given.run_in(self.own)
        lines = LineCounts(self.own, run, self.debug).lines
        self.assertEqual({line.number: count for line, count in lines.items() if line.number in self.BY_HAND}, self.BY_HAND)

    def test_damaged_tables_are_refused_by_a_line(self):
        file = bytearray(self.own.file)
        parts = [row for section, row in dwarf.Elf(bytes(file)).headers.items() if section.startswith('.debug')]
        ended = 0
        for number in range(400):
            chosen, damaged = random.Random(number), bytearray(file)
            for _ in range(chosen.randrange(1, 4)):
                row = chosen.choice(parts)
                damaged[row[4] + chosen.randrange(row[5])] = chosen.choice([0, 1, 0x7f, 0x80, 0xff, chosen.randrange(256)])
            self.own.elf = dwarf.Elf(bytes(damaged))
            try:
                with contextlib.redirect_stderr(io.StringIO()):
                    DebugLines(self.own)
            except Refused as refused:
                self.assertEqual(refused.status, 65)
                ended += 1
        self.assertGreater(ended, 20)


class Tables(unittest.TestCase):
    def test_functions_of_a_large_table_are_read_soon(self):
        names = [(f'a_function_of_number_{number}', 0x10054) for number in range(60_000)]
        joined = b'\0' + b''.join(name.encode() + b'\0' for name, _ in names)
        at, symbols = 1, bytearray()
        for name, address in names:
            symbols += at.to_bytes(4, 'big') + address.to_bytes(4, 'big') + bytes(4) + b'\2\0\0\1'
            at += len(name) + 1
        elf = dwarf.Elf(given.program([0] * 4, symbols=[('f', 0x10054)]))
        elf.headers['.symtab'] = (0, 2, 0, 0, 0, len(symbols), 0, 0, 4, 16)
        elf.rows, elf.section, elf.contents = [None], lambda _: symbols, lambda _: joined
        started = time.process_time()
        self.assertEqual([name for _, name in elf.functions()], [name for name, _ in names])
        self.assertLess(time.process_time() - started, 2)

    def test_producers_that_tell_no_level_did_not_optimise(self):
        self.assertTrue(is_plain('GNU C17 12.2.0 -m32 -mcpu=v8 -g'))
        self.assertTrue(is_plain('GNU C17 12.2.0 -m32 -g -O2 -O0'))
        for producer in 'GNU C17 12.2.0 -g -O2', 'GNU C17 12.2.0 -g -Og', 'GNU C17 12.2.0 -O -g', 'GNU C17 12.2.0', 'clang version 14.0.6':
            self.assertFalse(is_plain(producer))


class Sources(unittest.TestCase):
    def test_stand_where_it_is_said(self):
        folder = os.path.join(given.FOLDER.name, 'moved')
        os.makedirs(os.path.join(folder, 'src'), exist_ok=True)
        moved = given.written('')
        os.rename(moved, os.path.join(folder, 'src', 'one.c'))
        self.assertEqual(below('/build/here/src/one.c', [f'/build/here={folder}']), f'{folder}/src/one.c')
        self.assertEqual(below('/build/here/src/one.c', [folder]), f'{folder}/src/one.c')
        self.assertEqual(below('/build/here/one.c', [f'{folder}/src']), f'{folder}/src/one.c')
        self.assertEqual(below('/build/hereafter/one.c', ['/build/here=/other']), '/build/hereafter/one.c')
        self.assertEqual(below('/build/two.c', [folder]), f'{folder}/build/two.c')
        self.assertEqual(below('/build/two.c', None), '/build/two.c')


def counted(own, run, line_at, marks=()):
    debug = SimpleNamespace(line_at=line_at, body_at={}, marks=marks, is_optimised=True)
    return {line.number: count for line, count in LineCounts(own, run, debug).lines.items()}


class Lines(unittest.TestCase):
    def setUp(self):
        self.own = Shown(f'{given.DATA}/carry_loop')
        self.run, _ = given.run_in(self.own)

    def test_have_their_most_executed_instruction(self):
        line_at = {0x10054: Line('a.c', 1), 0x10058: Line('a.c', 2), 0x1005c: Line('a.c', 2), 0x10068: Line('a.c', 3)}
        self.assertEqual(counted(self.own, self.run, line_at), {1: 1, 2: 5, 3: 1})

    def test_have_what_their_marks_have(self):
        line, marked = Line('a.c', 2), Row(0x10068, 0x1006c, Line('a.c', 2), 1, True, 0x1006c)
        self.assertEqual(counted(self.own, self.run, {0x10058: line, 0x10068: line}, [marked]), {2: 1})

    def test_that_ran_were_reached_where_their_marks_were_not(self):
        line, marked = Line('a.c', 2), Row(0x10070, 0x10074, Line('a.c', 2), 1, True, 0x10074)
        self.run.words.update({0x10070: 0})
        self.own.holding.append(self.own.blocks[self.own.firsts[-1]])  # one word more, which didn't run
        self.assertEqual(counted(self.own, self.run, {0x10058: line}, [marked]), {2: 5})

    def test_behind_a_branch_that_annuls_count_once(self):
        words = [branch(ALWAYS, 0, 3), NOP, branch(ALWAYS, 1, 3), form3(2, 2, OR, 0, ('i', 2)), form3(2, 3, OR, 0, ('i', 3)),
                 form3(2, 1, OR, 0, ('i', 1)), form3(2, ALWAYS, TICC, 0, ('i', 16))]
        own = Shown(given.written(given.program(words)))
        line_at = {0x10060: Line('a.c', 2), 0x10064: Line('a.c', 2)}
        self.assertEqual(counted(own, given.run_in(own)[0], line_at), {2: 1})

    def test_in_blocks_that_exclude_each_other_add_up(self):
        blocks = {'test': ['then', 'else'], 'then': ['end'], 'else': ['end'], 'end': []}
        own = SimpleNamespace(blocks={name: name for name in blocks}, leads_to=blocks.get)
        passes = Passes(own, list(blocks))
        self.assertTrue(passes.are_apart('then', 'else'))
        self.assertFalse(passes.are_apart('test', 'end'))
        self.assertEqual(most_apart({'test': 7, 'then': 4, 'else': 3, 'end': 7}, passes), 7)
        self.assertEqual(most_apart({'then': 4, 'else': 3}, passes), 7)
        self.assertEqual(most_apart({'test': 5, 'then': 4}, passes), 5)
