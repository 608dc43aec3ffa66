"""Which rows filters take, by hand, and that nothing of a report is lost."""
import re
import unittest
from argparse import ArgumentTypeError
from fractions import Fraction
from types import SimpleNamespace

import given
from eeltools import Refused
from eeltools.debug_lines import Copy, Function, Line
from eeltools.filters import Filters, names_of, natural, percentage
from eeltools.report import FUNCTIONS, Report
from eeltools.shown import Shown
from sparc import JMPL, NOP, OR, SP, SUBCC, TICC, branch, call, form3

ALWAYS, NOT_EQUAL, SAVE, RESTORE, I7 = 8, 9, 0x3c, 0x3d, 31
# Three rounds of a loop that calls `first`: 18 instructions of main and 12 of `first`.
PROGRAM = [form3(2, 1, OR, 0, ('i', 3)),               # 10054 main: mov 3,%g1
           call(7), NOP,                               # 10058 call first
           form3(2, 1, SUBCC, 1, ('i', 1)),            # 10060 subcc %g1,1,%g1
           branch(NOT_EQUAL, 0, -3), NOP,              # 10064 bne 10058
           form3(2, 1, OR, 0, ('i', 1)),               # 1006c mov 1,%g1
           form3(2, ALWAYS, TICC, 0, ('i', 16)),       # 10070 ta 16
           form3(2, SP, SAVE, SP, ('i', -96)),         # 10074 first: save %sp,-96,%sp
           form3(2, 2, OR, 0, ('i', 1)),               # 10078 mov 1,%g2
           form3(2, 0, JMPL, I7, ('i', 8)),            # 1007c ret
           form3(2, 0, RESTORE, 0, ('r', 0))]          # 10080 restore
# Line 1 of b.h is in both functions.
LINES = {address: Line('/src/a.c', number) for address, number in
         [(0x10054, 1), (0x10058, 2), (0x1005c, 2), (0x10060, 3), (0x10064, 4), (0x10068, 4), (0x1006c, 5), (0x10070, 5),
          (0x10074, 9), (0x1007c, 10), (0x10080, 10)]}
SHARED = {0x10060: Line('/src/b.h', 1), 0x10078: Line('/src/b.h', 1)}


def shown():
    return Shown(given.written(given.program(PROGRAM, symbols=[('main', 0x10054), ('first', 0x10074)])))


def rows(lines):
    """The rows of each table of a report, by the last word of its heading: counts with texts."""
    tables = {}
    for line in lines:
        if line.startswith('  share'):
            own = tables[line.split()[-1]] = []
        elif found := re.match(r' *[\d.]+ % +(?:about )?(\d+) +(?:([\d.]+) % +)?(\d+ +)?(.*)', line):
            own.append((int(found[1]), found[4]))
    return tables


def report(own, filters, debug, **options):
    return Report(own, given.run_in(own, **options)[0], debug, filters)


def debug_of(line_at, functions=()):
    return SimpleNamespace(line_at=line_at, body_at={}, marks=[], functions=dict(functions), is_optimised=False)


class Choice(unittest.TestCase):
    def split(self, most=None, **asked):
        counts = {'a': 50, 'b': 25, 'c': 15, 'd': 10}
        return Filters(**asked).split(list(counts), 'abd'.__contains__, counts.get, 100, most)

    def test_is_by_rank_and_share(self):
        self.assertEqual(self.split(), (['a', 'b', 'd'], ['c']))
        self.assertEqual(self.split(2), (['a', 'b'], ['c', 'd']))
        self.assertEqual(self.split(1, top=2), (['a', 'b'], ['c', 'd']))
        self.assertEqual(self.split(1, min_percent=Fraction(25)), (['a', 'b'], ['c', 'd']))
        self.assertEqual(self.split(1, min_percent=Fraction('25.01')), (['a'], ['b', 'c', 'd']))
        self.assertEqual(self.split(1, min_percent=Fraction(10), top=2), (['a', 'b'], ['c', 'd']))

    def test_of_functions_is_by_patterns(self):
        for name, pattern, fits in [('value', 'value', True), ('value', 'val*', True), ('value', 'alu', False),
                                    ('value.isra.0', 'value', True), ('value.isra.0', 'value.isra.*', True),
                                    ('value.party', 'value', False), ('at 00010054 (merged)', 'at 0001005?', True),
                                    ('f(int, char)', 'f', True), ('f(int, char)', 'f(int,*)', True),
                                    ('f(int) [clone .isra.0]', 'f', True), ('Value', 'value', False), ('g', '[a-f]', False), ('at 00010054', '00010054', True),
                                    ('T n::most<T<int> >(T<int>, int)', 'most', True), ('T n::most<T<int> >(T)', 'n::most', True),
                                    ('T n::most<T<int> >(T)', 'n', False), ('n::S::area() const', 'S::area', False),
                                    ('n::S::area() const', '*S::area', True), ('(anonymous namespace)::f(int)', 'f', True)]:
            self.assertEqual(Filters(function=pattern).takes_function(name), fits, (name, pattern))
        self.assertEqual(names_of('f(int) [clone .isra.0]'), {'f(int) [clone .isra.0]', 'f(int)', 'f'})

    def test_of_sources_is_by_the_ends_of_their_paths(self):
        for pattern, fits in [('a.c', True), ('*.c', True), ('src/a.c', True), ('/here/src/a.c', True), ('here/*/a.c', True),
                              ('.c', False), ('rc/a.c', False), ('a.h', False), ('here', False)]:
            self.assertEqual(Filters(source_file=pattern).takes_source('/here/src/a.c'), fits, pattern)

    def test_wants_numbers(self):
        self.assertEqual((natural('12'), percentage('0.5'), percentage('100')), (12, Fraction(1, 2), Fraction(100)))
        for parse, texts in (natural, ['0', '-1', '1.5', '']), (percentage, ['100.1', 'nan', '1/2', '-1', '']):
            for text in texts:
                self.assertRaises(ArgumentTypeError, parse, text)


class Rows(unittest.TestCase):
    def test_of_a_function(self):
        own = shown()
        for counted in 'every', 'edges', 'visits':
            had = rows(report(own, Filters(function='fir*'), debug_of({**LINES, **SHARED}), counted=counted).all(FUNCTIONS))
            self.assertEqual(had['function'], [(12, 'first'), (18, 'left out: 1 function')])
            self.assertEqual(had['loop'], [(15, 'left out: 1 loop')])
            self.assertEqual(had['line'], [(6, 'a.c:10'), (3, 'a.c:9'), (3, 'b.h:1'), (18, 'left out: 4 lines')])
            self.assertEqual(had['kind'][-1], (18, 'left out'))
            self.assertEqual(sum(count for count, _ in had['kind']), 30)

    def test_of_a_line_in_two_functions_have_the_part_of_one(self):
        own = shown()
        for function, count, times in ('first', 3, 3), ('main', 3, 3), ('*', 6, 6):
            told = report(own, Filters(function=function), debug_of({**LINES, **SHARED}))
            line = next(line for line in told.lines() if line.endswith('b.h:1'))
            self.assertEqual(line.split()[2:4], [str(count), str(times)])
        without = report(own, Filters(), debug_of({**LINES, **SHARED}))
        self.assertEqual(list(without.lines()), list(report(own, Filters(function='*'), debug_of({**LINES, **SHARED})).lines()))

    def test_of_a_source(self):
        own = shown()
        functions = {'first': Function('first', Line('/src/b.h', 1), 'first', starts=[0x10074])}
        had = rows(report(own, Filters(source_file='b.h'), debug_of({**LINES, **SHARED}, functions)).all(FUNCTIONS))
        self.assertEqual(had['function'], [(12, 'first'), (18, 'left out: 1 function')])
        self.assertEqual(had['line'], [(6, 'b.h:1'), (24, 'left out: 6 lines')])
        self.assertEqual(had['kind'], [(6, 'arithmetic, logic and sethi'), (24, 'left out')])

    def test_come_to_what_there_is(self):
        for name in 'queens', 'fractions', 'dispatch':
            own = Shown(f'{given.DATA}/{name}')
            run, _ = given.run_in(own, b'1/2+1/3\n')
            text = own.text()
            debug = debug_of({address: Line(f'/src/{address % 5}.c', address // 64) for address in text})
            whole = rows(Report(own, run, debug, Filters(top=10 ** 6)).all(FUNCTIONS))
            for asked in {'top': 1}, {'min_percent': Fraction(3)}, {'function': '*e*', 'top': 2}, {'source_file': '[12].c'}, \
                    {'function': 'main', 'source_file': '4.c', 'min_percent': Fraction(1)}:
                had = rows(Report(own, run, debug, Filters(**asked)).all(FUNCTIONS))
                for table, found in whole.items():
                    self.assertEqual(sum(count for count, _ in had[table]), sum(count for count, _ in found), (name, asked, table))


class Names(unittest.TestCase):
    def refused(self, call, *words):
        with self.assertRaises(Refused) as ended:
            call(*words)
        return ended.exception.status, str(ended.exception)

    def test_that_are_there_are_taken(self):
        own = shown()
        for name in 'main', 'f*', 'at 00010074':  # where a run may land on a SAVE
            Filters(function=name).want_function(own, None)
        Filters(source_file='b.h').want_source(own, debug_of(SHARED))

    def test_that_are_not_there_are_refused(self):
        own = shown()
        own.name = 'own'
        for name in 'frist', 'at 00010078':
            code, told = self.refused(Filters(function=name).want_function, own, lambda: debug_of({}))
            self.assertEqual(code, 64)
            self.assertEqual(told, f'own has no function {name}{"; there is first" if name == "frist" else ""}')
        self.assertEqual(self.refused(Filters(source_file='b.c').want_source, own, debug_of(SHARED)),
                         (64, 'own has no source b.c; there is b.h'))
        self.assertEqual(self.refused(Filters(source_file='b.c').want_source, own, debug_of({}))[0], 65)

    def test_of_inlined_functions_are_refused_as_such(self):
        functions = {'small': Function('small', Line('/src/a.c', 1), 'small', copies=[Copy(0x10054, {0x10054}, True)])}
        code, told = self.refused(Filters(function='sm*').want_function, shown(), lambda: debug_of({}, functions))
        self.assertEqual(code, 64)
        self.assertIn('no code of small but where it was inlined', told)
