"""Differences of profiles, by hand: what is paired, and how much more or less each took."""
import unittest
from types import SimpleNamespace
from unittest import mock

from eeltools import compare
import given
from eeltools import runs
from eeltools.debug_lines import Line
from sparc import ADD, JMPL, NOP, O7, OR, SUBCC, TICC, branch, call, form3

ALWAYS, NOT_EQUAL = 8, 9
ENDS = [form3(2, 1, OR, 0, ('i', 1)), form3(2, ALWAYS, TICC, 0, ('i', 16))]
RETURN = [form3(2, 0, JMPL, O7, ('i', 8)), NOP]
NAMES = {'value': 'value', 'value.isra.0': 'value', 'value.constprop.0.isra.0': 'value', 'value.part.12': 'value',
         'value.cold': 'value', 'value.llvm.1234': 'value', 'value.lto_priv.0': 'value', 'value.party': 'value.party',
         'at 00010054': 'at 00010054', 'f(int) [clone .isra.0]': 'f(int)', 'f(int) [clone .constprop.1] [clone .part.0]': 'f(int)'}


def rounds(number, body, name):
    """A program with so many rounds of a loop that calls a function with this body."""
    words = [form3(2, 1, OR, 0, ('i', number)), call(7), NOP, form3(2, 1, SUBCC, 1, ('i', 1)), branch(NOT_EQUAL, 0, -3), NOP, *ENDS]
    return given.program(words + body + RETURN, symbols=[('main', 0x10054), (name, 0x10074)])


def side(file):
    name = given.written(file)
    counts = given.written(visits_of(name))
    return compare.Side(name, counts, None, None, False)


def visits_of(name):
    own = given.shown.Shown(name)
    with mock.patch.object(runs, 'run_of', lambda _, name: name):
        kept, _ = given.run_in(own)
    with open(kept) as opened:
        return opened.read()


class Pairs(unittest.TestCase):
    def test_of_functions_are_by_their_names(self):
        for name, function in NAMES.items():
            self.assertEqual(compare.function_of(name), function)

    def test_of_lines_follow_the_texts(self):
        old, new = ['a', 'b', 'c', 'd', 'e'], ['a', 'new', 'b', 'C', 'd', 'e']
        self.assertEqual(compare.paired_numbers(old, new), {1: 1, 2: 3, 3: 4, 4: 5, 5: 6})
        self.assertEqual(compare.paired_numbers(['a', 'b', 'c'], ['a', 'c']), {1: 1, 3: 2})

    def test_of_sources_are_by_their_names(self):
        self.assertEqual(compare.paired_sources({'/a/x.c', '/a/y.c', '/a/z.h', '/b/z.h'}, {'/a/x.c', '/new/y.c', '/new/z.h'}),
                         {'/a/x.c': '/a/x.c', '/a/y.c': '/new/y.c'})

    def test_of_lines_are_by_numbers_where_no_text_is_there(self):
        old, new = {Line('/none/x.c', 3), Line('/none/y.c', 4)}, {Line('/none/new/x.c', 3)}
        self.assertEqual(dict(compare.paired_lines(old, new)), {Line('/none/x.c', 3): Line('/none/new/x.c', 3)})


class Differences(unittest.TestCase):
    def setUp(self):
        add, mov, more = form3(2, 2, ADD, 2, ('i', 1)), form3(2, 4, OR, 0, ('i', 7)), form3(2, 3, ADD, 3, ('i', 5))
        self.before, self.after = side(rounds(3, [add, more], 'f')), side(rounds(5, [add, mov, more], 'f.constprop.0'))

    def rows(self, lines):
        return [line.split() for line in lines]

    def test_of_functions(self):
        rows = self.rows(compare.function_lines(self.before, self.after))
        self.assertEqual(rows[1:], [['30', '53', '+23', 'all,', '+76.7', '%'], ['12', '25', '+13', '+2', 'f'],
                                    ['18', '28', '+10', '0', 'main']])

    def test_of_instructions(self):
        rows = self.rows(compare.instruction_lines(self.before, self.after, 'f'))
        self.assertEqual(rows, [['f:', '12', 'before,', '25', 'after,', '+13'],
                                ['3', '5', '+2', '00010074', '00010074', 'add', '%g2,1,%g2'],
                                ['-', '5', '+5', '00010078', 'mov', '7,%g4'],
                                ['3', '5', '+2', '00010078', '0001007c', 'add', '%g3,5,%g3'],
                                ['3', '5', '+2', '0001007c', '00010080', 'retl'],
                                ['3', '5', '+2', '00010080', '00010084', 'nop'], []])

    def test_of_a_program_with_itself(self):
        self.assertEqual(len(list(compare.function_lines(self.before, self.before))), 2)

    def test_of_parts_aren_t_calls_of_the_function(self):
        names = {0: 'f', 1: 'f', 2: 'main'}
        shown = SimpleNamespace(name_of={0: 'f', 1: 'f.part.0', 2: 'main'}.get)
        calls = [SimpleNamespace(caller=2, callee=0, count=7), SimpleNamespace(caller=0, callee=1, count=4),
                 SimpleNamespace(caller=2, callee=1, count=2), SimpleNamespace(caller=1, callee=0, count=1)]
        for entered, wanted in ({0: 8, 1: 6, 2: 1}, {'f': 10, 'main': 1}), ({0: 8, 1: 6, 2: None}, {'f': 10, 'main': None}):
            costs = SimpleNamespace(calls=calls, entered=entered, calls_of=entered.get)
            own = SimpleNamespace(names=names, shown=shown, counts=SimpleNamespace(costs=costs))
            self.assertEqual(compare.Side.calls(own), wanted)
