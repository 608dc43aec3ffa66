"""What runs come to, beside the steps that the models make of them."""
import unittest

import given
from eeltools.call_costs import CallCosts
from eeltools.endings import stray_jump
from eeltools.shown import Shown
from sparc import JMPL, NOP, TICC, call, form3, sethi

ALWAYS, SAVE, RESTORE, OR = 8, 0x3c, 0x3d, 2
EXIT = [form3(2, 1, OR, 0, ('i', 1)), form3(2, ALWAYS, TICC, 0, ('i', 16))]
RET, ALONE = form3(2, 0, JMPL, 31, ('i', 8)), form3(2, 0, RESTORE, 0, ('r', 0))


def shown(words, **options):
    return Shown(given.written(given.program(words, **options)))


def through(address):
    """Words that call through a pointer."""
    return [sethi(1, address), form3(2, 1, OR, 1, ('i', address & 0x3ff)), form3(2, 15, JMPL, 1, ('r', 0)), NOP]


class Runs(unittest.TestCase):
    def test_have_each_step(self):
        for name in 'queens', 'dispatch', 'fractions', 'carry_loop', 'lands_in_a_switch', 'saves_and_restores':
            own = Shown(f'{given.DATA}/{name}')
            for counted in 'every', 'visits', 'edges':
                run, steps = given.run_in(own, counted=counted)
                if not run.unsure:
                    self.assertEqual((name, run.total), (name, steps))

    def test_that_come_to_the_midst_of_a_block_by_a_switch_are_unsure(self):
        own = Shown(f'{given.DATA}/dispatch')
        run, steps = given.run_in(own, counted='edges')
        self.assertEqual(steps, 3515)
        self.assertTrue(run.total == steps or run.unsure)

    def test_may_stand_behind_the_text(self):
        for name in 'ends_with_a_branch', 'ends_with_a_jump', 'ends_with_a_switch', 'ends_with_a_comparison':
            own = Shown(f'{given.DATA}/{name}')
            for stands in own.text().stop, own.text().stop - 4, 0:
                run = given.runs.Executions(own, {}, stands)
                self.assertGreaterEqual(run.total, 0)

    def test_came_to_no_code_from_the_call_that_did_not_come_back(self):
        own = Shown(f'{given.DATA}/jump_to_zero')
        self.assertEqual(stray_jump(own, given.run_in(own)[0]), own.entry)
        # the first one calls through a pointer what calls through a null pointer
        words = [*through(0x10080), *EXIT, NOP, NOP, NOP, NOP, NOP, form3(2, 14, SAVE, 14, ('i', -96)), *through(0), RET, ALONE]
        own = shown(words)
        run, _ = given.run_in(own)
        self.assertEqual(own.word(0x10080), form3(2, 14, SAVE, 14, ('i', -96)))
        self.assertEqual(stray_jump(own, run), 0x1008c)

    def test_that_exit_have_no_such_call(self):
        own = shown([call(4), NOP, *EXIT, form3(2, 0, JMPL, 15, ('i', 8)), NOP])
        self.assertIsNone(stray_jump(own, given.run_in(own)[0]))


class Names(unittest.TestCase):
    """A routine that begins in the midst of a block, behind one that ends by a trap."""

    def setUp(self):
        end = form3(2, 0, JMPL, 15, ('i', 8))
        self.words = [*through(0x10078), *EXIT, form3(2, 2, OR, 0, ('i', 2)), form3(2, ALWAYS, TICC, 0, ('i', 5)), NOP,
                      form3(2, 3, OR, 0, ('i', 3)), end, NOP]
        self.own = shown(self.words)
        self.names = given.written('00010054 T start\n0001006c T stops\n00010078 T pointed\n')

    def test_stand_where_they_say(self):
        own = Shown(self.own.name, self.names)
        self.assertEqual(own.routines, {0x10054: 'start', 0x1006c: 'stops', 0x10078: 'pointed'})
        self.assertEqual(own.inner, {0x1006c, 0x10078})

    def test_may_be_those_of_nm_with_each_of_its_options(self):
        lines = ['         U missing', '         w weak', '                 v object', '00010054 T f(int, char)',
                 '00010058 t operator new(unsigned int)\t/src/a.cc:3', '0001005c 00000008 T g(T<int, int>)', '00010060 plain name',
                 '00010064 T', '00010068 D data', '', '0001006C W T']
        found = list(self.own.named(given.written('\n'.join(lines))))
        self.assertEqual(found, [(0x10054, 'f(int, char)'), (0x10058, 'operator new(unsigned int)'), (0x1005c, 'g(T<int, int>)'),
                                 (0x10060, 'plain name'), (0x10064, 'T'), (0x1006c, 'T')])

    def test_go_before_addresses(self):
        own = Shown(self.own.name, given.written('00010054 T start\n0001006c T add\n'))
        self.assertEqual([own.routine_called(name) for name in ('add', '0x1006C', '1006c', '0001006c')], [0x1006c] * 4)

    def test_have_their_instructions_and_calls(self):
        for counted, calls in ('every', 1), ('visits', None):
            own = Shown(self.own.name, self.names)
            run, steps = given.run_in(own, counted=counted)
            costs = CallCosts(own, run)
            self.assertEqual(steps, 9)
            self.assertEqual(+costs.own, {0x10054: 6, 0x10078: 3})
            self.assertEqual(costs.calls_of(0x10078), calls)

    def test_behind_nops_have_their_instructions_and_calls(self):
        end = form3(2, 0, JMPL, 15, ('i', 8))
        for routine in [form3(2, 14, SAVE, 14, ('i', -96)), RET, ALONE], [form3(2, 3, OR, 0, ('i', 3)), end, NOP]:
            self.words[6:] = [end, NOP, NOP, *routine]
            for counted in 'every', 'edges':
                own = Shown(shown(self.words).name, given.written('00010054 T start\n00010078 T pointed\n'))
                self.assertEqual(own.routines, {0x10054: 'start', 0x10074: 'pointed'})
                run, steps = given.run_in(own, counted=counted)
                self.assertTrue(run.total == steps or run.unsure)
                self.assertEqual(CallCosts(own, run).calls_of(0x10074), 1)
                self.assertEqual(own.name_of(own.routine_of(0x10078)), 'pointed')

    def test_are_not_needed_where_a_run_lands_on_a_save(self):
        self.words[9] = form3(2, 14, SAVE, 14, ('i', -96))
        self.words[10:] = [RET, ALONE]
        own = shown(self.words)
        run, _ = given.run_in(own)
        self.assertEqual(own.routines[0x10078], 'at 00010078')
        self.assertEqual(CallCosts(own, run).own[0x10078], 3)


