"""What check.py finds in small programs, by hand."""
import struct
import unittest

import given
from eeltools.check import Findings, Reach, sort_of
from eeltools.shown import Shown
from sparc import NOP, OR, TICC, call, form3

V9, FLOAT, COPROCESSOR, WRPSR, LDA = 0x81f00000, 0x81a04842, 0x81b00000, 0x81880000, 0xc2800020
RET, RESTORE = 0x81c7e008, 0x91e80008
ALWAYS = 8


def number(value):
    return form3(2, 1, OR, 0, ('i', value))  # mov value,%g1


def trap(value):
    return form3(2, ALWAYS, TICC, 0, ('i', value))


EXIT = [number(1), trap(16)]


def found(words, symbols=(('main', 0x10054),)):
    return list(Findings(Reach(Shown(given.written(given.program(words, symbols=symbols))))).lines())


class Check(unittest.TestCase):
    def test_what_stands_behind_an_exit_is_no_code(self):
        self.assertEqual(found([*EXIT, V9, FLOAT]), ['can be run: yes', '  system calls: exit (in main)'])

    def test_routines_behind_an_exit_are_reached_by_jumps_alone(self):
        lines = found([*EXIT, V9], [('main', 0x10054), ('next', 0x1005c)])
        self.assertEqual(lines[1], '  1 V9 instruction, the first at 0001005c, in next, where only jumps through registers may '
                                   'lead: a run ends there by trap 2')

    def test_what_a_call_leads_to_is_looked_at(self):
        lines = found([call(5), NOP, *EXIT, NOP, FLOAT, V9, NOP], [('main', 0x10054), ('half', 0x10068)])
        self.assertEqual(lines, ['can be run: not past what is listed here',
                                 '  1 V9 instruction, the first at 0001006c, in half: a run ends there by trap 2',
                                 '  1 float instruction, the first at 00010068, in half: a run ends there by trap 4',
                                 '  system calls: exit (in main)'])

    def test_flushes_are_not_told_and_other_traps_are(self):
        self.assertEqual(found([trap(3), trap(5), *EXIT]),
                         ['can be run: yes', '  system calls: exit (in main)', '  ta 5, at which a run ends by trap 133, in main'])

    def test_system_calls(self):
        self.assertEqual(found([number(4), trap(16), number(20), trap(16), *EXIT]),
                         ['can be run: not past what is listed here', '  system calls: exit (in main), write (in main)',
                          '  a system call 20, which fails with ENOSYS, in main'])

    def test_sorts(self):
        self.assertEqual([sort_of(word) for word in (V9, FLOAT, COPROCESSOR, WRPSR, LDA, 0)],
                         ['V9', 'float', 'coprocessor', 'privileged', 'privileged', None])

    def test_words_outside_of_code_are_not_looked_at(self):
        """Control goes on behind the code, where a constant has the bits of a V9 instruction."""
        with open(f'{given.CHECKS}/units/lines', 'rb') as opened:
            file = opened.read()
        changed = file.replace(struct.pack('>5I', RET, RESTORE, 5, 2, 0), struct.pack('>5I', NOP, NOP, V9, 2, 0))
        self.assertNotEqual(changed, file)
        self.assertEqual(next(Findings(Reach(Shown(given.written(changed)))).lines()), 'can be run: yes')
