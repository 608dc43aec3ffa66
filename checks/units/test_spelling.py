"""Instructions as assemblers write them, beside what objdump of the binutils prints of the same words."""
import unittest

import given  # the path to tools/
from eeltools.spelling import long_text, spelled

# As `eel list` has it, and as objdump does.
PAIRS = [('sethi 0,%g0', 'nop'), ('sethi 66,%g2', 'sethi %hi(0x10800), %g2'), ('or %g0,5,%g2', 'mov 5, %g2'),
         ('or %g0,%i0,%o0', 'mov %i0, %o0'), ('subcc %g1,8,%g0', 'cmp %g1, 8'), ('subcc %o0,%l1,%g0', 'cmp %o0, %l1'),
         ('orcc %g0,%g1,%g0', 'tst %g1'), ('jmpl %i7,8,%g0', 'ret'), ('jmpl %o7,8,%g0', 'retl'),
         ('restore %g0,%g0,%g0', 'restore'), ('jmpl %g1,8,%g0', 'jmp %g1 + 8'), ('jmpl %l1,%g0,%g0', 'jmp %l1'),
         ('jmpl %g1,%g0,%o7', 'call %g1'), ('jmpl %g1,4,%l0', 'jmpl %g1 + 4, %l0'),
         ('ld [%i6,-20],%g1', 'ld [ %fp + -20 ], %g1'), ('ld [%g1,%g0],%g2', 'ld [ %g1 ], %g2'),
         ('ld [%g1,%g2],%g3', 'ld [ %g1 + %g2 ], %g3'), ('st %g0,[%g1,%g0]', 'clr [ %g1 ]'),
         ('stb %g0,[%g1,4]', 'clrb [ %g1 + 4 ]'), ('sth %g0,[%g1,%g0]', 'clrh [ %g1 ]'),
         ('ldub [%g0,8],%g1', 'ldub [ 8 ], %g1'), ('add %g1,-4,%g1', 'add %g1, -4, %g1'),
         ('save %o6,-96,%o6', 'save %sp, -96, %sp'), ('xnor %g1,%g2,%g3', 'xnor %g1, %g2, %g3'),
         ('rd %y,%g1', 'rd %y, %g1'), ('swap [%g1,%g0],%g2', 'swap [ %g1 ], %g2'), ('std %g4,[%g2,8]', 'std %g4, [ %g2 + 8 ]')]
BRANCHES = [('call 0x00010054', 'call 10054'), ('be 0x00010054', 'be 10054'), ('bne,a 0x00010054', 'bne,a 10054'),
            ('ba 0x00010054', 'b 10054'), ('ba,a 0x00010054', 'b,a 10054'), ('bgu 0x00010054', 'bgu 10054')]


class Spelling(unittest.TestCase):
    def test_is_that_of_objdump(self):
        for text, theirs in PAIRS:
            self.assertEqual(spelled(text, {}.get), theirs.replace(' + -', '-').replace(' + ', '+').replace(', ', ',')
                             .replace('[ ', '[').replace(' ]', ']'))

    def test_branches_lead_to_names_and_addresses(self):
        for text, theirs in BRANCHES:
            self.assertEqual(spelled(text, {}.get), theirs.replace('10054', '0x00010054'))
            self.assertEqual(spelled(text, {0x10054: 'start'}.get), theirs.replace('10054', 'start'))

    def test_is_read_back(self):
        for text, _ in PAIRS:
            self.assertEqual(long_text(spelled(text, {}.get), {}.get), text)
        for text, _ in BRANCHES:
            self.assertEqual(long_text(spelled(text, {0x10054: 'start'}.get), {'start': 0x10054}.get), text)

    def test_of_each_word_of_a_program_is_read_back(self):
        own = given.shown.Shown(f'{given.DATA}/queens')
        for address in own.text():
            text = own.long_text_at(address)
            again = long_text(own.text_at(address), {name: start for start, name in own.routines.items()}.get)
            self.assertIn(again, (text, text.replace(',0]', ',%g0]')))
