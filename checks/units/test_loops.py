"""Loops of small programs, with their rounds and instructions by hand."""
import unittest

import given
from eeltools.loops import loops
from sparc import JMPL, NOP, O7, SUBCC, TICC, branch, call, form3

NE, ALWAYS = 9, 8
# Three rounds of a loop of two rounds: %g1 counts the outer ones, %g2 the inner ones.
NESTED = [form3(2, 1, 2, 0, ('i', 3)),        # 10054 mov 3,%g1
          form3(2, 2, 2, 0, ('i', 2)),        # 10058 mov 2,%g2
          form3(2, 2, SUBCC, 2, ('i', 1)),    # 1005c subcc %g2,1,%g2
          branch(NE, 0, -1), NOP,             # 10060 bne 1005c
          form3(2, 1, SUBCC, 1, ('i', 1)),    # 10068 subcc %g1,1,%g1
          branch(NE, 0, -5), NOP,             # 1006c bne 10058
          form3(2, 1, 2, 0, ('i', 1)),        # 10074 mov 1,%g1
          form3(2, ALWAYS, TICC, 0, ('i', 16))]

# Three calls of a function that returns a struct, behind an UNIMP with its size.
CALLING = [form3(2, 1, 2, 0, ('i', 3)),       # 10054 mov 3,%g1
           call(8), NOP, 8,                   # 10058 call 10078; nop; unimp 8
           form3(2, 1, SUBCC, 1, ('i', 1)),   # 10064 subcc %g1,1,%g1
           branch(NE, 0, -4), NOP,            # 10068 bne 10058
           form3(2, 1, 2, 0, ('i', 1)),       # 10070 mov 1,%g1
           form3(2, ALWAYS, TICC, 0, ('i', 16)),
           form3(2, 0, JMPL, O7, ('i', 12)), NOP]


class Loops(unittest.TestCase):
    def test_of_carries(self):
        own = given.shown.Shown(f'{given.DATA}/carry_loop')
        for counted in 'every', 'edges', 'visits':
            found = loops(own, given.run_in(own, counted=counted)[0])
            self.assertEqual([(loop.head, loop.rounds, loop.instructions, loop.own) for loop in found], [(0x10058, 4, 20, 20)])

    def test_within_each_other(self):
        own = given.shown.Shown(given.written(given.program(NESTED)))
        found = {loop.head: (loop.rounds, loop.instructions, loop.own) for loop in loops(own, given.run_in(own)[0])}
        # the inner one has 6 passes of 3 words, a slot among them; the outer one has 3 of 4 words more
        self.assertEqual(found, {0x1005c: (3, 18, 18), 0x10058: (2, 30, 12)})

    def test_around_a_call_that_returns_a_struct(self):
        own = given.shown.Shown(given.written(given.program(CALLING, symbols=[('main', 0x10054), ('pair', 0x10078)])))
        for counted in 'every', 'edges', 'visits':
            found = [(loop.head, loop.rounds, loop.instructions, loop.own)
                     for loop in loops(own, given.run_in(own, counted=counted)[0])]
            self.assertEqual(found, [(0x10058, 2, 15, 15)])  # three passes of call, nop, subcc, bne and nop
