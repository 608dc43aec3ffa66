"""Kinds of instructions by their words, and a file for callgrind, by hand."""
import unittest
from types import SimpleNamespace

import given
from eeltools.callgrind import Callgrind
from eeltools.instruction_mix import InstructionMix, kind_of
from eeltools.source_counts import SourceCounts
from sparc import JMPL, LD, NOP, O0, O7, OR, SP, ST, SUBCC, SWAP, TICC, UMUL, branch, call, form3, sethi

NEVER, EQUAL, ALWAYS, NOT_EQUAL = 0, 1, 8, 9
LDSTUB, SAVE, RESTORE, I7 = 0xd, 0x3c, 0x3d, 31
KINDS = {form3(3, 1, LD, 2, ('i', 4)): 'loads', form3(3, 1, 0xa, 2, ('r', 3)): 'loads', form3(3, 1, ST, 2, ('i', 4)): 'stores',
         form3(3, 2, 7, 2, ('i', 8)): 'stores', form3(3, 1, LDSTUB, 2, ('i', 4)): 'loads that store (ldstub, swap)',
         form3(3, 1, SWAP, 2, ('i', 4)): 'loads that store (ldstub, swap)', branch(EQUAL, 0, 4): 'conditional branches',
         branch(NOT_EQUAL, 1, 4): 'conditional branches', branch(ALWAYS, 1, 4): 'other branches',
         branch(NEVER, 0, 4): 'other branches', call(9): 'calls', form3(2, O7, JMPL, 1, ('i', 0)): 'calls through registers',
         form3(2, 0, JMPL, I7, ('i', 8)): 'returns', form3(2, 0, JMPL, O7, ('i', 12)): 'returns',
         form3(2, 0, JMPL, 1, ('r', 2)): 'other jumps through registers', form3(2, ALWAYS, TICC, 0, ('i', 16)): 'system calls',
         form3(2, ALWAYS, TICC, 0, ('i', 5)): 'traps', form3(2, SP, SAVE, SP, ('i', -96)): 'saves',
         form3(2, 0, RESTORE, 0, ('r', 0)): 'restores', NOP: 'nops', sethi(1, 1 << 20): 'arithmetic, logic and sethi',
         form3(2, 1, UMUL, 2, ('r', 3)): 'multiplications and divisions',
         form3(2, 1, 0x1f, 2, ('r', 3)): 'multiplications and divisions', form3(2, 1, OR, 2, ('r', 3)): 'arithmetic, logic and sethi',
         form3(2, 1, 0x24, 2, ('r', 3)): 'arithmetic, logic and sethi', form3(2, 1, 0x28, 0, ('r', 0)): 'reads and writes of %y',
         form3(2, 0, 0x30, 1, ('i', 0)): 'reads and writes of %y', form3(2, 0, 0x28, 15, ('r', 0)): 'others', 0: 'others'}

# Three rounds of a loop that calls `f`.
PROGRAM = [form3(2, 1, OR, 0, ('i', 3)),               # 10054 main: mov 3,%g1
           call(7), NOP,                               # 10058 call f
           form3(2, 1, SUBCC, 1, ('i', 1)),            # 10060 subcc %g1,1,%g1
           branch(NOT_EQUAL, 0, -3), NOP,              # 10064 bne 10058
           form3(2, 1, OR, 0, ('i', 1)),               # 1006c mov 1,%g1
           form3(2, ALWAYS, TICC, 0, ('i', 16)),       # 10070 ta 16
           form3(2, SP, SAVE, SP, ('i', -96)),         # 10074 f: save %sp,-96,%sp
           form3(3, O0, LDSTUB, SP, ('i', 64)),        # 10078 ldstub [%sp+64],%o0
           form3(2, 0, JMPL, I7, ('i', 8)),            # 1007c ret
           form3(2, 0, RESTORE, 0, ('r', 0))]          # 10080 restore
LINES = '''events: Ir Dr Dw Bc Bct Bi Calls Saves Restores sysCount
summary: 30 3 3 3 2 0 3 3 3 1

ob=/a
fl=???
fn=main
0x00010054 0 1
0x00010058 0 3 0 0 0 0 0 3
cfi=???
cfn=f
calls=3 0x00010074 0
0x00010058 0 12 3 3 0 0 0 0 3 3
0x0001005c 0 3
0x00010060 0 3
0x00010064 0 3 0 0 3 2
jcnd=2/3 0x00010058 0
0x00010064 0
0x00010068 0 3
0x0001006c 0 1
0x00010070 0 1 0 0 0 0 0 0 0 0 1

fl=???
fn=f
0x00010074 0 3 0 0 0 0 0 0 3
0x00010078 0 3 3 3
0x0001007c 0 3
0x00010080 0 3 0 0 0 0 0 0 0 3

totals: 30 3 3 3 2 0 3 3 3 1'''


def counted(kind='every'):
    own = given.shown.Shown(given.written(given.program(PROGRAM, symbols=[('main', 0x10054), ('f', 0x10074)])))
    run, _ = given.run_in(own, counted=kind)
    debug = SimpleNamespace(functions={}, line_at={}, body_at={}, marks=[], is_optimised=False)
    return SourceCounts(own, run, debug)


class Kinds(unittest.TestCase):
    def test_are_by_their_words(self):
        for word, kind in KINDS.items():
            self.assertEqual(kind_of(word), kind, hex(word))

    def test_come_to_all(self):
        for kind in 'every', 'edges', 'visits':
            counts = counted(kind)
            mix = InstructionMix(counts.shown, counts.run).counts()
            self.assertEqual(mix.total(), 30)
            self.assertEqual((mix['conditional branches, taken'], mix['conditional branches, not taken'], mix['calls']), (2, 1, 3))


class Files(unittest.TestCase):
    def test_have_events_calls_and_jumps(self):
        for kind in 'every', 'edges':
            counts = counted(kind)
            lines = list(Callgrind(counts, False).lines())
            at = next(at for at, line in enumerate(lines) if line.startswith('events:'))
            lines = ['ob=/a' if line.startswith('ob=') else line for line in lines[at:]]
            self.assertEqual('\n'.join(lines), LINES)
