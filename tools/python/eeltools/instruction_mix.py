"""What kinds of instructions a run carried out, by the words of the text: loads, stores, branches, calls and so on."""
from __future__ import annotations

from collections import Counter
from collections.abc import Callable

from .runs import Run
from .shown import NOP, Shown, is_return

LOAD, STORE, BOTH = 'loads', 'stores', 'loads that store (ldstub, swap)'
CONDITIONAL, TAKEN, UNTAKEN = 'conditional branches', 'conditional branches, taken', 'conditional branches, not taken'
BRANCH, CALL, INDIRECT = 'other branches', 'calls', 'calls through registers'
RETURN, JUMP, TRAP, SYSTEM = 'returns', 'other jumps through registers', 'traps', 'system calls'
SAVE, RESTORE, NOTHING = 'saves', 'restores', 'nops'
MULTIPLY, ARITHMETIC, OTHER = 'multiplications and divisions', 'arithmetic, logic and sethi', 'others'
OF_Y = 'reads and writes of %y'

BICC, SETHI = 2, 4  # op2
ALWAYS = 0, 8  # conditions of BN and BA
LDSTUB, SWAP, STORES = 0x0d, 0x0f, 4  # of op3, but for its two upper bits
MULTIPLIES = 0x0a, 0x0b, 0x0e, 0x0f  # op3, but for the bit that says whether codes are set
JMPL, TICC, OP3_SAVE, OP3_RESTORE, LAST_ARITHMETIC = 0x38, 0x3a, 0x3c, 0x3d, 0x27
RDY, WRY = 0x28, 0x30  # where the field that names another register is 0
O7 = 15

# The events of a file for callgrind, in its own names where it has them, and which kinds count for each. Bct has what
# branches tell by their edges.
EVENTS = {'Ir': None, 'Dr': {LOAD, BOTH}, 'Dw': {STORE, BOTH}, 'Bc': {CONDITIONAL}, 'Bct': set(), 'Bi': {INDIRECT, JUMP},
          'Calls': {CALL, INDIRECT}, 'Saves': {SAVE}, 'Restores': {RESTORE}, 'sysCount': {SYSTEM}}
LONG_NAMES = {'Ir': 'instructions', 'Dr': 'loads', 'Dw': 'stores', 'Bc': 'conditional branches',
              'Bct': 'conditional branches that were taken', 'Bi': 'jumps and calls through registers, but for returns',
              'Calls': 'calls', 'Saves': 'saves', 'Restores': 'restores', 'sysCount': 'system calls'}


def kind_of(word: int | None) -> str:
    """The kind of an instruction, by its fields as appendix F of the manual has them."""
    op, op2, op3 = word >> 30, word >> 22 & 7, word >> 19 & 63
    if op == 1:
        return CALL
    if op == 3:
        return BOTH if op3 & 15 in (LDSTUB, SWAP) else STORE if op3 & STORES else LOAD
    if op == 2:
        return kind_of_operation(word, op3)
    if op2 == BICC:
        return BRANCH if word >> 25 & 15 in ALWAYS else CONDITIONAL
    return NOTHING if word == NOP else ARITHMETIC if op2 == SETHI else OTHER


def kind_of_operation(word: int, op3: int) -> str:
    if op3 == JMPL:
        return RETURN if is_return(word) else INDIRECT if word >> 25 & 31 == O7 else JUMP
    if op3 == TICC:
        return SYSTEM if word & 0xffffe07f == 0x91d02010 else TRAP  # `ta 16`
    if op3 in (OP3_SAVE, OP3_RESTORE):
        return SAVE if op3 == OP3_SAVE else RESTORE
    if op3 == RDY and not word >> 14 & 31 or op3 == WRY and not word >> 25 & 31:
        return OF_Y
    if op3 & 0x2f in MULTIPLIES:
        return MULTIPLY
    return ARITHMETIC if op3 <= LAST_ARITHMETIC else OTHER


class InstructionMix:
    """How many instructions of each kind a run carried out, and how often branches were taken, where that is known of
    all. A branch in whose slot the run ended counts as not taken."""

    def __init__(self, shown: Shown, run: Run) -> None:
        self.run = run
        self.kinds = {address: kind_of(shown.word(address)) for address, count in run.words.items() if count}
        branches = [block for first, block in shown.blocks.items() if self.kinds.get(block.last()) == CONDITIONAL]
        ways = {block.last(): [edge for edge in block.out if edge.kind == 'taken'] for block in branches}
        self.is_known = all(run.is_known(edge) for edges in ways.values() for edge in edges)
        self.taken = {address: sum(map(run.edge, edges)) for address, edges in ways.items()} if self.is_known else {}
        self.events = [event for event in EVENTS if event != 'Bct' or self.is_known]

    def counts(self, is_wanted: Callable[[int], bool] = lambda address: True) -> Counter[str]:
        """The instructions by their kinds, of all words or of some."""
        found, wanted = Counter(), list(filter(is_wanted, self.kinds))
        for address in wanted:
            found[self.kinds[address]] += self.run.words[address]
        if self.is_known and found[CONDITIONAL]:
            found[TAKEN] = sum(self.taken.get(address, 0) for address in wanted)
            found[UNTAKEN] = found.pop(CONDITIONAL) - found[TAKEN]
        return +found

    def costs(self, address: int) -> list[int]:
        """What a word counts for in each event."""
        kind, count = self.kinds.get(address), self.run.words.get(address, 0)
        return [count if event == 'Ir' or kind in EVENTS[event] else self.taken.get(address, 0) if event == 'Bct' else 0
                for event in self.events]
