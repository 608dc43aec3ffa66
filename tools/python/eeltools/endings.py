"""How a run ended and where it stands, by the dump of an edited file's run; and what traps are."""
from __future__ import annotations

import array
import bisect
import re
import struct
import sys
from collections import Counter
from dataclasses import dataclass

from .runs import Run
from .shown import Shown, is_call, is_return

# What each trap is, and its usual cause.
TRAPS = {
    1: ('no instruction there', 'a jump to what is no code: through a null pointer or an overwritten return address, or '
                                'past the end'),
    2: ('illegal instruction', 'one of V9, an `unimp`, or data that is run as code'),
    3: ('privileged instruction', 'code of a kernel'),
    4: ('floating point', 'the machine has none: compile all with -msoft-float'),
    7: ('misaligned address', 'a pointer that is none, or one that was cast to a wider type'),
    9: ('no memory there', 'a null or wild pointer, a write to a constant, or a stack of more than 1 MiB'),
    10: ('tag overflow', 'a `taddcctv` or `tsubcctv`'),
    36: ('coprocessor', 'the machine has none'),
    42: ('division by zero', 'a divisor of 0'),
    133: ('software trap 5', 'the compiler\'s trap: what must not be reached, `__builtin_trap`'),
}
ENDINGS = ['stopped', 'exit', 'trap', 'window', 'couple']
ENDING_LINE = re.compile(rb'(?:(?:exit|trap|stopped) \d+|window|couple)\n\Z')


def trap_name(number: int) -> str:
    if number in TRAPS:
        return TRAPS[number][0]
    return f'software trap {number - 128}' if number >= 128 else 'no trap of this machine'


def trap_cause(number: int) -> str:
    return TRAPS[number][1] if number in TRAPS else 'a `ta` with this number' if number >= 128 else ''


@dataclass
class Ending:
    """How a run ended, if it did, at which pc, and after how many steps."""
    kind: str
    number: int
    pc: int
    steps: int
    was_interrupted: bool = False

    def explained(self) -> str | None:
        """What the ending means, or nothing of an exit."""
        return {'trap': f'{trap_name(self.number)}: {trap_cause(self.number)}'.rstrip(': '),
                'window': 'a register window could not be saved or loaded: %sp or %fp points to no stack',
                'couple': 'a branch, a call or a jump stands in the delay slot of another',
                'stopped': 'interrupted: these are its first steps' if self.was_interrupted else
                           'the limit of steps was reached: -n says more'}.get(self.kind)


def said_before_end(errors: bytes) -> bytes:
    """What a program wrote to its error stream, before the line by which `eel run` tells its ending."""
    return ENDING_LINE.sub(b'', errors)


def ending_of(dump: bytes, was_interrupted: bool = False) -> Ending:
    """The ending that the bytes of a dump tell."""
    _, _, kind, number, pc, steps = struct.unpack_from('>5IQ', dump)
    return Ending(ENDINGS[kind], number, pc, steps, was_interrupted)


def place_of(written: bytes, pc: int) -> int | None:
    """The address of the original's instruction at which a run of the written file stands: itself where it is in none of
    the editor's segments, and None between two places."""
    at, size = struct.unpack_from('>2I', written, 4040)
    notes = array.array('I', written[at:at + size - size % 4])
    if sys.byteorder == 'little':
        notes.byteswap()
    behind = 9 + 2 * notes[8]
    segments = notes[9:behind]
    behind += 1 + notes[behind]
    behind += 1 + 4 * notes[behind]
    rows = notes[behind + 1:behind + 1 + 4 * notes[behind]]
    found = bisect.bisect(rows[::4], pc) - 1
    if found >= 0 and pc < rows[4 * found + 1]:
        return rows[4 * found + 2]
    if any(start <= pc < start + length for start, length in zip(segments[::2], segments[1::2])):
        return None
    return pc


def stray_jump(shown: Shown, run: Run) -> int | None:
    """The call or jump through a register from which a run came to no instruction, or None where its counts don't tell
    that: all returns must have arrived. Of two calls that didn't come back it is the one that was entered by the other."""
    calls, jumps, arrived = Counter(), Counter(), Counter()
    for jump, count in run.jumps():
        word = shown.word(jump)
        (calls if is_call(word) else arrived if is_return(word) else jumps)[jump if not is_return(word) else 'returns'] += count
    for target, count in run.landings():
        call = shown.call_before(target)
        if call is None:
            arrived['at a label' if shown.entered_at(target) is None else 'at a routine'] += count
        else:
            arrived['returns'] -= count
            calls[call] -= count
    left = [call for call, count in calls.items() if count > 0]
    if arrived['returns'] or any(calls[call] > 1 for call in left):
        return None
    if jumps.total() != arrived['at a label']:
        return next(iter(jumps)) if len(jumps) == 1 and not left else None
    if len(left) == 2:
        first = entered_first(shown, run)
        left = [call for call in left if shown.routine_of(call) not in first]
    return left[0] if len(left) == 1 else None


def entered_first(shown: Shown, run: Run) -> set[int]:
    """The routines that a run is still in, from the first one on up to a call through a register."""
    back, left = Counter(), {}
    for target, count in run.landings():
        back[shown.call_before(target)] += count
    for edge in shown.edges:
        if edge.kind == 'call' and run.edge(edge) > back[call := shown.blocks[edge.source].last()]:
            left[shown.routine_of(call)] = edge.target
    found, routine = set(), shown.routine_of(shown.entry)
    while routine is not None and routine not in found:
        found.add(routine)
        routine = left.get(routine)
    return found
