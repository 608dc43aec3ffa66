"""Programs that crash behind a loop, as C programs do: by a null pointer, a jump to data or to no memory, or a stack that
runs out. Each ending was worked out by hand from the manual; the steps are those before it, and the one that ends the run."""
from programs import Program
from sparc import ADD, G0, G1, G2, JMPL, LD, NOP, O7, SP, ST, SUB, SUBCC, branch, call, form3, set_register

G3, ALWAYS, NOT_EQUAL, SAVE = 3, 8, 9, 0x3c

# Three rounds: ten steps.
LOOP = [form3(2, G2, ADD, G0, ('i', 3)), form3(2, G2, SUBCC, G2, ('i', 1)), branch(NOT_EQUAL, 0, -1), NOP]
# The stack's last 8 KiB or so: three steps.
LOWER = [*set_register(G1, 0xfe000), form3(2, SP, SUB, SP, ('r', G1))]
COUNT = form3(2, G3, ADD, G3, ('i', 1))


def crash(name, words, steps, ending):
    return Program(name, ' '.join(f'{word:08x}' for word in words), steps, ending)


CRASHES = [
    crash('calls_null', [*LOOP, form3(2, O7, JMPL, G0, ('i', 0)), COUNT], 13, 'trap 1'),
    crash('calls_null_in_a_routine', [*LOOP, call(3), NOP, NOP, form3(2, SP, SAVE, SP, ('i', -96)),
                                      form3(2, O7, JMPL, G0, ('i', 0)), COUNT], 16, 'trap 1'),
    crash('loads_null', [*LOOP, form3(3, G3, LD, G0, ('i', 8))], 11, 'trap 9'),
    crash('stores_null_in_a_slot', [*LOOP, branch(ALWAYS, 0, 3), form3(3, G3, ST, G0, ('i', 8)), NOP, NOP], 12, 'trap 9'),
    crash('jumps_to_data', [*LOOP, form3(2, G0, JMPL, SP, ('i', 64)), COUNT], 13, 'trap 1'),
    crash('jumps_where_no_memory_is', [*LOOP, *set_register(G1, 0x800000), form3(2, G0, JMPL, G1, ('i', 0)), COUNT], 15,
          'trap 1'),
    # From the seventh on each SAVE saves the frame of seven before. Eight fit, so that the fifteenth is refused.
    crash('runs_out_of_stack', [*LOOP, *LOWER, form3(2, SP, SAVE, SP, ('i', -1024)), branch(ALWAYS, 0, -1), NOP], 56, 'window'),
]
