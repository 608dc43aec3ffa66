"""Small programs and those of examples/c, and what must come of each.

Endings, steps and output were had apart from EEL: by hand from the manual, or from qemu-sparc. Steps of the C
programs are lines that `qemu-sparc -singlestep -d exec,nochain` prints. It prints the first instruction twice,
and each that saves or loads a window; such a pair of lines is one step.
"""
import os
import struct
from dataclasses import dataclass

RUNS = os.path.join(os.path.dirname(os.path.abspath(__file__)), '..', 'crates', 'program_runs')


@dataclass
class Program:
    name: str
    words: str  # none: one of the C programs
    steps: int
    ending: str
    given: bytes = b''
    output: bytes = b''
    errors: bytes = b''  # to descriptor 2
    before: int = 0  # how many bytes of the file lie in the segment before the words

    def file(self):
        """The file of the words at 0x10054, or the one that examples/c/build.sh made."""
        if not self.words:
            with open(os.path.join(RUNS, 'data', self.name), 'rb') as built:
                return built.read()
        text = bytes.fromhex(self.words.replace(' ', ''))
        size = self.before + len(text)
        start = 0x10054 - self.before
        identity = b'\x7fELF' + bytes([1, 2, 1]) + bytes(9)
        header = struct.pack('>HHIIIIIHHHHHH', 2, 2, 1, 0x10054, 52, 0, 0, 52, 32, 1, 0, 1, 0)
        segment = struct.pack('>8I', 1, 84 - self.before, start, start, size, size, 5, 0x10000)
        return identity + header + segment + text

    def report(self):
        """What program_runs prints of it."""
        line = f'{self.name}: {self.ending} after {self.steps} steps, stopped after {self.steps - 1} steps\n'
        output = self.output and self.output + b'\n'
        errors = self.errors and b'to the error stream: ' + self.errors + b'\n'
        return line.encode() + output + errors


# Without a transfer: each step carries out the next word.
STRAIGHT = [
    Program('three_words', '82102001 90102003 91d02010', 3, 'exit 3'),
    Program('one_nop', '01000000', 2, 'trap 1'),
    Program('load_from_zero', 'c2002000', 1, 'trap 9'),
    Program('window_overflow',
        '8610000e a0102007 9de3bfa0 9de3bfa0 9de3bfa0 9de3bfa0 9de3bfa0 9de3bfa0 '
        '9de3bfa0 82102004 90102001 92100003 94102004 91d02010 82102001 90102000 '
        '91d02010', 17, 'exit 0', output=bytes([0, 0, 0, 7])),
    Program('flushed_windows',
        '9de3bfa0 91d02003 84102009 c427a000 81e80000 90100010 82102001 91d02010', 8, 'exit 9'),
    Program('echoes',
        '82102003 90102000 9223a040 94102010 91d02010 94100008 82102004 90102001 '
        '91d02010 82102004 90102002 94102003 91d02010 82102001 91d02010', 15, 'exit 3',
        given=b'hello, world\n', output=b'hello, world\n', errors=b'hel'),
    Program('stores_and_loads',
        '05048d15 8410a278 c423bff0 d213bff2 d44bbff0 d60bbff3 d233bff4 d62bbff6 '
        'd853bff4 9002800b 82102001 91d02010', 12, 'exit 138'),
    Program('pairs_and_exchanges',
        '8410200b 86102016 c43bbff0 d41bbff0 d86bbff7 da03bff4 a0102021 e07bbff0 '
        '9004000b 9002000c 82102001 91d02010', 12, 'exit 55'),
    Program('saves_and_restores',
        '90102005 9de3bfa0 90062002 9de3bfa0 b0062003 91ee2004 91ea2008 82102001 '
        '91d02010', 9, 'exit 22'),
    Program('uses_the_heap',
        '11200004 82102011 91d02010 05200000 8610202c c620aff0 d000aff0 82102001 '
        '91d02010', 9, 'exit 44'),
    Program('multiplies_and_divides',
        '84102064 8650a04d 81800000 01000000 01000000 01000000 9070e009 925a3ffd '
        '95400000 96824008 9062e000 82102001 91d02010', 13, 'exit 82'),
    Program('divides_by_zero', '84102001 9070a000', 2, 'trap 42'),
    Program('traps_with_five', '90102002 91d02005', 2, 'trap 133'),
    Program('traps_on_carry', '84a02001 9bd02007 8bd02009', 3, 'trap 137'),
    Program('misaligned_load', '84102002 d003a002', 2, 'trap 7'),
    Program('restores_from_nowhere', '84102001 81e80000', 2, 'window'),
    Program('writes_its_text', '05000040 c420a054', 2, 'trap 9'),
    Program('runs_an_illegal_word', '84102001 00000000', 2, 'trap 2'),
    Program('runs_a_privileged_word', '84102001 87480000', 2, 'trap 3'),
    Program('overflows_a_tag', '84102001 8710a004', 2, 'trap 10'),
]

# Without a CALL or JMPL.
BRANCHING = [
    Program('taken_branch',
        '80a02000 02800004 80a02001 10800003 90102001 90102002 82102001 91d02010', 6, 'exit 2'),
    Program('annulled_branches',
        '80a02001 22800003 90022001 20800002 90022002 30800002 90022004 80a02000 '
        '22800002 90022008 82102001 91d02010', 9, 'exit 8'),
    Program('branch_over_nop', '80a02000 02800002 01000000 82102001 90102000 91d02010', 6, 'exit 0'),
    Program('carry_loop', '84102005 90422000 8480bfff 12bffffe 01000000 82102001 91d02010', 23, 'exit 4'),
    Program('transfer_in_slot', '10800002 10800002 01000000', 2, 'couple'),
]

CALLING = [
    Program('call_and_return', '40000004 01000000 82102001 91d02010 81c3e008 900be0ff', 6, 'exit 84'),
    Program('misaligned_jump', '82102002 81c06000 c223a040', 2, 'trap 7'),
    Program('inner_landings',
        '40000002 01000000 81c3e018 01000000 90022001 90022002 90022004 81c3e028 '
        '01000000 10800002 90022008 82102001 91d02010', 10, 'exit 12'),
    Program('jump_to_zero', '81c02000 01000000', 3, 'trap 1'),
    Program('exit_three_calls_deep',
        '40000002 01000000 40000002 01000000 40000002 01000000 82102001 90102000 '
        '91d02010', 9, 'exit 0'),
    Program('switch_of_four',
        '90102003 80a22003 1880000c 912a2002 03000040 82106078 c2004008 81c04000 '
        '01000000 0001008c 0001008c 0001008c 00010088 90102005 82102001 91d02010', 12, 'exit 5'),
    # Counts the lines of its input.
    Program('newline_count',
        '11200004 82102011 91d02010 a0102000 90102000 13200000 15000004 82102003 '
        '91d02010 80a22000 0280000c 13200000 d40a6000 80a2a00a 12800003 92026001 '
        'a0042001 90a22001 12bffffa 01000000 10bffff0 01000000 40000005 90100010 '
        '82102001 90102000 91d02010 9de3bf98 80a6200a 0a800007 81800000 9076200a '
        '7ffffffb a2100008 a25c600a b0260011 b0062030 f02fbfff 90102001 9207bfff '
        '94102001 82102004 91d02010 81c7e008 81e80000', 463092, 'exit 0',
        given=b'123456789012345\n' * 4096, output=b'4096'),
]

# Tables of jumps, of which one is open.
SWITCHING = [
    # Comes by registers to the word behind its comparison, and into the middle of the jump's block; so do two entries.
    Program('lands_in_a_switch',
        '90102001 80a22003 05000040 8210a070 81c04000 01000000 80a22003 1880000f '
        '01000000 03000040 972a2002 82106090 c400400b 81c08000 90022001 00010070 '
        '0001007c 000100a0 000100ac 90100009 10bffff2 92026001 82102001 91d02010', 87, 'exit 4'),
    # The last entry of the first table is the first of the second.
    Program('shares_a_table',
        '90102002 80a22003 18800018 932a2002 03000040 82106078 c2004009 81c04000 '
        '01000000 00010090 00010090 00010090 000100bc 000100b0 000100b0 80a22002 '
        '1880000a 932a2002 03000040 82106084 c2004009 81c04000 01000000 90023fff '
        '10bfffe9 01000000 82102001 91d02010', 57, 'exit 0'),
    # Loads the entry in the slot of the branch behind the comparison.
    Program('loads_before_its_jump',
        '90102001 80a22003 932a2002 03000040 82106078 18800008 c4004009 81c08000 '
        '90022001 00010058 00010058 00010058 00010088 82102001 91d02010', 27, 'exit 4'),
    # The last word is the jump, and then the branch behind the comparison.
    Program('ends_with_a_switch',
        '90102001 10800008 01000000 00010070 00010070 00010070 00010070 82102001 '
        '91d02010 80a22003 18bffffd 912a2002 03000040 82106060 c2004008 81c04000', 11, 'trap 1'),
    Program('ends_with_a_comparison',
        '90102001 1080000f 01000000 00010070 00010070 00010070 00010070 82102001 '
        '91d02010 10bffffe 01000000 03000040 82106060 c2004009 81c04000 01000000 '
        '80a22003 932a2002 08bffff9', 7, 'trap 1'),
]

# Prints the 52 bytes of its own file's header, which are in its text segment.
PRINTS_ITS_HEADER = Program('prints_its_header',
    '13000040 94102034 90102001 82102004 91d02010 90102000 82102001 91d02010', 8, 'exit 0', before=84)
PRINTS_ITS_HEADER.output = PRINTS_ITS_HEADER.file()[:52]

SMALL = STRAIGHT + BRANCHING + CALLING + SWITCHING + [PRINTS_ITS_HEADER]

# Parentheses twelve deep, a chain of nine fractions, what is no number, and a fault.
FRACTIONS = b'''1/2+1/3
2*(3-10/4)-7
((((((((((((1/2))))))))))))*6
1+1/(1+1/(1+1/(1+1/(1+1/(1+1/(1+1/(1+1/(1+1/2))))))))
100/(5-10/2)
(0-3)/9*(4/(0-8))
4x2
7-(8
'''
FRACTIONS_WORKED_OUT = b'5/6\n-6\n3\n144/89\nno number\n1/6\na fault at byte 137\n-1\n'

SAMPLES_SUMMED_UP = (b'900 2024 -55, off by 7 at most\n343b2490 c9741860\nd8726b4a 8240\n'
                     b'-2583 -2571 2589, 12817b38\n0 -141 2589, 869590c6\n0 186 -141, 3f47acd1\n')

# Ten numbers, the letters of a word, which of four texts are numbers, and a count.
DISPATCHED = (b'1010\n2006\n15030\n16024\n2179072\n8515\n9515\n1051\n2051\n3051\n'
              b'alpha bravo charlie delta 204 ? foxtrot golf ? \n1010 214\n')

C_PROGRAMS = [
    Program('word_count', '', 1472, 'exit 0', output=b'4 17 91\n',
        given=b'The windows overlap:\n\nthe ins of one\tare the outs of the next.\n'
              b'  Eight windows, 136 words.\n'),
    Program('calculator', '', 2233, 'exit 1', output=b'12\n-3\n9\n14\n\n0\n',
        given=b'3 4 * p\n2 5 - p d * p\n100 7 / p , .\nc p 8 0 / p\n'),
    Program('queens', '', 54031, 'exit 0', output=b'92 ways, 200 calls\n'),
    Program('sieve', '', 163414146, 'exit 0', output=b'664579\n'),
    Program('branches', '', 2124, 'exit 1',
        output=b'-93 -62 -53 -41 0 23 26 31 58 59 84 97\n129 111\n'),
    Program('fractions', '', 11450, 'exit 1', given=FRACTIONS, output=FRACTIONS_WORKED_OUT),
    Program('fractions_unoptimised', '', 32772, 'exit 1', given=FRACTIONS, output=FRACTIONS_WORKED_OUT),
    Program('fractions_by_clang', '', 11393, 'exit 1', given=FRACTIONS, output=FRACTIONS_WORKED_OUT),
    Program('interpreter', '', 127083, 'exit 0',
        output=b'89 -7 2 3 5 7 11 13 17 19 23 29 31 37 41 43 47 53 59 -11 \n'
               b'1 949 0 624 143 279 286 136 1 119 1 600 156 600 287 287 663 195 20\n'),
    Program('long_numbers', '', 11387, 'exit 0',
        output=b'2432902008176640000 is 20!\n'
               b'12200160415121876738 is the 93rd Fibonacci number\n'
               b'12157665459056928801 is 3 to the 40th\n'
               b'-558545864083284007 is -7 to the 21st\n'
               b'-8365308680057137561 is the least of 20 numbers\n'
               b'471899279385846262 is minus the sum of their eighths\n'
               b'8683317618811886495518194401280000000 is 33!\n'),
    Program('samples', '', 55300, 'exit 99', output=SAMPLES_SUMMED_UP),
    Program('dispatch', '', 3515, 'exit 86', output=DISPATCHED),
    Program('dispatch_at_o1', '', 4037, 'exit 86', output=DISPATCHED),
    Program('samples_unoptimised', '', 160122, 'exit 99', output=SAMPLES_SUMMED_UP),
]
