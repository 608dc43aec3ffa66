#!/usr/bin/env python3
"""Writes a program with a large text, by which edits are measured: it is made to be edited, not to do anything.

`random` is code of all kinds: a seventh of its words are branches, nine of ten of these to within 1,000 words and the
others to anywhere; a twentieth are CALLs to anywhere, a fortieth JMPLs, and the rest sums, loads and stores. Of
`branches` each word is a branch on a condition to anywhere, so that each is a block with two edges. Of the same words
the file is the same each time.
"""
import random

from beside_qemu import access, arithmetic, operand
from called import parser_of, refuse
from programs import Program
from sparc import JMPL, branch, form3


def anywhere(at, words):
    return random.randrange(words) - at


def conditional(at, words, near):
    """A branch on one of the fourteen conditions, annulled or not, to within `near` words where it can be."""
    low, high = max(0, at - near), min(words, at + near)
    return branch(random.choice([*range(1, 8), *range(9, 16)]), random.randrange(2), random.randrange(low, high) - at)


def word(at, words):
    kind = random.randrange(280)
    if kind < 40:
        return conditional(at, words, words if kind < 4 else 1000)
    if kind < 54:
        return 1 << 30 | anywhere(at, words) & 0x3fffffff
    if kind < 61:
        return form3(2, random.choice([0, 15]), JMPL, random.randrange(32), operand())
    return random.choice([arithmetic, access])()[0]


def main():
    parser = parser_of(__doc__)
    parser.add_argument('kind', choices=['random', 'branches'])
    parser.add_argument('words', type=int, help='how many: 1 to 1048576')
    parser.add_argument('file')
    told = parser.parse_args()
    if not 1 <= told.words <= 1 << 20:
        parser.error('a text has 1 to 1048576 words')
    random.seed(told.words)
    one = word if told.kind == 'random' else lambda at, words: conditional(at, words, words)
    text = [one(at, told.words) for at in range(told.words)]
    program = Program(told.file, ''.join(f'{value:08x}' for value in text), 0, '')
    try:
        with open(told.file, 'wb') as out:
            out.write(program.file())
    except OSError as error:
        refuse(f'{told.file}: {error.strerror}')


if __name__ == '__main__':
    main()
