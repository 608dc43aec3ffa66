#!/usr/bin/env python3
"""Compares `eel list` of each file with `objdump -d` of the binutils for SPARC, word by word, and says where they differ.

Both say the same of a word in other spellings. `eel list` has one name for each instruction; objdump has names of its own for
some with certain operands, writes sums and registers otherwise, and names no stack and frame pointers by number. `spelled`
turns the one into the other. Words that are no instruction of a program without floating point are numbers in `eel list`;
what objdump says of them isn't looked at.
"""
import re
import subprocess
import sys

from called import EEL, built, needs, parser_of, read_program
OBJDUMP = 'sparc64-linux-gnu-objdump'

# Names that objdump has for `ba`, for stores of a register that is 0, and for sums and differences with 1.
BRANCHES = {'ba': 'b'}
CLEARED = {'st': 'clr', 'stb': 'clrb', 'sth': 'clrh'}
BY_ONE = {'add': 'inc', 'sub': 'dec', 'addcc': 'inccc', 'subcc': 'deccc'}
ZERO = ('%g0', '0')


def operand(word):
    """A register as objdump names it, or a number in hexadecimal digits."""
    if word.startswith('%'):
        return {'%o6': '%sp', '%i6': '%fp'}.get(word, word)
    return number(int(word))


def number(value):
    return str(value) if -10 < value < 10 else f'{value:#x}' if value > 0 else str(value)


def total(first, second):
    """A sum, as an address is written."""
    if second in ZERO:
        return operand(first)
    if first == '%g0' and not second.startswith('%'):
        return operand(second)
    return f'{operand(first)} + {operand(second)}'


def arithmetic(name, first, second, result):
    """An operation on two operands with a result."""
    if name == 'or' and first == '%g0':
        return f'clr {operand(result)}' if second == '0' else f'mov {operand(second)}, {operand(result)}'
    if name == 'or' and second in ZERO:
        return f'mov {operand(first)}, {operand(result)}'
    if name == 'subcc' and result == '%g0':
        return f'cmp {operand(first)}, {operand(second)}'
    if name == 'orcc' and result == '%g0' and '%g0' in (first, second):
        return f'tst {operand(second if first == "%g0" else first)}'
    if name == 'andcc' and result == '%g0':
        first, second = (first, second) if second.startswith('%') else (second, first)
        return f'btst {operand(first)}, {operand(second)}'
    if name == 'sub' and first == '%g0' and second.startswith('%'):
        return f'neg {operand(second)}' if second == result else f'neg {operand(second)}, {operand(result)}'
    if name == 'xnor' and second == '0':
        return f'not {operand(first)}' if first == result else f'not {operand(first)}, {operand(result)}'
    if name in BY_ONE and first == result and second == '1':
        return f'{BY_ONE[name]} {operand(result)}'
    if name in ('save', 'restore') and (first, second, result) == ('%g0', '%g0', '%g0'):
        return name
    return f'{name} {operand(first)}, {operand(second)}, {operand(result)}'


def jump(first, second, result):
    if result == '%g0' and second == '8' and first in ('%i7', '%o7'):
        return 'ret' if first == '%i7' else 'retl'
    names = {'%g0': 'jmp', '%o7': 'call'}
    to = total(first, second)
    return f'{names[result]} {to}' if result in names else f'jmpl {to}, {operand(result)}'


def spelled(text):
    """The text of a word as objdump has it."""
    name, _, rest = text.partition(' ')
    if name == '.word':
        return None
    if name == 'sethi':
        imm22, result = rest.split(',')
        return 'nop' if rest == '0,%g0' else f'sethi %hi({int(imm22) << 10:#x}), {operand(result)}' if int(imm22) else \
            f'sethi %hi(0), {operand(result)}'
    if rest.startswith('0x'):
        short, annul, _ = name.partition(',a')
        return f'{BRANCHES.get(short, short)}{annul} {int(rest, 16):x}'
    if '[' in rest:
        return memory(name, rest)
    words = rest.split(',')
    if name == 'jmpl':
        return jump(*words)
    if name == 'rd':
        return f'rd %y, {operand(words[1])}'
    if name == 'wr':
        some = [operand(word) for word in words[:2] if word not in ZERO] or ['%g0']
        return ', '.join([f'wr {some[0]}', *some[1:], '%y'])
    if len(words) == 3:
        return arithmetic(name, *words)
    if len(words) == 2:
        return f'{name} {total(*words)}'
    return text


def memory(name, rest):
    inside = total(*re.search(r'\[(.*)\]', rest)[1].split(','))
    register = rest.split(',')[-1] if rest.startswith('[') else rest.split(',')[0]
    if rest.startswith('['):
        return f'{name} [ {inside} ], {operand(register)}'
    if register == '%g0' and name in CLEARED:
        return f'{CLEARED[name]} [ {inside} ]'
    return f'{name} {operand(register)}, [ {inside} ]'


def dumped(file):
    """What objdump says of each word, by its address; without comments, names of places and needless spaces."""
    lines = subprocess.run([OBJDUMP, '-d', '-z', file], capture_output=True, check=True, text=True).stdout.splitlines()
    for line in lines:
        found = re.match(r'\s*([0-9a-f]+):\t(?:[0-9a-f]{2} ){4}\t(.*)', line)
        if found:
            text = re.sub(r'\s*!.*| <.*>', '', found[2])
            yield int(found[1], 16), re.sub(r'\s+', ' ', text).strip()


def compare(name, lines):
    """How many words differ, and how many were compared."""
    texts = {int(line[:8], 16): line[9:] for line in lines}
    differ = compared = 0
    for address, theirs in dumped(name):
        ours = spelled(texts.get(address, '.word'))
        if ours is None:
            continue
        compared += 1
        if ours != theirs:
            differ += 1
            print(f'{name}: {address:08x} {texts[address]}: {ours}, and by objdump {theirs}')
    return differ, compared


def main():
    parser = parser_of(__doc__)
    parser.add_argument('files', metavar='FILE', nargs='+', help='a program')
    names = parser.parse_args().files
    needs('sparc64-linux-gnu-objdump')
    all_differ = all_compared = 0
    for name in names:
        read_program(name)
        listed = subprocess.run([built(EEL), 'list', name], capture_output=True, check=True, text=True).stdout.splitlines()
        differ, compared = compare(name, listed)
        all_differ, all_compared = all_differ + differ, all_compared + compared
    print(f'{all_differ} of {all_compared} words differ')
    return 1 if all_differ else 0


if __name__ == '__main__':
    sys.exit(main())
