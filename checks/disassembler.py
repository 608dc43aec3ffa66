"""The text of each instruction word, after appendices A and F of The SPARC Architecture Manual, Version 8: one spelling for
each word, as `eel list` has it. It shares nothing with EEL; the sessions under the gate are compared with it."""

from sparc import TICC, Word

CONDITIONS = ['n', 'e', 'le', 'l', 'leu', 'cs', 'neg', 'vs', 'a', 'ne', 'g', 'ge', 'gu', 'cc', 'pos', 'vc']

# Tables F-3 and F-4, by op3.
ARITHMETIC = {0x00: 'add', 0x01: 'and', 0x02: 'or', 0x03: 'xor', 0x04: 'sub', 0x05: 'andn', 0x06: 'orn', 0x07: 'xnor',
    0x08: 'addx', 0x0a: 'umul', 0x0b: 'smul', 0x0c: 'subx', 0x0e: 'udiv', 0x0f: 'sdiv'}
ARITHMETIC |= {0x10 + op3: name + 'cc' for op3, name in ARITHMETIC.items()}
ARITHMETIC |= {0x20: 'taddcc', 0x21: 'tsubcc', 0x22: 'taddcctv', 0x23: 'tsubcctv', 0x24: 'mulscc', 0x25: 'sll', 0x26: 'srl',
    0x27: 'sra', 0x38: 'jmpl', 0x3c: 'save', 0x3d: 'restore'}
LOADS = {0x00: 'ld', 0x01: 'ldub', 0x02: 'lduh', 0x03: 'ldd', 0x09: 'ldsb', 0x0a: 'ldsh', 0x0d: 'ldstub', 0x0f: 'swap'}
STORES = {0x04: 'st', 0x05: 'stb', 0x06: 'sth', 0x07: 'std'}
DOUBLES = {0x03, 0x07}
STBAR = 0x8143c000


def register(number):
    return f'%{"goli"[number // 8]}{number % 8}'


def target(displacement, at):
    return f'0x{(at + 4 * displacement) % 2**32:08x}'


def sources(word):
    """The two operands of format 3, or None where a bit is set that a register operand ignores."""
    if word.simm13 is not None:
        return f'{register(word.rs1)},{word.simm13}'
    return None if word.unused else f'{register(word.rs1)},{register(word.rs2)}'


def of_format_2(word, at):
    if word.op2 == 2:
        return f'b{CONDITIONS[word.cond]}{",a" * word.annul} {target(word.disp22, at)}'
    return f'sethi {word.imm22},{register(word.rd)}' if word.op2 == 4 else None


def arithmetic(word, value):
    both, rd = sources(word), register(word.rd)
    if value == STBAR:
        return 'stbar'
    if word.op3 == 0x28 and word.rs1 == 0 and value & 0x3fff == 0:
        return f'rd %y,{rd}'
    if both is None:
        return None
    if word.op3 in ARITHMETIC:
        return f'{ARITHMETIC[word.op3]} {both},{rd}'
    if word.op3 == 0x30 and word.rd == 0:
        return f'wr {both},%y'
    if word.op3 == TICC and not word.annul:
        return f't{CONDITIONS[word.cond]} {both}'
    if word.op3 == 0x3b and word.rd == 0:
        return f'flush {both}'
    return None


def memory(word):
    both, rd = sources(word), register(word.rd)
    if both is None or (word.op3 in DOUBLES and word.rd % 2):
        return None
    if word.op3 in LOADS:
        return f'{LOADS[word.op3]} [{both}],{rd}'
    return f'{STORES[word.op3]} {rd},[{both}]' if word.op3 in STORES else None


def text(value, at):
    """The text of the word at an address: a word that is no instruction, or has an ignored bit set, is a number."""
    word = Word(value)
    by_op = [lambda: of_format_2(word, at), lambda: f'call {target(word.disp30, at)}', lambda: arithmetic(word, value),
             lambda: memory(word)]
    return by_op[word.op]() or f'.word 0x{value:08x}'


def listing(start, words):
    """A line for each word: its address, and its text."""
    return ''.join(f'{start + 4 * number:08x} {text(word, start + 4 * number)}\n' for number, word in enumerate(words))
