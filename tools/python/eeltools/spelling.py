"""The text of instructions as assemblers write it: `cmp`, `mov`, `ret` and the like in place of their long spelling."""
from __future__ import annotations

import re
from collections.abc import Callable

NAMES = {'%o6': '%sp', '%i6': '%fp'}
BRANCH = re.compile(r'b[a-z]*(,a)? 0x')
OPERANDS = re.compile(r'\[[^]]*\]|[^,]+')
NO_REGISTER = ('%g0', '0')


def address(first: str, second: str) -> str:
    """The sum of two operands."""
    if second in NO_REGISTER:
        return first
    if first == '%g0':
        return second
    return f'{first}{"" if second.startswith("-") else "+"}{second}'


def operand(text: str) -> str:
    """One operand: a register by its usual name, or an address as a sum."""
    if text.startswith('['):
        return f'[{address(*map(operand, text[1:-1].split(",")))}]'
    return NAMES.get(text, text)


def jump(first: str, second: str, link: str) -> str:
    if link == '%g0' and second == '8' and first in ('%i7', '%o7'):
        return 'ret' if first == '%i7' else 'retl'
    name = {'%g0': 'jmp', '%o7': 'call'}.get(link)
    return f'{name} {address(first, second)}' if name else f'jmpl {address(first, second)},{link}'


def short(name: str, words: list[str]) -> str | None:
    """The short spelling of an instruction that has one, or None."""
    match name, words:
        case 'sethi', ['0', '%g0']:
            return 'nop'
        case 'sethi', [number, register]:
            return f'sethi %hi({int(number) << 10:#x}),{register}'
        case 'or', ['%g0', value, register]:
            return f'mov {value},{register}'
        case 'subcc', [first, second, '%g0']:
            return f'cmp {first},{second}'
        case 'orcc', ['%g0', value, '%g0'] | [value, '%g0', '%g0']:
            return f'tst {value}'
        case 'jmpl', [first, second, link]:
            return jump(first, second, link)
        case 'restore', ['%g0', '%g0', '%g0']:
            return 'restore'
        case 'st' | 'stb' | 'sth', ['%g0', place]:
            return f'clr{name[2:]} {place}'
        case ('ta', ['%g0', number]) if not number.startswith('%'):
            return f'ta {number}'
    return None


def spelled(text: str, name_of: Callable[[int], str | None]) -> str:
    """The usual spelling of an instruction that `eel list` prints; `name_of` answers a routine's name at an address."""
    name, _, rest = text.partition(' ')
    if name == 'call' or BRANCH.match(text):
        named = name_of(int(rest, 16))
        return f'{"b" + name[2:] if name in ("ba", "ba,a") else name} {named or rest}'
    words = [operand(word) for word in OPERANDS.findall(rest)]
    return short(name, words) or f'{name} {",".join(words)}'.rstrip()


LONG_NAMES = {short: long for long, short in NAMES.items()}


def long_operand(text: str) -> str:
    """One operand as `eel list` writes it: an address has two parts."""
    text = text.strip()
    if text.startswith('['):
        return f'[{",".join(parts(text[1:-1]))}]'
    if found := re.fullmatch(r'%(hi|lo)\((0x[0-9a-f]+|\d+)\)', text):
        number = int(found[2], 0)
        return str(number >> 10 if found[1] == 'hi' else number & 1023)
    return LONG_NAMES.get(text, text)


def parts(text: str) -> list[str]:
    """The two operands of a sum, the second %g0 where there is one alone."""
    found = re.fullmatch(r'(%\w+)(?:([+-])(.+))?|([^%+]+)', text.replace(' ', ''))
    if not found:
        return [text, '%g0']
    first, sign, second, alone = found.groups()
    if alone is not None:
        return ['%g0', str(int(alone, 0)) if is_number(alone) else alone]
    second = '%g0' if second is None else long_operand(second)
    return [LONG_NAMES.get(first, first), f'-{second}' if sign == '-' else second]


def is_number(text: str) -> bool:
    return re.fullmatch(r'-?(0x[0-9a-fA-F]+|\d+)', text) is not None


def long_text(text: str, address_of: Callable[[str], int | None]) -> str:
    """An instruction in the spelling of `eel list`, from that or from the usual one; `address_of` answers the address of
    a routine's name, or None."""
    name, _, rest = text.strip().partition(' ')
    rest = rest.strip()
    base = name.split(',')[0]
    if base == 'b':
        name = f'ba{name[1:]}'
    if name == 'call' and rest.startswith('%'):
        return f'jmpl {",".join(parts(rest))},%o7'
    if name == 'call' or base == 'b' or re.fullmatch('b[a-z]+', base) and not rest.startswith('%'):
        target = address_of(rest)
        return f'{name} {f"0x{target:08x}" if target is not None else rest}'
    words = [long_operand(word) for word in OPERANDS.findall(rest)]
    match name, words:
        case 'nop', []:
            return 'sethi 0,%g0'
        case 'mov', [value, register]:
            return f'or %g0,{value},{register}'
        case 'cmp', [first, second]:
            return f'subcc {first},{second},%g0'
        case 'tst', [value]:
            return f'orcc %g0,{value},%g0'
        case 'ret' | 'retl', []:
            return f'jmpl {"%i7" if name == "ret" else "%o7"},8,%g0'
        case 'jmp', [_]:
            return f'jmpl {",".join(parts(rest))},%g0'
        case 'jmpl', [_, link]:
            return f'jmpl {",".join(parts(rest.rpartition(",")[0]))},{link}'
        case 'restore', []:
            return 'restore %g0,%g0,%g0'
        case 'clr' | 'clrb' | 'clrh', [place]:
            return f'st{name[3:]} %g0,{place}'
        case 'ta', [number]:
            return f'ta %g0,{number}'
    return f'{name} {",".join(words)}'.rstrip()
