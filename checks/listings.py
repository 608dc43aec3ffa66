"""Files that crates/program_runs shows, and what it must print of them: the lines of listing.py, which shares nothing
with EEL.
"""
import struct

from listing import listing
from programs import SMALL, SWITCHING, C_PROGRAMS, Program

WORDS = {
    # Branches out of the text at both ends, and a CALL to before it.
    'leaves_at_both_ends': '02bfffff 01000000 12800005 01000000 7ffffffa 01000000 01000000',
    # bn, bn,a, ba,a and a branch that is annulled.
    'never_and_always': '00800002 01000000 20800002 01000000 30800003 01000000 01000000 22bffffa 01000000',
    # The last word is a transfer, and its slot lies behind the text.
    'ends_with_a_jump': '01000000 81c3e008',
    'ends_with_a_branch': '01000000 12bfffff',
    # A branch to the slot of another, and a transfer in a slot.
    'leads_to_a_slot': '02800003 01000000 12800003 12bffffe 01000000 01000000',
    # Words that are no instructions.
    'data_words': '00000000 01000000 c1f00000 12800002 ffffffff',
}

# Symbols: name, value, st_info. The last of them is cut off.
SYMBOLS = [
    (1, 0x10054, 0x11),  # an object
    (1, 0x1005c, 0x12),
    (6, 0x1005c, 0x02),  # the second at its address
    (6, 0x10055, 0x12),  # no word of the text
    (6, 0x10050, 0x12),  # before it
    (6, 0x10060, 0x12),  # behind it
    (12, 0x10058, 0x12),  # a space, a tilde, and bytes outside 21 to 7e
    (999, 0x10054, 0x12),  # no place of the string table
]
STRINGS = b'\0main\0again\0a b~\x7f\xff!\0' + b'long' * 75


def with_symbols(strings=STRINGS, symbols=SYMBOLS, entry_size=40):
    """three_words with a section table behind it: symbols, and then their names."""
    file = bytearray(SMALL[0].file())
    table = b''.join(struct.pack('>IIIBBH', name, value, 0, info, 0, 1) for name, value, info in symbols) + bytes(7)
    places = [len(file), len(file) + len(table)]
    sections = [(0,) * 10,
                (0, 2, 0, 0, places[0], len(table), 2, 0, 4, 16),
                (0, 3, 0, 0, places[1], len(strings), 0, 0, 1, 0)]
    file[32:36] = struct.pack('>I', places[1] + len(strings))
    file[46:50] = struct.pack('>2H', entry_size, len(sections))
    return bytes(file) + table + strings + b''.join(struct.pack('>10I', *section) for section in sections)


def files():
    """The files by their names."""
    known = {program.name: program for program in SMALL + C_PROGRAMS}
    switching = [program.name for program in SWITCHING]
    for name in ['call_and_return', 'inner_landings', 'transfer_in_slot', 'switch_of_four', *switching, 'queens', 'calculator',
                 'dispatch', 'dispatch_at_o1']:
        yield name, known[name].file()
    for name, words in WORDS.items():
        yield name, Program(name, words, 0, '').file()
    yield 'named', with_symbols()
    yield 'long_name', with_symbols(symbols=[(20, 0x10054, 0x12)])
    yield 'table_cut_off', with_symbols()[:-1]
    yield 'table_of_other_entries', with_symbols(entry_size=44)


# What is printed of files that can't be shown.
REFUSED = {'three_words_cut': b'file fault 11\n', 'missing': b"can't be read\n"}


def printed():
    """What is printed of each file, by its name."""
    shown = {name: listing(file).encode() for name, file in files()}
    return {name: name.encode() + b':\n' + lines for name, lines in (shown | REFUSED).items()}
