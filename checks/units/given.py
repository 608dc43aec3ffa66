"""What the tests stand on: programs as the models of checks/ show and run them, so that no `eel` is called."""
import os
import struct
import sys
import tempfile
from unittest import mock

CHECKS = os.path.dirname(os.path.dirname(os.path.abspath(__file__)))
TOP = os.path.dirname(CHECKS)
DATA = os.path.join(TOP, 'crates', 'program_runs', 'data')
sys.path[:0] = [os.path.join(TOP, 'tools', 'python'), CHECKS]

import disassembler
import listing
import plain_count
from eeltools import runs, shown


def by_models(command, name):
    """The lines of `eel show` and `eel list`, by the models."""
    with open(name, 'rb') as opened:
        file = opened.read()
    if command == 'show':
        return listing.listing(file).splitlines()
    program = listing.Program(file)
    return disassembler.listing(program.start, program.words).splitlines()


shown.eel = by_models


class EachWord(listing.Graph):
    """The graph of a program whose words are all leaders, as `eel edit` has it for `every`."""

    def leaders(self):
        return range(self.count)


def program(words, start=0x10054, symbols=()):
    """An executable whose text these words are, entered at its first one; symbols are pairs of a name and an address."""
    text = struct.pack(f'>{len(words)}I', *words)
    names = b'\0' + b''.join(name.encode() + b'\0' for name, _ in symbols)
    table = bytes(16) + b''.join(struct.pack('>3I2BH', names.index(name.encode() + b'\0'), address, 0, 2, 0, 1)
                                 for name, address in symbols)
    behind = 84 + len(text)
    sections = [(0,) * 10, (0, 2, 0, 0, behind, len(table), 2, 0, 4, 16), (0, 3, 0, 0, behind + len(table), len(names), 0, 0, 1, 0)]
    at = behind + len(table) + len(names) if symbols else 0
    header = b'\x7fELF\1\2\1' + bytes(9) + struct.pack('>2H5I6H', 2, 2, 1, start, 52, at, 0, 52, 32, 1, 40, 3 if symbols else 0, 0)
    segment = struct.pack('>8I', 1, 84, start, start, len(text), len(text), 5, 4)
    end = b''.join([table, names, *(struct.pack('>10I', *row) for row in sections)]) if symbols else b''
    return header + segment + text + end


def written(content, name=None):
    """The name of a file with this content, another one each time, which stays until the tests end; or this name."""
    with open(name, 'wb') if name else tempfile.NamedTemporaryFile(dir=FOLDER.name, delete=False) as made:
        made.write(content.encode() if isinstance(content, str) else content)
    return made.name


def run_in(own, given=b'', counted='every', limit=10 ** 6, name=None):
    """The run of a program: its visits with the ways from word to word, its visits alone, or the counts of its edges; and
    how many steps it made. A file may be named to which they go."""
    counts, _, steps = plain_count.walk(own.file, [], given, limit)
    lines = counts.lines() if counted == 'edges' else counts.visit_lines()
    if counted == 'every':
        with mock.patch('plain_count.Graph', EachWord):
            lines += plain_count.walk(own.file, [], given, limit)[0].lines()
    return runs.run_of(own, written(lines, name)), steps


FOLDER = tempfile.TemporaryDirectory(prefix='eel-units-')
