#!/usr/bin/env python3
"""Writes to crates/program_runs the small programs, all inputs, scripts, its arguments, and what it must print. With
--check it writes nothing, and tells which of these files stands there otherwise; then the status is 1."""
import os
import sys

import listings
import sessions
import stops
import tables
from called import TOP, parser_of, read_file
from programs import C_PROGRAMS, RUNS, SMALL


def contents():
    """The name of each file with what it has."""
    programs = SMALL + C_PROGRAMS
    for program in programs:
        if program.words:
            yield f'data/{program.name}', program.file()
        if program.given:
            yield f'data/{program.name}.input', program.given
    yield 'data/three_words_cut', SMALL[0].file()[:95]
    for name, file in [*listings.files(), *sessions.files()]:
        yield f'data/{name}', file
    shown = listings.printed()
    played = sessions.printed()
    names = [program.name for program in programs] + ['show', *shown, 'session', *played, 'stops', *stops.KNOWN, 'faults']
    yield 'args', ''.join(f'{name}\n' for name in names).encode()
    yield 'stdout', b''.join([program.report() for program in programs] + [*shown.values(), *played.values(), *stops.printed(),
                                                                          tables.fault_texts()])


def stands(name, content):
    """Whether a file has this content, said where it hasn't."""
    path = os.path.join(RUNS, name)
    is_same = os.path.exists(path) and read_file(path) == content
    if not is_same:
        print(f'{os.path.relpath(path, TOP)}: the models write another one')
    return is_same


def main():
    parser = parser_of(__doc__)
    parser.add_argument('--check', action='store_true', help='write nothing')
    if parser.parse_args().check:
        return not all([stands(name, content) for name, content in contents()])
    for name, content in contents():
        with open(os.path.join(RUNS, name), 'wb') as file:
            file.write(content)
    return 0


if __name__ == '__main__':
    sys.exit(main())
