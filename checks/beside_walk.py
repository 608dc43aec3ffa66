#!/usr/bin/env python3
"""Compares what `./eel counts`, `visits` and `trace` tell of whole runs with the walks of plain_count.py, which shares nothing
with the proved program.

A file FILE.input beside FILE is its input. Prints a line for each answer that differs, and how many were compared.
"""
import os
import subprocess
import sys
import tempfile

from called import EEL, built, input_of, parser_of, read_program
from plain_count import walk
from stops import COUNTS, VISITS, last_edges

WAYS = [COUNTS, VISITS, last_edges(1), last_edges(4), last_edges(16)]
LIMIT = '10000000000'


def told(eel, name, given, way, folder):
    """What the program tells of the run of an edit, up to its ending."""
    written, dump = os.path.join(folder, 'written'), os.path.join(folder, 'dump')
    subprocess.run([eel, 'edit', name, written, *way.tool], check=True)
    subprocess.run([eel, 'run', written, '-n', LIMIT, '-d', dump], input=given, capture_output=True, check=True)
    return subprocess.run([eel, way.command, written, dump], capture_output=True, check=True).stdout.decode()


def main():
    parser = parser_of(__doc__)
    parser.add_argument('--eel', metavar='PROGRAM', default=EEL, help='the program that is run, in place of ./eel')
    parser.add_argument('files', metavar='FILE', nargs='+', help='a program')
    words = parser.parse_args()
    eel, names, differ = built(words.eel), words.files, 0
    with tempfile.TemporaryDirectory() as folder:
        for name in names:
            given = input_of(name)
            counts, _, _ = walk(read_program(name), [], given, int(LIMIT))
            for way in WAYS:
                if told(eel, name, given, way, folder) != way.lines(counts):
                    differ += 1
                    print(f'{name}: {" ".join(way.tool)} differs')
    print(f'{len(names)} files, {len(WAYS)} edits of each; {differ} differ')
    return 1 if differ else 0


if __name__ == '__main__':
    sys.exit(main())
