#!/usr/bin/env python3
"""Runs the programs that build.sh made by `eel run`, beside this machine's builds of them, and says what edits cost.

    examples/real/measure.py OUT [--small]

OUT is the folder of build.sh. First the programs' outputs are compared: the tests of bzip2's own Makefile, and lua with
a script on the standard input and as an argument. Then some runs are edited with each tool. Each line of the table has
the steps of such a run, how many they are for each of the original's, and its seconds of processor time; the seconds
and the megabytes of memory that `edit` takes, and the megabytes of the file that it writes; and the seconds of
`visits`, `counts` or `trace`. `profile, seen` goes by what the profile of this run counted, `profile, other` by that of
a run with another input. With --small the runs are short. The status is 1 where an output differs.
"""
import argparse
import os
import struct
import subprocess
import sys
import tempfile
from dataclasses import dataclass

HERE = os.path.dirname(os.path.abspath(__file__))
EEL = os.path.join(HERE, '..', '..', 'eel')
LIMIT = str(10**12)


@dataclass
class Case:
    """A run of a program: its arguments and its input."""
    name: str
    program: str
    words: list
    given: bytes


@dataclass
class Called:
    output: bytes
    errors: bytes
    status: int
    seconds: float
    megabytes: float


def read(*parts):
    with open(os.path.join(*parts), 'rb') as opened:
        return opened.read()


def call(file, *words, given=b''):
    """Calls a program by the name that it has in `eel run`, and answers what it printed, and what it took."""
    with tempfile.TemporaryFile() as source, tempfile.TemporaryFile() as out, tempfile.TemporaryFile() as errors:
        source.write(given)
        source.seek(0)
        process = subprocess.Popen(['program', *words], executable=file, stdin=source, stdout=out, stderr=errors)
        _, status, used = os.wait4(process.pid, 0)
        process.returncode = os.waitstatus_to_exitcode(status)
        out.seek(0)
        errors.seek(0)
        seconds, megabytes = used.ru_utime + used.ru_stime, used.ru_maxrss / 1024
        return Called(out.read(), errors.read(), process.returncode, seconds, megabytes)


def eel(*words, given=b''):
    called = call(EEL, *words, given=given)
    if called.status and words[0] != 'run':
        sys.exit(f'measure.py: eel {" ".join(words)}: {called.errors.decode().strip()}')
    return called


def run(case, file, *options):
    return eel('run', file, '-n', LIMIT, *options, '--', *case.words, given=case.given)


def on_this_machine(folder, case):
    return call(os.path.join(folder, f'{case.program}.host'), *case.words, given=case.given)


def agrees(ours, host):
    """The same output, and the status of this machine's build in the ending line."""
    return ours.output == host.output and ours.errors == host.errors + b'exit %d\n' % host.status


def cases(folder):
    """Short runs: the tests of bzip2, and some scripts."""
    samples = os.path.join(folder, 'src', 'bzip2')
    for number in '123':
        for option, name in ((f'-{number}', f'sample{number}.ref'), ('-d', f'sample{number}.bz2')):
            yield Case(f'bzip2 {option} <{name}', 'bzip2', [option], read(samples, name))
    yield Case('bzip2 -dv of what it isn\'t', 'bzip2', ['-dv'], b'no such thing')
    yield Case('lua - 1 <sample.lua', 'lua', ['-', '1'], read(HERE, 'sample.lua'))
    yield Case('lua -e ..', 'lua', ['-e', 'for i = 1, 3 do print(i, 2 ^ (i / 2)) end'], b'')
    yield Case('lua - <..', 'lua', ['-'], b'local t = {}\nt.x.y = 1\n')


def measured(folder, small):
    """Runs that are edited, each with a shorter one of the same program."""
    samples = os.path.join(folder, 'src', 'bzip2')
    text = read(samples, 'sample1.ref' if small else 'manual.ps')
    other = read(samples, 'sample2.ref')
    packed = [call(os.path.join(folder, 'bzip2.host'), given=given).output for given in (text, other)]
    script = read(HERE, 'sample.lua')
    yield Case('bzip2', 'bzip2', [], text), Case('', 'bzip2', [], other)
    yield Case('bzip2 -d', 'bzip2', ['-d'], packed[0]), Case('', 'bzip2', ['-d'], packed[1])
    yield Case('lua', 'lua', ['-', '1' if small else '12'], script), Case('', 'lua', ['-', '2'], script)


def steps(dump):
    return struct.unpack_from('>Q', read(dump), 20)[0]


@dataclass
class Row:
    """What an edit cost, what its run did, and what was told of it."""
    tool: str
    steps: int
    edited: Called
    megabytes: float
    ran: Called
    told: Called

    def line(self, case, own):
        told = f'{self.told.seconds:.2f}' if self.told else ''
        return (f'| {case.name} | {self.tool} | {self.steps:,} | {self.steps / own:.2f} | {self.ran.seconds:.2f} '
                f'| {self.edited.seconds:.2f} | {self.edited.megabytes:.0f} | {self.megabytes:.1f} | {told} |')


class Measure:
    """The edits of a program for one of its runs."""

    def __init__(self, folder, case, other, scratch):
        self.case, self.other, self.scratch = case, other, scratch
        self.original = os.path.join(folder, f'{case.program}.sparc')
        self.host = on_this_machine(folder, case)

    def path(self, name):
        return os.path.join(self.scratch, name)

    def edit(self, *tool):
        return eel('edit', self.original, self.path('written'), *tool)

    def tell(self, command, into):
        """What was counted, which goes into a file, too."""
        told = eel(command, self.path('written'), self.path('dump'))
        with open(self.path(into), 'wb') as opened:
            opened.write(told.output)
        return told

    def row(self, tool, edited, command=None, into='told'):
        ran = run(self.case, self.path('written'), '-d', self.path('dump'))
        told = self.tell(command, into) if command else None
        return Row(tool, steps(self.path('dump')), edited, os.path.getsize(self.path('written')) / 1e6, ran, told)

    def rows(self):
        """The visits of all words come first: they tell how many steps the original takes."""
        yield self.row('every', self.edit('every'), 'visits')
        yield self.row('plain', self.edit('plain'))
        yield self.row('profile', self.edit('profile'), 'counts', 'seen')
        run(self.other, self.path('written'), '-d', self.path('dump'))
        self.tell('counts', 'other')
        for weights in ('seen', 'other'):
            yield self.row(f'profile, {weights}', self.edit('profile', self.path(weights)), 'counts')
        yield self.row('trace 8', self.edit('trace', '8'), 'trace')


def print_rows(folder, case, other):
    """Prints the lines of a run, and answers whether each edit put out what this machine's build does."""
    with tempfile.TemporaryDirectory() as scratch:
        measure = Measure(folder, case, other, scratch)
        plain, rows = run(case, measure.original), list(measure.rows())
    own = int(rows[0].told.output.split()[-1])
    print(f'| {case.name} | original | {own:,} | 1.00 | {plain.seconds:.2f} | | | | |')
    for row in rows:
        print(row.line(case, own), flush=True)
    same = all(agrees(ran, measure.host) for ran in [plain, *(row.ran for row in rows)])
    if not same:
        print(f'{case.name}: an output differs')
    return same


def main():
    parser = argparse.ArgumentParser(description=__doc__, formatter_class=argparse.RawDescriptionHelpFormatter)
    parser.add_argument('folder', metavar='OUT', help='the folder of build.sh')
    parser.add_argument('--small', action='store_true', help='measure short runs')
    words = parser.parse_args()
    for name in ('bzip2.sparc', 'bzip2.host', 'lua.sparc', 'lua.host'):
        if not os.path.exists(os.path.join(words.folder, name)):
            sys.exit(f'measure.py: {words.folder} has no {name}: examples/real/build.sh {words.folder} makes it')
    agreed = True
    for case in cases(words.folder):
        file = os.path.join(words.folder, f'{case.program}.sparc')
        same = agrees(run(case, file), on_this_machine(words.folder, case))
        agreed = agreed and same
        print(f'{case.name}: {"as on this machine" if same else "otherwise than on this machine"}', flush=True)
    heading = ['run', 'tool', 'steps', 'of each', 's', 'edit s', 'edit MB', 'file MB', 'told s']
    print(f'\n| {" | ".join(heading)} |\n|{"---|" * len(heading)}')
    for case, other in measured(words.folder, words.small):
        agreed = print_rows(words.folder, case, other) and agreed
    return not agreed


if __name__ == '__main__':
    sys.exit(main())
