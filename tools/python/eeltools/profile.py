"""Says where a program spends its instructions: tools/profile.py FILE ARG..

It edits the program FILE with counters, runs that with the arguments and the standard input, and prints its functions
with the instructions that each took, the share of those and of what it called, and how often it was called; the loops
and lines that took most; and its instructions by kind. Each instruction is counted by itself, so that all figures are
exact, but for the shares with what is called: those are shared out among callers. What the program puts out goes to the
error stream. Options stand before FILE: some say which functions, loops and lines are printed, with others another script
prints what was counted.

The status is 0 where the program exited, or its own status with --exit-status; and 3 where it was stopped or trapped.
Where it can't be run the status is from 64 to 78, as of `eel run`, and the error stream says why. An interrupt ends a
run, of which then the first steps alone are profiled.
"""
from __future__ import annotations

import argparse
import importlib
import os
import shutil
import subprocess
import sys
import tempfile
import threading
import time
import zlib
from collections.abc import Iterable, Iterator
from typing import BinaryIO, NoReturn

from .debug_lines import ROOT_HELP, DebugLines
from .dwarf import Elf
from .endings import Ending, ending_of, place_of, said_before_end, stray_jump
from .filters import Filters, add_options
from .gcov_json import GcovJson
from .profile_json import ProfileJson
from .report import FUNCTIONS, Report
from .runs import Run, run_of
from .scripting import (DEVICE, EEL, MISSING, Parser, note, opened_for_output, print_lines, read_all, read_file, refuse,
                        refuse_loss, said_if_long, wants_built, why, write_pieces)
from .shown import NAMES_HELP, Shown, call_eel, explained, figure, is_address, status_of
from .source_counts import INLINED_HELP, tell_limits

Output = BinaryIO | int  # a file, or the number of a stream
LIMIT = 10 ** 11
MOST_STEPS = 100  # beyond a limit, to stand at a place
TRAPPED = 3  # the status where the program didn't exit
SECOND = 10 ** 8  # steps that are made in a second, at least
KEPT = 2  # seconds of a run that was interrupted; it is made again until it stands at a place
PRINTERS = {'annotate': ('annotate', 'print each instruction with how often it ran'),
            'source': ('source_counts', 'print each line of the sources with how often it was reached'),
            'lcov': ('source_counts', 'print a tracefile, of which genhtml of lcov makes pages'),
            'callgrind': ('source_counts', 'print a profile for callgrind_annotate and KCachegrind'),
            'folded': ('source_counts', 'print stacks of calls with what they cost, for flame graphs'),
            'graph': ('graph', 'print the call graph, or the flow graph of --routine, for dot')}
FORMS = {'json': 'write all figures as JSON, as docs/profile.schema.json says; packed where the name ends in .gz; for - in place of '
                 'the report, to the standard output',
         'gcov_json': 'write lines, functions and branches as gcov does in JSON; the same'}


def watched(words: list[str], given: bytes | None, stdout: Output) -> subprocess.CompletedProcess[bytes]:
    """A call of `eel` that may take long: on a terminal it is said from time to time how long it has taken."""
    wants_built()
    started, told = time.monotonic(), 10
    with subprocess.Popen([EEL, *words], stdin=subprocess.PIPE, stdout=stdout, stderr=subprocess.PIPE) as process:
        while True:
            try:
                printed, errors = process.communicate(given, timeout=started + told - time.monotonic())
                return subprocess.CompletedProcess(words, process.returncode, printed, errors)
            except subprocess.TimeoutExpired:
                given = None  # it has it already
                if sys.stderr and sys.stderr.isatty():
                    note(f'the run has taken {told} s so far')
                told += 10 if told < 60 else 60
            except BaseException:  # a signal, which ends the run, too
                process.kill()
                raise


class Tables(threading.Thread):
    """The program and its lines, which are read while it runs."""

    def __init__(self, words: argparse.Namespace) -> None:
        super().__init__(daemon=True)
        self.words, self.has_own, self.ended = words, threading.Event(), None

    def run(self) -> None:
        try:
            self.own = Shown(self.words.file, self.words.names)
            self.has_own.set()
            self.debug = DebugLines(self.own, self.words.source_root)
        except BaseException as ended:
            self.ended = ended
        self.has_own.set()

    def shown(self) -> Shown:
        """The program alone."""
        self.has_own.wait()
        if self.ended:
            raise self.ended
        return self.own

    def read(self) -> tuple[Shown, DebugLines]:
        self.join()
        return self.shown(), self.debug


class Session:
    """Edits, runs and counts of a program, in a folder of its own."""

    def __init__(self, words: argparse.Namespace, folder: str) -> None:
        self.words, self.folder, self.tables, self.given, self.was_interrupted = words, folder, Tables(words), b'', False
        self.written, self.dump, self.counts = (os.path.join(folder, name) for name in ('written', 'dump', 'counts'))

    def refuse(self, called: subprocess.CompletedProcess[bytes], output: str | None = None) -> NoReturn:
        """Ends the script by what `eel` said; where it could write no file it is looked which."""
        told = called.stderr.decode('utf-8', 'replace').strip().split('\n')[-1].removeprefix('eel: ')
        told = told.replace(self.dump, 'the run')
        if 'file fault' in told:
            told += f', {explained(self.words.file, told.split()[-1])}'
        elif told == 'device fault' and shutil.disk_usage(self.folder).free < 2 ** 20:
            told = f'{os.path.dirname(self.folder)}, where temporary files go, is full: TMPDIR names another folder'
        elif told == 'device fault' and output is not None:
            told = f'{output} can\'t be written: there is no room, or its device failed'
        refuse(told or f'the run failed by status {called.returncode}', status_of(called))

    def checked(self, *words: str) -> bytes:
        called = call_eel(*words)
        if called.returncode:
            self.refuse(called)
        return called.stdout

    def edit(self, tool: str, *weights: str) -> None:
        with said_if_long('the program is edited'):
            self.checked('edit', self.words.file, self.written, tool, *weights)

    def refuse_early(self) -> None:
        """Refuses what no run would change: lines that aren't there, and functions and sources of other names."""
        self.tables.start()
        wants_lines = self.words.printer == 'lcov' or self.words.gcov_json is not None
        if wants_lines and not has_lines(read_file(self.words.file)):
            refuse(f'{self.words.file} has no line tables: compile it with -g')
        filters = self.words.filters
        if self.words.names or self.words.routine or filters.function is not None:
            shown = self.tables.shown()
            if self.words.routine and not is_address(self.words.routine):
                shown.routine_called(self.words.routine)
            filters.want_function(shown, lambda: self.tables.read()[1])
        if filters.source_file is not None:
            filters.want_source(*self.tables.read())

    def run(self, limit: int, output: Output) -> None:
        """Runs the written file; what the program put out goes on."""
        called = watched(['run', self.written, '-n', str(limit), '-d', self.dump, '--', *self.words.args], self.given,
                         output)
        if called.returncode:
            self.refuse(called, self.words.output or 'the error stream')
        if output != subprocess.DEVNULL and (own := said_before_end(called.stderr)) and sys.stderr:
            sys.stderr.buffer.write(own if own.endswith(b'\n') else own + b'\n')
            sys.stderr.flush()

    def run_or_begin(self, limit: int, output: Output) -> int:
        """Runs the written file or, where that is interrupted, its first steps alone. The limit is answered."""
        started = time.monotonic()
        try:
            self.run(limit, output)
        except KeyboardInterrupt:
            seconds, self.was_interrupted = time.monotonic() - started, True
            limit = int(min(seconds, KEPT) * SECOND)
            note(f'interrupted after {seconds:.0f} s. Its first {limit} steps are profiled now, which takes some seconds; '
                 f'-n says how many. A second interrupt ends it.')
            self.run(limit, subprocess.DEVNULL)
        return limit

    def count(self, tool: str, output: Output) -> Ending:
        """A profile: what was counted goes to a file, and the run's ending is answered."""
        limit = self.run_or_begin(self.words.limit, output)
        reports = ['visits', 'counts'] if tool == 'every' else ['counts']
        for more in range(MOST_STEPS + 1):
            counted = call_eel(reports[0], self.written, self.dump)
            if not counted.returncode or b'between places' not in counted.stderr:
                break
            self.run(limit + more + 1, subprocess.DEVNULL)
        if counted.returncode:
            self.refuse(counted)
        if more:
            note(f'it stood between two places of the original after {limit} steps, and went {more} further')
        with said_if_long('the counts are worked out'):
            printed = [counted.stdout, *(self.checked(report, self.written, self.dump) for report in reports[1:])]
        try:
            with open(self.counts, 'wb') as opened:
                opened.writelines(printed)
        except OSError as error:
            refuse(f'{self.folder}: {why(error)}', DEVICE)
        return ending_of(read_file(self.dump), self.was_interrupted)


def program_input(name: str | None) -> bytes:
    """The input of the program: a file, or all of the standard input, if there is one."""
    if name:
        return read_file(name)
    if sys.stdin is None:
        return b''
    if sys.stdin.isatty():
        note('reading the standard input first, to its end: press Ctrl-D, or call it with </dev/null')
    try:
        return read_all(sys.stdin.buffer, 'the standard input')
    except OSError as error:
        refuse(f'the standard input: {why(error)}', MISSING)


def has_lines(file: bytes) -> bool:
    """Whether a program has line tables, or names a file that may have them."""
    return not {'.debug_line', '.gnu_debuglink'}.isdisjoint(Elf(file).headers)


def profiled(words: argparse.Namespace, session: Session, tool: str, output: Output) -> Ending:
    """Profiles the program, once or twice, and answers the ending of the last run."""
    if words.weights:
        session.count(tool, subprocess.DEVNULL)
        weights = session.counts + '.weights'
        os.rename(session.counts, weights)
        session.edit(tool, weights)
    return session.count(tool, output)


def told_of(ending: Ending) -> str:
    return {'exit': f'exit {ending.number}', 'trap': f'trap {ending.number}',
            'stopped': f'stopped {ending.steps}'}.get(ending.kind, ending.kind)


def place_lines(words: argparse.Namespace, shown: Shown, debug: DebugLines, run: Run, ending: Ending,
                stands: int | None) -> Iterator[str]:
    """Why a run ended that didn't exit, and where: the instruction, its function and its line. Where it jumped to what is
    no code, it is told from where, or how to find that."""
    def place(address: int) -> str:
        line = debug.line_at.get(address)
        return shown.place(address) + (f', {os.path.basename(line.path)}:{line.number}' if line else '')

    if ending.kind == 'exit':
        return
    yield f'{told_of(ending)}: {ending.explained()}'
    if stands is None:
        return
    if shown.block_of(stands) is not None:
        yield f'  at {place(stands)}: {shown.text_at(stands)}'
        return
    yield f'  at {stands:08x}, which is no place in the code'
    jump = stray_jump(shown, run)
    if jump is not None:
        yield f'  it jumped there from {place(jump)}: {shown.text_at(jump)}'
    elif ending.kind == 'trap':
        yield f'  from where it jumped there a trace tells: eel edit {words.file} traced trace 4, eel run traced -d dump,'
        yield '  eel trace traced dump > edges, and annotate.py with that'


def printed_by(words: argparse.Namespace, session: Session, shown: Shown, debug: DebugLines, run: Run) -> Iterator[str]:
    """What another script prints of what was counted."""
    name, _ = PRINTERS[words.printer]
    options = [f'--{words.printer}'] if words.printer in ('lcov', 'callgrind', 'folded') else []
    options += ['--source'] if words.source_root and words.printer == 'annotate' else []
    options += ['--code'] if words.code else []
    options += ['--inlined'] if words.inlined else []
    printer = importlib.import_module(f'.{name}', __package__)
    asked = printer.parsed([*options, 'FILE', 'COUNTS'])
    asked.file, asked.counts, asked.names, asked.routine = words.file, session.counts, words.names, words.routine
    return printer.printed(shown, run, asked, *([debug] if name != 'graph' else []))


def parsed() -> argparse.Namespace:
    parser = Parser(__doc__, '%(prog)s [OPTION..] FILE [ARG..]')
    parser.add_argument('file', metavar='FILE', help='the program')
    parser.add_argument('args', metavar='ARG', nargs=argparse.REMAINDER, help='its arguments').required = False
    parser.add_argument('--input', metavar='FILE', help='its input, in place of the standard input')
    parser.add_argument('--output', metavar='FILE', help='where its standard output goes, in place of the error stream')
    parser.add_argument('-n', '--limit', metavar='STEPS', type=int, default=LIMIT,
                        help=f'how many steps of the edited program are made at most, else {LIMIT}')
    kind = parser.add_mutually_exclusive_group()
    kind.add_argument('--every', action='store_true', help='count each instruction by itself, as is done anyway')
    kind.add_argument('--edges', action='store_true',
                      help='count as few edges as can be: mostly fewer steps, and figures that may be off say '
                           '`about`')
    kind.add_argument('--weights', action='store_true',
                      help='the same twice, with counters by what the first run counted: fewer steps in the second run')
    parser.add_argument('--exit-status', action='store_true', help='end with the status of the program, where it exited')
    parser.add_argument('--all', action='store_true', help='print all functions')
    add_options(parser)
    parser.add_argument('--counts', metavar='FILE', help='keep what was counted, as `eel visits` and `counts` print it')
    for form, text in FORMS.items():
        parser.add_argument(f'--{form.replace("_", "-")}', metavar='FILE', help=text)
    printer = parser.add_mutually_exclusive_group()
    for name, (_, text) in PRINTERS.items():
        printer.add_argument(f'--{name}', dest='printer', action='store_const', const=name, help=text)
    parser.add_argument('--inlined', action='store_true', help=INLINED_HELP)
    parser.add_argument('--routine', metavar='NAME', help='of this routine alone, with --annotate and --graph')
    parser.add_argument('--code', action='store_true', help='with instructions, with --graph')
    parser.add_argument('--names', metavar='NAMES', help=NAMES_HELP)
    parser.add_argument('--source-root', metavar='FOLDER', action='append',
                        help=f'{ROOT_HELP}; with --annotate their lines are printed, too')
    words = parser.parse_args()
    words.filters = Filters.of(words)
    words.forms = {form: name for form in FORMS if (name := getattr(words, form)) is not None}
    for misfit in misfits(words):
        parser.error(misfit)
    return words


def misfits(words: argparse.Namespace) -> Iterator[str]:
    """What doesn't fit together of the options."""
    if not 0 <= words.limit < 2 ** 64 - MOST_STEPS:
        yield 'the limit is out of range'
    if words.routine and words.printer not in ('annotate', 'graph') or words.code and words.printer != 'graph':
        yield '--routine wants --annotate or --graph, and --code wants --graph'
    if words.inlined and words.printer != 'callgrind':
        yield '--inlined wants --callgrind'
    for option in words.filters.options() if words.printer else ():
        hint = '; --routine names one' if option == '--function' and words.printer in ('annotate', 'graph') else ''
        yield f'--{words.printer} takes no {option}, which is for the report of functions, loops and lines{hint}'
    if words.all and words.top:
        yield '--all and --top exclude each other'
    if '-' in words.forms.values() and (words.printer or words.filters.options() or len(words.forms) > 1):
        yield '`-` wants no other option that says what is printed'
    paths = [os.path.realpath(name) for name in written_by(words)]
    yield from (f'{name} would be written twice' for name, path in zip(written_by(words), paths) if paths.count(path) > 1)


def written_by(words: argparse.Namespace) -> list[str]:
    """The names of the files that are written."""
    return [*filter(None, [words.output, words.counts]), *(name for name in words.forms.values() if name != '-')]


def temporary_folder() -> tempfile.TemporaryDirectory[str]:
    try:
        return tempfile.TemporaryDirectory(prefix='eel-profile-', ignore_cleanup_errors=True)
    except OSError as error:
        refuse(f'there is no folder for temporary files, which TMPDIR names: {why(error)}', DEVICE)


def status_by(ending: Ending, is_own: bool) -> int:
    """The status of the script: with --exit-status that of a program that exited."""
    if ending.kind != 'exit':
        return TRAPPED
    return ending.number if is_own else 0


def main() -> int:
    words = parsed()
    read_file(words.file)
    refuse_loss(written_by(words), [words.file, words.input or 0, *filter(None, [words.names])])
    tool = 'profile' if words.weights or words.edges else 'every'
    with temporary_folder() as folder:
        session = Session(words, folder)
        session.edit(tool)
        session.refuse_early()
        output = opened_for_output(words.output) if words.output else sys.stderr.fileno() if sys.stderr else subprocess.DEVNULL
        kept = opened_for_output(words.counts) if words.counts else None
        files = {name: opened_for_output(name) for name in words.forms.values() if name != '-'}
        session.given = program_input(words.input)
        ending = profiled(words, session, tool, output)
        if kept:
            write_pieces(kept, [read_file(session.counts)])
        with said_if_long('the program and its lines are read'):
            (shown, debug), stands = session.tables.read(), place_of(read_file(session.written), ending.pc)
        with said_if_long('what was counted is read'):
            run = run_of(shown, session.counts, stands)
            places = list(place_lines(words, shown, debug, run, ending, stands))
        with said_if_long('lines and loops are worked out'):
            told = Report(shown, run, debug, words.filters) if words.forms or not words.printer else None
        if words.printer or '-' in words.forms.values():
            for line in places or [told_of(ending)]:
                note(line)
        write_forms(words, told, ending, stands, files)
        if words.printer:
            with said_if_long('what is printed is worked out'):
                lines = printed_by(words, session, shown, debug, run)
            print_lines(lines)
        elif '-' not in words.forms.values():
            report(words, told, ending, places)
    return status_by(ending, words.exit_status)


def write_forms(words: argparse.Namespace, told: Report, ending: Ending, stands: int | None, files: dict[str, BinaryIO]) -> None:
    """Writes the forms in JSON that were asked for, to files or to the standard output."""
    counted = 'weights' if words.weights else 'edges' if words.edges else 'every'
    for form, name in words.forms.items():
        made = ProfileJson(told, words.args, counted, ending, stands) if form == 'json' else GcovJson(told.counts)
        with said_if_long('JSON is written'):
            if name == '-':
                print_lines(made.lines())
                tell_limits(told.counts, words.file, [])
            else:
                lines = (f'{line}\n'.encode() for line in made.lines())
                write_pieces(files[name], packed(lines) if name.endswith('.gz') else lines)


def packed(pieces: Iterable[bytes]) -> Iterator[bytes]:
    """The same as gzip packs it, without a time."""
    packer = zlib.compressobj(9, wbits=31)
    yield from map(packer.compress, pieces)
    yield packer.flush()


def report(words: argparse.Namespace, told: Report, ending: Ending, places: list[str]) -> None:
    """Prints functions, loops and lines."""
    with said_if_long('lines and loops are worked out'):
        lines = list(told.all(None if words.all else FUNCTIONS))
    total = figure(told.run.total, not told.run.unsure)
    heading = f'{os.path.basename(words.file)}: {told_of(ending)}, {total} instructions; with counters {ending.steps} steps'
    print_lines([heading, *places, *lines])
    if told.counts.lines:
        tell_limits(told.counts, words.file, sorted(told.paths))
