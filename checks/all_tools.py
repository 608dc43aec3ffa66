#!/usr/bin/env python3
"""Calls each script of tools/ in each way on programs in C, and says what came of it, a line a program.

The eleven programs of beside_gcov.py are built by gcc and by clang with -g at -O0, -Og, -O1 and -O2, and at -O2 with -flto,
with -gsplit-dwarf and stripped: so many lines have gcov's count, so many of the twenty hottest, and at -O0 so many
functions callgrind's calls. `standing` are programs of
crates/program_runs, `endings` small ones that end by each trap, and `large` is a text of 200,000 words.
That takes what beside_callgrind.py takes, and llvm-14-linker-tools for -flto by clang.

A call is a fault that ends by a traceback or another status, or prints nothing; and one of annotate.py or graph.py that
takes five seconds of the processor for `large`. So is a profile whose total isn't the number of the run's instructions;
in which a function costs less with its calls than without, or those that nobody calls don't come to all; or that doesn't
name a trap, or has no branches of a switch.
"""
import os
import re
import shutil
import subprocess
import sys
import tempfile
from collections import Counter
from functools import partial

from beside_callgrind import ELSEWHERE, functions, jump_faults, natively
from beside_gcov import ARGUMENTS, COMPILERS, DATA, LEVELS, LINK, PROGRAMS, by_gcov, call, compiled, counts, given_to, hottest
from called import EEL, TOP, built, needs, parser_of, read_file
from callgrind_file import CallgrindFile
from schema import Schema, values_of

BUILDS = [[level] for level in LEVELS] + [['-O2', '-flto'], ['-O2', '-gsplit-dwarf'], ['-O2', '-s']]
STANDING = ['queens', 'dispatch']
LARGE, TIMED, SECONDS = 'large', ['annotate.py', 'graph.py'], 5
ENDINGS, TRAPPED = 'endings', 3
ENDED = 0, TRAPPED
SCHEMAS = {'json': 'docs/profile.schema.json', 'gcov': 'checks/gcov.schema.json'}
# What a program's routine `stop` does, how its run ends there, and which of its words check.py names beforehand.
STOPS = [('ld [%g0+2],%g1', 'trap 7: misaligned address', ''), ('ld [%g0],%g1', 'trap 9: no memory there', ''),
         ('udiv %g1,%g0,%g1', 'trap 42: division by zero', ''), ('.word 0', 'trap 2: illegal instruction', ''),
         ('.word 0x81f00000', 'trap 2: illegal instruction', '1 V9 instruction'),
         ('fadds %f0,%f1,%f2', 'trap 4: floating point', '1 float instruction'),
         ('.word 0x81b00000', 'trap 36: coprocessor', '1 coprocessor instruction'),
         ('wr %g0,%psr', 'trap 3: privileged instruction', '(wr %psr)'),
         ('lda [%g0]1,%g1', 'trap 3: privileged instruction', '(lda)'),
         ('ta 5', 'trap 133: software trap 5', 'ta 5'), ('taddcctv %sp,1,%g1', 'trap 10: tag overflow', ''),
         ('mov 3,%sp; .rept 9; save; .endr', 'window: ', ''), ('jmp %g0; retl', 'couple: ', '')]
STOPPING = """        .global _start, stop
        .type   _start,#function
_start: mov     9,%l0
1:      save    %sp,-96,%sp
        restore
        subcc   %l0,1,%l0
        bne     1b
        nop
        call    stop
        nop
        mov     1,%g1
        ta      16
        .asciz  "what is no code, behind the end!"
        .align  4
        .type   stop,#function
stop:   save    %sp,-96,%sp
        STOP
        ret
        restore
"""


class Session:
    """The calls of scripts with one program, how many are faults, and the processor time of the longest by script."""

    def __init__(self, program, name, has_lines):
        self.name, self.arguments, self.given = name, ARGUMENTS.get(program, []), given_to(program)
        self.without_lines = () if has_lines else (65,)
        self.calls, self.faults, self.slowest = 0, 0, Counter()

    def tool(self, script, *words, statuses=(0,)):
        before = sum(os.times()[2:4])
        done = subprocess.run([sys.executable, f'{TOP}/tools/{script}', *words], input=self.given, capture_output=True)
        self.slowest[script] = max(self.slowest[script], sum(os.times()[2:4]) - before)
        self.calls += 1
        if done.returncode not in statuses or b'Traceback' in done.stderr or not done.stdout + done.stderr:
            self.faults += 1
            print('   ', script, *words, 'has status', done.returncode, *done.stderr.decode().splitlines()[-1:])
        return done.stdout.decode('utf-8', 'replace')

    def told(self, report, edit):
        """The name of what a command prints of the run of an edited file."""
        written, dump, printed = (f'{self.name}.{report}{end}' for end in ('.written', '.dump', ''))
        call(EEL, 'edit', self.name, written, *edit.split())
        call(EEL, 'run', written, '-d', dump, '--', *self.arguments, given=self.given, statuses=())
        call(EEL, report, written, dump, into=printed)
        return printed

    def fault(self, *told):
        self.faults += 1
        print('   ', os.path.basename(self.name), *told)

    def ends_behind(self, steps):
        """Whether the original's run has so many instructions: no limit below lets it end."""
        ends = []
        for limit in steps, steps - 1:
            done = subprocess.run([EEL, 'run', self.name, '-n', str(limit), '--', *self.arguments], input=self.given,
                                  capture_output=True)
            ends.append(done.stderr.splitlines()[-1].startswith(b'stopped'))
        return ends == [False, True]

    def totals(self):
        """Profiles of each kind have as many instructions as the run, and those of a run that was stopped no more than
        its steps. Where a figure is told as `about` it needn't be right."""
        run = [self.name, *self.arguments]
        for option in '--every', '--edges':
            printed = self.tool('profile.py', option, '--all', *run, statuses=ENDED)
            about, total = re.search(r'^\S+: \w+(?: \d+)?, (about )?(\d+) instructions', printed, re.M).groups()
            if not (about and option == '--edges' or self.ends_behind(int(total))):
                self.fault(option, 'has', total, 'instructions')
            for own, with_calls in re.findall(r'^ *([\d.]+) % +(?:about )?\d+ +([\d.]+) % ', printed, re.M):
                if float(with_calls) < float(own):
                    self.fault(option, 'has', with_calls, '% with calls, without', own)
            if option == '--every':
                self.total = int(total)
        limit = self.total
        printed = self.tool('profile.py', '-n', str(limit), *run, statuses=ENDED)
        if not re.match(r'\S+: stopped \d+, (\d+) instr', printed) or int(printed.split(', ')[1].split()[0]) > limit:
            self.fault('-n', limit, 'has', printed.split('\n')[0])

    def costs(self, *options):
        """A profile for callgrind has all instructions, and those who aren't called come to all with what they call, in
        each event. No function has more by itself than its calls from others cost, and no jump is made more often than
        its instruction ran."""
        printed = self.tool('profile.py', '--callgrind', *options, self.name, *self.arguments, statuses=ENDED)
        try:
            profile = CallgrindFile(printed)
        except (AttributeError, ValueError) as error:
            self.fault('--callgrind', *options, error)
            return
        if profile.total() != profile.totals or profile.totals['Ir'] != self.total \
                or sum(map(profile.inclusive, profile.roots()), Counter()) != profile.totals:
            self.fault('--callgrind', *options, 'has', profile.total(), 'of', profile.totals, 'and from', *profile.roots())
        called = Counter()
        for caller, callee, _, costs in profile.calls:
            called[callee] += costs['Ir'] if caller != callee else self.total
        for name in called if not options else ():
            if called[name] < profile.own[name]['Ir']:
                self.fault('--callgrind has', name, 'with', profile.own[name], 'called for', called[name])
        for fault in jump_faults(profile):
            self.fault('--callgrind', *options, 'has', fault)

    def json(self, tracefile):
        """A profile in JSON fits its schema and comes to all instructions; lines in gcov's form have the tracefile's counts."""
        names = {form: f'{self.name}.{form}.json' for form in SCHEMAS}
        forms = {'json': [], 'gcov': ['--gcov-json', names['gcov']] if tracefile else []}
        self.tool('profile.py', '--json', names['json'], *forms['gcov'], self.name, *self.arguments, statuses=ENDED)
        found = {form: values_of(name)[0] for form, name in names.items() if os.path.exists(name)}
        for form, value in found.items():
            for fault in list(Schema(values_of(os.path.join(TOP, SCHEMAS[form]))[0]).faults(value))[:3]:
                self.fault(names[form], fault)
        for key, number in ('functions', 'instructions'), ('kinds', 'instructions'), ('instructions', 'count'):
            if sum(item[number] for item in found['json'][key]) != self.total:
                self.fault('--json has other', key)
        for file in found['gcov']['files'] if 'gcov' in found else ():
            had = Counter({line['line_number']: line['count'] for line in file['lines']})
            record = tracefile.partition(f'SF:{file["file"]}\n')[2].partition('end_of_record')[0]
            if had != Counter({int(line): int(count) for line, count in re.findall(r'^DA:(\d+),(\d+)', record, re.M)}):
                self.fault('--gcov-json has other counts of', file['file'])

    def filtered(self):
        """Whatever rows are printed of functions and of kinds, they come to all with what is left out."""
        for options in ['--top', '2'], ['--min-percent', '4.5'], ['--function', '*[a-m]*', '--top', '3']:
            printed = self.tool('profile.py', *options, self.name, *self.arguments, statuses=ENDED)
            for table in re.findall(r'^  share .*(?:function|kind)\n(?:.+\n)*', printed, re.M):
                rows = re.findall(r'^ *[\d.]+ % +(\d+) (?!.*\(through a pointer\))', table, re.M)
                if sum(map(int, rows)) != self.total:
                    self.fault(*options, 'has', table)

    def switches(self, tracefile):
        """A switch that `eel show` knows is a branch of more than two ways, if it has a line."""
        ways = Counter(re.findall(r'^BRDA:(\d+,\d+),', tracefile, re.M))
        known = re.findall(r'^switch \S+ \S+ (\d+)', call(EEL, 'show', self.name), re.M)
        if any(int(cases) > 2 for cases in known) and 'BRDA' in tracefile and max(ways.values()) <= 2:
            self.fault('--lcov has no switch')

    def differences(self, visits, *options):
        """Beside a run of no instructions, all instructions differ, in functions and one by one."""
        none = f'{visits}.none'
        with open(none, 'w') as opened:
            opened.write(re.sub(r' visited .*', ' visited 0 visits 0', read_file(visits).decode().splitlines()[-1]) + '\n')
        printed = self.tool('compare.py', *options, self.name, visits, none)
        rows = re.findall(r'^ +(\d+) +(\d+|-) +([+-]\d+) .*', printed, re.M)
        sums = sum(int(before) for before, *_ in rows) - (0 if '--instructions' in options else self.total)
        if sums > self.total or sums < self.total and '--instructions' not in options:
            self.fault('compare.py', *options, 'has', sums, 'of', self.total)

    def call_all(self):
        """Each script in each way; the lines' counts and the functions' calls are answered."""
        name, run, entry = self.name, [self.name, *self.arguments], read_file(self.name)[24:28].hex()
        edges, visits, trace = map(self.told, ['counts', 'visits', 'trace'], ['profile', 'every', 'trace 4'])
        self.totals()
        for option in '--weights', '--annotate', '--source', '--graph':
            self.tool('profile.py', option, *run, statuses=ENDED)
        self.costs()
        self.costs('--inlined')
        stacks = self.tool('profile.py', '--folded', *run, statuses=ENDED)
        if sum(int(line.split()[-1]) for line in stacks.splitlines()) != self.total:
            self.fault('--folded has not', self.total, 'instructions')
        for words in [], [edges], [visits], [trace], ['--routine', entry, edges], ['--routine', entry, trace]:
            self.tool('annotate.py', name, *words)
            self.tool('graph.py', name, *words, '--code')
        self.tool('annotate.py', '--source', name, visits)
        for words in [edges, '--lcov'], [visits, '--lcov'], [visits, '--callgrind'], [edges, '--folded'], [visits]:
            self.tool('source_counts.py', name, *words, statuses=(0, *self.without_lines))
        kept = f'{name}.kept'
        self.tool('profile.py', '--counts', kept, *run)
        for counted in edges, visits, kept:
            self.tool('merge.py', counted, counted)
        for words in [], ['--inlined'], ['--instructions'], ['--instructions', '--inlined']:
            self.differences(visits, *words)
        self.tool('compare.py', '--lines', name, edges, name, visits, statuses=(0, *self.without_lines))
        self.tool('check.py', name, statuses=(0, 2))
        tracefile = self.tool('profile.py', '--lcov', *run, statuses=(0, *self.without_lines))
        self.switches(tracefile)
        self.json(tracefile)
        self.filtered()
        return counts(self.tool('source_counts.py', name, visits)), functions(tracefile)


def add(agree, build, had, wanted):
    both = had.keys() & wanted.keys()
    agree[build, 'both'] += len(both)
    agree[build, 'same'] += sum(had[key] == wanted[key] for key in both)


def each_build(program, folder):
    """What came of all builds of a program."""
    found, lines, native = Counter(), by_gcov(program, folder), natively(program, folder)
    own = {name: count for name, count in native.items() if name not in ELSEWHERE}
    for compiler, options in ((compiler, options) for options in BUILDS for compiler in COMPILERS):
        session = Session(program, compiled(program, compiler, options, folder), '-s' not in options)
        had, calls = session.call_all()
        found.update(builds=1, calls=session.calls, faults=session.faults)
        build = ' '.join([compiler, *options])
        add(found, build, had, lines)
        if had:
            add(found, f'hottest by {build}', had, hottest(lines))
        if options == ['-O0']:
            add(found, f'calls by {compiler} -O0', calls, own)
    return found


def large_text(folder):
    session = Session(LARGE, os.path.join(folder, LARGE), False)
    call(sys.executable, f'{TOP}/checks/large_text.py', 'random', '200000', session.name)
    session.call_all()
    slow = sum(session.slowest[script] >= SECONDS for script in TIMED)
    print('   ', *(f'{script} took {session.slowest[script]:.1f} s' for script in TIMED), sep='  ')
    return Counter(builds=1, calls=session.calls, faults=session.faults + slow)


def endings(folder):
    """Programs that end by each trap: profile.py tells it with its place, and check.py what it sees before."""
    faults = calls = 0
    for number, (stop, told, before) in enumerate(STOPS):
        name = os.path.join(folder, f'stop{number}')
        with open(f'{name}.S', 'w') as opened:
            opened.write(STOPPING)
        call(*LINK, f'-DSTOP={stop}', f'{name}.S', '-o', name)
        session = Session(ENDINGS, name, False)
        session.totals()
        printed = session.tool('profile.py', name, statuses=[TRAPPED])
        if told not in printed or not re.search(r'\n  at \w{8} stop', printed):
            session.fault(stop, 'is told as', *printed.split('\n')[:3])
        printed = session.tool('check.py', name, statuses=[2 if before and not before.startswith('ta') else 0])
        if before not in printed:
            session.fault(stop, 'is no', before)
        faults, calls = faults + session.faults, calls + session.calls
    return Counter(builds=len(STOPS), calls=calls, faults=faults)


def standing(folder):
    """Programs in C that stand in the repository, without debug information: they take no compiler."""
    faults = calls = 0
    for name in STANDING:
        session = Session(name, shutil.copy(os.path.join(DATA, name), folder), False)
        session.call_all()
        faults, calls = faults + session.faults, calls + session.calls
    return Counter(builds=len(STANDING), calls=calls, faults=faults)


def tell(name, found):
    same = [f'{key[0]} {found[key[0], "same"]} of {both}' for key, both in found.items() if key[1] == 'both' and both]
    print(f'{name}: {found["builds"]} builds, {found["calls"]} calls, {found["faults"]} faults', *same, sep='; ')
    sys.stdout.flush()


def main():
    parser, every = parser_of(__doc__), [*PROGRAMS, 'standing', ENDINGS, LARGE]
    parser.add_argument('programs', metavar='PROGRAM', nargs='*', help=f'of {", ".join(every)}; else all')
    programs, sums = parser.parse_args().programs or every, Counter()
    built(EEL)
    if programs != ['standing']:
        needs('sparc64-linux-gnu-gcc', *(['clang', 'gcc', 'gcov', 'valgrind'] if programs != [ENDINGS] else []))
    for program in programs:
        with tempfile.TemporaryDirectory() as folder:
            found = {LARGE: large_text, ENDINGS: endings, 'standing': standing}.get(program, partial(each_build, program))(folder)
        tell(program, found)
        sums.update(found)
    tell('all', sums)
    return sums['faults'] > 0


if __name__ == '__main__':
    sys.exit(main())
