#!/usr/bin/env python3
"""Compares the lines' counts of source_counts.py with those of gcov.

Eleven programs of examples/c are built by gcc and by clang with -g at -O0, -Og, -O1 and -O2, profiled by ./eel and printed by
source_counts.py; and built for this machine at -O0 and run for gcov. Of the lines that both have it is said how many
have the same count. That takes sparc64-linux-gnu-gcc, clang, and `gcc -m32` (the packages gcc-sparc64-linux-gnu, clang
and gcc-12-multilib).
"""
import os
import re
import subprocess
import sys
import tempfile

from called import EEL, TOP, built, needs, parser_of

SOURCES, DATA = os.path.join(TOP, 'examples', 'c'), os.path.join(TOP, 'crates', 'program_runs', 'data')
PROGRAMS = ['queens', 'fractions', 'interpreter', 'word_count', 'calculator', 'dispatch', 'samples', 'sieve',
            'long_numbers', 'jobs', 'barriers']
ARGUMENTS = {'sieve': ['20000']}
LEVELS = ['-O0', '-Og', '-O1', '-O2']
HOTTEST = 20
# Else gcov's own calls of them count, where a program has functions of these names.
RENAMED = ['-Dmemcpy=copy_bytes', '-Dmemmove=move_bytes']
SPARC = ['-mcpu=v8', '-msoft-float', '-ffreestanding', '-fno-asynchronous-unwind-tables', '-g', '-w', f'-I{SOURCES}']
LINK = ['sparc64-linux-gnu-gcc', '-m32', '-mcpu=v8', '-nostdlib', '-static', '-no-pie', '-Wl,-z,noexecstack']
COMPILERS = {'gcc': ['sparc64-linux-gnu-gcc', '-m32', '-fno-pie', '-fno-stack-protector', *SPARC],
             'clang': ['clang', '--target=sparc-linux-gnu', '-fintegrated-as', '-fno-pic', *SPARC]}


def call(*words, into=None, given=b'', statuses=(0,)):
    """Calls a program, and answers what it printed, which goes into a file where one is named."""
    try:
        called = subprocess.run(words, input=given, capture_output=True)
    except OSError as error:
        sys.exit(f'beside_gcov.py: {words[0]}: {error.strerror}')
    if statuses and called.returncode not in statuses:
        sys.exit(f'beside_gcov.py: {" ".join(words)}: status {called.returncode}\n{called.stderr.decode()}')
    if into:
        with open(into, 'wb') as opened:
            opened.write(called.stdout)
    return called.stdout.decode()


def source(program):
    return os.path.join(SOURCES, f'{program}.c')


def given_to(program):
    """The input of the tests, if there is one."""
    name = os.path.join(DATA, f'{program}.input')
    if not os.path.exists(name):
        return b''
    with open(name, 'rb') as opened:
        return opened.read()


def counts(text):
    """The counts in lines as gcov prints them, by the source's name and the line's number."""
    found, name = {}, ''
    for count, number, rest in re.findall(r'^ *([^:\n]+): *(\d+):(.*)$', text, re.M):
        if rest.startswith('Source:') and number == '0':
            name = os.path.basename(rest.removeprefix('Source:'))
        elif number != '0' and count != '-':
            found[name, int(number)] = int(count.rstrip('*')) if count[0].isdigit() else 0
    return found


def by_gcov(program, folder):
    built = os.path.join(folder, program)
    call('gcc', '-m32', '-w', '-O0', '--coverage', '-ffreestanding', *RENAMED, '-c', source(program), '-o', f'{built}.o')
    call('gcc', '-m32', '-w', '--coverage', f'{built}.o', os.path.join(SOURCES, 'native.c'), '-o', built)
    call(built, *ARGUMENTS.get(program, []), given=given_to(program), statuses=())
    return counts(call('gcov', '--stdout', '-o', folder, f'{built}.o'))


def compiled(program, compiler, options, folder):
    """The program for SPARC V8, by a compiler with some options; clang's code for -flto takes its own plugin."""
    name = os.path.join(folder, f'{program}.{compiler}{"".join(options)}')
    call(*COMPILERS[compiler], *options, '-c', source(program), '-o', f'{name}.o')
    link = ['-Wl,-plugin,/usr/lib/llvm-14/lib/LLVMgold.so'] if compiler == 'clang' and '-flto' in options else options
    call(*LINK, *link, os.path.join(SOURCES, 'start.S'), f'{name}.o', '-o', name)
    return name


def by_eel(program, compiler, level, folder):
    built = compiled(program, compiler, [level], folder)
    call(EEL, 'edit', built, f'{built}.profile', 'every')
    call(EEL, 'run', f'{built}.profile', '-d', f'{built}.dump', '--', *ARGUMENTS.get(program, []),
         given=given_to(program), statuses=())
    call(EEL, 'visits', f'{built}.profile', f'{built}.dump', into=f'{built}.counts')
    return counts(call(sys.executable, os.path.join(TOP, 'tools', 'source_counts.py'), built, f'{built}.counts'))


def hottest(wanted):
    """The twenty lines that gcov counts most often."""
    return dict(sorted(wanted.items(), key=lambda item: (-item[1], item[0]))[:HOTTEST])


def off(had, wanted):
    """By how much the hottest lines that both have differ: the sums of differences and of gcov's counts."""
    both = had.keys() & (most := hottest(wanted)).keys()
    return sum(had[line] == wanted[line] for line in both), len(both), sum(abs(had[line] - most[line]) for line in both), \
        sum(most[line] for line in both)


def compare(program, folder, each):
    """Prints the agreement of each build, and answers it."""
    wanted = by_gcov(program, folder)
    for build in ((compiler, level) for level in LEVELS for compiler in COMPILERS):
        had = by_eel(program, *build, folder)
        both = sorted(had.keys() & wanted.keys())
        differing = [line for line in both if had[line] != wanted[line]]
        agree = f'{len(both) - len(differing)} of {len(both)} lines; gcov has {len(wanted)}'
        print(f'{program} {" ".join(build)}: {agree}', flush=True)
        for name, number in differing if each else ():
            print(f'    {name}:{number}: {had[name, number]}, gcov {wanted[name, number]}')
        yield build, (len(both) - len(differing), len(both), *off(had, wanted))


def main():
    parser = parser_of(__doc__)
    parser.add_argument('programs', metavar='PROGRAM', nargs='*', help=f'of {", ".join(PROGRAMS)}; else all')
    parser.add_argument('--each', action='store_true', help='print each line that differs')
    words = parser.parse_args()
    if set(words.programs) - set(PROGRAMS):
        parser.error(f'the programs are {", ".join(PROGRAMS)}')
    built(EEL)
    needs('sparc64-linux-gnu-gcc', 'clang', 'gcc', 'gcov')
    sums = {}
    with tempfile.TemporaryDirectory() as folder:
        for program in words.programs or PROGRAMS:
            for build, found in compare(program, folder, words.each):
                sums[build] = [old + new for old, new in zip(sums.get(build, [0] * len(found)), found)]
    for build, (same, both, *hot) in sums.items():
        print(f'all {" ".join(build)}: {same} of {both} lines; of the {HOTTEST} hottest {hot[0]} of {hot[1]}, which are off '
              f'by {100 * hot[2] / max(1, hot[3]):.1f} %')


if __name__ == '__main__':
    main()
