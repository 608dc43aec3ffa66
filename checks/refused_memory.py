#!/usr/bin/env python3
"""Refuses memory to the program that ./eel runs, one growth at a time, in a call of each command: what comes of it must
be status 70, its line and no file changed, or the whole answer.

PROGRAM is the built program, and NAME that of the small program whose file is edited: `carry_loop` unless said otherwise,
and called so in any case. A library that stands before the C library's refuses the Nth request for memory and counts them;
`cc` builds it. Prints how many growths each call made, of how many of these it answered 70, and a line for each answer that is
neither.
"""
import os
import subprocess
import sys
import tempfile

from called import BUILT, built, needs, parser_of, refuse
from programs import SMALL

SHIM = r'''
#define _GNU_SOURCE
#include <dlfcn.h>
#include <stdlib.h>
#include <stdio.h>

static long calls, refused = -1;

static int refuses(void)
{
    if (refused < 0) {
        char *number = getenv("REFUSED");
        refused = number ? atol(number) : 0;
    }
    return ++calls == refused;
}

#define REAL(name, type) ((type) dlsym(RTLD_NEXT, name))

void *malloc(size_t size)
{
    static void *(*real)(size_t);
    if (!real) real = REAL("malloc", void *(*)(size_t));
    return refuses() ? NULL : real(size);
}

void *realloc(void *old, size_t size)
{
    static void *(*real)(void *, size_t);
    if (!real) real = REAL("realloc", void *(*)(void *, size_t));
    return refuses() ? NULL : real(old, size);
}

__attribute__((destructor)) static void tell(void)
{
    char *name = getenv("COUNTED");
    FILE *file = name ? fopen(name, "w") : NULL;
    if (file) {
        fprintf(file, "%ld\n", calls);
        fclose(file);
    }
}
'''

# One call of each command, on files that stand there, and the name that it writes.
CALLS = {
    'edit carry_loop out plain': 'out',
    'edit carry_loop out script script': 'out',
    'edit carry_loop out profile': 'out',
    'edit carry_loop out profile counts': 'out',
    'edit carry_loop out every': 'out',
    'edit carry_loop out trace 2': 'out',
    'run carry_loop': None,
    'run profiled -d out': 'out',
    'counts profiled dump': None,
    'visits marked marked_dump': None,
    'trace traced traced_dump': None,
    'show carry_loop': None,
    'list carry_loop': None,
    'words listing out': 'out',
    'restore profiled out': 'out',
    'demo 1 1': None,
}


def shim(folder):
    source, library = os.path.join(folder, 'shim.c'), os.path.join(folder, 'shim.so')
    with open(source, 'w') as file:
        file.write(SHIM)
    subprocess.run(['cc', '-O1', '-shared', '-fPIC', '-o', library, source, '-ldl'], check=True)
    return library


def content(name):
    if not os.path.exists(name):
        return None
    with open(name, 'rb') as file:
        return file.read()


def call(program, library, words, written, refused):
    """What comes of a call in which a request is refused, and how many requests there were."""
    if written and os.path.exists(written):
        os.remove(written)
    asks = {**os.environ, 'LD_PRELOAD': library, 'REFUSED': str(refused), 'COUNTED': 'counted'}
    ran = subprocess.run([program, *words.split()], input=b'', capture_output=True, env=asks)
    count = int(content('counted') or 0)
    return (ran.returncode, ran.stdout, ran.stderr, written and content(written)), count


def sweep(program, library, words, written):
    """How many growths a call makes, and how many of them it answers with 70 where they are refused."""
    whole, count = call(program, library, words, written, 0)
    refusals, faults = 0, 0
    for refused in range(1, count + 1):
        came, _ = call(program, library, words, written, refused)
        if came == (70, b'', b'eel: out of memory\n', None):
            refusals += 1
        elif came != whole:
            faults += 1
            print(f'{words}: growth {refused} refused: {came[0]} {came[2]}')
    print(f'{words}: {count} growths, {refusals} answered 70')
    return faults


def main():
    parser = parser_of(__doc__)
    parser.add_argument('program', metavar='PROGRAM', nargs='?', default=BUILT, help='the built program')
    parser.add_argument('name', metavar='NAME', nargs='?', default='carry_loop', help='the small program that is edited')
    words = parser.parse_args()
    program, name = os.path.abspath(built(words.program)), words.name
    if name not in [each.name for each in SMALL]:
        refuse(f'{name}: no small program')
    needs('cc')
    os.chdir(tempfile.mkdtemp())
    library = shim(os.getcwd())
    with open('carry_loop', 'wb') as file:
        file.write(next(each for each in SMALL if each.name == name).file())
    with open('script', 'wb') as file:
        file.write(b'edge 1 add 0 3\nedge 1 top 1 %g2\nedge 2 keep 2 %o0\n')
    for words, printed in (('edit carry_loop profiled profile', None), ('run profiled -d dump', None),
                           ('edit carry_loop marked every', None), ('run marked -d marked_dump', None),
                           ('edit carry_loop traced trace 2', None), ('run traced -d traced_dump', None),
                           ('counts profiled dump', 'counts'), ('list carry_loop', 'listing')):
        ran = subprocess.run([program, *words.split()], check=True, capture_output=True)
        if printed:
            with open(printed, 'wb') as file:
                file.write(ran.stdout)
    faults = sum(sweep(program, library, words, written) for words, written in CALLS.items())
    return 1 if faults else 0


if __name__ == '__main__':
    sys.exit(main())
