#!/usr/bin/env python3
"""Compares how often functions were called, as tools/source_counts.py says it, with callgrind of valgrind; and what the
file for callgrind says of each word with objdump and llvm-symbolizer.

Eleven programs of examples/c are built by gcc and by clang at -O0 and profiled by tools/profile.py; and built for this
machine and run by callgrind. Functions of the sources are compared. At -O0 to -O2 it is looked whether the functions of
a tracefile for lcov have no fewer calls than stand in the file for callgrind (calls through registers may have no
caller), and whether callgrind_annotate reads the file and lists each function once, but for parts in other files; and,
with copies by inlining told as functions or not, how many words count for the events that objdump's mnemonics say, and
have the line and function that LLVM reads. That takes valgrind and llvm beside what beside_gcov.py takes.
"""
import os
import re
import subprocess
import sys
import tempfile
from collections import Counter

from beside_gcov import ARGUMENTS, COMPILERS, LEVELS, PROGRAMS, SOURCES, call, compiled, given_to, source
from called import EEL, TOP, built, needs, parser_of
from callgrind_file import CallgrindFile

ELSEWHERE = {'system_call', 'memcpy', 'memmove'}  # which native.c and this machine's C library have
CONDITIONAL = {'be', 'bne', 'bg', 'ble', 'bge', 'bl', 'bgu', 'bleu', 'bcc', 'bcs', 'bpos', 'bneg', 'bvc', 'bvs'}
PROFILE = os.path.join(TOP, 'tools', 'profile.py')


def calls_in(text):
    """How often each function is called, in a file of callgrind."""
    names, calls, callee = {}, Counter(), None
    for line in text.split('\n'):
        if found := re.match(r'c?fn=(?:\((\d+)\) ?)?(.*)', line):
            if found[2] or not found[1]:
                names[found[1]] = re.sub(r"'\d+$", '', found[2])
            callee = names[found[1]] if not found[1] is None else found[2]
        elif found := re.match(r'calls=(\d+)', line):
            calls[callee] += int(found[1])
    return calls


def natively(program, folder):
    name = os.path.join(folder, program)
    call('gcc', '-m32', '-w', '-O0', '-g', '-static', '-ffreestanding', source(program),
         os.path.join(SOURCES, 'native.c'), '-o', name)
    call('valgrind', '--tool=callgrind', f'--callgrind-out-file={name}.out', name, *ARGUMENTS.get(program, []),
         given=given_to(program), statuses=())
    with open(f'{name}.out') as opened:
        return calls_in(opened.read())


def profiled(name, program, *options):
    """What profile.py prints of a program with the input of the tests."""
    return call(sys.executable, PROFILE, *options, name, *ARGUMENTS.get(program, []), given=given_to(program))


def functions(tracefile):
    """The calls of functions in a tracefile of lcov, summed up by name."""
    calls = Counter()
    for count, name in re.findall(r'^FNDA:(\d+),(.*)$', tracefile, re.M):
        calls[name] += int(count)
    return calls


def beside_native(program, compiler, wanted, folder):
    """At -O0 all functions of the source have the calls of the native build."""
    had = functions(profiled(compiled(program, compiler, ['-O0'], folder), program, '--lcov'))
    names = sorted(had.keys() & wanted.keys() - ELSEWHERE)
    for name in names:
        if had[name] != wanted[name]:
            print(f'    {name}: {had[name]}, callgrind {wanted[name]}')
    agree = sum(had[name] == wanted[name] for name in names)
    print(f'{program} {compiler} -O0: {agree} of {len(names)} functions', flush=True)
    return agree, len(names)


def listed(text, name):
    """The functions that callgrind_annotate lists of a file, without parts of them in other files, which have no object."""
    with open(f'{name}.out', 'w') as opened:
        opened.write(text)
    done = subprocess.run(['callgrind_annotate', '--inclusive=yes', '--threshold=100', '--auto=no', '--show=Ir', f'{name}.out'],
                          capture_output=True, text=True)
    if done.returncode or done.stderr:
        sys.exit(f'beside_callgrind.py: callgrind_annotate: {done.stderr}')
    return re.findall(r'^ *[\d,]+ \( *[\d.]+%\)  [^ ]*?:(\S+).*\[', done.stdout, re.M)


def expected_events(mnemonic, operands):
    """The events for which an instruction counts, by its name as objdump has it; Bct isn't told by it."""
    name = mnemonic.split(',')[0]
    events = {'Ir'}
    if name.startswith('ld') or name == 'swap':
        events.add('Dr')
    if name in ('ldstub', 'swap') or name.startswith(('st', 'clr')) and '[' in operands:
        events.add('Dw')
    if name in CONDITIONAL:
        events.add('Bc')
    if name == 'call' or name == 'jmpl' and operands.endswith('%o7'):
        events.add('Calls')
    if name in ('jmp', 'jmpl') and operands not in ('%o7 + 0xc', '%i7 + 0xc') or name == 'call' and operands[0] == '%':
        events.add('Bi')
    events |= {'save': {'Saves'}, 'restore': {'Restores'}}.get(name, set())
    return events | ({'sysCount'} if (name, operands) == ('ta', '0x10') else set())


def objdumped(name):
    """The events of each word of a program."""
    printed = call('sparc64-linux-gnu-objdump', '-d', '--no-show-raw-insn', name)
    rows = re.findall(r'^ +([0-9a-f]+):\t(\S+) *(.*?)(?:\t!.*| *<.*>)?$', printed, re.M)
    return {int(address, 16): expected_events(mnemonic, operands.strip()) for address, mnemonic, operands in rows}


def located(name, addresses):
    """The functions of each word, the innermost first, and its source and line, or None, as LLVM reads them."""
    printed = call('llvm-symbolizer', '--output-style=GNU', '-a', '-f', '-i', f'--obj={name}',
                   given=''.join(f'{address:#x}\n' for address in addresses).encode())
    for part in re.split(r'^0x[0-9a-f]+\n', printed, flags=re.M)[1:]:
        functions, places = part.splitlines()[::2], part.splitlines()[1::2]
        path, _, number = places[0].partition(' (')[0].rpartition(':')
        yield functions, (os.path.basename(path), int(number)) if number not in ('?', '0') else None


def beside_others(name, text, inlined):
    """Of the words that ran: those whose events are objdump's, and whose function and line LLVM's; how many there are; and
    the first that differ."""
    profile, same, differing = CallgrindFile(text), 0, []
    words, events = list(profile.words), objdumped(name)
    for address, (functions, line) in zip(words, located(name, words)):
        (_, function), path, number = profile.places[address]
        own = (os.path.basename(path), number)
        had = {event for event, cost in profile.words[address].items() if cost and event != 'Bct'}, function, own
        wanted = events[address], functions[0 if inlined else -1], line or own
        same += had == wanted
        differing += [f'{address:08x} {had} {wanted}'] if had != wanted else []
    return same, len(words), differing


def jump_faults(profile):
    """Jumps that can't be: not as often looked at as their word ran, or more often made; or more than were taken."""
    bad = [f'the jump at {address:08x}' for address, _, count, whole in profile.jumps
           if not count <= (whole if whole is not None else count) <= profile.words[address]['Ir']]
    made = sum(count for _, _, count, whole in profile.jumps if whole is not None)
    return bad + (['too many jumps'] if made > profile.total()['Bct'] else [])


def beside_itself(program, compiler, level, folder):
    """The file for callgrind: calls are no more than the tracefile has, and each function is listed once."""
    name = compiled(program, compiler, [level], folder)
    text, had = profiled(name, program, '--callgrind'), functions(profiled(name, program, '--lcov'))
    calls = calls_in(text)
    faults = [f'{function} has too many calls' for function in calls if function in had and calls[function] > had[function]]
    rows = listed(text, name)
    faults += [f'{function} twice' for function, count in Counter(rows).items() if count > 1]
    same, words, differing = beside_others(name, text, False)
    inlined = profiled(name, program, '--callgrind', '--inlined')
    listed(inlined, name)
    own, _, others = beside_others(name, inlined, True)
    faults += jump_faults(CallgrindFile(text)) + jump_faults(CallgrindFile(inlined))
    print(f'{program} {compiler} {level}: {len(rows)} functions listed; {same} of {words} words as objdump and LLVM have them, '
          f'inlined {own}', *faults, *differing[:3], *others[:3], sep='\n    ', flush=True)
    return Counter(faults=len(faults), words=words, same=same, inlined=own)


def main():
    parser = parser_of(__doc__)
    parser.add_argument('programs', metavar='PROGRAM', nargs='*', help=f'of {", ".join(PROGRAMS)}; else all')
    words = parser.parse_args()
    if set(words.programs) - set(PROGRAMS):
        parser.error(f'the programs are {", ".join(PROGRAMS)}')
    built(EEL)
    needs('sparc64-linux-gnu-gcc', 'clang', 'gcc', 'valgrind', 'llvm-symbolizer')
    agree = compared = 0
    found = Counter()
    with tempfile.TemporaryDirectory() as folder:
        for program in words.programs or PROGRAMS:
            wanted = natively(program, folder)
            for compiler in COMPILERS:
                same, both = beside_native(program, compiler, wanted, folder)
                agree, compared = agree + same, compared + both
                for level in LEVELS:
                    found.update(beside_itself(program, compiler, level, folder))
    print(f'{agree} of {compared} functions have the calls of callgrind; {found["faults"]} faults in files for callgrind; '
          f'{found["same"]} of {found["words"]} words are as objdump and LLVM have them, inlined {found["inlined"]}')
    return agree != compared or found['faults'] > 0


if __name__ == '__main__':
    sys.exit(main())
