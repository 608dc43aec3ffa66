#!/usr/bin/env python3
"""Checks in four minutes what no proof covers: the launcher, build.py, the scripts, the documents and the models.

Each step is another program, or another script of checks/; one that this machine lacks is left out, which is said. The
steps that call `eel` take the program that stands in crates/eel_main/out, as `./eel`, build.py or .ci/run left it. All is
said on the error stream, so that the last line of a gate before it stays the last one. The status is 1 where a step fails.

A step has no terminal and no input, and a folder of its own for temporary files; it has none of the variables by which a
caller changes what programs print, or where they write. One that takes too long is ended, with all that it began.
"""
import sys

if sys.version_info < (3, 10):
    sys.stderr.write('quick.py: all is left out: it takes Python 3.10 or newer, and python3 is %d.%d\n' % sys.version_info[:2])
    sys.exit(0)

import contextlib
import glob
import os
import re
import shutil
import signal
import subprocess
import tempfile
import threading
import time
from collections import Counter
from concurrent.futures import ThreadPoolExecutor, as_completed

from called import BUILT, EEL, TOP, heed_signals, parser_of

LIMIT = 900  # seconds of a step: a busy machine may take many times as long as an idle one
SHELL = ['eel', 'tools/terminal.sh', 'tools/install.sh', '.ci/run', 'examples/c/build.sh', 'examples/real/build.sh']
# Words are split on purpose, and variables are set to nothing.
KNOWN = 'SC1007,SC1091,SC2013,SC2015,SC2016,SC2034,SC2046,SC2086,SC2115,SC2148,SC2154,SC2207,SC2317'
PAGES = sorted(glob.glob(os.path.join(TOP, 'tools', 'pages', '*.1')))
# What finds faults in texts, with the version that finds none here: another one may ask for more.
LINTERS = {'shellcheck': '0.9.0', 'pyflakes3': '2.5.0', 'groff': '1.22.4'}
PYTHON = sys.executable or shutil.which('python3')
LONG = 'each script, with lines', 'wrong calls', 'models', 'traps', 'kits'  # are begun first, in this order
CROSS = ['sparc64-linux-gnu-gcc', 'clang', 'gcc', 'gcov', 'valgrind']
FOREIGN = re.compile('GIT_(?!CONFIG_)[A-Z_]*|GIT_CONFIG_PARAMETERS|PYTHON.*|LC_.*|LANG.*|EEL_EXPLAIN|DESTDIR|CDPATH|ENV|BASH_ENV|'
                     'COLUMNS|(FORCE|NO)_COLOR|POSIXLY_CORRECT|TAR_OPTIONS|GZIP')
RUNNING, RUNNING_HELD = {}, threading.Lock()


def script(name, *words):
    return [PYTHON, os.path.join(TOP, 'checks', name), *words]


# What is done, by which command, what that takes of the machine, and whether it calls the program.
STEPS = [('shell scripts', ['shellcheck', '-s', 'sh', '-e', KNOWN, *SHELL], [], False),
         ('completions', ['shellcheck', '-s', 'bash', '-e', KNOWN, 'tools/eel.bash'], [], False),
         ('Python scripts', ['pyflakes3', 'build.py', 'tools', 'checks'], [], False),
         ('manual pages', ['groff', '-man', '-Tutf8', '-ww', '-z', *PAGES], [], False),
         ('options in documents', script('options.py', 'documents'), [], False),
         *((f'options in {shell}', script('options.py', shell), [shell], False) for shell in ('bash', 'zsh', 'fish')),
         ('units', [PYTHON, '-m', 'unittest', 'discover', '-s', 'checks/units'], [], False),
         ('kits', script('kits.py'), ['git'], False),
         ('the build', script('build_tests.py'), [], False),
         ('documents', script('documents.py'), [], False),
         ('layers', script('layers.py'), [], False),
         ('lemmas', script('lemmas.py'), [], False),
         ('the statement', script('statement.py'), [], False),
         ('models', script('write_programs.py', '--check'), [], False),
         ('wrong calls', script('misuse.py'), ['bash'], True),
         ('a package', script('packages.py'), ['tar'], True),
         ('a file for callgrind', script('beside_callgrind.py', 'fractions'), [*CROSS, 'llvm-symbolizer'], True),
         ('the statement\'s run', script('two_runs.py'), [], True),
         ('a run beside its walk', script('beside_walk.py', 'examples/three_words'), [], True),
         ('each script', script('all_tools.py', 'standing'), [], True),
         ('each script, with lines', script('all_tools.py', 'calculator'), CROSS, True),
         ('traps', script('all_tools.py', 'endings'), CROSS[:1], True)]


def open_streams():
    """Opens those of the three streams that are closed: else a file would have the number of one."""
    while (opened := os.open(os.devnull, os.O_RDWR)) <= 2:
        pass
    os.close(opened)


def write(content):
    """Writes to the error stream, if there is one."""
    with contextlib.suppress(OSError):
        os.write(2, content)


def say(line):
    write(f'quick.py: {line}\n'.encode(errors='replace'))


def given_to_steps(folder):
    """The environment of a step whose temporary files go to this folder, and which never begins a build."""
    own = {name: value for name, value in os.environ.items() if not FOREIGN.fullmatch(name)}
    path = own.get('PATH') or os.defpath
    return {**own, 'PATH': path, 'TMPDIR': folder, 'EEL_PROGRAM': BUILT, 'LC_ALL': 'C', 'PYTHONDONTWRITEBYTECODE': '1'}


def end_all(begun, folder):
    """Ends a command with all that it began: in its session, or in its folder for temporary files."""
    with contextlib.suppress(ProcessLookupError):
        os.killpg(begun.pid, signal.SIGKILL)
    for number in filter(str.isdecimal, os.listdir('/proc')):
        with contextlib.suppress(OSError):
            if os.readlink(f'/proc/{number}/cwd').startswith(f'{folder}/'):
                os.kill(int(number), signal.SIGKILL)


def outcome_of(words, room):
    """The status of a command in a session of its own, and what it said."""
    with tempfile.TemporaryDirectory(dir=room, ignore_cleanup_errors=True) as folder, open(f'{folder}.told', 'w+b') as told:
        with RUNNING_HELD:
            begun = subprocess.Popen(words, cwd=TOP, env=given_to_steps(folder), stdin=subprocess.DEVNULL, stdout=told,
                                     stderr=subprocess.STDOUT, start_new_session=True)
            RUNNING[begun] = folder
        try:
            status = begun.wait(LIMIT)
        except subprocess.TimeoutExpired:
            status = None
        with RUNNING_HELD:
            end_all(begun, RUNNING.pop(begun))
        begun.wait()
        told.seek(0)
        said = told.read()
    return (status, said) if status is not None else (1, said + b'it took too long\n')


def answer_of(*words, given=b''):
    """What a short command prints, or None where there is no such one, or it fails."""
    with contextlib.suppress(OSError, subprocess.TimeoutExpired):
        done = subprocess.run(words, input=given, stdout=subprocess.PIPE, stderr=subprocess.DEVNULL, timeout=LIMIT)
        return None if done.returncode else done.stdout.decode(errors='replace')
    return None


def is_built():
    """Whether the program stands there, of these sources: else `eel` would begin with a build."""
    said = answer_of(EEL, '--version')
    return os.access(BUILT, os.X_OK) and said is not None and 'not built' not in said and 'have changed' not in said


def has_native_headers():
    """Whether gcc compiles for this machine's 32 bits, to compare with."""
    return answer_of('gcc', '-m32', '-E', '-', given=b'#include <sys/mman.h>\n') is not None


def lacking(step, has_program):
    """What a step takes that isn't there."""
    _, words, needs, wants_program = step
    found = [name for name in [*words[:1], *needs] if not shutil.which(name)]
    found += ['the program of these sources'] if wants_program and not has_program else []
    found += ['the C library for -m32'] if CROSS == needs[:len(CROSS)] and not has_native_headers() else []
    return found


def is_other_linter(words):
    """Whether a command is a linter of another version."""
    known = LINTERS.get(words[0])
    return known is not None and known not in (answer_of(words[0], '--version') or '')


def outcome(step, has_program, room):
    """What came of a step, how long it took, and what it said."""
    started, missing, words = time.monotonic(), lacking(step, has_program), step[1]
    if missing:
        return f'left out, for want of {", ".join(missing)}', 0, b''
    try:
        status, told = outcome_of(words, room)
    except OSError as error:
        status, told = 1, f'{error}\n'.encode(errors='replace')
    if status and is_other_linter(words):
        return f'left out: {words[0]} is of another version than {LINTERS[words[0]]}', time.monotonic() - started, told
    return 'failed' if status else 'ok', time.monotonic() - started, told


def place_of(step):
    """Where a step comes in the order in which they are begun."""
    return LONG.index(step[0]) if step[0] in LONG else len(LONG)


def places():
    """How many steps are done at once."""
    number = os.environ.get('RT_JOBS', '')
    return int(number) if number.isdecimal() and int(number) else min(4, len(os.sched_getaffinity(0)))


def outcomes(steps, at_once, has_program, room):
    """What came of each step, which is said as soon as it is known, with the end of what was wrong."""
    ends = {}
    with ThreadPoolExecutor(at_once) as pool:
        begun = {pool.submit(outcome, step, has_program, room): step[0] for step in steps}
        for done in as_completed(begun):
            ends[begun[done]], took, told = done.result()
            say(f'{begun[done]}: {ends[begun[done]]}, {took:.0f} s')
            if ends[begun[done]] != 'ok':
                write(told[-3000:])
    return ends


def end_by(number, room):
    """Ends the steps that run, and this, as a signal asks. Another one changes nothing."""
    heed_signals(signal.SIG_IGN)
    RUNNING_HELD.acquire()
    for begun, folder in RUNNING.items():
        end_all(begun, folder)
    shutil.rmtree(room, ignore_errors=True)
    os._exit(128 + number)


def main():
    parser = parser_of(__doc__)
    parser.add_argument('steps', metavar='STEP', nargs='*', help=f'these alone, of {", ".join(step[0] for step in STEPS)}')
    wanted = parser.parse_args().steps
    if unknown := set(wanted) - {step[0] for step in STEPS}:
        parser.error(f'there is no step {sorted(unknown)[0]}')
    open_streams()
    started, has_program = time.monotonic(), is_built()
    steps = sorted((step for step in STEPS if not wanted or step[0] in wanted), key=place_of)
    with tempfile.TemporaryDirectory(prefix='eel-quick-', ignore_cleanup_errors=True) as room:
        heed_signals(lambda number, _: end_by(number, room))
        ends = outcomes(steps, places(), has_program, room)
        # What failed, as for want of time beside others, is done again alone.
        if again := [step for step in steps if ends[step[0]] == 'failed']:
            say(f'{", ".join(step[0] for step in again)}: once more, alone')
            ends |= outcomes(again, 1, has_program, room)
    counts = Counter(end.partition(',')[0].partition(':')[0] for end in ends.values())
    say(f'{counts["ok"]} done, {counts["failed"]} failed, {counts["left out"]} left out, in {time.monotonic() - started:.0f} s')
    return counts['failed'] > 0


if __name__ == '__main__':
    sys.exit(main())
