#!/usr/bin/env python3
"""Calls the scripts of tools/ and checks/ with --help, and with files that aren't there, folders and junk: each must
answer by a clear line and its status, and not by a traceback. So must profile.py with closed streams, pipes for files, and
outputs that can't be written; a script that is interrupted or ended; and what can't be done must be refused before the
input is read, by a line that helps. What `eel --install` puts in place must work and go again. Prints a line for each that
doesn't."""
import contextlib
import fcntl
import os
import signal
import subprocess
import sys
import tempfile
import termios
import time
from concurrent.futures import ThreadPoolExecutor
from itertools import chain
from shlex import quote

from called import EEL, TOP, built, heed_signals, parser_of
from options import commands
from programs import Program

WORDS, CONTENTS, MISSING, DEVICE = 64, 65, 66, 74
SECONDS = 300  # after which a script hangs
PROGRAM, DATA = os.path.join(TOP, 'examples', 'three_words'), os.path.join(TOP, 'crates', 'program_runs', 'data')
# Options of profile.py that don't fit, and what is said of them.
MISFITS = {'--top 0': "'0' is no number from 1 on", '--min-percent 101': "'101' is no number from 0 to 100",
           '--min-percent nan': "'nan' is no number", '--all --top 3': '--all and --top exclude each other',
           '--json a --counts a': 'a would be written twice', '--json a --counts ./a': 'a would be written twice',
           '--json - --lcov': '`-` wants no other', '--json - --gcov-json -': '`-` wants no other',
           '--json - --top 1': '`-` wants no other',
           **{f'--{printer} {option}': f'--{printer} takes no {option.split()[0]}'
              for printer, option in [('lcov', '--top 3'), ('annotate', '--function place'), ('graph', '--min-percent 1'),
                                      ('callgrind', '--source-file a.c'), ('folded', '--top 1'), ('source', '--function a')]}}
SHOWN = ['annotate.py', 'graph.py', 'source_counts.py']
WANT_MORE = ['source_counts.py', 'compare.py', 'edges.py', 'patch.py']  # words than one
TAKE_FILES = ['listing.py', 'plain_count.py', 'steps.py', 'beside_walk.py', 'beside_objdump.py', 'proof_costs.py',
              'documents.py']


def scripts():
    for folder in ('tools', 'checks'):
        for name in sorted(os.listdir(os.path.join(TOP, folder))):
            path = os.path.join(TOP, folder, name)
            if name.endswith('.py') and os.access(path, os.X_OK) and name != os.path.basename(__file__):
                yield path


def bad_files(folder):
    """Files that are no program and no counts."""
    with open(PROGRAM, 'rb') as opened:
        program = opened.read()
    contents = {'empty': b'', 'text': b'some text\n', 'bytes': bytes(range(256)) * 9, 'cut': program[:60],
                'short': program[:84], 'elf': b'\x7fELF' + b'\xff' * 200, 'lines': b'edge 0 fall x x 1\n',
                'visits': b'word 00010054 1\n', 'ring': b'edges 9 ring 4\n', 'sum': b'edges 1 counted 1 executions 7\n'}
    for name, content in contents.items():
        with open(os.path.join(folder, name), 'wb') as opened:
            opened.write(content)
        yield os.path.join(folder, name)
    yield os.path.join(folder, 'missing')
    yield folder
    yield ''


def wrong_calls(folder):
    """Calls that must be refused, each with its status."""
    for path in scripts():
        name, of_tools = os.path.basename(path), os.path.dirname(path) == os.path.join(TOP, 'tools')
        if name != 'build_tests.py':  # whose words unittest takes
            yield [path, '--no-such-option'], WORDS
        if of_tools or name in TAKE_FILES:
            for bad in bad_files(folder):
                status = (CONTENTS if os.path.isfile(bad) else MISSING) if of_tools else True
                alone = {'check.py': 1}.get(name, CONTENTS) if status == CONTENTS else status
                yield [path, bad], WORDS if name in WANT_MORE else alone
                if name in SHOWN:
                    yield [path, PROGRAM, bad], status
                    yield [path, PROGRAM, '--names', bad, bad], status
                if name == 'merge.py':
                    yield [path, bad, bad], status
                if name == 'compare.py':
                    yield [path, PROGRAM, bad, bad], status
                    yield [path, bad, PROGRAM, bad, PROGRAM], status
                if name == 'profile.py':
                    yield [path, '--input', bad, bad], status


def streams(folder):
    """Commands of bash with closed streams, pipes and outputs that can't be written, each with its status."""
    tools, counts, folder = map(quote, [os.path.join(TOP, 'tools'), os.path.join(folder, 'counts'), folder])
    program = quote(PROGRAM)
    yield f'{tools}/profile.py --counts {counts} {program} </dev/null', 0
    yield f'{tools}/profile.py {program} <&-', 0
    yield f'{tools}/profile.py {program} </dev/null >&-', DEVICE
    yield f'{tools}/profile.py {program} </dev/null 2>&-', 0
    yield f'{tools}/profile.py {program} </dev/null >/dev/full', DEVICE
    for option in '--all', '--json -':
        yield f'{tools}/profile.py {option} {program} </dev/null | head -1; exit ${{PIPESTATUS[0]}}', 0
    yield f'TMPDIR={folder}/missing {tools}/profile.py {program} </dev/null', 0
    yield f'{tools}/profile.py -n 0 {program} </dev/null', 3
    for option in '--counts', '--output', '--json':
        yield f'{tools}/profile.py {option} {folder}/missing/out {program} </dev/null', DEVICE
    for script in SHOWN:
        yield f'{tools}/{script} {program} <(cat {counts})', 0
        yield f'cat {counts} | {tools}/{script} {program} /dev/stdin', 0
    yield f'{tools}/merge.py <(cat {counts}) {counts}', 0
    yield f'{tools}/compare.py {program} <(cat {counts}) {program} {counts}', 0
    for words in printing(program, counts, folder):
        yield f'{tools}/{words} >/dev/full', DEVICE
        yield f'{tools}/{words} >&-', DEVICE
    yield f'{tools}/annotate.py {folder}/missing 2>/dev/full', MISSING
    yield f'{tools}/profile.py --top 0 {program} 2>/dev/full', WORDS


def printing(program, counts, folder):
    """Calls of each script of tools/ by which it prints."""
    yield from (f'{script} {program} {counts}' for script in SHOWN)
    yield from (f'check.py {program}', f'check.py {folder}/text', f'edges.py {program} 00010054', f'merge.py {counts} {counts}',
                f'compare.py {program} {counts} {counts}', f'patch.py {program} {folder}/empty {folder}/patched',
                *(f'profile.py {form} {program} </dev/null' for form in ('--all', '--annotate', '--folded', '--json -')))
    yield from (f'{os.path.basename(file)} {option}' for file in commands().values() for option in ('--help', '--version'))


def overwritten(folder):
    """Commands of bash that would write over what is read, by whatever name, each with its status and what it must say."""
    tools, data, folder = map(quote, [os.path.join(TOP, 'tools'), DATA, folder])
    said = WORDS, 'would be written over what is read'
    begin = f'cd $(mktemp -d -p {folder}) && cp {data}/queens own && ln -s own link && ln own other && echo a >given && touch lines'
    end = f'status=$?; cmp {data}/queens own && [ -s given ] && exit $status'
    for option in '--counts', '--output', '--json', '--gcov-json':
        for words in 'own own', 'link own', 'other own', 'own ./link', '$PWD/given --input given own', 'own --names own link':
            yield f'{begin}; {tools}/profile.py {option} {words} 0<>{folder}/never; {end}', *said
        yield f'{begin}; {tools}/profile.py {option} given own <given; {end}', *said
    yield from ((f'{begin}; {tools}/patch.py {words}; {end}', *said) for words in ('own lines link', 'link given ./given'))


def patched(folder):
    """The same of outputs of patch.py: a pipe keeps its mode, and a disk may be full."""
    tools, data, folder = map(quote, [os.path.join(TOP, 'tools'), DATA, folder])
    patch = f'{tools}/patch.py {data}/queens {folder}/empty {folder}'
    yield f'mkfifo -m 640 {folder}/pipe; cmp {data}/queens {folder}/pipe & {patch}/pipe && wait $! && stat -c %a {folder}/pipe', 0, '\n640\n'
    yield f'ulimit -f 1; {patch}/large', DEVICE, 'File too large'
    yield f'{patch}/missing/out', DEVICE, 'No such file or directory'
    yield f'umask 022; {patch}/made && stat -c %a {folder}/made', 0, '\n755\n'


def told(folder):
    """Commands of bash in a folder, each with its status and what it must say. Where input is never given, it is refused
    before that is read."""
    tools, program, data, python, folder = map(quote, [os.path.join(TOP, 'tools'), PROGRAM, DATA, sys.executable, folder])
    never = f'0<>{folder}/never'  # a pipe that is its own writer
    yield f'{tools}/profile.py --lcov {program} {never}', CONTENTS, 'has no line tables'
    yield f'{tools}/profile.py --annotate --routine plac {data}/queens {never}', WORDS, 'there is place.constprop.0'
    yield f'{tools}/profile.py {python} {never}', CONTENTS, 'file fault'
    yield f'{tools}/profile.py --graph --routine add {data}/queens {never}', WORDS, 'no routine add'
    yield f'{tools}/profile.py --function plcae {data}/queens {never}', WORDS, 'no function plcae; there is place.constprop.0'
    yield f'{tools}/profile.py --source-file queens.c {data}/queens {never}', CONTENTS, 'has no line tables'
    yield f'{tools}/profile.py --gcov-json {folder}/lines {data}/queens {never}', CONTENTS, 'has no line tables'
    yield f'{tools}/profile.py --json {folder}/missing/out {program} {never}', DEVICE, 'No such file or directory'
    yield f'ln -s /dev/full {folder}/json && {tools}/profile.py --json {folder}/json {program} </dev/null', DEVICE, 'No space left'
    for words, said in MISFITS.items():
        yield f'{tools}/profile.py {words} {data}/queens {never}', WORDS, said
    yield f'{tools}/profile.py --names {folder}/text {program} {never}', CONTENTS, 'no line of nm'
    yield f'{tools}/profile.py --output {folder}/missing/out {program} {never}', DEVICE, 'No such file or directory'
    yield f'{tools}/profile.py', WORDS, 'required: FILE\n'
    yield (f'ln -s /dev/full {folder}/full && {tools}/profile.py --output {folder}/full {data}/queens </dev/null', DEVICE,
           '/full can\'t be written')
    yield f'{tools}/profile.py {data}/jump_to_zero </dev/null', 3, 'it jumped there from 00010054'
    yield f'cd {folder} && cp {data}/queens ./-dash && {tools}/profile.py --annotate -- -dash </dev/null', 0, 'place.constprop.0'
    for words, status, line in ((f'{data}/flushed_windows', 9, 'exit 9'), (f'--edges {data}/queens', 0, 'exit 0'),
                                (f'{data}/jump_to_zero', 3, 'trap 1'), (f'-n 1 {data}/queens', 3, 'stopped'),
                                (python, CONTENTS, 'file fault'), (f'{folder}/missing', MISSING, 'No such file')):
        yield f'{tools}/profile.py --exit-status {words} </dev/null', status, line
    for command, line in ('edit', 'OUT trace K'), ('run', '[-d DUMP]'), ('--install', 'DESTDIR'):
        yield f'EEL_PROGRAM={folder}/missing {quote(EEL)} {command} --help', 0, line
    yield f'{quote(EEL)} what --help', WORDS, 'eel: bad words'
    plus = f'cp {data}/queens {folder}/plus && printf "\\0\\22" | dd of={folder}/plus bs=1 seek=18 conv=notrunc 2>&1'
    yield f'{plus} && {tools}/profile.py {folder}/plus {never}', CONTENTS, 'V8+ is another; compile and link all of it'
    yield f'{tools}/check.py {python}', 1, 'another processor' if os.uname().machine == 'x86_64' else 'file fault'


def interrupted(folder):
    """What is wrong with the end of scripts that are interrupted, or ended by another signal, while they read or run."""
    endless = os.path.join(folder, 'endless')
    with open(endless, 'wb') as made:
        made.write(Program('endless', '10800000 01000000', 0, '').file())  # a branch to itself
    calls = [[script, PROGRAM, '/dev/stdin'] for script in SHOWN]
    calls += [['profile.py', PROGRAM], ['merge.py', '/dev/stdin'], ['compare.py', PROGRAM, '/dev/stdin', '/dev/stdin'],
              ['patch.py', PROGRAM, '/dev/stdin', f'{folder}/patched'], ['check.py', '/dev/stdin'], ['edges.py', '/dev/stdin', 'f'],
              ['profile.py', '--input', '/dev/null', endless]]
    for number in signal.SIGINT, signal.SIGTERM:
        with ThreadPoolExecutor(len(calls)) as pool:
            yield from filter(None, pool.map(lambda words: fault_of_end(words, number, endless in words), calls))


def fault_of_end(words, number, runs):
    """What is wrong with the end of a script by a signal while it reads its input, or while its program runs."""
    with tempfile.TemporaryDirectory() as room:
        with subprocess.Popen([f'{TOP}/tools/{words[0]}', *words[1:]], stdin=subprocess.PIPE, stdout=subprocess.PIPE,
                              stderr=subprocess.PIPE, env={**os.environ, 'TMPDIR': room}) as begun:
            if not wait_for(begun, runs):
                begun.kill()
                return f'{" ".join(words)}: does not come to its {"run" if runs else "input"}'
            begun.send_signal(number)
            try:
                _, errors = begun.communicate(timeout=SECONDS)
            except subprocess.TimeoutExpired:
                begun.kill()
                return f'{" ".join(words)}: goes on behind signal {number}'
        profiles = runs and number == signal.SIGINT
        status = 3 if profiles else -number if number == signal.SIGINT else 128 + number
        if begun.returncode != status or b'Traceback' in errors or profiles != (b'interrupted' in errors):
            return f'{" ".join(words)}: status {begun.returncode} by signal {number}: {errors.decode()}'
        return f'{" ".join(words)}: leaves {os.listdir(room)} by signal {number}' if os.listdir(room) else None


def wait_for(begun, runs):
    """Waits until a script has read what it is given of its input, or until its program has run for a tenth of a second,
    and answers whether it has."""
    end, tenth = time.monotonic() + SECONDS, os.sysconf('SC_CLK_TCK') // 10
    if not runs:
        os.write(begun.stdin.fileno(), b' ')
    while time.monotonic() < end and begun.poll() is None:
        if ticks_of_run(begun.pid) > tenth if runs else fcntl.ioctl(begun.stdin, termios.FIONREAD, bytes(4)) == bytes(4):
            return True
        time.sleep(0.05)
    return False


def ticks_of_run(parent):
    """How long an `eel run` below a process has run."""
    for number in filter(str.isdecimal, os.listdir('/proc')):
        with contextlib.suppress(OSError):  # of one that has ended
            after = content(f'/proc/{number}/stat').rpartition(')')[2].split()
            if int(after[1]) == parent and '\0run\0' in content(f'/proc/{number}/cmdline'):
                return int(after[11]) + int(after[12])
    return 0


def content(name):
    with open(name, errors='replace') as opened:
        return opened.read()


def first_line(*words):
    return subprocess.run(words, capture_output=True, text=True, check=True).stdout.splitlines()[0]


def faults_installed(folder):
    """What is wrong with what `eel --install` puts in place, or takes away again."""
    prefix = os.path.join(folder, 'a prefix')
    subprocess.run([EEL, '--install', prefix], capture_output=True, check=True)
    for name in sorted(os.listdir(os.path.join(prefix, 'bin'))):
        if fault := fault_of([os.path.join(prefix, 'bin', name), '--help'], False):
            yield f'{name}: {fault}'
    subprocess.run([EEL, '--uninstall', prefix], capture_output=True, check=True)
    if os.path.exists(prefix):
        yield f'eel --uninstall leaves {os.listdir(prefix)}'


def explained(folder):
    """What is wrong with the lines that `eel` adds where EEL_EXPLAIN is 1, also of a run that is interrupted."""
    eel, program, told, looping = f'EEL_EXPLAIN=1 {quote(EEL)}', quote(PROGRAM), quote(folder), os.path.join(folder, 'looping')
    plus = f'{told}/for_plus && printf "\\0\\22" | dd of={told}/for_plus bs=1 seek=18 conv=notrunc 2>/dev/null'
    for command, *wanted in ((f'{eel} show {told}/missing', DEVICE, "missing isn't there"),
                             (f'{eel} edit {program} {told}/missing/out every', DEVICE, 'there is no folder'),
                             (f'{eel} shwo {program}', WORDS, 'there is no command `shwo`'),
                             (f'{eel} edit {program} {told}/out prfile', WORDS, '`prfile` is none of plain'),
                             (f'{eel} run {program} -n ten </dev/null', WORDS, '`ten` is none'),
                             (f'cp {program} {plus}; {eel} show {told}/for_plus', CONTENTS, 'V8+ is another; compile and link'),
                             (f'{eel} counts {program} {told}/lines', CONTENTS, 'was not written by `eel edit`'),
                             (f'{eel} run {program} -d {told}/out </dev/null', CONTENTS, '`run -d` wants such a one')):
        if fault := fault_of(['bash', '-c', command], *wanted):
            yield f'{command}: {fault}'
    with open(looping, 'wb') as made:
        made.write(Program('looping', '10800000 01000000', 0, '').file())
    subprocess.run([EEL, 'edit', looping, f'{looping}.written', 'every'], capture_output=True, check=True)
    words = [EEL, 'run', f'{looping}.written', '-n', f'{10 ** 15}', '-d', f'{looping}.dump']
    with subprocess.Popen(words, stdin=subprocess.DEVNULL, stderr=subprocess.PIPE, env={**os.environ, 'EEL_EXPLAIN': '1'},
                          start_new_session=True) as begun:
        runs = wait_for(begun, True)
        os.killpg(begun.pid, signal.SIGINT if runs else signal.SIGKILL)  # as a terminal does, to both
        errors = begun.communicate(timeout=SECONDS)[1].decode()
    if begun.returncode != 130 or 'interrupted: no dump was written' not in errors:
        yield f'eel run -d: status {begun.returncode} by an interrupt: {errors}'


def fault_of(words, refused, told=''):
    """What is wrong with the answer to a call, or None. It is refused by a status that isn't 0, or by that number, and says
    what is wanted."""
    try:
        called = subprocess.run(words, stdin=subprocess.DEVNULL, capture_output=True, timeout=SECONDS)
    except subprocess.TimeoutExpired:
        return f'it goes on behind {SECONDS} seconds'
    if b'Traceback' in called.stderr:
        return called.stderr.decode('utf-8', 'replace').strip().split('\n')[-1]
    wrong = (called.returncode != 0) != refused if isinstance(refused, bool) else called.returncode != refused
    if wrong:
        return f'status {called.returncode}'
    if refused is True and not called.stderr.strip() and not called.stdout.strip():
        return 'no line'
    return None if told.encode() in called.stdout + called.stderr else f'it says {(called.stdout + called.stderr).decode()}'


def main():
    parser_of(__doc__).parse_args()
    heed_signals()
    built(EEL)
    with tempfile.TemporaryDirectory() as folder:
        os.mkfifo(os.path.join(folder, 'never'))
        calls = [([path, '--help'], False) for path in scripts()]
        calls += [([f'{TOP}/{file}', '--version'], 0, first_line(EEL, '--version')) for file in commands().values()]
        calls += wrong_calls(folder)
        calls += [(['bash', '-c', command], *wanted) for command, *wanted in chain(told(folder), overwritten(folder), patched(folder))]
        in_turn = [(['bash', '-c', command], status) for command, status in streams(folder)]  # of which the first makes a file
        faults = 0
        for fault in chain(faults_installed(folder), interrupted(folder), explained(folder)):
            print(fault, flush=True)
            faults += 1
        with ThreadPoolExecutor(min(8, len(os.sched_getaffinity(0)))) as pool:
            found = chain(zip(calls, pool.map(lambda call: fault_of(*call), calls)), ((call, fault_of(*call)) for call in in_turn))
            for (words, *_), fault in found:
                if fault:
                    print(f'{" ".join(words)}: {fault}'.replace(f'{TOP}/', ''), flush=True)
                    faults += 1
        calls += in_turn
    print(f'{len(calls)} calls, {faults} answered otherwise')
    return faults > 0


if __name__ == '__main__':
    sys.exit(main())
