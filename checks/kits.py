#!/usr/bin/env python3
"""Builds a small repository with stand-ins for kits, and says where build.py, the launcher or .ci/run does otherwise than it
should: which way they take with which kit, what they say, what they leave, and what signals, other calls, a gate, a pull and
a full disk do to them. Nothing is proved. It takes half a minute. Where no small file system can be mounted, a full disk is
left out, which is said."""
import contextlib
import fcntl
import os
import pty
import re
import shutil
import signal
import subprocess
import sys
import tempfile
import time
from concurrent.futures import ThreadPoolExecutor

from called import TOP, heed_signals, note, parser_of, read_file

sys.path.insert(0, TOP)
sys.dont_write_bytecode = True
import build

CRATES = 'low:\nmiddle: low\nside: low\neel_main: side middle low\n'
KNOWN, PARTS, OPTIONS = build.KIT_KNOWN, build.KIT_PARTS, ' '.join(build.KIT_OPTIONS)
LOGIC = KNOWN.rpartition(' ')[2]
OTHER_NAME, OTHER_LOGIC = f'rattle-kit-other logic {LOGIC}', 'rattle-kit-other logic 0123456789abcdef'
PROGRAM = '#!/bin/sh\\necho "made by $0"\\n'
# What stand-ins do. Each call is noted in CALLS; what LASTS names runs until it is let go, with a process that runs on.
LAST = '''
last() {
    [ "$1" = "$LASTS" ] || return 0
    sleep 600 &
    echo "$$ $!" >>"$PROVERS"
    while [ -e "$PROVERS" ] && [ ! -e "$PROVERS.go" ] && kill -0 $! 2>/dev/null; do sleep 0.05; done
}
'''
RT = f'''#!/bin/sh
{LAST}
name=${{PWD##*/}}
echo "rt $1 $name" >>"$CALLS"
case $1 in
version) [ -n "$VERSION" ] || exit 2; echo "$VERSION" ;;
doc) echo "$KIT/START-HERE.md" ;;
lib) last "$name"; [ "$name" != "$BREAKS" ] || exit 1
    rm -rf out/rlib && mkdir -p "out/rlib/$name.rlib" && cat src/* >out/rlib/stamp ;;
run) [ "$BREAKS" != eel_main ] || exit 1
    mkdir -p out && printf '%b' "$PROGRAM" >out/eel_main && chmod 755 out/eel_main; exit 64 ;;
ci) rm -rf crates/*/out && mkdir -p crates/low/out/rlib/low.rlib crates/eel_main/out
    last ci
    kill $! 2>/dev/null
    [ -z "$BREAKS" ] || {{ echo '0 passed, 1 failed'; exit 1; }}
    printf '%b' "$PROGRAM" >crates/eel_main/out/eel_main && chmod 755 crates/eel_main/out/eel_main
    echo '9 passed, 0 failed' ;;
esac
'''
RATTLE = f'''#!/bin/sh
{LAST}
case $* in *--help) echo "$OPTIONS"; exit ;; esac
name= to= jobs= needs=
while [ $# -gt 0 ]; do
    case $1 in --crate-name) name=$2 ;; -o) to=$2 ;; --jobs) jobs=$2 ;; --extern) needs="$needs${{2#*=}}:" ;; esac
    shift
done
echo "rattle build $name $jobs" >>"$CALLS"
last "$name"
[ -z "$REFUSES" ] || exit 2
[ "$name" != "$BREAKS" ] || exit 1
[ "$name" != "$BREAKS_ONCE" ] || [ -e "$PROVERS.once" ] || {{ : >"$PROVERS.once"; exit 1; }}
IFS=:
for library in $needs; do
    case $library in */crates/*) [ -e "$library/toolchain/checked.a" ] || exit 1 ;; esac
done
case $to in *.rlib) mkdir -p "$to/toolchain" && echo archive >"$to/toolchain/checked.a" ;; *) : >"$to" ;; esac
[ "$name" != "$FILLS" ] || head -c 400000000 /dev/zero >"$to/zeros"
'''
LINK = '''#!/bin/sh
while [ "$1" != -o ]; do shift; done
[ -z "$UNLINKED" ] || exit 1
printf '%b' "$PROGRAM" >"$2" && chmod 755 "$2"
'''


class Place:
    """A small repository, and a kit."""

    def __init__(self, folder):
        self.folder = folder
        self.top, self.kit, self.bin, self.python, self.calls, self.provers = (
            os.path.join(folder, name) for name in ('top', 'kit', 'bin', 'python', 'calls', 'provers'))
        self.out = f'{self.top}/crates/eel_main/out'
        self.status, self.told, self.called = None, '', []
        for part in PARTS:
            self.write(f'{self.kit}/{part}' if '.' in part or part == 'WHAT' else f'{self.kit}/{part}/file', part)
        for name, text in (('rt', RT), ('rattle', RATTLE), ('rattle-link', LINK)):
            self.write(f'{self.kit}/bin/{name}', text, anew=True)
            os.chmod(f'{self.kit}/bin/{name}', 0o755)
        self.write(f'{self.bin}/rt', f'#!/bin/sh\nexec "{self.kit}/bin/rt" "$@"\n')  # no link, whose end would be the kit
        os.chmod(f'{self.bin}/rt', 0o755)
        self.link(self.python, python3=sys.executable)
        self.fill()

    @staticmethod
    def link(folder, **programs):
        """Makes a folder for a path, with these programs: that in which one stands may have an `rt` of its own."""
        os.makedirs(folder)
        for name, program in programs.items():
            os.symlink(program, f'{folder}/{name}')

    def fill(self):
        """Writes the repository."""
        for name in ('eel', 'build.py', 'build_times.txt', 'tools/terminal.sh', '.ci/run'):
            os.makedirs(os.path.dirname(f'{self.top}/{name}'), exist_ok=True)
            shutil.copy(os.path.join(TOP, name), os.path.join(self.top, name))
        self.write(f'{self.top}/checks/quick.py', '#!/bin/sh\nexec ./eel show x >&2\n')
        os.chmod(f'{self.top}/checks/quick.py', 0o755)
        self.write(f'{self.top}/crates.txt', CRATES)
        self.write(f'{self.top}/HANDLES', 'Handles allowed: none.\n')
        self.write(f'{self.top}/.gitignore', 'out/\n')
        for crate in re.findall(r'^(\w+):', CRATES, re.M):
            self.change(crate, f'// {crate}\n')

    def change(self, crate, text='// changed\n'):
        self.write(f'{self.top}/crates/{crate}/src/{"main" if crate == "eel_main" else "lib"}.rt', text)

    @staticmethod
    def write(name, text, anew=False):
        os.makedirs(os.path.dirname(name), exist_ok=True)
        if anew and os.path.isdir(name):
            shutil.rmtree(name)
        with open(name, 'w') as opened:
            opened.write(text)

    def given(self, version=KNOWN, path=None, **more):
        path = path or f'{self.bin}:{self.python}:/usr/bin:/bin'
        return {'PATH': path, 'HOME': self.top, 'KIT': self.kit, 'CALLS': self.calls, 'VERSION': version, 'OPTIONS': OPTIONS,
                'PROGRAM': PROGRAM, 'PROVERS': self.provers, 'REFUSES': '', 'BREAKS': '', 'BREAKS_ONCE': '',
                'LASTS': '', 'FILLS': '', 'UNLINKED': '', **more}

    def call(self, *words, **more):
        return self.ended(self.begin(*words, **more))

    def begin(self, *words, anew=True, **more):
        """Begins a command, in a session of its own."""
        if anew:
            for name in self.calls, self.provers, f'{self.provers}.go':
                self.write(name, '')
            os.remove(f'{self.provers}.go')
        with tempfile.NamedTemporaryFile(dir=self.folder, delete=False) as errors:
            begun = subprocess.Popen(words, cwd=self.top, env=self.given(**more), text=True, stdin=subprocess.DEVNULL,
                                     stdout=subprocess.PIPE, stderr=errors, start_new_session=True)
        begun.told = errors.name
        return begun

    def ended(self, begun):
        try:
            self.printed = begun.communicate(timeout=180)[0]
        except subprocess.TimeoutExpired:
            os.killpg(begun.pid, signal.SIGKILL)
            self.printed = 'it took too long'
        self.told = read_file(begun.told).decode()
        called = read_file(self.calls).decode()
        self.called = re.findall(r'(?:rattle build|rt lib) (\w+)', called)
        self.ways = {way for way, mark in (('rattle', 'rattle build'), ('rt', 'rt lib')) if mark in called}
        self.jobs = dict(re.findall(r'rattle build (\w+) (\d+)', called))
        self.status = begun.returncode
        return self

    def eel(self, **more):
        return self.call('./eel', 'show', 'x', **more)

    def built(self, name='built'):
        return read_file(f'{self.out}/{name}').decode().split('\n')[0] if os.path.exists(f'{self.out}/{name}') else ''

    def let_go(self, begun):
        """The end of a command whose provers lasted so far."""
        self.write(f'{self.provers}.go', '')
        return self.ended(begun)

    def logs(self):
        return [name for name in os.listdir(self.out) if name.startswith('build.')]

    def waits(self, begun):
        """Whether a command says that it waits, and begins no proof."""
        before = read_file(self.calls).count(b'build')
        said = until(lambda: b': waiting' in read_file(begun.told))
        return said and begun.poll() is None and read_file(self.calls).count(b'build') == before

    def until_proving(self):
        """Waits until what lasts has begun, and answers the processes that prove."""
        return until(lambda: [int(number) for number in read_file(self.provers).split()])

    def git(self, *words):
        author = ['-c', 'user.name=a', '-c', 'user.email=a@b', '-c', 'init.defaultBranch=main']
        return subprocess.run(['git', *author, *words], cwd=self.top, env=self.given(), capture_output=True, text=True,
                              check=True).stdout.strip()

    def commit(self):
        self.git('add', '-A')
        self.git('commit', '-qm', 'one')


def until(condition, seconds=60):
    """What a condition says once it says something, or once these seconds are over."""
    end = time.monotonic() + seconds
    while not (said := condition()) and time.monotonic() < end:
        time.sleep(0.02)
    return said


def lives(number):
    """Whether a process runs, which one that has ended and waits to be seen doesn't."""
    try:
        return read_stat(number).rpartition(')')[2].split()[0] not in 'ZX'
    except OSError:
        return False


def left_of(provers):
    """Which of these processes go on, once they have had time to end; they are ended, since they keep locks."""
    until(lambda: not any(map(lives, provers)), 30)
    left = list(filter(lives, provers))
    for number in left:
        os.kill(number, signal.SIGKILL)
    return left


def read_stat(number):
    with open(f'/proc/{number}/stat') as opened:
        return opened.read()


# Kits.

def known(place):
    place.eel()
    yield 'takes rattle', place.ways == {'rattle'} and place.status == 0 and 'made by' in place.printed
    yield 'says nothing of the kit', KNOWN not in place.told and 'logic' not in place.told
    yield 'notes the kit', place.built('kit') == KNOWN and place.built().endswith('statements')
    yield 'builds each once, lowest first', sorted(place.called) == ['eel_main', 'low', 'middle', 'side'] and \
        place.called[0] == 'low' and place.called[-1] == 'eel_main'
    yield 'says how far it is', '4 parts, ' in place.told and 'low is proved, 1 of 4' in place.told and \
        'the program is built, 4 of 4' in place.told
    yield 'leaves no logs', not place.logs()
    place.call('./eel', '--version')
    yield 'names the kit', f'proved with {KNOWN}' in place.printed
    place.eel(version=OTHER_LOGIC)
    yield 'a new kit builds nothing again', not place.ways and place.status == 0
    place.change('middle')
    place.call('./build.py')
    yield 'a change is built, with what stands on it', place.ways == {'rattle'} and place.status == 0 and \
        sorted(place.called) == ['eel_main', 'middle']


def other_name(place):
    place.eel(version=OTHER_NAME)
    yield 'takes rattle', place.ways == {'rattle'} and place.status == 0
    yield 'says that the logic is the same', f'the kit is {OTHER_NAME}' in place.told and 'logic is the same' in place.told
    yield 'says it in one line', sum('kit' in line for line in place.told.split('\n')) == 1
    yield 'notes the kit', place.built('kit') == OTHER_NAME


def other_logic(place):
    place.eel(version=OTHER_LOGIC)
    yield 'takes rt', place.ways == {'rt'} and place.status == 0 and 'made by' in place.printed
    yield 'says why', 'it has another logic, under which proofs may fail' in place.told
    yield 'notes how', place.built().endswith('by_rt') and place.built('kit') == OTHER_LOGIC
    yield 'has the libraries', os.path.isdir(f'{place.top}/crates/middle/out/rlib/middle.rlib')
    place.write(f'{place.top}/crates/low/out/rlib/old', 'a file of an older library')
    place.change('low')
    place.call('./build.py', version=OTHER_LOGIC)
    yield 'leaves nothing of an old library', place.status == 0 and 'low' in place.called and \
        not os.path.exists(f'{place.top}/crates/low/out/rlib/old')


def no_version(place):
    place.eel(version='')
    yield 'takes rt', place.ways == {'rt'} and place.status == 0
    yield 'says why', 'says no version' in place.told


def part_gone(place):
    shutil.rmtree(f'{place.kit}/logic_built')
    place.eel(version=OTHER_NAME)
    yield 'takes rt', place.ways == {'rt'} and place.status == 0
    yield 'says which', 'it lacks logic_built' in place.told
    place.change('low')
    os.remove(f'{place.out}/built')
    place.eel(version=KNOWN)
    yield 'says that the known one is changed', f'the kit in {place.kit} is changed: it lacks' in place.told


def option_gone(place):
    place.eel(version=OTHER_NAME, OPTIONS=OPTIONS.replace('--statements', ''))
    yield 'takes rt', place.ways == {'rt'} and place.status == 0
    yield 'says which', 'it lacks --statements of `rattle build`' in place.told


def refuses_words(place):
    place.eel(version=OTHER_NAME, REFUSES='yes')
    yield 'takes rt in the end', place.ways == {'rattle', 'rt'} and place.status == 0 and 'made by' in place.printed
    yield 'says why', 'its `rattle build` ends otherwise' in place.told
    yield 'leaves no logs', not place.logs()


def no_folder_told(place):
    """The kit's folder is found by the link in the path."""
    os.remove(f'{place.bin}/rt')
    os.symlink(f'{place.kit}/bin/rt', f'{place.bin}/rt')
    place.eel(KIT='/nowhere')
    yield 'takes rattle', place.ways == {'rattle'} and place.status == 0


def proof_fails(place):
    place.eel(version=OTHER_LOGIC, BREAKS='middle')
    yield 'ends', place.status == 78 and not place.built() and not place.printed
    yield 'names the kit as a cause', f'says why. That may be since the kit is {OTHER_LOGIC}' in place.told
    place.eel(version=KNOWN, BREAKS='middle')
    yield 'the known one is no cause', place.status == 78 and 'says why\n' in place.told
    yield 'is tried once more, and nothing above', place.called.count('middle') == 2 and 'eel_main' not in place.called
    place.eel(BREAKS_ONCE='side')
    yield 'what is proved stays, and once more is enough', place.status == 0 and 'low' not in place.called
    place.change('eel_main')
    place.call('./build.py', UNLINKED='yes')
    yield 'what is not linked is not built', place.status == 78 and not place.built() and 'is built' not in place.told


def few(place):
    """A folder with what the launcher calls of the system's programs."""
    place.link(f'{place.folder}/few', **{name: shutil.which(name) for name in ('readlink', 'sed', 'cat', 'git')})
    return f'{place.folder}/few'


def no_rt(place):
    place.eel(path=f'{few(place)}:{place.python}')
    yield 'ends', place.status == 78 and "isn't in the path" in place.told and place.told.count('\n') == 1


def no_python(place):
    place.eel(path=f'{few(place)}:{place.bin}')
    yield 'ends', place.status == 78 and 'python3' in place.told and place.told.count('\n') == 1


# What stands in out/.

def kept(place):
    place.call('./build.py', '--keep')
    yield 'is built by rt', place.ways == {'rt'} and place.built().endswith('kept') and place.status == 0
    place.change('eel_main')
    place.call('./build.py', '--keep', BREAKS='eel_main')
    yield "what can't be built isn't noted as built", place.status == 78 and not place.built()
    yield 'nor said to be', 'is built' not in place.told
    yield 'nor left', not os.path.exists(f'{place.out}/eel_main')
    place.git('init', '-q')
    place.commit()
    place.call('./build.py', '--keep', version=OTHER_LOGIC)
    yield 'another logic is told of', place.status == 0 and 'proofs may fail' in place.told
    place.change('low')
    place.commit()
    place.eel()
    yield 'what is kept is run as it is', not place.ways and place.status == 0 and not place.told


def changed_and_back(place):
    """What was built of changes that aren't committed is looked at each time: they may be others, or gone."""
    place.git('init', '-q')
    place.commit()
    place.change('low')
    place.eel()
    yield 'is built of changes', place.status == 0 and place.built().endswith('statements changed')
    place.eel()
    yield 'is run', not place.ways and place.status == 0 and not place.told
    place.git('checkout', '-q', '--', 'crates')
    place.eel()
    yield 'is built of what is committed', place.ways == {'rattle'} and place.status == 0 and place.built().endswith('statements')
    yield 'which is said', 'the sources have changed since the program was built\n' in place.told


def of_a_gate(place):
    """What .ci/run leaves is taken, and what `rt ci` alone leaves, which nothing says the sources of, is built again."""
    place.call('.ci/run')
    yield 'passes', place.status == 0 and place.printed.endswith('9 passed, 0 failed\n') and 'made by' in place.told
    yield 'is noted', place.built().endswith('gate') and place.built('kit') == KNOWN
    place.eel()
    yield 'is run', not place.ways and place.status == 0
    place.call('./build.py')
    yield 'is enough', not place.ways and place.status == 0
    place.change('low')
    place.eel()
    yield 'is run at the same commit', not place.ways and place.status == 0
    place.call('./eel', '--version')
    yield 'a change is seen', 'the sources have changed' in place.printed
    place.call('rt', 'ci')
    place.call('./eel', '--version')
    yield 'no commit is claimed', 'not built yet' in place.printed
    place.eel()
    yield 'is built again', place.ways == {'rattle'} and place.built().endswith('statements')
    place.call('.ci/run', BREAKS='low')
    yield 'what fails is not noted', place.status == 1 and not place.built() and '1 failed\n' in place.printed


def changed_in_a_gate(place):
    gate = place.begin('.ci/run', LASTS='ci')
    place.until_proving()
    place.change('low')
    place.let_go(gate)
    yield 'is built behind it', place.ways == {'rattle'} and place.built().endswith('statements')


def changed_in_a_build(place):
    begun = place.begin('./build.py', LASTS='low')
    place.until_proving()
    place.change('low')
    place.let_go(begun)
    yield 'is built, too', place.status == 0 and place.called.count('low') == 2 and 'sources were changed' in place.told
    place.call('./eel', '--version')
    yield 'is what stands there', 'have changed' not in place.printed


def pulls(place):
    place.git('init', '-q')
    place.commit()
    for way, words in ('statements', ['./eel', 'show', 'x']), ('gate', ['.ci/run']):
        place.call(*words)
        yield f'{way}: is built', place.status == 0 and place.built().endswith(way)
        place.change('low', f'// {way}\n')
        place.commit()
        place.eel()
        yield f'{way}: another commit is built', place.ways == {'rattle'} and 'sources have changed' in place.told
        place.write(f'{place.top}/README.md', way)
        place.commit()
        place.git('pack-refs', '--all')
        place.eel()
        yield f'{way}: one of the same sources is not', not place.ways and place.status == 0 and not place.told
        yield f'{way}: and is noted', place.built().startswith(place.git('rev-parse', 'HEAD'))
    place.call('rt', 'ci')
    place.change('low', '// pulled behind it\n')
    place.commit()
    place.eel()
    yield 'a pull behind `rt ci` is built', place.ways == {'rattle'} and place.status == 0


def packed(place):
    place.call('./build.py')
    archive = f'{place.top}/crates/low/out/rlib/low.rlib/toolchain/checked.a'
    yield 'is packed', os.path.exists(f'{archive}.gz') and not os.path.exists(archive)
    place.change('middle')
    place.call('./build.py')
    yield 'is unpacked for what stands on it', place.status == 0 and sorted(place.called) == ['eel_main', 'middle']
    place.write(f'{archive}.gz', 'no archive')
    place.change('middle', '// again\n')
    place.call('./build.py')
    yield 'a damaged one is told of', place.status == 78 and '--clean' in place.told and 'Traceback' not in place.told
    place.call('./eel', '--clean')
    yield 'all goes but the program', place.status == 0 and 'MB were removed' in place.printed and \
        sorted(os.listdir(place.out)) == ['built', 'eel_main', 'kit'] and not os.path.exists(f'{place.top}/crates/low/out')


# Words.

def words(place):
    for given in ['--what'], ['low'], ['--keep', 'low'], ['--sum', '--keep'], ['--note'], ['']:
        place.call('./build.py', *given)
        yield f'build.py {given}: builds nothing', place.status == 64 and not place.ways and place.told.count('\n') == 1
    place.call('./build.py', '--help')
    yield '--help', place.status == 0 and not place.ways and '--keep' in place.printed and not place.told
    place.call('./eel', 'run', '--help')
    yield 'help of a command', place.status == 0 and not place.ways and '[-n LIMIT]' in place.printed and not place.told
    place.call('./build.py', '--sum')
    yield '--sum', place.status == 0 and re.fullmatch('[0-9a-f]{64}\n', place.printed) and not place.ways
    for given in ['what'], ['--what'], []:
        place.call('./eel', *given)
        yield f'eel {given}: builds nothing', (place.status, place.told, place.ways) == (64, 'eel: bad words\n', set())
    full = subprocess.run('./build.py --sum >/dev/full', shell=True, cwd=place.top, env=place.given(), capture_output=True)
    yield 'a full device', full.returncode in (74, 78) and b'Traceback' not in full.stderr and full.stderr.count(b'\n') == 1


def not_to_be_written(place):
    place.write(f'{place.top}/crates/eel_main/out', 'no folder')
    place.call('./build.py')
    yield 'is told of', place.status == 74 and place.told.count('\n') == 1 and 'crates/eel_main/out: ' in place.told


def on_a_terminal(place):
    """What the launcher adds where the error stream is a terminal."""
    place.call('./build.py', PROGRAM='#!/bin/sh\\nexit 64\\n')
    for given, line in ((['what'], 'eel: there is no command `what`'), (['trace', 'x'], 'eel: 1 more word wanted'),
                        (['show', 'x', 'y'], 'eel: `y` is one word too many'),
                        (['edit', 'x', 'y', 'trace', '99'], 'eel: `99` is no number from 1 to 16')):
        status, told = on_terminal(place, given)
        if status is None:
            note('there are no terminals: what is said on one is left out')
            return
        yield f'{given}: is explained', line in told.split('\r\n') and status == 64


def on_terminal(place, given):
    """The status of a call whose error stream is a terminal, and what stands there; or nothing where there are none."""
    try:
        ours, theirs = pty.openpty()
    except OSError:
        return None, ''
    begun = subprocess.Popen(['./eel', *given], cwd=place.top, env=place.given(), stdin=subprocess.DEVNULL,
                             stdout=subprocess.DEVNULL, stderr=theirs)
    os.close(theirs)
    told = b''
    with contextlib.suppress(OSError):  # which says that nobody has it open any more
        while piece := os.read(ours, 9999):
            told += piece
    os.close(ours)
    return begun.wait(), told.decode()


# Signals.

def ended_by(number, of_build, version=KNOWN):
    def case(place):
        bystander = subprocess.Popen(['sleep', '600'], stdin=subprocess.DEVNULL, stdout=subprocess.DEVNULL)
        own = ['./build.py'] if of_build else ['./eel', 'show', 'x']
        begun = place.begin(*own, LASTS='low', version=version)
        provers = place.until_proving()
        if of_build == 'group':
            os.killpg(begun.pid, number)
        else:
            os.kill(begun.pid, number)
        place.ended(begun)
        yield 'ends with its status', place.status == 128 + number
        yield 'says so in one line', 'interrupted: what is proved stays' in place.told and 'Traceback' not in place.told
        yield 'ends the provers', len(provers) == 2 and not left_of(provers)
        yield 'and no other', bystander.poll() is None
        bystander.kill()
        place.eel(version=version)
        yield 'the next call goes on', place.status == 0 and 'made by' in place.printed
    case.__name__ = f'{signal.Signals(number).name} to {of_build or "eel"} with {version}'
    return case


def gate_ended_by(number):
    def case(place):
        gate = place.begin('.ci/run', LASTS='ci')
        provers = place.until_proving()
        os.kill(gate.pid, number)
        place.ended(gate)
        yield 'ends with its status', place.status == 128 + number and not place.built()
        yield 'ends the provers', len(provers) == 2 and not left_of(provers)
        place.call('.ci/run')
        yield 'the next one passes', place.status == 0 and place.built().endswith('gate')
    case.__name__ = f'{signal.Signals(number).name} to a gate'
    return case


def ended_in_the_midst(place):
    begun = place.begin('./build.py', LASTS='middle')
    provers = place.until_proving()
    until(lambda: os.path.exists(f'{place.top}/crates/side/out/rlib/made_from'))
    begun.terminate()
    place.ended(begun)
    yield 'ends the provers', not left_of(provers)
    place.eel()
    yield 'only the rest is built', sorted(place.called) == ['eel_main', 'middle'] and place.status == 0


def hung_up_in_peace(place):
    """With SIGHUP ignored, as by nohup, a build goes on."""
    begun = place.begin('sh', '-c', "trap '' HUP; exec ./eel show x", LASTS='low')
    place.until_proving()
    os.killpg(begun.pid, signal.SIGHUP)
    place.let_go(begun)
    yield 'goes on', place.status == 0 and 'made by' in place.printed


def killed(place):
    """The provers of a build that is killed outright keep the next one out until they end."""
    begun = place.begin('./build.py', LASTS='low')
    provers = place.until_proving()
    begun.kill()
    begun.communicate()
    later = place.begin('./eel', 'show', 'x', anew=False)
    yield 'the next one waits', place.waits(later) and any(map(lives, provers))
    os.kill(provers[1], signal.SIGKILL)
    place.let_go(later)
    yield 'and goes on', place.status == 0 and 'another call builds it' in place.told


# Two at once.

def two_builds(place):
    first = place.begin('./eel', 'show', 'x', LASTS='low')
    provers = place.until_proving()
    second = place.begin('./build.py', anew=False)
    yield 'the second waits', place.waits(second)
    place.let_go(second)
    yield 'and says so', place.status == 0 and 'another call builds it' in place.told
    place.ended(first)
    yield 'what a prover left running ends with it', not left_of(provers)
    yield 'each is built once', sorted(place.called) == ['eel_main', 'low', 'middle', 'side'] and place.status == 0


def cleaned_in_a_build(place):
    begun = place.begin('./build.py', LASTS='low')
    place.until_proving()
    place.ended(place.begin('./eel', '--clean', anew=False))
    yield 'is refused', place.status == 74 and 'being built' in place.told
    place.let_go(begun)
    yield 'and does nothing', place.status == 0


def build_in_a_gate(place):
    gate = place.begin('.ci/run', LASTS='ci')
    place.until_proving()
    later = place.begin('./eel', 'show', 'x', anew=False)
    yield 'waits', place.waits(later)
    place.let_go(later)
    yield 'and says so', 'a gate proves it: waiting' in place.told and place.status == 0 and 'made by' in place.printed
    place.ended(gate)
    yield 'and takes its program', place.status == 0 and not place.ways and place.built().endswith('gate')


def gate_in_a_build(place):
    begun = place.begin('./build.py', LASTS='low')
    place.until_proving()
    gate = place.begin('.ci/run', anew=False)
    yield 'waits', place.waits(gate) and not until(lambda: b'rt ci' in read_file(place.calls), 2)
    place.let_go(begun)
    yield 'the build ends well', place.status == 0 and place.called[-1:] == ['eel_main']
    place.ended(gate)
    yield 'the gate, too', place.status == 0 and 'being built: waiting' in place.told and place.built().endswith('gate')


def own_lock_of_a_gate(place):
    """`rt ci` locks a file of its own, where there is a folder of git."""
    place.git('init', '-q')
    with open(f'{place.top}/.git/rt-ci.lock', 'w') as held:
        fcntl.flock(held, fcntl.LOCK_EX)
        later = place.begin('./eel', 'show', 'x')
        yield 'is waited for', place.waits(later)
    place.ended(later)
    yield 'and it is said', 'a gate proves it: waiting' in place.told and place.status == 0


# A full disk.

def full_disk(place):
    shutil.rmtree(place.top)
    for size, what in ('90m', 'before'), ('260m', 'on the way'):
        os.mkdir(place.top)
        words = ['mount', '-t', 'tmpfs', '-o', f'size={size}', 'tmpfs', place.top]
        if not shutil.which('mount') or subprocess.run(words, capture_output=True).returncode:
            note('no small file system can be mounted: a full disk is left out')
            return
        try:
            place.fill()
            yield from (told_before if what == 'before' else told_on_the_way)(place)
        finally:
            subprocess.run(['umount', '-l', place.top], check=True)
            os.rmdir(place.top)


def told_before(place):
    place.eel()
    yield 'is told before', place.status == 78 and 'a build takes 100 MB' in place.told and not place.ways
    yield 'in one line', place.told.count('\n') == 1


def told_on_the_way(place):
    place.eel(FILLS='middle')
    yield 'is told on the way', place.status == 78 and 'is full: a build takes 100 MB' in place.told
    yield 'and nothing more is begun', place.called.count('middle') == 1 and 'eel_main' not in place.called
    yield 'in one line', place.told.count('full') == 1 and 'could not be proved' not in place.told
    shutil.rmtree(f'{place.top}/crates/middle/out')
    place.eel()
    yield 'the next call goes on', place.status == 0 and 'low' not in place.called


CASES = [known, other_name, other_logic, no_version, part_gone, option_gone, refuses_words, no_folder_told, proof_fails,
         no_rt, no_python, kept, changed_and_back, of_a_gate, changed_in_a_gate, changed_in_a_build, pulls, packed, words,
         not_to_be_written, on_a_terminal,
         *(ended_by(number, of_build) for number in build.SIGNALS for of_build in ('build', '')),
         *map(gate_ended_by, build.SIGNALS), ended_by(signal.SIGINT, 'group'), ended_by(signal.SIGTERM, 'build', OTHER_LOGIC), ended_in_the_midst,
         hung_up_in_peace, killed, two_builds, cleaned_in_a_build, build_in_a_gate, gate_in_a_build, own_lock_of_a_gate,
         full_disk]


def outcome(case):
    """How many claims a case has, and a line for each that doesn't hold."""
    claims, faults = 0, []
    # A stand-in that is ending may still write there.
    with tempfile.TemporaryDirectory(prefix='a place ', ignore_cleanup_errors=True) as folder:
        place = Place(folder)
        for what, holds in case(place):
            claims += 1
            if not holds:
                line = f'{case.__name__}: {what}: not so; status {place.status}, called {place.called}'
                faults.append(f'{line}\n{place.told}')
    return claims, faults


def main():
    parser_of(__doc__).parse_args()
    heed_signals()
    with ThreadPoolExecutor(4) as pool:
        outcomes = list(pool.map(outcome, CASES))
    faults = [line for _, lines in outcomes for line in lines]
    print(*faults, f'{sum(claims for claims, _ in outcomes)} claims, {len(faults)} not so', sep='\n')
    return len(faults) > 0


if __name__ == '__main__':
    sys.exit(main())
