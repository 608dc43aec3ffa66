#!/usr/bin/env python3
"""Proves and builds the program, crate by crate, as many at once as there are processors and 4 GB of memory for each.

    build.py             what isn't built of what stands here, with a line on the error stream for each crate that is done
    build.py --keep      all of it by `rt lib`, which keeps what it proves for whoever changes a crate; it takes longer
    build.py --sum       print a sum of all sources of the program
    build.py --note SUM  note that `rt ci` built the program of the sources of this sum, if they still stand here
    build.py --clean     remove what was built but the program

A library that the first builds holds what it states, and no proofs: else the program reads those of each function that
it reaches, for two minutes. What an interrupted call has built isn't built again; of two calls, or a call and a gate, one
waits for the other. The program has a file `built` beside it: the commit of which it was built, the sum of its sources, and
how. The status is 0 where it is done, 64 for other words, 70 for want of memory, 74 where a file can't be read or written,
and 78 where the build can't be had: there is no `rt`, a crate isn't proved, or the disk is full.
"""
import sys

if sys.version_info < (3, 10):
    sys.stderr.write('eel: a build takes Python 3.10 or newer, and python3 is %d.%d\n' % sys.version_info[:2])
    sys.exit(78)

import contextlib
import errno
import fcntl
import glob
import gzip
import hashlib
import os
import re
import shutil
import signal
import subprocess
import tempfile
import threading
import time
import zlib
from concurrent.futures import FIRST_COMPLETED, ThreadPoolExecutor, wait
from graphlib import TopologicalSorter

TOP = os.path.dirname(os.path.realpath(__file__))
CRATES = f'{TOP}/crates'
OUT = f'{CRATES}/eel_main/out'
PROGRAM = f'{OUT}/eel_main'
FOR_A_CRATE = 4_000_000_000  # bytes of memory
MEANWHILE = 120  # seconds after which a crate is told of that isn't done

# The kit with which all of this was last proved; what a build takes of one by its place, and which options it gives.
KIT_KNOWN = 'rattle-kit-13f logic dac8208d650f15bf'
KIT_PARTS = ['WHAT', 'rlibs/std.rlib', 'bin/rattle', 'bin/rattle-link', 'toolchain', 'logic_built',
             'rattle/logic/antt-project.json', 'c/libos_c.a', 'c/liblibc_c.a']
KIT_OPTIONS = ['--crate-name', '--extern', '--links', '--antt-project', '--logic-built', '--jobs', '--statements',
               '--toolchain', '--backend']


def say(line):
    """One line on the error stream, if there is one."""
    try:
        os.write(2, f'eel: {line}\n'.encode(errors='replace'))
    except OSError:
        pass


def stop(line, status=78):
    say(line)
    sys.exit(status)


def told(*words):
    """What a command prints, or nothing where it fails."""
    try:
        done = subprocess.run(words, stdin=subprocess.DEVNULL, stdout=subprocess.PIPE, stderr=subprocess.DEVNULL)
    except OSError:
        return ''
    return '' if done.returncode else done.stdout.decode(errors='replace').strip()


def read(name):
    """What stands in a file, or nothing where it isn't there."""
    try:
        with open(name, 'rb') as opened:
            return opened.read()
    except FileNotFoundError:
        return b''


# Provers: each has a session of its own, so that a signal ends all that it began, and nothing of the caller's.
SIGNALS = signal.SIGINT, signal.SIGTERM, signal.SIGHUP
RUNNING, RUNNING_HELD, LOCKS = set(), threading.Lock(), []


def run(words, folder, log):
    """The status of a command, with which ends what it left running. It has the locks, too, in case that this is killed."""
    with RUNNING_HELD:
        begun = subprocess.Popen(words, cwd=folder, stdin=subprocess.DEVNULL, stdout=log, stderr=log,
                                 start_new_session=True, pass_fds=LOCKS)
        RUNNING.add(begun)
    os.waitid(os.P_PID, begun.pid, os.WEXITED | os.WNOWAIT)  # its number stays its own
    with RUNNING_HELD:
        RUNNING.remove(begun)
        os.killpg(begun.pid, signal.SIGKILL)
    return begun.wait()


def end(number, _):
    """Ends all that runs, and this, as a signal asks. A second one, as where a group and its leader each get one, changes
    nothing."""
    for other in SIGNALS:
        signal.signal(other, signal.SIG_IGN)
    RUNNING_HELD.acquire()
    for begun in RUNNING:
        os.killpg(begun.pid, signal.SIGKILL)
    say('interrupted: what is proved stays, and the next call goes on')
    os._exit(128 + number)


def hold(waits=True):
    """Keeps other builds and gates from these folders until this ends, and answers whether it could. They lock `crates`;
    the other file is `rt ci`'s own."""
    for name, flags in (CRATES, os.O_RDONLY), (f'{TOP}/.git/rt-ci.lock', os.O_RDWR | os.O_CREAT):
        try:
            LOCKS.append(os.open(name, flags, 0o666))
            is_held = is_locked(LOCKS[-1])
            if not is_held and not waits:
                return False
            if not is_held:
                say('another call builds it, or a gate proves it: waiting')
            while not is_locked(LOCKS[-1]):
                time.sleep(0.5)
        except OSError:
            pass  # some file systems have no locks, and some checkouts no such folder
    return True


def is_locked(opened):
    """Whether a file is locked for this process now."""
    try:
        fcntl.flock(opened, fcntl.LOCK_EX | fcntl.LOCK_NB)
        return True
    except BlockingIOError:
        return False


# Processors and memory are read as the kit's commands read them: those of the control group count, too.
GROUP = '/sys/fs/cgroup'
QUOTAS = [((f'{GROUP}/cpu.max', r'^(\d+)'), (f'{GROUP}/cpu.max', r' (\d+)')),
          ((f'{GROUP}/cpu/cpu.cfs_quota_us', r'^(\d+)'), (f'{GROUP}/cpu/cpu.cfs_period_us', r'(\d+)'))]
LIMITS = [((f'{GROUP}/memory.max', r'^(\d+)'), (f'{GROUP}/memory.stat', r'anon (\d+)')),
          ((f'{GROUP}/memory/memory.limit_in_bytes', r'^(\d+)'), (f'{GROUP}/memory/memory.stat', r'total_rss (\d+)'))]


def number_in(name, pattern):
    found = re.search(pattern, read(name).decode(errors='replace'))
    return int(found[1]) if found else 0


def pairs_in(places):
    """The pairs of numbers that stand in these files, of those that do."""
    pairs = ((number_in(*first), number_in(*second)) for first, second in places)
    return [pair for pair in pairs if all(pair)]


def places():
    """How many crates are proved at once."""
    processors = [len(os.sched_getaffinity(0)), *(max(quota // period, 1) for quota, period in pairs_in(QUOTAS))]
    memory = [1024 * number_in('/proc/meminfo', r'MemAvailable:\s+(\d+)')]
    memory += [limit - used for limit, used in pairs_in(LIMITS)]
    return min(*processors, max(min(memory) // FOR_A_CRATE, 1))


def megabytes_free():
    there = os.statvfs(OUT)
    return there.f_bavail * there.f_frsize >> 20


def is_full():
    return megabytes_free() < 100


# Crates, and sums of what they are made from.

def lines_of(name):
    """The first word of each line of a list, with the others."""
    lines = (line.replace(':', ' ').split() for line in read(f'{TOP}/{name}').decode().split('\n') if line[:1] != '#')
    return {words[0]: words[1:] for words in lines if words}


NEEDS = lines_of('crates.txt')


def below(name):
    """The crates of crates/ that a crate stands on, those that stand on most first."""
    return [other for other in reversed(NEEDS) if other in NEEDS[name]]


def library(name):
    return f'{CRATES}/{name}/out/rlib'


def sum_of_files(top, folders):
    """A sum of all files of these folders, with their names."""
    files = sorted(os.path.relpath(f'{at}/{name}', top) for folder in folders
                   for at, _, names in os.walk(f'{top}/{folder}') for name in names)
    lines = [f'{hashlib.sha256(read(f"{top}/{name}")).hexdigest()}  {name}\n' for name in files]
    return hashlib.sha256(''.join(lines).encode())


def sum_of_sources():
    """A sum of all sources of the program, which another commit may have, too."""
    parts = [f'{name}/{part}' for name in [*below('eel_main'), 'eel_main'] for part in ('src', 'specs', 'proofs')]
    whole = sum_of_files(CRATES, parts)
    whole.update(f'{KIT_KNOWN}\n'.encode())
    return whole.hexdigest()


def made_from(name, kit):
    """A sum of all that a library is made from: its sources, the kit, and what those below are made from."""
    whole = sum_of_files(f'{CRATES}/{name}', ['src', 'specs', 'proofs'])
    whole.update(read(f'{kit}/WHAT'))
    for other in below(name):
        whole.update(read(f'{library(other)}/made_from') or b'none\n')
    return f'{whole.hexdigest()}  -\n'.encode()


class Kit:
    """The kit of the `rt` in the path, and whether that may be why a proof fails."""

    def __init__(self):
        command = shutil.which('rt')
        if not command:
            stop(f"`rt` ({KIT_KNOWN.split()[0]} or another kit) isn't in the path: README, Set-up")
        self.name, self.folder = told('rt', 'version').partition('\n')[0], os.path.dirname(told('rt', 'doc'))
        if not os.path.isdir(self.folder):
            self.folder = os.path.dirname(os.path.dirname(os.path.realpath(command)))
        found = self.name or 'one that says no version'
        self.doubt = '' if self.name == KIT_KNOWN else f'the kit is {found}, not {KIT_KNOWN}'

    def way(self):
        """How it is to build. One of the known logic that has all of the above does as the known one; any other does by
        `rt lib` and `rt run`, which each kit has."""
        if self.name.rpartition(' logic ')[2] != KIT_KNOWN.rpartition(' logic ')[2]:
            return self.by_rt('it has another logic, under which proofs may fail')
        options = told(f'{self.folder}/bin/rattle', 'build', '--help')
        lacking = [part for part in KIT_PARTS if not os.path.exists(f'{self.folder}/{part}')]
        lacking += [f'{option} of `rattle build`' for option in KIT_OPTIONS if option not in options]
        if lacking:
            return self.by_rt(f'it lacks {lacking[0]}')
        if self.doubt:
            say(f'{self.doubt}; their logic is the same')
        return 'statements'

    def by_rt(self, why):
        self.doubt = self.doubt or f'the kit in {self.folder} is changed'
        say(f'{self.doubt}: {why}, so that `rt lib` builds all, which takes longer and more room')
        return 'by_rt'


class Build:
    """What is to be built in one way, and how far it is."""

    def __init__(self, kit, way):
        self.kit, self.way, self.logs = kit, way, ''
        self.begun, self.ended, self.failed, self.next_line = {}, {}, {}, {}
        self.wanted = self.changed()
        usual = lines_of('build_times.txt')
        self.usual = {name: int(usual.get(name, ['60'])[0]) for name in self.wanted}
        self.chain = self.chains(self.usual)
        self.places = places()

    def changed(self):
        """The crates that aren't built of what stands here, those that stand on them, and the program."""
        found = []
        for name in reversed(below('eel_main')):
            made = library(name)
            is_old = self.way != 'statements' or not os.path.isdir(f'{made}/{name}.rlib')
            is_old = is_old or read(f'{made}/made_from') != made_from(name, self.kit.folder)
            if is_old or not set(found).isdisjoint(NEEDS[name]):
                found.append(name)
        return [*found, 'eel_main']

    def unbuilt(self):
        return [name for name in self.wanted if name not in self.ended]

    # How long it takes, by what each crate took elsewhere.

    @staticmethod
    def chains(lasts):
        """The seconds that the longest chain takes of those that stand on each other, from each crate's begin on."""
        chain = {}
        for name in reversed(lasts):
            chain[name] = lasts[name] + max((chain[other] for other in chain if name in NEEDS[other]), default=0)
        return chain

    def pace(self):
        """How slow this machine was so far."""
        here = sum(self.ended[name] - self.begun[name] for name in self.ended)
        return here / sum(self.usual[name] for name in self.ended) if self.ended else 1

    def minutes_left(self):
        """By the longest chain of what is left, or all of it over the processors, whichever is more. In the first third
        little is known of the machine, and mostly they become more."""
        now, pace = time.time(), self.pace()
        lasts = {name: max(5, pace * self.usual[name] - (now - self.begun.get(name, now))) for name in self.unbuilt()}
        seconds = max([sum(lasts.values()) / self.places, *self.chains(lasts).values()])
        is_early = 3 * sum(self.usual[name] for name in self.ended) < sum(self.usual.values())
        return f'{"at least" if is_early else "about"} {int(seconds / 60) + 1}'

    def jobs_of(self, name):
        """How many processes prove a crate: one where others are proved beside it, since each more loads the crates below
        anew; two where most is left behind it; all that there is room for where it is alone."""
        others = [other for other in self.unbuilt() if other != name]
        if all(name in NEEDS[other] for other in others):
            return self.places
        return min(self.places, 2 if self.chain[name] >= 0.9 * max(self.chain[other] for other in others) else 1)

    # How a crate is built: each answers the status of what it calls.

    def rattle(self, name, log, *words):
        kit = self.kit.folder
        words = [f'{kit}/bin/rattle', 'build', *words, '--crate-name', name]
        words += ['--extern', f'std={kit}/rlibs/std.rlib', '-L', f'dependency={kit}/rlibs']
        for needed in NEEDS[name]:
            made = library(needed) if needed in NEEDS else f'{kit}/rlibs'
            words += ['--extern', f'{needed}={made}/{needed}.rlib']
            words += ['-L', f'dependency={made}'] if needed in NEEDS else []
        words += ['--links', f'{name}=', '--antt-project', f'{kit}/rattle/logic/antt-project.json']
        return run([*words, '--logic-built', f'{kit}/logic_built'], f'{CRATES}/{name}', log)

    def statements(self, name, jobs, log):
        """The library of a crate's statements."""
        made, before = library(name), made_from(name, self.kit.folder)
        shutil.rmtree(made, ignore_errors=True)
        os.makedirs(made)
        status = self.rattle(name, log, 'src/lib.rt', '--jobs', str(jobs), '--statements', '-o', f'{made}/{name}.rlib')
        # What was changed meanwhile is built again.
        if status == 0 and before == made_from(name, self.kit.folder):
            write(f'{made}/made_from', before.decode())
        return status

    def by_rt(self, name, jobs, log):
        """A library by `rt`, which keeps the folders of a crate and of all that it stands on to itself, and looks at each of
        their files: so in a tree of its own, of links to these."""
        tree = tempfile.mkdtemp(prefix=f'{name}.', dir=self.logs)
        names = [name, *below(name)]
        for other in names:
            others_work = shutil.ignore_patterns('incremental') if other != name else None
            shutil.copytree(f'{CRATES}/{other}', f'{tree}/crates/{other}', ignore=others_work, copy_function=os.link)
        shutil.copy(f'{TOP}/HANDLES', tree)
        write(f'{tree}/crates.txt', ''.join(f'{other}: {" ".join(NEEDS[other])}\n' for other in names))
        made = f'{tree}/crates/{name}/out'
        status = run(['rt', 'lib', '--jobs', str(jobs)], os.path.dirname(made), log)
        if status == 0:
            # Of a library that was built of other files nothing may stay: some may be gone.
            if read(f'{made}/rlib/stamp') != read(f'{library(name)}/stamp'):
                shutil.rmtree(library(name), ignore_errors=True)
            status = run(['cp', '-alf', made, f'{CRATES}/{name}'], tree, log)
        shutil.rmtree(tree)
        return status

    def program(self, log):
        """The program. What `rt run` answers is the program's own status: of that it is built tells that it stands there."""
        for name in PROGRAM, f'{OUT}/built', f'{OUT}/kit':
            if os.path.exists(name):
                os.remove(name)
        if self.way != 'statements':
            run(['rt', 'run'], f'{CRATES}/eel_main', log)
            return 0 if os.access(PROGRAM, os.X_OK) else 1
        made, toolchain = f'{PROGRAM}.o', ['--toolchain', f'{self.kit.folder}/toolchain']
        status = self.rattle('eel_main', log, 'src/main.rt', '--jobs', '1', *toolchain, '--backend', 'llvm', '-o', made)
        libraries = [f'{self.kit.folder}/c/libos_c.a', f'{self.kit.folder}/c/liblibc_c.a']
        words = [f'{self.kit.folder}/bin/rattle-link', '--target', 'x86_64-unknown-linux-gnu', *toolchain, '-o']
        status = status or run([*words, PROGRAM, made, *libraries], OUT, log)
        if status == 0:
            os.remove(made)
        return status

    def one(self, name, jobs):
        with open(f'{self.logs}/{name}.log', 'wb') as log:
            try:
                if name == 'eel_main':
                    return self.program(log)
                return (self.statements if self.way == 'statements' else self.by_rt)(name, jobs, log)
            except OSError as error:
                log.write(f'{error}\n'.encode(errors='replace'))
                return 74

    # All of them.

    def in_turn(self):
        """Begins each crate as soon as what it stands on is built and there is a place, of several first the one with the
        longest chain. What stands above one that fails isn't begun, and on a full disk nothing more is."""
        names = self.unbuilt()
        order = TopologicalSorter({name: [other for other in below(name) if other in names] for name in names})
        order.prepare()
        ready, running, self.failed = [], {}, {}
        with ThreadPoolExecutor(self.places) as pool:
            while True:
                ready = sorted([*ready, *order.get_ready()], key=self.chain.get)
                while ready and len(running) < self.places and not (self.failed and is_full()):
                    name = ready.pop()
                    self.begun[name] = time.time()
                    self.next_line[name] = self.begun[name] + MEANWHILE
                    running[pool.submit(self.one, name, self.jobs_of(name))] = name
                if not running:
                    return
                for done in self.wait_for(running):
                    name = running.pop(done)
                    self.note_end(name, done.result())
                    if name in self.ended:
                        order.done(name)

    def wait_for(self, running):
        """Those that are done, once one is. Meanwhile it is said how far those are that take long."""
        while not (done := wait(running, 1, FIRST_COMPLETED).done):  # a signal is seen within a second
            for name in running.values():
                if time.time() >= self.next_line[name]:
                    self.next_line[name] += MEANWHILE
                    usual = int((self.pace() * self.usual[name] + 30) / 60)
                    say(f'{name} has taken {minutes_since(self.begun[name])} of about {usual} min')
        return done

    def note_end(self, name, status):
        if status == 0:
            self.ended[name] = time.time()
            so_far = f'{len(self.ended)} of {len(self.wanted)}; {minutes_since(min(self.begun.values()))} min so far'
            if name != 'eel_main':
                say(f'{name} is proved, {so_far}, {self.minutes_left()} more')
            return
        self.failed[name] = status
        if not is_full():
            say(f'{name} could not be proved; {self.logs}/{name}.log says why')

    def all(self):
        """Builds all that is wanted and answers how, or stops."""
        # Some 25 MB for each crate, six times as much where its proofs are kept, and what is packed.
        room = len(self.wanted) * (25 if self.way == 'statements' else 150) + (900 if archives('.gz') else 0)
        if megabytes_free() < room:
            stop(f'a build takes {room} MB, and the disk of {OUT} has {megabytes_free()} left')
        self.logs = tempfile.mkdtemp(prefix='build.', dir=OUT)
        try:
            repack('.gz', '')
        except (OSError, EOFError, zlib.error) as error:
            if getattr(error, 'errno', None) == errno.ENOSPC:
                stop(f'the disk of {OUT} is full: a build takes {room} MB')
            stop(f"the libraries in {CRATES} can't be unpacked: `eel --clean` removes them")
        parts = f'{len(self.wanted)} parts, {self.places} at once, {self.minutes_left()} min'
        say(f'proving and building the program, once for these sources: {parts}')
        self.in_turn()
        if 2 in self.failed.values() and self.kit.doubt and self.way == 'statements':
            shutil.rmtree(self.logs)
            return Build(self.kit, self.kit.by_rt('its `rattle build` ends otherwise')).all()
        if self.failed and not is_full():
            # What failed, as for want of memory beside others, is proved again alone.
            self.places = 1
            self.in_turn()
        if self.failed and is_full():
            stop(f'the disk of {OUT} is full: a build takes {room} MB; what is proved stays, and the next call goes on')
        if self.failed:
            doubt = f'. That may be since {self.kit.doubt}' if self.kit.doubt else ''
            stop(f'the program could not be built; {self.logs}/{list(self.failed)[0]}.log says why{doubt}')
        shutil.rmtree(self.logs)
        return self.way


def minutes_since(when):
    return int((time.time() - when + 30) / 60)


def write(name, text):
    try:
        with open(f'{name}.new', 'w') as opened:
            opened.write(text)
        os.replace(f'{name}.new', name)
    except OSError as error:
        error.filename = name  # which the system tells of an open alone
        raise


# Of what a library takes, two thirds are an archive that packs to a tenth. All are packed once the program is built, and
# unpacked before the next build reads them.

def archives(ending):
    return glob.glob(f'{glob.escape(CRATES)}/*/out/rlib/*.rlib/toolchain/**/checked.a{ending}', recursive=True)


def repack(old, new):
    """Gives the archives with the one ending the other."""
    def one(name):
        made = name.removesuffix(old) + new
        with (gzip.open(name) if old else open(name, 'rb')) as source:
            with gzip.open(f'{made}.new', 'wb', 1) if new else open(f'{made}.new', 'wb') as target:
                shutil.copyfileobj(source, target, 1 << 20)
        shutil.copystat(name, f'{made}.new')
        os.replace(f'{made}.new', made)
        os.remove(name)
    with ThreadPoolExecutor(len(os.sched_getaffinity(0))) as pool:
        list(pool.map(one, archives(old)))


def is_built(sources):
    """Whether the program is that of these sources, whatever the commit."""
    return os.access(PROGRAM, os.X_OK) and read(f'{OUT}/built').split()[1:2] == [sources.encode()]


def note(sources, way, kit):
    """Notes of what the program was built, if that still stands here, and answers whether it does."""
    if sources != sum_of_sources() or not os.access(PROGRAM, os.X_OK):
        return False
    commit = told('git', '-C', TOP, 'rev-parse', 'HEAD') if os.path.exists(f'{TOP}/.git') else ''
    changed = ' changed' if commit and told('git', '-C', TOP, 'status', '--porcelain', '--', 'crates') else ''
    write(f'{OUT}/kit', f'{kit}\n')
    write(f'{OUT}/built', f'{commit or "none"} {sources} {way}{changed}\n')
    return True


def build(keeps):
    """Builds the program, if it isn't that of these sources; where it keeps what it proves, in any case."""
    started, kit = time.time(), None
    os.makedirs(OUT, exist_ok=True)
    hold()
    for old in glob.glob(f'{glob.escape(OUT)}/build.*'):
        shutil.rmtree(old)
    while True:
        sources = sum_of_sources()
        if is_built(sources) and not keeps:
            return
        if not kit:
            kit = Kit()
            way = kit.way()
        work = Build(kit, 'kept' if keeps else way)
        way = work.all()
        if note(sources, way, kit.name):
            break
        say('sources were changed meanwhile, and are built now')
    if way == 'statements':
        with contextlib.suppress(OSError):  # they may stay as they are
            repack('', '.gz')
    say(f'the program is built, {len(work.wanted)} of {len(work.wanted)}, in {minutes_since(started)} min')


def clean():
    """Removes what was built but the program: neither that nor the gate needs it."""
    if not hold(waits=False):
        stop('it is being built or proved', 74)
    before = kilobytes()
    for name in [*glob.glob(f'{glob.escape(CRATES)}/*/out'), *glob.glob(f'{glob.escape(OUT)}/*')]:
        if name not in (OUT, PROGRAM, f'{OUT}/built', f'{OUT}/kit'):
            shutil.rmtree(name) if os.path.isdir(name) else os.remove(name)
    os.write(1, f'eel: {(before - kilobytes()) // 1024} MB were removed\n'.encode())


def kilobytes():
    return int((told('du', '-sk', CRATES) or '0').split()[0])


def main(words):
    signal.signal(signal.SIGCHLD, signal.SIG_DFL)  # where it is ignored, as some callers leave it, no status is told
    for number in SIGNALS:
        if signal.getsignal(number) != signal.SIG_IGN:
            signal.signal(number, end)
    if words in ([], ['--keep']):
        build(keeps=bool(words))
    elif words == ['--sum']:
        os.write(1, f'{sum_of_sources()}\n'.encode())
    elif words[:1] == ['--note'] and len(words) == 2:
        note(words[1], 'gate', told('rt', 'version').partition('\n')[0])
    elif words == ['--clean']:
        clean()
    elif words in (['--help'], ['-h']):
        os.write(1, f'{__doc__}'.encode())
    else:
        stop(f'build.py doesn\'t take the words `{" ".join(words)}`; `build.py --help` says which', 64)


if __name__ == '__main__':
    try:
        main(sys.argv[1:])
    except MemoryError:
        stop('there is no memory to build it', 70)
    except OSError as error:
        stop(f'{error.filename or "standard output"}: {error.strerror}', 78 if error.errno == errno.ENOSPC else 74)
