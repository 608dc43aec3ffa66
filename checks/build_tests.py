#!/usr/bin/env python3
"""Tests of build.py: in which order it builds, with how many processes, what it says of the time, and what it reads of the
machine. Expected values are by hand, and of sha256sum and gzip."""
import os
import re
import subprocess
import sys
import tempfile
import threading
import unittest
from unittest import mock

from called import TOP

sys.path.insert(0, TOP)
sys.dont_write_bytecode = True
import build

# Two chains of 37 and 12 seconds through `low`, and one beside it.
NEEDS = {'low': ['kit_library'], 'tall': ['low'], 'short': ['low', 'kit_library'], 'beside': [],
         'eel_main': ['low', 'tall', 'short', 'beside']}
TIMES = {'low': ['10'], 'tall': ['20'], 'short': ['5'], 'beside': ['8'], 'eel_main': ['7']}
ALL = list(NEEDS)


class KnownKit:
    folder, doubt = '/nowhere', ''


class Order(unittest.TestCase):
    """A build of these crates, by a stand-in that takes no time."""

    def setUp(self):
        self.said, self.begun = [], []
        self.folder = tempfile.TemporaryDirectory()
        self.addCleanup(self.folder.cleanup)
        os.mkdir(f'{self.folder.name}/eel_main')
        for name, value in (('NEEDS', NEEDS), ('lines_of', lambda _: TIMES), ('say', self.said.append),
                            ('CRATES', self.folder.name), ('OUT', f'{self.folder.name}/eel_main'), ('places', lambda: 4)):
            patch = mock.patch.object(build, name, value)
            patch.start()
            self.addCleanup(patch.stop)
        self.build = build.Build(KnownKit(), 'statements')

    def run_with(self, places, fails=()):
        def one(name, jobs):
            self.begun.append((name, jobs))
            return 1 if name in fails else 0
        self.build.places, self.build.one = places, one
        self.build.in_turn()

    def test_all_is_wanted_lowest_first(self):
        self.assertEqual(self.build.wanted, ALL)

    def test_chains(self):
        self.assertEqual(self.build.chain, {'low': 37, 'tall': 27, 'short': 12, 'beside': 15, 'eel_main': 7})

    def test_unknown_times_are_a_minute(self):
        with mock.patch.object(build, 'lines_of', lambda _: {}):
            self.assertEqual(set(build.Build(KnownKit(), 'statements').usual.values()), {60})

    def test_the_longest_chain_goes_first(self):
        self.run_with(1)
        self.assertEqual([name for name, _ in self.begun], ['low', 'tall', 'beside', 'short', 'eel_main'])

    def test_jobs(self):
        self.build.places = 4
        self.assertEqual([self.build.jobs_of(name) for name in ('low', 'tall', 'beside')], [2, 1, 1])
        self.build.ended = {'beside': 1}
        self.assertEqual([self.build.jobs_of(name) for name in ('low', 'tall', 'short')], [4, 1, 1])
        self.build.ended = {'low': 1, 'beside': 1}
        self.assertEqual([self.build.jobs_of(name) for name in ('tall', 'short')], [2, 1])
        self.build.places = 1
        self.assertEqual(self.build.jobs_of('tall'), 1)

    def test_nothing_above_a_failure_is_begun(self):
        self.run_with(2, ['tall'])
        self.assertEqual(sorted(name for name, _ in self.begun), ['beside', 'low', 'short', 'tall'])
        self.assertEqual((list(self.build.failed), sorted(self.build.unbuilt())), (['tall'], ['eel_main', 'tall']))
        self.begun.clear()
        self.run_with(1)
        self.assertEqual([name for name, _ in self.begun], ['tall', 'eel_main'])
        self.assertFalse(self.build.failed)

    def test_nothing_is_begun_on_a_full_disk(self):
        with mock.patch.object(build, 'is_full', lambda: True):
            self.run_with(1, ['tall'])
        self.assertEqual([name for name, _ in self.begun], ['low', 'tall'])

    def test_as_many_at_once_as_there_are_places(self):
        running, most, are_two = set(), [], threading.Event()

        def one(name, _):
            running.add(name)
            most.append(len(running))
            if len(running) == 2:
                are_two.set()
            are_two.wait(60)
            running.remove(name)
            return 0
        self.build.places, self.build.one = 2, one
        self.build.in_turn()
        self.assertEqual(max(most), 2)

    def test_minutes_left(self):
        with mock.patch.object(build.time, 'time', lambda: 1000):
            self.build.places = 4
            self.assertEqual(self.build.minutes_left(), 'at least 1')
            # Ten times as slow as elsewhere: 270 seconds of a chain are left, of which 100 have passed.
            self.build.begun, self.build.ended = {'low': 800, 'beside': 800, 'tall': 900}, {'low': 900, 'beside': 880}
            self.assertEqual(self.build.pace(), 10)
            self.assertEqual(self.build.minutes_left(), 'about 3')
            # All of it over one processor: 100, 50 and 70 seconds.
            self.build.places = 1
            self.assertEqual(self.build.minutes_left(), 'about 4')

    def test_a_signal_is_seen_within_a_second(self):
        """Python sees one that comes right before it begins to wait only once it has waited."""
        with mock.patch.object(build, 'wait', side_effect=build.wait) as waited:
            self.run_with(2)
        self.assertLessEqual(max(call.args[1] for call in waited.call_args_list), 1)

    def test_long_ones_are_told_of(self):
        is_told = threading.Event()

        def say(line):
            if re.fullmatch(r'low has taken \d+ of about \d+ min', line):
                is_told.set()
        self.build.places, self.build.one = 2, lambda name, _: int(name == 'low' and not is_told.wait(60))
        with mock.patch.object(build, 'MEANWHILE', 0.5), mock.patch.object(build, 'say', say):
            self.build.in_turn()
        self.assertTrue(is_told.is_set() and not self.build.failed)


class Machine(unittest.TestCase):
    """What there is of processors and memory, where these files stand."""
    FREE = {'/proc/meminfo': b'MemTotal: 99000000 kB\nMemAvailable:   20000000 kB\n'}

    def places(self, files, processors=8):
        files = {**self.FREE, **files}
        with mock.patch.object(build, 'read', lambda name: files.get(name, b'')), \
                mock.patch.object(os, 'sched_getaffinity', lambda _: set(range(processors))):
            return build.places()

    def test_memory(self):
        self.assertEqual(self.places({}), 5)
        self.assertEqual(self.places({'/proc/meminfo': b'MemAvailable: 1000 kB\n'}), 1)

    def test_processors(self):
        self.assertEqual(self.places({}, 3), 3)

    def test_a_group(self):
        at = '/sys/fs/cgroup'
        self.assertEqual(self.places({f'{at}/cpu.max': b'250000 100000\n'}), 2)
        self.assertEqual(self.places({f'{at}/cpu.max': b'max 100000\n'}), 5)
        self.assertEqual(self.places({f'{at}/cpu.max': b'50000 100000\n'}), 1)
        used = {f'{at}/memory.stat': b'anon 5000000000\nfile 9\n'}
        self.assertEqual(self.places({f'{at}/memory.max': b'14000000000\n', **used}), 2)
        self.assertEqual(self.places({f'{at}/memory.max': b'max\n', **used}), 5)

    def test_a_group_of_version_1(self):
        at = '/sys/fs/cgroup'
        self.assertEqual(self.places({f'{at}/cpu/cpu.cfs_quota_us': b'300000\n',
                                      f'{at}/cpu/cpu.cfs_period_us': b'100000\n'}), 3)
        self.assertEqual(self.places({f'{at}/cpu/cpu.cfs_quota_us': b'-1\n', f'{at}/cpu/cpu.cfs_period_us': b'100000\n'}), 5)
        self.assertEqual(self.places({f'{at}/memory/memory.limit_in_bytes': b'13000000000\n',
                                      f'{at}/memory/memory.stat': b'cache 7\ntotal_rss 6000000000\n'}), 1)


class Sums(unittest.TestCase):
    """Sums beside those of sha256sum."""

    def test_sources(self):
        parts = ' '.join(f'{name}/{part}' for name in [*build.below('eel_main'), 'eel_main']
                         for part in ('src', 'specs', 'proofs') if os.path.isdir(f'{TOP}/crates/{name}/{part}'))
        words = f'(find {parts} -type f | LC_ALL=C sort | xargs sha256sum; echo {build.KIT_KNOWN}) | sha256sum'
        told = subprocess.run(words, shell=True, cwd=f'{TOP}/crates', capture_output=True, text=True).stdout
        self.assertEqual(build.sum_of_sources(), told.split()[0])

    def test_a_crate(self):
        words = '(find src specs proofs -type f | LC_ALL=C sort | xargs sha256sum; printf kit; echo none) | sha256sum'
        told = subprocess.run(words, shell=True, cwd=f'{TOP}/crates/flow_tree', capture_output=True, text=True).stdout
        with tempfile.TemporaryDirectory() as kit, mock.patch.object(build, 'library', lambda _: f'{kit}/none'):
            with open(f'{kit}/WHAT', 'w') as opened:
                opened.write('kit')
            self.assertEqual(build.made_from('flow_tree', kit).decode(), told)


class Signals(unittest.TestCase):
    def test_a_second_one_changes_nothing(self):
        """A signal that comes again while it is heeded, as where both a group and its leader get one."""
        lines = ['import os, signal, sys', f'sys.path.insert(0, {TOP!r})', 'import build',
                 'build.say = lambda line: os.kill(os.getpid(), signal.SIGTERM) or os.write(1, line.encode())',
                 'signal.signal(signal.SIGTERM, build.end)', 'os.kill(os.getpid(), signal.SIGTERM)']
        done = subprocess.run([sys.executable, '-B', '-c', '\n'.join(lines)], capture_output=True, text=True, timeout=60)
        self.assertEqual((done.returncode, done.stdout.count('interrupted')), (143, 1), done.stderr)


class Archives(unittest.TestCase):
    def test_there_and_back(self):
        with tempfile.TemporaryDirectory() as crates, mock.patch.object(build, 'CRATES', crates):
            name = f'{crates}/low/out/rlib/low.rlib/toolchain/deep/checked.a'
            os.makedirs(os.path.dirname(name))
            with open(name, 'wb') as opened:
                opened.write(bytes(range(256)) * 9000)
            os.utime(name, (1, 5))
            build.repack('', '.gz')
            self.assertEqual(os.listdir(os.path.dirname(name)), ['checked.a.gz'])
            told = subprocess.run(['gzip', '-dc', f'{name}.gz'], capture_output=True).stdout
            self.assertEqual(told, bytes(range(256)) * 9000)
            build.repack('.gz', '')
            self.assertEqual(os.listdir(os.path.dirname(name)), ['checked.a'])
            with open(name, 'rb') as opened:
                self.assertEqual(opened.read(), told)
            self.assertEqual(os.stat(name).st_mtime, 5)


if __name__ == '__main__':
    unittest.main()
