"""Profiles as JSON, and lines as gcov has them: by their schemas, and by hand."""
import copy
import gzip
import os
import re
import shutil
import subprocess
import unittest

import given
from eeltools.debug_lines import DebugLines, Function, Line
from eeltools.endings import Ending
from eeltools.gcov_json import GcovJson
from eeltools.profile_json import ProfileJson, object_lines
from eeltools.report import Report
from schema import Schema, parsed, values_of
from eeltools.shown import Shown
from eeltools.source_counts import SourceCounts, lcov_lines
from test_filters import LINES, SHARED, debug_of, shown
from test_lines import BY_GCOV, GCC, compiled

PROFILE, GCOV = os.path.join(given.TOP, 'docs', 'profile.schema.json'), os.path.join(given.CHECKS, 'gcov.schema.json')
NATIVE = 'int f(int v) { return v && v > 3; }\nint main(void) { int n = 0; for (int i = 0; i < 5; i++) n += f(i); return n - 1; }\n'
# What geninfo of lcov calls in the place of gcov: it puts a file where gcov puts its own.
STAND_IN = """#!/bin/sh
case $1 in
--version) echo 'gcov (GCC) 12.2.0' ;;
--help) echo '  -j, --json-format  Output JSON' ;;
*) cp "${0%/*}/own.gcov.json.gz" . ;;
esac
"""
TINY = {'type': 'object', 'required': ['a'], 'additionalProperties': False, '$defs': {'n': {'type': 'integer', 'minimum': 1}},
        'properties': {'a': {'type': 'array', 'items': {'$ref': '#/$defs/n'}}, 'b': {'const': 1}, 'c': {'enum': ['x', None]},
                       'd': {'type': ['string', 'null'], 'pattern': '^y'}, 'e': {'anyOf': [{'$ref': '#/$defs/n'}, {'type': 'null'}]}}}
FIT = [{'a': []}, {'a': [1, 2 ** 70], 'b': 1}, {'a': [], 'c': None, 'd': 'yes'}, {'a': [], 'd': None, 'e': None}, {'a': [], 'e': 3}]
UNFIT = [[], {}, {'a': 1}, {'a': [0]}, {'a': [1.0]}, {'a': [True]}, {'a': [1, 'x']}, {'a': [], 'b': True}, {'a': [], 'b': 2},
         {'a': [], 'c': 'y'}, {'a': [], 'd': 1}, {'a': [], 'd': 'no'}, {'a': [], 'e': 0}, {'a': [], 'e': 'x'}, {'a': [], 'f': 1}]


def records(text):
    """What a tracefile says of each source: lines, functions, and the ways of branches by their lines. geninfo has `-` for a
    way only where its line never ran."""
    return {record.partition('\n')[0]: [sorted(re.findall(r'^(?:DA|FNDA):.*', record, re.M)),
                                        sorted(re.findall(r'^BRDA:(\d+),\d+,\d+,(\d+)', record.replace(',-\n', ',0\n'), re.M))]
            for record in text.split('SF:')[1:]}


def schema_of(name):
    return Schema(values_of(name)[0])


class Schemas(unittest.TestCase):
    def test_take_what_fits_alone(self):
        for value in FIT:
            self.assertEqual(list(Schema(TINY).faults(value)), [])
        for value in UNFIT:
            self.assertEqual(len(list(Schema(TINY).faults(value))), 1, value)

    def test_have_keywords_that_are_known(self):
        with self.assertRaises(ValueError):
            list(Schema({'maximum': 1}).faults(0))

    def test_are_of_json_as_its_standard_has_it(self):
        for text in '{"a": 1, "a": 2}', '[NaN]', '[1,]', "{'a': 1}", '':
            self.assertRaises(ValueError, parsed, text)
        self.assertEqual(parsed('[18446744073709551615]'), [2 ** 64 - 1])


def profile(own, run, debug, ending=Ending('exit', 0, 0x10070, 77), stands=0x10070, counted='every'):
    return parsed('\n'.join(ProfileJson(Report(own, run, debug), ['a word'], counted, ending, stands).lines()))


def parts(value):
    """The objects of each kind in a profile."""
    return [value, *(one for one in value.values() if isinstance(one, dict)),
            *(many[0] for many in value.values() if isinstance(many, list))]


def changed(value):
    """What is no profile: without a key, with one more, or with a value of another type."""
    for at, part in enumerate(parts(value)):
        for key in [*part, 'more']:
            for fresh in ({}, None) if key in part else (1,):
                other = copy.deepcopy(value)
                parts(other)[at].update({key: fresh})
                if fresh is None:
                    del parts(other)[at][key]
                yield (at, key, fresh), other


class Profiles(unittest.TestCase):
    def setUp(self):
        self.schema, self.own = schema_of(PROFILE), shown()

    def small(self, counted='every'):
        functions = {'first': Function('first', Line('/src/a.c', 8), 'first', 5, starts=[0x10074])}
        return profile(self.own, given.run_in(self.own, counted=counted)[0], debug_of({**LINES, **SHARED}, functions))

    def test_have_exact_numbers(self):
        had = self.small()
        self.assertEqual(had['steps'], {'original': 30, 'with_counters': 77, 'exact': True})
        self.assertEqual(had['ending'], {'kind': 'exit', 'number': 0, 'address': '0x00010070', 'text': None})
        self.assertEqual(had['functions'], [
            {'address': '0x00010054', 'name': 'main', 'file': '/src/a.c', 'line': 1, 'instructions': 18, 'with_calls': 30, 'calls': 1,
             'exact': True},
            {'address': '0x00010074', 'name': 'first', 'file': '/src/a.c', 'line': 8, 'instructions': 12, 'with_calls': 12, 'calls': 3,
             'exact': True}])
        self.assertEqual(had['calls'], [{'address': '0x00010058', 'caller': '0x00010054', 'callee': '0x00010074', 'count': 3,
                                         'with_calls': 12}])
        self.assertEqual(had['loops'], [{'address': '0x00010058', 'function': '0x00010054', 'file': '/src/a.c', 'line': 2, 'rounds': 2,
                                         'instructions': 15, 'with_inner': 15, 'exact': True}])
        self.assertIn({'file': '/src/b.h', 'line': 1, 'instructions': 6, 'times': 6, 'exact': True}, had['lines'])
        self.assertIn({'kind': 'calls', 'instructions': 3}, had['kinds'])
        self.assertIn({'number': 3, 'kind': 'taken', 'from': '0x00010060', 'to': '0x00010058', 'slot': '0x00010068', 'count': 2},
                      had['edges'])
        self.assertEqual(had['instructions'][-1], {'address': '0x00010080', 'text': 'restore', 'function': '0x00010074',
                                                   'file': '/src/a.c', 'line': 10, 'count': 3, 'exact': True})

    def test_come_to_the_steps(self):
        for name in 'queens', 'fractions', 'dispatch', 'lands_in_a_switch', 'divides_by_zero', 'jump_to_zero':
            own = Shown(f'{given.DATA}/{name}')
            for counted in 'every', 'visits', 'edges':
                run, _ = given.run_in(own, b'1/2+1/3\n', counted=counted)
                had = profile(own, run, debug_of({}), Ending('trap', 42, 0x10054, 99), None)
                self.assertEqual(list(self.schema.faults(had)), [], name)
                for key, number in ('functions', 'instructions'), ('instructions', 'count'), ('kinds', 'instructions'):
                    self.assertEqual(sum(item[number] for item in had[key]), run.total, (name, counted, key))
                self.assertEqual(had['steps']['exact'], not run.unsure)

    def test_fit_their_schema_alone(self):
        had = self.small()
        self.assertEqual(list(self.schema.faults(had)), [])
        others = list(changed(had))
        self.assertEqual(len(others), 2 * 64 + 11)
        for what, other in others:
            self.assertTrue(list(self.schema.faults(other)), what)

    def test_stand_in_lines(self):
        lines = list(object_lines([('a', 1), ('b', []), ('c', iter([{'x': 1}, {'x': 2}])), ('d', 'e')]))
        self.assertEqual(lines, ['{', '"a": 1,', '"b": [', '],', '"c": [', '{"x": 1},', '{"x": 2}', '],', '"d": "e"', '}'])


class Lines(unittest.TestCase):
    """Lines in gcov's form."""

    def setUp(self):
        self.schema = schema_of(GCOV)

    def form(self, counts):
        found = parsed('\n'.join(GcovJson(counts).lines()))
        self.assertEqual(list(self.schema.faults(found)), [])
        return {file['file']: file for file in found['files']}

    def test_have_counts_functions_and_branches(self):
        debug = debug_of({**LINES, **SHARED})
        debug.producers = ['GNU AS 2.40', 'GNU C17 12.2.0 -O2', 'GNU C17 12.2.0 -O2']
        own = shown()
        files = self.form(SourceCounts(own, given.run_in(own)[0], debug))
        functions = [(found['name'], found['start_line'], found['end_line'], found['blocks'], found['execution_count'])
                     for found in files['/src/a.c']['functions']]
        self.assertEqual(functions, [('main', 1, 5, 4, 1), ('first', 9, 10, 1, 3)])
        self.assertEqual(files['/src/a.c']['lines'][2], {
            'line_number': 4, 'count': 3, 'unexecuted_block': False, 'function_name': 'main',
            'branches': [{'count': 2, 'throw': False, 'fallthrough': False}, {'count': 1, 'throw': False, 'fallthrough': True}]})
        self.assertEqual([line['count'] for line in files['/src/b.h']['lines']], [6])
        self.assertEqual(GcovJson(SourceCounts(own, given.run_in(own)[0], debug)).compiler(), '12.2.0')

    def test_that_never_ran_are_not_executed(self):
        own, line_at = Shown(f'{given.DATA}/divides_by_zero'), {}
        line_at.update((address, Line('/src/a.c', 1 + address // 4 - own.entry // 4)) for address in own.text())
        debug = debug_of(line_at)
        debug.producers = []
        run, _ = given.run_in(own)
        for line in self.form(SourceCounts(own, run, debug))['/src/a.c']['lines']:
            self.assertEqual(line['unexecuted_block'], not line['count'])

    @unittest.skipUnless(shutil.which(GCC), f'there is no {GCC}')
    def test_of_a_compiled_program_are_those_of_gcov(self):
        own = Shown(compiled('-O0'))
        [file] = self.form(SourceCounts(own, given.run_in(own)[0], DebugLines(own))).values()
        counts = {line['line_number']: line['count'] for line in file['lines']}
        self.assertEqual({number: counts[number] for number in BY_GCOV}, BY_GCOV)
        self.assertEqual([(found['name'], found['start_line'], found['start_column'], found['end_line'], found['execution_count'])
                          for found in file['functions'] if found['name'] != '_start'],
                         [('is_large', 4, 5, 8, 5), ('length', 9, 5, 16, 1), ('main', 17, 5, 23, 1)])
        names = {line['line_number']: line.get('function_name') for line in file['lines']}
        self.assertEqual((names[7], names[13], names[20]), ('is_large', 'length', 'main'))

    @unittest.skipUnless(shutil.which('gcc') and shutil.which('gcov'), 'there is no gcov')
    def test_of_gcov_itself_have_this_form(self):
        folder = os.path.join(given.FOLDER.name, 'native')
        os.makedirs(folder, exist_ok=True)
        with open(f'{folder}/native.c', 'w') as opened:
            opened.write(NATIVE)
        subprocess.run('gcc --coverage -c native.c && gcc --coverage native.o -o native && ./native', shell=True, check=True,
                       cwd=folder)
        told = subprocess.run(['gcov', '--json-format', '--stdout', '--branch-probabilities', 'native.o'], cwd=folder,
                              capture_output=True, check=True).stdout
        found = parsed(told)
        if found['format_version'] == '1':  # of gcc 9 to 13
            self.assertEqual(list(self.schema.faults(found)), [])
            self.assertEqual([line['count'] for line in found['files'][0]['lines']], [5, 6])

    @unittest.skipUnless(shutil.which(GCC) and shutil.which('geninfo'), 'there is no geninfo')
    def test_are_read_by_geninfo(self):
        own, folder = Shown(compiled('-O2')), os.path.join(given.FOLDER.name, 'geninfo')
        counts = SourceCounts(own, given.run_in(own)[0], DebugLines(own))
        os.makedirs(folder, exist_ok=True)
        with gzip.open(f'{folder}/own.gcov.json.gz', 'wt') as opened:
            opened.writelines(GcovJson(counts).lines())
        for name, text in ('gcov', STAND_IN), ('any.gcda', ''):
            with open(f'{folder}/{name}', 'w') as opened:
                opened.write(text)
        os.chmod(f'{folder}/gcov', 0o755)
        subprocess.run(['geninfo', '--rc', 'lcov_branch_coverage=1', '--gcov-tool', f'{folder}/gcov', folder, '-o', f'{folder}/made'],
                       check=True, capture_output=True)
        with open(f'{folder}/made') as opened:
            self.assertEqual(records(opened.read()), records('\n'.join(lcov_lines(counts))))
