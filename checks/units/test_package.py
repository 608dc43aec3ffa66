"""What a script of a user's can import."""
import contextlib
import io
import os
import re
import shutil
import subprocess
import sys
import tempfile
import unittest

import given
from eeltools.call_costs import CallCosts
from eeltools.shown import Shown

PACKAGE = os.path.join(given.TOP, 'tools', 'python')
# Imports all modules, beside one of Python that imports `profile`, and looks what that changed.
IMPORTS = """import cProfile, gc, importlib, pkgutil, signal, sys
before = sys.excepthook, gc.isenabled(), signal.getsignal(signal.SIGTERM)
import eeltools
for module in pkgutil.iter_modules(eeltools.__path__):
    importlib.import_module(f'eeltools.{module.name}')
print(before == (sys.excepthook, gc.isenabled(), signal.getsignal(signal.SIGTERM)))
"""


class Package(unittest.TestCase):
    def test_changes_nothing_when_it_is_imported(self):
        done = subprocess.run([sys.executable, '-c', IMPORTS], env={**os.environ, 'PYTHONPATH': PACKAGE}, capture_output=True, text=True)
        self.assertEqual((done.stdout, done.stderr), ('True\n', ''))

    def test_does_what_its_example_says(self):
        with open(os.path.join(given.TOP, 'tools', 'README.md'), encoding='utf-8') as opened:
            example, = re.findall('```python\n(.*?)```', opened.read(), re.S)
        self.addCleanup(os.chdir, os.getcwd())
        with tempfile.TemporaryDirectory() as folder, contextlib.redirect_stdout(io.StringIO()) as printed:
            os.chdir(folder)
            shutil.copy(f'{given.DATA}/fractions', 'fractions')
            own = Shown('fractions')
            run, _ = given.run_in(own, b'1/2+1/3\n', name='counts')
            exec(example, {})
        hottest = CallCosts(own, run).own.most_common(10)
        self.assertEqual(printed.getvalue(), ''.join(f'{count} {own.name_of(start)}\n' for start, count in hottest))
        self.assertGreater(len(hottest), 5)
