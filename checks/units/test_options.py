"""What --help says of options, the pages that are made of it, and the status by --exit-status."""
import os
import unittest

from given import TOP
from eeltools.endings import Ending
from options import Help, Page, commands, misnamed
from eeltools.profile import status_by

TEXT = '''usage: merge.py [-h] [--version] [-n STEPS] [--to {file,pipe} | --all] FILE [COUNTS ...]

Adds what `eel counts` printed: tools/merge.py FILE COUNTS | sort > SUM

It is -- so -- done as by profile.py, unless --all says it for COUNTS or
for FILE's \\n.

The status is 0 where all went well.

positional arguments:
  FILE                  the program
  COUNTS                what `eel counts` printed

options:
  -h, --help            show this help message and exit
  -n STEPS, --limit STEPS
                        at most, else 5  in all
  --to {file,pipe}
  --all                 all of it, with -n

which are printed, by `more`; the others aren't:
  --top N               so many
'''
OF_LATER_PYTHON = TEXT.replace('-n STEPS, --limit STEPS', '-n, --limit STEPS')
INSTALLED = {'eel-merge': 'tools/merge.py', 'eel-profile': 'tools/profile.py'}


class Texts(unittest.TestCase):
    def test_commands(self):
        self.assertEqual(commands()['eel-lines'], 'tools/source_counts.py')
        for file in commands().values():
            self.assertTrue(os.access(os.path.join(TOP, file), os.X_OK), file)

    def test_rows(self):
        for text in TEXT, OF_LATER_PYTHON:
            told = Help(text)
            self.assertEqual([(row.names, row.value, row.text) for row in told.options()], [
                (['-h', '--help'], '', 'show this help message and exit'), (['-n', '--limit'], 'STEPS', 'at most, else 5  in all'),
                (['--to'], '{file,pipe}', ''), (['--all'], '', 'all of it, with -n'), (['--top'], 'N', 'so many')])
            self.assertEqual([(row.value, row.text) for row in told.arguments],
                             [('FILE', 'the program'), ('COUNTS', 'what `eel counts` printed')])
            self.assertEqual(told.names(), {'-h', '--help', '-n', '--limit', '--to', '--all', '--top'})

    def test_misnamed(self):
        text = '`tools/patch.py --all`, of eel-merge --version -n | x --to, ./profile.py --edges f -- --more and walk.py --short'
        self.assertEqual(list(misnamed(text)), ['patch.py --all', 'eel-merge -n'])

    def test_paragraphs(self):
        told = Help(TEXT)
        self.assertEqual(told.call, 'FILE [COUNTS ...]')
        self.assertEqual([part.split()[0] for part in told.paragraphs], ['Adds', 'It', 'The'])
        self.assertEqual(Help('usage: x.py [OPTION..] FILE\n\nPrints.\n').call, '[OPTION..] FILE')

    def test_page(self):
        page = str(Page('eel-merge', Help(TEXT), INSTALLED)).splitlines()
        self.assertEqual(page, str(Page('eel-merge', Help(OF_LATER_PYTHON), INSTALLED)).splitlines())
        self.assertIn('eel\\-merge \\- add what eel counts printed', page)
        self.assertIn('\\fBeel\\-merge\\fR [\\fIOPTION\\fR..] \\fIFILE\\fR [\\fICOUNTS\\fR ...]', page)
        self.assertIn('It is -- so -- done as by \\fBeel\\-profile\\fR, unless \\fB\\-\\-all\\fR says it for \\fICOUNTS\\fR or for '
                      '\\fIFILE\\fR\'s \\en.', page)
        self.assertEqual(page[page.index('.SH OPTIONS') + 4:][:3], ['.TP', '\\fB\\-n\\fR, \\fB\\-\\-limit\\fR \\fISTEPS\\fR',
                                                                    'at most, else 5  in all'])
        self.assertIn('\\fBeel\\-merge FILE COUNTS | sort > SUM\\fR', page)
        self.assertEqual(page[-1], '\\fBeel\\fR(1), \\fBeel\\-profile\\fR(1)')
        self.assertIn('The status is 0 where all went well.', page)
        self.assertEqual(page[page.index('\\fB\\-\\-top\\fR \\fIN\\fR') - 2], 'Which are printed, by \\fBmore\\fR; the others aren\'t:')


class Statuses(unittest.TestCase):
    def test_exits(self):
        for number in 0, 1, 3, 65, 255:
            self.assertEqual(status_by(Ending('exit', number, 0x10054, 9), False), 0)
            self.assertEqual(status_by(Ending('exit', number, 0x10054, 9), True), number)

    def test_others(self):
        for kind in 'trap', 'window', 'couple', 'stopped':
            for is_own in False, True:
                self.assertEqual(status_by(Ending(kind, 0, 0x10054, 9), is_own), 3)


if __name__ == '__main__':
    unittest.main()
