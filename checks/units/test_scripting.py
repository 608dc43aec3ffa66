"""How scripts read, write and refuse files."""
import os
import unittest

import given
from eeltools import Refused, scripting
from eeltools.endings import said_before_end
from eeltools.shown import is_address


def refused(call, *words):
    """The status and the line by which a call ends."""
    with unittest.TestCase().assertRaises(Refused) as ended:
        call(*words)
    return ended.exception.status, str(ended.exception)


class Outputs(unittest.TestCase):
    def test_are_no_files_that_are_read(self):
        own, link, hard = given.written('a'), given.written(''), given.written('')
        os.remove(link)
        os.remove(hard)
        os.symlink(own, link)
        os.link(own, hard)
        for name in own, link, hard, os.path.join(given.FOLDER.name, '.', os.path.basename(own)):
            self.assertEqual(refused(scripting.refuse_loss, [name], [own]), (64, f'{name} would be written over what is read'))
        with open(own) as opened:
            self.assertEqual(refused(scripting.refuse_loss, [link], [opened.fileno()])[0], 64)

    def test_may_be_other_files_and_devices(self):
        pipe = given.written('')
        os.remove(pipe)
        os.mkfifo(pipe)
        scripting.refuse_loss([given.written('a'), 'missing', pipe, os.devnull], [given.written('a'), 'missing', pipe, os.devnull])

    def test_have_the_mode_of_a_new_file_alone(self):
        made, had = given.written(''), given.written('')
        os.remove(made)
        os.chmod(had, 0o640)
        for name, mode in (made, 0o755), (had, 0o640):
            scripting.write_pieces(scripting.opened_for_output(name, 0o755), [b'a'])
            self.assertEqual(os.stat(name).st_mode & 0o777, mode & ~mask() if name == made else mode)


def mask():
    own = os.umask(0o022)
    os.umask(own)
    return own


class Words(unittest.TestCase):
    def test_of_a_program_are_whole(self):
        for said, own in [(b'exit 0\n', b''), (b'abcexit 0\n', b'abc'), (b'abc\nexit 12\n', b'abc\n'), (b'a\n\nb trap 7\n', b'a\n\nb '),
                          (b'exit 1exit 0\n', b'exit 1'), (b'windowwindow\n', b'window'), (b'\nstopped 99\n', b'\n')]:
            self.assertEqual(said_before_end(said), own)

    def test_are_addresses_with_0x_or_eight_digits(self):
        for word, fits in ('add', False), ('dead', False), ('10054', False), ('0x10054', True), ('00010054', True), ('0xadder', False):
            self.assertEqual(is_address(word), fits, word)
