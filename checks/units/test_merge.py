"""Sums of counts, by hand."""
import contextlib
import io
import sys
import unittest
from unittest import mock

from given import written
from eeltools import Refused, merge

EDGES = 'edge 0 fall 00010054 00010058 1\nedge 2 untaken 00010058 00010068 3\nedges 9 counted 5 executions 4\n'
MORE = 'edge 1 taken 00010058 00010058 4\nedge 2 untaken 00010058 00010068 5\nedges 9 counted 5 executions 9\n'
WORDS = 'word 00010054 1\nword 0001005c 7\nwords 7 visited 2 visits 8\n'
LATER = 'word 00010058 2\nword 0001005c 1\nwords 7 visited 2 visits 3\n'


def summed(*contents):
    """What merge.py prints of files with these contents."""
    with mock.patch.object(sys, 'argv', ['merge.py', *map(written, contents)]), \
            contextlib.redirect_stdout(io.StringIO()) as printed:
        merge.main()
    return printed.getvalue().splitlines()


class Merge(unittest.TestCase):
    def test_adds_edges(self):
        self.assertEqual(summed(EDGES, MORE), ['edge 0 fall 00010054 00010058 1', 'edge 1 taken 00010058 00010058 4',
                                               'edge 2 untaken 00010058 00010068 8', 'edges 9 counted 5 executions 13'])

    def test_adds_all_files(self):
        self.assertEqual(summed(EDGES, MORE, MORE, EDGES), [
            'edge 0 fall 00010054 00010058 2', 'edge 1 taken 00010058 00010058 8', 'edge 2 untaken 00010058 00010068 16',
            'edges 9 counted 5 executions 26'])

    def test_adds_words(self):
        self.assertEqual(summed(WORDS, LATER), ['word 00010054 1', 'word 00010058 2', 'word 0001005c 8',
                                                'words 7 visited 3 visits 11'])

    def test_adds_words_with_ways(self):
        self.assertEqual(summed(WORDS + EDGES, LATER + MORE), summed(WORDS, LATER) + summed(EDGES, MORE))

    def test_refuses_what_does_not_fit(self):
        for wrong in (EDGES.replace('edges 9', 'edges 8'), EDGES.replace('fall', 'land'), EDGES.replace('executions 4', 'executions 5'),
                      EDGES.replace('edges', 'edge'), ''):
            with self.assertRaises(Refused) as ended:
                summed(EDGES, wrong)
            self.assertEqual(ended.exception.status, 65)
