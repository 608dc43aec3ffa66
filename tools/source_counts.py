#!/usr/bin/env python3
"""Prints how often a run reached each line of a program's sources."""
import os
import sys

sys.path.insert(0, os.path.join(os.path.dirname(os.path.realpath(__file__)), 'python'))
from eeltools.entry import run

if __name__ == '__main__':
    run('source_counts')
