#!/usr/bin/env python3
"""Prints the edges of a function by its name."""
import os
import sys

sys.path.insert(0, os.path.join(os.path.dirname(os.path.realpath(__file__)), 'python'))
from eeltools.entry import run

if __name__ == '__main__':
    run('edges')
