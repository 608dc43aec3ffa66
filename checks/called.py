"""How the scripts of this folder are called: their words, the files that they read, and the program that they run."""
import os
import sys

sys.path.insert(1, os.path.join(os.path.dirname(os.path.dirname(os.path.abspath(__file__))), 'tools', 'python'))
from eeltools.entry import end_shortly
from eeltools.scripting import BUILT, EEL, TOP, UNBUILT, Parser, note, read_file, refuse

import argparse
import shutil
import signal

import judge

__all__ = ['BUILT', 'EEL', 'TOP', 'note', 'read_file', 'refuse', 'parser_of', 'natural', 'read_program', 'input_of', 'built', 'needs',
           'heed_signals']

sys.excepthook = end_shortly


def parser_of(text, usage=None):
    """A parser of a script's words, whose help is the script's own text."""
    return Parser(text, usage)


def natural(text):
    """A word that is a number from 0 on."""
    if not text.isdecimal():
        raise argparse.ArgumentTypeError(f'{text!r} is no number')
    return int(text)


def read_program(name, faults=judge.edit_faults):
    """The bytes of a program, which must be one that can be edited, or be run."""
    file = read_file(name)
    if found := faults(file):
        refuse(f'{name}: file fault {found[0]}')
    return file


def input_of(name):
    """What stands in the file beside a program that is its input."""
    return read_file(f'{name}.input') if os.path.exists(f'{name}.input') else b''


def built(program=EEL):
    """The program that is to be run. `./eel` must be built: its build takes long, which isn't seen here."""
    made = BUILT if program == EEL else program
    if not (os.path.isfile(made) and os.access(made, os.X_OK)):
        if made == BUILT:
            refuse('./eel is not built yet: call build.py first, which says how long it takes', UNBUILT)
        refuse(f'{program}: no program')
    return program


def needs(*programs):
    """Programs of the machine that a script calls."""
    for program in programs:
        if not shutil.which(program):
            refuse(f'{program} is missing')


def heed_signals(end=None):
    """Has what is called from here heed signals: a shell has commands ignore interrupts that it begins behind itself, and
    where SIGCHLD is ignored, no status is known. Where `end` is given, it heeds those that this doesn't ignore."""
    signal.pthread_sigmask(signal.SIG_SETMASK, [])
    signal.signal(signal.SIGCHLD, signal.SIG_DFL)
    for number in signal.SIGINT, signal.SIGTERM, signal.SIGHUP:
        usual = signal.default_int_handler if number == signal.SIGINT else signal.SIG_DFL
        if not end or signal.getsignal(number) != signal.SIG_IGN:
            signal.signal(number, end or usual)
