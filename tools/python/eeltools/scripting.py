"""What the scripts of tools/ and checks/ share: where things stand, what a script refuses, reads and prints."""
from __future__ import annotations

import argparse
import contextlib
import errno
import functools
import os
import subprocess
import sys
import threading
from collections.abc import Iterable, Iterator, Sequence
from typing import Any, BinaryIO, NoReturn, TextIO

from . import Refused

TOP = os.path.realpath(os.path.join(os.path.dirname(os.path.realpath(__file__)), '..', '..', '..'))
EEL = os.path.join(TOP, 'eel')
INSTALLED = os.path.join(TOP, '..', '..', 'libexec', 'eel', 'eel_main')
BUILT = os.environ.get('EEL_PROGRAM') or (os.path.join(TOP, 'crates', 'eel_main', 'out', 'eel_main')
                                          if os.path.isdir(os.path.join(TOP, 'crates')) else INSTALLED)
# Statuses, as `eel` has them; but a file that is missing has that of one that is too long.
WORDS, CONTENTS, MISSING, MEMORY, DEVICE, UNBUILT = 64, 65, 66, 70, 74, 78
LONGEST, PIECE = 2 ** 30, 2 ** 24  # bytes of a file, and of what is read of it at a time


def silence(stream: TextIO) -> None:
    """Lets what else goes to a stream that failed go nowhere: else the end of the script would fail, too."""
    os.dup2(os.open(os.devnull, os.O_WRONLY), stream.fileno())


def note(line: str) -> None:
    """One line on the error stream."""
    try:
        if sys.stderr:
            print(f'{os.path.basename(sys.argv[0])}: {line}', file=sys.stderr)
    except OSError:
        silence(sys.stderr)


def refuse(line: str, status: int = CONTENTS) -> NoReturn:
    """Says why something can't be done: a script ends so, with this line on the error stream."""
    raise Refused(line, status)


@contextlib.contextmanager
def said_if_long(what: str) -> Iterator[None]:
    """On a terminal it is said what is done, where that takes more than two seconds."""
    timer = threading.Timer(2, note, [f'{what} ..'])
    timer.daemon = True
    if sys.stderr and sys.stderr.isatty():
        timer.start()
    try:
        yield
    finally:
        timer.cancel()


class VersionAction(argparse.Action):
    """Prints what `eel --version` says first: the version, the commit and the kit of the program that is called."""

    def __call__(self, parser: argparse.ArgumentParser, *_: Any) -> None:
        told = subprocess.run([EEL, '--version'], stdin=subprocess.DEVNULL, stdout=subprocess.PIPE, text=True).stdout
        print_lines([f'{parser.prog} of {line}' for line in told.splitlines()[:1]])
        parser.exit()


class Parser(argparse.ArgumentParser):
    """The words of a script, whose help is the script's own text."""

    def __init__(self, text: str, usage: str | None = None) -> None:
        super().__init__(description=text, formatter_class=argparse.RawDescriptionHelpFormatter, usage=usage)
        self.add_argument('--version', action=VersionAction, nargs=0, help='print the version and the commit of eel, and exit')

    def print_help(self, file: Any = None) -> None:
        if file is None:
            print_lines(self.format_help().splitlines())
        else:
            super().print_help(file)

    def error(self, message: str) -> NoReturn:
        if sys.stderr:
            self.print_usage(sys.stderr)
        refuse(message, WORDS)


def wants_built() -> None:
    """`eel` must be built: its build takes long, of which nothing would be seen here."""
    if not (os.path.isfile(BUILT) and os.access(BUILT, os.X_OK)):
        refuse(f'eel is not built yet: call {TOP}/build.py first, which says how long it takes', UNBUILT)


def why(error: BaseException) -> str:
    """What the system says of a file that can't be had."""
    return getattr(error, 'strerror', None) or str(error)


def read_file(name: str) -> bytes:
    """The bytes of a file."""
    try:
        with open(name, 'rb') as opened:
            return read_all(opened, name)
    except (OSError, ValueError) as error:
        refuse(f'{name}: {why(error)}', DEVICE if getattr(error, 'errno', None) == errno.EIO else MISSING)


def read_all(opened: BinaryIO, name: str) -> bytes:
    """All bytes of an open file, which has an end: of a device that has none it is said."""
    pieces, left = [], LONGEST
    while piece := opened.read(min(PIECE, left + 1)):
        pieces.append(piece)
        left -= len(piece)
        if left < 0:
            refuse(f'{name}: longer than {LONGEST} bytes', MISSING)
    return b''.join(pieces)


@functools.cache
def read_lines(name: str) -> list[str]:
    """The lines of a file of text, which is read once: a pipe can't be read again."""
    lines = read_file(name).decode('utf-8', 'replace').split('\n')
    return lines[:-1] if lines[-1] == '' else lines


def refuse_loss(outputs: Iterable[str], inputs: Sequence[str | int]) -> None:
    """Refuses to write over a file that is read, by whatever name; of streams it is their number. A device or a pipe loses
    nothing so."""
    for name in outputs:
        for read in inputs:
            with contextlib.suppress(OSError, ValueError):  # of what isn't there
                if os.path.isfile(name) and os.path.samefile(name, read):
                    refuse(f'{name} would be written over what is read', WORDS)


def opened_for_output(name: str, mode: int = 438) -> BinaryIO:
    """A file to be written. Its mode is that of a new one, but for what the user's mask takes away."""
    try:
        return open(name, 'wb', opener=lambda path, flags: os.open(path, flags, mode))
    except (OSError, ValueError) as error:
        refuse(f'{name}: {why(error)}', DEVICE)


def write_pieces(out: BinaryIO, pieces: Iterable[bytes | bytearray]) -> None:
    """Writes a file that was opened for that, and closes it."""
    try:
        with out:
            out.writelines(pieces)
    except OSError as error:
        refuse(f'{out.name}: {why(error)}', DEVICE)


def print_lines(lines: Iterable[str]) -> None:
    """Prints lines, as many as are wanted: a reader such as `head` may stop."""
    if sys.stdout is None:
        refuse('the standard output is closed', DEVICE)
    try:
        sys.stdout.writelines(f'{line}\n' for line in lines)
        sys.stdout.flush()
    except BrokenPipeError:
        silence(sys.stdout)
    except OSError as error:
        silence(sys.stdout)
        refuse(f'standard output: {error.strerror}', DEVICE)
