"""Which rows a report has: so many of each table, those of some share, and those of some functions or sources."""
from __future__ import annotations

import argparse
import copy
import difflib
import functools
import os
import re
from collections.abc import Callable, Iterable
from dataclasses import dataclass, replace
from fnmatch import fnmatchcase
from fractions import Fraction
from itertools import chain
from typing import Any

from .compare import function_of
from .debug_lines import DebugLines, Line
from .scripting import CONTENTS, WORDS, refuse
from .shown import Shown, is_save

PATTERN = '`*` stands for any text in it, `?` for a letter'


def add_options(parser: argparse.ArgumentParser) -> None:
    """The options that say which rows are wanted."""
    rows = parser.add_argument_group('which functions, loops, lines and kinds are printed; what is left out is told by a sum')
    rows.add_argument('--top', metavar='N', type=natural, help='N of each, else 20 functions, 5 loops, 10 lines and all kinds')
    rows.add_argument('--min-percent', metavar='P', type=percentage, help='those with P per cent of all instructions or more')
    rows.add_argument('--function', metavar='NAME', help=f'of the function of this name; {PATTERN}. A compiler\'s parts and '
                                                         'copies of a function, such as f.isra.0, count for it')
    rows.add_argument('--source-file', metavar='NAME', help='of a source of this name, or with a path that ends so, and functions '
                                                            'and loops that begin there; the same')


def natural(text: str) -> int:
    if not re.fullmatch('[0-9]*[1-9][0-9]*', text):
        raise argparse.ArgumentTypeError(f'{text!r} is no number from 1 on')
    return int(text)


def percentage(text: str) -> Fraction:
    if not re.fullmatch(r'[0-9]+(\.[0-9]*)?|\.[0-9]+', text) or Fraction(text) > 100:
        raise argparse.ArgumentTypeError(f'{text!r} is no number from 0 to 100')
    return Fraction(text)


def names_of(name: str) -> set[str]:
    """The names by which a function is found: its own, that of the function of which it is a part or a copy, that without
    arguments and types, and that without namespaces; of a routine without a name its address."""
    own = name.removesuffix(' (merged)')
    function = function_of(own)
    plain = function.replace('(anonymous namespace)::', '').partition('(')[0]
    while (shorter := re.sub('<[^<>]*>', '', plain)) != plain:
        plain = shorter
    plain = plain.rpartition(' ')[2]
    return {own, function, plain, plain.rpartition('::')[2]}


@dataclass(frozen=True)
class Filters:
    """What was asked for; what wasn't is None."""
    top: int | None = None
    min_percent: Fraction | None = None
    function: str | None = None
    source_file: str | None = None

    @classmethod
    def of(cls, words: argparse.Namespace) -> Filters:
        return cls(words.top, words.min_percent, words.function, words.source_file)

    def options(self) -> list[str]:
        """The options that were given."""
        return [f'--{name.replace("_", "-")}' for name, value in vars(self).items() if value is not None]

    def split(self, rows: Iterable[Any], is_wanted: Callable[[Any], bool], count_of: Callable[[Any], Any], total: int,
              most: int | None) -> tuple[list[Any], list[Any]]:
        """The rows that are printed, and those that are left out. They stand in the order of their counts; where it isn't
        said how many or of which share, there are `most`, or all."""
        most = self.top or (None if self.min_percent is not None else most)
        chosen, left_out = [], []
        for row in rows:
            fits = (most is None or len(chosen) < most) and 100 * count_of(row) >= (self.min_percent or 0) * total
            (chosen if fits and is_wanted(row) else left_out).append(row)
        return chosen, left_out

    @functools.cache
    def takes_function(self, name: str) -> bool:
        return self.function is None or any(fnmatchcase(known, self.function) for known in names_of(name))

    @functools.cache
    def takes_source(self, path: str) -> bool:
        """A source is meant by its path, by the end of that, or by where it stands from the current folder."""
        wanted = self.source_file
        return any(fnmatchcase(path, form) for form in (wanted, f'*/{wanted}', os.path.abspath(wanted)))

    def takes_line(self, line: Line | None) -> bool:
        return self.source_file is None or line is not None and self.takes_source(line.path)

    def want_function(self, shown: Shown, debug_of: Callable[[], DebugLines]) -> None:
        """Refuses a function that isn't there. One may be found by a run alone, where that lands on a SAVE."""
        names = map(shown.name_of, [None, *shown.starts])
        landed = (f'at {address:08x}' for address, word in zip(shown.text(), shown.words) if is_save(word))
        if self.function is None or any(map(self.takes_function, chain(names, landed))):
            return
        inlined = [function.name for function in debug_of().functions.values() if self.takes_function(function.name)]
        if inlined:
            refuse(f'{shown.name} has no code of {inlined[0]} but where it was inlined; --callgrind --inlined tells what that took',
                   WORDS)
        refuse(f'{shown.name} has no function {self.function}{shown.names_near(self.function)}', WORDS)

    def want_source(self, shown: Shown, debug: DebugLines) -> None:
        """Refuses a source that isn't there."""
        paths = {line.path for line in debug.line_at.values()}
        if not paths:
            refuse(f'{shown.name} has no line tables: compile it with -g', CONTENTS)
        if not any(map(self.takes_source, paths)):
            names = sorted(set(map(os.path.basename, paths)))
            near = difflib.get_close_matches(os.path.basename(self.source_file), names, 3, 0.5)
            refuse(f'{shown.name} has no source {self.source_file}; there is {", ".join(near or names[:3])}', WORDS)


def debug_of_routines(debug: DebugLines, routine_of: Callable[[int], int | None], wanted: set[int | None]) -> DebugLines:
    """What debug information says of the code of some routines."""
    def is_there(address: int) -> bool:
        return routine_of(address) in wanted

    part = copy.copy(debug)
    part.line_at = {address: line for address, line in debug.line_at.items() if is_there(address)}
    part.marks = [row for row in debug.marks if is_there(row.address)]
    part.functions = {key: replace(function, starts=list(filter(is_there, function.starts)),
                                   copies=[copied for copied in function.copies if is_there(copied.entry)])
                      for key, function in debug.functions.items()}
    return part
