"""Changes instructions of a program: tools/patch.py IN LISTING OUT

LISTING has lines of an address and an instruction, as `eel list` prints them or as annotate.py does, with its counts
before them or not; what begins with `#` is left out. Those that say another instruction than the program IN has at the
address are put there, and the program so changed is written as OUT. What was changed is printed. A routine's name may
stand where a branch or a CALL leads.
"""
from __future__ import annotations

import os
import re
import tempfile
from collections.abc import Iterator

from .scripting import Parser, opened_for_output, print_lines, read_lines, refuse, refuse_loss, write_pieces
from .shown import Shown, call_eel, eel
from .spelling import long_text, spelled

LINE = re.compile(r'(?:\x1b\[[0-9;]*m)?(?:.*?\s)?(?P<address>[0-9a-f]{8})\s+(?P<text>[^\s:].*?)(?:\s+\(slot\))?(?:\x1b\[0m)?')


class Patch:
    """The words that a listing changes."""

    def __init__(self, shown: Shown, listing: str) -> None:
        self.shown = shown
        self.texts = {int(line[:8], 16): line[9:] for line in eel('list', shown.name)}
        self.addresses = {name: start for start, name in shown.routines.items()}
        self.changed = {}
        for at, line in enumerate(read_lines(listing), 1):
            if not line.startswith('#') and (found := LINE.fullmatch(line.rstrip())):
                self.take(f'{listing}: line {at}', int(found['address'], 16), found['text'])
            elif line.strip() and not line.startswith('#') and ' instructions, ' not in line and not line.endswith(':'):
                refuse(f'{listing}: line {at}: no address with an instruction')

    def take(self, place: str, address: int, text: str) -> None:
        if address not in self.texts:
            refuse(f'{place}: {self.shown.name} has no word at {address:08x}')
        own = self.texts[address]
        if text in (own, spelled(own, self.shown.routines.get)):
            return
        wanted = long_text(text, self.addresses.get)
        if wanted != own:
            self.changed[address] = place, wanted, self.word(place, address, wanted)

    def word(self, place: str, address: int, text: str) -> bytes:
        """The word that an instruction is at an address."""
        with tempfile.TemporaryDirectory(prefix='eel-patch-') as folder:
            listing, words = (os.path.join(folder, name) for name in ('listing', 'words'))
            with open(listing, 'w') as opened:
                opened.write(f'{address:08x} {text}\n')
            made = call_eel('words', listing, words)
            if made.returncode:
                refuse(f'{place}: `{text}` is no instruction as `eel list` spells them')
            with open(words, 'rb') as opened:
                return opened.read()

    def file(self) -> bytearray:
        """The program with the words that are changed."""
        file = bytearray(self.shown.file)
        for address, (place, _, word) in self.changed.items():
            offset = self.shown.offset_of(address)
            if offset is None:
                refuse(f'{place}: the word at {address:08x} does not stand in the file')
            file[offset:offset + 4] = word
        return file

    def lines(self) -> Iterator[str]:
        for address, (_, text, _) in sorted(self.changed.items()):
            before, after = (spelled(one, self.shown.routines.get) for one in (self.texts[address], text))
            yield f'{self.shown.place(address)}: {before} -> {after}'
        yield f'{len(self.changed)} word{"" if len(self.changed) == 1 else "s"} changed'


def main() -> None:
    parser = Parser(__doc__)
    parser.add_argument('file', metavar='IN', help='the program')
    parser.add_argument('listing', metavar='LISTING', help='lines of instructions')
    parser.add_argument('out', metavar='OUT', help='the changed program')
    words = parser.parse_args()
    refuse_loss([words.out], [words.file, words.listing])
    patch = Patch(Shown(words.file), words.listing)
    file = patch.file()
    write_pieces(opened_for_output(words.out, os.stat(words.file).st_mode & 0o777), [file])
    print_lines(patch.lines())
