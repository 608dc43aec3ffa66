#!/usr/bin/env python3
"""Which lemmas nothing names, and which statements stand in two files: checks/lemmas.py [CRATE..]

A lemma is what a file of proofs gives a type, at its top or in a `module` there; what a file's goals ask for isn't one, nor
is a fact about constants, which is a worked example. It is named where its name stands outside of itself, of imports
and of comments, in its own file or in one that imports it. Status 1 says that there is a lemma that nothing names.
Two statements are the same if they differ in the names and types of what they bind alone. Those in two files are told, and
are no fault: one may be out of the other's sight, or speak of its own module's parameters. A type of types alone, as a
definition has, is no statement.
"""
import re
import sys
from collections import Counter, defaultdict

from called import parser_of
from documents import files, read

ENDS = r'\s(){}\[\];,"@.:'
NAME = rf'[^{ENDS}]+'
HEAD = re.compile(rf'( *)(?:(?:pub|abbrev|unfoldable) )*({NAME}(?: {NAME})*) :(?=\s|$)')
WORD = re.compile(NAME)
IMPORT = re.compile(r'\s*(pub |ghost )*use ')
BINDER = re.compile(rf'(?<=[({{])((?:{NAME} )+):(?= )|λ ((?:{NAME} )*{NAME})(?=\.)')


class Lemma:
    def __init__(self, path, line, name, is_inner):
        self.path, self.line, self.name, self.is_inner, self.lines = path, line, name, is_inner, []

    def statement(self):
        """What it says, without its name."""
        said = []
        for line in self.lines:
            if said and re.match(rf'\s*(unfolding|{re.escape(self.name)})(?!{NAME})', line):
                break
            said.append(line)
        return ' '.join(' '.join(said).split()).partition(' : ')[2]

    def is_example(self):
        said = bare = self.statement()
        while bare != (bare := re.sub(r'\([^()]*\)', '', bare)):
            pass
        return not (self.is_inner or '→' in bare or re.match(r'[({][^()]* : ', said))


def numbered(names, said):
    """`said` with each of `names` as its place among those that occur."""
    places = {}
    return re.sub(NAME, lambda found: places.setdefault(found[0], f'#{len(places)}') if found[0] in names else found[0], said)


def as_compared(said):
    """A statement with numbers for the names that it binds, and without their types; '' of a type of types alone."""
    said = re.sub(r'λ \((\S+) : [^()]*\)\.', r'λ \1.', said)
    names = {name for found in BINDER.finditer(said) for name in (found[1] or found[2]).split()}
    bare = re.sub(rf'[({{](?:{NAME} )+: [^(){{}}]*[)}}] (?:→ )?', '', said)
    speaks = re.search(r'(?<!\S)\(*[a-z#]', re.sub(rf'{NAME}\.', '', numbered(names, bare)))
    return numbered(names, bare) if speaks else ''


class File:
    """The lemmas of a file, what it imports, and the names that its other lines have."""

    def __init__(self, path):
        self.path, self.lemmas, self.imports, self.names = path, [], set(), Counter()
        lemma = kind = None
        comment = '//' if path.endswith('.rt') else r'(?<!\S)--'
        for number, line in enumerate(re.sub(rf'(?m){comment}.*', '', read(path)).split('\n'), 1):
            found = IMPORT.match(line)
            if found:
                self.imports.update(WORD.findall(line))
                if 'pub' in found[0]:
                    self.names.update(WORD.findall(line))
            elif line.strip():
                depth = len(line) - len(line.lstrip())
                kind = re.sub('^pub ', '', line).split()[0] if depth == 0 else kind
                head = HEAD.match(line) if '/proofs/' in path else None
                if head and (depth, kind == 'module') in ((0, False), (2, True)):
                    lemma = None if ' : goal.' in line else Lemma(path, number, head[2].split()[-1], depth > 0)
                    self.lemmas += [lemma] if lemma else []
                elif lemma and depth <= 2 * lemma.is_inner and line.split()[0] not in (lemma.name, 'unfolding'):
                    lemma = None
                if lemma:
                    lemma.lines.append(line)
                else:
                    self.names.update(WORD.findall(line))
        for lemma in self.lemmas:
            self.names.update(set(WORD.findall('\n'.join(lemma.lines))) - {lemma.name})


def main():
    parser = parser_of(__doc__)
    parser.add_argument('crates', metavar='CRATE', nargs='*', help='these alone')
    crates = parser.parse_args().crates
    names = [name for name in files() if re.match(r'crates/\w+/(src|specs|proofs)/', name)]
    if unknown := sorted(set(crates) - {name.split('/')[1] for name in names}):
        parser.error(f'there is no crate {unknown[0]}')
    read_files = [File(name) for name in names]
    users = defaultdict(set)
    for file in read_files:
        for name in file.names:
            if file.path.endswith('.rt') or name in file.imports:
                users[name].add(file.path)
    of = {file.path: file for file in read_files}
    wanted = [lemma for file in read_files for lemma in file.lemmas if not crates or lemma.path.split('/')[1] in crates]
    unnamed = [lemma for lemma in wanted if not (of[lemma.path].names[lemma.name] or users[lemma.name] - {lemma.path}
                                                 or lemma.is_example())]
    for lemma in unnamed:
        print(f'{lemma.path}:{lemma.line}: {lemma.name}: nothing names it')
    said = defaultdict(list)
    for lemma in wanted:
        said[as_compared(lemma.statement())].append(lemma)
    twice = [some for key, some in said.items() if key and len({lemma.path for lemma in some}) > 1]
    for some in twice:
        print('said twice:', ', '.join(f'{lemma.name} ({lemma.path}:{lemma.line})' for lemma in some))
    print(f'{len(wanted)} lemmas, {len(unnamed)} that nothing names, {len(twice)} statements in two files')
    return bool(unnamed)


if __name__ == '__main__':
    sys.exit(main())
