#!/usr/bin/env python3
"""What has to be read to believe what EEL promises, and whether docs/STATEMENT.md says so: checks/statement.py [FOLDER]

The definitions that the statements below name are followed through specs, and through the types, traits and models that
src declares: by names, along imports, without those that a definition binds itself. Proofs aren't followed, nor names of
std and of the kit's crates. A line of code is one that isn't blank, a comment or an import.

STATEMENT.md has the files in sections, in the order in which to read them. A section has what its statements need
beyond the sections before it: a row for each file, with as many lines of code as it adds. It is a fault, told in a line
and answered by status 1, where
- STATEMENT.md leaves out a file of a section, names one too many or twice, tells nothing of it, or has another figure
  than the one that is counted; or where of a file up to four names are meant, and others aren't, its row has others;
- a file of specs holds definitions of the statement of `eel` and `run_words`, and others;
- a definition of specs is named by nobody: in specs, src or proofs;
- STATEMENT.md's table of notation leaves a sign out that a definition uses: a name or an operator of std and of the kit's
  crates, or a word of the language.
Definitions of the same text under different names are told, too, and are no fault. The figures are printed.

With --write the figures, and the names that are meant of a file, are put into STATEMENT.md first. A row that has to go is
taken out, and one that is missing is put at its section's end, where it wants a word on what to look for. --names SECTION
prints the names that a section adds, file by file.
"""
import os
import re
import sys
from collections import defaultdict

from called import TOP, parser_of

STATEMENT = 'docs/STATEMENT.md'

# The sections, in order, with what each states: definitions of specs as `crate Name`, functions of src as `crate::name`,
# and files of `eel_reports/specs/Answers` and `eel/specs/Answers` with all in them that the last section needs.
SECTIONS = {
    'outward': ['edit_core DoesTheSame'],
    'headline': ['edit_core IsFaithful'],
    'cost': ['edit_core HasBoundedCost'],
    'edits': ['Edit.antt', 'Restore.antt', 'Script.antt', 'ScriptLines.antt'],
    'profiles': ['Trees.antt', 'Profile.antt', 'Weighed.antt', 'Every.antt', 'Trace.antt', 'Tool.antt'],
    'runs': ['Run.antt', 'Dump.antt'],
    'reports': ['Counts.antt', 'ExactCounts.antt', 'Visits.antt', 'ExactVisits.antt', 'LastEdges.antt', 'Report.antt'],
    'listings': ['Show.antt', 'List.antt', 'Print.antt', 'Words.antt'],
    'demo': ['Demo.antt'],
    'frame': ['eel::eel', 'eel::run_words'],
}
# The rows of the table of figures: what must be read for these sections' statements alone.
FIGURES = {
    'the outward theorem': ['outward'],
    'the headline': ['headline'],
    'the headline and its cost': ['headline', 'cost'],
    '`eel` and `run_words`': ['frame'],
}

ENDS = r'\s(){}\[\];,"@«»'      # what ends a name
NAME = rf'(?:«[^»]*»|[^{ENDS}.]+)(?:\.(?:«[^»]*»|[^{ENDS}.]+))*'
WORD = re.compile(rf'{NAME}|\.+(?:[^{ENDS}.]+)?|[(){{}}\[\];,@]')
MARKS = {'abbrev', 'unfoldable', 'pattern', 'pub', 'axiom'}
# Words of the language: what a reader of these files meets that no file declares.
LANGUAGE = set('''abbrev unfoldable unfolding pub use module where record data let in if then else do infixl infixr infix
specs.declared λ ← → ∷ × Type'''.split())
SMALL = {'zero', 'suc', 'true', 'false', 'pos', 'negsuc', 'refl', 'yes', 'no', 'tt'}     # constructors
OPEN, CLOSE = '({[', ')}]'


# ---- text

def blank(text):
    return re.sub(r'[^\n]', ' ', text)


def without_comments(text, is_rust):
    """The text with comments and strings as blanks."""
    comments = r"//[^\n]*|/\*.*?\*/|(?<!\w)'(?:\\x..|\\u\{[^}]*\}|\\.|[^\\'\n])'" if is_rust \
        else rf'(?<![^{ENDS}])--[^\n]*|\{{-.*?-\}}'
    return re.sub(r'"(?:\\.|[^"\\])*"|' + comments, lambda found: blank(found[0]), text, flags=re.S)


def closing(text, start):
    """Where the bracket is closed that opens at `start`."""
    depth = 0
    for found in re.compile(r'[(){}\[\]]').finditer(text, start):
        depth += 1 if found[0] in OPEN else -1
        if depth == 0:
            return found.start()
    raise ValueError('a bracket is left open')


def words_of(line):
    return [word.replace('«', '').replace('»', '') for word in WORD.findall(line)]


def back(words, at, stops):
    """The place behind the last of these words before `at`."""
    while at and words[at - 1] not in stops:
        at -= 1
    return at


def ahead(words, at, stop):
    """The next place of a word that stands in no bracket opened since."""
    depth = 0
    for end in range(at + 1, len(words)):
        if words[end] == stop and depth == 0:
            return end
        depth += (words[end] in OPEN) - (words[end] in CLOSE)
    return len(words)


# ---- files and definitions

class Item:
    """A definition of specs, or what src declares. A part is a signature, a clause, a record or the like, as lines of
    words; what it binds is bound in it alone."""

    def __init__(self, scope, name, line, kind, section=None):
        self.scope, self.name, self.line, self.kind, self.section = scope, name, line, kind, section
        self.lines, self.parts, self.types, self.needs = set(), [], [], set()

    def __repr__(self):
        return f'{self.scope.path}:{self.line} {self.name}'

    def in_specs(self):
        return self.scope.path.endswith('.antt')

    def names(self, part):
        """The names in a part, without those that it binds, and those."""
        words = [word for line in part for word in line]
        names, bound, depth, left = set(), set(), 0, self.kind == 'def'

        def bind(pattern):
            for word in pattern:
                imported = word in self.scope.imports and word[:1].isupper()
                if re.match(r'[^\W\d]', word) and '.' not in word and word != self.name \
                        and not (word in SMALL or imported or word in self.scope.constructors):
                    bound.add(word)

        for at, word in enumerate(words):
            depth += (word in OPEN) - (word in CLOSE)
            if word == ':':                                 # (x y : A)
                start = back(words, at, OPEN + CLOSE + ',;')
                if start and words[start - 1] in '({':
                    bind(words[start:at])
            elif word == 'λ':                               # λ x. ..
                bind(words[at + 1:ahead(words, at, '.')])
            elif word == 'let':                             # let x = .. in ..
                bind(words[at + 1:ahead(words, at, '=')])
            elif word == '↦':                               # elim .. [ x ↦ .. | .. ]
                bind(words[back(words, at, '[|'):at])
            elif word == '=' and depth == 0 and left:       # f x y = ..
                bind(words[:at])
                left = False
            if words[at + 1:at + 2] != ['='] or not at or words[at - 1] not in '{;':    # but for { field = ..; .. }
                names.add('>>=' if word == 'do' else word)
        for line in part:
            if '←' in line:                                 # x ← .. in a `do`
                bind(line[back(line, line.index('←'), ('do', '=', '↦')):line.index('←')])
            elif line is not part[0] and ':' in line and not set(line[:line.index(':')]) & set(OPEN + CLOSE):
                bound.update(line[:line.index(':')])        # a field, or a definition below `where`
        return {name for name in names if name.split('.')[0] not in bound and name != self.name}, bound


class Scope:
    """A file: the names that it imports, its own, and its code without imports and comments."""

    def __init__(self, top, crate, path):
        self.crate, self.path = crate, path
        self.own, self.constructors, self.imports, self.passed, self.signs, self.rust = {}, {}, {}, set(), {}, {}
        with open(os.path.join(top, path), encoding='utf-8') as opened:
            code = without_comments(opened.read(), path.endswith('.rt'))
        ghost = 'ghost ' if path.endswith('.rt') else ''
        use = rf'^[ \t]*((?:unfoldable )?pub )?{ghost}use (\w[^{{;\n:=]*)(?:\{{([^{{}}]*)\}})?;?'
        self.code = re.sub(use, self.used, code, flags=re.M)

    def used(self, found):
        """Takes a `use` line: a module, or names of one, which may be passed on."""
        path, names = found[2].strip(), found[3]
        for part in [path] if names is None else names.split(','):
            name, _, local = (word.replace('«', '').replace('»', '').strip() for word in part.partition(' as '))
            local = local or (name if name.startswith('◌') else name.split('.')[-1])
            self.imports[local] = (name, None) if names is None else (path.rstrip('.'), name)
            self.signed(local)
            if names is not None and found[1]:
                self.passed.add(local)
        return blank(found[0])

    def signed(self, name):
        """The signs of an operator stand for it, as `++` for ◌++◌."""
        for sign in name.split('◌') if '◌' in name else []:
            self.signs.setdefault(sign, name)


class Repository:
    """All definitions, and what they name."""

    def __init__(self, top):
        self.top, self.items, self.modules = top, [], {}
        self.declared, self.passed_on, self.functions = defaultdict(dict), defaultdict(dict), {}
        self.crates = sorted(os.listdir(os.path.join(top, 'crates')))
        for folder in ('specs', 'proofs'):                  # of proofs, what they pass on
            for scope in self.scopes(folder, '.antt'):
                self.modules['.'.join(['Rattle'] + re.sub(r'(/Lib)?\.antt$', '', scope.path).split('/')[1:])] = scope
                if folder == 'specs':
                    self.read_specs(scope)
        for scope in self.scopes('src', '.rt'):
            self.read_source(scope)
        for item in self.items:
            self.follow(item)

    def scopes(self, folder, suffix):
        for crate in self.crates:
            for inner, _, names in sorted(os.walk(os.path.join(self.top, 'crates', crate, folder))):
                for name in sorted(names):
                    if name.endswith(suffix):
                        yield Scope(self.top, crate, os.path.relpath(os.path.join(inner, name), self.top))

    def item(self, *words):
        self.items.append(Item(*words))
        return self.items[-1]

    def read_specs(self, scope):
        lines = scope.code.split('\n')
        item, section, indent, depth = None, None, 0, 0
        for at, line in enumerate(lines, 1):
            words, space = words_of(line), len(line) - len(line.lstrip())
            if not words:
                continue
            begins = depth == 0 and space in (0, indent) and words[0] not in CLOSE
            if begins and space == 0 and indent:
                section, indent = None, 0
            word = next((word for word in words if word not in MARKS), '')
            if begins and word in ('mod', 'infixl', 'infixr', 'infix'):
                item = None
            elif begins and word == 'module':
                item = section = self.item(scope, 'module', at, 'section')
                item.parts.append([])
            elif begins and word != 'unfolding':
                item = self.begun(scope, words, at, section) or item
                item.parts.append([])
            if item is not None:
                item.lines.add(at)
                if item.kind == 'data' and at > item.line and depth == 0 and ':' in words:
                    scope.constructors.update((name, item) for name in words[:words.index(':')])
                if word != 'unfolding':
                    item.parts[-1].append(words)
                if item.kind == 'section' and words[-1] == 'where':
                    following = next(rest for rest in lines[at:] if rest.strip())
                    indent = len(following) - len(following.lstrip())
            depth += sum((word in OPEN) - (word in CLOSE) for word in words)

    def begun(self, scope, words, at, section):
        """The definition that begins with this line, if it is no clause of the one before."""
        while words[0] in MARKS:
            words = words[1:]
        kind, name = words[:2] if words[0] in ('record', 'data') and words[1] not in ':=' else ('def', words[0])
        if kind == 'def' and not re.match(r'(\{ [^}]*\} )?: ', ' '.join(words[1:] + [''])):
            return None
        scope.own[name] = self.item(scope, name, at, kind, section)
        scope.signed(name)
        return scope.own[name]

    def read_source(self, scope):
        text, crate = scope.code, scope.crate
        for found in re.finditer(r'^\s*(?:pub(?:\([^)]*\))? )?use ([^;]+);', text, re.M):
            for name, local in re.findall(r'(\w+)(?: as (\w+))?\s*(?=[,}]|$)', found[1]):
                scope.rust[local or name] = of = (found[1].split('::')[0].strip(), name)
                if of[0] in self.crates:
                    self.passed_on[crate].setdefault(local or name, of)
        # how a value is found again from its meaning is no part of what it means
        for found in re.finditer(r'ghost (?:inverse|inverse_ok|coded) *= *\{', text):
            end = closing(text, found.end() - 1) + 2
            text = text[:found.start()] + blank(text[found.start():end]) + text[end:]
        for found in re.finditer(r'^[ \t]*(?:pub(?:\([^)]*\))? )?(struct|enum|trait|type|const) (?!fn )(\w+)', text, re.M):
            end = re.compile(';' if found[1] in ('const', 'type') else r'[{;(]').search(text, found.end()).start()
            if text[end] != ';':
                end = closing(text, end)
                end = text.index(';', end) if text[end] == ')' else end
            self.declared[crate].setdefault(found[2], self.declares(scope, found[2], found[1], text, found.start(1), end))
        for found in re.finditer(r'^[ \t]*(?:unsafe )?impl\b[^{]*\bModel for (\w+)[^{]*\{', text, re.M):
            model = self.declares(scope, 'Model', 'model', text, found.start(), closing(text, found.end() - 1))
            model.types = []
            if found[1] in self.declared[crate]:
                self.declared[crate][found[1]].needs.add(model)
        for found in re.finditer(r'(?<!\w)fn (\w+)', text):
            if f'{crate}::{found[1]}' in SECTIONS['frame']:
                end = re.compile(r'\n\s*\{').search(text, found.end()).start()
                self.functions[f'{crate}::{found[1]}'] = self.declares(scope, found[1], 'fn', text, found.start(), end)

    def declares(self, scope, name, kind, text, start, end):
        """What stands there: its clauses and ghost members are its parts, and in the rest it names types."""
        item = self.item(scope, name, text.count('\n', 0, start) + 1, kind)
        lines = text.split('\n')
        item.lines = {at for at in range(item.line, text.count('\n', 0, end) + 2) if lines[at - 1].strip()}
        while lines[min(item.lines) - 2].strip().startswith('#['):
            item.lines.add(min(item.lines) - 1)
        inner = text[start:end]
        for found in list(re.finditer(r'(?:(?:ensures|requires)\*?\s*\w*|ghost \w+ *[:=])\s*\{', inner)):
            close = closing(inner, found.end() - 1)
            item.parts.append([words_of(line) for line in inner[found.end():close].split('\n')])
            inner = inner[:found.start()] + blank(inner[found.start():close]) + inner[close:]
        if kind == 'enum':      # without its variants' own names
            inner = re.sub(r'^ *[A-Z]\w*', '', inner, flags=re.M)
        item.types = re.findall(r'\b[A-Z]\w*', inner)
        return item

    def follow(self, item):
        binders = set()
        if item.section is not None:
            item.needs.add(item.section)
            binders = item.section.names(item.section.parts[0])[1]
        for part in item.parts:
            for name in item.names(part)[0]:
                head = name.split('.')[0]
                if head not in binders:
                    found = self.named(item.scope, name)
                    item.needs.add(found if found or item.in_specs() else self.type_named(item.scope, head))
        item.needs.update(self.type_named(item.scope, name) for name in item.types)
        item.needs -= {None, item}

    def named(self, scope, name):
        """What a name stands for in a file, if it is of this repository."""
        head, *rest = name.split('.') if not name.startswith('◌') else [name]
        head = head if head in scope.own or head in scope.imports else scope.signs.get(head, head)
        if head in scope.own or head in scope.constructors:
            return scope.own.get(head) or scope.constructors[head]
        path, item = scope.imports.get(head, (head, None))
        if item is not None:
            return self.at(path, item)
        ends = (self.at('.'.join([path] + rest[:end - 1]), rest[end - 1]) for end in range(len(rest), 0, -1))
        return next((found for found in ends if found is not None), None)

    def at(self, path, name, seen=()):
        """What a module has by a name, or passes on."""
        parts = path.split('.')
        if parts[0] != 'Rattle' or parts[1:2] == [] or parts[1] not in self.crates or (path, name) in seen:
            return None
        if parts[3:4] == ['declared']:
            types = self.declared[parts[1]]
            return next((types[part] for part in parts[:3:-1] + [name] if part in types), None)
        scope = self.modules.get(path)
        if scope is None:       # a constructor, as `Module.Type.Constructor`
            above = self.modules.get('.'.join(parts[:-1]))
            return above.own.get(parts[-1]) if above else None
        if name in scope.passed:
            return self.at(*scope.imports[name], seen + ((path, name),))
        return scope.own.get(name) or scope.constructors.get(name)

    def type_named(self, scope, name):
        """The type or trait of a name in a file of src, which a crate may have from another."""
        crate, name = scope.rust.get(name, ('crate', name))
        if crate in ('std', 'core', 'alloc'):
            return None
        crate, seen = crate if crate in self.crates else scope.crate, set()
        while name not in self.declared[crate]:
            seen.add(crate)
            crate, name = self.passed_on[crate].get(name, (crate, name))
            if crate in seen:
                return None
        return self.declared[crate][name]

    def named_by_any(self):
        """All that is named in specs, src or proofs, by another than itself."""
        found = set().union(*(item.needs for item in self.items))
        for folder, suffix in (('src', '.rt'), ('proofs', '.antt')):
            for scope in self.scopes(folder, suffix):
                found.update(self.named(scope, word) for word in set(words_of(scope.code)))
        return found


# ---- the statement, and the document

def closure(roots):
    found, left = set(), list(roots)
    while left:
        item = left.pop()
        if item not in found:
            found.add(item)
            left.extend(item.needs)
    return found


class Statement:
    """What is to be read: the files of each section, the figures; and what is wrong in specs."""

    def __init__(self, repository):
        self.repository, self.sections, found = repository, {}, set()
        self.specs = [item for item in repository.items if item.in_specs() and item.kind != 'section']
        self.whole = closure(repository.functions[name] for name in SECTIONS['frame'])
        for name in SECTIONS:
            self.sections[name] = closure(self.roots(name)) - found
            found |= self.sections[name]

    def roots(self, section):
        for root in SECTIONS[section]:
            if '::' in root:
                found = [self.repository.functions[root]]
            elif root.endswith('.antt'):
                places = [f'crates/{crate}/specs/Answers/{root}' for crate in ('eel_reports', 'eel')]
                found = [item for item in self.whole if item.scope.path in places]
            else:
                found = [item for item in self.specs if f'{item.scope.crate} {item.name}' == root]
            if not found:
                sys.exit(f'statement.py: {root}: there is nothing of this name')
            yield from found

    def files(self, section):
        """The files of a section, each with the lines of code in it."""
        lines = defaultdict(int)
        for item in self.sections[section]:
            if item.kind != 'fn':
                lines[item.scope.path[len('crates/'):]] += len(item.lines)
        return dict(sorted(lines.items()))

    def meant(self, section, path, most=4):
        """The names of a file that a section adds, where they are few and the file has others."""
        own = [item for item in self.repository.items
               if item.scope.path == f'crates/{path}' and item.kind not in ('section', 'fn')]
        names = [item.name for item in sorted(own, key=lambda item: item.line) if item in self.sections[section]]
        return names if len(names) <= most and len(names) < len(own) else []

    def figures(self):
        for title, sections in FIGURES.items():
            found = closure(root for name in sections for root in self.roots(name))
            items = [item for item in found if item.kind != 'fn']
            lines = [sum(len(item.lines) for item in items if item.in_specs() == where) for where in (True, False)]
            yield title, [len(set(items) & set(self.specs)), *lines, len({item.scope.path for item in items})]

    def faults(self):
        by_file = defaultdict(lambda: [[], []])
        for item in self.specs:
            by_file[item.scope.path][item not in self.whole].append(item)
        for path, (inside, outside) in by_file.items():
            if inside and outside:
                yield f'{path}: of the statement, but for {", ".join(item.name for item in outside)}'
        named = self.repository.named_by_any()
        yield from (f'{item}: named by nobody' for item in self.specs if item not in named)

    def signs(self):
        """What the statement uses of std, of the kit's crates and of the language, each with the first file that does."""
        found, scopes = {}, {item.scope.path: item.scope for item in self.whole if item.in_specs()}
        for item in sorted((item for item in self.whole if item.in_specs()), key=lambda item: (item.scope.path, item.line)):
            for name in sorted(name for part in item.parts for name in item.names(part)[0]):
                head, is_operator = name.split('.')[0], not re.search(rf'[\w{ENDS}.]', name)
                if self.repository.named(item.scope, name) is None and (head in item.scope.imports or is_operator):
                    found.setdefault(head or name, item.scope.path)
        for path in sorted(scopes):
            words = set(words_of(scopes[path].code))
            imports = {'specs.declared' for module, _ in scopes[path].imports.values() if '.specs.declared' in module}
            for word in LANGUAGE & (words | imports):
                found.setdefault(word, path)
        return found

    def twins(self):
        """Definitions of the same text, but for small numbers."""
        texts = defaultdict(list)
        for item in self.specs:
            words = [word for part in item.parts for line in part for word in line if word not in MARKS]
            named = [(self.repository.named(item.scope, word), word) for word in words]
            text = ' '.join('@' if found is item else word if found is None else repr(found)
                            if found.kind in ('def', 'record') else f'{found}.{word.split(".")[-1]}' for found, word in named)
            if not re.fullmatch(r'@ : ℕ @ = \d{1,2}', text):
                texts[text].append(item)
        return [items for items in texts.values() if len(items) > 1]


class Document:
    """The tables of STATEMENT.md: below a line `<!-- NAME -->` the rows of a section, or the figures."""

    def __init__(self, path, statement):
        self.path, self.statement = path, statement
        with open(path, encoding='utf-8') as opened:
            self.lines = opened.read().split('\n')

    def table(self, name):
        """Where a table's rows begin and end."""
        try:
            at = self.lines.index(f'<!-- {name} -->')
            start = end = next(row for row in range(at, len(self.lines)) if self.lines[row].startswith('|---')) + 1
        except (ValueError, StopIteration):
            sys.exit(f'{STATEMENT}: there is no table below a line <!-- {name} -->')
        while self.lines[end].startswith('|'):
            end += 1
        return start, end

    def rows(self, name):
        start, end = self.table(name)
        rows = [[cell.strip() for cell in line.strip('|').split('|')] for line in self.lines[start:end]]
        return [row + [''] * (3 - len(row)) for row in rows]

    def wanted(self):
        """Each table with the rows that it should have: those that are there, in their order, then those left out."""
        yield 'figures', [[title] + [f'{figure:,}' for figure in figures] for title, figures in self.statement.figures()]
        for name in SECTIONS:
            files = self.statement.files(name)
            said = {path: row[2].split(' · ')[0] for row in self.rows(name) if (path := row[0].strip('`')) in files}
            rows = [[f'`{path}`', f'{files[path]:,}', self.told(name, path, said.get(path, ''))]
                    for path in [*said, *(set(files) - set(said))]]
            yield name, rows[:len(said)] + sorted(rows[len(said):]) + [['together', f'{sum(files.values()):,}', '']]

    def told(self, section, path, about):
        """What to look for in a file, and which of its names are meant."""
        names = ', '.join(f'`{name}`' for name in self.statement.meant(section, path) if f'`{name}`' not in about)
        return ' · '.join(filter(None, [about, names]))

    def faults(self):
        for name, wanted in self.wanted():
            stated, rows = self.rows(name), {row[0]: row for row in wanted}
            for title in sorted({row[0] for row in stated} - set(rows)):
                yield f'{STATEMENT}: {name}: {title} is none of it'
            for title, row in rows.items():
                found = [line for line in stated if line[0] == title]
                figures = slice(1, None if name == 'figures' else 2)
                wanted, about = ', '.join(row[figures]), f'{STATEMENT}: {name}: {title}'
                if len(found) != 1:
                    yield f'{about} ({wanted}) is {"there twice" if found else "left out"}'
                elif found[0][figures] != row[figures]:
                    yield f'{about} has {wanted}, not {", ".join(found[0][figures])}'
                elif title != 'together' and name != 'figures' and not found[0][2].split(' · ')[0]:
                    yield f'{about} is there without a word on what to look for'
                elif found[0][2:] != row[2:]:
                    yield f'{about} has other names that are meant: {row[2]}'

    def unexplained(self):
        """Signs that the table of notation leaves out."""
        text = '\n'.join(self.lines)
        told = text[text.index('\n## Notation\n'):].split('\n## ')[1]
        spans = re.findall(r'`([^`]*)`|<code>(.*?)</code>', told)
        spans = [(mark or code).replace('&#124;', '|') for mark, code in spans]
        explained = {word for span in spans for word in [*span.split(), *words_of(span)]}
        explained |= {f'◌{sign}◌' for sign in explained}
        for sign, path in sorted(self.statement.signs().items()):
            if sign not in explained:
                yield f'{STATEMENT}: notation: {sign}, as in {path}, is left out'

    def write(self):
        for name, wanted in list(self.wanted()):
            start, end = self.table(name)
            self.lines[start:end] = ['| ' + ' | '.join(row).rstrip() + ' |' for row in wanted]
        with open(self.path, 'w', encoding='utf-8') as opened:
            opened.write('\n'.join(self.lines))


def main():
    parser = parser_of(__doc__)
    parser.add_argument('folder', metavar='FOLDER', nargs='?', default=TOP, help='of the repository (this one)')
    parser.add_argument('--write', action='store_true', help='put the figures into STATEMENT.md')
    parser.add_argument('--names', metavar='SECTION', choices=SECTIONS, help=f'print its names: {", ".join(SECTIONS)}')
    given = parser.parse_args()
    statement = Statement(Repository(given.folder))
    if given.names:
        for path in statement.files(given.names):
            items = [item for item in statement.sections[given.names] if item.scope.path == f'crates/{path}']
            names = [item.name for item in sorted(items, key=lambda item: item.line) if item.kind not in ('section', 'fn')]
            print(f'{path}: {" ".join(names)}')
        return 0
    document = Document(os.path.join(given.folder, STATEMENT), statement)
    if given.write:
        document.write()
    for title, (definitions, specs, source, files) in statement.figures():
        print(f'{title}: {definitions:,} definitions, {specs:,} lines of specs, {source:,} of src, {files} files')
    for items in statement.twins():
        print(f'of the same text: {", ".join(map(repr, items))}')
    faults = [*statement.faults(), *document.faults(), *document.unexplained()]
    print('\n'.join([*faults, f'{len(faults)} faults']))
    return bool(faults)


if __name__ == '__main__':
    sys.exit(main())
