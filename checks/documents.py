#!/usr/bin/env python3
"""Holds the documents to the repository: checks/documents.py [DOCUMENT..]

Which names name nothing: it looks at links with their headings, and at what stands between backticks and in blocks of
commands: paths; crates, calls, types and definitions, which must occur in the code; clauses, which the call named before
them must have; commands of `eel` and options of scripts. The documents are README.md, those of docs/, and a README.md
beside other files. A name stands in the code where it occurs outside of comments. A path of one machine is a fault, and so
is a row of a table that begins as another one does, by a name, or a line of text with more than 130 characters.

Of all documents together: README.md has at most 130 lines; docs/REFERENCE.md has the commands that the launcher's --help,
the manual page, the completions and the parser have, each status, line of an outcome, trap and limit of a file, each script,
and each key of the schema of a profile; a figure with its unit (a build's minutes, must-fail edits, and the like) is one of
the figures of docs/PERFORMANCE.md, also where minutes and seconds are said in words, outside of tables; docs/PROVING.md may
have others of its own. A figure of so many of so many stands in one document. What PERFORMANCE.md counts must be what is
here: exactly, and of lines within a fiftieth. --write counts it anew. A commit at which something was measured and that the
repository lacks is said, and is no fault. How many arguments there may be is said as the definition has it. docs/layers.svg
has the crates of docs/layers.dot, by layers, docs/MAP.md those of crates.txt, and checks/README.md the scripts beside it.
The formulas of docs/STATEMENT.md are those of the clause and of its definition.
"""
import glob
import json
import os
import re
import subprocess
import sys

from called import TOP, note, parser_of
from programs import C_PROGRAMS, SMALL

# What documents name of the world outside: programs, and words of file formats and of the standards.
OUTSIDE = set('''apt awk bash bzip2 c callgrind callgrind_annotate clang cmp cp cpufreq dd dot eel false gcc gcov gdb
genhtml git graphviz kill kcachegrind lcov ld llvm lua make man massif mkdir nm nproc objcopy objdump od perf python3 qemu
readelf rt sed sh sparc strip true valgrind x Fn memset __muldf3 __udivdi3'''.split())
# Paths of every machine, and those that a document tells its reader to make.
EVERYWHERE = re.compile(r'/(?:dev/(?:null|full|stdout)|tmp(?:/(?:walk|real)\b.*)?|usr/bin/(?:time|env))')

SUFFIXES = {('.', suffix) for suffix in 'py sh md antt rt c h S svg png txt edit patch dot bash zsh fish'.split()}
PATH = re.compile(r'[\w.+-]+(?:/[\w.+-]+)*/?')
NAME = re.compile(r"[A-Za-z_][A-Za-z0-9_']*")
COMMENTS = {'.rt': '//', '.antt': '--', '.py': '#', '.sh': '#', '.c': '//', '.h': '//', '.S': '!', '.txt': '#',
            '.edit': None, '.json': None}


def files():
    """The files of the repository: those that git has or would add, or where git tells none, all but what is made."""
    try:
        listed = subprocess.run(['git', 'ls-files', '-co', '--exclude-standard'], cwd=TOP, capture_output=True, text=True)
        names = listed.stdout.split('\n') if listed.returncode == 0 else walked()
    except OSError:
        names = walked()
    return [name for name in names if name and os.path.exists(os.path.join(TOP, name))]


def walked():
    for at, folders, names in os.walk(TOP):
        folders[:] = sorted(set(folders) - {'.git', 'out', '__pycache__'})
        yield from (os.path.relpath(os.path.join(at, name), TOP) for name in names)


def read(name):
    with open(os.path.join(TOP, name), encoding='utf-8', errors='replace') as opened:
        return opened.read()


class Repository:
    """What there is to be named."""

    def __init__(self):
        self.files = set(files())
        self.folders = {name[:found.start()] for name in self.files for found in re.finditer('/', name)}
        self.base_names = {part for name in self.files | self.folders for part in name.split('/')}
        self.words, self.clauses = set(OUTSIDE), {}
        for name in self.files:
            suffix = os.path.splitext(name)[1]
            if suffix in COMMENTS or name in ('eel', 'build.py', '.ci/run'):
                self.read_code(read(name), COMMENTS.get(suffix, '#'), suffix)
        self.words |= {re.sub(r'\..*', '', part) for part in self.base_names}
        self.commands = set(re.findall(r'^    eel (--\w+|\w+)', read('eel'), re.M)) | {'--help'}

    def read_code(self, text, comment, suffix):
        code = re.sub(re.escape(comment) + '.*', '', text) if comment else text
        self.words.update(NAME.findall(code))
        if suffix == '.rt':
            for name, contract in re.findall(r'\bfn (\w+)(.*?)\n\s*(?:\{|;|\})', code, re.S):
                found = re.findall(r'\bensures (\w+) \{', contract)
                self.clauses.setdefault(name, set()).update(found)

    def has_path(self, path, document):
        path = path.rstrip('/')
        beside = os.path.normpath(os.path.join(os.path.dirname(document), path))
        places = {path, beside, f'crates/{path}'}
        return bool(places & (self.files | self.folders)) or '/' not in path and path in self.base_names \
            or any(name.endswith(f'/{path}') for name in self.files | self.folders)


def anchors(text):
    """The anchors of a document's headings."""
    for heading in re.findall(r'^#+ (.*)', text, re.M):
        yield re.sub(r'[^\w -]', '', heading.lower()).replace(' ', '-')


class Document:
    """The names in a document, each with the number of its line."""

    def __init__(self, repository, name):
        self.repository, self.name, self.text = repository, name, read(name)
        self.bad = []

    def check(self):
        in_block, cells = False, set()
        for number, line in enumerate(self.text.split('\n'), 1):
            in_block ^= line.startswith('```')
            cells = self.row(number, line, cells) if line.startswith('|') else set()
            self.links(number, line)
            self.machine_paths(number, line)
            if in_block or line.startswith('    '):
                self.commands(number, line)
            else:
                if len(line) > WIDEST and not line.startswith('|'):
                    self.bad.append((number, line[:40], f'a line of {len(line)} characters'))
                for span in re.findall(r'`([^`]+)`', line):
                    self.span(number, span)
        self.clauses()
        return self.bad

    def row(self, number, line, cells):
        """The first cells of a table's rows up to this one, whose names no other row may have there."""
        cell = line.strip('| ').partition(' | ')[0]
        if cell in cells and '`' in cell and self.name != PERFORMANCE:  # whose rows are measurements
            self.bad.append((number, cell, 'a row twice'))
        for call, names in re.findall(r'`(\w+)`: ((?:(?:, )?`\w+`)+)', line):
            self.clauses_of(number, call, names)
        return cells | {cell}

    def links(self, number, line):
        for target in re.findall(r'\]\(([^)\s]+)\)', line):
            path, _, anchor = target.partition('#')
            if '://' in target:
                continue
            beside = os.path.normpath(os.path.join(os.path.dirname(self.name), path)) if path else self.name
            if beside not in self.repository.files | self.repository.folders:
                self.bad.append((number, target, 'no such file'))
            elif anchor and anchor not in anchors(read(beside)):
                self.bad.append((number, target, 'no such heading'))

    def machine_paths(self, number, line):
        for path in re.findall(r'(?<![\w.$})>*,-])/[a-z]\w*/[\w./-]*|~/\w+', line):
            if not EVERYWHERE.fullmatch(path.rstrip('./')):
                self.bad.append((number, path, 'a path of one machine'))

    def commands(self, number, line):
        """Commands of `eel` and of scripts, in a block of commands."""
        for command in re.findall(r'(?:^ *(?:\$ )?|[|;&] *|\./)eel (--?\w+|\w+)(?= |$)', line):
            if command not in self.repository.commands:
                self.bad.append((number, f'eel {command}', 'no such command'))
        for script, rest in re.findall(r'\b((?:(?:tools|checks)/)?[a-z_]+\.py)\b([^|;>]*)', line):
            self.script(number, script, rest)

    def script(self, number, script, rest):
        paths = [name for name in self.repository.files if name == script or name.endswith(f'/{script}')]
        if not paths:
            self.bad.append((number, script, 'no such script'))
            return
        modules = {f'{os.path.dirname(path)}/{name}.py' for path in paths for name in re.findall(r'^from \.?(\w+) import', read(path), re.M)}
        texts = map(read, {*paths, *(modules & set(self.repository.files))})
        known = {'help'}.union(*(re.findall(r"(?<=')(?:--)?([a-z-]+)(?=')", text.replace('_', '-')) for text in texts))
        for option in re.findall(r'(?<=\s)--([a-z-]+)', rest):
            if option not in known:
                self.bad.append((number, f'{script} --{option}', 'no such option'))

    def span(self, number, span):
        words = span.split()
        if words[0] in ('eel', './eel') and len(words) > 1:
            self.commands(number, f'    {span}')
        elif words[0].endswith('.py'):
            self.script(number, words[0], ' '.join([''] + words[1:]))
        elif PATH.fullmatch(span) and ('/' in span.strip('/') or span[1:].rpartition('.')[1:] in SUFFIXES):
            if not self.is_path(span):
                self.bad.append((number, span, 'no such file'))
        elif len(words) == 1 and (found := re.fullmatch(r'(\w+(?:::\w+|\.\w+)*)(?:::\*|\(\))?', span)):
            missing = [word for word in re.split(r'::|\.', found[1]) if not self.is_word(word)]
            if missing:
                self.bad.append((number, span, 'no such name'))

    def is_path(self, path):
        if path.startswith('out/') or re.search('NAME|FOLDER|CRATE|PATH|PREFIX', path):  # made by a build, or a pattern
            return True
        return self.repository.has_path(path, self.name)

    def is_word(self, word):
        return word in self.repository.words or word.isupper() or re.fullmatch('[0-9a-f]+|0x.*', word)

    def clauses(self):
        """A clause must be one of the call that is named last before it, if that is one of the repository."""
        for found in re.finditer(r'\bclauses? ((?:(?:, | and |, and )?`\w+`)+)', self.text):
            before = re.findall(r'`(\w+)`', self.text[max(0, found.start() - 200):found.start()])
            self.clauses_of(self.text.count('\n', 0, found.start()) + 1, before[-1] if before else '', found[1])

    def clauses_of(self, number, call, names):
        """These names must be clauses of the call, if that has any that are named."""
        known = self.repository.clauses.get(call)
        for clause in re.findall(r'`(\w+)`', names) if known else ():
            if clause not in known:
                self.bad.append((number, clause, f'no clause of {call}'))


# ---- all documents together

README, REFERENCE, PERFORMANCE = 'README.md', 'docs/REFERENCE.md', 'docs/PERFORMANCE.md'
MOST_LINES = 130
WIDEST = 130
KNOWN_ENDS = 'programs with known ends'
UNITS = '|'.join(['processor minutes', 'minutes', 'seconds', 'MB', 'GB of disk', 'GB of memory', 'GB afterwards',
                  'million steps a second', 'must-fail edits', KNOWN_ENDS])
IN_WORDS = dict(zip('two three four five six seven eight nine ten twelve twenty'.split(), '2 3 4 5 6 7 8 9 10 12 20'.split()))
SPELLED = re.compile(rf'\b(?:{"|".join(IN_WORDS)})(?= (?:minutes|seconds)\b)')
ROUGH = 'docs/PROVING.md'  # whose seconds are those of single functions
NUMBER = r'\d[\d.,]*'
FIGURE = re.compile(rf'({NUMBER}(?: to {NUMBER})?) ({UNITS})\b|({NUMBER} to {NUMBER})\s+(times)\b|'
                    rf'\b(?:the|all|its)\s+({NUMBER})\s+(programs)\b')
PARSER, OUTCOMES = 'crates/eel_said/specs/Command.antt', 'crates/eel_said/src/outcome.rt'
SCHEMA = 'docs/profile.schema.json'
SHOWN, TRAPS = 'crates/eel_said/specs/Outcome.antt', 'crates/v8_step/specs/Traps.antt'
MAP, ARGUMENTS = 'docs/MAP.md', 'crates/v8_process/specs/Arguments.antt'
STATEMENT, EDITING = 'docs/STATEMENT.md', 'crates/edit_core/src/editing.rt'
SAME = 'crates/edit_core/specs/Outwardly.antt'


def section(text, heading):
    """What stands below a heading of the second level, with it."""
    return re.search(rf'^## {re.escape(heading)}\n.*?(?=^## |\Z)', text, re.M | re.S)[0]


def cells(text):
    """The rows of the tables in a text, without their heads, each as its cells."""
    lines = [line for line in text.split('\n') if line.startswith('|')]
    rows = [line for line, below in zip(lines, [*lines[1:], '']) if '|---' not in (line[:4], below[:4])]
    return [[cell.strip() for cell in row.strip('| ').split(' | ')] for row in rows]


def usages_in_manual(text):
    """The commands of the manual page, each by itself."""
    part = re.search(r'^\.SH COMMANDS\n(.*?)^\.SH ', text, re.M | re.S)[1]
    for line in re.findall(r'^\.TP\n(.*)', part, re.M):
        plain = re.sub(r'\\f[BIR]', '', line).replace('\\-', '-')
        verbs, rest = re.fullmatch(r'((?:\w+, )*\w+) (.*)', plain).groups()
        yield from (f'{verb} {rest}' for verb in verbs.split(', '))


def command_faults():
    """Where the reference's commands aren't those of the launcher, the manual page, the parser and the completions."""
    reference, launcher = read(REFERENCE), read('eel')
    wanted = {row[0].strip('`') for row in cells(section(reference, 'Commands').split('\n\n')[1])}
    helped = re.findall(r'^    eel (\w.* )', launcher, re.M)
    unsaid = [line for line in helped if not any(line.startswith(f'{usage} ') for usage in wanted)]
    unhelped = [usage for usage in wanted if not any(line.startswith(f'{usage} ') for line in helped)]
    yield from (f'eel --help: {usage}: in one of it and {REFERENCE} alone' for usage in sorted(unsaid + unhelped))
    manual = set(usages_in_manual(read('tools/pages/eel.1')))
    yield from (f'tools/pages/eel.1: {usage}: in one of it and {REFERENCE} alone' for usage in sorted(manual ^ wanted))
    words = set(re.findall(r'[a-z]+', ' '.join(re.sub(r'[A-Z]+', '', usage) for usage in wanted))) - {'n', 'd'}
    parsed = set(re.findall(r'codes "([a-z]+)"', read(PARSER)))
    yield from (f'{PARSER}: {word}: in one of it and {REFERENCE} alone' for word in sorted(words ^ parsed))
    options = set(re.findall(r'`(--[a-z]+)', section(reference, 'The launcher and the build')))
    known = set(re.findall(r'^    eel (--\w+)', launcher, re.M)) | {'--help'}
    yield from (f'eel: {option}: in one of it and {REFERENCE} alone' for option in sorted(options ^ known))
    completed = set(re.findall(r"[a-z-]+", ' '.join(re.findall(r"-W '([^']*)'", read('tools/eel.bash')))))
    yield from (f'tools/eel.bash: {word}: not completed' for word in sorted((words | known) - completed))


def outcome_faults():
    """What lines of outcomes say, statuses, and the types of traps, must stand in the reference."""
    reference = read(REFERENCE)
    for text in re.findall(r'b"([^"]*)"', read(OUTCOMES)):
        words = text.replace('\\n', '').removeprefix('eel: ').strip(' ,:')
        if len(words) > 1 and words not in reference:
            yield f'{REFERENCE}: `{words}`, which a line of an outcome says, is left out'
    stated = {row[0] for row in cells(section(reference, 'Statuses'))}
    manual = set(re.findall(r'^ ?(\d+)  ', read('tools/pages/eel.1').partition('.SH EXIT STATUS')[2], re.M))
    own = set(re.findall(r'^status_of .* = (\d+)$', read(SHOWN), re.M))
    for status in sorted(stated ^ manual | own - stated):
        yield f'status {status}: in some of {REFERENCE}, tools/pages/eel.1 and {SHOWN} alone'
    numbers = set(re.findall(r'\d+', ' '.join(row[0] for row in cells(section(reference, 'Traps')))))
    for name, number in re.findall(r'^([a-z]\w+) = (0x\w+)$', read(TRAPS), re.M):
        if str(int(number, 16)) not in numbers:
            yield f'{REFERENCE}: trap {int(number, 16)}, {name}, is left out'


def limit_faults(documents):
    """Limits that documents have otherwise than the definitions: of files, of a run's steps, and of arguments."""
    texts = ''.join(read(name) for name in glob.glob('crates/eel_*/specs/**/*.antt', root_dir=TOP, recursive=True))
    wanted = {f'{int(count):,} MiB' for count in re.findall(r'^\w+_limit = (\d+) \* 2 \^ 20$', texts, re.M)}
    row = next(row for row in cells(section(read(REFERENCE), 'Statuses')) if row[0] == '66')
    for limit in sorted(wanted ^ set(re.findall(r'[\d,]+ MiB', row[2]))):
        yield f'{REFERENCE}: status 66: {limit}: in one of it and the definitions alone'
    steps = int(re.search(r'^default_limit = (\d+)$', texts, re.M)[1])
    if f'{steps:,} if none is given' not in read(REFERENCE):
        yield f'{REFERENCE}: a run makes {steps:,} steps if no limit is given'
    text = read(ARGUMENTS)
    few, short = (int(re.search(pattern, text)[1]) for pattern in (r'length args ≤ (\d+)', r'strings args\) ≤ 2 \^ (\d+)'))
    for name in documents:
        for found in re.findall(r'at most ([\d,]+) words,?\s+and\s+([\d,]+)\s+bytes', read(name)):
            if found != (f'{few:,}', f'{2 ** short:,}'):
                yield f'{name}: arguments: {" words and ".join(found)} bytes: not so in {ARGUMENTS}'


def crate_names():
    return [line.partition(':')[0] for line in read('crates.txt').split('\n') if line and not line.startswith('#')]


def list_faults():
    """Crates that MAP.md lacks or has twice, and scripts that the documents on them leave out."""
    crates = crate_names()
    listed = re.findall(r'`(\w+)`', ' '.join(row[0] for row in cells(section(read(MAP), 'Crates'))))
    for name in sorted({*crates, *listed}):
        if crates.count(name) != listed.count(name):
            yield f'{MAP}: the crate {name}: {listed.count(name)} times among the crates'
    places = [('checks', read('checks/README.md'), os.R_OK), ('tools', section(read(REFERENCE), 'Scripts'), os.X_OK)]
    for folder, text, mode in places:
        for name in sorted(glob.glob('*.py', root_dir=os.path.join(TOP, folder))):
            if os.access(os.path.join(TOP, folder, name), mode) and f'`{name}' not in text:
                yield f'{folder}/{name}: left out of what {"checks/README.md" if folder == "checks" else REFERENCE} lists'


def tell_commits():
    """Commits at which something was measured that the repository, where it is whole, doesn't have."""
    def git(*words, given=''):
        try:
            return subprocess.run(['git', *words], cwd=TOP, input=given, capture_output=True, text=True).stdout
        except OSError:
            return ''

    if git('rev-parse', '--is-shallow-repository').strip() == 'false':
        named = sorted(set(re.findall(r'\b(?=[a-f\d]*\d)[a-f\d]{8}\b(?=\)| \||[:,])', read(PERFORMANCE))))
        for line in git('cat-file', '--batch-check', given=''.join(f'{name}\n' for name in named)).split('\n'):
            if line.endswith(' missing'):
                note(f'{PERFORMANCE}: {line.split()[0]}: no commit')


def json_faults():
    """Keys of a profile in JSON that the reference has otherwise than the schema."""
    schema = json.loads(read(SCHEMA))
    stated = {row[0].strip('`'): set(re.findall('`([a-z_0-9]+)`', row[1])) for row in cells(section(read(REFERENCE), 'Scripts'))}
    for key, value in schema['properties'].items():
        name = value.get('items', value).get('$ref')
        wanted = schema['$defs'][name.rpartition('/')[2]]['properties'].keys() if name else set(value.get('enum', ()))
        if stated.get(key) != wanted:
            yield f'{REFERENCE}: {key}: {sorted(stated.get(key, ()))} where {SCHEMA} has {sorted(wanted)}'


def lines_of(pattern, comment):
    """How many lines of code the files have: neither blank nor a comment."""
    names = glob.glob(os.path.join(TOP, 'crates', '*', pattern), recursive=True)
    lines = (line.strip() for name in names for line in read(name).split('\n'))
    return sum(bool(line) and not line.startswith(comment) for line in lines)


def counted():
    """What PERFORMANCE.md says of the repository, with whether it is exact."""
    edits = glob.glob(os.path.join(TOP, 'crates', '*', 'must-fail', '*.edit'))
    return {'crates': (len(crate_names()), True), 'must-fail edits': (len(edits), True),
            KNOWN_ENDS: (len(SMALL) + len(C_PROGRAMS), True),
            'lines of code with its contracts (`src`)': (lines_of('src/**/*.rt', '//'), False),
            'lines of definitions (`specs`)': (lines_of('specs/**/*.antt', '--'), False),
            'lines of proofs': (lines_of('proofs/**/*.antt', '--'), False)}


COUNTED = re.compile(r'(<!-- counted -->\n(?:\|.*\n){2})((?:\|.*\n)*)')


def write_counted():
    """Puts what is counted into PERFORMANCE.md, lines in hundreds."""
    rows = (f'| {what} | {count if exact else round(count, -2):,} |\n' for what, (count, exact) in counted().items())
    told = COUNTED.sub(lambda found: found[1] + ''.join(rows), read(PERFORMANCE))
    with open(os.path.join(TOP, PERFORMANCE), 'w', encoding='utf-8') as out:
        out.write(told)


def in_digits(text):
    """The text with minutes and seconds in digits, but for tables: there a reader's own time stands in words."""
    return re.sub(r'(?m)^(?!\|).*', lambda line: SPELLED.sub(lambda found: IN_WORDS[found[0]], line[0]), text)


def figures_in(text):
    """The figures in a text, each as its number, its unit, and the number of its line."""
    for found in FIGURE.finditer(text):
        number, unit = filter(None, found.groups())
        yield number, KNOWN_ENDS if unit == 'programs' else unit, text.count('\n', 0, found.start()) + 1


def figure_faults(documents):
    """Figures that PERFORMANCE.md lacks or has otherwise."""
    stated = read(PERFORMANCE)
    said = {row[0]: int(row[1].replace(',', '')) for row in cells('head\n' + COUNTED.search(stated)[2])}
    for what, (count, exact) in counted().items():
        if what not in said or abs(said[what] - count) > (0 if exact else count // 50):
            yield f'{PERFORMANCE}: {what}: {said.get(what, "none")} where {count} are counted (--write)'
    known = {figure[:2] for figure in figures_in(section(stated, 'Figures'))}
    known |= {(f'{count:,}', what) for what, count in said.items()}
    known |= {(number, unit) for numbers, unit in known for number in numbers.split(' to ')}
    pairs = {}
    for name in documents:
        text = read(name)
        for figure, unit, number in figures_in(text if name == ROUGH else in_digits(text)) if name != PERFORMANCE else ():
            if (figure, unit) not in known and (name, unit) != (ROUGH, 'seconds'):
                yield f'{name}:{number}: {figure} {unit}: not so in {PERFORMANCE}'
        for pair in re.findall(rf"\b({NUMBER}) of (?:[\w']+ )?({NUMBER}\d)\b", text):
            if pairs.setdefault(pair, name) != name:
                yield f'{name}: {" of ".join(pair)}: in {pairs[pair]}, too'


def formula_faults():
    """Fields of the theorem, and its clause, that STATEMENT.md doesn't show as they are but for the numbers they begin with."""
    shown = ' '.join(read(STATEMENT).split())
    fields = re.findall(r'^  pub (\w+) : (.*(?:\n {6}.*)*)', read(SAME), re.M)
    clause = re.findall(r'^ +ensures (same) (\{.*\})$', read(EDITING), re.M)
    for name, formula in fields + clause[:1]:
        plain = re.sub(r'^\(n(?: status)? : ℕ\) → ', '', ' '.join(formula.split())).replace('descriptor', 'd')
        if plain not in shown:
            yield f'{STATEMENT}: the formula of `{name}` is another one'


def picture_faults():
    """Crates that the picture of the layers has in another layer than layers.dot, or lacks."""
    drawn = re.split(r'font-weight="bold">', read('docs/layers.svg'))[1:]
    shown = {part.partition('<')[0]: set(re.findall(r'\w+', ' '.join(re.findall(r'>([^<]+)<', part)))) for part in drawn}
    for layer, crates in re.findall(r'label="([^"]*)".*\n\s*(.*?)\}', read('docs/layers.dot')):
        for crate in set(re.findall(r'\w+', crates)) - shown.get(layer, set()):
            yield f'docs/layers.svg: {crate}: not in the layer {layer}'


def faults_of_all(documents):
    """What is wrong of the documents as a whole."""
    if (lines := read(README).count('\n')) > MOST_LINES:
        yield f'{README}: {lines} lines, {MOST_LINES} at most'
    yield from command_faults()
    yield from outcome_faults()
    yield from limit_faults(documents)
    yield from json_faults()
    yield from figure_faults(documents)
    yield from list_faults()
    tell_commits()
    yield from picture_faults()
    yield from formula_faults()


def main():
    parser = parser_of(__doc__)
    parser.add_argument('documents', metavar='DOCUMENT', nargs='*', help='these alone')
    parser.add_argument('--write', action='store_true', help='put what is counted into docs/PERFORMANCE.md')
    words = parser.parse_args()
    if words.write:
        write_counted()
    repository, bad = Repository(), 0
    given = [os.path.relpath(os.path.abspath(name), TOP) for name in words.documents]
    documents = given or sorted(name for name in repository.files if name.endswith('.md'))
    for name in documents:
        if name not in repository.files:
            sys.exit(f'documents.py: {name}: no document of the repository')
        for number, text, why in sorted(Document(repository, name).check()):
            print(f'{name}:{number}: {text}: {why}')
            bad += 1
    faults = [] if given else list(faults_of_all(documents))
    print('\n'.join([*faults, f'{len(documents)} documents, {bad} names that name nothing, {len(faults)} other faults']))
    return bad > 0 or bool(faults)


if __name__ == '__main__':
    sys.exit(main())
