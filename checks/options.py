#!/usr/bin/env python3
"""Holds what names options to what --help names: checks/options.py [WHERE..]

WHERE is documents, bash, zsh or fish; without it, all of them. The manual pages of the installed scripts, in tools/pages, and
the options in docs/REFERENCE.md must be those that are made of each script's --help: --write makes them anew. eel.1, which is
made by hand, must have each option of `eel`. Options behind a script's name in any document, or in what another script's
--help says, must be its own. The completions for bash, zsh and fish must offer the options of each script's --help, and of
`eel` the commands of its own, with what may stand behind `edit` and `run`. Prints a line for each fault.
"""
import functools
import glob
import os
import re
import shlex
import subprocess
import sys
import tempfile
import textwrap
from dataclasses import dataclass

from called import EEL, TOP, needs, parser_of, read_file

PAGES, REFERENCE = os.path.join(TOP, 'tools', 'pages'), os.path.join(TOP, 'docs', 'REFERENCE.md')
WIDTH = 119  # columns of lines that are written
OF_EACH = {'-h', '--help', '--version'}
NAME = re.compile(r'(?<![\w-])--?[a-z][\w-]*')
LISTED = re.compile(r'(<!-- options -->\n)((?:[- ] .*\n)*)')
STATUSES = 'It is 64 where the words don\'t fit, 65 where a file is refused for its contents, 66 where one is missing or ' \
           'too long, 70 where there is no memory, 74 where a device fails, and 78 where `eel` isn\'t built.'


@dataclass
class Row:
    """An argument, or an option with its names and what stands behind them, and what it means."""
    names: list
    value: str
    text: str


class Help:
    """What --help of a script says, printed to lines of any length: its options in groups, each with a heading."""

    def __init__(self, text):
        usage, *parts = re.sub(r'\n {10,}', '  ', text.rstrip('\n')).split('\n\n')
        self.call = ' '.join(re.sub(r'\[-[^]]*\]', '', usage).split()[2:])
        self.paragraphs, self.arguments, self.groups = [], [], {}
        for part in parts:
            first, *lines = part.split('\n')
            if not (first.endswith(':') and lines and all(re.match('  +[^ ]', line) for line in lines)):
                self.paragraphs.append(' '.join(part.split()))
            elif first == 'positional arguments:':
                self.arguments = [row_of(line) for line in lines]
            else:
                self.groups[first] = [row_of(line) for line in lines]

    def options(self):
        return [row for rows in self.groups.values() for row in rows]

    def names(self):
        return {name for row in self.options() for name in row.names}


def row_of(line):
    """A line of arguments or options: names, each with what stands behind it or the last one alone, and a text."""
    head, text = re.fullmatch(r' +(.*?\S)(?:  +(.*))?', line).groups()
    names = NAME.findall(head)
    return Row(names, head[head.rindex(names[-1]) + len(names[-1]):].strip() if names else head, text or '')


@functools.cache
def commands():
    """The installed scripts, each with its file, as install.sh has them."""
    listed = re.search(r"^commands='([^']*)'", read_file(os.path.join(TOP, 'tools', 'install.sh')).decode(), re.M)[1]
    return {name: file for name, file in (word.split(':') for word in listed.split()) if name != 'eel'}


def lines_of_eel():
    """The commands of `eel`, as its --help has them."""
    told = subprocess.run([EEL, '--help'], capture_output=True, text=True, check=True).stdout
    return re.findall(r'^    eel (.*)', told, re.M)


@functools.cache
def help_of(command):
    done = subprocess.run([os.path.join(TOP, commands()[command]), '--help'], capture_output=True, text=True, check=True,
                          env={**os.environ, 'COLUMNS': '9999'})
    return Help(done.stdout)


# ---- manual pages

def bold(text):
    """Text as it is typed, whose backslashes are written already."""
    return '\\fB{}\\fR'.format(text.replace('-', '\\-').replace("'", '\\(aq'))


class Page:
    """The manual page of a script, where the scripts have the names under which they are installed."""

    def __init__(self, command, text, installed):
        self.command, self.help = command, text
        self.installed = {os.path.basename(file): name for name, file in installed.items()}
        values = ' '.join([row.value for row in text.arguments + text.options()])
        words = sorted(set(re.findall(r'[A-Z]+', values)), key=len, reverse=True) or ['FILE']
        self.marked = re.compile(rf'`([^`]+)`|((?:tools/)?\b\w+\.py\b)|({NAME.pattern})|\b({"|".join(words)})\b')

    def renamed(self, text):
        return re.sub(r'(?:tools/)?\b(\w+\.py)\b', lambda found: self.installed.get(found[1], found[0]), text)

    def mark(self, found):
        code, script, option, value = found.groups()
        return f'\\fI{value}\\fR' if value else bold(self.renamed(code or script or option))

    def line(self, text):
        """A text with its options, values and what stands between backticks marked."""
        return self.marked.sub(self.mark, text.replace('\\', '\\e'))

    def text(self, text):
        filled = textwrap.wrap(self.line(text), WIDTH, break_long_words=False, break_on_hyphens=False)
        return [f'\\&{line}' if line[0] in ".'" else line for line in filled]

    def name(self):
        """What the script does, as its first line says it, and the call that stands there, if it is more than words."""
        first, _, call = self.help.paragraphs[0].partition(': ')
        verb, rest = first.rstrip('.').replace('`', '').split(' ', 1)
        return f'{verb.lower().removesuffix("s")} {rest}', call if re.search('[|>]', call) else ''

    def paragraphs(self, heading, parts):
        for mark, part in zip([heading, *['.PP'] * len(parts)], parts):
            yield from [mark, *self.text(part)]

    def rows(self, rows):
        for row in rows:
            yield '.TP'
            yield f'{", ".join(map(bold, row.names))} {self.line(row.value)}'.strip()
            yield from self.text(row.text)

    def sections(self):
        told, call = self.name()
        own = self.command.replace('-', '\\-')
        yield f'.TH {own.upper()} 1 "" "EEL" "User Commands"'
        yield from ['.SH NAME', f'{own} \\- {told}']
        words = self.line(self.help.call.removeprefix('[OPTION..] '))
        yield from ['.SH SYNOPSIS', f'{bold(self.command)} [\\fIOPTION\\fR..] {words}']
        stated = [part for part in self.help.paragraphs if part.startswith('The status is')]
        parts = [part for part in self.help.paragraphs[1:] if part not in stated]
        yield from self.paragraphs('.SH DESCRIPTION', parts or self.help.paragraphs[:1])
        yield from ['.SH ARGUMENTS', *self.rows(self.help.arguments)]
        yield '.SH OPTIONS'
        for heading, rows in self.help.groups.items():
            yield from [] if heading == 'options:' else ['.PP', *self.text(heading[0].upper() + heading[1:])]
            yield from self.rows(rows)
        yield from self.paragraphs('.SH EXIT STATUS', [*(stated or ['The status is 0 where it is done.']), STATUSES])
        if call:
            yield from ['.SH EXAMPLE', bold(self.renamed(call))]
        others = [name for name in ['eel', *self.installed.values()] if name != self.command]
        yield from ['.SH SEE ALSO', *textwrap.wrap(', '.join(f'{bold(name)}(1)' for name in others), WIDTH)]

    def __str__(self):
        return '\n'.join(['.\\" Made by checks/options.py of what --help says.', *self.sections(), ''])


# ---- the reference

def listed():
    """The options of each script, as lines of the reference."""
    for command, file in commands().items():
        told = [' or '.join(f'`{name}{f" {row.value}" if row.value else ""}`' for name in row.names)
                for row in help_of(command).options() if not OF_EACH & set(row.names)]
        text = f'`{os.path.basename(file)}`: {", ".join(told) or "none"}'
        joined = re.sub('`[^`]*`', lambda found: found[0].replace(' ', '\0'), text)
        lines = textwrap.wrap(joined, WIDTH, initial_indent='- ', subsequent_indent='  ', break_on_hyphens=False)
        yield from (line.replace('\0', ' ') for line in lines)


def misnamed(text):
    """Calls of scripts in a text with options that these don't have."""
    files = {os.path.basename(file): name for name, file in commands().items()}
    for script, rest in re.findall(r'\b([a-z_]+\.py|eel-[a-z]+)\b([^|;<>`\n]*)', text):
        command = files.get(script, script)
        for option in NAME.findall(rest.partition(' -- ')[0]) if command in commands() else ():
            if option not in help_of(command).names():
                yield f'{script} {option}'


def of_names():
    """Options in documents, and in what scripts say of others, that no script has."""
    for name in glob.glob(os.path.join(TOP, '**', '*.md'), recursive=True):
        yield from (f'{os.path.relpath(name, TOP)}: {call}: no such option' for call in misnamed(read_file(name).decode()))
    for command in commands():
        told = help_of(command)
        text = '\n'.join([*told.paragraphs, *(row.text for row in told.arguments + told.options())])
        yield from (f'{command} --help: {call}: no such option' for call in misnamed(text))
    page = read_file(os.path.join(PAGES, 'eel.1')).decode().replace('\\-', '-')
    yield from (f'tools/pages/eel.1: {name}: left out' for name in sorted({line.split()[0] for line in lines_of_eel()})
                if name not in page)


def of_documents(writes):
    """Pages and lines of the reference that aren't what --help says; they are written anew where that is asked."""
    wanted = {os.path.join(PAGES, f'{name}.1'): str(Page(name, help_of(name), commands())) for name in commands()}
    stands = read_file(REFERENCE).decode()
    wanted[REFERENCE] = LISTED.sub(lambda found: found[1] + ''.join(f'{line}\n' for line in listed()), stands)
    for name, text in wanted.items():
        if writes:
            with open(name, 'w', encoding='utf-8') as out:
                out.write(text)
        elif not os.path.exists(name) or read_file(name).decode() != text:
            yield f'{os.path.relpath(name, TOP)}: not what --help says: checks/options.py --write makes it anew'
    for name in set(os.listdir(PAGES)) - {'eel.1', *(f'{command}.1' for command in commands())}:
        yield f'tools/pages/{name}: the page of no script'
    if not LISTED.search(stands):
        yield 'docs/REFERENCE.md: has no place for options'


# ---- completions

# What asks a shell for what it offers for the last of some words; it has the name of the file in $file.
ASK = {'bash': '''. "$file"
    compopt() { :; }
    ask() {
        local how
        how=$(complete -p -- "$1") || return
        how=${how#*-F } COMP_WORDS=("$@") COMP_CWORD=$(($# - 1)) COMPREPLY=()
        ${how%% *} "$1"
        printf '%s\\n' "${COMPREPLY[@]}"
    }''',
       'zsh': '''_describe() { local name=${@[-1]}; print -l -- ${${(P)name}%%:*} }
    _files() { : }
    read -A known <$file
    ask() {
        words=("$@") CURRENT=$# PREFIX=${@[-1]} service=$1
        (( ! $known[(I)$1] )) || source $file
    }''',
       'fish': '''source $file
    function ask
        complete -C "$argv" | string replace -r '\\t.*' ''
    end'''}
CALL = {'bash': ['bash', '-c'], 'zsh': ['zsh', '-f', '-c'], 'fish': ['fish', '--no-config', '-c']}
END = 'end of an answer'


def offered(shell, folder, questions):
    """What a shell offers for the last word of each of these lists, in an empty folder, or what it complains of; the commands
    are in the path."""
    asked = ''.join(f'ask {" ".join(map(shlex.quote, words))}\necho {shlex.quote(END)}\n' for words in questions)
    given = {**os.environ, 'PATH': f'{folder}:{os.environ["PATH"]}', 'HOME': f'{folder}/home',
             'file': os.path.join(TOP, 'tools', f'eel.{shell}')}
    done = subprocess.run([*CALL[shell], f'{ASK[shell]}\n{asked}'], text=True, env=given, cwd=f'{folder}/empty',
                          stdin=subprocess.DEVNULL, stdout=subprocess.PIPE, stderr=subprocess.STDOUT)
    answers = done.stdout.split(f'{END}\n')
    return [set(filter(None, answer.split('\n'))) for answer in [*answers[:-1], *[''] * len(questions)][:len(questions)]]


def wanted():
    """What must be offered behind some words, for a word that begins in each of some ways, by what --help says."""
    lines = lines_of_eel()
    verbs = {line.split()[0] for line in lines}
    yield ['eel'], ['', '-'], verbs
    yield from ((['eel', verb], ['-'], {'--help'}) for verb in sorted(verbs) if verb[0] != '-')
    yield ['eel', 'edit', 'a', 'b'], [''], {line.split()[3] for line in lines if line.startswith('edit ')}
    yield ['eel', 'run', 'a'], ['-'], set(NAME.findall(next(line for line in lines if line.startswith('run '))))
    yield from (([name], ['-'], help_of(name).names()) for name in commands())


def of_shell(shell):
    """Where the completions of a shell don't offer what --help names."""
    needs(shell)
    with tempfile.TemporaryDirectory() as folder:
        for name, file in {'eel': 'eel', **commands()}.items():
            os.symlink(os.path.join(TOP, file), os.path.join(folder, name))
        os.mkdir(f'{folder}/empty')
        calls = list(wanted())
        answers = iter(offered(shell, folder, [[*words, begun] for words, ways, _ in calls for begun in ways]))
        for words, ways, names in calls:
            found = set().union(*(next(answers) for _ in ways)) - {'--'}
            for name in sorted(found ^ names):
                yield f'tools/eel.{shell}: {" ".join(words)}: {name}: {"not offered" if name in names else "is offered"}'


def main():
    parser = parser_of(__doc__)
    parser.add_argument('where', metavar='WHERE', nargs='*', help='documents, bash, zsh or fish')
    parser.add_argument('--write', action='store_true', help='write the pages, and the options in the reference')
    words = parser.parse_args()
    faults = []
    for where in words.where or ['documents', *CALL]:
        if where not in ('documents', *CALL):
            parser.error(f'{where} is none of documents, bash, zsh and fish')
        faults += [*of_documents(words.write), *of_names()] if where == 'documents' else of_shell(where)
    print('\n'.join([*faults, f'{len(commands())} scripts, {len(faults)} faults']))
    return len(faults) > 0


if __name__ == '__main__':
    sys.exit(main())
