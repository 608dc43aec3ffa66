#!/usr/bin/env python3
"""Does what docs/TUTORIAL.md says, command by command, and prints what comes out otherwise than it shows; and then looks
whether all that the documents name is there (documents.py).

Commands are the lines that begin with `$`, and go on where they end with a backslash; what follows is what they print,
where `...` stands for any lines. The packages aren't installed. What is done there in /tmp/walk is done here in a folder of
its own, which goes at the end; what is printed names /tmp/walk. With --short the part on programs of others is left out,
whose build takes minutes.
"""
import os
import re
import subprocess
import sys
import tempfile

from called import EEL, TOP, built, parser_of, read_file

END = 'end of a step'
FOLDER = '/tmp/walk'
OTHERS = '\n## Programs of others'


def steps(text):
    """The commands, each with what it prints."""
    blocks = re.findall(r'^    \$ (.*(?:\n    .*|\n(?=\n    [^$]))*)', text, re.M)
    for step in re.split(r'\n    \$ ', '\n    $ '.join(blocks)):
        lines = re.sub(r'\\\n *', '', step).split('\n')
        yield lines[0], [line.removeprefix('    ') for line in lines[1:]]


def fits(printed, shown):
    pattern = '\n'.join('(?:.*\n)*.*' if line == '...' else re.escape(line) for line in shown)
    return re.fullmatch(pattern, printed.rstrip('\n')) is not None


def printed_by(commands):
    """What each command prints, where they are done one after the other in one shell, and in a folder of their own."""
    with tempfile.TemporaryDirectory(prefix='eel-walk-') as room:
        own = os.path.join(os.path.realpath(room), 'walk')
        script = ''.join(f'{command}\necho "{END}"\n' for command in commands).replace(FOLDER, own)
        done = subprocess.run(['bash', '-c', script], cwd=TOP, stdout=subprocess.PIPE, stderr=subprocess.STDOUT, text=True)
    return done.stdout.replace(own, FOLDER).split(f'{END}\n')


def main():
    parser = parser_of(__doc__)
    parser.add_argument('--short', action='store_true', help='without the programs of others')
    words = parser.parse_args()
    built(EEL)
    text = read_file(os.path.join(TOP, 'docs', 'TUTORIAL.md')).decode()
    commands = [step for step in steps(text.split(OTHERS)[0] if words.short else text) if not step[0].startswith('apt-get')]
    faults = 0
    for (command, shown), printed in zip(commands, printed_by([command for command, _ in commands])):
        if not fits(printed, shown):
            print(f'{command}\nprinted:\n{printed}where this is shown:\n' + '\n'.join(shown))
            faults += 1
    print(f'{len(commands)} commands, {faults} of them otherwise', flush=True)
    names = subprocess.call([sys.executable, os.path.join(TOP, 'checks', 'documents.py')])
    return faults > 0 or names > 0


if __name__ == '__main__':
    sys.exit(main())
