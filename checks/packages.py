#!/usr/bin/env python3
"""Makes a package by `eel --package`, and looks whether it is the same each time and works where it is unpacked, moved
and installed, with no word of this folder in it; whether EEL_PROGRAM is run; and whether a tarball of the sources knows
its commit, NOTICE all libraries, and CHANGELOG.md the version. Prints a line for each fault."""
import hashlib
import os
import re
import shutil
import subprocess
import sys
import tarfile
import tempfile

from called import BUILT, EEL, TOP, built, note, parser_of, read_file

EXAMPLE = os.path.join(TOP, 'examples', 'three_words')
COMMANDS = ['eel', 'eel-annotate', 'eel-check', 'eel-compare', 'eel-edges', 'eel-graph', 'eel-lines', 'eel-merge', 'eel-patch',
            'eel-profile']
BESIDE = ['share/zsh/site-functions/_eel', *(f'share/man/man1/{name}.1' for name in COMMANDS),
          *(f'share/bash-completion/completions/{name}' for name in COMMANDS),
          *(f'share/fish/vendor_completions.d/{name}.fish' for name in COMMANDS)]


def call(*words, cwd=None, umask=-1, **variables):
    """The status of a call, and what it says, in an environment with these variables alone."""
    path = f'{os.path.dirname(sys.executable)}:/usr/bin:/bin'
    done = subprocess.run(words, stdin=subprocess.DEVNULL, capture_output=True, text=True, cwd=cwd, umask=umask,
                          env={'PATH': path, 'TMPDIR': tempfile.gettempdir(), 'PYTHONDONTWRITEBYTECODE': '1', **variables})
    return done.returncode, done.stdout + done.stderr


def tree(folder):
    """What stands below a folder: the mode and the contents of each file, and where links lead."""
    found = {}
    for at, folders, names in os.walk(folder):
        for name in names + [name for name in folders if os.path.islink(f'{at}/{name}')]:
            path = f'{at}/{name}'
            link = os.path.islink(path)
            found[os.path.relpath(path, folder)] = (os.readlink(path) if link else os.stat(path).st_mode,
                                                    b'' if link else read_file(path))
    return found


def packed(folder):
    """Two packages, of which the second is made later, with another umask and from another folder."""
    for name, umask in ('first', 0o022), ('second', 0o077):
        status, told = call(EEL, '--package', f'{folder}/{name}.tar.gz', cwd=folder, umask=umask)
        if status:
            yield f'eel --package: status {status}, {told}'
            return
    if read_file(f'{folder}/first.tar.gz') != read_file(f'{folder}/second.tar.gz'):
        yield 'two packages differ'
    with tarfile.open(f'{folder}/first.tar.gz') as opened:
        opened.extractall(folder)
    unpacked = [name for name in os.listdir(folder) if name.startswith('eel-')]
    os.rename(f'{folder}/{unpacked[0]}', f'{folder}/a place')
    for name, (_, content) in tree(f'{folder}/a place').items():
        if TOP.encode() in content:
            yield f'{name} names {TOP}'


def described(place):
    """What the file PACKAGE says: of the program as it is there, and of the sources here where they are its."""
    rows = dict(line.split(' ', 1) for line in read_file(f'{place}/share/eel/PACKAGE').decode().splitlines())
    if rows['program'] != hashlib.sha256(read_file(f'{place}/libexec/eel/eel_main')).hexdigest():
        yield 'the program has another sum'
    commit, sources, _ = read_file(os.path.join(os.path.dirname(BUILT), 'built')).decode().split(' ', 2)
    if rows['sources'] != sources or not rows['commit'].startswith(commit):
        yield f'the package is of {rows["commit"]} {rows["sources"]}, and not of {commit} {sources}'
    status, told = call(f'{place}/bin/eel', '--version')
    if status or not all(rows[key][:12] in told for key in ('version', 'commit', 'kit')):
        yield f'eel --version: {told}'


def works(place):
    """What is wrong with commands below a prefix."""
    if sorted(os.listdir(f'{place}/bin')) != COMMANDS:
        yield f'bin has {os.listdir(f"{place}/bin")}'
    if call(f'{place}/bin/eel', 'run', EXAMPLE)[0] or 'exit 3' not in call(f'{place}/bin/eel', 'run', EXAMPLE)[1]:
        yield f'{place}/bin/eel run fails'
    status, told = call(f'{place}/bin/eel-profile', EXAMPLE)
    if status or 'exit 3, 3 instructions' not in told:
        yield f'eel-profile: {told}'
    version = call(f'{place}/bin/eel', '--version')[1].rstrip('\n')
    for name in COMMANDS:
        status, told = call(f'{place}/bin/{name}', '--help')
        if status or name not in told:
            yield f'{name} --help: status {status}'
        if call(f'{place}/bin/{name}', '--version') != (0, f'{"" if name == "eel" else f"{name} of "}{version}\n'):
            yield f'{name} --version: {call(f"{place}/bin/{name}", "--version")}, where eel says {version}'
    told = call(sys.executable, '-c', 'import cProfile; from eeltools.shown import Shown; print(Shown("{}").text())'.format(EXAMPLE),
                PYTHONPATH=f'{place}/share/eel/tools/python')
    if told != (0, 'range(65620, 65632, 4)\n'):
        yield f'eeltools says {told[1]}'
    for name in BESIDE:
        if not os.path.isfile(f'{place}/{name}'):
            yield f'there is no {name}'


def installed(folder):
    """A package installs what this folder does, below DESTDIR, too, and takes it away again; another's file it leaves."""
    unpacked = f'{folder}/a place'
    for eel, place, variables in ((f'{unpacked}/bin/eel', f'{folder}/by package', {}), (EEL, f'{folder}/by sources', {}),
                                  (EEL, f'{folder}/root/usr', {'DESTDIR': f'{folder}/root'})):
        prefix = place.removeprefix(variables.get('DESTDIR', ''))
        status, told = call(eel, '--install', prefix, **variables)
        if status or tree(place) != tree(unpacked):
            yield f'eel --install {prefix}: status {status}, {told}'
        yield from works(place)
        call(eel, '--uninstall', prefix, **variables)
        if os.path.exists(place):
            yield f'eel --uninstall {prefix} leaves {sorted(tree(place))}'
    os.makedirs(f'{folder}/other/bin')
    with open(f'{folder}/other/bin/eel-check', 'w') as opened:
        opened.write('#!/bin/sh\n')
    for option in '--install', '--uninstall':
        if call(EEL, option, f'{folder}/other')[0] != 74 or len(tree(f'{folder}/other')) != 1:
            yield f'eel {option} goes over what is there'


def by_git(*words):
    """What git prints of this folder, or nothing where it has no such folder, or one that it doesn't trust."""
    try:
        return subprocess.run(['git', '-C', TOP, *words], capture_output=True).stdout
    except OSError:
        return b''


def of_a_tarball(folder):
    """The sources without git, which know their commit."""
    archive, head = by_git('archive', 'HEAD'), by_git('rev-parse', 'HEAD').decode()
    if not archive:
        note('git tells nothing of this folder: a tarball of the sources is left out')
        return
    os.mkdir(f'{folder}/sources')
    subprocess.run(['tar', '-xC', f'{folder}/sources'], input=archive, check=True)
    if head[:12] not in (told := call(f'{folder}/sources/eel', '--version')[1]):
        yield f'eel --version of a tarball: {told}'
    if f'profile.py of {told}' != (of_script := call(f'{folder}/sources/tools/profile.py', '--version')[1]):
        yield f'profile.py --version of a tarball: {of_script}'


def of_sources_alone(folder):
    """The launcher and the scripts beside nothing that was built run a program that was built elsewhere."""
    sources, program = f'{folder}/sources alone', shutil.copy(BUILT, f'{folder}/a program')
    for name in 'crates', 'tools':
        shutil.copytree(os.path.join(TOP, name), f'{sources}/{name}', ignore=shutil.ignore_patterns('out', 'src', 'data'))
    shutil.copy(EEL, sources)
    if 'exit 3' not in (told := call(f'{sources}/eel', 'run', EXAMPLE, EEL_PROGRAM=program)[1]):
        yield f'EEL_PROGRAM is not run: {told}'
    if 'exit 3, 3 instr' not in (told := call(f'{sources}/tools/profile.py', EXAMPLE, EEL_PROGRAM=program)[1]):
        yield f'profile.py does not run EEL_PROGRAM: {told}'
    if call(f'{sources}/eel', 'run', EXAMPLE, EEL_PROGRAM=f'{folder}/none')[0] != 78:
        yield 'EEL_PROGRAM may be missing'


def documents():
    """NOTICE names each library of the kit, and CHANGELOG.md begins with the version."""
    crates = dict(line.split(':', 1) for line in read_file(f'{TOP}/crates.txt').decode().splitlines() if re.match(r'\w+:', line))
    notice = read_file(f'{TOP}/NOTICE').decode()
    needed = {'eel_main', *crates['eel_main'].split()}
    for name in sorted({name for crate in needed & crates.keys() for name in crates[crate].split()} - crates.keys()):
        if not re.search(rf'\b{name}\b', notice):
            yield f'NOTICE has no {name}'
    version = re.search(r'^version=(.*)', read_file(EEL).decode(), re.M)[1]
    if version != re.search(r'^## (\S+)', read_file(f'{TOP}/CHANGELOG.md').decode(), re.M)[1]:
        yield f'CHANGELOG.md does not begin with {version}'


def main():
    parser_of(__doc__).parse_args()
    built(EEL)
    faults = list(documents())
    with tempfile.TemporaryDirectory() as folder:
        faults += packed(folder)
        if os.path.exists(f'{folder}/a place'):
            faults += [*described(f'{folder}/a place'), *works(f'{folder}/a place'), *installed(folder), *of_a_tarball(folder),
                       *of_sources_alone(folder)]
    for fault in faults:
        print(fault)
    return len(faults) > 0


if __name__ == '__main__':
    sys.exit(main())
