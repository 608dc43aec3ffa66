#!/usr/bin/env python3
"""Whether crates.txt and docs/layers.dot say what the crates name: checks/layers.py [--write]

A crate stands directly on those that its code, specs and proofs name. Its line of crates.txt has all that it stands on,
by way of others, too, and the kit's crates as they were listed. layers.dot has an arrow to each crate that no other way
leads to. What differs is told, a line each, and status 1 says that something does. With --write both files are put
right: so a new crate is a line `NAME:` in crates.txt and a word in layers.dot and layers.svg, and a new dependency of a
low crate is nothing but its `use`.
"""
import os
import re
import sys

from called import TOP, parser_of
from documents import files, read

CRATES, LAYERS = 'crates.txt', 'docs/layers.dot'
COMMENT = {'.rt': '//', '.antt': '--'}


def lines_of(text):
    """The lines of crates.txt: of each crate what it stands on, in order."""
    return {name: words.split() for name, words in re.findall(r'^(\w+):(.*)$', text, re.M)}


def named_in(crate, crates, sources):
    """The crates that the sources of a crate name. A module of its own hides a crate of that name."""
    own = {os.path.basename(name)[:-3] for name in sources if name.startswith(f'crates/{crate}/src/')}
    found = set()
    for name in sources:
        if re.match(rf'crates/{crate}/(src|specs|proofs)/', name):
            code = re.sub(f'(?m){COMMENT[os.path.splitext(name)[1]]}.*', '', read(name))
            found.update(re.findall(r'\bRattle\.(\w+)', code))
            found.update(set(re.findall(r'(?<![\w:.])(\w+)(?=::)', code)) - own)
    return (found & crates) - {crate}


def closure(direct):
    """All that each crate stands on."""
    below = {}

    def add(name):
        if name not in below:
            below[name] = set()
            for needed in direct[name]:
                below[name] |= {needed} | add(needed)
        return below[name]

    for name in direct:
        add(name)
    return below


def in_order(listed, below):
    """The crates, each behind those that it stands on, else as they are listed."""
    left, order = list(listed), []
    while left:
        ready = next((name for name in left if below[name] <= set(order)), None)
        if ready is None:
            sys.exit(f'layers.py: these crates stand on each other: {" ".join(left)}')
        order.append(ready)
        left.remove(ready)
    return order


def main():
    parser = parser_of(__doc__)
    parser.add_argument('--write', action='store_true', help='put crates.txt and layers.dot right')
    write = parser.parse_args().write
    text, drawn = read(CRATES), read(LAYERS)
    listed = lines_of(text)
    sources = [name for name in files() if os.path.splitext(name)[1] in COMMENT]
    direct = {name: named_in(name, set(listed), sources) for name in listed}
    below = closure(direct)
    bad = []
    rows = {}
    for name in in_order(listed, below):
        kits = [word for word in listed[name] if word not in listed]
        if set(listed[name]) - set(kits) == below[name]:
            rows[name] = listed[name]
            continue
        rows[name] = [word for word in rows if word in below[name]] + kits
        bad += [f'{CRATES}: {name} lacks {other}' for other in sorted(below[name] - set(listed[name]))]
        bad += [f'{CRATES}: {name} needs no {other}' for other in sorted(set(listed[name]) - below[name] - set(kits))]
    if list(rows) != list(listed):
        bad.append(f'{CRATES}: a crate is listed before one that it stands on')
    shown = {word for row in re.findall(r'^        ((?:\w+; )+)\}$', drawn, re.M) for word in row.rstrip('; ').split('; ')}
    arrows = {name: sorted(needed for needed in direct[name] & shown
                           if not any(needed in below[other] for other in direct[name]))
              for name in rows if name in shown}
    told = {name: words.split() for name, words in re.findall(r'^    (\w+) -> \{ (.*) \};$', drawn, re.M)}
    bad += [f'{LAYERS}: {name} leads to {" ".join(told.get(name, [])) or "nothing"}, and stands on {" ".join(arrows[name])}'
            for name in arrows if sorted(told.get(name, [])) != arrows[name]]
    print(*bad, sep='\n', end='\n' if bad else '')
    if write and bad:
        head = ''.join(line for line in text.splitlines(True) if line.startswith('#'))
        put(CRATES, head + ''.join(f'{name}: {" ".join(rows[name])}'.rstrip() + '\n' for name in rows))
        lines = [line for line in drawn.splitlines() if not re.match(r'    \w+ -> ', line)]
        lines[-1:] = [f'    {name} -> {{ {" ".join(arrows[name])} }};' for name in arrows if arrows[name]] + lines[-1:]
        put(LAYERS, '\n'.join(lines) + '\n')
    print(f'{len(rows)} crates, {sum(map(len, direct.values()))} dependencies named, {len(bad)} lines that differ')
    return bool(bad) and not write


def put(name, text):
    with open(os.path.join(TOP, name), 'w', encoding='utf-8') as opened:
        opened.write(text)


if __name__ == '__main__':
    sys.exit(main())
