#!/usr/bin/env python3
"""Says where the proof time of a built checkout went: seconds of each crate, and with --modules of its dearest modules.

The checkout must have been built from nothing with one job for each crate, as ./eel does for all but the last three.
The prover keeps each module as it is proved, so a module cost the time since the one before it; what a crate loads of
those below it counts as `start`. Where several jobs proved a crate, figures are rough.
"""
import sys
from pathlib import Path

from called import TOP, parser_of


def module_costs(crate):
    """The seconds that each module of a crate took, the dearest first."""
    folder = crate / 'out' / 'incremental'
    kept = sorted((path.stat().st_mtime, path.stem) for path in folder.rglob('*.oantt') if 'records' not in path.parts)
    begun = [path.stat().st_mtime for path in folder.rglob('rattle-last-used')]
    last = min(begun + [time for time, _ in kept[:1]], default=0)
    costs = []
    for number, (time, name) in enumerate(kept):
        costs.append((time - last, name if number else 'start'))
        last = time
    return sorted(costs, reverse=True)


def main():
    parser = parser_of(__doc__)
    parser.add_argument('crates', metavar='CRATE', nargs='*', help='these alone')
    parser.add_argument('--checkout', metavar='FOLDER', type=Path, default=Path(TOP), help='a checkout; else this one')
    parser.add_argument('--modules', metavar='COUNT', type=int, default=0, help='with so many of the dearest modules')
    words = parser.parse_args()
    built = {path.parent.parent.name: path.parent.parent for path in words.checkout.glob('crates/*/out/incremental')}
    missing = sorted(set(words.crates) - built.keys())
    if missing or not built:
        sys.exit(f'proof_costs.py: {" ".join(missing) or words.checkout}: not built')
    costs = {name: module_costs(built[name]) for name in words.crates or built}
    sums = {name: sum(seconds for seconds, _ in modules) for name, modules in costs.items()}
    for name in sorted(sums, key=sums.get, reverse=True):
        dearest = sum(seconds for seconds, _ in costs[name][:10])
        part = dearest / (sums[name] or 1)
        print(f'{sums[name]:7.0f} s  {name}, {len(costs[name])} modules, the ten dearest {part:.0%}')
        for seconds, module in costs[name][:words.modules]:
            print(f'    {seconds:6.1f} s  {module}')
    print(f'{sum(sums.values()):7.0f} s in all')


if __name__ == '__main__':
    main()
