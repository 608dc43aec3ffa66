"""Reads a profile in callgrind's format, strictly by its manual, with both positions; it shares nothing with what writes
them. What doesn't fit raises a ValueError."""
import re
from collections import Counter, defaultdict

HEADER = re.compile(r'(version|creator|cmd|positions|event|events|summary): *(.*)')
NAME = re.compile(r'(ob|fl|fi|fe|fn|cob|cfi|cfl|cfn|jfi|jfn)=(.+)')
CALLS = re.compile(r'calls=(\d+) 0x([0-9a-f]+) (\d+)')
JUMP = re.compile(r'jump=(\d+) 0x([0-9a-f]+) (\d+)|jcnd=(\d+)/(\d+) 0x([0-9a-f]+) (\d+)')
COSTS = re.compile(r'0x([0-9a-f]+) (\d+)((?: \d+)*)')


class CallgrindFile:
    """The events; the costs of functions, which are pairs of a file and a name, of lines and of words; calls, as a caller,
    a callee, a count and costs; and jumps, as an address, its target, how often, and of how many times."""

    def __init__(self, text):
        self.header, self.events, self.event_names = {}, [], set()
        self.own, self.lines, self.words = defaultdict(Counter), defaultdict(Counter), defaultdict(Counter)
        self.places, self.calls, self.jumps = {}, [], []
        self.names, self.waiting = {}, None
        for number, line in enumerate(text.splitlines(), 1):
            try:
                self.take(line)
            except (KeyError, TypeError, ValueError) as error:
                raise ValueError(f'line {number}: {line}: {error!r}') from error
        if self.waiting or self.costs(self.header['summary']) != self.totals:
            raise ValueError('the summary is not the total, or the last line is missing')

    def costs(self, text):
        numbers = list(map(int, text.split()))
        if not self.events or len(numbers) > len(self.events):
            raise ValueError('more numbers than events')
        return Counter(dict(zip(self.events, numbers)))

    def take(self, line):
        if self.waiting:
            self.take_position(line, *self.waiting)
        elif not line or line.startswith('#'):
            return
        elif not self.events:
            self.take_header(*HEADER.fullmatch(line).groups())
        elif line.startswith('summary:'):
            self.header['summary'] = line.removeprefix('summary:')
        elif line.startswith('totals:'):
            self.totals = self.costs(line.removeprefix('totals:'))
        elif found := NAME.fullmatch(line):
            self.take_name(*found.groups())
        elif found := CALLS.fullmatch(line):
            self.waiting = 'calls', int(found[1])
        elif found := JUMP.fullmatch(line):
            self.waiting = 'jump', found
        else:
            self.take_costs(*COSTS.fullmatch(line).groups())

    def take_header(self, key, value):
        if key == 'events':
            self.events = value.split()
            if not self.event_names <= {*self.events} or self.header['positions'] != 'instr line':
                raise ValueError('names of other events, or other positions')
        elif key == 'event':
            self.event_names.add(re.fullmatch(r'(\w+) : .+', value)[1])
        else:
            self.header[key] = value

    def take_name(self, key, value):
        """The file of a function stays, whatever part of another file is in it."""
        self.names[key] = value
        if key in ('fl', 'fn'):
            self.names['fi'] = self.names['fe'] = None
        elif key in ('fi', 'fe'):
            self.names['fi'] = None if value == self.names['fl'] else value

    def path(self):
        return self.names.get('fi') or self.names['fl']

    def function(self):
        return self.names['fl'], self.names['fn']

    def take_costs(self, address, number, text):
        costs, address = self.costs(text), int(address, 16)
        if address in self.words:
            raise ValueError('a word that stands there twice')
        self.own[self.function()].update(costs)
        self.lines[self.path(), int(number)].update(costs)
        self.words[address] = costs
        self.places[address] = self.function(), self.path(), int(number)

    def take_position(self, line, kind, told):
        """The line behind a call, with what it cost, or a jump."""
        address, _, text = COSTS.fullmatch(line).groups()
        self.waiting = None
        if kind == 'calls':
            self.calls.append((self.function(), (self.names.pop('cfi'), self.names.pop('cfn')), told, self.costs(text)))
            if told == 0:
                raise ValueError('no call')
            return
        if text:
            raise ValueError('a jump that costs')
        count, target = int(told[1] or told[4]), int(told[2] or told[6], 16)
        self.jumps.append((int(address, 16), target, count, int(told[5]) if told[5] else None))
        self.names.pop('jfi', None), self.names.pop('jfn', None)

    def total(self):
        return sum(self.own.values(), Counter())

    def roots(self):
        """The functions that no other calls."""
        called = {callee for caller, callee, _, _ in self.calls if caller != callee}
        return {*self.own, *(caller for caller, *_ in self.calls)} - called

    def inclusive(self, function):
        """What a function took, with its calls."""
        return sum((costs for caller, _, _, costs in self.calls if caller == function), Counter(self.own.get(function, {})))
