"""What calls cost, by hand: equations of recursions, and shares that come to the whole."""
import random
import time
import unittest
from collections import Counter

import given
from eeltools.call_costs import Call, CallCosts, components, share_out
from eeltools.recursions import solved


def recursion_of(size):
    """What routines cost that call the three behind them, and the last one the first, and the numbers of calls."""
    chosen, counts, called = random.Random(1), Counter(), Counter({0: 1})
    for node in range(size):
        for callee in (node + 1) % size, min(node + 2, size - 1), min(node + 3, size - 1):
            counts[node, callee] += chosen.randint(1, 1000)
    for (_, callee), count in counts.items():
        called[callee] += count
    return ({node: chosen.randint(1, 10 ** 6) / called[node] for node in range(size)},
            [(caller, callee, count / called[caller]) for (caller, callee), count in counts.items()])


class Costs(unittest.TestCase):
    def test_of_a_routine_that_calls_itself(self):
        # of 10 calls 8 are its own: x = 5 + 0.8 x, and within an outermost call it is called five times
        each, again = solved({'f': 5}, [('f', 'f', 0.8)])
        self.assertAlmostEqual(each['f'], 25)
        self.assertAlmostEqual(again['f'], 5)

    def test_of_two_that_call_each_other(self):
        # x = 3 + y / 2, y = 4 + x, so that x = 10 and y = 14; a call of either leads to as many others as to be 2 in all
        each, again = solved({'even': 3, 'odd': 4}, [('even', 'odd', 0.5), ('odd', 'even', 1)])
        self.assertEqual([round(each[name], 9) for name in ('even', 'odd')], [10, 14])
        self.assertEqual([round(again[name], 9) for name in ('even', 'odd')], [2, 2])

    def test_of_three(self):
        # a = 1 + b / 2, b = 2 + c, c = 1 + a / 2 + b / 4: so b = 3.5 + b / 2, which is 7
        each, _ = solved({'a': 1, 'b': 2, 'c': 1}, [('a', 'b', 0.5), ('b', 'c', 1), ('c', 'a', 0.5), ('c', 'b', 0.25)])
        self.assertEqual([round(each[name], 9) for name in 'abc'], [4.5, 7, 5])

    def test_of_many_that_call_each_other_are_worked_out_soon(self):
        costs, calls = recursion_of(20_000)
        started = time.process_time()
        each, again = solved(costs, calls)
        self.assertLess(time.process_time() - started, 10)
        wanted = dict(costs)
        for caller, callee, number in calls:
            wanted[caller] += number * each[callee]
        self.assertLess(max(abs(wanted[node] / each[node] - 1) for node in costs), 1e-6)
        self.assertGreaterEqual(min(again.values()), 1)

    def test_are_shared_out_whole(self):
        calls = [Call(0, 0, 0, 0) for _ in range(3)]
        share_out(100, calls, [1, 1, 1], 0)
        self.assertEqual([call.cost for call in calls], [33, 34, 33])
        share_out(100, calls, [1, 1, 1], 1)
        self.assertEqual([call.cost for call in calls], [25, 25, 25])

    def test_stand_behind_what_leads_to_them(self):
        found = [sorted(group) for group in components('abcd', [('a', 'b'), ('b', 'c'), ('c', 'b'), ('c', 'd')])]
        self.assertEqual(found, [['a'], ['b', 'c'], ['d']])

    def test_come_to_all_instructions(self):
        for name in 'queens', 'fractions':
            own = given.shown.Shown(f'{given.DATA}/{name}')
            run, steps = given.run_in(own, b'1/2+1/3\n')
            costs = CallCosts(own, run)
            self.assertEqual(sum(costs.own.values()), steps)
            self.assertEqual(sum(costs.inclusive[root] for root in costs.roots), steps)
            for start, count in costs.own.items():
                self.assertLessEqual(count, costs.inclusive[start])
