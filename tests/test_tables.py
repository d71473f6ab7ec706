#!/usr/bin/env python3
"""Request 2.5: the book of a table is accepted, its plans are the table's policies, and each plan's cost is minus the expected total reward times D^H, both by
enumeration, each on its own side; the questions 25 to 27 in their order; the shapes of tables.py are what they say. Run: python3 tests/test_tables.py"""

import fractions
import os
import random
import sys
import unittest

sys.path[:0] = [os.path.dirname(os.path.abspath(__file__))]

import reference as ref
import rewards
import tables
from tables import BY_HAND

FILL = 77
FRONT = 32775    # room for every book

# The book of tables.BY_HAND: state 1 alone at stage 0, both at stage 1, both closings at stage 2.
BOOK_BY_HAND = ([2, 2, 14] + [1, 2, 2] + [2, 1, 2, 1, 1]
                + [2, 0, 1, 1, 1, 1, 0, 2, 0, 1, 1, 1, 0, 0]
                + [-5, 1, 1, 1, 2, -3, 2, -5, 1, 1, 1, 2, -4, 7])
# Each policy with its days as (weight, reward), and the sum of weight × reward. The states of the first: 1 0 0, 1 1 0, 1 1 1.
DAYS_BY_HAND = {
    (0, 0, 0, 0, 0): ([(2, 5 + 3 + 4), (1, 5 + 5 + 4), (1, 5 + 5 - 7)], 41),
    (0, 0, 1, 0, 0): ([(2, 5 + 3 + 4), (2, 5 - 1 - 7)], 18),
    (1, 255, 0, 0, 0): ([(2, -1 + 5 + 4), (2, -1 + 5 - 7)], 10),
    (1, 255, 1, 255, 0): ([(4, -1 - 1 - 7)], -36),
}


def converted(words, room=FRONT):
    """(number, length, the slice afterwards)"""
    lent = [FILL] * room
    return (*rewards.convert(words, lent), lent)


def plans_with_costs(words):
    book = ref.Book(words)
    return sorted((plan, ref.plan_cost(book, plan)) for plan in ref.plans(book))


def policies_with_costs(words):
    table = rewards.Table(words)
    return sorted((policy, -rewards.expected_reward(table, policy)) for policy in rewards.policies(table))


class ByHand(unittest.TestCase):
    def test_book(self):
        self.assertEqual(converted(BY_HAND, 41), (0, 39, BOOK_BY_HAND + [FILL, FILL]))

    def test_room(self):
        self.assertEqual(converted(BY_HAND, 39), (0, 39, BOOK_BY_HAND))
        self.assertEqual(converted(BY_HAND, 38), (27, 0, [FILL] * 38))

    def test_days(self):
        table = rewards.Table(BY_HAND)
        self.assertEqual({policy: sorted(rewards.days(table, policy)) for policy in rewards.policies(table)},
                         {policy: sorted(days) for policy, (days, _) in DAYS_BY_HAND.items()})
        for policy, (_, total) in DAYS_BY_HAND.items():
            self.assertEqual(rewards.expected_reward(table, policy), total)

    def test_list(self):
        self.assertEqual(ref.ranking(BOOK_BY_HAND, 64), [(-total, policy) for policy, (_, total) in DAYS_BY_HAND.items()])


class Source(unittest.TestCase):
    """The two states of source document 001 with closing rewards x and y: the equations (2) and (3)."""

    def best(self, first, x, y):
        """The actions at the first state that lead to the largest expected total reward, which is given too."""
        no, length, lent = converted(tables.two_states(first, x, y))
        self.assertEqual(no, 0)
        listed = ref.ranking(lent[:length], 64)
        return [plan[0] for cost, plan in listed if cost == listed[0][0]], fractions.Fraction(-listed[0][0], 10)

    def test_no_closing_rewards(self):
        self.assertEqual(self.best(0, 0, 0), ([1], 10))
        self.assertEqual(self.best(1, 0, 0), ([1], 1))

    def test_closing_rewards(self):
        for x in range(-30, 31, 5):
            for y in range(-30, 31):
                for first, gap in ((0, fractions.Fraction(10)), (1, fractions.Fraction(20, 7))):
                    wanted = [0] if y < x - gap else [1] if y > x - gap else [0, 1]
                    self.assertEqual(self.best(first, x, y)[0], wanted, (first, x, y))


class Books(unittest.TestCase):
    """Random tables whose book is accepted."""

    def drawn(self, count):
        rng = random.Random('tables')
        for shape in tables.GOOD:
            for _ in range(count):
                words = tables.draw(rng, shape)
                no, length, lent = converted(words)
                self.assertIn(no, (0, 13) if shape is tables.edge else (0,), shape.__name__)
                if no == 0:
                    yield words, lent[:length]

    def test_accepted(self):
        for words, book in self.drawn(25):
            self.assertEqual(ref.check(book), 0)
            self.assertEqual(converted(words, len(book)), (0, len(book), book))
            self.assertEqual(converted(words, len(book) + 3)[2], book + [FILL] * 3)
            self.assertEqual(converted(words, len(book) - 1), (27, 0, [FILL] * (len(book) - 1)))

    def test_policies_and_rewards(self):
        """The plans are the policies, and each cost is minus the expected reward."""
        several = 0
        for words, book in self.drawn(25):
            found = plans_with_costs(book)
            self.assertEqual(found, policies_with_costs(words))
            several += len(found) > 3
        self.assertGreater(several, 80)

    def test_weights(self):
        """The weights of a policy's days add to D^H: no day stops."""
        for words, _ in self.drawn(8):
            table = rewards.Table(words)
            for policy in rewards.policies(table):
                self.assertEqual(sum(weight for weight, _ in rewards.days(table, policy)), table.scale ** table.stages)

    def test_shapes(self):
        """One state, sixteen, one stage, eight, rewards at both ends."""
        found = [words for words, _ in self.drawn(25)]
        self.assertTrue({1, 2, 3, 16} <= {words[2] for words in found})
        self.assertEqual({words[1] for words in found}, {*range(1, 9)})
        self.assertTrue(any(words[3] > 0 for words in found))
        ends = [words for words in found if {100000, -100000} <= {*words}]
        self.assertGreater(len(ends), 5)

    def test_bound(self):
        """On both sides of question 13."""
        rng = random.Random('edge')
        self.assertEqual({converted(tables.edge(rng))[0] for _ in range(40)}, {0, 13})


class Refused(unittest.TestCase):
    def shapes(self):
        for shape, number in zip(tables.REFUSED, (6, 4, 9, 11, 12)):
            rng = random.Random(shape.__name__)
            for _ in range(60):
                yield shape(rng), number

    def test_by_the_book(self):
        """25 and 26 pass; 27 comes before the book's own number."""
        for words, number in self.shapes():
            made = len(rewards.book_of(words))
            self.assertEqual(converted(words, made), (number, 0, [FILL] * made))
            self.assertEqual(converted(words, made - 1), (27, 0, [FILL] * (made - 1)))

    def test_unused_lines(self):
        """With H = 1 the lines of other states are in no book: 26 judges them, and nothing else."""
        rng = random.Random('unused')
        for _ in range(60):
            words = tables.unused(rng)
            no, length, lent = converted(words)
            self.assertEqual((no, ref.check(lent[:length])), (0, 0))
            words[1] = 2
            self.assertIn(converted(words)[0], (9, 11, 12))
        words[1] = 1
        at = tables.Places(words)
        other = next(line for line, steps in zip(at.heads, at.steps) if any(words[at.left + i] not in range(words[2]) for i in steps))
        for place, x in ((at.right + other + 1, words[at.right + other + 1] + 1), (at.right + other, 100001), (at.left + other, 0)):
            self.assertEqual(converted(words[:place] + [x] + words[place + 1:])[0], 26)

    def test_faults(self):
        """Each part of 25 and 26, whatever the room is."""
        for faults, number in ((tables.BREAKS_25, 25), (tables.BREAKS_26, 26)):
            for fault in faults:
                rng = random.Random(fault.__name__)
                for _ in range(80):
                    words = tables.broken(rng, rng.choice(tables.GOOD[:-1])(rng), [fault])
                    if fault is tables.break_used and rewards.table_no(words) == 0:
                        continue    # another r can by chance leave a table
                    for room in (0, FRONT):
                        self.assertEqual(converted(words, room), (number, 0, [FILL] * room), (fault.__name__, words))

    def test_order(self):
        rng = random.Random('order')
        for _ in range(200):
            words = rng.choice(tables.GOOD[:-1] + tables.REFUSED)(rng)
            self.assertEqual(converted(words, 0)[0], 27)
            second = rng.choice([tables.break_count, tables.break_closing, tables.break_reward])
            self.assertEqual(converted(tables.broken(rng, words, [second]), 0)[0], 26)
            self.assertEqual(converted(tables.broken(rng, words, [second, rng.choice(tables.BREAKS_25)]), 0)[0], 25)


class Longest(unittest.TestCase):
    def test_table(self):
        """As many words as a table can have, and its book is accepted."""
        words = tables.longest(random.Random('longest'))
        self.assertEqual(len(words), rewards.LONGEST_TABLE)
        self.assertEqual(converted(words)[0], 0)

    def test_book(self):
        """Its words by the sizes, where the first state has all lines that the others need not have."""
        def most(states, stages):
            lines = 2048 - states
            first = lines - 2 * (states - 1)
            return 4 + stages + 1 + states * stages + 2 * (first + (stages - 1) * lines + states)
        self.assertEqual(max(most(n, h) for n in range(1, 17) for h in range(1, 9)), rewards.LONGEST_MADE)
        words = tables.build(1, 8, 0, [[(0, [(0, 1)] + [(0, 0)] * 2045)]], [0])
        self.assertEqual((words[4], len(rewards.book_of(words))), (2048, rewards.LONGEST_MADE))
        self.assertEqual(converted(words)[0], 4)


class Program(unittest.TestCase):
    """What the program gives for bytes."""

    def data(self, words):
        return b''.join(word.to_bytes(4, 'little', signed=True) for word in words)

    def test_by_hand(self):
        data = self.data(BY_HAND)
        self.assertEqual(rewards.table_book(data), self.data(BOOK_BY_HAND))
        for n in (1, 2, 3, 4):
            self.assertEqual(rewards.table_book(data + bytes(n)), b'refused 25\n')
        self.assertEqual(rewards.table_book(b''), b'refused 25\n')

    def test_longest(self):
        """A word after the longest table is seen, later bytes are not."""
        data = self.data(tables.longest(random.Random('longest')))
        self.assertFalse(rewards.table_book(data).startswith(b'refused'))
        self.assertEqual(rewards.table_book(data + bytes(4)), rewards.table_book(data + bytes(5)))


if __name__ == '__main__':
    unittest.main()
