#!/usr/bin/env python3
"""reference.py gives what the table of document 01 says, and for tour 9 document 02. Run: python3 tests/test_tours.py"""

import os
import sys
import unittest

sys.path[:0] = [os.path.dirname(os.path.abspath(__file__))]

import machine
import reference as ref
import tours


def listed(words, k):
    """The list as the lent slices have it, in rooms that fit."""
    posts = 0 if ref.check(words) else ref.Book(words).posts
    costs, plans = [77] * k, [77] * (k * posts)
    no, count = ref.rank(words, k, costs, plans)
    return no or [(costs[j], tuple(plans[j * posts:(j + 1) * posts])) for j in range(count)]


def written(words, k, room):
    lent = [77] * room
    no, length = ref.write(words, k, lent)
    return no or (length == room and lent == list(ref.record(words, k)) and 'written')


def cost(answer):
    no, found = answer
    return no or 'cost %d' % found


ANSWERS = {
    'page': lambda words, k: ref.page(machine.little(k, 4) + machine.book_bytes(words)).decode(),
    'rank': listed,
    'value': lambda words, plan: cost(ref.value(words, plan)),
    'least': lambda words: cost(ref.least(words)),
    'check': lambda words: ref.check(words) or 'accepted',
    'write': written,
    'accept': lambda record: ref.accept(record)[0] or 'accepted',
}


class Tours(unittest.TestCase):
    def test_table(self):
        for tour, call, arguments, result in tours.TABLE:
            with self.subTest(tour=tour, call=call):
                self.assertEqual(ANSWERS[call](*arguments), result)

    def test_days_of_9(self):
        """As the comment in tours.py has them, as (weight, cost)."""
        book = ref.Book(tours.book_a(scale=3))
        found = {plan: sorted(ref.days(book, plan)) for plan in ref.plans(book)}
        self.assertEqual(found, {(0, 0, 0): [(1, 10), (1, 14), (1, 19)], (1, 0, 255): [(1, 12), (2, 16)]})

    def test_every_tour(self):
        self.assertEqual({tour for tour, *_ in tours.TABLE}, set(range(1, 13)))


if __name__ == '__main__':
    unittest.main()
