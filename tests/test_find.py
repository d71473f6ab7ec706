#!/usr/bin/env python3
"""Request 2.8: reference.find gives of every plan of random books the one reason that is true, and of any other slice the number; random cases meet each of its
answers often. Run: python3 tests/test_find.py"""

import collections
import os
import random
import sys
import unittest

sys.path[:0] = [os.path.dirname(os.path.abspath(__file__))]

import books
import kinds
import machine
import reference as ref
import tours

MOST = 40    # plans of a book here, since they are compared pair by pair


def lower(p, q):
    """At the lowest-numbered post where they differ, has P the lower choice?"""
    return next((a < b for a, b in zip(p, q) if a != b), False)


class List:
    """The plans of a book with the cost of each by its days, and how many come before each: lower cost, or equal with the lower choice."""

    def __init__(self, words):
        book = ref.Book(words)
        self.costs = {plan: sum(weight * cost for weight, cost in ref.days(book, plan)) for plan in ref.plans(book)}
        self.above = {q: sum(self.comes_before(p, q) for p in self.costs) for q in self.costs}

    def comes_before(self, p, q):
        return self.costs[p] < self.costs[q] or self.costs[p] == self.costs[q] and lower(p, q)

    def listed(self, k):
        """A plan is listed exactly when fewer than K come before it, as plan j if j of them do."""
        return {above: plan for plan, above in self.above.items() if above < k}

    def reasons(self, k, plan):
        """Each (answer, value) that is true of the plan."""
        listed = self.listed(k)
        last = listed[len(listed) - 1]
        more = self.costs[plan] - self.costs[last]
        yield from ((1, j + 1) for j in listed if listed[j] == plan)
        if more > 0:
            yield 2, more
        if more == 0:
            yield from ((3, post) for post, choice in enumerate(plan) if plan[:post] == last[:post] and choice > last[post])


class Reasons(unittest.TestCase):
    TIES = [books.ties, books.stops_and_ties, books.closed_and_ties, books.depots_and_ties]

    def books(self, shapes, count):
        """Books that are accepted and have a few plans."""
        rng = random.Random('find')
        while count > 0:
            words = books.draw(rng, rng.choice(shapes))
            if not ref.check(words) and 1 <= books.count_plans(words, MOST) <= MOST:
                yield rng, words
                count -= 1

    def test_one_reason(self):
        """Of every plan with any K exactly one reason is true, and find gives it; it is no rank only where the list has K plans."""
        found, posts = collections.Counter(), collections.Counter()
        for rng, words in self.books(books.ALL_SHAPES + 3 * self.TIES, 300):
            plans = List(words)
            for k in sorted({1, 2, 64, len(plans.costs), max(1, len(plans.costs) - 1), rng.randint(1, 64)}):
                for plan in plans.costs:
                    true = [*plans.reasons(k, plan)]
                    self.assertEqual(len(true), 1, (words, k, plan, true))
                    self.assertEqual(ref.find(words, k, plan), (0, *true[0]), (words, k, plan))
                    answer, value = true[0]
                    self.assertTrue(answer == 1 or len(plans.listed(k)) == k)
                    found[answer] += 1
                    posts[value] += answer == 3
        self.assertGreater(min(found[answer] for answer in (1, 2, 3)), 1000, found)
        self.assertGreater(min(posts[post] for post in range(5)), 50, posts)

    def test_higher_choice(self):
        """Where a plan costs the same as the last listed, both reach the post. The longest list without it says so too, and in the next it is the last."""
        ties = 0
        for _, words in self.books(self.TIES, 60):
            plans = List(words)
            for k in range(1, len(plans.costs)):
                last = plans.listed(k)[k - 1]
                for plan in plans.costs:
                    no, answer, post = ref.find(words, k, plan)
                    if answer == 3:
                        self.assertNotIn(255, (plan[post], last[post]))
                        self.assertEqual(ref.find(words, plans.above[plan], plan)[:2], (0, 3))
                        self.assertEqual(ref.find(words, plans.above[plan] + 1, plan), (0, 1, plans.above[plan] + 1))
                        ties += 1
        self.assertGreater(ties, 1000)

    def test_numbers(self):
        """1 to 13 of the book, then 14, then 28, then 17 for each slice that is no plan."""
        rng, found = random.Random('numbers'), collections.Counter()
        for _ in range(600):
            words = kinds.some_faults(rng, kinds.EVERY) if rng.random() < 0.4 else books.draw(rng, rng.choice(books.ALL_SHAPES + books.WITH_CLOSED))
            k = rng.choice([1, 2, 3, 64, 0, 65, 2 ** 32 + 1])
            plans = [] if ref.check(words) else [*ref.plans(ref.Book(words))]
            slices = [(), (0, 0, 0), *(tuple(books.bent_plan(rng, words, rng.choice(plans))) for _ in range(4) if plans), *plans[:1]]
            for slice_ in slices:
                first = ref.check(words) or (14 if k < 1 or k > 64 else 28 if not plans else 17 if slice_ not in plans else 0)
                no, answer, value = ref.find(words, k, slice_)
                self.assertEqual(no, first, (words, k, slice_))
                self.assertTrue(no == 0 or (answer, value) == (0, 0))
                found[no] += 1
        self.assertEqual({*found}, {*range(15), 17, 28})
        self.assertGreater(min(found[no] for no in (0, 14, 17, 28)), 30, found)

    def test_by_hand(self):
        a, c = tours.book_a(), tours.book_c()
        rows = [(a, 3, (1, 0, 255), (0, 1, 1)), (a, 3, (0, 0, 0), (0, 1, 2)), (a, 1, (0, 0, 0), (0, 2, 1)),    # 33 - 32
                (tours.book_a(closing=8), 1, (0, 0, 0), (0, 1, 1)), (tours.book_a(closing=8), 1, (1, 0, 255), (0, 3, 0)),    # both cost 32
                (tours.book_a(cost=-10), 1, (1, 0, 255), (0, 2, 39)),    # 32 + 7
                (c, 2, (0, 1, 255, 0), (0, 2, 3)), (c, 1, (0, 1, 255, 0), (0, 2, 4)), (c, 64, (0, 1, 255, 0), (0, 1, 3)),    # 9 - 6, 9 - 5
                (c, 64, (0, 0, 0, 0), (17, 0, 0)), (a, 0, (0, 0, 0), (14, 0, 0)), (a, 65, (), (14, 0, 0)), ([], 0, (), (1, 0, 0))]
        for words, k, slice_, answer in rows:
            self.assertEqual(ref.find(words, k, slice_), answer)


class Met(unittest.TestCase):
    def test_answers(self):
        """Of the random cases one in twelve finds plans, and of these one in five at least meets each answer."""
        numbers, answers, cases = set(), collections.Counter(), 0
        for n in range(500):
            case = kinds.fresh('find', n)
            if any(c.kind == 'find' for c in case.commands):
                found = [[int(x) for x in text.split()[1:]] for c, text in machine.transcript(case) if c.kind == 'find']
                numbers |= {no for no, _, _ in found}
                answers.update({answer for _, answer, _ in found})
                cases += 1
        self.assertGreater(cases, 500 / 12)
        self.assertGreater(min(answers[answer] for answer in (1, 2, 3)), cases / 5, answers)
        self.assertLessEqual({0, 14, 17, 28}, numbers)

    def test_numbers(self):
        """Those with faults meet every number of a book."""
        found = {ref.check(words) for n in range(300) for words in machine.books_of(kinds.make('find', n, 'find, faults'))}
        self.assertLessEqual({*range(1, 14)}, found)


if __name__ == '__main__':
    unittest.main()
