#!/usr/bin/env python3
"""tests/search.py gives what reference.py gives, and both what document 01 says of a list, with stops, closed choices and depots and without. Run:
python3 tests/test_search.py"""

import contextlib
import itertools
import os
import random
import sys
import unittest

sys.path[:0] = [os.path.dirname(os.path.abspath(__file__))]

import books
import kinds
import reference as ref
import search


class Same(unittest.TestCase):
    def books(self, count):
        rng = random.Random('search')
        for _ in range(count):
            words = books.draw(rng, rng.choice(books.ALL_SHAPES))
            if not ref.check(words):
                yield rng, words

    def test_lists(self):
        found = {'stops': 0, 'no stops': 0, 'closed': 0, 'none closed': 0, 'depots': 0, 'no depots': 0, 'no plan': 0}
        for rng, words in self.books(800):
            for k in (1, rng.randint(1, 64), 64):
                self.assertEqual(search.first(words, k), ref.ranking(words, k))
            for what in ('stops' if books.stopping(words) else 'no stops', 'closed' if books.closures(words) else 'none closed',
                         'depots' if books.depots_at(words) else 'no depots'):
                found[what] += 1
            found['no plan'] += not ref.ranking(words, 1)
        self.assertGreater(min(found[what] for what in found if what != 'no plan'), 120, found)
        self.assertGreater(found['no plan'], 40)

    def test_plans_and_costs(self):
        found = {True: 0, False: 0}
        for rng, words in self.books(240):
            book = ref.Book(words)
            for cost, plan in rng.sample(ref.in_order(tuple(words)), min(5, len(ref.in_order(tuple(words))))):
                self.assertEqual(search.plan_cost(book, plan), cost)
                for slice_ in (plan, books.bent_plan(rng, words, plan)):
                    self.assertEqual(search.is_plan(book, slice_), ref.is_plan(book, slice_))
            if books.closures(words):
                for slice_ in (books.random_plan(rng, book) for _ in range(4)):
                    self.assertEqual(search.is_plan(book, slice_), ref.is_plan(book, slice_))
                    found[ref.is_plan(book, slice_)] += 1
        self.assertGreater(min(found.values()), 60, found)

    def test_find(self):
        """Plans of the first 64 and others, found by both ways."""
        found = {answer: 0 for answer in range(4)}
        for rng, words in self.books(240):
            listed, k = ref.in_order(tuple(words)), rng.randint(1, 64)
            for slice_ in [plan for _, plan in listed[:3] + rng.sample(listed, min(3, len(listed)))] + [()]:
                for most in (1, k, 64):
                    answer = ref.find(words, most, slice_)
                    with search.instead_of_enumeration():
                        self.assertEqual(ref.find(words, most, slice_), answer)
                    found[answer[1]] += 1
        self.assertGreater(min(found.values()), 60, found)

    def test_limit(self):
        """Limits on both sides of what plans make, answered by both ways; refused ones too."""
        found = {answer: 0 for answer in range(4)}
        for rng, words in self.books(240):
            book = ref.Book(words)
            for most in (1, rng.randint(1, 64), 64):
                marks = kinds.some_marks(rng, book)
                for m in (0, 1, rng.randint(2, 9), 10):
                    answer = ref.limit(words, most, marks, m)
                    with search.instead_of_enumeration():
                        self.assertEqual(ref.limit(words, most, marks, m), answer)
                    found[answer[1]] += 1
        self.assertGreater(min(found.values()), 60, found)

    def test_small(self):
        """Books ranked by going through them, by both ways."""
        found = {0: 0, 28: 0}
        for rng, words in self.books(240):
            k = rng.randint(1, 64)
            lists = []
            for _ in range(2):
                costs, slots = [77] * k, [77] * (k * ref.Book(words).posts)
                with search.instead_of_enumeration() if lists else contextlib.nullcontext():
                    lists.append((*ref.rank_small(words, k, costs, slots), costs, slots))
            self.assertEqual(*lists)
            found[lists[0][0]] += 1
        self.assertGreater(min(found.values()), 10, found)

    def test_plans(self):
        """All plans, in the same order. Of books with too many to enumerate as many as tell that they are not small: in that order, and plans."""
        for rng, words in self.books(240):
            book = ref.Book(words)
            self.assertEqual([*search.plans(book)], [*ref.plans(book)])
        rng, most = random.Random('plans'), ref.MOST_SMALL + 1
        for shape in (books.vast, books.stops_vast, books.closed_vast, books.depots_vast):
            book = ref.Book(shape(rng))
            found = [*itertools.islice(search.plans(book), most)]
            self.assertTrue(all(p < q for p, q in zip(found, found[1:])))
            self.assertTrue(all(search.is_plan(book, plan) for plan in found[::most // 40]))

    def test_order(self):
        """A plan is listed exactly when fewer than K plans come before it, as plan j if j of them do."""
        for rng, words in self.books(160):
            book, listed = ref.Book(words), ref.in_order(tuple(words))
            if len(listed) <= 60:
                for j, (_, plan) in enumerate(listed):
                    self.assertEqual(sum(ref.before(book, other, plan) for other in ref.plans(book)), j)


if __name__ == '__main__':
    unittest.main()
