#!/usr/bin/env python3
"""Request 2.2: one cost of a random book is raised by d seconds, and both books go through the calls. The lists have equal length, and the cost at each rank
does not fall and rises by at most d × D^H. Neither the old nor the new cost is the mark of a closed choice; other choices may be closed (request 2.7). The
calls are those of the shared library of bindings/build.sh. The example of docs/GUARANTEES.md is what target/bin/kbest prints. Run:
python3 tests/test_raises.py"""

import collections
import os
import random
import re
import subprocess
import sys
import unittest

HERE = os.path.dirname(os.path.abspath(__file__))
sys.path[:0] = [HERE, os.path.join(HERE, '..', 'bindings', 'python')]

import books
import kbest
import reference as ref
import search
import tours
from machine import book_bytes, little

Raise = collections.namedtuple('Raise', 'words post choice d')

SHAPES = [shape for shape in books.ALL_SHAPES if shape is not books.all_closed]
LARGE = [books.many, books.large, books.full, books.vast, books.stops_many, books.stops_large, books.stops_full, books.stops_vast, books.closed_large,
         books.closed_vast]
BOOKS = [(shape, 12) for shape in SHAPES] + [(shape, 2) for shape in LARGE]
COUNTS = (1, 2, 3, 8, 63, 64)
KBEST = os.path.join(HERE, '..', 'target', 'bin', 'kbest')


def costs(book):
    return [[cost for cost, _ in here] for here in book.choices]


def with_costs(words, wanted):
    """The book with other costs; wanted[post] are those of its choices."""
    book = ref.Book(words)
    return books.build(book.scale, book.sizes, [[(cost, nexts) for cost, (_, nexts) in zip(new, old)] for new, old in zip(wanted, book.choices)])


def raised(words, post, choice, d):
    wanted = costs(ref.Book(words))
    wanted[post][choice] += d
    return with_costs(words, wanted)


def largest(words, post, choice):
    """The largest d with which the raised book is accepted."""
    return books.most_cost(words[0], words[1]) - costs(ref.Book(words))[post][choice]


def bound(words, d):
    return d * words[0] ** words[1]


def through(words, plan, post, choice):
    """The weight of the days on which the plan makes the choice: its cost in a book where that choice costs 1 and every other 0."""
    wanted = [[0] * len(here) for here in costs(ref.Book(words))]
    wanted[post][choice] = 1
    return ref.plan_cost(ref.Book(with_costs(words, wanted)), plan)


def faults(first, second, most):
    """What is wrong with the costs of two lists."""
    if len(first) != len(second):
        return ['%d and %d plans are listed' % (len(first), len(second))]
    return ['rank %d goes from %d to %d, by at most %d' % (j, x, y, most) for j, (x, y) in enumerate(zip(first, second), 1) if not x <= y <= x + most]


def filed(record):
    """The costs of a record, by its bytes."""
    words, listed = (int.from_bytes(record[at:at + 4], 'little') for at in (0, 8))
    return [int.from_bytes(record[at:at + 8], 'little', signed=True) for at in range(12 + 4 * words, 12 + 4 * words + 8 * listed, 8)]


def has_plan(words):
    """By the search, since some books have too many plans to enumerate."""
    return search.numbers(ref.Book(words), ())[0] is not None


def drawn(rng, shape, planned=True):
    """An accepted book that has a plan, or one that has none."""
    while True:
        words = shape(rng)
        if not ref.check(words) and has_plan(words) == planned:
            return words


def open_choices(words):
    found = ref.Book(words)
    return [(post, c) for post, c in books.every_choice(found) if found.is_open(post, c)]


def amounts(rng, words, post, choice):
    """By how much a choice is raised: nothing, 1, any, the most allowed."""
    most = largest(words, post, choice)
    for d in {0, min(1, most), rng.randint(0, most), most}:
        yield Raise(words, post, choice, d)


def picked(rng, words, plans):
    """Open choices to raise: any, one of post 0, one that a listed plan takes, and one that none takes. Then by how much."""
    every = open_choices(words)
    taken = sorted({(post, c) for plan in plans for post, c in enumerate(plan) if c != 255})
    free = [at for at in every if at not in taken]
    for post, c in {rng.choice(every), (0, plans[0][0]), (0, plans[-1][0]), rng.choice(taken)} | ({rng.choice(free)} if free else set()):
        yield from amounts(rng, words, post, c)


class Raises(unittest.TestCase):
    def setUp(self):
        self.seen = collections.Counter()

    def note(self, change, first, second):
        """What a pair of lists has, so that every kind of move is seen."""
        if not change.d:
            self.seen['nothing raised'] += 1
            return
        most, rises = bound(change.words, change.d), [y - x for (x, _), (y, _) in zip(first, second)]
        plans, others = ([plan for _, plan in listed] for listed in (first, second))
        self.seen['choices that no listed plan takes'] += all(plan[change.post] != change.choice for plan in plans)
        self.seen['the most that is allowed'] += change.d == largest(*change[:3])
        self.seen['books with stops'] += bool(books.stopping(change.words))
        self.seen['books with closed choices'] += bool(books.closures(change.words))
        self.seen['ranks that rise by the bound'] += rises.count(most)
        self.seen['ranks that stay'] += rises.count(0)
        self.seen['ranks that rise by less'] += sum(0 < rise < most for rise in rises)
        self.seen['lists whose plans change ranks'] += plans != others and {*plans} == {*others}
        self.seen['lists that get another plan'] += {*plans} != {*others}

    def compare(self, change, k):
        """Both books by ranking, by the least cost, by writing and by accepting."""
        words, other, most = change.words, raised(*change), bound(change.words, change.d)
        first, second = kbest.rank(words, k), kbest.rank(other, k)
        self.assertEqual(faults([cost for cost, _ in first], [cost for cost, _ in second], most), [], change)
        self.assertEqual(faults([kbest.least(words)], [kbest.least(other)], most), [], change)
        records = kbest.write(words, k), kbest.write(other, k)
        self.assertEqual(faults(*map(filed, records), most), [], change)
        for record, listed in zip(records, (first, second)):
            self.assertEqual(kbest.accept(record), (len(first[0][1]), len(first)))
            self.assertEqual(filed(record), [cost for cost, _ in listed])
        self.note(change, first, second)

    def test_lists(self):
        rng = random.Random('raises')
        for shape, count in BOOKS:
            for _ in range(count):
                words = drawn(rng, shape)
                for change in picked(rng, words, [plan for _, plan in kbest.rank(words, 64)]):
                    self.compare(change, rng.choice(COUNTS))
        self.assertEqual(len(self.seen), 10)
        for what, count in self.seen.items():
            self.assertGreater(count, 100, what)

    def test_plans(self):
        """Each listed plan costs d × the weight of its days through the choice more, and that weight is at most D^H."""
        rng, found = random.Random('raised plans'), collections.Counter()
        for shape in SHAPES:
            for _ in range(5):
                words = books.draw(rng, shape)
                if ref.check(words) or not has_plan(words):
                    continue
                plans = [plan for _, plan in kbest.rank(words, 8)]
                for change in picked(rng, words, plans):
                    other, whole = raised(*change), bound(words, 1)
                    for plan in plans:
                        weight = through(words, plan, change.post, change.choice)
                        self.assertEqual(kbest.value(other, plan) - kbest.value(words, plan), change.d * weight, (change, plan))
                        self.assertLessEqual(weight, whole)
                        found['none' if not weight else 'all' if weight == whole else 'some'] += 1
        for what in ('none', 'some', 'all'):
            self.assertGreater(found[what], 100, what)

    def test_one_word(self):
        """The raised book has one other word; with one second more than the most that is allowed it is refused."""
        rng, numbers = random.Random('raised words'), set()
        for shape in SHAPES:
            words = drawn(rng, shape)
            for change in picked(rng, words, [plan for _, plan in kbest.rank(words, 8)]):
                other = raised(*change)
                self.assertEqual([y - x for x, y in zip(words, other) if x != y], [change.d] if change.d else [])
                self.assertEqual(len(other), len(words))
                kbest.check(other)
                with self.assertRaises(kbest.Refused) as refused:
                    kbest.check(raised(*change[:3], largest(*change[:3]) + 1))
                numbers.add(refused.exception.number)
        self.assertEqual(numbers, {10, 13})

    def test_without_a_plan(self):
        """A book that has no plan has none after a raise."""
        rng, raises = random.Random('raised without a plan'), 0
        for shape in (books.closed, books.closed_last, books.closed_stage, books.dead_ends, books.closed_deep):
            for _ in range(8):
                words = drawn(rng, shape, False)
                for post, c in rng.sample(open_choices(words), min(3, len(open_choices(words)))):
                    for change in amounts(rng, words, post, c):
                        for call in (kbest.least, lambda words: kbest.rank(words, 3), lambda words: kbest.write(words, 3)):
                            with self.assertRaises(kbest.Refused) as refused:
                                call(raised(*change))
                            self.assertEqual(refused.exception.number, 28)
                        raises += 1
        self.assertGreater(raises, 200)

    def test_to_the_mark(self):
        """A choice that is closed is not raised: its plans are gone, so that many lists are shorter."""
        rng, shorter = random.Random('raised to the mark'), 0
        for shape in (books.small, books.crossing, books.stops, books.closed):
            for _ in range(20):
                words = drawn(rng, shape)
                other = books.close(words, [(0, rng.choice(kbest.rank(words, 64))[1][0])])
                shorter += has_plan(other) and len(kbest.rank(other, 64)) < len(kbest.rank(words, 64))
        self.assertGreater(shorter, 10)

    def test_faults_are_found(self):
        self.assertEqual(faults([5, 7, 7], [5, 8, 9], 2), [])
        self.assertEqual(len(faults([5, 7, 7], [4, 8, 9], 2)), 1)
        self.assertEqual(len(faults([5, 7, 7], [8, 8, 10], 2)), 2)
        self.assertEqual(len(faults([5, 7, 7], [5, 7], 2)), 1)
        self.assertEqual(len(faults([5, 7], [5, 7, 7], 2)), 1)


class Example(unittest.TestCase):
    """The worked example of docs/GUARANTEES.md."""

    def setUp(self):
        with open(os.path.join(HERE, '..', 'docs', 'GUARANTEES.md'), encoding='utf-8') as f:
            self.text = re.search(r'^## What a slower leg can do\n(.*?)^## ', f.read(), re.M | re.S)[1]
        found = re.findall(r'choice (\d) of post 0 by (\d+) seconds, from (\d+) to (\d+)', self.text)
        self.changes = [tuple(map(int, figures)) for figures in found]
        self.assertEqual(len(self.changes), 2)

    def printed(self, words):
        return subprocess.run([KBEST], input=little(3, 4) + book_bytes(words), stdout=subprocess.PIPE, check=True).stdout.decode()

    def test_pages(self):
        """The pages are those that the program prints for the book and for each raise, and the reference."""
        pages = [re.sub('^    ', '', part, flags=re.M) for part in re.findall(r'(?<=\n\n)(?:    .*\n)+(?=\n)', self.text)]
        made = [tours.book_a(), *(raised(tours.book_a(), 0, c, d) for c, d, _, _ in self.changes)]
        self.assertEqual(pages, [self.printed(words) for words in made])
        self.assertEqual(pages, [ref.page(little(3, 4) + book_bytes(words)).decode() for words in made])

    def test_figures(self):
        for c, d, old, new in self.changes:
            self.assertEqual((costs(ref.Book(tours.book_a()))[0][c], old + d), (old, new))
        d, scale, most = map(int, re.search(r'The bound is (\d+) × (\d+) = (\d+)\.', self.text).groups())
        self.assertEqual((scale, most), (bound(tours.book_a(), 1), bound(tours.book_a(), d)))
        self.assertEqual({change[1] for change in self.changes}, {d})


if __name__ == '__main__':
    unittest.main()
