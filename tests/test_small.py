#!/usr/bin/env python3
"""Request 2.11: of a book with at most 4,096 plans reference.rank_small gives the list of reference.rank, and of any other 30; plans are counted by a second way,
without enumeration, and near the limit lists are compared with search.py. target/bin/cases gives the same list by both of its calls. Run:
python3 tests/test_small.py"""

import collections
import itertools
import math
import os
import random
import subprocess
import sys
import unittest

HERE = os.path.dirname(os.path.abspath(__file__))
sys.path[:0] = [HERE]

import books
import kinds
import machine
import reference as ref
import search

CASES = os.path.join(HERE, '..', 'target', 'bin', 'cases')
LIMIT = 4096    # as document 02 has it
NEAR = LIMIT - 1, LIMIT, LIMIT + 1
FLAGS = [dict(zip(('stops', 'closed', 'depots', 'tied'), row)) for row in itertools.product((False, True), repeat=4)]
MOST = 60    # plans of a book here for which every K is asked


def after(book, ways, post):
    """Sets of posts, each with the number of ways to it, after one more choice; a set grows by the next posts of the choice."""
    found = collections.Counter()
    for known, count in ways.items():
        for c in range(book.counts[post]):
            if book.is_open(post, c):
                found[known.union(step for step, _ in book.next_posts(post, c))] += count
    return found


def count(words):
    """How many plans an accepted book has, from stage to stage: for each set of posts of a stage in how many ways exactly those are reached. Closed choices make
    no way, so that a set with a dead end has none to the next stage."""
    book = ref.Book(words)
    reached = {frozenset([0]): 1}
    for _ in range(book.stages):
        further = collections.Counter()
        for here, number in reached.items():
            ways = {frozenset(): number}
            for post in here:
                ways = after(book, ways, post)
            further.update(ways)
        reached = further
    depots = [sum(book.is_open(post, c) for c in range(n)) for post, n in enumerate(book.counts)]
    return sum(number * math.prod(depots[post] for post in here) for here, number in reached.items())


def some_books(seed, number, shapes=books.ALL_SHAPES, most=MOST):
    """Books that are accepted and have few plans or none."""
    rng = random.Random(seed)
    while number > 0:
        words = books.draw(rng, rng.choice(shapes))
        if not ref.check(words) and books.count_plans(words, most) <= most:
            yield rng, words
            number -= 1


def near_books(seed, number):
    """(plans, what it has, book): for each number of plans near the limit so many with each of the flags."""
    rng = random.Random(seed)
    for total, flags, _ in itertools.product(NEAR, FLAGS, range(number)):
        yield total, flags, books.exactly(rng, total, **flags)


def answer(call, words, k, costs, room):
    """The number, k, and what the lent slices hold then."""
    costs, slots = [77] * costs, [77] * room
    return (*call(words, k, costs, slots), costs, slots)


class Counts(unittest.TestCase):
    def test_near(self):
        """The books near the limit have exactly so many plans, by both ways, and are what they should be."""
        found, dead = collections.Counter(), 0
        for total, flags, words in near_books('near', 4):
            book = ref.Book(words)
            self.assertEqual((ref.check(words), count(words)), (0, total), flags)
            has = {'stops': bool(books.stopping(words)), 'closed': bool(books.closures(words)), 'depots': bool(books.depots_at(words))}
            self.assertFalse([name for name in has if has[name] and not flags[name]])
            self.assertFalse(flags['tied'] and len({cost for here in book.choices for cost, _ in here} - {ref.CLOSED}) > 1)
            found.update(name for name in has if has[name])
            least = search.numbers(book, ())
            dead += any(least[post] is None and book.is_open(post, c) for post in books.reachable(book) for c in range(book.counts[post]))
        half = len(NEAR) * len(FLAGS) * 4 / 2
        self.assertGreater(min(found[name] for name in ('stops', 'closed', 'depots')), half * 0.7, found)
        self.assertGreater(dead, half * 0.6)    # an open choice of a dead end that could be reached if no choice were closed
        for total, flags, words in itertools.islice(near_books('enumerated', 1), 0, None, 5):
            self.assertEqual(books.count_plans(words, 2 * LIMIT), total, flags)

    def test_few(self):
        """So do others, from one plan on."""
        rng = random.Random('few')
        for total in (1, 2, 3, 8, 9, 63, 64, 65, 100, 511, 512, 513, 1000):
            for flags in FLAGS:
                words = books.exactly(rng, total, **flags)
                self.assertEqual((ref.check(words), count(words), books.count_plans(words, total)), (0, total, total))

    def test_any(self):
        """Of random books both ways count the same, none where there is none."""
        rng, found = random.Random('any'), collections.Counter()
        for n in range(400):
            words = books.draw(rng, rng.choice(books.ALL_SHAPES + books.WITH_CLOSED))
            if not ref.check(words):
                total = count(words)
                self.assertEqual(books.count_plans(words, 10 ** 6), total)
                found[min(total, 2)] += 1
        self.assertGreater(min(found[n] for n in range(3)), 30, found)


class Lists(unittest.TestCase):
    def test_every_count(self):
        """With every K up to two more than there are plans: the number, k, costs and bytes, and what is behind them in slices that are longer."""
        tied = several = 0
        for rng, words in some_books('every', 250):
            posts, plans = ref.Book(words).posts, books.count_plans(words, MOST)
            for k in range(1, plans + 3):
                costs, room = k + rng.randrange(3), k * posts + rng.randrange(3)
                found = answer(ref.rank_small, words, k, costs, room)
                self.assertEqual(found, answer(ref.rank, words, k, costs, room), (words, k))
                self.assertEqual(found[:2], (0, min(k, plans)) if plans else (28, 0))
                several += plans > 1
                tied += len({*found[2][:found[1]]}) < found[1]
        self.assertGreater(several, 1000)
        self.assertGreater(tied, 300)

    def test_near(self):
        """As search.py has the list, and 30 with one plan more than the limit."""
        for total, flags, words in itertools.islice(near_books('lists', 1), 0, None, 5):
            posts = ref.Book(words).posts
            no, k, costs, slots = answer(ref.rank_small, words, 64, 64, 64 * posts)
            if total > LIMIT:
                self.assertEqual((no, k, {*costs, *slots}), (30, 0, {77}))
                continue
            listed = [(cost, tuple(slots[j * posts:(j + 1) * posts])) for j, cost in enumerate(costs)]
            self.assertEqual((no, k, listed), (0, 64, search.first(words, 64)), flags)
            for most in (1, 3):
                found = answer(ref.rank_small, words, most, most, most * posts)
                self.assertEqual(found, (0, most, costs[:most], slots[:most * posts]))

    def test_thousands(self):
        """30 exactly if the second way counts more than the limit."""
        rng, found = random.Random('thousands'), collections.Counter()
        for n in range(12):
            words = books.draw(rng, rng.choice([books.many, books.stops_many]))
            no = ref.rank_small(words, 1, [0], [0] * 64)[0]
            self.assertEqual(no, 30 if count(words) > LIMIT else 0)
            found[no] += 1
        self.assertGreater(min(found[0], found[30]), 3, found)

    def test_vast(self):
        """Without a plan, with few and with too many to enumerate; where the plans are few, the list is as search.py has it."""
        rng, found = random.Random('vast'), collections.Counter()
        for n in range(24):
            words = rng.choice([books.vast, books.closed_vast, books.closed_vast, books.closed_vast])(rng)
            with search.instead_of_enumeration():
                no, k, costs, slots = answer(ref.rank_small, words, 64, 64, 64 * 64)
            listed = search.first(words, 64) if no != 30 else []
            self.assertEqual(no == 28, search.numbers(ref.Book(words), ())[0] is None)
            self.assertEqual([(cost, tuple(slots[j * 64:(j + 1) * 64])) for j, cost in enumerate(costs[:k])], listed)
            found[no] += 1
        self.assertGreater(min(found[no] for no in (0, 28, 30)), 1, found)

    def test_numbers(self):
        """1 to 13 of the book, then 14, 28, 30, then 15 and 16; a refusal writes nothing."""
        rng, found = random.Random('numbers'), collections.Counter()
        for n in range(400):
            words = (kinds.some_faults(rng, kinds.EVERY) if n % 10 < 4 else books.exactly(rng, LIMIT + 1, **rng.choice(FLAGS)) if n % 10 == 4
                     else books.draw(rng, rng.choice(books.ALL_SHAPES + books.WITH_CLOSED)))
            refused, k = ref.check(words), rng.choice([1, 2, 3, 64, 0, 65, 2 ** 32 + 1])
            posts, plans = (3, 0) if refused else (ref.Book(words).posts, count(words))
            short = min(k, 70)
            size = short * posts
            for costs, room in ((0, 0), (short, 0), (short, max(0, size - 1)), (max(0, short - 1), size), (short, size), (short + 1, 5000)):
                last = 14 if not 1 <= k <= 64 else 28 if plans == 0 else 30 if plans > LIMIT else 15 if costs < k else 16 if room < k * posts else 0
                no, listed, *slices = answer(ref.rank_small, words, k, costs, room)
                self.assertEqual((no, listed), (refused or last, 0 if refused or last else min(k, plans)), (words, k, costs, room))
                self.assertTrue(no == 0 or slices == [[77] * costs, [77] * room])
                found[no] += 1
        self.assertEqual({*found}, {*range(17), 28, 30})
        self.assertGreater(min(found[no] for no in (0, 14, 15, 16, 28, 30)), 30, found)


class Program(unittest.TestCase):
    """target/bin/cases, which tools/build.sh builds."""

    def printed(self, call, rows):
        """For each (book, K) the answer of a call, the costs and the bytes, in slices that are a little longer; each in a case of its own."""
        made = [machine.Case('', machine.book(words) + [call(k, k + 1, k * ref.Book(words).posts + 1)]) for words, k in rows]
        lines = subprocess.run([CASES], input=machine.encoded(made), stdout=subprocess.PIPE, check=True, timeout=120).stdout.decode().split('\n')
        self.assertEqual(lines[0::4], [''] * (len(rows) + 1))    # the titles, and the end
        return [(first[1:], *rest) for first, *rest in zip(lines[1::4], lines[2::4], lines[3::4])]

    def both(self, rows):
        """(book, K, what is printed by going through all plans, what by the main engine)"""
        return zip(*zip(*rows), self.printed(machine.rank_small, rows), self.printed(machine.rank, rows))

    def test_every_count(self):
        rows = [(words, k) for _, words in some_books('program', 250) for k in range(1, books.count_plans(words, MOST) + 3)]
        self.assertGreater(len(rows), 1500)
        for words, k, small, main in self.both(rows):
            self.assertEqual(small, main, (words, k))

    def test_near(self):
        """The same with as many plans as are allowed; with one more 30, and nothing is written."""
        rows, totals = [], []
        for total, _, words in near_books('program', 3):
            rows += [(words, k) for k in (1, 3, 63, 64)]
            totals += [total] * 4
        for total, (words, k, small, main) in zip(totals, self.both(rows)):
            if total <= LIMIT:
                self.assertEqual(small, main, (words, k))
            else:
                lent = (77).to_bytes(1, 'little') * (k * ref.Book(words).posts + 1)
                self.assertEqual(small, (' 30 0 0', ' 77' * (k + 1), machine.bytes_row(lent)[:-1]), (words, k))

    def test_thousands(self):
        """Of books with some thousands of plans, and of vast ones with closed choices, the same or 30."""
        rng, found = random.Random('program'), collections.Counter()
        drawn = [books.draw(rng, rng.choice([books.many, books.stops_many])) for _ in range(12)] + [books.closed_vast(rng) for _ in range(60)]
        for n, (words, k, small, main) in enumerate(self.both([(words, 64) for words in drawn])):
            no = int(small[0].split()[0])
            if no == 30:
                self.assertTrue(n >= 12 or count(words) > LIMIT)
                self.assertEqual(main[0], ' 0 64 0')
            else:
                self.assertEqual(small, main, words)
            found[n < 12, no] += 1
        self.assertGreater(min(found[True, 0], found[True, 30], *(found[False, no] for no in (0, 28, 30))), 2, found)


class Met(unittest.TestCase):
    def numbers(self, name, cases):
        found = collections.Counter()
        for n in range(cases):
            found.update({int(text.split()[1]) for c, text in machine.transcript(kinds.make('small', n, name)) if c.kind == 'rank_small'})
        return found

    def test_numbers(self):
        """Random cases meet each number often, and those with faults every number of a book."""
        found = self.numbers('rank small', 60)
        self.assertGreater(min(found[no] for no in (0, 14, 15, 16, 28)), 3, found)
        found = self.numbers('rank small, near', 6)
        self.assertGreater(min(found[no] for no in (0, 30)), 1, found)
        self.assertLessEqual({*range(1, 14)}, {*self.numbers('rank small, faults', 120)})

    def test_often(self):
        """One random case in fifteen goes through all plans."""
        met = sum(any(c.kind == 'rank_small' for c in kinds.fresh('small', n).commands) for n in range(150))
        self.assertGreater(met, 150 / 15)


if __name__ == '__main__':
    unittest.main()
