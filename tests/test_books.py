#!/usr/bin/env python3
"""books.py draws what its shapes say, the days of its plans weigh D^H together, the plans of a book are those that avoid its closed choices, with each of its
depots, and random cases and inputs meet books with stops, with closed choices and with depots often. Run: python3 tests/test_books.py"""

import itertools
import os
import random
import sys
import unittest

sys.path[:0] = [os.path.dirname(os.path.abspath(__file__))]

import books
import kinds
import machine
import reference as ref


def drawn(shape, count):
    rng = random.Random('books ' + shape.__name__)
    return [shape(rng) for _ in range(count)]


def sums(words):
    """What the weights of each choice before stage H add to."""
    book = ref.Book(words)
    return [book.scale - ref.missing_part(book, post, c) for post, c in books.deciding(book)]


def rows(words):
    """How many next posts each choice before stage H has."""
    book = ref.Book(words)
    return [len(book.next_posts(post, c)) for post, c in books.deciding(book)]


def costs(words):
    return [cost for here in ref.Book(words).choices for cost, _ in here]


def reached_stops(words):
    """The choices after which a day of some plan may stop."""
    found = books.reachable(ref.Book(words))
    return [(post, c) for post, c in books.stopping(words) if post in found]


class Shapes(unittest.TestCase):
    LARGE = [books.many, books.large, books.full, books.vast]
    LARGE_STOPS = [books.stops_many, books.stops_large, books.stops_full, books.stops_vast]
    # What every book of a shape has.
    HAVE = {
        books.stops_each_stage: lambda words: {ref.Book(words).stage[post] for post, _ in books.stopping(words)} == {*range(words[1])},
        books.stops_everywhere: lambda words: all(total < words[0] for total in sums(words)),
        books.sure_stops: lambda words: all(total in (0, words[0]) for total in sums(words)),
        books.post_0_stops: lambda words: any(not lines for _, lines in ref.Book(words).choices[0]),
        books.stops_unreached: lambda words: not reached_stops(words),
        books.stops_barely: lambda words: all(total in (min(1, words[0] - 1), words[0] - 1, words[0]) for total in sums(words)),
        books.stops_and_gains: lambda words: max(costs(words)) < 0,
        books.stops_deep: lambda words: words[1] == 8,
        books.stops_edge: lambda words: max(map(abs, costs(words))) - books.most_cost(words[0], words[1]) in (0, 1),
    }

    def every(self, shape, count, have):
        self.assertTrue(all(have(words) for words in drawn(shape, count)), shape.__name__)

    def test_without_stops(self):
        for shape in books.WITHOUT_STOPS + self.LARGE:
            self.every(shape, 5 if shape in self.LARGE else 100, lambda words: not books.stopping(words))

    def test_with_stops(self):
        for shape in books.WITH_STOPS + self.LARGE_STOPS:
            self.every(shape, 5 if shape in self.LARGE_STOPS else 100, books.stopping)

    def test_what_each_has(self):
        for shape, have in self.HAVE.items():
            self.every(shape, 100, have)

    def test_accepted(self):
        """All but a cost beyond question 13's edge is allowed."""
        for shape in books.SHAPES:
            numbers = [ref.check(words) for words in drawn(shape, 100)]
            if shape in (books.edge, books.stops_edge):
                self.assertEqual({*numbers}, {0, 13})
                self.assertGreater(numbers.count(0), 40)
            else:
                self.assertEqual({*numbers}, {0}, shape.__name__)

    def test_large(self):
        for words in drawn(books.large, 5):
            self.assertEqual((ref.check(words), ref.Book(words).posts, words[2]), (0, 64, 2048))

    def test_rows(self):
        """Rows of 6 next posts are many, and none is longer, in the other shapes too."""
        found = [r for words in drawn(books.six, 100) for r in rows(words)]
        self.assertGreater(found.count(6), len(found) / 2)
        for shape in books.SHAPES + self.LARGE + self.LARGE_STOPS:
            self.every(shape, 5, lambda words: max(rows(words)) <= 6)

    def test_ties(self):
        """In many books two plans tie, one of which stops where the other goes on."""
        found = 0
        for words in drawn(books.stops_and_ties, 100):
            if books.feasible(words, 200):
                where = {*books.stopping(words)}
                stopped = [(cost, where.intersection(enumerate(plan))) for cost, plan in ref.in_order(tuple(words))]
                found += any(a == b and s != t for (a, s), (b, t) in zip(stopped, stopped[1:]))
        self.assertGreater(found, 30)

    def test_sums(self):
        """Sums of 0, 1, D - 1 and in between."""
        found = {'0': 0, '1': 0, 'D - 1': 0, 'between': 0}
        for words in drawn(books.stops, 200):
            if words[0] > 3:
                for total in sums(words):
                    name = {0: '0', 1: '1', words[0] - 1: 'D - 1', words[0]: None}.get(total, 'between')
                    if name:
                        found[name] += 1
        self.assertGreater(min(found.values()), 50, found)


def all_of(words, post):
    """Is every choice of the post closed?"""
    book = ref.Book(words)
    return not any(book.is_open(post, c) for c in range(book.counts[post]))


def dead_ends(words):
    """The posts that have an open choice and could be reached if no choice were closed, and from which each open choice leads to a post that is all closed."""
    book = ref.Book(words)
    return [post for post in books.reachable(book) if not all_of(words, post)
            and all(any(all_of(words, step) for step, _ in book.next_posts(post, c)) for c in range(book.counts[post]) if book.is_open(post, c))]


class Closed(unittest.TestCase):
    LARGE = [books.closed_large, books.closed_vast]
    # What every book of a shape has.
    HAVE = {
        books.closed_last: lambda words: {ref.Book(words).stage[post] for post, _ in books.closures(words)} == {words[1]},
        books.closed_stage: lambda words: any(all(all_of(words, post) for post, n in enumerate(ref.Book(words).stage) if n == stage)
                                              for stage in range(words[1] + 1)),
        books.all_closed: lambda words: all(cost == ref.CLOSED for cost in costs(words)),
        books.closed_unreached: lambda words: not {post for post, _ in books.closures(words)} & books.reachable(ref.Book(words)),
        books.one_plan: lambda words: books.count_plans(words, 1) == 1,
        books.dead_ends: lambda words: any(ref.Book(words).stage[post] > 0 for post in dead_ends(words)),
        books.closed_edge: lambda words: books.most_cost(words[0], words[1]) < 100000,
    }

    def every(self, shape, count, have):
        self.assertTrue(all(have(words) for words in drawn(shape, count)), shape.__name__)

    def test_closed(self):
        for shape in books.WITH_CLOSED + self.LARGE:
            self.every(shape, 5 if shape in self.LARGE else 100, books.closures)
        for shape in books.SHAPES:
            self.every(shape, 20, lambda words: not books.closures(words))

    def test_what_each_has(self):
        for shape, have in self.HAVE.items():
            self.every(shape, 100, have)

    def test_accepted(self):
        """All but an open cost beyond question 13's edge is allowed; where the mark would be beyond it too, many books are accepted."""
        for shape in books.WITH_CLOSED:
            numbers = [ref.check(words) for words in drawn(shape, 100)]
            if shape == books.closed_edge:
                self.assertEqual({*numbers}, {0, 13})
                self.assertGreater(min(numbers.count(0), numbers.count(13)), 20)
            else:
                self.assertEqual({*numbers}, {0}, shape.__name__)

    def test_with_and_without_a_plan(self):
        """Of each shape that leaves it open some books have no plan, and some have several."""
        for shape in books.WITH_CLOSED:
            rng = random.Random('plans ' + shape.__name__)
            found = [books.draw(rng, shape) for _ in range(100)]
            counts = [books.count_plans(words, 2) for words in found if not ref.check(words)]
            none, several = counts.count(0), counts.count(2) + counts.count(3)
            self.assertGreaterEqual(none, 0 if shape in (books.closed_unreached, books.one_plan, books.closed_edge) else 8, shape.__name__)
            self.assertGreaterEqual(several, 0 if shape in (books.all_closed, books.one_plan) else 8, shape.__name__)

    def test_plans(self):
        """The plans are, in the same order, those of the book with every choice open that take no closed one."""
        rng, taken = random.Random('avoided'), 0
        for _ in range(300):
            words = books.draw(rng, rng.choice(books.WITH_CLOSED))
            if not ref.check(words):
                where, every = {*books.closures(words)}, [*ref.plans(ref.Book(books.opened(words)))]
                avoiding = [plan for plan in every if not where.intersection(enumerate(plan))]
                self.assertEqual([*ref.plans(ref.Book(words))], avoiding)
                taken += len(avoiding) < len(every)
        self.assertGreater(taken, 150)

    def test_dead_ends(self):
        """No plan reaches a dead end, and costs and order of those that are left are as if every choice were open."""
        rng, left = random.Random('dead ends'), 0
        for _ in range(100):
            words = books.draw(rng, books.dead_ends)
            found, where = ref.in_order(tuple(words)), dead_ends(words)
            self.assertTrue(all(plan[post] == 255 for _, plan in found for post in where))
            self.assertEqual(found, [row for row in ref.in_order(tuple(books.opened(words))) if row in found])
            left += len(found)
        self.assertGreater(left, 300)

    def test_without_closed(self):
        """A book without a closed choice has a plan."""
        rng = random.Random('open')
        for shape in books.SHAPES:
            for _ in range(8):
                words = books.draw(rng, shape)
                self.assertIn(ref.least(words)[0], (0, 13))


def depot_counts(words):
    """How many closing choices each post of stage H has."""
    return ref.Book(words).counts[-words[3 + words[1]]:]


def with_each_depot(words):
    """The plans, from those of the same book with one open closing choice at each last post: with every open depot at each last post that they reach."""
    book, one = ref.Book(words), ref.Book(words)
    for post in books.last_posts(book):
        one.choices[post] = [(0, [])]
        one.counts[post] = 1
    for plan in ref.plans(one):
        options = [[c for c in range(book.counts[post]) if book.is_open(post, c)] if plan[post] == 0 else [255] for post in books.last_posts(book)]
        for last in itertools.product(*options):
            yield plan[:-len(last)] + last


class Depots(unittest.TestCase):
    # What every book of a shape has.
    HAVE = {
        books.depots_eight: lambda words: words[1] == 1 and {*depot_counts(words)} == {8},
        books.depots_alone: lambda words: {*ref.Book(words).counts[:-words[3 + words[1]]]} == {1},
        books.depots_closed: lambda words: {*books.depots_at(words)} & {*books.closures(words)},
        books.depots_unreached: lambda words: not {post for post, _ in books.depots_at(words)} & books.reachable(ref.Book(words)),
        books.depots_wide: lambda words: len(depot_counts(words)) >= 8,
        books.depots_edge: lambda words: books.most_cost(words[0], words[1]) < 100000,
    }

    def every(self, shape, count, have):
        self.assertTrue(all(have(words) for words in drawn(shape, count)), shape.__name__)

    def test_depots(self):
        for shape in books.WITH_DEPOTS + [books.depots_vast]:
            self.every(shape, 5 if shape == books.depots_vast else 100, lambda words: books.depots_at(words) and max(depot_counts(words)) <= 8)
        for shape in books.SHAPES + books.WITH_CLOSED:
            self.every(shape, 20, lambda words: not books.depots_at(words))

    def test_what_each_has(self):
        for shape, have in self.HAVE.items():
            self.every(shape, 100, have)

    def test_accepted(self):
        """All but a depot's cost beyond question 13's edge is allowed."""
        for shape in books.WITH_DEPOTS:
            numbers = [ref.check(words) for words in drawn(shape, 100)]
            if shape == books.depots_edge:
                self.assertEqual({*numbers}, {0, 13})
                self.assertGreater(min(numbers.count(0), numbers.count(13)), 20)
            else:
                self.assertEqual({*numbers}, {0}, shape.__name__)

    def test_plans(self):
        """The plans are those of the book with one closing choice a post, with each open depot at every last post that they reach."""
        rng, more = random.Random('depots'), 0
        for _ in range(300):
            words = books.draw(rng, rng.choice(books.WITH_DEPOTS))
            if not ref.check(words):
                found = [*ref.plans(ref.Book(words))]
                self.assertEqual(found, sorted(with_each_depot(words)))
                more += len(found) > len({plan[:-len(depot_counts(words))] for plan in found})
        self.assertGreater(more, 150)

    def test_ties(self):
        """In many books two plans that differ in depots only tie, and in many they do not."""
        tied = apart = 0
        for words in drawn(books.depots_and_ties, 100):
            if books.feasible(words, 2000):
                last, listed = len(depot_counts(words)), ref.in_order(tuple(words))
                pairs = [(a == b) for (a, p), (b, q) in zip(listed, listed[1:]) if p[:-last] == q[:-last]]
                tied, apart = tied + any(pairs), apart + (False in pairs)
        self.assertGreater(min(tied, apart), 20)

    def test_costs(self):
        """Another depot moves a plan's cost by the weight of the days that end at the post, which is what a second more there adds, times the difference."""
        rng, several = random.Random('dearer'), 0
        for _ in range(100):
            words = books.draw(rng, rng.choice([books.depots, books.depots_alone, books.depots_closed]))
            book = ref.Book(words)
            for _, plan in ref.in_order(tuple(words))[:3]:
                ends = [post for post in books.last_posts(book) if plan[post] != 255]
                rise = [0] * book.posts
                for post in ends:
                    dearer = ref.Book(words)
                    dearer.choices[post] = [(cost + 1, lines) for cost, lines in dearer.choices[post]]
                    rise[post] = ref.plan_cost(dearer, plan) - ref.plan_cost(book, plan)
                    self.assertGreaterEqual(rise[post], 1)
                    for c in range(book.counts[post]):
                        other = plan[:post] + (c,) + plan[post + 1:]
                        difference = book.choices[post][c][0] - book.choices[post][plan[post]][0]
                        self.assertEqual(ref.plan_cost(book, other), ref.plan_cost(book, plan) + rise[post] * difference)
                self.assertLessEqual(sum(rise), book.scale ** book.stages)
                several += len(ends) > 1
        self.assertGreater(several, 60)


class Days(unittest.TestCase):
    def plans(self, shapes, count):
        """(book, plan, its days) of some plans of random books that are accepted."""
        rng = random.Random('days')
        for _ in range(count):
            words = books.draw(rng, rng.choice(shapes))
            if not ref.check(words):
                book = ref.Book(words)
                for plan in rng.sample([*ref.plans(book)], min(4, books.count_plans(words, 4))):
                    yield book, plan, [*ref.days(book, plan)]

    def test_weights(self):
        """The weights of a plan's days add to D^H, and each is at least 1."""
        plans = stopped = 0
        for book, plan, days in self.plans(books.SHAPES, 400):
            self.assertEqual(sum(weight for weight, _ in days), book.scale ** book.stages)
            self.assertGreaterEqual(min(weight for weight, _ in days), 1)
            plans += 1
            stopped += any(ref.missing_part(book, post, c) for post, c in books.deciding(book) if plan[post] == c)
        self.assertGreater(stopped, plans // 3)
        self.assertGreater(plans - stopped, plans // 3)

    def test_costs_and_stages(self):
        """With every cost 1 a day's cost is the number of its choices, so that it says where the day ends: at a choice that stops, or at stage H."""
        ends = set()
        for book, plan, _ in self.plans([books.stops, books.stops_each_stage, books.stops_deep], 200):
            book.choices = [[(1, lines) for _, lines in here] for here in book.choices]
            where = {book.stage[post] + 1 for post, c in books.deciding(book) if plan[post] == c and ref.missing_part(book, post, c) > 0}
            found = {cost for _, cost in ref.days(book, plan)}
            self.assertEqual(found - {book.stages + 1}, where)
            ends |= {(book.stages, cost) for cost in found}
        self.assertEqual({cost for stages, cost in ends if stages == 8}, {*range(1, 10)})

    def test_most(self):
        """days_at_most is the number of days of the plan that has the most."""
        rng = random.Random('most')
        for _ in range(200):
            words = books.draw(rng, rng.choice(books.SHAPES))
            if not ref.check(words):
                book = ref.Book(words)
                self.assertEqual(books.days_at_most(words), max(sum(1 for _ in ref.days(book, plan)) for plan in ref.plans(book)))


class Faults(unittest.TestCase):
    def test_seven(self):
        """A row of 7 next posts or more gets 9. One of 7 lacks nothing else: with a line less the book is accepted."""
        sevens = 0
        for words in drawn(books.seven, 200):
            self.assertEqual(ref.check(words), 9)
            book = ref.Book(words)
            (post, c, lines), = ((post, c, book.choices[post][c][1]) for post, c in books.deciding(book) if len(book.choices[post][c][1]) > 6)
            if len(lines) == 7:
                self.assertEqual(ref.check(books.with_row(words, post, c, lines[1:])), 0)
                sevens += 1
        self.assertGreater(sevens, 60)

    def test_nine(self):
        """Nine closing choices or more at a post get 8, and nothing else is amiss: with the first eight of them the book is accepted."""
        for words in drawn(books.nine, 200):
            self.assertEqual(ref.check(words), 8)
            book = ref.Book(words)
            post, = (post for post in range(book.posts) if book.counts[post] > 8)
            self.assertEqual(book.stage[post], book.stages)
            book.choices[post] = book.choices[post][:8]
            self.assertEqual(ref.check(books.build(book.scale, book.sizes, book.choices)), 0)

    def test_depots(self):
        """Faults at depots get 8, 9 and 10."""
        rng, numbers = random.Random('depots'), []
        for _ in range(300):
            numbers.append(ref.check(kinds.faulty(rng, [books.break_depots], [books.depots, books.depots_eight, books.depots_closed])))
        self.assertEqual({*numbers}, {8, 9, 10})
        self.assertGreater(min(numbers.count(n) for n in (8, 9, 10)), 40)

    def test_numbers(self):
        """Faults for the questions 9 and 12 are faults, but for some weights that only stop."""
        for n in (9, 12):
            for shapes in (kinds.FAULTY, kinds.FAULTY_STOPS):
                rng, numbers = random.Random('faults'), []
                for _ in range(300):
                    numbers.append(ref.check(kinds.faulty(rng, [books.BREAKS[n - 1]], shapes)))
                self.assertGreater(numbers.count(n), 200)
                if n == 12:
                    self.assertGreater(numbers.count(0), 10)

    def test_mark(self):
        """Costs near the mark get 10, and the mark where no cost stands 9, 11 or 12. A book without next posts can have no fault there."""
        rng, numbers = random.Random('mark'), []
        for _ in range(300):
            numbers.append(ref.check(kinds.faulty(rng, [books.break_mark], [books.closed, books.closed_last])))
        self.assertEqual({*numbers}, {0, 9, 10, 11, 12})
        self.assertGreater(min(numbers.count(n) for n in (9, 10, 11, 12)), 20)
        self.assertLess(numbers.count(0), 20)


class Met(unittest.TestCase):
    """How many of the books that are accepted have a stop that some plan reaches, at least a third and no more than two thirds; how many have a closed choice,
    at least a fifth and no more than a half; and how many have a post with several depots, at least an eighth and no more than a half."""

    def share(self, found):
        stopped, closed = sum(1 for words in found if reached_stops(words)), sum(1 for words in found if books.closures(words))
        depots = sum(1 for words in found if books.depots_at(words))
        self.assertGreater(len(found), 60)
        self.assertGreater(stopped, len(found) / 3)
        self.assertLess(stopped, len(found) * 2 / 3)
        self.assertGreater(closed, len(found) / 5)
        self.assertLess(closed, len(found) / 2)
        self.assertGreater(depots, len(found) / 8)
        self.assertLess(depots, len(found) / 2)

    def test_cases(self):
        self.share([words for n in range(160) for words in machine.books_of(kinds.fresh('met', n)) if not ref.check(words)])

    def test_inputs(self):
        """Inputs that are accepted, and those whose book has no plan."""
        rng = random.Random('met')
        found = [ref.asked(kinds.page_input(rng)) for _ in range(300)]
        self.share([words for no, _, words in found if no in (0, 28)])

    def test_records(self):
        rng = random.Random('met')
        found = [kinds.record_input(rng) for _ in range(400)]
        self.share([ref.words_of(data[12:12 + 4 * int.from_bytes(data[:4], 'little')]) for data in found if ref.accept(data)[0] == 0])


if __name__ == '__main__':
    unittest.main()
