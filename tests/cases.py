#!/usr/bin/env python3
"""The stored cases: crates/cases/stdin, the input of the program `cases`, and crates/cases/stdout, what it has to print by reference.py.

    tests/cases.py                  writes both files; the same on every run
    tests/cases.py show SEED N      prints case N of a seed of fresh.py, each command with what is expected; seed `stored` for a stored one

Each rule of document 01 has its cases here: the tours, each question from both sides, which of two comes first, rooms and counts at their limits,
ties, records with each byte changed, pages, the largest book. After them stand those of document 02: stops, six next posts, the desk, planners' tables, closed
choices, depots, where a plan stands, limits of marked choices, small books by going through them. Breadth is fresh.py's; a few of its kinds are stored too. New
cases are added at the end, so that the others keep their numbers.
"""

import itertools
import os
import random
import sys

import books
import kinds
import machine
import reference as ref
import rewards
import search
import tables
import tours
from machine import (BOOK, OUT, Case, Command, accept, ask, book, cancel, commit, convert, fill, little, opening, page, put, rank, rank_small, show, value,
                     write)

LOW, HIGH = -2 ** 31, 2 ** 31 - 1
REFUSALS = {*range(15), 19, 20, 21}    # what accepting a record can give


# ---- a book that is accepted

def printed(words, k):
    return [put(little(k, 4), BOOK - 4), page(4 + 4 * len(words))]


def filed(words, k):
    """The record, in rooms one short and one longer, accepted, and some plans of it."""
    record = ref.record(words, k)
    n, count = len(record), int.from_bytes(record[8:12], 'little')
    shown = [c for j in sorted({0, count - 1, count}) for c in show(j, n)]
    return [write(k, n - 1), write(k, n + 1), accept(n)] + shown + [accept(n + 1)]


def ranked(words, k):
    """The list, in rooms that are one longer, and the first plans and the last one valued where they stand."""
    posts, count = ref.Book(words).posts, len(ref.ranking(words, k))
    values = [Command('value', OUT + j * posts, OUT + (j + 1) * posts) for j in sorted({0, min(1, count - 1), count - 1})]
    return [rank(k, k + 1, k * posts + 1)] + values


def thorough(words, *counts):
    out = book(words) + [Command('check'), Command('least')]
    for k in counts:
        out += ranked(words, k) + printed(words, k) + filed(words, k)
    return out


def records_without_plan(words):
    """Records of a book that has no plan, with each K and k, and lengths that fit k, are a byte short or a byte longer."""
    posts, out = ref.Book(words).posts, []
    for most in (0, 1, 3, 64, 65):
        for k in (0, 1, 3, 4):
            n = 12 + 4 * len(words) + k * (8 + posts)
            out += [put(machine.head(words, most, k) + machine.book_bytes(words)), accept(n), accept(n - 1), accept(n + 1)]
    return out + show(0, n)


def without_plan(words):
    """Every call on an accepted book that has no plan, with counts and rooms on both sides of what is allowed; and what would be its plans if no choice were
    closed, the first ones."""
    posts, n = ref.Book(words).posts, 12 + 4 * len(words)
    out = book(words) + [Command('check'), Command('least')]
    for plan in [(), (255,) * posts, *list(ref.plans(ref.Book(books.opened(words))))[:3]]:
        out += value(plan)
    for k in (0, 1, 3, 64, 65):
        rooms = (0, 0), (k, 0), (0, k * posts), (k, k * posts)
        out += [rank(k, *room) for room in rooms] + [write(k, room) for room in (0, n + k * (8 + posts))] + printed(words, k)
    return out + records_without_plan(words)


def every_call(words, *counts):
    """As thorough, of a book that may have no plan."""
    return thorough(words, *counts) if ref.ranking(words, 1) else without_plan(words)


# ---- the tours

def posts_of(words):
    return 3 if ref.check(words) else ref.Book(words).posts


TOUR_COMMANDS = {
    'page': lambda words, k: book(words) + printed(words, k),
    'rank': lambda words, k: book(words) + [rank(k, k, k * posts_of(words)) if k <= 64 else rank(k, 3, 9)],
    'value': lambda words, plan: book(words) + value(plan),
    'least': lambda words: book(words) + [Command('least')],
    'check': lambda words: book(words) + [Command('check')],
    'write': lambda words, k, room: book(words) + [write(k, room)],
    'accept': lambda record: [put(record), accept(len(record))] + [c for j in range(3) for c in show(j, len(record))],
}


def rows_of_tours(rows):
    for tour, call, arguments, _ in rows:
        yield 'tour %d: %s' % (tour, call), TOUR_COMMANDS[call](*arguments)


def tour_cases():
    yield from rows_of_tours(tours.ROWS)
    for name, words in (('A', tours.book_a()), ('A, closing 8', tours.book_a(closing=8)), ('A, cost -10', tours.book_a(cost=-10)), ('C', tours.book_c()),
                        ('tour 10', tours.book_of_tour_10(44)), ('tour 10, gains', tours.book_of_tour_10(-44))):
        yield name, thorough(words, 1, 2, 3)


# ---- questions 1 to 13

SMALL = books.build(4, [1, 2, 2], [[(7, [(0, 1), (1, 3)]), (9, [(1, 4)])], [(2, [(0, 2), (1, 2)]), (-3, [(0, 4)])], [(5, [(1, 4)])], [(1, [])], [(6, [])]])
DEEP = books.build(100, [1, 2] + [1] * 6, [[(3, [(0, 40), (1, 60)]), (5, [(1, 100)])]] + [[(1, [(0, 100)])]] * 7 + [[(2, [])]])


def with_words(words, *changes):
    words = list(words)
    for at, x in changes:
        words[at] = x
    return words


def to_first(scale, r):
    """The first r posts of the next stage, with weights that add to the scale."""
    return [(i, 1 if i < r - 1 else scale - r + 1) for i in range(r)]


def one_choice(scale, sizes, cost=1):
    """One choice a post, to every next post that the scale can tell apart."""
    rows = []
    for n, size in enumerate(sizes):
        r = min(sizes[n + 1], scale) if n + 1 < len(sizes) else 0
        rows += [[(cost, to_first(scale, r))]] * size
    return books.build(scale, sizes, rows)


def each(question, what, place, *values, words=SMALL):
    """The book with one word made each of the values."""
    return [(question, '%s %d' % (what, x), with_words(words, (place, x))) for x in values]


def size_limits(at):
    """(question, what, book) on both sides of the questions 1 to 7; so the next two."""
    ends = [*range(4 + at.stages + 2), len(SMALL) - 1]
    yield from ((7 if n > 3 + at.stages else 5 if n > 2 else 1, 'the first %d words' % n, SMALL[:n]) for n in ends)
    yield from each(2, 'D', 0, LOW, -1, 0, 101, HIGH)
    yield from ((2, 'D %d' % d, one_choice(d, [1, 2])) for d in (1, 2, 100))
    yield from each(3, 'H', 1, LOW, -1, 0, 9, HIGH)
    yield from ((3, 'H %d' % h, one_choice(2, [1] + [2] * h)) for h in (1, 8))
    yield from each(4, 'L', 2, LOW, -1, 0, 1, 2048, 2049, HIGH)
    yield from each(6, 'posts at stage 0:', 3, LOW, -1, 0, 2, HIGH)
    yield from each(6, 'posts at stage 1:', 4, LOW, -1, 0, 1, 16, 17, HIGH)
    yield from each(6, 'posts at stage 2:', 5, 0, 17, HIGH)
    yield 6, '65 posts', [1, 4, 200, 1, 16, 16, 16, 16]
    yield 6, '64 posts', [1, 4, 200, 1, 16, 16, 16, 15]
    yield 6, 'posts whose sum wraps', [1, 2, 200, 1, HIGH, HIGH]
    yield 7, 'a word more', SMALL + [0]
    yield from each(7, 'L', 2, SMALL[2] - 1, SMALL[2] + 1)


def line_limits(at):
    """8 and 9."""
    yield from each(8, 'choices', at.counts[1], LOW, -1, 0, 8, 9, HIGH)
    yield from each(8, 'choices at stage H:', at.counts[-1], LOW, 0, 2, HIGH)
    yield 8, '8 choices', books.build(1, [1, 1], [[(c, [(0, 1)]) for c in range(8)], [(0, [])]])
    yield from each(9, 'r', at.left + at.heads[0], LOW, -1, 0, 1, 3, 16, 17, HIGH)
    yield from each(9, 'r of the last choice', at.left + at.heads[-1], 0, 2, 3, 4)
    yield from each(9, 'r at stage H:', at.left + at.last_heads[0], LOW, -1, 1, HIGH)
    yield 9, 'r 16', one_choice(16, [1, 16])
    yield 9, 'r 17 with all its lines', books.build(17, [1, 16], [[(1, [(i, 1) for i in range(17)])]] + [[(1, [])]] * 16)
    yield 9, 'a line left over', SMALL[:2] + [SMALL[2] + 1] + SMALL[3:at.right] + [0] + SMALL[at.right:] + [0]
    yield 9, 'choices that use fewer lines', with_words(SMALL, (at.counts[0], 1))


def word_limits(at, deep):
    """10 to 13; 100^7 × 8 × 5,000 is the bound of 13 itself."""
    step = at.steps[0][0]
    for what, line in (('cost', at.heads[0]), ('closing cost', at.last_heads[0])):
        yield from each(10, what, at.right + line, LOW, -100001, -100000, 100000, 100001, HIGH)
    yield from each(11, 'next post', at.left + step, LOW, -1, 1, 2, HIGH)
    yield from each(11, 'second next post', at.left + step + 1, LOW, -1, 0, 2, HIGH)
    yield 11, 'next posts that fall', with_words(SMALL, (at.left + step, 1), (at.left + step + 1, 0))
    yield from each(12, 'weight', at.right + step, LOW, -1, 0, 2, 4, 5, HIGH)
    yield 12, 'weights whose sum wraps', with_words(SMALL, (at.right + step, HIGH), (at.right + step + 1, HIGH))
    yield 12, 'a weight of 0 beside D', with_words(SMALL, (at.right + step, 0), (at.right + step + 1, 4))
    for what, line in (('cost', deep.heads[0]), ('closing cost', deep.last_heads[0])):
        yield from ((13, '%s %d' % (what, x), with_words(DEEP, (deep.right + line, x))) for x in (5000, 5001, -5000, -5001))


def limits(rows):
    for question, what, words in rows:
        yield 'question %d: %s' % (question, what), list(kinds.carried(words, 3, 1)) if ref.check(words) else every_call(words, 2)


def limit_cases():
    at, deep = books.Places(SMALL), books.Places(DEEP)
    yield from limits([*size_limits(at), *line_limits(at), *word_limits(at, deep)])


# A fault for each question that leaves the others in place.
FAULTS = {
    2: lambda at: (0, 0),
    3: lambda at: (1, 9),
    4: lambda at: (2, 0),
    6: lambda at: (4, 17),
    8: lambda at: (at.counts[1], 9),
    9: lambda at: (at.left + at.heads[-1], 17),
    10: lambda at: (at.right + at.heads[0], 100001),
    11: lambda at: (at.left + at.steps[0][0], 1),
    12: lambda at: (at.right + at.steps[0][0], 101),
    13: lambda at: (at.right + at.last_heads[0], 5001),
}


def two_faults(faults):
    """Two questions are answered no, and so are 14 to 18 and 20: the first of all counts."""
    at, row = books.Places(DEEP), sorted([7, *faults])
    for p in row:
        for q in row:
            if p < q:
                words = with_words(DEEP, *(faults[n](at) for n in (p, q) if n != 7)) + [0] * (7 in (p, q))
                assert ref.check(words) == p, 'the faults of %d and %d give %d' % (p, q, ref.check(words))
                yield p, q, list(kinds.carried(words, 65, 0, b'1'))


def order_cases():
    for p, q, commands in two_faults(FAULTS):
        yield 'questions %d and %d' % (p, q), commands


# ---- questions 14 to 18

COUNTS = (0, 1, 64, 65, 66, 255, 256, 2 ** 24 + 3, 2 ** 31, 2 ** 32 - 1, 2 ** 32, 2 ** 32 + 3, 2 ** 63, 2 ** 64 - 1)


def bent_slices(words):
    """The first two plans cut off, made longer and with each byte changed: few are plans."""
    for _, plan in ref.ranking(words, 2):
        yield from ((), plan[:-1], plan + (0,), plan + (255,))
        for i in range(len(plan)):
            for x in sorted({0, 1, 2, 8, 254, 255} - {plan[i]}):
                yield plan[:i] + (x,) + plan[i + 1:]


def not_plans(words):
    for slice_ in bent_slices(words):
        yield from value(slice_)


def lent_cases():
    a, c = tours.book_a(), tours.book_c()
    for k in COUNTS:
        ranks = [rank(k, 0, 0), rank(k, 64, 192) if k == 64 else rank(k, 3, 9)]
        yield 'K %d' % k, book(a) + ranks + [write(k, 0), write(k, 20)] + (printed(a, k) if k < 2 ** 32 else [])
    for words, k, size in ((a, 3, 9), (c, 64, 256)):
        rooms = (0, 0), (k - 1, size), (k - 1, size - 1), (k, size - 1), (k, size), (k + 1, size + 1)
        yield 'rooms for K %d' % k, book(words) + [rank(k, *room) for room in rooms]
    yield 'rooms for a record', book(a) + [write(3, n) for n in (0, 11, 12, 121, 122, 123)]
    for name, words in (('A', a), ('C', c)):
        yield 'no plans of ' + name, book(words) + list(not_plans(words))


# ---- lists

def chain(*counts, cost=lambda choice: 0):
    """One post a stage, with so many choices each."""
    return books.build(1, [1] * (len(counts) + 1), [[(cost(c), [(0, 1)]) for c in range(n)] for n in counts] + [[(0, [])]])


def both_ends():
    costs = [100000, -100000, 99999]
    rows = [[(x, [(0, 1), (1, 2)]) for x in costs]] + [[(x, [(0, 3)]) for x in costs]] * 2 + [[(-100000, [])]]
    return books.build(3, [1, 2, 1], rows)


def far_posts():
    """Post 3 is reached by no plan, post 1 by some."""
    rows = [[(4, [(1, 2)]), (4, [(0, 1), (1, 1)])], [(0, [(2, 2)]), (1, [(0, 2)])], [(0, [(2, 2)])], [(-9, [(1, 2)])] * 3]
    return books.build(2, [1, 3, 3], rows + [[(x, [])] for x in (1, 0, 1)])


def list_cases():
    yield '64 plans that tie', thorough(chain(8, 8), 63, 64)
    yield '512 plans that tie', thorough(chain(8, 8, 8), 64)
    yield '512 plans, the later choices better', thorough(chain(8, 8, 8, cost=lambda choice: -choice), 64)
    yield 'costs at both ends', thorough(both_ends(), 64)
    yield 'one plan', thorough(one_choice(2, [1, 2, 2]), 1, 64)
    yield 'posts that some or all plans do not reach', thorough(far_posts(), 64)


# ---- records

def flipped(record, bit):
    """Each byte with a bit flipped, one at a time."""
    n, bent = len(record), bytes(x ^ bit for x in record)
    out = [put(record), put(bent[:1]), accept(n)]
    for at in range(1, n):
        out += [put(record[at - 1:at] + bent[at:at + 1], OUT + at - 1), accept(n)]
    return out


def replaced(record, at, numbers):
    """Four bytes made each of the numbers."""
    n, out = len(record), [put(record)]
    for x in numbers:
        out += [put(little(x, 4), OUT + at), accept(n)] + show(0, n)
    return out


def record_cases():
    for name, record, bits in (('A, K 3', ref.record(tours.book_a(), 3), (1, 128)), ('C, K 2', ref.record(tours.book_c(), 2), (1,))):
        for bit in bits:
            yield 'the record of %s, each byte with bit %d flipped' % (name, bit), flipped(record, bit)
        yield 'the record of %s, each length' % name, [put(record)] + [accept(n) for n in range(len(record) + 3)]
    record = ref.record(tours.book_a(), 3)
    yield 'the record of A with another W', replaced(record, 0, (0, 1, 3, 21, 23, 27, 4172, 4173, 2 ** 30, 2 ** 32 - 1))
    yield 'the record of A with another K', replaced(record, 4, (0, 1, 2, 4, 64, 65, 2 ** 32 - 1))
    yield 'the record of A with another k', replaced(record, 8, (0, 1, 3, 4, 2 ** 32 - 1))
    for k in (2, 3, 64):
        yield 'other lists for C, K %d' % k, list(kinds.forged_lists(tours.book_c(), k))
    yield 'other lists where plans tie', list(kinds.forged_lists(chain(2, 2), 3))
    yield 'the longest W', list(kinds.longest(random.Random(0)))


# ---- pages, powers, the largest book

def page_cases():
    a, c = tours.book_a(), tours.book_c()
    lengths = 0, 3, 4, 5, 16, 91, 93, 94, 95, 96, 16692, 16695, 16696, 16697, 16700
    yield 'pages of A', book(a) + [x for k in (1, 2, 3, 64) for x in printed(a, k)] + [page(n) for n in lengths]
    yield 'pages of C', book(c) + [x for k in (1, 3, 64) for x in printed(c, k)]


def power_cases():
    yield 'powers', [Command('power', k=d, z=e) for d in (0, 1, 2, 7, 10, 99, 100, 101, 2 ** 32 + 2, 2 ** 64 - 1) for e in (0, 1, 2, 7, 8, 9, 255)]


def largest_of(name, counts, low, depots=1):
    """64 posts, H = 8, D = 10, 8 choices a post before stage H and so many at it. Each choice of post 0 has 6 lines below its first, the others have those of
    counts, so that there are 2,048 lines. Weights add to a number from low to D."""
    rng, sizes, rows = random.Random(name), [1, 7] + [8] * 7, []
    rng.shuffle(counts)
    counts += [6] * 8
    for n, size in enumerate(sizes[:-1]):
        here = [counts.pop() for _ in range(8 * size)]
        choices = [(rng.randint(-500, 3000), books.nexts(rng, rng.randint(low, 10), sizes[n + 1], r) if r else []) for r in here]
        rows += [choices[i:i + 8] for i in range(0, len(choices), 8)]
    words = books.build(10, sizes, rows + [[(rng.randint(0, 99), []) for _ in range(depots)] for _ in range(8)])
    assert len(words) == ref.LONGEST_BOOK and not ref.check(words)
    return words


def largest():
    return largest_of('largest', [6] * 220 + [2] * 4 + [1] * 216, 10)


def largest_case():
    words = largest()
    with search.instead_of_enumeration():
        return Case('the largest book and the longest record', thorough(words, 64), True)


# ---- stops: the weights of a choice before stage H add to less than D (2.1 of document 02)

# Post 0 may stop, stops surely, or goes on; post 1 goes on or may stop; post 2 may stop.
STOPS = books.build(4, [1, 2, 2], [[(7, [(0, 1), (1, 2)]), (9, []), (6, [(1, 4)])], [(2, [(0, 2), (1, 2)]), (-3, [(0, 1)])], [(5, [(1, 3)])],
                                   [(1, [])], [(6, [])]])


def one_post(scale, *choices):
    """Post 0 with these choices, and a post of stage 1 whose closing cost is 2."""
    return books.build(scale, [1, 1], [list(choices), [(2, [])]])


def row_of_posts(scale, *rows):
    """One post a stage: (cost, weight) for each choice, without a line where the weight is 0."""
    return books.build(scale, [1] * (len(rows) + 1), [[(cost, [(0, weight)] * (weight > 0)) for cost, weight in row] for row in rows] + [[(1, [])]])


def place_cases():
    deep = books.Places(DEEP)
    for n in range(deep.stages):
        post = deep.book.first[n]
        step = next(rows[0] for rows, (at, _) in zip(deep.steps, books.deciding(deep.book)) if at == post)
        yield 'a stop at stage %d of %d' % (n, deep.stages), thorough(with_words(DEEP, (deep.right + step, 35 - n)), 2)
    yield 'every choice stops, D 5', thorough(with_words(SMALL, (0, 5)), 3)
    yield 'every choice stops, D 100', thorough(with_words(SMALL, (0, 100)), 3)
    yield 'C with D 2', thorough(with_words(tours.book_c(), (0, 2)), 64)
    yield 'stops at some choices', thorough(STOPS, 1, 4)
    later = [[(5, [(0, 2), (1, 1)])], [(3, [])], [(1, [])], [(6, [])]]
    go_on = [(2, [(0, 1), (1, 1)]), (8, [(1, 3)])]
    yield 'a sure stop at post 0', thorough(books.build(3, [1, 2, 2], [[(9, [])]] + later), 2)
    for i in range(3):
        yield 'a sure stop at post 0 as choice %d' % i, thorough(books.build(3, [1, 2, 2], [go_on[:i] + [(9, [])] + go_on[i:]] + later), 3)
    yield 'a sure stop at every stage, or on', thorough(row_of_posts(2, [(3, 2), (4, 0)], [(-2, 1), (0, 0)], [(5, 0), (4, 2)]), 64)
    yield 'every choice stops surely', thorough(row_of_posts(2, [(3, 0), (4, 0)], [(-2, 0)], [(5, 0)]), 2)
    far = [[(1, [(0, 2)])], [(2, [(0, 2)])], [(3, [(0, 1)]), (4, [])], [(5, [])]]
    yield 'only a post that no plan reaches stops', thorough(books.build(2, [1, 2, 1], far), 2)


def stop_limits():
    """(question, what, book) on both sides of the questions 9, 12 and 13."""
    at = books.Places(STOPS)
    yield from each(9, 'r of a sure stop:', at.left + at.heads[1], LOW, -1, 0, 1, 16, 17, HIGH, words=STOPS)
    yield 9, 'a line after a sure stop', with_words(one_post(1, (5, [(0, 1)])), (7, 0))
    yield 9, 'no line for stage H after a sure stop', [1, 1, 1, 1, 1, 1, 1, 0, 5]
    yield 9, 'r 0 at both stages', one_post(1, (5, []))
    yield 9, 'r 1 at stage H with its line', books.build(1, [1, 1], [[(5, [])], [(2, [(0, 1)])]])
    yield from ((12, 'weight %d of 4' % x, one_post(4, (5, [(0, x)]))) for x in (-1, 0, 1, 3, 4, 5))
    yield from ((12, 'weights %d and %d of 4' % pair, books.build(4, [1, 2], [[(5, [(0, pair[0]), (1, pair[1])])], [(2, [])], [(3, [])]]))
                for pair in ((1, 1), (2, 1), (2, 2), (2, 3), (4, 1), (0, 4)))
    yield from ((12, 'weight %d of 100' % x, one_post(100, (5, [(0, x)]))) for x in (1, 99, 100, 101))
    six = [[(5, [(i, 1) for i in range(6)])]] + [[(i, [])] for i in range(6)]
    yield from ((12, '6 weights of 1, D %d' % d, books.build(d, [1, 6], six)) for d in (5, 6, 7))
    yield 12, 'D 1 and two weights', books.build(1, [1, 2], [[(5, [(0, 1), (1, 1)])], [(2, [])], [(3, [])]])
    yield 12, 'a sum of D + 1 at a post that no plan reaches', books.build(2, [1, 1, 2], [[(5, [])], [(1, [(0, 2), (1, 1)])], [(2, [])], [(3, [])]])
    for weight in (0, 99):
        yield from ((13, 'every weight %d of 100, H 8, cost %d' % (weight, cost), books.build(100, [1] * 9, [[(cost, [(0, weight)] * (weight > 0))]] * 8
                                                                                            + [[(cost, [])]])) for cost in (44, -44, 45, -45))


def stop_order_cases():
    """As order_cases, where the fault for 12 is a sum of D + 1."""
    for p, q, commands in two_faults({**FAULTS, 12: lambda at: (at.right + at.steps[0][0], 41)}):
        if 12 in (p, q):
            yield 'questions %d and %d, the sum of weights D + 1' % (p, q), commands
    at = books.Places(DEEP)
    words = with_words(DEEP, (at.right + at.steps[0][0], 41), (at.left + at.steps[-1][0], 1))
    yield 'a sum of D + 1 before a next post that is none: question 11', list(kinds.carried(words, 65, 0, b'1'))


# With D 2 each costs 10: 4 × 2 + 2, 5 × 2, 3 × 2 + 2 × 2.
TIED_WAYS = (4, [(0, 1)]), (5, []), (3, [(0, 2)])


def stop_list_cases():
    """Ties between plans that stop and plans that go on; what is no plan; records."""
    yield 'D 1, a sure stop that ties', thorough(one_post(1, (5, []), (3, [(0, 1)])), 1, 2)
    yield 'a stop, a sure stop and a full plan that tie', thorough(one_post(2, *TIED_WAYS), 1, 3)
    yield 'the same in another order', thorough(one_post(2, *reversed(TIED_WAYS)), 2)
    yield 'all plans cost 0, and many stop', thorough(row_of_posts(2, *[[(0, 1), (0, 0), (0, 2)]] * 3), 64)
    for name, words in (('a book with stops', STOPS), ('a book with a sure stop at post 0', one_post(1, (5, []), (4, [(0, 1)])))):
        yield 'no plans of ' + name, book(words) + list(not_plans(words))
    a = tours.book_a(scale=3)
    for name, words in (('A with D 3', a), ('a book with stops', STOPS)):
        yield 'the record of %s, each byte with bit 1 flipped' % name, flipped(ref.record(words, 2), 1)
    yield 'other lists for a book with stops', list(kinds.forged_lists(STOPS, 3))
    short = kinds.as_record(a, 3, 2, [(32, (1, 0, 255)), (33, (0, 0, 0))])
    yield 'the record of A with D 3, costs without the days that stop', [put(short), accept(len(short))]


def largest_with_stops():
    """One choice in eight stops surely, and most others may stop."""
    return largest_of('largest with stops', [0] * 56 + [6] * 232 + [1] * 152, 7)


def largest_with_stops_case():
    words = largest_with_stops()
    with search.instead_of_enumeration():
        calls = [Command('check'), Command('least')] + ranked(words, 64) + filed(words, 64) + printed(words, 3)
        return Case('the largest book with stops', book(words) + calls, True)


# ---- rows: a choice has at most 6 next posts (2.3 of document 02)

ROW_SIZES = [1, 8, 7, 7, 8]


def row_at(n, *lines, sizes=ROW_SIZES):
    """D = 9. The last choice of the first post of stage n has these lines; every other choice leads to the first post of the next stage."""
    rows = [[(m, to_first(9, 1)), (2 * m, to_first(9, 1))] if m < len(sizes) - 1 else [(i, [])] for m, size in enumerate(sizes) for i in range(size)]
    rows[sum(sizes[:n])][-1] = 3, list(lines)
    return books.build(9, sizes, rows)


def row_limits():
    """(question, what, book) on both sides of question 9."""
    for n in range(len(ROW_SIZES) - 1):
        yield from ((9, '%d next posts at stage %d of 4' % (r, n), row_at(n, *to_first(9, r))) for r in (6, 7))
    yield from ((9, '%d next posts' % r, books.build(16, [1, 16], [[(5, to_first(16, r))]] + [[(i, [])] for i in range(16)])) for r in (5, 6, 7, 8, 15, 16))
    yield from ((9, '%d next posts at every choice' % r, one_choice(r, [1, 7, 7])) for r in (6, 7))
    yield from ((9, '%d next posts at one of 8 choices' % r, books.build(7, [1, 7], [[(c, to_first(7, 6)) for c in range(7)] + [(9, to_first(7, r))]]
                                                                         + [[(i, [])] for i in range(7)])) for r in (6, 7))
    far = [[(1, to_first(7, 1))], [(2, to_first(7, 1))]]
    yield from ((9, '%d next posts at a post that no plan reaches' % r, books.build(7, [1, 2, 7], far + [[(3, to_first(7, r))]] + [[(i, [])] for i in range(7)]))
                for r in (6, 7))
    yield from ((9, '%d next posts and a stop' % r, row_at(1, *((i, 1) for i in range(r)))) for r in (6, 7))
    yield 9, '7 next posts of 6', row_at(1, *to_first(9, 7), sizes=[1, 7, 6, 7, 8])
    yield 9, '7 next posts at stage H', row_at(4, *to_first(9, 7))


ROW_FAULTS = {
    8: lambda at: (at.counts[1], 9),
    10: lambda at: (at.right + at.heads[0], 100001),
    11: lambda at: (at.left + at.steps[0][0], 8),
    12: lambda at: (at.right + at.steps[0][0], 10),
}


def row_order_cases():
    """A row of 7 where another question is answered no too, and a row of 6 there."""
    for r in (6, 7):
        words = row_at(2, *to_first(9, r))
        at = books.Places(words)
        for q, fault in ROW_FAULTS.items():
            other = with_words(words, fault(at))
            assert ref.check(other) == (min(q, 9) if r == 7 else q)
            yield '%d next posts, and question %d' % (r, q), list(kinds.carried(other, 65, 0, b'1'))
        yield '%d next posts, and questions 10 to 12' % r, list(kinds.carried(with_words(words, *(ROW_FAULTS[q](at) for q in (10, 11, 12))), 65, 0, b'1'))
        yield '%d next posts, and a word more' % r, list(kinds.carried(words + [0], 65, 0, b'1'))
        deep = one_choice(100, [1] * 8 + [r], 45)
        assert ref.check(deep) == (9 if r == 7 else 13)
        yield '%d next posts, and question 13' % r, list(kinds.carried(deep, 65, 0, b'1'))


def row_record_cases():
    """Records as they were written while 16 next posts were allowed."""
    for r in (6, 7, 16):
        words = books.build(16, [1, 16], [[(5, to_first(16, r)), (4, to_first(16, 1))]] + [[(i, [])] for i in range(16)])
        record = ref.record(words, 3)
        yield 'the record of a book with %d next posts' % r, [put(record), accept(len(record))] + [c for j in range(3) for c in show(j, len(record))]
    words = books.build(6, [1, 6], [[(5, to_first(6, 6)), (4, to_first(6, 1))]] + [[(i, [])] for i in range(6)])
    yield 'the record of a book with 6 next posts, each byte with bit 1 flipped', flipped(ref.record(words, 2), 1)


# ---- the desk

NO_RIDERS = (16, 17, 255, 2 ** 32, 2 ** 32 + 3, 2 ** 63, 2 ** 64 - 1)


def joined(*calls):
    return [command for call in calls for command in call]


def opened(plans, most=64):
    """A desk for the record of a book with so many plans."""
    return opening(ref.record(one_post(2, *[(i, [(0, 2)]) for i in range(plans)]), most))


def desk_rules():
    yield 'two dispatchers give the same plan', joined(ask(0, 1), ask(1, 1), ask(1, 2), commit(0), commit(1))
    yield 'the rank that is held asked for again', joined(ask(0, 1), ask(0, 1), commit(0))
    yield 'a granted ask drops the earlier hold', joined(ask(0, 1), ask(0, 3), ask(1, 1), ask(2, 3), commit(0), commit(1))
    yield 'a refused ask keeps the earlier hold', joined(ask(0, 1), ask(1, 2), ask(0, 2), ask(0, 4), ask(1, 1), commit(0), commit(1))
    yield 'a commitment is for good', joined(ask(0, 3), commit(0), commit(0), cancel(0), ask(0, 2), ask(1, 3), ask(0, 3), ask(0, 4))
    yield 'a cancelled rank is free again', joined(ask(0, 2), cancel(0), cancel(0), commit(0), ask(1, 2), commit(1), ask(0, 2))
    yield 'committing and cancelling with no hold', joined(commit(3), cancel(3), commit(3))
    yield 'what others do', joined(ask(5, 2), ask(6, 2), ask(6, 1), commit(6), cancel(7), ask(7, 3), ask(7, 2), cancel(7), commit(5))
    yield 'which number comes first', joined(ask(0, 1), commit(0), ask(16, 4), ask(16, 1), ask(0, 4), ask(0, 0), ask(1, 4), ask(1, 1))


def desk_limits():
    for rider in (0, 15) + NO_RIDERS:
        yield 'rider %d' % rider, joined(ask(rider, 1), cancel(rider), ask(rider, 2), commit(rider), commit(rider))
    for rank in (0, 1, 2, 3, 4, 255, 256, 257, 2 ** 32 + 1, 2 ** 63, 2 ** 64 - 1):
        yield 'rank %d of 3' % rank, joined(ask(2, rank), commit(2))


def desk_opened_cases():
    """A list of one plan, and one of as many plans as riders, all of them taken; opened anew; never opened."""
    yield 'one plan', joined(opened(1), ask(0, 1), ask(1, 2), ask(1, 1), commit(0), opened(1), ask(1, 1))
    asks, commits = [ask(i, 16 - i) for i in range(16)], [commit(i) for i in range(16)]
    yield 'each rider with a plan', joined(opening(ref.record(chain(4, 4), 16)), *asks, *commits, ask(15, 1))
    yield 'opened anew with another k', joined(opened(4), ask(0, 4), ask(1, 3), commit(1), opened(2), commit(0), ask(0, 4), ask(2, 2), ask(1, 2), ask(1, 1))
    yield 'opened with k below K', joined(opened(3, 64), ask(0, 3), ask(0, 4), opened(3, 2), ask(0, 3), ask(0, 2))
    yield 'never opened', joined(ask(0, 1), ask(0, 0), ask(16, 1), commit(0), cancel(0), opening(b''), ask(0, 1))


def refused_openings():
    """For each number a record that gets it, at a desk where ranks are held and committed."""
    found, n = {}, 0
    while len(found) < len(REFUSALS):
        record = kinds.record_input(random.Random('opening:%d' % n), kinds.WITHOUT_CLOSED)[:BOOK - OUT]
        found.setdefault(ref.accept(record)[0], record)
        n += 1
    for no in sorted(REFUSALS - {0}):
        yield 'an opening that gets %d' % no, joined(opened(3), ask(0, 1), commit(0), ask(1, 2), opening(found[no]), commit(1), ask(2, 3))


def filled_desks():
    """Desks that no call made: a rank twice, ranks that are not listed, a rider with both, any k."""
    none = [0] * 16
    first = [1] + none[1:]
    desks = [(2, [1, 1] + none[2:], none), (2, first, [0, 1] + none[2:]), (2, first, first), (2, [9] + none[1:], none), (0, first, none),
             (255, none, none), (255, [255] * 16, [128] * 16), (65, [65] + none[1:], none), (3, list(range(16)), list(range(16, 0, -1)))]
    asks = joined(ask(0, 1), ask(1, 1), ask(2, 2), ask(3, 255), ask(4, 256), ask(4, 257))
    calls = asks + joined(commit(0), cancel(1), commit(0), commit(2), commit(15), ask(1, 1), ask(16, 1))
    for n, (k, held, committed) in enumerate(desks):
        yield 'a desk that no call made, %d' % n, fill(k, held, committed) + calls + opened(2) + ask(1, 1)


def filled_with_nothing():
    """A filling of no bytes cancels for rider 0, and leaves all else of the desk."""
    nothing = [Command('fill', OUT, OUT)]
    yield 'a desk filled with no bytes', opened(3) + joined(ask(0, 1), ask(1, 2), commit(1)) + nothing + joined(commit(0), ask(2, 2), ask(2, 1))


def desk_cases():
    for title, calls in [*desk_rules(), *desk_limits()]:
        yield 'desk: ' + title, opened(3) + calls
    for title, calls in [*desk_opened_cases(), *refused_openings(), *filled_desks()]:
        yield 'desk: ' + title, calls


# ---- planners' tables

# Two states, two choices each, D = 4, H = 2; the first state is 1.
TABLE = tables.build(4, 2, 1, [[(7, [(0, 1), (1, 3)]), (9, [(1, 4)])], [(2, [(0, 2), (1, 2)]), (-3, [(0, 4)])]], [1, -6])
TABLE_AT = tables.Places(TABLE)


def one_row(states, *lines, first=0, at=0, stages=1, scale=4, reward=5, closing=0):
    """One choice a state, to itself; that of the state `at` has these lines, where there are any."""
    rows = [[(reward, list(lines) if lines and state == at else [(state, scale)])] for state in range(states)]
    return tables.build(scale, stages, first, rows, [closing] * states)


def some_lines(rng, states, total):
    """8 choices with together so many lines and rising next states; D = 6."""
    counts = [1] * 8
    while sum(counts) + 8 < total:
        counts[rng.choice([c for c in range(8) if counts[c] < 6])] += 1
    return [(rng.randint(-99, 99), books.nexts(rng, 6, states, r)) for r in counts]


def table_of_lines(first, total):
    """Seven states, H = 8: the first state has `first` lines, all together `total`, so that the book has first + 7 × total + 7."""
    rng, each_state = random.Random(first), [(total - first + i) // 6 for i in range(6)]
    rows = [some_lines(rng, 7, n) for n in [first] + each_state]
    return tables.build(6, 8, 0, rows, [rng.randint(-99, 99) for _ in range(7)])


def each_table(what, place, *values):
    return [('%s %d' % (what, x), with_words(TABLE, (place, x))) for x in values]


def table_sizes():
    """(what, table) on both sides of each part of 25; so the next ones."""
    yield from (('the first %d words' % n, TABLE[:n]) for n in (*range(8), len(TABLE) - 2, len(TABLE) - 1))
    yield 'a word more', TABLE + [0]
    yield from each_table('n', 2, LOW, -1, 0, 1, 3, 16, 17, HIGH)
    yield from (('n %d with all its lines' % n, one_row(n)) for n in (1, 2, 15, 16, 17))
    yield from each_table('first state', 3, LOW, -1, 0, 1, 2, HIGH)
    yield from (('first state %d of 16' % s, one_row(16, first=s)) for s in (-1, 0, 15, 16))
    yield from each_table('D', 0, LOW, -1, 0, 3, 5, 101, HIGH)
    yield from (('D %d with weights that add to it' % d, one_row(2, scale=d)) for d in (0, 1, 2, 99, 100, 101))
    yield from each_table('H', 1, LOW, -1, 0, 1, 3, 8, 9, HIGH)
    yield from each_table('L', 4, LOW, -1, 0, 1, TABLE[4] - 1, TABLE[4] + 1, 2048, 2049, HIGH)
    yield 'sizes alone, n and L 0', [4, 2, 0, 0, 0]


def table_lines():
    """26: choice counts, r, lines that fit and are used."""
    at = TABLE_AT
    yield from each_table('choices of state 0:', at.counts[0], LOW, -1, 0, 1, 3, 8, 9, HIGH)
    yield from each_table('choices of the last state:', at.counts[-1], LOW, 0, 1, 3, HIGH)
    yield from (('%d choices with all their lines' % n, tables.build(1, 2, 0, [[(c, [(0, 1)]) for c in range(n)]], [0])) for n in (0, 1, 8, 9))
    yield from each_table('r', at.left + at.heads[0], LOW, -1, 0, 1, 3, at.lines - 1, at.lines, HIGH)
    yield from each_table('r of the last choice', at.left + at.heads[-1], LOW, -1, 0, 2, 3, 4, HIGH)
    for what, line in (('before the closing lines', at.closing[0]), ('after them', at.lines)):
        for left in (0, 1):
            words = TABLE[:4] + [TABLE[4] + 1] + TABLE[5:at.left + line] + [left] + TABLE[at.left + line:at.right + line] + [0] + TABLE[at.right + line:]
            yield 'a line too many, %s, with %d on the left' % (what, left), words
    short = [x for i, x in enumerate(TABLE) if i not in (at.right - 1, len(TABLE) - 1)]
    yield 'a closing line too few', with_words(short, (4, TABLE[4] - 1))
    yield 'closing lines alone', tables.build(1, 1, 0, [[]], [0])


def table_words():
    """26: sums of weights, closing lines, rewards."""
    at = TABLE_AT
    for what, rows in (('the first choice', at.steps[0]), ('the last choice', at.steps[-1])):
        weight = TABLE[at.right + rows[0]]
        yield from each_table('a weight of ' + what, at.right + rows[0], *sorted({LOW, -1, 0, weight - 1, weight + 1, HIGH}))
    for weights in ((HIGH, HIGH, 6), (LOW, LOW, 4), (HIGH, HIGH, HIGH), (4, 0, 0), (5, -1, 0), (HIGH, -HIGH, 4), (1, 1, 1), (1, 1, 2), (2, 2, 1)):
        yield 'weights %d, %d and %d of 4' % weights, one_row(3, *enumerate(weights))
    for s in range(2):
        yield from each_table('left of closing line %d:' % s, at.left + at.closing[s], LOW, -1, 1, HIGH)
    for what, line in (('reward', at.heads[0]), ('last reward', at.heads[-1]), ('closing reward', at.closing[0]), ('last closing reward', at.closing[-1])):
        yield from each_table(what, at.right + line, LOW, -100001, -100000, 100000, 100001, HIGH)


def table_books():
    """(what, table) on both sides of what the produced book's questions judge."""
    yield from (('a book of %d lines' % (first + 7 * total + 7), table_of_lines(first, total)) for first, total in ((46, 285), (47, 285), (46, 286)))
    yield from (('%d states and H %d: a book of %d posts' % (n, h, 1 + n * h), one_row(n, stages=h)) for n, h in ((9, 7), (8, 8), (16, 3), (16, 4), (13, 5)))
    for n in (38, 50):    # the second is longer than any room
        yield 'a book of %d lines and 65 posts' % (57 * n + 8), tables.build(6, 8, 0, [some_lines(random.Random(n), 8, n)] * 8, [0] * 8)
    for stages in (1, 2):
        for state in (0, 1):
            of = ' of state %d, first state 0, H %d' % (state, stages)
            row = lambda *lines: one_row(8, *lines, at=state, stages=stages, scale=9)
            yield from (('%d lines' % r + of, row(*to_first(9, r))) for r in (6, 7, 8))
            yield from (('next state %d of 8' % step + of, row((step, 9))) for step in (LOW, -1, 0, 7, 8, HIGH))
            yield 'next states that fall' + of, row((3, 4), (2, 5))
            yield 'a next state twice' + of, row((3, 4), (3, 5))
            yield from (('weights %d and %d of 9' % (x, 9 - x) + of, row((3, x), (4, 9 - x))) for x in (LOW + 10, -1, 0, 1, 8, 9, 10, HIGH))
    for stages, limit in ((7, 5000), (8, 44)):
        for x in (limit, limit + 1, -limit, -limit - 1):
            yield 'D 100, H %d, reward %d' % (stages, x), one_row(2, stages=stages, scale=100, reward=x)
            yield 'D 100, H %d, closing reward %d' % (stages, x), one_row(2, stages=stages, scale=100, closing=x)


def table_shapes():
    yield 'the table of docs/FORMAT.md', tables.BY_HAND
    yield from (('two states of document 001, the first %d' % s, tables.two_states(s)) for s in range(2))
    yield 'n 1 and H 1', one_row(1)
    yield 'n 1 and H 8', one_row(1, stages=8)
    yield 'rewards of 100,000', one_row(2, (0, 2), (1, 2), reward=100000, closing=100000, stages=4)
    yield 'rewards of -100,000', one_row(2, (0, 2), (1, 2), reward=-100000, closing=-100000, stages=4)
    yield 'rewards of 0', one_row(2, (0, 2), (1, 2), reward=0, stages=2)
    yield 'states that no policy reaches', one_row(3, (0, 1), (1, 3), at=0, stages=3)


# A fault for each number that leaves the others in place.
TABLE_FAULTS = {
    25: lambda at: (3, 2),
    26: lambda at: (at.left + at.closing[0], 1),
    11: lambda at: (at.left + at.steps[0][0], 1),
    13: lambda at: (at.right + at.heads[0], 5001),
}


def table_orders():
    """(what, table): two faults each, in a table that has none else and in one with a choice of 7 lines."""
    words = one_row(2, (0, 40), (1, 60), stages=7, scale=100)
    seven = one_row(2, *[(0, 0)] * 6, (0, 100), at=1, stages=7, scale=100)
    for base in (words, seven):
        at = tables.Places(base)
        for p, q in ((25, 26), (25, 11), (26, 11), (26, 13), (11, 13), (25, 13)):
            found = with_words(base, *(TABLE_FAULTS[n](at) for n in (p, q)))
            yield 'faults for %d and %d%s' % (p, q, ' and 9' if base is seven else ''), found


def conversion(words, *counts):
    """In a room that is a byte short of the book, one that fits, and one with a word and three bytes more; and what stands there then, as a book. A table
    that has no book is refused whatever the room is."""
    if rewards.table_no(words):
        return book(words) + [convert(0), convert(8)]
    room = kinds.room_for(words)
    calls = [Command('convert', OUT, OUT + end) for end in (4 * room - 1, 4 * room, 4 * room + 7)]
    if rewards.convert(words, [0] * room)[0] == 0:
        calls += kinds.made_book(words, 3)[:2] + [c for k in counts for c in kinds.made_book(words, k)[2:]]
    return book(words) + calls


def longest_tables():
    words = tables.longest(random.Random('longest'))
    yield 'the longest table', words
    yield 'the longest table and a word more', words + [0]
    yield 'the longest table, with H 2', with_words(words, (1, 2))
    other = (words[3] + 1) % 16
    yield 'a line more than is allowed', tables.with_row(words, other, 0, rewards.Table(words).choices[other][0][1] + [(0, 0)])


def table_cases():
    for number, rows in ((25, table_sizes()), (26, [*table_lines(), *table_words()])):
        for what, words in rows:
            yield 'table, question %d: %s' % (number, what), conversion(words)
    for what, words in [*table_books(), *table_orders(), *longest_tables()]:
        yield 'table: ' + what, conversion(words)
    for what, words in table_shapes():
        yield 'table: ' + what, conversion(words, 64)
    a = tours.book_a()
    yield 'table: a book is none', book(a) + [convert(0), convert(40)]
    yield 'table: all bytes are lent', book(TABLE) + [Command('convert', 0, machine.PLACES)]


# ---- closed choices: a cost of 200,000 (2.7 of document 02)

CLOSED = ref.CLOSED

# Post 1 is a dead end two stages deep: its choices are open and lead to post 4, which has closed choices alone. Post 0 leads to it by its cheapest choice, and
# has a closed choice. Posts 2 and 5 have one closed choice, post 3 has one beside a stop and a sure stop. Post 7 is closed at stage H.
SHUT = books.build(4, [1, 3, 2, 2], [
    [(3, [(0, 4)]), (7, [(1, 1), (2, 3)]), (CLOSED, [(1, 4)]), (9, [(2, 4)])],
    [(1, [(0, 4)]), (2, [(0, 2), (1, 2)])], [(CLOSED, [(0, 4)]), (5, [(1, 4)])], [(2, [(1, 3)]), (4, []), (CLOSED, [(0, 1), (1, 3)])],
    [(CLOSED, [(0, 4)]), (CLOSED, [(1, 4)])], [(6, [(0, 4)]), (1, [(1, 4)]), (CLOSED, [])],
    [(2, [])], [(CLOSED, [])]])


def of_stage(words, n):
    """The choices of a stage."""
    found = ref.Book(words)
    return [(post, c) for post, c in books.every_choice(found) if found.stage[post] == n]


def closed_costs():
    """(question, what, book): costs near the mark, and the mark where no cost stands."""
    at = books.Places(SMALL)
    for what, line in (('cost', at.heads[0]), ('last cost', at.heads[-1]), ('closing cost', at.last_heads[0])):
        yield from each(10, what, at.right + line, -CLOSED - 1, -CLOSED, 1 - CLOSED, CLOSED - 1, CLOSED, CLOSED + 1)
    step = at.steps[0][0]
    yield from each(11, 'next post', at.left + step, CLOSED)
    yield from each(12, 'weight', at.right + step, CLOSED)
    for what, line in (('r', at.heads[0]), ('r at stage H:', at.last_heads[0])):
        yield from each(9, what, at.left + line, CLOSED)
    for question, what, place in ((2, 'D', 0), (3, 'H', 1), (4, 'L', 2), (6, 'posts at stage 1:', 4), (8, 'choices', at.counts[0])):
        yield from each(question, what, place, CLOSED)


def closed_lines():
    """(question, what, book): the lines of a closed choice."""
    words = books.close(SMALL, [(0, 0)])
    at = books.Places(words)
    step = at.steps[0][0]
    yield from each(9, 'r of a closed choice:', at.left + at.heads[0], LOW, -1, 0, 1, 3, 17, HIGH, words=words)
    yield from ((9, '%d next posts of a closed choice' % r, books.close(row_at(2, *to_first(9, r)), [(9, 1)])) for r in (6, 7))
    yield 9, 'a closed choice of stage H with a line', books.build(1, [1, 1], [[(5, [(0, 1)])], [(CLOSED, [(0, 1)])]])
    yield from each(11, 'next post of a closed choice:', at.left + step, LOW, -1, 1, 2, words=words)
    yield from each(12, 'weight of a closed choice:', at.right + step, LOW, 0, 2, 5, HIGH, words=words)
    every = books.close(SMALL, books.every_choice(ref.Book(SMALL)))
    yield from each(11, 'next post where every choice is closed:', at.left + step, 2, words=every)
    yield from each(12, 'weight where every choice is closed:', at.right + step, 0, words=every)


def far_cost(cost, *more):
    """D = 100, H = 8: every choice is closed but that of post 2, which no plan reaches, and those of `more`."""
    rows = [[(CLOSED, [(0, 100)])] for _ in range(9)] + [[(CLOSED, [])]]
    rows[2] = [(cost, [(0, 100)])]
    for post, other in more:
        rows[post] = [(other, rows[post][0][1])]
    return books.build(100, [1, 2] + [1] * 7, rows)


def closed_bounds():
    """(question, what, book): 13 with D = 100, where 200,000 would be beyond the bound with any H from 7 on."""
    for x in (44, -44, 45, -45):
        yield 13, 'cost %d, and a closed choice at each post' % x, row_of_posts(100, *[[(CLOSED, 100), (x, 100)]] * 8)
        yield 13, 'cost %d at one post alone' % x, row_of_posts(100, *[[(1, 100), (CLOSED, 0)]] * 7, [(CLOSED, 100), (x, 0)])
        yield 13, 'the only open cost, %d, at a post that no plan reaches' % x, far_cost(x)
        yield 13, 'cost %d at a post that no plan reaches, and 1 at the others' % x, far_cost(x, *((post, 1) for post in (0, 1, *range(3, 10))))
    at = books.Places(DEEP)
    for x in (5000, 5001):
        yield 13, 'cost %d beside a closed choice' % x, with_words(DEEP, (at.right + at.heads[0], CLOSED), (at.right + at.heads[1], x))
        yield 13, 'cost %d closed, and as a closing cost' % x, with_words(DEEP, (at.right + at.heads[0], CLOSED), (at.right + at.last_heads[0], x))
    yield 13, 'every choice closed, D 100 and H 8', books.close(tours.book_of_tour_10(45), [(post, 0) for post in range(9)])
    yield 13, 'the mark within the bound', row_of_posts(1, [(CLOSED, 1), (100000, 1)], [(-100000, 1), (CLOSED, 1)])


def closed_list_cases():
    yield 'closed choices and dead ends', thorough(SHUT, 1, 2, 64)
    for post, c in books.every_choice(ref.Book(SMALL)):
        yield 'choice %d of post %d closed' % (c, post), every_call(books.close(SMALL, [(post, c)]), 3)
    stopping = row_of_posts(2, [(3, 2), (4, 0)], [(-2, 1), (0, 0)], [(5, 0), (4, 2)])
    for name, words in (('', SMALL), (', or a sure stop', stopping)):
        for n in range(words[1] + 1):
            yield 'every choice of stage %d of %d closed%s' % (n, words[1], name), every_call(books.close(words, of_stage(words, n)), 3)
    for name, words in (('every choice closed', SMALL), ('every choice closed, some of them stops', STOPS)):
        yield name, every_call(books.close(words, books.every_choice(ref.Book(words))), 3)
    rows = [[(1, [(0, 3)]), (9, [(1, 3)])]] + [[(2, [(0, 3)])], [(3, [(1, 3)])]] * 4 + [[(4, [])], [(5, [])]]
    two_ways = books.build(3, [1] + [2] * 5, rows)    # post 0 has two ways, of one post a stage each, and the first is the cheaper
    for n in range(1, 6):
        end = 2 * n - 1, 0
        yield 'one way of two ends at stage %d of 5' % n, thorough(books.close(two_ways, [end]), 3)
        yield 'one way ends at stage %d of 5, the other at post 0' % n, without_plan(books.close(two_ways, [end, (0, 1)]))
    both = books.build(3, [1, 2, 2], [[(1, [(0, 1), (1, 2)]), (8, [(1, 3)])], [(2, [(0, 3)])], [(3, [(1, 3)])], [(CLOSED, [])], [(5, [])]])
    yield 'one next post of two is a dead end', thorough(both, 2)
    yield 'one plan left', thorough(books.close(SHUT, [(0, 1), (3, 0)]), 1, 64)
    yield '64 plans that tie, the first closed', thorough(books.close(chain(8, 8), [(0, 0), (1, 7)]), 48, 49, 64)
    yield '512 plans that tie, half of the choices closed', thorough(books.close(chain(8, 8, 8), [(n, c) for n in range(3) for c in range(n % 2, 8, 2)]), 64)
    yield 'closed choices at posts that no plan reaches', thorough(books.close(far_posts(), [(3, 1), (5, 0)]), 64)


def closed_value_cases():
    """Every slice that would be a plan if no choice were closed, and others."""
    slices = [*ref.plans(ref.Book(books.opened(SHUT)))]
    yield 'slices with closed choices', book(SHUT) + [c for plan in slices for c in value(plan)]
    yield 'no plans of a book with closed choices', book(SHUT) + list(not_plans(SHUT))
    shut = books.close(SMALL, of_stage(SMALL, 1))
    slices = [*ref.plans(ref.Book(SMALL))]
    yield 'slices of a book without a plan', book(shut) + [c for plan in [*slices, (0, 255, 255, 255, 255)] for c in value(plan)]


def closed_order_cases():
    """A question of the book is answered no, and so is 28."""
    words = books.close(DEEP, [(0, 0), (0, 1)])
    at = books.Places(words)
    for q, fault in FAULTS.items():
        other = with_words(words, fault(at))
        assert ref.check(other) == q
        yield 'no plan, and question %d' % q, list(kinds.carried(other, 65, 0, b'1'))
    for k in (0, 65, 2 ** 32 + 1, 2 ** 64 - 1):
        yield 'no plan, and K %d' % k, list(kinds.carried(words, k, 0, b'1'))
    yield 'no plan, and short slices', list(kinds.carried(words, 64, 65, b'1'))


def closed_record_cases():
    for bit in (1, 64):
        yield 'the record of a book with closed choices, each byte with bit %d flipped' % bit, flipped(ref.record(SHUT, 2), bit)
    for k in (2, 64):
        yield 'other lists for a book with closed choices, K %d' % k, list(kinds.forged_lists(SHUT, k))
    a, found = ref.record(SMALL, 3), ref.Book(SMALL)
    at = books.Places(SMALL)
    for (post, c), line in zip(books.every_choice(found), at.heads + at.last_heads):
        closing = put(little(CLOSED, 4), OUT + 12 + 4 * (at.right + line))
        yield 'choice %d of post %d closed in a filed record' % (c, post), [put(a), closing, accept(len(a))] + show(0, len(a))
    shut = books.close(SMALL, of_stage(SMALL, 2))
    for k in (0, 1):
        again = opening(kinds.as_record(shut, 3, k, ref.ranking(SMALL, k)))
        yield 'desk: an opening with a book that has no plan, k %d' % k, joined(opened(3), ask(0, 1), commit(0), ask(1, 2), again, commit(1), ask(2, 3))


def largest_with_closed():
    """Half of the choices before stage H are closed, and all of posts 25, 28, 57 and 62. So posts 52, 43 and 38, one a stage, are dead ends though each has an
    open choice, and many choices lead to dead ends."""
    words = largest_of('largest with closed choices', [6] * 220 + [2] * 4 + [1] * 216, 10)
    rng, every = random.Random('closed'), books.every_choice(ref.Book(words))
    words = books.close(words, [(post, c) for post, c in every if post < 56 and rng.random() < 0.5 or post in (25, 28, 57, 62)])
    assert [post for post, x in enumerate(search.numbers(ref.Book(words), ())) if x is None] == [25, 28, 38, 43, 52, 57, 62]
    return words


def largest_without_plan():
    words = largest_with_closed()
    return books.close(words, of_stage(words, 8))


def largest_with_closed_cases():
    words = largest_with_closed()
    with search.instead_of_enumeration():
        calls = [Command('check'), Command('least')] + ranked(words, 64) + filed(words, 64) + printed(words, 3)
        yield Case('the largest book with closed choices', book(words) + calls, True)
    yield Case('the largest book without a plan', list(kinds.carried(largest_without_plan(), 64, 64)) + [rank(64, 64, 4096)], True)


# ---- depots: more than one choice at a post of stage H (2.9 of document 02)

# Post 3 has three depots, of which two cost the same; post 4 has one closing choice; post 5, which no plan with choice 1 of post 2 reaches, has two.
DEPOTS = books.build(4, [1, 2, 3], [
    [(7, [(0, 1), (1, 3)]), (9, [(1, 4)])], [(2, [(0, 2), (1, 2)]), (-3, [(0, 4)])], [(5, [(2, 3)]), (6, [(1, 4)])],
    [(4, []), (1, []), (4, [])], [(6, [])], [(3, []), (-2, [])]])


TIED_DEPOTS = books.build(2, [1, 2], [[(4, [(0, 2)]), (4, [(0, 1), (1, 1)]), (3, [(1, 2)])], [(1, []), (2, []), (1, [])], [(2, []), (1, [])]])


def one_line(*costs, cost=5):
    """H = 1: post 0 leads to post 1, whose depots have these costs."""
    return books.build(1, [1, 1], [[(cost, [(0, 1)])], [(x, []) for x in costs]])


def row_of_depots(posts, counts, scale=None):
    """H = 1: post 0 leads to so many of the last posts; each has so many depots, of costs 0, 1 and so on."""
    scale = scale or posts
    return books.build(scale, [1, len(counts)], [[(1, to_first(scale, posts))]] + [[(c, []) for c in range(n)] for n in counts])


def deep_depots(*costs):
    """DEEP with these closing costs."""
    return books.build(100, [1, 2] + [1] * 6, ref.Book(DEEP).choices[:-1] + [[(x, []) for x in costs]])


def depot_limits():
    """(question, what, book) on both sides of the questions 8 to 13 at stage H."""
    at = books.Places(DEPOTS)
    for n in (1, 2, 7, 8, 9, 16):
        yield 8, '%d depots' % n, one_line(*range(n))
        yield 8, '%d depots at the last post' % n, row_of_depots(2, [1, n])
        yield 8, '%d depots at the first last post' % n, row_of_depots(2, [n, 1])
        yield 8, '%d depots at a post that no plan reaches' % n, row_of_depots(1, [1, n])
    yield 8, 'no depot', books.build(1, [1, 2], [[(5, [(0, 1)])], [(2, [])], []])
    yield 8, '9 choices before stage H and 9 depots', books.build(1, [1, 1], [[(c, [(0, 1)]) for c in range(9)], [(c, []) for c in range(9)]])
    for place in (at.counts[-3], at.counts[-1]):
        yield from each(8, 'word %d, a count of depots:' % place, place, LOW, -1, 0, 1, 2, 3, 4, 8, 9, HIGH, words=DEPOTS)
    for line in (at.last_heads[0], at.last_heads[1], at.last_heads[-1]):
        yield from each(9, 'line %d, r of a depot:' % line, at.left + line, LOW, -1, 1, 6, HIGH, words=DEPOTS)
        yield from each(10, 'line %d, cost of a depot:' % line, at.right + line, LOW, -100001, -100000, 100000, 100001, CLOSED - 1, CLOSED, HIGH, words=DEPOTS)
    yield 9, 'a depot with a line', books.build(1, [1, 1], [[(5, [(0, 1)])], [(2, []), (1, [(0, 1)])]])
    yield 9, 'a line for no depot', with_words(DEPOTS, (at.counts[-1], 1))
    for x in (5000, 5001, -5000, -5001):
        yield 13, 'cost %d of the last of eight depots' % x, deep_depots(*range(7), x)
        far = books.build(100, [1] * 7 + [2], [[(1, [(0, 100)])]] * 7 + [[(1, [])], [(2, []), (x, [])]])
        yield 13, 'cost %d of a depot at a post that no plan reaches' % x, far
        yield 13, 'cost %d of a depot beside a closed one' % x, deep_depots(CLOSED, x)


def depot_list_cases():
    yield 'depots', thorough(DEPOTS, 1, 2, 64)
    yield 'eight depots and H 1', thorough(one_line(3, 9, 1, 4, 1, 5, 9, 2), 1, 7, 8, 9, 64)
    yield 'eight depots that tie', thorough(one_line(*[7] * 8), 1, 5, 8, 64)
    yield 'eight depots, the later ones better', thorough(one_line(*range(0, -8, -1)), 3, 8)
    yield 'the first depot is the best', thorough(one_line(*range(8)), 3, 8)
    yield '64 plans that differ in depots only', thorough(row_of_depots(2, [8, 8]), 63, 64)
    yield '512 plans that differ in depots only', thorough(row_of_depots(3, [8, 8, 8], 7), 64)
    yield '512 plans with depots that tie', thorough(books.with_cost(row_of_depots(3, [8, 8, 8]), [(post, c) for post in (1, 2, 3) for c in range(8)], 6), 64)
    yield 'depots that tie with choices before stage H', thorough(TIED_DEPOTS, 64)
    yield 'sixteen posts with eight depots', thorough(row_of_depots(1, [8] * 16), 1, 64)
    yield 'two of sixteen posts with eight depots', thorough(row_of_depots(2, [8] * 16, 9), 64)
    yield 'depots at a post that no plan reaches', thorough(row_of_depots(1, [1, 8]), 64)
    yield 'depots after a stop', thorough(books.build(3, [1, 2], [[(4, [(0, 1), (1, 1)]), (1, []), (2, [(1, 2)])],
                                                                [(5, []), (-9, [])], [(0, []), (0, []), (8, [])]]), 64)
    yield 'depots of costs at both ends', thorough(one_line(100000, -100000, 99999, -99999, cost=-100000), 64)
    yield 'depots, H 8', thorough(deep_depots(3, 1, 4, 1, 5), 1, 64)


def depot_closed_cases():
    for post, c in books.every_choice(ref.Book(DEPOTS)):
        yield 'depots, and choice %d of post %d closed' % (c, post), every_call(books.close(DEPOTS, [(post, c)]), 3)
    for n in range(8):
        yield 'seven depots of eight closed, all but %d' % n, every_call(books.close(one_line(*range(8)), [(1, c) for c in range(8) if c != n]), 2)
    for posts in ([3], [5], [3, 4], [3, 4, 5]):
        where = [(post, c) for post, c in books.every_choice(ref.Book(DEPOTS)) if post in posts]
        yield 'every depot closed of %s' % ' and '.join(map(str, posts)), every_call(books.close(DEPOTS, where), 3)


def depot_value_cases():
    """Every plan, and each with every byte from 0 to 8 and 255 at each last post."""
    slices = sorted({plan[:post] + (c,) + plan[post + 1:] for plan in ref.plans(ref.Book(DEPOTS)) for post in books.last_posts(ref.Book(DEPOTS))
                     for c in (*range(9), 255)})
    yield 'plans with each depot', book(DEPOTS) + [c for plan in slices for c in value(plan)]
    yield 'no plans of a book with depots', book(DEPOTS) + list(not_plans(DEPOTS))


def depot_order_cases():
    """Nine depots, and another question is answered no too; and the same with eight."""
    for n in (8, 9):
        words = deep_depots(*range(n))
        at = books.Places(words)
        for q, fault in FAULTS.items():
            other = with_words(words, fault(at))
            assert ref.check(other) == (min(q, 8) if n == 9 else q)
            yield '%d depots, and question %d' % (n, q), list(kinds.carried(other, 65, 0, b'1'))
        yield '%d depots, and a word more' % n, list(kinds.carried(words + [0], 65, 0, b'1'))
        yield '%d depots, and K 65' % n, list(kinds.carried(words, 65, 0, b'1'))


def depot_record_cases():
    for bit in (1, 64):
        yield 'the record of a book with depots, each byte with bit %d flipped' % bit, flipped(ref.record(DEPOTS, 3), bit)
    for k in (2, 64):
        yield 'other lists for a book with depots, K %d' % k, list(kinds.forged_lists(DEPOTS, k))
    words = one_line(3, 1, 2)
    listed = ref.ranking(words, 3)
    firsts = [row for row in listed if row[1][1] == 0]
    others = [('the first depot alone', firsts), ('the first depot three times', firsts * 3),
              ('the depots in their order', sorted(listed, key=lambda row: row[1])), ('a depot that is not there', listed[:2] + [(9, (0, 3))]),
              ('no depot', [(cost, (0, 255)) for cost, _ in listed])]
    for name, rows in others:
        content = kinds.as_record(words, 3, len(rows), rows)
        yield 'a list with ' + name, [put(content), accept(len(content))] + show(0, len(content))
    for n in (1, 2, 8, 9):
        record = ref.record(one_line(*range(n)), 64)
        yield 'the record of a book with %d depots' % n, [put(record), accept(len(record))] + [c for j in (0, n - 1, n) for c in show(j, len(record))]
    short = kinds.record_input(random.Random('opening:188'), kinds.WITHOUT_CLOSED)[:BOOK - OUT]
    again = joined(opened(3), ask(0, 1), commit(0), ask(1, 2), opening(short), commit(1), ask(2, 3))
    yield 'desk: an opening with two closing choices and a line for one', again


def largest_with_depots():
    """Eight choices at every post, those of stage H too."""
    return largest_of('largest with depots', [6] * 209 + [2] * 3 + [1] * 228, 10, depots=8)


def largest_with_depots_case():
    words = largest_with_depots()
    with search.instead_of_enumeration():
        return Case('the largest book with depots', thorough(words, 1, 64), True)


# ---- where a plan stands (2.8 of document 02)

def finds(words, counts, slices):
    """Each slice in the list of each K. The slices lie one after the other."""
    ends = [*itertools.accumulate(map(len, slices), initial=OUT)]
    return book(words) + [put(b''.join(map(bytes, slices)))] + [Command('find', *part, k=k) for k in counts for part in zip(ends, ends[1:])]


def plans_of(words):
    return [plan for _, plan in ref.in_order(tuple(words))]


def finds_without_plan(words):
    """What would be the first plans if no choice were closed, and slices that would be none then either."""
    plans = plans_of(books.opened(words))
    return finds(words, (0, 1, 3, 64, 65), [(), (255,) * len(plans[0]), plans[0] + (255,), *plans[:3]])


def every_find(words):
    """Every plan with each K up to two more than the book has plans."""
    plans = plans_of(words)
    return finds(words, range(1, len(plans) + 3), plans) if plans else finds_without_plan(words)


def tour_finds():
    """The books of the tours, with their K or 3: every plan, and the slice of tour 6."""
    for tour, call, arguments, _ in tours.TABLE:
        if call in ('rank', 'check'):
            words, k = (*arguments, 3)[:2]
            yield 'find: tour %d' % tour, finds(words, (k,), [(0, 0, 0, 0), *([] if ref.check(words) else plans_of(words))])


def find_limits(rows):
    """On both sides of the questions of a book and of K. Of a book that is accepted the first plans too."""
    for question, what, words in rows:
        listed = [] if ref.check(words) else plans_of(words)[:3]
        yield 'find, question %d: %s' % (question, what), finds(words, (2, 65), [(), (0,) * posts_of(words), *listed])


def find_limit_rows():
    at, deep = books.Places(SMALL), books.Places(DEEP)
    yield from (*size_limits(at), *line_limits(at), *word_limits(at, deep))
    yield from (row for row in row_limits() if row[1].endswith('of 4'))
    yield from (row for row in closed_costs() if row[0] == 10)
    yield from (row for row in depot_limits() if row[0] == 8)


def find_order_cases():
    """Of the questions that are answered no the first counts: one of the book, 14, 28, and last 17."""
    plan = plans_of(DEEP)[0]
    for name, words in (('a plan', DEEP), ('no plan', books.close(DEEP, [(0, 0), (0, 1)]))):
        at = books.Places(words)
        others = [with_words(words, fault(at)) for fault in FAULTS.values()] + [words[:2], words[:3 + at.stages], words + [0]]
        assert {ref.check(other) for other in others} == {*range(1, 14)}
        for other in others:
            yield 'find: a book with %s, and question %d' % (name, ref.check(other)), finds(other, (0, 1, 65), [plan, ()])
        yield 'find: a book with %s, each K' % name, finds(words, COUNTS, [plan, plan[:-1], ()])


def find_books():
    """(what, book): small ones, each plan of which is found with each K."""
    yield from (('A', tours.book_a()), ('A, closing 8', tours.book_a(closing=8)), ('A, cost -10', tours.book_a(cost=-10)), ('A, D 3', tours.book_a(scale=3)),
                ('C', tours.book_c()), ('C, D 2', with_words(tours.book_c(), (0, 2))), ('tour 10', tours.book_of_tour_10(44)))
    yield from (('a book with stops', STOPS), ('a book with closed choices', SHUT), ('a book with depots', DEPOTS))
    yield 'a book with posts that some or all plans do not reach', far_posts()
    yield from (('%d plans that tie' % (n * n), chain(n, n)) for n in (2, 3))
    yield 'four costs, each of several plans', chain(4, 4, cost=lambda choice: choice // 2)
    yield 'a stop, a sure stop and a full plan that tie', one_post(2, *TIED_WAYS)
    yield 'a full plan, a sure stop and a stop that tie', one_post(2, *reversed(TIED_WAYS))
    yield 'plans that all cost 0, many of them with stops', row_of_posts(2, *[[(0, 1), (0, 0), (0, 2)]] * 2)
    yield 'eight depots', one_line(3, 9, 1, 4, 1, 5, 9, 2)
    yield 'eight depots that tie', one_line(*[7] * 8)
    yield 'nine plans that differ in depots only', row_of_depots(2, [3, 3])
    yield 'depots that tie with choices before stage H', TIED_DEPOTS
    for name, words in (('', SMALL), (', in a book with stops', STOPS), (', in a book with depots', DEPOTS)):
        for post, c in books.every_choice(ref.Book(words)):
            yield 'choice %d of post %d closed%s' % (c, post, name), books.close(words, [(post, c)])
    yield from (('every choice of stage %d of 2 closed' % n, books.close(STOPS, of_stage(STOPS, n))) for n in range(3))


def last_of_64():
    """64 posts of which a plan reaches the last one of each stage; plans differ at post 63 alone, in depots that tie."""
    sizes = [1, 15, 16, 16, 16]
    rows = [[(1, [(sizes[n + 1] - 1, 3)])] for n in range(4) for _ in range(sizes[n])] + [[(1, [])]] * 15 + [[(2, [])] * 8]
    return books.build(3, sizes, rows)


def widest():
    """D = 100, H = 7: costs from -4 × 10^18 to 4 × 10^18, as far apart as any."""
    return books.build(100, [1] * 8, [[(-5000, [(0, 100)]), (5000, [(0, 100)])]] * 7 + [[(-5000, []), (5000, [])]])


def find_cases():
    for what, words in find_books():
        yield 'find: ' + what, every_find(words)
    yield 'find: costs at both ends', finds(both_ends(), (1, 6, 7, 26, 27, 28, 64), plans_of(both_ends()))
    yield 'find: 64 plans that tie', finds(chain(8, 8), (1, 8, 9, 63, 64), plans_of(chain(8, 8)))
    for name, words in (('that tie', chain(8, 8, 8)), ('of few costs', chain(8, 8, 8, cost=lambda choice: choice % 2))):
        plans = plans_of(words)
        yield 'find: 512 plans ' + name, finds(words, (1, 63, 64), plans[60:68] + plans[::33] + plans[-1:])
    yield 'find: ties at post 63', every_find(last_of_64())
    yield 'find: amounts up to the largest', finds(widest(), (1, 64), plans_of(widest())[::15])
    for name, words in (('A', tours.book_a()), ('C', tours.book_c()), ('a book with stops', STOPS), ('a book with closed choices', SHUT),
                        ('a book with depots', DEPOTS)):
        yield 'find: no plans of ' + name, finds(words, (1, 64), [*bent_slices(words)])
    yield 'find: slices with closed choices', finds(SHUT, (1, 3, 64), [*ref.plans(ref.Book(books.opened(SHUT)))])


def largest_find_cases():
    """The largest book with depots, and the same with one cost for all choices, so that all plans tie."""
    any_cost = largest_with_depots()
    one_cost = books.with_cost(any_cost, books.every_choice(ref.Book(any_cost)), 7)
    for name, words in (('the largest book', any_cost), ('the largest book, all plans tie', one_cost)):
        rng = random.Random(name)
        with search.instead_of_enumeration():
            listed = [plan for _, plan in ref.ranking(words, 64)]
        slices = [listed[j] for j in (0, 1, 31, 32, 62, 63)] + [books.random_plan(rng, ref.Book(words)) for _ in range(3)] + [listed[63][:-1]]
        yield Case('find: ' + name, finds(words, (1, 32, 63, 64), slices), True)


# ---- limits of marked choices (2.10 of document 02)

MOSTS = (*range(12), 255, 256, 2 ** 31, 2 ** 32 - 1, 2 ** 32, 2 ** 32 + 9, 2 ** 63, 2 ** 64 - 1)


def limited(words, counts, rows):
    """Each (marks, m) in the list of each K. m and the marks lie one row after the other."""
    parts = [machine.limit_bytes(*row) for row in rows]
    ends = [*itertools.accumulate(map(len, parts), initial=OUT)]
    return book(words) + [put(b''.join(parts))] + [Command('limit', *part, k=k) for k in counts for part in zip(ends, ends[1:])]


def marks_at(words, where):
    """1 for each of these choices, 0 for every other."""
    return [int(place in where) for place in books.every_choice(ref.Book(words))]


def all_marks(words, mark=1):
    return [mark] * sum(ref.Book(words).counts)


def all_ms(*rows):
    """Each row of marks with m from 0 to 9."""
    return [(marks, m) for marks in rows for m in range(10)]


def near_end(words):
    """K of 1, about as many as the book has plans, and 64."""
    n = len(plans_of(words))
    return sorted({1, max(1, n - 1), n, n + 1, 64} - {*range(65, n + 2)})


# The maintenance example of source document 000. Posts 1 and 2 of the first stage, 3 to 5 of the second and 6 to 8 of the third are good, average and, from the
# second on, not working; choice 0 of each is to maintain, which leads to a good machine. A post that does not work may stop surely.
def maintenance():
    rows = [[(100, [(0, 7), (1, 3)])]]
    for good, last in ((6, True), (5, False), (2, False)):
        worse = [[(-55, [(0, 10)]), (-70, [(0, good), (1, 10 - good)])], [(-40, [(0, 10)]), (-50, [(1, good), (2, 10 - good)])]]
        rows += worse + ([] if last else [[(-30, [(0, 10)]), (-5, [])]])
    return books.build(10, [1, 2, 3, 3, 3], rows + [[(-30, [])], [(-10, [])], [(-5, [])]])


MAINTAIN = {(post, 0) for post in range(1, 9)}

# A climb at each stage: choice 0 of each post is the cheaper one, and is marked.
CLIMBS = chain(2, 2, 2, cost=lambda choice: choice)
CLIMB = {(post, 0) for post in range(3)}


def limit_books():
    """(what, book): small ones, each choice of which is marked alone."""
    yield from (('A', tours.book_a()), ('C', tours.book_c()), ('a small book', SMALL), ('a book with stops', STOPS), ('a book with closed choices', SHUT),
                ('a book with depots', DEPOTS), ('a book with posts that some or all plans do not reach', far_posts()),
                ('a stop, a sure stop and a full plan that tie', one_post(2, *TIED_WAYS)), ('eight depots', one_line(3, 9, 1, 4, 1, 5, 9, 2)),
                ('depots that tie with choices before stage H', TIED_DEPOTS))
    for name, words in ((', in a book with stops', STOPS), (', in a book with depots', DEPOTS)):
        yield from (('choice %d of post %d closed%s' % (c, post, name), books.close(words, [(post, c)])) for post, c in books.every_choice(ref.Book(words))
                    if plans_of(books.close(words, [(post, c)])))


def limit_book_cases():
    """No marks; all; each choice alone, and all but that one."""
    for what, words in limit_books():
        every, stages = books.every_choice(ref.Book(words)), words[1]
        rows = [(all_marks(words, 0), m) for m in (0, 9)] + [(all_marks(words), m) for m in (*range(stages + 2), 9)]
        rows += [(marks_at(words, {place}), 0) for place in every]
        rows += [(marks_at(words, {*every} - {place}), m) for place in every for m in range(stages + 1)]
        yield 'limit: ' + what, limited(words, near_end(words), rows)


def limit_fault_cases():
    """29: m, the values and the length of the marks, on both sides; in a list where the marks are kept and in one where they are not."""
    for name, words in (('C', tours.book_c()), ('a book with stops', STOPS), ('a book with closed choices', SHUT), ('a book with depots', DEPOTS)):
        none, every = all_marks(words, 0), all_marks(words)
        n = len(every)
        yield 'limit: each m for %s' % name, limited(words, (1, 64), [(marks, m) for marks in (none, every) for m in MOSTS])
        values = [(marks[:at] + [x] + marks[at + 1:], 9) for marks in (none, every) for at in range(n) for x in (2, 3, 127, 128, 255)]
        yield 'limit: marks of %s that are no 0 and no 1' % name, limited(words, (3,), values)
        lengths = [([mark] * length, m) for mark, m in ((0, 0), (1, 9)) for length in (0, 1, n - 2, n - 1, n, n + 1, n + 2, 2 * n, 4 * n, 255, 256, 512, 513)]
        yield 'limit: marks of %s that are too few or too many' % name, limited(words, (3,), lengths)


def limit_stop_cases():
    """The choice after which a day stops counts, as does each before it; what the day would have come to does not."""
    end = row_of_posts(2, [(3, 1)], [(2, 0)], [(5, 2)])    # it may stop at post 0, and stops surely at post 1
    yield 'limit: a sure stop at post 1', limited(end, (1, 2), [(marks_at(end, where), m) for m in range(3) for where in
                                                                ({(0, 0)}, {(1, 0)}, {(2, 0)}, {(3, 0)}, {(0, 0), (1, 0)}, {(1, 0), (2, 0), (3, 0)})])
    ways = row_of_posts(2, [(3, 2), (4, 0)], [(-2, 1), (0, 0)], [(5, 0), (4, 2)])    # each post stops surely, may stop, or goes on
    every = books.every_choice(ref.Book(ways))
    pairs = [(marks_at(ways, {*pair}), m) for pair in itertools.combinations(every, 2) for m in (0, 1)]
    yield 'limit: two marks where each post may stop', limited(ways, (1, 2, 64), pairs)
    sure = row_of_posts(2, [(3, 0), (4, 0)], [(-2, 0)], [(5, 0)])
    yield 'limit: every choice stops surely', limited(sure, (1, 2, 3), all_ms(all_marks(sure), marks_at(sure, {(0, 0)}), marks_at(sure, {(0, 1)})))
    seldom = books.build(100, [1, 2, 1], [[(1, [(0, 98), (1, 1)]), (9, [(0, 100)])], [(2, [(0, 100)])], [(2, [(0, 100)])], [(0, [])]])
    rare = {(0, 0), (2, 0)}    # two on one day in a hundred
    yield 'limit: one day in a hundred', limited(seldom, (1, 2, 3), all_ms(marks_at(seldom, rare), marks_at(seldom, rare | {(0, 1), (1, 0)})))


def limit_place_cases():
    """Marks that count, and marks that do not: at stage H, at closed choices, at posts that a plan or that no plan reaches."""
    last = books.last_posts(ref.Book(DEPOTS))
    depots = [place for place in books.every_choice(ref.Book(DEPOTS)) if place[0] in last]
    sets = [{*row} for n in (1, 2, len(depots)) for row in itertools.combinations(depots, n)]
    yield 'limit: marked depots', limited(DEPOTS, (1, 3, 64), [(marks_at(DEPOTS, where), m) for where in sets for m in (0, 1)])
    closed = {*books.closures(SHUT)}
    opened_ = {*books.every_choice(ref.Book(SHUT))} - closed
    yield 'limit: marks at closed choices alone, and at open ones alone', limited(SHUT, (1, 2, 64), all_ms(marks_at(SHUT, closed), marks_at(SHUT, opened_)))
    far = far_posts()
    far_away = {place for place in books.every_choice(ref.Book(far)) if place[0] in (3, 5)}
    yield 'limit: marks at posts that no plan reaches', limited(far, (1, 2, 64), all_ms(marks_at(far, far_away), marks_at(far, {(1, 0), (1, 1)})))
    sixty_four = last_of_64()
    rows = [(marks_at(sixty_four, {(63, c) for c in range(n)}), 0) for n in range(9)]
    yield 'limit: marks at the depots of post 63', limited(sixty_four, range(1, 10), rows)


def limit_list_cases():
    """Every rank, the end of the list, and all plans listed."""
    for k in (7, 8, 9, 64):
        yield 'limit: 8 plans, K %d' % k, limited(CLIMBS, (k,), all_ms(marks_at(CLIMBS, CLIMB), all_marks(CLIMBS)))
    yield 'limit: 8 plans, each K', limited(CLIMBS, range(1, 11), [(marks_at(CLIMBS, CLIMB), m) for m in range(4)])
    yield 'limit: 4 plans that tie, each K', limited(chain(2, 2), range(1, 7), [(marks_at(chain(2, 2), where), m) for m in range(2) for where in
                                                                             ({(0, 0)}, {(1, 0)}, {(0, 0), (1, 0)}, {(0, 1), (1, 1)}, {(0, 0), (0, 1)})])
    row = chain(8, 8)
    places = [marks_at(row, {(0, c) for c in range(i)} | {(1, c) for c in range(j)}) for i in range(0, 9, 2) for j in range(0, 9, 3)]
    yield 'limit: 64 plans that tie', limited(row, (1, 8, 32, 63, 64), [(marks, 0) for marks in places])
    many = chain(8, 8, 8, cost=lambda choice: choice)
    low = [marks_at(many, {(post, c) for post in range(3) for c in range(n)}) for n in range(9)]
    yield 'limit: 512 plans, the cheaper choices marked', limited(many, (1, 32, 64), [(marks, m) for marks in low for m in range(4)])
    one = one_choice(2, [1, 2, 2])
    yield 'limit: one plan', limited(one, (1, 2, 64), all_ms(all_marks(one), all_marks(one, 0)))
    deep = tours.book_of_tour_10(44)
    nine = [marks_at(deep, {(post, 0) for post in range(n)}) for n in range(10)]
    yield 'limit: up to nine marked choices a day', limited(deep, (1, 2), all_ms(*nine))


def maintenance_cases():
    words = maintenance()
    marks = marks_at(words, MAINTAIN)
    for k in (9, 10, 64):
        yield 'limit: the maintenance example, K %d' % k, limited(words, (k,), all_ms(marks))
    yield 'limit: the maintenance example, each K, at most one', limited(words, range(1, 13), [(marks, 1)])
    rest = [int(not mark) for mark in marks]
    yield 'limit: the maintenance example, all but maintaining', limited(words, (1, 12, 64), all_ms(rest, all_marks(words)))


def limit_order_cases():
    """Of the questions that are answered no the first counts: one of the book, 14, 28, and last 29."""
    for name, words in (('a plan', DEEP), ('no plan', books.close(DEEP, [(0, 0), (0, 1)]))):
        at, n = books.Places(words), len(all_marks(words))
        rows = [([0] * n, 0), ([1] * n, 10), ([2] * n, 0), ([], 2 ** 63)]
        others = [with_words(words, fault(at)) for fault in FAULTS.values()] + [words[:2], words[:3 + at.stages], words + [0]]
        assert {ref.check(other) for other in others} == {*range(1, 14)}
        yield 'limit: books with %s, and each question from 1 to 13' % name, joined(*(limited(other, (0, 1, 65), rows) for other in others))
        yield 'limit: a book with %s, each K' % name, limited(words, COUNTS, rows)


def limit_rows():
    """On both sides of the questions that changed last: 9 by rows and 8 by depots."""
    yield from (row for row in row_limits() if row[1].endswith('of 4'))
    yield from (row for row in depot_limits() if row[0] == 8 and 'depots' == row[1].split()[1] and row[1].split()[0] in ('1', '2', '8', '9'))


def limit_question_cases():
    for question, what, words in limit_rows():
        marks = all_marks(words) if ref.check(words) == 0 else [1]
        yield 'limit, question %d: %s' % (question, what), limited(words, (2,), [(marks, 0), (marks, 9), (marks + [0], 9)])


def largest_limit_case():
    """The largest book with depots, each post's first choices marked, or all, or any."""
    words, rng = largest_with_depots(), random.Random('limit')
    first_ones = [marks_at(words, {(post, c) for post in range(64) for c in range(n)}) for n in (1, 3, 5)]
    some = [[rng.randrange(2) for _ in range(512)] for _ in range(2)]
    rows = [(marks, m) for marks in first_ones + some for m in (0, 2, 3, 4, 5, 6, 9)] + [([1] * 512, 8), ([1] * 512, 9), ([1] * 511, 9), ([1] * 513, 9)]
    return Case('limit: the largest book', limited(words, (1, 63, 64), rows), True)


# ---- small books by going through them (2.11 of document 02)

LIMIT = ref.MOST_SMALL
ROOMS = (0, 0), (-1, 0), (-1, -1), (0, -1), (0, 1), (1, 0), (1, 9)    # beside K costs and K plans


def both(words, *calls):
    """Each call, as (K, costs, bytes), by going through all plans and by the main engine, each in a place of its own."""
    out, at = book(words), OUT
    for k, places, room in calls:
        for call in (rank_small, rank):
            out.append(call(k, places, room, at))
            at += room
    assert at <= BOOK
    return out


def both_lists(words, *counts):
    """The list of each K, in rooms that are one longer."""
    posts = ref.Book(words).posts
    return both(words, *((k, k + 1, k * posts + 1) for k in counts))


def in_rooms(words, k):
    """Rooms that fit, that are one short, and that are longer."""
    size = k * ref.Book(words).posts
    return both(words, (k, 0, 0), (k, 0, size), (k, k, 0), *((k, k + costs, size + room) for costs, room in ROOMS))


def small_tours():
    """Those that rank, and the book of tour 10 with K = 3."""
    for tour, call, arguments, _ in tours.TABLE:
        if call == 'rank' or (tour, call) == (10, 'check'):
            words, k = (*arguments, 3)[:2]
            yield 'small: tour %d' % tour, both(words, (k, k, k * posts_of(words)) if k <= 64 else (k, 3, 9))


def small_book_cases():
    """Each K near the number of plans."""
    for what, words in limit_books():
        yield 'small: ' + what, both_lists(words, *near_end(words))


# DEEP with eight choices at each of the posts 1 to 4: 8 × 8 × 8 × 8 plans with choice 0 of post 0, and 8 × 8 × 8 with choice 1.
MANY = books.build(100, [1, 2] + [1] * 6, ref.Book(DEEP).choices[:1] + [[(1, [(0, 100)])] * 8] * 4 + [[(1, [(0, 100)])]] * 3 + [[(2, [])]])


def small_order_cases():
    """Of the questions that are answered no the first counts: one of the book, 14, 28, 30, 15, and last 16."""
    for name, words in (('one plan or two', DEEP), ('no plan', books.close(DEEP, [(0, 0), (0, 1)])), ('more than 4,096 plans', MANY),
                        ('more than 4,096 plans if none were closed', books.close(MANY, of_stage(MANY, 7)))):
        at, size = books.Places(words), ref.Book(words).posts
        others = [with_words(words, fault(at)) for fault in FAULTS.values()] + [words[:2], words[:3 + at.stages], words + [0]]
        assert {ref.check(other) for other in others} == {*range(1, 14)}
        calls = (0, 0, 0), (1, 0, 0), (1, 1, size), (65, 1, size)
        yield 'small: books with %s, and each question from 1 to 13' % name, joined(*(both(other, *calls) for other in others))
        yield 'small: a book with %s, each K' % name, both(words, *((k, *room) for k in COUNTS for room in ((0, 0), (2, 2 * size))))
        yield 'small: a book with %s, each room' % name, in_rooms(words, 3)


def small_question_cases():
    for question, what, words in limit_rows():
        posts = posts_of(words)
        yield 'small, question %d: %s' % (question, what), both(words, (2, 2, 2 * posts), (2, 1, 2 * posts), (2, 2, 2 * posts - 1))


def by_four(total, cost=lambda post, choice: 0):
    """One post a stage: four choices lead on and up to three stop surely, so that a post has four times the plans of the next one and up to three more."""
    rows = []
    while total > books.MOST_CHOICES:
        rows.append([2] * 4 + [0] * (total % 4))
        total //= 4
    rows.append([2] * total)
    return row_of_posts(2, *([(cost(post, c), weight) for c, weight in enumerate(row)] for post, row in enumerate(rows)))


def near_limit():
    """(what, book): as many plans as are allowed, one less and one more."""
    for total in (LIMIT - 1, LIMIT, LIMIT + 1):
        for what, flags in (('', {}), (', stops', {'stops': True}), (', closed choices', {'closed': True}), (', depots', {'depots': True}),
                            (', all of them', {'stops': True, 'closed': True, 'depots': True}), (', one cost', {'tied': True}),
                            (', closed choices, depots, one cost', {'closed': True, 'depots': True, 'tied': True})):
            yield '%d plans%s' % (total, what), books.exactly(random.Random('near %d%s' % (total, what)), total, **flags)
        yield '%d plans, sure stops, all of them tie' % total, by_four(total)
        yield '%d plans, sure stops, the later ones better' % total, by_four(total, lambda post, choice: -choice * 5 ** (6 - post))
    yield '4097 plans, one of them closed', books.close(by_four(LIMIT + 1), [(0, 4)])
    yield '8 × 8 × 8 × 8 plans of few costs', chain(8, 8, 8, 8, cost=lambda choice: choice % 3 - 1)


def near_limit_cases():
    for what, words in near_limit():
        yield 'small: ' + what, both_lists(words, 1, 3, 64)
    for total in (LIMIT, LIMIT + 1):
        yield 'small: %d plans, each room' % total, in_rooms(by_four(total), 64)


def small_list_cases():
    yield 'small: each K where plans of four costs tie', both_lists(chain(4, 4, cost=lambda choice: choice // 2), *range(1, 19))
    yield 'small: 64 plans that tie', both_lists(chain(8, 8), 1, 63, 64)
    yield 'small: 512 plans of few costs', both_lists(chain(8, 8, 8, cost=lambda choice: choice % 2), 32, 63, 64)
    tied = books.with_cost(row_of_depots(3, [8, 8, 8]), [(post, c) for post in (1, 2, 3) for c in range(8)], 6)
    yield 'small: 512 plans with depots that tie', both_lists(tied, 64)
    yield 'small: ties at post 63', both_lists(last_of_64(), *range(1, 11))
    yield 'small: costs at both ends', both_lists(both_ends(), 1, 26, 27, 28, 64)
    yield 'small: amounts up to the largest', both_lists(widest(), 1, 64)
    yield 'small: one plan', both_lists(one_choice(2, [1, 2, 2]), 1, 2, 64)
    yield 'small: the maintenance example', both_lists(maintenance(), 1, 12, 64)


def largest_small_cases():
    """Where K costs and K plans fit, and where nothing does. Their lists are stored above."""
    for name, words in (('', largest()), (' with stops', largest_with_stops()), (' with closed choices', largest_with_closed()),
                        (' without a plan', largest_without_plan()), (' with depots', largest_with_depots())):
        yield Case('small: the largest book' + name, book(words) + [rank_small(1, 0, 0), rank_small(64, 64, 4096)], True)


# ---- all of them

DRAWN = {'small': 6, 'deep': 2, 'wide': 1, 'ties': 5, 'few': 3, 'unreached': 3, 'crossing': 6, 'many': 1, 'edge': 2, 'full': 1, 'faults': 6, 'noise': 8}
DRAWN_STOPS = {'stops': 3, 'post_0_stops': 1, 'stops_deep': 1, 'stops_each_stage': 1, 'stops_everywhere': 1, 'stops_edge': 2, 'stops_unreached': 1,
               'sure_stops': 1, 'stops_barely': 1, 'stops_and_ties': 2, 'stops_and_gains': 1, 'stops_wide': 1, 'stops, faults': 3}
DRAWN_ROWS = {'six': 2, 'stops_six': 2, 'seven': 6}
DRAWN_DESKS = {'desk': 10}
DRAWN_TABLES = {'convert': 24}
DRAWN_CLOSED = {'closed': 6, 'closed_last': 3, 'closed_stage': 3, 'all_closed': 1, 'closed_unreached': 2, 'one_plan': 3, 'dead_ends': 6, 'closed_and_ties': 4,
                'closed_wide': 2, 'closed_deep': 3, 'closed_edge': 5, 'closed, faults': 12, 'desk, closed': 4}
DRAWN_DEPOTS = {'depots': 6, 'depots_eight': 3, 'depots_alone': 3, 'depots_and_ties': 5, 'depots_closed': 5, 'depots_unreached': 2, 'depots_wide': 2,
                'depots_edge': 5, 'nine': 5, 'depots, faults': 10, 'desk, depots': 3}
DRAWN_FIND = {'find': 40, 'find, faults': 6, 'find, vast': 1}
DRAWN_LIMIT = {'limit': 40, 'limit, faults': 6, 'limit, vast': 1}
DRAWN_SMALL = {'rank small': 20, 'rank small, faults': 3, 'rank small, near': 2, 'rank small, vast': 3}


def made(*groups):
    return [Case(title, commands) for group in groups for title, commands in group]


def drawn(counts, start=0):
    names = [name for name, count in counts.items() for _ in range(count)]
    return [kinds.make('stored', start + n, name) for n, name in enumerate(names)]


def stored():
    cases = made(tour_cases(), limit_cases(), order_cases(), lent_cases(), list_cases(), record_cases(), page_cases(), power_cases()) + [largest_case()]
    cases += drawn(DRAWN)
    cases += made(rows_of_tours(tours.MORE_ROWS), place_cases(), limits(stop_limits()), stop_order_cases(), stop_list_cases()) + [largest_with_stops_case()]
    cases += drawn(DRAWN_STOPS, sum(DRAWN.values()))
    cases += made(limits(row_limits()), row_order_cases(), row_record_cases())
    cases += drawn(DRAWN_ROWS, sum(DRAWN.values()) + sum(DRAWN_STOPS.values()))
    cases += made(desk_cases())
    cases += drawn(DRAWN_DESKS, sum(DRAWN.values()) + sum(DRAWN_STOPS.values()) + sum(DRAWN_ROWS.values()))
    cases += made(table_cases())
    cases += drawn(DRAWN_TABLES, sum(sum(counts.values()) for counts in (DRAWN, DRAWN_STOPS, DRAWN_ROWS, DRAWN_DESKS)))
    cases += made(limits([*closed_costs(), *closed_lines(), *closed_bounds()]), closed_list_cases(), closed_value_cases(), closed_order_cases(),
                  closed_record_cases()) + [*largest_with_closed_cases()]
    cases += drawn(DRAWN_CLOSED, sum(sum(counts.values()) for counts in (DRAWN, DRAWN_STOPS, DRAWN_ROWS, DRAWN_DESKS, DRAWN_TABLES)))
    cases += made(limits(depot_limits()), depot_list_cases(), depot_closed_cases(), depot_value_cases(), depot_order_cases(), depot_record_cases())
    cases += [largest_with_depots_case()]
    cases += drawn(DRAWN_DEPOTS, sum(sum(counts.values()) for counts in (DRAWN, DRAWN_STOPS, DRAWN_ROWS, DRAWN_DESKS, DRAWN_TABLES, DRAWN_CLOSED)))
    cases += made(tour_finds(), find_limits(find_limit_rows()), find_order_cases(), find_cases()) + [*largest_find_cases()]
    before = DRAWN, DRAWN_STOPS, DRAWN_ROWS, DRAWN_DESKS, DRAWN_TABLES, DRAWN_CLOSED, DRAWN_DEPOTS
    cases += drawn(DRAWN_FIND, sum(sum(counts.values()) for counts in before))
    cases += made(limit_book_cases(), limit_fault_cases(), limit_stop_cases(), limit_place_cases(), limit_list_cases(), maintenance_cases(),
                  limit_order_cases(), limit_question_cases()) + [largest_limit_case()]
    cases += drawn(DRAWN_LIMIT, sum(sum(counts.values()) for counts in (*before, DRAWN_FIND)))
    cases += made(small_tours(), small_book_cases(), small_order_cases(), small_question_cases(), near_limit_cases(), small_list_cases())
    cases += largest_small_cases()
    cases += drawn(DRAWN_SMALL, sum(sum(counts.values()) for counts in (*before, DRAWN_FIND, DRAWN_LIMIT)))
    cases += made(('desk: ' + title, calls) for title, calls in filled_with_nothing())
    return [case._replace(title='%d %s' % (n, case.title)) for n, case in enumerate(cases)]


def main(args):
    if args[:1] == ['show']:
        seed, n = args[1], int(args[2])
        sys.stdout.write(machine.describe(stored()[n] if seed == 'stored' else kinds.fresh(seed, n)))
        return
    folder = os.path.join(os.path.dirname(os.path.abspath(__file__)), '..', 'crates', 'cases')
    cases = stored()
    with open(os.path.join(folder, 'stdin'), 'wb') as f:
        f.write(machine.encoded(cases))
    with open(os.path.join(folder, 'stdout'), 'w') as f:
        f.write(machine.expected(cases))
    print('%d cases' % len(cases))


if __name__ == '__main__':
    main(sys.argv[1:])
