"""Random cases of many kinds, for fresh.py and programs.py; cases.py stores a few of them. Case N of a seed is drawn from these two only."""

import collections
import random

import books
import desk
import machine
import reference as ref
import rewards
import search
import tables
from machine import (BOOK, OUT, Case, Command, accept, ask, book_bytes, cancel, commit, convert, fill, find, head, limit, opening, page, put, rank, rank_small,
                     show, value, write)

MOST_INPUT = machine.PLACES - BOOK + 4
MOST_ROOM = (BOOK - OUT) // 4    # words before the place of books


def some_count(rng, plans):
    """K: small, near the number of plans, or any."""
    return max(1, min(64, rng.choice([1, 2, 3, rng.randint(1, 12), rng.randint(1, 64), 64, plans - 1, plans, plans + 1])))


def bad_count(rng):
    return rng.choice([0, 65, 66, 255, 256, 2 ** 31, 2 ** 32 - 1, 2 ** 32, 2 ** 32 + 3, 2 ** 63, 2 ** 64 - 1])


# ---- books that are accepted

def values(rng, words):
    """Some plans of the book, and slices that are none."""
    listed = ref.in_order(tuple(words))
    for _ in range(rng.randint(1, 3)):
        yield from value(rng.choice(listed)[1])
    for _ in range(rng.randint(1, 2)):
        yield from value(books.bent_plan(rng, words, rng.choice(listed)[1]))
    if books.closures(words):
        yield from any_choices(rng, words)


def any_choices(rng, words):
    """Slices that would be plans if no choice were closed."""
    for _ in range(3):
        yield from value(books.random_plan(rng, ref.Book(words)))


def some_rank(rng, k, posts):
    """Rooms that fit, or that are one short, or longer."""
    return rank(k, max(0, k + rng.choice([0, 0, 0, 1, 3, -1])), max(0, k * posts + rng.choice([0, 0, 0, 1, 5, -1])))


def changed_bytes(rng, record, words, k):
    """Bytes of a record to change, from each of its parts: (place, new byte)."""
    w = len(words)
    parts = [(0, 4), (4, 8), (8, 12), (12, 12 + 4 * w), (12 + 4 * w, 12 + 4 * w + 8 * k), (12 + 4 * w + 8 * k, len(record))]
    for _ in range(rng.randint(2, 5)):
        low, high = rng.choice(parts)
        at = rng.randrange(low, high)
        yield at, rng.choice([record[at] ^ 1 << rng.randrange(8), (record[at] + 1) % 256, (record[at] - 1) % 256, rng.randrange(256)])


def carried_feasible(record):
    w = int.from_bytes(record[:4], 'little')
    return w > ref.LONGEST_BOOK or books.feasible(ref.words_of(record[12:12 + 4 * w]))


def record_changes(rng, words, most):
    """The record's bytes changed, one place at a time, each put back after it is asked; then other lengths."""
    record = ref.record(words, most)
    k, n = int.from_bytes(record[8:12], 'little'), len(record)
    changes = list(changed_bytes(rng, record, words, k))
    changes += [(at, rng.choice([0, 1, now - 1, now + 1, k, k + 1, 64, 65, 255]) % 256) for at, now in ((4, most), (8, k))]
    for at, x in changes:
        other = bytearray(record)
        other[at] = x
        if carried_feasible(other):
            yield from (put([x], OUT + at), accept(n))
            yield from show(rng.randrange(k), n) if rng.random() < 0.3 else ()
            yield put([record[at]], OUT + at)
    sizes = [0, 11, 12, 12 + 4 * len(words) - 1, 12 + 4 * len(words), n - 1, n + 1, n + 8, rng.randrange(n)]
    yield from (accept(size) for size in rng.sample(sizes, 2))


def good(rng, words):
    """All calls on a book, where ranking needs no enumeration that is too long."""
    yield from machine.book(words)
    yield from (Command('check'), Command('least'))
    if ref.check(words):
        return
    posts, listed = ref.Book(words).posts, ref.in_order(tuple(words))
    if not listed:
        yield from without_plan(rng, words)
        return
    yield from values(rng, words)
    yield some_rank(rng, some_count(rng, len(listed)), posts)
    most = some_count(rng, len(listed))
    n = len(ref.record(words, most))
    if rng.random() < 0.2:
        yield from (write(most, n - 1), accept(n - 1))
    yield from (write(most, n + rng.choice([0, 0, 1, 30])), accept(n))
    k = min(most, len(listed))
    for j in sorted({0, rng.randrange(k), k, rng.choice([k - 1, k + 1, 2 ** 32, 2 ** 64 - 1])}):
        yield from show(j, n)
    yield from record_changes(rng, words, most)


def without_plan(rng, words):
    """All calls on an accepted book that has no plan: with any count, in slices that are long enough and that are not, and a record with any k, whose length
    fits it or does not."""
    posts, most, k = ref.Book(words).posts, rng.choice([1, 2, 3, 64, rng.randint(1, 64), bad_count(rng)]), rng.randrange(3)
    tail = bytes(rng.randrange(256) for _ in range(k * (8 + posts) + rng.choice([0, 0, 1, 8])))
    yield from carried(words, most, k, tail)
    yield from any_choices(rng, words)
    most = rng.randint(1, 64)
    yield from (some_rank(rng, most, posts), write(most, rng.choice([0, 11, 12 + 4 * len(words), 12 + 4 * len(words) + most * (8 + posts)])))


def vast_book(rng):
    return rng.choice([books.vast, books.stops_vast, books.closed_vast, books.depots_vast])(rng)


def vast(rng):
    """All calls on a book that has too many plans to enumerate."""
    words = vast_book(rng)
    most = rng.choice([64, 64, rng.randint(2, 63)])
    with search.instead_of_enumeration():
        listed, record = ref.ranking(words, most), ref.record(words, most)
    n = len(record)
    yield from machine.book(words)
    yield from (Command('check'), Command('least'), rank(most, most, most * 64))
    if books.closures(words):
        yield from any_choices(rng, words)
    if not listed:
        yield from without_plan(rng, words)
        return
    for plan in (listed[-1][1], rng.choice(listed)[1], books.bent_plan(rng, words, listed[0][1])):
        yield from value(plan)
    yield from (write(most, n), accept(n))
    yield from show(len(listed) - 1, n) + show(len(listed), n)
    for _ in range(3):
        at = rng.randrange(12 + 4 * len(words), n)
        yield from (put([record[at] ^ 1], OUT + at), accept(n), put([record[at]], OUT + at))
    yield accept(n - 1)


def bad_counts(rng):
    """A good book with counts that are not allowed, and rooms that are short too."""
    words = books.draw(rng, rng.choice(books.ALL_SHAPES))
    yield from machine.book(words)
    posts = 3 if ref.check(words) else ref.Book(words).posts
    for _ in range(3):
        k = bad_count(rng)
        yield from (rank(k, rng.choice([0, 70]), rng.choice([0, 4300])), write(k, rng.choice([0, 900])))
    k = rng.randint(1, 64)
    yield from (rank(k, k - 1, rng.choice([0, k * posts])), rank(k, k, k * posts - 1), write(k, rng.choice([0, 5, 12])))


# ---- books that are refused, and records that carry them

def carried(words, most, k, tail=b''):
    """All calls on a book that is refused or on a count that is; the book is carried by a record, and K = k stands before it for the page."""
    content = head(words, most % 2 ** 32, k) + book_bytes(words) + tail
    yield put(content, BOOK - 12)
    yield from (Command('book', BOOK, BOOK + 4 * len(words)), Command('check'), Command('least'), Command('value', OUT, OUT + 3))
    yield from (rank(most, 3, 9), write(most, 20), accept(len(content), BOOK - 12))
    yield from show(0, len(content), BOOK - 12)
    yield page(4 + 4 * len(words))


# The books that faults are put into.
FAULTY = [books.small, books.few, books.wide, books.edge]
FAULTY_STOPS = [books.stops, books.stops_everywhere, books.sure_stops, books.stops_barely, books.stops_wide, books.stops_edge]
FAULTY_CLOSED = [books.closed, books.closed_last, books.all_closed, books.closed_wide, books.closed_edge]
FAULTY_DEPOTS = [books.depots, books.depots_eight, books.depots_alone, books.depots_closed, books.depots_wide, books.depots_edge]

# What is drawn from: shapes of any book, of one with several plans and of one that gets faults, and the faults.
Source = collections.namedtuple('Source', 'shapes several faulty breaks')
WITHOUT_CLOSED = Source(books.SHAPES, [books.small, books.ties, books.few, books.stops, books.stops_and_ties, books.post_0_stops], FAULTY + FAULTY_STOPS,
                        books.BREAKS)
WITH_CLOSED = Source(books.WITH_CLOSED, [books.closed, books.closed_and_ties, books.dead_ends], FAULTY_CLOSED, books.BREAKS + books.BREAKS_CLOSED)
WITH_DEPOTS = Source(books.WITH_DEPOTS, [books.depots, books.depots_alone, books.depots_and_ties, books.depots_closed], FAULTY_DEPOTS,
                     books.BREAKS + books.BREAKS_DEPOTS)
EVERY = Source(*(sum(lists, []) for lists in zip(WITHOUT_CLOSED, WITH_CLOSED, WITH_DEPOTS)))


def faulty(rng, faults, shapes=FAULTY + FAULTY_STOPS):
    words = books.draw(rng, rng.choice(shapes))
    if ref.check(words):
        return words
    for _ in range(50):
        other = books.broken(rng, words, faults)
        if books.feasible(other):
            return other
    return words


def some_faults(rng, source):
    """A book with one fault or a few, or with a choice of 7 next posts or more."""
    return books.seven(rng) if rng.random() < 0.1 else faulty(rng, rng.sample(source.breaks, rng.choice([1, 1, 1, 2, 3])), source.faulty)


def refused(rng, words):
    most = rng.choice([3, 64, bad_count(rng)])
    tail = bytes(rng.randrange(256) for _ in range(rng.choice([0, 8, 11])))
    return carried(words, most, rng.choice([0, 1, 2, most % 2 ** 32]), tail)


def seven(rng):
    """A choice of 7 next posts or more, alone or where a later question of the book is answered no too."""
    return refused(rng, books.broken(rng, books.seven(rng), rng.sample(books.BREAKS[9:], rng.choice([0, 0, 1, 2]))))


def nine(rng):
    """A last post with nine closing choices or more, alone or where a later question of the book is answered no too."""
    return refused(rng, books.broken(rng, books.nine(rng), rng.sample(books.BREAKS[8:], rng.choice([0, 0, 1, 2]))))


def wild(rng):
    words = books.wild(rng)
    return refused(rng, words) if books.feasible(words) else powers(rng)


def noise_bytes(rng):
    kind = rng.randrange(4)
    if kind == 0:
        return bytes(rng.randrange(256) for _ in range(rng.randrange(60)))
    if kind == 1:
        w = rng.randrange(12)
        return machine.little(w, 4) + bytes(rng.randrange(4) for _ in range(8 + 4 * w + rng.choice([-1, 0, 1, 9])))
    if kind == 2:
        return machine.little(rng.choice([4172, 4173, 2 ** 32 - 1, 2 ** 30, 2 ** 30 + 1]), 4) + bytes(rng.choice([8, 20, 200]))
    words = books.wild(rng)
    return head(words, rng.randrange(70), rng.randrange(4)) + book_bytes(words) + bytes(rng.randrange(30))


def noise(rng):
    """Random bytes as a record, some with a head that fits them."""
    content = noise_bytes(rng)
    yield from (put(content), accept(len(content)))
    yield from show(rng.randrange(3), len(content))


def as_record(words, most, k, listed):
    """The bytes of a record with any k, costs and plans."""
    costs = b''.join(cost.to_bytes(8, 'little', signed=True) for cost, _ in listed)
    return head(words, most, k) + book_bytes(words) + costs + b''.join(bytes(plan) for _, plan in listed)


def other_lists(words, most):
    """Records whose sizes fit and whose list is another: short by one plan, empty, with a plan twice, in another order, with a plan that belongs later,
    with a cost that is not the plan's, with slices that take a closed choice; and the record itself."""
    listed = ref.in_order(tuple(words))
    best = listed[:most]
    for other in (best[:-1], [], best + best[-1:], best[:-1] + best[:1], best[1:2] + best[:1] + best[2:], best[:-1] + listed[-1:],
                  [(best[0][0] + 1, best[0][1])] + best[1:], [(best[0][0], best[1][1])] + best[1:], best, *closed_lists(words, best)):
        yield as_record(words, most, len(other), other)


def closed_lists(words, best):
    """Lists as long as the best and one longer, with the first and the last slice that would be a plan if no choice were closed, at the cost that its days have
    with the mark counted, and without."""
    found = {plan for _, plan in ref.in_order(tuple(words))}
    others = [plan for plan in ref.plans(ref.Book(books.opened(words))) if plan not in found]
    for plan in others[:1] + others[1:][-1:]:
        for book in (ref.Book(words), ref.Book(books.opened(words))):
            row = ref.plan_cost(book, plan), plan
            yield from (sorted(best[:-1] + [row]), sorted(best + [row]))


def forged_lists(words, most):
    for content in other_lists(words, most):
        yield from (put(content), accept(len(content)))
        yield from show(0, len(content))


def some_plans(rng, source):
    """A book of three plans or more, and K."""
    listed = []
    while len(listed) < 3:
        words = books.draw(rng, rng.choice(source.several))
        listed = [] if ref.check(words) else ref.in_order(tuple(words))
    return words, min(64, rng.choice([2, 3, 5, len(listed), len(listed) + 1]))


def forged(rng):
    return forged_lists(*some_plans(rng, EVERY))


def longest(rng):
    """W at its bound and one beyond, with all the bytes that it asks for, each 77."""
    for w in (4172, 4173):
        yield put(machine.little(w, 4))
        yield from (accept(12 + 4 * w), accept(12 + 4 * w - 1), accept(12 + 4 * w + rng.randrange(9)))


def powers(rng):
    for _ in range(20):
        yield Command('power', k=rng.choice([rng.randrange(110), 0, 1, 100, 101, 2 ** 32 - 1]), z=rng.choice([rng.randrange(12), 0, 8, 9, 255]))


# ---- input of the printing program

def any_input(rng):
    """K and a book; or too few bytes, a leftover, a fault, or more than is read."""
    kind = rng.randrange(12)
    if kind == 0:
        return bytes(rng.randrange(256) for _ in range(rng.randrange(9)))
    words = books.draw(rng, rng.choice([books.large, books.stops_large, books.closed_large] if rng.random() < 0.01 else books.ALL_SHAPES))
    k = rng.choice([1, 2, 3, 64, rng.randint(1, 64)])
    if kind == 1:
        k = rng.choice([0, 65, 256, 2 ** 31, 2 ** 32 - 1])
    if kind in (2, 3):
        words = some_faults(rng, EVERY)
    data = machine.little(k, 4) + book_bytes(words)
    if kind == 4:
        return data + bytes(rng.randint(1, 3))
    if kind == 5:
        return data[:rng.randrange(len(data))]
    if kind == 6:
        return data + bytes(rng.choice([4, 16696, 16696 - len(data), 16697 - len(data), 16699 - len(data), 40000]))
    return data


def input_feasible(data):
    data = data[:16696]
    return len(data) % 4 > 0 or len(data) < 4 or books.feasible(ref.words_of(data[4:]))


def page_input(rng):
    while True:
        found = any_input(rng)
        if input_feasible(found):
            return found


def some_page(rng):
    content = page_input(rng)[:MOST_INPUT]
    yield from (put(content, BOOK - 4), page(len(content)))


# ---- input of the program that prints the page of a record

def bent_record(rng, words):
    """A record with bytes changed, cut off or added."""
    most = some_count(rng, len(ref.in_order(tuple(words))))
    record = bytearray(ref.record(words, most))
    if rng.random() < 0.3:
        return record[:rng.choice([11, 12, rng.randrange(len(record)), len(record) - 1])]
    if rng.random() < 0.2:
        return record + bytes(rng.choice([1, 8, 25000]))
    for at, x in changed_bytes(rng, bytes(record), words, int.from_bytes(record[8:12], 'little')):
        if rng.random() < 0.4:
            record[at] = x
    return record


def carrying(rng, words):
    """The bytes of a record that is refused for its book or its count."""
    return head(words, rng.choice([3, 64, bad_count(rng) % 2 ** 32]), rng.randrange(3)) + book_bytes(words) + bytes(rng.choice([0, 11]))


def any_record(rng, source):
    """A record; or one that is bent, that has another list, or that carries a book or a count that is refused; or noise."""
    kind = rng.randrange(8)
    if kind == 0:
        return noise_bytes(rng)
    if kind == 1:
        return rng.choice(list(other_lists(*some_plans(rng, source))))
    words = books.draw(rng, rng.choice(source.shapes))
    if kind == 2 or ref.check(words):
        return carrying(rng, some_faults(rng, source))
    if ref.plan_no(words):
        return carrying(rng, words)
    if kind in (3, 4):
        return bent_record(rng, words)
    return ref.record(words, some_count(rng, len(ref.in_order(tuple(words)))))


def record_input(rng, source=EVERY):
    while True:
        found = bytes(any_record(rng, source))
        if carried_feasible(found):
            return found


# ---- where a plan stands

def tied_counts(listed):
    """Each K with which the first plan that is not listed costs the same as the last listed."""
    return [k for k in range(1, min(65, len(listed))) if listed[k - 1][0] == listed[k][0]]


def some_finds(rng, words, listed, k):
    """The first plan of the list of k, its last and the two after it, the last and any of the book, and some that are not listed and cost the same as the last
    listed; then slices that may be no plan."""
    tied = [j for j in range(k, len(listed)) if listed[j][0] == listed[k - 1][0]]
    places = {0, k - 1, k, k + 1, len(listed) - 1, rng.randrange(len(listed)), *rng.sample(tied, min(2, len(tied)))}
    for j in sorted(places & {*range(len(listed))}):
        yield from find(k, listed[j][1])
    yield from find(k, books.bent_plan(rng, words, rng.choice(listed)[1]))
    if books.closures(words):
        yield from find(k, books.random_plan(rng, ref.Book(words)))


def not_found(rng, words):
    """Any slices in a book that is refused or has no plan, with counts that are allowed and that are not."""
    slices = [[], [rng.choice([0, 0, 1, 255]) for _ in range(rng.randint(1, 64))]]
    if not ref.check(words):
        slices += [books.random_plan(rng, ref.Book(words)) for _ in range(2)]
    for k in (rng.randint(1, 64), rng.choice([1, 64]), bad_count(rng)):
        for slice_ in slices:
            yield from find(k, slice_)


def finding(rng, words):
    """Plans of a book and slices that are none, in lists of a few K; some, where plans tie, end between two plans of one cost."""
    yield from machine.book(words)
    listed = [] if ref.check(words) else ref.in_order(tuple(words))
    if not listed:
        yield from not_found(rng, words)
        return
    tied = tied_counts(listed)
    for k in sorted({some_count(rng, len(listed)), some_count(rng, len(listed)), *rng.sample(tied, min(2, len(tied)))}):
        yield from some_finds(rng, words, listed, k)
    yield from find(bad_count(rng), rng.choice([rng.choice(listed)[1], ()]))


def finding_in_vast(rng):
    """As finding, in a book that has too many plans to enumerate: those that are not listed are any."""
    words = vast_book(rng)
    with search.instead_of_enumeration():
        listed = ref.ranking(words, 64)
    yield from machine.book(words)
    if not listed:
        yield from not_found(rng, words)
        return
    for k in (64, rng.randint(1, 63)):
        yield from some_finds(rng, words, listed, k)
        for _ in range(3):
            yield from find(k, books.random_plan(rng, ref.Book(words)))


# ---- calls at a desk

def any_ranks(rng):
    """Ranks that no call put there: small ones often, so that some are there twice."""
    most = rng.choice([3, 20, 256])
    return [rng.choice([0, 0, rng.randrange(most), 255]) for _ in range(desk.RIDERS)]


def first_of_desk(rng, source):
    """A fresh desk, one that is opened, or one with any content; with k, or about that."""
    start = rng.randrange(8)
    if start == 0:
        return [], 3
    if start < 3:
        k = rng.choice([0, 1, 5, 64, 65, 255])
        return fill(k, any_ranks(rng), any_ranks(rng)), k
    words, most = some_plans(rng, source)
    return opening(ref.record(words, most)), min(most, len(ref.in_order(tuple(words))))


def desk_call(rng, k):
    rider = rng.choice([2 ** 32 + 3, 2 ** 63, 2 ** 64 - 1]) if rng.random() < 0.03 else rng.randrange(18)
    kind = rng.random()
    if kind < 0.6:
        return ask(rider, rng.choice([0, k + 1, 256, 257, 2 ** 32 + 1, 2 ** 64 - 1]) if rng.random() < 0.1 else rng.randint(1, max(1, k)))
    return commit(rider) if kind < 0.8 else cancel(rider)


def at_desk(rng, source):
    """Calls at a desk, an opening that is refused or another that is granted among them."""
    for _ in range(rng.choice([1, 1, 2])):
        first, k = first_of_desk(rng, source)
        yield from first
        for _ in range(rng.randint(10, 60)):
            yield from desk_call(rng, k)
        yield from opening(record_input(rng, source)[:BOOK - OUT])
        for _ in range(rng.randrange(10)):
            yield from desk_call(rng, k)


# ---- planners' tables

def room_for(words):
    """As many words as the book of a table has, or as there is place for; some for a table that has no book."""
    return 40 if rewards.table_no(words) else min(len(rewards.book_of(words)), MOST_ROOM - 9)


def made_book(words, k):
    """The book that stands where it was converted to, checked and ranked."""
    made = rewards.book_of(words)
    return [Command('book', OUT, OUT + 4 * len(made)), Command('check'), Command('least'), rank(k, k, k * ref.Book(made).posts)]


def conversion(rng):
    """A table, into rooms that fit, that are short or that are longer, also by less than a word; then its book, if it is accepted."""
    words = tables.any_table(rng)
    room = room_for(words)
    yield from machine.book(words)
    for _ in range(rng.randint(1, 3)):
        yield convert(rng.choice([room - 1, room, room + 1, room + 9, 0, rng.randrange(room)]))
    yield Command('convert', OUT, OUT + 4 * room + rng.randrange(4))
    if rewards.convert(words, [0] * room)[0] == 0 and tables.feasible(words):
        yield from made_book(words, some_count(rng, len(ref.in_order(tuple(rewards.book_of(words))))))


def table_input(rng):
    """A table's bytes; or too few, a leftover, or more than is read."""
    kind = rng.randrange(10)
    if kind == 0:
        return bytes(rng.randrange(256) for _ in range(rng.randrange(24)))
    data = book_bytes(tables.any_table(rng))
    if kind == 1:
        return data + bytes(rng.randint(1, 3))
    if kind == 2:
        return data[:rng.randrange(len(data) + 1)]
    if kind == 3:
        return data + bytes(rng.choice([4, 16472, max(0, 16472 - len(data)), 40000]))
    return data


# ---- input of the program that says where a plan stands

def count_at_tie(rng, listed):
    """A K whose list ends between two plans of one cost, if there is one; else a small one."""
    return rng.choice(tied_counts(listed) or [1, 2])


def some_plan(rng, words, listed, k):
    """A plan of the list or near its end, one that costs as much as the last listed, any other; or a slice that may be none."""
    kind = rng.randrange(8)
    if kind == 0:
        return books.bent_plan(rng, words, rng.choice(listed)[1])
    if kind == 1:
        return books.random_plan(rng, ref.Book(words))
    tied = [j for j in range(k, len(listed)) if listed[j][0] == listed[k - 1][0]]
    places = tied if tied and kind < 5 else [0, k - 1, k, k + 1, len(listed) - 1, rng.randrange(len(listed))]
    return listed[min(rng.choice(places), len(listed) - 1)][1]


def any_find(rng):
    """A plan with its length in front, K and a book, often one of several plans; or one of them refused, a length that is not the plan's, or bytes cut off."""
    data = page_input(rng)
    if rng.random() < 0.4:
        words, k = some_plans(rng, EVERY)
        data = machine.little(k, 4) + book_bytes(words)
    no, k, words = ref.asked(data)
    plan = [rng.choice([0, 0, 1, 255]) for _ in range(rng.choice([0, 1, 3, 20, 255]))]
    if no == 0:
        listed = ref.in_order(tuple(words))
        if rng.random() < 0.4:
            k = count_at_tie(rng, listed)
            data = machine.little(k, 4) + data[4:]
        plan = some_plan(rng, words, listed, k)
    length = min(255, len(plan) + rng.choice([-1, 1, 4, 200])) if plan and rng.random() < 0.04 else len(plan)
    data = bytes([length]) + bytes(plan) + data
    return data[:rng.randrange(len(data) + 1)] if rng.random() < 0.04 else data


def find_input(rng):
    while True:
        found = any_find(rng)
        if input_feasible(found[1 + found[0]:] if found else b''):
            return found


# ---- limits of marked choices

def some_marks(rng, book):
    """A mark for each choice of the book: few, half, most or all are 1; or those of one choice a post, so that other choices keep a limit of 0."""
    if rng.random() < 0.2:
        row = [rng.randrange(n) for n in book.counts]
        return [int(c == row[post]) for post, c in books.every_choice(book)]
    share = rng.choice([0.1, 0.3, 0.5, 0.5, 0.8, 1])
    return [int(rng.random() < share) for _ in books.every_choice(book)]


def bent_marks(rng, marks):
    """Marks of another length, or with a value that is no mark."""
    marks = [*marks]
    if rng.random() < 0.5:
        return rng.choice([[], marks[:-1], marks + [rng.randrange(2)], marks + marks, marks[:rng.randrange(len(marks))]])
    marks[rng.randrange(len(marks))] = rng.choice([2, 3, 128, 254, 255, rng.randint(2, 255)])
    return marks


def bad_most(rng):
    return rng.choice([10, 10, 11, 255, 256, 2 ** 32, 2 ** 32 + 1, 2 ** 63, 2 ** 64 - 1])


def near_limits(rng, book, listed, marks):
    """Some m at which a plan of the list begins to keep the limit, and one less; and any from 0 to 9."""
    found = sorted({ref.most_marked(book, marks, plan) for _, plan in listed})
    near = {rng.choice(found[:2]), rng.choice(found), max(0, found[0] - 1), max(0, rng.choice(found) - 1)}
    return sorted({min(9, m) for m in near} | {rng.randint(0, 9)})


def some_limits(rng, words, listed, k):
    """Limits for a book that has plans, of which these are the first: marks that are allowed with m on both sides of what its plans make, then a fault."""
    book = ref.Book(words)
    for _ in range(2):
        marks = some_marks(rng, book)
        for m in near_limits(rng, book, listed[:k], marks):
            yield from limit(k, marks, m)
    yield from limit(k, bent_marks(rng, marks), rng.randint(0, 9))
    yield from limit(k, rng.choice([marks, bent_marks(rng, marks)]), bad_most(rng))


def not_limited(rng, words):
    """Any marks and m in a book that is refused or has no plan, with counts that are allowed and that are not."""
    rows = [[], [rng.choice([0, 1, 1, 2]) for _ in range(rng.randint(1, 512))]]
    if not ref.check(words):
        rows += [some_marks(rng, ref.Book(words))]
    for k in (rng.randint(1, 64), rng.choice([1, 64]), bad_count(rng)):
        for marks in rows:
            yield from limit(k, marks, rng.choice([0, rng.randint(0, 9), bad_most(rng)]))


def limiting(rng, words):
    """Limits in lists of a few K: also of as many as the book has plans, where "none in the list" and "none in the book" part."""
    yield from machine.book(words)
    listed = [] if ref.check(words) else ref.in_order(tuple(words))
    if not listed:
        yield from not_limited(rng, words)
        return
    for k in sorted({some_count(rng, len(listed)), min(64, len(listed)), min(64, len(listed) + 1)}):
        yield from some_limits(rng, words, listed, k)
    marks = some_marks(rng, ref.Book(words))
    yield from limit(bad_count(rng), rng.choice([marks, bent_marks(rng, marks)]), rng.choice([rng.randint(0, 9), bad_most(rng)]))


def limiting_in_vast(rng):
    """As limiting, in a book that has too many plans to enumerate."""
    words = vast_book(rng)
    yield from machine.book(words)
    with search.instead_of_enumeration():
        listed = ref.ranking(words, 64)
        calls = [c for k in (64, rng.randint(1, 63)) for c in some_limits(rng, words, listed, k)] if listed else [*not_limited(rng, words)]
    yield from calls


# ---- small books by going through them

SECOND = (OUT + BOOK) // 2    # the main engine writes into the second half of the place of lent slices


def some_rooms(rng, k, posts):
    """Costs and bytes that fit K, or that are none, one short, or longer."""
    k = min(k, 70)
    return max(0, k + rng.choice([0, 0, 0, 0, 1, 3, -1, -k])), max(0, k * posts + rng.choice([0, 0, 0, 0, 1, 5, -1, -k * posts]))


def ranking_small(rng, words, counts):
    """The lists of a book for each of these counts, by going through all plans and by the main engine."""
    yield from machine.book(words)
    posts = 3 if ref.check(words) else ref.Book(words).posts
    for k in counts:
        rooms = some_rooms(rng, k, posts)
        yield from (rank_small(k, *rooms), rank(k, *rooms, SECOND))


def small_counts(rng, plans):
    """Two that are allowed, as many as there are plans and one more, and one that is not allowed."""
    near = {some_count(rng, plans), some_count(rng, plans), max(1, min(64, plans)), min(64, plans + 1)}
    return [*sorted(near), bad_count(rng)]


def ranking_small_near(rng):
    """A book with as many plans as are allowed, or a few more or less, and with any of stops, closed choices, depots and one cost for all."""
    total = ref.MOST_SMALL + rng.choice([0, 0, 1, 1, -1, rng.randint(-9, 9)])
    words = books.exactly(rng, total, *(rng.random() < 0.4 for _ in range(4)))
    yield from ranking_small(rng, words, sorted({1, rng.randint(1, 64), 64}))


def ranking_small_in_vast(rng):
    """Far more plans than are allowed; or, where choices are closed, few or none."""
    words = rng.choice([vast_book, books.closed_vast, books.closed_vast])(rng)
    yield from ranking_small(rng, words, [rng.randint(1, 64), 64, bad_count(rng)])


# ---- input of the program that says which listed plan keeps a limit

def any_marks(rng, count):
    """So many, of which few or many are 1."""
    share = rng.choice([0.1, 0.3, 0.6, 0.9, 1])
    return bytes(rng.random() < share for _ in range(count))


def first_plan_marked(rng, words):
    """One for each choice of a book that has a plan; often the choices of the first plan are marked and few others, so that a later one keeps the limit."""
    book, plan = ref.Book(words), ref.in_order(tuple(words))[0][1]
    if rng.random() < 0.4:
        return any_marks(rng, sum(book.counts))
    share = rng.choice([0, 0.1, 0.3, 0.5])
    return bytes(plan[post] == choice or rng.random() < share for post in range(book.posts) for choice in range(book.counts[post]))


def bent_limit(rng, m, marks):
    """m out of range, or marks of another length or value."""
    kind = rng.randrange(3)
    if kind == 0:
        return rng.choice([10, 11, 255]), marks
    if kind == 1:
        return m, marks[1:] if rng.random() < 0.5 else marks + bytes(rng.choice([1, 1, 256, 65535 - len(marks)]))
    at = rng.randrange(len(marks))
    return m, marks[:at] + bytes([rng.choice([2, 3, 128, 255])]) + marks[at + 1:]


def any_limit(rng):
    """m, the number of the marks, the marks, K and a book, often one of several plans; or one of them refused, a number that is not that of the marks, or bytes
    cut off."""
    data = page_input(rng)
    if rng.random() < 0.6:
        words, k = some_plans(rng, EVERY)
        data = machine.little(k, 4) + book_bytes(words)
    no, _, words = ref.asked(data)
    m, marks = rng.choice([0, 1, 1, 2, rng.randrange(10)]), any_marks(rng, rng.choice([0, 3, 300, 65535])) if no else first_plan_marked(rng, words)
    if marks and rng.random() < 0.08:
        m, marks = bent_limit(rng, m, marks)
    count = max(0, min(65535, len(marks) + rng.choice([-1, 1, 4, 256]))) if rng.random() < 0.03 else len(marks)
    data = bytes([m]) + machine.little(count, 2) + marks + data
    return data[:rng.randrange(len(data) + 1)] if rng.random() < 0.04 else data


def limit_input(rng):
    while True:
        found = any_limit(rng)
        if input_feasible(found[3 + int.from_bytes(found[1:3], 'little'):]):
            return found


# ---- which kinds there are

def good_of(shape):
    return lambda rng: good(rng, books.draw(rng, shape))


def fault(n):
    return lambda rng: refused(rng, faulty(rng, [books.BREAKS[n - 1]]))


def faults(shapes):
    return lambda rng: refused(rng, faulty(rng, rng.sample(books.BREAKS, rng.randint(2, 4)), shapes))


def closed_faults(rng):
    """A book with closed choices and one fault or a few, at them or elsewhere."""
    return refused(rng, faulty(rng, rng.sample(books.BREAKS_CLOSED, rng.choice([1, 1, 2, 3])), FAULTY_CLOSED))


def depot_faults(rng):
    """A book with depots and one fault or a few, at them or elsewhere."""
    return refused(rng, faulty(rng, rng.sample(books.BREAKS_DEPOTS, rng.choice([1, 1, 2, 3])), FAULTY_DEPOTS))


def desk_from(source):
    return lambda rng: at_desk(rng, source)


def any_shape(rng):
    """A book of any shape, each as often as SHAPES has it."""
    return books.draw(rng, getattr(books, rng.choices(list(SHAPES), list(SHAPES.values()))[0]))


def finding_any(rng):
    return finding(rng, any_shape(rng))


def finding_faults(rng):
    return finding(rng, some_faults(rng, EVERY))


def limiting_any(rng):
    return limiting(rng, any_shape(rng))


def limiting_faults(rng):
    return limiting(rng, some_faults(rng, EVERY))


def ranking_small_any(rng):
    """In a book of any shape, now and then in one with thousands of plans, so that some have more than are allowed."""
    words = books.draw(rng, rng.choice([books.many, books.stops_many])) if rng.random() < 0.04 else any_shape(rng)
    return ranking_small(rng, words, small_counts(rng, 1 if ref.check(words) else books.count_plans(words, 64)))


def ranking_small_faults(rng):
    return ranking_small(rng, some_faults(rng, EVERY), [rng.randint(1, 64), 64, bad_count(rng)])


SHAPES = {'small': 250, 'deep': 130, 'wide': 56, 'ties': 140, 'few': 150, 'unreached': 80, 'crossing': 110, 'many': 30, 'edge': 80, 'large': 10, 'full': 4,
          'stops': 250, 'stops_each_stage': 100, 'stops_everywhere': 100, 'sure_stops': 80, 'post_0_stops': 60, 'stops_unreached': 50, 'stops_barely': 80,
          'stops_and_ties': 150, 'stops_and_gains': 80, 'stops_deep': 80, 'stops_wide': 50, 'stops_edge': 80, 'stops_many': 20, 'stops_large': 10,
          'stops_full': 4, 'six': 40, 'stops_six': 40, 'closed': 250, 'closed_last': 100, 'closed_stage': 60, 'all_closed': 30, 'closed_unreached': 50,
          'one_plan': 80, 'dead_ends': 180, 'closed_and_ties': 180, 'closed_wide': 70, 'closed_deep': 110, 'closed_edge': 90, 'closed_large': 10,
          'depots': 220, 'depots_eight': 60, 'depots_alone': 80, 'depots_and_ties': 140, 'depots_closed': 160, 'depots_unreached': 40, 'depots_wide': 60,
          'depots_edge': 70}
KINDS = {name: (weight, good_of(getattr(books, name))) for name, weight in SHAPES.items()}    # how often each is drawn, and how it is made
KINDS.update({'fault %d' % n: (36, fault(n)) for n in range(1, 14)})
KINDS.update({'seven': (40, seven), 'vast': (16, vast), 'faults': (120, faults(FAULTY)), 'stops, faults': (120, faults(FAULTY_STOPS)), 'wild': (60, wild),
              'bad counts': (60, bad_counts), 'noise': (140, noise), 'forged': (36, forged), 'longest': (4, longest), 'powers': (10, powers),
              'page': (200, some_page), 'desk': (100, desk_from(WITHOUT_CLOSED)), 'desk, closed': (60, desk_from(WITH_CLOSED)), 'convert': (200, conversion),
              'closed, faults': (160, closed_faults), 'nine': (40, nine), 'depots, faults': (120, depot_faults), 'desk, depots': (40, desk_from(WITH_DEPOTS)),
              'find': (800, finding_any), 'find, faults': (120, finding_faults), 'find, vast': (12, finding_in_vast),
              'limit': (700, limiting_any), 'limit, faults': (100, limiting_faults), 'limit, vast': (12, limiting_in_vast),
              'rank small': (600, ranking_small_any), 'rank small, faults': (80, ranking_small_faults), 'rank small, near': (24, ranking_small_near),
              'rank small, vast': (24, ranking_small_in_vast)})
VAST = {'vast', 'find, vast', 'limit, vast', 'rank small, vast'}    # kinds whose books have too many plans to enumerate


def make(seed, n, name):
    return Case('%s:%d %s' % (seed, n, name), list(KINDS[name][1](random.Random('%s:%d' % (seed, n)))), name in VAST)


def fresh(seed, n):
    """Case n of a seed, of a kind that is drawn by its weight."""
    rng = random.Random('kind %s:%d' % (seed, n))
    return make(seed, n, rng.choices(list(KINDS), [weight for weight, _ in KINDS.values()])[0])
