"""Random cases of tests/kinds.py, every call of them put to the library and to the rules of the documents by enumeration: all must agree.

The cases are accepted books of many shapes, with closed choices, with depots and without a plan too, books with a fault for each question, words that are none,
plans, marks and records with a fault, planners' tables, and counts and rooms at their limits. What is ranked is also ranked by going through all plans. Each
call must have given every number that it can give, and finding and keeping a limit each answer, so that no question goes untried.
"""

import ctypes
import pathlib
import sys

sys.dont_write_bytecode = True
sys.path.insert(0, str(pathlib.Path(__file__).resolve().parents[2] / 'tests'))

import kbest
import kinds
import machine
import reference
import rewards
from test_cases import NUMBERS, OF_TABLES

SEED = 'bindings'
MANY, FEW, MOST = 18, 2, 150    # cases of each kind, of a slow one, of tables, finding and limits, which have one kind for many shapes
SLOW = ('many', 'large', 'full', 'stops_many', 'stops_large', 'stops_full', 'closed_large', 'rank small, near')


def answer(call, *arguments):
    """(number, figure); the figure is None where the call is refused."""
    try:
        return 0, call(*arguments)
    except kbest.Refused as refused:
        same('the text of a refusal', str(refused), 'refused %d: %s' % (refused.number, kbest.QUESTIONS[refused.number]))
        return refused.number, None


def wanted(number, *figures):
    """What answer() gives for a call of reference.py."""
    return number, None if number else figures[0] if len(figures) == 1 else figures


def same(what, got, want):
    if got != want:
        raise AssertionError('%s: the library gives %r, the reference %r' % (what, got, want))


def lent(kind, values):
    return (kind * len(values))(*values)


def rank_into(call, words, k, costs, plans):
    """One of the two calls that rank, with lent arrays: (number, k, costs, plans) as it leaves them."""
    book, costs, plans = lent(ctypes.c_int32, words), lent(ctypes.c_int64, costs), lent(ctypes.c_uint8, plans)
    listed = ctypes.c_size_t(99)
    no = call(book, len(book), k, costs, len(costs), plans, len(plans), ctypes.byref(listed))
    return no, listed.value, list(costs), bytes(plans)


def small_no(words, k):
    """What going through all plans asks of a book and K before any slice: 1 to 14, 28, then 30."""
    return reference.list_no(words, k) or (30 if len(reference.in_order(tuple(words))) > kbest.SMALL_MOST else 0)


def find_into(words, k, plan):
    """The call itself: (number, answer, value)."""
    book, plan, said, value = lent(ctypes.c_int32, words), lent(ctypes.c_uint8, plan), ctypes.c_uint32(99), ctypes.c_int64(99)
    no = kbest._library().kbest_find(book, len(book), k, plan, len(plan), ctypes.byref(said), ctypes.byref(value))
    return no, said.value, value.value


def limit_into(words, k, marks, m):
    """The call itself: (number, answer, rank)."""
    book, marks, said, rank = lent(ctypes.c_int32, words), lent(ctypes.c_uint8, marks), ctypes.c_uint32(99), ctypes.c_size_t(99)
    no = kbest._library().kbest_limit(book, len(book), k, marks, len(marks), m, ctypes.byref(said), ctypes.byref(rank))
    return no, said.value, rank.value


def write_into(words, k, room):
    """The call itself, with a lent array: (number, length, bytes) as it leaves them."""
    book, record, length = lent(ctypes.c_int32, words), lent(ctypes.c_uint8, room), ctypes.c_size_t(99)
    no = kbest._library().kbest_write(book, len(book), k, record, len(record), ctypes.byref(length))
    return no, length.value, bytes(record)


def convert_into(table, room):
    """The call itself, with a lent array: (number, length, words) as it leaves them."""
    words, book, length = lent(ctypes.c_int32, table), lent(ctypes.c_int32, room), ctypes.c_size_t(99)
    no = kbest._library().kbest_convert(words, len(words), book, len(book), ctypes.byref(length))
    return no, length.value, list(book)


class Compared(machine.Machine):
    """Puts each call to the library too, with what the machine holds, and compares. Commands that are no calls of the library only change the places."""

    def __init__(self, seen):
        super().__init__()
        self.seen = seen

    def check(self, c, part):
        no = reference.check(self.words)
        self.seen['check'].add(no)
        same('check', answer(kbest.check, self.words), (no, None))

    def least(self, c, part):
        no, cost = reference.least(self.words)
        self.seen['least'].add(no)
        same('least', answer(kbest.least, self.words), wanted(no, cost))

    def value(self, c, part):
        no, cost = reference.value(self.words, part)
        self.seen['value'].add(no)
        same('value', answer(kbest.value, self.words, part), wanted(no, cost))

    def power(self, c, part):
        same('power', kbest.power(c.k, c.z), c.k ** c.z if 1 <= c.k <= 100 and c.z <= 8 else 0)

    def rank(self, c, part):
        costs, plans = [machine.FILL] * c.z, bytearray(part)
        no, listed = reference.rank(self.words, c.k, costs, plans)
        self.seen['rank'].add(no)
        same('rank', rank_into(kbest._library().kbest_rank, self.words, c.k, [machine.FILL] * c.z, part), (no, listed, costs, bytes(plans)))
        no = reference.list_no(self.words, c.k)
        best = [] if no else [(cost, bytes(plan)) for cost, plan in reference.ranking(self.words, c.k)]
        same('rank', answer(kbest.rank, self.words, c.k), wanted(no, best))
        self.rank_small(c, part)
        self.bytes[c.x:c.y] = plans

    def rank_small(self, c, part):
        """The list of the other ranking, or 30."""
        costs, plans, refused = [machine.FILL] * c.z, bytearray(part), small_no(self.words, c.k)
        no, listed = (refused, 0) if refused else reference.rank(self.words, c.k, costs, plans)
        self.seen['rank_small'].add(no)
        got = rank_into(kbest._library().kbest_rank_small, self.words, c.k, [machine.FILL] * c.z, part)
        same('rank_small', got, (no, listed, costs, bytes(plans)))
        best = (refused, None) if refused else answer(kbest.rank, self.words, c.k)
        same('rank_small', answer(kbest.rank_small, self.words, c.k), best)
        self.bytes[c.x:c.y] = plans

    def find(self, c, part):
        no, said, value = reference.find(self.words, c.k, part)
        self.seen['find'].add(no)
        self.seen['answers of find'].add(said)
        same('find', find_into(self.words, c.k, part), (no, said, value))
        got, found = answer(kbest.find, self.words, c.k, part)
        same('find', (got, found), wanted(no, said, value))
        if found:
            same('the answer of find', (found.listed, found.costs_more, found.takes_higher), (said == 1, said == 2, said == 3))

    def limit(self, c, part):
        marks, m = part[8:], machine.number_at(part, 0)
        no, said, rank = reference.limit(self.words, c.k, marks, m)
        self.seen['limit'].add(no)
        self.seen['answers of limit'].add(said)
        same('limit', limit_into(self.words, c.k, marks, m), (no, said, rank))
        got, kept = answer(kbest.limit, self.words, c.k, marks, m)
        same('limit', (got, kept), wanted(no, said, rank or None))
        if kept:
            same('the answer of limit', (kept.rank is not None, kept.none_in_list, kept.none_in_book), (said == 1, said == 2, said == 3))

    def write(self, c, part):
        record = bytearray(part)
        no, length = reference.write(self.words, c.k, record)
        self.seen['write'].add(no)
        same('write', write_into(self.words, c.k, part), (no, length, bytes(record)))
        no = reference.list_no(self.words, c.k)
        same('write', answer(kbest.write, self.words, c.k), wanted(no, b'' if no else reference.record(self.words, c.k)))
        self.bytes[c.x:c.y] = record

    def convert(self, c, part):
        room = reference.words_of(part)
        book = list(room)
        no, length = rewards.convert(self.words, book)
        self.seen['convert'].add(no)
        same('convert', convert_into(self.words, room), (no, length, book))
        book_of_any_length = [0] * rewards.LONGEST_MADE
        no, length = rewards.convert(self.words, book_of_any_length)
        same('convert', answer(kbest.convert, self.words), wanted(no, book_of_any_length[:length]))
        self.bytes[c.x:c.x + 4 * len(book)] = machine.book_bytes(book)

    def accept(self, c, part):
        no, posts, listed = reference.accept(part)
        self.seen['accept'].add(no)
        same('accept', answer(kbest.accept, part), wanted(no, posts, listed))

    def show(self, c, part):
        same('show', bytes(kbest.show(part, c.k)), reference.show(part, c.k))

    def browse(self, c, part):
        pass

    def page(self, c, part):
        pass


def compare(case, seen):
    compared = Compared(seen)
    for c in machine.whole(case):
        try:
            compared.run(c)
        except AssertionError as fault:
            sys.exit('case %s, %s\n%s' % (case.title, fault, machine.describe(case)))


def chain(counts, stops):
    """A book of one post a stage with so many choices, so with as many plans as their product. Post 0 has some choices more, each a sure stop: a plan more."""
    onward = [[line for c in range(n) for line in ((1, c % 5), (0, 1))] for n in counts[:-1]]
    onward[0] += [(0, c) for c in range(stops)]
    left, right = zip(*sum(onward, []), *((0, c % 5) for c in range(counts[-1])))
    return [1, len(counts) - 1, len(left), *[1] * len(counts), counts[0] + stops, *counts[1:], *left, *right]


def edges():
    """Books of as many plans as are gone through, and of one more, in rooms that fit and that are one short."""
    for stops in (0, 1):
        words = chain([1, 8, 8, 8, 8], stops)
        same('how many plans', len(reference.in_order(tuple(words))), kbest.SMALL_MOST + stops)
        rooms = [machine.rank(k, k - few, 5 * k - short) for k in (1, 5, 64) for few in (0, 1) for short in (0, 1)]
        yield machine.Case('%d plans' % (kbest.SMALL_MOST + stops), [*machine.book(words), *rooms])


def drawn():
    """Cases of every kind but pages, which are no call of the library, desks, which test_desk.py compares, and books that the reference cannot enumerate; then
    books at the edge of question 30."""
    for name in kinds.KINDS:
        if name not in ('page', 'desk', 'desk, closed', 'desk, depots', *kinds.VAST):
            for n in range(FEW if name in SLOW else MOST if name in ('convert', 'find', 'find, faults', 'limit', 'limit, faults') else MANY):
                yield kinds.make(SEED, n, name)
    yield from edges()


def main():
    numbers = {**NUMBERS, **OF_TABLES, 'answers of find': {0, 1, 2, 3}, 'answers of limit': {0, 1, 2, 3}}    # 0 where it is refused
    seen, cases = {name: set() for name in numbers}, 0
    for case in drawn():
        compare(case, seen)
        cases += 1
    same('the numbers that the calls have given', seen, numbers)
    for d in range(103):
        for e in range(11):
            same('power', kbest.power(d, e), d ** e if 1 <= d <= 100 and e <= 8 else 0)
    print('%d random cases: all calls agree with the reference, and each has given every number that it can' % cases)


if __name__ == '__main__':
    main()
