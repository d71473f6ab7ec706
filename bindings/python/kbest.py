"""The K best plans of a tour book, over the shared library that is linked from libkbest_c.a.

A book is a sequence of 32-bit words, as is a planners' table; a plan and a record are bytes. Costs are exact and stand over D^H. Where the weights of a
choice before the last stage add to less than D, the tour may stop after it: what is missing is the chance, over D. At the last stage the choices of a post are
the depots where the tour may end, and a plan's byte there is the depot chosen. A choice whose cost is CLOSED is in no plan, and neither is a post with every
choice closed, so a book may have no plan. A refusal raises Refused, which has the number and the text of the first question that is answered no. The first call
loads the library: KBEST_LIBRARY names it; else it is looked for where the build puts it.
"""

import collections
import ctypes
import functools
import os
import pathlib
import threading

# of this module, as text and as the number that version() gives of the library
VERSION_TEXT = '1.8.0'
VERSION = 10800

BOOK_MOST = 4172
POSTS_MOST = 64
PLANS_MOST = 64
RECORD_MOST = 21308
SMALL_MOST = 4096    # the most plans of a book that rank_small lists
TABLE_MOST = 4117
TABLE_BOOK_MOST = 32775    # words of the longest book that a table can give: one of more than BOOK_MOST is always refused
RIDERS = 16
NOT_REACHED = 255
CLOSED = 200000    # the cost of a closed choice
LISTED, COSTS_MORE, TAKES_HIGHER = 1, 2, 3    # what find says of a plan, the answer of a Standing
KEPT, NONE_IN_LIST, NONE_IN_BOOK = 1, 2, 3    # what limit says of a list, the answer of a Kept

# each call asks some of them in the order that it states, and each is put to the whole input before the next
QUESTIONS = {
    1: 'are there three words?',
    2: 'is D from 1 to 100?',
    3: 'is H from 1 to 8?',
    4: 'is L from 1 to 2,048?',
    5: 'are there H + 1 post counts?',
    6: 'is there one post at stage 0, are there 1 to 16 at every other, and at most 64 in all?',
    7: 'is the length exactly 4 + H + S + 2L words?',
    8: 'has each post 1 to 8 choices?',
    9: 'is every r from 0 to 6, and 0 at stage H, do all lines fit, and are exactly L used?',
    10: 'is every cost from -100,000 to 100,000, or 200,000 where the choice is closed?',
    11: 'do the next posts of each choice rise strictly and lie within the next stage?',
    12: "is every weight from 1 to D, and does each choice's sum to at most D?",
    13: 'is D^H x (H + 1) x (largest cost of an open choice without its sign) at most 4 x 10^18?',
    14: 'is K from 1 to 64?',
    15: 'has the lent array of costs K places?',
    16: 'has the lent array of plans K x S bytes?',
    17: 'is it a plan of this book?',
    18: 'does the lent array hold the record?',
    19: 'are there 12 bytes, is W at most 4,172, and do 4 x W bytes follow?',
    20: "is k from 1 to K, and the record's length exact?",
    21: 'are costs, plans and k those that ranking gives?',
    22: 'is the rider from 0 to 15?',
    23: 'does the record list the rank?',
    24: 'on asking, is the rank with no other rider and the asker not yet committed; on committing, is a rank held?',
    25: 'are there five sizes, is n from 1 to 16, the first state from 0 to n - 1, D from 1 to 100, H from 1 to 8 and L from 1 to 2,048, '
        'and is the length exactly 5 + n + 2L words?',
    26: 'has each state 1 to 8 choices, is every r at least 1, do all lines fit, are exactly L used, do the weights of each choice add to D, '
        'has each closing line its 0, and is every reward from -100,000 to 100,000?',
    27: 'does the lent array hold the book?',
    28: 'has the book a plan?',
    29: 'is there one mark, 0 or 1, for each choice of the book, and is m from 0 to 9?',
    30: 'has the book at most 4,096 plans?',
}


class Refused(Exception):
    """The first question that is answered no: its number and its text."""

    def __init__(self, number):
        super().__init__(number)
        self.number, self.question = number, QUESTIONS.get(number, '')

    def __str__(self):
        return 'refused %d: %s' % (self.number, self.question)


class Standing(collections.namedtuple('Standing', 'answer value')):
    """Where a plan stands in a list. For any plan of the book exactly one of the three is true, and the answer says which.

    LISTED: it is listed, and the value is its rank, from 1. COSTS_MORE: it is not listed and costs more than the last listed plan, by exactly the value, over
    D^H, at least 1. TAKES_HIGHER: it is not listed and costs the same as the last listed plan; the value is the first post, from 0, where the two differ, at
    which it takes the higher choice.
    """

    __slots__ = ()

    @property
    def listed(self):
        return self.answer == LISTED

    @property
    def costs_more(self):
        return self.answer == COSTS_MORE

    @property
    def takes_higher(self):
        return self.answer == TAKES_HIGHER


class Kept(collections.namedtuple('Kept', 'answer rank')):
    """The first listed plan none of whose days makes more than m marked choices. The answer says which of the three is true.

    KEPT: there is one, with this rank, from 1. NONE_IN_LIST: as many plans as were asked for are listed, and none of them keeps the limit. NONE_IN_BOOK: fewer
    are listed, so every plan of the book, and none keeps the limit. The rank is None with the last two.
    """

    __slots__ = ()

    @property
    def none_in_list(self):
        return self.answer == NONE_IN_LIST

    @property
    def none_in_book(self):
        return self.answer == NONE_IN_BOOK


class _Desk(ctypes.Structure):
    """A desk as it lies in memory: by rider the rank held and the rank committed, 0 for none."""

    _fields_ = [('k', ctypes.c_uint8), ('held', ctypes.c_uint8 * RIDERS), ('committed', ctypes.c_uint8 * RIDERS)]


@functools.cache
def _library():
    built = pathlib.Path(__file__).resolve().parents[2] / 'target' / 'bindings' / 'libkbest.so'
    lib = ctypes.CDLL(os.environ.get('KBEST_LIBRARY', str(built)))
    size, number = ctypes.c_size_t, ctypes.c_uint32
    words, data, costs = (ctypes.POINTER(t) for t in (ctypes.c_int32, ctypes.c_uint8, ctypes.c_int64))
    figure, answer, desk = (ctypes.POINTER(t) for t in (size, number, _Desk))
    for name, result, arguments in (
        ('version', number, ()),
        ('check', number, (words, size)),
        ('power', ctypes.c_uint64, (size, size)),
        ('value', number, (words, size, data, size, costs)),
        ('least', number, (words, size, costs)),
        ('rank', number, (words, size, size, costs, size, data, size, figure)),
        ('rank_small', number, (words, size, size, costs, size, data, size, figure)),
        ('find', number, (words, size, size, data, size, answer, costs)),
        ('limit', number, (words, size, size, data, size, size, answer, figure)),
        ('write', number, (words, size, size, data, size, figure)),
        ('accept', number, (data, size, figure, figure)),
        ('show', None, (data, size, size, figure, figure)),
        ('convert', number, (words, size, words, size, figure)),
        ('desk_fresh', _Desk, ()),
        ('desk_open', number, (desk, data, size)),
        ('desk_ask', number, (desk, size, size)),
        ('desk_commit', number, (desk, size)),
        ('desk_cancel', number, (desk, size)),
        ('desk_held', size, (desk, size)),
        ('desk_committed', size, (desk, size)),
    ):
        call = getattr(lib, 'kbest_' + name)
        call.restype, call.argtypes = result, arguments
    return lib


def _array(kind, values):
    """An array and its length. A value that does not fit is refused here, since it would be cut on the way."""
    values = list(values)
    low, high = (-2 ** 31, 2 ** 31) if kind is ctypes.c_int32 else (0, 256)
    if any(not low <= v < high for v in values):
        raise ValueError('a word or a byte is out of range')
    return (kind * len(values))(*values), len(values)


def _words(book):
    return _array(ctypes.c_int32, book)


def _bytes(data):
    return _array(ctypes.c_uint8, data)


def _size(count):
    """Any count that no slice has is refused in the same way as the largest that crosses."""
    if count < 0:
        raise ValueError('a count is below 0')
    return min(count, 2 ** 64 - 1)


def _rider(number):
    """Any number that does not cross is no rider's, as is the one that crosses instead."""
    return number if 0 <= number < 2 ** 64 else RIDERS


def _rank(number):
    """Any number that does not cross is no record's rank, as is 0, which crosses instead."""
    return number if 0 <= number < 2 ** 64 else 0


def _answer(number, figure=None):
    if number:
        raise Refused(number)
    return figure


def version():
    """The version of the library that is loaded, as a number."""
    return _library().kbest_version()


def check(book):
    """Questions 1 to 13."""
    return _answer(_library().kbest_check(*_words(book)))


def power(d, e):
    """d^e for d from 1 to 100 and e from 0 to 8; 0 for any other."""
    return _library().kbest_power(_size(d), _size(e))


def value(book, plan):
    """The cost of one plan: questions 1 to 13, then 17. In a book that has no plan every plan gets 17."""
    cost = ctypes.c_int64()
    return _answer(_library().kbest_value(*_words(book), *_bytes(plan), ctypes.byref(cost)), cost.value)


def least(book):
    """The least cost of all plans: questions 1 to 13, then 28."""
    cost = ctypes.c_int64()
    return _answer(_library().kbest_least(*_words(book), ctypes.byref(cost)), cost.value)


def _list(call, book, k):
    words, length = _words(book)
    costs, plans = (ctypes.c_int64 * PLANS_MOST)(), (ctypes.c_uint8 * (PLANS_MOST * POSTS_MOST))()
    listed = ctypes.c_size_t()
    _answer(call(words, length, _size(k), costs, len(costs), plans, len(plans), ctypes.byref(listed)))
    posts = sum(words[3:4 + words[1]])
    return [(costs[j], bytes(plans[j * posts:(j + 1) * posts])) for j in range(listed.value)]


def rank(book, k):
    """The k best plans as a list of (cost, plan): questions 1 to 14, then 28. It is for any book; one of a few plans is for rank_small."""
    return _list(_library().kbest_rank, book, k)


def rank_small(book, k):
    """The same list for a book with at most SMALL_MOST plans, by going through all of them: questions 1 to 14, then 28 and 30.

    It is for books of a few plans: its time grows with the number of plans, and docs/PERFORMANCE.md says up to how many it is the faster of the two. Where most
    books are small a caller may call it first, and rank where it is refused with 30; until it is, some rankings could have been made.
    """
    return _list(_library().kbest_rank_small, book, k)


def find(book, k, plan):
    """The Standing of a plan in the list of the k best plans, that of rank: questions 1 to 14, then 28 and 17."""
    answer, value = ctypes.c_uint32(), ctypes.c_int64()
    no = _library().kbest_find(*_words(book), _size(k), *_bytes(plan), ctypes.byref(answer), ctypes.byref(value))
    return _answer(no, Standing(answer.value, value.value))


def limit(book, k, marks, m):
    """The Kept of a limit in the list of the k best plans, that of rank: questions 1 to 14, then 28 and 29. There is one mark, 1 or 0, for each choice of the
    book in the book's order, closed ones and those at the last stage too; m is from 0 to 9."""
    answer, rank = ctypes.c_uint32(), ctypes.c_size_t()
    no = _library().kbest_limit(*_words(book), _size(k), *_bytes(marks), _size(m), ctypes.byref(answer), ctypes.byref(rank))
    return _answer(no, Kept(answer.value, rank.value or None))


def write(book, k):
    """The record of a book and k: questions 1 to 14, then 28."""
    record, length = (ctypes.c_uint8 * RECORD_MOST)(), ctypes.c_size_t()
    no = _library().kbest_write(*_words(book), _size(k), record, len(record), ctypes.byref(length))
    return _answer(no, bytes(record[:length.value]))


def accept(record):
    """(S, how many plans are listed): question 19, then 1 to 14 and 28 of what the record carries, 20 and 21."""
    posts, listed = ctypes.c_size_t(), ctypes.c_size_t()
    no = _library().kbest_accept(*_bytes(record), ctypes.byref(posts), ctypes.byref(listed))
    return _answer(no, (posts.value, listed.value))


def show(record, j):
    """Plan j as a part of the record; empty where the record is not accepted or lists no plan j."""
    offset, length = ctypes.c_size_t(), ctypes.c_size_t()
    _library().kbest_show(*_bytes(record), _size(j), ctypes.byref(offset), ctypes.byref(length))
    return memoryview(record)[offset.value:offset.value + length.value]


def convert(table):
    """The book of a planners' table, as a list of words: questions 25 and 26, then 1 to 13 of the book. Its plans are the table's policies: a byte for the
    first state, then one for each of the n states of every later stage; the cost of each is minus its expected total reward, over D^H."""
    book, length = (ctypes.c_int32 * TABLE_BOOK_MOST)(), ctypes.c_size_t()
    no = _library().kbest_convert(*_words(table), book, len(book), ctypes.byref(length))
    return _answer(no, book[:length.value])


class Desk:
    """Which rank of one accepted record is whose: a rank, 1 to k, is held on asking and a rider's own on committing. Riders are 0 to 15.

    After any calls on an opened desk no rank is held or committed for two riders, and a rider who was granted a rank can commit, whatever is done for
    others, until they cancel, commit or are granted another, or the desk is opened anew. A refused call leaves the desk as it was.
    """

    def __init__(self):
        """A desk that no record was opened at: every rank is refused with 23."""
        self._desk, self._lock = _library().kbest_desk_fresh(), threading.Lock()

    def _call(self, name, *arguments):
        """Other threads go on during a call, so those on one desk wait for each other here."""
        with self._lock:
            return getattr(_library(), 'kbest_desk_' + name)(ctypes.byref(self._desk), *arguments)

    @property
    def k(self):
        """How many plans the record lists, 0 before one is opened."""
        with self._lock:
            return self._desk.k

    def open(self, record):
        """Opens the desk, also anew, with a record: the questions of accept. It then has the record's k, and nothing is held or committed."""
        _answer(self._call('open', *_bytes(record)))

    def ask(self, rider, rank):
        """Holds a rank for a rider: questions 22 to 24. Another rank that the rider held is free again; they may ask for the same once more."""
        _answer(self._call('ask', _rider(rider), _rank(rank)))

    def commit(self, rider):
        """Makes the rank that a rider holds theirs and ends the hold: questions 22 and 24."""
        _answer(self._call('commit', _rider(rider)))

    def cancel(self, rider):
        """Drops the rank that a rider holds, if any, which is free again, and never a commitment: question 22."""
        _answer(self._call('cancel', _rider(rider)))

    def held(self, rider):
        """The rank that a rider holds; None for none, and for a number that is no rider's. Rank 1 is the plan that show has as 0."""
        return self._call('held', _rider(rider)) or None

    def committed(self, rider):
        """The rank that a rider has committed to; None for none, and for a number that is no rider's."""
        return self._call('committed', _rider(rider)) or None
