"""The twelve tours of document 01: its books, and its table with what the document says, which test_tours.py compares with reference.py. Tour 9 is as
document 02 has it (2.1).

A row is the tour, the call, its arguments, and the result: the number of a refusal, or what the call gives otherwise.
"""

import reference as ref


def book_a(scale=2, cost=10, closing=9):
    return [scale, 1, 7, 1, 2, 2, 1, 1, 2, 0, 1, 1, 0, 0, 0, cost, 1, 1, 12, 2, 4, closing]


def book_c():
    return ([1, 2, 11, 1, 2, 1, 2, 2, 1, 1] + [1, 0, 1, 1, 1, 0, 1, 0, 1, 0, 0] + [5, 1, 3, 1, 1, 1, 4, 1, 2, 1, 0])


def book_of_tour_10(cost):
    left = [1, 0] * 8 + [0]
    right = [cost, 100] * 8 + [cost]
    return [100, 8, 17] + [1] * 9 + [1] * 9 + left + right


def record_of_a(most):
    """The record of A and K = 3, with K made another."""
    record = bytearray(ref.record(book_a(), 3))
    record[4] = most
    return bytes(record)


PAGE = '2 of 3, scale 2\n1 32 1 0 -\n2 33 0 0 0\n'
ROWS = [
    (1, 'page', (book_a(), 3), PAGE),
    (1, 'rank', (book_a(), 3), [(32, (1, 0, 255)), (33, (0, 0, 0))]),
    (2, 'rank', (book_a(), 1), [(32, (1, 0, 255))]),
    (3, 'rank', (book_a(closing=8), 3), [(32, (0, 0, 0)), (32, (1, 0, 255))]),
    (4, 'rank', (book_a(cost=-10), 2), [(-7, (0, 0, 0)), (32, (1, 0, 255))]),
    (5, 'rank', (book_c(), 64), [(5, (1, 255, 0, 0)), (6, (0, 0, 255, 0)), (9, (0, 1, 255, 0))]),
    (6, 'value', (book_c(), (0, 0, 0, 0)), 17),
    (7, 'rank', (book_a(), 0), 14),
    (7, 'rank', (book_a(), 65), 14),
    (7, 'write', (book_a(), 0, 122), 14),
    (7, 'write', (book_a(), 65, 122), 14),
    (8, 'check', ([],), 1),
    (8, 'least', ([],), 1),
    (8, 'value', ([], ()), 1),
    (8, 'rank', ([], 3), 1),
    (8, 'write', ([], 3, 122), 1),
    (9, 'check', (book_a(scale=3),), 'accepted'),
    (9, 'least', (book_a(scale=3),), 'cost 43'),
    (9, 'value', (book_a(scale=3), (1, 0, 255)), 'cost 44'),
    (10, 'check', (book_of_tour_10(44),), 'accepted'),
    (10, 'check', (book_of_tour_10(45),), 13),
    (10, 'least', (book_of_tour_10(45),), 13),
    (10, 'value', (book_of_tour_10(45), (0,) * 9), 13),
    (11, 'write', (book_a(), 3, 122), 'written'),
    (11, 'write', (book_a(), 3, 121), 18),
    (12, 'accept', (record_of_a(2),), 'accepted'),
    (12, 'accept', (record_of_a(1),), 20),
]

# Tour 9 by hand. A with D = 3: each choice of post 0 has weights that add to 2, so a day stops there with weight 1.
#   choice 0 (cost 10): to post 1, 1 × (10 + 4) = 14; to post 2, 1 × (10 + 9) = 19; stopped, 1 × 10 = 10. The sum is 43, the weights add to 3.
#   choice 1 (cost 12): to post 1, 2 × (12 + 4) = 32; stopped, 1 × 12 = 12. The sum is 44, the weights add to 3.
# A with D = 1: the weights of choice 0 add to 1 + 1 = 2, more than D.
#
# Its further rows stand after all others, so that the stored cases of those keep their numbers.
MORE_ROWS = [
    (9, 'rank', (book_a(scale=3), 3), [(43, (0, 0, 0)), (44, (1, 0, 255))]),
    (9, 'page', (book_a(scale=3), 3), '2 of 3, scale 3\n1 43 0 0 0\n2 44 1 0 -\n'),
    (9, 'value', (book_a(scale=3), (0, 0, 0)), 'cost 43'),
    (9, 'write', (book_a(scale=3), 3, 122), 'written'),
    (9, 'accept', (ref.record(book_a(scale=3), 3),), 'accepted'),
    (9, 'check', (book_a(scale=1),), 12),
    (9, 'least', (book_a(scale=1),), 12),
    (9, 'value', (book_a(scale=1), (1, 0, 255)), 12),
    (9, 'rank', (book_a(scale=1), 3), 12),
    (9, 'page', (book_a(scale=1), 3), 'refused 12\n'),
    (9, 'write', (book_a(scale=1), 3, 122), 12),
]

TABLE = ROWS + MORE_ROWS
