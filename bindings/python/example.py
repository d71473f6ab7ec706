"""example.py FILE: lists the three best plans of a book, also as a screen does, says where plans stand and which keep a limit, files the record in FILE, reads
the file again and prints what it lists."""

import pathlib
import sys

import kbest

BOOK = [
    2, 1, 7,               # D, H, L
    1, 2,                  # posts of each stage
    2, 1, 1,               # choices of each post
    2, 0, 1, 1, 0, 0, 0,   # left column
    10, 1, 1, 12, 2, 4, 9  # right column
]
ASKED = 3
TOO_MANY_PLANS = 30


def check_number(book):
    try:
        kbest.check(book)
    except kbest.Refused as refused:
        return refused.number
    return 0


def print_plan(rank, cost, plan):
    print('%d %d%s' % (rank, cost, ''.join(' -' if c == kbest.NOT_REACHED else ' %d' % c for c in plan)))


def print_list():
    best = kbest.rank(BOOK, ASKED)
    print('%d of %d, scale %d' % (len(best), ASKED, kbest.power(BOOK[0], BOOK[1])))
    for j, (cost, plan) in enumerate(best):
        print_plan(j + 1, cost, plan)
    print('least %d, last %d' % (kbest.least(BOOK), kbest.value(BOOK, best[-1][1])))


def print_screen(book):
    """The costs of the best plans, as a screen asks for them: it does not know how many plans a book has, so it goes through them, and ranks where they are too
    many."""
    try:
        way, best = 'by going through the plans', kbest.rank_small(book, ASKED)
    except kbest.Refused as refused:
        if refused.number != TOO_MANY_PLANS:
            raise
        way, best = 'by ranking', kbest.rank(book, ASKED)
    print('%s, %d of %d:%s' % (way, len(best), ASKED, ''.join(' %d' % cost for cost, _ in best)))


def large():
    """A book of five posts, one a stage, with eight choices each: 8^5 plans. Choice c of each post costs c and leads to the one post of the next stage."""
    lines = [line for _ in range(4) for cost in range(8) for line in ((1, cost), (0, 1))] + [(0, cost) for cost in range(8)]
    return [1, 4, len(lines)] + [1] * 5 + [8] * 5 + [left for left, _ in lines] + [right for _, right in lines]


def screen():
    """A book of two plans, and one with more than kbest.SMALL_MOST."""
    print_screen(BOOK)
    print_screen(large())


def print_standing(book, k, plan):
    found = kbest.find(book, k, plan)
    if found.listed:
        print('of %d: rank %d' % (k, found.value))
    elif found.costs_more:
        print('of %d: costs %d more than the last listed' % (k, found.value))
    else:
        print('of %d: costs the same as the last listed, takes the higher choice at post %d' % (k, found.value))


def find():
    """The second plan of the list, in that list and in the list of one; and the first, where the last cost is made 8, so that both cost the same."""
    first, second = [1, 0, kbest.NOT_REACHED], [0, 0, 0]
    print_standing(BOOK, ASKED, second)
    print_standing(BOOK, 1, second)
    print_standing(BOOK[:-1] + [8], 1, first)


def print_kept(k, marks, m):
    kept = kbest.limit(BOOK, k, marks, m)
    said = 'none in the list' if kept.none_in_list else 'none in the book' if kept.none_in_book else 'rank %d' % kept.rank
    print('at most %d marked, of %d: %s' % (m, k, said))


def limit():
    """The choice that the first plan takes at post 0 is marked: the second keeps off it. Then every choice is, and every day makes two."""
    one, every = [0, 1, 0, 0], [1] * 4
    print_kept(ASKED, one, 0)
    print_kept(1, one, 0)
    print_kept(ASKED, every, 1)


def file_record(path):
    record = kbest.write(BOOK, ASKED)
    path.write_bytes(record)
    print('filed %d bytes' % len(record))


def cost_of(record, j):
    """A record has W in its first four bytes and cost j at 12 + 4W + 8j, low byte first."""
    at = 12 + 4 * int.from_bytes(record[:4], 'little') + 8 * j
    return int.from_bytes(record[at:at + 8], 'little', signed=True)


def print_record(path):
    record = path.read_bytes()
    posts, listed = kbest.accept(record)
    print('accepted: %d posts, %d plans' % (posts, listed))
    for j in range(listed):
        print_plan(j + 1, cost_of(record, j), kbest.show(record, j))


def main(arguments):
    if len(arguments) != 1:
        print('usage: example.py FILE', file=sys.stderr)
        return 2
    path = pathlib.Path(arguments[0])
    print('check %d, of two words %d' % (check_number(BOOK), check_number(BOOK[:2])))
    try:
        print_list()
        screen()
        find()
        limit()
        file_record(path)
        print_record(path)
    except kbest.Refused as refused:
        print(refused, file=sys.stderr)
        return 1
    except OSError as error:
        print('%s: %s' % (path, error.strerror), file=sys.stderr)
        return 1
    return 0


if __name__ == '__main__':
    sys.exit(main(sys.argv[1:]))
