"""planners.py: makes a book of a planners' table and lists the table's policies by their expected total reward."""

import sys

import kbest

# the two states of source document 001, without closing rewards
TABLE = [
    10, 1, 2, 0, 13,                         # D, H, n, the first state, L
    2, 2,                                    # choices of each state
    2, 0, 1, 1, 1, 2, 0, 1, 2, 0, 1, 0, 0,   # left column
    5, 5, 5, 10, 10, -1, 8, 2, 1, 1, 9, 0, 0  # right column
]
ASKED = 3


def print_policy(rank, cost, policy):
    """A reward is minus the cost."""
    print('%d %d%s' % (rank, -cost, ''.join(' -' if c == kbest.NOT_REACHED else ' %d' % c for c in policy)))


def main():
    try:
        book = kbest.convert(TABLE)
        print('book of %d words' % len(book))
        best = kbest.rank(book, ASKED)
    except kbest.Refused as refused:
        print(refused, file=sys.stderr)
        return 1
    print('%d of %d, scale %d' % (len(best), ASKED, kbest.power(TABLE[0], TABLE[1])))
    for j, (cost, policy) in enumerate(best):
        print_policy(j + 1, cost, policy)
    try:
        kbest.convert(TABLE[:-1])
    except kbest.Refused as refused:
        print('without its last word: %s' % refused)
    return 0


if __name__ == '__main__':
    sys.exit(main())
