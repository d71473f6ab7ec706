"""monday.py: two dispatchers at one desk reserve plans of a record for their riders; prints what each call gives, and whose the ranks are then."""

import sys

import kbest

BOOK = [
    2, 1, 10,                        # D, H, L
    1, 2,                            # posts of each stage
    4, 1, 1,                         # choices of each post
    2, 0, 1, 1, 0, 1, 1, 0, 0, 0,    # left column
    10, 1, 1, 12, 2, 9, 2, 20, 4, 9  # right column
]
ASKED = 4


def answer(call, *arguments):
    try:
        call(*arguments)
    except kbest.Refused as refused:
        return str(refused)
    return 'granted'


def ask(desk, dispatcher, rider, rank):
    print('dispatcher %d: rider %d asks for rank %d: %s' % (dispatcher, rider, rank, answer(desk.ask, rider, rank)))


def commit(desk, dispatcher, rider):
    print('dispatcher %d: rider %d commits: %s' % (dispatcher, rider, answer(desk.commit, rider)))


def cancel(desk, dispatcher, rider):
    print('dispatcher %d: rider %d cancels: %s' % (dispatcher, rider, answer(desk.cancel, rider)))


def reserve(desk):
    ask(desk, 1, 3, 1)
    ask(desk, 2, 7, 1)    # with rider 3
    ask(desk, 2, 7, 2)
    cancel(desk, 1, 3)
    ask(desk, 2, 7, 1)    # free again
    ask(desk, 1, 3, 2)    # rider 7 dropped it when the other was granted
    commit(desk, 1, 3)
    commit(desk, 2, 7)
    commit(desk, 2, 7)    # the hold has ended
    ask(desk, 1, 3, 3)    # committed already
    ask(desk, 2, 16, 3)
    ask(desk, 1, 5, ASKED + 1)
    ask(desk, 1, 5, 3)


def print_riders(desk):
    for rider in range(kbest.RIDERS):
        held, committed = desk.held(rider), desk.committed(rider)
        if held or committed:
            print('rider %d: held %s committed %s' % (rider, held or '-', committed or '-'))


def main():
    desk = kbest.Desk()
    try:
        desk.open(kbest.write(BOOK, ASKED))
    except kbest.Refused as refused:
        print(refused, file=sys.stderr)
        return 1
    print('opened: %d plans' % desk.k)
    reserve(desk)
    print_riders(desk)
    return 0


if __name__ == '__main__':
    sys.exit(main())
