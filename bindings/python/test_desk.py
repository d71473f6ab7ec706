"""Random sequences of calls on desks, put to the library and to the rules of tests/desk.py: after every call number, desk and look-ups must agree.

Desks are fresh, opened, opened anew, or filled with numbers that no call put there; records to open them with are accepted or have a fault. On desks
that were not filled no rank is given twice, and whoever was granted a rank can commit. Each call must have given every number that it can give.
"""

import pathlib
import random
import sys

sys.dont_write_bytecode = True
sys.path.insert(0, str(pathlib.Path(__file__).resolve().parents[2] / 'tests'))

import desk
import kbest
import kinds
import reference
from test_cases import AT_DESK
from test_random import answer, same

SEED = 'desk'
RECORDS, SEQUENCES, CALLS = 400, 360, 72
NO_RIDERS = [18, 255, 2 ** 32 + 3, 2 ** 63, 2 ** 64 - 1, 2 ** 64, 2 ** 64 + 3, -1, -2 ** 64 + 5]
NO_RANKS = [0, 65, 255, 256, 257, 2 ** 32 + 1, 2 ** 64 - 1, 2 ** 64, 2 ** 64 + 1, -1, -2 ** 64 + 1]
LOOKED_UP = [*range(18), *NO_RIDERS]


def drawn_records():
    """(record, number, k) of random records: those that are accepted, and the others."""
    accepted, refused = [], []
    for n in range(RECORDS):
        record = kinds.record_input(random.Random('%s:%d' % (SEED, n)))
        no, _, k = reference.accept(record)
        (refused if no else accepted).append((record, no, k))
    return accepted, refused


class Compared:
    """A desk of the library and one of the rules. Each method is one call, or a change that is none, put to both."""

    def __init__(self, rng, records, seen):
        self.rng, self.records, self.seen, self.done = rng, records, seen, []
        self.filled, self.granted = False, {}    # by rider the rank that they can commit
        self.desk, self.rules = kbest.Desk(), desk.Desk()

    def compare(self):
        inside = self.desk._desk
        same('the desk', (inside.k, list(inside.held), list(inside.committed)), (self.rules.k, self.rules.held, self.rules.committed))
        same('k', self.desk.k, self.rules.k)
        for rider in LOOKED_UP:
            same('held', self.desk.held(rider), self.rules.held_by(rider) or None)
            same('committed', self.desk.committed(rider), self.rules.committed_by(rider) or None)
        same('ranks that are given twice', [] if self.filled else self.rules.given_twice(), [])

    def call(self, name, arguments, want):
        self.done.append('%s%r' % (name, arguments))
        no, _ = answer(getattr(self.desk, name), *arguments)
        same(name, no, want)
        self.seen[name].add(no)
        return no == 0

    def rider(self):
        return self.rng.choice(NO_RIDERS) if self.rng.random() < 0.03 else self.rng.randrange(18)

    def rank(self):
        """One that somebody has, one that is listed or nearly, or any."""
        kind = self.rng.random()
        if kind < 0.2:
            return self.rng.choice(self.rules.held + self.rules.committed)
        return self.rng.choice(NO_RANKS) if kind < 0.25 else self.rng.randint(0, min(self.rules.k, self.rng.choice([6, 18, 255])) + 1)

    def ask(self):
        rider, rank = self.rider(), self.rank()
        if self.call('ask', (rider, rank), self.rules.ask(rider, rank)):
            self.granted[rider] = rank

    def commit(self):
        rider = self.rider()
        done = self.call('commit', (rider,), self.rules.commit(rider))
        if rider in self.granted:
            same('committing what was granted', (done, self.desk.committed(rider)), (True, self.granted.pop(rider)))

    def cancel(self):
        rider = self.rider()
        if self.call('cancel', (rider,), self.rules.cancel(rider)):
            self.granted.pop(rider, None)

    def open(self, records):
        record, no, k = self.rng.choice(records)
        if self.call('open', (record,), self.rules.open(no, k)):
            self.filled, self.granted = False, {}

    def open_accepted(self):
        self.open(self.records[0])

    def open_refused(self):
        self.open(self.records[1])

    def fill(self):
        """Any numbers, with small ones often, so that a rank is given twice or is not listed."""
        most = self.rng.choice([3, 20, 256])
        held, committed = ([self.rng.choice([0, 0, self.rng.randrange(most), 255]) for _ in range(kbest.RIDERS)] for _ in range(2))
        k = self.rng.choice([0, 1, 5, 64, 255, self.rng.randrange(most)])
        self.done.append('fill%r' % ((k, held, committed),))
        self.desk._desk.k, self.desk._desk.held[:], self.desk._desk.committed[:] = k, held, committed
        self.rules, self.filled, self.granted = desk.Desk(k, held, committed), True, {}

    def run(self, start):
        self.compare()
        steps = [self.ask, self.commit, self.cancel, self.open_accepted, self.open_refused]
        for step in start + self.rng.choices(steps, [20, 6, 6, 1, 2], k=CALLS):
            step()
            self.compare()


def main():
    records, seen = drawn_records(), {name: set() for name in AT_DESK}
    for n in range(SEQUENCES):
        compared = Compared(random.Random('%s, sequence %d' % (SEED, n)), records, seen)
        try:
            compared.run([[], [compared.open_accepted], [compared.fill]][n % 3])
        except AssertionError as fault:
            sys.exit('sequence %d, %s\n%s' % (n, fault, '\n'.join(compared.done)))
    same('the numbers that the calls have given', seen, AT_DESK)
    print('%d sequences of %d calls on desks: number, desk and look-ups agree with the rules after each call, and all numbers were given'
          % (SEQUENCES, CALLS))


if __name__ == '__main__':
    main()
