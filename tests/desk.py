"""The desk of request 2.4, word by word, for desks of any content.

Written from the document alone. It shares nothing with the proved program. Words below are those of the document.
"""

RIDERS = 16


class Desk:
    """k, and for each rider the rank held and the rank committed, 0 for none. Each call gives its number, and a refused one changes nothing."""

    def __init__(self, k=0, held=(0,) * RIDERS, committed=(0,) * RIDERS):
        self.k, self.held, self.committed = k, list(held), list(committed)

    def open(self, number, k):
        """Opening asks the record's questions: number and k are those that accepting the record gives. Nothing is held or committed then."""
        if number == 0:
            self.k, self.held, self.committed = k, [0] * RIDERS, [0] * RIDERS
        return number

    def ask(self, rider, rank):
        """Holds a rank, 1 to k, for a rider, and drops the rider's earlier hold."""
        if not is_rider(rider):
            return 22
        if not 1 <= rank <= self.k:
            return 23
        if any(other != rider for other in self.riders_with(rank)) or self.committed[rider] != 0:
            return 24
        self.held[rider] = rank
        return 0

    def commit(self, rider):
        """Makes the rank held theirs and ends the hold."""
        if not is_rider(rider):
            return 22
        if self.held[rider] == 0:
            return 24
        self.committed[rider], self.held[rider] = self.held[rider], 0
        return 0

    def cancel(self, rider):
        """Drops a hold, if any, and never a commitment."""
        if not is_rider(rider):
            return 22
        self.held[rider] = 0
        return 0

    def held_by(self, rider):
        """0 for no rank, and for a number that is no rider's."""
        return self.held[rider] if is_rider(rider) else 0

    def committed_by(self, rider):
        return self.committed[rider] if is_rider(rider) else 0

    def riders_with(self, rank):
        """The riders that a rank is held or committed for."""
        return [rider for rider in range(RIDERS) if rank in (self.held[rider], self.committed[rider])]

    def given_twice(self):
        """The ranks that are held or committed for two riders: there are none after any calls on an opened desk."""
        return [rank for rank in {*self.held, *self.committed} - {0} if len(self.riders_with(rank)) > 1]


def is_rider(rider):
    return 0 <= rider < RIDERS
