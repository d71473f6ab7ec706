"""The commands of the program `cases`, as its head lists them, and what it has to print for them by reference.py, desk.py and rewards.py."""

import collections
import contextlib

import desk
import reference as ref
import rewards
import search

KINDS = {'end': 'e', 'read': 'i', 'text': 't', 'book': 'm', 'rank': 'r', 'write': 'w', 'check': 'c', 'least': 'l', 'value': 'v', 'power': 'd', 'accept': 'a',
         'show': 's', 'browse': 'b', 'page': 'p', 'open': 'o', 'ask': 'h', 'commit': 'y', 'cancel': 'n', 'fill': 'f', 'convert': 'x',
         'find': 'q', 'limit': 'u', 'rank_small': 'g'}
PLACES, MOST_COSTS, MOST_WORDS, FILL = 40960, 80, 5400, 77
OUT, BOOK, TEXT = 8, 21504, 38400    # after k: where lent slices and records are put, books, and plans, titles and numbers for the desk
PRINTED = 32
PRIME = 2 ** 55 - 55

# k is None where the command has no use for it
Command = collections.namedtuple('Command', 'kind x y z k payload', defaults=(0, 0, 0, None, b''))

# vast: the book has too many plans to enumerate, and search.py gives the list
Case = collections.namedtuple('Case', 'title commands vast', defaults=(False,))


def little(n, size):
    return n.to_bytes(size, 'little')


def book_bytes(words):
    return b''.join(word.to_bytes(4, 'little', signed=True) for word in words)


def head(words, most, k):
    """The first 12 bytes of a record."""
    return little(len(words), 4) + little(most, 4) + little(k, 4)


def limit_bytes(marks, m):
    """m in eight bytes, then the marks."""
    return little(m, 8) + bytes(marks)


# ---- commands

def put(content, at=OUT):
    content = bytes(content)
    return Command('read', at, at + len(content), payload=content)


def book(words):
    """The bytes before the book, if there are any, make it a record or an input of the printing program."""
    return [put(book_bytes(words), BOOK), Command('book', BOOK, BOOK + 4 * len(words))]


def value(plan, at=TEXT):
    return [put(plan, at), Command('value', at, at + len(plan))]


def find(k, plan, at=TEXT):
    return [put(plan, at), Command('find', at, at + len(plan), k=k)]


def limit(k, marks, m, at=TEXT):
    return [put(limit_bytes(marks, m), at), Command('limit', at, at + 8 + len(marks), k=k)]


def rank(k, places, room, at=OUT):
    return Command('rank', at, at + room, places, k)


def rank_small(k, places, room, at=OUT):
    return rank(k, places, room, at)._replace(kind='rank_small')


def write(k, room):
    return Command('write', OUT, OUT + room, k=k)


def convert(room):
    """The last book, taken as a table, into a slice of so many words."""
    return Command('convert', OUT, OUT + 4 * room)


def accept(length, at=OUT):
    return Command('accept', at, at + length)


def show(j, length, at=OUT):
    return [Command(kind, at, at + length, k=j) for kind in ('show', 'browse')]


def page(length, at=BOOK - 4):
    return Command('page', at, at + length)


def numbers(kind, *row):
    """A command at the desk with its numbers, of eight bytes each."""
    content = b''.join(little(n, 8) for n in row)
    return [put(content, TEXT), Command(kind, TEXT, TEXT + len(content))]


def opening(record):
    return [put(record), Command('open', OUT, OUT + len(record))]


def ask(rider, rank):
    return numbers('ask', rider, rank)


def commit(rider):
    return numbers('commit', rider)


def cancel(rider):
    return numbers('cancel', rider)


def fill(k, held, committed):
    content = bytes([k, *held, *committed])
    return [put(content, TEXT), Command('fill', TEXT, TEXT + len(content))]


# ---- the input

def encode(c):
    return KINDS[c.kind].encode() + little(c.z, 1) + little(c.x, 2) + little(c.y, 2) + c.payload


def whole(case):
    """The commands with the title before them, and with k put where it changes."""
    k = None
    yield put(case.title.encode() + b'\n', TEXT)._replace(kind='text')
    for c in case.commands:
        if c.k not in (None, k):
            k = c.k
            yield put(little(k, 8), 0)
        yield c
    yield Command('end')


def encoded(cases):
    return b''.join(encode(c) for case in cases for c in whole(case))


# ---- what the program has to print

def row(*figures):
    return ''.join(' %d' % x for x in figures) + '\n'


def number_at(part, at):
    return int.from_bytes(part[at:at + 8], 'little') if len(part) >= at + 8 else 0


def bytes_row(content):
    if len(content) <= PRINTED:
        return row(*content)
    digest = 0
    for x in content:
        digest = (digest * 257 + x + 1) % PRIME
    return row(*content[:PRINTED])[:-1] + ' ..' + row(len(content), digest)


class Machine:
    """The three places of a case. A call prints its number and two figures, then all of the lent slices, or all of the desk."""

    def __init__(self):
        self.words, self.bytes, self.desk = [], bytearray([FILL]) * PLACES, desk.Desk()

    def run(self, c):
        text = getattr(self, c.kind)(c, bytes(self.bytes[c.x:c.y]))
        return '' if text is None else text if c.kind == 'text' else KINDS[c.kind] + text

    def end(self, c, part):
        pass

    def read(self, c, part):
        self.bytes[c.x:c.y] = c.payload

    def text(self, c, part):
        self.bytes[c.x:c.y] = c.payload
        return c.payload.decode()

    def book(self, c, part):
        self.words = ref.words_of(part)

    def lend(self, call, c, part):
        costs, lent = [FILL] * min(c.z, MOST_COSTS), bytearray(part)
        figures = call(costs, lent)
        self.bytes[c.x:c.y] = lent
        return row(*figures, 0) + row(*costs) + bytes_row(lent)

    def rank(self, c, part):
        return self.lend(lambda costs, plans: ref.rank(self.words, c.k, costs, plans), c, part)

    def rank_small(self, c, part):
        return self.lend(lambda costs, plans: ref.rank_small(self.words, c.k, costs, plans), c, part)

    def write(self, c, part):
        return self.lend(lambda costs, lent: ref.write(self.words, c.k, lent), c, part)

    def convert(self, c, part):
        def call(costs, lent):
            words = ref.words_of(lent)[:MOST_WORDS]
            figures = rewards.convert(self.words, words)
            lent[:4 * len(words)] = book_bytes(words)
            return figures
        return self.lend(call, c, part)

    def check(self, c, part):
        return row(ref.check(self.words), 0, 0)

    def least(self, c, part):
        return row(*ref.least(self.words), 0)

    def value(self, c, part):
        return row(*ref.value(self.words, part), 0)

    def find(self, c, part):
        return row(*ref.find(self.words, c.k, part))

    def limit(self, c, part):
        return row(*ref.limit(self.words, c.k, part[8:], number_at(part, 0)))

    def power(self, c, part):
        return row(0, c.k ** c.z if 1 <= c.k <= 100 and c.z <= 8 else 0, 0)

    def accept(self, c, part):
        return row(*ref.accept(part))

    def show(self, c, part):
        return bytes_row(ref.show(part, c.k))

    browse = show

    def page(self, c, part):
        return '\n' + ref.page(part).decode()

    def at_desk(self, no, part):
        rider = number_at(part, 0)
        figures = row(no, self.desk.held_by(rider), self.desk.committed_by(rider))
        return figures + row(self.desk.k) + row(*self.desk.held) + row(*self.desk.committed)

    def open(self, c, part):
        no, _, k = ref.accept(part)
        return self.at_desk(self.desk.open(no, k), part)

    def ask(self, c, part):
        return self.at_desk(self.desk.ask(number_at(part, 0), number_at(part, 8)), part)

    def commit(self, c, part):
        return self.at_desk(self.desk.commit(number_at(part, 0)), part)

    def cancel(self, c, part):
        return self.at_desk(self.desk.cancel(number_at(part, 0)), part)

    def fill(self, c, part):
        if not part:
            return self.cancel(c, part)
        self.desk = desk.Desk(part[0], part[1:1 + desk.RIDERS], part[1 + desk.RIDERS:])


def transcript(case):
    """Each command of a case with what it prints."""
    machine = Machine()
    with search.instead_of_enumeration() if case.vast else contextlib.nullcontext():
        return [(c, machine.run(c)) for c in whole(case)]


def books_of(case):
    """The words of each book that a case makes."""
    machine = Machine()
    for c in whole(case):
        if c.kind in ('read', 'book', 'convert'):
            machine.run(c)
        if c.kind == 'book':
            yield machine.words


def expected(cases):
    return ''.join(text for case in cases for _, text in transcript(case))


def describe(case):
    out = []
    for c, text in transcript(case):
        figures = ''.join(' %s=%d' % (name, n) for name, n in zip('xyzk', c[1:5]) if n)
        content = ''.join(' %d' % x for x in (ref.words_of(c.payload) if c.x == BOOK else c.payload))
        out.append('> ' + c.kind + figures + content + '\n' + text)
    return ''.join(out)
