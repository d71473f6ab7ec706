#!/usr/bin/env python3
"""Tests of tools/book.py: round trips over random books, records read back, and every message. Run: python3 tests/test_book.py"""

import fractions
import os
import random
import re
import subprocess
import sys
import tempfile
import unittest

HERE = os.path.dirname(os.path.abspath(__file__))
sys.path[:0] = [HERE, os.path.join(HERE, '..', 'tools')]

import book
import books
import reference as ref
import tours

TOOL = os.path.join(HERE, '..', 'tools', 'book.py')
BOOK_A = '''
scale 2            # chances in halves
stage 0
post 0
choice 0 cost 10
next 0 weight 1
next 1 weight 1
choice 1 cost 12
next 0 weight 2
stage 1
post 1
choice 0 cost 4
post 2
choice 0 cost 9
'''


def stop_weights(words):
    """The missing part of each choice that a line can say it of, in order."""
    found = ref.Book(words)
    parts = [found.scale - sum(weight for _, weight in nexts)
             for stage, here in zip(found.stage, found.choices) if stage < found.stages for _, nexts in here]
    return [part for part in parts if 1 <= part < 2 ** 31]


def drawn(count):
    """Good books, books with stops, with closed choices and with depots, books with faults, and words that are no book."""
    rng = random.Random('text')
    for _ in range(count):
        for shapes in (books.WITHOUT_STOPS + [books.many], books.WITH_STOPS + [books.stops_many], books.WITH_CLOSED, books.WITH_DEPOTS):
            words = rng.choice(shapes)(rng)
            yield words
            if not ref.check(words):
                yield books.broken(rng, words, rng.sample(books.BREAKS + books.BREAKS_CLOSED + books.BREAKS_DEPOTS, rng.randint(1, 3)))
        yield books.nine(rng)
        yield books.wild(rng)
    yield books.large(rng)
    yield books.stops_large(rng)
    yield books.closed_large(rng)


class RoundTrips(unittest.TestCase):
    def test_book_a(self):
        self.assertEqual(book.words_of_text(BOOK_A.encode()), tours.book_a())

    def test_every_book(self):
        for words in drawn(200):
            data = book.bytes_of_words(words)
            text = book.to_text(data)
            self.assertEqual(book.to_binary(text.encode()), data)
            self.assertEqual('words' in text, book.taken_apart(words) is None)

    def test_accepted_books_have_lines(self):
        """Every book that passes 1 to 9 is written as stages, posts and choices, with a line for each of its lines and posts."""
        for words in drawn(200):
            if ref.check(words) == 0 or ref.check(words) > 9:
                lines = book.text_of_words(words).split('\n')
                count = [sum(1 for line in lines if line.split()[:1] == [name]) for name in ('stage', 'post', 'choice', 'next', 'depot')]
                self.assertEqual(count[0], words[1] + 1)
                self.assertEqual(count[1], sum(words[3:4 + words[1]]))
                self.assertEqual(sum(count[2:]), words[2])

    def test_count_in_front(self):
        for k in (0, 3, 64, 2 ** 32 - 1):
            data = book.to_binary(BOOK_A.encode(), k)
            self.assertEqual(data, k.to_bytes(4, 'little') + book.bytes_of_words(tours.book_a()))
        self.assertEqual(ref.page(book.to_binary(BOOK_A.encode(), 3)), b'2 of 3, scale 2\n1 32 1 0 -\n2 33 0 0 0\n')

    def test_no_words(self):
        self.assertEqual(book.to_text(b''), 'words\n')
        self.assertEqual(book.to_binary(b'words\n'), b'')

    def test_ends_of_32_bits(self):
        text = b'scale -2147483648\nstage 0\npost 0\nchoice 0 cost 2147483647'
        self.assertEqual(book.words_of_text(text)[0], -2 ** 31)
        self.assertEqual(book.words_of_text(text)[-1], 2 ** 31 - 1)

    def test_many_digits(self):
        """More than Python turns into a number by itself."""
        self.assertEqual(book.words_of_text(b'words ' + b'0' * 5000 + b'12 -' + b'0' * 5000 + b'12 -0 00'), [12, -12, 0, 0])
        for sign in (b'', b'-'):
            with self.assertRaises(book.Refused) as caught:
                book.words_of_text(b'words ' + sign + b'9' * 5000)
            self.assertIn('does not fit 32 bits', str(caught.exception))


REFUSED_PARCEL = [4, 2, 8, 1, 1, 1, 2, 2, 1] + [1, 0, 1, 0, 1, 0, 0, 0] + [10, 3, 14, 4, 6, 3, 8, 5]
NO_STOP = 'scale 4\nstage 0\npost 0\nchoice 0 cost 1\nnext 0 weight 1\nnext 1 weight 2\nstage 1\npost 1\nchoice 0 cost 1\npost 2\nchoice 0 cost 1'


def with_line(text, after, line):
    """The text with one more line after so many."""
    lines = text.split('\n')
    return '\n'.join(lines[:after] + [line] + lines[after:]).encode()


class Stops(unittest.TestCase):
    def drawn(self):
        rng = random.Random('stops')
        for _ in range(150):
            yield rng, rng.choice(books.WITH_STOPS)(rng)

    def stops_of(self, text):
        """(line from 1, weight) of each line stop."""
        rows = [(n, line.split()) for n, line in enumerate(text.split('\n'), 1)]
        return [(n, int(parts[2])) for n, parts in rows if parts[:1] == ['stop']]

    def refused(self, data, reason):
        with self.assertRaises(book.Refused, msg=data) as caught:
            book.words_of_text(data)
        self.assertEqual(str(caught.exception), reason)

    def without(self, text):
        return '\n'.join(line for line in text.split('\n') if 'stop' not in line)

    def test_refused_parcel(self):
        with open(os.path.join(HERE, '..', 'examples', 'refused_parcel.txt'), 'rb') as f:
            self.assertEqual(book.words_of_text(f.read()), REFUSED_PARCEL)
        self.assertEqual(book.text_of_words(REFUSED_PARCEL), '''scale 4

stage 0
  post 0
    choice 0 cost 10
      next 0 weight 3    # post 1
      stop weight 1
    choice 1 cost 14
      next 0 weight 4    # post 1

stage 1
  post 1
    choice 0 cost 6
      next 0 weight 3    # post 2
      stop weight 1
    choice 1 cost 8
      stop weight 4

stage 2
  post 2
    choice 0 cost 5
''')

    def test_written_where_a_part_is_missing(self):
        """A line for each choice before the last stage that leaves a part, below its next posts; and the words are the same without it."""
        total = 0
        for _, words in self.drawn():
            text = book.text_of_words(words)
            stops = self.stops_of(text)
            self.assertEqual([weight for _, weight in stops], stop_weights(words))
            lines = text.split('\n')
            for n, _ in stops:
                self.assertNotIn('next', lines[n])    # the line after it
            self.assertEqual(book.words_of_text(text.encode()), words)
            self.assertEqual(book.words_of_text(self.without(text).encode()), words)
            total += len(stops)
        self.assertGreater(total, 500)

    def test_none_where_weights_add_to_the_scale(self):
        for words in (tours.book_a(), tours.book_c(), tours.book_of_tour_10(44)):
            self.assertNotIn('stop', book.text_of_words(words))

    def test_number_due(self):
        """Another number is refused at its line, and so is a second line."""
        for rng, words in self.drawn():
            text = book.text_of_words(words)
            if not stop_weights(words):
                continue
            n, weight = rng.choice(self.stops_of(text))
            other = rng.choice([weight + 1, weight - 1, 0, -weight, 2 ** 31 - 1])
            lines = text.split('\n')
            lines[n - 1] = 'stop weight %d' % other
            self.refused('\n'.join(lines).encode(), 'line %d: stop weight %d is written where stop weight %d is due' % (n, other, weight))
            self.refused(with_line(text, n, 'stop weight %d' % weight), 'line %d: a second line "stop" in one choice' % (n + 1))

    def test_anywhere_in_its_choice(self):
        words = book.words_of_text(NO_STOP.encode())
        for after in (4, 5, 6):
            self.assertEqual(book.words_of_text(with_line(NO_STOP, after, 'stop weight 1')), words)
            self.refused(with_line(NO_STOP, after, 'stop weight 2'), 'line %d: stop weight 2 is written where stop weight 1 is due' % (after + 1))

    def test_scale_after_it(self):
        """It is judged when the text has ended, and its own line is named."""
        text = with_line(NO_STOP, 6, 'stop weight 1').decode().split('\n')[1:]
        self.assertEqual(book.words_of_text('\n'.join(text + ['scale 4']).encode()), book.words_of_text(NO_STOP.encode()))
        self.refused('\n'.join(text + ['scale 5']).encode(), 'line 6: stop weight 1 is written where stop weight 2 is due')
        self.refused('\n'.join(text + ['scale 3']).encode(), 'line 6: a line "stop" where no part is missing: the weights add to 3, and the scale is 3')
        self.refused('\n'.join(text).encode(), 'line 11: the text ends without a line "scale"')

    def test_first_fault_is_named(self):
        text = with_line(with_line(NO_STOP, 11, 'stop weight 4').decode(), 6, 'stop weight 9')
        self.refused(text, 'line 7: stop weight 9 is written where stop weight 1 is due')
        self.refused(with_line(NO_STOP, 11, 'stop weight 4'), 'line 12: a line "stop" at the last stage')

    def test_weights_that_no_book_has(self):
        """Nothing is judged but the number: any weights and any scale read back, with a line wherever the missing part is a number from 1 on that fits."""
        seen = set()
        for rng, words in self.drawn():
            at = books.Places(words)
            for _ in range(rng.randint(1, 4)):
                words[rng.choice([0] + [at.right + i for i in range(words[2])])] = rng.choice([0, -1, 1, -7, 2 ** 31 - 1, -2 ** 31, rng.randint(-9, 9)])
            text = book.text_of_words(words)
            self.assertEqual([weight for _, weight in self.stops_of(text)], stop_weights(words))
            self.assertEqual(book.words_of_text(text.encode()), words)
            seen.update(stop_weights(words))
        self.assertTrue(any(part > 2 ** 30 for part in seen))

    def test_more_than_32_bits(self):
        """Weights below 0 can leave more than a number of the text can say. There no line stands, and none can be written."""
        for scale, part in ((2 ** 31 - 2, 2 ** 31 - 1), (2 ** 31 - 1, 2 ** 31)):
            words = books.build(scale, [1, 1], [[(0, [(0, -1)])], [(0, [])]])
            text = book.text_of_words(words)
            self.assertEqual(self.stops_of(text), [(7, part)] if part < 2 ** 31 else [])
            self.assertEqual(book.words_of_text(text.encode()), words)
        self.refused(with_line(text, 6, 'stop weight 2147483647'), 'line 7: stop weight 2147483647 is written where stop weight 2147483648 is due')
        self.refused(with_line(text, 6, 'stop weight 2147483648'), 'line 7: 2147483648 does not fit 32 bits')


CLOSED_BRIDGE = [4, 2, 18, 1, 2, 2, 3, 1, 3, 1, 1] + [1, 0, 2, 0, 1, 1, 1, 1, 0, 1, 0, 2, 0, 1, 1, 1, 0, 0] \
    + [5, 4, 6, 1, 3, 8, 4, 200000, 4, 200000, 4, 9, 3, 1, 12, 4, 2, 1]


class Closed(unittest.TestCase):
    def drawn(self):
        rng = random.Random('closed')
        for _ in range(150):
            yield rng, rng.choice(books.WITH_CLOSED)(rng)

    def choices_of(self, text):
        """The lines of choices, each without its first two words."""
        return [line.split()[2:] for line in text.split('\n') if line.split()[:1] == ['choice']]

    def test_closed_bridge(self):
        with open(os.path.join(HERE, '..', 'examples', 'closed_bridge.txt'), 'rb') as f:
            self.assertEqual(book.words_of_text(f.read()), CLOSED_BRIDGE)
        self.assertEqual(self.choices_of(book.text_of_words(CLOSED_BRIDGE)).count(['closed']), 2)

    def test_written_where_the_cost_is_the_mark(self):
        """A word for each closed choice and a number for each other, and all lines below; the words are the same with the number of the mark."""
        found = {'closed': 0, 'cost': 0}
        for _, words in self.drawn():
            text, costs = book.text_of_words(words), [cost for here in ref.Book(words).choices for cost, _ in here]
            self.assertEqual(self.choices_of(text), [['closed'] if cost == ref.CLOSED else ['cost', str(cost)] for cost in costs])
            self.assertEqual(book.words_of_text(text.encode()), words)
            self.assertEqual(book.words_of_text(text.replace('closed', 'cost 200000').encode()), words)
            for first, *_ in self.choices_of(text):
                found[first] += 1
            opened = book.text_of_words(books.with_cost(words, books.closures(words), 7))
            self.assertEqual(text.replace('closed', 'cost 7'), opened)
        self.assertGreater(min(found.values()), 500, found)

    def test_near_the_mark(self):
        """Other costs that question 10 refuses are written as they are."""
        for cost in (-200000, 199999, 200001, 100001):
            text = book.text_of_words(books.with_cost(CLOSED_BRIDGE, [(0, 0), (3, 0)], cost))
            self.assertEqual(self.choices_of(text).count(['cost', str(cost)]), 2)

    def test_where_no_cost_stands(self):
        """200,000 is a word of its own only as a cost."""
        words = books.build(200000, [1, 1], [[(1, [(200000, 200000)])], [(200000, [])]])
        text = book.text_of_words(words)
        self.assertEqual(text.count('closed'), 1)
        self.assertEqual(text.count('200000'), 3)
        self.assertEqual(book.words_of_text(text.encode()), words)


DEPOTS = [4, 1, 10, 1, 2, 2, 3, 2] + [2, 0, 1, 1, 0, 0, 0, 0, 0, 0] + [10, 3, 1, 13, 4, 6, 4, 200000, 2, 2]


class Depots(unittest.TestCase):
    def drawn(self):
        rng = random.Random('depots')
        for _ in range(100):
            yield rng, rng.choice(books.WITH_DEPOTS)(rng)

    def names_of(self, text):
        """The first word of each line of a choice, in order."""
        return [line.split()[0] for line in text.split('\n') if line.split()[:1] in (['choice'], ['depot'])]

    def test_example(self):
        with open(os.path.join(HERE, '..', 'examples', 'depots.txt'), 'rb') as f:
            self.assertEqual(book.words_of_text(f.read()), DEPOTS)
        self.assertEqual(self.names_of(book.text_of_words(DEPOTS)), ['choice'] * 2 + ['depot'] * 5)
        self.assertIn('    depot 1 cost 4\n    depot 2 closed\n  post 2\n', book.text_of_words(DEPOTS))

    def test_written_where_a_last_post_has_several(self):
        """The word depot for each choice of a last post that has more than one, and choice for every other; with choice for all the words are the same."""
        found = {'choice': 0, 'depot': 0}
        for _, words in self.drawn():
            text, several = book.text_of_words(words), {*books.depots_at(words)}
            names = self.names_of(text)
            self.assertEqual(names, ['depot' if place in several else 'choice' for place in books.every_choice(ref.Book(words))])
            for other in (text, text.replace('depot', 'choice')):
                self.assertEqual(book.words_of_text(other.encode()), words)
            for name in names:
                found[name] += 1
        self.assertGreater(min(found.values()), 500, found)

    def test_one_closing_choice(self):
        """Where no last post has several the word is not written, and where one has it may stand for its one choice too."""
        for words in (tours.book_a(), tours.book_c(), CLOSED_BRIDGE):
            text = book.text_of_words(words)
            self.assertNotIn('depot', text)
            at = text.rindex('stage')
            self.assertEqual(book.words_of_text((text[:at] + text[at:].replace('choice', 'depot')).encode()), words)

    def test_before_the_last_stage(self):
        """It is judged when the text has ended, and the first such line is named."""
        text = book.text_of_words(tours.book_c()).replace('choice', 'depot')
        with self.assertRaises(book.Refused) as caught:
            book.words_of_text(text.encode())
        self.assertEqual(str(caught.exception), 'line 5: a line "depot" before the last stage')

    def test_record(self):
        """The plans of a record have depots where its book has."""
        text = book.record_to_text(ref.record(DEPOTS, 2))
        self.assertTrue(text.startswith('# a record: a book of 28 words, K = 2, k = 2\n\n' + book.text_of_words(DEPOTS)))
        self.assertTrue(text.endswith('''
# plan 1: cost 54 / 4 = 13.5
#   post 0 choice 0
#   post 1 depot 1
#   post 2 depot 0
# plan 2: cost 54 / 4 = 13.5
#   post 0 choice 0
#   post 1 depot 1
#   post 2 depot 1
'''))
        self.assertEqual(book.words_of_text(text.encode()), DEPOTS)


MAINTENANCE = [10, 4, 42, 1, 2, 3, 3, 3, 1, 2, 2, 2, 2, 2, 2, 2, 2, 1, 1, 1] \
    + [2, 0, 1, 1, 0, 2, 0, 1, 1, 0, 2, 1, 2, 1, 0, 2, 0, 1, 1, 0, 2, 1, 2, 1, 0, 0, 1, 0, 2, 0, 1, 1, 0, 2, 1, 2, 1, 0, 0, 0, 0, 0] \
    + [100, 7, 3, -55, 10, -70, 6, 4, -40, 10, -50, 6, 4, -55, 10, -70, 5, 5, -40, 10, -50, 5, 5, -30, 10, -5, -55, 10, -70, 2, 8, -40, 10, -50, 2, 8, -30, 10,
       -5, -30, -10, -5]
MAINTAIN = [0] + [1, 0] * 8 + [0] * 3


class Marks(unittest.TestCase):
    def drawn(self):
        rng = random.Random('marks')
        for _ in range(200):
            yield rng, rng.choice(books.ALL_SHAPES + 3 * books.WITH_CLOSED)(rng)

    def with_marks(self, text, marks):
        """The text with the word marked at the end of the line of each choice that has a mark."""
        marks, lines = [*marks], text.split('\n')
        for n, line in enumerate(lines):
            if line.split()[:1] in (['choice'], ['depot']) and marks.pop(0):
                lines[n] += ' marked'
        self.assertEqual(marks, [])
        return '\n'.join(lines)

    def test_example(self):
        with open(os.path.join(HERE, '..', 'examples', 'maintenance.txt'), 'rb') as f:
            data = f.read()
        self.assertEqual(book.book_and_marks(data), (MAINTENANCE, MAINTAIN))
        for line in data.decode().split('\n'):
            if line.strip().startswith('choice'):
                self.assertEqual('marked' in line, '# maintain' in line)

    def test_every_book(self):
        """A mark for each choice in the order of the book, closed ones and depots too; the words are those of the text without marks."""
        found = {0: 0, 1: 0, 'closed': 0, 'depot': 0}
        for rng, words in self.drawn():
            marks = [rng.randrange(2) for _ in books.every_choice(ref.Book(words))]
            text = self.with_marks(book.text_of_words(words), marks)
            self.assertEqual(book.book_and_marks(text.encode()), (words, marks))
            self.assertEqual(book.words_of_text(text.encode()), words)
            self.assertEqual(book.to_marks(text.encode()), bytes(marks))
            self.assertEqual(book.book_and_marks(book.text_of_words(words).encode()), (words, [0] * len(marks)))
            for mark in marks:
                found[mark] += 1
            for word in ('closed', 'depot'):
                found[word] += sum('marked' in line for line in text.split('\n') if word in line)
        self.assertGreater(min(found.values()), 100, found)

    def test_plain_words(self):
        """The numbers of all lines marks, wherever they stand among the lines words; any bytes, and as many as are given."""
        for text, words, marks in (('words 1 2', [1, 2], []), ('words', [], []), ('words 1\nmarks', [1], []), ('words\nmarks 0 1 2 255', [], [0, 1, 2, 255]),
                                   ('marks 1 0\nwords 5\nmarks 7\nwords -6', [5, -6], [1, 0, 7])):
            self.assertEqual(book.book_and_marks(text.encode()), (words, marks))
            self.assertEqual(book.words_of_text(text.encode()), words)
            self.assertEqual(book.to_marks(text.encode()), bytes(marks))

    def test_not_written(self):
        """No word of a book says what is marked, so the text of its words has no marks."""
        for words in (MAINTENANCE, tours.book_a(), [1, 2]):
            self.assertNotIn('mark', book.text_of_words(words))


class Records(unittest.TestCase):
    def test_closed(self):
        """The book of a record is written with its closed choices, and its plans take none."""
        text = book.record_to_text(ref.record(CLOSED_BRIDGE, 4))
        self.assertTrue(text.startswith('# a record: a book of 47 words, K = 4, k = 2\n\n' + book.text_of_words(CLOSED_BRIDGE)))
        self.assertEqual(book.words_of_text(text.encode()), CLOSED_BRIDGE)
        for post, choice in re.findall(r'^#   post (\d+) choice (\d+)$', text, re.M):
            self.assertNotIn((int(post), int(choice)), books.closures(CLOSED_BRIDGE))

    def test_stops(self):
        """The book of a record is written with its stops."""
        record = ref.record(REFUSED_PARCEL, 4)
        text = book.record_to_text(record)
        self.assertTrue(text.startswith('# a record: a book of 25 words, K = 4, k = 4\n\n' + book.text_of_words(REFUSED_PARCEL)))
        self.assertIn('\n      stop weight 4\n', text)
        self.assertEqual(book.words_of_text(text.encode()), REFUSED_PARCEL)

    def test_book_a(self):
        text = book.record_to_text(ref.record(tours.book_a(), 3))
        self.assertTrue(text.startswith('# a record: a book of 22 words, K = 3, k = 2\n\nscale 2\n'))
        self.assertTrue(text.endswith('''
# plan 1: cost 32 / 2 = 16
#   post 0 choice 1
#   post 1 choice 0
# plan 2: cost 33 / 2 = 16.5
#   post 0 choice 0
#   post 1 choice 0
#   post 2 choice 0
'''))

    def test_random_records(self):
        """The plans and costs that are read back from the text are those of the list, and the rest of the text is the book."""
        rng = random.Random('records')
        for _ in range(120):
            words = books.draw(rng, rng.choice(books.ALL_SHAPES))
            if ref.check(words) or ref.plan_no(words):
                continue
            k = rng.randint(1, 64)
            text = book.record_to_text(ref.record(words, k))
            self.assertEqual(book.words_of_text(text.encode()), words)
            whole, found = words[0] ** words[1], []
            for line in text.split('\n'):
                head = re.fullmatch(r'# plan (\d+): cost (-?\d+) / (\d+) = (about )?(-?[\d.]+)', line)
                row = re.fullmatch(r'#   post (\d+) (choice|depot) (\d+)', line)
                if head:
                    self.assertEqual((int(head[1]), int(head[3])), (len(found) + 1, whole))
                    away = abs(fractions.Fraction(head[5]) - fractions.Fraction(int(head[2]), whole))
                    self.assertTrue(0 < away <= fractions.Fraction(1, 2 * 10 ** 12) if head[4] else away == 0)
                    found.append((int(head[2]), [255] * ref.Book(words).posts))
                elif row:
                    found[-1][1][int(row[1])] = int(row[3])
            self.assertEqual([(cost, tuple(plan)) for cost, plan in found], ref.ranking(words, k))

    def test_decimal(self):
        for top, bottom, text in ((33, 2, '16.5'), (-33, 2, '-16.5'), (0, 7, '0'), (1, 3, 'about 0.333333333333'), (-2, 3, 'about -0.666666666667'),
                                  (-1, 10 ** 13, 'about 0'), (1, 8, '0.125'), (10, 1, '10'), (2 * 10 ** 12 - 1, 2 * 10 ** 12, 'about 1')):
            self.assertEqual(book.decimal(top, bottom), text)

    def test_messages(self):
        record = ref.record(tours.book_a(), 3)
        bent = bytearray(record)
        bent[12 + 8] = 6
        zero = bytearray(record)
        zero[12] = 0
        for data, reason in ((b'', 'the file has 0 bytes, and a record begins with 12'),
                             (record[:99], 'the record says that its book has 22 words, and only 87 bytes follow'),
                             (record[:-1], 'after the book there are 21 bytes, and 2 plans of 3 posts take 22'),
                             (record + b'x', 'after the book there are 23 bytes, and 2 plans of 3 posts take 22'),
                             (bent, 'the words of the book do not divide into stages, posts and choices'),
                             (zero, 'D^H is 0')):
            with self.assertRaises(book.Refused) as caught:
                book.record_to_text(bytes(data))
            self.assertEqual(str(caught.exception), reason)


MESSAGES = [
    ('', 'line 1: the text ends without a line "scale"'),
    ('# nothing\n\n', 'line 3: the text ends without a line "scale"'),
    ('stage 0\npost 0', 'line 2: the text ends without a line "scale"'),
    ('scale 2\n', 'line 2: the text ends without a line "stage"'),
    ('scale 2\nplace 0', 'line 2: unknown word "place"'),
    ('scale two', 'line 1: "two" is not a whole number'),
    ('scale 2.5', 'line 1: "2.5" is not a whole number'),
    ('scale +2', 'line 1: "+2" is not a whole number'),
    ('scale 2147483648', 'line 1: 2147483648 does not fit 32 bits'),
    ('scale -2147483649', 'line 1: -2147483649 does not fit 32 bits'),
    ('scale', 'line 1: expected "scale NUMBER"'),
    ('scale 2 3', 'line 1: expected "scale NUMBER"'),
    ('scale 2\nscale 2', 'line 2: a second line "scale"'),
    ('scale 2\nstage', 'line 2: expected "stage NUMBER"'),
    ('scale 2\nstage 1', 'line 2: stage 1 is written where stage 0 is due'),
    ('scale 2\nstage 0\nstage 0', 'line 3: stage 0 is written where stage 1 is due'),
    ('scale 2\npost 0', 'line 2: a line "post" before the first line "stage"'),
    ('scale 2\nstage 0\npost', 'line 3: expected "post NUMBER"'),
    ('scale 2\nstage 0\npost 0\nstage 1\npost 0', 'line 5: post 0 is written where post 1 is due'),
    ('scale 2\nchoice 0 cost 1', 'line 2: a line "choice" before the first line "stage"'),
    ('scale 2\nstage 0\nchoice 0 cost 1', 'line 3: a line "choice" before the first line "post"'),
    ('scale 2\nstage 0\npost 0\nchoice 1 cost 1', 'line 4: choice 1 is written where choice 0 is due'),
    ('scale 2\nstage 0\npost 0\nchoice 0', 'line 4: expected "choice NUMBER cost NUMBER [marked]" or "choice NUMBER closed [marked]"'),
    ('scale 2\nstage 0\npost 0\nchoice 0 price 1', 'line 4: expected "choice NUMBER cost NUMBER [marked]" or "choice NUMBER closed [marked]"'),
    ('scale 2\nstage 0\npost 0\nchoice 0 cost', 'line 4: expected "choice NUMBER cost NUMBER [marked]" or "choice NUMBER closed [marked]"'),
    ('scale 2\nstage 0\npost 0\nchoice 0 closed 1', 'line 4: expected "choice NUMBER cost NUMBER [marked]" or "choice NUMBER closed [marked]"'),
    ('scale 2\nstage 0\npost 0\nchoice closed', 'line 4: expected "choice NUMBER cost NUMBER [marked]" or "choice NUMBER closed [marked]"'),
    ('scale 2\nstage 0\npost 0\nchoice 0 cost closed', 'line 4: "closed" is not a whole number'),
    ('scale 2\nstage 0\npost 0\nchoice 1 closed', 'line 4: choice 1 is written where choice 0 is due'),
    ('scale 2\nstage 0\nchoice 0 closed', 'line 3: a line "choice" before the first line "post"'),
    ('scale 2\nstage 0\npost 0\nchoice 0 cost x', 'line 4: "x" is not a whole number'),
    ('scale 2\nstage 0\npost 0\ndepot 0', 'line 4: expected "depot NUMBER cost NUMBER [marked]" or "depot NUMBER closed [marked]"'),
    ('scale 2\nstage 0\npost 0\ndepot 0 weight 1', 'line 4: expected "depot NUMBER cost NUMBER [marked]" or "depot NUMBER closed [marked]"'),
    ('scale 2\nstage 0\npost 0\ndepot 0 cost 1\ndepot 2 cost 1', 'line 5: depot 2 is written where depot 1 is due'),
    ('scale 2\nstage 0\npost 0\nchoice 0 cost 1\ndepot 0 closed', 'line 5: depot 0 is written where depot 1 is due'),
    ('scale 2\nstage 0\ndepot 0 cost 1', 'line 3: a line "depot" before the first line "post"'),
    ('scale 2\ndepot 0 closed', 'line 2: a line "depot" before the first line "stage"'),
    ('scale 2\nstage 0\npost 0\ndepot 0 cost 1\nstage 1\npost 1\ndepot 0 cost 1', 'line 4: a line "depot" before the last stage'),
    ('words 1\ndepot 0 cost 1', 'line 2: lines "words" stand in a book alone'),
    ('scale 2\nstage 0\npost 0\nnext 0 weight 2', 'line 4: a line "next" before the first line "choice"'),
    ('scale 2\nstage 0\nnext 0 weight 2', 'line 3: a line "next" before the first line "post"'),
    ('scale 2\nnext 0 weight 2', 'line 2: a line "next" before the first line "stage"'),
    ('scale 2\nstage 0\npost 0\nchoice 0 cost 1\nnext 0 2', 'line 5: expected "next NUMBER weight NUMBER"'),
    ('scale 2\nstop weight 2', 'line 2: a line "stop" before the first line "stage"'),
    ('scale 2\nstage 0\nstop weight 2', 'line 3: a line "stop" before the first line "post"'),
    ('scale 2\nstage 0\npost 0\nstop weight 2', 'line 4: a line "stop" before the first line "choice"'),
    ('scale 2\nstage 0\npost 0\nchoice 0 cost 1\npost 1\nstop weight 2\nstage 1', 'line 6: a line "stop" before the first line "choice"'),
    ('scale 2\nstage 0\npost 0\nchoice 0 cost 1\nstop 2', 'line 5: expected "stop weight NUMBER"'),
    ('scale 2\nstage 0\npost 0\nchoice 0 cost 1\nstop', 'line 5: expected "stop weight NUMBER"'),
    ('scale 2\nstage 0\npost 0\nchoice 0 cost 1\nstop weight two', 'line 5: "two" is not a whole number'),
    ('scale 2\nstage 0\npost 0\nchoice 0 cost 1\nstop weight 2\nstop weight 2', 'line 6: a second line "stop" in one choice'),
    ('scale 2\nstage 0\npost 0\nchoice 0 cost 1\nstop weight 2', 'line 5: a line "stop" at the last stage'),
    ('scale 2\nstage 0\npost 0\nchoice 0 cost 1\nstop weight 1\nstage 1', 'line 5: stop weight 1 is written where stop weight 2 is due'),
    ('scale 2\nstage 0\npost 0\nchoice 0 cost 1\nstop weight 0\nnext 0 weight 2\nstage 1',
     'line 5: a line "stop" where no part is missing: the weights add to 2, and the scale is 2'),
    ('scale 2\nstage 0\npost 0\nchoice 0 cost 1\nnext 0 weight 3\nstop weight -1\nstage 1',
     'line 6: a line "stop" where no part is missing: the weights add to 3, and the scale is 2'),
    ('stage 0\npost 0\nchoice 0 cost 1\nstop weight 9\nstage 1', 'line 5: the text ends without a line "scale"'),
    ('words 1\nstop weight 2', 'line 2: lines "words" stand in a book alone'),
    ('scale 2\nwords 1', 'line 2: lines "words" stand in a book alone'),
    ('words 1\nscale 2', 'line 2: lines "words" stand in a book alone'),
    ('words\nstage 0', 'line 2: lines "words" stand in a book alone'),
    ('words 1 x', 'line 1: "x" is not a whole number'),
    ('scale 2\nstage 0\npost 0\nchoice 0 marked', 'line 4: expected "choice NUMBER cost NUMBER [marked]" or "choice NUMBER closed [marked]"'),
    ('scale 2\nstage 0\npost 0\nchoice 0 cost marked', 'line 4: expected "choice NUMBER cost NUMBER [marked]" or "choice NUMBER closed [marked]"'),
    ('scale 2\nstage 0\npost 0\nchoice 0 cost 1 mark', 'line 4: expected "choice NUMBER cost NUMBER [marked]" or "choice NUMBER closed [marked]"'),
    ('scale 2\nstage 0\npost 0\nchoice 0 marked cost 1', 'line 4: expected "choice NUMBER cost NUMBER [marked]" or "choice NUMBER closed [marked]"'),
    ('scale 2\nstage 0\npost 0\nchoice 0 cost 1 marked marked', 'line 4: expected "choice NUMBER cost NUMBER [marked]" or "choice NUMBER closed [marked]"'),
    ('scale 2\nstage 0\npost 0\nchoice 0 cost marked marked', 'line 4: "marked" is not a whole number'),
    ('scale 2\nstage 0\npost 0\ndepot 0 closed 1 marked', 'line 4: expected "depot NUMBER cost NUMBER [marked]" or "depot NUMBER closed [marked]"'),
    ('scale 2\nstage 0\npost 0\nchoice 1 cost 1 marked', 'line 4: choice 1 is written where choice 0 is due'),
    ('scale 2\nstage 0\npost 0\nchoice 0 cost 1\nnext 0 weight 2 marked', 'line 5: expected "next NUMBER weight NUMBER"'),
    ('scale 2\nstage 0\npost 0 marked', 'line 3: expected "post NUMBER"'),
    ('words 1\nmarks 0 256', 'line 2: 256 does not fit a byte'),
    ('words 1\nmarks -1', 'line 2: -1 does not fit a byte'),
    ('words 1\nmarks one', 'line 2: "one" is not a whole number'),
    ('words 1\nmarks 2147483648', 'line 2: 2147483648 does not fit 32 bits'),
    ('marks 1\n', 'line 2: the text ends without a line "words"'),
    ('scale 2\nmarks 1', 'line 2: lines "marks" stand beside lines "words" alone'),
    ('marks 1\nscale 2', 'line 2: lines "marks" stand beside lines "words" alone'),
    ('words 1\nmarks 1\nscale 2', 'line 3: lines "words" stand in a book alone'),
]


class Messages(unittest.TestCase):
    def test_text(self):
        for text, reason in MESSAGES:
            with self.assertRaises(book.Refused, msg=text) as caught:
                book.words_of_text(text.encode())
            self.assertEqual(str(caught.exception), reason)

    def test_not_utf8(self):
        with self.assertRaises(book.Refused) as caught:
            book.words_of_text(b'scale 2\n# \xff\n')
        self.assertEqual(str(caught.exception), 'line 2: not UTF-8 text')

    def test_odd_length(self):
        with self.assertRaises(book.Refused) as caught:
            book.to_text(b'12345')
        self.assertEqual(str(caught.exception), 'the file has 5 bytes, which is not a multiple of 4')


class Document(unittest.TestCase):
    """The worked example of docs/FORMAT.md is the record, and its text the book."""

    def setUp(self):
        with open(os.path.join(HERE, '..', 'docs', 'FORMAT.md'), encoding='utf-8') as f:
            self.text = f.read()

    def test_table_of_bytes(self):
        found = b''
        for offset, digits, value in re.findall(r'^\| (\d+) \| `([0-9a-f ]+)` \| (\d+) \|', self.text, re.M):
            self.assertEqual(int(offset), len(found))
            part = bytes.fromhex(digits)
            self.assertEqual(int.from_bytes(part, 'little'), int(value))
            found += part
        self.assertEqual(found, ref.record(tours.book_a(), 3))

    def test_text_form(self):
        blocks = re.findall(r'```\n(.*?)```', self.text, re.S)
        self.assertEqual(book.words_of_text(blocks[0].encode()), tours.book_a())
        self.assertIn(blocks[1], book.text_of_words(CLOSED_BRIDGE))
        self.assertIn(blocks[2], book.text_of_words(REFUSED_PARCEL))
        self.assertIn(blocks[3], book.text_of_words(DEPOTS))
        with open(os.path.join(HERE, '..', 'examples', 'maintenance.txt'), encoding='utf-8') as f:
            self.assertIn(blocks[4], f.read())
        self.assertTrue(book.record_to_text(ref.record(tours.book_a(), 3)).endswith(blocks[5]))

    def test_pages(self):
        pages = [re.sub('^    ', '', part, flags=re.M) for part in re.findall(r'(?<=\n\n)(?:    .*\n)+(?=\n)', self.text)]
        opened = books.with_cost(CLOSED_BRIDGE, books.closures(CLOSED_BRIDGE), 3)
        for words, k in ((tours.book_a(), 3), (REFUSED_PARCEL, 4), (CLOSED_BRIDGE, 7), (opened, 7), (DEPOTS, 8)):
            self.assertIn(ref.page(k.to_bytes(4, 'little') + book.bytes_of_words(words)).decode(), pages)

    def test_words_of_examples(self):
        for name, words in (('refused_parcel', REFUSED_PARCEL), ('closed_bridge', CLOSED_BRIDGE), ('depots', DEPOTS)):
            row = re.search(r'`examples/%s.txt` has the words (.*?)\.' % name, self.text, re.S)[1]
            self.assertEqual([int(n) for n in re.findall(r'-?\d+', row)], words)

    def test_closed_bridge(self):
        """What is said of it beside the lists: the largest open cost, the bytes of the mark, and no plan once another choice is closed."""
        found = ref.Book(CLOSED_BRIDGE)
        largest = max(found.choices[post][c][0] for post, c in books.every_choice(found) if found.is_open(post, c))
        self.assertIn('compares 16 × 3 × %d = %d with' % (largest, 16 * 3 * largest), self.text)
        self.assertIn('the bytes `%s`' % book.bytes_of_words([ref.CLOSED]).hex(' '), self.text)
        shut = books.close(CLOSED_BRIDGE, [(0, 2)])
        self.assertEqual((ref.check(shut), ref.page(b'\4\0\0\0' + book.bytes_of_words(shut))), (0, b'refused 28\n'))
        self.assertIn('If choice 2 of post 0 is closed too, the book has no plan.', self.text)

    def figure(self, cell):
        """The number at the end of a cell, which the products and sums before it must give."""
        *before, last = cell.split(' = ')
        for sum_ in before:
            self.assertEqual(eval(sum_.replace('×', '*')), int(last))
        return int(last)

    def days(self, title, words, plans):
        """Each table of days in a section: all days of its plan, by weight and cost, and their sums."""
        section = re.search(r'^## %s\n(.*?)^## ' % title, self.text, re.M | re.S)[1]
        found = re.findall(r'### The plan ([\d ]+)\n(.*?)(?=\n##)', section, re.S)
        self.assertEqual([plan for plan, _ in found], plans)
        for plan, part in found:
            plan = tuple(int(c) for c in plan.split())
            *rows, total = re.findall(r'^\| (\w+) \| ([^|]*)\| ([^|]*) \| ([^|]*)\| (\d+) \|$', part, re.M)
            days = [(self.figure(weight), self.figure(cost)) for _, _, weight, cost, _ in rows]
            self.assertEqual([weight * cost for weight, cost in days], [int(row[4]) for row in rows])
            self.assertEqual(sorted(days), sorted(ref.days(ref.Book(words), plan)))
            whole = words[0] ** words[1]
            self.assertEqual((total[2], sum(weight for weight, _ in days)), ('%d = D^H' % whole, whole))
            self.assertEqual(int(total[4]), sum(weight * cost for weight, cost in days))
            self.assertEqual(ref.value(words, plan), (0, int(total[4])))

    def test_days(self):
        self.days('A book with stops', REFUSED_PARCEL, ['0 0 0', '0 1 255'])
        self.days('A book with closed choices', CLOSED_BRIDGE, ['2 255 1 0 0', '2 255 2 255 0'])
        self.days('A book with depots', DEPOTS, ['0 1 0', '0 0 0'])

    def test_book_c(self):
        row = re.search(r'Book C has the words (.*?)\. Its', self.text, re.S)[1]
        self.assertEqual([int(n) for n in re.findall(r'-?\d+', row)], tours.book_c())


class Command(unittest.TestCase):
    def run_tool(self, *args, data=b''):
        return subprocess.run([sys.executable, TOOL] + list(args), input=data, capture_output=True)

    def test_ways(self):
        with tempfile.TemporaryDirectory() as folder:
            path = os.path.join(folder, 'book.txt')
            with open(path, 'w') as f:
                f.write(BOOK_A)
            done = self.run_tool('to-binary', '--count', '3', path)
            self.assertEqual((done.returncode, done.stderr), (0, b''))
            self.assertEqual(done.stdout, b'\3\0\0\0' + book.bytes_of_words(tours.book_a()))
        back = self.run_tool('to-text', '-', data=done.stdout[4:])
        self.assertEqual(back.returncode, 0)
        self.assertEqual(self.run_tool('to-binary', '-', data=back.stdout).stdout, done.stdout[4:])
        marked = BOOK_A.replace('cost 12', 'cost 12 marked').encode()
        self.assertEqual(self.run_tool('to-binary', '-', data=marked).stdout, done.stdout[4:])
        marks = self.run_tool('to-marks', '-', data=marked)
        self.assertEqual((marks.returncode, marks.stdout, marks.stderr), (0, b'\0\1\0\0', b''))
        shown = self.run_tool('record-to-text', '-', data=ref.record(tours.book_a(), 3))
        self.assertEqual((shown.returncode, shown.stdout.decode()), (0, book.record_to_text(ref.record(tours.book_a(), 3))))

    def test_refusals(self):
        for command, data, message in (('to-binary', b'scale 2\nplace 0', b'-: line 2: unknown word "place"\n'),
                                       ('to-marks', b'words 1\nmarks 999', b'-: line 2: 999 does not fit a byte\n'),
                                       ('to-text', b'123', b'-: the file has 3 bytes, which is not a multiple of 4\n'),
                                       ('record-to-text', b'123', b'-: the file has 3 bytes, and a record begins with 12\n')):
            done = self.run_tool(command, '-', data=data)
            self.assertEqual((done.returncode, done.stdout, done.stderr), (1, b'', message))
        self.assertEqual(self.run_tool('to-text', 'no-such-file').returncode, 1)
        for count in ('-1', '4294967296', 'x'):
            self.assertEqual(self.run_tool('to-binary', '--count', count, '-').returncode, 2)


if __name__ == '__main__':
    unittest.main()
