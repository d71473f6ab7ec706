#!/usr/bin/env python3
"""The stored cases are those that cases.py makes, and every call has a case for each number that it can give, and is accepted with stops, with closed choices
and with depots; finding and limiting have cases for each of their answers, and going through all plans has some on both sides of its limit. Run:
python3 tests/test_cases.py"""

import os
import sys
import unittest

HERE = os.path.dirname(os.path.abspath(__file__))
sys.path[:0] = [HERE]

import books
import cases
import machine
import reference as ref

BOOK = range(14)    # 0, and the questions 1 to 13
NUMBERS = {'check': {*BOOK}, 'least': {*BOOK, 28}, 'value': {*BOOK, 17}, 'rank': {*BOOK, 14, 15, 16, 28}, 'write': {*BOOK, 14, 18, 28},
           'accept': {*BOOK, 14, 19, 20, 21, 28}, 'find': {*BOOK, 14, 17, 28}, 'limit': {*BOOK, 14, 28, 29},
           'rank_small': {*BOOK, 14, 15, 16, 28, 30}}
AT_DESK = {'open': NUMBERS['accept'], 'ask': {0, 22, 23, 24}, 'commit': {0, 22, 24}, 'cancel': {0, 22}}
OF_TABLES = {'convert': {0, 4, 6, 9, 11, 12, 13, 25, 26, 27}}    # the book of a table always passes 1 to 3, 5, 7, 8 and 10


class Stored(unittest.TestCase):
    @classmethod
    def setUpClass(cls):
        cls.cases = cases.stored()
        cls.of_case = [machine.transcript(case) for case in cls.cases]
        cls.transcripts = [line for transcript in cls.of_case for line in transcript]

    def test_files(self):
        folder = os.path.join(HERE, '..', 'crates', 'cases')
        with open(os.path.join(folder, 'stdin'), 'rb') as f:
            self.assertTrue(f.read() == machine.encoded(self.cases), 'run tests/cases.py')
        with open(os.path.join(folder, 'stdout')) as f:
            self.assertTrue(f.read() == ''.join(text for _, text in self.transcripts), 'run tests/cases.py')

    def test_numbers(self):
        wanted = {**NUMBERS, **AT_DESK, **OF_TABLES}
        found = {name: set() for name in wanted}
        for c, text in self.transcripts:
            if c.kind in wanted:
                found[c.kind].add(int(text.split()[1]))
        self.assertEqual(found, wanted)

    def accepted_with(self, has):
        """For each call, in how many cases it is accepted of a book that has something, and of a book that has not."""
        found = {(name, part): 0 for name in NUMBERS for part in (True, False)}
        for case, transcript in zip(self.cases, self.of_case):
            accepted = [words for words in machine.books_of(case) if ref.check(words) == 0]
            for name in {c.kind for c, text in transcript if c.kind in NUMBERS and int(text.split()[1]) == 0} if accepted else ():
                found[name, any(has(words) for words in accepted)] += 1
        return found

    def test_stops(self):
        """Each call is accepted in many cases of a book with stops, and in many of a book without."""
        found = self.accepted_with(books.stopping)
        self.assertGreater(min(found.values()), 30, found)

    def test_closed(self):
        """Each call is accepted in many cases of a book with closed choices, and in many of a book without."""
        found = self.accepted_with(books.closures)
        self.assertGreater(min(found.values()), 30, found)

    def test_depots(self):
        """Each call is accepted in many cases of a book with several depots at a post, and in many of a book without."""
        found = self.accepted_with(books.depots_at)
        self.assertGreater(min(found.values()), 30, found)

    def answers(self, kind, valued):
        """Each answer of a call stands in many cases of a book with stops, closed choices or depots, and in many of a book without; a refusal has none. A figure
        goes with the answers that `valued` has."""
        every = books.stopping, books.closures, books.depots_at
        found = {(has.__name__, part, answer): 0 for has in every for part in (True, False) for answer in (1, 2, 3)}
        for case, transcript in zip(self.cases, self.of_case):
            rows = [[int(x) for x in text.split()[1:]] for c, text in transcript if c.kind == kind]
            for no, answer, value in rows:
                self.assertTrue(answer in (1, 2, 3) and (value == 0 or answer in valued) if no == 0 else (answer, value) == (0, 0), case.title)
            for answer in {row[1] for row in rows} - {0}:
                words, = machine.books_of(case)
                for has in every:
                    found[has.__name__, bool(has(words)), answer] += 1
        self.assertGreater(min(found.values()), 10, found)

    def test_answers(self):
        self.answers('find', {1, 2, 3})
        self.answers('limit', {1})

    def test_small(self):
        """Books of 4,095, 4,096 and 4,097 plans are ranked by going through them in several cases each. The main engine, called after each such call, prints the
        same exactly where no book of the case has more than 4,096."""
        found = {total: 0 for total in (4095, 4096, 4097)}
        for case, transcript in zip(self.cases, self.of_case):
            calls = [text[1:] for c, text in transcript if c.kind in ('rank_small', 'rank')]
            if any(c.kind == 'rank_small' for c, _ in transcript) and not case.vast:
                accepted = [words for words in machine.books_of(case) if ref.check(words) == 0]
                total = max((books.count_plans(words, 4097) for words in accepted), default=0)
                if total in found:
                    found[total] += 1
                self.assertEqual(calls[::2] == calls[1::2], total <= 4096, case.title)
        self.assertGreater(min(found.values()), 6, found)

    def test_ranks(self):
        """Limiting gives many ranks, the first and the last of a list of 64 among them."""
        rows = [[int(x) for x in text.split()[1:]] for c, text in self.transcripts if c.kind == 'limit']
        ranks = {rank for _, answer, rank in rows if answer == 1}
        self.assertLessEqual({*range(1, 13)}, ranks)
        self.assertGreater(max(ranks), 40)

    def test_eight_and_nine(self):
        """At posts that are reached and that are not every call accepts 1 to 8 depots, and gives 8 for 9."""
        for n, number in ((1, 0), (2, 0), (8, 0), (9, 8)):
            for where in ('', ' at the last post', ' at the first last post', ' at a post that no plan reaches'):
                self.gives('question 8: %d depots%s' % (n, where), number)

    def test_no_plan(self):
        """In many cases a book has no plan. Then a call that lists, or looks in a list, gives 28 or 14 whatever the slices are, the least cost 28, and
        valuing 17."""
        numbers, cases_of = {name: set() for name in NUMBERS}, 0
        for case, transcript in zip(self.cases, self.of_case):
            accepted = [words for words in machine.books_of(case) if ref.check(words) == 0]
            if not case.vast and accepted and all(books.closures(words) and ref.plan_no(words) for words in accepted):
                cases_of += 1
                for c, text in transcript:
                    if c.kind in NUMBERS:
                        numbers[c.kind].add(int(text.split()[1]))
        self.assertEqual(numbers, {'check': {0}, 'least': {28}, 'value': {17}, 'rank': {14, 28}, 'write': {14, 28}, 'accept': {14, 19, 28},
                                   'find': {14, 28}, 'limit': {14, 28}, 'rank_small': {14, 28}})
        self.assertGreater(cases_of, 25)

    def test_rows(self):
        """At each of four stages every call accepts a row of 6 next posts, and gives 9 for one of 7."""
        for n in range(4):
            for r, number in ((6, 0), (7, 9)):
                self.gives('question 9: %d next posts at stage %d of 4' % (r, n), number)

    def gives(self, title, number):
        """In the cases of this title every call is accepted at least once, or gets the number and no other."""
        found = {name: set() for name in NUMBERS}
        for c, text in [line for case, lines in zip(self.cases, self.of_case) if case.title.endswith(' ' + title) for line in lines]:
            if c.kind in NUMBERS:
                found[c.kind].add(int(text.split()[1]))
        for name, numbers in found.items():
            self.assertTrue(numbers == {number} if number else 0 in numbers, (title, name, numbers))


if __name__ == '__main__':
    unittest.main()
