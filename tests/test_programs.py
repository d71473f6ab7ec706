#!/usr/bin/env python3
"""The stored input and output of the six programs are those that programs.py makes, and reference.py gives one page for a book and for its record. Run:
python3 tests/test_programs.py"""

import collections
import os
import random
import sys
import unittest

HERE = os.path.dirname(os.path.abspath(__file__))
sys.path[:0] = [HERE]

import kinds
import programs
import reference as ref
import rewards
import search
import tours

REFUSED = b'refused '


class Stored(unittest.TestCase):
    @classmethod
    def setUpClass(cls):
        cls.stored = programs.stored()

    def test_files(self):
        for name, parts in self.stored.items():
            for part, content in zip(('stdin', 'stdout'), parts):
                with open(os.path.join(HERE, '..', 'crates', name, part), 'rb') as f:
                    self.assertTrue(f.read() == content, 'run tests/programs.py store')

    def test_lengths(self):
        """One byte more than is read, or as much as is read, and what is one word or one byte shorter is accepted: the stored input finds the bounds."""
        self.assertEqual({name: len(data) for name, (data, _) in self.stored.items()}, {'kbest': 16697, 'kbest_file': 16697, 'kbest_page': 21309,
                                                                                             'kbest_find': 16953, 'kbest_limit': 82235,
                                                                                             'kbest_table': 16473})
        with search.instead_of_enumeration():
            for name, short in (('kbest', 16692), ('kbest_file', 16692), ('kbest_page', 21308), ('kbest_table', 16468)):
                data, out = self.stored[name]
                self.assertTrue(out.startswith(REFUSED))
                self.assertFalse(programs.PROGRAMS[name][0](data[:short]).startswith(REFUSED))
            data, out = self.stored['kbest_find']
            self.assertEqual((out, programs.plan_line(data[:16948])), (b'refused 7\n', b'refused 17\n'))
            data, out = self.stored['kbest_limit']
            self.assertEqual((out, programs.limit_line(data[:82230])), (b'refused 7\n', b'refused 29\n'))


class ByHand(unittest.TestCase):
    def test_places(self):
        """Where the plans of A stand, as docs/FORMAT.md works it out; with the book's bytes from the record that it shows."""
        record = ref.record(tours.book_a(), 3)
        self.assertEqual(programs.plan_line(b'\3\0\0\0' + b'\1\0\0\0' + record[12:100]), b'more 1\n')
        for closing, k, plan, line in ((9, 1, (1, 0, 255), b'rank 1\n'), (9, 3, (1, 0, 255), b'rank 1\n'), (9, 3, (0, 0, 0), b'rank 2\n'),
                                       (9, 1, (0, 0, 255), b'refused 17\n'), (8, 1, (0, 0, 0), b'rank 1\n'), (8, 1, (1, 0, 255), b'post 0\n')):
            book = programs.book_bytes(tours.book_a(closing=closing))
            self.assertEqual(programs.plan_line(programs.with_plan(plan, k.to_bytes(4, 'little') + book)), line)

    def test_limits(self):
        """Which plan of A keeps a limit, as docs/FORMAT.md works it out; with the book's bytes from the record that it shows."""
        book = ref.record(tours.book_a(), 3)[12:100]
        self.assertEqual(programs.limit_line(b'\1\4\0\0\1\1\0' + b'\3\0\0\0' + book), b'rank 2\n')
        for marks, m, k, line in (((0, 1, 1, 0), 2, 3, b'rank 1\n'), ((0, 1, 1, 0), 1, 1, b'none in the list\n'), ((0, 1, 1, 0), 0, 3, b'none in the book\n'),
                                  ((0, 1, 1, 0), 0, 2, b'none in the list\n'), ((0, 0, 0, 1), 0, 3, b'rank 1\n'), ((0, 1, 1), 1, 3, b'refused 29\n'),
                                  ((0, 1, 2, 0), 1, 3, b'refused 29\n'), ((0, 1, 1, 0), 10, 3, b'refused 29\n'), ((0, 1, 1, 0), 10, 0, b'refused 14\n')):
            self.assertEqual(programs.limit_line(programs.with_limit(m, marks, k.to_bytes(4, 'little') + book)), line)


class Same(unittest.TestCase):
    def test_page_of_record(self):
        """The record of an input has the same page; a refused input has the same number."""
        rng, accepted = random.Random('same'), 0
        for _ in range(200):
            data = kinds.page_input(rng)
            page, record = ref.page(data), ref.filed(data)
            if page.startswith(REFUSED):
                self.assertEqual(record, page)
            else:
                accepted += 1
                self.assertEqual(ref.record_page(record), page)
        self.assertGreater(accepted, 50)

    def test_tour_1(self):
        self.assertEqual(ref.record_page(ref.record(tours.book_a(), 3)).decode(), tours.PAGE)

    def test_numbers(self):
        """The random inputs find every number that a program can give, and an answer that is no refusal."""
        book = {*range(1, 15), 28}
        for draw, answer, numbers in ((kinds.page_input, ref.page, book), (kinds.record_input, ref.record_page, book | {19, 20, 21}),
                                      (kinds.find_input, programs.plan_line, book | {17}), (kinds.limit_input, programs.limit_line, book | {29}),
                                      (kinds.table_input, rewards.table_book, {4, 6, 9, 11, 12, 13, 25, 26})):
            rng = random.Random('numbers')
            found = {answer(draw(rng)) for _ in range(1200)}
            self.assertEqual({int(out.split()[1]) for out in found if out.startswith(REFUSED)}, numbers)
            self.assertTrue(any(not out.startswith(REFUSED) for out in found))

    def test_answers(self):
        """Random input meets each answer often: of where a plan stands, and of which plan keeps a limit."""
        for draw, answer, texts in ((kinds.find_input, programs.plan_line, {b'refused', b'rank', b'more', b'post'}),
                                    (kinds.limit_input, programs.limit_line, {b'refused', b'rank', b'none in the list', b'none in the book'})):
            rng, met = random.Random('answers'), collections.Counter()
            met.update(answer(draw(rng)).rstrip(b' 0123456789\n') for _ in range(400))
            self.assertEqual(set(met), texts)
            self.assertGreater(min(met.values()), 30, met)


if __name__ == '__main__':
    unittest.main()
