#!/usr/bin/env python3
"""Tests of ./kbest with the programs in target/bin, which must be built; the first run with a tools/build.sh that is acted. Run: python3 tests/test_command.py"""

import contextlib
import decimal
import fcntl
import fractions
import math
import os
import pty
import random
import shutil
import signal
import stat
import subprocess
import sys
import tempfile
import threading
import time
import unittest

HERE = os.path.dirname(os.path.abspath(__file__))
ROOT = os.path.join(HERE, '..')
sys.path[:0] = [HERE, os.path.join(ROOT, 'tools'), os.path.join(ROOT, 'bindings', 'python')]

import book
import books
import cases
import kinds
import reference as ref
import rewards
import table
import tables
import tours
from kbest import QUESTIONS
from tables import BY_HAND
from test_book import CLOSED_BRIDGE, DEPOTS
from test_tables import BOOK_BY_HAND

KBEST = os.path.join(ROOT, 'kbest')
PYTHON = sys.executable, '-S'    # with the standard library alone
A, A_3 = book.text_of_words(tours.book_a()).encode(), ref.record(tours.book_a(), 3)
TABLE = table.text_of_words(BY_HAND).encode()
REWARDS = b'4 of 4, scale 4\n1 41 0 0 0 0 0\n2 18 0 0 1 0 0\n3 10 1 - 0 0 0\n4 -36 1 - 1 - 0\n'
OLD = b'as it was\n'
# two plans each: of cost 43 and 48 over 3; and of 1,400 and 1,401 over 100
THIRDS = [3, 1, 7, 1, 2, 2, 1, 1, 2, 0, 1, 1, 0, 0, 0, 10, 1, 1, 12, 3, 4, 9]
HUNDREDTHS = [100, 1, 7, 1, 2, 2, 1, 1, 1, 0, 2, 0, 1, 0, 0, 10, 100, 10, 99, 1, 4, 5]


def run(*words, data=b'', script=KBEST, **more):
    return subprocess.run([*PYTHON, script, *words], input=data, capture_output=True, timeout=120, **more)


def text(words):
    return book.text_of_words(words).encode()


def reason(number):
    return b'refused %d: %s\n' % (number, QUESTIONS[number].encode())


def reward_page(words, k):
    """The policies of a table by their own rewards, the largest first, and of equal ones by their choices."""
    found = rewards.Table(words)
    best = sorted((-rewards.expected_reward(found, policy), policy) for policy in rewards.policies(found))[:k]
    lines = ['%d of %d, scale %d' % (len(best), k, found.scale ** found.stages)]
    lines += ['%d %d %s' % (j + 1, -cost, ' '.join('-' if c == 255 else str(c) for c in policy)) for j, (cost, policy) in enumerate(best)]
    return ('\n'.join(lines) + '\n').encode()


def as_printed(plan):
    return ['-' if c == 255 else str(c) for c in plan]


def told(words, k, plan):
    """What is said of a plan of the book, by reference.py."""
    _, answer, value = ref.find(words, k, plan)
    if answer == 1:
        return b'Your plan is rank %d on the list.\n' % value
    found, scale = ref.Book(words), words[0] ** words[1]
    if answer == 2:
        amount = fractions.Fraction(value, scale)
        nearest = decimal.Decimal(math.floor(amount * 10 + fractions.Fraction(1, 2))) / 10
        said = ('1 second' if amount == 1 else '%d seconds' % amount if amount == int(amount) else '%.1f seconds' % nearest if amount == nearest
                else 'about %.1f seconds' % nearest if nearest else 'less than 0.1 seconds')
        exact = ' (%d/%d)' % (value, scale) if scale > 1 else ''
        return ('Your plan is not on the list: it costs %s more%s than the last plan listed, rank %d.\n' % (said, exact, k)).encode()
    name = 'depot' if found.stage[value] == found.stages else 'choice'
    return ('Your plan is not on the list: it costs the same as the last plan listed, rank %d, and at post %d, the first where they differ, '
            'it takes %s %d and that plan a lower one.\n' % (k, value, name, plan[value])).encode()


def marked_text(words, marks):
    """The text of a book, with its marks: `marked` after a choice or a depot, or lines of their own after plain words."""
    if book.taken_apart(words) is None:
        return text(words) + b'marks %s\n' % ' '.join(map(str, marks)).encode()
    left = iter(marks)
    return b''.join(line + b' marked' * (line.split()[:1] in ([b'choice'], [b'depot']) and next(left)) + b'\n' for line in text(words).splitlines())


def kept(words, k, marks, m):
    """What is said of a limit, by reference.py."""
    _, answer, rank = ref.limit(words, k, marks, m)
    over = 'a marked choice' if m == 0 else 'more than 1 marked choice' if m == 1 else 'more than %d marked choices' % m
    return ('', 'Rank %d is the first plan on the list none of whose days makes %s.\n' % (rank, over),
            'None in the list: %s has a day that makes %s. A plan that is not listed may have none.\n' % (
                'the plan listed' if k == 1 else 'each of the %d plans listed' % k, over),
            'None in the book: each of its plans has a day that makes %s.\n' % over)[answer].encode()


def accepted_books(count, shapes):
    """Random books that pass 1 to 13 and 28, each with a K that is allowed."""
    rng = random.Random('command')
    while count:
        words = books.draw(rng, rng.choice(shapes))
        if ref.least(words)[0] == 0:
            yield words, kinds.some_count(rng, len(ref.in_order(tuple(words))))
            count -= 1


class Folder(unittest.TestCase):
    """A test with a folder of its own, in which nothing may be left over."""

    def setUp(self):
        self.folder = tempfile.mkdtemp()
        self.addCleanup(shutil.rmtree, self.folder)

    def path(self, name):
        return os.path.join(self.folder, name)

    def file(self, name, content):
        with open(self.path(name), 'wb') as f:
            f.write(content)
        return self.path(name)

    def content(self, name):
        with open(self.path(name), 'rb') as f:
            return f.read()

    def expect(self, done, status, out, why=b''):
        self.assertEqual((done.returncode, done.stdout, done.stderr), (status, out, why))

    def expect_reason(self, done, status):
        """Nothing on standard output, and on standard error a reason that is no traceback."""
        self.assertEqual((done.returncode, done.stdout), (status, b''), done.stderr)
        self.assertTrue(done.stderr.endswith(b'\n'))
        self.assertNotIn(b'Traceback', done.stderr)


class Verbs(Folder):
    """Each verb, from a file and from standard input, to a file and to standard output."""

    def every_way(self, verb, content, more, result):
        source = self.file('source', content)
        self.expect(run(verb, source, *more), 0, result)
        self.expect(run(verb, '-', *more, data=content), 0, result)
        self.expect(run(verb, source, *more, '-o', '-'), 0, result)
        for words, data in (((verb, source, *more), b''), ((verb, '-', *more), content)):
            self.file('result', OLD)
            self.expect(run(*words, '-o', self.path('result'), data=data), 0, b'')
            self.assertEqual(self.content('result'), result)
        self.assertEqual(sorted(os.listdir(self.folder)), ['result', 'source'])

    def test_print(self):
        self.every_way('print', A, ['3'], tours.PAGE.encode())

    def test_file(self):
        self.every_way('file', A, ['3'], A_3)

    def test_page(self):
        self.every_way('page', A_3, [], tours.PAGE.encode())

    def test_rewards(self):
        self.every_way('rewards', TABLE, ['4'], REWARDS)

    def test_convert(self):
        self.every_way('convert', TABLE, [], text(BOOK_BY_HAND))

    def test_without_a_verb(self):
        source = self.file('book', A)
        self.expect(run(source, '3'), 0, tours.PAGE.encode())
        self.expect(run('-', '3', data=A), 0, tours.PAGE.encode())
        self.expect(run('-o', self.path('page'), source, '3'), 0, b'')
        self.assertEqual(self.content('page'), tours.PAGE.encode())

    def test_from_anywhere(self):
        """By its own name, from another folder, and through a link."""
        self.file('book', A)
        os.symlink(os.path.abspath(KBEST), self.path('link'))
        for command in (os.path.abspath(KBEST), './link'):
            done = subprocess.run([command, 'book', '3'], cwd=self.folder, capture_output=True)
            self.expect(done, 0, tours.PAGE.encode())

    def test_check(self):
        for content, forms in ((A, ([], ['--book'])), (A_3, ([], ['--record'])), (TABLE, (['--table'],))):
            source = self.file('source', content)
            for form in forms:
                self.expect(run('check', *form, source), 0, b'accepted\n')
                self.expect(run('check', *form, '-', data=content), 0, b'accepted\n')

    def test_check_takes_form(self):
        self.expect(run('check', '-'), 1, b'refused 19\n', reason(19))
        self.expect(run('check', '-', data=b'\0'), 1, b'refused 19\n', reason(19))
        self.expect(run('check', '--record', '-', data=A), 1, b'refused 19\n', reason(19))
        self.expect_reason(run('check', '--book', '-', data=A_3), 2)
        self.expect_reason(run('check', '--book', '-'), 2)
        self.expect_reason(run('check', '-', data=b'no book'), 2)
        self.expect_reason(run('check', '-', data=TABLE), 2)
        self.expect_reason(run('check', '--table', '-', data=A), 2)

    def test_examples(self):
        """The books of the folder examples, with the tours that they stand for."""
        for name, words in (('a.txt', tours.book_a()), ('c.txt', tours.book_c())):
            self.expect(run(os.path.join(ROOT, 'examples', name), '3'), 0, ref.page(b'\3\0\0\0' + book.bytes_of_words(words)))

    def test_refused_parcel(self):
        """The example with stops, as docs/FORMAT.md works it out; the same book from its text with the stops left out."""
        path = os.path.join(ROOT, 'examples', 'refused_parcel.txt')
        page = b'4 of 4, scale 16\n1 256 0 1 -\n2 277 0 0 0\n3 352 1 1 -\n4 380 1 0 0\n'
        self.expect(run(path, '4'), 0, page)
        with open(path, 'rb') as f:
            short = b''.join(line for line in f if not line.lstrip().startswith(b'stop'))
        self.expect(run('-', '4', data=short), 0, page)

    def test_closed_bridge(self):
        """The example with closed choices, the same text with the number of the mark, and with the bridge open; filed, and its page."""
        path = os.path.join(ROOT, 'examples', 'closed_bridge.txt')
        opened = books.with_cost(CLOSED_BRIDGE, books.closures(CLOSED_BRIDGE), 3)
        page, other = (ref.page(b'\7\0\0\0' + book.bytes_of_words(words)) for words in (CLOSED_BRIDGE, opened))
        self.assertNotEqual(page, other)
        self.expect(run(path, '7'), 0, page)
        with open(path, 'rb') as f:
            given = f.read()
        self.expect(run('-', '7', data=given.replace(b' closed ', b' cost 200000 ')), 0, page)
        self.expect(run('-', '7', data=given.replace(b' closed ', b' cost 3 ')), 0, other)
        self.expect(run('check', path), 0, b'accepted\n')
        self.expect(run('file', path, '7', '-o', self.path('record')), 0, b'')
        self.expect(run('page', self.path('record')), 0, page)

    def test_depots(self):
        """The example with depots, as docs/FORMAT.md works it out; the same text with the word choice; filed, and its page; and nine depots."""
        path = os.path.join(ROOT, 'examples', 'depots.txt')
        page = b'6 of 8, scale 4\n1 54 0 1 0\n2 54 0 1 1\n3 60 0 0 0\n4 60 0 0 1\n5 68 1 1 -\n6 76 1 0 -\n'
        self.assertEqual(page, ref.page(b'\10\0\0\0' + book.bytes_of_words(DEPOTS)))
        self.expect(run(path, '8'), 0, page)
        with open(path, 'rb') as f:
            given = f.read()
        self.expect(run('-', '8', data=given.replace(b' depot ', b' choice ')), 0, page)
        self.expect(run('check', path), 0, b'accepted\n')
        for plan, said in (('0 1 1', b'Your plan is rank 2 on the list.\n'), ('5 68 1 1 -', told(DEPOTS, 3, (1, 1, 255))), ('0 0 1', told(DEPOTS, 3, (0, 0, 1)))):
            self.expect(run('find', path, '3', *plan.split()), 0, said)
        self.expect(run('file', path, '8', '-o', self.path('record')), 0, b'')
        self.expect(run('page', self.path('record')), 0, page)
        nine = given + b''.join(b'depot %d cost 3\n' % c for c in range(2, 9))
        self.expect(run('-', '8', data=nine), 1, b'refused 8\n', reason(8))
        self.expect(run('-', '1', data=nine[:nine.rindex(b'depot')]), 0, b'1 of 1, scale 4\n1 54 0 1 0\n')

    def test_two_states(self):
        """The example of source document 001, whose answer is a12 with a reward of 10, or 100 over D^H = 10; and its list as a record."""
        path = os.path.join(ROOT, 'examples', 'two_states.txt')
        self.expect(run('rewards', path, '3'), 0, b'2 of 3, scale 10\n1 100 1 - 0\n2 50 0 0 0\n')
        self.expect(run('convert', path, '-o', self.path('book')), 0, b'')
        self.expect(run('file', self.path('book'), '3', '-o', self.path('record')), 0, b'')
        self.expect(run('page', self.path('record')), 0, b'2 of 3, scale 10\n1 -100 1 - 0\n2 -50 0 0 0\n')

    def test_help(self):
        for words in (['-h'], ['--help'], ['file', '-h']):
            done = run(*words)
            self.assertEqual((done.returncode, done.stderr), (0, b''))
            self.assertIn(b'usage: kbest', done.stdout)


class Find(Folder):
    """Where a plan stands, in the ways that a plan can be written."""

    FIRST, LAST = b'Your plan is rank 1 on the list.\n', b'Your plan is not on the list: it costs '

    def says(self, words, k, plan, said):
        self.expect(run('find', '-', str(k), *plan.split(), data=text(words)), 0, said)

    def test_ways(self):
        """From a file and from standard input; in words, in one word, in some; with the rank and the cost in front, which are not looked at."""
        source = self.file('source', A)
        for plan in (['1', '0', '-'], ['1 0 -'], [' 1\t0 -\n'], ['1', '0 -'], ['1', '32', '1', '0', '-'], ['1 32 1 0 -'], ['64', '-7', '1', '0', '-'],
                     ['2 999999999999999999999 1 0 -'], ['--', '1', '0', '-'], ['01', '00', '-']):
            with self.subTest(plan=plan):
                self.expect(run('find', source, '3', *plan), 0, self.FIRST)
                self.expect(run('find', '-', '3', *plan, data=A), 0, self.FIRST)
        self.assertEqual(os.listdir(self.folder), ['source'])

    def test_no_line(self):
        """What is no line of a page is taken as it stands, and then has two posts too many."""
        for plan in ('0 32 1 0 -', '65 32 1 0 -', '- 32 1 0 -', '1 - 1 0 -', '1 0 - 1 0 -', '2 1 0 -'):
            self.expect(run('find', '-', '3', *plan.split(), data=A), 1, b'refused 17\n', reason(17))

    def test_ranks(self):
        for k, plan, rank in ((1, '1 0 -', 1), (2, '0 0 0', 2), (64, '0 0 0', 2)):
            self.says(tours.book_a(), k, plan, b'Your plan is rank %d on the list.\n' % rank)

    def test_amounts(self):
        last = b' than the last plan listed, rank %d.\n'
        for words, k, plan, amount in ((tours.book_a(), 1, '0 0 0', b'0.5 seconds more (1/2)'), (tours.book_a(closing=10), 1, '0 0 0', b'1 second more (2/2)'),
                                       (tours.book_a(cost=-10), 1, '1 0 -', b'19.5 seconds more (39/2)'), (DEPOTS, 4, '1 0 -', b'4 seconds more (16/4)'),
                                       (tours.book_c(), 1, '0 0 - 0', b'1 second more'), (tours.book_c(), 2, '0 1 - 0', b'3 seconds more'),
                                       (THIRDS, 1, '1 0 -', b'about 1.7 seconds more (5/3)'), (HUNDREDTHS, 1, '1 0 0', b'less than 0.1 seconds more (1/100)')):
            self.says(words, k, plan, self.LAST + amount + last % k)

    def test_ties(self):
        same = self.LAST + b'the same as the last plan listed, rank %d, and at post %d, the first where they differ, it takes %s and that plan a lower one.\n'
        self.says(tours.book_a(closing=8), 1, '1 0 -', same % (1, 0, b'choice 1'))
        self.says(DEPOTS, 1, '0 1 1', same % (1, 2, b'depot 1'))
        self.says(DEPOTS, 3, '0 0 1', same % (3, 2, b'depot 1'))

    def test_random_books(self):
        rng, met = random.Random('find'), set()
        ties = [books.ties, books.stops_and_ties, books.closed_and_ties, books.depots_and_ties]
        for words, k in [*accepted_books(5, books.SHAPES), *accepted_books(5, books.WITH_CLOSED), *accepted_books(15, ties)]:
            listed = ref.in_order(tuple(words))
            k = rng.choice([k, kinds.count_at_tie(rng, listed)])
            for cost, plan in {listed[min(j, len(listed) - 1)] for j in (k - 1, k, rng.randrange(len(listed)))}:
                met.add(ref.find(words, k, plan)[1])
                line = [str(rng.randint(1, 64)), str(cost)] if rng.random() < 0.5 else []
                self.expect(run('find', '-', str(k), *line, *as_printed(plan), data=text(words)), 0, told(words, k, plan))
        self.assertEqual(met, {1, 2, 3})

    def test_refused(self):
        """17 of what is no plan, short and long, and the questions before it."""
        for plan in ([''], ['0', '0'], ['1', '0', '0'], ['2', '0', '0'], ['-', '-', '-'], ['254', '0', '0'], ['0'] * 300, ['0'] * 255):
            self.expect(run('find', '-', '3', *plan, data=A), 1, b'refused 17\n', reason(17))
        shut = books.close(tours.book_a(), [(1, 0)])
        for words, k, number in ((tours.book_a(scale=1), 3, 12), (tours.book_a(), 0, 14), (tours.book_a(), 65, 14), (shut, 3, 28), ([2, 1], 3, 1)):
            self.expect(run('find', '-', str(k), '0', '0', data=text(words)), 1, b'refused %d\n' % number, reason(number))

    def test_wrong_words(self):
        for word in ('x', '255', '256', '-1', '+1', '1.0', '--1', '9' * 5000, '\u0661', '0x1'):
            with self.subTest(word=word[:9]):
                self.expect_reason(run('find', '-', '3', '1', word, '-', data=A), 2)
                self.expect_reason(run('find', '-', '3', '1 %s -' % word, data=A), 2)


class Limit(Folder):
    """The first plan that keeps a limit, in a book with marks."""

    MARKS = 0, 1, 1, 0
    MARKED = marked_text(tours.book_a(), MARKS)

    def test_ways(self):
        """From a file and from standard input; M as a page would print it, and with zeros in front."""
        said = b'Rank 2 is the first plan on the list none of whose days makes more than 1 marked choice.\n'
        source = self.file('source', self.MARKED)
        for most in ('1', '01', '0' * 20 + '1'):
            self.expect(run('limit', source, '3', most), 0, said)
            self.expect(run('limit', '-', '3', most, data=self.MARKED), 0, said)
        self.assertEqual(os.listdir(self.folder), ['source'])

    def test_answers(self):
        one, two = b'more than 1 marked choice', b'more than 2 marked choices'
        for k, most, said in ((3, 2, b'Rank 1 is the first plan on the list none of whose days makes %s.\n' % two),
                              (1, 1, b'None in the list: the plan listed has a day that makes %s. A plan that is not listed may have none.\n' % one),
                              (3, 0, b'None in the book: each of its plans has a day that makes a marked choice.\n')):
            self.expect(run('limit', '-', str(k), str(most), data=self.MARKED), 0, said)
            self.assertEqual(kept(tours.book_a(), k, self.MARKS, most), said)

    def test_no_marks(self):
        """A text without marks marks no choice."""
        self.expect(run('limit', '-', '3', '0', data=A), 0, b'Rank 1 is the first plan on the list none of whose days makes a marked choice.\n')

    def test_random_books(self):
        rng, met = random.Random('limit'), set()
        for words, k in [*accepted_books(8, books.SHAPES), *accepted_books(5, books.WITH_CLOSED), *accepted_books(5, books.WITH_DEPOTS)]:
            marks = kinds.first_plan_marked(rng, words)
            for most in (0, 1, rng.randrange(10)):
                met.add(ref.limit(words, k, marks, most)[1])
                self.expect(run('limit', '-', str(k), str(most), data=marked_text(words, marks)), 0, kept(words, k, marks, most))
        self.assertEqual(met, {1, 2, 3})

    def test_refused(self):
        """29 of M and of marks in lines of their own, and the questions before it."""
        for most in ('10', '255'):
            self.expect(run('limit', '-', '3', most, data=self.MARKED), 1, b'refused 29\n', reason(29))
        plain = book.plain_words(tours.book_a()).encode()
        for marks in (b'0 1 1', b'0 1 1 0 0', b'0 2 1 0', b'0 ' * 70000):
            self.expect(run('limit', '-', '3', '1', data=plain + b'marks ' + marks + b'\n'), 1, b'refused 29\n', reason(29))
        shut = books.close(tours.book_a(), [(1, 0)])
        for words, k, number in ((tours.book_a(scale=1), 3, 12), (tours.book_a(), 0, 14), (tours.book_a(), 65, 14), (shut, 3, 28), ([2, 1], 3, 1)):
            self.expect(run('limit', '-', str(k), '10', data=text(words)), 1, b'refused %d\n' % number, reason(number))

    def test_wrong_limits(self):
        for most in ('x', '', '256', '-1', '+1', '1.0', '9' * 5000, '\u0661', '0x1'):
            with self.subTest(most=most[:9]):
                self.expect_reason(run('limit', '-', '3', most, data=A), 2)


class RoundTrips(Folder):
    """file, then page, is print; and all three are what reference.py gives."""

    def round_trip(self, words, k):
        given = k.to_bytes(4, 'little') + book.bytes_of_words(words)
        page, record = ref.page(given), ref.filed(given)
        self.expect(run('print', '-', str(k), data=text(words)), 0, page)
        self.expect(run('file', '-', str(k), '-o', self.path('record'), data=text(words)), 0, b'')
        self.assertEqual(self.content('record'), record)
        self.expect(run('page', self.path('record')), 0, page)
        self.expect(run('check', self.path('record')), 0, b'accepted\n')

    def refused(self, words, k, number):
        self.expect(run('print', '-', str(k), data=text(words)), 1, b'refused %d\n' % number, reason(number))
        self.expect(run('file', '-', str(k), '-o', self.path('none'), data=text(words)), 1, b'', reason(number))
        self.assertFalse(os.path.exists(self.path('none')))

    def checked(self, form, content, result):
        done = run('check', '--' + form, '-', data=content)
        self.expect(done, *((0, b'accepted\n') if result == 'accepted' else (1, b'refused %d\n' % result, reason(result))))

    def test_tours(self):
        """Every book of the tours with its K, or 3 where the tour has none."""
        lists = {(tuple(given[0]), given[1] if call in ('page', 'rank', 'write') else 3) for _, call, given, _ in tours.TABLE if call != 'accept'}
        for words, k in sorted(lists):
            with self.subTest(words=words, k=k):
                number = ref.check(list(words)) or ref.count_no(k)
                self.refused(list(words), k, number) if number else self.round_trip(list(words), k)

    def test_tours_checked(self):
        """The tours that check a book or a record, with the result that the document gives."""
        for tour, call, given, result in tours.TABLE:
            if call in ('check', 'accept'):
                with self.subTest(tour=tour):
                    self.checked(*(('book', text(given[0])) if call == 'check' else ('record', given[0])), result)

    def test_random_books(self):
        for words, k in [*accepted_books(8, books.SHAPES), *accepted_books(5, books.WITH_CLOSED), *accepted_books(5, books.WITH_DEPOTS)]:
            self.round_trip(words, k)

    def test_without_a_plan(self):
        """A book that has no plan: nothing is printed or filed, and a record that carries it is refused, whatever it lists."""
        rng = random.Random('no plan')
        found = [books.close(CLOSED_BRIDGE, [(0, 2)]), books.draw(rng, books.all_closed), cases.far_cost(44)]
        for words in found:
            self.assertEqual(ref.check(words), 0)
            self.refused(words, 3, 28)
            self.refused(words, 0, 14)
            self.checked('book', text(words), 28)
            self.checked('record', ref.record(words, 3), 28)
        self.checked('book', text(cases.far_cost(45)), 13)

    def test_random_tables(self):
        """The page of a table has the rewards of its own policies; the book has the costs."""
        rng, signs = random.Random('rewards'), set()
        for shape in tables.GOOD[:7] + [tables.unused]:
            words = tables.draw(rng, shape)
            k = kinds.some_count(rng, len(ref.in_order(tuple(rewards.book_of(words)))))
            given = table.text_of_words(words).encode()
            page = reward_page(words, k)
            self.expect(run('rewards', '-', str(k), data=given), 0, page)
            self.expect(run('convert', '-', '-o', self.path('book'), data=given), 0, b'')
            self.assertEqual(self.content('book'), text(rewards.book_of(words)))
            self.expect(run('print', self.path('book'), str(k)), 0, ref.page(k.to_bytes(4, 'little') + book.bytes_of_words(rewards.book_of(words))))
            self.expect(run('check', '--table', '-', data=given), 0, b'accepted\n')
            signs.update(line.split()[1][0] == '-' for line in page.decode().splitlines()[1:])
        self.assertEqual(signs, {True, False})

    def test_reward_of_0(self):
        """It has no sign."""
        words = tables.build(2, 1, 0, [[(0, [(0, 2)]), (3, [(0, 2)]), (-3, [(0, 2)])]], [0])
        self.expect(run('rewards', '-', '3', data=table.text_of_words(words).encode()), 0, b'3 of 3, scale 2\n1 6 1 0\n2 0 0 0\n3 -6 2 0\n')

    def test_rows(self):
        """Six next posts; seven, which have a text form too, get 9, and so does the record that was written for them while they were allowed."""
        six, seven = (cases.row_at(1, *cases.to_first(9, r)) for r in (6, 7))
        self.round_trip(six, 3)
        self.refused(seven, 3, 9)
        self.checked('book', text(seven), 9)
        self.checked('record', ref.record(seven, 3), 9)
        self.assertIn(b'is every r from 0 to 6,', reason(9))


class Refusals(Folder):
    """Status 1: the number on standard output, the question on standard error, and no file."""

    def books(self):
        """For each question from 1 to 13 a book of which it is the first that is answered no."""
        at, deep = books.Places(cases.SMALL), books.Places(cases.DEEP)
        found = {}
        for _, _, words in [*cases.size_limits(at), *cases.line_limits(at), *cases.word_limits(at, deep)]:
            found.setdefault(ref.check(words), words)
        return {number: words for number, words in found.items() if number}

    def each_verb(self, source, number, *verbs):
        self.file('kept', OLD)
        for verb, *more in verbs:
            ways = [[]] if verb in ('check', 'find', 'limit') else [[], ['-o', self.path('none')], ['-o', self.path('kept')]]
            for way in ways:
                self.expect(run(verb, source, *more, *way), 1, b'' if verb == 'file' else b'refused %d\n' % number, reason(number))
        self.assertEqual(self.content('kept'), OLD)
        self.assertEqual(sorted(os.listdir(self.folder)), ['kept', 'source'])

    def test_books(self):
        found = self.books()
        self.assertEqual(set(found), {*range(1, 14)})
        for number, words in found.items():
            with self.subTest(number=number):
                self.each_verb(self.file('source', text(words)), number, ('check',))
                self.expect(run('print', self.path('source'), '3'), 1, b'refused %d\n' % number, reason(number))

    def test_files(self):
        self.each_verb(self.file('source', text(tours.book_a(scale=1))), 12, ('print', '3'), ('file', '3'), ('find', '3', '1 0 -'), ('limit', '3', '1'))

    def test_counts(self):
        source = self.file('source', A)
        for count in ('0', '65', '4294967295'):
            self.expect(run('print', source, count), 1, b'refused 14\n', reason(14))
        self.each_verb(source, 14, ('file', '0'))

    def test_records(self):
        carried = kinds.head(tours.book_a(scale=1), 3, 2) + book.bytes_of_words(tours.book_a(scale=1))
        shut = ref.record(books.close(tours.book_a(), [(1, 0)]), 3)
        for number, record in ((19, A_3[:11]), (12, carried), (14, tours.record_of_a(65)), (20, tours.record_of_a(1)), (21, A_3[:-1] + b'\1'), (28, shut)):
            with self.subTest(number=number):
                self.assertEqual(ref.accept(record)[0], number)
                self.each_verb(self.file('source', record), number, ('page',) if number == 21 else ('check',))
                self.expect(run('page', self.path('source')), 1, b'refused %d\n' % number, reason(number))


    def test_tables(self):
        """Every number that converting can give, and of a count 14."""
        rng, found = random.Random('refusals'), {}
        for shape in tables.REFUSED + [tables.edge] * 9:
            words = shape(rng)
            found.setdefault(rewards.convert(words, [0] * rewards.LONGEST_MADE)[0], words)
        found[25], found[26] = BY_HAND[:-1], BY_HAND[:-1] + [100001]
        self.assertEqual(set(found), {0, 4, 6, 9, 11, 12, 13, 25, 26})
        for number in sorted({*found} - {0}):
            with self.subTest(number=number):
                self.file('source', table.text_of_words(found[number]).encode())
                for words in (['rewards', self.path('source'), '65'], ['convert', self.path('source')], ['check', '--table', self.path('source')]):
                    self.expect(run(*words), 1, b'refused %d\n' % number, reason(number))
        self.each_verb(self.path('source'), number, ('rewards', '3'), ('convert',))
        self.each_verb(self.file('source', TABLE), 14, ('rewards', '0'), ('rewards', '65'))


class Wrong(Folder):
    """Status 2: nothing on standard output, a reason on standard error, and no file."""

    def wrong(self, *words, data=A):
        self.expect_reason(run(*words, data=data), 2)

    def test_commands(self):
        for words in ([], ['-'], ['print', '-'], ['print'], ['file', '-'], ['page'], ['check'], ['page', '-', '3'], ['print', '-', '3', '4'],
                      ['unknown', '-', '3'], ['rewards', '-'], ['rewards', '-', '3', '4'], ['convert', '-', '3'], ['convert'],
                      ['find'], ['find', '-'], ['find', '-', '3'], ['find', '-', '3', '1 0 -', '-o', 'x'],
                      ['limit'], ['limit', '-'], ['limit', '-', '3'], ['limit', '-', '3', '1', '2'], ['limit', '-', '3', '1', '-o', 'x'],
                      ['check', '--book', '--table', '-'], ['check', '--page', '-'], ['check', '--book', '--record', '-'], ['check', '-', '-o', 'x'],
                      ['print', '-', '3', '-o'], ['-x', '-', '3']):
            with self.subTest(words=words):
                self.wrong(*words)

    def test_counts(self):
        self.wrong('find', '-', '-1', '1 0 -')
        for count in ('-1', '4294967296'):
            self.wrong('limit', '-', count, '1')
        for verb, count in (('print', '-1'), ('file', '-1'), ('rewards', '-1'), ('print', 'three'), ('print', '3.0'), ('print', ''), ('print', '+3'),
                            ('print', '4294967296'), ('file', '4294967296'), ('rewards', '4294967296'), ('print', '9' * 5000)):
            with self.subTest(verb=verb, count=count[:20]):
                self.wrong(verb, '-', count, '-o', self.path('none'))
        self.assertEqual(os.listdir(self.folder), [])

    def test_files(self):
        for path in (self.path('none'), self.folder, ''):
            for words in (['file', path, '3'], ['page', path], ['find', path, '3', '0'], ['limit', path, '3', '1'], ['rewards', path, '3'], ['convert', path],
                          ['check', path], [path, '3']):
                with self.subTest(words=words):
                    self.wrong(*words)

    def test_closed_input(self):
        for words in (['print', '-', '3'], ['page', '-'], ['find', '-', '3', '0'], ['limit', '-', '3', '1'], ['check', '-']):
            done = subprocess.run(['sh', '-c', 'exec "$@" <&-', 'sh', *PYTHON, KBEST, *words], capture_output=True)
            self.expect_reason(done, 2)

    def test_texts(self):
        for data in (b'', b'scale 2\nplace 0\n', b'scale 2\n\xff', A_3, b'scale ' + b'9' * 5000, A + b'stop weight 2\n'):
            self.wrong('find', '-', '3', '0', data=data)
            self.wrong('limit', '-', '3', '1', data=data)
            for verb in ('print', 'file'):
                with self.subTest(verb=verb, data=data[:20]):
                    self.wrong(verb, '-', '3', '-o', self.path('none'), data=data)
        self.assertEqual(os.listdir(self.folder), [])

    def test_texts_of_tables(self):
        for data in (b'', A, b'scale 2\n\xff', A_3, TABLE[:-1] + b'x', TABLE + b'words 1\n', TABLE[:TABLE.index(b'closing')]):
            for verb, *more in (('rewards', '3'), ('convert',)):
                with self.subTest(verb=verb, data=data[:20]):
                    self.wrong(verb, '-', *more, '-o', self.path('none'), data=data)
        self.assertEqual(os.listdir(self.folder), [])

    def test_line_is_named(self):
        self.assertIn(b'-: line 2: unknown word "place"', run('-', '3', data=b'scale 2\nplace 0\n').stderr)
        more = A.replace(b'choice 1 cost 12\n', b'choice 1 cost 12\nstop weight 1\n')
        self.assertIn(b'-: line 9: a line "stop" where no part is missing', run('-', '3', data=more).stderr)
        self.assertIn(b'-: line 7: unknown word "place"', run('rewards', '-', '3', data=TABLE.replace(b'next 0 weight 2', b'place 0', 1)).stderr)

    def test_record_to_terminal(self):
        """Only a file, or what is no terminal, can take a record."""
        for words in (['file', '-', '3'], ['file', '-', '3', '-o', '-'], ['file', '-', '3', '-o', '/dev/stdout']):
            out, status, _ = on_terminal(['stdout'], words, data=A)
            self.assertEqual((out, status), (b'', 2))
        out, status, why = on_terminal(['stdout'], ['file', '-', '3'], data=A)
        self.assertIn(b'-o', why)

    def test_result_over_source(self):
        for words, content in ((['print', self.path('source'), '3'], A), (['page', self.path('source')], A_3), (['convert', self.path('source')], TABLE)):
            self.file('source', content)
            self.wrong(*words, '-o', self.path('source'))
            self.assertEqual(self.content('source'), content)


def on_terminal(streams, words, data=b'', **more):
    """Runs the command with some of its streams on a terminal: (what the terminal shows, exit status, what goes to the other of output and error)."""
    master, slave = pty.openpty()
    places = {name: slave if name in streams else subprocess.PIPE for name in ('stdout', 'stderr')}
    with subprocess.Popen([*PYTHON, more.pop('script', KBEST), *words], stdin=subprocess.PIPE, **places, **more) as child:
        os.close(slave)
        child.stdin.write(data)
        child.stdin.close()
        shown = b''
        with contextlib.suppress(OSError):    # the end of a terminal that nobody has open
            while True:
                part = os.read(master, 4096)
                if not part:
                    break
                shown += part
        os.close(master)
        rest = b''.join(stream.read() for stream in (child.stdout, child.stderr) if stream)
    return shown, child.returncode, rest


class Unwritten(Folder):
    """Status 3: what cannot be written leaves no file behind, and one that was there as it was."""

    def unwritten(self, *words, **more):
        self.expect_reason(run('print', '-', '3', *words, data=A, **more), 3)

    def test_no_such_folder(self):
        self.unwritten('-o', self.path('none/page'))
        self.unwritten('-o', self.path('none/'))
        self.assertEqual(os.listdir(self.folder), [])

    def test_folder(self):
        os.mkdir(self.path('page'))
        self.unwritten('-o', self.path('page'))
        self.unwritten('-o', '')
        self.assertEqual((os.listdir(self.folder), os.listdir(self.path('page'))), (['page'], []))

    def test_no_file_can_be_made(self):
        """In /proc nobody can; in a folder without the permission everybody but root is refused."""
        self.unwritten('-o', '/proc/page')
        if os.getuid():
            self.file('page', OLD)
            os.chmod(self.folder, 0o555)
            try:
                self.unwritten('-o', self.path('page'))
                self.unwritten('-o', self.path('other'))
                self.assertEqual((os.listdir(self.folder), self.content('page')), (['page'], OLD))
            finally:
                os.chmod(self.folder, 0o755)

    def test_too_large(self):
        """The limit of a file's size stands for a full disk: a part is written, then no more."""
        self.file('page', OLD)
        limited = ['sh', '-c', 'trap "" XFSZ; ulimit -f 1; exec "$@"', 'sh', *PYTHON, '-B', KBEST]
        for name in ('page', 'other'):
            done = subprocess.run(limited + ['print', '-', '64', '-o', self.path(name)], input=text(cases.chain(8, 8, 8, 8)), capture_output=True)
            self.expect_reason(done, 3)
        self.assertEqual((os.listdir(self.folder), self.content('page')), (['page'], OLD))

    def test_devices(self):
        with open('/dev/full', 'wb') as full:
            for words in (['print', '-', '3'], ['print', '-', '0'], ['file', '-', '3'], ['find', '-', '3', '1 0 -'], ['find', '-', '3', '1'], ['check', '-'],
                          ['-h']):
                done = subprocess.run([*PYTHON, KBEST, *words], input=A, stdout=full, stderr=subprocess.PIPE)
                self.assertEqual(done.returncode, 3, words)
                self.assertIn(b'standard output', done.stderr)
        self.unwritten('-o', '/dev/full')
        self.assertTrue(stat.S_ISCHR(os.stat('/dev/full').st_mode))
        self.expect(run('print', '-', '3', '-o', '/dev/null', data=A), 0, b'')
        self.assertTrue(stat.S_ISCHR(os.stat('/dev/null').st_mode))

    def test_closed_pipe(self):
        reading, writing = os.pipe()
        os.close(reading)
        done = subprocess.run([*PYTHON, KBEST, '-', '3'], input=A, stdout=writing, stderr=subprocess.PIPE)
        os.close(writing)
        self.assertEqual((done.returncode, done.stderr.count(b'\n')), (3, 1))
        self.assertNotIn(b'Traceback', done.stderr)

    def test_closed_output(self):
        done = subprocess.run(['sh', '-c', 'exec "$@" >&-', 'sh', *PYTHON, KBEST, '-', '3'], input=A, stderr=subprocess.PIPE)
        self.assertEqual((done.returncode, done.stderr.count(b'\n')), (3, 1))

    def test_closed_error(self):
        """The status and the line are all there is."""
        done = subprocess.run(['sh', '-c', 'exec "$@" 2>&-', 'sh', *PYTHON, KBEST, '-', '0'], input=A, stdout=subprocess.PIPE)
        self.assertEqual((done.returncode, done.stdout), (1, b'refused 14\n'))


class Written(Folder):
    def test_permissions(self):
        for mask, mode in ((0o022, 0o644), (0o077, 0o600), (0o002, 0o664)):
            run('print', '-', '3', '-o', self.path('page'), data=A, preexec_fn=lambda: os.umask(mask))
            self.assertEqual(stat.S_IMODE(os.stat(self.path('page')).st_mode), mode)

    def test_link_stays(self):
        self.file('page', OLD)
        os.symlink('page', self.path('link'))
        self.expect(run('print', '-', '3', '-o', self.path('link'), data=A), 0, b'')
        self.assertTrue(os.path.islink(self.path('link')))
        self.assertEqual(self.content('page'), tours.PAGE.encode())

    def test_output_itself(self):
        """A result for /dev/stdout goes where standard output goes, after what is there."""
        with open(self.path('all'), 'wb') as f:
            f.write(OLD)
            f.flush()
            subprocess.run([*PYTHON, KBEST, '-', '3', '-o', '/dev/stdout'], input=A, stdout=f, check=True)
        self.assertEqual(self.content('all'), OLD + tours.PAGE.encode())


# ---- the first run, with an acted tools/build.sh

CRATES = '# a comment: not a crate\nlaws:\npage: laws io    # io is a library\nother: laws\n\nkbest: page io\nkbest_file: page io\nkbest_page: page io\n\
kbest_find: page io\nkbest_limit: page io\nkbest_table: laws io\n'
NEEDED = 'laws', 'page', 'kbest', 'kbest_file', 'kbest_page', 'kbest_find', 'kbest_limit', 'kbest_table'
PROGRAM = '#!/bin/sh\ncat >/dev/null\necho made\n'
BUILD = '''#!/bin/sh
cd "$(dirname "$0")/.."
echo "$*" >>calls
case $ACT in
wait) echo $$ >pid; sleep 60 & wait ;;
fail) echo "rt: laws proved (1 s)"; echo "rt: kbest proved, and its run FAILED (0 s)"; echo "why it failed" >&2; exit 1 ;;
edit) sleep 0.1; touch crates/laws/src/lib.rt ;;
empty) exit 0 ;;
slow) sleep 0.7 ;;
esac
mkdir -p target/bin target/stamp
for crate in %s; do
    echo "logic=proved what the prover says of $crate"
    if [ -e target/stamp/$crate ]; then
        echo "rt: $crate proved (unchanged since it was last proved)"
    else
        echo "rt: $crate proved (1 s)"
        echo >target/stamp/$crate
    fi
    case $crate in kbest*) [ -e target/bin/$crate ] || cp program target/bin/$crate ;; esac
done
echo "rt: kbest ran, and wrote what its file 'stdout' has (0 s)"
''' % ' '.join(NEEDED)


class FirstRun(Folder):
    """A copy of the command with a small repository around it, and a tools/build.sh that writes down its calls and makes programs that print `made`."""

    def setUp(self):
        super().setUp()
        for name in ('kbest', 'tools/book.py', 'tools/table.py', 'bindings/python/kbest.py'):
            os.makedirs(os.path.dirname(self.path(name)), exist_ok=True)
            shutil.copy(os.path.join(ROOT, name), self.path(name))
        for name in NEEDED + ('other',):
            os.makedirs(self.path('crates/%s/src' % name))
            self.file('crates/%s/src/lib.rt' % name, b'')
        self.file('crates.txt', CRATES.encode())
        self.program(PROGRAM)
        os.mkdir(self.path('tool'))
        for name, source in (('tool/rt', '#!/bin/sh\nexit 1\n'), ('tools/build.sh', BUILD)):
            self.file(name, source.encode())
            os.chmod(self.path(name), 0o755)

    def program(self, source):
        self.file('program', source.encode())
        os.chmod(self.path('program'), 0o755)

    def how(self, act=''):
        return {'script': self.path('kbest'), 'env': dict(os.environ, ACT=act, PATH=self.path('tool') + os.pathsep + os.environ['PATH'])}

    def made(self):
        self.expect(run('-', '3', data=A, **self.how()), 0, b'made\n')

    def calls(self):
        with open(self.path('calls')) as f:
            return f.read().splitlines()

    def later(self, name, seconds):
        """As if it were changed so many seconds from now."""
        then = time.time() + seconds
        os.utime(self.path(name), (then, then))

    def test_silent_and_once(self):
        self.made()
        self.made()
        self.assertEqual(self.calls(), ['kbest kbest_file kbest_page kbest_find kbest_limit kbest_table'])
        self.assertIn(b'logic=proved', self.content('target/kbest.log'))

    def test_each_program(self):
        for words, data in ((['print', '-', '3'], A), (['file', '-', '3'], A), (['page', '-'], A), (['rewards', '-', '3'], TABLE)):
            self.expect(run(*words, data=data, **self.how()), 0, b'made\n')
        self.expect_reason(run('find', '-', '3', '1 0 -', data=A, **self.how()), 3)    # which is no answer
        self.file('target/bin/kbest_find', b'#!/bin/sh\ncat >/dev/null\necho rank 7\n')
        self.expect(run('find', '-', '3', '1 0 -', data=A, **self.how()), 0, b'Your plan is rank 7 on the list.\n')
        self.expect_reason(run('limit', '-', '3', '1', data=A, **self.how()), 3)
        self.file('target/bin/kbest_limit', b'#!/bin/sh\ncat >/dev/null\necho none in the book\n')
        self.expect(run('limit', '-', '3', '0', data=A, **self.how()), 0, b'None in the book: each of its plans has a day that makes a marked choice.\n')

    def test_terminal(self):
        shown, status, out = on_terminal(['stderr'], ['-', '3'], data=A, **self.how())
        self.assertEqual((status, out), (0, b'made\n'))
        said = b'proving and building the programs (some minutes, once): '
        self.assertEqual(shown, b''.join(b'\r' + said + b'%d of 8 crates' % n for n in range(9)) + b'\r\n')
        self.assertEqual(on_terminal(['stderr'], ['-', '3'], data=A, **self.how()), (b'', 0, b'made\n'))

    def test_unchanged_crates_count(self):
        self.made()
        self.later('crates/page/src/lib.rt', -1)
        os.remove(self.path('target/kbest.stamp'))
        for name in NEEDED[2:]:
            self.later('target/bin/' + name, -60)
        shown, status, _ = on_terminal(['stderr'], ['-', '3'], data=A, **self.how())
        self.assertEqual(status, 0)
        self.assertIn(b'unchanged', self.content('target/kbest.log'))
        self.assertTrue(shown.endswith(b': 8 of 8 crates\r\n'))
        self.made()
        self.assertEqual(len(self.calls()), 2)

    def test_changes(self):
        """A file that the programs are made from is changed, or taken away; and one that they are not made from."""
        self.made()
        for name, again in (('crates/laws/src/lib.rt', True), ('crates.txt', True), ('crates/page/src', True), ('crates/other/src/lib.rt', False)):
            before = len(self.calls())
            self.later(name, 60)
            self.made()
            self.assertEqual(len(self.calls()) > before, again, name)
            self.later(name, -60)
        before = len(self.calls())
        os.remove(self.path('target/bin/kbest_page'))
        self.made()
        self.assertEqual(len(self.calls()), before + 1)
        self.assertTrue(os.path.exists(self.path('target/bin/kbest_page')))

    def test_change_while_proving(self):
        """It may have come too late, whatever the time of the programs."""
        self.expect(run('-', '3', data=A, **self.how('edit')), 0, b'made\n')
        self.made()
        self.assertEqual(len(self.calls()), 2)
        self.made()
        self.assertEqual(len(self.calls()), 2)

    def test_built_by_hand(self):
        self.made()
        os.remove(self.path('target/kbest.stamp'))
        self.made()
        self.assertEqual(len(self.calls()), 1)

    def test_wrong_book_first(self):
        """What is wrong with the command, the book or the plan is said before anything is built."""
        self.expect_reason(run('-', '3', data=b'no book', **self.how()), 2)
        self.expect_reason(run('find', '-', '3', '1 0 x', data=A, **self.how()), 2)
        self.assertFalse(os.path.exists(self.path('calls')))

    def test_fails(self):
        for act, why in (('fail', b'why it failed'), ('empty', b'target/bin/kbest_file')):
            done = run('-', '3', '-o', self.path('page'), data=A, **self.how(act))
            self.expect_reason(done, 3)
            self.assertIn(why, done.stderr)
            shown, status, out = on_terminal(['stderr'], ['-', '3'], data=A, **self.how(act))
            self.assertEqual((status, out), (3, b''))
            self.assertIn(why, shown)
            self.assertIn(b'%d of 8 crates\r\n' % (act == 'fail'), shown)
        self.assertFalse(os.path.exists(self.path('page')))
        self.made()

    def test_no_rt(self):
        os.symlink(sys.executable, self.path('tool/python3'))
        os.remove(self.path('tool/rt'))
        done = run('-', '3', data=A, script=self.path('kbest'), env={'PATH': self.path('tool')})
        self.expect_reason(done, 3)
        self.assertIn(b'rt is not found', done.stderr)

    def test_two_at_once(self):
        words = [*PYTHON, self.path('kbest'), 'print', self.file('book', A), '3']
        both = [subprocess.Popen(words, env=self.how('slow')['env'], stdout=subprocess.PIPE, stderr=subprocess.PIPE) for _ in range(2)]
        self.assertEqual([child.communicate() for child in both], [(b'made\n', b'')] * 2)
        self.assertEqual(len(self.calls()), 1)

    def test_waiting_is_said(self):
        os.mkdir(self.path('target'))
        with open(self.path('target/kbest.lock'), 'wb') as lock:
            fcntl.flock(lock, fcntl.LOCK_EX)
            timer = threading.Timer(0.7, lock.close)
            timer.start()
            shown, status, out = on_terminal(['stderr'], ['-', '3'], data=A, **self.how())
            timer.join()
        self.assertEqual((status, out), (0, b'made\n'))
        self.assertTrue(shown.startswith(b'waiting for another run'))

    def test_programs_that_fail(self):
        self.made()
        for source in ('exit 1\n', 'kill -9 $$\n', 'exit 0\n', 'echo made; exit 1\n', 'echo refused 77\n'):
            self.file('target/bin/kbest', b'#!/bin/sh\ncat >/dev/null\n' + source.encode())
            with self.subTest(source=source):
                self.expect_reason(run('-', '3', '-o', self.path('page'), data=A, **self.how()), 3)
                self.expect_reason(run('check', '-', data=A, **self.how()), 3)
        self.file('target/bin/kbest', b'no program')
        self.expect_reason(run('-', '3', data=A, **self.how()), 3)
        for words in (['rewards', '-', '3'], ['convert', '-']):    # the program for the list fails; what the program for tables writes is no book
            self.expect_reason(run(*words, '-o', self.path('page'), data=TABLE, **self.how()), 3)
        self.assertFalse(os.path.exists(self.path('page')))

    def interrupted(self, number, waits, words, act=''):
        """Sends a signal once a file is written: (exit status, what was said)."""
        with subprocess.Popen([*PYTHON, self.path('kbest'), *words], env=self.how(act)['env'], stdout=subprocess.PIPE, stderr=subprocess.PIPE,
                              cwd=self.folder, preexec_fn=lambda: signal.signal(number, signal.SIG_DFL)) as child:
            for _ in range(1000):
                if os.path.exists(waits) and os.path.getsize(waits):
                    break
                time.sleep(0.01)
            child.send_signal(number)
            out, why = child.communicate(timeout=30)
        return child.returncode, out, why

    def test_interrupted_while_proving(self):
        source = self.file('book', A)
        for number in (signal.SIGINT, signal.SIGTERM):
            found = self.interrupted(number, self.path('pid'), ['print', source, '3', '-o', self.path('page')], 'wait')
            self.assertEqual(found, (128 + number, b'', b''))
            self.assertFalse(os.path.exists(self.path('page')))
            with self.assertRaises(ProcessLookupError):    # rt has ended, too
                os.kill(int(self.content('pid')), 0)
            os.remove(self.path('pid'))
        self.made()

    def test_interrupted_while_running(self):
        self.made()
        self.file('target/bin/kbest', b'#!/bin/sh\necho >started\nexec sleep 60\n')
        source = self.file('book', A)
        found = self.interrupted(signal.SIGINT, self.path('started'), ['print', source, '3', '-o', self.path('page')])
        self.assertEqual(found, (130, b'', b''))
        self.assertFalse(os.path.exists(self.path('page')))


if __name__ == '__main__':
    unittest.main()
